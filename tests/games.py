"""Games of tests/events.py and tests/seats.py: texts of docs/EVENTS.md that are written as they are played on the second
program's machine, and compared with what a proved player prints of them.
"""
import subprocess
import sys
from pathlib import Path

from reference import told
from reference.texts import LAST, Turned


class Game:
    """Calls that are played, one after the other, and the expected lines."""

    def __init__(self, title, player):
        self.player, self.given, self.wanted = player, [f"example {title}"], []

    def ask(self, call):
        """The answer to a call."""
        return self.note(call, self.player.play(call))

    def note(self, call, answer):
        self.given.append(call)
        self.wanted.append(f"{call} : {answer}")
        return answer

    def ask_each(self, call, turns):
        """The same for a call that is repeated."""
        if turns:
            self.given.append(f"repeat {turns} {call}")
            calls = (Turned(call).text(turn) for turn in range(turns))
            self.wanted += [f"{one} : {self.player.play(one)}" for one in calls]

    def text(self):
        return text_of(self.given)


def text_of(lines):
    return "".join(line + "\n" for line in lines)


def summary(examples):
    """The last line that a player prints of a text without answers."""
    return f"-: {examples} examples, 0 answers"


def line_text(machine, line):
    """A line by its address; by its number, if there is no such address."""
    address = 8 * line * machine.o.line_words
    return f"{address:#x}" if address <= LAST else str(line)


def event_text(machine, event):
    name, *of = event
    if name in ("EvictCache", "EvictBank"):
        return f"evict {'core' if name == 'EvictCache' else 'bank'} {of[0]} {line_text(machine, of[1])}"
    return told.Teller(machine).event(event)


def opening_text(name, options, memory=()):
    """A line that opens a machine with all its options, and words with their values."""
    named = (f"{key.replace('_', '-')} {value}" for key, value in vars(options).items() if key != "private_write")
    words = (f"{8 * word:#x} {value}" for word, value in memory)
    return " ".join([name, *named, "private-write", "yes" if options.private_write else "no",
                     *(["with"] * bool(memory)), *words])


def is_played(program, name, games):
    """Whether the player prints the expected text of these games; the script prints the first line that differs."""
    text, wanted = "".join(game.text() for game in games), [line for game in games for line in game.wanted]
    wanted.append(summary(len(games)))
    ran = subprocess.run([program], input=text, capture_output=True, text=True)
    got = ran.stdout.splitlines()
    if ran.returncode == 0 and got == wanted:
        return True
    both = enumerate(zip(wanted, got))
    at = next((at for at, (one, other) in both if one != other), min(len(wanted), len(got)))
    print(f"{name} ({games[0].given[1]}), status {ran.returncode}, line {at} of what is printed:")
    print(f"wanted {wanted[at:at + 1]}\ngot    {got[at:at + 1]}\n{ran.stderr}")
    return False
