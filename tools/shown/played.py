"""A run as the player of events makes and shows it (docs/EVENTS.md). What the machine does isn't worked out here.

The player is asked three times. First it drives the machine and lists the events. Then it makes these events one by
one, and looks at the machine after each. Last it looks at the bank's entry and at DRAM for the line of each event.
"""
import shlex
import subprocess
import sys
from pathlib import Path
from types import SimpleNamespace

from reference import order, told
from reference.given import NUMBERS, Bad, bad_configuration
from reference.schedules import ADVANCE
from reference.traces import read_records


MOST_EVENTS = 5000
TOP = Path(__file__).resolve().parent.parent.parent
PLAY = TOP / "play"
# The rule of ./play, at the folder $1.
IS_BUILT = 'top=$1; . "$top/maintain/program.sh"; is_built play_events'
SECOND = "the second program's machine"


def say_second(name, made_by, options, did="counted"):
    """Says on standard error that the second program's player did it, unless it was asked for, or is the only one: a
    copy of reference/ and tools/ has no other."""
    if made_by == SECOND and not options.player and PLAY.exists():
        print(f"{name}: {SECOND} {did}, since ./play isn't built from these sources. This builds it, in many "
              "minutes: ./play crates/play_events/data/pages.events", file=sys.stderr)


class Player:
    """Plays calls by a command that reads texts of events. Each call is answered."""

    def __init__(self, command):
        self.command = command

    def ask(self, calls):
        text = "".join(f"{line}\n" for line in ["example a run", *calls])
        try:
            ran = subprocess.run([*self.command, "-"], input=text.encode(), stdout=subprocess.PIPE, check=False)
        except OSError as error:
            raise Bad(f"{self.command[0]}: {error.strerror}") from None
        lines = ran.stdout.decode().splitlines()
        if ran.returncode or len(lines) != len(calls) + 1:
            said = "".join(f": {line}" for line in lines[:1])
            raise Bad(f"the player failed, with status {ran.returncode}{said} (--player reference/play.py needs no kit)")
        for call, line in zip(calls, lines):
            if not line.startswith(f"{call} : "):
                raise Bad(f"{self.command[0]} doesn't play texts of events: it answers `{line[:80]}` to `{call[:80]}`")
        return [line[len(call) + 3:] for call, line in zip(calls, lines)]


class Played:
    """A run: its `end`, its `records`, the numbers of them in the order of times (`arranged`), those that are stale
    hits, and `steps`, the events. A step has the call, its answer, its line and the `view` after it; `opening` is the
    first view. `notes` has comments on steps, by their numbers.

    A view says what there is, by name: as `core 0`, `copy 0 0x8`, `bank 0`, `entry 0x8`, `dram 0x8`, `m3`.
    """

    def __init__(self, player, subject, options):
        self.player, self.subject, self.options = player, subject, options
        self.notes = getattr(subject, "notes", {})
        self.machine = machine_call(options, subject.cores, subject.memory)
        self.programs = self.drive()
        self.step_by_step()

    def drive(self):
        """The programs, by core the list of steps. What a thread of a test stores may be what it received before, so
        they are played again with the values that came, until these are the ones that were stored. No schedule looks
        at a value, so that the events are the same."""
        programs, played = None, []
        while True:
            steps = [list(steps_of(program, received)) for program, received in self.threads(played)]
            if steps == programs:
                return programs
            programs = steps
            played = self.once(programs)

    def threads(self, records):
        """Each core's program as it begins, and what its operations received."""
        for core, program in enumerate(self.subject.programs()):
            yield program, [record.received for record in records if record.core == core]

    def once(self, programs):
        total = sum(step != ADVANCE for steps in programs for step in steps)
        calls = [self.machine, *(f"program {core} {'; '.join(map(told.step, steps))}".rstrip()
                                 for core, steps in enumerate(programs)), drive_call(self.options)]
        asked = [f"made {MOST_EVENTS}", "shape", "arranged", "stale", "check", *(f"record {n}" for n in range(total))]
        answers = self.player.ask(calls + asked)
        if answers[0] != "opened":
            raise Bad(bad_configuration(self.options))
        self.end, count = answers[len(calls) - 1].removesuffix(" events").split(", ")
        made, _, arranged, stale, self.verdict, *records = answers[len(calls):]
        if int(count) > MOST_EVENTS:
            raise Bad(f"the run has {int(count):,} events, and a page shows {MOST_EVENTS:,} at most: "
                      "shorten the test, or set a smaller --limit")
        self.events = [] if made == "end" else made.split("; ")
        self.records = read_records("".join(f"{one}\n" for one in records if one != "none").encode())
        self.arranged = [] if arranged == "none" else list(map(int, arranged.split(" ")))
        self.stale = order.stale_loads(self.records)
        assert len(self.stale) == int(stale), "another count of stale hits"
        return self.records

    # One event after the other.
    def lines(self):
        """The lines of the words, by the addresses of their first words."""
        size = self.options.line_words
        return [f"{8 * line * size:#x}" for line in sorted({word // size for word in self.subject.names})]

    def bank_looks(self, line):
        bank = int(line, 16) // 8 // self.options.line_words % self.options.banks
        return [f"entry {bank} {line}", f"dram {bank} {line}"]

    def step_by_step(self):
        opening = [look for line in self.lines() for look in self.bank_looks(line)]
        asked = [call for event in self.events for call in (event, "state 0")]
        answers = self.player.ask([self.machine, "state 0", *opening, *asked])[1:]
        view = view_of(answers[0]) | self.looked(self.lines(), answers[1:])
        made = answers[1 + len(opening):]
        self.opening = view
        self.steps = [SimpleNamespace(call=event, answer=answer, view=view_of(state))
                      for event, answer, state in zip(self.events, made[::2], made[1::2])]
        for step in self.steps:
            step.line, view = self.line_of(step.call, view), step.view
        self.look_at_banks()

    def line_of(self, call, view):
        """The line that an event is about, by what was there before; none of an advance."""
        words = call.split(" ")
        if words[0] == "issue":
            return self.address(words[3])
        if words[0] == "attempt":
            return self.address(view[f"core {words[1]}"].split(" open ")[1].split(" ")[1])
        if words[0] == "deliver":
            return view[words[1]].split(" ")[6]
        return self.line_named(words[3]) if words[0] == "evict" else None

    def line_named(self, name):
        """A line by the address of one of its words, or by its number."""
        return self.address(name if name.startswith("0x") else f"{8 * self.options.line_words * int(name):#x}")

    def address(self, word):
        return f"{8 * self.options.line_words * (int(word, 16) // 8 // self.options.line_words):#x}"

    def looked(self, lines, answers):
        return {f"{what} {line}": answer for line, pair in zip(lines, zip(answers[::2], answers[1::2]))
                for what, answer in zip(("entry", "dram"), pair)}

    def look_at_banks(self):
        """An event changes the entry and the DRAM of its own line alone; at the end all lines are looked at."""
        asked = [call for step in self.steps
                 for call in (step.call, *(self.bank_looks(step.line) if step.line else []))]
        last = [look for line in self.lines() for look in self.bank_looks(line)]
        answers = iter(self.player.ask([self.machine, *asked, *last])[1:])
        banks = {name: seen for name, seen in self.opening.items() if name.startswith(("entry", "dram"))}
        for step in self.steps:
            assert next(answers) == step.answer, "another answer in another turn"
            if step.line:
                banks = banks | self.looked([step.line], [next(answers), next(answers)])
            step.view |= banks
        assert banks == self.looked(self.lines(), list(answers)), "another line changed"


def machine_call(options, cores, memory):
    """The line that opens the machine of the options, with `cores` cores and this memory."""
    named = [("cores", cores)] + [(name, getattr(options, name.replace("-", "_"))) for name in NUMBERS]
    if not all(0 <= value < 2 ** 64 for _, value in named):
        raise Bad(bad_configuration(options))
    words = [f"{name} {value}" for name, value in named if name not in ("seed", "limit")]
    words += ["private-write yes"] * options.private_write
    opening = [f"{8 * word:#x} {value}" for word, value in memory.items() if value]
    return " ".join(["machine", *words, *(["with", *opening] if opening else [])])


def drive_call(options):
    """The line that drives it."""
    how = f"seed {options.seed}" if options.schedule == "seed" else "fair-rounds" if options.fair else "rounds"
    return f"{how} {options.limit}"


def steps_of(program, received):
    """A program's steps, where its operations received these values in turn; a missing one is taken as 0."""
    values = iter(received)
    while (step := program.next()) is not None:
        yield step
        program.done(None if step == ADVANCE else next(values, 0))


def view_of(state):
    """What the answer to `state 0` says, by name."""
    view, holder = {}, None
    for part in state.split("; "):
        words = part.split(" ")
        if words[0] in ("core", "bank"):
            holder = words[1]
            view[" ".join(words[:2])] = " ".join(words[2:])
        elif words[0] == "copy":
            view[f"copy {holder} {words[1]}"] = " ".join(words[2:])
        elif words[0] not in ("words", "owners"):
            view[words[0]] = " ".join(words[1:])
    return view


def player_name(command):
    """How the page names a player that was named; whether it was proved isn't known."""
    name = Path(command[0]).name
    return SECOND if name == "play.py" else " ".join([name, *command[1:]])


def player_of(options):
    """The command of the player, and how the page names it."""
    if options.player is not None:
        try:
            command = shlex.split(options.player)
        except ValueError as cause:
            raise Bad(f"--player {options.player}: {cause}") from None
        if not command:
            raise Bad("--player: a command is wanted")
        return command, player_name(command)
    if PLAY.exists() and subprocess.run(["sh", "-c", IS_BUILT, "sh", TOP], check=False).returncode == 0:
        return [str(PLAY)], "the proved machine"
    return [str(TOP / "reference/play.py")], SECOND
