#!/usr/bin/env python3
"""Plays random events on random machines, and compares each answer and what can be seen of the machine with the second
program's: tests/events.py PROGRAM [--machines N] [--events N] [--driven N] [--listed N] [--seed N].

PROGRAM is the built crate play_events. Each machine is an example as a text (docs/EVENTS.md). The machines have few
words, and every limit of theirs is small or at its end: sets, ways, messages, leases, times. Some are driven by
programs, by rounds and by seeds, and some are given lists of events, in place of single ones. What a machine remembers
is asked for now and then, and at its end. Configurations at the ends of their ranges, and beyond, come first.
"""
import argparse
import random
import re
import sys
from collections import Counter
from pathlib import Path
from types import SimpleNamespace

sys.path.insert(0, str(Path(__file__).resolve().parent.parent))
from reference import told  # noqa: E402
from reference.calls import OPTIONS  # noqa: E402
from reference.machine_texts import MachinePlayer  # noqa: E402
from reference.schedules import ADVANCE  # noqa: E402
from tests.games import Game, event_text, is_played, opening_text  # noqa: E402


LAST = 2 ** 64 - 1
NOBODY = 2 ** 32 - 1  # a core or a bank that isn't there
LINE_WORDS = (1, 8)
ASKED = 60  # after so many events, or runs, what the machine remembers is asked for; and at the end


def options_of(generator):
    """A machine's options: few of everything, and now and then a limit's end."""
    def few(*usual, seldom=None):
        return seldom if seldom is not None and generator.random() < 0.03 else generator.choice(usual)

    return SimpleNamespace(cores=few(1, 2, 2, 3, 4, seldom=64), banks=few(1, 1, 2, 3, seldom=8), sets=few(1, 1, 2, 3),
                           ways=few(1, 2, seldom=16), bank_sets=few(1, 1, 2), bank_ways=few(1, 2, 3),
                           line_words=few(1, 1, 8), lease=few(1, 2, 10, seldom=2 ** 32),
                           messages=few(2, 3, 4, 65536, 65536, seldom=1), private_write=few(0, 1),
                           time=few(0, 0, 0, 0, 5, LAST - 100, seldom=LAST))


class Picker:
    """A game on a machine of the second program, and what the test picks for it."""

    def __init__(self, title, generator):
        self.random, self.o, self.game = generator, options_of(generator), Game(title, MachinePlayer())
        self.words = generator.choice([1, 2, 3, 9]) * (4 if self.o.line_words == 8 else 1)
        self.lines = (self.words - 1) // self.o.line_words + 1
        self.game.ask(opening_text("machine", self.o))

    @property
    def machine(self):
        return self.game.player.machine

    def event(self):
        """An event: mostly one that can do something, now and then one that can't."""
        pick, core = self.random.random(), self.random.randrange(min(self.o.cores, 4))
        flight, of = list(self.machine.flight), self.machine.cores[core]
        if pick < 0.02:
            return self.odd()
        if flight and (pick < 0.35 or of.out and pick < 0.75):
            return "Deliver", self.random.choice(flight)
        if pick < 0.80:
            return ("Attempt", core) if of.op else ("Issue", core, self.operation())
        if pick < 0.90:
            copies = self.machine.copies(core)
            return ("EvictCache", core, self.random.choice(copies)) if copies else ("Attempt", core)
        bank = self.random.randrange(self.o.banks)
        lines = sorted(e.line for entries in self.machine.bank_sets[bank].values() for e in entries)
        return ("EvictBank", bank, self.random.choice(lines)) if pick < 0.97 and lines else ("Advance", core)

    def odd(self):
        """An event on what isn't there, or may not be."""
        core, bank = self.random.choice([0, self.o.cores - 1]), self.random.choice([0, self.o.banks - 1])
        line = self.random.choice([0, 1, self.lines, LAST])
        return self.random.choice([("EvictCache", core, line), ("EvictBank", bank, line), ("Attempt", core),
                                   ("Deliver", self.random.choice([self.machine.sent, LAST])), ("Advance", core),
                                   ("Issue", core, self.operation())])

    def operation(self):
        kind = self.random.choice(["load", "load", "store", "swap"])
        word = self.random.randrange(self.words)
        return kind, word, None if kind == "load" else self.random.choice([1, 2, 3, LAST, 0])

    def look(self):
        self.game.ask(f"state {self.words}")

    def make_event(self):
        """An event, and a look at all that can be seen then; what was answered, and how many events were made."""
        answer = self.game.ask(event_text(self.machine, self.event()))
        self.look()
        return [answer], 1

    def make_list(self):
        """The same of a list of events."""
        calls, answers = [], []
        for _ in range(self.random.choice([1, 2, 5, 16])):
            calls.append(event_text(self.machine, self.event()))
            answers.append(self.game.player.play(calls[-1]))
        self.game.note("run " + "; ".join(calls), "; ".join(answers))
        self.look()
        return answers, len(calls)

    def make_drive(self):
        """The same of a run by random programs; its end, and how many events were made. Programs stay, so those that
        cores had before are given anew, also if they have no steps."""
        seed = self.random.choice([None, None, self.random.randrange(2 ** 64), LAST])
        limit = self.random.choice([0, 1, 2, 5, 10, 30, 100, 300])
        steps = [(self.random.randrange(self.o.cores), ADVANCE if self.random.random() < 0.1 else self.operation())
                 for _ in range(self.random.choice([0, 1, 2, 5, 12, 12]))]
        for core in sorted({core for core, _ in steps} | set(self.game.player.programs)):
            own = "; ".join(told.step(step) for of, step in steps if of == core)
            self.game.ask(f"program {core} {own}".rstrip())
        how = self.random.choice(["rounds", "fair-rounds"]) if seed is None else f"seed {seed}"
        answer = self.game.ask(f"{how} {limit}")
        for count in (1, 10, 10000, 1):
            self.game.ask(f"made {count}")
        self.game.ask("counts")
        self.look()
        end, count = re.fullmatch("(.*), (.*) events", answer).groups()
        return [end], int(count)

    def ask(self):
        """What the machine remembers, and what it has, also of what isn't there."""
        game = self.game
        for call in ("records", "stale", "check", "arranged", "flight", "order", "shape", f"copies {NOBODY}"):
            game.ask(call)
        game.ask_each("record 0+@", len(self.machine.records) + 1)
        for core in [*range(self.o.cores), NOBODY]:
            for look in ("issued", "open", "free", "time"):
                game.ask(f"{look} {core}")
        for bank in [*range(self.o.banks), NOBODY]:
            game.ask(f"entries {bank}")
            game.ask_each(f"dram {bank} 0+@", self.lines)


def played(title, generator, events, make):
    """A game, what was answered to its events, and how many were made.

    A machine that has stopped is given three more events. One that is driven is given runs, one for 20 events, until it
    has stopped; one that is given lists, a list for 5 events.
    """
    picker, answers, tried, made = Picker(title, generator), [], 0, 0
    most, after = {"event": (events, 3), "drive": (events // 20, 0), "list": (events // 5, 3)}[make]
    while made < most and (after or not picker.machine.stopped):
        after -= picker.machine.stopped
        more, count = getattr(picker, f"make_{make}")()
        answers, tried, made = answers + more, tried + count, made + 1
        if made % ASKED == 0:
            picker.ask()
    picker.ask()
    return picker.game, answers, tried


def configurations():
    """A machine for each end of each option's range, which remembers nothing, and one beyond it, which is refused."""
    usual = {name: 1 for name in OPTIONS} | {"time": 0, "private-write": 0}
    ranged = {name: ends for name, (_, *ends) in OPTIONS.items() if name not in ("line-words", "time", "private-write")}
    good = [(name, end) for name, ends in ranged.items() for end in ends] + [("time", LAST)]
    good += [("line-words", number) for number in LINE_WORDS]
    bad = [(name, number) for name, (_, last) in ranged.items() for number in (0, last + 1)]
    bad += [(name, NOBODY) for name in ranged if name != "lease"] + [("lease", LAST)]
    bad += [("line-words", number) for number in (0, 2, 7, 9, NOBODY)]
    for name, number in [*good, *bad]:
        game = Game(f"{name} {number}", MachinePlayer())
        opened = game.ask(opening_text("machine", SimpleNamespace(**{
            option.replace("-", "_"): value for option, value in (usual | {name: number}).items()})))
        assert opened == ("opened" if (name, number) in good else "refused BadConfig")
        for call in ("shape", "records", "issued 0", f"issued {NOBODY}", "state 9"):
            game.ask(call)
        yield game


def name_of(answer):
    """An answer's name, for the count."""
    return " ".join(re.split("[;,]", answer)[0].split()[:2 if answer.startswith("refused") else 1])


def games_of(words):
    """Each game with how its events are made, what was answered, and how many were made."""
    generator = random.Random(words.seed)
    for make, count in (("event", words.machines), ("drive", words.driven), ("list", words.listed)):
        for number in range(count):
            yield make, *played(f"{make} {number}", generator, words.events, make)


def main():
    parser = argparse.ArgumentParser()
    parser.add_argument("--machines", type=int, default=400)
    parser.add_argument("--events", type=int, default=250)
    parser.add_argument("--driven", type=int, default=100)
    parser.add_argument("--listed", type=int, default=20)
    parser.add_argument("--seed", type=int, default=1)
    parser.add_argument("PROGRAM")
    words = parser.parse_args()
    ends = list(configurations())
    if not is_played(words.PROGRAM, "configurations", ends):
        return 1
    tried, answers = Counter(), Counter()
    for make, game, came, count in games_of(words):
        if not is_played(words.PROGRAM, game.given[0], [game]):
            return 1
        answers.update(map(name_of, came))
        tried[make] += count
    print(", ".join(f"{answer}: {number}" for answer, number in answers.most_common()))
    print(f"{tried['event']} events on {words.machines} machines, {tried['drive']} events of runs on {words.driven} "
          f"others, and {tried['list']} in lists on {words.listed}, no difference")
    return 0


if __name__ == "__main__":
    sys.exit(main())
