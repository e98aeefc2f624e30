#!/usr/bin/env python3
"""Finds the first seed of each end of a litmus test, and prints the command that makes that run again.

    tools/witness.py [--seeds N] [--seed FIRST] [--command WORDS] [options of the program] TEST

The script runs N seeds, 1,000 if it isn't given, from FIRST on, or from 0. It lists the ends in the order in which
they first occurred, each with how many runs had it; a star marks those in which the condition's expression holds. A
run that isn't all done has no end state: its row is limit, exhausted or memory. WORDS precede the options in the
commands, and are `./tardis litmus` if they aren't given. The program is what TARDIS names, else the one that ./tardis
built, else reference/oracle.py. The status is 0 if the seeds were run, and 2 if not; then standard error says why in
one line.
"""
import argparse
import shlex
import sys
from pathlib import Path

sys.path.insert(0, str(Path(__file__).resolve().parent.parent))
from reference.calls import OPTIONS  # noqa: E402
from reference.given import NUMBERS, tool  # noqa: E402
from tools import program  # noqa: E402
from tools.program import TOP, Refused, fail  # noqa: E402


MOST = 1_000_000  # runs of one report
GREATEST = 2 ** 64 - 1
# The least and the greatest number of an option.
RANGES = {name: (least, greatest) for name, (_, least, greatest) in OPTIONS.items()}
RANGES |= {"seeds": (1, GREATEST), "seed": (0, GREATEST), "limit": (1, 2 ** 32 - 1), "workers": (1, 16)}
NO_STATES = ("stalled", "limit", "exhausted", "memory")


def no_runs(_):
    raise argparse.ArgumentTypeError("each seed is one run; --seeds says how many")


def add_options(parser):
    """Those of the runs, and of the commands that make them again."""
    parser.add_argument("--seeds", type=program.number(*RANGES["seeds"]), default=1000, metavar="N",
                        help="how many seeds are run (1000)")
    parser.add_argument("--runs", type=no_runs, help=argparse.SUPPRESS)
    here = "./tardis" if Path("tardis").exists() else shlex.quote(str(TOP / "tardis"))
    parser.add_argument("--command", default=f"{here} litmus", metavar="WORDS",
                        help="what stands in front of the options in the commands (./tardis litmus)")
    parser.add_argument("--private-write", action="store_true")
    for option in (*NUMBERS, "workers"):
        parser.add_argument("--" + option, type=program.number(*RANGES[option]),
                            **({"metavar": "FIRST", "help": "the first seed (0)"} if option == "seed" else {}))


def words():
    parser = argparse.ArgumentParser(allow_abbrev=False, description=__doc__.split("\n")[0],
                                     epilog="The other options are the program's (docs/TEXTS.md).")
    add_options(parser)
    parser.add_argument("TEST")
    parser.error = lambda said: fail(f"{said} (--help tells all)")
    return parser


def passed_on(options):
    """The program's own options, as they were given."""
    given = [(name, getattr(options, name.replace("-", "_"))) for name in (*NUMBERS, "workers") if name != "seed"]
    found = [word for name, value in given if value is not None for word in ("--" + name, str(value))]
    return found + ["--private-write"] * options.private_write


def report(test, words):
    """The ends of a report on a test, with how many runs had each; and its lines by their names."""
    try:
        lines = program.run("litmus", *words).splitlines()
    except Refused as refused:
        said = str(refused)
        fail(said if said.startswith(test) else f"{test}: {said}")
    told = dict(line.split(" ", 1) for line in lines if not line[0].isdigit())
    ends = {line.split(" ", 1)[1]: int(line.split()[0]) for line in lines if line[0].isdigit()}
    ends.update((end, int(told[end])) for end in NO_STATES if told[end] != "0")
    return ends, told


class Seeds:
    """Reports of ranges of seeds, and what was found in them."""

    def __init__(self, options):
        self.test = f"./{options.TEST}" if options.TEST.startswith("-") else options.TEST
        self.options, self.first = passed_on(options), options.seed or 0
        self.name, self.counts = None, {}  # how many runs have each end
        self.found = {}                    # by end the first seed, and whether the expression holds

    def seed(self, start):
        return (self.first + start) % 2 ** 64

    def command(self, start, runs):
        """The words of a range's report, from the options on; `start` counts from the first seed."""
        return ["--schedule", "seed", "--seed", str(self.seed(start)), *(["--runs", str(runs)] if runs > 1 else []),
                *self.options, self.test]

    def report(self, start, runs):
        """The ends of a range, with how many runs had each; and in how many the expression holds."""
        ends, told = report(self.test, self.command(start, runs))
        self.name = told["test"]
        return ends, int(told["held"])

    def look(self, start, runs, ends, held):
        """Finds the first seeds of the range's ends that aren't found yet; `ends` and `held` are its report's."""
        if runs == 1:
            self.found.update((end, (start, held > 0)) for end in ends if end not in self.found)
        elif not ends.keys() <= self.found.keys():
            half = runs // 2
            self.look(start, half, *self.report(start, half))
            if not ends.keys() <= self.found.keys():
                self.look(start + half, runs - half, *self.report(start + half, runs - half))

    def look_through(self, runs):
        for start in range(0, runs, MOST):
            part = min(MOST, runs - start)
            ends, held = self.report(start, part)
            for end, count in ends.items():
                self.counts[end] = self.counts.get(end, 0) + count
            self.look(start, part, ends, held)


def told(seeds, runs, command):
    yield f"{seeds.name}: {runs} seeds from {seeds.first}, {len(seeds.found)} ends"
    for end, (start, holds) in sorted(seeds.found.items(), key=lambda found: found[1]):
        yield f"{'*' if holds else ' '} {end}: {seeds.counts[end]} of {runs}, first by seed {seeds.seed(start)}"
        yield f"    {command} {shlex.join(seeds.command(start, 1))}"


def main(given):
    options = words().parse_args(given)
    program.text_of(options.TEST)
    seeds = Seeds(options)
    seeds.look_through(options.seeds)
    print("\n".join(told(seeds, options.seeds, options.command)))


if __name__ == "__main__":
    tool(main)
