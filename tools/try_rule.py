#!/usr/bin/env python3
"""Tries a rule: plays short random traces on the machine of this folder, and shrinks the first wrong history.

    tools/try_rule.py [--tries N] [--first N] [--stuck] [--found FILE] [TEST|TRACE ..]

The script makes N tries, 10,000 if it isn't given, from number 0 on, or from --first. Each draws a trace of a few
operations and advances, a machine with small caches, and a schedule; its number alone decides what is drawn. If files
are named, the script plays their programs in place of drawn ones. It looks for records that aren't legal, two owners
of a line, a message that the machine can't take, and a round that makes no progress; a seeded run that reaches its
limit goes on by rounds. Then the script cuts the trace as far as one of 120 runs still shows the fault, and prints it
with its records and the command that prints its run event by event, with the turn of the fault marked. Last it explores
that machine (tools/explore.py) for a shortest list of events with a fault, in which the last event is marked. --found
FILE writes that list to FILE, too: tools/page.py FILE >run.html makes a page of it.

A machine has places for one message more than cores, or for more. With fewer it may be stuck by the rules as they are
(docs/EXPLORING.md), and old recalls may fill it; --stuck draws fewer, too, and tells of runs that end so. If nothing is
found, the script says how many different machines it tried, and how many rows of docs/PROTOCOL.md's tables it met.

Change a rule in a copy of reference/ and tools/ (docs/CHANGING-A-RULE.md). The status is 0 if nothing was found, 1 if
something was, and 2 for a bad file or word, which standard error names in one line.
"""
import argparse
import re
import shlex
import sys
from itertools import dropwhile, product
from os.path import relpath
from pathlib import Path
from types import SimpleNamespace

sys.path.insert(0, str(Path(__file__).resolve().parent.parent))
from reference import machine  # noqa: E402
from reference.given import NUMBERS, tool  # noqa: E402
from reference.litmus import Test  # noqa: E402
from reference.order import check  # noqa: E402
from reference.reports import drive  # noqa: E402
from reference.schedules import ADVANCE, Pcg32, Run, by_rounds  # noqa: E402
from reference.traces import LETTERS, Fault, Steps, Trace, record_line  # noqa: E402
from tools.explored.frozen import Elsewhere, Unread  # noqa: E402
from tools.explored.local import failure  # noqa: E402
from tools.explored.parts import Parts  # noqa: E402
from tools.explored.reports import Report  # noqa: E402
from tools.explored.rows import ROWS, Rows  # noqa: E402
from tools.explored.search import Search  # noqa: E402
from tools.explored.whole import Whole  # noqa: E402

OWNING = ("ExRep", "UpgradeRep", "FlushRep", "WbRep")
DEFAULTS = {name.replace("-", "_"): usual for name, (usual, _) in NUMBERS.items()}
FAILURES = (AssertionError, AttributeError, IndexError, KeyError, TypeError)
ROUNDS, TURNS, RUNS = 300, 500, 60
STATES, WHOLE_STATES = 60000, 2000  # the most states that are explored for a shortest list of events
LETTER_OF = {kind: letter.decode() for letter, kind in LETTERS.items()}


class Broken(Exception):
    """What can't be, of a run."""

    def __init__(self, run, what):
        super().__init__(what)
        self.run = run


class Watched(Run):
    """A run whose events are watched: at most one right to a line, and no message that can't be taken. `rows` notes the
    rows of tables that all runs met."""

    rows = Rows()

    def make(self, *event):
        row, sent = self.rows.look(self.machine, event, event[1]), self.machine.sent
        try:
            answer = super().make(*event)
        except FAILURES as error:
            raise Broken(self, f"the machine fails at {self.machine.about(event)} ({failure(error, machine)})") from error
        new = [self.machine.flight[number].kind for number in range(sent, self.machine.sent)]
        self.rows.met(row, answer, new, None)
        if event[0] == "Deliver":
            for line in self.lines_owned_twice():
                raise Broken(self, f"two owners of line {line}")
        return answer

    def lines_owned_twice(self):
        machine = self.machine
        owned = [copy.line for core in machine.cores for copies in core.sets.values() for copy in copies
                 if copy.state == "Exclusive"]
        owned += [message.line for message in machine.flight.values() if message.kind in OWNING]
        return {line for line in owned if owned.count(line) > 1}


class Trial:
    """Programs, a machine's options and a schedule. `steps` are those of a trace; a test has its own programs. `told`
    has the answers that the replay prints, in their order."""

    def __init__(self, steps, options, test=None):
        self.steps, self.options, self.test, self.told = steps, options, test, []

    def fault(self):
        """What can't be, in words, or None; and the records."""
        programs = self.test.programs() if self.test else [Steps(steps) for steps in self.steps]
        memory = self.test.memory if self.test else {}
        after, self.told = "", []
        try:
            run, end = drive(self.options, programs, memory, self.options.seed, self.tell, kind=Watched)
            verdict = check(memory, run.issued(), run.machine.records)
            if verdict == "legal" and end == "limit" and self.options.schedule == "seed":
                after = f", by rounds after {run.turns} turns"
                end = by_rounds(run, run.turns + ROUNDS)
        except Broken as broken:
            return str(broken) + after, broken.run.machine.records
        except FAILURES as error:
            return f"the machine fails ({failure(error, machine)})", []
        if verdict == "legal" and end == "stalled" and self.is_at_fault(run):
            verdict = "a round without progress"
        return None if verdict == "legal" else verdict + after, run.machine.records

    def tell(self, _turn, _about, answer):
        self.told.append(answer)

    def mark(self, fault):
        """What marks the fault in the replay: at the completion of a wrong record, else at the last event. Nothing if
        the run went on by rounds, since the replay doesn't."""
        if ", by rounds after" in fault:
            return ""
        completed = [place for place, answer in enumerate(self.told, 1) if answer == "Completed"]
        number = re.search(r"^(?!two owners).* (\d+)$", fault)
        place = completed[int(number[1])] if number else len(self.told)
        where = "behind this" if fault.startswith("the machine fails") else "here"
        return " 2>&1 | sed " + shlex.quote(f"{place}s|$|  # {where}: {fault}|")

    def is_at_fault(self, run):
        """Whether a run's rules are at fault for its last round: not if a message found no place, unless that is
        looked for."""
        return self.options.stuck or not any(answer == "NetworkFull" for _, answer in run.made[-ROUNDS:])

    def runs(self):
        """Trials of the same steps, by other seeds, and on other machines."""
        for seed in range(RUNS):
            yield Trial(self.steps, SimpleNamespace(**{**vars(self.options), "seed": seed}))
        for number in range(RUNS):
            options = with_messages(options_of(Draws(number)), number, len(self.steps), self.options.stuck)
            yield Trial(self.steps, options)

    def smaller(self):
        """The trials without a core that has no steps, without one core's steps, and those with one step less."""
        lists = [[steps for steps in self.steps if steps]] if not all(self.steps) else []
        for core, steps in enumerate(self.steps):
            shorter = [[], *(steps[:at] + steps[at + 1:] for at in range(len(steps)))] if steps else []
            lists += [[*self.steps[:core], left, *self.steps[core + 1:]] for left in shorter]
        for steps in filter(any, lists):
            while not steps[-1]:  # a trace has no cores behind the last one that is named
                steps.pop()
            yield Trial(steps, self.options)

    def smallest(self):
        """This trial, or one with fewer steps that has a fault, too. A test has no steps."""
        found = next((run for trial in self.smaller() for run in trial.runs() if run.fault()[0]), None)
        return found.smallest() if found else self

    def machine(self):
        """What is different between machines."""
        return tuple(value for name, value in sorted(vars(self.options).items())
                     if name not in ("seed", "limit", "schedule", "stuck"))

    def words(self):
        """The options, as words of the command line; defaults are left out."""
        given = vars(self.options)
        named = [(name, given[name]) for name in DEFAULTS if given[name] != DEFAULTS[name] and name != "seed"]
        schedule = ["--schedule", given["schedule"]] if given["schedule"] != "round" else []
        schedule += ["--seed", str(given["seed"])] if given["schedule"] == "seed" else []
        return schedule + [word for name, value in named for word in ("--" + name.replace("_", "-"), str(value))] + (
            ["--private-write"] * given["private_write"])

    def lines(self):
        """The lines of the trace."""
        form = ["trace 2"] if any(step == ADVANCE for steps in self.steps for step in steps) else []
        return form + [step_line(core, step) for core, steps in enumerate(self.steps) for step in steps]


def step_line(core, step):
    kind, word, value = step
    if step == ADVANCE:
        return f"{core} A"
    return " ".join([str(core), LETTER_OF[kind], f"{8 * word:#x}", *([] if value is None else [str(value)])])


class Draws:
    """What the project's generator draws for a number."""

    def __init__(self, number):
        self.generator = Pcg32.of_seed(number)

    def below(self, most):
        return self.generator.draw() % most

    def one_of(self, *things):
        return things[self.below(len(things))]


def options_of(draws):
    """A machine with few places, and a schedule: mostly a seed, and then often rounds after some turns."""
    options = {**DEFAULTS, "sets": 1, "bank_sets": 1, "seed": draws.below(1000), "fair": False,
               "schedule": draws.one_of(*["seed"] * 8, "round", "threads"), "private_write": draws.below(2) == 0,
               "lease": draws.one_of(1, 2, 10), "line_words": draws.one_of(1, 1, 8), "banks": draws.one_of(1, 1, 2),
               "ways": draws.one_of(1, 2), "bank_ways": draws.one_of(1, 1, 2), "limit": TURNS}
    if options["schedule"] == "seed" and draws.below(3) == 0:
        options["limit"] = 10 + draws.below(60)
    return SimpleNamespace(**options)


def steps_of(draws, number):
    """A few steps for each of two or three cores, on few words; later tries have more. No value is stored twice."""
    most, words, value, steps = 2 + min(number // 100, 3), draws.one_of(1, 1, 2, 2), 0, []
    for _ in range(draws.one_of(2, 2, 3)):
        steps.append([])
        for _ in range(1 + draws.below(most)):
            kind = draws.one_of(*["load"] * 4, *["store"] * 3, "swap", *["advance"] * 2)
            value += kind in ("store", "swap")
            word = 8 * draws.below(words)
            steps[-1].append(ADVANCE if kind == "advance" else (kind, word, None if kind == "load" else value))
    return steps


def with_messages(options, number, cores, stuck):
    """The options with places for messages, drawn from a generator of their own: many, or few more than cores; if stuck
    runs are looked for, also fewer."""
    few = [cores, cores, max(1, cores - 1)] if stuck else []
    options.messages = Draws(2 ** 64 - 1 - number).one_of(4096, 4096, cores + 1, cores + 2, *few)
    options.stuck = stuck
    return options


def trial_of(number, programs, stuck=False):
    """The trial of a number: of drawn programs, or of those that were named, in turn."""
    draws = Draws(number)
    options = options_of(draws)
    if not programs:
        steps = steps_of(draws, number)
        return Trial(steps, with_messages(options, number, len(steps), stuck))
    program = programs[number % len(programs)]
    if isinstance(program, Test):
        return Trial([], with_messages(options, number, len(program.threads), stuck), program)
    return Trial(program.steps, with_messages(options, number, program.cores, stuck))


def told(number, trial, name):
    """The text printed for a fault."""
    trial = trial.smallest()
    fault, records = trial.fault()
    yield f"{fault}: try {number}" + (f", cut to {sum(map(len, trial.steps))} steps" if trial.steps else "")
    yield from trial.lines()
    yield "The run's records, as far as it got:"
    yield from map(record_line, records)
    yield "Event by event:"
    mark = trial.mark(fault)
    oracle = shlex.quote(relpath(Path(__file__).resolve().parent.parent / "reference/oracle.py"))
    words = " ".join(["--trace", *trial.words()])
    if trial.test:
        yield f"    {oracle} litmus {words} {shlex.quote(name)}{mark}"
    else:
        text = "\\n".join([*trial.lines(), ""])
        yield f"    printf '{text}' | {oracle} trace {words} /dev/stdin{mark}"
    yield from shortest(trial)


def shortest(trial):
    """A shortest list of events with a fault on the trial's machine, if there is one among few states."""
    steps = trial.steps
    cores = len(trial.test.threads) if trial.test else len(steps)
    subject = SimpleNamespace(test=trial.test, trace=SimpleNamespace(steps=steps), cores=cores,
                              memory=trial.test.memory if trial.test else {})
    options = SimpleNamespace(**{**vars(trial.options), "cores": cores})
    reports = (explored(options, subject, SimpleNamespace(evict=evict, advances=advances))
               for advances, evict in product(range(4), ("demand", "any")))
    is_looked = False
    for report in filter(None, reports):
        is_looked = True
        if not report.is_good:
            yield f"The shortest way to a fault, of {len(report.search.states)} states:"
            yield from report.texts()[0]
            return
    yield "No shorter way was found among the first states: tools/explore.py looks at more." if is_looked else \
        "No shorter way was looked for, since the rule reads numbers that states don't have, or fails between events."


def explored(options, subject, how):
    """The report of a search; None if the rule reads numbers, which states don't have, or fails between events."""
    keeps = ()
    while True:
        kind, most = (Whole, WHOLE_STATES) if "whole" in keeps else (Parts, STATES)
        try:
            search = Search(kind(machine, options, subject, how, keeps))
            return Report(search, search.run(most, is_first=True), "this machine")
        except Unread as of:
            keeps += ("last",) if str(of) == "last" else ("fields",)
        except Elsewhere:
            if "whole" in keeps:
                return None
            keeps = ("whole",)
        except FAILURES as error:
            if ", line " not in failure(error, machine):  # it isn't the rule that fails
                raise
            return None


def program_of(path):
    try:
        text = Path(path).read_bytes()
        program = Test(text.decode("ascii")) if b"{" in text else Trace(text)
    except OSError as error:
        fail(f"{path}: {error.strerror}")
    except Fault as fault:
        fail(f"{path}: {fault}")
    except (AssertionError, AttributeError, IndexError, KeyError, SyntaxError, ValueError):
        fail(f"{path} can't be read as a good test")
    if isinstance(program, Trace) and not any(program.steps):
        fail(f"{path} has no operation")
    return program


def write(path, lines):
    """Writes the text among the lines to a file, if one is named and there is a text."""
    text = list(dropwhile(lambda line: not line.startswith("example "), lines))
    try:
        if path and text:
            Path(path).write_text("\n".join(text) + "\n", encoding="ascii")
    except OSError as error:
        fail(f"{path}: {error.strerror}")


def fail(said):
    print(f"try_rule.py: {said}", file=sys.stderr)
    sys.exit(2)


def main(given):
    parser = argparse.ArgumentParser(allow_abbrev=False, description=__doc__.split("\n")[0])
    parser.add_argument("--tries", type=int, default=10000, metavar="N", help="how many tries are made (10000)")
    parser.add_argument("--first", type=int, default=0, metavar="N", help="the number of the first try (0)")
    parser.add_argument("--stuck", action="store_true", help="look for runs that are stuck for want of places, too")
    parser.add_argument("--found", metavar="FILE", help="write the shortest list of events to FILE, too")
    parser.add_argument("FILE", nargs="*", help="tests and traces to play in place of drawn ones")
    parser.error = lambda said: fail(f"{said} (--help tells all)")
    options = parser.parse_args(given)
    if options.tries < 1 or not 0 <= options.first < 2 ** 64:
        fail("--tries is 1 or more, and --first goes from 0 to 2^64 - 1")
    programs, machines = [program_of(path) for path in options.FILE], set()
    for number in range(options.first, options.first + options.tries):
        trial = trial_of(number, programs, options.stuck)
        machines.add(trial.machine())
        if trial.fault()[0]:
            lines = list(told(number, trial, options.FILE[number % len(programs)] if programs else None))
            print("\n".join(lines))
            write(options.found, lines)
            return 1
    rows = Watched.rows
    print("\n".join([f"{options.tries} tries: all legal, one owner at most, and none stuck",
                     f"{len(machines)} machines, {rows.count()} of {len(ROWS)} rows of the tables",
                     *(f"never {section}: {words}" for section, words in rows.never())]))
    return 0


if __name__ == "__main__":
    tool(main)
