#!/usr/bin/env python3
"""Runs random traces by fair rounds, and by fair threads, on random small machines: tests/fair.py [PROGRAM]
[--machines N] [--seed N].

On the second program, each run must be all done, with no more than MOST_ROUNDS rounds between one step that is done (an
operation completed, an advance) and the next. That is measured: no proof says so. Every other machine has places for
one message more than it has cores, which is the least that a run needs; the others have 4,096, of which never more than
three a core may be taken. Machines with fewer places must stall in their second round.

By fair threads each run of one worker must be all done within MOST_TURNS turns of a seat for each step, and one more;
that is measured, too. Of the same machines, some must starve where the turns aren't fair. So must nine cores that store
to nine lines of one set of a bank: by fair threads they end, by 1 to 16 workers.

PROGRAM is the built crate tardis: its report and its records of each run must be the second program's, byte for byte.
By rounds, it must starve on each of four traces, of up to 70,000 operations. By fair rounds these must be all done,
within twice the rounds that they take by rounds where banks have room. Without PROGRAM, or with thousands of machines,
the script measures. The last line has what was tried, the greatest gap of rounds, and the most turns a step.
"""
import argparse
import random
import sys
from bisect import bisect_left
from pathlib import Path
from types import SimpleNamespace

sys.path.insert(0, str(Path(__file__).resolve().parent.parent))
from reference import told  # noqa: E402
from reference.given import NUMBERS  # noqa: E402
from reference.machine import Machine  # noqa: E402
from reference.reports import trace_lines  # noqa: E402
from reference.schedules import ADVANCE, Run, by_rounds  # noqa: E402
from reference.traces import Trace, record_line  # noqa: E402
from reference.workers import SharedMachine, WorkerRun, by_one_worker  # noqa: E402
from tests.texts import Tester  # noqa: E402

MOST_ROUNDS = MOST_TURNS = 16
# How many machines of each kind the gate tries, by default, and after how many turns a run counts as one that starves.
MACHINES, SMALL, STARVES = 300, 40, 500
# Nine cores, which each store to the nine lines of one set of eight ways, in turn.
NINE = [[("store", 256 * ((core + step) % 9), step + 1) for step in range(10)] for core in range(9)]
MOST = 2 ** 17  # of the rounds that a trace may take


class Measured(Run):
    """A run that notes its greatest gap, how many messages were in flight at most, and the second deliveries."""

    gap = crowd = again = last = 0

    def make(self, *event):
        answer = super().make(*event)
        if answer in ("Completed", "Advanced"):
            self.gap, self.last = max(self.gap, self.turns - self.last), self.turns
        self.crowd = max(self.crowd, len(self.machine.flight))
        return answer

    def deliver(self, *of):
        before = len(self.made)
        super().deliver(*of)
        self.again += len(self.made) - before == 3  # held, evicted, and once more


def steps_of(draw, cores, words):
    """A program for each core. The last core has a step."""
    most = draw.choice([1, 2, 3, 5, 10, 20, 40] if cores <= 8 else [1, 2, 3, 5])
    return [[step_of(draw, words) for _ in range(draw.randint(core == cores - 1, most))] for core in range(cores)]


def step_of(draw, words):
    if draw.random() < 0.03:
        return ADVANCE
    kind = draw.choice(["load", "load", "store", "swap"])
    return kind, draw.randrange(words), None if kind == "load" else draw.randrange(5)


def options_of(draw):
    """A machine with few places for lines."""
    few = {"banks": draw.choice([1, 1, 2, 3]), "sets": draw.choice([1, 1, 2]), "ways": draw.randint(1, 3),
           "bank_sets": draw.choice([1, 1, 2]), "bank_ways": draw.choice([1, 1, 2, 3]),
           "line_words": draw.choice([1, 8]), "lease": draw.choice([1, 2, 10])}
    return machine(few, draw.random() < 0.5)


def skewed(operations, opened):
    """A trace of 16 cores on 65,536 words, the first of which are used most; seven loads, two stores, a swap in ten."""
    state, lines = (opened * 2654435761 + 88172645463325252) % 2 ** 64, []

    def drawn():
        nonlocal state
        state ^= (state << 13) % 2 ** 64
        state ^= state >> 7
        state ^= (state << 17) % 2 ** 64
        return state

    for number in range(1, operations + 1):
        core, word, kind = drawn() % 16, int((drawn() // 2 ** 11 / 2 ** 53) ** 4 * 65536), drawn() // 2 ** 20 % 10
        lines.append(f"{core} R 0x{8 * word:x}" if kind < 7 else f"{core} {'WWS'[kind - 7]} 0x{8 * word:x} {number}")
    return "\n".join(lines).encode()


def starved():
    """Traces that starve, each with the options that it does so by, and those of a machine whose bank has room."""
    kept = Path(__file__).resolve().parent.parent / "examples/traces"
    return (((kept / "LIVELOCK.trace").read_bytes(), "--bank-sets 1 --bank-ways 1", "--bank-sets 1 --bank-ways 2"),
            ((kept / "STARVED.trace").read_bytes(), "--line-words 8", "--line-words 8 --bank-ways 16"),
            (skewed(20000, 1), "--line-words 8", "--line-words 8 --bank-ways 16"),
            (skewed(70000, 5), "", "--bank-ways 16"))


def machine(named, private_write=False):
    """The default machine but for the options that are named, by fair rounds."""
    usual = {name.replace("-", "_"): number for name, (number, _) in NUMBERS.items()}
    return SimpleNamespace(**usual | named, private_write=private_write, schedule="round", fair=True)


def text_of(programs):
    lines = ["trace 2", *(f"{core} {told.step(step)}" for core, steps in enumerate(programs) for step in steps)]
    return "".join(f"{line}\n" for line in lines).encode()


def words_of(options):
    words = [word for name in NUMBERS for word in ("--" + name, str(getattr(options, name.replace("-", "_"))))]
    flags = [*["--private-write"] * options.private_write, *["--fair"] * options.fair]
    return ["trace", "--schedule", options.schedule, *words, *flags, "/dev/stdin"]


class Fair(Tester):
    """Runs that are made twice: by the second program, and by the program, if there is one."""

    gap = crowd = again = most = starved = times = 0

    def run_of(self, text, options):
        trace = Trace(text)
        run = Measured(Machine(options, trace.cores, {}), trace.programs())
        end = by_rounds(run, options.limit, fair=True)
        self.made_alike(text, trace, options, run, end)
        return run, end

    def made_alike(self, text, trace, options, run, end):
        """The program's report and records are those of the second program's run."""
        if self.program:
            status = int(end != "all-done")
            texts = (([], trace_lines(trace, run, end)), (["--records"], map(record_line, run.machine.records)))
            for words, lines in texts:
                wanted = status, "".join(f"{line}\n" for line in lines), ""
                got = self.run(*words_of(options), *words, text=text)
                self.expect(got == wanted, f"{words_of(options)} {words} of {text}: {got}, wanted {wanted}")

    def ends(self, draw, cores, is_crowded):
        """A run that must be all done."""
        options, words = options_of(draw), draw.choice([2, 3, 4, 6, 9, 16, 24, 70])
        options.messages = cores + 1 if is_crowded else 4096
        programs = steps_of(draw, cores, words * draw.choice([1, options.line_words]))
        options.limit = MOST_ROUNDS * (sum(map(len, programs)) + 1)
        run, end = self.run_of(text_of(programs), options)
        good = end == "all-done" and run.gap <= MOST_ROUNDS and (is_crowded or run.crowd <= 3 * cores)
        self.expect(good, f"{end}, a gap of {run.gap}, {run.crowd} messages: {options} {text_of(programs)}")
        self.gap, self.again = max(self.gap, run.gap), self.again + run.again

    def by_threads(self, options, programs):
        """A run by one worker that must be all done, by fair threads; and whether it starves otherwise."""
        text = text_of(programs)
        trace, steps = Trace(text), sum(map(len, programs)) + 1
        options.schedule, options.limit = "threads", MOST_TURNS * steps
        run, end = by_one_worker(options, trace.programs(), {})
        self.expect(end == "all-done", f"{end} by one worker: {options} {text}")
        self.most = max(self.most, run.turns / steps)
        self.made_alike(text, trace, options, run, end)
        other = WorkerRun(SharedMachine(options, trace.cores, {}), trace.programs())
        self.starved += other.drive(STARVES) != "all-done"

    def by_workers(self):
        """Nine cores on nine lines: by fair threads all is done, by any number of workers."""
        given = ["trace", "--schedule", "threads", "/dev/stdin"]
        for workers in range(1, 17) if self.program else ():
            status, out, error = self.run(*given, "--fair", "--limit", "10000000", "--workers", str(workers),
                                          text=text_of(NINE))
            good = (status, error) == (0, "") and "\ncompleted 90\nend all-done\n" in out
            self.expect(good, f"nine cores by {workers} workers: {status} {error} {out}")

    def rounds(self, text, options):
        """How many rounds a run makes until all is done, or MOST."""
        def is_done(limit):
            return self.run("trace", *options.split(), "--limit", str(limit), "/dev/stdin", text=text)[0] == 0

        return bisect_left(range(MOST), True, 1, key=is_done)

    def end_in_time(self):
        """By fair rounds, traces that starve end in at most twice the rounds that they take where banks have room."""
        for text, few, roomy in starved() if self.program else ():
            starves, fair, wanted = (self.rounds(text, options) for options in (few, few + " --fair", roomy))
            self.times = max(self.times, fair / wanted)
            self.expect(fair <= 2 * wanted < MOST == starves,
                        f"{starves} rounds, {fair} fair ones, {wanted} where banks have room: {few} {text[:80]}")

    def stalls(self, draw, cores):
        """A run with a request of each core, and no place for what a bank would send."""
        options = options_of(draw)
        options.messages = draw.randint(1, cores)
        programs = [[("load", draw.randrange(9), None)] for _ in range(cores)]
        run, end = self.run_of(text_of(programs), options)
        self.expect((end, run.turns) == ("stalled", 2), f"{end} after {run.turns} rounds: {options} {programs}")


def main():
    parser = argparse.ArgumentParser(description=__doc__, formatter_class=argparse.RawDescriptionHelpFormatter)
    parser.add_argument("PROGRAM", nargs="?", help="the built crate tardis")
    parser.add_argument("--machines", type=int, default=MACHINES, metavar="N", help=f"how many are tried ({MACHINES})")
    parser.add_argument("--seed", type=int, default=1, metavar="N", help="what opens the generator (1)")
    options = parser.parse_args()
    tester, draw = Fair(options.PROGRAM), random.Random(options.seed)
    for number in range(options.machines):
        cores = draw.choice([2, 2, 3, 3, 4, 4, 5, 6, 8, 12, 16, 24, 32, 64])
        tester.ends(draw, cores, number % 2)
        words = draw.choice([2, 3, 4, 6, 9])
        tester.by_threads(options_of(draw), steps_of(draw, min(cores, 16), words))
    starved = tester.starved
    tester.by_threads(machine({}), NINE)
    tester.expect(starved and tester.starved > starved, f"{tester.starved} starve where turns aren't fair")
    tester.by_workers()
    tester.end_in_time()
    for _ in range(SMALL):
        tester.stalls(draw, draw.choice([2, 3, 8, 64]))
    tester.expect(tester.again > 0, "no message was delivered twice in a round")
    times = f"traces that starve take at most {tester.times:.2f} times the rounds of a machine with room in banks; "
    print(f"{tester.tried} tried, {tester.wrong} wrong; at most {tester.gap} rounds from one step done to the next, "
          f"{tester.again} second deliveries; {times if tester.program else ''}at most {tester.most:.1f} turns of a "
          f"seat for each step and one more, {tester.starved} starve by turns that aren't fair")
    return int(tester.wrong > 0)


if __name__ == "__main__":
    sys.exit(main())
