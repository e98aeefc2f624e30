"""Runs by threads whose growths are refused, each in turn; tests/refusals.py runs this part.

A run by threads differs from one time to the next, so the script tests what holds of each. If nothing was refused, all
is done. If one growth was refused, the answer is one of these, and the shim says which of them it may be:

- It was refused to a worker at its work, so to a turn of some seat: that run ended with it, and the report says so.
- The second worker's thread couldn't be started: its seats had their turns before or after those of the first. That
  leaves one order of all turns, and the run is the second program's, byte for byte.
- It was refused elsewhere: there is no memory; or the run ended with it before any turn; or the program can do without
  it, and all is done.

How many turns a seat may have must not matter: if the threads of a run were all started and it ends at its limit, the
script makes it again with a higher one. Where nothing is refused, it also tries how many threads are started, how often
a waiting worker sleeps, and that two to four workers on one processor need few turns.
"""
import itertools
import os
import tempfile
from collections import Counter
from pathlib import Path

from reference import oracle
from reference.reports import Batch, trace_lines
from reference.traces import record_line
from reference.workers import SharedMachine, WorkerRun


TOP = Path(__file__).resolve().parent.parent
LITMUS = TOP / "examples" / "litmus" / "SB.litmus"
TRACE = TOP / "examples" / "traces" / "FALSE-SHARING.trace"
NO_MEMORY = (1, "", "tardis: no memory\n")
RUNS = 3
# The end states of store buffering that sequential consistency allows: not both 0.
STATES = {"0:x7=0 1:x7=1", "0:x7=1 1:x7=0", "0:x7=1 1:x7=1"}
OPERATIONS = 4
WORKERS = 2
LIMITS = (100_000, 5_000_000, 200_000_000)
MOST_TURNS = 4_294_967_295
FEW_TURNS = 5_000  # of each seat: enough on one processor, where a worker that waits sleeps
LAST_TIME = 2**64 - 1  # at this time no lease fits, and a run is exhausted
PASSES = 200  # after so many of one worker alone nothing in these runs goes on any more
SCHEDULE = ["--schedule", "threads", "--workers", WORKERS]


class OneAfterTheOther(WorkerRun):
    """A run in which one thread gives all turns: first those of one worker's seats, and then those of the other's."""

    def drive_all(self, first):
        for worker in (first, 1 - first):
            for _ in range(PASSES):
                for number in range(worker, len(self.machine.seats), WORKERS):
                    self.make_row(number, MOST_TURNS)
        assert not self.is_done() and not self.machine.has_stopped()
        return "limit"


def by_one_thread(options, programs, memory, tell):
    """The reports of a run whose second worker's thread couldn't be started; `programs` makes them."""
    for first in range(WORKERS):
        run = OneAfterTheOther(SharedMachine(options, len(programs()), memory), programs())
        yield tell(run, run.drive_all(first))


def texts_by_one_thread(words):
    """What may be reported of one run of a litmus test so."""
    options = oracle.words().parse_args([*map(str, words)])
    test = oracle.read_litmus(options.FILE)

    def tell(run, end):
        batch = Batch(test)
        batch.add(run, end)
        return batch.text()

    return list(by_one_thread(options, test.programs, test.memory, tell))


def lines_of(text):
    return dict(line.split(" ", 1) for line in text.splitlines())


class Litmus:
    """Runs of store buffering, and what their report must say."""

    def __init__(self):
        self.words, self.runs = ["litmus", *SCHEDULE, "--runs", RUNS, LITMUS], RUNS
        self.completed = {int(lines_of(text)["completed"]) for text in texts_by_one_thread(self.words)}

    def ends(self, ran):
        """How many runs ended in each way, if that is a report of legal runs."""
        lines = lines_of(ran.out)
        ends = Counter({name: int(lines[name]) for name in ("all-done", "stalled", "limit", "exhausted", "memory")})
        states = ran.out.split("\nstates ", 1)[1].splitlines()
        seen = dict(reversed(line.split(" ", 1)) for line in states[1:1 + int(states[0])])
        good = (ends.total() == RUNS == int(lines["runs"]) and lines["held"] == "0" and set(seen) <= STATES
                and sum(map(int, seen.values())) == ends["all-done"])
        return +ends if good else None

    def is_whole(self, ran):
        return self.rest(ran, 0) == 0

    def is_cut(self, ran, is_at_work):
        rest = self.rest(ran, 1)
        return rest in range(OPERATIONS) if is_at_work else rest == 0

    def is_by_one_thread(self, ran):
        return self.rest(ran, 1) in self.completed

    @staticmethod
    def rest(ran, others):
        """How many operations completed in the runs that aren't all done, given how many aren't."""
        return int(lines_of(ran.out)["completed"]) - OPERATIONS * (RUNS - others)


class Trace:
    """The run of a trace, and what its report must say."""

    def __init__(self):
        options = next(line for line in TRACE.read_text().splitlines() if "options=" in line).split("options=")[1]
        self.words, self.runs = ["trace", *options.split(), *SCHEDULE, TRACE], 1
        self.trace = oracle.read_trace(TRACE)
        self.operations = sum(map(len, self.trace.issued()))
        self.options = oracle.words().parse_args([*map(str, self.words)])
        self.texts = set(by_one_thread(self.options, self.trace.programs, {}, self.text))

    def text(self, run, end):
        return "".join(line + "\n" for line in trace_lines(self.trace, run, end))

    def ends(self, ran):
        lines = lines_of(ran.out)
        completed, issued = int(lines["completed"]), int(lines["issued"])
        good = lines["order"] == "legal" and completed <= issued <= self.operations
        return Counter([lines["end"]]) if good else None

    def is_whole(self, ran):
        return int(lines_of(ran.out)["completed"]) == self.operations

    def is_cut(self, ran, is_at_work):
        issued = int(lines_of(ran.out)["issued"])
        return issued < self.operations and (is_at_work or issued == 0)

    def is_by_one_thread(self, ran):
        return ran.out in self.texts


class Records(Trace):
    """The records of a trace's run. They don't say how the run ended: only the status says whether all is done."""

    def __init__(self, tester, file):
        super().__init__()
        self.words, self.tester, self.file = [*self.words, "--records"], tester, file

    def text(self, run, end):
        return "".join(record_line(record) + "\n" for record in run.machine.records)

    def ends(self, ran):
        self.file.write_text(ran.out)
        if self.tester.run(["check", TRACE, self.file]).answer() != (0, "legal\n", ""):
            return None
        if ran.status == 0:
            return Counter(["all-done"])
        is_cut = ran.is_at_work or ran.started == 0 and ran.out not in self.texts
        return Counter(["memory" if is_cut else "limit"])

    def is_whole(self, ran):
        return ran.out.count("\n") == self.operations

    def is_cut(self, ran, is_at_work):
        return ran.out.count("\n") < self.operations and (is_at_work or ran.out == "")


def kind_of(what, ran, are_later):
    """Which of the answers this is; None, if it is none of them. If later growths are refused, too, then in the end
    there is no memory, wherever the first one was."""
    if ran.answer() == NO_MEMORY:
        return "no memory" if ran.refused and (are_later or not ran.is_at_work) else None
    ends = None if ran.error else what.ends(ran)
    if ends is None or ran.status != (set(ends) != {"all-done"}):
        return None
    is_all_started, others = ran.started == what.runs, Counter({"all-done": what.runs - 1})
    if ends["limit"] > (0 if ends["memory"] else what.runs - ran.started):
        return "short of turns"
    if ran.is_at_work or ends["memory"]:
        # If it wasn't refused at work, it was before the first turn: then no thread was started.
        good = ends == others + Counter(["memory"]) and ran.started == what.runs - (not ran.is_at_work)
        return "ended for want of memory" if good and what.is_cut(ran, ran.is_at_work) else None
    if ends["all-done"] == what.runs:
        return "done" if is_all_started and what.is_whole(ran) else None
    good = ran.refused and ends == others + Counter(["limit"]) and ran.started == what.runs - 1
    return "by one thread" if good and what.is_by_one_thread(ran) else None


def run_through(tester, what, growth):
    """The result of the command, and its kind; with more turns, if these were too few."""
    for limit in LIMITS:
        ran = tester.run([*what.words, "--limit", limit], growth=growth)
        kind = kind_of(what, ran, growth.endswith("+"))
        if kind != "short of turns":
            break
    return ran, kind


def sweep(tester, name, what, how):
    """Refuses the 1st, 2nd, .. growth alone, or with each later one, until nothing is left to refuse."""
    kinds, number = Counter(), 0
    while True:
        number += 1
        ran, kind = run_through(tester, what, f"{number}{how}")
        allowed = ["done"] if not ran.refused else ["no memory", "done"] if how else KINDS
        tester.expect(kind in allowed, f"{name}, growth {number}{how}, {ran.told}: {ran.answer()}")
        if not ran.refused:
            break
        kinds[kind] += 1
        if not how and ran.is_at_work and kinds[kind] == 1:
            # The other worker finds the end: it doesn't go on for as many turns as there may be.
            ran = tester.run([*what.words, "--limit", MOST_TURNS], growth=f"{number}")
            tester.expect(kind_of(what, ran, False) in KINDS, f"{name}, growth {number}, most turns: {ran.answer()}")
    if not how:
        for kind in KINDS[:3]:
            tester.expect(kinds[kind] > 0, f"{name}: none was told as {kind}")
    told = ", ".join(f"{kind} {kinds[kind]}" for kind in KINDS if kinds[kind])
    print(f"{name}, growth {how or 'alone'}: {number - 1} refused: {told}")


KINDS = ("no memory", "ended for want of memory", "by one thread", "done")


def are_started(tester, *words, runs=1):
    """In each run the workers are the calling thread, and one thread that is started for each of the others."""
    for workers in range(1, 17) if runs == 1 else (1, 3):
        ran = tester.run([*words, "--workers", workers])
        tester.expect(ran.started == runs * (workers - 1),
                      f"{words} by {workers} workers: {ran.started} threads were started")


def lets_others_run(tester):
    """A worker that waits sleeps long before its time slice ends, so that another one runs."""
    processors = os.sched_getaffinity(0)
    os.sched_setaffinity(0, {min(processors)})
    for workers in (2, 3, 4):
        words = ["litmus", "--schedule", "threads", "--workers", workers, "--runs", 20, "--limit", FEW_TURNS, LITMUS]
        ran = tester.run(words)
        tester.expect("all-done 20\n" in ran.out, f"{workers} workers on one processor: {ran.answer()}")
    os.sched_setaffinity(0, processors)


def sleeps_where_due(tester, folder):
    """A core advances in each of its 1,024 turns, 16 in a pass: 64 passes. A seat that waits has one turn in a pass, so
    that its worker makes passes that come to nothing, until it has had 1,024 turns, too. It sleeps after the 128th of
    them and after each fourth that follows: for 1,024 that is 1 + 224 times. A single worker never sleeps. Of
    several workers, those that don't have the core make 1,024, with the bank, with another core, or with both; one
    without seats makes none. In the third trace core 0 advances 300 times first, in 301 turns and 19 passes. Its worker
    makes 1,005 more with the bank (1 + 219), and 723 without it (1 + 148)."""
    steps = Path(folder, "advances.trace")
    for zeros, ones, *all_sleeps in ((2000, 0, 0, 225, 225), (0, 2000, 0, 225, 450), (300, 2000, 0, 220, 374)):
        steps.write_text("trace 2\n" + zeros * "0 A\n" + ones * "1 A\n")
        for (workers, sleeps), fair in itertools.product(enumerate(all_sleeps, 1), ([], ["--fair"])):
            ran = tester.run(["trace", *SCHEDULE[:2], *fair, "--workers", workers, "--limit", 1024, steps], sleeps=1)
            good = (ran.status, ran.sleeps) == (1, sleeps)
            tester.expect(good, f"{zeros} and {ones} advances, {workers} workers {fair}: {ran.sleeps} sleeps")


def refused_threads(tester):
    lets_others_run(tester)
    for end in ((), ("--time", LAST_TIME), ("--limit", 1)):
        for runs in (1, 3):
            are_started(tester, "litmus", "--schedule", "threads", *end, "--runs", runs, LITMUS, runs=runs)
    are_started(tester, "trace", "--schedule", "threads", TRACE)
    are_started(tester, "trace", "--schedule", "threads", "--fair", TRACE)
    are_started(tester, "trace", "--schedule", "threads", "--time", LAST_TIME, TRACE)
    with tempfile.TemporaryDirectory() as folder:
        sleeps_where_due(tester, folder)
        cores = Path(folder, "64-cores.trace")
        cores.write_text("trace 2\n63 R 0x0\n")
        are_started(tester, "trace", "--schedule", "threads", cores)
        are_started(tester, "litmus", "--schedule", "threads", "--runs", 300, LITMUS, runs=300)
        cores.write_text("trace 2\n4 R 0x0\n")
        are_started(tester, "trace", "--schedule", "threads", "--banks", 2, cores)
        cases = {"three runs of SB by threads": Litmus(), f"{TRACE.name} by threads": Trace(),
                 f"{TRACE.name} by threads, its records": Records(tester, Path(folder, "records"))}
        for name, what in cases.items():
            for how in ("", "+"):
                sweep(tester, name, what, how)
