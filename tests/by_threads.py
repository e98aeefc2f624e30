#!/usr/bin/env python3
"""Finds faults in what runs by threads printed, and fails if there is one: tests/by_threads.py <ROWS

Each row has one of these forms. STATUS is the exit status; all other words but RUNS are names of files:

    litmus|TEST|RUNS|STATUS|REPORT       a test's report of RUNS runs
    trace|TRACE|STATUS|REPORT            a trace's report
    records|TRACE|STATUS|RECORDS         a trace's records

Runs by several threads differ from one time to the next, so the script tests only what every run has. The ends of a
test are those of sequential.py; the parts of oracle.py read texts. Memory must be found: a run that ended with a
failed allocation is a fault.

Tried: each line of six reports dropped and doubled, each number one more and one less. The script doesn't find: counts
of messages, stale hits up to the loads, an end state that became another possible one, and `completed` where few runs
were all done; of a trace by several workers also `issued`, if the run isn't all done.
"""
import re
import sys
from pathlib import Path

sys.path.insert(0, str(Path(__file__).resolve().parent.parent))
from reference import sequential  # noqa: E402
from reference.litmus import Test  # noqa: E402
from reference.reports import ENDS, Batch  # noqa: E402
from reference.schedules import ADVANCE  # noqa: E402
from reference.traces import Fault, Trace, read_records, record_line  # noqa: E402
from tests.expected import options_of  # noqa: E402


KINDS = ("load", "store", "swap")
COUNTED = ("renewals", "upgrades", "flushes", "write-backs", "stale-hits")


class Lines:
    """The lines of a text, taken from the front. A line that has another form is a ValueError."""

    def __init__(self, text):
        self.left = text.split("\n")
        if self.left.pop():
            raise ValueError("the last line has no line feed")

    def take(self, name):
        """What follows this word and one space in the next line."""
        line = self.left.pop(0) if self.left else ""
        if not line.startswith(name + " "):
            raise ValueError(f"'{name} ..' wanted, '{line}' is there")
        return line[len(name) + 1:]

    def number(self, name):
        return number_of(self.take(name))

    def state(self, names):
        """How often an end state occurred, and the values of these names."""
        count, *values = self.left.pop(0).split(" ")
        pairs = [pair.split("=") for pair in values]
        if [name for name, _ in pairs] != names:
            raise ValueError(f"an end state isn't of {' '.join(names)}")
        return number_of(count), tuple((name, number_of(value)) for name, value in pairs)


def number_of(word):
    """A decimal number without leading zeros."""
    if not re.fullmatch("0|[1-9][0-9]*", word):
        raise ValueError(f"'{word}' is no number")
    return int(word)


def read_batch(test, text):
    """The batch that a report is of; the lines that follow from others are left out."""
    batch, lines = Batch(test), Lines(text)
    lines.take("test")
    lines.take("threads")
    batch.runs = lines.number("runs")
    batch.ends = {end: lines.number(end) for end in ENDS}
    for _ in range(lines.number("states")):
        count, values = lines.state(test.seen)
        batch.states[values] = count
    for name in ("condition", "held", "verdict"):
        lines.take(name)
    batch.sums = {name: lines.number(name) for name in ("completed", *COUNTED)}
    return batch


def batch_faults(test, possible, batch, runs, status, text):
    """Faults in a report of these runs, by any schedule; `possible` are the sequential ends."""
    if batch.text() != text:
        yield f"its other lines say\n{batch.text()}"
    if batch.runs != runs or sum(batch.ends.values()) != runs:
        yield f"not {runs} runs, each with one end"
    all_done = batch.ends["all-done"]
    if sum(batch.states.values()) != all_done or not all(batch.states.values()):
        yield "the end states aren't those of the runs that are all done"
    yield from (f"no interleaving ends with {sequential.text_of(end)}" for end in batch.states if end not in possible)
    kinds = [kind for code in test.threads for kind, *_ in code if kind in KINDS]
    if not all_done * len(kinds) <= batch.sums["completed"] <= runs * len(kinds) - (runs - all_done):
        yield f"{batch.sums['completed']} operations can't have completed"
    if batch.sums["stale-hits"] > runs * kinds.count("load"):
        yield "more stale hits than loads"
    yield from status_faults(status, all_done == runs)


def litmus_faults(path, runs, status, text):
    test = Test(path.read_text(encoding="ascii"))
    batch = read_batch(test, text)
    yield from (f"{batch.ends[end]} runs end {end}" for end in ("stalled", "exhausted", "memory") if batch.ends[end])
    yield from batch_faults(test, sequential.ends_of(test), batch, runs, status, text)


def status_faults(status, is_all_done):
    if status != (0 if is_all_done else 1):
        yield f"status {status}"


def trace_faults(path, status, text):
    trace, lines = Trace(path.read_bytes()), Lines(text)
    operations = [op for ops in trace.issued() for op in ops]
    if lines.number("cores") != trace.cores:
        yield f"not {trace.cores} cores"
    issued, completed, end = lines.number("issued"), lines.number("completed"), lines.take("end")
    ends = ["all-done", "limit"] + ["exhausted"] * ("--time" in options_of(path))
    if end not in ends:
        yield f"end {end}"
    kinds = {kind: lines.number(kind + "s") for kind in KINDS}
    wanted = {kind: sum(op[0] == kind for op in operations) for kind in KINDS}
    if sum(kinds.values()) != completed or any(kinds[kind] > wanted[kind] for kind in KINDS):
        yield f"not {completed} of the trace's operations completed"
    if not completed <= issued <= min(len(operations), completed + trace.cores):
        yield f"{issued} operations can't have been issued"
    if end == "all-done" and not issued == completed == len(operations):
        yield "all done, and not every operation"
    if [lines.number(name) for name in COUNTED][-1] > kinds["load"]:
        yield "more stale hits than loads"
    if lines.take("order") != "legal":
        yield "the order isn't legal"
    yield from word_faults(trace, end == "all-done", lines)
    yield from status_faults(status, end == "all-done")


def word_faults(trace, is_all_done, lines):
    """For each word that is named, in rising order: what completed operations can leave there."""
    for word in trace.words():
        value = lines.number(f"word {8 * word:#x}")
        written = [[op[2] for op in ops if op[1] == word and op[0] != "load"] for ops in trace.issued()]
        if is_all_done:  # what is left was written by the last operation of its core that writes there
            possible = {values[-1] for values in written if values} or {0}
        else:
            possible = {0}.union(*written)
        if value not in possible:
            yield f"word {8 * word:#x} can't have {value}"
    if lines.left:
        yield f"the line '{lines.left[0]}' is too much"


def record_faults(path, status, text):
    """Records are in rising order, and all there if the run is all done. Whether they are legal is for `check`."""
    trace, records = Trace(path.read_bytes()), read_records(text.encode("ascii"))
    if text != "".join(record_line(record) + "\n" for record in records):
        yield "another form"
    if [record.number for record in records] != list(range(len(records))):
        yield "not in the order of their numbers"
    missing = sum(map(len, trace.issued())) - len(records)
    has_advances = any(step == ADVANCE for steps in trace.steps for step in steps)
    if missing < 0 or status == 0 and missing or status == 1 and not missing and not has_advances:
        yield f"status {status}, and {missing} records are missing"
    if status not in (0, 1):
        yield f"status {status}"


def faults(kind, path, *given):
    """The faults of a row."""
    *numbers, last = given
    text = Path(last).read_text(encoding="ascii")
    try:
        of = {"litmus": litmus_faults, "trace": trace_faults, "records": record_faults}[kind]
        return list(of(Path(path), *map(int, numbers), text))
    except (Fault, IndexError, ValueError) as error:
        return [f"another form: {error}"]


def main():
    rows = sys.stdin.read().splitlines()
    found = [f"{row}: {fault}" for row in rows for fault in faults(*row.split("|"))]
    print("\n".join(found or [f"{len(rows)} rows can be so"]))
    return int(bool(found) or not rows)


if __name__ == "__main__":
    if sys.argv[1:2] in (["-h"], ["--help"]):
        raise SystemExit(print(__doc__))
    sys.exit(main())
