from reference import objects, order
from reference.counted import Counts
from reference.machine import COUNTED, Machine
from reference.schedules import Run, by_rounds, by_seed
from reference.traces import record_line
from reference.workers import by_one_worker
"""Runs by options, and the reports of docs/TEXTS.md: of a litmus test and of a trace."""

ENDS = ("all-done", "stalled", "limit", "exhausted", "memory")


def drive(options, programs, memory, seed, tell=None, kind=Run, machine=Machine):
    """A run by the schedule of the options, and its end."""
    if options.schedule == "threads":
        return by_one_worker(options, programs, memory, tell)
    run = kind(machine(options, len(programs), memory), programs, tell)
    if options.schedule == "seed":
        return run, by_seed(run, options.limit, seed)
    return run, by_rounds(run, options.limit, options.fair)


def seed_of(options, number):
    """The seed of the run of this number, from 0."""
    return (options.seed + number) % 2 ** 64


class Batch:
    """What the runs of a litmus test add up to. States are listed in the order in which they were first met."""

    def __init__(self, test):
        self.test, self.runs = test, 0
        self.ends, self.states = dict.fromkeys(ENDS, 0), {}
        self.sums = dict.fromkeys(["completed", *COUNTED.values(), "stale-hits"], 0)

    def add(self, run, end):
        machine = run.machine
        verdict = order.check(self.test.memory, run.issued(), machine.records)
        assert verdict == "legal", verdict
        self.runs += 1
        self.ends[end] += 1
        self.sums["completed"] += len(machine.records)
        for name, count in machine.totals().items():
            self.sums[name] += count
        self.sums["stale-hits"] += order.stale_hits(machine.records)
        if end == "all-done":
            memory = order.end_memory(self.test.memory, machine.records)
            values = self.test.end_values(run.programs, memory)
            self.states[values] = self.states.get(values, 0) + 1

    def held(self):
        return sum(count for values, count in self.states.items() if self.test.holds(values))

    def is_yes(self):
        held, all_done = self.held(), self.ends["all-done"]
        return {"exists": held > 0, "~exists": held == 0, "forall": held == all_done}[self.test.kind]

    def head(self):
        """What a report has before the states."""
        return {"test": self.test.name, "threads": len(self.test.threads), "runs": self.runs, **self.ends}

    def foot(self):
        """What a report has behind them."""
        sums = {name: min(total, 2 ** 128 - 1) for name, total in self.sums.items()}
        return {"condition": self.test.kind, "held": self.held(), "verdict": "yes" if self.is_yes() else "no", **sums}

    def lines(self):
        yield from (f"{name} {value}" for name, value in self.head().items())
        yield f"states {len(self.states)}"
        yield from (" ".join([str(count)] + [f"{name}={value}" for name, value in values])
                    for values, count in self.states.items())
        yield from (f"{name} {value}" for name, value in self.foot().items())

    def text(self):
        return text_of(self.lines())


def text_of(lines):
    return "".join(line + "\n" for line in lines)


def litmus_report(test, options, tell=None, after=None):
    """The report, and whether every run was all done. `after` is given each run with its seed and end."""
    batch = Batch(test)
    for number in range(options.runs):
        seed = seed_of(options, number)
        run, end = drive(options, test.programs(), test.memory, seed, tell)
        batch.add(run, end)
        if after:
            after(run, end, seed)
    return objects.litmus(batch) if options.json else batch.text(), batch.ends["all-done"] == options.runs


def trace_report(trace, options, tell=None, after=None):
    """The report, with counts or without, or the records' text; and whether the run was all done."""
    run, end = drive(options, trace.programs(), {}, options.seed, tell, machine=machine_of(options))
    if after:
        after(run, end, options.seed)
    return trace_text(trace, options, run, end), end == "all-done"


def machine_of(options):
    """What opens the machine of a trace's run, whose events are counted if that is asked for."""
    if not options.counts:
        return Machine
    return lambda options, cores, memory: Counts(Machine(options, cores, memory), options.every)


def trace_text(trace, options, run, end):
    """What the options ask for of a run."""
    counts = run.machine if options.counts else None
    if options.records:
        return text_of(map(record_line, run.machine.records))
    if options.json:
        return objects.trace(trace_fields(trace, run, end), trace_words(trace, run), counts)
    return text_of([*trace_lines(trace, run, end), *(counts.lines() if counts else [])])


def trace_lines(trace, run, end):
    yield from (f"{name} {value}" for name, value in trace_fields(trace, run, end).items())
    yield from (f"word {address} {value}" for address, value in trace_words(trace, run).items())


def trace_fields(trace, run, end):
    """What a report has before the words."""
    machine, records = run.machine, run.machine.records
    kinds = [record.kind for record in records]
    return {"cores": trace.cores, "issued": machine.issued, "completed": len(records), "end": end,
            **{f"{kind}s": kinds.count(kind) for kind in ("load", "store", "swap")}, **machine.totals(),
            "stale-hits": order.stale_hits(records), "order": order.check({}, trace.issued(), records)}


def trace_words(trace, run):
    """By its address each word that the trace names, with the value that the records leave there."""
    memory = order.end_memory({}, run.machine.records)
    return {f"{8 * word:#x}": memory.get(word, 0) for word in trace.words()}
