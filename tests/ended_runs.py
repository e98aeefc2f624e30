"""Runs that end with a failed allocation, by the second program (reference): all that one may report.

A run ends so only before an event that allocates: one that opens an operation, or brings DRAM the first store of a
line. Or it ends where the schedule lists something: the messages in flight, before a round's first delivery, and the
lines of all parts, before the first eviction that a seed drew. From then on the machine keeps them in order, and no
later eviction allocates. The run then reports the events before that. A run whose events are counted may end so before
any event: the room for the next row and the next lost copy is found ahead. So may one whose trace is read as it goes:
the room for the next record is.
"""
from itertools import product

from reference import objects, oracle
from reference.machine import Machine
from reference.reports import Batch, machine_of, seed_of, trace_text
from reference.schedules import Run, by_rounds, by_seed
from tools import merge


class OutOfMemory(Exception):
    """The run ends here."""


class Watched(Run):
    """A run that ends before the event of this number, if there is one; it notes before which events it allocates."""

    def __init__(self, machine, programs, last):
        super().__init__(machine, programs)
        self.last, self.asks, self.delivered, self.has_order = last, [], 0, False

    def make(self, *event):
        if len(self.made) == self.last:
            raise OutOfMemory
        if self.asks_memory(*event):
            self.asks.append(len(self.made))
        return super().make(*event)

    def asks_memory(self, name, *of):
        if name in ("EvictCache", "EvictBank"):
            had_order, is_drawn = self.has_order, bool(self.drawn) and self.drawn[-1][1] in (1, 2)
            self.has_order = had_order or is_drawn
            return is_drawn and not had_order
        if name != "Deliver":
            return name == "Issue"
        message = self.machine.flight[of[0]]
        is_first = not self.drawn and self.delivered != self.turns
        self.delivered = self.turns
        return is_first or message.kind == "DramSt" and message.line not in self.machine.dram


def run_of(options, programs, memory, seed, last=None, machine=Machine):
    run = Watched(machine(options, len(programs), memory), programs, last)
    try:
        if options.schedule == "seed":
            return run, by_seed(run, options.limit, seed)
        return run, by_rounds(run, options.limit, options.fair)
    except OutOfMemory:
        return run, "memory"


def ends_of(start, tell, is_watched=False):
    """The report of a run that ends before each event that allocates, or each event of a run that is watched, in the
    order of the events."""
    whole, _ = start(None)
    return [tell(*start(last)) for last in (range(len(whole.made)) if is_watched else whole.asks)]


def cuts_of(options):
    """Of each run of a batch its report alone, and all reports that it may have if it ended with a failed
    allocation."""
    test = oracle.read_litmus(options.FILE)

    def tell(run, end):
        batch = Batch(test)
        batch.add(run, end)
        return objects.litmus(batch) if options.json else batch.text()

    wholes, cuts = [], []
    for number in range(options.runs):
        seed = seed_of(options, number)

        def start(last, seed=seed):
            return run_of(options, test.programs(), test.memory, seed, last)

        wholes.append(tell(*start(None)))
        cuts.append(ends_of(start, tell))
    return wholes, cuts


def of_litmus(options):
    """The reports that a batch may have if one or more of its runs ended with a failed allocation."""
    wholes, cuts = cuts_of(options)
    if options.runs == 1:
        return cuts[0]
    choices = [[whole, *dict.fromkeys(cut)] for whole, cut in zip(wholes, cuts)]
    return [merge.joined(texts) for texts in product(*choices) if list(texts) != wholes]


def of_trace(options):
    """The reports that the run of a trace may have, or its records, if it ended with a failed allocation."""
    trace = oracle.read_trace(options.FILE)

    def tell(run, end):
        return trace_text(trace, options, run, end)

    machine = machine_of(options)
    return ends_of(lambda last: run_of(options, trace.programs(), {}, options.seed, last, machine), tell,
                   options.counts or options.stream)


def told_of(words):
    """All texts that a command may write if one or more of its runs end with a failed allocation. Those of one run
    are in the order of its events."""
    options = oracle.words().parse_args([*map(str, words)])
    return (of_litmus if options.command == "litmus" else of_trace)(options)
