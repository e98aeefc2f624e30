#!/usr/bin/env python3
"""Counts a trace's cycles: tools/clock.py [--hop 10] [--dram 100] [--hit 1] [options] TRACE ..

The machine has no time, and neither has its proof: this script chooses when each event happens, on the second program's
machine, and prints first what it assumes. docs/COUNTS.md, Cycles, has the rules. --machine names what is run: tardis,
or a directory by msi or mesi (docs/COMPARE.md).

Options have lists, as those of tools/sweep.py: there is a line for each trace, combination and machine. The status is 0
if each run is all done, 1 if not, and 2 if nothing was run.
"""
import sys
from heapq import heappop, heappush
from pathlib import Path

sys.path.insert(0, str(Path(__file__).resolve().parent.parent))
from reference.given import Words, tool  # noqa: E402
from reference.machine import FROM_DRAM, TO_DRAM  # noqa: E402
from reference.schedules import WITHOUT_PROGRESS, Run  # noqa: E402
from tools import count_tables, measured, sweep  # noqa: E402
from tools.program import number  # noqa: E402


# A run that completes nothing in this many steps of its cores and messages goes on forever.
LONG = 100_000
COSTS = {"hop": ("a message between a core and a bank", 10), "dram": ("a load or store of DRAM", 100),
         "hit": ("an operation that completes", 1)}
# Options of schedules, and of the network, which has room for all messages here.
NONE_OF = {"seed": "0", "limit": "1", "schedule": "round", "fair": "no", "messages": "65536"}
ROWS = ("end", "completed", "hits", "misses", "messages", "cycles")


class Clocked(Run):
    """A run whose events have cycles. `held` has by node the messages that arrived there and are still in flight."""

    def __init__(self, machine, programs, costs):
        super().__init__(machine, programs)
        self.costs, self.now, self.cycles, self.posted, self.held = costs, 0, 0, 0, {}
        # What comes: the cycle, whether it's a core (1) or a message (0), and its number. The least comes first.
        self.coming = [(0, 1, core) for core in range(len(programs))]

    def make(self, *event):
        answer = super().make(*event)
        for number in range(self.posted, self.machine.sent):
            kind = self.machine.flight[number].kind
            cycles = 0 if kind in TO_DRAM else self.costs.dram if kind in FROM_DRAM else self.costs.hop
            heappush(self.coming, (self.now + cycles, 0, number))
        self.posted = self.machine.sent
        return answer

    def go(self):
        """Makes all events; how the run ends."""
        idle = 0
        while self.coming and idle < LONG and not self.is_exhausted():
            done = len(self.machine.records)
            self.now, is_core, number = heappop(self.coming)
            if is_core:
                self.cycles = self.now  # the last operation is done
                self.go_on(number)
            else:
                self.arrive(number)
            idle = 0 if len(self.machine.records) > done else idle + 1
        return "exhausted" if self.is_exhausted() else "all-done" if self.is_done() else "starved"

    def go_on(self, core):
        """The core's steps, up to an attempt."""
        while not self.is_open(core):
            if not self.programs[core].next():
                return
            self.make_step(core)
        if self.attempt(core):
            self.make("Attempt", core)
        if self.made[-1][1] == "Completed":
            heappush(self.coming, (self.now + self.costs.hit, 1, core))
            self.serve(("c", core))

    def arrive(self, number):
        """A message arrives; a core whose request it answers attempts its operation at once."""
        kind, of = node = self.machine.nodes(self.machine.flight[number])[1]
        asked = kind == "c" and self.machine.cores[of].out
        self.held.setdefault(node, []).append(number)
        self.serve(node)
        if asked and not self.machine.cores[of].out:
            self.go_on(of)

    def serve(self, node):
        """Delivers what is at a node, the oldest message first, again and again while something changes."""
        changed = True
        while changed and not self.is_exhausted():
            before = len(self.made)
            for number in sorted(self.held.get(node, [])):
                self.deliver(number, True)
            changed = any(answer not in WITHOUT_PROGRESS for _, answer in self.made[before:])
            self.held[node] = [number for number in self.held.get(node, []) if number in self.machine.flight]


def parser():
    words = Words(__doc__)
    words.add_argument("TRACE", nargs="+", help="a trace")
    for name, (what, usual) in COSTS.items():
        words.add_argument("--" + name, type=number(0, 10 ** 6), default=usual, metavar="N",
                           help=f"the cycles of {what} ({usual})")
    words.add_argument("--machine", default="tardis", metavar="LIST", help="of tardis, msi, mesi (tardis)")
    words.set_defaults(named=None)
    return sweep.with_lists(words, NONE_OF)


def told(options):
    """The rows of the table, with a head; and whether all is done."""
    machines, chosen = sweep.words_of(options.machine, measured.MACHINES), sweep.combinations(options)
    names = ["trace"] * (len(options.TRACE) > 1) + measured.varied(chosen)
    yield [*names, "machine", *ROWS]
    for path, chosen, trace in measured.runs(options):
        for name in machines:
            machine = measured.machine_of(name, measured.options_of(chosen, trace.cores), trace.cores)
            run = Clocked(machine, trace.programs(), options)
            row = {"end": run.go(), "cycles": run.cycles} | measured.row_of(machine)
            yield [*(({"trace": path} | chosen)[name] for name in names), name, *(str(row[name]) for name in ROWS)]


def main(given):
    options = parser().parse_args(given)
    head, *rows = told(options)
    costs = ", ".join(f"{what} takes {getattr(options, name)}" for name, (what, _) in COSTS.items())
    print(f"The machine has no time. Assumed, in cycles: {costs}. Nothing waits for a link or a part.")
    print("\n".join(count_tables.table([head, *rows])))
    return int(any(row[head.index("end")] != "all-done" for row in rows))


if __name__ == "__main__":
    tool(main)
