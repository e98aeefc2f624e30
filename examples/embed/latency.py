#!/usr/bin/env python3
"""A network of one's own drives the machine: examples/embed/latency.py TRACE [LEASE ..]

For each lease the trace is run once, and the cycles that it took are printed. A hop takes 10 cycles, DRAM 100, and a
hit 1; an advance takes none. Cores run side by side; a core waits for its reply. The machine has no time of its own:
this script decides when a message arrives, and the machine what happens then. A message that is held tries again a hop
later.
"""
import heapq
import sys
from pathlib import Path

sys.path.insert(0, str(Path(__file__).resolve().parents[2] / "python"))
from tardis import Machine  # noqa: E402

HOP, DRAM, HIT = 10, 100, 1
LEASES = 1, 10, 100, 1000, 10000


class Network:
    """Messages on their way, and cores that go on at a time; what comes first is done first."""

    def __init__(self, machine, programs):
        self.machine, self.programs = machine, programs
        self.due = [(0, "core", core) for core in range(len(programs))]  # a heap: time, what, number
        self.sent = 0  # the number that the next message has

    def send(self, now):
        """What was sent since the last look is on its way."""
        for number in self.machine.in_flight():
            if number >= self.sent:
                kind = self.machine.message(number).kind
                heapq.heappush(self.due, (now + (DRAM if kind.startswith("Dram") else HOP), "message", number))
                self.sent = number + 1

    def core(self, now, core):
        """The core issues its next operation, if it has none open, and attempts it."""
        while self.machine.open_operation(core) is None:
            if not self.programs[core]:
                return
            step = self.programs[core].pop(0)
            self.machine.run(f"advance {core}" if step == "A" else f"issue {core} {step}")
        answer = self.machine.attempt(core)
        if answer.cause == "NoRoom":
            address = int(self.machine.open_operation(core).split()[1], 16)
            self.machine.evict_copy(core, self.machine.victim(core, address))
            answer = self.machine.attempt(core)
        if answer.name == "completed":
            heapq.heappush(self.due, (now + HIT, "core", core))

    def message(self, now, number):
        """The message arrives; a core that got one goes on."""
        receiver = self.machine.message(number).receiver
        if self.machine.deliver(number).name in ("held", "started"):
            room = self.machine.room(number)
            if room:
                self.machine.evict_entry(*room)
            heapq.heappush(self.due, (now + HOP, "message", number))
        elif receiver.startswith("core"):
            heapq.heappush(self.due, (now, "core", int(receiver.split()[1])))

    def run(self):
        """The time of the last event."""
        now = 0
        while self.due:
            now, what, number = heapq.heappop(self.due)
            getattr(self, what)(now, number)
            self.send(now)
        return now


def programs_of(path):
    """The operations of each core, in the text's order."""
    lines = [line.split("#")[0].split(maxsplit=1) for line in Path(path).read_text(encoding="latin-1").split("\n")]
    steps = [(int(words[0]), words[1].strip()) for words in lines if words and words[0] != "trace"]
    cores = max((core for core, _ in steps), default=0) + 1
    return [[step for core, step in steps if core == each] for each in range(cores)]


def main(path, *leases):
    for lease in map(int, leases or LEASES):
        programs = programs_of(path)
        with Machine(cores=len(programs), lease=lease) as machine:
            cycles = Network(machine, programs).run()
            print(f"lease {lease}: {cycles} cycles, {len(machine.records())} operations, {machine.check()}")


if __name__ == "__main__":
    sys.exit(main(*sys.argv[1:]) if sys.argv[1:] and sys.argv[1] not in ("-h", "--help") else print(__doc__))
