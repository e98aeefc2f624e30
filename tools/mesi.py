#!/usr/bin/env python3
"""Makes a history of a small directory machine by MESI, to bring to `tools/number.py` and `tools/order.py`.

    tools/mesi.py [--stamp effect] [--blocking] [--lost N] [--seed N] [--cores N] [--operations N] [--words N]

Each core does one operation after the other. Messages take 1 to 30 cycles each, drawn by the seed, and may overtake
each other. The directory goes on once it has sent the data of a load, so an invalidation may overtake that data: the
core then receives the old value later than a store of another core completes. That is right, but completion cycles are
no order of such a history. --stamp effect takes the cycle in which the operation is ordered instead, as
docs/DIRECTORY-TIMES.md has it. With --blocking the directory waits until the data has arrived.

--lost N breaks the machine: of a hundred invalidations, some N are acknowledged though the copy stays.
The history has a line for each operation as it completes, such as `0 R 0x8 5 @ 1042`.
"""
import heapq
import random
import sys
from collections import deque
from pathlib import Path

sys.path.insert(0, str(Path(__file__).resolve().parent.parent))
from reference.given import Words, tool  # noqa: E402
from tools.program import number  # noqa: E402


DELAY, PAUSE = 30, 10  # the most cycles of a message, and between two operations of a core


class Line:
    """A word at the directory. `request`: the one that is served, as (load?, core); `waiting`: those behind it."""

    def __init__(self):
        self.state, self.value, self.owner, self.sharers = "I", 0, None, set()
        self.request, self.waiting, self.missing = None, deque(), 0


class Core:
    """A core with its copies. `invalidated` has the words whose data was overtaken by an invalidation."""

    def __init__(self, program, words):
        self.program, self.done = program, 0
        self.state, self.value, self.invalidated = ["I"] * words, [0] * words, set()


class Machine:
    def __init__(self, options):
        self.options, self.drawn = options, random.Random(options.seed)
        self.cycle, self.posted, self.events, self.history = 0, 0, [], []
        self.lines = [Line() for _ in range(options.words)]
        numbers = iter(range(1, options.cores * options.operations + 1))
        self.cores = [Core([(self.drawn.choice("RRRWS"), self.drawn.randrange(options.words), next(numbers))
                            for _ in range(options.operations)], options.words) for _ in range(options.cores)]

    def run(self):
        for core in range(len(self.cores)):
            self.post(self.drawn.randint(1, PAUSE), self.begin, core)
        while self.events:
            self.cycle, _, call, words = heapq.heappop(self.events)
            call(*words)
        return self.history

    def post(self, delay, call, *words):
        self.posted += 1
        heapq.heappush(self.events, (self.cycle + delay, self.posted, call, words))

    def send(self, call, *words):
        self.post(self.drawn.randint(1, DELAY), call, *words)

    def begin(self, number):
        core = self.cores[number]
        if core.done == len(core.program):
            return
        letter, word, _ = core.program[core.done]
        if core.state[word] in "ME" or letter == "R" and core.state[word] == "S":
            self.complete(number, self.cycle)
        else:
            self.send(self.receive, letter == "R", number, word)

    def complete(self, number, ordered):
        """The core's operation on its copy. `ordered` is the cycle in which the operation takes effect."""
        core = self.cores[number]
        letter, word, new = core.program[core.done]
        values = {"R": [core.value[word]], "W": [new], "S": [new, core.value[word]]}[letter]
        if letter != "R":
            core.value[word], core.state[word] = new, "M"
        stamp = ordered if self.options.stamp == "effect" else self.cycle
        self.history.append(f"{number} {letter} {8 * word:#x} {' '.join(map(str, values))} @ {stamp}")
        core.done += 1
        self.post(self.drawn.randint(1, PAUSE), self.begin, number)

    def receive(self, is_load, number, word):
        """The directory serves a request, or keeps it until it is free."""
        line = self.lines[word]
        if line.request:
            line.waiting.append((is_load, number))
            return
        line.request = is_load, number
        others = line.sharers - {number}
        if line.state == "X":
            self.send(self.recall, is_load, line.owner, word)
        elif is_load and line.state == "S":
            line.sharers.add(number)
            self.send(self.data, number, word, line.value, "S", self.cycle, self.options.blocking)
            if not self.options.blocking:
                self.free(word)
        elif others:
            line.missing = len(others)
            for other in sorted(others):
                self.send(self.invalidate, other, word)
        else:
            self.grant(word)

    def grant(self, word):
        """The one copy, exclusive, for the request that is served."""
        line = self.lines[word]
        is_load, number = line.request
        line.state, line.owner, line.sharers = "X", number, set()
        self.send(self.data, number, word, line.value, "E" if is_load else "M", self.cycle, True)

    def free(self, word):
        line = self.lines[word]
        line.request = None
        if line.waiting:
            self.receive(*line.waiting.popleft(), word)

    def invalidate(self, number, word):
        core = self.cores[number]
        if self.drawn.random() * 100 >= self.options.lost:
            if core.state[word] == "S":
                core.state[word] = "I"
            else:
                core.invalidated.add(word)
        self.send(self.acknowledged, word)

    def acknowledged(self, word):
        self.lines[word].missing -= 1
        if self.lines[word].missing == 0:
            self.grant(word)

    def recall(self, is_load, number, word):
        core = self.cores[number]
        core.state[word] = "S" if is_load else "I"
        self.send(self.returned, number, word, core.value[word])

    def returned(self, number, word, value):
        line = self.lines[word]
        is_load, asking = line.request
        line.value = value
        if is_load:
            line.state, line.owner, line.sharers = "S", None, {number, asking}
            self.send(self.data, asking, word, value, "S", self.cycle, True)
        else:
            self.grant(word)

    def data(self, number, word, value, state, sent, is_awaited):
        """Data arrives that the directory sent in the cycle `sent`. If an invalidation overtook it, it serves this one
        load, which is ordered when the data was sent, before the store that the invalidation was for."""
        core = self.cores[number]
        core.value[word], core.state[word] = value, state
        overtaken = word in core.invalidated and state == "S"
        core.invalidated.discard(word)
        self.complete(number, sent if overtaken else self.cycle)
        if overtaken:
            core.state[word] = "I"
        if is_awaited:
            self.send(self.free, word)


def main(given):
    about = Words(__doc__)
    for name, least, most, usual in (("seed", 0, 10 ** 6, 0), ("cores", 1, 64, 3), ("operations", 0, 10 ** 6, 40),
                                     ("words", 1, 10 ** 6, 3), ("lost", 0, 100, 0)):
        about.add_argument(f"--{name}", type=number(least, most), default=usual, metavar="N",
                           help=f"{least} to {most} ({usual})")
    about.add_argument("--stamp", choices=["completion", "effect"], default="completion",
                       help="which cycle stands behind the @ (completion)")
    about.add_argument("--blocking", action="store_true", help="the directory waits until a load's data has arrived")
    print("\n".join(Machine(about.parse_args(given)).run()))


if __name__ == "__main__":
    tool(main)
