"""The least part of an inconsistent history that has no order, either.

A load can always be left out: an order of all operations is one of the others, too. So can a write whose value no
operation that is kept received there. A fence can under any model. What is left out shows nothing then, and what is
kept has no order because of itself alone. Loads are left out first, since a write may go only once its readers have.
"""
import time

from tools.orders.forced import Forced, NoOrder, TimeUp
from tools.orders.layers import Layers
from tools.orders.problem import Problem
from tools.orders.search import Search

PART_SECONDS = 0.5  # of processor time, for a part; z3 seldom knows sooner


class Least:
    """`nodes`: the places in `operations` of those that are kept; `is_least`: none of them can be left out."""

    def __init__(self, operations, settings, until):
        self.operations, self.settings, self.until = operations, settings, until
        self.nodes, self.is_least, self.is_sure = sorted(
            range(len(operations)), key=lambda node: (operations[node].written is None, node)), False, True
        try:
            self.leave_out()
        except TimeUp:
            pass
        self.nodes.sort()

    def can_go(self, going, kept):
        """No operation that stays received what one that goes wrote there."""
        received = {(self.operations[node].address, self.operations[node].received) for node in kept}
        return all(self.operations[node].written is None or
                   (self.operations[node].address, self.operations[node].written) not in received for node in going)

    def has_order(self, nodes):
        """Whether a part has an order, or whether that isn't known soon."""
        now = time.process_time()
        if now > self.until:
            raise TimeUp("")
        until = min(self.until, now + PART_SECONDS)
        problem = Problem([self.operations[node] for node in sorted(nodes)], **self.settings)
        try:
            return Search(problem, Forced(problem, until=until), until=until).run() is not None
        except NoOrder:
            return False
        except TimeUp:
            self.is_sure = False
            return True

    def leave_out(self):
        """Leaves out halves, quarters and so on from the end, and at last single ones until none can go."""
        size = max(1, len(self.nodes) // 2)
        while True:
            self.is_sure = True
            before, at = len(self.nodes), len(self.nodes)
            while at > 0:
                first = max(0, at - size)
                kept = self.nodes[:first] + self.nodes[at:]
                if self.can_go(self.nodes[first:at], kept) and not self.has_order(kept):
                    self.nodes = kept
                at = first
            if size == 1 and len(self.nodes) == before:
                self.is_least = self.is_sure
                return
            size = max(1, size // 2)


class Stuck:
    """The least part, found by layers, of which no order gets to the last operation of any of these `cores`.

    An order of all would get to one of them first. Before that it has, of what is left out here, only operations that
    can always be left out, as above. What a core has behind its last operation here doesn't count."""

    def __init__(self, operations, settings, until):
        self.operations, self.settings, self.until = operations, settings, until
        self.nodes, self.cores, self.is_least = list(range(len(operations))), set(), False
        try:
            self.keeps(self.nodes)
            self.leave_out()
        except TimeUp:
            pass

    def keeps(self, nodes):
        """Keeps these alone, each core's up to the first that can't be performed, if no order gets to the last ones."""
        nodes = sorted(nodes)
        problem = Problem([self.operations[node] for node in nodes], **self.settings)
        cores = [problem.operations[chain[0]].core for chain in problem.chains]
        layers = Layers(problem, until=self.until)
        if not self.cores <= set(cores) or layers.ends_one([cores.index(core) for core in self.cores]):
            return False
        reach = layers.reach()
        self.nodes = sorted(nodes[node] for chain, end in zip(problem.chains, reach) for node in chain[:end + 1])
        self.cores = {core for core, chain, end in zip(cores, problem.chains, reach) if end < len(chain)}
        return True

    def can_go(self, going, kept):
        """No operation that stays received what one that goes wrote there, unless that is behind its core's last."""
        last = {self.operations[node].core: node for node in kept}
        received = {(self.operations[node].address, self.operations[node].received) for node in kept}
        return all(one.written is None or (one.address, one.written) not in received or
                   one.core in self.cores and node > last.get(one.core, -1)
                   for node, one in ((node, self.operations[node]) for node in going))

    def leave_out(self):
        """Leaves out words, then halves, quarters and so on, loads first; and at last single ones until none can go."""
        for address in sorted({self.operations[node].address for node in self.nodes}):
            self.try_without([node for node in self.nodes if self.operations[node].address == address])
        size, before = max(1, len(self.nodes) // 2), 0
        while size > 1 or len(self.nodes) != before:
            size, before = max(1, size // 2), len(self.nodes)
            nodes = sorted(self.nodes, key=lambda node: (self.operations[node].written is not None, node))
            for first in range(0, len(nodes), size):
                self.try_without(nodes[first:first + size])
        self.is_least = True

    def try_without(self, going):
        kept = [node for node in self.nodes if node not in going]
        if len(kept) < len(self.nodes) and self.can_go(going, kept):
            self.keeps(kept)

    def sources(self):
        """The places of these operations, and of all that they may have received from, also behind the last ones."""
        found, before = set(self.nodes), 0
        while len(found) > before:
            before, received = len(found), {(self.operations[node].address, self.operations[node].received)
                                            for node in found}
            found |= {node for node, one in enumerate(self.operations) if one.written is not None and
                      (one.address, one.written) in received}
        return sorted(found)
