"""What an order is asked of: the operations of a history as nodes in chains, with what orders them from the start.

Under sequential consistency each core is one chain, its program order. Under total store order each core's stores
take effect later, in their order: loads and fences are one chain, stores and swaps another. A swap or a fence comes
behind all that stands before it, and before all that stands behind it; a store behind the loads before it.
"""
from bisect import bisect_left

from tools.orders.history import FENCE, LOAD, STORE, SWAP

OPENING = -1  # as the source of a read: the word's opening value


class Edge:
    """One operation before another, with the rule that says so (`RULES` in reasons.py) and what the rule cites."""

    __slots__ = ("rule", "cites", "level")

    def __init__(self, rule, cites=(), level=0):
        self.rule, self.cites, self.level = rule, cites, level


class Problem:
    """`chains`: lists of nodes; `chain`, `place`: where each node is; `edges[a][b]`: an `Edge` from a to b, beyond the
    chains; `is_plain`: from the start there is none; `own[r]`: of a load under total store order, the last store of its
    word before it on its core."""

    def __init__(self, operations, model="sc", real_time=False, opening=None):
        self.operations, self.model, self.opening = operations, model, opening or {}
        self.is_plain = model == "sc" and not real_time
        if self.is_plain:
            self.nodes = [node for node, operation in enumerate(operations) if operation.kind != FENCE]
        else:
            self.nodes = list(range(len(operations)))
        count = len(operations)
        self.chains, self.chain, self.place = [], [None] * count, [None] * count
        self.edges, self.own = [{} for _ in operations], [None] * count
        (self.chain_by_core if model == "sc" else self.chain_by_buffers)()
        if real_time:
            self.add_real_time()
        self.writes = self.by_word(lambda operation: operation.written is not None)
        self.uses = self.by_word(lambda _: True)

    def by_word(self, wanted):
        """Of each address, the chains that have such operations there, with their places in order."""
        found = {}
        for chain, nodes in enumerate(self.chains):
            for place, node in enumerate(nodes):
                operation = self.operations[node]
                if operation.kind != FENCE and wanted(operation):
                    found.setdefault(operation.address, {}).setdefault(chain, []).append(place)
        return found

    def append(self, chain, node):
        self.chain[node], self.place[node] = chain, len(self.chains[chain])
        self.chains[chain].append(node)

    def chain_by_core(self):
        chain_of = {}
        for node in self.nodes:
            core = self.operations[node].core
            if core not in chain_of:
                chain_of[core] = len(self.chains)
                self.chains.append([])
            self.append(chain_of[core], node)

    def chain_by_buffers(self):
        chain_of, last_store, last_swap = {}, {}, {}
        for node in self.nodes:
            operation = self.operations[node]
            core, kind = operation.core, operation.kind
            if core not in chain_of:
                chain_of[core] = len(self.chains)
                self.chains += [], []
            loads = chain_of[core]
            stores = loads + 1
            behind = {FENCE: self.chains[stores], STORE: self.chains[loads], SWAP: self.chains[loads],
                      LOAD: last_swap.get(core, [])}[kind]
            for one in behind[-1:]:
                self.edges[one][node] = Edge("program")
            if kind == LOAD:
                self.own[node] = last_store.get((core, operation.address))
            elif kind != FENCE:
                last_store[core, operation.address] = node
            if kind == SWAP:
                last_swap[core] = [node]
            self.append(loads if kind in (LOAD, FENCE) else stores, node)

    def add_real_time(self):
        """An edge to each operation from the last one of each chain that ended before it started."""
        for nodes in self.chains:
            least, ends = None, []  # of the operations from each place on, the first end
            for node in reversed(nodes):
                end = self.operations[node].end
                least = end if least is None or end is not None and end < least else least
                ends.append(float("inf") if least is None else least)
            ends.reverse()
            for node in self.nodes:
                start = self.operations[node].start
                last = 0 if start is None else bisect_left(ends, start)
                if last and not (nodes[last - 1] == node or self.comes_before(nodes[last - 1], node)):
                    self.edges[nodes[last - 1]].setdefault(node, Edge("real time"))

    def comes_before(self, one, other):
        return self.chain[one] == self.chain[other] and self.place[one] < self.place[other]
