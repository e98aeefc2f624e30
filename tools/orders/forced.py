"""What every order of a history has in common, to a fixed point.

A read receives what its source wrote. From sources, program order and real time follow more edges, by the rules of
`RULES` in reasons.py: from the one source of a read, or from what all that it may have have in common. Each round looks
at all reads, and then sorts the operations again; it is cheap if few rounds are needed. A ring of edges shows that
there is no order. So does a read without a source.
"""
import time
from bisect import bisect_left
from heapq import heappop, heappush

from tools.orders.problem import OPENING, Edge


RING_SECONDS = 2  # for looking for a shorter ring, once one is found


class NoOrder(Exception):
    """There is no order: `ring`, operations that each come before the next; or `read`, a read without a source.
    `forced` has what was known by then."""

    def __init__(self, forced, ring=(), read=None):
        super().__init__("no order")
        self.forced, self.ring, self.read = forced, ring, read


class TimeUp(Exception):
    """The time is up; `reached` says how far the work came."""

    def __init__(self, reached):
        super().__init__(reached)
        self.reached = reached


class Forced:
    """`sources[r]`: what a read may receive from; `dropped[r]`: what it can't, each with the reason.
    `before[a][c]`: how many operations of chain c come before a; `after[a][c]`: the first place of c behind a."""

    def __init__(self, problem, deadline=float("inf"), until=float("inf")):
        """It ends at the deadline of the clock, or once this process has had processor time until then."""
        self.problem, self.deadline, self.until, self.level, self.edges = problem, deadline, until, 0, problem.edges
        self.before, self.after, self.order = None, None, None
        self.into = [[] for _ in problem.operations]  # the other ends of edges to a node
        for one in problem.nodes:
            for other in self.edges[one]:
                self.into[other].append(one)
        self.sources, self.dropped = {}, {}
        self.find_sources()
        self.changed = True
        while self.changed:
            self.sort()
            self.level += 1
            self.changed = False
            for read in self.sources:
                self.narrow(read)
                self.follow(read)

    def find_sources(self):
        problem, by_value = self.problem, {}
        for node in problem.nodes:
            operation = problem.operations[node]
            if operation.written is not None:
                by_value.setdefault((operation.address, operation.written), []).append(node)
        for node in problem.nodes:
            operation = problem.operations[node]
            if operation.received is not None:
                found = [one for one in by_value.get((operation.address, operation.received), ()) if one != node]
                if problem.opening.get(operation.address, 0) == operation.received:
                    found.append(OPENING)
                self.sources[node], self.dropped[node] = found, {}
                if not found:
                    raise NoOrder(self, read=node)

    def comes_before(self, one, other):
        return self.before[other][self.problem.chain[one]] > self.problem.place[one]

    def add(self, one, other, rule, *cites):
        """An edge, if it says something new."""
        if other not in self.edges[one] and not self.comes_before(one, other):
            self.edges[one][other] = Edge(rule, cites, self.level)
            self.into[other].append(one)
            self.changed = True

    def sort(self):
        """`before`, `after` and a topological order, or `NoOrder`."""
        if time.monotonic() > self.deadline or time.process_time() > self.until:
            raise TimeUp(f"what is forced isn't known yet, after {self.level} rounds over all reads")
        problem = self.problem
        chains, chain, place = problem.chains, problem.chain, problem.place
        wait = [len(one) for one in self.into]
        for nodes in chains:
            for node in nodes[1:]:
                wait[node] += 1
        known_before, self.before, self.after = self.before, [None] * len(wait), [None] * len(wait)
        order = [nodes[0] for nodes in chains if nodes and not wait[nodes[0]]]
        for node in order:
            nodes, at = chains[chain[node]], place[node]
            known = self.before[nodes[at - 1]][:] if at else [0] * len(chains)
            known[chain[node]] = at
            for one in self.into[node]:
                known = list(map(max, known, self.before[one]))
                known[chain[one]] = max(known[chain[one]], place[one] + 1)
            self.before[node] = known
            following = list(self.edges[node])
            if at + 1 < len(nodes):
                following.append(nodes[at + 1])
            for other in following:
                wait[other] -= 1
                if not wait[other]:
                    order.append(other)
        self.order = order
        if len(order) < len(problem.nodes):
            self.before = known_before
            raise NoOrder(self, ring=self.shortest_ring({node for node in problem.nodes if wait[node]}))
        self.sort_back()

    def shortest_ring(self, left):
        """A ring of few edges of early rounds. Each ring has an edge of the last round, and lies in `left`. Those with
        one such edge are looked at first."""
        new = [(one, other) for one in left for other, edge in self.edges[one].items()
               if other in left and edge.level == self.level]
        if self.before is not None:
            new.sort(key=lambda edge: not self.comes_before(edge[1], edge[0]))
        best, least, until = None, float("inf"), time.process_time() + RING_SECONDS
        for one, other in new:
            if best is None or time.process_time() < until:
                found = self.path(other, one, self.level + 1, left, least - 1 - self.level)
                if found:
                    best, least = found[0], found[1] + 1 + self.level
        return best

    def path(self, start, goal, level, within=None, limit=float("inf")):
        """A short path by edges of earlier rounds, and its length below the limit; or None. The later its round, the
        longer is an edge; the steps of a chain count nothing."""
        chains, chain, place = self.problem.chains, self.problem.chain, self.problem.place
        lengths, came, heap = {start: 0}, {start: None}, [(0, start)]
        while heap:
            length, node = heappop(heap)
            if node == goal:
                path = [node]
                while came[path[-1]] is not None:
                    path.append(came[path[-1]])
                return path[::-1], length
            if length > lengths[node]:
                continue
            steps = [(other, 1 + edge.level) for other, edge in self.edges[node].items() if edge.level < level]
            if place[node] + 1 < len(chains[chain[node]]):
                steps.append((chains[chain[node]][place[node] + 1], 0))
            for other, more in steps:
                if (within is None or other in within) and length + more < min(limit, lengths.get(other, limit)):
                    lengths[other], came[other] = length + more, node
                    heappush(heap, (length + more, other))
        return None

    def sort_back(self):
        problem = self.problem
        chains, chain, place = problem.chains, problem.chain, problem.place
        ends = [len(nodes) for nodes in chains]
        for node in reversed(self.order):
            nodes, at = chains[chain[node]], place[node]
            known = self.after[nodes[at + 1]][:] if at + 1 < len(nodes) else ends[:]
            known[chain[node]] = at + 1
            for other in self.edges[node]:
                known = list(map(min, known, self.after[other]))
                known[chain[other]] = min(known[chain[other]], place[other])
            self.after[node] = known

    def differs(self, node, read):
        """Whether the word has another value there than the read received, or one that this operation wrote."""
        operations = self.problem.operations
        operation = operations[node]
        if operation.written is not None:
            return node != read
        return operation.received != operations[read].received and self.problem.own[node] is None

    def others_before(self, read):
        """Of each chain, the last operation before a read that differs from it."""
        for chain, places in self.problem.uses[self.problem.operations[read].address].items():
            nodes = self.problem.chains[chain]
            for at in range(bisect_left(places, self.before[read][chain]) - 1, -1, -1):
                if self.differs(nodes[places[at]], read):
                    yield nodes[places[at]]
                    break
        if self.problem.own[read] is not None:
            yield self.problem.own[read]

    def others_after(self, firsts, read):
        """Of each chain, the first operation from these places on that differs from a read."""
        for chain, places in self.problem.uses[self.problem.operations[read].address].items():
            nodes = self.problem.chains[chain]
            for at in range(bisect_left(places, firsts[chain]), len(places)):
                if self.differs(nodes[places[at]], read):
                    yield nodes[places[at]]
                    break

    def narrow(self, read):
        """Drops sources that other facts rule out; at least one must be left."""
        sources, own = self.sources[read], self.problem.own[read]
        if len(sources) == 1 and (sources[0] != OPENING or own is None):
            return
        earlier, left, chain, place = list(self.others_before(read)), [], self.problem.chain, self.problem.place
        firsts, ends = list(map(max, zip(*(self.before[other] for other in earlier)))), self.after[read]
        for source in sources:
            at = None if source == OPENING else chain[source]
            is_between = at is not None and (firsts[at] if earlier else 0) <= place[source] < ends[at]
            reason = None if is_between else self.reason_against(read, source, earlier)
            if reason is None:
                left.append(source)
            else:
                self.dropped[read][source] = (*reason, self.level)
        if len(left) < len(sources):
            self.sources[read], self.changed = left, True
        if not left:
            raise NoOrder(self, read=read)

    def reason_against(self, read, source, earlier):
        if source == OPENING:
            return ("written", earlier[0]) if earlier else None
        if self.comes_before(read, source) and source != self.problem.own[read]:
            return "later", read
        for other in earlier:
            if other != source and self.comes_before(source, other):
                return "overwritten", other
        return None

    def follow(self, read):
        """The edges that follow from a read's one source."""
        sources, own = self.sources[read], self.problem.own[read]
        if len(sources) > 1:
            if own not in sources:
                self.follow_all(read, self.ends(sources))
            return
        source, = sources
        if source == OPENING:
            for other in self.others_after([0] * len(self.problem.chains), read):
                self.add(read, other, "opening", read)
            return
        if source != own:
            self.add(source, read, "source", read, source)
        for other in self.others_before(read):
            if other != source:
                self.add(other, source, "earlier", read, source)
        for other in self.others_after(self.after[source], read):
            self.add(read, other, "overwrites", read, source)

    def ends(self, sources):
        """Of each chain, the first and the last of these sources; the opening isn't among them."""
        chain, firsts, lasts = self.problem.chain, {}, {}
        for source in sources:
            if source != OPENING:
                firsts.setdefault(chain[source], source)
                lasts[chain[source]] = source
        return firsts.values(), lasts.values()

    def follow_all(self, read, ends):
        """The edges that follow from what all sources of a read have in common."""
        sources, (firsts, lasts) = self.sources[read], ends
        chains, chain, place = self.problem.chains, self.problem.chain, self.problem.place
        beyond = [max((self.after[source][at] for source in lasts), default=0) for at in range(len(chains))]
        for other in self.others_after(beyond, read):
            self.add(read, other, "all before", read)
        if OPENING in sources:
            return
        behind = [min(place[source] + 1 if chain[source] == at else self.before[source][at] for source in firsts)
                  for at in range(len(chains))]
        for nodes, first in zip(chains, behind):
            if first:
                self.add(nodes[first - 1], read, "all behind", read)
        last = [max(place[source] if chain[source] == at else self.after[source][at] for source in lasts)
                for at in range(len(chains))]
        for other in self.others_before(read):
            if other not in sources:
                for nodes, first in zip(chains, last):
                    if first < len(nodes):
                        self.add(other, nodes[first], "all between", read)
