"""The search for an order: operations are performed one after the other on a flat memory, depth first.

A load that can be performed is performed at once: that takes nothing from what follows. So is a write that every
order performs first of those of its word that are left. Otherwise the writes of one word are tried in turn, if one of
these must come next there and all can; else all that can. First comes the one that takes least from other chains.
States from which no way led to the end aren't tried again, and none is tried from which the chains come to a halt even
if no write takes a value away.
A write that was tried in vain sleeps until another operation uses its word. If that one is a store, the write is then
tried only where it is received from before another one comes: else it could stand where it was tried in vain.
If that takes many branches, the search begins anew and tries writes in a drawn order, then in the first one again, and
so on, with ever more branches. What one try learns of states serves the next.
"""
import random
import time
from array import array
from collections import defaultdict

from tools.orders.forced import TimeUp
from tools.orders.history import FENCE


FIRST_BRANCHES = 4   # of the first try and the second, for each operation; twice as many of the next two, and so on
AHEAD = 40           # operations of a chain that `halts` looks at
CLOCK = 32           # of so many steps, one looks at the clock: that is a call of the system
LEAST_RANK = 0.01    # undrawn ranks stay below
FREE, ASLEEP, WATCHED = range(3)  # of a chain: how the write that it stands before is to be tried


class Search:
    """`run` returns an order, as a list of nodes, or None if there is none.

    `next_on`: of each word and chain, the next operation there, or -1; `slot`: where it has an operation; `behind`:
    what then stands there; `steps`: of each chain, what `halts` asks."""

    def __init__(self, problem, forced, deadline=float("inf"), until=float("inf")):
        """It ends at the deadline of the clock, or once this process has had processor time until then."""
        self.problem, self.forced, self.deadline, self.until = problem, forced, deadline, until
        self.at, self.count = [0] * len(problem.chains), len(problem.chains)
        # The last place of these, -1, is of no operation.
        self.word, self.written, self.received = ([None] * (len(problem.operations) + 1) for _ in range(3))
        self.memory = self.number_values()
        self.next_on = [-1] * (len(self.memory) * self.count + 1)
        self.slot, self.behind = [-1] * len(self.word), [-1] * len(self.word)
        self.needs = [[(problem.chain[one], problem.place[one]) for one in into] for into in forced.into]
        self.steps = [[] for _ in problem.chains]
        self.link()
        self.ranks = self.rank = ranks(problem, forced)
        self.tries, self.last_branch = 0, FIRST_BRANCHES * len(problem.nodes)
        # Of each state on the way: how much was performed, what is to be tried yet, and the state.
        self.order, self.undo, self.frames = [], [], []
        self.dead, self.states, self.most, self.rounds, self.most_states = set(), 0, 0, 0, float("inf")
        # Each chain's mark, and the words, as bits, that a read must use next. A store's own core may see it early.
        self.marks, self.owed, self.can_sleep = [FREE] * self.count, 0, problem.model == "sc"

    def number_values(self):
        """Numbers for the words and for the pairs of a word and a value; of each word, the one that it opens with."""
        problem, values = self.problem, {}

        def number(address, value):
            return None if value is None else values.setdefault((address, value), len(values))
        words = {address: word for word, address in enumerate(
            sorted({one.address for one in problem.operations if one.kind != FENCE}))}
        for node in problem.nodes:
            operation = problem.operations[node]
            if operation.kind != FENCE:
                self.word[node] = words[operation.address]
                self.written[node] = number(operation.address, operation.written)
                self.received[node] = number(operation.address, operation.received)
        return [number(address, problem.opening.get(address, 0)) for address in words]

    def link(self):
        """What is next on each word, what is behind each operation, and each chain's steps."""
        for chain, nodes in enumerate(self.problem.chains):
            last = {}
            for node in nodes:
                word, previous = self.word[node], last.get(self.word[node], -1)
                if word is not None:
                    self.slot[node], last[word] = word * self.count + chain, node
                    if previous >= 0:
                        self.behind[previous] = node
                    else:
                        self.next_on[self.slot[node]] = node
                self.steps[chain].append(self.step(chain, node, previous))

    def step(self, chain, node, previous):
        """What `halts` asks of an operation: what it needs; of a read its value, its word, where its chain last had
        that, and whether it left another value there; of a write its value. Under total store order a load may see its
        own core's store."""
        value, written, place = self.received[node], self.written[node], self.problem.place
        left = self.received[previous] if self.written[previous] is None else self.written[previous]
        key, own_key = (None if one is None else one * self.count + chain for one in (value, written))
        return (self.needs[node], value if self.problem.own[node] is None else None, self.word[node],
                place[previous] if previous >= 0 else -1, value != left, key, written, own_key)

    def is_ready(self, needs, at):
        """All that these name has been performed, where the chains are."""
        for chain, place in needs:
            if at[chain] <= place:
                return False
        return True

    def fits(self, node):
        """What a load received, whose core stored to its word before, is what it would receive now."""
        own, received = self.problem.own[node], self.received[node]
        if self.at[self.problem.chain[own]] <= self.problem.place[own]:
            return self.written[own] == received
        return self.memory[self.word[node]] == received

    def perform(self, node):
        if self.owed or any(self.marks):
            self.mark(node)
        self.order.append(node)
        self.at[self.problem.chain[node]] += 1
        self.next_on[self.slot[node]] = self.behind[node]
        if self.written[node] is not None:
            self.undo.append(self.memory[self.word[node]])
            self.memory[self.word[node]] = self.written[node]

    def mark(self, node):
        """A write's mark ends with it: from one that is watched a read must receive next. Others on its word wake."""
        own, word, received = self.problem.chain[node], self.word[node], self.received[node]
        if received is not None:
            self.owed &= ~(1 << word)
        if self.marks[own] == WATCHED:
            self.owed |= 1 << word
        self.marks[own] = FREE
        for chain, mark in enumerate(self.marks):
            if mark == ASLEEP and self.word[self.problem.chains[chain][self.at[chain]]] == word:
                self.marks[chain] = WATCHED if received is None else FREE

    def may_go(self, node):
        """Whether a write that can be performed is to be tried, by the marks."""
        mark, word, written = self.marks[self.problem.chain[node]], self.word[node], self.written[node]
        if mark == ASLEEP or self.owed >> word & 1 and self.received[node] is None:
            return False
        if mark == FREE:
            return True
        following = [self.behind[node], *self.next_on[word * self.count:(word + 1) * self.count]]
        return any(self.received[other] == written for other in following if other != node)

    def take_back(self, length):
        """Undoes what was performed beyond the first `length` operations."""
        while len(self.order) > length:
            node = self.order.pop()
            self.at[self.problem.chain[node]] -= 1
            self.next_on[self.slot[node]] = node
            if self.written[node] is not None:
                self.memory[self.word[node]] = self.undo.pop()

    def perform_loads(self):
        """Performs loads and fences while there are some; the ready writes that stand next are returned. A load takes
        no value away, so another round only serves operations that others hold back."""
        at, written, received, memory, word, own = (self.at, self.written, self.received, self.memory, self.word,
                                                    self.problem.own)
        while True:
            is_more, is_held, writes = False, False, []
            for chain, nodes in enumerate(self.problem.chains):
                for place in range(at[chain], len(nodes)):
                    node = nodes[place]
                    value = received[node]
                    if value is not None and (memory[word[node]] != value if own[node] is None else
                                              not self.fits(node)):
                        break
                    if self.needs[node] and not self.is_ready(self.needs[node], at):
                        is_held = True
                        break
                    if written[node] is not None:
                        writes.append(node)
                        break
                    self.perform(node)
                    is_more = True
            if not (is_more and is_held):
                return writes

    def first_writes(self, word):
        """The writes of a word of which one must be next there; none if a load may receive before what the word has.
        A chain has none before a read that waits for another value."""
        found = []
        for node in self.next_on[word * self.count:(word + 1) * self.count]:
            if node >= 0 and self.received[node] in (None, self.memory[word]):
                if self.written[node] is None:
                    return []
                found.append(node)
        return found

    def choices(self, writes):
        """Of the writes that can be performed now, those that must be tried. Each other write that could be next on
        their word must come behind one of them."""
        allowed = [node for node in writes if self.may_go(node)]
        if len(writes) < 2:
            return allowed
        best, before, chain, place = allowed, self.forced.before, self.problem.chain, self.problem.place
        for word in {self.word[node] for node in writes}:
            first = self.first_writes(word)
            ready = [node for node in first if node in writes]
            tried = [node for node in ready if node in allowed]
            if ready and len(tried) < len(best) and all(
                    node in ready or any(before[node][chain[one]] > place[one] for one in ready) for node in first):
                best = tried
        return sorted(best, key=self.cost) if len(best) > 1 else best

    def cost(self, node):
        """Of a write, its rank, and what it takes from chains that use its word's value next there, the sooner the
        more; less what it gives to those that wait for its own value."""
        word, written, own, at = self.word[node], self.written[node], self.problem.chain[node], self.at
        cost, value, place = self.rank[node], self.memory[word], self.problem.place
        for chain, other in enumerate(self.next_on[word * self.count:(word + 1) * self.count]):
            if other >= 0 and chain != own:
                received, ahead = self.received[other], place[other] - at[chain]
                if received == value:
                    cost += 1 / (1 + ahead)
                elif received == written and not ahead:
                    cost -= 1
        return cost

    def halts(self):
        """Whether all chains come to a halt soon, though no write takes a value away: where a read needs another value
        than its word has, or than its chain left there, other chains must write that once more."""
        memory, at, given, used, is_more = self.memory, self.at[:], defaultdict(int), defaultdict(int), True
        while is_more:
            is_more = False
            for chain, steps in enumerate(self.steps):
                first, place = self.at[chain], at[chain]
                for needs, value, word, previous, is_turned, key, written, own_key in steps[place:first + AHEAD]:
                    if needs and not self.is_ready(needs, at):
                        break
                    if value is not None and (memory[word] != value if previous < first else is_turned):
                        if given[value] <= used[key]:
                            break
                        used[key] += 1
                    if written is not None:
                        given[written] += 1
                        used[own_key] += 1
                    place += 1
                if place == first + AHEAD < len(steps):
                    return False
                if place > at[chain]:
                    at[chain], is_more = place, True
        return any(place < len(steps) for place, steps in zip(at, self.steps))

    def state(self):
        """What all that follows depends on: a value that no chain is to receive next is as good as any other."""
        sought = {self.received[node] for node in self.next_on}
        return array("i", [*self.at, *(value if value in sought else -1 for value in self.memory)]).tobytes()

    def run(self):
        """After `TimeUp` it can be called again, with a later deadline, and goes on. Where there is one choice it isn't
        asked whether the state is known, or halts: the next one with more tells as much."""
        count, frames = len(self.problem.nodes), self.frames
        while True:
            if self.rounds % CLOCK == 0:
                self.look_at_clock()
            self.rounds += 1
            choices = self.choices(self.perform_loads())
            self.most = max(self.most, len(self.order))
            if len(self.order) == count:
                return self.order
            if len(choices) == 1:
                self.perform(choices[0])
                continue
            if self.states >= self.last_branch:
                self.begin_anew()
                continue
            if choices:
                state = self.state()
                if state not in self.dead and self.halts():
                    self.dead.add(state)
                if state not in self.dead:
                    self.states += 1
                    frames.append((len(self.order), choices[::-1], state, self.marks, self.owed))
            while frames and not frames[-1][1]:
                self.dead.add(frames.pop()[2])
            if not frames:
                return None
            self.go_on(*frames[-1])

    def go_on(self, length, left, _, marks, owed):
        """Performs the next write that is to be tried in a state on the way, and marks it there, for the next ones."""
        self.take_back(length)
        self.marks, self.owed = marks[:], owed
        node = left.pop()
        self.perform(node)
        if self.can_sleep:
            marks[self.problem.chain[node]] = ASLEEP

    def begin_anew(self):
        self.take_back(0)
        self.marks, self.owed = [FREE] * self.count, 0
        self.frames.clear()
        self.tries += 1
        self.last_branch += FIRST_BRANCHES * len(self.problem.nodes) * 2 ** (self.tries // 2)
        draw = random.Random(self.tries)
        self.rank = {node: draw.random() for node in self.ranks} if self.tries % 2 else self.ranks

    def look_at_clock(self):
        if self.states > self.most_states or time.monotonic() > self.deadline or time.process_time() > self.until:
            raise TimeUp(f"{self.most} of {len(self.problem.nodes)} operations could be put in an order, after "
                         f"{self.states} branches")


def ranks(problem, forced):
    """Which writes to try first, as small numbers: by lines, if nine of ten edges go down the text, else by the longest
    way to each."""
    down = [problem.operations[one].line < problem.operations[other].line
            for one in problem.nodes for other in forced.edges[one]]
    level = dict.fromkeys(problem.nodes, 0)
    if sum(down) * 10 < len(down) * 9:
        for node in forced.order:
            place, nodes = problem.place[node], problem.chains[problem.chain[node]]
            earlier = [*forced.into[node], *nodes[max(0, place - 1):place]]
            level[node] = 1 + max((level[one] for one in earlier), default=0)
    ranked = sorted(problem.nodes, key=lambda node: (level[node], problem.operations[node].line))
    return {node: LEAST_RANK * at / len(ranked) for at, node in enumerate(ranked)}
