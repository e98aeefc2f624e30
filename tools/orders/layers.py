"""All orders of at most three chains at once, if words have few values: a hard history takes no longer than another.

Layer n has all states that n operations may leave: how far each chain is, and what each word has. Of one memory, the
states of a layer are the bits of a whole number, in rows by the first chain's place and in columns by the second's;
where the third chain is follows from n. So a few steps on long numbers perform the next operations in all states. A
load that can be performed is the only step from a state: it takes nothing from what follows. A layer without states
shows that there is no order; else an order is read off from the last layer to the first.
"""
import time
from collections import defaultdict
from math import prod

from tools.orders.forced import TimeUp

CHAINS = 3
MOST_OPERATIONS = 5000
MOST_BITS = 4 * 10**9  # of all layers: half a gigabyte
END = None
ROWS = 16              # masks are made for a multiple of these


def values_of(problem):
    """Of each address, the values that it may have."""
    found = {address: {problem.opening.get(address, 0)} for address in problem.uses}
    for node in problem.nodes:
        operation = problem.operations[node]
        if operation.written is not None:
            found[operation.address].add(operation.written)
    return found


def fits(problem):
    return problem.is_plain and len(problem.chains) <= CHAINS and len(problem.nodes) <= MOST_OPERATIONS


def memories(problem):
    """How many memories there may be."""
    return prod(map(len, values_of(problem).values()))


class Masks:
    """Of one chain: where its operations of each kind stand, as the bits of a layer's states that can perform one.
    A kind is a word, the value that it has and the one that it gets; a load leaves it (None); END is behind the last
    one. `rows` has each kind's rows, as bytes."""

    def __init__(self, rows, width):
        self.rows, self.width, self.taken, self.of_kind, self.of_loads = rows, width, None, {}, {}

    def move(self, first, count):
        """Takes this count of rows, from `first` on."""
        if self.taken != (first, count):
            self.taken, self.of_loads = (first, count), {}
            taken = slice(first * self.width, (first + count) * self.width)
            self.of_kind = {kind: int.from_bytes(rows[taken], "little") for kind, rows in self.rows.items()}

    def loads(self, memory, kinds):
        """Where loads can be performed on a memory."""
        if memory not in self.of_loads:
            found = 0
            for kind in kinds:
                found |= self.of_kind.get(kind, 0)
            self.of_loads[memory] = found
        return self.of_loads[memory]


class Layers:
    """`run` returns an order, as a list of nodes, or None. `layers`: of each layer, its first row, and the states of
    each memory. `steps`: of each memory, the kinds of loads, and the kinds of writes with what they make of it."""

    def __init__(self, problem, deadline=float("inf"), until=float("inf")):
        """As the search, it ends at the deadline of the clock, or once this process has had that processor time."""
        self.problem, self.deadline, self.until = problem, deadline, until
        self.chains = [*problem.chains, [], [], []][:CHAINS]
        self.ends, self.count, self.bits = list(map(len, self.chains)), len(problem.nodes), 0
        self.values = list(values_of(problem).values())
        self.words = {address: word for word, address in enumerate(values_of(problem))}
        self.width = self.ends[1] // 8 + 1
        self.masks = [Masks({kind: rows(places) for kind, places in self.kinds(nodes).items()}, self.width)
                      for nodes, rows in zip(self.chains, (self.first_rows, self.second_rows, self.third_rows))]
        self.known, self.steps = set().union(*(masks.rows for masks in self.masks)), {}
        self.layers = [(0, {tuple(problem.opening.get(address, 0) for address in self.words): 1})]

    def kind(self, node):
        operation = self.problem.operations[node]
        return self.words[operation.address], operation.received, operation.written

    def kinds(self, nodes):
        """The places of each kind in a chain. A store is of as many kinds as there are values before it."""
        found = defaultdict(list, {END: [len(nodes)]})
        for place, node in enumerate(nodes):
            word, received, written = self.kind(node)
            for value in self.values[word] if received is None else [received]:
                found[word, value, written].append(place)
        return found

    def first_rows(self, places):
        full, rows = b"\xff" * self.width, [bytes(self.width)] * (self.ends[0] + 1)
        for place in places:
            rows[place] = full
        return b"".join(rows)

    def second_rows(self, places):
        return sum(1 << place for place in places).to_bytes(self.width, "little") * (self.ends[0] + 1)

    def third_rows(self, places):
        """A row for each number of operations beyond the first chain's, from all down to none."""
        bits, columns = sum(1 << self.ends[2] - place for place in places), (1 << 8 * self.width) - 1
        return b"".join(((bits << beyond >> self.ends[2]) & columns).to_bytes(self.width, "little")
                        for beyond in range(self.count, -1, -1))

    def steps_of(self, memory):
        if memory not in self.steps:
            loads = [(word, value, None) for word, value in enumerate(memory)]
            writes = [((word, value, written), memory[:word] + (written,) + memory[word + 1:])
                      for word, value in enumerate(memory) for written in self.values[word]
                      if (word, value, written) in self.known]
            self.steps[memory] = loads, writes
        return self.steps[memory]

    def perform(self, memory, states, after):
        """Performs the next operations in these states of a memory, and adds what they leave."""
        loads, writes = self.steps_of(memory)
        row, found = 8 * self.width, 0
        for masks, shift in zip(self.masks, (row, 1, 0)):
            ready = states & masks.loads(memory, loads)
            states ^= ready
            found |= ready << shift
        if found:
            after[memory] |= found
        if states:
            first, second, third = (masks.of_kind for masks in self.masks)
            for kind, left in writes:
                found = (states & first.get(kind, 0)) << row | (states & second.get(kind, 0)) << 1 | \
                    states & third.get(kind, 0)
                if found:
                    after[left] |= found

    def add(self, number):
        """The layer behind layer `number`, without the first row if that has no states."""
        (first, layer), after, row = self.layers[-1], defaultdict(int), 8 * self.width
        count = max(states.bit_length() for states in layer.values()) // (ROWS * row) * ROWS + ROWS
        for masks, start in zip(self.masks, (first, 0, self.count - number + first)):
            masks.move(start, count)
        for memory, states in layer.items():
            self.perform(memory, states, after)
        if not any(states & (1 << row) - 1 for states in after.values()):
            first, after = first + 1, {memory: states >> row for memory, states in after.items()}
        self.layers.append((first, after))
        self.bits += sum(states.bit_length() for states in after.values())

    def grow(self, number):
        """Whether the layer behind layer `number` has states."""
        if time.monotonic() > self.deadline or time.process_time() > self.until or self.bits > MOST_BITS:
            raise TimeUp(f"all orders of {number} of {self.count} operations were looked at")
        self.add(number)
        return bool(self.layers[-1][1])

    def run(self):
        return self.read_off() if all(map(self.grow, range(self.count))) else None

    def ends_one(self, chains):
        """Whether operations can be performed until one of these chains is at its end. If not, `reach` says how far."""
        for number in range(self.count):
            grows, ends = self.grow(number), [self.masks[chain].of_kind[END] for chain in chains]
            if any(states & end for states in self.layers[-2][1].values() for end in ends):
                return True
            if not grows:
                return False
        return True

    def reach(self):
        """How many operations of each chain can be performed, at most."""
        most, row = [0] * CHAINS, 8 * self.width
        for number, (first, layer) in enumerate(self.layers):
            for states in layer.values():
                place = first
                while states:
                    columns = states & (1 << row) - 1
                    if columns:
                        last, least = columns.bit_length() - 1, (columns & -columns).bit_length() - 1
                        most = list(map(max, most, (place, last, number - place - least)))
                    states, place = states >> row, place + 1
        return most

    def is_state(self, memory, places):
        first, layer = self.layers[sum(places)]
        row = places[0] - first
        return row >= 0 and layer.get(memory, 0) >> 8 * self.width * row + places[1] & 1

    def read_off(self):
        """An order, from its end: before each state comes one of the layer before."""
        places, (memory, *_), order = self.ends[:], self.layers[-1][1], []
        while any(places):
            chain, memory = next(self.states_before(memory, places))
            places[chain] -= 1
            order.append(self.chains[chain][places[chain]])
        return order[::-1]

    def states_before(self, memory, places):
        """The chains whose last operation may have been the last of all, with the memory before it."""
        for chain, place in enumerate(places):
            if place:
                word, received, written = self.kind(self.chains[chain][place - 1])
                earlier = [*places[:chain], place - 1, *places[chain + 1:]]
                if memory[word] == (received if written is None else written):
                    for value in self.values[word] if received is None else [received]:
                        before = memory[:word] + (value,) + memory[word + 1:]
                        if self.is_state(before, earlier):
                            yield chain, before
