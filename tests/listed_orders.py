"""Small histories, drawn, and whether listing all orders finds one: for tests/order.py."""
from decimal import Decimal
from itertools import combinations

from tools.orders.history import Operation


def programs_of(operations):
    cores = {}
    for place, operation in enumerate(operations):
        cores.setdefault(operation.core, []).append(place)
    return list(cores.values())


def has_listed_order(operations, real_time=False, ends=(), opening=()):
    """By all interleavings of the cores on one memory, up to the first value that doesn't fit. It is enough to come to
    the end of one of the cores in `ends`."""
    cores = programs_of(operations)

    def ends_before(place, done):
        start = operations[place].start
        return real_time and start is not None and any(
            other.end is not None and other.end < start and at not in done for at, other in enumerate(operations))

    def goes_on(at, memory, done):
        if len(done) == len(operations) or any(
                places[-1] in done for places in cores if operations[places[0]].core in ends):
            return True
        for number, places in enumerate(cores):
            if at[number] == len(places) or ends_before(places[at[number]], done):
                continue
            place = places[at[number]]
            operation, after = operations[place], memory
            if operation.received not in (None, memory.get(operation.address, 0)):
                continue
            if operation.written is not None:
                after = {**memory, operation.address: operation.written}
            if goes_on((*at[:number], at[number] + 1, *at[number + 1:]), after, done | {place}):
                return True
        return False
    return goes_on((0,) * len(cores), dict(opening), frozenset())


def keeps_time(operations, order):
    """No operation of an order comes behind one that started after its end: each pair is looked at."""
    return all(None in (one.start, other.end) or one.start <= other.end
               for one, other in combinations([operations[node] for node in order], 2))


def has_buffered_order(operations, opening=()):
    """By all runs of cores with a store buffer each, on one memory."""
    cores, seen = programs_of(operations), set()

    def goes_on(at, buffers, memory):
        state = at, buffers, tuple(sorted(memory.items()))
        if state in seen:
            return False
        seen.add(state)
        return all(at[number] == len(places) for number, places in enumerate(cores)) or any(
            goes_on(*after) for number in range(len(cores)) for after in steps(number, at, buffers, memory))

    def steps(number, at, buffers, memory):
        own = buffers[number]
        if own:
            yield at, put(buffers, number, own[1:]), {**memory, own[0][0]: own[0][1]}
        if at[number] == len(cores[number]):
            return
        operation, after = operations[cores[number][at[number]]], put(at, number, at[number] + 1)
        seen_there = next((value for address, value in reversed(own) if address == operation.address),
                          memory.get(operation.address, 0))
        if operation.kind == "W":
            yield after, put(buffers, number, (*own, (operation.address, operation.written))), memory
        elif operation.kind == "R":
            if seen_there == operation.received:
                yield after, buffers, memory
        elif not own and operation.kind == "F":
            yield after, buffers, memory
        elif not own and seen_there == operation.received:
            yield after, buffers, {**memory, operation.address: operation.written}

    def put(items, number, item):
        return (*items[:number], item, *items[number + 1:])
    return goes_on((0,) * len(cores), ((),) * len(cores), dict(opening))


def drawn_history(draw, fences=False):
    """At most 12 operations, and what memory opens with: an interleaving, with some values received changed."""
    count, cores, words, values = draw.randint(1, 12), draw.randint(1, 4), draw.randint(1, 3), draw.randint(1, 4)
    opening = {8 * word: draw.randint(1, values) for word in range(words) if draw.random() < 0.2}
    operations, memory, now, least = [], dict(opening), 0, draw.randint(0, 1)
    for line in range(1, count + 1):
        core, address = draw.randrange(cores), 8 * draw.randrange(words)
        kind = draw.choice("RRRWWS" + "F" * fences)
        value = draw.randint(least, values) if draw.random() < 0.7 else 10 + line
        operation = Operation(line, core, kind) if kind == "F" else Operation(
            line, core, kind, address, None if kind == "R" else value, None if kind == "W" else memory.get(address, 0))
        if operation.written is not None:
            memory[address] = value
        operation.start, operation.end = Decimal(max(0, now - draw.randint(0, 20))), Decimal(now + draw.randint(0, 9))
        now += draw.randint(0, 5)
        operations.append(operation)
    for operation in operations:
        if operation.received is not None and draw.random() < 0.3:
            written = [other.written for other in operations if other.address == operation.address]
            operation.received = draw.choice([0, *(value for value in written if value is not None)])
    return operations, opening
