"""Rings of operations: why no interleaving of a litmus test ends in a certain way.

In an execution each load receives a store of its word or the opening value, and the stores of a word come one after
the other. So one operation comes before another by one of these rules, named as herd7's family names them, with i
within a thread and e between threads:

    Pod, Pos    its thread has it first: on different words, on the same word
    Rf          it is the store that the other one sees
    Ws          it is a store that the other one overwrites
    Fr          it is a load that misses the other one, which overwrites what it sees

An order of all operations that obeys these has no ring. So an end is forbidden if all executions that end so have one.
"""
from itertools import permutations, product
from math import factorial, prod

MOST = 200_000  # executions that are tried
VERBS = {"load": "loads", "store": "stores", "swap": "swaps"}
ORDINALS = ("first", "second", "third")


class TooMany(Exception):
    """The test has more executions than are tried."""


class Event:
    """A memory instruction: its thread, its place there, and what it does. `which` is its number among its thread's
    that do the same to the word, from 0; None if it is the only one."""

    def __init__(self, test, thread, place, instruction):
        self.thread, self.place = thread, place
        self.kind, target, _, self.word = instruction
        self.is_asked = self.kind != "store" and f"{thread}:{target}" in test.seen
        self.reads, self.writes = self.kind != "store", self.kind != "load"
        self.name = next(name for name, word in test.words.items() if word == self.word)
        alike = [other for other, code in enumerate(test.threads[thread])
                 if code[0] == self.kind and code[3] == self.word]
        self.which = alike.index(place) if len(alike) > 1 else None

    def __lt__(self, other):
        return (self.thread, self.place) < (other.thread, other.place)


class Execution:
    """By load its store, or None for the opening value; by word its stores in order."""

    def __init__(self, sources, orders):
        self.sources, self.orders = sources, orders

    def rule(self, first, second):
        """Why an operation comes before another one, or None. If two swaps have several rules, that is named which says
        what the condition asks of one."""
        where = "i" if first.thread == second.thread else "e"
        if where == "i" and first.place < second.place:
            return "Pod" if first.word != second.word else "Pos"
        if first.word != second.word:
            return None
        order, source = self.orders[first.word], self.sources.get(first)
        found = {"Rf": second.reads and self.sources[second] is first,
                 "Fr": first.reads and second.writes and second in order[order.index(source) + 1 if source else 0:],
                 "Ws": first.writes and second.writes and order.index(first) < order.index(second)}
        asked = ["Rf"] * second.is_asked + ["Fr"] * first.is_asked
        return next((rule + where for rule in (*asked, *found) if found[rule] and first is not second), None)

    def ring(self, events):
        """A shortest ring, as (operation, rule) in turn; None if there is none. Among the shortest it is the first one
        that begins behind a step from another thread."""
        after = {one: [(self.rule(one, two), two) for two in events if two is not one and self.rule(one, two)]
                 for one in events}
        found = [ring for ring in (shortest(after, start) for start in events) if ring]
        return min((turned(ring) for ring in found), key=len, default=None)


def shortest(after, start):
    """A shortest way from an operation back to it."""
    paths, seen = [[(start, None)]], set()
    while paths:
        further = []
        for path in paths:
            for rule, two in after[path[-1][0]]:
                step = [*path[:-1], (path[-1][0], rule)]
                if two is start:
                    return step
                if two not in seen:
                    seen.add(two)
                    further.append([*step, (two, None)])
        paths = further
    return None


def turned(ring):
    """The ring from its first operation that another thread's comes before."""
    starts = [at for at in range(len(ring)) if ring[at - 1][1].endswith("e")] or [0]
    at = min(starts, key=lambda at: ring[at][0])
    return ring[at:] + ring[:at]


def events_of(test):
    return [Event(test, thread, place, code) for thread, column in enumerate(test.threads)
            for place, code in enumerate(column) if code[0] not in ("set", "fence")]


def values_of(test, events, sources):
    """What each operation receives and writes, and each thread's registers at its end. A value that depends on itself
    is None."""
    received, written, by_place = {}, {}, {(one.thread, one.place): one for one in events}
    for _ in range(len(events) + 1):
        registers = {}
        for thread, column in enumerate(test.threads):
            registers[thread] = values = {name: value for (of, name), value in test.start.items() if of == thread}
            for place, (kind, target, source, _) in enumerate(column):
                one = by_place.get((thread, place))
                if one and one.writes:
                    written[one] = 0 if source == "x0" else values.get(source, 0)
                if one and one.reads:
                    store = sources[one]
                    received[one] = written.get(store) if store else test.memory.get(one.word, 0)
                if kind not in ("store", "fence"):
                    values[target] = source if kind == "set" else received[one]
    return registers, written


def executions(test):
    """Those that end against the test: as `exists` and `~exists` ask, or as `forall` doesn't. Each with its events and
    its end."""
    events = events_of(test)
    writers = {word: [one for one in events if one.writes and one.word == word] for word in test.words.values()}
    readers = [one for one in events if one.reads]
    choices = [[None, *(one for one in writers[load.word] if one is not load)] for load in readers]
    count = prod([len(some) for some in choices] + [factorial(len(stores)) for stores in writers.values()])
    if count > MOST:
        raise TooMany(f"{count:,} executions, and {MOST:,} are tried")
    for chosen in product(*choices):
        sources = dict(zip(readers, chosen))
        registers, written = values_of(test, events, sources)
        for order in product(*map(permutations, writers.values())):
            execution = Execution(sources, dict(zip(writers, order)))
            end = tuple(end_of(test, execution, registers, written))
            if test.holds(end) == (test.kind != "forall"):
                yield execution, events, end


def end_of(test, execution, registers, written):
    """The values of the condition's names."""
    for name in test.seen:
        thread, _, register = name.partition(":")
        if register:
            yield name, registers[int(thread)].get(register, 0)
        else:
            order = execution.orders[test.words[name]]
            yield name, written[order[-1]] if order else test.memory.get(test.words[name], 0)


def rings_of(test):
    """The rings of the executions that end against the test, each ring once; None if an execution has none."""
    found = rings_and_ends(test)
    return found and [ring for ring, _ in found]


def rings_and_ends(test):
    """The same, each with the ends of its executions.

    If some of them are of several words, the others are left out: there one word's operations have no order already.
    """
    found = {}
    for execution, events, end in executions(test):
        ring = execution.ring(events)
        if ring is None:
            return None
        found.setdefault(tuple((one.thread, one.place, rule) for one, rule in ring), (ring, set()))[1].add(end)
    of_several = [both for both in found.values() if len({one.word for one, _ in both[0]}) > 1]
    return of_several or list(found.values())


def cycle_of(ring):
    """The ring's rules in herd7's words: PodWR Fre .."""
    words = []
    for at, (one, rule) in enumerate(ring):
        words.append(rule + role(one, ring[at - 1][1], False) + role(ring[(at + 1) % len(ring)][0],
                     ring[(at + 1) % len(ring)][1], True) if rule.startswith("Po") else rule)
    return " ".join(words)


def role(one, rule, is_left):
    """R or W: of a swap what the rule next to it, by which it is left or reached, sees of it."""
    if one.reads != one.writes or rule.startswith("Po"):
        return "R" if one.reads else "W"
    return "R" if rule.startswith("Fr" if is_left else "Rf") else "W"


def told(ring):
    """Each step of the ring in words."""
    for at, (one, rule) in enumerate(ring):
        other = ring[(at + 1) % len(ring)][0]
        near, its = f"P{one.thread}'s {ordinal(one)}{one.kind} of {one.name}", f"its {ordinal(other)}{other.kind}"
        if rule.startswith("Po") and one.word == other.word and one.kind == other.kind:
            yield f"{near} is before its {ordinal(other)}".rstrip()
        elif rule.startswith("Po") and one.which is other.which is None:
            name = "it" if one.word == other.word else other.name
            yield f"P{one.thread} {VERBS[one.kind]} {one.name} before it {VERBS[other.kind]} {name}"
        elif rule.startswith("Po"):
            yield f"{near} is before {its} of {other.name}"
        else:
            far = its if one.thread == other.thread else f"P{other.thread}'s {ordinal(other)}{other.kind}"
            why = {"Rf": "which sees it", "Ws": "which overwrites it", "Fr": "which it misses"}[rule[:2]]
            yield f"{near} is before {far}, {why}"


def ordinal(one):
    """Which it is, where its thread does the same to the word more than once."""
    if one.which is None:
        return ""
    return (ORDINALS[one.which] if one.which < len(ORDINALS) else f"{one.which + 1}th") + " "


def reason(ring):
    """The ring as one sentence."""
    return "; ".join(told(ring)) + ": a ring, so no order has it."


def brief(ring):
    """The ring in a short sentence for each thread that it visits: what it does, and what comes behind that."""
    runs = []
    for at, (one, _) in enumerate(ring):
        if at and ring[at - 1][1].startswith("Po"):
            runs[-1].append(one)
        else:
            runs.append([one])
    for run, behind in zip(runs, runs[1:] + runs[:1]):
        first, last, one = run[0], run[-1], behind[0]
        done = f"P{first.thread} {VERBS[first.kind]} {first.name}"
        if last is not first:
            done += f", then {VERBS[last.kind]} {'it' if last.word == first.word else last.name}"
        yield f"{done} before {f'P{one.thread} {VERBS[one.kind]} it' if one.thread != last.thread else 'that'}."
