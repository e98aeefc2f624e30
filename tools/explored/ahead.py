"""One search by several processes, with the same states, numbers and texts as by one.

Each process is a copy of the search as it is (fork). It takes states that are left, and says what comes after each. A
state that needs a new step, is at fault or is stuck it leaves alone. The search itself goes through all in order, gives
numbers to what is new, and looks at those that were left. So steps, and numbers of messages, are met in the same order.
Only bags get their numbers in another order, and nothing that is printed depends on those.
"""
import gc
from array import array
from concurrent.futures import ProcessPoolExecutor
from multiprocessing import get_context

from tools.explored.parts import MASK, Bags

LEAST, SHARE = 4000, 1000  # states that are left before processes are made; states that one takes at a time
NEW = 1 << 31              # from here on numbers are places among what the share met first
LEFT = 255                 # in place of how many states come after one: it is left to the search


class Copy:
    """A search as it was when the processes were made, with how many bags; and in each process its new moves."""

    search, known, moves = None, 0, []


class Missed(Exception):
    """A step isn't known."""


def missed(*_):
    raise Missed


def begin():
    """What a process changes in its copy: it makes no step, and notes its moves."""
    gc.disable()
    system = Copy.search.system
    system.begun = system.delivery = system.with_record = missed
    system.bags.move = moved


def moved(bag, move):
    bags = Copy.search.system.bags
    added = Bags.move(bags, bag, move)
    Copy.moves.append((bag, move, bags.table.values[bag + added]))
    return added


def look(first, last):
    """A share's states: how many come after each, how many of them the share met first, how many messages are in flight
    and whether it is done; the numbers of those after; what was met first, with its events; and the copy's new moves
    and bags."""
    search, system, known = Copy.search, Copy.search.system, Copy.known
    counts, firsts, flights, done = bytearray(), bytearray(), array("I"), bytearray()
    afters, events, met = array("I"), array("I"), {}
    for at in range(first, last):
        state, before = search.states[at], len(met)
        try:
            found = system.successors(state)
        except Missed:
            found = ()
        is_left = not 0 < len(found) < LEFT or any(after is None for _, after, _ in found)
        for event, after, _ in () if is_left else found:
            number = search.seen.get(after)
            if number is None:
                number = met.setdefault(after, NEW + len(met))
                if number == NEW + len(events):
                    events.append(event)
            afters.append(number)
        counts.append(LEFT if is_left else len(found))
        firsts.append(len(met) - before)
        flights.append(system.in_flight(state))
        done.append(system.is_done(state))
    values, moves = system.bags.table.values, Copy.moves[:]
    Copy.moves.clear()
    bags = {state & MASK: values[state & MASK] for state in met if state & MASK >= known}
    return counts, firsts, flights, done, afters, list(met), events, moves, bags


def ahead(search, jobs, limit):
    """For states in turn: None where the search has to look at one, or what it is to take of several."""
    while True:
        if search.levels[-1] - search.next < LEAST:
            yield None
        else:
            yield from shared(search, jobs, limit)


def shared(search, jobs, limit):
    """As `ahead`, of the states that are left on the search's level."""
    Copy.search, Copy.known = search, len(search.system.bags.count)
    gc.freeze()
    begins = range(search.next, search.levels[-1], SHARE)
    ends = [min(first + SHARE, search.levels[-1]) for first in begins]
    pool = ProcessPoolExecutor(jobs, get_context("fork"), begin)
    try:
        for share in pool.map(look, begins, ends):
            if len(search.states) + len(share[5]) < limit:
                yield from Share(search, *share).parts()
            else:
                yield from [None] * len(share[0])
    finally:
        pool.shutdown(cancel_futures=True)
        gc.unfreeze()


class Share:
    """What a process says of a share, with the search's numbers."""

    def __init__(self, search, *said):
        self.search, bags = search, search.system.bags
        self.counts, self.firsts, self.flights, self.done, self.afters, self.met, self.events, moves, new = said
        for bag, move, messages in moves:
            bags.moved[bag][move] = bags.id(messages) - bag
        self.shifts = {bag: bags.id(messages) - bag for bag, messages in new.items()}
        self.numbers = []

    def parts(self):
        """What the search is to take, up to each state that is left to it."""
        first, begin, size = 0, 0, len(self.counts)
        while first < size:
            last = self.counts.find(LEFT, first)
            last = size if last < 0 else last
            if last > first:
                end = begin + sum(self.counts[first:last])
                self.number(self.search.next, self.firsts[first:last])
                yield (self.counts[first:last], self.known(begin, end), max(self.flights[first:last]),
                       self.done[first:last])
                begin = end
            if last < size:
                yield None
            first = last + 1

    def number(self, at, firsts):
        """Gives numbers to what was met first, after each state from `at` on."""
        search, shifts, numbers, met = self.search, self.shifts, self.numbers, self.met
        states, seen = search.states, search.seen
        for at, count in enumerate(firsts, at):
            for place in range(len(numbers), len(numbers) + count):
                state = met[place]
                state += shifts.get(state & MASK, 0)
                number = seen.setdefault(state, len(states))
                if number == len(states):
                    states.append(state)
                    search.parents.append(at)
                    search.events.append(self.events[place])
                numbers.append(number)

    def known(self, begin, end):
        numbers = self.numbers
        return [number if number < NEW else numbers[number - NEW] for number in self.afters[begin:end]]
