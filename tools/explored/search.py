"""All states that are reached, breadth first, and what is wrong with them.

A system has `start()`, `successors(state)`, a list of (event, the state after it or None, a fault or 0), `is_done`,
`end` and `in_flight` of a state. States are numbered in the order in which they are first met, so the first state of a
kind is one of those with the fewest events.
"""
from array import array
from itertools import accumulate, compress, count, repeat


class Saved:
    """A system that can be kept in a file: without what is made anew from the options."""

    GIVEN = ("module", "options", "subject", "how", "shapes", "rows", "maker", "programs")

    def __getstate__(self):
        kept = {name: value for name, value in vars(self).items() if name not in self.GIVEN}
        return kept | {"seen": self.rows.seen, "ran": self.maker.lines.ran}

    def attach(self, other):
        """Takes what isn't saved from another one."""
        for name in self.GIVEN:
            setattr(self, name, getattr(other, name))
        self.rows.seen, self.maker.lines.ran = vars(self).pop("seen"), vars(self).pop("ran")


class Search:
    def __init__(self, system):
        self.system = system
        start = system.start()
        self.states, self.seen = [start], {start: 0}
        self.parents, self.events = array("I", [0]), array("I", [0])
        self.afters, self.begins = array("I"), array("I")  # the states after each state, one after the other
        self.next, self.levels = 0, [0]  # the first state that isn't looked at yet; each level's first state
        self.made, self.most = 0, 0
        self.ends = {}        # by end: the first state that shows it
        self.faults = {}      # by fault: the state before it and its event
        self.faulty, self.done, self.stuck = set(), set(), []

    def run(self, limit, is_first=False, looked=repeat(None)):
        """Looks at states until none is left, as many as `limit` were met, or there is a fault and `is_first`.
        Whether none is left. `looked` says of each state in turn what others found (ahead.py), or None."""
        while self.next < len(self.states) and len(self.states) < limit:
            if self.next == self.levels[-1]:
                self.levels.append(len(self.states))
            found = next(looked)
            if found is None:
                self.look(self.next)
            else:
                self.take(*found)
            if is_first and self.is_wrong():
                break
        return self.next == len(self.states)

    def look(self, at):
        """Makes the events of a state."""
        seen, states, state, afters = self.seen, self.states, self.states[at], []
        found = self.system.successors(state)
        for event, after, fault in found:
            if after is None:
                self.faults.setdefault(fault, (at, event))
                self.faulty.add(at)
                continue
            number = seen.get(after)
            if number is None:
                number = seen[after] = len(states)
                states.append(after)
                self.parents.append(at)
                self.events.append(event)
            afters.append(number)
        is_done = self.system.is_done(state)
        if not found and not is_done:
            self.stuck.append(at)
        self.made += len(found) - len(afters)
        self.take([len(afters)], afters, self.system.in_flight(state), [is_done])

    def take(self, counts, afters, most, done):
        """Notes of the next states how many come after each, which, how many messages are in flight at most, and which
        are done."""
        self.begins.extend(accumulate(counts[:-1], initial=len(self.afters)))
        self.afters.extend(afters)
        self.made += len(afters)
        self.most = max(self.most, most)
        for at in compress(count(self.next), done):
            self.done.add(at)
            self.ends.setdefault(self.system.end(self.states[at]), at)
        self.next += len(counts)

    def is_wrong(self):
        """Whether a fault or a stuck state was met; an end of time is none."""
        return bool(self.stuck) or any(self.system.faults.values[fault - 1][0] != "exhausted" for fault in self.faults)

    @property
    def depth(self):
        """The most events to a state, as far as all were met."""
        return len(self.levels) - 2 if self.next == len(self.states) else len(self.levels) - 1

    def path(self, at):
        """The events to a state."""
        path = []
        while at:
            path.append(self.events[at])
            at = self.parents[at]
        return path[::-1]

    def lost(self):
        """The states that aren't stuck, and from which no end is reached, and no fault, and none that wasn't looked
        at. Most edges go to later states, so a few sweeps from the last state to the first find all."""
        leads = bytearray(self.next) + b"\1" * (len(self.states) - self.next)
        for of in (self.done, self.faulty):
            for at in of:
                leads[at] = 1
        is_changed = True
        while is_changed:
            is_changed, end = False, len(self.afters)
            for at in range(self.next - 1, -1, -1):
                begin = self.begins[at]
                if not leads[at] and any(leads[after] for after in self.afters[begin:end]):
                    leads[at] = is_changed = 1
                end = begin
        stuck = set(self.stuck)
        return [at for at in range(self.next) if not leads[at] and at not in stuck]
