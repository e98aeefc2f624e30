"""One step of one part of a machine, made by the machine's own code.

An event is at one core, one bank or DRAM, and depends on that part, the delivered message and how many are in flight.
So a step is made on a machine that has that part alone: what looks at another part raises `Elsewhere`. It is made
twice, with other numbers of messages, records and counts; if the two differ (`Numbered`), states without numbers
aren't sound. What is written in a step may be read in it, too.
"""
import sys
from dis import findlinestarts
from pathlib import Path
from traceback import walk_tb
from types import SimpleNamespace

from tools.explored.frozen import Elsewhere, Numbered, Unread, frozen, thawed

KNOWN = {"o", "cores", "mts", "bank_sets", "dram", "flight", "sent", "records", "counts", "stopped"}
# What a core has beside its fields: its sets, and the operations that it was issued, which only grow.
NOT_FIELDS = ("sets", "issued")
# What numbers of messages, records and the like begin with, where a step is made twice.
NUMBERS = (0, 2 ** 61 - 1)


class Number(int):
    """A message's number, or how many were sent. A rule may only count on, and find a message by it."""

    def __add__(self, other):
        return Number(int(self) + other)

    __radd__ = __add__

    def look(self, *_):
        raise Numbered("a rule reads a number of messages")

    __lt__ = __le__ = __gt__ = __ge__ = __bool__ = look
    __sub__ = __rsub__ = __mul__ = __floordiv__ = __mod__ = __divmod__ = __and__ = __rshift__ = look


class Only:
    """A list of which one place is there, or none."""

    def __init__(self, size, at=None, one=None):
        self.size, self.at, self.one = size, at, one

    def __len__(self):
        return self.size

    def __getitem__(self, at):
        if at != self.at:
            raise Elsewhere("a rule looks at another part")
        return self.one

    def __setitem__(self, at, one):
        self[at]
        self.one = one

    def __iter__(self):
        raise Elsewhere("a rule looks at all parts")


class Nowhere:
    """What isn't there: each look at it is one elsewhere."""

    def __getattr__(self, name):
        raise Elsewhere("a rule looks at another part")

    def look(self, *_):
        raise Elsewhere("a rule looks at another part")

    __getitem__ = __setitem__ = __contains__ = __iter__ = __len__ = __bool__ = look


class Added:
    """A list of which only the length is known, and that grows."""

    def __init__(self, size):
        self.size, self.new = size, []

    def __len__(self):
        return self.size + len(self.new)

    def append(self, one):
        self.new.append(one)

    def __getitem__(self, at):
        raise Elsewhere("a rule looks at records or issued operations")

    def __iter__(self):
        raise Elsewhere("a rule looks at records or issued operations")


class Flight(dict):
    """The messages in flight, of which only the delivered one is known, and how many there are. `asked` says whether
    anything asked for that."""

    def __init__(self, known, count):
        super().__init__(known)
        self.others, self.asked = count - len(known), False

    def __len__(self):
        self.asked = True
        return self.others + super().__len__()

    def all(self):
        return dict(dict.items(self))

    def look(self, *_):
        raise Elsewhere("a rule looks at other messages")

    def __contains__(self, number):
        return super().__contains__(number) or self.look()

    __iter__ = __missing__ = keys = values = items = get = look


def failure(error, module):
    """The kind of an error in the machine's code, and where it is there."""
    lines = [line for frame, line in walk_tb(error.__traceback__) if frame.f_code.co_filename == module.__file__]
    return type(error).__name__ + (f", line {lines[-1]} of {Path(module.__file__).name}" if lines else "")


class Tables:
    """Values by their numbers, from 0 in the order in which they were first met."""

    def __init__(self):
        self.ids, self.values = {}, []

    def id(self, value):
        found = self.ids.get(value)
        if found is None:
            found = self.ids[value] = len(self.values)
            self.values.append(value)
        return found


class Lines:
    """Which lines of the machine's code ran."""

    def __init__(self, module):
        self.file, self.ran = module.__file__, set()

    def trace(self, frame, event, _):
        if frame.f_code.co_filename != self.file:
            return None
        self.ran.add(frame.f_lineno)
        return self.trace

    def traced(self, step, event):
        """A step of a machine. What traced the caller, as a debugger does, goes on behind it."""
        before = sys.gettrace()
        sys.settrace(self.trace)
        try:
            return step(event)
        finally:
            sys.settrace(before)

    def never(self, module):
        """Those of the machine's methods that never ran."""
        codes = [method.__code__ for name, method in vars(module.Machine).items()
                 if hasattr(method, "__code__") and name not in BESIDE]
        lines = set()
        while codes:
            code = codes.pop()
            lines |= {line for _, line in findlinestarts(code) if line and line != code.co_firstlineno}
            codes += [const for const in code.co_consts if hasattr(const, "co_code")]
        return sorted(lines - self.ran)


# Methods of the machine that make no event.
BESIDE = ("__init__", "totals", "about", "copies", "nodes", "entries", "room_for", "room_of", "victim", "line_at")


class Maker:
    """Makes steps of parts: of the machine's module, with its options, the shapes of values (frozen.py) and what notes
    the rows of PROTOCOL's tables that were met (rows.py)."""

    def __init__(self, module, options, shapes, rows):
        self.module, self.options, self.shapes, self.rows = module, options, shapes, rows
        self.lines, self.made = Lines(module), 0

    # The parts as values.
    def core_value(self, core):
        fields = tuple(sorted((name, frozen(value)) for name, value in vars(core).items() if name not in NOT_FIELDS))
        return fields, self.shapes.sets(core.sets, self.shapes.copy)

    def bank_value(self, mts, sets):
        return frozen(mts), self.shapes.sets(sets, self.shapes.entry)

    def core_of(self, value, first=0):
        return SimpleNamespace(sets=self.sets_of(value[1]), issued=Added(first),
                               **{name: thawed(one) for name, one in value[0]})

    def sets_of(self, value):
        sets = Sets()
        for number, places in value:
            sets[number] = list(map(self.shapes.held, places))
        return sets

    # A machine with one part.
    def machine(self, part, value, message, count, first):
        """`part` is ("core", number), ("bank", number) or ("dram",). A delivered message has number `first`."""
        machine, o = object.__new__(self.module.Machine), self.options
        kind, *at = part
        machine.o, machine.stopped, machine.sent = o, False, Number(first + 1)
        machine.cores, machine.mts, machine.bank_sets = Only(o.cores), Only(o.banks), Only(o.banks)
        machine.dram = Nowhere()
        if kind == "core":
            machine.cores = Only(o.cores, at[0], self.core_of(value, first))
        elif kind == "bank":
            machine.mts = Only(o.banks, at[0], thawed(value[0]))
            machine.bank_sets = Only(o.banks, at[0], self.sets_of(value[1]))
        else:
            machine.dram = thawed(value)
        machine.flight = Flight({} if message is None else {first: self.shapes.held(message)}, count)
        machine.records, machine.counts = Added(first), dict.fromkeys(self.module.COUNTED, Number(first))
        return machine

    def value_of(self, part, machine):
        if part[0] == "core":
            return self.core_value(machine.cores.one)
        if part[0] == "bank":
            return self.bank_value(machine.mts.one, machine.bank_sets.one)
        return frozen(machine.dram)

    def step(self, part, value, event, message=None, count=1):
        """The result of an event: the answer or the failure, the part after it, the messages that were sent, whether
        the delivered one was taken, and a record; and whether the count of messages in flight was asked for."""
        once, again = (self.step_from(part, value, event, message, count, first) for first in NUMBERS)
        if once != again:
            raise Numbered("a rule reads a number of messages or records")
        return once

    def step_from(self, part, value, event, message, count, first):
        machine = self.machine(part, value, message, count, first)
        row = self.rows.look(machine, event, first)
        self.made += first == 0
        answer, failed = None, None
        try:
            answer = self.lines.traced(machine.step, (*event, Number(first)) if event[0] == "Deliver" else event)
        except (Unread, Elsewhere):
            raise
        except Exception as error:
            failed = failure(error, self.module)
        if set(vars(machine)) != KNOWN:
            raise Elsewhere("the machine has more than cores, banks, DRAM and messages")
        left = {int(number): m for number, m in machine.flight.all().items()}
        self.rows.met(row, answer, [m.kind for number, m in left.items() if number > first], failed)
        sent = tuple(self.shapes.message(m) for number, m in left.items() if number > first)
        records = tuple(tuple(record)[:-1] for record in machine.records.new)
        return SimpleNamespace(answer=answer, failed=failed, value=self.value_of(part, machine), sent=sent,
                               taken=message is not None and first not in left, records=records,
                               asked=machine.flight.asked)


class Sets(dict):
    """A cache's or bank's sets; one that isn't there is empty."""

    def __missing__(self, number):
        self[number] = []
        return self[number]
