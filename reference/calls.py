"""What the players of machines, seats and numbers share: how calls are read, options, and looks at cores and banks."""
from functools import lru_cache
from types import SimpleNamespace

from reference import told
from reference.texts import LAST, Unreadable, Words


# The options of a machine, with what each opens as, and the least and the greatest number that it may have.
OPTIONS = {"cores": (2, 1, 64), "banks": (1, 1, 8), "sets": (64, 1, 1024), "ways": (4, 1, 16),
           "bank-sets": (256, 1, 1024), "bank-ways": (8, 1, 16), "line-words": (1, 1, 8), "lease": (10, 1, 2 ** 32),
           "messages": (4096, 1, 65536), "time": (0, 0, 2 ** 64 - 1), "private-write": (False, False, True)}
WIDE = ("lease", "time")


class Call:
    """The kinds of words that a call has, by the names of methods of `CallWords`."""

    def __init__(self, kinds=""):
        self.kinds = kinds.split()

    def read(self, words):
        read = [getattr(words, kind)() for kind in self.kinds]
        words.end()
        return read


class CallWords(Words):
    """The words of a call, with all that it may have."""

    def options(self):
        """A machine's options, as far as they are named."""
        named = {}
        while self.left and self.left[0] != "with":
            name = self.one_of("an option", OPTIONS)
            named[name] = self.one_of("yes or no", ("yes", "no")) == "yes" if name == "private-write" else \
                self.number() if name in WIDE else self.count()
        return named

    def event(self):
        name = self.one_of("an event", EVENTS)
        return event_of(name, EVENTS[name].read(self))

    def events(self):
        events, self.left = [part.event() for part in self.parts()], []
        return events

    def steps(self):
        """A program's steps, each with how often it stands there; none behind the core are none."""
        steps = [part.step() for part in self.parts()] if self.left else []
        self.left = []
        return steps

    def step(self):
        times = self.count() if self.left and self.left[0].isdigit() and int(self.left[0]) <= LAST else 1
        if self.left[:1] == ["A"]:
            self.word("a step")
            step = told.ADVANCE
        else:
            step = self.operation()
        self.end()
        return times, step

    def keeping(self):
        """keep, forget, or none of these."""
        return self.one_of("keep or forget", ("keep", "forget")) if self.left else None

    def core_or_none(self):
        return self.count() if self.left else None

    def seat_or_none(self):
        return self.seat() if self.left else None

    def bank(self):
        """A seat that must be a bank's."""
        return self.one_of("bank", ("bank",)), self.count()

    def drawers(self):
        """1 to 16."""
        count = self.count()
        if not 1 <= count <= 16:
            raise Unreadable("a number from 1 to 16 is wanted")
        return count


EVENTS = {"issue": Call("count operation"), "attempt": Call("count"), "deliver": Call("message"),
          "evict": Call("seat line"), "advance": Call("count")}
NAMES = {"issue": "Issue", "attempt": "Attempt", "deliver": "Deliver", "advance": "Advance"}


def event_of(name, of):
    """An event as a tuple, but that lines are as they are named."""
    if name == "evict":
        (part, number), line = of
        return "EvictCache" if part == "core" else "EvictBank", number, line
    return NAMES[name], *of


class Player:
    """Plays the calls of an example. `CALLS` has each call's words, and the method of its name plays it."""

    CALLS = {}

    @classmethod
    @lru_cache(maxsize=4096)
    def read(cls, text):
        """A call with its words. Raises Unreadable."""
        words = CallWords(text.split(" "))
        name = words.word("a call")
        if name not in cls.CALLS:
            raise Unreadable("there is no such call")
        return name, cls.CALLS[name].read(words)

    def play(self, text):
        """The answer to a call that can be read."""
        name, of = self.read(text)
        return self.answer(name, of)

    def answer(self, name, of):
        return getattr(self, "call_" + name.replace("-", "_"))(*of)


def options_of(named):
    """A machine's options; None, if they are refused."""
    options = {name: named.get(name, usual) for name, (usual, _, _) in OPTIONS.items()}
    is_good = all(least <= options[name] <= most for name, (_, least, most) in OPTIONS.items())
    if not is_good or options["line-words"] not in (1, 8):
        return None
    return SimpleNamespace(**{name.replace("-", "_"): value for name, value in options.items()})


class Parts(Player):
    """Looks at the cores and banks of a machine, of one whole or of one that is cut into seats."""

    LOOKS = {"issued": Call("count"), "open": Call("count"), "victim": Call("count line"), "time": Call("count"),
             "copy": Call("count line"), "memory-time": Call("count"), "entry": Call("count line"),
             "dram": Call("count line")}

    machine = None  # and how it is told of:
    tell = None

    def open_with(self, kind, named, memory):
        """A machine of this kind; None, if its options are refused."""
        options = options_of(named)
        self.machine = kind(options, memory) if options else None
        self.tell, self.opening = told.Teller(self.machine), memory
        return f"{'opened' if self.machine else 'refused BadConfig'}"

    def number(self, line):
        """The number of a line that is named."""
        by, number = line
        return self.machine.line(number) if by == "word" else number

    def core(self, number):
        return self.machine.cores[number] if number < self.machine.o.cores else None

    def has_bank(self, number):
        return number < self.machine.o.banks

    def words_of(self, count):
        """The lines of the first `count` words."""
        return range((count - 1) // self.machine.o.line_words + 1) if count else range(0)

    def copy_at(self, core, line):
        return self.machine.find(line, self.machine.cache_set(core, line))[0] if self.core(core) else None

    def entry_at(self, bank, line):
        is_home = self.has_bank(bank) and line % self.machine.o.banks == bank
        return self.machine.find(line, self.machine.bank_set(line))[0] if is_home else None

    def call_issued(self, core):
        return told.joined(map(told.operation, self.core(core).issued if self.core(core) else []), "; ")

    def call_open(self, core):
        of = self.core(core)
        return "none" if of is None or of.op is None else told.operation(of.op) + " requested" * of.out

    def call_victim(self, core, line):
        return self.tell.line(self.machine.victim(core, self.number(line)) if self.core(core) else None)

    def call_time(self, core):
        return told.or_none(self.core(core) and self.core(core).pts)

    def call_copy(self, core, line):
        return told.copy(self.copy_at(core, self.number(line)))

    def call_memory_time(self, bank):
        return told.or_none(self.machine.mts[bank] if self.has_bank(bank) else None)

    def call_entry(self, bank, line):
        return told.entry(self.entry_at(bank, self.number(line)))

    def call_dram(self, bank, line):
        if not self.has_bank(bank):
            return "none"
        line, zeros = self.number(line), [0] * self.machine.o.line_words
        words = self.machine.dram.get(line, zeros) if line % self.machine.o.banks == bank else zeros
        return " ".join(map(str, words))

    # The parts of a line of `state`.
    def core_state(self, number, lines):
        of = self.machine.cores[number]
        yield f"core {number} time {of.pts} issued {len(of.issued)} open {self.call_open(number)}"
        for line in self.machine.copies(number):
            yield f"copy {self.tell.line(line)} {told.copy(self.copy_at(number, line))}"
        for line in lines:
            victim = self.machine.victim(number, line)
            if victim is not None:
                yield f"victim {self.tell.line(line)} {self.tell.line(victim)}"

    def bank_state(self, number, lines):
        yield f"bank {number} time {self.machine.mts[number]}"
        for line in lines:
            of = self.entry_at(number, line)
            if of:
                yield f"entry {self.tell.line(line)} {told.entry(of)}"
        for line in lines:
            words = self.machine.dram.get(line, []) if line % self.machine.o.banks == number else []
            if any(words):
                yield f"dram {self.tell.line(line)} {' '.join(map(str, words))}"
