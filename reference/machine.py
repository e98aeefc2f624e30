"""The machine of docs/PROTOCOL.md: cores with their copies, banks with their entries, DRAM, and messages in flight.

An event is a tuple: ("Issue", core, step), ("Attempt", core), ("Deliver", number), ("EvictCache", core, line),
("EvictBank", bank, line) or ("Advance", core). An operation is a tuple (kind, word, value): kind is "load", "store" or
"swap", and a load's value is None. `step` answers an event by the name of the answer or of the refusal.
"""
from collections import defaultdict, namedtuple
from types import SimpleNamespace

COUNTED = {"RenewRep": "renewals", "UpgradeRep": "upgrades", "FlushRep": "flushes", "WbRep": "write-backs"}
UNDER_WAY = ("Loading", "Recalling", "Storing")
TO_CORE = ("ShRep", "ExRep", "RenewRep", "UpgradeRep", "FlushReq", "WbReq")
TO_DRAM = ("DramLd", "DramSt")
FROM_DRAM = ("DramLdRep", "DramStRep")
EVENTS = {"Issue": "issue", "Attempt": "attempt", "Deliver": "deliver", "EvictCache": "evict_cache",
          "EvictBank": "evict_bank", "Advance": "advance"}

Record = namedtuple("Record", "core place kind word value received time number")


class Refusal(Exception):
    """An event is refused before anything changed; its text is the refusal's name."""


def fit(n):
    if n < 2 ** 64:
        return n
    raise Refusal("Exhausted")


class Machine:
    """A core's set lists its copies and a bank's set its entries, those that aren't absent, from the least to the most
    recently used."""

    def __init__(self, options, cores, memory):
        self.o = options
        # op is the open operation, and out tells whether its request is out; issued has all operations, and done counts
        # the completed ones.
        self.cores = [SimpleNamespace(pts=options.time, op=None, out=False, issued=[], done=0, sets=defaultdict(list))
                      for _ in range(cores)]
        self.mts = [options.time] * options.banks
        self.bank_sets = [defaultdict(list) for _ in range(options.banks)]
        self.dram = {}                   # line -> words, zeros where it isn't there
        for word, value in memory.items():
            self.dram.setdefault(self.line(word), [0] * options.line_words)[word % options.line_words] = value
        self.flight, self.sent = {}, 0   # messages in flight by number; how many were sent
        self.records = []                # by completion number
        self.counts = dict.fromkeys(COUNTED, 0)
        self.stopped = False

    @property
    def issued(self):
        """How many operations all cores were issued."""
        return sum(len(core.issued) for core in self.cores)

    def totals(self):
        """How many messages of the counted kinds were sent, by the names of reports."""
        return {name: self.counts[kind] for kind, name in COUNTED.items()}

    def line(self, word):
        return word // self.o.line_words

    def line_at(self, number):
        """The line of a core's open operation, or None."""
        op = self.cores[number].op
        return None if op is None else self.line(op[1])

    def cache_set(self, core, line):
        return self.cores[core].sets[line % self.o.sets]

    def bank_set(self, line):
        return self.bank_sets[line % self.o.banks][(line // self.o.banks) % self.o.bank_sets]

    def find(self, line, places):
        """The line's copy or entry or None, and the set."""
        return next((place for place in places if place.line == line), None), places

    def send(self, kind, line, core=None, **carried):
        self.flight[self.sent] = SimpleNamespace(kind=kind, line=line, core=core, **carried)
        self.sent += 1
        if kind in self.counts:
            self.counts[kind] += 1

    def start(self, *message, **carried):
        """Sends a message that is no answer to a delivered one, so it needs a place."""
        if len(self.flight) >= self.o.messages:
            raise Refusal("NetworkFull")
        self.send(*message, **carried)

    def line_of(self, holder):
        return dict(wts=holder.wts, rts=holder.rts, words=list(holder.words))

    def about(self, event):
        """An event in words: what a message carries, and the operation that is issued or open."""
        name, *of = event
        words = [name, *(str(one) for one in of if not isinstance(one, tuple))]
        if name == "Deliver":
            words += [f"{key}={value}" for key, value in vars(self.flight[of[0]]).items() if value is not None]
        if name in ("Issue", "Attempt"):
            op = of[1] if name == "Issue" else self.cores[of[0]].op
            words += [str(part) for part in op or () if part is not None]
        return " ".join(words)

    def step(self, event):
        """The answer to an event. Exhausted stops the machine; no refusal changes anything else."""
        if self.stopped:
            return "Stopped"
        name, *of = event
        if name not in ("Deliver", "EvictBank") and of[0] >= len(self.cores):
            return "NoSuch"
        try:
            return getattr(self, EVENTS[name])(*of)
        except Refusal as refusal:
            self.stopped = str(refusal) == "Exhausted"
            return str(refusal)

    # Events of a core.
    def issue(self, number, op):
        if self.cores[number].op:
            raise Refusal("Busy")
        self.cores[number].op = op
        self.cores[number].issued.append(op)
        return "Issued"

    def advance(self, number):
        self.cores[number].pts = fit(self.cores[number].pts + 1)
        return "Advanced"

    def attempt(self, number):
        core = self.cores[number]
        if not core.op:
            return "Idle"
        (kind, word, _), line = core.op, self.line(core.op[1])
        copy, copies = self.find(line, self.cache_set(number, line))
        if copy and (copy.state == "Exclusive" or kind == "load" and core.pts <= copy.rts):
            self.complete(number, copy, copies)
            return "Completed"
        if core.out:
            return "Waiting"
        if not copy and len(copies) >= self.o.ways:
            return "NoRoom"
        # No copy has no version: None, which equals none.
        self.start("ShReq" if kind == "load" else "ExReq", line, number, pts=core.pts, version=copy and copy.wts)
        core.out = True
        return "Requested"

    def complete(self, number, copy, copies):
        core = self.cores[number]
        (kind, word, value), index = core.op, core.op[1] % self.o.line_words
        received = copy.words[index] if kind != "store" else None
        if kind == "load":
            time = max(core.pts, copy.wts)
            if copy.state == "Exclusive":
                copy.rts = max(copy.rts, time)
        else:
            private = self.o.private_write and copy.written
            time = max(core.pts, copy.rts if private else fit(copy.rts + 1))
            copy.wts, copy.rts, copy.words[index], copy.written = time, time, value, True
        copies.append(copies.pop(copies.index(copy)))
        self.records.append(Record(number, core.done, kind, word, value, received, time, len(self.records)))
        core.pts, core.op, core.done = time, None, core.done + 1

    def evict_cache(self, number, line):
        copy, copies = self.find(line, self.cache_set(number, line))
        if not copy:
            raise Refusal("NoSuch")
        if self.line_at(number) == line:
            raise Refusal("Pinned")
        if copy.state == "Exclusive":
            self.start("FlushRep", line, number, **self.line_of(copy))
        copies.remove(copy)
        return "Evicted"

    def victim(self, number, line):
        """The line to evict for a line that has no place in the core's cache, or None."""
        copy, copies = self.find(line, self.cache_set(number, line))
        return copies[0].line if not copy and len(copies) >= self.o.ways else None

    def copies(self, number):
        """The lines of a core's copies, rising."""
        return sorted(copy.line for copies in self.cores[number].sets.values() for copy in copies)

    def nodes(self, m):
        """Where a message is from, and where it goes to: a letter and a number."""
        bank = ("b", m.line % self.o.banks)
        if m.kind in TO_CORE:
            return bank, ("c", m.core)
        if m.kind in TO_DRAM:
            return bank, ("d", bank[1])
        return (("d", bank[1]) if m.kind in FROM_DRAM else ("c", m.core)), bank

    # Deliveries. A message that is answered leaves its place to the answer.
    def deliver(self, number):
        if number not in self.flight:
            raise Refusal("NoSuch")
        answer = self.take_in(self.flight[number])
        if answer in ("Delivered", "Dropped"):
            del self.flight[number]
        return answer

    def take_in(self, m):
        """What the part that a message goes to makes of it."""
        at = dict(DramLd=self.at_dram, DramSt=self.at_dram, ShReq=self.request, ExReq=self.request,
                  FlushRep=self.returned, WbRep=self.returned, DramLdRep=self.returned, DramStRep=self.returned)
        return at.get(m.kind, self.at_core)(m)

    def at_dram(self, m):
        if m.kind == "DramSt":
            self.dram[m.line] = m.words
        self.send(m.kind + "Rep", m.line, words=self.dram.get(m.line, [0] * self.o.line_words))
        return "Delivered"

    def at_core(self, m):
        if m.kind in ("FlushReq", "WbReq"):
            return self.recall(m)
        core = self.cores[m.core]
        copy, copies = self.find(m.line, self.cache_set(m.core, m.line))
        assert self.line_at(m.core) == m.line and core.out
        core.out = False
        if m.kind in ("ShRep", "ExRep"):
            if copy:
                copies.remove(copy)
            assert len(copies) < self.o.ways
            copies.append(SimpleNamespace(line=m.line, written=False, **self.line_of(m)))
            copies[-1].state = "Shared" if m.kind == "ShRep" else "Exclusive"
        else:
            assert copy.state == "Shared"
            copy.rts = m.rts
            if m.kind == "UpgradeRep":
                copy.state, copy.written = "Exclusive", False
        return "Delivered"

    def recall(self, m):
        copy, copies = self.find(m.line, self.cache_set(m.core, m.line))
        if self.line_at(m.core) == m.line:
            return "Held"
        if not copy or copy.state != "Exclusive":
            return "Dropped"
        if m.kind == "FlushReq":
            copies.remove(copy)
        else:
            copy.rts = max(copy.rts, fit(copy.wts + self.o.lease), m.rts)
            copy.state, copy.written = "Shared", False
        self.send("FlushRep" if m.kind == "FlushReq" else "WbRep", m.line, m.core, **self.line_of(copy))
        return "Delivered"

    def returned(self, m):
        """What comes back to a bank: a line from its owner or from DRAM, or that DRAM stored it."""
        e, entries = self.find(m.line, self.bank_set(m.line))
        assert e.state in {"DramStRep": ["Storing"], "DramLdRep": ["Loading"]}.get(m.kind, ["Exclusive", "Recalling"])
        if m.kind == "DramStRep":
            entries.remove(e)
            return "Delivered"
        if m.kind == "DramLdRep":
            e.wts = e.rts = self.mts[m.line % self.o.banks]
        else:
            assert e.owner == m.core
            e.wts, e.rts, e.dirty = m.wts, m.rts, True
        e.state, e.words = "Shared", list(m.words)
        return "Delivered"

    def request(self, m):
        line, load, lease = m.line, m.kind == "ShReq", self.o.lease
        e, entries = self.find(line, self.bank_set(line))
        if not e:
            if len(entries) >= self.o.bank_ways:
                return "Held"
            self.start("DramLd", line)
            entries.append(SimpleNamespace(line=line, state="Loading", dirty=False))
            return "Started"
        if e.state == "Exclusive":
            until = fit(m.pts + lease) if load else None
            self.start("WbReq" if load else "FlushReq", line, e.owner, rts=until)
            e.state = "Recalling"
            return "Started"
        if e.state != "Shared":
            return "Held"
        same = m.version == e.wts
        if load:
            e.rts = max(e.rts, fit(e.wts + lease), fit(m.pts + lease))
        else:
            e.state, e.owner = "Exclusive", m.core
        kind = ("RenewRep" if same else "ShRep") if load else ("UpgradeRep" if same else "ExRep")
        self.send(kind, line, m.core, **self.line_of(e))  # of RenewRep and UpgradeRep only rts is read
        entries.append(entries.pop(entries.index(e)))
        return "Delivered"

    # Evictions at a bank.
    def room_for(self, number):
        """The line to evict for a request that is held for room, where nothing is under way in its set; or None."""
        return self.room_of(self.flight[number])

    def room_of(self, m):
        e, entries = self.find(m.line, self.bank_set(m.line))
        busy = any(other.state in UNDER_WAY for other in entries)
        if e or busy or m.kind not in ("ShReq", "ExReq") or len(entries) < self.o.bank_ways:
            return None
        return next((other for other in entries if other.state == "Shared"), entries[0]).line

    def evict_bank(self, bank, line):
        e, entries = self.find(line, self.bank_set(line))
        if not e or line % self.o.banks != bank:
            raise Refusal("NoSuch")
        if e.state in UNDER_WAY:
            raise Refusal("Busy")
        if e.state == "Exclusive":
            self.start("FlushReq", line, e.owner)
            e.state = "Recalling"
            return "Recalled"
        if e.dirty:
            self.start("DramSt", line, words=list(e.words))
            e.state = "Storing"
        else:
            entries.remove(e)
        self.mts[bank] = max(self.mts[bank], e.rts)
        return "Evicted"

    def entries(self, bank):
        """The lines that are Shared or Exclusive at a bank, rising."""
        return sorted(e.line for entries in self.bank_sets[bank].values() for e in entries
                      if e.state in ("Shared", "Exclusive"))
