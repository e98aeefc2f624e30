"""A directory by MSI or MESI, with the caches, banks and events of machine.py; docs/COMPARE.md has its rules.

It is the baseline of tools/compare.py. An operation's time is the number of the event at which it takes effect, as
docs/DIRECTORY-TIMES.md gives it. The times that machine.py has stay as they were when it opened.
"""
from types import SimpleNamespace

from reference.machine import Machine, Record, Refusal


class Directory(Machine):
    """An entry has the cores that may have a copy (`sharers`). `missing` counts the answers that a bank waits for."""

    def __init__(self, options, cores, memory, mesi=False):
        super().__init__(options, cores, memory)
        self.mesi, self.now = mesi, 0
        for core in self.cores:
            core.overtaken = False  # whether an invalidation came while the core's request to read was out

    def step(self, event):
        self.now += 1
        return super().step(event)

    def line_of(self, holder):
        return dict(words=list(holder.words), written=holder.written)

    def send(self, kind, line, core=None, written=True, **carried):
        """A copy that its owner didn't write returns without words, as CleanRep."""
        if kind in ("FlushRep", "WbRep"):
            carried["keeps"] = kind == "WbRep"
            kind = kind if written else "CleanRep"
        super().send(kind, line, core, **carried)

    def nodes(self, m):
        bank, core = ("b", m.line % self.o.banks), ("c", m.core)
        return (bank, core) if m.kind == "InvReq" else super().nodes(m)

    # Events of a core.
    def attempt(self, number):
        core = self.cores[number]
        if not core.op:
            return "Idle"
        kind, line = core.op[0], self.line_at(number)
        copy, copies = self.find(line, self.cache_set(number, line))
        if copy and (kind == "load" or copy.state == "Exclusive"):
            self.complete(number, copy, copies)
            return "Completed"
        if core.out:
            return "Waiting"
        if not copy and len(copies) >= self.o.ways:
            return "NoRoom"
        self.start("ShReq" if kind == "load" else "ExReq", line, number, has_copy=copy is not None)
        core.out = True
        return "Requested"

    def complete(self, number, copy, copies):
        core = self.cores[number]
        (kind, word, value), index = core.op, core.op[1] % self.o.line_words
        received = copy.words[index] if kind != "store" else None
        if kind != "load":
            copy.words[index], copy.written = value, True
        copies.remove(copy)
        if copy.state != "Once":
            copies.append(copy)
        time = copy.sent if copy.state == "Once" else self.now
        self.records.append(Record(number, core.done, kind, word, value, received, time, len(self.records)))
        core.op, core.done = None, core.done + 1

    # Deliveries.
    def take_in(self, m):
        at = dict(InvReq=self.invalidated, InvRep=self.acknowledged, CleanRep=self.returned)
        return at.get(m.kind, super().take_in)(m)

    def at_core(self, m):
        if m.kind in ("FlushReq", "WbReq"):
            return self.recall(m)
        core = self.cores[m.core]
        copy, copies = self.find(m.line, self.cache_set(m.core, m.line))
        assert self.line_at(m.core) == m.line and core.out
        if m.kind == "UpgradeRep":
            copy.state = "Exclusive"
        else:
            if copy:
                copies.remove(copy)
            assert len(copies) < self.o.ways
            state = "Exclusive" if m.kind == "ExRep" else "Once" if core.overtaken else "Shared"
            copies.append(SimpleNamespace(line=m.line, state=state, words=list(m.words), written=False, sent=m.sent))
        core.out = core.overtaken = False
        return "Delivered"

    def invalidated(self, m):
        core = self.cores[m.core]
        copy, copies = self.find(m.line, self.cache_set(m.core, m.line))
        reads = self.line_at(m.core) == m.line and core.op[0] == "load"
        if copy and reads:
            return "Held"
        if copy:
            assert copy.state == "Shared"
            copies.remove(copy)
        core.overtaken |= reads and core.out
        self.send("InvRep", m.line, m.core)
        return "Delivered"

    def recall(self, m):
        copy, copies = self.find(m.line, self.cache_set(m.core, m.line))
        if self.line_at(m.core) == m.line:
            return "Held"
        if not copy or copy.state != "Exclusive":
            return "Dropped"
        self.send("FlushRep" if m.kind == "FlushReq" else "WbRep", m.line, m.core, **self.line_of(copy))
        if m.kind == "FlushReq":
            copies.remove(copy)
        copy.state, copy.written = "Shared", False
        return "Delivered"

    def acknowledged(self, m):
        e, _ = self.find(m.line, self.bank_set(m.line))
        e.missing -= 1
        if e.missing == 0:
            e.state = "Shared"
        return "Delivered"

    def returned(self, m):
        e, entries = self.find(m.line, self.bank_set(m.line))
        if m.kind == "DramStRep":
            entries.remove(e)
            return "Delivered"
        if m.kind != "DramLdRep":
            assert e.owner == m.core and e.state in ("Exclusive", "Recalling")
            e.sharers = {m.core} if m.keeps else set()
        if m.kind != "CleanRep":
            e.words, e.dirty = m.words, m.kind != "DramLdRep"
        e.state = "Shared"
        return "Delivered"

    def request(self, m):
        line, load = m.line, m.kind == "ShReq"
        e, entries = self.find(line, self.bank_set(line))
        if not e:
            if len(entries) >= self.o.bank_ways:
                return "Held"
            self.start("DramLd", line)
            entries.append(SimpleNamespace(line=line, state="Loading", dirty=False, sharers=set(), rts=0))
            return "Started"
        if e.state == "Exclusive":
            self.start("WbReq" if load else "FlushReq", line, e.owner)
            e.state = "Recalling"
            return "Started"
        others = e.sharers - {m.core}
        if e.state != "Shared":
            return "Held"
        if others and not load:
            self.invalidate(e, others)
            return "Started"
        self.grant(e, m, shared=load and bool(others or not self.mesi))
        entries.append(entries.pop(entries.index(e)))
        return "Delivered"

    def grant(self, e, m, shared):
        kind = "ShRep" if shared else "UpgradeRep" if m.has_copy and m.core in e.sharers else "ExRep"
        self.send(kind, m.line, m.core, words=list(e.words), sent=self.now)  # of UpgradeRep nothing is read
        if shared:
            e.sharers.add(m.core)
        else:
            e.state, e.owner, e.sharers = "Exclusive", m.core, set()

    def invalidate(self, e, cores):
        """Asks the cores to drop their copies."""
        if len(self.flight) + len(cores) > self.o.messages:
            raise Refusal("NetworkFull")
        for core in sorted(cores):
            self.send("InvReq", e.line, core)
        e.state, e.missing, e.sharers = "Recalling", len(cores), e.sharers - cores

    def evict_bank(self, bank, line):
        e, _ = self.find(line, self.bank_set(line))
        if e and line % self.o.banks == bank and e.state == "Shared" and e.sharers:
            self.invalidate(e, e.sharers)
            return "Recalled"
        return super().evict_bank(bank, line)
