"""Changed rules for tests/explore.py: what stands in reference/machine.py, with what takes its place.

How many events a wrong rule needs was worked out by hand, or found by the first sketch of an explorer.
"""
VALUE, ORDER, OWNERS, FAILS, STUCK = "wrong value", "out of program order", "two owners", "fails", "stuck"
TWO_STORES = "0 W 0x0 1\n1 W 0x0 2\n"
STORE_AND_LOAD = "0 W 0x0 1\n1 R 0x0\n"
OWN_LOAD = "trace 2\n0 W 0x0 1\n0 A\n0 A\n0 R 0x0\n1 W 0x0 2\n"
SB = "0 W 0x0 1\n0 R 0x8\n1 W 0x8 1\n1 R 0x0\n"
ANY = {"evict": "any"}
RECALLS = '''        if e.state == "Exclusive":
            until = fit(m.pts + lease) if load else None
            self.start("WbReq" if load else "FlushReq", line, e.owner, rts=until)
            e.state = "Recalling"
            return "Started"
'''
OPEN = "        if self.line_at(m.core) == m.line:\n            return"
MEMORY_TIME = "        self.mts[bank] = max(self.mts[bank], e.rts)\n"
LEASED = "        if load:\n            e.rts = max(e.rts, fit(e.wts"
OWNS = """if load and e.rts == e.wts and not same:
            load, e.state, e.owner = False, "Exclusive", m.core
        elif load:"""
UPGRADED = """            if m.kind == "UpgradeRep":
                copy.state, copy.written = "Exclusive", False
"""
TIMES = "copy.wts, copy.rts, copy.words[index], copy.written = time, time, value, True"

# What is wrong, how it shows, after how many events, in which trace on which machine, and the change.
WRONG = [
    ("a line that is owned is granted again", OWNERS, 9, TWO_STORES, {}, [
        (RECALLS, '        if e.state == "Exclusive" and not load:\n            e.state = "Shared"\n')]),
    ("an upgrade forgets the leases of others", VALUE, 20, "0 R 0x0\n0 W 0x0 1\n1 R 0x0\n",
     {"lease": 1, "advances": 2}, [
         ("            copy.rts = m.rts\n", '            copy.rts = m.rts if m.kind == "RenewRep" else copy.rts\n')]),
    ("an eviction leaves the memory time", VALUE, 18, STORE_AND_LOAD, ANY | {"advances": 2}, [
        (MEMORY_TIME, "        pass\n")]),
    ("an eviction raises the memory time to the version", VALUE, 18, STORE_AND_LOAD, ANY | {"advances": 2}, [
        (MEMORY_TIME, MEMORY_TIME.replace("rts)", "wts)"))]),
    ("any version is renewed", VALUE, 20, STORE_AND_LOAD, ANY | {"lease": 1, "advances": 2}, [
        ("        same = m.version == e.wts\n", "        same = m.version is not None\n")]),
    ("a recall that overtakes its grant is dropped", STUCK, 12, TWO_STORES, {}, [
        (OPEN, OPEN.replace("m.line:", 'm.line and copy and copy.state == "Exclusive":'))]),
    ("the bank forgets the owner's lease", VALUE, 20, OWN_LOAD, {}, [
        ("e.wts, e.rts, e.dirty = m.wts, m.rts, True", "e.wts, e.rts, e.dirty = m.wts, m.wts, True")]),
    # New ones.
    ("an owner's load doesn't extend the lease", VALUE, 20, OWN_LOAD, {}, [
        ("                copy.rts = max(copy.rts, time)\n", "                pass\n")]),
    ("no copy has version 0", FAILS, 7, "0 W 0x0 1\n", {}, [
        ("version=copy and copy.wts", "version=copy.wts if copy else 0")]),
    ("a grant looks for an owner where none was", FAILS, 6, "0 W 0x0 1\n", {}, [
        ("        same = m.version == e.wts\n", "        same = m.version == e.wts or e.owner == m.core\n")]),
    ("a dirty line leaves the bank without a store", VALUE, 19, STORE_AND_LOAD, ANY, [
        ("        if e.dirty:\n", "        if False:\n")]),
    ("a copy to read is read past its lease", VALUE, 15, STORE_AND_LOAD, {"lease": 1, "advances": 2}, [
        ('kind == "load" and core.pts <= copy.rts', 'kind == "load"')]),
    ("a request that waits is dropped", STUCK, 9, TWO_STORES, {}, [
        ('        if e.state != "Shared":\n            return "Held"\n',
         '        if e.state != "Shared":\n            return "Dropped"\n')]),
    ("a load's time is the version's", ORDER, 16, "0 W 0x0 1\n0 R 0x8\n", {"ways": 2, "bank_ways": 2}, [
        ("            time = max(core.pts, copy.wts)\n", "            time = copy.wts\n")]),
    # Each kind of message that carries ownership counts as an owner.
    ("an owner returns its line and keeps it", OWNERS, 12, TWO_STORES, {}, [
        ('        if m.kind == "FlushReq":\n            copies.remove(copy)\n',
         '        if m.kind == "FlushReq":\n            pass\n')]),
    ("an owner that wrote its line back still owns it", OWNERS, 12, STORE_AND_LOAD, {}, [
        ('            copy.state, copy.written = "Shared", False\n', '            copy.written = False\n')]),
    ("a line is upgraded twice", OWNERS, 19, "0 R 0x0\n0 W 0x0 1\n1 R 0x0\n1 W 0x0 2\n", {}, [
        ('            e.state, e.owner = "Exclusive", m.core\n', '            e.owner = m.core\n')]),
    ("a swap receives what it stores", VALUE, 8, "0 S 0x0 1\n", {}, [
        ('received = copy.words[index] if kind != "store" else None',
         'received = dict(load=copy.words[index], swap=value, store=None)[kind]')]),
    ("each completion is recorded twice", ORDER, 8, "0 W 0x0 1\n0 W 0x0 2\n", {}, [
        ("        self.records.append(", "        for _ in (1, 2): self.records.append(")]),
]
# One more. Where core 0 has the same operation there, parts find a fault, and whole machines none. So it isn't drawn.
MISNAMED = ("all records are core 0's", ORDER, 8, "1 W 0x0 1\n", {}, [
    ("Record(number, core.done", "Record(0, core.done")])
# Where those fail that the machine has no case for, and how.
FAILING = {"no copy has version 0": ("AttributeError", 'assert copy.state == "Shared"'),
           "a grant looks for an owner where none was": ("AttributeError", "        same = m.version")}
# Rules that only differ, with a trace and a machine on which the change runs.
RIGHT = [
    ("the rules as they are", SB, ANY, []),
    ("the same, and a recall that was meant for an earlier ownership", "0 W 0x0 1\n0 W 0x0 2\n1 R 0x0\n", ANY, []),
    ("a load of an unleased line owns it", SB, {}, [(LEASED, LEASED.replace("if load:", OWNS))]),
    ("a store takes a later time than it must", SB, {}, [("fit(copy.rts + 1)", "fit(copy.rts + 2)")]),
    ("an owner leases only as far as it is asked", STORE_AND_LOAD + "1 W 0x0 2\n", ANY, [
        ("copy.rts = max(copy.rts, fit(copy.wts + self.o.lease), m.rts)", "copy.rts = max(copy.rts, m.rts)")]),
    ("grants to own are of a new kind", SB, {}, [
        ('TO_CORE = ("ShRep", "ExRep",', 'TO_CORE = ("ShRep", "Grant",'),
        ('"UpgradeRep" if same else "ExRep")', '"UpgradeRep" if same else "Grant")'),
        ('if m.kind in ("ShRep", "ExRep"):', 'if m.kind in ("ShRep", "Grant"):')]),
    ("a store leases its line at once", STORE_AND_LOAD + "1 W 0x0 2\n", ANY, [
        (TIMES, TIMES.replace("time, time, value", "time, fit(time + self.o.lease), value"))]),
    ("an answer completes its operation", STORE_AND_LOAD, {}, [
        (UPGRADED, UPGRADED + "        self.complete(m.core, *self.find(m.line, copies))\n")]),
]
# Rules for which states must have more, with what a search then keeps.
WIDE = [
    ("a renewal's version is read", ("fields",), [
        ("            copy.rts = m.rts\n", "            copy.rts = max(m.rts, m.wts)\n")]),
    ("a core's time falls", ("last",), [
        ("            time = max(core.pts, copy.wts)\n", "            time = copy.wts\n")]),
    ("a record is earlier than its core's time, which doesn't fall", ("last",), [
        ("            time = max(core.pts, copy.wts)\n", "            time = copy.wts\n"),
        ("core.pts, core.op, core.done = time,", "core.pts, core.op, core.done = max(core.pts, time),")]),
    ("a bank reads a core's time", ("whole",), [
        ('        if e.state == "Exclusive":\n            until',
         '        if e.state == "Exclusive" and self.cores[m.core].pts >= 0:\n            until')]),
    ("a core looks at all messages", ("whole",), [
        ('        if core.out:\n            return "Waiting"',
         '        if core.out and len(list(self.flight.values())) >= 0:\n            return "Waiting"')]),
    ("a bank completes what it grants", ("whole",), [
        (LEASED, "        self.records.append(Record(m.core, 0, 'load', line, None, 0, 0, len(self.records)))\n"
         + LEASED)]),
    ("a machine has more", ("whole",), [
        ("        self.stopped = False\n", "        self.stopped, self.grants = False, 0\n")]),
    ("a machine has more once it granted a line", ("whole",), [
        ("        same = m.version == e.wts\n", "        same = m.version == e.wts\n        self.grants = True\n")]),
]
# Rules with the same states: a bank keeps the cores that asked for a line, as a set or in order, and their number.
ASKED = """        same = m.version == e.wts
        e.asked, e.count = getattr(e, "asked", {}), getattr(e, "count", 0)
        assert e.count == len(e.asked)
        {}
        e.count = len(e.asked)
"""
GATHERED = [("        same = m.version == e.wts\n", ASKED.format(*of)) for of in (
    ("set()", "e.asked.add(8 * m.core)"), ("[]", "e.asked = sorted({8 * m.core, *e.asked})"))]
# Rules that read numbers which states don't have, so that they are refused.
NUMBERED = [
    ("how many messages were sent", [("        if core.out:\n", "        if core.out and self.sent > 500:\n")]),
    ("whether it is even", [("        if core.out:\n", "        if core.out or self.sent % 2 == 0:\n")]),
    ("what it leaves, divided by ten", [("        if core.out:\n", "        if core.out or self.sent % 10 == 5:\n")]),
    ("which message was sent before", [
        ("        answer = self.take_in(self.flight[number])\n",
         "        answer = self.take_in(self.flight[number]) if number - 1 not in self.flight else 'Held'\n")]),
    ("which was sent first of those that go one way", [
        ("        answer = self.take_in(self.flight[number])\n",
         "        way = [n for n, m in self.flight.items() if self.nodes(m) == self.nodes(self.flight[number])]\n"
         "        answer = self.take_in(self.flight[number]) if way[0] == number else 'Held'\n")]),
    ("how many operations a core was issued", [
        ("        if self.cores[number].op:\n",
         "        if self.cores[number].op or len(self.cores[number].issued) > 0:\n")]),
    ("how many operations all were issued", [
        ("        if self.cores[number].op:\n", "        if self.cores[number].op or self.issued > 0:\n")]),
]
