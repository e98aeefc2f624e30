"""The rows of docs/PROTOCOL.md's tables, and which of them a search met."""

# Each row: its section, its words, and what `look` and the answer must be. `sent` is a kind that was sent.
ROWS = [
    ("A core", "a load on an Exclusive copy", "load Exclusive: Completed"),
    ("A core", "a load on a Shared copy, in its lease", "load Shared: Completed"),
    ("A core", "a store or swap on an Exclusive copy", "write Exclusive: Completed"),
    ("A core", "a private write on a written copy", "private Exclusive: Completed"),
    ("A core", "no copy, and no place for one", "no copy: NoRoom"),
    ("A core", "a load without a copy", "load none: Requested"),
    ("A core", "a load on a Shared copy, past its lease", "load Shared: Requested"),
    ("A core", "a store or swap without a copy", "write none: Requested"),
    ("A core", "a store or swap on a Shared copy", "write Shared: Requested"),
    ("A core", "a request that finds the network full", "attempt: NetworkFull"),
    ("A core", "ShRep arrives", "ShRep: Delivered"),
    ("A core", "ExRep arrives", "ExRep: Delivered"),
    ("A core", "RenewRep arrives", "RenewRep: Delivered"),
    ("A core", "UpgradeRep arrives", "UpgradeRep: Delivered"),
    ("A core", "FlushReq is held", "FlushReq: Held"),
    ("A core", "WbReq is held", "WbReq: Held"),
    ("A core", "FlushReq is dropped", "FlushReq: Dropped"),
    ("A core", "WbReq is dropped", "WbReq: Dropped"),
    ("A core", "FlushReq: evict, FlushRep", "FlushReq: Delivered"),
    ("A core", "WbReq: downgrade, WbRep", "WbReq: Delivered"),
    ("A core", "a Shared copy is evicted", "evict Shared: Evicted"),
    ("A core", "an Exclusive copy is evicted", "evict Exclusive: Evicted"),
    ("A core", "an Exclusive copy finds the network full", "evict: NetworkFull"),
    ("A core", "its own time advances", "advance: Advanced"),
    ("A bank", "absent, a request: Loading, DramLd", "absent request: Started"),
    ("A bank", "absent, a request, no place: held", "absent request: Held"),
    ("A bank", "absent, a request: the network is full", "absent request: NetworkFull"),
    ("A bank", "Loading, a request: held", "Loading request: Held"),
    ("A bank", "Loading, DramLdRep", "Loading DramLdRep: Delivered"),
    ("A bank", "Shared, ShReq: ShRep", "Shared ShReq: ShRep"),
    ("A bank", "Shared, ShReq: RenewRep", "Shared ShReq: RenewRep"),
    ("A bank", "Shared, ExReq: ExRep", "Shared ExReq: ExRep"),
    ("A bank", "Shared, ExReq: UpgradeRep", "Shared ExReq: UpgradeRep"),
    ("A bank", "Exclusive, ShReq: WbReq", "Exclusive ShReq: Started"),
    ("A bank", "Exclusive, ExReq: FlushReq", "Exclusive ExReq: Started"),
    ("A bank", "Exclusive, a request: the network is full", "Exclusive request: NetworkFull"),
    ("A bank", "Exclusive, FlushRep", "Exclusive FlushRep: Delivered"),
    ("A bank", "Exclusive, WbRep", "Exclusive WbRep: Delivered"),
    ("A bank", "Recalling, a request: held", "Recalling request: Held"),
    ("A bank", "Recalling, FlushRep", "Recalling FlushRep: Delivered"),
    ("A bank", "Recalling, WbRep", "Recalling WbRep: Delivered"),
    ("A bank", "Storing, a request: held", "Storing request: Held"),
    ("A bank", "Storing, DramStRep: absent", "Storing DramStRep: Delivered"),
    ("A bank", "a clean Shared entry is evicted", "evict clean: Evicted"),
    ("A bank", "a dirty Shared entry is evicted", "evict dirty: Evicted"),
    ("A bank", "an Exclusive entry is evicted", "evict owned: Recalled"),
    ("A bank", "an eviction finds the network full", "evict bank: NetworkFull"),
    ("DRAM", "DramLd", "DramLd: Delivered"),
    ("DRAM", "DramSt", "DramSt: Delivered"),
]
KEYS = {key for _, _, key in ROWS}


class Rows:
    """What a search met. Keys that no row has are other answers of the machine, and tell nothing."""

    def __init__(self):
        self.seen = set()

    def look(self, machine, event, first):
        """What an event is about, as words that a row may have; two where a row speaks of more than another."""
        name, *of = event
        if name == "Deliver":
            return self.delivery(machine, machine.flight[first])
        if name == "Attempt":
            return self.attempt(machine, of[0])
        if name == "EvictCache":
            copy, _ = machine.find(of[1], machine.cache_set(*of))
            return [f"evict {copy.state}", "evict"] if copy else []
        if name == "EvictBank":
            entry, _ = machine.find(of[1], machine.bank_set(of[1]))
            how = "owned" if entry.state != "Shared" else "dirty" if entry.dirty else "clean"
            return [f"evict {how}", "evict bank"]
        return ["advance"] if name == "Advance" else []

    def attempt(self, machine, core):
        op = machine.cores[core].op
        copy, _ = machine.find(machine.line_at(core), machine.cache_set(core, machine.line_at(core)))
        is_private = op[0] != "load" and machine.o.private_write and copy and copy.written
        what = "load" if op[0] == "load" else "private" if is_private else "write"
        return [f"{what} {copy.state if copy else 'none'}", "attempt"] + ([] if copy else ["no copy"])

    def delivery(self, machine, m):
        if m.kind not in ("ShReq", "ExReq", "FlushRep", "WbRep", "DramLdRep", "DramStRep"):
            return [m.kind]
        entry, _ = machine.find(m.line, machine.bank_set(m.line))
        state = entry.state if entry else "absent"
        return [f"{state} {m.kind}"] + [f"{state} request"] * (m.kind in ("ShReq", "ExReq"))

    def met(self, looked, answer, sent, failed):
        if failed is None:
            self.seen |= {f"{one}: {said}" for one in looked for said in (answer, *sent)}

    def count(self):
        return len(self.seen & KEYS)

    def never(self):
        return [(section, words) for section, words, key in ROWS if key not in self.seen]
