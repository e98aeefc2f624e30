"""What a run comes to, as docs/COUNTS.md has it: its events are made once more on a machine that has just opened."""
from collections import Counter

NAMES = {"load": "loads", "store": "stores", "swap": "swaps"}
KINDS = ("ShReq", "ExReq", "ShRep", "ExRep", "RenewRep", "UpgradeRep", "FlushReq", "WbReq", "FlushRep", "WbRep",
         "DramLd", "DramLdRep", "DramSt", "DramStRep")
# What a player counts of a core and of a bank, each with its name there.
PLAYED = {"core": {**{name: name for name in ("loads", "stores", "swaps", "hits", "misses", "stale")},
                   "evictions": "evicted", "time": "time"},
          "bank": {"evictions": "evicted"}}
CAUSES = ("cold", "evicted", "recalled", "ended", "shared")
# What the program counts of the run, of a core and of a bank.
OF_RUN = ("events", "held", "dropped")
OF_PROGRAM = {"core": ("loads", "stores", "swaps", "hits", *CAUSES, "evictions", "returns", "reloads", "held",
                       "dropped", "time"),
              "bank": ("evictions", "held", "dropped")}
PARTS = {"c": "core", "b": "bank"}


class Part:
    """What is counted of a core or a bank."""

    def __init__(self):
        self.number, self.sent, self.delivered = Counter(), Counter(), Counter()
        self.cause = None  # of a core: why the first request for its open operation went out, if one did
        self.lost = {}     # of a core: by line, whether the last copy that it lost was evicted or recalled

    def told(self, names):
        """What a player tells."""
        yield from (f"{name} {self.number[what]}" for what, name in names.items())
        yield from (f"{kind} {self.sent[kind]} {self.delivered[kind]}" for kind in KINDS if self.sent[kind])

    def found(self, names):
        """The program's numbers by their names: a kind of message is there if one was sent."""
        return {name: self.number[name] for name in names} | {kind: self.sent[kind] for kind in KINDS if self.sent[kind]}


class Counts:
    """Counts what its machine does; a run may drive it in the machine's place. With `every` it keeps a row behind
    each such number of completed operations: how many had completed, and what is counted by then."""

    def __init__(self, machine, every=None):
        self.machine, self.every, self.rows = machine, every, []
        self.written = {}  # by word the greatest time of a write so far
        self.whole = Counter()
        self.parts = {("core", core): Part() for core in range(len(machine.cores))}
        self.parts |= {("bank", bank): Part() for bank in range(machine.o.banks)}

    def parts_of(self, message):
        """The core and the bank, or the bank alone, that a message is counted at."""
        places = ("bank", message.line % self.machine.o.banks), ("core", message.core)
        return [self.parts[place] for place in places if place in self.parts]

    def __getattr__(self, name):
        return getattr(self.machine, name)

    def step(self, event):
        machine, (name, *of) = self.machine, event
        message, sent = machine.flight.get(of[0]) if name == "Deliver" else None, machine.sent
        answer = machine.step(event)
        self.whole.update(["events", answer])
        if answer in ("Delivered", "Dropped"):
            for part in self.parts_of(message):
                part.delivered[message.kind] += 1
        if answer in ("Held", "Dropped"):
            letter, number = machine.nodes(message)[1]
            self.parts[PARTS[letter], number].number[answer.lower()] += 1
        for number in range(sent, machine.sent):
            self.see_sent(machine.flight[number], name)
        if answer == "Requested":
            part = self.parts["core", of[0]]
            part.cause = part.cause or self.cause(of[0])
        if answer == "Evicted":
            self.parts["core" if name == "EvictCache" else "bank", of[0]].number["evictions"] += 1
            if name == "EvictCache":
                self.parts["core", of[0]].lost[of[1]] = "evicted"
        if answer == "Completed":
            self.complete(machine.records[-1])
        return answer

    def see_sent(self, message, event):
        """A message that an event of this name sent."""
        for part in self.parts_of(message):
            part.sent[message.kind] += 1
        core = self.parts.get(("core", message.core))
        if message.kind in ("FlushRep", "WbRep") and event == "EvictCache":
            core.number["returns"] += 1
        elif message.kind == "FlushRep":
            core.lost[message.line] = "recalled"
        if message.kind == "ShRep":
            core.number["reloads"] += self.has_copy(message.core, message.line)

    def has_copy(self, core, line):
        return self.machine.find(line, self.machine.cache_set(core, line))[0] is not None

    def cause(self, core):
        """Why a core needs a request, by its copy of the line."""
        kind, word, _ = self.machine.cores[core].op
        line = self.machine.line(word)
        if not self.has_copy(core, line):
            return self.parts["core", core].lost.get(line, "cold")
        return "ended" if kind == "load" else "shared"

    def complete(self, record):
        part, newest = self.parts["core", record.core], self.written.get(record.word, 0)
        part.number[NAMES[record.kind]] += 1
        part.number.update(["misses", part.cause] if part.cause else ["hits"])
        part.number["time"] = max(part.number["time"], record.time)
        part.cause = None
        if record.kind == "load":
            part.number["stale"] += newest > record.time
        else:
            self.written[record.word] = max(newest, record.time)
        if self.every and len(self.machine.records) % self.every == 0:
            self.rows.append((len(self.machine.records), self.found()))

    def text(self, turns):
        """The answer to `counts` of docs/EVENTS.md."""
        told = [" ".join([what, str(number), *part.told(PLAYED[what])]) for (what, number), part in self.parts.items()]
        return "; ".join([*told, f"turns {turns}"])

    def found(self):
        """The program's counts by their names; of each core and each bank there is one of its own."""
        found = {name: self.whole[name if name == "events" else name.title()] for name in OF_RUN}
        return found | {f"{kind}s": [part.found(OF_PROGRAM[kind]) for (what, _), part in self.parts.items()
                                     if what == kind] for kind in OF_PROGRAM}

    def lines(self):
        """The lines of the program's counts: those of each row, and those at the end."""
        for completed, found in self.rows:
            yield f"row {completed}"
            yield from lines_of(found)
        yield from lines_of(self.found())


def lines_of(found):
    yield from (f"{name} {found[name]}" for name in OF_RUN)
    for what in OF_PROGRAM:
        yield from (" ".join([what, str(number), *(f"{name} {count}" for name, count in part.items())])
                    for number, part in enumerate(found[f"{what}s"]))
