"""Plays the calls of examples of machines (docs/EVENTS.md)."""
from collections import Counter

from reference import order, told
from reference.calls import EVENTS, Call, Parts, event_of
from reference.counted import Counts
from reference.machine import Machine
from reference.schedules import Run, by_rounds, by_seed
from reference.traces import Steps, record_line


CARRIERS = ("ExRep", "UpgradeRep", "FlushRep", "WbRep")


class History:
    """What the records of a machine say."""

    CALLS = {"records": Call(), "record": Call("number"), "stale": Call(), "check": Call(), "arranged": Call()}

    def call_records(self):
        return str(len(self.machine.records))

    def call_record(self, number):
        records = self.machine.records
        return record_line(records[number]) if number < len(records) else "none"

    def call_stale(self):
        return str(order.stale_hits(self.machine.records))

    def call_check(self):
        return order.check(self.opening, [core.issued for core in self.machine.cores], self.machine.records)

    def call_arranged(self):
        return told.joined(record.number for record in order.arrange(self.machine.records))


class Values:
    """The values that the records of a machine leave. It takes in records as they come."""

    def __init__(self, machine, opening):
        self.machine, self.opening = machine, opening
        self.taken, self.last = 0, {}  # by word the time, the number and the value of its last write

    def of(self, word):
        for record in self.machine.records[self.taken:]:
            if record.kind != "load":
                write = record.time, record.number, record.value
                self.last[record.word] = max(write, self.last.get(record.word, write))
        self.taken = len(self.machine.records)
        return self.last[word][2] if word in self.last else self.opening.get(word, 0)


class MachinePlayer(History, Parts):
    CALLS = {"machine": Call("options memory"), **EVENTS, "run": Call("events"), "reopen": Call("memory"),
             "program": Call("count steps"), "rounds": Call("count"), "fair-rounds": Call("count"),
             "seed": Call("number count"),
             "made": Call("count"), "counts": Call(), "order": Call("keeping"),
             "owners": Call("line"), "word": Call("address"), "sent": Call(), **History.CALLS, **Parts.LOOKS,
             "room": Call("message"), "copies": Call("count"), "free": Call("count"), "entries": Call("count"),
             "flight": Call(), "message": Call("message"), "shape": Call(), "stopped": Call(),
             "state": Call("count")}

    def __init__(self):
        self.programs = {}  # by core
        self.made = []      # the events of the last drive that weren't looked at yet

    def answer(self, name, of):
        if name != "machine" and self.machine is None:
            return "no machine"
        if name in EVENTS:
            return self.step(event_of(name, of))
        return super().answer(name, of)

    # Opening.
    def call_machine(self, named, memory):
        answer = self.open_with(lambda options, memory: Machine(options, options.cores, memory), named, memory)
        self.begin(memory)
        return answer

    def call_reopen(self, memory):
        self.machine = Machine(self.machine.o, self.machine.o.cores, memory)
        self.tell, self.opening = told.Teller(self.machine), memory
        self.begin(memory)
        return "reopened"

    def begin(self, memory):
        self.values, self.keeps_order = Values(self.machine, memory), False
        self.owned = None  # how many own each line, if that was looked for since the last event
        self.is_new, self.last = True, None  # whether no event was made; the last drive, if it began so

    # Events.
    def step(self, event):
        self.owned, self.is_new = None, False
        return self.tell.answer(self.machine.step(self.numbered(event)))

    def numbered(self, event):
        """An event with the number of its line."""
        if event[0] in ("EvictCache", "EvictBank"):
            return *event[:2], self.number(event[2])
        return event

    def call_run(self, events):
        return "; ".join(map(self.step, events))

    # Drives.
    def call_program(self, core, steps):
        self.programs[core] = [step for times, step in steps for _ in range(times)]
        return "given"

    def call_rounds(self, limit):
        return self.drive(lambda run: by_rounds(run, limit))

    def call_fair_rounds(self, limit):
        return self.drive(lambda run: by_rounds(run, limit, fair=True))

    def call_seed(self, seed, limit):
        return self.drive(lambda run: by_seed(run, limit, seed))

    def drive(self, drive):
        run = self.run_of(Run)
        return self.driven(run, drive(run))

    def run_of(self, kind):
        return kind(self.machine, [Steps(self.programs.get(core, [])) for core in range(self.machine.o.cores)])

    def driven(self, run, end):
        self.last = run if self.is_new else None
        self.owned, self.is_new = None, False
        self.made = [self.tell.event(event) for event, _ in run.made]
        return f"{end}, {len(run.made)} events"

    def call_made(self, count):
        looked, self.made = self.made[:count], self.made[count:]
        return "; ".join(looked) or "end"

    def call_counts(self):
        if self.last is None:
            return "none"
        counts = Counts(Machine(self.machine.o, self.machine.o.cores, self.opening))
        for event, _ in self.last.made:
            counts.step(event)
        return counts.text(len(self.last.busy))

    def call_order(self, keeping):
        self.keeps_order = self.keeps_order if keeping is None else keeping == "keep"
        return "kept" if self.keeps_order else "not kept"

    # Looks.
    def owners(self):
        """How many own each line: its Exclusive copies, and the messages in flight that carry its ownership."""
        if self.owned is None:
            self.owned = Counter(m.line for m in self.machine.flight.values() if m.kind in CARRIERS)
            self.owned.update(copy.line for core in self.machine.cores for copies in core.sets.values()
                              for copy in copies if copy.state == "Exclusive")
        return self.owned

    def call_owners(self, line):
        return str(self.owners()[self.number(line)])

    def call_word(self, word):
        return str(self.values.of(word))

    def call_sent(self):
        return told.sent(self.machine.counts)

    def room(self, number):
        return self.machine.room_for(number) if number in self.machine.flight else None

    def call_room(self, number):
        room = self.room(number)
        return "none" if room is None else f"bank {room % self.machine.o.banks} {self.tell.line(room)}"

    def call_copies(self, core):
        return self.tell.lines(self.machine.copies(core) if self.core(core) else [])

    def call_free(self, core):
        copies = self.machine.copies(core) if self.core(core) else []
        return self.tell.lines(line for line in copies if line != self.machine.line_at(core))

    def call_entries(self, bank):
        return self.tell.lines(self.machine.entries(bank) if self.has_bank(bank) else [])

    def call_flight(self):
        return told.joined(f"m{number}" for number in sorted(self.machine.flight))

    def call_message(self, number):
        return self.tell.message(self.machine.flight.get(number))

    def call_shape(self):
        o = self.machine.o
        return f"cores {o.cores} banks {o.banks} line-words {o.line_words}"

    def call_stopped(self):
        return "yes" if self.machine.stopped else "no"

    def call_state(self, words):
        return "; ".join(self.state(words, self.words_of(words)))

    def state(self, words, lines):
        for core in range(self.machine.o.cores):
            yield from self.core_state(core, lines)
        for bank in range(self.machine.o.banks):
            yield from self.bank_state(bank, lines)
        for number in sorted(self.machine.flight):
            room = self.room(number)
            yield f"m{number} {self.call_message(number)}" + ("" if room is None else f" room {self.tell.line(room)}")
        yield f"sent {self.call_sent()}"
        yield told.words_from(map(self.values.of, range(words)))
        yield " ".join(["owners", *(str(self.owners()[line]) for line in lines)])
        yield f"stopped {self.call_stopped()}"
