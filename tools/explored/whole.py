"""States of whole machines, with all that they have: the run without the reductions of parts.py.

It is for rules that look at more than one part, at a tenth of the speed; and tests/explore.py compares the other with
it. A state has every value of every part, all records in the order in which they were completed, and the messages in
flight as a bag.
"""
from tools.explored.frozen import Elsewhere, Numbered, Shapes, frozen, thawed
from tools.explored.history import with_record
from tools.explored.local import KNOWN, NUMBERS, Maker, Number, Tables, failure
from tools.explored.parts import OWNING
from tools.explored.programs import end_of, programs_of
from tools.explored.rows import Rows
from tools.explored.search import Saved
from reference import order
from reference.schedules import ADVANCE


class Whole(Saved):
    """The states of a subject on a machine, as `Parts` has them, each as a tuple."""

    def __init__(self, module, options, subject, how, keeps=()):
        self.module, self.options, self.subject, self.how = module, options, subject, how
        self.shapes, self.rows = Shapes(True, True), Rows()
        self.maker = Maker(module, options, self.shapes, self.rows)
        self.programs = programs_of(subject)
        self.events, self.faults = Tables(), Tables()
        self.messages = Tables()

    def start(self):
        machine = self.module.Machine(self.options, self.options.cores, self.subject.memory)
        return self.state_of(machine, [program.start for program in self.programs], [0] * self.options.cores)

    def state_of(self, machine, programs, advances):
        cores = tuple(map(self.maker.core_value, machine.cores))
        banks = tuple(self.maker.bank_value(mts, sets) for mts, sets in zip(machine.mts, machine.bank_sets))
        flight = tuple(sorted(map(self.shapes.message, machine.flight.values()), key=repr))
        more = tuple(sorted((name, frozen(value)) for name, value in vars(machine).items() if name not in KNOWN))
        return (cores, banks, frozen(machine.dram), flight, tuple(map(tuple, machine.records)), tuple(programs),
                tuple(advances), machine.stopped, more)

    def machine(self, state, first=0):
        """The machine, its programs and its own advances, to be changed. Numbers that states don't have begin with
        `first`. From another one than 0 messages have them in the other order, too."""
        cores, banks, dram, flight, records, programs, advances, stopped, more = state
        machine = object.__new__(self.module.Machine)
        machine.o, machine.stopped = self.options, stopped
        machine.cores = [self.maker.core_of(core, first) for core in cores]
        machine.mts = [thawed(mts) for mts, _ in banks]
        machine.bank_sets = [self.maker.sets_of(sets) for _, sets in banks]
        machine.dram = thawed(dram)
        messages = map(self.shapes.held, reversed(flight) if first else flight)
        machine.flight, machine.sent = dict(enumerate(messages, first)), Number(first + len(flight))
        machine.records = [self.module.Record(*record) for record in records]
        machine.counts = dict.fromkeys(self.module.COUNTED, first)
        for name, value in more:
            setattr(machine, name, thawed(value))
        return machine, list(programs), list(advances)

    def possible(self, state):
        """The events that may be made in a state."""
        machine, programs, advances = self.machine(state)
        for place, core in enumerate(machine.cores):
            wanted = self.programs[place].next(programs[place])
            if core.op is not None:
                yield "Attempt", place
            elif wanted:
                yield ("Advance", place) if wanted == ADVANCE else ("Issue", place, wanted)
            if advances[place] < self.how.advances:
                yield "Advance", place, "own"
            for line in self.copies(machine, place):
                yield "EvictCache", place, line
        for number in self.distinct(state[3]):
            yield "Deliver", number
        for bank, line in self.entries(machine):
            yield "EvictBank", bank, line

    def distinct(self, flight):
        return [number for number, m in enumerate(flight) if number == 0 or flight[number - 1] != m]

    def copies(self, machine, place):
        if self.how.evict == "any":
            return machine.copies(place)
        core, line = machine.cores[place], machine.line_at(place)
        if core.op is None or core.out:
            return []
        victim = machine.victim(place, line)
        return [] if victim is None else [victim]

    def entries(self, machine):
        if self.how.evict == "any":
            return [(bank, line) for bank in range(self.options.banks) for line in machine.entries(bank)]
        lines = {machine.room_for(number) for number in machine.flight} - {None}
        return [(line % self.options.banks, line) for line in sorted(lines)]

    def successors(self, state):
        found = []
        for event in self.possible(state):
            once, again = (self.step(state, event, first) for first in NUMBERS)
            if once != again:
                raise Numbered("a rule reads a number of messages or operations")
            found += [once] if once[1] != state else []
        return found

    def step(self, state, event, first):
        """An event, the state after it or None, and a fault or 0."""
        machine, programs, advances = self.machine(state, first)
        name = self.event_id(event, state[3])
        at = first + (len(state[3]) - 1 - event[1] if first else event[1]) if event[0] == "Deliver" else 0
        failed = self.made(machine, ("Deliver", Number(at)) if event[0] == "Deliver" else event)
        fault = failed or self.wrong(machine, len(state[4]))
        if fault:
            return name, None, self.fault(*fault)
        self.after(machine, event, programs, advances, len(state[4]))
        return name, self.state_of(machine, programs, advances), 0

    def event_id(self, event, flight):
        return self.events.id((*event[:1], self.messages.id(flight[event[1]])) if event[0] == "Deliver" else event)

    def made(self, machine, event):
        """Makes an event: a failure, or None."""
        row = self.rows.look(machine, event, event[1])
        sent = int(machine.sent)
        try:
            answer = self.maker.lines.traced(machine.step, event[:2] if event[0] == "Advance" else event)
        except Elsewhere:
            raise
        except Exception as error:
            return "fails", failure(error, self.module)
        self.rows.met(row, answer, [m.kind for number, m in machine.flight.items() if int(number) >= sent], None)
        machine.answer = answer
        return ("exhausted", "") if answer == "Exhausted" else None

    def after(self, machine, event, programs, advances, records):
        """What an event does to programs: completions, and an advance of its core."""
        answer = vars(machine).pop("answer")
        for record in machine.records[records:]:
            programs[record.core] = self.programs[record.core].after(programs[record.core], record.received)
        if answer == "Advanced" and len(event) > 2:
            advances[event[1]] += 1
        elif answer == "Advanced":
            programs[event[1]] = self.programs[event[1]].after(programs[event[1]], None)

    def wrong(self, machine, records):
        """A fault of a machine that didn't fail, and whose first `records` records are legal; or None."""
        owned = [copy.line for core in machine.cores for places in core.sets.values() for copy in places
                 if copy.state == "Exclusive"]
        owned += [m.line for m in machine.flight.values() if m.kind in OWNING]
        twice = sorted({line for line in owned if owned.count(line) > 1})
        if twice:
            return "two owners", twice[0]
        if len(machine.records) == records:
            return None
        issued = [list(self.operations(place, machine)) for place in range(self.options.cores)]
        verdict = order.check(self.subject.memory, issued, machine.records)
        return None if verdict == "legal" else (verdict.rstrip("0123456789").rstrip(), "")

    def operations(self, place, machine):
        """The operations that a core was issued and that were completed, by its program."""
        value, program = self.programs[place].start, self.programs[place]
        received = [record.received for record in machine.records if record.core == place]
        while received:
            wanted = program.next(value)
            if wanted is None:
                return
            if wanted == ADVANCE:
                value = program.after(value, None)
                continue
            yield wanted
            value = program.after(value, received.pop(0))

    def fault(self, kind, said):
        return 1 + self.faults.id((kind, said))

    # What a state is.
    def is_done(self, state):
        return all(dict(core[0])["op"] is None and program.next(value) is None
                   for core, program, value in zip(state[0], self.programs, state[5]))

    def end(self, state):
        records = [self.module.Record(*record) for record in state[4]]
        return end_of(self.subject, self.programs, state[5], order.end_memory(self.subject.memory, records))

    def in_flight(self, state):
        return len(state[3])

    def project(self, state, parts):
        """The number of this state in `Parts`."""
        machine, programs, advances = self.machine(state)
        history, lasts = (), [0] * self.options.cores
        for record in machine.records:
            history = with_record(history, (*record[2:6], record.time), self.subject.memory)
            lasts[record.core] = record.time
        return parts.state_of(machine, programs, advances, lasts, history)
