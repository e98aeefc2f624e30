"""A machine's states as whole numbers, and the events that change them.

A state is one number: for each core, each bank, DRAM, the histories of words (history.py) and the bag of messages in
flight it has the number of that part's value, 24 bits each. An event changes one core, bank or DRAM, and the bag; a
completion changes the history, too. The result depends on these alone (local.py raises `Elsewhere` if not), so each
step of a part is made once, on the machine's own code, and kept as what it adds to a state.

States are the same if they differ only in numbers of messages, in values that no rule reads (frozen.py), and in what
no later record can tell (history.py). tests/explore.py compares that with whole machines, transition by transition.
"""
from tools.explored.frozen import Elsewhere, Mapped, Shapes, Unread
from tools.explored.history import memory_of, with_record
from tools.explored.local import KNOWN, Maker, Tables
from tools.explored.programs import end_of, programs_of
from tools.explored.rows import Rows
from tools.explored.search import Saved
from reference.schedules import ADVANCE

BITS = 24
MASK = (1 << BITS) - 1
OWNING = ("ExRep", "UpgradeRep", "FlushRep", "WbRep")


class Full(Exception):
    """A part, the bag or the history has more values than a state has numbers for."""


def limited(number, of):
    """The number of a value of something, if a state has a place for it."""
    if number > MASK:
        raise Full(f"{of} has too many values")
    return number


class Bags:
    """The messages in flight, as sorted tuples of their numbers. `moved[bag][move]` is what a move adds to a bag's
    number; a move takes a message away, or none, and adds some."""

    def __init__(self, line_owned):
        self.line_owned = line_owned  # by message, the line that it owns or None
        self.table, self.moves = Tables(), Tables()
        self.count, self.distinct, self.moved = [], [], []
        self.id(())

    def id(self, messages):
        number = self.table.id(messages)
        if number == len(self.count):
            limited(number, "the bag of messages")
            self.count.append(len(messages))
            self.distinct.append(messages if len(set(messages)) == len(messages) else tuple(dict.fromkeys(messages)))
            self.moved.append({})
        return number

    def move(self, bag, move):
        """What the move adds to the bag's number."""
        taken, sent = self.moves.values[move]
        messages = list(self.table.values[bag])
        if taken is not None:
            messages.remove(taken)
        added = self.moved[bag][move] = self.id(tuple(sorted([*messages, *sent]))) - bag
        return added

    def owners(self, bag, line):
        return sum(self.line_owned[message] == line for message in self.table.values[bag])


class Parts(Saved):
    """The states of a subject on a machine. `how` has evict ("demand" or "any"), advances, and what is kept."""

    def __init__(self, module, options, subject, how, keeps=()):
        self.module, self.options, self.subject, self.how = module, options, subject, how
        self.keeps_last = "last" in keeps
        self.shapes, self.rows = Shapes(options.private_write, "fields" in keeps), Rows()
        self.maker = Maker(module, options, self.shapes, self.rows)
        self.programs = programs_of(subject)
        self.cores, banks = options.cores, options.banks
        self.parts = [("core", core) for core in range(self.cores)] + [("bank", bank) for bank in range(banks)]
        self.parts.append(("dram",))
        self.shifts = [BITS * place for place in range(len(self.parts) + 2)]  # the bag stands lowest, then the history
        self.history_at, self.at = self.shifts[1], self.shifts[2:]
        self.tables = [Tables() for _ in self.parts]
        self.messages, self.events, self.histories, self.records = Tables(), Tables(), Tables(), Tables()
        self.line_owned, self.target, self.faults = [], [], Tables()
        self.bags = Bags(self.line_owned)
        self.own = [{} for _ in self.parts]        # by part and its value: the events that it begins itself
        self.delivered = [{} for _ in self.parts]  # by part, and its value with a message: what a delivery does
        self.makes_room = set()                    # events that evict an entry for a message
        self.later = {}                            # by history and record: what is added to it, or a fault
        self.owned, self.is_end = [[] for _ in self.parts], [[] for _ in range(self.cores)]
        self.end_of = {}                           # by the histories' and cores' numbers: the end
        self.begins = [(place, self.at[place], self.own[place]) for place in range(self.cores)]
        if how.evict == "any":
            self.begins += [(place, self.at[place], self.own[place])
                            for place in range(self.cores, self.cores + banks)]

    # Numbers of values.
    def part_id(self, place, value):
        number = self.tables[place].id(value)
        if number == len(self.owned[place]):
            limited(number, " ".join(map(str, self.parts[place])))
            self.owned[place].append(self.lines_owned(place, value))
            if place < self.cores:
                self.is_end[place].append(self.has_ended(place, value))
        return number

    def lines_owned(self, place, value):
        if place >= self.cores:
            return ()
        copies = (dict(copy) for _, places in value[0][1] for copy in places)
        return tuple(copy["line"] for copy in copies if copy["state"] == "Exclusive")

    def has_ended(self, place, value):
        fields, program = dict(value[0][0]), value[1]
        return fields["op"] is None and self.programs[place].next(program) is None

    def message_id(self, value):
        number = self.messages.id(value)
        if number == len(self.line_owned):
            m = self.shapes.held(value)
            self.line_owned.append(m.line if m.kind in OWNING else None)
            part, at = self.maker.machine(("dram",), Mapped(), None, 0, 0).nodes(m)[1]
            self.target.append({"c": at, "b": self.cores + at, "d": len(self.parts) - 1}[part])
        return number

    def state_of(self, machine, programs, advances, lasts, history):
        """The number of a whole machine's state, with its programs, its own advances and its records' summary."""
        values = [(self.maker.core_value(core), programs[place], advances[place], lasts[place] * self.keeps_last)
                  for place, core in enumerate(machine.cores)]
        values += [self.maker.bank_value(mts, sets) for mts, sets in zip(machine.mts, machine.bank_sets)]
        values.append(self.dram_value(machine.dram))
        sent = [self.message_id(self.shapes.message(m)) for m in machine.flight.values()]
        state = self.bags.id(tuple(sorted(sent))) | self.histories.id(history) << self.history_at
        return state | sum(self.part_id(place, value) << self.at[place] for place, value in enumerate(values))

    def dram_value(self, dram):
        return self.maker.value_of(("dram",), Of(dram))

    def start(self):
        machine = self.module.Machine(self.options, self.cores, self.subject.memory)
        if set(vars(machine)) != KNOWN:
            raise Elsewhere("the machine has more than cores, banks, DRAM and messages")
        nothing = [0] * self.cores
        return self.state_of(machine, [program.start for program in self.programs], nothing, nothing, ())

    # What an event does.
    def part(self, place, value):
        return value[0] if place < self.cores else value

    def step(self, place, number, event, message, count):
        """What is added to a state, or a fault; None if nothing changes. And the step as it was made."""
        value, part = self.tables[place].values[number], self.parts[place]
        of = None if message is None else self.messages.values[message]
        made = self.maker.step(part, self.part(place, value), event[:2] if event[0] == "Advance" else event, of, count)
        name = self.events.id((*event, message) if event[0] == "Deliver" else event)
        if made.failed:
            return (name, 0, None, None, None, self.fault("fails", made.failed)), made
        if made.answer == "Exhausted":
            return (name, 0, None, None, None, self.fault("exhausted", "")), made
        after, fault, record = made.value, None, None
        if place < self.cores:
            after, fault, record = self.after_core(place, value, event, made)
        elif made.records:
            raise Elsewhere("an operation completes at a bank or at DRAM")
        if fault:
            return (name, 0, None, None, None, fault), made
        move, sent = None, tuple(map(self.message_id, made.sent))
        if made.taken or sent:
            move = self.bags.moves.id((message if made.taken else None, sent))
        if after == value and move is None and record is None:
            return None, made
        after = self.part_id(place, after)
        lines = set(self.gained(place, number, after, move))
        return (name, after - number << self.at[place], move, record, lines or None, None), made

    def gained(self, place, before, after, move):
        """The lines that have more owners than before."""
        lines = list(self.owned[place][after])
        gone = list(self.owned[place][before])
        if move is not None:
            taken, sent = self.bags.moves.values[move]
            lines += [self.line_owned[one] for one in sent if self.line_owned[one] is not None]
            gone += [] if taken is None or self.line_owned[taken] is None else [self.line_owned[taken]]
        return (line for line in lines if lines.count(line) > gone.count(line))

    def after_core(self, place, value, event, made):
        """A core's value after a step, a fault of its record, and the record."""
        (fields, _), program, advances, last = value
        before, after = dict(fields), dict(made.value[0])
        if after["pts"] < before["pts"] and not self.keeps_last:
            raise Unread("last")
        for core, at, kind, word, written, received, time in made.records:
            if len(made.records) > 1 or (core, at, (kind, word, written)) != (place, before["done"], before["op"]):
                return None, self.fault("out of program order", ""), None
            if time < before["pts"] and not self.keeps_last:
                raise Unread("last")
            if time < last:
                return None, self.fault("out of program order", ""), None
            last, program = time * self.keeps_last, self.programs[place].after(program, received)
        if event[0] == "Advance" and made.answer == "Advanced":
            is_own = len(event) > 2
            advances += is_own
            program = program if is_own else self.programs[place].after(program, None)
        record = self.records.id(made.records[0][2:]) if made.records else None
        return (made.value, program, advances, last), None, record

    def fault(self, kind, said):
        return 1 + self.faults.id((kind, said))

    # The events of a part.
    def begun(self, place, number, count):
        """What a core or a bank begins in a value, and whether that depends on how many messages are in flight."""
        found, asked = [], False
        events = self.core_events if place < self.cores else self.bank_events
        for event in events(place, number, count):
            step, made = self.step(place, number, event, None, count)
            asked |= made.asked
            if step:
                found.append(step)
        return tuple(found), asked

    def core_events(self, place, number, count):
        value = self.tables[place].values[number]
        machine = self.maker.machine(self.parts[place], value[0], None, 0, 0)
        core, wanted = machine.cores[place], self.programs[place].next(value[1])
        if core.op is not None:
            yield "Attempt", place
        elif wanted == ADVANCE:
            yield "Advance", place
        elif wanted:
            yield "Issue", place, wanted
        if value[2] < self.how.advances:
            yield "Advance", place, "own"
        for line in self.copies_to_evict(machine, place, number, count):
            yield "EvictCache", place, line

    def copies_to_evict(self, machine, place, number, count):
        if self.how.evict == "any":
            return machine.copies(place)
        core = machine.cores[place]
        if core.op is None or core.out:
            return []
        _, made = self.step(place, number, ("Attempt", place), None, count)
        victim = machine.victim(place, machine.line_at(place)) if made.answer == "NoRoom" else None
        return [] if victim is None else [victim]

    def bank_events(self, place, number, count):
        bank, value = place - self.cores, self.tables[place].values[number]
        machine = self.maker.machine(self.parts[place], value, None, 0, 0)
        return [("EvictBank", bank, line) for line in machine.entries(bank)]

    def delivery(self, place, number, message, count):
        """What a delivery does, with the eviction for a request that is held for room; and as `begun`."""
        step, made = self.step(place, number, ("Deliver",), message, count)
        found, asked = [step] if step else [], made.asked
        if made.answer == "Held" and self.parts[place][0] == "bank" and self.how.evict == "demand":
            of = self.messages.values[message]
            line = self.maker.machine(self.parts[place], self.tables[place].values[number], of, 1, 0).room_for(0)
            if line is not None:
                evict, made = self.step(place, number, ("EvictBank", place - self.cores, line), None, count)
                asked |= made.asked
                found += [evict] if evict else []
                self.makes_room |= {evict[0]} if evict else set()
        return tuple(found), asked

    def keep(self, kept, key, count, made):
        """Keeps what a step does: by the count of messages, if it depends on that."""
        found, asked = made
        if asked:
            kept.setdefault(key, {})[count] = found
        else:
            kept[key] = found
        return found

    def successors(self, state):
        """The events that change a state: (event, the state after it or None, a fault or 0)."""
        found, bag = [], state & MASK
        count, moved = self.bags.count[bag], self.bags.moved[bag]
        evicted = set()
        for place, shift, kept in self.begins:
            number = state >> shift & MASK
            steps = kept.get(number)
            if steps.__class__ is dict:
                steps = steps.get(count)
            if steps is None:
                steps = self.keep(kept, number, count, self.begun(place, number, count))
            for step in steps:
                found.append(self.applied(state, bag, moved, step))
        for message in self.bags.distinct[bag]:
            place = self.target[message]
            number = state >> self.at[place] & MASK
            kept, key = self.delivered[place], number << BITS | message
            steps = kept.get(key)
            if steps.__class__ is dict:
                steps = steps.get(count)
            if steps is None:
                steps = self.keep(kept, key, count, self.delivery(place, number, message, count))
            for step in steps:
                if step[0] in self.makes_room:  # for several messages, maybe
                    if step[0] in evicted:
                        continue
                    evicted.add(step[0])
                found.append(self.applied(state, bag, moved, step))
        return found

    def applied(self, state, bag, moved, step):
        event, added, move, record, lines, fault = step
        if fault:
            return event, None, fault
        after = state + added
        if move is not None:
            of = moved.get(move)
            after += self.bags.move(bag, move) if of is None else of
        if record is not None:
            number = state >> self.history_at & MASK
            later = self.later.get(number << BITS | record)
            if later is None:
                later = self.with_record(number, record)
            if later is False:
                return event, None, self.fault("wrong value", "")
            after += later
        if lines:
            for line in lines:
                if self.owners(after, line) > 1:
                    return event, None, self.fault("two owners", line)
        return event, after, 0

    def with_record(self, number, record):
        after = with_record(self.histories.values[number], self.records.values[record], self.subject.memory)
        known = None if after is None else limited(self.histories.id(after), "the history of words")
        added = False if after is None else known - number << self.history_at
        self.later[number << BITS | record] = added
        return added

    def owners(self, state, line):
        return self.bags.owners(state & MASK, line) + sum(
            line in self.owned[place][state >> self.at[place] & MASK] for place in range(self.cores))

    # What a state is.
    def is_done(self, state):
        for ended, at in zip(self.is_end, self.at):
            if not ended[state >> at & MASK]:
                return False
        return True

    def end(self, state):
        of = (state & (1 << self.at[self.cores]) - 1) >> self.history_at
        if of not in self.end_of:
            values = [self.tables[place].values[state >> self.at[place] & MASK][1] for place in range(self.cores)]
            memory = memory_of(self.histories.values[state >> self.history_at & MASK], self.subject.memory)
            self.end_of[of] = end_of(self.subject, self.programs, values, memory)
        return self.end_of[of]

    def in_flight(self, state):
        return self.bags.count[state & MASK]


class Of:
    """What has DRAM alone."""

    def __init__(self, dram):
        self.dram = dram
