from reference import order, told
from reference.calls import Call, Parts, Player
from reference.machine_texts import CARRIERS, History
from reference.seats import PLACES, Seats
"""Plays the calls of examples of seats, and of numbers that are drawn (docs/EVENTS.md)."""

NAMES = {"done": {"issue": "issued", "advance": "advanced", "evict": "evicted"}, "none put": "nothing",
         "none taken": "nothing"}
OF_BANKS = ("memory-time", "entry", "dram")  # the looks that name no core, but a bank


class SeatPlayer(History, Parts):
    # What is asked of open seats, of a closed run, and of seats also when they are closed.
    MADE = {"issue": Call("count operation"), "attempt": Call("count"), "advance": Call("count"),
            "evict": Call("seat line"), "put": Call("seat"), "take": Call("seat"), "serve": Call("seat"),
            "turn": Call("seat")}
    OF_OPEN = {**MADE, "close": Call()}
    LOOKS_OF_OPEN = {"room": Call("bank"), "cursor": Call("seat"), "stopped": Call("seat")}
    OF_RUN = {"record": Call("number"), "stale": Call(), "check": Call(), "arranged": Call(), "word": Call("address"),
              "owners": Call("line"), "slot": Call("number"), "slots": Call()}
    LOOKS = {**Parts.LOOKS, "hand": Call("seat"), "held": Call("seat count"), "places": Call("seat"),
             "outbox": Call("seat"), "sent": Call("seat_or_none"), "records": Call("core_or_none"),
             "state": Call("seat count")}
    CALLS = {"seats": Call("options memory"), **OF_OPEN, **LOOKS_OF_OPEN, **OF_RUN, **LOOKS}

    is_closed = False

    def answer(self, name, of):
        is_of_run = name in self.OF_RUN or of == [None]
        if name != "seats" and (self.machine is None or (is_of_run if not self.is_closed else name in self.OF_OPEN)):
            return "no machine"
        if is_of_run or name in ("seats", "close"):
            return super().answer(name, of)
        seat = self.seat_of(name, of[0])
        if seat is None:
            return "no seat"
        if self.is_closed and name in self.LOOKS_OF_OPEN:
            return "no machine"
        return self.make(name, seat, of[1:]) if name in self.MADE else super().answer(name, of)

    def seat_of(self, name, named):
        """The number of a seat, or None if it isn't there."""
        part, number = named if isinstance(named, tuple) else ("bank" if name in OF_BANKS else "core", named)
        o = self.machine.o
        if part == "core":
            return number if number < o.cores else None
        return o.cores + number if number < o.banks else None

    # From opening to close.
    def call_seats(self, named, memory):
        self.is_closed = False
        return self.open_with(Seats, named, memory)

    def call_close(self):
        self.is_closed = True
        return "closed"

    # Calls.
    def make(self, name, seat, of):
        if name == "evict":
            of = [self.number(of[0])]
        answer = self.machine.call(name, seat, *of)
        if answer.startswith("refused "):
            return f"refused {told.REFUSALS[int(answer.split(' ')[1]) - 1]}"
        if name == "turn":
            return " put, ".join(answer.split(" "))
        if answer == "done":
            return NAMES["done"][name]
        return NAMES.get(answer) or self.tell.answer(answer)

    # Looks at a seat.
    def seat(self, named):
        return self.machine.seats[self.seat_of(None, named)]

    def call_hand(self, seat):
        return self.tell.message(self.seat(seat).hand)

    def call_held(self, seat, index):
        held = self.seat(seat).held
        return self.tell.message(held[index] if index < len(held) else None)

    def call_places(self, seat):
        return str(PLACES - len(self.seat(seat).held))

    def call_outbox(self, seat):
        return str(len(self.seat(seat).outbox))

    def call_cursor(self, seat):
        return str(self.seat(seat).cursor)

    def call_stopped(self, seat):
        return "yes" if self.seat(seat).stopped else "no"

    def call_room(self, seat):
        return self.tell.line(self.machine.make_room(self.seat_of(None, seat)))

    def call_state(self, seat, words):
        return "; ".join(self.state(seat, words))

    def state(self, seat, words):
        state = self.core_state if seat[0] == "core" else self.bank_state
        yield from state(seat[1], self.words_of(words))
        yield f"hand {self.call_hand(seat)}"
        yield f"places {self.call_places(seat)}"
        yield from (f"held {self.tell.message(m)}" for m in self.seat(seat).held)
        yield f"outbox {self.call_outbox(seat)}"
        yield f"sent {self.call_sent(seat)}"
        if not self.is_closed:
            yield f"cursor {self.call_cursor(seat)}"
            yield f"stopped {self.call_stopped(seat)}"
            if seat[0] == "bank":
                yield f"room {self.call_room(seat)}"

    # Looks that a seat has, and a closed run.
    def call_sent(self, seat):
        counts = [self.seat(seat).counts] if seat else [of.counts for of in self.machine.seats]
        return told.sent({kind: sum(of[kind] for of in counts) for kind in counts[0]})

    def call_records(self, core):
        return super().call_records() if core is None else str(self.core(core).done)

    # Looks at a closed run.
    def call_word(self, word):
        return str(order.end_memory(self.opening, self.machine.records).get(word, 0))

    def call_owners(self, line):
        line = self.number(line)
        copies = [self.copy_at(core, line) for core in range(self.machine.o.cores)]
        owned = sum(copy is not None and copy.state == "Exclusive" for copy in copies)
        return str(owned + sum(m.line == line and m.kind in CARRIERS for m in self.messages()))

    def messages(self):
        """All that are left, with seats and in slots."""
        for seat in self.machine.seats:
            yield from seat.outbox + seat.held + [seat.hand] * (seat.hand is not None)
        yield from (m for m in self.machine.slots if m is not None)

    def call_slot(self, slot):
        return self.tell.message(self.machine.slots[slot] if slot < len(self.machine.slots) else None)

    def call_slots(self):
        return str(len(self.machine.slots))


class NumbersPlayer(Player):
    drawn = None  # what each drawer drew
    is_closed = True
    CALLS = {"numbers": Call("drawers"), "draw": Call("count"), "drawn": Call("count"), "close": Call()}

    def call_numbers(self, drawers):
        self.drawn, self.is_closed = [[] for _ in range(drawers)], False
        return "opened"

    def call_draw(self, drawer):
        if self.is_closed:
            return "no machine"
        if drawer >= len(self.drawn):
            return "no drawer"
        self.drawn[drawer].append(sum(map(len, self.drawn)))
        return str(self.drawn[drawer][-1])

    def call_drawn(self, drawer):
        if self.drawn is None:
            return "no machine"
        return told.joined(self.drawn[drawer]) if drawer < len(self.drawn) else "no drawer"

    def call_close(self):
        is_open, self.is_closed = not self.is_closed, True
        return "closed" if is_open else "no machine"


class SeatsOrNumbersPlayer(Player):
    """Plays examples that begin with `seats` or `numbers`; what was opened last is open."""

    CALLS = {**SeatPlayer.CALLS, **NumbersPlayer.CALLS}
    opened = Player()

    def answer(self, name, of):
        if name in ("seats", "numbers"):
            self.opened = SeatPlayer() if name == "seats" else NumbersPlayer()
        return self.opened.answer(name, of) if name in self.opened.CALLS else "no machine"
