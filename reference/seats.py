"""The seats of docs/SEATS.md: the machine of docs/PROTOCOL.md, cut into seats that pass its messages over links.

A call is a tuple: (name, seat) or (name, seat, of), with the names "issue" (of: an operation), "attempt", "advance",
"evict" (of: a line), "put", "take", "serve" and "turn". Seats are numbered, cores first. `call` answers by a text, a
refusal by its number. What the parts make of messages is the machine's; where messages lie, and their order, is here.
"""
from copy import deepcopy
from types import SimpleNamespace

from reference.machine import COUNTED, FROM_DRAM, TO_DRAM, Machine, Refusal


PLACES = 256  # of an outbox, and of a held list
SLOTS = 4     # of a link
REFUSALS = {name: number for number, name in enumerate(
    "Busy TooMany NoSuch NoRoom Pinned NetworkFull NoMemory Exhausted Stopped".split(), 1)}


class Full(Exception):
    """A message finds no place."""


class Seats(Machine):
    def __init__(self, options, memory):
        super().__init__(options, options.cores, memory)
        self.seats = [SimpleNamespace(outbox=[], hand=None, held=[], cursor=0, stopped=False, done=0,
                                      counts=dict.fromkeys(COUNTED, 0))
                      for _ in range(options.cores + options.banks)]
        self.slots = [None] * (2 * SLOTS * options.cores * options.banks)
        self.opening = dict(memory)
        self.stored = {self.line(word) for word in memory}  # lines of which DRAM was given the words
        self.now = self.places = None   # the seat that acts, and for how many messages its held list has place
        self.without_memory = False     # whether memory is refused to this call

    # Links and slots.
    def slots_to(self, m):
        """The slots of the link by which a message leaves its seat."""
        (letter, source), (_, target) = self.nodes(m)
        cores, banks = self.o.cores, self.o.banks
        link = source * banks + target if letter == "c" else cores * banks + source * cores + target
        return range(SLOTS * link, SLOTS * link + SLOTS)

    def slots_in(self, seat):
        """The slots that come in to a seat."""
        cores, banks = self.o.cores, self.o.banks
        links = [cores * banks + bank * cores + seat for bank in range(banks)] if seat < cores else \
                [core * banks + seat - cores for core in range(cores)]
        return [SLOTS * link + slot for link in links for slot in range(SLOTS)]

    # Sending: to the outbox, or to the end of the seat's own held list.
    def send(self, kind, line, core=None, **carried):
        m = SimpleNamespace(kind=kind, line=line, core=core, **carried)
        if kind in TO_DRAM + FROM_DRAM:
            if self.places < 1:
                raise Full
            self.places -= 1
            self.now.held.append(m)
            return
        if len(self.now.outbox) >= PLACES:
            raise Full
        self.now.outbox.append(m)
        if kind in COUNTED:
            self.now.counts[kind] += 1

    def start(self, *message, **carried):
        self.send(*message, **carried)

    # Calls.
    def call(self, name, number, of=None):
        """The answer. A refusal changes nothing, but that Exhausted stops the seat."""
        seat = self.now = self.seats[number]
        self.places = PLACES - len(seat.held)
        if name in ("put", "take"):
            return getattr(self, name)(number)
        try:
            if name == "turn":
                return self.turn(number)
            if seat.stopped:
                raise Refusal("Stopped")
            return getattr(self, "do_" + name)(number, *(() if of is None else (of,)))
        except Full:
            return self.refused(seat, "NetworkFull")
        except Refusal as refusal:
            return self.refused(seat, str(refusal))

    def refused(self, seat, name):
        seat.stopped = seat.stopped or name == "Exhausted"
        return f"refused {REFUSALS[name]}"

    def do_issue(self, number, op):
        if self.cores[number].op:
            raise Refusal("Busy")
        if self.without_memory:
            raise Refusal("NoMemory")
        self.issue(number, op)
        return "done"

    def do_advance(self, number):
        self.advance(number)
        return "done"

    def do_attempt(self, number):
        answer = self.attempt(number)
        if answer == "NoRoom":
            raise Refusal(answer)
        if answer == "Completed":
            self.seats[number].done += 1
        return answer

    def do_evict(self, number, line):
        if number < self.o.cores:
            self.evict_cache(number, line)
            return "done"
        return self.evict_bank(number - self.o.cores, line).lower()

    def do_serve(self, number):
        return self.serve(number).lower()

    def put(self, number):
        """The oldest message of the outbox that finds a free slot on its link."""
        seat = self.seats[number]
        for at, m in enumerate(seat.outbox):
            free = [slot for slot in self.slots_to(m) if self.slots[slot] is None]
            if free:
                self.slots[free[0]] = seat.outbox.pop(at)
                return "put"
        return "none put"

    def take(self, number):
        """The first message that came in, from the slot after that of the last one on."""
        seat = self.seats[number]
        if seat.hand:
            return "hand full"
        slots = self.slots_in(number)
        for place in [*range(seat.cursor, len(slots)), *range(seat.cursor)]:
            if self.slots[slots[place]]:
                seat.hand, self.slots[slots[place]] = self.slots[slots[place]], None
                seat.cursor = (place + 1) % len(slots)
                return "taken"
        return "none taken"

    def serve(self, number):
        """The hand comes first, then the held ones; the first that is neither passed nor finds no place is served."""
        seat, wanting = self.seats[number], False
        for m in ([seat.hand] if seat.hand else []) + list(seat.held):
            is_hand, before = m is seat.hand, len(seat.held)
            self.places = PLACES - before + (not is_hand)
            try:
                answer = self.fitted(number, m)
            except Full:
                wanting = True
                continue
            if answer == "Held" and not is_hand:
                continue
            if answer in ("Started", "Held") and is_hand:
                seat.held.insert(before, m)  # in front of what was sent on its behalf
            elif answer in ("Delivered", "Dropped") and not is_hand:
                del seat.held[next(at for at, other in enumerate(seat.held) if other is m)]
            if is_hand:
                seat.hand = None
            return answer
        if wanting:
            raise Full
        return "Held" if seat.held else "Nothing"

    def fitted(self, number, m):
        """What the part answers, if all that this sends finds its place; else Full, and nothing changed."""
        seat = self.seats[number]
        if m.kind == "DramSt" and m.line not in self.stored and self.without_memory:
            raise Refusal("NoMemory")
        if len(seat.outbox) >= PLACES or self.places < 2:
            self.try_out(number, m)
        answer = self.take_in(m)
        if m.kind == "DramSt":
            self.stored.add(m.line)
        return answer

    def try_out(self, number, m):
        """Whether all finds its place: tried on a copy of the parts, which is given up."""
        kept = {name: getattr(self, name) for name in ("cores", "bank_sets", "dram", "seats", "now", "places")}
        copied = deepcopy({name: kept[name] for name in ("cores", "bank_sets", "dram", "seats")})
        for name, value in copied.items():
            setattr(self, name, value)
        self.now = self.seats[number]
        try:
            answer = self.take_in(m)
            if answer in ("Held", "Started") and self.places < 1:
                raise Full
        finally:
            for name, value in kept.items():
                setattr(self, name, value)

    def turn(self, number):
        seat, puts = self.seats[number], 0
        while self.put(number) == "put":
            puts += 1
        if seat.stopped:
            raise Refusal("Stopped")
        was_full = seat.hand is not None
        served = self.serve(number)
        if not was_full and served in ("Held", "Nothing") and self.take(number) == "taken":
            served = self.serve(number)
        return f"{puts} {served.lower()}"

    def make_room(self, number):
        """The line to evict for the oldest held request that waits for room, or None."""
        rooms = (self.room_of(m) for m in self.seats[number].held if m.kind in ("ShReq", "ExReq"))
        return next((room for room in rooms if room is not None), None)
