"""Schedule threads of docs/SCHEDULES.md with one worker: it gives all seats their turns, in one order. The turns of
several workers come in an order that nobody knows, so their runs can't be worked out.

The machine is that of seats.py: what seats do in a turn by themselves is there.
"""
from types import SimpleNamespace

from reference.machine import COUNTED
from reference.schedules import ADVANCE
from reference.seats import REFUSALS, Seats


IN_A_ROW = 16  # the most turns of a seat before the next seat has its own
MOVED = ("delivered", "dropped", "started")
NO_ROOM = f"refused {REFUSALS['NoRoom']}"


def words_of(name, seat, of=()):
    """A call in words: the seat, and an operation or a line."""
    return " ".join([f"seat {seat}: {name}", *(str(part) for part in (of if isinstance(of, tuple) else (of,))
                                               if part is not None)])


class SharedMachine(Seats):
    """A machine of seats, with as many cores as there are programs."""

    def __init__(self, options, cores, memory):
        super().__init__(SimpleNamespace(**{**vars(options), "cores": cores}), memory)

    def totals(self):
        return {name: sum(seat.counts[kind] for seat in self.seats) for kind, name in COUNTED.items()}

    def has_stopped(self):
        return any(seat.stopped for seat in self.seats)


class WorkerRun:
    """A machine's seats and its programs. If it is `fair`, banks have fair turns. `passes` counts the passes, and `had`
    the turns of each seat. `tell` is given each call of a seat, with the number of the seat's turn and its answer."""

    def __init__(self, machine, programs, tell=None, fair=False):
        self.machine, self.programs, self.tell, self.fair = machine, programs, tell, fair
        self.passes, self.had = 0, [0] * len(machine.seats)

    @property
    def turns(self):
        """The most turns that a seat has had."""
        return max(self.had)

    def issued(self):
        """The operations that each core was issued."""
        return [core.issued for core in self.machine.cores]

    def call(self, *call):
        answer = self.machine.call(*call)
        if self.tell:
            self.tell(self.had[call[1]], words_of(*call), answer)
        return answer

    def is_open(self, core):
        return self.machine.cores[core].op is not None

    def is_done(self):
        return not any(self.is_open(core) or program.next() for core, program in enumerate(self.programs))

    def drive(self, limit):
        """The end of the run. Each seat may have `limit` turns."""
        while min(self.had) < limit and not self.is_done() and not self.machine.has_stopped():
            self.passes += 1
            self.make_pass(limit)
        if self.is_done():
            return "all-done"
        return "exhausted" if self.machine.has_stopped() else "limit"

    def make_pass(self, limit):
        """Turns for each seat, the cores first. A seat that stops ends the pass."""
        for number, seat in enumerate(self.machine.seats):
            self.make_row(number, limit)
            if seat.stopped:
                return

    def make_row(self, number, limit):
        """Turns of a seat in a row, as long as each makes progress and there are turns left."""
        for _ in range(min(IN_A_ROW, limit - self.had[number])):
            self.had[number] += 1
            if not self.make_turn(number) or self.machine.seats[number].stopped:
                return

    def make_turn(self, number):
        """Whether the turn made progress: a step of the program was done, or messages were put or served."""
        if number >= len(self.programs):
            return self.make_bank_turn(number)
        is_done = self.begin_core(number)
        return self.make_seat_turn(number) or is_done

    def make_seat_turn(self, number):
        """The turn that the seat makes by itself; whether messages were put or served."""
        put, _, served = self.call("turn", number).partition(" ")
        return put not in ("0", "refused") or served in MOVED

    def make_bank_turn(self, number):
        """Room is made before the seat's turn; in a fair turn after it, and only if that made no progress."""
        if not self.fair:
            self.make_room(number)
        moved = self.make_seat_turn(number)
        if self.fair and not moved:
            self.make_room(number)
        return moved

    def begin_core(self, core):
        """The program's next step if no operation is open, and an attempt of the one that is open then; whether a step
        was done."""
        step = None if self.is_open(core) else self.programs[core].next()
        if step == ADVANCE:
            if self.call("advance", core) != "done":
                return False
            self.programs[core].done(None)
            return True
        if step:
            self.call("issue", core, step)
        return self.is_open(core) and self.attempt(core)

    def attempt(self, core):
        answer = self.call("attempt", core)
        if answer == NO_ROOM:
            self.call("evict", core, self.machine.victim(core, self.machine.line_at(core)))
        if answer != "Completed":
            return False
        self.programs[core].done(self.machine.records[-1].received)
        return True

    def make_room(self, number):
        """The line leaves that makes room for the oldest held request that waits for it, if there is one."""
        line = self.machine.make_room(number)
        if line is not None:
            self.call("evict", number, line)


def by_one_worker(options, programs, memory, tell=None):
    """A run by one worker, and its end."""
    run = WorkerRun(SharedMachine(options, len(programs), memory), programs, tell, options.fair)
    return run, run.drive(options.limit)
