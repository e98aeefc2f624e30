"""Rounds and seeds of docs/SCHEDULES.md; threads are in workers.py. A run drives a machine and one program a core.

A program has `next()`, its next step or None: an operation as machine.py has it, or ADVANCE; and `done(received)`.
"""
ADVANCE = ("advance", None, None)
WITHOUT_PROGRESS = ("Waiting", "Held", "Busy", "NoSuch", "NoRoom", "Pinned", "NetworkFull", "Stopped")
MULTIPLIER = 6364136223846793005
SEED_ADDEND = 11634580027462260723
# What a generator with t = 42 and i = 109 gives, as docs/SCHEDULES.md publishes it.
PUBLISHED = (0xa15c02b7, 0x7b47f409, 0xba1d3330, 0x83d2f293, 0xbfa4784b, 0xcbed606e)


class Pcg32:
    """The generator of docs/SCHEDULES.md. All its numbers are taken modulo 2^64."""

    def __init__(self, start, increment):
        self.increment = increment
        self.state = (start + increment) * MULTIPLIER + increment & 2 ** 64 - 1

    @classmethod
    def of_seed(cls, seed):
        drawn, state = b"", seed
        for _ in range(4):
            state = state * MULTIPLIER + SEED_ADDEND & 2 ** 64 - 1
            drawn += word_of(state).to_bytes(4, "little")
        return cls(int.from_bytes(drawn[:8], "little"), int.from_bytes(drawn[8:], "little") | 1)

    def draw(self):
        word = word_of(self.state)
        self.state = self.state * MULTIPLIER + self.increment & 2 ** 64 - 1
        return word


def word_of(state):
    low = ((state >> 18) ^ state) >> 27 & 2 ** 32 - 1
    places = state >> 59
    return (low >> places | low << 32 - places) & 2 ** 32 - 1


def test_generator():
    generator = Pcg32(42, 109)
    assert tuple(generator.draw() for _ in PUBLISHED) == PUBLISHED, "the generator isn't the published one"


class Run:
    """A machine and its programs. `made` lists the events with their answers; `tell` is given each, with its turn
    and what the machine says about it beforehand.
    `busy` are the turns in which some were made.
    `drawn` has for each turn of a seeded run how many events were made before, its list and the list's length."""

    def __init__(self, machine, programs, tell=None):
        self.machine, self.programs, self.tell = machine, programs, tell
        self.made, self.drawn, self.turns, self.busy = [], [], 0, set()

    def make(self, *event):
        about = self.machine.about(event) if self.tell else None
        answer = self.machine.step(event)
        self.made.append((event, answer))
        self.busy.add(self.turns)
        if answer == "Completed":
            self.programs[event[1]].done(self.machine.records[-1].received)
        if self.tell:
            self.tell(self.turns, about, answer)
        return answer

    def issued(self):
        """The operations that each core was issued, by the events of the run."""
        issued = [[] for _ in self.programs]
        for (name, *of), answer in self.made:
            if name == "Issue" and answer == "Issued":
                issued[of[0]].append(of[1])
        return issued

    def make_step(self, core):
        """Makes the next step of a core's program: an Issue, or an Advance, which the program then leaves behind."""
        wanted = self.programs[core].next()
        if wanted != ADVANCE:
            return self.make("Issue", core, wanted)
        answer = self.make("Advance", core)
        if answer == "Advanced":
            self.programs[core].done(None)
        return answer

    def choose(self, which):
        """The list of events of a turn of a seeded run."""
        events = chosen_list(self, which)
        self.drawn.append((len(self.made), which, len(events)))
        return events

    def is_exhausted(self):
        """Whether the last event was answered so, which ends the run."""
        return bool(self.made) and self.made[-1][1] == "Exhausted"

    def is_open(self, core):
        return self.machine.cores[core].op is not None

    def is_done(self):
        return not any(self.is_open(core) or program.next() for core, program in enumerate(self.programs))

    def deliver(self, number, again=False):
        """Deliver, and the eviction that follows where it is held for room; by fair rounds, Deliver once more then."""
        if self.make("Deliver", number) == "Held":
            line = self.machine.room_for(number)
            if line is not None and self.make("EvictBank", line % self.machine.o.banks, line) == "Evicted" and again:
                self.make("Deliver", number)

    def attempt(self, core):
        """Attempt, and the eviction that follows if there is no place for the line. Whether there was none."""
        if self.make("Attempt", core) != "NoRoom":
            return False
        victim = self.machine.victim(core, self.machine.line_at(core))
        if victim is not None:
            self.make("EvictCache", core, victim)
        return True

    def drive(self, limit, turn, may_stall):
        """The end of a run whose turns are made by `turn`."""
        while not self.is_done():
            if self.turns == limit:
                return "limit"
            self.turns += 1
            before = len(self.made)
            turn(self)
            if self.is_exhausted():
                return "exhausted"
            if may_stall and all(answer in WITHOUT_PROGRESS for _, answer in self.made[before:]):
                return "stalled"
        return "all-done"


def by_rounds(run, limit, fair=False):
    return run.drive(limit, lambda run: a_round(run, fair), True)


def a_round(run, fair):
    for core, program in enumerate(run.programs):
        if not run.is_open(core) and program.next():
            run.make_step(core)
        if run.is_open(core) and not run.is_exhausted() and run.attempt(core):
            run.make("Attempt", core)
        if run.is_exhausted():
            return
    for number in sorted(run.machine.flight):
        run.deliver(number, fair)
        if run.is_exhausted():
            return


def by_seed(run, limit, seed):
    generator = Pcg32.of_seed(seed)

    def turn(run):
        first, second = generator.draw(), generator.draw()
        events = run.choose(first % 16)
        if events:
            make_one(run, events[second % len(events)])

    return run.drive(limit, turn, False)


def chosen_list(run, which):
    """A list of events for a turn; ("Step", core) stands for the next step of the core's program."""
    machine, cores = run.machine, range(len(run.programs))
    if which == 0:
        return [("Advance", core) for core in cores]
    if which == 1:
        return [("EvictCache", core, line) for core in cores for line in machine.copies(core)
                if not is_pinned(machine, core, line)]
    if which == 2:
        return [("EvictBank", bank, line) for bank in range(machine.o.banks) for line in machine.entries(bank)]
    events = []
    for core in cores:
        if not run.is_open(core):
            events += [("Step", core)] if run.programs[core].next() else []
        elif not machine.cores[core].out:
            events.append(("Attempt", core))
    return events + [("Deliver", number) for number in sorted(machine.flight)]


def is_pinned(machine, core, line):
    """As docs/PROTOCOL.md has it: the copy of the open operation's line is pinned."""
    return machine.line_at(core) == line


def make_one(run, event):
    name, *of = event
    if name == "Step":
        run.make_step(*of)
    elif name == "Attempt":
        run.attempt(*of)
    elif name == "Deliver":
        run.deliver(*of)
    else:
        run.make(*event)
