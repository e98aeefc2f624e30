"""Memory that is refused to the players crates/play_events and crates/play_seats, for tests/refusals.py: each growth
alone, and to seats also with all later ones.

Each game is a text. It has each call that may be refused twice, and what can be seen then after both. The player must
report a call that is refused. The call changes nothing, except that a turn keeps what it put and took; and the second
one goes on as if the first had never been. The second program gives the expected lines, once it knows which calls were
refused. If the player itself has no memory, it ends with status 4, and its output is a beginning.
"""
import random
import re
from collections import Counter
from copy import deepcopy

from reference.machine_texts import MachinePlayer
from reference.schedules import by_rounds, by_seed
from reference.seat_texts import NumbersPlayer, SeatPlayer
from tests import events, seats
from tests.ended_runs import OutOfMemory, Watched
from tests.games import Game, event_text, summary, text_of


NO_MEMORY = "refused NoMemory"
NO_MEMORY_STATUS = 4
# Machines whose DRAM is stored to within so many events; machines by whose runs it is; and machines of seats on which
# servings and turns may be refused, turns among them that put messages before. The last has 21 records, 3 of them stale
# hits: to count those of more than 16 records takes memory.
STEP_SEEDS, EVENTS = (1, 2, 15, 25, 33, 42), 80
LIST_SEEDS, LISTS, LISTED = (1, 2, 7, 8, 15, 33), 5, 16
DRIVE_SEEDS, RUNS = (8, 13, 16, 20, 25, 34), 3
SEAT_SEEDS, CALLS = (7, 14, 83, 212, 357, 370, 63), 150
# Those that make lists, or open another machine.
LOOKS = ("state", "check", "stale", "arranged", "flight", "copies", "free", "entries", "counts")


class Machines(MachinePlayer):
    """A player that gets with each call the line printed of it, and refuses the call if that says so, and if it may be
    refused."""

    def __init__(self):
        super().__init__()
        self.refused = Counter()

    def follow(self, call, said):
        name, of = self.read(call)
        if said == NO_MEMORY and self.may_be_refused(name, of):
            self.refused[name] += 1
            if name == "machine":
                self.machine = None
            return NO_MEMORY
        if name == "run" and NO_MEMORY in said:
            return self.run(of[0], said.split("; "))
        if name in ("rounds", "fair-rounds", "seed") and said.startswith("memory, "):
            return self.ended(name, of, int(said.split(" ")[1]))
        return self.answer(name, of)

    def may_be_refused(self, name, of):
        if name == "machine" or self.machine is None:
            return name == "machine"
        return name in ("issue", "run", *LOOKS) or name == "deliver" and self.is_first_store(of[0])

    def is_first_store(self, number):
        message = self.machine.flight.get(number)
        return message is not None and message.kind == "DramSt" and message.line not in self.machine.dram

    def run(self, given, said):
        """A list of which an event is refused: it changes nothing, and the next one follows."""
        answers = []
        for at, event in enumerate(given):
            is_refused = said[at:at + 1] == [NO_MEMORY]
            if is_refused and (event[0] == "Issue" or event[0] == "Deliver" and self.is_first_store(event[1])):
                self.refused[event[0]] += 1
                answers.append(NO_MEMORY)
            else:
                answers.append(self.step(event))
        return "; ".join(answers)

    def ended(self, name, of, count):
        """A run that ends with a failed allocation after this many events."""
        run = self.run_of(lambda machine, programs: Watched(machine, programs, count))
        try:
            end = by_seed(run, of[1], of[0]) if name == "seed" else by_rounds(run, of[0], name == "fair-rounds")
        except OutOfMemory:
            self.refused[name], end = self.refused[name] + 1, "memory"
        return self.driven(run, end)


class Seats(SeatPlayer):
    """The same of seats. Their second program knows itself which calls may be refused."""

    def __init__(self):
        self.refused = Counter()

    def follow(self, call, said):
        name, of = self.read(call)
        if said != NO_MEMORY or self.machine is None and name != "seats":
            return self.answer(name, of)
        if name in ("seats", "close", *LOOKS):
            self.refused[name] += 1
            if name in ("seats", "close"):
                self.machine = None
            return NO_MEMORY
        outbox = self.seat(of[0]).outbox if name == "turn" else []
        before, self.machine.without_memory = len(outbox), True
        answer = self.answer(name, of)
        self.machine.without_memory = False
        self.refused[name] += answer == NO_MEMORY
        self.refused["turn that put"] += answer == NO_MEMORY and len(outbox) < before
        return answer


class Numbers(NumbersPlayer):
    """The same of numbers."""

    def __init__(self):
        self.refused = Counter()

    def follow(self, call, said):
        name, of = self.read(call)
        if said == NO_MEMORY and (name == "numbers" or name == "draw" and not self.is_closed):
            self.refused[name] += 1
            if name == "numbers":
                self.is_closed, self.drawn = True, None
            return NO_MEMORY
        return self.answer(name, of)


def followed(game, kind, out):
    """The expected lines, if these are printed, and what was refused."""
    if NO_MEMORY not in out and ": memory, " not in out:
        return text_of([*game.wanted, summary(1)]), Counter()
    player, told, wanted = kind(), out.splitlines(), []
    for line in game.wanted:
        call = line.split(" : ")[0]
        said = told[len(wanted)].partition(" : ")[2] if len(wanted) < len(told) else ""
        wanted.append(f"{call} : {player.follow(call, said)}")
    return text_of([*wanted, summary(1)]), player.refused


def live(tester, game, **refusals):
    """The calls, each answered as it is read; what is written, as if the calls were a text."""
    calls = [line.split(" : ")[0] for line in game.wanted]
    ran = tester.run(["--live"], calls, **refusals)
    answers = [f"{call} : {answer}" for call, answer in zip(calls, ran.out.splitlines())]
    ran.out = text_of([*answers, *[summary(1)] * (ran.status == 0)])
    return ran


def of_text(tester, game, **refusals):
    return tester.run([], game.given, **refusals)


def swept(tester, game, kind, how="", run=of_text):
    """The 1st, 2nd, .. growth is refused, until none is left; what was refused so, by name."""
    refused, number = Counter(), 0
    while True:
        number += 1
        ran = run(tester, game, growth=f"{number}{how}")
        wanted, here = followed(game, kind, ran.out)
        is_whole = (ran.status, ran.out, ran.error) == (0, wanted, "")
        is_cut = ran.refused and ran.status == NO_MEMORY_STATUS and wanted.startswith(ran.out)
        is_one = how or len(re.findall(f"{NO_MEMORY}|: memory,", ran.out)) <= 1
        tester.expect((is_whole or is_cut) and is_one, f"{game.given[0]}, growth {number}{how}: {ran.answer()}")
        refused += here
        if not ran.refused:
            tester.expect(is_whole and not here.total(), f"{game.given[0]}, nothing refused: {ran.answer()}")
            return refused


def expect_all(tester, refused, names):
    for name in names:
        tester.expect(refused[name] > 0, f"no {name} was refused")


def told(refused):
    return ", ".join(f"{name} {count}" for name, count in sorted(refused.items()) if count)


# Games on machines.
def opened_twice(title, seed):
    picker = events.Picker(title, random.Random(seed))
    picker.game.ask(picker.game.given[1])
    picker.look()
    return picker


def twice(picker, call):
    for _ in range(2):
        picker.game.ask(call)
        picker.look()


def stepped(seed):
    """Single events."""
    picker = opened_twice(f"steps {seed}", seed)
    for _ in range(EVENTS):
        event = picker.event()
        call = event_text(picker.machine, event)
        if event[0] in ("Issue", "Deliver"):
            twice(picker, call)
        else:
            picker.game.ask(call)
            picker.look()
    picker.ask()
    return picker.game


def listed(seed):
    """Lists of events, which the test picks on a copy of the machine."""
    picker = opened_twice(f"lists {seed}", seed)
    for _ in range(LISTS):
        machine, calls = picker.machine, []
        picker.game.player.machine = deepcopy(machine)
        for _ in range(LISTED):
            event = picker.event()
            calls.append(event_text(machine, event))
            picker.machine.step(event)
        picker.game.player.machine = machine
        twice(picker, "run " + "; ".join(calls))
    picker.ask()
    return picker.game


def driven(seed):
    """Runs by rounds and by seeds."""
    picker = opened_twice(f"drives {seed}", seed)
    for _ in range(RUNS):
        picker.make_drive()
    picker.ask()
    return picker.game


# Games of seats, and of numbers.
def seated(seed):
    """Calls of seats, and the close of their machine."""
    generator = random.Random(seed)
    game = seats.random_game(f"seats {seed}", generator)
    game.ask(game.given[1])
    caller = seats.Caller(generator, game)
    for _ in range(CALLS):
        call = caller.pick()
        for _ in range(2 if call[0] in ("issue", "serve", "turn") else 1):
            game.make(*call)
    game.close()
    for call in ("arranged", "check", "stale"):
        game.ask(call)
    return game


def drawn(count):
    """Draws, each twice."""
    generator, game = random.Random(count), Game(f"{count} drawers", NumbersPlayer())
    for _ in range(2):
        game.ask(f"numbers {count}")
    for _ in range(30):
        drawer = generator.randrange(count)
        for call in ("draw", "drawn", "draw", "drawn"):
            game.ask(f"{call} {drawer}")
    game.ask("close")
    game.ask_each("drawn 0+@", count)
    return game


# The parts of tests/refusals.py.
def refused_steps(tester):
    """A refused event is an issue, or the delivery of a line's first store to its DRAM."""
    refused = sum((swept(tester, stepped(seed), Machines) for seed in STEP_SEEDS), Counter())
    expect_all(tester, refused, ("machine", "issue", "deliver"))
    print(f"steps: refused were {told(refused)}")
    refused = swept(tester, stepped(STEP_SEEDS[0]), Machines, run=live)
    expect_all(tester, refused, ("machine", "issue", "deliver"))
    print(f"calls one by one: refused were {told(refused)}")


def refused_lists(tester):
    """A list that is refused leaves the machine as it was. An event of a list is refused as one alone is."""
    refused = sum((swept(tester, listed(seed), Machines) for seed in LIST_SEEDS), Counter())
    expect_all(tester, refused, ("run", "Issue", "Deliver"))
    print(f"lists: refused were {told(refused)}")


def refused_drives(tester):
    """A driver that is refused memory ends the run so, before an event or where its schedule lists something."""
    refused = sum((swept(tester, driven(seed), Machines) for seed in DRIVE_SEEDS), Counter())
    expect_all(tester, refused, ("rounds", "seed", "counts"))
    print(f"drives: ended for want of memory, or refused, were {told(refused)}")


def refused_seats(tester):
    """Calls of seats, the close, looks at the records, and draws."""
    refused = Counter()
    games = [*((drawn(count), Numbers) for count in (1, 3)), *((seated(seed), Seats) for seed in SEAT_SEEDS)]
    for game, kind in games:
        for how in ("", "+"):
            refused += swept(tester, game, kind, how)
    expect_all(tester, refused, ("seats", "issue", "serve", "turn", "turn that put", "close", "arranged", "check",
                                 "stale", "numbers", "draw"))
    print(f"seats: refused were {told(refused)}")
    # A refused reading of `with` would keep the machine that is open: this one opens without.
    refused = swept(tester, drawn(1), Numbers, run=live) + swept(tester, seated(212), Seats, run=live)
    expect_all(tester, refused, ("numbers", "draw", "seats", "issue", "close"))
    print(f"seats, calls one by one: refused were {told(refused)}")
