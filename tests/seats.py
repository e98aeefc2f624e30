#!/usr/bin/env python3
"""Plays random calls of seats on random machines, closes each machine, and compares all that is printed with the
second program's seats: tests/seats.py PROGRAM [--machines N] [--calls N] [--crowded N] [--seed N].

PROGRAM is the built crate play_seats. Each machine is an example as a text (docs/EVENTS.md). The machines have few
words, and every limit of theirs is small or at its end. On crowded ones the script writes and evicts many lines, so
that outboxes and held lists are full. Before these, it draws numbers, and plays store buffering by single calls,
stopped after each number of them.
"""
import argparse
import random
import sys
from collections import Counter
from pathlib import Path
from types import SimpleNamespace

sys.path.insert(0, str(Path(__file__).resolve().parent.parent))
from reference import told  # noqa: E402
from reference.seat_texts import NumbersPlayer, SeatPlayer  # noqa: E402
from reference.seats import PLACES, SLOTS  # noqa: E402
from tests.games import Game, is_played, line_text, opening_text  # noqa: E402


LAST = 2 ** 64 - 1
OF_CORES = ("issue", "attempt", "advance")
# How many drawers there are, and how often is drawn.
DRAWN = [(1, 30), (3, 30), (16, 100)]


def options_of(generator):
    """A machine's options: few of everything, and now and then a limit's end."""
    def few(*usual, seldom=None):
        return seldom if seldom is not None and generator.random() < 0.03 else generator.choice(usual)

    return SimpleNamespace(cores=few(1, 2, 2, 3, 4, seldom=64), banks=few(1, 1, 2, seldom=8), sets=few(1, 1, 2, 3),
                           ways=few(1, 2, seldom=16), bank_sets=few(1, 1, 2), bank_ways=few(1, 2, 3),
                           line_words=few(1, 1, 8), lease=few(1, 2, 10, seldom=2 ** 32), messages=few(1, 65536),
                           private_write=few(0, 1), time=few(0, 0, 0, 0, 5, LAST - 60, seldom=LAST))


# Store buffering, and a round of single calls by which it is stopped after each number of calls.
PROGRAMS = [[("store", 0, 1), ("load", 1, None)], [("store", 1, 1), ("load", 0, None)]]
ROUND = [*((core, name) for core in (0, 1) for name in ("issue", "attempt", "put", "take", "serve")),
         (2, "put"), (2, "take"), (2, "serve"), (2, "serve")]

TWO = SimpleNamespace(cores=2, banks=1, sets=64, ways=4, bank_sets=256, bank_ways=8, line_words=1, lease=10, messages=1,
                      private_write=0, time=0)
CROWDED = SimpleNamespace(cores=2, banks=1, sets=64, ways=8, bank_sets=64, bank_ways=16, line_words=1, lease=10,
                          messages=1, private_write=0, time=0)


class SeatGame(Game):
    """The calls of a machine's seats, which are numbered, cores first. After each, what can be seen of the seat, with
    this many words."""

    def __init__(self, title, options, words, values, looks):
        super().__init__(title, SeatPlayer())
        self.o, self.words, self.looks, self.calls, self.answers = options, words, min(words, looks), [], Counter()
        self.lines = (words - 1) // options.line_words + 1
        memory = [(word, value) for word, value in enumerate(values) if value]
        self.ask(opening_text("seats", options, memory))

    @property
    def seats(self):
        return self.player.machine

    def seat(self, number):
        return f"core {number}" if number < self.o.cores else f"bank {number - self.o.cores}"

    def call_text(self, name, seat, of=None):
        if name in OF_CORES:
            return f"{name} {seat}" + (f" {told.operation(of)}" if of else "")
        return f"{name} {self.seat(seat)}" + ("" if of is None else f" {line_text(self.seats, of)}")

    def make(self, *call):
        """A call, and what can be seen then; the answer."""
        self.calls.append(call)
        answer = self.ask(self.call_text(*call))
        self.answers[name_of(call[0], answer)] += 1
        self.look(call[1])
        return answer

    def look(self, seat):
        self.ask(f"state {self.seat(seat)} {self.looks}")
        if seat < self.o.cores:
            self.ask(f"records {seat}")
        else:
            self.ask(f"room {self.seat(seat)}")
            self.ask_dram(seat)

    def ask_dram(self, seat):
        self.ask_each(f"dram {seat - self.o.cores} 0+@", min(self.lines, self.looks))

    def close(self):
        """The machine is closed: what it leaves, and what its records say."""
        for call in ("close", "records", "sent", "arranged", "check", "stale", "slots"):
            self.ask(call)
        self.ask_each("record 0+@", len(self.seats.records) + 1)
        self.ask_each("word 0x0+@", self.looks)
        self.ask_each("owners 0+@", min(self.lines, self.looks))
        self.ask_each("slot 0+@", len(self.seats.slots) + 1)
        for seat in range(len(self.seats.seats)):
            self.ask(f"state {self.seat(seat)} {self.looks}")
            if seat < self.o.cores:
                self.ask(f"issued {seat}")
                self.ask(f"records {seat}")
            else:
                self.ask_dram(seat)
        return self


def name_of(call, answer):
    """A call with its answer, for the count: of a turn, what was served last."""
    words = answer.split(" ")
    return " ".join([call, *words[:2]] if words[0] in ("refused", "hand") else
                    [call, words[-1] if call == "turn" else words[0]])


class Caller:
    """Picks calls: mostly of seats that have something to do. Some act seldom, so that links fill."""

    def __init__(self, generator, game):
        self.random, self.game, self.o = generator, game, game.o
        seats = range(min(self.o.cores, 4)), range(self.o.cores, self.o.cores + min(self.o.banks, 3))
        self.weights = {number: generator.choice([1, 1, 1, 0.3, 0.05]) for of in seats for number in of}

    def pick(self):
        busy = {number: weight for number, weight in self.weights.items() if self.has_work(number)}
        weights = busy if busy and self.random.random() < 0.85 else self.weights
        number = self.random.choices(list(weights), list(weights.values()))[0]
        if self.random.random() < 0.02:
            return self.odd(number)
        return self.of_core(number) if number < self.o.cores else self.of_bank(number)

    def has_work(self, number):
        """Whether there is a message to put, to serve or to take, or a core can go on without one."""
        seats = self.game.seats
        return has_messages(seats, number) or number < self.o.cores and not seats.cores[number].out

    def odd(self, number):
        """A call about what isn't there, or may not be."""
        line = self.random.choice([0, 1, self.game.lines, LAST])
        if number >= self.o.cores or self.random.random() < 0.5:
            return "evict", number, line
        return "issue", number, self.operation()

    def one(self, **weights):
        return self.random.choices(list(weights), list(weights.values()))[0]

    def of_core(self, number):
        core = self.game.seats.cores[number]
        name = self.one(issue=0 if core.op else 80, attempt=5 if core.out or not core.op else 60, turn=25, put=10,
                        take=10, serve=10, evict=8, advance=2)
        if name == "issue":
            return name, number, self.operation()
        if name == "evict":
            copies = self.game.seats.copies(number)
            victim = self.game.seats.victim(number, self.game.seats.line_at(number)) if core.op else None
            line = victim if victim is not None else self.random.choice(copies) if copies else None
            return (name, number, line) if copies else ("turn", number)
        if core.out and self.random.random() < 0.1:
            return "attempt", number
        return name, number

    def of_bank(self, number):
        name = self.one(turn=35, put=15, take=15, serve=20, evict=12)
        if name != "evict":
            return name, number
        lines = self.game.seats.entries(number - self.o.cores)
        room = self.game.seats.make_room(number)
        if room is not None and self.random.random() < 0.8:
            return name, number, room
        return (name, number, self.random.choice(lines)) if lines else ("turn", number)

    def operation(self):
        kind = self.random.choice(["load", "load", "store", "swap"])
        word = self.random.randrange(self.game.words)
        return kind, word, None if kind == "load" else self.random.choice([1, 2, 3, LAST, 0])


def random_game(title, generator):
    options = options_of(generator)
    words = generator.choice([1, 2, 3, 9]) * (4 if options.line_words == 8 else 1)
    return SeatGame(title, options, words, [generator.choice([0, 0, 7]) for _ in range(4)], 40)


def has_messages(seats, number):
    seat = seats.seats[number]
    return seat.outbox or seat.hand or seat.held or any(seats.slots[slot] for slot in seats.slots_in(number))


def played(title, generator, calls):
    game = random_game(title, generator)
    caller = Caller(generator, game)
    for _ in range(calls):
        game.make(*caller.pick())
    return game.close()


def drawn(generator, count, draws):
    """Draws by drawers, and after each all that the drawer drew."""
    game = Game(f"{count} drawers", NumbersPlayer())
    game.ask(f"numbers {count}")
    for _ in range(draws):
        drawer = generator.randrange(count)
        game.ask(f"draw {drawer}")
        game.ask(f"drawn {drawer}")
    game.ask("close")
    game.ask_each("drawn 0+@", count)
    return game


def buffering(calls):
    """The first calls of store buffering, as many as asked for or as there are: it ends when all is completed. A core
    is issued its next operation right after the one before is completed, or in its next round."""
    game = SeatGame(f"store buffering is stopped after {calls} calls", TWO, 2, [0, 0, 0, 0], 2)
    while len(game.calls) < calls and len(game.seats.records) < 4:
        for seat, name in ROUND:
            of = PROGRAMS[seat][len(game.seats.cores[seat].issued):][:1] if name == "issue" else []
            is_free = name != "issue" or of and game.seats.cores[seat].op is None
            if is_free and len(game.calls) < calls:
                game.make(name, seat, *of)
    return game.close()


def stops():
    """Store buffering, stopped after each number of calls up to its end: also right after each issue, when a core has
    an operation that it never attempted."""
    games = [buffering(0)]
    while len(games[-1].seats.records) < 4:
        games.append(buffering(len(games)))
    behind = [game for game in games if game.calls and game.calls[-1][0] == "issue"]
    assert len(behind) == 4 and all(game.seats.cores[game.calls[-1][1]].op for game in behind)
    return games


def crowded(title, generator, seat):
    """Core 0 writes more lines than an outbox and a link have places, and a seat evicts them, core 0's or the bank's:
    then its link and its outbox are full. When all messages are served, the bank evicts all, which fills its held list.
    """
    lines = PLACES + SLOTS + 1
    game = SeatGame(title, CROWDED, lines, [0, 0, 0, 0], 4)
    for line in range(lines):
        write(game, line)
    evicted = generator.sample(range(lines), lines)
    for line in evicted:
        game.make("evict", seat, line)
    ask(game, seat, evicted[-1])
    for _ in range(SLOTS):
        game.make("put", seat)
    for line in evicted[PLACES:]:
        game.make("evict", seat, line)
    game.make("turn", seat)
    while any(has_messages(game.seats, number) for number in range(3)):
        for number in (0, 2, 1, 2):
            game.make("turn", number)
    for line in generator.sample(range(lines), lines):
        game.make("evict", 2, line)
    caller = Caller(generator, game)
    for _ in range(300):
        game.make(*caller.pick())
    return game.close()


def ask(game, seat, line):
    """Core 1 asks for a line that core 0 owns, so that the bank asks core 0 for it; and core 0 for one that it doesn't
    have. What the seat with the full outbox would send finds no place."""
    for call in (("issue", 1, ("load", line, None)), ("attempt", 1), ("put", 1), ("take", 2), ("serve", 2)):
        game.make(*call)
    if seat == 0:
        for call in (("put", 2), ("take", 0), ("serve", 0), ("issue", 0, ("load", PLACES + 9, None)), ("attempt", 0)):
            game.make(*call)


def write(game, line):
    """Core 0 stores to a word: the request goes to the bank, which asks DRAM, and answers."""
    game.make("issue", 0, ("store", line, line + 1))
    game.make("attempt", 0)
    for seat in (0, 2, 2, 2, 2, 2, 0):
        game.make("turn", seat)
    game.make("attempt", 0)


def games_of(words):
    generator = random.Random(words.seed)
    for number in range(words.machines):
        yield played(f"machine {number}", generator, words.calls)
    for number in range(words.machines, words.machines + words.crowded):
        yield crowded(f"crowded machine {number}", generator, number % 2 * 2)


def main():
    parser = argparse.ArgumentParser()
    parser.add_argument("--machines", type=int, default=200)
    parser.add_argument("--calls", type=int, default=100)
    parser.add_argument("--crowded", type=int, default=2)
    parser.add_argument("--seed", type=int, default=1)
    parser.add_argument("PROGRAM")
    words = parser.parse_args()
    stopped, numbers = stops(), [drawn(random.Random(count), count, draws) for count, draws in DRAWN]
    if not (is_played(words.PROGRAM, "numbers", numbers) and is_played(words.PROGRAM, "stops", stopped)):
        return 1
    print(f"store buffering stopped after 0 to {len(stopped) - 1} calls, no difference")
    tried, answers, records = 0, Counter(), 0
    for game in games_of(words):
        if not is_played(words.PROGRAM, game.given[0], [game]):
            return 1
        tried, records = tried + len(game.calls), records + len(game.seats.records)
        answers.update(game.answers)
    print(", ".join(f"{answer}: {number}" for answer, number in answers.most_common()))
    print(f"{tried} calls of seats on {words.machines + words.crowded} machines, {records} records, no difference")
    return 0


if __name__ == "__main__":
    sys.exit(main())
