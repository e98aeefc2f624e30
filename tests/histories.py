#!/usr/bin/env python3
"""Compares histories that grow with the second program's answers, number for number: tests/histories.py COMMAND..

Each command reads lines as examples/embed/history.c does. The histories are drawn: legal ones, on up to 90 cores of
any numbers and with an opening memory, in which mostly one thing is changed then. Items come in any order, some are
refused, and the verdict is asked on the way.
"""
import random
import subprocess
import sys
from pathlib import Path
from typing import NamedTuple

sys.path.insert(0, str(Path(__file__).resolve().parent.parent))
from reference.order import check, expected, first_lack  # noqa: E402

HISTORIES = 60
MOST_CORES = 1_048_576
LETTERS = {"load": "R", "store": "W", "swap": "S"}
REFUSED = ("word 0x9 5", 12), ("word 0xc 5", 12), (f"issue {MOST_CORES} R 0x0 0", 10), \
    ("issue 4294967295 R 0x0 0", 10), ("issue 0 X 0x0 0", 10), ("issue 70 W 0x4 1", 10), \
    (f"record {MOST_CORES} 0 R 0x0 0 0 0 0", 11), ("record 0 4294967296 R 0x0 0 0 0 0", 11), \
    ("record 0 0 X 0x0 0 0 0 0", 11), ("record 0 0 R 0x7 0 0 0 0", 11)


class Record(NamedTuple):
    """A record, as reference/order.py looks at it."""

    core: int
    place: int
    kind: str
    word: int
    value: int | None
    received: int | None
    time: int
    number: int

    def line(self):
        return f"record {self.core} {self.place} {operation(self)} {self.received or 0} {self.time} {self.number}"


def operation(of):
    return f"{LETTERS[of.kind]} {8 * of.word:#x} {of.value or 0}"


def legal(draw, opening):
    """Records of a legal history, in the order of their times and numbers."""
    cores = [draw.randrange(draw.choice((4, 100, 5000))) for _ in range(draw.choice((2, 5, 90)))]
    if draw.random() < 0.1:
        cores.append(MOST_CORES - 1)
    memory, places, records, time = dict(opening), {}, [], draw.choice((0, 2 ** 64 - 2000))
    count, has_one_time = draw.choice((1, 8, 40, 120)), draw.random() < 0.5
    numbers = list(range(count)) if has_one_time else draw.sample(range(count), count)
    for number in numbers:
        core, word, kind = draw.choice(cores), draw.choice((0, 1, 2 ** 61 - 1)), draw.choice(tuple(LETTERS))
        value = None if kind == "load" else draw.choice((draw.randrange(4), 2 ** 64 - 1))
        received = None if kind == "store" else memory.get(word, 0)
        if kind != "load":
            memory[word] = value
        time += 0 if has_one_time else draw.randint(1, 3)
        records.append(Record(core, places.get(core, 0), kind, word, value, received, time, number))
        places[core] = places.get(core, 0) + 1
    return records


def changed(draw, records):
    """The records with one thing changed."""
    at = draw.randrange(len(records))
    one = records[at]
    what = draw.choice(("received", "received", "received", "time", "place", "number", "core", "value", None))
    if what == "received" and one.kind == "store" or what == "value" and one.kind == "load" or what is None:
        return records
    to = {"received": draw.randrange(5), "time": draw.randrange(300), "place": draw.randrange(3),
          "number": draw.randrange(len(records) + 1), "core": draw.randrange(5), "value": 7}[what]
    return records[:at] + [one._replace(**{what: to})] + records[at + 1:]


def answer(opening, issued, records, word):
    """The line of the verdict on what there is; with the word `complete`, on whether that is all."""
    lists = [issued.get(core, []) for core in range(max(issued, default=-1) + 1)]
    told = check(opening, lists, records)
    if told == "legal" and word == "complete":
        return first_lack(lists, records) or told
    if not told.startswith("wrong value "):
        return told
    value, writer = expected(opening, records, int(told.split()[2]))
    return f"{told}: expected {value} of {'the opening memory' if writer is None else f'record {writer}'}"


def history(draw):
    """The lines of a history, and what must be printed."""
    words = [(draw.choice((0, 1, 2 ** 61 - 1)), draw.randrange(5)) for _ in range(draw.randrange(5))]
    records = legal(draw, dict(words))
    items = [("issue", record) for record in records]
    records = changed(draw, records)
    items += [("record", record) for record in draw.sample(records, len(records))]
    if draw.random() < 0.5:  # records come as they complete, each behind its operation
        items = [item for both in zip(items, [("record", record) for record in records]) for item in both]
    lines, printed, issued, done = [f"word {8 * word:#x} {value}" for word, value in words], [], {}, []
    for kind, record in items:
        if kind == "issue":
            lines.append(f"issue {record.core} {operation(record)}")
            issued.setdefault(record.core, []).append((record.kind, record.word, record.value))
        else:
            lines.append(record.line())
            done.append(record)
        if draw.random() < 0.1:
            line, number = draw.choice(REFUSED)
            lines.append(line)
            printed.append(f"number {number}")
        if draw.random() < 0.05:
            lines.append(draw.choice(("verdict", "complete")))
            printed.append(answer(dict(words), issued, done, lines[-1]))
    return [*lines, "verdict", "complete"], [*printed, *(answer(dict(words), issued, done, word)
                                                         for word in ("verdict", "complete"))]


def main(commands):
    if commands[:1] in ([], ["-h"], ["--help"]):
        sys.exit(print(__doc__))
    met = set()
    for seed in range(HISTORIES):
        lines, wanted = history(random.Random(seed))
        met |= {"".join(letter for letter in line if not letter.isdigit()) for line in wanted}
        for command in commands:
            came = subprocess.run([command], input="\n".join(lines) + "\n", text=True, capture_output=True)
            if (came.returncode, came.stderr, came.stdout.splitlines()) != (0, "", wanted):
                sys.exit(f"histories.py: {command}: history {seed}: status {came.returncode}: {came.stdout}"
                         f"{came.stderr}and not\n" + "\n".join(wanted))
    lacks = {"legal", "bad number ", "out of program order ", "wrong value : expected  of the opening memory",
             "wrong value : expected  of record ", "no record of operation  of core ", "number "} - met
    if lacks:
        sys.exit(f"histories.py: never met: {lacks}")


main(sys.argv[1:])
