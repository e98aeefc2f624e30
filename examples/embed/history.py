#!/usr/bin/env python3
"""A history that grows, from standard input, in Python: the lines are those of history.c, and so is what it prints."""
import sys
from pathlib import Path

sys.path.insert(0, str(Path(__file__).resolve().parents[2] / "python"))
import tardis  # noqa: E402

NUMBERS = {"word": 12, "issue": 10, "record": 11}  # of tardis.h, for items that are refused


def add(history, item, fields):
    """Adds the item of a line."""
    if item == "word":
        return history.open(int(fields[0], 16), int(fields[1]))
    place = int(fields.pop(1)) if item == "record" else None
    core, kind, address, written, *rest = fields
    value = None if kind == "R" else int(written)
    if item == "issue":
        return history.issue(int(core), kind, int(address, 16), value)
    received, time, number = map(int, rest)
    return history.add(tardis.Record(int(core), place, kind, int(address, 16), value,
                                     None if kind == "W" else received, time, number))


def line_of(verdict):
    """The line of a verdict."""
    if verdict.expected is None:
        return verdict.text
    source = "the opening memory" if verdict.writer is None else f"record {verdict.writer}"
    return f"{verdict.text}: expected {verdict.expected} of {source}"


def main():
    history = tardis.History()
    for line in sys.stdin:
        item, *fields = line.split()
        if item in ("verdict", "complete"):
            print(line_of(history.verdict(complete=item == "complete")))
            continue
        try:
            add(history, item, fields)
        except ValueError:
            print("number", NUMBERS[item])


if __name__ == "__main__":
    main()
