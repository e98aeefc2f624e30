#!/usr/bin/env python3
"""Checks an order of a history under total store order, as `tools/order.py --model tso` writes it.

    reference/tso.py [--opening FILE] TRACE RECORDS

Each core's stores may take effect later than its loads behind them, in their order; a load sees its own core's last
store before it even so. The order of the records, by time and number, is that in which loads and swaps are performed
and stores take effect. TRACE has docs/TEXTS.md's form, or a line `CORE F` for a fence. The order is legal if

- the records are numbered from 0, each once, and each operation of the trace has its record, by core and place;
- an operation comes before those behind it in its program, but a store before later loads only across a fence or swap;
- a read receives what was written last there: by its core's own store that hasn't taken effect, the last one before
  it, if there is one; else by the last write before it in the order; else the word's value at first, by FILE or 0.

Nothing of this is proved, and each line printed says so. The status is 0 if the order is legal, 1 if it isn't, and 2
if a text is refused, in one line on standard error.
"""
import re
import sys
from pathlib import Path

sys.path.insert(0, str(Path(__file__).resolve().parent.parent))
from reference.given import Bad, contents, tool  # noqa: E402
from reference.order import arrange, operation  # noqa: E402
from reference.traces import Fault, Trace, read_opening, read_records  # noqa: E402

FENCE = re.compile(rb"[ \t]*([0-9]{1,2})[ \t]+F[ \t]*(?:#.*)?")
NOT_PROVED = "(total store order, not proved)"


def read_trace(text):
    """Each core's operations, and of each core how many of these come before each of its fences."""
    fences, counts, kept = {}, {}, []
    for line in text.split(b"\n"):
        found = FENCE.fullmatch(line)
        kept.append(b"" if found else line)
        fields = line.partition(b"#")[0].split()
        if found:
            fences.setdefault(int(found[1]), []).append(counts.get(int(found[1]), 0))
        elif len(fields) > 1 and fields[0].isdigit() and fields[1] != b"A":
            counts[int(fields[0])] = counts.get(int(fields[0]), 0) + 1
    return Trace(b"\n".join(kept)).issued(), fences


def fault_of_records(issued, records):
    """Of numbers, places and operations; each operation has its record."""
    numbers = {record.number for record in records}
    for number in range(len(records)):
        if number not in numbers:
            return f"bad number {number}"
    found = {}
    for record in records:
        listed = issued[record.core] if record.core < len(issued) else []
        key = record.core, record.place
        if record.place >= len(listed) or listed[record.place] != operation(record) or key in found:
            return f"no such operation {record.number}"
        found[key] = record
    for core, listed in enumerate(issued):
        for place in range(len(listed)):
            if (core, place) not in found:
                return f"no record of operation {place} of core {core}"
    return None


def fault_of_program(records, fences, at):
    """The first record of a core that comes too early in the order; `records` are the core's, by place."""
    reads = stores = fenced = -1  # the last places in the order of those before: reads, stores, stores before a fence
    for record in records:
        if record.place in fences:
            fenced = stores
        here = at[record.number]
        if here < max(reads, fenced) or record.kind != "load" and here < stores:
            return f"out of program order {record.number}"
        if record.kind != "store":
            reads = max(reads, here)
        if record.kind != "load":
            stores = max(stores, here)
    return None


def fault_of_values(arranged, at, opening):
    """The first record in the order that received another value than it must."""
    own = {}  # of each load, its core's last store of the word before it
    for record in sorted(arranged, key=lambda record: record.place):
        if record.kind == "load":
            own[record.number] = own.get((record.core, record.word, "last"))
        else:
            own[record.core, record.word, "last"] = record
    memory = dict(opening)
    for record in arranged:
        wanted, waits = memory.get(record.word, 0), own.get(record.number)
        if waits is not None and at[waits.number] > at[record.number]:
            wanted = waits.value
        if record.kind != "store" and record.received != wanted:
            return f"wrong value {record.number}"
        if record.kind != "load":
            memory[record.word] = record.value
    return None


def verdict(issued, fences, records, opening=()):
    fault = fault_of_records(issued, records)
    if fault:
        return fault
    arranged = arrange(records)
    at = {record.number: place for place, record in enumerate(arranged)}
    by_core = {}
    for record in sorted(records, key=lambda record: record.place):
        by_core.setdefault(record.core, []).append(record)
    for core, mine in sorted(by_core.items()):
        fault = fault or fault_of_program(mine, set(fences.get(core, ())), at)
    return fault or fault_of_values(arranged, at, opening) or "legal"


def main(paths):
    if paths in (["-h"], ["--help"]):
        print(__doc__)
        return 0
    named, paths = (paths[1:2], paths[2:]) if paths[:1] == ["--opening"] else ([], paths)
    if len(paths) != 2:
        raise Bad("a trace and records are needed (--help tells all)")
    try:
        opening = read_opening(contents(named[0])) if named else {}
        issued, fences = read_trace(contents(paths[0]))
        said = verdict(issued, fences, read_records(contents(paths[1])), opening)
    except Fault as fault:
        raise Bad(str(fault)) from None
    print(f"{said} {NOT_PROVED}")
    return int(said != "legal")


if __name__ == "__main__":
    tool(main)
