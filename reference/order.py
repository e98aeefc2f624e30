"""The checker of docs/ORDER.md, by a plain method, and the count of stale hits. Memory is a mapping of words."""
from collections import Counter


def arrange(records):
    return sorted(records, key=lambda record: (record.time, record.number))


def operation(record):
    return record.kind, record.word, record.value


def flat_step(memory, record):
    """What the flat memory gives to the record's operation; a store receives nothing."""
    received = None if record.kind == "store" else memory.get(record.word, 0)
    if record.kind != "load":
        memory[record.word] = record.value
    return received


def check(opening, issued, records):
    """The verdict's line. `issued` is a list of operations for each core."""
    return verdict_line(verdict(opening, issued, records))


def verdict_line(found):
    return " ".join(map(str, found))


def verdict(opening, issued, records):
    """What the checker finds, in words, and behind them the number of a record that isn't legal."""
    numbers = {record.number for record in records}
    for number in range(len(records)):
        if number not in numbers:
            return "bad number", number
    memory, places = dict(opening), {}
    for record in arrange(records):
        place = places.get(record.core, 0)
        wanted = issued[record.core] if record.core < len(issued) else []
        if record.place != place or place >= len(wanted) or wanted[place] != operation(record):
            return "out of program order", record.number
        places[record.core] = place + 1
        if flat_step(memory, record) != record.received:
            return "wrong value", record.number
    return ("legal",)


def expected(opening, records, number):
    """What the record of this number should have received, and the number of the last record before it that wrote its
    word; None if no one did, and the value is that of the opening memory."""
    memory, writers = dict(opening), {}
    for record in arrange(records):
        if record.number == number:
            return memory.get(record.word, 0), writers.get(record.word)
        flat_step(memory, record)
        if record.kind != "load":
            writers[record.word] = record.number
    return None


def lack(issued, records):
    """The first core that hasn't as many records as operations, and how many it has; None if there is none."""
    done = Counter(record.core for record in records)
    return next(((core, done[core]) for core, operations in enumerate(issued) if done[core] != len(operations)), None)


def first_lack(issued, records):
    """The line on legal records that lack those of some core; None if each operation has its record."""
    found = lacking(issued, records)
    return found and lack_line(*found)


def lack_line(place, core):
    return f"no record of operation {place} of core {core}"


def lacking(issued, records):
    """The place of the first operation without a record, and its core, where legal records lack some; or None."""
    found = lack(issued, records)
    return found and found[::-1]


def end_memory(opening, records):
    """The memory that the arranged records leave."""
    memory = dict(opening)
    for record in arrange(records):
        flat_step(memory, record)
    return memory


def stale_loads(records):
    """The numbers of the loads with a store or swap of their word of a smaller number and a greater time."""
    latest, stale = {}, []  # the greatest time of a write so far, by word
    for record in sorted(records, key=lambda record: record.number):
        if record.kind != "load":
            latest[record.word] = max(latest.get(record.word, -1), record.time)
        elif latest.get(record.word, -1) > record.time:
            stale.append(record.number)
    return stale


def overwriting(records, load):
    """The write that a stale hit comes before, of records by number: the last so far with a greater time; or None."""
    before = (records[number] for number in range(load.number - 1, -1, -1)) if load.kind == "load" else ()
    return next((one for one in before if one.word == load.word and one.kind != "load" and one.time > load.time), None)


def stale_hits(records):
    return len(stale_loads(records))
