"""What the records so far say of those to come: a summary of a word's history that is as good as its records.

By docs/ORDER.md records are arranged by time, and at equal times by number. A new record has the greatest number, so
its place is behind all those whose time isn't later. What it receives must be what the last write before it left, and
no read behind it may see another value than it did. So of a word only this matters: its writes with times and values,
and between two writes the latest read. A write with another one at the same time behind it is never seen again.
"""


def with_record(history, record, opening):
    """The history with one more record, or None if a value is wrong then.

    `history` is a sorted tuple of (word, entries); an entry is (time, is a write, value), in the records' order.
    `record` is (kind, word, value, received, time), and `opening` the memory that the machine opened with.
    """
    kind, word, value, received, time = record
    entries = list(dict(history).get(word, ()))
    at = next((place for place, entry in enumerate(entries) if entry[0] > time), len(entries))
    seen = next((entry[2] for entry in reversed(entries[:at]) if entry[1]), opening.get(word, 0))
    if kind != "store" and received != seen:
        return None
    new = [(time, False, seen)] if kind != "store" else []
    if kind != "load":
        if at < len(entries) and not entries[at][1] and entries[at][2] != value:
            return None
        new.append((time, True, value))
    entries[at:at] = new
    return tuple(sorted({**dict(history), word: tuple(kept(entries))}.items()))


def kept(entries):
    """The entries that matter: the latest of reads in a row, and the last of writes in a row at one time."""
    for entry, after in zip(entries, entries[1:] + [None]):
        if after is None or entry[1] != after[1] or entry[1] and entry[0] != after[0]:
            yield entry


def memory_of(history, opening):
    """The memory that the records leave, as a mapping of words."""
    last = {word: next((entry[2] for entry in reversed(entries) if entry[1]), None) for word, entries in history}
    return {**opening, **{word: value for word, value in last.items() if value is not None}}
