"""What tools/explain.py says of a wrong value beyond the order given: what the core seems to have seen, and whether
another order of the records around it explains them."""
from tools.orders.answer import answer
from tools.orders.history import LOAD, STORE, SWAP, Operation

WINDOW = 30  # records before and behind the one that is wrong
SECONDS = 2
KINDS = {b"R": LOAD, b"W": STORE, b"S": SWAP}


def seen(of_word, place, opening):
    """Where the value received is an older one of the word: how many writes replaced it, and what the core did since.
    `of_word` has the word's records in order; the word opens with `opening`."""
    record = of_word[place]
    writes = [at for at in range(place) if of_word[at].written is not None]
    sources = [at for at in writes if of_word[at].written == record.received]
    if not writes or not sources and record.received != opening:
        return
    source = sources[-1] if sources else -1
    replaced = sum(at > source for at in writes)
    touched = [at for at in range(place) if of_word[at].core == record.core]
    what = f"Core {record.core} received a value that {replaced} later write{'s' * (replaced > 1)} had replaced"
    last = of_word[touched[-1]] if touched else None
    mine = [at for at in touched if at > source and of_word[at].written is not None]
    if mine:
        yield f"{what}, its own at line {of_word[mine[-1]].line} among them: it lost its own write."
    elif last and (touched[-1] >= source and record.received in (last.written, last.received)):
        yield f"{what}, as after a lost invalidation."
        yield f"It last touched the word at line {last.line}."
    else:
        yield f"{what}, as when an invalidation overtakes data."
        yield f"It hadn't touched the word {f'since line {last.line}' if last else 'before'}."


def operation_of(record):
    return Operation(record.line, record.core, KINDS[record.letter], record.word, record.written, record.received)


def another_order(records, at, values, named):
    """Whether another order explains the records around a place, behind those before them and over these values, which
    words name. All times are equal."""
    command = " ".join(["tools/order.py", *named, "RECORDS"])
    first, last = max(0, at - WINDOW), min(len(records), at + WINDOW + 1)
    opening = values | {record.word: record.written for record in records[:first] if record.written is not None}
    window = sorted(records[first:last], key=lambda record: record.place)
    found = answer([operation_of(record) for record in window], SECONDS, opening=opening)
    are_placed = all(placed == place for core in {record.core for record in records} for placed, place in
                     enumerate(sorted(record.place for record in records if record.core == core)))
    if len(window) == len(records) and found.is_known and are_placed:
        yield f"All times are equal, and {'no' if found.order is None else 'another'} order explains these records: " \
              f"{command} {'says why' if found.order is None else 'writes it'}."
        return
    yield f"All times are equal, and this order doesn't explain it; another may: {command} looks for it."
    lines = [record.line for record in window]
    around = f"the {len(window)} records around it, lines {min(lines)} to {max(lines)},"
    if found.order is not None:
        yield f"Another order of {around} explains them."
    elif found.is_known:
        yield f"No other order of {around} explains them behind those before."
