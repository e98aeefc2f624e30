"""Histories without an order, as texts: records without times, Axe's form (docs/ORDER.md has both), and records as
docs/TEXTS.md has them, of which only the places count.

A history is a list of operations, each core's in its program order: that of the text, or by places.
"""
import re
from decimal import Decimal
from functools import partial

LOAD, STORE, SWAP, FENCE = "R", "W", "S", "F"
MOST = 2 ** 64 - 1
MOST_CORE = 63
NUMBER = r"(?:0[xX][0-9a-fA-F]+|[0-9]+)"
TIME = r"(?:-?(?:[0-9]+\.?[0-9]*|\.[0-9]+)(?:[eE][+-]?[0-9]{1,3})?)"
PLACE = rf"M\s*\[\s*({NUMBER})\s*\]"
AXE = {LOAD: re.compile(rf"{PLACE}\s*==\s*({NUMBER})"), STORE: re.compile(rf"{PLACE}\s*:=\s*({NUMBER})"),
       SWAP: re.compile(rf"\{{\s*{PLACE}\s*==\s*({NUMBER})\s*;\s*{PLACE}\s*:=\s*({NUMBER})\s*\}}"),
       FENCE: re.compile("sync")}
# After the address: how many values each letter has.
VALUES = {LOAD: 1, STORE: 1, SWAP: 2}


class Fault(Exception):
    """Why a text is no history: its line, from 1, and the cause in words."""

    def __init__(self, line, said):
        super().__init__(f"line {line}: {said}")
        self.line = line


class Operation:
    """A line of a history. `written` and `received` are None if the operation has none; a fence has no address.
    `name` is what the text calls the address, `start` and `end` are times or None, and `time` is the start's text."""

    __slots__ = ("line", "core", "kind", "address", "written", "received", "name", "start", "end", "time")

    def __init__(self, line, core, kind, address=None, written=None, received=None):
        self.line, self.core, self.kind, self.address = line, core, kind, address
        self.written, self.received, self.start, self.end, self.time = written, received, None, None, None
        self.name = "" if address is None else f"{address:#x}"

    def told(self):
        """Such as `line 4 (core 1's load of 0x8, which received 5)`."""
        received, written = f"which received {self.received}", f"wrote {self.written}"
        what = {LOAD: f"load of {self.name}, {received}", STORE: f"store of {self.written} to {self.name}",
                SWAP: f"swap of {self.name}, {received} and {written}", FENCE: "fence"}
        return f"line {self.line} (core {self.core}'s {what[self.kind]})"


def number_of(line, text, most, what):
    number = int(text, 16 if text[1:2] in ("x", "X") else 10)
    if number > most:
        raise Fault(line, f"{what} {text} is greater than {most}")
    return number


def core_of(line, text):
    return number_of(line, text, MOST_CORE, "the core")


def times_of(line, form, text, wanted):
    """The start and the end of an operation, None if the form lets one be left out."""
    found = re.fullmatch(form, text.strip())
    if not found:
        raise Fault(line, f"behind `@` stand {wanted}, and here `{text.strip()}`")
    return found.groups()


def set_times(operation, start, end):
    operation.time, operation.start = start, None if start is None else Decimal(start)
    operation.end = None if end is None else Decimal(end)
    if None not in (start, end) and operation.end < operation.start:
        raise Fault(operation.line, f"the operation ends at {end}, before it starts at {start}")


def axe_operation(line, text):
    """`1: M[1] == 0 @ 10:20`. Variable k is the word at byte address 8 * k."""
    front, at, times = text.partition("@")
    found = re.fullmatch(r"([0-9]+)\s*:\s*(.*?)\s*", front)
    if not found:
        raise Fault(line, f"`{text}` isn't a core, a colon and an operation, such as `0: M[1] := 1`")
    core = core_of(line, found[1])
    for kind, form in AXE.items():
        parts = form.fullmatch(found[2])
        if parts:
            break
    else:
        raise Fault(line, f"`{found[2]}` is no operation: `M[1] := 1`, `M[1] == 0`, "
                          "`{ M[0] == 0; M[0] := 1 }` or `sync`")
    operation = Operation(line, core, kind)
    if kind != FENCE:
        variable = number_of(line, parts[1], MOST // 8, "the variable")
        if kind == SWAP and variable != number_of(line, parts[3], MOST // 8, "the variable"):
            raise Fault(line, "the two parts of a swap name two variables")
        operation.address, operation.name = 8 * variable, f"M[{parts[1]}]"
        values = [number_of(line, part, MOST, "the value") for part in parts.groups()[1::2]]
        operation.received = None if kind == STORE else values[0]
        operation.written = None if kind == LOAD else values[-1]
    if at:
        set_times(operation, *times_of(line, rf"({TIME})?\s*:\s*({TIME})?", times, "a start, a colon and an end"))
    return operation


def record_operation(line, text):
    """`0 R 0x8 5 @ 10 20`; with one time it starts and ends then."""
    front, at, times = text.partition("@")
    fields = front.split()
    if not re.fullmatch("[0-9]+", fields[0] if fields else ""):
        raise Fault(line, f"`{text}` doesn't begin with a core, a number alone")
    core = core_of(line, fields[0])
    kind = fields[1] if len(fields) > 1 else ""
    if kind not in (*VALUES, FENCE):
        raise Fault(line, f"`{kind}` is no operation: R is a load, W a store, S a swap, F a fence")
    wanted = "" if kind == FENCE else "an address and a value" if VALUES[kind] == 1 else \
        "an address, the value written and the value received"
    if len(fields) != (2 if kind == FENCE else 3 + VALUES[kind]):
        raise Fault(line, f"behind `{kind}` stands {wanted or 'nothing'}, and here `{' '.join(fields[2:])}`")
    for field in fields[2:]:
        if not re.fullmatch(NUMBER, field):
            raise Fault(line, f"`{field}` isn't a number, decimal or behind 0x")
    operation = Operation(line, core, kind)
    if kind != FENCE:
        operation.address = number_of(line, fields[2], MOST, "the address")
        operation.name = fields[2]
        values = [number_of(line, field, MOST, "the value") for field in fields[3:]]
        operation.written = None if kind == LOAD else values[0]
        operation.received = None if kind == STORE else values[-1]
    if at:
        start, end = times_of(line, rf"({TIME})(?:\s+({TIME}))?", times, "one or two times")
        set_times(operation, start, end or start)
    return operation


def placed_operation(line, text, places):
    """`1 0 R 0x8 5 3 17`, a record: its place is kept, its time and its number aren't."""
    fields = text.split()
    numbers = [*fields[:2], *fields[-2:]]
    if len(fields) < 6 or "@" in text or not all(re.fullmatch("[0-9]+", field) for field in numbers):
        raise Fault(line, f"`{text}` is no record: core, place, operation, time and number")
    operation = record_operation(line, " ".join([fields[0], *fields[2:-2]]))
    places[line] = int(fields[1])
    return operation


def by_places(operations, places):
    """In the order of places, of which each core has those from 0 on once."""
    count = {}
    for operation in sorted(operations, key=lambda operation: places[operation.line]):
        place = count.get(operation.core, 0)
        if places[operation.line] != place:
            raise Fault(operation.line, f"core {operation.core}'s place {place} is missing" if
                        places[operation.line] > place else f"core {operation.core} has this place twice")
        count[operation.core] = place + 1
        yield operation


def read_history(text):
    """The operations of a text of bytes. `Fault` says what is wrong with it."""
    operations, places, read = [], {}, None
    for line, raw in enumerate(text.split(b"\n"), 1):
        said = raw.partition(b"#")[0].strip()
        if not said:
            continue
        if any(byte < 32 and byte != 9 or byte > 126 for byte in said):
            raise Fault(line, "a byte that isn't ASCII")
        said = said.decode("ascii")
        if read is None:
            read = axe_operation if re.match(r"[0-9]+\s*:", said) else record_operation
            if re.match(r"[0-9]+\s+[0-9]+\s", said):
                read = partial(placed_operation, places=places)
        operations.append(read(line, said))
    return list(by_places(operations, places)) if places else operations


def read_values(text):
    """The values that the addresses of a text have at first, but for 0. A line has both, as `0x8 5` or `M[1] := 5`."""
    opening = {}
    for line, raw in enumerate(text.split(b"\n"), 1):
        said = raw.partition(b"#")[0].decode("ascii", "replace").strip()
        if not said:
            continue
        found = re.fullmatch(rf"({NUMBER})\s+({NUMBER})", said) or AXE[STORE].fullmatch(said)
        if not found:
            raise Fault(line, f"`{said}` isn't an address and a value")
        is_axe = said.startswith("M")
        address = number_of(line, found[1], MOST // 8 if is_axe else MOST, "the address") * (8 if is_axe else 1)
        if address in opening:
            raise Fault(line, f"{found[1]} is opened twice")
        opening[address] = number_of(line, found[2], MOST, "the value")
    return {address: value for address, value in opening.items() if value}


def words_of(operations):
    """The byte address in a trace of each address: itself if all are multiples of 8, else 8 times its rank."""
    addresses = sorted({operation.address for operation in operations if operation.kind != FENCE})
    if all(address % 8 == 0 for address in addresses):
        return {address: address for address in addresses}
    return {address: 8 * rank for rank, address in enumerate(addresses)}
