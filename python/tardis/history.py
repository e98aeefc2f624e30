"""Histories that grow: what cores were issued, records of what completed, and the verdict on all so far."""
import functools
import importlib.util
import struct
from collections.abc import Iterator, Mapping
from dataclasses import dataclass
from types import ModuleType
from typing import Any, NamedTuple

from tardis import found, library
from tardis.options import MOST, whole
from tardis.reports import Record

MOST_CORES = 1_048_576  # TARDIS_MOST_CORES of crates/tardis_c/tardis.h
KINDS = {"R": "load", "W": "store", "S": "swap"}
WORD, OPERATION, RECORD = struct.Struct("=QQ"), struct.Struct("=IIQQ"), struct.Struct("=IIQQQQQQ")
LINES = {1: "bad number", 2: "out of program order", 3: "wrong value"}


@dataclass(frozen=True)
class Verdict:
    """The checker's verdict on a history. `is_proved` says who gave it: the proved library, or the second program."""

    text: str                     # legal, or what is wrong and a number, as `tardis check` prints it
    is_proved: bool
    number: int | None = None     # of the record that is wrong; or the least number that no record has
    expected: int | None = None   # with a wrong value, what the record should have received
    writer: int | None = None     # the number of the record that wrote that; None if it was the opening memory
    core: int | None = None       # if a record is missing, of its operation
    place: int | None = None      # likewise, in the core's program order

    @property
    def is_legal(self) -> bool:
        """Whether nothing is wrong."""
        return self.text == "legal"


class Done(NamedTuple):
    """A record as the second program has it."""

    core: int
    place: int
    kind: str
    word: int
    value: int | None
    received: int | None
    time: int
    number: int


def ranged(name: str, value: Any, most: int) -> int:
    """A whole number from 0 to `most`."""
    if not 0 <= whole(name, value) <= most:
        raise ValueError(f"{name} is {value}: it goes from 0 to {most}")
    return whole(name, value)


def byte_address(address: Any) -> int:
    """The byte address of a word."""
    if ranged("address", address, MOST) % 8:
        raise ValueError(f"address is {address:#x}: a multiple of 8 is wanted")
    return whole("address", address)


def operation(core: Any, kind: Any, address: Any, value: Any) -> tuple[int, int, int, int]:
    """An operation as the library takes it: core, kind, byte address, value."""
    if kind not in KINDS:
        raise ValueError(f"kind is {kind!r}: it is R, W or S")
    if (value is None) != (kind == "R"):
        raise ValueError(f"value is {value!r}: a load (R) has none, a store (W) and a swap (S) have one")
    return (ranged("core", core, MOST_CORES - 1), list(KINDS).index(kind), byte_address(address),
            ranged("value", 0 if value is None else value, MOST))


@functools.cache
def second(path: str) -> ModuleType:
    """The checker of the second program."""
    spec = importlib.util.spec_from_file_location("tardis_second_order", path)
    assert spec and spec.loader
    module = importlib.util.module_from_spec(spec)
    spec.loader.exec_module(module)
    return module


class History:
    """What words open with, what cores were issued, and records of what completed. It grows, and `verdict` answers for
    all so far. An argument that is refused changes nothing: the error names it.

    Cores have numbers below 1048576: a check keeps some 40 bytes for each number up to the greatest. Addresses are in
    bytes, multiples of 8; times in ticks. Values are of 64 bits. One thread at a time may use a history."""

    def __init__(self, opening: Mapping[int, int] | None = None) -> None:
        """`opening` has the values that words open with, by byte address; all others open with 0."""
        self._opening, self._operations, self._records = bytearray(), bytearray(), bytearray()
        self._issued: dict[int, int] = {}
        if not isinstance(opening, Mapping | None):
            raise TypeError(f"opening is {opening!r}: values by byte address are wanted")
        for address, value in (opening or {}).items():
            self.open(address, value)

    def open(self, address: int, value: int) -> None:
        """The word at this byte address opens with the value; of two values for one word the later counts."""
        self._opening += WORD.pack(byte_address(address), ranged("value", value, MOST))

    def issue(self, core: int, kind: str, address: int, value: int | None = None) -> int:
        """The next operation of a core: `R` (a load), `W` (a store) or `S` (a swap), of the word at this byte address;
        `value` is what a store or a swap writes. Returns its place in the core's program order, from 0."""
        self._operations += OPERATION.pack(*operation(core, kind, address, value))
        self._issued[core] = self._issued.get(core, 0) + 1
        return self._issued[core] - 1

    def add(self, record: Record) -> None:
        """The record of an operation that completed. Records may come in any order, and before their operations are
        issued. The numbers of completion go from 0, each once; times are in ticks."""
        try:
            core, place, kind, address, value, received, time, number = record
        except (TypeError, ValueError):
            raise TypeError(f"record is {record!r}: a tardis.Record is wanted") from None
        plain = operation(core, kind, address, value)
        if (received is None) != (kind == "W"):
            raise ValueError(f"received is {received!r}: a store (W) has none, a load (R) and a swap (S) have one")
        self._records += RECORD.pack(*plain, ranged("place", place, 2 ** 32 - 1),
                                     ranged("received", 0 if received is None else received, MOST),
                                     ranged("time", time, MOST), ranged("number", number, MOST))

    def verdict(self, complete: bool = False) -> Verdict:
        """The verdict on all so far, and with a wrong value what was expected and who wrote it. With `complete`, legal
        records that lack an operation's are told by its core and place. Each call goes through the whole history. A
        later record may mend what is wrong, or break what is legal, if it comes before another one by time and number.

        Raises NoMemory."""
        if not library.loaded():
            return self._by_second(second(found.second("order.py", "the shared library")[1]), complete)
        kind, number, expected, source, writer = library.check_history(self._opening, self._operations, self._records)
        if kind == 0:
            return lacking(library.first_lack(self._operations, self._records) if complete else None, True)
        return Verdict(f"{LINES[kind]} {number}", True, number, expected if source else None,
                       writer if source == 2 else None)

    def _by_second(self, order: ModuleType, complete: bool) -> Verdict:
        opening = {address // 8: value for address, value in WORD.iter_unpack(self._opening)}
        issued: dict[int, list[tuple[str, int, int | None]]] = {}
        for core, *plain in OPERATION.iter_unpack(self._operations):
            issued.setdefault(core, []).append(as_second(*plain))
        lists = [issued.get(core, []) for core in range(max(issued, default=-1) + 1)]
        records = list(self._done())
        text = order.check(opening, lists, records)
        if text == "legal":
            return lacking(order.lack(lists, records) if complete else None, False)
        number = int(text.rpartition(" ")[2])
        return Verdict(text, False, number, *order.expected(opening, records, number) if "value" in text else ())

    def _done(self) -> Iterator[Done]:
        for core, kind, address, value, place, received, time, number in RECORD.iter_unpack(self._records):
            named, word, written = as_second(kind, address, value)
            yield Done(core, place, named, word, written, None if named == "store" else received, time, number)


def lacking(lack: tuple[int, int] | None, is_proved: bool) -> Verdict:
    """The verdict on legal records that lack that of this operation: its core and its place."""
    if lack is None:
        return Verdict("legal", is_proved)
    core, place = lack
    return Verdict(f"no record of operation {place} of core {core}", is_proved, core=core, place=place)


def as_second(kind: int, address: int, value: int) -> tuple[str, int, int | None]:
    """An operation as the second program has it: its kind, word and value."""
    named = list(KINDS.values())[kind]
    return named, address // 8, None if named == "load" else value
