"""The calls of the proved library that make reports and verdicts."""
import ctypes
import functools
from typing import Any

from tardis import found, structures, version
from tardis.errors import BadConfiguration, BadText, NoMemory, TardisError, TooManyStates
from tardis.options import MOST, Asked, Options

DONE, NO_MEMORY, BAD_TEST, BAD_LINE, BAD_MACHINE, NOT_DONE, SHORT_BUFFER, BAD_OPENING = 0, 3, 4, 5, 6, 7, 8, 12
TOO_MANY_STATES = 7  # of a list of ends alone
ERRORS = {NO_MEMORY: NoMemory, BAD_TEST: BadText, BAD_LINE: BadText, BAD_MACHINE: BadConfiguration,
          BAD_OPENING: BadText}
FIELDS = tuple(name for name, *_ in structures.Options._fields_)


@functools.cache
def loaded() -> Any:
    """The library; None where there is none."""
    path = found.library()
    if path is None:
        return None
    library = ctypes.CDLL(path)
    prefixes = (("tardis_c_", structures.CALLS), ("tardis_c_system_", structures.CALLS_OF_SYSTEMS))
    names = [prefix + name for prefix, calls in prefixes for name in calls]
    if not all(hasattr(library, name) for name in names) or library.tardis_c_version() != version.number():
        raise TardisError(f"{path} is of another version than {version.VERSION}")
    fields = (ctypes.c_uint64 * (len(FIELDS) + 8))(*[MOST] * (len(FIELDS) + 8))
    library.tardis_c_defaults(fields)
    if list(fields) != [*(int(getattr(Options(), name, 0)) for name in FIELDS), *[MOST] * 8]:
        raise TardisError(f"{path} is of another version: its options are others")
    structures.declared(library, structures.CALLS)
    return library


@functools.cache
def calls_of_systems() -> dict[str, Any]:
    """The library's calls of machines, by their names. Each keeps the interpreter's lock, for microseconds; `open`,
    for a microsecond a word that opens."""
    return structures.declared(ctypes.PyDLL(loaded()._name), structures.CALLS_OF_SYSTEMS, "tardis_c_system_")


def options_of(options: Options, asked: Asked) -> structures.Options:
    """The options as the library takes them."""
    named = {name: int(getattr(options, name)) for name in FIELDS if hasattr(options, name)}
    return structures.Options(**named, by_seed=options.schedule == "seed", records=asked.records, json=asked.json,
                         counts=asked.counts, every=asked.every or 0)


def told(call: Any, size: int, *arguments: Any) -> tuple[int, str]:
    """The number that a call answers, and its text. The call is made with a buffer of `size` bytes, and once more where
    the text doesn't fit."""
    while True:
        buffer, length = ctypes.create_string_buffer(size), ctypes.c_size_t(0)
        number = call(*arguments, buffer, size, length)
        if length.value <= size:
            break
        size = length.value
    text = ctypes.string_at(buffer, length.value).decode()
    if number in ERRORS:
        raise ERRORS[number](text.strip())
    if number > SHORT_BUFFER:
        raise TardisError(f"number {number}")
    return number, text


def room(text: bytes) -> int:
    """Bytes for the report on a text, as `room` of crates/tardis_c/tardis.hpp."""
    return (1 << 20) + 12 * len(text)


def run(kind: str, text: bytes, options: Options, asked: Asked) -> tuple[bool, str]:
    """Whether all runs ended all done, and the report of a litmus test or a trace, or a trace's records."""
    call = getattr(loaded(), f"tardis_c_{kind}")
    number, report = told(call, room(text), text, len(text), options_of(options, asked))
    return number == DONE, report


def ends(text: bytes, states: int, orders: bool, json: bool) -> str:
    """The list of all ends of a litmus test: lines, or a JSON object."""
    number, listed = told(loaded().tardis_c_ends, room(text), text, len(text), states, orders, json)
    if number == TOO_MANY_STATES:
        raise TooManyStates(listed.strip())
    return listed


def check(opening: bytes, trace: bytes, records: bytes, complete: bool, json: bool) -> str:
    """The verdict on records: a line, or a JSON object."""
    return told(loaded().tardis_c_check_opened, 200, opening, len(opening), trace, len(trace), records, len(records),
                complete, json)[1]


def items_argument(items: bytearray, size: int) -> tuple[Any, int]:
    """An array of structures of this size, whose bytes these are."""
    return ctypes.byref((ctypes.c_char * len(items)).from_buffer(items)), len(items) // size


def is_done(number: int) -> bool:
    """Whether a call on a history, which answered this number, found nothing wrong."""
    if number == NO_MEMORY:
        raise NoMemory("tardis: no memory")
    if number not in (DONE, NOT_DONE):
        raise TardisError(f"number {number}")
    return number == DONE


def check_history(opening: bytearray, operations: bytearray, records: bytearray) -> tuple[int, int, int, int, int]:
    """What is found of a history, as arrays of struct tardis_word, tardis_operation and tardis_record: kind, number,
    expected, source and writer."""
    found = structures.Found()
    is_done(loaded().tardis_c_check_history(*items_argument(opening, 16), *items_argument(operations, 24),
                                            *items_argument(records, 56), found))
    return found.kind, found.number, found.expected, found.source, found.writer


def first_lack(operations: bytearray, records: bytearray) -> tuple[int, int] | None:
    """The first core that hasn't as many records as operations, and how many it has; None if there is none."""
    lack = structures.Lack()
    if is_done(loaded().tardis_c_first_lack(*items_argument(operations, 24), *items_argument(records, 56), lack)):
        return None
    return lack.core, lack.place
