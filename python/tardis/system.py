"""The proved machine, in this process: the calls of crates/tardis_c/tardis.h."""
import ctypes
import weakref
from typing import Any

from tardis import library, structures
from tardis.errors import NoMemory, TardisError
from tardis.events import CARRIES, Answer, Message, Totals
from tardis.options import Asked, Options
from tardis.reports import Record
from tardis.structures import ANSWERS, ENDS, KINDS, MESSAGES, REFUSALS

NO_SYSTEM, NO_SUCH = 16, 18
ROOM = 64  # lines that fit where they are first put


def record_of(done: structures.Record) -> Record:
    """A record, from the library's."""
    kind = KINDS[done.operation.kind]
    return Record(done.operation.core, done.place, kind, done.operation.address,
                  None if kind == "R" else done.operation.value, None if kind == "W" else done.received, done.time,
                  done.number)


class System:
    """A machine of the library. It is closed at the latest when nothing refers to this any more."""

    def __init__(self, cores: int, options: Options, opening: bytearray) -> None:
        self._calls, self._system = library.calls_of_systems(), structures.System()
        self._line_words = options.line_words
        number = self._calls["open"](self._system, cores, library.options_of(options, Asked()),
                                     *library.items_argument(opening, 16))
        if number == library.NO_MEMORY:
            raise NoMemory("tardis: no memory")
        if number != library.DONE:
            raise TardisError(f"number {number}")
        self._end = weakref.finalize(self, self._calls["close"], self._system)

    def close(self) -> None:
        self._end()

    def _is_there(self, name: str, *arguments: Any) -> bool:
        """Makes a call; whether there is what it tells of."""
        number = self._calls[name](self._system, *arguments)
        if number == NO_SYSTEM:
            raise TardisError("the machine is closed")
        if number == library.NO_MEMORY:
            raise NoMemory("tardis: no memory")
        if number not in (library.DONE, NO_SUCH):
            raise TardisError(f"number {number}")
        return bool(number == library.DONE)

    def _answer(self, name: str, *arguments: Any) -> Answer:
        told = structures.Answer()
        self._is_there(name, *arguments, told)
        answer = ANSWERS[told.kind]
        return Answer(answer, REFUSALS[told.refusal] or None,
                      record_of(told.completed) if answer == "completed" else None)

    def _line(self, address: int) -> int:
        return address // (8 * self._line_words)

    def _address(self, line: int) -> int:
        return 8 * self._line_words * line

    # Events.
    def issue(self, core: int, kind: str, address: int, value: int | None) -> Answer:
        return self._answer("issue", structures.Operation(core, KINDS.index(kind), address, value or 0))

    def event(self, name: str, number: int) -> Answer:
        return self._answer(name, number)

    def evict(self, part: str, seat: int, address: int) -> Answer:
        return self._answer("evict_copy" if part == "core" else "evict_entry", seat, self._line(address))

    # Look-ups.
    def in_flight(self) -> list[int]:
        numbers: list[int] = []
        number = ctypes.c_uint64()
        while self._is_there("message_number", len(numbers), number):
            numbers.append(number.value)
        return numbers

    def message(self, number: int) -> Message | None:
        told = structures.Message()
        if not self._is_there("message", number, told):
            return None
        kind = MESSAGES[told.kind]
        carried = {name: getattr(told, name) for name in CARRIES.get(kind, ())}
        if "version" in carried and not told.has_version:
            carried["version"] = None
        if "words" in carried:
            carried["words"] = tuple(told.words[:self._line_words])
        return Message(number, kind, f"{ENDS[told.from_kind]} {getattr(told, 'from')}",
                       f"{ENDS[told.to_kind]} {told.to}", self._address(told.line), **carried)

    def record(self, number: int) -> Record | None:
        done = structures.Record()
        return record_of(done) if self._is_there("record", number, done) else None

    def _place(self, name: str, *arguments: int) -> tuple[int, int] | None:
        place = structures.Place()
        is_there = self._is_there(name, *arguments, place) and place.is_there
        return (place.bank, self._address(place.line)) if is_there else None

    def victim(self, core: int, address: int) -> int | None:
        place = self._place("victim", core, self._line(address))
        return place[1] if place else None

    def room(self, number: int) -> tuple[int, int] | None:
        return self._place("make_room", number)

    def open_operation(self, core: int) -> str | None:
        told = structures.Open()
        if not self._is_there("open_operation", core, told) or not told.state:
            return None
        kind, value = KINDS[told.operation.kind], told.operation.value
        return f"{kind} {told.operation.address:#x}{f' {value}' * (kind != 'R')}{' requested' * (told.state == 2)}"

    def lines(self, name: str, seat: int) -> list[int]:
        lines, count = (ctypes.c_uint64 * ROOM)(), ctypes.c_size_t(0)
        if not self._is_there(name, seat, lines, ROOM, count):
            return []
        if count.value > ROOM:
            lines = (ctypes.c_uint64 * count.value)()
            self._is_there(name, seat, lines, count.value, count)
        return [self._address(line) for line in lines[:count.value]]

    def _number(self, name: str, of: int) -> int:
        number = ctypes.c_uint64()
        self._is_there(name, of, number)
        return number.value

    def owners(self, address: int) -> int:
        return self._number("owners", self._line(address))

    def value(self, address: int) -> int:
        return self._number("value", address)

    def totals(self) -> Totals:
        told = structures.Totals()
        self._is_there("totals", told)
        return Totals(told.renewals, told.upgrades, told.flushes, told.write_backs, told.messages, told.records,
                      bool(told.is_stopped))
