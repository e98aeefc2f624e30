"""The machine, event by event."""
from collections.abc import Callable, Iterator, Mapping
from functools import partial
from typing import Any

from tardis import library
from tardis.events import Answer, Driver, Message, Totals
from tardis.history import RECORD, History, byte_address, operation, ranged
from tardis.options import MOST, OF_MACHINE, given_options, within
from tardis.player import Second
from tardis.reports import Record, Records
from tardis.system import System

MOST_SEAT = 2 ** 32 - 1


def seat(name: str, number: Any) -> int:
    """The number of a core or a bank, which may be one that there isn't."""
    return ranged(name, number, MOST_SEAT)


class Machine:
    """A machine of the proved simulator, which you drive: you say which core attempts, and when each message arrives.

    Addresses are in bytes, multiples of 8; a line is named by the address of any of its words, and told by that of its
    first. Times are in ticks. An event that is refused changes nothing (but `Exhausted`, which stops the machine).

    `is_proved` says whether the proved library answers, in this process; else the second program does. One thread at a
    time may use a machine; threads may have machines of their own. It is closed by `close`, behind a `with`, or when
    nothing refers to it any more. A call of a closed one is a TardisError, and so is one of the second program's that
    was interrupted. A number out of its range is a ValueError that names it."""

    def __init__(self, cores: int = 2, memory: Mapping[int, int] | None = None, **options: Any) -> None:
        """A machine with 1 to 64 cores over a memory whose words open with these values, by byte address, and with 0
        elsewhere. `options` are those fields of `Options` that say how it is built: `lease` to `private_write`.

        Raises BadConfiguration, ValueError or NoMemory."""
        built = given_options("Machine", OF_MACHINE, options, "cores", "memory")
        cores = within("cores", cores, 1, 64)
        self._line_bytes = 8 * built.line_words
        self._checked = History(memory)
        self.is_proved = library.loaded() is not None
        self._driver: Driver
        if self.is_proved:
            self._driver = System(cores, built, self._checked._opening)
        else:
            self._driver = Second(cores, built, memory or {})

    # Events.
    def run(self, *events: str) -> list[Answer]:
        """Makes events in their order, as `run("issue 1 R 0x8", "attempt 1")` (docs/EVENTS.md): the answer to each.
        None is made if one can't be read: that is a ValueError."""
        return [make() for make in [self._event(each) for event in events for each in event.split(";")]]

    def _event(self, text: str) -> Callable[[], Answer]:
        """What makes an event. Each of its numbers is in its range."""
        match text.split():
            case ["issue", core, "R", address]:
                return self._issue(number_of(core), "R", address_of(address), None)
            case ["issue", core, "W" | "S" as kind, address, value]:
                return self._issue(number_of(core), kind, address_of(address), number_of(value))
            case ["attempt" | "advance" as name, core]:
                return partial(self._driver.event, name, seat("core", number_of(core)))
            case ["deliver", message] if message.startswith("m"):
                return partial(self._driver.event, "deliver", ranged("number", number_of(message[1:]), MOST))
            case ["evict", "core" | "bank" as part, number, line]:
                at = address_of(line) if line.startswith("0x") else self._line_bytes * number_of(line)
                return partial(self._driver.evict, part, seat(part, number_of(number)), byte_address(at))
        raise ValueError(f"{text!r} is no event")

    def _issue(self, core: int, kind: str, address: int, value: int | None) -> Callable[[], Answer]:
        """What issues an operation, whose numbers are in their ranges."""
        core, _, address, written = operation(core, kind, address, value)

        def issued() -> Answer:
            answer = self._driver.issue(core, kind, address, None if kind == "R" else written)
            if answer.name == "issued":
                self._checked.issue(core, kind, address, None if kind == "R" else written)
            return answer
        return issued

    def load(self, core: int, address: int) -> Answer:
        """Issues a load: it is attempted later."""
        return self._issue(core, "R", address, None)()

    def store(self, core: int, address: int, value: int) -> Answer:
        """Issues a store."""
        return self._issue(core, "W", address, value)()

    def swap(self, core: int, address: int, value: int) -> Answer:
        """Issues a swap, which stores a value and receives the old one."""
        return self._issue(core, "S", address, value)()

    def attempt(self, core: int) -> Answer:
        """The core attempts its open operation: completed, requested, waiting, idle, or refused (NoRoom: evict
        `victim`)."""
        return self._driver.event("attempt", seat("core", core))

    def deliver(self, number: int) -> Answer:
        """The message of this number arrives: delivered, dropped, held (deliver it again later) or started."""
        return self._driver.event("deliver", ranged("number", number, MOST))

    def evict_copy(self, core: int, address: int) -> Answer:
        """The core gives up its copy of a line."""
        return self._driver.evict("core", seat("core", core), byte_address(address))

    def evict_entry(self, bank: int, address: int) -> Answer:
        """The bank gives up its entry of a line, or recalls the line first."""
        return self._driver.evict("bank", seat("bank", bank), byte_address(address))

    def advance(self, core: int) -> Answer:
        """The core's time goes on by one tick."""
        return self._driver.event("advance", seat("core", core))

    # Look-ups.
    def in_flight(self) -> list[int]:
        """The numbers of the messages in flight, in the order of sending."""
        return self._driver.in_flight()

    def message(self, number: int) -> Message | None:
        """The message in flight that has this number."""
        return self._driver.message(ranged("number", number, MOST))

    def victim(self, core: int, address: int) -> int | None:
        """The line to evict so that the core has a place for this one; None if it has one."""
        return self._driver.victim(seat("core", core), byte_address(address))

    def room(self, number: int) -> tuple[int, int] | None:
        """Bank and line to evict so that this message, which was held, finds room; None if that is of no use."""
        return self._driver.room(ranged("number", number, MOST))

    def open_operation(self, core: int) -> str | None:
        """The operation that the core was issued and hasn't completed, as `R 0x8`; and `requested` behind it if its
        request is out."""
        return self._driver.open_operation(seat("core", core))

    def copies(self, core: int) -> list[int]:
        """The lines that the core has copies of, rising; none of a core that there isn't."""
        return self._driver.lines("copies", seat("core", core))

    def entries(self, bank: int) -> list[int]:
        """The lines that the bank has Shared or Exclusive, rising; none of a bank that there isn't."""
        return self._driver.lines("entries", seat("bank", bank))

    def owners(self, address: int) -> int:
        """How many own a line, 0 or 1: its Exclusive copy, or a grant or a return of it in flight."""
        return self._driver.owners(byte_address(address))

    def value(self, address: int) -> int:
        """The word's value, where its line now is."""
        return self._driver.value(byte_address(address))

    def totals(self) -> Totals:
        """What the machine has counted."""
        return self._driver.totals()

    def records(self, first: int = 0) -> Records:
        """The completed operations, from this number on."""
        records = Records()
        while (record := self._driver.record(ranged("first", first, MOST) + len(records))) is not None:
            records.append(record)
        return records

    def check(self) -> str:
        """The checker's verdict on the records, against what was issued: always legal. Each call goes through all of
        them."""
        for record in self.records(len(self._checked._records) // RECORD.size):
            self._checked.add(record)
        return self._checked.verdict().text

    # The machine itself.
    def close(self) -> None:
        """Gives the machine's memory back; a call is then a TardisError."""
        self._driver.close()

    def __enter__(self) -> "Machine":
        return self

    def __exit__(self, *error: object) -> None:
        self.close()

    def __iter__(self) -> Iterator[Message]:
        """The messages in flight."""
        return iter([message for number in self.in_flight() if (message := self.message(number))])


def number_of(word: str) -> int:
    """A decimal number of an event."""
    if not (word.isascii() and word.isdecimal()):
        raise ValueError(f"{word!r} is no number")
    return int(word)


def address_of(word: str) -> int:
    """A byte address of an event, as 0x28."""
    digits = word.removeprefix("0x")
    if digits == word or not digits or set(digits) - set("0123456789abcdef"):
        raise ValueError(f"{word!r} is no address")
    return int(digits, 16)
