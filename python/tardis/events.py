"""Answers to events, messages in flight and counts of a machine, and how docs/EVENTS.md has them as text."""
from dataclasses import dataclass
from typing import Protocol

from tardis.errors import NoMemory
from tardis.reports import Record, record_of


@dataclass(frozen=True)
class Answer:
    """The answer to an event: issued, completed, requested, waiting, idle, delivered, dropped, held, started, evicted,
    recalled, advanced or refused; the cause of a refusal; and the record of a completion."""

    name: str
    cause: str | None = None
    record: Record | None = None


LINE, TIME, WORDS = ("wts", "rts", "words"), ("rts",), ("words",)
CARRIES = {"ShReq": ("pts", "version"), "ExReq": ("version",), "ShRep": LINE, "ExRep": LINE, "FlushRep": LINE,
           "WbRep": LINE, "RenewRep": TIME, "UpgradeRep": TIME, "WbReq": TIME, "DramLdRep": WORDS, "DramSt": WORDS}


@dataclass(frozen=True)
class Message:
    """A message in flight. What its kind doesn't carry is None, or no words."""

    number: int
    kind: str                    # ShReq, ExReq, ShRep, ..
    sender: str                  # core 1, bank 0 or dram 0
    receiver: str
    address: int                 # of its line's first word, in bytes
    pts: int | None = None       # the time of the core that asks to read, in ticks
    version: int | None = None   # of the copy that the core that asks has; None if it has none
    wts: int | None = None       # the time of the line's last write, in ticks
    rts: int | None = None       # the time up to which the line may be read, in ticks
    words: tuple[int, ...] = ()  # the line's words

    @property
    def carries(self) -> str:
        """What it carries, as docs/EVENTS.md has it: `pts 0 version none`, `wts 0 rts 10 words 5`, .."""
        told = {"pts": self.pts, "version": "none" if self.version is None else self.version, "wts": self.wts,
                "rts": self.rts, "words": " ".join(map(str, self.words))}
        return " ".join(f"{name} {told[name]}" for name in CARRIES.get(self.kind, ()))


@dataclass(frozen=True)
class Totals:
    """What a machine has counted: messages of four kinds that were sent, messages in flight, and completed operations.
    `is_stopped` says whether an event was refused as `Exhausted`."""

    renewals: int
    upgrades: int
    flushes: int
    write_backs: int
    messages: int
    records: int
    is_stopped: bool


class Driver(Protocol):
    """A machine that takes events: the library's, or the second program's. Lines are byte addresses of their words."""

    def issue(self, core: int, kind: str, address: int, value: int | None) -> Answer: ...
    def event(self, name: str, number: int) -> Answer: ...
    def evict(self, part: str, seat: int, address: int) -> Answer: ...
    def in_flight(self) -> list[int]: ...
    def message(self, number: int) -> Message | None: ...
    def record(self, number: int) -> Record | None: ...
    def victim(self, core: int, address: int) -> int | None: ...
    def room(self, number: int) -> tuple[int, int] | None: ...
    def open_operation(self, core: int) -> str | None: ...
    def lines(self, name: str, seat: int) -> list[int]: ...
    def owners(self, address: int) -> int: ...
    def value(self, address: int) -> int: ...
    def totals(self) -> Totals: ...
    def close(self) -> None: ...


def answer_of(text: str) -> Answer:
    """One answer to an event, from its text."""
    name, _, rest = text.partition(" ")
    return Answer(name, rest if name == "refused" else None, record_of(rest) if name == "completed" else None)


def answers_of(text: str) -> list[Answer]:
    """The answers to the events of a line `run EVENT; EVENT; ..`, each in its parts; or the answer to one event."""
    return [answer_of(each) for each in text.split("; ")]


def message_of(number: int, text: str) -> Message:
    """A message of this number, from its text."""
    kind, sender, sent_by, _, receiver, sent_to, address, *rest = text.split()
    at = rest.index("words") if "words" in rest else len(rest)
    carried = {name: None if value == "none" else int(value) for name, value in zip(rest[:at:2], rest[1:at:2])}
    return Message(number, kind, f"{sender} {sent_by}", f"{receiver} {sent_to}", int(address, 16),
                   words=tuple(map(int, rest[at + 1:])), **carried)


def list_of(text: str) -> list[str]:
    """The words of a list, from its text."""
    if text == "refused NoMemory":
        raise NoMemory(text)
    return [] if text == "none" else text.split()
