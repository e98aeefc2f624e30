"""What reports say (docs/TEXTS.md), as objects."""
from collections.abc import Iterable
from dataclasses import dataclass, field
from typing import Any, Literal, NamedTuple


@dataclass(frozen=True)
class State:
    """An end state of a litmus test: how many runs ended in it, and the value of each name in the condition."""

    times: int
    values: dict[str, int]


@dataclass(frozen=True)
class LitmusReport:
    """The report on the runs of a litmus test. `is_proved` says who made it: the proved library, or the second program.
    """

    text: str = field(repr=False)
    is_proved: bool
    name: str
    numbers: dict[str, int]  # of each line with one number: runs, all-done, stalled, held, completed, renewals, ..
    states: list[State]
    condition: str           # exists, ~exists or forall
    verdict: bool            # whether the runs that were made meet it


@dataclass(frozen=True)
class End:
    """An end of a litmus test: the value of each name in the condition, and whether these make its expression true."""

    values: dict[str, int]
    holds: bool
    order: tuple[str, ...] = ()  # operations that lead there, if asked for: P0:2 is the second of thread 0


@dataclass(frozen=True)
class EndsReport:
    """Every end that a litmus test has, in any run. `is_proved` says who listed them: the proved library, or the second
    program."""

    text: str = field(repr=False)
    is_proved: bool
    name: str
    states: int              # met on the way
    ends: list[End]
    condition: str           # exists, ~exists or forall
    observation: str         # Never, Sometimes or Always: how often an end makes the expression true


@dataclass(frozen=True)
class Counts:
    """What a run did, in numbers (docs/COUNTS.md): of each core and each bank, the numbers by their names."""

    events: int
    held: int
    dropped: int
    cores: list[dict[str, int]]
    banks: list[dict[str, int]]

    def columns(self, part: Literal["cores", "banks"] = "cores") -> dict[str, list[int]]:
        """What was counted of the cores or the banks by columns, as `pandas.DataFrame` takes them: `core` or `bank` has
        their numbers, and a kind of message that one never had is 0 there."""
        if part not in ("cores", "banks"):
            raise ValueError(f"part is {part!r}: it is cores or banks")
        counted = self.cores if part == "cores" else self.banks
        names = dict.fromkeys(name for each in counted for name in each)
        return {part[:-1]: list(range(len(counted))),
                **{name: [each.get(name, 0) for each in counted] for name in names}}


@dataclass(frozen=True)
class TraceReport:
    """The report on a run of a trace. It is a CountedReport if counts were asked for."""

    text: str = field(repr=False)
    is_proved: bool
    end: str                 # all-done, stalled, limit, exhausted or memory
    numbers: dict[str, int]  # cores, issued, completed, loads, .., stale-hits
    words: dict[int, int]    # by byte address, the value that the run leaves
    counts: Counts | None = field(default=None, repr=False)               # at the end, if asked for
    rows: dict[int, Counts] = field(default_factory=dict, repr=False)     # by how many operations were completed


@dataclass(frozen=True)
class CountedReport(TraceReport):
    """A report with counts."""

    counts: Counts = field(repr=False)


class Record(NamedTuple):
    """A completed operation, as a line of records has it."""

    core: int
    place: int            # in the core's program order, from 0
    kind: str             # R, W or S: a load, a store, a swap
    address: int          # in bytes
    value: int | None     # what was written; None for a load
    received: int | None  # None for a store
    time: int             # the timestamp, in ticks
    number: int           # of completion, from 0


class Records(list[Record]):
    """Records, in the order of completion. `end` says how the run ended that they are of: all-done, stalled, limit,
    exhausted or memory. It is None of a machine that you drive."""

    def __init__(self, records: Iterable[Record] = (), end: str | None = None) -> None:
        super().__init__(records)
        self.end = end

    def columns(self) -> dict[str, list[Any]]:
        """The records by columns, as `pandas.DataFrame` takes them."""
        return {name: [record[at] for record in self] for at, name in enumerate(Record._fields)}

    @property
    def text(self) -> str:
        """The records as `tardis.check` and the program's `check` take them: a line each (docs/TEXTS.md)."""
        return "".join(map(line_of, self))


def line_of(record: Record) -> str:
    """The line of a record."""
    core, place, kind, address, *rest = record
    return " ".join(map(str, (core, place, kind, hex(address), *(each for each in rest if each is not None)))) + "\n"


def record_of(line: str) -> Record:
    """The record that a line has."""
    core, place, kind, address, *rest = line.split()
    *values, time, number = map(int, rest)
    return Record(int(core), int(place), kind, int(address, 16), values[0] if kind != "R" else None,
                  values[-1] if kind != "W" else None, time, number)


def values_of(words: list[str]) -> dict[str, int]:
    """The values of names, from words as `0:x7=1`."""
    return {name: int(value) for name, _, value in (word.rpartition("=") for word in words)}


def litmus_report(text: str, is_proved: bool) -> LitmusReport:
    """A report on a litmus test, from its text."""
    lines = text.splitlines()
    pairs = [line.split() for line in lines]
    states = [State(int(times), values_of(words)) for times, *words in pairs if times.isdigit()]
    named = {words[0]: words[1] for words in pairs if len(words) == 2 and not words[0].isdigit()}
    numbers = {name: int(value) for name, value in named.items() if value.isdigit() and name != "test"}
    return LitmusReport(text, is_proved, named["test"], numbers, states, named["condition"], named["verdict"] == "yes")


def end_of(line: str, holds: bool) -> End:
    """An end, from its line, in which an order stands behind three spaces."""
    values, _, order = line.partition("   ")
    return End(values_of(values.split()), holds, tuple(order.split()))


def ends_report(text: str, is_proved: bool) -> EndsReport:
    """A list of ends, from its text."""
    lines = text.splitlines()
    ends = [end_of(line[2:], line[0] == "*") for line in lines if line[:2] in ("  ", "* ")]
    named = {words[0]: words[1:] for words in map(str.split, lines) if words}
    return EndsReport(text, is_proved, named["test"][0], int(named["states"][0]), ends, named["condition"][0],
                      named["observation"][1])


def counts_of(lines: list[list[str]]) -> Counts:
    """What was counted, from its lines."""
    totals = {line[0]: int(line[1]) for line in lines if len(line) == 2}
    parts = {part: [dict(zip(line[2::2], map(int, line[3::2]))) for line in lines if line[0] == part]
             for part in ("core", "bank")}
    return Counts(totals["events"], totals["held"], totals["dropped"], parts["core"], parts["bank"])


def counted(lines: list[list[str]]) -> tuple[dict[int, Counts], Counts | None]:
    """The rows of counts, and the counts at the end, from the lines that stand behind a report."""
    starts = [at for at, line in enumerate(lines) if line[0] in ("row", "events")]
    rows = {int(lines[at][1]): counts_of(lines[at + 1:end])
            for at, end in zip(starts[:-1:2], starts[2::2])}
    return rows, counts_of(lines[starts[-1]:]) if starts else None


def trace_report(text: str, is_proved: bool) -> TraceReport:
    """A report on a trace, from its text."""
    lines = [line.split() for line in text.splitlines()]
    behind = next((at for at, line in enumerate(lines) if line[0] in ("row", "events")), len(lines))
    words = {int(name, 16): int(value) for _, name, value in (each for each in lines[:behind] if each[0] == "word")}
    named = {each[0]: each[1] for each in lines[:behind] if len(each) == 2}
    numbers = {name: int(value) for name, value in named.items() if value.isdigit()}
    rows, counts = counted(lines[behind:])
    if counts is None:
        return TraceReport(text, is_proved, named["end"], numbers, words)
    return CountedReport(text, is_proved, named["end"], numbers, words, counts, rows)


def records_of(text: str, end: str) -> Records:
    """Records, from their text, of a run that ended so."""
    return Records(map(record_of, text.splitlines()), end)
