"""The options of a run, with the ranges and defaults of the program (docs/SCHEDULES.md, docs/PROTOCOL.md)."""
import operator
from dataclasses import dataclass, fields
from typing import Any

from tardis.errors import BadConfiguration

MOST = 2 ** 64 - 1
RANGES = {"lease": (1, 2 ** 32), "time": (0, MOST), "banks": (1, 8), "sets": (1, 1024), "ways": (1, 16),
          "bank_sets": (1, 1024), "bank_ways": (1, 16), "messages": (1, 65536), "limit": (1, 2 ** 32 - 1),
          "runs": (1, 1_000_000), "seed": (0, MOST)}
SCHEDULES = "round", "seed"


def whole(name: str, value: Any) -> int:
    """The value of an option that is a whole number."""
    if isinstance(value, bool) or not hasattr(value, "__index__"):
        raise TypeError(f"{name} is {value!r}: a whole number is wanted")
    return operator.index(value)


def within(name: str, value: Any, least: int, most: int) -> int:
    """The value of an option that is a whole number of this range."""
    if not least <= whole(name, value) <= most:
        raise BadConfiguration(f"{name} is {value}: it goes from {least} to {most}")
    return whole(name, value)


def flags(**given: Any) -> None:
    """Refuses an option that is neither True nor False."""
    for name, flag in given.items():
        if not isinstance(flag, bool):
            raise TypeError(f"{name} is {flag!r}: True or False is wanted")


@dataclass(frozen=True, kw_only=True)
class Options:
    """How a machine is built, and how a run goes on it."""

    lease: int = 10              # ticks that a lease extends past the times that it covers
    time: int = 0                # of each core and bank before the first event, in ticks
    banks: int = 1
    sets: int = 64               # of a private cache
    ways: int = 4                # lines of a private set
    bank_sets: int = 256
    bank_ways: int = 8
    line_words: int = 1          # 1 or 8 words of 8 bytes
    messages: int = 4096         # in flight at most
    private_write: bool = False
    schedule: str = "round"      # or seed
    fair: bool = False           # with rounds alone: a message that a bank makes a place for is delivered once more
    seed: int = 0                # of the first run; each further run has the next
    limit: int = 100_000         # rounds or turns of a run
    runs: int = 1                # of a litmus test

    def __post_init__(self) -> None:
        for name, (least, most) in RANGES.items():
            object.__setattr__(self, name, within(name, getattr(self, name), least, most))
        object.__setattr__(self, "line_words", whole("line_words", self.line_words))
        if self.line_words not in (1, 8):
            raise BadConfiguration(f"line_words is {self.line_words}: it is 1 or 8")
        flags(private_write=self.private_write, fair=self.fair)
        if self.schedule not in SCHEDULES:
            raise BadConfiguration(f"schedule is {self.schedule!r}: it is round or seed")
        if self.fair and self.schedule != "round":
            raise BadConfiguration("fair needs schedule='round'")

    def words(self, kind: str) -> list[str]:
        """The options of the command `kind` (litmus or trace) that say the same."""
        words = []
        for field in fields(self):
            value = getattr(self, field.name)
            if value != field.default and (field.name != "runs" or kind == "litmus"):
                words += ["--" + field.name.replace("_", "-")] + ([] if value is True else [str(value)])
        return words


@dataclass(frozen=True, kw_only=True)
class Asked:
    """What is asked of a run beside its options: what is written."""

    records: bool = False        # of a trace, in place of a report
    counts: bool = False         # of a trace, behind its report
    every: int | None = None     # completed operations for each row of counts
    json: bool = False           # an object in place of lines

    def __post_init__(self) -> None:
        flags(records=self.records, counts=self.counts, json=self.json)
        if self.every is not None:
            within("every", self.every, 1, MOST)
        if self.every is not None and not self.counts:
            raise BadConfiguration("every needs counts=True")
        for name in ("counts", "json"):
            if self.records and getattr(self, name):
                raise BadConfiguration(f"{name} is not taken with records=True")

    def words(self) -> list[str]:
        """The options of a command that say the same."""
        every = [] if self.every is None else ["--every", str(self.every)]
        flags = [f"--{name}" for name in ("records", "counts", "json") if getattr(self, name)]
        return [*flags, *every]


OF_RUNS = tuple(field.name for field in fields(Options))
OF_TRACE = tuple(name for name in OF_RUNS if name != "runs")
OF_MACHINE = OF_RUNS[:OF_RUNS.index("schedule")]


def given_options(call: str, names: tuple[str, ...], given: dict[str, Any], *more: str) -> Options:
    """The options that a call was given, which takes these, and more by names of its own."""
    for name in given:
        if name not in names:
            raise TypeError(f"{call} has no option {name!r}: it takes {', '.join((*more, *names))}")
    return Options(**given)
