"""Why a call has no answer."""
import re


class TardisError(Exception):
    """A call has no answer. Its text is the program's line."""


class NoMemory(TardisError):
    """Memory was refused."""


class TooManyStates(TardisError):
    """A list of ends would keep more than `states` states at once, as many as it may. `enough` would do to go on; a
    later layer may need more (docs/TEXTS.md)."""

    def __init__(self, told: str) -> None:
        super().__init__(told)
        self.states, self.enough = map(int, re.findall("[0-9]+", told))


class BadConfiguration(TardisError):
    """An option is out of its range: the text names it."""


class BadText(TardisError):
    """The text is no litmus test, no trace, no list of records or no opening. `line` counts from 1; docs/TEXTS.md has
    the kinds."""

    def __init__(self, told: str) -> None:
        super().__init__(told)
        place, _, kind = told.removeprefix("tardis: ").removeprefix("opening: ").removeprefix("line ").partition(": ")
        self.line = int(place) if place.isdigit() else 0
        self.kind = kind
