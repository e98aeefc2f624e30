"""Parts of a machine as values that don't change, and back.

A value is left out where docs/PROTOCOL.md's tables don't have it: an entry that a core owns has no words, say. The
machine's code may keep it, but doesn't read it. If a changed rule reads one, `Unread` says so, and then all are kept.
"""
from types import SimpleNamespace


class Unread(Exception):
    """A rule reads a value that was left out."""


class Elsewhere(Exception):
    """A rule looks at more than the part that its event is at."""


class Numbered(Elsewhere):
    """A rule reads how many messages or records there were, so that bags of messages aren't enough."""


class Many(tuple):
    """A list."""


class Mapped(tuple):
    """A dictionary, as sorted pairs."""


class Gathered(tuple):
    """A set, sorted."""


class Holder(SimpleNamespace):
    """A copy, an entry or a message, of which values may be left out."""

    def __getattr__(self, name):
        if name in MAY_BE_LEFT_OUT:
            raise Unread(name)
        raise AttributeError(name)


WORDS, LINE = {"wts", "words"}, {"wts", "rts", "words", "dirty"}
OF_MESSAGES = {"RenewRep": WORDS, "UpgradeRep": WORDS, "ExReq": {"pts"}, "FlushReq": {"rts"},
               "DramStRep": {"words"}}
OF_ENTRIES = {"Exclusive": LINE, "Recalling": LINE, "Shared": {"owner"}, "Storing": LINE | {"owner"}}
MAY_BE_LEFT_OUT = {"written"}.union(*OF_MESSAGES.values(), *OF_ENTRIES.values())


def frozen(value):
    if isinstance(value, list):
        return Many(map(frozen, value))
    if isinstance(value, dict):
        return Mapped(sorted((key, frozen(one)) for key, one in value.items()))
    if isinstance(value, set):
        return Gathered(sorted(map(frozen, value)))
    if isinstance(value, tuple):
        return tuple(map(frozen, value))
    if value is None or isinstance(value, (bool, int, str)):
        return value
    raise Elsewhere(f"a value of {type(value).__name__}")


def thawed(value):
    if isinstance(value, Many):
        return [thawed(one) for one in value]
    if isinstance(value, Mapped):
        return {key: thawed(one) for key, one in value}
    if isinstance(value, Gathered):
        return set(map(thawed, value))
    return value


def holder(of, left_out=()):
    """A copy, an entry or a message as a value."""
    return tuple(sorted((name, frozen(value)) for name, value in vars(of).items() if name not in left_out))


class Shapes:
    """Which values are left out. `keeps` says that none is."""

    def __init__(self, private_write, keeps):
        self.keeps = keeps
        self.of_copies = () if keeps or private_write else ("written",)

    def held(self, value):
        """A copy, an entry or a message of a value."""
        return (SimpleNamespace if self.keeps else Holder)(**{name: thawed(one) for name, one in value})

    def message(self, m):
        return holder(m, () if self.keeps else OF_MESSAGES.get(m.kind, ()))

    def entry(self, e):
        return holder(e, () if self.keeps else OF_ENTRIES.get(e.state, ()))

    def copy(self, c):
        return holder(c, self.of_copies)

    def sets(self, sets, one):
        """The sets of a cache or bank that aren't empty, each with its copies or entries in their order."""
        return tuple(sorted((number, tuple(map(one, places))) for number, places in sets.items() if places))
