from reference.machine import COUNTED
from reference.schedules import ADVANCE
from reference.traces import record_line
"""How what a machine has and answers stands in texts (docs/EVENTS.md)."""

REFUSALS = "Busy TooMany NoSuch NoRoom Pinned NetworkFull NoMemory Exhausted Stopped".split()
LETTERS = {"load": "R", "store": "W", "swap": "S"}
NODES = {"c": "core", "b": "bank", "d": "dram"}
EVENTS = {"Attempt": "attempt {}", "Advance": "advance {}", "Deliver": "deliver m{}"}
LINE_CARRIERS = ("ShRep", "ExRep", "FlushRep", "WbRep")


def joined(parts, by=" "):
    """The parts of a list, or `none`."""
    return by.join(map(str, parts)) or "none"


def or_none(value):
    return "none" if value is None else str(value)


def operation(op):
    kind, word, value = op
    return f"{LETTERS[kind]} {8 * word:#x}" + ("" if value is None else f" {value}")


def step(of):
    return "A" if of == ADVANCE else operation(of)


def words_from(values):
    return " ".join(["words", *map(str, values)])


def timed(holder):
    return f"wts {holder.wts} rts {holder.rts} {words_from(holder.words)}"


def copy(of):
    """A copy, or that there is none."""
    return "none" if of is None else f"{of.state.lower()} {'written ' * of.written}{timed(of)}"


def entry(of):
    """A bank's entry, or that there is none."""
    if of is None:
        return "none"
    if of.state == "Shared":
        return f"shared {'dirty ' * of.dirty}{timed(of)}"
    return of.state.lower() + (f" owner {of.owner}" if of.state in ("Exclusive", "Recalling") else "")


def version(of):
    return f"version {or_none(of)}"


def carried(m):
    """What a message carries."""
    if m.kind == "ShReq":
        return f" pts {m.pts} {version(m.version)}"
    if m.kind == "ExReq":
        return f" {version(m.version)}"
    if m.kind in LINE_CARRIERS:
        return f" {timed(m)}"
    if m.kind in ("RenewRep", "UpgradeRep", "WbReq"):
        return f" rts {m.rts}"
    return f" {words_from(m.words)}" if m.kind in ("DramLdRep", "DramSt") else ""


def sent(counts):
    return " ".join(f"{name} {counts[kind]}" for kind, name in COUNTED.items())


class Teller:
    """Tells of a machine: lines stand there by the addresses of their first words."""

    def __init__(self, machine):
        self.machine = machine

    def line(self, number):
        return "none" if number is None else f"{8 * number * self.machine.o.line_words:#x}"

    def lines(self, numbers):
        return joined(map(self.line, numbers))

    def message(self, m):
        """A message, or that there is none."""
        if m is None:
            return "none"
        (source, of), (target, to) = self.machine.nodes(m)
        return f"{m.kind} {NODES[source]} {of} > {NODES[target]} {to} {self.line(m.line)}{carried(m)}"

    def event(self, event):
        name, *of = event
        if name == "Issue":
            return f"issue {of[0]} {operation(of[1])}"
        if name in ("EvictCache", "EvictBank"):
            return f"evict {'core' if name == 'EvictCache' else 'bank'} {of[0]} {self.line(of[1])}"
        return EVENTS[name].format(*of)

    def answer(self, answer):
        if answer in REFUSALS:
            return f"refused {answer}"
        return answer.lower() if answer != "Completed" else f"completed {record_line(self.machine.records[-1])}"
