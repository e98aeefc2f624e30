#!/usr/bin/env python3
"""Shows how the copies of one line go through a run, step by step, by the second program (oracle.py).

    tools/steps.py WORD [options] FILE

WORD is an address, or a location of a litmus test. A row for each event of its line and for each advance: the round or
turn, the event, and what there is after it. A core has its time and its copy, a bank its entry: S is Shared and E is
Exclusive, then come the version and the end of the lease (wts..rts), then the word's value. A load that reads the past,
a stale hit, is marked by `<- the past`.

If the run isn't all done, its beginning is shown, standard error says how it ended, and the status is 1.
"""
import sys
from pathlib import Path

sys.path.insert(0, str(Path(__file__).resolve().parent.parent))
from reference.given import Subject, Words, status_of, tool  # noqa: E402
from reference.order import overwriting  # noqa: E402
from reference.schedules import Run  # noqa: E402


# Answers of events that change nothing a reader looks for.
NOTHING = ("Waiting", "Held", "Idle", "NoRoom", "Issued")
CORES = ("Issue", "Attempt", "EvictCache", "Advance")
CARRIED = {"ShReq": ("pts", "version"), "ExReq": ("version",)}


def line_of(machine, event):
    """The line that an event is about, or None if it is an advance."""
    name, *of = event
    if name == "Deliver":
        return machine.flight[of[0]].line
    if name in ("EvictCache", "EvictBank"):
        return of[1]
    return machine.line_at(of[0]) if name == "Attempt" else None


def told(machine, event):
    """An event in words, before it is made."""
    name, *of = event
    if name == "Deliver":
        message = machine.flight[of[0]]
        keys = CARRIED.get(message.kind, ("wts", "rts"))
        carried = [f"{key} {getattr(message, key)}" for key in keys if getattr(message, key, None) is not None]
        about = [message.kind] + ([f"core {message.core}"] if message.core is not None else [])
        return ", ".join(about + carried)
    if name == "Attempt":
        return f"core {of[0]}: {machine.cores[of[0]].op[0]}"
    return f"core {of[0]}: {name}" if name in ("Advance", "EvictCache") else f"bank {of[0]}: {name}"


def held(place, index):
    """A copy or an entry: its state, times and word."""
    if place is None:
        return "-"
    if place.state not in ("Shared", "Exclusive"):
        return place.state
    if not hasattr(place, "written") and place.state == "Exclusive":
        return f"E of core {place.owner}"
    return f"{place.state[0]} {place.wts}..{place.rts} {place.words[index]}"


class Steps(Run):
    """A run that notes a row for each event of one line."""
    word, rows, shown = None, None, None

    def state(self):
        machine, line, index = self.machine, self.machine.line(self.word), self.word % self.machine.o.line_words
        for number in self.shown:
            core = machine.cores[number]
            yield f"{core.pts}: {held(machine.find(line, machine.cache_set(number, line))[0], index)}"
        yield held(machine.find(line, machine.bank_set(line))[0], index)

    def make(self, *event):
        name, line, about = event[0], line_of(self.machine, event), told(self.machine, event)
        answer = super().make(*event)
        if event[0] in CORES and event[1] not in self.shown:
            return answer
        if answer not in NOTHING and (name == "Advance" or line == self.machine.line(self.word)):
            records = self.machine.records
            if answer == "Completed" and records[-1].received is not None:
                about += f" receives {records[-1].received}" + " <- the past" * bool(overwriting(records, records[-1]))
            elif answer in ("Requested", "Started", "Dropped", "Exhausted", "NetworkFull"):
                about += f": {answer}"
            self.rows.append([str(self.turns), about, *self.state()])
        return answer


def table(rows):
    wide = [max(len(row[place]) for row in rows) for place in range(len(rows[0]))]
    return "".join("  ".join(cell.ljust(size) for cell, size in zip(row, wide)).rstrip() + "\n" for row in rows)


def main(given):
    words = Words(__doc__)
    words.add_argument("WORD", help="an address, as 0x0, or a location, as x")
    words.run_options()
    options = words.parse_args(given)
    subject = Subject(options.FILE)
    Steps.word, Steps.rows, Steps.shown = subject.word(options.WORD), [], subject.chosen(options)
    _, end = subject.run(options, Steps)
    head = ["turn", "event", *(f"core {number}" for number in Steps.shown), "bank"]
    sys.stdout.write(table([head, *Steps.rows]))
    return status_of(options.FILE, end)


if __name__ == "__main__":
    tool(main)
