"""A run that notes what it shows, in a few words each, so that cases can be chosen by what they show."""
from types import SimpleNamespace

from reference.schedules import ADVANCE, Run


LISTS = {0: "advances", 1: "copies", 2: "banks' lines"}


class WatchedRun(Run):
    def __init__(self, *given):
        super().__init__(*given)
        self.shown = set()

    def choose(self, which):
        events = super().choose(which)
        name = LISTS.get(which, "steps")
        if not events:
            self.shown.add(f"list of {name}: empty")
        if which == 1:
            self.note_pinned()
        if which > 2 and not any(self.machine.flight):
            self.shown.add("list of steps: no message in flight")
        return events

    def note_pinned(self):
        for core, state in enumerate(self.machine.cores):
            if self.machine.line_at(core) in self.machine.copies(core):
                self.shown.add("pinned, request out" if state.out else "pinned, no request yet")

    def make(self, *event):
        before = self.look(*event)
        answer = super().make(*event)
        self.shown.add(" ".join(part for part in (self.origin(before), event[0], before.of, answer) if part))
        return answer

    def look(self, name, *of):
        """What only a look before an event sees: what it is about, and whether the program next makes an advance."""
        machine, about, wants = self.machine, "", False
        if name == "EvictCache":
            about = machine.find(of[1], machine.cache_set(*of))[0].state
        if name == "EvictBank":
            entry = machine.find(of[1], machine.bank_set(of[1]))[0]
            about = "dirty" if entry.dirty and entry.state == "Shared" else entry.state
        if name == "Deliver":
            about = machine.flight[of[0]].kind
        if name == "Attempt" and machine.cores[of[0]].op:
            about = self.about_attempt(of[0])
        if name == "Advance":
            wants = not self.is_open(of[0]) and self.programs[of[0]].next() == ADVANCE
        return SimpleNamespace(of=about, wants=wants, events=len(self.made))

    def about_attempt(self, core):
        machine, op = self.machine, self.machine.cores[core].op
        copy, _ = machine.find(machine.line_at(core), machine.cache_set(core, machine.line_at(core)))
        time = machine.cores[core].pts
        hit = copy and op[0] == "load" and copy.state == "Shared" and time <= copy.rts
        later = any(record.kind != "load" and record.word == op[1] and record.time > max(time, copy.wts)
                    for record in machine.records) if hit else False
        written = copy and copy.written and op[0] != "load" and machine.o.private_write
        return ("written " if written else "") + ("stale " if later else "") + op[0]

    def origin(self, before):
        """Where an event comes from: a list, or the event before it."""
        start, which, _ = self.drawn[-1]
        if before.events > start:
            return "follow-up"
        return {0: "list 0" + (", wanted too" if before.wants else ""), 1: "list 1", 2: "list 2"}.get(which, "")
