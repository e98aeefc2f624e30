"""Events as a text that ./play and play.py run (docs/EVENTS.md): replayed on a whole machine, which gives the answers.

The replay is a check, too: each fault must be seen there, by the checker of records and by a count of owners.
"""
from tools.explored.local import failure
from tools.explored.parts import OWNING
from reference import order
from reference.calls import OPTIONS
from reference.told import EVENTS, Teller, operation

COLUMN = 28
NEVER = "nothing changes anything from here on"


def line(call, answer, note=""):
    return f"{call:<{COLUMN}} : {answer}" + (f"  # {note}" if note else "")


def machine_words(options, memory):
    """The call that opens the machine; options that are as they open are left out."""
    words = ["machine", "cores", str(options.cores)]
    for name, (usual, _, _) in OPTIONS.items():
        given = getattr(options, name.replace("-", "_"))
        if name != "cores" and given != usual:
            words += [name, "yes" if given is True else str(given)]
    opening = [f"{8 * word:#x} {value}" for word, value in memory.items() if value]
    return " ".join(words + (["with", *opening] if opening else []))


class Replay:
    """A list of events on a whole machine. `texts` has its lines."""

    def __init__(self, system, title):
        self.system, self.options = system, system.options
        self.machine = system.module.Machine(system.options, system.options.cores, system.subject.memory)
        self.tell, self.failed = Teller(self.machine), None
        self.texts = [f"example {title}", line(machine_words(self.options, system.subject.memory), "opened")]

    def make(self, events, note=""):
        """Makes the events of a path. The note stands behind the last one."""
        for left, name in zip(range(len(events) - 1, -1, -1), events):
            self.event(self.numbered(self.system.events.values[name]), "" if left else note)

    def numbered(self, event):
        """An event with the number of its message, the first one with the value of that message."""
        if event[0] == "Advance":
            return event[:2]
        if event[0] != "Deliver":
            return event
        wanted = self.system.messages.values[event[1]]
        found = (number for number, m in sorted(self.machine.flight.items())
                 if self.system.shapes.message(m) == wanted)
        return "Deliver", next(found)

    def event(self, event, note=""):
        call = self.call(event)
        try:
            answer = self.machine.step(event)
        except Exception as error:
            self.failed = failure(error, self.system.module)
            self.texts[-1] += f"  # next: {call}, which fails"
            self.texts.append(f"# {call} : the machine has no case for this ({self.failed})")
            return
        self.texts.append(line(call, self.tell.answer(answer), note))

    def call(self, event):
        name, *of = event
        if name == "Issue":
            return f"issue {of[0]} {operation(of[1])}"
        if name in ("EvictCache", "EvictBank"):
            return f"evict {'core' if name == 'EvictCache' else 'bank'} {of[0]} {self.tell.line(of[1])}"
        return EVENTS[name].format(*of)

    def check(self):
        issued = [core.issued for core in self.machine.cores]
        return order.check(self.system.subject.memory, issued, self.machine.records)

    def owners(self, number):
        copies = [copy.line for core in self.machine.cores for places in core.sets.values() for copy in places
                  if copy.state == "Exclusive"]
        return (copies + [m.line for m in self.machine.flight.values() if m.kind in OWNING]).count(number)


def fault_name(kind, said):
    """A fault in words. It has a line that is owned twice, or what failed."""
    return {"fails": f"no case ({said})", "two owners": f"two owners of line {said}"}.get(kind, kind)


def of_fault(system, path, fault, title):
    """The text of a fault: the events, the last one of which is marked, and what shows it."""
    kind, said = fault
    replay = Replay(system, title)
    replay.make(path, f"here: {fault_name(kind, said)}")
    if kind in ("wrong value", "out of program order"):
        verdict = replay.check()
        assert verdict.startswith(kind), f"the replay is {verdict}, not {kind}"
        replay.texts.append(line("check", verdict))
    if kind == "two owners":
        owners = replay.owners(said)
        assert owners > 1, "the replay shows one owner"
        replay.texts.append(line(f"owners {replay.tell.line(said)}", owners))
    assert kind != "fails" or replay.failed == said, "the replay doesn't fail"
    return replay.texts


def of_stuck(system, path, title):
    """The text of a stuck state, with events that change nothing in it."""
    replay = Replay(system, title)
    replay.make(path, f"here: stuck, {NEVER}")
    for core in range(system.options.cores):
        if replay.machine.cores[core].op is not None:
            replay.event(("Attempt", core))
    for number in sorted(replay.machine.flight):
        replay.event(("Deliver", number))
    return replay.texts


def of_lost(system, path, title):
    replay = Replay(system, title)
    replay.make(path, "here: lost, no events lead from here to an end")
    return replay.texts


def of_path(system, path, title, words):
    """The text of events without a fault, and the state at their end, of the first `words` words."""
    from reference.machine_texts import MachinePlayer
    replay = Replay(system, title)
    replay.make(path)
    player = MachinePlayer()
    player.machine, player.tell, player.opening = replay.machine, replay.tell, system.subject.memory
    player.begin(system.subject.memory)
    return replay.texts + [line(f"state {words}", player.call_state(words)), line("check", replay.check())]
