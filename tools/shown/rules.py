"""What the page says of each event: what happened, the rule that decided it, and that rule's section of
docs/PROTOCOL.md.

All comes from the views before and after the event, as the player gave them (played.py).
"""
import re
from types import SimpleNamespace

from reference.order import overwriting


KINDS = {"R": "load", "W": "store", "S": "swap"}
CORE, BANK, LEASES, MEMORY, COPIES, EVENTS = (
    "A core", "A bank", "Leases", "Memory time and DRAM", "Private copies", "The machine's events")
REFUSED = {"NetworkFull": "As many messages are in flight as the capacity allows, so nothing changes.",
           "Exhausted": "A sum of times doesn't fit 64 bits. The machine stops here.",
           "NoMemory": "Allocation failed, and nothing changed.",
           "Busy": "The core's operation isn't completed yet, so it is issued no other."}


def fields(text):
    """The numbers of a copy, an entry or a message, by their names; and its first word."""
    words = text.split(" ")
    named = {name: words[at + 1] for at, name in enumerate(words[:-1]) if name in
             ("wts", "rts", "pts", "version", "owner", "time", "issued")}
    return SimpleNamespace(kind=words[0], written="written" in words, dirty="dirty" in words,
                           **{name: named.get(name) for name in ("wts", "rts", "pts", "version", "owner", "time")})


class Rules:
    """Describes the steps of a run that was played."""

    @staticmethod
    def sections():
        return CORE, BANK, LEASES, MEMORY, COPIES, EVENTS

    def __init__(self, run):
        self.run, self.subject = run, run.subject
        self.completed = 0  # how many operations so far

    def name(self, line):
        """A line: by its word's name, or by those of its words if it has more than one."""
        size, first = self.run.options.line_words, int(line, 16) // 8
        names = [self.subject.name(word) for word in range(first, first + size) if word in self.subject.names]
        return names[0] if size == 1 else "the line of " + (" ".join(names) if len(names) < 5 else line)

    def operation(self, text):
        """An operation in words, as `load x` or `store 7 to x`."""
        letter, word, *value = text.split(" ")[:3]
        name = self.subject.name(int(word, 16) // 8)
        return {"R": f"load {name}", "W": f"store {value[0] if value else ''} to {name}",
                "S": f"swap {value[0] if value else ''} into {name}"}[letter]

    def told(self, step, before):
        """The headline, the rule and the section."""
        what, *of = step.call.split(" ")
        answer = step.answer.split(" ")
        if answer[0] == "refused" and answer[1] in REFUSED and (what, answer[1]) != ("evict", "Busy"):
            return f"{self.event(step, before, what, of)} is refused: {answer[1]}", REFUSED[answer[1]], EVENTS
        headline, *why = getattr(self, what)(step, before, of, answer)
        return [re.sub("^the line of", "The line of", headline), *why]

    def event(self, step, before, what, of):
        """An event that was refused."""
        if what == "deliver":
            return f"The delivery of {before[of[0]].split(' ')[0]} for {self.name(step.line)}"
        if what == "evict":
            return f"The eviction of {self.name(step.line)} from {of[0]} {of[1]}"
        return {"issue": "The next operation", "attempt": "The attempt", "advance": "The advance"}[what] \
            + f" of core {of[0]}"

    # Events of a core.
    def issue(self, step, before, of, answer):
        return (f"Core {of[0]} begins: {self.operation(' '.join(of[1:]))}",
                "A core is issued its program's next operation when none is open.", CORE)

    def advance(self, step, before, of, answer):
        time = fields(step.view[f"core {of[0]}"]).time
        ended = [f"{self.name(name.split(' ')[2])} (to {fields(copy).rts})" for name, copy in step.view.items()
                 if name.startswith(f"copy {of[0]} ") and fields(copy).kind == "shared"
                 and int(fields(copy).rts) == int(time) - 1]
        over = f" Now it is past its lease of {', '.join(ended)}." if ended else ""
        return (f"Core {of[0]}'s time advances to {time}",
                f"A core's own time may advance by one at any point.{over}", CORE)

    def attempt(self, step, before, of, answer):
        core, name = of[0], self.name(step.line)
        op = before[f"core {core}"].split(" open ")[1]
        letter, copy = op[0], before.get(f"copy {core} {step.line}")
        time = fields(before[f"core {core}"]).time
        if answer[0] == "completed":
            return self.complete(core, copy and fields(copy), time, step)
        if answer[0] == "waiting":
            return f"Core {core} waits for {name}", "Its request is under way, and no reply has come yet.", CORE
        if answer[0] == "refused":
            return (f"Core {core} has no place for {name}",
                    "The cache set of this line is full: its least recently used copy must leave first.", COPIES)
        if letter == "R":
            why = f"It has no copy. ShReq goes to the bank with the core's time, {time}."
            if copy:
                why = f"The core's time, {time}, is past its copy's lease, which ended at {fields(copy).rts}. ShReq " \
                    "goes to the bank with that time."
            return f"Core {core} asks to read {name}", why, CORE
        why = f"Its copy of version {fields(copy).wts} is only Shared." if copy else "It has no copy."
        return (f"Core {core} asks to own {name}",
                f"{why} A {KINDS[letter]} needs an Exclusive copy, so ExReq goes to the bank.", CORE)

    def complete(self, core, copy, time, step):
        record = self.run.records[self.completed]
        self.completed += 1
        name = self.subject.name(record.word)
        if record.kind == "load":
            return self.load(core, copy, time, record, name)
        did = f"stores {record.value} to {name}" if record.kind == "store" else \
            f"swaps {record.value} into {name} and receives {record.received}"
        if self.run.options.private_write and copy.written:
            why = f"It wrote this copy itself, so under private writes its time is the greater of {time} and " \
                  f"rts = {copy.rts}."
        else:
            why = f"A {record.kind} takes a time after every lease: the greater of the core's time {time} and " \
                  f"rts + 1 = {int(copy.rts) + 1}."
        return f"Core {core} {did}, at time {record.time}", why, CORE

    def load(self, core, copy, time, record, name):
        is_later = f" The load takes the later time of the copy's version, {copy.wts}." * (int(copy.wts) > int(time))
        if record.number in self.run.stale:
            write = overwriting(self.run.records, record)
            return (f"Core {core} reads the past: {record.received} from {name}, where core {write.core} has already "
                    f"written {write.value}",
                    f"The core's time is {time}, within its lease to {copy.rts}.{is_later} At time {record.time} this "
                    f"load comes before the write at time {write.time}.", CORE)
        why = f"Its time, {time}, is within the lease to {copy.rts}, so it completes.{is_later}"
        if copy.kind == "exclusive":
            why = "It owns the line, so it may read it at any time; its lease extends to the load's time."
        return f"Core {core} loads {name} and receives {record.received}, at time {record.time}", why, CORE

    # Deliveries.
    def deliver(self, step, before, of, answer):
        text = before[of[0]]
        words = text.split(" ")
        message = SimpleNamespace(kind=words[0], of=fields(text), name=self.name(step.line))
        message.core = words[2] if words[1] == "core" else words[5]
        message.entry = fields(before[f"entry {step.line}"])
        new = [name for name in step.view if name[0] == "m" and name not in before]
        message.sent = fields(step.view[new[0]]) if new else None
        if message.kind in ("ShReq", "ExReq"):
            return self.request(message, answer[0])
        if message.kind in ("WbReq", "FlushReq"):
            return self.recall(message, answer[0], step)
        if words[4] == "core":
            return self.reply(message)
        return self.returned(message, step)

    def request(self, message, answer):
        asked = f"Core {message.core}'s request for {message.name}"
        state = message.entry.kind
        if answer == "held":
            why = "The bank's set is full, and a line must leave first." if state == "none" else \
                f"The line is {state.capitalize()} there, so the bank can't answer yet."
            return f"{asked} is held at the bank", why, BANK
        if answer == "started" and state == "none":
            return (f"The bank asks DRAM for {message.name}",
                    "It has no entry of the line. The request waits while the words are loaded.", BANK)
        if answer == "started":
            return self.recalled(message, message.entry.owner)
        return self.granted(message)

    def recalled(self, message, owner):
        if message.kind == "ShReq":
            return (f"The bank asks core {owner} for {message.name} back",
                    f"Core {owner} owns the line and may keep a copy to read, leased at least to {message.sent.rts}: "
                    f"the reader's time {message.of.pts} and a lease.", LEASES)
        return (f"The bank asks core {owner} to give {message.name} up",
                f"Core {owner} owns the line, and only one core may.", BANK)

    def granted(self, message):
        without = " Its copy is of this version, so no words are sent."
        if message.kind == "ShReq":
            is_renewal = message.sent.kind == "RenewRep"
            return (f"The bank {'renews core ' + message.core + chr(39) + 's lease of' if is_renewal else 'leases'} "
                    f"{message.name}{'' if is_renewal else ' to core ' + message.core}, up to time {message.sent.rts}",
                    f"The lease is the greatest of rts = {message.entry.rts}, wts + L and the reader's time + L, with "
                    f"L = {self.run.options.lease}.{without * is_renewal}", LEASES)
        return (f"The bank lets core {message.core} own {message.name}",
                f"The bank notifies no reader: leases up to {message.sent.rts} stay valid, and the write will take a "
                f"later time.{without * (message.sent.kind == 'UpgradeRep')}", LEASES)

    def recall(self, message, answer, step):
        core, name = message.core, message.name
        if answer == "held":
            return (f"Core {core} keeps {name} until its operation is done",
                    "The bank asks for the line back, but the core's open operation is on it. So the core holds the "
                    "message.", CORE)
        if answer == "dropped":
            return (f"Core {core} drops the message: it doesn't own {name}",
                    "It gave the line back earlier, and that message is on its way or has arrived.", CORE)
        if message.kind == "FlushReq":
            return (f"Core {core} gives {name} back",
                    "The bank asked for it by FlushReq, so the core keeps no copy.", CORE)
        copy = fields(step.view[f"copy {core} {step.line}"])
        return (f"Core {core} writes {name} back and keeps a copy to read up to time {copy.rts}",
                "The lease is the greatest of rts, wts + L and the time that the bank asked for.", CORE)

    def reply(self, message):
        core, name, rts = message.core, message.name, message.of.rts
        return {
            "ShRep": (f"Core {core} has a copy of {name}, to read up to time {rts}",
                      "The copy is Shared. Version (wts) and lease (rts) come with the words.", CORE),
            "ExRep": (f"Core {core} owns {name}",
                      f"The copy is Exclusive. Others may still read theirs up to {rts}.", CORE),
            "RenewRep": (f"Core {core} may go on reading {name}, up to time {rts}", "Only the lease is new.", CORE),
            "UpgradeRep": (f"Core {core} owns {name}",
                           f"Its Shared copy becomes Exclusive. Others may still read theirs up to {rts}.", CORE),
        }[message.kind]

    def returned(self, message, step):
        name, entry = message.name, fields(step.view[f"entry {step.line}"])
        if message.kind in ("FlushRep", "WbRep"):
            return (f"The bank has {name} back",
                    f"Words and times are those of the owner's copy: wts {entry.wts}, rts {entry.rts}.", BANK)
        return {
            "DramLd": (f"DRAM reads {name}", "DRAM answers a load with the line's words.", MEMORY),
            "DramLdRep": (f"The bank has {name} from DRAM",
                          f"The entry is Shared, and both its times are the bank's memory time, {entry.wts}.", BANK),
            "DramSt": (f"DRAM stores {name}", "DRAM sets the line's words and answers.", MEMORY),
            "DramStRep": (f"{name} has left the bank", "Its words are in DRAM now.", BANK),
        }[message.kind]

    # Evictions.
    def evict(self, step, before, of, answer):
        name = self.name(step.line)
        if answer[0] == "refused":
            why = "A pinned copy, or a line that is under way, stays."
            return f"{name} can't leave: {answer[1]}", "It isn't there." if answer[1] == "NoSuch" else why, EVENTS
        if of[0] == "core":
            copy = fields(before[f"copy {of[1]} {step.line}"])
            why = "A Shared copy leaves without a message." if copy.kind == "shared" else \
                "An Exclusive copy goes back to the bank, by FlushRep."
            return f"{name} leaves core {of[1]}'s cache", why, CORE
        entry, time = fields(before[f"entry {step.line}"]), fields(step.view[f"bank {of[1]}"]).time
        if answer[0] == "recalled":
            return (f"The bank asks core {entry.owner} to give {name} up",
                    "The line is to leave the bank, and a core owns it.", BANK)
        return (f"{name} leaves the bank",
                f"The memory time is now {time}, at least the line's rts: when it returns, its times are no earlier "
                "than any lease." + (" Its words go to DRAM." if entry.dirty else ""), MEMORY)
