#!/usr/bin/env python3
"""Draws the messages of a short run of a test or a trace as a chart, by the second program (oracle.py).

    tools/chart.py [options] FILE > chart.svg

Time goes down, with a row for each event. Each core, each bank and each DRAM has a lane. An arrow is a message, from
the event that sends it to its first delivery, with its number and its times: a reader's time (pts), the version and
the end of the lease (wts..rts), or a time that a lease is to reach (rts). A message that waits at its end is dotted
there until it is taken. Operations are next to their core; a load that reads the past is red.

If the run isn't all done, its beginning is shown, standard error says how it ended, and the status is 1.
"""
import sys
from pathlib import Path

sys.path.insert(0, str(Path(__file__).resolve().parent.parent))
from reference.given import Subject, Words, status_of, tool  # noqa: E402
from reference.order import overwriting  # noqa: E402
from reference.schedules import Run  # noqa: E402
from tools.drawn import Labels, halo, text  # noqa: E402


FROM_CORE = ("ShReq", "ExReq", "FlushRep", "WbRep")
FROM_DRAM = ("DramLdRep", "DramStRep")
TO_DRAM = ("DramLd", "DramSt")
LANE, ROW, TOP, SIZE, RIGHT = 230, 26, 60, 12, 60
INK, NOTE, PAST = "#245", "#823", "#c8102e"


def times(message):
    """The times that a message carries."""
    if message.kind in ("ShRep", "ExRep", "FlushRep", "WbRep"):
        return f" {message.wts}..{message.rts}"
    if message.kind in ("RenewRep", "UpgradeRep", "WbReq"):
        return f" rts {message.rts}"
    return f" pts {message.pts}" if message.kind == "ShReq" else ""


class Charted(Run):
    """A run that notes for each message where it was sent, first delivered and taken, and what operations did."""
    subject, shown = None, None

    def __init__(self, *given):
        super().__init__(*given)
        self.messages, self.notes, self.rows = {}, [], 0

    def ends(self, message):
        """The lanes of a message: from and to."""
        bank = "bank", message.line % self.machine.o.banks
        if message.kind in FROM_DRAM + TO_DRAM:
            dram = "DRAM", bank[1]
            return (dram, bank) if message.kind in FROM_DRAM else (bank, dram)
        core = "core", message.core
        return (core, bank) if message.kind in FROM_CORE else (bank, core)

    def make(self, *event):
        machine, name, sent = self.machine, event[0], self.machine.sent
        message = machine.flight.get(event[1]) if name == "Deliver" else None
        answer = super().make(*event)
        if answer in ("Waiting", "Idle", "Held", "NoRoom") and not message:
            return answer
        self.rows += 1
        if message:
            self.delivered(event[1], answer)
        else:
            self.note(event, answer)
        for number in range(sent, machine.sent):
            one = machine.flight[number]
            self.messages[number] = [f"{number}: {one.kind}{times(one)}", *self.ends(one), self.rows, None, None]
        return answer

    def delivered(self, number, answer):
        message = self.messages[number]
        message[4] = message[4] or self.rows
        if answer in ("Delivered", "Dropped"):
            message[5] = self.rows

    def note(self, event, answer):
        name, number = event[0], event[1]
        said, colour = "" if answer == "Requested" else f"{name}: {answer}", NOTE
        if answer == "Completed":
            record = self.machine.records[-1]
            past = overwriting(self.machine.records, record)
            receives = "" if record.received is None else f", receives {record.received}"
            said = f"time {record.time}{receives}" + (", the past" if past else "")
            colour = PAST if past else NOTE
        elif name == "Issue":
            kind, word, value = event[2]
            said = {"load": "load {}", "store": "store {1} to {0}", "swap": "swap {1} into {0}"}[kind].format(
                self.subject.name(word), value)
        elif answer == "Advanced":
            said = f"advance to {self.machine.cores[number].pts}"
        elif answer == "Evicted":
            said = f"{self.subject.name(event[2] * self.machine.o.line_words)} leaves"
        if said:
            self.notes.append(("bank" if name == "EvictBank" else "core", number, self.rows, said, colour))


def arrow(x, y, to_x, to_y):
    return f'<path d="M{x} {y} L{to_x} {to_y}" stroke="{INK}" fill="none" marker-end="url(#end)"/>'


def label(labels, said, start, end, at):
    """The text on an arrow, in the gap in front of the bank, where no notes are: `at` is the gap's left edge."""
    (x, y), (to_x, to_y) = start, end
    places = [(at + LANE * part, y + (at + LANE * part - x) * (to_y - y) / (to_x - x) - 4, "middle")
              for part in (0.5, 0.35, 0.65)]
    return text(*labels.place(said, places)[:2], said, more=halo())


def lanes_of(run):
    lanes = [("core", number) for number in run.shown]
    return lanes + [(name, number) for number in range(run.machine.o.banks) for name in ("bank", "DRAM")]


def messages(run, across, down):
    """The arrows, then their texts, so that none lies under an arrow."""
    labels, texts = Labels(SIZE), []
    for said, start, end, sent, first, taken in run.messages.values():
        if not first or start not in across or end not in across:
            continue
        places = (across[start], down(sent)), (across[end], down(first))
        bank = start if start[0] == "bank" else end
        gap = across[bank] - (0 if "DRAM" in (start[0], end[0]) else LANE)
        yield arrow(*places[0], *places[1])
        texts.append(label(labels, said, *places, gap))
        if taken and taken > first:
            yield (f'<path d="M{across[end]} {down(first)} V{down(taken)}" stroke="{INK}" stroke-width="3" '
                   'stroke-dasharray="2 4"/>')
    yield from texts


def notes(run, across, down):
    for part, number, row, said, colour in run.notes:
        if (part, number) in across:
            weight = f' fill="{colour}"' + (' font-weight="bold"' if colour == PAST else "")
            yield text(across[part, number] - 10, down(row) + 4, said, "end", weight + halo())
            if colour == PAST:
                yield f'<circle cx="{across[part, number]}" cy="{down(row)}" r="6" fill="{PAST}"/>'


def picture(run):
    lanes = lanes_of(run)
    longest = max((len(said) for part, number, _, said, _ in run.notes if (part, number) == lanes[0]), default=0)
    left = 40 + round(0.62 * SIZE * longest)
    across = {lane: left + place * LANE for place, lane in enumerate(lanes)}
    width, height = left + (len(lanes) - 1) * LANE + RIGHT, TOP + (run.rows + 2) * ROW

    def down(row):
        return TOP + row * ROW

    lines = [f'<svg xmlns="http://www.w3.org/2000/svg" width="{width}" height="{height}" font-family="sans-serif" '
             f'font-size="{SIZE}">', f'<rect width="{width}" height="{height}" fill="white"/>',
             '<defs><marker id="end" orient="auto" refX="8" refY="4" markerWidth="9" markerHeight="8">'
             f'<path d="M0 0 L8 4 L0 8 z" fill="{INK}"/></marker></defs>']
    for lane, x in across.items():
        lines.append(text(x, TOP - 20, f"{lane[0]} {lane[1]}", more=' font-weight="bold"'))
        lines.append(f'<path d="M{x} {TOP - 10} V{height - 20}" stroke="#aaa"/>')
    lines += [*messages(run, across, down), *notes(run, across, down)]
    return "\n".join([*lines, "</svg>"]) + "\n"


def charted(given):
    """The chart of a run, the file and how the run ended; these are the words of the command line."""
    words = Words(__doc__)
    words.run_options()
    options = words.parse_args(list(map(str, given)))
    subject = Subject(options.FILE)
    Charted.subject, Charted.shown = subject, subject.chosen(options)
    run, end = subject.run(options, Charted)
    return picture(run), options.FILE, end


def chart(given):
    """The chart of a run."""
    return charted(given)[0]


def main(given):
    drawn, path, end = charted(given)
    sys.stdout.write(drawn)
    return status_of(path, end)


if __name__ == "__main__":
    tool(main)
