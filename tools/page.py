#!/usr/bin/env python3
"""Writes a run of a litmus test or a trace as one HTML page, to be stepped through: tools/page.py FILE > run.html

What the page shows is what a machine did: a player (docs/EVENTS.md) makes the events and answers look-ups after each.
That is the proved machine's, ./play, if it is built and no source is newer. Otherwise it is the second program's,
reference/play.py, and standard error says so; nothing is built. --player names another. The page says which.

The page stands alone: it loads nothing. Keys: right and left (on to the next event that changes something, and back),
down and up (each event), space (play), c, s, r, l, e, w (the next completion, stale hit, renewal, recall, eviction,
wrong record; with shift the one before), Home, End, q (a quiz: what a load returns is asked before it is shown, however
you go on), p (the rule's paragraph), d (dark or light), ? (the keys). The address follows the event: run.html#12 opens
at event 12, run.html#stale at the first stale hit, run.html#wrong at the wrong record.

Of a litmus test the page shows the question, which core runs which thread, the registers as they fill, and at the end
the verdict.

FILE may also be a text of events, as tools/explore.py writes it: its first example is shown. A comment behind an event
stands in its headline, and the machine is that of the text. A text that drives, opens
a machine again, has an event of what isn't there or goes on when the machine has stopped is refused.

The status is 1 if the run isn't all done; the page then shows it as far as it went, and says how it ended. It is 1,
too, if the history isn't legal, as a changed rule may make it; the page then marks the first wrong record.
"""
import html
import json
import re
import sys
from pathlib import Path

sys.path.insert(0, str(Path(__file__).resolve().parent.parent))
from reference import told  # noqa: E402
from reference.given import Subject, Words, tool  # noqa: E402
from reference.order import overwriting  # noqa: E402
from reference.schedules import ADVANCE  # noqa: E402
from tools.shown.played import Played, Player, player_of, say_second  # noqa: E402
from tools.shown.questions import question  # noqa: E402
from tools.shown.rules import Rules  # noqa: E402
from tools.shown.texts import PlayedText, Text, is_text  # noqa: E402


PARTS = Path(__file__).resolve().parent / "shown"
ENDS = {"all-done": "All operations are done.", "stalled": "The run stalled: a round in which nothing went on.",
        "limit": "The run was cut: its rounds or turns are used up.", "memory": "Allocation failed.",
        "exhausted": "The run ended: a time doesn't fit 64 bits.", "events": "The text ends here."}
GOOD = ("all-done", "events")
MARKS = {"completed": "c", "RenewRep": "r", "FlushReq": "l", "WbReq": "l", "evicted": "e", "recalled": "e"}


def marks(run, step, before):
    """What a step is, for jumps: a completion, a stale hit, a renewal, a recall, an eviction."""
    first = step.answer.split(" ")[0]
    found = {MARKS.get(first, "")} | {MARKS.get(seen.split(" ")[0], "") for name, seen in step.view.items()
                                      if name[0] == "m" and name not in before}
    if first == "completed" and int(step.answer.split(" ")[-1]) in run.stale:
        found.add("s")
    if first == "completed" and int(step.answer.split(" ")[-1]) == wrong_record(run):
        found.add("w")
    return "".join(sorted(found))


def wrong_record(run):
    """The number of the first record that is wrong, or None."""
    found = re.search(r"\d+$", run.verdict)
    return found and int(found[0])


def sections():
    """By heading the text of docs/PROTOCOL.md's sections; none in a copy of the tools without docs."""
    path = PARTS.parent.parent / "docs/PROTOCOL.md"
    parts = re.split(r"(?m)^## (.*)\n", path.read_text(encoding="utf-8") if path.exists() else "")
    return {re.sub(r" \(.*", "", title): text.strip() for title, text in zip(parts[1::2], parts[2::2])}


class Places:
    """How far each core is in its program. A seed may draw an advance that no program has, so by a seed those of the
    program count as done once the operation after them is issued."""

    def __init__(self, run):
        self.programs, self.by_rounds = run.programs, run.options.schedule != "seed"
        self.at = [0] * len(run.programs)

    def after(self, step):
        what, *of = step.call.split(" ")
        if what not in ("issue", "advance", "attempt") or step.answer.startswith(("waiting", "refused")):
            return
        core = int(of[0])
        program = self.programs[core]
        if what == "advance" and not self.by_rounds:
            return
        while what == "issue" and program[self.at[core]] == ADVANCE:
            self.at[core] += 1
        if what == "advance" or step.answer.startswith("completed"):
            self.at[core] += 1


def changes(before, view):
    """What is new or other in a view, and None for what is gone."""
    told_now = {name: seen for name, seen in view.items() if before.get(name) != seen}
    return told_now | {name: None for name in before if name not in view}


def steps(run):
    """The events, each with its description, what changed, and what it is."""
    rules, places, before, waits = Rules(run), Places(run), run.opening, set()
    shown = dict(before)
    for number, step in enumerate(run.steps):
        said = rules.told(step, before)
        if note := run.notes.get(number):
            said = [f"{said[0]} ({note})", *said[1:]]
        places.after(step)
        if step.answer in ("started", "held"):
            waits.add(step.call.split(" ")[1])
        waits &= set(step.view)
        now = step.view | {f"waits {one}": 1 for one in waits}
        now |= {f"at {core}": at for core, at in enumerate(places.at)}
        yield [step.call, step.answer, *said, changes(shown, now), marks(run, step, before)]
        before, shown = step.view, now


def text_of(number):
    """A number of up to 64 bits, for JavaScript."""
    return None if number is None else str(number)


def data(run, options):
    subject = run.subject
    rules = Rules(run)
    records = [[one.core, one.kind, subject.name(one.word), *map(text_of, (one.value, one.received, one.time))]
               for one in run.records]
    past = {number: overwriting(run.records, run.records[number]).number for number in run.stale}
    return {"title": subject.kind, "how": how(options), "end": ENDS[run.end], "done": run.end in GOOD,
            "cores": cores_shown(run, options), "banks": options.banks, "words": options.line_words,
            "names": {line: [subject.name(int(line, 16) // 8 + place) for place in range(options.line_words)]
                      for line in run.lines()},
            "programs": [["advance" if step == ADVANCE else rules.operation(told.operation(step)) for step in steps]
                         for steps in run.programs],
            "opening": run.opening, "steps": list(steps(run)), "records": records, "arranged": run.arranged,
            "past": past, "verdict": run.verdict, "wrong": wrong_record(run), "question": question(run),
            "rules": {title: text for title, text in sections().items() if title in rules.sections()}}


def cores_shown(run, options):
    """Those that are named, or else those that have something to do."""
    busy = [core for core, steps in enumerate(run.programs) if steps]
    return busy if busy and options.cores is None else list(run.subject.chosen(options))


def how(options):
    by = {"round": "by fair rounds" if options.fair else "by rounds", "events": "events of a text"}
    words = [f"lease {options.lease}", by.get(options.schedule, f"seed {options.seed}")]
    words += ["private writes"] * options.private_write
    words += [f"lines of {options.line_words} words"] * (options.line_words > 1)
    return ", ".join(words)


def page(run, options, made_by):
    """The page's text."""
    parts = {name: (PARTS / name).read_text(encoding="utf-8") for name in ("page.html", "page.css", "page.js")}
    of = data(run, options) | {"made": made_by}
    text = json.dumps(of, separators=(",", ":")).replace("<", "\\u003c")
    return parts["page.html"].replace("{title}", html.escape(of["title"])).replace("{css}", parts["page.css"]) \
        .replace("{js}", parts["page.js"]).replace("{data}", text)


def main(given):
    words = Words(__doc__)
    words.run_options()
    words.player_option()
    options = words.parse_args(given)
    of_text = is_text(options.FILE)
    subject = Text(options.FILE) if of_text else Subject(options.FILE)
    subject.chosen(options)
    command, made_by = player_of(options)
    run = (PlayedText if of_text else Played)(Player(command), subject, options)
    sys.stdout.write(page(run, run.options, made_by))
    say_second("page.py", made_by, options, "played")
    is_good = run.end in GOOD
    if not is_good:
        print(f"page.py: {options.FILE}: {ENDS[run.end]}", file=sys.stderr)
    if run.verdict != "legal":
        print(f"page.py: {options.FILE}: by timestamp the history is wrong: {run.verdict}", file=sys.stderr)
    return int(not is_good or run.verdict != "legal")


if __name__ == "__main__":
    tool(main)
