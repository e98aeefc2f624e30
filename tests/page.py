#!/usr/bin/env python3
"""Opens pages of tools/page.py in a browser, and compares them with what the player says: tests/page.py PLAYER

The script steps ten runs to their end and back by keys. At ten places of each and more, it compares the page with the
records and look-ups that PLAYER, a built play_events, answers to texts that were written by hand here, and at each
event the part that is marked as acting. What the page says of an event of each kind is in page.table, by hand, too. The
script tries the slider, the jumps, great numbers and what is refused, and prints the time that a key takes in a page of
thousands of events. It compares a litmus test's question, registers and verdict with the test and its report. A changed
rule's history must be marked as wrong. Nothing may be cut from 360 pixels on. What the mouse does, what comes by
itself and what is rare is in used_pages.py. If no Chromium is installed, it says so, and tries only what needs none.

    tests/page.py PLAYER --pictures FOLDER    writes the pictures of README.md, docs/TUTORIAL.md and docs/TEACHING.md into
                                              FOLDER, too
    tests/page.py PLAYER --coverage           says which blocks of tools/shown/page.js no page ran, but for those of
                                              tests/covered.table (tests/page_coverage.py)
"""
import json
import re
import subprocess
import sys
import tempfile
from pathlib import Path

TOP = Path(__file__).resolve().parent.parent
sys.path.insert(0, str(TOP))
from tests.browser import Browser, installed  # noqa: E402
from tests.page_coverage import Watched  # noqa: E402
from tests.used_pages import used  # noqa: E402
from tests.written_pages import (braces, counted, data_of, great_times, made_trace, questions,  # noqa: E402
                                 refusals, written)


TABLE = Path(__file__).with_suffix(".table")
PLACES, MOST_BYTES = 10, 4_000_000

# The words of tools/page.py; the same machine, programs and drive as lines for the player; names of words.
CASES = {
    "a first store": (["examples/traces/FIRST-STORE.trace"], "machine cores 1", ["W 0x0 1"], "rounds 100", {}),
    "the past": (["--lease", "3", "examples/traces/PAST.trace"], "machine cores 2 lease 3",
                 ["R 0x8; W 0x0 7", "R 0x0; R 0x10; R 0x0; 4 A; R 0x0"], "rounds 100", {}),
    "advances": (["--lease", "4", "examples/traces/ADVANCES-PAST-A-WRITE.trace"], "machine cores 2 lease 4",
                 ["R 0x0; R 0x8; R 0x18; R 0x20; R 0x0; 5 A; R 0x0", "R 0x10; W 0x0 5"], "rounds 100", {}),
    "a lock by swaps": (["examples/litmus/LOCK.litmus"], "machine cores 3", ["S 0x0 1"] * 3, "rounds 100",
                        {"0x0": "lock"}),
    "IRIW by a seed": (["--schedule", "seed", "--seed", "7", "examples/litmus/IRIW.litmus"], "machine cores 4",
                       ["W 0x0 1", "R 0x0; R 0x8", "W 0x8 1", "R 0x8; R 0x0"], "seed 7 1000",
                       {"0x0": "x", "0x8": "y"}),
    "false sharing": (["--line-words", "8", "examples/traces/FALSE-SHARING.trace"], "machine cores 2 line-words 8",
                      ["W 0x0 1; W 0x0 2; R 0x0; W 0x0 3; R 0x8", "W 0x8 1; W 0x8 2; R 0x8; W 0x8 3; R 0x0"],
                      "rounds 100", {}),
    "private writes": (["--private-write", "examples/litmus/PRIVATE.litmus"], "machine cores 2 private-write yes",
                       ["R 0x0; 11 W 0x8 1; R 0x0", "R 0x10; W 0x0 1"], "rounds 100",
                       {"0x0": "x", "0x8": "y", "0x10": "z"}),
    "a renewal": (["examples/litmus/RENEW.litmus"], "machine cores 2 with 0x0 4",
                  ["R 0x0; R 0x8; W 0x8 9; R 0x0", "R 0x0; R 0x8"], "rounds 100", {"0x0": "x", "0x8": "y"}),
    "fair rounds": (["--fair", "--bank-sets", "1", "--bank-ways", "1", "examples/traces/LIVELOCK.trace"],
                    "machine cores 3 bank-sets 1 bank-ways 1", ["R 0x0", "R 0x8", "R 0x0"], "fair-rounds 100", {}),
    "evictions": (["--schedule", "seed", "--seed", "3", "--sets", "1", "--ways", "1", "--banks", "2", "--bank-sets",
                   "1", "--bank-ways", "1", "examples/traces/SEED-EVICTIONS.trace"],
                  "machine cores 3 sets 1 ways 1 banks 2 bank-sets 1 bank-ways 1",
                  ["W 0x0 1; R 0x8; R 0x10", "W 0x18 2; R 0x0; S 0x10 3", "R 0x18; R 0x20"], "seed 3 1000", {}),
}
COPY = r"(shared|exclusive) (?:written )?wts (\d+) rts (\d+) words (.*)"
ENTRY = r"shared (dirty )?wts (\d+) rts (\d+) words (.*)"

# What stands in the page. A message: its text, where it stands, whither its arrow points. A record: its number, its
# rank, its text, how far down the middles of its boxes are, and from where to where its tie goes.
SEEN = """(() => {
  const texts = (all, of) => [...document.querySelectorAll(all)].map(of);
  const text = one => one.textContent.replace(/\\s+/g, " ").trim();
  const named = (all, of) => Object.fromEntries(texts(all, one => [one.dataset.name, of(one)]));
  const place = one => one.closest(".row") ? one.closest(".row").querySelector(".core").id : one.closest(".bank").id;
  const head = one => one.getAttribute("d").match(/[0-9.]+/g).map(Number);
  const points = one => head(one)[2] > head(one)[0] ? "right" : "left";
  const middle = one => one.transform.baseVal[0].matrix.f + one.querySelector(".box").height.baseVal.value / 2;
  const tie = (one, long) => one.getPointAtLength(long ? one.getTotalLength() : 0).y;
  return JSON.stringify({
    count: document.getElementById("count").textContent,
    said: ["what", "why"].map(id => text(document.getElementById(id))),
    times: texts(".core .time", text),
    memory: texts(".bank h3", text),
    dram: texts(".dram", text),
    steps: texts(".core", one => [...one.querySelectorAll("li")].map(step => [text(step), step.className])),
    copies: named(".copy", text),
    entries: named(".entry", text),
    messages: named(".message", one => [text(one), place(one), points(one.querySelector(".arrow path:last-child"))]),
    past: texts("#ties > g.past", one => Number(one.dataset.number)),
    records: texts("#ties > g", one => [Number(one.dataset.number), Number(one.dataset.rank), text(one),
      [...one.querySelectorAll(":scope > g")].map(middle), [0, 1].map(end => tie(one.querySelector(".tie"), end))]),
  });
})()"""

# The parts that are marked as the one at which the last event was made.
ACTING = "[...document.querySelectorAll('.now')].map(one => one.id).join()"

# The time that the slowest key takes, with its layout. Of the presses of a key the fastest counts: beside other work a
# press may take longer.
TIMED = """Math.max(...["ArrowRight", "ArrowLeft", "c", "End", "Home"].map(key =>
  Math.min(...[...Array(10).keys()].map(part => {
    go(Math.floor(run.steps.length * (part + 1) / 12));
    const start = performance.now();
    document.dispatchEvent(new KeyboardEvent("keydown", {key}));
    document.body.offsetHeight;
    return performance.now() - start;
  }))))"""


def ask(player, calls):
    """The answers to calls."""
    text = "".join(f"{line}\n" for line in ["example a page", *calls])
    ran = subprocess.run([player, "-"], input=text, capture_output=True, text=True, check=True)
    return [line.split(" : ", 1)[1] for line in ran.stdout.splitlines()[:len(calls)]]


def sentences():
    """By case and event, the headline and the rule with its section: those of page.table."""
    of, case = {}, None
    text = "".join(line for line in TABLE.read_text().splitlines(True) if line[0] != "#").replace("\n  ", "\t")
    for line in text.splitlines():
        what, *why = line.split("\t")
        number, _, what = what.partition(" ")
        if why:
            of[case][int(number)] = [what, f"{' '.join(why[:-1])} docs/PROTOCOL.md, {why[-1]}"]
        else:
            case, of[line] = line, {}
    return of


def wanted(player, case, more):
    """The events, and by ten places from 0 to the last event, and those of `more`, what the player says there is."""
    _, machine, programs, drive, names = case
    calls = [machine, *(f"program {core} {steps}" for core, steps in enumerate(programs)), drive, "made 5000"]
    events = ask(player, calls)[-1].split("; ")
    cores, banks = range(len(programs)), size_of(machine, "banks")
    looks = [*(f"time {core}" for core in cores), *(f"copies {core}" for core in cores), "stale",
             *(f"memory-time {bank}" for bank in range(banks)), "flight", "records", "arranged"]
    for line in names or lines_of(events, machine):
        bank = int(line, 16) // 8 // size_of(machine, "line-words") % banks
        looks += [f"entry {bank} {line}", f"dram {bank} {line}"]
    places = {len(events) * part // (PLACES - 1) for part in range(PLACES)} | set(more)
    told = looked(player, machine, events, {number: looks for number in places})
    named = looked(player, machine, events, {number: list(names_in(there)) for number, there in told.items()})
    return events, {number: there | named[number] for number, there in told.items()}


def size_of(machine, name):
    """How many a machine's line says; one if it says nothing."""
    words = machine.split(" ")
    return int(words[words.index(name) + 1]) if name in words else 1


def names_in(told):
    """The look-ups at what was named: copies, messages, records."""
    for look, answer in told.items():
        if look.startswith("copies") and answer != "none":
            yield from (f"copy {look.split(' ')[1]} {line}" for line in answer.split(" "))
        elif look == "flight" and answer != "none":
            yield from (f"message {name}" for name in answer.split(" "))
        elif look == "records":
            yield from (f"record {number}" for number in range(int(answer)))


def looked(player, machine, events, looks):
    """By place the answers to its look-ups; a place is how many events are made."""
    calls, of = [machine], {}
    for number in range(len(events) + 1):
        for look in looks.get(number, []):
            of[len(calls)] = number, look
            calls.append(look)
        calls += events[number:number + 1]
    came, told = ask(player, calls), {number: {} for number in looks}
    for at, (number, look) in of.items():
        told[number][look] = came[at]
    return told


def parts_acting(player, machine, events):
    """By how many events are made, the part that the last one was at: a delivery is at the message's receiver."""
    names = {number: event.split(" ")[1] for number, event in enumerate(events) if event.startswith("deliver")}
    told = looked(player, machine, events, {number: [f"message {name}"] for number, name in names.items()})
    parts = [""]
    for number, event in enumerate(events):
        what, *of = event.split(" ")
        seat = of[:2] if what == "evict" else ["core", of[0]]
        part = told[number][f"message {of[0]}"].split(" ")[4:6] if number in names else seat
        parts.append("-".join(part).replace("dram", "bank"))  # a bank is shown with its DRAM
    return parts


def lines_of(events, machine):
    """The lines of the operations that are issued."""
    words = sorted({int(event.split(" ")[3], 16) for event in events if event.startswith("issue")})
    size = 8 * size_of(machine, "line-words")
    return list(dict.fromkeys(f"{word // size * size:#x}" for word in words))


class Compared:
    """Compares one page with what a place must have. `faults` has what differs."""

    def __init__(self, case):
        _, self.machine, programs, self.drive, self.names = case
        self.banks = size_of(self.machine, "banks")
        self.programs, self.faults = [self.steps(program) for program in programs], []

    def same(self, what, came, wanted_of):
        if came != wanted_of:
            self.faults.append(f"{what}: {came!r}, wanted {wanted_of!r}")

    def steps(self, program):
        """A program's steps one by one."""
        of = []
        for step in program.split("; "):
            count, _, one = step.partition(" ") if step[0].isdigit() else ("1", "", step)
            of += [one] * int(count)
        return of

    def values(self, line, words):
        """The words of a line by their names; of a wide line, those that the trace names: the first two."""
        is_wide = size_of(self.machine, "line-words") > 1
        named = [f"{8 * place:#x}" for place in range(2)] if is_wide else [line]
        return ", ".join(f"{self.names.get(name, name)} = {value}" for name, value in zip(named, words.split(" ")))

    def place(self, seen, told, made):
        cores = range(len(self.programs))
        self.same("times", seen["times"], [f"time {told[f'time {core}']}" for core in cores])
        self.same("copies", seen["copies"], {look: self.copy(look, answer, told) for look, answer in told.items()
                                             if look.startswith("copy ")})
        self.same("entries", seen["entries"], {f"entry {look.split(' ')[2]}": self.entry(look, answer)
                                               for look, answer in told.items()
                                               if look.startswith("entry") and answer != "none"})
        flight = {look.split(" ")[1]: answer for look, answer in told.items() if look.startswith("message")}
        self.same("messages", sorted(seen["messages"]), sorted(flight))
        for name, answer in flight.items():
            self.message(seen["messages"].get(name, ["", "", ""]), answer)
        self.memory(seen, told)
        self.records(seen["records"], told)
        self.same("red ones", len(seen["past"]), int(told["stale"]))
        for core in cores:
            self.program(core, seen, told, made)

    def memory(self, seen, told):
        """The banks' memory times and their DRAMs."""
        banks = range(self.banks)
        self.same("memory times", seen["memory"], [f"memory time {told[f'memory-time {bank}']}" for bank in banks])
        self.same("DRAM", seen["dram"], ["DRAM " + ", ".join(
            self.values(look.split(" ")[2], answer) for look, answer in told.items()
            if look.startswith(f"dram {bank} ")) for bank in banks])

    def program(self, core, seen, told, made):
        """The marks of the steps. What is shown is a part of the program with the next step in it; by a seed no program
        here has advances."""
        records = sorted((answer.split(" ") for look, answer in told.items() if look.startswith("record ")
                          and answer.startswith(f"{core} ")), key=lambda words: int(words[-1]))
        done = len(records) + made.count(f"advance {core}") * ("rounds" in self.drive)
        texts, received = [], iter(records)
        for number, step in enumerate(self.programs[core]):
            record = next(received, None) if step != "A" and number < done else None
            text = "advance" if step == "A" else self.said(step.split(" "), record)
            mark = "next" if number == done else "done" if number < done else ""
            texts.append([text, f"{mark} past" if record and int(record[-1]) in seen["past"] else mark])
        shown = seen["steps"][core]
        parts = [texts[at:at + len(shown)] for at in range(len(texts) - len(shown) + 1)]
        is_there = shown in parts and (done == len(texts) or "next" in [mark for _, mark in shown])
        if not is_there or len(shown) < min(2, len(texts)):
            self.faults.append(f"core {core}'s program: {shown}, wanted a part of {texts}")

    def said(self, step, record):
        """An operation as a program or a box shows it: followed by what it received."""
        letter, word, value = [*step, ""][:3]
        name = self.names.get(word, word)
        text = {"R": f"load {name}", "W": f"store {value} to {name}", "S": f"swap {value} into {name}"}[letter]
        return text if record is None or letter == "W" else f"{text} → {record[-3]}"

    def copy(self, look, answer, told):
        core, line = look.split(" ")[1:]
        state, wts, rts, words = re.fullmatch(COPY, answer).groups()
        ended = int(told[f"time {core}"]) > int(rts)
        says = "own" if state == "exclusive" else "ended" if ended else "read"
        return f"{self.values(line, words)} {says} {wts}..{rts}"

    def entry(self, look, answer):
        line, state = look.split(" ")[2], answer.split(" ")[0]
        if state == "shared":
            dirty, wts, rts, words = re.fullmatch(ENTRY, answer).groups()
            return f"{self.values(line, words)}{dirty or ''}{wts}..{rts}"
        owner = answer.split(" ")[-1]
        says = {"exclusive": f"core {owner} owns it", "recalling": f"core {owner} is asked"}.get(state, state)
        return self.names.get(line, line) + says

    def message(self, seen, answer):
        """A message's text, with an arrow before it if it is one of DRAM; the core next to which, or the bank in which
        it is shown; and the arrow's head: the cores are on the left, and the bank on the right."""
        kind, sender, from_number, _, receiver, to_number, line, *carried = answer.split(" ")
        text, place, points = seen
        sign = {"bank": "↓ ", "dram": "↑ "}[sender] if "dram" in (sender, receiver) else ""
        for part in (f"{kind} {self.names.get(line, line)}", " ".join(carried)):
            if part not in text or not text.startswith(sign + kind):
                self.faults.append(f"a message says {text!r}, and not {sign + part!r}")
        core = from_number if sender == "core" else to_number if receiver == "core" else None
        self.same(f"the place of {answer}", place, f"bank-{from_number}" if core is None else f"core-{core}")
        if core is not None:
            self.same(f"the arrow of {answer}", points, "right" if sender == "core" else "left")

    def records(self, seen, told):
        arranged = [] if told["arranged"] == "none" else list(map(int, told["arranged"].split(" ")))
        self.same("order by time", [number for number, *_ in sorted(seen, key=lambda one: one[1])], arranged)
        rows = sorted(middles[0] for *_, middles, _ in seen)
        for number, _, text, middles, tie in seen:
            core, _, *step, time, _ = words = told[f"record {number}"].split(" ")
            own = f"core {core} {self.said(step, words)}"
            self.same(f"record {number}", text, f"{own} {number} {own} time {time}")
            ends = [rows[number], rows[arranged.index(number)]]
            self.same(f"the boxes of record {number}", middles, ends)
            if any(abs(end - row) > .5 for end, row in zip(tie, ends)):
                self.faults.append(f"the tie of record {number}: {tie}, wanted {ends}")


def seen(browser):
    return json.loads(browser.value(SEEN))


def stepped(browser, path, player, case, says):
    """Steps through a page by keys, to the end and back, and compares its places each way."""
    events, told = wanted(player, case, says)
    parts = parts_acting(player, case[1], events)
    compared = Compared(case)
    browser.open(path)
    for way, key in ((range(len(events) + 1), "ArrowDown"), (range(len(events), -1, -1), "ArrowUp")):
        for number in way:
            if number in told:
                page = seen(browser)
                compared.same("place", page["count"], f"event {number} of {len(events)}")
                compared.place(page, told[number], events[:number])
                compared.same(f"event {number}", page["said"], says.get(number, page["said"]))
            compared.same(f"who acts in event {number}", browser.value(ACTING), parts[number])
            browser.press(key)
    return compared.faults


def tried(browser, path, says):
    """Jumps, the end keys and the slider, on the page of the stale hit."""
    compared = Compared(CASES["the past"])
    browser.open(path)
    at = lambda: browser.value("at")  # noqa: E731
    browser.press("s")
    stale = at()
    compared.same("stale hit", seen(browser)["said"], says.get(stale))
    browser.press("C", shift=True)
    compared.same("back to a completion", browser.value("run.steps[at - 1][1]").split(" ")[0], "completed")
    browser.press("s")
    compared.same("the stale hit again", at(), stale)
    for key, place in (("End", "run.steps.length"), ("Home", "0")):
        browser.press(key)
        compared.same(key, at(), browser.value(place))
    box = json.loads(browser.value("JSON.stringify(document.getElementById('slider').getBoundingClientRect())"))
    for kind in ("mousePressed", "mouseReleased"):
        browser.call("Input.dispatchMouseEvent", type=kind, x=box["x"] + box["width"] / 2,
                     y=box["y"] + box["height"] / 2, button="left", clickCount=1)
    compared.same("the slider's middle", at(), browser.value("run.steps.length / 2"))
    browser.press("Home")
    last, most = browser.value("run.steps.length"), 0
    while (before := at()) < last:
        browser.press("ArrowRight")
        over = at() - before - 1
        compared.same("what is said of events passed over", browser.value("document.getElementById('passed').textContent"),
                      f"({over} passed over that changed nothing)" if over else "")
        most = max(most, over)
    compared.same("some events are passed over", most > 0, True)
    for key, of, wanted in ((" ", "[at < run.steps.length, document.getElementById('play').textContent].join()",
                             ("true,pause", "true,play")),
                            ("d", "document.documentElement.classList.contains('dark')", (True, False))):
        for after in wanted:
            browser.press(key)
            compared.same(f"after {key!r}", browser.value(of), after)
    return compared.faults


# Texts that are hard to read: their contrast with what is behind them is below 4.5 to 1.
FAINT = """(() => {
  const parts = text => text.match(/[0-9.]+/g).map(Number);
  const light = color => color.slice(0, 3).map(one => one / 255).map(one => one <= .03928 ? one / 12.92 :
    ((one + .055) / 1.055) ** 2.4).reduce((sum, one, place) => sum + one * [.2126, .7152, .0722][place], 0);
  const ground = one => parts(getComputedStyle(one).backgroundColor);
  const behind = one => one.parentElement && ground(one)[3] === 0 ? behind(one.parentElement) : ground(one);
  const contrast = one => {
    const [low, high] = [parts(getComputedStyle(one).color), behind(one)].map(light).sort((a, b) => a - b);
    return (high + .05) / (low + .05);
  };
  return [...document.querySelectorAll("body *")].filter(one => one.offsetParent && !one.disabled
    && !one.matches(".behind") && [...one.childNodes].some(node => node.nodeType === 3 && node.textContent.trim())
    && contrast(one) < 4.5).map(one => one.textContent.trim()).join("; ");
})()"""
MOVING = """[...document.querySelectorAll("*")].map(one => getComputedStyle(one)).filter(style =>
  style.transitionDuration !== "0s" || style.animationName !== "none" || style.scrollBehavior !== "auto").length"""


def accessible(browser, path):
    """Contrast in light and in dark; that nothing moves by itself; and the names that a screen reader has."""
    compared = Compared(CASES["the past"])
    for dark in (False, True):
        browser.open(path, dark=dark)
        for key in ("s", "q", "End"):
            browser.press(key)
            compared.same(f"faint, {'dark' if dark else 'light'}, {key}", browser.value(FAINT), "")
    compared.same("what moves", browser.value(MOVING), 0)
    nodes = browser.call("Accessibility.getFullAXTree")["nodes"]
    named = {role: [node["name"]["value"] for node in nodes if node.get("role", {}).get("value") == role]
             for role in ("button", "slider", "image", "region")}
    compared.same("what is named", {role: len(names) for role, names in named.items()},
                  {"button": 10, "slider": 1, "image": 1, "region": 2})  # none to a stale hit in a quiz
    compared.same("what has no name", [role for role, names in named.items() if not all(names)], [])
    return compared.faults


def quizzed(browser, path):
    """A quiz on the page of the stale hit: by rounds core 0's load of 0x8 completes first, then core 1's loads, and
    between them core 0's store, which isn't asked."""
    compared = Compared(CASES["the past"])
    browser.open(path)
    what = lambda: browser.value("document.getElementById('what').textContent")  # noqa: E731
    loads = [(0, "0x8", 0), (1, "0x0", 1), (1, "0x10", 3), (1, "0x0", 4), (1, "0x0", 5)]  # and how many are completed
    to_last = """(slider => {
      slider.value = slider.max;
      slider.oninput({target: slider});
    })(document.getElementById("slider"))"""
    browser.press("q")
    for key in ("c", "ArrowRight", "ArrowDown", "End", to_last):
        press = browser.value if key == to_last else browser.press
        browser.press("Home")
        asked = []
        while browser.value("at < run.steps.length && find('c', 1) !== null"):
            press(key)
            if browser.value("isAsked"):
                asked.append([what(), browser.value("counts[at]")])
                compared.same("the slider", *(browser.value(of) for of in ("Number(slider.value)", "at")))
                press(key)
                compared.same("the outcome", browser.value("[counts[at], run.steps[at - 1][1].split(' ')[0]].join()"),
                              f"{asked[-1][1] + 1},completed")
        compared.same("what is asked", asked, [[f"What does core {core}'s load of {word} return?", before]
                                               for core, word, before in loads])
    browser.press("q")
    browser.press("Home")
    browser.press("c")
    compared.same("no quiz", browser.value("[counts[at], isAsked].join()"), "1,false")
    return compared.faults


def cut(browser):
    """What is wider than its place, or lies outside the window; in the orders, outside its box."""
    return browser.value("""[...document.querySelectorAll("h2, .copy, .entry, .message b, #what, #count, nav button, "
          + "#question, #heads p, .registers, li .said, .copy .said, .dram span, #ties .order")]
        .filter(one => one.scrollWidth > one.clientWidth + 1 && one.clientWidth || one.getBoundingClientRect().right
          > innerWidth + 1 || /said/.test(one.className) && one.getBoundingClientRect().right
          > one.closest("li, b").getBoundingClientRect().right + 1)
        .concat([...document.querySelectorAll("#ties g g")].filter(one =>
          one.querySelector("text:not(.who):not(.order)").getBoundingClientRect().right
          > one.querySelector(".box").getBoundingClientRect().right))
        .map(one => one.textContent.trim()).join(", ")""")


# How many pixels of the cores are below the window, at the worst event.
BELOW = """Math.max(...[...Array(run.steps.length + 1).keys()].map(at => {
  go(at);
  const bottom = of => document.querySelector(of).getBoundingClientRect().bottom;
  return Math.max(bottom(".row:last-child"), bottom(".bank:last-child")) - bottom("#parts");
}))"""
LINES = """(one => Math.round(one.getBoundingClientRect().height / parseFloat(getComputedStyle(one).lineHeight)))(
  document.getElementById("answer"))"""
SIZES = ((360, 740), (390, 844), (770, 1000), (1024, 768), (1280, 720), (1920, 1080))


def asked(browser, folder):
    """The question on its page, the keys, the address, the rule's paragraph, a wrong record, narrow windows."""
    compared = Compared(CASES["the past"])
    text = lambda of: " ".join(browser.value(f"document.querySelector('{of}').textContent").split())  # noqa: E731
    rows = lambda: json.loads(browser.value(  # noqa: E731
        "JSON.stringify([...document.querySelectorAll('.registers')].map(one => one.textContent))"))
    browser.open(folder / "SB.html")
    compared.same("the condition", text("#condition"), "exists (0:x7=0 /\\ 1:x7=0)")
    compared.same("no answer yet", [text("#answer"), rows()], ["", ["x7", "x7"]])
    filled = """[...Array(run.steps.length + 1).keys()].map(place => {
  go(place);
  return counts[at] + ":" + [...document.querySelectorAll(".registers")].filter(one => one.textContent.includes("=")).length;
}).filter((one, place, all) => one !== all[place - 1]).join()"""
    compared.same("registers by completions", browser.value(filled), "0:0,1:0,2:0,3:1,4:2")  # both stores, both loads
    browser.press("Home")
    heads = [" ".join(browser.value(f"document.querySelector('#core-{core} h2').innerText").split()) for core in (0, 1)]
    compared.same("whose thread", heads, ["core 0 runs P0 time 0", "core 1 runs P1 time 0"])
    browser.press("End")
    compared.same("the answer", text("#answer"), "0:x7=1 1:x7=1: not the end asked for; verdict no")
    compared.same("the answer's lines", browser.value(LINES), 1)
    compared.same("the registers", rows(), ["x7 = 1", "x7 = 1"])
    compared.same("the address", browser.value("location.hash"), f"#{browser.value('at')}")
    browser.press("?")
    keys = text("#keys")
    listed = ("right, left", "space", "stale hit", "quiz", "? ")
    compared.same("the keys", [key for key in listed if key in keys], [*listed])
    browser.press("p")
    compared.same("one panel", browser.value("[...document.querySelectorAll('.over')].map(one => one.hidden).join()"),
                  "false,true")
    paragraph = browser.value("document.getElementById('rule').textContent")
    section = (TOP / "docs/PROTOCOL.md").read_text().split("## A core", 1)[1].split("\n", 1)[1].split("\n## ")[0]
    compared.same("the rule", paragraph, f"docs/PROTOCOL.md, A core\n\n{section.strip()}")
    browser.press("Escape")
    compared.same("no panel", browser.value("document.querySelectorAll('.over:not([hidden])').length"), 0)
    browser.open(folder / "wrong.html")
    compared.same("the heading", text("#by-time"), "By timestampoperation 1 is wrong here")
    compared.same("the end", text("#end"), "All operations are done. By timestamp the run is not legal: wrong value 1.")
    browser.press("w")
    compared.same("the wrong record", browser.value("run.steps[at - 1][1]"), "completed 1 0 R 0x0 0 1 1")
    place = browser.value("at")
    browser.press("Home")
    browser.open(f"{folder / 'wrong.html'}#wrong")
    compared.same("a link to it", browser.value("at"), place)
    compared.same("its mark", browser.value("document.querySelector('#ties > .wrong').dataset.number"), "1")
    return compared.faults


def narrow(browser, folder):
    """What is cut or small in windows of six sizes; of four and of eight cores, what is below the window of a
    projector at some event."""
    for name in ("IRIW", "ring", "eight"):
        browser.open(f"{folder / name}.html", 1280, 720)
        below = browser.value(BELOW)
        if below > 1:
            yield f"{name}: {below} pixels are below"
    for name in ("SB", "LOCK", "names", "wrong", "events", "ring", "eight"):
        for size in SIZES[4 * (name in ("ring", "eight")):]:
            browser.open(f"{folder / name}.html", *size)
            for at in ("run.steps.length >> 1", "run.steps.length"):
                browser.value(f"go({at})")
                fault = cut(browser)
                if browser.value("scrollY"):
                    yield f"{name} at {size}: the page itself has moved"
                small = browser.value("Math.min(...[...document.querySelectorAll('#ties g g text:not(.who):not(.order)')]"
                                      ".map(one => parseFloat(one.style.fontSize) / size.unit))")
                least = (11 if size[0] > 1000 else 9) - 2 * (name == "names")
                if small is not None and small < least:
                    yield f"{name} at {size}: letters of {small} pixels"
                if fault or browser.value("document.documentElement.scrollWidth > innerWidth"):
                    yield f"{name} at {size}: {fault} is cut"


# By page and key, the headlines of the events to which the key jumps one after the other. By hand: the caches and the
# bank of `evicted` have one place each, so 0x0 must leave before 0x8 comes, and 0x8 before 0x0 comes back. In LOCK,
# core 0 swaps first, and the others want the line in turn. In RENEW, core 0's own store brought it past its lease of x.
JUMPED = {("evicted", "e"): ["The bank asks core 0 to give 0x0 up", "0x0 leaves the bank", "0x8 leaves core 1's cache",
                             "0x8 leaves the bank"],
          ("evicted", "l"): ["The bank asks core 0 to give 0x0 up"],
          ("LOCK", "l"): ["The bank asks core 0 to give lock up", "The bank asks core 1 to give lock up"],
          ("RENEW", "r"): ["The bank renews core 0's lease of x, up to time 21"],
          ("RENEW", "l"): []}


def jumped(browser, player, folder):
    """Where the keys of renewals, recalls and evictions go, from the first event on, and with shift from the last."""
    (folder / "evicted.trace").write_text("0 W 0x0 1\n1 R 0x8\n1 R 0x0\n")
    written(player, [*"--sets 1 --ways 1 --bank-sets 1 --bank-ways 1".split(), str(folder / "evicted.trace")],
            folder / "evicted.html")
    for (name, key), wanted_of in JUMPED.items():
        browser.open(folder / f"{name}.html")
        for shift, first, listed in ((False, "Home", wanted_of), (True, "End", wanted_of[::-1])):
            browser.press(first)
            came, before = [], browser.value("at")
            while browser.press(key.upper() if shift else key, shift) or browser.value("at") != before:
                came.append(browser.value("document.getElementById('what').textContent"))
                before = browser.value("at")
            if came != listed:
                yield f"{name}, {key} from {first}: {came}, wanted {listed}"


# What the first line says of a run's options.
HOWS = {"the past": "lease 3, by rounds", "IRIW by a seed": "lease 10, seed 7",
        "false sharing": "lease 10, by rounds, lines of 8 words",
        "private writes": "lease 10, by rounds, private writes", "fair rounds": "lease 10, by fair rounds"}


BRIEF = {9: {"times": ["time …1600"], "memory": ["memory time …1600"],
             "entries": {"entry 0x0": "0x0 = 0…1600..…1600"}},
         11: {"messages": {"m3": "ExRep 0x0 wts …1600 rts …1600 words 0"}},
         14: {"times": ["time …1601"], "copies": {"copy 0 0x0": "0x0 = 18446744073709551557 own …1601..…1601"}},
         31: {"times": ["time …1601"]}, 32: {"times": ["time …1602"]}}
BRIEF_BOXES = ["core 0 store …1557 to 0x0 time …1601", "core 0 load 0x0 → …1557 time …1601",
               "core 0 store 123456789 to 0x8 time …1601", "core 0 swap …7890 into 0x8 → 123456789 time …1602"]
# The boxes by timestamp, without what a pointer over them shows.
BOXES = """[...document.querySelectorAll("#ties > g > g:last-child > text")].map(one =>
  [...one.childNodes].filter(node => node.nodeName !== "title").map(node => node.textContent).join("")).join(" ")"""


def shortened(browser, folder):
    """What the page shows of great numbers."""
    compared = Compared(CASES["a first store"])
    browser.open(folder / "great.html")
    for event, wanted_of in BRIEF.items():
        browser.value(f"go({event})")
        page = seen(browser)
        page["messages"] = {name: text for name, (text, *_) in page["messages"].items()}
        compared.same(f"great numbers at event {event}", {name: page[name] for name in wanted_of}, wanted_of)
    compared.same("great numbers in boxes", browser.value(BOXES), " ".join(BRIEF_BOXES))
    return compared.faults


def in_browser(browser, player, pages, folder):
    says = sentences()
    for name, case in CASES.items():
        yield from (f"{name}: {fault}" for fault in stepped(browser, pages[name], player, case, says.get(name, {})))
        for size in ((1280, 720), (1920, 1080)):
            for at in ("run.steps.length >> 1", "run.steps.length"):
                browser.open(pages[name], *size)
                browser.value(f"go({at})")
                yield from [f"{name} at {size}: {fault} is cut" for fault in [cut(browser)] if fault]
    yield from tried(browser, pages["the past"], says["the past"])
    yield from quizzed(browser, pages["the past"])
    yield from accessible(browser, pages["the past"])
    yield from asked(browser, folder)
    yield from narrow(browser, folder)
    yield from jumped(browser, player, folder)
    yield from shortened(browser, folder)
    yield from used(Compared(CASES["the past"]), browser, player, pages["the past"])
    browser.open(f"{folder / 'long.html'}#3000")
    yield from [f"the long page: {fault} is cut" for fault in [cut(browser)] if fault]
    took = browser.value(TIMED)
    events = browser.value("run.steps.length")
    print(f"a key takes {took:.0f} ms in a page of {events} events; on a calm machine at most 50 are wanted")


def main(given):
    is_watched = given[1:] == ["--coverage"]
    if len(given) not in (1, 3) and not is_watched or given[0] in ("-h", "--help"):
        return print(__doc__)
    player, faults = str(Path(given[0]).resolve()), []
    with tempfile.TemporaryDirectory() as name:
        folder = Path(name)
        pages = {name: folder / f"{place}.html" for place, name in enumerate(CASES)}
        # Many enough for some 4,000 events.
        (folder / "long.trace").write_text(made_trace(4, 6, 640))
        for path, words in [*((pages[name], CASES[name][0]) for name in CASES),
                            (folder / "long.html", [str(folder / "long.trace")])]:
            status, said = written(player, words, path)
            faults += [f"{words[-1]}: status {status}, {said}"] if status else []
            faults += [f"{words[-1]}: more than 4 MB"] if path.stat().st_size > MOST_BYTES else []
        faults += refusals(player, folder)
        faults += questions(player, folder)
        faults += braces(player, folder)
        faults += counted(player, folder)
        faults += great_times(player, folder)
        faults += [f"{name}: {data_of(pages[name])['how']}, wanted {how}" for name, how in HOWS.items()
                   if data_of(pages[name])["how"] != how]
        if installed():
            browser = (Watched if is_watched else Browser)(installed())
            faults += in_browser(browser, player, pages, folder)
            if given[1:2] == ["--pictures"]:
                browser.open(f"{pages['the past']}#stale")
                (Path(given[2]) / "page.png").write_bytes(browser.picture())
                browser.open(f"{folder / 'events.html'}#wrong", 1280, 520)
                (Path(given[2]) / "wrong.png").write_bytes(browser.picture())
            browser.close()
        else:
            print("page.py: no Chromium is installed (Debian's package chromium), so that no page was opened")
    shows = "show what the player says" if installed() else "are written"
    print("\n".join(faults) or f"{len(CASES)} pages {shows}")
    left = browser.judged() if is_watched and installed() else 0
    return int(bool(faults or left))


if __name__ == "__main__":
    sys.exit(main(sys.argv[1:]))
