#!/usr/bin/env python3
"""Tries tools that have an inverse or a second form on inputs that are made up: tests/inverses.py PROGRAM

 - tools/advance.py: without the advances that it added, the trace is as before.
 - tools/number.py: a history that was split by core and interleaved anew is again in the order of its times.
 - tools/merge.py, tools/seeds.py: the joined parts of a range of seeds are the report of the whole range.
 - tools/from_herd.py: a test in herd7's words has the ends of the test that was meant, and stays as it is from then on.
 - tools/chart.py, steps.py, timeline.py: they show the same events of a run.

What must come out is known from how the input was made, or comes from the second program (reference/) or PROGRAM. The
inputs are drawn by Debian's python3-hypothesis, which makes one that fails as small as it can. If this Python lacks it,
/usr/bin/python3 is tried; if that lacks it, too, Python's own generator draws them. Each start draws the same inputs.
The last line is `N tried, M wrong`.
"""
import contextlib
import io
import json
import os
import random
import re
import subprocess
import sys
import tempfile
import xml.etree.ElementTree as xml
from collections import Counter
from decimal import Decimal
from hashlib import sha256
from pathlib import Path
from types import SimpleNamespace
from typing import NamedTuple

try:
    import hypothesis
    from hypothesis import strategies
except ImportError:
    hypothesis = None

sys.path.insert(0, str(Path(__file__).resolve().parent.parent))
from reference import oracle, sequential  # noqa: E402
from reference.given import Bad  # noqa: E402
from reference.litmus import Test  # noqa: E402
from reference.litmus_faults import fault_of  # noqa: E402
from reference.order import check  # noqa: E402
from reference.reports import ENDS, Batch, drive  # noqa: E402
from reference.schedules import Run  # noqa: E402
from reference.traces import LETTERS, Trace, read_records  # noqa: E402
from tests.shown import SVG, Chart  # noqa: E402
from tests.texts import TOP, Tester  # noqa: E402
from tools import advance, chart, from_herd, merge, number, order, seeds, steps, timeline  # noqa: E402

DEBIAN = "/usr/bin/python3"
HAS_HYPOTHESIS = "import sys, hypothesis; sys.exit(sys.version_info < (3, 11))"
LETTER = {kind: letter.decode() for letter, kind in LETTERS.items()}
KINDS = tuple(LETTER)


class Draw:
    """Draws what an input is made of, by numbers of a range. Hypothesis looks for small ones, the simple choices."""

    def __init__(self, drawn):
        self.number = drawn

    def of(self, items):
        return items[self.number(0, len(items) - 1)]

    def once_in(self, count):
        return self.number(1, count) == count

    def several(self, least, most, make):
        return [make() for _ in range(self.number(least, most))]

    def mixed(self, lists):
        """The items of all lists, in an order that keeps that of each list."""
        left = [list(items) for items in lists if items]
        while left:
            items = self.of(left)
            yield items.pop(0)
            left = [items for items in left if items]


def expect(good, what):
    assert good, what


def same(got, expected, what):
    expect(got == expected, f"{what}: {got!r}, wanted {expected!r}")


def printed(main, *words):
    """The status of a tool, what it prints, and what standard error says."""
    out, error = io.TextIOWrapper(io.BytesIO(), encoding="utf-8"), io.StringIO()
    with contextlib.redirect_stdout(out), contextlib.redirect_stderr(error):
        try:
            status = main(list(map(str, words)))
        except SystemExit as ended:
            status = ended.code
        except Bad as cause:
            status = print(cause, file=error) or 2
        out.flush()
    return status or 0, out.buffer.getvalue().decode(), error.getvalue()


class Given(NamedTuple):
    """A line of a trace that is made up: the lines that it becomes, and its operation with the core, if it has one."""
    text: str
    becomes: list
    core: int | None = None
    operations: list = []


def trace_line(draw, form, is_whole):
    """A line of a trace. An advance of its own doesn't look like those that are added."""
    core, kind, blank = draw.number(0, 2), draw.of(KINDS), draw.of([" ", "\t", "  "])
    if draw.once_in(4):
        text = draw.of(["", "# 0 R 0x0", f"{core}  A", f"{core} A # its own"][:2 * form])
        return Given(text, [text])
    first, size = (draw.number(0, 40), draw.number(0, 20)) if is_whole else (8 * draw.number(0, 3), 0)
    value = None if kind == "load" else draw.number(0, 9)
    front = draw.of(["", " "]) + draw.of([str(core), f"0{core}"]) + blank + LETTER[kind] + blank
    behind = ("" if value is None else f"{blank}{value}") + draw.of(["", " # 0x8", "\t#1 A"])
    words = sorted({byte // 8 for byte in range(first, first + max(size, 1))})
    text = f"{front}{first:#x}{f':{size}' * (size > 0)}{behind}"
    return Given(text, [f"{front}{8 * word:#x}{behind}" for word in words], core,
                 [(kind, word, value) for word in words])


def a_trace(draw):
    form, is_whole = draw.number(1, 2), draw.once_in(3)
    front = [Given(text, [text]) for text in draw.several(0, 2, lambda: draw.of(["", "# trace 2", " # 1"]))]
    head = [Given(text, [text]) for text in [draw.of(["trace 2", "trace\t2 # a"])] * (form == 2)]
    lines = draw.several(0, 12, lambda: trace_line(draw, form, is_whole))
    return SimpleNamespace(form=form, is_whole=is_whole, after=draw.number(0, 4), lines=[*front, *head, *lines])


def try_advances(bench, case):
    path = bench.file("given.trace", "".join(f"{line.text}\n" for line in case.lines))
    status, out, error = printed(advance.main, *["--whole-words"] * case.is_whole, case.after, path)
    same((status, error), (0, ""), "advance.py")
    new = out.splitlines()
    left = [line for line in new if not re.fullmatch("[0-2] A", line)]
    if case.form == 1 and case.after and any(line.core is not None for line in case.lines):
        expect("trace 2" in left, f"no form is named: {out}")
        left.remove("trace 2")
    same(left, [text for line in case.lines for text in line.becomes], "without the advances that were added")
    wanted, done = [], Counter()
    for line in case.lines:
        if line.core is not None and case.form == 1 and case.after and not done:
            wanted.append("trace 2")
        for text in line.becomes:
            wanted.append(text)
            if line.core is not None:
                done[line.core] += 1
                wanted += [f"{line.core} A"] * (case.after > 0 and done[line.core] % case.after == 0)
    same(new, wanted, f"an advance behind each {case.after} operations of a core")
    came = read_records(bench.program("trace", "--records", bench.file("new.trace", out))[1].encode())
    for core in range(4):
        operations = [one for line in case.lines if line.core == core for one in line.operations]
        same([one[2:5] for one in came if one.core == core], operations, f"what core {core} did")


class Happened(NamedTuple):
    """An operation that took effect at a time; a fence has neither word nor time."""
    core: int
    kind: str
    word: int = 0
    value: int | None = None
    time: Decimal | None = None


def a_core(draw, core, unit):
    """What a core did, by rising times."""
    time, done = Decimal(draw.number(0, 3)), []
    for _ in range(draw.number(0, 4)):
        kind = draw.of(KINDS)
        value = None if kind == "load" else draw.number(0, 5)
        done.append(Happened(core, kind, draw.number(0, 2), value, time * unit))
        done += [Happened(core, "fence")] * draw.once_in(6)
        time += draw.number(0, 2)
    return done


def a_history(draw):
    unit, is_axe = draw.of([Decimal(1), Decimal("0.25"), Decimal("-0.1") + 1]), draw.once_in(3)
    addresses = [8 * place for place in range(3)] if is_axe else draw.of([(0, 8, 16), (8, 64, 800), (1, 2, 5)])
    lines = list(draw.mixed([a_core(draw, core, unit) for core in range(draw.number(1, 4))]))
    opening = {addresses[0]: draw.number(1, 5)} if draw.once_in(3) else {}
    return SimpleNamespace(is_axe=is_axe, addresses=addresses, lines=lines, opening=opening)


def received_in(case):
    """The places of the operations in the order of their times, and what each receives of a flat memory."""
    memory = {case.addresses.index(address): value for address, value in case.opening.items()}
    order_of = [at for at, one in enumerate(case.lines) if one.kind != "fence"]
    order_of.sort(key=lambda at: case.lines[at].time)
    received = {}
    for at in order_of:
        one = case.lines[at]
        received[at] = None if one.kind == "store" else memory.get(one.word, 0)
        memory |= {} if one.kind == "load" else {one.word: one.value}
    return order_of, received


def history_line(case, one, received):
    """A line of docs/ORDER.md, in the first form or in Axe's."""
    if one.kind == "fence":
        return f"{one.core}: sync" if case.is_axe else f"{one.core} F"
    if case.is_axe:
        place = f"M[{one.word}]"
        loaded, stored = f"{place} == {received}", f"{place} := {one.value}"
        what = {"load": loaded, "store": stored, "swap": f"{{ {loaded}; {stored} }}"}[one.kind]
        return f"{one.core}: {what} @ {one.time}:{one.time}"
    values = [str(value) for value in (one.value, received) if value is not None]
    return f"{one.core} {LETTER[one.kind]} {case.addresses[one.word]:#x} {' '.join(values)} @ {one.time}"


def meant_records(case, order_of, received):
    """The records that number.py must write: each by its number, at time 0."""
    used = sorted({case.addresses[one.word] for one in case.lines if one.kind != "fence"})
    words = {address: rank if any(one % 8 for one in used) else address // 8 for rank, address in enumerate(used)}
    for count, at in enumerate(order_of):
        one = case.lines[at]
        place = sum(before.core == one.core and before.kind != "fence" for before in case.lines[:at])
        yield one.core, place, one.kind, words[case.addresses[one.word]], one.value, received[at], 0, count


def try_histories(bench, case):
    order_of, received = received_in(case)
    lines = [history_line(case, one, received.get(at)) for at, one in enumerate(case.lines)]
    path = bench.file("given.history", "".join(f"{line}\n" for line in lines))
    opening = ["--opening", bench.file("given", "".join(f"{address:#x} {value}\n" for address, value in
                                                        case.opening.items()))] if case.opening else []
    same(printed(number.main, "--out", bench.folder, *opening, path), (0, "legal\n", ""), "number.py")
    records = read_records(Path(bench.folder, "given.records").read_bytes())
    wanted = list(meant_records(case, order_of, received))
    same([tuple(one) for one in records], wanted, "the records in the order of their times")
    mapped = "".join(f"{count} {case.lines[at].time} {at + 1}\n" for count, at in enumerate(order_of))
    same(Path(bench.folder, "given.map").read_text(encoding="ascii"), mapped, "the map")
    issued = Trace(Path(bench.folder, "given.trace").read_bytes()).issued()
    for core in range(4):
        mine = [one[2:5] for one in sorted(wanted, key=lambda one: one[1]) if one[0] == core]
        same(issued[core] if core < len(issued) else [], mine, f"the operations of core {core}")
    status, out, error = printed(order.main, "--out", bench.folder, *opening, path)
    same((status, out.split("\n")[0], error), (0, "consistent: proved by tardis check", ""), "order.py")
    memory = {one[3]: case.opening.get(case.addresses[case.lines[at].word], 0) for one, at in zip(wanted, order_of)}
    found = read_records(Path(bench.folder, "given.order.records").read_bytes())
    same((check(memory, issued, found), len(found)), ("legal", len(wanted)), "the order that order.py found")
    loads = [count for count, at in enumerate(order_of) if received[at] is not None]
    if loads:
        at = order_of[loads[0]]
        lines[at] = history_line(case, case.lines[at], 99)
        bench.file("given.history", "".join(f"{line}\n" for line in lines))
        status, out, _ = printed(number.main, "--out", bench.folder, *opening, path)
        told = f"wrong value {loads[0]}\nat {case.lines[at].time}, line {at + 1} (core {case.lines[at].core}'s "
        expect(status == 1 and out.startswith(told), f"a value that nobody wrote: {out}, wanted {told}")


def a_batch(draw):
    """Runs of a test, cut into parts, and the numbers of the parts that are given to merge.py."""
    states = [(f"0:x7={value}", draw.once_in(2)) for value in range(draw.number(1, 4))]
    runs = draw.several(1, 9, lambda: (draw.of(ENDS) if draw.once_in(3) else "all-done", draw.of(states),
                                        [draw.of([0, 1, 5, *[2 ** 128 - 2] * draw.once_in(9)]) for _ in range(6)]))
    cuts = sorted({0, len(runs), *draw.several(0, 5, lambda: draw.number(0, len(runs)))})
    parts = [runs[start:end] for start, end in zip(cuts, cuts[1:])]
    given = list(range(len(parts)))
    one, other = draw.of(given), draw.of(given)
    given[one:one + 1] = draw.of([[one], [one], [one] * (one == other), [one, one], [other], [one, other]])
    return SimpleNamespace(kind=draw.of(["exists", "~exists", "forall"]), parts=parts, given=given, cuts=cuts,
                           first=draw.of([0, 7, 2 ** 63 - 3, 2 ** 64 - 5]), is_described=not draw.once_in(3))


def report_of(kind, runs):
    """The second program's report of runs that came to this."""
    key_of = {state: (tuple(state[0].split("=")),) for _, state, _ in runs}
    held = {key_of[state]: state[1] for state in key_of}
    batch = Batch(SimpleNamespace(name="T", threads=[[], []], kind=kind, holds=held.get))
    for end, state, sums in runs:
        batch.runs += 1
        batch.ends[end] += 1
        if end == "all-done":
            batch.states[key_of[state]] = batch.states.get(key_of[state], 0) + 1
        for what, count in zip(batch.sums, sums):
            batch.sums[what] += count
    return batch.text()


def put_part(bench, case, part):
    """The report of a part, and what says how it was made, if that is there."""
    text = report_of(case.kind, case.parts[part])
    made, path = Path(bench.folder, f"{part}.json"), bench.file(f"{part}.report", text)
    made.unlink(missing_ok=True)
    if case.is_described:
        start = case.cuts[part]
        made.write_text(json.dumps({
            "report": {"sha256": sha256(text.encode()).hexdigest()}, "options": [],
            "seeds": {"first": (case.first + start) % 2 ** 64, "runs": case.cuts[part + 1] - start},
            "range": {"first": case.first, "runs": case.cuts[-1], "part": part, "parts": len(case.parts)},
            "test": {"path": "T", "sha256": "0"}, "program": {"path": "P", "version": None, "sha256": "0"}}))
    return path


def try_reports(bench, case):
    """Parts with files that say how they were made are joined if they are the whole range, in its order."""
    paths = [put_part(bench, case, part) for part in range(len(case.parts))]
    status, out, error = printed(merge.main, *(paths[part] for part in case.given))
    if case.is_described and case.given != (parts := list(range(len(case.parts)))):
        told = "seeds "
        for part, (start, end) in enumerate(zip(case.cuts, case.cuts[1:])):
            if case.given == [*parts[:part], *parts[part + 1:]]:
                told = f"seeds {(case.first + start) % 2 ** 64} to {(case.first + end - 1) % 2 ** 64} are missing"
        expect((status, out, error.count("\n")) == (2, "", 1) and told in error, f"{case.given}: {status} {out}{error}")
        return
    wanted = report_of(case.kind, [run for part in case.given for run in case.parts[part]])
    same((status, out, error), (0, wanted, ""), "the joined report")


def a_range(draw):
    """A range of seeds of a test, and into how many parts it is cut."""
    options = ["", "--lease 1 --limit 100", "--line-words 8", "--private-write", f"--time {2 ** 64 - 14}", "--limit 1"]
    first = draw.of([0, 10 ** 9, 0]) - draw.number(0, 20) & 2 ** 64 - 1
    return SimpleNamespace(test=draw.of(["SB", "MP", "LEASE", "2+2W"]), options=draw.of(options).split(), first=first,
                           runs=draw.number(1, 30), parts=draw.number(1, 7))


def try_ranges(bench, case):
    path = str(TOP / f"examples/litmus/{case.test}.litmus")
    wanted = bench.program("litmus", "--schedule", "seed", "--seed", str(case.first), "--runs", str(case.runs),
                           *case.options, path)

    def told(*words):
        return printed(seeds.main, *words, str(case.first), str(case.runs), path, *case.options)

    same(told("--parts", str(case.parts), "--jobs", "2"), wanted, "seeds.py, all parts")
    with tempfile.TemporaryDirectory() as folder:
        statuses = [told("--part", str(part), "--parts", str(case.parts), "--folder", folder)[0]
                    for part in range(case.parts)]
        same(statuses.count(0), min(case.runs, case.parts), "how many parts have seeds")
        joined = printed(merge.main, *sorted(Path(folder).glob("*.report")))
    same(joined, (0, wanted[1], ""), "the parts, joined by merge.py")


ABI = {"x5": "t0", "x6": "t1", "x7": "t2", "x8": "fp", "x9": "s1", "x10": "a0", "x11": "a1", "x28": "t3", "x30": "t5",
       "x31": "t6", "x0": "zero"}
VALUES, BASES, SUMS = ("x5", "x7", "x10", "x31"), ("x6", "x9", "x11"), ("x8", "x28", "x30")
NEW_LINE = "\n  "
TYPES = {"w": ("int", "int32_t", "uint32_t"), "d": ("long", "int64_t", "uint64_t")}


class Thread:
    """A thread that is made up: its instructions as docs/TEXTS.md has them, and cells that mean the same in herd7's
    words. `known` has what a register has, None if that was loaded."""

    def __init__(self, draw, thread, width, locations):
        self.draw, self.thread, self.width = draw, thread, width
        self.bases = dict(zip(locations, BASES))
        self.opening = {register: draw.number(0, 3) for register in VALUES if draw.once_in(2)}
        self.known = {register: self.opening.get(register, 0) for register in VALUES}
        self.plain, self.cells, self.label = [], [], None
        for _ in range(draw.number(0, 4)):
            self.add(draw.of(["load", "store", "swap", "load", "store", "set", "swap", "fence", "branch"]))
        if self.label:
            self.cells.append(f"{self.label}:")

    def spelled(self, register):
        return self.draw.of([register, ABI[register]])

    def number(self, value):
        return self.draw.of([str(value), f"0x{value:x}", f"0X{value}"])

    def cell(self, code):
        """Puts a cell behind the others, with the label that is open in front of it or in a cell before it."""
        name, _, rest = code.partition(" ")
        code = f"{name} {''.join(self.draw.of([sign, sign, f' {sign} ']) if sign in ',()' else sign for sign in rest)}"
        if self.label and self.draw.once_in(2):
            self.cells.append(f"{self.label}:")
        elif self.label:
            code = f"{self.label}: {code}"
        self.label = None
        self.cells += ["(* a (* nested *) cell *)"] * self.draw.once_in(8) + [code.rstrip()]

    def add(self, kind):
        if kind == "set":
            self.set(self.draw.of(VALUES), self.draw.number(0, 4))
        elif kind == "fence":
            self.cell(self.draw.of(["fence rw,rw", "fence", "fence.tso", "fence iorw,ow", "fence i,o", "fence.i",
                                    "nop"]))
        elif kind == "branch":
            first, second = (self.spelled(self.draw.of((*VALUES, "x0"))) for _ in range(2))
            label = f"L{self.thread}{len(self.cells)}"
            self.cell(self.draw.of([f"bne {first},{second},{label}", f"bltu {first},{second},{label}",
                                    f"beqz {first},{label}", f"j {label}", f"jal x0,{label}"]))
            self.label = label
        else:
            self.access(kind, self.draw.of(list(self.bases)))

    def set(self, target, value):
        """Sets a register to a number, by any instruction of which that is the result."""
        has = {**self.known, "x0": 0}
        ways = [f"li {self.spelled(target)},{self.number(value)}"]
        first, second = (self.draw.of((*VALUES, "x0")) for _ in range(2))
        words, one, other = f"{self.spelled(target)},{self.spelled(first)}", has[first], has[second]
        ways += [f"mv {words}"] * (one == value) + [f"andi {words},0"] * (value == 0)
        ways += [f"{name} {words},{self.spelled(first)}" for name in ("xor", "sub")] * (value == 0)
        if one is not None:
            ways += [f"addi {words},{self.number(value - one)}"] * (one <= value)
            ways += [f"xori {words},{self.number(one ^ value)}", f"ori {words},{self.number(value)}"][:1 + (one == 0)]
        if None not in (one, other):
            results = {"add": one + other, "sub": one - other, "or": one | other, "and": one & other,
                       "xor": one ^ other}
            ways += [f"{name} {words},{self.spelled(second)}" for name, result in results.items() if result == value]
        self.cell(self.draw.of(ways))
        self.plain.append(f"li {target},{value}")
        self.known[target] = value

    def base(self, location):
        """A register with the address of a location: its own, or one that got it by adding nothing."""
        own = self.bases[location]
        if not self.draw.once_in(4):
            return own
        zero, copy = self.draw.of(VALUES), self.draw.of(SUMS)
        self.set(zero, 0)
        terms = [self.spelled(own), self.spelled(zero)]
        self.cell(self.draw.of([f"add {copy},{','.join(terms)}", f"add {copy},{','.join(reversed(terms))}",
                                f"or {copy},{','.join(terms)}", f"mv {copy},{own}", f"addi {copy},{own},0"]))
        return copy

    def access(self, kind, location):
        base, own, width = self.spelled(self.base(location)), self.bases[location], self.width
        target, source = self.draw.of((*VALUES, "x0")), self.draw.of((*VALUES, "x0"))
        to, what, mark = self.spelled(target), self.spelled(source), self.draw.of(["", ".aq", ".rl", ".aq.rl", ".aqrl"])
        at = self.draw.of([f"0({base})", f"({base})"])
        swaps = [f"amoswap.{width}{mark} {to},{what},{at}"]
        loads = [f"l{width}{mark} {to},{at}", *[f"lwu{mark} {to},{at}"] * (width == "w"),
                 *(f"amo{name}.{width}{mark} {to},x0,{at}" for name in ("or", "add", "xor"))]
        self.cell(self.draw.of({"load": loads, "store": [f"s{width}{mark} {what},{at}"], "swap": swaps}[kind]))
        self.plain.append({"load": f"l{width} {target},0({own})", "store": f"s{width} {source},0({own})",
                           "swap": f"amoswap.{width} {target},{source},({own})"}[kind])
        if kind != "store" and target != "x0":
            self.known[target] = None


def an_expression(draw, names, depth=3):
    """An expression: True, False, (name, value, whether it has it), or a sign and its parts."""
    kind = draw.of(["atom", "\\/", "/\\", "=>", "not", "atom", "constant"]) if depth else "atom"
    if kind == "atom":
        return draw.of(names), draw.of([0, 1, 2, 3, 7]), not draw.once_in(4)
    if kind == "constant" and depth < 3:
        return draw.once_in(2)
    kind = "not" if kind == "constant" else kind
    count = {"not": 1, "=>": 2}.get(kind) or draw.number(2, 3)
    return [kind, *(an_expression(draw, names, depth - 1) for _ in range(count))]


def holds(tree, end):
    if isinstance(tree, bool):
        return tree
    if isinstance(tree, tuple):
        return (end[tree[0]] == tree[1]) == tree[2]
    parts = [holds(part, end) for part in tree[1:]]
    return {"/\\": all(parts), "\\/": any(parts), "not": not parts[0], "=>": not parts[0] or parts[-1]}[tree[0]]


def herd_expression(draw, tree, level=0):
    """An expression in herd7's words. => binds weakest, then \\/, /\\ and `not`."""
    if isinstance(tree, bool):
        return str(tree).lower()
    if isinstance(tree, tuple):
        thread, is_register, name = tree[0].rpartition(":")
        name = f"{thread}:{draw.of([name, ABI[name]])}" if is_register else draw.of([name, f"[{name}]"])
        sign = draw.of(["", " "]) + ("=" if tree[2] else "<>")
        return f"{name}{sign}{draw.of([str(tree[1]), f'0x{tree[1]:x}'])}"
    own = {"=>": 0, "\\/": 1, "/\\": 2, "not": 3}[tree[0]]
    # To the right of => another one needs no parentheses.
    parts = [herd_expression(draw, part, own + (place == 0 or own > 0) * (own < 3))
             for place, part in enumerate(tree[1:])]
    text = f"not {parts[0]}" if own == 3 else f"{draw.of([' ', NEW_LINE])}{tree[0]} ".join(parts)
    return f"({text})" if own < level or draw.once_in(6) else text


def herd_items(draw, threads, memory, width):
    """The items of an initial block in herd7's words."""
    for location, value in memory.items():
        kind = draw.of(["", "", *(f"{name} " for name in TYPES[width])])
        named = location if kind else draw.of([location, f"[{location}]"])
        if value or not kind and draw.once_in(2):
            yield f"{kind}{named}={draw.of([str(value), f'{value:#x}'])}"
        elif kind:
            yield f"{kind}{named}"
    for thread in threads:
        for location, register in thread.bases.items():
            kind = draw.of(["", "", "uint64_t "])
            yield f"{kind}{thread.thread}:{thread.spelled(register)} = {draw.of(['', '&'])}{location}"
        for register, value in thread.opening.items():
            kind = draw.of(["", "int64_t "])
            named = f"{kind}{thread.thread}:{thread.spelled(register)}"
            yield named if kind and value == 0 else f"{named}={thread.number(value)}"


def table_of(columns):
    """The table of threads with these cells."""
    height = max(map(len, columns))
    rows = [[f"P{thread}" for thread in range(len(columns))],
            *zip(*(column + [""] * (height - len(column)) for column in columns))]
    return "".join(f" {' | '.join(row)} ;\n" for row in rows)


def a_test(draw):
    width, locations = draw.of("wd"), draw.of([("x", "y"), ("x", "y", "z"), ("lw", "P1"), ("not", "exists", "_t0")])
    threads = [Thread(draw, thread, width, locations) for thread in range(draw.number(1, 3))]
    memory = {location: draw.number(0, 3) for location in locations}
    names = [f"{thread.thread}:{register}" for thread in threads for register in VALUES] + list(locations)
    kind, trees = draw.of(["exists", "~exists", "forall"]), [an_expression(draw, names + 2 * list(locations))]
    trees += [an_expression(draw, names, 1)] * (kind != "forall" and draw.once_in(2))
    items = [f"{location}={value}" for location, value in memory.items()]
    items += [f"{thread.thread}:{register}={value}" for thread in threads
              for register, value in [*((base, location) for location, base in thread.bases.items()),
                                      *thread.opening.items()]]
    plain = f"RISCV T\n{{ {'; '.join(items)} }}\n{table_of([thread.plain for thread in threads])}exists (" \
            f"{NEW_LINE.join(f'{name}=0 /{chr(92)}' for name in names[1:])} {names[0]}=0)\n"
    header = draw.of(["", '"Rfe PodRR"\n', "Cycle=Rfe PodRR\nPrefetch 0:x=F\n", "(* a * remark *)\n"])
    block = draw.of(["; ", ";\n"]).join(herd_items(draw, threads, memory, width))
    behind = draw.of(["", "", f"locations [{locations[0]}; 0:x5;]\n"])
    behind += "".join(f"filter {herd_expression(draw, tree)}\n" for tree in trees[1:])
    table = table_of([thread.cells for thread in threads]).replace("\n", draw.of(["\n", "\n", "\n\n"]))
    text = f"RISCV T.t+a\n{header}{{ {block}; }}\n{table}{behind}{kind} {herd_expression(draw, trees[0])}\n"
    return SimpleNamespace(text=text.replace("\n", draw.of(["\n", "\n", "\r\n"])), plain=plain, kind=kind, trees=trees,
                           threads=len(threads), name="T.t+a" + "+filter" * len(trees[1:]))


def listed(out):
    """The ends of a list, each as its names with their values, and whether it has a star."""
    for line in out.splitlines():
        if line[:2] in ("  ", "* "):
            yield frozenset(tuple(pair.split("=")) for pair in line[2:].split()), line[0] == "*"


def try_tests(bench, case):
    status, out, error = printed(from_herd.main, bench.file("herd.litmus", case.text))
    ends = [dict(end) for end in sequential.ends_of(Test(case.plain))]
    if status:
        says = [line for line in error.splitlines() if not line.endswith(": the condition asks nothing")]
        has_constant = any(len({holds(tree, end) for end in ends}) == 1 for tree in case.trees)
        expect((status, out, says) == (2, "", []) and has_constant, f"refused: {error}{case.text}")
        return
    same((error, fault_of(out.encode())), ("", None), f"converted: {out}")
    test, path = Test(out), bench.file("converted.litmus", out)
    same((test.name, test.kind, len(test.threads)), (case.name, case.kind, case.threads), out)
    wanted = {(frozenset((name, str(end[name])) for name in test.seen), all(holds(tree, end) for tree in case.trees))
              for end in ends}
    status, found, error = bench.program("ends", path)
    same((status, error, set(listed(found))), (0, "", wanted), f"the ends of {out}of {case.text}")
    status, report, error = bench.program("litmus", "--schedule", "seed", "--runs", "3", path)
    met = {frozenset(tuple(pair.split("=")) for pair in line.split()[1:]) for line in report.splitlines()
           if line[0].isdigit()}
    expect((status, error) == (0, "") and met <= {end for end, _ in wanted}, f"the report {report}of {out}")
    status, again, error = printed(from_herd.main, path)
    stays = [[line for line in text.splitlines() if not line.startswith("converted=")] for text in (out, again)]
    same((status, error, stays[1]), (0, "", stays[0]), "what was converted, once more")


TIMES = {"ShReq": ("pts",), **dict.fromkeys(("ShRep", "ExRep", "FlushRep", "WbRep"), ("wts", "rts")),
         **dict.fromkeys(("RenewRep", "UpgradeRep", "WbReq"), ("rts",))}
TITLE = re.compile(r"core (\d+): (\w+) of (0x\w+)(?:, writes (\d+))?(?:, receives (\d+))?; time (\d+), number (\d+)"
                   r"(, stale hit)?")
NODES = {"b": "bank", "c": "core", "d": "DRAM"}


class Noted(Run):
    """A run of the second program, with what happens in it: behind a turn and a line, an event as a tuple."""

    def __init__(self, *given):
        super().__init__(*given)
        self.events = []

    def make(self, *event):
        machine, name, sent = self.machine, event[0], self.machine.sent
        message = machine.flight.get(event[1]) if name == "Deliver" else None
        lanes = [f"{NODES[part]} {index}" for part, index in machine.nodes(message)] if message else []
        line = machine.line_at(event[1]) if name == "Attempt" else event[2] if name.startswith("Evict") else None
        answer = super().make(*event)
        happened = None
        if message and answer in ("Delivered", "Dropped"):
            times = tuple(getattr(message, key) for key in TIMES.get(message.kind, ()))
            happened, line = ("took", message.kind, message.core, times), message.line
        elif answer == "Completed":
            one = machine.records[-1]
            happened = "done", one.core, one.time, one.received, is_past(machine.records, one)
        elif answer == "Advanced":
            happened = "advance", event[1], machine.cores[event[1]].pts
        elif answer in ("Evicted", "Recalled"):
            happened = "evict", "core" if name == "EvictCache" else "bank", event[1]
        self.events.append(SimpleNamespace(
            turn=self.turns, line=line, happened=happened, message=event[1] if message else None, lanes=lanes,
            sent=range(sent, machine.sent), cores=[(core.pts, {
                copy.line: (f"{copy.state[0]} {copy.wts}..{copy.rts}", list(copy.words))
                for copies in core.sets.values() for copy in copies}) for core in machine.cores]))
        return answer


def is_past(records, load):
    """Whether a load is a stale hit: a write of its word has a smaller number and a greater time."""
    return load.kind == "load" and any(one.word == load.word and one.kind != "load" and one.number < load.number
                                       and one.time > load.time for one in records)


def a_run(draw):
    """A trace and the options of its run."""
    words = draw.of([(0,), (0, 1), (0,), (0, 1, 2), (0, 8)])

    def line(core):
        kind = draw.of((*KINDS, "advance"))
        value = "" if kind == "load" else f" {draw.number(0, 4)}"
        return f"{core} A" if kind == "advance" else f"{core} {LETTER[kind]} {8 * draw.of(words):#x}{value}"

    lines = draw.mixed([draw.several(2, 7, lambda core=core: line(core)) for core in range(draw.of([2, 3, 1]))])
    schedule = draw.of(["round", "seed"])
    options = f"--schedule {schedule} --limit {3000 if schedule == 'seed' else 300}".split()
    options += ["--seed", str(draw.number(0, 999))] * (schedule == "seed")
    options += ["--fair"] * (schedule == "round" and draw.once_in(3))
    for more in ("--lease 1", "--lease 3", "--private-write", "--line-words 8", "--sets 1 --ways 1", "--banks 2",
                 "--bank-sets 1 --bank-ways 1", f"--time {2 ** 64 - 6}"):
        options += more.split() * (draw.once_in(4) and more.split()[0] not in options)
    return SimpleNamespace(lines=list(lines), options=options, width=8 if "--line-words" in options else 1, words=words)


def in_chart(text):
    """What happens in a chart by its rows: a message's first delivery, what is done, and what is sent by that."""
    drawn, rows = Chart(text), []
    lanes, texts = {lane: x for x, lane in drawn.lanes.items()}, drawn.texts()
    for (start, sent, end, first), (label, _) in zip(drawn.arrows, texts):
        message, kind, carried = re.fullmatch(r"(\d+): (\w+)(.*)", label).groups()
        cores = [int(lane.split()[1]) for lane in (start, end) if lane.startswith("core")]
        times = tuple(map(int, re.findall(r"\d+", carried)))
        rows += [(first, 0, ("first", int(message), start, end)), (sent, 2, ("sent", int(message))),
                 (drawn.dotted.get((end, first), first), 1, ("took", kind, *(cores or [None]), times), int(message))]
    for said, element in texts[len(drawn.arrows):]:
        part, index = next(lane for lane, x in lanes.items() if x == float(element.get("x")) + 10).split()
        done = re.fullmatch(r"time (\d+)(?:, receives (\d+))?(, the past)?", said)
        happened = done and ("done", int(index), int(done[1]), done[2] and int(done[2]), bool(done[3]))
        if said.startswith("advance to "):
            happened = "advance", int(index), int(said.split()[2])
        elif said.endswith(" leaves") or said == "EvictBank: Recalled":
            happened = "evict", part, int(index)
        rows += [((float(element.get("y")) - 64) / 26, 1, happened)] if happened else []
    return sorted(rows, key=lambda row: (row[:2], row[2][1] if row[1] == 2 else 0))


def in_run(events):
    """The same of a run. Messages that are never delivered have no arrow."""
    delivered, met = {event.message for event in events}, set()
    for event in events:
        if event.message is not None and event.message not in met:
            met.add(event.message)
            yield "first", event.message, *event.lanes
        if event.happened:
            yield event.happened
        yield from (("sent", message) for message in event.sent if message in delivered)


def in_steps(text, cores):
    """What happens in a table of steps: the turn, what is done, and what each core has after it."""
    for line in text.splitlines()[1:]:
        turn, said, *states = re.split("  +", line)
        done = re.fullmatch(r"core (\d+): (?:load|store|swap)(?: receives (\d+)( <- the past)?)?", said)
        took = re.fullmatch(r"([A-Z]\w+)(?:, core (\d+))?((?:, [a-z]+ \d+)*)(?:: Dropped)?", said)
        other = re.fullmatch(r"(core|bank) (\d+): (Advance|Evict\w+)", said)
        happened = None
        if done:
            core = int(done[1])
            happened = "done", core, int(states[core].split(":")[0]), done[2] and int(done[2]), bool(done[3])
        elif took:
            carried = dict(part.split() for part in took[3].split(", ")[1:])
            times = tuple(int(carried[key]) for key in TIMES.get(took[1], ()))
            happened = "took", took[1], took[2] and int(took[2]), times
        elif other and other[3] == "Advance":
            happened = "advance", int(other[2]), int(states[int(other[2])].split(":")[0])
        elif other:
            happened = "evict", other[1], int(other[2])
        if happened:
            yield int(turn), happened, states[:cores]


def core_cell(core, line, index):
    """What a table of steps has of a core."""
    time, copies = core
    held, words = copies.get(line, ("-", None))
    return f"{time}: {held}" + (f" {words[index]}" if words else "")


def try_runs(bench, case):
    path = bench.file("given.trace", "trace 2\n" + "".join(f"{line}\n" for line in case.lines))
    options = oracle.words().parse_args(["trace", *case.options, path])
    trace = Trace(Path(path).read_bytes())
    run, end = drive(options, trace.programs(), {}, options.seed, None, Noted)
    cut = f"{Path(sys.argv[0]).name}: {path}: end {end}: this is the run's beginning (docs/ENDING.md says why)\n"
    ended = (0, "") if end == "all-done" else (1, cut)
    status, out, error = printed(chart.main, *case.options, path)
    same((status, error), ended, "chart.py")
    taken = {event.message for event in run.events if event.happened and event.happened[0] == "took"}
    shown = [row[2] for row in in_chart(out) if row[2][0] != "took" or row[3] in taken]
    same(shown, list(in_run(run.events)), "the chart's events")
    for word in case.words:
        status, out, error = printed(steps.main, f"{8 * word:#x}", *case.options, path)
        same((status, error), ended, "steps.py")
        line, index = word // case.width, word % case.width
        wanted = [(event.turn, event.happened, [core_cell(core, line, index) for core in event.cores])
                  for event in run.events if event.happened and (event.line == line or event.happened[0] == "advance")]
        same(list(in_steps(out, trace.cores)), wanted, f"the steps of {8 * word:#x}")
    status, out, error = bench.program("trace", "--records", *case.options, path)
    same((status in (0, 1), error), (True, ""), "the program")
    if out:
        try_timeline(bench, case, path, out, ended)


def try_timeline(bench, case, path, text, ended):
    """The picture of a trace is that of its records, and has each record."""
    records = read_records(text.encode())
    drawn = printed(timeline.main, *case.options, path)
    same((drawn[0], drawn[2]), ended, "timeline.py")
    backwards = bench.file("given.records", "".join(reversed(text.splitlines(True))))
    same(printed(timeline.main, backwards), (0, drawn[1], ""), "the picture of the records")
    found = [TITLE.fullmatch(title.text).groups() for title in xml.fromstring(drawn[1]).iter(f"{SVG}title")]
    told = [(str(one.core), one.kind, f"{8 * one.word:#x}", *(None if part is None else str(part) for part in (
        one.value, one.received)), str(one.time), str(one.number), ", stale hit" if is_past(records, one) else None)
        for one in sorted(records, key=lambda one: one.number)]
    same(found, told, "the points of the picture")


PROPERTIES = [("advances", a_trace, try_advances, 150), ("histories", a_history, try_histories, 60),
              ("reports", a_batch, try_reports, 200), ("ranges of seeds", a_range, try_ranges, 12),
              ("tests of herd7", a_test, try_tests, 450), ("runs that are shown", a_run, try_runs, 120)]


class Bench:
    """Where inputs are tried: a folder, and the program."""

    def __init__(self, program, folder):
        self.program, self.folder, self.tried = Tester(program).run, folder, 0

    def file(self, name, text):
        """The path of a file with this text."""
        path = Path(self.folder, name)
        path.write_text(text, encoding="ascii", newline="")
        return str(path)

    def by_hypothesis(self, make, check, count):
        """Tries inputs that hypothesis draws; it looks for the smallest one that fails."""
        @strategies.composite
        def drawn(draw):
            return make(Draw(lambda least, most: draw(strategies.integers(least, most))))

        @hypothesis.settings(derandomize=True, database=None, deadline=None, max_examples=count, print_blob=False,
                             report_multiple_bugs=False, phases=[hypothesis.Phase.generate, hypothesis.Phase.shrink],
                             verbosity=hypothesis.Verbosity.quiet, suppress_health_check=[
                                 hypothesis.HealthCheck.too_slow, hypothesis.HealthCheck.data_too_large])
        @hypothesis.given(drawn())
        def tried(case):
            self.tried += 1
            check(self, case)

        tried()

    def by_python(self, make, check, count):
        """Tries inputs that Python's own generator draws."""
        for seed in range(count):
            self.tried += 1
            check(self, make(Draw(random.Random(seed).randint)))


def main(program):
    wrong = 0
    with tempfile.TemporaryDirectory() as folder:
        os.environ |= {"TARDIS": os.path.realpath(program), "HYPOTHESIS_STORAGE_DIRECTORY": f"{folder}/drawn"}
        bench = Bench(os.environ["TARDIS"], folder)
        for name, make, check_one, count in PROPERTIES:
            try:
                (bench.by_hypothesis if hypothesis else bench.by_python)(make, check_one, count)
            except Exception as error:  # an input on which a tool ends otherwise is a fault of the tool, too
                wrong += 1
                print(f"wrong: {name}: {type(error).__name__}: {error}")
    by = f"hypothesis {hypothesis.__version__}" if hypothesis else "Python alone, without hypothesis"
    print(f"inverses.py: inputs drawn by {by}", file=sys.stderr)
    print(f"{bench.tried} tried, {wrong} wrong")
    return int(wrong > 0)


def at_debian():
    """Starts the script anew by Debian's Python, if hypothesis is there and not here."""
    if hypothesis or os.path.realpath(sys.executable) == os.path.realpath(DEBIAN):
        return
    with contextlib.suppress(OSError):
        if subprocess.run([DEBIAN, "-c", HAS_HYPOTHESIS], capture_output=True, check=False).returncode == 0:
            os.execv(DEBIAN, [DEBIAN, *sys.argv])


if __name__ == "__main__":
    if len(sys.argv) != 2:
        sys.exit(__doc__)
    at_debian()
    sys.exit(main(sys.argv[1]))
