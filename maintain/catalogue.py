#!/usr/bin/env python3
"""Writes the tables of docs/TESTS.md anew from examples/litmus, or tests them.

    maintain/catalogue.py            writes the tables
    maintain/catalogue.py --check    says what differs, and fails if something does

What a test asks comes from its text. What sequential consistency says of it comes from reference/sequential.py, its
rings from tools/rings.py, and what runs report from the .report, .seeds and .also next to it, which tests/expected.py
wrote. Each test is in one table, and each end in a report must be one that some interleaving has.
"""
import re
import sys
from pathlib import Path

TOP = Path(__file__).resolve().parent.parent
sys.path.insert(0, str(TOP))
from reference import sequential  # noqa: E402
from reference.litmus import Test  # noqa: E402
from tests.expected import impossible_states  # noqa: E402
from tools import rings  # noqa: E402

PAGE = TOP / "docs/TESTS.md"
TESTS = TOP / "examples/litmus"


TABLES = {
    "two threads": "SB MP LB S R 2+2W",
    "one location": "CoRR CoRW CoWR CoWW CoRR2",
    "more threads": "WRC RWC ISA2 WRW+2W W+RWC Z6.0 Z6.1 Z6.2 Z6.3 Z6.4 Z6.5 3.SB 3.LB 3.2W IRIW",
    "swaps and fences": "SWAP SB+swaps MP+swaps 2+2W+swaps SB+fence SB+fences MP+fences",
    "locks": "LOCK LOCK+release SEQLOCK",
    "yes": "MP+yes SB+yes SWAP+yes SB+forall",
    "protocol": "STALE READERS RENEW LEASE PRIVATE FALSE",
}
# Those whose forbidden ends have one ring, or two that are mirror images.
RINGS = ("two threads", "one location", "more threads", "swaps and fences", "locks")
MOST_RINGS = 2
HEAD = ["| Test | Question | One memory | Ends met | Rounds | Held | Stale hits |",
        "|---|---|---|---|---|---|---|"]


class Report:
    """The lines of a report by their names, and its end states."""

    def __init__(self, name, ending):
        lines = (TESTS / (name + ending)).read_text(encoding="ascii").splitlines()
        self.said = dict(line.split(" ", 1) for line in lines)
        start = lines.index(f"states {self.said['states']}") + 1
        self.states = [line.split(" ", 1)[1] for line in lines[start:start + int(self.said["states"])]]


def row(name):
    text = (TESTS / (name + ".litmus")).read_text(encoding="ascii")
    test, rounds, seeds = Test(text), Report(name, ".report"), Report(name, ".seeds")
    ends = sequential.ends_of(test)
    cells = [f"[{name}](../examples/litmus/{name}.litmus)", re.search(r'^"(.*)"$', text, re.M)[1],
             sequential.answer(test, ends), f"{len(seeds.states)} of {len(ends)}", rounds.said["verdict"], seeds.said["held"],
             seeds.said["stale-hits"]]
    return "| " + " | ".join(cells) + " |"


def ring_rows(names):
    """By test its cycle, as herd7's family names it, and its steps."""
    yield from ("| Test | Cycle | What would be before what |", "|---|---|---|")
    for name in names:
        found = rings.rings_of(Test((TESTS / (name + ".litmus")).read_text(encoding="ascii"))) or []
        if 1 <= len(found) <= MOST_RINGS:
            told = sorted(f"{' '.join(rings.brief(ring))}" for ring in found)
            yield f"| {name} | `{rings.cycle_of(found[0])}` | {' Or: '.join(told)} |"


def other_options():
    """The tests that are run again with other options, with what changes in the report by rounds."""
    yield from ("| Test | Options | End | Flushes | Stale hits |",
                "|---|---|---|---|---|")
    for path in sorted(TESTS.glob("*.also")):
        options = re.search(r"^also=(.*)$", path.with_suffix(".litmus").read_text(encoding="ascii"), re.M)[1]
        for ending, used in ((".report", "default"), (".also", f"`{options}`")):
            report = Report(path.stem, ending)
            cells = [path.stem, used, f"`{report.states[0]}`", report.said["flushes"], report.said["stale-hits"]]
            yield "| " + " | ".join(cells) + " |"


def with_table(text, name, rows):
    pattern = re.compile(rf"(<!-- table {re.escape(name)} -->\n).*?(<!-- end -->)", re.S)
    if not pattern.search(text):
        raise SystemExit(f"the page has no table {name}")
    return pattern.sub(lambda m: m[1] + "\n".join(rows) + "\n" + m[2], text)


def main(check):
    listed = [name for names in TABLES.values() for name in names.split()]
    if sorted(listed) != sorted(path.stem for path in TESTS.glob("*.litmus")):
        return "catalogue.py: the tables don't name each test of examples/litmus once"
    for fault in impossible_states():
        return f"catalogue.py: {fault}"
    old = new = PAGE.read_text(encoding="utf-8")
    for name, names in TABLES.items():
        new = with_table(new, name, HEAD + [row(test) for test in names.split()])
    for name in RINGS:
        new = with_table(new, f"rings: {name}", ring_rows(TABLES[name].split()))
    new = with_table(new, "other options", other_options())
    if check and old != new:
        return "catalogue.py: docs/TESTS.md has other tables than examples/litmus (maintain/catalogue.py writes them)"
    if old != new:
        PAGE.write_text(new, encoding="utf-8")
    print(f"{len(listed)} tests stand in docs/TESTS.md as their reports have them")
    return 0


if __name__ == "__main__":
    if sys.argv[1:2] in (["-h"], ["--help"]):
        raise SystemExit(print(__doc__))
    sys.exit(main(sys.argv[1:] == ["--check"]))
