#!/usr/bin/env python3
"""Writes the traces of examples/traces whose steps are drawn: many cores, few words, each kind of step.

The generator is that of the seeded schedule, with seeds of its own, so that the texts are the same each time.
"""
import sys
from pathlib import Path

sys.path.insert(0, str(Path(__file__).resolve().parent.parent))
from reference.schedules import Pcg32  # noqa: E402


FOLDER = Path(__file__).resolve().parent.parent / "examples/traces"
# Name, what it shows, options, form, cores, how many words, how many steps, the seed of the steps.
TRACES = [
    ("MIXED", "Sixteen cores in small caches and two small banks, with lines of eight words; by rounds.",
     "--line-words 8 --sets 2 --ways 1 --banks 2 --bank-sets 1 --bank-ways 2 --lease 5", 1, 16, 48, 240, 1),
    ("MIXED-PRIVATE", "The same with private writes and lines of one word.",
     "--private-write --sets 2 --ways 1 --banks 2 --bank-sets 2 --bank-ways 3 --lease 5", 1, 16, 12, 240, 2),
    ("MIXED-ADVANCES", "Forty cores that go on in time, by rounds.", "--sets 1 --ways 2 --bank-sets 2 --bank-ways 4", 2,
     40, 8, 300, 3),
    ("SEED-MIXED", "Eight cores in small caches and two small banks, with lines of eight words; by a seed.",
     "--schedule seed --seed 99 --line-words 8 --sets 1 --ways 2 --banks 2 --bank-sets 1 --bank-ways 2", 1,
     8, 48, 120, 4),
    ("SEED-MIXED-ADVANCES", "Twenty cores that go on in time, with private writes; by a seed.",
     "--schedule seed --seed 98765432109876543 --private-write --sets 1 --ways 1 --bank-sets 2 --bank-ways 2", 2,
     20, 6, 160, 5),
]


def step(draw, form, cores, words):
    core, letter, word = draw() % cores, "RRRWWS"[draw() % 6], draw() % words
    if form == 2 and draw() % 5 == 0:
        return f"{core} A"
    return f"{core} {letter} {8 * word:#x}" + ("" if letter == "R" else f" {draw() % 1000}")


def text(shows, options, form, cores, words, steps, seed):
    draw = Pcg32.of_seed(seed).draw
    lines = [f"# {shows} Drawn by mixed_traces.py.", f"# options= {options}"]
    lines += ["trace 2"] if form == 2 else []
    return "\n".join(lines + [step(draw, form, cores, words) for _ in range(steps)]) + "\n"


if sys.argv[1:2] in (["-h"], ["--help"]):
    raise SystemExit(print(__doc__))
for name, *of in TRACES:
    (FOLDER / f"{name}.trace").write_text(text(*of), encoding="ascii")
