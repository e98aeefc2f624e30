#!/usr/bin/env python3
"""Writes the pictures of docs/pictures anew, or tests them.

    maintain/pictures.py            writes them
    maintain/pictures.py --check    says which differ, and fails if one does

- past.svg: the records of examples/traces/PAST.trace, by tools/timeline.py.
- first_store.svg: the messages of examples/traces/FIRST-STORE.trace, by tools/chart.py.
- line_life.svg: the changes of a bank's entry that occur in the runs of all traces of examples/traces.
- ring.svg: the ring that forbids the end of examples/litmus/SB.litmus, by tools/rings.py.
- layers.svg: the crates of crates.txt, each above all that it depends on.

`tests/page.py PLAYER --pictures docs/pictures` writes page.png and wrong.png, pages of tools/page.py in a browser.
"""
import sys
from pathlib import Path

TOP = Path(__file__).resolve().parent.parent
sys.path.insert(0, str(TOP))
from reference import oracle  # noqa: E402
from reference.litmus import Test  # noqa: E402
from reference.reports import drive  # noqa: E402
from reference.schedules import Run  # noqa: E402
from reference.traces import read_records  # noqa: E402
from tests.expected import options_of  # noqa: E402
from tools import chart, rings, timeline  # noqa: E402

TRACES = TOP / "examples/traces"


# Times of 64 bits have their marks: 2^64 - 1 is five times this.
assert timeline.Scale([0, 2 ** 64 - 1], 0, 1).marks() == [3689348814741910323 * k for k in range(6)]

BOX, HIGH = 120, 34
# Where the entries of a line stand in the picture: the middle of each box.
PLACES = {"Absent": (90, 70), "Loading": (340, 70), "Shared": (590, 70), "Exclusive": (840, 70), "Storing": (340, 250),
          "Recalling": (840, 250)}
STEP, WIDE = 52, 158


def svg(width, height, lines):
    head = (f'<svg xmlns="http://www.w3.org/2000/svg" width="{width}" height="{height}" font-family="sans-serif" '
            'font-size="12">')
    end = ('<defs><marker id="end" orient="auto" refX="8" refY="4" markerWidth="9" markerHeight="8">'
           '<path d="M0 0 L8 4 L0 8 z" fill="#245"/></marker></defs>')
    return "\n".join([head, f'<rect width="{width}" height="{height}" fill="white"/>', end, *lines, "</svg>"]) + "\n"


def box(x, y, name, wide=BOX):
    return (f'<rect x="{x - wide / 2:g}" y="{y - HIGH / 2:g}" width="{wide}" height="{HIGH}" rx="6" fill="#eef3f6" '
            f'stroke="#245"/><text x="{x}" y="{y + 4}" text-anchor="middle">{name}</text>')


class Watched(Run):
    """A run that notes each change of an entry of a bank, with its cause."""
    met = None

    def entry(self, line):
        found = self.machine.find(line, self.machine.bank_set(line))[0]
        return found.state if found else "Absent", bool(found and getattr(found, "dirty", False))

    def make(self, *event):
        name, *of = event
        message = self.machine.flight.get(of[0]) if name == "Deliver" else None
        line = of[1] if name == "EvictBank" else message and message.line
        before = None if line is None else self.entry(line)
        answer = super().make(*event)
        if before and self.entry(line)[0] != before[0]:
            kept = ", dirty" if before[1] else ", clean"
            evicted = "eviction" + (kept if before[0] == "Shared" else "")
            self.met.setdefault((before[0], self.entry(line)[0]), set()).add(message.kind if message else evicted)
        return answer


def changes():
    """From one entry to the next, with the causes that occur."""
    Watched.met = {}
    for path in sorted(TRACES.glob("*.trace")):
        options = oracle.words().parse_args(["trace", *options_of(path), str(path)])
        drive(options, oracle.read_trace(path).programs(), {}, options.seed, None, Watched)
    return Watched.met


def edge(start, end, label, both):
    """An arrow between two boxes, a little to its right if there is one back."""
    (x, y), (to_x, to_y) = PLACES[start], PLACES[end]
    across, down = (to_x > x) - (to_x < x), (to_y > y) - (to_y < y)
    if both:
        x, y, to_x, to_y = x - 8 * down, y + 8 * across, to_x - 8 * down, to_y + 8 * across
    x, to_x = x + (BOX / 2 * across if not down else 0), to_x - (BOX / 2 * across if not down else 0)
    y, to_y = y + HIGH / 2 * down, to_y - HIGH / 2 * down
    middle = (y + to_y) / 2 + (0 if down else 16 if both and across > 0 else -6)
    anchor = "middle" if not down or across else "start"
    return (f'<path d="M{x:g} {y:g} L{to_x:g} {to_y:g}" stroke="#245" fill="none" marker-end="url(#end)"/>'
            f'<text x="{(x + to_x) / 2 + (6 if anchor == "start" else 0):g}" y="{middle:g}" text-anchor="{anchor}" '
            f'stroke="white" stroke-width="4" paint-order="stroke">{label}</text>')


def over(start, end, label):
    """An arrow that goes over the boxes between two of one row."""
    (x, y), (to_x, _) = PLACES[start], PLACES[end]
    top = y - HIGH / 2
    return (f'<path d="M{x} {top:g} C{x} 10 {to_x} 10 {to_x} {top:g}" stroke="#245" fill="none" '
            'marker-end="url(#end)"/>'
            f'<text x="{(x + to_x) / 2:g}" y="22" text-anchor="middle">{label}</text>')


def line_life():
    met = changes()
    lines = []
    for (start, end), causes in sorted(met.items()):
        label = ", ".join(sorted(causes))
        far = start == "Shared" and end == "Absent"
        lines.append(over(start, end, label) if far else edge(start, end, label, (end, start) in met))
    return svg(1020, 290, lines + [box(*place, name) for name, place in PLACES.items()])


def levels():
    """The crates by their level: one more than the highest that each depends on. Tests and measurements are left
    out."""
    level = {}
    for line in (TOP / "crates.txt").read_text(encoding="utf-8").splitlines():
        name, _, below = line.split("#")[0].replace(" staticlib", "").partition(":")
        if name and not name.startswith(("test_", "bench")):
            level[name] = 1 + max((level[crate] for crate in below.split() if crate in level), default=0)
    return level


def layers():
    level = levels()
    most, lines = max(level.values()), []
    for number in range(1, most + 1):
        row = [name for name, at in level.items() if at == number]
        down = 30 + (most - number) * STEP
        lines += [box(90 + place * WIDE, down, name, WIDE - 12) for place, name in enumerate(row)]
    widest = max(list(level.values()).count(number) for number in range(1, most + 1))
    return svg(30 + widest * WIDE, 20 + most * STEP, lines)


RULES = {"Po": "in its thread's order", "Fr": "misses it", "Rf": "sees it", "Ws": "overwrites it"}


def ring():
    """A ring of two threads with two operations each, clockwise: each is before the next."""
    steps = rings.rings_of(Test((TOP / "examples/litmus/SB.litmus").read_text(encoding="ascii")))[0]
    # Where each box is, and its arrow's ends and label.
    places = [(130, 60), (130, 190), (470, 60), (470, 190)]
    arrows = [((130, 80), (130, 172), (140, 130)), ((192, 182), (408, 72), (200, 206)),
              ((470, 80), (470, 172), (480, 130)), ((408, 182), (192, 72), (348, 206))]
    lines = [f'<text x="{x}" y="24" text-anchor="middle" font-weight="bold">P{thread}</text>'
             for thread, x in enumerate((130, 470))]
    for (one, rule), place, (start, end, label) in zip(steps, places, arrows):
        lines.append(box(*place, f"{rings.VERBS[one.kind]} {one.name}"))
        lines.append(f'<path d="M{start[0]} {start[1]} L{end[0]} {end[1]}" stroke="#245" fill="none" '
                     f'marker-end="url(#end)"/><text x="{label[0]}" y="{label[1]}">{RULES[rule[:2]]}</text>')
    return svg(600, 220, lines)


def pictures():
    yield "past.svg", timeline.picture(read_records((TRACES / "PAST.records").read_bytes()))
    yield "first_store.svg", chart.chart([TRACES / "FIRST-STORE.trace"])
    yield "line_life.svg", line_life()
    yield "ring.svg", ring()
    yield "layers.svg", layers()


def main(check):
    faults = 0
    for name, text in pictures():
        path = TOP / "docs/pictures" / name
        if check and (not path.exists() or path.read_text(encoding="utf-8") != text):
            faults += 1
            print(f"pictures.py: {name} differs (maintain/pictures.py writes it)")
        elif not check:
            path.write_text(text, encoding="utf-8")
    if not faults:
        print("the pictures are those of the tree")
    return int(faults > 0)


if __name__ == "__main__":
    if sys.argv[1:2] in (["-h"], ["--help"]):
        raise SystemExit(print(__doc__))
    sys.exit(main(sys.argv[1:] == ["--check"]))
