#!/usr/bin/env python3
"""Draws the records of a run as a picture: completion number against timestamp, with a colour for each core.

    tools/timeline.py RECORDS > picture.svg
    tools/timeline.py [options] FILE > picture.svg      of a test or a trace, by the second program (oracle.py)

A load is a ring, a store a square, a swap a diamond. A stale hit is crossed out in red: a load of a value that was
overwritten by a smaller completion number at a greater time. Points to the right and below others read the past. Below
thirty points each has its word, with the value that it received (x 0) or that it wrote (x := 7).

If the run isn't all done, its beginning is shown, standard error says how it ended, and the status is 1.
"""
import sys
from pathlib import Path

sys.path.insert(0, str(Path(__file__).resolve().parent.parent))
from reference.given import Bad, Subject, Words, records_of, status_of, tool  # noqa: E402
from reference.order import stale_loads  # noqa: E402
from tools.drawn import Labels, halo, text  # noqa: E402


WIDTH, HEIGHT, LEFT, TOP, RIGHT, BOTTOM = 1040, 540, 160, 60, 120, 60
PARTS, FEW, SIZE = 5, 30, 13


class Scale:
    """Places of numbers from `least` to `most` along an axis from `start` to `end`."""

    def __init__(self, numbers, start, end):
        self.least, self.most = min(numbers, default=0), max(numbers, default=0)
        self.start, self.end = start, end

    def at(self, number):
        # The quotient is made of whole numbers, since times may have 64 bits.
        wide = max(self.most - self.least, 1)
        return round(self.start + (self.end - self.start) * ((number - self.least) * 10000 // wide) / 10000, 1)

    def marks(self):
        """A few numbers along the axis."""
        wide = self.most - self.least
        return sorted({self.least + wide * part // PARTS for part in range(PARTS + 1)})


def colour(core):
    """Neighbouring cores have colours far from one another, by the golden section, and none is red."""
    return f"hsl({round(30 + (180 + core * 114.59) % 300)}, 65%, {36 + core % 3 * 6}%)"


def shape(record, x, y):
    paint = colour(record.core)
    if record.kind == "load":
        return f'<circle cx="{x}" cy="{y}" r="5" fill="white" stroke="{paint}" stroke-width="2"/>'
    turned = f' transform="rotate(45 {x} {y})"' if record.kind == "swap" else ""
    return f'<rect x="{x - 4.5:.1f}" y="{y - 4.5:.1f}" width="9" height="9" fill="{paint}"{turned}/>'


def cross(x, y):
    return (f'<path d="M{x - 8:.1f} {y - 8:.1f} L{x + 8:.1f} {y + 8:.1f} M{x - 8:.1f} {y + 8:.1f} '
            f'L{x + 8:.1f} {y - 8:.1f}" stroke="red" stroke-width="1.5"/>')


def told(record, name):
    """A point's word and value."""
    value = f" := {record.value}" if record.value is not None else ""
    return f"{name(record.word)}{value}" + ("" if record.received is None else f" {record.received}")


def labels(records, stale, across, up, name):
    """A label next to each point, where no other label and no point lies."""
    placed = Labels(SIZE)
    for record in records:
        x, y = across.at(record.number), up.at(record.time)
        placed.taken.append((x - 8, y - 8, x + 8, y + 8))
    for record in records:
        x, y, said = across.at(record.number), up.at(record.time), told(record, name)
        places = [(x, y + by, "middle") for by in (-12, 22, -27, 37, -42, 52)]
        is_past = record.number in stale
        more = f' fill="{"red" if is_past else colour(record.core)}" font-size="{SIZE}"' + ' font-weight="bold"' * is_past
        yield text(*placed.place(said, places)[:2], said, more=more + halo())


def label(record, stale):
    """What a point shows when the mouse rests on it."""
    said = f"core {record.core}: {record.kind} of {8 * record.word:#x}"
    said += "" if record.value is None else f", writes {record.value}"
    said += "" if record.received is None else f", receives {record.received}"
    return f"{said}; time {record.time}, number {record.number}{', stale hit' if stale else ''}"


def point(record, stale, across, up):
    x, y = across.at(record.number), up.at(record.time)
    drawn = shape(record, x, y) + (cross(x, y) if stale else "")
    return f"<g><title>{label(record, stale)}</title>{drawn}</g>"


def axes(across, up):
    right, bottom = WIDTH - RIGHT, HEIGHT - BOTTOM
    yield f'<path d="M{LEFT} {TOP} V{bottom} H{right}" fill="none" stroke="black"/>'
    for number in across.marks():
        yield f'<path d="M{across.at(number)} {TOP} V{bottom + 5}" stroke="#ddd"/>'
        yield text(across.at(number), bottom + 20, number)
    for time in up.marks():
        yield f'<path d="M{LEFT - 5} {up.at(time)} H{right}" stroke="#ddd"/>'
        yield text(LEFT - 8, up.at(time) + 4, time, "end")
    yield text((LEFT + right) / 2, HEIGHT - 15, "completion number")
    middle = (TOP + bottom) / 2
    yield text(18, middle, "timestamp", more=f' transform="rotate(-90 18 {middle})"')


def path_of(core, records, across, up):
    """A core's records joined in program order."""
    places = " L".join(f"{across.at(record.number)} {up.at(record.time)}" for record in records if record.core == core)
    return f'<path d="M{places}" fill="none" stroke="{colour(core)}" stroke-opacity="0.35"/>'


def legend(cores, stale):
    for place, core in enumerate(cores):
        y = TOP + 10 + place * min(18, (HEIGHT - TOP - BOTTOM) / max(len(cores), 1))
        yield f'<rect x="{WIDTH - RIGHT + 15}" y="{y - 6:.1f}" width="9" height="9" fill="{colour(core)}"/>'
        yield text(WIDTH - RIGHT + 30, round(y + 3, 1), f"core {core}", "start")
    yield text(LEFT, 25, f"ring: load, square: store, diamond: swap, red cross: stale hit ({stale})", "start")


def address(word):
    return f"{8 * word:#x}"


def picture(records, name=address):
    """`name` gives a word's name by its number."""
    records = sorted(records, key=lambda record: record.number)
    across = Scale([record.number for record in records], LEFT + 10, WIDTH - RIGHT - 10)
    up = Scale([record.time for record in records], HEIGHT - BOTTOM - 10, TOP + 10)
    cores = sorted({record.core for record in records})
    stale = set(stale_loads(records))
    lines = [f'<svg xmlns="http://www.w3.org/2000/svg" width="{WIDTH}" height="{HEIGHT}" font-family="sans-serif" '
             'font-size="11">', f'<rect width="{WIDTH}" height="{HEIGHT}" fill="white"/>']
    lines += axes(across, up)
    lines += [path_of(core, records, across, up) for core in cores]
    lines += [point(record, record.number in stale, across, up) for record in records]
    lines += labels(records, stale, across, up, name) if len(records) < FEW else []
    lines += [*legend(cores, len(stale)), "</svg>"]
    return "\n".join(lines) + "\n"


def main(given):
    words = Words(__doc__)
    words.run_options()
    options = words.parse_args(given)
    records, name, end = records_of(options.FILE), address, "all-done"
    if records is None:
        subject = Subject(options.FILE)
        run, end = subject.run(options)
        records, name = run.machine.records, subject.name
    shown = [record for record in records if options.cores is None or record.core in options.cores]
    if not shown:
        raise Bad(f"{options.FILE}: no operation of these cores is completed")
    sys.stdout.write(picture(shown, name))
    return status_of(options.FILE, end)


if __name__ == "__main__":
    tool(main)
