"""Plots of one number over another, for tools/sweep.py and tools/compare.py: lines with labels, and crosses."""
import math
from xml.sax.saxutils import escape


COLOURS = ("#3b7dd8", "#d8663b", "#5a9a3c", "#8d6bc7", "#e0b13c", "#3aa6a6", "#c14f8a", "#777777")
# Of a panel, and of what lies left, right, above and below of the plot.
WIDTH, HEIGHT, LEFT, RIGHT, HIGHEST, BELOW = 960, 480, 80, 320, 30, 50


class Axis:
    """Where numbers up to `most` are on an axis: it begins at 0, or at 1 if it is logarithmic."""

    def __init__(self, most, start, end, is_log):
        self.most, self.start, self.end, self.is_log = max(most, 10) if is_log else most or 1, start, end, is_log

    def at(self, number):
        if self.is_log:
            return self.start + (self.end - self.start) * math.log(number) / math.log(self.most)
        return self.start + number * (self.end - self.start) / self.most

    def ticks(self):
        """Some five numbers, in steps of 1, 2 or 5 and zeros behind it; on a logarithmic axis the powers of ten."""
        if self.is_log:
            return [10 ** zeros for zeros in range(21) if 10 ** zeros <= self.most]
        steps = (digit * 10 ** zeros for zeros in range(21) for digit in (1, 2, 5))
        step = next(step for step in steps if self.most <= 5 * step)
        return range(0, self.most + 1, step)


def words(x, y, text, anchor="start", more=""):
    return f'<text x="{x:.1f}" y="{y:.1f}" text-anchor="{anchor}"{more}>{escape(text)}</text>'


def grid(across, down):
    """The lines of the plot's grid, with their numbers."""
    for number in across.ticks():
        at = across.at(number)
        yield f'<path d="M{at:.1f} {HIGHEST}V{down.start + 5:.1f}" stroke="#ddd"/>'
        yield words(at, down.start + 20, str(number), "middle")
    for number in down.ticks():
        at = down.at(number)
        yield f'<path d="M{LEFT - 5:.1f} {at:.1f}H{WIDTH - RIGHT}" stroke="#ddd"/>'
        yield words(LEFT - 9, at + 4, str(number), "end")


def drawn(number, said, of, cut):
    """A line of the plot, with its label at the right, and the crosses next to it."""
    colour = COLOURS[number % len(COLOURS)]
    joined = " ".join(f"{at:.1f},{down:.1f}" for at, down in of)
    yield f'<polyline fill="none" stroke="{colour}" points="{joined}"/>'
    if len(of) <= 50:
        yield from (f'<circle cx="{at:.1f}" cy="{down:.1f}" r="2.5" fill="{colour}"/>' for at, down in of)
    yield from (f'<path d="M{at - 3:.1f} {down - 3:.1f}l6 6m0 -6l-6 6" stroke="{colour}"/>' for at, down in cut)
    said += f" ({len(cut)} cut short: \N{MULTIPLICATION SIGN})" if cut else ""
    yield words(WIDTH - RIGHT + 12, HIGHEST + 18 * number + 4, said, more=f' fill="{colour}"')


def panel(found, x, y, log):
    """A plot of points by their lines' labels: those of whole runs, then those of runs that were cut short."""
    least = [int(name in log) for name in "xy"]  # a logarithmic axis has no 0
    found = {said: [[point for point in of if point[0] >= least[0] and point[1] >= least[1]] for of in kinds]
             for said, kinds in found.items()}
    points = [point for kinds in found.values() for of in kinds for point in of]
    most = [max((point[axis] for point in points), default=0) for axis in (0, 1)]
    across, down = Axis(most[0], LEFT, WIDTH - RIGHT, "x" in log), Axis(most[1], HEIGHT - BELOW, HIGHEST, "y" in log)
    yield from grid(across, down)
    yield words((LEFT + WIDTH - RIGHT) / 2, HEIGHT - 8, x, "middle", ' font-weight="bold"')
    yield words(LEFT, HIGHEST - 12, y, "middle", ' font-weight="bold"')
    for number, (said, kinds) in enumerate(found.items()):
        yield from drawn(number, said, *([(across.at(one), down.at(other)) for one, other in of] for of in kinds))


def picture(panels, x, y, log=""):
    """The picture's text: a plot for each panel, by its label, one below the other. `log` has x, y, both or none."""
    highs = [max(HEIGHT, HIGHEST + 18 * len(found)) for found in panels.values()]
    yield f'<svg xmlns="http://www.w3.org/2000/svg" width="{WIDTH}" height="{sum(highs)}" font-family="sans-serif" ' \
          'font-size="12">'
    yield '<rect width="100%" height="100%" fill="white"/>'
    for number, (label, found) in enumerate(panels.items()):
        yield from [f'<g transform="translate(0 {sum(highs[:number])})">'] * bool(label)
        yield from panel(found, x, f"{y}, {label}" if label else y, log)
        yield from ["</g>"] * bool(label)
    yield "</svg>"
