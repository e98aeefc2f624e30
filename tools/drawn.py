"""What pictures share: texts, and places for labels so that none lies over another."""
from html import escape

WIDE, HIGH = 0.6, 1.25  # of a letter and of a line, for a size of 1


def text(x, y, words, anchor="middle", more=""):
    return f'<text x="{x:g}" y="{y:g}" text-anchor="{anchor}"{more}>{escape(str(words))}</text>'


def halo(colour="white"):
    """A text keeps readable over lines."""
    return f' stroke="{colour}" stroke-width="4" paint-order="stroke"'


class Labels:
    """Labels of one size. `place` gives the first of some places for a label that is free, or else the last."""

    def __init__(self, size):
        self.size, self.taken = size, []

    def box(self, x, y, words, anchor):
        wide = WIDE * self.size * len(words)
        left = x - {"start": 0, "middle": wide / 2, "end": wide}[anchor]
        return left, y - self.size, left + wide, y - self.size + HIGH * self.size

    def is_free(self, box):
        return all(box[2] <= one[0] or one[2] <= box[0] or box[3] <= one[1] or one[3] <= box[1] for one in self.taken)

    def place(self, words, places):
        """A place is x, y and the anchor of the text."""
        boxes = [self.box(x, y, words, anchor) for x, y, anchor in places]
        chosen = next((at for at, box in enumerate(boxes) if self.is_free(box)), len(boxes) - 1)
        self.taken.append(boxes[chosen])
        return places[chosen]
