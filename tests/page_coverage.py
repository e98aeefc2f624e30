"""Says which blocks of tools/shown/page.js no page of tests/page.py ran, by Chromium's own coverage.

A block is a range of the script that V8 counts by itself in some load of a page: a function, an arm of a condition or
of `&&`, `||` and `?:`, a loop's body, what follows a `return` that may be taken. It ran if any part of it ran in any
load. One that lies in another that never ran doesn't count. V8 doesn't say whether an `if` without an `else` was ever
passed by, nor whether a condition was tried both ways if one of them leads nowhere.
"""
from pathlib import Path

from tests.browser import Browser
from tests.covered import TABLE, excused

TOP = Path(__file__).resolve().parent.parent
SCRIPT = "tools/shown/page.js"


class Watched(Browser):
    """A browser that notes what of the script ran in each load of a page. What V8 compiled for an earlier page it must
    not use again, since it would then count functions only."""
    FLAGS = ("--js-flags=--no-compilation-cache",)

    def __init__(self, program):
        super().__init__(program)
        self.text = (TOP / SCRIPT).read_text(encoding="utf-8")
        self.ran, self.ranges, self.loads = bytearray(len(self.text)), set(), 0
        self.call("Profiler.enable")
        self.call("Profiler.startPreciseCoverage", callCount=True, detailed=True)

    def open(self, *of, **more):
        self.note()
        super().open(*of, **more)

    def close(self):
        self.note()
        super().close()

    def note(self):
        """Adds what ran since the page was opened. A range's count is that of the characters in it, but for those of a
        range inside. The page has a line's end before the script, and the offsets are those of the page's element."""
        for script in self.call("Profiler.takePreciseCoverage")["result"]:
            if not script["url"].startswith("file:"):
                continue
            assert all(one["isBlockCoverage"] or not one["ranges"][0]["count"] for one in script["functions"])
            ranges = [(one["startOffset"], -one["endOffset"], one["count"]) for function in script["functions"]
                      for one in function["ranges"]]
            before = max(-end for _, end, _ in ranges) - len(self.text)
            assert before == 1, f"{SCRIPT} and the page's script differ"
            here = bytearray(len(self.text))
            for start, end, count in sorted(ranges, key=lambda one: one[:2]):
                first, last = max(start - before, 0), -end - before
                here[first:last] = bytes([count > 0]) * (last - first)
                self.ranges.add((first, last))
            self.ran = bytearray(map(max, self.ran, here))
            self.loads += 1

    def judged(self):
        """Prints the blocks that never ran and have no row in the table, and how many did; how many are left."""
        unrun, rows = [], excused(TABLE.read_text(encoding="utf-8"))
        counts, lines = {"excused": 0, "left": 0}, self.text.splitlines()
        for first, last in sorted(self.ranges, key=lambda one: (one[0], -one[1])):
            if not any(self.ran[first:last]) and (not unrun or last > unrun[-1][1]):
                unrun.append((first, last))
        for first, last in unrun:
            number = self.text.count("\n", 0, first)
            kind = "excused" if (SCRIPT, lines[number].strip()) in rows else "left"
            counts[kind] += 1
            if kind == "left":
                print(f"{SCRIPT}:{number + 1}: never ran: {' '.join(self.text[first:last].split())[:80]}")
        inside = {one for one in self.ranges if not any(self.ran[slice(*one)])} - set(unrun)
        count = len(self.ranges - inside)
        print(f"{count - len(unrun)} blocks of {count} of {SCRIPT} ran in {self.loads} loads, {counts['excused']} in "
              f"tests/covered.table, {counts['left']} left")
        return counts["left"]
