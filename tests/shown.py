#!/usr/bin/env python3
"""Tries tools/chart.py, tools/steps.py and tools/timeline.py: tests/shown.py

What each must show of a few runs was worked out by hand, from docs/PROTOCOL.md and docs/SCHEDULES.md. The last line is
`N tried, M wrong`.
"""
import re
import sys
import tempfile
import xml.etree.ElementTree as xml
from pathlib import Path

sys.path.insert(0, str(Path(__file__).resolve().parent.parent))
from tests.texts import TOP, Tester  # noqa: E402

SVG = "{http://www.w3.org/2000/svg}"
# A reader of a line that a writer owns. Behind each message: from where to where, in which row of the chart it is sent,
# first delivered, and taken at last.
HANDED_ON = "0 W 0x0 1\n1 R 0x0\n"
MESSAGES = {"0: ExReq": ("core 0", "bank 0", 2, 5, 13), "1: ShReq pts 0": ("core 1", "bank 0", 4, 6, 23),
            "2: DramLd": ("bank 0", "DRAM 0", 5, 9, 9), "3: DramLdRep": ("DRAM 0", "bank 0", 9, 12, 12),
            "4: ExRep 0..0": ("bank 0", "core 0", 13, 16, 16), "5: WbReq rts 10": ("bank 0", "core 0", 14, 17, 20),
            "6: WbRep 1..11": ("core 0", "bank 0", 20, 22, 22), "7: ShRep 1..11": ("bank 0", "core 1", 23, 24, 24)}
NOTES = {"store 1 to 0x0": ("core 0", 1), "load 0x0": ("core 1", 3), "time 1": ("core 0", 18),
         "time 1, receives 1": ("core 1", 25)}
# The second word of a line of eight is stored; then the core's time advances.
STORED = "trace 2\n0 W 0x8 7\n0 A\n"
STEPS = [("turn", "event", "core 0", "bank"),
         ("1", "core 0: store: Requested", "0: -", "-"), ("1", "ExReq, core 0: Started", "0: -", "Loading"),
         ("2", "DramLd", "0: -", "Loading"), ("3", "DramLdRep", "0: -", "S 0..0 {0}"),
         ("4", "ExReq, core 0", "0: -", "E of core 0"),
         ("5", "ExRep, core 0, wts 0, rts 0", "0: E 0..0 {0}", "E of core 0"),
         ("6", "core 0: store", "1: E 1..1 {1}", "E of core 0"),
         ("7", "core 0: Advance", "2: E 1..1 {1}", "E of core 0")]
# A store at time 2 before a load at time 1 of what was there before, and a swap.
RECORDS = "0 0 W 0x8 7 2 0\n1 0 R 0x8 0 1 1\n2 0 S 0x10 5 3 3 2\n"
TITLES = ["core 0: store of 0x8, writes 7; time 2, number 0",
          "core 1: load of 0x8, receives 0; time 1, number 1, stale hit",
          "core 2: swap of 0x10, writes 5, receives 3; time 3, number 2"]
TEXTS = ["0x8 := 7", "0x8 0", "0x10 := 5 3"]
# Numbers go from 170 to 910, times from 470 up to 70; a square of 9 begins 4.5 before its middle.
POINTS = [("165.5", "265.5"), ("540.0", "470.0"), ("905.5", "65.5")]


class Chart:
    """A chart's lanes, rows, arrows and texts, by where they stand."""

    def __init__(self, text):
        self.root = xml.fromstring(text)
        self.lanes = {float(one.get("x")): one.text for one in self.root.iter(f"{SVG}text") if one.get("font-weight")
                      and one.get("y") == "40"}
        self.arrows, self.dotted = [], {}
        for path in self.root.iter(f"{SVG}path"):
            places = [float(number) for number in re.findall(r"[0-9.]+", path.get("d"))]
            if path.get("marker-end"):
                self.arrows.append((*self.place(*places[:2]), *self.place(*places[2:])))
            elif path.get("stroke-dasharray"):
                self.dotted[self.place(*places[:2])] = self.place(places[0], places[2])[1]

    def place(self, x, y):
        """The lane and the row; rows are 26 apart, and the first one is below the heads of the lanes."""
        return self.lanes[x], (y - 60) / 26

    def texts(self):
        return [(one.text, one) for one in self.root.iter(f"{SVG}text") if one.get("y") != "40"]


def charts(tester, path):
    path.write_text(HANDED_ON)
    status, out, error = tester.run(str(path))
    tester.expect((status, error) == (0, ""), f"a chart: {status} {error}")
    chart = Chart(out)
    wanted = [(start, sent, end, first) for start, end, sent, first, _ in MESSAGES.values()]
    tester.expect(chart.arrows == wanted, f"arrows: {chart.arrows}")
    wanted = {(end, first): taken for _, end, _, first, taken in MESSAGES.values() if taken > first}
    tester.expect(chart.dotted == wanted, f"dotted: {chart.dotted}")
    found = {text: one for text, one in chart.texts()}
    tester.expect(list(found) == [*MESSAGES, *NOTES], f"texts: {list(found)}")
    lanes = {lane: x for x, lane in chart.lanes.items()}
    for text, (lane, row) in NOTES.items():
        place = [float(found[text].get(name)) for name in "xy"]
        tester.expect(place == [lanes[lane] - 10, 60 + 26 * row + 4], f"{text} at {place}")
    chart = Chart(tester.run("--cores", "1", str(path))[1])
    left = {said: of for said, of in MESSAGES.items() if "core 0" not in of}
    tester.expect(list(chart.lanes.values()) == ["core 1", "bank 0", "DRAM 0"], f"lanes of core 1: {chart.lanes}")
    tester.expect(chart.arrows == [(start, sent, end, first) for start, end, sent, first, _ in left.values()],
                  f"arrows of core 1: {chart.arrows}")
    wanted = [*left, *(said for said, (lane, _) in NOTES.items() if lane == "core 1")]
    tester.expect([said for said, _ in chart.texts()] == wanted, f"texts of core 1: {chart.texts()}")


def steps(tester, path):
    """The value of the word that was asked for stands in the rows, and no other's."""
    path.write_text(STORED)
    for word, values in (("0x8", ("0", "7")), ("0x0", ("0", "0")), ("0x38", ("0", "0"))):
        status, out, error = tester.run(word, "--line-words", "8", str(path))
        got = [tuple(re.split("  +", line)) for line in out.splitlines()]
        wanted = [tuple(cell.format(*values) for cell in row) for row in STEPS]
        tester.expect((status, got, error) == (0, wanted, ""), f"the steps of {word}: {status} {out}{error}")
    path.write_text(STORED + "1 A\n")  # an advance in the first round, before messages are delivered
    status, out, error = tester.run("0x8", "--line-words", "8", "--cores", "1", str(path))
    got = [tuple(re.split("  +", line)) for line in out.splitlines()]
    wanted = [("turn", "event", "core 1", "bank"), ("1", "core 1: Advance", "1: -", "-")]
    wanted += [(turn, event, "1: -", bank.format("0")) for turn, event, _, bank in STEPS[1:]
               if not event.startswith("core 0")]
    tester.expect((status, got, error) == (0, wanted, ""), f"the steps of core 1: {status} {out}{error}")


def timelines(tester, path):
    path.write_text(RECORDS)
    status, out, error = tester.run(str(path))
    tester.expect((status, error) == (0, ""), f"a timeline: {status} {error}")
    root = xml.fromstring(out)
    titles = [one.text for one in root.iter(f"{SVG}title")]
    tester.expect(titles == TITLES, f"titles: {titles}")
    texts = [one.text for one in root.iter(f"{SVG}text") if one.get("paint-order")]
    tester.expect(texts == TEXTS, f"texts: {texts}")
    shapes = [[part.tag.removeprefix(SVG) for part in group][1:] for group in root.iter(f"{SVG}g")]
    tester.expect(shapes == [["rect"], ["circle", "path"], ["rect"]], f"shapes: {shapes}")
    points = [(group[1].get("cx") or group[1].get("x"), group[1].get("cy") or group[1].get("y"))
              for group in root.iter(f"{SVG}g")]
    tester.expect(points == POINTS, f"points: {points}")
    turned = [part.get("transform") is not None for group in root.iter(f"{SVG}g") for part in group.iter(f"{SVG}rect")]
    tester.expect(turned == [False, True], f"turned: {turned}")
    out = tester.run("--cores", "0,2", str(path))[1]
    titles = [one.text for one in xml.fromstring(out).iter(f"{SVG}title")]
    tester.expect(titles == [TITLES[0], TITLES[2]], f"titles of two cores: {titles}")
    path.write_text("1 W 0x0 1\n")
    for cores, wanted in (("0,1", (0, "")),
                          ("0", (2, f"timeline.py: {path}: no operation of these cores is completed\n"))):
        status, _, error = tester.run("--cores", cores, str(path))
        tester.expect((status, error) == wanted, f"a timeline of the cores {cores}: {status} {error}")


# What is refused in one line, by options that each of the three scripts has.
REFUSED = {"--cores a": "--cores: a isn't a list of cores, as 0,2 or 0-3", "--cores 1-0": "--cores: 1-0 isn't a list",
           "--cores 0-": "--cores: 0- isn't a list", "--cores 0,,1": "isn't a list",
           "--cores 2": "has the cores 0 to 1",
           "--lease 1_0": "--lease: 1_0 isn't a number", "--lease x": "--lease: x isn't a number",
           "--lease 0": "bad configuration: --lease 0: 1 to 4294967296",
           "--limit 0": "bad configuration: --limit 0: 1 to 4294967295",
           "--limit 4294967296": "bad configuration: --limit 4294967296: 1 to 4294967295",
           "--schedule seed --seed -1": "bad configuration: --seed -1: 0 to 18446744073709551615",
           "--schedule seed --seed 18446744073709551616": "--seed 18446744073709551616: 0 to 18446744073709551615"}
# Words that are no word of a test; f and b8 would be numbers in hexadecimal.
NO_WORDS = {"f": "names no word f", "b8": "names no word b8", "8": "names no word 8", "0x": "names no word 0x",
            "0x4": "0x4 isn't a multiple of 8"}


def others(tester, folder, words):
    """Runs that aren't all done, options, a pipe, and a test without its first line."""
    sb = TOP / "examples/litmus/SB.litmus"
    # A store that misses takes six or seven rounds, and a load behind it as many: after seven the loads aren't done.
    status, out, error = tester.run(*words, "--limit", "7", str(sb))
    wanted = f"{sb}: end limit: this is the run's beginning (docs/ENDING.md says why)\n"
    tester.expect(status == 1 and out and error.endswith(wanted), f"a run that is cut: {status} {error}")
    for given, said in REFUSED.items():
        status, out, error = tester.run(*words, *given.split(), str(sb))
        tester.expect((status, out, error.count("\n")) == (2, "", 1) and said in error, f"{given}: {status} {error}")
    whole = tester.run(*words, str(sb))
    tester.expect(tester.run(*words, "/dev/stdin", text=sb.read_bytes()) == whole and whole[0] == 0, "a pipe")
    empty = Path(folder, "empty.litmus")
    empty.write_text("")
    status, out, error = tester.run(*words, str(empty))
    tester.expect((status, out) == (2, "") and "empty.litmus: line 1: 14 CutShort" in error, f"no test: {error}")


def no_words(tester):
    for word, said in NO_WORDS.items():
        status, out, error = tester.run(word, str(TOP / "examples/litmus/SB.litmus"))
        tester.expect((status, out, error.count("\n")) == (2, "", 1) and said in error, f"{word}: {status} {error}")


def main():
    tried = []
    with tempfile.TemporaryDirectory() as folder:
        for name, part in (("chart", charts), ("steps", steps), ("timeline", timelines)):
            tried.append(Tester(str(TOP / f"tools/{name}.py")))
            part(tried[-1], Path(folder, name))
            others(tried[-1], folder, ["x"] if name == "steps" else [])
            if name == "steps":
                no_words(tried[-1])
    wrong = sum(tester.wrong for tester in tried)
    print(f"{sum(tester.tried for tester in tried)} tried, {wrong} wrong")
    return int(wrong > 0)


if __name__ == "__main__":
    sys.exit(print(__doc__) if sys.argv[1:] else main())
