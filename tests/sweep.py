#!/usr/bin/env python3
"""Tries tools/sweep.py: tests/sweep.py PROGRAM PLAYER, the built crates tardis and play_events.

The rows of a small sweep were worked out by hand. Runs that fail have rows that say so, a sweep that was stopped goes
on, and the plot's points are where they belong. The last line is `N tried, M wrong`.
"""
import csv
import os
import signal
import subprocess
import sys
import tempfile
import time
import xml.etree.ElementTree as xml
from pathlib import Path

sys.path.insert(0, str(Path(__file__).resolve().parent.parent))
from tests.texts import PATIENCE, TOP, Tester, oracle  # noqa: E402
from tools import plots, sweep  # noqa: E402


# Two loads of a word, with three advances between them. The second load, at time 3, asks anew if the lease is below 3.
RENEWED, ALONE = "trace 2\n0 R 0x0\n0 A\n0 A\n0 A\n0 R 0x0\n", "0 W 0x0 1\n"
# With lease 1 and an advance after each, the loads are at the times 0 to 3, and the one at time 2 asks anew.
LOADS, BY_ADVANCE = "0 R 0x0\n" * 4, [("0", "0", "0"), ("1", "1", "3"), ("2", "0", "1")]
NAMED = "# two\nshort : --lease 1,3\n\nlong: --lease 4 --private-write yes # and one\nsame: --lease 3\n"
# The columns that are looked at, and their rows by lease, for lines of one word.
LOOKED = ["lease", "line-words", "completed", "end", "renewals", "stale-hits", "order", "hits", "misses", "last-time",
          "turns", "events", "dram-loads", "RenewRep-delivered", "failed"]
BY_LEASE = {"1": "2 all-done 1 0 legal 0 2 3 12 23 1 1", "2": "2 all-done 1 0 legal 0 2 3 12 23 1 1",
            "3": "2 all-done 0 0 legal 1 1 3 10 19 1 0", "4": "2 all-done 0 0 legal 1 1 3 10 19 1 0"}
FAILED = "bad configuration: --line-words 2: 1 or 8"
SVG = "{http://www.w3.org/2000/svg}"


def wanted_row(lease, line_words):
    if line_words == "2":
        return [lease, line_words] + [""] * (len(LOOKED) - 3) + [FAILED]
    return [lease, line_words, *BY_LEASE[lease].split(" "), ""]


class Sweeper(Tester):
    """Sweeps in a folder."""

    def __init__(self, player):
        super().__init__(str(TOP / "tools/sweep.py"))
        self.player = player

    def sweep(self, *words, status=0, made=None, rows=None, failed=0, cut=0, table="sweep.csv"):
        """The rows of the table, if the script says what it must."""
        got = self.run(*words)
        counted = f"{table}: {rows} rows, {failed} failed, {cut} cut short\n"
        *told, why = got[2].splitlines(True) if failed else [got[2], ""]
        wanted = status, counted, f"{made} of {made} rows\n" if made else ""
        good = (*got[:2], "".join(told)) == wanted and why.endswith(": delete the row to try again\n" * (failed > 0))
        self.expect(good, f"{words}: {got}, wanted {wanted}")
        with open(table, newline="", encoding="utf-8") as file:
            return list(csv.DictReader(file))

    def refused(self, wanted, *words):
        got = self.run(*words)
        self.expect(got[:2] == (2, "") and wanted in got[2] and got[2].count("\n") == 1, f"{words}: {got}")


def by_hand(tester):
    """All combinations, in their order; the lines of two words fail."""
    options = ["--counts", "--player", tester.player, "--lease", "1..3,4", "--line-words", "1,2"]
    rows = tester.sweep(*options, "renewed.trace", status=1, made=8, rows=8, failed=4)
    got = [[row[name] for name in LOOKED] for row in rows]
    wanted = [wanted_row(lease, words) for lease in "1234" for words in "12"]
    tester.expect(got == wanted, f"by hand: {got}, wanted {wanted}")
    tester.expect(all(row["trace"] == "renewed.trace" and row["schedule"] == "round" and row["ways"] == "4" and
                      row["private-write"] == "no" for row in rows), f"options: {rows[0]}")
    with_all = tester.sweep("--private-write", "both", "--schedule", "seed,round", "--seed", "0,1", "--csv", "two.csv",
                            "renewed.trace", "alone.trace", made=16, rows=16, table="two.csv")
    kinds = [(row["trace"], row["schedule"], row["seed"], row["private-write"]) for row in with_all]
    wanted = [(trace, schedule, seed, private) for trace in ("renewed.trace", "alone.trace")
              for schedule in ("seed", "round") for seed in "01" for private in ("no", "yes")]
    tester.expect(kinds == wanted, f"combinations: {kinds}")
    cut = tester.sweep("--csv", "cut.csv", "--limit", "3", "alone.trace", status=1, made=1, rows=1, cut=1,
                       table="cut.csv")
    tester.expect((cut[0]["end"], cut[0]["failed"], cut[0]["completed"]) == ("limit", "", "0"), f"a cut run: {cut}")
    missing = tester.sweep("--csv", "none.csv", "none.trace", "bad.trace", status=1, made=2, rows=2, failed=2,
                           table="none.csv")
    said = [row["failed"] for row in missing]
    tester.expect("read failed" in said[0] and said[1].endswith("line 1: 4 BadCore"), f"no trace: {said}")
    again = tester.run("--csv", "none.csv", "none.trace", "bad.trace")[2]
    tester.expect(again == "sweep.py: none.trace: read failed: delete the row to try again\n", f"why: {again}")


def advances(tester):
    """Traces with advances: renewals and the last time of each."""
    rows = tester.sweep("--csv", "advance.csv", "--counts", "--player", tester.player, "--lease", "1", "--advance",
                        "0..2", "loads.trace", made=3, rows=3, table="advance.csv")
    got = [(row["advance"], row["renewals"], row["last-time"]) for row in rows]
    tester.expect(got == BY_ADVANCE, f"advances: {got}, wanted {BY_ADVANCE}")
    bad = tester.sweep("--csv", "bad.csv", "--advance", "1", "bad.trace", "none.trace", status=1, made=2, rows=2,
                       failed=2, table="bad.csv")
    said = [row["failed"] for row in bad]
    tester.expect(said == ["bad.trace: line 1: 4 BadCore", "none.trace: No such file or directory"], f"bad: {said}")


def names(tester):
    """The combinations of each line of a file of names, and a plot with a line for each."""
    Path("names").write_text(NAMED)
    rows = tester.sweep("--csv", "names.csv", "--named", "names", "--lease", "2", "--time", "5", "--plot",
                        "lease:renewals", "renewed.trace", made=4, rows=4, table="names.csv")
    got = [(row["name"], row["lease"], row["private-write"], row["time"], row["renewals"]) for row in rows]
    wanted = [("short", "1", "no", "5", "1"), ("short", "3", "no", "5", "0"), ("long", "4", "yes", "5", "0"),
              ("same", "3", "no", "5", "0")]
    tester.expect(got == wanted, f"names: {got}, wanted {wanted}")
    root = xml.parse("names.svg").getroot()
    said = [text.text for text in root.iter(f"{SVG}text")][-3:]
    points = [line.get("points") for line in root.iter(f"{SVG}polyline")]
    wanted = ["short", "long", "same"], ["220.0,30.0 500.0,430.0", "640.0,430.0", "500.0,430.0"]
    tester.expect((said, points) == wanted, f"{said} {points}")
    for text, wrong in (("one\n", "names, line 1: a new name"), ("a:\n\na:\n", "names, line 3: a new name"),
                        (":\n", "names, line 1: a new name"), ("# a: b\n", "names has no name"),
                        ("a: --csv b\n", "names, line 1: unrecognized arguments: --csv b"),
                        ("a: b.trace\n", "names, line 1: unrecognized"), ("a: 'b\n", "names, line 1: No closing"),
                        ("a: --lease x\n", "x is no number"),
                        ("a: --seed 0..999998\nb: --lease 1,2\n", "rows are too many")):
        Path("names").write_text(text)
        tester.refused(wrong, "--named", "names", "renewed.trace")
    tester.refused("none: No such file or directory", "--named", "none", "renewed.trace")


def goes_on(tester):
    """What the table has isn't made again; what was half written is."""
    rows = tester.sweep("--csv", "on.csv", "--lease", "2..3", "renewed.trace", made=2, rows=2, table="on.csv")
    table = Path("on.csv")
    text = table.read_text().replace(",all-done,2,0,0,1,", ",all-done,2,0,0,777,")
    table.write_text(text + "renewed.trace,round,0,100000,4,0,1")
    more = tester.sweep("--csv", "on.csv", "--lease", "1..4", "renewed.trace", made=2, rows=4, table="on.csv")
    got = [(row["lease"], row["renewals"]) for row in more]
    tester.expect(got == [("2", "777"), ("3", "0"), ("1", "1"), ("4", "0")], f"goes on: {got}")
    tester.expect(len(rows) == 2 and table.read_text().startswith(text), "a row was written anew")
    again = tester.sweep("--csv", "on.csv", "--lease", "1..4", "renewed.trace", rows=4, table="on.csv")
    tester.expect(again == more, "a whole table was changed")


def plot(tester):
    """A line for each private-write, from lease 1 to 4: renewals 1, 1, 0, 0."""
    tester.sweep("--csv", "plot.csv", "--lease", "1..4", "--private-write", "both", "--plot", "lease:renewals",
                 "renewed.trace", made=8, rows=8, table="plot.csv")
    root = xml.parse("plot.svg").getroot()
    lines = [line.get("points") for line in root.iter(f"{SVG}polyline")]
    # The plot goes from 80 to 640 for the leases 0 to 4, and from 430 up to 30 for 0 to 1 renewals.
    tester.expect(lines == ["220.0,30.0 360.0,30.0 500.0,430.0 640.0,430.0"] * 2, f"points: {lines}")
    said = [text.text for text in root.iter(f"{SVG}text")]
    wanted = ["0", "1", "2", "3", "4", "0", "1", "lease", "renewals", "private-write no", "private-write yes"]
    tester.expect(said == wanted, f"what the plot says: {said}")
    tester.sweep("--csv", "plot.csv", "--plot", "seed:completed", "--svg", "a.svg", "--seed", "0..99",
                 "alone.trace", made=100, rows=100, table="plot.csv")
    root = xml.parse("a.svg").getroot()
    points = [line.get("points") for line in root.iter(f"{SVG}polyline")]
    tester.expect(len(points) == 1 and len(points[0].split(" ")) == 100, f"100 points: {points}")


def logarithmic(tester):
    """Leases 0, 1, 10 and 100 on a logarithmic axis, without 0, and a panel for each private-write."""
    rows = tester.sweep("--csv", "log.csv", "--time", "1,10,100", "--private-write", "both", "--plot", "time:last-time",
                        "--counts", "--player", tester.player, "--log", "xy", "--panel", "private-write", "alone.trace",
                        made=6, rows=6, table="log.csv")
    got = [(row["time"], row["last-time"]) for row in rows[::2]]
    tester.expect(got == [("1", "2"), ("10", "11"), ("100", "101")], f"logarithmic: {got}")
    root = xml.parse("log.svg").getroot()
    tester.expect(root.get("height") == "960", f"two panels: {root.get('height')}")
    moved = [group.get("transform") for group in root.iter(f"{SVG}g")]
    tester.expect(moved == ["translate(0 0)", "translate(0 480)"], f"panels: {moved}")
    lines = [line.get("points").split(" ") for line in root.iter(f"{SVG}polyline")]
    # From 80 to 640 for the times 1 to 100: 10 is half-way. From 430 up to 30 for 1 to 101.
    tester.expect([[point.split(",")[0] for point in line] for line in lines] == [["80.0", "360.0", "640.0"]] * 2 and
                  [line[2] for line in lines] == ["640.0,30.0"] * 2, f"logarithmic points: {lines}")
    said = [text.text for text in root.iter(f"{SVG}text")]
    tester.expect(said[:7] == ["1", "10", "100", "1", "10", "100", "time"] and
                  said.count("last-time, private-write no") == said.count("last-time, private-write yes") == 1,
                  f"what the panels say: {said}")
    tester.sweep("--csv", "log.csv", "--time", "0,1", "--plot", "time:renewals", "--log", "x", "--counts", "--player",
                 tester.player, "alone.trace", made=1, rows=2, table="log.csv")
    points = [line.get("points") for line in xml.parse("log.svg").getroot().iter(f"{SVG}polyline")]
    tester.expect(points == ["80.0,430.0"], f"a time of 0 on a logarithmic axis: {points}")


def shown(tester):
    """--where leaves rows out of the plot and of the short table, which has no columns that are equal in each row."""
    tester.sweep("--csv", "all.csv", "--counts", "--player", tester.player, "--lease", "1..4", "--plot",
                 "lease:renewals", "--where", "lease=2..3,4", "--where", "trace=renewed.trace", "--short", "short.csv",
                 "renewed.trace", "alone.trace", made=8, rows=8, table="all.csv")
    points = [line.get("points") for line in xml.parse("all.svg").getroot().iter(f"{SVG}polyline")]
    tester.expect(points == ["360.0,30.0 500.0,430.0 640.0,430.0"], f"--where: {points}")
    # With lease 2 the second load is a renewal, and takes two rounds and four events more.
    wanted = "lease,renewals,turns,events,hits,misses,ShReq-sent,RenewRep-sent\n" \
             "2,1,12,23,0,2,2,1\n3,0,10,19,1,1,1,0\n4,0,10,19,1,1,1,0\n"
    tester.expect(Path("short.csv").read_text() == wanted, f"--short: {Path('short.csv').read_text()}")
    # After three rounds the request isn't yet delivered, and no reply is sent.
    tester.sweep("--csv", "cut-2.csv", "--counts", "--player", tester.player, "--limit", "3,9", "--short", "short.csv",
                 "alone.trace", status=1, made=2, rows=2, cut=1, table="cut-2.csv")
    head = Path("short.csv").read_text().split("\n", 1)[0].split(",")
    tester.expect("ExReq-delivered" in head and "ExRep-sent" in head and "ExRep-delivered" not in head,
                  f"--short of a run that was cut: {head}")
    tester.refused("--where no=1: there is no column no", "--where", "no=1", "alone.trace")
    tester.refused("--panel no: there is no such column", "--panel", "no", "alone.trace")
    for name, value in (("--svg", "a.svg"), ("--log", "x"), ("--panel", "lease")):
        tester.refused(f"{name} needs --plot", name, value, "alone.trace")
    tester.refused("--where needs --plot or --short", "--where", "lease=1", "alone.trace")
    tester.refused("--where lease: COLUMN=LIST is wanted", "--where", "lease", "--short", "s.csv", "alone.trace")
    for words in (("--csv", "alone.trace"), ("--short", "./alone.trace"), ("--named", "n", "--csv", "n"),
                  ("--plot", "lease:renewals", "--svg", "alone.trace"), ("--csv", "a.csv", "--short", "./a.csv"),
                  ("--csv", "a.svg", "--plot", "lease:renewals")):
        tester.refused("would be overwritten", *words, "alone.trace")
    tester.expect(Path("alone.trace").read_text() == ALONE, "the trace is overwritten")
    tester.refused("--player needs --counts", "--player", tester.player, "alone.trace")
    tester.refused("no row is left to be drawn", "--csv", "all.csv", "--where", "lease=7", "--plot", "lease:renewals",
                   "--lease", "1", "--counts", "--player", tester.player, "alone.trace")


def parts(tester):
    """Three parts of seven rows, joined; and parts that lack rows."""
    words = ["--lease", "1..7", "renewed.trace"]
    whole = tester.sweep("--csv", "whole.csv", *words, made=7, rows=7, table="whole.csv")
    for part, count in ((0, 3), (1, 2), (2, 2)):
        tester.sweep("--csv", "p.csv", "--part", str(part), "--parts", "3", *words, made=count, rows=count,
                     table=f"p.{part:06}.csv")
    joined = tester.sweep("--csv", "p.csv", "--parts", "3", *words, rows=7, table="p.csv")
    tester.expect(sorted(joined, key=lambda row: row["lease"]) == whole, f"joined: {joined}")
    Path("p.000001.csv").write_text("".join(Path("p.000001.csv").read_text().splitlines(True)[:-1]))
    Path("p.csv").unlink()
    tester.refused("p.000001.csv lacks 1 rows: make them by --part 1", "--csv", "p.csv", "--parts", "3", *words)
    Path("p.000002.csv").unlink()
    tester.sweep("--csv", "p.csv", "--part", "1", "--parts", "3", *words, made=1, rows=2, table="p.000001.csv")
    tester.refused("p.000002.csv lacks 2 rows: make them by --part 2", "--csv", "p.csv", "--parts", "3", *words)
    for bad in (["--part", "3", "--parts", "3"], ["--part", "0"]):
        tester.refused("--part K is one of --parts N, from 0", *bad, "alone.trace")
    tester.refused("isn't a number from 1 to", "--parts", "0", "alone.trace")


def interrupted(tester):
    """Ctrl-C ends a sweep without a word but its progress, and the table goes on from there."""
    words = ["--csv", "stopped.csv", "--jobs", "2", "--lease", "1..4000", "renewed.trace"]
    signal.signal(signal.SIGINT, signal.default_int_handler)  # where the shell has this script ignore it, as behind `&`
    with subprocess.Popen([tester.program, *words], stdout=subprocess.PIPE, stderr=subprocess.PIPE) as ran:
        while ran.poll() is None and not (Path("stopped.csv").exists() and
                                          Path("stopped.csv").read_text().count("\n") > 3):
            time.sleep(0.05)
        ran.send_signal(signal.SIGINT)
        out, error = ran.communicate(timeout=PATIENCE)
    made = Path("stopped.csv").read_text().count("\n") - 1
    tester.expect((ran.returncode, out) == (1, b"") and b"Traceback" not in error and 3 <= made < 4000,
                  f"Ctrl-C: {ran.returncode} {out} {error[-300:]} {made}")
    rows = tester.sweep("--csv", "stopped.csv", "--lease", "1..3", "renewed.trace", rows=3, table="stopped.csv")
    tester.expect([row["renewals"] for row in rows[:3]] == ["1", "1", "0"], f"behind Ctrl-C: {rows}")


def cut_short(tester):
    """Runs that a limit cuts are crosses next to the line, and counted apart. The store takes six rounds."""
    rows = tester.sweep("--csv", "limited.csv", "--plot", "limit:completed", "--limit", "5..8", "--lease", "0,1",
                        "alone.trace", status=1, made=8, rows=8, failed=4, cut=1, table="limited.csv")
    ends = [row["end"] for row in rows]
    tester.expect(ends == ["", "limit", "", "all-done", "", "all-done", "", "all-done"], f"ends: {ends}")
    root = xml.parse("limited.svg").getroot()
    points = [line.get("points") for line in root.iter(f"{SVG}polyline")]
    # The plot goes from 80 to 640 for the limits 0 to 8, and from 430 up to 30 for 0 to 1 operations.
    tester.expect(points == ["500.0,30.0 570.0,30.0 640.0,30.0"], f"whole runs: {points}")
    crosses = [path.get("d") for path in root.iter(f"{SVG}path") if "l6 6" in path.get("d")]
    tester.expect(crosses == ["M427.0 427.0l6 6m0 -6l-6 6"], f"a cut run: {crosses}")
    said = [text.text for text in root.iter(f"{SVG}text")][-1]
    tester.expect(said == "lease 1 (1 cut short: \N{MULTIPLICATION SIGN})", f"the cut run's label: {said}")
    # A network that is too small cuts a run, too.
    rows = tester.sweep("--csv", "small.csv", "--messages", "1,2", "alone.trace", status=1, made=2, rows=2, cut=1,
                        table="small.csv")
    tester.expect([row["end"] for row in rows] == ["stalled", "all-done"], f"a small network: {rows}")
    # By round 7 two loads are issued and done, more than of the whole run: the plot has room for the cross, too.
    tester.sweep("--csv", "seven.csv", "--plot", "issued:completed", "--limit", "7", "alone.trace", "loads.trace",
                 status=1, made=2, rows=2, cut=1, table="seven.csv")
    root = xml.parse("seven.svg").getroot()
    points = [line.get("points") for line in root.iter(f"{SVG}polyline")]
    crosses = [path.get("d") for path in root.iter(f"{SVG}path") if "l6 6" in path.get("d")]
    tester.expect((points, crosses) == (["360.0,230.0", ""], ["M637.0 27.0l6 6m0 -6l-6 6"]),
                  f"a cross behind the points: {points} {crosses}")


def fair(tester):
    """By fair rounds a trace ends that else goes on until its limit."""
    trace = str(TOP / "examples/traces/LIVELOCK.trace")
    rows = tester.sweep("--csv", "fair.csv", "--counts", "--player", tester.player, "--fair", "both",
                        "--bank-sets", "1", "--bank-ways", "1", "--limit", "500", trace, status=1, made=2, rows=2, cut=1,
                        table="fair.csv")
    got = [(row["fair"], row["end"], row["completed"], row["turns"]) for row in rows]
    tester.expect(got == [("no", "limit", "1", "500"), ("yes", "all-done", "3", "12")], f"fair: {got}")
    tester.refused("--fair needs --schedule round", "--fair", "both", "--schedule", "both", trace)
    tester.refused("--fair needs --schedule round", "--fair", "yes", "--schedule", "seed", trace)
    tester.refused("some is none of no, yes, both", "--fair", "some", trace)


def passed_on(tester):
    """Seeds and private writes reach the program: each row is the second program's, and no two rows are alike."""
    trace = str(TOP / "examples/traces/RECORDED-QUEUE.trace")
    looked = ("renewals", "upgrades", "flushes", "write-backs", "stale-hits")
    for table, count, options in (("seed.csv", 3, ["--schedule", "seed", "--seed", "1..3"]),
                                  ("private.csv", 2, ["--private-write", "both"])):
        rows = tester.sweep("--csv", table, "--line-words", "8", *options, trace, made=count, rows=count, table=table)
        seen = set()
        for row in rows:
            words = ["--schedule", row["schedule"], "--seed", row["seed"], "--line-words", "8"]
            words += ["--private-write"] * (row["private-write"] == "yes")
            wanted, _ = oracle.run(oracle.words().parse_args(["trace", *words, trace]))
            got = tuple(row[name] for name in looked)
            lines = dict(line.split(" ", 1) for line in wanted.splitlines())
            tester.expect(got == tuple(lines[name] for name in looked), f"{words}: {got}, wanted {wanted}")
            tester.expect(row["program"] == os.environ["TARDIS"].removeprefix(f"{TOP}/"), f"who made it: {row}")
            seen.add(got)
        tester.expect(len(seen) == len(rows), f"rows that are alike show nothing: {seen}")


def compared(tester):
    """A player that counts anything else than the report has makes the row fail."""
    player = Path("player")
    for number, change in enumerate(("s/ loads 2/ loads 3/", "s/ stores 0/ stores 1/", "s/ swaps 0/ swaps 1/",
                                     "s/ stale 0/ stale 1/", "s/ RenewRep 1 / RenewRep 2 /g", "s/all-done, /stalled, /",
                                     *(f"s/ bank 0 evicted 0/& {kind} 1 1/"
                                       for kind in ("UpgradeRep", "FlushRep", "WbRep")))):
        player.write_text(f"#!/bin/sh\n'{tester.player}' \"$@\" | sed '{change}'\n")
        player.chmod(0o755)
        table = f"compared{number}.csv"
        rows = tester.sweep("--counts", "--player", "./player", "--csv", table, "--lease", "1", "renewed.trace",
                            status=1, made=1, rows=1, failed=1, table=table)
        tester.expect(rows[0]["failed"] == "the program and the player differ", f"{change}: {rows}")


def reportless(tester):
    """A program that prints no report, or a part of one, makes the row fail."""
    kept, os.environ["TARDIS"] = os.environ["TARDIS"], str(Path("reportless").resolve())
    for number, change in enumerate(("s/.*/none/", "s/.*/no report/", "/^renewals /d", "s/ .*//")):
        Path("reportless").write_text(f"#!/bin/sh\n'{kept}' \"$@\" | sed '{change}'\n")
        Path("reportless").chmod(0o755)
        table = f"reportless{number}.csv"
        rows = tester.sweep("--csv", table, "alone.trace", status=1, made=1, rows=1, failed=1, table=table)
        tester.expect(rows[0]["failed"] == "the program prints no report", f"{change}: {rows}")
    os.environ["TARDIS"] = kept


def traces_apart(tester):
    """Each trace has its line, and traces of one name in two folders have their paths."""
    Path("other").mkdir()
    Path("other/alone.trace").write_text(RENEWED)
    for traces, wanted in ((["renewed.trace", "./alone.trace", "alone.trace"], ["renewed", "alone"]),
                           (["alone.trace", "other/alone.trace"], ["alone.trace", "other/alone.trace"])):
        table = f"{wanted[0]}.csv"
        tester.sweep("--csv", table, "--svg", "apart.svg", "--plot", "lease:completed", *traces, made=2, rows=2,
                     table=table)
        root = xml.parse("apart.svg").getroot()
        said = [text.text for text in root.iter(f"{SVG}text")]
        lines = [line.get("points") for line in root.iter(f"{SVG}polyline")]
        tester.expect(said[-2:] == wanted and len(lines) == 2, f"{traces}: {said} {lines}")


def piped(tester):
    """A trace that can be read only once: each run has all of it, by the program's report and by its counts."""
    Path("pipes").mkdir()
    for number, words in enumerate((["--lease", "1,2", "--advance", "0,1"],
                                    ["--lease", "1,2", "--counts", "--program", os.environ["TARDIS"]])):
        plain, pipe = (Path("pipes", f"{name}{number}.csv") for name in ("plain", "pipe"))
        got = [tester.run("--csv", str(plain), *words, "renewed.trace"),
               tester.run("--csv", str(pipe), *words, "/dev/stdin", text=RENEWED.encode())]
        rows = [path.read_text().replace("/dev/stdin", "renewed.trace") for path in (plain, pipe)]
        good = [status for status, *_ in got] == [0, 0] and rows[0] == rows[1] and ",all-done," in rows[0]
        tester.expect(good, f"{words} through a pipe: {got} {rows}")
    counts = str(TOP / "tools/counts.py"), "--program", os.environ["TARDIS"]
    got = [subprocess.run([*counts, path], input=RENEWED.encode(), capture_output=True, check=False).stdout
           for path in ("renewed.trace", "/dev/stdin")]
    tester.expect(got[0] == got[1] and b"\nevents 0\n" not in got[0], f"counts.py --program through a pipe: {got}")


def by_the_second(tester):
    """What the program refuses, the second program refuses with the same words."""
    words = ["--lease", "0,1,4294967297", "--limit", "0,100", "--banks", "1,9", "renewed.trace", "bad.trace", "none"]
    rows = tester.sweep("--csv", "first.csv", *words, status=1, made=36, rows=36, failed=35, table="first.csv")
    kept, os.environ["TARDIS"] = os.environ["TARDIS"], str(TOP / "reference/oracle.py")
    second = tester.sweep("--csv", "second.csv", *words, status=1, made=36, rows=36, failed=35, table="second.csv")
    os.environ["TARDIS"] = kept
    for row, other in zip(rows, second):
        tester.expect(row | {"program": "reference/oracle.py"} == other, f"{row}, by the second program {other}")


def by_lines(tester):
    """By --program the program counts. By hand: the load takes 14 events, the second one two, or with lease 2 nine."""
    words = ["--counts", "--program", os.environ["TARDIS"], "--csv", "lines.csv"]
    rows = tester.sweep(*words, "--lease", "2,3", "--line-words", "1,2", "renewed.trace", status=1, made=4, rows=4,
                        failed=2, table="lines.csv")
    looked = ("lease", "end", "loads", "renewals", "stale-hits", "events", "held", "hits", "misses", "cold", "ended",
              "held-requests", "last-time", "dram-loads", "RenewRep-sent", "failed")
    got = [" ".join(row[name] for name in looked).strip() for row in rows[::2]]
    tester.expect(got == ["2 all-done 2 1 0 23 2 0 2 1 1 2 3 1 1", "3 all-done 2 0 0 19 2 1 1 1 0 2 3 1 0"], f"{got}")
    tester.expect([row["failed"] for row in rows[1::2]] == [FAILED] * 2 and "turns" not in rows[0], f"{rows[1]}")
    again = tester.sweep(*words, "--lease", "3", "renewed.trace", rows=1, table="lines.csv")
    tester.expect(again[2] == rows[2] and len(again) == 4, "a table by lines goes on")
    plain = tester.sweep("--csv", "named.csv", "--program", os.environ["TARDIS"], "alone.trace", made=1, rows=1,
                         table="named.csv")
    tester.expect("hits" not in plain[0] and plain[0]["program"] == sweep.made_by(), f"--program alone: {plain}")


def points(tester):
    """Rows of a run, and what a run does without its first operations. The loads are at 0x0: one miss, three hits."""
    words = ["--counts", "--program", os.environ["TARDIS"], "--short", "short.csv", "--columns",
             "at,completed,loads,hits,cold,events,end"]
    tester.sweep(*words, "--csv", "every.csv", "--every", "3", "--plot", "at:hits", "loads.trace", made=1, rows=2,
                 table="every.csv")
    wanted = "at,completed,loads,hits,cold,events,end\n3,3,3,2,1,18,\nend,4,4,3,1,20,all-done\n"
    tester.expect(Path("short.csv").read_text() == wanted, f"--every: {Path('short.csv').read_text()}")
    points_of = [line.get("points") for line in xml.parse("every.svg").getroot().iter(f"{SVG}polyline")]
    tester.expect(points_of == ["640.0,30.0"], f"the row is drawn, and the end has no number: {points_of}")
    tester.sweep(*words, "--csv", "every.csv", "--every", "3", "--plot", "lease:hits", "loads.trace", rows=2,
                 table="every.csv")
    points_of = [line.get("points") for line in xml.parse("every.svg").getroot().iter(f"{SVG}polyline")]
    tester.expect(points_of == ["640.0,30.0"], f"without `at`, the end alone is drawn: {points_of}")
    tester.sweep(*words, "--csv", "skip.csv", "--every", "1", "--skip", "2", "loads.trace", made=1, rows=3,
                 table="skip.csv")
    wanted = "at,completed,loads,hits,cold,events,end\n3,3,1,1,0,2,\n4,4,2,2,0,4,\nend,4,2,2,0,4,all-done\n"
    tester.expect(Path("short.csv").read_text() == wanted, f"--skip: {Path('short.csv').read_text()}")
    table = Path("skip.csv")
    whole = table.read_text()
    table.write_text("".join(whole.splitlines(True)[:3]))  # stopped behind the second row of the run
    tester.sweep(*words, "--csv", "skip.csv", "--every", "1", "--skip", "2", "loads.trace", made=1, rows=3,
                 table="skip.csv")
    tester.expect(table.read_text() == whole, f"a run that was half written: {table.read_text()}")
    for skip, wanted in (("1", ("3", "3")), ("3", ("1", "1"))):
        rows = tester.sweep("--csv", "skips.csv", *words[:3], "--skip", skip, "loads.trace", made=1, rows=1,
                            table="skips.csv")
        tester.expect((rows[-1]["loads"], rows[-1]["hits"]) == wanted, f"--skip {skip} of a table of others: {rows}")
    # The stores are at the times 1 and 2. What is left out has no time taken off.
    Path("twice.trace").write_text("0 W 0x0 1\n0 W 0x0 2\n")
    rows = tester.sweep("--csv", "times.csv", *words[:3], "--skip", "1", "twice.trace", made=1, rows=1,
                        table="times.csv")
    tester.expect([(row["stores"], row["hits"], row["last-time"]) for row in rows] == [("1", "1", "2")],
                  f"the last time behind --skip: {rows}")
    # A hit takes a round. By round 8 three loads are done; the store alone is one operation.
    rows = tester.sweep("--csv", "cut-3.csv", *words[:3], "--skip", "2", "--limit", "8,9", "loads.trace", "alone.trace",
                        status=1, made=4, rows=4, failed=2, cut=1, table="cut-3.csv")
    said = [(row["failed"], row["end"], row["loads"], row["hits"]) for row in rows]
    none = ("1 operations completed: --skip 2 leaves none", "", "", "")
    tester.expect(said == [("", "limit", "1", "1"), ("", "all-done", "2", "2"), none, none], f"--skip: {said}")


def points_in_parts(tester):
    """Parts of a sweep with rows of runs."""
    words = ["--counts", "--program", os.environ["TARDIS"], "--every", "2", "--csv", "pp.csv", "--lease", "1..3"]
    whole = tester.sweep(*words[:-4], "--csv", "pw.csv", "--lease", "1..3", "loads.trace", made=3, rows=9,
                         table="pw.csv")
    for part, count in ((0, 2), (1, 1)):
        tester.sweep(*words, "--part", str(part), "--parts", "2", "loads.trace", made=count, rows=3 * count,
                     table=f"pp.{part:06}.csv")
    joined = tester.sweep(*words, "--parts", "2", "loads.trace", rows=9, table="pp.csv")
    tester.expect(sorted(joined, key=lambda row: row["lease"]) == whole, f"joined: {joined}")
    cut = Path("pp.000001.csv").read_text().splitlines(True)[:-1]
    Path("pp.000001.csv").write_text("".join(cut))
    Path("pp.csv").unlink()
    tester.refused("pp.000001.csv lacks 1 rows: make them by --part 1", *words, "--parts", "2", "loads.trace")


def told_apart(tester):
    """A program whose counts aren't those of its report, or that prints none, makes the row fail."""
    program = Path("changed")
    for number, (change, said) in enumerate((("s/ loads 4/ loads 5/", "the program's counts differ from its report"),
                                             ("s/^renewals 0/renewals 1/", "the program's counts differ from its "
                                              "report"), ("/^events/,$d", "./changed ended with status 0, without "
                                                          "counts"))):
        program.write_text(f"#!/bin/sh\n'{os.environ['TARDIS']}' \"$@\" | sed '{change}'\n")
        program.chmod(0o755)
        rows = tester.sweep("--counts", "--program", "./changed", "--csv", f"other{number}.csv", "loads.trace", status=1,
                            made=1, rows=1, failed=1, table=f"other{number}.csv")
        tester.expect(rows[0]["failed"] == said, f"{change}: {rows}")


def refusals(tester):
    for words in (["--every", "1"], ["--skip", "1"], ["--every", "1", "--counts"], ["--skip", "1", "--program", "x"]):
        tester.refused("--every and --skip need --counts and --program", *words, "alone.trace")
    tester.refused("--program and --player: one of them counts", "--program", "x", "--player", "y", "alone.trace")
    tester.refused("--columns needs --short", "--columns", "lease", "alone.trace")
    tester.refused("--columns no: there is no such column", "--columns", "lease,no", "--short", "s.csv", "alone.trace")
    tester.refused("there is no column cold (--counts --program PATH has it)", "--plot", "lease:cold", "alone.trace")
    tester.refused("0 isn't a number from 1 to", "--skip", "0", "alone.trace")
    tester.refused("there is no column misses (--counts has it)", "--plot", "lease:misses", "alone.trace")
    tester.refused("there is no column without a name", "--plot", "lease", "alone.trace")
    for wrong in ("", "1..", "5..4", "x", "-1", f"{2 ** 64}", "0..1000000"):
        why = "no number" if wrong in ("", "1..", "x", "-1") else "is no range"
        tester.refused(why, f"--lease={wrong}", "alone.trace")
    tester.refused("rows are too many", "--lease", "1..2000", "--seed", "1..2000", "alone.trace")
    tester.refused("--private-write: some is none of no, yes, both", "--private-write", "some", "alone.trace")
    tester.refused("--fair: alone.trace is none of no, yes, both", "--fair", "alone.trace")
    tester.refused("has other columns", "--csv", "plot.csv", "--counts", "alone.trace")
    tester.refused("has other columns", "--csv", "line", "alone.trace")
    for words in (("--csv", "-"), ("--short", "-"), ("--plot", "lease:renewals", "--svg", "-")):
        tester.refused("- isn't taken", *words, "alone.trace")
    tester.refused("Is a directory", "--csv", ".", "alone.trace")
    tester.refused("No such file or directory", "--csv", "none/a.csv", "alone.trace")
    tester.refused("TRACE")


def large(tester):
    """Thirty lines of a picture, and a scale up to 10 ^ 19."""
    found = {f"l{k}": ([(0, 1), (2 ** 64 - 1, 2 ** 64 - 1)], []) for k in range(30)}
    lines = list(plots.picture({"": found}, "x", "y"))
    tester.expect('height="570"' in lines[0] and sum("<polyline" in line for line in lines) == 30, lines[0])
    for is_log, ticks in ((False, [k * 2 * 10 ** 18 for k in range(6)]), (True, [10 ** k for k in range(20)])):
        tester.expect(list(plots.Axis(10 ** 19, 0, 1, is_log).ticks()) == ticks, f"ticks of 64 bits: {is_log}")


def appended(tester):
    """What a new row writes doesn't grow with the table."""
    table, written = sweep.Table("appended.csv", ["trace", "name", *sweep.OPTIONS]), []
    table.write = lambda text, how: written.append((how, text.count("\n")))
    for seed in range(100):
        table.add(dict.fromkeys(table.columns, "1") | {"seed": str(seed)})
    tester.expect(written == [("a", 1)] * 100, f"rows aren't appended: {written[:3]}")


def main(program, player):
    os.environ["TARDIS"] = os.path.abspath(program)
    tester = Sweeper(os.path.abspath(player))
    with tempfile.TemporaryDirectory() as folder:
        os.chdir(folder)
        Path("line").write_text("no table")
        for name, text in (("renewed", RENEWED), ("alone", ALONE), ("loads", LOADS), ("bad", "x\n")):
            Path(f"{name}.trace").write_text(text)
        for part in (by_hand, advances, names, goes_on, plot, logarithmic, shown, parts, interrupted, cut_short, fair,
                     passed_on, compared, reportless, traces_apart, piped, by_the_second, by_lines, points, points_in_parts,
                     told_apart, refusals, large, appended):
            part(tester)
        os.chdir(TOP)
    print(f"{tester.tried} tried, {tester.wrong} wrong")
    return int(tester.wrong > 0)


if __name__ == "__main__":
    sys.exit(main(*sys.argv[1:]) if len(sys.argv) == 3 else __doc__)
