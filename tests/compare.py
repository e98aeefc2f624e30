#!/usr/bin/env python3
"""Tries reference/directory.py and tools/compare.py: tests/compare.py PROGRAM.

Small traces were counted by hand from docs/COMPARE.md, PROTOCOL.md and SCHEDULES.md, and one race goes event by event.
PROGRAM must call the histories of random runs legal, and must refuse some of each wrong directory. The last line is
`N tried, M wrong`.
"""
import csv
import os
import random
import sys
import tempfile
import xml.etree.ElementTree as xml
from collections import Counter
from pathlib import Path
from types import SimpleNamespace

sys.path.insert(0, str(Path(__file__).resolve().parent.parent))
from reference.directory import Directory  # noqa: E402
from reference.given import NUMBERS  # noqa: E402
from reference.schedules import ADVANCE, Run, by_rounds, by_seed  # noqa: E402
from reference.traces import Steps, record_line  # noqa: E402
from tests.texts import TOP, Tester  # noqa: E402


RUNS, WRONG_RUNS = 100, 60
SVG = "{http://www.w3.org/2000/svg}"
LOAD = "misses 1 1 1; ShReq 1 1 1; ShRep 1 1 0; ExRep 0 0 1; DramLd 1 1 1; DramLdRep 1 1 1; messages 2 2 2"
# A trace, options, and the rows of Tardis, MSI and MESI. A row that isn't named has no line, but for hits (0).
BY_HAND = {
    # Eight bytes of a header are a flit; at Tardis two times make two of a request, and with a word two of a reply. A
    # word and a header are one flit.
    "a load": ("0 R 0x0\n", "", f"completed 1 1 1; {LOAD}; flits 4 2 2"),
    # 72 bytes are five flits, and 88 are six.
    "a load of eight words": ("0 R 0x0\n", "--line-words 8", f"completed 1 1 1; {LOAD}; flits 8 6 6"),
    "flits of 8 bytes, times of 2": ("0 R 0x0\n", "--flit 8 --time-bytes 2 --header 4",
                                     f"completed 1 1 1; {LOAD}; flits 3 3 3"),
    # By flits of 8 bytes: one for the header, one for each word, and at Tardis one for each time. A renewal and its
    # requests take 2, 3 and 3, and the line 4. A directory's copy serves the second load.
    "a renewal": ("trace 2\n0 R 0x0\n0 A\n0 A\n0 A\n0 R 0x0\n", "--flit 8 --lease 2",
                  "completed 2 2 2; hits 0 1 1; misses 2 1 1; ShReq 2 1 1; ShRep 1 1 0; ExRep 0 0 1; RenewRep 1 0 0; "
                  "DramLd 1 1 1; DramLdRep 1 1 1; messages 4 2 2; flits 12 3 3"),
    # 3 and 4, 2 and 2; without times 1 and 2, 1 and 1.
    "an upgrade": ("0 R 0x0\n0 W 0x0 1\n", "--flit 8",
                   "completed 2 2 2; hits 0 0 1; misses 2 2 1; ShReq 1 1 1; ExReq 1 1 0; ShRep 1 1 0; ExRep 0 0 1; "
                   "UpgradeRep 1 1 0; DramLd 1 1 1; DramLdRep 1 1 1; messages 4 4 2; flits 11 5 3"),
    # 2 and 4 for the store, 3 and 4 for the load, 2 and 4 for the recall; without times 1 and 2 for each.
    "a recall that leaves a copy": (
        "0 W 0x0 1\n1 R 0x0\n", "--flit 8",
        "completed 2 2 2; misses 2 2 2; ShReq 1 1 1; ExReq 1 1 1; ShRep 1 1 1; ExRep 1 1 1; WbReq 1 1 1; WbRep 1 1 1; "
        "DramLd 1 1 1; DramLdRep 1 1 1; messages 6 6 6; flits 19 9 9"),
    # 2 and 4 for each store, 1 and 4 for the recall.
    "a recall that leaves none": (
        "0 W 0x0 1\n1 W 0x0 2\n", "--flit 8",
        "completed 2 2 2; misses 2 2 2; ExReq 2 2 2; ExRep 2 2 2; FlushReq 1 1 1; FlushRep 1 1 1; "
        "DramLd 1 1 1; DramLdRep 1 1 1; messages 6 6 6; flits 17 9 9"),
    # An Exclusive copy that MESI gave for a load takes the store.
    "a load and a store": (
        "0 R 0x0\n0 W 0x0 1\n", "--time-bytes 0", "completed 2 2 2; hits 0 0 1; misses 2 2 1; ShReq 1 1 1; "
        "ExReq 1 1 0; ShRep 1 1 0; ExRep 0 0 1; UpgradeRep 1 1 0; DramLd 1 1 1; DramLdRep 1 1 1; messages 4 4 2; "
        "flits 4 4 2"),
    # Core 1's copy is invalidated. At MESI it is exclusive, and is recalled, and returned without words. With Tardis
    # core 0 stores at a time behind the lease.
    "a store to a word that was loaded": (
        "1 R 0x0\n0 R 0x8\n0 W 0x0 1\n", "--time-bytes 0", "completed 3 3 3; misses 3 3 3; ShReq 2 2 2; ExReq 1 1 1; "
        "ShRep 2 2 0; ExRep 1 1 3; FlushReq 0 0 1; CleanRep 0 0 1; InvReq 0 1 0; InvRep 0 1 0; DramLd 2 2 2; "
        "DramLdRep 2 2 2; messages 6 8 8; flits 6 8 8"),
    # Both have a copy when core 0 stores; its own is upgraded. Core 1's last load hits what it has at Tardis; at MSI it
    # misses, the line is recalled, and core 0 keeps a copy. At MESI core 0's copy is first recalled for core 1's first
    # load; its store is served before that load, so that a second recall follows, and core 1 loads the new value.
    "a store to a word that both loaded": (
        "0 R 0x0\n1 R 0x0\n0 W 0x0 1\n" + "1 R 0x8\n" * 9 + "1 R 0x0\n", "--time-bytes 0",
        "completed 13 13 13; hits 9 8 9; misses 4 5 4; ShReq 3 4 3; ExReq 1 1 1; ShRep 3 4 1; ExRep 0 0 2; "
        "UpgradeRep 1 1 1; WbReq 0 1 2; WbRep 0 1 1; CleanRep 0 0 1; InvReq 0 1 0; InvRep 0 1 0; DramLd 2 2 2; "
        "DramLdRep 2 2 2; messages 8 14 12; flits 8 14 12"),
    # The bank has one place. MSI asks core 0 to drop its copy before the line leaves; MESI recalls it; Tardis needs no
    # message.
    "an entry that makes place": (
        "0 R 0x0\n0 R 0x8\n", "--bank-sets 1 --bank-ways 1 --time-bytes 0", "completed 2 2 2; misses 2 2 2; "
        "ShReq 2 2 2; ShRep 2 2 0; ExRep 0 0 2; FlushReq 0 0 1; CleanRep 0 0 1; InvReq 0 1 0; InvRep 0 1 0; "
        "DramLd 2 2 2; DramLdRep 2 2 2; messages 4 6 6; flits 4 6 6"),
    # The owner wrote: the line returns with its words, and goes to DRAM.
    "a written entry that makes place": (
        "0 W 0x0 1\n0 R 0x8\n", "--bank-sets 1 --bank-ways 1 --time-bytes 0", "completed 2 2 2; misses 2 2 2; "
        "ShReq 1 1 1; ExReq 1 1 1; ShRep 1 1 0; ExRep 1 1 2; FlushReq 1 1 1; FlushRep 1 1 1; DramLd 2 2 2; "
        "DramLdRep 2 2 2; DramSt 1 1 1; DramStRep 1 1 1; messages 6 6 6; flits 6 6 6"),
    # A copy that only was loaded leaves silently; MESI returns it without words.
    "a copy that makes place": (
        "0 R 0x0\n0 R 0x8\n", "--sets 1 --ways 1 --time-bytes 0", "completed 2 2 2; misses 2 2 2; ShReq 2 2 2; "
        "ShRep 2 2 0; ExRep 0 0 2; CleanRep 0 0 1; DramLd 2 2 2; DramLdRep 2 2 2; messages 4 4 5; flits 4 4 5"),
}
# Core 1's load is answered by m3, with 0. Core 0's store has core 1's copy invalidated by m5, before m3 is there.
RACE = ["Issue 1 load", "Attempt 1", "Deliver 0", "Deliver 1", "Deliver 2", "Deliver 0", "Issue 0 store", "Attempt 0",
        "Deliver 4", "Deliver 5", "Deliver 6", "Deliver 4", "Deliver 7", "Attempt 0", "Deliver 3", "Attempt 1"]
RACED = "Issued Requested Started Delivered Delivered Delivered Issued Requested Started Delivered Delivered " \
        "Delivered Delivered Completed Delivered Completed"
# The store takes the event in which it completes, the 14th; the load the one in which its data was sent, the 6th.
RACE_RECORDS = ["0 0 W 0x0 5 14 0", "1 0 R 0x0 0 6 1"]
# A lost invalidation: core 1 goes on to load 0 long after core 0's store of 5 took effect.
LOST = "1 R 0x0\n0 R 0x8\n0 W 0x0 5\n" + "1 R 0x0\n" * 20


def options_with(**named):
    usual = {name.replace("-", "_"): number for name, (number, _) in NUMBERS.items()}
    return SimpleNamespace(**usual | {"private_write": False, "cores": 2} | named)


class Comparer(Tester):
    def __init__(self, program, folder):
        super().__init__(str(TOP / "tools/compare.py"))
        self.checker, self.folder = Tester(program), folder

    def verdict(self, issued, records):
        """What the program says of a history."""
        letters = {"load": "R", "store": "W", "swap": "S"}
        lines = [" ".join([str(core), letters[kind], f"{8 * word:#x}", *[str(value)] * (kind != "load")])
                 for core, operations in enumerate(issued) for kind, word, value in operations]
        trace, history = Path(self.folder, "x.trace"), Path(self.folder, "x.records")
        trace.write_text("".join(f"{line}\n" for line in lines))
        history.write_text("".join(record_line(record) + "\n" for record in records))
        return self.checker.run("check", str(trace), str(history))[1].strip()


def by_hand(tester):
    for name, (text, options, wanted) in BY_HAND.items():
        path = Path(tester.folder, "a.trace")
        path.write_text(text)
        got = tester.run(*options.split(), str(path))
        rows = [line.split() for line in got[1].splitlines()]
        found = {row: numbers for row, *numbers in rows[2:] if row != "hits" or set(numbers) != {"0"}}
        told = {"end": ["all-done"] * 3} | {row: numbers for row, *numbers in map(str.split, wanted.split("; "))}
        good = (got[0], got[2], rows[:2], found) == (0, "", [[str(path)], ["tardis", "msi", "mesi"]], told)
        tester.expect(good, f"{name}: {got}, wanted {told}")


def race(tester):
    """Data that an invalidation overtook serves one load, which comes before the store; no copy is left."""
    machine, answers = Directory(options_with(), 2, {}), []
    for name, number, *kind in map(str.split, RACE):
        operation = [(kind[0], 0, 5 if kind[0] == "store" else None)] if kind else []
        answers.append(machine.step((name, int(number), *operation)))
    tester.expect(answers == RACED.split(), f"the race: {answers}")
    records = list(map(record_line, machine.records))
    tester.expect(records == RACE_RECORDS, f"the race's records: {records}")
    tester.expect(machine.copies(1) == [] and machine.copies(0) == [0], "core 1 keeps data that was overtaken")
    issued = [core.issued for core in machine.cores]
    tester.expect(tester.verdict(issued, machine.records) == "legal", "the race isn't legal")
    late = [machine.records[0], machine.records[1]._replace(time=16)]
    tester.expect(tester.verdict(issued, late) == "wrong value 1", "by completion the race is legal")


def random_run(seed, kind):
    """A run of random programs on a random machine, driven to its end."""
    generator = random.Random(seed)
    few = generator.choice
    options = options_with(banks=few([1, 1, 3]), sets=few([1, 2, 64]), ways=few([1, 4]), bank_sets=few([1, 2, 256]),
                           bank_ways=few([1, 2, 8]), line_words=few([1, 8]))
    words, programs = few([1, 2, 8, 30]), []
    for _ in range(few([2, 3, 5])):
        steps = [(few(["load"] * 3 + ["store", "swap", "advance"]), generator.randrange(words)) for _ in range(40)]
        programs.append(Steps([ADVANCE if name == "advance" else
                               (name, word, None if name == "load" else generator.randrange(1, 10 ** 6))
                               for name, word in steps]))
    run = Run(kind(options, len(programs), {}, few([False, True])), programs)
    return run, by_seed(run, 100_000, seed) if seed % 2 else by_rounds(run, 5000, True)


class Watched(Directory):
    """After each event: a line with an Exclusive copy has no other, but for data that was overtaken."""

    def step(self, event):
        answer = super().step(event)
        held = Counter(copy.line for core in self.cores for copies in core.sets.values() for copy in copies
                       if copy.state != "Once")
        owned = {copy.line for core in self.cores for copies in core.sets.values() for copy in copies
                 if copy.state == "Exclusive"}
        assert all(held[line] == 1 for line in owned), f"a line with two copies after {event}"
        return answer


def at_random(tester):
    once = 0
    for seed in range(RUNS):
        run, end = random_run(seed, Watched)
        verdict = tester.verdict(run.issued(), run.machine.records)
        tester.expect((end, verdict) == ("all-done", "legal"), f"random run {seed}: {end} {verdict}")
        times = [record.time for record in run.machine.records]
        once += times != sorted(times)
    tester.expect(once > 5, f"only {once} runs have data that was overtaken")


class Lost(Directory):
    """An invalidation is acknowledged, and the copy stays."""

    def invalidated(self, m):
        self.send("InvRep", m.line, m.core)
        return "Delivered"


class Kept(Directory):
    """Data that was overtaken stays as a copy."""

    def complete(self, number, copy, copies):
        super().complete(number, copy, copies)
        if copy.state == "Once":
            copies.append(copy)
            copy.state = "Shared"


class Late(Directory):
    """The time of overtaken data is that of its use."""

    def complete(self, number, copy, copies):
        copy.sent = self.now
        super().complete(number, copy, copies)


class Hasty(Directory):
    """The bank waits for one answer to its invalidations."""

    def invalidate(self, e, cores):
        super().invalidate(e, cores)
        e.missing = 1

    def acknowledged(self, m):
        e, _ = self.find(m.line, self.bank_set(m.line))
        return super().acknowledged(m) if e and e.state == "Recalling" else "Delivered"


class Forgotten(Directory):
    """The bank lets a line go that cores have copies of."""

    def evict_bank(self, bank, line):
        for e in self.bank_set(line):
            e.sharers = set()
        return super().evict_bank(bank, line)


class Old(Directory):
    """An owner that is recalled returns the line as it was granted."""

    def line_of(self, holder):
        return super().line_of(holder) | {"written": False}


def refused_run(tester, seed, kind):
    """Whether a run is refused, by the checker or by what a directory holds to be sure."""
    try:
        run, _ = random_run(seed, kind)
    except (AssertionError, KeyError, AttributeError, ValueError):
        return None
    return tester.verdict(run.issued(), run.machine.records) != "legal"


def wrong_directories(tester):
    for kind in (Lost, Kept, Late, Hasty, Forgotten, Old):
        refused = [refused_run(tester, seed, kind) for seed in range(WRONG_RUNS)]
        tester.expect(refused.count(True) >= 1, f"{kind.__doc__} {refused.count(True)} of {WRONG_RUNS} are refused")
    path = Path(tester.folder, "lost.trace")
    path.write_text(LOST)
    programs = [[("load", 1, None), ("store", 0, 5)], [("load", 0, None)] * 21]
    for kind, wanted in ((Directory, "legal"), (Lost, "wrong value")):
        run = Run(kind(options_with(), 2, {}), list(map(Steps, programs)))
        by_rounds(run, 100)
        verdict = tester.verdict(run.issued(), run.machine.records)
        tester.expect(verdict.startswith(wanted), f"a lost invalidation, {kind.__name__}: {verdict}")


def tables(tester):
    """A table for each trace and combination, rows for each machine, and a line of the plot for each."""
    os.chdir(tester.folder)
    Path("one.trace").write_text("0 R 0x0\n0 R 0x40\n")
    status, out, error = tester.run("--line-words", "1,8", "--csv", "t.csv", "--plot", "line-words:flits", "one.trace")
    heads = [line for line in out.splitlines() if line.startswith("one.trace")]
    tester.expect((status, error, heads) == (0, "", ["one.trace: line-words 1", "one.trace: line-words 8"]), out)
    with open("t.csv", newline="", encoding="utf-8") as file:
        got = [(row["name"], row["line-words"], row["misses"], row["flits"]) for row in csv.DictReader(file)]
    # Two loads, each as by hand above.
    wanted = [(name, words, "2", flits) for words, all_flits in (("1", ("8", "4", "4")), ("8", ("16", "12", "12")))
              for name, flits in zip(("tardis", "msi", "mesi"), all_flits)]
    tester.expect(got == wanted, f"rows: {got}")
    root = xml.parse("compare.svg").getroot()
    # From 80 to 640 for 0 to 8 words, and from 430 up to 30 for 0 to 16 flits.
    points = [line.get("points") for line in root.iter(f"{SVG}polyline")]
    tester.expect(points == ["150.0,230.0 640.0,30.0"] + ["150.0,330.0 640.0,130.0"] * 2, f"points: {points}")
    said = [text.text for text in root.iter(f"{SVG}text")][-3:]
    tester.expect(said == ["tardis", "msi", "mesi"], f"labels: {said}")
    for words, name in ((("--csv", "-"), "t.csv"), (("--plot", "line-words:flits", "--svg", "-"), "compare.svg")):
        got = tester.run("--line-words", "1,8", *words, "one.trace")
        tester.expect(got == (0, Path(name).read_text(), "") and not Path("-").exists(), f"{words}: {got}")
    status, out, error = tester.run("--limit", "3", "one.trace")
    tester.expect((status, error, out.count("limit")) == (1, "", 3), f"cut short: {status} {out} {error}")
    for wanted, *words in (("bad configuration", "--line-words", "3"), ("no column x", "--plot", "x:flits"),
                           ("isn't a number from 1 to 1024", "--flit", "0"), ("No such file", "none.trace"),
                           ("line 1: 4 BadCore", "bad.trace"), ("No such file", "--csv", "none/t.csv"),
                           ("--svg needs --plot", "--svg", "alone.svg"),
                           ("one.trace would be overwritten", "--csv", "one.trace"),
                           ("one.trace would be overwritten", "--plot", "lease:hits", "--svg", "./one.trace")):
        Path("bad.trace").write_text("x\n")
        status, _, error = tester.run(*words, *["one.trace"] * (not words[0].endswith(".trace")))
        tester.expect(status == 2 and wanted in error and error.count("\n") == 1, f"{words}: {status} {error}")
    os.chdir(TOP)


def main(program):
    with tempfile.TemporaryDirectory() as folder:
        tester = Comparer(os.path.abspath(program), folder)
        for part in (by_hand, race, at_random, wrong_directories, tables):
            part(tester)
    print(f"{tester.tried} tried, {tester.wrong} wrong")
    return int(tester.wrong > 0)


if __name__ == "__main__":
    sys.exit(main(sys.argv[1]) if len(sys.argv) == 2 else __doc__)
