#!/usr/bin/env python3
"""Tries what `tardis trace --counts` puts behind a report: tests/trace_counts.py PROGRAM.

The runs that tests/counts.py has by hand are counted here, too, with the misses by their causes and what was held, and
so are some more; of two runs each row is there. Then random traces on random machines are counted, some in rows and
some as JSON, by the second program, too, which counts by docs/COUNTS.md alone. The report before the counts is the one
without them. The last line is `N tried, M wrong`.
"""
import os
import random
import re
import sys
import tempfile
from pathlib import Path

sys.path.insert(0, str(Path(__file__).resolve().parent.parent))
from tests import counts  # noqa: E402
from tests.texts import TOP, Tester  # noqa: E402
from tools.counts import KINDS  # noqa: E402


SECOND = str(TOP / "reference/oracle.py")
TRACES = 300  # that are drawn
CAUSES = ("cold", "evicted", "recalled", "ended", "shared")
OF_CORE = ("loads", "stores", "swaps", "hits", *CAUSES, "evictions", "returns", "reloads", "held", "dropped",
           "time")
OF_BANK = ("evictions", "held", "dropped")
# Rows of tools/counts.py that the lines don't have, or only as a kind of messages.
UNTOLD = ("turns", "stale-hits", "dram-loads", "dram-stores", "recalls")
# By hand, of each core and each bank: the misses by their causes, `returns`, `reloads`, `held` and `dropped`, where
# there are some. A request waits for DRAM in two rounds: it is held twice.
SEEN = {
    "a load": ["cold 1", "held 2"],
    "a load that hits": ["cold 1", "held 2"],
    "1,000,000 loads": ["cold 1", "held 2"],
    "a swap, and a load of the owner": ["cold 1", "held 2"],
    "an upgrade": ["cold 1 shared 1", "held 2"],
    "a renewal": ["cold 1 ended 1", "held 2"],
    "a stale hit": ["cold 2", "cold 2", "held 6"],
    "a stale hit of a swap": ["cold 2", "cold 2", "held 6"],
    # Core 1's request is held from round 1 to 3, before core 0's own is answered, and from 5 to 7. The recall comes in
    # round 5, before core 0's store completes.
    "a recall": ["cold 1 held 1", "cold 1", "held 8"],
    # Two for each load from DRAM, and one for the request that waits for the line that core 0 gives back. The recall
    # finds that core 0 has given it back.
    "a recall that is dropped": ["cold 2 returns 1 dropped 1", "cold 1", "held 5"],
    "a copy that makes place": ["cold 2", "held 4"],
    # The load waits from round 7 to 12 for a place, and then for DRAM.
    "an entry that makes place": ["cold 2", "held 10"],
    "a private write": ["cold 1", "held 2"],
    "66,000 requests": ["cold 2 evicted 65998", "held 4"],
    "two banks": ["cold 1", "", "held 2"],
    "a network of one message": ["", ""],
    # By rounds 2, 3, 3, 2, 2, 2, 1, 1 and 1.
    "fair rounds": ["cold 1"] * 3 + ["held 17"],
    "a run that is cut": ["", "held 2"],
    "a copy that is recalled": ["cold 1 recalled 1 held 1", "cold 1", "held 8"],
    "a renewal with new words": ["cold 2", "cold 1 ended 1 reloads 1", "held 6"],
    "copies that are evicted": ["cold 2 evicted 1 returns 1", "held 4"],
    "a line that another core lost": ["cold 2", "cold 2", "held 8"],
    "a load that asks twice": ["cold 1", "held 2"],
    "a swap of a Shared copy": ["cold 1 shared 1", "held 2"],
    "a renewal of another word": ["cold 1 ended 1", "held 2"],
}
# More runs by hand, as those of tests/counts.py.
OWN = {
    # Core 1's request waits for the first store, which is then recalled; core 0 loads the line again in round 7.
    "a copy that is recalled": (
        "0 W 0x0 1\n0 R 0x0\n1 W 0x0 2\n", "", "all-done 10 43",
        "loads 1 1 0; stores 2 1 1; misses 3 2 1; last-time 12 1 12; recalls 1 1; ShReq 1 1 0 1; ExReq 2 1 1 2; "
        "ShRep 1 1 0 1; ExRep 2 1 1 2; FlushReq 1 1 0 1; FlushRep 1 1 0 1; DramLd 1 0 0 1; DramLdRep 1 0 0 1"),
    # Core 1's copy ends at 3. Core 0 stores the word at time 4, and core 1 loads it again at time 4.
    "a renewal with new words": (
        "trace 2\n0 R 0x8\n0 W 0x0 7\n1 R 0x0\n" + "1 A\n" * 4 + "1 R 0x0\n", "--lease 3", "all-done 16 52",
        "loads 3 1 2; stores 1 1 0; misses 4 2 2; last-time 4 4 4; recalls 1 1; ShReq 3 1 2 3; ShRep 3 1 2 3; "
        "ExReq 1 1 0 1; ExRep 1 1 0 1; WbReq 1 1 0 1; WbRep 1 1 0 1; DramLd 2 0 0 2; DramLdRep 2 0 0 2"),
    # The owned copy goes back to the bank, and the Shared one is given up.
    "copies that are evicted": (
        "0 W 0x0 1\n0 R 0x8\n0 R 0x0\n", "--sets 1 --ways 1", "all-done 15 39",
        "loads 2 2; stores 1 1; misses 3 3; evicted-copies 2 2; last-time 1 1; ShReq 2 2 2; ExReq 1 1 1; ShRep 2 2 2; "
        "ExRep 1 1 1; FlushRep 1 1 1; DramLd 2 0 2; DramLdRep 2 0 2"),
    # Core 1 gives up line 0. Then core 0 loads line 2 ^ 32, which it never had.
    "a line that another core lost": (
        "1 R 0x0\n1 R 0x8\n" + "0 R 0x10\n" * 12 + "0 R 0x800000000\n", "--sets 1 --ways 1", "all-done 23 82",
        "loads 15 13 2; hits 11 11 0; misses 4 2 2; evicted-copies 2 1 1; ShReq 4 2 2 4; ShRep 4 2 2 4; "
        "DramLd 4 0 0 4; DramLdRep 4 0 0 4"),
    # The seed has core 0 advance to 3 before its copy comes, whose lease ends at 1. So the load needs a renewal, too.
    "a load that asks twice": (
        "0 R 0x0\n", "--schedule seed --seed 5 --lease 1", "all-done 16 16",
        "loads 1 1; misses 1 1; last-time 3 3; ShReq 2 2 2; ShRep 1 1 1; RenewRep 1 1 1; "
        "DramLd 1 0 1; DramLdRep 1 0 1"),
    "a swap of a Shared copy": (
        "0 R 0x0\n0 S 0x0 1\n", "", "all-done 9 20",
        "loads 1 1; swaps 1 1; misses 2 2; last-time 11 11; ShReq 1 1 1; ShRep 1 1 1; ExReq 1 1 1; UpgradeRep 1 1 1; "
        "DramLd 1 0 1; DramLdRep 1 0 1"),
    # The copy's lease ends at 2. The load of its last word comes at 3.
    "a renewal of another word": (
        "trace 2\n0 R 0x0\n0 A\n0 A\n0 A\n0 R 0x38\n", "--lease 2 --line-words 8", "all-done 12 23",
        "loads 2 2; misses 2 2; last-time 3 3; ShReq 2 2 2; ShRep 1 1 1; RenewRep 1 1 1; DramLd 1 0 1; "
        "DramLdRep 1 0 1"),
}
# A core has place for two copies, and the bank for one line, which it recalls if the core owns it. So the load of 0x8
# takes line 0x0 by a recall, and after the load of 0x10 that of 0x8 evicts it; the load of 0x18 has it recalled again.
# The last loss is the cause: of the loads of 0x0 a recall, an eviction and a recall.
LOSSES = ("0 W 0x0 1\n0 R 0x8\n0 R 0x0\n0 R 0x10\n0 R 0x8\n0 R 0x0\n0 W 0x0 2\n0 R 0x18\n0 R 0x0\n",
          "--sets 1 --ways 2 --bank-sets 1 --bank-ways 1", "cold 4 evicted 2 recalled 2 shared 1")
ZEROS, NONE = "evictions 0 returns 0 reloads 0 held", "dropped 0 time"
# By hand, each with `--every`: what stands behind the report, row by row. The lines at the end are those of the last
# row, where it has all that was done. A load of a line takes 14 events, a hit two and an upgrade six.
IN_ROWS = [
    ("0 R 0x0\n0 R 0x0\n0 W 0x0 1\n", "1", [
        "row 1", "events 14", "held 2", "dropped 0",
        "core 0 loads 1 stores 0 swaps 0 hits 0 cold 1 evicted 0 recalled 0 ended 0 shared 0 "
        f"{ZEROS} 0 {NONE} 0 ShReq 1 ShRep 1",
        "bank 0 evictions 0 held 2 dropped 0 ShReq 1 ShRep 1 DramLd 1 DramLdRep 1",
        "row 2", "events 16", "held 2", "dropped 0",
        "core 0 loads 2 stores 0 swaps 0 hits 1 cold 1 evicted 0 recalled 0 ended 0 shared 0 "
        f"{ZEROS} 0 {NONE} 0 ShReq 1 ShRep 1",
        "bank 0 evictions 0 held 2 dropped 0 ShReq 1 ShRep 1 DramLd 1 DramLdRep 1",
        "row 3", *2 * [
            "events 22", "held 2", "dropped 0",
            "core 0 loads 2 stores 1 swaps 0 hits 1 cold 1 evicted 0 recalled 0 ended 0 shared 1 "
            f"{ZEROS} 0 {NONE} 11 ShReq 1 ExReq 1 ShRep 1 UpgradeRep 1",
            "bank 0 evictions 0 held 2 dropped 0 ShReq 1 ExReq 1 ShRep 1 UpgradeRep 1 DramLd 1 DramLdRep 1"]]),
    ("0 R 0x0\n0 R 0x0\n0 W 0x0 1\n", "4", [
        "events 22", "held 2", "dropped 0",
        "core 0 loads 2 stores 1 swaps 0 hits 1 cold 1 evicted 0 recalled 0 ended 0 shared 1 "
        f"{ZEROS} 0 {NONE} 11 ShReq 1 ExReq 1 ShRep 1 UpgradeRep 1",
        "bank 0 evictions 0 held 2 dropped 0 ShReq 1 ExReq 1 ShRep 1 UpgradeRep 1 DramLd 1 DramLdRep 1"]),
    # The copy that is recalled. Core 0's store completes by the first event of round 6, and its load by that of round
    # 9, after which core 1's ExRep is delivered.
    (OWN["a copy that is recalled"][0], "2", [
        "row 2", "events 40", "held 9", "dropped 0",
        "core 0 loads 1 stores 1 swaps 0 hits 0 cold 1 evicted 0 recalled 1 ended 0 shared 0 "
        f"{ZEROS} 1 {NONE} 1 ShReq 1 ExReq 1 ShRep 1 ExRep 1 FlushReq 1 FlushRep 1",
        "core 1 loads 0 stores 0 swaps 0 hits 0 cold 0 evicted 0 recalled 0 ended 0 shared 0 "
        f"{ZEROS} 0 {NONE} 0 ExReq 1 ExRep 1",
        "bank 0 evictions 0 held 8 dropped 0 ShReq 1 ExReq 2 ShRep 1 ExRep 2 FlushReq 1 FlushRep 1 "
        "DramLd 1 DramLdRep 1",
        "events 43", "held 9", "dropped 0",
        "core 0 loads 1 stores 1 swaps 0 hits 0 cold 1 evicted 0 recalled 1 ended 0 shared 0 "
        f"{ZEROS} 1 {NONE} 1 ShReq 1 ExReq 1 ShRep 1 ExRep 1 FlushReq 1 FlushRep 1",
        "core 1 loads 0 stores 1 swaps 0 hits 0 cold 1 evicted 0 recalled 0 ended 0 shared 0 "
        f"{ZEROS} 0 {NONE} 12 ExReq 1 ExRep 1",
        "bank 0 evictions 0 held 8 dropped 0 ShReq 1 ExReq 2 ShRep 1 ExRep 2 FlushReq 1 FlushRep 1 "
        "DramLd 1 DramLdRep 1"]),
]


def numbers_of(words):
    return {name: int(number) for name, number in zip(words[::2], words[1::2])}


class Counted:
    """The lines of a row, or those at the end, read."""

    def __init__(self, text):
        lines = [line.split() for line in text.splitlines()]
        self.run = {name: int(number) for name, number in lines[:3]}
        parts = [(what, number, numbers_of(rest)) for what, number, *rest in lines[3:]]
        self.cores, self.banks = ([numbers for kind, _, numbers in parts if kind == what] for what in ("core", "bank"))
        wanted = [*(("core", core) for core in range(len(self.cores))),
                  *(("bank", bank) for bank in range(len(self.banks)))]
        self.is_whole = [(what, int(number)) for what, number, _ in parts] == wanted
        self.is_whole &= list(self.run) == ["events", "held", "dropped"]
        self.is_whole &= all(tuple(core)[:len(OF_CORE)] == OF_CORE for core in self.cores)
        self.is_whole &= all(tuple(bank)[:len(OF_BANK)] == OF_BANK for bank in self.banks)
        self.is_whole &= all(part[kind] for part in [*self.cores, *self.banks] for kind in KINDS if kind in part)

    def adds_up(self):
        """Whether the numbers say the same, as docs/COUNTS.md has it."""
        sums = {name: sum(part[name] for part in [*self.cores, *self.banks]) for name in ("held", "dropped")}
        return sums == {name: self.run[name] for name in sums} and all(
            core["returns"] <= min(core["evictions"], core.get("FlushRep", 0))
            and core["reloads"] <= core.get("ShRep", 0) for core in self.cores)

    def numbers(self):
        """All numbers by where they stand; a count never falls."""
        parts = [*(("core", core) for core in self.cores), *(("bank", bank) for bank in self.banks)]
        return self.run | {(what, place, name): number for place, (what, part) in enumerate(parts)
                           for name, number in part.items()}

    def rows(self):
        """The rows of docs/COUNTS.md that the lines have, but for those that are 0: the sum, and by part."""
        cores = {name: [core[name] for core in self.cores] for name in OF_CORE[:4]}
        cores["misses"] = [sum(core[cause] for cause in CAUSES) for core in self.cores]
        cores |= {"evicted-copies": [core["evictions"] for core in self.cores],
                  "last-time": [core["time"] for core in self.cores]}
        rows = {name: [max(numbers) if name == "last-time" else sum(numbers), *numbers]
                for name, numbers in cores.items()}
        entries = [bank["evictions"] for bank in self.banks]
        rows["evicted-entries"] = [sum(entries), *entries]
        for kind in KINDS:
            of_cores, of_banks = ([part.get(kind, 0) for part in parts] for parts in (self.cores, self.banks))
            rows[f"{kind}-sent"] = [sum(of_banks), *of_cores, *of_banks]
        return {name: list(map(str, numbers)) for name, numbers in rows.items() if any(numbers)}

    def seen(self):
        """Of each core and each bank what SEEN has, where it isn't 0."""
        names = [*CAUSES, "returns", "reloads", "held", "dropped"]
        return [{name: part[name] for name in names if part.get(name)} for part in [*self.cores, *self.banks]]


def parted(out):
    """The report, the rows by their numbers, and the counts at the end."""
    report, *rest = re.split(r"^(?=row |events )", out, flags=re.M)
    rows, number = {}, None
    for part in rest:
        if part.startswith("row "):
            number = int(part.split()[1])
        elif number is None:
            return report, rows, Counted(part)
        else:
            rows[number], number = Counted(part), None
    return report, rows, None


def by_hand(tester, folder):
    path = Path(folder, "a.trace")
    for name, seen in SEEN.items():
        text, options, ended, rows = (counts.BY_HAND | OWN)[name]
        path.write_text(text)
        status, out, error = tester.run("trace", "--counts", *options.split(), str(path))
        _, _, found = parted(out)
        wanted = counts.wanted_of(ended, rows)
        end = wanted.pop("end")
        good = (status, error) == (int(end != ["all-done"]), "") and found.is_whole and found.adds_up()
        tester.expect(good and f"\nend {end[0]}\n" in out, f"{name}: {status} {error}{out}")
        tester.expect(found.run["events"] == int(wanted.pop("events")[0]), f"{name}: {found.run}, wanted {ended}")
        kept = {row: wanted[row] for row in wanted if row not in UNTOLD and not row.endswith("-delivered")}
        tester.expect(found.rows() == kept, f"{name}: {found.rows()}, wanted {kept}")
        tester.expect(found.seen() == [numbers_of(told.split()) for told in seen],
                      f"{name}: {found.seen()}, wanted {seen}")
    text, options, wanted = LOSSES
    path.write_text(text)
    found = parted(tester.run("trace", "--counts", *options.split(), str(path))[1])[2].cores[0]
    got = {cause: found[cause] for cause in CAUSES if found[cause]}
    tester.expect(got == numbers_of(wanted.split()), f"losses of a line: {got}, wanted {wanted}")


def in_rows(tester, folder):
    """Rows by hand, and those of a run that is longer: each is what a run of as many operations counts."""
    path = Path(folder, "a.trace")
    for text, every, wanted in IN_ROWS:
        path.write_text(text)
        plain = tester.run("trace", str(path))[1]
        got = tester.run("trace", "--counts", f"--every={every}", str(path))
        tester.expect(got == (0, plain + "".join(line + "\n" for line in wanted), ""), f"{text} {every}: {got}")
    for loads, every in ((9, 4), (8, 4), (9, 2 ** 64 - 1), (9, 9)):
        path.write_text("0 R 0x0\n" * loads)
        _, rows, end = parted(tester.run("trace", "--counts", "--every", str(every), str(path))[1])
        got = {number: (row.run["events"], row.cores[0]["hits"]) for number, row in rows.items()}
        tester.expect(got == {number: (12 + 2 * number, number - 1) for number in range(every, loads + 1, every)} and
                      end.run["events"] == 12 + 2 * loads, f"{loads} loads, by {every}: {got} {end.run}")


def row_options(draw):
    """Of some runs the words that ask for rows."""
    return draw.choice([[], [], ["--every", draw.choice(["1", "2", "7", "1000"])]])


def seen_in(rows, end):
    """What the counts of a run show, in words."""
    found = {name for core in end.cores for name in (*CAUSES, "evictions", "returns", "reloads") if core[name]}
    found |= {f"held at a {what}" for what, parts in (("core", end.cores), ("bank", end.banks))
              if any(part["held"] for part in parts)}
    return found | set(["dropped"] * bool(end.run["dropped"]) + ["rows"] * (len(rows) > 1))


def at_random(tester, folder):
    draw, path = random.Random(7), Path(folder, "a.trace")
    seen, second = set(), Tester(SECOND)
    for number in range(TRACES):
        text, options = counts.random_trace(draw)
        path.write_text(text)
        words = ["--counts", *row_options(draw), *options, str(path)]
        if number % 5 == 0:
            got, wanted = (one.run("trace", "--json", *words) for one in (tester, second))
            tester.expect(got == wanted, f"{text} {words}: {got}, wanted {wanted}")
            continue
        got, wanted = (one.run("trace", *words) for one in (tester, second))
        tester.expect(got == wanted, f"{text} {words}: {got}, wanted {wanted}")
        (report, rows, end), plain = parted(got[1]), tester.run("trace", *options, str(path))
        tester.expect((got[0], report, got[2]) == plain, f"{text} {words}: another report")
        points = [*rows.values(), end]
        tester.expect(all(one.is_whole and one.adds_up() for one in points), f"{text} {words}: {got}")
        tester.expect(all(before.numbers()[name] <= behind.numbers()[name] for before, behind in zip(points, points[1:])
                          for name in before.numbers()), f"{text} {words}: a count falls")
        seen |= seen_in(rows, end)
    wanted = {*CAUSES, "evictions", "returns", "reloads", "held at a core", "held at a bank", "dropped", "rows"}
    tester.expect(seen == wanted, f"the random traces have {sorted(seen)} alone")


def main(program):
    tester = Tester(os.path.abspath(program))
    os.chdir(TOP)
    with tempfile.TemporaryDirectory() as folder:
        by_hand(tester, folder)
        in_rows(tester, folder)
        at_random(tester, folder)
    print(f"{tester.tried} tried, {tester.wrong} wrong")
    return int(tester.wrong > 0)


if __name__ == "__main__":
    sys.exit(main(sys.argv[1]) if len(sys.argv) == 2 else __doc__)
