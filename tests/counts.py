#!/usr/bin/env python3
"""Tries tools/counts.py: tests/counts.py PLAYER [PROGRAM], the built crates play_events and tardis. Without PROGRAM the
second program is tried in its place.

Eighteen runs were counted by hand from docs/COUNTS.md, PROTOCOL.md and SCHEDULES.md. Then the player and the second
program's, which counts by the same pages, count random traces on random machines, and litmus tests by seeds. By
--program the same runs have the same numbers, and rows, what is left out and columns are as by hand. The last line is
`N tried, M wrong`.
"""
import os
import random
import re
import sys
import tempfile
from pathlib import Path

sys.path.insert(0, str(Path(__file__).resolve().parent.parent))
from reference import told  # noqa: E402
from reference.traces import Fault, Trace  # noqa: E402
from tests.texts import TOP, Tester, of_printf, rows  # noqa: E402
from tools import counts  # noqa: E402


SECOND = str(TOP / "reference/play.py")
TRACES = 40  # that are drawn
LONG = 500_000  # letters of a trace that the second program would take too long to count
# A trace, or a test of the catalogue; options; how the run ends, its turns and events; and the rows that aren't 0: the
# sum, then the cores, and of messages the banks. A kind stands for both of its rows; a row that has other numbers
# follows.
LOAD = "DramLd 1 0 1; DramLdRep 1 0 1"
BY_HAND = {
    "a load": ("0 R 0x0\n", "", "all-done 6 14", f"loads 1 1; misses 1 1; ShReq 1 1 1; ShRep 1 1 1; {LOAD}"),
    "a load that hits": ("0 R 0x0\n0 R 0x0\n", "", "all-done 7 16",
                         f"loads 2 2; hits 1 1; misses 1 1; ShReq 1 1 1; ShRep 1 1 1; {LOAD}"),
    "1,000,000 loads": ("0 R 0x0\n" * 1000000, "--limit 4294967295", "all-done 1000005 2000012",
                        f"loads 1000000 1000000; hits 999999 999999; misses 1 1; ShReq 1 1 1; ShRep 1 1 1; {LOAD}"),
    "a swap, and a load of the owner": (
        "0 S 0x0 5\n0 R 0x0\n", "", "all-done 7 16",
        f"loads 1 1; swaps 1 1; hits 1 1; misses 1 1; last-time 1 1; ExReq 1 1 1; ExRep 1 1 1; {LOAD}"),
    # The store goes past the lease, which ends at 10.
    "an upgrade": ("0 R 0x0\n0 W 0x0 1\n", "", "all-done 9 20",
                   "loads 1 1; stores 1 1; misses 2 2; last-time 11 11; ShReq 1 1 1; ShRep 1 1 1; ExReq 1 1 1; "
                   f"UpgradeRep 1 1 1; {LOAD}"),
    # The lease ends at 2, and the second load comes at 3.
    "a renewal": ("trace 2\n0 R 0x0\n0 A\n0 A\n0 A\n0 R 0x0\n", "--lease 2", "all-done 12 23",
                  f"loads 2 2; misses 2 2; last-time 3 3; ShReq 2 2 2; ShRep 1 1 1; RenewRep 1 1 1; {LOAD}"),
    # Core 1 loads 0x0 at time 0, as its lease goes on to 3; core 0 stored it before, at time 4.
    "a stale hit": ("0 R 0x8\n0 W 0x0 7\n1 R 0x0\n1 R 0x10\n1 R 0x0\n", "--lease 3", "all-done 13 50",
                    "loads 4 1 3; stores 1 1 0; hits 1 0 1; misses 4 2 2; stale-hits 1 0 1; last-time 4 4 0; "
                    "ShReq 3 1 2 3; ShRep 3 1 2 3; ExReq 1 1 0 1; ExRep 1 1 0 1; DramLd 3 0 0 3; DramLdRep 3 0 0 3"),
    # The same with a swap, which is a write, too.
    "a stale hit of a swap": (
        "0 R 0x8\n0 S 0x0 7\n1 R 0x0\n1 R 0x10\n1 R 0x0\n", "--lease 3", "all-done 13 50",
        "loads 4 1 3; swaps 1 1 0; hits 1 0 1; misses 4 2 2; stale-hits 1 0 1; last-time 4 4 0; "
        "ShReq 3 1 2 3; ShRep 3 1 2 3; ExReq 1 1 0 1; ExRep 1 1 0 1; DramLd 3 0 0 3; DramLdRep 3 0 0 3"),
    # Core 0 owns the word first; its copy is recalled for core 1's load.
    "a recall": ("1 R 0x0\n0 W 0x0 1\n1 R 0x0\n", "", "all-done 11 39",
                 "loads 2 0 2; stores 1 1 0; hits 1 0 1; misses 2 1 1; last-time 1 1 1; recalls 1 1; ShReq 1 0 1 1; "
                 "ShRep 1 0 1 1; ExReq 1 1 0 1; ExRep 1 1 0 1; WbReq 1 1 0 1; WbRep 1 1 0 1; DramLd 1 0 0 1; "
                 "DramLdRep 1 0 0 1"),
    # Core 1 asks at time 5, in the round in which core 0's store completes; so the bank recalls the line. In the next
    # round core 0 gives it back to make place, before that message is delivered.
    "a recall that is dropped": (
        "trace 2\n0 W 0x0 1\n0 R 0x8\n" + "1 A\n" * 5 + "1 R 0x0\n", "--sets 1 --ways 1", "all-done 12 47",
        "loads 2 1 1; stores 1 1 0; misses 3 2 1; evicted-copies 1 1 0; last-time 5 1 5; recalls 1 1; ShReq 2 1 1 2; "
        "ShRep 2 1 1 2; ExReq 1 1 0 1; ExRep 1 1 0 1; WbReq 1 1 0 1; FlushRep 1 1 0 1; DramLd 2 0 0 2; "
        "DramLdRep 2 0 0 2"),
    "a copy that makes place": ("0 R 0x0\n0 R 0x8\n", "--sets 1 --ways 1", "all-done 12 30",
                                "loads 2 2; misses 2 2; evicted-copies 1 1; ShReq 2 2 2; ShRep 2 2 2; DramLd 2 0 2; "
                                "DramLdRep 2 0 2"),
    # The bank has place for one line: it recalls the owner's, stores it, and then loads the other one.
    "an entry that makes place": (
        "0 W 0x0 1\n0 R 0x8\n", "--bank-sets 1 --bank-ways 1", "all-done 18 46",
        "loads 1 1; stores 1 1; misses 2 2; last-time 1 1; recalls 1 1; evicted-entries 1 1; ShReq 1 1 1; ExReq 1 1 1; "
        "ShRep 1 1 1; ExRep 1 1 1; FlushReq 1 1 1; FlushRep 1 1 1; DramLd 2 0 2; DramLdRep 2 0 2; DramSt 1 0 1; "
        "DramStRep 1 0 1"),
    # The second store may keep the time of the first.
    "a private write": ("0 W 0x0 1\n0 W 0x0 2\n", "--private-write --time 5", "all-done 7 16",
                        f"stores 2 2; hits 1 1; misses 1 1; last-time 6 6; ExReq 1 1 1; ExRep 1 1 1; {LOAD}"),
    # One copy has place. Behind the first load of each line, a load takes three turns and eight events.
    "66,000 requests": ("0 R 0x0\n0 R 0x8\n" * 33000, "--sets 1 --ways 1 --limit 4294967295", "all-done 198006 528014",
                        "loads 66000 66000; misses 66000 66000; evicted-copies 65999 65999; ShReq 66000 66000 66000; "
                        "ShRep 66000 66000 66000; DramLd 2 0 2; DramLdRep 2 0 2"),
    "two banks": ("0 R 0x8\n", "--banks 2", "all-done 6 14",
                  "loads 1 1; misses 1 1; ShReq 1 1 0 1; ShRep 1 1 0 1; DramLd 1 0 0 1; DramLdRep 1 0 0 1; "
                  "dram-loads 1 0 1"),
    # The request has no room for the message to DRAM that would follow from it.
    "a network of one message": ("0 W 0x0 1\n", "--messages 1", "stalled 2 5", "ExReq 1 1 1; ExReq-delivered 0 0 0"),
    # The bank's one place goes to the requests in their order.
    "fair rounds": ("0 R 0x0\n1 R 0x8\n2 R 0x0\n", "--fair --bank-sets 1 --bank-ways 1", "all-done 12 64",
                    "loads 3 1 1 1; misses 3 1 1 1; last-time 20 0 10 20; evicted-entries 2 2; ShReq 3 1 1 1 3; "
                    "ShRep 3 1 1 1 3; DramLd 3 0 0 0 3; DramLdRep 3 0 0 0 3"),
    "a run that is cut": ("0 W 0x0 1\n", "--limit 3", "limit 3 9", f"ExReq 1 1 1; ExReq-delivered 0 0 0; {LOAD}"),
    # docs/SCHEDULES.md has these events. The fourth turn makes none.
    "a test by a seed": ("SB", "--schedule seed --seed 4 --limit 9", "limit 8 8",
                         "ExReq 1 0 1 1; ExReq-delivered 0 0 0 0; DramLd 1 0 0 1; DramLdRep 1 0 0 1; "
                         "DramLdRep-delivered 0 0 0 0"),
}


# By hand, by --program: rows that a player hasn't.
BY_PROGRAM = {
    "an upgrade": "held 2; cold 1 1; shared 1 1; held-requests 2 2",
    "a renewal": "held 2; cold 1 1; ended 1 1; held-requests 2 2",
    "a recall": "held 9; cold 2 1 1; held-recalls 1 1 0; held-requests 8 8",
    "a recall that is dropped":
        "held 5; dropped 1; cold 3 2 1; returns 1 1 0; dropped-recalls 1 1 0; held-requests 5 5",
    "an entry that makes place": "held 10; cold 2 2; held-requests 10 10",
    "a network of one message": "",
    "a run that is cut": "held 2; held-requests 2 2",
}
# A load of a line takes 14 events, a hit two and an upgrade six; the load's request is held twice.
THREE = "0 R 0x0\n0 R 0x0\n0 W 0x0 1\n"
PARTS = {"cores": "loads stores swaps hits misses cold evicted recalled ended shared evicted-copies returns reloads "
                  "held-recalls dropped-recalls last-time",
         "banks": "dram-loads dram-stores recalls evicted-entries held-requests"}
# By hand: the words, and the lines, where blanks are one, and rows of zeros are left out.
POINTS = [
    ("--every 2 --skip 1", [
        "end all-done", "row 2", "events 2", "held 0", "dropped 0", "cores all core 0", "loads 1 1", "hits 1 1",
        "banks all bank 0", "messages all core 0 bank 0", "events 8", "held 0", "dropped 0", "cores all core 0",
        "loads 1 1", "stores 1 1", "hits 1 1", "misses 1 1", "shared 1 1", "last-time 11 11", "banks all bank 0",
        "messages all core 0 bank 0", "ExReq-sent 1 1 1", "UpgradeRep-sent 1 1 1"]),
    ("--skip 2 --cores 0", [
        "end all-done", "events 6", "held 0", "dropped 0", "cores all core 0", "stores 1 1", "misses 1 1", "shared 1 1",
        "last-time 11 11", "banks all bank 0", "messages all core 0 bank 0", "ExReq-sent 1 1 1",
        "UpgradeRep-sent 1 1 1"]),
    ("--every 1 --columns hits,misses,events,held,last-time", [
        "completed hits misses events held last-time", "1 0 1 14 2 0", "2 1 1 16 2 0", "3 1 2 22 2 11"]),
    ("--every 1 --skip 1 --columns hits,misses,events", ["completed hits misses events", "2 1 0 2", "3 1 1 8"]),
    ("--every 2 --columns cold", ["completed cold", "2 1", "3 1"]),
    ("--every 7 --columns cold", ["completed cold", "3 1"]),
    ("--columns cold", ["completed cold", "3 1"]),
    ("--limit 6 --every 1 --columns hits,events", ["completed hits events", "1 0 14"]),
]


def wanted_of(ended, told_rows):
    """The expected rows, by their names, but for those that are 0."""
    found = dict(zip(("end", "turns", "events"), ([word] for word in ended.split(" "))))
    for row in told_rows.split("; "):
        name, *numbers = row.split(" ")
        names = [f"{name}-sent", f"{name}-delivered"] if name in counts.KINDS else [name]
        found |= dict.fromkeys(names, numbers)
    return {f"dram-{what}": found[row][:1] + found[row][-1:] for what, row in
            (("loads", "DramLd-sent"), ("stores", "DramSt-sent")) if row in found} | found


class Counter(Tester):
    """Counts by the script."""

    def __init__(self, player, counting, folder):
        super().__init__(str(TOP / "tools/counts.py"))
        self.player, self.counting, self.folder = player, counting, folder

    def count(self, file, options, player=None):
        return self.run("--player", player or self.player, *options, str(file))

    def file(self, text, name="a.trace"):
        path = Path(self.folder, name)
        path.write_text(text)
        return path

    def refused(self, wanted, *words):
        status, out, error = self.run(*words)
        good = (status, out) == (2, "") and wanted in error and error.count("\n") == 1
        self.expect(good, f"{words}: {status} {out} {error}, wanted {wanted}")


def by_hand(tester):
    zeros = [*counts.OF_CORES, *counts.OF_BANKS]
    for name, (what, options, ended, told_rows) in BY_HAND.items():
        path = tester.file(what) if "\n" in what else TOP / f"examples/litmus/{what}.litmus"
        for player in [tester.player] + [SECOND] * (len(what) < LONG):
            status, out, error = tester.count(path, options.split(), player)
            got = {line.split()[0]: line.split()[1:] for line in out.splitlines() if line}
            for title in ("cores", "banks", "messages"):
                tester.expect(got.pop(title, [""])[0] == "all", f"{name}: no table of {title}")
            for row in zeros:
                if set(got.get(row, [])) == {"0"}:
                    del got[row]
            wanted = wanted_of(ended, told_rows)
            good = (status, error) == (int(wanted["end"] != ["all-done"]), "") and got == wanted
            tester.expect(good, f"{name}, {player}: {status} {error} {got}, wanted {wanted}")


def by_program(tester):
    """The runs by hand, counted by the program: what the player counts, too, and what it doesn't."""
    untold = [row for row in counts.OF_MESSAGES if row.endswith("-delivered")] + ["turns", "stale-hits"]
    for name, (what, options, ended, told_rows) in BY_HAND.items():
        if "\n" not in what or len(what) >= LONG:
            continue
        status, out, error = tester.run("--program", tester.counting, *options.split(), str(tester.file(what)))
        got = {line.split()[0]: line.split()[1:] for line in out.splitlines() if line}
        heads = {title: got.pop(title, [""])[0] for title in ("cores", "banks", "messages")}
        tester.expect(set(heads.values()) == {"all"}, f"{name}: {heads}")
        got = {row: numbers for row, numbers in got.items() if set(numbers) != {"0"}}
        wanted = wanted_of(ended, told_rows)
        tester.expect((status, error) == (int(wanted["end"] != ["all-done"]), ""), f"{name}: {status} {error}")
        both = {row: numbers for row, numbers in wanted.items() if row not in untold}
        if name in BY_PROGRAM:
            both |= {row: numbers for row, *numbers in (row.split(" ") for row in BY_PROGRAM[name].split("; ") if row)}
        else:
            got = {row: got.get(row) for row in both}
        tester.expect(got == both, f"{name}, by the program: {got}, wanted {both}")


def points(tester):
    """Rows, what is left out, and columns."""
    path = tester.file(THREE)
    for told_words, wanted in POINTS:
        status, out, error = tester.run("--program", tester.counting, *told_words.split(), str(path))
        lines = [" ".join(line.split()) for line in out.splitlines()]
        got = lines if "--columns" in told_words else \
            [line for line in lines if line and not re.fullmatch("[a-z-]+( 0){2,}", line)]
        tester.expect((status, got, error) == (int("--limit" in told_words), wanted, ""),
                      f"{told_words}: {status} {got} {error}")
    _, out, _ = tester.run("--program", tester.counting, str(path))
    for title, rows_of in PARTS.items():
        named = [line.split()[0] for line in out.split(f"\n{title}", 1)[1].split("\n\n")[0].splitlines()[1:]]
        tester.expect(named == rows_of.split(" "), f"the rows of {title}: {named}")
    _, out, error = tester.run("--player", tester.player, "--columns", "turns,hits", str(path))
    tester.expect(([line.split() for line in out.splitlines()], error) ==
                  ([["completed", "turns", "hits"], ["3", "10", "1"]], ""), f"columns by a player: {out} {error}")


def random_trace(generator):
    """A trace, and options."""
    few, words = generator.choice, generator.choice([1, 3, 8, 30])
    lines = []
    for _ in range(generator.randrange(1, 80)):
        letter, word = few("RRRWWSA"), f"{8 * generator.randrange(words):#x}"
        of = {"A": [], "R": [word]}.get(letter, [word, str(generator.randrange(5))])
        lines.append(" ".join([str(generator.randrange(4)), letter, *of]))
    options = {"--lease": few([1, 2, 10]), "--banks": few([1, 1, 3]), "--sets": few([1, 2, 64]), "--ways": few([1, 4]),
               "--bank-sets": few([1, 2, 256]), "--bank-ways": few([1, 2, 8]), "--line-words": few([1, 1, 8]),
               "--messages": few([4, 4096]), "--limit": few([5, 100, 5000, 5000]),
               "--seed": generator.randrange(2 ** 64), "--schedule": few(["round", "seed"])}
    words = [str(word) for option in options.items() for word in option]
    words += ["--private-write"] * few([0, 1]) + ["--fair"] * (options["--schedule"] == "round" and few([0, 1]))
    return "\n".join(["trace 2", *lines]) + "\n", words


def same(tester, path, options):
    """The player counts as the second program does."""
    got, wanted = (tester.count(path, options, player) for player in (tester.player, SECOND))
    tester.expect(got == wanted and got[0] < 2, f"{path.read_text()} {options}: {got}, wanted {wanted}")


def at_random(tester):
    generator = random.Random(1)
    for _ in range(TRACES):
        text, options = random_trace(generator)
        same(tester, tester.file(text), options)
    for name in ("IRIW", "LOCK", "PRIVATE", "2+2W", "STALE"):
        same(tester, TOP / f"examples/litmus/{name}.litmus", ["--schedule", "seed", "--seed", str(len(name))])


def quick_reading(tester):
    """A trace that is read fast has the steps of one that is read field by field; and a bad one isn't read fast."""
    texts = [path.read_bytes() for path in sorted((TOP / "examples/traces").glob("*.trace"))]
    texts += [of_printf(text) for _, text in rows(TOP / "examples/bad/traces.table")]
    texts += [b"0 R 0x0\n\n \t\n0 W 0x8 007 # c\n", b"63 R 0x0\n", b"trace 2\n63 A\n", b"0 A\n", b"", b"\n",
              b"trace 2\ntrace 2\n", b"trace 2\r\n0 R 0x0\n", b"0 R 0x0\x0b\n", b"0 R 0x0\n" + b"#" * 257 + b"\n"]
    fast = 0
    for text in texts:
        got = counts.plain_programs(text)
        try:
            wanted = ["; ".join(map(told.step, steps)) for steps in Trace(text).steps]
        except Fault:
            wanted = None
        plain = got and ["; ".join(map(plainly, steps.split("; "))) if steps else "" for steps in got]
        fast += plain is not None
        tester.expect(plain in (None, wanted), f"{text[:80]}: {plain}, wanted {wanted}")
    tester.expect(fast > 40, f"only {fast} of {len(texts)} traces are read fast")
    kept, counts.MOST_LINES = counts.MOST_LINES, 2
    tester.expect(counts.plain_programs(b"0 R 0x0\n" * 2) is not None and
                  counts.plain_programs(b"0 R 0x0\n" * 3) is None, "a line too many is read fast")
    counts.MOST_LINES = kept


def plainly(step):
    """A step without needless blanks and zeros."""
    letter, *of = step.split()
    return " ".join([letter, *(f"{int(word, 16):#x}" if word[:2] == "0x" else str(int(word)) for word in of)])


def refusals(tester):
    trace, bad = tester.file("0 R 0x0\n"), tester.file("0 R 0x0\n16 R 0x8\n", "bad.trace")
    played = ["--player", tester.player]
    tester.refused("bad.trace: line 2: 4 BadCore", *played, str(bad))
    tester.refused("none.trace: No such file or directory", *played, "none.trace")
    tester.refused("bad configuration", *played, "--line-words", "3", str(trace))
    tester.refused("has the cores 0 to 0", *played, "--cores", "1", str(trace))
    tester.refused("bad configuration: --limit -1: 1 to 4294967295", *played, "--limit", "-1", str(trace))
    tester.refused("no-player: No such file or directory", "--player", "no-player", str(trace))
    tester.refused("the player failed, with status 1", "--player", "false", str(trace))
    tester.refused("invalid choice: 'threads'", *played, "--schedule", "threads", str(trace))
    tester.refused("one run is counted", *played, "--runs", "5", str(trace))
    counting = ["--program", tester.counting]
    tester.refused("--every and --skip need --program", *played, "--every", "1", str(trace))
    tester.refused("--every and --skip need --program", "--skip", "1", str(trace))
    tester.refused("--program and --player: one of them counts", *played, *counting, str(trace))
    tester.refused("SB.litmus is a litmus test: a player counts it", *counting, "examples/litmus/SB.litmus")
    tester.refused("bad.trace: line 2: 4 BadCore", *counting, str(bad))
    tester.refused("--columns and --cores: columns have numbers of the whole run", *counting, "--columns", "hits",
                   "--cores", "0", str(trace))
    tester.refused("none.trace: No such file or directory", *counting, "none.trace")
    tester.refused("bad configuration: --line-words 3: 1 or 8", *counting, "--line-words", "3", str(trace))
    tester.refused("has the cores 0 to 0", *counting, "--cores", "1", str(trace))
    tester.refused("no-program: No such file or directory", "--program", "no-program", str(trace))
    tester.refused("false ended with status 1, without counts", "--program", "false", str(trace))
    tester.refused("1 operations completed: --skip 1 leaves none", *counting, "--skip", "1", str(trace))
    tester.refused("0 isn't a number from 1 to 18446744073709551615", *counting, "--every", "0", str(trace))
    for name in ("--every", "--skip"):
        tester.refused(f"{2 ** 64} isn't a number from 1 to 18446744073709551615", *counting, name, str(2 ** 64),
                       str(trace))
    tester.refused("--columns turns: there are events, held, dropped, loads,", *counting, "--columns", "hits,turns",
                   str(trace))


def shown_cores(tester):
    """Columns of the cores that are named alone."""
    played = ["--player", tester.player]
    _, out, _ = tester.run(*played, "--cores", "1", str(tester.file("0 R 0x0\n1 R 0x8\n")))
    heads = [line.split()[1:] for line in out.splitlines() if line.split()[:1] in (["cores"], ["banks"], ["messages"])]
    wanted = [["all", "core", "1"], ["all", "bank", "0"], ["all", "core", "1", "bank", "0"]]
    tester.expect(heads == wanted, f"--cores 1: {heads}")
    five = tester.file("".join(f"{core} R 0x0\n" for core in range(5)))
    _, out, _ = tester.run(*played, "--cores", "0,2-3", str(five))
    named = out.split("\n\n")[1].split()[2:8]
    tester.expect(named == ["core", "0", "core", "2", "core", "3"], f"--cores 0,2-3: {out}")
    for wrong in ("1-0", "x", "0-", "0,", "0-99999999999"):
        tester.refused(f"--cores: {wrong} isn't a list of cores, as 0,2 or 0-3", *played, "--cores", wrong, str(five))


def main(player, program=str(TOP / "reference/oracle.py")):
    player, program = map(os.path.abspath, (player, program))
    os.chdir(TOP)
    with tempfile.TemporaryDirectory() as folder:
        tester = Counter(player, program, folder)
        for part in (by_hand, by_program, points, at_random, quick_reading, refusals, shown_cores):
            part(tester)
    print(f"{tester.tried} tried, {tester.wrong} wrong")
    return int(tester.wrong > 0)


if __name__ == "__main__":
    sys.exit(main(*sys.argv[1:]) if len(sys.argv) in (2, 3) else __doc__)
