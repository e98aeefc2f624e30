#!/usr/bin/env python3
"""Changes one definition at a time in a copy of the second program, and asks the committed texts who notices:
tests/changed_definitions.py [--only REGEX] [--all] [--jobs N] [--self-test]

If a definition of crates/*/specs and its code are changed alike, no proof fails. Only a text with a fixed expected
output can notice. reference/ states the same rules anew, in Python; so each row of tests/changed_rules.py changes one
rule there, and what is committed is compared with what the changed rules say: the texts of both players, the reports,
records and tables of examples/, tables of faults and of ends, and what scripts have by hand. The gate compares the
proved program with the same outputs. So the figure tells how many of the changes they would refuse, had definition and
code been changed alike. Only the second program was changed for it, and no proof was asked.

What compares the two programs with each other doesn't count, nor what the second program tests by itself: its
assertions are off. A text also refuses where the second program ends by an error, or takes a minute. Asked are first
the texts of the players, then tables, then examples, up to three that refuse; what takes long only if none of them
does. With --all each text is asked. Other scripts of the gate may refuse more: pages, runs by several threads and the C
library aren't asked.

Printed are each change with the texts that refuse it, and at the end for each group of docs/TRUST.md how many changes
there were, and how many were refused. --self-test: the short texts refuse nothing without a change, each row's old text
stands once, and its definition in a file of its group.
"""
import argparse
import json
import re
import subprocess
import sys
import tempfile
from collections import Counter
from concurrent.futures import ThreadPoolExecutor
from pathlib import Path
from queue import SimpleQueue

TOP = Path(__file__).resolve().parent.parent
sys.path.insert(0, str(TOP))
from tests.changed_rules import ROWS, UNSTATED  # noqa: E402
from tests.rooms import calm, committed  # noqa: E402

PARTS = ["reference", "tests", "tools", "maintain", "examples", "docs/TRUST.md", "crates/play_events/data",
         "crates/play_seats/data", "crates/tardis/data"]
FEW = ("--most=3", "--first")  # texts that refuse are enough, and of one kind, without --all


class Copy:
    """A copy of what is committed, in which one text at a time is changed."""

    def __init__(self, folder):
        self.top = Path(folder)
        self.top.mkdir()
        subprocess.run(["tar", "-x", "-C", folder], input=committed("archive", "HEAD", *PARTS), check=True)

    def asked(self, which, file="", *more):
        words = [sys.executable, "-O", "-B", str(self.top / "tests/committed_texts.py"), f"--which={which}",
                 f"--changed={file.replace('/', '.').removesuffix('.py')}", *more]
        with subprocess.Popen(words, stdout=subprocess.PIPE, stderr=subprocess.PIPE, text=True,
                              start_new_session=True) as running:
            calm(running.pid)
            out, error = running.communicate()
        if running.returncode:
            raise RuntimeError(f"{file}: {error[-2000:]}")
        return json.loads(out)

    def refusing(self, row, has_all):
        """The texts that refuse a row's change, by kind; the long ones are asked if no other does."""
        path = self.top / row.file
        kept = path.read_text(encoding="utf-8")
        path.write_text(kept.replace(row.old, row.new), encoding="utf-8")
        try:
            if has_all:
                return self.asked("all", row.file)
            return self.asked("usual", row.file, *FEW) or self.asked("long", row.file, "--most=1", "--first")
        finally:
            path.write_text(kept, encoding="utf-8")


def listed_files():
    """The files of specs/ that each group of the table of docs/TRUST.md lists."""
    groups, table = {}, (TOP / "docs/TRUST.md").read_text(encoding="utf-8").partition("<!-- table definitions -->")[2]
    for line in table.splitlines():
        if head := re.match(r"\| \*\*(.*?)[:*]", line):
            files = groups[head[1]] = []
        elif row := re.match(r"\| `(\S+/specs/\S+)`", line):
            files.append(row[1])
    return groups


def faults():
    """What is wrong with rows."""
    groups, names = listed_files(), Counter((row.definition, row.new) for row in ROWS)
    for row in ROWS:
        name, _, crate = row.definition.partition(" of ")
        if (TOP / row.file).read_text(encoding="utf-8").count(row.old) != 1 or names[row.definition, row.new] > 1:
            yield f"{row.definition}: its old text doesn't stand once in {row.file}"
        files = (TOP / "crates" / file for file in groups.get(row.group, ()) if file.startswith(crate + "/"))
        begins = re.compile(rf"^ *(?:abbrev pub|pub record|pub data) {re.escape(name)}(?![\w'])", re.M)
        if not any(begins.search(file.read_text(encoding="utf-8")) for file in files):
            yield f"{row.definition}: not in a file of the group {row.group}"
    yield from (f"no row of {group}" for group in groups if not {row.group for row in ROWS} | set(UNSTATED) >= {group})


def tried(rows, has_all, jobs):
    """Each row with the texts that refuse it."""
    with tempfile.TemporaryDirectory() as folder, ThreadPoolExecutor(jobs) as pool:
        copies = SimpleQueue()
        for number in range(jobs):
            copies.put(Copy(f"{folder}/{number}"))

        def one(row):
            copy = copies.get()
            try:
                return row, copy.refusing(row, has_all)
            finally:
                copies.put(copy)
        yield from pool.map(one, rows)


def words_of(refusing):
    return "; ".join(f"{kind}: " + ", ".join(name + " (fails)" * (how == 2) for name, how in said)
                     for kind, said in refusing.items()) or "nothing"


def main():
    parser = argparse.ArgumentParser(description=__doc__, formatter_class=argparse.RawDescriptionHelpFormatter)
    parser.add_argument("--only", default="", help="changes of definitions that match alone")
    parser.add_argument("--all", action="store_true", help="ask all texts, also once some refuse")
    parser.add_argument("--jobs", type=int, default=2, metavar="N", help="changes at once (2)")
    parser.add_argument("--self-test", action="store_true")
    options = parser.parse_args()
    with tempfile.TemporaryDirectory() as folder:
        unchanged = Copy(f"{folder}/copy").asked("short" if options.self_test else "all" if options.all else "usual")
    wrong = [*faults(), *([f"without a change: {words_of(unchanged)}"] if unchanged else [])]
    if wrong or options.self_test:
        print("\n".join(wrong) or f"{len(ROWS)} changes can be made, and without one nothing is refused")
        return int(bool(wrong))
    made, refused, kinds = Counter(), Counter(), Counter()
    rows = [row for row in ROWS if re.search(options.only, row.definition)]
    for row, refusing in tried(rows, options.all, options.jobs):
        print(f"{row.definition}: {row.change}: refused by {words_of(refusing)}", flush=True)
        made[row.group] += 1
        refused[row.group] += bool(refusing)
        kinds.update((row.group, kind) for kind in refusing)
    for group in made:
        of_kinds = ", ".join(f"{kinds[group, kind]} by {kind}" for kind in ("players", "tables", "examples"))
        print(f"{group}: {made[group]} changes, {refused[group]} refused: {of_kinds}")
    return 0


if __name__ == "__main__":
    sys.exit(main())
