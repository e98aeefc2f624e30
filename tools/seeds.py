#!/usr/bin/env python3
"""Runs a litmus test on a range of seeds in parts, on all processors or on many machines.

    tools/seeds.py [--parts N] [--jobs N] FIRST RUNS TEST [options of the program]
    tools/seeds.py --part K --parts N [--folder FOLDER] FIRST RUNS TEST [options of the program]

The range has RUNS seeds from FIRST on, and N parts of nearly equal length. The first form runs all of them, as many at
once as there are processors or as --jobs says, and prints the report of the whole range. The second runs part K alone,
from 0, as a task of a cluster does. Its report becomes FOLDER/K.report, with zeros in front so that the names are in
the order of the seeds; FOLDER/K.json says how it was made. tools/merge.py joins the reports.

The program is what TARDIS names, or else the one that ./tardis builds, which the script builds if need be. The status
is 0 if every run was all done, and 1 if one ended otherwise; of a part it is 0 for both. If a report is missing, the
status is 2, standard error says why in one line, and nothing is printed.
"""
import argparse
import concurrent.futures
import hashlib
import json
import os
import shutil
import subprocess
import sys
from pathlib import Path

sys.path.insert(0, str(Path(__file__).resolve().parent.parent))
from reference.given import Bad, tool  # noqa: E402
from tools import program  # noqa: E402
from tools.merge import SEEDS, Report, joined  # noqa: E402
from tools.program import BUILT, TOP, Refused, fail, text_of  # noqa: E402


MOST = 1_000_000  # seeds of one part


def words():
    parser = argparse.ArgumentParser(allow_abbrev=False, description=__doc__,
                                     formatter_class=argparse.RawDescriptionHelpFormatter)
    parser.add_argument("--parts", type=program.number(1, MOST), metavar="N",
                        help="how many parts there are (as many as run at once)")
    parser.add_argument("--jobs", type=program.number(1, MOST), metavar="N", default=len(os.sched_getaffinity(0)),
                        help="how many parts run at once (as many as there are processors)")
    parser.add_argument("--part", type=program.number(0, MOST - 1), metavar="K", help="this part alone is run")
    parser.add_argument("--folder", type=Path, default=Path("reports"), help="where its report goes (reports)")
    parser.add_argument("FIRST", type=program.number(0, SEEDS - 1))
    parser.add_argument("RUNS", type=program.number(1, SEEDS))
    parser.add_argument("TEST")
    parser.add_argument("options", nargs=argparse.REMAINDER, help="options of the program (docs/TEXTS.md)")
    parser.error = lambda said: fail(f"{said} (--help tells all)")
    return parser


def refuse_own(options):
    """Options of the program that a part has already, or with which its report can't be joined."""
    for name in (word.partition("=")[0] for word in options):
        if name in ("--seed", "--runs", "--schedule"):
            fail(f"{name} isn't taken: FIRST and RUNS say which seeds are run")
        if name == "--json":
            fail("--json isn't taken: reports are joined line by line")


def built_program():
    """The file of the program; the script builds it here if it isn't built."""
    named = os.environ.get("TARDIS")
    found = shutil.which(named or TOP / "tardis")
    if found is None:
        fail(f"{named}: no such program")
    if Path(found).resolve() != TOP / "tardis":
        return Path(found).resolve()
    if subprocess.run([found, "check", "/dev/null", "/dev/null"], stdout=subprocess.DEVNULL, check=False).returncode:
        fail("the program can't be built")
    return BUILT


class Parts:
    """A range of seeds that is cut into parts."""

    def __init__(self, given):
        self.given, self.test = given, given.TEST
        self.first, self.runs = given.FIRST, given.RUNS
        self.count = given.parts or min(max(given.jobs, -(-self.runs // MOST)), MOST)

    def seeds(self, number):
        """The first seed of a part, and how many it has."""
        start, end = (self.runs * place // self.count for place in (number, number + 1))
        return (self.first + start) % SEEDS, end - start

    def report(self, number):
        first, runs = self.seeds(number)
        test = f"./{self.test}" if self.test.startswith("-") else self.test
        return program.run("litmus", "--schedule", "seed", "--seed", first, "--runs", runs, *self.given.options, test)

    def made(self, number, report, file):
        """How a part's report was made."""
        first, runs = self.seeds(number)
        return {"report": {"sha256": checksum(report.encode())},
                "seeds": {"first": first, "runs": runs},
                "range": {"first": self.first, "runs": self.runs, "part": number, "parts": self.count},
                "options": self.given.options,
                "test": {"path": self.test, "sha256": checksum(text_of(self.test))},
                "program": {"path": str(file), "version": version(file), "sha256": checksum(text_of(file))}}


def checksum(text):
    return hashlib.sha256(text).hexdigest()


def version(file):
    """The commit of the sources that a file lies among, as git names it, or None."""
    try:
        said = subprocess.run(["git", "describe", "--always", "--dirty"], cwd=file.parent, capture_output=True,
                              text=True, check=True)
    except (OSError, subprocess.CalledProcessError):
        return None
    return said.stdout.strip()


def put(path, text):
    """A whole file or none."""
    new = path.with_name(path.name + ".new")
    try:
        path.parent.mkdir(parents=True, exist_ok=True)
        new.write_text(text, encoding="ascii")
        new.replace(path)
    except OSError as error:
        fail(f"{path}: {error.strerror}")


def put_part(parts, number, file):
    if number >= parts.count or parts.seeds(number)[1] == 0:
        fail(f"there are no seeds in part {number} of {parts.count}")
    report = parts.report(number)
    made, name = parts.made(number, report, file), parts.given.folder / f"{number:06d}"
    put(name.with_suffix(".json"), json.dumps(made, indent=1) + "\n")
    put(name.with_suffix(".report"), report)
    return 0


def print_whole(parts):
    """Prints the report of the whole range; 1 if a run wasn't all done."""
    numbers = [number for number in range(parts.count) if parts.seeds(number)[1]]
    with concurrent.futures.ThreadPoolExecutor(parts.given.jobs) as pool:
        whole = joined(list(pool.map(parts.report, numbers)))
    sys.stdout.write(whole)
    return int(Report(whole).number("all-done") < parts.runs)


def main(words_given):
    parser = words()
    given = parser.parse_args(words_given)
    if given.part is not None and given.parts is None:
        parser.error("--part K wants --parts N")
    refuse_own(given.options)
    text_of(given.TEST)
    parts, file = Parts(given), built_program()
    os.environ["TARDIS"] = str(file)
    try:
        return print_whole(parts) if given.part is None else put_part(parts, given.part, file)
    except (Bad, Refused) as cause:
        says = f": 'tools/explain.py -- litmus {given.TEST}' says why" if str(cause).startswith("line ") else ""
        fail(f"{given.TEST}: {cause}{says}")


if __name__ == "__main__":
    tool(main)
