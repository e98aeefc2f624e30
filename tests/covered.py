#!/usr/bin/env python3
"""Says which branches of the Python that users run no script of the gate goes: tests/covered.py PROGRAM EVENTS SEATS

The scripts that .ci/run lists are run in a copy of what is committed, each by itself, with Debian's python3-coverage.
What each comes by is kept in a file, so a run that was interrupted goes on. A branch is a line from which the next one
may be one of several, and one of these. Those that no script goes are printed, each with its line, but for those of
tests/covered.table: `FILE | LINE | REASON`, where LINE is the text of the line. The last line says how many there are.
What runs elsewhere than in the folders tools, reference and python, as a tool that a script copies, counts where its
path ends as there.
"""
import argparse
import os
import re
import sys
import tempfile
from pathlib import Path

TOP = Path(__file__).resolve().parent.parent
sys.path.insert(0, str(TOP))
from tests.rooms import Kept, Room  # noqa: E402

TABLE = Path(__file__).with_suffix(".table")
PROGRAMS = ("PROGRAM", "EVENTS", "SEATS")
FOLDERS = ("tools", "reference", "python")
# Scripts that run no Python that users run, or build a library.
LEFT_OUT = re.compile(r"costs|refusals|slurm|embed|recursion|sentences|documents|literals|memory|grammar|header|reached"
                      r"|mutants")
LIBRARY = Path("/usr/lib/python3/dist-packages/coverage")
STARTS = "import coverage\ncoverage.process_startup()\n"
SETTINGS = """[run]
branch = True
parallel = True
sigterm = True
concurrency = thread, multiprocessing
data_file = {}/data
include = {}
disable_warnings = no-data-collected, module-not-imported, module-not-measured, couldnt-parse, include-ignored,
    already-imported
"""


def limits(script):
    """What a process may take of memory, and write to a file. A browser takes more addresses than any machine has."""
    return ("" if "tests/page.py" in script else "ulimit -v 16000000; ") + "ulimit -f 8000000;"


class Watched(Room):
    """A room in which is noted what the gate's scripts come by."""

    def __init__(self, folder, options):
        super().__init__(folder, {"tardis": options.PROGRAM, "events": options.EVENTS, "seats": options.SEATS})
        self.notes = Path(f"{folder}.notes")
        self.notes.mkdir()
        (self.notes / "coverage").symlink_to(LIBRARY)
        (self.notes / "sitecustomize.py").write_text(STARTS)
        (self.notes / "settings").write_text(SETTINGS.format(self.notes, ", ".join(f"*/{name}/*" for name in FOLDERS)))

    def asked(self, by):
        """The gate's commands that are asked: those that have this."""
        return [script for script in self.scripts(LEFT_OUT) if re.search(by, script)]

    def own(self, file):
        """The path of a file here, if it is one of the folders, or a copy of it."""
        parts = Path(file).parts
        at = max((place for place, name in enumerate(parts) if name in FOLDERS), default=None)
        found = None if at is None else str(Path(*parts[at:]))
        return found if found and (self.folder / found).is_file() else None

    def came_by(self, script, seconds=1800):
        """Why the command doesn't pass, and by file from which line to which it goes."""
        why = self.fails(f"{limits(script)} {script}", seconds, PYTHONPATH=str(self.notes),
                         COVERAGE_PROCESS_START=str(self.notes / "settings"))
        arcs = {}
        for path in self.notes.glob("data.*"):
            data = library(self.notes).CoverageData(basename=str(path))
            data.read()
            for file in filter(self.own, data.measured_files()):
                arcs.setdefault(self.own(file), set()).update(data.arcs(file) or ())
            path.unlink()
        return why, {file: sorted(pairs) for file, pairs in arcs.items()}

    def branches(self, arcs, only=""):
        """By file the lines whose branches aren't all gone, with those that aren't; and how many branches there are."""
        data = library(self.notes).CoverageData(basename=str(self.notes / "all"))
        paths = (path for name in FOLDERS for path in (self.folder / name).rglob("*.py"))
        files = [file for file in (str(path.relative_to(self.folder)) for path in paths) if re.search(only, file)]
        data.add_arcs({str(self.folder / file): arcs.get(file, ()) for file in files})
        data.write()
        judge = library(self.notes).Coverage(str(self.notes / "all"), config_file=str(self.notes / "settings"))
        judge.load()
        missing, count = {}, 0
        for file in sorted(files):
            found = judge._analyze(str(self.folder / file))
            count += found.numbers.n_branches
            missing[file] = dict(found.missing_branch_arcs())
        return missing, count


def library(folder):
    """Debian's library."""
    if str(folder) not in sys.path:
        sys.path.insert(0, str(folder))
    import coverage
    return coverage


def is_there():
    return LIBRARY.is_dir() or sys.exit(f"{Path(sys.argv[0]).name}: Debian's python3-coverage isn't installed")


def watched(room, scripts, kept):
    """Of each script that passes how many seconds it takes, and what it comes by: from the file, or by running it."""
    for script in scripts:
        key = "comes by", kept.tree, script
        if key not in kept.told:
            began = os.times().elapsed
            why, arcs = room.came_by(script)
            if why:
                print(f"left out: {script}: {why} without a change", file=sys.stderr)
            kept.tell(key, [] if why else [os.times().elapsed - began, arcs])
        if kept.told[key]:
            yield script, *kept.told[key]


def excused(table):
    """The lines of which branches may be left, as (file, line), by the text of the table."""
    return {tuple(line.split(" | ")[:1]) + (" | ".join(line.split(" | ")[1:-1]),)
            for line in table.splitlines() if line and not line.startswith("#")}


def judged(room, arcs, only):
    """Prints the branches of some files that no script goes, without a reason; how many do what."""
    rows, counts = excused(TABLE.read_text(encoding="utf-8")), {"excused": 0, "left": 0}
    missing, count = room.branches(arcs, only)
    for file, lines in missing.items():
        text = (room.folder / file).read_text(encoding="utf-8").splitlines()
        for line, ways in sorted(lines.items()):
            kind = "excused" if (file, text[line - 1].strip()) in rows else "left"
            counts[kind] += len(ways)
            if kind == "left":
                leads = ", ".join(str(way) if way > 0 else "the end" for way in ways)
                print(f"{file}:{line}: {text[line - 1].strip()}: never to {leads}")
    return counts, count


def parsed():
    parser = argparse.ArgumentParser(description=__doc__, formatter_class=argparse.RawDescriptionHelpFormatter)
    for name in PROGRAMS:
        parser.add_argument(name)
    parser.add_argument("--by", default="", metavar="REGEX", help="only by scripts whose command has this (all)")
    parser.add_argument("--only", default="", metavar="REGEX", help="only of files whose path has this (all)")
    parser.add_argument("--kept", type=Path, default=Path("mutants.kept"), metavar="FILE", help="(mutants.kept)")
    return parser.parse_args()


def main():
    options, arcs = is_there() and parsed(), {}
    with tempfile.TemporaryDirectory() as folder:
        room, kept = Watched(f"{folder}/room", options), Kept(options.kept)
        told = list(watched(room, room.asked(options.by), kept))
        for _, _, of in told:
            for file, pairs in of.items():
                arcs.setdefault(file, set()).update(map(tuple, pairs))
        counts, count = judged(room, arcs, options.only)
    gone = count - counts["left"] - counts["excused"]
    print(f"{count} branches, {gone} gone by {len(told)} scripts, {counts['excused']} in tests/covered.table, "
          f"{counts['left']} left: {100 * gone / count:.1f} %")
    return int(counts["left"] > 0)


if __name__ == "__main__":
    sys.exit(main())
