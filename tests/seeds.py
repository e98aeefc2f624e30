#!/usr/bin/env python3
"""Tries tools/seeds.py, and tools/merge.py on reports that it mustn't join: tests/seeds.py PROGRAM.

Joined reports must be those of one run of the whole range, by the program and by the second program. How each part was
made is worked out here. The test spoils the file next to a report in each way that there is, and merge.py must say
which. With GNU parallel, if it is installed, the parts must give the same. The last line is `N tried, M wrong`.
"""
import hashlib
import json
import os
import shutil
import subprocess
import sys
import tempfile
from pathlib import Path
from types import SimpleNamespace

sys.path.insert(0, str(Path(__file__).resolve().parent.parent))
from tests.texts import TOP, Tester  # noqa: E402
from tools import merge, seeds  # noqa: E402


LAST = 2 ** 64 - 1
TEST = "examples/litmus/SB.litmus"
# A test, the first seed, how many, in how many parts, and options.
WHOLES = [("SB", 0, 200, 8, ""), ("LEASE", 5000, 60, 7, "--lease 1 --limit 100"), ("MP", LAST - 9, 20, 3, ""),
          ("SB", 7, 3, 5, ""), ("2+2W", 10 ** 18, 40, 4, "--line-words 8"), ("SB", 0, 1, 1, "--private-write")]
RUNS, PARTS = 90, 3  # of the range whose parts are joined and refused below


def sum_of(path):
    return hashlib.sha256(Path(path).read_bytes()).hexdigest()


def wholes(tester, program):
    """The report of a whole range, printed: that of one run by the program, and by the second program."""
    for name, first, runs, parts, options in WHOLES:
        path = f"examples/litmus/{name}.litmus"
        words = ["--schedule", "seed", "--seed", str(first), "--runs", str(runs), *options.split()]
        status, wanted, _ = Tester(program).run("litmus", *words, path)
        got = tester.run("--parts", str(parts), "--jobs", "2", str(first), str(runs), path, *options.split())
        tester.expect(got == (status, wanted, ""), f"{name} from {first}: {got}, wanted {status} {wanted}")
        tester.expect(wanted == merge.report(TOP / path, first, runs, options.split()), f"{name}: the second program")
    wanted = Tester(program).run("litmus", "--schedule", "seed", "--runs", "2000", TEST)
    got = tester.run("0", "2000", TEST)
    tester.expect(got == wanted, f"as many parts as processors: {got}")


def parts_of_many(tester):
    """There are as many parts as processors, of at most 1,000,000 seeds each, and at most 1,000,000 parts."""
    for runs, jobs, wanted in ((5_000_001, 2, 6), (2000, 8, 8), (2 ** 64, 2, 1_000_000)):
        count = seeds.Parts(SimpleNamespace(FIRST=0, RUNS=runs, TEST=TEST, parts=None, jobs=jobs)).count
        tester.expect(count == wanted, f"{runs} seeds by {jobs}: {count} parts")


def put_parts(tester, folder, parts=PARTS, runs=RUNS, first=0, test=TEST, options=(), only=None):
    for part in range(parts) if only is None else [only]:
        got = tester.run("--part", str(part), "--parts", str(parts), "--folder", folder, str(first), str(runs), test,
                         *options)
        tester.expect(got == (0, "", ""), f"part {part} of {parts}: {got}")


def made(tester, program, folder):
    """The files next to the reports, by hand: 90 seeds in 4 parts are 22, 23, 22 and 23."""
    put_parts(tester, folder, parts=4, first=LAST - 30, options=["--limit", "90"])
    firsts, counts = (LAST - 30, LAST - 8, 14, 36), (22, 23, 22, 23)
    names = sorted(path.name for path in Path(folder).iterdir())
    tester.expect(names == [f"{part:06d}.{end}" for part in range(4) for end in ("json", "report")], f"{names}")
    for part, (first, runs) in enumerate(zip(firsts, counts)):
        said = json.loads(Path(folder, f"{part:06d}.json").read_text())
        version = said["program"].pop("version")
        named = git("-C", os.path.dirname(program), "describe", "--always", "--dirty")
        tester.expect(version == (named.strip() or None), f"version {version}, wanted {named}")
        tester.expect(said == {
            "report": {"sha256": sum_of(f"{folder}/{part:06d}.report")}, "seeds": {"first": first, "runs": runs},
            "range": {"first": LAST - 30, "runs": RUNS, "part": part, "parts": 4}, "options": ["--limit", "90"],
            "test": {"path": TEST, "sha256": sum_of(TEST)}, "program": {"path": program, "sha256": sum_of(program)}},
            f"part {part}: {said}")
    words = ["--schedule", "seed", "--seed", str(LAST - 30), "--runs", str(RUNS), "--limit", "90", TEST]
    status, whole, _ = Tester(program).run("litmus", *words)
    got = Tester(str(TOP / "tools/merge.py")).run(*sorted(map(str, Path(folder).glob("*.report"))))
    tester.expect(got == (0, whole, ""), f"parts past the last seed: {got}")


def bad_reports(tester):
    """What is no report, or one of another test."""
    text = (TOP / "examples/litmus/SB.report").read_text()
    merger = Tester(str(TOP / "tools/merge.py"))
    for new, said in ((text[:60], "is wanted"),
                      (text + "x 1\n", "a line too many"),
                      (text.replace("verdict no", "verdict yes"), "another verdict"),
                      (text.replace("condition exists", "condition all"), "a condition all"),
                      (text.replace("held 0", "held none"), "invalid literal"), ("", "no line, where 'test' is wanted"),
                      (text.replace("threads 2", "threads 3"), "another threads: 2, 3")):
        with tempfile.NamedTemporaryFile("w", suffix=".report") as file:
            file.write(new)
            file.flush()
            got = merger.run("examples/litmus/SB.report", file.name)
        good = got[0] == 2 and got[1] == "" and got[2].count("\n") == 1 and f"{file.name} isn't" in got[2]
        tester.expect(good and said in got[2], f"a bad report: {got}, wanted {said}")
    with tempfile.NamedTemporaryFile("w", suffix=".report") as file:
        file.write(text.replace("renewals 0\n", f"renewals {2 ** 128 - 1}\n"))
        file.flush()
        got = merger.run(file.name, file.name)
    tester.expect(f"\nrenewals {2 ** 128 - 1}\n" in got[1], f"no sum goes on beyond 2^128 - 1: {got}")


def a_report_in_place(tester, folder):
    """A report is never half there: what another name leads to stays as it was, and none of its files is left over."""
    before, report = Path(folder, "before"), Path(folder, "000001.report")
    before.write_text("the report before\n")
    os.link(before, report)
    put_parts(tester, folder, only=1)
    told = before.read_text()
    tester.expect(told == "the report before\n", f"a report was written in place: {told[:40]}")
    names = sorted(path.name for path in Path(folder).iterdir())
    tester.expect(names == ["000001.json", "000001.report", "before"], f"{names}")


def git(*words):
    return subprocess.run(["git", *words], capture_output=True, text=True, check=False).stdout


class Folder:
    """Parts in a folder of their own, and what merge.py says of them."""

    def __init__(self, tester, parts):
        self.tester, self.parts = tester, parts

    def changed(self, change, *said, order=None, status=2):
        """What merge.py says once a folder with a copy of the parts was changed."""
        with tempfile.TemporaryDirectory() as folder:
            shutil.copytree(self.parts, folder, dirs_exist_ok=True)
            change(Path(folder))
            names = order or sorted(path.name for path in Path(folder).glob("*.report"))
            got = Tester(str(TOP / "tools/merge.py")).run(*(f"{folder}/{name}" for name in names))
        good = got[0] == status and got[2].count("\n") == (status > 0) and all(word in got[2] for word in said)
        self.tester.expect(good and bool(got[1]) == (status == 0), f"{change.__name__}: {got}, wanted {said}")
        return got[1]


def put(folder, name, change):
    """Changes what the file next to a report says."""
    said = json.loads((folder / name).read_text())
    change(said)
    (folder / name).write_text(json.dumps(said))


def joins_and_refusals(tester, folder, program):
    """The parts 0 to 2 have the seeds 0 to 29, 30 to 59 and 60 to 89."""
    put_parts(tester, folder)
    parts = Folder(tester, folder)
    _, whole, _ = Tester(program).run("litmus", "--schedule", "seed", "--runs", str(RUNS), TEST)

    def nothing(_):
        pass

    tester.expect(parts.changed(nothing, status=0) == whole, "the parts, joined")
    names = ["000000.report", "000001.report", "000002.report"]
    parts.changed(nothing, "seeds 30 to 59 are missing between", "000000.report and", "000002.report",
                  order=names[::2])
    parts.changed(nothing, "seeds 60 to 89 are missing behind", "000001.report", order=names[:2])
    parts.changed(nothing, "seeds 0 to 29 are missing before", "000001.report", order=names[1:])
    parts.changed(nothing, "000001.report: seeds 30 to 59 are in a report before it, too",
                  order=[names[0], names[1], names[1], names[2]])
    parts.changed(nothing, "000000.report: seeds 0 to 29 come before those of", "000001.report",
                  order=[names[1], names[0], names[2]])

    def of_another_cut(folder):
        put_parts(tester, str(folder), parts=4, only=1)  # the seeds 22 to 44

    parts.changed(of_another_cut, "000001.report: seeds 22 to 29 are in a report before it, too")

    def of_two_ranges(folder):  # 0 to 19 of 0 to 39, and 20 to 39 of 0 to 59
        put_parts(tester, str(folder), parts=2, runs=40, only=0)
        put_parts(tester, str(folder), parts=3, runs=60, only=1)

    parts.changed(of_two_ranges, "seeds 40 to 59 are missing behind", order=names[:2])

    def of_other_options(folder):
        put_parts(tester, str(folder), only=1, options=["--lease", "9"])

    parts.changed(of_other_options, "000001.report: other options: --lease 9;", "000000.report: none")

    def of_another_text(folder):
        text = Path(TEST).read_text().replace("{", '"a remark"\n{')
        (folder / "SB.litmus").write_text(text)
        put_parts(tester, str(folder), only=2, test=str(folder / "SB.litmus"))

    parts.changed(of_another_text, "000002.report: another text of the test", f"{TEST} {sum_of(TEST)}")

    def of_another_program(folder):
        other = folder / "another"
        other.write_text(f'#!/bin/sh\nexec "{program}" "$@"\n')
        other.chmod(0o755)
        os.environ["TARDIS"] = str(other)
        put_parts(tester, str(folder), only=1)
        os.environ["TARDIS"] = program

    parts.changed(of_another_program, "000001.report: another program", "/another ", f"{program} ", sum_of(program))

    def of_another_report(folder):
        report = (folder / names[1]).read_text()
        (folder / names[1]).write_text(report.replace("runs 30\n", "runs 31\n"))

    parts.changed(of_another_report, "000001.json is of another text than", "000001.report")

    def without(folder):
        (folder / "000001.json").unlink()

    parts.changed(without, "000001.report has no 000001.json beside it")
    unsaid(parts, whole)


def unsaid(parts, whole):
    """Files that say nothing, or too little; and none at all: then reports are joined as they come."""
    for change in (lambda said: said.pop("seeds"), lambda said: said["seeds"].update(first="0"),
                   lambda said: said["seeds"].update(runs=0), lambda said: said["range"].update(first=2 ** 64),
                   lambda said: said.update(options=None), lambda said: said.update(test="SB"),
                   lambda said: said.pop("report")):
        parts.changed(lambda folder, change=change: put(folder, "000001.json", change),
                      "000001.json doesn't say how a report was made")
    parts.changed(lambda folder: (folder / "000002.json").write_text("[]"), "000002.json doesn't say")
    parts.changed(lambda folder: (folder / "000002.json").write_text("{"), "000002.json doesn't say")

    def without_any(folder):
        for path in folder.glob("*.json"):
            path.unlink()

    parts.tester.expect(parts.changed(without_any, status=0) == whole, "reports that don't say how they were made")
    names = ["000000.report", "000002.report"]
    parts.tester.expect("runs 60\n" in parts.changed(without_any, status=0, order=names), "two of them")


def up_to_a_million(tester, folder):
    """No part has more than 1,000,000 seeds: a program that takes no more is asked for 500,000 and 500,001."""
    report, program = TOP / "examples/litmus/SB.report", Path(folder, "program")
    program.write_text('#!/bin/sh\nwhile [ "$1" != --runs ]; do shift; done\n[ "$2" -le 1000000 ] || exit 3\n'
                       f"sed -e \"s/^runs 1$/runs $2/\" -e \"s/^all-done 1$/all-done $2/\" '{report}'\n")
    program.chmod(0o755)
    kept, os.environ["TARDIS"] = os.environ["TARDIS"], str(program)
    status, out, error = tester.run("--jobs", "1", "0", "1000001", TEST)
    os.environ["TARDIS"] = kept
    tester.expect((status, error) == (0, "") and "runs 1000001\n" in out, f"1,000,001 seeds: {status} {out} {error}")


def with_parallel(tester, folder, program):
    """Parts that GNU parallel runs."""
    told = subprocess.run(["parallel", "--version"], capture_output=True, text=True, check=False).stdout \
        if shutil.which("parallel") else ""
    if not told.startswith("GNU parallel"):
        print("seeds.py: parts by GNU parallel aren't tried: it isn't installed", file=sys.stderr)
        return
    subprocess.run(["parallel", "--will-cite", tester.program, "--part", "{}", "--parts", "10", "--folder", folder, "7",
                    "5000", TEST, ":::", *map(str, range(10))], check=True, stdin=subprocess.DEVNULL)
    got = Tester(str(TOP / "tools/merge.py")).run(*sorted(map(str, Path(folder).glob("*.report"))))
    whole = Tester(program).run("litmus", "--schedule", "seed", "--seed", "7", "--runs", "5000", TEST)
    tester.expect(got == whole, f"by GNU parallel: {got}")


def refusals(tester, folder):
    """Nothing is printed, no report is left, and standard error has one line."""
    part = ["--folder", folder, "--part"]
    for words, said in (([], "required"), (["0", "9", "none.litmus"], "none.litmus: No such file or directory"),
                        (["0", "0", TEST], "argument RUNS: 0 isn't a number from 1"),
                        (["-1", "9", TEST], "argument FIRST: -1 isn't a number from 0"),
                        ([str(2 ** 64), "9", TEST], "argument FIRST"),
                        (["0", "9", TEST, "--lease", "0"], f"{TEST}: "),
                        (["0", "9", TEST, "--runs", "8"], "--runs isn't taken: FIRST and RUNS say which seeds are run"),
                        (["0", "9", TEST, "--lease", "3", "--seed=7"], "--seed isn't taken: FIRST and RUNS say"),
                        (["0", "9", TEST, "--schedule", "round"], "--schedule isn't taken: FIRST and RUNS say"),
                        (["0", "9", TEST, "--json"], "--json isn't taken: reports are joined line by line"),
                        (["0", "9", "README.md"],
                         "README.md: line 1: 4 BadHeader: 'tools/explain.py -- litmus README.md' says why"),
                        ([*part, "3", "0", "9", TEST], "--part K wants --parts N"),
                        ([*part, "3", "--parts", "3", "0", "9", TEST], "no seeds in part 3 of 3"),
                        ([*part, "0", "--parts", "9", "0", "3", TEST], "no seeds in part 0 of 9"),
                        ([*part, "0", "--parts", "1", "0", "1000001", TEST], f"{TEST}: "),
                        (["--parts", "1", "0", "9", TEST, "--line-words", "3"], f"{TEST}: bad configuration"),
                        (["--folder", "/dev/null/x", "--part", "0", "--parts", "1", "0", "9", TEST], "/dev/null/x")):
        status, out, error = tester.run(*words)
        good = (status, out, error.count("\n")) == (2, "", 1) and said in error
        tester.expect(good, f"{words}: {status} {out!r} {error!r}, wanted {said!r}")
    with open("/dev/full", "w", encoding="ascii") as device:
        ran = subprocess.run([tester.program, "--jobs", "1", "0", "9", TEST], stdout=device, stderr=subprocess.PIPE,
                             check=False)
    wanted = 2, b"seeds.py: standard output: No space left on device\n"
    tester.expect((ran.returncode, ran.stderr) == wanted, f"a full device: {ran}")
    tester.expect(not list(Path(folder).iterdir()), f"left: {list(Path(folder).iterdir())}")
    for where, cause in ((">/dev/full", "No space left on device"), (">&-", "Bad file descriptor")):
        ran = subprocess.run(f"{tester.program} 0 9 {TEST} {where}", shell=True, check=False, stderr=subprocess.PIPE)
        wanted = 2, f"seeds.py: standard output: {cause}\n".encode()
        tester.expect((ran.returncode, ran.stderr) == wanted, f"{where}: {ran}")


def an_ended_program(tester, folder):
    """A program that is killed has no report, and neither has one that isn't there. One that says something else isn't
    joined."""
    killed = Path(folder, "killed")
    killed.write_text("#!/bin/sh\necho 'test SB'\nkill -9 $$\n")
    killed.chmod(0o755)
    kept = os.environ["TARDIS"]
    for program, said in ((killed, "ended with status -9"), (Path(folder, "none"), "no such program")):
        os.environ["TARDIS"] = str(program)
        status, out, error = tester.run("--part", "0", "--parts", "1", "--folder", folder, "0", "9", TEST)
        tester.expect((status, out, error.count("\n")) == (2, "", 1) and said in error, f"{program}: {error}")
    os.environ["TARDIS"] = shutil.which("true")
    status, out, error = tester.run("--parts", "2", "0", "9", TEST)
    is_good = (status, out, error.count("\n")) == (2, "", 1) and "where 'test' is wanted" in error
    tester.expect(is_good, f"true: {error}")
    os.environ["TARDIS"] = kept
    tester.expect([path.name for path in Path(folder).iterdir()] == ["killed"], "a report of a killed program")


def main(program):
    program = os.path.realpath(program)
    os.environ["TARDIS"] = program
    os.chdir(TOP)
    tester = Tester(str(TOP / "tools/seeds.py"))
    wholes(tester, program)
    bad_reports(tester)
    parts_of_many(tester)
    for part in (lambda folder: made(tester, program, folder), lambda folder: refusals(tester, folder),
                 lambda folder: joins_and_refusals(tester, folder, program),
                 lambda folder: a_report_in_place(tester, folder),
                 lambda folder: with_parallel(tester, folder, program),
                 lambda folder: up_to_a_million(tester, folder), lambda folder: an_ended_program(tester, folder)):
        with tempfile.TemporaryDirectory() as folder:
            part(folder)
    print(f"{tester.tried} tried, {tester.wrong} wrong")
    return int(tester.wrong > 0)


if __name__ == "__main__":
    sys.exit(main(sys.argv[1]) if len(sys.argv) == 2 else __doc__)
