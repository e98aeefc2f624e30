#!/usr/bin/env python3
"""Gives the gate's shell scripts programs and pages that are wrong, and tests/by_threads.py wrong reports:
tests/wrong_programs.py

The program is a script that prints the reports that lie next to the litmus tests, all but one of them as they are.
tests/check.sh must count that one. Of the reports each line is dropped and doubled, and each number one more and one
less. The last line is `N tried, M wrong`.
"""
import re
import subprocess
import sys
import tempfile
from pathlib import Path

TOP = Path(__file__).resolve().parent.parent
sys.path.insert(0, str(TOP))
from tests import by_threads  # noqa: E402

LITMUS = TOP / "examples/litmus"
# The last word names the test; what happens with the report of MP.
PROGRAM = """#!/bin/sh
for file; do :; done
case $file in */MP.litmus) cat "${{file%.litmus}}.report" {} ;; *) cat "${{file%.litmus}}.report" ;; esac
"""
WRONG = {"another byte": "| sed '3s/1/2/'", "a line more": "&& echo more", "a byte less": "| head -c -1",
         "nothing": ">/dev/null", "a word on standard error": "&& echo said >&2", "another status": "&& exit 1"}
# Pages, and how many commands they have that print what they show, and how many faults.
PAGE = "```console\n$ printf 'a\\nb\\n'\na\nb\n$ echo c >&2; exit 3\nc\n```\n"
PAGES = [(PAGE, 2, 0), (PAGE.replace("\nb\n", "\n"), 1, 1), (PAGE.replace("c\n`", "`"), 1, 1),
         (PAGE.replace("\nc\n", "\nc\nd\n"), 1, 1), (PAGE.replace("console", "text"), 0, 2),
         (PAGE.replace("console", "sh"), 0, 0), (PAGE.replace("c\n```", "c"), 2, 1),
         (PAGE.replace("$ printf", "printf"), 1, 3), ("    $ ./tardis\n", 0, 1),
         ("```console\n$ echo \\\n  a\na\n```\n", 1, 0), ("```console\n$ echo \\\n  a\n  a\n```\n", 0, 1)]
# A trace, its report and its records, by hand.
TRACE = "0 W 0x0 5\n1 R 0x0\n1 S 0x8 6\n"
REPORT = ("cores 2\nissued 3\ncompleted 3\nend all-done\nloads 1\nstores 1\nswaps 1\nrenewals 0\nupgrades 0\n"
          "flushes 0\nwrite-backs 0\nstale-hits 0\norder legal\nword 0x0 5\nword 0x8 6\n")
RECORDS = "0 0 W 0x0 5 1 0\n1 0 R 0x0 5 1 1\n1 1 S 0x8 6 0 1 2\n"
# What differs from one run to the next.
FREE = re.compile(r"(renewals|upgrades|flushes|write-backs|stale-hits) \d+\n")


def checked(folder):
    """Faults in what tests/check.sh counts."""
    count, program = len(list(LITMUS.glob("*.litmus"))), Path(folder, "program")
    for what, more in {"nothing is wrong": "", **WRONG}.items():
        program.write_text(PROGRAM.format(more))
        program.chmod(0o755)
        ran = subprocess.run([TOP / "tests/check.sh", program], env={"PARTS": "litmus", "PATH": "/usr/bin:/bin"},
                             capture_output=True, text=True, check=False)
        wanted = int(bool(more))
        if (ran.returncode, ran.stdout.splitlines()[-1:]) != (wanted, [f"{count - wanted} passed, {wanted} failed"]):
            yield f"check.sh, {what}: status {ran.returncode}, {ran.stdout[-160:]!r}"


def paged(folder):
    """Faults in what maintain/pages.sh counts."""
    program, page = Path(folder, "program"), Path(folder, "page.md")
    program.write_text(PROGRAM.format(""))
    for text, good, faults in PAGES:
        page.write_text(text)
        ran = subprocess.run([TOP / "maintain/pages.sh", program, page], capture_output=True, text=True, check=False)
        wanted = f"{good} commands print what their pages show, {faults} faults"
        if (ran.returncode, ran.stdout.splitlines()[-1:]) != (int(faults > 0), [wanted]):
            yield f"pages.sh, {text!r}: status {ran.returncode}, {ran.stdout!r}, wanted {wanted}"


def spoiled(text):
    """The text without a line, with one twice, and with a number one more or one less."""
    lines = text.splitlines(True)
    for at, line in enumerate(lines):
        yield line, "".join(lines[:at] + lines[at + 1:])
        yield line, "".join(lines[:at + 1] + lines[at:])
    for found in re.finditer(r"(?<![\w-])\d+|(?<=x)\d+", text):
        for number in {int(found[0]) + 1, max(int(found[0]) - 1, 0)} - {int(found[0])}:
            line = text[text.rfind("\n", 0, found.start()) + 1:text.index("\n", found.start()) + 1]
            if not FREE.fullmatch(line):
                yield f"{line} {number}", text[:found.start()] + str(number) + text[found.end():]


def judged(folder):
    """Wrong reports that tests/by_threads.py takes, and right ones that it doesn't; and how many were tried."""
    trace, told, tried = Path(folder, "trace"), Path(folder, "told"), 0
    trace.write_text(TRACE)
    seeds = (LITMUS / "SB.seeds").read_text(encoding="ascii")
    for row, text in ((("litmus", LITMUS / "SB.litmus", 1000, 0), seeds), (("trace", trace, 0), REPORT),
                      (("records", trace, 0), RECORDS)):
        changed = [("as it is", text), *spoiled(text)]
        if row[0] == "records":  # whether these are legal is for the program's check
            changed = [each for each in changed if each[1].count("\n") != 3 or each[1] == text]
        for line, each in changed:
            tried += 1
            told.write_text(each, encoding="ascii")
            found = by_threads.faults(row[0], str(row[1]), *row[2:], str(told))
            if bool(found) == (each == text):
                yield f"by_threads.py, {row[0]}, {line!r}: {found}"
        for status in (1, 2):
            told.write_text(text, encoding="ascii")
            if not by_threads.faults(row[0], str(row[1]), *row[2:-1], status, str(told)):
                yield f"by_threads.py, {row[0]}: status {status} is taken"
    if tried < 150:
        yield f"only {tried} reports were tried"


def main():
    with tempfile.TemporaryDirectory() as folder:
        wrong = [*checked(folder), *paged(folder), *judged(folder)]
    print("\n".join([*wrong, f"{len(WRONG) + 1 + len(PAGES)} tried, and reports, {len(wrong)} wrong"]))
    return int(bool(wrong))


if __name__ == "__main__":
    sys.exit(print(__doc__) if sys.argv[1:] else main())
