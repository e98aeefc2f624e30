#!/usr/bin/env python3
"""Gives the program the command lines of tests/words.table: tests/words.py PROGRAM.

The first lines of the table say how to read it. The second program must refuse bad configurations and unfair schedules,
too.
The last line is `N tried, M wrong`.
"""
import os
import shlex
import subprocess
import sys
from pathlib import Path

sys.path.insert(0, str(Path(__file__).resolve().parent.parent))
from tests.texts import MORE, TOP, oracle, ran  # noqa: E402


def blocks():
    """The blocks of the table: the status, the lines before the answer, and the answer."""
    status, heads, answer = 0, [], []
    text = (TOP / "tests/words.table").read_text(encoding="ascii").replace("\\\n", "")
    for line in [*text.splitlines(), "status 0"]:
        if line.startswith("#"):
            continue
        if line.startswith("status ") or line[:2] in ("$ ", "= ", "& ") and answer:
            yield status, heads, "\n".join(answer).strip("\n")
            heads, answer = [], []
        if line.startswith("status "):
            status = int(line.split()[1])
        elif line[:2] in ("$ ", "= ", "& "):
            heads.append(line)
        else:
            answer.append(line)


def answers():
    """Each command line with the status, standard output and standard error that it must have."""
    named = {}
    for status, heads, answer in blocks():
        words = [shlex.split(head)[2:] for head in heads]
        if heads and heads[0].startswith("&"):
            named[heads[0].replace("&", "..")] = answer
        elif heads and heads[0].startswith("="):
            out, wanted = oracle.run(oracle.words().parse_args(words[0]))
            yield from ((line, (wanted, out, "")) for line in words)
        else:
            answer = "\n".join(named.get(line, line) for line in answer.split("\n"))
            error = answer + (MORE if answer.startswith("error: ") else "\n")
            yield from ((line, (status, "", error)) for line in words)
            if "bad configuration" in answer or "'--fair' needs" in answer:
                by_oracle = [ran(["reference/oracle.py", *line]) for line in words]
                yield from ((line, (status, "", error), done) for line, done in zip(words, by_oracle))


def main():
    program, tried, wrong = os.path.abspath(sys.argv[1]), 0, 0
    os.chdir(TOP)
    for words, wanted, *done in answers():
        done = done[0] if done else ran([program, *words], stdin=subprocess.DEVNULL)
        got = done.returncode, done.stdout.decode(), done.stderr.decode(errors="replace")
        tried += 1
        if got != wanted:
            wrong += 1
            print(f"wrong: {shlex.join(words)}: {got}, wanted {wanted}")
    print(f"{tried} tried, {wrong} wrong")
    return wrong != 0


if __name__ == "__main__":
    sys.exit(main())
