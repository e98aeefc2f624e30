#!/usr/bin/env python3
"""Finds the functions of the production crates that call themselves, or each other in a ring, in built programs.

    maintain/recursion.py PROGRAM ..    fails if there is another than those below, or if one of those is gone

A proof knows no stack: a function that calls itself once for each run, line or word meets its contract, and overflows
the stack past some number. So each that is there has its bound here. Not seen are calls through pointers, destructors,
and functions of std and other crates, also for the project's types. What the compiler has made a loop isn't counted.
"""
import re
import subprocess
import sys
from collections import defaultdict
from pathlib import Path

TOP = Path(__file__).resolve().parent.parent
DEEPEST, LONGEST = "conditions nest at most 64 deep", "conditions have at most 256 atoms"
BOUNDED = {
    "litmus_parser::expressions::expression": DEEPEST,
    "litmus_parser::expressions::factor": DEEPEST,
    "litmus_reader::ends::expression_holds": LONGEST,
    "litmus_reader::reading::add_seen_names": LONGEST,
}
NOT_PRODUCTION = ("test_", "bench", "play_", "event_text", "guide_uses")
CALL = re.compile(r"\b(call|jmp) +[\da-f]+ <(?!.*\+0x[\da-f]+>$)(.+)>$")


def calls_of(program):
    """The names that each function of a program calls, or jumps to."""
    words = ["objdump", "-d", "--no-show-raw-insn", program]
    calls, name = defaultdict(set), None
    for line in subprocess.run(words, check=True, capture_output=True, text=True).stdout.splitlines():
        if begun := re.match(r"[\da-f]+ <(.+)>:$", line):
            name = begun[1]
        elif (call := CALL.search(line)) and (call[1] == "call" or call[2] != name):
            calls[name].add(call[2])
    return calls


def reached(calls, name):
    """What a function calls, and what that calls, and so on."""
    found, left = set(), list(calls[name])
    while left:
        if (each := left.pop()) not in found:
            found.add(each)
            left += calls.get(each, ())
    return found


def main(programs):
    crates = {path.name for path in (TOP / "crates").iterdir() if not path.name.startswith(NOT_PRODUCTION)}
    found, seen = set(), 0
    for program in programs:
        calls = calls_of(program)
        own = [name for name in list(calls) if name and name.split("::")[0] in crates and "Destruct" not in name]
        seen += len(own)
        found |= {name.split("::<")[0] for name in own if name in reached(calls, name)}
    for name in sorted(found ^ BOUNDED.keys()):
        print(f"recursion.py: {name} {'calls itself' if name in found else 'no longer calls itself'}")
    if found != BOUNDED.keys() or seen < 100:
        raise SystemExit(1)
    print(f"of {seen} functions, {len(found)} call themselves, each with its bound")


if len(sys.argv) < 2 or sys.argv[1] in ("-h", "--help"):
    raise SystemExit(print(__doc__))
main(sys.argv[1:])
