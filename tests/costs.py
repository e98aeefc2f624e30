#!/usr/bin/env python3
"""Counts what no contract sees: instructions, bytes and peaks: tests/costs.py [--print] [ROW..]

Each row of tests/costs.table is a program of the gate with two numbers. The cost with the greater one, less the cost
with the smaller one, is divided by their difference. It must be within a hundredth of the row's figure, or within a
tenth if that ends with ~. The figure was measured; the reason next to it says why it should be no more. A figure may
also be an earlier row's name: then the two costs must be within a hundredth of each other. valgrind's callgrind counts
instructions, tests/refuse.c the bytes of all growths, valgrind's dhat those at the peak. With --print the script prints
the figures that came. It tries all rows, or those whose names begin with a ROW.
"""
import argparse
import re
import subprocess
import sys
import tempfile
from concurrent.futures import ThreadPoolExecutor
from pathlib import Path
from types import SimpleNamespace

TOP = Path(__file__).resolve().parent.parent
FIELDS = ("name", "kind", "unit", "command", "numbers", "figure", "reason")
# The tool of valgrind that counts, and where it says how much.
TOOLS = {"instructions": ("callgrind", r"Collected : (\d+)"), "peak": ("dhat", r"At t-gmax: ([\d,]+)")}


def rows():
    lines = (TOP / "tests" / "costs.table").read_text().splitlines()
    for line in lines:
        if line and not line.startswith("#"):
            yield SimpleNamespace(**dict(zip(FIELDS, (field.strip() for field in line.split("|")), strict=True)))


def said(words, surroundings=None):
    return subprocess.run(words, capture_output=True, text=True, check=True, cwd=TOP, env=surroundings).stderr


def counted(kind, words, shim):
    """How much of this kind the program takes that these words run."""
    if kind == "bytes":
        return int(said(words, {"LD_PRELOAD": shim, "REFUSE_BYTES": "2"}).splitlines()[-1])
    tool, pattern = TOOLS[kind]
    text = said(["valgrind", f"--tool={tool}", f"--{tool}-out-file=/dev/null", *words])
    return int(re.search(pattern, text)[1].replace(",", ""))


def opening(count):
    """A litmus test with an opening memory, of `count` rows."""
    items = "".join(f" v{at}=1;" for at in range(64))
    return f"RISCV OPENING\n{{ 0:x6=v0;{items} }}\nP0 ;\n" + count * "lw x7,0(x6) ;\n" + "exists 0:x7=1\n"


def decided(first, sign):
    """Store buffering with a condition of 255 atoms, of which the first one decides."""
    text = (TOP / "examples" / "litmus" / "SB.litmus").read_text()
    return text.replace("0:x7=0 /\\ 1:x7=0", f"{first} {sign} ({f' {sign} '.join(254 * ['1:x7=0'])})")


# The texts that are made for a number.
TEXTS = {
    "{loads}": lambda count: "trace 2\n" + "".join(f"0 R 0x{8 * (at % 64):x}\n" for at in range(count)),
    "{swaps}": lambda count: "trace 2\n" + "".join(f"{at % 64} S 0x0 {at}\n" for at in range(count)),
    "{mixed}": lambda count: "".join(f"{at % 16} R 0x{56 * at % 8192:x}\n" if at % 3 else
                                     f"{at % 16} W 0x{56 * at % 8192:x} {at}\n" for at in range(count)),
    "{words}": lambda count: "trace 2\n" + "".join(f"{at % 64} R 0x{8 * at:x}\n" for at in range(count)),
    "{records}": lambda count: "".join(f"0 {at} R 0x{8 * (at % 64):x} 0 0 {at} #{100 * 'x'}\n" for at in range(count)),
    "{rows}": opening,
    "{opening}": lambda _: opening(1),
    "{every}": lambda _: decided("0:x7=9", "/\\"),
    "{some}": lambda _: decided("0:x7=1", "\\/"),
}


def filled(word, number, folder):
    """The word with the number in it, or a file: a text of TEXTS, or one of tests/costs with the number in it."""
    if word in TEXTS:
        text = TEXTS[word](number)
    elif word.startswith("tests/costs/"):
        text = (TOP / word).read_text().replace("{}", str(number))
    else:
        return word.replace("{}", str(number))
    path = Path(folder, f"{number}-{Path(word).name}")
    path.write_text(text)
    return str(path)


def cost(row, shim):
    """What one more costs."""
    program, *words = row.command.split()
    program = str(TOP / "crates" / program / "out" / program)
    less, more = map(int, row.numbers.split())
    with tempfile.TemporaryDirectory() as folder:
        low, high = (counted(row.kind, [program, *(filled(word, number, folder) for word in words)], shim)
                     for number in (less, more))
    return (high - low) / (more - less)


def main():
    options = argparse.ArgumentParser(description=__doc__.splitlines()[0])
    options.add_argument("--print", action="store_true", dest="prints")
    options.add_argument("rows", nargs="*")
    given = options.parse_args()
    every = list(rows())
    wanted = [row for row in every if not given.rows or row.name.startswith(tuple(given.rows))]
    named = {row.figure for row in wanted}
    wanted = [row for row in every if row in wanted or row.name in named]
    with tempfile.TemporaryDirectory() as folder, ThreadPoolExecutor() as pool:
        shim = f"{folder}/refuse.so"
        subprocess.run(["cc", "-O2", "-shared", "-fPIC", "-o", shim, TOP / "tests" / "refuse.c", "-ldl"], check=True)
        came = list(pool.map(lambda row: cost(row, shim), wanted))
    wrong, costs = 0, {}
    for row, one in zip(wanted, came):
        costs[row.name, row.kind] = one
        is_named = (row.figure, row.kind) in costs
        figure = costs[row.figure, row.kind] if is_named else float(row.figure.removesuffix("~"))
        parts = 10 if row.figure.endswith("~") else 100
        is_wrong = abs(one - figure) > figure / parts
        wrong += is_wrong
        if given.prints or is_wrong:
            print(f"{row.name}: {one:.0f} {row.kind} a {row.unit}, wanted {row.figure} within 1/{parts}")
    print(f"costs: {len(wanted)} tried, {wrong} wrong")
    sys.exit(1 if wrong else 0)


if __name__ == "__main__":
    main()
