#!/usr/bin/env python3
"""Makes a trace of accesses that another tool listed.

    tools/from_lackey.py [--csv] [--shared] [--skip N] [--most N] FILE .. > TRACE

FILE is what valgrind's lackey writes with --trace-mem=yes: ` L 1ffe,8` is a load of 8 bytes, ` S` a store, ` M` a load
and then a store; other lines are passed over. Each FILE is a core. With --csv a line has the core, R, W or S (a swap),
the address, and perhaps its bytes (8) and the value stored: `0,W,0x1000,8,5`. Numbers are decimal or behind 0x.

Each word of 8 bytes that an access touches has a line of the trace. A store without a value stores the number of
stores so far, so that values differ. --skip leaves out the first N lines of the trace, --most those behind N more.
Files of lackey are of other programs: their addresses are kept apart, unless --shared says that they are the same.
"""
import csv
import re
import sys
from itertools import chain, count, islice
from pathlib import Path

sys.path.insert(0, str(Path(__file__).resolve().parent.parent))
from reference.given import Bad, Words, tool  # noqa: E402
from tools.program import number  # noqa: E402


MOST_LINES, MOST_BYTES, MOST_CORE = 16_777_215, 9999, 63
LETTERS = {"L": "R", "S": "W", "M": "RW"}
ACCESS = re.compile(r" ([LSM]) ([0-9a-f]{1,16}),([0-9]{1,4})\s*")
APART = 1 << 48  # between the addresses of two programs


def of_lackey(file, path, core, shared):
    """The accesses of a file: core, letter, address, bytes, value. If it has lines and none, standard error says so."""
    others, is_listing = 0, False
    for line in file:
        found = ACCESS.fullmatch(line)
        if not found:
            others += 1
            continue
        is_listing = True
        address, size = int(found[2], 16) + (0 if shared else core * APART), int(found[3])
        if address + size > 2 ** 64:
            raise Bad(f"an access of {size} bytes at {address:#x}: addresses have 64 bits")
        for letter in LETTERS[found[1]]:
            yield core, letter, address, size, None
    if others and not is_listing:
        print(f"from_lackey.py: {path}: no line is an access as lackey lists it with --trace-mem=yes", file=sys.stderr)


def of_csv(file, path):
    for at, fields in enumerate(csv.reader(file), 1):
        if not fields:
            continue
        try:
            core, letter, address, *more = (field.strip() for field in fields)
            size, value = [int(text, 0) if text else None for text in more] + [None] * (2 - len(more))
            access = int(core), letter, int(address, 0), 8 if size is None else size, value
        except ValueError:
            raise Bad(f"{path}, line {at}: CORE,R|W|S,ADDRESS[,BYTES[,VALUE]] is wanted") from None
        if not (0 <= access[0] <= MOST_CORE and letter in ("R", "W", "S") and 0 < access[3] <= MOST_BYTES and
                0 <= access[2] <= 2 ** 64 - access[3] and 0 <= (value or 0) < 2 ** 64):
            raise Bad(f"{path}, line {at}: a core to 63, R, W or S, 1 to 9999 bytes and numbers of 64 bits are wanted")
        yield access


def accesses(options):
    if len(options.FILE) > MOST_CORE + 1 and not options.csv:
        raise Bad(f"a trace has at most {MOST_CORE + 1} cores")
    for core, path in enumerate(options.FILE):
        try:
            with open(path, encoding="ascii", errors="replace", newline="" if options.csv else None) as file:
                yield from of_csv(file, path) if options.csv else of_lackey(file, path, core, options.shared)
        except OSError as error:
            raise Bad(f"{path}: {error.strerror}") from None


def lines(options):
    """A line for each word of each access."""
    stores = count(1)
    for core, letter, address, size, value in accesses(options):
        stored = "" if letter == "R" else f" {next(stores) if value is None else value}"
        for word in range(address // 8, (address + size - 1) // 8 + 1):
            yield f"{core} {letter} {8 * word:#x}{stored}\n"


def main(given):
    words = Words(__doc__)
    words.add_argument("FILE", nargs="+", help="what lackey wrote, or with --csv plain lines")
    words.add_argument("--csv", action="store_true", help="FILE has CORE,R|W|S,ADDRESS[,BYTES[,VALUE]]")
    words.add_argument("--shared", action="store_true", help="the files' addresses are of one memory")
    words.add_argument("--skip", type=number(0, 2 ** 60), default=0, metavar="N", help="the lines left out first (0)")
    words.add_argument("--most", type=number(0, MOST_LINES), default=MOST_LINES, metavar="N",
                       help=f"the most lines ({MOST_LINES})")
    options = words.parse_args(given)
    found = lines(options)
    shown = islice(found, options.skip, options.skip + options.most)
    first = list(islice(shown, 1))  # so that a file that is refused at once leaves no beginning of a trace
    sys.stdout.writelines(chain(["trace 2\n"], first, shown))
    left = sum(1 for _ in found)
    if left:
        print(f"from_lackey.py: {left} more lines are left out", file=sys.stderr)
    return 0


if __name__ == "__main__":
    tool(main)
