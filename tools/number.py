#!/usr/bin/env python3
"""Turns a history with your own times into a trace and records, checks these, and answers in your own terms.

    tools/number.py [--out FOLDER] [--opening FILE] HISTORY

HISTORY has one operation a line, each core's in program order, with the time at which it took effect behind an @:
`0 R 0x8 5 @ 1042` (docs/ORDER.md, Histories without an order). Times are cycles with gaps, seconds with a fraction, or
anything else that rises; equal times are ordered by line. The operation of the n-th time gets the number n - 1.

NAME.trace, NAME.records and NAME.map are written to FOLDER, and NAME.opening if memory doesn't open with zeros. A line
of the map has a record's number, its time and its line. Then `tardis check` is asked, and the verdict printed, with the
time, the line and the operation that it means. Where the program isn't built, reference/oracle.py is asked, and a line
says that this isn't proved.

The status is 0 if the history is legal, 1 if it isn't, and 2 if the text or a file is refused, in one line on standard
error.
"""
import argparse
import sys
from pathlib import Path

sys.path.insert(0, str(Path(__file__).resolve().parent.parent))
from reference.given import tool  # noqa: E402
from tools import program  # noqa: E402
from tools.order import read  # noqa: E402
from tools.orders import witness  # noqa: E402
from tools.orders.history import FENCE, Fault, read_history, read_values  # noqa: E402


def words():
    about = argparse.ArgumentParser(description=__doc__, allow_abbrev=False,
                                    formatter_class=argparse.RawDescriptionHelpFormatter)
    about.error = lambda message: program.fail(f"{message} (--help tells all)")
    about.add_argument("HISTORY", help="the text; /dev/stdin is standard input")
    about.add_argument("--opening", metavar="FILE",
                       help="addresses and their first values, one a line as `0x8 5`; else 0")
    about.add_argument("--out", metavar="FOLDER", type=Path, default=Path("."), help="where files are written (here)")
    return about


def numbered(operations):
    """The places of the operations in the text, in the order of their times."""
    for operation in operations:
        if operation.kind == FENCE:
            continue
        if operation.start is None or operation.start != operation.end:
            raise Fault(operation.line, "one time is needed behind an @, as `@ 5` or in Axe's form `@ 5:5`: when the "
                                        "operation took effect")
    nodes = [node for node, operation in enumerate(operations) if operation.kind != FENCE]
    return sorted(nodes, key=lambda node: operations[node].start)


def main(given):
    options = words().parse_args(given)
    operations = read(options.HISTORY, read_history)
    opening = read(options.opening, read_values) if options.opening else {}
    try:
        order = numbered(operations)
        mapped = (f"{number} {operations[node].time} {operations[node].line}" for number, node in enumerate(order))
        texts = witness.texts(operations, order, opening, False) | {"map": mapped}
        paths = witness.write_all(options.out, Path(options.HISTORY).stem, texts, (options.HISTORY, options.opening))
        verdict = program.run(*witness.words_of_check(paths)).strip()
    except (Fault, program.Refused) as cause:
        program.fail(f"{options.HISTORY}: {cause}")
    print(verdict)
    if program.checked_by() == program.UNPROVED:
        print(program.UNPROVED)
    if verdict == "legal":
        return 0
    operation = operations[order[int(verdict.rpartition(" ")[2])]]
    print(f"at {operation.time}, {operation.told()}")
    print("This order doesn't explain it; another may: tools/order.py looks for it.")
    return 1


if __name__ == "__main__":
    tool(main)
