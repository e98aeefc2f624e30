#!/usr/bin/env python3
"""Finds an order of a history that comes without one, and has `tardis check` confirm it.

    tools/order.py [--out FOLDER] [--real-time] [--opening FILE] [--seconds N] [--model tso] HISTORY

HISTORY has one operation a line, each core's in program order (docs/ORDER.md, Histories without an order): records
without times, such as `0 R 0x8 5`, or Axe's text, such as `0: M[1] == 5`. It may also have records with times and
numbers (docs/TEXTS.md), which don't count then. The first line printed is one of

    consistent: proved by tardis check    NAME.order.trace and NAME.order.records in FOLDER are the order found, and
                                          NAME.order.opening what memory opens with, if that isn't zeros
    not consistent: ..                    operations that no order joins, each with its line, and why
    not decided: ..                       the time is up, and how far the search came

Nobody needs to trust the search: the checker confirms an order, and facts that a person can check show that there is
none. Only a set of operations without such facts is the search's own word. Where the program isn't built,
reference/oracle.py checks the order, which isn't proved; the line says so. Under --model tso reference/tso.py does.
Only this script checks that an order keeps real time.

The status is 0 if the history is consistent, 1 if it isn't, 2 if the text or a file is refused, in one line on standard
error, and 3 if the answer isn't known.
"""
import argparse
import sys
from pathlib import Path

sys.path.insert(0, str(Path(__file__).resolve().parent.parent))
from reference import tso  # noqa: E402
from reference.given import tool  # noqa: E402
from reference.traces import read_opening, read_records  # noqa: E402
from tools import program  # noqa: E402
from tools.orders import witness  # noqa: E402
from tools.orders.answer import answer  # noqa: E402
from tools.orders.history import Fault, read_history, read_values  # noqa: E402

NOT_CONSISTENT, NOT_DECIDED = 1, 3


def words():
    about = argparse.ArgumentParser(description=__doc__, allow_abbrev=False,
                                    formatter_class=argparse.RawDescriptionHelpFormatter)
    about.error = lambda message: program.fail(f"{message} (--help tells all)")
    about.add_argument("HISTORY", help="the text; /dev/stdin is standard input")
    about.add_argument("--out", metavar="FOLDER", type=Path, default=Path("."),
                       help="where the two files of an order are written (here)")
    about.add_argument("--real-time", action="store_true",
                       help="an operation that ended before another started precedes it")
    about.add_argument("--seconds", type=program.number(1, 10 ** 6), default=60, metavar="N",
                       help="how long to search (60)")
    about.add_argument("--opening", metavar="FILE",
                       help="addresses and their first values, one a line as `0x8 5` or `M[1] := 5`; else 0")
    about.add_argument("--model", choices=["sc", "tso"], default="sc",
                       help="sc: sequential consistency; tso: each core's stores may take effect later")
    return about


def read(path, reader):
    """What a file says, or one line and status 2."""
    try:
        return reader(program.text_of(path))
    except Fault as fault:
        program.fail(f"{path}: {fault}")


def confirmed(options, paths):
    """Who confirms the order, in words; the script ends if nobody does."""
    if options.model == "tso":
        texts = {what: program.text_of(path) for what, path in paths.items()}
        said = tso.verdict(*tso.read_trace(texts["trace"]), read_records(texts["records"]),
                           read_opening(texts.get("opening", b"")))
        if said != "legal":
            program.fail(f"reference/tso.py says of the order found: {said}")
        return "checked by reference/tso.py"
    try:
        said = program.run(*witness.words_of_check(paths)).strip()
    except program.Refused as refused:
        program.fail(str(refused))
    if said != "legal":
        program.fail(f"check says of the order found: {said}")
    return program.checked_by()


def timed(operations, order):
    """That the order keeps real time, of which `check` knows nothing; the script ends if it doesn't."""
    if not witness.keeps_real_time(operations, order):
        program.fail("the order found doesn't keep real time")
    return "; that it keeps real time isn't proved"


def marked(options, lines):
    """Under total store order, each line says that nothing of it is proved."""
    return [f"{line} {tso.NOT_PROVED}" for line in lines] if options.model == "tso" else list(lines)


def main(given):
    options = words().parse_args(given)
    if options.model == "tso" and options.real_time:
        program.fail("--real-time is of sequential consistency alone: when a delayed store ends isn't known")
    operations = read(options.HISTORY, read_history)
    opening = read(options.opening, read_values) if options.opening else {}
    found = answer(operations, options.seconds, options.model, options.real_time, opening)
    if found.order is None:
        print("\n".join(marked(options, found.lines)))
        return NOT_CONSISTENT if found.is_known else NOT_DECIDED
    texts = witness.texts(operations, found.order, opening, options.model == "tso")
    paths = witness.write_all(options.out, f"{Path(options.HISTORY).stem}.order", texts,
                              (options.HISTORY, options.opening))
    said = confirmed(options, paths) + (timed(operations, found.order) if options.real_time else "")
    print("\n".join(marked(options, [f"consistent: {said}", *map(str, paths.values())])))
    return 0


if __name__ == "__main__":
    tool(main)
