#!/usr/bin/env python3
"""Counts misses, messages and flits of Tardis and of a directory: tools/compare.py [options] TRACE ..

Nothing here is proved: the second program's machine (reference/machine.py) and the directories of
reference/directory.py, by MSI and by MESI, run the same trace by the same schedule. docs/COMPARE.md has the directory's
rules, and says what the rows count.

Options have lists, as those of tools/sweep.py: there is a table for each trace and combination, --csv TABLE gets a row
for each machine, and --plot X:Y draws column Y over column X to PICTURE (compare.svg), a line for each machine. If
TABLE or PICTURE is -, standard output has that instead of tables. A message has --header bytes, --time-bytes for each
of its times, and 8 bytes for each of its words, in whole flits of --flit bytes. The status is 0 if each run is all
done, 1 if not, and 2 if nothing was run.
"""
import sys
from pathlib import Path

sys.path.insert(0, str(Path(__file__).resolve().parent.parent))
from reference.counted import KINDS  # noqa: E402
from reference.given import Bad, Words, tool  # noqa: E402
from reference.schedules import Run, by_rounds, by_seed  # noqa: E402
from tools import count_tables, measured, sweep  # noqa: E402
from tools.plots import picture  # noqa: E402
from tools.program import number  # noqa: E402


KINDS = (*KINDS[:KINDS.index("DramLd")], "CleanRep", "InvReq", "InvRep", *measured.OF_DRAM)
ROWS = ("end", "completed", "hits", "misses", *KINDS, "messages", "flits")
# The kinds that carry words, and how many times each kind has at Tardis; a directory's messages have none.
WITH_WORDS = ("ShRep", "ExRep", "FlushRep", "WbRep")
TIMES = {"ShReq": 2, "ExReq": 1, "ShRep": 2, "ExRep": 2, "RenewRep": 1, "UpgradeRep": 1, "WbReq": 1, "FlushRep": 2,
         "WbRep": 2}
SIZES = {"header": ("of a message's header", 8), "time-bytes": ("of a time", 8), "flit": ("of a flit", 16)}


def parser():
    words = Words(__doc__)
    words.add_argument("TRACE", nargs="+", help="a trace")
    words.add_argument("--csv", metavar="TABLE", help="the table")
    words.add_argument("--plot", metavar="X:Y", help="the columns that are drawn")
    words.add_argument("--svg", metavar="PICTURE", help="the picture (compare.svg)")
    for name, (what, usual) in SIZES.items():
        words.add_argument("--" + name, type=number(0 if name == "time-bytes" else 1, 1024), default=usual,
                           metavar="N", help=f"the bytes {what} ({usual})")
    words.set_defaults(named=None)
    return sweep.with_lists(words)


def run_of(name, options, trace, sizes):
    """The numbers of a run, with its end."""
    run = Run(measured.machine_of(name, options, trace.cores), trace.programs())
    end = by_seed(run, options.limit, options.seed) if options.schedule == "seed" else \
        by_rounds(run, options.limit, options.fair)
    row = measured.row_of(run.machine)
    flits = sum(row.get(kind, 0) * flits_of(kind, name, options.line_words, sizes) for kind in KINDS
                if kind not in measured.OF_DRAM)
    return row | {"end": end, "flits": flits}


def flits_of(kind, name, line_words, sizes):
    """The flits of a message: a header, times and words, in whole flits."""
    size = sizes.header + sizes.time_bytes * (TIMES.get(kind, 0) if name == "tardis" else 0)
    return -(-(size + 8 * line_words * (kind in WITH_WORDS)) // sizes.flit)


def compared(options):
    """By trace and combination the rows of its machines. A row has a text for each column."""
    for path, chosen, trace in measured.runs(options):
        of = measured.options_of(chosen, trace.cores)
        yield path, chosen, [{"trace": path, "name": name, **chosen, "failed": ""} | {
            row: str(number) for row, number in run_of(name, of, trace, options).items()} for name in measured.MACHINES]


def told(path, chosen, names, rows):
    """The lines of a table: a kind of messages that no machine sent has no row."""
    yield " ".join([f"{path}:", *(f"{name} {chosen[name]}" for name in names)]).removesuffix(":")
    shown = [kind for kind in ROWS if any(kind in row for row in rows)]
    yield from count_tables.table([["", *(row["name"] for row in rows)],
                                  *([kind, *(row.get(kind, "0") for row in rows)] for kind in shown)])


def save(path, text):
    """Writes a file, or standard output for -."""
    if path == "-":
        sys.stdout.write(text)
    else:
        sweep.save(path, text)


def main(given):
    options = parser().parse_args(given)
    if options.svg and not options.plot:
        raise Bad("--svg needs --plot")
    picture_file = (options.svg or "compare.svg") if options.plot else None
    sweep.refuse_overwriting([path for path in (options.csv, picture_file) if path not in (None, "-")], options.TRACE)
    columns = ["trace", "name", *sweep.OPTIONS, *ROWS]
    axes = sweep.axes(options, columns) if options.plot else None
    names, rows = measured.varied(sweep.combinations(options)), []
    for path, chosen, found in compared(options):
        if "-" not in (options.csv, options.svg):
            print("\n".join([""] * bool(rows) + list(told(path, chosen, names, found))), flush=True)
        rows += found
    rows = [dict.fromkeys(columns, "0") | row for row in rows]
    if options.csv:
        table = [columns, *([row[name] for name in columns] for row in rows)]
        save(options.csv, "".join(map(sweep.line_of, table)))
    if axes:
        save(picture_file, "\n".join(picture({"": sweep.series(rows, *axes)}, *axes)) + "\n")
    return int(any(map(sweep.is_cut, rows)))


if __name__ == "__main__":
    tool(main)
