#!/usr/bin/env python3
"""Writes the tables of docs/REAL-TRACES.md and their picture anew by a sweep of the recorded traces, or tests them.

    maintain/recorded.py PROGRAM            writes the tables and docs/pictures/recorded.svg
    maintain/recorded.py --check PROGRAM    says what differs, and fails if something does

PROGRAM is a program that is built. tools/sweep.py runs each trace of examples/traces whose name begins with RECORDED
in each way of examples/traces/record/ways, and a player counts. All that a row has, and the records of its run, must be
what the second program gives, with its own player.
"""
import os
import sys
import tempfile
from concurrent.futures import ThreadPoolExecutor
from pathlib import Path

sys.path.insert(0, str(Path(__file__).resolve().parent.parent))
from maintain.catalogue import with_table  # noqa: E402
from tools import program, sweep  # noqa: E402
from tools.plots import words  # noqa: E402


TOP = program.TOP
PAGE, PICTURE = TOP / "docs/REAL-TRACES.md", TOP / "docs/pictures/recorded.svg"
WAYS, TRACES = TOP / "examples/traces/record/ways", sorted((TOP / "examples/traces").glob("RECORDED-*.trace"))
SECOND = str(TOP / "reference/oracle.py")
# The messages that are counted, each with its colour in the picture.
COUNTED = {"renewals": "#3b7dd8", "upgrades": "#8d6bc7", "flushes": "#d8663b", "write-backs": "#e0b13c"}
HEAD = ["| Options | Renewals | Upgrades | Flushes | Write-backs | Stale hits | Last time |",
        "|---|---|---|---|---|---|---|"]
# Where bars begin and how wide the longest is, how high each is and how far apart, and how wide a panel is.
LEFT, WIDTH, BAR, STEP, PANEL = 170, 300, 14, 20, 570


def swept(made_by, table, *player):
    """The rows of the sweep by this program, and the records of each."""
    os.environ["TARDIS"] = made_by
    given = ["--named", str(WAYS), "--csv", table, "--counts", *player]
    options = sweep.parser().parse_args([*given, *map(str, TRACES)])
    rows = sweep.sweep(options, sweep.Sweep(options))
    with ThreadPoolExecutor(os.cpu_count()) as pool:
        return rows, list(pool.map(records, rows))


def records(row):
    with sweep.file_of(row["trace"], row) as file:
        return program.run("trace", "--records", *sweep.options_of(row), file)


def differ(row, its_records, other, other_records):
    """In what two programs differ: the columns, but for who made them, and the records. A row that failed is one."""
    found = [name for name in row if name != "program" and row[name] != other[name]]
    return found + ["records"] * (its_records != other_records) + ["failed"] * bool(row["failed"])


def table_row(row):
    return "| " + " | ".join(row[name] for name in ("name", *COUNTED, "stale-hits", "last-time")) + " |"


def bars(rows, left, top, most):
    """The bars of a trace: the messages of each run, one kind after the other, and its stale hits."""
    for place, row in enumerate(rows):
        x, y = left + LEFT, top + place * STEP
        yield words(x - 8, y + BAR - 3, row["name"], "end")
        for name, colour in COUNTED.items():
            wide = int(row[name]) * WIDTH / most
            yield f'<rect x="{x:.1f}" y="{y}" width="{wide:.1f}" height="{BAR}" fill="{colour}"/>'
            x += wide
        yield words(x + 6, y + BAR - 3, f"{row['stale-hits']} stale hits", more=' fill="#666"')


def picture(traces):
    most = max(sum(int(row[name]) for name in COUNTED) for rows in traces.values() for row in rows)
    panel = max(map(len, traces.values())) * STEP + 60
    height = 50 + (len(traces) + 1) // 2 * panel
    yield f'<svg xmlns="http://www.w3.org/2000/svg" width="{2 * PANEL}" height="{height}" font-family="sans-serif" ' \
          'font-size="12">'
    yield f'<rect width="{2 * PANEL}" height="{height}" fill="white"/>'
    for place, (name, colour) in enumerate(COUNTED.items()):
        yield f'<rect x="{LEFT + 130 * place}" y="14" width="12" height="12" fill="{colour}"/>'
        yield words(LEFT + 18 + 130 * place, 25, name)
    for place, (name, rows) in enumerate(traces.items()):
        left, top = place % 2 * PANEL, 70 + place // 2 * panel
        yield words(left + LEFT, top - 8, name, more=' font-weight="bold"')
        yield from bars(rows, left, top, most)
    yield "</svg>"


def written(rows, check):
    """Writes the page and the picture of these rows, or says which of them differs."""
    traces, page = {path.stem: [] for path in TRACES}, PAGE.read_text(encoding="utf-8")
    for row in rows:
        traces[Path(row["trace"]).stem].append(row)
    for name, of in traces.items():
        page = with_table(page, name, HEAD + list(map(table_row, of)))
    for path, text in ((PAGE, page), (PICTURE, "\n".join(picture(traces)) + "\n")):
        if check and (not path.exists() or path.read_text(encoding="utf-8") != text):
            yield f"{path.relative_to(TOP)} differs (maintain/recorded.py writes it)"
        elif not check:
            path.write_text(text, encoding="utf-8")


def main(given):
    check, programs = given[:1] == ["--check"], [word for word in given if word != "--check"]
    if len(programs) != 1:
        return __doc__
    with tempfile.TemporaryDirectory() as folder:
        first = swept(os.path.abspath(programs[0]), f"{folder}/first.csv")
        second = swept(SECOND, f"{folder}/second.csv", "--player", str(TOP / "reference/play.py"))
    faults = [f"{Path(row['trace']).stem}, {row['name']}: the programs differ in {', '.join(names)}"
              for row, *other in zip(*first, *second) if (names := differ(row, *other))]
    faults = faults or list(written(first[0], check))
    print("\n".join(faults) or f"{len(TRACES)} traces, {len(first[0])} runs: the two programs say the same")
    return int(bool(faults))


if __name__ == "__main__":
    if sys.argv[1:2] in (["-h"], ["--help"]):
        raise SystemExit(print(__doc__))
    sys.exit(main(sys.argv[1:]))
