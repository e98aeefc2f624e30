#!/usr/bin/env python3
"""Runs traces with all combinations of options, and writes a table and a plot (docs/SCALING.md, Many options).

    tools/sweep.py [--csv TABLE] [--counts] [--plot X:Y [--svg PICTURE]] [--jobs N] [--named FILE] [options] TRACE ..
    tools/sweep.py --part K --parts N [the same]    the rows of one part of N, from 0, into a table of its own
    tools/sweep.py --parts N [the same]             joins the tables of all parts

An option has a list of values, as --lease 1..100 or --line-words 1,8 or --banks 1,2,4..8; --schedule, --fair and
--private-write have words, as --private-write both. Any other option has the program's default. --advance N has an
advance after each N operations of a core (tools/advance.py). A line of FILE has a name, a colon, and options with
lists, which replace those that are given here: then the script runs the combinations of each line.

TABLE (sweep.csv) gets a row for each trace and combination: its name in FILE, the options, the lines of the program's
report, with --counts the rows of docs/COUNTS.md, and the program's file. A run that fails has a row, too, which says
why in its last column. The script doesn't make a row again that TABLE already has. PICTURE (TABLE's name with .svg)
shows column Y over column X: a line for each name, or for each combination of the others. A run that was cut short, so
that its numbers are of a part of the trace, is a cross next to the lines (docs/ENDING.md says why runs don't end).
--log x, y or xy has logarithmic axes, without numbers below 1, and --panel COLUMN a plot for each of its values.
--short SHORT writes the rows once more, without the columns that are equal in all of them, and without KIND-delivered
where it equals KIND-sent; with --columns NAME,.. it has these columns. --where COLUMN=LIST leaves only rows with these
values in SHORT and PICTURE.

The program is what --program or TARDIS names, else the one that ./tardis built, else reference/oracle.py. With --counts
a player counts (tools/counts.py). With --counts --program PATH that program does, by its `trace --counts`, also misses
by cause. Then --every N adds a row behind each N completed operations; its column `at` has how many had completed, or
`end`. --skip N leaves out what the first N operations counted, in all columns but completed, stale-hits and last-time.
The script makes N runs at a time, by default as many as there are processors.
The status is 0 if each row has a run that is all done, 1 if not, and 2 if nothing was swept.
"""
import csv
import io
import math
import os
import re
import shlex
import sys
import tempfile
from argparse import ArgumentTypeError, Namespace
from concurrent.futures import ThreadPoolExecutor
from contextlib import contextmanager
from itertools import product
from pathlib import Path

sys.path.insert(0, str(Path(__file__).resolve().parent.parent))
from reference.given import NUMBERS, Bad, Words, bad_configuration, contents, tool  # noqa: E402
from reference.machine import COUNTED  # noqa: E402
from tools import count_tables, counts, program  # noqa: E402
from tools.advance import new_trace  # noqa: E402
from tools.plots import picture  # noqa: E402
from tools.program import Refused, number  # noqa: E402
from tools.shown.played import player_of, say_second  # noqa: E402


CHOICES = {"schedule": ("round", "seed"), "private-write": ("no", "yes"), "fair": ("no", "yes")}
FLAGS = ("private-write", "fair")
LISTED = {**NUMBERS, "advance": (0, "an advance after each N operations of a core; 0: none")}
OPTIONS = ("schedule", *NUMBERS, "private-write", "fair", "advance")
REPORT = ("cores", "issued", "completed", "end", "loads", "stores", "swaps", *COUNTED.values(), "stale-hits", "order")
# The rows of docs/COUNTS.md: first those that a report has, too, with what must be the same there.
SAME = {"loads": "loads", "stores": "stores", "swaps": "swaps", "stale-hits": "stale-hits",
        **{f"{kind}-sent": name for kind, name in COUNTED.items()}}
COUNTS = ["turns", "events", *(name for name in [*counts.OF_CORES, *counts.OF_BANKS, *counts.OF_MESSAGES]
                               if name not in REPORT)]
# The rows that the program's own counts have, and what must be the same in its report.
OF_PROGRAM = [name for name in [*count_tables.OF_RUN, *count_tables.OF_CORES, *count_tables.OF_BANKS,
                                *count_tables.OF_MESSAGES] if name not in REPORT]
SAME_LINES = {row: name for row, name in SAME.items() if row != "stale-hits"}
AT_END = "end"
MOST_ROWS = 1_000_000


def values_of(text):
    """The numbers of a list such as 1,2,4..8, in its order."""
    found = []
    for part in text.split(","):
        ends = re.fullmatch(r"([0-9]{1,20})(?:\.\.([0-9]{1,20}))?", part)
        if not ends:
            raise Bad(f"{part or 'nothing'} is no number, and no range such as 1..100")
        first, last = int(ends[1]), int(ends[2] or ends[1])
        if not first <= last < min(2 ** 64, first + MOST_ROWS):
            raise Bad(f"{part} is no range of up to {MOST_ROWS:,} numbers of 64 bits")
        found += range(first, last + 1)
    return list(dict.fromkeys(map(str, found)))


def choice(name):
    """What takes the words of an option, so that a trace isn't taken for one of them."""
    def take(text):
        try:
            words_of(text, CHOICES[name])
        except Bad as cause:
            raise ArgumentTypeError(cause) from None
        return text
    return take


def words_of(text, choices):
    """The words of a list; `both` names them all."""
    found = list(choices) if text == "both" else text.split(",")
    if not set(found) <= set(choices):
        raise Bad(f"{text} is none of {', '.join(choices)}, both")
    return list(dict.fromkeys(found))


def parser():
    words = Words(__doc__)
    words.add_argument("TRACE", nargs="+", help="a trace")
    words.add_argument("--csv", default="sweep.csv", metavar="TABLE", help="the table (sweep.csv)")
    words.add_argument("--counts", action="store_true", help="with the rows of docs/COUNTS.md")
    words.add_argument("--plot", metavar="X:Y", help="the columns that are drawn")
    words.add_argument("--svg", metavar="PICTURE", help="the picture (TABLE's name with .svg)")
    words.add_argument("--log", choices=["x", "y", "xy"], default="", help="the axes that are logarithmic")
    words.add_argument("--panel", metavar="COLUMN", help="a plot for each of its values")
    words.add_argument("--where", action="append", default=[], metavar="COLUMN=LIST", help="the rows that are shown")
    words.add_argument("--short", metavar="SHORT", help="a table without columns that are equal in every row")
    words.add_argument("--columns", metavar="NAME,..", help="the columns of SHORT")
    words.add_argument("--program", metavar="PATH", help="the program, which with --counts also counts")
    words.add_argument("--every", type=number(1, 2 ** 64 - 1), metavar="N",
                       help="with --counts --program, also a row behind each N operations")
    words.add_argument("--skip", type=number(1, 2 ** 64 - 1), metavar="N",
                       help="with --counts --program, leaves out the first N operations")
    words.add_argument("--part", type=program.number(0, MOST_ROWS), metavar="K", help="the part that is made, from 0")
    words.add_argument("--parts", type=program.number(1, MOST_ROWS), metavar="N", help="how many parts there are")
    words.add_argument("--jobs", type=number(1, 4096), default=os.cpu_count(), metavar="N",
                       help="how many runs are made at a time")
    words.add_argument("--named", metavar="FILE", help="names with options, one a line")
    words.player_option()
    return with_lists(words)


def with_lists(words, fixed=None):
    """The words with all options, but for those that are fixed: each of these has its value."""
    told = {name: (str(usual), f"{says} ({usual})") for name, (usual, says) in LISTED.items()} | {
        name: (choices[0], f"{', '.join(choices)}, or both") for name, choices in CHOICES.items()}
    for name, (usual, says) in told.items():
        if name not in (fixed or {}):
            taken = choice(name) if name in CHOICES else str
            words.add_argument("--" + name, type=taken, default=usual, metavar="LIST", help=says)
    words.set_defaults(**{name.replace("-", "_"): value for name, value in (fixed or {}).items()})
    return words


def named_options(options):
    """The options by their names; without a file of names there are those that are given, which have none."""
    if not options.named:
        return {None: options}
    found = {}
    for number, line in enumerate(contents(options.named).decode(errors="replace").splitlines(), 1):
        name, colon, said = map(str.strip, line.partition("#")[0].partition(":"))
        try:
            if name and colon and name not in found:
                found[name] = with_lists(Words("")).parse_args(shlex.split(said), Namespace(**vars(options)))
            elif name or colon:
                raise Bad("a new name, a colon and options are wanted")
        except (Bad, ValueError) as cause:
            raise Bad(f"{options.named}, line {number}: {cause}") from None
    if not found:
        raise Bad(f"{options.named} has no name")
    return found


def combinations(options):
    """Each combination of the values of all options, by the options' names, and with its own if it has one."""
    found, count = [], 0
    for own, given in named_options(options).items():
        lists = [words_of(value, CHOICES[name]) if name in CHOICES else values_of(value)
                 for name, value in ((name, getattr(given, name.replace("-", "_"))) for name in OPTIONS)]
        count += math.prod(map(len, [traces_of(options), *lists]))
        if "yes" in words_of(given.fair, CHOICES["fair"]) and given.schedule != "round":
            raise Bad("--fair needs --schedule round")
        if count > MOST_ROWS:
            raise Bad(f"{count:,} rows are too many: {MOST_ROWS:,} at most")
        found += [dict(zip(OPTIONS, values)) | ({"name": own} if own else {}) for values in product(*lists)]
    return found


def traces_of(options):
    """The traces, each once: ./a.trace is a.trace."""
    return list(dict.fromkeys(str(Path(name)) for name in options.TRACE))


def made_by():
    """The program's file, from the top of the repository if it lies there."""
    return program.program().removeprefix(f"{program.TOP}/")


@contextmanager
def file_of(trace, chosen):
    """The file that is run: the trace's, or another one while it has advances."""
    path = f"./{trace}" if trace.startswith("-") else trace
    if chosen["advance"] == "0":
        yield path
        return
    with tempfile.NamedTemporaryFile(suffix=".trace") as file:
        file.write(new_trace(path, int(chosen["advance"])))
        file.flush()
        yield file.name


def options_of(chosen):
    """The program's own options."""
    words = [word for name, value in chosen.items() if name in ("schedule", *NUMBERS) for word in ("--" + name, value)]
    return words + ["--" + name for name in FLAGS if chosen[name] == "yes"]


class Sweep:
    """Makes rows: a row has a text for each column."""

    def __init__(self, options):
        self.traces, self.counts = traces_of(options), options.counts
        for trace in filter(os.path.exists, self.traces):
            if Path(trace).is_fifo():  # it can be read only once, and several runs want it
                contents(trace)
        self.by_program = options.counts and options.program
        self.points = {name: getattr(options, name) for name in ("every", "skip") if getattr(options, name)}
        self.columns = ["trace", *["name"] * bool(options.named), *OPTIONS, *self.points,
                        *["at"] * bool(options.every), *REPORT,
                        *((OF_PROGRAM if self.by_program else COUNTS) if self.counts else []), "program", "failed"]
        self.player, self.counted_by = player_of(options) if self.counts and not self.by_program else (None, None)
        self.given = {}  # by trace and advances what the player is given

    def rows(self, trace, chosen):
        """The rows of a run: one for each point of it that is asked for, and last that of its end."""
        row = dict.fromkeys(self.columns, "") | {"trace": trace, "program": made_by()} | chosen | self.given_points()
        try:
            with file_of(trace, chosen) as file:
                if self.by_program:
                    return self.lines(file, chosen, row)
                row |= self.report(file, chosen)
                row |= self.counted((trace, chosen["advance"]), file, row) if self.counts else {}
        except (Bad, Refused) as cause:
            said = str(cause).replace("\n", " ")
            row["failed"] = bad_configuration(self.numbers(row)) if said == "bad configuration" else said or \
                "the program prints nothing"
        return [row]

    def given_points(self):
        """The columns that say which point of a run a row is of: at first, its end."""
        return {name: str(number) for name, number in self.points.items()} | \
            ({"at": AT_END} if "every" in self.points else {})

    def lines(self, file, chosen, row):
        """The rows by the program's own counts."""
        found, points, last = count_tables.points_of(
            lambda every: count_tables.printed(program.program(), options_of(chosen), file, every),
            self.points.get("every"), self.points.get("skip"))
        whole = found.end.totals()
        if any(str(whole[name]) != found.report[column] for name, column in SAME_LINES.items()):
            raise Bad("the program's counts differ from its report")
        front = row | {"cores": found.report["cores"]}
        return [front | counted_columns(point) | {"at": str(at), "completed": str(at)} for at, point in points.items()
                ] + [row | {name: found.report[name] for name in REPORT} | counted_columns(last)]

    def numbers(self, row):
        """The options of a row that are numbers."""
        return Namespace(**{name.replace("-", "_"): int(row[name]) for name in NUMBERS})

    def report(self, file, chosen):
        printed = program.run("trace", *options_of(chosen), file).splitlines()
        lines = dict(line.partition(" ")[::2] for line in printed)
        if not all(map(lines.get, REPORT)):
            raise Bad("the program prints no report")
        return {name: lines[name] for name in REPORT}

    def counted(self, key, file, row):
        flags = {name.replace("-", "_"): row[name] == "yes" for name in FLAGS}
        options = Namespace(**vars(self.numbers(row)), **flags, schedule=row["schedule"])
        if key not in self.given:
            self.given[key] = counts.Given(file)
        found = counts.counted(self.player, self.given[key], options)
        totals = found.totals()
        if found.end != row["end"] or any(str(totals[name]) != row[column] for name, column in SAME.items()):
            raise Bad("the program and the player differ")
        return {name: str(totals[name]) for name in COUNTS}


def counted_columns(point):
    """The columns of a row that a point of a run counts."""
    totals = point.totals()
    same = {column: name for name, column in SAME_LINES.items()}
    return {name: str(totals[same.get(name, name)]) for name in (*same, *OF_PROGRAM)}


class Table:
    """The rows of a file, by trace and options: those of one run, each by the point of the run that it is of. New rows
    are appended as they are made."""

    def __init__(self, path, columns):
        self.path, self.columns, self.runs = Path(path), columns, {}
        text = self.text() if self.path.exists() else ""
        whole = text[:text.rfind("\n") + 1]  # what was being written when a sweep was stopped is left out
        head, *rows = csv.reader((whole or text).splitlines()) if text else [columns]
        if head != columns:
            raise Bad(f"{path} has other columns: name another table by --csv")
        for row in rows:
            self.take(dict(zip(columns, row)))
        if whole != text or not whole:
            self.write(whole or line_of(columns), "w")

    def text(self):
        try:
            return self.path.read_text(encoding="utf-8")
        except (OSError, ValueError) as error:
            raise Bad(f"{self.path}: {getattr(error, 'strerror', 'no text')}") from None

    def take(self, row):
        self.runs.setdefault(self.key(row), {})[row.get("at", AT_END)] = row

    def key(self, row):
        return tuple(row.get(name) for name in ("trace", "name", *OPTIONS, "every", "skip"))

    def has(self, key):
        """Whether all rows of a run are there: that of its end is the last."""
        return AT_END in self.runs.get(key, {})

    def rows(self, key):
        """The rows of a run, in its order."""
        found = self.runs[key]
        return [found[at] for at in sorted(found, key=lambda at: (at == AT_END, int(at) if at != AT_END else 0))]

    def write(self, text, how):
        try:
            with open(self.path, how, encoding="utf-8") as file:
                file.write(text)
        except OSError as error:
            raise Bad(f"{self.path}: {error.strerror}") from None

    def add(self, row):
        """Takes a row that isn't there yet."""
        if row.get("at", AT_END) not in self.runs.get(self.key(row), {}):
            self.take(row)
            self.write(line_of(row.values()), "a")


def line_of(values):
    line = io.StringIO()
    csv.writer(line, lineterminator="\n").writerow(values)
    return line.getvalue()


def table_of(options, part=None):
    """The path of the table, or of a part's."""
    path = Path(options.csv)
    return str(path if part is None else path.with_name(f"{path.stem}.{part:06}{path.suffix}"))


def join(options, table, keys):
    """Takes the rows of the parts' tables that the table doesn't have."""
    for part in range(options.parts):
        path = table_of(options, part)
        made = Table(path, table.columns) if Path(path).exists() else None
        found = [(key, made if made and made.has(key) else table) for key in keys[part::options.parts]]
        missing = sum(not of.has(key) for key, of in found)
        if missing:
            raise Bad(f"{path} lacks {missing} rows: make them by --part {part}")
        for key, of in found:
            if not table.has(key):
                add_all(table, of.rows(key))


def add_all(table, rows):
    for row in rows:
        table.add(row)


def sweep(options, made):
    """The rows that the words ask for, as they are in the table once they are all made."""
    asked, table = combinations(options), Table(table_of(options, options.part), made.columns)
    keys = [(trace, chosen) for trace in made.traces for chosen in asked]

    def key_of(trace, chosen):
        return table.key({"trace": trace} | chosen | made.given_points())

    if options.part is not None:
        keys = keys[options.part::options.parts]
    elif options.parts:
        join(options, table, [key_of(*key) for key in keys])
    left = [key for key in keys if not table.has(key_of(*key))]
    with ThreadPoolExecutor(options.jobs) as pool:
        try:
            for number, rows in enumerate(pool.map(lambda key: made.rows(*key), left), 1):
                add_all(table, rows)
                tell(number, f"{number} of {len(left)} rows", number == len(left))
        finally:
            pool.shutdown(cancel_futures=True)
    return [row for key in keys for row in table.rows(key_of(*key))]


def tell(number, what, is_last):
    """Progress on standard error: one line that changes, on a terminal; else each thousandth row, and the last one."""
    if sys.stderr.isatty():
        print(f"\r{what}", end="\n" if is_last else "", file=sys.stderr, flush=True)
    elif is_last or number % 1000 == 0:
        print(what, file=sys.stderr, flush=True)


def wanted(row, options):
    """Whether a row has the values that are asked for."""
    for said in options.where:
        column, _, values = said.partition("=")
        if column not in row:
            raise Bad(f"--where {said}: there is no column {column or 'without a name'}")
        if row[column] not in [value for part in values.split(",") for value in
                               (values_of(part) if ".." in part else [part])]:
            return False
    return True


def short_table(rows, columns, asked=None):
    """The rows with the columns that are asked for. By default those are left out that are equal in each, and those of
    messages delivered that equal those sent."""
    def says_more(name):
        sent = name.replace("-delivered", "-sent")
        return len({row[name] for row in rows}) > 1 and (sent == name or any(row[name] != row[sent] for row in rows))

    left = asked.split(",") if asked else list(filter(says_more, columns))
    return "".join(map(line_of, [left, *([row[name] for name in left] for row in rows)]))


def panels(rows, options, x, y):
    """By the panels' labels the lines of each. A run has one point, its end, where no column says which it is."""
    if "at" not in (x, y, options.panel):
        rows = list(filter(is_end, rows))
    if not options.panel:
        return {"": series(rows, x, y)}
    found = {}
    for row in rows:
        found.setdefault(f"{options.panel} {row[options.panel]}", []).append(row)
    return {label: series(of, x, y) for label, of in found.items()}


def is_end(row):
    """Whether a row is of the end of its run."""
    return row.get("at", AT_END) == AT_END


def fails(row):
    return bool(row["failed"])


def why(row):
    """Why a row has no run, with the trace."""
    return row["failed"] if row["trace"] in row["failed"] else f"{row['trace']}: {row['failed']}"


def is_cut(row):
    """Whether the row's run ended before all was done, and the row is of its end."""
    return is_end(row) and not fails(row) and row["end"] != "all-done"


def series(rows, x, y):
    """The points of each line of the plot, by its label: the columns that differ, but for x. First those of whole runs,
    then those of runs that were cut short."""
    apart = ("trace", "name") if "name" in rows[0] else ("trace", *OPTIONS)
    names = [name for name in apart if name != x and len({row[name] for row in rows}) > 1]
    traces = {row["trace"] for row in rows}
    short = Path.stem.fget if len({Path(trace).stem for trace in traces}) == len(traces) else str
    found = {}
    for row in rows:
        if re.fullmatch("[0-9]+", row[x]) and re.fullmatch("[0-9]+", row[y]):
            said = ", ".join(short(Path(row[name])) if name == "trace" else f"{name} {row[name]}".removeprefix("name ")
                             for name in names)
            found.setdefault(said or y, ([], []))[is_cut(row)].append((int(row[x]), int(row[y])))
    return {said: tuple(map(sorted, kinds)) for said, kinds in found.items()}


def axes(options, columns):
    """The columns that are drawn."""
    x, _, y = options.plot.partition(":")
    for name in (x, y):
        if name not in columns:
            more = " (--counts has it)" if name in COUNTS else " (--counts --program PATH has it)" \
                if name in OF_PROGRAM else ""
            raise Bad(f"there is no column {name or 'without a name'}{more}: --plot takes two, as lease:renewals")
    return x, y


def save(path, text):
    try:
        Path(path).write_text(text, encoding="utf-8")
    except OSError as error:
        raise Bad(f"{path}: {error.strerror}") from None


def refuse(options, columns):
    """What can be said of the words before rows are made."""
    if "-" in (options.csv, options.svg, options.short):
        raise Bad("- isn't taken: tables and pictures are files, and standard output has the count of rows")
    if options.part is not None and options.part >= (options.parts or 0):
        raise Bad("--part K is one of --parts N, from 0")
    if options.panel and options.panel not in columns:
        raise Bad(f"--panel {options.panel}: there is no such column")
    if (options.every or options.skip) and not (options.counts and options.program):
        raise Bad("--every and --skip need --counts and --program")
    if options.program and options.player:
        raise Bad("--program and --player: one of them counts")
    if options.player and not options.counts:
        raise Bad("--player needs --counts")
    refuse_columns(options, columns)
    wanted(dict.fromkeys(columns, ""), options)
    refuse_pictures(options)
    table = table_of(options, options.part)
    picture_file = (options.svg or Path(table).with_suffix(".svg")) if options.plot else None
    refuse_overwriting(filter(None, (table, picture_file, options.short)),
                       filter(None, (*options.TRACE, options.named)))


def refuse_overwriting(written, read):
    """Of the files that are written, none is read, or written twice. What is no file, as /dev/null, doesn't count."""
    taken = {Path(path).resolve() for path in read}
    for path in map(Path, written):
        if path.resolve() in taken and (path.is_file() or not path.exists()):
            raise Bad(f"{path} would be overwritten")
        taken.add(path.resolve())


def refuse_pictures(options):
    """What is said of a picture or a short table that isn't asked for would mean nothing."""
    for name in ("svg", "log", "panel"):
        if getattr(options, name) and not options.plot:
            raise Bad(f"--{name} needs --plot")
    if options.where and not (options.plot or options.short):
        raise Bad("--where needs --plot or --short")
    for said in options.where:
        if "=" not in said:
            raise Bad(f"--where {said}: COLUMN=LIST is wanted")


def refuse_columns(options, columns):
    if options.columns and not options.short:
        raise Bad("--columns needs --short")
    for name in options.columns.split(",") if options.columns else ():
        if name not in columns:
            raise Bad(f"--columns {name}: there is no such column")


def main(given):
    options = parser().parse_args(given)
    if options.program:
        os.environ["TARDIS"] = options.program
    made = Sweep(options)
    refuse(options, made.columns)
    x, y = axes(options, made.columns) if options.plot else (None, None)
    rows, path = sweep(options, made), table_of(options, options.part)
    shown = [row for row in rows if wanted(row, options)]
    if options.plot:
        if not shown:
            raise Bad("no row is left to be drawn")
        save(options.svg or str(Path(path).with_suffix(".svg")),
             "\n".join(picture(panels(shown, options, x, y), x, y, options.log)) + "\n")
    if options.short:
        save(options.short, short_table(shown, made.columns, options.columns))
    failed, cut = sum(map(fails, rows)), sum(map(is_cut, rows))
    print(f"{path}: {len(rows)} rows, {failed} failed, {cut} cut short")
    if failed:
        print(f"sweep.py: {next(map(why, filter(fails, rows)))}: delete the row to try again", file=sys.stderr)
    say_second("sweep.py", made.counted_by, options)
    return int(failed + cut > 0)


if __name__ == "__main__":
    tool(main)
