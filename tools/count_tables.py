"""Tables of counts, by core and bank, and what `tardis trace --counts` prints, read as such tables (docs/COUNTS.md)."""
import subprocess

from reference.given import NUMBERS, Bad
from tools.program import opened


KINDS = ("ShReq", "ExReq", "ShRep", "ExRep", "RenewRep", "UpgradeRep", "FlushReq", "WbReq", "FlushRep", "WbRep",
         "DramLd", "DramLdRep", "DramSt", "DramStRep")
CAUSES = ("cold", "evicted", "recalled", "ended", "shared")
# The tables of the program's lines: the rows of each, with the numbers of a line that a row is the sum of.
OF_CORES = {**{row: [row] for row in ("loads", "stores", "swaps", "hits")}, "misses": CAUSES,
            **{row: [row] for row in CAUSES}, "evicted-copies": ["evictions"], "returns": ["returns"],
            "reloads": ["reloads"], "held-recalls": ["held"], "dropped-recalls": ["dropped"], "last-time": ["time"]}
OF_BANKS = {"dram-loads": ["DramLd"], "dram-stores": ["DramSt"], "recalls": ["FlushReq", "WbReq"],
            "evicted-entries": ["evictions"], "held-requests": ["held"]}
OF_MESSAGES = {f"{kind}-sent": [kind] for kind in KINDS}
OF_RUN = ("events", "held", "dropped")


class Tables:
    """Numbers of a run, and by part (`core 0`, `bank 0`) its numbers by their names. Three tables show them."""

    def __init__(self, run, parts, of_cores, of_banks, of_messages):
        self.run, self.parts = run, parts
        self.of_cores, self.of_banks, self.of_messages = of_cores, of_banks, of_messages

    def rows(self):
        """By table its rows; a row has its name, the sum over the cores or the banks, and the number of each part."""
        cores = [part for part in self.parts if part.startswith("core")]
        banks = [part for part in self.parts if part.startswith("bank")]
        yield "cores", cores, [(row, max if row == "last-time" else sum, names, cores)
                               for row, names in self.of_cores.items()]
        yield "banks", banks, [(row, sum, names, banks) for row, names in self.of_banks.items()]
        yield "messages", cores + banks, [(row, sum, names, banks) for row, names in self.of_messages.items()]

    def number(self, part, names):
        return sum(self.parts[part].get(name, 0) for name in names)

    def totals(self):
        """All numbers of the run as a whole, by the names of the rows."""
        return self.run | {row: total(self.number(part, names) for part in of)
                           for _, _, rows in self.rows() for row, total, names, of in rows}

    def completed(self):
        """How many operations completed."""
        totals = self.totals()
        return sum(totals[name] for name in ("loads", "stores", "swaps"))


class Point(Tables):
    """The counts of the program's lines, of a row or of the end."""

    def __init__(self, run, parts):
        super().__init__(run, parts, OF_CORES, OF_BANKS, OF_MESSAGES)

    def less(self, other):
        """What happened since another point. The greatest time is that of this one."""
        parts = {part: {name: number - (0 if name == "time" else other.parts[part].get(name, 0))
                        for name, number in numbers.items()} for part, numbers in self.parts.items()}
        return Point({name: number - other.run[name] for name, number in self.run.items()}, parts)


class Printed:
    """What the program prints by `trace --counts`: the report by its names, the rows, by how many operations had
    completed, and the counts at the end."""

    def __init__(self, text):
        self.report, self.rows, self.end = {}, {}, None
        completed, run, parts = None, {}, {}
        for name, number, *rest in map(str.split, text.splitlines()):
            is_new = name == "row" or name == "events"
            if is_new and run:
                self.rows[completed], run, parts = Point(run, parts), {}, {}
            if name == "row":
                completed = int(number)
            elif name == "events" or run and name in OF_RUN:
                run[name] = int(number)
            elif run and name in ("core", "bank"):
                parts[f"{name} {number}"] = dict(zip(rest[::2], map(int, rest[1::2])))
            elif name != "word":
                self.report[name] = number
        self.end = Point(run, parts)


def words_of(options):
    """The program's own options, of a tool's."""
    named = {name: getattr(options, name.replace("-", "_")) for name in ("schedule", *NUMBERS)}
    words = [word for name, value in named.items() for word in ("--" + name, str(value))]
    return words + ["--" + name for name in ("private-write", "fair") if getattr(options, name.replace("-", "_"))]


def printed(program, words, path, every=None):
    """What this program prints of the trace at a path, by its options."""
    path = f"./{path}" if str(path).startswith("-") else path
    rows = ["--every", str(every)] if every else []
    try:
        ran = subprocess.run([program, "trace", "--counts", *rows, *words, opened(str(path))], stdout=subprocess.PIPE,
                             stderr=subprocess.PIPE, stdin=subprocess.DEVNULL, check=False)
    except OSError as error:
        raise Bad(f"{program}: {error.strerror}") from None
    text, said = ran.stdout.decode(errors="replace"), ran.stderr.decode(errors="replace").strip().split("\n")[0]
    if ran.returncode not in (0, 1) or "\nevents " not in text:
        raise Bad(said.removeprefix("tardis: ") or f"{program} ended with status {ran.returncode}, without counts")
    return Printed(text)


def points_of(ask, every, skip):
    """How a run ended; its rows, by how many operations had completed; and what it counts at the end: both without what
    the first operations, as many as `skip`, counted. `ask` gives what the program prints, by an `every`."""
    found = ask(every or skip)
    rows = found.rows if every else {}
    if not skip:
        return found, rows, found.end
    first = found if skip == (every or skip) else ask(skip)
    if found.end.completed() <= skip:
        raise Bad(f"{found.end.completed()} operations completed: --skip {skip} leaves none")
    rows = {completed: point.less(first.rows[skip]) for completed, point in rows.items() if completed > skip}
    return found, rows, found.end.less(first.rows[skip])


def table(rows):
    """Lines with columns below each other: the first to the left, the others to the right."""
    wide = [max(map(len, column)) for column in zip(*rows)]
    for first, *rest in rows:
        yield "  ".join([first.ljust(wide[0]), *(word.rjust(space) for word, space in zip(rest, wide[1:]))]).rstrip()
