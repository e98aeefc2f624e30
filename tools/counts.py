#!/usr/bin/env python3
"""Counts what a run does: hits, misses, messages by kind, DRAM, evictions: tools/counts.py [options] FILE

FILE is a trace or a litmus test. docs/COUNTS.md says what each row of the tables counts. A player (docs/EVENTS.md)
makes the run and counts. That is the proved machine's, ./play, if it is built and no source is newer. Otherwise it is
the second program's, reference/play.py, and standard error says so; nothing is built. --player names another.

With --program PATH that program counts, as ./tardis or reference/oracle.py: the numbers of its `trace --counts`, with
misses by cause. Then --every N also shows what was counted behind each N operations, and --skip N leaves out what the
first N operations counted, in all tables; last-time stays. --columns NAME,.. prints a line for each of these points in
place of tables: how many operations had completed, and these numbers of the whole run.

The status is 0 if the run is all done, 1 if it was counted and ended otherwise, and 2 if nothing was counted.
"""
import re
import subprocess
import sys
from argparse import SUPPRESS, ArgumentTypeError
from pathlib import Path

sys.path.insert(0, str(Path(__file__).resolve().parent.parent))
from reference import told  # noqa: E402
from reference.given import Bad, Subject, bad_configuration, Words, contents, tool  # noqa: E402
from tools.count_tables import KINDS, Tables, points_of, printed, table, words_of  # noqa: E402
from tools.program import number  # noqa: E402
from tools.shown.played import drive_call, machine_call, player_of, say_second, steps_of  # noqa: E402


# The rows of cores, each with its name in the player's answer; and those of banks, each with what it is the sum of.
OF_CORES = {"loads": "loads", "stores": "stores", "swaps": "swaps", "hits": "hits", "misses": "misses",
            "stale-hits": "stale", "evicted-copies": "evicted", "last-time": "time"}
OF_BANKS = {"dram-loads": ["DramLd-sent"], "dram-stores": ["DramSt-sent"], "recalls": ["FlushReq-sent", "WbReq-sent"],
            "evicted-entries": ["evicted"]}
OF_MESSAGES = [f"{kind}-{what}" for kind in KINDS for what in ("sent", "delivered")]
# The lines of a trace that a player reads as they are. A line of another form may be good, too.
STEP = re.compile(rb"[ \t]*([0-9]|[1-5][0-9]|6[0-3])[ \t]+(R[ \t]+0x[0-9a-f]{0,15}[08]|"
                  rb"[WS][ \t]+0x[0-9a-f]{0,15}[08][ \t]+[0-9]{1,19}|A)[ \t]*")
FORM_2 = re.compile(rb"[ \t]*trace[ \t]+2[ \t]*")
MOST_LINES, MOST_BYTES = 16_777_216, 256


class Given:
    """What is run: the programs as the player reads them, and the memory that it opens with."""

    def __init__(self, path):
        text, self.memory = contents(path), {}
        self.programs = None if text.split(None, 1)[:1] == [b"RISCV"] else plain_programs(text)
        if self.programs is None:
            subject = Subject(path)
            self.memory = subject.memory
            self.programs = ["; ".join(map(told.step, steps_of(program, []))) for program in subject.programs()]
        self.cores = len(self.programs)


def plain_programs(text):
    """The programs of a trace of plain lines, fast; None if there is a line of another form."""
    steps, form, lines = {}, 1, text.removesuffix(b"\n").split(b"\n")
    for line in lines:
        said = line.partition(b"#")[0]
        found = STEP.fullmatch(said)
        if len(line) > MOST_BYTES or found and form == 1 and (int(found[1]) > 15 or found[2] == b"A"):
            return None
        if found:
            steps.setdefault(int(found[1]), []).append(found[2])
        elif form == 1 and not steps and FORM_2.fullmatch(said):
            form = 2
        elif said.strip(b" \t"):
            return None
    if len(lines) > MOST_LINES:
        return None
    return [b"; ".join(steps.get(core, [])).decode("ascii") for core in range(max(steps, default=0) + 1)]


class Counts(Tables):
    """What a player counts of a run: its end, how many events it made in how many turns, and by part the numbers by
    names."""

    def __init__(self, drive, counts):
        self.end, events = drive.removesuffix(" events").split(", ")
        *parts, turns = counts.split("; ")
        run, of = {"turns": int(turns.split(" ")[1]), "events": int(events)}, {}
        for part in parts:
            what, number, *rest = part.split(" ")
            of[f"{what} {number}"] = numbers_of(rest)
        super().__init__(run, of, {row: [name] for row, name in OF_CORES.items()}, OF_BANKS,
                         {row: [row] for row in OF_MESSAGES})


def numbers_of(words):
    """The numbers of a part by names: one after a name, and two after a message's kind."""
    found, words = {}, iter(words)
    for name in words:
        if name in KINDS:
            found |= {f"{name}-sent": int(next(words)), f"{name}-delivered": int(next(words))}
        else:
            found[name] = int(next(words))
    return found


def counted(command, given, options):
    """What the player counts."""
    wanted = [f"{machine_call(options, given.cores, given.memory)} : opened"]
    wanted += [f"program {core} {steps} : given" for core, steps in enumerate(given.programs)]
    text = "\n".join(["example counts", *wanted, drive_call(options), "counts"]) + "\n"
    try:
        ran = subprocess.run([*command, "-"], input=text.encode(), stdout=subprocess.PIPE, check=False)
    except OSError as error:
        raise Bad(f"{command[0]}: {error.strerror}") from None
    lines = ran.stdout.decode().splitlines()
    if "wanted opened, came refused BadConfig" in "".join(lines[:1]):
        raise Bad(bad_configuration(options))
    if ran.returncode or len(lines) != 3 or not lines[1].startswith("counts : core 0"):
        said = "".join(f": {line[:160]}" for line in lines[:1])
        raise Bad(f"the player failed, with status {ran.returncode}{said} (--player reference/play.py needs no kit)")
    return Counts(*(line.partition(" : ")[2] for line in lines[:2]))


def tables(counts, is_shown):
    """The lines of the tables; a kind of messages of which none was sent has no row."""
    for title, parts, rows in counts.rows():
        shown = [part for part in parts if is_shown(part)]
        lines = [[title, "all", *shown]]
        for row, total, names, of in rows:
            number = total(counts.number(part, names) for part in of)
            if title != "messages" or counts.totals()[f"{row.split('-')[0]}-sent"]:
                lines.append([row, str(number), *(str(counts.number(part, names)) for part in shown)])
        wide = max(8, *(len(word) for line in lines for word in line[1:]))
        yield ""
        yield from (line[0].ljust(20) + "".join(word.rjust(wide + 1) for word in line[1:]) for line in lines)


def one_run(_):
    raise ArgumentTypeError("one run is counted: tools/sweep.py --counts --seed 0..99 makes a table of many")


def column_lines(points, columns):
    """A line for each point, with how many operations had completed and these numbers of the whole run."""
    rows = [["completed", *columns]]
    for completed, counts in points:
        totals = counts.totals()
        lacking = [name for name in columns if name not in totals]
        if lacking:
            raise Bad(f"--columns {lacking[0]}: there are {', '.join(totals)}")
        rows.append([str(completed), *(str(totals[name]) for name in columns)])
    return table(rows)


def run_lines(counts, is_shown):
    return [*(f"{name} {number}" for name, number in counts.run.items()), *tables(counts, is_shown)]


def words_of_line():
    parser = Words(__doc__)
    parser.run_options()
    parser.add_argument("--runs", type=one_run, help=SUPPRESS)
    parser.player_option()
    parser.add_argument("--program", metavar="PATH", help="the program that counts in a player's place (./tardis)")
    parser.add_argument("--every", type=number(1, 2 ** 64 - 1), metavar="N",
                        help="with --program, also what is counted behind each N operations")
    parser.add_argument("--skip", type=number(1, 2 ** 64 - 1), metavar="N",
                        help="with --program, leaves out the first N operations")
    parser.add_argument("--columns", metavar="NAME,..", help="a line for each row, with these numbers of the whole run")
    return parser


def by_program(options):
    """How the run ended; the rows, by how many operations had completed; and the counts at the end. The program counts
    traces."""
    if options.player:
        raise Bad("--program and --player: one of them counts")
    if contents(options.FILE).split(None, 1)[:1] == [b"RISCV"]:
        raise Bad(f"{options.FILE} is a litmus test: a player counts it, without --program")

    def ask(every):
        return printed(options.program, words_of(options), options.FILE, every)

    try:
        found, rows, last = points_of(ask, options.every, options.skip)
    except Bad as cause:
        said = str(cause)
        raise Bad(bad_configuration(options) if said == "bad configuration" else
                  f"{options.FILE}: {said}" if said.startswith("line ") else said) from None
    return found.report["end"], rows, last, None


def by_player(options):
    """The same by a player, which has no rows; and who played."""
    if options.every or options.skip:
        raise Bad("--every and --skip need --program: a player counts the whole run")
    given = Given(options.FILE)
    refuse_cores(options, given.cores)
    command, made_by = player_of(options)
    counts = counted(command, given, options)
    return counts.end, {}, counts, made_by


def refuse_cores(options, cores):
    if not set(options.cores or ()) <= set(range(cores)):
        raise Bad(f"{options.FILE} has the cores 0 to {cores - 1}")


def main(words):
    options = words_of_line().parse_args(words)
    if options.columns and options.cores:
        raise Bad("--columns and --cores: columns have numbers of the whole run")
    end, rows, last, made_by = (by_program if options.program else by_player)(options)
    cores = sum(part.startswith("core") for part in last.parts)
    refuse_cores(options, cores)
    shown = {f"core {core}" for core in options.cores or range(cores)}

    def is_shown(part):
        return part in shown or part.startswith("bank")

    if options.columns:
        points = rows | {last.completed() + (options.skip or 0): last}
        lines = column_lines(points.items(), options.columns.split(","))
    else:
        lines = [f"end {end}"]
        for completed, counts in rows.items():
            lines += [f"row {completed}", *run_lines(counts, is_shown), ""]
        lines += run_lines(last, is_shown)
    print("\n".join(lines))
    if made_by:
        say_second("counts.py", made_by, options)
    return int(end != "all-done")


if __name__ == "__main__":
    tool(main)
