#!/usr/bin/env python3
"""Lists all ends that litmus tests can have, each with the runs that meet it, or with an order that leads there.

    tools/ends.py [--seeds N] [--seed FIRST] [--threads N] [--command WORDS] [options of the program] TEST ..
    tools/ends.py --grade LIST TEST

`tardis ends` lists the ends; it is proved that no run has another. Without the program, reference/oracle.py lists them,
and nothing is proved: the first line says which. A star marks the ends in which the condition's expression holds. Of
each end it says whether the run by rounds meets it, which seed is the first of N (1,000, from 0 on) and how many of
them meet it, and whether runs by threads do (--threads N, 100; only the program makes them). The next line is the
command that makes the run again. Of an end that no seed meets there is an order that leads there, from the same list:
P0:2 is thread 0's second memory instruction. Runs that aren't all done have a dash. What can't be meant, such as a name
in the condition that no instruction changes, follows the first line.

--grade LIST compares the ends that a student listed, one a line, as 0:x7=1 x=2; - is standard input. Blank lines,
stars, parentheses, orders, # and what follows, and what else `tardis ends` and this script print are passed over. Each
line that is no end is named with the cause. An end that stands twice counts once, and its lines are named.

Exit status: 0 done, or the list is right; 1 an end of the list is missing or impossible; 2 bad words, a bad text, or
more states than --states N allows.
"""
import re
import shlex
import sys
from pathlib import Path

sys.path.insert(0, str(Path(__file__).resolve().parent.parent))
from reference import sequential  # noqa: E402
from reference.given import Bad, Words, contents, litmus_test, tool  # noqa: E402
from reference.litmus import NAME  # noqa: E402
from tools import litmus_hints, program, witness  # noqa: E402
from tools.program import Refused  # noqa: E402

# By threads: enough turns for a run on a busy machine (docs/TEXTS.md, Reports by threads), and so many workers.
THREADS = {"--limit": "10000000", "--workers": "4"}
# What a program says that knows no `ends`, or no orders.
OLDER = ("unrecognized subcommand", "unexpected argument '--orders'")
HEADS = ("model", "test", "threads", "states", "ends", "condition", "held", "observation")
# Lines of this script without an end: the first one, hints, runs that aren't all done.
BESIDE = re.compile(r"\S+: \d+ ends in |  but |- [a-z-]+: ")
# Where a list says whose it is.
HEAD = re.compile(r"test (\S+)$|(\S+): \d+ ends in ")
# What stands in a line: a value, a turn of an order, what separates them; nothing else can be read.
PART = re.compile(rf"(?P<name>{NAME})\s*=\s*(?P<value>\d{{1,20}})(?!\w)|P\d+:\d+(?!\w)|/\\|[\s*,;()]+"
                  r"|(?P<other>[^\s,;()]+)")


class Ends:
    """All ends of a test, and who lists them."""

    def __init__(self, path, states):
        self.path = f"./{path}" if path.startswith("-") else path
        self.text = contents(path)
        self.test, self.most = litmus_test(path, self.text), states
        self.by, lines = self.listed()
        self.marks, self.orders = {}, {}  # by end, in rising order
        for line in lines:
            if line[0] in " *":
                end, _, self.orders[end] = line[2:].partition("   ")
                self.marks[end] = line[0]
        self.states = next(line for line in lines if line.startswith("states ")).split()[1]

    def listed(self):
        """What lists them, and its lines."""
        try:
            told = program.run("ends", "--orders", "--states", self.most, self.path)
            return Path(program.program()).name, told.splitlines()
        except Refused as refused:
            if not any(word in str(refused) for word in OLDER):
                raise Bad(f"{self.path}: {refused}") from None
        try:  # the program is older than `ends --orders`
            return "oracle.py", sequential.report(self.test, self.most, has_orders=True).splitlines()
        except sequential.TooManyStates as many:
            raise Bad(f"{self.path}: {many}") from None

    def first_line(self):
        by = "reference/oracle.py, not proved" if self.by == "oracle.py" else "tardis ends, proved: no run has another"
        return f"{self.test.name}: {len(self.marks)} ends in {self.states} states (listed by {by})"

    def warnings(self):
        return [f"  but {one}" for one in litmus_hints.warnings(self.text.decode("ascii"))]


class Met:
    """Which runs meet which ends."""

    def __init__(self, ends, options):
        self.options, self.path, self.by = options, ends.path, {}  # by end what is said of it
        self.commands = {}                                        # by end the command of a run that meets it
        self.rounds()
        self.seeds()
        if options.threads and Path(program.program()).name != "oracle.py":
            self.threads(options.threads)

    def add(self, end, how, words=None):
        self.by.setdefault(end, []).append(how)
        if words:
            self.commands.setdefault(end, f"{self.options.command} {shlex.join(words)}")

    def rounds(self):
        words = [*witness.passed_on(self.options), self.path]
        for end in witness.report(self.path, words)[0]:
            self.add(end, "by rounds", words)

    def seeds(self):
        self.options.TEST, runs = self.path, self.options.seeds
        seeds = witness.Seeds(self.options)
        seeds.look_through(runs)
        of = f"{runs:,} from {seeds.first:,}" if seeds.first else f"{runs:,}"
        for end, (start, _) in seeds.found.items():
            share = f"{100 * seeds.counts[end] / runs:.3g} %"
            self.add(end, f"by seed {seeds.seed(start)} (first of {of}: {share})", seeds.command(start, 1))
        self.unmet, self.found = f"not met in {of} seeds", seeds.found

    def threads(self, runs):
        given = witness.passed_on(self.options)
        words = ["--schedule", "threads", "--runs", str(runs), *given]
        words += [word for pair in THREADS.items() if pair[0] not in given for word in pair]
        for end, count in witness.report(self.path, [*words, self.path])[0].items():
            self.add(end, f"by threads ({count} of {runs:,})")

    def lines(self, end, mark):
        unmet = [self.unmet] * (end not in self.found and mark != "-")
        yield f"{mark} {end}: {', '.join([*self.by.get(end, ['possible']), *unmet])}"
        if end in self.commands:
            yield f"    {self.commands[end]}"


def told(ends, met):
    """What can be, with what is met; and then runs that aren't all done."""
    for end, mark in ends.marks.items():
        yield from met.lines(end, mark)
        if end not in met.found:
            yield f"    order {ends.orders[end]}"
    for end in met.by:
        if end in witness.NO_STATES:
            yield from met.lines(end, "-")
        elif end not in ends.marks:
            raise Bad(f"{ends.path}: {end} is met and not listed: please report that")


def is_beside(line, whole):
    """Whether a line of a list says nothing of an end."""
    return not line or BESIDE.match(whole) or "=" not in line and line.split()[0] in HEADS


def student_ends(path, test):
    """By each end of a student's list, as the text has them, the numbers of its lines."""
    text = sys.stdin.buffer.read() if path == "-" else contents(path)
    is_own = False  # whether this script printed the line before: a command and an order may follow
    found, faults = {}, []
    for number, whole in enumerate(text.decode("utf-8-sig", "replace").splitlines(), 1):
        of = HEAD.match(whole)
        if of and (name := of[1] or of[2]) != test.name:
            faults.append(f"{path}: line {number}: the list is of {name}, and the test is {test.name}")
        if is_own and whole.startswith("    ") and not re.match(rf" +({NAME})\s*=", whole):
            continue
        line, colon, _ = whole.partition("#")[0].partition(": ")
        line, is_own = line.strip(), bool(colon)
        if is_beside(line, whole):
            continue
        parts = list(PART.finditer(line))
        if fault := fault_of(parts, test.seen):
            wanted = sequential.text_of((name, "N") for name in test.seen)
            faults.append(f"{path}: line {number}: {fault}: an end is {wanted}")
            continue
        values = {part["name"]: int(part["value"]) for part in parts if part["name"]}
        found.setdefault(tuple((name, values[name]) for name in test.seen), []).append(number)
    if faults:
        raise Bad("\nends.py: ".join(faults))
    return found


def fault_of(parts, names):
    """Why the parts of a line are no end, or None."""
    given = [part["name"] for part in parts if part["name"]]
    for part in parts:
        if part["other"]:
            return f"`{part['other']}` can't be read"
    for name in given:
        if name not in names:
            return f"the condition has no {name}"
        if given.count(name) > 1:
            return f"{name} stands twice"
    return next((f"{name} is missing" for name in names if name not in given), None)


def graded(ends, path):
    """The lines that grade a student's list, and whether it is right."""
    found = student_ends(path, ends.test)
    given = {sequential.text_of(end): found[end] for end in sorted(found)}
    right = [end for end in given if end in ends.marks]
    missing = [end for end in ends.marks if end not in given]
    wrong = [end for end in given if end not in ends.marks]
    lines = [f"{path}: {len(right)} right, {len(missing)} missing, {len(wrong)} impossible"]
    lines += [f"right       {end}" for end in right]
    lines += [f"missing     {end}   {ends.orders[end]}" for end in missing]
    lines += [f"impossible  {end}" for end in wrong]
    lines += [f"repeated    {end}   lines {', '.join(map(str, at))}" for end, at in given.items() if len(at) > 1]
    return lines, not missing and not wrong


def words():
    parser = Words(__doc__)
    witness.add_options(parser)
    parser.add_argument("--threads", type=program.number(0, witness.MOST), default=100, metavar="N",
                        help="how many runs by threads are made (100)")
    parser.add_argument("--states", type=program.number(1, sequential.GREATEST), default=sequential.MOST_STATES,
                        metavar="N", help=f"the most states that are kept at once ({sequential.MOST_STATES})")
    parser.add_argument("--grade", metavar="LIST", help="a student's list of ends, of one test")
    parser.add_argument("tests", metavar="TEST", nargs="+")
    return parser


def refuse_runs(parser, options):
    """A list is graded without a run."""
    for action in parser._actions:
        if action.dest not in ("help", "tests", "states", "grade") and getattr(options, action.dest) != action.default:
            raise Bad(f"--grade makes no runs: it takes no {action.option_strings[0]}")


def main(given):
    parser = words()
    options = parser.parse_args(given)
    if options.grade is not None and len(options.tests) != 1:
        raise Bad("--grade takes one test")
    if options.grade is not None:
        refuse_runs(parser, options)
    for path in options.tests:
        ends, is_right = Ends(path, options.states), True
        lines = [ends.first_line(), *ends.warnings()]
        if options.grade is None:
            lines += told(ends, Met(ends, options))
        else:
            found, is_right = graded(ends, options.grade)
            lines += found
        print("\n".join(lines), flush=True)
    return int(not is_right)


if __name__ == "__main__":
    tool(main)
