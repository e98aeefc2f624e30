#!/usr/bin/env python3
"""Tries tools/explore.py: tests/explore.py [--long] [PLAYER]

It must find each wrong rule of tests/explored_rules.py by a shortest list of events, which the replay on a whole
machine shows, too; and explore each right one to its end. Its reductions are compared with whole machines, transition
by transition. Counts of small searches were worked out by hand. PLAYER plays texts of events, by default
reference/play.py; the gate has the proved one play. --long compares more, in some minutes. The last line is
`N tried, M wrong`.
"""
import contextlib
import importlib.util
import io
import random
import re
import shutil
import subprocess
import sys
import tempfile
from itertools import repeat
from pathlib import Path
from types import SimpleNamespace

TOP = Path(__file__).resolve().parent.parent
sys.path.insert(0, str(TOP))
from reference.given import NUMBERS, Bad  # noqa: E402
from reference.schedules import Pcg32  # noqa: E402
from reference.traces import Trace  # noqa: E402
from tests.explored_rules import ANY, FAILING, FAILS, GATHERED, MISNAMED, NUMBERED, RIGHT, SB, STUCK  # noqa: E402
from tests.explored_rules import STORE_AND_LOAD, TWO_STORES, WIDE, WRONG  # noqa: E402
from tests.texts import ran as ended  # noqa: E402
from tools import explore  # noqa: E402
from tools.explored import ahead, parts  # noqa: E402
from tools.explored.frozen import Elsewhere, Numbered, Unread  # noqa: E402
from tools.explored.parts import MASK, Parts  # noqa: E402
from tools.explored.reports import Report  # noqa: E402
from tools.explored.rows import ROWS  # noqa: E402
from tools.explored.search import Search  # noqa: E402
from tools.explored.whole import Whole  # noqa: E402

EXPLORE, MACHINE = TOP / "tools/explore.py", TOP / "reference/machine.py"
MET = set()  # the rows of all searches
SMALL = {"sets": 1, "ways": 1, "bank_sets": 1, "bank_ways": 1}


def module_of(folder, changes):
    """The machine's module with these changes, and the lines that they made."""
    text = MACHINE.read_text(encoding="utf-8")
    lines = set()
    for old, new in changes:
        assert text.count(old) == 1, f"{old!r} stands {text.count(old)} times in machine.py"
        first = text[:text.index(old)].count("\n") + 1
        text = text.replace(old, new)
        was = old.split("\n")
        lines |= {first + at for at, line in enumerate(new.split("\n")) if line.strip() and line not in was}
    path = Path(folder, f"machine_{len(list(Path(folder).iterdir()))}.py")
    path.write_text(text, encoding="utf-8")
    spec = importlib.util.spec_from_file_location(path.stem, path)
    module = importlib.util.module_from_spec(spec)
    spec.loader.exec_module(module)
    return module, lines


def subject_of(text):
    trace = Trace(text.encode())
    return SimpleNamespace(test=None, trace=trace, kind="trace", memory={}, cores=trace.cores, names={0: "0x0"})


def system_of(module, text, given, keeps=(), kind=Parts):
    """The states of a trace on a machine of one place everywhere, or as given."""
    subject = subject_of(text)
    usual = {name.replace("-", "_"): number for name, (number, _) in NUMBERS.items()}
    of = usual | SMALL | {"private_write": False, "evict": "demand", "advances": 0, "cores": subject.cores} | given
    how = SimpleNamespace(evict=of["evict"], advances=of["advances"])
    return kind(module, SimpleNamespace(**of), subject, how, keeps)


def searched(module, text, given, keeps=(), is_first=False):
    """A search to its end, or to the first fault; and what it kept."""
    try:
        search = Search(system_of(module, text, given, keeps, Whole if "whole" in keeps else Parts))
        is_all = search.run(10 ** 6, is_first)
    except Unread as of:
        return searched(module, text, given, (*keeps, "last" if str(of) == "last" else "fields"), is_first)
    except Elsewhere:
        return searched(module, text, given, ("whole",), is_first)
    assert is_all or is_first
    MET.update(search.system.rows.seen)
    return search, keeps


def wrong_rule(folder, name, kind, most, text, given, changes):
    """Faults in how a wrong rule is found."""
    module, lines = module_of(folder, changes)
    search, _ = searched(module, text, given, is_first=True)
    report = Report(search, False, name)
    found = {report.kind(fault): len(search.path(at)) + 1 for fault, (at, _) in search.faults.items()}
    if search.stuck:
        found[STUCK] = len(search.path(search.stuck[0]))
    if found != {kind: most}:
        yield f"{name}: {found}, not {kind} after {most}"
        return
    texts = report.texts()
    yield from (f"{name}: line {line} didn't run" for line in lines & set(search.system.maker.lines.never(module)))
    marked = [line for of in texts for line in of if "# here: " in line or "has no case" in line]
    if len(texts) != 1 + bool(report.lost and kind != STUCK) and kind != STUCK or not marked:
        yield f"{name}: {texts}"
    events = [line for line in texts[0][2:] if not line.startswith(("check", "owners"))]
    if kind == FAILS and not marked[0].endswith(failure_of(module, *FAILING[name])):
        yield f"{name}: {marked}"
    at = next(number for number, line in enumerate(events, 1) if line in marked)
    if at != most or kind != STUCK and len(events) != most:
        yield f"{name}: event {at} is marked, of {len(events)}"


def failure_of(module, error, code):
    """What ends the text of a failure in this line of the machine."""
    text = Path(module.__file__).read_text(encoding="utf-8")
    return f"({error}, line {text[:text.index(code)].count(chr(10)) + 1} of {Path(module.__file__).name})"


def right_rule(folder, name, text, given, changes):
    module, lines = module_of(folder, changes)
    search, keeps = searched(module, text, given)
    report = Report(search, True, name)
    if not report.is_good or report.texts() or "whole" in keeps:
        yield f"{name}: {keeps} {list(report.lines())}"
    yield from (f"{name}: line {line} didn't run" for line in lines & set(search.system.maker.lines.never(module)))


def compared(module, text, given):
    """Faults in the reductions: each transition of each whole state must be one of the state that stands for it, and
    the other way round; and what is said of the states must be the same."""
    search, _ = searched(module, text, given)
    long, _ = searched(module, text, given, ("whole",))
    parts, whole = search.system, long.system
    stands = [whole.project(state, parts) for state in long.states]
    if set(stands) != set(search.states):
        yield f"{text!r} {given}: {len(set(stands))} states, not {len(search.states)}"
    for at, state in enumerate(long.states):
        wanted = {(after and whole.project(after, parts), kind_of(whole, fault))
                  for _, after, fault in whole.successors(state)} - {(stands[at], None)}
        came = {(after, kind_of(parts, fault)) for _, after, fault in parts.successors(stands[at])}
        if wanted != came:
            yield f"{text!r} {given}: state {at} goes to {came}, not {wanted}"
            return
        if whole.is_done(state) != parts.is_done(stands[at]) or whole.in_flight(state) != parts.in_flight(stands[at]):
            yield f"{text!r} {given}: state {at} isn't what it stands for"
    lost = {stands[at] for at in long.lost()}, {stands[at] for at in long.stuck}
    if lost != ({search.states[at] for at in search.lost()}, {search.states[at] for at in search.stuck}):
        yield f"{text!r} {given}: other lost or stuck states"
    if set(search.ends) != set(long.ends) or parts.rows.seen != whole.rows.seen:
        yield f"{text!r} {given}: other ends or rows"


def drawn(number):
    """A trace, a machine and a rule to compare, by a number."""
    draw = random.Random(number)
    lines, value, cores = ["trace 2"], 0, draw.choice([1, 2, 2, 2, 3])
    for core in range(cores):
        for _ in range(draw.randint(1, 3 if cores < 3 else 1)):
            letter, word = draw.choice("RRWWSA"), 8 * draw.choice([0, 0, 1])
            value += 1
            lines.append(f"{core} A" if letter == "A" else f"{core} {letter} {word:#x}" + f" {value}" * (letter != "R"))
    given = {"evict": draw.choice(["demand", "any"]), "advances": draw.choice([0, 0, 1]), "lease": draw.choice([1, 2]),
             "ways": draw.choice([1, 2]), "bank_ways": draw.choice([1, 1, 2]), "banks": draw.choice([1, 1, 2]),
             "line_words": draw.choice([1, 1, 8]), "messages": draw.choice([1, 2, 3, 4, 4096]),
             "private_write": draw.random() < 0.5}
    changes = draw.choice([[], [], *(rule[-1] for rule in WRONG)])
    return "\n".join(lines) + "\n", given, changes


def compared_if_small(module, text, given):
    """As `compared`, of what has few states as parts."""
    try:
        is_small = Search(system_of(module, text, given)).run(1500)
    except (Unread, Elsewhere):
        return
    if is_small:
        yield from compared(module, text, given)


def kind_of(system, fault):
    return system.faults.values[fault - 1] if fault else None


COMPARED = [
    (SB, {"evict": "demand"}, []), (TWO_STORES, {"evict": "any"}, []),
    ("0 W 0x0 1\n0 W 0x0 2\n", {"evict": "any", "messages": 2}, []),
    ("trace 2\n0 S 0x0 1\n0 A\n0 R 0x0\n1 R 0x0\n", {"advances": 1, "lease": 1, "ways": 2}, []),
    ("0 W 0x0 1\n0 W 0x0 2\n1 R 0x0\n", {"private_write": True, "messages": 3}, []),
    ("0 W 0x0 1\n1 W 0x8 1\n", {"messages": 2}, []),
    ("0 W 0x0 1\n1 S 0x8 2\n", {"line_words": 8}, []), ("0 W 0x0 1\n1 R 0x8\n", {"banks": 2, "evict": "any"}, []),
    ("0 R 0x0\n0 W 0x0 1\n", {"time": 2 ** 64 - 11}, []),
    (STORE_AND_LOAD, {}, RIGHT[-1][-1]), MISNAMED[3:],
    *((text, given, changes) for _, kind, most, text, given, changes in WRONG if most < 16)]
LONG = [(SB, {"evict": "any"}, []), *((text, given, changes) for _, _, _, text, given, changes in WRONG),
        *((text, given, changes) for _, text, given, changes in RIGHT)]


def counts(folder):
    """Faults in searches whose states can be counted by hand. One store on caches that have room goes through 9 states
    one after the other, two messages at most in flight: the request and what it waits for. Two on two banks go through
    each pair of them. If the core's time advances once, before the store or behind it, the first 8 states are twice
    there, and its end with time 1, and then 2 if it advances there. A second store to the line completes at once."""
    module, _ = module_of(folder, [])
    for text, given, wanted in [("0 W 0x0 1\n", {}, (9, 8, 8, 1, 2)),
                                ("0 W 0x0 1\n", {"advances": 1}, (19, 25, 9, 3, 2)),
                                ("0 W 0x0 1\n0 W 0x0 2\n", {}, (11, 10, 10, 1, 2)),
                                ("0 W 0x0 1\n1 W 0x8 2\n", {"banks": 2}, (81, 144, 16, 1, 4))]:
        search, _ = searched(module, text, given)
        came = len(search.states), search.made, search.depth, len(search.done), search.most
        if came != wanted:
            yield f"{text!r}: {came}, not {wanted}"
    yield from coverage(module)


# What two stores of one core to a line meet, and the answers that only one line gives.
STORES_MEET = {"write none: Requested", "ExRep: Delivered", "write Exclusive: Completed", "absent request: Started",
               "Loading request: Held", "Loading DramLdRep: Delivered", "Shared ExReq: ExRep", "DramLd: Delivered"}
STORES_ANSWER = {"Issued": True, "Completed": True, "Waiting": True, "Requested": True, "Idle": False, "NoRoom": False,
                 "Pinned": False, "Dropped": False, "Recalled": False, "Advanced": False}


def coverage(module):
    """Faults in what a search says it met, of rows and of lines."""
    system = searched(module, "0 W 0x0 1\n0 W 0x0 2\n", {})[0].system
    rows = {(section, words) for section, words, key in ROWS if key not in STORES_MEET}
    if set(system.rows.never()) != rows or system.rows.count() != len(ROWS) - len(rows):
        yield f"two stores don't meet {system.rows.never()}"
    never = system.maker.lines.never(module)
    lines = Path(module.__file__).read_text(encoding="utf-8").splitlines()
    for answer, is_met in STORES_ANSWER.items():
        at = [number for number, line in enumerate(lines, 1) if f'return "{answer}"' in line or
              f'Refusal("{answer}")' in line]
        if [number in never for number in at] != [not is_met]:
            yield f"two stores and lines {at}, of {answer}: {never} never ran"


def by_processes(folder):
    """Faults in searches by two processes, which must meet states in the same order as one does."""
    usual = ahead.LEAST, ahead.SHARE
    ahead.LEAST, ahead.SHARE = 70, 30  # so that small searches are shared out, too
    for text, given, changes, limits, is_first in [
            (SB, {}, [], [700, 10 ** 6], False), (TWO_STORES, ANY | {"messages": 2}, [], [10 ** 6], False),
            (SB, {}, WRONG[0][-1], [10 ** 6], True)]:
        module, _ = module_of(folder, changes)
        found = []
        for by in (lambda search, limit: repeat(None), lambda search, limit: ahead.ahead(search, 2, limit)):
            search = Search(system_of(module, text, given, ("fields",)))
            is_all = [search.run(limit, is_first, by(search, limit)) for limit in limits]
            report = Report(search, is_all[-1], "it")
            found.append([is_all, search.parents, search.events, search.afters, search.begins, search.levels,
                          [*report.lines()], report.texts()])
        if found[0] != found[1]:
            yield f"{text!r}, {limits}: two processes find {found[1]}, not {found[0]}"
    ahead.LEAST, ahead.SHARE = usual


def beside_what_is_proved(folder):
    """Faults of searches against docs/PROMISES.md: where two more messages may be in flight, at most 35 events
    complete any open operation. So in stuck and lost states there is one place at most."""
    module, _ = module_of(folder, [])
    for text, places in [(SB, 4), (TWO_STORES, 3), ("0 W 0x0 1\n0 W 0x0 2\n0 W 0x0 3\n", 3), (STORE_AND_LOAD, 4096)]:
        search, _ = searched(module, text, ANY | {"messages": places})
        system = search.system
        left = [places - system.in_flight(state) for state in search.states]
        if any(left[at] > 1 for at in [*search.lost(), *search.stuck]):
            yield f"{text!r}, {places} places: a state with two places is lost"
        for core in range(system.cores):
            steps = to_complete(search, core)
            most = max(steps.get(at, 99) for at, state in enumerate(search.states)
                       if left[at] > 1 and is_open(system, core, state))
            if most > 35:
                yield f"{text!r}, {places} places: {most} events complete an operation of core {core}"


def core_fields(system, core, state):
    value = system.tables[core].values[state >> system.at[core] & MASK]
    return dict(value[0][0])


def is_open(system, core, state):
    return core_fields(system, core, state)["op"] is not None


def to_complete(search, core):
    """By state, the fewest events that complete the core's open operation, without an issue or an advance."""
    system, before, steps = search.system, {}, {}
    done = [core_fields(system, core, state)["done"] for state in search.states]
    for at, state in enumerate(search.states):
        for event, after, _ in system.successors(state):
            after = search.seen[after]
            if done[after] > done[at]:
                steps[at] = 1
            elif system.events.values[event][0] not in ("Issue", "Advance"):
                before.setdefault(after, []).append(at)
    left = list(steps)
    for after in left:  # grows
        for at in before.get(after, ()):
            if at not in steps:
                steps[at] = steps[after] + 1
                left.append(at)
    return steps


def wide(folder, name, keeps, changes):
    """Faults in what a search keeps of a rule that looks further."""
    module, _ = module_of(folder, changes)
    text = "trace 2\n0 W 0x0 1\n0 R 0x8\n1 R 0x0\n1 A\n1 A\n1 R 0x0\n"
    _, kept = searched(module, text, {"lease": 1, "ways": 2, "bank_ways": 2})
    if kept != keeps:
        yield f"{name}: {kept} were kept, not {keeps}"


def numbered(folder, name, changes):
    """Faults in how a rule is refused that reads a number which states don't have."""
    module, _ = module_of(folder, changes)
    for keeps, kind in ((), Parts), (("whole",), Whole):
        try:
            Search(system_of(module, TWO_STORES, {}, keeps, kind)).run(10 ** 6)
            yield f"{name}: isn't refused by {kind.__name__}"
        except Elsewhere as cause:
            if kind is Whole and not isinstance(cause, Numbered):
                yield f"{name}: {cause}"


def gathered(folder):
    """Faults in states that have sets: they are as many as with sorted lists. Two cores ask in either order."""
    searches = [searched(module_of(folder, [change])[0], "0 R 0x0\n1 R 0x0\n", {}) for change in GATHERED]
    of_sets, of_lists = [(len(search.states), search.made, search.depth, [*search.faults], keeps)
                         for search, keeps in searches]
    if of_sets != of_lists or of_sets[3:] != ([], ()):
        yield f"sets in states: {of_sets}, and in lists {of_lists}"


def full(folder):
    """Faults in what is said where a state has no number for a value more. A core that stores is as it began, then with
    its operation, and then with its request out. In flight are none, the request, it with what it waits for, and the
    answer, which is the fifth bag and comes before the core has a fifth value."""
    trace, usual = Path(folder, "full.trace"), parts.MASK
    trace.write_text("0 W 0x0 1\n")
    system = searched(module_of(folder, [])[0], "0 W 0x0 1\n", {})[0].system
    tries = [(lambda: explore.main(["--small", str(trace)]), 1, "core 0"),
             (lambda: explore.main(["--small", str(trace)]), 3, "the bag of messages"),
             (lambda: explore.main(["--small", str(trace)]), 7, None),
             (lambda: system.with_record(0, 0), 0, "the history of words"), (lambda: system.with_record(0, 0), 1, None)]
    for ask, most, of in tries:
        parts.MASK = most
        try:
            with contextlib.redirect_stdout(io.StringIO()):
                ask()
            said = None
        except (Bad, parts.Full) as cause:
            said = str(cause)
        finally:
            parts.MASK = usual
        if said != (of and f"{of} has too many values"):
            yield f"numbers up to {most}: {said}, not of {of}"


def walks():
    """Faults in how far a walk goes where something can always happen: twice as far as the farthest state."""
    endless = SimpleNamespace(successors=lambda state: [("on", state + 1, 0), ("fails", None, 1)])
    report = SimpleNamespace(search=SimpleNamespace(states=[0], depth=5), system=endless)
    walk = list(Report.walk(report, Pcg32.of_seed(0)))
    if walk != ["on"] * 10:
        yield f"a walk that never ends goes on for {walk}"


# The command line.
def ran(*words, to=None):
    return ended([EXPLORE, *map(str, words)], text=True, cwd=TOP, input=to)


def command_line(folder, player):
    """Faults in words, files, statuses and texts."""
    test, stuck = TOP / "examples/litmus/SB.litmus", Path(folder, "stuck.trace")
    stuck.write_text("0 W 0x0 1\n0 W 0x0 2\n")
    found = Path(folder, "found.events")
    done = ran("--small", "--evict", "any", "--messages", 2, "--found", found, "--player", player, stuck)
    if done.returncode != 1 or "stuck 1, after 16 events\n" not in done.stdout or "\nplayer " not in done.stdout:
        yield f"stuck: {done}"
    played = subprocess.run([player, found], capture_output=True, text=True, check=False)
    if played.returncode or ": 2 examples" not in played.stdout:
        yield f"found: {played}"
    both = ran("--jobs", 2, test, stuck)
    if both.returncode or both.stdout.count("explored all") != 2 or "ends 3 of 3 in a seq" not in both.stdout:
        yield f"two files: {both}"
    good = Path(folder, "good.trace")
    good.write_text("0 W 0x0 1\n")
    if ran("--small", "--evict", "any", "--messages", 2, stuck, good).returncode != 1:
        yield "of two files the first is wrong, and the status is another"
    all_played = ran("--small", "--evict", "any", "--player", player, test)
    # 5,457 states: the ways to 6 of them, and as many walks.
    if all_played.returncode or not re.search(r"^player 12 examples, \d+ answers$", all_played.stdout, re.M):
        yield f"played: {all_played}"
    yield from said_beside(folder, good)
    yield from kept_in_files(folder, test)
    yield from another_player(folder)
    yield from refused(folder, test)


def said_beside(folder, good):
    """Faults in what is said of the end of time, of speed, and by a player that says something else. A load from time T
    on is leased to T + 10, and a store behind it takes T + 11."""
    late = Path(folder, "late.trace")
    late.write_text("0 R 0x0\n0 W 0x0 1\n")
    for time, done, says in (2 ** 64 - 12, 1, ""), (2 ** 64 - 11, 0, "exhausted: a time doesn't fit 64 bits\n"):
        told = ran("--small", "--time", time, late)
        lines = f"\ndone {done}\n", "\nlost 0\n", f"\nfaults 0\n{says}rows "
        if told.returncode or not all(one in told.stdout for one in lines):
            yield f"--time {time}: {told}"
    for jobs, by in (1, "of one processor"), (2, "by 2 processes"):
        told = ran("--small", "--speed", "--jobs", jobs, good)
        if not re.fullmatch(rf"{re.escape(str(good))}: 9 states in \d+\.\d\d s {by}, [\d,]+ a second\n", told.stderr):
            yield f"--speed by {jobs}: {told}"
    told = ran("--small", "--player", "sh -c 'echo Good; echo bye; exit 1'", good)
    if told.returncode != 1 or not re.search(r"lines-never-run .*\nGood\nplayer bye\n\Z", told.stdout):
        yield f"a player that says something else: {told}"


def another_player(folder):
    """Faults in what is said of a player whose stores take a time later by one. One store is at time 1, and each of the
    way and the walk to the only end has 11 answers, two of which show the time."""
    player, trace = Path(folder, "another.py"), Path(folder, "one.trace")
    name, _, _, changes = RIGHT[3]
    source = MACHINE.read_text(encoding="utf-8").replace(*changes[0])
    player.write_text(f"#!{sys.executable}\nimport sys\nsys.path.insert(0, {str(TOP)!r})\n"
                      f"from reference import machine\nexec({source!r}, vars(machine))\n"
                      "from reference import play\nsys.exit(play.main(sys.argv[1:]))\n", encoding="utf-8")
    player.chmod(0o755)
    trace.write_text("0 W 0x0 1\n")
    done = ran("--small", "--player", player, trace)
    wanted, came = "completed 0 0 W 0x0 1 1 0", "completed 0 0 W 0x0 1 2 0"
    events = ["issue 0 W 0x0 1", "attempt 0", "deliver m0", "deliver m1", "deliver m2", "deliver m0", "deliver m3"]
    _, _, text = done.stdout.partition("\n\nexample another answer, at state 8, after 8 events\n")
    opened, *calls, last = text.splitlines() or [""]
    said = f"\ndiffers: wanted {wanted}, came {came}\n", "\nplayer 2 examples, 22 answers, 4 wrong\n"
    if done.returncode != 1 or not all(one in done.stdout for one in said) or opened[:15] != "machine cores 1" or \
            [call.partition("  ")[0] for call in calls] != events or \
            last.split() != f"attempt 0 : {wanted} # here: the player answers {came}".split():
        yield f"{name}, as the player: {done}"


def kept_in_files(folder, test):
    """Faults in a search that is saved and gone on with."""
    kept = Path(folder, "kept")
    for words in (["--small"], ["--whole"]):
        once, cut = ran(*words, test), ran(*words, "--states", 300, "--save", kept, test)
        if cut.returncode != 3 or "explored all" in cut.stdout:
            yield f"cut: {cut}"
        if ran(*words, "--resume", kept, test).stdout != once.stdout:
            yield f"a search that was saved ends otherwise, with {words}"
    least = ran("--states", 1, test)  # the start alone, which isn't looked at
    if least.returncode != 3 or "\nstates 1\nexplored 0\n" not in least.stdout:
        yield f"one state: {least}"
    if ran("--resume", kept, test).returncode != 2:
        yield "a search goes on with other words"
    if ran("--whole", "--resume", kept, TOP / "examples/litmus/MP.litmus").returncode != 2:
        yield "a search goes on with another file"


def refused(folder, test):
    nothing, bad = Path(folder, "none.trace"), Path(folder, "bad.trace")
    bad.write_text("0 X 0x0\n")
    for words in ([nothing], [bad], [], ["--ways", 0, test], ["--states", 0, test], ["--evict", "all", test],
                  ["--resume", bad, test], ["--player", nothing, test], ["--save", nothing, test, test]):
        done = ran(*words)
        if (done.returncode, done.stdout) != (2, "") or done.stderr.count("\n") != 1:
            yield f"{words}: {done}"
    many = Path(folder, "many.trace")
    for cores, says in (8, ""), (9, f"explore.py: {many} has 9 cores, and 8 is the most\n"):
        many.write_text(f"{cores - 1} R 0x0\n")
        done = ran(many)
        if (done.returncode, bool(done.stdout), done.stderr) != (2 * bool(says), not says, says):
            yield f"{cores} cores: {done}"
    nowhere = Path(folder, "none", "kept")
    for words, says in ((["--jobs", 2, bad, test], f"{bad}: line 1: 5 BadOperation"),
                        (["--states", 1, "--save", nowhere, test], f"{nowhere}: No such file or directory"),
                        (["--resume", nowhere, test], f"{nowhere}: No such file or directory")):
        done = ran(*words)
        if (done.returncode, done.stdout, done.stderr) != (2, "", f"explore.py: {says}\n"):
            yield f"{words}: {done}"
    cut = subprocess.run(f"'{EXPLORE}' '{test}' | head -n 1", shell=True, capture_output=True, text=True, check=False)
    if cut.stderr or cut.stdout != "subject SB\n":
        yield f"a closed pipe: {cut}"


def copied(folder):
    """Faults in a changed copy, as docs/CHANGING-A-RULE.md makes one: in what it finds, which its own player plays;
    and in how it refuses a rule that reads how many messages were sent, or what a core was issued. Another machine's
    search isn't gone on with."""
    mine, trace = Path(folder, "mine"), Path(folder, "stores.trace")
    for name in ("reference", "tools"):
        shutil.copytree(TOP / name, mine / name, ignore=shutil.ignore_patterns("__pycache__"))
    trace.write_text(TWO_STORES)
    test = TOP / "examples/litmus/SB.litmus"
    ran("--small", "--states", 300, "--save", mine / "kept", test)
    name, _, most, _, _, changes = WRONG[0]
    for changes, status, says in [(changes, 1, f"fault two owners of line 0, after {most} events"),
                                  ([("        if core.out:\n", "        if core.out and self.sent > 500:\n")], 2, ""),
                                  ([("        if core.out:\n", "        if core.out and core.issued[-1]:\n")], 2, ""),
                                  ([("core.done + 1\n", "core.done + 1.0\n")], 2,
                                   "explore.py: a value of float, and states have none of these\n")]:
        text = MACHINE.read_text(encoding="utf-8")
        for old, new in changes:
            text = text.replace(old, new)
        (mine / "reference/machine.py").write_text(text, encoding="utf-8")
        done = ended([mine / "tools/explore.py", "--found", mine / "found", trace], text=True)
        if done.returncode != status or says not in done.stdout + done.stderr or \
                (status == 2) != (done.stderr.count("\n") == 1):
            yield f"{name}, in a copy: {done}"
        if status == 2:
            continue
        if ended([mine / "tools/explore.py", "--small", "--resume", mine / "kept", test]).returncode != 2:
            yield "a search goes on with another machine"
        played, page = (subprocess.run(words, capture_output=True, text=True, check=False) for words in (
            [mine / "reference/play.py", mine / "found"],
            [mine / "tools/page.py", mine / "found"]))
        if played.returncode or ": 1 examples" not in played.stdout:
            yield f"{name}, in a copy: {played}"
        if page.returncode or "(here: two owners of line 0)" not in page.stdout or page.stderr:
            yield f"{name}, as a page: {page.stderr}"


def main():
    is_long = "--long" in sys.argv
    wrong, named = [], [word for word in sys.argv[1:] if not word.startswith("-")]
    player = Path(named[0]).resolve() if named else TOP / "reference/play.py"
    with tempfile.TemporaryDirectory() as folder:
        tries = [*(wrong_rule(folder, *of) for of in [*WRONG, MISNAMED]), *(right_rule(folder, *of) for of in RIGHT),
                 *(wide(folder, *of) for of in WIDE), *(numbered(folder, *of) for of in NUMBERED),
                 counts(folder), gathered(folder), full(folder), walks(), by_processes(folder),
                 beside_what_is_proved(folder), command_line(folder, player), copied(folder),
                 *(compared(module_of(folder, changes)[0], text, given)
                   for text, given, changes in [*COMPARED, *(LONG if is_long else [])]),
                 *(compared_if_small(module_of(folder, changes)[0], text, given)
                   for text, given, changes in map(drawn, range(100 if is_long else 6)))]
        for faults in tries:
            wrong += faults
    wrong += [f"no search met a row: {section}: {words}" for section, words, key in ROWS if key not in MET]
    print("\n".join([*wrong, f"{len(tries)} tried, {len(wrong)} wrong"]))
    return int(bool(wrong))


if __name__ == "__main__":
    sys.exit(main())
