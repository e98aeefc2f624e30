#!/usr/bin/env python3
"""Explores all states that a short test or trace reaches on the second program's machine, breadth first.

    tools/explore.py [OPTIONS] TEST|TRACE ..

Every core may be issued its next step, attempt its operation, and be delivered each message in flight, in any order.
Copies and banks' entries are evicted where something waits for their place, or at any point (--evict any). A core's
own time may advance, too (--advances). The script prints how many states, events and ends there are, and looks for

- wrong values, and records out of program order;
- two owners of a line;
- a message or an operation for which the machine has no case;
- stuck states: there is work left, and no event changes anything;
- lost states: no events lead from there to an end.

Each is followed by a shortest list of events that leads there, as a text of docs/EVENTS.md that reference/play.py
runs; the last event is marked. `rows` says how many rows of docs/PROTOCOL.md's tables were met, and `never` which
weren't. `lines-never-run` are lines of reference/machine.py. To try a rule, change it in a copy of reference/ and
tools/ (docs/CHANGING-A-RULE.md). docs/EXPLORING.md says which states count as the same.

The status is 0 if all was explored and nothing is wrong, 1 if something is, 2 for a bad file or word, and 3 if states
are left that weren't looked at (--states), though nothing is wrong with the others.
"""
import pickle
import re
import shlex
import subprocess
import sys
from concurrent.futures import ProcessPoolExecutor
from concurrent.futures.process import BrokenProcessPool
from hashlib import sha256
from itertools import repeat
from pathlib import Path
from time import monotonic, process_time
from types import SimpleNamespace

sys.path.insert(0, str(Path(__file__).resolve().parent.parent))
from reference import machine  # noqa: E402
from reference.given import NUMBERS, Bad, Subject, Words, bad_configuration, contents, has_machine, tool  # noqa: E402
from tools.explored.ahead import ahead  # noqa: E402
from tools.explored.frozen import Elsewhere, Numbered, Unread  # noqa: E402
from tools.explored.parts import Full, Parts  # noqa: E402
from tools.explored.reports import Report  # noqa: E402
from tools.explored.search import Search  # noqa: E402
from tools.explored.whole import Whole  # noqa: E402

GOOD, WRONG, BAD_WORDS, LEFT = 0, 1, 2, 3
MOST_CORES = 8
MOST_DIFFERENCES = 10  # lines of a player that answers otherwise


def words():
    """The words of the command line."""
    parser = Words(__doc__)
    parser.add_argument("FILE", nargs="+", help="litmus tests and traces, each explored on its own")
    for name, (usual, says) in NUMBERS.items():
        if name not in ("seed", "limit"):
            parser.add_argument("--" + name, type=int, default=usual, metavar="N", help=f"{says} ({usual})")
    parser.add_argument("--private-write", action="store_true", help="an owner's further stores take no later time")
    parser.add_argument("--small", action="store_true", help="one set of one place in each cache and bank")
    parser.add_argument("--evict", choices=["demand", "any"], default="demand",
                        help="evictions where something waits for the place, or at any point (demand)")
    parser.add_argument("--advances", type=int, default=0, metavar="N",
                        help="how often each core's own time may advance, beside its program (0)")
    parser.add_argument("--states", type=int, default=1000000, metavar="N", help="the most states (1,000,000)")
    parser.add_argument("--first", action="store_true", help="stop at the first fault or stuck state")
    parser.add_argument("--whole", action="store_true", help="whole machines as states, without the reductions")
    parser.add_argument("--found", metavar="FILE", help="write the texts of what is wrong to FILE, too")
    parser.add_argument("--save", metavar="FILE", help="write the search to FILE, if states are left")
    parser.add_argument("--resume", metavar="FILE", help="go on with a search that was saved with the same words")
    parser.add_argument("--player", metavar="COMMAND",
                        help="play what is wrong on a player of events, such as crates/play_events/out/play_events; "
                        "and for one of each 1,000 states the way to it, and a random walk: with the same answers")
    parser.add_argument("--jobs", type=int, default=1, metavar="N",
                        help="how many processes explore the states of one FILE, or a FILE each (1)")
    parser.add_argument("--speed", action="store_true", help="say on standard error how fast it was")
    return parser


def given(of):
    """The options, as the machine's and how to explore. Raises Bad."""
    options = words().parse_args(of)
    if options.small:
        options.sets = options.ways = options.bank_sets = options.bank_ways = 1
    if options.advances < 0 or options.states < 1 or options.jobs < 1:
        raise Bad("--advances is 0 or more, --states and --jobs are 1 or more")
    if len(options.FILE) > 1 and (options.save or options.resume):
        raise Bad("--save and --resume go with one FILE")
    return options


def system_of(options, subject, keeps=()):
    """The states of a subject, as parts if its rules can be explored so."""
    of = SimpleNamespace(**vars(options))
    of.cores = subject.cores
    if not has_machine(options, subject.cores):
        raise Bad(bad_configuration(options))
    how = SimpleNamespace(evict=options.evict, advances=options.advances)
    return (Whole if "whole" in keeps else Parts)(machine, of, subject, how, keeps)


def explored(options, subject):
    """A search, whether all was explored, and what is said of how it was made."""
    keeps, said, search = ("whole",) if options.whole else (), [], None
    if options.resume:
        search, keeps, said = resumed(options, subject)
    while True:
        try:
            search = search or Search(system_of(options, subject, keeps))
            alone = options.jobs == 1 or len(options.FILE) > 1 or "whole" in keeps
            looked = repeat(None) if alone else ahead(search, options.jobs, options.states)
            return search, search.run(options.states, options.first, looked), keeps, said
        except Unread as of:
            name = str(of)
            keeps += ("last",) if name == "last" else ("fields",)
            said.append("note a core's time falls, so the states have more" if name == "last" else
                        f"note a rule reads {name}, which is left out where it can, so the states have all values")
        except Numbered as cause:
            raise Bad(f"{cause}, so that states aren't the same without it") from None
        except Elsewhere as cause:
            if "whole" in keeps:
                raise Bad(f"{cause}, and states have none of these") from None
            keeps += ("whole",)
            said.append(f"note {cause}, so whole machines were explored, which is slower")
        except Full as cause:
            raise Bad(str(cause)) from None
        except BrokenProcessPool:
            raise Bad("a process of the search was ended from outside") from None
        search = None


# Searches in files.
def mark(options, path):
    """What a saved search depends on."""
    named = {name: value for name, value in sorted(vars(options).items())
             if name not in ("FILE", "states", "first", "found", "save", "resume", "player", "jobs", "speed")}
    of = [repr(named).encode(), contents(path), Path(machine.__file__).read_bytes()]
    return sha256(b"\0".join(of)).hexdigest()


def save(options, *kept):
    """Writes a search, what it keeps of states, and what is said of it."""
    with written(options.save) as file:
        pickle.dump((mark(options, options.FILE[0]), *kept), file, protocol=5)


def written(path):
    try:
        return open(path, "wb")
    except OSError as error:
        raise Bad(f"{path}: {error.strerror}") from None


def resumed(options, subject):
    try:
        with open(options.resume, "rb") as file:
            marked, search, keeps, said = pickle.load(file)
    except OSError as error:
        raise Bad(f"{options.resume}: {error.strerror}") from None
    except (pickle.UnpicklingError, AttributeError, EOFError, ImportError, IndexError, TypeError, ValueError):
        raise Bad(f"{options.resume} has no search") from None
    if marked != mark(options, options.FILE[0]):
        raise Bad(f"{options.resume} is of other words, another file or another machine")
    search.system.attach(system_of(options, subject, keeps))
    return search, keeps, said


# One file.
def of_file(options, path):
    """The report of a file, its texts, what goes to standard error, and the status."""
    subject = Subject(path)
    if subject.cores > MOST_CORES:
        raise Bad(f"{path} has {subject.cores} cores, and {MOST_CORES} is the most")
    clock, of = (process_time, "of one processor") if options.jobs == 1 else (monotonic, f"by {options.jobs} processes")
    began = clock()
    search, is_all, keeps, said = explored(options, subject)
    took = clock() - began
    report = Report(search, is_all, Path(path).name)
    texts = report.texts()
    lines = [*report.lines(), *said]
    status = WRONG if not report.is_good else GOOD if is_all else LEFT
    if options.player:
        more, is_same, other = played(options.player, [*texts, *report.samples()])
        lines, texts = lines + more, texts + other
        status = status if is_same else WRONG
    if options.save and not is_all:
        save(options, search, keeps, said)
    speed = f"{path}: {len(search.states)} states in {took:.2f} s {of}, " \
        f"{len(search.states) / took:,.0f} a second\n"
    return lines, texts, speed, status


def played(command, texts):
    """Plays texts on a player of events: the lines on it, whether each answer is the same, and the shortest list of
    events after which one isn't, as a text."""
    text = "\n".join(line for lines in texts for line in lines) + "\n"
    try:
        ran = subprocess.run([*shlex.split(command), "-"], input=text, capture_output=True, text=True, check=False)
    except OSError as error:
        raise Bad(f"{command}: {error.strerror}") from None
    *differences, last = ran.stdout.splitlines() or ["nothing"]
    others = [others for said in differences for others in to_difference(texts, said)]
    told = [re.sub(r"^-:\d+: ", "differs: ", said) for said in differences[:MOST_DIFFERENCES]]
    return [*told, f"player {last.removeprefix('-: ')}"], ran.returncode == 0, sorted(others, key=len)[:1]


def to_difference(texts, said):
    """The events up to one that a player answers otherwise, as a text; nothing if the player said something else."""
    found = re.match(r"-:(\d+): wanted .*, came (.*)", said)
    left = int(found[1]) if found else 0
    for title, *lines in texts if found else ():
        if left <= len(lines) + 1:
            yield [title.replace("example", "example another answer, at"), *lines[:left - 2],
                   f"{lines[left - 2]}  # here: the player answers {found[2]}"]
            return
        left -= len(lines) + 1


def job(options, path):
    """As `of_file`; what is bad is its text."""
    try:
        return of_file(options, path)
    except Bad as cause:
        return str(cause)


def results(options):
    """The results of the files, in their order."""
    if options.jobs == 1 or len(options.FILE) == 1:
        yield from (of_file(options, path) for path in options.FILE)
        return
    with ProcessPoolExecutor(options.jobs) as pool:
        for done in pool.map(job, [options] * len(options.FILE), options.FILE):
            if isinstance(done, str):
                raise Bad(done)
            yield done


def main(of):
    options = given(of)
    worst, found = GOOD, []
    for number, (lines, texts, speed, status) in enumerate(results(options)):
        print("\n".join([""] * bool(number) + lines))
        for text in texts:
            print("\n" + "\n".join(text))
        found += texts
        worst = WRONG if WRONG in (worst, status) else max(worst, status)
        if options.speed:
            sys.stderr.write(speed)
    if options.found:
        with written(options.found) as file:
            file.write(("\n".join(line for text in found for line in text) + "\n").encode("ascii"))
    return worst


if __name__ == "__main__":
    tool(main)
