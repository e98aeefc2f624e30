"""Why a run didn't end, for tools/explain.py: its cores, lines and cause. The second program makes the run: by rounds
up to its end, or until nothing was done for so long that nothing will be.
"""
import io
from collections import Counter, deque
from contextlib import redirect_stderr
from copy import deepcopy
from itertools import takewhile

from reference import oracle
from reference.given import Bad, bad_configuration, has_machine
from reference.litmus_faults import LitmusFault
from reference.machine import Machine
from reference.reports import seed_of
from reference.schedules import Run, a_round, by_rounds, by_seed
from reference.streams import CORES, Begun
from reference.told import Teller, operation
from reference.traces import Fault, steps_in
from tools.explained_texts import explained_text
from tools.program import fail, text_of

# A run is taken to starve after so many rounds without anything done: fair rounds were seen to take sixteen at most.
LONG = 100
REQUESTS, RECALLS = ("ShReq", "ExReq"), ("FlushReq", "WbReq")


class NothingGoesOn(Exception):
    """Nothing was done for a long time."""


class NoSuchCore(Exception):
    """A line of a stream has a core that the machine hasn't."""

    def __init__(self, line):
        super().__init__(line)
        self.line = line


class Observed(Run):
    """A run that notes the turn in which each open operation was issued and that in which something was done last, and
    which lines banks evicted in the last turns."""

    def __init__(self, machine, programs):
        super().__init__(machine, programs)
        self.since, self.last, self.left = {}, 0, deque()

    def make(self, *event):
        answer = super().make(*event)
        if answer == "Issued":
            self.since[event[1]] = self.turns
        elif answer in ("Completed", "Advanced"):
            self.last = self.turns
        elif answer == "Evicted" and event[0] == "EvictBank":
            self.left.append((self.turns, event[2]))
        return answer

    def starved(self):
        """The cores whose operation is open for long."""
        return [core for core in range(len(self.programs)) if self.is_open(core)
                and self.turns - self.since[core] >= LONG]

    def drive_until_idle(self, limit, fair):
        """The end of a run by rounds. Raises NothingGoesOn."""
        def turn(run):
            while run.left and run.left[0][0] <= run.turns - LONG:
                run.left.popleft()
            if run.turns - run.last > LONG:
                raise NothingGoesOn
            a_round(run, fair)

        return self.drive(limit, turn, True)


def run_of(read, options, number):
    """The run of this number, and its end."""
    memory = read.memory if options.command == "litmus" else {}
    run = Observed(Machine(options, len(read.programs()), memory), read.programs())
    try:
        end = by_seed(run, options.limit, seed_of(options, number)) if options.schedule == "seed" else \
            run.drive_until_idle(options.limit, options.fair)
    except NothingGoesOn:
        end = "limit"
    del run.made[:-1]
    return run, end


def goes_on_fairly(run):
    """In how many fair rounds from here something is done; None if nothing is."""
    later = deepcopy(run)
    for rounds in range(1, LONG):
        end = by_rounds(later, run.turns + rounds, fair=True)
        if later.last > run.turns:
            return rounds
        if end != "limit":
            break
    return None


def not_served(run):
    """The cores that starve: their operation is open for long, and of those that wait for the same set none gets on in
    as many rounds more. Where one does, the others may only be behind it."""
    later, sets = deepcopy(run), Waiting(run)
    by_rounds(later, run.turns + LONG)
    waiting = {core: sets.set_of(run.machine.line_at(core)) for core in run.starved()}
    served = {at for core, at in waiting.items() if later.machine.cores[core].done > run.machine.cores[core].done}
    return [core for core, at in waiting.items() if at not in served]


class Waiting:
    """What the cores of a run wait for."""

    def __init__(self, run):
        self.run, self.machine, self.tell = run, run.machine, Teller(run.machine)

    def core(self, core):
        """A line on a core with an open operation."""
        of, line = self.machine.cores[core], self.machine.line_at(core)
        asked = [number for number, m in self.machine.flight.items() if m.kind in REQUESTS and m.core == core]
        where = f"its request is m{asked[0]}" if asked else "its reply is on the way" if of.out else \
            "no place is free for its request" if self.is_full() else "its next attempt is still to come"
        what, bank, since = self.tell.line(line), line % self.machine.o.banks, self.run.since[core]
        return f"  core {core} waits for line {what} of bank {bank} since turn {since} ({operation(of.op)}): {where}"

    def is_full(self):
        return len(self.machine.flight) >= self.machine.o.messages

    def all_open(self):
        return [self.core(core) for core in range(len(self.run.programs)) if self.run.is_open(core)]

    def set_of(self, line):
        """The bank and the set of a line."""
        return line % self.machine.o.banks, line // self.machine.o.banks % self.machine.o.bank_sets

    def places(self, line):
        """What is in the set of a bank's line."""
        entries = self.machine.bank_set(line)
        owned = {e.line: f" of core {e.owner}" for e in entries if e.state == "Exclusive"}
        said = ", ".join(f"{self.tell.line(e.line)} {e.state}{owned.get(e.line, '')}" for e in entries)
        bank, number = self.set_of(line)
        return f"Set {number} of bank {bank} has places for {self.machine.o.bank_ways} lines: {said or 'it is empty'}"

    def left(self, line):
        """How often the lines of this line's set left their bank."""
        count = Counter(other for _, other in self.run.left if self.set_of(other) == self.set_of(line))
        return [f"  {self.tell.line(other)} left it {times} times in the last {LONG} turns"
                for other, times in sorted(count.items())]


def starvation(run, cores):
    waiting, lines = Waiting(run), {}
    for core in cores:
        line = run.machine.line_at(core)
        lines.setdefault(waiting.set_of(line), line)
    yield "Cause: starvation. Requests take a place of a bank from each other; each is made, and lost, again and again."
    yield from map(waiting.core, cores)
    for line in lines.values():
        yield waiting.places(line)
        yield from waiting.left(line)
    rounds = goes_on_fairly(run)
    yield "Remedy: --fair" + (f"; by fair rounds from here, something is done in the next {rounds}." if rounds else ".")


def full_network(run):
    machine, waiting = run.machine, Waiting(run)
    kinds = Counter(m.kind for m in machine.flight.values())
    yield f"Cause: the network is too small. All {machine.o.messages} places (--messages) are taken, and each answer " \
          "needs one."
    yield "  in flight: " + ", ".join(f"{count} {kind}" for kind, count in sorted(kinds.items()))
    stale = [number for number, m in machine.flight.items() if m.kind in RECALLS and is_stale(machine, m)]
    if stale:
        yield f"  {len(stale)} of them recall a line that its owner has given back: m" + ", m".join(map(str, stale))
    yield from waiting.all_open()
    if machine.o.messages > len(machine.cores):
        yield "Remedy: more --messages, or another seed: recalls of this kind may fill any number of places " \
              "(docs/ENDING.md)."
    else:
        yield f"Remedy: --messages {len(machine.cores) + 1} or more, one above the number of cores."


def is_stale(machine, m):
    """Whether a recall comes to a core that isn't the owner."""
    copy, _ = machine.find(m.line, machine.cache_set(m.core, m.line))
    return not copy or copy.state != "Exclusive"


def too_few_turns(run, limit):
    last = f"the last in turn {run.last}" if run.last else "none yet"
    yield f"Cause: too few turns. The run was going on when its {limit} were used up ({last})."
    yield from Waiting(run).all_open()
    yield "Remedy: a greater --limit, up to 4294967295."


def told(run, end, options):
    """The lines on a run that didn't end all done."""
    machine = run.machine
    done, issued = len(machine.records), machine.issued
    yield f"end {end}: {done} operations of {issued} issued are completed after turn {run.turns}"
    if end == "exhausted":
        yield f"Cause: a sum of times doesn't fit 64 bits ({Teller(machine).event(run.made[-1][0])})."
    elif end == "stalled" or len(machine.flight) >= machine.o.messages and goes_on_fairly(run) is None:
        yield from full_network(run)
    elif options.schedule == "round" and not options.fair and not_served(run):
        yield from starvation(run, not_served(run))
    else:
        yield from too_few_turns(run, options.limit)


def refuse_others(words):
    """An option that the command hasn't is named, with the commands that have it; and one that is given twice. Behind
    a -- there is none."""
    (commands,) = (action.choices for action in oracle.words()._actions if isinstance(action.choices, dict))
    options = {name: set(command._option_string_actions) for name, command in commands.items()}
    given = [word.partition("=")[0] for word in takewhile("--".__ne__, words[1:]) if word.startswith("--")]
    for option in given:
        if words[0] in options and option not in options[words[0]]:
            having = " and ".join(name for name in options if option in options[name])
            fail(f"{option} is an option of {having}, and not of {words[0]}" if having
                 else f"no command has the option {option}")
        if given.count(option) > 1:
            fail(f"{option} is given more than once")


def options_of(words):
    """The options of a command line; or one line, on what it lacks or has too much of."""
    said = io.StringIO()
    try:
        with redirect_stderr(said):
            return oracle.words().parse_args(words)
    except SystemExit as ended:
        if not ended.code:
            raise
    fail(said.getvalue().strip().rpartition("error: ")[2])


def streamed(options, text):
    """A trace that is read as it runs. Its machine has as many cores as the option says, though the trace has fewer."""
    cores = options.cores or CORES
    for line, core, _ in steps_in(text, most=None):
        if core >= cores:
            raise NoSuchCore(line)
    return Begun(text, cores, has_words=False)


def subject_of(options, text):
    """The test or the trace of a command line, whose programs are as many as its machine has cores."""
    if options.command != "trace":
        return oracle.read_litmus(options.FILE)
    return streamed(options, text) if options.stream else oracle.read_trace(options.FILE)


def without_core(options, text, line):
    """The lines on a step of a core that the machine of a stream hasn't."""
    yield explained_text(options.FILE, text, f"line {line}: 4 BadCore", "trace")[0]
    yield f"  4 BadCore: the machine's greatest core is {options.cores - 1} (--cores {options.cores})"
    yield "  often meant: --cores is the greatest core of the trace plus 1."


def explained_run(words):
    """The lines that explain the first run of a command line that isn't all done, and whether there is one."""
    try:
        refuse_others(words)
        options = options_of(words)
        oracle.refuse(options)
        if getattr(options, "schedule", None) == "threads":
            fail("runs by threads can't be made again: docs/SCHEDULES.md (Threads) says what to try at their limit")
        text = text_of(options.FILE)
        if getattr(options, "stream", False) and not has_machine(options, options.cores or CORES):
            return bad_configuration(options).split("; "), True  # before anything of the text is read
        subject = subject_of(options, text)
    except NoSuchCore as at:
        return list(without_core(options, text, at.line)), True
    except (Fault, LitmusFault) as fault:
        return explained_text(options.FILE, text, str(fault), "trace" if options.command == "trace" else "test"), True
    except (Bad, oracle.Refused) as cause:
        fail(str(cause).split("\n", maxsplit=1)[0].removeprefix("error: ").removeprefix("tardis: "))
    if options.command == "ends":
        return [f"{options.FILE}: nothing is wrong with this text"], False
    if not has_machine(options, len(subject.programs())):
        return bad_configuration(options).split("; "), True
    for number in range(getattr(options, "runs", 1) if options.schedule == "seed" else 1):
        run, end = run_of(subject, options, number)
        if end != "all-done":
            which = [f"{options.FILE}, by seed {seed_of(options, number)}"] if options.schedule == "seed" else []
            return which + list(told(run, end, options)), True
    is_idle = options.schedule == "round" and any(word.partition("=")[0] == "--seed" for word in words)
    return [f"{options.FILE}: nothing is wrong, all is done",
            *["--seed means nothing by rounds: --schedule seed makes runs by it"] * is_idle], False
