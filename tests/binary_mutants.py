"""Changes one place of the compiled programs at a time, and asks the gate: tests/mutants.py --binary [options]

What would the tests find, had nothing been proved? The program and both players are compiled from their sources without
a proof. Their modules get all mutants of a sample, each behind a switch (tests/module_text.py, tests/mutants.c), so one
build serves all. A mutant is one change in a function of the crates: another comparison or operator, two operands or
arguments exchanged, a number one more, a store or a call left out, a branch taken always or never. There are as many of
each kind as their number allows. One whose switch the optimizer finds without effect isn't one. A change of a function
that several programs share is in all of them.

The commands that .ci/run lists try it in a copy of what is committed, up to the first that fails: those alone that come
by its place, and first those that take little for each mutant that they notice. A command is stopped at the first
difference that it prints. Calls of programs that commands make are noted, and made alone with each mutant: a command
that depends on nothing else isn't asked if all of them answer as without it (tests/replays.py). Of a mutant that none
comes by this says so. A program that takes ten seconds of processor time more than twice as long as its command is
stopped, and its mutant counts as noticed.

What was tried is kept in a file, and what was built in a folder, so a run that was interrupted goes on. After another
commit what survived is tried again, and so is what survived a run by some commands (--by) alone. The survivors are
printed, and those that no command comes by, each with its function, and at the end how many were noticed, and by what
first. A row of tests/binary_mutants.table, `FUNCTION | LINE: BEFORE => AFTER | REASON`, says why one may survive, and
that one isn't tried.
"""
import argparse
import contextlib
import io
import itertools
import json
import mmap
import os
import queue
import random
import re
import shutil
import subprocess
import sys
import tempfile
from collections import Counter, defaultdict
from concurrent.futures import ThreadPoolExecutor
from hashlib import sha256
from pathlib import Path

TOP = Path(__file__).resolve().parent.parent
sys.path.insert(0, str(TOP))
from maintain import module as own_module  # noqa: E402
from tests import module_text, refusals, replays, streams, texts  # noqa: E402
from tests.rooms import CRATES, Asking, Kept, Room, kept_file  # noqa: E402

TABLE, SWITCHES = TOP / "tests/binary_mutants.table", TOP / "tests/mutants.c"
# Commands that ask no built program, count its instructions, or look at its code or at memory that a changed one has.
LEFT_OUT = re.compile(r"^(?!.*\$)|recursion|embed|maintain/recorded")
PARTS = {"tests/texts.py": texts.PARTS, "tests/streams.py": streams.PARTS,
         "tests/refusals.sh": (*refusals.PARTS, "by_bytes")}
# Commands whose calls are noted: they ask a program by words, files and standard input, and look at what it answers.
NOTED = re.compile(r"tests/(players|texts|words|outcomes|witness|explain|order|from_herd|cycles|advance|record|events"
                   r"|seats|counts|trace_counts|json_reports|compare|sweep|fair|ends|explore|page)\b|maintain/pages")
LIMITS = "ulimit -v 8000000; ulimit -f 8000000;"  # what a process takes of memory, and writes to a file
AT_ONCE = 1000  # mutants in a build; a greater sample has more
SECONDS = 10  # of processor time, besides twice what the command takes, after which a changed program is stopped
STATIC, GENERIC = re.compile(r"@static\.\d+"), re.compile(r"::<.*")
PRESENT = re.compile(r"@mutants_on, i64 (\d+)\)")
KINDS = (("exchanged", re.compile(r"(\S+ )?(\S+) (\S+) (\S+), (\S+) => (?:\S+ )?\2 \3 \5, \4$|=> \d: \S+, \d: ")),
         ("comparison", re.compile(r"icmp (\S+) (.*) => icmp (?!\1)\S+ \2$")),
         ("left out", re.compile(r".* =>$")), ("branch", re.compile(r"br|switch")),
         ("operator", re.compile(r"(\S+) (\S+ .*) => (?!\1)\S+ \2$")))


def kind_of(told):
    """What kind of change it is; calls and stores that are left out are two kinds."""
    for kind, form in KINDS:
        if (form.search if kind == "exchanged" else form.match)(told):
            return f"{told.split()[0]} left out" if kind == "left out" else kind
    return "number"


def functions(parts):
    return [part for part in parts if isinstance(part, module_text.Function)]


class Module:
    """A program's module, and the changes of its functions, by function, line and what they say."""

    def __init__(self, text, crates):
        def is_changed(name):
            return name.partition("::")[0] in crates and "Destruct" not in name

        self.parts, self.changes = module_text.cleaned(text, is_changed), {}
        for part in functions(self.parts):
            for index, change in module_text.changes(part):
                self.changes.setdefault((part.name, index, STATIC.sub("@static", change.told)), change)

    def written(self, numbers):
        """The text with these changes, by their numbers."""
        behind = defaultdict(list)
        for number, key in numbers.items():
            if key in self.changes:
                behind[key[0]].append((key[1], self.changes[key].made(number)))
        for part in self.parts:
            yield from part.written(behind[part.name]) if isinstance(part, module_text.Function) else (part,)
        for name in ("on", "met"):
            yield f"@mutants_{name} = external hidden global [{len(numbers) + 1} x i8]"


def drawn(keys, count, seed):
    """Changes of the modules by their numbers, as many of each kind, and at most one of an instruction."""
    kinds, seen, places, taken = defaultdict(list), set(), set(), []
    shuffled = sorted(keys)
    random.Random(seed).shuffle(shuffled)
    for name, index, told in shuffled:
        label = GENERIC.sub("", name), index, told
        if label not in seen:
            seen.add(label)
            kinds[kind_of(told)].append((name, index, told))
    for key in filter(None, itertools.chain(*itertools.zip_longest(*(kinds[kind] for kind in sorted(kinds))))):
        if key[:2] not in places and len(taken) < count:
            places.add(key[:2])
            taken.append(key)
    return dict(enumerate(taken, 1))


def modules_in(kit, folder):
    """The programs' modules, compiled from their sources where they don't lie in the folder."""
    listed = (TOP / "crates.txt").read_text(encoding="utf-8").splitlines()
    crates = {line.split(":")[0].split()[0] for line in listed if line and not line.startswith("#")}
    for crate in CRATES.values():
        text = folder / f"{crate}.ll"
        if not text.exists():
            own_module.tried(kit, crate, f"{text}.new")
            os.replace(f"{text}.new", text)
        yield crate, Module(text.read_text(encoding="utf-8"), crates)


def linked(kit, folder, crate, module, numbers):
    """Builds a program with these mutants where it isn't there; the numbers of those that have an effect."""
    text, best, made = (folder / f"{crate}.{end}" for end in ("changed.ll", "best.ll", "o"))
    if not (folder / crate).exists():
        text.write_text("\n".join(module.written(numbers)) + "\n", encoding="utf-8")
        own_module.compiled(kit, text, "-S", "-emit-llvm", "-o", best)
        own_module.compiled(kit, best, "-Xclang", "-disable-llvm-passes", "-c", "-o", made)
        own_module.linked(kit, folder / f"{crate}.new", made, folder / "mutants.o")
        os.replace(folder / f"{crate}.new", folder / crate)
    return {int(number) for number in PRESENT.findall(best.read_text(encoding="utf-8"))}


def built(folder, options):
    """Builds the programs with the mutants of a sample; the mutants by their numbers, those without effect left out."""
    kit = own_module.loaded()
    modules = dict(modules_in(kit, folder.parent))
    keys = set().union(*(module.changes for module in modules.values()))
    numbers = drawn({key for key in keys if options.only in key[0]}, room_for(options), options.seed)
    subprocess.run(["gcc", "-c", "-O2", "-fPIE", f"-DCOUNT={len(numbers) + 1}", SWITCHES, "-o",
                    folder / "mutants.o"], check=True)
    with ThreadPoolExecutor(len(modules)) as pool:
        present = set().union(*pool.map(lambda crate: linked(kit, folder, crate, modules[crate], numbers), modules))
    return {"of": len(keys), "mutants": {number: key for number, key in numbers.items() if number in present}}


def room_for(options):
    """How many mutants are built, so that enough of them have an effect."""
    return max(AT_ONCE, 2 * options.sample)


def sum_of(paths):
    return sha256(b"".join(path.read_bytes() for path in sorted(paths))).hexdigest()[:16]


def sample_of(options):
    """What was built, from the folder where it lies there: its name, the folder, the mutants, and of how many."""
    sources, changes = sum_of(TOP.glob("crates/*/src/**/*.rt")), sum_of([TOP / "tests/module_text.py", SWITCHES])
    name = f"{sources}/{changes}-{options.seed}-{room_for(options)}-{options.only}"
    folder = options.built / name
    folder.mkdir(parents=True, exist_ok=True)
    told = folder / "mutants.json"
    if not told.exists():
        told.write_text(json.dumps(built(folder, options)), encoding="utf-8")
    made = json.loads(told.read_text(encoding="utf-8"))
    mutants = {int(number): key for number, key in list(made["mutants"].items())[:options.sample]}
    return name, folder, mutants, made["of"]


class Changed(Room):
    """A room whose programs have the mutants, and a file that says which places were come by."""

    def __init__(self, folder, built_in):
        self.programs = {crate: built_in / crate for crate in CRATES.values()}
        super().__init__(folder, {name: built_in / crate for name, crate in CRATES.items()})
        size = (built_in / "mutants.o").stat().st_size + 4096
        self.met, self.texts, self.notes = Path(f"{folder}.met"), built_in / "texts", Path(f"{folder}.notes")
        for place in (self.texts, self.notes):
            place.mkdir(exist_ok=True)
        self.met.write_bytes(bytes(size))
        with self.met.open("r+b") as file:
            self.bytes = mmap.mmap(file.fileno(), size)

    def commands(self):
        """The gate's commands that ask a program; those that have parts, by their parts."""
        shell = (self.folder / "tests/check.sh").read_text(encoding="utf-8")
        shell = re.search(r"^parts=\$\{PARTS:-(.*?)\}", shell, re.M | re.S)[1].replace("\\", "").split()
        for line in self.scripts(LEFT_OUT):
            script = line.partition(" ")[0]
            if script == "tests/check.sh":
                yield from (f"PARTS={part} {line}" for part in shell)
            elif script in PARTS and len(line.split()) == 2:
                yield from (f"{line} {part}" for part in PARTS[script])
            elif script == "tests/refusals.sh":
                yield from (f"{script} {line.split()[1]} {part}" for part in line.split()[2:])
            else:
                yield line

    def surroundings(self, number, seconds):
        """What tells programs which mutant is on, and how many seconds of processor time they may take."""
        self.bytes[:] = bytes(len(self.bytes))
        return {"MUTANT": str(number), "MUTANT_MET": str(self.met), "MUTANT_SECONDS": str(round(seconds))}

    def come_by(self):
        return [at for at, byte in enumerate(self.bytes[:]) if byte and at]

    def told(self, command, seconds, most, number=0, **more):
        """Why the command fails with a mutant. Each of its programs may take these seconds of processor time, and all
        of it `most` by the clock where it is at rest."""
        surroundings = self.surroundings(number, seconds) | more
        why = self.fails(f"{LIMITS} {command}", most, lambda: self.bytes[0] & 1, **surroundings)
        return "its time" if self.bytes[0] & 1 else why

    def noted(self, command):
        """Why the command fails where its calls are noted, these, and whether it depends on nothing else."""
        limits = f"{sys.executable} -c 'from tests import replays; print(replays.limits(), end=str())' >limits"
        usual = self.fails(f"{LIMITS} {limits}", 60) or (self.folder / "limits").read_text(encoding="utf-8")
        why = self.told(command, 3600, 3600, MUTANT_NOTED=f"{self.notes}/", MUTANT_LIMITS=usual)
        calls, is_all = replays.taken(self.notes, self.texts)
        known = [call for call in calls if call[0] in self.programs]
        return why, known, is_all and known == calls and not self.bytes[0] & 2

    def answer(self, call, number=0, seconds=3600):
        """What a noted call answers with a mutant."""
        self.scratch.mkdir(exist_ok=True)
        return replays.answer(call, self.programs[call[0]], self.texts, self.scratch,
                              self.environment | self.surroundings(number, seconds))


def timed(room, wanted, kept):
    """Of each command what it takes of the processors without a change, what by the clock, which places it comes by,
    its calls, and whether it depends on these alone."""
    for key in iter(lambda: taken(wanted), None):
        began, why, calls, is_all = os.times().elapsed, "isn't noted", [], False
        if NOTED.search(key[3]):
            why, calls, is_all = room.noted(key[3])
        if why:
            began, calls, is_all = os.times().elapsed, [], False
            why = room.told(key[3], 3600, 3600)
        kept.tell(key, None if why else [room.took, os.times().elapsed - began, room.come_by(), calls, is_all])
        if why:
            print(f"left out: {key[3]}: {why} without a change", file=sys.stderr)


def answered(room, wanted, kept):
    """Of each call what it takes, its answer, and which places it comes by; nothing of one that answers in several
    ways."""
    for key in iter(lambda: taken(wanted), None):
        answers, took = set(), []
        for _ in range(2):
            began = os.times().elapsed
            answers.add(room.answer(json.loads(key[2])))
            took.append(os.times().elapsed - began)
        kept.tell(key, [min(took), *answers, room.come_by()] if len(answers) == 1 else None)


def taken(wanted):
    try:
        return wanted.get_nowait()
    except queue.Empty:
        return None


class Tried:
    """Asks commands for mutants, each that comes by, up to the first that notices. First their calls are made alone: a
    command isn't asked if it depends on nothing but calls, and these answer as without the mutant."""

    def __init__(self, asking, commands, answers):
        self.asking, self.commands, self.answers = asking, commands, answers
        self.makes, self.alone = defaultdict(set), {}  # a call's commands; calls of those without more
        for command, (*_, calls, is_all) in commands.items():
            rows = set(map(json.dumps, calls))
            for row in rows:
                self.makes[row].add(command)
            if is_all and rows and all(map(answers.get, rows)):
                self.alone[command] = rows
        self.rows = sorted((row for row in self.makes if answers[row]), key=lambda row: answers[row][0])

    def others(self, room, number):
        """The calls that answer otherwise with a mutant, as they come."""
        for row in self.rows:
            seconds, usual, met = self.answers[row]
            if number in met and room.answer(json.loads(row), number, SECONDS + 2 * seconds) != usual:
                yield row

    def tried(self, room, key):
        def fails(command):
            took, clock, *_ = self.commands[command]
            return room.told(command, SECONDS + 2 * took, 20 + 5 * clock, key[2])

        def noticed(some):
            return self.asking.first(key, {command: self.commands[command][0] for command in some}, fails)

        others = []
        for row in self.others(room, key[2]):
            others.append(row)
            if found := noticed(self.makes[row]):
                return found
        return noticed(command for command, (_, _, met, *_) in self.commands.items() if key[2] in met
                       and not (command in self.alone and self.alone[command].isdisjoint(others)))


def asked(rooms, name, mutants, kept, by="", rows=()):
    """Has the gate's commands, or those that match, try the mutants that no row excuses: what became of each, which
    ones any comes by, and how many commands there are."""
    keys = [("command", name, kept.tree, each) for each in rooms[0].commands() if re.search(by, each)]
    all_of(rooms, [key for key in keys if key not in kept.told], lambda room, new: timed(room, new, kept))
    commands = {key[3]: (*kept.told[key][:2], set(kept.told[key][2]), *kept.told[key][3:])
                for key in keys if kept.told[key]}
    calls = dict.fromkeys(("answer", name, json.dumps(row)) for *_, rows, _ in commands.values() for row in rows)
    all_of(rooms, [key for key in calls if key not in kept.told], lambda room, new: answered(room, new, kept))
    trying = Tried(Asking(kept), commands, {key[2]: kept.told[key] and (*kept.told[key][:2], set(kept.told[key][2]))
                                            for key in calls})
    survived = set()

    def try_some(room, some):
        for key in iter(lambda: taken(some), None):
            if (said := trying.tried(room, key)) or not by:
                kept.tell(key, said)
            else:
                survived.add(key)  # others may notice it

    wanted = [("mutant", name, number) for number in mutants if label(mutants[number]) not in rows]
    all_of(rooms, [key for key in wanted if key not in kept.told], try_some)
    met = set().union(*(met for _, _, met, *_ in commands.values()))
    told = {key[2]: None if key in survived else kept.told[key] for key in wanted}
    return {number: told.get(number) for number in mutants}, met, len(commands)


def all_of(rooms, keys, work):
    """Has the rooms do the work for these keys."""
    wanted = queue.Queue()
    for key in keys:
        wanted.put(key)
    with ThreadPoolExecutor(len(rooms)) as pool:
        list(pool.map(lambda room: work(room, wanted), rooms))


def excused(table):
    """What may survive, as (function, change), by the text of the table."""
    rows = [line.split(" | ") for line in table.splitlines() if line and not line.startswith("#")]
    return {(row[0], " | ".join(row[1:-1])) for row in rows}


def label(key):
    """A mutant's function, without the types that it stands for, and its line there with the change."""
    name, index, told = key
    return GENERIC.sub("", name), f"{index}: {told}"


def judged(mutants, told, met):
    """Prints the mutants that survived without a reason, and those that no command comes by; how many did what."""
    rows, counts, first = excused(TABLE.read_text(encoding="utf-8")), Counter(), Counter()
    for number, key in mutants.items():
        said, row = told[number], " | ".join(label(key))
        kind = "excused" if label(key) in rows else "left" if number in met else "missed"
        if said:
            kind = "noticed"
            first[said[0]] += 1
            counts["slow"] += said[1].endswith(("its time", " seconds"))
        elif kind != "excused":
            print(f"{'survives' if number in met else 'no command comes by'}: {row}")
        counts[kind] += 1
    for command, count in first.most_common():
        print(f"{count} noticed first by {command}")
    return counts


BY_HAND = {
    "  %r1 = icmp ult i64 %a0, 5": ["comparison", "exchanged", "number"],
    "  %r1 = icmp eq i8 %a0, 1": ["comparison", "number"],
    "  %r1 = sub i64 %a0, %a1": ["operator", "exchanged"],
    "  store i8 1, ptr %a0, align 1": ["store left out", "number"],
    "  call void @llvm.memmove.p0.p0.i64(ptr %a0, ptr %a1, i64 8, i1 false)": ["store left out"],
    '  %r1 = call i64 @"a::f"(i64 %a0, i64 3)': ["call left out", "exchanged", "number"],
    '  %r1 = call i64 @"core::a::f"(i64 %a0)': [],
    "  br i1 %a0, label %b.1, label %b.2": ["branch", "branch"],
    "  switch i8 %a0, label %c.1 [\n    i8 0, label %b.1\n    i8 4, label %b.2\n  ]": ["branch", "branch"],
    "  %r1 = mul i64 %a0, 24": [], "  %r1 = load i64, ptr %a0, align 8": [],
}
LARGE = """define internal void @"a::f"() #0 {{
start:
  call void @"a::g"()
  ret void
}}
define internal void @"a::h"() alwaysinline #0 {{
start:
  ret void
}}
define internal void @"a::g"() alwaysinline #0 {{
start:
{}  ret void
}}
""".format(2048 * "  store i8 0, ptr %a0\n")
FUNCTION = """@b = constant i8 1

define internal i64 @"a::f"(ptr noundef %a0) #0 {{
start:
{}
  ret i64 %r1
}}"""


def self_test():
    """Faults of the script itself: what is found in a text, what stands there, and how the table is read."""
    for line, wanted in BY_HAND.items():
        [function] = functions(module_text.cleaned(FUNCTION.format(line), bool))
        came = [kind_of(change.told) for _, change in module_text.changes(function)]
        if sorted(came) != sorted(wanted):
            yield f"{line}: {came}"
    [function] = functions(module_text.cleaned(FUNCTION.format("  %r1 = udiv i64 %a0, %a1"), bool))
    divided = [[line for line in change.made(7) if "udiv" in line] for _, change in module_text.changes(function)]
    if divided != [["  %m7.a = udiv i64 %a0, %a1"], ["  %r1 = udiv i64 %m7.a, %m7.b"]]:
        yield f"what is divided: {divided}"
    [function] = functions(module_text.cleaned(FUNCTION.format(
        "  %r1 = load i64, ptr %a0, align 8, !noundef !1\n  %r2 = and i64 %r1, 7\n  %r3 = icmp eq i64 %r2, 0\n"
        "  %r4 = zext i1 %r3 to i8\n  call void @\"rattle-llvm-checks::Alignment\"(i8 %r4)"), bool))
    if function.lines != ["start:", "  %r1 = load i64, ptr %a0, align 8", "  ret i64 %r1"]:
        yield f"what is cleaned: {function.lines}"
    keys = {("a::f::<1>", 1, "add i64 %r1, 1 => sub i64 %r1, 1"), ("a::f::<2>", 1, "add i64 %r1, 1 => sub i64 %r1, 1"),
            ("a::f::<1>", 1, "add i64 %r1, 1 => add i64 %r1, 2"), ("a::g", 4, "br i1 %r1, label %a, label %b => true")}
    if sorted(key[0][3] for key in drawn(keys, 9, 1).values()) not in (["f", "g"], ["f", "f", "g"]):
        yield f"what is drawn: {drawn(keys, 9, 1)}"
    said = io.StringIO()
    with tempfile.TemporaryDirectory() as folder, contextlib.redirect_stdout(said), contextlib.redirect_stderr(said):
        wrong = list(self_test_of_asking(Path(folder, "kept")))
        inlined = own_module.small_inlined(LARGE)
    yield from wrong
    if inlined != LARGE.replace('g"() alwaysinline', 'g"() inlinehint'):
        yield "a function that is too large is always inlined, or another one isn't"
    if "survives: a::f | 1: a => b\nno command comes by: a::f | 4: a => b\nsurvives: a::f | 5" not in said.getvalue():
        yield f"what is printed: {said.getvalue()}"
    with tempfile.TemporaryDirectory() as folder:
        yield from self_test_of_calls(Path(folder))
    if excused("# a\na::f | 3: c | d => e | why\n") != {("a::f", "3: c | d => e")}:
        yield "the table is read in another way"


class Pretended:
    """A room whose commands take given seconds, come by given places, notice given mutants, and make given calls; and
    whose calls come by given places, and answer otherwise with given mutants."""

    def __init__(self, told, calls):
        self.known, self.calls, self.asked, self.took, self.met = told, calls, [], 0, []

    def commands(self):
        return list(self.known)

    def come_by(self):
        return self.met

    def told(self, command, seconds, most, number=0):
        self.took, self.met, notices, _ = self.known[command]
        self.asked.append((command, number))
        return "status 1" if number in notices else None

    def noted(self, command):
        return self.told(command, 0, 0), [[call] for call in self.known[command][3]], True

    def answer(self, call, number=0, seconds=0):
        self.met, others = self.calls[call[0]]
        self.asked.append((call[0], number))
        return "other" if number in others else "usual"


def self_test_of_asking(path):
    """Commands are asked only for what they come by, and of what is noted only those that make a call with another
    answer; a mutant that was noticed, or passed them all, isn't asked for again, and a command that fails without a
    change isn't asked at all."""
    events = "tests/events.py"
    room = Pretended({"slow": (9, [1, 2, 3], [2, 3], []), "quick": (1, [1, 2], [2], []), "wrong": (0, [1, 4], [0], []),
                      events: (5, [1, 5, 6], [6], "xy")}, {"x": ([1, 5], [5]), "y": ([1, 6], [6])})
    mutants = {number: ("a::f", number, "a => b") for number in range(1, 7)}
    other = Pretended(room.known, room.calls)
    came, *_ = asked([other], "built", {2: mutants[2]}, Kept(path), rows={("a::f", "2: a => b")})
    if came != {2: None}:
        yield f"what becomes of a mutant that a row excuses: {came}"
    path.unlink()
    told = {1: None, 2: ["quick", "status 1"], 3: ["slow", "status 1"], 4: None, 5: None, 6: [events, "status 1"]}
    came = asked([room], "built", mutants, Kept(path), "quick")
    if came != ({number: told[number] if number == 2 else None for number in mutants}, {1, 2}, 1):
        yield f"what becomes of mutants by one command: {came}"
    for again in range(2):
        came = asked([room], "built", mutants, Kept(path))
        if came != (told, {1, 2, 3, 5, 6}, 3):
            yield f"what becomes of mutants: {came}"
    calls = [(call, 0) for call in "xxyy"]
    wanted = [("slow", 0), ("quick", 0), ("wrong", 0), (events, 0), *calls, ("x", 1), ("y", 1), ("quick", 1),
              ("slow", 1), ("quick", 2), ("slow", 3), ("x", 5), (events, 5), ("y", 6), (events, 6)]
    if sorted(room.asked) != sorted(wanted):
        yield f"what is asked: {room.asked}"
    counts = judged(mutants, told | {3: ["slow", "its time"]}, {1, 2, 3, 5, 6})
    if counts != Counter(noticed=3, slow=1, left=2, missed=1):
        yield f"what is counted: {counts}"


PROGRAM = "#include <stdio.h>\nint main(int count, char **words) { return putchar(getchar()) + count + **words; }\n"


def self_test_of_calls(folder):
    """A call is noted with its files and its input, and made again; one that writes to a device isn't, nor with other
    limits."""
    (folder / "main.c").write_text(PROGRAM, encoding="utf-8")
    subprocess.run(["gcc", "-O2", "-DCOUNT=2", folder / "main.c", SWITCHES, "-o", folder / "play"], check=True)
    for name in ("notes", "texts"):
        (folder / name).mkdir()
    (folder / "met").write_bytes(bytes(8192))
    (folder / "text").write_bytes(b"text")
    given = {"MUTANT": "0", "MUTANT_MET": f"{folder}/met", "MUTANT_NOTED": f"{folder}/notes/",
             "MUTANT_LIMITS": replays.limits()}
    words = [folder / "play", "a", folder / "text", f"--b={folder}/text", "--c"]
    for odd, more, out in ((0, {}, "/dev/null"), (2, {}, "/dev/full"), (2, {"MUTANT_LIMITS": ""}, "/dev/null")):
        with open(out, "wb") as file:
            came = subprocess.run(words, input=b"xy", stdout=file, env=given | more, check=False).returncode
        if (folder / "met").read_bytes()[0] != odd or out == "/dev/null" and came != (ord("x") + 5 + ord("/")) % 256:
            yield f"a call is odd: {odd}, {more}, {out}, {came}"
    text, on_input = (sha256(words).hexdigest()[:24] for words in (b"text", b"xy"))
    wanted = [("play", ["a", ["", text], ["--b=", text], "--c"], on_input)], True
    came = replays.taken(folder / "notes", folder / "texts")
    said = [replays.answer(call, folder / "play", folder / "texts", folder, {}) for call in came[0]]
    if came != wanted or said != [sha256(f"{(ord('x') + 5 + ord('/')) % 256} 1 x".encode()).hexdigest()[:16]]:
        yield f"calls: {came}, {said}"


def parsed(words):
    parser = argparse.ArgumentParser(prog="tests/mutants.py --binary", description=__doc__,
                                     formatter_class=argparse.RawDescriptionHelpFormatter)
    parser.add_argument("--sample", type=int, default=500, metavar="N", help="how many mutants (500)")
    parser.add_argument("--seed", type=int, default=1, metavar="N", help="what draws them (1)")
    parser.add_argument("--only", default="", metavar="NAME", help="only of functions whose path has these letters")
    parser.add_argument("--by", default="", metavar="REGEX", help="only by commands that match (all)")
    parser.add_argument("--jobs", type=int, default=os.cpu_count(), metavar="N", help="how many at a time")
    parser.add_argument("--kept", type=Path, metavar="FILE",
                        help="what was tried (/tmp/tardis_mutants/binary-COMMIT-SEED.kept)")
    parser.add_argument("--built", type=Path, default=Path(tempfile.gettempdir(), "tardis_mutants/built"),
                        metavar="FOLDER", help="what was built (/tmp/tardis_mutants/built)")
    return parser.parse_args(words)


def main(words):
    options = parsed(words)
    name, folder, mutants, of = sample_of(options)
    kept = Kept(options.kept or kept_file("binary", options.seed))
    print(f"what is tried is kept in {kept.path}", file=sys.stderr)
    with tempfile.TemporaryDirectory() as place:
        rooms = [Changed(f"{place}/{number}", folder) for number in range(options.jobs)]
        rows = excused(TABLE.read_text(encoding="utf-8"))
        told, met, count = asked(rooms, name, mutants, kept, options.by, rows)
    counts = judged(mutants, told, met)
    print(f"{len(mutants)} mutants of {of}, seed {options.seed}, by {count} commands: {counts['noticed']} noticed, "
          f"{counts['slow']} of them by their time, {counts['excused']} in tests/binary_mutants.table, "
          f"{counts['missed']} that no command comes by, {counts['left']} survive")
    return int(counts["left"] + counts["missed"] > 0)
