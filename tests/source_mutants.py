"""Changes one place of a proved body at a time, and asks the prover: tests/mutants.py --source [options]

A mutant is one body of crates/*/src with one change: a number or a byte one more or less, another comparison or
operator, a test always true or never, two neighbouring arguments or values of fields exchanged, a field or a variant
for its neighbour, Ok, Err, Some and None for each other, a call for its opposite, a statement left out, an early
return, a loop with a turn less. Contracts and definitions stay as they are. What doesn't compile isn't one. Nor is a
law's call left out: a law does nothing.

The prover is asked for the function, over the libraries that lie below (maintain/kit.py link TREE); if that is still
proved, for its callers in the crate. Further functions take nothing but its contract, which stays. With --scripts the
gate's scripts that read sources are asked for what survives. No script of a built program is asked: a survivor would
have to be built with all above.

What was tried is kept in a file, by the contents of the crate and of all below it, so a run that was interrupted goes
on. The survivors are printed, each with its place, and at the end how many were refused: with a goal left open, with a
proof file that names what the change took away, or at a limit of the prover. A row of tests/source_mutants.table,
`FILE | FUNCTION | BEFORE => AFTER | REASON`, says why one may survive. Which mutants are tried depends on the crates,
the seed and their texts alone.
"""
import argparse
import functools
import json
import os
import random
import re
import subprocess
import sys
import tempfile
import threading
from collections import Counter
from concurrent.futures import ThreadPoolExecutor
from pathlib import Path
from typing import NamedTuple

TOP = Path(__file__).resolve().parent.parent
sys.path.insert(0, str(TOP))
from maintain import kit as own_kit  # noqa: E402
from tests import bodies as own_bodies  # noqa: E402
from tests.refused import CALLS, Said  # noqa: E402

TABLE = TOP / "tests/source_mutants.table"
LEFT_OUT = re.compile(r"test_|bench|guide_uses")
ERROR = re.compile(r"^(?:\./)?(src/\S+\.rt):(\d+):\d+: error", re.M)
NAMES = re.compile(r"has no field|is not in scope|has no `|was not admitted")
SOURCE_SCRIPTS = ("maintain/memory.py --check", "maintain/literals.py --check")
AT_ONCE = 16  # mutants in a check


class Mutant(NamedTuple):
    """A change of a body in a crate's file. The symbol is what the prover calls the function."""
    crate: str
    file: str
    symbol: str
    place: own_bodies.Place

    def key(self):
        return [self.crate, self.file, *self.place]


class Tree:
    """The crates, as the kit sees them."""

    def __init__(self):
        self.kit = own_kit.loaded(CALLS) or sys.exit("mutants.py: this kit lacks calls that are taken")
        rtlib = self.kit["rtlib"]
        rtlib.Crate = self.kit["Crate"]
        rtlib.Crate.cuts_libraries, rtlib.Crate.allowed = True, self.kit["handles_of"](str(TOP))
        rtlib.guarded()
        self.rattle, self.seen = rtlib.RATTLE, {}
        self.tokens = functools.cache(lambda path: own_bodies.tokens(self.rattle, path.read_bytes()))

    def crate(self, name):
        return self.kit["Crate"](f"{TOP}/crates/{name}", str(TOP), self.seen)


def module_of(path):
    """The names of the modules that a file of src is."""
    names = path.with_suffix("").parts
    return names[:-1] if names[-1] in ("lib", "main", "mod") else names


class Proved:
    """A crate with its bodies, and what the prover says of changes."""

    def __init__(self, tree, name, room):
        self.tree, self.crate, self.room, self.lock = tree, tree.crate(name), Path(room, name), threading.Lock()
        self.name, self.stamp, self.symbols = name, self.crate.stamp(), None
        self.folder = Path(self.crate.folder)
        self.texts = {str(path.relative_to(self.folder)): path.read_bytes()
                      for path in sorted(self.folder.glob("src/**/*.rt"))}
        types = own_bodies.Types()
        for each in [*self.crate.below(), self.crate]:
            for path in sorted(Path(each.folder).glob("src/**/*.rt")):
                own_bodies.read(tree.tokens(path), (), types, [])
        self.mutants, self.words = [], {}
        for file, text in self.texts.items():
            module = module_of(Path(file).relative_to("src"))
            for body, places in own_bodies.places(tree.rattle, text, module, types):
                symbol = "::".join([name, *body.module, *filter(None, [body.owner + body.trait]), body.name])
                self.mutants += [Mutant(name, file, symbol, place) for place in places]
                self.words[symbol] = set(own_bodies.words_of(body.tokens))

    def changed(self, mutants):
        """The texts of the files with these changes."""
        texts = {}
        for mutant in sorted(mutants, key=lambda mutant: mutant.place, reverse=True):
            texts[mutant.file] = own_bodies.applied(texts.get(mutant.file, self.texts[mutant.file]), mutant.place)
        return {file: text.decode() for file, text in texts.items()}

    def asked(self, mutants, flags, keeps=None):
        """What the prover prints of the crate with these changes, and its status."""
        ran = self.tree.kit["checked"](self.crate, self.changed(mutants), ["--jobs", "1", *flags], keeps)
        return ran.stdout, ran.returncode

    def begin(self):
        """Takes the names that the prover knows functions by from the crate's library, which is proved as it is; or
        proves the crate, where none lies there. What is proved from then on is kept for the next checks."""
        with self.lock:
            if self.symbols is not None:
                return
            lacking = [low.name for low in self.crate.below() if not low.is_built()]
            if lacking:
                sys.exit(f"mutants.py: {self.name} depends on {lacking[0]}, which isn't built (maintain/kit.py link)")
            self.room.mkdir(parents=True, exist_ok=True)
            code = Path(self.crate.rlib, "toolchain/mir.json")
            if self.crate.is_built() and code.exists():
                self.symbols = set(re.findall(rf'"({self.name}::[^"]+)"', code.read_text(encoding="utf-8")))
                return
            said, status = self.asked([], [], str(self.room))
            if status:
                sys.exit(f"mutants.py: {self.name} isn't proved as it is:\n{said[-2000:]}")
            self.symbols = set(Said(said).functions)

    def symbol_of(self, mutant):
        """What the prover calls the function; None if that isn't plain."""
        return self.known(mutant.symbol)

    def known(self, symbol):
        """A function of a type is called by the type's module, where its impl may not stand. An impl of a trait has
        longer names."""
        if symbol in self.symbols:
            return symbol
        *above, owner, name = symbol.split("::")
        start = "::".join(above)
        found = [other for other in self.symbols if other.endswith(f"::{owner}::{name}")] or [
            other for other in self.symbols if other.startswith(f"{start}::{owner[:3]}")
            and other.endswith(f"::{name}") and other.count("::") == symbol.count("::")]
        return found[0] if len(found) == 1 else None

    def callers(self, mutants):
        """The functions whose bodies name one of the mutants' functions."""
        names = {mutant.symbol.rpartition("::")[2] for mutant in mutants}
        found = {self.known(symbol) for symbol, words in self.words.items() if words & names}
        return sorted(found - {None})

    def lines(self, mutant):
        """The range of lines of the mutant's body."""
        same = [other.place for other in self.mutants if other[:3] == mutant[:3]]
        text = self.texts[mutant.file]
        return (text[:min(place.first for place in same)].count(b"\n") + 1,
                text[:max(place.last for place in same)].count(b"\n") + 1)

    def compiled(self, mutants):
        """Those of the mutants, in different functions, that compile."""
        while mutants:
            said, _ = self.asked(mutants, ["--only", ""])
            if re.search(r"^only=", said, re.M):
                return mutants
            errors = [(file, int(line)) for file, line in ERROR.findall(said)]
            wrong = [mutant for mutant in mutants for file, line in errors
                     if file == mutant.file and self.lines(mutant)[0] <= line <= self.lines(mutant)[1]]
            if not wrong and len(mutants) > 1:
                half = len(mutants) // 2
                return self.compiled(self.compiled(mutants[:half]) + self.compiled(mutants[half:])[:0]) \
                    + self.compiled(mutants[half:])
            mutants = [mutant for mutant in mutants if wrong and mutant not in wrong]
        return []

    def judged(self, mutants):
        """What the prover says of each of some mutants in different functions: why it refuses it, `proved`, or None if
        it says only that a function that it calls isn't proved."""
        flags = [word for mutant in mutants for word in ("--only", self.symbol_of(mutant))]
        said, _ = self.asked(mutants, flags, str(self.room))
        if not re.search(r"^(only=|rattle: no verdict)", said, re.M):
            return {} if len(mutants) > 1 else {mutants[0]: "limit: the check broke off"}
        told, names = Said(said), [self.symbol_of(mutant) for mutant in mutants]
        return {mutant: self.verdict(told, name, names) for mutant, name in zip(mutants, names)}

    def verdict(self, told, name, names):
        """Why the check refuses a function: with which reason of its own; or that it is proved; or None."""
        if told.is_proved(name):
            return "proved"
        if not told.is_refused(name, names):
            return None
        own = "; ".join(reason for root in sorted(told.roots(name, set())) for reason in told.reasons(root)[0])
        path = "/".join(name.split("::")[1:])
        errors = re.findall(rf"^(?:note: )?\./proofs/{re.escape(path)}/.*?: (error.*)", told.text, re.M)
        if errors and all(NAMES.search(error) for error in errors) and "did not prove" not in own:
            return f"names: {errors[0][:160]}"
        return f"goal: {own or ''.join(errors[:1])}"[:200]

    def accepted(self, mutants):
        """Those of the mutants, in different functions, with which their callers are proved."""
        callers = self.callers(mutants)
        flags = [word for caller in callers for word in ("--only", caller)]
        said, _ = self.asked(mutants, flags, str(self.room)) if callers else ("", 0)
        if all(Said(said).is_proved(caller) for caller in callers):
            return mutants
        return [] if len(mutants) == 1 else [each for mutant in mutants for each in self.accepted([mutant])]

    def shown(self, mutant):
        """The mutant's line, its function, and what stood there and stands there."""
        text, place = self.texts[mutant.file], mutant.place
        before = " ".join(text[place.first:place.last].decode().split())
        return (text[:place.first].count(b"\n") + 1, mutant.symbol.partition("::")[2],
                f"{before} => {' '.join(place.made.split())}".strip())


def apart(mutants, most=AT_ONCE):
    """The mutants in groups of different functions, in their order."""
    left = list(mutants)
    while left:
        taken = {}
        for mutant in left:
            if len(taken) < most:
                taken.setdefault(mutant[:3], mutant)
        yield list(taken.values())
        left = [mutant for mutant in left if mutant not in taken.values()]


class Kept:
    """What was tried, in a file of a line each: the sum of the crate, the mutant, and what became of it."""

    def __init__(self, path):
        self.path, self.lock, self.told = path, threading.Lock(), {}
        for line in path.read_text(encoding="utf-8").splitlines() if path.exists() else ():
            stamp, key, said = json.loads(line)
            self.told[stamp, *key] = said

    def of(self, proved, mutant):
        return self.told.get((proved.stamp, *mutant.key()))

    def tell(self, proved, mutant, said):
        with self.lock, self.path.open("a", encoding="utf-8") as file:
            self.told[proved.stamp, *mutant.key()] = said
            file.write(json.dumps([proved.stamp, mutant.key(), said]) + "\n")


def drawn(proved, kept, mutants):
    """Notes which of a crate's mutants are source that compiles: `wanted`, or `no source`."""
    new = [mutant for mutant in mutants if kept.of(proved, mutant) is None]
    if new:
        proved.begin()
    for group in apart(new, 2 * AT_ONCE):
        known = [mutant for mutant in group if proved.symbol_of(mutant)]
        compiled = proved.compiled(known)
        for mutant in group:
            said = "wanted" if mutant in compiled else "no source" if mutant in known else "no name"
            kept.tell(proved, mutant, said)


def tried(proved, kept, mutants):
    """Asks the prover for a crate's mutants that weren't tried."""
    left, alone = [mutant for mutant in mutants if kept.of(proved, mutant) == "wanted"], []
    if left:
        proved.begin()
    for group in [*apart(left)]:
        told = proved.judged(group)
        alone += [mutant for mutant in group if told.get(mutant) is None]
        for mutant in group:
            if told.get(mutant):
                kept.tell(proved, mutant, told[mutant])
    for mutant in alone:
        kept.tell(proved, mutant, proved.judged([mutant])[mutant] or "limit: no verdict")
    accepted = [mutant for mutant in mutants if kept.of(proved, mutant) == "proved"]
    if accepted:
        proved.begin()
    for group in apart(accepted, len(accepted) or 1):
        survive = proved.accepted(group)
        for mutant in group:
            kept.tell(proved, mutant, "survives" if mutant in survive else "callers: one isn't proved")


def sampled(crates, kept, options):
    """The mutants of the sample, which compile: the first ones of a shuffled list of all."""
    places = [(proved, mutant) for proved in crates for mutant in proved.mutants]
    random.Random(options.seed).shuffle(places)
    most, at = min(options.sample, len(places)), 0
    with ThreadPoolExecutor(options.jobs) as pool:
        while True:
            good = [(proved, mutant) for proved, mutant in places[:at]
                    if kept.of(proved, mutant) not in ("no source", "no name")]
            if len(good) >= most or at == len(places):
                break
            now, at = places[at:at + most - len(good)], min(len(places), at + most - len(good))
            list(pool.map(lambda proved: drawn(proved, kept, [it for of, it in now if of is proved]), crates))
    return good[:most], Counter(kept.of(*it) for it in places[:at])


def refusing_script(proved, mutant, folder):
    """The first script that reads sources and refuses the mutant; None if none does."""
    place = Path(folder, "crates", mutant.crate, mutant.file)
    before = place.read_bytes()
    place.write_text(proved.changed([mutant])[mutant.file], encoding="utf-8")
    try:
        for script in SOURCE_SCRIPTS:
            ran = subprocess.run([sys.executable, *script.split()], cwd=folder, stdout=subprocess.DEVNULL,
                                 stderr=subprocess.DEVNULL, check=False)
            if ran.returncode:
                return script
    finally:
        place.write_bytes(before)
    return None


def excused(table):
    """What may survive, as (file, function, change), by the text of the table."""
    rows = [line.split(" | ") for line in table.splitlines() if line and not line.startswith("#")]
    return {(row[0], row[1], " | ".join(row[2:-1])) for row in rows}


def said_of(sample, kept, asks_scripts):
    """Prints the survivors without a reason; how many came to what."""
    told, rows = Counter(), excused(TABLE.read_text(encoding="utf-8") if TABLE.exists() else "")
    with tempfile.TemporaryDirectory() as folder:
        if asks_scripts:
            archive = subprocess.run(["git", "archive", "HEAD"], cwd=TOP, stdout=subprocess.PIPE, check=True).stdout
            subprocess.run(["tar", "-x", "-C", folder], input=archive, check=True)
        for proved, mutant in sample:
            kind = kept.of(proved, mutant).partition(":")[0]
            if kind == "survives":
                line, function, change = proved.shown(mutant)
                file = f"crates/{mutant.crate}/{mutant.file}"
                script = asks_scripts and refusing_script(proved, mutant, folder)
                kind = "scripts" if script else "excused" if (file, function, change) in rows else "left"
                reason = {"scripts": f"refused by {script}", "excused": "excused", "left": "survives"}[kind]
                print(f"{reason}: {file}:{line}: {function}: {change}")
            told[kind] += 1
    return told


def parsed(words):
    parser = argparse.ArgumentParser(prog="tests/mutants.py --source", description=__doc__,
                                     formatter_class=argparse.RawDescriptionHelpFormatter)
    parser.add_argument("--only", action="append", default=[], metavar="CRATE", help="of these crates (all)")
    parser.add_argument("--sample", type=int, default=2000, metavar="N", help="how many mutants (2000)")
    parser.add_argument("--seed", type=int, default=1, metavar="N", help="what draws them (1)")
    parser.add_argument("--scripts", action="store_true", help="ask the scripts that read sources for survivors")
    parser.add_argument("--jobs", type=int, default=max(1, (os.cpu_count() or 1) // 2), metavar="N",
                        help="how many crates at a time (half as many as processors)")
    parser.add_argument("--kept", type=Path, default=Path("source_mutants.kept"), metavar="FILE",
                        help="what was tried (source_mutants.kept)")
    return parser.parse_args(words)


def main(words):
    options, tree = parsed(words), Tree()
    listed = [line.split(":")[0].split()[0] for line in (TOP / "crates.txt").read_text(encoding="utf-8").splitlines()
              if line and not line.startswith("#")]
    names = [name for name in listed if (name in options.only if options.only else not LEFT_OUT.match(name))]
    kept = Kept(options.kept)
    with tempfile.TemporaryDirectory() as room:
        crates = [Proved(tree, name, room) for name in names]
        sample, counts = sampled(crates, kept, options)
        with ThreadPoolExecutor(options.jobs) as pool:
            list(pool.map(lambda proved: tried(proved, kept, [it for of, it in sample if of is proved]), crates))
        told = said_of(sample, kept, options.scripts)
    refused = sum(count for kind, count in told.items() if kind not in ("scripts", "excused", "left"))
    scripts = f"{told['scripts']} refused by scripts that read sources, " if options.scripts else ""
    print(f"{len(sample)} mutants of {len(names)} crates, seed {options.seed}: {refused} refused by the prover "
          f"({told['goal']} with a goal open, {told['names']} with a proof that names what was taken away, "
          f"{told['limit']} at a limit, {told['callers']} by a caller's clauses alone), {scripts}"
          f"{told['excused']} in tests/source_mutants.table, {told['left']} survive; "
          f"{counts['no source']} more don't compile, of {counts['no name']} the prover's name isn't known")
    return int(told["left"] > 0)


# Of some bodies all changes, by hand: what stands there, and what is to stand there. The types are those of HEAD.
HEAD = """//! 1 + 2
struct Pair { pub low: u64, high: u64, is_there: bool }
enum Way { In, Out, Far(u64) }
fn law() ensures { 1 ≡ 1 } {}
"""
BY_HAND = [
    ("u64", "a + 1", ["=> return 0;", "+ => -", "1 => 2", "1 => 0"]),
    ("u8", "b'a'", ["=> return 0;", "b'a' => b'`'"]),
    ("Pair", "a & 0x10u64 << b", ["& => |", "0x10u64 => 17u64", "0x10u64 => 15u64", "<< => >>"]),
    ("Vec<u64>", "f::<Vec<u64>>(a, b)", ["a, b => b, a"]),
    ("Pair", "Pair { low: a, high, is_there: !c }",
     ["low: a, high => low: high, high: a", "high, is_there: !c => high: !c, is_there: high", "! =>"]),
    ("Pair", "Pair { low: a,\n    high: a, is_there: b }", ["high: a, is_there: b => high: b, is_there: a"]),
    ("Way", "Way::In", ["In => Out"]), ("Way", "Way::Far(a)", []), ("Way", "a.low", ["low => high"]),
    ("Way", "a.low()", []), ("Way", "a.max(b)", ["max => min"]), ("Way", "self.is_there", []),
    ("bool", "true", ["=> return false;", "=> return true;", "true => false"]),
    ("Option<u64>", "Some(a)", ["=> return None;", "Some(a) => None"]),
    ("Result<(), AllocError>", "Ok(())", ["=> return Ok(());", "Ok(()) => Err(AllocError)"]),
    ("Result<u64, AllocError>", "Ok(a)", ["=> return Err(AllocError);", "Ok(a) => Err(AllocError)"]),
    ("Result<u64, Way>", "match a { Ok(b) => c, Err(d) => e }", ["Ok(b) => Err(d)", "Err(d) => Ok(b)"]),
    ("", "law(); let a = f(); g(a);", ["=> return;", "=> return;", "=> return;", "g(a); =>"]),
    ("", "let _a = f();", ["=> return;", "let _a = f(); =>"]),
    ("Way", "if a { b } else { c }", ["a => true", "a => false"]),
    ("Way", "if let Some(a) = b { c }", ["Some(a) => None"]),
    ("Way", "match a { b if c => d, }", ["c => true", "c => false"]),
    ("Way", "if a { b; } c", ["if a { b; } =>", "a => true", "a => false", "b; =>"]),
    ("Way", "while a { b } c", ["while a { b } =>", "a => false"]),
    ("Way", "for a in b..c { d }", ["c => (c).saturating_sub(1)"]),
    ("Way", "for a in b..=c { d }", ["..= => .."]), ("Way", "for a in b { c }", ["b => b.skip(1)"]),
    ("Way", "&a[b..]", ["b.. => ..b"]), ("Way", "&a[..b]", ["..b => b.."]), ("Way", "matches!(a, b)", []),
    ("Way", "// 1 + 1\na", []), ("Way", "a\n    .b(c,\n    d)", ["c, d => d, c"]),
]
OWN = """fn a::f: proved
fn a::g: no proof: it calls `a::h` and `a::k`, which are not proved
fn a::h: no proof: expected answers in ./proofs/h/Answers.antt; `search` did not prove `returns`
fn a::k: no proof: expected answers in ./k.antt; `search` did not prove `it`; it calls `a::h`, which is not proved
fn a::m: no proof: it passes `a::fn::m::all`, which is not proved
fn a::fn::m::all: not proved
fn a::n: no proof: it calls `a::g`, which is not proved
fn a::o: could not tell
"""


def self_test():
    """Faults of the script itself: of what is found in texts, and of how a check is read."""
    rattle = Tree().rattle
    for returns, body, wanted in BY_HAND:
        arrow = f"-> {returns}" if returns else ""
        text = f"{HEAD}fn f(a: u64) {arrow}\n    ensures {{ result ≡ 1 + a }}\n{{\n{body}\n}}\n".encode()
        types = own_bodies.Types()
        own_bodies.read(own_bodies.tokens(rattle, text), (), types, [])
        [(_, places)] = own_bodies.places(rattle, text, (), types)
        came = [f"{text[it.first:it.last].decode()} => {it.made}" for it in places]
        came = [" ".join(change.split()) for change in came]
        if sorted(came) != sorted(wanted):
            yield f"{body!r}: {came}"
        if any(own_bodies.applied(text, place).count(b"\n") != text.count(b"\n") for place in places):
            yield f"{body!r}: a change moves lines"
    text = b"impl<T: Ord> Way for Pair<T> {\nfn f() { a(); } }\nmod b { fn g() { c(); } }\n#[test]\nfn h() { d(); }\n"
    found = [(body.module, body.owner, body.trait, body.name)
             for body, _ in own_bodies.places(rattle, text, ("x",), own_bodies.Types())]
    if found != [(("x",), "Pair", "Way", "f"), (("x", "b"), "", "", "g")]:
        yield f"what functions are called: {found}"
    said, names = Said(OWN), ["a::f", "a::g", "a::h", "a::k", "a::m", "a::n", "a::o"]
    came = [name for name in names if said.is_refused(name, names)]
    if came != ["a::h", "a::k", "a::m"]:
        yield f"refused for themselves: {came}"
    if not said.is_refused("a::g", ["a::g", "a::h"]) or said.is_refused("a::n", ["a::n", "a::h", "a::k"]):
        yield "what rests on another change is taken for refused, or what doesn't isn't"
    proved = Proved.__new__(Proved)
    proved.symbols = {"a::b::Pair::f", "a::b::Way::g", "a::c::Way::g", "a::c::WayT::h"}
    names = ["a::b::Pair::f", "a::d::Pair::f", "a::c::Way::g", "a::d::Way::g", "a::c::WayOrd::h", "a::d::WayOrd::h"]
    if [proved.known(name) for name in names] != [names[0], names[0], names[2], None, "a::c::WayT::h", None]:
        yield "what the prover calls functions"
    if excused("# a\nb.rt | f | c | d => e | why\n") != {("b.rt", "f", "c | d => e")}:
        yield "the table is read in another way"
