#!/usr/bin/env python3
"""Changes one place of the Python that users run, and asks the gate: tests/mutants.py [options] PROGRAM EVENTS SEATS.
tests/mutants.py --self-test tries the script itself, without programs.
tests/mutants.py --source [options] changes the proved code, and asks the prover: --source --help says more.
tests/mutants.py --binary [options] changes the compiled code, and asks the gate's scripts: --binary --help says more.

A mutant is a file of tools/, reference/ or python/ with one change: a comparison turned round or off by one, another
operator, `and` for `or`, no `not`, a number one more, a test always true or always false, a statement or the bound of a
slice left out, two arguments exchanged, None returned, a comprehension without its condition. The scripts that .ci/run
lists try it in a copy of what is committed: those that come by its lines (tests/covered.py says which, by Debian's
python3-coverage), first those that take little for each mutant that they refuse. It is refused where one fails. A
process of a mutant that takes ten seconds more than three times as long as the script without it is stopped, and so is
one that takes 16 GB. PROGRAM, EVENTS and SEATS are the built programs.

What was tried is kept in a file, so a run that was interrupted goes on. After another commit what survived is tried
again, and what was refused only where its own file changed. The survivors are printed, and those that no script comes
by, each with its place, and at the end how many were refused. A row of tests/mutants.table, `FILE | BEFORE => AFTER |
REASON`, says why one may survive. Which mutants are tried depends on the seed and on what is committed.
"""
import argparse
import ast
import copy
import os
import queue
import random
import re
import sys
import tempfile
from collections import Counter
from concurrent.futures import ThreadPoolExecutor
from hashlib import sha256
from pathlib import Path

TOP = Path(__file__).resolve().parent.parent
sys.path.insert(0, str(TOP))
from tests import binary_mutants, covered, source_mutants  # noqa: E402
from tests.covered import FOLDERS, PROGRAMS  # noqa: E402
from tests.rooms import Asking, Kept, calm, kept_file  # noqa: E402

TABLE = TOP / "tests/mutants.table"
OTHERS = {ast.Lt: ast.LtE, ast.LtE: ast.Lt, ast.Gt: ast.GtE, ast.GtE: ast.Gt, ast.Eq: ast.NotEq, ast.NotEq: ast.Eq,
          ast.In: ast.NotIn, ast.NotIn: ast.In, ast.Is: ast.IsNot, ast.IsNot: ast.Is, ast.And: ast.Or, ast.Or: ast.And,
          ast.Add: ast.Sub, ast.Sub: ast.Add, ast.Mult: ast.Add, ast.FloorDiv: ast.Mult, ast.Mod: ast.FloorDiv,
          ast.BitAnd: ast.BitOr, ast.BitOr: ast.BitAnd, ast.LShift: ast.RShift, ast.RShift: ast.LShift}
PLUMBING = re.compile(r"if __name__|sys\.path\.")
DROPPED = (ast.Assign, ast.AugAssign, ast.Raise, ast.Continue, ast.Break)


def altered(node, **fields):
    """A copy of the node with other fields."""
    made = copy.copy(node)
    for name, value in fields.items():
        setattr(made, name, value)
    return made


def of_operators(node):
    """Pairs of a part of the node and what may stand there: another operator or number, a test always true or false."""
    if isinstance(node, ast.Compare) and type(node.ops[0]) in OTHERS:
        yield node, altered(node, ops=[OTHERS[type(node.ops[0])](), *node.ops[1:]])
    if isinstance(node, (ast.BinOp, ast.BoolOp, ast.AugAssign)) and type(node.op) in OTHERS:
        yield node, altered(node, op=OTHERS[type(node.op)]())
    if isinstance(node, ast.UnaryOp) and isinstance(node.op, ast.Not):
        yield node, node.operand
    if isinstance(node, ast.Constant) and type(node.value) is int:
        yield node, ast.Constant(node.value + 1)
    if isinstance(node, (ast.If, ast.IfExp)):
        yield from ((node.test, ast.Constant(value)) for value in (True, False))


def of_parts(node):
    """Pairs of a part of the node and what may stand there: less, or two arguments exchanged."""
    if isinstance(node, DROPPED) or isinstance(node, ast.Expr) and isinstance(node.value, ast.Call):
        yield node, ast.Pass()
    if isinstance(node, ast.Return) and node.value is not None:
        yield node.value, ast.Constant(None)
    if isinstance(node, ast.Call) and len(node.args) > 1 and not any(isinstance(a, ast.Starred) for a in node.args[:2]):
        yield node, altered(node, args=[node.args[1], node.args[0], *node.args[2:]])
    if isinstance(node, ast.Slice):
        yield from ((node, altered(node, **{name: None})) for name in ("lower", "upper") if getattr(node, name))
    for number, part in enumerate(getattr(node, "generators", ())):
        if part.ifs:
            parts = [*node.generators[:number], altered(part, ifs=part.ifs[1:]), *node.generators[number + 1:]]
            yield node, altered(node, generators=parts)


def changes(node):
    """Each change of a tree, as such a pair. Python doesn't say where the parts of a formatted string stand, and no
    script asks where modules are looked for."""
    if isinstance(node, ast.JoinedStr) or isinstance(node, (ast.If, ast.Expr)) and PLUMBING.match(ast.unparse(node)):
        return
    yield from of_operators(node)
    yield from of_parts(node)
    for part in ast.iter_child_nodes(node):
        yield from changes(part)


def mutant(text, index):
    """The text with this change, its line, and what stood there and stands there; the text None where the change isn't
    one."""
    tree = ast.parse(text)
    place, made = list(changes(tree))[index]
    lines = text.encode().split(b"\n")
    ends = ((place.lineno, place.col_offset), (place.end_lineno, place.end_col_offset))
    first, last = (sum(len(line) + 1 for line in lines[:number - 1]) + column for number, column in ends)
    words = ast.unparse(ast.fix_missing_locations(made))
    if isinstance(made, ast.expr) and not isinstance(made, ast.Slice):
        words = f"({words})"
    whole = text.encode()
    changed = (whole[:first] + words.encode() + whole[last:]).decode()
    told = " ".join(f"{whole[first:last].decode()} => {words}".split())
    return (None if ast.dump(ast.parse(changed)) == ast.dump(tree) else changed), place.lineno, told


def excused(table):
    """What may survive, as (file, change), by the text of the table."""
    rows = [line.split(" | ", 1) for line in table.splitlines() if not line.startswith("#")]
    return {(file, rest.rpartition(" | ")[0]) for file, rest in rows}


class Tools(covered.Watched):
    """A room in which files of Python are changed."""

    def __init__(self, folder, options):
        super().__init__(folder, options)
        self.written = 0

    def sites(self):
        """What each mutant is kept by: its file, a sum of that file, and the index of its change."""
        for path in sorted(path for folder in FOLDERS for path in (self.folder / folder).rglob("*.py")):
            text, file = path.read_text(encoding="utf-8"), str(path.relative_to(self.folder))
            key = "mutant", file, sha256(text.encode()).hexdigest()
            yield from ((*key, index) for index, _ in enumerate(changes(ast.parse(text))))

    def refused_by(self, key, text, times, asking):
        """The first script that doesn't pass with this text of the mutant's file, and why; None if all do."""
        place = self.folder / key[1]
        before, was = place.read_text(encoding="utf-8"), place.stat().st_mtime
        place.write_text(text, encoding="utf-8")
        self.written += 1
        os.utime(place, (self.written, self.written))  # Python takes what it compiled before for a file of equal time
        try:
            return asking.first(key, times, lambda script: self.fails(
                f"ulimit -t {max(1, round(10 + 3 * times[script]))}; {covered.limits(script)} {script}",
                60 + 10 * times[script]))
        finally:
            place.write_text(before, encoding="utf-8")
            os.utime(place, (was, was))


def lines_of(tree, line):
    """The lines of the innermost statement at this line; of one with a body, those before it."""
    lines = line, line
    for part in ast.walk(tree):
        if isinstance(part, ast.stmt) and part.lineno <= line <= part.end_lineno:
            body = getattr(part, "body", None)
            last = body[0].lineno - 1 if body and body[0].lineno > part.lineno else part.end_lineno
            lines = part.lineno, max(part.lineno, last)
    return range(lines[0], lines[1] + 1)


def comes_by(reached, file, text, line):
    """The scripts that come by the statement at this line, with the seconds that each takes."""
    lines = lines_of(ast.parse(text), line)
    return {script: seconds for script, seconds, met in reached if not met.get(file, set()).isdisjoint(lines)}


def tried(room, key, reached, asking):
    """What became of a mutant, by the scripts that come by its statement."""
    before = (room.folder / key[1]).read_text(encoding="utf-8")
    text, line, _ = mutant(before, key[3])
    if text is None:
        return "the same"
    return room.refused_by(key, text, comes_by(reached, key[1], before, line), asking)


def works(room, wanted, asking, reached):
    """Tries mutants until none is left."""
    while True:
        try:
            key = wanted.get_nowait()
        except queue.Empty:
            return
        asking.kept.tell(key, tried(room, key, reached, asking))


def judged(room, drawn, kept, reached):
    """Prints the mutants that survived without a reason; how many did what."""
    rows, told = excused(TABLE.read_text(encoding="utf-8")), Counter()
    for key in drawn:
        said, file = kept.told[key], key[1]
        text = (room.folder / file).read_text(encoding="utf-8")
        _, line, change = mutant(text, key[3])
        kind = "the same" if said == "the same" else "refused" if said else "excused"
        if said is None and (file, change) not in rows:
            kind = "left" if comes_by(reached, file, text, line) else "missed"
            print(f"{'survives' if kind == 'left' else 'no script comes by'}: {file}:{line}: {change}")
        told[kind] += 1
        told["slow"] += kind == "refused" and said[1].endswith(" seconds")
    return told


# Of some texts all changes, by hand: what stands there instead.
BY_HAND = {
    "a < b": ["(a <= b)"], "a >= b": ["(a > b)"], "a == 1": ["(a != 1)", "a == (2)"], "a not in b": ["(a in b)"],
    "a is b": ["(a is not b)"], "a + b": ["(a - b)"], "a % b": ["(a // b)"], "a & b": ["(a | b)"], "f'{a + 1}'": [],
    "a and not b": ["(a or not b)", "a and (b)"], "b if a else c": ["b if (True) else c", "b if (False) else c"],
    "if a:\n    b = c": ["if (True):\n    b = c", "if (False):\n    b = c", "if a:\n    pass"], "raise a": ["pass"],
    "a += b": ["a -= b", "pass"], "f()": ["pass"], "f(a, b)": ["pass", "(f(b, a))"], "f(*a, b)": ["pass"],
    "\u00e9 = a[b:c]": ["pass", "\u00e9 = a[:c]", "\u00e9 = a[b:]"],
    "(a for b in c if d if e)": ["((a for b in c if e))"],
    "def f():\n    return a": ["def f():\n    return (None)"], "sys.path.insert(0, a)": [],
    "if __name__ == '__main__':\n    f()": [],
}


def self_test():
    """Faults of the script itself."""
    for text, wanted in BY_HAND.items():
        made = [mutant(text, index)[0] for index in range(len(list(changes(ast.parse(text)))))]
        if made != wanted:
            yield f"{text!r}: {made}"
    came = mutant("a = 1\nb = (c  <\n d)", 3)[1:]
    if came != (2, "c < d => (c <= d)"):
        yield f"what a change is called: {came}"
    if excused("# a\nb.py | c | d => (c & d) | e\n") != {("b.py", "c | d => (c & d)")}:
        yield "the table is read in another way"
    if covered.excused("# a\nb.py | c | d | e\n") != {("b.py", "c | d")}:
        yield "the table of branches is read in another way"
    yield from self_test_of_lines()
    with tempfile.TemporaryDirectory() as folder:
        yield from self_test_of_rooms(folder)
        yield from self_test_of_files(Path(folder, "kept"))
    yield from source_mutants.self_test()
    yield from binary_mutants.self_test()


# Of some lines of a text those of their statement, by hand.
STATEMENTS = ("a = (1,\n     2)\ndef f(b,\n      c):\n    if b:\n        return c\n"
              "    for d in (c,\n              b):\n        pass\n")
LINES = {1: [1, 2], 2: [1, 2], 3: [3, 4], 4: [3, 4], 5: [5], 6: [6], 7: [7, 8], 8: [7, 8], 9: [9]}


def self_test_of_lines():
    for line, wanted in LINES.items():
        came = list(lines_of(ast.parse(STATEMENTS), line))
        if came != wanted:
            yield f"the statement of line {line}: {came}"
    reached = [("a", 3, {"f.py": {1, 4}}), ("b", 1, {"f.py": {8}, "g.py": {5}}), ("c", 2, {"g.py": {7}})]
    if comes_by(reached, "f.py", STATEMENTS, 7) != {"b": 1} or comes_by(reached, "g.py", STATEMENTS, 8) != {"c": 2}:
        yield "who comes by a statement"


def self_test_of_rooms(folder):
    room = Tools(f"{folder}/room", argparse.Namespace(PROGRAM=__file__, EVENTS=__file__, SEATS=__file__))
    own, script = "reference/given.py", "tools/merge.py --self-test"
    calm(os.getpid(), nothing := Path(f"{folder}/nothing"))  # as where there are no such groups
    nothing.touch()
    calm(os.getpid(), nothing)  # as in the session in which Linux began
    copies = [room.own(f"/a/tools/b/{name}") for name in (own, "tools/order.py", "tests/covered.py", "tools/none.py")]
    if copies != [own, "tools/order.py", None, None]:
        yield f"copies of files: {copies}"
    before = (room.folder / own).read_text(encoding="utf-8")
    other = before.replace("def tool(main)", "def tool(niam)")  # as long
    time_of_file = "import os\nraise SystemExit(int(os.stat(__file__).st_mtime))"  # it is the fourth text
    for text, seconds, why in ((before, 100, None), (other, 100, "status 1"), (before, 100, None),
                               (time_of_file, 100, "status 4"), ("while True:\n    pass", -3, "status 137"),
                               ("import time\ntime.sleep(99)", -5.9, "1 seconds")):
        asking = Asking(Kept(Path(folder, f"kept {room.written}")))
        came = room.refused_by(("mutant", own), text, {script: seconds}, asking)
        if came != (why and [script, why]) or (room.folder / own).read_text(encoding="utf-8") != before:
            yield f"{own}, {text[:60]!r}: {came}"


def self_test_of_files(path):
    """A refused mutant of another commit is kept, a survivor of another isn't. A script that takes less and refuses
    more is asked first; what passed isn't asked again."""
    for tree, index, said in (("other", 0, None), ("other", 1, ["a", "status 1"]), (None, 2, None)):
        kept = Kept(path)
        kept.tree = tree or kept.tree
        kept.tell(("mutant", "a.py", "sum", index), said)
    if [key[3] for key in Kept(path).told] != [1, 2]:
        yield f"what is kept: {Kept(path).told}"
    asked, fails, asking = [], {("a", 3), ("b", 3), ("b", 4)}, Asking(Kept(path))
    came = [asking.first(("mutant", number), {"a": 2, "b": 2.4, "c": 9}, lambda script: asked.append((script, number))
                         or ((script, number) in fails and "status 1")) for number in (3, 4, 5, 5)]
    if came != [["a", "status 1"], ["b", "status 1"], None, None]:
        yield f"by what mutants are refused: {came}"
    if asked != [("a", 3), ("a", 4), ("b", 4), *((script, 5) for script in "bac")]:
        yield f"what is asked: {asked}"


def parsed():
    parser = argparse.ArgumentParser(description=__doc__, formatter_class=argparse.RawDescriptionHelpFormatter)
    for name in PROGRAMS:
        parser.add_argument(name)
    parser.add_argument("--sample", type=int, default=1000, metavar="N", help="how many mutants (1000)")
    parser.add_argument("--seed", type=int, default=1, metavar="N", help="what draws them (1)")
    parser.add_argument("--only", default="", metavar="FILE", help="only of files whose path has these letters")
    parser.add_argument("--by", default="", metavar="REGEX", help="only by scripts whose command has this (all)")
    parser.add_argument("--jobs", type=int, default=os.cpu_count(), metavar="N", help="how many at a time")
    parser.add_argument("--kept", type=Path, metavar="FILE",
                        help="what was tried (/tmp/tardis_mutants/tools-COMMIT-SEED.kept)")
    return parser.parse_args()


def main():
    if sys.argv[1:2] == ["--source"]:
        return source_mutants.main(sys.argv[2:])
    if sys.argv[1:2] == ["--binary"]:
        return binary_mutants.main(sys.argv[2:])
    if sys.argv[1:] == ["--self-test"]:
        wrong = list(self_test())
        print("\n".join([*wrong, f"{len(wrong)} wrong"]))
        return int(bool(wrong))
    options = covered.is_there() and parsed()
    kept, wanted = Kept(options.kept or kept_file("tools", options.seed)), queue.Queue()
    asking = Asking(kept)
    print(f"what is tried is kept in {kept.path}", file=sys.stderr)
    with tempfile.TemporaryDirectory() as folder:
        rooms = [Tools(f"{folder}/{number}", options) for number in range(options.jobs)]
        reached = [(script, seconds, {file: {abs(line) for ends in arcs for line in ends} for file, arcs in of.items()})
                   for script, seconds, of in covered.watched(rooms[0], rooms[0].asked(options.by), kept)]
        places = [key for key in rooms[0].sites() if options.only in key[1]]
        drawn = random.Random(options.seed).sample(places, min(options.sample, len(places)))
        for key in drawn:
            if key not in kept.told:
                wanted.put(key)
        with ThreadPoolExecutor(options.jobs) as pool:
            list(pool.map(lambda room: works(room, wanted, asking, reached), rooms))
        told = judged(rooms[0], drawn, kept, reached)
    print(f"{len(drawn) - told['the same']} mutants of {len(places)}, seed {options.seed}, by {len(reached)} scripts: "
          f"{told['refused']} refused, {told['slow']} of them by their time, {told['excused']} in tests/mutants.table, "
          f"{told['missed']} that no script comes by, {told['left']} survive")
    return int(told["left"] + told["missed"] > 0)


if __name__ == "__main__":
    sys.exit(main())
