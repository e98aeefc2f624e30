#!/usr/bin/env python3
"""Tries tools/cycles.py and tools/rings.py: tests/cycles.py [PROGRAM]

All critical cycles of at most 8 edges, and a sample of longer ones, become tests. Each must be forbidden by
reference/sequential.py, and unmet by seeds of the program. tools/rings.py, which sees the test alone, must find exactly
the ring that the test gives as its reason. Tests of known names must be as tests/herd has them, which were typed in by
hand, and the rings of the tests in examples/litmus must be the cycles that their names stand for. Without PROGRAM,
reference/oracle.py makes the runs. The last line is `N tried, M wrong`.
"""
import os
import sys
import tempfile
from pathlib import Path

sys.path.insert(0, str(Path(__file__).resolve().parent.parent))
from reference import sequential  # noqa: E402
from reference.litmus import Test  # noqa: E402
from tests.texts import TOP, Tester  # noqa: E402
from tools import cycles, rings  # noqa: E402


LONG = 11        # every so many of the cycles with 9 edges are tried
SEEDS = "40"
# How many critical cycles there are of each number of edges, counted by hand up to 6: by name these are the six of two
# threads; WRC, RWC, WWC, WRW+WR, WRR+2W, WRW+2W; and ISA2, W+RWC, Z6.0 to Z6.5, 3.SB, 3.LB, 3.2W, IRIW, IRRWIW, IRWIW.
COUNTS = {4: 6, 5: 6, 6: 14}
# Rings of tests that no name stands for, worked out by hand.
RINGS = {"CoRR": ["Rfe PosRR Fre"], "CoRW": ["Rfe PosRW Wse"], "CoWR": ["PosWR Fri"], "CoWW": ["PosWW Wsi"],
         "CoRR2": ["Rfe PosRR Fre", "Rfe PosRR Fre"], "SWAP": ["Fre Fre"],
         "SB+fence": ["PodWR Fre PodWR Fre"], "SB+fences": ["PodWR Fre PodWR Fre"],
         "SB+swaps": ["PodWR Fre PodWR Fre"], "SB+forall": ["PodWR Fre PodWR Fre"],
         "MP+swaps": ["PodWW Rfe PodRR Fre"],
         "MP+fences": ["PodWW Rfe PodRR Fre"],
         "2+2W+swaps": ["PodWR Fre PodWR Fre"], "LOCK+release": ["PodWW Rfe PodRR Fre"]}
# Names of the family that no test of examples/litmus or tests/herd has.
NAMED = {"WWC": "Rfe PodRW Rfe PodRW Wse", "WRW+WR": "Rfe PodRW Wse PodWR Fre", "WRR+2W": "Rfe PodRR Fre PodWW Wse",
         "IRRWIW": "Rfe PodRR Fre Rfe PodRW Wse", "IRWIW": "Rfe PodRW Wse Rfe PodRW Wse"}
SENTENCES = {
    "SB": "P0 stores x before it loads y; P0's load of y is before P1's store, which it misses; P1 stores y before it "
          "loads x; P1's load of x is before P0's store, which it misses: a ring, so no order has it.",
    "CoRR": "P0's store of x is before P1's first load, which sees it; P1's first load of x is before its second; "
            "P1's second load of x is before P0's store, which it misses: a ring, so no order has it.",
    "CoWR": "P0 stores x before it loads it; P0's load of x is before its store, which it misses: a ring, so no order "
            "has it.",
    "MP+swaps": "P0 stores x before it swaps y; P0's swap of y is before P1's swap, which sees it; P1 swaps y before it "
                "loads x; P1's load of x is before P0's store, which it misses: a ring, so no order has it."}
# Tests that no ring forbids, and why: the first order that ends as asked; P0:2 is thread 0's second instruction. In
# SB+yes P1 is done before P0 begins, in STALE before P0's store, in FORALL its load is before that.
# The rings of a test that asks for several ends, by how they begin, and the end of each, by hand: the reader finds one
# half of the stores between two loads of the same even number.
ENDED = {"P0's first swap of seq is before its store of y": "1:x7=0 1:x9=0 1:x11=0 1:x12=1",
         "P0's first swap of seq is before its store of x": "1:x7=0 1:x9=0 1:x11=1 1:x12=0",
         "P0's store of x is before its second swap of seq": "1:x7=2 1:x9=2 1:x11=0 1:x12=1",
         "P0's store of y is before its second swap of seq": "1:x7=2 1:x9=2 1:x11=1 1:x12=0"}
FORALL = """RISCV FORALL
{ 0:x5=1; 0:x6=x; 1:x6=x; }
P0 | P1 ;
sw x5,0(x6) | lw x7,0(x6) ;
forall (1:x7=1)
"""
# Each thread does the same to x several times: P0 stores 1 and 2, and P1's third load misses 1 behind a load of y that
# sees P0's only store there; P1's fourth load may see anything.
OFTEN = """RISCV OFTEN
{ 0:x5=1; 0:x6=x; 0:x7=2; 0:x8=y; 1:x6=x; 1:x8=y; }
P0 | P1 ;
sw x5,0(x6) | lw x9,0(x6) ;
sw x5,0(x8) | lw x10,0(x6) ;
sw x7,0(x6) | lw x11,0(x8) ;
 | lw x12,0(x6) ;
 | lw x13,0(x6) ;
exists (1:x11=1 /\\ 1:x12=0)
"""
OFTEN_SAID = ("P0's first store of x is before its store of y; P0's store of y is before P1's load, which sees it; "
              "P1's load of y is before its third load of x; P1's third load of x is before P0's first store, which it "
              "misses: a ring, so no order has it.")
UNRINGED = {"SB+yes": "an order ends so: P1:1 P1:2 P0:1 P0:2",
            "STALE": "an order ends so: P0:1 P1:1 P1:2 P1:3 P1:4 P0:2", "RENEW": "no values end otherwise",
            "FORALL": "an order ends otherwise: P1:1 P0:1"}
REFUSED = {"PodWR Fre PodWR": "PodWR leads to a load, and PodWR begins at a store",
           "PodWR Fre Wse PodWR": "Fre Wse says what Fre says", "PodWW PodWR Fre": "PodWW PodWR says what PodWR says",
           "Rfe Fre": "Rfe Fre says what Wse says", "PodWR Fre": "two Pod at least", "PodXR Fre": "PodXR is no edge",
           "Rfe PodRR Fre" + " PodWR Fre" * 5: "a cycle has 12 edges at most",
           "": "edges are wanted", "--all 3": "4 to 8 edges", "--all 9": "4 to 8 edges", "--all 5 SB": "edges are wanted",
           "--all 4 --into nowhere": "nowhere is no folder", "SB --into .": "--into needs --all",
           "--into . --why examples/litmus/SB.litmus": "--into needs --all",
           "--all 4 --into /proc": "/proc/LB.litmus: No such file or directory",
           "--why none.litmus": "none.litmus: No such file",
           "--why LICENSE": "LICENSE: line 1: 4 BadHeader", "--why examples/litmus/PRIVATE.litmus": "executions, and"}


def is_turn(edges, others):
    return edges in cycles.turns(tuple(others))


def of_cycle(tester, edges, program, file):
    """The test of a cycle: it is forbidden, and its reason is the ring of its executions."""
    cycle = cycles.Cycle(edges)
    text = "\n".join(cycle.test()) + "\n"
    test, name = Test(text), cycles.name_of(edges)
    tester.expect(test.name == name and f'"{" ".join(cycle.edges)}"' in text, f"{name}: {text}")
    tester.expect(sequential.answer(test, sequential.ends_of(test)) == "forbidden", f"{name} isn't forbidden: {text}")
    found = rings.rings_of(test) or []
    alike = len(found) == 1 and is_turn(tuple(rings.cycle_of(found[0]).split()), edges)
    steps = alike and set(rings.told(found[0]))
    why = text.split("\nwhy=")[1].split("\n")[0].removesuffix(": a ring, so no order has it.").split("; ")
    tester.expect(alike and steps == set(why) and len(why) == len(edges), f"{name}: rings {found} of {text}")
    file.write_text(text)
    status, out, error = program.run("litmus", "--schedule", "seed", "--runs", SEEDS, str(file))
    good = status == 0 and f"\nall-done {SEEDS}\n" in out and "\nheld 0\n" in out and "\nverdict no\n" in out
    tester.expect(good, f"{name}: {status} {out} {error}")


def families(tester, program, folder):
    listed = list(cycles.family(8))
    for count, wanted in COUNTS.items():
        named = [edges for edges in listed if len(edges) == count]
        tester.expect(len(named) == wanted and all(edges in cycles.NAMED for edges in named), f"{count} edges: {named}")
    longer = [edges for edges in cycles.family(9) if len(edges) == 9][::LONG]
    for edges in listed + longer:
        of_cycle(tester, edges, program, Path(folder, "cycle.litmus"))
    status, out, error = tester.run("--all", "6", "--into", folder)
    names = {path.stem for path in Path(folder).glob("*.litmus")} - {"cycle"}
    tester.expect((status, out, error) == (0, f"26 tests are in {folder}\n", "") and names == set(cycles.NAMES),
                  f"--all 6: {status} {out} {error} {names}")
    status, out, error = tester.run("--all", "4")
    is_good = status == 0 and out.count("\n") == 6 and "SB: PodWR Fre PodWR Fre\n" in out
    tester.expect(is_good, f"--all 4: {out} {error}")


def from_brace(text):
    """A test from its initial block on, as tools/cycles.py prints it."""
    lines = text[text.index("{"):].replace("[x]", "x").replace("[y]", "y").replace("[z]", "z").split("\n")
    return [line for line in lines if line]


def known(tester):
    """Tests of names, as they were typed in; rings of the catalogue."""
    for name in ("SB", "MP", "LB", "R", "S", "2+2W", "IRIW", "Z6.0", "Z6.3", "Z6.5"):
        typed = (TOP / f"tests/herd/{name}.litmus").read_text()
        edges = typed.split('"')[1]
        for words in ([name], edges.split()):
            status, out, error = tester.run(*words)
            good = (status, error) == (0, "") and from_brace(out) == from_brace(typed)
            tester.expect(good and f"RISCV {name}\n" in out, f"{name}: {status} {out} {error}")
    for name, edges in NAMED.items():
        came = cycles.name_of(tuple(edges.split()))
        tester.expect(came == name, f"{edges}: {came}, wanted {name}")
    for path in sorted((TOP / "examples/litmus").glob("*.litmus")):
        wanted = [cycles.NAMES[path.stem]] if path.stem in cycles.NAMES else RINGS.get(path.stem)
        if wanted:
            found = rings.rings_of(Test(path.read_text())) or []
            alike = [rings.cycle_of(ring) for ring in found]
            good = len(alike) == len(wanted) and all(is_turn(tuple(one.split()), two.split())
                                                     for one, two in zip(sorted(alike), wanted))
            tester.expect(good, f"{path.stem}: {alike}, wanted {wanted}")
        if path.stem in SENTENCES:
            tester.expect([rings.reason(ring) for ring in found] == [SENTENCES[path.stem]], f"{path.stem}: {found}")


def others(tester, scratch):
    for words, said in REFUSED.items():
        status, out, error = tester.run(*words.split())
        good = (status, out, error.count("\n")) == (2, "", 1) and said in error
        tester.expect(good, f"{words}: {status} {out} {error}")
    status, out, error = tester.run("--width", "d", "SB")
    tester.expect(status == 0 and "ld x7,0(x8) | ld x7,0(x8) ;" in out and "sw" not in out, f"--width d: {out} {error}")
    folder = TOP / "examples/litmus"
    status, out, error = tester.run("--why", str(folder / "SB.litmus"), str(folder / "SB+forall.litmus"))
    is_good = (status, error) == (0, "") and out.count("PodWR Fre PodWR Fre") == 2 and "ends: " not in out
    tester.expect(is_good, f"--why: {status} {out} {error}")
    Path(scratch, "OFTEN.litmus").write_text(OFTEN)
    said = tester.run("--why", f"{scratch}/OFTEN.litmus")
    tester.expect(said == (0, f"OFTEN: PodWW Rfe PodRR Fre\n  {OFTEN_SAID}\n", ""), f"--why OFTEN: {said}")
    lines = tester.run("--why", str(folder / "SEQLOCK.litmus"))[1].splitlines()
    ended = {line.strip().split(";")[0]: end.removeprefix("  ends: ") for line, end in zip(lines[1::3], lines[2::3])}
    tester.expect(ended == ENDED, f"--why SEQLOCK: {lines}")
    status, out, error = tester.run("--why", str(folder / "SB.litmus"), str(folder / "SB+yes.litmus"))
    is_good = (status, error) == (1, "") and "PodWR Fre PodWR Fre" in out and "SB+yes.litmus: no ring: an order" in out
    tester.expect(is_good, f"--why of two: {status} {out} {error}")
    Path(scratch, "FORALL.litmus").write_text(FORALL)
    for name, said in UNRINGED.items():
        path = f"{scratch if name == 'FORALL' else folder}/{name}.litmus"
        got = tester.run("--why", path)
        tester.expect(got == (1, f"{path}: no ring: {said}\n", ""), f"--why {name}: {got}")


def main(given):
    tester = Tester(str(TOP / "tools/cycles.py"))
    program = Tester(os.path.abspath(given[0]) if given else str(TOP / "reference/oracle.py"))
    os.chdir(TOP)
    with tempfile.TemporaryDirectory() as folder:
        families(tester, program, folder)
        others(tester, folder)
    known(tester)
    print(f"{tester.tried} tried, {tester.wrong} wrong")
    return int(tester.wrong > 0)


if __name__ == "__main__":
    if sys.argv[1:2] in (["-h"], ["--help"]) or len(sys.argv) > 2:
        sys.exit(print(__doc__))
    sys.exit(main(sys.argv[1:]))
