#!/usr/bin/env python3
"""Tries tools/from_herd.py: tests/from_herd.py PROGRAM.

The tests of tests/herd were typed in as herd7's generator writes them. Each asks for the one end that the cycle of its
name forbids, so under sequential consistency it has every other end: loads receive 0 or 1, and locations end as 1 or
2. What the script turns single cells and conditions into, and which lines it refuses, was worked out by hand;
so were the obstacles of the tests of tests/herd_users, which are as users have them. The last line is `N tried, M
wrong`.
"""
import os
import sys
import tempfile
from itertools import product
from pathlib import Path

sys.path.insert(0, str(Path(__file__).resolve().parent.parent))
from reference import sequential  # noqa: E402
from reference.litmus import Test  # noqa: E402
from tests.texts import TOP, Tester  # noqa: E402


# Names of conditions that have one value in all ends: loads of what their own threads stored.
FIXED = {"SB+rfi-addrs": ("0:x7", "1:x7")}
FILTERED = "R+fence.w.w+fence.tso"
OPENING = "RISCV T\n{ 0:x5=1; 0:x6=x; 0:x8=y; 1:x6=x; }\n P0 | P1 ;\n"
LOAD, STORE = "lw x7,0(x6)", "sw x5,0(x6)"
# A cell, or two of which the second is looked at, and what it becomes.
CELLS = [("lwu x7,0(x6)", LOAD), ("lw.aq.rl t2 , ( x6 )", LOAD), ("sw.rl x5,0(t1)", STORE),
         ("amoor.w.aq x7,zero,(x6)", LOAD), ("amoadd.w x7,x0,(x6)", LOAD), ("amoxor.w x7,x0,0(x6)", LOAD),
         ("amoswap.w.aq.rl x7,x5,(x6)", "amoswap.w.aq x7,x5,(x6)"),
         ("amoswap.w.rl a0,x5,(x6)", "amoswap.w.rl x10,x5,(x6)"),
         ("fence", "fence rw,rw"), ("fence.tso", "fence rw,rw"),
         ("fence iorw,ow", "fence rw,w"), ("fence i,o", None), ("fence.i", None), ("nop", None),
         ("(* nothing *)", None), ("li x7,0x10", "li x7,16"), ("li x7,010", "li x7,10"),
         ("ori x7,x0,2", "ori x7,x0,2"), ("ori x7,x0,2047", "ori x7,x0,2047"), ("ori x7,x0,2048", "li x7,2048"),
         ("ori x7,x5,2", "li x7,3"), ("mv x7,x5", "li x7,1"),
         ("addi x7,x5,5", "li x7,6"), ("xori x7,x5,3", "li x7,2"), ("andi x7,x5,3", "li x7,1"),
         ("li x9,3|sub x7,x9,x5", "li x7,2"), ("lwu x7,0(x6)|mv x9,x5", "li x9,1"), ("xor x7,x5,x5", "li x7,0"),
         ("lw x7,0(x6)|xor x9,x7,t2", "li x9,0"), ("lw x7,0(x6)|sub x9,t2,x7", "li x9,0"),
         ("andi x7,x5,0", "li x7,0"), ("lw x0,0(x6)|add x7,x0,x5", "li x7,1"), ("add x7,x6,x0", None),
         ("bne x5,x0,L0", None), ("blt x0,x5,L0", None), ("bgez x5,L0", None), ("jal x0,L0", None), ("j L0", None),
         ("L0: sw x5,0(x6)", STORE)]
# Cells that are refused, in line 4, or with another cell above them in line 5.
NO_CELLS = ["beqq x5,x5,L9", "bne x5,frob,L9", "bne x5,,L9", "subi x7,x5,1", "addi x7,x5,x5", "add x7,x5,1",
            "LI x7,1", "blt x0,x5,L8",
            "lr.w x7,(x6)", "sc.w x7,x5,(x6)", "amoadd.w x7,x5,(x6)", "amomax.w x7,x0,(x6)", "fence w", "add x7,x5,foo",
            "lw x7,4(x6)", "lw x7,0(x9)",
            "bne x5,x0,L9",
            "lb x7,0(x6)", "addi x7,x6,4", "li x5,-1", "li x5,2147483648", "sw x6,0(x8)", "li x6,1", "lw q7,0(x6)",
            "li x5,2; li x7,2",
            "lw x7,0(x6)|mv x9,x7", "lw x7,0(x6)|ori x7,x7,1", "lw x7,0(x6)|add x9,x8,x7", "lw x7,0(x6)|ld x7,0(x6)",
            "beq x5,x0,L9|sw x5,0(x6)", "add x7,x5", "sub x7,x5,x5,x5", "#", "//", "lw x7,0(x6)|,"]
END = "exists (x=1)\n"
ROW = " sw x5,0(x6) | ;\n"
# Texts that are refused, with the line.
NO_TEXTS = [("RISCV " + "T" * 122 + OPENING[7:] + ROW + "filter (x=1)\n" + END, 1),
            ("RISCV T\n{ " + "y" * 33 + "=1; }\n P0 ;\n" + END, 2),
            ("AArch64 T\n{ }\n P0 ;\n" + END, 1), ("RISCV T\n(* no end\n{ }\n P0 ;\n" + END, 2), ("RISCV T\n\n*)\n", 3),
            ("RISCV T\n{ [x]=-1; }\n P0 ;\n" + END, 2), ("RISCV T\n{\n x=y; }\n P0 ;\n" + END, 3),
            ("RISCV T\n{\n\nint x[2]; }\n P0 ;\n" + END, 4), ("RISCV T\n{ x=1; [x]=1; }\n P0 ;\n" + END, 2),
            ("RISCV T\n{ 0:q1=1; }\n P0 ;\n" + END, 2), ("RISCV T\n{ 0:x0=1; }\n P0 ;\n" + END, 2),
            (OPENING + " sw x5,0(x6) ;\n" + END, 4), (OPENING + " sw x5,0(x6) |\n" + END, 4), (OPENING + ROW, 4),
            (OPENING + ROW + "exists (x=1 =>\n 0:x6=x)\n", 6), (OPENING + ROW + "exists (true)\n", 5),
            (OPENING + ROW + "exists (x=1 => )\n", 5),
            (OPENING + ROW + "exists (x=1 /\\\n", 5), (OPENING + ROW + "exists\n(x=1 x=2)\n", 6),
            (OPENING + ROW + "exists (0:x6=x)\n", 5), (OPENING + ROW + "exists (0:x6=1)\n", 5),
            (OPENING + ROW + "exists (2:x5=1)\n", 5), (OPENING + ROW + "filter (x=1)\nforall (x=1)\n", 5),
            ("RISCV T\n{ long x; 0:x6=x; }\n P0 ;\n lw x5,0(x6) ;\n" + END, 2), ("", 1),
            ("RISCV T\n P0 ;\n" + END, 2, "no initial block"), ("RISCV T\n{ }\n P1 ;\n" + END, 3, "begin with P0"),
            ("RISCV T\n{ 1:x6=x; }\n P0 ;\n" + END, 1, "has a thread 1, and the table has none"),
            ("RISCV T\n{ x=2147483648; }\n P0 ;\n" + END, 2, "values go from 0 to 2147483647"),
            (OPENING + ROW + "exists (x=2147483648)\n", 5, "values go from 0 to 2147483647"),
            (OPENING + " \u00e9 | ;\n" + END, 4, "a byte that isn't ASCII"),
            (OPENING + ROW + END + END, 6, "one condition stands at the end"),
            (OPENING + ROW + END + "locations [x;]\n", 6, "one condition stands at the end"),
            (OPENING + ROW + "exists (x=1))\n", 5, "its parentheses don't match"),
            (OPENING + ROW + "exists ((x=1)\n", 5, "its parentheses don't match"),
            (OPENING + ROW + "exists (x=1 \\/ true)\n", 5, "the condition asks nothing"),
            (OPENING + ROW + "exists (x=1 /\\ false)\n", 5, "the condition asks nothing")]
# The same test, as an editor of another system may have saved it: all that is blank or comment goes.
SAVED = OPENING.replace("\n", "\r\n") + "(* caf\u00e9 (* nested *) *)" + ROW + END


class Turner(Tester):
    """Runs the script on texts, in a file of a folder."""

    def __init__(self, folder):
        super().__init__(str(TOP / "tools/from_herd.py"))
        self.file = Path(folder, "herd.litmus")

    def turned(self, text):
        self.file.write_text(text, encoding="utf-8", newline="")
        return self.run(str(self.file))

    def is_refused(self, text, line, words=""):
        status, out, error = self.turned(text)
        good = (status, out) == (2, "") and error.startswith(f"from_herd.py: {self.file}, line {line}: ")
        self.expect(good and words in error, f"{text!r}: {status} {out} {error}, wanted line {line}: {words}")


def other_ends(test, fixed=()):
    """Every end but the one that the condition asks for."""
    fixed = fixed or FIXED.get(test.name, ())
    values = [(1,) if name in fixed else (0, 1) if ":" in name else (1, 2) for name in test.seen]
    ends = {tuple(zip(test.seen, chosen)) for chosen in product(*values)}
    return {end for end in ends if not test.holds(end)}


def generated(tester, program):
    """The thirty tests: all other ends, and the program's report with its Observation."""
    paths = sorted((TOP / "tests/herd").glob("*.litmus"))
    tester.expect(len(paths) == 30, f"{len(paths)} tests")
    for path in paths:
        status, out, error = tester.run(str(path))
        tester.expect((status, error) == (0, ""), f"{path.name}: {status} {error}")
        test = Test(out)
        ends, wanted = sequential.ends_of(test), other_ends(test)
        name = path.stem + "+filter" * (path.stem == FILTERED)
        tester.expect(test.name == name and ends == wanted, f"{path.name}: {out}{ends}, wanted {wanted}")
        report = Tester(program).run("litmus", "/dev/stdin", text=out.encode())
        tester.expect(report[0] == 0 and "\nverdict no\n" in report[1], f"{path.name}: {report}")
        tester.file.write_text(report[1])
        told = tester.run("--observation", str(tester.file))
        line = f"Observation {path.stem} Never 0 1\n"
        good = told[:2] == (1, "") and FILTERED in told[2] if path.stem == FILTERED else told == (0, line, "")
        tester.expect(good, f"{path.name}: {told}")


def cells(tester):
    for cell, wanted in CELLS:
        above = "".join(f" {part} | ;\n" for part in cell.split("|"))
        status, out, error = tester.turned(f"{OPENING}{above} L1: | ;\n L0: | ;\n{END}")
        rows = [row.split("|")[0].strip() for row in out.splitlines() if "|" in row][1 + cell.count("|"):]
        good = (status, rows) == (0, [wanted] if wanted else [])
        tester.expect(good, f"{cell}: {status} {rows} {error}, not {wanted}")
    for cell in NO_CELLS:
        rows = "".join(f" {part} | ;\n" for part in cell.split("|"))
        tester.is_refused(OPENING + rows + " L9: | ;\n" * ("|" in cell) + END, 4 + ("|" in cell and "beq" not in cell))


# Conditions, and what they become. P0 stores 1 to x, P1 loads x: so x and 1:x7 have 0 or 1, and y has 0.
CONDITIONS = {"exists (not (x=1))": "exists (x=0)", "exists (x=1 => 1:x7=1)": "exists (x=0 \\/ 1:x7=1)",
              "forall (1:x7=1 => x=1)": "forall (1:x7=0 \\/ x=1)",
              "exists not (x=1 /\\ 1:x7=0)": "exists (x=0 \\/ 1:x7=1)",
              "exists (x=1 /\\ 1:x7<>1)": "exists (x=1 /\\ 1:x7=0)", "exists (true /\\ x=1)": "exists (x=1)",
              "~exists (x=0 /\\ not (1:x7=1 /\\ x=1))": "~exists (x=0 /\\ (1:x7=0 \\/ x=0))",
              "exists (not (0:x5=2) /\\ x=1)": "exists (0:x5=1 /\\ x=1)", "exists ((x=1))": "exists ((x=1))",
              "exists (x=1 \\/ not x=1)": "exists (x=1 \\/ x=0)"}
# The same where P1 stores to y what it loaded from x, which is 3 or 1: y may have each number of the test.
COPIED = {"exists (not (y=1))": "exists (y=0 \\/ y=3)", "exists (y<>0 /\\ x=1)": "exists ((y=1 \\/ y=3) /\\ x=1)"}
# Rows above two labels, and what the header says of them: what `li` sets again is no load's value.
HEADERS = {" bne x5,x0,L0 | ;\n": "1 branch dropped",
           " bne x5,x0,L2 | ;\n L2: bne x5,x0,L0 | ;\n": "2 branches dropped",
           " lw x7,0(x6) | ;\n bne x7,x0,L1 | ;\n": "1 control dependency dropped",
           " lw x7,0(x6) | ;\n li x7,1 | ;\n bne x7,x0,L0 | ;\n": "1 branch dropped"}
# Types of locations, by the width of the instructions.
WIDTHS = {"int": "w", "int32_t": "w", "uint32_t": "w", "long": "d", "int64_t": "d", "uint64_t": "d"}
# What the header says that a conversion dropped, by hand from the tests.
DROPPED = {"IRIW+addrs": "2 address dependencies dropped", "CoRR-locs": None,
           "SB64": "fences, .aq and .rl order nothing here",
           "LB+data+ctrl": "1 control dependency, 1 data dependency dropped",
           "PPOCA": "1 address dependency, 1 control dependency dropped; fences, .aq and .rl order nothing here",
           "AMO_X0": "fences, .aq and .rl order nothing here",
           "CTRLFENCEI": "1 control dependency dropped; fences, .aq and .rl order nothing here"}
# Each obstacle of tests that have no counterpart: the line, and words of the cause.
OBSTACLES = {
    "AMOADD": [(8, "P0: `amoadd.w"), (8, "P1: `amoadd.w")],
    "CAS-lock": [(9, "P0: `lr.w.aq"), (9, "P1: `lr.w.aq"), (10, "may skip"), (10, "may skip"), (11, "sc.w"),
                 (11, "sc.w"), (12, "may skip"), (12, "may skip"), (14, "isn't known"), (14, "isn't known")],
    "LR-SC-diff-loc1": [(6, "lr.w"), (7, "sc.w")], "LRSCAMO": [(8, "lr.w.aq"), (9, "sc.w")],
    "MP-spin": [(9, "`beq x5,x0,L0` is a branch that may skip or repeat")],
    "MPoff": [(4, "an array"), (8, "isn't a location's"), (9, "isn't a location's")],
    "NEG": [(6, "`bnez x7,L1` is a branch")],
    "PTR": [(4, "an address in memory"), (10, "isn't a location's"), (11, "stores an address"), (11, "a second width"),
            (12, "`1:x7=b` in the condition")],
    "X86": [(1, "the first line isn't `RISCV` and a name")]}


def headers(tester):
    for rows, wanted in HEADERS.items():
        status, out, error = tester.turned(f"{OPENING}{rows} L1: | ;\n L0: | ;\n{END}")
        tester.expect((status, error) == (0, "") and f"\nconverted={wanted}\n" in out, f"{rows}: {status} {out} {error}")
    for name, own in WIDTHS.items():
        for width in "wd":
            text = f"RISCV T\n{{ {name} x=1; 0:x6=x; }}\n P0 ;\n l{width} x5,0(x6) ;\n{END}"
            if width == own:
                tester.expect(tester.turned(text)[0] == 0, f"{name} with l{width}")
            else:
                tester.is_refused(text, 2, "a type that isn't as wide")


def users(tester):
    """Tests as users have them: converted with every other end than that of their cycle, or all obstacles told."""
    folder = TOP / "tests/herd_users"
    for path in sorted(folder.glob("*.litmus")):
        status, out, error = tester.run(str(path))
        if path.stem in OBSTACLES:
            told = [line.removeprefix(f"from_herd.py: {path}, line ").split(": ", 1) for line in error.splitlines()]
            wanted = OBSTACLES[path.stem]
            good = len(told) == len(wanted) and all(
                int(line) == number and words in what for (line, what), (number, words) in zip(told, wanted))
            tester.expect((status, out) == (2, "") and good, f"{path.name}: {status} {out} {error}")
            continue
        test = Test(out)
        fixed = {"PPOCA": ("1:x9",)}.get(test.name, ())
        wanted = other_ends(test, fixed)
        tester.expect((status, error) == (0, "") and sequential.ends_of(test) == wanted, f"{path.name}: {out} {error}")
        says = [line.removeprefix("converted=") for line in out.splitlines() if line.startswith("converted=")]
        dropped = DROPPED.get(path.stem, "fences, .aq and .rl order nothing here")
        tester.expect(says == ([dropped] if dropped else []), f"{path.name}: {says}, wanted {dropped}")
    with tempfile.TemporaryDirectory() as into:
        tests = [str(folder / f"{name}.litmus") for name in ("SB64", "NEG", "IRIW+addrs")]
        status, out, error = tester.run("--into", into, *tests)
        names = sorted(path.name for path in Path(into).iterdir())
        good = (status, out, names) == (2, "", ["IRIW+addrs.litmus", "SB+fence.rw.rws-ld.litmus"])
        tester.expect(good and "NEG.litmus, line 6" in error, f"--into: {status} {out} {error} {names}")


def conditions(tester):
    opening = "RISCV T\n{ 0:x5=1; 0:x6=x; 1:x6=x; }\n P0 | P1 ;\n sw x5,0(x6) | lw x7,0(x6) ;\n"
    copied = opening.replace("1:x6=x;", "1:x6=x; 1:x8=y; x=3;") + " | sw x7,0(x8) ;\n"
    for above, table in ((opening, CONDITIONS), (copied, COPIED)):
        for given, wanted in table.items():
            status, out, error = tester.turned(f"{above}{given}\n")
            good = (status, error) == (0, "") and out.endswith(f"\n{wanted}\n")
            tester.expect(good, f"{given}: {status} {out} {error}")


LOG = """Test SB Allowed
Histogram (3 states)
1     :>0:x7=0; 1:x7=1;
2     :>0:x7=1; 1:x7=0;
7     :>0:x7=1; 1:x7=1;
No

Witnesses
Positive: 0, Negative: 10
Condition exists (0:x7=0 /\\ 1:x7=0) is NOT validated
Observation SB Never 0 10

"""


def logs(tester):
    report = "test SB\nall-done 10\nstates 3\n1 0:x7=0 1:x7=1\n2 0:x7=1 1:x7=0\n7 0:x7=1 1:x7=1\n" \
             "condition exists\nheld 0\nverdict no\n"
    tester.file.write_text(report)
    out = tester.run("--log", str(TOP / "examples/litmus/SB.litmus"), str(tester.file))
    tester.expect(out == (0, LOG, ""), f"--log: {out}")
    hashed = tester.file.with_name("hashed.litmus")
    hashed.write_text((TOP / "examples/litmus/SB.litmus").read_text().replace("\n", "\nHash=0123abcd\n", 1))
    out = tester.run("--log", str(hashed), str(tester.file))
    tester.expect(out == (0, LOG.replace("Observation", "Hash=0123abcd\nObservation"), ""), f"--log with a hash: {out}")
    report = report.replace("held 0", "held 10").replace("exists", "forall").replace("verdict no", "verdict yes")
    tester.file.write_text(report)
    status, out, error = tester.run("--log", str(tester.file))
    good = "Test SB Required\n" in out and "\nOk\n" in out and "Condition" not in out and "Always 10 0" in out
    tester.expect(good and status == 0, f"--log: {out} {error}")


def into(tester):
    """Two tests of one name, and a test that would be replaced by its own conversion: neither is lost."""
    folder = tester.file.parent / "into"
    folder.mkdir()
    one, two, own = (folder / name for name in ("one", "two", "T.litmus"))
    texts = [f'RISCV T\n"{name}"\n{{ 0:x6=x; }}\n P0 ;\n lw x7,0(x6) ;\nexists (0:x7=0)\n' for name in ("1", "2")]
    one.write_text(texts[0])
    two.write_text(texts[1])
    got = tester.run("--into", str(folder), str(one), str(two))
    said = f"from_herd.py: {two}: {own} has the test of {one}, by the same name\n"
    tester.expect(got == (2, "", said) and '"1"' in own.read_text(), f"two tests of one name: {got}")
    own.write_text(texts[1] + "(* a note *)\n")
    for path in (own, one):
        got = tester.run("--into", str(folder), str(path), str(own))
        said = f"from_herd.py: {path}: {own} is a test that is converted: name another folder\n"
        tester.expect(got == (2, "", said) and "a note" in own.read_text(), f"a test in its own place: {got}")
    got = tester.run("--into", "/proc", str(one))
    tester.expect(got == (2, "", "from_herd.py: /proc/T.litmus: No such file or directory\n"), f"/proc: {got}")


def others(tester):
    into(tester)
    for refused in NO_TEXTS:
        tester.is_refused(*refused)
    saved, wanted = tester.turned(SAVED), tester.turned(OPENING + ROW + END)
    tester.expect(saved == wanted and saved[0] == 0, f"carriage returns and a comment: {saved}, wanted {wanted}")
    status, out, error = tester.turned(OPENING + ROW + "filter x=1 \\/ 0:x5=2\nexists (y=2)\n")
    wanted = "exists (x=1 \\/ 0:x5=2) /\\ ((y=2))\n"
    tester.expect((status, error) == (0, "") and out.endswith(wanted), f"a filter: {status} {out} {error}")
    _, _, error = tester.turned(OPENING + " li x5,2147483647 | ;\n addi x5,x5,1 | ;\n" + END)
    tester.expect("the result 2147483648, and values go from 0 to 2147483647" in error, f"a great result: {error}")
    for done, held, told in ((50, 0, "Never 0 50"), (50, 20, "Sometimes 20 30"), (50, 50, "Always 50 0"),
                             (0, 0, "Never 0 0")):
        tester.file.write_text(f"test T\nruns 60\nall-done {done}\nheld {held}\nverdict yes\n")
        out = tester.run("--observation", str(tester.file), str(tester.file))
        tester.expect(out == (0, f"Observation T {told}\n" * 2, ""), f"{held}: {out}")
    licence = str(TOP / "LICENSE")
    for words in ([], ["none.litmus"], ["--observation"], ["--observation", licence], [str(TOP)], ["--x"],
                  ["--log", licence], ["--into", licence, str(TOP / "tests/herd/SB.litmus")]):
        status, out, error = tester.run(*words)
        tester.expect((status, out, error.count("\n")) == (2, "", 1), f"{words}: {status} {out} {error}")
    status, out, error = tester.run("--help")
    tester.expect((status, error) == (0, "") and "--observation" in out, f"--help: {status} {error}")


def main(program):
    with tempfile.TemporaryDirectory() as folder:
        tester = Turner(folder)
        generated(tester, os.path.abspath(program))
        cells(tester)
        users(tester)
        conditions(tester)
        headers(tester)
        logs(tester)
        others(tester)
    print(f"{tester.tried} tried, {tester.wrong} wrong")
    return int(tester.wrong > 0)


if __name__ == "__main__":
    sys.exit(main(sys.argv[1]) if len(sys.argv) == 2 else __doc__)
