#!/usr/bin/env python3
"""Gives the program cut, faulty, huge and changed texts: tests/texts.py PROGRAM [PART..].

What it must say of each was worked out by hand from docs/TEXTS.md, or comes from the second program, which was written
from the same page (reference/oracle.py). The second program must find the same faults of litmus tests. The last line is
`N tried, M wrong`.
"""
import os
import random
import re
import shlex
import subprocess
import sys
import tempfile
from pathlib import Path

TOP = Path(__file__).resolve().parent.parent
sys.path.insert(0, str(TOP))
from reference import oracle  # noqa: E402
from reference.litmus import Test  # noqa: E402
from reference.litmus_faults import KINDS, fault_of  # noqa: E402
from reference.order import check  # noqa: E402
from reference.reports import litmus_report  # noqa: E402
from reference.traces import Fault, Trace, read_records  # noqa: E402


PATIENCE = 1200  # seconds, after which a command hangs, even on a busy machine
MORE = "\n\nFor more information, try '--help'.\n"
BAD_HEADER, BAD_INITIAL, BAD_TABLE, BAD_CONDITION, CUT_SHORT, ACCEPTED = 4, 5, 7, 13, 14, 0

# The text of store buffering in pieces: if the text ends behind any byte of a piece, its fault has that kind.
ITEM = [("x", BAD_INITIAL)]
STORE_BUFFERING = [
    [("RISCV ", BAD_HEADER), ("SB\n", CUT_SHORT)],
    [("{ 0:", CUT_SHORT), *ITEM, ("5=1; 0:", CUT_SHORT), *ITEM, ("6=x; 0:", CUT_SHORT), *ITEM, ("8=y; 1:", CUT_SHORT),
     *ITEM, ("5=1; 1:", CUT_SHORT), *ITEM, ("6=y; 1:", CUT_SHORT), *ITEM, ("8=x; }\n", CUT_SHORT)],
    [(" ", CUT_SHORT), ("P0          | P1          ", BAD_TABLE), (";\n", CUT_SHORT)],
    [(" ", CUT_SHORT), ("sw x5,0(x6) | sw x5,0(x6) ", BAD_TABLE), (";\n", CUT_SHORT)],
    [(" ", CUT_SHORT), ("lw x7,0(x8) | lw x7,0(x8) ", BAD_TABLE), (";\n", CUT_SHORT)],
    [("exist", BAD_TABLE), ("s (0:", CUT_SHORT), ("x", BAD_CONDITION), ("7=0 ", CUT_SHORT), ("/", BAD_CONDITION),
     ("\\ 1:", CUT_SHORT), ("x", BAD_CONDITION), ("7=0", CUT_SHORT), (")\n", ACCEPTED)],
]


def ran(words, **how):
    """What a command came to, with its output. One that hangs ends the script, with a line that names it."""
    try:
        return subprocess.run(words, capture_output=True, timeout=PATIENCE, check=False, **how)
    except subprocess.TimeoutExpired:
        sys.exit(f"not done after {PATIENCE} seconds: {shlex.join(map(str, words))[:300]}")


class Tester:
    def __init__(self, program):
        self.program, self.tried, self.wrong = program, 0, 0

    def run(self, *words, text=None):
        """The status, standard output and standard error; with a text, given through a pipe."""
        given = {"stdin": subprocess.DEVNULL} if text is None else {"input": text}
        done = ran([self.program, *words], **given)
        return done.returncode, done.stdout.decode(), done.stderr.decode(errors="replace")

    def expect(self, good, what):
        self.tried += 1
        if not good:
            self.wrong += 1
            print(f"wrong: {what}")

    def refuses(self, fault, text, *words, accepted=""):
        """The text, from standard input, is refused with this fault. If there is none, its report has these lines."""
        words = words or ("litmus", "/dev/stdin")
        status, out, error = self.run(*words, text=text)
        good = (status, out, error) == (2, "", f"tardis: {fault}\n") if fault else (status, error) == (0, "")
        if words[0] == "litmus":
            good &= fault_of(text) == fault
        self.expect(good and accepted in out,
                    f"{text[-80:]!r} of {len(text)} bytes: wanted {fault}, got {status} {error!r}")

    def reports(self, what, text):
        """The report on the litmus text, from standard input, is the second program's."""
        wanted, _ = litmus_report(Test(text), oracle.words().parse_args(["litmus", "/dev/stdin"]))
        got = self.run("litmus", "/dev/stdin", text=text.encode())
        self.expect(got == (0, wanted, ""), f"{what}: {got}")


def told(line, kind):
    return f"line {line}: {kind} {KINDS[kind - 1]}" if kind else None


def cuts(tester):
    """Store buffering, cut after each byte."""
    text, report = b"", (TOP / "examples/litmus/SB.report").read_text()
    tester.refuses(told(1, CUT_SHORT), text)
    for line, pieces in enumerate(STORE_BUFFERING, 1):
        for piece, kind in pieces:
            for byte in piece.encode():
                text += bytes([byte])
                tester.refuses(told(line, kind), text, accepted="" if kind else report)
    tester.expect(text == (TOP / "crates/tardis/data/SB.litmus").read_bytes(), "the pieces are the text")


def line_cuts(tester):
    """A trace and its records, each cut after each byte: the answer of `check` is the second program's."""
    trace = (TOP / "examples/traces/SWAP-LOCK.trace").read_bytes()
    records = (TOP / "examples/traces/SWAP-LOCK.records").read_bytes()
    for at in range(len(trace)):
        checks(tester, trace[:at], records, f"a trace cut behind byte {at}")
    for at in range(len(records)):
        checks(tester, trace, records[:at], f"records cut behind byte {at}")


def checks(tester, trace, records, what):
    with tempfile.TemporaryDirectory() as folder:
        files = Path(folder, "trace"), Path(folder, "records")
        for file, text in zip(files, (trace, records)):
            file.write_bytes(text)
        got, wanted = tester.run("check", *map(str, files)), verdict_of(trace, records)
        tester.expect(got == wanted, f"{what}: {got}, wanted {wanted}")


def rows(table):
    for line in table.read_text().splitlines():
        if not line.startswith("#"):
            fault, text = line.split("|", 1)
            yield fault, text


def faults(tester):
    """Each kind of fault of litmus texts in the first line where it may stand, between, and in the last."""
    for fault, text in rows(TOP / "tests/litmus_faults.table"):
        tester.refuses(fault, unescaped(text))


def ends(tester):
    """Litmus texts that are read: the name, the one end and the verdict that each report has."""
    for told_end, text in rows(TOP / "tests/litmus_ends.table"):
        verdict, end = told_end.split(" ", 1)
        text = unescaped(text)
        status, out, error = tester.run("litmus", "/dev/stdin", text=text)
        lines = out.split("\n")
        good = lines[0] == f"test {text.split()[1].decode()}" and lines[8:10] == ["states 1", f"1 {end}"]
        good &= f"verdict {verdict}" in lines and (status, error) == (0, "")
        tester.expect(good, f"{text!r}: {out} {error}")


def unescaped(text):
    """What Python's escapes write."""
    return text.encode().decode("unicode_escape").encode("latin-1")


def of_printf(text):
    """What the shell's printf %b makes of the text: octal as \\0NNN."""
    return subprocess.run(["printf", "%b", text], capture_output=True, check=True).stdout


def moved(fault, lines):
    """The fault's line in a text with this many lines in front."""
    front, line, rest = re.fullmatch(r"(.*line )(\d+)(:.*)", fault).groups()
    return f"{front}{int(line) + lines}{rest}"


def one_line_faults(table):
    for fault, text in rows(TOP / "examples/bad" / table):
        text = of_printf(text).removesuffix(b"\n")
        if b"\n" not in text and fault.removeprefix("opening: ").startswith("line 1:"):
            yield fault, text


# Faults of form 1 alone: cores above 15, and an advance.
FORM_1 = (b"16 R 0x0", b"16 A", b"16 X 0x4 x y", b"0 A")


def form_2_faults():
    """Lines with a fault in form 2, each reported at line 2: those that the table has after `trace 2`, and those that
    have it in any form."""
    for fault, text in rows(TOP / "examples/bad/traces.table"):
        text = of_printf(text).removesuffix(b"\n")
        front, _, behind = text.partition(b"\n")
        if front == b"trace 2":
            yield fault, behind
        elif b"\n" not in text and text not in FORM_1 and text.split()[:1] != [b"trace"]:
            yield moved(fault, 1), text


def places(tester):
    """Each faulty line of a trace and of records, as the first line, between others, and as the last.

    After a line with fields no line declares a form: a line that begins with `trace` has no core then.
    """
    with tempfile.NamedTemporaryFile(suffix=".trace") as some:
        # Of each table what its fault begins with, the command, and three good lines with one more.
        tables = {"traces.table": ("", ("trace", "/dev/stdin"), b"0 R 0x0\n" * 3, b"0 R 0x0\n"),
                  "records.table": ("", ("check", some.name, "/dev/stdin"), b"0 0 R 0x0 0 0 0\n" * 3,
                                    b"0 0 R 0x0 0 0 0\n"),
                  "openings.table": ("opening: ", ("check", "--opening", "/dev/stdin", some.name, some.name),
                                     b"0x100 1\n0x108 1\n0x110 1\n", b"0x118 1\n")}
        for table, (front, words, good, one) in tables.items():
            long_line = (f"{front}line 1: 3 TooLong", b"#" * 257)
            for fault, text in [*one_line_faults(table), long_line]:
                tester.refuses(fault, text + b"\n" + good, *words)
                tester.refuses(moved(fault, 3), b"#\n \n\t# x\n" + text + b"\n" + one, *words)
                tester.refuses(moved(fault, 2), b"\n\n" + text, *words)
                behind = "line 1: 4 BadCore" if text.split()[:1] == [b"trace"] and not front else fault
                tester.refuses(moved(behind, 3), good + text + b"\n" + one, *words)
                tester.refuses(moved(behind, 3), good + text, *words)
    for fault, text in form_2_faults():
        front = b"trace 2\n"
        tester.refuses(fault, front + text + b"\n63 A\n", "trace", "/dev/stdin")
        tester.refuses(moved(fault, 3), b"\n" + front + b"63 A\n#\n" + text + b"\n63 A\n", "trace", "/dev/stdin")
        tester.refuses(moved(fault, 2), front + b"0 A\n63 R 0x0\n" + text, "trace", "/dev/stdin")


def every_byte(tester):
    """Every byte where two fields are parted, as a digit of a value and of an address, and as a core. Every byte that a
    litmus text may not have."""
    decimal, hexadecimal = set(b"0123456789"), set(b"0123456789abcdef")
    for line, at, good in ((b"0 W 0x0 7", 1, set(b" \t")), (b"0 W 0x0 7", 8, decimal),
                           (b"0 R 0x008", 6, hexadecimal), (b"0 R  0x00", 0, decimal)):
        for byte in range(256):
            text = line[:at] + bytes([byte]) + line[at + 1:]
            fault = byte not in good and verdict_of(text, b"")[2].removeprefix("tardis: ").removesuffix("\n")
            accepted = "" if fault else f"issued {int(byte in good)}\n"
            tester.refuses(fault, text, "trace", "/dev/stdin", accepted=accepted)
    for byte in {*range(256)} - {9, 10, 13, *range(32, 127)}:
        tester.refuses("line 2: 3 BadByte", b"RISCV A\nk=" + bytes([byte]) + b"\n" + REST.encode())
    bytes_of_tokens(tester)


BLANKS, DIGITS = b" \t\r", b"0123456789"
LETTERS = b"ABCDEFGHIJKLMNOPQRSTUVWXYZabcdefghijklmnopqrstuvwxyz"
NAMES = LETTERS + DIGITS + b"_"
# Of a litmus text: what stands before a byte and behind it; the bytes that may be there; the fault of others; and other
# faults by the byte. It stands in a name or before one, behind a thread, and in cells.
NAMED = [
    (b"RISCV a", b"a\n{ }\n P0 ;\nexists (x=0)\n", NAMES + b"+.-[]", "line 1: 4 BadHeader",
     {b"\n": "line 2: 4 BadHeader"}),
    (b"RISCV A\n", b"k=1\n{ }\n P0 ;\nexists (x=0)\n", LETTERS + BLANKS + b"\n", "line 2: 4 BadHeader",
     {b"{": "line 3: 5 BadInitial"}),
    (b"RISCV A\nk", b"k=1\n{ }\n P0 ;\nexists (x=0)\n", NAMES + b"=", "line 2: 4 BadHeader", {}),
    (b"RISCV A\n{ ", b"k=1; }\n P0 ;\nexists (x=0)\n", LETTERS + b"_\n" + BLANKS, "line 2: 5 BadInitial", {}),
    (b"RISCV A\n{ k", b"k=1; }\n P0 ;\nexists (x=0)\n", NAMES, "line 2: 5 BadInitial",
     {b"\n": "line 3: 5 BadInitial"}),
    (b"RISCV A\n{ }\n P0 ;\nexists (", b"y=0)\n", LETTERS + b"_\n" + BLANKS, "line 4: 13 BadCondition",
     {b"(": "line 4: 14 CutShort"}),
    (b"RISCV A\n{ }\n P0 ;\nexists (x", b"x=0)\n", NAMES, "line 4: 13 BadCondition",
     {b"\n": "line 5: 13 BadCondition"}),
    (b"RISCV A\n{ }\n P0 ;\nexists (0", b":x5=0)\n", BLANKS + b"\n", "line 4: 13 BadCondition", {}),
    (b"RISCV A\n{ }\n P0", b" ;\nexists (x=0)\n", BLANKS, "line 3: 7 BadTable", {}),
    (b"RISCV A\n{ 0:x6=x; }\n P0 ;\n ", b"sw x5,0(x6) ;\nexists (x=0)\n", BLANKS + b"\n", "line 4: 8 BadInstruction",
     dict.fromkeys((b";", b"|"), "line 4: 7 BadTable")),
    (b"RISCV A\n{ 0:x6=x; }\n P0 ;\n sw x5", b",0(x6) ;\nexists (x=0)\n", BLANKS, "line 4: 8 BadInstruction",
     dict.fromkeys((b";", b"|", b"\n"), "line 4: 7 BadTable")),
    (b"RISCV A\n{ }\n P0 ;\n li x5,1", b" ;\nexists (x=0)\n", DIGITS + BLANKS, "line 4: 8 BadInstruction",
     dict.fromkeys((b";", b"|", b"\n"), "line 4: 7 BadTable")),
]


def bytes_of_tokens(tester):
    """Every byte at these places of a litmus text."""
    for front, behind, good, fault, others in NAMED:
        for byte in map(bytes, zip(range(256))):
            if byte != b"\n" and byte not in BLANKS and not b"!" <= byte <= b"~":
                told = f"line {front.count(10) + 1}: 3 BadByte"
            else:
                told = None if byte in good else others.get(byte, fault)
            tester.refuses(told, front + byte + behind, accepted="" if told else "verdict yes\n")


def sizes(tester):
    """Texts at their limits, and of one sign, name or number throughout."""
    front = b"RISCV A\n{ }\n P0 ;\n"
    tester.refuses("line 1: 2 TooLarge", b" " * 65537)
    tester.refuses("line 1: 4 BadHeader", b"(" * 65536)
    tester.refuses("line 1: 4 BadHeader", b"\n" * 65536)
    tester.refuses("line 1: 4 BadHeader", b"a" * 65536)
    tester.refuses("line 1: 4 BadHeader", b"RISCV " + b"a" * 60000)
    tester.refuses("line 65529: 14 CutShort", b"RISCV A\n" + b"\n" * 65528)
    tester.refuses("line 2: 9 ValueRange", b"RISCV A\n{ x=" + b"9" * 60000 + b"; }\n P0 ;\nexists (x=0)\n")
    tester.refuses(None, b"RISCV A\n{ x=" + b"0" * 60000 + b"1; }\n P0 ;\nexists (x=1)\n", accepted="verdict yes\n")
    tester.refuses(None, front + b"exists (x=" + b"0" * 60000 + b")\n", accepted="verdict yes\n")
    tester.refuses("line 2: 5 BadInitial", b"RISCV A\n{ " + b"0" * 60000 + b":x5=1; }\n P0 ;\nexists (x=0)\n")
    tester.refuses("line 2: 5 BadInitial", b"RISCV A\n{ " + b"a" * 60000 + b"=1; }\n P0 ;\nexists (x=0)\n")
    tester.refuses("line 4: 9 ValueRange", front + b" li x5," + b"1" * 60000 + b" ;\nexists (x=0)\n")
    tester.refuses("line 4: 8 BadInstruction", front + b" li x" + b"1" * 60000 + b",1 ;\nexists (x=0)\n")
    tester.refuses("line 4: 9 ValueRange", front + b"exists (x=" + b"9" * 60000 + b")\n")
    tester.refuses("line 4: 13 BadCondition", front + b"exists (0:x" + b"1" * 60000 + b"=0)\n")
    tester.refuses("line 4: 13 BadCondition", front + b"exists (" + b"1" * 60000 + b":x5=0)\n")
    tester.refuses("line 60004: 14 CutShort", front + b"exists (x=0" + b"\n" * 60001)
    tester.refuses("line 3: 7 BadTable", b"RISCV A\n{ }\n P0 " + b"|" * 60000 + b" ;\nexists (x=0)\n")
    tester.refuses("line 4: 7 BadTable", front + b"|" * 60000 + b";\nexists (x=0)\n")
    tester.refuses("line 4: 2 TooLarge", front + b"exists " + b"(" * (65536 - len(front) - 7))
    tester.refuses("line 4: 2 TooLarge", front + b"exists " + b"(" * 65)
    tester.refuses("line 4: 14 CutShort", front + b"exists " + b"(" * 64)
    most_lines(tester)
    many, counts = 70000, "issued 210000\ncompleted 210000\nend all-done\nloads 70000\nstores 70000\nswaps 70000\n"
    tester.refuses(None, b"0 R 0x0\n0 W 0x0 1\n0 S 0x0 2\n" * many, "trace", "--limit", "4294967295", "/dev/stdin",
                   accepted=counts)
    line_sizes(tester)


def most_lines(tester):
    """A trace of as many lines as there may be, and one beyond."""
    tester.refuses("line 16777217: 3 TooLong", b"\n" * 16777216 + b"0", "trace", "/dev/stdin")


def line_sizes(tester):
    """Traces and records of long numbers, and of one sign or name throughout."""
    with tempfile.NamedTemporaryFile(suffix=".trace") as some:
        some.write(b"0 R 0x0\n")
        some.flush()
        for words, good, accepted in ((("trace", "/dev/stdin"), b"0 W 0x0 1", "issued 0\n"),
                                      (("check", some.name, "/dev/stdin"), b"0 0 R 0x0 0 0 0", "legal\n")):
            for field, word in enumerate(good.split()):
                long = [word + b"0" * 60000 if at == field else other for at, other in enumerate(good.split())]
                tester.refuses("line 1: 3 TooLong", b" ".join(long) + b"\n", *words)
            for sign in (b"(", b"a", b" ", b"#"):
                tester.refuses("line 1: 3 TooLong", sign * 65536, *words)
                tester.refuses("line 3: 3 TooLong", b"\n" + good + b"\n" + sign * 257, *words)
            tester.refuses(None, b"\n" * 65536, *words, accepted=accepted)
            tester.refuses("line 1200001: 4 BadCore", (b"#" * 256 + b"\n") * 1200000 + b"(", *words)  # 308 MB
        tester.refuses("line 16777217: 3 TooLong", b"\n" * 16777216 + b"0", "check", some.name, "/dev/stdin")
        tester.refuses(None, b"\n" * 16777216, "check", some.name, "/dev/stdin", accepted="legal\n")


THREADS = "|".join(f"P{number}" for number in range(16)) + ";\n"
FRONT, REST = "RISCV A\n{ }\n P0 ;\n", "{ }\n P0 ;\nexists (x=0)\n"


def at_limits():
    """Texts that have as much of something as there may be, and what that is."""
    yield "65,536 bytes, most in a line", 'RISCV A\n"' + "a" * (65536 - 11 - len(REST)) + '"\n' + REST
    yield "65,536 bytes, most line feeds", "RISCV A\n" + "\n" * (65536 - 8 - len(REST)) + REST
    yield "a header key of 60,000 letters", "RISCV A\n" + "k" * 60000 + "=\n" + REST
    yield "a name of 128 letters", "RISCV " + "n" * 128 + "\n" + REST
    opening = "".join(f" {number}:x5={number + 1}; {number}:x6=l{number};" for number in range(16))
    stored = " /\\ ".join(f"l{number}={number + 1}" for number in range(16))
    stores = "|".join(["sw x5,0(x6)"] * 16) + ";\n"
    yield "16 threads", "RISCV A\n{" + opening + " }\n" + THREADS + stores + f"forall {stored}\n"
    loads = "|" * 15 + "lw x7,0(x6);\n"
    yield "1,024 rows", "RISCV A\n{ x=6; 15:x6=x; }\n" + THREADS + loads * 1024 + "exists 15:x7=6\n"
    heads, cells = "|".join(f"P{number}" for number in range(7)), "|".join(f"li x1,{number}" for number in range(7))
    yield "1,024 rows of 7 instructions", f"RISCV A\n{{}}\n{heads};\n" + f"{cells};\n" * 1024 + "exists 6:x1=6\n"
    yield "8,080 instructions", "RISCV A\n{}\n" + THREADS + ("li x1,1|" * 15 + "li x1,2;\n") * 505 + "exists 15:x1=2\n"
    names = [f"{'l' * 30}{number}" for number in range(10, 74)]
    items = "".join(f"{name}={number};\n" for number, name in enumerate(names, 1))
    yield ("64 locations of 32 letters",
           "RISCV A\n{\n" + items + f"}}\n P0 ;\nexists {names[0]}=1 /\\ {names[63]}=64\n")
    zeros = "\n/\\ ".join(f"l{number}=0" for number in range(64))
    yield "64 locations in the condition", FRONT + f"forall\n{zeros}\n"
    registers = [[f"{thread}:x{number}={2147483647 - 32 * thread - number}" for number in range(1, 32)]
                 for thread in range(16)]
    items = ";\n".join([*sum(registers, []), *(f"l{number}={number}" for number in range(64))])
    seen = " /\\\n".join(item for of_thread in registers for item in of_thread[15:])
    yield "560 items, and 256 names", "RISCV A\n{\n" + items + "}\n" + THREADS + f"forall {seen}\n"
    yield "256 atoms", FRONT + "forall\n" + "x=0 /\\\n" * 255 + "x=0\n"
    yield "256 atoms, the last one false", FRONT + "forall\n" + "x=0 /\\\n" * 255 + "x=1\n"
    yield "65 parentheses side by side", FRONT + "exists " + " /\\ ".join(["(x=0)"] * 65) + "\n"
    yield "parentheses 64 deep", FRONT + "exists\n" + "(\n" * 64 + "x=0" + ")" * 64 + "\n"


def past_limits():
    """Texts that have one more than there may be, in a line between others and in the last; and faults behind many
    lines."""
    yield "line 1: 2 TooLarge", 'RISCV A\n"' + "a" * (65536 - 10 - len(REST)) + '"\n' + REST
    yield "line 1: 2 TooLarge", "RISCV A\n" + "\n" * (65536 - 7 - len(REST)) + REST
    yield "line 65511: 13 BadCondition", "RISCV A\n" + "\n" * 65507 + "{ }\n P0 ;\nexists x=a\n"
    yield "line 65002: 5 BadInitial", "RISCV A\n" + "\n" * 65000 + "{ ; }\n"
    yield "line 65003: 7 BadTable", "RISCV A\n" + "\n" * 65000 + "{ }\nP1 ;\n"
    yield "line 1: 4 BadHeader", "RISCV " + "n" * 129 + "\n" + REST
    yield "line 3: 2 TooLarge", "RISCV A\n{ }\n" + THREADS.replace(";", "|P16;") + "exists (x=0)\n"
    yield "line 3: 2 TooLarge", "RISCV A\n{ }\n" + THREADS.replace(";\n", "|P16")
    yield "line 1028: 2 TooLarge", FRONT + " li x5,1 ;\n" * 1025 + "exists (x=0)\n"
    yield "line 1028: 2 TooLarge", FRONT + " ;\n" * 1025
    yield "line 1028: 2 TooLarge", FRONT + " ;\n" * 1024 + "x"
    for heading in ("P3", "P17"):
        yield "line 3: 7 BadTable", "RISCV A\n{ }\n" + THREADS.replace(";", f"|{heading};") + "exists (x=0)\n"
    items = "".join(f"v{number}=0;\n" for number in range(64))
    for word, in_block, in_condition in (("w", 2, 2), ("9w", BAD_INITIAL, BAD_CONDITION)):
        yield told(67, in_block), "RISCV A\n{\n" + items + f"{word}=0;\n}}\n P0 ;\nexists ({word}=0)\n"
        yield told(69, in_condition), "RISCV A\n{\n" + items + f"}}\n P0 ;\nexists ({word}=0)"
    addresses = " ".join(f"{number // 31}:x{number % 31 + 1}=l{number};" for number in range(65))
    yield "line 2: 2 TooLarge", "RISCV A\n{ " + addresses + " }\n P0 | P1 | P2 ;\nexists (0:x7=0)\n"
    yield "line 69: 2 TooLarge", FRONT + "forall\n" + "\n/\\ ".join(f"l{number}=0" for number in range(65)) + "\n"
    yield "line 260: 2 TooLarge", FRONT + "exists " + " /\\\n".join(["x=0"] * 258) + "\n"
    yield "line 260: 2 TooLarge", FRONT + "exists " + " /\\\n".join(["x=0"] * 257)
    yield "line 4: 2 TooLarge", FRONT + "exists " + " \\/ ".join(["x=0"] * 257) + "\n"
    for behind in ("/\\ ", "1a=0", "x", "7:x5=0", "()"):
        kind = "2 TooLarge" if behind == "x" else "13 BadCondition"
        yield f"line 260: {kind}", FRONT + "exists " + " /\\\n".join(["x=0"] * 256 + [behind]) + "\n"
    yield "line 69: 2 TooLarge", FRONT + "exists\n" + "(\n" * 65 + "x=0" + ")" * 65 + "\n"
    for atom, connective in (("x=0", "/\\"), ("0:x7=0", "\\/")):
        parts = (f" {connective}\n".join([atom] * count) for count in (128, 129))
        yield "line 260: 2 TooLarge", FRONT + "exists (" + f") {connective}\n(".join(parts) + ")\n"


# Carriage returns are blanks, also in front of the block, the rows and the condition. Header lines may have braces.
BLANK_FRONTS = ('RISCV A\r\n\r"{ 3:x6=x; }"\r\nk={\r\n\r{ 0:x5=1; 0:x6=x; }\r\n\r P0 ;\r\n\r\tsw x5,0(x6) ;\r\n'
                '\r\r\texists\r(\rx=1\r)\r\n\r')


def limits(tester):
    """Litmus texts at each limit, and past it. Even after the longest text, the program looks at the configuration."""
    tester.reports("carriage returns", BLANK_FRONTS)
    for what, text in at_limits():
        tester.reports(what, text)
    for fault, text in past_limits():
        tester.refuses(fault, text.encode())
    _, longest = next(at_limits())
    got = tester.run("litmus", "--lease", "0", "/dev/stdin", text=longest.encode())
    tester.expect(len(longest) == 65536 and got == (3, "", "tardis: bad configuration\n"), f"the longest text: {got}")
    path = "/." * 1900 + str(TOP / "examples/litmus/SB.litmus")  # the host takes 4,095 bytes
    got = tester.run("litmus", path)
    wanted = (0, (TOP / "examples/litmus/SB.report").read_text(), "")
    tester.expect(got == wanted, f"a long path: {got}")


def words_of_the_line(tester):
    """Command lines of long words and numbers: they are refused, and nothing is written."""
    test = str(TOP / "examples/litmus/SB.litmus")
    digits, name = "9" * 60000, "a" * 65536
    options = ("seed", "limit", "workers", "runs", "lease", "time", "banks", "sets", "ways", "bank-sets", "bank-ways",
               "line-words", "messages")
    for option in options:
        refuses_words(tester, 3, "error: ", "litmus", f"--{option}", digits, test)
        refuses_words(tester, 3, "error: ", "litmus", f"--{option}", "-1", test)
        refuses_words(tester, 3, "error: ", "litmus", f"--{option}", "18446744073709551616", test)
        refuses_words(tester, 3, "error: ", "litmus", f"--{option}", "", test)
    for word in (digits, name, "(" * 65536, "\n" * 65536):
        refuses_words(tester, 3, "error: ", word)
        refuses_words(tester, 3, "error: ", "litmus", "--schedule", word, test)
        refuses_words(tester, 3, "error: ", "litmus", f"--{word}", test)
        refuses_words(tester, 3, "error: ", "litmus", test, word)
        refuses_words(tester, 4, "tardis: read failed\n", "litmus", word)
    refuses_words(tester, 3, "error: ", "litmus", *[test] * 10000)
    refuses_words(tester, 3, "tardis: bad command line\n", "litmus", b"\xff")
    refuses_words(tester, 3, "tardis: bad command line\n", b"\x80" * 65536)


def refuses_words(tester, status, error, *words):
    """Standard error is this line; or it begins with `error: `, and has the whole text, to its last line."""
    got = tester.run(*words)
    whole = got[2].startswith(error) and got[2].endswith(MORE) if error == "error: " else got[2] == error
    tester.expect(got[:2] == (status, "") and whole,
                  f"{[word[:20] for word in words[:4]]}: {got[0]} {got[2][:80]!r} .. {got[2][-80:]!r}")


PIECES = [b"0", b" ", b"\n", b"#", b"18446744073709551616", b"64", b"trace 2\n", b"x8"]


def changed(text, generator):
    """The text after up to three changes of a byte, a field or a line."""
    text = bytearray(text)
    for _ in range(generator.randrange(1, 4)):
        at = generator.randrange(len(text) + 1)
        choice = generator.randrange(5)
        if choice == 0:
            text[at:at + 1] = bytes([generator.choice(b"0123456789afAFxRWSAtrace2 \t\r\n\x0b\x0c\xa0#\0\xff")])
        elif choice == 1:
            text[at:at] = generator.choice(PIECES)
        elif choice == 2:
            del text[at:at + generator.randrange(1, 9)]
        elif choice == 3:
            lines = bytes(text).split(b"\n")
            lines.insert(generator.randrange(len(lines)), generator.choice(lines))
            text = bytearray(b"\n".join(lines))
        else:
            del text[at:]
    return bytes(text)


def verdict_of(trace, records):
    """What `check` must say, and its status, by the second program."""
    try:
        issued = Trace(trace).issued()
        verdict = check({}, issued, read_records(records))
    except Fault as fault:
        return 2, "", f"tardis: {fault}\n"
    return 0 if verdict == "legal" else 1, verdict + "\n", ""


def changes(tester, number=600):
    """Traces and records that are changed at random: the answer of `check` is the second program's."""
    generator = random.Random(1)
    examples = sorted((TOP / "examples/traces").glob("*.trace"), key=lambda path: path.stat().st_size)[:40]
    for _ in range(number):
        example = generator.choice(examples)
        texts = [example.read_bytes(), example.with_suffix(".records").read_bytes()]
        which = generator.randrange(2)
        texts[which] = changed(texts[which], generator)
        checks(tester, *texts, f"{example.name}, {texts[which]!r}")


def unlike(tester, number=400):
    """Litmus texts that are changed at random: each has a report, or one line with a line and a kind that there are."""
    generator = random.Random(2)
    examples = sorted((TOP / "examples/litmus").glob("*.litmus"))
    wanted = {f"{number} {name}" for number, name in enumerate(KINDS, 1) if number > 1}
    for _ in range(number):
        text = changed(generator.choice(examples).read_bytes(), generator)
        status, out, error = tester.run("litmus", "--limit", "1000", "/dev/stdin", text=text)
        if status == 2:
            line, kind = error.removeprefix("tardis: line ").removesuffix("\n").split(": ", 1)
            lines = max(1, text.count(b"\n") + (not text.endswith(b"\n")))
            good = out == "" and kind in wanted and 1 <= int(line) <= lines
        else:
            good = status in (0, 1) and error == "" and out.startswith("test ")
        tester.expect(good, f"{text!r}: {status} {error!r}")


PARTS = {"cuts": cuts, "line-cuts": line_cuts, "faults": faults, "ends": ends, "places": places, "bytes": every_byte,
         "sizes": sizes, "limits": limits, "words": words_of_the_line, "changes": changes, "unlike": unlike}
# A part that tries fewer has lost some.
LEAST = {"cuts": 176, "line-cuts": 500, "faults": 100, "ends": 30, "places": 700, "bytes": 4100, "sizes": 50,
         "limits": 28, "words": 70, "changes": 600, "unlike": 400}


def main():
    program, *parts = sys.argv[1:]
    tester = Tester(os.path.abspath(program))
    for name in parts or PARTS:
        before = tester.tried
        PARTS[name](tester)
        print(f"{name}: {tester.tried - before} texts")
        if tester.tried - before < LEAST[name]:
            sys.exit(f"{name} tries {tester.tried - before} texts, and no longer {LEAST[name]} or more")
    print(f"{tester.tried} tried, {tester.wrong} wrong")
    return tester.wrong != 0


if __name__ == "__main__":
    sys.exit(main())
