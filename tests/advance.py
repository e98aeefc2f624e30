#!/usr/bin/env python3
"""Tries tools/advance.py: tests/advance.py PROGRAM.

The traces that it must write, and what it must say of faulty ones, were worked out by hand, and so was what a spinning
core must receive from the program. The last line is `N tried, M wrong`.
"""
import sys
import tempfile
from pathlib import Path

sys.path.insert(0, str(Path(__file__).resolve().parent.parent))
from tests.texts import TOP, Tester  # noqa: E402
from tools import advance  # noqa: E402


FLAG = "0 R 0x0\n0 R 0x0\n"
# The words, the trace, and the trace that must be written.
CASES = [
    ("--whole-words 0", "0 R 0x0:9999\n", "".join(f"0 R {8 * k:#x}\n" for k in range(1250))),
    ("--whole-words 0", "0 R 0x1:1000\n", "".join(f"0 R {8 * k:#x}\n" for k in range(126))),
    ("1", FLAG, "trace 2\n0 R 0x0\n0 A\n0 R 0x0\n0 A\n"),
    ("2", FLAG, "trace 2\n0 R 0x0\n0 R 0x0\n0 A\n"),
    ("3", FLAG, "trace 2\n" + FLAG),
    ("0", FLAG, FLAG),
    ("2", "0 R 0x0\n1 R 0x0\n0 W 0x8 5\n1 S 0x8 6\n1 R 0x0\n",
     "trace 2\n0 R 0x0\n1 R 0x0\n0 W 0x8 5\n0 A\n1 S 0x8 6\n1 A\n1 R 0x0\n"),
    # Comments and blank lines stay; the first line with fields tells the form.
    ("1", "# a\n\n 0\tR 0x0 # b\n", "# a\n\ntrace 2\n 0\tR 0x0 # b\n0 A\n"),
    ("1", "0 R 0x0", "trace 2\n0 R 0x0\n0 A\n"),
    ("1", "# trace 2\n", "# trace 2\n"),
    ("1", "", ""),
    # Of form 2: advances stay and count as no operation.
    ("2", "# a\ntrace 2 # b\n63 R 0x0\n63 A\n63 R 0x0\n07 A\n",
     "# a\ntrace 2 # b\n63 R 0x0\n63 A\n63 R 0x0\n63 A\n07 A\n"),
    ("0", "trace 2\n16 R 0x0\n", "trace 2\n16 R 0x0\n"),
    # Whole words: rounded down, a line for each word that has some of the bytes.
    ("--whole-words 0", "0 R 0x1\n0 W 0x0f 3\n0 S 0x10 4 # c\n", "0 R 0x0\n0 W 0x8 3\n0 S 0x10 4 # c\n"),
    ("--whole-words 0", "0 R 0x6:2\n0 R 0x6:3\n0 W 0x7:10 9 # 0x7\n",
     "0 R 0x0\n0 R 0x0\n0 R 0x8\n0 W 0x0 9 # 0x7\n0 W 0x8 9 # 0x7\n0 W 0x10 9 # 0x7\n"),
    ("--whole-words 0", "0 R 0xffffffffffffffff\n0 R 0xfffffffffffffff9:7\n",
     "0 R 0xfffffffffffffff8\n0 R 0xfffffffffffffff8\n"),
    ("--whole-words 1", "trace 2\n0 A\n0 R 0x6:3\n", "trace 2\n0 A\n0 R 0x0\n0 A\n0 R 0x8\n0 A\n"),
    ("--whole-words 2", "0 R 0x6:4\n1 R 0x1\n", "trace 2\n0 R 0x0\n0 R 0x8\n0 A\n1 R 0x0\n"),
]
HINT = " (--whole-words rounds addresses)"
# The words, the trace, and what standard error says behind the trace's name.
FAULTS = [
    ("--whole-words 0", "0 R 0x0:10000\n", "line 1: 6 BadAddress"),
    ("1", "0 R 0x0\n0 R 0x4\n", f"line 2: 6 BadAddress{HINT}"),
    ("1", "0 R 0x8:4\n", f"line 1: 6 BadAddress{HINT}"),
    ("1", "0 R 0x0\n16 R 0x0\n", "line 2: 4 BadCore"),
    ("1", "0 R 0x0\ntrace 2\n", "line 2: 4 BadCore"),
    ("1", "\n0 A\n", "line 2: 5 BadOperation"),
    ("0", "trace 3\n", "line 1: 9 BadForm"),
    ("1", "0 R 0x0\r\n", f"line 1: 6 BadAddress{HINT}"),
    ("1", "0 W 0x0\n", "line 1: 7 BadValue"),
    ("1", "#" * 257, "line 1: 3 TooLong"),
    ("--whole-words 0", "0 R 0x4:9\n0 R 0x4:0\n", "line 2: 6 BadAddress"),
    ("--whole-words 0", "0 R 0xffffffffffffffff:2\n", "line 1: 6 BadAddress"),
    ("--whole-words 0", "0 R 0x4:9\n0 W 0x9\n", "line 2: 7 BadValue"),
    ("--whole-words 0", "16 R 0x4\n", "line 1: 4 BadCore"),
    ("--whole-words 0", "0 R 0xA\n", "line 1: 6 BadAddress"),
]
# Core 1 loads a flag 60 times, and core 0 stores 1 to it meanwhile. Core 1 gets a lease from time 0 to 10. Without
# advances its time stays 0, so all its loads receive 0. With one after each N loads its first 11 * N loads are at the
# times 0 to 10; then it asks anew, and receives 1.
SPIN = "0 R 0x8\n0 W 0x0 1\n" + "1 R 0x0\n" * 60


def spinning(tester, program, path):
    """What a core that spins receives, by how many of its loads lie between two advances."""
    for after, zeros in ((0, 60), (1, 11), (2, 22), (5, 55), (6, 60)):
        path.write_text(tester.run(str(after), "/dev/stdin", text=SPIN.encode())[1])
        status, out, error = Tester(program).run("trace", "--records", path)
        loads = [fields for fields in map(str.split, out.splitlines()) if fields[0] == "1"]
        got = "".join(fields[4] for fields in sorted(loads, key=lambda fields: int(fields[1])))
        tester.expect((status, error, got) == (0, "", "0" * zeros + "1" * (60 - zeros)), f"{after}: {status} {got}")
    report = Tester(program).run("trace", path)[1]
    tester.expect("\nstale-hits 0\n" not in report, f"the store comes after all loads: {report}")


def long_traces(tester, path):
    """A trace gets no more lines than may be: three here, with the one that names its form."""
    advance.LINES = 3
    for text, good in ((b"0 R 0x0\n", True), (b"\n0 R 0x0\n", False)):  # 3 lines, and 4
        path.write_bytes(text)
        try:
            came = advance.new_trace(str(path), 1).count(b"\n")
        except advance.Bad:
            came = None
        tester.expect(came == (3 if good else None), f"{text}: the limit of lines")


def main(program):
    tester = Tester(str(TOP / "tools/advance.py"))
    for words, text, wanted in CASES:
        got = tester.run(*words.split(), "/dev/stdin", text=text.encode())
        tester.expect(got == (0, wanted, ""), f"{words} of {text!r}: {got}, wanted {wanted!r}")
    for words, text, fault in FAULTS:
        got = tester.run(*words.split(), "/dev/stdin", text=text.encode())
        tester.expect(got == (2, "", f"advance.py: /dev/stdin: {fault}\n"), f"{words} of {text!r}: {got}, not {fault}")
    got = tester.run("1", "-", text=b"0 R 0x0\n")
    tester.expect(got == (0, "trace 2\n0 R 0x0\n0 A\n", ""), f"standard input: {got}")
    got = tester.run("1", "-", text=b"0 R 0x4\n")
    tester.expect(got == (2, "", f"advance.py: -: line 1: 6 BadAddress{HINT}\n"), f"a fault of standard input: {got}")
    for words in (["1"], ["x", "/dev/null"], ["-1", "/dev/null"], ["1", "/dev/null", "--no-such"], ["1", "no-such"]):
        status, out, error = tester.run(*words)
        tester.expect((status, out, error.count("\n")) == (2, "", 1), f"{words}: {status} {out!r} {error!r}")
    with tempfile.TemporaryDirectory() as folder:
        spinning(tester, program, Path(folder, "spin.trace"))
        long_traces(tester, Path(folder, "long.trace"))
    print(f"{tester.tried} tried, {tester.wrong} wrong")
    return int(tester.wrong > 0)


if __name__ == "__main__":
    sys.exit(main(sys.argv[1]) if len(sys.argv) == 2 else __doc__)
