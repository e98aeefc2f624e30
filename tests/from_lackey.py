#!/usr/bin/env python3
"""Tries tools/from_lackey.py: tests/from_lackey.py

The traces were written by hand. Then lackey lists a program's accesses, and the trace must have those that the program
is known to make. The last line is `N tried, M wrong`.
"""
import subprocess
import sys
import tempfile
from pathlib import Path

sys.path.insert(0, str(Path(__file__).resolve().parent.parent))
from reference.traces import Trace  # noqa: E402
from tests.texts import TOP, Tester  # noqa: E402


LACKEY = "==7== lackey\nI  04016b80,3\n L 00001006,4\n S 0000100c,4\n M 00002000,8\nI  04016b83,5\n"
# The load touches two words. The modification loads and stores.
WORDS = ["0 R 0x1000", "0 R 0x1008", "0 W 0x1008 1", "0 R 0x2000", "0 W 0x2000 2"]
# Files, options, the trace without its first line, and what standard error says.
GOOD = [
    ([LACKEY], "", WORDS, ""),
    ([LACKEY], "--skip 1 --most 2", WORDS[1:3], "from_lackey.py: 2 more lines are left out\n"),
    ([" S 8,8\n", " L 8,1\n"], "--shared", ["0 W 0x8 1", "1 R 0x8"], ""),
    ([" S 8,8\n", " L 8,1\n"], "", ["0 W 0x8 1", "1 R 0x1000000000008"], ""),
    ([""], "", [], ""),
    (["0,W,8\n"], "", [], "from_lackey.py: f0: no line is an access as lackey lists it with --trace-mem=yes\n"),
    (["==7== I   refs: 9\n", " L 8,1\n"], "--shared", ["1 R 0x8"],
     "from_lackey.py: f0: no line is an access as lackey lists it with --trace-mem=yes\n"),
    (["0,R,0x10\r\n63, W ,24,8,5\n\n1,S,0x8,,7\n1,W,0x7,2\n2,W,9,1,\n3,W,0,8,0\n"], "--csv",
     ["0 R 0x10", "63 W 0x18 5", "1 S 0x8 7", "1 W 0x0 1", "1 W 0x8 1", "2 W 0x8 2", "3 W 0x0 0"], ""),
]
WANTED, RANGES = "line 2: CORE,R|W|S,ADDRESS", "line 2: a core to 63, R, W or S, 1 to 9999 bytes"
BAD = [("core,kind,address", WANTED), ("0,R", WANTED), ("0,R,8,8,5,5", WANTED), ("0,R,x", WANTED), ("64,R,8", RANGES),
       ("0,L,8", RANGES), ("0,R,8,0", RANGES), ("0,R,-8", RANGES), (f"0,W,8,8,{2 ** 64}", RANGES),
       ("0,R,0xffffffffffffffff,2", RANGES)]
PROGRAM = "#include <stdint.h>\nvolatile uint64_t words[3];\nint main(void) { words[0] = 1; return (int)words[2]; }\n"


def by_hand(tester, folder):
    for texts, options, wanted, said in GOOD:
        paths = [Path(folder, f"f{at}") for at in range(len(texts))]
        for path, text in zip(paths, texts):
            path.write_text(text, newline="")
        status, out, error = tester.run(*options.split(), *map(str, paths))
        good = (status, error.replace(f"{folder}/", "")) == (0, said) and out.splitlines() == ["trace 2", *wanted]
        tester.expect(good and Trace(out.encode()), f"{texts} {options}: {status} {out} {error}, wanted {wanted}")
    for line, wanted in BAD:
        path.write_text(f"0,R,8\n{line}\n")
        status, _, error = tester.run("--csv", str(path))
        tester.expect(status == 2 and wanted in error and error.count("\n") == 1, f"{line}: {status} {error}")
    path.write_text(" L ffffffffffffffff,2\n")
    status, out, error = tester.run(str(path))
    wanted = "from_lackey.py: an access of 2 bytes at 0xffffffffffffffff: addresses have 64 bits\n"
    tester.expect((status, out, error) == (2, "", wanted), f"an address past 64 bits: {status} {out} {error}")
    path.write_text(" S 8,8\n")
    for count, wanted in ((64, (0, 65, "")), (65, (2, 0, "from_lackey.py: a trace has at most 64 cores\n"))):
        status, out, error = tester.run(*[str(path)] * count)
        tester.expect((status, out.count("\n"), error) == wanted, f"{count} files: {status} {out[:99]} {error}")
    status, _, error = tester.run("none")
    tester.expect((status, error) == (2, "from_lackey.py: none: No such file or directory\n"), f"none: {error}")


def by_lackey(tester, folder):
    """Of two words next to each other but one, the first is stored and the other one loaded."""
    source, program, listed = Path(folder, "p.c"), Path(folder, "p"), Path(folder, "p.lackey")
    source.write_text(PROGRAM)
    subprocess.run(["gcc", "-O1", "-no-pie", str(source), "-o", str(program)], check=True)
    named = subprocess.run(["nm", str(program)], check=True, capture_output=True, text=True).stdout
    address = next(int(line.split()[0], 16) for line in named.splitlines() if line.endswith(" words"))
    subprocess.run(["valgrind", "--tool=lackey", "--trace-mem=yes", f"--log-file={listed}", str(program)], check=False)
    status, out, error = tester.run(str(listed))
    trace = Trace(out.encode())
    found = [step[:2] for step in trace.steps[0] if step[0] != "load" and step[1] == address // 8 or
             step[1] == address // 8 + 2]
    tester.expect((status, error, trace.cores) == (0, "", 1) and
                  [found.count(step) for step in (("store", address // 8), ("load", address // 8 + 2))] == [1, 1],
                  f"lackey: {status} {error} {found}")


def main():
    tester = Tester(str(TOP / "tools/from_lackey.py"))
    with tempfile.TemporaryDirectory() as folder:
        by_hand(tester, folder)
        by_lackey(tester, folder)
    print(f"{tester.tried} tried, {tester.wrong} wrong")
    return int(tester.wrong > 0)


if __name__ == "__main__":
    sys.exit(main() if len(sys.argv) == 1 else __doc__)
