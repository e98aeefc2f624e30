#!/usr/bin/env python3
"""Tries tools/witness.py: tests/witness.py PROGRAM.

The second program makes the runs one by one: the script must print its first seed of each end, and how many runs have
it. Each command that the script prints must have that end as its one state. The last line is `N tried, M wrong`.
"""
import os
import shlex
import sys
import tempfile
from pathlib import Path

sys.path.insert(0, str(Path(__file__).resolve().parent.parent))
from reference import oracle, order, reports  # noqa: E402
from tests.texts import TOP, Tester  # noqa: E402


# A test of the catalogue, and options; how many seeds from which one on. In the last two some runs aren't all done.
CASES = [("SB+yes", "", 60, 0), ("MP", "--lease 1", 50, 990), ("2+2W", "--line-words 8", 50, 7),
         ("PRIVATE", "--private-write", 50, 0), ("SB", "--workers 16", 12, 2 ** 64 - 1),
         ("WRC", "--banks 2 --sets 1 --ways 1", 40, 2 ** 64 - 20), ("LEASE", "--lease 1 --limit 100", 60, 5000),
         ("SB+forall", "--limit 80", 60, 0)]
NO_FILE, CUT, SB = "none.litmus", "examples/bad/SB-cut.litmus", "examples/litmus/SB.litmus"


def ends_by_hand(path, options, seeds, first):
    """Each end with its count, its first seed and whether the expression holds, in the order of first seeds."""
    test = oracle.read_litmus(path)
    options = oracle.words().parse_args(["litmus", "--schedule", "seed", *options, path])
    ends = {}
    for number in range(seeds):
        seed = (first + number) % 2 ** 64
        run, end = reports.drive(options, test.programs(), test.memory, seed)
        holds = False
        if end == "all-done":
            values = test.end_values(run.programs, order.end_memory(test.memory, run.machine.records))
            holds = test.holds(values)
            end = " ".join(f"{name}={value}" for name, value in values)
        ends.setdefault(end, [0, seed, holds])[0] += 1
    return ends


def told_ends(text):
    """What the script says: each end with the same, and its command's words."""
    lines = text.splitlines()
    for line, command in zip(lines[1::2], lines[2::2]):
        end, _, rest = line[2:].rpartition(": ")
        count, rest = rest.split(" of ")
        yield end, [int(count), int(rest.rsplit(" ", 1)[1]), line[0] == "*"], shlex.split(command)


def tries(tester, name, options, seeds, first):
    path = f"examples/litmus/{name}.litmus"
    wanted = ends_by_hand(path, options.split(), seeds, first)
    status, out, error = tester.run("--seeds", str(seeds), "--seed", str(first), *options.split(), path)
    told = list(told_ends(out))
    tester.expect((status, error) == (0, ""), f"{name}: {status} {error}")
    tester.expect(out.startswith(f"{name}: {seeds} seeds from {first}, {len(wanted)} ends\n"), f"{name}: {out}")
    tester.expect([(end, what) for end, what, _ in told] == list(wanted.items()), f"{name}: {out}, wanted {wanted}")
    for end, _, command in told:
        tester.expect(command[:2] == ["./tardis", "litmus"], f"{name}: {command}")
        report = Tester(os.environ["TARDIS"]).run(*command[1:])[1].splitlines()
        state = f"{end} 1" if " " not in end and "=" not in end else f"1 {end}"
        tester.expect(state in report, f"{name}: {shlex.join(command)} doesn't end with {end}")


def refusals(tester):
    for words, wanted in (([NO_FILE], f"{NO_FILE}: No such file or directory"), ([CUT], f"{CUT}: line 6: 14 CutShort"),
                          (["--seeds", "0", CUT], "argument --seeds: 0 isn't a number from 1 to"),
                          (["--seed", "-1", CUT], "argument --seed: -1 isn't a number from 0 to"),
                          (["--seed", str(2 ** 64), CUT], f"from 0 to {2 ** 64 - 1}"),
                          (["--lease", "0", CUT], "argument --lease: 0 isn't a number from 1 to"),
                          (["--workers", "17", CUT], "from 1 to 16"), (["--runs", "4", CUT], "--seeds says how many"),
                          (["--line-words", "3", SB], "bad configuration"), (["examples"], "Is a directory"),
                          ([], "required")):
        status, out, error = tester.run(*words)
        good = (status, out) == (2, "") and wanted in error and error.count("\n") == 1
        tester.expect(good, f"{words}: {status} {out} {error}, wanted {wanted}")
    status, out, error = tester.run("--help")
    tester.expect((status, error) == (0, "") and "--seeds" in out, f"--help: {status} {error}")


def piped(tester):
    """A test that can be read only once: each range of seeds has it anew."""
    got, wanted = tester.run("--seeds", "20", "/dev/stdin", text=Path(SB).read_bytes()), tester.run("--seeds", "20", SB)
    tester.expect((got[0], got[1].replace("/dev/stdin", SB), got[2]) == wanted and wanted[0] == 0, f"a pipe: {got}")


def a_dash(tester):
    """A test whose name begins with a dash, in the folder where the script runs."""
    text = Path(SB).read_bytes()
    with tempfile.TemporaryDirectory() as folder:
        os.chdir(folder)
        Path("-x.litmus").write_bytes(text)
        status, out, error = tester.run("--seeds", "1", "--", "-x.litmus")
        os.chdir(TOP)
    tester.expect((status, error) == (0, "") and out.endswith(" ./-x.litmus\n"), f"a dash: {status} {out} {error}")


# A program by which the runs up to seed 1,000,002 end as x=0, and those behind it as x=1.
TWO_ENDS = """#!/bin/sh
while [ "$1" != --seed ]; do shift; done
zeros=$((1000003 - $2)) runs=1
[ "$3" != --runs ] || runs=$4
[ $zeros -ge 0 ] || zeros=0
[ $zeros -le $runs ] || zeros=$runs
printf '%s\\n' 'test T' 'stalled 0' 'limit 0' 'exhausted 0' 'memory 0' "held $((runs - zeros))"
[ $zeros -eq 0 ] || echo "$zeros x=0"
[ $zeros -eq $runs ] || echo "$((runs - zeros)) x=1"
"""


def beyond_a_million(tester):
    """No report has more than 1,000,000 seeds; those after them are found in the next."""
    kept = os.environ["TARDIS"]
    with tempfile.TemporaryDirectory() as folder:
        program = Path(folder, "program")
        program.write_text(TWO_ENDS)
        program.chmod(0o755)
        os.environ["TARDIS"] = str(program)
        status, out, error = tester.run("--seeds", "1000010", SB)
    os.environ["TARDIS"] = kept
    lines = ["T: 1000010 seeds from 0, 2 ends", "  x=0: 1000003 of 1000010, first by seed 0",
             "* x=1: 7 of 1000010, first by seed 1000003"]
    tester.expect((status, error, out.splitlines()[:1] + out.splitlines()[1::2]) == (0, "", lines), f"{out} {error}")


# A program whose runs all stall.
STALLED = """#!/bin/sh
printf '%s\\n' 'test T' 'stalled 5' 'limit 0' 'exhausted 0' 'memory 0' 'held 0'
"""


def stalled(tester):
    """Runs that stall have a row."""
    kept = os.environ["TARDIS"]
    with tempfile.TemporaryDirectory() as folder:
        program = Path(folder, "program")
        program.write_text(STALLED)
        program.chmod(0o755)
        os.environ["TARDIS"] = str(program)
        status, out, error = tester.run("--seeds", "5", SB)
    os.environ["TARDIS"] = kept
    good = "T: 5 seeds from 0, 1 ends\n  stalled: 5 of 5, first by seed 0\n" in out
    tester.expect((status, error) == (0, "") and good, f"stalled: {status} {out} {error}")


# A program that has no memory for a report: nothing on standard output, with the status of runs that aren't all done.
NO_MEMORY = "#!/bin/sh\necho 'tardis: no memory' >&2\nexit 1\n"


def no_memory(tester):
    """What the program says is said, in one line."""
    kept = os.environ["TARDIS"]
    with tempfile.TemporaryDirectory() as folder:
        program = Path(folder, "program")
        program.write_text(NO_MEMORY)
        program.chmod(0o755)
        os.environ["TARDIS"] = str(program)
        got = tester.run("--seeds", "5", SB)
    os.environ["TARDIS"] = kept
    tester.expect(got == (2, "", f"witness.py: {SB}: no memory\n"), f"no memory: {got}")


def main(program):
    os.environ["TARDIS"] = os.path.abspath(program)
    os.chdir(TOP)
    tester = Tester(str(TOP / "tools/witness.py"))
    for case in CASES:
        tries(tester, *case)
    refusals(tester)
    a_dash(tester)
    piped(tester)
    beyond_a_million(tester)
    stalled(tester)
    no_memory(tester)
    print(f"{tester.tried} tried, {tester.wrong} wrong")
    return int(tester.wrong > 0)


if __name__ == "__main__":
    sys.exit(main(sys.argv[1]) if len(sys.argv) == 2 else __doc__)
