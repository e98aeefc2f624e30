#!/usr/bin/env python3
"""Refuses the program memory, reads and writes, each in turn: tests/refusals.py PROGRAM SHIM [PART..].

PROGRAM is the built program, SHIM the shared object made of tests/refuse.c; tests/refusals.sh makes both. What a whole
run must print comes from the examples, whose reports the second program made. The second program also gives the
reports that a run may have which ended with a failed allocation (ended_runs.py); all else follows from docs/TEXTS.md.
Each part prints what it tried; the last line is `N tried, M wrong`. The parts `steps`, `lists` and `drives` need the
player crates/play_events as PROGRAM, and `seats` needs crates/play_seats.
"""
import os
import subprocess
import sys
import tempfile
from pathlib import Path

TOP = Path(__file__).resolve().parent.parent
sys.path.insert(0, str(TOP))
from reference import oracle  # noqa: E402
from tests.ended_runs import told_of  # noqa: E402
from tests.refused_batches import refused_batches  # noqa: E402
from tests.refused_hosts import refused_hosts  # noqa: E402
from tests.refused_players import refused_drives, refused_lists, refused_seats, refused_steps  # noqa: E402
from tests.refused_threads import refused_threads  # noqa: E402


LITMUS = TOP / "examples" / "litmus"
SB_ENDS = ("test SB\nthreads 2\nstates 13\nends 3\n  0:x7=0 1:x7=1\n  0:x7=1 1:x7=0\n  0:x7=1 1:x7=1\n"
           "condition exists\nheld 0\nobservation SB Never 0 3\n")
TRACES = TOP / "examples" / "traces"
NO_MEMORY = (1, "", "tardis: no memory\n")
SWITCHES = {name: value for name, value in os.environ.items() if name.startswith("MUTANT")}  # of a changed program

LOADS = 20000
# One core loads one word, again and again: a hit each time but the first, at time 0.
MANY_LOADS = f"""cores 1
issued {LOADS}
completed {LOADS}
end all-done
loads {LOADS}
stores 0
swaps 0
renewals 0
upgrades 0
flushes 0
write-backs 0
stale-hits 0
order legal
word 0x0 0
"""


class Refused:
    """The result of a run: what the shim reports, its status, and what it wrote.

    The shim says whether anything was refused, and if so, whether threads were at work; how many were started; and how
    often one slept for 50 microseconds, if it is asked that, and no other sleep.
    """

    def __init__(self, told, status, out, error):
        self.told, self.status, self.out, self.error = told, status, out, error
        self.is_at_work, self.started, self.sleeps = "w" in told, told.count("t"), told.count("s") - told.count("z")
        self.refused = self.is_at_work or "!" in told

    def answer(self):
        return self.status, self.out, self.error


class Tester:
    def __init__(self, program, shim):
        self.program, self.shim = program, shim
        self.tried = self.wrong = 0

    def run(self, words, lines=(), **refusals):
        """The program with these words, and with these lines on standard input."""
        reader, writer = os.pipe()
        environment = SWITCHES | {"LD_PRELOAD": self.shim, "REFUSE_TOLD": str(writer)}
        environment |= {f"REFUSE_{name.upper()}": str(value) for name, value in refusals.items()}
        ran = subprocess.run([self.program, *map(str, words)], env=environment, pass_fds=[writer], timeout=600,
                             input=text_of(lines).encode(), capture_output=True)
        os.close(writer)
        with open(reader, "rb") as shim:
            told = shim.read().decode()
        return Refused(told, ran.returncode, ran.stdout.decode(), ran.stderr.decode(errors="replace"))

    def expect(self, good, what):
        self.tried += 1
        if not good:
            self.wrong += 1
            print(f"wrong: {what}")

    def sweep(self, what, words, name, how, usual, allowed):
        """Refuses the 1st, 2nd, .. until nothing is left to refuse; then the answer is the usual one.

        It may be so earlier, if the program can do without what was refused: a sort then sorts in place.
        """
        number = done_without = counted = 0
        while True:
            number += 1
            ran = self.run(words, **{name: f"{number}{how}"})
            if not ran.refused:
                self.expect(ran.answer() == usual, f"{what}, nothing refused: {ran.answer()}")
                break
            usually = name == "growth" and ran.answer() == usual
            done_without += usually
            counted += not usually and ran.answer() != NO_MEMORY
            self.expect(usually or allowed(ran), f"{what}, {name} {number}{how}: {ran.answer()}")
        print(f"{what}, {name} {how or 'alone'}: {number - 1} refused, {done_without} of them done without, "
              f"{counted} told otherwise than by no memory")
        return counted


def options_of(text):
    """The options that an example names in its header line options=, or in its comment."""
    for line in text.read_text().splitlines():
        if line.removeprefix("# ").startswith("options="):
            return line.removeprefix("# ").removeprefix("options=").split()
    return []


class Told:
    """Whether the program reports a refusal as it must: no memory; or one or more runs that ended with it.

    The second program gives the reports that it may have then. A refusal that comes later ends a single run no
    earlier.
    """

    def __init__(self, words):
        self.texts, self.is_single, self.at = told_of(words), "--runs" not in words, 0

    def __call__(self, ran):
        if ran.answer() == NO_MEMORY:
            return True
        if ran.status != 1 or ran.error or ran.out not in self.texts:
            return False
        if self.is_single:
            rest = self.texts[self.at:]
            if ran.out not in rest:
                return False
            self.at += rest.index(ran.out)
        return True


def said(ran):
    return ran.answer() == NO_MEMORY


def runs():
    """Commands that run a machine, each with what it prints."""
    for text in (LITMUS / "SB.litmus", LITMUS / "IRIW.litmus", LITMUS / "SB+forall.litmus", LITMUS / "SWAP.litmus"):
        yield text.name, ["litmus", text], text.with_suffix(".report").read_text()
    words = ["litmus", "--schedule", "seed", "--runs", "3", LITMUS / "SB.litmus"]
    yield "three seeds of SB", words, oracle.run(oracle.words().parse_args([*map(str, words)]))[0]
    for name in ("BANK-EVICTIONS", "FALSE-SHARING", "ADVANCES", "STALE-HITS", "SEED-EVICTIONS"):
        text = TRACES / f"{name}.trace"
        words = ["trace", *options_of(text), text]
        yield name, words, text.with_suffix(".report").read_text()
        yield f"{name} --records", [*words, "--records"], text.with_suffix(".records").read_text()
    text = TRACES / "BANK-EVICTIONS.trace"
    for flags in ("--counts", "--counts --every 2", "--json --counts --every 2", "--json"):
        words = ["trace", *flags.split(" "), *options_of(text), text]
        yield f"{text.name} {flags}", words, oracle.run(oracle.words().parse_args([*map(str, words)]))[0]
    for flags in ("--stream", "--stream --records --cores 16", "--stream --json --cores 16"):
        words = ["trace", *flags.split(" "), *options_of(text), text]
        yield f"{text.name} {flags}", words, oracle.run(oracle.words().parse_args([*map(str, words)]))[0]
    words = ["litmus", "--json", LITMUS / "SB.litmus"]
    yield "SB --json", words, oracle.run(oracle.words().parse_args([*map(str, words)]))[0]


def growths(tester):
    """Each growth of memory is refused alone; then with each later one.

    Refused alone, some growths are those of a run, whose report then says that it ended with a failed allocation.
    """
    for what, words, usual in runs():
        counted = tester.sweep(what, words, "growth", "", (0, usual, ""), Told(words))
        tester.expect(counted > 0, f"{what}: no refused run was told")
        tester.sweep(what, words, "growth", "+", (0, usual, ""), Told(words))
    with tempfile.TemporaryDirectory() as folder:
        for what, words, usual in without_runs(Path(folder)):
            for how in ("", "+"):
                tester.sweep(what, words, "growth", how, usual, said)


def without_runs(folder):
    """Commands that end without a run, each with its answer: the status, standard output and standard error."""
    cut, late, waits, wrong, loads, falling, opening, twice = (
        folder / name for name in ("cut", "late", "waits", "wrong", "loads", "falling", "opening", "twice"))
    cut.write_text("RISCV A\n{ x=1;\n")
    late.write_text("0 R 0x0\n" * 40 + "0 R 0x4\n")
    waits.write_text("0 R 0x0\n" * 3100 + "0 R 0x4\n")
    trace = TRACES / "ADVANCES.trace"
    records = trace.with_suffix(".records")
    wrong.write_text("0 0 W 0x0 1 1 0\n")
    loads.write_text("0 R 0x0\n" * 40)
    falling.write_text("".join(f"0 {number} R 0x0 0 {40 - number} {number}\n" for number in range(40)))
    opening.write_text("".join(f"{8 * word:#x} {word}\n" for word in range(40)))
    twice.write_text(opening.read_text() + "0x0 0\n")
    yield "records, checked", ["check", trace, records], (0, "legal\n", "")
    yield "no records over an opening", ["check", "--opening", opening, loads, "/dev/null"], (0, "legal\n", "")
    yield "an opening with a fault", ["check", "--opening", twice, loads, "/dev/null"], (
        2, "", "tardis: opening: line 41: 10 DoubleWord\n")
    yield "other records, checked", ["check", trace, wrong], (1, "out of program order 0\n", "")
    yield "records whose times fall", ["check", loads, falling], (1, "out of program order 39\n", "")
    yield "no records, all asked for", ["check", "--complete", loads, "/dev/null"], (
        1, "no record of operation 0 of core 0\n", "")
    yield "the ends of SB", ["ends", LITMUS / "SB.litmus"], (0, SB_ENDS, "")
    yield "a test that is cut", ["litmus", cut], (2, "", "tardis: line 2: 14 CutShort\n")
    yield "a trace with a fault", ["trace", late], (2, "", "tardis: line 41: 6 BadAddress\n")
    yield "a trace with a fault, behind steps that wait in blocks", ["trace", "--stream", "--cores", "2", waits], (
        2, "", "tardis: line 3101: 6 BadAddress\n")
    yield "records with a fault", ["check", trace, late], (2, "", "tardis: line 1: 7 BadValue\n")
    yield "no machine", ["trace", "--lease", "0", trace], (3, "", "tardis: bad configuration\n")
    yield "no file", ["trace", folder / "none"], (4, "", "tardis: read failed\n")
    yield "no such number", ["litmus", "--limit", "0", cut], (
        3, "", "error: invalid value '0' for '--limit <limit>': 0 is not in 1..=4294967295\n\n"
        "For more information, try '--help'.\n")


def commands(folder):
    """A command of each kind, with what it prints, and one whose text is read in many blocks."""
    many = Path(folder, "many.trace")
    many.write_text("0 R 0x0\n" * LOADS)
    opening, loads, loaded = (Path(folder, name) for name in ("opening", "loads", "loaded"))
    opening.write_text("0x0 5\n0x8 6\n")
    loads.write_text("0 R 0x0\n")
    loaded.write_text("0 0 R 0x0 5 0 0\n")
    text, trace = LITMUS / "SB.litmus", TRACES / "FALSE-SHARING.trace"
    options = options_of(trace)
    return [
        (["litmus", text], text.with_suffix(".report").read_text()),
        (["ends", text], SB_ENDS),
        (["trace", *options, trace], trace.with_suffix(".report").read_text()),
        (["trace", "--records", *options, trace], trace.with_suffix(".records").read_text()),
        (["trace", "--stream", *options, trace], trace.with_suffix(".report").read_text()),
        (["trace", "--stream", "--records", *options, trace], trace.with_suffix(".records").read_text()),
        (["check", trace, trace.with_suffix(".records")], "legal\n"),
        (["check", "--opening", opening, loads, loaded], "legal\n"),
        (["trace", many], MANY_LOADS),
    ]


def few_calls(tester, folder):
    """70,000 bytes come in few reads, and a text goes in one write."""
    trace = Path(folder, "long.trace")
    trace.write_text("0 R 0x0\n" * 8750)
    ran = tester.run(["check", trace, "/dev/null"], read="20:error")
    tester.expect(ran.answer() == (0, "legal\n", ""), f"more than 19 reads: {ran.answer()}")
    ran = tester.run(["trace", "--records", "--limit", 4294967295, trace], write="2:error")
    tester.expect(ran.status == 0 and ran.out.count("\n") == 8750, f"more than one write: {ran.status} {ran.error}")


def devices(tester):
    """A read that fails: status 4 and nothing written. A write that fails, or takes nothing: a beginning is written.

    A read or write that moves one byte at a time changes nothing. If such a one fails, the script lets it fail after
    each byte.
    """
    with tempfile.TemporaryDirectory() as folder:
        for words, usual in commands(folder)[:-1]:
            device(tester, words, usual)
            behind_each_byte(tester, words, usual)
        device(tester, *commands(folder)[-1])
        few_calls(tester, folder)


def device(tester, words, usual):
    what, whole = " ".join(Path(word).name for word in words), (0, usual, "")
    for how in (":error", ":interrupted"):
        tester.sweep(what, words, "read", how, whole,
                     lambda ran: ran.answer() == (4, "", "tardis: read failed\n"))
    for how in (":error", ":interrupted", ":nothing"):
        tester.sweep(what, words, "write", how, whole,
                     lambda ran: (ran.status, ran.error) == (4, "tardis: write failed\n")
                     and usual.startswith(ran.out) and ran.out != usual)
    for name in ("read", "write"):
        ran = tester.run(words, **{name: "1:short"})
        tester.expect(ran.refused and ran.answer() == whole, f"{what}, {name} by single bytes: {ran.answer()}")


def behind_each_byte(tester, words, usual):
    what = " ".join(Path(word).name for word in words)
    bytes_read = sum(Path(word).stat().st_size for word in words if os.path.exists(word))
    for number in range(1, bytes_read + 1):
        ran = tester.run(words, read=f"{number}:late")
        tester.expect(ran.refused and ran.answer() == (4, "", "tardis: read failed\n"), f"{what}, read {number}: late")
    for number in range(1, len(usual) + 1):
        ran = tester.run(words, write=f"{number}:late")
        tester.expect(ran.refused and ran.answer() == (4, usual[:number - 1], "tardis: write failed\n"),
                      f"{what}, write {number}: {ran.answer()}")
    print(f"{what}: a read fails behind each of {bytes_read} bytes, a write behind each of {len(usual)}")


def host(tester):
    """What the host itself refuses (refused_hosts.py)."""
    with tempfile.TemporaryDirectory() as folder:
        refused_hosts(tester, Path(folder), commands(folder))


def text_of(lines):
    return "".join(line + "\n" for line in lines)


# The parts of the program, which are run if none is named; and those of the players.
PARTS = {"growths": growths, "threads": refused_threads, "batches": refused_batches, "devices": devices,
         "host": host}
# A part that refuses less often has lost some.
LEAST = {"growths": 6000, "threads": 1200, "batches": 1400, "devices": 1300, "host": 220, "steps": 1200, "lists": 800,
         "drives": 700, "seats": 500}
PLAYER_PARTS = {"steps": refused_steps, "lists": refused_lists, "drives": refused_drives, "seats": refused_seats}


def main():
    program, shim, *parts = sys.argv[1:]
    tester = Tester(os.path.abspath(program), os.path.abspath(shim))
    for name in parts or PARTS:
        before = tester.tried
        (PARTS | PLAYER_PARTS)[name](tester)
        if tester.tried - before < LEAST[name]:
            sys.exit(f"{name} refuses {tester.tried - before} times, and no longer {LEAST[name]} or more")
    print(f"{tester.tried} tried, {tester.wrong} wrong")
    return tester.wrong != 0


if __name__ == "__main__":
    sys.exit(main())
