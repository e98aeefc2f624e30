#!/usr/bin/env python3
"""Tries `tardis trace --stream`: tests/streams.py PROGRAM [PART ..] [--traces N] [--seed N] [--self-test]

What it writes must be what `trace` writes, byte for byte: of the examples, and of random traces on random machines,
some longer than what is read ahead. By rounds that is so with as many cores as the trace has, with more, and by default.
By a seed it is so with as many as the trace has; with more it must be what the second program writes. So must its JSON
and its report without words. If a line is at fault, standard error says which. What was written before must be a
beginning of the records of the lines before it, and no more than the second program can write (docs/STREAMS.md).

Pipes are tried that stay open or are long, and readers that leave early. With `--progress` lines on standard error tell
how far a run of 2,000,000 operations is; all else must be as without. The parts are examples, faults, cut_texts,
cores, odd_texts, pipes, memory, waits, long, which is a text of 20,000,000 lines, progress, and at_random.
--traces and --seed say how many traces are drawn, and which. --self-test spoils each answer: first the status, then the
output, then standard error; and says which comparison doesn't notice. The last line is `N tried, M wrong`.
"""
import argparse
import os
import random
import re
import select
import subprocess
import sys
import tempfile
import threading
from pathlib import Path

sys.path.insert(0, str(Path(__file__).resolve().parent.parent))
from reference import oracle  # noqa: E402
from reference.traces import Fault, Trace  # noqa: E402
from tests.expected import options_of  # noqa: E402
from tests.texts import PATIENCE, TOP, Tester, form_2_faults, moved, of_printf, one_line_faults, rows  # noqa: E402

FORMS = [], ["--records"], ["--json"]
WITHOUT_WORDS = ["--no-words"], ["--no-words", "--json"]
AHEAD = 4096  # steps that are read ahead at least
BLOCK = 1024  # steps of a core that wait together
NO_LIMIT = ["--limit", "4294967295"]
MILLION = 1000000
# A line of `--progress`, and the lines of a report that have the same numbers at the end of the run.
PROGRESS = re.compile(r"tardis: (\d+) operations, (\d+) renewals, (\d+) upgrades, (\d+) flushes, "
                      r"(\d+) write-backs, (\d+) stale hits\n")
COUNTED = "completed", "renewals", "upgrades", "flushes", "write-backs", "stale-hits"
# What spoils an answer: a part of status, output and standard error each.
SPOILERS = {"status": lambda status, out, error: (status ^ 1, out, error),
            "output": lambda status, out, error: (status, other_digit(out), error),
            "standard error": lambda status, out, error: (status, out, other_digit(error))}


def other_digit(text):
    """A text whose last digit is another one; one more digit, if it has none."""
    at = max(text.rfind(digit) for digit in "0123456789")
    return text + "0" if at < 0 else f"{text[:at]}{(int(text[at]) + 1) % 10}{text[at + 1:]}"


class Streams(Tester):
    """Runs the program with `--stream`, and without. `spoil` changes each answer of the first."""

    spoil = None

    def stream(self, *words, text=None):
        return self.came(self.run("trace", "--stream", *words, text=text))

    def came(self, answer):
        return self.spoil(*answer) if self.spoil else answer

    def expect(self, good, what):
        """While answers are spoilt, each comparison must fail."""
        super().expect(good != bool(self.spoil), f"not noticed: {what[:200]}" if self.spoil else what)

    def covers(self, good, what):
        """What is said of the texts alone, not of an answer."""
        if not self.spoil:
            self.expect(good, what)


def without_words(answer):
    """The same answer, but that its report has no words."""
    status, out, error = answer
    return status, re.sub(r'"words":{.*?}', '"words":{}', re.sub(r"(?m)^word .*\n", "", out)), error


def numbers_of_cores(cores):
    """The words that give the machine as many cores as the trace has, more, and as many as by default."""
    return ["--cores", str(cores)], ["--cores", str(min(64, cores + 1 + cores % 5))], []


def same(tester, path, options, cores, choices):
    """What is streamed is what `trace` writes: each form, with these numbers of cores, and by a seed with as many as
    the trace has. Answers the report."""
    plain = {tuple(form): tester.run("trace", *form, *options, path) for form in FORMS}
    wanted = [(form, plain[tuple(form)]) for form in FORMS]
    wanted += [(form, without_words(plain[tuple(form[1:])])) for form in WITHOUT_WORDS]
    for at, (form, answer) in enumerate(wanted):
        for choice in [0] if is_seeded(options) else choices(at):
            words = [*form, *numbers_of_cores(cores)[choice], *options, path]
            got = tester.stream(*words)
            tester.expect(got == answer, f"{words}: {shown(got)}, wanted {shown(answer)}")
    return plain[()][1]


def is_seeded(options):
    return "seed" in options


def by_seed(options, seed):
    """The same options, but that a seed has the run."""
    return [*(word for word in options if word != "--fair"), "--schedule", "seed", "--seed", str(seed)]


def shown(answer):
    """An answer that isn't too long."""
    status, out, error = answer
    return status, f"{out[:300]} .. {out[-300:]}" if len(out) > 700 else out, error


def examples(tester, folder):
    """All examples, as they are run, in each form and with each number of cores; those by rounds also by a seed."""
    seen = {False: 0, True: 0}
    for number, path in enumerate(sorted((TOP / "examples/traces").glob("*.trace"))):
        options, cores = options_of(path), Trace(path.read_bytes()).cores
        if "threads" not in options:
            seen[is_seeded(options)] += 1
            same(tester, str(path), options, cores, lambda at: range(3))
            if not is_seeded(options):
                same(tester, str(path), by_seed(options, number), cores, lambda at: range(3))
    tester.covers(seen[False] > 30 and seen[True] > 10, f"only {seen} examples")


def drawn_trace(draw, is_long):
    """The text of a trace, in the order that the cores' lines have in it."""
    cores, steps = draw.randint(1, 16), draw.randrange(AHEAD + 1, 4 * AHEAD) if is_long else draw.randrange(1, 150)
    form, words = draw.choice([1, 2]), draw.choice([1, 3, 8, 30, 500])
    letters = draw.choice(["RRRWWS", "RRRRRRRW", "R", "WS"]) + "A" * (form - 1)
    turns = draw.choice([lambda at: draw.randrange(cores), lambda at: at % cores, lambda at: at * cores // steps,
                         lambda at: at // 37 % cores, lambda at: min(draw.randrange(cores), draw.randrange(cores))])
    lines = ["trace 2"] * (form - 1)
    for at in range(steps):
        letter, address = draw.choice(letters), f" {8 * draw.randrange(words):#x}"
        behind = "" if letter == "A" else address if letter == "R" else f"{address} {draw.randrange(9)}"
        lines.append(f"{turns(at)} {letter}{behind}")
        if draw.random() < 0.01:
            lines.append(draw.choice(["", "# a comment", " \t"]))
    return "\n".join(lines) + draw.choice(["\n", ""])


def drawn_options(draw, is_long):
    """A machine, mostly small, and a limit that may cut the run; few messages stall it."""
    few = draw.choice
    options = {"--lease": few([1, 2, 10]), "--banks": few([1, 1, 3]), "--sets": few([1, 2, 64]), "--ways": few([1, 4]),
               "--bank-sets": few([1, 2, 256]), "--bank-ways": few([1, 2, 8, 16]), "--line-words": few([1, 1, 8]),
               "--messages": few([1, 2, 5, 30, 4096, 4096, 4096, 4096]), "--time": few([0, 0, 0, 2 ** 64 - 40]),
               "--limit": few([3000, 20000, 60000] if is_long else [1, 5, 50, 3000, 3000])}
    return [*(str(word) for option in options.items() for word in option), *few([[], ["--private-write"]]),
            *few([[], ["--fair"]])]


def at_random(tester, folder):
    """Random traces on random machines. Every fifth is longer than what is read ahead."""
    traces, draw, path = tester.given.traces, random.Random(tester.given.seed), Path(folder, "a.trace")
    met = {False: Met(), True: Met()}
    for number in range(traces):
        is_long = number % 5 == 0
        text, options = drawn_trace(draw, is_long), drawn_options(draw, is_long)
        seeded = by_seed(options, draw.choice([number, draw.randrange(2 ** 64)]))
        seeded[seeded.index("--limit") + 1] = str(draw.choice([100000, 1000000] if is_long else [9, 200, 9000, 9000]))
        path.write_text(text)
        for words in options, seeded:
            report = same(tester, str(path), words, Trace(text.encode()).cores, lambda at: [(number + at) % 3])
            met[is_seeded(words)].add(dict(line.split(" ", 1) for line in report.splitlines()))
            if number % 10 == 1:
                form = [["--records"], ["--no-words"], ["--json"]][number // 10 % 3]
                second(tester, [*form, *words, "--cores", "16", str(path)])
    ends = {"all-done", "limit", "exhausted"}
    for some, ends in (met[False], ends | {"stalled"}), (met[True], ends):
        tester.covers(some.ends == ends and some.far > traces / 40 and some.stale > traces / 40,
                      f"random runs end {some.ends}, {some.far} are long, {some.stale} have stale hits")


class Met:
    """How random runs ended, how many went far beyond what is read ahead, and how many had stale hits."""

    def __init__(self):
        self.ends, self.far, self.stale = set(), 0, 0

    def add(self, told):
        self.ends.add(told["end"])
        self.far += int(told["completed"]) > 2 * AHEAD
        self.stale += told["stale-hits"] != "0"


def second(tester, words):
    """The second program writes the same."""
    text, status = oracle.run(oracle.words().parse_args(["trace", "--stream", *words]))
    got = tester.stream(*words)
    tester.expect(got == (status, text, ""), f"{words}: {shown(got)}, the second program {status} {text[:600]}")


def faulty(tester, path, text, fault, *options, least=0):
    """A text with a fault, of which this is said: what is written before is a beginning of the records of the lines
    before it, of `least` records or more, and no more than can be known."""
    path.write_bytes(text)
    line = int(re.search(r"line (\d+):", fault)[1])
    before = Path(path.parent, "before.trace")
    before.write_bytes(b"".join(part + b"\n" for part in text.split(b"\n")[:line - 1]))
    whole = tester.run("trace", "--records", *without_cores(options), str(before))[1]
    known = whole if len(text) > AHEAD else written_before(["--records", *options, str(path)])
    if is_seeded(options) and cores_in(options) != Trace(before.read_bytes()).cores:
        whole = known  # `trace` draws among fewer cores
    said = f"tardis: {fault}\n"
    status, out, error = tester.stream("--records", *options, str(path))
    good = (status, error) == (2, said) and whole.startswith(out) and known.startswith(out) and out[-1:] in ("", "\n")
    tester.expect(good and out.count("\n") >= least,
                  f"{text[-80:]!r} {options}: wanted {said} and a beginning of {len(known)} bytes, got {status}, "
                  f"{len(out)} bytes, {error}")
    for form in [], ["--json"], ["--no-words"]:
        got = tester.stream(*form, *options, str(path))
        tester.expect(got == (2, "", said), f"{text[-80:]!r} {form} {options}: {shown(got)}, wanted {said}")


def cores_in(options):
    return int(options[options.index("--cores") + 1])


def without_cores(options):
    at = options.index("--cores") if "--cores" in options else len(options)
    return [*options[:at], *options[at + 2:]]


def written_before(words):
    """The most that can be written before the text's fault, by the second program."""
    try:
        oracle.run(oracle.words().parse_args(["trace", "--stream", *words]))
    except Fault as fault:
        return fault.written
    raise AssertionError(f"{words}: no fault")


# Two cores' loads of their own lines, which complete in the sixth round, and one more load of core 1. The next step of
# core 0 isn't known then, so no seventh round is made: by hand, the most that may be written.
UNKNOWN = b"0 R 0x0\n1 R 0x8\n1 R 0x8\n0 X\n"
KNOWN = "0 0 R 0x0 0 0 0\n1 0 R 0x8 0 0 1\n"


def is_known(path):
    """Whether the second program says the same."""
    path.write_bytes(UNKNOWN)
    return written_before(["--records", "--cores", "2", str(path)]) == KNOWN


def faults(tester, folder):
    """Each kind of fault in the first line, behind a few, and behind more than are read ahead, in both forms."""
    path = Path(folder, "bad.trace")
    tester.covers(is_known(path), "what may be written where a core's next step isn't known")
    faulty(tester, path, UNKNOWN, "line 4: 5 BadOperation", "--cores", "2")
    few, many = b"0 W 0x0 1\n\n1 R 0x0\n0 R 0x8\n1 S 0x0 2 # x\n", b"0 R 0x0\n1 W 0x8 3\n" * AHEAD
    for fault, text in rows(TOP / "examples/bad/traces.table"):
        faulty(tester, path, of_printf(text), fault)
    for number, (fault, text) in enumerate([*one_line_faults("traces.table"), ("line 1: 3 TooLong", b"#" * 257)]):
        fault = "line 1: 4 BadCore" if text.split()[:1] == [b"trace"] else fault
        seed = by_seed([], number)
        cores = ["--cores", "2", *(seed if number % 4 == 1 else [])] if number % 2 else []
        faulty(tester, path, few + text + b"\n0 R 0x0\n", moved(fault, 5), *cores)
        if number % 7 == 0:
            # With as many cores as the trace has, turns are made before the fault is read.
            cores = ["--cores", "2", *(seed if number % 14 else [])]
            faulty(tester, path, many + text, moved(fault, 2 * AHEAD), *cores, least=AHEAD // 2)
    for number, (fault, text) in enumerate(form_2_faults()):
        faulty(tester, path, b"\ntrace 2\n63 A\n" + text + b"\n0 A\n", moved(fault, 2))
        if number % 9 == 0:
            faulty(tester, path, b"trace 2\n" + many + b"1 A\n" + text, moved(fault, 2 * AHEAD + 1))


def cut_texts(tester, folder):
    """A trace that is cut behind each byte, by rounds and by seeds."""
    path = Path(folder, "cut.trace")
    text = (TOP / "examples/traces/SWAP-LOCK.trace").read_bytes()
    said, cores = {0: 0, 2: 0}, Trace(text).cores
    for at in range(len(text)):
        path.write_bytes(text[:at])
        for policy in [], by_seed([], at):
            plain = tester.run("trace", "--records", *policy, str(path))
            said[plain[0]] += 1
            if plain[0]:
                fault = plain[2].removeprefix("tardis: ").strip()
                faulty(tester, path, text[:at], fault, "--cores", str(cores), *policy)
                continue
            given = str(Trace(text[:at]).cores if policy else cores)
            got = tester.stream("--records", "--cores", given, *policy, str(path))
            tester.expect(got == plain, f"cut behind byte {at}, {policy}: {got}, wanted {plain}")
    tester.covers(min(said.values()) > 40, f"cut texts: {said}")


def cores(tester, folder):
    """A step of a core that the machine hasn't is a fault of its line, also where the run is over by then."""
    path, good = Path(folder, "core.trace"), b"0 R 0x0\n1 W 0x0 1\n" * 3
    faulty(tester, path, good + b"2 R 0x0\n", "line 7: 4 BadCore", "--cores", "2")
    faulty(tester, path, good + b"2 R 0x0\n0 X\n", "line 7: 4 BadCore", "--cores", "2")
    faulty(tester, path, good + b"2 R 0x1\n", "line 7: 6 BadAddress", "--cores", "2")
    faulty(tester, path, good + b"0 X\n2 R 0x0\n", "line 7: 5 BadOperation", "--cores", "2")
    faulty(tester, path, b"1 R 0x0\n", "line 1: 4 BadCore", "--cores", "1")
    faulty(tester, path, b"trace 2\n63 A\n", "line 2: 4 BadCore", "--cores", "63")
    for over in ["--limit", "2"], ["--messages", "1"]:
        for cores, behind, fault in (("2", b"2 R 0x0\n", "4 BadCore"), ("64", b"0 X\n", "5 BadOperation")):
            text = good * AHEAD + behind
            faulty(tester, path, text, f"line {6 * AHEAD + 1}: {fault}", "--cores", cores, *over)


def in_blocks(steps):
    """These steps of a core wait, and hit but for the first ones. They are taken up to the last one before the same
    steps come again, since 12,288 of another core lie between."""
    lines = (f"0 {'WS'[at % 2]} {8 * (at % 5):#x} {at}\n" if at % 3 else "0 R 0x8\n" for at in range(steps))
    waiting = "".join(lines)
    return (waiting + "1 R 0x100\n" * 3 * AHEAD + waiting).encode()


def odd_texts(tester, folder):
    """Texts without a step, and those in which one core's lines come long before another's."""
    path = Path(folder, "odd.trace")
    texts = [b"", b"\n", b"#", b"# one\n \t\n#", b"trace 2", b"trace 2\n\n# two\n", b"\n" * 5 * AHEAD, b"trace 2\n5 A\n"]
    first, last = b"0 R 0x0\n0 W 0x8 1\n" * 2 * AHEAD, b"3 S 0x8 4\n3 R 0x0\n" * 2 * AHEAD
    texts += [first + last, last + first, b"3 R 0x0\n" + first, first + b"3 R 0x0", b"7 R 0x0\n"]
    texts += [in_blocks(steps) for blocks in range(3) for steps in range(blocks * BLOCK, blocks * BLOCK + 3)]
    for text in texts:
        path.write_bytes(text)
        for options in ["--fair", "--limit", "1000000"], by_seed(["--limit", "1000000"], 5):
            same(tester, str(path), options, Trace(text).cores, lambda at: range(3))


def pipes(tester, folder):
    """Texts from pipes, of which one stays open while its first records come, and readers that leave early."""
    text = b"0 R 0x0\n1 W 0x0 1\n" * 8000
    for policy in [], by_seed(NO_LIMIT, 7):
        plain = tester.run("trace", "--records", *policy, "/dev/stdin", text=text)
        tester.covers(plain[1].count("\n") == 16000, f"records of a pipe: {shown(plain)}")
        got = tester.stream("--records", "--cores", "2", *policy, "/dev/stdin", text=text)
        tester.expect(got == plain, f"records by a pipe, {policy}: {shown(got)}")
        stays_open(tester, text, plain, policy)
    pipe = Path(folder, "pipe")
    os.mkfifo(pipe)
    with subprocess.Popen(["sh", "-c", f"yes '0 R 0x0' | head -n 20000 > {pipe}"]) as writer:
        got = tester.stream("--cores", "1", str(pipe))
        writer.wait()
    wanted = tester.run("trace", "/dev/stdin", text=b"0 R 0x0\n" * 20000)
    tester.expect(got == wanted, f"a named pipe: {shown(got)}, wanted {shown(wanted)}")
    for words in ["--records"], ["--records", "--fair"], by_seed(["--records"], 2):
        leaves_early(tester, words, tester.run("trace", *words, "/dev/stdin", text=b"0 R 0x0\n")[1])
    for words in ["--records"], [], ["--json"]:
        with open("/dev/full", "wb") as full:
            done = subprocess.run([tester.program, "trace", "--stream", *words, "/dev/stdin"], input=b"0 R 0x0\n",
                                  stdout=full, stderr=subprocess.PIPE, timeout=PATIENCE)
        got = tester.came((done.returncode, "", done.stderr.decode()))
        tester.expect(got == (4, "", "tardis: write failed\n"), f"a full device, {words}: {got}")


def opened(tester, *words, stdin=subprocess.PIPE):
    return subprocess.Popen([tester.program, "trace", "--stream", *words, "/dev/stdin"], stdin=stdin,
                            stdout=subprocess.PIPE, stderr=subprocess.PIPE)


def stays_open(tester, text, plain, policy):
    """Of a pipe that stays open the first records come before its end, and a fault as soon as it is read. What is
    refused before the text is read waits for no byte of it."""
    with opened(tester, "--records", "--cores", "2", *policy) as run:
        writer, has_come = run.stdin, threading.Event()
        run.stdin = None

        def write():
            writer.write(text)  # while records are read, so that neither pipe stays full
            writer.flush()
            has_come.wait(PATIENCE)
            writer.close()

        threading.Thread(target=write, daemon=True).start()
        came = bool(select.select([run.stdout], [], [], PATIENCE)[0])
        has_come.set()
        out, error = run.communicate(timeout=PATIENCE)
    got = tester.came((run.returncode, out.decode(), error.decode()))
    tester.expect(came and got == plain, f"a pipe that stays open, {policy}: {came} {shown(got)}")
    for words, bytes_of, wanted in (([], b"0 R 0x0\n0 X\n", (2, "", "tardis: line 2: 5 BadOperation\n")),
                                    (["--lease", "0"], b"", (3, "", "tardis: bad configuration\n"))):
        with opened(tester, *words) as run:
            run.stdin.write(bytes_of)
            run.stdin.flush()
            out = run.stdout.read().decode()  # to its end, while the text has none
            got = tester.came((run.wait(PATIENCE), out, run.stderr.read().decode()))
            run.stdin.close()
        tester.expect(got == wanted, f"{bytes_of} of a pipe that stays open: {got}, wanted {wanted}")


def leaves_early(tester, words, first):
    """An endless text, of whose records one is taken."""
    with subprocess.Popen(["yes", "0 R 0x0"], stdout=subprocess.PIPE) as text:
        with opened(tester, "--cores", "1", *words, stdin=text.stdout) as run:
            out = run.stdout.readline().decode()
            run.stdout.close()
            got = tester.came((run.wait(PATIENCE), out, run.stderr.read().decode()))
        text.stdout.close()
        text.kill()
    tester.expect(got == (4, first, "tardis: write failed\n"), f"a reader that takes one line, {words}: {got}")


def measured(tester, make, *words):
    """The answer on what a shell command makes, and the most memory that it took, in MB."""
    with subprocess.Popen(["sh", "-c", make], stdout=subprocess.PIPE) as maker, tempfile.TemporaryFile() as out:
        run = subprocess.Popen([tester.program, "trace", *words, "/dev/stdin"], stdin=maker.stdout, stdout=out,
                               stderr=subprocess.PIPE)
        maker.stdout.close()
        error = run.stderr.read().decode()
        _, status, used = os.wait4(run.pid, 0)
        run.returncode = os.waitstatus_to_exitcode(status)
        run.stderr.close()
        out.seek(0)
        return (run.returncode, out.read().decode(), error), used.ru_maxrss / 1024


def loads(count, cores=1):
    """The report on `count` loads of 0x0 by core 0, or by more cores."""
    zeros = "".join(f"{name} 0\n" for name in ("stores", "swaps", "renewals", "upgrades", "flushes", "write-backs",
                                              "stale-hits"))
    begins = f"cores {cores}\nissued {count}\ncompleted {count}\nend all-done\nloads {count}\n"
    return f"{begins}{zeros}order legal\nword 0x0 0\n"


def memory(tester, folder):
    """A text takes no more memory than one of a tenth of its lines."""
    lines = r"0 R 0x0\n1 W 0x8 1\n2 S 0x10 2\n3 R 0x0"
    for policy, counts in ([], (200000, 2000000)), (by_seed([], 9), (40000, 400000)):
        peaks = []
        for count in counts:
            make = f"yes \"$(printf '{lines}')\" | head -n {count}"
            answer, peak = measured(tester, make, "--stream", "--cores", "4", *policy, *NO_LIMIT)
            got = tester.came(answer)
            tester.expect(got[0] == 0 and got[2] == "" and f"\ncompleted {count}\nend all-done\n" in got[1] and
                          got[1].endswith("word 0x0 0\nword 0x8 1\nword 0x10 2\n"), f"{count} lines, {policy}: {got}")
            peaks.append(peak)
        tester.covers(peaks[1] < peaks[0] + 4,
                      f"{counts[1]} lines take {peaks[1]:.0f} MB, a tenth of them {peaks[0]:.0f}, {policy}")


def waits(tester, folder):
    """A step that waits takes no more than 24 bytes, also where all wait when the text ends. So few records are kept."""
    peaks = []
    for count in 500000, 2000000:
        make = f"yes '0 R 0x0' | head -n {count - 1}; echo '1 R 0x0'"
        answer, peak = measured(tester, make, "--stream", "--cores", "2", *NO_LIMIT)
        got = tester.came(answer)
        tester.expect(got == (0, loads(count, 2), ""), f"{count} lines, the last one of another core: {got}")
        peaks.append(peak)
    a_step = (peaks[1] - peaks[0]) * 2 ** 20 / 1500000
    tester.covers(a_step < 24, f"a step that waits takes {a_step:.0f} bytes")


def numbers_of(report):
    """The numbers of a report that lines of progress have, too."""
    told = dict(line.split(" ", 1) for line in report.splitlines())
    return tuple(int(told[name]) for name in COUNTED)


def is_progress(error, every, end):
    """Whether these are the lines of a run that ends with such numbers: one soon behind each multiple, and no other."""
    told = [tuple(map(int, line)) for line in PROGRESS.findall(error)]
    passed = [line[0] // (every * MILLION) for line in told]
    soon = all(line[0] % (every * MILLION) < 2 * AHEAD for line in told)
    falls = any(before > after for one, later in zip(told, [*told[1:], end]) for before, after in zip(one, later))
    return PROGRESS.sub("", error) == "" and passed == list(range(1, end[0] // (every * MILLION) + 1)) and soon and \
        not falls and (not told or told[-1] == end or told[-1][0] < end[0])


# In some 2,000,000 such lines all counted messages are sent, and loads hit stale copies.
MIXED = b"0 W 0x0 1\n1 R 0x0\n2 W 0x8 5\n0 R 0x10\n1 S 0x8 3\n2 R 0x0\n"


def progress(tester, folder):
    """How far a run of 2,000,000 operations is: its lines, which change nothing else, and the numbers in them."""
    path = Path(folder, "mixed.trace")
    path.write_bytes(MIXED * (2 * MILLION // 6) + b"0 R 0x0\n1 R 0x0\n")
    for policy in NO_LIMIT, by_seed(NO_LIMIT, 3), ["--limit", "1500000"]:
        words = ["--cores", "3", *policy, str(path)]
        plain = tester.run("trace", "--stream", *words)
        end = numbers_of(plain[1])
        tester.covers(end[0] > MILLION and min(end) > 0, f"{policy}: {shown(plain)}")
        for every in 1, 2, 3:
            got = tester.stream("--progress", str(every), *words)
            tester.expect(got[:2] == plain[:2] and is_progress(got[2], every, end), f"{every} {policy}: {shown(got)}")
    lines = tester.run("trace", "--stream", "--progress", "1", *words)[2]
    for form in ["--records"], ["--json"], ["--no-words"]:
        status, out, error = tester.run("trace", "--stream", *form, *words)
        got = tester.stream("--progress", "1", *form, *words)
        tester.expect(got == (status, out, lines) and error == "", f"{form}: {shown(got)}")
    unheard(tester, words, plain)
    text = MIXED * 400000
    got = tester.stream("--progress", "1", "--cores", "3", *NO_LIMIT, "/dev/stdin", text=text + b"0 X\n")
    lines, fault = got[2][:got[2].rfind("\n", 0, -1) + 1], f"tardis: line {6 * 400000 + 1}: 5 BadOperation\n"
    told = [tuple(map(int, line)) for line in PROGRESS.findall(lines)]
    tester.expect(got == (2, "", lines + fault) and told and is_progress(lines, 1, told[-1]),
                  f"a fault behind lines: {shown(got)}")


def unheard(tester, words, plain):
    """Standard error is closed, full, or a pipe that nobody reads: only the lines are missing."""
    for how in "2>&-", "2>/dev/full":
        done = subprocess.run(["sh", "-c", f'exec "$0" "$@" {how}', tester.program, "trace", "--stream", "--progress",
                               "1", *words], stdin=subprocess.DEVNULL, stdout=subprocess.PIPE, timeout=PATIENCE)
        got = tester.came((done.returncode, done.stdout.decode(), ""))
        tester.expect(got == plain, f"{how} {words}: {shown(got)}")
    reader, writer = os.pipe()
    os.close(reader)
    done = subprocess.run([tester.program, "trace", "--stream", "--progress", "1", *words], stdin=subprocess.DEVNULL,
                          stdout=subprocess.PIPE, stderr=writer, timeout=PATIENCE)
    os.close(writer)
    got = tester.came((done.returncode, done.stdout.decode(), ""))
    tester.expect(got == plain, f"a pipe that nobody reads, {words}: {shown(got)}")


def long(tester, folder):
    """More lines than `trace` takes."""
    count = 20000000
    answer, peak = measured(tester, f"yes '0 R 0x0' | head -n {count}", "--stream", "--cores", "1", *NO_LIMIT)
    got = tester.came(answer)
    tester.expect(got == (0, loads(count), ""), f"{count} lines: {got}")
    tester.covers(peak < 64, f"{count} lines take {peak:.0f} MB")


# What measures peaks stands before what takes much here: a process's peak counts what its parent had when it began.
PARTS = {part.__name__: part for part in (examples, faults, cut_texts, cores, odd_texts, pipes, memory, waits, long,
                                          progress, at_random)}


def tried(tester, parts):
    with tempfile.TemporaryDirectory() as folder:
        for name in parts:
            PARTS[name](tester, folder)


def main():
    options = argparse.ArgumentParser(description=__doc__, formatter_class=argparse.RawDescriptionHelpFormatter)
    options.add_argument("PROGRAM")
    options.add_argument("PART", nargs="*", default=list(PARTS))
    options.add_argument("--traces", type=int, default=500, metavar="N")
    options.add_argument("--seed", type=int, default=1, metavar="N")
    options.add_argument("--self-test", action="store_true")
    given = options.parse_args()
    tester = Streams(os.path.abspath(given.PROGRAM))
    tester.given = given
    os.chdir(TOP)
    if not given.self_test:
        tried(tester, given.PART)
    for what, spoil in SPOILERS.items() if given.self_test else ():
        tester.spoil, before = spoil, tester.tried
        tried(tester, given.PART)
        print(f"another {what}: {tester.tried - before} comparisons")
    print(f"{tester.tried} tried, {tester.wrong} wrong")
    return int(tester.wrong > 0)


if __name__ == "__main__":
    sys.exit(main())
