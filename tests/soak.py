#!/usr/bin/env python3
"""Tries random runs for hours: tests/soak.py [options] HOURS PROGRAM [EVENTS SEATS].

PROGRAM is the built crate tardis, EVENTS and SEATS are the players. The parts have their turns one after the other,
each a share of the time:

    threads   traces of 64 cores by 16 workers on 8 banks, with few places or many, lines of both sizes, private writes,
              fair turns or not. Each history is closed and checked: by the program, which must find each operation's
              record where the run was all done, and by the second program. No command prints both the records of a run
              and the values that it leaves, so a run by one worker, which is the same each time, is made for each. The
              report must have the values of a flat memory that the records change in their order. Those of another
              run by all workers must be possible.
    texts     litmus tests and traces, some damaged, under any options: the program prints what the second one does.
    players   events and calls of seats: the players answer what the second program's parts do.

Case N of a part depends on the seed and N alone; --first N begins with it. A difference ends the part with status 1;
its text, records and command stay in the folder of --kept. So does a command that takes 20 minutes of processor time,
or three hours. The last line of a part says how much it tried, without a difference.
"""
import argparse
import random
import shlex
import subprocess
import sys
import time
from pathlib import Path

TOP = Path(__file__).resolve().parent.parent
sys.path.insert(0, str(TOP))
from reference.order import check, end_memory  # noqa: E402
from reference.traces import Trace, read_records  # noqa: E402
from tests import by_threads, ends, fair, texts  # noqa: E402

CORES, WORKERS, BANKS = 64, 16, 8
SECONDS, PATIENCE = 1200, 10800  # of a command: of processor time, and by the clock, since a soak may wait for others


class Difference(Exception):
    """What differs: in words, with the files that make it again."""

    def __init__(self, what, **files):
        super().__init__(what)
        self.files = files


def ran(words, text):
    limited = ["sh", "-c", f'ulimit -t {SECONDS}; exec "$@"', "sh", *map(str, words)]
    done = subprocess.run(limited, input=text, capture_output=True, timeout=PATIENCE, check=False)
    return done.returncode, done.stdout, done.stderr


def random_words(draw, most=9999):
    """Options of a machine and its run, all of which both programs take."""
    few = fair.options_of(draw)
    words = [f"--{name}={getattr(few, name.replace('-', '_'))}"
             for name in ("banks", "sets", "ways", "bank-sets", "bank-ways", "line-words", "lease")]
    words += draw.choice([[], ["--private-write"]]) + draw.choice([[], [f"--messages={draw.randint(1, 99)}"]])
    schedule = draw.choice([["--fair"], [], ["--schedule=seed", f"--seed={draw.randrange(2 ** 64)}"],
                            ["--schedule=threads", "--workers=1"]])
    return [*words, *schedule, f"--limit={draw.randint(1, most)}"]


class Threads:
    """Traces by many workers."""

    def __init__(self, options):
        self.program, self.kept, self.steps, self.finished, self.values = options.PROGRAM, options.kept, 0, 0, 0

    def case(self, draw):
        each, words = draw.choice([5, 20, 100]), draw.choice([4, 16, 64, 512])
        programs = [[fair.step_of(draw, words) for _ in range(draw.randint(1, each))] for _ in range(CORES)]
        text = fair.text_of(programs)
        few = draw.choice([[], [f"--sets={draw.randint(1, 2)}", f"--ways={draw.randint(1, 2)}"]])
        few += draw.choice([[], [f"--bank-sets={draw.randint(1, 2)}", f"--bank-ways={draw.randint(1, 4)}"]])
        line = [self.program, "trace", "--schedule=threads", f"--workers={WORKERS}", f"--banks={BANKS}", *few,
                f"--line-words={draw.choice([1, 8])}", f"--lease={draw.choice([1, 10, 1000])}",
                *draw.choice([[], ["--private-write"]]), *draw.choice([[], ["--fair"]]), "--limit=100000"]
        status, records, error = ran([*line, "--records", "/dev/stdin"], text)
        files = {"trace": text, "records": records, "command": shlex.join([*line, "--records", "/dev/stdin"]).encode()}
        if status not in (0, 1) or error:
            raise Difference(f"status {status}: {error.decode(errors='replace')}", **files)
        self.judge(text, records, status == 0, files)
        self.replay([word.replace(f"--workers={WORKERS}", "--workers=1") for word in line], text)
        self.report(line, text)
        self.steps += records.count(b"\n")
        self.finished += status == 0

    def judge(self, text, records, is_done, files):
        trace, history = self.kept / "trace", self.kept / "records"
        trace.write_bytes(text)
        history.write_bytes(records)
        said = ran([self.program, "check", *["--complete"] * is_done, trace, history], None)
        if said != (0, b"legal\n", b""):
            raise Difference(f"the program's check: {said}", **files)
        said = check({}, Trace(text).issued(), read_records(records))
        if said != "legal":
            raise Difference(f"the second program's check: {said}", **files)

    def replay(self, line, text):
        """Compares what a run by one worker leaves with a flat memory that its records change, by timestamp and then by
        completion."""
        (status, records, error), report = (ran([*line, *more, "/dev/stdin"], text) for more in (["--records"], []))
        memory, words = end_memory({}, read_records(records)), Trace(text).words()
        wanted = [f"word {8 * word:#x} {memory.get(word, 0)}".encode() for word in words]
        if report[::2] != (status, b"") or error or report[1].splitlines()[-len(words):] != wanted:
            raise Difference("the values that a run by one worker leaves", trace=text, records=records,
                             report=report[1], wanted=b"\n".join(wanted), command=shlex.join(line).encode())
        self.values += len(words)

    def report(self, line, text):
        """Judges what the report of a run by all workers says, which can't be of the run whose records are there."""
        status, report, error = ran([*line, "/dev/stdin"], text)
        found = [*by_threads.trace_faults(self.kept / "trace", status, report.decode()), *[error] * bool(error)]
        if found:
            raise Difference(f"the report: {found}", trace=text, report=report, command=shlex.join(line).encode())

    def tried(self, count):
        return (f"{count} traces of {CORES} cores by {WORKERS} workers, {self.finished} all done, {self.steps} records "
                f"checked twice, {self.values} values replayed")


class Texts:
    """Litmus tests and traces by both programs."""

    def __init__(self, options):
        self.program, self.damaged = options.PROGRAM, 0

    def case(self, draw):
        if draw.random() < 0.5:
            name, text = "litmus", ends.drawn(draw.randrange(2 ** 32)).encode()
        else:
            programs = fair.steps_of(draw, draw.choice([1, 2, 3, 4, 8]), draw.choice([2, 9, 70]))
            name, text = "trace", fair.text_of(programs)
        if draw.random() < 0.3:
            text, self.damaged = texts.changed(text, draw), self.damaged + 1
        words = [name, *random_words(draw), "/dev/stdin"]
        got, wanted = (ran([program, *words], text) for program in (self.program, TOP / "reference/oracle.py"))
        if got != wanted:
            raise Difference(f"{got} and {wanted}", text=text, command=shlex.join(map(str, words)).encode())

    def tried(self, count):
        return f"{count} texts by both programs, {self.damaged} of them damaged"


class Players:
    """Events and calls of seats."""

    def __init__(self, options):
        self.programs = {"events.py": options.EVENTS, "seats.py": options.SEATS}

    def case(self, draw):
        seed = draw.randrange(2 ** 32)
        for script, program in self.programs.items():
            line = [TOP / "tests" / script, "--machines=40", f"--seed={seed}", program]
            status, out, error = ran(line, None)
            if status:
                raise Difference(f"{script}: {(out + error).decode(errors='replace')[-2000:]}",
                                 command=shlex.join(map(str, line)).encode())

    def tried(self, count):
        return f"{count} times 40 machines' events and 40 machines' calls of seats"


PARTS = {"threads": Threads, "texts": Texts, "players": Players}


def soaks(name, options, seconds):
    """Whether the cases of a part made no difference for so long."""
    part, count, until = PARTS[name](options), options.first - 1, time.monotonic() + seconds
    while time.monotonic() < until:
        count += 1
        try:
            part.case(random.Random(f"{options.seed} {name} {count}"))
        except (Difference, subprocess.TimeoutExpired) as error:
            for file, text in getattr(error, "files", {}).items():
                (options.kept / f"{name}-{options.seed}-{count}.{file}").write_bytes(text)
            print(f"{name}: case {count} of seed {options.seed}: {error}", flush=True)
            return False
    told = f"seed {options.seed}, cases {options.first} to {count}"
    print(f"{name}: {part.tried(count - options.first + 1)}, {told}, no difference", flush=True)
    return True


def main():
    parser = argparse.ArgumentParser(description=__doc__, formatter_class=argparse.RawDescriptionHelpFormatter)
    parser.add_argument("HOURS", type=float)
    parser.add_argument("PROGRAM")
    parser.add_argument("EVENTS", nargs="?")
    parser.add_argument("SEATS", nargs="?")
    parser.add_argument("--part", action="append", choices=PARTS, help="only this part, or these (all)")
    parser.add_argument("--seed", type=int, default=1, metavar="N", help="what opens the generators (1)")
    parser.add_argument("--first", type=int, default=1, metavar="N", help="the first case (1)")
    parser.add_argument("--kept", type=Path, default=Path("soak"), metavar="FOLDER", help="where files are left (soak)")
    options = parser.parse_args()
    names = options.part or [name for name in PARTS if name != "players" or options.SEATS]
    if "players" in names and not options.SEATS:
        parser.error("players wants EVENTS and SEATS")
    options.kept.mkdir(exist_ok=True)
    return int(not all([soaks(name, options, options.HOURS * 3600 / len(names)) for name in names]))


if __name__ == "__main__":
    sys.exit(main())
