#!/usr/bin/env python3
"""Measures the program's speed against yardsticks, as docs/BENCHMARKS.md has it: maintain/speed.py [--write]

A yardstick is bench/plain, which makes the same events in tuned plain Rust and is built here by rustc, or another run
of the program itself. Instructions and mispredicted branches are cachegrind's: those of a greater load, less those of
a smaller one, divided by the units between. The speed is the yardstick's time divided by the program's, each the least
of five runs in turn: user time, but the clock's for several threads. Programs that are driven must make the same number
of events. The script prints the table; with --write it puts the table, the date and the commit into the page. It takes
some minutes, and needs rustc and valgrind. A program that isn't built, or is older than a source, is proved and built
first. Standard error has the load of the machine before and after: on a busy one, only the instructions can be relied
on, and several threads aren't timed.
"""
import argparse
import os
import re
import resource
import subprocess
import sys
import tempfile
import time
from concurrent.futures import ThreadPoolExecutor
from pathlib import Path
from types import SimpleNamespace

TOP = Path(__file__).resolve().parent.parent
PAGE = TOP / "docs/BENCHMARKS.md"
HEADING = "## Against yardsticks\n"
HEAD = "| Load | Unit | Instructions, mispredictions | Yardstick | Its own | Speed |", "|---|---|---|---|---|---|"
RUNS = 5
BUSY = 1.5  # with a greater load before, threads aren't timed
ENDS = 0, 1  # with 1 the program ends whose condition doesn't hold
TRACES = 16000, 48000, 800000  # operations
CRATES = ("bench", "bench_schedules", "bench_seats", "tardis")
CACHEGRIND = ("valgrind", "--tool=cachegrind", "--cache-sim=no", "--branch-sim=yes", "--cachegrind-out-file=/dev/null")
PLAIN = ("rustc", "-O", "-C", "target-cpu=x86-64-v2", "-C", "codegen-units=1", "-C", "panic=abort", "--edition", "2024")


def built(name):
    return f"{TOP}/crates/{name}/out/{name}"


def operation(draw, number):
    """The step of a trace that a drawn number makes: of eight, five load, two store and one swaps."""
    word, kind = 8 * (draw // 64 % 4096), draw // 1048576 % 8
    return f"R 0x{word:x}" if kind < 5 else f"{'W' if kind < 7 else 'S'} 0x{word:x} {number + 1}"


def write_trace(path, cores, operations):
    """A trace of this many operations on 4,096 words, by the cores in turn."""
    draw, lines = 12345, ["trace 2"]
    for number in range(operations):
        draw = (draw * 1103515245 + 12345) % 2147483648
        lines.append(f"{number % cores} {operation(draw, number)}")
    path.write_text("\n".join(lines) + "\n")


def counted(words):
    """The instructions and the wrongly predicted branches of a command."""
    ran = subprocess.run([*CACHEGRIND, *words], text=True, stdout=subprocess.DEVNULL, stderr=subprocess.PIPE)
    if ran.returncode not in ENDS:
        sys.exit(f"speed.py: {' '.join(words)} ended with status {ran.returncode}")
    return [int(re.search(rf"{name}: +([\d,]+)", ran.stderr)[1].replace(",", "")) for name in ("refs", "Mispredicts")]


def filled(command, load):
    return [word.replace("{}", str(load)) for word in command]


def counts(command, given):
    """What a unit of the command takes in a row."""
    less, more, _ = given.loads
    low, high = (counted(filled(command, load)) for load in (less, more))
    return [(b - a) / (given.units(more) - given.units(less)) for a, b in zip(low, high)]


def timed(words, is_clocked):
    """The time of a command in seconds."""
    before, began = resource.getrusage(resource.RUSAGE_CHILDREN).ru_utime, time.monotonic()
    status = subprocess.run(words, stdout=subprocess.DEVNULL, stderr=subprocess.DEVNULL).returncode
    if status not in ENDS:
        sys.exit(f"speed.py: {' '.join(words)} ended with status {status}")
    after = resource.getrusage(resource.RUSAGE_CHILDREN).ru_utime
    return time.monotonic() - began if is_clocked else after - before


def speed(given):
    """A row's speed as a part of its yardstick's."""
    commands = [filled(command, given.loads[2]) for command in (given.command, given.beside)]
    times = [[timed(command, given.is_clocked) for command in commands] for _ in range(RUNS)]
    program, yardstick = (min(column) for column in zip(*times))
    return yardstick / program


def row(load, unit, command, **more):
    """A row of the table: without a yardstick, with all counts, by processor time, if nothing else is said."""
    usual = {"units": int, "without": None, "beside": None, "by": "-", "is_counted": True, "is_clocked": False}
    return SimpleNamespace(load=load, unit=unit, command=command, **usual | more)


def driven(schedule, cores, plain):
    """Random programs on 4,096 words, driven to their ends; a unit is an event."""
    program = built("bench_schedules")

    def events(operations):
        words = [str(cores), "4096", str(operations)]
        said = [subprocess.run(command, check=True, capture_output=True, text=True).stdout
                for command in ([program, f"{schedule}_events", *words], [plain, schedule, *words])]
        ours, theirs = (int(re.search(r"\d+", line)[0]) for line in said)
        if ours != theirs:
            sys.exit(f"speed.py: {schedule}, {cores} cores: {ours} events, but {theirs} of the yardstick")
        return ours

    words = [schedule, str(cores), "4096", "{}"]
    return row(f"{schedule}, {cores} cores", "event", [program, *words], loads=(2000, 4000, 50000), units=events,
               beside=[plain, *words], by="`bench/plain`")


def trace(schedule, plain, folder, *more):
    """The whole command, with more words, on a trace of 16 cores; a unit is an operation."""
    words = ["trace", "--schedule", schedule, "--seed", "1", "--records", "--limit", "4294967295", f"{folder}/16.{{}}"]
    return row(f"{' '.join(['trace', *more[:1], '--records'])}, {schedule}, 16 cores", "operation",
               [built("tardis"), *words, *more], loads=TRACES, beside=[plain, *words], by="`bench/plain`")


def batch(schedule):
    """Runs of store buffering with the report; a unit is a run."""
    return row(f"litmus, {schedule}", "run", [built("tardis"), "litmus", "--schedule", schedule, "--workers", "1",
                                              "--runs", "{}", f"{TOP}/examples/litmus/SB.litmus"],
               loads=(1000, 3000, 100000))


def history(cores):
    """The check of a legal history; a unit is a record. What it takes to make the history is left out."""
    made, check = ([built("bench"), word, "{}", str(cores)] for word in ("made", "check"))
    return row(f"check, {cores} cores", "record", check, loads=(20000, 60000, 1000000), without=made)


def threads(count, cores, banks, beside):
    """Seats by threads, against an unshared machine by rounds or fewer threads; a unit is an operation."""
    seats, rounds = ([built("bench_seats"), word, str(cores), str(banks), "{}"] for word in ("seats", "rounds"))
    return row(f"threads: {count}, {cores} cores, {banks} banks", "operation", [*seats, str(count)],
               loads=tuple(all_of // cores for all_of in (16000, 32000, 640000)), units=lambda each: each * cores,
               beside=[*seats, beside] if beside.isdigit() else rounds, is_counted=count == 1, is_clocked=count > 1,
               by="one thread" if beside.isdigit() else "rounds")


def rows(plain, folder):
    yield from (driven(schedule, cores, plain) for schedule in ("round", "seed") for cores in (4, 16))
    yield from (trace(schedule, plain, folder) for schedule in ("round", "seed"))
    yield trace("round", plain, folder, "--stream", "--cores", "16")
    yield from map(batch, ("round", "seed"))
    yield from map(history, (4, 16))
    for cores, banks in ((16, 4), (64, 8)):
        yield from (threads(*each) for each in ((1, cores, banks, "rounds"), (4, cores, banks, "1"),
                                                (4, cores, banks, "rounds")))


def told(count):
    return "-" if count is None else f"{count[0]:,.0f}, {count[1]:.1f}"


def measured(folder, is_busy):
    """The rows' lines: first all counts, side by side, then the times, one after the other."""
    plain = f"{folder}/plain"
    subprocess.run([*PLAIN, "-o", plain, f"{TOP}/bench/plain/main.rs"], check=True)
    for operations in TRACES:
        write_trace(Path(folder, f"16.{operations}"), 16, operations)
    every = list(rows(plain, folder))
    with ThreadPoolExecutor(len(os.sched_getaffinity(0))) as pool:
        asked = [[command and each.is_counted and pool.submit(counts, command, each)
                  for command in (each.command, each.without, each.by.startswith("`") and each.beside)]
                 for each in every]
        came = [[count and count.result() for count in of_row] for of_row in asked]
    for each, (own, without, other) in zip(every, came):
        if without:
            own = [a - b for a, b in zip(own, without)]
        ratio = "busy" if is_busy and each.is_clocked else f"{speed(each):.2f}" if each.beside else "-"
        yield f"| {each.load} | {each.unit} | {told(own or None)} | {each.by} | {told(other or None)} | {ratio} |"


def is_stale(name):
    """Whether a program isn't built, or is older than a source of some crate."""
    sources = (path for part in ("src", "specs", "proofs") for path in TOP.glob(f"crates/*/{part}/**/*.*"))
    return not os.access(built(name), os.X_OK) or any(
        path.stat().st_mtime > os.stat(built(name)).st_mtime for path in sources)


def write(lines):
    """Puts the table under its heading of the page, in place of the one that is there."""
    text = PAGE.read_text()
    start = text.index(HEADING) + len(HEADING)
    begin = text.index("\n| Load", start) + 1
    end = text.index("\n\n", begin) + 1
    text = text[:begin] + "\n".join(lines) + "\n" + text[end:]
    commit = subprocess.run(["git", "rev-parse", "--short", "HEAD"], cwd=TOP, capture_output=True, text=True).stdout
    made = f"{time.strftime('%Y-%m-%d')}, commit {commit.strip()}"
    PAGE.write_text(re.sub(rf"({HEADING}\n`maintain/speed.py`), [\d-]+, commit \w+", rf"\1, {made}", text))


def main():
    options = argparse.ArgumentParser(description=__doc__, formatter_class=argparse.RawDescriptionHelpFormatter)
    options.add_argument("--write", action="store_true")
    given = options.parse_args()
    stale = [name for name in CRATES if is_stale(name)]
    if stale and subprocess.run([f"{TOP}/maintain/build.py", *stale]).returncode:
        sys.exit("speed.py: not all that is measured could be built")
    load = os.getloadavg()[0]
    print(f"load before: {load:.1f}", file=sys.stderr)
    with tempfile.TemporaryDirectory() as folder:
        lines = [*HEAD, *measured(folder, load > BUSY)]
    print(f"load after: {os.getloadavg()[0]:.1f}", file=sys.stderr)
    write(lines) if given.write else print("\n".join(lines))


if __name__ == "__main__":
    main()
