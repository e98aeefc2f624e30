#!/usr/bin/env python3
"""Proves and builds crates with all that they depend on, several at a time: maintain/build.py [CRATE..] [--jobs N]

Each crate is built once those below it are: first the one with the longest chain of crates above it. That one may use
all processors, and each one whose chain is nearly as long half of them; the others share what is left. Standard error
says how far the build is, how long the rest will take, and each error; the status is 0 exactly if all is proved. The
crate is tardis if none is named. N is the number of processors if it isn't given, and fewer if there is less than 3 GB
of memory for each.

Each crate is proved by `maintain/kit.py prove`, which locks that crate alone. The kit's own commands lock all crates
below, too, so they never prove two crates at a time that have one in common there.
"""
import argparse
import concurrent.futures
import os
import subprocess
import sys
import time
from pathlib import Path

TOP = Path(__file__).resolve().parent.parent
BYTES_A_JOB = 3_000_000_000
READING = 300  # what a crate costs before its first function is proved, in lines: the libraries are read
PROVE = [sys.executable, str(TOP / "maintain/kit.py"), "prove"]
NEARLY = 0.6  # a chain of crates of this part of the longest one's work is nearly as long
KEPT = 3  # a crate that takes no more seconds was proved before


def crates():
    """The crates of the repository, each with those that it depends on, in the order of crates.txt."""
    lines = (TOP / "crates.txt").read_text().splitlines()
    named = [line.split("#")[0].split(":") for line in lines if ":" in line.split("#")[0]]
    names = {name.split()[0] for name, _ in named}
    return {name.split()[0]: [low for low in below.split() if low in names] for name, below in named}


def needed(graph, *tops):
    """These crates and all below them, each after those that it depends on."""
    order = []

    def visit(name):
        if name not in order:
            for low in graph[name]:
                visit(low)
            order.append(name)

    for top in tops:
        visit(top)
    return order


def work(name):
    """What a proof of the crate costs, in lines of code and proofs."""
    files = [path for part in ("src", "specs", "proofs") for path in (TOP / "crates" / name / part).rglob("*")
             if path.suffix in (".rt", ".antt")]
    return READING + sum(path.read_bytes().count(b"\n") for path in files)


def chains(graph, order):
    """Of each crate the work of the longest chain that begins with it and goes up."""
    longest = {}
    for name in reversed(order):
        above = [longest[high] for high in order if high in longest and name in graph[high]]
        longest[name] = work(name) + max(above, default=0)
    return longest


def jobs_that_fit():
    memory = os.sysconf("SC_PAGE_SIZE") * os.sysconf("SC_PHYS_PAGES")
    return max(1, min(len(os.sched_getaffinity(0)), memory // BYTES_A_JOB))


def prove(name, jobs, is_urgent):
    """Proves and builds one crate; its name, how many seconds that took, and what the kit printed if it failed."""
    command = ([] if is_urgent else ["nice", "-n", "5"]) + [*PROVE, "--jobs", str(jobs)]
    began = time.monotonic()
    done = subprocess.run(command, cwd=TOP / "crates" / name, stdin=subprocess.DEVNULL, capture_output=True, text=True)
    fault = done.stdout + done.stderr or "no reason was given"
    return name, time.monotonic() - began, fault if done.returncode else ""


def say(text):
    print(f"tardis: {text}", file=sys.stderr, flush=True)


class Build:
    """Crates that are proved side by side, and what is left of them."""

    def __init__(self, graph, order, jobs):
        self.graph, self.order, self.jobs = graph, order, jobs
        self.longest, self.work = chains(graph, order), {name: work(name) for name in order}
        self.waiting = sorted(order, key=lambda name: -self.longest[name])
        self.running, self.proved, self.began = {}, set(), time.monotonic()
        self.seconds, self.lines = 0, 0  # what proofs took that weren't kept from before

    def start(self, pool):
        """Starts what can be proved now, as long as a processor is free for it."""
        ready = [name for name in self.waiting if self.proved.issuperset(self.graph[name])]
        longest = max(map(self.longest.get, [*self.waiting, *self.running.values()]), default=0)
        for name in ready[: self.jobs - len(self.running)]:
            spare = self.jobs - len(self.running) - len(ready) + 1
            is_urgent = self.longest[name] >= NEARLY * longest
            urgent = self.jobs if self.longest[name] == longest else self.jobs // 2 if is_urgent else 1
            self.waiting.remove(name)
            self.running[pool.submit(prove, name, max(urgent, spare), is_urgent)] = name

    def minutes_left(self):
        """How long the crates that are left will take, if their lines take as long as those that are proved."""
        left = [name for name in self.order if name not in self.proved]
        chain = max(self.longest[name] for name in left)
        lines = max(chain, sum(self.work[name] for name in left) / self.jobs)
        return round(lines * self.seconds / self.lines / 60)

    def take(self, name, seconds, fault):
        """Whether the crate is proved; says so."""
        if fault:
            say(f"{name} is not proved:\n{fault}")
            return False
        self.proved.add(name)
        if seconds > KEPT:
            self.seconds, self.lines = self.seconds + seconds, self.lines + self.work[name]
        minutes = int(time.monotonic() - self.began) // 60
        is_known = self.lines and len(self.proved) < len(self.order)
        left = f", about {self.minutes_left()} min left" if is_known else ""
        say(f"{len(self.proved)} of {len(self.order)} crates after {minutes} min{left}: {name} is proved")
        return True

    def run(self):
        """Proves all; whether that went well."""
        with concurrent.futures.ThreadPoolExecutor(self.jobs) as pool:
            while self.waiting or self.running:
                self.start(pool)
                done, _ = concurrent.futures.wait(self.running, return_when=concurrent.futures.FIRST_COMPLETED)
                for each in done:
                    del self.running[each]
                if not all([self.take(*each.result()) for each in done]):
                    return False
        return True


def main():
    options = argparse.ArgumentParser(description=__doc__.splitlines()[0])
    options.add_argument("crates", nargs="*", default=["tardis"])
    options.add_argument("--jobs", type=int, default=jobs_that_fit())
    given = options.parse_args()
    graph = crates()
    if not graph.keys() >= set(given.crates) or given.jobs < 1:
        options.error("no such crate, or no job")
    sys.exit(0 if Build(graph, needed(graph, *given.crates), given.jobs).run() else 1)


if __name__ == "__main__":
    if sys.argv[1:2] in (["-h"], ["--help"]):
        raise SystemExit(print(__doc__))
    main()
