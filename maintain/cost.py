#!/usr/bin/env python3
"""Says what a gate costs, in processor seconds by crate, and writes docs/COST.md.

    maintain/cost.py measure FILE COMMAND..     runs a command, such as .ci/run, and writes what its proofs cost to FILE
    maintain/cost.py write FILE [BEFORE]        writes docs/COST.md from such a file, with the sum of an earlier one

The kit's log has no times. So while the command runs, the script looks at the processes of its prover ten times a
second. Each names its crate, and is a proof, a check of tests (`--test`) or the trial of an edit (which works on a
copy of the crate, outside the repository). What a process used after its last look is lost: about a tenth of a second
for each of its threads. Two figures can be compared if they were measured on one machine in one sitting. FILE may have
anything else that the page should say of a measurement as "note".
"""
import json
import os
import resource
import subprocess
import sys
import time
from pathlib import Path

TOP = Path(__file__).resolve().parent.parent
PAGE = TOP / "docs/COST.md"
KINDS = ("proof", "tests", "edits")
TICK = os.sysconf("SC_CLK_TCK")
CHEAP = 60  # crates of fewer seconds share a row


def work_of(process, session):
    """The crate and the kind of a prover's process of the session, and its processor seconds; None for any other."""
    try:
        words = (process / "cmdline").read_bytes().decode(errors="replace").split("\0")
        if Path(words[0]).name != "rattle" or "--crate-name" not in words:
            return None
        fields = (process / "stat").read_text().rsplit(")", 1)[1].split()
    except OSError:
        return None
    if int(fields[3]) != session:
        return None
    crate = words[words.index("--crate-name") + 1]
    kind = "edits" if "--only" in words else "tests" if "--test" in words else "proof"
    return crate, kind, (int(fields[11]) + int(fields[12])) / TICK, fields[19]


def measure(command):
    """What the command's proofs cost by crate and kind, the sum of all that it ran, and how long it took."""
    began, seen = time.monotonic(), {}
    running = subprocess.Popen(command, cwd=TOP, start_new_session=True)
    while running.poll() is None:
        for process in Path("/proc").glob("[0-9]*"):
            found = work_of(process, running.pid)
            if found:
                crate, kind, seconds, start = found
                seen[process.name, start] = crate, kind, seconds
        time.sleep(0.1)
    used = resource.getrusage(resource.RUSAGE_CHILDREN)
    costs = {}
    for crate, kind, seconds in seen.values():
        costs.setdefault(crate, dict.fromkeys(KINDS, 0.0))[kind] += seconds
    return {"costs": costs, "sum": used.ru_utime + used.ru_stime, "wall": time.monotonic() - began,
            "processors": len(os.sched_getaffinity(0)), "status": running.returncode,
            "commit": subprocess.run(["git", "rev-parse", "--short", "HEAD"], cwd=TOP, capture_output=True,
                                     text=True).stdout.strip(),
            "day": time.strftime("%Y-%m-%d")}


def graph():
    lines = [line.split("#")[0] for line in (TOP / "crates.txt").read_text().splitlines()]
    named = dict(line.split(":") for line in lines if ":" in line)
    return {name.strip(): [low for low in below.split() if low in {n.strip() for n in named}]
            for name, below in named.items()}


def longest_chain(costs):
    """The chain of crates, each on the next one below, whose proofs take longest one after the other."""
    below, known = graph(), {}

    def chain(name):
        if name not in known:
            low = max((chain(low) for low in below[name]), key=lambda c: c[0], default=(0, ()))
            known[name] = (low[0] + costs.get(name, {}).get("proof", 0), (*low[1], name))
        return known[name]

    return max((chain(name) for name in below), key=lambda c: c[0])


def minutes(seconds):
    return f"{seconds / 60:.1f}"


def page(now, before):
    costs = now["costs"]
    sums = {kind: sum(cost[kind] for cost in costs.values()) for kind in KINDS}
    seconds, chain = longest_chain(costs)
    yield "# What the gate costs\n"
    yield (f"The gate of commit {now['commit']}, measured by `maintain/cost.py` on {now['day']}, from nothing, with"
           f" {now['processors']} processors,\ntook {minutes(now['wall'])} minutes and {minutes(now['sum'])} processor"
           " minutes. It says nothing of the program's speed.")
    if now.get("note"):
        yield now["note"]
    if before:
        yield (f"In the same sitting the commit {before['commit']} took {minutes(before['wall'])} minutes and"
               f" {minutes(before['sum'])} processor minutes.")
    yield ""
    yield "| What | Processor minutes |"
    yield "|---|---|"
    for kind, words in zip(KINDS, ("Proofs of crates", "Proofs of their tests", "Edits that the prover must refuse")):
        yield f"| {words} | {minutes(sums[kind])} |"
    rest = now["sum"] - sum(sums.values())
    yield f"| The rest: the kit's own work, linking, programs and scripts | {minutes(rest)} |"
    yield ""
    yield (f"The proofs of the longest chain take {minutes(seconds)} processor minutes, one after the other:\n"
           + ",\n".join(", ".join(chain[at:at + 7]) for at in range(0, len(chain), 7)) + ".\n")
    yield "| Crate | Proof (s) | Tests (s) | Edits (s) |"
    yield "|---|---|---|---|"
    whole = {name: sum(cost.values()) for name, cost in costs.items()}
    dear = [name for name in sorted(costs, key=lambda name: -whole[name]) if whole[name] > CHEAP]
    others = {kind: sum(cost[kind] for name, cost in costs.items() if name not in dear) for kind in KINDS}
    for name, cost in [*((f"`{name}`", costs[name]) for name in dear), (f"{len(costs) - len(dear)} others", others)]:
        yield f"| {name} | " + " | ".join(f"{cost[kind]:.0f}" if cost[kind] else "-" for kind in KINDS) + " |"


def main():
    if sys.argv[1:2] == ["measure"] and len(sys.argv) > 3:
        measured = measure(sys.argv[3:])
        Path(sys.argv[2]).write_text(json.dumps(measured, indent=1) + "\n")
        raise SystemExit(measured["status"])
    if sys.argv[1:2] == ["write"] and len(sys.argv) in (3, 4):
        missing = [name for name in sys.argv[2:] if not Path(name).is_file()]
        if missing:
            print(f"cost.py: {missing[0]}: no such file", file=sys.stderr)
            raise SystemExit(2)
        read = [json.loads(Path(name).read_text()) for name in sys.argv[2:]]
        if any(each["status"] for each in read):
            raise SystemExit("cost.py: a gate that failed says nothing of what one costs")
        PAGE.write_text("\n".join(page(read[0], read[1] if len(read) > 1 else None)) + "\n")
        return
    raise SystemExit(__doc__)


if sys.argv[1:2] in (["-h"], ["--help"]):
    raise SystemExit(print(__doc__))
main()
