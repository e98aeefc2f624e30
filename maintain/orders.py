#!/usr/bin/env python3
"""Measures how long tools/order.py takes to decide random histories:

    maintain/orders.py [--seeds N] [--from SEED] [--reasons]

Each history has 600 operations of 3 cores. Its seed gives the words, 2 to 8, and the values of each, 2 to 4
(`drawn`). Of each seed (300, from 0) there are two: one as drawn, which has an order, and one with a received value
changed, which may have none. Measured is the processor time from the operations to the answer whether there is an order
(`decide`), also that of z3, if that is asked. The script prints those that take more than a second, and last how many
don't. An order is replayed on a flat memory (reference/order.py); an answer that the draw rules out ends the script.
Standard error has the load of the machine: figures for a page are those of an idle one.

With --reasons it also leaves operations out of each history of which only the search, or layers, know that it has no
order. It prints whether facts then show that, else how many operations are left. That takes up to ten seconds each.
"""
import argparse
import os
import re
import sys
from pathlib import Path

TOP = Path(__file__).resolve().parent.parent
sys.path.insert(0, str(TOP))
from reference.order import check  # noqa: E402
from reference.traces import Trace, read_records  # noqa: E402
from tests.order import drawn_text  # noqa: E402
from tools.orders import witness  # noqa: E402
from tools.orders.answer import decide, least  # noqa: E402
from tools.orders.forced import NoOrder, TimeUp  # noqa: E402
from tools.orders.history import read_history, words_of  # noqa: E402
from tools.orders.problem import Problem  # noqa: E402

OPERATIONS, CORES = 600, 3
WORDS, VALUES = range(2, 9), range(2, 5)
PROMISED = 1.0  # seconds
SECONDS = 600   # after which a history isn't decided: a busy machine may give it little of them


def drawn(seed, wrong):
    """The words, the values and the operations of a seed's history."""
    words, values = WORDS[seed % len(WORDS)], VALUES[seed // len(WORDS) % len(VALUES)]
    return words, values, read_history(drawn_text(OPERATIONS, CORES, words, values, seed, wrong))


def processor_time():
    """Of this process and of those that it started, in seconds."""
    times = os.times()
    return times.user + times.system + times.children_user + times.children_system


def answered(operations):
    """The order, None if there is none, or what was reached; whether facts alone say that; and the seconds."""
    start = processor_time()
    try:
        found, by_facts = decide(Problem(operations), SECONDS), False
    except NoOrder:
        found, by_facts = None, True
    except TimeUp as up:
        found, by_facts = up.reached, False
    return found, by_facts, processor_time() - start


def is_legal(operations, order):
    """Whether the second program finds that an order of all operations is one."""
    words = words_of(operations)
    records = read_records("\n".join(witness.record_lines(operations, words, order)).encode())
    trace = Trace("\n".join(witness.trace_lines(operations, words, False)).encode())
    return len(records) == len(operations) and check({}, trace.issued(), records) == "legal"


def left_of(operations):
    """How many operations the set has that is printed, and whether it is said to be the least; none if facts of a part
    are."""
    first = next(iter(least(operations, {})))
    count = re.search(r"these (\d+) operations", first)
    return (int(count[1]), first.endswith("none can be left out:")) if count else None


def measure(seed, wrong):
    """The seconds of one history, and what it was found to be."""
    words, values, operations = drawn(seed, wrong)
    found, by_facts, taken = answered(operations)
    what = "undecided" if isinstance(found, str) else "order" if found else "none by facts" if by_facts else "none"
    if what == "order" and not is_legal(operations, found) or what.startswith("none") and not wrong:
        sys.exit(f"seed {seed}, {wrong} wrong: the answer is wrong: {what}")
    if taken > PROMISED:
        print(f"seed {seed}, {words} words, {values} values, {wrong} wrong: {taken:.2f} s, {what}", flush=True)
    return taken, what


def told(rows, what):
    times = sorted(taken for taken, _ in rows)
    soon = sum(taken <= PROMISED for taken, said in rows if said != "undecided")
    print(f"{what}: {soon} of {len(rows)} decided within {PROMISED:g} s; half within {times[len(times) // 2]:.2f} s, "
          f"the slowest after {times[-1]:.2f} s")


def main():
    words = argparse.ArgumentParser(description=__doc__, formatter_class=argparse.RawDescriptionHelpFormatter)
    words.add_argument("--seeds", type=int, default=300, metavar="N")
    words.add_argument("--from", type=int, default=0, metavar="SEED", dest="first")
    words.add_argument("--reasons", action="store_true")
    given = words.parse_args()
    seeds, rows = range(given.first, given.first + given.seeds), {}
    print(f"load {os.getloadavg()[0]:.1f} of {os.cpu_count()}", file=sys.stderr)
    for wrong in (0, 1):
        rows[wrong] = [measure(seed, wrong) for seed in seeds]
    told(rows[0], "as drawn")
    told(rows[1], "with a value changed")
    told(rows[0] + rows[1], "all")
    ends = [said for _, said in rows[0] + rows[1]]
    print(f"no order: {ends.count('none') + ends.count('none by facts')}, by facts: {ends.count('none by facts')}; "
          f"undecided: {ends.count('undecided')}")
    if given.reasons:
        found = [left_of(drawn(seed, 1)[2]) for seed, (_, said) in zip(seeds, rows[1]) if said == "none"]
        sets = sorted(count for count, _ in filter(None, found))
        print(f"facts of a part: {found.count(None)}; sets of operations: {sets}, the least: "
              f"{sum(is_least for _, is_least in filter(None, found))}")
    print(f"load {os.getloadavg()[0]:.1f} of {os.cpu_count()}", file=sys.stderr)


if __name__ == "__main__":
    main()
