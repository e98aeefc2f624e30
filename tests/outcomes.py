#!/usr/bin/env python3
"""Runs small litmus tests under 512 settings each: tests/outcomes.py PROGRAM.

Under any setting, a reported end state must be one that plain enumeration of the interleavings finds
(reference/sequential.py). How many these are was counted by hand, and none of them meets the test's expression. The
tests are those of examples/outcomes, whose header line `ends=..` has the number, and four of the catalogue. The last
line is `N tried, M wrong`.
"""
import re
import sys
from concurrent.futures import ThreadPoolExecutor
from itertools import product
from os import cpu_count
from pathlib import Path

sys.path.insert(0, str(Path(__file__).resolve().parent.parent))
from reference import sequential  # noqa: E402
from reference.litmus import Test  # noqa: E402
from tests import by_threads, texts  # noqa: E402

EXAMPLES = Path(__file__).resolve().parent.parent / "examples"

CATALOGUE = {"SB": 3, "MP": 3, "LB": 3, "WRC": 7}
RUNS, LIMIT, LAST = 2, 100, 2 ** 64 - 1
# With these messages there is always room for one more. From these times on no sum of times of a test passes 64 bits;
# from the others one may.
MESSAGES, EARLY = "4096", ("0", str(2 ** 62))
TIMES = (*EARLY, str(LAST - 9), str(LAST - 1))
CHOICES = {"--lease": ("10", "1"), "--banks": ("1", "2"), "--sets": ("64", "1"), "--bank-sets": ("256", "1"),
           "--line-words": ("1", "8"), "--time": TIMES, "--messages": (MESSAGES, "3"), "--private-write": (None, "")}
# A number of sets comes with one of ways.
WAYS = {("--sets", "64"): ("--ways", "4"), ("--sets", "1"): ("--ways", "1"),
        ("--bank-sets", "256"): ("--bank-ways", "8"), ("--bank-sets", "1"): ("--bank-ways", "1")}


def settings():
    for values in product(*CHOICES.values()):
        setting = dict(zip(CHOICES, values))
        words = [word for pair in setting.items() if pair[1] is not None for word in (*pair, *WAYS.get(pair, ()))]
        yield [word for word in words if word], setting["--time"] in EARLY and setting["--messages"] == MESSAGES


def tests():
    """Each test's path, and how many ends it has."""
    for path in sorted((EXAMPLES / "outcomes").glob("*.litmus")):
        yield path, int(re.search("^ends=(.*)$", path.read_text(encoding="ascii"), re.M)[1])
    yield from ((EXAMPLES / "litmus" / f"{name}.litmus", ends) for name, ends in CATALOGUE.items())


def plain_faults(test, possible, ends):
    if len(possible) != ends:
        yield f"{len(possible)} ends, not {ends}"
    if sequential.answer(test, possible) not in ("forbidden", "always"):
        yield "its expression holds in some end"


def faults(program, path, test, possible, words, must_finish):
    """What can't be so under a setting."""
    ran = texts.ran([program, "litmus", "--runs", str(RUNS), "--limit", str(LIMIT), *words, str(path)], text=True)
    try:
        batch = by_threads.read_batch(test, ran.stdout)
    except (IndexError, ValueError) as error:
        return [f"status {ran.returncode}, another form: {error}"]
    found = list(by_threads.batch_faults(test, possible, batch, RUNS, ran.returncode, ran.stdout))
    if batch.ends["memory"] or must_finish and batch.ends["all-done"] != RUNS:
        found.append(f"it ends {batch.ends}")
    return found


def main(program):
    tried, wrong = 0, []
    with ThreadPoolExecutor(cpu_count()) as pool:
        for path, ends in tests():
            test = Test(path.read_text(encoding="ascii"))
            possible = sequential.ends_of(test)
            wrong += [f"{test.name}: {fault}" for fault in plain_faults(test, possible, ends)]
            given = list(settings())
            for (words, _), found in zip(given, pool.map(
                    lambda setting: faults(program, path, test, possible, *setting), given)):
                tried += 1
                wrong += [f"{test.name} {' '.join(words)}: {fault}" for fault in found]
    print("\n".join([*wrong, f"{tried} tried, {len(wrong)} wrong"]))
    return int(bool(wrong))


if __name__ == "__main__":
    sys.exit(main(sys.argv[1]) if len(sys.argv) == 2 else __doc__)
