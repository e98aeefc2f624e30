"""Batches of seeds that two workers share, whose growths are refused, each in turn; tests/refusals.py runs this part.

The report is the same for every number of workers. If one growth was refused, it is the whole one. Or one run of it,
and no more, ended with a failed allocation, and the report says so. Or there is no memory; but not if a worker was
refused memory at its work: it stops, and the calling thread makes the runs that are left. The second program gives the
reports of a run that ended so (ended_runs.py).
"""
from collections import Counter
from pathlib import Path

from reference import oracle
from tests.ended_runs import cuts_of
from tests.refused_threads import are_started
from tools import merge


TOP = Path(__file__).resolve().parent.parent
NO_MEMORY = (1, "", "tardis: no memory\n")
WORKERS = 2
KINDS = ("no memory", "a run ended for want of memory", "done")


def texts_of(words):
    """The whole report, and those of which one run was cut short."""
    wholes, cuts = cuts_of(oracle.words().parse_args([*map(str, words)]))
    cut = {merge.joined([*wholes[:at], text, *wholes[at + 1:]]) for at, texts in enumerate(cuts) for text in texts}
    return merge.joined(wholes), cut


def kind_of(ran, whole, cut):
    if ran.answer() == (0, whole, ""):
        return "done"
    if ran.answer() == NO_MEMORY:
        return "no memory"
    return "a run ended for want of memory" if (ran.status, ran.error) == (1, "") and ran.out in cut else None


def sweep(tester, words, how):
    """Refuses the 1st, 2nd, .. growth alone, or with each later one, until nothing is left to refuse."""
    (whole, cut), kinds, number = texts_of(words), Counter(), 0
    name = f"--runs {words[-2]} of {words[-1].name} by {WORKERS} workers"
    unstarted = at_work = 0
    while True:
        number += 1
        ran = tester.run([*words[:1], "--workers", WORKERS, *words[1:]], growth=f"{number}{how}")
        kind = kind_of(ran, whole, cut)
        allowed = ["done"] if not ran.refused else ["no memory", "done"] if how else KINDS[ran.is_at_work:]
        tester.expect(kind in allowed, f"{name}, growth {number}{how}, {ran.told}: {ran.answer()}")
        if not ran.refused:
            tester.expect(ran.started == WORKERS - 1, f"{name}: {ran.started} threads were started")
            break
        kinds[kind] += 1
        unstarted += kind == "done" and ran.started == 0
        at_work += kind == "done" and ran.is_at_work
    if not how:
        for kind in KINDS:
            tester.expect(kinds[kind] > 0, f"{name}: none was told as {kind}")
        tester.expect(unstarted > 0, f"{name}: a thread was always started")
        tester.expect(at_work > 0, f"{name}: no worker did without")
    told = ", ".join(f"{kind} {kinds[kind]}" for kind in KINDS if kinds[kind])
    print(f"{name}, growth {how or 'alone'}: {number - 1} refused: {told}")


def refused_batches(tester):
    text = TOP / "examples" / "litmus" / "SB.litmus"
    for runs in (1, 3, 40):
        are_started(tester, "litmus", "--schedule", "seed", "--runs", runs, text)
    ran = tester.run(["litmus", "--schedule", "seed", "--runs", 100_000, "--workers", 16, text])
    tester.expect(ran.started == 15, f"100,000 runs by 16 workers: {ran.started} threads were started")
    for runs, test in ((1, "SB"), (5, "SB"), (5, "SB+forall")):
        words = ["litmus", "--schedule", "seed", "--seed", 7, "--runs", runs, text.with_stem(test)]
        for how in ("", "+"):
            sweep(tester, words, how)
