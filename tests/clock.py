#!/usr/bin/env python3
"""Tries tools/clock.py: tests/clock.py

The cycles of small traces were worked out by hand from docs/COUNTS.md, Cycles. Random programs at random costs end all
done on each machine, and their histories are legal. The last line is `N tried, M wrong`.
"""
import random
import sys
import tempfile
from pathlib import Path
from types import SimpleNamespace
from unittest import mock

sys.path.insert(0, str(Path(__file__).resolve().parent.parent))
from reference import order  # noqa: E402
from reference.counted import Counts  # noqa: E402
from reference.machine import Machine  # noqa: E402
from reference.traces import Steps  # noqa: E402
from tests.compare import options_with  # noqa: E402
from tests.texts import TOP, Tester  # noqa: E402
from tools import clock, measured  # noqa: E402


RUNS = 40
# A trace, options, and misses, messages and cycles. A miss that goes to DRAM takes 10 + 100 + 10 cycles, another one
# 10 + 10, and each operation 1 when it completes.
BY_HAND = {
    "a load": ("0 R 0x0\n", "", "1 2 121"),
    "a load that hits": ("0 R 0x0\n0 R 0x0\n", "", "1 2 122"),
    "hits alone": ("0 R 0x0\n" * 3, "--hop 0 --dram 0 --hit 5", "1 2 15"),
    "an upgrade": ("0 R 0x0\n0 W 0x0 1\n", "", "2 4 142"),
    "two cores on two words": ("0 R 0x0\n1 R 0x8\n", "", "2 4 121"),
    # The lease ends at 2, and the second load comes at time 3. Advances take no cycle.
    "a renewal": ("trace 2\n0 R 0x0\n0 A\n0 A\n0 A\n0 R 0x0\n", "--lease 2", "2 4 142"),
    # Both requests are at the bank at 10; the store completes at 120, when the recall is there, too. The line is back
    # at 130, and with core 1 at 140.
    "a recall": ("0 W 0x0 1\n1 R 0x0\n", "", "2 6 141"),
    "a copy that makes place": ("0 R 0x0\n0 R 0x8\n", "--sets 1 --ways 1", "2 4 242"),
    # The load is at the bank at 131, the recall with the owner at 141, and the line back at 151. It is stored at 251,
    # the other one loaded at 351, and with the core at 361.
    "an entry that makes place": ("0 W 0x0 1\n0 R 0x8\n", "--bank-sets 1 --bank-ways 1", "2 6 362"),
    # The store's request is at the bank at 131. Tardis answers at once. A directory's InvReq is there at 141, its
    # answer back at 151, and the line with core 0 at 161; so are FlushReq and CleanRep of MESI.
    "a store past a lease": ("1 R 0x0\n0 R 0x8\n0 W 0x0 1\n", "", "3 6 142"),
    "an invalidation": ("1 R 0x0\n0 R 0x8\n0 W 0x0 1\n", "--machine msi", "3 8 162"),
    "an exclusive copy": ("1 R 0x0\n0 R 0x8\n0 W 0x0 1\n", "--machine mesi", "3 8 162"),
    "nothing": ("", "", "0 0 0"),
}


def by_hand(tester, path):
    for name, (text, options, wanted) in BY_HAND.items():
        path.write_text(text)
        status, out, error = tester.run(*options.split(), str(path))
        lines = out.splitlines()
        row = dict(zip(lines[1].split(), lines[2].split())) if len(lines) == 3 else {}
        got = " ".join(row.get(column, "none") for column in ("misses", "messages", "cycles"))
        good = (status, error, got, row.get("end")) == (0, "", wanted, "all-done")
        tester.expect(good and lines[0].startswith("The machine has no time. Assumed, in cycles: "),
                      f"{name}: {status} {out} {error}, wanted {wanted}")


def at_random(tester):
    for seed in range(RUNS):
        generator = random.Random(seed)
        few = generator.choice
        options = options_with(cores=5, banks=few([1, 3]), sets=few([1, 64]), ways=few([1, 4]), bank_sets=few([1, 256]),
                               bank_ways=few([1, 8]), line_words=few([1, 8]), messages=65536)
        costs = SimpleNamespace(hop=few([0, 1, 10]), dram=few([0, 7, 100]), hit=few([0, 1, 3]))
        steps = [[(few(["load", "load", "swap"]), generator.randrange(10)) for _ in range(generator.randrange(40))]
                 for _ in range(few([1, 3, 5]))]
        issued = [[(kind, word, None if kind == "load" else generator.randrange(100)) for kind, word in of]
                  for of in steps]
        for name in measured.MACHINES:
            run = clock.Clocked(measured.machine_of(name, options, len(issued)), list(map(Steps, issued)), costs)
            end, verdict = run.go(), order.check({}, issued, run.machine.records)
            least = max(len(of) for of in issued) * costs.hit
            tester.expect((end, verdict) == ("all-done", "legal") and run.cycles >= least,
                          f"random run {seed}, {name}: {end} {verdict} {run.cycles} of {least} cycles")


class Stuck(Machine):
    """Nothing arrives."""

    def deliver(self, number):
        return "Held"


def tables(tester, path):
    machine = Counts(Stuck(options_with(cores=1), 1, {}))
    run = clock.Clocked(machine, [Steps([("load", 0, None)])], SimpleNamespace(hop=1, dram=1, hit=1))
    tester.expect(run.go() == "starved", "a run that can't end")
    # A load that hits makes an event of its core, and completes in it: 30 of them are no long wait.
    run = clock.Clocked(Counts(Machine(options_with(cores=1), 1, {})), [Steps([("load", 0, None)] * 30)],
                        SimpleNamespace(hop=1, dram=1, hit=1))
    with mock.patch.object(clock, "LONG", 20):
        tester.expect(run.go() == "all-done", "a run of many events, of which few in a row complete nothing")
    path.write_text("0 R 0x0\n")
    _, out, _ = tester.run("--lease", "1,2", "--machine", "msi,tardis", "--hop", "2", str(path))
    got = [line.split()[:2] + line.split()[-1:] for line in out.splitlines()[1:]]
    # 2 + 100 + 2 + 1 cycles.
    wanted = [["lease", "machine", "cycles"]] + [[lease, name, "105"] for lease in "12" for name in ("msi", "tardis")]
    tester.expect(got == wanted, f"a table: {out}")
    for wanted, *words in (("isn't a number from 0 to 1000000", "--hop", "x"), ("none of tardis", "--machine", "moesi"),
                           ("unrecognized arguments: --limit", "--limit", "5"), ("bad configuration", "--ways", "0")):
        status, out, error = tester.run(*words, str(path))
        tester.expect((status, out) == (2, "") and wanted in error and error.count("\n") == 1, f"{words}: {error}")


def main():
    tester = Tester(str(TOP / "tools/clock.py"))
    with tempfile.TemporaryDirectory() as folder:
        path = Path(folder, "a.trace")
        by_hand(tester, path)
        at_random(tester)
        tables(tester, path)
    print(f"{tester.tried} tried, {tester.wrong} wrong")
    return int(tester.wrong > 0)


if __name__ == "__main__":
    sys.exit(main() if len(sys.argv) == 1 else __doc__)
