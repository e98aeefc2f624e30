#!/usr/bin/env python3
"""Writes the seeded drives of crates/play_events/data: tests/seeded_cases.py [FOLDER].

FOLDER, by default crates/play_events/data, gets seeded-evictions.events and seeds.events, texts of docs/EVENTS.md. Of
the seeds that a case names (most: 0 to 2,999), the script takes the one whose run shows all that the case asks for
within the fewest events: so the files are the same each time.
"""
import sys
from itertools import chain
from pathlib import Path
from types import SimpleNamespace

sys.path.insert(0, str(Path(__file__).resolve().parent.parent))
from reference import order  # noqa: E402
from reference.calls import options_of  # noqa: E402
from reference.events import line, machine_line, made_lines, program_lines, record_lines  # noqa: E402
from reference.reports import drive  # noqa: E402
from reference.schedules import ADVANCE, test_generator  # noqa: E402
from reference.traces import Steps  # noqa: E402
from reference.watch import WatchedRun  # noqa: E402


LAST = 2 ** 64 - 1
ANY = range(3000)
# So many seeds of each case with evictions are driven, so far that all come to one end.
SEEDS, TURNS_ENOUGH, TOO_FEW, FULL_SEED = 100, 1_000, 16, 0
ONE_COPY = {"sets": 1, "ways": 1}
ONE_LINE = {"bank-sets": 1, "bank-ways": 1}


def load(word):
    return "load", word, None


def store(word, value):
    return "store", word, value


def swap(word, value):
    return "swap", word, value


STORE_BUFFERING = [[store(0, 1), load(1)], [store(1, 1), load(0)]]

# What a case shows, and what change of which definition it refuses; its options; its programs; its limit; its end;
# what must occur, as reference/watch.py says it; and the seeds that are tried.
EVICTIONS = [
    ("after NoRoom the victim leaves, Shared or owned, and no attempt follows it in that turn",
     ["SeedSchedule.chosen: after NoRoom there is no second attempt in that turn (tried: one)"],
     ONE_COPY, [[load(0), load(1)], [store(2, 5), load(3)]], 200, "all-done",
     ["follow-up EvictCache Shared Evicted", "follow-up EvictCache Exclusive Evicted"], ANY),
    ("after Held a line of the bank leaves: a clean one",
     ["Parts.delivery: after Held the line that makes room leaves its bank"],
     ONE_LINE, [[load(0)], [load(1)]], 200, "all-done", ["follow-up EvictBank Shared Evicted"], ANY),
    ("after Held an owned line is recalled, and once it is given back a dirty one is stored",
     ["Parts.delivery: after Held the line that makes room leaves its bank"],
     ONE_LINE, [[store(0, 7)], [load(1)]], 200, "all-done",
     ["follow-up EvictBank Exclusive Recalled", "follow-up EvictBank dirty Evicted"], ANY),
    ("the list of banks' lines recalls an owned line, and lets a clean and a dirty one leave",
     ["SeedSchedule.bank_evictions: the lines that a bank has Shared or Exclusive, by bank and line"],
     {}, [[store(0, 1), load(0)], [load(1)]], 200, "all-done",
     ["list 2 EvictBank Exclusive Recalled", "list 2 EvictBank Shared Evicted", "list 2 EvictBank dirty Evicted"], ANY),
    ("a copy is pinned from the issue of an operation on its line on; other copies leave",
     ["SeedSchedule.cache_evictions: the copies that aren't pinned, by core and line"],
     {}, [[load(0), store(0, 2)], [load(1), load(1)]], 200, "all-done",
     ["pinned, no request yet", "pinned, request out", "list 1 EvictCache Shared Evicted"], ANY),
    ("the list of copies gives back an owned line, and the recall that comes too late is dropped",
     ["SeedSchedule.cache_evictions: the copies that aren't pinned, by core and line"],
     {}, [[store(0, 1)], [swap(0, 3)]], 200, "all-done",
     ["list 1 EvictCache Exclusive Evicted", "Deliver FlushReq Dropped"], ANY),
    ("the eviction that follows NoRoom is refused by a full network; a list's eviction is, too",
     ["SeedSchedule.chosen: after NoRoom there is no second attempt in that turn (tried: one)"],
     {"sets": 1, "ways": 1, "messages": 2}, [[store(0, 1), load(1)], [load(2)]], 300, "all-done",
     ["follow-up EvictCache Exclusive NetworkFull", "list 1 EvictCache Exclusive NetworkFull"], ANY),
    ("four cores, one-line private caches and a bank of two lines: both evictions that follow",
     ["Parts.tries: after NoRoom the victim leaves"],
     {"sets": 1, "ways": 1, "bank-sets": 1, "bank-ways": 2},
     [[load(0), store(2, 1)], [store(1, 2)], [swap(2, 4)], [ADVANCE, load(1)]], 400, "all-done",
     ["follow-up EvictCache Shared Evicted", "follow-up EvictBank Shared Evicted"], ANY),
    ("two banks with one line each, lines of eight words, private writes, three cores",
     ["SeedSchedule.bank_evictions: the lines that a bank has Shared or Exclusive, by bank and line"],
     {"banks": 2, "bank-sets": 1, "bank-ways": 1, "line-words": 8, "private-write": True},
     [[store(0, 1), store(1, 2), load(16)], [load(8), swap(1, 3)], [ADVANCE, load(24)]], 400, "all-done",
     ["follow-up EvictBank Shared Evicted", "Attempt written store Completed"], ANY),
]

TURNS = [
    ("an advance of the first list isn't told, also where the program wants one; what a step asks for is",
     ["SeedSchedule.advances: list 0 is an advance of each core, which no program is told (tried: it is told)"],
     {}, [[ADVANCE, store(0, 1)], [load(0), ADVANCE]], 200, "all-done",
     ["list 0 Advance Advanced", "list 0, wanted too Advance Advanced", "Advance Advanced"], ANY),
    ("from an empty list of copies and from one of banks' lines no event is made, and each is a turn",
     ["SeedSchedule.choice_at: an empty list makes no event, and the turn counts"],
     {}, [[load(0)], [store(0, 3)]], 200, "all-done", ["list of copies: empty", "list of banks' lines: empty"], ANY),
    ("the turns are used before all is done", ["Runs.end_here: the turns are used"],
     {}, [[load(0)], [store(0, 1)]], 12, "limit", ["Issue Issued"], ANY),
    ("the last turn that may be made is enough", ["Runs.end_here: a run is all done after its last turn, too"],
     {}, [[load(0)], []], 9, "all-done", [], range(6, 7)),
    ("the same with one turn less", ["Runs.run: the turns are used (tried: one turn more)"],
     {}, [[load(0)], []], 8, "limit", [], range(6, 7)),
    ("an advance of the first list past the last time ends the run", ["Parts.after_action: Exhausted ends the run at once"],
     {"time": LAST}, [[ADVANCE, load(0)], [load(1)]], 100, "exhausted",
     ["list 0 Advance Exhausted", "Issue Issued"], ANY),
    ("an advance that a program asked for past the last time ends the run",
     ["Parts.after_action: Exhausted ends the run at once"],
     {"time": LAST - 1}, [[ADVANCE, ADVANCE], [load(0)]], 100, "exhausted",
     ["Advance Advanced", "Advance Exhausted"], ANY),
    ("a delivery that is Exhausted ends the run", ["Parts.after_action: Exhausted ends the run at once"],
     {"time": LAST - 9}, [[load(0)], [load(1)]], 100, "exhausted", ["Deliver ShReq Exhausted"], ANY),
    ("an attempt that is Exhausted ends the run", ["Parts.after_action: Exhausted ends the run at once"],
     {"time": LAST}, [[store(0, 1)], [store(1, 1)]], 100, "exhausted", ["Attempt store Exhausted"], ANY),
    ("no turn may be made", ["Runs.end_here: the turns are used"], {}, [[load(0)], []], 0, "limit", [], range(1)),
    ("nothing is to be done: all done without a turn", ["Runs.end_here: a run is all done before a turn"],
     {}, [[], []], 0, "all-done", [], range(1)),
    ("seed 42 as far as twelve turns",
     ["SeedSchedule.drawn: the first word draws the list, the second its entry (tried: the other order)",
      "SeedSchedule.steps: each core's step, then the deliveries (tried: deliveries first)",
      "SeedSchedule.core_step: no attempt while the request is out (tried: one)"],
     {}, STORE_BUFFERING, 12, "limit", [], range(42, 43)),
    ("the least seed of 33 bits", ["SeedSchedule.of_seed: all bits of the seed (tried: the upper half is lost)"],
     {}, STORE_BUFFERING, 12, "limit", [], range(2 ** 32, 2 ** 32 + 1)),
    ("the greatest seed, a longer run", ["SeedSchedule.of_seed: all bits of the seed (tried: the upper half is lost)"],
     {}, STORE_BUFFERING, 200, "all-done", [], range(LAST, LAST + 1)),
]

# So many loads of one word by core 1 of three take more than 65,536 turns. The line leaves the cache and the bank
# again and again, and comes back with the bank's memory time: so the core's time goes far.
LOADS, LONG_SEED, MOST_TURNS = 40_000, 7, 2 ** 32 - 1

# The first lines of each file.
HEADS = {
    "seeded-evictions": """\
# Seeded drives with evictions, written by tests/seeded_cases.py with the second program's machine.
# Behind each line of events stands its first turn, and which list each turn drew; an empty list is in parentheses.
# Each is driven once more on a machine that keeps its lines in rising order, and then by the seeds from 0 to 99.
# That the lists of evictions rise, whatever the sets and the order of use, show SEED-SETS, SEED-MIXED and
# SEED-MIXED-ADVANCES of examples/traces.
""",
    "seeds": """\
# Seeded drives: turns, seeds and ends, written by tests/seeded_cases.py with the second program's machine.
# Behind each line of events stands its first turn, and which list each turn drew; an empty list is in parentheses.
# An end for want of memory comes only where memory is refused (tests/refusals.sh).
""",
}


def drive_case(options, programs, seed, limit):
    given = SimpleNamespace(**vars(options_of(options)), schedule="seed", limit=limit)
    run, end = drive(given, [Steps(steps) for steps in programs], {}, seed, None, WatchedRun)
    assert order.check({}, run.issued(), run.machine.records) == "legal"
    return run, end


def search(shows, options, programs, limit, wanted_end, wanted, seeds):
    """The seed, the run and its end, with the fewest events of those that show all that the case asks for."""
    best = None
    for seed in seeds:
        run, end = drive_case(options, programs, seed, limit)
        if end == wanted_end and run.shown.issuperset(wanted) and (not best or len(run.made) < len(best[1].made)):
            best = seed, run, end
    assert best, f"no seed shows: {shows}"
    return best


def drive_lines(run, end, seed, limit, has_notes=True):
    """A drive and its events; notes have the turns and the list that each drew."""
    starts = [start for start, _, _ in run.drawn] + [len(run.made)]
    turns = [[event for event, _ in run.made[start:after]] for start, after in zip(starts, starts[1:])]

    def note(first, last):
        lists = (str(which) if length else f"({which})" for _, which, length in run.drawn[first:last])
        return f"turn {first + 1}: {' '.join(lists)}" if has_notes else ""

    yield line(f"seed {seed} {limit}", f"{end}, {len(run.made)} events")
    yield from made_lines(run.machine, turns, note)


def many_seeds_lines(options, programs):
    """The seeds from 0 on. With room for all messages each comes to its end; else a run may go on for ever."""
    limit, wanted = (TOO_FEW, "limit") if "messages" in options else (TURNS_ENOUGH, "all-done")
    for seed in range(SEEDS):
        assert drive_case(options, programs, seed, limit)[1] == wanted, seed
    yield "# refuses: SeedSchedule.seeded: a seeded run never stalls (tried: a turn without progress is the last)"
    yield from (f"repeat {SEEDS}", line("reopen", "reopened"), line(f"seed 0+@ {limit}", f"{wanted}, .."), "end")
    if wanted == "limit":
        run, end = drive_case(options, programs, FULL_SEED, TURNS_ENOUGH)
        yield line("reopen", "reopened")
        yield line(f"seed {FULL_SEED} {TURNS_ENOUGH}", f"{end}, {len(run.made)} events")


def case_lines(case, has_evictions):
    """A case as an example."""
    shows, refused, options, programs, limit, *wanted = case
    seed, run, end = search(shows, options, programs, limit, *wanted)
    print(f"{len(run.made)} events, {len(run.drawn)} turns, seed {seed}: {shows}")
    options = {"cores": len(programs), **options}
    yield from ("", f"example {shows}", *(f"# refuses: {what}" for what in refused), machine_line(options))
    yield from chain(program_lines(programs), drive_lines(run, end, seed, limit), record_lines(run.machine.records))
    if has_evictions:
        yield line("order", "not kept")
        yield from (machine_line(options), line("order keep", "kept"))
        yield from chain(drive_lines(run, end, seed, limit, False), record_lines(run.machine.records))
        yield line("order", "kept")
        yield from many_seeds_lines(options, programs)


def long_lines():
    programs = [[], LOADS * [load(0)], []]
    run, end = drive_case({}, programs, LONG_SEED, MOST_TURNS)
    print(f"{len(run.made)} events, {len(run.drawn)} turns: a long run")
    yield from ("", f"example no turn is too late: {len(run.drawn):,} turns",
                "# refuses: Runs.one_more: each turn is followed by another one, however many there were",
                machine_line({"cores": len(programs)}))
    yield line(f"program 1 {LOADS} R 0x0", "given")
    yield line(f"seed {LONG_SEED} {MOST_TURNS}", f"{end}, {len(run.made)} events")
    yield from record_lines(run.machine.records, LOADS - 1)


def main():
    test_generator()
    folder = Path(sys.argv[1]) if sys.argv[1:] else Path(__file__).resolve().parent.parent / "crates/play_events/data"
    files = {"seeded-evictions": chain(*(case_lines(case, True) for case in EVICTIONS)),
             "seeds": chain(*(case_lines(case, False) for case in TURNS), long_lines())}
    for name, lines in files.items():
        (folder / f"{name}.events").write_text(HEADS[name] + "".join(f"{one}\n" for one in lines), encoding="ascii")


if __name__ == "__main__":
    if sys.argv[1:2] in (["-h"], ["--help"]):
        raise SystemExit(print(__doc__))
    main()
