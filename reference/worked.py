"""Runs of the machine and of seats that were worked out by hand: what the second program is itself tested by.

A run is a list of words. An event with its answer: `I0:S0,5` issues to core 0 a store of 5 to word 0 (R a load, X a
swap), `A0` an attempt of core 0, `D3` the delivery of message 3, `C0,2` the eviction of core 0's copy of line 2,
`B0,2` that of bank 0's entry of line 2, `T0` an advance of core 0; behind `=` stands the answer's beginning. `0:R1`
does a whole operation of core 0: behind `=` stand the received value (- for none), a comma and the time.

A run of seats is a list of calls with their answers, as `turn 0=1 nothing`.

A run by one worker is a trace; behind it stand the end, how many passes were made, and the records, each as a line.
"""
from types import SimpleNamespace

from reference import order
from reference.machine import Machine
from reference.seats import Seats
from reference.traces import Trace, record_line
from reference.workers import by_one_worker


USUAL = {"banks": 1, "sets": 64, "ways": 4, "bank_sets": 256, "bank_ways": 8, "line_words": 1, "lease": 10,
         "messages": 4096, "time": 0, "private_write": False, "fair": False}
LAST = 2 ** 64 - 1
KINDS = {"R": "load", "S": "store", "X": "swap"}
EVENTS = {"A": "Attempt", "D": "Deliver", "C": "EvictCache", "B": "EvictBank", "T": "Advance"}

# What a run shows, its options, its words, and at its end: counts that aren't 0, memory times, values of words.
RUNS = [
    ("a load on a lease reads the past", {}, "1:R0=0,0 0:S0,1=-,11 1:R0=0,0", {"stale": 1}, [0], {0: 1}),
    ("past its lease it reads what was written", {}, "1:R0=0,0 0:S0,1=-,11 1:R0=0,0" + 11 * " T1=Adv" + " 1:R0=1,11",
     {"write-backs": 1, "stale": 1}, [0], {0: 1}),
    ("a copy that is still the line's is renewed", {}, "1:R0=0,0" + 11 * " T1=Adv" + " 1:R0=0,11",
     {"renewals": 1}, [0], {0: 0}),
    ("and upgraded", {}, "0:R0=0,0 0:S0,4=-,11", {"upgrades": 1}, [0], {0: 4}),
    ("a swap receives the old word, and takes a store's time", {}, "0:S0,3=-,1 0:X0,5=3,2", {}, [0], {0: 5}),
    ("a line comes back from DRAM at the memory time", {},
     "0:R0=0,0 B0,0=Evicted 1:R0=0,10 0:R0=0,0", {}, [10], {0: 0}),
    ("a dirty line is stored before it is loaded again", {},
     "I0:S0,5=Iss A0=Req D0=Sta D1=Del D2=Del D0=Del D3=Del A0=Com C0,0=Evi D4=Del B0,0=Evi I1:R0=Iss A1=Req D6=Held "
     "D5=Del D6=Held D7=Del D6=Sta D8=Del D9=Del D6=Del D10=Del A1=Com", {"flushes": 1}, [1], {0: 5}),
    ("a recall waits for the grant, and for the operation", {},
     "I0:S0,1=Iss A0=Req D0=Sta D1=Del D2=Del D0=Del I1:S0,2=Iss A1=Req D4=Sta D5=Held D3=Del D5=Held A0=Com D5=Del "
     "D6=Del D4=Del D7=Del A1=Com", {"flushes": 1}, [0], {0: 2}),
    ("a copy is pinned while its upgrade is asked for", {}, "0:R0=0,0 I0:S0,1=Iss A0=Req C0,0=Pinned", {}, [0], {0: 0}),
    ("and once the operation is open", {}, "0:R0=0,0 I0:R0=Iss C0,0=Pinned", {}, [0], {0: 0}),
    ("an owner that evicted its copy is recalled, and owns it anew", {},
     "I0:S0,1=Iss A0=Req D0=Sta D1=Del D2=Del D0=Del D3=Del A0=Com C0,0=Evi I0:S0,2=Iss A0=Req D5=Sta D4=Del D5=Del "
     "D6=Held D7=Del A0=Com D6=Del D8=Del", {"flushes": 2}, [0], {0: 2}),
    ("times end", {"time": LAST - 10}, f"0:R0=0,{LAST - 10} I0:S0,1=Iss A0=Req D4=Del D5=Del A0=Exh A0=Sto T1=Sto",
     {"upgrades": 1}, [LAST - 10], {0: 0}),
    ("one way: another line has no place until the first one leaves", {"sets": 1, "ways": 1},
     "0:R0=0,0 I0:R1=Iss A0=NoRoom C0,0=Evi A0=Req", {}, [0], {}),
    ("each bank has its own memory time", {"banks": 2}, "0:R0=0,0 B0,0=Evi 0:R1=0,0", {}, [10, 0], {}),
    ("one place in the bank: a request is held until the line leaves", {"bank_sets": 1, "bank_ways": 1},
     "0:R0=0,0 I0:R1=Iss A0=Req D4=Held B0,0=Evi D4=Sta D5=Del D6=Del D4=Del D7=Del A0=Com", {}, [10], {}),
    ("lines of eight words", {"line_words": 8}, "0:S0,5=-,1 1:R1=0,1 0:S1,6=-,12 1:R0=5,1 1:R1=0,1",
     {"upgrades": 1, "write-backs": 1, "stale": 1}, [0], {0: 5, 1: 6}),
    ("private writes", {"private_write": True},
     "0:S0,1=-,1 0:S0,2=-,1 0:S0,3=-,1 1:R0=3,1 0:S0,4=-,12 0:S0,5=-,12 1:R0=3,1",
     {"upgrades": 1, "write-backs": 1, "stale": 1}, [0], {0: 5}),
    ("without them", {}, "0:S0,1=-,1 0:S0,2=-,2 0:S0,3=-,3", {}, [0], {0: 3}),
    ("private writes at the last time", {"private_write": True, "time": LAST - 1}, f"0:S0,1=-,{LAST} 0:S0,2=-,{LAST}",
     {}, [LAST - 1], {0: 2}),
    ("an advance past the last time stops all", {"time": LAST - 1}, f"0:S0,1=-,{LAST} T0=Exh T1=Sto I0:R0=Sto",
     {}, [LAST - 1], {0: 1}),
    ("what isn't there", {}, "D0=NoSuch A0=Idle C0,0=NoSuch B0,0=NoSuch", {}, [0], {}),
]

# A first store by core 0, whose seat is 0, through the bank's seat: 1 with one core, and 2 with two.
STORE = ("issue 0 S{word},{value}=done; attempt 0=Requested; turn 0=1 nothing; turn {bank}=0 started; "
         "turn {bank}=0 delivered; turn {bank}=0 delivered; turn {bank}=0 delivered; turn {bank}=1 nothing; "
         "turn 0=0 delivered; attempt 0=Completed; ")

# What a run shows, its options, its calls; the last record's value and time, and how many messages wait in slots.
SEAT_RUNS = [
    ("a first store, and a load of it by another core", {"cores": 2},
     STORE.format(word=0, value=7, bank=2)
     + "issue 1 R0=done; attempt 1=Requested; attempt 1=Waiting; turn 1=1 nothing; turn 2=0 started; turn 2=1 held; "
     "turn 0=0 delivered; take 0=none taken; turn 0=1 nothing; turn 2=0 delivered; turn 2=0 delivered; "
     "serve 2=nothing; put 2=put; take 1=taken; take 1=hand full; serve 1=delivered; attempt 1=Completed; "
     "attempt 1=Idle", (7, 1), 0),
    # The bank took each request from the first slot, so it looks for the next message at the second: that of line 1.
    ("a link has four slots, which go round", {"cores": 1},
     "".join(STORE.format(word=word, value=word, bank=1) for word in range(5))
     + "evict 0 0=done; evict 0 1=done; evict 0 2=done; evict 0 3=done; evict 0 4=done; evict 0 4=refused 3; "
     "put 0=put; put 0=put; put 0=put; put 0=put; put 0=none put; turn 1=0 delivered; evict 1 1=evicted; "
     "evict 1 0=recalled; evict 1 0=refused 1; evict 1 9=refused 3; put 0=put; put 0=none put", (None, 1), 4),
    ("times end for one seat, and then for another", {"cores": 2, "time": LAST - 1},
     STORE.format(word=0, value=1, bank=2)
     + "advance 0=refused 8; issue 0 R0=refused 9; turn 0=refused 9; issue 1 R1=done; attempt 1=Requested; "
     "turn 1=1 nothing; turn 2=0 started; turn 2=0 delivered; turn 2=0 delivered; turn 2=refused 8; turn 2=refused 9; "
     "take 2=none taken", (None, LAST), 0),
]

# Two cores each store to a word of their own and then load the other's, by seats 0 and 1 and the bank's, 2. A core that
# waits has one turn, and one more after each that made progress. Passes:
# 1 both ask for their line. The bank takes the request of line 0, which comes from DRAM in its turns 2 and 3, is granted
# in the fourth and put in the fifth, which takes the request of line 1: that is put in the ninth. The tenth does nothing.
# 2 each core takes its grant, stores, and asks for the other's line. The bank takes core 0's request, 11, and recalls
# line 1; it takes core 1's, 12, recalls line 0, and puts both recalls, 12 and 13. In turn 14 both requests are held.
# 3 each core serves the recall and puts its line. The bank takes line 0, 15, answers core 1, 16, puts that and takes
# line 1, 17, answers core 0, 18, and puts that, 19.
# 4 each core takes its answer and loads, core 0 first.
BUFFERING = "0 W 0x0 1; 0 R 0x8; 1 W 0x8 1; 1 R 0x0"
BUFFERED = ["0 0 W 0x0 1 1 0", "1 0 W 0x8 1 1 1", "0 1 R 0x8 1 1 2", "1 1 R 0x0 1 1 3"]

# A first operation takes 2 passes: asked for, and in 5 turns of the bank taken, from DRAM in 2, granted, put; then taken
# and done.
# Tried, and refused by these runs: banks before cores, an attempt more after NoRoom, a bank that serves between
# eviction and turn, a turn more, a pass that goes on after a stop, and turns used where all is done.
LOADS = 14  # and one more: with the turn that takes the line, 16
LOADED = [f"0 {place} R 0x0 0 0 {place}" for place in range(LOADS + 1)]
# What a run by one worker shows, its options, its trace, its end, its passes, its records, and counts that aren't 0.
WORKER_RUNS = [
    ("store buffering", {}, BUFFERING, "all-done", 4, BUFFERED, {"write-backs": 2}),
    ("its last turn wasn't too much", {"limit": 19}, BUFFERING, "all-done", 4, BUFFERED, {"write-backs": 2}),
    # Core 0's answer isn't put. The core had 9 turns in 3 passes, and waits in 9 more.
    ("one turn less", {"limit": 18}, BUFFERING, "limit", 12, [*BUFFERED[:2], "1 1 R 0x0 1 1 2"], {"write-backs": 2}),
    ("no operation needs no turn", {}, "", "all-done", 0, [], {}),
    ("an advance takes the core's turn", {}, "trace 2; 0 A; 0 R 0x0", "all-done", 2, ["0 0 R 0x0 0 1 0"], {}),
    # In pass 2 the core takes its line in one turn, and each turn after it completes a load, up to 16 turns.
    ("a seat goes on", {}, LOADS * "0 R 0x0; " + "0 R 0x0", "all-done", 2, LOADED, {}),
    ("no more than 16 turns in a row", {}, LOADS * "0 R 0x0; " + "0 R 0x0; 0 R 0x0", "all-done", 3,
     [*LOADED, f"0 {LOADS + 1} R 0x0 0 0 {LOADS + 1}"], {}),
    # In pass 2 the copy of line 0 leaves, and in pass 3 line 1 is asked for.
    ("a copy leaves, and the attempt comes in the next turn", {"sets": 1, "ways": 1}, "0 R 0x0; 0 R 0x8", "all-done",
     4, ["0 0 R 0x0 0 0 0", "0 1 R 0x8 0 0 1"], {}),
    # In pass 2 the request of line 1 is held. In pass 3 line 0 leaves the bank, which raises the memory time to its
    # lease's end, 10, and line 1 is asked of DRAM.
    ("a line leaves the bank before the turn", {"bank_sets": 1, "bank_ways": 1}, "0 R 0x0; 0 R 0x8", "all-done", 4,
     ["0 0 R 0x0 0 0 0", "0 1 R 0x8 0 10 1"], {}),
    # In pass 2 line 0 comes back, core 1 has it, and after a turn without progress it leaves the bank, which raises the
    # memory time to 11. In pass 3 it is stored, and line 1 is loaded. Turns that aren't fair would never end.
    ("a line leaves the bank after a fair turn", {"bank_sets": 1, "bank_ways": 1, "fair": True},
     "0 W 0x0 1; 1 R 0x0; 2 R 0x8", "all-done", 4, ["0 0 W 0x0 1 1 0", "1 0 R 0x0 1 1 1", "2 0 R 0x8 0 11 2"],
     {"write-backs": 1}),
    ("a core's time ends in its attempt", {"time": LAST}, "0 W 0x0 1", "exhausted", 2, [], {}),
    # The bank's fourth turn: its lease passes the last time. Core 1's line would have been asked for in the fifth.
    ("a bank's time ends in its turn", {"time": LAST}, "0 R 0x0; 1 R 0x8", "exhausted", 1, [], {}),
]
# A seat that stops ends the pass, so that core 1 isn't issued anything, unless it stands in front of the seat.
ISSUED = [("trace 2; 0 A; 1 R 0x0", "exhausted", [0, 0]), ("trace 2; 0 R 0x0; 1 A", "exhausted", [1, 0])]


def operation(words):
    word, _, value = words[1:].partition(",")
    return KINDS[words[0]], int(word), int(value) if value else None


def event_of(words):
    if words[0] == "I":
        core, _, op = words[1:].partition(":")
        return "Issue", int(core), operation(op)
    return EVENTS[words[0]], *map(int, words[1:].split(","))


def do(machine, core, op):
    """A whole operation: attempts, and each message as soon as it can be delivered. What it received, and when."""
    machine.step(("Issue", core, op))
    while machine.step(("Attempt", core)) != "Completed":
        for number in sorted(machine.flight):
            machine.step(("Deliver", number))
    record = machine.records[-1]
    return f"{'-' if record.received is None else record.received},{record.time}"


def said(machine, words):
    if words[0].isdigit():
        core, _, op = words.partition(":")
        return do(machine, int(core), operation(op))
    return machine.step(event_of(words))


def test_run(shows, options, words, counts, times, values):
    machine = Machine(SimpleNamespace(**{**USUAL, **options}), 2, {})
    for word in words.split():
        event, _, wanted = word.partition("=")
        answer = said(machine, event)
        assert answer.startswith(wanted), f"{shows}: {event} is answered {answer}"
    made = {**machine.totals(), "stale": order.stale_hits(machine.records)}
    assert made == {**dict.fromkeys(made, 0), **counts}, f"{shows}: {made}"
    assert machine.mts == times, f"{shows}: {machine.mts}"
    memory = order.end_memory({}, machine.records)
    assert all(memory.get(word, 0) == value for word, value in values.items()), f"{shows}: {memory}"


def call_of(words):
    name, seat, *of = words.split()
    return name, int(seat), *(operation(one) if one[0] in KINDS else int(one) for one in of)


def test_seats(shows, options, calls, last, waiting):
    seats = Seats(SimpleNamespace(**{**USUAL, **options}), {})
    for words in calls.split("; "):
        call, _, wanted = words.partition("=")
        answer = seats.call(*call_of(call))
        assert answer == wanted, f"{shows}: {call} is answered {answer}"
    record = seats.records[-1]
    assert (record.received, record.time) == last, f"{shows}: {record}"
    assert sum(m is not None for m in seats.slots) == waiting, shows


def drive_worker(steps, options):
    programs = Trace(steps.replace("; ", "\n").encode("ascii")).programs()
    return by_one_worker(SimpleNamespace(**{**USUAL, "limit": 100, **options}), programs, {})


def test_worker(shows, options, steps, wanted, passes, records, counts):
    run, end = drive_worker(steps, options)
    assert (end, run.passes) == (wanted, passes), f"{shows}: {end} after {run.passes} passes"
    made = [record_line(record) for record in run.machine.records]
    assert made == records, f"{shows}: {made}"
    totals = run.machine.totals()
    assert totals == {**dict.fromkeys(totals, 0), **counts}, f"{shows}: {totals}"


def test_stop(steps, wanted, issued):
    run, end = drive_worker(steps, {"time": LAST})
    made = [len(operations) for operations in run.issued()]
    assert (end, run.passes, made) == (wanted, 1, issued), f"{steps}: {end} after {run.passes} passes, issued {made}"


def test_machine():
    for run in RUNS:
        test_run(*run)
    for run in SEAT_RUNS:
        test_seats(*run)
    for run in WORKER_RUNS:
        test_worker(*run)
    for run in ISSUED:
        test_stop(*run)
    return len(RUNS) + len(SEAT_RUNS) + len(WORKER_RUNS) + len(ISSUED)
