#!/usr/bin/env python3
"""Tries the Python package: tests/python_package.py EVENT_PLAYER

By the second program: answers by hand, faults, a network of one's own (examples/embed/latency.py), and litmus tests,
traces and checks against the reports in examples/. Likewise `Player`, by the proved player of events, too.

    tests/python_package.py --library    all of the package by the shared library that TARDIS_LIBRARY names, and machines
                                         that are drawn next to the second program's
    tests/python_package.py --refused    machines by a library that refuses growths of memory (tests/refusing.c)
"""
import contextlib
import copy
import ctypes
import gc
import importlib.util
import os
import random
import shutil
import signal
import subprocess
import sys
import tempfile
import threading
import time
import warnings
from concurrent.futures import ThreadPoolExecutor
from pathlib import Path

TOP = Path(__file__).resolve().parent.parent
sys.path[:0] = [str(TOP), str(TOP / "python")]
import tardis  # noqa: E402
from tests import systems  # noqa: E402
from tardis.options import Options  # noqa: E402

OF_MACHINES = "lease, time, banks, sets, ways, bank_sets, bank_ways, line_words, messages, private_write"
OF_RUNS = f"json, {OF_MACHINES}, schedule, fair, seed, limit"
STORE_BUFFERING = TOP / "examples/litmus/SB.litmus"


# Traces whose options are, together, all that the package has.
OPTIONS = ("FAIR-LIVELOCK", "FAIR-STARVED", "FOUR-BANKS", "ONE-MESSAGE", "PRIVATE-WRITES", "SEED-SETS",
           "TIME-AT-ITS-END")


def options_of(trace):
    """The options that a comment of the trace names, as the package has them."""
    words = next(line for line in trace.read_text().splitlines() if line.startswith("# options=")).split()[2:]
    options = {}
    for word in words:
        if word.startswith("--"):
            name = word[2:].replace("-", "_")
        options[name] = True if word.startswith("--") else int(word) if word.isdigit() else word
    return options


def fail(why):
    sys.exit(f"python_package.py: {why}")


class Index:
    """A whole number of a type of its own, as numpy has them."""

    def __init__(self, number):
        self.number = number

    def __index__(self):
        return self.number


def machine():
    """A load of core 1 by hand, and what is refused."""
    with tardis.Machine(cores=2, lease=10, memory={8: 5}) as opened:
        names = [opened.load(1, 8).name, opened.attempt(1).name]
        if opened.open_operation(1) != "R 0x8 requested" or opened.open_operation(0) is not None:
            fail("open operations")
        sent = opened.message(0)
        names += [opened.deliver(number).name for number in (0, 1, 2, 0)]
        reply = opened.message(3)
        names.append(opened.deliver(3).name)
        done = opened.attempt(1)
        if names != ["issued", "requested", "started", "delivered", "delivered", "delivered", "delivered"]:
            fail(f"events of a load: {names}")
        if (sent, sent.carries) != (tardis.Message(0, "ShReq", "core 1", "bank 0", 8, pts=0), "pts 0 version none"):
            fail(f"its request: {sent}")
        granted = tardis.Message(3, "ShRep", "bank 0", "core 1", 8, wts=0, rts=10, words=(5,))
        if (reply, reply.carries) != (granted, "wts 0 rts 10 words 5"):
            fail(f"its reply: {reply}")
        if done.record != tardis.Record(1, 0, "R", 8, None, 5, 0, 0) or opened.records() != [done.record]:
            fail(f"its record: {done}")
        if (opened.value(8), opened.check(), opened.in_flight(), opened.message(0)) != (5, "legal", [], None):
            fail("the look-ups after it")
        shown = opened.copies(1), opened.copies(0), opened.copies(9), opened.entries(0), opened.entries(1), opened.owners(8)
        if (*shown, opened.totals()) != ([8], [], [], [8], [], 0, tardis.Totals(0, 0, 0, 0, 0, 1, False)):
            fail(f"copies, entries, owners and totals: {shown}, {opened.totals()}")
        if opened.deliver(7) != tardis.Answer("refused", "NoSuch") or opened.open_operation(1) is not None:
            fail("a message that isn't there")
        if opened.records(1) or opened.records().columns()["received"] != [5] or opened.records().end is not None:
            fail("columns")
        if opened.store(Index(0), Index(16), Index(9)).name != "issued" or opened.open_operation(0) != "W 0x10 9":
            fail("a store")
        opened.attempt(0)
        opened.load(1, 24)
        opened.attempt(1)
        if [message.number for message in opened] != [4, 5]:
            fail("the messages of a store and a load")
        several(opened)
    refuses(tardis.TardisError, opened.in_flight, "a machine that its with closed")
    for make, kind in ((lambda: tardis.Machine(cores=65), tardis.BadConfiguration),
                       (lambda: tardis.Machine(ways=17), tardis.BadConfiguration)):
        refuses(kind, make, "a machine that can't be")
    return opened.is_proved


def several(opened):
    """Several events in one call: each answer in its parts. Core 1's load (m5) and core 0's store (m4) are out."""
    came = opened.run("deliver m5", "deliver m9", "attempt 1")
    if came != [tardis.Answer("started"), tardis.Answer("refused", "NoSuch"), tardis.Answer("waiting")]:
        fail(f"three events in one call: {came}")
    came = opened.run("deliver m6", "deliver m7; deliver m5", "deliver m8", "attempt 1")
    loaded = tardis.Record(1, 1, "R", 24, None, 0, 0, 1)
    if [answer.record for answer in came] != [None] * 4 + [loaded] or opened.records(1) != [loaded]:
        fail(f"the record of an event among others: {came}")
    for wrong in ("no event", "issue 1 R 0x8 5", "issue 1 W 0x8", "issue 1 X 0x8", "issue 1 R 8", "issue 1 R 0xG",
                  "attempt -1", "attempt \u0661", "deliver 4", "deliver mm", "evict bank 0", "evict dram 0 0x0", "advance",
                  "attempt 1;", "", "issue 1 R 0x4", "issue 1048576 R 0x8", f"issue 1 W 0x8 {2 ** 64}",
                  f"attempt {2 ** 32}", f"deliver m{2 ** 64}", "evict core 1 0x4", f"evict bank 0 {2 ** 61}"):
        refuses(ValueError, lambda: opened.run("issue 1 R 0x8", wrong), repr(wrong))
    if opened.run() or opened.open_operation(0) != "W 0x10 9 requested" or opened.totals().messages != 1 or \
            opened.open_operation(1) is not None:
        fail("events that can't be read, or none")
    came = opened.run("issue 1 S 0x18 7", "evict core 1 3", "evict core 1 0x18", "evict bank 0 3", "advance 1")
    if came != [tardis.Answer("issued"), tardis.Answer("refused", "Pinned"), tardis.Answer("refused", "Pinned"),
                tardis.Answer("evicted"), tardis.Answer("advanced")]:
        fail(f"evictions by numbers of lines and by addresses: {came}")


def opened_with():
    """The second program's machine is opened with all of its options, by hand: the options' order says nothing."""
    given = {"banks": 2, "sets": 4, "ways": 3, "bank_sets": 8, "bank_ways": 5, "line_words": 8, "lease": 7,
             "messages": 9, "time": 11, "private_write": True}
    heard, call = [], tardis.player.Player.call
    tardis.player.Player.call = lambda player, line: (heard.append(line), call(player, line))[1]
    with tardis.Machine(cores=3, memory={8: 5, 64: 2 ** 64 - 1}, **given) as opened:
        if opened._driver.call("shape") != "cores 3 banks 2 line-words 8" or opened._driver.call("time 2") != "11":
            fail("the shape of a machine")
    tardis.Machine().close()
    tardis.player.Player.call = call
    words, _, opening = heard[0].partition(" with ")
    words = words.split()
    wanted = {"cores": "3", "banks": "2", "sets": "4", "ways": "3", "bank-sets": "8", "bank-ways": "5",
              "line-words": "8", "lease": "7", "messages": "9", "time": "11", "private-write": "yes"}
    if (words[0], dict(zip(words[1::2], words[2::2])), opening) != ("machine", wanted, f"0x8 5 0x40 {2 ** 64 - 1}"):
        fail(f"the options of a machine: {heard[0]}")
    if "private-write no" not in heard[-1] or " with" in heard[-1]:
        fail(f"a machine without options: {heard[-1]}")


def places():
    """By hand, on two banks where each part has one place: a swap, and what is evicted for a load of another line."""
    with tardis.Machine(banks=2, sets=1, ways=1, bank_sets=1, bank_ways=1) as small:
        small.swap(0, 8, 7)
        small.attempt(0)
        for number in (0, 1, 2, 0, 3):
            small.deliver(number)
        if small.attempt(0).record != tardis.Record(0, 0, "S", 8, 7, 0, 1, 0) or small.owners(8) != 1:
            fail(f"a swap: {small.records()}")
        small.load(0, 24)
        came = small.attempt(0).cause, small.victim(0, 24), small.victim(0, 8), small.evict_copy(0, 8).name
        if came != ("NoRoom", 8, None, "evicted"):
            fail(f"a place in a cache: {came}")
        small.attempt(0)
        came = small.room(5), *(small.deliver(number).name for number in (4, 5)), small.room(5), small.room(4)
        if came != ((1, 8), "delivered", "held", (1, 8), None) or small.evict_entry(1, 8).name != "evicted":
            fail(f"a place in a bank: {came}")
        if small.advance(1).name != "advanced" or small.victim(9, 8) is not None or small.check() != "legal":
            fail("an advance")
    wide = tardis.Machine(cores=Index(1), line_words=Index(8), lease=Index(10), memory={0x40: 1, 0x78: 2 ** 64 - 1})
    wide.run("issue 0 R 0x48", "attempt 0", "deliver m0", "deliver m1")
    if wide.message(2).words != (1, 0, 0, 0, 0, 0, 0, 2 ** 64 - 1) or wide.message(2).address != 0x40 \
            or wide.victim(0, 0x48) is not None:
        fail(f"eight words: {wide.message(2)}")


def asked():
    """By hand: a core that stores to a line of which it has a copy of version 0."""
    with tardis.Machine() as opened:
        opened.run("issue 1 R 0x8; attempt 1; deliver m0; deliver m1; deliver m2; deliver m0; deliver m3; attempt 1",
                   "issue 1 W 0x8 6; attempt 1")
        sent = opened.message(4)
        if (sent, sent.carries) != (tardis.Message(4, "ExReq", "core 1", "bank 0", 8, version=0), "version 0"):
            fail(f"a request of version 0: {sent}")


def many():
    """By hand: 70 lines, which are more than fit where the library first puts them, loaded from the last on."""
    with tardis.Machine(cores=1, time=7) as opened:
        for line in range(70):
            opened.load(0, 8 * (69 - line))
            opened.attempt(0)
            for number in (0, 1, 2, 0, 3):
                opened.deliver(4 * line + number)
            opened.attempt(0)
        lines = [8 * line for line in range(70)]
        if opened.copies(0) != lines or opened.entries(0) != lines or {each.time for each in opened.records()} != {7}:
            fail(f"70 lines: {opened.copies(0)}, {opened.entries(0)}")


def refuses(kind, make, what):
    """What was raised, which must be of that kind."""
    try:
        make()
    except kind as error:
        return error
    return fail(f"{what} isn't refused")


def on_alarm(*_):
    raise InterruptedError("an alarm")


def wrong_kinds():
    """Arguments of wrong kinds, which the error names, by hand."""
    wrong = {"record is 3: a tardis.Record is wanted": lambda: tardis.History().add(3),
             "record is (0, 0, 'R', 8): a tardis.Record is wanted": lambda: tardis.History().add((0, 0, "R", 8)),
             "complete is 'no': True or False is wanted": lambda: tardis.check("", "", complete="no"),
             "json is 1: True or False is wanted": lambda: tardis.check("", "", json=1),
             "address is 8.0: a whole number is wanted": lambda: tardis.check("", "", opening={8.0: 1}),
             "value is '5': a whole number is wanted": lambda: tardis.check("", "", opening={8: "5"})}
    for wanted, make in wrong.items():
        told = str(refuses(TypeError, make, wanted))
        if told != wanted:
            fail(f"{told}, wanted {wanted}")
    for make in (tardis.History, lambda opening: tardis.Machine(memory=opening)):
        told = str(refuses(TypeError, lambda: make([8]), "an opening without addresses"))
        if told != "opening is [8]: values by byte address are wanted":
            fail(f"an opening without addresses: {told}")


def troubles():
    """Machines that are closed, and what is left open; options that a machine doesn't have, and values
    of wrong types or out of their ranges, each of which the error names."""
    before = len(os.listdir("/proc/self/fd"))
    for options in ({"runs": 5}, {"fair": True}, {"cores": 2.0}, {"lease": True}, {"private_write": "no"}):
        refuses(TypeError, lambda: tardis.Machine(**options), options)
    told = str(refuses(TypeError, lambda: tardis.Machine(core=4), "an option that there isn't"))
    if told != f"Machine has no option 'core': it takes cores, memory, {OF_MACHINES}":
        fail(f"an option that there isn't: {told}")
    refuses(ValueError, lambda: tardis.Machine(memory={4: 1}), "an address of no word")
    closed = tardis.Machine()
    for named, make in (("core", lambda: closed.load(1_048_576, 8)), ("address", lambda: closed.load(0, 4)),
                        ("value", lambda: closed.store(0, 8, 2 ** 64)), ("core", lambda: closed.attempt(2 ** 32)),
                        ("core", lambda: closed.advance(-1)), ("number", lambda: closed.deliver(2 ** 64)),
                        ("bank", lambda: closed.evict_entry(2 ** 32, 8)), ("address", lambda: closed.evict_copy(0, 12)),
                        ("number", lambda: closed.message(-1)), ("core", lambda: closed.copies(2 ** 32)),
                        ("address", lambda: closed.value(2 ** 64)), ("first", lambda: closed.records(-1))):
        told = str(refuses(ValueError, make, f"a {named} out of its range"))
        if not told.startswith(f"{named} is "):
            fail(f"an error that names {named}: {told}")
    refuses(TypeError, lambda: closed.attempt("0"), "a core that is a text")
    if closed.attempt(2 ** 32 - 1) != tardis.Answer("refused", "NoSuch") or closed.load(1_048_575, 8).cause != "NoSuch":
        fail("cores that there aren't")
    if closed.check() != "legal" or closed.records():
        fail("a machine that nothing happened to")
    closed.close()
    closed.close()
    calls = (lambda: closed.load(0, 8), lambda: closed.attempt(0), closed.in_flight, closed.records, closed.totals,
             lambda: closed.copies(0), lambda: closed.value(8), closed.check, lambda: closed.run("attempt 0"))
    for call in calls:
        refuses(tardis.TardisError, call, "a machine that is closed")
    kept = tardis.Machine()
    of_kept = copy.copy(kept)
    kept.run("issue 1 R 0x8; attempt 1; deliver m0; deliver m1; deliver m2; deliver m0; deliver m3; attempt 1")
    kept.load(0, 8)
    if (kept.check(), of_kept.check(), kept.check()) != ("legal", "legal", "legal"):
        fail("a machine that is checked by two names")
    del kept  # but the other one has its machine
    if of_kept.open_operation(0) != "R 0x8":
        fail("a machine that something refers to")
    tardis.Machine()  # and not closed
    del of_kept, closed, calls, call, make
    if len(os.listdir("/proc/self/fd")) != before:
        fail("what is left open")


def player(is_proved):
    """The player by its lines: one that is closed, that dies, or that is interrupted in a call."""
    before = len(os.listdir("/proc/self/fd"))
    with tardis.Player() as closed:
        answers = [closed.call(line) for line in ("machine cores 2", "program 0 R 0x8; W 0x8 5", "rounds 9", "time 0",
                                                  "copy 0 0x8", "run attempt 0; attempt 1")]
        wanted = "exclusive written wts 11 rts 11 words 5"  # one tick behind the load's lease
        if answers[:2] + answers[3:] != ["opened", "given", "11", wanted, "idle; idle"] or \
                tardis.answers_of(answers[-1]) != [tardis.Answer("idle")] * 2 or closed.is_proved != is_proved:
            fail(f"a player: {answers}")
        if tardis.answers_of("idle; completed 1 1 R 0x18 0 0 1")[1].record != tardis.Record(1, 1, "R", 24, None, 0, 0, 1):
            fail("two answers in one line")
        if os.getpgid(closed._process.pid) == os.getpgid(0):
            fail("Ctrl-C ends the player")
        for line in ("flight \udc80", "flight\nflight", " ", "fly"):
            refuses(ValueError, lambda: closed.call(line), repr(line))
    closed.close()
    dead = tardis.Player()
    dead._process.kill()
    dead._process.wait()
    interrupted = tardis.Player()
    interrupted.call("machine")
    interrupted.call("program 0 1000000 R 0x0")
    signal.signal(signal.SIGALRM, on_alarm)
    signal.setitimer(signal.ITIMER_REAL, 0.05)
    refuses(InterruptedError, lambda: interrupted.call("rounds 4000000"), "an interrupted call")
    for each in (closed, dead, interrupted):
        refuses(tardis.TardisError, lambda: each.call("flight"), "a player that ended")
        each.close()
    tardis.Player()  # and not closed
    named, os.environ["TARDIS_PLAYER"] = os.environ["TARDIS_PLAYER"], "there/is/none"
    refuses(FileNotFoundError, tardis.Player, "a player that isn't there")
    os.environ["TARDIS_PLAYER"] = named
    if len(os.listdir("/proc/self/fd")) != before:
        fail("what is left open")


def refused_lists():
    """Lists that the second program's machine has no memory for, and a machine."""
    for told, make in (("opened\nrefused NoMemory", lambda: tardis.Machine().in_flight()),
                       ("opened\nrefused NoMemory", lambda: tardis.Machine().copies(0)),
                       ("refused NoMemory", tardis.Machine)):
        with tempfile.TemporaryDirectory() as folder:
            says = Path(folder, "says.py")
            says.write_text(f"import sys\nfor line in {told.splitlines()}: input(), print(line, flush=True)\n")
            second, tardis.found.second = tardis.found.second, lambda *_: [sys.executable, str(says)]
            refuses(tardis.NoMemory, make, "a list without memory")
            tardis.found.second = second


@contextlib.contextmanager
def without_library():
    """There is no library."""
    named, os.environ["TARDIS_LIBRARY"] = os.environ.get("TARDIS_LIBRARY"), ""
    tardis.library.loaded.cache_clear()
    try:
        yield
    finally:
        del os.environ["TARDIS_LIBRARY"]
        if named is not None:
            os.environ["TARDIS_LIBRARY"] = named
        tardis.library.loaded.cache_clear()


def shown(machine, draw, cores):
    """All that a machine shows, at places that are drawn."""
    addresses = [8 * draw.randrange(16) for _ in range(2)]
    numbers = machine.in_flight()
    looked = [numbers[0] if numbers else 0, draw.choice([*numbers, 9])]
    seats = range(cores + 1)
    yield from (numbers, list(machine), [each.carries for each in machine], machine.totals(), machine.check())
    yield from ([machine.message(number) for number in looked], [machine.room(number) for number in looked])
    yield from ([machine.open_operation(core) for core in seats], machine.records(draw.randrange(3)))
    yield from ([machine.copies(core) for core in seats], [machine.entries(bank) for bank in seats])
    yield from ([machine.victim(draw.randrange(cores + 1), address) for address in addresses],
                [machine.owners(address) for address in addresses], [machine.value(address) for address in addresses])


def driven(machines=40, events=60):
    """Machines that are drawn, by the library and by the second program: what each call answers."""
    for seed in range(machines):
        draw = random.Random(seed)
        cores, options, opening = systems.machine_of(draw)
        named = {name.replace("-", "_"): bool(value) if name == "private-write" else value
                 for name, value in options.items()}
        with without_library():
            second = tardis.Machine(cores, dict(opening), **named)
        with tardis.Machine(cores, dict(opening), **named) as first, second:
            if (first.is_proved, second.is_proved) != (True, False):
                fail("which machine answers")
            for _ in range(events):
                call = systems.event_of(draw, cores, first.in_flight())
                answers, state = (first.run(call), second.run(call)), draw.getstate()
                told = []
                for each in (first, second):
                    draw.setstate(state)
                    told.append(list(shown(each, draw, cores)))
                if answers[0] != answers[1] or told[0] != told[1]:
                    fail(f"seed {seed}: {call}: {answers}, {[pair for pair in zip(*told) if pair[0] != pair[1]]}")
    print(f"python_package.py: {machines} machines, {events} events each, as by the second program")


def at_once():
    """Four threads with a machine each: what one thread's shows is what it shows alone."""
    def stored(core):
        with tardis.Machine(cores=4) as own:
            for turn in range(300):
                own.store(core, 8, turn)
                while own.attempt(core).name != "completed":
                    own.deliver(own.in_flight()[-1])
            return own.records(), own.check()

    with ThreadPoolExecutor(4) as pool:
        for core, came in enumerate(pool.map(stored, range(4))):
            if came != stored(core) or came[1] != "legal":
                fail(f"machines at once: core {core}")


def locks():
    """While a report is made, other threads run; while a machine is called, none does."""
    def is_met(call):
        """Whether another thread runs in the middle of a call, which takes a while."""
        times, is_over = [], threading.Event()

        def note():
            while not is_over.wait(0.001):
                times.append(time.perf_counter())

        thread = threading.Thread(target=note)
        thread.start()
        begun = time.perf_counter()
        call()
        third = (time.perf_counter() - begun) / 3
        is_over.set()
        thread.join()
        return any(begun + third < at < begun + 2 * third for at in times)

    opening = bytearray(b"".join((8 * number).to_bytes(8, "little") * 2 for number in range(400_000)))
    if not is_met(lambda: tardis.litmus(STORE_BUFFERING.read_text(), runs=60_000)):
        fail("a report keeps the interpreter's lock")
    if is_met(lambda: tardis.system.System(2, Options(), opening)):
        fail("a machine's call gives the interpreter's lock away")


def long():
    """A report that doesn't fit where it is put first is made once more, with room for all of it."""
    room, tardis.library.room = tardis.library.room, lambda text: 10
    report = tardis.litmus(STORE_BUFFERING.read_text()).text
    tardis.library.room = room
    if report != STORE_BUFFERING.with_suffix(".report").read_text():
        fail(f"a report that is put twice: {report}")


# A load by hand, and a store to another line, which goes back to the bank and to DRAM. Where no word has opened with
# another value than 0, DRAM takes its first memory then, in the delivery of m9.
STORED = ("issue 1 R 0x8", "attempt 1", *(f"deliver m{number}" for number in (0, 1, 2, 0, 3)), "attempt 1",
          "issue 1 W 0x10 6", "attempt 1", *(f"deliver m{number}" for number in (4, 5, 6, 4, 7)), "attempt 1",
          "evict core 1 0x10", "deliver m8", "evict bank 0 0x10", "deliver m9", "deliver m10")


def refused_memory():
    """A machine over a library that counts the blocks that it holds, and refuses one growth (tests/refusing.c)."""
    library = tardis.library.loaded()
    at, growths, held = (ctypes.c_size_t.in_dll(library, name) for name in ("refused_at", "growths", "held"))

    def refused(make):
        """What a call answers, and how often memory was refused to it before."""
        for times in range(9):
            try:
                came = make()
            except tardis.NoMemory:
                continue
            if came != tardis.Answer("refused", "NoMemory"):
                return came, times
        return fail("memory is refused again")

    met = set()  # the events to which memory was refused

    def made(opening):
        """Makes these events over an opening memory; how often memory was refused."""
        opened, often = refused(lambda: tardis.Machine(memory=opening))
        answers = []
        for event in STORED:
            came, times = refused(lambda: opened.run(event)[0])
            answers.append(came)
            met.update([event] * times)
            often += times
        wanted = [tardis.Record(1, 0, "R", 8, None, opening.get(8, 0), 0, 0),
                  tardis.Record(1, 1, "W", 16, 6, None, 1, 1)]
        if [came.record for came in answers if came.record] != wanted or \
                [came.name for came in answers[-4:]] != ["delivered", "evicted", "delivered", "delivered"]:
            fail(f"events, where memory was refused: {answers}")
        for look, wanted in ((lambda: opened.copies(1), [8]), (lambda: opened.entries(0), [8]), (opened.check, "legal"),
                             (lambda: opened.value(16), 6), (opened.in_flight, [])):
            came, times = refused(look)
            often += times
            if came != wanted:
                fail(f"a look-up, where memory was refused: {came}")
        return often

    for opening in ({8: 5}, {}):
        at.value = growths.value = 0
        made(opening)
        most = growths.value
        for at.value in range(1, most + 1):
            growths.value = 0  # a list that can't grow ahead grows by as much as it needs, once more
            if not made(opening) and growths.value != most + 1 or held.value:
                fail(f"growth {at.value} of {most} isn't met, or {held.value} blocks are held")
    at.value = 0
    if most < 30 or "deliver m9" not in met:
        fail(f"{most} growths, and memory refused to {met}")
    opened = tardis.Machine()
    if held.value == 0:
        fail("a machine holds nothing")
    opened.itself = opened
    del opened
    gc.collect()
    if held.value:
        fail("a machine that was collected holds memory")


def latency():
    """Cycles of one store by hand: a hop, DRAM both ways, the request once more a hop later, a hop, a hit. And what
    six traces print."""
    told = ""
    with tempfile.TemporaryDirectory() as folder:  # nine lines of one set, of the cache and of the bank
        full = Path(folder, "full.trace")
        full.write_text("".join(f"0 W {0x800 * line:#x} 1\n" for line in range(9)))
        told_of_full = subprocess.run([sys.executable, TOP / "examples/embed/latency.py", full, "1"], text=True,
                                      capture_output=True, check=True).stdout
    if not told_of_full.endswith(" cycles, 9 operations, legal\n"):
        fail(f"latency.py: {told_of_full}")
    for name in ("FIRST-STORE", "MIGRATORY", "FALSE-SHARING", "PAST", "COMMENTS", "EMPTY"):
        path = TOP / f"examples/traces/{name}.trace"
        told += subprocess.run([sys.executable, TOP / "examples/embed/latency.py", path, "1", "100"], text=True,
                               capture_output=True, check=True).stdout
    if not told.startswith(f"lease 1: {10 + 100 + 100 + 10 + 10 + 1} cycles, 1 operations, legal\n"):
        fail(f"latency.py: {told}")
    return told


def runs(is_proved):
    """Reports and verdicts, against examples/ and by hand."""
    report = tardis.litmus(STORE_BUFFERING.read_text())
    if report.text != STORE_BUFFERING.with_suffix(".report").read_text() or report.is_proved != is_proved:
        fail(f"the report of store buffering: {report}")
    if (report.states, report.verdict) != ([tardis.State(1, {"0:x7": 1, "1:x7": 1})], False):
        fail(f"its states: {report}")
    if not tardis.litmus(STORE_BUFFERING.with_stem("SB+yes").read_text(), schedule="seed", seed=4).verdict:
        fail("seed 4, which meets the condition")
    seeded = tardis.litmus(STORE_BUFFERING.read_text(), schedule="seed", runs=300, seed=5)
    if sum(state.times for state in seeded.states) != 300 or len(seeded.states) != 3:
        fail(f"300 seeds: {seeded}")
    trace = TOP / "examples/traces/MIGRATORY.trace"
    if tardis.trace(trace.read_text()).text != trace.with_suffix(".report").read_text():
        fail("the report of a trace")
    if tardis.trace("0 W 0x8 7\n1 W 0x10 9\n").words != {8: 7, 16: 9}:
        fail("the words that a trace leaves")
    numbers(seeded)
    if tardis.trace(trace.read_text(), seed=9) != tardis.trace(trace.read_text()):
        fail("a seed by rounds, which is of no effect")
    for name in OPTIONS:
        trace = TOP / f"examples/traces/{name}.trace"
        if tardis.trace(trace.read_bytes(), **options_of(trace)).text != trace.with_suffix(".report").read_text():
            fail(f"the report of {name}")
    records = tardis.trace("0 W 0x8 7\n", records=True)
    if records != [tardis.Record(0, 0, "W", 8, 7, None, 1, 0)]:
        fail(f"records: {records}")
    round_trips()
    cut_off()
    with warnings.catch_warnings(record=True) as told:
        warnings.simplefilter("always")
        tardis.trace("0 R 0x0\n")
    if [each.filename for each in told] != ([] if is_proved else [__file__]):
        fail(f"the place that a warning names: {told}")
    for told, wanted in ((tardis.check("0 W 0x0 1\n", "0 0 W 0x0 1 1 0\n"), "legal"),
                         (tardis.check("0 W 0x0 1\n1 R 0x0\n", "0 0 W 0x0 1 1 0\n1 0 R 0x0 0 1 1\n"), "wrong value 1"),
                         (tardis.check("0 R 0x8\n", "0 0 R 0x8 5 0 0\n", opening={16: 6, 8: 5}), "legal"),
                         (tardis.check("0 R 0x8\n", "0 0 R 0x8 5 0 0\n", opening="0x8 6"), "wrong value 0"),
                         (tardis.check("0 R 0x8\n", "", opening={}), "legal"),
                         (tardis.check("0 R 0x8\n", "", complete=True), "no record of operation 0 of core 0")):
        if told != wanted:
            fail(f"a verdict: {told}, not {wanted}")
    counted()
    objects()
    faults(is_proved)
    ends(is_proved)
    histories(is_proved)


def round_trips():
    """Records as a text, by hand, and as the checker takes it; the text that a trace's records came from."""
    records = tardis.Records([tardis.Record(1, 0, "R", 8, None, 2 ** 64 - 1, 4, 0),
                              tardis.Record(0, 0, "W", 8, 0, None, 5, 2), tardis.Record(0, 1, "S", 0xab0, 0, 0, 5, 1)])
    if records.text != f"1 0 R 0x8 {2 ** 64 - 1} 4 0\n0 0 W 0x8 0 5 2\n0 1 S 0xab0 0 0 5 1\n":
        fail(f"records as a text: {records.text}")
    if tardis.Records().text != "" or tardis.reports.records_of(records.text, "limit") != records:
        fail("records from their text")
    for name in ("SWAP-LOCK", "PAST"):
        trace = (TOP / f"examples/traces/{name}.trace").read_text()
        made = tardis.trace(trace, records=True)
        kept = subprocess.run([sys.executable, TOP / "reference/oracle.py", "trace", "--records",
                               TOP / f"examples/traces/{name}.trace"], capture_output=True, text=True, check=True)
        if made.text != kept.stdout or tardis.check(trace, made.text, complete=True) != "legal":
            fail(f"the records of {name} as a text")
        moved = tardis.Records([made[0]._replace(number=len(made)), *made[1:]])
        if tardis.check(trace, moved.text) != "bad number 0":
            fail(f"records of {name} that lack a number")


def numbers(seeded):
    """Numbers of reports: of 300 runs with two stores and two loads each; of a trace, which has one of either; and of a
    test that is named by a number."""
    told = seeded.numbers
    if (told["runs"], told["all-done"], told["completed"], told["threads"]) != (300, 300, 1200, 2) or \
            any(told[name] for name in ("stalled", "limit", "exhausted", "memory")):
        fail(f"numbers of 300 runs: {told}")
    report = tardis.trace("0 W 0x8 7\n1 R 0x8\n")
    if (report.end, report.words, report.numbers) != ("all-done", {8: 7}, {
            "cores": 2, "issued": 2, "completed": 2, "loads": 1, "stores": 1, "swaps": 0, "renewals": 0, "upgrades": 0,
            "flushes": 0, "write-backs": 1, "stale-hits": 0}):
        fail(f"numbers of a trace: {report}")
    named = tardis.litmus(STORE_BUFFERING.read_text().replace("RISCV SB", "RISCV 7"))
    if named.name != "7" or "test" in named.numbers:
        fail(f"a test named 7: {named}")


def cut_off():
    """Records say how their run ended. By hand: a store's round, a second load, and a time that can't go on."""
    first = tardis.Record(0, 0, "W", 8, 7, None, 1, 0)
    for text, options, wanted in (("", {}, ([], "all-done")), ("0 W 0x8 7\n", {}, ([first], "all-done")),
                                  ("0 W 0x8 7\n", {"limit": 1}, ([], "limit")),
                                  ("0 W 0x8 7\n0 R 0x80\n", {"limit": 7}, ([first], "limit")),
                                  ("0 W 0x8 7\n", {"time": 2 ** 64 - 1}, ([], "exhausted"))):
        came = tardis.trace(text, records=True, **options)
        if (came, came.end) != wanted:
            fail(f"the end of {text!r} with {options}: {came}, {came.end}")


def counted():
    """What a load did, in numbers: the only core and the only bank send and get a request, a read of the DRAM and two
    replies, as in docs/COUNTS.md; the request is held twice, while the DRAM is read."""
    messages = {"ShReq": 1, "ShRep": 1}
    none = dict.fromkeys(("stores", "swaps", "hits", "evicted", "recalled", "ended", "shared", "evictions", "returns",
                          "reloads", "held", "dropped", "time"), 0)
    wanted = tardis.Counts(14, 2, 0, [{"loads": 1, "cold": 1, **none, **messages}],
                           [{"evictions": 0, "held": 2, "dropped": 0, **messages, "DramLd": 1, "DramLdRep": 1}])
    report, plain = tardis.trace("0 R 0x0\n", counts=True, every=1), tardis.trace("0 R 0x0\n")
    if (report.counts, report.rows) != (wanted, {1: wanted}) or (plain.counts, plain.rows) != (None, {}):
        fail(f"counts: {report.counts}, {report.rows}")
    if not isinstance(report, tardis.CountedReport) or isinstance(plain, tardis.CountedReport):
        fail("the kind of a report with counts")
    columns = tardis.Counts(0, 0, 0, [{"loads": 1, "ShReq": 1}, {"loads": 0}], [{"held": 2}]).columns
    wanted = {"core": [0, 1], "loads": [1, 0], "ShReq": [1, 0]}
    if (columns(), columns("banks")) != (wanted, {"bank": [0], "held": [2]}):
        fail(f"counts by columns: {columns()}, {columns('banks')}")
    told = str(refuses(ValueError, lambda: columns("bank"), "a part of the counts that there isn't"))
    if told != "part is 'bank': it is cores or banks":
        fail(f"a part of the counts that there isn't: {told}")
    report = tardis.trace("0 R 0x0\n0 R 0x0\n0 R 0x8\n", counts=True, every=2)
    if list(report.rows) != [2] or report.rows[2].cores[0]["loads"] != 2 or report.counts.cores[0]["loads"] != 3:
        fail(f"rows: {report.rows}, {report.counts}")
    if (report.end, report.numbers["loads"], report.words) != ("all-done", 3, {0: 0, 8: 0}):
        fail(f"a report before its counts: {report}")


def objects():
    """Reports as the objects that --json writes."""
    text = STORE_BUFFERING.read_text()
    told = tardis.litmus(text, json=True)
    if (told["version"], told["command"], told["states"]) != (1, "litmus", [{"count": 1,
                                                                             "values": {"0:x7": 1, "1:x7": 1}}]):
        fail(f"a litmus test's object: {told}")
    told = tardis.ends(text, orders=True, json=True)
    if (told["observation"], [end["holds"] for end in told["ends"]]) != ("Never", [False] * 3) \
            or told["ends"][0]["order"] != ["P0:1", "P0:2", "P1:1", "P1:2"]:
        fail(f"a list of ends: {told}")
    told = tardis.trace("0 W 0x8 18446744073709551615\n", counts=True, every=1, json=True)
    if (told["words"], [row["completed"] for row in told["rows"]]) != ({"0x8": 18446744073709551615}, [1]) \
            or {**told["rows"][0], "completed": None} != {**told["counts"], "completed": None}:
        fail(f"a trace's object: {told}")
    told = tardis.check("0 R 0x8\n", "", complete=True, json=True)
    if told != {"version": 1, "command": "check", "verdict": "no record", "place": 0, "core": 0}:
        fail(f"a verdict's object: {told}")


def of_cores(cores, received):
    """A history in which each core stores its number plus 1 to one word, in turn, and the last one loads."""
    grown = tardis.History()
    for core in range(cores):
        place = grown.issue(core, "W", 0x8, core + 1)
        grown.add(tardis.Record(core, place, "W", 0x8, core + 1, None, 7, core))
    place = grown.issue(cores - 1, "R", 0x8)
    grown.add(tardis.Record(cores - 1, place, "R", 0x8, None, received, 7, cores))
    return grown


def histories(is_proved):
    """Histories by hand: of 65 and of 1,000 cores, over an opening memory, and empty ones."""
    def must(grown, *wanted):
        if grown.verdict() != tardis.Verdict(wanted[0], is_proved, *wanted[1:]):
            fail(f"a history: {grown.verdict()}, not {wanted}")

    must(tardis.History(), "legal")
    must(tardis.History({0x8: 5}), "legal")
    for cores in (65, 1000):
        must(of_cores(cores, cores), "legal")
        must(of_cores(cores, 5), f"wrong value {cores}", cores, cores, cores - 1)
    grown = tardis.History({0x8: 9})
    grown.open(0x8, 5)
    loaded = tardis.Record(70, 0, "R", 0x8, None, 4, 1, 0)
    grown.add(loaded)
    must(grown, "out of program order 0", 0)
    if grown.issue(70, "R", 0x8) != 0 or grown.issue(70, "S", 0x10, 2) != 1 or grown.issue(71, "W", 0x8, 4) != 0:
        fail("places in program order")
    if [grown.issue(5, "R", 0x8) for _ in range(300)] != list(range(300)):
        fail("300 places in program order")
    must(grown, "wrong value 0", 0, 5, None)
    grown.add(tardis.Record(71, 0, "W", 0x8, 4, None, 0, 1))  # which comes before the load
    must(grown, "legal")
    refused(grown, loaded)
    must(grown, "legal")
    grown.add(tardis.Record(70, 1, "S", 0x10, 2, 0, 2, 3))
    must(grown, "bad number 2", 2)
    lacks(is_proved)


def lacks(is_proved):
    """By hand: legal records of two cores, of which the greater one's come first, and one that isn't legal."""
    grown = tardis.History()

    def must(*wanted):
        told = grown.verdict(complete=True)
        lack = {"core": wanted[1], "place": wanted[2]} if len(wanted) == 3 else {}
        if told != tardis.Verdict(wanted[0], is_proved, **lack) or told.is_legal != (not lack):
            fail(f"a history that is to be complete: {told}, not {wanted}")

    must("legal")
    for core, address in ((3, 0x8), (3, 0x10), (1_048_575, 0x8)):
        grown.issue(core, "R", address)
    must("no record of operation 0 of core 3", 3, 0)
    if not grown.verdict().is_legal:
        fail("a history that may lack records")
    grown.add(tardis.Record(1_048_575, 0, "R", 0x8, None, 0, 0, 1))
    grown.add(tardis.Record(3, 0, "R", 0x8, None, 0, 0, 0))
    must("no record of operation 1 of core 3", 3, 1)
    grown.add(tardis.Record(3, 1, "R", 0x10, None, 0, 0, 2))
    must("legal")
    grown.issue(0, "S", 0x10, 1)
    must("no record of operation 0 of core 0", 0, 0)
    grown.add(tardis.Record(0, 0, "S", 0x10, 1, 4, 9, 3))
    told = grown.verdict(complete=True)
    if told != tardis.Verdict("wrong value 3", is_proved, 3, 0, None):
        fail(f"a wrong value where records are missing: {told}")


def refused(grown, loaded):
    """What a history refuses, by an error that names the argument."""
    for kind, named, make in (
            (ValueError, "core", lambda: grown.issue(1_048_576, "R", 8)),
            (TypeError, "core", lambda: grown.issue(1.0, "R", 8)),
            (ValueError, "kind", lambda: grown.issue(0, "X", 8)),
            (ValueError, "address", lambda: grown.issue(0, "R", 4)),
            (ValueError, "address", lambda: grown.open(2 ** 64, 1)),
            (ValueError, "value", lambda: grown.open(8, 2 ** 64)),
            (ValueError, "value", lambda: grown.issue(0, "W", 8)),
            (ValueError, "value", lambda: grown.issue(0, "R", 8, 1)),
            (ValueError, "place", lambda: grown.add(loaded._replace(place=2 ** 32))),
            (ValueError, "received", lambda: grown.add(loaded._replace(received=None))),
            (ValueError, "received", lambda: grown.add(loaded._replace(kind="W", value=1))),
            (ValueError, "time", lambda: grown.add(loaded._replace(time=-1))),
            (TypeError, "number", lambda: grown.add(loaded._replace(number=None)))):
        if not str(refuses(kind, make, named)).startswith(f"{named} is "):
            fail(f"an error that names {named}")


def ends(is_proved):
    """Ends of store buffering by hand, of which one meets the condition; bounds."""
    text = STORE_BUFFERING.with_stem("SB+yes").read_text()
    listed = tardis.ends(text)
    wanted = [tardis.End({"0:x7": first, "1:x7": second}, (first, second) == (1, 0))
              for first, second in ((0, 1), (1, 0), (1, 1))]
    if (listed.ends, listed.observation, listed.condition) != (wanted, "Sometimes", "exists"):
        fail(f"ends: {listed}")
    if (listed.name, listed.states, listed.is_proved) != ("SB+yes", 13, is_proved):
        fail(f"ends: {listed}")
    if tardis.ends(text, states=7) != listed:
        fail("ends of 7 states at once")
    orders = [end.order for end in tardis.ends(text, orders=True).ends]
    if orders != [("P0:1", "P0:2", "P1:1", "P1:2"), ("P1:1", "P1:2", "P0:1", "P0:2"), ("P0:1", "P1:1", "P0:2", "P1:2")]:
        fail(f"orders: {orders}")
    many = refuses(tardis.TooManyStates, lambda: tardis.ends(text, states=6), "a seventh state")
    if (many.states, many.enough) != (6, 9):  # a layer of 3 states, and 2 threads
        fail(f"a seventh state: {many}")
    refuses(tardis.BadConfiguration, lambda: tardis.ends(text, states=0), "no state")
    refuses(tardis.BadText, lambda: tardis.ends("RISCV\n"), "no litmus test")


CALLER = """
import tardis
report: tardis.TraceReport = tardis.trace("0 R 0x0", lease=5)
records: tardis.Records = tardis.trace("0 R 0x0", records=True)
listed: list[tardis.End] = tardis.ends("").ends
wrote: int | None = tardis.History({8: 5}).verdict().writer
counted: tardis.Counts = tardis.trace("0 R 0x0", counts=True, every=2).counts
plain: tardis.Counts | None = tardis.trace("0 R 0x0").counts
told: str = records.text
columns: dict[str, list[int]] = counted.columns("banks")
answered: tardis.Record | None = tardis.Machine().run("attempt 0")[0].record
shape: str = tardis.Player().call("shape")
rows: dict[str, object] = tardis.trace("0 R 0x0", counts=True, json=True)["rows"]
with tardis.Machine(cores=2) as machine:
    sent: tardis.Message | None = machine.message(0)
    words: tuple[int, ...] = next(iter(machine)).words
    lines: list[int] = machine.copies(0)
    stopped: bool = machine.totals().is_stopped
"""


def typed():
    """What mypy says of the package and of a caller, where it is there."""
    if shutil.which("mypy") is None:
        return print("python_package.py: no mypy, so type hints aren't tried", file=sys.stderr)
    with tempfile.TemporaryDirectory() as folder:
        caller = Path(folder, "caller.py")
        for text, wanted in ((CALLER, 0), (CALLER.replace(": tardis.Records", ": tardis.TraceReport"), 1),
                             (CALLER.replace("counts=True, every=2", "every=2"), 1)):
            caller.write_text(text)
            told = subprocess.run(["mypy", "--strict", f"--cache-dir={folder}/kept", caller], text=True,
                                  env=os.environ | {"MYPYPATH": str(TOP / "python")}, capture_output=True)
            if told.returncode != wanted:
                fail(f"type hints: {told.stdout}{told.stderr}")


def faults(is_proved):
    """What is refused, with its line, and options out of range."""
    for make, kind, line in ((lambda: tardis.litmus("RISCV\n"), tardis.BadText, 1),
                             (lambda: tardis.trace("0 R 0x0\n0 R 0x4\n"), tardis.BadText, 2),
                             (lambda: tardis.check("0 R 0x0\n", "0 R 0x0\n"), tardis.BadText, 1),
                             (lambda: tardis.check("", "", opening="\n0x8 5\n0x8 5\n"), tardis.BadText, 3),
                             (lambda: tardis.check("", "", opening={4: 5}), tardis.BadText, 1),
                             (lambda: tardis.trace("0 R 0x0\n", lease=0), tardis.BadConfiguration, None),
                             (lambda: tardis.trace("0 R 0x0\n", schedule="seed", fair=True), tardis.BadConfiguration,
                              None), (lambda: tardis.trace("", runs=2), TypeError, None),
                             (lambda: tardis.trace("", every=1), tardis.BadConfiguration, None),
                             (lambda: tardis.trace("", counts=True, every=0), tardis.BadConfiguration, None),
                             (lambda: tardis.trace("", records=True, counts=True), tardis.BadConfiguration, None),
                             (lambda: tardis.trace("", records=True, json=True), tardis.BadConfiguration, None)):
        try:
            make()
            fail("what is refused was taken")
        except kind as error:
            if line is not None and (error.line != line or f" {line}: {error.kind}" not in str(error)):
                fail(f"{error}: line {error.line}, not {line}, and {error.kind}")
    for name, make, more in (("trace", lambda: tardis.trace("", runs=2), f"records, counts, every, {OF_RUNS}"),
                             ("litmus", lambda: tardis.litmus("", records=True), f"{OF_RUNS}, runs")):
        told = str(refuses(TypeError, make, f"an option that {name} hasn't"))
        if told != f"{name} has no option {'runs' if name == 'trace' else 'records'!r}: it takes {more}":
            fail(f"an option that {name} hasn't: {told}")


# The least and the greatest value of each option that is a whole number, as docs/ have them.
RANGES = {"lease": (1, 4_294_967_296), "time": (0, 18_446_744_073_709_551_615), "banks": (1, 8), "sets": (1, 1024),
          "ways": (1, 16), "bank_sets": (1, 1024), "bank_ways": (1, 16), "messages": (1, 65_536),
          "limit": (1, 4_294_967_295), "runs": (1, 1_000_000), "seed": (0, 18_446_744_073_709_551_615)}


def ranges():
    """Each option at the ends of its range, and one beyond."""
    for name, (least, most) in RANGES.items():
        for value in (least, most):
            Options(**{name: value})
        for value in (least - 1, most + 1):
            told = str(refuses(tardis.BadConfiguration, lambda: tardis.litmus("", **{name: value}), f"{name} {value}"))
            if told != f"{name} is {value}: it goes from {least} to {most}":
                fail(f"{name} {value}: {told}")
    for make, wanted in (*((lambda words=words: tardis.trace("", line_words=words),
                            f"line_words is {words}: it is 1 or 8") for words in (0, 2, 4, 16)),
                         (lambda: tardis.trace("", schedule="threads"), "schedule is 'threads': it is round or seed"),
                         (lambda: tardis.ends("", states=4_294_967_296),
                          "states is 4294967296: it goes from 1 to 4294967295")):
        told = str(refuses(tardis.BadConfiguration, make, wanted))
        if told != wanted:
            fail(f"{told}, and not {wanted}")


def found_there():
    """The player: the checkout's, else the one on the path; none without them."""
    kept, top = dict(os.environ), tardis.found.TOP
    with tempfile.TemporaryDirectory() as folder:
        tardis.found.TOP = Path(folder)
        os.environ.pop("TARDIS_PLAYER", None)
        os.environ["PATH"] = f"{folder}/path"
        for place in (None, "path/tardis-play-events", "crates/play_events/out/play_events"):
            path = place and Path(folder, place)
            if path:
                path.parent.mkdir(parents=True)
                path.touch(0o755)
            if tardis.found.player() != (path and str(path)):
                fail(f"the player in {place}: {tardis.found.player()}")
    tardis.found.TOP = top
    os.environ.clear()
    os.environ.update(kept)


def packaged():
    """What setuptools builds of the package, where it is there: each module, and the version."""
    if importlib.util.find_spec("setuptools") is None:
        return print("python_package.py: no setuptools, so pyproject.toml isn't tried", file=sys.stderr)
    with tempfile.TemporaryDirectory() as folder:
        copied = shutil.copytree(TOP / "python", Path(folder, "python"),
                                 ignore=shutil.ignore_patterns("__pycache__"))
        told = subprocess.run([sys.executable, "-c", "import setuptools; setuptools.setup()", "build", "--build-lib",
                               f"{folder}/built", "egg_info"], cwd=copied, capture_output=True, text=True)
        if told.returncode:
            fail(f"pyproject.toml: {told.stderr.splitlines()[-1:]}")
        names = [{path.name for path in Path(top, "tardis").iterdir() if path.is_file()}
                 for top in (copied, f"{folder}/built")]
        if names[0] != names[1] or f"Version: {tardis.__version__}\n" not in \
                (copied / "tardis_proved.egg-info/PKG-INFO").read_text():
            fail(f"what is built: {names}")


def another_version():
    """A library of another version than the package's is refused."""
    version = tardis.version.VERSION
    tardis.version.VERSION = version.rpartition(".")[0] + ".99"
    refuses(tardis.TardisError, lambda: tardis.trace(""), "a library of another version")
    tardis.version.VERSION = version


def machines(is_proved):
    """A machine by hand, and a network of one's own: what that prints."""
    if machine() != is_proved:
        fail("which machine answers")
    places()
    asked()
    many()
    troubles()
    wrong_kinds()
    return latency()


def main(words):
    if words[:1] in ([], ["-h"], ["--help"]):
        return print(__doc__)
    if words == ["--refused"]:
        return refused_memory()
    if words == ["--library"]:
        another_version()
        told = machines(True)
        at_once()
        locks()
        long()
        warnings.simplefilter("ignore")
        driven()
        with without_library():
            if latency() != told:
                fail("latency.py: by the library and by the second program")
        warnings.simplefilter("default")
        return runs(True)
    packaged()
    typed()
    warnings.simplefilter("ignore")
    ranges()
    found_there()
    os.environ["TARDIS_LIBRARY"] = ""
    for named in (words[0], ""):
        os.environ["TARDIS_PLAYER"] = named
        player(bool(named))
    machines(False)
    opened_with()
    refused_lists()
    return runs(False)


if __name__ == "__main__":
    sys.exit(main(sys.argv[1:]))
