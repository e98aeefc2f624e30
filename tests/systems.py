#!/usr/bin/env python3
"""Drives machines of the C library by random events, next to the second program's: tests/systems.py DRIVER [SEED]

DRIVER is tests/systems.c, built. Each machine is drawn: its cores, options and opening words. So is each call: events
of cores, banks and messages that are there or not, and each look-up that the library has. The answers must be those of
the second program (docs/EVENTS.md). 300 machines take 150 events each.
"""
import random
import subprocess
import sys
from pathlib import Path

sys.path.insert(0, str(Path(__file__).resolve().parent.parent))
from reference.machine_texts import MachinePlayer  # noqa: E402

MACHINES, EVENTS = 300, 150
OPTIONS = ("lease", "time", "banks", "sets", "ways", "bank-sets", "bank-ways", "line-words", "messages",
           "private-write")


def machine_of(draw):
    """The options of a small machine, its cores, and its opening words."""
    time = draw.choice((0, 0, 7, 2**64 - 3))
    values = (draw.choice((1, 3, 10)), time, draw.choice((1, 2)), 1, draw.choice((1, 2)), 1, draw.choice((1, 2)),
              draw.choice((1, 8)), draw.choice((1, 4, 64)), draw.choice((0, 1)))
    opening = [(8 * draw.randrange(16), draw.randrange(2**64)) for _ in range(draw.randrange(4))]
    return draw.choice((1, 2, 4)), dict(zip(OPTIONS, values)), list(dict(opening).items())


def event_of(draw, cores, sent):
    """An event: most are of a core or a message that is there."""
    core, address = draw.randrange(cores + 1), hex(8 * draw.randrange(16))
    kind = draw.randrange(20)
    if kind < 4:
        return f"issue {core} " + draw.choice((f"R {address}", f"W {address} {draw.randrange(99)}", f"S {address} 5"))
    if kind < 9:
        return f"attempt {core}"
    if kind < 17:
        return f"deliver m{draw.choice(sent) if sent and draw.random() < 0.95 else draw.randrange(99)}"
    if kind == 17:
        return f"evict core {core} {address}"
    return f"evict bank {draw.randrange(3)} {address}" if kind == 18 else f"advance {core}"


def looks_of(draw, cores, sent):
    core, address = draw.randrange(cores + 1), hex(8 * draw.randrange(16))
    number = draw.choice(sent) if sent else 3
    return ("flight", "sent", "records", "stopped", f"message m{number}", f"message m{number + 1}", f"room m{number}",
            f"record {draw.randrange(8)}", f"open {core}", f"copies {core}", f"entries {draw.randrange(3)}",
            f"victim {core} {address}", f"owners {address}", f"word {address}")


class Driven:
    """A machine of the library."""

    def __init__(self, driver, cores, options, opening):
        words = [cores, *options.values(), *(word for address, value in opening for word in (hex(address), value))]
        self.process = subprocess.Popen([driver, *map(str, words)], stdin=subprocess.PIPE, stdout=subprocess.PIPE,
                                        text=True, bufsize=1)

    def play(self, call):
        self.process.stdin.write(call + "\n")
        return self.process.stdout.readline().rstrip("\n")

    def end(self):
        self.process.stdin.close()
        return self.process.wait()


def played(driver, seed):
    """What is wrong with one machine, or None; and how many answers of each kind there were."""
    draw = random.Random(seed)
    cores, options, opening = machine_of(draw)
    second, first, met = MachinePlayer(), Driven(driver, cores, options, opening), {}
    built = " ".join(f"{name} {('no', 'yes')[value] if name == 'private-write' else value}"
                     for name, value in options.items())
    words = " ".join(f"{address:#x} {value}" for address, value in opening)
    if second.play(f"machine cores {cores} {built}" + (f" with {words}" if words else "")) != "opened":
        return "the second program opens none", met
    for _ in range(EVENTS):
        sent = [int(word[1:]) for word in second.play("flight").split() if word != "none"]
        for call in (event_of(draw, cores, sent), *looks_of(draw, cores, sent)):
            wanted, came = second.play(call), first.play(call)
            if wanted != came:
                return f"seed {seed}: {call}: wanted {wanted}, came {came}", met
            word = wanted.split()[-1] if wanted.startswith("refused") else wanted.split()[0]
            met[call.split()[0], word] = met.get((call.split()[0], word), 0) + 1
    return None if first.end() == 0 else f"seed {seed}: the driver failed", met


def main(driver, first=1):
    all_met = {}
    for seed in range(int(first), int(first) + MACHINES):
        fault, met = played(driver, seed)
        if fault:
            sys.exit(f"systems.py: {fault}")
        for each, count in met.items():
            all_met[each] = all_met.get(each, 0) + count
    missing = {"completed", "requested", "waiting", "idle", "delivered", "dropped", "held", "started", "evicted",
               "recalled", "advanced", "issued", "Busy", "NoSuch", "NoRoom", "Pinned", "NetworkFull", "Exhausted",
               "Stopped"} - {word for _, word in all_met}
    if missing:
        sys.exit(f"systems.py: no event was answered {sorted(missing)}")


if __name__ == "__main__":
    if sys.argv[1:2] in (["-h"], ["--help"]) or len(sys.argv) not in (2, 3):
        sys.exit(print(__doc__))
    main(*sys.argv[1:])
