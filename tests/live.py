#!/usr/bin/env python3
"""Tries the players' `--live` (docs/EVENTS.md): tests/live.py EVENT_PLAYER SEAT_PLAYER

Each call of the texts in crates/play_events/data and crates/play_seats/data is sent alone, and its answer read before
the next one is sent, to the proved players and to the second program's. So are calls by hand, also such as can't be
read. A player that reads ahead, or keeps an answer back, is waited for, at most 20 minutes in all.
"""
import signal
import subprocess
import sys
from itertools import islice
from pathlib import Path

TOP = Path(__file__).resolve().parent.parent
sys.path.insert(0, str(TOP))
from reference.play import KINDS  # noqa: E402
from reference.texts import examples_of, is_answer  # noqa: E402


class Live:
    """A player that answers each call at once, by a command to which the second program's player adds the kind."""

    def __init__(self, command, kind):
        words = [*command, "--live", *[kind] * (len(command) > 1)]
        self.player = subprocess.Popen(words, stdin=subprocess.PIPE, stdout=subprocess.PIPE, text=True, bufsize=1)

    def say(self, call):
        self.player.stdin.write(call + "\n")
        return self.player.stdout.readline().rstrip("\n")

    def end(self):
        rest = self.player.communicate()[0]
        return self.player.returncode, rest


# Calls by hand, with their answers, by the kind of player.
DIALOGS = {
    "events": (("flight", "no machine"), ("machine cores 2 lease 10", "opened"), ("issue 1 R 0x0", "issued"),
               ("attempt 1", "requested"), ("  flight  ", "m0"), ("deliver m0 1", "unread: a word too many"),
               ("fly", "unread: there is no such call"), ("deliver m0", "started"), ("\nflight", "m0 m1"),
               ("issue 1 R 0x0", "refused Busy"), ("issue 1 R 0x4", "unread: an address is a multiple of 8")),
    "seats": (("fly", "unread: there is no such call"), ("put core 0", "no machine"), ("draw 0", "no machine"),
              ("seats banks 9", "refused BadConfig"), ("close", "no machine"), ("seats cores 2 line-words 8", "opened"),
              ("issue 1 R 0x48", "issued"), ("  attempt 1 ", "requested"), ("put core 1 1", "unread: a word too many"),
              ("put core 1", "put"), ("\n\ntake bank 0", "taken"), ("draw 0", "no machine"),
              ("hand bank 0", "ShReq core 1 > bank 0 0x40 pts 0 version none"), ("take bank 1", "no seat"),
              ("fly", "unread: there is no such call"), ("close", "closed"), ("put core 1", "no machine"),
              ("numbers 17", "unread: a number from 1 to 16 is wanted"), ("records", "0"), ("numbers 2", "opened"),
              ("draw 1", "0"), ("draw", "unread: a number is wanted"), ("records", "no machine"), ("drawn 1", "0"),
              ("close", "closed"), ("drawn 0", "none"), ("draw 0", "no machine"), ("seats", "opened"))}
TEXTS = {"events": "crates/play_events/data/*.events", "seats": "crates/play_seats/data/*.seats"}


def dialog(command, kind):
    """What can't be read gets its cause, a blank line nothing, and the player goes on."""
    live = Live(command, kind)
    for call, wanted in DIALOGS[kind]:
        came = live.say(call)
        if came != wanted:
            sys.exit(f"live.py: {command[-1]}: {call.strip()}: {came}, not {wanted}")
    if live.end() != (0, ""):
        sys.exit(f"live.py: {command[-1]}: the end of the input")


def texts(command, kind, most):
    """The calls of the texts that have an answer, repeats made, at most `most` of each example; a player for each."""
    tried = 0
    for path in sorted(TOP.glob(TEXTS[kind])):
        for example in examples_of(path.read_text(), KINDS):
            live = Live(command, kind)
            for _, _, call, wanted in islice(example.lines(), most):
                came = live.say(call)
                if wanted is not None and not is_answer(wanted, came):
                    sys.exit(f"live.py: {command[-1]}: {path.name}: {example.title}: {call}: {came}, not {wanted}")
                tried += 1
            if live.end() != (0, ""):
                sys.exit(f"live.py: {command[-1]}: {path.name}: {example.title}: the end of the input")
    return tried


def main(*players):
    signal.alarm(1200)
    second = [sys.executable, str(TOP / "reference/play.py")]
    for kind, built in zip(TEXTS, players, strict=True):
        for command, most in (([built], 2000), (second, 30)):
            dialog(command, kind)
            print(f"live.py: {texts(command, kind, most)} calls of {kind}, one by one")


if __name__ == "__main__":
    sys.exit(main(*sys.argv[1:]) if len(sys.argv) == 3 else __doc__)
