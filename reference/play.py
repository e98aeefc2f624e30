#!/usr/bin/env python3
"""Plays examples of the machine as texts (docs/EVENTS.md) on the second program's machine: reference/play.py [FILE..].

A text is read from standard input if FILE is `-`, or if none is named. `--print FILE` writes the text with the answers
that came. No allocation of the second program fails, so that `--again` changes nothing. `--live` answers each call on
standard input before it reads the next one, as the player of events does, or with `seats` behind it that of seats.
"""
import sys
from collections import Counter
from pathlib import Path

sys.path.insert(0, str(Path(__file__).resolve().parent.parent))
from reference.machine_texts import MachinePlayer  # noqa: E402
from reference.printing import printed  # noqa: E402
from reference.seat_texts import SeatsOrNumbersPlayer  # noqa: E402
from reference.texts import Unreadable, examples_of, is_answer  # noqa: E402


LIVE = {"events": MachinePlayer, "seats": SeatsOrNumbersPlayer}
KINDS = {"machine": MachinePlayer, "seats": SeatsOrNumbersPlayer, "numbers": SeatsOrNumbersPlayer}
GOOD, WRONG, BAD_TEXT, FAILED = 0, 1, 3, 4


def played(name, text):
    """The lines that are printed of a text, and the status. The last line is a summary."""
    counts = dict.fromkeys(("examples", "answers", "wrong", "unreadable"), 0)
    for example in examples_of(text, KINDS):
        if example.fault:
            counts["unreadable"] += 1
            yield "{}:{}: {}".format(name, *example.fault), BAD_TEXT
            continue
        counts["examples"] += 1
        player = example.kind() if example.kind else None
        wrong_turns = Counter()  # by line
        for line, turn, call, wanted in example.lines():
            came = player.play(call)
            if wanted is None:
                yield f"{call} : {came}", GOOD
                continue
            counts["answers"] += 1
            if is_answer(wanted, came):
                continue
            wrong_turns[line.number] += 1
            if wrong_turns[line.number] == 1:
                where = f"turn {turn + 1}: " if line.is_repeated else ""
                yield f"{name}:{line.number}: {where}wanted {wanted}, came {came}", WRONG
        for number, turns in wrong_turns.items():
            if turns > 1:
                yield f"{name}:{number}: wrong in {turns} turns", WRONG
        counts["wrong"] += wrong_turns.total()
    told = (f"{count} {what}" for what, count in counts.items() if count or what in ("examples", "answers"))
    yield f"{name}: {', '.join(told)}", GOOD


def text_of(name):
    """The text of a file, or of standard input. A carriage return in front of a line feed is no part of the line."""
    return (sys.stdin.buffer.read() if name == "-" else Path(name).read_bytes()).decode().replace("\r\n", "\n")


def tell(name, is_print):
    """Prints the result of a text; the status."""
    text = text_of(name)
    if is_print:
        text, faults = printed(text, KINDS)
        sys.stdout.write(text)
        for fault in faults:
            print("{}:{}: {}".format(name, *fault), file=sys.stderr)
        return BAD_TEXT if faults else GOOD
    worst = GOOD
    for line, status in played(name, text):
        print(line)
        worst = max(worst, status)
    return worst


def play_live(kind="events"):
    """Answers each call on standard input when it is read."""
    player = LIVE[kind]()
    for line in sys.stdin.buffer:
        call = " ".join(line.decode().split())
        if call:
            try:
                player.read(call)
                print(player.play(call), flush=True)
            except Unreadable as cause:
                print(f"unread: {cause}", flush=True)
    return GOOD


def main(words):
    if words[:1] in (["-h"], ["--help"]):
        return print(__doc__)
    if words[:1] == ["--live"] and set(words[1:]) <= {*LIVE} and len(words) <= 2:
        return play_live(*words[1:])
    is_print = "--print" in words
    files = [word for word in words if word not in ("--print", "--again")]
    if any(word.startswith("--") for word in files):
        print("play.py: bad command line", file=sys.stderr)
        return BAD_TEXT
    sys.stdout.reconfigure(errors="surrogateescape")
    return max(tell(name, is_print) for name in files or ["-"])


if __name__ == "__main__":
    try:
        sys.exit(main(sys.argv[1:]))
    except OSError as error:
        print(f"play.py: {error}", file=sys.stderr)
    except UnicodeDecodeError:
        sys.stdout.flush()
        print("stream did not contain valid UTF-8", file=sys.stderr)
    sys.exit(FAILED)
