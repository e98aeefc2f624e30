#!/usr/bin/env python3
"""A converter to start from: from a simulator's log, here that of directory.c, to a history for tools/number.py.

    examples/embed/from_log.py [--completion] LOG >HISTORY

A line of the log has when an operation completed, and which it was: `42 core 2 load 0x8 got 0`. Where an invalidation
overtook a load's data, `sent 28 overtaken` follows, and the load takes effect when its data was sent. --completion
takes no notice of that. For a log of your own, change LINE, LETTERS and effect().
"""
import argparse
import re
import signal
import sys

LINE = re.compile(r"(?P<cycle>\d+) core (?P<core>\d+) (?P<kind>load|(?P<stores>store|swap)) (?P<address>0x[0-9a-f]+)"
                  r"(?(stores) value (?P<written>\d+))(?: got (?P<received>\d+))?(?: sent (?P<sent>\d+) overtaken)?")
LETTERS = {"load": "R", "store": "W", "swap": "S"}


def effect(line, by_completion):
    """The cycle in which the operation of a line takes effect."""
    return line["cycle"] if by_completion or line["sent"] is None else line["sent"]


def main():
    words = argparse.ArgumentParser(description=__doc__, formatter_class=argparse.RawDescriptionHelpFormatter)
    words.add_argument("LOG", type=argparse.FileType(encoding="utf-8"), help="the log; - is standard input")
    words.add_argument("--completion", action="store_true", help="an operation takes effect when it completes")
    given = words.parse_args()
    for number, text in enumerate(given.LOG, 1):
        text = text.partition("#")[0].strip()
        line = LINE.fullmatch(text)
        letter = line and LETTERS[line["kind"]]
        if text and not (line and (letter == "W") == (line["received"] is None)
                         and (line["sent"] is None or letter == "R")):
            sys.exit(f"from_log.py: line {number}: `{text}`")
        values = [line[name] for name in ("written", "received") if line[name]] if line else []
        print(*[line["core"], letter, line["address"], *values, "@", effect(line, given.completion)] if line else [])


if __name__ == "__main__":
    signal.signal(signal.SIGPIPE, signal.SIG_DFL)  # a reader that goes away, as head does, ends it without a word
    main()
