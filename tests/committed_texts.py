#!/usr/bin/env python3
"""Asks the texts whose expected outputs are committed what the second program says of them:
tests/committed_texts.py [--which short|usual|long|all] [--most N] [--first] [--changed MODULE]

They are the texts of both players; the reports, records and tables of examples/; tables of faults and of ends, and what
scripts have by hand. Printed are the texts with which the second program differs, by kind, as JSON: 1 behind a name for
another output, 2 for an error or a text that takes a minute. No more than N of a kind are looked for. Texts of the
players are left out if they don't load MODULE, the one that was changed. tests/changed_definitions.py makes the
changes. What the second program tests by itself doesn't count: `python3 -O` runs it without its assertions.
"""
import argparse
import json
import os
import re
import shlex
import signal
import sys
import tempfile
from itertools import islice
from pathlib import Path

TOP = Path(__file__).resolve().parent.parent
sys.path.insert(0, str(TOP))

LONG = re.compile(r"limits|full\.seats|\.seeds|SEED-|THOUSAND|places|texts\.py lines")
SHORT = re.compile(r"(?:leases|placement|evictions|refusals)\.events|closing\.seats|\.table|(?:ends|reports)\.py by|"
                   r"texts\.py faults")
WHICH = {"short": SHORT.search, "long": LONG.search, "usual": lambda name: not LONG.search(name),
         "all": lambda name: True}
PATIENCE = 60  # seconds of processor time for a text


def of_players():
    """Each text of the players, and whether the second program answers otherwise."""
    from reference import play
    for path in sorted((TOP / "crates").glob("play_*/data/*")):
        yield path.name, lambda path=path: any(status for _, status in play.played(path.name, path.read_text()))


def of_examples():
    """Each report and each list of records, and whether the second program writes another one."""
    from reference import oracle
    from tests import expected

    def differs(path):
        source = next(filter(Path.exists, map(path.with_suffix, (".litmus", ".trace"))))
        name = b"also" if path.suffix == ".also" else b"options"
        given = expected.SEEDS if path.suffix == ".seeds" else expected.options_of(source, name)
        has_records = path.suffix == ".records" or path.suffix == ".also" and source.suffix == ".trace"
        words = [source.suffix.replace(".", ""), *["--records"] * has_records, *given, str(source)]
        return oracle.run(oracle.words().parse_args(words))[0] != path.read_text()

    folders = [TOP / "examples" / name for name in ("litmus", "settings", "traces")]
    for path in sorted(path for folder in folders for path in folder.iterdir()):
        if path.suffix in (".report", ".also", ".seeds", ".records"):
            yield path.name, lambda path=path: differs(path)


def second_tester():
    """What scripts give their program's words to: the second program, in this process."""
    from tests import json_reports, texts

    class Second(texts.Tester):
        def run(self, *words, text=None):
            with tempfile.NamedTemporaryFile() as file:
                file.write(text or b"")
                file.flush()
                return json_reports.second([file.name if word == "/dev/stdin" else word for word in words])
    return Second("")


def of_command_lines(tester):
    """Bad configurations, and options that can't be had together: the command lines that the second program refuses in
    the same words."""
    from tests import texts, words
    for status, heads, answer in words.blocks():
        if re.search("bad configuration|' needs? '--|' cannot be used with '", answer):
            error = answer + (texts.MORE if answer.startswith("error: ") else "\n")
            for line in heads:
                tester.expect(tester.run(*shlex.split(line)[2:]) == (status, "", error), line)


def of_lists(tester):
    """The lists of ends that tests/ends.py has by hand, with orders and without; how many states; the least bound."""
    from tests import ends
    given = [([f"examples/litmus/{name}.litmus"], text) for name, text in ends.TEXTS.items()]
    for words, wanted in [*given, (["--orders", ends.SB], ends.ORDERS)]:
        tester.expect(tester.run("ends", *words) == (0, wanted, ""), words)
    for text, (states, _, bound, last) in ends.COUNTS.items():
        for most in (bound, bound - 1):
            status, out, _ = tester.run("ends", f"--states={most}", "/dev/stdin", text=text.encode()) if most else "1  "
            tester.expect(status == int(most < bound) if most else True, text)
            if most == bound:
                lines = out.splitlines()
                tester.expect((lines[2], lines[-1]) == (f"states {states}", last), text)
    got = tester.run("ends", "--orders", "/dev/stdin", text=ends.UNNAMED.encode())
    tester.expect(got == (0, ends.FIRST_ORDER, ""), got)


def of_scripts():
    """Each part of a script with expected outputs of its own, and whether the second program's differ."""
    from tests import expected, json_reports, streams, texts, trace_counts

    def differs(part, *folder):
        tester = second_tester()
        with open(os.devnull, "w", encoding="ascii") as sys.stdout:
            part(tester, *folder)
        sys.stdout = sys.__stdout__
        return tester.wrong > 0

    yield "examples/*.table", lambda: any(expected.differing_rows())
    for name in ("faults", "ends", "cuts", "places", "limits"):
        yield f"texts.py {name}", lambda name=name: differs(texts.PARTS[name])
    yield "texts.py lines", lambda: differs(texts.most_lines)
    yield "words.table", lambda: differs(of_command_lines)
    yield "ends.py by hand", lambda: differs(of_lists)
    for name in ("1,000,000 loads", "66,000 requests"):  # minutes, in Python
        del trace_counts.SEEN[name]
    with tempfile.TemporaryDirectory() as folder:
        for name, text in json_reports.FILES.items():
            Path(folder, name).write_text(text, encoding="ascii")
        yield "streams.py by hand", lambda: not streams.is_known(Path(folder, "some.trace"))
        yield "json_reports.py by hand", lambda: differs(json_reports.by_hand, folder)
        yield "trace_counts.py by hand", lambda: differs(trace_counts.by_hand, folder)
        yield "trace_counts.py rows", lambda: differs(trace_counts.in_rows, folder)


def said_by(text):
    """Whether a text refuses: 1, or 2 where the second program ends by an error or not at all."""
    signal.setitimer(signal.ITIMER_VIRTUAL, PATIENCE)
    try:
        return int(bool(text()))
    except Exception:  # whatever a changed rule leads to
        return 2
    finally:
        signal.setitimer(signal.ITIMER_VIRTUAL, 0)
        sys.stdout = sys.__stdout__


def ended(*_):
    raise TimeoutError


def main():
    parser = argparse.ArgumentParser(description=__doc__, formatter_class=argparse.RawDescriptionHelpFormatter)
    parser.add_argument("--which", choices=WHICH, default="all")
    parser.add_argument("--most", type=int, default=sys.maxsize, metavar="N")
    parser.add_argument("--first", action="store_true", help="no further kind behind one that refuses")
    parser.add_argument("--changed", default="", metavar="MODULE")
    options = parser.parse_args()
    signal.signal(signal.SIGVTALRM, ended)
    os.chdir(TOP)
    players = list(of_players())
    if options.changed and options.changed not in sys.modules:
        players = []
    from reference import oracle
    oracle.test_generator = lambda: None  # the second program's own test
    refusing = {}
    for kind, texts in (("players", players), ("tables", of_scripts()), ("examples", of_examples())):
        if refusing and options.first:
            break
        said = ((name, said_by(text)) for name, text in texts if WHICH[options.which](name))
        if found := list(islice(((name, how) for name, how in said if how), options.most)):
            refusing[kind] = found
    print(json.dumps(refusing))


if __name__ == "__main__":
    main()
