#!/usr/bin/env python3
"""Says why records aren't legal, why a text is refused, or why a run didn't end.

    tools/explain.py [--complete] [--opening FILE] TRACE RECORDS
                                        the verdict of `check`, with the record, what was expected of it, and what lies
                                        around it in the order by time and number; or the fault of a text
    tools/explain.py TEST|TRACE       the fault of a text, with its cell, its cause and what is often meant; of a test
                                        that has none, what can't be meant: names in the condition that no
                                        instruction changes, addresses that none uses, values that nothing sets
    tools/explain.py -- COMMAND ..      a command line of tardis, as `-- trace --line-words 8 my.trace`: the fault of
                                        its text, options out of range, or, of a run that ended stalled or at its limit,
                                        the cores that wait, for which lines, and the cause (docs/ENDING.md). The second
                                        program makes the run again

A text is a litmus test if its name ends in .litmus, or if it has a brace and no name that ends in .trace. Verdicts and
faults are the program's: what TARDIS names, else the one that ./tardis built, else reference/oracle.py.
The status is 0 if nothing is wrong, 1 if something is explained, and 2 if a file can't be read; then standard error
says so in one line.
"""
import argparse
import re
import sys
from collections import Counter
from pathlib import Path

sys.path.insert(0, str(Path(__file__).resolve().parent.parent))
from reference.given import tool  # noqa: E402
from tools import litmus_hints, program  # noqa: E402
from tools.explained_orders import another_order, seen  # noqa: E402
from tools.explained_runs import explained_run  # noqa: E402
from tools.explained_texts import explained_text  # noqa: E402
from tools.program import Refused, fail, text_of  # noqa: E402


AROUND = 3  # records told before and behind the one that is wrong
LETTERS = {b"R": "load", b"W": "store", b"S": "swap"}


def lines_with_fields(text):
    """The lines that say something, with their numbers, of a text that the program has read."""
    for number, line in enumerate(text.split(b"\n"), 1):
        fields = line.partition(b"#")[0].split()
        if fields:
            yield number, fields


class Record:
    """A record with its line and the comment there. Sorting is by time and number."""

    __slots__ = ("key", "line", "fields", "comment")

    def __init__(self, line, fields, comment):
        self.key, self.line, self.fields = (int(fields[-2]), int(fields[-1])), line, fields
        said = comment.strip().decode("latin-1").encode("unicode_escape").decode()
        self.comment = f" # {said}" if said else ""

    number = property(lambda self: self.key[1])
    core = property(lambda self: int(self.fields[0]))
    place = property(lambda self: int(self.fields[1]))
    word = property(lambda self: int(self.fields[3], 16))
    letter = property(lambda self: self.fields[2])
    written = property(lambda self: None if self.letter == b"R" else int(self.fields[4]))
    received = property(lambda self: None if self.letter == b"W" else int(self.fields[-3]))

    def told(self):
        return f"line {self.line}: {b' '.join(self.fields).decode()}"

    def shown(self):
        """With the comment: tools/order.py and tools/number.py name the line of a history there."""
        return self.told() + self.comment

    def when(self):
        return f"time {self.key[0]} and number {self.key[1]}"


class History:
    """Records in the order by time and number, the trace that they are of, and the values that words open with, by
    byte address."""

    def __init__(self, trace, records, opening):
        self.trace, self.opening = trace, {int(word, 16): int(value) for _, (word, value) in lines_with_fields(opening)}
        comments = [line.partition(b"#")[2] for line in records.split(b"\n")]
        self.records = [Record(line, fields, comments[line - 1]) for line, fields in lines_with_fields(records)]
        self.records.sort(key=lambda record: record.key)

    def at(self, number):
        """The place in the order of the record of this number."""
        return next(at for at, record in enumerate(self.records) if record.number == number)

    def operations(self, core):
        """The trace's operations of a core, each with its line."""
        for line, fields in lines_with_fields(self.trace):
            if fields[0] != b"trace" and int(fields[0]) == core and fields[1] != b"A":
                yield line, fields[1:]


def around(title, records, at):
    """What comes before and after a place in a list of records, with a mark there."""
    yield title
    for place in range(max(0, at - AROUND), min(len(records), at + AROUND + 1)):
        yield f"{'>' if place == at else ' '} {records[place].shown()}"


def wrong_value(history, at):
    record = history.records[at]
    of_word = [other for other in history.records if other.word == record.word]
    place = of_word.index(record)
    before = [other for other in of_word[:place] if other.written is not None]
    opening = history.opening.get(record.word, 0)
    wanted = before[-1].written if before else opening
    what = f"{LETTERS[record.letter]} of {record.word:#x}"
    yield f"Core {record.core}'s {what} received {record.received} instead of {wanted}:"
    yield f"  {before[-1].told()} wrote that" if before else \
        f"  no record before it wrote the word, which opens as {opening}"
    yield from source_of(record.received, of_word, place, opening)
    yield from seen(of_word, place, opening)
    yield from around(f"The operations on {record.word:#x} around it, in order:", of_word, place)


def source_of(value, of_word, place, opening):
    """Where a wrong value may come from."""
    if value == opening:
        yield f"{value} is the word's opening value."
    found = [at for at, other in enumerate(of_word) if other.written == value and at != place]
    for at in found[:AROUND]:
        behind = next((other for other in of_word[at + 1:] if other.written is not None), None)
        how = "comes later in the order" if at > place else f"is overwritten by line {behind.line}"
        yield f"{value} is what {of_word[at].told()} wrote; it {how}."
    if not found and value != opening:
        yield f"No record wrote {value} there."


def out_of_order(history, at):
    record = history.records[at]
    core, place = record.core, record.place
    mine = [other for other in history.records if other.core == core]
    next_one, listed = mine.index(record), list(history.operations(core))
    if not listed:
        yield f"The trace has no operation of core {core}."
    elif place != next_one and next_one < len(listed):
        yield f"Core {core}'s operation {next_one} comes next (the first is 0), and this is its operation {place}:"
        line, fields = listed[next_one]
        yield f"  line {line} of the trace: {core} {b' '.join(fields).decode()}"
        found = [other for other in mine if other.place == next_one]
        yield f"  its record, {found[0].told()}, has {found[0].when()}" if found else "  no record has it"
    elif place >= len(listed) or place != next_one:
        yield f"Core {core} has {len(listed)} operations in the trace, numbered from 0, so none comes here."
    else:
        line, fields = listed[place]
        yield f"Core {core}'s operation {place} (the first is 0) is another one in the trace:"
        yield f"  line {line} of the trace: {core} {b' '.join(fields).decode()}"
    yield from around(f"Core {core}'s operations around it, in order:", mine, next_one)


def bad_number(history, number):
    by_number = sorted(history.records, key=lambda record: (record.number, record.line))
    count = len(by_number)
    yield f"There are {count} records, so their numbers are 0 to {count - 1}, each once. None has {number}."
    pairs = [(one, other) for one, other in zip(by_number, by_number[1:]) if one.number == other.number]
    if pairs:
        one, other = pairs[0]
        yield f"Two have {one.number}: {one.told()}, and {other.told()}."
    else:
        yield f"No number stands twice: the record with {number} is missing, or one has a wrong number."
    if by_number[-1].number >= count:
        first = next(record for record in by_number if record.number >= count)
        yield f"{first.number} is too great: {first.told()}."
    yield from ("The numbers below and above:", *(f"  {record.told()}" for record in next_to(by_number, number)))


def next_to(by_number, number):
    above = next((at for at, record in enumerate(by_number) if record.number > number), len(by_number))
    return by_number[max(0, above - AROUND):above + AROUND]


def missing(history):
    """The operations of the trace without a record, of legal records: the last ones of their cores."""
    count = Counter(record.core for record in history.records)
    listed = ((int(fields[0]), line, fields) for line, fields in lines_with_fields(history.trace)
              if fields[0] != b"trace" and fields[1] != b"A")
    left = [(line, fields) for core, line, fields in listed if not take(count, core)]
    if left:
        line, fields = left[0]
        count = "1 operation of the trace has no record: line" if len(left) == 1 else \
            f"{len(left)} operations of the trace have no record; the first is line"
        yield f"{count} {line}, {b' '.join(fields).decode()}."


def take(count, core):
    """Whether there is one more record of a core, which is then counted off."""
    count[core] -= 1
    return count[core] >= 0


def explained_records(paths, texts, opening, complete):
    """The lines that explain the verdict, over the opening of a file or zeros, and perhaps on complete records."""
    verdict = program.run("check", *["--complete"] * complete, *named(opening), *paths).strip()
    whole = History(*texts, text_of(opening) if opening else b"")
    if verdict == "legal" or verdict.startswith("no record of operation "):
        yield verdict
        yield from missing(whole)
        return
    if not re.fullmatch(r"(bad number|wrong value|out of program order) \d+", verdict):
        fail(f"{program.program()} answers no verdict")
    what, _, number = verdict.rpartition(" ")
    yield verdict
    history, number = whole, int(number)
    if what == "bad number":
        yield from bad_number(history, number)
        return
    at = history.at(number)
    yield f"{paths[1]}, {history.records[at].shown()}"
    yield from {"wrong value": wrong_value, "out of program order": out_of_order}[what](history, at)
    yield from around("The records around it, by time and number:", history.records, at)
    if what == "wrong value" and history.records[0].key[0] == history.records[-1].key[0]:
        yield from another_order(history.records, at, history.opening, named(opening))


def named(opening):
    """The words that name the file of an opening, if there is one."""
    return ["--opening", opening] if opening else []


def fault_of(*words):
    """What the program says of a text: None, or the line and the kind, as `line 6: 8 BadInstruction`."""
    try:
        program.run(*words)
    except Refused as refused:
        return str(refused).removeprefix("opening: ")
    return None


def explained(paths, opening=None, complete=False):
    """The lines that explain the files, and whether something is wrong."""
    texts = [text_of(path) for path in paths]
    words = text_of(opening) if opening else b""
    fault = opening and fault_of("check", *named(opening), "/dev/null", "/dev/null")
    if fault:
        return explained_text(opening, words, fault, "opening"), True
    is_test = len(paths) == 1 and (paths[0].endswith(".litmus") or b"{" in texts[0] and not paths[0].endswith(".trace"))
    fault = fault_of(*(["litmus", "--limit", "1", paths[0]] if is_test else ["check", paths[0], "/dev/null"]))
    if fault:
        return explained_text(paths[0], texts[0], fault, "test" if is_test else "trace"), True
    if len(paths) == 1:
        warnings = litmus_hints.warnings(texts[0].decode("ascii")) if is_test else []
        return [f"{paths[0]}: nothing is wrong with this text", *(f"  but {one}" for one in warnings)], False
    try:
        lines = list(explained_records(paths, texts, opening, complete))
    except Refused as refused:
        return explained_text(paths[1], texts[1], str(refused), "records"), True
    return lines, lines[0] != "legal"


def files(given):
    """The options and files of a command line without a run."""
    about = argparse.ArgumentParser(allow_abbrev=False, add_help=False)
    about.error = lambda message: fail(f"{message} (--help tells all)")
    about.add_argument("--complete", action="store_true")
    about.add_argument("--opening")
    about.add_argument("--json", action="store_true")  # of a command line: what is explained is the same
    about.add_argument("FILES", nargs="*")
    options = about.parse_intermixed_args(given)
    if len(options.FILES) not in ((2,) if options.opening or options.complete else (1, 2)):
        fail("one file is wanted, or a trace and records, or -- and a command line (--help tells all)")
    return options.FILES, options.opening, options.complete


def main(given):
    if given in (["-h"], ["--help"]):
        print(__doc__)
        return 0
    is_run = given[:1] == ["--"]
    if given[:2] == ["--", "check"]:
        is_run, given = False, given[2:]
    lines, is_wrong = explained_run(given[1:]) if is_run else explained(*files(given))
    print("\n".join(lines))
    return int(is_wrong)


if __name__ == "__main__":
    tool(main)
