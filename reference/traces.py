"""The texts of traces, of records and of openings, as docs/TEXTS.md has them, with their faults; texts are bytes."""
import re

from reference.machine import Record
from reference.schedules import ADVANCE


LINES, BYTES = 16_777_216, 256
KINDS = {3: "TooLong", 4: "BadCore", 5: "BadOperation", 6: "BadAddress", 7: "BadValue", 8: "ExtraWords", 9: "BadForm",
         10: "DoubleWord"}
LETTERS = {b"R": "load", b"W": "store", b"S": "swap"}
TOO_LONG, BAD_CORE, BAD_OPERATION, BAD_ADDRESS, BAD_VALUE, EXTRA_WORDS, BAD_FORM, DOUBLE_WORD = KINDS


class Fault(Exception):
    """The first fault of a text: its line, from 1, and its kind."""

    def __init__(self, line, kind):
        super().__init__(f"line {line}: {kind} {KINDS[kind]}")
        self.line, self.kind = line, kind
        self.written = ""  # what was written before, of a text that is run as it is read


class Fields:
    """The fields of a line, taken from the left."""

    def __init__(self, line, fields):
        self.line, self.left = line, list(fields)

    def fault(self, kind):
        raise Fault(self.line, kind)

    def take(self, kind, pattern):
        """The next field; it is of this kind where it is missing or has another form."""
        if not self.left or not re.fullmatch(pattern, self.left[0]):
            self.fault(kind)
        return self.left.pop(0)

    def number(self, kind, pattern, most):
        number = int(self.take(kind, pattern))
        if number > most:
            self.fault(kind)
        return number

    def core(self, most):
        return self.number(BAD_CORE, rb"[0-9]{1,2}", most)

    def value(self, bits=64):
        return self.number(BAD_VALUE, rb"[0-9]{1,20}", 2 ** bits - 1)

    def word(self):
        byte = int(self.take(BAD_ADDRESS, rb"0x[0-9a-f]{1,16}"), 16)
        if byte % 8:
            self.fault(BAD_ADDRESS)
        return byte // 8

    def letter(self, letters):
        return self.take(BAD_OPERATION, rb"[" + letters + rb"]")

    def end(self):
        if self.left:
            self.fault(EXTRA_WORDS)


def lines_with_fields(text, most=LINES):
    """Each line that has fields. `most` is the last line that a text may have, if there is one. A line's length is
    tested before its fields, with its comment."""
    lines = text.split(b"\n")
    if not lines[-1]:
        lines.pop()
    for number, line in enumerate(lines, 1):
        if most and number > most or len(line) > BYTES:
            raise Fault(number, TOO_LONG)
        fields = [field for field in re.split(rb"[ \t]", line.split(b"#")[0]) if field]
        if fields:
            yield Fields(number, fields)


class Trace:
    """Steps by core. `steps[c]` has core c's operations and advances in their order."""

    def __init__(self, text):
        self.take(list(steps_in(text)))

    def take(self, listed):
        """Takes steps with their lines and cores, in the order of a text."""
        self.cores = max((core for _, core, _ in listed), default=0) + 1
        self.steps = [[] for _ in range(self.cores)]
        for _, core, step in listed:
            self.steps[core].append(step)

    def issued(self):
        return [[step for step in steps if step != ADVANCE] for steps in self.steps]

    def words(self):
        return sorted({word for operations in self.issued() for _, word, _ in operations})

    def programs(self):
        return [Steps(steps) for steps in self.steps]


def steps_in(text, most=LINES):
    """Each step of a text, behind the number of its line and its core."""
    form = None
    for fields in lines_with_fields(text, most):
        if form is None:
            form = form_of(fields)
            if form == 2:
                continue
        yield fields.line, *trace_step(fields, form)


def form_of(fields):
    """1 or 2, by the first line with fields."""
    if fields.left[0] != b"trace":
        return 1
    if fields.left[1:2] != [b"2"]:
        fields.fault(BAD_FORM)
    fields.left = fields.left[2:]
    fields.end()
    return 2


def trace_step(fields, form):
    core = fields.core(63 if form == 2 else 15)
    letter = fields.letter(b"RWSA" if form == 2 else b"RWS")
    step = ADVANCE
    if letter != b"A":
        word = fields.word()
        step = LETTERS[letter], word, None if letter == b"R" else fields.value()
    fields.end()
    return core, step


def read_records(text):
    """The records in the order in which they are written."""
    records = []
    for fields in lines_with_fields(text):
        core, place = fields.core(63), fields.value(32)
        letter = fields.letter(b"RWS")
        word = fields.word()
        value = None if letter == b"R" else fields.value()
        received = None if letter == b"W" else fields.value()
        time, number = fields.value(), fields.value()
        fields.end()
        records.append(Record(core, place, LETTERS[letter], word, value, received, time, number))
    return records


def read_opening(text):
    """The words, each with its value at first."""
    opening = {}
    for fields in lines_with_fields(text):
        word, value = fields.word(), fields.value()
        fields.end()
        if word in opening:
            fields.fault(DOUBLE_WORD)
        opening[word] = value
    return opening


def record_line(record):
    letter = {kind: letter.decode() for letter, kind in LETTERS.items()}[record.kind]
    told = [record.core, record.place, letter, f"{8 * record.word:#x}", record.value, record.received, record.time,
            record.number]
    return " ".join(str(field) for field in told if field is not None)


class Steps:
    """A program that is a list of steps."""

    def __init__(self, steps):
        self.steps, self.at = steps, 0

    def next(self):
        return self.steps[self.at] if self.at < len(self.steps) else None

    def done(self, _):
        self.at += 1
