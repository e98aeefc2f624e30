#!/usr/bin/env python3
"""Writes a trace anew, with an advance after each N operations of a core.

    tools/advance.py [--whole-words] N TRACE > NEW.trace

TRACE is a file, or - for standard input.

A core that waits for a word loads it again and again. These loads don't advance its time, so it may read its old copy
for ever; advances do (docs/REAL-TRACES.md). The new trace is of form 2 (docs/TEXTS.md). It keeps comments and the
advances of TRACE, which count as no operation. N may be 0: then the script adds no advance.

With --whole-words an operation may be on any bytes. ADDR is a byte address, as 0x1006, and may have a count of bytes
after it, as 0x1006:4. The line becomes one for each word of 8 bytes that has some of these bytes, with the same value.

The status is 0 if the script wrote the trace, and 2 if not; then standard error says why in one line.
"""
import re
import sys
from pathlib import Path

sys.path.insert(0, str(Path(__file__).resolve().parent.parent))
from reference.given import Bad, Words, contents, tool  # noqa: E402
from reference.schedules import ADVANCE  # noqa: E402
from reference.traces import BAD_ADDRESS, LINES, Fault, form_of, lines_with_fields, trace_step  # noqa: E402
from tools.program import TOP  # noqa: E402


WORD, BYTES = 8, 2 ** 64
ACCESS = re.compile(rb"0x([0-9a-f]{1,16})(?::([1-9][0-9]{0,3}))?")


def in_whole_words(line, fields):
    """The lines that an operation on any bytes becomes, each with its fields. Another line stays as it is."""
    found = ACCESS.fullmatch(fields.left[2]) if len(fields.left) > 2 else None
    first = int(found[1], 16) if found else 0
    end = first + int(found[2] or 1) if found else 0
    if not first < end <= BYTES:
        return [(line, fields)]
    # No sign of the address stands before it.
    lines = [line.replace(found[0], b"%#x" % word, 1) for word in range(first - first % WORD, end, WORD)]
    return [(each, moved(each, fields.line)) for each in lines]


def moved(line, number):
    """The fields of a line, as those of the line of this number."""
    fields = next(lines_with_fields(line))
    fields.line = number
    return fields


def advanced(text, after, whole_words=False):
    """The lines of the new trace. A text with a fault ends in `Fault`, with its line in this text."""
    with_fields = {fields.line: fields for fields in lines_with_fields(text)}
    form, done = None, {}
    for number, line in enumerate(text.removesuffix(b"\n").split(b"\n") if text else [], 1):
        fields = with_fields.get(number)
        if fields is not None and form is None:
            form = form_of(fields)
            if form == 1 and after:
                yield b"trace 2"
            fields = fields if form == 1 else None
        if fields is None:
            yield line
            continue
        for each, its_fields in in_whole_words(line, fields) if whole_words else [(line, fields)]:
            core, step = trace_step(its_fields, form)
            yield each
            done[core] = done.get(core, 0) + (step != ADVANCE)
            if after and step != ADVANCE and done[core] % after == 0:
                yield b"%d A" % core


def new_trace(path, after, whole_words=False):
    """The text of the new trace."""
    try:
        lines = list(advanced(sys.stdin.buffer.read() if path == "-" else contents(path), after, whole_words))
    except Fault as fault:
        hint = " (--whole-words rounds addresses)" if fault.kind == BAD_ADDRESS and not whole_words else ""
        raise Bad(f"{path}: {fault}{hint}") from None
    if len(lines) > LINES:
        raise Bad(f"{path}: the new trace has {len(lines)} lines, and a trace has at most {LINES}")
    return b"".join(line + b"\n" for line in lines)


def main(given):
    words = Words(__doc__)
    words.add_argument("N", type=int, help="how many operations of a core lie between two advances; 0 for no advance")
    words.add_argument("TRACE", help="a trace, as docs/TEXTS.md has it, or - for standard input")
    words.add_argument("--whole-words", action="store_true", help="an operation on any bytes becomes some on words")
    options = words.parse_args(given)
    if options.N < 0:
        raise Bad("N isn't a number from 0 on")
    sys.stdout.buffer.write(new_trace(options.TRACE, options.N, options.whole_words))


if __name__ == "__main__":
    tool(main)
