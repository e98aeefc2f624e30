from reference.calls import OPTIONS
from reference.told import Teller, step
from reference.traces import record_line
"""Drives as examples of docs/EVENTS.md: machines, programs, events and what is asked at the end."""

# The column of the answers, and the most columns of a line.
COLUMN, COLUMNS = 28, 119


def line(call, answer, note=""):
    """A call with its answer, and a comment."""
    text = f"{call:<{COLUMN}} : {answer}"
    return f"{text}  # {note}" if note else text


def machine_line(options):
    """Opens a machine; the options are those that a machine doesn't have by default."""
    words = [f"{name} {value}" for name, value in options.items() if value != OPTIONS[name][0]]
    return line(" ".join(["machine", *words]).replace("True", "yes"), "opened")


def program_lines(programs):
    for core, steps in enumerate(programs):
        if steps:
            yield line(f"program {core} {'; '.join(map(step, steps))}", "given")


def made_lines(machine, turns, note):
    """The events of a drive, as many turns a line as fit. `turns` has lists of events, and `note` tells of the number
    of a line's first turn and of that behind its last one what the comment says."""
    first, texts = 0, []

    def full(last, events):
        return line(f"made {len(events)}", "; ".join(events), note(first, last))

    for number, turn in enumerate(turns):
        more = texts + list(map(Teller(machine).event, turn))
        if texts and len(full(number + 1, more)) > COLUMNS:
            yield full(number, texts)
            first, more = number, more[len(texts):]
        texts = more
    if texts:
        yield full(len(turns), texts)
    yield line("made 1", "end")


def record_lines(records, first=0):
    """How many records there are, those from a number on, and that they are legal."""
    yield line("records", len(records))
    yield from (line(f"record {record.number}", record_line(record)) for record in records[first:])
    yield line("check", "legal")


def list_of_events(run, end, seed):
    """One event a line; a comment says the seed and the end."""
    lines = [f"# seed {seed}: {end} after {run.turns} turns, {len(run.made)} events"]
    lines += [Teller(run.machine).event(event) for event, _ in run.made]
    return "".join(line + "\n" for line in lines)
