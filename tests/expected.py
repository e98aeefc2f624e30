#!/usr/bin/env python3
"""Writes what the examples must print by reference/oracle.py, or says what differs from it.

    tests/expected.py            writes the .report of each litmus test and trace, the .seeds and the .also of each
                                    test of the catalogue (litmus/), and the .records and .also of each trace
    tests/expected.py --check    says which of these files differ, and fails if one does

The options of an example are in its text: in a litmus test in the header line `options=..`, in a trace in the comment
line `# options= ..`. A .seeds is the report on the seeds 0 to 999. A .also is there for a test with a header line
`also=..`: it is the report with these options. For a trace with a comment line `# also= ..` it has the records. Every
end state of the catalogue must be one that plain enumeration finds (sequential.py). Each trace's records must be legal.
The tables (bad/traces.table, bad/records.table, bad/openings.table, lines.table, verdicts.table, complete.table,
opening.table) are written by hand: the script also reports a row that the oracle answers otherwise.
"""
import re
import sys
from pathlib import Path

sys.path.insert(0, str(Path(__file__).resolve().parent.parent))
from reference import oracle, sequential  # noqa: E402
from reference.litmus import Test  # noqa: E402
from reference.order import check, first_lack  # noqa: E402
from reference.reports import trace_report  # noqa: E402
from reference.traces import Fault, Trace, read_opening, read_records  # noqa: E402


FOLDER = Path(__file__).resolve().parent.parent / "examples"
SEEDS = ["--schedule", "seed", "--runs", "1000"]


def options_of(path, name=b"options"):
    found = re.search(rb"^(?:# )?" + name + rb"=(.*)$", path.read_bytes(), re.M)
    return found[1].decode("ascii").split() if found else []


def wanted():
    """Each file with the text that it must have."""
    def text(*given):
        return oracle.run(oracle.words().parse_args([*map(str, given)]))[0]

    for path in sorted([*FOLDER.glob("litmus/*.litmus"), *FOLDER.glob("settings/*.litmus")]):
        yield path.with_suffix(".report"), text("litmus", *options_of(path), path)
    for path in sorted(FOLDER.glob("litmus/*.litmus")):
        yield path.with_suffix(".seeds"), text("litmus", *SEEDS, path)
        if options_of(path, b"also"):
            yield path.with_suffix(".also"), text("litmus", *options_of(path, b"also"), path)
    for path in sorted(FOLDER.glob("traces/*.trace")):
        yield path.with_suffix(".report"), text("trace", *options_of(path), path)
        yield path.with_suffix(".records"), text("trace", "--records", *options_of(path), path)
        if options_of(path, b"also"):
            yield path.with_suffix(".also"), text("trace", "--records", *options_of(path, b"also"), path)


def rows(name):
    """The rows of a table, with their line's number: the expected words, and the texts as bytes."""
    for number, line in enumerate((FOLDER / name).read_text(encoding="ascii").splitlines(), 1):
        if not line.startswith("#"):
            words, *texts = line.split("|")
            yield number, words, [printed(text) for text in texts]


def printed(text):
    """What `printf %b` makes of a text: line feeds, tabs, carriage returns and bytes in octal."""
    signs = {"n": "\n", "t": "\t", "r": "\r"}
    found = re.sub(r"\\(?:([ntr])|0([0-7]{3}))", lambda m: signs[m[1]] if m[1] else chr(int(m[2], 8)), text)
    return found.encode("latin-1")


def said_of(reader, *texts):
    """The fault that a reader reports, or what it answers."""
    try:
        return reader(*texts)
    except Fault as fault:
        return str(fault)


def states_in(report):
    """The lines of a report's end states, without how often each occurred."""
    lines = report.read_text(encoding="ascii").splitlines()
    start = next(place for place, line in enumerate(lines) if line.startswith("states "))
    return [line.split(" ", 1)[1] for line in lines[start + 1:start + 1 + int(lines[start].split()[1])]]


def impossible_states():
    """The end states of the catalogue's reports that no interleaving has."""
    for path in sorted(FOLDER.glob("litmus/*.litmus")):
        ends = {sequential.text_of(end) for end in sequential.ends_of(Test(path.read_text(encoding="ascii")))}
        for report in filter(Path.exists, map(path.with_suffix, (".report", ".seeds", ".also"))):
            for state in states_in(report):
                if state not in ends:
                    yield f"{report.relative_to(FOLDER)}: no interleaving ends with {state}"


def records_of(trace):
    """The records of a trace's run by rounds."""
    options = oracle.words().parse_args(["trace", "--records", "-"])
    return trace_report(Trace(trace), options, None, lambda *_: None)[0]


def differing_rows():
    def verdict(trace, records):
        return check({}, Trace(trace).issued(), read_records(records))

    def complete(trace, records):
        said = verdict(trace, records)
        return said if said != "legal" else first_lack(Trace(trace).issued(), read_records(records)) or said

    def opened(opening, trace, records):
        return check(read_opening(opening), Trace(trace).issued(), read_records(records))

    for path in sorted(FOLDER.glob("traces/*.trace")):
        said = said_of(verdict, path.read_bytes(), path.with_suffix(".records").read_bytes())
        if said != "legal":
            yield f"{path.relative_to(FOLDER)} and its records: {said}"
    for name, reader in (("bad/traces.table", Trace), ("bad/records.table", read_records), ("verdicts.table", verdict),
                         ("complete.table", complete), ("opening.table", opened), ("bad/openings.table", read_opening)):
        for number, words, texts in rows(name):
            said = f"{'opening: ' * name.endswith('openings.table')}{said_of(reader, *texts)}"
            if said != words:
                yield f"{name}, line {number}: {words} wanted, {said} is said"
    for number, records, texts in rows("lines.table"):
        said = said_of(records_of, *texts)
        if said != printed(records).decode("ascii"):
            yield f"lines.table, line {number}: {records} wanted, {said!r} is said"


def differing_files(write):
    for path, text in wanted():
        if not path.exists() or path.read_bytes() != text.encode("ascii"):
            yield f"{path.relative_to(FOLDER)} {'is written' if write else 'differs'}"
            if write:
                path.write_bytes(text.encode("ascii"))


def main(write):
    files = list(differing_files(write))
    tables = [*differing_rows(), *impossible_states()]
    print("\n".join(files + tables) or "nothing differs")
    return int(bool(tables or files and not write))


if __name__ == "__main__":
    if sys.argv[1:2] in (["-h"], ["--help"]):
        raise SystemExit(print(__doc__))
    oracle.test_generator()
    sys.exit(main(sys.argv[1:] != ["--check"]))
