#!/usr/bin/env python3
"""Says which definitions of the tables no text names that would refuse a change of them: maintain/reached.py [--check]

A definition and its code may be changed alike, and every proof still pass. So the examples of crates/play_events/data
and crates/play_seats/data say what they refuse, in comments `# refuses: FILE.DEFINITION: WORDS`. FILE is a file of the
tables' specs/. A comment counts if it is in an example that expects an answer. The script doesn't try whether that
answer changes with the definition. A change of any other definition is refused by a law, or by nothing. With --check
the status is 1 if a comment names a definition that doesn't exist, or is where no answer is expected, or if
a file of the tables isn't there.
"""
import re
import sys
from pathlib import Path

TOP = Path(__file__).resolve().parent.parent
TABLES = {
    "core_pts": "CoreTable OnCopy", "private_cache": "CopyTable", "timestamp_manager": "Lease", "dram_mts": "Table",
    "llc_bank": "BankTable OnEntry", "network": "Mail", "machine_table": "Machine Opening Posted SetUp Step Transition",
    "interleaving_core": "LookUps", "machine_theorem": "Coherence Service", "inbox": "Serving",
    "mailboxes": "Attempts BankCalls BankServing BoxMoves CoreServing Evictions PartServing Places Turns",
    "closed_machine": "Sending",
    "programs": "Acts", "schedules": "Parts Policies RoundSchedule Runs SeedSchedule",
}
NAMES = re.compile(r"^\s*(?:(?:pub|abbrev|unfoldable|opaque|data|record)\s+)*([^\s:(){},=]+)\s*(?:\{[^}]*\}\s*)*:(?=\s)", re.M)
REFUSES = re.compile(r"# refuses: (\S+?):? ")
EXAMPLE = re.compile(r"^(?=example )", re.M)
WANTED = re.compile(r"^[^#\n]* : \S", re.M)


def gone():
    """The files that the tables name and that aren't there."""
    return [f"{crate}/specs/{name}.antt" for crate, names in TABLES.items() for name in names.split()
            if not (TOP / "crates" / crate / "specs" / f"{name}.antt").exists()]


def defined(tables):
    """The definitions of the tables, or of all files, as FILE.NAME."""
    for path in sorted((TOP / "crates").glob("*/specs/*.antt")):
        if tables is None or path.stem in tables.get(path.parts[-3], "").split():
            for name in NAMES.findall(path.read_text()):
                yield f"{path.stem}.{name}"


def comments():
    """The text of each comment, the definition that it names, and whether it stands in an example with an answer."""
    for path in sorted((TOP / "crates").glob("play_*/data/*")):
        for example in EXAMPLE.split(path.read_text()):
            is_example = example.startswith("example ") and WANTED.search(example) is not None
            yield from ((path.name, name, is_example) for name in REFUSES.findall(example))


def main():
    named, known, faults = set(), set(defined(None)), len(gone())
    print("".join(f"no such file: {file}\n" for file in gone()), end="")
    for text, name, is_example in comments():
        if name in known and is_example:
            named.add(name)
            continue
        faults += 1
        print(f"{text}: " + (f"no answer is wanted beside {name}" if name in known else f"nothing defines {name}"))
    tables = dict.fromkeys(defined(TABLES))
    if "--check" not in sys.argv:
        for name in tables:
            if name not in named:
                print(f"no text refuses a change of {name}")
    print(f"{len(tables.keys() & named)} of {len(tables)} definitions of the tables are named by texts")
    sys.exit(1 if faults and "--check" in sys.argv else 0)


if __name__ == "__main__":
    if sys.argv[1:2] in (["-h"], ["--help"]):
        raise SystemExit(print(__doc__))
    main()
