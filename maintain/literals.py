#!/usr/bin/env python3
"""Counts the numbers from 2 on that the code of the production crates has, and what stands for one: uses of constants
that are numbers or structures (with what is added to one), casts to fewer bits, `try_from` and `try_into`, the types
i8, i16 and u16, shifts, what tells a number by its bits (`is_power_of_two`, `trailing_zeros`), the ends of signed types
and of usize, and room that doesn't double (`reserve_exact`, `shrink_to`). It also counts steps on shared words (`load`,
`swap`, `fetch_add`), such words of the host (`AtomicU64`), whether a seat changes (`if changes`), and what makes a
thread wait (`yield_now`, `spin_loop`, `sleep`, `park`). And it counts what may make a size without a number:
`checked_add` and its like, `collect`, `repeat`, `resize`, `truncate`, `forget`, `pow`, `skip`, `step_by`, the bytes of
a number, a byte character that is cast, converted or behind an operator, the length of a text, `!0`, `1 + 1`, and
`let _` of what may be refused. It also counts impls by hand of std's traits that `derive` writes, but for `Drop`.

    maintain/literals.py            lists them: crate, number or other sign, how often
    maintain/literals.py --check    compares them with tests/literals.table, and fails if they differ

A body that does something else past some size may meet each clause, but needs one of these for it. So each has its
reason in the table, and one more, or another one, fails. Clauses, imports, comments, texts, attributes but
`#[error(..)]` and the numbers of errors (`Kind::BadTable => 7,`) don't count. `u8::MAX` counts as 255, and so does
`u8::BITS`.
"""
import re
import sys
from collections import Counter
from pathlib import Path

TOP = Path(__file__).resolve().parent.parent
TABLE = TOP / "tests/literals.table"
NOT_PRODUCTION = ("test_", "bench", "play_", "event_text", "guide_uses")
TEXT = r"//.*|b?'(?:\\.|[^'\\])'|\"(?:\\[^']|[^\"\\])*\""
QUIET = re.compile(TEXT + r"|#!?\[(?!error\b)[^]]*\]|(?:Kind|Refusal|\w+Error)::\w+(?:\(_\))? => \d\d?,")
IMPORT = re.compile(r"\buse [^;]*;")
CLAUSE = re.compile(r"\b(?:ensures|requires)\b[^{]*\{|\bghost [^;{]*[;{]")
NUMBER = re.compile(r"(?<!\w)(?<!(?<!\.)\.)(0[xbo][\da-fA-F_]+|\d[\d_]*?)(?:_?[ui](?:8|16|32|64|128|size))?(?!\w)")
GREATEST = re.compile(r"\bu(8|16|32|64|128)::(?:MAX|BITS)\b")
CONSTANT = re.compile(r"\bconst (\w+): (?:\w+ = \d|(\w+) = \2 \{)")
SIGN = re.compile(r"\b(?:reserve_exact|shrink_to(?:_fit)?)\b|\bas [iu](?:8|16|32)\b|\btry_(?:from|into)\b|\b(?:i8|[iu]16)\b|"
                  r"\b(?:i\w+|usize)::(?:MAX|MIN|BITS)\b|(?<=\s)(?:<<|>>)(?==?\s)|\b(?:load|swap|fetch_\w+)(?=::<)|"
                  r"\b(?:yield_now|spin_loop|sleep|park\w*|wake_\w+|Atomic\w+|if changes)\b|\bchange_\w+_if(?=\()|"
                  r"\b(?:is_(?:power|multiple)_of\w*|\w+_(?:zeros|ones)|ilog\w*)(?=\(\w*\))|!\d+|\b1 [+*] 1\b|"
                  r"\b(?:(?:checked|overflowing|saturating|wrapping)_\w+|to_[bln]e_bytes|collect|repeat|resize|"
                  r"truncate|forget|pow|skip|step_by)(?=[(:])|\blet _\w*(?=(?:: [^=;]*)? = [^;{]*\?;)")
OF_TEXT = re.compile(r"b'(?:\\.|[^'\\])'(?= as )|(?:\bfrom\(|[-+*/%] )b'|\"\s*\.len\(\)")
BY_HAND = re.compile(r"\b(impl)\b[^{;]*?\b(Clone|Copy|Debug|Default|Eq|Hash|Ord|PartialEq|PartialOrd)(?:<[^{;]*>)? for")
ROW = re.compile(r"(\w+) \| ([\w <>:+-]+) \| (\d+) \| \S")


def past_brace(text, at):
    """The end of the block whose first brace lies before the place `at`."""
    depth = 1
    while depth:
        depth += {"{": 1, "}": -1}.get(text[at], 0)
        at += 1
    return at


def without_clauses(text):
    """The code of a source file without what it says of itself."""
    kept, at = [], 0
    while clause := CLAUSE.search(text, at):
        kept.append(text[at:clause.start()])
        at = clause.end() if clause.group().endswith(";") else past_brace(text, clause.end())
    return "".join(kept) + text[at:]


def production():
    """The code of the production crates, as (crate, code of a file, what its texts and byte characters stand for)."""
    for file in sorted((TOP / "crates").glob("*/src/**/*.rt")):
        crate = file.relative_to(TOP / "crates").parts[0]
        if not crate.startswith(NOT_PRODUCTION):
            text = file.read_text(encoding="utf-8")
            spoken = re.sub(TEXT, lambda part: "" if part[0].startswith("//") else part[0], text)
            told = ["length of a text" if each.endswith(")") else "byte character" for each in OF_TEXT.findall(spoken)]
            yield crate, IMPORT.sub("", without_clauses(QUIET.sub(" ", text))), told


def numbers():
    """The numbers and other signs of all production crates, as (crate, what), each with how often it stands there."""
    files, found = list(production()), Counter()
    names = "|".join({name for _, code, _ in files for name, _ in CONSTANT.findall(code)})
    for crate, code, told in files:
        written = [int(each.replace("_", ""), 0) for each in NUMBER.findall(code)]
        written += [2 ** int(bits) - 1 for bits in GREATEST.findall(code)]
        signs = told + SIGN.findall(code) + re.findall(rf"(?<!const )\b(?:{names})\b(?: [-+] \d+)?", code)
        signs += map(" ".join, BY_HAND.findall(code))
        found.update((crate, str(each)) for each in [*filter(lambda each: each > 1, written), *signs])
    return found


def narrowed():
    """The files of measurements and players that have a cast to fewer bits: there should be none."""
    for crate in ("bench", "play_", "event_text"):
        for file in sorted((TOP / "crates").glob(f"{crate}*/src/**/*.rt")):
            if re.search(r"\bas [iu](?:8|16|32)\b", QUIET.sub(" ", file.read_text(encoding="utf-8"))):
                yield file


def main():
    for file in narrowed():
        raise SystemExit(f"literals.py: {file}: a cast to fewer bits")
    found = numbers()
    if sys.argv[1:] != ["--check"]:
        for (crate, what), count in sorted(found.items()):
            print(f"{crate} | {what} | {count}")
        return
    rows = [ROW.match(line) for line in TABLE.read_text(encoding="utf-8").splitlines()]
    wanted = Counter({(row[1], row[2]): int(row[3]) for row in rows if row})
    for crate, what in sorted(found.keys() | wanted.keys()):
        count, listed = found[crate, what], wanted[crate, what]
        if count != listed:
            print(f"literals.py: {what} stands {count} times in the code of {crate}, and {listed} times in "
                  "tests/literals.table")
    if found != wanted or not found:
        raise SystemExit(1)
    print(f"{sum(found.values())} numbers from 2 on and signs for one, each with its reason in tests/literals.table")


if sys.argv[1:2] in (["-h"], ["--help"]):
    raise SystemExit(print(__doc__))
main()
