#!/usr/bin/env python3
"""Lists each place of the production crates that answers a failed allocation by itself, and doesn't pass on what an
allocation answered by `?` or by an arm such as `Err(AllocError) => Err(..)`. Each place that drops an error and goes
on (`let Ok(..) =`, `Err(_)`, `.is_err()`, `.unwrap_or(..)`) is listed, too, each that counts a failed read or write
(`.rise()`), and each that makes a thread sleep.

    maintain/memory.py            lists them: file, function, and the blocks around the answer
    maintain/memory.py --check    compares them with tests/memory.table, and fails if they differ

No contract can say that an allocation, a read or a write really failed. So a place that answers so by itself needs a
reason, which the table has. A place that isn't there might be one that gives up past some size. So might one that asks
for too much, or for nothing: each amount is listed, also one that is handed to a part's `new`, with what its function
binds to the names in it, unless it is a number or the length of a list.
"""
import re
import sys
from collections import Counter
from pathlib import Path

TOP = Path(__file__).resolve().parent.parent
TABLE = TOP / "tests/memory.table"
NOT_PRODUCTION = ("test_", "bench", "play_", "event_text", "guide_uses")
WANT = (r"(?:\bAllocError\b|\bAllocFailed\b(?!<)|\b(?:ReadError::Memory|Stop::(?:NoPlace|Refused)|"
        r"[A-Z]\w*::NoMemory)\b|\bErr\(NoMemory\)|= NoMemory;|\.rise\(\))")
PASSED_ON = re.compile(r"\s*(?:Err\()?(?:AllocError|(?:\w+::)+(?:NoMemory|Memory))\)?\s*")
GOES_ON = re.compile(r"\s*(?:Some\()?Err\(AllocError\)+ => (?!(?:return )?Err\(|\w+\(Err\(|.*NoMemory)|"
                     r".*(?:\bErr\(_\w*\)|\.(?:ok|is_err|is_ok|unwrap_or\w*)\(|\blet Ok\(|\b(?:yield_now|sleep)\()")
SKIPPED = re.compile(r"\s*(ghost |ensures\b|requires\b|impl\b|\) ->|[^=]*[≡≢])")
CALL = re.compile(r"(?<!fn )\b(?:reserve|with_capacity|from_elem|new_result_list)\w*(?:::<.*?>)?(?=\()|\bvec!(?=\[in )|"
                  r"\b(?:(?:RankedLines|Blocks)::of|(?:Arena|Chains|Cells|Rows|LineSets|LanePlaces)::new)(?=\()")
BOUND = re.compile(r"\s*(?:let (?P<pattern>.*?)(?:: .*?)?|(?P<name>\w+)) [-+*/%&|^<>]*=(?!=)")
PLAIN = re.compile(r"(?:[\d_]+|(?:\w+\.)+len\(\))(?: as usize)?")
IMPORT = re.compile(r"\s*(pub )?use ")
FUNCTION = re.compile(r"\s*(?:pub(?:\(crate\))? )?(?:const )?fn (\w+)")
TYPES = re.compile(r"Result<[^;{]*?AllocError>|#\[.*\]")
PATTERNS = re.compile(r"matches!\([^,]*, [^)]*\)*|if let [^=]* =")
ROW = re.compile(r"(\w+/src/[\w/]+\.rt) \| (\w+|-) \| (.+) \| \S")


def answers(line):
    """How many times a line answers a failed allocation by itself."""
    if IMPORT.match(line):
        return len(re.findall(WANT + " as ", line))
    if SKIPPED.match(line):
        return 0
    line = PATTERNS.sub("", TYPES.sub("", line))
    if re.match(r"\s*let |.*\bfn ", line):
        line = re.sub(r"(: |-> )AllocError\b", "", line)
    pattern, arrow, value = line.partition("=>")
    if not arrow:
        return len(re.findall(WANT, line))
    return 0 if PASSED_ON.fullmatch(pattern) else len(re.findall(WANT, value))


def amount_of(line, at):
    """The last argument of the call whose parenthesis opens there; `..`, if the call doesn't end in the line."""
    depth, begun = 0, at + 1
    for end in range(at, len(line)):
        depth += (line[end] in "([{") - (line[end] in ")]}")
        if depth == 0:
            return line[begun:end].strip()
        if depth == 1 and line[end] in ",;":
            begun = end + 1
    return ".."


class Names:
    """The lines of a function that bind names or change what they are bound to."""

    def __init__(self):
        self.bound, self.whole = {}, True

    def bind(self, line, depth):
        if not self.whole:
            self.last[0] += " " + line
            self.whole = depth <= self.depth
            return
        binds = BOUND.match(line)
        self.whole, self.depth, self.last = not binds or line.endswith(";"), depth, [line]
        for name in re.findall(r"\w+", (binds["pattern"] or binds["name"]) if binds else ""):
            self.bound.setdefault(name, []).append(self.last)

    def amounts(self, line):
        """What the line asks room for by amounts that aren't plain, each behind what binds the names in it."""
        for call in CALL.finditer(line):
            amount = amount_of(line, call.end())
            if amount and not PLAIN.fullmatch(amount):
                lines, names = [], re.findall(r"\w+", amount)
                for name in names:
                    for each in self.bound.get(name, ()):
                        if each not in lines:
                            lines.append(each)
                            names.extend(re.findall(r"\w+", each[0]))
                yield " > ".join([*(each for each, in reversed(lines)), line])


def answers_of(text):
    """The places of a source file, as (function, code, whether it only drops an error): the code is the blocks around
    the answer, from the outermost of the function on, and the answer's own line."""
    function, around, names = "-", [], Names()
    for line in text.splitlines():
        line = re.sub(r"//.*", "", line).rstrip()
        if not line or SKIPPED.match(line):
            continue
        depth = len(line) - len(line.lstrip())
        around = [each for each in around if each[0] < depth]
        named = FUNCTION.match(line)
        if named:
            function, around, names = named.group(1), [], Names()
        for amount in names.amounts(line.strip()):
            yield function, amount, False
        names.bind(line.strip(), depth)
        own = [] if re.match(r"\s*return\b", line) else [line.strip().removesuffix(" {")]
        code = " > ".join([code for _, code in around] + own)
        for _ in range(answers(line)):
            yield function, code, False
        if not answers(line) and GOES_ON.match(line):
            yield function, code, True
        if line.endswith(" {") and not named and line.strip() != "{":
            around.append((depth, line.strip().removesuffix(" {")))


def places_of(text):
    """The places of a source file. One that drops an error is left out if an answer behind it is listed."""
    found = list(answers_of(text))
    told = [(function, code + " > ") for function, code, drops in found if not drops]
    for function, code, drops in found:
        if not drops or not any(name == function and each.startswith(code + " > ") for name, each in told):
            yield function, code


def places():
    """The places of all production crates, as (file, function, code), each with how many there are."""
    found = Counter()
    for file in sorted((TOP / "crates").glob("*/src/**/*.rt")):
        name = file.relative_to(TOP / "crates")
        if not name.parts[0].startswith(NOT_PRODUCTION):
            found.update((str(name), *place) for place in places_of(file.read_text(encoding="utf-8")))
    return found


def listed():
    """The places of the table."""
    rows = [ROW.match(line) for line in TABLE.read_text(encoding="utf-8").splitlines()]
    return Counter(row.groups() for row in rows if row)


def main():
    found = places()
    if sys.argv[1:] != ["--check"]:
        for place in found.elements():
            print(" ".join(place))
        return
    wanted = listed()
    for place in sorted(found.keys() | wanted.keys()):
        if found[place] != wanted[place]:
            print(f"memory.py: {' '.join(place)}: there are {found[place]} such places, and tests/memory.table has "
                  f"{wanted[place]}")
    if found != wanted or not found:
        raise SystemExit(1)
    print(f"{sum(found.values())} places, each with its reason in tests/memory.table")


if sys.argv[1:2] in (["-h"], ["--help"]):
    raise SystemExit(print(__doc__))
main()
