"""Reports as logs in the form of litmus7, which mcompare7 reads, for tools/from_herd.py."""
import re

from tools.program import fail, text_of

ASKED = {"exists": "Allowed", "~exists": "Forbidden", "forall": "Required"}


def tests_of(texts):
    """By name a test's condition and its hash, of those texts that are tests."""
    found = {}
    for text in texts:
        name = re.match(r"RISCV\s+(\S+)", text)
        if name:
            condition = re.search(r"(?ms)^[ \t]*((?:~?exists|forall)\b.*)", text)
            given = re.search(r"(?m)^Hash\s*=\s*(\S+)", text)
            found[name[1]] = " ".join(condition[1].split()) if condition else None, given and given[1]
    return found


def read_report(path, text):
    lines = text.splitlines()
    told = dict(line.partition(" ")[::2] for line in lines)
    if not {"test", "states", "condition", "held", "all-done", "verdict"} <= told.keys():
        fail(f"{path} is no report of a litmus test")
    start = lines.index(f"states {told['states']}") + 1
    return told, [line.split(" ") for line in lines[start:start + int(told["states"])]]


def log_of(path, text, tests):
    """The log of a report."""
    told, states = read_report(path, text)
    held, missed = int(told["held"]), int(told["all-done"]) - int(told["held"])
    condition, given = tests.get(told["test"], (None, None))
    is_ok = told["verdict"] == "yes"
    yield f"Test {told['test']} {ASKED[told['condition']]}"
    yield f"Histogram ({len(states)} states)"
    for count, *values in states:
        yield f"{count:<6}:>{' '.join(f'{value};' for value in values)}"
    yield from ("Ok" if is_ok else "No", "", "Witnesses", f"Positive: {held}, Negative: {missed}")
    if condition:
        yield f"Condition {condition} is {'' if is_ok else 'NOT '}validated"
    if given:
        yield f"Hash={given}"
    often = "Never" if held == 0 else "Always" if missed == 0 else "Sometimes"
    yield f"Observation {told['test']} {often} {held} {missed}"


def log(paths):
    """The lines of the logs of all reports among the files."""
    texts = {path: text_of(path).decode("latin-1") for path in paths}
    tests = tests_of(texts.values())
    for path, text in texts.items():
        if not re.match(r"RISCV\s", text):
            yield from (*log_of(path, text, tests), "")
