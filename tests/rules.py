#!/usr/bin/env python3
"""Tries tools/try_rule.py: tests/rules.py.

The test makes each wrong rule below in a copy of the second program, and the script must find it there. The checker of
the tree, which isn't changed, judges what is wrong with its records. In rules that only differ the script must find
nothing wrong. What each may lead to, and the most operations and advances that its history needs, was worked out by
hand. The last line is `N tried, M wrong`.
"""
import re
import shutil
import sys
import tempfile
from concurrent.futures import ThreadPoolExecutor
from os import cpu_count
from pathlib import Path
from types import SimpleNamespace

TOP = Path(__file__).resolve().parent.parent
sys.path.insert(0, str(TOP))
from reference.order import check  # noqa: E402
from reference.traces import Trace, read_records  # noqa: E402
from tests.texts import ran as ended  # noqa: E402
from tools import try_rule  # noqa: E402


VALUE, OWNERS, FAILS, STUCK = "wrong value", "two owners", "the machine fails", "a round without progress"
# What is wrong, what it may lead to, and what stands in machine.py with what takes its place.
WRONG = [
    ("an owner's load doesn't extend the lease", VALUE, 5, [
        ("                copy.rts = max(copy.rts, time)\n", "                pass\n")]),
    ("a store takes the end of the lease, and no later time", VALUE, 5, [
        ("copy.rts if private else fit(copy.rts + 1)", "copy.rts")]),
    ("no copy has version 0", FAILS, 2, [("version=copy and copy.wts", "version=copy.wts if copy else 0")]),
    ("a line comes from DRAM with time 0", VALUE, 6, [
        ("e.wts = e.rts = self.mts[m.line % self.o.banks]", "e.wts = e.rts = 0")]),
    ("a dirty line leaves the bank without a store", VALUE, 4, [("        if e.dirty:\n", "        if False:\n")]),
    ("a load of a line overtakes its store", VALUE, 5, [
        ('            e.state = "Storing"\n', "            entries.remove(e)\n"),
        ("        e, entries = self.find(m.line, self.bank_set(m.line))\n        assert e.state in",
         '        e, entries = self.find(m.line, self.bank_set(m.line))\n        if m.kind == "DramStRep":\n'
         '            return "Delivered"\n        assert e.state in')]),
    ("a copy to read is read past its lease", VALUE, 6, [
        ('kind == "load" and core.pts <= copy.rts', 'kind == "load"')]),
    ("a recall that overtakes its grant is dropped", STUCK, 3, [
        ("if self.line_at(m.core) == m.line:\n            return",
         "if self.line_at(m.core) == m.line and copy:\n            return")]),
    ("a line that is owned is granted again", OWNERS, 3, [
        ('if e.state == "Exclusive":\n            until', 'if e.state == "Exclusive" and load:\n            until'),
        ('if e.state != "Shared":\n            return "Held"', 'if e.state in UNDER_WAY:\n            return "Held"')]),
    ("a swap receives what it stores", VALUE, 1, [
        ('received = copy.words[index] if kind != "store" else None',
         'received = dict(load=copy.words[index], swap=value, store=None)[kind]')]),
    ("a lease forgets those that were given before", VALUE, 6, [
        ("e.rts = max(e.rts, fit(e.wts + lease), ", "e.rts = max(fit(e.wts + lease), ")]),
    ("under private writes a grant leaves a copy written", VALUE, 6, [
        ('copy.state, copy.written = "Exclusive", False', 'copy.state = "Exclusive"'),
        ('copy.state, copy.written = "Shared", False', 'copy.state = "Shared"')]),
]
NO_SHORTER = "No shorter way was found among the first states: tools/explore.py looks at more."
NO_SEARCH = "No shorter way was looked for, since the rule reads numbers that states don't have, or fails between " \
    "events."
SWAP = 'received = copy.words[index] if kind != "store" else None'
# Rules by which a swap receives what it stores, and that look further: at a number that states don't have, and from a
# core at a bank. Then, what ends the text: a swap alone needs eight events, one after the other.
FURTHER = [("self.sent > 0", NO_SEARCH), ("self.mts[0] >= 0", "The shortest way to a fault, of 8 states:")]
SOUND = [
    ("the rules as they are", []),
    ("a renewal goes further", [
        ("fit(m.pts + lease))\n        else", "fit(m.pts + (2 * lease if same else lease)))\n        else")]),
    ("a store takes a later time than it must", [("else fit(copy.rts + 1)", "else fit(copy.rts + 3)")]),
]


def changed(folder, changes):
    """A copy of the second program with these changes."""
    copy = Path(folder, "mine")
    shutil.copytree(TOP / "reference", copy / "reference", ignore=shutil.ignore_patterns("__pycache__"))
    shutil.copytree(TOP / "tools", copy / "tools", ignore=shutil.ignore_patterns("__pycache__"))
    machine = copy / "reference/machine.py"
    text = machine.read_text(encoding="utf-8")
    for old, new in changes:
        assert text.count(old) == 1, f"{old!r} stands {text.count(old)} times in machine.py"
        text = text.replace(old, new)
    machine.write_text(text, encoding="utf-8")
    return copy


def ran(changes, *words):
    """The status of the script on a copy, what it prints, and what the last command that it prints does. The text of
    --found must end what it prints."""
    with tempfile.TemporaryDirectory() as folder:
        copy = changed(folder, changes)
        found = Path(folder, "found")
        done = ended([copy / "tools/try_rule.py", "--found", found, *words], text=True)
        again = None
        if done.returncode == 1:
            again = ended(["sh", "-c", command_of(done.stdout.splitlines())], text=True)
            texts = f" states:\n{found.read_text()}" if found.exists() else (f"{NO_SHORTER}\n", f"{NO_SEARCH}\n")
            assert done.stdout.endswith(texts), "--found writes another text"
        return done.returncode, done.stdout + done.stderr, again


def command_of(lines):
    """The command that prints the run event by event."""
    return lines[lines.index("Event by event:") + 1]


def shortest(lines):
    """Faults in the shortest list of events, whose last event is marked."""
    behind = lines[lines.index(command_of(lines)) + 1:]
    if not behind or not behind[0].startswith("The shortest way to a fault, of ") or \
            sum("# here: " in line or "has no case" in line for line in behind) != 1:
        yield f"the shortest list is {behind}"


def marked(fault, told):
    """Faults in the mark of the fault in its replay. A value is wrong where its record completes, the number of which
    ends the verdict; a second owner is there once a message is delivered."""
    marks = [line for line in told if "  # " in line]
    if "by rounds after" in fault:
        yield from [f"what the replay doesn't show is marked: {marks}"] * bool(marks)
        return
    before = told[:told.index(marks[0]) + 1] if marks else []
    completed = sum(": Completed" in line for line in before)
    if len(marks) != 1 or not marks[0].endswith(": " + fault):
        yield f"{marks} are marked, for {fault}"
    elif fault.startswith(VALUE) and (": Completed  #" not in marks[0] or completed != 1 + int(fault.split()[-1])) or \
            fault.startswith(OWNERS) and ("Deliver " not in marks[0] or ": Delivered  #" not in marks[0]):
        yield f"{marks[0]!r} is marked, behind {completed} completions"


def faults(may_be, most, status, out, again):
    """Faults in what was printed of a wrong rule."""
    lines = out.splitlines()
    if status != 1 or not lines[0].startswith(may_be):
        yield f"status {status}, {lines[:1]}, not {may_be}"
        return
    middle = lines.index("The run's records, as far as it got:")
    trace = Trace("\n".join(lines[1:middle]).encode())
    records = read_records("\n".join(lines[middle + 1:lines.index("Event by event:")]).encode())
    verdict = check({}, trace.issued(), records)
    if may_be == VALUE and not lines[0].startswith(f"{verdict}: "):
        yield f"{lines[0]}, and its records are {verdict}"
    if sum(map(len, trace.steps)) > most:
        yield f"{sum(map(len, trace.steps))} steps, and {most} are enough: {lines[1:middle]}"
    told = again.stderr + again.stdout
    if may_be == VALUE and f"order {verdict}" not in told or may_be == FAILS and "Traceback" not in told or not told:
        yield f"{command_of(lines)} doesn't show it: {told[-200:]}"
    yield from marked(lines[0].partition(": try ")[0], again.stdout.splitlines())
    yield from shortest(lines)


def line_of(code):
    """The number of the machine's line that has this."""
    text = (TOP / "reference/machine.py").read_text(encoding="utf-8")
    return text[:text.index(code)].count("\n") + 1


def of_test():
    """Faults in what is said of a test, by threads. The machine fails at the first answer, before any record."""
    test = str(TOP / "examples/litmus/SB.litmus")
    number = next(number for number in range(300) if try_rule.trial_of(number, []).options.schedule == "threads")
    status, out, again = ran(WRONG[2][3], "--first", str(number), "--tries", "1", test)
    fault = f"the machine fails (AttributeError, line {line_of('assert copy.state == ')} of machine.py)"
    lines = out.splitlines()
    begins = [f"{fault}: try {number}", "The run's records, as far as it got:", "Event by event:"]
    if status != 1 or lines[:3] != begins:
        yield f"a test, by threads: {status} {out}"
        return
    if "oracle.py litmus --trace --schedule threads --limit 500 " not in lines[3] or f" {test} 2>&1" not in lines[3]:
        yield f"a test's command is {lines[3]}"
    if "Traceback" not in again.stdout + again.stderr:
        yield f"a test's command doesn't show the fault: {again}"
    yield from marked(fault, again.stdout.splitlines())
    yield from shortest(lines)


def further():
    """Faults in what is said of wrong rules that look further than parts, and of one that fails between events."""
    for looks, ends in FURTHER:
        status, out, _ = ran([(SWAP, f"received = value if kind == 'swap' and {looks} else copy.words[index]"
                                     " if kind != 'store' else None")], "--tries", "300")
        lines = out.splitlines()
        if status != 1 or not re.fullmatch(r"wrong value 0: try \d+, cut to 1 steps", lines[0]) or \
                ends not in lines or ends != NO_SEARCH and len(lines) - lines.index(ends) - 1 != 2 + 8 + 1:
            yield f"{looks}: {status} {out}"
    places = "return copies[0].line if not copy"
    status, out, again = ran([(places, places.replace("0", "16"))], "--tries", "300")
    said = f"the machine fails (IndexError, line {line_of(places)} of machine.py): try "
    if status != 1 or not out.startswith(said) or not out.endswith(f"{NO_SHORTER}\n"):
        yield f"a victim that isn't there: {status} {out}"
    yield from marked(out.partition(": try ")[0], again.stdout.splitlines() if again else [])


def refusals():
    """Faults in how words and files are refused."""
    script = str(TOP / "tools/try_rule.py")
    for words in (["none.trace"], ["--tries"], [str(TOP / "examples/bad/SB-cut.litmus")], [str(TOP)],
                  ["--tries", "0"], ["--tries", "-5"], ["--first", "-3"], ["--first", str(2 ** 64)], ["/dev/null"]):
        done = ended([script, *words], text=True)
        if (done.returncode, done.stdout, done.stderr.count("\n")) != (2, "", 1):
            yield f"{words}: {done.returncode} {done.stdout} {done.stderr}"
    done = ended([script, "/dev/stdin"], text=True, input="0 X 0x0\n")
    if (done.returncode, done.stdout, done.stderr) != (2, "", "try_rule.py: /dev/stdin: line 1: 5 BadOperation\n"):
        yield f"a bad trace: {done}"
    done = ended([script, "--stuck", "--tries", "300"], text=True)
    if done.returncode != 1 or not done.stdout.startswith(STUCK) or "NetworkFull" not in done.stdout:
        yield f"--stuck: {done.stdout} {done.stderr}"
    names = [str(TOP / "examples" / name) for name in ("litmus/SB.litmus", "traces/PAST.trace")]
    done = ended([script, "--tries", "40", *names], text=True)
    if done.returncode or not done.stdout.startswith("40 tries: all legal"):
        yield f"{names}: {done.stdout} {done.stderr}"


# What drawn trials must have, each value in some of the first 300.
DRAWN = {"schedule": {"seed", "round", "threads"}, "private_write": {False, True}, "lease": {1, 2, 10}, "banks": {1, 2},
         "line_words": {1, 8}, "ways": {1, 2}, "bank_ways": {1, 2}, "messages": {3, 4, 5, 4096}}


def draws():
    """Faults in drawn trials, and in where they begin."""
    trials = [try_rule.trial_of(number, []) for number in range(300)]
    for name, values in DRAWN.items():
        if {getattr(trial.options, name) for trial in trials} != values:
            yield f"drawn trials don't have each of {values} for {name}"
    if any(trial.options.messages <= len(trial.steps) for trial in trials):
        yield "a drawn machine has no place more than cores"
    # A message that found no place excuses a round without progress, if that was in the last rounds.
    full, rounds = [(None, "NetworkFull")], [(None, "Held")] * try_rule.ROUNDS
    if [trials[0].is_at_fault(SimpleNamespace(made=made)) for made in (full + rounds, rounds + full)] != [True, False]:
        yield "a message that found no place long ago excuses a round"
    few = [try_rule.trial_of(number, [], True) for number in range(300)]
    if {trial.options.messages - len(trial.steps) for trial in few} - set(range(4090, 4096)) != {-1, 0, 1, 2}:
        yield "--stuck doesn't draw fewer places"
    steps = {step[0] for trial in trials for of in trial.steps for step in of}
    if steps != {"load", "store", "swap", "advance"} or {len(trial.steps) for trial in trials} != {2, 3}:
        yield f"drawn programs have {steps}"
    if any(("--seed" in trial.words()) != (trial.options.schedule == "seed") for trial in trials):
        yield "a command lacks the seed, or names one that its schedule doesn't take"
    if any(("trace 2" in trial.lines()) != any(step[0] == "advance" for of in trial.steps for step in of)
           for trial in trials):
        yield "a trace has a line for advances, and none, or it has advances without that line"
    status, out, _ = ran(WRONG[1][3], "--first", "33")  # a wrong rule that is found before
    if status != 1 or not 33 <= int(out.partition(": try ")[2].partition(",")[0]):
        yield f"--first 33: {out.splitlines()[:1]}"


def main():
    wrong = [*refusals(), *draws(), *of_test(), *further()]
    pool = ThreadPoolExecutor(cpu_count())
    for (name, may_be, most, _), of in zip(WRONG, pool.map(lambda rule: ran(rule[3]), WRONG)):
        wrong += [f"{name}: {fault}" for fault in faults(may_be, most, *of)]
        if "-v" in sys.argv:
            print(f"== {name}\n{of[1]}")
    for (name, _), (status, out, _) in zip(SOUND, pool.map(lambda rule: ran(rule[1], "--tries", "300"), SOUND)):
        if status or not re.match(r"300 tries: all legal.*\n\d+ machines, \d+ of \d+ rows", out):
            wrong.append(f"{name}: {status} {out}")
    print("\n".join([*wrong, f"{18 + len(DRAWN) + len(FURTHER) + len(WRONG) + len(SOUND)} tried, {len(wrong)} wrong"]))
    return int(bool(wrong))


if __name__ == "__main__":
    sys.exit(main())
