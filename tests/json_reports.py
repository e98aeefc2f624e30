#!/usr/bin/env python3
"""Tries what the program writes by `--json`: tests/json_reports.py PROGRAM.

Objects of each command, with all their members, were written by hand from docs/TEXTS.md. Then the program and the
second program, which writes them by that page alone, write those of the examples and of random runs, or refuse alike.
Each object is what this script makes of the lines that the program writes without `--json`: the same numbers, under the
same names, in the same order. The last line is `N tried, M wrong`.
"""
import io
import json
import os
import random
import re
import sys
import tempfile
from contextlib import redirect_stderr, redirect_stdout
from pathlib import Path

sys.path.insert(0, str(Path(__file__).resolve().parent.parent))
from tests.counts import random_trace  # noqa: E402
from tests.texts import TOP, Tester, oracle  # noqa: E402


LITMUS, TRACES = "examples/litmus", "examples/traces"
FRONT = '{"version":1,"command":'
COUNTED = '"events":14,"held":2,"dropped":0,"cores":[{"loads":0,"stores":1,"swaps":0,"hits":0,"cold":1,"evicted":0,' \
    '"recalled":0,"ended":0,"shared":0,"evictions":0,"returns":0,"reloads":0,"held":0,"dropped":0,"time":1,' \
    '"ExReq":1,"ExRep":1}],' \
    '"banks":[{"evictions":0,"held":2,"dropped":0,"ExReq":1,"ExRep":1,"DramLd":1,"DramLdRep":1}]}'
STORE = FRONT + '"trace","cores":1,"issued":1,"completed":1,"end":"all-done","loads":0,"stores":1,"swaps":0,' \
    '"renewals":0,"upgrades":0,"flushes":0,"write-backs":0,"stale-hits":0,"order":"legal","words":{"0x0":1}'
ENDS = FRONT + '"ends","test":"SB+yes","threads":2,"states":13,"ends":[{"holds":false,"values":{"0:x7":0,"1:x7":1}%s},' \
    '{"holds":true,"values":{"0:x7":1,"1:x7":0}%s},{"holds":false,"values":{"0:x7":1,"1:x7":1}%s}],' \
    '"condition":"exists","held":1,"observation":"Sometimes"}'
ORDERS = (',"order":["P0:1","P0:2","P1:1","P1:2"]', ',"order":["P1:1","P1:2","P0:1","P0:2"]',
          ',"order":["P0:1","P1:1","P0:2","P1:2"]')
NOTHING = "RISCV NOTHING\n{ x=3; }\n P0 ;\nforall (x=3)\n"
# By hand: the words, where {} is the folder, the status, and the object.
BY_HAND = [
    (f"litmus {LITMUS}/SB.litmus", 0, FRONT + '"litmus","test":"SB","threads":2,"runs":1,"all-done":1,"stalled":0,'
     '"limit":0,"exhausted":0,"memory":0,"states":[{"count":1,"values":{"0:x7":1,"1:x7":1}}],"condition":"exists",'
     '"held":0,"verdict":"no","completed":4,"renewals":0,"upgrades":0,"flushes":0,"write-backs":2,"stale-hits":0}'),
    # After a round two requests are out.
    (f"litmus --runs 2 --limit 1 {LITMUS}/SB.litmus", 1, FRONT + '"litmus","test":"SB","threads":2,"runs":2,'
     '"all-done":0,"stalled":0,"limit":2,"exhausted":0,"memory":0,"states":[],"condition":"exists","held":0,'
     '"verdict":"no","completed":0,"renewals":0,"upgrades":0,"flushes":0,"write-backs":0,"stale-hits":0}'),
    (f"ends {LITMUS}/SB+yes.litmus", 0, ENDS % ("", "", "")),
    (f"ends --orders {LITMUS}/SB+yes.litmus", 0, ENDS % ORDERS),
    ("ends --orders {}/nothing.litmus", 0, FRONT + '"ends","test":"NOTHING","threads":1,"states":1,"ends":[{"holds":'
     'true,"values":{"x":3},"order":[]}],"condition":"forall","held":1,"observation":"Always"}'),
    (f"trace {TRACES}/FIRST-STORE.trace", 0, STORE + "}"),
    (f"trace --counts {TRACES}/FIRST-STORE.trace", 0, f'{STORE},"counts":{{{COUNTED}}}'),
    (f"trace --counts --every 1 {TRACES}/FIRST-STORE.trace", 0,
     f'{STORE},"rows":[{{"completed":1,{COUNTED}],"counts":{{{COUNTED}}}'),
    (f"trace --counts --every 2 {TRACES}/FIRST-STORE.trace", 0, f'{STORE},"rows":[],"counts":{{{COUNTED}}}'),
    ("trace {}/empty.trace", 0, FRONT + '"trace","cores":1,"issued":0,"completed":0,"end":"all-done","loads":0,'
     '"stores":0,"swaps":0,"renewals":0,"upgrades":0,"flushes":0,"write-backs":0,"stale-hits":0,"order":"legal",'
     '"words":{}}'),
    ("check {}/two.trace {}/legal.records", 0, FRONT + '"check","verdict":"legal"}'),
    ("check {}/two.trace {}/number.records", 1, FRONT + '"check","verdict":"bad number","number":1}'),
    ("check {}/two.trace {}/order.records", 1, FRONT + '"check","verdict":"out of program order","number":0}'),
    ("check {}/two.trace {}/value.records", 1, FRONT + '"check","verdict":"wrong value","number":1}'),
    ("check {}/two.trace {}/empty.trace", 0, FRONT + '"check","verdict":"legal"}'),
    ("check --complete {}/two.trace {}/first.records", 1, FRONT + '"check","verdict":"no record","place":0,"core":1}'),
    ("check --complete --opening {}/three.opening {}/two.trace {}/three.records", 0,
     FRONT + '"check","verdict":"legal"}'),
]
FILES = {"nothing.litmus": NOTHING, "empty.trace": "", "two.trace": "0 W 0x0 1\n1 R 0x0\n",
         "legal.records": "0 0 W 0x0 1 1 0\n1 0 R 0x0 1 1 1\n", "number.records": "0 0 W 0x0 1 1 0\n1 0 R 0x0 1 1 2\n",
         "order.records": "0 1 W 0x0 1 1 0\n1 0 R 0x0 1 1 1\n", "value.records": "0 0 W 0x0 1 1 0\n1 0 R 0x0 0 1 1\n",
         "first.records": "0 0 W 0x0 1 1 0\n", "three.opening": "0x0 3\n",
         "three.records": "1 0 R 0x0 3 0 0\n0 0 W 0x0 1 1 1\n"}
# What is refused, as without --json: the status and the first line.
REFUSED = [
    (f"trace --records {TRACES}/FIRST-STORE.trace", 3, "error: '--json' cannot be used with '--records'"),
    ("trace --every 2 none", 3, "error: '--every' needs '--counts'"),
    ("trace --counts --every 0 none", 3,
     "error: invalid value '0' for '--every <every>': 0 is not in 1..18446744073709551615"),
    ("trace --counts --every 18446744073709551616 none", 3,
     "error: invalid value '18446744073709551616' for '--every <every>': number too large to fit in target type"),
    ("trace --counts --records none", 3,
     "error: '--counts' needs '--schedule round' or '--schedule seed', and no '--records'"),
    (f"litmus --lease 0 {LITMUS}/SB.litmus", 3, "tardis: bad configuration"),
    (f"ends --states 6 {LITMUS}/SB.litmus", 1, "tardis: more than 6 states; 9 are enough to go on"),
    (f"ends {TRACES}/FIRST-STORE.trace", 2, None),
    ("trace {}/legal.records", 2, "tardis: line 1: 5 BadOperation"),
    ("check {}/two.trace {}/two.trace", 2, None),
    ("check --opening {}/two.trace {}/two.trace {}/two.trace", 2, "tardis: opening: line 1: 6 BadAddress"),
    ("check {}/two.trace none", 4, "tardis: read failed"),
]


def second(words):
    """What the second program answers, in this process: status, standard output and standard error."""
    out, error = io.StringIO(), io.StringIO()
    with redirect_stdout(out), redirect_stderr(error):
        status = oracle.main(words)
    return status, out.getvalue(), error.getvalue()


def value(word):
    return int(word) if word.isdecimal() else word


def named(words, sign="="):
    """What words such as x=1 say, by the names."""
    return {name: value(number) for name, number in (word.rsplit(sign, 1) for word in words)}


def of_litmus(lines):
    found, states = {}, []
    for line in lines:
        name, *rest = line.split(" ")
        if name.isdecimal():
            states.append({"count": int(name), "values": named(rest)})
        elif name == "states":
            found["states"] = states
        else:
            found[name] = value(rest[0])
    return found


def of_ends(lines, has_orders):
    found, ends = {}, []
    for line in lines:
        if line[:2] in ("  ", "* "):
            values, _, order = line[2:].partition("   ")
            ends.append({"holds": line[0] == "*", "values": named(values.split(" "))})
            if has_orders:
                ends[-1]["order"] = order.split(" ") if order else []
            continue
        name, *rest = line.split(" ")
        if name == "ends":
            found["ends"] = ends
        elif name == "observation":
            found[name] = rest[-3]
            held = found["held"]
            assert [*map(int, rest[-2:])] == [held, len(ends) - held], line
        else:
            found[name] = value(rest[0])
    return found


def of_trace(lines, has_counts, has_rows):
    report, *parts = re.split(r"^(?=row )|(?<=\n)(?=events )", "".join(line + "\n" for line in lines), flags=re.M)
    found, words, rows, front = {}, {}, [], {}
    for line in report.splitlines():
        name, *rest = line.split(" ")
        if name == "word":
            words[rest[0]] = int(rest[1])
        else:
            found[name] = value(rest[0])
    found["words"] = words
    for part in parts:
        if part.startswith("row "):
            front = {"completed": int(part.split()[1])}
        else:
            rows.append(front | of_counts(part.splitlines()))
            front = {}
    assert ("completed" not in rows[-1]) if has_counts else not rows
    return found | ({"rows": rows[:-1]} if has_rows else {}) | ({"counts": rows[-1]} if has_counts else {})


def of_counts(lines):
    found = {name: int(number) for name, number in (line.split(" ") for line in lines[:3])} | {"cores": [], "banks": []}
    for line in lines[3:]:
        what, _, *rest = line.split(" ")
        found[f"{what}s"].append(dict(zip(rest[::2], map(int, rest[1::2]))))
    return found


def of_check(lines):
    (line,) = lines
    lack = re.fullmatch(r"no record of operation (\d+) of core (\d+)", line)
    if lack:
        return {"verdict": "no record", "place": int(lack[1]), "core": int(lack[2])}
    verdict, number = re.fullmatch(r"(.*?)(?: (\d+))?", line).groups()
    return {"verdict": verdict} | ({} if number is None else {"number": int(number)})


def object_of(words, out):
    """The object that the lines of a command come to, as text."""
    lines = out.splitlines()
    made = {"litmus": lambda: of_litmus(lines), "ends": lambda: of_ends(lines, "--orders" in words),
            "trace": lambda: of_trace(lines, "--counts" in words, "--every" in words), "check": lambda: of_check(lines)}
    found = {"version": 1, "command": words[0]} | made[words[0]]()
    return json.dumps(found, separators=(",", ":")) + "\n"


def by_hand(tester, folder):
    for told, status, wanted in BY_HAND:
        words = [*told.format(*[folder] * told.count("{}")).split(), "--json"]
        for answer in (tester.run(*words), second(words)):
            tester.expect(answer == (status, wanted + "\n", ""), f"{told}: {answer}, wanted {wanted}")
        plain = tester.run(*words[:-1])
        tester.expect((plain[0], object_of(words, plain[1])) == (status, wanted + "\n"), f"{told}: lines {plain}")
        json.loads(wanted)
    for told, status, line in REFUSED:
        words = [*told.format(*[folder] * told.count("{}")).split(), "--json"]
        got, wanted = tester.run(*words), second(words)
        tester.expect(got == wanted, f"{told}: {got}, wanted {wanted}")
        tester.expect(got[:2] == (status, "") and line in (None, got[2].split("\n")[0]), f"{told}: {got}")


def alike(tester, words):
    """Both programs write the same object, and the lines say the same; or both refuse in the same words."""
    got, wanted = tester.run(*words, "--json"), second([*words, "--json"])
    tester.expect(got == wanted, f"{words}: {got}, wanted {wanted}")
    status, out, error = got
    if error:
        tester.expect(out == "" and tester.run(*words) == got, f"{words}: refused otherwise without --json")
        return {}
    plain = tester.run(*words)
    tester.expect(plain[::2] == (status, "") and object_of(words, plain[1]) == out, f"{words}: {out}, lines {plain}")
    return json.loads(out)


def examples(tester):
    """The litmus tests of examples, by turns: the report of three runs, or the list of ends, if it is short."""
    refused = 0
    for number, path in enumerate(sorted(Path(LITMUS).glob("*.litmus"))):
        if number % 2 and path.stem != "READERS":
            schedule = ["--schedule", "seed", "--seed", str(number)] * (number % 4 == 1)
            alike(tester, ["litmus", "--runs", "3", *schedule, str(path)])
        else:
            refused += not alike(tester, ["ends", "--states", "300", *["--orders"] * (number % 4 == 0), str(path)])
    tester.expect(refused == 1, f"{refused} lists are refused: READERS alone is long")


def changed(text, draw):
    """Records with another number somewhere."""
    lines = [line.split(" ") for line in text.splitlines()]
    line = draw.choice(lines)
    at = draw.choice([0, 1, *range(4, len(line))])
    line[at] = str(draw.randrange(6))
    return "".join(" ".join(line) + "\n" for line in lines)


def at_random(tester, folder):
    draw, trace, records = random.Random(5), Path(folder, "a.trace"), Path(folder, "a.records")
    seen = set()
    for number in range(60):
        text, options = random_trace(draw)
        trace.write_text(text)
        if number % 2:
            every = ["--every", draw.choice(["1", "3", "10"])] * draw.randrange(2)
            found = alike(tester, ["trace", *["--counts", *every] * draw.randrange(2), *options, str(trace)])
            seen |= {found["end"], *(found.keys() & {"rows", "counts"})}
            continue
        _, out, _ = second(["trace", "--records", *options, str(trace)])
        records.write_text(changed(out, draw) if out and draw.randrange(3) else out)
        found = alike(tester, ["check", *["--complete"] * draw.randrange(2), str(trace), str(records)])
        seen.add(found["verdict"])
    wanted = {"all-done", "limit", "rows", "counts", "legal", "bad number", "out of program order", "wrong value",
              "no record"}
    tester.expect(wanted <= seen, f"the random runs have {sorted(seen)} alone")


def main(program):
    tester = Tester(os.path.abspath(program))
    os.chdir(TOP)
    with tempfile.TemporaryDirectory() as folder:
        for name, text in FILES.items():
            Path(folder, name).write_text(text)
        by_hand(tester, folder)
        examples(tester)
        at_random(tester, folder)
    print(f"{tester.tried} tried, {tester.wrong} wrong")
    return int(tester.wrong > 0)


if __name__ == "__main__":
    sys.exit(main(sys.argv[1]) if len(sys.argv) == 2 else __doc__)
