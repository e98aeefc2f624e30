#!/usr/bin/env python3
"""Tries examples/murphi/tardis.m by rumur and compares it with tools/explore.py: tests/murphi.py [--long]

The model was written from docs/PROTOCOL.md, and shares no line with reference/. On each machine both must have the
same number of states, of events that change one, and the same ends. Wrong rules must fail in the model, and its
capacity must deadlock where explore.py says so. Without Debian's rumur it tries nothing. --long compares more. The
last line is `N tried, M wrong`.
"""
import re
import shutil
import sys
import tempfile
from pathlib import Path

sys.path.insert(0, str(Path(__file__).resolve().parent.parent))
from tests.texts import TOP, ran  # noqa: E402

MODEL = TOP / "examples/murphi/tardis.m"
ROOMY, ANY = {"PLACES": 2, "BANK_PLACES": 2}, {"EVICT_ANY": "true"}
WRITERS = "0 W 0x0 1\n0 W 0x8 1\n1 W 0x8 1\n1 W 0x0 1\n"  # a trace, since the model stores no other value
RING = {"CORES": 3, "LINES": 3, "PLACES": 3, "BANK_PLACES": 3}
# A test, what the model's constants are, and the words of explore.py for the same machine.
SAME = [
    ("SB", ANY, ["--small", "--evict", "any"]),
    ("SB", ROOMY, []),
    ("MP", {"TEST": 1, "LEASE": 1, "ADVANCES": 1}, ["--small", "--lease", "1", "--advances", "1"]),
    ("LB", {"TEST": 2}, ["--small"]),
    ("WRC", {"TEST": 3, "CORES": 3}, ["--small"]),
    ("3.SB", RING, []),
    (WRITERS, {"TEST": 4} | ANY, ["--small", "--evict", "any"]),
]
LONG = [
    ("WRC", {"TEST": 3, "CORES": 3} | ROOMY, []),
    ("SB", {}, ["--small"]), ("SB", ROOMY | ANY, ["--evict", "any"]), ("MP", {"TEST": 1} | ROOMY, []),
    ("LB", {"TEST": 2} | ROOMY, []), ("LB", {"TEST": 2} | ANY, ["--small", "--evict", "any"]),
    ("3.LB", {"TEST": 2} | RING, []), ("3.SB", {"CORES": 3, "LINES": 3}, ["--small"]),
]
# What is wrong, the constants, the change, and what rumur says of it.
WRONG = [
    ("a line comes from DRAM with time 0", ANY, "entry[l].wts := mts; entry[l].rts := mts;",
     "entry[l].wts := 0; entry[l].rts := 0;", "no later read saw|a load receives|remembers each lease"),
    ("an eviction leaves the memory time", ANY, "mts := later(mts, entry[l].rts);", "", "remembers each lease"),
    ("a recall that overtakes its grant is dropped", ROOMY, "& !is_on(m.core, m.line) ==>", "==>", "deadlock"),
    ("no place for DRAM's message", {"MESSAGES": 2}, "", "", "deadlock"),
]


def constants(text, of):
    for name, value in of.items():
        text, count = re.subn(rf"^  {name}: [^;]*;", f"  {name}: {value};", text, flags=re.M)
        assert count == 1, name
    return text


def verified(folder, text):
    """What the verifier of a model prints."""
    model, source, program = (Path(folder, name) for name in ("t.m", "t.c", "t"))
    model.write_text(text, encoding="ascii")
    for command in (["rumur", "--deadlock-detection", "stuck", "--threads", "1", "--output", source, model],
                    ["cc", "-O1", "-march=native", "-w", source, "-lpthread", "-o", program]):
        ran(command).check_returncode()
    return ran([program], text=True).stdout


def explored(test, words):
    """The states, the events and those of done states, and the ends."""
    path, text = ("/dev/stdin", test) if "\n" in test else (TOP / f"examples/litmus/{test}.litmus", None)
    done = ran([TOP / "tools/explore.py", *words, path], input=text, text=True)
    lines = [line.partition(" ") for line in done.stdout.splitlines()]
    of = {name: said for name, _, said in lines}
    ends = {tuple(re.findall(r"=(\d)", said.replace("-", "0"))) for name, _, said in lines if name == "end"}
    return int(of["states"]), int(of["events"]) + int(of["done"]), ends


def same(folder, test, of, words):
    out = verified(folder, constants(MODEL.read_text(encoding="ascii"), of))
    found = re.search(r"(\d+) states, (\d+) rules fired", out)
    if "No error found" not in out or not found:
        return [f"{test} {of}: {out[-400:]}"]
    states, rules = map(int, found.groups())
    hits = re.findall(r'cover "end (\d) (\d) (\d)" hit (\d+) times', out)
    cores = of.get("CORES", 2)
    ends = {end[:cores] for *end, count in hits for end in [tuple(end)] if int(count) != states}
    came, wanted = (states, rules, ends), explored(test, words)
    return [] if came == wanted else [f"{test} {of}: the model has {came}, and explore.py {wanted}"]


def wrong(folder, name, of, old, new, says):
    text = constants(MODEL.read_text(encoding="ascii"), of)
    assert not old or text.count(old) == 1, f"{old!r} stands {text.count(old)} times in tardis.m"
    out = verified(folder, text.replace(old, new) if old else text)
    return [] if re.search(says, out) and "1 error(s) found" in out else [f"{name}: {out[-400:]}"]


def main():
    if shutil.which("rumur") is None:
        print("rumur isn't installed: 0 tried, 0 wrong")
        return 0
    faults, cases = [], SAME + LONG * ("--long" in sys.argv)
    with tempfile.TemporaryDirectory() as folder:
        for case in cases:
            faults += same(folder, *case)
        for case in WRONG:
            faults += wrong(folder, *case)
    print("\n".join([*faults, f"{len(cases) + len(WRONG)} tried, {len(faults)} wrong"]))
    return int(bool(faults))


if __name__ == "__main__":
    sys.exit(main())
