#!/usr/bin/env python3
"""Tries the lists of all ends, and tools/ends.py: tests/ends.py [[--lists] PROGRAM]

Some texts were worked out by hand, and so was the least --states that they need. Each order of an end is made step by
step: it must lead there and leave no thread an instruction. Of a test with few orders it must be the first of those
that lead there. `PROGRAM ends`, with --orders and without, must print what reference/sequential.py prints of the
catalogue, of examples/outcomes, of all critical cycles of at most 8 edges and of 1,000 random tests, and refuse the
same bounds. Under total store order a critical cycle is allowed exactly if it has a store before a load (PodWR).
tools/ends.py must say of each end which runs meet it, as the second program makes them one by one. Without PROGRAM
nothing is compared, and the second program makes the tool's runs. With --lists only PROGRAM's lists are compared.
The last line is `N tried, M wrong`.
"""
import os
import random
import re
import shlex
import sys
import tempfile
from concurrent.futures import ProcessPoolExecutor
from os import cpu_count
from pathlib import Path

sys.path.insert(0, str(Path(__file__).resolve().parent.parent))
from reference import oracle, sequential  # noqa: E402
from reference.litmus import Test  # noqa: E402
from tests.texts import TOP, Tester  # noqa: E402
from tests.witness import ends_by_hand  # noqa: E402
from tools import cycles  # noqa: E402

EDGES, RANDOM, ORDERS_TRIED = 8, 1000, 300
SB = "examples/litmus/SB.litmus"
# Texts of ends, by hand. Store buffering has 1, 2, 3, 4 and 3 states by how many instructions are done.
TEXTS = {"SB": """test SB
threads 2
states 13
ends 3
  0:x7=0 1:x7=1
  0:x7=1 1:x7=0
  0:x7=1 1:x7=1
condition exists
held 0
observation SB Never 0 3
""", "SB+yes": """test SB+yes
threads 2
states 13
ends 3
  0:x7=0 1:x7=1
* 0:x7=1 1:x7=0
  0:x7=1 1:x7=1
condition exists
held 1
observation SB+yes Sometimes 1 2
""", "SB+forall": """test SB+forall
threads 2
states 13
ends 3
* 0:x7=0 1:x7=1 x=1 y=1
* 0:x7=1 1:x7=0 x=1 y=1
* 0:x7=1 1:x7=1 x=1 y=1
condition forall
held 3
observation SB+forall Always 3 0
"""}
# The first two ends have one order each; four lead to the last, both stores before both loads.
ORDERS = """test SB
threads 2
states 13
ends 3
  0:x7=0 1:x7=1   P0:1 P0:2 P1:1 P1:2
  0:x7=1 1:x7=0   P1:1 P1:2 P0:1 P0:2
  0:x7=1 1:x7=1   P0:1 P1:1 P0:2 P1:2
condition exists
held 0
observation SB Never 0 3
"""
# A load that the condition doesn't name: two orders lead to the one end, and that of thread 0 is the first. The layers
# have 1, 2 and 2 states, since what was received counts.
UNNAMED = """RISCV UNNAMED
{ 0:x6=x; 1:x5=1; 1:x6=x; }
P0 | P1 ;
lw x7,0(x6) | sw x5,0(x6) ;
exists x=1
"""
FIRST_ORDER = """test UNNAMED
threads 2
states 5
ends 1
* x=1   P0:1 P1:1
condition exists
held 1
observation UNNAMED Always 1 0
"""
# Two stores: each is the last once, and 9 comes before 10. Its three layers have 1, 2 and 2 states.
NUMBERS = """RISCV NUMBERS
{ 0:x5=10; 0:x6=x; 1:x5=9; 1:x6=x; }
P0 | P1 ;
sw x5,0(x6) | sw x5,0(x6) ;
~exists x=10
"""
# No instruction: one state, and one end.
NOTHING = """RISCV NOTHING
{ y=3; }
P0 ;
exists x=0 /\\ y=4
"""
# Of four swaps each order is an end; k steps lead to 4!/(4 - k)! states.
SWAPS = """RISCV SWAPS
{ 0:x5=1; 0:x6=x; 1:x5=2; 1:x6=x; 2:x5=3; 2:x6=x; 3:x5=4; 3:x6=x; }
P0 | P1 | P2 | P3 ;
amoswap.w x7,x5,(x6) | amoswap.w x7,x5,(x6) | amoswap.w x7,x5,(x6) | amoswap.w x7,x5,(x6) ;
exists 0:x7=0 /\\ 1:x7=1 /\\ 2:x7=2 /\\ 3:x7=3
"""
# A register that is written twice: the first value counts for the states, though nothing reads it. The layers have 1,
# 2, 3 and 2 states.
TWICE = """RISCV TWICE
{ 0:x5=1; 0:x6=x; 1:x6=x; 1:x8=y; }
P0 | P1 ;
sw x5,0(x6) | lw x7,0(x6) ;
 | lw x7,0(x8) ;
exists 1:x7=1
"""
# By text: the states, the ends, the least bound, and the last line.
COUNTS = {NUMBERS: (5, ["  x=9", "* x=10"], 4, "observation NUMBERS Sometimes 1 1"),
          NOTHING: (1, ["  x=0 y=3"], 1, "observation NOTHING Never 0 1"),
          SWAPS: (65, 24, 48, "observation SWAPS Sometimes 1 23"),
          TWICE: (8, ["  1:x7=0"], 5, "observation TWICE Never 0 1")}
# Store buffering's layers of 3 and 4 states; each of the 3 has at most one step of each of two threads.
SIX = "more than 6 states; 9 are enough to go on\n"
REFUSED = ("0", "-1", "many", "4294967296")

# Under total store order: tests of the catalogue with their ends, and those in which the expression holds.
BUFFERED = {"SB": (4, 1), "SB+fence": (4, 1), "SB+fences": (3, 0), "SB+swaps": (3, 0), "MP": (3, 0), "MP+swaps": (3, 0),
            "LB": (3, 0), "S": (3, 0), "R": (4, 1), "2+2W": (3, 0), "CoRR": (3, 0), "IRIW": (15, 0), "WRC": (7, 0),
            "RWC": (8, 1)}
PETERSON = "examples/exercises/peterson.litmus"
# Store buffering with a fence of each kind between: only one of stores before loads forbids the end. One before the
# store doesn't.
FENCED = """RISCV FENCED
{ 0:x5=1; 0:x6=x; 0:x8=y; 1:x5=1; 1:x6=y; 1:x8=x; }
P0 | P1 ;
fence rw,rw | fence rw,rw ;
sw x5,0(x6) | sw x5,0(x6) ;
fence A,B | fence A,B ;
lw x7,0(x8) | lw x7,0(x8) ;
exists 0:x7=0 /\\ 1:x7=0
"""
# A load of the own store, which the other thread can't see yet; and a store that is overwritten while it is buffered.
FORWARDED = """RISCV FORWARDED
{ 0:x5=1; 0:x6=x; 0:x8=y; 1:x5=2; 1:x6=x; 1:x8=y; }
P0 | P1 ;
sw x5,0(x6) | sw x5,0(x8) ;
lw x7,0(x6) | sw x5,0(x6) ;
lw x9,0(x8) | ;
exists 0:x7=1 /\\ 0:x9=0 /\\ x=1
"""
# Each load of a thread's own word receives its last store, or a later one of the other thread.
LAST_ONE = """RISCV LAST-ONE
{ 0:x5=1; 0:x6=x; 0:x9=2; }
P0 ;
sw x5,0(x6) ;
sw x9,0(x6) ;
lw x7,0(x6) ;
exists 0:x7=1
"""


# What tools/ends.py is tried with: a test of the catalogue, options, how many seeds from which one on. Some ends of WRC
# aren't met, and in the last one a run isn't all done.
MET = [("SB+yes", "", 60, 0), ("LEASE", "--lease 1", 40, 990), ("WRC", "", 20, 2 ** 64 - 7),
       ("MP", "--limit 70", 30, 0)]
# A name that nothing writes, one that nothing reads either, and an address that nothing uses.
UNMEANT = """RISCV UNMEANT
{ 0:x5=1; 0:x6=x; 1:x6=x; 1:x8=y; }
P0 | P1 ;
sw x5,0(x6) | lw x7,0(x6) ;
exists 1:x9=0 /\\ z=1 /\\ 1:x7=1
"""
WARNINGS = ["  but 1:x9 in the condition: no instruction of P1 writes x9, so it is always 0",
            "  but z in the condition: no instruction loads or stores it, so it is always 0",
            "  but 1:x8=y: no instruction of P1 uses that address"]
# Programs: one that is older than `ends`, one that is older than orders, one that leaves out an end which each run by
# rounds has, and one that is called like the proved one.
OLD = """if [ "$1" = ends ]; then echo "error: unrecognized subcommand 'ends'" >&2; exit 3; fi"""
NO_ORDERS = """case "$*" in *--orders*) echo "error: unexpected argument '--orders' found" >&2; exit 3; esac"""
SHORT = """if [ "$1" = ends ]; then "$oracle" "$@" | grep -v '0:x7=1 1:x7=1'; exit; fi"""
NOT_PROVED = "(listed by reference/oracle.py, not proved)"
PROVED = "(listed by tardis ends, proved: no run has another)"
# First lines of lists that are of another test, and its name.
OTHERS = {"test MP\n": "MP", "MP: 3 ends in 13 states (listed by reference/oracle.py, not proved)\n": "MP"}
# Students' lists of the ends of store buffering: how many are right, missing and impossible.
LISTS = {"0:x7=0 1:x7=1\n0:x7=1 1:x7=0\n0:x7=1 1:x7=1\n": (3, 0, 0), "": (0, 3, 0),
         "# mine\n\n* 1:x7=1, 0:x7=1 # both\n0:x7=00 /\\ 1:x7 = 0;\n0:x7=1 1:x7=1   P0:1 P1:1 P0:2 P1:2\n": (1, 2, 1),
         TEXTS["SB"]: (3, 0, 0), TEXTS["SB"] + "0:x7=0 1:x7=0\n0:x7=2 1:x7=1\n": (3, 0, 2),
         "\ufeff(0:x7=0 /\\ 1:x7=1)\r\n": (1, 2, 0), "0:x7=1 1:x7=1: both\n    0:x7=1 1:x7=0\n": (2, 1, 0)}
GRADED = """right       0:x7=1 1:x7=1
missing     0:x7=0 1:x7=1   P0:1 P0:2 P1:1 P1:2
missing     0:x7=1 1:x7=0   P1:1 P1:2 P0:1 P0:2
impossible  0:x7=0 1:x7=0
repeated    0:x7=1 1:x7=1   lines 3, 5
"""
# Lines that are no end of store buffering, and why.
NO_LISTS = {"0:x7=0": "1:x7 is missing", "0:x7=0 1:x7=1 x=1": "the condition has no x",
            "x7=0 x7=1": "the condition has no x7", "0:x7=0 1:x7=1 1:x7=1": "1:x7 stands twice",
            "0:x7=0 0:x7=1 1:x7=1": "0:x7 stands twice",
            "0:x7=0 1:x7=y": "`1:x7=y` can't be read", "both of them": "`both` can't be read",
            "test=1": "the condition has no test", "testing": "`testing` can't be read",
            "0:x7=0 1:x7=-1": "`1:x7=-1` can't be read", "0:x7=0x1 1:x7=1": "`0:x7=0x1` can't be read",
            "P0:x7=0 P1:x7=1": "`P0:x7=0` can't be read", "0:x07=0 1:x7=1": "the condition has no 0:x07",
            "0:x7=0 1:x7=" + "1" * 21: f"`1:x7={'1' * 21}` can't be read", "(0, 1)": "`0` can't be read",
            "0:x7=0 \\/ 1:x7=1": "`\\/` can't be read", "1. 0:x7=0 1:x7=1": "`1.` can't be read",
            "0:x7=0 1:x7=1 \u2013 seen": "`\u2013` can't be read", "Ada: 0:x7=0 1:x7=1": "`Ada` can't be read"}


def end_of(test, order):
    """Where the order leads, None if it leaves a thread an instruction or names one that isn't its thread's next."""
    threads, memory = test.programs(), dict(test.memory)
    done = [0] * len(threads)
    for step in order:
        number, place = map(int, step[1:].split(":"))
        done[number] += 1
        if done[number] != place or not threads[number].next():
            return None
        kind, word, value = threads[number].next()
        threads[number].done(memory.get(word, 0))
        if kind != "load":
            memory[word] = value
    return None if any(thread.next() for thread in threads) else test.end_values(threads, memory)


def first_orders(test):
    """By end the first of all orders that lead there, without merging states; None if the test has many orders."""
    model, ends, orders = sequential.Flat(test), {}, 0
    left = [(model.opening(), ())]
    while left:
        state, order = left.pop()
        following = list(model.steps(state))
        left += [(after, (*order, step)) for step, after in reversed(following)]
        if not following:
            orders += 1
            ends.setdefault(model.end_values(state), order)
        if orders > ORDERS_TRIED:
            return None
    return ends


def kept(sizes):
    """How many states a layer and the next have, by layer."""
    return [size + after for size, after in zip(sizes, [*sizes[1:], 0])]


def refusal(most, sizes, threads):
    """What is said if more states would be kept: the first such layer, and for each of its states one a thread."""
    layer = next(size for size, both in zip(sizes, kept(sizes)) if both > most)
    return f"more than {most} states; {layer * (1 + threads)} are enough to go on\n"


def drawn(number):
    """A random test."""
    draw = random.Random(number)
    threads, words = draw.randint(1, 4), "xyz"[:draw.randint(1, 3)]
    width = draw.choice("wd")

    def register():
        return draw.choice(["x0", "x5", "x7", "x9", "x11"])

    def cell():
        address = f"x{20 + 2 * draw.randrange(len(words))}"
        return draw.choice([f"l{width} {register()},0({address})", f"s{width} {register()},0({address})",
                            f"amoswap.{width}{draw.choice(['', '.aq', '.rl'])} {register()},{register()},({address})",
                            f"li {register()},{draw.randrange(4)}", f"ori {register()},x0,{draw.randrange(4)}",
                            f"fence {draw.choice(['r', 'w', 'rw'])},{draw.choice(['r', 'w', 'rw'])}"])

    def atom():
        thread, location = draw.randrange(threads), draw.choice([*words, "w"])
        name = draw.choice([f"{thread}:x{draw.choice([5, 7, 9])}", location])
        return f"{name}={draw.randrange(4)}"

    opening = [f"{thread}:x{20 + 2 * at}={word};" for thread in range(threads) for at, word in enumerate(words)]
    opening += [f"{thread}:x{draw.choice([5, 7])}={draw.randint(1, 3)};" for thread in range(threads)]
    opening += [f"{word}={draw.randrange(4)};" for word in words if draw.random() < 0.3]
    columns = [[cell() for _ in range(draw.randint(0, 8 - threads))] for _ in range(threads)]
    rows = [" | ".join(column[at] if at < len(column) else "" for column in columns)
            for at in range(max(map(len, columns)))]
    condition = atom()
    for _ in range(draw.randrange(4)):
        condition = f"({condition}) " + draw.choice(["/\\ ", "\\/ "]) + atom()
    return "\n".join([f"RISCV RANDOM-{number}", f"{{ {' '.join(opening)} }}",
                      " | ".join(f"P{thread}" for thread in range(threads)) + " ;", *(row + " ;" for row in rows),
                      f"{draw.choice(['exists', '~exists', 'forall'])} {condition}", ""])


def texts():
    """What is compared, each with its name."""
    for path in sorted([*TOP.glob("examples/litmus/*.litmus"), *TOP.glob("examples/outcomes/*.litmus")]):
        yield path.stem, path.read_text(encoding="ascii")
    yield "UNNAMED", UNNAMED
    for edges in cycles.family(EDGES):
        yield cycles.name_of(edges), "\n".join(cycles.Cycle(edges).test()) + "\n"
    for number in range(RANDOM):
        yield f"random {number}", drawn(number)


def compared(case):
    """How many things are tried of a text, and what is wrong of it."""
    program, name, text = case
    test, tester = Test(text), Tester(program)
    ends, sizes = sequential.explored(sequential.Flat(test))
    for end, order in ends.items():
        tester.expect(end_of(test, order) == end, f"{name}: {order} doesn't lead to {end}")
    tester.expect(first_orders(test) in (None, ends), f"{name}: not the first orders: {ends}")
    if program:
        bound, given = max(kept(sizes)), text.encode()
        for orders in ([], ["--orders"]):
            got = tester.run("ends", *orders, "--states", str(bound), "/dev/stdin", text=given)
            tester.expect(got == (0, sequential.report(test, has_orders=bool(orders)), ""), f"{name}: {orders} {got}")
        if bound > 1:
            got = tester.run("ends", "--states", str(bound - 1), "/dev/stdin", text=given)
            said = "tardis: " + refusal(bound - 1, sizes, len(test.threads))
            tester.expect(got == (1, "", said), f"{name}: refused: {got}, wanted {said}")
    return tester.tried, tester.wrong


def by_hand(tester):
    for name, text in TEXTS.items():
        got = tester.run(str(TOP / f"examples/litmus/{name}.litmus"))
        tester.expect(got == (0, text, ""), f"{name}: {got}")
    for text, (states, ends, bound, last) in COUNTS.items():
        for most, status in ((bound, 0), (bound - 1, 1)):
            if most:
                got = tester.run("--states", str(most), "/dev/stdin", text=text.encode())
                tester.expect(got[0] == status and bool(got[1]) == (status == 0), f"{most} states: {got} of {text}")
        lines = tester.run("/dev/stdin", text=text.encode())[1].splitlines()
        listed = [line for line in lines if line[0] in " *"]
        tester.expect(lines[2] == f"states {states}" and lines[-1] == last, f"{lines} of {text}")
        tester.expect(ends in (listed, len(listed)), f"{lines} of {text}")
    got = tester.run("--orders", str(TOP / SB))
    tester.expect(got == (0, ORDERS, ""), f"orders: {got}")
    got = tester.run("--orders", "/dev/stdin", text=UNNAMED.encode())
    tester.expect(got == (0, FIRST_ORDER, ""), f"the first order: {got}")
    got = tester.run("--orders", "/dev/stdin", text=NOTHING.encode())
    tester.expect("\n  x=0 y=3\n" in got[1], f"no turn: {got}")
    for states in REFUSED:
        status, out, error = tester.run("--states", states, str(TOP / SB))
        good = (status, out) == (2, "") and "--states: 1 to 4294967295" in error
        tester.expect(good, f"{states}: {status} {out} {error}")
    tester.expect(f"by default {sequential.MOST_STATES})" in sequential.__doc__, "the default of the help")
    got = Tester(str(TOP / "reference/oracle.py")).run("ends", "--states", "6", str(TOP / SB))
    tester.expect(got == (1, "", f"tardis: {SIX}"), f"oracle.py ends: {got}")


def buffered(text):
    """The ends of a text under total store order, and in how many the expression holds."""
    test = Test(text)
    ends, _ = sequential.explored(sequential.Buffered(test))
    return len(ends), sum(map(test.holds, ends))


def total_store_order(tester):
    for name, wanted in BUFFERED.items():
        got = buffered((TOP / f"examples/litmus/{name}.litmus").read_text(encoding="ascii"))
        tester.expect(got == wanted, f"{name} under TSO: {got}, wanted {wanted}")
    for sets, held in {"w,r": 0, "rw,r": 0, "w,rw": 0, "rw,rw": 0, "w,w": 1, "r,r": 1, "r,rw": 1, "rw,w": 1}.items():
        got = buffered(FENCED.replace("A,B", sets))
        tester.expect(got == (3 + held, held), f"fence {sets} under TSO: {got}")
    tester.expect(buffered(FORWARDED)[1] == 1, "a load of the own buffered store")
    tester.expect(buffered(LAST_ONE) == (1, 0), "the last buffered store")
    tester.expect(buffered((TOP / PETERSON).read_text(encoding="ascii"))[1] > 0, "Peterson's lock holds under TSO")
    for edges in cycles.family(EDGES):
        held = buffered("\n".join(cycles.Cycle(edges).test()))[1]
        tester.expect(held == ("PodWR" in edges), f"{' '.join(edges)} under TSO: {held}")
    status, out, error = tester.run("--model", "tso", str(TOP / SB))
    tester.expect((status, error) == (0, "") and out.startswith("model total store order, not proved\ntest SB\n")
                  and "\n* 0:x7=0 1:x7=0\n" in out, f"TSO: {status} {out} {error}")
    # Its second layer has 2 states, and a thread may perform an operation or drain a store: 2 * (1 + 2 * 2).
    got = tester.run("--model", "tso", "--states", "3", str(TOP / SB))
    said = f"sequential.py: {TOP / SB}: more than 3 states; 10 are enough to go on\n"
    tester.expect(got == (1, "", said), f"TSO, too many states: {got}")


def wanted_lines(path, options, seeds, first):
    """What tools/ends.py must say of each end, and of runs that aren't all done; but for commands and orders."""
    test, of = oracle.read_litmus(path), f"{seeds:,} from {first:,}" if first else f"{seeds:,}"
    rounds, _ = oracle.run(oracle.words().parse_args(["litmus", *options, path]))
    by_seed = ends_by_hand(path, options, seeds, first)
    ends = [("* "[not test.holds(end)], sequential.text_of(end)) for end in sorted(sequential.ends_of(test))]
    for mark, end in ends + [("-", end) for end in by_seed if "=" not in end]:
        how = ["by rounds"] * any(line in rounds.splitlines() for line in (f"1 {end}", f"{end} 1"))
        if end in by_seed:
            count, seed, _ = by_seed[end]
            how.append(f"by seed {seed} (first of {of}: {100 * count / seeds:.3g} %)")
        else:
            how = (how or ["possible"]) + [f"not met in {of} seeds"]
        yield f"{mark} {end}: {', '.join(how)}"


def met(tester, name, options, seeds, first):
    path, options = f"examples/litmus/{name}.litmus", options.split()
    status, out, error = tester.run("--threads", "0", "--seeds", str(seeds), "--seed", str(first), *options, path)
    lines = out.splitlines()
    tester.expect((status, error) == (0, "") and lines[0].startswith(f"{name}: "), f"{name}: {status} {out} {error}")
    told, wanted = [line for line in lines[1:] if line[:4] != "    "], list(wanted_lines(path, options, seeds, first))
    tester.expect(told == wanted, f"{name}: {told}, wanted {wanted}")
    tester.expect(out.count("\n    order ") == out.count(" not met in "), f"{name}: an end without an order: {out}")
    test, end = oracle.read_litmus(path), None
    for line in lines[1:]:
        if line.startswith("    order "):
            got = end_of(test, line.split()[1:])
            tester.expect(got and sequential.text_of(got) == end, f"{name}: {line} doesn't lead to {end}")
        elif line.startswith("    "):
            report = Tester(os.environ["TARDIS"]).run(*shlex.split(line)[1:])[1].splitlines()
            tester.expect({f"1 {end}", f"{end} 1"} & {*report}, f"{name}: {line} doesn't end with {end}")
        else:
            end = line[2:].split(": ")[0]


def graded(tester, folder):
    listed = Path(folder, "list")
    for text, counts in LISTS.items():
        listed.write_text(text, encoding="utf-8")
        status, out, error = tester.run("--grade", str(listed), SB)
        line = "{}: {} right, {} missing, {} impossible".format(listed, *counts)
        good = (status, out.splitlines()[1], error) == (int(counts[1:] != (0, 0)), line, "")
        tester.expect(good and (counts != (1, 2, 1) or out.endswith(GRADED)), f"{text}: {status} {out} {error}")
    for test, words, count in ((SB, ("--seeds", "9"), 3), (SB, ("--seeds", "1", "--limit", "1"), 3),
                               ("examples/litmus/LOCK.litmus", ("--seeds", "9", "--command", "echo me"), 3)):
        own = tester.run(*words, "--threads", "9", test)[1]
        status, out, error = tester.run("--grade", "-", test, text=own.encode())
        said = f"-: {count} right, 0 missing, 0 impossible"
        tester.expect((status, out.splitlines()[1:2], error) == (0, [said], ""), f"{own}: {status} {out} {error}")
    listed.write_text("\n" + "\n".join(NO_LISTS), encoding="utf-8")  # each of them is told
    got = tester.run("--grade", str(listed), SB)
    told = [f"ends.py: {listed}: line {number}: {cause}: an end is 0:x7=N 1:x7=N"
            for number, cause in enumerate(NO_LISTS.values(), 2)]
    tester.expect((got[:2], got[2].splitlines()) == ((2, ""), told), f"lines that are no end: {got}, wanted {told}")
    for text, name in OTHERS.items():
        listed.write_text(text + "0:x7=0 1:x7=1\n")
        got = tester.run("--grade", str(listed), SB)
        said = f"ends.py: {listed}: line 1: the list is of {name}, and the test is SB\n"
        tester.expect(got == (2, "", said), f"a list of another test: {got}")
    for words, said in (((str(listed), SB, SB), "--grade takes one test"),
                        ((str(listed), SB, "--lease", "3"), "--grade makes no runs: it takes no --lease"),
                        ((str(listed), "--threads", "0", SB), "--grade makes no runs: it takes no --threads"),
                        ((str(listed),), "required: TEST"),
                        (("none.ends", SB), "none.ends: No such file"), ((str(listed), "none"), "none: No such file"),
                        ((str(listed), str(listed)), f"{listed}: line 1: 4 BadHeader: 'tools/explain.py")):
        status, out, error = tester.run("--grade", *words)
        tester.expect((status, out, error.count("\n")) == (2, "", 1) and said in error, f"{words}: {status} {error}")


def by_others(tester, folder):
    """What the tool says of a program that is older, that leaves an end out, or that has the proved one's name."""
    path, kept = Path(folder, "tardis"), os.environ["TARDIS"]
    few = ("--seeds", "1", "--threads", "0", SB)
    for first, status, said in ((OLD, 0, NOT_PROVED), (NO_ORDERS, 0, NOT_PROVED), ("", 0, PROVED), (None, 0, NOT_PROVED),
                                (SHORT, 2, "0:x7=1 1:x7=1 is met and not listed")):
        path.write_text(f"#!/bin/sh\noracle='{TOP / 'reference/oracle.py'}'\n{first}\nexec \"$oracle\" \"$@\"\n")
        path.chmod(0o755)
        os.environ["TARDIS"] = str(path) if first is not None else str(TOP / "reference/oracle.py")
        got = tester.run(*few)
        tester.expect(got[0] == status and said in got[1] + got[2], f"{first}: {got}, wanted {said}")
        # One seed meets one of three ends; the others have orders of four operations.
        orders = re.findall(r"^    order( P[01]:[12]){4}$", got[1], re.M)
        tester.expect(len(orders) == (0 if status else 2), f"{first}: orders: {got[1]}")
    os.environ["TARDIS"] = kept


def of_tool(program):
    """Tries tools/ends.py."""
    tester = Tester(str(TOP / "tools/ends.py"))
    os.environ["TARDIS"] = program or str(TOP / "reference/oracle.py")
    for case in MET:
        met(tester, *case)
    with tempfile.TemporaryDirectory() as folder:
        graded(tester, folder)
        by_others(tester, folder)
        path = Path(folder, "unmeant.litmus")
        path.write_text(UNMEANT)
        lines = tester.run("--seeds", "1", "--threads", "0", str(path))[1].splitlines()
        tester.expect(lines[1:4] == WARNINGS, f"warnings: {lines}")
    if program:
        for words, count in ((("--threads", "20"), 20), ((), 100)):
            status, out, error = tester.run("--seeds", "1", *words, SB)
            runs = sum(map(int, re.findall(rf"by threads \((\d+) of {count}\)", out)))
            tester.expect((status, error, runs) == (0, "", count), f"by threads: {status} {out} {error}")
    words = ("--seeds", "20", "--threads", "0")
    got, wanted = tester.run(*words, "/dev/stdin", text=Path(SB).read_bytes()), tester.run(*words, SB)
    tester.expect((got[0], got[1].replace("/dev/stdin", SB), got[2]) == wanted and wanted[0] == 0, f"a pipe: {got}")
    got = tester.run("--states", "6", SB)
    tester.expect(got == (2, "", f"ends.py: {SB}: {SIX}"), f"6 states: {got}")
    return tester


def main(*words):
    is_lists, program = words[:1] == ("--lists",), words[-1] if words else None
    program = program and os.path.abspath(program)
    os.chdir(TOP)
    tester = Tester(program) if is_lists else of_tool(program)
    if not is_lists:
        tester.program = str(TOP / "reference/sequential.py")
        by_hand(tester)
        total_store_order(tester)
    with ProcessPoolExecutor(cpu_count()) as pool:
        for tried, wrong in pool.map(compared, ((program, *case) for case in texts()), chunksize=8):
            tester.tried += tried
            tester.wrong += wrong
    print(f"{tester.tried} tried, {tester.wrong} wrong")
    return int(bool(tester.wrong))


if __name__ == "__main__":
    sys.exit(main(*sys.argv[1:]) if len(sys.argv) in ((3,) if "--lists" in sys.argv else (1, 2)) else __doc__)
