#!/usr/bin/env python3
"""Writes the litmus test of a critical cycle, named as herd7's family of tools names it, and says why no order has it.

    tools/cycles.py PodWR Fre PodWR Fre     the test of these edges, store buffering
    tools/cycles.py SB                      the same, by its name
    tools/cycles.py --all 6                 all critical cycles of at most 6 edges, by their names
    tools/cycles.py --all 6 --into FOLDER   their tests, each as a file of the folder
    tools/cycles.py --why TEST ..           the rings that forbid what these tests ask for, or an order that ends so

An edge leads from one operation to the next; the last one leads back to the first:

    PodWW PodWR PodRW PodRR   to another word, later in the thread; W is a store, R a load
    Rfe                       from a store to another thread's load, which sees it
    Fre                       from a load to another thread's store, which it misses
    Wse (or Coe)              from a store to another thread's store, which overwrites it

A cycle is critical if each thread has one or two operations and each word two or three, and no edge can be left out.
So it has two Pod at least and never one behind another; Rfe Fre, Wse Wse and Fre Wse say what one edge says. The test
asks for the end that only this cycle has: sequential consistency forbids it. The test's second line is the cycle, and
its third the reason. --width d makes words of 8 bytes.

If a test asks for several ends, --why names behind each ring the ends that have an execution with this ring.

The status is 0. It is 1 if --why finds no ring, and 2 if something can't be read; standard error says so in one line.
"""
import sys
from pathlib import Path

sys.path.insert(0, str(Path(__file__).resolve().parent.parent))
from reference import sequential  # noqa: E402
from reference.given import Bad, Words, contents, litmus_test, tool  # noqa: E402
from tools import rings  # noqa: E402


# By edge what its operations are.
EDGES = {"Rfe": "WR", "Fre": "RW", "Wse": "WW", "PodWW": "WW", "PodWR": "WR", "PodRW": "RW", "PodRR": "RR"}
ONE_SAYS_IT = {("Rfe", "Fre"): "Wse", ("Wse", "Wse"): "Wse", ("Fre", "Wse"): "Fre"}
KINDS = {"W": "store", "R": "load"}
WORDS = "xyzabcdefghijklm"
MOST_EDGES = 12
NAMES = {"SB": "PodWR Fre PodWR Fre", "MP": "PodWW Rfe PodRR Fre", "LB": "PodRW Rfe PodRW Rfe",
         "R": "PodWW Wse PodWR Fre", "S": "PodWW Rfe PodRW Wse", "2+2W": "PodWW Wse PodWW Wse",
         "WRC": "Rfe PodRW Rfe PodRR Fre", "RWC": "Rfe PodRR Fre PodWR Fre", "WWC": "Rfe PodRW Rfe PodRW Wse",
         "WRW+WR": "Rfe PodRW Wse PodWR Fre", "WRR+2W": "Rfe PodRR Fre PodWW Wse",
         "WRW+2W": "Rfe PodRW Wse PodWW Wse", "ISA2": "PodWW Rfe PodRW Rfe PodRR Fre",
         "W+RWC": "PodWW Rfe PodRR Fre PodWR Fre", "Z6.0": "PodWW Rfe PodRW Wse PodWR Fre",
         "Z6.1": "PodWW Wse PodWW Rfe PodRW Wse", "Z6.2": "PodWW Rfe PodRW Rfe PodRW Wse",
         "Z6.3": "PodWW Wse PodWW Rfe PodRR Fre", "Z6.4": "PodWW Wse PodWR Fre PodWR Fre",
         "Z6.5": "PodWW Wse PodWW Wse PodWR Fre", "3.SB": "PodWR Fre PodWR Fre PodWR Fre",
         "3.LB": "PodRW Rfe PodRW Rfe PodRW Rfe", "3.2W": "PodWW Wse PodWW Wse PodWW Wse",
         "IRIW": "Rfe PodRR Fre Rfe PodRR Fre", "IRRWIW": "Rfe PodRR Fre Rfe PodRW Wse",
         "IRWIW": "Rfe PodRW Wse Rfe PodRW Wse"}


def turns(edges):
    """The same cycle from each of its operations on."""
    return [edges[at:] + edges[:at] for at in range(len(edges))]


NAMED = {turn: name for name, edges in NAMES.items() for turn in turns(tuple(edges.split()))}


def joint_fault(one, two):
    """Why the second edge can't follow the first one, or None."""
    if EDGES[one][1] != EDGES[two][0]:
        return f"{one} leads to a {KINDS[EDGES[one][1]]}, and {two} begins at a {KINDS[EDGES[two][0]]}"
    together = ONE_SAYS_IT.get((one, two)) or (f"Pod{one[3]}{two[4]}" if one[0] + two[0] == "PP" else None)
    return together and f"{one} {two} says what {together} says: write that"


def fault_of(edges):
    """Why these edges aren't a critical cycle, or None."""
    found = next(filter(None, map(joint_fault, edges, edges[1:] + edges[:1])), None)
    if not found and sum(edge.startswith("Pod") for edge in edges) < 2:
        found = "a critical cycle has two Pod at least"
    return found or (f"a cycle has {MOST_EDGES} edges at most" if len(edges) > MOST_EDGES else None)


def name_of(edges):
    return NAMED.get(edges) or "+".join(first_turn(edges))


def first_turn(edges):
    """The turn by which a cycle is listed: as its name has it, or else the first one behind an edge between threads."""
    if edges in NAMED:
        return tuple(NAMES[NAMED[edges]].split())
    return min((turn for turn in turns(edges) if turn[-1].endswith("e")), key=lambda turn: [*map([*EDGES].index, turn)])


class Step:
    """An operation of a cycle, and the edge that leads on from it. tools/rings.py has its words, too."""

    def __init__(self, edge, thread, word):
        self.edge, self.thread, self.name, self.word = edge, thread, word, word
        self.kind = KINDS[EDGES[edge][0]]
        self.value = None  # what it stores or sees
        self.which = None  # its thread does this once


class Cycle:
    """The operations of a critical cycle. The first one is behind an edge from another thread."""

    def __init__(self, edges):
        self.edges = next(turn for turn in turns(edges) if turn[-1].endswith("e"))
        self.steps = []
        thread, word, words = 0, 0, sum(edge.startswith("Pod") for edge in edges)
        for edge in self.edges:
            self.steps.append(Step(edge, thread, WORDS[word % words]))
            thread, word = (thread, word + 1) if edge.startswith("Pod") else (thread + 1, word)
        self.threads = [[step for step in self.steps if step.thread == one] for one in range(thread)]
        self.number_stores()

    def number_stores(self):
        """A word's stores write 1 and 2, in the cycle's order. A load sees the last one before it."""
        first = next(at for at in range(len(self.steps)) if self.edges[at - 1].startswith("Pod"))
        self.stored = {}
        for step in self.steps[first:] + self.steps[:first]:
            step.value = self.stored[step.name] = self.stored.get(step.name, 0) + (step.kind == "store")

    def reason(self):
        return rings.reason([(step, step.edge) for step in self.steps])

    def condition(self):
        ends = [f"{name}={count}" for name, count in sorted(self.stored.items()) if count > 1]
        ends += [f"{thread}:x{5 + 2 * place}={step.value}" for thread, steps in enumerate(self.threads)
                 for place, step in enumerate(steps) if step.kind == "load"]
        return "exists (" + " /\\ ".join(ends) + ")"

    def column(self, thread, width):
        """A thread's instructions. Its first operation has x5 and the address x6, its second x7 and x8."""
        for place, step in enumerate(self.threads[thread]):
            value, address = 5 + 2 * place, 6 + 2 * place
            if step.kind == "store":
                yield f"ori x{value},x0,{step.value}"
            yield f"{'l' if step.kind == 'load' else 's'}{width} x{value},0(x{address})"

    def test(self, width="w"):
        """The lines of the test."""
        yield f"RISCV {name_of(self.edges)}"
        yield f'"{" ".join(self.edges)}"'
        yield f"why={self.reason()}"
        yield "{"
        for thread, steps in enumerate(self.threads):
            yield " ".join(f"{thread}:x{6 + 2 * place}={step.name};" for place, step in enumerate(steps))
        yield "}"
        columns = [[f"P{thread}", *self.column(thread, width)] for thread in range(len(self.threads))]
        rows = [[cell.ljust(max(map(len, column))) for cell in column] for column in columns]
        blanks = [" " * len(column[0]) for column in rows]
        for at in range(max(map(len, rows))):
            cells = [column[at] if at < len(column) else blank for column, blank in zip(rows, blanks)]
            yield f" {' | '.join(cells)} ;"
        yield self.condition()


def paths(count):
    """All sequences of that length in which no edge is at fault next to the one before it."""
    found = [()]
    for _ in range(count):
        found = [(*path, edge) for path in found for edge in EDGES if not path or not joint_fault(path[-1], edge)]
    return found


def family(most):
    """The critical cycles of at most `most` edges, each once."""
    for count in range(4, most + 1):
        yield from dict.fromkeys(first_turn(edges) for edges in paths(count) if not fault_of(edges))


def cycle_of(words):
    """The cycle that a command line names."""
    edges = tuple(NAMES[words[0]].split() if words[0] in NAMES and len(words) == 1 else
                  (word.replace("Coe", "Wse") for word in words))
    for edge in edges:
        if edge not in EDGES:
            raise Bad(f"{edge} is no edge: they are {', '.join(EDGES)} (--help tells all)")
    fault = fault_of(edges)
    if fault:
        raise Bad(fault)
    return Cycle(edges)


def order_of(test):
    """The first order of the threads' memory instructions that ends as a test asks, or otherwise if it asks `forall`:
    of the least such end. P0:2 is thread 0's second one."""
    ends, _ = sequential.explored(sequential.Flat(test))
    return ends[min(end for end in ends if test.holds(end) == (test.kind != "forall"))]


def told_why(path):
    """The lines that say why no order ends as a test asks, or otherwise if it asks `forall`; and whether none does."""
    test = litmus_test(path, contents(path))
    try:
        found = rings.rings_and_ends(test)
    except rings.TooMany as cause:
        raise Bad(f"{path}: {cause}") from None
    if not found:
        ends = "otherwise" if test.kind == "forall" else "so"
        why = f"no values end {ends}" if found == [] else f"an order ends {ends}: {' '.join(order_of(test))}"
        return [f"{path}: no ring: {why}"], False
    lines, has_several = [], len(set.union(*(ends for _, ends in found))) > 1
    for ring, ends in found:
        lines += [f"{test.name}: {rings.cycle_of(ring)}", f"  {rings.reason(ring)}"]
        lines += [f"  ends: {'; '.join(map(sequential.text_of, sorted(ends)))}"] * has_several
    return lines, True


def write_all(most, folder, width):
    """Lists a family, or writes its tests."""
    for count, edges in enumerate(family(most), 1):
        if folder is None:
            print(f"{NAMED[edges]}: {' '.join(edges)}" if edges in NAMED else " ".join(edges))
        else:
            text = "\n".join(Cycle(edges).test(width)) + "\n"
            Path(folder, name_of(edges) + ".litmus").write_text(text, encoding="ascii")
    if folder is not None:
        print(f"{count} tests are in {folder}")


def main(given):
    words = Words(__doc__)
    words.add_argument("EDGE", nargs="*", help="the cycle's edges, or a name such as SB")
    words.add_argument("--width", choices=["w", "d"], default="w", help="words of 4 or of 8 bytes (w)")
    words.add_argument("--all", type=int, metavar="N", help="all cycles of at most N edges, 4 to 8")
    words.add_argument("--into", metavar="FOLDER", help="with --all: writes their tests there")
    words.add_argument("--why", nargs="+", metavar="TEST", help="why no order ends as these tests ask")
    options = words.parse_args(given)
    if bool(options.EDGE) + (options.all is not None) + bool(options.why) != 1:
        raise Bad("edges are wanted, or --all, or --why (--help tells all)")
    if options.into is not None and options.all is None:
        raise Bad("--into needs --all (--help tells all)")
    if options.why:
        told = [told_why(path) for path in options.why]
        print("\n".join(line for lines, _ in told for line in lines))
        return int(not all(good for _, good in told))
    if options.EDGE:
        print("\n".join(cycle_of(options.EDGE).test(options.width)))
        return 0
    if not 4 <= options.all <= 8:
        raise Bad("--all takes 4 to 8 edges")
    if options.into is not None and not Path(options.into).is_dir():
        raise Bad(f"{options.into} is no folder")
    write_all(options.all, options.into, options.width)
    return 0


if __name__ == "__main__":
    tool(main)
