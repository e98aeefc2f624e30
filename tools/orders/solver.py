"""What is left of a search, given to z3 (Debian's package of that name) if it is installed.

An order is a number for each operation, and z3 reasons about differences of numbers. So what comes before what needn't
be written out for each three operations, as for solvers of bare logic such as cadical and minisat. It runs as a
program of its own, which can be ended at any time. Like the search, nobody needs to trust it.
"""
import re
import shutil
import subprocess

from tools.orders.problem import OPENING

MOST_CLAUSES = 1_500_000  # more take z3 minutes to read, and gigabytes
LOGIC = "(set-logic QF_IDL)"  # differences of whole numbers


class TooLarge(Exception):
    """The question would be too long."""


def is_installed():
    return shutil.which("z3") is not None


class Question:
    """The text for z3: t7 is the number of node 7, s7_3 says that read 7 received what node 3 wrote."""

    def __init__(self, problem, forced):
        self.problem, self.forced, self.lines, self.by_word = problem, forced, [], {}
        for node in problem.nodes:
            self.lines.append(f"(declare-const t{node} Int)")
        for nodes in problem.chains:
            self.claim(*(f"(< t{one} t{other})" for one, other in zip(nodes, nodes[1:])))
        for one in problem.nodes:
            self.claim(*(f"(< t{one} t{other})" for other in forced.edges[one]))
        for address, chains in problem.writes.items():
            self.by_word[address] = [problem.chains[chain][place] for chain, places in chains.items()
                                     for place in places]
            self.separate(self.by_word[address])
        for read in forced.sources:
            self.ask_source(read)

    def claim(self, *claims):
        if len(self.lines) + len(claims) > MOST_CLAUSES:
            raise TooLarge
        self.lines += [f"(assert {claim})" for claim in claims]

    def known(self, one, other):
        return self.forced.comes_before(one, other)

    def separate(self, writes):
        for at, one in enumerate(writes):
            self.claim(*(f"(or (< t{one} t{other}) (< t{other} t{one}))" for other in writes[:at]
                         if not self.known(one, other) and not self.known(other, one)))

    def ask_source(self, read):
        sources = self.forced.sources[read]
        if len(sources) == 1:
            self.claim(*self.meant(read, *sources))
            return
        names = [f"s{read}_{'opening' if source == OPENING else source}" for source in sources]
        self.lines += [f"(declare-const {name} Bool)" for name in names]
        self.claim(f"(or {' '.join(names)})")
        for name, source in zip(names, sources):
            self.claim(*(f"(or (not {name}) {what})" for what in self.meant(read, source)))

    def meant(self, read, source):
        """What holds if a read received from this source: no other write lies between."""
        own, writes = self.problem.own[read], self.by_word.get(self.problem.operations[read].address, ())
        if source not in (OPENING, own) and not self.known(source, read):
            yield f"(< t{source} t{read})"
        for write in writes:
            if write in (read, source):
                continue
            if source == OPENING:
                if not self.known(read, write):
                    yield f"(< t{read} t{write})"
            elif write == own:
                if not self.known(write, source):
                    yield f"(< t{write} t{source})"
            elif not self.known(write, source) and not self.known(read, write):
                yield f"(or (< t{write} t{source}) (< t{read} t{write}))"

    def text(self):
        return "\n".join([LOGIC, *self.lines, "(check-sat)", "(get-model)", ""])


def ask(problem, forced, seconds):
    """An order, as a list of nodes; False if there is none; None if z3 doesn't know by then."""
    try:
        text = Question(problem, forced).text()
        ran = subprocess.run(["z3", "-in", f"-T:{max(1, int(seconds))}"], input=text, capture_output=True, text=True,
                             timeout=seconds + 5, check=False)
    except (TooLarge, OSError, subprocess.TimeoutExpired):
        return None
    if ran.stdout.startswith("unsat"):
        return False
    if not ran.stdout.startswith("sat"):
        return None
    numbers = {int(node): int(re.sub(r"[()\s]", "", number)) for node, number in re.findall(
        r"\(define-fun t(\d+) \(\) Int\s+(\(- \d+\)|\d+)\)", ran.stdout)}
    return sorted(problem.nodes, key=lambda node: numbers.get(node, 0))  # z3 says nothing of a node without claims
