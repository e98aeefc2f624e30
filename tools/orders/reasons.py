"""Why a history has no order, in lines that a person can check: facts, each from those that it names."""
from tools.orders.problem import OPENING

# What the edges' rules say, of the lines r (a read), s (its source), w (another write of the word, or another read that
# received another value) and n (any operation).
RULES = {
    "program": "program order",
    "real time": "it ended before the other started",
    "source": "line {r} received what line {s} wrote",
    "opening": "line {r} received the word's opening value",
    "earlier": "line {r} is behind line {w}, and received what line {s} wrote",
    "overwrites": "line {r} received what line {s} wrote, before line {w} overwrote it",
    "all behind": "whichever line {r} received from is line {n} or behind it",
    "all before": "whichever line {r} received from comes before line {w}, which overwrote it",
    "all between": "line {r} is behind line {w}, and whichever it received from is line {n} or before it",
}

MOST_TOLD = 100  # operations of a set


class Proof:
    """Facts by number, in an order in which each has what it needs above it."""

    def __init__(self, problem, forced):
        self.problem, self.forced, self.facts, self.numbers = problem, forced, [], {}

    def line(self, node):
        return self.problem.operations[node].line

    def state(self, key, said, because=()):
        """The number of a fact; each is stated once."""
        if key not in self.numbers:
            by = f", by {', '.join(map(str, sorted(set(because))))}" if because else ""
            self.facts.append(f"{len(self.facts) + 1}: {said}{by}")
            self.numbers[key] = len(self.facts)
        return self.numbers[key]

    def ring(self, nodes):
        """The operations of a ring, with its facts stated. Neighbouring steps of one chain count as one. From the last
        operation to the first goes an edge: `Forced.shortest_ring` begins with one."""
        steps = list(self.steps([*nodes, nodes[0]]))
        for one, other in steps:
            self.step(one, other)
        return [one for one, _ in steps]

    def is_chain(self, step):
        one, other = step
        return other not in self.forced.edges[one]

    def steps(self, path):
        """The pairs along a path, with neighbouring steps of one chain joined."""
        start = None
        for one, other in zip(path, path[1:]):
            if not self.is_chain((one, other)):
                if start is not None:
                    yield start, one
                yield one, other
                start = None
            elif start is None:
                start = one
        if start is not None:
            yield start, path[-1]

    def between(self, one, other, level):
        """The facts that say that one comes before another, by edges before this round."""
        path, _ = self.forced.path(one, other, level)
        return [self.step(*step) for step in self.steps(path)]

    def step(self, one, other):
        edge = self.forced.edges[one].get(other)
        said = f"line {self.line(one)} before line {self.line(other)}: "
        if edge is None or edge.rule == "program":
            return self.state((one, other), said + self.program_order(one))
        if (one, other) in self.numbers:
            return self.numbers[one, other]
        read, source = (*edge.cites, None, None)[:2]
        is_first = edge.rule in ("earlier", "all between", "all behind")
        write, behind = (one, other) if is_first else (other, one)
        names = {"r": read, "s": source, "w": write, "n": write if edge.rule == "all behind" else behind}
        names = {name: self.line(node) for name, node in names.items() if node not in (None, OPENING)}
        said += RULES[edge.rule].format(**names)
        if read is not None and edge.rule not in ("source", "all behind"):
            said += self.differing(write)
        return self.state((one, other), said, self.because(edge, read, source, write, behind))

    def because(self, edge, read, source, write, behind):
        """The facts that an edge rests on."""
        if read is None:
            return []
        because = self.source_of(read, edge.level)
        if edge.rule in ("earlier", "all between"):
            because = because + self.seen_by(write, read, edge.level)
        if edge.rule == "overwrites":
            because = because + self.between(source, write, edge.level)
        if edge.rule.startswith("all"):
            for end in self.possible_ends(read, edge.level, is_first=edge.rule == "all behind"):
                path = {"all behind": (write, end), "all before": (end, write), "all between": (end, behind)}[edge.rule]
                because = because + self.between(*path, edge.level)
        return because

    def possible_ends(self, read, level, is_first):
        """Of each chain, the first or the last source that a read may have by then."""
        ends = self.forced.ends(self.possible(read, level))
        return ends[0] if is_first else ends[1]

    def possible(self, read, level):
        """The sources that a read may have by a round."""
        dropped = self.forced.dropped[read]
        return sorted(source for source in (*self.forced.sources[read], *dropped)
                      if source not in dropped or dropped[source][-1] > level)

    def differing(self, node):
        """That an operation is no write, where the rule speaks of one."""
        is_write = self.problem.operations[node].written is not None
        return "" if is_write else f"; line {self.line(node)} received another value"

    def program_order(self, node):
        core = f"program order of core {self.problem.operations[node].core}"
        return core if self.problem.model == "sc" else f"{core}, kept under total store order"

    def seen_by(self, write, read, level):
        """That a write comes before a read, or is one of its core's own before it."""
        if write == self.problem.own[read]:
            return [self.state(("own", read), f"line {self.line(read)} sees line {self.line(write)}, its core's last "
                                              "write of the word before it")]
        return self.between(write, read, level)

    def source_of(self, read, level):
        """The facts that leave a read one source: none if only one operation wrote the value."""
        operation = self.problem.operations[read]
        dropped = {source: why for source, why in self.forced.dropped[read].items() if why[-1] <= level}
        if not dropped:
            return []
        because = [self.not_from(read, source, *why) for source, why in dropped.items()]
        left = self.possible(read, level)
        if not left:
            return because
        named = [f"line {self.line(source)}" for source in left if source != OPENING]
        named = [f"what {', '.join(named)} wrote"] * bool(named) + ["the opening value"] * (OPENING in left)
        return [self.state(("source", read, len(left)), f"line {self.line(read)} received {' or '.join(named)}: no "
                                                        f"other {operation.received} is left", because)]

    def not_from(self, read, source, why, write, level):
        key, line = ("not", read, source), self.line(read)
        if key in self.numbers:
            return self.numbers[key]
        if why == "later":
            because = self.between(read, source, level)
            return self.state(key, f"line {line} received nothing from line {self.line(source)}, which is later",
                              because)
        because = self.seen_by(write, read, level)
        is_write, other = self.problem.operations[write].written is not None, f"line {self.line(write)}"
        if why == "written":
            end = f"{other} had overwritten it" if is_write else f"{other}, before it, received another value"
            return self.state(key, f"line {line} didn't receive the opening value: {end}", because)
        because = because + self.between(source, write, level)
        end = f"{other} had overwritten it" if is_write else f"{other}, between them, received another value"
        return self.state(key, f"line {line} received nothing from line {self.line(source)}: {end}", because)


def lines_of_ring(problem, forced, ring):
    proof = Proof(problem, forced)
    nodes = proof.ring(ring)
    yield "not consistent: each of these comes before the next, and the last one before the first:"
    yield from (f"  {problem.operations[node].told()}" for node in nodes)
    yield "Facts, each from those that it names:"
    yield from (f"  {fact}" for fact in proof.facts)


def lines_of_read(problem, forced, read):
    operation = problem.operations[read]
    if not forced.dropped[read]:
        yield f"not consistent: {operation.told()}, and nothing wrote that there"
        return
    yield f"not consistent: {operation.told()}, and each write of that value is ruled out:"
    proof = Proof(problem, forced)
    proof.source_of(read, forced.level)
    yield from (f"  {fact}" for fact in proof.facts)


def lines_of_set(problem, is_least, cores):
    """Operations that no order joins, though no ring shows it; with layers, up to the last one of any of some cores."""
    numbers = list(map(str, sorted(cores)))
    named = " or ".join(filter(None, (", ".join(numbers[:-1]), *numbers[-1:])))
    said = f"gets to the last one of core {named}" if cores else "explains what they received"
    yield (f"not consistent: no order of these {len(problem.nodes)} operations {said}"
           + (", and none can be left out:" if is_least else "; perhaps fewer would do:"))
    by_core = sorted(problem.nodes, key=lambda node: (problem.operations[node].core, problem.operations[node].line))
    yield from (f"  {problem.operations[node].told()}" for node in by_core[:MOST_TOLD])
    if len(by_core) > MOST_TOLD:
        yield f"  and {len(by_core) - MOST_TOLD} more"
