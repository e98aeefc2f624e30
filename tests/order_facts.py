"""Whether what tools/order.py prints of a history without an order is right, line by line: for tests/order.py."""
import re

from tests.listed_orders import has_buffered_order, has_listed_order

# A fact, and what it cites. Each has its own test in `fact_holds`.
FACT = re.compile(r"  (\d+): (.*?)(?:, by ([\d, ]+))?")
ORDERED = r"line (\d+) before line (\d+): "


class Lines(dict):
    """Operations by line, and what memory opens with. Where stores are delayed, `own` has of each load the line of its
    core's last store or swap of the word before it: a load sees that even early."""

    def __init__(self, operations, opening=(), model="sc", real_time=False):
        super().__init__((operation.line, operation) for operation in operations)
        self.opening, self.is_delayed, self.real_time, self.own, last = dict(opening), model == "tso", real_time, {}, {}
        for one in operations if self.is_delayed else ():
            if one.kind == "R" and (one.core, one.address) in last:
                self.own[one.line] = last[one.core, one.address]
            elif one.kind in "WS":
                last[one.core, one.address] = one.line

    def opens(self, read):
        """The word of a read opens with what it received."""
        return self.opening.get(read.address, 0) == read.received

    def keeps(self, one, other):
        """One comes before the other by program order, where a load may pass its core's stores."""
        if one.core != other.core or one.line >= other.line:
            return False
        return not self.is_delayed or (one.kind, other.kind) != ("W", "R") or any(
            each.core == one.core and one.line < each.line < other.line and each.kind in "FS" for each in self.values())


def facts_hold(operations, lines, **settings):
    """Each fact printed is right, from those that it names alone, and the ring's neighbours are facts. A set without
    facts must have no order by listing, and must have one without any operation that may be left out."""
    if lines[0].startswith("not consistent: no order of these"):
        return set_holds(operations, lines, **settings)
    by_line, facts = Lines(operations, **settings), {}
    found = [FACT.fullmatch(line) for line in lines]
    for match in filter(None, found):
        cited = [facts.get(int(number)) for number in (match[3] or "").split(", ") if number]
        if None in cited or not fact_holds(by_line, match[2], cited):
            return False
        facts[int(match[1])] = match[2]
    if "nothing" in lines[0] or "ruled out" in lines[0]:
        return read_holds(by_line, lines[0], facts.values())
    ring = [int(re.match(r"  line (\d+)", line)[1]) for line in lines if line.startswith("  line")]
    ordered = {tuple(map(int, match.groups())) for fact in facts.values() if (match := re.match(ORDERED, fact))}
    return len(ring) > 0 and all(pair in ordered for pair in zip(ring, [*ring[1:], ring[0]]))


def written_by(by_line, line, read):
    """This line wrote what the read received, and no other did."""
    return [other.line for other in by_line.values() if other is not read and other.kind != "F"
            and (other.address, other.written) == (read.address, read.received)] == [line] and not by_line.opens(read)


def is_source(by_line, read, line, cited):
    """The read's source is this line: it alone wrote the value, or a cited fact says so."""
    return written_by(by_line, line, read) or any(
        fact.startswith(f"line {read.line} received what line {line} wrote: no other") for fact in cited)


def is_seen(by_line, cited, write, read):
    """The cited facts lead from a write to a read, or say that it is the read's own core's last one before it."""
    return goes(cited, write, read) or by_line.own.get(read) == write and any(
        fact.startswith(f"line {read} sees line {write}, ") for fact in cited)


def goes(cited, one, other, by_line=()):
    """The cited facts lead from one line to the other, with the program order of these lines."""
    steps = [tuple(map(int, match.groups())) for fact in cited if (match := re.match(ORDERED, fact))]
    reached = {one}
    while True:
        more = {end for start, end in steps if start in reached} | {
            line for line in by_line for start in reached if by_line.keeps(by_line[start], by_line[line])}
        more -= reached
        if not more:
            return other in reached
        reached |= more


def fact_holds(by_line, fact, cited):
    """By the rules of tools/orders/reasons.py, each looked at on its own."""
    match = re.fullmatch(ORDERED + "(.*)", fact)
    if not match:
        return source_holds(by_line, fact, cited)
    one, other, (why, _, rest) = by_line[int(match[1])], by_line[int(match[2])], match[3].partition("; ")
    numbers = list(map(int, re.findall(r"line (\d+)", why)))
    if why.startswith("program order"):
        return by_line.keeps(one, other) and why == f"program order of core {one.core}" + (
            ", kept under total store order" if by_line.is_delayed else "")
    if why == "it ended before the other started":
        return by_line.real_time and None not in (one.end, other.start) and one.end < other.start
    if "opening value" in why:
        opened = by_line.opens(one) and not any(each.written == one.received and each.address == one.address and
                                                each is not one for each in by_line.values())
        told = any(fact.startswith(f"line {one.line} received the opening value: no other") for fact in cited)
        return numbers == [one.line] and (opened or told) and one.line not in by_line.own and \
            differs(by_line, other, one, rest)
    read = by_line[numbers[0]]
    if "whichever" in why:
        return whichever_holds(by_line, read, one, other, numbers[1:], rest, cited)
    if "behind" in why:
        _, write, source = numbers
        return (write, source) == (one.line, other.line) and is_source(by_line, read, source, cited) and \
            is_seen(by_line, cited, write, read.line) and differs(by_line, one, read, rest)
    if "before" in why:
        _, source, write = numbers
        return (read, write) == (one, other.line) and is_source(by_line, read, source, cited) and \
            goes(cited, source, write) and differs(by_line, other, read, rest)
    return numbers == [other.line, one.line] and is_source(by_line, other, one.line, cited) and \
        by_line.own.get(other.line) != one.line


def differs(by_line, other, read, rest):
    """It wrote the read's word, or the fact's rest says that it received another value there, and it did, from
    memory."""
    received = rest == f"line {other.line} received another value" and \
        other.received not in (None, read.received) and other.line not in by_line.own
    return other is not read and other.address == read.address and (other.written is not None or received)


def writers_of(by_line, read):
    """What may have written what a read received, as far as values go."""
    return {each.line for each in by_line.values() if each is not read and each.written == read.received
            and each.address == read.address} | ({"opening"} if by_line.opens(read) else set())


def named_by(fact):
    """The sources that a fact leaves a read."""
    return set(map(int, re.findall(r"line (\d+)", fact)[1:])) | ({"opening"} if "opening" in fact else set())


def whichever_holds(by_line, read, one, other, numbers, rest, cited):
    """A fact about all that a read may have received from: that all are behind a line, or before one."""
    left = [named_by(fact) for fact in cited if fact.startswith(f"line {read.line} received ") and "no other" in fact]
    sources = left[0] if left else writers_of(by_line, read)
    lines = sources - {"opening"}
    if other is read:
        return numbers == [one.line] and lines == sources and by_line.own.get(read.line) not in lines and all(
            line == one.line or goes(cited, one.line, line, by_line) for line in lines)
    if one is read:
        return numbers == [other.line] and differs(by_line, other, read, rest) and all(
            goes(cited, line, other.line, by_line) for line in lines)
    return numbers == [one.line, other.line] and lines == sources and one.line not in lines and \
        differs(by_line, one, read, rest) and is_seen(by_line, cited, one.line, read.line) and all(
            line == other.line or goes(cited, line, other.line, by_line) for line in lines)


def source_holds(by_line, fact, cited):
    """Facts about where a value comes from."""
    numbers = list(map(int, re.findall(r"line (\d+)", fact)))
    read = by_line[numbers[0]]
    if fact == f"line {numbers[0]} sees line {numbers[-1]}, its core's last write of the word before it":
        return by_line.own.get(read.line) == numbers[1]
    if "no other" in fact:
        out = {"opening" if "opening" in each else int(re.findall(r"line (\d+)", each)[1]) for each in cited
               if each.startswith(f"line {read.line} received nothing from")
               or each.startswith(f"line {read.line} didn't")}
        return writers_of(by_line, read) - out == named_by(fact)
    if "which is later" in fact:
        return goes(cited, read.line, numbers[1]) and by_line.own.get(read.line) != numbers[1]
    write = by_line[numbers[-1]]
    rest = f"line {write.line} received another value" if "received another value" in fact else ""
    is_write = differs(by_line, write, read, rest) and is_seen(by_line, cited, write.line, read.line)
    return is_write and ("didn't" in fact or goes(cited, numbers[1], write.line))


def read_holds(by_line, first, facts):
    """A read that nothing explains: each operation that wrote the value is ruled out by a fact."""
    read = by_line[int(re.search(r"line (\d+)", first)[1])]
    ruled_out = {"opening" if "opening" in fact else int(re.findall(r"line (\d+)", fact)[1]) for fact in facts
                 if fact.startswith((f"line {read.line} received nothing", f"line {read.line} didn't"))}
    return ruled_out == writers_of(by_line, read)


def set_holds(operations, lines, opening=(), model="sc", real_time=False):
    """What is left out is no source of what is kept, unless it is behind the last one of a core that is named."""
    ends = set(map(int, re.findall(r"\d+", lines[0].partition("the last one of core ")[2])))
    kept = {int(re.match(r"  line (\d+)", line)[1]) for line in lines[1:]}
    part = [operation for operation in operations if operation.line in kept]

    def has_order(some):
        return has_buffered_order(some, opening) if model == "tso" else \
            has_listed_order(some, real_time, ends=ends, opening=opening)

    def may_go(one, rest):
        last = max((other.line for other in rest if other.core == one.core), default=0)
        return one.core in ends and one.line > last or one.written is None or not any(
            (other.address, other.received) == (one.address, one.written) for other in rest)
    rests = [(one, [other for other in part if other is not one]) for one in part]
    return "none can be left out" in lines[0] and not has_order(part) and \
        all(one in part or may_go(one, part) for one in operations) and all(
            has_order(rest) for one, rest in rests if may_go(one, rest) and ends <= {other.core for other in rest})
