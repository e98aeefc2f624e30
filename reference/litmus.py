"""Litmus tests, as docs/TEXTS.md has them. Good texts only: reference/litmus_faults.py finds the fault of a bad one."""
import re

NAME = r"\d+:x\d+|[A-Za-z_]\w*"  # a register of a thread, or a location


class Test:
    """What a text says: name, threads (lists of instructions), how they open, locations, condition. Of the text itself
    there are the header lines, the initial block, the table, and the question: keyword and expression, in one line."""

    def __init__(self, text):
        self.name = text.split("\n")[0].split()[1]
        # A header line may have braces, too. None begins with one.
        preamble, text = re.split(r"^[ \t\r]*{", text, maxsplit=1, flags=re.M)
        self.header = preamble.partition("\n")[2]
        self.opening, rest = text.split("}", 1)
        self.words = {}    # location -> word number, in the order of first naming
        self.memory = {}   # word number -> opening value
        self.start = {}    # (thread, register) -> opening value, or word number of an address register
        for item in filter(None, (re.sub(r"\s", "", i) for i in self.opening.split(";"))):
            left, right = item.split("=")
            thread, _, register = left.partition(":")
            if register:
                self.start[int(thread), register] = int(right) if right.isdigit() else self.word(right)
            else:
                self.memory[self.word(left)] = int(right)
        self.table, self.kind, condition = re.fullmatch(
            r"(.*?)^[ \t\r]*(exists|~exists|forall)\b(.*)", rest, re.S | re.M).groups()
        self.question = " ".join((self.kind + condition).split())
        rows = [line.strip().rstrip(";").split("|") for line in self.table.split("\n") if line.strip()]
        self.threads = [[self.instruction(thread, row[thread].strip()) for row in rows[1:] if row[thread].strip()]
                        for thread in range(len(rows[0]))]
        condition = re.sub(r"\s*([:=])\s*", r"\1", " ".join(condition.split()))
        self.seen = list(dict.fromkeys(re.findall(NAME, condition)))  # in the order of first naming
        for name in self.seen:
            if ":" not in name:
                self.word(name)
        # The condition in Python's words: `or` binds weaker than `and`, as \/ does than /\.
        condition = re.sub(rf"({NAME})=0*(\d)", r"value['\1']==\2", condition)
        self.expression = compile(condition.replace("/\\", " and ").replace("\\/", " or ").strip(), "condition", "eval")

    def word(self, location):
        return self.words.setdefault(location, len(self.words))

    def instruction(self, thread, cell):
        """(kind, xD, xS or number, word); kind is load, store, swap, set or fence. A fence has its two sets."""
        cell = re.sub(r"\s*([,()])\s*", r"\1", re.sub(r"\s+", " ", cell))
        if m := re.fullmatch(r"([ls])[wd] (x\d+),0\((x\d+)\)", cell):
            return "load" if m[1] == "l" else "store", m[2], m[2], self.start[thread, m[3]]
        if m := re.fullmatch(r"amoswap\.[wd](?:\.aq|\.rl)? (x\d+),(x\d+),\((x\d+)\)", cell):
            return "swap", m[1], m[2], self.start[thread, m[3]]
        if m := re.fullmatch(r"(?:li (x\d+)|ori (x\d+),x0),(\d+)", cell):
            return "set", m[1] or m[2], int(m[3]), None
        m = re.fullmatch(r"fence (r|w|rw),(r|w|rw)", cell)
        return "fence", m[1], m[2], None

    def programs(self):
        return [Thread(self, number) for number in range(len(self.threads))]

    def end_values(self, threads, memory):
        """The values of the condition's names where a run is all done."""
        def value(name):
            thread, _, register = name.partition(":")
            return threads[int(thread)].read(register) if register else memory.get(self.words[name], 0)
        return tuple((name, value(name)) for name in self.seen)

    def holds(self, values):
        return bool(eval(self.expression, {"value": dict(values)}))


class Thread:
    """A program: its next operation is its next memory instruction, after the instructions before it are done."""

    def __init__(self, test, number):
        self.code, self.at = test.threads[number], 0
        self.registers = {r: v for (t, r), v in test.start.items() if t == number}

    def read(self, register):
        return 0 if register == "x0" else self.registers.get(register, 0)

    def next(self):
        """(kind, word, value to be written), or None at the end."""
        while self.at < len(self.code):
            kind, target, source, word = self.code[self.at]
            if kind not in ("set", "fence"):
                return kind, word, None if kind == "load" else self.read(source)
            if kind == "set":
                self.registers[target] = source
            self.at += 1
        return None

    def done(self, received):
        if self.code[self.at][0] != "store":
            self.registers[self.code[self.at][1]] = received
        self.at += 1
