#!/usr/bin/env python3
"""Turns a RISC-V litmus test of herd7 into the form of docs/TEXTS.md, and reports into herd7's Observation lines.

    tools/from_herd.py TEST > NEW.litmus
    tools/from_herd.py --into FOLDER TEST ..    each test as a file of its own name
    tools/from_herd.py --observation REPORT ..
    tools/from_herd.py --log FILE ..            reports as a log in litmus7's form, which mcompare7 reads

The script turns only what means the same; docs/FROM-HERD7.md lists it. A header line `converted=` says what went.
If a test has anything else, the script prints no test, lists each obstacle with its line, and ends with status 2. A
report is what `tardis litmus` prints. Tests among the files of --log give their conditions and hashes to the reports
that have their names. The name of a test with a filter gets `+filter`: herd7 drops runs outside the filter, and a
report counts them. So the script doesn't print that test's Observation, and the status is 1.
"""
import re
import sys
from collections import Counter
from contextlib import contextmanager
from pathlib import Path

sys.path.insert(0, str(Path(__file__).resolve().parent.parent))
from reference.given import tool  # noqa: E402
from tools import herd_conditions, herd_logs  # noqa: E402
from tools.program import fail, text_of  # noqa: E402


ABI = {name: f"x{number}" for number, name in enumerate(
    "zero ra sp gp tp t0 t1 t2 s0 s1 a0 a1 a2 a3 a4 a5 a6 a7 s2 s3 s4 s5 s6 s7 s8 s9 s10 s11 t3 t4 t5 t6".split())}
REGISTERS = {**ABI, "fp": "x8", **{f"x{number}": f"x{number}" for number in range(32)}}
MOST = 2 ** 31 - 1
FILTER = "+filter"  # behind the name of a test with a filter
TYPES = {"w": ("int", "int32_t", "uint32_t"), "d": ("long", "int64_t", "uint64_t")}
ORDER = r"(?:\.aqrl|\.aq\.rl|\.aq|\.rl)?"
KEYWORD = r"(?m)^[ \t]*(locations|filter|~[ \t]*exists|exists|forall)\b"
TOKEN = re.compile(r"\s+|(\d+:\w+|\[\w+\]|\w+)\s*(=|<>)\s*(0[xX][0-9a-fA-F]+|\d+)(?!\w)|/\\|\\/|=>|"
                   r"(?:not|true|false)\b|[()]")
COMPUTED = {"or": int.__or__, "and": int.__and__, "xor": int.__xor__, "add": int.__add__, "sub": int.__sub__}
OF_NUMBERS = ("ori", "andi", "xori", "addi")  # their last operand is a number
JUMPS = (r"b(?:eq|ne|lt|ge|ltu|geu) (\w+),(\w+),([A-Za-z_]\w*)|b(?:eq|ne|le|ge|lt|gt)z (\w+)(),([A-Za-z_]\w*)"
         r"|(?:j|jal x0,|jal zero,) ?()()([A-Za-z_]\w*)")


def number_of(text):
    return int(text, 16 if text[1:2] in ("x", "X") else 10)


class Obstacle(Exception):
    """What has no counterpart; the source has it listed."""


class Source:
    """A text whose comments are blanked, and which lists obstacles by its lines."""

    def __init__(self, path):
        self.path, self.obstacles = path, []
        raw = text_of(path).replace(b"\r", b"")
        self.text = self.without_comments(raw.decode("latin-1"))
        found = re.search(r"[^\t\n -~]", self.text)
        if found:
            self.refuse(found.start(), "a byte that isn't ASCII")

    def refuse(self, at, what):
        self.obstacles.append((self.text.count("\n", 0, at) + 1, what))
        raise Obstacle

    @contextmanager
    def going_on(self):
        """What goes on behind an obstacle."""
        try:
            yield
        except Obstacle:
            pass

    def without_comments(self, text):
        """Each sign of a comment becomes a blank. Comments nest."""
        self.text, parts, depth, opened, last = text, [], 0, 0, 0
        for mark in re.finditer(r"\(\*|\*\)", text):
            if mark[0] == "(*" and depth == 0:
                parts, opened = [*parts, text[last:mark.start()]], mark.start()
            depth += 1 if mark[0] == "(*" else -1
            if depth < 0:
                self.refuse(mark.start(), "a comment ends that didn't begin")
            if depth == 0:
                last = mark.end()
                parts.append(re.sub(r"[^\n]", " ", text[opened:last]))
        if depth:
            self.refuse(opened, "a comment has no end")
        return "".join(parts) + text[last:]


class Herd:
    """A test of herd7, taken apart: name, header, openings by thread, memory, rows of cells, the condition's text."""

    def __init__(self, source):
        self.source, self.registers, self.memory, self.types = source, {}, {}, []
        self.dropped, self.stored = Counter(), {}  # what goes, by its name; by location what stores write
        head = re.match(r"\s*(\S+)[ \t]+(\S+)[ \t]*\n", source.text)
        if not head or head[1] != "RISCV" or not re.fullmatch(r"[\w+.\[\]-]{1,128}", head[2], re.A):
            source.refuse(0, "the first line isn't `RISCV` and a name")
        self.name = head[2]
        block = re.compile(r"(?m)^[ \t]*\{((?:[^{}]|\{[^{}]*\})*)\}").search(source.text, head.end() - 1)
        if not block:
            source.refuse(head.end(), "no initial block")
        lines = source.text[head.end():block.start()].split("\n")
        self.header = [line.strip() for line in lines if re.fullmatch(r'\s*("[^"]*"|[A-Za-z]\w*\s*=.*)', line.rstrip())]
        for item in re.finditer(r"[^;]+", block[1]):
            if item[0].strip():
                with source.going_on():
                    self.read_item(item[0].strip(), block.start(1) + item.end() - len(item[0].lstrip()))
        self.read_table(block.end())

    def read_item(self, item, at):
        found = re.fullmatch(r"(?:(\w+)\s+)?(?:(\d+)\s*:\s*(\w+)|\[\s*(\w+)\s*\]|(\w+))(?:\s*=\s*&?(-?\w+))?", item)
        if not found or found[6] is None and not found[1]:
            is_array = re.match(r"\w+\s+\w+\s*\[", item)
            self.source.refuse(at, f"`{item}` of the initial block" + (": an array" if is_array else ""))
        if found[1] and not found[2]:
            self.types.append((found[1], item, at))
        if found[2] and found[6] is None:
            self.register(found[3], at)
            return
        value = self.value(found[6] or "0", at)
        if found[2]:
            of = self.registers.setdefault(int(found[2]), {})
            key = self.register(found[3], at)
        else:
            of, key = self.memory, self.location(found[4] or found[5], at)
            if isinstance(value, str):
                self.source.refuse(at, f"`{item}`: an address in memory")
        if key in of or key == "x0":
            self.source.refuse(at, f"`{item}`: a second value, or one of x0")
        of[key] = value

    def value(self, text, at):
        """A number, or the name of a location."""
        if re.fullmatch(r"0[xX][0-9a-fA-F]+|\d+", text):
            if number_of(text) <= MOST:
                return number_of(text)
        elif not text.startswith("-"):
            return self.location(text, at)
        return self.source.refuse(at, f"`{text}`: values go from 0 to {MOST}")

    def location(self, name, at):
        if not re.fullmatch(r"(?!x\d+$)[A-Za-z_]\w{0,31}", name, re.A):
            self.source.refuse(at, f"`{name}` as a location's name")
        return name

    def register(self, name, at):
        return REGISTERS.get(name) or self.source.refuse(at, f"`{name}` as a register")

    def read_table(self, start):
        text = self.source.text
        found = re.compile(KEYWORD).search(text, start)
        if not found:
            self.source.refuse(len(text) - 1, "no condition")
        self.tail, self.rows, at = found.start(), [], start
        for line in text[start:found.start()].split("\n"):
            with self.source.going_on():
                if line.strip() and not line.rstrip().endswith(";"):
                    self.source.refuse(at, f"`{line.strip()}`: a row without its `;`")
                if line.strip():
                    self.rows.append((at, [" ".join(cell.split()) for cell in line.rstrip()[:-1].split("|")]))
            at += len(line) + 1
        at, heads = self.rows.pop(0) if self.rows else (start, [])
        self.threads = len(heads)
        if not heads or heads != [f"P{number}" for number in range(self.threads)]:
            self.source.refuse(at, "the table doesn't begin with P0, P1, ..")
        for at, cells in self.rows:
            with self.source.going_on():
                if len(cells) != self.threads:
                    self.source.refuse(at, f"{len(cells)} cells for {self.threads} threads")
        self.rows = [(at, cells) for at, cells in self.rows if len(cells) == self.threads]


class Column:
    """A thread: what each of its registers is known to have (a number, a location's name or None) after each
    instruction."""

    def __init__(self, herd, thread):
        self.herd, self.thread = herd, thread
        self.opening = herd.registers.get(thread, {})
        self.known = {register: self.opening.get(register, 0) for register in REGISTERS.values()}
        self.bases = {value: name for name, value in reversed(self.opening.items()) if isinstance(value, str)}
        self.widths, self.last = [], {}  # by register the number or the location that it got last
        self.loaded = set()              # registers whose values come from loads, by way of computing, too
        self.spoiled = set()             # registers that got what has no counterpart

    def refuse(self, at, cell, why="is no instruction here"):
        self.herd.source.refuse(at, f"P{self.thread}: `{cell}` {why}")

    def turned(self, cells):
        """The cells, each with its place, in the form of docs/TEXTS.md; a blank one where nothing is left to do."""
        bare = [(at, cell, *self.label_of(cell)) for at, cell in cells]
        for number, (at, cell, _, code) in enumerate(bare):
            code, text = re.sub(r"\s*([,()])\s*", r"\1", code), ""
            with self.herd.source.going_on():
                if code and not self.is_jump_on(at, cell, code, self.labels_behind(bare, number)) and \
                        not self.is_spoiled(code):
                    text = self.instruction(at, cell, code)
            yield text

    def is_spoiled(self, code):
        """Whether an instruction uses what an earlier obstacle spoiled, so that it can't be judged."""
        name, *words = re.findall(r"[\w.]+", code) or [""]
        is_store = name[:2] in ("sw", "sd")
        used = {REGISTERS.get(word) for word in (words if is_store else words[1:])}
        target = {REGISTERS[word] for word in words[:1] if word in REGISTERS and not is_store}
        is_spoiled = bool(used & self.spoiled)
        self.spoiled = self.spoiled | target if is_spoiled else self.spoiled - target
        return is_spoiled

    def is_jump_on(self, at, cell, code, labels):
        """Whether that is a branch to the next instruction. One to another place is refused."""
        jump = re.fullmatch(JUMPS, code)
        if not jump:
            return False
        first, second, label = [part for part in jump.groups() if part is not None]
        used = [self.register(at, cell, name) for name in (first, second) if name]
        if label not in labels:
            self.refuse(at, cell, "is a branch that may skip or repeat something")
        self.herd.dropped["control dependency" if self.loaded & set(used) else "branch"] += 1
        return True

    @staticmethod
    def label_of(cell):
        """A cell's label or None, and its instruction."""
        found = re.fullmatch(r"([A-Za-z_]\w*):\s*(.*)", cell)
        return (found[1], found[2]) if found else (None, cell)

    @staticmethod
    def labels_behind(bare, number):
        """The labels between an instruction and the next one."""
        for _, _, label, code in bare[number + 1:]:
            if label:
                yield label
            if code:
                return

    def instruction(self, at, cell, code):
        name, _, rest = code.partition(" ")
        if name == "nop" or name.startswith("fence"):
            return self.fence(at, cell, code)
        if "(" in rest:
            return self.memory(at, cell, name, rest)
        words = rest.split(",")
        if name != "li" and name != "mv" and name.removesuffix("i") not in COMPUTED or name == "subi":
            self.refuse(at, cell)
        if not all(word in REGISTERS or re.fullmatch(r"0[xX][0-9a-fA-F]+|\d+", word) for word in words):
            self.refuse(at, cell)
        return self.computed(at, cell, name, words)

    def fence(self, at, cell, code):
        self.herd.dropped["order"] += code != "nop"
        found = re.fullmatch(r"fence ([iorw]+),([iorw]+)", code)
        if found:
            sets = ["".join(letter for letter in "rw" if letter in part) for part in found.groups()]
            return f"fence {sets[0]},{sets[1]}" if all(sets) else ""
        if code not in ("fence", "fence.tso", "fence.i", "nop"):
            self.refuse(at, cell)
        return "" if code in ("fence.i", "nop") else "fence rw,rw"

    def memory(self, at, cell, name, rest):
        """A load, a store or a swap. Others that read and write leave the word as it is, if they add or set nothing."""
        found = re.fullmatch(r"(?:(\w+),)?(\w+),(-?\w*)\((\w+)\)", rest)
        plain = re.fullmatch(rf"(lw|lwu|ld|sw|sd|amo(?:swap|add|or|xor)\.[wd]){ORDER}", name)
        if not plain or not found or (found[1] is not None) != plain[1].startswith("amo"):
            is_atomic = re.match(r"(amo|lr\.|sc\.)", name)
            self.refuse(at, cell, "is no instruction here" + (": a swap is the only atomic one" if is_atomic else ""))
        target, source, base = (self.register(at, cell, word) for word in (found[1] or found[2], found[2], found[4]))
        location = self.known[base]
        if not isinstance(location, str) or found[3] not in ("", "0"):
            self.refuse(at, cell, "has an address that isn't a location's")
        self.herd.dropped["address dependency"] += base in self.loaded
        is_known = plain[1][0] != "l" and self.known[source] is not None
        self.herd.dropped["data dependency"] += is_known and source in self.loaded
        self.herd.dropped["order"] += name != plain[1]
        base, width = self.bases[location], plain[1].rstrip("u")[-1]
        self.widths.append((width, at, cell))
        if isinstance(self.known[source], str) and plain[1][0] != "l":
            self.refuse(at, cell, "stores an address")
        swaps = plain[1].startswith("amoswap")
        if plain[1][0] == "s" or swaps:
            self.herd.stored.setdefault(location, []).append(self.known[source] if source != "x0" else 0)
        if plain[1][0] == "s":
            return f"s{width} {source},0({base})"
        if plain[1].startswith("amo") and not swaps and source != "x0":
            self.refuse(at, cell, "is no instruction here: a swap is the only atomic one")
        self.set(at, cell, target, None)
        self.last[target] = location
        self.loaded |= {target} - {"x0"}
        order = re.search(r"\.(aq|rl)", name) if swaps else None
        return f"amoswap.{width}{order[0] if order else ''} {target},{source},({base})" if swaps else \
            f"l{width} {target},0({base})"

    def register(self, at, cell, name):
        return REGISTERS.get(name) or self.refuse(at, cell, f"has `{name}` for a register")

    def set(self, at, cell, target, value):
        if target in self.opening and isinstance(self.opening[target], str) and value != self.opening[target]:
            self.refuse(at, cell, "overwrites a register that opens with an address")
        if target != "x0":
            self.known[target] = value

    def computed(self, at, cell, name, words):
        """An instruction whose result is known: it sets a number, or an address, which is only noted."""
        target, *sources = words
        target = self.register(at, cell, target)
        values = [self.known[REGISTERS[word]] if word in REGISTERS else number_of(word) for word in sources]
        if len(sources) != (1 if name in ("li", "mv") else 2) or \
                (name not in ("li", "mv")) and (sources[0] not in REGISTERS or
                                                (name in OF_NUMBERS) == (sources[1] in REGISTERS)):
            self.refuse(at, cell)
        value = self.result(name.removesuffix("i") if name != "li" else name, sources, values)
        if value is None:
            self.spoiled.add(target)
            self.refuse(at, cell, "has a result that isn't known beforehand")
        if isinstance(value, int) and not 0 <= value <= MOST:
            self.refuse(at, cell, f"has the result {value}, and values go from 0 to {MOST}")
        self.set(at, cell, target, value)
        self.last[target] = value
        comes_from = {REGISTERS[word] for word in sources if word in REGISTERS}
        self.loaded = self.loaded | {target} if comes_from & self.loaded else self.loaded - {target}
        if isinstance(value, str) or target == "x0":
            return ""
        as_it_is = name == "ori" and sources[0] in ("x0", "zero") and value <= 2047
        return f"ori {target},x0,{value}" if as_it_is else f"li {target},{value}"

    @staticmethod
    def result(name, sources, values):
        if name in ("li", "mv"):
            return values[0] if (name == "mv") == (sources[0] in REGISTERS) else None
        is_one_twice = REGISTERS[sources[0]] == REGISTERS.get(sources[1])
        if name in ("xor", "sub") and is_one_twice or name == "and" and 0 in values:
            return 0
        if all(isinstance(value, int) for value in values):
            return COMPUTED[name](*values)
        if name in ("add", "or", "xor") and 0 in values:  # an address and 0; another register isn't copied
            return next((value for value in values if isinstance(value, str)), None)
        return None


def condition(herd, columns):
    """The kind, and the condition with the filter's."""
    source, parts, at = herd.source, [], herd.tail
    found = list(re.finditer(KEYWORD, source.text[at:]))
    for here, behind in zip(found, [*found[1:], None]):
        end = at + behind.start() if behind else len(source.text)
        parts.append(("".join(here[1].split()), at + here.start(1), at + here.end(), end))
    filters = [part for part in parts if part[0] == "filter"]
    kind, place, start, end = parts[-1]
    if kind in ("locations", "filter") or [part[0] for part in parts[:-1] if part[0] not in ("locations", "filter")]:
        source.refuse(place, "one condition stands at the end")
    texts = [expression(herd, columns, *part[2:]) for part in (*filters, parts[-1])]
    if filters and kind == "forall":
        source.refuse(filters[0][1], "`filter` before `forall`")
    if filters and len(herd.name) > 128 - len(FILTER):
        source.refuse(0, "a name that is too long for a test with a filter")
    herd.name += FILTER if filters else ""
    return kind + " " + (texts[0] if len(texts) == 1 else " /\\ ".join(f"({text})" for text in texts))


def expression(herd, columns, start, end):
    """An expression's atoms and signs."""
    source, words, at = herd.source, [], start
    while at < end:
        token = TOKEN.match(source.text, at, end)
        if not token:
            source.refuse(at, f"`{source.text[at:end].split()[0]}` in the condition")
        if token[1]:
            words.append((*atom(herd, columns, token[1], token[3], at), token[2] == "="))
        elif token[0].strip():
            words.append(token[0])
        at = token.end()
    try:
        found = herd_conditions.rewritten(words, lambda name: values_of(herd, columns, name))
    except herd_conditions.Unreadable:
        source.refuse(len(source.text[:end].rstrip()), "the condition isn't whole, or its parentheses don't match")
    if isinstance(found, bool) or herd_conditions.is_too_long(found):
        source.refuse(start, "the condition asks nothing" if isinstance(found, bool) else
                      f"the condition has more than {herd_conditions.ATOMS} atoms, written without `not` and `=>`")
    if herd_conditions.has_more(words):
        return found
    text = " ".join(f"{word[0]}={word[1]}" if isinstance(word, tuple) else word for word in words)
    return text.replace("( ", "(").replace(" )", ")")


def atom(herd, columns, name, value, at):
    """The name and the value."""
    thread, is_register, register = name.partition(":")
    if not is_register:
        return herd.location(name.strip("[]"), at), herd.value(value, at)
    register = herd.register(register, at)
    if register == "x0" or int(thread) >= herd.threads or isinstance(columns[int(thread)].known[register], str):
        herd.source.refuse(at, f"`{name}` in the condition: an address, x0, or a thread that isn't there")
    return f"{int(thread)}:{register}", herd.value(value, at)


def values_of(herd, columns, name):
    """All values that a name of the condition can have at the end, and perhaps others of the test."""
    thread, is_register, register = name.partition(":")
    if is_register:
        last = columns[int(thread)].last.get(register, herd.registers.get(int(thread), {}).get(register, 0))
        if isinstance(last, int):
            return {last}
        name = last
    stored = herd.stored.get(name, [])
    if None in stored:
        stored = [value for values in herd.stored.values() for value in values if value is not None]
        stored += [*herd.memory.values(), 0]
    return {herd.memory.get(name, 0), *stored}


def dropped(herd):
    """The header line that says what a conversion dropped, and what orders nothing."""
    several = {"branch": "branches"}
    counted = [f"{count} {name if count == 1 else several.get(name, name[:-1] + 'ies')}"
               for name, count in sorted(herd.dropped.items()) if count and name != "order"]
    told = [f"{', '.join(counted)} dropped"] if counted else []
    told += ["fences, .aq and .rl order nothing here"] if herd.dropped["order"] else []
    return [f"converted={'; '.join(told)}"] if told else []


def check_widths(herd, columns):
    """One width, and types of that width."""
    used = [use for column in columns for use in column.widths]
    for width, at, cell in used:
        if width != used[0][0]:
            herd.source.refuse(at, f"`{cell}`: a second width")
    for name, item, at in herd.types:
        if used and name not in TYPES[used[0][0]]:
            herd.source.refuse(at, f"`{item}`: a type that isn't as wide as the instructions")


def lines_of(source):
    """The lines of the test in the form of docs/TEXTS.md."""
    herd = Herd(source)
    if herd.registers and max(herd.registers) >= herd.threads:
        with source.going_on():
            source.refuse(0, f"the initial block has a thread {max(herd.registers)}, and the table has none")
    columns = [Column(herd, thread) for thread in range(herd.threads)]
    cells = [list(column.turned([(at, row[column.thread]) for at, row in herd.rows])) for column in columns]
    with source.going_on():
        check_widths(herd, columns)
    opening = [[f"{name}={value};" for name, value in herd.memory.items()]]
    opening += [[f"{thread}:{name}={value};" for name, value in herd.registers.get(thread, {}).items()]
                for thread in range(herd.threads)]
    rows = [[f"P{thread}" for thread in range(herd.threads)], *(row for row in zip(*cells) if any(row))]
    widths = [max(map(len, column)) for column in zip(*rows)]
    end = condition(herd, columns)
    # The name is as the condition left it.
    return [f"RISCV {herd.name}", *herd.header, *dropped(herd), "{", *(" ".join(items) for items in opening if items),
            "}", *(f" {' | '.join(cell.ljust(width) for cell, width in zip(row, widths))} ;" for row in rows), end]


def converted(path):
    """The lines of the test, and the obstacles, each with its line; no lines if there are obstacles."""
    source, lines = Source.__new__(Source), []
    with Source.going_on(source):
        source.__init__(path)
        lines = lines_of(source)
    return [] if source.obstacles else lines, sorted(dict.fromkeys(source.obstacles))


def obstacles_of(path):
    return converted(path)[1]


def observation(path):
    """herd7's line for a report: in how many runs that are all done the expression holds, and in how many not. None of
    a test with a filter."""
    told = dict(line.partition(" ")[::2] for line in text_of(path).decode("latin-1").splitlines())
    try:
        name, held, all_done = told["test"], int(told["held"]), int(told["all-done"])
    except (KeyError, ValueError):
        fail(f"{path} is no report of a litmus test")
    if name.endswith(FILTER):
        return print(f"from_herd.py: {path}: no Observation, as the test {name} had a filter", file=sys.stderr)
    often = "Never" if held == 0 else "Always" if held == all_done else "Sometimes"
    return f"Observation {name} {often} {held} {all_done - held}"


def put(lines, folder, path, sources, written):
    """Writes a test as a file of its name. It replaces no test that is converted, and none that was just written."""
    file = Path(folder, f"{lines[0].split()[1]}.litmus")
    if file.resolve() in sources:
        fail(f"{path}: {file} is a test that is converted: name another folder")
    if written.setdefault(file, path) != path:
        fail(f"{path}: {file} has the test of {written[file]}, by the same name")
    file.write_text("\n".join(lines) + "\n", encoding="ascii")


def convert(paths, folder):
    """Prints one test, or writes each into a folder; the status."""
    status, sources, written = 0, {Path(path).resolve() for path in paths}, {}
    for path in paths:
        lines, obstacles = converted(path)
        for line, what in obstacles:
            print(f"from_herd.py: {path}, line {line}: {what}", file=sys.stderr)
        status = 2 if obstacles else status
        if lines and folder is None:
            print("\n".join(lines))
        elif lines:
            put(lines, folder, path, sources, written)
    return status


def main(words):
    if words in (["-h"], ["--help"]):
        print(__doc__)
    elif len(words) > 1 and words[0] == "--observation":
        lines = [observation(path) for path in words[1:]]
        print("".join(f"{line}\n" for line in lines if line), end="")
        sys.exit(int(None in lines))
    elif len(words) > 1 and words[0] == "--log":
        print("\n".join(herd_logs.log(words[1:])))
    elif len(words) > 2 and words[0] == "--into" and not words[2].startswith("-"):
        if not Path(words[1]).is_dir():
            fail(f"{words[1]} is no folder")
        sys.exit(convert(words[2:], words[1]))
    elif len(words) == 1 and not words[0].startswith("-"):
        sys.exit(convert(words, None))
    else:
        fail("one test is wanted, --into FOLDER and tests, or --observation or --log and reports (--help tells all)")


if __name__ == "__main__":
    tool(main)
