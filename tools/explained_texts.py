"""Faults of texts, for tools/explain.py: the cell or field that is at fault, the cause, and what is often meant.

The causes are those of the lists of kinds in docs/TEXTS.md. This file has what is often meant, and how to recognize
it; tests/explain.py compares the two.
"""
import re
from io import StringIO
from itertools import islice

from tools import litmus_hints
from tools.program import TOP, fail


REGISTER = r"x(?:[12]?[0-9]|3[01])"
FORMS = (rf"[ls][wd] {REGISTER},0\({REGISTER}\)", rf"amoswap\.[wd](?:\.aq|\.rl)? {REGISTER},{REGISTER},\({REGISTER}\)",
         rf"li {REGISTER},\d+", rf"ori {REGISTER},x0,\d+", r"fence (?:r|w|rw),(?:r|w|rw)")
ABI = r"(?:a[0-7]|t[0-6]|s\d|s1[01]|fp|sp|gp|tp|ra|zero)"
HERD = "It is in herd7's format: `tools/from_herd.py` converts it."
REGISTERS = "Registers are x0 to x31: not a0 or t1, nor with leading zeros."
# By kind: what the cell, or else the line, is known by, and what is often meant. Without a pattern it is always told.
TEST = {
    2: [(None, "A test that a program made: cut it in two.")],
    3: [(None, "A quotation mark, dash or blank of a word processor, or a byte order mark at the front.")],
    4: [(r"^\s*(?!RISCV\b)[A-Za-z0-9_]+\s+\S+$", "Only `RISCV` is read, and one word after it, the name."),
        (r"^\s*RISCV\s+\S+\s+\S", "The name is one word."),
        (r"\(\*", HERD), (None, "A remark stands in quotes, or as `key=value`.")],
    5: [(r"\[|\(\*|0[xX][0-9a-fA-F]|\b(u?int|long)\w*\s", HERD), (rf"\d+:{ABI}\b|:x0\d", REGISTERS),
        (r"=\s*-", "No number is negative."), (r":x0\s*=", "x0 is always 0."),
        (None, "Items end in `;`. A thread must have its column in the table.")],
    6: [(None, "One register as a value and as an address: use two.")],
    7: [(r"^\s*(~\s+\w*|[Ee]xist\w*|[Ff]or\s?all|not)\b",
         "A condition begins with `exists`, `~exists` or `forall`; any other line counts as a row."),
        (r"^\s*(locations|filter)|\(\*", HERD), (r";.*\S.*;", "A cell has one instruction; the `;` ends the row."),
        (None, "A row has a cell for each thread, blank ones too, and a `;` at its end. P0, P1, .. head the columns.")],
    8: [(r"^[ls][wd] .*(,\(|,(?!0\()-?\w+\()",
         "The offset is there, and is 0: another word is another location."),
        (r"^fence", "A fence has two sets, as `fence rw,rw`."),
        (r"^amoswap.*\.aq\.?rl", "`.aq` or `.rl` says as much as both: cores are in order."),
        (r"^(amo(?!swap)\w+|lr|sc)\b", "`amoswap` is the one atomic instruction."),
        (rf"\b{ABI}\b|\bx0\d|\bx(?:3[2-9]|[4-9]\d)", REGISTERS), (r"^(b\w+|j\w*) |:", "No branches and no labels."),
        (r"-\d|0[xX]", "Numbers are decimal, and none is negative."),
        (r"#|//|\"", "No remark stands in a row."), (r"^[a-z.]*[A-Z]", "Instructions are in small letters."),
        (r"^\w[\w.]*\s+\w+(,\w+)?\s+[\w(]", "A comma stands between registers."),
        (None, "`li` sets a register; there is no arithmetic. `tools/from_herd.py` converts false dependencies.")],
    9: [(r"^ori", "`ori` goes to 2047: `li` takes the larger numbers."), (None, "Values go to 2147483647.")],
    10: [(None, "`lw`, `sw` and `.w` go together, and so do `ld`, `sd` and `.d`.")],
    11: [(None, "The register that has the address is named, where another one has the value.")],
    12: [(None, "The initial block lacks this thread's address, as `0:x6=x`.")],
    13: [(r"\[|0[xX]|locations|filter", HERD),
         (r"&&|\|\||\b(and|or|not)\b|=>|!=|<>|==", "Atoms are `0:x7=1` and `x=1`, joined by `/\\` and `\\/` alone."),
         (rf"\d+:{ABI}\b|:x0\d", REGISTERS), (None, "A thread that isn't there, or a parenthesis too many.")],
    14: [(None, "The condition, or a closing brace or parenthesis, is missing.")],
}
MOST_SHOWN, MOST_LINES, MOST_LOOKED = 100, 16_777_216, 100_000
NUMBERS = ("PLACE", "VALUE", "RECEIVED", "TIME", "NUMBER")
# What each of these is, where it is at fault.
NUMBER_OF = {name: f"{name}: 1 to 20 decimal digits of a number that fits {32 if name == 'PLACE' else 64} bits: " + what
             for name, what in (("PLACE", "the operation's place in its core's program, from 0"),
                                ("VALUE", "what is stored, or a word's first value"),
                                ("RECEIVED", "what the operation received"), ("TIME", "its time"),
                                ("NUMBER", "its completion number"))}
CARRIAGE = "A carriage return: `tr -d '\\r'` takes it out."
OF_OPENING = "A line of an opening has an address and a value."
FORM_2 = "Cores from 16 on, and advances, need `trace 2` as the first line."
LINES = {
    3: [(None, "A comment that is too long.")],
    4: [(r"\r", CARRIAGE), (r"^\s*(1[6-9]|[2-5]\d|6[0-3])\s", FORM_2),
        (r"^\s*trace\b", "`trace 2` stands first, and once."), (r",", "Blanks separate fields, not commas."),
        (None, "A line begins with the core, a number alone.")],
    5: [(r"\r", CARRIAGE), (r"^\s*\d+\s+A", FORM_2), (None, "`R` is a load, `W` a store, `S` a swap: one capital.")],
    6: [(r"\r", CARRIAGE),
        (r"0x[0-9a-f]*[1-79a-f](\s|$)", "A word is 8 bytes: round down to a multiple of 8."),
        (None, "An address is `0x` and small letters.")],
    7: [(r"\r", CARRIAGE), (r"-\d|0x\w+.*0x|\d\.\d", "Values are decimal, from 0 to 2^64 - 1."),
        (r"\d{20}", "Values are decimal, from 0 to 2^64 - 1."),
        (r"^\s*0x", OF_OPENING), (r"^PLACE: `[RWS]`", "A record has the operation's place, after the core."),
        (None, "A store or swap has a value; a record ends in time and number.")],
    8: [(r"\r", CARRIAGE), (r"^\s*0x", OF_OPENING), (None, "A load has no value in a trace.")],
    9: [(None, "`trace 2` is the only form that has a name.")],
    10: [(None, "Each word has one value at first.")],
}


def often(kinds, kind, *places):
    """What is most likely meant, by the first pattern that the cell or the line has."""
    for pattern, words in kinds.get(kind, []):
        if pattern is None or any(re.search(pattern, place) for place in places):
            return words
    return None


def meant_by_test(path, text, number, kind, cell, line):
    """What is most likely meant by a litmus test: by a pattern, by the test's own words, or in general."""
    place = cell if cell else line
    special = [kind_of for kind_of in TEST.get(kind, []) if kind_of[0] is not None]
    found = often({kind: special}, kind, place) or litmus_hints.hint(text, number, kind, cell) or \
        often(TEST, kind, place)
    if found == HERD:
        return litmus_hints.of_herd(path)
    return litmus_hints.with_herd(path, found) if kind in (4, 5, 7, 8, 13) else found


def causes(title):
    """By number each kind's name, its cause, with what docs/TEXTS.md says of a field, and what is often meant."""
    text = (TOP / "docs/TEXTS.md").read_text(encoding="utf-8").split(f"\n## {title}", 1)[1].split("\n## ")[0]
    fields = dict(re.findall(r"(?ms)^- \*\*(\S+):\*\* (.*?)$(?!\n  )", text))
    kinds = re.findall(r"(?m)^(\d+)\. \*\*(\w+):\*\* (.*(?:\n +.*)*)", text)
    told = {}
    for number, name, words in kinds:
        where, _, meant = " ".join(words.split()).partition(". *Often:* ")
        told[int(number)] = name, f"{where}: {' '.join(fields[where].split())}" if where in fields else where, meant
    return told


def shown(text):
    """A text in backquotes: bytes that aren't printed stand as \\x0d, and a long one is cut."""
    text = "".join(sign if " " <= sign <= "~" else "\t" if sign == "\t" else f"\\x{ord(sign):02x}" for sign in text)
    return f"`{text}`" if len(text) <= MOST_SHOWN else f"`{text[:MOST_SHOWN]}..`"


def cells_of(line):
    """The cells of a row, without blanks that say nothing."""
    cells = line.strip().removesuffix(";").split("|")
    return [re.sub(r"\s*([,()])\s*", r"\1", " ".join(cell.split())) for cell in cells]


def is_bad(kind, thread, cell, addresses, width):
    """Whether a cell has the fault; each cell to its left has none."""
    if kind == 8:
        return bool(cell) and not any(re.fullmatch(form, cell) for form in FORMS)
    if kind == 9:
        most = 2047 if cell.startswith("ori") else 2 ** 31 - 1
        return any(int(number) > most for number in re.findall(r",(\d+)$", cell))
    registers, is_memory = re.findall(r"(?<![\w])(x\d+)", cell), "(" in cell
    if kind == 10:
        return is_memory and width_of(cell) != width
    if kind == 11:
        return any((thread, register) in addresses for register in registers[:-1] if is_memory) or (
            not is_memory and (thread, registers[0] if registers else "") in addresses)
    return is_memory and (thread, registers[-1]) not in addresses


def width_of(cell):
    """w or d of a memory instruction; None of others."""
    found = re.match(r"(?:[ls]|amoswap\.)([wd])\b", cell)
    return found and found[1]


def cell_at_fault(text, number, kind):
    """The thread and the cell of a row that has a fault of kind 8 to 12; None elsewhere."""
    lines = text.split("\n")
    head = next((at for at, line in enumerate(lines, 1) if re.match(r"[ \t\r]*P0\b", line)), len(lines) + 1)
    is_condition = any(re.match(r"\s*(~?exists|forall)\b", line) for line in lines[head:number])
    if kind not in range(8, 13) or number <= head or is_condition:
        return None
    opening = "\n".join(lines[:head - 1])
    addresses = {(int(thread), name) for thread, name in re.findall(r"(\d+):(x\d+)\s*=\s*[A-Za-z_]", opening)}
    above = [cell for line in lines[head:number] for cell in cells_of(line)]
    width = next((width_of(cell) for cell in above if width_of(cell)), None)
    for thread, cell in enumerate(cells_of(lines[number - 1])):
        if cell and is_bad(kind, thread, cell, addresses, width):
            return thread, cell
    return None


def names_of(fields, what):
    """The names of the fields that a line of such a text needs, as far as its letter decides them."""
    if what == "opening":
        return ["ADDR", "VALUE"]
    is_record = what == "records"
    letter = (fields + [""] * 3)[2 if is_record else 1]
    names = ["CORE", *["PLACE"] * is_record, "the letter", *["ADDR"] * (letter != "A"), *["VALUE"] * (letter in "WS")]
    return names + (["RECEIVED"] * (letter in "RS") + ["TIME", "NUMBER"]) * is_record


def is_number(field, name):
    return re.fullmatch(r"[0-9]{1,20}", field) and int(field) < (2 ** 32 if name == "PLACE" else 2 ** 64)


def field_at_fault(line, kind, what):
    """The field of a line that is at fault, in words; `what` the line is of: a trace, records or an opening."""
    fields = [field for field in re.split("[ \t]+", line.split("#")[0]) if field]
    names = names_of(fields, what)
    if kind in (8, 9):
        at = 1 if fields[0] == "trace" and kind == 9 else 2 if fields[0] == "trace" else len(names)
        name = "what follows `trace`" if kind == 9 else "a field too many"
    elif kind == 7:
        at, name = next((at, name) for at, name in enumerate(names) if name in NUMBERS and (
            at >= len(fields) or not is_number(fields[at], name)))
    elif kind in (4, 5, 6, 10):
        name = {4: "CORE", 5: "the letter"}.get(kind, "ADDR")
        at = names.index(name)
    else:
        return None
    return f"{name}: {shown(fields[at])}" if at < len(fields) else f"{name} is missing"


def of_whole(text, what, number):
    """What the whole text may be in place of what is read; None if that isn't known."""
    if text.startswith(b"\x1f\x8b"):
        return "It is compressed by gzip: `zcat FILE` unpacks it, and the program reads it as /dev/stdin."
    if text.startswith((b"\xff\xfe", b"\xfe\xff")):
        return "It is in UTF-16: `iconv -f UTF-16 -t ASCII FILE` converts it."
    if text.startswith(b"\xef\xbb\xbf") and number == 1:
        return "A byte order mark stands at the front: `tail -c +4 FILE` leaves it out."
    if what != "test" and number > MOST_LINES:
        return "It has more lines than are read: `head -n 16777216 FILE` is its beginning." + \
            " `tardis trace --stream FILE` runs all." * (what == "trace")
    fields = next((line.split() for line in text[:MOST_LOOKED].split(b"\n") if line.partition(b"#")[0].split()), [])
    is_number = len(fields) > 1 and fields[0].isdigit()
    if what == "test" and (is_number and fields[1] in (b"R", b"W", b"S") or fields[:2] == [b"trace", b"2"]):
        return "It is a trace, and no litmus test: `tardis trace FILE` runs it."
    if what != "test" and fields[:1] == [b"RISCV"]:
        return "It is a litmus test: `tardis litmus FILE` runs it."
    if what == "trace" and is_number and fields[1].isdigit() and fields[2:3] in ([b"R"], [b"W"], [b"S"]):
        return "It has records: `tardis check TRACE FILE` reads them, and their trace."
    return None


def explained_text(path, text, fault, what):
    """The lines that explain the fault of a test, a trace, records or an opening, as `line 6: 8 BadInstruction`."""
    found = re.fullmatch(r"line (\d+): (\d+) \w+", fault)
    if not found or found[1] == "0":
        fail(f"{path}: {fault}")
    number, kind = int(found[1]), int(found[2])
    whole, text = of_whole(text, what, number), text.decode("latin-1")
    line = next(islice(StringIO(text, "\n"), number - 1, None), "").removesuffix("\n")
    title = "Litmus tests" if what == "test" else "Texts of traces, of records and of openings"
    name, where, _ = causes(title)[kind]
    if what == "test":
        cell = cell_at_fault(text, number, kind)
        place = f"P{cell[0]}: {shown(cell[1])}" if cell else shown(line.strip(" \t\r"))
        meant = whole or meant_by_test(path, text, number, kind, cell and cell[1], line)
    else:
        field = field_at_fault(line, kind, what)
        place = shown(line.strip(" \t")) + (f", {field}" if field else "")
        where = NUMBER_OF.get((field or "").split(":")[0].split(" ")[0], where) if kind == 7 else where
        meant = whole or often(LINES, kind, line, field or "")
    lines = [f"{path}, line {number}, {place}", f"  {kind} {name}: {where}"]
    return lines + [f"  often meant: {meant}"] * bool(meant)
