"""The first fault of a litmus text, as docs/TEXTS.md has them: its line, from 1, and its kind. Texts are bytes."""
import re


KINDS = ("NoMemory TooLarge BadByte BadHeader BadInitial DoubleInitial BadTable BadInstruction ValueRange MixedWidth "
         "AddressAsValue ValueAsAddress BadCondition CutShort").split()
(TOO_LARGE, BAD_BYTE, BAD_HEADER, BAD_INITIAL, DOUBLE_INITIAL, BAD_TABLE, BAD_INSTRUCTION, VALUE_RANGE, MIXED_WIDTH,
 ADDRESS_AS_VALUE, VALUE_AS_ADDRESS, BAD_CONDITION, CUT_SHORT) = range(2, 15)
BYTES, THREADS, ROWS, LOCATIONS, ATOMS, DEPTH = 65536, 16, 1024, 64, 256, 64
GREATEST, GREATEST_OF_ORI = 2 ** 31 - 1, 2047
BLANKS = " \t\r"
TITLE = rf"[{BLANKS}]*RISCV[{BLANKS}]+[A-Za-z0-9_+.\[\]-]{{1,128}}[{BLANKS}]*"
HEADER = rf'[{BLANKS}]*("[^"]*"[{BLANKS}]*|[A-Za-z][A-Za-z0-9_]*[{BLANKS}]*=.*)?'
TOKEN = re.compile(r"[A-Za-z0-9_.~]+|/\\|\\/|[^ \t\r]")
REGISTER = r"x(?:[12]?[0-9]|3[01])"
THREAD = r"(?:[0-9]|1[0-5])"
LOCATION = r"(?!x[0-9]+$)[A-Za-z_][A-Za-z0-9_]{0,31}"
# By form its operands: D and S are values, B is an address.
FORMS = {rf"[ls]([wd]) ({REGISTER}),0\(({REGISTER})\)": "DB",
         rf"amoswap\.([wd])(?:\.aq|\.rl)? ({REGISTER}),({REGISTER}),\(({REGISTER})\)": "DSB",
         rf"li() ({REGISTER}),(?P<number>[0-9]+)": "D", rf"ori() ({REGISTER}),x0,(?P<number>[0-9]+)": "D",
         r"fence (?:r|w|rw),(?:r|w|rw)": ""}


class LitmusFault(Exception):
    """The first fault of a text: its line, from 1, and its kind."""

    def __init__(self, line, kind):
        super().__init__(f"line {line}: {kind} {KINDS[kind - 1]}")
        self.line, self.kind = line, kind


def is_form(pattern, text):
    return re.fullmatch(pattern, text, re.ASCII) is not None


class Reader:
    """Reads a text from its first line on. `line` counts from 1, and a line's bytes are tested when it is reached."""

    def __init__(self, text):
        self.lines = text.decode("latin-1").removesuffix("\n").split("\n") if text else []
        self.line, self.tokens = 0, []
        self.addresses, self.items, self.locations, self.width = {}, {}, set(), None

    def fault(self, kind, line=None):
        raise LitmusFault(line or max(self.line, 1), kind)

    def cut_short(self):
        self.fault(CUT_SHORT, len(self.lines) or 1)

    def next_line(self):
        """Goes on to the next line; None at the end of the text."""
        if self.line == len(self.lines):
            return None
        self.line += 1
        text = self.lines[self.line - 1]
        if re.search(r"[^\t\r -~]", text):
            self.fault(BAD_BYTE)
        self.tokens = TOKEN.findall(text)
        return text

    def row(self):
        """The next line that isn't blank."""
        while (text := self.next_line()) is not None:
            if self.tokens:
                return text
        return self.cut_short()

    def token(self):
        """The next token, in this line or in a later one; `cut_short` if there is none."""
        while not self.tokens:
            if self.next_line() is None:
                self.cut_short()
        return self.tokens.pop(0)

    def is_over(self):
        """Whether no token is left in the text."""
        while not self.tokens:
            if self.next_line() is None:
                return True
        return False

    def expect(self, form, kind):
        """The next token, which must have this form."""
        token = self.token()
        return token if is_form(form, token) else self.fault(kind)

    # The parts of a test, in their order.
    def read(self):
        title = self.next_line()
        if title is None:
            self.cut_short()
        if not is_form(TITLE, title):
            self.fault(BAD_HEADER)
        while (text := self.next_line()) is not None and is_form(HEADER, text):
            pass
        if text is None:
            self.cut_short()
        if self.tokens.pop(0) != "{":
            self.fault(BAD_HEADER)
        self.block()
        self.headings()
        self.rows()
        self.condition()

    def block(self):
        token = self.token()
        while token != "}":
            self.item(token)
            token = self.expect("[;}]", BAD_INITIAL)
            if token == ";":
                token = self.token()
        if self.tokens:
            self.fault(BAD_INITIAL)

    def item(self, token):
        """An item that begins with this token."""
        line = self.line
        if is_form(THREAD, token):
            self.expect(":", BAD_INITIAL)
            key = int(token), self.expect(f"(?!x0$){REGISTER}", BAD_INITIAL)
        else:
            key = token if is_form(LOCATION, token) else self.fault(BAD_INITIAL)
            self.name(token)
        self.expect("=", BAD_INITIAL)
        value = self.expect("[0-9]+" if key == token else f"[0-9]+|{LOCATION}", BAD_INITIAL)
        if value.isdigit():
            self.number(value)
        else:
            self.name(value)
            self.addresses[key] = value
        if key in self.items:
            self.fault(DOUBLE_INITIAL, line)
        self.items[key] = line

    def name(self, location):
        """A location is named, perhaps for the first time."""
        self.locations.add(location)
        if len(self.locations) > LOCATIONS:
            self.fault(TOO_LARGE)

    def number(self, digits, most=GREATEST):
        if int(digits[-20:].lstrip("0") or "0") > most or len(digits.lstrip("0")) > 10:
            self.fault(VALUE_RANGE)

    def headings(self):
        self.row()
        cells = "".join(token if token in "|;" else f" {token} " for token in self.tokens)
        if not cells.endswith(";"):
            cells, ended = cells + "|", False
        else:
            cells, ended = cells[:-1] + "|", True
        for at, cell in enumerate(cells.split("|")[:-1]):
            if cell.strip() != f"P{at}":
                self.fault(BAD_TABLE)
            if at == THREADS:
                self.fault(TOO_LARGE)
        if not ended:
            self.fault(BAD_TABLE)
        self.threads = cells.count("|")
        missing = [line for key, line in self.items.items() if isinstance(key, tuple) and key[0] >= self.threads]
        if missing:
            self.fault(BAD_INITIAL, missing[0])

    def rows(self):
        """The rows up to the condition's keyword, which stays the next token."""
        count, text = 0, self.row()
        while self.tokens[0] not in ("exists", "~exists", "forall"):
            count += 1
            if count > ROWS:
                self.fault(TOO_LARGE)
            cells = text.rstrip(BLANKS).split("|")
            if text.count(";") != 1 or not cells[-1].endswith(";") or len(cells) != self.threads:
                self.fault(BAD_TABLE)
            for thread, cell in enumerate([*cells[:-1], cells[-1][:-1]]):
                self.cell(thread, re.sub(r" *([,()]) *", r"\1", " ".join(re.split(rf"[{BLANKS}]+", cell))).strip())
            text = self.row()

    def cell(self, thread, cell):
        """One instruction, or none: its form, then its number, its width and its operands from the left."""
        if not cell:
            return
        forms = ((re.fullmatch(form, cell), operands) for form, operands in FORMS.items())
        found = next((found for found in forms if found[0]), None)
        if not found:
            self.fault(BAD_INSTRUCTION)
        parts, operands = found
        if "number" in parts.groupdict():
            self.number(parts["number"], GREATEST_OF_ORI if cell.startswith("ori") else GREATEST)
        width = parts[1] if operands.endswith("B") else None
        if width and self.width not in (None, width):
            self.fault(MIXED_WIDTH)
        self.width = width or self.width
        for at, operand in enumerate(operands, 2):
            is_address = (thread, parts[at]) in self.addresses
            if is_address != (operand == "B"):
                self.fault(ADDRESS_AS_VALUE if is_address else VALUE_AS_ADDRESS)

    def condition(self):
        self.tokens.pop(0)
        depth, atoms = 0, 0
        while True:
            token = self.token()
            while token == "(":
                depth += 1
                if depth > DEPTH:
                    self.fault(TOO_LARGE)
                token = self.token()
            atoms += 1
            self.atom(token, atoms > ATOMS)
            while True:
                if depth == 0 and self.is_over():
                    return
                token = self.token()
                if token != ")" or depth == 0:
                    break
                depth -= 1
            if token not in ("/\\", "\\/"):
                self.fault(BAD_CONDITION)

    def atom(self, token, is_too_many):
        is_register = is_form(THREAD, token)
        if is_register and int(token) >= self.threads or not is_register and not is_form(LOCATION, token):
            self.fault(BAD_CONDITION)
        if is_too_many:
            self.fault(TOO_LARGE)
        if is_register:
            self.expect(":", BAD_CONDITION)
            register = self.expect(f"(?!x0$){REGISTER}", BAD_CONDITION)
            if (int(token), register) in self.addresses:
                self.fault(ADDRESS_AS_VALUE)
        else:
            self.name(token)
        self.expect("=", BAD_CONDITION)
        self.number(self.expect("[0-9]+", BAD_CONDITION))


def read(text):
    """Raises the first fault, if the text has one."""
    if len(text) > BYTES:
        raise LitmusFault(1, TOO_LARGE)
    Reader(text).read()


def fault_of(text):
    """The first fault in words, as `line 4: 8 BadInstruction`, or None."""
    try:
        read(text)
    except LitmusFault as fault:
        return str(fault)
    return None
