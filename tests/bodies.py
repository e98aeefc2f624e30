"""Finds the bodies of functions in Rattle's source, and the places in them where one thing can be changed.

The kit's formatter reads the tokens, so contracts and what else is written for the prover are left out. So are comments
and tests. A place is a pair of offsets in bytes with what is to stand there, in as many lines.
"""
import json
import re
import subprocess
import tempfile
from collections import defaultdict
from pathlib import Path
from typing import NamedTuple

OPEN, CLOSE = "([{", ")]}"
JOINED = ("..=", "<<=", ">>=", "=>", "->", "==", "!=", "<=", ">=", "&&", "||", "+=", "-=", "*=", "/=", "%=", "|=", "&=",
          "^=", "<<", ">>", "::", "..")
OTHERS = {"<": "<=", "<=": "<", ">": ">=", ">=": ">", "==": "!=", "!=": "==", "+": "-", "-": "+", "*": "+", "/": "*",
          "%": "/", "<<": ">>", ">>": "<<", "&": "|", "|": "&", "^": "|", "&&": "||", "||": "&&", "+=": "-=",
          "-=": "+=", "*=": "+=", "|=": "&=", "&=": "|="}
CALLS = {"min": "max", "checked_add": "checked_sub", "checked_sub": "checked_add", "is_some": "is_none",
         "is_ok": "is_err", "first": "last", "push_back": "push_front", "pop_front": "pop_back", "all": "any"}
CALLS |= {other: name for name, other in CALLS.items()}
HEADS = ("if", "while", "for", "match")
KEYWORDS = (*HEADS, "in", "return", "let", "else", "loop", "fn", "as", "move", "mut", "ref", "unsafe", "break")
NUMBER = re.compile(r"(0x[0-9a-fA-F_]+|[0-9][0-9_]*?)(_?[ui](?:8|16|32|64|128|size))?")


class Token(NamedTuple):
    first: int
    last: int
    kind: str
    text: str


class Place(NamedTuple):
    """A change: from `first` to `last` there stands `made`."""
    first: int
    last: int
    made: str


class Body(NamedTuple):
    """A function's body, with what names the function, and its tokens between the braces."""
    module: tuple
    owner: str
    trait: str
    name: str
    returns: str
    tokens: list


class Types:
    """What may stand for a name of another declared one: fields and variants, and which functions are laws."""

    def __init__(self):
        self.fields, self.variants, self.laws = defaultdict(set), defaultdict(set), set()

    def add_parts(self, word, name, parts):
        """Takes the fields or the variants of a type, as pairs of a name and what it holds."""
        for (one, what), (other, such) in zip(parts, parts[1:]):
            if what == such:
                for pair in ((one, other), (other, one)):
                    (self.fields[pair[0]] if word == "struct" else self.variants[name, pair[0]]).add(pair[1])


def tokens(rattle, text):
    """The tokens of a source, in bytes; signs that belong together are one."""
    with tempfile.TemporaryDirectory() as folder:
        Path(folder, "text.rt").write_bytes(text)
        said = subprocess.run([rattle, "fmt", "--tokens", f"{folder}/text.rt"], stdout=subprocess.PIPE, check=True)
    rows = [line.split(" ", 4) for line in said.stdout.decode().split("\n")[1:] if line]
    return joined([Token(int(first), int(last), kind, json.loads(word)) for _, first, last, kind, word in rows])


def joined(row):
    made = []
    for token in row:
        before = made[-1] if made else None
        if before and before.last == token.first and before.kind == token.kind == "Code" \
                and before.text + token.text in JOINED:
            made[-1] = Token(before.first, token.last, "Code", before.text + token.text)
        else:
            made.append(token)
    return made


def is_sign(token, signs):
    return token.kind == "Code" and token.text in signs


def past(row, at):
    """The index behind the token, or behind what it opens."""
    depth = 0
    while at < len(row):
        depth += is_sign(row[at], tuple(OPEN))
        depth -= is_sign(row[at], tuple(CLOSE))
        at += 1
        if depth <= 0:
            break
    return at


def until(row, at, end, *signs):
    """The index of the first such sign that no bracket holds; the end if there is none."""
    while at < end and not is_sign(row[at], signs):
        at = past(row, at)
    return min(at, end)


def parts(row, first, last):
    """The ranges between commas that no bracket holds."""
    while first < last:
        end = until(row, first, last, ",")
        yield first, end
        first = end + 1


def words_of(row):
    return [token.text for token in row if token.kind in ("Code", "Literal")]


def names_of(row, skipped=("mut", "const", "dyn")):
    """The names of types in a head, without what stands in angle brackets before or behind them."""
    depth, found = 0, []
    for token in row:
        depth += token.text.count("<") - (token.text.count(">") if token.text != "->" else 0)
        if depth == 0 and token.kind == "Code" and re.fullmatch(r"\w+", token.text) and token.text not in skipped:
            found.append(token.text)
    return found


def read(row, module, types, bodies, first=0, last=None, owner=("", "")):
    """Takes the items between two indexes: adds to what is known of types, and to the list of bodies."""
    at, last, is_test = first, len(row) if last is None else last, False
    while at < last:
        word = row[at].text if row[at].kind == "Code" else ""
        if word == "#":
            at += 1 + (row[at + 1].text == "!")
            is_test = is_test or "test" in words_of(row[at:past(row, at)])
            at = past(row, at)
            continue
        if word in ("impl", "trait", "mod", "fn", "struct", "enum"):
            opens = until(row, at, last, "{", ";")
            end = past(row, opens)
            if not is_test:
                item(row, word, (at, opens, end), module, types, bodies, owner)
            at, is_test = end, False
        elif word in ("use", "const", "type", "static") and row[at + 1].text != "fn":
            at, is_test = until(row, at, last, ";") + 1, False
        else:
            at += 1


def item(row, word, places, module, types, bodies, owner):
    at, opens, end = places
    name, inside = row[at + 1].text, (opens + 1, end - 1)
    if word in ("impl", "trait"):
        found = head_of(row[at + 1:opens]) if word == "impl" else (name, "")
        read(row, module, types, bodies, *inside, found)
    elif word == "mod" and row[opens].text == "{":
        read(row, (*module, name), types, bodies, *inside)
    elif word in ("struct", "enum") and row[opens].text == "{":
        found = []
        for first, last in parts(row, *inside):
            said = [text for text in words_of(row[first:last]) if text != "pub"]
            if said and re.fullmatch(r"\w+", said[0]):
                found.append((said[0], " ".join(said[1:])))
        types.add_parts(word, name, found)
    elif word == "fn" and row[opens].text == "{":
        arrow = until(row, at, opens, "->")
        ends = [place for place in range(arrow, opens) if row[place].kind != "Code" or row[place].text == "where"]
        returns = " ".join(words_of(row[arrow + 1:min(ends, default=opens)]))
        if not words_of(row[inside[0]:inside[1]]):
            types.laws.add(name)
        else:
            bodies.append(Body(module, *owner, name, returns, row[inside[0]:inside[1]]))


def head_of(head):
    """The type of an `impl`, and its trait or nothing."""
    at = next((place for place, token in enumerate(head) if token.text == "where"), len(head))
    names = names_of(head[:at])
    if "for" in names:
        cut = names.index("for")
        return "".join(names[cut + 1:cut + 2]), "".join(names[:cut][-1:])
    return "".join(names[-1:]), ""


class Changes:
    """All places of a body, by kinds of changes."""

    def __init__(self, text, body, types):
        self.text, self.body, self.types, self.row = text, body, types, body.tokens

    def all(self):
        """The places, each once, in the order of the text."""
        kinds = (self.of_numbers, self.of_signs, self.of_names, self.of_lists, self.of_branches, self.of_results,
                 self.of_loops, self.of_statements)
        found = {Place(*place): None for kind in kinds for place in kind()}
        return sorted(place for place in found if self.said(place.first, place.last).split() != place.made.split())

    def said(self, first, last):
        return self.text[first:last].decode()

    def words(self, first, last):
        """What stands from one token to before another."""
        return self.said(self.row[first].first, self.row[last - 1].last) if first < last else ""

    def place(self, first, last, made):
        """A place from one token to before another, with as many lines as before."""
        start, end = self.row[first].first, self.row[last - 1].last
        return start, end, made + "\n" * (self.said(start, end).count("\n") - made.count("\n"))

    def code(self):
        return [(at, token) for at, token in enumerate(self.row) if token.kind in ("Code", "Literal")]

    def is_apart(self, at):
        """Whether the token has blanks on both sides, as an operator between two operands has."""
        token = self.row[at]
        return self.text[token.first - 1:token.first].isspace() and self.text[token.last:token.last + 1].isspace()

    def of_numbers(self):
        for at, token in self.code():
            found = NUMBER.fullmatch(token.text)
            if found:
                value = int(found[1].replace("_", ""), 0)
                for made in (value + 1, *([value - 1] if value else [])):
                    yield self.place(at, at + 1, f"{made}{found[2] or ''}")
            byte = re.fullmatch(r"b'(.)'", token.text)
            if byte:
                yield self.place(at, at + 1, f"b'{chr(ord(byte[1]) ^ 1)}'" if byte[1] not in "&']" else "b'~'")
            if re.fullmatch(r'b?"[^"\\]+"', token.text) and token.text[-2].isalnum():
                yield self.place(at, at + 1, token.text[:-2] + chr(ord(token.text[-2]) ^ 1) + '"')

    def of_signs(self):
        for at, token in self.code():
            if token.text in OTHERS and self.is_apart(at):
                yield self.place(at, at + 1, OTHERS[token.text])
            before = self.row[at - 1] if at else None
            if token.text == "!" and not (before and before.last == token.first and re.match(r"\w", before.text)):
                yield self.place(at, at + 1, "")
            if token.text == ".." and before and before.text == "[" and self.row[at + 1].text != "]":
                end = until(self.row, at + 1, len(self.row), "]")
                yield self.place(at, end, f"{self.words(at + 1, end)}..")
            if token.text == ".." and self.row[at + 1:at + 2] and self.row[at + 1].text == "]":
                first = max((it for it in range(at) if past(self.row, it) > at + 1), default=at) + 1
                if first < at:
                    yield self.place(first, at + 1, f"..{self.words(first, at)}")

    def of_names(self):
        """A field for its neighbour, a variant for another, true for false, one call for another."""
        for at, token in self.code():
            before = self.row[at - 1].text if at else ""
            calls = self.row[at + 1:at + 2] and self.row[at + 1].text == "("
            if before == "." and not calls:
                for other in sorted(self.types.fields.get(token.text, ())):
                    yield self.place(at, at + 1, other)
            if before == "." and calls and token.text in CALLS:
                yield self.place(at, at + 1, CALLS[token.text])
            if before == "::" and at > 1:
                for other in sorted(self.types.variants.get((self.row[at - 2].text, token.text), ())):
                    yield self.place(at, at + 1, other)
            if token.text in ("true", "false"):
                yield self.place(at, at + 1, "false" if token.text == "true" else "true")

    def of_lists(self):
        """Two neighbours exchanged: arguments, or the values of fields."""
        for at, token in self.code():
            before = self.row[at - 1].text if at else ""
            if token.text == "(" and before != "!" and before not in KEYWORDS:
                found = list(parts(self.row, at + 1, past(self.row, at) - 1))
                for (first, middle), (second, end) in zip(found, found[1:]):
                    yield self.place(first, end, f"{self.words(second, end)}, {self.words(first, middle)}")
            if token.text == "{" and re.match("[A-Z]", before) and not self.is_head(at):
                found = [field for field in map(self.field, parts(self.row, at + 1, past(self.row, at) - 1)) if field]
                for (name, value, first, _), (other, such, _, end) in zip(found, found[1:]):
                    yield self.place(first, end, f"{name}: {such}, {other}: {value}")

    def field(self, part):
        first, last = part
        if last - first == 1 and re.match(r"[a-z_]", self.row[first].text):
            return self.row[first].text, self.row[first].text, first, last
        if last - first > 2 and self.row[first + 1].text == ":":
            return self.row[first].text, self.words(first + 2, last), first, last
        return None

    def heads(self):
        """Each `if`, `while`, `for` and `match`, with where what it says ends."""
        for at, token in self.code():
            if token.text in HEADS and token.kind == "Code":
                yield at, token.text, until(self.row, at + 1, len(self.row), "{", "=>")

    def is_head(self, opens):
        return any(end == opens for _, _, end in self.heads())

    def of_branches(self):
        """Taken always or never."""
        for at, word, end in self.heads():
            said = self.row[at + 1:end]
            if word in ("if", "while") and "let" not in words_of(said) and said:
                for value in ("true", "false")[word == "while":]:
                    yield self.place(at + 1, end, value)

    def of_results(self):
        """Ok, Err, Some and None, each for another that the body has too."""
        found = defaultdict(list)
        for at, token in self.code():
            if token.text in ("Ok", "Err", "Some", "None") and (not at or self.row[at - 1].text not in ("::", ".")):
                end = past(self.row, at + 1) if self.row[at + 1:at + 2] and self.row[at + 1].text == "(" else at + 1
                if end > at + 1 or token.text == "None":
                    found[token.text].append((at, end, self.words(at, end)))
        given = {word: [said for *_, said in rows] for word, rows in found.items()}
        given.setdefault("None", ["None"])
        if "AllocError" in self.body.returns:
            given.setdefault("Err", ["Err(AllocError)"])
        for word, other in (("Ok", "Err"), ("Err", "Ok"), ("Some", "None"), ("None", "Some")):
            for at, end, _ in found[word]:
                for said in sorted(set(given.get(other, ())))[:1]:
                    yield self.place(at, end, " ".join(said.split()))

    def of_loops(self):
        """A turn less."""
        for at, word, end in self.heads():
            within = until(self.row, at, end, "in")
            if word != "for" or within == end:
                continue
            dots = until(self.row, within + 1, end, "..", "..=")
            if dots == end:
                yield self.place(within + 1, end, f"{self.words(within + 1, end)}.skip(1)")
            elif self.row[dots].text == "..=":
                yield self.place(dots, dots + 1, "..")
            else:
                yield self.place(dots + 1, end, f"({self.words(dots + 1, end)}).saturating_sub(1)")

    def of_statements(self):
        """A statement left out, and an early return before a statement of the body itself."""
        for first, last in self.statements(0, len(self.row)):
            for made in self.early():
                start = self.row[first].first
                yield start, start, f"{made} "
        for first, last in self.blocks():
            for start, end in self.statements(first, last):
                if self.may_go(start, end, last):
                    yield self.place(start, end, "")

    def may_go(self, first, end, last):
        """Whether a statement can be left out: not what gives the block's value, names a value or cites a law."""
        said = self.row[first:end]
        if said[-1].text != ";" and (end == last or said[0].text not in HEADS):
            return False
        is_unnamed = said[0].text == "let" and len(said) > 1 and said[1].text.startswith("_")
        called = until(self.row, first, end, "(")
        names = names_of(self.row[first:called])
        is_law = bool(names) and names[-1] in self.types.laws
        return (said[0].text != "let" or is_unnamed) and not is_law

    def early(self):
        """What an early return may give, by the type."""
        returns = self.body.returns
        if not returns:
            return ["return;"]
        if returns == "bool":
            return ["return false;", "return true;"]
        if re.fullmatch(r"[ui](8|16|32|64|128|size)", returns):
            return ["return 0;"]
        if returns.startswith("Option"):
            return ["return None;"]
        if returns.startswith("Result < ( ) ,"):
            return ["return Ok(());"]
        return ["return Err(AllocError);"] if returns.endswith("AllocError >") else []

    def blocks(self):
        """The ranges of tokens of the body and of each block in it."""
        yield 0, len(self.row)
        heads = {end: word for _, word, end in self.heads() if end < len(self.row)}
        for at, token in self.code():
            before = self.row[at - 1].text if at else ""
            is_value = re.match(r"[A-Z>]", before) and before != ">=" and at not in heads
            if token.text == "{" and not is_value and heads.get(at) != "match":
                yield at + 1, past(self.row, at) - 1

    def statements(self, first, last):
        """The ranges of the statements of a block."""
        at = first
        while at < last:
            start = at
            while at < last:
                if is_sign(self.row[at], (";",)):
                    at += 1
                    break
                was, at = at, past(self.row, at)
                is_block = self.row[start].text in (*HEADS, "loop", "unsafe") and self.row[was].text == "{"
                if is_block and (at == last or self.row[at].text not in ("else", ".", "?", ";", "as")):
                    break
            yield start, at


def places(rattle, text, module, types):
    """The bodies of a source with their places."""
    row, bodies = tokens(rattle, text), []
    read(row, module, types, bodies)
    return [(body, Changes(text, body, types).all()) for body in bodies]


def applied(text, place):
    return text[:place.first] + place.made.encode() + text[place.last:]
