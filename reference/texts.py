"""Texts of examples, as docs/EVENTS.md has them: examples with their lines and repeats, and the words of a call."""
import re

TURN = re.compile(r"(?<![^ ])(0x|m|)([0-9a-f]{1,16}|[0-9]+)([+-][0-9]*)@(?![^ ;,])")
NUMBER, ADDRESS, MESSAGE = (re.compile(form) for form in ("[0-9]+", "0x[0-9a-f]{1,16}", "m[0-9]+"))
OPERATIONS = {"R": "load", "W": "store", "S": "swap"}
LAST = 2 ** 64 - 1


class Unreadable(Exception):
    """Why a line can't be read."""


def words_of(text):
    return [word for word in re.split(r"[ \t]", text.split("#")[0]) if word]


class Turned:
    """A text with numbers, addresses and messages that rise or fall by the turn, counted from 0."""

    def __init__(self, text):
        self.pieces, at = [], 0
        for found in TURN.finditer(text):
            sign, digits, by = found.groups()
            by = int(by if len(by) > 1 else by + "1")
            fits = len(digits) <= 16 if sign == "0x" else digits.isdigit() and int(digits) <= LAST
            if fits and abs(by) <= LAST:
                base, by = (int(digits, 16), 8 * by) if sign == "0x" else (int(digits), by)
                self.pieces.append((text[at:found.start()], found.group(), base, by, sign))
                at = found.end()
        self.rest = text[at:]

    def text(self, turn, is_call=True):
        moved = [(front, word, base + by * turn, sign) for front, word, base, by, sign in self.pieces]
        if is_call and any(number > LAST for _, _, number, _ in moved):
            raise Unreadable("a number is too large")
        if is_call and any(number < 0 for _, _, number, _ in moved):
            raise Unreadable("a number is below 0")
        return "".join([front + (f"{sign}{number:{'x' if sign == '0x' else 'd'}}" if 0 <= number <= LAST else word)
                        for front, word, number, sign in moved]) + self.rest


class Line:
    """A call, and the expected answer, if there is one; both with one blank between words."""

    def __init__(self, number, words, is_repeated):
        at = words.index(":") if ":" in words else len(words)
        self.number, self.call, self.is_repeated = number, " ".join(words[:at]), is_repeated
        self.wanted = " ".join(words[at + 1:]) if ":" in words else None
        if not self.call:
            raise Unreadable("a call is wanted before the answer")
        if self.wanted == "":
            raise Unreadable("an answer is wanted")
        self.has_turns = is_repeated and TURN.search(" ".join(words)) is not None
        self.turned = (Turned(self.call), Turned(self.wanted or "")) if self.has_turns else None

    def of_turn(self, turn):
        """The call and the answer as they are in a turn."""
        if not self.has_turns:
            return self.call, self.wanted
        call, wanted = self.turned
        return call.text(turn), self.wanted and wanted.text(turn, False)


def is_answer(wanted, came):
    """Whether that is the answer, or one that begins so."""
    if wanted.endswith(" ..") or wanted == "..":
        words = wanted.split(" ")[:-1]
        return came.split(" ")[:len(words)] == words
    return came == wanted


class Example:
    """A title, and blocks of lines, each with how often they are played. `fault` is the first line that can't be read,
    with its cause."""

    def __init__(self, number, title):
        self.number, self.title, self.blocks, self.fault = number, title, [], None
        self.kind = None     # the class that plays it
        self.inside = None   # the line of a repeat that isn't ended yet

    def add(self, number, words, kinds):
        """One more line. `kinds` has by its first call what plays an example."""
        try:
            self.take(number, words, kinds)
        except Unreadable as cause:
            self.refuse(number, str(cause))

    def refuse(self, number, cause):
        self.fault = self.fault or (number, cause)

    def take(self, number, words, kinds):
        if self.title is None:
            raise Unreadable("an example is wanted")
        if words[0] == "end":
            self.end(words)
        elif words[0] == "repeat":
            self.repeat(number, words, kinds)
        else:
            if self.inside is None:
                self.blocks.append((1, []))
            self.line(Line(number, words, self.inside is not None), kinds)

    def repeat(self, number, words, kinds):
        if self.inside is not None:
            raise Unreadable("a repeat inside another")
        turns = Words(words[1:2]).fitting("a number", NUMBER)
        if turns == 0:
            raise Unreadable("a number of turns from 1 on is wanted")
        self.blocks.append((turns, []))
        if len(words) > 2:
            self.line(Line(number, words[2:], True), kinds)
        else:
            self.inside = number

    def end(self, words):
        if self.inside is None:
            raise Unreadable("there is no repeat to end")
        Words(words[1:]).end()
        if not self.blocks[-1][1]:
            raise Unreadable("a repeat without a line")
        self.inside = None

    def line(self, line, kinds):
        """A line of the last block. It is read as it is in its first and its last turn."""
        turns, lines = self.blocks[-1]
        lines.append(line)
        self.kind = self.kind or kinds.get(line.call.split(" ")[0])
        if self.kind is None:
            raise Unreadable(f"{' or '.join(kinds)} is wanted")
        for turn in {0, turns - 1}:
            self.kind.read(line.of_turn(turn)[0])

    def lines(self):
        """Each line that is played, with its turn, its call and the expected answer."""
        for turns, lines in self.blocks:
            for turn in range(turns):
                yield from ((line, turn, *line.of_turn(turn)) for line in lines)


def examples_of(text, kinds):
    """The examples of a text. What stands before the first one is one without a title, which can't be read."""
    examples = []
    for number, line in enumerate(text.split("\n"), 1):
        words = words_of(line)
        if words and words[0] == "example":
            examples.append(Example(number, " ".join(words[1:])))
            if len(words) == 1:
                examples[-1].refuse(number, "a title is wanted")
        elif words:
            if not examples:
                examples.append(Example(number, None))
            examples[-1].add(number, words, kinds)
    for example in examples:
        if example.inside is not None:
            example.refuse(example.inside, "a repeat without an end")
    return examples


class Words:
    """The words of a call, taken from the left."""

    def __init__(self, words):
        self.left = list(words)

    def word(self, what):
        if not self.left:
            raise Unreadable(f"{what} is wanted")
        return self.left.pop(0)

    def of_form(self, what, form):
        word = self.word(what)
        if not form.fullmatch(word):
            raise Unreadable(f"{what} is wanted")
        return word

    def one_of(self, what, words):
        word = self.word(what)
        if word not in words:
            raise Unreadable(f"{what} is wanted")
        return word

    def end(self):
        if self.left:
            raise Unreadable("a word too many")

    def number(self):
        number = int(self.of_form("a number", NUMBER))
        if number > LAST:
            raise Unreadable("a number is too large")
        return number

    def fitting(self, what, form):
        """The number of a word of this form. Past 64 bits it isn't one."""
        number = int(self.of_form(what, form).lstrip("m"))
        if number > LAST:
            raise Unreadable(f"{what} is wanted")
        return number

    def count(self):
        """A number of 32 bits."""
        number = self.number()
        if number >= 2 ** 32:
            raise Unreadable("a number is too large")
        return number

    def address(self):
        """The number of the word at a byte address."""
        byte = int(self.of_form("an address", ADDRESS), 16)
        if byte % 8:
            raise Unreadable("an address is a multiple of 8")
        return byte // 8

    def line(self):
        """A line's number, or the word of its address."""
        if self.left and self.left[0].startswith("0x"):
            return "word", self.address()
        return "line", self.number()

    def message(self):
        return self.fitting("a message", MESSAGE)

    def operation(self):
        kind = OPERATIONS[self.one_of("an operation", OPERATIONS)]
        return kind, self.address(), None if kind == "load" else self.number()

    def seat(self):
        """core or bank, and its number."""
        return self.one_of("core or bank", ("core", "bank")), self.count()

    def memory(self):
        """The words behind `with`, up to the end."""
        words = {}
        if self.left:
            self.one_of("with", ("with",))
            while True:
                word = self.address()
                words[word] = self.number()
                if not self.left:
                    break
        return words

    def parts(self):
        """What stands between semicolons."""
        return [type(self)(words_of(part)) for part in " ".join(self.left).split(";")]
