"""The conditions of herd7's tests, for tools/from_herd.py: `not`, `=>`, `<>`, `true` and `false` are written without
them. What isn't a value is one of the others that the name can have at the end, which the test's own values bound."""
import re

SIGNS = ("/\\", "\\/", "=>", "not", "(", ")", "true", "false")
NOT_HERE = ("=>", "not", "true", "false")
ATOMS = 256


class Unreadable(Exception):
    """The condition isn't whole."""


class Reading:
    """Reads words: atoms as (name, value, whether it has the value), and signs. `=>` binds weakest, to the right."""

    def __init__(self, words):
        self.left = list(words)

    def whole(self):
        tree = self.implied()
        if self.left:
            raise Unreadable
        return tree

    def take(self, sign):
        found = self.left[:1] == [sign]
        if found:
            self.left.pop(0)
        return found

    def implied(self):
        first = self.joined("\\/")
        return ("\\/", [("not", first), self.implied()]) if self.take("=>") else first

    def joined(self, sign):
        parts = [self.joined("/\\") if sign == "\\/" else self.factor()]
        while self.take(sign):
            parts.append(self.joined("/\\") if sign == "\\/" else self.factor())
        return (sign, parts) if len(parts) > 1 else parts[0]

    def factor(self):
        if self.take("not"):
            return "not", self.factor()
        if self.take("("):
            tree = self.implied()
            if not self.take(")"):
                raise Unreadable
            return tree
        if not self.left or self.left[0] in SIGNS and self.left[0] not in ("true", "false"):
            raise Unreadable
        word = self.left.pop(0)
        return word == "true" if word in ("true", "false") else ("atom", *word)


def plain(tree, values, is_negated=False):
    """The tree with /\\, \\/ and atoms that have their values alone, or True or False. `values` has by name all values
    that it can have at the end."""
    if isinstance(tree, bool):
        return tree != is_negated
    if tree[0] == "not":
        return plain(tree[1], values, not is_negated)
    if tree[0] == "atom":
        _, name, value, has = tree
        if has != is_negated:
            return "atom", name, value
        return joined("\\/", [("atom", name, other) for other in sorted(values(name) - {value})])
    sign = tree[0] if not is_negated else {"/\\": "\\/", "\\/": "/\\"}[tree[0]]
    return joined(sign, [plain(part, values, is_negated) for part in tree[1]])


def joined(sign, parts):
    """Parts joined by a sign. False ends /\\, and True ends \\/; the other one of the two goes."""
    if (sign == "\\/") in parts:
        return sign == "\\/"
    parts = [part for part in parts if not isinstance(part, bool)]
    flat = [one for part in parts for one in (part[1] if part[0] == sign else [part])]
    return (sign == "/\\") if not flat else (sign, flat) if len(flat) > 1 else flat[0]


def text_of(tree):
    """A plain tree in the form of docs/TEXTS.md."""
    if tree[0] == "atom":
        return f"{tree[1]}={tree[2]}"
    parts = [f"({text_of(part)})" if part[0] == "\\/" and tree[0] == "/\\" else text_of(part) for part in tree[1]]
    return f" {tree[0]} ".join(parts)


def rewritten(words, values):
    """The condition of these words without what isn't read here; True or False if all ends have or lack it."""
    tree = plain(Reading(words).whole(), values)
    return tree if isinstance(tree, bool) else f"({text_of(tree)})"


def has_more(words):
    """Whether some word isn't read here."""
    return any(word in NOT_HERE or isinstance(word, tuple) and not word[2] for word in words)


def is_too_long(text):
    return len(re.findall("=", text)) > ATOMS
