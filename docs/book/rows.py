"""Reads a worked row of the definitions as a value: `gives "swap$" (string "a" ∷ []) []` is a tuple of its head and its arguments.

A list is a list, `codes "k"` is the text, `++` joins, and a name that isn't known is a tuple of itself."""

import json
import re

TOKEN = re.compile(r'\s*("(?:[^"\\]|\\.)*"|\[\]|\+\+|[∷≡×(){};,=]|λ|[^\s"∷≡×(){};,=\[\]]+)')


class Unreadable(ValueError):
    """A row of a form that isn't read here."""


class Reader:
    def __init__(self, text, known):
        self.words, self.known = TOKEN.findall(text), known

    def next(self):
        return self.words[0] if self.words else ""

    def take(self):
        if not self.words:
            raise Unreadable("the row ends early")
        return self.words.pop(0)

    def statement(self):
        """A value, or two that are the same."""
        left = self.value()
        if self.next() != "≡":
            return left
        self.take()
        return ("≡", left, self.value())

    def value(self):
        left = self.applied()
        sign = self.next()
        if sign not in ("∷", "++"):
            return left
        self.take()
        right = self.value()
        return joined([left], right) if sign == "∷" else joined(left, right)

    def applied(self):
        found = [self.atom()]
        while self.words and (self.next() in ("(", "[]") or self.next()[0] not in "∷≡×){};,=+"):
            found.append(self.atom())
        return meaning(found) if len(found) > 1 else found[0]

    def atom(self):
        word = self.take()
        if word == "(":
            return self.inside()
        if word == "[]":
            return []
        if word.startswith('"'):
            return json.loads(word)
        if re.fullmatch(r"0x[0-9A-F]+|\d+", word):
            return int(word, 0)
        if word in "{};,=λ×":
            raise Unreadable(f"`{word}` in a row")
        return self.known.get(word, (word,))

    def inside(self):
        """A value in parentheses, or a tuple of values."""
        found = [self.value()]
        while self.next() == ",":
            self.take()
            found += [] if self.next() == ")" else [self.value()]
        if self.take() != ")":
            raise Unreadable("a row with other signs")
        return found[0] if len(found) == 1 else ("×", *found)


def joined(left, right):
    """Two lists after each other; where either is a text, both are."""
    if isinstance(left, str) or isinstance(right, str):
        return text_of(left) + text_of(right)
    if isinstance(left, list) and isinstance(right, list):
        return left + right
    raise Unreadable("what is joined is no list")


def text_of(value):
    return value if isinstance(value, str) else "".join(map(chr, value))


def meaning(found):
    """What a head says of its arguments, where it is one that makes texts and numbers."""
    (head, *more), *arguments = found if isinstance(found[0], tuple) else [(None,), *found]
    if more or head is None:
        raise Unreadable("a head that is no name")
    if head == "codes" and len(arguments) == 1 and isinstance(arguments[0], str):
        return arguments[0]
    if head == "pos":
        return arguments[0]
    if head == "negsuc":
        return -arguments[0] - 1
    if head == "replicate" and isinstance(arguments[1], int):
        return chr(arguments[1]) * arguments[0]
    return (head, *arguments)


def read(text, known=None):
    """The value of a row. Raises Unreadable for a form that isn't read here."""
    reader = Reader(text, known or {})
    try:
        found = reader.statement()
    except (TypeError, IndexError, ValueError, AttributeError) as error:
        raise Unreadable(str(error)) from error
    if reader.words:
        raise Unreadable(f"`{reader.next()}` after a row")
    return found
