"""The edits that mend a mistake in an item of a database: which brace, quote, comma or key is missing, and where.

What an author may have meant is guessed as `bibtex-search -explain` does. Each guess is tried: the text is read again with it, and the guess is kept only where that mistake is gone
and no entry or field is lost."""

from __future__ import annotations

import collections
import itertools
import re
from typing import Callable, Container, Dict, Iterator, List, NamedTuple, Optional, Sequence, Tuple

from .bibtext import Item, read
from .standard import FIELDS

__all__ = ["Mending", "is_mended", "mend"]

NAME = rb"[^\x00- \"#%'(),={}]+"
IS_NAME = re.compile(NAME)
WHITE = b" \t\r\n"
OPENS_ITEM = re.compile(rb"[ \t\r\n]*([{(])")
BEGINS_ITEM = re.compile(rb"[ \t\r\n]*@[ \t\r\n]*[A-Za-z][A-Za-z_-]*[ \t\r\n]*[{(]")
OPENS_VALUE = re.compile(rb"[ \t\r\n]*,[ \t\r\n]*(" + NAME + rb")[ \t\r\n]*=[ \t\r\n]*")
NAME_AND_EQUALS = re.compile(NAME + rb"[ \t\r\n]*=")
# What looks like a field in a value; a line that begins an entry, or closes one.
FIELD_BEGINS = re.compile(rb"(?m)(,[ \t\r\n]*|^[ \t]*)([A-Za-z][A-Za-z_-]*)[ \t\r\n]*=[ \t\r\n]*([{\"0-9]|[A-Za-z])")
ENTRY_BEGINS = re.compile(rb"(?m)^[ \t]*@[ \t]*[A-Za-z]+[ \t]*[{(]")
ENTRY_ENDS = re.compile(rb"(?m)^[ \t]*(?:[})][ \t\r]*$|@[ \t]*[A-Za-z]+[ \t]*[{(])")
KEY_OF_WORDS = re.compile(rb"[^\x00- ,={}\"]+(?:[ \t]+[^\x00- ,={}\"]+)*(?=[ \t]*,)")
PLAIN_VALUE = re.compile(rb"(?!#)[^,{}\"=\r\n]+")
ACCENT = re.compile(rb"\\\"(?:[A-Za-z]|\{\\?[A-Za-z]\}|\\[ij](?![A-Za-z]))")
OTHER_FOR_EQUALS = b":~->"
# The fields that are known where they begin in the middle of a line.
KNOWN_FIELDS = frozenset(name.encode() for name in (*FIELDS, "abstract", "doi", "eprint", "isbn", "issn", "keywords", "url"))
# How many guesses are tried, how many of them for one value, and how many items after the mistake are read again.
MOST_GUESSES = 12
MOST_OF_VALUE = 3
ITEMS_AFTER = 8


class Mending(NamedTuple):
    """An edit that a diagnostic suggests: its title, and the text that is put from `start` to `end`."""

    title: str
    start: int
    end: int
    text: str


def mend(text: bytes, items: Sequence[Item], number: int) -> Optional[Mending]:
    """The edit that mends the mistake of an item; None where no guess does. items: those of the text, in their order."""
    item, last = items[number], number + ITEMS_AFTER
    end = items[last].start if last < len(items) else len(text)
    keys = {other.key.lower() for other in items if other.key is not None and other is not item}
    guesses = itertools.islice(Guesser(text, item, keys).guesses(), MOST_GUESSES)
    return next((guess for guess in guesses if is_mended(text, item.start, end, guess)), None)


def is_mended(text: bytes, start: int, end: int, guess: Mending) -> bool:
    """Whether a guess mends the first item of a part of a text: its mistake is gone, the part is read to its end, and no other entry and no field is lost."""
    part = text[start:end]
    new = part[: guess.start - start] + guess.text.encode("utf8", "surrogateescape") + part[guess.end - start :]
    before, after = read(part).items, read(new).items
    slips = [item.slip for item in after if item.slip is not None]
    if not after or (end < len(text) and any(slip.place >= len(new) for slip in slips)):
        return False
    shift = len(new) - len(part)
    first = after[0].slip
    old = before[0].slip
    is_gone = first is None or (old is not None and first.place - shift > old.place)
    # (a value that now runs to the end of the text has swallowed the mistake)
    is_gone = is_gone and not (first is not None and old is not None and first.place >= len(new) and old.place < len(part) and len(after[0].fields) <= len(before[0].fields))
    lost = keys_of(before[1:]) - keys_of(after[1:])
    is_whole = after[0].kind == before[0].kind and len(after[0].fields) >= len(before[0].fields)
    return is_gone and len(slips) <= sum(item.slip is not None for item in before) and not lost and is_whole


def keys_of(items: Sequence[Item]) -> "collections.Counter[bytes]":
    return collections.Counter(item.key.lower() for item in items if item.is_entry and item.key is not None)


class Guesser:
    """Guesses what is missing in an item that a mistake ends."""

    def __init__(self, text: bytes, item: Item, keys: Container[bytes]) -> None:
        assert item.slip is not None
        self.text = text
        self.item = item
        self.keys = keys
        self.place, self.said = item.slip
        opened = OPENS_ITEM.match(text, item.kind_end)
        self.opening = b"{" if opened is None else opened[1]
        self.first = item.kind_end if opened is None else opened.end()
        self.closing = ")" if self.opening == b"(" else "}"

    def guesses(self) -> Iterator[Mending]:
        by_text: Dict[str, Callable[[], Iterator[Mending]]] = {
            "I was expecting a , or a }": self.after_part,
            "I was expecting a , or a )": self.after_part,
            "I was expecting an =": self.before_equals,
            "I was expecting a name": self.before_name,
            "I was expecting a }": self.after_text,
            "I was expecting a )": self.after_text,
            "I was expecting a value": self.before_value,
            "Unbalanced braces": self.unbalanced,
            "Illegal end of database file": self.at_end,
        }
        guess = by_text.get(self.said)
        return iter(()) if guess is None else guess()

    # ---- what is there ----

    def byte(self) -> bytes:
        return self.text[self.place : self.place + 1]

    def before(self, place: int) -> int:
        """Where the whitespace before a place begins."""
        return len(self.text[self.item.start : place].rstrip(WHITE)) + self.item.start

    def skipped(self, place: int) -> int:
        """Where the whitespace at a place ends."""
        rest = self.text[place:]
        return place + len(rest) - len(rest.lstrip(WHITE))

    def is_on_one_line(self, other: int) -> bool:
        return self.text.find(b"\n", min(other, self.place), max(other, self.place)) < 0

    def values(self) -> List[Tuple[str, int, int]]:
        """The values: the name of each, where it begins, and where it ends; the last may be open."""
        found = [(shown(field.name or self.item.key or b""), self.skipped(field.after), field.end) for field in self.item.fields]
        last = self.item.fields[-1].end if self.item.fields else self.item.key_end
        opened = OPENS_VALUE.match(self.text, last, self.place) if self.item.is_entry else None
        return found if opened is None else [*found, (shown(opened[1]), opened.end(), self.place)]

    def closers(self, start: int, place: int) -> str:
        """What closes a value at a place."""
        depth, is_quoted = 0, False
        for byte in self.text[start:place]:
            if byte == ord('"') and depth == 0:
                is_quoted = not is_quoted
            depth += (byte == ord("{")) - (byte == ord("}"))
        return "}" * depth + ('"' if is_quoted else "")

    # ---- guesses that several mistakes share ----

    def put(self, title: str, place: int, text: str) -> Mending:
        return Mending(title, place, place, text)

    def close_values(self) -> Iterator[Mending]:
        """Closes a value before what looks like another field in it."""
        for name, start, end in self.values():
            other = ENTRY_BEGINS.search(self.text, start, end)
            fields = (found for found in FIELD_BEGINS.finditer(self.text, start, end if other is None else other.start()) if is_likely(found))
            for found in itertools.islice(fields, MOST_OF_VALUE):
                place = self.before(found.start())
                closers = self.closers(start, place) if place > start else ""
                if closers:
                    comma = "" if found[1].startswith(b",") else ","
                    yield Mending(f"Close the value of `{name}`", *self.closed(start, place, closers, comma))

    def closed(self, start: int, place: int, closers: str, comma: str) -> Tuple[int, int, str]:
        """The edit that closes a value at a place: which bytes are taken out, and what is put there. A quote before the place may be meant as what closes it."""
        is_quote = self.text.endswith(b'"', start, place)
        if is_quote and closers == "}" and self.text.count(b'"', start, place) % 2 == 1:
            return place - 1, place, closers + comma
        if is_quote and closers == '}"':
            return place - 1, place - 1, "}" + comma
        return place, place, closers + comma

    def close_item(self, stop: int) -> Mending:
        """Closes the item before what begins at a place."""
        place = self.before(stop)
        new_line = "\n" if self.text.find(b"\n", self.item.start, place) >= 0 else ""
        named = f"@{shown(self.item.kind)}{{{shown(self.item.key)}}}" if self.item.is_entry and self.item.key is not None else f"the @{shown(self.item.kind)}"
        return self.put(f"Close {named}", place, new_line + self.closing)

    def not_closed(self) -> Iterator[Mending]:
        """Closes the item where another one begins at the mistake, or in its line."""
        line = self.text.rfind(b"\n", self.item.start, self.place) + 1
        for stop in (self.place, line):
            if stop > self.item.kind_end and BEGINS_ITEM.match(self.text, stop):
                yield self.close_item(stop)

    def other_brace(self) -> Iterator[Mending]:
        if self.byte() in (b"}", b")") and self.byte().decode() != self.closing:
            yield Mending(f"Write {self.closing} in the place of {self.byte().decode()}", self.place, self.place + 1, self.closing)

    def braced(self, start: int) -> Iterator[Mending]:
        """Puts a value without braces into braces, up to the next comma or brace in its line."""
        found = PLAIN_VALUE.match(self.text, start)
        if found is not None and found.end() > self.place:
            value = found[0].rstrip(WHITE)
            yield Mending("Put the value into braces", start, start + len(value), "{" + shown(value) + "}")

    # ---- after a key or a value ----

    def after_part(self) -> Iterator[Mending]:
        if not self.item.fields:
            yield from self.after_key()
            return
        _, start, end = [value for value in self.values() if value[2] <= self.place][-1]
        yield from self.quotes(start, end)
        yield from self.close_values()
        yield from self.not_closed()
        yield from self.other_brace()
        yield from self.after_value(start, end)

    def after_key(self) -> Iterator[Mending]:
        key = self.item.key or b""
        start = self.item.key_end - len(key)
        if self.byte() == b"=" or b"=" in key:
            number = next(number for number in itertools.count(1) if f"key{number}".encode() not in self.keys)
            yield self.put(f"Add a key, key{number}", start, f"key{number}, ")
            return
        yield from self.not_closed()
        yield from self.other_brace()
        if key.endswith(b";") and NAME_AND_EQUALS.match(self.text, self.place):
            yield Mending("Write a comma in the place of the semicolon", self.item.key_end - 1, self.item.key_end, ",")
        words = KEY_OF_WORDS.match(self.text, start)
        joined = b"" if words is None else b"".join(words[0].split())
        if words is not None and joined.lower() not in self.keys:
            yield Mending(f"Write the key without whitespace, {shown(joined)}", *words.span(), shown(joined))
        if NAME_AND_EQUALS.match(self.text, self.place):
            yield self.put("Add the comma", self.item.key_end, ",")

    def after_value(self, start: int, end: int) -> Iterator[Mending]:
        if self.byte() == b";":
            yield Mending("Write a comma in the place of the semicolon", self.place, self.place + 1, ",")
        if NAME_AND_EQUALS.match(self.text, self.place):
            yield self.put("Add the comma", end, ",")
            return
        if not self.is_on_one_line(end):
            yield self.close_item(self.place)
            return
        if self.byte() in (b"{", b'"') or self.text[start : start + 1] == b'"':
            yield Mending("Add the #", end, self.place, " # ")
        if self.text[start : start + 1] == b"{":
            yield Mending("Take out the brace", end - 1, end, "")
        else:
            yield from self.braced(start)

    def quotes(self, start: int, end: int) -> Iterator[Mending]:
        """Mends a quote in a text, which ends the value too early."""
        if end != self.place or self.text[start : start + 1] != b'"':
            return
        accent = ACCENT.match(self.text, end - 2)
        if accent is not None:
            yield Mending("Put the accent into braces", *accent.span(), "{" + shown(accent[0]) + "}")

    def after_text(self) -> Iterator[Mending]:
        """The value of a string or a preamble has ended, and the item's end doesn't come after it."""
        yield from self.other_brace()
        yield from self.not_closed()
        values = self.values()
        if not values:
            return
        _, start, end = values[-1]
        whole = self.braced_text()
        if self.item.kind == b"preamble" and whole is not None and self.text[start : start + 1] not in (b"{", b'"'):
            yield Mending("Put the text into braces", *whole, "{" + shown(self.text[slice(*whole)]) + "}")
        if self.item.kind == b"string" and self.byte() == b"," and NAME_AND_EQUALS.match(self.text, self.skipped(self.place + 1)):
            opening = shown(self.opening)
            yield Mending("Begin another @string", self.place, self.skipped(self.place + 1), f"{self.closing}\n@string{opening}")
        elif self.byte() != b"," and self.is_on_one_line(end):
            yield from self.after_value(start, end)
        if not self.is_on_one_line(end):
            yield self.close_item(self.place)

    def braced_text(self) -> Optional[Tuple[int, int]]:
        """What the item's own braces hold."""
        depth = 1
        for found in re.compile(rb"[{}]").finditer(self.text, self.first):
            depth += 1 if found[0] == b"{" else -1
            if depth == 0:
                return self.first, found.start()
        return None

    # ---- before a part ----

    def before_equals(self) -> Iterator[Mending]:
        yield from self.not_closed()
        end = self.before(self.place)
        start = end
        while start > self.first and IS_NAME.match(self.text[start - 1 : start]):
            start -= 1
        name, word = self.text[start:end], IS_NAME.match(self.text, self.place)
        if name[-1:] and name[-1:] in OTHER_FOR_EQUALS:
            yield Mending("Write an =", end - 1, end, " =")
        if word is not None and word[0] in (b":", b"~", b"-", b">", b"->", b":="):
            yield Mending("Write an =", *word.span(), "=")
        if word is not None and NAME_AND_EQUALS.match(self.text, self.place):
            yield Mending(f"Write the name without whitespace, {shown(name + word[0])}", start, word.end(), shown(name + word[0]))
        if self.byte() in (b"{", b'"') or word is not None:
            yield self.put("Add the =", self.place, "= ")

    def before_name(self) -> Iterator[Mending]:
        if self.byte() == b"%":
            end = self.text.find(b"\n", self.place)
            yield Mending("Take out the comment", self.place, len(self.text) if end < 0 else end, "")
        if self.byte() == b",":
            yield Mending("Take out the comma", self.place, self.place + 1, "")
        yield from self.not_closed()
        yield from self.other_brace()

    def before_value(self) -> Iterator[Mending]:
        yield from self.braced(self.place)
        if self.byte() in (b",", b"}", b")"):
            yield self.put("Write an empty value", self.place, "{}")

    # ---- in a value, and at the end of the text ----

    def unbalanced(self) -> Iterator[Mending]:
        """A brace is closed in a quoted text that opens none."""
        yield from self.close_values()
        if self.byte() == b"}":
            if self.text[self.skipped(self.place + 1) :][:1] in (b",", b"}", b")"):
                yield Mending("Write a quote in the place of the brace", self.place, self.place + 1, '"')
            yield Mending("Take out the brace", self.place, self.place + 1, "")

    def at_end(self) -> Iterator[Mending]:
        if self.item.key is None and self.item.kind not in (b"string", b"preamble"):
            return
        yield from self.close_values()
        opened = [value for value in self.values() if value[2] == self.place]
        for name, start, end in opened:
            for found in itertools.islice(ENTRY_ENDS.finditer(self.text, start, end), MOST_OF_VALUE):
                place = self.before(found.start())
                closers = self.closers(start, place)
                is_other = b"@" in found[0]
                yield self.put(f"Close the value of `{name}`", place, closers + ("\n" + self.closing if is_other else ""))
        place = self.before(self.place)
        closers = self.closers(opened[-1][1], place) if opened else ""
        closed = self.close_item(self.place)
        yield closed._replace(text=closers + closed.text)


def is_likely(found: "re.Match[bytes]") -> bool:
    """Whether what looks like a field is likely one: it begins a line, or its name is known; the name of a string is a value of known ones alone."""
    is_known = found[2].lower() in KNOWN_FIELDS
    return is_known or (not found[3].isalpha() and (b"\n" in found[1] or not found[1].startswith(b",")))


def shown(text: "bytes | None") -> str:
    return (text or b"").decode("utf8", "surrogateescape")
