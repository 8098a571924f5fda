"""What is wrong in a database that was read: the mistakes that end the reading of an item, which the library finds, and what a run warns of besides."""

from __future__ import annotations

import re
from typing import Iterator, List, NamedTuple, Optional, Set, Tuple

from .messages import decoded
from .reading import ENTRY, FIELD, PREAMBLE, STRING, WRONG, Bibliography, Mistake, Place, encoded
from .records import LowerNames, Records, places_of
from .values import Part, has_names, parts_of, value_of

__all__ = ["Undefined", "mistakes_of", "undefined_strings", "values_of"]

# How many bytes a character of UTF-8 has at most.
LONGEST = 4
# What opens a string or a preamble, and the whitespace after it.
OPENS = re.compile(rb"[({][ \t\r\n]*")


class Undefined(NamedTuple):
    """A name without a string. entry: the record of its entry, if it is in one. is_own: whether it is in the definition of that very string."""

    part: Part
    entry: Optional[int]
    is_own: bool


class Found(NamedTuple):
    """What is wrong with the bytes from `start` to `end`. entry: the record of its entry, if it is in one."""

    start: int
    end: int
    text: str
    entry: Optional[int]
    is_error: bool = False


def mistakes_of(base: Bibliography) -> List[Mistake]:
    """All that is wrong in a database, by place."""
    places, columns = Places(base.text), Records(base.text, 0, len(base.text), base._records, base._texts, LowerNames())
    unread = [*unread_fields(base, columns), *long_values(base, columns)]
    found = sorted([*ended(base), *repeated_entries(base), *unread, *unknown_strings(base, columns)], key=lambda it: (it.start, it.end))
    return [Mistake(it.text, base.file, places.of(it.start, it.end), it.is_error, key_of(base, it.entry)) for it in found]


class Places:
    """Lines and columns of places that ascend, so that no byte of a text is counted twice."""

    def __init__(self, text: bytes) -> None:
        self.text = text
        self.at = 0
        self.line = self.column = 1

    def of(self, start: int, end: int) -> Place:
        """The place of these bytes. The end of the database is on its last line."""
        last = min(start, max(len(self.text) - 1, 0))
        feed = self.text.rfind(b"\n", self.at, last)
        if feed >= 0:
            self.line += self.text.count(b"\n", self.at, last)
            self.at, self.column = feed + 1, 1
        self.column += len(decoded(self.text[self.at : start]))
        self.at = start
        return Place(self.line, self.column, (start, end))


def ended(base: Bibliography) -> Iterator[Found]:
    """The mistakes that end the reading of an item."""
    file = encoded(base.file)
    for at in base._all(WRONG):
        place, line = base._number(at, 2), base._number(at, 4)
        text = base._text(at)[len(b"Error--") : -len(b"--line %d of file %s" % (line, file))]
        yield Found(place, place, decoded(text), broken_entry(base, at), True)


def repeated_entries(base: Bibliography) -> Iterator[Found]:
    """The entries whose key an earlier one has."""
    known: Set[bytes] = set()
    for at in base._all(ENTRY):
        key = base._text(at)
        if key.lower() in known:
            end = base._number(at, 3)
            yield Found(end - len(key), end, "Repeated entry", at, True)
        known.add(key.lower())


def unread_fields(base: Bibliography, columns: Records) -> Iterator[Found]:
    """The fields that an entry has had before, each by its last character, as a run logs the line on which it ends; and those whose value is too long for a run."""
    for entry, last in columns.items():
        names = columns.names_between(entry + 1, last)
        if columns.kinds[entry] != ENTRY or (len(set(names)) == len(names) and columns.is_whole.find(0, entry + 1, last) < 0):
            # (as nearly always)
            continue
        known: Set[bytes] = set()
        for at, lowered in enumerate(names, entry + 1):
            name, start = base._name(at), columns.starts[at]
            if lowered in known:
                end = columns.ends[at]
                yield Found(end - length_of_last(base.text[max(start, end - LONGEST) : end]), end, f'I\'m ignoring {decoded(base._text(entry))}\'s extra "{decoded(name)}" field', entry)
            elif not columns.is_whole[at]:
                yield Found(start, start + len(name), too_long(name), entry, True)
            known.add(lowered)


def length_of_last(text: bytes) -> int:
    """How many bytes the last character of a text has."""
    return len(encoded(decoded(text)[-1]))


def long_values(base: Bibliography, columns: Records) -> Iterator[Found]:
    """The strings and the preambles whose value is too long for a run: each by its name, or by the `@preamble`."""
    for at in places_of(0, columns.is_whole, 0, len(columns.is_whole)):
        opening = OPENS.search(base.text, columns.starts[at]) if columns.kinds[at] in (STRING, PREAMBLE) else None
        if opening is None:
            continue
        name, start = base._name(at), opening.end()
        if columns.kinds[at] == PREAMBLE:
            start = columns.starts[at]
            name = base.text[start : opening.start()].rstrip()
        yield Found(start, start + len(name), too_long(name), None, True)


def too_long(name: bytes) -> str:
    return f"the value of {decoded(name)} has more than 1,000,000 bytes"


def unknown_strings(base: Bibliography, columns: Records) -> Iterator[Found]:
    """The names of strings that aren't defined before them."""
    for part, entry, is_own in undefined_strings(base, columns):
        what = "used in its own definition" if is_own else "undefined"
        yield Found(part.start, part.end, f'string name "{decoded(base.text[part.start : part.end])}" is {what}', entry)


def values_of(base: Bibliography, first: int = 0, last: Optional[int] = None) -> Iterator[Tuple[int, int, int]]:
    """The values of these records: the record of each, and where the value begins and ends."""
    for at in range(first, len(base._kinds) if last is None else last):
        kind = base._kinds[at]
        if kind in (FIELD, STRING, PREAMBLE):
            yield (at, *value_of(base.text, base._number(at, 2), base._number(at, 3), b"({" if kind == PREAMBLE else b"="))


def undefined_strings(base: Bibliography, columns: Records) -> Iterator[Undefined]:
    """The names of strings that aren't defined before them, in the order of the text. Those of a field that an entry has had before don't count: a run doesn't read it."""
    known: Set[bytes] = set(base._known)
    # The entry of the last field that was looked at; where its fields begin whose names aren't among these yet.
    entry, begin = -1, 0
    names: Set[bytes] = set()
    kinds, marks = columns.kinds, columns.marks
    for at in [at for at, kind in enumerate(kinds) if kind in (STRING, PREAMBLE) or (kind == FIELD and marks[at])]:
        name = columns.name(at)
        if kinds[at] == FIELD:
            latest = kinds.rfind(ENTRY, 0, at)
            if latest != entry:
                entry, begin, names = latest, latest + 1, set()
            names.update(columns.names_between(begin, at))
            begin = at
        _, start, end = next(values_of(base, at, at + 1))
        if has_names(base.text, start, end) and not (kinds[at] == FIELD and name in names):
            own, its = name if kinds[at] == STRING else None, entry if kinds[at] == FIELD else None
            yield from (Undefined(part, its, is_own) for part, is_own in without_string(base.text, start, end, known, own))
        if kinds[at] == STRING:
            known.add(name)


def without_string(text: bytes, start: int, end: int, known: Set[bytes], own: Optional[bytes]) -> Iterator["tuple[Part, bool]"]:
    """The parts of a value that are names without a string, and whether each is the name that the value is to define."""
    for part in parts_of(text, start, end):
        name = text[part.start : part.end].lower()
        if part.is_name and (name == own or name not in known):
            yield part, name == own


def key_of(base: Bibliography, entry: Optional[int]) -> Optional[str]:
    return None if entry is None else decoded(base._text(entry))


def broken_entry(base: Bibliography, at: int) -> Optional[int]:
    """The record of the entry that a mistake ends."""
    at -= 1
    while at >= 0 and base._kinds[at] == FIELD:
        at -= 1
    return at if at >= 0 and base._kinds[at] == ENTRY else None
