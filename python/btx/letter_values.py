"""Which values of a job's databases may have coded letters: those of the entries that the list may have, and of strings. Entries that are neither cited nor the parent of one that is are passed
over by their keys alone. It reads databases as the front end does (front/src/letter_values.rs and database.rs), so that both code the same values."""

from __future__ import annotations

import re
from dataclasses import dataclass, field
from typing import Dict, Iterator, List, Mapping, NamedTuple, Optional, Pattern, Sequence, Set, Tuple

from .languages import FIXED, OF_VALUES, REASONS

__all__ = ["DIGIT", "Item", "LeftOut", "Span", "Wanted", "is_entry", "is_whole", "items_of", "parent_in", "parts_of", "values_of"]

# Where something stands in a database: its first byte, and the one after its last.
Span = Tuple[int, int]

# A control character of a code.
DIGIT = re.compile(rb"[\x01-\x08\x0e-\x1f]")
OPEN, CLOSE, QUOTE, HASH, COMMA, EQUALS, ROUND_OPEN, ROUND_CLOSE = b'{}"#,=()'
DELIMITER, BEGINNING = re.compile(rb'[{}"]'), re.compile(rb'[{"]')
WHITE, DECIMALS, OF_NAME = re.compile(rb"[ \t\r\n]*"), re.compile(rb"[0-9]*"), re.compile(rb'[^\x00-\x20"#%\'(),={}]*')
# A field that is written as most are, `name = {text},`, with no brace in the text.
PLAIN_FIELD = re.compile(rb'[ \t\r\n]*([A-Za-z][^\x00-\x20"#%\'(),={}]*)[ \t\r\n]*=[ \t\r\n]*(\{[^{}]*\}),')
# The name of a string outside of texts, or a number there.
OF_VALUE = re.compile(rb'[^\x00-\x20"#{}]+')
# The key of an item, by what closes it and by whether it is a string or a preamble, of which a `=` ends the name.
KEYS: Dict[Tuple[int, bool], Pattern[bytes]] = {
    (CLOSE, False): re.compile(rb"[^, \t\r\n}]*"),
    (CLOSE, True): re.compile(rb"[^, \t\r\n}=]*"),
    (ROUND_CLOSE, False): re.compile(rb"[^, \t\r\n]*"),
    (ROUND_CLOSE, True): re.compile(rb"[^, \t\r\n=]*"),
}
FIXED_FIELDS = {name.encode("ascii") for name in FIXED}
CITATION = b"\\citation{"


class LeftOut(Exception):
    """Why a list can't be made with the letters of a language. why: the reason's name."""

    def __init__(self, why: str) -> None:
        super().__init__(why)
        self.why = why

    def __str__(self) -> str:
        return REASONS[self.why]


def is_whole(content: bytes) -> bool:
    """Whether bytes are UTF-8."""
    try:
        content.decode("utf8")
    except UnicodeDecodeError:
        return False
    return True


def is_decimal(byte: int) -> bool:
    return 0x30 <= byte <= 0x39


def is_entry(kind: bytes) -> bool:
    return kind not in (b"comment", b"preamble", b"string")


def end_of_text(content: bytes, start: int, end: int, is_quoted: bool) -> int:
    """Where a text in a value ends, up to the brace or the quote after it."""
    depth = 0
    for found in DELIMITER.finditer(content, start, end):
        byte = content[found.start()]
        if depth == 0 and (byte == CLOSE or (is_quoted and byte == QUOTE)):
            return found.start()
        depth += (byte == OPEN) - (byte == CLOSE)
    return end


def parts_of(content: bytes, value: Span) -> Iterator[Span]:
    """The texts in a value, which stand in braces or quotes; round them stand numbers, names of strings and `#`."""
    at, end = value
    while True:
        found = BEGINNING.search(content, at, end)
        if not found:
            return
        close = end_of_text(content, found.end(), end, found[0] == b'"')
        yield found.end(), close
        at = close + 1


def names_in(content: bytes, value: Span) -> List[bytes]:
    """The names of strings in a value."""
    at, end = value
    between: List[Span] = []
    for start, close in parts_of(content, value):
        between.append((at, start))
        at = min(close + 1, end)
    found = (name for span in [*between, (at, end)] for name in OF_VALUE.findall(content, *span))
    return [name.lower() for name in found if not is_decimal(name[0])]


@dataclass
class Item:
    """An item of a database, as far as it can be read. is_whole: whether that is to its end. key: that of an entry. name, value: those of a string; of a preamble the value."""

    type: bytes = b""
    is_whole: bool = False
    key: Optional[bytes] = None
    fields: List[Tuple[bytes, Span]] = field(default_factory=list)
    name: Optional[bytes] = None
    value: Optional[Span] = None


class Reader:
    """Reads what stands in a database. What can't go on is None, or false."""

    def __init__(self, content: bytes, at: int, end: Optional[int] = None) -> None:
        self.content, self.at, self.end = content, at, len(content) if end is None else end

    def take(self, pattern: Pattern[bytes]) -> bytes:
        """Takes the longest run of the bytes that a pattern names."""
        found = pattern.match(self.content, self.at, self.end)
        if found:
            self.at = found.end()
        return found[0] if found else b""

    def next(self) -> Optional[int]:
        """The byte after whitespace, which isn't taken."""
        self.take(WHITE)
        return self.content[self.at] if self.at < self.end else None

    def expect(self, *wanted: int) -> Optional[int]:
        """Takes one of these bytes."""
        byte = self.next()
        if byte not in wanted:
            return None
        self.at += 1
        return byte

    def name(self) -> Optional[bytes]:
        first = self.next()
        if first is None or is_decimal(first):
            return None
        return self.take(OF_NAME).lower() or None

    def closing(self) -> Optional[int]:
        """The byte that closes an item, after its opening one."""
        opening = self.expect(OPEN, ROUND_OPEN)
        return opening and (CLOSE if opening == OPEN else ROUND_CLOSE)

    def head(self) -> Optional[Tuple[bytes, bytes]]:
        """The type and the key of an item, or the name of a string."""
        kind = self.name()
        closing = None if kind is None else self.closing()
        if kind is None or closing is None or self.next() is None:
            return None
        return kind, self.take(KEYS[closing, not is_entry(kind)])

    def item(self) -> Item:
        """An item after its `@`."""
        item = Item()
        kind = self.name()
        if kind is None:
            return item
        item.type = kind
        closing = None if kind == b"comment" else self.closing()
        if closing:
            item.is_whole = self.read_entry(item, closing) if is_entry(kind) else self.read_text(item, closing)
        return item

    def read_text(self, item: Item, closing: int) -> bool:
        """Reads a string or a preamble; whether to its end."""
        if item.type == b"string":
            item.name = self.name()
            if item.name is None or not self.expect(EQUALS):
                return False
        item.value = self.value()
        return item.value is not None and self.expect(closing) is not None

    def read_entry(self, item: Item, closing: int) -> bool:
        """Reads what follows an entry's opening brace; whether to its end."""
        if self.next() is None:
            return False
        item.key = self.take(KEYS[closing, False]).lower()
        while True:
            byte = self.expect(COMMA, closing)
            if byte != COMMA:
                return byte == closing
            self.take_plain_fields(item)
            if self.next() == closing:
                self.at += 1
                return True
            name = self.name()
            value = self.value() if name is not None and self.expect(EQUALS) else None
            if name is None or value is None:
                return False
            item.fields.append((name, value))

    def take_plain_fields(self, item: Item) -> None:
        """Takes the fields from here on that are written as most are, each with the comma after it."""
        found = PLAIN_FIELD.match(self.content, self.at, self.end)
        while found:
            item.fields.append((found[1].lower(), found.span(2)))
            self.at = found.end()
            found = PLAIN_FIELD.match(self.content, self.at, self.end)

    def value(self) -> Optional[Span]:
        """Takes a value; where it stands."""
        if self.next() is None:
            return None
        start = self.at
        while self.part():
            end = self.at
            if self.next() != HASH:
                self.at = end
                return start, end
            self.at += 1
        return None

    def part(self) -> bool:
        """Takes a part of a value: a text, digits, or the name of a string."""
        byte = self.next()
        if byte is None:
            return False
        if byte not in (OPEN, QUOTE):
            return self.take(DECIMALS if is_decimal(byte) else OF_NAME) != b""
        self.at = end_of_text(self.content, self.at + 1, self.end, byte == QUOTE)
        if self.at == self.end or (byte == QUOTE and self.content[self.at] == CLOSE):
            return False
        self.at += 1
        return True


def items_of(content: bytes) -> Iterator[Tuple[Span, Item]]:
    """The items of a text one after the other, each with where it stands."""
    start = content.find(b"@")
    while start >= 0:
        reader = Reader(content, start + 1)
        item = reader.item()
        yield (start, reader.at), item
        start = content.find(b"@", reader.at)


def parent_in(content: bytes, value: Span) -> bytes:
    """The key that a `crossref` names, as far as it stands there as such."""
    return content[slice(*value)].strip(b'{}" \t\r\n').lower()


class Head(NamedTuple):
    """The head of an item: where its `@` stands, its type and its key, which is None where it may go on after what was read."""

    start: int
    type: bytes
    key: Optional[bytes]


def head_at(content: bytes, start: int) -> Optional[Head]:
    """The head that begins at this `@`; None where no item can begin."""
    reader = Reader(content, start + 1, min(len(content), start + OF_VALUES["LONGEST_HEAD"]))
    head = reader.head()
    is_cut = reader.at == reader.end and reader.end < len(content)
    if head is None:
        return Head(start, b"", None) if is_cut else None
    kind, key = head
    return None if kind == b"comment" else Head(start, kind, None if is_cut else key.lower())


def heads_of(content: bytes) -> Iterator[Head]:
    """The heads of all items of a text but comments, and of what looks like one in the text of an item."""
    for found in re.finditer(b"@", content):
        head = head_at(content, found.start())
        if head:
            yield head


def cited_in(content: bytes) -> Iterator[bytes]:
    """The keys that a text of an `.aux` file cites."""
    for line in content.split(b"\n"):
        line = line.rstrip(b" \t\r")
        if line.startswith(CITATION):
            yield from line[len(CITATION) :].split(b"}")[0].split(b",")


class Wanted:
    """The keys of the entries that the list may have."""

    def __init__(self, files: Mapping[bytes, Optional[bytes]]) -> None:
        self.keys: Set[bytes] = set()
        self.are_all = False
        for name, content in files.items():
            if content and name.endswith(b".aux"):
                for key in cited_in(content):
                    self.add(key.lower())

    def add(self, key: bytes) -> None:
        self.are_all = self.are_all or key == b"*"
        self.keys.add(key)

    def has(self, key: Optional[bytes]) -> bool:
        return self.are_all or key is None or key in self.keys


class Database:
    """A database while its values are chosen. strings: those that it defines, each a name and where its value stands. fixed: the names of strings in fields that stay as they are."""

    def __init__(self, content: bytes) -> None:
        self.content = content
        self.strings: List[Tuple[bytes, Span]] = []
        self.fixed: List[bytes] = []
        self.values: List[Span] = []
        self.heads = list(heads_of(content))

    def read(self, wanted: Wanted, types: Dict[bytes, None]) -> None:
        """Reads the items that are wanted and weren't read yet, and adds their parents to what is wanted, and their types."""
        end = 0
        unread: List[Head] = []
        for head in self.heads:
            # (a head before that end stands in the text of an item)
            if head.start < end:
                continue
            if head.type in (b"string", b"preamble") or wanted.has(head.key):
                end = self.read_item(head.start, wanted, types)
            else:
                unread.append(head)
        self.heads = unread

    def read_item(self, start: int, wanted: Wanted, types: Dict[bytes, None]) -> int:
        """Reads an item; where it ends."""
        reader = Reader(self.content, start + 1)
        item = reader.item()
        whole = self.content[start : reader.at]
        if not is_whole(whole):
            raise LeftOut("NotUtf8")
        if DIGIT.search(whole):
            raise LeftOut("ControlCharacters")
        if is_entry(item.type):
            types[item.type] = None
        for name, value in item.fields:
            if name in FIXED_FIELDS:
                self.fixed += names_in(self.content, value)
            else:
                self.values.append(value)
            if name == b"crossref":
                wanted.add(parent_in(self.content, value))
                # (what a parent is that strings say isn't known here)
                wanted.are_all = wanted.are_all or len(names_in(self.content, value)) > 0
        if item.name is not None and item.value:
            self.strings.append((item.name, item.value))
        return reader.at

    def chosen(self, fixed: Set[bytes], has_rules_for_ascii: bool) -> List[Span]:
        """All its values that may be coded and have something to code, in their order."""
        values = [*self.values, *(value for name, value in self.strings if name not in fixed)]
        return sorted((value for value in values if has_rules_for_ascii or not self.content[slice(*value)].isascii()), key=lambda value: value[0])


def fixed_strings(databases: Sequence[Database]) -> Set[bytes]:
    """The strings whose values stay as they are: those that a field has which stays as it is, and those in the values of these."""
    open_names = [name for database in databases for name in database.fixed]
    fixed: Set[bytes] = set()
    defined: Dict[bytes, List[bytes]] = {}
    for database in databases if open_names else ():
        for name, value in database.strings:
            defined.setdefault(name, []).extend(names_in(database.content, value))
    while open_names:
        name = open_names.pop()
        if name not in fixed:
            fixed.add(name)
            open_names += defined.get(name, [])
    return fixed


def values_of(files: Mapping[bytes, Optional[bytes]], has_rules_for_ascii: bool) -> Tuple[List[List[Span]], List[bytes]]:
    """Where the values of each file of a job stand that may be coded, and the types of the entries that the list may have. Raises LeftOut where one of them can't be."""
    wanted = Wanted(files)
    types: Dict[bytes, None] = {}
    databases = [Database(content if content and name.endswith(b".bib") else b"") for name, content in files.items()]
    rounds = 0
    while True:
        before = len(wanted.keys), wanted.are_all
        for database in databases:
            database.read(wanted, types)
        if before == (len(wanted.keys), wanted.are_all):
            break
        wanted.are_all = wanted.are_all or rounds == OF_VALUES["MOST_ROUNDS"]
        rounds += 1
    fixed = fixed_strings(databases)
    return [database.chosen(fixed, has_rules_for_ascii) for database in databases], list(types)
