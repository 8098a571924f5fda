"""The text of a database for editors: its items with their places, as a run reads them. docs/RULES.md has the grammar, under Databases.

    database = read(open("refs.bib", "rb").read())
    for item in database.items:
        print(item.start, item.key, item.slip)

The library reads the database; its records are made into items here. Where an entry is repeated, a run looks for items after its key; so the text from there on is read once more, in
pieces, up to an item of the first reading."""

from __future__ import annotations

import bisect
import itertools
import re
from functools import cached_property
from typing import Dict, FrozenSet, Iterator, List, NamedTuple, Optional, Set, Tuple

from .library import read_records
from .reading import END, ENTRY, PREAMBLE, STRING, WRONG, without_collection
from .records import LowerNames, Records, places_of
from .refusals import DatabaseTooLong
from .values import NAME as WORD
from .values import Part, has_names, parts_of

__all__ = ["Database", "Field", "Item", "Lines", "Slip", "Undefined", "read", "undefined_strings"]

NO_EQUALS = "I was expecting an ="
REPEATED = "Repeated entry"
# How often the rest of a database is read once more since other strings are defined before it; the bytes of the first piece that is.
MOST_AGAIN = 50
LEAST_PIECE = 512
# How many bytes of a text are looked through at most to count the line ends before a place.
BLOCK = 2048

SKIPS_WHITE = re.compile(rb"[ \t\r\n]*")
NAME = rb"[^\x00- \"#%'(),={}0-9][^\x00- \"#%'(),={}]*"
IS_NAME = re.compile(rb"[ \t\r\n]*(" + NAME + rb")")
BEGINS_ITEM = re.compile(rb"@[ \t\r\n]*(" + NAME + rb")?")
OPENS_ITEM = re.compile(rb"[ \t\r\n]*[{(][ \t\r\n]*")
# A text ends with one of these, if no name ends there.
ENDS_TEXT, BEGINS_TEXT = b'}"', b'{"'
# The bytes that don't begin a character of UTF-8.
CONTINUES = frozenset(bytes([byte]) for byte in range(0x80, 0xC0))


class Field(NamedTuple):
    """A field: its name in lower case, and where that is; what its value comes to; the byte after the `=`, and where the value ends. is_plain: whether it is seen at once that the value is
    one text."""

    name: bytes
    name_start: int
    name_end: int
    value: bytes
    after: int
    end: int
    is_plain: bool


class Slip(NamedTuple):
    """A mistake, as a run logs it: the first byte with which the item can't go on, and the text of the message."""

    place: int
    text: str


class Item:
    """An item of a database: those of the records that have the numbers `at` to `last`.

    start: where its `@` is. kind: its type in lower case. key: that of an entry, or the name of a string; None if it has none. key_end: where that ends. end: where its
    reading ended. slip: the mistake that ended it."""

    __slots__ = ("records", "at", "last", "start", "own_kind", "key", "key_end", "end", "slip", "own_fields")

    def __init__(self, records: Records, at: int, last: int, start: int, kind: Optional[bytes], key: Optional[bytes], key_end: int) -> None:
        self.records = records
        self.at = at
        self.last = last
        self.start = start
        self.own_kind = kind
        self.key = key
        self.key_end = key_end
        self.end = records.ends[last]
        self.slip: Optional[Slip] = None
        self.own_fields: Optional[List[Field]] = None

    @property
    def kind(self) -> bytes:
        if self.own_kind is None:
            self.own_kind = self.records.name(self.at)
        return self.own_kind

    @property
    def kind_end(self) -> int:
        """Where its type ends."""
        return BEGINS_ITEM.match(self.records.text, self.start).end()  # type: ignore[union-attr]

    @property
    def is_entry(self) -> bool:
        """Whether it is an entry that has come as far as its key."""
        return self.key is not None and self.own_kind != b"string"

    @property
    def is_repeated(self) -> bool:
        return self.slip is not None and self.slip.text == REPEATED

    @property
    def fields(self) -> List[Field]:
        """Those of an entry; of a string or a preamble its value, whose name is empty. They are made when somebody asks for them."""
        if self.own_fields is None:
            records, kind = self.records, self.records.kinds[self.at]
            if kind in (STRING, PREAMBLE):
                self.own_fields = [self.value_alone(kind)]
            else:
                self.own_fields = [] if kind != ENTRY or self.is_repeated else [field_of(records, number) for number in range(self.at + 1, self.last)]
        return self.own_fields

    def value_of(self, name: bytes) -> Optional[bytes]:
        """What its first field of this name comes to; None where there is none."""
        names = self.records.names_between(self.at + 1, self.last)
        return self.records.value(self.at + 1 + names.index(name)) if name in names else None

    def value_alone(self, kind: int) -> Field:
        """The value of a string or a preamble."""
        text = self.records.text
        after = text.index(b"=", self.key_end) + 1 if kind == STRING else opened(text, self.kind_end)
        return Field(b"", after, after, self.records.value(self.at), after, self.records.ends[self.at], False)


def field_of(records: Records, number: int) -> Field:
    """The field of a record."""
    text, start, end, length = records.text, records.starts[number], records.ends[number], records.name_len[number]
    after = text.index(b"=", start + length) + 1
    is_plain = text[end - 1] in ENDS_TEXT and text.find(b"#", after, end) < 0
    return Field(records.name(number), start, start + length, records.value(number), after, end, is_plain)


def opened(text: bytes, place: int) -> int:
    """The first byte after the brace of an item whose type ends here, and after whitespace."""
    found = OPENS_ITEM.match(text, place)
    return place if found is None else found.end()


class Lines:
    """The lines of a text, numbered from 0. Their ends are counted block by block: a place has those of the blocks before its own, and the few of its own."""

    def __init__(self, text: bytes) -> None:
        self.text = text
        # How many line ends are before each block.
        self.sums = [0, *itertools.accumulate(text.count(b"\n", start, start + BLOCK) for start in range(0, len(text), BLOCK))]
        # A line, a place on it, and the characters before that.
        self.passed = 0, 0, 0

    @cached_property
    def starts(self) -> List[int]:
        """Where the lines begin."""
        # (a line has the bytes between line feeds, and one)
        return [0, *itertools.accumulate(map((1).__add__, map(len, self.text.split(b"\n")[:-1])))]

    def line_of(self, place: int) -> int:
        block = place // BLOCK
        return self.sums[block] + self.text.count(b"\n", block * BLOCK, place)

    def start_of_line(self, place: int) -> int:
        """The first byte of the line that a place is on: after the last line end of its block before it, or of the nearest block above that has one."""
        block = place // BLOCK
        found = self.text.rfind(b"\n", block * BLOCK, place)
        if found < 0 and self.sums[block]:
            above = bisect.bisect_left(self.sums, self.sums[block]) - 1
            found = self.text.rfind(b"\n", above * BLOCK, (above + 1) * BLOCK)
        return found + 1

    def at(self, place: int, is_end: bool = False) -> Tuple[int, int]:
        """The line of a place, and how many characters of UTF-8 are before it on its line. A byte that is none counts as one. They are counted once, where places are asked for in
        their order, beside those that are ends."""
        block = place // BLOCK
        line = self.sums[block] + self.text.count(b"\n", block * BLOCK, place)
        _, at, column = self.passed if self.passed[0] == line and self.passed[1] <= place else (line, self.start_of_line(place), 0)
        column += len(self.text[at:place].decode("utf8", "surrogateescape"))
        if not is_end and self.text[place : place + 1] not in CONTINUES:
            self.passed = line, place, column
        return line, column

    def logged_line(self, place: int) -> int:
        """The number of a place's line in a log, from 1: the end of the file has that of its last line."""
        return self.line_of(min(place, max(len(self.text) - 1, 0))) + 1


class Database:
    """A database that was read: its text, its items, and the strings that are defined after it. Where its reader is given instead of these, they are made when somebody asks for them."""

    def __init__(self, text: bytes, items: List[Item], strings: Dict[bytes, bytes], reader: "Optional[Reader]" = None) -> None:
        self.text = text
        self.own_items = items
        self.own_strings = strings
        self.reader = reader
        self.starts: Optional[List[int]] = None
        # The names of strings in values, by the text from the `=` on: where each is in that text. Many values of a database are the same.
        self.names_of_values: Dict[bytes, Tuple[Tuple[int, int], ...]] = {}

    def make(self) -> None:
        """Makes the items and the strings."""
        if self.reader is not None:
            reader, self.reader, self.starts = self.reader, None, None
            with without_collection():
                reader.add_all()
            self.own_items, self.own_strings = reader.items, reader.strings

    @property
    def items(self) -> List[Item]:
        self.make()
        return self.own_items

    @property
    def strings(self) -> Dict[bytes, bytes]:
        self.make()
        return self.own_strings

    def item_starts(self) -> List[int]:
        """Where its items begin; of one that isn't made yet and of which nothing was read whole, where its mistake is."""
        if self.starts is None:
            reader = self.reader
            self.starts = [item.start for item in self.own_items] if reader is None else [reader.first.starts[at] for at, _ in reader.spans]
        return self.starts

    def begins(self, number: int) -> bool:
        """Whether the place of an item that `item_starts` has is that of its `@`."""
        return self.reader is None or self.reader.first.kinds[self.reader.spans[number][0]] != WRONG

    def items_between(self, first: int, last: int) -> List[Item]:
        """The items with the numbers from `first` to `last`; they alone are made."""
        if self.reader is None:
            return self.own_items[first:last]
        return [self.reader.made(number) for number in range(first, last)]

    def keys_between(self, first: int, last: int) -> List[Optional[bytes]]:
        """The keys of these items in lower case; None of an item that is no entry."""
        if self.reader is None:
            return [item.key.lower() if item.key is not None and item.is_entry else None for item in self.own_items[first:last]]
        return self.reader.keys[first:last]

    def keys_stored(self, first: int, last: int) -> FrozenSet[bytes]:
        """The keys in lower case of those of these entries that aren't repeated."""
        if self.reader is None:
            return frozenset(item.key.lower() for item in self.own_items[first:last] if item.key is not None and item.is_entry and not item.is_repeated)
        keys, repeated = self.reader.keys[first:last], self.reader.repeated
        if repeated:
            keys = [key for number, key in enumerate(keys, first) if number not in repeated]
        return frozenset(keys) - {None}  # type: ignore[return-value]

    def strings_between(self, first: int, last: int) -> List[Tuple[bytes, Optional[bytes]]]:
        """The strings that these items define: their names in lower case, and their values, None of one that wasn't read whole."""
        if self.reader is None:
            found = [(item.records, item.at) for item in self.own_items[first:last] if item.records.kinds[item.at] == STRING]
        else:
            records, spans = self.reader.first, self.reader.spans[first:last]
            found = [(records, at) for at in places_of(STRING, records.kinds, spans[0][0], spans[-1][1])] if spans else []
        return [(records.name(at), records.value(at) if records.is_whole[at] else None) for records, at in found]

    def slips_between(self, first: int, last: int) -> List[Item]:
        """Those of these items that end with a mistake."""
        if self.reader is None:
            return [item for item in self.own_items[first:last] if item.slip is not None]
        slips = self.reader.slips
        return [self.reader.made(number) for number in slips[bisect.bisect_left(slips, first) : bisect.bisect_left(slips, last)]]

    def start(self, field: Field) -> int:
        """Where a field's value begins."""
        return SKIPS_WHITE.match(self.text, field.after).end()  # type: ignore[union-attr]

    def is_text(self, field: Field) -> bool:
        """Whether a value is one text or number."""
        if field.is_plain:
            return True
        start = self.start(field)
        if not has_names(self.text, start, field.end):
            return True
        parts = list(parts_of(self.text, start, field.end))
        return len(parts) == 1 and not parts[0].is_name

    def raw(self, field: Field) -> bytes:
        """The text of a value, if it is one text or digits; else what is written there."""
        start, end = self.start(field), field.end
        if self.text[start] in b'{"' and self.is_text(field):
            return self.text[start + 1 : end - 1]
        return self.text[start:end]

    def text_at(self, records: Records, number: int) -> Optional[Tuple[int, bytes]]:
        """Where the value of a field begins that is one text or number, and its text, as `raw` has it; None where it is something else."""
        text, end = self.text, records.ends[number]
        after = text.index(b"=", records.starts[number] + records.name_len[number]) + 1
        if (text[end - 1] not in ENDS_TEXT or text.find(b"#", after, end) >= 0) and not self.is_text(field_of(records, number)):
            return None
        start = SKIPS_WHITE.match(text, after).end()  # type: ignore[union-attr]
        return (start, text[start + 1 : end - 1]) if text[start] in BEGINS_TEXT else (start, text[start:end])

    def names(self, field: Field) -> List[Part]:
        """The names of strings in a value."""
        if field.is_plain:
            return []
        alone = IS_NAME.fullmatch(self.text, field.after, field.end)
        if alone is not None:
            return [Part(*alone.span(1), True)]
        start = self.start(field)
        if not has_names(self.text, start, field.end):
            return []
        return [part for part in parts_of(self.text, start, field.end) if part.is_name]


def read(text: bytes, stored: Optional[Set[bytes]] = None, strings: Optional[Dict[bytes, bytes]] = None) -> Database:
    """Reads a database as a run does.

    stored: the keys, in lower case, of the entries that are stored so far, as of all entries in a job with `\\nocite{*}`; those of this database are added. Then a repeated
    entry is a mistake, and what follows its key is text, as in a run. Without it no key is stored, so each entry is read to its end.
    strings: those that are defined before it, by names in lower case."""
    reader = Reader(text, stored, dict(strings or {}))
    if stored is None:
        reader.read_first(0)
        return Database(text, [], {}, reader)
    return read_by(reader)


def read_by(reader: "Reader") -> Database:
    """What a reader makes of its text."""
    reader.read_first(0)
    return read_on(reader)


def read_on(reader: "Reader") -> Database:
    """What a reader makes of its text, when it has read the first records."""
    with without_collection():
        place = reader.add_all()
        while place is not None:
            reader.read_first(place)
            place = reader.add_all()
    return Database(reader.text, reader.items, reader.strings)


def read_late(reader: "Reader") -> Database:
    """The same. Where no repeated entry hides an item, its items are made when somebody asks for them."""
    reader.read_first(0)
    reader.find_repeated()
    return read_on(reader) if any(map(reader.hides_item, reader.repeated)) else Database(reader.text, [], {}, reader)


class Reader:
    """Makes items of the records of a database.

    first, spans: the records that are read without a look at keys, and those of each item. repeated: the numbers of the items that are repeated entries, where they were looked for."""

    def __init__(self, text: bytes, stored: Optional[Set[bytes]], strings: Dict[bytes, bytes]) -> None:
        self.text = text
        self.stored = stored
        self.strings = strings
        self.items: List[Item] = []
        self.repeated: Set[int] = set()
        self.names = LowerNames()
        self.again = 0

    def records(self, start: int, end: int, strings: Dict[bytes, bytes]) -> Records:
        """The records of a part of the text, before which these strings are known."""
        part = self.text if end - start == len(self.text) else self.text[start:end]
        found = read_records(b"d", part, strings)
        if found is None:
            raise DatabaseTooLong(len(self.text))
        return Records(self.text, start, end, *found, self.names)

    def read_first(self, place: int) -> None:
        """Reads the records from a place on."""
        self.first = self.records(place, len(self.text), self.strings)
        self.spans = self.first.items()
        self.known_keys: Optional[List[Optional[bytes]]] = None
        self.known_slips: Optional[List[int]] = None

    @property
    def keys(self) -> List[Optional[bytes]]:
        """The keys of the items of the first records, in lower case; None of an item that is no entry."""
        if self.known_keys is None:
            texts, kinds, key_at, key_len = self.first.texts, self.first.kinds, self.first.text_at, self.first.text_len
            self.known_keys = [texts[key_at[at] : key_at[at] + key_len[at]].lower() if kinds[at] == ENTRY else None for at, _ in self.spans]
        return self.known_keys

    @property
    def slips(self) -> List[int]:
        """The numbers of the items of the first records that end with a mistake."""
        if self.known_slips is None:
            kinds, repeated = self.first.kinds, self.repeated
            has_slips = WRONG in kinds or repeated
            self.known_slips = [number for number, (_, last) in enumerate(self.spans) if kinds[last] == WRONG or number in repeated] if has_slips else []
        return self.known_slips

    def find_repeated(self) -> None:
        """Finds the entries whose key is stored before them."""
        entries = set(self.keys) - {None}
        if self.stored is None or (len(entries) + self.keys.count(None) == len(self.keys) and self.stored.isdisjoint(entries)):
            return
        stored = set(self.stored)
        for number, key in enumerate(self.keys):
            if key in stored:
                self.repeated.add(number)
            elif key is not None:
                stored.add(key)

    def hides_item(self, number: int) -> bool:
        """Whether an item may be hidden behind the key of a repeated entry with this number."""
        at, last = self.spans[number]
        return self.text.find(b"@", self.first.ends[at], self.first.ends[last]) >= 0

    def add_all(self) -> Optional[int]:
        """Adds the items of the records that were read. It answers where the rest is to be read once more, since what a repeated entry hides defines other strings before it."""
        records, spans = self.first, self.spans
        turn = self.add_entries(records, spans, 0)
        while turn < len(spans):
            at, last = spans[turn]
            item = self.add(records, at, last)
            turn += 1
            if item.slip is not None and item.is_repeated and self.text.find(b"@", item.key_end, records.ends[last]) >= 0:
                hidden = Hidden(self, records, spans, turn)
                turn = hidden.read_from(item.key_end)
                if hidden.changes_strings and turn < len(spans) and self.again < MOST_AGAIN:
                    self.again += 1
                    return hidden.place
            turn = self.add_entries(records, spans, turn)
        return None

    def add_entries(self, records: Records, spans: List[Tuple[int, int]], turn: int) -> int:
        """Adds items from a turn on, as long as they are entries without a mistake whose keys aren't stored. It answers the turn of the first other item."""
        kinds, keys, starts, ends = records.kinds, records.texts, records.starts, records.ends
        key_at, key_len, append = records.text_at, records.text_len, self.items.append
        stored: Set[bytes] = set() if self.stored is None else self.stored
        while turn < len(spans):
            at, last = spans[turn]
            if kinds[at] != ENTRY or kinds[last] != END:
                break
            key = keys[key_at[at] : key_at[at] + key_len[at]]
            lowered = key.lower()
            if lowered in stored and self.stored is not None:
                break
            stored.add(lowered)
            append(Item(records, at, last, starts[at], None, key, ends[at]))
            turn += 1
        return turn

    def add(self, records: Records, at: int, last: int) -> Item:
        """Adds the item of these records."""
        item = self.item(records, at, last, self.items[-1].end if self.items else 0)
        self.items.append(item)
        kind = records.kinds[at]
        if kind == ENTRY and self.stored is not None and item.key is not None:
            key = item.key.lower()
            if key in self.stored:
                item.slip, item.end = Slip(item.key_end, REPEATED), item.key_end
                return item
            self.stored.add(key)
        elif kind == STRING and records.is_whole[at] and item.key is not None:
            self.strings[item.key.lower()] = records.value(at)
        item.slip = slip_of(records, last)
        return item

    def made(self, number: int) -> Item:
        """The item of this number, where no repeated entry hides one."""
        at, last = self.spans[number]
        item = self.item(self.first, at, last, self.first.ends[self.spans[number - 1][1]] if number else 0)
        if number in self.repeated:
            item.slip, item.end = Slip(item.key_end, REPEATED), item.key_end
        else:
            item.slip = slip_of(self.first, last)
        return item

    def item(self, records: Records, at: int, last: int, after: int) -> Item:
        """The item of these records, so far as the first of them tells it. after: where the item before it ends."""
        kind, start, end = records.kinds[at], records.starts[at], records.ends[at]
        if kind == ENTRY:
            return Item(records, at, last, start, None, records.value(at), end)
        if kind == WRONG:
            # (nothing of it was read whole: it begins with the first `@` after the item before it)
            start = self.text.find(b"@", max(records.base, after))
        found = BEGINS_ITEM.match(self.text, start)
        assert found is not None
        if kind != STRING:
            return Item(records, at, last, start, (found[1] or b"").lower(), None, end)
        name_end = opened(self.text, found.end()) + records.name_len[at]
        return Item(records, at, last, start, b"string", self.text[name_end - records.name_len[at] : name_end], name_end)


def slip_of(records: Records, last: int) -> Optional[Slip]:
    """The mistake with which an item ends."""
    if records.kinds[last] != WRONG:
        return None
    said = records.value(last).rpartition(b"--line ")[0][len(b"Error--") :]
    return Slip(records.starts[last], said.decode())


class Hidden:
    """Reads what a repeated entry hides: a run looks for items directly after its key.

    The items after it are read in pieces, each about twice as long as the one before, up to one that the first reading has too: from there on nothing is different, but for strings.
    turn: which item of the first reading ends next. changes_strings: whether a string is defined or isn't any more. place: where the next item is looked for."""

    def __init__(self, reader: Reader, whole: Records, spans: List[Tuple[int, int]], turn: int) -> None:
        self.reader = reader
        self.whole = whole
        self.spans = spans
        self.turn = turn
        self.size = LEAST_PIECE
        self.place = 0
        self.changes_strings = False

    def read_from(self, place: int) -> int:
        """Reads the items from a place on. It answers the number of the item with which the first reading goes on."""
        self.place = place
        while not self.is_known():
            end = min(self.place + self.size, len(self.reader.text))
            named = {name.lower() for name in WORD.findall(self.reader.text, self.place, end)} if self.reader.strings else ()
            self.read_piece(self.reader.records(self.place, end, {name: self.reader.strings[name] for name in named if name in self.reader.strings}))
        return self.turn

    def is_known(self) -> bool:
        """Goes to the next `@`: whether an item of the first reading begins there, or there is none."""
        ends, spans = self.whole.ends, self.spans
        while True:
            place = self.reader.text.find(b"@", self.place)
            self.place = len(self.reader.text) if place < 0 else place
            while self.turn < len(spans) and ends[spans[self.turn][1]] <= self.place:
                self.changes_strings |= self.whole.kinds[spans[self.turn][0]] == STRING
                self.turn += 1
            before = ends[spans[self.turn - 1][1]]
            return place < 0 or (before <= place and self.reader.text.find(b"@", before) == place)

    def read_piece(self, records: Records) -> None:
        """Adds the items of a piece, as far as they are surely read as in the whole text."""
        reader, is_last = self.reader, records.limit == len(self.reader.text)
        for number, (at, last) in enumerate(records.items()):
            if number and self.is_known():
                return
            if not is_last and self.is_cut(records, at, last):
                break
            self.changes_strings |= records.kinds[at] == STRING and records.value(at) != reader.strings.get(records.name(at))
            item = reader.add(records, at, last)
            self.place = item.end
            if item.is_repeated and reader.text.find(b"@", item.key_end, records.ends[last]) >= 0:
                self.size = LEAST_PIECE
                return
        self.size *= 2

    def is_cut(self, records: Records, at: int, last: int) -> bool:
        """Whether an item may be read otherwise in a longer piece. Of a repeated entry nothing counts that is after its key."""
        if records.kinds[at] == ENTRY and records.ends[at] < records.limit and records.value(at).lower() in (self.reader.stored or ()):
            return False
        return records.ends[last] >= records.limit and records.kinds[last] != END


class Undefined(NamedTuple):
    """A name without a string, as a run logs it. item: that of the value. field: the name of its field, if it is in one. is_own: whether it is in the definition of that very string."""

    part: Part
    item: Item
    field: bytes
    is_own: bool


def undefined_strings(database: Database, strings: Set[bytes], items: Optional[List[Item]] = None) -> Iterator[Undefined]:
    """The names without a string, in the order of the text. strings: the names, in lower case, that are defined before the database; those that it defines are added. items: those
    that are looked at, if not all are."""
    records, marks = None, b""
    for item in database.items if items is None else items:
        if item.records is not records:
            records = item.records
            kinds, marks = records.kinds, records.marks
        kind = kinds[item.at]
        if kind == ENTRY:
            if marks.find(1, item.at + 1, item.last) >= 0 and not item.is_repeated:
                yield from undefined_of(database, item, strings)
        elif kind in (STRING, PREAMBLE):
            own = item.key.lower() if item.key is not None else None
            if database.text[records.ends[item.at] - 1] not in ENDS_TEXT or marks[item.at]:
                yield from undefined_in(database, item, item.fields[0], own, strings)
            if own is not None:
                strings.add(own)


def undefined_of(database: Database, item: Item, strings: Set[bytes]) -> Iterator[Undefined]:
    """The names without a string in the fields of an entry. Of fields with the same name the first counts."""
    records, first, text, known = item.records, item.at + 1, database.text, database.names_of_values
    for number in records.lacking(first, item.last):
        after = text.index(b"=", records.starts[number] + records.name_len[number]) + 1
        value = text[after : records.ends[number]]
        places = known.get(value)
        if places is None:
            places = known[value] = tuple((part.start - after, part.end - after) for part in database.names(field_of(records, number)))
        lacking = [place for place in places if value[slice(*place)].lower() not in strings] if places else ()
        if lacking and records.name(number) not in records.names_between(first, number):
            for start, end in lacking:
                yield Undefined(Part(after + start, after + end, True), item, records.name(number), False)


def undefined_in(database: Database, item: Item, field: Field, own: Optional[bytes], strings: Set[bytes]) -> Iterator[Undefined]:
    """The names without a string in a value. own: the name of the string that the value is to define."""
    for part in database.names(field):
        name = database.text[part.start : part.end].lower()
        if name == own or name not in strings:
            yield Undefined(part, item, field.name, name == own)
