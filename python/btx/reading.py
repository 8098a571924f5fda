"""A database as data: its entries with their fields, as a run reads them.

    base = btx.read("refs.bib")
    base["knuth"]["title"], base["knuth"].place.line

The library reads the database (`btx_read`), and it is proved that its records are those of the language's definition. What is made of them here is tested: objects for entries, and for the
fields of an entry when somebody asks for one. Names and values are text; bytes that aren't UTF-8 stand for themselves, as in Python's file names (`surrogateescape`)."""

from __future__ import annotations

import contextlib
import gc
import os
import pathlib
import re
from types import MappingProxyType
from typing import Any, Callable, Dict, FrozenSet, Iterator, List, Mapping, NamedTuple, Optional, Sequence, Set, Tuple, Union, overload

from .library import RECORD, Buffer, read_records
from .messages import decoded
from .refusals import DatabaseTooLong, Refusal
from .searching import MOST_BYTES, bytes_of, opened_file

__all__ = ["MONTHS", "Bibliography", "Entries", "Entry", "Mistake", "Place", "Source", "read"]

# A path, or the text of a database.
Source = Union[str, "os.PathLike[str]", bytes, bytearray, memoryview]
# Names of strings with their texts.
Strings = Union[Mapping[str, str], Mapping[bytes, bytes], Mapping[Union[str, bytes], Union[str, bytes]]]
COMMENT, PREAMBLE, STRING, ENTRY, FIELD, END, WRONG = range(7)
SIZE = RECORD.size
AN_ENTRY = re.compile(bytes([ENTRY]))
# What the standard styles of TeX write for the names of months.
MONTHS: Mapping[str, str] = MappingProxyType({name[:3].lower(): name for name in "January February March April May June July August September October November December".split()})
# A value of more bytes isn't kept as text beside the library's bytes.
LONG = 4096
# The name of a database whose text was handed in.
NAMELESS = "database.bib"


class Place(NamedTuple):
    """Where something is. line, column: those of its first character, from 1. span: the bytes of the database before its first and after its last one."""

    line: int
    column: int
    span: Tuple[int, int]


class Mistake(NamedTuple):
    """What is wrong in a database. text: what a run says of it. file: the name of the database's file. is_error: whether that is an error, or else a warning. place: the byte with which reading can't go on, or
    what is meant; of a field that is ignored its last character. Its line is the one that a run logs. key: that of its entry, if it is in one."""

    text: str
    file: str
    place: Place
    is_error: bool
    key: Optional[str]

    def __str__(self) -> str:
        return f"{'Error' if self.is_error else 'Warning'}--{self.text}--line {self.place.line} of file {self.file}"


class LowerNames(Dict[bytes, str]):
    """The text in lower case of names by their bytes: a database has few names of fields, so each is made once."""

    def __missing__(self, name: bytes) -> str:
        made = self[name] = decoded(name.lower())
        return made


class LongFields(Mapping[str, str]):
    """The fields of an entry of which some are long: a long value is made whenever somebody asks for it, so that no second copy of it is kept.

    values: the fields, in their order. places: of each long one where its text begins, and how many bytes it has."""

    __slots__ = ("_base", "_values", "_places")

    def __init__(self, base: "Bibliography", values: Dict[str, str], places: Dict[str, Tuple[int, int]]) -> None:
        self._base = base
        self._values = values
        self._places = places

    def __getitem__(self, field: str) -> str:
        place = self._places.get(field)
        return self._values[field] if place is None else decoded(self._base._texts[place[0] : sum(place)])

    def __contains__(self, field: object) -> bool:
        return field in self._values

    def __iter__(self) -> Iterator[str]:
        return iter(self._values)

    def __len__(self) -> int:
        return len(self._values)


class Entry(Mapping[str, str]):
    """An entry: a mapping from the names of its fields, in lower case, to their values. A name may be asked for in any case.

    A value is as a run stores it: strings and `#` are resolved, whitespace is squeezed and trimmed. Of a field that is there twice the first value counts. What an entry inherits
    from its parent isn't in it; `parent` is the entry that its crossref names."""

    __slots__ = ("_base", "_at", "_fields")

    def __init__(self, base: "Bibliography", at: int) -> None:
        self._base = base
        self._at = at
        self._fields: Optional[Union[Dict[str, str], LongFields]] = None

    @property
    def type(self) -> str:
        """Its type, in lower case."""
        return self._base._names[self._base._name(self._at)]

    @property
    def key(self) -> str:
        """Its cite key, as the database has it."""
        return decoded(self._base._text(self._at))

    @property
    def fields(self) -> Mapping[str, str]:
        """Its fields, in their order."""
        if self._fields is None:
            self._fields = self._base._fields(self._at + 1)
        return MappingProxyType(self._fields) if isinstance(self._fields, dict) else self._fields

    @property
    def place(self) -> Place:
        """Where it is: from its `@` to the delimiter that ends it, or to the mistake that ends its reading."""
        return self._base._place(self._at, self._base._end(self._at))

    @property
    def raw(self) -> bytes:
        """Its bytes in the database."""
        return self._base.text[slice(*self.place.span)]

    @property
    def is_whole(self) -> bool:
        """Whether it was read to its end. Of one with a mistake a run keeps the fields before it."""
        return self._base._kinds[self._base._last(self._at)] == END

    @property
    def parent(self) -> "Optional[Entry]":
        """The entry of this database that its crossref names."""
        return self._base.entries.get(self.get("crossref", ""))

    def place_of(self, field: str) -> Place:
        """Where a field is, from its name to the end of its value. Raises KeyError where there is none."""
        for at in range(self._at + 1, self._base._last(self._at)):
            if self._base._names[self._base._name(at)] == lowered(field):
                return self._base._place(at, self._base._number(at, 3))
        raise KeyError(field)

    def __getitem__(self, field: str) -> str:
        return self.fields[lowered(field)]

    def __contains__(self, field: object) -> bool:
        return isinstance(field, str) and lowered(field) in self.fields

    def __iter__(self) -> Iterator[str]:
        return iter(self.fields)

    def __len__(self) -> int:
        return len(self.fields)

    # (as entries of other places, or repeated ones, may have equal fields)
    __eq__ = object.__eq__
    __ne__ = object.__ne__
    __hash__ = object.__hash__

    def __repr__(self) -> str:
        return f"<btx.Entry @{self.type}{{{self.key}}}, line {self._base._number(self._at, 4)} of {self._base.file}>"


class Entries(Sequence[Entry]):
    """The entries of a database, in their order, and by their keys, whose case doesn't matter. Of entries with the same key a run takes the first."""

    def __init__(self, base: "Bibliography") -> None:
        self._base = base
        self._made: Optional[List[Entry]] = None
        self._by_key: Optional[Dict[str, Entry]] = None

    @property
    def _entries(self) -> List[Entry]:
        """They are made when somebody asks for one."""
        if self._made is None:
            with without_collection():
                self._made = [Entry(self._base, found.start()) for found in AN_ENTRY.finditer(self._base._kinds)]
        return self._made

    @overload
    def __getitem__(self, at: Union[int, str]) -> Entry: ...

    @overload
    def __getitem__(self, at: slice) -> List[Entry]: ...

    def __getitem__(self, at: Union[int, str, slice]) -> Union[Entry, List[Entry]]:
        if not isinstance(at, str):
            return self._entries[at]
        found = self.get(at)
        if found is None:
            raise KeyError(at)
        return found

    def get(self, key: str) -> Optional[Entry]:
        """The entry of a key, or None."""
        if self._by_key is None:
            self._by_key = {lowered(entry.key): entry for entry in reversed(self._entries)}
        return self._by_key.get(lowered(key))

    def __contains__(self, wanted: object) -> bool:
        return self.get(wanted) is not None if isinstance(wanted, str) else wanted in self._entries

    def __iter__(self) -> Iterator[Entry]:
        return iter(self._entries)

    def __len__(self) -> int:
        return self._base._kinds.count(ENTRY)

    def __repr__(self) -> str:
        return f"<btx.Entries: {len(self)}>"


class Bibliography:
    """A database that was read. It is a collection of its entries: `base["key"]`, `"key" in base`, `len(base)`, `for entry in base`.

    file: the name of its file, for messages. text: its bytes. entries: in their order and by key, also those that are repeated."""

    def __init__(self, file: str, text: bytes, known: FrozenSet[bytes], records: Buffer, texts: Buffer) -> None:
        self.file = file
        self.text = text
        self._known = known
        self._records = records
        self._texts = texts
        self._kinds = records[::SIZE]
        self._names = LowerNames()
        # The line of the last place that was asked for, how many bytes are before it, and its column.
        self._passed = 0, 0, 1
        self.entries = Entries(self)

    def __getstate__(self) -> Dict[str, Any]:
        return {**self.__dict__, "_records": self._records[:], "_texts": self._texts[:]}

    # ---- what is asked of it ----

    @property
    def strings(self) -> Dict[str, str]:
        """The strings that it defines, by names in lower case; of one that is defined twice the last text."""
        return {self._names[self._name(at)]: decoded(self._text(at)) for at in self._all(STRING) if self._number(at, 1)}

    @property
    def preamble(self) -> str:
        """The texts of its preambles, one after another."""
        return decoded(b"".join(map(self._text, self._all(PREAMBLE))))

    @property
    def messages(self) -> List[Mistake]:
        """What is wrong in it, by place, which is the order of a log: mistakes, repeated entries and repeated fields, names of strings that aren't defined, and values that are too long for a run. (A run
        passes over what comes after the key of a repeated entry, and says nothing of it.)"""
        from .mistakes import mistakes_of

        return mistakes_of(self)

    def to_pybtex(self) -> Any:
        """The same as pybtex has it, where pybtex is installed."""
        from .others import pybtex_of

        return pybtex_of(self)

    def to_bibtexparser(self) -> Any:
        """The same as version 1 of bibtexparser has it, where that is installed."""
        from .others import bibtexparser_of

        return bibtexparser_of(self)

    def __getitem__(self, key: str) -> Entry:
        return self.entries[key]

    def get(self, key: str) -> Optional[Entry]:
        """The entry of a key, or None."""
        return self.entries.get(key)

    def __contains__(self, wanted: object) -> bool:
        return wanted in self.entries

    def __iter__(self) -> Iterator[Entry]:
        return iter(self.entries)

    def __len__(self) -> int:
        return len(self.entries)

    def __repr__(self) -> str:
        return f"<btx.Bibliography {self.file}: {len(self)} entries>"

    # ---- its records ----

    def _all(self, kind: int) -> Iterator[int]:
        """The numbers of the records of a kind."""
        at = self._kinds.find(kind)
        while at >= 0:
            yield at
            at = self._kinds.find(kind, at + 1)

    def _number(self, at: int, number: int) -> int:
        """A number of a record: 1 is_whole, 2 start, 3 end, 4 line."""
        return int(RECORD.unpack_from(self._records, at * SIZE)[number])

    def _name(self, at: int) -> bytes:
        start, length = RECORD.unpack_from(self._records, at * SIZE)[5:7]
        return self._texts[start : start + length]

    def _text(self, at: int) -> bytes:
        start, length = RECORD.unpack_from(self._records, at * SIZE)[7:]
        return self._texts[start : start + length]

    def _fields(self, at: int) -> Union[Dict[str, str], LongFields]:
        """The fields whose records begin here. One whose first value is too long isn't there, whatever comes after it: a run ignores a second one."""
        values: Dict[str, str] = {}
        long: Dict[str, Tuple[int, int]] = {}
        left_out: Set[str] = set()
        records, texts, names, unpack, place = self._records, self._texts, self._names, RECORD.unpack_from, at * SIZE
        while place < len(records):
            kind, is_whole, _, _, _, name_at, name_len, text_at, text_len = unpack(records, place)
            if kind != FIELD:
                break
            name = names[texts[name_at : name_at + name_len]]
            if not is_whole:
                left_out.add(name)
            elif name not in values and name not in left_out:
                if text_len > LONG:
                    values[name], long[name] = "", (text_at, text_len)
                else:
                    values[name] = str(texts[text_at : text_at + text_len], "utf8", "surrogateescape")
            place += SIZE
        return LongFields(self, values, long) if long else values

    def _last(self, at: int) -> int:
        """The number of the record that ends the item of this one: its end, or a mistake."""
        kinds, at = self._kinds, at + 1
        while kinds[at] == FIELD:
            at += 1
        return at

    def _end(self, at: int) -> int:
        return self._number(self._last(at), 3)

    def _place(self, at: int, end: int) -> Place:
        """The place from the first byte of a record to `end`. On one line, columns are counted on from the last place that was asked for. (A record begins with a
        byte of ASCII or after one, so no character of UTF-8 is divided there.)"""
        start, line = self._number(at, 2), self._number(at, 4)
        known_line, passed, column = self._passed
        if known_line != line:
            passed, column = self.text.rfind(b"\n", 0, start) + 1, 1
        column += len(decoded(self.text[passed:start])) - len(decoded(self.text[start:passed]))
        self._passed = line, start, column
        return Place(line, column, (start, end))


def lowered(name: str) -> str:
    """A name in lower case, as BibTeX has it: only A to Z change."""
    return name.lower() if name.isascii() else decoded(name.encode("utf8", "surrogateescape").lower())


def read(source: Source, strings: Strings = MONTHS) -> Bibliography:
    """Reads a database, whatever a document cites.

    source: a path (text is a path), or the bytes of a database. strings: what is known before it, as a style's macros are, by their names, both as text or bytes: the names of months in English, if nothing
    else is said.

    A mistake ends the reading of its item alone, as in a run; `messages` has it. Raises OSError for a file that can't be read and for what is no regular file, such as a pipe or a device, and DatabaseTooLong
    for more than 2,147,483,647 bytes."""
    file, text = content_of(source, NAMELESS, DatabaseTooLong)
    return read_text(text, file, strings)


def content_of(source: Source, nameless: str, too_long: Callable[[int], Refusal]) -> Tuple[str, bytes]:
    """The name and the bytes of what is handed in: a path, or bytes that have no name. A file that is too long isn't read, and neither is anything else than a file."""
    if isinstance(source, (bytes, bytearray, memoryview)):
        return nameless, bytes(source)
    path = pathlib.Path(source)
    with opened_file(path) as file:
        content = bytes_of(file, MOST_BYTES)
        if content is None:
            raise too_long(max(os.fstat(file.fileno()).st_size, MOST_BYTES + 1))
    return path.name, content


def read_text(text: bytes, file: str, strings: Strings) -> Bibliography:
    """Reads the text of the database whose file has this name."""
    known = {encoded(name): encoded(value) for name, value in strings.items()}
    found = read_records(encoded(file), text, known)
    if found is None:
        raise DatabaseTooLong(len(text))
    return Bibliography(file, text, frozenset(name.lower() for name in known), *found)


@contextlib.contextmanager
def without_collection() -> Iterator[None]:
    """Lets Python not look for garbage where many objects are made and none is garbage: it would look through all of them again and again."""
    is_enabled = gc.isenabled()
    gc.disable()
    try:
        yield
    finally:
        if is_enabled:
            gc.enable()


def encoded(text: Union[str, bytes]) -> bytes:
    return text if isinstance(text, bytes) else text.encode("utf8", "surrogateescape")
