"""The records of a database that the library has read, in columns: what all records have is made at once, without a step of Python for each of them."""

from __future__ import annotations

import bisect
import sys
from array import array
from itertools import compress
from operator import not_
from typing import Dict, Iterator, List, Optional, Tuple

from .library import RECORD, Buffer
from .reading import COMMENT, END, WRONG

__all__ = ["LowerNames", "Records", "places_of"]

# For each kind of a record whether it is the last one of its item.
IS_LAST = bytes(kind in (COMMENT, END, WRONG) for kind in range(256))
# How many words a record has, of how many records the words are copied at once, and which of them a number is.
WORDS = RECORD.size // 8
AT_ONCE = 1 << 18
COLUMNS = START, END_PLACE, NAME_AT, NAME_LEN, TEXT_AT, TEXT_LEN = 1, 2, 4, 5, 6, 7


class LowerNames(Dict[bytes, bytes]):
    """Names in lower case: a database has few of them, so each is made once."""

    def __missing__(self, name: bytes) -> bytes:
        made = self[name] = name.lower()
        return made


class Records:
    """The records of a database, or of a piece of it that begins at `base` and ends at `limit`.

    kinds: of each record its kind, as a byte. starts, ends: the bytes of the database between which it is."""

    def __init__(self, text: bytes, base: int, limit: int, data: Buffer, texts: Buffer, lowered: LowerNames) -> None:
        self.text = text
        self.base = base
        self.limit = limit
        self.texts = texts
        self.kinds = data[0 if sys.byteorder == "little" else 3 :: RECORD.size]
        self.is_whole = data[4 :: RECORD.size]
        self.starts, self.ends, self.name_at, self.name_len, self.text_at, self.text_len = columns_of(data)
        self.lowered = lowered
        self.known_names: Optional[List[bytes]] = None
        if base:
            self.starts, self.ends = array("Q", [it + base for it in self.starts]), array("Q", [it + base for it in self.ends])
        self.known_marks: Optional[bytes] = None

    def items(self) -> List[Tuple[int, int]]:
        """The numbers of the first and of the last record of each item. Each item begins where the one before it ends."""
        lasts = list(compress(range(len(self.kinds)), self.kinds.translate(IS_LAST)))
        return list(zip([0, *[last + 1 for last in lasts]], lasts))

    def make_names(self) -> None:
        """Makes the names of all records at once, where most of them are asked for."""
        lowered, texts = self.lowered, self.texts
        self.known_names = [lowered[texts[at : at + length]] for at, length in zip(self.name_at, self.name_len)]

    def names_between(self, first: int, last: int) -> List[bytes]:
        """The names of the records from `first` to `last`."""
        if self.known_names is not None:
            return self.known_names[first:last]
        lowered, texts = self.lowered, self.texts
        return [lowered[texts[at : at + length]] for at, length in zip(self.name_at[first:last], self.name_len[first:last])]

    def name(self, number: int) -> bytes:
        """The name of a record, in lower case."""
        if self.known_names is not None:
            return self.known_names[number]
        at = self.name_at[number]
        return self.lowered[self.texts[at : at + self.name_len[number]]]

    def value(self, number: int) -> bytes:
        """The text of a record."""
        at = self.text_at[number]
        return self.texts[at : at + self.text_len[number]]

    @property
    def marks(self) -> bytes:
        """For each record, as a byte, whether its value may use a string that isn't defined. Then it is empty, or has a `#`."""
        if self.known_marks is None:
            self.known_marks = self.which_may_lack()
        return self.known_marks

    def lacking(self, first: int, last: int) -> Iterator[int]:
        """Those of these values that may use a string that isn't defined."""
        return places_of(1, self.marks, first, last)

    def which_may_lack(self) -> bytes:
        """For each record, as a byte, whether its value is empty or has a `#`."""
        marks = bytearray(map(not_, self.text_len))
        find, starts, ends, limit = self.text.find, self.starts, self.ends, self.limit
        place = find(b"#", self.base, limit)
        while place >= 0:
            number = bisect.bisect_right(starts, place) - 1
            if number >= 0 and place < ends[number]:
                marks[number] = 1
                place = find(b"#", ends[number], limit)
            else:
                # (it is between records)
                place = find(b"#", starts[number + 1], limit) if number + 1 < len(starts) else -1
        return bytes(marks)


def columns_of(data: Buffer) -> "List[array[int]]":
    """The numbers of all records, column by column. (Each of them is taken from an array, which takes half the time that it takes from a view.)"""
    columns: List[array[int]] = [array("Q") for _ in COLUMNS]
    for start in range(0, len(data), AT_ONCE * RECORD.size):
        words = array("Q")
        words.frombytes(memoryview(data)[start : start + AT_ONCE * RECORD.size])
        parts = [words[it::WORDS] for it in COLUMNS]
        columns = parts if start == 0 else [column + part for column, part in zip(columns, parts)]
    return columns


def places_of(byte: int, column: bytes, first: int, last: int) -> Iterator[int]:
    """The numbers of the records from `first` to `last` that have this byte in a column."""
    first = column.find(byte, first, last)
    while first >= 0:
        yield first
        first = column.find(byte, first + 1, last)
