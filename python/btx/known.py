"""What remedies look for in databases: items by their places, keys and names, and the name that may be meant by another one. A look takes a few steps, however many items and names there are."""

from __future__ import annotations

import bisect
import difflib
import re
import unicodedata
from collections import Counter, defaultdict
from functools import cached_property
from operator import add
from typing import Dict, Iterable, List, Optional, Tuple, Union

from .bibtext import Database, Item, Lines, read
from .doctor import JOURNALS, MONTHS, Source, lines_of
from .doubts import ENTRY_IN_TEXT

__all__ = ["ALIKE", "Known", "Names", "names_of"]

# Dashes and spaces that look like those of the keyboard.
ALIKE = str.maketrans({**dict.fromkeys("\xad\u2010\u2011\u2012\u2013\u2014\u2212", "-"), "\xa0": " "})
# How much of two names is the same where one may be meant by the other: of their letters, and of their pairs of neighbours.
LEAST_ALIKE, LEAST_PAIRS = 0.8, 0.4
# How many letters a name has at most for which another one is looked for; how many names with a pair of its letters are looked at, and how many of these are compared letter by letter.
MOST_LETTERS, MOST_LOOKED_AT, MOST_COMPARED = 200, 500, 10
# The name in a `@string`, after its type.
NAME_OF_STRING = re.compile(rb"[ \t\r\n]*[{(][ \t\r\n]*([^\x00-\x20\"#%'(),={}]+)")
# How an entry begins, with its key.
BEGINS_ENTRY = re.compile(rb"@[ \t]*[A-Za-z]+[ \t]*[{(][ \t]*([^\s,{}()]+)[ \t\r\n]*,")
# For how many pairs the names are looked through; for more of them each name is divided into its pairs once.
MOST_SCANS = 24


class Names:
    """The names that a message may have meant. What is made of them is made when somebody asks."""

    def __init__(self, names: Iterable[str]) -> None:
        self.given = names
        self.found: Dict[str, Optional[str]] = {}
        self.scanned: Dict[str, List[str]] = {}

    @cached_property
    def names(self) -> List[str]:
        return list(self.given)

    @cached_property
    def by_lower(self) -> Dict[str, str]:
        """The names by their small letters."""
        return {name.lower(): name for name in self.names}

    @cached_property
    def short(self) -> List[str]:
        """The names, in small letters, that aren't too long to be compared."""
        return [name for name in self.by_lower if len(name) <= MOST_LETTERS]

    @cached_property
    def by_form(self) -> Dict[str, Dict[str, str]]:
        """The names with letters outside ASCII by their form in which a letter and its mark are one character, and then by their small letters."""
        found: Dict[str, Dict[str, str]] = {}
        for name in self.names:
            if not name.isascii():
                found.setdefault(unicodedata.normalize("NFC", name).lower(), {}).setdefault(name.lower(), name)
        return found

    @cached_property
    def by_pair(self) -> Dict[str, List[str]]:
        """The names, in small letters, by each pair of letters that stand side by side in them."""
        found: Dict[str, List[str]] = defaultdict(list)
        for name in self.short:
            for pair in set(map(add, "\0" + name, name + "\0")):
                found[pair].append(name)
        return found

    def with_pair(self, pair: str) -> List[str]:
        """The names, in small letters, that have this pair."""
        if pair in self.scanned:
            return self.scanned[pair]
        if len(self.scanned) >= MOST_SCANS:
            return self.by_pair.get(pair, [])
        first, second = pair[0], pair[1]
        if first == "\0":
            found = [name for name in self.short if name.startswith(second)]
        else:
            found = [name for name in self.short if (name.endswith(first) if second == "\0" else pair in name)]
        self.scanned[pair] = found
        return found

    def has(self, name: str) -> bool:
        return name.lower() in self.by_lower

    def other_form(self, key: str) -> Optional[str]:
        """The name that is this one with its letters in another form: a letter and its mark as one character, or one after the other."""
        if key.isascii():
            return None
        lower, others = key.lower(), self.by_form.get(unicodedata.normalize("NFC", key).lower(), {})
        return next((name for its, name in others.items() if its != lower), None)

    def nearest(self, key: str) -> Optional[str]:
        """The name that is spelled most like this one: first one that only looks another way."""
        alike = self.by_lower.get(key.translate(ALIKE).strip().lower())
        if alike is not None or len(key) > MOST_LETTERS:
            return alike
        lower = key.lower()
        if lower not in self.found:
            close = difflib.get_close_matches(lower, self.likely(lower), 1, LEAST_ALIKE)
            self.found[lower] = self.by_lower[close[0]] if close else None
        return self.found[lower]

    def likely(self, name: str) -> List[str]:
        """Some names that share pairs of letters with this one, among them those that share most, as rare pairs tell."""
        pairs = pairs_of(name)
        shared: "Counter[str]" = Counter()
        left = MOST_LOOKED_AT
        for names in sorted(map(self.with_pair, pairs), key=len):
            shared.update(names[:left])
            left -= len(names)
            if left <= 0:
                break
        parts = [(2 * count / (len(pairs) + len(other) + 1), other) for other, count in shared.items()]
        return [other for part, other in sorted(parts, reverse=True)[:MOST_COMPARED] if part >= LEAST_PAIRS or left <= 0]


def names_of(names: Union[Names, Iterable[str]]) -> Names:
    return names if isinstance(names, Names) else Names(names)


def pairs_of(name: str) -> List[str]:
    """Each pair of letters that stand side by side in a name, with its ends, once."""
    return list(dict.fromkeys(map(add, "\0" + name, name + "\0")))


class Known:
    """The items of databases. A database is read when somebody asks for one of its items, if it isn't among those that were read. keys, names: those of all entries, and of all strings with those of the usual styles."""

    def __init__(self, sources: List[Source], databases: Optional[Dict[int, Database]] = None) -> None:
        self.sources = sources
        self.databases = {} if databases is None else databases
        self.read: Dict[int, Tuple[List[Item], List[int]]] = {}
        self.lines: Dict[int, Lines] = {}
        self.of_keys: Dict[int, Dict[bytes, List[Item]]] = {}

    @cached_property
    def keys(self) -> Names:
        return Names(text_of(item.key) for _, item in self.entries.values())

    @cached_property
    def names(self) -> Names:
        return Names(text_of(name) for name in (*(item.key for _, item in self.strings.values()), *MONTHS, *JOURNALS))

    @cached_property
    def names_beside_months(self) -> Names:
        """The names of strings that aren't months."""
        months = {text_of(name) for name in MONTHS}
        return Names([name for name in self.names.names if name.lower() not in months])

    def items_of(self, source: Source) -> List[Item]:
        return self.items_and_starts(source)[0]

    def items_and_starts(self, source: Source) -> Tuple[List[Item], List[int]]:
        if id(source) not in self.read:
            known = self.databases.get(id(source))
            items = (read(source.text) if known is None else known).items
            self.read[id(source)] = items, [item.start for item in items]
        return self.read[id(source)]

    def line_of(self, source: Source, place: int) -> int:
        """The number of a place's line, from 1."""
        return lines_of(source, self.lines).line_of(place) + 1

    def around(self, source: Source, place: int) -> Optional[Item]:
        """The entry in which a place is."""
        items, starts = self.items_and_starts(source)
        number = bisect.bisect_right(starts, place) - 1
        return items[number] if number >= 0 and place < items[number].end and items[number].is_entry else None

    def next_start(self, source: Source, item: Item) -> int:
        """Where the next item after one begins, or the text ends."""
        starts = self.items_and_starts(source)[1]
        number = bisect.bisect_right(starts, item.start)
        return starts[number] if number < len(starts) else len(source.text)

    def of_key(self, source: Source, key: bytes) -> List[Item]:
        """The entries of a database that have this key, in lower case."""
        if id(source) not in self.of_keys:
            found: Dict[bytes, List[Item]] = {}
            self.of_keys[id(source)] = found
            for item in self.items_of(source):
                if item.is_entry and item.key is not None:
                    found.setdefault(item.key.lower(), []).append(item)
        return self.of_keys[id(source)].get(key, [])

    @cached_property
    def firsts(self) -> Tuple[Dict[bytes, Tuple[Source, Item]], Dict[bytes, Tuple[Source, Item]]]:
        """The first entry of each key, and the first definition of each string, by their keys and names in lower case."""
        entries: Dict[bytes, Tuple[Source, Item]] = {}
        strings: Dict[bytes, Tuple[Source, Item]] = {}
        for source in self.sources:
            for item in self.items_of(source):
                if item.key:
                    (strings if item.own_kind == b"string" else entries).setdefault(item.key.lower(), (source, item))
        return entries, strings

    @property
    def entries(self) -> Dict[bytes, Tuple[Source, Item]]:
        return self.firsts[0]

    @property
    def strings(self) -> Dict[bytes, Tuple[Source, Item]]:
        return self.firsts[1]

    @cached_property
    def faulty_strings(self) -> Dict[bytes, Tuple[Source, Item]]:
        """The first `@string` of each name, in lower case, that ends with a mistake before it defines anything."""
        found: Dict[bytes, Tuple[Source, Item]] = {}
        for source in self.sources:
            for item in self.items_of(source):
                name = None if item.slip is None or item.own_kind != b"string" else NAME_OF_STRING.match(source.text, item.kind_end)
                if name is not None:
                    found.setdefault(name[1].lower(), (source, item))
        return found

    @cached_property
    def behind_mistakes(self) -> Dict[str, Tuple[Source, int, int]]:
        """The entries that aren't read since an item above them goes on over their beginning, by their keys: the database, the place of that item's mistake, and where the entry begins."""
        found: Dict[str, Tuple[Source, int, int]] = {}
        for source in self.sources:
            for item in self.items_of(source):
                if item.slip is not None and not item.is_repeated:
                    for entry in BEGINS_ENTRY.finditer(source.text, item.start + 1, self.next_start(source, item)):
                        found.setdefault(text_of(entry[1]).lower(), (source, item.slip.place, entry.start()))
        return found

    @cached_property
    def in_text(self) -> Dict[str, Tuple[Source, int, str]]:
        """The first entry without its `@` of each key: its database, its place and its type."""
        found: Dict[str, Tuple[Source, int, str]] = {}
        for source in self.sources:
            for it in ENTRY_IN_TEXT.finditer(source.text):
                found.setdefault(text_of(it[2]).lower(), (source, it.start(1), it[1].decode()))
        return found

    @cached_property
    def without_key(self) -> Optional[Item]:
        """The first entry that has a field in the place of its key."""
        for _, item in self.entries.values():
            records = item.records
            if item.slip is not None and not item.fields and (records.text[item.slip.place : item.slip.place + 1] == b"=" or b"=" in (item.key or b"")):
                return item
        return None


def text_of(name: Optional[bytes]) -> str:
    return (name or b"").decode("utf8", "replace")
