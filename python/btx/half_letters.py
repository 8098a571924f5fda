"""Half letters in a list of references: bytes outside of letters of UTF-8 that a style made when it cut a text. A byte of a value that isn't UTF-8 itself stands in the list as it is, and is no half letter.
Which bytes are explained so is the front end's rule (front/src/half_letters.rs)."""

from __future__ import annotations

import codecs
import re
from typing import Dict, FrozenSet, Iterable, List, Mapping, Optional

from .letter_values import Item, Span, Wanted, is_entry, is_whole, items_of, parent_in

__all__ = ["OtherBytes", "line_of_half_letter"]

# Bytes from 128 on, each as the character by which `surrogateescape` shows one that is no letter.
Bytes = FrozenSet[str]

NONE: Bytes = frozenset()
ASCII = bytes(range(128))
NO_LETTER, PART = re.compile("[\udc80-\udcff]"), re.compile(r"\\bibitem(?![A-Za-z])")


def other_bytes(text: bytes) -> Bytes:
    """The bytes from 128 on of a text that isn't UTF-8; none of one that is."""
    return NONE if is_whole(text) else frozenset(text.translate(None, ASCII).decode("ascii", "surrogateescape"))


def other_bytes_of(content: bytes, span: Span, item: Item) -> Bytes:
    """The bytes of an item's values that aren't UTF-8. What can't be read as values counts as one."""
    values = [value for _, value in item.fields] + ([item.value] if item.value else [])
    found = other_bytes(content[slice(*span)])
    return NONE.union(*(other_bytes(content[slice(*value)]) for value in values)) if found and values and item.is_whole else found


class OtherBytes:
    """The bytes that a job's list may have from what isn't UTF-8. shared: those of keys, strings and preambles, which any part of the list may have. entries: of each key those of its first entry."""

    def __init__(self, files: Mapping[bytes, Optional[bytes]]) -> None:
        databases, styles = ([content for name, content in files.items() if content and name.endswith(ending)] for ending in (b".bib", b".bst"))
        wanted = Wanted(files)
        self.shared = NONE.union(*map(other_bytes, wanted.keys))
        self.entries: Dict[bytes, Bytes] = {}
        every = NONE if all(map(is_whole, databases)) else self.read(databases)
        of_entries = every if wanted.are_all else NONE.union(*(self.entries.get(key, NONE) for key in wanted.keys))
        # (a style in another encoding is of a job in that one, where a value has it too)
        if self.shared or of_entries:
            self.shared = self.shared.union(*map(other_bytes, styles))
        self.all = self.shared | of_entries

    def read(self, databases: Iterable[bytes]) -> Bytes:
        """Reads the databases; the bytes of all entries."""
        every = NONE
        parents: Dict[bytes, List[bytes]] = {}
        for content in databases:
            for span, item in items_of(content):
                found = other_bytes_of(content, span, item)
                if not is_entry(item.type):
                    self.shared |= found
                    continue
                every |= found
                if item.key is not None and item.key not in parents:
                    self.entries[item.key] = found
                    parents[item.key] = [parent_in(content, value) for name, value in item.fields if name == b"crossref"]
        own = dict(self.entries)
        for key, those in parents.items():
            self.entries[key] = own[key].union(*(own.get(parent, NONE) for parent in those))
        return every

    def in_part(self, key: Optional[bytes]) -> Bytes:
        """Those that the part of the entry of a key may have, or one of which no key is known."""
        return self.shared | self.entries[key] if key in self.entries else self.all


def key_of(part: str) -> Optional[bytes]:
    """The key of a part of a list, without its `\\bibitem`; None where it isn't plain."""
    part = part.lstrip(" \t\n\r\f")
    if part.startswith("["):
        part = part[part.find("]{") + 1 :]
    key, closing, _ = part[1:].partition("}")
    return key.encode("utf8", "surrogateescape").lower() if part.startswith("{") and closing and key else None


def line_of_half_letter(text: bytes, is_stopped: bool, other: OtherBytes) -> int:
    """The first line of a list, from 1, that has half a letter of UTF-8; 0 where none has. The list of a run that was stopped may end inside a letter."""
    line = 1
    shown = codecs.utf_8_decode(text, "surrogateescape", not is_stopped)[0]
    for number, part in enumerate(PART.split(shown)):
        if NO_LETTER.search(part):
            known = other.in_part(key_of(part) if number else None)
            half = next((found for found in NO_LETTER.finditer(part) if found[0] not in known), None)
            if half:
                return line + part.count("\n", 0, half.start())
        line += part.count("\n")
    return 0
