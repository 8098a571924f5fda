"""What TeX reads of a document: no comments, nothing that it passes over or prints as it stands, and nothing after the document's end."""

from __future__ import annotations

import os
import re
from typing import Iterator, List, Optional, Set, Tuple

from .citing import CITES, KEY

__all__ = ["cites_in", "files_read", "is_read", "read_by_tex", "unread_spans"]

# Commands that have `cite` in their names and cite nothing.
CITE_NOTHING = re.compile(rb"\\(?:set|bib|new|def|Declare)[A-Za-z]*[cC]ite|\\[cC]ite(?:style|text|reset)")
BEGINS = re.compile(rb"%|\\(?:begin\{(comment|verbatim\*?|lstlisting)\}|(iffalse|verb)(?![A-Za-z])|(end)\{document\})")
FI = re.compile(rb"\\fi(?![A-Za-z])")
READS = re.compile(rb"\\(?:input|include|subfile)\{([^{}\r\n]*)\}")
NO_LINE_END = re.compile(rb"[^\n]")
# How many bytes what `\verb` prints has at most.
MOST_OF_VERB = 1000


def unread_spans(text: bytes) -> Iterator[Tuple[int, int]]:
    """The parts of a document that TeX doesn't read, in their order. One that has no end is read."""
    missing: Set[bytes] = set()
    at = 0
    while True:
        found = BEGINS.search(text, at)
        if found is None:
            return
        end = end_of_unread(text, found, missing)
        if end is not None:
            yield found.start(), end
        at = found.end() if end is None else end


def end_of_unread(text: bytes, found: "re.Match[bytes]", missing: Set[bytes]) -> Optional[int]:
    """Where a part ends that TeX doesn't read. missing: the ends that don't come any more."""
    start, after = found.span()
    if found[3]:
        return len(text)
    if found[0] == b"%":
        before = text[max(start - 10, 0) : start]
        return None if (len(before) - len(before.rstrip(b"\\"))) % 2 else end_of_line(text, start)
    if found[2] == b"verb":
        after += text.startswith(b"*", after)
        delimiter, line = text[after : after + 1], text[after + 1 : after + MOST_OF_VERB].partition(b"\n")[0]
        place = line.find(delimiter) if delimiter.strip() else -1
        return None if place < 0 else after + 1 + place + 1
    sign = b"\\fi" if found[2] else b"\\end{" + found[1] + b"}"
    if sign in missing:
        return None
    close = FI.search(text, after) if found[2] else None
    place = text.find(sign, after) if not found[2] else -1 if close is None else close.start()
    if place < 0:
        missing.add(sign)
        return None
    return place + len(sign)


def end_of_line(text: bytes, place: int) -> int:
    found = text.find(b"\n", place)
    return len(text) if found < 0 else found


def read_by_tex(text: bytes) -> bytes:
    """What TeX reads of a document, with spaces for the rest, so that places are the same ones."""
    pieces: List[bytes] = []
    at = 0
    for start, end in unread_spans(text):
        pieces += [text[at:start], NO_LINE_END.sub(b" ", text[start:end])]
        at = end
    return b"".join([*pieces, text[at:]])


def files_read(text: bytes) -> List[str]:
    """The files that a text reads, of which TeX reads all: their paths from the folder in which TeX is called, each once."""
    names = (os.fsdecode(found[1].strip()) for found in READS.finditer(text))
    return list(dict.fromkeys(name if name.endswith(".tex") else name + ".tex" for name in names if "\0" not in name))


def is_read(text: bytes, place: int, read: bytes) -> bool:
    """Whether a key that stands at a place is cited there. read: what TeX reads of the text."""
    command = text.rfind(b"\\", max(place - MOST_OF_VERB, 0), place)
    return read[place : place + 1] == text[place : place + 1] and (command < 0 or CITE_NOTHING.match(text, command) is None)


def cites_in(text: bytes) -> Iterator[Tuple[bytes, int]]:
    """The keys that a text cites, of which TeX reads all, and where they are."""
    for cite in CITES.finditer(text):
        if CITE_NOTHING.match(cite[0]) is None:
            yield from ((key[0], key.start()) for key in KEY.finditer(text, *cite.span(1)))
