"""The tokens of a style, each with its kind, for editors that colour a text by what its names mean."""

from __future__ import annotations

import re
from typing import Dict, Iterator, List, NamedTuple, Optional, Tuple

from .bsttext import StyleText
from .builtins import BUILT_IN
from .documents import Document, units

__all__ = ["MODIFIERS", "TYPES", "Token", "data_of", "tokens_of"]

# The kinds of tokens and what is said beside them, by the protocol's names; a token has the number of its kind, and a bit for each of the others.
TYPES = ("keyword", "function", "variable", "property", "macro", "string", "number", "comment")
MODIFIERS = ("definition", "defaultLibrary")
DEFINITION, LIBRARY = 1, 2
NUMBERS = {kind: number for number, kind in enumerate(TYPES)}
KINDS = {
    "function": "function", "string": "macro", "integer": "variable", "string variable": "variable", "field": "property", "integer of entries": "variable", "string of entries": "variable",
}
# What is no name: a comment, a string, an integer.
OTHER = re.compile(rb"%[^\n]*|\"[^\"\n]*\"?|#-?[0-9]+")


class Token(NamedTuple):
    """A token: its bytes, its kind, and the bits of MODIFIERS."""

    start: int
    end: int
    kind: str
    modifiers: int = 0


def tokens_of(text: bytes, style: StyleText) -> List[Token]:
    """The tokens of a style that have a kind, in their order; none begins before another one's end."""
    meant: Dict[str, Tuple[str, int]] = {name: ("function", LIBRARY) for name in BUILT_IN}
    meant.update({"sort.key$": ("variable", LIBRARY), "entry.max$": ("variable", LIBRARY), "global.max$": ("variable", LIBRARY), "crossref": ("property", LIBRARY)})
    found = [Token(command.start, command.start + len(command.word), "keyword") for command in style.commands]
    for word in style.definitions:
        meant[word.name] = KINDS[word.kind], 0
        found.append(Token(word.start, word.end, KINDS[word.kind], DEFINITION))
    found.extend(Token(word.start, word.end, *meant[word.name]) for word in style.uses if word.name in meant)
    found.extend(others(text))
    return list(apart(sorted(found)))


def others(text: bytes) -> Iterator[Token]:
    kinds = {b"%": "comment", b'"': "string", b"#": "number"}
    for found in OTHER.finditer(text):
        yield Token(*found.span(), kinds[found[0][:1]])


def apart(tokens: List[Token]) -> Iterator[Token]:
    """The tokens without those that begin in another one."""
    end = 0
    for token in tokens:
        if token.start >= end:
            yield token
            end = token.end


def data_of(document: Document, tokens: List[Token], start: int = 0, end: Optional[int] = None) -> List[int]:
    """Tokens as the protocol has them: of each how many lines and columns it is after the one before, its length, its kind and its bits. Only those that touch the bytes from `start` to `end`."""
    text, ends = document.text, document.ends
    touched = [token for token in tokens if token.end > start and (end is None or token.start < end)]
    measured = len if text.isascii() else units
    data: List[int] = []
    last_start = 0
    for first, after, kind, modifiers in touched:
        lines = ends.count(last_start, first)
        begin = ends.start_of_line(first) if lines else last_start
        data += lines, measured(text[begin:first]), measured(text[first:after].rstrip(b"\r")), NUMBERS[kind], modifiers
        last_start = first
    return data
