"""The parts of a value that the library has read: names of strings, and texts.

The library says where a field, a `@string` or a `@preamble` begins and ends, and joins the parts of its value. Which names of strings a value has it doesn't say; so these are
found here, in a text that is known to be a value."""

from __future__ import annotations

import re
from typing import Iterator, NamedTuple, Tuple

__all__ = ["Part", "has_names", "parts_of", "value_of"]

WHITE = b" \t\r\n"
NOT_WHITE = re.compile(rb"[^ \t\r\n]")
BRACE = re.compile(rb"[{}]")
QUOTE = re.compile(b'"')
ENDS_BRACED = re.compile(rb"\}(?=[ \t\r\n]*(?:#|\Z))")
NAME = re.compile(rb"[^\x00- \"#%'(),={}]+")
DIGITS = b"0123456789"
BEGINS_TEXT = b'{"0123456789'
NO_BRACE, NO_DELIMITER = (bytes(byte for byte in range(256) if byte not in signs) for signs in (b"{}", b'{}"'))
# How often braces, and quotes in them, are taken out, to see whether all go.
MOST_TURNS = 20


class Part(NamedTuple):
    """A part of a value: the name of a string, or a text without its delimiters."""

    start: int
    end: int
    is_name: bool


def value_of(text: bytes, start: int, end: int, signs: bytes = b"=") -> Tuple[int, int]:
    """Where a value begins and ends that stands after the first of these signs from `start` on: the `=` of a field or a `@string`, the brace of a `@preamble`."""
    sign = min(place for place in (text.find(bytes([sign]), start, end) for sign in signs) if place >= 0)
    found = NOT_WHITE.search(text, sign + 1, end)
    return (found.start() if found else end), end


def has_names(text: bytes, start: int, end: int) -> bool:
    """Whether a value may have names of strings. It has none where it is one text or number."""
    return text[start] not in BEGINS_TEXT or (text.find(b"#", start, end) >= 0 and not is_one_text(text, start, end))


def is_one_text(text: bytes, start: int, end: int) -> bool:
    """Whether it is soon seen that a value is one text, which may have a `#`: what is between its delimiters has braces that match, and no quote outside of them where it is in quotes."""
    is_braced = text.startswith(b"{", start) and text.startswith(b"}", end - 1)
    is_quoted = text.startswith(b'"', start) and text.startswith(b'"', end - 1)
    if end - start < 2 or not (is_braced or is_quoted):
        return False
    signs = text[start + 1 : end - 1].translate(None, NO_BRACE if is_braced else NO_DELIMITER)
    turns = MOST_TURNS
    while signs and turns > 0:
        signs = signs.replace(b'""', b'"').replace(b'{"', b"{").replace(b"{}", b"")
        turns -= 1
    return not signs


def parts_of(text: bytes, start: int, end: int) -> Iterator[Part]:
    """The parts of a value."""
    at = start
    while True:
        found = NOT_WHITE.search(text, at, end)
        if found is None:
            return
        at = found.start()
        if text[at] == ord("#"):
            at += 1
            continue
        part, at = part_at(text, at, end)
        yield part


def part_at(text: bytes, at: int, end: int) -> Tuple[Part, int]:
    """The part that begins here, and where it ends with its delimiters."""
    first = text[at]
    if first in b'{"':
        close = closing(text, at, end)
        return Part(at + 1, close, False), close + 1
    found = NAME.match(text, at, end)
    stop = found.end() if found else at + 1
    return Part(at, stop, first not in DIGITS), stop


def closing(text: bytes, at: int, end: int) -> int:
    """Where the delimiter is that ends the text which begins here: before it the braces match, and after one that is a brace a `#` follows, or nothing."""
    is_braced = text.startswith(b"{", at)
    depth, passed = (-1, at) if is_braced else (0, at + 1)
    for found in (ENDS_BRACED if is_braced else QUOTE).finditer(text, passed, end):
        place = found.start()
        depth += text.count(b"{", passed, place) - text.count(b"}", passed, place)
        if depth == 0:
            return place
        passed = place
    return end
