"""A text in an editor: its bytes, which are edited by ranges whose lines are counted and whose columns count units of UTF-16."""

from __future__ import annotations

import bisect
import itertools
import re
from typing import Any, Dict, List, Optional, Union

__all__ = ["Document", "LineEnds", "Position", "Range", "Walk", "units"]

Position = Dict[str, int]
Range = Dict[str, Position]

LINE = re.compile(r"[^\r\n]*(?:\r\n|\r|\n)")
# The bytes that begin no letter of UTF-8, those that begin none of four bytes, and the letters that have two units of UTF-16.
NOT_FIRST, NOT_OF_FOUR = bytes(range(0x80, 0xC0)), bytes(range(0xF0))
OF_TWO_UNITS = re.compile("[\U00010000-\U0010ffff]")
LINE_END, FEED = re.compile(rb"\r\n|\r|\n"), re.compile(rb"\n")
# How many bytes of a text are looked through at most to count the line ends before a place, or to find one by its number.
BLOCK = 2048


def split_lines(text: str) -> List[str]:
    """The lines of a text with their ends; the last one has none."""
    if "\r" not in text:
        lines = text.split("\n")
        return [line + "\n" for line in lines[:-1]] + lines[-1:]
    lines = LINE.findall(text)
    return [*lines, text[sum(map(len, lines)) :]]


def units(text: bytes) -> int:
    """How many units of UTF-16 a text in UTF-8 has: one for the first byte of each letter, and two where the letter has four bytes."""
    if text.isascii():
        return len(text)
    return len(text.translate(None, NOT_FIRST)) + len(text.translate(None, NOT_OF_FOUR))


def index_of(line: str, column: int) -> int:
    """The index of a column of a line. One in the middle of a letter is that of the letter, and one past the line's end is its end."""
    end = len(line.rstrip("\r\n"))
    column = max(column, 0)
    if line.isascii():
        return min(column, end)
    more = 0
    for found in OF_TWO_UNITS.finditer(line, 0, end):
        unit = found.start() + more
        if unit + 1 >= column:
            return min(found.start(), column - more)
        more += 1
    return min(column - more, end)


class LineEnds:
    """The line ends of a text: line feeds alone, or else also returns, with a line feed after them or not. They are counted block by block: a place has those of the blocks before its own,
    and the few of its own. No block begins in the middle of a line end.

    starts: where the blocks begin. sums: how many line ends are before each block, and at last how many there are."""

    def __init__(self, text: bytes, is_of_feeds: bool) -> None:
        self.is_of_feeds = is_of_feeds
        self.take(text)
        self.starts, counts = self.blocks(0, len(text))
        self.sums = [0, *itertools.accumulate(counts)]

    def take(self, text: bytes) -> None:
        self.text = text
        self.has_returns = not self.is_of_feeds and b"\r" in text

    def blocks(self, start: int, end: int) -> "tuple[List[int], List[int]]":
        """Blocks for a part of the text: where they begin, and how many line ends each has."""
        starts = list(range(start, end, BLOCK)) or [start]
        if self.has_returns:
            starts = [it + (it > start and self.is_in_end(it)) for it in starts]
        return starts, [self.count(*it) for it in zip(starts, [*starts[1:], end])]

    def is_in_end(self, place: int) -> bool:
        """Whether a place is in the middle of a line end."""
        return self.has_returns and self.text[max(place - 1, 0) : place + 1] == b"\r\n"

    def count(self, start: int, end: int) -> int:
        """How many line ends begin and end between two places."""
        feeds = self.text.count(b"\n", start, end)
        if not self.has_returns:
            return feeds
        return feeds + self.text.count(b"\r", start, end) - self.text.count(b"\r\n", start, end)

    def edit(self, text: bytes, start: int, end: int) -> None:
        """Counts again where an edit has changed what was between two places; `text` is the one after it."""
        more = len(text) - len(self.text)
        self.take(text)
        first, last = self.block_of(max(start - 1, 0)), self.block_of(end)
        after = self.starts[last + 1 :]
        starts, counts = self.blocks(self.starts[first], after[0] + more if after else len(text))
        sums = list(itertools.accumulate(counts, initial=self.sums[first]))
        more_ends = sums[-1] - self.sums[last + 1]
        self.starts[first:] = [*starts, *(after if more == 0 else [it + more for it in after])]
        self.sums[first:] = [*sums, *(self.sums[last + 2 :] if more_ends == 0 else [it + more_ends for it in self.sums[last + 2 :]])]

    def block_of(self, place: int) -> int:
        return bisect.bisect_right(self.starts, place) - 1

    def before(self, place: int) -> int:
        """How many line ends are before a place."""
        block = self.block_of(place)
        return self.sums[block] + self.count(self.starts[block], place) - self.is_in_end(place)

    def after(self, number: int) -> int:
        """The byte after the line end with this number, counted from 1; of 0 the first byte of the text, and its end where there are fewer."""
        if not 0 < number <= self.sums[-1]:
            return 0 if number <= 0 else len(self.text)
        block = bisect.bisect_left(self.sums, number) - 1
        ends = (LINE_END if self.has_returns else FEED).finditer(self.text, self.starts[block])
        return next(itertools.islice(ends, number - self.sums[block] - 1, None)).end()

    def start_of_line(self, place: int) -> int:
        """The first byte of the line that a place is on."""
        if not self.has_returns:
            return self.text.rfind(b"\n", 0, place) + 1
        start, end = self.starts[self.block_of(place)], place - self.is_in_end(place)
        found = max(self.text.rfind(b"\n", start, end), self.text.rfind(b"\r", start, end))
        return found + 1 if found >= 0 else self.after(self.before(start))


class Walk:
    """Finds positions of a text one after another: what is between two places is counted once. A place before the last one, or in a text with returns, is looked for by itself."""

    def __init__(self, document: Document) -> None:
        self.document, self.text = document, document.text
        self.is_of_feeds = not document.ends.has_returns
        self.place = self.line = self.column = 0

    def at(self, place: int) -> Position:
        if place < self.place or not self.is_of_feeds:
            return self.document.position(place)
        begin, lines = self.place, self.text.count(b"\n", self.place, place)
        if lines:
            begin = self.text.rfind(b"\n", begin, place) + 1
            self.line += lines
            self.column = 0
        between = self.text[begin:place]
        self.column += len(between) if between.isascii() else units(between)
        self.place = place
        return {"line": self.line, "character": self.column}


class Document:
    """A text in an editor. text: its bytes, in UTF-8."""

    def __init__(self, uri: str, text: Union[str, bytes], version: Optional[int] = None) -> None:
        self.uri = uri
        self.version = version
        self.replace(text.encode("utf8", "surrogatepass") if isinstance(text, str) else text)

    def replace(self, text: bytes) -> None:
        self.text = text
        self.known_ends: Optional[LineEnds] = None
        self.known_feeds: Optional[LineEnds] = None
        # A line, a byte of it, and the units before that.
        self.passed = 0, 0, 0

    def change(self, changes: List[Dict[str, Any]]) -> None:
        """Makes the changes of a notice, one after another."""
        for change in changes:
            if change.get("range") is None:
                self.replace(str(change["text"]).encode("utf8", "surrogatepass"))
            else:
                self.edit(change["range"], str(change["text"]))

    def edit(self, where: Range, text: str) -> None:
        """Puts a text in the place of a range."""
        start, end = sorted((self.place(where["start"]), self.place(where["end"])))
        view = memoryview(self.text)
        self.text = b"".join((view[:start], text.encode("utf8", "surrogatepass"), view[end:]))
        self.ends.edit(self.text, start, end)
        self.known_feeds = None
        self.passed = 0, 0, 0

    # ---- lines ----

    @property
    def lines(self) -> List[str]:
        """The lines with their ends."""
        return split_lines(self.text.decode("utf8", "surrogatepass"))

    @property
    def ends(self) -> LineEnds:
        """The ends of the lines that positions count."""
        if self.known_ends is None:
            self.known_ends = LineEnds(self.text, False)
        return self.known_ends

    @property
    def feeds(self) -> LineEnds:
        """The ends of the lines that a log counts."""
        if not self.ends.has_returns:
            return self.ends
        if self.known_feeds is None:
            self.known_feeds = LineEnds(self.text, True)
        return self.known_feeds

    # ---- places ----

    def place(self, position: Position) -> int:
        """The byte of a position. A line before the first one is the first."""
        number = max(position["line"], 0)
        start, end = self.ends.after(number), self.ends.after(number + 1)
        line = self.text[start:end].decode("utf8", "surrogatepass")
        return start + len(line[: index_of(line, position["character"])].encode("utf8", "surrogatepass"))

    def position(self, place: int) -> Position:
        """The position of a byte. What is before it on its line is counted once, where positions are asked for in their order."""
        line, start = self.ends.before(place), self.ends.start_of_line(place)
        _, at, column = self.passed if self.passed[0] == line and start <= self.passed[1] <= place else (line, start, 0)
        column += units(self.text[at:place])
        self.passed = line, place, column
        return {"line": line, "character": column}

    def range(self, start: int, end: int) -> Range:
        first = self.position(start)
        if b"\n" in self.text[start:end] or b"\r" in self.text[start:end]:
            return {"start": first, "end": self.position(end)}
        return {"start": first, "end": {"line": first["line"], "character": first["character"] + units(self.text[start:end])}}

    def walk(self) -> Walk:
        """Finds the positions of many places, in their order."""
        return Walk(self)

    def line_range(self, line: int) -> "tuple[int, int]":
        """The bytes of a line as a log counts it, from 1: lines end at line feeds alone. One past the last line is the last."""
        feeds, last = self.feeds, self.feeds.sums[-1] + 1
        line = min(line, last)
        return feeds.after(line - 1), feeds.after(line) - (line < last)
