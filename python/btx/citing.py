"""The citations of a text that is edited, from one text to the next: after an edit those parts alone are looked through whose text is another one.

No citation goes on where a part ends. In an `.aux` file that is after a line. Else it is after a closing brace that has no `[` before it on its line: a citation has such a brace
inside of it only between `[` and `]`, and no line end is between these."""

from __future__ import annotations

import bisect
import itertools
import re
from typing import FrozenSet, Iterator, List, Optional, Tuple

__all__ = ["Citations"]

# What follows the name of a command that cites: it may have notes. They have a greatest length, as names do, so that the time grows with the text alone.
# (an empty alternative takes less time than a group that may be left out)
ARGUMENT = rb"\*?(?:\[[^\]\r\n]{0,1000}\](?:\[[^\]\r\n]{0,1000}\]|)|)\{([^{}]*)\}"
CITES = re.compile(rb"\\[A-Za-z]{0,40}[cC]ite[A-Za-z]{0,40}" + ARGUMENT)
# The same and some more, whether a backslash is before the name or not. It takes less time: what it looks for begins with three letters that are always the same.
LIKE_CITES = re.compile(rb"ite(?<=[cC]ite)[A-Za-z]*(?:(?=" + ARGUMENT + rb")|)")
AUX_CITES = re.compile(rb"(?m)^\\citation\{([^}\s]*)\}")
KEY = re.compile(rb"[^,\s]+")
# About how many bytes a part has.
PART = 16_384


class Part:
    """A part of a text. keys: the cited keys in lower case, and some that only look so. Where they are is looked for when somebody asks."""

    def __init__(self, text: bytes, pattern: "re.Pattern[bytes]") -> None:
        self.text = text
        self.pattern = pattern
        found: List[bytes] = (LIKE_CITES if pattern is CITES else pattern).findall(text)
        self.keys = frozenset(b" ".join(found).lower().replace(b",", b" ").split())

    def spans(self, at: int, known: FrozenSet[bytes] = frozenset()) -> Iterator[Tuple[int, int]]:
        """Where the cited keys are that aren't among these, which are in lower case, where the part begins at `at`."""
        for cite in self.pattern.finditer(self.text):
            if cite[1].lower() not in known:
                found = KEY.finditer(self.text, *cite.span(1))
                yield from ((key.start() + at, key.end() + at) for key in found if key[0].lower() not in known)


class Citations:
    """The citations of a text. earlier: those of an earlier text of the same file. starts: where its parts begin."""

    def __init__(self, text: bytes, is_aux: bool, earlier: "Optional[Citations]" = None) -> None:
        self.text = text
        self.is_aux = is_aux
        self.pattern = AUX_CITES if is_aux else CITES
        self.parts: List[Part] = self.first_of([] if earlier is None else earlier.parts)
        at = sum(len(part.text) for part in self.parts)
        left = self.last_of([] if earlier is None else earlier.parts[len(self.parts) :], at)
        self.look_through(at, left)
        self.starts = [0, *itertools.accumulate(len(part.text) for part in self.parts)][:-1]

    def first_of(self, earlier: List[Part]) -> List[Part]:
        """The parts that the text begins with, but the last one, which ends where the earlier text did."""
        at, found = 0, []
        for part in earlier[:-1]:
            if not self.text.startswith(part.text, at):
                break
            found.append(part)
            at += len(part.text)
        return found

    def last_of(self, earlier: List[Part], at: int) -> List[Tuple[int, Part]]:
        """The parts that the text ends with after a part that ends at `at`, and where they begin, the last one first."""
        found: List[Tuple[int, Part]] = []
        end = len(self.text)
        for part in reversed(earlier):
            start = end - len(part.text)
            if start < max(at, 1) or not self.text.startswith(part.text, start):
                break
            found.append((start, part))
            end = start
        while found and not self.is_apart(at, found[-1][0]):
            found.pop()
        return found

    def look_through(self, at: int, left: List[Tuple[int, Part]]) -> None:
        """Looks through the text from a place on, up to the parts that are left."""
        limit = left[-1][0] if left else len(self.text)
        while at < limit:
            end = min(self.end_of_part(at), limit)
            self.parts.append(Part(self.text[at:end], self.pattern))
            at = end
        self.parts.extend(part for _, part in reversed(left))
        if not self.parts:
            self.parts.append(Part(b"", self.pattern))

    def end_of_part(self, begin: int) -> int:
        """Where the part ends that begins at a place."""
        sign, end = b"\n" if self.is_aux else b"}", begin + PART
        while True:
            end = self.text.find(sign, end) + 1
            if end == 0 or self.is_apart(begin, end):
                return end or len(self.text)
            # (a bracket is before it, and so before all that is on its line)
            end = self.text.find(b"\n", end)
            if end < 0:
                return len(self.text)

    def is_apart(self, begin: int, end: int) -> bool:
        """Whether no citation goes on at `end`, where a part begins at `begin`."""
        if self.is_aux:
            return self.text.startswith(b"\n", end - 1)
        line = max(self.text.rfind(b"\n", begin, end) + 1, begin)
        return self.text.startswith(b"}", end - 1) and self.text.find(b"[", line, end) < 0

    def all(self) -> Iterator[Tuple[int, int]]:
        """Where the cited keys are."""
        return self.without(frozenset())

    def without(self, known: FrozenSet[bytes]) -> Iterator[Tuple[int, int]]:
        """Where the cited keys are that aren't among these, which are in lower case."""
        for at, part in zip(self.starts, self.parts):
            if not part.keys <= known:
                yield from part.spans(at, known)

    def near(self, place: int) -> Iterator[Tuple[int, int]]:
        """Where some cited keys are, among them all at a place or directly before it."""
        last = bisect.bisect_right(self.starts, place)
        for at, part in zip(self.starts[max(last - 2, 0) : last], self.parts[max(last - 2, 0) : last]):
            yield from part.spans(at)
