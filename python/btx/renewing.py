"""What is known of a database that is edited, piece by piece: after an edit those pieces alone are read whose text is another one, or before which other strings or keys are known.

A piece ends where an item begins, so that it is read as it is in the whole text. What it depends on are the strings that are defined before it, and for some uses the keys that are
stored before it."""

from __future__ import annotations

import bisect
from typing import Dict, FrozenSet, Generic, List, NamedTuple, Optional, Set, Tuple, TypeVar

from .bibtext import Database, Item, Reader, read_late
from .reading import END

__all__ = ["LEAST_BYTES", "MOST_PIECES", "Known", "Part", "Piece", "Renewal"]

# How many pieces a database has, at most some more; and how many bytes each has at least, or a few fewer.
MOST_PIECES = 64
LEAST_BYTES = 8_192
# How many times as long as a text the texts are together at most that its pieces were read in.
MOST_READ = 4


class Known(NamedTuple):
    """The strings that are known at a place: the values of those that have one, and the names of all."""

    values: Dict[bytes, bytes]
    names: FrozenSet[bytes]

    def after(self, strings: List[Tuple[bytes, Optional[bytes]]]) -> "Known":
        """The strings that are known after these are defined: names, and values where they are known."""
        if not strings:
            return self
        values = {name: value for name, value in strings if value is not None}
        return Known({**self.values, **values}, self.names.union(name for name, _ in strings))


class Part(NamedTuple):
    """The items of a database with the numbers from `first` to `last`, and its bytes from `begin` to `end`."""

    database: Database
    first: int
    last: int
    begin: int
    end: int

    @property
    def text(self) -> memoryview:
        """Its bytes, which aren't copied."""
        return memoryview(self.database.text)[self.begin : self.end]

    def items(self) -> List[Item]:
        return self.database.items_between(self.first, self.last)

    def keys(self) -> List[Optional[bytes]]:
        """The keys of its items in lower case; None of an item that is no entry."""
        return self.database.keys_between(self.first, self.last)

    def keys_stored(self) -> FrozenSet[bytes]:
        """The keys in lower case of its entries that aren't repeated."""
        return self.database.keys_stored(self.first, self.last)

    def strings(self) -> List[Tuple[bytes, Optional[bytes]]]:
        """The strings that its items define: their names in lower case, and their values, None of one that wasn't read whole."""
        return self.database.strings_between(self.first, self.last)

    def slips(self) -> List[Item]:
        """The items that end with a mistake."""
        return self.database.slips_between(self.first, self.last)


class Piece:
    """A piece of a database.

    part: what was read of it. before, after: the strings that are known at its start and at its end. strings: the names of those that it defines. stores: the keys, in lower
    case, of the entries that it stores. repeats: those that were stored before it."""

    def __init__(self, part: Part, before: Known) -> None:
        self.part = part
        self.text = part.text
        strings = part.strings()
        self.strings = [name for name, _ in strings]
        self.before = before
        self.after = before.after(strings)
        self.stores: FrozenSet[bytes] = frozenset()
        self.repeats: FrozenSet[bytes] = frozenset()

    def fits(self, known: Known, stored: Set[bytes]) -> bool:
        """Whether it is read as before, where these strings are known and these keys are stored."""
        return self.before == known and self.stores.isdisjoint(stored) and self.repeats <= stored


AnyPiece = TypeVar("AnyPiece", bound=Piece)


class Renewal(Generic[AnyPiece]):
    """The pieces of a text, of which those at its start and at its end are taken that an earlier text had.

    done: the pieces up to the place `at`. left: the places and the pieces of the earlier text at the end of this one, the last one first. known, stored: the strings and the keys that
    are known at `at`."""

    def __init__(self, earlier: List[AnyPiece], text: bytes, first: Known) -> None:
        self.text = text
        self.first = first
        self.begin(earlier)

    def begin(self, earlier: List[AnyPiece]) -> None:
        """Takes the pieces of an earlier text with which this one begins and ends."""
        self.done: List[AnyPiece] = []
        self.at = 0
        self.take_first(earlier)
        self.left = self.last_of(earlier[len(self.done) :])
        self.known = self.done[-1].after if self.done else self.first
        self.stored: Set[bytes] = set().union(*(piece.stores for piece in self.done))

    def keys_stored(self) -> Optional[Set[bytes]]:
        """The keys that are stored at `at`; None where all entries are read, also repeated ones."""
        raise NotImplementedError

    def piece(self, part: Part, again: int) -> AnyPiece:
        """The piece at `at`. again: how often its text was read once more, since other strings were defined before it."""
        raise NotImplementedError

    def take_first(self, earlier: List[AnyPiece]) -> None:
        """Takes the pieces that the text begins with. After each an item is to begin, as before; so the last one isn't taken."""
        for piece in earlier[:-1]:
            end = self.at + len(piece.text)
            if not self.text.startswith(piece.text, self.at) or self.text[end : end + 1] != b"@":
                return
            self.done.append(piece)
            self.at = end

    def last_of(self, earlier: List[AnyPiece]) -> List[Tuple[int, AnyPiece]]:
        """The pieces that the text ends with, and where they begin."""
        found: List[Tuple[int, AnyPiece]] = []
        end = len(self.text)
        for piece in reversed(earlier):
            start = end - len(piece.text)
            if start < self.at or piece.text[:1] != b"@" or not self.text.startswith(piece.text, start):
                break
            found.append((start, piece))
            end = start
        return found

    def pieces(self) -> List[AnyPiece]:
        """All pieces of the text. Each keeps what it was read in; where that is too much, all of the text is read anew."""
        self.take_all()
        if sum(map(len, {id(it.part.database): it.part.database.text for it in self.done}.values())) > MOST_READ * max(len(self.text), LEAST_BYTES):
            self.begin([])
            self.take_all()
        return self.done

    def take_all(self) -> None:
        while self.at < len(self.text) or not self.done:
            self.next()

    def next(self) -> None:
        """Takes the next piece, or reads up to the next one."""
        if self.left and self.left[-1][0] == self.at:
            piece = self.left.pop()[1]
            if piece.fits(self.known, self.stored):
                self.add(piece)
                return
        self.read()

    def add(self, piece: AnyPiece) -> None:
        self.done.append(piece)
        self.at += len(piece.text)
        self.known = piece.after
        self.stored |= piece.stores

    def read(self) -> None:
        """Reads up to the next piece. Where the last item may go on in that, it is read again with more of the text."""
        while True:
            end = self.left[-1][0] if self.left else len(self.text)
            reader = Reader(self.text[self.at : end], self.keys_stored(), dict(self.known.values))
            database = read_late(reader)
            if not self.left or not is_cut(database, end - self.at):
                break
            limit = end + (end - self.at)
            while self.left and self.left[-1][0] < limit:
                self.left.pop()
        again = reader.again
        for part in parts_of(database, max(LEAST_BYTES, len(self.text) // MOST_PIECES)):
            self.add(self.piece(part, again))
            again = 0


def is_cut(database: Database, limit: int) -> bool:
    """Whether the last item of a database may be read otherwise in a longer text than that of `limit` bytes."""
    number = len(database.item_starts())
    items = database.items_between(max(number - 1, 0), number)
    if not items or items[-1].is_repeated:
        return False
    return items[-1].end >= limit and items[-1].records.kinds[items[-1].last] != END


def parts_of(database: Database, size: int) -> List[Part]:
    """The items of a database in parts of about `size` bytes."""
    parts: List[Part] = []
    starts, first, begin = database.item_starts(), 0, 0
    while True:
        number = max(bisect.bisect_left(starts, begin + size), first + 1)
        while number < len(starts) and not database.begins(number):
            number += 1
        if number >= len(starts):
            return [*parts, Part(database, first, len(starts), begin, len(database.text))]
        parts.append(Part(database, first, number, begin, starts[number]))
        first, begin = number, starts[number]
