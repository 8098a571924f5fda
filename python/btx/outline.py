"""The items of a database that is edited, with their places, from one text to the next: after an edit those pieces alone are read whose text is another one (`renewing.py`).

Each entry is read to its end, also one that is repeated. Items are made when somebody asks for them. What the doctor reads of a text is the same, where no entry is repeated."""

from __future__ import annotations

import bisect
import itertools
from typing import Dict, Iterator, List, NamedTuple, Optional, Sequence, Set

from .bibtext import Database, Item
from .reading import without_collection
from .renewing import Known, Part, Piece, Renewal

__all__ = ["Outline", "Placed", "outline_of"]


class Placed(NamedTuple):
    """An item of a text. Its places are those in the database that it is read in; in the text they are `shift` bytes further."""

    item: Item
    database: Database
    shift: int


class Outline:
    """The items of a text, which has these pieces."""

    def __init__(self, text: bytes, pieces: Sequence[Piece]) -> None:
        self.text = text
        self.pieces = pieces
        self.starts = [0, *itertools.accumulate(len(piece.text) for piece in pieces)][:-1]
        self.known_keys: Optional[Set[bytes]] = None

    @property
    def strings(self) -> Dict[bytes, bytes]:
        """The strings that it defines."""
        known = self.pieces[-1].after.values
        names = (name for piece in self.pieces for name in piece.strings)
        return {name: known[name] for name in names if name in known}

    @property
    def keys(self) -> Set[bytes]:
        """The keys of its entries, in lower case."""
        if self.known_keys is None:
            self.known_keys = set().union(*(piece.part.keys_stored() for piece in self.pieces))
        return self.known_keys

    def items(self) -> Iterator[Placed]:
        """All items."""
        for turn, piece in enumerate(self.pieces):
            yield from self.placed(turn, piece.part.items())

    def items_at(self, place: int) -> List[Placed]:
        """The items that a place is in, or directly after."""
        turn = bisect.bisect_right(self.starts, place) - 1
        part = self.pieces[turn].part
        last = bisect.bisect_right(part.database.item_starts(), place - self.shift(turn), part.first, part.last)
        first = max(last - 2, part.first)
        found = self.placed(turn, part.database.items_between(first, last))
        if last - first == 2 or turn == 0:
            return found
        before = self.pieces[turn - 1].part
        return [*self.placed(turn - 1, before.database.items_between(max(before.last - 1, before.first), before.last)), *found]

    def entries(self, key: bytes) -> Iterator[Placed]:
        """The entries of a key in lower case."""
        for turn, piece in enumerate(self.pieces if key in self.keys else ()):
            for number, its in enumerate(piece.part.keys(), piece.part.first):
                if its == key:
                    yield from self.placed(turn, piece.part.database.items_between(number, number + 1))

    def string_items(self) -> Iterator[Placed]:
        """The items that define strings."""
        for turn, piece in enumerate(self.pieces):
            if piece.strings:
                yield from self.placed(turn, [item for item in piece.part.items() if item.key and not item.is_entry])

    def shift(self, turn: int) -> int:
        return self.starts[turn] - self.pieces[turn].part.begin

    def placed(self, turn: int, items: List[Item]) -> List[Placed]:
        database, shift = self.pieces[turn].part.database, self.shift(turn)
        return [Placed(item, database, shift) for item in items]


def outline_of(text: bytes, earlier: Optional[Outline]) -> Outline:
    """The items of a text. earlier: those of an earlier text of the same file."""
    with without_collection():
        return Outline(text, Outlining([] if earlier is None else [*earlier.pieces], text).pieces())


class Outlining(Renewal[Piece]):
    """Reads the pieces of a text."""

    def __init__(self, earlier: List[Piece], text: bytes) -> None:
        super().__init__(earlier, text, Known({}, frozenset()))

    def keys_stored(self) -> None:
        return None

    def piece(self, part: Part, again: int) -> Piece:
        return Piece(part, self.known)
