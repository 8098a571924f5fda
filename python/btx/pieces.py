"""The findings of a database that is edited, from one text to the next: it is examined piece by piece, as `renewing.py` has them, and what was found in a piece is kept.

A text is read first, which takes less time than its examination: then its mistakes are known. Whether two entries are one work is said of all pieces together. What is found is what
`examine` of `doctor.py` finds in the whole text, but for what it finds when all databases are read: names that are exchanged, lists in braces that other names show, and fields that a parent lacks. A text of an editor is UTF-8."""

from __future__ import annotations

from operator import itemgetter
from typing import Any, Dict, List, Optional, Set

from .bibtext import MOST_AGAIN, Item
from .doctor import Examiner, Finding, Local, Source, Style, Work, finding_of, repeated_works
from .reading import without_collection
from .renewing import Known, Part, Piece, Renewal

__all__ = ["Examination", "Pieces"]


class Examined(Piece):
    """A piece of a database that is examined.

    is_examined: whether it was. mistakes: what its reader has found. works, found: as those of an examiner. All places are counted from its start. again: how often its text was read once
    more, since other strings were defined before it."""

    def __init__(self, part: Part, before: Known, again: int) -> None:
        super().__init__(part, before)
        slips = part.slips()
        self.stores = part.keys_stored()
        self.repeats = frozenset(item.key.lower() for item in slips if item.is_repeated and item.key is not None) - self.stores
        # Whether an entry of it is repeated, so that it isn't read to its end.
        self.has_repeated = any(item.is_repeated for item in slips)
        self.is_examined = False
        self.mistakes = mistakes_of(part, slips)
        self.works: List[Work] = []
        self.found: List[Local] = []
        self.again = again

    @property
    def known_findings(self) -> List[Local]:
        """What is known to be found in it."""
        return self.found if self.is_examined else self.mistakes

    def examine(self, examiner: Examiner) -> None:
        """Examines it, if it isn't yet."""
        if self.is_examined:
            return
        items, begin, end = self.part.items(), self.part.begin, self.part.end
        look_at(examiner, self.part)
        if not begin:
            examiner.text_between(0, items[0].start if items else end)
        examiner.examine_items(items, end, set(self.before.names))
        self.works = [(check, work, key, place - begin, parting) for check, work, key, place, parting in examiner.works]
        self.found = local(examiner, begin)
        self.is_examined = True


def mistakes_of(part: Part, slips: List[Item]) -> List[Local]:
    """What the reader of a part has found, of which these items end with a mistake."""
    if not slips:
        return []
    examiner = Examiner(None)
    look_at(examiner, part)
    examiner.slips(slips)
    return local(examiner, part.begin)


def look_at(examiner: Examiner, part: Part) -> None:
    """Lets an examiner begin with a part."""
    examiner.source, examiner.database = Source("", part.database.text), part.database
    examiner.found, examiner.works, examiner.of_persons, examiner.children = [], [], [], []


def local(examiner: Examiner, begin: int) -> List[Local]:
    """What an examiner has found, with places that are counted from `begin`."""
    return [(start - begin, stop - begin, check, what, key) for _, start, stop, check, what, key, _ in examiner.found]


class Pieces:
    """The pieces of a database, from one text of it to the next."""

    def __init__(self) -> None:
        self.style: Optional[Style] = None
        self.all: List[Examined] = []

    def read(self, source: Source, style: Optional[Style], most: Optional[int] = None) -> "Examination":
        """Reads a text that is to be examined. most: how many findings are wanted at most."""
        if style is not self.style:
            self.style, self.all = style, []
        with without_collection():
            self.all = Reading(self.all, source.text, style).pieces()
            if sum(piece.again for piece in self.all) >= MOST_AGAIN:
                # (how often a text is read once more is bounded for all of it)
                self.all = Reading([], source.text, style).pieces()
        return Examination(self.all, source, style, most)

    def examine(self, source: Source, style: Optional[Style], most: Optional[int] = None) -> List[Finding]:
        """The findings of a text, by place. most: how many are wanted at most."""
        examination = self.read(source, style, most)
        while not examination.is_done:
            examination.go_on()
        return examination.findings()


class Examination:
    """The examination of a text that was read, piece by piece.

    turn: the number of the piece that is examined next. count: how many findings those before it have. is_done: whether as many are found as are wanted, or all."""

    def __init__(self, pieces: List[Examined], source: Source, style: Optional[Style], most: Optional[int]) -> None:
        self.pieces = pieces
        self.source = source
        self.examiner = Examiner(style)
        self.most = most
        self.turn = self.count = 0
        self.is_done = False

    def bytes_left(self) -> int:
        """How many bytes have pieces that aren't examined."""
        return sum(len(piece.text) for piece in self.pieces if not piece.is_examined)

    def go_on(self) -> None:
        """Examines the next piece."""
        with without_collection():
            self.pieces[self.turn].examine(self.examiner)
        self.count += len(self.pieces[self.turn].found)
        self.turn += 1
        self.is_done = self.turn == len(self.pieces) or (self.most is not None and self.count >= self.most)

    def known_findings(self) -> List[Finding]:
        """What is known to be found so far, by place: in pieces that aren't examined the mistakes alone, and of works that are there twice nothing."""
        found: List[Local] = []
        at = 0
        for piece in self.pieces:
            found += sorted(((start + at, end + at, *rest) for start, end, *rest in piece.known_findings), key=itemgetter(0, 1))  # type: ignore[misc]
            at += len(piece.text)
        return [finding_of(it, self.source) for it in found[: self.most]]

    def findings(self) -> List[Finding]:
        """What is found, by place: the findings of a piece come after those of the pieces before it."""
        found: List[Local] = []
        firsts: Dict[object, Any] = {}
        at = 0
        for piece in self.pieces:
            if self.most is not None and len(found) >= self.most:
                break
            own = [*piece.found, *repeated_works(piece.works, firsts)]
            found += sorted(((start + at, end + at, *rest) for start, end, *rest in own), key=itemgetter(0, 1))  # type: ignore[misc]
            at += len(piece.text)
        return [finding_of(it, self.source) for it in found[: self.most]]


class Reading(Renewal[Examined]):
    """Reads the pieces of a text, as a run does that stores all entries."""

    def __init__(self, earlier: List[Examined], text: bytes, style: Optional[Style]) -> None:
        first = Examiner(style).strings
        super().__init__(earlier, text, Known(first, frozenset(first)))

    def keys_stored(self) -> Optional[Set[bytes]]:
        return set(self.stored)

    def piece(self, part: Part, again: int) -> Examined:
        return Examined(part, self.known, again)
