"""What a style makes of entries that are tried: which fields count in entries of a type, and whether it writes titles in small letters."""

from __future__ import annotations

import itertools
from typing import Dict, FrozenSet, Iterable, NamedTuple, Optional, Tuple

from .events import Met, Severity
from .jobs import run
from .options import Options
from .results import End

__all__ = ["AUX", "CROSSREF", "OPTIONS", "Printing", "Prober", "Shown", "counts"]

# A field's value in the entries that are tried; one that isn't here is its name and a word.
VALUES = {
    **{"title": "Title Word", "author": "Aa, Bb and Cc, Dd", "editor": "Ee, Ff and Gg, Hh", "key": "Kk", "year": "1999", "month": "May"},
    **{"volume": "17", "number": "5", "pages": "11--22", "chapter": "3", "edition": "Second"},
}
AUX = b"\\citation{k}\n\\bibdata{d}\n\\bibstyle{s}\n"
# The field that names a parent, and what cites that.
CROSSREF = "crossref"
OF_PARENT = b"\\citation{p}\n"
OPTIONS = Options(budget=2_000_000, utf8=True)
# How much is tried of a style while a database is examined: the steps of a run; the steps of all runs, and the bytes of the style that they read.
OF_DOCTOR = Options(budget=100_000, utf8=True)
MOST_STEPS, MOST_READ = 5_000_000, 40_000_000
# How many runs say at most whether a field counts.
RUNS_OF_FIELD = 10
# Fields that say where a work was published, and the type in which they are usual.
PLACES = {
    **{b"journal": b"article", b"booktitle": b"inproceedings", b"publisher": b"book", b"school": b"phdthesis", b"institution": b"techreport"},
    **{b"organization": b"manual", b"howpublished": b"misc"},
}
# Fields that say which part of it, or which one of several, and the type in which they are usual.
DETAILS = {b"volume": b"article", b"number": b"article", b"series": b"book", b"edition": b"book", b"chapter": b"inbook"}
# Types of parents, which have a field for their children alone.
INHERITED_FROM = (b"book", b"collection", b"proceedings")
# A type that no style has, so that it is treated as all unknown types are.
UNKNOWN = b"btx.unknown"


class Shown(NamedTuple):
    """What a style makes of an entry: its list, and its warnings."""

    bbl: bytes
    warnings: FrozenSet[bytes]


class Prober:
    """Tries entries of one type.

    steps: how many all runs took. has_ended: whether each of them came to its end."""

    def __init__(self, style: bytes, kind: str, fields: Iterable[str], options: Options = OPTIONS) -> None:
        self.style = style
        self.kind = kind
        self.fields = tuple(fields)
        self.options = options
        self.known: Dict[FrozenSet[str], Shown] = {}
        self.steps = 0
        self.has_ended = True

    def show(self, fields: Iterable[str]) -> Shown:
        """What the style makes of an entry with these fields."""
        wanted = frozenset(fields)
        if wanted not in self.known:
            result = run("j", self.job(wanted), self.options)
            warned = (result.log[event.offset : event.end] for event in result.events.of(Severity.WARNING) if event.met is Met.EXECUTION)
            self.known[wanted] = Shown(result.bbl, frozenset(warned))
            self.steps += result.report.steps
            self.has_ended = self.has_ended and result.report.end is End.FINISHED
        return self.known[wanted]

    def job(self, wanted: FrozenSet[str]) -> Dict[str, bytes]:
        """The files of a job that cites an entry with these fields. With crossref it cites a parent too, which has no field."""
        written = "".join(f", {name} = {{{VALUES.get(name, name.capitalize() + ' word')}}}" for name in self.fields if name in wanted)
        has_parent = CROSSREF in wanted
        database = f"@{self.kind}{{k{written}, crossref = {{p}}}}\n@{self.kind}{{p}}\n" if has_parent else f"@{self.kind}{{k{written}}}\n"
        return {"j.aux": AUX + OF_PARENT * has_parent, "s.bst": self.style, "d.bib": database.encode("utf8", "surrogateescape")}


def counts(prober: Prober, name: str, beside: Iterable[FrozenSet[str]]) -> bool:
    """Whether a field changes the list or the warnings of an entry with one of these sets of fields."""
    return any(prober.show(fields - {name}) != prober.show(fields | {name}) for fields in beside)


class Printing:
    """What a style prints, found by trying, and kept. It tries so much and no more; of what isn't tried it says that the style prints it, and writes it as it stands.

    name: what the style is called. fields, types: the names that it has."""

    def __init__(self, text: bytes, name: str, fields: Iterable[bytes], types: FrozenSet[bytes]) -> None:
        self.text = text
        self.name = name
        self.fields = frozenset(fields)
        self.types = types
        self.probers: Dict[bytes, Prober] = {}
        self.printed: Dict[bytes, Dict[bytes, bool]] = {}
        self.lowered: Dict[bytes, bool] = {}
        self.missed: Dict[Tuple[bytes, Tuple[bytes, ...]], bool] = {}

    def prober(self, kind: bytes) -> Optional[Prober]:
        """What tries entries of a type; None where enough was tried."""
        tried = self.probers.values()
        runs = sum(len(prober.known) for prober in tried)
        if (runs + RUNS_OF_FIELD) * len(self.text) > MOST_READ or sum(prober.steps for prober in tried) > MOST_STEPS or not all(prober.has_ended for prober in tried):
            return None
        if kind not in self.probers:
            fields = sorted(name.decode("utf8", "surrogateescape") for name in self.fields - {b"crossref"})
            self.probers[kind] = Prober(self.text, kind.decode("utf8", "surrogateescape"), fields, OF_DOCTOR)
        return self.probers[kind]

    def known_kind(self, kind: bytes) -> bytes:
        return kind if kind in self.types else UNKNOWN

    def prints(self, kind: bytes, name: bytes) -> bool:
        """Whether a field counts in entries of a type: alone, beside all others, or beside all but those that may hide it."""
        kind = self.known_kind(kind)
        known = self.printed.setdefault(kind, {})
        if name not in known:
            prober = self.prober(kind)
            if prober is None:
                return True
            whole = frozenset(prober.fields)
            of_places, of_details = ({other.decode("latin1") for other in others} for others in (PLACES, DETAILS))
            beside = [frozenset(), whole, whole - of_places, whole - of_details, whole - of_places - of_details]
            is_printed = counts(prober, name.decode("latin1"), beside)
            known[name] = is_printed or not prober.has_ended
        return known[name]

    def misses(self, kind: bytes, names: Tuple[bytes, ...]) -> bool:
        """Whether the style warns of an entry of a type that has all fields but these."""
        kind = self.known_kind(kind)
        if (kind, names) not in self.missed:
            prober = self.prober(kind)
            if prober is None:
                return False
            whole = frozenset(prober.fields)
            warned = prober.show(whole.difference(name.decode("latin1") for name in names)).warnings - prober.show(whole).warnings
            self.missed[kind, names] = prober.has_ended and bool(warned)
        return self.missed[kind, names]

    def lowers(self, kind: bytes) -> bool:
        """Whether the title of entries of a type is written in small letters."""
        kind = self.known_kind(kind)
        if kind not in self.lowered:
            prober = self.prober(kind)
            if prober is None:
                return False
            shown = b" ".join(prober.show(prober.fields).bbl.split())
            self.lowered[kind] = prober.has_ended and b"Title word" in shown
        return self.lowered[kind]

    def not_printed(self, kind: bytes, names: Iterable[bytes], has_parent: bool) -> Optional[bytes]:
        """The first field among these that entries of a type don't print and those of another type do: one that says where the work was published, where nothing else says it, or a detail. Of a type
        that the style doesn't have something else is said."""
        there = self.fields.intersection(names)
        places = [name for name in PLACES if name in there and not (name == b"booktitle" and kind in INHERITED_FROM)]
        if has_parent or any(self.prints(kind, name) for name in places):
            places = []
        lost = itertools.chain(places, (name for name in DETAILS if name in there and not self.prints(kind, name)))
        return next((name for name in lost if self.usual_type(kind, name) is not None), None) if kind in self.types else None

    def usual_type(self, kind: bytes, name: bytes) -> Optional[bytes]:
        """The type for which a field is usual, where it is another one that prints it."""
        usual = (PLACES.get(name) or DETAILS.get(name)) or kind
        return usual if usual != kind and usual in self.types and self.prints(usual, name) else None
