"""What was read, in the shapes of other packages: pybtex's, and those of bibtexparser's version 1. Both are imported only when they are asked for."""

from __future__ import annotations

import importlib
from typing import TYPE_CHECKING, Any, Dict, List

from .dividing import Divided, divided

if TYPE_CHECKING:
    from .reading import Bibliography, Entry

__all__ = ["bibtexparser_of", "pybtex_of"]

# The fields that pybtex keeps as persons.
PERSONS = ("author", "editor")


def pybtex_of(base: "Bibliography") -> Any:
    """A `BibliographyData` of pybtex, whose persons are divided as BibTeX divides names. Of entries with one key it has the first."""
    pybtex = importlib.import_module("pybtex.database")
    entries = [entry for entry in base if base[entry.key] is entry]
    texts = [entry[role] for entry in entries for role in PERSONS if role in entry]
    people = iter(divided(texts))
    made = {entry.key: pybtex_entry(pybtex, entry, {role: next(people) for role in PERSONS if role in entry}) for entry in entries}
    return pybtex.BibliographyData(entries=made, preamble=[base.preamble] if base.preamble else [])


def pybtex_entry(pybtex: Any, entry: "Entry", people: Dict[str, Divided]) -> Any:
    persons = {
        role: [pybtex.Person(first=it.first, prelast=it.von, last=it.last, lineage=it.jr) for it in its]
        for role, its in people.items()
    }
    return pybtex.Entry(entry.type, fields=[(name, value) for name, value in entry.items() if name not in PERSONS], persons=persons)


def bibtexparser_of(base: "Bibliography") -> Any:
    """A `BibDatabase` of bibtexparser: an entry is a dictionary, with its key as ID and its type as ENTRYTYPE."""
    made = importlib.import_module("bibtexparser.bibdatabase").BibDatabase()
    entries: List[Dict[str, str]] = [{**entry.fields, "ENTRYTYPE": entry.type, "ID": entry.key} for entry in base]
    made.entries = entries
    made.strings.update(base.strings)
    made.preambles = [base.preamble] if base.preamble else []
    return made
