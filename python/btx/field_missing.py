"""Which field an entry lacks where a style takes it without asking whether it is there: a run logs `missing field is not a string`, and is made again with each field that may be meant."""

from __future__ import annotations

from typing import Iterable, Optional

from .bibtext import Item
from .jobs import run
from .trying import AUX, OF_DOCTOR, VALUES

__all__ = ["MISSING_FIELD", "field_missing"]

MISSING_FIELD = "missing field is not a string"
# The fields that are tried, the likely ones first; how long a database is at most that is read for each.
TRIED = ("author", "editor", "title", "year", "key", "organization", "journal", "booktitle", "publisher", "institution", "school", "pages", "volume", "note", "month")
MOST_BYTES = 2_000_000


def field_missing(style: bytes, database: bytes, item: Item, fields: Iterable[bytes]) -> Optional[str]:
    """The field of a style without which it logs the message for an entry; None where no field alone is it."""
    own, key = frozenset(item.records.names_between(item.at + 1, item.last)), item.key or b""
    if len(database) > MOST_BYTES or b"}" in key:
        return None
    logged = faults_with(style, database, key)
    names = [name for name in TRIED if name.encode() in fields and name.encode() not in own]
    for name in names if logged else ():
        added = b", %s = {%s}" % (name.encode(), VALUES.get(name, name + " word").encode())
        if faults_with(style, database[: item.key_end] + added + database[item.key_end :], key) < logged:
            return name
    return None


def faults_with(style: bytes, database: bytes, key: bytes) -> int:
    """How often a run that cites one entry logs the message."""
    files = {"j.aux": AUX.replace(b"{k}", b"{" + key + b"}"), "s.bst": style, "d.bib": database}
    return sum(message.text.startswith(MISSING_FIELD) for message in run("j", files, OF_DOCTOR).messages)
