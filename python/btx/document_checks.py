"""What a job's document shows that its `.aux` files don't say: where it asks for all entries, and which keys it cites that LaTeX hasn't written yet. The document is `paper.tex` beside `paper.aux`, with the files that it reads."""

from __future__ import annotations

import os
import re
from typing import Dict, FrozenSet, List, NamedTuple, Optional, Set, Tuple

from .bibtext import Lines
from .doctor import Citation, Finding, Source
from .remedies import SEEN, said
from .searching import MOST_BYTES, content_of
from .tex_text import cites_in, files_read, read_by_tex

__all__ = ["Documents", "documents_of", "findings_of_documents", "remedy_by_document"]

MOST_FILES = 200
STYLE = re.compile(rb"\\bibliographystyle[ \t]*\{[ \t]*([^{}\r\n]*?)[ \t]*\}")
DATABASE = re.compile(rb"\\bibliography(?![A-Za-z])")
SECOND_STYLE, NO_STYLE, NO_DATABASE = "Illegal, another \\bibstyle command", "I found no \\bibstyle command", "I found no \\bibdata command"
NOCITE_ALL = re.compile(rb"\\nocite\{\s*\*\s*\}")


class TexFile(NamedTuple):
    """A file of a document. text: what TeX reads of it, with spaces for the rest. time: when it was written, in nanoseconds."""

    source: Source
    text: bytes
    time: int


class Documents(NamedTuple):
    """The files of a document, and when its `.aux` file was written."""

    files: List[TexFile]
    aux: str
    aux_time: int


def documents_of(job: str) -> Documents:
    """The files of a job's document that are there."""
    aux = job if job.endswith(".aux") else job + ".aux"
    top = aux[: -len(".aux")] + ".tex"
    folder, waiting, seen, files = os.path.dirname(top), [top], {top}, []  # type: ignore[var-annotated]
    while waiting and len(files) < MOST_FILES:
        found = tex_file(waiting.pop(0))
        if found is None:
            continue
        files.append(found)
        others = [os.path.join(folder, name) for name in files_read(found.text)]
        waiting += [path for path in others if path not in seen]
        seen.update(others)
    return Documents(files, aux, os.stat(aux).st_mtime_ns)


def tex_file(path: str) -> Optional[TexFile]:
    try:
        content, time = content_of(os.fsencode(path), MOST_BYTES), os.stat(path).st_mtime_ns
    except (OSError, ValueError):
        return None
    return TexFile(Source(path, content), read_by_tex(content), time)


def findings_of_documents(documents: Documents, citations: List[Citation], entries: Dict[bytes, bytes]) -> Tuple[List[Finding], FrozenSet[str]]:
    """What the document shows, and the keys that it cites and the `.aux` files don't have. entries: the keys of all entries, in lower case and as they are spelled."""
    cited = {citation.key.lower() for citation in citations}
    all_cited = next((citation for citation in citations if citation.key == b"*"), None)
    if all_cited is not None:
        return [asks_for_all(documents, all_cited, len(entries), len(cited & entries.keys()))], frozenset()
    findings: List[Finding] = []
    newer: Set[str] = set()
    for file in documents.files:
        places = {} if file.time <= documents.aux_time else keys_in(file.text)
        missing = {key: place for key, place in places.items() if key.lower() in entries and key.lower() not in cited}
        if missing:
            findings.append(of_older(file, missing, os.path.basename(documents.aux)))
            newer.update(entries[key.lower()].decode("utf8", "surrogateescape") for key in missing)
    return findings, frozenset(newer)


def asks_for_all(documents: Documents, citation: Citation, count: int, by_key: int) -> Finding:
    """Where a document asks for all entries."""
    line = Lines(citation.source.text).line_of(citation.start) + 1
    in_aux = f"`\\citation{{*}}` in {citation.source.name}:{line}"
    listed = f"all {count} entries of the databases into the list; {by_key} of them are cited by their keys"
    for file in documents.files:
        found = NOCITE_ALL.search(file.text)
        if found is not None:
            return Finding(file.source, *found.span(), "all-entries", f"`\\nocite{{*}}` ({in_aux}) puts {listed}")
    return Finding(citation.source, citation.start, citation.start + 1, "all-entries", f"{in_aux} puts {listed}")


def of_older(file: TexFile, missing: Dict[bytes, int], aux: str) -> Finding:
    """What is said of keys that a file cites and the `.aux` file doesn't have. It stands at the first one."""
    key, place = next(iter(missing.items()))
    others = len(missing) - 1
    also = "" if not others else f" and {others} other keys" if others > 1 else " and another key"
    is_are = "are" if others else "is"
    name = key.decode("utf8", "surrogateescape")
    return Finding(file.source, place, place + len(key), "older-aux", f"`{name}`{also} {is_are} cited here and not in {aux}, which is older")


def remedy_by_document(text: str, aux: str) -> Optional[str]:
    """What to do about an error of an `.aux` file, where the document beside it shows that."""
    file = tex_file(aux[: -len(".aux")] + ".tex") if text in (SECOND_STYLE, NO_STYLE, NO_DATABASE) else None
    if file is None:
        return None
    lines, name = Lines(file.source.text), file.source.name
    styles: Dict[str, int] = {}
    for found in STYLE.finditer(file.text):
        styles.setdefault(found[1].decode("utf8", "surrogateescape"), lines.line_of(found.start()) + 1)
    rows = list(styles.items())
    if text == SECOND_STYLE:
        return said(SEEN["OtherStyle"], rows[0][0], f"{name}:{rows[0][1]}", rows[-1][0], str(rows[-1][1])) if len(rows) > 1 else None
    if text == NO_STYLE and rows:
        return said(SEEN["OlderAux"], f"{name}:{rows[0][1]}", "\\bibliographystyle")
    database = DATABASE.search(file.text)
    if database is None:
        return None
    place = f"{name}:{lines.line_of(database.start()) + 1}"
    return said(SEEN["NoStyleInDocument"], place) if text == NO_STYLE else said(SEEN["OlderAux"], place, "\\bibliography")


def keys_in(text: bytes) -> Dict[bytes, int]:
    """The keys that a text cites, and where each stands first."""
    found: Dict[bytes, int] = {}
    for key, place in cites_in(text):
        found.setdefault(key, place)
    return found
