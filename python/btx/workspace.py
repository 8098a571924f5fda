"""The files of an editor: those that are open, and those beside them."""

from __future__ import annotations

import os
import re
import stat
import urllib.parse
from typing import Any, Callable, Dict, Iterator, List, Optional, Tuple

from .bibtext import Database, read
from .bsttext import StyleText, read_style
from .citing import Citations
from .documents import Document
from .doctor import Source, Style
from .outline import Outline, outline_of
from .pieces import Examination, Pieces
from .searching import Search, content_of, found_search
from .tex_text import files_read, read_by_tex

__all__ = ["StyleInUse", "Workspace", "path_of", "uri_of"]

# A style that a document names: its text, and what it reads and has.
StyleInUse = Tuple[Document, Style, StyleText]

# A text of more bytes is neither checked while typing nor read beside an open one.
MOST_BYTES = 8_000_000
# How many files of a folder are read beside an open one.
MOST_FILES = 200
# How many folders above a text are looked through for the document that reads it.
MOST_ABOVE = 2
# (a name with a command in it, as in \bibliography{\jobname}, is known to the .aux file alone)
BIBSTYLE = re.compile(rb"(?m)\\bib(?:liography)?style\{([^}\\\r\n]*)\}")
BIBDATA = re.compile(rb"(?m)\\bib(?:data|liography)\{([^}\\\r\n]*)\}")


def path_of(uri: str) -> str:
    """The path of a file's URI; of another scheme the URI itself, where no file is."""
    if not uri.startswith("file://"):
        return uri
    return os.fsdecode(urllib.parse.unquote_to_bytes(urllib.parse.urlsplit(uri).path))


def uri_of(path: str) -> str:
    return "file://" + urllib.parse.quote(os.fsencode(os.path.abspath(path)))


def in_utf8(content: bytes) -> bytes:
    """The bytes of a file, in UTF-8: what is none of it is a sign of its own."""
    try:
        content.decode("utf8")
    except UnicodeDecodeError:
        return content.decode("utf8", "replace").encode("utf8")
    return content


class Workspace:
    """The open texts by their URI, and what is known of files; what was read of a text is kept until the text changes."""

    def __init__(self) -> None:
        self.open: Dict[str, Document] = {}
        self.files: Dict[str, Tuple[Tuple[int, int], Document]] = {}
        self.known: Dict[str, Dict[str, Tuple[bytes, Any]]] = {}
        self.pieces_of: Dict[str, Pieces] = {}
        self.outlines: Dict[str, Outline] = {}
        self.cited: Dict[str, Citations] = {}
        self.search: Optional[Search] = None

    def document(self, path: str) -> Optional[Document]:
        """The text of a file: as it is in the editor, or else as it is on disk. One that is too long isn't read."""
        uri = uri_of(path)
        if uri in self.open:
            return self.open[uri] if len(self.open[uri].text) <= MOST_BYTES else None
        try:
            state = os.stat(path)
            if not stat.S_ISREG(state.st_mode):
                return None
            stamp = (state.st_mtime_ns, state.st_size)
            if uri not in self.files or self.files[uri][0] != stamp:
                self.files[uri] = stamp, Document(uri, in_utf8(content_of(os.fsencode(path), MOST_BYTES)))
        except (OSError, ValueError):
            return None
        return self.files[uri][1]

    def beside(self, document: Document, *endings: str) -> Iterator[Document]:
        """The files in the folder of a text that end so, the text itself first."""
        if document.uri.endswith(endings):
            yield document
        yield from (it for it in self.in_folder(os.path.dirname(path_of(document.uri)), *endings) if it.uri != document.uri)

    def in_folder(self, folder: str, *endings: str) -> Iterator[Document]:
        """The files of a folder that end so, with those that are open and not on disk."""
        try:
            names = sorted(name for name in os.listdir(folder) if name.endswith(endings))
        except (OSError, ValueError):
            names = []
        opened = [uri for uri in self.open if uri.endswith(endings) and os.path.dirname(path_of(uri)) == folder]
        paths = dict.fromkeys([os.path.join(folder, name) for name in names[:MOST_FILES]] + [path_of(uri) for uri in opened])
        for path in paths:
            found = self.document(path)
            if found is not None:
                yield found

    def of_document(self, document: Document, *endings: str) -> List[Document]:
        """The files in the folder of a text that end so, and all texts that are read from there. The folder is the text's own, and one above where a `.tex` file there reads the text."""
        folder = os.path.dirname(path_of(document.uri))
        files = [*self.beside(document, *endings), *self.read_from(folder)]
        above = self.folder_that_reads(document)
        if above is not None:
            files += [*self.in_folder(above, *endings), *self.read_from(above)]
        return list({it.uri: it for it in files}.values())

    def folder_that_reads(self, document: Document) -> Optional[str]:
        """The folder above a text where a `.tex` file reads it."""
        folder = os.path.dirname(path_of(document.uri))
        for _ in range(MOST_ABOVE if document.uri.endswith(".tex") else 0):
            folder = os.path.dirname(folder)
            if any(it.uri == document.uri for it in self.read_from(folder)):
                return folder
        return None

    def read_from(self, folder: str) -> List[Document]:
        """The `.tex` files of a folder, and the texts that they read when TeX is called there, and those that these read."""
        return list(self.read_by(list(self.in_folder(folder, ".tex")), folder))

    def read_by(self, tops: List[Document], folder: str) -> Iterator[Document]:
        """These texts, those that they read when TeX is called in a folder, and those that these read."""
        yield from tops
        waiting, seen = list(tops), {it.uri for it in tops}
        while waiting and len(seen) < MOST_FILES:
            names = self.made("files read", waiting.pop(0), lambda text: files_read(read_by_tex(text)))
            for other in filter(None, (self.document(os.path.join(folder, name)) for name in names)):
                if other.uri not in seen:
                    seen.add(other.uri)
                    waiting.append(other)
                    yield other

    def made(self, what: str, document: Document, make: "Callable[[bytes], Any]") -> Any:
        """What is made of a text. It is kept until the text changes."""
        kept = self.known.setdefault(document.uri, {}).get(what)
        if kept is None or kept[0] is not document.text:
            kept = self.known[document.uri][what] = document.text, make(document.text)
        return kept[1]

    def base(self, document: Document) -> Database:
        """A database that is read as a whole."""
        return self.made("database", document, read)  # type: ignore[no-any-return]

    def outline(self, document: Document) -> Outline:
        """The items of a database: after an edit those are read that it has touched."""
        known = self.outlines.get(document.uri)
        if known is None or known.text is not document.text:
            known = self.outlines[document.uri] = self.outline_of_doctor(document) or outline_of(document.text, known)
        return known

    def citations(self, document: Document) -> Citations:
        """The citations of a text: after an edit those parts are looked through that it has touched."""
        known = self.cited.get(document.uri)
        if known is None or known.text is not document.text:
            known = self.cited[document.uri] = Citations(document.text, document.uri.endswith(".aux"), known)
        return known

    def outline_of_doctor(self, document: Document) -> Optional[Outline]:
        """What the doctor reads of an open text, where no entry is repeated."""
        if document.uri not in self.open:
            return None
        pieces = self.read_pieces(document)[0].pieces
        return None if any(piece.has_repeated for piece in pieces) else Outline(document.text, pieces)

    def read_pieces(self, document: Document, most: Optional[int] = None) -> "Tuple[Examination, Optional[StyleInUse]]":
        """Reads a database, piece by piece, so that it can be examined with the style in use. What was found in a piece is kept until the text is closed. most: how many findings are wanted
        at most."""
        used = self.style_in_use(document)
        pieces = self.pieces_of.setdefault(document.uri, Pieces())
        return pieces.read(Source(document.uri, document.text), None if used is None else used[1], most), used

    def style(self, document: Document) -> StyleText:
        return self.made("style", document, read_style)  # type: ignore[no-any-return]

    def style_read(self, document: Document) -> Style:
        """What a style reads."""
        return self.made("style read", document, lambda text: Style(text, self.style(document)))  # type: ignore[no-any-return]

    def argument(self, document: Document, command: "re.Pattern[bytes]") -> Optional[bytes]:
        """The argument of the first of these commands in a text."""
        found = self.made(repr(command.pattern), document, command.search)
        return None if found is None else found[1]

    def style_in_use(self, document: Document) -> "Optional[StyleInUse]":
        """The style that an `.aux` or a `.tex` file beside a text names, if there is one."""
        for beside in self.beside(document, ".aux", ".tex"):
            named = self.argument(beside, BIBSTYLE)
            found = None if named is None else self.named(document, os.fsdecode(named) + ".bst")
            if found is not None:
                return found, self.style_read(found), self.style(found)
        return None

    def named(self, document: Document, name: str) -> Optional[Document]:
        """The file of this name: beside a text, or where TeX finds it."""
        if "\0" in name:
            return None
        found = self.document(os.path.join(os.path.dirname(path_of(document.uri)), name))
        if found is not None:
            return found
        if self.search is None:
            self.search = found_search()
        path = self.search.path_of(os.fsencode(name))
        return None if path is None else self.document(os.fsdecode(path))

    def databases(self, document: Document) -> List[Document]:
        """The databases that a document cites from: those that it names, or its `.aux` file, or the document that reads it, or else an `.aux` file in its folder."""
        for other in self.that_name_databases(document):
            named = self.argument(other, BIBDATA)
            if named is not None:
                names = [os.fsdecode(name.strip()) for name in named.split(b",")]
                return [it for it in (self.named_in(document, other, name if name.endswith(".bib") else name + ".bib") for name in names) if it is not None]
        return []

    def that_name_databases(self, document: Document) -> Iterator[Document]:
        """The texts that may name a document's databases: the nearest ones first."""
        for other in (document, self.aux_of(document)):
            if other is not None:
                yield other
        for main in self.mains(document):
            yield main
            aux = self.aux_of(main)
            if aux is not None:
                yield aux
            yield from self.read_by([main], os.path.dirname(path_of(main.uri)))
        yield from self.beside(document, ".aux")

    def aux_of(self, document: Document) -> Optional[Document]:
        return self.document(os.path.splitext(path_of(document.uri))[0] + ".aux")

    def mains(self, document: Document) -> Iterator[Document]:
        """The documents that read a `.tex` file: in its own folder or above it."""
        folder = os.path.dirname(path_of(document.uri))
        for _ in range(1 + MOST_ABOVE if document.uri.endswith(".tex") else 0):
            tops = [it for it in self.in_folder(folder, ".tex") if it.uri != document.uri]
            yield from (top for top in tops if any(it.uri == document.uri for it in self.read_by([top], folder)))
            folder = os.path.dirname(folder)

    def named_in(self, document: Document, other: Document, name: str) -> Optional[Document]:
        """The file that another text names for a document: beside that text, where TeX is called, or as `named` finds it."""
        beside = None if other is document or "\0" in name else self.document(os.path.join(os.path.dirname(path_of(other.uri)), name))
        if beside is not None:
            return beside
        found = self.named(document, name)
        # (a chapter may name a database itself, which is beside the document that reads it)
        mains = self.mains(document) if found is None and other is document and "\0" not in name else ()
        return found or next(filter(None, (self.document(os.path.join(os.path.dirname(path_of(main.uri)), name)) for main in mains)), None)

    def forget(self, uri: str) -> None:
        self.open.pop(uri, None)
        self.known.pop(uri, None)
        self.outlines.pop(uri, None)
        self.cited.pop(uri, None)
        self.pieces_of.pop(uri, None)
