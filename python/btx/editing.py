"""What a language server answers about a place of a text: what is there, where it is defined and used, what may be written, and how it is renamed."""

from __future__ import annotations

import re
from typing import Any, Dict, FrozenSet, Iterator, List, NamedTuple, Optional, Tuple

from .bibtext import Item
from .bsttext import COMMANDS, LIST_WORD, Word
from .builtins import BUILT_IN, described
from .diagnosing import types_of
from .doctor import JOURNALS, MONTHS
from .documents import Document
from .outline import Placed
from .standard import FIELDS, TYPES
from .tex_text import is_read, read_by_tex
from .workspace import MOST_BYTES, Workspace

__all__ = ["Named", "Place", "RenameRefused", "completions", "definition", "hover", "name_at", "references", "rename", "symbols"]

WORD = re.compile(rb"[^\s{}%\"']+")
IN_CITE = re.compile(rb"\\[A-Za-z]{0,40}[cC]ite[A-Za-z]{0,40}\*?(?:\[[^\]\r\n]{0,1000}\]){0,2}\{[^{}]*$")
AFTER_AT = re.compile(rb"@[A-Za-z]*$")
AFTER_CROSSREF = re.compile(rb"(?i)crossref\s*=\s*[{\"][^{}\"]*$")
AFTER_EQUALS = re.compile(rb"[=#]\s*[^\s{}\"#,=]*$")
PREDEFINED = {"crossref": "field", "sort.key$": "string of entries", "entry.max$": "integer", "global.max$": "integer"}
# What the protocol calls kinds of symbols and of completions.
FUNCTION, FIELD, STRING, VARIABLE, KEY, KEYWORD = 12, 8, 15, 13, 20, 14
COMPLETIONS = {"function": 3, "field": 5, "type": 7, "variable": 6, "key": 18, "string": 21, "command": 14}


class RenameRefused(Exception):
    """A name can't be changed so."""


class Place(NamedTuple):
    """Bytes of a text."""

    document: Document
    start: int
    end: int


class Named(NamedTuple):
    """A name in a text. kind: function (also a field or a variable of a style), macro, string or key. name: in lower case."""

    kind: str
    name: str
    place: Place


def shown(text: bytes) -> str:
    return text.decode("utf8", "replace")


def is_too_long(document: Document) -> bool:
    """Whether a text is so long that nothing is asked of it while you type."""
    return len(document.text) > MOST_BYTES


# ---- the names of a text ----


def names_of(document: Document, workspace: Workspace) -> Iterator[Tuple[Named, bool]]:
    """The names of a text, and whether each is a definition."""
    if document.uri.endswith(".bst"):
        style = workspace.style(document)
        for word in (*style.definitions, *style.uses):
            kind = "macro" if word.kind == "string" else "function"
            yield Named(kind, word.name, Place(document, word.start, word.end)), bool(word.kind)
    elif document.uri.endswith(".bib"):
        for placed in workspace.outline(document).items():
            yield from names_of_item(document, placed)
    else:
        for start, end in workspace.citations(document).all():
            yield Named("key", shown(document.text[start:end].lower()), Place(document, start, end)), False


def names_of_item(document: Document, placed: Placed) -> Iterator[Tuple[Named, bool]]:
    """The key of an item, the strings that it uses and the key that its crossref names."""
    item, database, shift = placed
    text = database.text

    def named(kind: str, start: int, end: int) -> Named:
        return Named(kind, shown(text[start:end].lower()), Place(document, start + shift, end + shift))

    if item.key:
        yield named("key" if item.is_entry else "string", item.key_end - len(item.key), item.key_end), True
    for field in item.fields:
        for part in database.names(field):
            yield named("string", part.start, part.end), False
        if field.name == b"crossref" and database.is_text(field):
            begin = database.start(field) + 1
            raw = text[begin : field.end - 1]
            start = begin + len(raw) - len(raw.lstrip())
            yield named("key", start, start + len(raw.strip())), False


def name_at(document: Document, workspace: Workspace, place: int) -> Optional[Named]:
    """The name at a place of a text, or directly before it."""
    if is_too_long(document):
        return None
    found = [named for named in names_near(document, workspace, place) if named.place.start <= place <= named.place.end]
    return min(found, key=lambda named: named.place.end == place) if found else None


def names_near(document: Document, workspace: Workspace, place: int) -> Iterator[Named]:
    """Some names of a text, among them all at this place."""
    if document.uri.endswith(".bst"):
        style = workspace.style(document)
        for word in (*style.definitions, *style.uses):
            if word.start <= place <= word.end:
                yield Named("macro" if word.kind == "string" else "function", word.name, Place(document, word.start, word.end))
    elif document.uri.endswith(".bib"):
        for placed in workspace.outline(document).items_at(place):
            yield from (named for named, _ in names_of_item(document, placed))
    else:
        for start, end in workspace.citations(document).near(place):
            if start <= place <= end:
                yield Named("key", shown(document.text[start:end].lower()), Place(document, start, end))


def uses(named: Named, workspace: Workspace) -> Iterator[Tuple[Place, bool]]:
    """All places of a name, and whether each is its definition: in its text, of a key and a string also in the files beside it, and of a key in all files that the document reads."""
    for file in files_of(named, workspace):
        for other, is_definition in names_of(file, workspace):
            if (other.kind, other.name) == (named.kind, named.name):
                yield other.place, is_definition


def files_of(named: Named, workspace: Workspace) -> List[Document]:
    """The files that may have a name."""
    endings = {"key": (".bib", ".tex", ".aux"), "string": (".bib",), "macro": (".bst",), "function": (".bst",)}[named.kind]
    document = named.place.document
    if document.uri.endswith(".bst"):
        return [document]
    return workspace.of_document(document, *endings) if named.kind == "key" else list(workspace.beside(document, *endings))


def definitions_in(document: Document, named: Named, workspace: Workspace) -> Iterator[Place]:
    """The places of a text where a name is defined."""
    if document.uri.endswith(".bst"):
        for word in workspace.style(document).definitions:
            if word.name == named.name and (word.kind == "string") == (named.kind == "macro"):
                yield Place(document, word.start, word.end)
    elif document.uri.endswith(".bib"):
        for placed in items_named(document, named, workspace):
            end = placed.item.key_end + placed.shift
            yield Place(document, end - len(placed.item.key or b""), end)


def items_named(document: Document, named: Named, workspace: Workspace) -> Iterator[Placed]:
    """The items of a database that define a name."""
    outline, name = workspace.outline(document), named.name.encode("utf8", "surrogatepass")
    if named.kind == "key":
        yield from outline.entries(name)
    elif named.kind == "string":
        yield from (it for it in outline.string_items() if (it.item.key or b"").lower() == name)


def definition(named: Named, workspace: Workspace) -> List[Place]:
    found = [place for file in files_of(named, workspace) for place in definitions_in(file, named, workspace)]
    if not found and named.kind == "string":
        used = workspace.style_in_use(named.place.document)
        if used is not None:
            found = [Place(used[0], word.start, word.end) for word in used[2].definitions if (word.kind, word.name) == ("string", named.name)]
    if not found and named.kind == "key":
        found = [place for base in workspace.databases(named.place.document) for place in definitions_in(base, named, workspace)]
    return found


def references(named: Named, workspace: Workspace, with_definition: bool) -> List[Place]:
    return [place for place, is_definition in uses(named, workspace) if with_definition or not is_definition]


def rename(named: Named, workspace: Workspace, new: str) -> List[Place]:
    """The places at which the new name is to be written. What LaTeX writes isn't changed."""
    if named.kind == "function" and (named.name in BUILT_IN or named.name in PREDEFINED):
        raise RenameRefused(f"{named.name} is BibTeX's own")
    wanted = new.encode("utf8", "surrogatepass")
    is_key = named.kind == "key"
    if is_key and (not wanted or re.search(rb"[,\s{}\"#%~\\]", wanted)):
        raise RenameRefused(f"{new} can't be a key")
    if is_key and new == "*":
        raise RenameRefused("* can't be a key: a citation of it cites all entries")
    if not is_key and (LIST_WORD.fullmatch(wanted) is None or wanted[:1].isdigit()):
        raise RenameRefused(f"{new} can't be a name: it has no whitespace and none of \" # % ' ( ) , = {{ }}, and doesn't begin with a digit")
    same = Named(named.kind, new.lower(), named.place)
    if new.lower() != named.name and (any(True for _ in uses(same, workspace)) or (named.kind == "function" and (new.lower() in BUILT_IN or new.lower() in PREDEFINED))):
        raise RenameRefused(f"{new} is a name already")
    if named.kind == "string" and new.lower() != named.name and wanted.lower() in strings_of_style(named.place.document, workspace):
        raise RenameRefused(f"{new} is a string of the style or of TeX's standard styles already")
    found = list(uses(named, workspace))
    if not any(is_definition for _, is_definition in found):
        raise RenameRefused(f"{named.name} isn't defined here")
    return [place for place, _ in found if is_renamed(place, workspace)]


def is_renamed(place: Place, workspace: Workspace) -> bool:
    """Whether a name is changed at a place: neither in what LaTeX writes, nor in what it passes over or prints as it stands."""
    document = place.document
    if not document.uri.endswith(".tex"):
        return not document.uri.endswith(".aux")
    return is_read(document.text, place.start, workspace.made("read by TeX", document, read_by_tex))


def strings_of_style(document: Document, workspace: Workspace) -> FrozenSet[bytes]:
    """The strings of the style in use, and those of TeX's standard styles."""
    used = workspace.style_in_use(document)
    return frozenset((*MONTHS, *JOURNALS, *(() if used is None else used[1].strings)))


# ---- what is there ----


def hover(document: Document, workspace: Workspace, place: int) -> Optional[Tuple[str, int, int]]:
    """What is said of the word at a place, in Markdown, and where the word is."""
    named = name_at(document, workspace, place)
    if named is None:
        return None
    said = hover_of_style(document, workspace, named) if document.uri.endswith(".bst") else hover_of_entry(workspace, named)
    return None if said is None else (said, named.place.start, named.place.end)


def hover_of_style(document: Document, workspace: Workspace, named: Named) -> Optional[str]:
    if named.kind == "function" and named.name in BUILT_IN:
        return described(named.name)
    style = workspace.style(document)
    kinds = {word.name: word.kind for word in style.definitions if (word.kind == "string") == (named.kind == "macro")}
    kind = kinds.get(named.name) or PREDEFINED.get(named.name)
    if named.kind == "macro" and named.name in style.values:
        return f"string `{named.name}` = {shown(document.text[slice(*style.values[named.name])])}"
    return None if kind is None else f"{kind} `{named.name}`"


def hover_of_entry(workspace: Workspace, named: Named) -> Optional[str]:
    """What is said of a string or an entry."""
    if named.kind == "string":
        own = workspace.outline(named.place.document).strings.get(named.name.encode("utf8", "surrogatepass"))
        used = workspace.style_in_use(named.place.document) if own is None else None
        value = own if used is None else used[1].strings.get(named.name.encode("utf8", "surrogatepass"))
        return None if value is None else f"string `{named.name}` = {shown(value)}"
    for place in definition(named, workspace):
        for item, _, shift in workspace.outline(place.document).items_at(place.start):
            if item.is_entry and item.key_end + shift == place.end:
                values = {field.name: field.value for field in reversed(item.fields)}
                rows = [f"{name}: {shown(values[name.encode()].strip())}" for name in ("author", "editor", "title", "year") if name.encode() in values]
                return "\n\n".join([f"**@{shown(item.kind)}** `{shown(item.key or b'')}`", *rows])
    return None


def symbols(document: Document, workspace: Workspace) -> Iterator[Tuple[str, str, int, Place, Place]]:
    """The parts of a text: name, detail, kind, the whole and the name's place. Of a text that is too long there are none."""
    if is_too_long(document):
        return
    if document.uri.endswith(".bst"):
        for command in workspace.style(document).commands:
            name = command.name or Word(command.word, command.start, command.start + len(command.word))
            shown_name = f"{command.word} {name.name}" if command.word not in ("FUNCTION", name.name) else name.name
            kind = {"FUNCTION": FUNCTION, "MACRO": STRING}.get(command.word, KEYWORD if command.name else VARIABLE)
            yield shown_name, command.word, kind, Place(document, command.start, command.end), Place(document, name.start, name.end)
    elif document.uri.endswith(".bib"):
        for item, _, shift in workspace.outline(document).items():
            if item.key:
                key_end = item.key_end + shift
                whole = Place(document, item.start + shift, max(item.end + shift, key_end))
                yield shown(item.key), shown(item.kind), KEY if item.is_entry else STRING, whole, Place(document, key_end - len(item.key), key_end)


# ---- what may be written ----


def completions(document: Document, workspace: Workspace, place: int) -> List[Dict[str, Any]]:
    """What may be written at a place."""
    if is_too_long(document):
        return []
    text = document.text
    before = text[max(text.rfind(b"\n", 0, place) + 1, place - 2000) : place]
    if document.uri.endswith(".bst"):
        kinds = {word.name: word.kind for word in workspace.style(document).definitions if word.kind != "string"}
        rows = [(name, "function", BUILT_IN[name].gives) for name in BUILT_IN]
        rows += [(name, kind if kind in ("function", "field") else "variable", kind) for name, kind in kinds.items()]
        return rows_of([*rows, *((word, "command", "command") for word in COMMANDS)])
    if document.uri.endswith(".bib"):
        return rows_of(completions_of_database(document, workspace, before))
    if IN_CITE.search(before) is None:
        return []
    return rows_of([row for base in workspace.databases(document) or workspace.beside(document, ".bib") for row in keys_of(base, workspace)])


def completions_of_database(document: Document, workspace: Workspace, before: bytes) -> List[Tuple[str, str, str]]:
    used = workspace.style_in_use(document)
    if AFTER_AT.search(before):
        types = TYPES if used is None else types_of(used[2].named("function"), used[2].uses)
        return [(name, "type", "type") for name in [*types, "string", "preamble", "comment"]]
    if AFTER_CROSSREF.search(before):
        return keys_of(document, workspace)
    if AFTER_EQUALS.search(before):
        known = [*workspace.outline(document).strings, *(used[1].strings if used is not None else (*MONTHS, *JOURNALS))]
        return [(shown(name), "string", "string") for name in known]
    if b"{" in before.rpartition(b",")[2]:
        return []
    return [(name, "field", "field") for name in (FIELDS if used is None else sorted(map(shown, used[1].fields)))]


def keys_of(document: Document, workspace: Workspace) -> List[Tuple[str, str, str]]:
    return [(shown(item.key), "key", title_of(item)) for item, _, _ in workspace.outline(document).items() if item.is_entry and item.key]


def title_of(item: Item) -> str:
    return shown((item.value_of(b"title") or b"")[:80])


def rows_of(rows: List[Tuple[str, str, str]]) -> List[Dict[str, Any]]:
    """The rows as the protocol has them, each name once."""
    once = {name: (kind, detail) for name, kind, detail in reversed(rows)}
    return [{"label": name, "kind": COMPLETIONS.get(kind, 1), "detail": detail} for name, (kind, detail) in sorted(once.items())]
