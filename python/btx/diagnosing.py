"""The diagnostics of a language server: what the checks of styles, databases and documents say, with places, and the mendings that they suggest."""

from __future__ import annotations

import bisect
import itertools
import os
import re
import unicodedata
from functools import lru_cache, partial
from typing import Callable, Dict, Iterator, List, NamedTuple, Optional, Set, Tuple

from .bibtext import REPEATED
from .bsttext import COMMANDS, StyleText, Word, uses_between
from .builtins import BUILT_IN
from .checking import Fault, StyleWarning, warnings_of
from .doctor import JOURNALS, MONTHS, Finding, without_unread
from .documents import Document
from .jobs import run
from .mending import Mending, mend
from .messages import Kind, Message
from .options import Options
from .pieces import Examination
from .spelling import nearest
from .standard import TYPES
from .tex_text import is_read, read_by_tex
from .workspace import MOST_BYTES, StyleInUse, Workspace, path_of

__all__ = ["Diagnosis", "Diagnostic", "Mending", "diagnose", "types_of"]

ERROR, WARNING, INFO, HINT = 1, 2, 3, 4
SEVERITIES = {"error": ERROR, "warning": WARNING, "info": INFO}
FAULTS = {
    Fault.EMPTY_STACK: "may take from an empty stack",
    Fault.WRONG_KIND: "may get an operand of a wrong kind",
    Fault.INCOMPARABLE: "may be unable to compare its operands",
    Fault.NOT_ASSIGNABLE: "may assign to no variable",
    Fault.NO_ENTRY: "has no entry here",
    Fault.LEFT_OVER: "may leave literals on the stack",
}
# How many diagnostics of a text are shown at most.
MOST_SHOWN = 1000
# How many bytes of a database are examined at most, and of a style are checked, before its mistakes are shown.
MOST_AT_ONCE, MOST_OF_STYLE = 200_000, 60_000
# Of how many texts of styles what the library says of them is kept.
MOST_STYLES = 8
# How many warnings of a style are looked for one by one.
MOST_LOOKED_FOR = 20
UNKNOWN = re.compile(r"(.*) (?:is an unknown function|isn't a command)", re.DOTALL)
# What holds no brace of a style's text: comments and literals; a part of its text, or a comment.
NO_BRACES = re.compile(rb"%[^\n]*|\"[^\"\n]*\"?")
STYLE_TEXT = re.compile(rb"\"[^\"\n]*\"?|[^ \t\r\n%\"]+|(%)[^\n]*")


class Diagnostic(NamedTuple):
    """What is said of the bytes from `start` to `end` of a text. code: the name of the check. mend: finds the edit that it suggests, which may take a while."""

    start: int
    end: int
    severity: int
    code: str
    text: str
    mend: Callable[[], Optional[Mending]] = lambda: None


class Diagnosis:
    """What is said of a text. Where its examination takes long, the mistakes are said first, and the doubts when it is done.

    said: what is said so far. examination: of a database, as long as it isn't done. is_checked: of a style, whether its check is done."""

    def __init__(self, document: Document, workspace: Workspace) -> None:
        self.document = document
        self.workspace = workspace
        self.examination: Optional[Examination] = None
        self.used: Optional[StyleInUse] = None
        self.is_checked = True
        self.said: List[Diagnostic] = []
        ending = os.path.splitext(path_of(document.uri))[1].lower()
        if ending not in (".bib", *BY_ENDING):
            return
        if len(document.text) > MOST_BYTES:
            self.said = of_long_text()
        elif ending == ".bib":
            self.read_database()
        elif ending == ".bst" and len(document.text) > MOST_OF_STYLE:
            self.said, self.is_checked = first_of(style_mistakes(document, workspace)), False
        else:
            self.said = first_of(BY_ENDING[ending](document, workspace))

    @property
    def is_whole(self) -> bool:
        """Whether all is said."""
        return self.examination is None and self.is_checked

    def read_database(self) -> None:
        """Reads a database, and examines it where that doesn't take long."""
        self.examination, self.used = self.workspace.read_pieces(self.document, MOST_SHOWN + 1)
        if self.examination.bytes_left() > MOST_AT_ONCE:
            self.said = self.of_findings(self.examination.known_findings())
        else:
            self.finish()

    def go_on(self) -> None:
        """Examines some more of the text."""
        if not self.is_checked:
            self.said, self.is_checked = first_of(of_style(self.document, self.workspace)), True
        if self.examination is None:
            return
        self.examination.go_on()
        if self.examination.is_done:
            self.said, self.examination = self.of_findings(self.examination.findings()), None

    def finish(self) -> None:
        """Examines all of the text."""
        while not self.is_whole:
            self.go_on()

    def of_findings(self, findings: List[Finding]) -> List[Diagnostic]:
        return first_of(of_finding(it, self.document, self.workspace, self.used) for it in without_unread(findings))


def diagnose(document: Document, workspace: Workspace) -> List[Diagnostic]:
    """All that is said of a text."""
    diagnosis = Diagnosis(document, workspace)
    diagnosis.finish()
    return diagnosis.said


def of_long_text() -> List[Diagnostic]:
    said = f"this text has more than {MOST_BYTES:,} bytes, and isn't checked while you type: python3 -m btx doctor examines databases of any length"
    return [Diagnostic(0, 0, INFO, "too-long", said)]


def first_of(diagnostics: Iterator[Diagnostic]) -> List[Diagnostic]:
    """As many as are shown."""
    found = list(itertools.islice(diagnostics, MOST_SHOWN + 1))
    if len(found) > MOST_SHOWN:
        found[MOST_SHOWN:] = [Diagnostic(0, 0, INFO, "more", f"only the first {MOST_SHOWN:,} diagnostics are shown")]
    return found


# ---- styles ----


def of_style(document: Document, workspace: Workspace) -> Iterator[Diagnostic]:
    """The mistakes of a style's text, and what the check says of it."""
    yield from style_mistakes(document, workspace)
    yield from style_warnings(document, workspace)


def style_mistakes(document: Document, workspace: Workspace) -> Iterator[Diagnostic]:
    """The mistakes of a style's text, as a run logs them."""
    for message in logged_of_style(document.text):
        if message.kind is Kind.ERROR and message.file == "s.bst" and message.line is not None:
            yield style_mistake(document, workspace, message)


def style_warnings(document: Document, workspace: Workspace) -> Iterator[Diagnostic]:
    """What the check says of a style."""
    warnings = checked_warnings(document.text)
    warnings = [it for it in warnings if it.is_first] or warnings
    # (the whole style is read only where it takes less than to look for each warning)
    uses = workspace.style(document).uses if len(warnings) > MOST_LOOKED_FOR else None
    starts = None if uses is None else [word.start for word in uses]
    for warning in warnings:
        start, end = document.line_range(max(warning.line, 1))
        if uses is None or starts is None:
            words = uses_between(document.text, start, end)
        else:
            words = uses[bisect.bisect_left(starts, start) : bisect.bisect_left(starts, end)]
        start, end = place_of_warning(warning, words) or (start, end)
        types = ", ".join(name or "a type that the style doesn't know" for name in warning.types)
        field = f"; the field {warning.missing} may be missing" if warning.missing else ""
        said = f"{warning.next} {FAULTS.get(warning.fault, 'may fail') if warning.fault else 'may fail'}{field}" + (f" ({types})" if types else "")
        yield Diagnostic(start, end, WARNING, "check", said)


def style_mistake(document: Document, workspace: Workspace, message: Message) -> Diagnostic:
    """A mistake of a style's text, on the word that it names or else on its line."""
    start, end = document.line_range(message.line or 1)
    line = document.text[start:end]
    start += len(line) - len(line.lstrip())
    found = UNKNOWN.fullmatch(message.text)
    if found is None:
        return Diagnostic(start, end, ERROR, "mistake", message.text, partial(closing_of, document, workspace, message.text, end))
    word = found[1].encode("utf8", "surrogateescape")
    place = re.compile(rb"(?<![^\s{}'])" + re.escape(word) + rb"(?![^\s}%{])", re.IGNORECASE).search(document.text, start, end)
    if place is None:
        return Diagnostic(start, end, ERROR, "mistake", message.text)
    is_command = message.text.endswith("command")
    return Diagnostic(*place.span(), ERROR, "mistake", message.text, partial(known_word, document, workspace, found[1], place.span(), is_command))


def known_word(document: Document, workspace: Workspace, word: str, place: Tuple[int, int], is_command: bool) -> Optional[Mending]:
    """The command or the function that is spelled most like a word. A word that is one itself is unknown only since a brace is missing above it."""
    style = workspace.style(document)
    names = COMMANDS if is_command else [*BUILT_IN, *(it.name for it in style.definitions if it.kind != "string")]
    if word.upper() in COMMANDS or word.lower() in names:
        return closing(document, style, "", place[0])
    near = nearest(word, [name.lower() for name in names])
    return written(place, near.upper() if near and is_command else near)


def closing_of(document: Document, workspace: Workspace, text: str, place: int) -> Optional[Mending]:
    """The brace that is missing; the style is read only where somebody asks."""
    return closing(document, workspace.style(document), text, place)


def closing(document: Document, style: StyleText, text: str, place: int) -> Optional[Mending]:
    """The brace that is missing, as a mending: where the command ends that isn't closed, or at the end, or at this place. It is suggested only where the style then has fewer mistakes."""
    found = re.fullmatch(r"I was expecting a ([{}])", text)
    guesses = [*unclosed(document.text, style, place)]
    if text.startswith("Illegal end of"):
        guesses.append(Mending("Add the brace at the end", len(document.text), len(document.text), "}\n"))
    if found is not None:
        guesses.append(Mending(f"Add the {found[1]}", place, place, found[1]))
    before = mistakes_of_style(document.text) if guesses else 0
    return next((guess for guess in guesses if mistakes_of_style(applied(document.text, guess)) < before), None)


def unclosed(text: bytes, style: StyleText, place: int) -> Iterator[Mending]:
    """The braces that are missing in the last command before a place that isn't closed, where it ends."""
    for command in reversed([it for it in style.commands if it.start < place]):
        bare = NO_BRACES.sub(b"", text[command.start : command.end])
        missing = bare.count(b"{") - bare.count(b"}")
        if missing > 0:
            name = command.word if command.name is None else f"{command.word} {{{command.name.name}}}"
            end = end_of_text(text, command.start, command.end)
            yield Mending(f"Close {name}", end, end, ("\n" if b"\n" in text[command.start : end] else " ") + "}" * missing)
            return


def end_of_text(text: bytes, start: int, end: int) -> int:
    """Where a command's text ends, without the whitespace and the comments after it."""
    last = start
    for found in STYLE_TEXT.finditer(text, start, end):
        last = last if found[1] else found.end()
    return last


def applied(text: bytes, mending: Mending) -> bytes:
    return text[: mending.start] + mending.text.encode("utf8", "surrogateescape") + text[mending.end :]


@lru_cache(maxsize=MOST_STYLES)
def mistakes_of_style(text: bytes) -> int:
    """How many mistakes a run logs of a style's text."""
    return sum(1 for message in logged_of_style(text) if message.kind is Kind.ERROR and message.file == "s.bst")


@lru_cache(maxsize=MOST_STYLES)
def checked_warnings(text: bytes) -> List[StyleWarning]:
    """The warnings of a style's check, which takes most of the time of a style's diagnosis: a text that was checked lately isn't checked again."""
    return warnings_of(text)


@lru_cache(maxsize=MOST_STYLES)
def logged_of_style(text: bytes) -> List[Message]:
    """What a run of no entries logs."""
    files = {"j.aux": b"\\citation{*}\n\\bibdata{d}\n\\bibstyle{s}\n", "s.bst": text, "d.bib": b""}
    return run("j", files, Options(budget=0)).messages


def place_of_warning(warning: StyleWarning, words: List[Word]) -> Optional[Tuple[int, int]]:
    """The token of a warning, of the words that are used on its line."""
    for spot in warning.places[:1]:
        words = [word for word in words if word.token == spot.token]
    words = [word for word in words if word.name == warning.next.lower()] or words
    return (words[0].start, words[0].end) if words else None


# ---- databases ----


def of_finding(finding: Finding, document: Document, workspace: Workspace, used: Optional[StyleInUse]) -> Diagnostic:
    """What is said of a finding of the doctor, with the style in use."""
    severity = HINT if finding.check == "unread-field" else SEVERITIES[finding.severity]
    return Diagnostic(finding.start, finding.end, severity, finding.check, finding.text, partial(mending_of, document, workspace, finding, used))


def mending_of(document: Document, workspace: Workspace, finding: Finding, used: Optional[StyleInUse]) -> Optional[Mending]:
    """The edit that a finding suggests."""
    word, place = shown(document.text[finding.start : finding.end]), (finding.start, finding.end)
    if finding.check == "undefined-string":
        return written(place, nearest(word, strings_before(document, workspace, finding.start, used)))
    if finding.check == "misspelt-field":
        return written(place, re.findall("is it `(.*?)`", finding.text)[-1])
    if finding.check == "unread-field" and used is not None:
        had = {field.name for item in workspace.base(document).items if item.start < finding.start < item.end for field in item.fields}
        return written(place, nearest(word, map(shown, used[1].fields - had)))
    if finding.check == "unknown-type" and used is not None:
        kind = word.lstrip("@ \t\r\n")
        return written((finding.end - len(kind.encode("utf8", "surrogateescape")), finding.end), nearest(kind, known_types(used[2])))
    if finding.check == "one-hyphen":
        return written(place, re.sub(r"(?<=[0-9])\s*[-\u2010-\u2014\u2212]\s*(?=[0-9])", "--", word))
    if finding.check in ("bare-organization", "lowered-tex"):
        return written(place, f"{{{word}}}")
    if finding.check == "suffix-last":
        return written(place, re.findall("`(.*?)`", finding.text)[0])
    if finding.check == "combining-accent":
        whole = unicodedata.normalize("NFC", word)
        return written(place, whole if len(whole) == 1 else re.findall("`(.*?)`", finding.text)[-1])
    if finding.check == "no-at-sign":
        return written(place, f"@{word}")
    if finding.check == "month-text":
        month = word.strip('{}" \t\r\n')[:3].lower()
        return written(place, month if month in strings_before(document, workspace, finding.start, used) else None)
    if finding.check != "mistake" or finding.text == REPEATED:
        return None
    return mending_of_mistake(document, workspace, finding.start)


def strings_before(document: Document, workspace: Workspace, place: int, used: Optional[StyleInUse]) -> Set[str]:
    """The names of the strings that are defined before a place: those of the database, and those of the style in use or else of TeX's standard styles."""
    items = workspace.base(document).items
    own = {item.key for item in items if item.kind == b"string" and item.key is not None and item.end < place}
    return {shown(name).lower() for name in (*own, *((*MONTHS, *JOURNALS) if used is None else used[1].strings))}


def known_types(style: StyleText) -> List[str]:
    """The types of a style: the functions that no other one uses, and those of the standard types that it has."""
    functions = style.named("function")
    return [*types_of(functions, style.uses), *(name for name in TYPES if name in functions)]


def types_of(functions: List[str], uses_of: List[Word]) -> List[str]:
    """The functions that no other one of the style uses."""
    used = {word.name for word in uses_of}
    return [name for name in functions if name not in used]


def mending_of_mistake(document: Document, workspace: Workspace, place: int) -> Optional[Mending]:
    """The edit that mends the mistake at a place of a database."""
    items = workspace.base(document).items
    number = bisect.bisect_right([item.start for item in items], place) - 1
    slips = ((at, items[at].slip) for at in range(number, max(number - 2, -1), -1))
    found = next((at for at, slip in slips if slip is not None and slip.place == place), None)
    return None if found is None else mend(document.text, items, found)


def written(place: Tuple[int, int], text: Optional[str]) -> Optional[Mending]:
    """A text in the place of what is there."""
    return None if text is None else Mending(f"Change to `{text}`", *place, text)


def shown(text: bytes) -> str:
    return text.decode("utf8", "surrogateescape")


# ---- documents ----


def of_aux(document: Document, workspace: Workspace) -> Iterator[Diagnostic]:
    """The mistakes of an `.aux` file, as a run logs them, and its citations without an entry."""
    name = os.path.basename(path_of(document.uri))
    name = name if "\n" not in name else "job.aux"
    for message in run(name, lambda asked: document.text if asked == name else None, Options(budget=0)).messages:
        if message.kind is Kind.ERROR and message.file == name and message.line is not None and "couldn't open" not in message.text:
            yield Diagnostic(*document.line_range(message.line), ERROR, "mistake", message.text)
    yield from unknown_citations(document, workspace)


def of_document(document: Document, workspace: Workspace) -> Iterator[Diagnostic]:
    yield from unknown_citations(document, workspace)


def unknown_citations(document: Document, workspace: Workspace) -> Iterator[Diagnostic]:
    """The citations without an entry in the databases of a document. Where no database is found, nothing is said."""
    databases = workspace.databases(document)
    keys = frozenset([b"*"]).union(*(workspace.outline(database).keys for database in databases))
    for start, end in workspace.citations(document).without(keys) if databases else ():
        # (what an .aux file cites is all read)
        if not document.uri.endswith(".aux") and not is_read(document.text, start, workspace.made("read by TeX", document, read_by_tex)):
            continue
        said = f'I didn\'t find a database entry for "{document.text[start:end].decode("utf8", "replace")}"'
        yield Diagnostic(start, end, WARNING, "no-entry", said, partial(known_key, document, workspace, databases, (start, end)))


def known_key(document: Document, workspace: Workspace, databases: List[Document], place: Tuple[int, int]) -> Optional[Mending]:
    """The key of an entry that is spelled most like a citation; none in a file that LaTeX writes."""
    if document.uri.endswith(".aux"):
        return None
    keys = {item.key.lower(): item.key for base in databases for item, _, _ in workspace.outline(base).items() if item.is_entry and item.key is not None}
    near = nearest(document.text[slice(*place)].decode("utf8", "replace"), [key.decode("utf8", "replace") for key in keys])
    return written(place, None if near is None else keys.get(near.encode(), near.encode()).decode("utf8", "replace"))


# What is said of the texts whose names end so, beside databases.
BY_ENDING: Dict[str, Callable[[Document, Workspace], Iterator[Diagnostic]]] = {".bst": of_style, ".aux": of_aux, ".tex": of_document}
