"""What a run of the job logs beside what the doctor's checks find, and in which order the job reads its databases."""

from __future__ import annotations

import os
import re
from typing import Dict, List, NamedTuple, Optional, Set, Tuple

from .bibtext import Item, Lines, read
from .commands import stem_of
from .doctor import Citation, Finding, Source, lines_of
from .jobs import run
from .messages import Kind, Message
from .options import Options
from .outputs import Inputs
from .searching import Search

__all__ = ["Logged", "findings_of_run", "has_whole_list", "in_order_of_job"]

BIBDATA = re.compile(rb"(?m)^\\bibdata\{([^}\r\n]*)")
BAD_PARENT = re.compile(r'A bad cross reference--entry "(.*)" refers to entry ".*", which doesn\'t exist', re.DOTALL)
NO_ENTRY = re.compile(r'I didn\'t find a database entry for "(.*)"', re.DOTALL)
NO_TYPE = re.compile(r'entry type for "(.*)" isn\'t style-file defined', re.DOTALL)
NO_FILE = re.compile(r"I couldn't open (?:style|database) file (.*)\.b(?:st|ib)", re.DOTALL)
QUOTED_NAMES = re.compile(r'[^"]*"(.*)"', re.DOTALL)
OF_NAMES = ("Too many commas in name ", "Name ")


class Logged(NamedTuple):
    """What a run logs: the findings, and whether its `.aux` files were read without an error in a citation."""

    findings: List[Finding]
    is_whole: bool


def in_order_of_job(sources: List[Source], auxes: List[Source]) -> List[Source]:
    """The databases in the order in which the job reads them; those that it doesn't name come last."""
    named = [name.strip() for aux in auxes for found in BIBDATA.finditer(aux.text) for name in found[1].split(b",")]
    order = {stem_of(os.fsdecode(name)): number for number, name in reversed(list(enumerate(named)))}
    return sorted(sources, key=lambda source: order.get(stem_of(source.name), len(order)))


def stem_of_style(path: str) -> str:
    """A style's name without its folders and its ending."""
    base = os.path.basename(path)
    return base[: -len(".bst")] if base.endswith(".bst") else base


def has_whole_list(auxes: List[Source], errors: List[Message]) -> bool:
    """Whether all citations are known: an `.aux` file has some, and no error was met in one."""
    lines = {aux.name: aux.text.split(b"\n") for aux in auxes}
    for error in errors:
        line = lines.get(error.file or "", [])[(error.line or 1) - 1 : error.line or 1]
        if line and line[0].startswith(b"\\citation"):
            return False
    return any(line.startswith(b"\\citation{") for text in lines.values() for line in text)


def findings_of_run(job: str, sources: List[Source], auxes: List[Source], citations: List[Citation], search: Search, own_style: Optional[str] = None) -> Logged:
    """What a run of the job logs that no check of databases says. own_style: the path of the job's style, if that is its author's and none of TeX's folders: its faults are said of it,
    and not of entries."""
    top = job if job.endswith(".aux") else job + ".aux"
    inputs = Inputs(search, top)
    given = {os.path.normpath(source.name): source.text for source in sources}

    def content(name: str) -> Optional[bytes]:
        beside = os.path.join(os.path.dirname(top), name)
        paths = [os.path.normpath(path) for path in (name, beside)]
        return next((given[path] for path in paths if path in given), None) if any(path in given for path in paths) else inputs.content(name)

    messages = [it for it in run(top, content, search.options(Options())).messages if it.kind in (Kind.ERROR, Kind.WARNING)]
    placer = Placer(sources, auxes, {citation.key.lower() for citation in citations})
    faults = [] if own_style is None else [it for it in messages if is_of_style(it)]
    messages = messages if own_style is None else [it for it in messages if not is_of_style(it)]
    seen: Set[Tuple[object, ...]] = set()
    findings: List[Finding] = []
    for message in messages:
        if message.text.startswith("I found no ") and (is_cause(findings, auxes) or is_unread(findings, message.text)):
            continue
        # (a citation that can't be read is another one in each line)
        about = (message.text, message.entry, *([message.file, message.line] if message.text == "White space in argument" else []))
        finding = None if about in seen else placer.finding(message)
        seen.add(about)
        findings += [] if finding is None else [finding]
    findings += placer.of_faults(faults, own_style or "")
    return Logged(findings, has_whole_list(auxes, [it for it in messages if it.kind is Kind.ERROR]))


def is_of_style(message: Message) -> bool:
    """Whether an error is about the style itself: its text, or what it does, but for names that it can't divide."""
    is_met_in_it = (message.file or "").endswith(".bst") or message.function is not None and not message.text.startswith(OF_NAMES)
    return message.kind is Kind.ERROR and is_met_in_it


def is_cause(findings: List[Finding], auxes: List[Source]) -> bool:
    """Whether what the .aux files lack follows from an error that was found: they break off, or they are biblatex's and that was said."""
    found_no = [finding for finding in findings if finding.text.startswith("I found no ")]
    return any(finding.text == 'No "}"' for finding in findings) or bool(found_no) and any(b"\\abx@aux@" in aux.text for aux in auxes)


def is_unread(findings: List[Finding], text: str) -> bool:
    """Whether the command that isn't found stands in a line that can't be read."""
    command = os.fsencode(text.split()[3]) + b"{"
    return any(finding.text == "White space in argument" and finding.source.text.startswith(command, finding.start) for finding in findings)


class Placer:
    """Says where a message of a run belongs, in the files that were handed in."""

    def __init__(self, sources: List[Source], auxes: List[Source], cited: Set[bytes]) -> None:
        self.sources, self.auxes, self.cited = sources, auxes, cited
        self.known: Optional[Dict[str, Tuple[Source, Item]]] = None
        self.lines: Dict[int, Lines] = {}

    def entries(self) -> Dict[str, Tuple[Source, Item]]:
        """The first entry of each key."""
        if self.known is None:
            self.known = {}
            for source in self.sources:
                for item in read(source.text).items:
                    if item.is_entry and item.key is not None:
                        self.known.setdefault(item.key.decode("utf8", "surrogateescape").lower(), (source, item))
        return self.known

    def finding(self, message: Message) -> Optional[Finding]:
        """The finding that a message is; None where a check says it, or where it follows from another."""
        check = "logged-error" if message.kind is Kind.ERROR else "logged-warning"
        no_type = NO_TYPE.fullmatch(message.text)
        if no_type is not None:
            return self.of_type(message.text, no_type[1])
        if message.file is not None:
            return self.in_aux(message, check) if message.file.endswith(".aux") else None
        if message.function is not None or message.entry is not None:
            return self.of_entry(message, check)
        no_entry = NO_ENTRY.fullmatch(message.text)
        if no_entry is not None:
            return None
        child = BAD_PARENT.fullmatch(message.text)
        if child is not None:
            return self.of_field(message.text, child[1], (b"crossref",), check)
        if check == "logged-warning":
            return self.of_style(message.text, check)
        missing = NO_FILE.fullmatch(message.text)
        return self.of_file(message.text, missing[1] if missing else "", check)

    def of_faults(self, faults: List[Message], style: str) -> List[Finding]:
        """What is wrong in a style, where the `.aux` file names it: how many errors, and where the first is met."""
        if not faults:
            return []
        place = faults[0].place
        line = faults[0].line if faults[0].line is not None else None if place is None else place.line
        first = style if line is None else f"{style}:{line}"
        errors = "an error" if len(faults) == 1 else f"{len(faults)} errors"
        found = self.of_file(f"a run logs {errors} of the style itself, first at {first}: `bibtex-lint {style}` shows what is wrong", stem_of_style(style), "faulty-style")
        return [] if found is None else [found]

    def in_aux(self, message: Message, check: str) -> Optional[Finding]:
        """A message of a line of an `.aux` file."""
        for aux in self.auxes:
            if aux.name == message.file or os.path.basename(aux.name) == os.path.basename(message.file or ""):
                starts, number = lines_of(aux, self.lines).starts, (message.line or 1) - 1
                start = starts[number] if number < len(starts) else len(aux.text)
                end = starts[number + 1] - 1 if number + 1 < len(starts) else len(aux.text)
                return Finding(aux, start, end, check, message.text)
        return None

    def of_file(self, text: str, stem: str, check: str) -> Optional[Finding]:
        """A message about a file that the `.aux` files name, or about what they lack."""
        name = os.fsencode(stem)
        for aux in self.auxes:
            at = aux.text.find(b"{" + name) if name else -1
            at = aux.text.find(name) if name and at < 0 else at + 1
            if name and at > 0:
                return Finding(aux, at, at + len(name), check, text)
        return Finding(self.auxes[0], 0, 0, check, text) if self.auxes else None

    def of_entry(self, message: Message, check: str) -> Optional[Finding]:
        """A message of the execution for an entry: one about names stands at its names."""
        key = message.entry or ""
        if message.text.startswith(OF_NAMES):
            return self.of_field(message.text, key, (b"author", b"editor"), check)
        return self.at_key(message.text, key, check)

    def at_key(self, text: str, key: str, check: str) -> Optional[Finding]:
        found = self.entries().get(key.lower())
        if found is None or found[1].slip is not None:
            return None
        source, item = found
        return Finding(source, item.key_end - len(item.key or b""), item.key_end, check, text, key)

    def of_type(self, text: str, key: str) -> Optional[Finding]:
        """A message about the type of an entry, which the style doesn't have."""
        found = self.entries().get(key.lower())
        return None if found is None else Finding(found[0], found[1].start, found[1].kind_end, "unknown-type", text, key)

    def of_field(self, text: str, key: str, names: Tuple[bytes, ...], check: str) -> Optional[Finding]:
        """A message about one of these fields of an entry: of names the one that has those which are quoted."""
        found = self.entries().get(key.lower())
        if found is None:
            return None
        source, item = found
        quoted = QUOTED_NAMES.match(text)
        words = os.fsencode(quoted[1].split()[0]) if quoted and quoted[1].split() and b"crossref" not in names else b""
        for field in item.fields:
            if field.name in names and words in source.text[field.after : field.end]:
                return Finding(source, field.name_start, field.end, check, text, key)
        return self.at_key(text, key, check)

    def of_style(self, text: str, check: str) -> Optional[Finding]:
        """A style's own warning, which ends with the entry's key or begins with it."""
        words = text.split()
        keys = [word for word in (words[-1:] + words[:1]) if word.lower() in self.entries()]
        return self.at_key(text, keys[0], check) if keys else None

