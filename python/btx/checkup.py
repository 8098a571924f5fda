"""`python3 -m btx doctor [--style S] [--job J] [--json] [--each] [--off NAME,..] [BIB..]`: what can be said of databases, and of a job what its run logs. It changes no file."""

from __future__ import annotations

import argparse
import difflib
import glob
import itertools
import json
import os
import re
import sys
from functools import cached_property, partial
from typing import TYPE_CHECKING, Callable, Dict, FrozenSet, Iterator, List, NamedTuple, Optional, Set, Tuple

from .bibtext import REPEATED, Database, Item, Lines
from .commands import STATUS_DEVICE, STATUS_REFUSED, Words, broken_pipe, in_words, shown, stem_of
from .doctor import CHECKS, LOOKS_LIKE_FIELD, Citation, Elsewhere, Finding, Source, Style, examine, lines_of, without_unread
from .key_signs import remedy_of_line
from .known import Known
from .reading import without_collection
from .remedies import GENERAL, OF_OTHER_TYPES, SEEN, begins_item, begins_month, field_for_each_name, missed_field, not_hidden, of_items, of_missing, remedy_of, said
from .searching import MOST_BYTES, Search, content_of, found_search
from .usual import FIELDS, OF_BIBLATEX, REQUIRED, near_field, near_type

if TYPE_CHECKING:
    from .bsttext import Word
    from .trying import Printing

__all__ = ["citations_of", "main"]

STATUS_MISTAKES = 2
# A line of an .aux file whose argument counts.
COMMAND = re.compile(rb"(?m)^\\(citation|@input)\{([^}\r\n \t]*)\}\r?$")
BIBSTYLE = re.compile(rb"(?m)^\\bibstyle\{([^}\r\n \t]*)\}\r?$")
BIBDATA = re.compile(rb"(?m)^\\bibdata\{([^}\r\n \t]*)\}\r?$")
# What a finding says that an entry lacks; where a style declares its fields.
MISSING = re.compile("(?:.* warns where )?the field (.*) is missing")
BEGINS_FIELDS = re.compile(rb"(?im)^[ \t]*entry\b")
MOST_AUX = 1000
# How many files are named that may be meant.
MOST_NEAR = 3
# What a style warns of a field that an entry lacks, in the words of the usual ones.
EMPTY = re.compile("(?:empty|missing) ([a-z]+) in ")
NO_STYLE = re.compile(r"I couldn't open style file (.*)\.bst", re.DOTALL)
# How much of two names of a field is the same where one may be meant by the other.
LEAST_ALIKE = 0.75
# How many entries that nothing cites are named in the line for all.
MOST_NAMED = 5
# Fields with an address of the web; letters after a key that make it another one.
ADDRESSES = ("doi", "url")
NEW_LETTERS = [bytes([letter]) for letter in range(ord("b"), ord("z") + 1)]
# How a file in UTF-16 begins.
BEGINS_UTF16 = (b"\xff\xfe", b"\xfe\xff")
# What doesn't tell titles.
NOT_TITLE = bytes(byte for byte in range(128) if not chr(byte).isalnum())
# How many findings are printed at once.
AT_ONCE = 1000
# What the run of a job says itself, as far as it counts there.
SAID_BY_RUN = frozenset(("missing-field", "missed-field", "missing-in-parent", "unusual-type", "parent-above", "no-parent", "nested-parent"))
# What to do about the findings of checks whose texts don't say it.
OF_CHECKS = {
    "long-value": "shorten it, or divide it: a run stores at most 1,000,000 bytes of a value",
    "fields-in-text": "count the braces of the entry above: it may end too early",
    "repeated-doi": "keep one of the two entries, and cite that one",
    "repeated-title": "keep one of the two entries, if they are one work",
    "empty-field": "fill it in, or take it out",
    "all-entries": "take `\\nocite{*}` out, where the list is to have only what is cited, and run LaTeX",
    "older-aux": "run LaTeX, then BibTeX",
    "others-inside": SEEN["OthersInside"],
}


class Refused(Exception):
    """The command line can't be followed."""


class StyleFile(NamedTuple):
    """A style. is_own: whether it isn't one of TeX's folders. is_of_job: whether the job names it, and not the command line."""

    path: str
    text: bytes
    is_own: bool
    is_of_job: bool

    @property
    def name(self) -> str:
        base = os.path.basename(self.path)
        return base[: -len(".bst")] if base.endswith(".bst") else base


def main(words: List[str]) -> int:
    """Does what the words say, and answers the exit status."""
    given = parser().parse_args(words)
    try:
        if given.list:
            print_table()
            return 0
        # (what is read and found is kept to the end, so there is no garbage to be looked for)
        with without_collection():
            return check_up(given)
    except Refused as error:
        print(f"btx: {shown(str(error))}", file=sys.stderr)
        return STATUS_REFUSED
    except BrokenPipeError:
        return broken_pipe()
    except OSError as error:
        print(f"btx: {shown(in_words(error))}", file=sys.stderr)
        return STATUS_DEVICE


def parser() -> argparse.ArgumentParser:
    result = Words(prog="python3 -m btx doctor", description="Says what is wrong or doubtful in databases, without a document. It changes no file.")
    result.add_argument("databases", metavar="BIB", nargs="*", help="a database; several are examined as those of one job; those of --job where none is named")
    result.add_argument("--style", metavar="S", help="the style: which fields, types and strings it has")
    result.add_argument("--job", metavar="J", help="the .aux file of a document: which entries it cites")
    result.add_argument("--json", action="store_true", help="print a line of JSON for each finding")
    result.add_argument("--each", action="store_true", help="print a line for each entry that nothing cites, and for each use of an undefined string, and not one for all")
    result.add_argument("--off", metavar="NAME,..", default="", help="checks that are left out")
    result.add_argument("--list", action="store_true", help="print the checks, and how exact each is")
    return result


def print_table() -> None:
    width = max(map(len, CHECKS))
    for check in CHECKS.values():
        print(f"{check.name:{width}}  {check.severity:7}  {check.exact}")


def check_up(given: argparse.Namespace) -> int:
    """Examines the databases, and prints what is found."""
    if not given.databases and given.job is None:
        raise Refused("name a database, a --job, or --list")
    off: FrozenSet[str] = frozenset(filter(None, given.off.split(",")))
    unknown = sorted(off - set(CHECKS))
    if unknown:
        raise Refused(f"there is no check {unknown[0]}: --list prints them")
    if given.job is not None:
        check_job(given.job)
    # (where neither a style nor a job is named, TeX's folders aren't looked through)
    search = Search() if given.style is None and given.job is None else found_search()
    sources = [Source(path, content_of(os.fsencode(path), MOST_BYTES)) for path in given.databases or databases_of(given.job, search)]
    in_use = style_file(given.style, search) if given.style is not None else style_of_job(given.job, search)
    read_ones: Dict[int, Database] = {}
    found, sources = findings_of(given.job, sources, in_use, search, read_ones)
    found = without_unread([finding for finding in found if finding.check not in off])
    print_findings(found, Remedies(sources, in_use, read_ones, given.job), given)
    sys.stdout.flush()
    return STATUS_MISTAKES if any(finding.severity == "error" for finding in found) else 0


def check_job(job: str) -> None:
    """Says where the `.aux` file of a job is, where it isn't there but in a folder below."""
    top = job if job.endswith(".aux") else job + ".aux"
    if not os.path.exists(top):
        folder, name = os.path.split(glob.escape(top))
        below = sorted(itertools.islice(glob.iglob(os.path.join(folder, "*", name)), MOST_NEAR))
        if below:
            raise Refused(f"there is no file {top}: is it {shown(below[0])}?")


def findings_of(job: Optional[str], sources: List[Source], in_use: Optional[StyleFile], search: Search, kept: Dict[int, Database]) -> Tuple[List[Finding], List[Source]]:
    """All findings, and the databases in the order in which they are read; kept: gets what was read of each. Of a job the run and the document say more; where its citations aren't all known, nothing is said to be uncited."""
    style = None if in_use is None else Style(in_use.text, name=in_use.name)
    if job is None:
        return examine(sources, style, kept=kept), sources
    from .doctor_run import findings_of_run, in_order_of_job
    from .document_checks import documents_of, findings_of_documents

    auxes = list(aux_files(job))
    citations = [citation for aux in auxes for citation in citations_of_file(aux)]
    sources = in_order_of_job(sources, auxes)
    printing = None if style is None else style.printing
    named = None if in_use is None or in_use.is_of_job else style
    elsewhere = Elsewhere(os.path.basename(auxes[0].name), cited_elsewhere(auxes, sources))
    found = [finding for finding in examine(sources, named, citations, printing=printing, kept=kept, elsewhere=elsewhere) if finding.check not in SAID_BY_RUN]
    entries = {item.key.lower(): item.key for source in sources for item in kept[id(source)].items if item.is_entry and item.key is not None}
    of_document, newer = findings_of_documents(documents_of(job), citations, entries)
    own_style = in_use.path if in_use is not None and in_use.is_of_job and in_use.is_own else None
    logged = findings_of_run(job, sources, auxes, citations, search, own_style)
    of_types = {(id(it.source), it.start) for it in found if it.check == "unknown-type"}
    found = without_consequences(found + of_document + [it for it in logged.findings if it.check != "unknown-type" or (id(it.source), it.start) not in of_types], logged.is_whole)
    order = {id(source): number for number, source in enumerate(sources)}
    found = [finding for finding in found if finding.check != "uncited" or finding.key not in newer]
    return sorted(found, key=lambda finding: (order.get(id(finding.source), -1), finding.start, finding.end)), sources


def without_consequences(found: List[Finding], is_whole: bool) -> List[Finding]:
    """The findings without those that follow from others: warnings of an entry with a mistake, and entries that aren't cited where the citations aren't all known."""
    named = {finding.key for finding in found if finding.check == "logged-error" and finding.text.startswith("Too many commas")}
    found = [it for it in found if it.check not in ("names-by-commas", "names-by-sign") or it.key not in named]
    causes = {finding.key for finding in found if finding.check in ("mistake", "undefined-string", "logged-error")}
    follow = {"uncited"} if not is_whole else set()
    slipped = {finding.key for finding in found if finding.check == "mistake"}
    kept = (it for it in found if it.check not in follow and not (it.check == "uncited" and it.key in slipped))
    return [it for it in kept if it.check != "logged-warning" or it.key not in causes]


class Remedies:
    """What to do about findings. What findings share is found once."""

    def __init__(self, sources: List[Source], style: Optional[StyleFile] = None, databases: Optional[Dict[int, Database]] = None, job: Optional[str] = None) -> None:
        self.sources = sources
        self.style = style
        self.job = job
        self.known = Known(sources, databases)
        self.of_places: Dict[int, Dict[int, str]] = {}
        self.kept: Dict[Tuple[object, ...], Optional[str]] = {}

    def once(self, make: Callable[[], Optional[str]], *what: object) -> Optional[str]:
        """What is made for all findings about the same."""
        if what not in self.kept:
            self.kept[what] = make()
        return self.kept[what]

    def of(self, finding: Finding, lines: Lines) -> Optional[str]:
        """What to do about a finding; None where its text says so."""
        if finding.check in OF_CHECKS:
            return OF_CHECKS[finding.check]
        make = self.by_check.get(finding.check)
        if make is not None:
            return make(self, finding, lines)
        return of_aux(finding) or remedy_of(finding.text, self.known.keys if finding.key else ())

    def same_as(self, finding: Finding) -> Optional[Tuple[object, ...]]:
        """What findings have in common that one edit mends: a string that isn't defined, a file in another encoding, a database without an entry."""
        if finding.check == "undefined-string":
            return finding.check, id(finding.source), finding.text
        if finding.check == "mistake" and finding.source.text[:2] in BEGINS_UTF16:
            return finding.check, id(finding.source)
        return (finding.check,) if finding.check == "no-entry" and not self.known.entries else None

    def of_mistake(self, finding: Finding, lines: Lines) -> Optional[str]:
        number = id(finding.source)
        if number not in self.of_places:
            self.of_places[number] = of_items(finding.source.name, finding.source.text, lines, self.known.items_of(finding.source))
        return self.of_places[number].get(finding.start)

    def of_repeated_field(self, finding: Finding, lines: Lines) -> Optional[str]:
        """What to do about a second field of a name."""
        name = text_at(finding)
        item = self.known.around(finding.source, finding.start)
        joined = None if item is None else self.once(partial(field_for_each_name, item, shown(name)), id(finding.source), item.start, name.lower())
        return joined or remedy_of(finding.text)

    def of_type(self, finding: Finding, lines: Lines) -> str:
        """What to do about a type that the usual styles don't have."""
        near = near_type(text_at(finding)[1:].lower())
        return f"write `@{near}`" if near else "write a type of BibTeX's, such as `@misc`"

    def of_unknown_type(self, finding: Finding, lines: Lines) -> str:
        """What to do about a type that a style doesn't have."""
        kind = text_at(finding)[1:].strip().lower()
        near = near_type(kind)
        if kind in OF_BIBLATEX and near:
            return said(SEEN["OfBiblatexType"], kind, near)
        return said(SEEN["NearType"], kind, near) if near else "take a type that the style has, such as `misc`"

    def of_parent(self, finding: Finding, lines: Lines) -> str:
        return f"move {finding.text.split()[2]} below all entries that name it, or cite it"

    def of_repeated(self, finding: Finding, lines: Lines) -> Optional[str]:
        """What to do about a second entry of a key: where the first one stands, or which one was meant to be hidden."""
        source, key = finding.source, finding.key.encode("utf8", "surrogateescape").lower()
        hidden = self.once(lambda: next(filter(None, (not_hidden(source.name, source.text, lines, item) for item in self.known.of_key(source, key))), None), id(source), key)
        found = None if hidden is not None else self.known.entries.get(key)
        if found is None:
            return hidden or GENERAL[REPEATED]
        its, first = found
        item = self.known.around(source, finding.start)
        words = None if item is None else self.of_other_work(item, first)
        return f"{words + ';' if words else GENERAL[REPEATED] + ':'} the first is {begins_item(its.name, its.text, lines if its is source else lines_of(its, self.known.lines), first)}"

    def of_other_work(self, item: Item, first: Item) -> Optional[str]:
        """What to do about a second entry of a key whose title is another one."""
        titles = [title_of(it) for it in (item, first)]
        if not all(titles) or titles[0].startswith(titles[1]) or titles[1].startswith(titles[0]):
            return None
        key = item.key or b""
        new = next((key + letter for letter in NEW_LETTERS if (key + letter).lower() not in self.known.entries), None)
        return None if new is None else said(SEEN["OtherWork"], shown(new.decode("utf8", "surrogateescape")))

    def of_hidden(self, finding: Finding, lines: Lines) -> Optional[str]:
        """What to do about an entry that was meant to be hidden."""
        item = self.known.around(finding.source, finding.start)
        return None if item is None else said(SEEN["NotHidden"], begins_item(finding.source.name, finding.source.text, lines, item))

    def of_missing(self, finding: Finding, lines: Lines) -> Optional[str]:
        """What to do about a field that an entry lacks, and its parent as well."""
        found = MISSING.match(finding.text)
        item = self.known.around(finding.source, finding.start)
        if item is None:
            return None
        names, fields = "" if found is None else found[1], tuple(item.records.names_between(item.at + 1, item.last))
        if b"crossref" in fields or b"date" in fields:
            parent = self.known.entries.get((item.value_of(b"crossref") or b"").strip().lower())
            return of_missing(item, names, None if parent is None else parent[1])
        # (the names of its fields tell all)
        return self.once(partial(of_missing, item, names, None), names, fields)

    def of_unread(self, finding: Finding, lines: Lines) -> Optional[str]:
        name = text_at(finding).lower()
        return self.once(lambda: self.unread(name), "unread", name)

    def unread(self, name: str) -> str:
        """What to do about a field that the style doesn't read: its own author may have meant the field by a name that no usual field has."""
        if self.style is None or not self.style.is_own:
            return said(SEEN["UnprintedAddress"], name) if name in ADDRESSES else "leave it, or take a style that reads it"
        definitions, lines = self.style_fields
        alike = difflib.get_close_matches(name, [word.name for word in definitions if word.name.encode() not in FIELDS], 1, LEAST_ALIKE)
        if alike:
            place = next(f"{self.style.path}:{lines.line_of(word.start) + 1}" for word in definitions if word.name == alike[0])
            return f"call it `{name}` in the style, where it is `{alike[0]}` ({place}): databases have it by that name"
        entry = BEGINS_FIELDS.search(self.style.text)
        place = f"{self.style.path}:{lines.line_of(entry.end()) + 1 if entry else 1}"
        return f"leave it; or put `{name}` into the first list of ENTRY ({place}), and have the style print it"

    @cached_property
    def style_fields(self) -> Tuple[List[Word], Lines]:
        """The fields that the style declares, and its lines."""
        from .bsttext import read_style

        text = b"" if self.style is None else self.style.text
        return [word for word in read_style(text).definitions if word.kind == "field"], Lines(text)

    @cached_property
    def printing(self) -> Optional[Printing]:
        return None if self.style is None else Style(self.style.text).printing

    def of_unprinted(self, finding: Finding, lines: Lines) -> Optional[str]:
        kind, other = re.findall("`@(.*?)`", finding.text)[-2:]
        item = self.known.around(finding.source, finding.start)
        lost = text_at(finding).lower()
        meant = next((name for name, others in OF_OTHER_TYPES.items() if lost in others and (name.encode(),) in REQUIRED.get(kind.encode(), ())), None)
        if item is not None and meant is not None and item.value_of(meant.encode()) is None:
            return said(SEEN["OtherField"], lost, meant)
        return self.once(lambda: self.unprinted(kind, other), "unprinted", kind, other)

    def unprinted(self, kind: str, other: str) -> str:
        """What to do about a field that the style prints for another type alone."""
        printing = self.printing
        free = [field for field in ("howpublished", "note") if printing is not None and field.encode() in printing.fields and printing.prints(kind.encode("utf8", "surrogateescape"), field.encode())]
        put = f", or put it into `{free[0]}`, which is printed for `@{kind}`" if free else ""
        return f"write `@{other}`, if the work is one{put}"

    def of_string(self, finding: Finding, lines: Lines) -> Optional[str]:
        """What to do about a string that isn't defined, or is defined after its use."""
        name = finding.source.text[finding.start : finding.end].lower()
        source, item = self.known.strings.get(name, (None, None))
        if source is None or item is None:
            its, faulty = self.known.faulty_strings.get(name, (None, None))
            if its is not None and faulty is not None:
                return f"mend the `@string` of `{name.decode('utf8', 'replace')}` ({its.name}:{self.known.line_of(its, faulty.start)}) first: it has a mistake, so it defines nothing"
            may_be_month = self.is_in_month(finding) or begins_month(name.decode("utf8", "replace"))
            return remedy_of(finding.text, strings=self.known.names if may_be_month else self.known.names_beside_months)
        if source is finding.source:
            return said(SEEN["DefinedBelow"], name.decode("utf8", "replace"), f"{source.name}:{self.known.line_of(source, item.start)}")
        order = [it for it in self.sources if it is not source]
        order.insert(next(at for at, it in enumerate(order) if it is finding.source), source)
        return said(SEEN["DefinedInLater"], ",".join(stem_of(it.name) for it in order), source.name)

    def is_in_month(self, finding: Finding) -> bool:
        """Whether a finding is in the field `month` of an entry, where a month may be meant."""
        item = self.known.around(finding.source, finding.start)
        return item is not None and any(field.name == b"month" and field.after <= finding.start < field.end for field in item.fields)

    def of_warning(self, finding: Finding, lines: Lines) -> Optional[str]:
        """What to do about a style's warning of an entry."""
        item = self.known.around(finding.source, finding.start)
        if item is None or item.key_end != finding.end:
            return None
        return missed_field(item, finding.text) or self.after_end(finding, item, lines) or self.of_empty(item, finding.text)

    def of_empty(self, item: Item, warning: str) -> Optional[str]:
        """What to do about a field that a style finds empty: another one is misspelt, or it is missing in the entry or its parent."""
        found = EMPTY.match(warning)
        if found is None:
            return None
        fields = item.records.names_between(item.at + 1, item.last)
        misspelt = next((name for name in fields if near_field(name) == found[1].encode()), None)
        if misspelt is not None:
            return said(SEEN["OtherField"], shown(misspelt.decode("utf8", "replace")), found[1])
        parent = self.known.entries.get((item.value_of(b"crossref") or b"").strip().lower())
        return None if found[1].encode() in fields else of_missing(item, found[1], None if parent is None else parent[1])

    def after_end(self, finding: Finding, item: Item, lines: Lines) -> Optional[str]:
        """What to do about a field that a style misses and that stands after the entry's end."""
        fields = LOOKS_LIKE_FIELD.finditer(finding.source.text, item.end, self.known.next_start(finding.source, item))
        found = next((it for it in fields if shown(it[1].decode("latin1")).lower() in finding.text.lower().split()), None)
        if found is None:
            return None
        return f"`{shown(found[1].decode('latin1'))}` stands after the entry's end ({finding.source.name}:{lines.line_of(found.start(1)) + 1}): take out the brace before it that ends the entry too early"

    def of_logged(self, finding: Finding, lines: Lines) -> Optional[str]:
        """What to do about an error that a run of the job logs."""
        from .document_checks import remedy_by_document
        from .several_lists import remedy_of_lists

        if finding.text == "White space in argument" or finding.text == 'No "}"':
            of_key = remedy_of_line(finding.source.text[finding.start : finding.end], self.known.keys)
            if of_key is not None:
                return of_key
        if finding.text == "missing field is not a string" and finding.key:
            return self.once(lambda: self.of_field_missing(finding), finding.text, finding.key)
        of_style = of_style_name(finding.text)
        if of_style is not None:
            return of_style
        several = None if self.job is None else remedy_of_lists(finding.text, list(aux_files(self.job)))
        return several or of_aux(finding) or remedy_by_document(finding.text, finding.source.name) or remedy_of(finding.text, self.known.keys if finding.key else ())

    def of_field_missing(self, finding: Finding) -> Optional[str]:
        """What to do about a field that the style takes without asking whether it is there."""
        from .field_missing import field_missing

        item = self.known.around(finding.source, finding.start)
        if item is None or self.style is None or self.printing is None:
            return None
        name = field_missing(self.style.text, finding.source.text, item, self.printing.fields)
        return None if name is None else said(SEEN["FieldIsMissing"], name)

    def of_entry(self, finding: Finding, lines: Lines) -> Optional[str]:
        """What to do about a citation without an entry: one without a key may be meant."""
        general = remedy_of(finding.text, self.known.keys)
        if general != remedy_of(finding.text):
            return general
        in_text = self.known.in_text.get(finding.key.lower())
        if in_text is not None:
            source, place, kind = in_text
            return f"write `@` before `{kind}` ({source.name}:{self.known.line_of(source, place)})"
        in_utf16 = next((source.name for source in self.sources if source.text[:2] in BEGINS_UTF16), None)
        if not self.known.entries and in_utf16 is not None:
            return said(SEEN["FileIsUtf16"], in_utf16)
        if not self.known.entries and self.sources:
            return f"write the entry: {', '.join(source.name for source in self.sources)} has none at all"
        faulty = self.behind_mistake(finding.key)
        if faulty is not None:
            return faulty
        item = self.known.without_key
        return general if item is None else said(SEEN["EntryOfNoKey"], item.kind.decode("utf8", "replace"), finding.key)

    def behind_mistake(self, key: str) -> Optional[str]:
        """What to do about an entry that is there and isn't read, since the one above it has a mistake."""
        found = self.known.behind_mistakes.get(key.lower())
        if found is None:
            return None
        source, mistake, place = found
        return f"mend the mistake in {source.name}:{self.known.line_of(source, mistake)} first: because of it the entry in line {self.known.line_of(source, place)} isn't read"

    by_check: Dict[str, Callable[..., Optional[str]]] = {
        "mistake": of_mistake,
        "repeated-key": of_repeated,
        "not-hidden": of_hidden,
        "repeated-field": of_repeated_field,
        "unusual-type": of_type,
        "unknown-type": of_unknown_type,
        "missing-field": of_missing,
        "missed-field": of_missing,
        "missing-in-parent": of_missing,
        "parent-above": of_parent,
        "unread-field": of_unread,
        "unprinted-field": of_unprinted,
        "undefined-string": of_string,
        "logged-error": of_logged,
        "logged-warning": of_warning,
        "no-entry": of_entry,
    }


def title_of(item: Item) -> bytes:
    """The letters and digits of an entry's title; empty where it has none."""
    return (item.value_of(b"title") or b"").lower().translate(None, NOT_TITLE)


def of_style_name(text: str) -> Optional[str]:
    """What to do about a style that isn't there, where one is whose name differs in its case."""
    found = NO_STYLE.fullmatch(text)
    name = found[1] if found else ""
    is_there = name != name.lower() and found_search().path_of(os.fsencode(name.lower() + ".bst")) is not None
    return f"write `{name.lower()}` for `{name}` in the `\\bibliographystyle`, and run LaTeX: names of files have their case" if is_there else None


def text_at(finding: Finding) -> str:
    """What stands where a finding is."""
    return finding.source.text[finding.start : finding.end].decode("utf8", "replace")


def of_aux(finding: Finding) -> Optional[str]:
    """What to do about an .aux file that breaks off, or that is biblatex's."""
    if not finding.text.startswith(("I found no ", 'No "}"')):
        return None
    last = finding.source.text.rsplit(b"\n", 1)[-1]
    if last.startswith(b"\\") and last.count(b"{") > last.count(b"}"):
        return said(SEEN["AuxBreaksOff"], finding.source.name)
    if b"\\@setckpt{" in finding.source.text and b"\\bibdata{" not in finding.source.text:
        return said(SEEN["OfSomeInclude"], finding.source.name)
    is_of_biblatex = b"\\abx@aux@" in finding.source.text
    return said(SEEN["OfBiblatex"], re.sub(r"\.aux$", "", finding.source.name)) if is_of_biblatex else None


def style_file(name: str, search: Search, is_of_job: bool = False) -> StyleFile:
    """The style of this path or name."""
    path = os.fsencode(name)
    found = path if os.path.isfile(path) else search.path_of(path if path.endswith(b".bst") else path + b".bst")
    if found is None:
        raise Refused(f"there is no style {name}")
    found = found[2:] if found.startswith(b"./") else found
    return StyleFile(os.fsdecode(found), content_of(found, MOST_BYTES), found == path or not os.path.isabs(found), is_of_job)


def style_of_job(job: Optional[str], search: Search) -> Optional[StyleFile]:
    """The style that a job names, if it is there; of a job in another folder that beside it."""
    name = next((found[1] for source in aux_files(job) for found in BIBSTYLE.finditer(source.text)), None) if job is not None else None
    if name is None:
        return None
    for path in (os.fsdecode(name), os.path.join(os.path.dirname(job or ""), os.fsdecode(name) + ".bst")):
        try:
            return style_file(path, search, is_of_job=True)
        except (Refused, OSError, ValueError):
            continue
    return None


def named_style(name: str, search: Search) -> bytes:
    """The text of the style of this path or name."""
    return style_file(name, search).text


def databases_of(job: str, search: Search) -> List[str]:
    """Where the databases are that a job names: as a run does it takes the first list of them. One that isn't there is named on standard error."""
    lists = (found[1] for source in aux_files(job) for found in BIBDATA.finditer(source.text))
    names = [name if name.endswith(b".bib") else name + b".bib" for name in next(lists, b"").split(b",") if name]
    found = [(name, search.path_of(name)) for name in names]
    for name, path in found:
        if path is None:
            print(f"btx: there is no database {shown(os.fsdecode(name))}", file=sys.stderr)
    paths = [os.fsdecode(path[2:] if path.startswith(b"./") else path) for _, path in found if path is not None]
    if not paths:
        from .several_lists import remedy_of_units

        top = next(aux_files(job))
        several = None if names else said(SEEN["OfBiblatex"], job_of(top.name)) if b"\\abx@aux@" in top.text else remedy_of_units(top)
        there = f", such as {', '.join(shown(path) for path in databases_near(top.name))}" if databases_near(top.name) else ""
        raise Refused(f"{job} names no database: {several}" if several else f"{job} names no database that is there: name one{there}")
    return paths


def job_of(aux: str) -> str:
    """The name of a job, by that of its `.aux` file."""
    return aux[: -len(".aux")] if aux.endswith(".aux") else aux


def databases_near(path: str) -> List[str]:
    """Some databases in the folder of a file, or in those directly below it."""
    return near_files(os.path.dirname(path), ".bib")


def near_files(folder: str, ending: str) -> List[str]:
    """Some files in a folder whose names end so; where there is none, those in the folders directly below."""
    for pattern in ("*", os.path.join("*", "*")):
        found = sorted(itertools.islice(glob.iglob(os.path.join(glob.escape(folder), pattern + ending)), MOST_AUX))[:MOST_NEAR]
        if found:
            return found
    return []


def aux_files(job: str) -> Iterator[Source]:
    """A job's .aux files, in the order in which they are read. An included file is looked for from the present folder, and then beside the job's."""
    top = job if job.endswith(".aux") else job + ".aux"
    folder = os.path.dirname(top)
    waiting: List[str] = [top]
    seen: Set[str] = set()
    while waiting and len(seen) < MOST_AUX:
        path = waiting.pop(0)
        if path in seen:
            continue
        seen.add(path)
        source = Source(path, content_of(os.fsencode(path), MOST_BYTES))
        yield source
        found = (it for it in COMMAND.finditer(source.text) if it[1] == b"@input")
        waiting[:0] = filter(None, (existing(os.fsdecode(it[2]), folder) for it in found))


def cited_elsewhere(auxes: List[Source], sources: List[Source]) -> FrozenSet[bytes]:
    """The keys, in lower case, that other `.aux` files of the job's folder cite from one of these databases: packages such as multibib and bibunits have several for a document."""
    from .several_lists import aux_beside

    own, stems = {aux.name for aux in auxes}, {stem_of(source.name) for source in sources}
    trees = [list(aux_files(aux.name)) for aux in aux_beside(auxes[0].name) if aux.name not in own]
    # (a file that reads others may leave it to them to name the databases)
    found = (tree for tree in trees if not stems.isdisjoint(name for aux in tree for name in named_databases(aux.text)))
    return frozenset(citation.key.lower() for tree in found for aux in tree for citation in citations_of_file(aux))


def named_databases(aux: bytes) -> List[str]:
    """The databases that an .aux file names, without folders and endings."""
    return [stem_of(os.fsdecode(name)) for found in BIBDATA.finditer(aux) for name in found[1].split(b",")]


def citations_of(job: str) -> Iterator[Citation]:
    """The citations of a job's .aux files."""
    for source in aux_files(job):
        yield from citations_of_file(source)


def citations_of_file(source: Source) -> Iterator[Citation]:
    """The citations of one .aux file, in their order."""
    for found in COMMAND.finditer(source.text):
        if found[1] == b"citation":
            yield from citations_in(source, found.start(2), found[2])


def citations_in(source: Source, start: int, keys: bytes) -> Iterator[Citation]:
    """The citations of a list of keys with commas between them."""
    for key in keys.split(b","):
        yield Citation(key, source, start)
        start += len(key) + 1


def existing(name: str, folder: str) -> Optional[str]:
    """Where an included file is, if it is there."""
    return next((path for path in (name, os.path.join(folder, name)) if os.path.isfile(path)), None)


def print_findings(found: List[Finding], remedies: Remedies, given: argparse.Namespace) -> None:
    """Prints all findings. For people those of entries that nothing cites are one line, which comes last."""
    lines = remedies.known.lines
    summed = [] if given.json or given.each else [finding for finding in found if finding.check == "uncited"]
    shown_ones = [finding for finding in found if finding.check != "uncited"] if summed else found
    text_of = json_of if given.json else text_for_people
    more: Dict[int, List[Finding]] = {}
    if not given.json and not given.each:
        shown_ones, more = folded(shown_ones, remedies)
    # (many lines are printed at once)
    for first in range(0, len(shown_ones), AT_ONCE):
        texts = [text_of(finding, lines_of(finding.source, lines), remedies) for finding in shown_ones[first : first + AT_ONCE]]
        for at, finding in enumerate(shown_ones[first : first + AT_ONCE]) if more else ():
            texts[at] += text_of_more(more.get(id(finding), []), lines)
        sys.stdout.write("".join(texts))
    if summed:
        names = ", ".join(finding.key for finding in summed[:MOST_NAMED]) + (", .." if len(summed) > MOST_NAMED else "")
        entries = "1 entry is" if len(summed) == 1 else f"{len(summed)} entries are"
        print(f"{entries} {shown(summed[0].text)}: {shown(names)} (--each prints a line for each) [uncited]")


def folded(found: List[Finding], remedies: Remedies) -> Tuple[List[Finding], Dict[int, List[Finding]]]:
    """The findings without those that the same edit mends as an earlier one; and of that one, by its `id`, these others."""
    firsts: Dict[Tuple[object, ...], Finding] = {}
    kept: List[Finding] = []
    more: Dict[int, List[Finding]] = {}
    for finding in found:
        same = remedies.same_as(finding)
        if same is None or firsts.setdefault(same, finding) is finding:
            kept.append(finding)
        else:
            more.setdefault(id(firsts[same]), []).append(finding)
    return kept, more


def text_of_more(others: List[Finding], lines: Dict[int, Lines]) -> str:
    """How many findings are like one, and where the last of them is."""
    if not others:
        return ""
    last = others[-1]
    return f"    {len(others)} more of this, the last at {shown(last.source.name)}:{lines_of(last.source, lines).line_of(last.start) + 1} (--each prints a line for each)\n"


def text_for_people(finding: Finding, lines: Lines, remedies: Remedies) -> str:
    """A finding in a line, with its place, whose line and column are counted from 1, in characters; and what to do about it in another one."""
    line, column = lines.at(finding.start)
    key = f" ({finding.key})" if finding.key else ""
    said_of = shown(f"{finding.source.name}:{line + 1}:{column + 1}: {CHECKS[finding.check].severity}: {finding.text}{key} [{finding.check}]")
    remedy = remedies.of(finding, lines)
    return f"{said_of}\n" if remedy is None else f"{said_of}\n    what to do: {shown(remedy)}\n"


def json_of(finding: Finding, lines: Lines, remedies: Remedies) -> str:
    """A finding as a line of JSON: its line and columns are counted from 1, in characters; `end` is where it ends, on the line `end_line`."""
    line, column = lines.at(finding.start)
    end_line, end = lines.at(finding.end, is_end=True)
    record = {
        "file": finding.source.name,
        "line": line + 1,
        "column": column + 1,
        "end_line": end_line + 1,
        "end": end + 1,
        "name": finding.check,
        "severity": finding.severity,
        "text": finding.text,
        "key": finding.key,
        "remedy": remedies.of(finding, lines),
    }
    return json.dumps(record) + "\n"
