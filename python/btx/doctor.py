"""What can be said of a database without a document: the checks of `python3 -m btx doctor`, and of the language server.

    for finding in examine([Source("refs.bib", text)]):
        print(finding.source.name, finding.start, finding.check, finding.text)

A check that a run would log says what the run logs. The others are guesses, and the table of `CHECKS` says how exact each is."""

from __future__ import annotations

import itertools
import re
from operator import itemgetter
from typing import TYPE_CHECKING, Any, Dict, FrozenSet, Iterable, Iterator, List, NamedTuple, Optional, Set, Tuple, Union

from .accents import accents_in, has_accents
from .bibtext import ENDS_TEXT, Database, Field, Item, Lines, field_of, read, undefined_strings
from .checks import CHECKS, SAID, Check
from .doubts import AS_COMMENT, ENTRY_IN_TEXT, INITIAL_BEFORE_COMMA, OTHER_SPACE, SIGN, STRAY_AND, SUFFIX_LAST, TEXTS, TWO_WORDS, Persons, has_words, hide_braces, list_in_braces, lost_words
from .doubts import lowered_tokens, may_lose, names_by_commas, sign_by_names, sign_of_tex, spans_of_names, stray_and, suffix_last, what_for_hyphens
from .key_signs import SIGN_OF_TEX, UNSEEN, as_seen, plain_key
from .reading import ENTRY, PREAMBLE, STRING, without_collection
from .usual import ALONE, EITHER, FIELDS, REQUIRED, missing_fields, near_field

if TYPE_CHECKING:
    from .bsttext import StyleText
    from .trying import Printing

__all__ = ["CHECKS", "Check", "Citation", "Elsewhere", "Finding", "Source", "Style", "examine", "without_unread"]


MONTHS = b"jan feb mar apr may jun jul aug sep oct nov dec".split()
# What plain, abbrv, alpha and unsrt define beside the months.
JOURNALS = b"acmcs acta cacm ibmjrd ibmsj ieeese ieeetc ieeetcad ipl jacm jcss scp sicomp tocs tods tog toms toois toplas tcs".split()

LOOKS_LIKE_FIELD = re.compile(rb"(?m)(?:^|(?<=}))[ \t,}]*([A-Za-z][A-Za-z_-]*)[ \t]*=[ \t]*[{\"0-9]")
# A field in a list of names that goes on over what comes after it.
FIELD_IN_NAMES = re.compile(rb",[ \t\r\n]*[A-Za-z][A-Za-z_-]*[ \t\r\n]*=[ \t\r\n]*[{\"0-9]")
RESOLVER = re.compile(rb"^(?:https?://(?:dx\.)?doi\.org/|doi:)[ \t]*")
TEX_COMMAND = re.compile(rb"\\[A-Za-z]+")
# What doesn't tell titles: all but letters and digits.
NOT_TITLE = bytes(byte for byte in range(128) if not chr(byte).isalnum())
ONE_HYPHEN = re.compile(rb"[0-9] ?(?:-|\xe2\x80[\x90-\x94]|\xe2\x88\x92) ?[0-9]")
MONTH_NAME = re.compile(rb"(?:jan|feb|mar|apr|may|jun|jul|aug|sep|oct|nov|dec)[a-z]*\.?", re.IGNORECASE)
ET_AL = re.compile(rb"(?<![A-Za-z])et\.?[ ~]*al(?![a-z])", re.IGNORECASE)
# Words that no person's name has; front/src/unsaid.rs has the same.
ORGANIZATIONS = (
    "academy alliance association bureau center centers centre centres collaboration college commission committee consortium corporation council department federation foundation gesellschaft group institut institute institution"
    " laboratories laboratory ministerium ministry ministère organisation organization society union universidad universidade universiteit universitet university università universität université universitat verband verein"
).split()
OF_ORGANIZATIONS = re.compile(rb"(?<![^ \t\r\n~])(?:%s),?(?![^ \t\r\n~])" % "|".join(ORGANIZATIONS).encode(), re.IGNORECASE)
# The same words, among those of a text in lower case that are parted by spaces.
WORDS_OF_ORGANIZATIONS = frozenset(word.encode() for word in ORGANIZATIONS)
TO_SPACES = bytes.maketrans(b"\t\r\n~,", b"     ")
# A dollar sign, and what has none of its own: what has a backslash before it, and an address.
DOLLAR = re.compile(rb"\\(?:url|path|nolinkurl|href)[ \t\r\n]*\{[^{}]*\}|\\.|\$", re.DOTALL)
# Fields of addresses and of other programs, which no style sets as a text of TeX.
NO_TEXTS = frozenset(b"abstract annote bdsk-file-1 bdsk-url-1 biburl doi eprint file keywords url".split())
# A word that may be taken as von: it begins outside ASCII, and its first letter of ASCII is a small one.
VON = re.compile(rb"(?:^|[ \t\r\n~,-])[\x80-\xff][^A-Za-z \t\r\n~,-]*[a-z]")
# A word of a name.
NAME_PARTS = re.compile(rb"[ \t\r\n~]+")
NAME_WORD = re.compile(rb"[^ \t\r\n~,-]+")
LEAST_TITLE = 12
# The fields that tell works with one title from each other; with how many of these a work is compared.
PARTING = (b"pages", b"number", b"volume", b"doi")
MOST_OF_TITLE = 20
# The year of a date.
OF_DATE = re.compile(rb"[0-9]{4}")
# The types whose titles styles such as plain write in small letters; how many words that lose them are named.
LOWERED = frozenset(b"article conference inbook incollection inproceedings mastersthesis misc techreport unpublished".split())
MOST_LOST = 4
# All bytes but the signs at which LaTeX may stop.
NO_SIGN = bytes(byte for byte in range(256) if byte not in b"_&^%#")
NONE: FrozenSet[bytes] = frozenset()
LINE_END = ord("\n")
OPENS_BRACE = re.compile(rb"[ \t\r\n]*\{")
# Fields in which an address of the web is printed, also where a style doesn't read `url`.
PRINTS_ADDRESS = frozenset((b"howpublished", b"note"))


class Source(NamedTuple):
    """A file: its name, for people, and its text."""

    name: str
    text: bytes


class Finding(NamedTuple):
    """What a check says of a place: the bytes from `start` to `end` of a file."""

    source: Source
    start: int
    end: int
    check: str
    text: str
    key: str = ""

    @property
    def severity(self) -> str:
        return CHECKS[self.check].severity


class Citation(NamedTuple):
    """A citation of an `.aux` file: its key, and where that is."""

    key: bytes
    source: Source
    start: int


class Elsewhere(NamedTuple):
    """What other documents cite from the same databases: their keys in lower case. aux: the name of the `.aux` file whose citations are looked at."""

    aux: str
    keys: FrozenSet[bytes]


class Style:
    """What a style reads: its fields, types and strings. printing: what it prints."""

    def __init__(self, text: bytes, found: Optional[StyleText] = None, name: str = "this style") -> None:
        # (only what asks for a style waits until these are read)
        from .bsttext import read_style
        from .trying import Printing

        style = read_style(text) if found is None else found
        self.fields = encoded([*style.named("field"), "crossref"])
        self.types = encoded(style.named("function"))
        self.printing = Printing(text, name, self.fields, self.types)
        self.strings = {name.encode("utf8", "surrogateescape"): text[slice(*place)].strip(b'"') for name, place in style.values.items()}


def encoded(names: Iterable[str]) -> FrozenSet[bytes]:
    return frozenset(name.encode("utf8", "surrogateescape") for name in names)


def shown(text: bytes) -> str:
    return text.decode("utf8", "surrogateescape")


# What is found: the number of the source, where it begins and ends, the check, what it is about, the key of its entry, and the source.
Found = Tuple[int, int, int, str, Tuple[Union[bytes, str], ...], Optional[bytes], Source]
# The same without a source.
Local = Tuple[int, int, str, Tuple[Union[bytes, str], ...], Optional[bytes]]
# What tells the work of an entry: the check that compares it, what is compared, the key of the entry and where that ends; what tells works with one title from each other, of the fields `PARTING`.
Work = Tuple[str, object, bytes, int, Tuple[Optional[bytes], ...]]


def examine(
    sources: List[Source],
    style: Optional[Style] = None,
    citations: Optional[List[Citation]] = None,
    off: FrozenSet[str] = frozenset(),
    most: Optional[int] = None,
    printing: Optional[Printing] = None,
    kept: Optional[Dict[int, Database]] = None,
    elsewhere: Optional[Elsewhere] = None,
) -> List[Finding]:
    """All findings of these databases, as those of one job in this order; by file and place. off: the names of checks that are left out. most: how many are wanted at most. printing: what the
    style of a job prints, where no style is named. kept: gets what was read of each source, by its `id`. elsewhere: what is cited, but not by these citations."""
    examiner = Examiner(style, printing)
    with without_collection():
        for number, source in enumerate(sources):
            examiner.examine(number, source)
        examiner.compare_persons()
        examiner.compare_parents()
        examiner.entries_in_comments()
        if citations is not None:
            examiner.compare_citations(citations, elsewhere or Elsewhere("the .aux file", NONE))
    if kept is not None:
        kept.update((id(source), database) for _, source, database in examiner.databases)
    found = examiner.found if not off else [it for it in examiner.found if it[3] not in off]
    found.sort(key=itemgetter(0, 1, 2))
    return [finding_of((start, end, check, what, key), source) for _, start, end, check, what, key, source in found[:most]]


def finding_of(found: Local, source: Source) -> Finding:
    """A finding in words."""
    start, end, check, what, key = found
    return Finding(source, start, end, check, SAID[check].format(*[it if isinstance(it, str) else shown(it) for it in what]), shown(key) if key else "")


class Examiner:
    """Examines databases one after another, and keeps what later ones are compared with.

    near_fields: of each unusual name of a field the one that may be meant; usual_fields: the names of which none is. fields_after: by the end of an item the fields that stand after it, in the text between items. of_persons, children: the lists of names, and the entries with a parent, which are looked at when all databases are read.
    works: what tells the works of the entries that aren't compared with others yet. firsts: of each doi the key of the first entry, and of each title with its year what tells its works from each other. plain_names:
    lists of names of which nothing is said. found: in any order."""

    def __init__(self, style: Optional[Style], printing: Optional[Printing] = None) -> None:
        self.style = style
        self.printing = printing if style is None else style.printing
        known = {name: name for name in (*MONTHS, *JOURNALS)}
        self.strings: Dict[bytes, bytes] = dict(known if style is None else style.strings)
        self.stored: Set[bytes] = set()
        self.databases: List[Tuple[int, Source, Database]] = []
        self.works: List[Work] = []
        self.firsts: Dict[object, Any] = {}
        self.plain_names: Set[bytes] = set()
        self.near_fields: Dict[bytes, Optional[bytes]] = {}
        self.usual_fields: Set[bytes] = set(FIELDS)
        self.of_persons: List[Tuple[int, Source, Database, Item, int, bytes]] = []
        self.children: List[Tuple[int, Source, Item, Dict[bytes, int]]] = []
        self.fields_after: Dict[int, Set[bytes]] = {}
        self.found: List[Found] = []
        self.number, self.source = 0, Source("", b"")
        self.may_have_accents = False
        self.database = Database(b"", [], {})

    def say(self, check: str, start: int, end: int, key: Optional[bytes], *what: Union[bytes, str]) -> None:
        self.found.append((self.number, start, end, check, what, key, self.source))

    def examine(self, number: int, source: Source) -> None:
        """Examines a database."""
        known = set(self.strings)
        self.number, self.source, self.database = number, source, read(source.text, self.stored, self.strings)
        self.databases.append((number, source, self.database))
        self.strings = self.database.strings
        self.fields_after = {}
        items = self.database.items
        if items:
            # (each entry asks for those of its fields)
            items[0].records.make_names()
        self.text_between(0, items[0].start if items else len(source.text))
        self.encoding()
        self.examine_items(items, len(source.text), known)
        self.found.extend((number, start, end, check, what, key, source) for start, end, check, what, key in repeated_works(self.works, self.firsts))
        self.works = []

    def examine_items(self, items: List[Item], end: int, known: Set[bytes]) -> None:
        """Examines items that follow one another, up to where the next one begins. known: the names of the strings that are defined before them; those that they define are added."""
        style, text = self.style, self.source.text
        for unknown in undefined_strings(self.database, known, items):
            if style is None or not unknown.item.is_entry or unknown.field in style.fields:
                name = text[unknown.part.start : unknown.part.end]
                what = "used in its own definition" if unknown.is_own else "undefined"
                self.say("undefined-string", unknown.part.start, unknown.part.end, key_of(unknown.item), name, what)
        self.between_items(items, end)
        self.may_have_accents = bool(items) and has_accents(text, items[0].start, end)
        for item in items:
            kind = item.records.kinds[item.at]
            if kind == ENTRY and (item.slip is None or not item.is_repeated):
                self.entry(item)
            elif kind in (STRING, PREAMBLE):
                self.defined(item, kind)

    def defined(self, item: Item, kind: int) -> None:
        """Examines a string or a preamble."""
        if not item.records.is_whole[item.at]:
            self.long_value(item)
        if kind == STRING and self.may_have_accents:
            self.accents(item.key_end, item.end, None)

    def accents(self, start: int, end: int, key: Optional[bytes]) -> None:
        """Looks for accents that are characters of their own."""
        for found in accents_in(self.source.text, start, end):
            self.say("combining-accent", found.start, found.end, key, found.said)

    def long_value(self, item: Item) -> None:
        """Says that a string's or a preamble's value is too long."""
        name = item.key or b"@" + item.kind
        start, end = (item.start, item.kind_end) if item.key is None else (item.key_end - len(name), item.key_end)
        self.say("long-value", start, end, None, name)

    def between_items(self, items: List[Item], end: int) -> None:
        """Says where the reading of an item ends with a mistake, and looks for fields in the text between items."""
        find, starts = self.source.text.find, [item.start for item in items[1:]]
        for item, following in zip(items, [*starts, end]):
            if item.slip is not None:
                self.slip(item)
            elif find(b"=", item.end, following) >= 0 and item.own_kind != b"comment":
                self.text_between(item.end, following)

    def slips(self, items: List[Item]) -> None:
        """Says where the reading of items ends with a mistake."""
        for item in items:
            if item.slip is not None:
                self.slip(item)

    def slip(self, item: Item) -> None:
        assert item.slip is not None
        place, text = item.slip
        if item.is_repeated:
            self.say("repeated-key", item.key_end - len(item.key or b""), item.key_end, key_of(item), text)
        else:
            self.say("mistake", place, min(place + 1, len(self.source.text)), key_of(item), text)

    def text_between(self, start: int, end: int) -> None:
        """Looks for fields in the text between items."""
        if self.source.text.find(b"=", start, end) < 0:
            return
        entries = list(ENTRY_IN_TEXT.finditer(self.source.text, start, end))
        for entry in entries:
            self.say("no-at-sign", *entry.span(1), entry[2], entry[1], entry[2])
        # (what comes after such an entry is its own)
        found = LOOKS_LIKE_FIELD.search(self.source.text, start, entries[0].start() if entries else end)
        if found is not None:
            self.say("fields-in-text", *found.span(1), None, found[1])
            self.fields_after[start] = {name.lower() for name in LOOKS_LIKE_FIELD.findall(self.source.text, start, end)}

    # ---- entries ----

    def entry(self, item: Item) -> None:
        """Examines an entry: its type, its fields, and what tells its work."""
        records, first, last = item.records, item.at + 1, item.last
        names = records.names_between(first, last)
        numbers = dict(zip(names, range(first, last)))
        if len(numbers) < last - first:
            numbers = self.first_of_each(item, names)
        if self.style is not None:
            self.unread(item, self.style, numbers)
        if SIGN_OF_TEX.search(item.key or b"") or not (item.key or b"").isascii():
            self.key_of(item)
        if self.printing is not None and item.slip is None:
            self.unprinted(item, self.printing, numbers)
        kind = item.kind
        if self.style is None and kind not in REQUIRED:
            self.say("unusual-type", item.start, item.kind_end, item.key, kind)
        if not self.usual_fields.issuperset(numbers):
            self.misspelt(item, numbers)
        # (most entries have all that is required)
        if b"crossref" in numbers:
            self.children.append((self.number, self.source, item, numbers))
        elif item.slip is None and (kind in EITHER or not ALONE.get(kind, NONE) <= numbers.keys()):
            self.required(item, numbers)
        if records.is_whole.find(0, first, last) >= 0:
            self.long_fields(item, numbers)
        if records.marks.find(1, first, last) >= 0:
            self.empty(item, numbers)
        for name, examine in EXAMINED:
            if name in numbers:
                examine(self, item, numbers[name])
        if self.source.text.find(b"$", item.start, item.end) >= 0:
            self.dollars(item, numbers)
        if self.source.text[item.start : item.end].translate(None, NO_SIGN):
            self.signs(item, numbers)
        if self.may_have_accents and has_accents(self.source.text, item.key_end, item.end):
            self.accents_of_fields(item, numbers)
        self.work(item, numbers)

    def first_of_each(self, item: Item, names: List[bytes]) -> Dict[bytes, int]:
        """The number of the first field of each name; the others are said."""
        numbers: Dict[bytes, int] = {}
        for number, name in enumerate(names, item.at + 1):
            if numbers.setdefault(name, number) != number:
                start, end = self.name_of(item, number)
                self.say("repeated-field", start, end, item.key, item.key or b"", self.source.text[start:end])
        return numbers

    def name_of(self, item: Item, number: int) -> Tuple[int, int]:
        """Where the name of a field begins and ends."""
        start = item.records.starts[number]
        return start, start + item.records.name_len[number]

    def key_of(self, item: Item) -> None:
        """Says which sign of a key TeX reads otherwise, and which one nobody sees."""
        key = item.key or b""
        of_tex, unseen = SIGN_OF_TEX.search(key), UNSEEN.search(shown(key))
        if of_tex is not None:
            self.say("key-of-tex", item.key_end - len(key), item.key_end, key, plain_key(shown(key)), of_tex[0])
        if unseen is not None:
            self.say("unseen-sign", item.key_end - len(key), item.key_end, key, f"{ord(unseen[0]):04X}", as_seen(shown(key)))

    def unread(self, item: Item, style: Style, numbers: Dict[bytes, int]) -> None:
        """Says what of an entry the style doesn't know."""
        if item.kind not in style.types:
            self.say("unknown-type", item.start, item.kind_end, item.key, item.key or b"")
        if not style.fields.issuperset(numbers):
            for name, number in numbers.items():
                if name not in style.fields:
                    self.say("unread-field", *self.name_of(item, number), item.key, name)

    def unprinted(self, item: Item, printing: Printing, numbers: Dict[bytes, int]) -> None:
        """Says which fields the style prints for another type alone; of a job's own style also which it doesn't read of those that the manual requires."""
        kind = item.kind
        lost = printing.not_printed(kind, numbers, b"crossref" in numbers)
        if lost is not None:
            self.say("unprinted-field", *self.name_of(item, numbers[lost]), item.key, printing.name, lost, kind, printing.usual_type(kind, lost) or b"")
        of_web = [b"url"] if kind not in REQUIRED and not PRINTS_ADDRESS & numbers.keys() else []
        for name in itertools.chain(*REQUIRED.get(kind, ()), of_web) if self.style is None else ():
            if name in numbers and name not in printing.fields:
                self.say("unread-field", *self.name_of(item, numbers[name]), item.key, name)

    def accents_of_fields(self, item: Item, numbers: Dict[bytes, int]) -> None:
        """Looks for accents that are characters of their own, in the fields that a style may print."""
        for name, number in numbers.items():
            if name not in NO_TEXTS and (self.style is None or name in self.style.fields):
                field = field_of(item.records, number)
                self.accents(self.database.start(field), field.end, item.key)

    def encoding(self) -> None:
        """Says which byte of the file isn't UTF-8, if one isn't."""
        text = self.source.text
        try:
            text.decode("utf8")
        except UnicodeDecodeError as error:
            if text[:2] not in (b"\xff\xfe", b"\xfe\xff"):
                self.say("not-utf8", error.start, error.start + 1, None, f"{text[error.start]:02X}")

    def misspelt(self, item: Item, numbers: Dict[bytes, int]) -> None:
        """Looks for a field whose name differs in a letter or two from one that the styles read."""
        for name in numbers.keys() - self.usual_fields:
            if name not in self.near_fields:
                self.near_fields[name] = near_field(name)
            near = self.near_fields[name]
            if near is None:
                self.usual_fields.add(name)
            elif near not in numbers and (self.style is None or name not in self.style.fields):
                self.say("misspelt-field", *self.name_of(item, numbers[name]), item.key, name, near)

    def required(self, item: Item, numbers: Dict[bytes, int]) -> None:
        """Says which fields an entry lacks that has no parent, nor has them after its end, by a brace too many."""
        for fields in missing_fields(item.kind, numbers.keys() | self.fields_after.get(item.end, set())):
            if self.style is None:
                self.missing(item, fields)
            elif self.style.printing.misses(item.kind, fields):
                self.say("missed-field", item.key_end - len(item.key or b""), item.key_end, item.key, self.style.printing.name, b" or ".join(fields), item.kind)

    def missing(self, item: Item, fields: Tuple[bytes, ...], check: str = "missing-field") -> None:
        self.say(check, item.key_end - len(item.key or b""), item.key_end, item.key, b" or ".join(fields), item.kind)

    def long_fields(self, item: Item, numbers: Dict[bytes, int]) -> None:
        """Says which fields have a value that is too long, of those that the style reads."""
        for name, number in numbers.items():
            if not item.records.is_whole[number] and (self.style is None or name in self.style.fields):
                self.say("long-value", *self.name_of(item, number), item.key, name)

    def empty(self, item: Item, numbers: Dict[bytes, int]) -> None:
        """Says which fields are empty."""
        records = item.records
        for number in records.lacking(item.at + 1, item.last):
            name = records.name(number)
            if not records.text_len[number] and records.is_whole[number] and numbers[name] == number:
                field = field_of(records, number)
                if self.database.is_text(field):
                    self.say("empty-field", self.database.start(field), field.end, item.key, name)

    def work(self, item: Item, numbers: Dict[bytes, int]) -> None:
        """Keeps what tells the work of an entry: its doi, and its title and year."""
        records, key = item.records, item.key or b""
        if b"doi" in numbers:
            self.works.append(("repeated-doi", RESOLVER.sub(b"", records.value(numbers[b"doi"]).lower()), key, item.key_end, ()))
        if b"title" in numbers:
            value = records.value(numbers[b"title"])
            title = (TEX_COMMAND.sub(b"", value) if b"\\" in value else value).lower().translate(None, NOT_TITLE)
            year = self.year_of_work(item, numbers)
            if year and len(title) >= LEAST_TITLE:
                parting = tuple([records.value(numbers[name]) if name in numbers else None for name in PARTING])
                self.works.append(("repeated-title", (title, year), key, item.key_end, parting))

    def year_of_work(self, item: Item, numbers: Dict[bytes, int]) -> bytes:
        """Its year, or that of its date; empty where it has neither."""
        value_of = item.records.value
        if b"year" in numbers:
            return value_of(numbers[b"year"])
        date = OF_DATE.match(value_of(numbers[b"date"])) if b"date" in numbers else None
        return date[0] if date else b""

    # ---- fields ----

    def text_of(self, item: Item, number: int) -> Optional[Field]:
        """A field, if its value is one text."""
        field = field_of(item.records, number)
        return field if self.database.is_text(field) else None

    def names(self, item: Item, number: int) -> None:
        """Examines the names of a field."""
        value = item.records.value(number)
        self.of_persons.append((self.number, self.source, self.database, item, number, value))
        if value in self.plain_names:
            return
        lowered = value.lower()
        # (first what takes less time)
        has_organization = not WORDS_OF_ORGANIZATIONS.isdisjoint(lowered.translate(TO_SPACES).split()) and OF_ORGANIZATIONS.search(value) is not None
        is_list = value.count(b",") > lowered.count(b" and ") + 1 or b";" in value or b"&" in value or value.startswith(b"{")
        is_plain = not has_organization and not is_list and value.isascii() and not has_others_inside(value, lowered) and not has_et_al(value, lowered)
        if is_plain and STRAY_AND.search(value) is None and (b"," not in value or SUFFIX_LAST.search(value) is None and INITIAL_BEFORE_COMMA.search(value) is None):
            self.plain_names.add(value)
            return
        its = self.database.text_at(item.records, number)
        if its is None:
            return
        text, offset = its[1], its[0] + 1
        found = ET_AL.search(text)
        if found is not None:
            self.say("et-al", offset + found.start(), offset + found.end(), item.key)
        hidden = hide_braces(text)
        if has_others_inside(text, text.lower()):
            self.others(item, offset, hidden)
        if has_organization:
            for start, end in spans_of_names(hidden):
                self.organization(item, offset, hidden, start, end)
        if VON.search(hidden):
            for start, end in spans_of_names(hidden):
                self.von(item, offset, hidden, start, end)
        self.list_of_names(item, offset, text, hidden)

    def list_of_names(self, item: Item, offset: int, text: bytes, hidden: bytes) -> None:
        """Looks for names that aren't parted by ` and `."""
        if item.slip is not None and FIELD_IN_NAMES.search(text) is not None:
            # (the mistake says that the list isn't closed)
            return
        for check, seen in (("names-by-sign", sign_by_names(hidden)), ("names-by-commas", names_by_commas(hidden, spans_of_names(hidden)))):
            if seen is not None and (check == "names-by-sign" or b";" not in hidden):
                self.say(check, offset + seen.start, offset + seen.end, item.key, seen.what)
        stray = stray_and(hidden)
        if stray is not None:
            self.say("stray-and", offset + stray.start, offset + stray.end, item.key, stray.what)
        for seen, _ in suffix_last(text, hidden, spans_of_names(hidden)) if b"," in hidden and SUFFIX_LAST.search(hidden) is not None else ():
            self.say("suffix-last", offset + seen.start, offset + seen.end, item.key, seen.what)
        space = OTHER_SPACE.search(hidden)
        if space is not None:
            self.say("no-break-space", offset + space.start(), offset + space.end(), item.key, f"U+{ord(space[0].decode()):04X}")
        if list_in_braces(text, OF_ORGANIZATIONS):
            self.say("list-in-braces", offset, offset + len(text), item.key)

    def others(self, item: Item, offset: int, hidden: bytes) -> None:
        """Looks for `others` before the last name."""
        for start, end in list(spans_of_names(hidden))[:-1]:
            if hidden[start:end].strip(b" \t\r\n").lower() == b"others":
                place = offset + hidden.index(hidden[start:end].strip(b" \t\r\n"), start)
                self.say("others-inside", place, place + len(b"others"), item.key)

    def organization(self, item: Item, offset: int, hidden: bytes, start: int, end: int) -> None:
        """Looks for a word of an organization in a name of several words that isn't in braces."""
        name = hidden[start:end].strip(b" \t\r\n")
        if len(NAME_PARTS.split(name)) > 1 and OF_ORGANIZATIONS.search(name):
            place = offset + hidden.index(name, start)
            self.say("bare-organization", place, place + len(name), item.key)

    def dollars(self, item: Item, numbers: Dict[bytes, int]) -> None:
        """Looks for a `$` that has no other one, in the fields that a style may print."""
        for name, number in numbers.items():
            value = item.records.value(number)
            if b"$" not in value or name in NO_TEXTS or (self.style is not None and name not in self.style.fields):
                continue
            if sum(found[0] == b"$" for found in DOLLAR.finditer(value)) % 2:
                field = field_of(item.records, number)
                self.say("odd-dollars", self.database.start(field), field.end, item.key)

    def signs(self, item: Item, numbers: Dict[bytes, int]) -> None:
        """Looks for signs at which LaTeX stops, in the fields that are set as texts."""
        search, value_of = SIGN.search, item.records.value
        for name in TEXTS.intersection(numbers):
            if search(value_of(numbers[name])) is None or (self.style is not None and name not in self.style.fields):
                continue
            found = self.database.text_at(item.records, numbers[name])
            seen = None if found is None else sign_of_tex(found[1])
            if found is not None and seen is not None:
                start = found[0] + 1
                self.say("sign-of-tex", start + seen.start, start + seen.end, item.key, seen.what)

    def year(self, item: Item, number: int) -> None:
        value = item.records.value(number)
        if not value[-2:].isdigit() and has_words(value):
            field = field_of(item.records, number)
            self.say("year-of-words", self.database.start(field), field.end, item.key, value)

    def title(self, item: Item, number: int) -> None:
        """Looks for words, commands and formulas of a title that lose their capital letters."""
        if item.slip is not None or (item.kind not in LOWERED if self.printing is None else not self.printing.lowers(item.kind)):
            return
        value = item.records.value(number)
        may_change, has_tex = may_lose(value), b"\\" in value or b"$" in value
        if not may_change and not has_tex:
            return
        found = self.database.text_at(item.records, number)
        if found is None:
            return
        start, raw = found[0] + 1, found[1]
        # (only what is hidden shows as points)
        hidden = hide_braces(raw.replace(b".", b";"))
        lost = lost_words(hidden) if may_change else []
        if lost:
            (place, word), words = lost[0], b", ".join(b"`" + word + b"`" for _, word in lost[:MOST_LOST])
            what = "styles such as plain write" if self.printing is None else f"{self.printing.name} writes"
            self.say("lost-capitals", start + place, start + place + len(word), item.key, words, word, what)
        for place, token, made in lowered_tokens(raw, hidden) if b"\\" in hidden or b"$" in hidden else ():
            what = "styles such as plain make" if self.printing is None else f"{self.printing.name} makes"
            self.say("lowered-tex", start + place, start + place + len(token), item.key, token, made, what)

    def von(self, item: Item, offset: int, hidden: bytes, start: int, end: int) -> None:
        """Looks for a word of a name that begins with a capital letter outside ASCII and is taken as von by its next letter."""
        comma = hidden.find(b",", start, end)
        words = list(NAME_WORD.finditer(hidden, start, end if comma < 0 else comma))
        for word in words[:-1]:
            first = word[0].decode("utf8", "replace")
            letter = next((it for it in first if it.isascii() and it.isalpha()), "")
            place = offset + word.start()
            is_special = b"{\\" in self.source.text[place : place + len(word[0])]
            if not first[0].isascii() and first[0].isupper() and letter.islower() and not is_special:
                self.say("von-letter", place, place + len(word[0]), item.key, first, letter)

    def pages(self, item: Item, number: int) -> None:
        value = item.records.value(number)
        found = None if b"--" in value else ONE_HYPHEN.search(value)
        if found is not None:
            field = self.text_of(item, number)
            if field is not None:
                self.say("one-hyphen", self.database.start(field), field.end, item.key, what_for_hyphens(found[0]))

    def month(self, item: Item, number: int) -> None:
        records = item.records
        if records.text[records.ends[number] - 1] in ENDS_TEXT and MONTH_NAME.fullmatch(records.value(number)):
            field = self.text_of(item, number)
            if field is not None:
                self.say("month-text", self.database.start(field), field.end, item.key, field.value[:3].lower())

    # ---- all databases ----

    def compare_persons(self) -> None:
        """Looks for names whose first word is the last name, and for lists in braces, as the names of all entries show it."""
        persons = Persons()
        persons.add({value: None for *_, value in self.of_persons if b"{" not in value})
        for at, source, database, item, number, value in self.of_persons:
            if value.startswith(b"{") and not list_in_braces(value, OF_ORGANIZATIONS) and list_in_braces(value, OF_ORGANIZATIONS, persons.firsts):
                self.number, self.source, self.database = at, source, database
                self.known_list(item, number)
            if b"," in value or b"{" in value or TWO_WORDS.search(value) is None:
                continue
            for family, given in persons.exchanged(value, item.key or b""):
                self.number, self.source, self.database = at, source, database
                field = field_of(item.records, number)
                self.say("names-exchanged", database.start(field), field.end, item.key, family, given)

    def known_list(self, item: Item, number: int) -> None:
        """Says that a list stands in braces, of whose persons the other names alone show it."""
        field = self.text_of(item, number)
        if field is not None:
            start = self.database.start(field) + 1
            self.say("list-in-braces", start, start + len(self.database.raw(field)), item.key)

    def compare_parents(self) -> None:
        """Says of entries with a parent, where that is there, whether it stands above them, and which fields they lack that it lacks as well."""
        if not self.children:
            return
        entries: Dict[bytes, Tuple[int, Item]] = {}
        for at, _, database in self.databases:
            for item in database.items:
                if item.is_entry and not item.is_repeated:
                    entries.setdefault((item.key or b"").lower(), (at, item))
        followed: Set[bytes] = set()
        for number, source, item, numbers in self.children:
            name = item.records.value(numbers[b"crossref"]).strip().lower()
            at, parent = entries.get(name, (0, None))
            self.number, self.source = number, source
            if parent is None:
                self.say("no-parent", *self.name_of(item, numbers[b"crossref"]), item.key, item.key or b"", item.records.value(numbers[b"crossref"]))
                continue
            if parent.value_of(b"crossref") is not None:
                self.say("nested-parent", *self.name_of(item, numbers[b"crossref"]), item.key, item.key or b"", parent.key or b"")
            # (the first entry that names it has it stored, if it is stored itself)
            if (at, parent.start) < (number, item.start) and name not in followed:
                self.say("parent-above", *self.name_of(item, numbers[b"crossref"]), item.key, parent.key or b"")
            elif (at, parent.start) > (number, item.start):
                followed.add(name)
            its = parent.records.names_between(parent.at + 1, parent.last)
            for fields in missing_fields(item.kind, {*numbers, *its}) if self.style is None and item.slip is None else []:
                self.missing(item, fields, "missing-in-parent")

    # ---- lines ----

    def entries_in_comments(self) -> None:
        """Says which entries are read to their ends though their line begins as a comment would."""
        for self.number, self.source, database in self.databases:
            text, begin, last = self.source.text, 0, 0
            # (most entries begin their lines; what is before the others on their lines is looked through once)
            for item in [item for item in database.items if item.start and text[item.start - 1] != LINE_END]:
                begin, last = max(begin, text.rfind(b"\n", last, item.start) + 1), item.start
                if item.is_entry and item.slip is None and AS_COMMENT.match(text, begin, item.start):
                    self.say("not-hidden", item.start, item.kind_end, item.key)
            for item in entries_in_braces_of_comments(text, database.items):
                # (one whose line begins with `@comment` is said already)
                if not AS_COMMENT.match(text, text.rfind(b"\n", 0, item.start) + 1, item.start):
                    self.say("not-hidden", item.start, item.kind_end, item.key)

    # ---- citations ----

    def compare_citations(self, citations: List[Citation], elsewhere: Elsewhere) -> None:
        """Says which citations have no entry, and which entries nothing cites, here or elsewhere."""
        entries: Dict[bytes, Tuple[int, Source, Item]] = {}
        for number, source, database in self.databases:
            for item in database.items:
                if item.is_entry and not item.is_repeated:
                    entries.setdefault((item.key or b"").lower(), (number, source, item))
        cited: Set[bytes] = set()
        for citation in citations:
            key = citation.key.lower()
            if key not in cited and key != b"*" and key not in entries:
                self.number, self.source = -1, citation.source
                self.say("no-entry", citation.start, citation.start + len(citation.key), citation.key, citation.key)
            cited.add(key)
        cited |= elsewhere.keys
        if b"*" in cited:
            return
        parents = {(item.value_of(b"crossref") or b"").lower() for key, (_, _, item) in entries.items() if key in cited and item.value_of(b"crossref") is not None}
        for key, (number, source, item) in entries.items():
            if key not in cited and key not in parents:
                self.number, self.source = number, source
                self.say("uncited", item.key_end - len(key), item.key_end, item.key, elsewhere.aux)


EXAMINED = (
    (b"author", Examiner.names),
    (b"editor", Examiner.names),
    (b"pages", Examiner.pages),
    (b"month", Examiner.month),
    (b"year", Examiner.year),
    (b"title", Examiner.title),
)


def entries_in_braces_of_comments(text: bytes, items: List[Item]) -> Iterator[Item]:
    """The entries that stand in the braces of a `@comment`, but for those after one whose braces aren't closed."""
    number = 0
    while number < len(items):
        comment, number = items[number], number + 1
        if comment.own_kind != b"comment" or OPENS_BRACE.match(text, comment.end) is None:
            continue
        depth, place, inside = 0, comment.end, []
        while number < len(items):
            start = items[number].start
            depth += text.count(b"{", place, start) - text.count(b"}", place, start)
            if depth <= 0:
                break
            inside.append(items[number])
            number, place = number + 1, start
        if depth > 0 and text.count(b"}", place) - text.count(b"{", place) < depth:
            return
        yield from (item for item in inside if item.is_entry and item.slip is None)


def repeated_works(works: List[Work], firsts: Dict[object, Any]) -> Iterator[Local]:
    """The works that earlier entries have. firsts: of each doi the key of the first entry, and of each title what tells its works from each other; those of these entries are added."""
    for check, work, key, end, parting in works:
        first = firsts.setdefault(work, key) if check == "repeated-doi" else first_of_title(work, key, parting, firsts)
        if first != key:
            yield end - len(key), end, check, (first,), key


def first_of_title(work: object, key: bytes, parting: Tuple[Optional[bytes], ...], firsts: Dict[object, Any]) -> bytes:
    """The key of an earlier entry with this title and year, where nothing tells the two from each other, or else the key of this one."""
    known: List[Tuple[Tuple[Optional[bytes], ...], bytes]] = firsts.setdefault(work, [])
    first = next((its for other, its in known if other == parting or not are_parted(other, parting)), None) or firsts.get((work, parting))
    if first is not None:
        return bytes(first)
    # (a column that each issue has would be compared with all others)
    if len(known) < MOST_OF_TITLE:
        known.append((parting, key))
    firsts[work, parting] = key
    return key


def are_parted(one: Tuple[Optional[bytes], ...], other: Tuple[Optional[bytes], ...]) -> bool:
    """Whether a field that both have tells two works from each other."""
    return any(left and right and bare(left) != bare(right) for left, right in zip(one, other))


def bare(value: bytes) -> bytes:
    """A value without what only writes it in another way."""
    return RESOLVER.sub(b"", value.lower()).translate(None, b" \t\r\n{}~-\xe2\x80\x93")


def without_unread(findings: List[Finding]) -> List[Finding]:
    """The findings without those of fields that the style doesn't read where another field may be meant."""
    misspelt = {(id(it.source), it.start) for it in findings if it.check == "misspelt-field"}
    return [it for it in findings if it.check != "unread-field" or (id(it.source), it.start) not in misspelt] if misspelt else findings


def key_of(item: Item) -> Optional[bytes]:
    return item.key if item.is_entry else None


def has_others_inside(value: bytes, lowered: bytes) -> bool:
    """Whether `others` may be another name than the last one."""
    return b"others" in lowered and (b"thers" in value or b"THERS" in value) and not (lowered.endswith(b"others") and lowered.count(b"others") == 1)


def has_et_al(value: bytes, lowered: bytes) -> bool:
    # (first what takes less time)
    return b"al" in lowered and b"etal" in lowered.translate(None, b". ~") and ET_AL.search(value) is not None


def lines_of(source: Source, known: Dict[int, Lines]) -> Lines:
    """The lines of a file, which are counted once."""
    if id(source) not in known:
        known[id(source)] = Lines(source.text)
    return known[id(source)]
