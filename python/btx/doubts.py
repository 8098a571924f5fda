"""What may be meant otherwise in the text of one field: signs at which LaTeX stops, lists of names that a run reads otherwise, words, commands and formulas of a title that lose their capital letters, years of
words. And entries without an `@` in the text between items.

`front/src/doubts.rs` and `persons.rs` see the same of the entries that a job cites."""

from __future__ import annotations

import re
from typing import Container, Dict, Iterable, Iterator, List, NamedTuple, Optional, Set, Tuple

from .values import BRACE

__all__ = [
    "AS_COMMENT", "ENTRY_IN_TEXT", "INITIAL_BEFORE_COMMA", "OTHER_SPACE", "Persons", "SIGN", "STRAY_AND", "SUFFIX_LAST", "TEXTS", "TWO_WORDS", "has_words", "hide_braces", "list_in_braces", "lost_words", "lowered_tokens", "may_lose",
    "names_by_commas", "sign_by_names", "sign_of_tex", "spans_of_names", "stray_and", "suffix_last", "what_for_hyphens",
]

# Fields whose text LaTeX sets as text.
TEXTS = frozenset(b"title booktitle journal publisher series note organization institution school address edition howpublished type".split())
# A sign at which LaTeX may stop, without a backslash.
SIGN = re.compile(rb"(?<!\\)[_&^%#]")
# What a sign may stand in: an address or the like, a command, a formula.
TOKEN = re.compile(rb"\\(?:url|href|path|doi|nolinkurl|lstinline|verb|cite|ref|ce|ensuremath)[ \t\r\n]*\{[^{}]*\}|\\[A-Za-z]+|\\.|[$_&^%#]", re.DOTALL)
IN_DOI = re.compile(rb"10\.[0-9]{4,}/[^ \t\r\n]*\Z")
# Spaces that look like that of the keyboard, and at which no words are parted.
OTHER_SPACE = re.compile(rb"\xc2\xa0|\xe2\x80\x89|\xe2\x80\xaf")
PARTS_NAMES = re.compile(rb"[ \t\r\n]+and(?=[ \t\r\n])[ \t\r\n]*", re.IGNORECASE)
WORD = re.compile(rb"[^ \t\r\n~]+")
# A name of two words in a list.
TWO_WORDS = re.compile(rb"(?:\A|\sand\s)\s*[^\s~]{3,}[\s~]+[^\s~]{3,}\s*(?:\Z|\sand\s)", re.IGNORECASE)
BY_SIGN = re.compile(rb";|(?<![^ \t\r\n~])\\?&(?![^ \t\r\n~])")
WHOLE_IN_BRACES = re.compile(rb"[ \t\r\n]*\{((?:[^{}]|\{[^{}]*\})*)\}[ \t\r\n]*")
# A word that is one initial; words of organizations that may be persons' names too, so that they tell nothing where no list stands in braces. front/src/persons.rs has the same.
INITIAL = re.compile(rb"[A-Z]\.")
# An initial, a word and a comma: `A. Bee,` of a list whose names commas part.
INITIAL_BEFORE_COMMA = re.compile(rb"(?<![^ \t\r\n~])[A-Z]\.[ \t\r\n~]+[^ \t\r\n~,]+,")
# An `and` that begins a list, follows another one or ends the list.
STRAY_AND = re.compile(rb"\A[ \t\r\n]*(?P<first>and)(?![^ \t\r\n])|[ \t\r\n]and[ \t\r\n]+(?P<second>and)(?![^ \t\r\n])|[ \t\r\n](?P<last>and)[ \t\r\n]*\Z", re.IGNORECASE)
OF_COMPANIES = frozenset(b"administration agency authority board co companies company corp division inc limited ltd museum office press service services".split())
# The words of a title, those with a hyphen between them as one (`X-ray`).
TITLE_WORD = re.compile(rb"[A-Za-z]+(?:-[A-Za-z]+)*")
# A long word after the first one, which tells whether a title has capital letters without names; a capital letter after another letter.
TELLING = re.compile(rb"(?<=[^A-Za-z-])[A-Za-z][a-z-]{3,}(?![A-Za-z-])")
LATER_CAPITAL = re.compile(rb"[A-Za-z][A-Z]")
# A capital letter, and before it what comes before a word that is lost: a letter or a digit, or a sign after which a name may stand.
MAY_BE_LOST = re.compile(rb"[A-Za-z0-9,).]\s*[A-Z]")
# What is in braces is hidden by this sign.
HIDDEN = b"."
NO_TITLE_WORD = re.compile(rb"\\[A-Za-z]+|\$[^$]*\$")
OF_GRAMMAR = frozenset(b"about after against among before behind between beyond during from into over than that their through towards under using versus with without".split())
SUFFIXES = frozenset((b"jr", b"jr.", b"sr", b"sr.", b"ii", b"iii", b"iv"))
AFTER_COLON = re.compile(rb":[ \t\r\n]+")
# A suffix after a comma, as the end of a name; a word of a name, or a comma. front/src/doubts.rs has the same suffixes.
SUFFIX_LAST = re.compile(rb",[ \t\r\n~]*(?:(?i:jr|sr)\.?|II|III|IV)[ \t\r\n~]*(?:\Z|(?<=[ \t\r\n])(?i:and)[ \t\r\n])")
NAME_TOKEN = re.compile(rb"[^ \t\r\n~,]+|,")
# A command or a formula of TeX; the commands that are letters, which lose their capitals in braces as well.
OF_TEX = re.compile(rb"\\[A-Za-z]+|\\\((?:[^\\]|\\[^)])*\\\)|\\.|\$(?:[^$\\]|\\.)*\$", re.DOTALL)
LETTERS = frozenset((b"\\L", b"\\O", b"\\AA", b"\\AE", b"\\OE"))
# How a line begins that is meant as a comment.
AS_COMMENT = re.compile(rb"[ \t]*(?:%|@comment(?![a-z]))", re.IGNORECASE)
# What looks like an entry, but for its `@`: a word, a brace, a key, and a field.
ENTRY_IN_TEXT = re.compile(rb"(?m)^[ \t]*([A-Za-z]+)[ \t]*[{(][ \t]*([^\x00-\x20\"#%'(),={}]+)[ \t]*,\s*[A-Za-z][A-Za-z_-]*[ \t]*=")
DASHES = {"-": "one hyphen", "\u2010": "a hyphen of its own", "\u2011": "a non-breaking hyphen", "\u2012": "a figure dash", "\u2013": "an en dash", "\u2014": "an em dash", "\u2212": "a minus sign"}
# Braces with what is in them, if that has none; how deep braces are in most texts; where a name of a list ends.
IN_BRACES = re.compile(rb"\{[^{}]*\}")
MOST_DEPTH = 3
NAMES_END = re.compile(rb"[ \t\r\n]and(?=[ \t\r\n])", re.IGNORECASE)
# A letter that is written as in HTML, and what stands for some of them in TeX.
HTML_LETTER = re.compile(rb"&(?:[A-Za-z]{2,8}|#[0-9]{2,6}|#[xX][0-9A-Fa-f]{2,5});")
OF_HTML = {"&": "`\\&`", "<": "`$<$`", ">": "`$>$`", '"': "a quote of TeX, ``..''", "'": "`'`", "\xa0": "`~`", "\u2010": "`-`", "\u2013": "`--`", "\u2014": "`---`", "\u2018": "a quote of TeX, `..'", "\u2019": "`'`", "\u201c": "a quote of TeX, ``..''", "\u201d": "a quote of TeX, ``..''"}
MOST_WORDS = 5
LEAST_LETTERS = 3


class Seen(NamedTuple):
    """A place in a text, from its start to its end, and what is said of it."""

    start: int
    end: int
    what: str


def sign_of_tex(text: bytes) -> Optional[Seen]:
    """The first sign at which LaTeX stops, outside of formulas and addresses; none where the `$` of a text aren't paired."""
    is_formula, first = False, None
    for found in TOKEN.finditer(text):
        token = found[0]
        if token == b"$" or token in (b"\\(", b"\\)"):
            is_formula = not is_formula
        elif len(token) == 1 and first is None and (not is_formula or token == b"%"):
            first = found
    if first is None or is_formula:
        return None
    letter = HTML_LETTER.match(text, first.start())
    meant = None if letter is None else meant_by_letter(letter[0].decode())
    if letter is not None and meant is not None:
        return Seen(*letter.span(), f"write {meant} in the place of `{letter[0].decode()}`, which is a letter of HTML")
    sign = first[0].decode()
    before = text[: first.start()]
    if b"://" in before:
        return Seen(*first.span(), f"put the address into `\\url{{..}}`: LaTeX stops at its `{sign}`")
    if sign in "_^":
        of_doi = " or put the doi into the field `doi`" if IN_DOI.search(before) else " or put the formula into `$..$`"
        return Seen(*first.span(), f"write `\\{sign}`,{of_doi}: LaTeX stops at a `{sign}` outside of a formula")
    why = "takes the rest of the line for a comment" if sign == "%" else "stops at it"
    return Seen(*first.span(), f"write `\\{sign}` for the bare `{sign}`: LaTeX {why}")


def meant_by_letter(written: str) -> Optional[str]:
    """What stands for a letter that is written as in HTML; None where it isn't one."""
    from html import unescape

    letter = unescape(written)
    return OF_HTML.get(letter) or (f"`{letter}`" if len(letter) == 1 and letter.isalpha() else None)


def sign_by_names(hidden: bytes) -> Optional[Seen]:
    """A semicolon or an `&` between names; hidden: the list, in which what is in braces isn't shown."""
    found = BY_SIGN.search(hidden)
    sign = found[0].decode() if found else ""
    return Seen(*found.span(), f"names are parted by ` and `: write it for the `{sign}`") if found else None


def stray_and(hidden: bytes) -> Optional[Seen]:
    """An `and` with no name before it or after it."""
    found = STRAY_AND.search(hidden)
    if found is None or found.lastgroup is None:
        return None
    what = {"first": "take out this `and`: no name stands before it", "second": "take out one of the two `and`: between them stands no name", "last": "take out this `and`: no name stands after it"}
    return Seen(*found.span(found.lastgroup), what[found.lastgroup])


def names_by_commas(hidden: bytes, spans: Iterable[Tuple[int, int]]) -> Optional[Seen]:
    """A name whose commas seem to part names."""
    for start, end in spans:
        why = why_several(hidden[start:end].split(b","))
        if why is not None:
            begin = start + len(hidden[start:end]) - len(hidden[start:end].lstrip())
            return Seen(begin, start + len(hidden[start:end].rstrip()), f"names are parted by ` and `, not by commas: {why}")
    return None


def why_several(parts: List[bytes]) -> Optional[str]:
    """Why the parts of a name, which commas part, seem to be several names: its last name begins with an initial, its Jr is of several words or an initial, or it has too many commas."""
    words = [WORD.findall(part) for part in parts]
    if len(parts) > 3:
        return "a name has at most two commas, and a run logs an error"
    if len(parts) < 2 or not words[-1] or SUFFIX_LAST.match(b"," + parts[-1]) or is_of_company(words[-1][-1]):
        return None
    if len(parts) == 3 and (len(words[1]) > 1 or words[1] and INITIAL.fullmatch(words[1][0])):
        return "with two commas this is one, `von Last, Jr, First`"
    if len(words[0]) > 1 and INITIAL.fullmatch(words[0][0]):
        return f"with a comma this is one, `Last, First`, whose last name begins with `{words[0][0].decode()}`"
    return None


def list_in_braces(text: bytes, is_of_organization: "re.Pattern[bytes]", firsts: Container[bytes] = ()) -> bool:
    """Whether a list of several persons is one name, since all of it stands in braces of its own. firsts: what is known as somebody's first name, in lower case."""
    found = WHOLE_IN_BRACES.fullmatch(text)
    names = PARTS_NAMES.split(found[1]) if found else []
    return len(names) > 1 and all(is_person(name, is_of_organization, firsts) for name in names)


def is_person(name: bytes, is_of_organization: "re.Pattern[bytes]", firsts: Container[bytes]) -> bool:
    """Whether words are a person's name: `Last, First`, or a few words that begin with capital letters, one of them an initial or the first one a known first name."""
    words = WORD.findall(name)
    if not 1 < len(words) <= MOST_WORDS or is_of_organization.search(name) or any(is_of_company(word) for word in words):
        return False
    commas = sum(word.endswith(b",") for word in words)
    if commas:
        return commas == 1 and not words[-1].endswith(b",")
    shows_first = words[0].lower() in firsts or any(INITIAL.fullmatch(word) for word in words)
    return shows_first and not any(word[:1].islower() for word in words)


def is_of_company(word: bytes) -> bool:
    """Whether a word, with or without a comma or a point after it, is one of a company or the like."""
    word = word[:-1] if word.endswith(b",") else word
    return (word[:-1] if word.endswith(b".") else word).lower() in OF_COMPANIES


def may_lose(title: bytes) -> bool:
    """Whether words of a title may lose capital letters: in most titles they have them by their place, and no more than one."""
    telling = TELLING.search(title)
    return telling is not None and telling[0].islower() or LATER_CAPITAL.search(title) is not None


def lost_words(hidden: bytes) -> List[Tuple[int, bytes]]:
    """The words of a title, whose points are those of what is in braces, that lose capital letters: one after the first, or the first one in a title whose other words have small letters."""
    if b"\\" in hidden or b"$" in hidden:
        hidden = NO_TITLE_WORD.sub(lambda it: b"." * len(it[0]), hidden)
    if MAY_BE_LOST.search(hidden) is None:
        return []
    words = [(it.start(), it[0]) for it in TITLE_WORD.finditer(hidden)]
    small = [word for _, word in words if word.islower()]
    long = [(place, word) for place, word in words if len(word) > 3 and word not in OF_GRAMMAR]
    second = next((word for place, word in long if place and word[1:].islower()), b"X")
    has_names = second.islower() and sum(word.islower() for _, word in long) > 1 and not (b":" in hidden or b"?" in hidden or b";" in hidden)
    if not any(len(word) > 1 for word in small):
        return []

    def is_lost(place: int, word: bytes) -> bool:
        before = hidden[:place].rstrip()[-1:]
        is_name = has_names and len(word) >= LEAST_LETTERS and (before.isalnum() or before in (b",", b")", HIDDEN))
        return LATER_CAPITAL.search(word) is not None or is_name and word[:1].isupper()

    return [(place, word) for place, word in words if is_lost(place, word)]


def lowered_tokens(text: bytes, hidden: bytes) -> Iterator[Tuple[int, bytes, bytes]]:
    """The commands and formulas of a title that a style changes which writes it in small letters: where each begins, what it is, and what the style makes of it. hidden: the title, in which what is in braces isn't
    shown."""
    lowered: Optional[bytes] = None
    for found in OF_TEX.finditer(hidden):
        token = found[0]
        if token.islower() or not token[1:].strip(b"\\") or token in LETTERS:
            continue
        lowered = in_small_letters(hidden) if lowered is None else lowered
        start, end = found.span()
        if lowered[start:end] != token:
            made = bytes(new if seen == old else old for new, seen, old in zip(lowered[start:end], token, text[start:end]))
            yield start, text[start:end], made


def in_small_letters(hidden: bytes) -> bytes:
    """A title as `change.case$` makes it for `t`: small letters but for the first character, and that after a colon and whitespace."""
    begin = len(hidden) - len(hidden.lstrip())
    kept = {begin, *(found.end() for found in AFTER_COLON.finditer(hidden))}
    lowered = hidden.lower()
    return b"".join(hidden[at : at + 1] if at in kept else lowered[at : at + 1] for at in range(len(hidden)))


def suffix_last(text: bytes, hidden: bytes, spans: Iterable[Tuple[int, int]]) -> Iterator[Tuple[Seen, bytes]]:
    """The names that end with a comma and a suffix, and what is to be written: `Martin King, Jr.`, whose suffix is taken as the first name, and `King, Martin, Jr.`, whose first name is taken as the suffix."""
    for start, end in spans:
        parts: List[List[bytes]] = [[]]
        tokens = list(NAME_TOKEN.finditer(hidden, start, end))
        for token in tokens:
            if token[0] == b",":
                parts.append([])
            else:
                parts[-1].append(text[slice(*token.span())])
        if not 1 < len(parts) < 4 or len(parts[-1]) != 1 or not SUFFIX_LAST.match(b"," + parts[-1][0]):
            continue
        family, given = (parts[0], parts[1]) if len(parts) == 3 else divided(parts[0])
        if family and given:
            better = b" ".join(family) + b", " + parts[-1][0] + b", " + b" ".join(given)
            shown = better.decode("utf8", "surrogateescape"), parts[-1][0].decode("utf8", "surrogateescape")
            what = f"write `{shown[0]}`, as in `von Last, Jr, First`: `{shown[1]}` stands in the place of the first name"
            yield Seen(tokens[0].start(), tokens[-1].end(), what), better


def divided(words: List[bytes]) -> Tuple[List[bytes], List[bytes]]:
    """The last name of these words, with its von, and the words before it."""
    of_von = next((number for number, word in enumerate(words) if word[:1].islower()), len(words) - 1)
    return words[of_von:], words[:of_von]


def what_for_hyphens(pages: bytes) -> str:
    """What stands between two numbers in the place of two hyphens."""
    sign = pages.decode("utf8", "replace").strip("0123456789 ")
    return DASHES.get(sign, "one hyphen") + ("" if sign.isascii() else f" (U+{ord(sign[0]):04X})")


def has_words(year: bytes) -> bool:
    """Whether a year is words, or ends in words."""
    counted = re.sub(rb"[^A-Za-z0-9 ]", b"", year).strip()
    return bool(counted) and not counted[-2:].isdigit() and b"\\" not in year


class Persons:
    """The first and the last names of all persons of some databases, each of different names once."""

    def __init__(self) -> None:
        self.firsts: Dict[bytes, int] = {}
        self.lasts: Dict[bytes, int] = {}
        # the names of two words without a comma
        self.pairs: Set[Tuple[bytes, bytes]] = set()

    def add(self, lists: Iterable[bytes]) -> None:
        """Counts the names of lists."""
        names = dict.fromkeys(name for names in lists for name in PARTS_NAMES.split(names.lower()))
        for name in names:
            last, comma, rest = name.partition(b",")
            words = (rest.rsplit(b",")[-1] if comma else name).replace(b"~", b" ").split()
            family = last.replace(b"~", b" ").split()[-1:] if comma else words[-1:]
            if comma and not words or not comma and len(words) < 2 or not family:
                continue
            if not comma and family[0] in SUFFIXES and len(words) > 2:
                family = words[-2:-1]
            if not comma and len(words) == 2:
                self.pairs.add((words[0], words[1]))
            self.firsts[words[0]] = self.firsts.get(words[0], 0) + 1
            self.lasts[family[0]] = self.lasts.get(family[0], 0) + 1

    def exchanged(self, names: bytes, key: bytes) -> Iterator[Tuple[bytes, bytes]]:
        """The names of two words of which the first one is the last name, as other names and the entry's key show it."""
        for name in PARTS_NAMES.split(names):
            words = WORD.findall(name)
            if len(words) == 2 and self.is_exchanged(words[0].lower(), words[1].lower(), key.lower()):
                yield words[0], words[1]

    def is_exchanged(self, family: bytes, given: bytes, key: bytes) -> bool:
        # (the name itself counts once as well)
        is_whole = min(len(family), len(given)) >= LEAST_LETTERS and b"." not in family + given
        is_known = self.firsts.get(given, 0) > 0 and self.lasts.get(given) == 1 and self.firsts.get(family) == 1
        # (of two names that stand against each other neither tells)
        is_known = is_known and (given, family) not in self.pairs
        return is_whole and is_known and given not in key and (self.lasts.get(family, 0) > 0 or key.startswith(family))


def hide_braces(text: bytes) -> bytes:
    """A text in which what is in braces is dots."""
    if b"{" not in text:
        return text
    hidden = text
    for _ in range(MOST_DEPTH):
        hidden = IN_BRACES.sub(as_dots, hidden)
        if b"{" not in hidden:
            return hidden.replace(b"}", b".")
    pieces: List[bytes] = []
    at = depth = 0
    for found in BRACE.finditer(text):
        end = found.end()
        is_hidden = depth > 0 or found[0] == b"{"
        pieces.append(text[at : found.start()] + b"." if not depth else b"." * (end - at))
        depth = max(depth + (1 if found[0] == b"{" else -1), 0) if is_hidden else 0
        at = end
    pieces.append(b"." * (len(text) - at) if depth else text[at:])
    return b"".join(pieces)


def as_dots(found: "re.Match[bytes]") -> bytes:
    return b"." * len(found[0])


def spans_of_names(hidden: bytes) -> Iterator[Tuple[int, int]]:
    """Where each name of a list begins and ends."""
    start = 0
    for found in NAMES_END.finditer(hidden):
        yield start, found.start()
        start = found.end()
    yield start, len(hidden)
