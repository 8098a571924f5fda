"""What to do about a finding of the doctor, in the words of the program's explanations (`front/src/advice.rs` has the same ones; a test compares them)."""

from __future__ import annotations

import re
from functools import lru_cache
from typing import Dict, Iterable, List, Optional, Tuple, Union

from .bibtext import REPEATED, Item, Lines
from .key_signs import as_seen, remedy_of_key
from .known import ALIKE, Names, names_of

__all__ = ["GENERAL", "SEEN", "begins_item", "begins_month", "field_for_each_name", "missed_field", "not_hidden", "of_items", "of_missing", "of_mistake", "remedy_of", "said"]

# What a text shows where a mistake was met. $1, $2 and so on are names and places.
SEEN = {
    "NoKey": "write the entry's key first: `@$1{KEY, $2 = ..`",
    "KeyOfWords": "write the key without whitespace: `$1`",
    "NoCommaAfterKey": "put a comma after the key `$1`",
    "NoComma": "put a comma after the value of `$1`, which ends at $2",
    "NoEquals": "put an `=` after `$1`",
    "OtherForEquals": "write `$1 = ..`, with an `=` in the place of the `$2`",
    "NoValue": "write the value of `$1` after the `=`, or take the field out",
    "BareCommand": "put the value into braces: `{$1..}`",
    "PlusForHash": "write `#` in the place of the `+`: it joins the parts of the value of `$1`",
    "NameOfWords": "write the field's name without whitespace: `$1 = ..`",
    "NoQuote": "put the value into braces: `$1` isn't the quote `\"`",
    "SemicolonForComma": "write a comma after the $1, in the place of the `;`",
    "NamesInOneValue": "put all names into one pair of braces: `$1 = {$2}`",
    "QuoteTooEarly": "close the value of `$1`, which begins at $2: the quote before this place ends it",
    "QuoteInText": 'put the quote in the value of `$1` into braces, as in `{\\"o}`: it ends the value',
    "QuotesInText": "put the whole value of `$1` into braces, and write ``..'' within it: the quote before this place ends the value",
    "RunsOn": "close the value of `$1`, which begins at $2: it has taken in what looks like the field `$3` ($4)",
    "QuoteForBrace": "write `}` in the place of the quote that ends $2: the value of `$1` begins with a brace",
    "BraceTooMany": "count the braces in the value of `$1`: a `}` too many ends it before this place",
    "NoHash": "join the parts of the value of `$1` by `#`$2",
    "NotHidden": "take out the `@` of $1: neither `%` nor `@comment` hides an entry",
    "FieldForEachName": "write one field `$1` with ` and ` between the names: `$1 = {$2}`",
    "AddField": "add $1 to the entry",
    "AddPart": "add $1 to the entry; a whole book is `@book`",
    "AddBooktitle": "add `booktitle = $1` to the parent: an entry takes only fields of the same name from it",
    "NotClosed": "close $1: a `}` is missing above this line",
    "NotClosedAtEnd": "close $1: its last `$2` is missing",
    "BreaksOff": "export or copy the file once more: it breaks off in $1. Or write what is missing there, and close it by `$2`",
    "OtherBrace": "close this item by `$2`, since it is opened by `$3`: $1",
    "CommentSign": "take this line out, or its `%`: a database has no comments inside an entry",
    "CommentLine": "take this comment out: a database has no comments inside an entry",
    "CommaTwice": "take out one of the two commas",
    "BareValue": "put the value of `$1` into braces: outside braces and quotes only a number or the name of a `@string` may stand",
    "FileIsUtf16": "save $1 as UTF-8: it is in UTF-16",
    "EtAl": "write `and others`, of which the style makes et al.",
    "OthersInside": "put `and others` after the last name",
    "NearKey": "write `$2` in the place of `$1` in the `\\cite`, and run LaTeX",
    "OtherForm": "copy the key `$1` from the database into the `\\cite`, and run LaTeX: it looks the same as the one there, and has other bytes",
    "MonthsInOne": "join two names by `#`: `$1 # \"--\" # $2`",
    "NearType": "write `@$2`: the style has no function `$1`",
    "OneOfBoth": "take `$1` or `$2` out of the entry: this style prints only one of them",
    "FieldIsMissing": "give the entry a field `$1`: this style takes it without asking whether it is there",
    "SecondQuote": "close the value of `$1`, which begins at $2: its second quote is missing",
    "NearString": "write `$1`, or define `$2` by `@string` above its use",
    "NearParent": "write `crossref = {$1}`",
    "NamesByCommas": "write ` and ` between two names: `$1`",
    "AuxBreaksOff": "run LaTeX again to its end, then BibTeX: $1 ends in the middle of a line",
    "OlderAux": "run LaTeX again: $1 has `$2`, so the `.aux` file is older",
    "NoStyleInDocument": "write `\\bibliographystyle{plain}`, or another style, above $1, and run LaTeX",
    "OtherStyle": "keep one `\\bibliographystyle` and run LaTeX: `$1` ($2) is in effect, since it stands first; take it away if `$3` (line $4) is meant",
    "DefinedInLater": "write `\\bibliography{$1}` and run LaTeX: $2 defines the string and is read too late",
    "DefinedBelow": "move the `@string` of `$1` ($2) above its first use",
    "EntryOfNoKey": "write the key into it: `@$1{$2,`",
    "UnprintedAddress": "this style never prints `$1`: name one that does, such as `plainurl` or `plainnat`, or write `note = {\\url{..}}`",
    "OtherWork": "give the second another key, such as `$1`, and cite it by that: its title is another one",
    "IsArticle": "write `@article` for its type, if it is a paper in a journal; else call `journal` `booktitle`",
    "OtherField": "call it `$2`, as entries of this type have it: `$1` doesn't count here",
    "OfBiblatexDate": "write `year = {$1}`: `date` is a field of `biblatex`. Programs can export as BibTeX, not as BibLaTeX",
    "OfBiblatexType": "write `@$2`: `@$1` is a type of `biblatex`, and this style has no function of that name",
    "OfBiblatexField": "call it `$2`: `$1` is a field of `biblatex`. Programs can export as BibTeX, not as BibLaTeX",
    "AlikeName": "write the name once more, with the `$1` of the keyboard: `$2`",
    "SpaceInName": "write the name once more, without that space: `$1`",
    "NoHashBefore": "join the parts of the value of `$1` by `#`: write one before $2",
    "LetterForDigit": "write `$1`: the `$2` is a letter in the place of a digit",
    "CommasOfOneName": "write `$1`: a name has at most two commas, `von Last, Jr, First`",
    "SemicolonInCite": "write `$1` in the `\\cite`, with a comma between two keys, and run LaTeX",
    "OfSomeInclude": "run it on the whole document: $1 is of a part that `\\include` names there",
    "OfBiblatex": "run `biber $1` in the place of BibTeX, or give `biblatex` the option `backend=bibtex` and run LaTeX",
}

# The same that the doctor alone sees, so far.
QUOTED_NAME = "write the name without quotes: `$1`"
TWO_EQUALS = "take out one of the two `=` after `$1`"
# What a run says of a citation whose key is empty.
NO_PARENT = "no database has the entry `$1`: write it below all entries that name it, or take the field `crossref` out"
UNSEEN_SIGN = "write the key of the entry once more, without its character that nobody sees: `$1`"
OF_MERGE = "take out what git has written for a conflict: the lines that begin with `<<<<<<<`, `=======` and `>>>>>>>`, and one of the two versions between them"
EMPTY_CITE = "write a key in the empty `\\cite{}`, or take it out"
# What to do about a message where nothing more is seen: `*` is a name and `~` any other text.
GENERAL = {
    "White space in argument": "write no space in `\\cite{..}`, `\\bibliography{..}` or the name of a file",
    'No "}"': "run LaTeX again: the `.aux` file wasn't written to its end. Else a line end stands in a key",
    "Illegal, another \\bibdata command": (
        "name all databases in one `\\bibliography`; for several bibliographies a package as `multibib` or `chapterbib` writes an `.aux` file for each"
    ),
    "Illegal, another \\bibstyle command": "keep one `\\bibliographystyle`; some classes and packages (`revtex`, `natbib`'s styles) give one by themselves",
    "Case mismatch error between cite keys ~ and ~": "cite the key in one spelling",
    "I found no \\citation commands": "write a `\\cite`, or `\\nocite{*}` for all entries, and run LaTeX; with `biblatex`, give it the option `backend=bibtex`",
    "I found no \\bibdata command": "write `\\bibliography{refs}` with the name of your database, and run LaTeX; with `biblatex`, give it the option `backend=bibtex`",
    "I found no \\bibstyle command": "write `\\bibliographystyle{plain}`, or another style, and run LaTeX; with `biblatex`, give it the option `backend=bibtex`",
    "I couldn't open style file ~": (
        "correct the name in `\\bibliographystyle`, or put the style beside the `.aux` file. It is looked for there, along BSTINPUTS and in TeX's folders; check that you may read it"
    ),
    "I couldn't open database file ~": (
        "correct the name in `\\bibliography`, or put the database beside the `.aux` file. It is looked for there, along BIBINPUTS and in TeX's folders; check that you may read it"
    ),
    "I was expecting a name": "write the name; a field's name begins with no digit",
    "I was expecting a { or a (": "open the item by a brace; an `@` in text between items begins one",
    "I was expecting a , or a }": "put a comma after the key and between fields, often at the end of the line above; write a key without whitespace",
    "I was expecting a , or a )": "put a comma after the key and between fields, often at the end of the line above; write a key without whitespace",
    "I was expecting an =": "write `name = value`; is there a comma too many, or a brace too few above?",
    "I was expecting a }": "close it; a `@string` defines one name",
    "I was expecting a )": "close it; a `@string` defines one name",
    "I was expecting a value": "put braces or quotes round a text",
    "Unbalanced braces": "count the braces of the value",
    "Illegal end of database file": 'close the item; often a `{` or `"` far above isn\'t closed',
    "Repeated entry": "remove one of the two",
    'A bad cross reference--entry "*" refers to entry "*", which doesn\'t exist': "add `$2`, or move it after `$1`, or cite it",
    'I didn\'t find a database entry for "~"': "the key is cited, or is a parent, and no database has it: look for its spelling",
    "I'm ignoring ~'s extra \"~\" field": "delete one of the two",
    'string name "*" is undefined': "define `$1` by `@string` above its use, or put braces or quotes round a text",
    'string name "~" is used in its own definition': "a `@string` can't be made longer by itself: give the new one another name",
    'Too many commas in name ~ of "~"': "a name has at most two commas: `von Last, Jr, First`; names are parted by ` and `, not by commas or semicolons",
    'Name ~ in "~" has a comma at the end': "remove the comma in the database",
}

NO_ENTRY = re.compile(r'I didn\'t find a database entry for "(.*)"', re.DOTALL)
BAD_PARENT = re.compile(r'A bad cross reference--entry ".*" refers to entry "(.*)", which doesn\'t exist', re.DOTALL)
ONE_OF_BOTH = re.compile(r"can't use both (\w+) and (\w+) fields")
NO_STRING = re.compile(r'string name "(.*)" is undefined', re.DOTALL)
TOO_MANY_COMMAS = re.compile(r'Too many commas in name [0-9]+ of "(.*)"', re.DOTALL)
VARIES = re.compile(r"([*~])")
NAME = re.compile(rb"[^\x00-\x20\"#%'(),={}]*")
# A line with a field after its `%`.
COMMENTED_FIELD = re.compile(rb"[% \t]*[^\s%={}\"#',()]+[ \t]*=")
# How many lines an entry may have in which a file breaks off; how long a key is that another one follows directly, and how long both are at most.
MOST_LINES = 60
LEAST_OF_TWO, MOST_OF_TWO = 4, 400
# How many bytes of a line are looked at, and how many fields of one name are joined.
MOST_OF_LINE, MOST_JOINED = 2000, 50
# Names that biblatex has for fields, and fields that entries of one type have in the place of others.
OF_BIBLATEX = {"journal": "journaltitle", "year": "date", "address": "location", "booktitle": "maintitle", "number": "issue"}
OF_OTHER_TYPES = {"booktitle": ["journal"], "journal": ["booktitle"], "school": ["institution", "university"], "institution": ["school", "university"], "publisher": ["organization", "institution"]}


# What comes after a last name, and what stands after a name and is no part of it; front/src/doubts.rs and explain/names.rs have the same.
SUFFIX = re.compile(r"(?i:jr|sr)\.?|III?|IV")
DEGREES = ("PhD", "Ph.D.", "Ph.D", "MD", "M.D.", "MSc", "Dr.", "Prof.")
# What git writes before, between and after the two versions of a conflict.
MERGE_SIGNS = (b"<<<<<<<", b"=======", b">>>>>>>", b"|||||||")
# Letters that look like digits.
DIGITS = str.maketrans("OolI", "0011")
MONTH = re.compile(rb"(?i:jan|feb|mar|apr|may|jun|jul|aug|sep|oct|nov|dec)")
# The months, of which styles define the first three letters.
MONTHS = ("january", "february", "march", "april", "may", "june", "july", "august", "september", "october", "november", "december")
# Quotes that aren't the one of databases.
QUOTES = "\u201c\u201d\u201e\u2018\u2019\xab\xbb`"
# What may stand in the place of an `=`; a name in quotes.
FOR_EQUALS = b":~->"
QUOTED = re.compile(rb"\"([^\x00-\x20\"#%'(),={}]+)\"\s*=")
# What looks like a field: where a line begins, or after a comma.
BEGINS_FIELD = re.compile(rb'\n[ \t]*([A-Za-z][^\x00-\x20"#%\'(),={}]*)\s*=\s*[{"0-9]')
FIELD_AFTER_COMMA = re.compile(rb',[ \t]*([A-Za-z][^\x00-\x20"#%\'(),={}]*)\s*=\s*[{"]')
WHITE = re.compile(rb"\s*")
TEXTS = re.compile(rb"\"[^\"]*\"|\{[^{}]*\}")


def said(words: str, *names: str) -> str:
    for number, name in enumerate(names):
        words = words.replace(f"${number + 1}", name)
    return words


@lru_cache(maxsize=None)
def pattern_of(row: str) -> "re.Pattern[str]":
    """The pattern of the texts that a row of `GENERAL` stands for."""
    return re.compile("".join({"*": "(.*?)", "~": ".*?"}.get(part) or re.escape(part) for part in VARIES.split(row)), re.DOTALL)


# How the texts of each row begin.
BEGINNINGS = [(VARIES.split(row)[0], row, words) for row, words in GENERAL.items()]


@lru_cache(maxsize=1000)
def general(text: str) -> Optional[str]:
    """What to do about a message by its text alone."""
    for begin, row, words in BEGINNINGS:
        found = pattern_of(row).fullmatch(text) if text.startswith(begin) else None
        if found is not None:
            return said(words, *found.groups())
    return None


def remedy_of(text: str, keys: Union[Names, Iterable[str]] = (), strings: Union[Names, Iterable[str]] = ()) -> Optional[str]:
    """What to do about a message; the keys and the strings are those that it may have meant."""
    remedy: Optional[str] = None
    if text.startswith("I didn't find "):
        remedy = of_no_entry(text, names_of(keys))
    elif text.startswith("A bad cross reference"):
        remedy = of_bad_parent(text, names_of(keys))
    elif text.startswith("string name "):
        remedy = of_no_string(text, names_of(strings))
    elif text.startswith("Too many commas "):
        remedy = of_commas(text)
    return remedy or general(text)


def of_no_entry(text: str, keys: Names) -> Optional[str]:
    """What to do about a key without an entry, where other keys are meant."""
    found = NO_ENTRY.fullmatch(text)
    if found is None:
        return None
    key = found[1]
    if not key:
        return EMPTY_CITE
    of_tex = remedy_of_key(key, keys)
    if of_tex is not None:
        return of_tex
    form = keys.other_form(key)
    if form:
        return said(SEEN["OtherForm"], form)
    near, pair = keys.nearest(key), two_keys(key, keys)
    if pair:
        return said(SEEN["SemicolonInCite"], ",".join(pair))
    if has_key(key.split(";"), keys):
        return said(SEEN["SemicolonInCite"], ",".join(part.strip() for part in key.split(";") if part.strip()))
    if key == "all" and not near:
        return "write `*` for `all` in the `\\nocite`, if all entries are meant, and run LaTeX"
    if near and as_seen(near) != near:
        return said(UNSEEN_SIGN, as_seen(near))
    return said(SEEN["NearKey"], key, near) if near else None


def of_bad_parent(text: str, keys: Names) -> Optional[str]:
    """What to do about a parent that isn't there, where another one is meant."""
    found = BAD_PARENT.fullmatch(text)
    if found is not None and not found[1]:
        return "write the key of the parent, or take the field `crossref` out"
    near = keys.other_form(found[1]) or keys.nearest(found[1]) if found else None
    # (no entry is its own parent)
    if found is None or not near or text.startswith(f'A bad cross reference--entry "{near}" '):
        return None if found is None else said(NO_PARENT, found[1])
    is_there = near.lower() == found[1].lower()
    return f"move `{near}` below all entries that name it, or cite it" if is_there else said(SEEN["NearParent"], near)


def of_no_string(text: str, strings: Names) -> Optional[str]:
    """What to do about a name that is no string, where another name or another value is meant."""
    found = NO_STRING.fullmatch(text)
    if found is None:
        return None
    name = found[1]
    near, number = string_meant(name, strings), number_meant(name)
    if name and name[0] in QUOTES:
        return said(SEEN["NoQuote"], name[0])
    if name.startswith("\\"):
        return said(SEEN["BareCommand"], name)
    if number:
        return said(SEEN["LetterForDigit"], *number)
    parts = re.split("[-/]", name, maxsplit=1)
    if len(parts) == 2 and all(map(strings.has, parts)):
        return said(SEEN["MonthsInOne"], *parts)
    return said(SEEN["NearString"], near, name) if near else None


def of_commas(text: str) -> Optional[str]:
    """What to do about a name with more than two commas."""
    found = TOO_MANY_COMMAS.fullmatch(text)
    if found is None:
        return None
    one, names = one_name(found[1]), names_by_semicolons(found[1]) or names_by_commas(found[1])
    return said(SEEN["CommasOfOneName"], one) if one else said(SEEN["NamesByCommas"], names) if names else None


def begins_month(name: str) -> bool:
    """Whether a name is a month's, or more than three letters of one."""
    return len(name) > 3 and any(month.startswith(name.lower()) for month in MONTHS)


def string_meant(name: str, strings: Names) -> Optional[str]:
    """The string that is spelled most like this one, or that stands for this month."""
    short = name.lower()[:3]
    return short if name.lower() in MONTHS and strings.has(short) else strings.nearest(name)


def has_key(parts: List[str], keys: Names) -> bool:
    """Whether several keys stand here, of which an entry has one."""
    return sum(bool(part.strip()) for part in parts) > 1 and any(keys.has(part.strip()) for part in parts)


def two_keys(key: str, keys: Names) -> Optional[Tuple[str, str]]:
    """The keys of two entries that stand here one after the other, with one sign or nothing between them."""
    if keys.has(key) or len(key) > MOST_OF_TWO:
        return None
    pairs = ((key[:at], key[at + sign :]) for at in range(1, len(key)) for sign in (0, 1) if not sign or not key[at].isalnum())
    found = ((left, right) for left, right in pairs if keys.has(left) and keys.has(right) and left != right)
    # (short keys with nothing between them are rather one key)
    return next(((left, right) for left, right in found if len(left + right) < len(key) or min(len(left), len(right)) >= LEAST_OF_TWO), None)


def number_meant(word: str) -> Optional[Tuple[str, str]]:
    """A number with letters that look like digits: the number, and the first such letter; None where it isn't one."""
    letters, count = re.findall("[A-Za-z]", word), len(re.findall("[0-9]", word))
    is_it = letters and count > 1 and 2 * count >= len(word) and re.fullmatch("[0-9OolI]+", word)
    return (word.translate(DIGITS), letters[0]) if is_it else None


def one_name(quoted: str) -> Optional[str]:
    """A name with what comes after it, as `Underwood, Paul, Jr., PhD`: as BibTeX has it, without its degrees."""
    parts = [part for part in map(str.strip, quoted.split(",")) if part not in DEGREES]
    others = [part for part in parts if not SUFFIX.fullmatch(part)]
    suffixes = [part for part in parts if SUFFIX.fullmatch(part)]
    is_one = len(others) == 2 and len(suffixes) < 2 and not re.search(" and ", quoted, re.IGNORECASE)
    return ", ".join([others[0], *suffixes, others[1]]) if is_one else None


def names_by_semicolons(quoted: str) -> Optional[str]:
    """Names that are parted by semicolons, with `and` between them."""
    names = [name.strip() for name in quoted.split(";") if name.strip()]
    return " and ".join(names) if len(names) > 1 and not re.search("[{}]", quoted) else None


def names_by_commas(quoted: str) -> Optional[str]:
    """Names that are parted by commas, with `and` between them; None where it isn't seen which parts are one name."""
    parts = [part.strip() for part in quoted.split(",")]
    if any(SUFFIX.fullmatch(part) or part in DEGREES for part in parts):
        return None
    if re.search(r"[{}]| and ", quoted, re.IGNORECASE) or not all(parts) or not 4 <= len(parts) <= 8:
        return None
    if all(" " in part for part in parts):
        return " and ".join(parts)
    return " and ".join(map(", ".join, zip(parts[::2], parts[1::2]))) if len(parts) % 2 == 0 else None


@lru_cache(maxsize=1000)
def words_of(warning: str) -> List[str]:
    """The words of a warning, which are in small letters."""
    return re.findall(r"[a-z]+", warning)


def missed_field(item: Item, warning: str) -> Optional[str]:
    """What to do about a field that a style misses, where another one of the entry may be meant by it; and about two of which it prints one."""
    both = ONE_OF_BOTH.match(warning)
    if both is not None:
        return said(SEEN["OneOfBoth"], both[1], both[2])
    fields = item.records.names_between(item.at + 1, item.last)
    unusual = [] if all(map(bytes.isascii, fields)) else [name for name in map(word, fields) if not name.isascii()]
    for missed in words_of(warning.lower().rsplit(" in ", 1)[0]):
        for name in unusual:
            if name.translate(ALIKE).strip() == missed:
                sign = next(sign.translate(ALIKE) for sign in name if sign.translate(ALIKE) != sign)
                return said(SEEN["SpaceInName"], missed) if sign == " " else said(SEEN["AlikeName"], sign, missed)
        if missed.encode() in fields:
            continue
        its = OF_BIBLATEX.get(missed, "")
        if its.encode() in fields:
            year = re.search(rb"[0-9]{4}", item.value_of(b"date") or b"") if its == "date" else None
            return said(SEEN["OfBiblatexDate"], word(year[0])) if year else said(SEEN["OfBiblatexField"], its, missed)
        other = next((name for name in OF_OTHER_TYPES.get(missed, []) if name.encode() in fields), None)
        if (missed, other) == ("booktitle", "journal") and not {b"volume", b"number"}.isdisjoint(fields):
            return SEEN["IsArticle"]
        if other is not None:
            return said(SEEN["OtherField"], other, missed)
    return None


class Slipped:
    """An item that can't go on, with what stands round that place."""

    def __init__(self, name: str, text: bytes, lines: Lines, item: Item) -> None:
        assert item.slip is not None
        self.name, self.text, self.lines, self.item = name, text, lines, item
        self.place = item.slip.place
        self.line = lines.line_of(self.place)

    def at(self, place: int) -> str:
        return f"{self.name}:{self.lines.line_of(place) + 1}"

    def begins(self) -> str:
        return begins_item(self.name, self.text, self.lines, self.item)

    def is_other_item(self) -> bool:
        """Whether another item begins in this line, below the first line of this one."""
        begin = self.lines.start_of_line(self.place)
        rest = self.text[begin : min(begin + MOST_OF_LINE, self.place + 100)]
        return self.line > self.lines.line_of(self.item.start) and rest.lstrip().startswith(b"@")

    def after_part(self) -> Optional[str]:
        """After a key or a value neither a comma nor the end comes."""
        item, here = self.item, self.text[self.place : self.place + 1]
        key = word(item.key or b"")
        if not item.fields:
            if here == b"=" or "=" in key:
                return said(SEEN["NoKey"], word(item.kind), key.partition("=")[0])
            return said(SEEN["NotClosed"], self.begins()) if self.is_other_item() else self.after_key(key)
        field = item.fields[-1]
        owner, is_in_line = word(self.text[field.name_start : field.name_end]), self.lines.line_of(field.end - 1) == self.line
        if field.end == self.place and self.text[self.place - 1 : self.place] == b'"':
            return self.after_quote(owner, field.after)
        runs_on = self.runs_on()
        if runs_on is not None:
            return runs_on
        if self.is_other_item():
            return said(SEEN["NotClosed"], self.begins())
        if here in b"})" and here:
            opening = "{" if here == b")" else "("
            return said(SEEN["OtherBrace"], self.begins(), "}" if opening == "{" else ")", opening)
        name = NAME.match(self.text, self.place)
        is_field = name is not None and bool(name[0]) and self.text[name.end() : name.end() + 20].lstrip().startswith(b"=")
        if is_field or not is_in_line:
            return said(SEEN["NoComma"], owner, self.at(field.end - 1))
        return self.after_value(owner, self.text[field.after : field.end].lstrip(b" \t\r\n="), b"" if name is None else name[0])

    def after_value(self, owner: str, value: bytes, name: bytes) -> Optional[str]:
        """After a value something stands in its line that can't belong to it."""
        if self.text[self.place : self.place + 1] == b";":
            return said(SEEN["SemicolonForComma"], f"value of `{owner}`")
        if value[:1] not in b'{"' and word(value[:3])[:1] in QUOTES:
            return said(SEEN["NoQuote"], word(value[:3])[0])
        if name == b"+":
            return said(SEEN["PlusForHash"], owner)
        names = self.names_in_one(value) if owner.lower() in ("author", "editor") and name.lower() == b"and" else None
        if names is not None:
            return said(SEEN["NamesInOneValue"], owner, names)
        number = number_meant(word(value + name)) if value.isdigit() and self.text[self.place - 1 : self.place].isdigit() else None
        if number is not None:
            return said(SEEN["LetterForDigit"], *number)
        here = {b"{": "`{`", b'"': "the quote"}.get(self.text[self.place : self.place + 1], f"`{word(name)}`" if name else "")
        is_on_its_own = self.text[self.place - 1 : self.place].isspace() or not value[-1:].isalnum()
        if here and is_on_its_own and (b"#" in TEXTS.sub(b"", value) or owner.lower() == "month" and MONTH.fullmatch(name)):
            return said(SEEN["NoHashBefore"], owner, here)
        is_text, begins_text = value[:1] == b"{", self.text[self.place : self.place + 1] in (b"{", b'"')
        if value[:1] == b'"' or begins_text and value[:1] != b"\\":
            return said(SEEN["NoHash"], owner, "; a quote within quotes stands in braces" if value[:1] == b'"' else "")
        return said(SEEN["BraceTooMany" if is_text else "BareValue"], owner)

    def names_in_one(self, value: bytes) -> Optional[str]:
        """The names of a list of which each has braces or quotes of its own: that of the value, and those after it in its line."""
        texts = TEXTS.findall(value + b" " + self.text[self.place : self.place + MOST_OF_LINE].partition(b"\n")[0])
        return " and ".join(word(text[1:-1]) for text in texts) if len(texts) > 1 else None

    def before_equals(self) -> Optional[str]:
        """A name has ended, and no `=` comes after it: another sign does, or the name is of two words."""
        name, following = last_name(self.above()), NAME.match(self.text, self.place)
        if not name or following is None:
            return None
        more = following[0]
        if name.startswith(MERGE_SIGNS) or more.startswith(MERGE_SIGNS):
            return OF_MERGE
        if name[-1:] in FOR_EQUALS:
            return said(SEEN["OtherForEquals"], word(name[:-1]), word(name[-1:]))
        if len(more) == 1 and more in FOR_EQUALS:
            return said(SEEN["OtherForEquals"], word(name), word(more))
        if more and self.text[following.end() : following.end() + 20].lstrip().startswith(b"="):
            return said(SEEN["NameOfWords"], word(name + more))
        return said(SEEN["NoEquals"], word(name)) if more or self.text[self.place : self.place + 1] in (b"{", b'"') else None

    def above(self) -> bytes:
        """What stands before the place in its item, but for whitespace."""
        return self.text[max(self.item.start, self.place - MOST_OF_LINE) : self.place].rstrip()

    def before_value(self) -> Optional[str]:
        """A value is expected, and the field ends, or a second `=` comes."""
        above, here = self.above(), self.text[self.place : self.place + 1]
        name = last_name(above[:-1]) if above.endswith(b"=") else b""
        if not name or here not in (b",", b"}", b")", b"="):
            return None
        return said(TWO_EQUALS if here == b"=" else SEEN["NoValue"], word(name))

    def in_value(self) -> Optional[str]:
        """The braces of a value don't match, since its second quote is missing."""
        begin = self.text.rfind(b"=", self.item.start, self.place) + 1
        while begin > 0:
            value = WHITE.match(self.text, begin, self.place).end()  # type: ignore[union-attr]
            name = last_name(self.text[max(self.item.start, begin - MOST_OF_LINE) : begin - 1])
            if self.text[value : value + 1] == b'"' and name and self.text.find(b'"', value + 1, self.place) < 0:
                return said(SEEN["SecondQuote"], word(name), self.at(value))
            before = self.text.rfind(b"=", max(self.item.start, begin - MOST_OF_LINE), begin - 1) + 1
            begin = before if before > 0 else 0
        return None

    def before_name(self) -> Optional[str]:
        """A name is expected, of a field or a string: it stands in quotes, or a comment or a second comma does there."""
        here, quoted = self.text[self.place : self.place + 1], QUOTED.match(self.text, self.place)
        if self.text.startswith(MERGE_SIGNS, self.place):
            return OF_MERGE
        if quoted is not None:
            return said(QUOTED_NAME, word(quoted[1]))
        if not self.item.is_entry:
            return None
        if here == b"%":
            return SEEN["CommentSign" if COMMENTED_FIELD.match(self.text, self.place) else "CommentLine"]
        return SEEN["CommaTwice"] if here == b"," else None

    def after_key(self, key: str) -> str:
        """After a key something stands in its line that isn't a comma: a part of the key, if a comma comes after it."""
        if key.endswith(";"):
            return said(SEEN["SemicolonForComma"], f"key `{key[:-1]}`")
        name = NAME.match(self.text, self.place)
        is_key = name is not None and bool(name[0]) and self.text[name.end() : name.end() + 20].lstrip().startswith(b",")
        if name is None or not is_key or self.lines.line_of(self.item.key_end) != self.line:
            return said(SEEN["NoCommaAfterKey"], key)
        return said(SEEN["KeyOfWords"], key + word(name[0]))

    def runs_on(self) -> Optional[str]:
        """The first value that goes on over what looks like another field."""
        for field in self.item.fields:
            found = BEGINS_FIELD.search(self.text, field.after, field.end) or FIELD_AFTER_COMMA.search(self.text, field.after, field.end)
            if found is None:
                continue
            begin = WHITE.match(self.text, field.after).end()  # type: ignore[union-attr]
            taken, owner = found.start(1), word(self.text[field.name_start : field.name_end])
            before = self.text[begin:taken].rstrip().rstrip(b",").rstrip()
            if before[:1] == b"{" and before[-1:] == b'"' and before.count(b'"') == 1:
                return said(SEEN["QuoteForBrace"], owner, self.at(begin + len(before) - 1))
            return said(SEEN["RunsOn"], owner, self.at(begin), word(found[1]), self.at(taken))
        return None

    def after_quote(self, owner: str, start: int) -> str:
        """A quote ends the value earlier than it was meant."""
        if self.lines.line_of(start) != self.line:
            return said(SEEN["QuoteTooEarly"], owner, self.at(start))
        return said(SEEN["QuoteInText" if self.text[self.place - 2 : self.place - 1] == b"\\" else "QuotesInText"], owner)

    def at_end(self) -> Optional[str]:
        """The file ends in the item: in a value, or after one."""
        closing = "}" if self.text.find(b"{", self.item.start) == self.text.find(b"{", self.item.start, self.item.key_end) >= 0 else ")"
        if not self.item.is_entry:
            return None
        runs_on = self.runs_on()
        if runs_on is not None:
            return runs_on
        last = self.item.fields[-1].end if self.item.fields else self.item.key_end
        if not self.text[last:].strip(b" \t\r\n,"):
            return said(SEEN["NotClosedAtEnd"], self.begins(), closing)
        is_near = self.lines.line_of(len(self.text)) - self.lines.line_of(self.item.start) < MOST_LINES
        is_last = re.search(rb"\n[ \t]*@", self.text[self.item.start :]) is None
        return said(SEEN["BreaksOff"], self.begins(), closing) if is_near and is_last else None


def last_name(text: bytes) -> bytes:
    """The name that a text ends with, before its last whitespace."""
    found = NAME.match(text.rstrip()[::-1])
    return b"" if found is None else found[0][::-1]


def begins_item(name: str, text: bytes, lines: Lines, item: Item) -> str:
    """An item, and where it begins."""
    start = item.start
    return f"{word(text[start : item.kind_end] + b'{' + (item.key or b''))}}}, which begins at {name}:{lines.line_of(start) + 1}"


def is_hidden(text: bytes, lines: Lines, item: Item) -> bool:
    """Whether an entry was meant to be hidden: its line begins with a `%` or a `@comment`."""
    if not item.is_entry or text[item.start - 1 : item.start] in (b"\n", b""):
        return False
    begin = lines.start_of_line(item.start)
    start = text[begin : min(item.start, begin + MOST_OF_LINE)].lstrip()[:8]
    return start.startswith(b"%") or start.lower() == b"@comment"


def not_hidden(name: str, text: bytes, lines: Lines, item: Item) -> Optional[str]:
    """What to do about an entry that was meant to be hidden."""
    if not is_hidden(text, lines, item):
        return None
    return said(SEEN["NotHidden"], begins_item(name, text, lines, item))


def field_for_each_name(item: Item, name: str) -> Optional[str]:
    """What to do about several fields of names in one entry."""
    if name.lower() not in ("author", "editor"):
        return None
    values = [word(field.value) for field in item.fields if word(field.name).lower() == name.lower()]
    is_it = 1 < len(values) <= MOST_JOINED and len(set(values)) == len(values)
    return said(SEEN["FieldForEachName"], name, " and ".join(values)) if is_it else None


def of_missing(item: Item, names: str, parent: Optional[Item]) -> str:
    """What to do about a field that BibTeX's manual requires."""
    found = missed_field(item, f"empty {names} in it")
    if found is not None:
        return found
    title = None if parent is None or names != "booktitle" else parent.value_of(b"title")
    if title:
        return said(SEEN["AddBooktitle"], "{" + word(title) + "}")
    shown = " or ".join(f"`{name}`" for name in names.split(" or "))
    return said(SEEN["AddPart" if names == "chapter or pages" else "AddField"], shown)


def word(text: bytes) -> str:
    return text.decode("utf8", "surrogateescape")


def of_mistake(name: str, text: bytes, lines: Lines, item: Item) -> Optional[str]:
    """What to do about the mistake that ends an item, by its text."""
    if item.slip is None or item.slip.text == REPEATED:
        return GENERAL[REPEATED]
    if text[:2] in (b"\xff\xfe", b"\xfe\xff"):
        return said(SEEN["FileIsUtf16"], name)
    hidden = not_hidden(name, text, lines, item)
    if hidden is not None:
        return hidden
    slipped, error = Slipped(name, text, lines, item), item.slip.text
    found: Optional[str] = None
    if error.startswith("I was expecting a , or a"):
        found = slipped.after_part()
    elif error == "Illegal end of database file":
        found = slipped.at_end()
    elif slipped.is_other_item() and item.is_entry:
        found = said(SEEN["NotClosed"], slipped.begins())
    elif error == "I was expecting an =":
        found = slipped.before_equals()
    elif error == "I was expecting a name":
        found = slipped.before_name()
    elif error == "I was expecting a value":
        found = slipped.before_value()
    elif error == "Unbalanced braces":
        found = slipped.in_value()
    return found or general(error)


def of_items(name: str, text: bytes, lines: Lines, items: List[Item]) -> Dict[int, str]:
    """What to do about the mistakes of a database, by their places."""
    slipped = [item for item in items if item.slip is not None and item.slip.text != REPEATED]
    found = ((item.slip.place, of_mistake(name, text, lines, item)) for item in slipped if item.slip is not None)
    return {place: remedy for place, remedy in found if remedy is not None}
