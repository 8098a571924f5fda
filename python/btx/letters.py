"""Letters of a language in lists of references, as `bibtex-search -letters=LANG` has them: the job runs over databases in which each such letter of a value is a special character, and what it writes
is turned back. For BibTeX `{\\xy{key}}` is one letter: `purify$` keeps the key alone, which is what the letter sorts as, `change.case$` changes the key's case, and names and prefixes keep it
whole. `x` and `y` are control characters that say which letter it is.

This is ordinary Python, and tested beside the front end; what is proved is the run over the coded letters."""

from __future__ import annotations

import re
from dataclasses import dataclass, replace
from functools import cached_property
from typing import Dict, List, Mapping, Match, NamedTuple, Optional, Sequence, Tuple

from . import library
from .events import EVENT, NO_ENTRY, NO_FILE, PLACE, Events
from .half_letters import OtherBytes, line_of_half_letter
from .languages import LANGUAGES, LONGER, ROOT
from .letter_values import DIGIT, LeftOut, Span, is_whole, parts_of, values_of
from .options import Options
from .refusals import MemoryRefused, OutputTooLong
from .results import End, Result
from .style_keys import may_print_keys

__all__ = ["run_with_letters"]

# What is said of each file: its bytes, or None where there is no such file.
Known = Mapping[bytes, Optional[bytes]]

# A byte that sorts after each letter of ASCII, which a `*` stands for in the table, and one at the end of each key of a run that shows whether keys are printed. `purify$` keeps both.
AFTER, MARK = b"\xff", b"\xfe"
# The control characters of a code.
DIGITS = bytes(byte for byte in range(0x20) if DIGIT.match(bytes([byte])))
MOST_LETTERS = len(DIGITS) ** 2
MOST_LONGER = 1_000_000
# A code, and what is left of one that was cut.
CODE = re.compile(rb"\{\\([\x01-\x08\x0e-\x1f]{2})\{([A-Za-z\xfe\xff]*)\}\}")
REST = re.compile(rb"[\x01-\x08\x0e-\x1f\xfe\xff]")
KEY_LETTER, BRACE = re.compile(rb"[A-Za-z]"), re.compile(rb"[{}]")
NOT_WHOLE = "the style isn't UTF-8"
# A letter of the tables of which Python knows no capital before Unicode 16.
CAPITALS = {"ƛ": "\ua7dc"}
SMALL = {capital: small for small, capital in CAPITALS.items()}
# Braces, and the letters that may have codes: in a language with rules for letters of ASCII these, too.
# (a class that names what isn't in it is made in less time)
OUTSIDE_ASCII, ANY_LETTER = re.compile("[^\x00-z|~\x7f]"), re.compile(r"[^\x00-@\[-`|~\x7f]")


def key_of(written: str) -> bytes:
    """What a rule says that a letter sorts as."""
    return written.encode("ascii").replace(b"*", AFTER)


def are_single(letters: str) -> bool:
    """Whether the letters of a rule are one letter each: some of ASCII are one together with those that follow."""
    return all(letter >= "\x80" for letter in letters)


def lower(letter: str) -> str:
    return SMALL.get(letter) or letter.lower()


class Letter(NamedTuple):
    """A letter that has a code: itself, it in the other case, and whether it is a capital."""

    itself: bytes
    other: bytes
    is_capital: bool


class Language:
    def __init__(self, name: str) -> None:
        own = dict(LANGUAGES)[name]
        self.is_dotless = name == "tr"
        self.keys = {letter: key_of(written) for letters, written in (*ROOT, *own) if are_single(letters) for letter in letters}
        # (the longest first)
        self.several = sorted(((letters, key_of(written)) for letters, written in own if not are_single(letters)), key=lambda rule: -len(rule[0]))
        self.has_rules_for_ascii = self.is_dotless or len(self.several) > 0

    def key_of_several(self, text: str, at: int) -> Optional[bytes]:
        """What the first letter of a text sorts as by being one with those that follow."""
        for letters, key in self.several:
            following = "".join(letter.lower() for letter in text[at : at + len(letters)])
            if following.startswith(letters):
                return key
        return None

    def key(self, text: str, at: int, is_foreign: bool) -> Optional[bytes]:
        """What the letter at a place of a text sorts as; None where that is itself. A foreign text has no letter outside ASCII, so that its `I` may be one of another language."""
        letter = text[at]
        if self.is_dotless and letter == "I":
            return self.keys["ı"]
        if letter == "İ" or (self.is_dotless and letter == "i" and not is_foreign):
            return b"i"
        if letter < "\x80":
            return self.key_of_several(text, at)
        return self.keys.get(lower(letter)[0])

    def letter(self, itself: str, is_foreign: bool) -> Letter:
        # (also a letter of a capital and a small one, such as `ǅ`)
        is_capital = itself.isupper() or lower(itself) != itself
        other = lower(itself) if is_capital else CAPITALS.get(itself) or itself.upper()
        if self.is_dotless and itself == "I" and not is_foreign:
            other = "ı"
        if self.is_dotless and itself == "i":
            other = "İ"
        if itself == "İ":
            other = "i"
        return Letter(itself.encode("utf8"), other.encode("utf8"), is_capital)


class Codes:
    """The letters of a job that have codes. is_in_braces: whether letters in braces are coded too: a style may cut a text in braces after any byte, and a code with it. is_marked: whether each key has a
    mark, which shows where it is printed."""

    def __init__(self, language: Language, is_in_braces: bool, is_marked: bool) -> None:
        self.language, self.is_in_braces, self.mark = language, is_in_braces, MARK if is_marked else b""
        self.letters: List[Letter] = []
        self.numbers: Dict[str, int] = {}

    def coded(self, text: str) -> bytes:
        """A text of a value with its letters coded."""
        is_foreign, has_rules = text.isascii(), self.language.has_rules_for_ascii
        if is_foreign and not has_rules:
            return text.encode("utf8")
        depth = copied = 0
        parts: List[bytes] = []
        for found in (ANY_LETTER if has_rules else OUTSIDE_ASCII).finditer(text):
            at = found.start()
            depth += (text[at] == "{") - (text[at] == "}")
            code = self.code_of(text, at, is_foreign) if depth <= 0 or self.is_in_braces else None
            if code:
                parts += [text[copied:at].encode("utf8"), code]
                copied = at + 1
        return b"".join([*parts, text[copied:].encode("utf8")])

    def code_of(self, text: str, at: int, is_foreign: bool) -> Optional[bytes]:
        key = self.language.key(text, at, is_foreign)
        number = None if key is None else self.number_of(text[at], is_foreign)
        if key is None or number is None:
            return None
        cased = key.upper() if self.letters[number].is_capital else key
        digits = bytes([DIGITS[number // len(DIGITS)], DIGITS[number % len(DIGITS)]])
        return b"{\\" + digits + b"{" + cased + self.mark + b"}}"

    def number_of(self, letter: str, is_foreign: bool) -> Optional[int]:
        """The number of a letter; None where there are too many. The `I` of a foreign text is another one."""
        known = "foreign I" if is_foreign and letter == "I" else letter
        if known not in self.numbers:
            if len(self.letters) == MOST_LETTERS:
                return None
            self.numbers[known] = len(self.letters)
            self.letters.append(self.language.letter(letter, is_foreign))
        return self.numbers[known]

    def turned_back(self, text: bytes) -> bytes:
        """What a run wrote, with each code turned back into its letter, in the case that the run gave it."""
        return CODE.sub(self.letter_of, text)

    def letter_of(self, code: Match[bytes]) -> bytes:
        """The letter that a code stands for: in the other case where its key has another case than it was given."""
        high, low = (DIGITS.index(digit) for digit in code[1])
        number = high * len(DIGITS) + low
        if number >= len(self.letters):
            return code[0]
        letter, first = self.letters[number], KEY_LETTER.search(code[2])
        return letter.other if first and first[0].isupper() is not letter.is_capital else letter.itself


def coded_database(content: bytes, values: Sequence[Span], codes: Codes) -> bytes:
    """A database whose values are coded."""
    copied = 0
    parts: List[bytes] = []
    for value in values:
        for start, end in parts_of(content, value):
            # (an entry that stands in the text of another one is read with it, too)
            if start >= copied:
                parts += [content[copied:start], codes.coded(content[start:end].decode("utf8"))]
                copied = end
    return b"".join([*parts, content[copied:]])


def depths_of(text: bytes) -> Tuple[int, int]:
    """How many braces are open at the end of a text, and at least anywhere in it."""
    depth = least = 0
    for found in BRACE.finditer(text):
        depth += 1 if found[0] == b"{" else -1
        least = min(least, depth)
    return depth, least


def moved(events: Events, log: bytes, coded: Coded) -> Events:
    """Where the lines of a log are once it is turned back. No code has an end of a line in it."""
    codes = coded.codes
    before = at = 0
    records: List[bytes] = []
    for event in events:
        at += len(codes.turned_back(log[before : event.offset]))
        length = len(codes.turned_back(log[event.offset : event.end]))
        records.append(EVENT.pack(at, length, NO_ENTRY if event.number is None else event.number, event.severity, event.met))
        at, before = at + length, event.end
    return replace(events, records=b"".join(records), places=moved_places(events, coded))


def moved_places(events: Events, coded: Coded) -> bytes:
    """The places of lines once the files are turned back."""
    places = [place for place in PLACE.iter_unpack(events.places) if place[0] != NO_FILE]
    offsets = {file: turned_offsets(coded, events.files[file], [at for place in places if place[0] == file for at in place[1:3]]) for file in {place[0] for place in places}}
    records = ((file, offsets[file][start], offsets[file][end], *rest) if file != NO_FILE else (file, start, end, *rest) for file, start, end, *rest in PLACE.iter_unpack(events.places))
    return b"".join(PLACE.pack(*record) for record in records)


def turned_offsets(coded: Coded, name: bytes, offsets: List[int]) -> Dict[int, int]:
    """For each of these offsets in a coded file the one in the file as it was."""
    content, found = coded.files[name] or b"", {}
    before = at = 0
    for offset in sorted(offsets):
        at += len(coded.codes.turned_back(content[before:offset]))
        found[offset], before = at, offset
    return found


@dataclass(frozen=True)
class Coded:
    """A job's files with their letters coded."""

    codes: Codes
    files: Known


class Task:
    """A job with its files. reading: how text is read: `bytes`, `utf8`, or `auto`, which is by letters where bytes would leave half a letter in the list."""

    def __init__(self, job: bytes, files: Known, options: Options, reading: str) -> None:
        self.job, self.files, self.options, self.reading = job, files, options, reading
        self.databases, self.styles = ([content for name, content in files.items() if content is not None and name.endswith(ending)] for ending in (b".bib", b".bst"))
        self.is_style_whole = all(map(is_whole, self.styles))

    @cached_property
    def other(self) -> OtherBytes:
        return OtherBytes(self.files)

    def half_of(self, made: Result) -> int:
        """The first line of a list that has half a letter; 0 where none has."""
        return 0 if is_whole(made.bbl) else line_of_half_letter(made.bbl, made.report.end is End.STOPPED, self.other)

    def run(self, options: Options, files: Optional[Known] = None) -> Result:
        """The run over these files in place of the job's."""
        return library.run_over(self.job, self.files if files is None else files, replace(options, letters="no"))

    def run_as_it_is(self) -> Tuple[Result, bool]:
        """By its files as they are: what it gives, and whether text was read by letters."""
        first = self.run(replace(self.options, utf8=self.reading == "utf8"))
        if self.reading != "auto" or not self.half_of(first):
            return first, self.reading == "utf8"
        by_letters = self.run(replace(self.options, utf8=True))
        return (by_letters, True) if self.is_style_whole or not self.half_of(by_letters) else (first, False)

    def run_with(self, name: str) -> Optional[Result]:
        """With the letters of a language; None where no entry that counts has such letters. Raises LeftOut."""
        language = Language(name)
        values, types = values_of(self.files, language.has_rules_for_ascii)
        if not any(values):
            return None
        style = self.styles[0] if self.styles else b""
        if DIGIT.search(style):
            raise LeftOut("ControlCharacters")

        def coded(is_in_braces: bool, is_marked: bool) -> Coded:
            codes = Codes(language, is_in_braces, is_marked)
            return Coded(codes, {file: content and coded_database(content, those, codes) for (file, content), those in zip(self.files.items(), values)})

        if may_print_keys(style, types) and self.prints_keys(coded(True, True)):
            raise LeftOut("PrintsKeys")
        try:
            return self.run_over(coded(True, False))
        except LeftOut as error:
            if error.why != "CutsLetters":
                raise
            return self.run_over(coded(False, False))

    def longer(self) -> Options:
        """The options of a run over coded letters: its variables keep longer strings."""
        entry, whole = (min(number * LONGER, MOST_LONGER) for number in (self.options.entry_max, self.options.global_max))
        return replace(self.options, utf8=self.reading != "bytes", entry_max=entry, global_max=whole)

    def prints_keys(self, coded: Coded) -> bool:
        """Whether the style prints what letters sort as."""
        try:
            made = self.run(self.longer(), coded.files)
        except (MemoryRefused, OutputTooLong):
            return True
        text = coded.codes.turned_back(made.bbl)
        return MARK in text or AFTER in text

    def run_over(self, coded: Coded) -> Result:
        """The run over coded letters, turned back."""
        try:
            made = self.run(self.longer(), coded.files)
        except (MemoryRefused, OutputTooLong) as error:
            raise LeftOut("Unfinished") from error
        if made.report.end is not End.FINISHED:
            raise LeftOut("Unfinished")
        bbl, log = coded.codes.turned_back(made.bbl), coded.codes.turned_back(made.log)
        if REST.search(bbl) or REST.search(log) or not self.has_all_braces(bbl):
            raise LeftOut("CutsLetters")
        return replace(made, bbl=bbl, log=log, events=moved(made.events, made.log, coded))

    def has_all_braces(self, bbl: bytes) -> bool:
        """Whether no brace of a list is left over from a code that was cut. A style may leave out braces of its own."""
        cut = b"{\\}"
        if cut in bbl and not any(content and cut in content for content in self.files.values()):
            return False
        depths = depths_of(bbl)
        return depths == (0, 0) or depths == depths_of(self.run(self.longer()).bbl)

    def notes_of(self, made: Result, by_letters: bool, is_asked: bool) -> List[str]:
        """What is to be said of the letters of a list, a line each, as `bibtex-search` has it in its log. is_asked: whether text was to be read so."""
        line = self.half_of(made)
        # (a list that has half a letter is no better for that)
        notes = [] if is_asked or line else ["The list is made with -text=utf8: read by bytes, it would have half a letter, which LaTeX refuses."]
        if line:
            remedy = "the style cuts text by bytes" if by_letters else "try -text=utf8"
            notes.append(f"Line {line} of the list has half a letter, which LaTeX refuses: {remedy if self.is_style_whole else NOT_WHOLE}.")
        return notes


def run_with_letters(job: bytes, files: Known, options: Options, reading: Optional[str] = None) -> Result:
    """Runs a job over its files with the letters of the language that the options name. reading: how text is read; `auto` where neither this nor `utf8` of the options says it. The result has
    notes: what is to be said of the list's letters."""
    task = Task(job, files, options, reading or ("utf8" if options.utf8 else "auto"))
    notes: List[str] = []
    if options.letters != "no" and not all(content.isascii() for content in task.databases):
        try:
            made = task.run_with(options.letters)
            if made:
                return replace(made, notes=tuple(task.notes_of(made, task.reading != "bytes", True)))
        except LeftOut as error:
            notes.append(f"The list is made without -letters: {error}.")
    made, by_letters = task.run_as_it_is()
    notes += task.notes_of(made, by_letters, task.reading != "auto" or not by_letters)
    return replace(made, notes=tuple(notes))
