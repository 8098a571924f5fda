"""The text of a style: what it defines and uses, with places. docs/RULES.md has its rules, under Styles.

This is no second reader of styles: the mistakes are those that the library logs. It looks for what a person would look for, so that one mistake doesn't
hide what follows: a command's word at the beginning of a line begins a command, whatever the braces above say. Only a field or a variable may be called READ or SORT: where the next
brace closes one, the word is a name."""

from __future__ import annotations

import re
from typing import Dict, List, NamedTuple, Optional, Tuple

__all__ = ["COMMANDS", "Command", "StyleText", "Word", "read_style", "uses_between"]

COMMANDS = ("ENTRY", "EXECUTE", "FUNCTION", "INTEGERS", "ITERATE", "MACRO", "READ", "REVERSE", "SORT", "STRINGS")
# What lies between tokens; a command's word, and where one begins a line; a token of a body; a word of a list.
SPACE = re.compile(rb"[ \t\r\n]*(?:%[^\n]*(?:[ \t\r\n]+|%[^\n]*)*|)")
LETTERS = re.compile(rb"[A-Za-z]+")
BEGINS_LINE = re.compile(rb"(?im)^(?:ENTRY|EXECUTE|FUNCTION|INTEGERS|ITERATE|MACRO|REVERSE|STRINGS)[ \t\r\n]*\{|^(?-i:READ|SORT)[ \t\r]*$")
# What is before the next brace, which is in no comment and in no string.
NEXT_BRACE = re.compile(rb"(?:[^{}%\"]+|%[^\n]*|\"[^\"\n]*\"?)*([{}]|\Z)")
TOKEN = re.compile(rb"[{}]|\"[^\"\n]*\"?|#-?[0-9]+|'?[^ \t\r\n}%\"][^ \t\r\n}%]*|'|\"")
# The same after what lies before it, or the end of the text; since one of them is always there, it never goes back into a comment.
NEXT_TOKEN = re.compile(SPACE.pattern + b"(" + TOKEN.pattern + rb"|\Z)")
LIST_WORD = re.compile(rb"[^\x00- \"#%'(),={}]+")
KINDS = {b"FUNCTION": "function", b"MACRO": "string", b"INTEGERS": "integer", b"STRINGS": "string variable"}
QUOTE, NUMBER = b'"#'
OF_ENTRY = ("field", "integer of entries", "string of entries")


class Word(NamedTuple):
    """A name in a style. name: in lower case. kind: of a definition what it defines, else the empty text. is_quoted: whether a `'` is before it.
    token: in a body, how many tokens are before it in its braces."""

    name: str
    start: int
    end: int
    kind: str = ""
    is_quoted: bool = False
    token: int = -1


class Command(NamedTuple):
    """A command, from its word to its end. name: that of its first argument, of a FUNCTION, a MACRO and those that execute."""

    word: str
    start: int
    end: int
    name: Optional[Word]


class StyleText:
    """What is found in a style."""

    def __init__(self) -> None:
        self.commands: List[Command] = []
        self.definitions: List[Word] = []
        self.uses: List[Word] = []
        self.values: Dict[str, Tuple[int, int]] = {}

    def named(self, kind: str) -> List[str]:
        """The names that are defined as this."""
        return [word.name for word in self.definitions if word.kind == kind]


def name_of(text: bytes) -> str:
    return text.lower().decode("utf8", "surrogateescape")


def read_style(text: bytes) -> StyleText:
    """Reads a style as far as a person would."""
    reader = StyleReader(text)
    while reader.at < len(text):
        reader.command()
    return reader.found


def uses_between(text: bytes, start: int, end: int) -> List[Word]:
    """The names that a style uses between two places. Only the commands around them are read."""
    at, braces = text.rfind(b"\n", 0, start) + 1, Braces(text)
    while at > 0 and not braces.begins_command(BEGINS_LINE.match(text, at)):
        at = text.rfind(b"\n", 0, at - 1) + 1
    reader = StyleReader(text, at)
    while reader.at < end:
        reader.command()
    return [word for word in reader.found.uses if start <= word.start < end]


class Braces:
    """The braces of a style. The one that was found last is kept, since many places may be before it."""

    def __init__(self, text: bytes) -> None:
        self.text = text
        self.known = 0, -1

    def next(self, place: int) -> int:
        """The first brace after a place; the end of the text where there is none."""
        first, brace = self.known
        if not first <= place <= brace:
            found = self.from_to(place, first) if place < first else first
            brace = found if found < first else brace if place < first else self.from_to(place, len(self.text))
            self.known = place, brace
        return brace

    def from_to(self, place: int, end: int) -> int:
        return NEXT_BRACE.match(self.text, place, end).start(1)  # type: ignore[union-attr]

    def begins_command(self, found: "Optional[re.Match[bytes]]") -> bool:
        """Whether what begins a line is a command's word: READ and SORT have no braces of their own, so they are names where a brace is closed after them."""
        return found is not None and (found[0].endswith(b"{") or not self.text.startswith(b"}", self.next(found.end())))


class StyleReader:
    """Reads a style from a place on, forward only."""

    def __init__(self, text: bytes, at: int = 0) -> None:
        self.text = text
        self.at = at
        self.found = StyleText()
        self.next_line = -1
        self.braces = Braces(text)

    def skip_space(self) -> None:
        self.at = SPACE.match(self.text, self.at).end()  # type: ignore[union-attr]

    def limit(self) -> int:
        """Where the next command begins at the latest."""
        if self.next_line < self.at:
            found = next(filter(self.braces.begins_command, BEGINS_LINE.finditer(self.text, self.at)), None)
            self.next_line = len(self.text) if found is None else found.start()
        return self.next_line

    def command(self) -> None:
        """Reads a command, or passes over what is none."""
        self.skip_space()
        start = self.at
        found = LETTERS.match(self.text, start)
        if found is None or found[0].upper().decode() not in COMMANDS:
            self.at = min(start + max(len(found[0]) if found else 1, 1), len(self.text))
            return
        word, self.at = found[0].upper(), found.end()
        first = len(self.found.definitions), len(self.found.uses)
        self.arguments(word)
        words = self.found.definitions[first[0] :] if word in (b"FUNCTION", b"MACRO") else self.found.uses[first[1] :]
        is_named = word in (b"FUNCTION", b"MACRO", b"EXECUTE", b"ITERATE", b"REVERSE") and words
        self.found.commands.append(Command(word.decode(), start, self.at, words[0] if is_named else None))

    def arguments(self, word: bytes) -> None:
        if word == b"ENTRY":
            for kind in OF_ENTRY:
                self.names(kind)
        elif word in KINDS:
            self.names(KINDS[word])
        elif word in (b"EXECUTE", b"ITERATE", b"REVERSE"):
            self.names("")
        if word in (b"FUNCTION", b"MACRO") and self.found.definitions:
            self.body(word == b"MACRO")

    def opens(self) -> Optional[int]:
        """Where the next command begins, if an argument is opened before it: its brace is passed."""
        self.skip_space()
        limit = self.limit() if self.text[self.at : self.at + 1] == b"{" else 0
        if limit <= self.at:
            return None
        self.at += 1
        return limit

    def names(self, kind: str) -> None:
        """Reads an argument of names: definitions of a kind, or uses."""
        limit = self.opens()
        while limit is not None and self.at < limit:
            self.skip_space()
            found = LIST_WORD.match(self.text, self.at)
            if found is None:
                is_closed = self.text[self.at : self.at + 1] == b"}"
                self.at = min(self.at + 1, len(self.text))
                if is_closed:
                    return
                continue
            word = Word(name_of(found[0]), found.start(), found.end(), kind)
            (self.found.definitions if kind else self.found.uses).append(word)
            self.at = found.end()

    def body(self, is_text: bool) -> None:
        """Reads the body of a function, or the text of a macro."""
        limit, counts = self.opens(), [0]
        while limit is not None and counts:
            start, end = NEXT_TOKEN.match(self.text, self.at).span(1)  # type: ignore[union-attr]
            self.at = start
            if start == end or start >= limit:
                return
            self.at, token = end, self.text[start:end]
            if token == b"}":
                counts.pop()
                continue
            counts[-1] += 1
            if token == b"{":
                counts.append(0)
            elif token[0] == QUOTE:
                if is_text:
                    self.found.values[self.found.definitions[-1].name] = start, end
            elif token[0] != NUMBER:
                is_quoted = token.startswith(b"'")
                self.found.uses.append(Word(name_of(token[is_quoted:]), start + is_quoted, end, "", is_quoted, counts[-1] - 1))
