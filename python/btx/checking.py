"""What is known of a style before any run: `check` asks the library, and reads its notes.

    verdict = btx.check(pathlib.Path("plain.bst"))
    verdict.is_clean, verdict.types
    for warning in verdict.warnings:
        print(warning.line, warning.fault.value, warning.next, warning.missing)
    if verdict.ends:
        print(verdict.ends.steps(entries=30))

The library's man page, library/btx.3, says what is promised of a clean style and of one that ends, and what form the notes have."""

from __future__ import annotations

import enum
from dataclasses import dataclass, field
from typing import List, NamedTuple, Optional, Tuple

from . import library
from .jobs import Name, name_bytes
from .reading import Source, content_of
from .refusals import StyleTooLong

__all__ = ["Answer", "Bound", "Branches", "Fault", "Operand", "Spot", "StyleWarning", "Verdict", "check"]

# The name of a style whose text was handed in.
NAMELESS = "style.bst"
# Enough for every style of TeX Live.
STEPS = 2_000_000
# How many bytes a global string variable keeps, where the options of a run say nothing else.
KEPT = 20_000


class Answer(enum.IntEnum):
    """What a check says of a style."""

    CLEAN = 0
    WARNINGS = 1
    INCOMPLETE = 2


class Fault(enum.Enum):
    """What a run of the style may log at a place; the value is the word of the notes."""

    EMPTY_STACK = "stack"
    WRONG_KIND = "kind"
    INCOMPARABLE = "equal"
    NOT_ASSIGNABLE = "variable"
    NO_ENTRY = "entry"
    LEFT_OVER = "left"


class Spot(NamedTuple):
    """A token of a style. line: from 1, 0 where it isn't known. function, token: the numbers of its function and of itself in it. name: the function's name.
    is_nested: whether the token is in braces inside of that function."""

    line: int
    function: int
    token: int
    name: str
    is_nested: bool


@dataclass
class Operand:
    """The operand that is the reason of a warning.

    position: how many literals are above it on the stack. value: what it may be, in the words of the notes: `integer 0 -`, `text mf`, `function f`, `any`.
    wanted: what the function wants there. owner: the field or variable whose value it is."""

    position: int
    value: str
    wanted: Optional[str] = None
    owner: Optional[str] = None


@dataclass
class StyleWarning:
    """A place where a run of the style may log a fault.

    fault: what may be logged; None of one that this package doesn't know. operand: the operand that is its reason, if there is one.
    is_first: whether it can be the first fault of a visit of an entry. next: what is executed there. depth: how many literals are on the stack.
    missing: the field that may be missing. command, command_line: what executes it. places: the token, then those that called, the innermost first.
    types: the types of entries for which it was met; the empty name is one that the style doesn't know. given, blank: what is known of fields there."""

    fault: Optional[Fault]
    is_first: bool
    next: str = ""
    depth: Optional[int] = None
    operand: Optional[Operand] = None
    missing: Optional[str] = None
    command: str = ""
    command_line: int = 0
    places: List[Spot] = field(default_factory=list)
    types: List[str] = field(default_factory=list)
    given: List[str] = field(default_factory=list)
    blank: List[str] = field(default_factory=list)

    @property
    def line(self) -> int:
        """The line of the token, or of the command where there is no token; 0 where it isn't known."""
        return self.places[0].line if self.places else self.command_line


class Branches(NamedTuple):
    """A cause: an `if$` whose functions leave different numbers of literals. place: its token. first, second: by how many the stack grows, at least and at most."""

    place: Spot
    first: Tuple[int, int]
    second: Tuple[int, int]


class Bound(NamedTuple):
    """The bound of a style that ends. once: the most steps of a run without entries. each: the most steps more for each entry of the list. kept: how many bytes a global
    string variable keeps at most there. types: the types of entries for which that holds, beside those that the style doesn't know;
    they are fewer than the verdict's where no bound is known of the others."""

    once: int
    each: int
    kept: int
    types: List[str]

    def steps(self, entries: int) -> int:
        """The most steps of a run whose list has `entries` entries: with that budget it isn't stopped."""
        return self.once + entries * self.each


@dataclass
class Verdict:
    """What is said of a style.

    answer: whether it is clean, has warnings, or wasn't checked to its end. warnings: the places where a run may log a fault. causes: each `if$` whose functions leave different numbers of literals.

    literals, bodies: of a clean style, the greatest number of literals that was met, and the most bodies that are ever open at once. types: the types of
    entries for which it is clean, beside those that it doesn't know. is_partial: whether there may be more places than those of `warnings`. ends: of a style that is known to
    end, whether it is clean or not, its bound."""

    answer: Answer
    literals: int
    bodies: int
    types: List[str]
    warnings: List[StyleWarning]
    causes: List[Branches]
    is_partial: bool
    ends: Optional[Bound] = None

    @property
    def is_clean(self) -> bool:
        """Whether no run of the style logs a fault of the stack or of kinds, for entries of `types` and of types that it doesn't know."""
        return self.answer is Answer.CLEAN


def check(style: Source, name: Optional[Name] = None, steps: int = STEPS, kept: int = KEPT) -> Verdict:
    """Checks the text of a style in at most `steps` steps of the check (0 to 2^64 - 1), before any run.

    style: a path (text is a path), or the bytes of a style. name: the name of its file, that of the path if nothing is said, and `style.bst` of bytes.

    Of a clean style no run logs a fault of the stack or of kinds, for entries of `types` and of types that it doesn't know. Mistakes in its text aren't looked at. Of a style
    that ends no run whose budget is at least the bound is stopped, where a global string variable keeps at most `kept` bytes.
    Raises OSError for a file that can't be read or is no regular file, ValueError for numbers out of their range, TypeError for what is no style, and a Refusal: StyleTooLong, MemoryRefused, NameRefused."""
    if isinstance(steps, bool) or not isinstance(steps, int) or not 0 <= steps < 2**64:
        raise ValueError(f"a check takes 0 to 2^64 - 1 steps, and not {steps!r}")
    if isinstance(kept, bool) or not isinstance(kept, int) or not 0 <= kept < 2**32:
        raise ValueError(f"a variable keeps 0 to 2^32 - 1 bytes, and not {kept!r}")
    found, text = content_of(style, NAMELESS, StyleTooLong)
    file = name_bytes(found if name is None else name)
    answered, types, notes = checked_style(file, text, steps)
    warnings, causes, is_partial = read_notes(notes)
    ends = bound_of(file, text, kept)
    return Verdict(Answer(answered.verdict), answered.literals, answered.bodies, lines_of(types), warnings, causes, is_partial, ends)


def warnings_of(style: bytes) -> List[StyleWarning]:
    """The warnings of a style alone, which take less time than the whole verdict: nothing is said of its steps. Raises as `check` does."""
    return read_notes(checked_style(b"style.bst", style, STEPS)[2])[0]


def checked_style(file: bytes, style: bytes, steps: int) -> Tuple[library.Checked, bytes, bytes]:
    """What the library's check answers of a style whose file has this name, the names of its types, and its notes."""
    checked = library.checked_style(file, style, steps)
    if checked is None:
        raise StyleTooLong(len(style))
    return checked


def bound_of(file: bytes, style: bytes, kept: int) -> Optional[Bound]:
    """The bound of a style whose file has this name; None where it isn't known to end."""
    bounded = library.bounded_style(file, style, kept)
    if bounded is None:
        return None
    answered, types = bounded
    return Bound(answered.once, answered.each, kept, lines_of(types)) if answered.ends else None


def lines_of(text: bytes) -> List[str]:
    return text.decode("utf8", "surrogateescape").split("\n")[:-1]


def read_notes(notes: bytes) -> Tuple[List[StyleWarning], List[Branches], bool]:
    """The warnings and the causes of the notes, and whether there may be more."""
    warnings: List[StyleWarning] = []
    causes: List[Branches] = []
    is_partial = False
    for line in lines_of(notes):
        word, _, rest = line.partition(" ")
        if word == "warning":
            fault, _, order = rest.partition(" ")
            warnings.append(StyleWarning(fault_of(fault), order == "first"))
        elif word == "cause":
            causes.append(Branches(spot_of(rest), (0, 0), (0, 0)))
        elif word == "grows" and causes:
            causes[-1] = grown(causes[-1], rest)
        elif word == "partial":
            is_partial = True
        elif warnings:
            add_to(warnings[-1], word, rest)
    return warnings, causes, is_partial


def fault_of(word: str) -> Optional[Fault]:
    """The fault of a word; None of a word that this package doesn't know yet."""
    return next((fault for fault in Fault if fault.value == word), None)


def spot_of(rest: str) -> Spot:
    """A token: `in LINE FUNCTION TOKEN NAME`, or `of ..` where it is in braces inside of that function."""
    word, line, function, token, name = rest.split(" ", 4)
    return Spot(int(line), int(function), int(token), name, word == "of")


def grown(cause: Branches, rest: str) -> Branches:
    """The cause with the numbers of `LEAST MOST LEAST MOST`."""
    low, high, other_low, other_high = (int(number) for number in rest.split(" "))
    return Branches(cause.place, (low, high), (other_low, other_high))


def add_to(warning: StyleWarning, word: str, rest: str) -> None:
    """Takes a line of a warning's block. Lines of later libraries, whose word isn't known, are passed over."""
    if word in ("next", "missing"):
        setattr(warning, word, rest)
    elif word == "depth":
        warning.depth = int(rest)
    elif word == "item":
        command, line, name = rest.split(" ", 2)
        warning.command, warning.command_line = f"{command} {{{name}}}", int(line)
    elif word in ("at", "from"):
        warning.places.append(spot_of(rest))
    elif word in ("type", "given", "blank"):
        {"type": warning.types, "given": warning.given, "blank": warning.blank}[word].append(rest)
    elif word == "operand":
        position, _, value = rest.partition(" ")
        warning.operand = Operand(int(position), value)
    elif word in ("wants", "name") and warning.operand is not None:
        setattr(warning.operand, "wanted" if word == "wants" else "owner", rest if word == "wants" else rest.partition(" ")[2])
