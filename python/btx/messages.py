"""The log as data.

Each line of the log is one message. Of a run the library says what each line is (`messages_with`), so no line that a style prints is taken for an error. Of a log from a
file only the text is known (`messages_of`); what a line means is then found by its shape, as docs/RULES.md states it:

    The top-level auxiliary file: NAME              A level-N auxiliary file: NAME
    The style file: NAME                            Database file #N: NAME
    Error--TEXT                                     Warning--TEXT
    Error--TEXT--line N of file NAME                Warning--TEXT--line N of file NAME
    Error--TEXT while executing FUNCTION            .. for entry KEY
    Ended: WORD, warnings W, errors E, steps S

Any other line shows something: a literal of `top$` and `stack$`. A style can write lines of each of these shapes by `warning$` and `top$`, and
in a file such a line can't be distinguished from one that the program wrote by itself."""

from __future__ import annotations

import enum
import re
from dataclasses import dataclass
from typing import Iterator, List, NamedTuple, Optional, Tuple

from .events import Event, Events, LogPlace, Met, Severity

__all__ = ["Kind", "Message", "messages_of", "messages_with"]


class Kind(enum.Enum):
    """What a line of the log is."""

    TOP_FILE = "top file"
    AUX_FILE = "auxiliary file"
    STYLE_FILE = "style file"
    DATABASE_FILE = "database file"
    WARNING = "warning"
    ERROR = "error"
    SHOWN = "shown"
    ENDED = "ended"


@dataclass(frozen=True)
class Message:
    """A line of the log.

    kind: what it is. text: what it says, without its place and without what was executed.
    file, line: the place in a file that it names, the line counted from 1. function: what was executed, in lower case (a command in capitals).
    entry: the cite key of the entry for which it was executed. Each is None where the line names none.
    raw: the line's bytes, without its end: `b"\\n".join(raw) + b"\\n"` over all messages is the log. offset: how many bytes of the log are before it.
    severity: whether it is an error, a warning or neither. met: where a run met it. number: that of the current entry, counted from 0; None where there is none.
    place: what it is about: a token of the style, a word of the style's text, or a point of a database; None where no place is known. (In a log from a file `met`, `number` and
    `place` are None.)

    Texts are decoded as UTF-8; bytes that aren't stand for themselves, as in Python's file names (`surrogateescape`)."""

    kind: Kind
    text: str
    raw: bytes
    file: Optional[str] = None
    line: Optional[int] = None
    function: Optional[str] = None
    entry: Optional[str] = None
    offset: int = 0
    met: Optional[Met] = None
    number: Optional[int] = None
    place: Optional[LogPlace] = None

    @property
    def severity(self) -> Severity:
        """Whether it is an error, a warning or neither: ERROR, WARNING or PLAIN."""
        return SEVERITIES.get(self.kind, Severity.PLAIN)

    def __str__(self) -> str:
        return decoded(self.raw)


class Parts(NamedTuple):
    """What the text of a warning or an error says, beside its kind."""

    text: str
    file: Optional[str] = None
    line: Optional[int] = None
    function: Optional[str] = None
    entry: Optional[str] = None


FRONTS = (
    (b"Warning--", Kind.WARNING),
    (b"Error--", Kind.ERROR),
    (b"The top-level auxiliary file: ", Kind.TOP_FILE),
    (b"The style file: ", Kind.STYLE_FILE),
    (b"Ended: ", Kind.ENDED),
)
NUMBERED = (
    (re.compile(rb"A level-[0-9]+ auxiliary file: "), Kind.AUX_FILE),
    (re.compile(rb"Database file #[0-9]+: "), Kind.DATABASE_FILE),
)
NAMES_A_FILE = (Kind.TOP_FILE, Kind.AUX_FILE, Kind.STYLE_FILE, Kind.DATABASE_FILE)
SEVERITIES = {Kind.WARNING: Severity.WARNING, Kind.ERROR: Severity.ERROR}
LINE_OF_FILE = re.compile(rb"([0-9]{1,18}) of file (.*)", re.DOTALL)
EXECUTED = re.compile(rb"([^ ]*)(?: for entry (.*))?", re.DOTALL)
# The warning of a style's execution that isn't the style's own.
CUT = re.compile(rb"string of [0-9]+ bytes cut to [0-9]+ while executing ")


def decoded(text: bytes) -> str:
    return text.decode("utf8", "surrogateescape")


# ---- of a run ----


def messages_with(log: bytes, events: Events) -> List[Message]:
    """The messages of a run: of its log, and of what the library says of each line."""
    return [message_with(log[event.offset : event.end], event) for event in events]


def message_with(line: bytes, event: Event) -> Message:
    """The message of a line. Its text is asked only for what the library writes there: a place, or what was executed."""
    kind, front = known_kind(line, event)
    parts = parts_with(line[front:], event) if kind in SEVERITIES else plain_parts(kind, line, front)
    return Message(kind, parts.text, line, *parts[1:], event.offset, event.met, event.number, event.place)


def known_kind(line: bytes, event: Event) -> Tuple[Kind, int]:
    """What a line is by its event, and how many bytes say so at its front."""
    if event.severity is Severity.ERROR:
        return Kind.ERROR, len(b"Error--")
    if event.severity is Severity.WARNING:
        return Kind.WARNING, len(b"Warning--")
    if event.met in (Met.EXECUTION, Met.END):
        return (Kind.SHOWN if event.met is Met.EXECUTION else Kind.ENDED), 0
    return kind_of(line)


def parts_with(rest: bytes, event: Event) -> Parts:
    """What a warning or an error says. A style's own warning has neither a place nor a function, whatever its text is like."""
    if event.met is not Met.EXECUTION:
        return placed_at(rest, event.place) or placed(rest) or Parts(decoded(rest))
    is_own = event.severity is Severity.WARNING and not CUT.match(rest)
    return (None if is_own else executed(rest)) or Parts(decoded(rest))


def placed_at(rest: bytes, place: Optional[LogPlace]) -> Optional[Parts]:
    """A text before the place that the library says of its line."""
    if place is None:
        return None
    named = b"--line %d of file %s" % (place.line, place.file.encode("utf8", "surrogateescape"))
    return Parts(decoded(rest[: -len(named)]), place.file, place.line) if rest.endswith(named) else None


# ---- of a file ----


def messages_of(log: bytes) -> List[Message]:
    """The messages of a log that was read from a file, a line each; a last line without an end is one too (where a run was broken off)."""
    return [message_of(line, offset) for line, offset in lines_of(log)]


def lines_of(log: bytes) -> Iterator[Tuple[bytes, int]]:
    """The lines of a log, and how many bytes are before each."""
    offset = 0
    while offset < len(log):
        end = log.find(b"\n", offset)
        end = len(log) if end < 0 else end
        yield log[offset:end], offset
        offset = end + 1


def message_of(line: bytes, offset: int) -> Message:
    """The message that a line is, by its shape."""
    kind, front = kind_of(line)
    rest = line[front:]
    if kind in SEVERITIES:
        parts = placed(rest) or executed(rest) or Parts(decoded(rest))
    else:
        parts = plain_parts(kind, line, front)
    return Message(kind, parts.text, line, *parts[1:], offset)


def kind_of(line: bytes) -> Tuple[Kind, int]:
    """What a line is by its shape, and how many bytes say so at its front."""
    for front, kind in FRONTS:
        if line.startswith(front):
            return kind, len(front)
    for pattern, kind in NUMBERED:
        found = pattern.match(line)
        if found:
            return kind, found.end()
    return Kind.SHOWN, 0


def plain_parts(kind: Kind, line: bytes, front: int) -> Parts:
    """What a line says that is neither a warning nor an error: the file that was found, if it says so."""
    return Parts(decoded(line), decoded(line[front:]) if kind in NAMES_A_FILE else None)


def placed(rest: bytes) -> Optional[Parts]:
    """A text and its place, if it ends in one. The last `--line` counts, since a text may have one too."""
    at = rest.rfind(b"--line ")
    found = LINE_OF_FILE.fullmatch(rest, at + len(b"--line ")) if at >= 0 else None
    return None if found is None else Parts(decoded(rest[:at]), decoded(found[2]), int(found[1]))


def executed(rest: bytes) -> Optional[Parts]:
    """A text with what was executed and for which entry, if it ends so."""
    front = b" while executing "
    at = rest.rfind(front)
    found = EXECUTED.fullmatch(rest, at + len(front)) if at >= 0 else None
    if found is None:
        return None
    entry = None if found[2] is None else decoded(found[2])
    return Parts(decoded(rest[:at]), function=decoded(found[1]), entry=entry)
