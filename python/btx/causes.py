"""What two reference lists differ in, and why, where that can be seen."""

from __future__ import annotations

import enum
import re
from typing import Dict, List, NamedTuple, Optional

from .events import Met, Severity
from .results import End, Result

__all__ = ["Cause", "Difference", "cause_of", "first_difference"]

ITEM = re.compile(rb"^(?=\\(?:bib|harvard)item|\\entry\{)", re.MULTILINE)
KEY = re.compile(rb"\\(?:bib|harvard)item\s*(?:\[(?:[^\]{]|\{(?:[^{}]|\{[^{}]*\})*\})*\]\s*)?\{([^}]*)\}|\\entry\{([^}]*)\}")
WHITE_SPACE = b" \t\r\n"
LONGEST_SHOWN = 160
CUT = re.compile(rb"Warning--string of [0-9]+ bytes cut to [0-9]+ while ")


class Cause(enum.Enum):
    """Why two lists differ, as far as that can be seen from them and from the log."""

    STOPPED = "the run was stopped by its budget"
    LIMIT = "the run met a limit"
    CUT = "a string was cut to what a variable keeps"
    LINE_ENDS = "the ends of the lines alone"
    SPACES = "white space alone"
    ORDER = "the order of the items"
    STYLE = "an error of the style was logged"
    ITEMS = "the text of some items"
    KEYS = "other items"
    OTHER = "the text between the items"


class Difference(NamedTuple):
    """The first line in which two lists differ, counted from 1, and both sides of it; None where a list has no such line."""

    line: int
    here: Optional[str]
    there: Optional[str]


def first_difference(here: bytes, there: bytes) -> Difference:
    """The first line in which two texts that aren't equal differ."""
    place = common_prefix(here, there)
    begin = here.rfind(b"\n", 0, place) + 1
    number = here.count(b"\n", 0, place) + 1
    if line_at(here, begin) == line_at(there, begin):
        begin = place + 1
        number += 1
    return Difference(number, shown_at(here, begin), shown_at(there, begin))


def common_prefix(here: bytes, there: bytes) -> int:
    """How many bytes two texts have in common at their fronts."""
    least, most = 0, min(len(here), len(there))
    while least < most:
        middle = (least + most + 1) // 2
        if here[least:middle] == there[least:middle]:
            least = middle
        else:
            most = middle - 1
    return least


def line_at(text: bytes, begin: int) -> bytes:
    """The line that begins at a place of a text, without its end."""
    end = text.find(b"\n", begin)
    return text[begin:] if end < 0 else text[begin:end]


def shown_at(text: bytes, begin: int) -> Optional[str]:
    return shown(line_at(text, begin)) if begin <= len(text) else None


def shown(line: bytes) -> str:
    """A line as it may be printed: whatever steers a terminal is a question mark, and a long one is cut."""
    text = line.decode("utf8", "replace")
    text = "".join(character if character.isprintable() else "?" for character in text[: LONGEST_SHOWN + 1])
    return text if len(text) <= LONGEST_SHOWN else text[:LONGEST_SHOWN] + "..."


def cause_of(result: Result, there: bytes) -> Cause:
    """Why the list of a run differs from another list."""
    here = result.bbl
    if result.report.end is End.STOPPED:
        return Cause.STOPPED
    if result.report.end is not End.FINISHED:
        return Cause.LIMIT
    if here.replace(b"\r\n", b"\n") == there.replace(b"\r\n", b"\n"):
        return Cause.LINE_ENDS
    if here.translate(None, WHITE_SPACE) == there.translate(None, WHITE_SPACE):
        return Cause.SPACES
    ours, theirs = items_of(here), items_of(there)
    if ours.keys() != theirs.keys():
        return Cause.KEYS
    if ours == theirs and list(ours) == list(theirs):
        return Cause.OTHER
    return cause_of_items(result, ours, theirs)


def cause_of_items(result: Result, ours: Dict[bytes, bytes], theirs: Dict[bytes, bytes]) -> Cause:
    """Why items of the same keys differ or stand in another order: what the log says of it, unless their order alone differs."""
    if any(event.met is Met.EXECUTION and CUT.match(result.log, event.offset) for event in result.events.of(Severity.WARNING)):
        return Cause.CUT
    if ours == theirs:
        return Cause.ORDER
    if any(event.met in (Met.STYLE, Met.EXECUTION) for event in result.events.of(Severity.ERROR)):
        return Cause.STYLE
    return Cause.ORDER if list(ours) != list(theirs) else Cause.ITEMS


def items_of(text: bytes) -> Dict[bytes, bytes]:
    """The items of a list by their keys, each with white space squeezed, in their order."""
    items: Dict[bytes, List[bytes]] = {}
    for part in ITEM.split(text)[1:]:
        found = KEY.match(part)
        key = (found[1] or found[2] or b"") if found else part[:40]
        body = part.split(b"\\end{thebibliography}")[0]
        items.setdefault(key, []).append(b" ".join(body.split()))
    return {key: b"".join(parts) for key, parts in items.items()}
