"""The names of a field as BibTeX divides them: the parts are those of the library's formatter, by a run of a small style with `format.name$`."""

from __future__ import annotations

import re
from typing import Dict, Iterable, Iterator, List, NamedTuple, Sequence, Union

from .jobs import run
from .messages import Kind, Message, decoded
from .options import Options
from .refusals import NamesRefused

__all__ = ["Divided", "NameParts", "divided", "names"]

# It shows four parts of each name of the field n.
STYLE = b"""ENTRY {n}{}{} INTEGERS {all at}
FUNCTION {show} {n num.names$ 'all := #1 'at :=
  {at all > {#0} {#1} if$}
  {n at "{ff}" format.name$ top$ n at "{vv}" format.name$ top$ n at "{ll}" format.name$ top$ n at "{jj}" format.name$ top$ at #1 + 'at :=} while$}
READ ITERATE {show}
"""
FILES = {"names.aux": b"\\citation{*}\n\\bibdata{names}\n\\bibstyle{names}\n", "names.bst": STYLE}
OPTIONS = Options(budget=2**64 - 1, most_log=1 << 30)
BRACE = re.compile(rb"[{}]")
TIE_OR_BRACE = re.compile(r"[~{}]")
# How long a field may be, and how many fields are divided in one run.
MOST_BYTES = 1_000_000
MOST_FIELDS = 1000


class NameParts(NamedTuple):
    """A name: its first names, its von part, its last name and its Jr part (`jr`), each of which is text and may be empty. `others` as the last name of all is a style's word for et al."""

    first: str
    von: str
    last: str
    jr: str

    def __str__(self) -> str:
        """The name as a database may have it: von Last, Jr, First."""
        last = " ".join(filter(None, (self.von, self.last)))
        return ", ".join([last, *filter(None, (self.jr, self.first))])


class Divided(List[NameParts]):
    """The names of a field. messages: what a run logs of them, such as a comma too many."""

    def __init__(self, parts: Iterable[NameParts] = ()) -> None:
        super().__init__(parts)
        self.messages: List[Message] = []


def names(text: Union[str, bytes]) -> Divided:
    """Divides the names of a field, whose text is text or bytes: `names("Ludwig van Beethoven and Knuth, Donald E.")`. Between the words of a part stands a space, or the hyphen that the field has.

    Raises NamesRefused for a text that no field has, since its braces don't match, or since it is too long."""
    return divided([decoded(text) if isinstance(text, bytes) else text])[0]


def divided(texts: Sequence[str]) -> List[Divided]:
    """The names of several fields: a run divides those of many."""
    found: List[Divided] = []
    for start in range(0, len(texts), MOST_FIELDS):
        found += divided_at_once(texts[start : start + MOST_FIELDS])
    return found


def divided_at_once(texts: Sequence[str]) -> List[Divided]:
    """The names of fields, by one run."""
    database = b"".join(b"@a{%d, n = {%s}}\n" % (number, checked(text)) for number, text in enumerate(texts))
    found: List[Divided] = [Divided() for _ in texts]
    shown: Dict[int, List[str]] = {}
    for message in run("names", {**FILES, "names.bib": database}, OPTIONS).messages:
        if message.number is None:
            continue
        if message.kind is Kind.SHOWN:
            shown.setdefault(message.number, []).append(spaced(message.text[1:-1]))
        elif message.kind is Kind.ERROR:
            found[message.number].messages.append(message)
    for number, parts in shown.items():
        found[number] += [NameParts(*parts[at : at + 4]) for at in range(0, len(parts), 4)]
    return found


def checked(text: str) -> bytes:
    """The bytes of a field's text, if a field can have it."""
    content = text.encode("utf8", "surrogateescape")
    if len(content) > MOST_BYTES:
        raise NamesRefused(text[:100], f"has more than {MOST_BYTES:,} bytes")
    depth = 0
    for found in BRACE.finditer(content):
        depth += 1 if found[0] == b"{" else -1
        if depth < 0:
            break
    if depth != 0:
        raise NamesRefused(text, "has braces that don't match, so no field has it")
    return content


def spaced(text: str) -> str:
    """A part in which the ties that the formatter has set are spaces. Those in braces are the field's own."""
    return "".join(pieces(text)) if "~" in text else text


def pieces(text: str) -> Iterator[str]:
    at = depth = 0
    for found in TIE_OR_BRACE.finditer(text):
        depth += {"{": 1, "}": -1}.get(found[0], 0)
        if found[0] == "~" and depth == 0:
            yield text[at : found.start()] + " "
            at = found.end()
    yield text[at:]
