"""`python3 -m btx fields STYLE`: which fields a style asks for, for each type of entry. Entries with and without a field are run: what the style warns of, and whether its list changes,
says how it takes the field. So it is found by trying, and isn't proved. A field that counts in no entry that was tried is said to be never read only where no function that such entries reach
names it; else it may be read."""

from __future__ import annotations

import argparse
import html
import itertools
import json
import os
import sys
from dataclasses import asdict, dataclass
from typing import FrozenSet, Iterable, List, Set, Tuple

from .checkup import Refused, named_style
from .commands import STATUS_REFUSED, Words, broken_pipe, in_words, print_text, shown
from .events import Met
from .jobs import run
from .messages import Kind, Message
from .reaching import Reach
from .reading import lowered
from .results import End
from .searching import search_from
from .standard import TYPES
from .trying import AUX, CROSSREF, OPTIONS, Prober, counts

__all__ = ["AskedFields", "StyleFaulty", "fields_of", "main"]

STATUS_FAULTY = 2
STATUS_DEVICE = 6


class StyleFaulty(Exception):
    """The text of a style has mistakes. mistakes: what a run logs of them."""

    def __init__(self, mistakes: List[Message]) -> None:
        super().__init__(mistakes)
        self.mistakes = mistakes


@dataclass(frozen=True)
class AskedFields:
    """The fields that a style asks for in entries of a type.

    required: without one of these it warns. one_of: pairs, and without both fields of one it warns. beside: pairs, and it warns where the second field is given without the first.
    not_both: pairs that it warns of. optional: what else counts in an entry that was tried. may_be_read: what counts in none of these, and is named by a function that such entries reach.
    never_read: what none of these functions names, so that no run reads it in an entry of this type. (A child of another type may inherit it, and read it there.)"""

    type: str
    required: Tuple[str, ...]
    one_of: Tuple[Tuple[str, str], ...]
    beside: Tuple[Tuple[str, str], ...]
    not_both: Tuple[Tuple[str, str], ...]
    optional: Tuple[str, ...]
    may_be_read: Tuple[str, ...]
    never_read: Tuple[str, ...]


def whole_of(prober: Prober) -> FrozenSet[str]:
    """As many fields as the style takes together: those of which it warns least, and of these without the last ones."""
    chosen = frozenset(prober.fields)
    while True:
        warned = len(prober.show(chosen).warnings)
        better = next((chosen - {name} for name in reversed(prober.fields) if name in chosen and len(prober.show(chosen - {name}).warnings) < warned), None)
        if better is None:
            return chosen
        chosen = better


def asked_by(prober: Prober, never_read: Tuple[str, ...]) -> AskedFields:
    """What the style asks for in entries of one type, of which it never reads these fields."""
    whole = whole_of(prober)
    least = len(prober.show(whole).warnings)

    def warns(fields: FrozenSet[str]) -> bool:
        return len(prober.show(fields).warnings) > least

    there = [name for name in prober.fields if name in whole]
    left_out = [name for name in prober.fields if name not in whole]
    missed = [name for name in there if warns(whole - {name})]
    one_of = [(name, other) for name in missed for other in left_out if not warns(whole - {name} | {other})]
    beside = [(name, other) for name in missed for other in there if other != name and not warns(whole - {name, other})]
    required = [name for name in missed if name not in {pair[0] for pair in (*one_of, *beside)}]
    rest = [name for name in there if name not in missed and counts(prober, name, [whole, frozenset()])]
    one_of += [pair for pair in itertools.combinations(rest, 2) if warns(whole - set(pair))]
    not_both = [(name, other) for other in left_out if warns(whole | {other}) for name in there if not warns(whole - {name} | {other})]
    named = {*required, *itertools.chain(*one_of)}
    read = read_by(prober, whole, named)
    return AskedFields(
        prober.kind,
        tuple(required),
        tuple(one_of),
        tuple(beside),
        tuple(pair for pair in not_both if pair not in one_of),
        tuple(read),
        tuple(name for name in prober.fields if name not in read and name not in named),
        never_read,
    )


def read_by(prober: Prober, whole: FrozenSet[str], named: Set[str]) -> List[str]:
    """The other fields that count: in the whole entry, alone, in both beside a crossref, or in the whole one without another field that counts, which may hide it."""
    others = [name for name in prober.fields if name not in named]
    parent = frozenset({CROSSREF})
    seen = [name for name in others if counts(prober, name, [whole, frozenset(), whole | parent, parent])]
    hiding = [whole - {name} for name in (*named, *seen)]
    return [name for name in others if name in seen or counts(prober, name, hiding)]


def fields_of(style: bytes, types: Iterable[str] = ()) -> List[AskedFields]:
    """What a style asks for in entries of these types, or of all that it has. Raises StyleFaulty where its text has mistakes."""
    is_read = is_read_to_its_end(style)
    reach = Reach(style)
    used = {word.name for word in reach.text.uses}
    own = [name for name in reach.text.named("function") if name in TYPES or name not in used]
    fields = [name for name in reach.text.named("field") if name != CROSSREF]
    found = []
    for kind in types or own:
        reached = reach.of_type(lowered(kind)) if is_read else set(fields)
        prober = Prober(style, kind, [name for name in fields if name in reached])
        found.append(asked_by(prober, tuple(name for name in fields if name not in reached)))
    return found


def is_read_to_its_end(style: bytes) -> bool:
    """Whether a run reads the style to its end, so that all its mistakes are known. Raises StyleFaulty where it has some."""
    result = run("j", {"j.aux": AUX, "s.bst": style, "d.bib": b""}, OPTIONS)
    mistakes = [message for message in result.messages if message.met is Met.STYLE and message.kind is Kind.ERROR]
    if mistakes:
        raise StyleFaulty(mistakes)
    return result.report.end is End.FINISHED


# ---- the command ----


def main(words: List[str]) -> int:
    """Does what the words say, and answers the exit status."""
    given = parser().parse_args(words)
    try:
        found = fields_of(named_style(given.style, search_from(None)), given.types)
        text = as_json(found) if given.json else as_page(given.style, found) if given.html else as_text(found)
        print_text(f"{text}\n")
        return 0
    except StyleFaulty as error:
        for mistake in error.mistakes:
            print(f"btx fields: {shown(f'{given.style}: line {mistake.line}: {mistake.text}')}", file=sys.stderr)
        return STATUS_FAULTY
    except Refused as error:
        print(f"btx fields: {shown(str(error))}", file=sys.stderr)
        return STATUS_REFUSED
    except BrokenPipeError:
        return broken_pipe()
    except OSError as error:
        print(f"btx fields: {shown(in_words(error))}", file=sys.stderr)
        return STATUS_DEVICE


def parser() -> argparse.ArgumentParser:
    result = Words(prog="python3 -m btx fields", description="Says which fields a style asks for, for each type of entry.")
    result.add_argument("style", metavar="STYLE", help="the style, by its path or as \\bibliographystyle names it")
    result.add_argument("types", metavar="TYPE", nargs="*", help="types of entries; all that the style has, if none is named")
    shape = result.add_mutually_exclusive_group()
    shape.add_argument("--json", action="store_true", help="print JSON")
    shape.add_argument("--html", action="store_true", help="print a page")
    return result


def rows_of(asked: AskedFields) -> List[Tuple[str, str]]:
    """What is said of a type, in words."""
    pairs = [" or ".join(pair) for pair in asked.one_of]
    rows = [
        ("required", ", ".join([*asked.required, *pairs])),
        ("beside", ", ".join(" where there is ".join(pair) for pair in asked.beside)),
        ("not both", ", ".join(" and ".join(pair) for pair in asked.not_both)),
        ("optional", ", ".join(asked.optional)),
        ("may be read", ", ".join(asked.may_be_read)),
        ("never read", ", ".join(asked.never_read)),
    ]
    return [(what, text) for what, text in rows if text]


def as_text(found: List[AskedFields]) -> str:
    lines = [f"{shown(asked.type)}\n" + "".join(f"  {what:11}  {shown(text)}\n" for what, text in rows_of(asked)) for asked in found]
    return "\n".join(lines).rstrip("\n")


def as_json(found: List[AskedFields]) -> str:
    return json.dumps([asdict(asked) for asked in found], indent=1)


def as_page(style: str, found: List[AskedFields]) -> str:
    """A page of HTML."""
    name = html.escape(shown(os.path.basename(style)))
    parts = [
        f"<h2>{html.escape(shown(asked.type))}</h2>\n<dl>" + "".join(f"<dt>{what}</dt><dd>{html.escape(shown(text))}</dd>" for what, text in rows_of(asked)) + "</dl>"
        for asked in found
    ]
    head = f'<!DOCTYPE html>\n<html lang="en"><meta charset="utf-8"><title>The fields of {name}</title>\n<h1>The fields of {name}</h1>'
    return "\n".join([head, *parts, "</html>"])
