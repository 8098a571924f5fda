"""`python3 -m btx extract JOB`: the entries of a document, verbatim, with what they need: their parents, strings and preambles.

Which entries these are, runs of the library say. What comes out is checked: the list that is made from it is the one that is made from the whole databases, byte for byte."""

from __future__ import annotations

import argparse
import sys
from dataclasses import replace
from typing import Dict, Iterator, List, Mapping, NamedTuple, Optional, Set

from . import library
from .causes import first_difference
from .commands import STATUS_REFUSED, Words, broken_pipe, in_words, print_all, print_text, shown
from .jobs import Content, gathered, job_name
from .messages import Kind, Message, decoded
from .mistakes import values_of
from .options import Options
from .outputs import Inputs, write_file
from .reading import ENTRY, PREAMBLE, STRING, WRONG, Bibliography, read_text
from .refusals import OutputTooLong, Refusal
from .results import End, Result
from .searching import search_from
from .values import has_names, parts_of

__all__ = ["Extract", "extract", "main"]

STATUS_DIFFERENT = 2
STATUS_NO_LIST = 3
STATUS_DEVICE = 6
# A style that shows the keys of the list.
KEYS = b"ENTRY {}{}{} FUNCTION {show} {cite$ top$} READ ITERATE {show}"
NO_STRINGS: Mapping[str, str] = {}
NO_ENTRY = "I didn't find a database entry for "


class NoList(Exception):
    """The job has no list whose entries could be taken."""


class Extract(NamedTuple):
    """What was taken from the databases of a job. result: the run over the whole databases. again: the run over what was taken. entries: how many were taken."""

    text: bytes
    entries: int
    result: Result
    again: Result

    @property
    def is_enough(self) -> bool:
        """Whether what was taken gives the same list."""
        return self.again.bbl == self.result.bbl


class Item(NamedTuple):
    """An item of a database, by its first record."""

    base: Bibliography
    at: int

    @property
    def raw(self) -> bytes:
        """Its bytes. Where a mistake ends it, that byte is taken too, so that its reading ends there again; unless the next item begins with it."""
        last, end = self.base._last(self.at), self.base._end(self.at)
        is_taken = self.base._kinds[last] == WRONG and self.base.text[end : end + 1] != b"@"
        return self.base.text[self.base._number(self.at, 2) : end + is_taken]

    @property
    def ends_with_the_file(self) -> bool:
        """Whether the end of its file is the mistake that ends it: then it would take what is put after it."""
        return self.base._kinds[self.base._last(self.at)] == WRONG and self.base._end(self.at) == len(self.base.text)

    def strings(self) -> Iterator[bytes]:
        """The names of strings that its values have, in lower case."""
        text = self.base.text
        for _, start, end in values_of(self.base, self.at, self.base._last(self.at)):
            if has_names(text, start, end):
                yield from (text[part.start : part.end].lower() for part in parts_of(text, start, end) if part.is_name)


def extract(job: str, inputs: Inputs, options: Options) -> Extract:
    """Takes the entries of a job from its databases. Raises NoList where it has no list, OSError and the Refusals of a run."""
    name = job_name(job)
    known = gathered(name, inputs.content)
    result = library.run_over(name, known, options)
    databases = [file for file, content in known.items() if file.endswith(b".bib") and content is not None]
    styles = [file for file, content in known.items() if file.endswith(b".bst") and content is not None]
    if result.report.end is End.NO_TOP_FILE or not styles or not databases:
        raise NoList(f"{job} has no list: {reason_of(result.messages)}")
    taken = items_of(known, databases, keys_of(name, known, styles[0], options))
    text = b"".join(item.raw + b"\n\n" for item in taken)
    small = {**known, **dict.fromkeys(databases, b""), databases[0]: text}
    entries = sum(item.base._kinds[item.at] == ENTRY for item in taken)
    return Extract(text, entries, result, library.run_over(name, small, options))


def reason_of(messages: List[Message]) -> str:
    """The first error of a log, or how its run ended."""
    return next((message.text for message in messages if message.kind is Kind.ERROR), messages[-1].text if messages else "it has no log")


def keys_of(job: bytes, known: Dict[bytes, Content], style: bytes, options: Options) -> Set[bytes]:
    """The keys of a job's entries in lower case, and of the parents of these, however few name them: by a run of a style that shows them."""
    result = library.run_over(job, {**known, style: KEYS}, replace(options, min_crossrefs=1))
    return {message.raw[1:-1].lower() for message in result.messages if message.kind is Kind.SHOWN}


def items_of(known: Dict[bytes, Content], databases: List[bytes], keys: Set[bytes]) -> List[Item]:
    """The entries with these keys, the preambles, and the strings that both use, in the order of the databases. Of entries with one key the first is taken."""
    found: List[Item] = []
    for file in databases:
        base = read_text(known[file] or b"", decoded(file), NO_STRINGS)
        found += [Item(base, at) for at, kind in enumerate(base._kinds) if kind in (ENTRY, STRING, PREAMBLE)]
    entries = first_entries(found, keys)
    taken: List[Item] = []
    needed: Set[bytes] = set()
    # (a string stands before what uses it)
    for item in reversed(found):
        kind = item.base._kinds[item.at]
        if kind == PREAMBLE or (kind == ENTRY and item in entries) or (kind == STRING and item.base._name(item.at).lower() in needed):
            taken.append(item)
            needed.update(item.strings())
    return sorted(taken[::-1], key=lambda item: item.ends_with_the_file)


def first_entries(items: List[Item], keys: Set[bytes]) -> Set[Item]:
    """The first entry of each of these keys."""
    entries = [item for item in items if item.base._kinds[item.at] == ENTRY]
    by_key = {item.base._text(item.at).lower(): item for item in reversed(entries)}
    return {item for key, item in by_key.items() if key in keys}


# ---- the command ----


def main(words: List[str]) -> int:
    """Does what the words say, and answers the exit status."""
    given = parser().parse_args(words)
    inputs = Inputs(search_from(None), given.job)
    options = replace(inputs.search.options(Options()), utf8=given.utf8, min_crossrefs=given.min_crossrefs)
    try:
        return written(extract(given.job, inputs, options), given.output, inputs)
    except NoList as error:
        return complain(str(error), STATUS_NO_LIST)
    except BrokenPipeError:
        return broken_pipe()
    except OutputTooLong as error:
        return complain(str(error), STATUS_NO_LIST)
    except OSError as error:
        return complain(in_words(error), STATUS_DEVICE)
    except Refusal as error:
        return complain(str(error), STATUS_REFUSED)


def parser() -> argparse.ArgumentParser:
    result = Words(prog="python3 -m btx extract", description="Writes the entries of a document, verbatim, with their parents, strings and preambles.")
    result.add_argument("job", metavar="JOB", help="the .aux file of the document, with or without .aux")
    result.add_argument("-o", dest="output", metavar="FILE", help="write to FILE, a file or a new one that TeX's openout_any allows, and not to standard output")
    result.add_argument("--min-crossrefs", type=int, default=2, metavar="N", help="how many entries name a parent that is listed without being cited (2)")
    result.add_argument("--utf8", action="store_true", help="read text as UTF-8")
    return result


def written(found: Extract, output: Optional[str], inputs: Inputs) -> int:
    """Writes what was taken, if it gives the same list; else it says why not."""
    for message in found.result.messages:
        if message.kind is Kind.WARNING and message.text.startswith(NO_ENTRY):
            complain(message.text, 0)
    if not found.is_enough:
        line, here, there = first_difference(found.again.bbl, found.result.bbl)
        return complain(f"nothing is written: the list from these {found.entries} entries has {here!r} in line {line}, and the list of the job has {there!r}", STATUS_DIFFERENT)
    if output is None:
        print_all(found.text)
        return 0
    write_file(output, found.text, inputs)
    print_text(f"{found.entries} entries, {len(found.text):,} bytes, in {shown(output)}: the list from them is the same\n")
    return 0


def complain(text: str, status: int) -> int:
    print(f"btx extract: {shown(text)}", file=sys.stderr)
    return status
