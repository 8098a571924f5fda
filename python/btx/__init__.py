"""BibTeX, proved, in process.

    import btx
    result = btx.run_paper("paper")                 # what `bibtex paper` does on this machine
    result.bbl, result.log, result.report.errors
    btx.read("refs.bib")["knuth"]["title"]          # entries as data
    btx.read_job("paper")["knuth"]["publisher"]     # the entries of a job, with what they inherit
    btx.run("paper", {"paper.aux": aux, "plain.bst": style, "refs.bib": database})

`run` takes files that are handed in, and `run_in` those of a folder. What a call finds and how a run ends is logged by `logging`, under the name `btx`. `check` says of a
style, before any run, whether it is clean. `python3 -m btx JOB` runs a job as the program does; `compare`, `doctor`, `extract`, `fields` and `lsp` are commands of
their own (README.md).

What is proved is the library below, libbtx.so.1: that list, log and report are those of the definition of BibTeX's language for the files
that were handed in. This package is ordinary Python around its calls."""

from __future__ import annotations

import importlib
from typing import TYPE_CHECKING, Any, List

# (the library alone is loaded in any case: an import says whether it is there)
from . import library

if TYPE_CHECKING:
    from .checking import Answer, Bound, Branches, Fault, Operand, Spot, StyleWarning, Verdict, check
    from .dividing import Divided, NameParts, names
    from .events import Event, Events, LogPlace, Met, Severity
    from .job_reading import Library, read_job
    from .jobs import Content, Files, Finder, Name, in_folder, needs, run, run_in, run_paper
    from .messages import Kind, Message, messages_of
    from .options import LETTERS, TEX_LIVE, Options
    from .reading import MONTHS, Bibliography, Entries, Entry, Mistake, Place, read
    from .refusals import DatabaseTooLong, FileUnknown, FinderRefused, LettersRefused, LibraryMissing, MemoryRefused, NameRefused, NamesRefused, NoLibrary, OptionRefused, OutputTooLong, Refusal, StyleTooLong
    from .results import End, Report, Result
    from .version import VERSION as __version__

# The public names of each module. A module is read when one of its names is asked for, so that a command waits only for those that it needs.
NAMES = {
    "checking": "Answer Bound Branches Fault Operand Spot StyleWarning Verdict check",
    "dividing": "Divided NameParts names",
    "events": "Event Events LogPlace Met Severity",
    "job_reading": "Library read_job",
    "jobs": "Content Files Finder Name in_folder needs run run_in run_paper",
    "messages": "Kind Message messages_of",
    "options": "LETTERS TEX_LIVE Options",
    "reading": "MONTHS Bibliography Entries Entry Mistake Place read",
    "refusals": "DatabaseTooLong FileUnknown FinderRefused LettersRefused LibraryMissing MemoryRefused NameRefused NamesRefused NoLibrary OptionRefused OutputTooLong Refusal StyleTooLong",
    "results": "End Report Result",
}
MODULES = {name: module for module, names in NAMES.items() for name in names.split()}


def __getattr__(name: str) -> Any:
    """A public name, or a module of the package, which is read now."""
    if name == "__version__":
        found = importlib.import_module(".version", __name__).VERSION
    elif name in MODULES:
        found = getattr(importlib.import_module("." + MODULES[name], __name__), name)
    elif name in NAMES:
        found = importlib.import_module("." + name, __name__)
    else:
        raise AttributeError(f"module {__name__!r} has no attribute {name!r}")
    globals()[name] = found
    return found


def __dir__() -> List[str]:
    return sorted({*globals(), *__all__})


__all__ = [
    "Answer",
    "Bibliography",
    "Branches",
    "Content",
    "DatabaseTooLong",
    "Divided",
    "End",
    "Entries",
    "Entry",
    "Event",
    "Events",
    "Fault",
    "FileUnknown",
    "Files",
    "Finder",
    "FinderRefused",
    "Kind",
    "LETTERS",
    "LettersRefused",
    "Library",
    "LibraryMissing",
    "LogPlace",
    "MONTHS",
    "MemoryRefused",
    "Message",
    "Met",
    "Mistake",
    "Name",
    "NameParts",
    "NameRefused",
    "NamesRefused",
    "NoLibrary",
    "Operand",
    "OptionRefused",
    "Options",
    "OutputTooLong",
    "Place",
    "Refusal",
    "Report",
    "Result",
    "Severity",
    "Spot",
    "StyleTooLong",
    "StyleWarning",
    "TEX_LIVE",
    "Verdict",
    "__version__",
    "check",
    "in_folder",
    "messages_of",
    "names",
    "needs",
    "read",
    "read_job",
    "run",
    "run_in",
    "run_paper",
]
