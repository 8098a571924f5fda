"""Documents with several lists of references: a package writes an `.aux` file for each list, and BibTeX is run on each of these files, and not on the document's own."""

from __future__ import annotations

import os
import re
from typing import Iterable, Iterator, List, Optional, Tuple

from .doctor import Source
from .remedies import said
from .searching import MOST_BYTES, content_of

__all__ = ["aux_beside", "remedy_of_lists", "remedy_of_units"]

# What to do, where $1 are the jobs that have lists, and $2 is the document's own or the name of a package.
OF_CHAPTERS = "run BibTeX on $1, and not on `$2`: with `chapterbib` each file that `\\include` names has a list of its own"
OF_SEVERAL = "keep one `\\bibliography`, with its `\\bibliographystyle`, for the whole document; or load `chapterbib` for several lists, and run BibTeX on $1"
OF_PARTS = "let `\\include` read each part that has a list, or `\\cbinput` with the option `draft` of `chapterbib`; run LaTeX, and BibTeX on each of these files"
OF_CHAPTER = "write `\\bibliographystyle` and `\\bibliography` into this chapter and run LaTeX: with `chapterbib` each has a list of its own"
OF_UNITS = "run BibTeX on $1: `$2` writes an `.aux` file for each list"
SECOND = ("Illegal, another \\bibdata command", "Illegal, another \\bibstyle command")
# What chapterbib writes at the beginning and the end of each part.
OF_CHAPTERBIB = b"\\@extra@binfo"
HAS_DATABASE = re.compile(rb"(?m)^\\bibdata\{")
# The lists of multibib, each with the name of its file.
NEW_CITES = re.compile(rb"\\newcites[ \t]*\{([^{}\r\n]*)\}")
# How many `.aux` files of a folder are read, and how many jobs are named.
MOST_FILES, MOST_NAMED = 1000, 6


def remedy_of_lists(text: str, auxes: List[Source]) -> Optional[str]:
    """What to do about an error of a job's `.aux` files, where its document has several lists; None where that isn't seen."""
    whole = auxes[0]
    if text in SECOND:
        jobs = [stem(aux.name) for aux in auxes if HAS_DATABASE.search(aux.text)]
        if len(jobs) < 2:
            return OF_PARTS if OF_CHAPTERBIB in whole.text else None
        return said(OF_CHAPTERS if OF_CHAPTERBIB in whole.text else OF_SEVERAL, named(jobs), stem(whole.name))
    if not text.startswith("I found no "):
        return None
    if text != "I found no \\citation commands" and is_chapter(whole):
        return OF_CHAPTER
    return remedy_of_units(whole)


def remedy_of_units(whole: Source) -> Optional[str]:
    """What to do where packages have written the lists' `.aux` files beside the document's own, which has none."""
    for package, jobs in jobs_of_packages(whole):
        if jobs:
            return said(OF_UNITS, named(jobs), package)
    return None


def jobs_of_packages(whole: Source) -> Iterator[Tuple[str, List[str]]]:
    """The jobs that have lists, by the package that makes them: an `.aux` file without a `.tex` file of that name."""
    base = os.path.basename(stem(whole.name))
    jobs = [stem(aux.name) for aux in aux_beside(whole.name) if HAS_DATABASE.search(aux.text) and not os.path.exists(stem(aux.name) + ".tex")]
    jobs.sort(key=lambda job: (len(job), job))
    new = frozenset(os.fsdecode(name.strip()) for found in NEW_CITES.finditer(text_of(stem(whole.name) + ".tex")) for name in found[1].split(b","))
    yield "bibunits", [job for job in jobs if re.fullmatch("bu[0-9]+", os.path.basename(job))]
    yield "bibtopic", [job for job in jobs if re.fullmatch(re.escape(base) + "[0-9]+", os.path.basename(job))]
    yield "multibib", [job for job in jobs if os.path.basename(job) in new]


def is_chapter(aux: Source) -> bool:
    """Whether an `.aux` file is a part's of a document whose parts have lists of their own: one above it or beside it reads it."""
    reads = [b"\\@input{" + os.fsencode(name) + b"}" for name in {aux.name, os.path.basename(aux.name)}]
    others = (other.text for folder in {os.path.dirname(aux.name), ""} for other in aux_files_of(folder))
    return any(OF_CHAPTERBIB in text and any(command in text for command in reads) for text in others)


def aux_beside(path: str) -> Iterator[Source]:
    """The other `.aux` files of a file's folder."""
    return (aux for aux in aux_files_of(os.path.dirname(path)) if aux.name != path)


def aux_files_of(folder: str) -> Iterator[Source]:
    """The `.aux` files of a folder, in the order of their names."""
    names = sorted(name for name in os.listdir(folder or os.curdir) if name.endswith(".aux"))
    paths = (os.path.join(folder, name) for name in names[:MOST_FILES])
    return (Source(path, text_of(path)) for path in paths if os.path.isfile(path))


def text_of(path: str) -> bytes:
    """The text of a file; nothing where it can't be read."""
    try:
        return content_of(os.fsencode(path), MOST_BYTES)
    except (OSError, ValueError):
        return b""


def stem(path: str) -> str:
    """The name of a job, by that of its file."""
    return path[: -len(".aux")] if path.endswith(".aux") else path


def named(jobs: Iterable[str]) -> str:
    """The names of jobs, or of the first ones."""
    quoted = [f"`{job}`" for job in jobs]
    if len(quoted) > MOST_NAMED:
        return f"each of {', '.join(quoted[:MOST_NAMED])}, .."
    return " and ".join(filter(None, [", ".join(quoted[:-1]), quoted[-1]]))
