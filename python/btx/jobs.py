"""Runs of jobs."""

from __future__ import annotations

import errno
import logging
import os
import pathlib
from typing import Callable, Dict, List, Mapping, Optional, Union

from . import library
from .letters import run_with_letters
from .options import Options
from .outputs import Inputs, write_outputs
from .refusals import FinderRefused, NameRefused
from .results import End, Result
from .searching import MOST_BYTES, existing_folder, search_from
from .searching import content_of as bytes_at

__all__ = ["Content", "Files", "Finder", "Name", "in_folder", "needs", "run", "run_in", "run_paper"]

# How text may be read where the options don't say it.
READINGS = ("auto", "bytes")
LOG = logging.getLogger("btx")
LOG.addHandler(logging.NullHandler())
# A name of a job or a file: bytes, or text or a path whose bytes are UTF-8 (`surrogateescape` for those that aren't, as in Python's file names).
Name = Union[str, bytes, "os.PathLike[str]"]
# The bytes of a file, or None where there is no file of that name.
Content = Optional[bytes]
Finder = Callable[[str], Content]
Files = Union[Mapping[str, Content], Mapping[bytes, Content], Mapping[Name, Content], Finder]


def run(job: Name, files: Files, options: Optional[Options] = None) -> Result:
    """Runs a job: finds the files that it needs, and has its style executed.

    job: the name of the job, which is that of its `.aux` file with or without `.aux`.
    files: a mapping from names to bytes, or a function that gives the bytes of the file of a name, or None where there is none. A name
    is asked for once: `paper.aux`, `plain.bst`, `refs.bib`. What isn't in a mapping isn't there.
    options: Options() where nothing is said.

    A run that is stopped or that meets a limit has a result. Raises TypeError where `options` are none, and a Refusal: OptionRefused, NameRefused, FinderRefused, MemoryRefused,
    OutputTooLong. What `files` raises is passed on. Calls in several threads run side by side; nothing is kept between calls."""
    return run_read(job, files, options, "bytes")


def run_read(job: Name, files: Files, options: Optional[Options], reading: str) -> Result:
    """The same. reading: how text is read where `utf8` of the options doesn't say it: `bytes`, or `auto`, which is by letters of UTF-8 where bytes would leave half a letter in the list; then
    the result's notes say so."""
    chosen = Options() if options is None else options
    if not isinstance(chosen, Options):
        raise TypeError(f"options are Options, and not {chosen!r}")
    name = job_name(job)
    known = gathered(name, files)
    is_plain = chosen.letters == "no" and (chosen.utf8 or reading == "bytes")
    result = library.run_over(name, known, chosen) if is_plain else run_with_letters(name, known, chosen)
    LOG.debug("%s ended: %s, warnings %d, errors %d", name_text(name), result.report.end.word, result.report.warnings, result.report.errors)
    return result


def gathered(job: bytes, files: Files) -> Dict[bytes, Content]:
    """What is said of each file that a job needs."""
    finder = files if callable(files) else finder_over(files)
    known: Dict[bytes, Content] = {}
    while True:
        new = library.needed_names(job, known)
        if not new:
            return known
        for asked in new:
            known[asked] = content_of(finder, asked)


def run_in(folder: Name, job: Name, options: Optional[Options] = None) -> Result:
    """Runs a job over the files of a folder, and writes nothing. job, options: as in `run`. A file that isn't there counts as missing. OSError is raised for one that can't be read, that is no regular file (a pipe, a device) or that has
    more than 2,147,483,647 bytes, and where there is no such folder.

    As with BibTeX, a job's files may name files outside of the folder, with `..` or from the root: of a job that nobody trusts hand the files in."""
    return run(job, in_folder(folder), options)


def run_paper(path: Name, options: Optional[Options] = None, *, folder: Optional[Name] = None, write: bool = False, text: str = "auto") -> Result:
    """Does what `bibtex PATH` does on this machine: styles and databases are found where TeX finds them, and variables keep as many bytes as TeX's set-up says.

    path: the `.aux` file of a document, with or without `.aux`. folder: where BibTeX would be called; the present folder, if nothing else is said. write: whether the list and the log are
    written beside the `.aux` file, with the care of `python3 -m btx`. options: those of TeX's set-up, if nothing else is said. text: `bytes`, or `auto`, as with `bibtex-search`: where a list would have
    half a letter of UTF-8, text is read by letters, and the result's notes say so.

    Raises ValueError where `text` is another word, FileNotFoundError where there is no such `.aux` file, OSError where a file can't be read or written, and a Refusal as `run` does."""
    called_in = None if folder is None else existing_folder(folder)
    name = name_text(job_name(path))
    inputs = Inputs(search_from(called_in), name)
    chosen = inputs.search.options(Options()) if options is None else options
    if text not in READINGS:
        raise ValueError(f"text is auto or bytes, and not {text!r}")
    result = run_read(name, inputs.content, chosen, text)
    if result.report.end is End.NO_TOP_FILE:
        raise not_there(name)
    if write:
        write_outputs(name, result, inputs, called_in)
    return result


def not_there(job: str) -> FileNotFoundError:
    """What is raised where a job has no `.aux` file."""
    return FileNotFoundError(errno.ENOENT, os.strerror(errno.ENOENT), job if job.endswith(".aux") else job + ".aux")


def needs(job: Name, files: Union[Mapping[str, Content], Mapping[bytes, Content], Mapping[Name, Content]]) -> List[str]:
    """The names of the files that the job needs of which nothing is said yet, each once; of a file that isn't there None is said.

    The first answer is the `.aux` file of the job alone. When it answers nothing, all that a run needs is known."""
    known = {name: checked(content, name) for name, content in given_files(files).items()}
    return [name_text(name) for name in library.needed_names(job_name(job), known)]


def in_folder(folder: Name) -> Finder:
    """A finder over the files of a folder. It raises OSError for what `run_in` does. Raises OSError where there is no such folder."""
    root = pathlib.Path(existing_folder(folder))

    def found(name: str) -> Content:
        try:
            return bytes_at(os.fsencode(root / name), MOST_BYTES)
        except (FileNotFoundError, IsADirectoryError, NotADirectoryError, ValueError):
            return None

    return found


def finder_over(files: Union[Mapping[str, Content], Mapping[bytes, Content], Mapping[Name, Content]]) -> Finder:
    """A finder over a mapping, whose names may be text or bytes."""
    given = given_files(files)
    return lambda name: given.get(name_bytes(name))


def given_files(files: Union[Mapping[str, Content], Mapping[bytes, Content], Mapping[Name, Content]]) -> Dict[bytes, Content]:
    """The contents of a mapping by the bytes of their names."""
    if not isinstance(files, Mapping):
        raise FinderRefused(None, type(files).__name__)
    return {name_bytes(name): content for name, content in files.items()}


def content_of(finder: Finder, name: bytes) -> Content:
    return checked(finder(name_text(name)), name)


def checked(content: Content, name: bytes) -> Content:
    """What was handed in for a file, if it can be one."""
    if content is None or isinstance(content, bytes):
        return content
    if isinstance(content, (bytearray, memoryview)):
        return bytes(content)
    raise FinderRefused(name_text(name), type(content).__name__)


def job_name(job: Name) -> bytes:
    """The bytes of a job's name; the library tells names by lines, so none has a line end."""
    name = name_bytes(job)
    if b"\n" in name:
        raise NameRefused(job if isinstance(job, bytes) else name_text(name), "has a line end, which no job's name has")
    return name


def name_bytes(name: Name) -> bytes:
    """The bytes of a name."""
    if isinstance(name, os.PathLike):
        name = os.fspath(name)
    if isinstance(name, bytes):
        return name
    if not isinstance(name, str):
        raise NameRefused(repr(name), f"is neither text nor bytes, but {type(name).__name__}")
    try:
        return name.encode("utf8", "surrogateescape")
    except UnicodeEncodeError as error:
        raise NameRefused(name, "has a surrogate that stands for no byte") from error


def name_text(name: bytes) -> str:
    return name.decode("utf8", "surrogateescape")
