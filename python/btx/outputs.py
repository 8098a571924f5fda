"""The list and the log of a job, which are written after its run with the care of `bibtex-search`, and what is taken from its databases.

What stood there stays until all can be written: TeX's openout_any is asked, the files are opened without being emptied, none is an input or another output, and there
is room on the disk for them. The log is written first, so that no new list stands beside an old log."""

from __future__ import annotations

import contextlib
import logging
import os
import resource
import stat
from typing import Iterator, List, Optional, Set, Tuple

from .refusals import NameRefused
from .results import Result
from .searching import MOST_BYTES, Search, content_of

__all__ = ["Inputs", "write_file", "write_outputs"]

LOG = logging.getLogger("btx")
# By which a file is known, whatever its names are: its device and its number there.
Number = Tuple[int, int]


class Inputs:
    """Finds a job's files, and keeps which these were. An `.aux` file that isn't there is looked for beside the job's, too."""

    def __init__(self, search: Search, job: str = "") -> None:
        self.search = search
        self.beside = os.path.dirname(os.fsencode(job))
        self.numbers: Set[Number] = set()

    def content(self, name: str) -> Optional[bytes]:
        """The bytes of the file of this name, if there is one."""
        path = self.search.path_of(os.fsencode(name))
        if path is None and self.beside and name.endswith(".aux"):
            path = self.search.path_of(os.path.join(self.beside, os.fsencode(name)))
        if path is None:
            LOG.debug("%s isn't there", name)
            return None
        LOG.debug("%s is %s", name, os.fsdecode(path))
        self.numbers.add(number_of(os.stat(path)))
        return content_of(path, MOST_BYTES)


def number_of(known: os.stat_result) -> Number:
    return known.st_dev, known.st_ino


def write_outputs(job: str, result: Result, inputs: Inputs, folder: Optional[str] = None) -> None:
    """Writes the list and the log of a job beside its `.aux` file, whose name is one from `folder`. Raises NameRefused where TeX's set-up forbids it, and OSError where one of them can't be written: then
    both stay as they were, unless the disk fails while it writes."""
    base = os.fsencode(job[: -len(".aux")] if job.endswith(".aux") else job)
    for name in (base + b".blg", base + b".bbl"):
        check_allowed(name, inputs)
    base = base if folder is None else os.path.join(os.fsencode(folder), base)
    contents = {base + b".blg": result.noted_log, base + b".bbl": result.bbl}
    with contextlib.ExitStack() as opened:
        files = [opened.enter_context(opened_without_change(name)) for name in contents]
        check_apart(list(contents), files, inputs)
        for file, content in zip(files, contents.values()):
            reserve(file, len(content))
        for file, content in zip(files, contents.values()):
            write(file, content)


def write_file(name: str, content: bytes, inputs: Inputs) -> None:
    """Writes an output under a name of the command line. A link to a file of its own folder stays, and that file is written. Raises NameRefused where TeX's set-up forbids the name, and OSError where it
    is no file, a link that leads out of its folder or a file that the job reads, or can't be written: then what is there stays as it was, unless the disk fails while it writes."""
    given = os.fsencode(name)
    check_allowed(given, inputs)
    # (what a name leads to is opened without a further link, and without waiting for a reader of a pipe)
    with opened_without_change(file_of(given), os.O_NOFOLLOW | os.O_NONBLOCK) as file:
        check_is_file(given, os.fstat(file))
        check_apart([given], [file], inputs)
        reserve(file, len(content))
        write(file, content)


def check_allowed(name: bytes, inputs: Inputs) -> None:
    if not inputs.search.may_write(name):
        raise NameRefused(name, "isn't to be written to (openout_any)")


def file_of(name: bytes) -> bytes:
    """The path without links of a file that may be there. Raises OSError where it is no file, or outside of the folder in which its name is."""
    folder, path = (os.path.realpath(it) for it in (os.path.dirname(name) or b".", name))
    if os.path.islink(name) and os.path.commonpath([folder, path]) != folder:
        raise OSError(f"{os.fsdecode(name)} is a link that leads out of its folder")
    if os.path.exists(path):
        check_is_file(name, os.stat(path))
    return path


def check_is_file(name: bytes, known: os.stat_result) -> None:
    if not stat.S_ISREG(known.st_mode):
        raise OSError(f"{os.fsdecode(name)} is no regular file")


@contextlib.contextmanager
def opened_without_change(name: bytes, flags: int = 0) -> Iterator[int]:
    """A file that is open for writing; it is made where it isn't there, and removed again where nothing came to stand in it because of an error."""
    is_made = not os.path.exists(name)
    file = os.open(name, os.O_WRONLY | os.O_CREAT | os.O_CLOEXEC | flags, 0o666)
    try:
        yield file
    except BaseException:
        if is_made and os.fstat(file).st_size == 0:
            os.unlink(os.path.realpath(name))
        raise
    finally:
        os.close(file)


def check_apart(names: List[bytes], files: List[int], inputs: Inputs) -> None:
    """Refuses outputs that are one file, or an input."""
    numbers = [number_of(os.fstat(file)) for file in files]
    for name, number in zip(names, numbers):
        if number in inputs.numbers:
            raise OSError(f"{os.fsdecode(name)} is a file that the job reads")
    regular = [number for number, file in zip(numbers, files) if stat.S_ISREG(os.fstat(file).st_mode)]
    if len(set(regular)) < len(regular):
        raise OSError("the list and the log are one file")


def reserve(file: int, length: int) -> None:
    """Makes sure that a file can have so many bytes; it keeps its length and its bytes."""
    known = os.fstat(file)
    if not stat.S_ISREG(known.st_mode):
        return
    most = resource.getrlimit(resource.RLIMIT_FSIZE)[0]
    if most != resource.RLIM_INFINITY and length > most:
        raise OSError(f"an output has {length} bytes, and a file may have {most}")
    if length > known.st_size:
        try:
            os.posix_fallocate(file, known.st_size, length - known.st_size)
        finally:
            os.ftruncate(file, known.st_size)


def write(file: int, content: bytes) -> None:
    """Replaces what stands in a file."""
    if stat.S_ISREG(os.fstat(file).st_mode):
        os.ftruncate(file, 0)
    rest = memoryview(content)
    while rest:
        rest = rest[os.write(file, rest) :]
