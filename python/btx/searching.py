"""Where TeX keeps its files: by TeX's own library for this, kpathsea, where it is installed; otherwise along BSTINPUTS and BIBINPUTS, lists
of folders."""

from __future__ import annotations

import ctypes
import errno
import functools
import os
import re
import shutil
import stat
import threading
from dataclasses import dataclass, replace
from typing import BinaryIO, FrozenSet, List, Optional, Tuple, Union

from .options import TEX_LIVE, Options

__all__ = ["Search", "SearchFrom", "bytes_of", "content_of", "existing_folder", "found_search", "opened_file", "search_from"]

# A file that is longer is the limit of a run.
MOST_BYTES = 2**31 - 1
# How many bytes are read at once of a file that doesn't say how long it is.
PIECE = 1 << 20

# What kpathsea/types.h calls kpse_bib_format and kpse_bst_format; the variables that hold the same paths.
FORMATS = {b".bib": (6, "BIBINPUTS"), b".bst": (7, "BSTINPUTS")}


# What separates folders in a search path with its alternatives, and a folder from the present one with all those below it.
SEPARATORS = re.compile(rb"[:;,{}]")
BELOW_HERE = re.compile(rb"(?:!!)?[^/!].*//|(?:!!)?[^/!]//", re.DOTALL)


# kpathsea takes one call at a time.
ONE_AT_A_TIME = threading.Lock()


class Search:
    """Finds a job's files: an `.aux` file from the present folder, a database along BIBINPUTS, a style along BSTINPUTS."""

    def path_of(self, name: bytes) -> Optional[bytes]:
        """Where the file of this name is, if it is anywhere."""
        ending = name[-4:]
        if ending not in FORMATS:
            return name if os.path.isfile(name) else None
        return self.along_path(name, ending)

    def along_path(self, name: bytes, ending: bytes) -> Optional[bytes]:
        """Where a style or a database is."""
        folders = os.environ.get(FORMATS[ending][1])
        for folder in folders_of(folders):
            path = name if name.startswith(b"/") else os.path.join(folder, name)
            if os.path.isfile(path):
                return path
        return None

    def options(self, options: Options) -> Options:
        """The options with the lengths of variables that TeX's set-up states."""
        return options

    def may_write(self, name: bytes) -> bool:
        """Whether a file of this name may be written, by TeX's openout_any: without TeX any may."""
        return True

    def looks_below_here(self) -> bool:
        """Whether it looks in folders below the present one and remembers which there are: then it isn't to be used from another folder."""
        return False

    def content(self, name: str) -> Optional[bytes]:
        """The bytes of the file of this name, if there is one. A file that is there and can't be read raises OSError, and so does one that is longer than any that a
        run reads."""
        path = self.path_of(name.encode("utf8", "surrogateescape"))
        return None if path is None else content_of(path, MOST_BYTES)


def content_of(path: bytes, most: int) -> bytes:
    """The bytes of a regular file, which is to have `most` at most. Raises OSError for anything else."""
    with opened_file(path) as file:
        content = bytes_of(file, most)
    if content is None:
        raise OSError(errno.EFBIG, f"it has more than {most:,} bytes", os.fsdecode(path))
    return content


def opened_file(path: Union[str, bytes, "os.PathLike[str]"]) -> BinaryIO:
    """A regular file that is open for reading. Raises OSError for anything else, without waiting for what is written to a pipe and before a byte is read."""
    number = os.open(path, os.O_RDONLY | os.O_CLOEXEC | os.O_NONBLOCK)
    kind = os.fstat(number).st_mode
    if stat.S_ISREG(kind):
        return open(number, "rb")
    os.close(number)
    name = os.fsdecode(path)
    raise IsADirectoryError(errno.EISDIR, os.strerror(errno.EISDIR), name) if stat.S_ISDIR(kind) else OSError(errno.EINVAL, "it is no regular file", name)


def bytes_of(file: BinaryIO, most: int) -> Optional[bytes]:
    """The bytes of a file; None of one that has more than `most`, as its length says before it is read. A file that grows meanwhile has more than that, and so has one of the kernel's, such as those in /proc."""
    length = os.fstat(file.fileno()).st_size
    if length > most:
        return None
    pieces, size = [file.read(length + 1)], 0
    while pieces[-1]:
        size += len(pieces[-1])
        if size > most:
            return None
        pieces.append(file.read(PIECE))
    return pieces[0] if len(pieces) < 3 else b"".join(pieces)


def folders_of(value: Optional[str]) -> List[bytes]:
    """The folders of a search path; an empty one is the present folder, and without a path there is only that."""
    if value is None:
        return [b"."]
    return [os.fsencode(folder) or b"." for folder in value.split(":")]


@dataclass(frozen=True)
class Kpathsea(Search):
    """TeX's own search."""

    library: ctypes.CDLL
    setup: int

    def along_path(self, name: bytes, ending: bytes) -> Optional[bytes]:
        if b"\0" in name:
            return None
        # (TeX's search would print that it may not read a file, and then look on; here the job isn't run)
        if os.path.isfile(name) and not os.access(name, os.R_OK):
            return name
        with ONE_AT_A_TIME:
            found: Optional[bytes] = self.library.kpathsea_find_file(self.setup, name, FORMATS[ending][0], 1)
        return found if found is not None and os.path.isfile(found) else None

    def options(self, options: Options) -> Options:
        entry = self.number(b"ent_str_size", TEX_LIVE.entry_max)
        whole = self.number(b"glob_str_size", TEX_LIVE.global_max)
        return replace(options, entry_max=entry, global_max=whole)

    def may_write(self, name: bytes) -> bool:
        return b"\0" not in name and bool(self.library.kpathsea_out_name_ok_silent(self.setup, name))

    def looks_below_here(self) -> bool:
        paths = [self.library.kpathsea_var_value(self.setup, name.encode()) or b"" for _, name in FORMATS.values()]
        return any(BELOW_HERE.match(folder) for path in paths for folder in SEPARATORS.split(path))

    def number(self, name: bytes, default: int) -> int:
        """A number of TeX's set-up, within what an option may be."""
        value: Optional[bytes] = self.library.kpathsea_var_value(self.setup, name)
        if value is None or not value.isdigit():
            return default
        return min(max(int(value), 1), 1_000_000)


class SearchFrom(Search):
    """The search of a program that is called in another folder: by `kpsewhich` there; without TeX, along the lists of folders."""

    def __init__(self, folder: bytes, here: Search) -> None:
        self.folder = folder
        self.here = here

    def path_of(self, name: bytes) -> Optional[bytes]:
        found = self.along_path(name, name[-4:]) if name[-4:] in FORMATS else name
        path = None if found is None else os.path.join(self.folder, found)
        return path if path is not None and os.path.isfile(path) else None

    def along_path(self, name: bytes, ending: bytes) -> Optional[bytes]:
        if not isinstance(self.here, Kpathsea):
            folders = folders_of(os.environ.get(FORMATS[ending][1]))
            return next((path for path in (os.path.join(folder, name) for folder in folders) if os.path.isfile(os.path.join(self.folder, path))), None)
        if b"\0" in name:
            return None
        import subprocess

        kpsewhich = os.path.abspath(os.fsencode(shutil.which("kpsewhich") or "kpsewhich"))
        words = [kpsewhich, b"-progname=bibtex", b"-format=" + ending[1:], b"--", name]
        done = subprocess.run(words, cwd=self.folder, stdin=subprocess.DEVNULL, stdout=subprocess.PIPE, stderr=subprocess.DEVNULL)
        return done.stdout[:-1] or None

    def options(self, options: Options) -> Options:
        return self.here.options(options)

    def may_write(self, name: bytes) -> bool:
        return self.here.may_write(name)


def existing_folder(folder: Union[str, bytes, "os.PathLike[str]"]) -> str:
    """The path of a folder; raises OSError where there is none."""
    path = os.fsdecode(folder)
    if not stat.S_ISDIR(os.stat(path).st_mode):
        raise NotADirectoryError(errno.ENOTDIR, os.strerror(errno.ENOTDIR), path)
    return path


def search_from(folder: Optional[str]) -> Search:
    """The search of a program that is called in this folder; without one, in the present folder. What TeX's trees have is read once."""
    here = search_known(os.getcwd(), frozenset(os.environ.items()))
    if folder is not None and not os.path.samefile(folder, os.curdir):
        return SearchFrom(os.fsencode(folder), here)
    return found_search() if here.looks_below_here() else here


@functools.lru_cache(maxsize=4)
def search_known(folder: str, environment: FrozenSet[Tuple[str, str]]) -> Search:
    """TeX's search from a folder, in an environment."""
    return found_search()


def found_search() -> Search:
    """TeX's own search where it is installed. It looks for its set-up from where `kpsewhich` is, and would end this process if that isn't there."""
    kpsewhich = shutil.which("kpsewhich")
    if kpsewhich is None:
        return Search()
    try:
        library = ctypes.CDLL("libkpathsea.so.6")
    except OSError:
        return Search()
    library.kpathsea_new.restype = ctypes.c_void_p
    library.kpathsea_new.argtypes = []
    library.kpathsea_set_program_name.argtypes = [ctypes.c_void_p, ctypes.c_char_p, ctypes.c_char_p]
    library.kpathsea_set_program_name.restype = None
    library.kpathsea_out_name_ok_silent.restype = ctypes.c_int
    library.kpathsea_out_name_ok_silent.argtypes = [ctypes.c_void_p, ctypes.c_char_p]
    library.kpathsea_find_file.restype = library.kpathsea_var_value.restype = ctypes.c_char_p
    library.kpathsea_find_file.argtypes = [ctypes.c_void_p, ctypes.c_char_p, ctypes.c_int, ctypes.c_int]
    library.kpathsea_var_value.argtypes = [ctypes.c_void_p, ctypes.c_char_p]
    setup = library.kpathsea_new()
    library.kpathsea_set_program_name(setup, os.fsencode(kpsewhich), b"bibtex")
    return Kpathsea(library, setup)
