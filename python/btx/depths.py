"""Folders of any depth. The system takes paths of some 4,000 bytes in a call, so a longer one is followed part by part, and folders are walked through from one to the next."""

from __future__ import annotations

import contextlib
import errno
import os
import stat
from typing import Callable, Iterator, List, Optional, Tuple

from .searching import MOST_BYTES, bytes_of

__all__ = ["contents_of", "enter", "file_above", "files_below", "is_file", "reached"]

# How many bytes of a path are handed to the system at most: Linux takes 4,095.
MOST_PATH = 4000
# How many folders of a walk are open at most.
MOST_OPEN = 16
FOLDER = os.O_RDONLY | os.O_DIRECTORY | os.O_CLOEXEC
ONLY_REACHED = os.O_PATH | os.O_DIRECTORY | os.O_CLOEXEC


def parts_of(path: bytes) -> Iterator[bytes]:
    """A path in parts that the system takes, each from the folder of the one before it."""
    start = 0
    while len(path) - start > MOST_PATH:
        end = path.rfind(b"/", start, start + MOST_PATH)
        if end <= start:
            raise OSError(errno.ENAMETOOLONG, os.strerror(errno.ENAMETOOLONG), path)
        yield path[start:end]
        start = end + 1
    yield path[start:] or b"."


def opened(path: bytes, flags: int) -> int:
    """Opens a folder; its descriptor."""
    folder: Optional[int] = None
    *outer, last = parts_of(path)
    try:
        for part in outer:
            inner = os.open(part, ONLY_REACHED, dir_fd=folder)
            if folder is not None:
                os.close(folder)
            folder = inner
        return os.open(last, flags, dir_fd=folder)
    except OSError as error:
        raise OSError(error.errno, error.strerror, path) from error
    finally:
        if folder is not None:
            os.close(folder)


@contextlib.contextmanager
def reached(path: bytes) -> Iterator[Tuple[bytes, Optional[int]]]:
    """A name of a file that the system takes, and the descriptor of the folder where it has that name: None is the present folder. Raises OSError where there is no such folder."""
    if len(path) <= MOST_PATH:
        yield path, None
        return
    folder = opened(os.path.dirname(path), ONLY_REACHED)
    try:
        yield os.path.basename(path), folder
    finally:
        os.close(folder)


def enter(path: bytes) -> None:
    """Makes a folder the present one."""
    folder = opened(path, ONLY_REACHED)
    try:
        os.fchdir(folder)
    finally:
        os.close(folder)


def is_file(path: bytes) -> bool:
    """Whether a file is there, or a link to one."""
    try:
        with reached(path) as (name, folder):
            return stat.S_ISREG(os.stat(name, dir_fd=folder).st_mode)
    except (OSError, ValueError):
        return False


def contents_of(path: bytes, most: int) -> Optional[bytes]:
    """The bytes of a file; None of one that has more than `most`. Raises OSError where it can't be read."""
    with reached(path) as (name, folder), open(os.open(name, os.O_RDONLY | os.O_CLOEXEC, dir_fd=folder), "rb") as file:
        return bytes_of(file, most)


def file_above(name: bytes, top: bytes, levels: int) -> Optional[Tuple[bytes, bytes]]:
    """The path and the bytes of the file of this name in the nearest folder above the present one that has it. The last folder looked in is `top`, which is `levels` above the present one;
    a name that leads further up by `..` names no file. Raises OSError where the file can't be read, or where a folder was moved meanwhile."""
    upwards, inner = parted(name)
    found = None
    for level, folder in folders_above(levels):
        if found is None and level > upwards and is_file_in(inner, folder):
            found = b"../" * level + inner, contents_in(inner, folder)
        if found is not None and level == levels and number_of(folder) != number_of_path(top):
            raise OSError(errno.ESTALE, "a folder in it was moved meanwhile", top)
    return found


def parted(name: bytes) -> Tuple[int, bytes]:
    """How many folders a name leads up at first, and what it is from there on, without another `..`."""
    parts = os.path.normpath(name).split(b"/")
    upwards = parts.count(b"..")
    return upwards, b"/".join(parts[upwards:])


def folders_above(levels: int) -> Iterator[Tuple[int, int]]:
    """The folders above the present one, the nearest first: how many levels each is above it, and its descriptor, which is closed before the next one."""
    folder: Optional[int] = None
    try:
        for level in range(1, levels + 1):
            outer = os.open(b"..", ONLY_REACHED, dir_fd=folder)
            if folder is not None:
                os.close(folder)
            folder = outer
            yield level, folder
    finally:
        if folder is not None:
            os.close(folder)


def is_file_in(name: bytes, folder: int) -> bool:
    """Whether a file of this name is in a folder, or a link to one."""
    try:
        return stat.S_ISREG(os.stat(name, dir_fd=folder).st_mode)
    except (OSError, ValueError):
        return False


def contents_in(name: bytes, folder: int) -> bytes:
    """The bytes of a file in a folder. Raises OSError where it can't be read, or is longer than any that a run reads."""
    with open(os.open(name, os.O_RDONLY | os.O_CLOEXEC, dir_fd=folder), "rb") as file:
        content = bytes_of(file, MOST_BYTES)
    if content is None:
        raise OSError(errno.EFBIG, f"it has more than {MOST_BYTES:,} bytes", os.fsdecode(name))
    return content


def number_of_path(path: bytes) -> Tuple[int, int]:
    folder = opened(path, ONLY_REACHED)
    try:
        return number_of(folder)
    finally:
        os.close(folder)


class Level:
    """A folder that a walk is in. name: its name in the one above it. inner: the names of the folders in it that are still to be walked through. number: by which it is known."""

    def __init__(self, name: bytes, folder: int, ending: bytes) -> None:
        self.name = name
        self.number = number_of(folder)
        with os.scandir(folder) as entries:
            seen = list(entries)
        self.inner = [os.fsencode(entry.name) for entry in seen if entry.is_dir(follow_symlinks=False)]
        self.files = [name for name, entry in ((os.fsencode(entry.name), entry) for entry in seen) if name.endswith(ending) and not entry.is_dir()]


def number_of(folder: int) -> Tuple[int, int]:
    known = os.fstat(folder)
    return known.st_dev, known.st_ino


class Walk:
    """A walk through the folders below one. It goes down by a folder's name and up by `..`, so it is in one folder at a time, and opens few.

    levels: the folders that it is in, the outermost first. opened: the descriptors of the last of them."""

    def __init__(self, top: bytes, ending: bytes, complain: Callable[[str], None]) -> None:
        self.top = top.rstrip(b"/")
        self.ending = ending
        self.complain = complain
        self.levels: List[Level] = []
        self.opened: List[int] = []

    def path(self, *names: bytes) -> bytes:
        return b"/".join([self.top, *(level.name for level in self.levels[1:]), *names]) or b"/"

    def files(self) -> Iterator[bytes]:
        """The paths of the files, folder by folder."""
        try:
            if self.go_down(b""):
                yield from map(self.path, self.levels[-1].files)
            while self.levels:
                inner = self.levels[-1].inner
                if not inner:
                    self.go_up()
                elif self.go_down(inner.pop()):
                    yield from map(self.path, self.levels[-1].files)
        except OSError as error:
            self.complain(str(error))
        finally:
            for folder in self.opened:
                os.close(folder)

    def go_down(self, name: bytes) -> bool:
        """Goes into a folder, the top one or one of those in the present one. One that can't be read is complained of."""
        folder = -1
        try:
            folder = os.open(name, FOLDER | os.O_NOFOLLOW, dir_fd=self.opened[-1]) if self.levels else opened(self.path(), FOLDER)
            self.levels.append(Level(name, folder, self.ending))
        except OSError as error:
            if folder >= 0:
                os.close(folder)
            self.complain(str(OSError(error.errno, error.strerror, self.path(*[name] if self.levels else []))))
            return False
        self.opened.append(folder)
        if len(self.opened) > MOST_OPEN:
            os.close(self.opened.pop(0))
        return True

    def go_up(self) -> None:
        """Goes out of a folder. Raises OSError where it isn't in the one any more from which the walk came."""
        self.levels.pop()
        folder = self.opened.pop()
        try:
            if self.levels and not self.opened:
                self.opened.append(os.open(b"..", FOLDER, dir_fd=folder))
                if number_of(self.opened[0]) != self.levels[-1].number:
                    raise OSError(errno.ESTALE, "a folder in it was moved meanwhile", self.path())
        finally:
            os.close(folder)


def files_below(top: bytes, ending: bytes, complain: Callable[[str], None]) -> Iterator[bytes]:
    """The paths of all files below a folder whose names end so; links to folders aren't followed. `complain` gets the reason why a folder can't be read."""
    return Walk(top, ending, complain).files()
