"""Which jobs there are below some folders."""

from __future__ import annotations

import contextlib
import os
import re
import stat
from dataclasses import dataclass
from typing import Callable, Dict, FrozenSet, Iterable, List, Optional, Set, Tuple

from .depths import contents_of, file_above, files_below, is_file, reached

__all__ = ["Job", "found_jobs", "state_of"]

INCLUDED = re.compile(rb"^\\@input\{([^}\n]*)\}", re.MULTILINE)
NAMES_A_STYLE = re.compile(rb"^\\bibstyle\{", re.MULTILINE)
# An `.aux` file that is longer is taken for a job without being looked through.
LONGEST = 100_000_000
# The files of a job that a stranger may have made links.
ENDINGS = (b".aux", b".bbl", b".blg")
# The files that LaTeX doesn't write: where its outputs have a folder of their own, these are in the document's.
OF_DOCUMENT = (b".bst", b".bib")


@dataclass(frozen=True)
class Job:
    """An `.aux` file with a `.bbl` beside it.

    folder: where BibTeX is run. name: the job's name there, without `.aux`. within: the folders that were searched for jobs, or none where that is its own folder. All are bytes, as the
    system has them."""

    folder: bytes
    name: bytes
    within: Tuple[bytes, ...] = ()

    @property
    def path(self) -> bytes:
        """The job's files without their endings."""
        return os.path.normpath(os.path.join(self.folder, self.name))

    def shown(self) -> str:
        return os.fsdecode(self.path)

    def link_out(self) -> Optional[str]:
        """The name of its first file that is a link which leads out of the folders that were searched, if one is."""
        folders = [os.path.realpath(folder) for folder in self.within or (self.folder,)]
        for path in (self.path + ending for ending in ENDINGS):
            with contextlib.suppress(OSError), reached(path) as (name, folder):
                is_link = stat.S_ISLNK(os.lstat(name, dir_fd=folder).st_mode)
                # (where a link leads isn't known if its own path is too long for the system)
                if is_link and (folder is not None or not any(is_below(os.path.realpath(path), it) for it in folders)):
                    return os.fsdecode(os.path.basename(path))
        return None


    def file_above(self, name: bytes) -> Optional[Tuple[bytes, bytes]]:
        """The path and the bytes of a style or a database in the nearest folder above the job's own that has it; that is the present one. No folder is looked in that is
        outside of those that were searched for jobs."""
        tops = [folder for folder in self.within if is_below(self.folder, folder)]
        if not name.endswith(OF_DOCUMENT) or name.startswith(b"/") or b"\0" in name or not tops:
            return None
        top = min(tops, key=len)
        below = os.path.relpath(self.folder, top)
        return None if below == b"." else file_above(name, top, below.count(b"/") + 1)


def is_below(path: bytes, folder: bytes) -> bool:
    return os.path.commonpath([path, folder]) == folder


@dataclass(frozen=True)
class Scanned:
    """What an `.aux` file says of other jobs: the paths of the files that it includes, and whether it names a style."""

    includes: FrozenSet[bytes]
    names_a_style: bool


def found_jobs(folders: Iterable[bytes], complain: Callable[[str], None]) -> List[Job]:
    """The jobs below these folders, in the order of their paths.

    An `.aux` file that another one includes is no job of its own, unless it names a style: then it is a chapter with a list of its own, and is
    run where the other one is. `complain` gets the reason why a folder can't be read."""
    folders = list(folders)
    within = tuple(os.path.abspath(os.path.dirname(folder) if os.path.isfile(folder) else folder) for folder in folders)
    files = sorted(aux_files(folders, complain))
    scanned = {path: scanned_file(path) for path in files}
    includers = includers_of(scanned)
    jobs = []
    for path in files:
        if not is_file(path[:-4] + b".bbl"):
            continue
        includer = includers.get(path)
        if includer is None:
            jobs.append(Job(os.path.dirname(path), os.path.basename(path)[:-4], within))
        elif scanned[path].names_a_style:
            folder = os.path.dirname(includer)
            jobs.append(Job(folder, os.path.relpath(path, folder)[:-4], within))
    return jobs


def aux_files(folders: Iterable[bytes], complain: Callable[[str], None]) -> Set[bytes]:
    """All `.aux` files below the folders, links to folders not followed."""
    found: Set[bytes] = set()
    for folder in folders:
        path = os.path.abspath(folder)
        if folder.endswith(b".aux") and is_file(path):
            found.add(path)
        else:
            found.update(files_below(path, b".aux", complain))
    return found


def scanned_file(path: bytes) -> Scanned:
    """What an `.aux` file says: nothing, if it can't be read or is far too long."""
    try:
        text = contents_of(path, LONGEST) if is_file(path) else None
    except OSError:
        text = None
    if text is None:
        return Scanned(frozenset(), False)
    return Scanned(frozenset(included_by(path, text)), NAMES_A_STYLE.search(text) is not None)


def includers_of(scanned: Dict[bytes, Scanned]) -> Dict[bytes, bytes]:
    """For each `.aux` file that another one includes the first that does so. Two that include each other are both taken for jobs."""
    found: Dict[bytes, bytes] = {}
    for path, its in scanned.items():
        for included in its.includes:
            if included in scanned and path not in scanned[included].includes:
                found.setdefault(included, path)
    return found


def included_by(path: bytes, text: bytes) -> Set[bytes]:
    """The paths of the files that this one includes."""
    folder = os.path.dirname(path)
    return {os.path.normpath(os.path.join(folder, name)) for name in INCLUDED.findall(text) if b"\0" not in name}


def state_of(job: Job) -> Optional[str]:
    """What changes when a job's `.aux` or `.bbl` does."""
    found: List[str] = []
    for path in (job.path + ending for ending in (b".aux", b".bbl")):
        try:
            with reached(path) as (name, folder):
                known = os.stat(name, dir_fd=folder)
        except OSError:
            return None
        found.append(f"{known.st_size} {known.st_mtime_ns}")
    return " ".join(found)
