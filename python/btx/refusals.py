"""Why a call gives no result: each reason is an exception of its own.

Each has its facts as attributes, as far as there are any. Its arguments are those facts, and its text is made of them, so that pickle can hand it to another process. MemoryRefused,
FileUnknown and Refusal itself have a text alone: of them the library says no more."""

from __future__ import annotations

from typing import Optional, Tuple, Union

__all__ = ["Refusal", "OptionRefused", "LettersRefused", "MemoryRefused", "FileUnknown", "OutputTooLong", "NameRefused", "FinderRefused", "LibraryMissing", "StyleTooLong", "DatabaseTooLong", "NamesRefused", "NoLibrary"]


class Refusal(Exception):
    """What all refusals have in common. A run that ended at a limit, or that was stopped, is no refusal: it has a result."""


class LibraryMissing(Refusal, ImportError):
    """There is no libbtx.so.1, or it isn't the library of this package. library: the name by which it was looked for. reason: what the system says."""

    def __init__(self, library: str, reason: str) -> None:
        super().__init__(library, reason)
        self.library = library
        self.reason = reason

    def __str__(self) -> str:
        return f"the library of BibTeX, proved, can't be loaded: {self.reason}"


class OptionRefused(Refusal, ValueError):
    """A number of the options is out of its range. option: its name. value: the number. least, most: its range."""

    def __init__(self, option: str, value: int, least: int, most: int) -> None:
        super().__init__(option, value, least, most)
        self.option = option
        self.value = value
        self.least = least
        self.most = most

    def __str__(self) -> str:
        return f"the option {self.option} is {self.value}, and may be {self.least} to {self.most}"


class LettersRefused(Refusal, ValueError):
    """There are no letters of a language. letters: its name. known: the names that there are."""

    def __init__(self, letters: str, known: Tuple[str, ...]) -> None:
        super().__init__(letters, known)
        self.letters = letters
        self.known = known

    def __str__(self) -> str:
        return f"the option letters is {self.letters!r}, and may be {', '.join(self.known)}"


class NameRefused(Refusal, ValueError):
    """A name that no file of a job can have, such as one with a line end. name: the name, or what `repr` says of it where it is neither text nor bytes.
    reason: what is wrong with it."""

    def __init__(self, name: Union[str, bytes], reason: str) -> None:
        super().__init__(name, reason)
        self.name = name
        self.reason = reason

    def __str__(self) -> str:
        return f"the name {self.name!r} {self.reason}"


class FinderRefused(Refusal, TypeError):
    """What was handed in for a file is neither bytes nor None, or what was handed in for all files has no files.

    name: the file's name, or None where all files are meant. given: the type of what was handed in."""

    def __init__(self, name: Optional[str], given: str) -> None:
        super().__init__(name, given)
        self.name = name
        self.given = given

    def __str__(self) -> str:
        if self.name is None:
            return f"files are a mapping or a function, and not {self.given}"
        hint = ": open it in binary mode" if self.given == "str" else ""
        return f"the file {self.name} is bytes or None, and not {self.given}{hint}"


class MemoryRefused(Refusal, MemoryError):
    """The system refused memory. Nothing of the job is kept."""


class FileUnknown(Refusal, LookupError):
    """The job needs a file of which nothing was said. Which one it is the library doesn't say: `needs` does. `run` looks for all files that a job needs, so it never raises this."""


class StyleTooLong(Refusal, ValueError):
    """A style that is to be checked has more bytes than a file may have. length: how many it has."""

    def __init__(self, length: int) -> None:
        super().__init__(length)
        self.length = length

    def __str__(self) -> str:
        return f"the style has {self.length:,} bytes, and a file may have 2,147,483,647"


class DatabaseTooLong(Refusal, ValueError):
    """A database that is to be read has more bytes than a file may have. length: how many it has."""

    def __init__(self, length: int) -> None:
        super().__init__(length)
        self.length = length

    def __str__(self) -> str:
        return f"the database has {self.length:,} bytes, and a file may have 2,147,483,647"


class NoLibrary(Refusal, LookupError):
    """A run ends before it has a library: there is no top file or no style, or a limit is met. job: its name. The run's log says why."""

    def __init__(self, job: str) -> None:
        super().__init__(job)
        self.job = job

    def __str__(self) -> str:
        return f"the run of the job {self.job} ends before it has a library: its log says why"


class NamesRefused(Refusal, ValueError):
    """A text that is to be divided into names, and that no field can have. text: the text, or how it begins. reason: what is wrong with it."""

    def __init__(self, text: str, reason: str) -> None:
        super().__init__(text, reason)
        self.text = text
        self.reason = reason

    def __str__(self) -> str:
        return f"the text {self.text!r} {self.reason}"


class OutputTooLong(Refusal):
    """The reference list or the log is longer than the options allow. bbl, log: prefixes of what they would have been."""

    def __init__(self, bbl: bytes, log: bytes) -> None:
        super().__init__(bbl, log)
        self.bbl = bbl
        self.log = log

    def __str__(self) -> str:
        return f"an output is longer than its room: the list has {len(self.bbl)} bytes so far, the log {len(self.log)}"
