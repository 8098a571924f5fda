"""What a run gives."""

from __future__ import annotations

import enum
from dataclasses import dataclass, field
from typing import List, NamedTuple, Tuple

from .events import Events
from .messages import Message, messages_with

__all__ = ["End", "Report", "Result"]


class End(enum.IntEnum):
    """How a run ended; `word` is what the log's last line says."""

    FINISHED = 0
    STOPPED = 1
    NO_TOP_FILE = 2
    LIMIT_LITERALS = 3
    LIMIT_CALLS = 4
    LIMIT_LOOPS = 5
    LIMIT_STRING = 6
    LIMIT_FILE = 7
    LIMIT_FILES = 8

    @property
    def word(self) -> str:
        """The words of the log's last line: `finished`, `limit literals`."""
        return self.name.lower().replace("_", " ")


class Report(NamedTuple):
    """What a run says of itself.

    status: 0 without error messages, 2 with some, 3 at a limit or without a top file, 4 where the budget was spent.
    end: how it ended. steps: how many steps the style took. deepest: how many bodies were open at once at most.
    warnings, errors: how many messages of each kind the log has."""

    status: int
    end: End
    steps: int
    deepest: int
    warnings: int
    errors: int


@dataclass(frozen=True)
class Result:
    """What a job gives: the bytes of the reference list (`.bbl`), those of the log (`.blg`), and the report.

    events: what the library says of each line of the log.
    notes: what is to be said of the list's letters: that text was read by letters where bytes would have left half of one, a line with half a letter, and why the letters of a language aren't there.

    Of a run that was stopped or that met a limit these are what it wrote until then."""

    bbl: bytes
    log: bytes
    report: Report
    events: Events = field(default=Events(), repr=False)
    notes: Tuple[str, ...] = ()

    @property
    def messages(self) -> List[Message]:
        """The log as data, a message for each of its lines."""
        return messages_with(self.log, self.events)

    @property
    def noted_log(self) -> bytes:
        """The log after its notes, a line each, as the file of a log has it."""
        return "".join(f"{note}\n" for note in self.notes).encode("utf8") + self.log
