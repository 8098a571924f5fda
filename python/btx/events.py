"""The events of a run: what the library says of each line of its log, before anybody looks at the line's text.

A style may print any text, so nothing that is printed tells what a line is. Proved is that a run's log is the lines that its events divide it into, and that as many
of them are warnings and errors as the report counts. Which line is which, where it was met, for which entry and at which place is tested."""

from __future__ import annotations

import enum
import struct
from dataclasses import dataclass
from typing import Iterator, NamedTuple, Optional, Tuple

__all__ = ["EVENT", "PLACE", "Event", "Events", "LogPlace", "Met", "Severity"]

# A `btx_event` of library/btx.h.
EVENT = struct.Struct("=QQQII")
NO_ENTRY = 2**64 - 1
# A `btx_place` of it.
PLACE = struct.Struct("=QQQQII")
NO_FILE = 2**64 - 1
NO_FUNCTION = 2**32 - 1


class Severity(enum.IntEnum):
    """How grave a line is. The report counts the warnings and the errors."""

    PLAIN = 0
    WARNING = 1
    ERROR = 2


class Met(enum.IntEnum):
    """Where a line was met: in the `.aux` files, or where the style and the databases are looked for; in the style's text; in the databases; while the style is
    executed; and the last line, which says how the run ended."""

    FILES = 0
    STYLE = 1
    DATABASES = 2
    EXECUTION = 3
    END = 4


class LogPlace(NamedTuple):
    """The place that a line of the log is about: while a style is executed its token, of a message of its text the word that the message is about or the point where it was met, and of
    a database the point where reading stood.

    file: the name of the file. line: counted from 1. span: the bytes of the file before its first byte, and before its end. function, token: of a token that was executed the
    number of its function, in the order in which functions end in the style, those in braces too, and its own number in that function, both counted from 0; else None."""

    file: str
    line: int
    span: Tuple[int, int]
    function: Optional[int] = None
    token: Optional[int] = None

    def column(self, content: bytes) -> int:
        """The number of its first character in its line, counted from 1, where `content` is what the file has."""
        start = self.span[0]
        return 1 + len(content[content.rfind(b"\n", 0, start) + 1 : start].decode("utf8", "surrogateescape"))


class Event(NamedTuple):
    """A line of the log: the bytes from `offset` to `end`, without its line feed. number: that of the current entry, counted from 0; None where there is none. place: what the
    line is about; None where no place is known: of lines on files, of a reference without an entry, of literals that a command leaves, and of the last line. severity: whether the report counts it as a warning or an error. met: where it was met."""

    offset: int
    end: int
    number: Optional[int]
    severity: Severity
    met: Met
    place: Optional[LogPlace] = None


SEVERITIES = tuple(Severity)
METS = tuple(Met)


@dataclass(frozen=True)
class Events:
    """The events of a run, in their order. records, places: as the library writes them. total: how many there are, which is more where only the first ones were kept. files: the
    names of the files that were handed in, in the order in which places number them."""

    records: bytes = b""
    total: int = 0
    places: bytes = b""
    files: Tuple[bytes, ...] = ()

    def __len__(self) -> int:
        return len(self.records) // EVENT.size

    def __iter__(self) -> Iterator[Event]:
        for number, (offset, length, entry, severity, met) in enumerate(EVENT.iter_unpack(self.records)):
            yield Event(offset, offset + length, None if entry == NO_ENTRY else entry, SEVERITIES[severity], METS[met], self.place_of(number))

    def of(self, severity: Severity) -> Iterator[Event]:
        """The events of this severity."""
        for number, (offset, length, entry, its, met) in enumerate(EVENT.iter_unpack(self.records)):
            if its == severity:
                yield Event(offset, offset + length, None if entry == NO_ENTRY else entry, severity, METS[met], self.place_of(number))

    def place_of(self, number: int) -> Optional[LogPlace]:
        """The place of the event of a number, counted from 0."""
        if len(self.places) <= number * PLACE.size:
            return None
        file, start, end, line, function, token = PLACE.unpack_from(self.places, number * PLACE.size)
        if file == NO_FILE:
            return None
        name = self.files[file].decode("utf8", "surrogateescape")
        return LogPlace(name, line, (start, end), *((None, None) if function == NO_FUNCTION else (function, token)))
