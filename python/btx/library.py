"""The calls of libbtx.so.1, by ctypes. Its header, library/btx.h, says what each takes and answers.

ctypes hands the memory of Python's bytes objects to the library as it is, so nothing is copied on the way in, and lets other threads of the
interpreter run during a call."""

from __future__ import annotations

import contextlib
import ctypes
import mmap
import os
import pathlib
import struct
from typing import Callable, List, Mapping, Optional, Tuple, Union

from .events import EVENT, PLACE, Events
from .options import Options
from .refusals import FileUnknown, LibraryMissing, MemoryRefused, OutputTooLong, Refusal
from .results import End, Report, Result

__all__ = ["RECORD", "Buffer", "Checked", "checked_style", "needed_names", "read_job_records", "read_records", "run_over"]

# What is said of each file: its bytes, or None where there is no such file.
Known = Mapping[bytes, Optional[bytes]]
# Bytes as the library has written them.
Buffer = Union[bytes, mmap.mmap]

DONE, REFUSED, MEMORY, ASKS, FULL, ENDS = range(6)
# How many bytes of names are asked for at first, of outputs at least.
FIRST_NAMES = 4096
LEAST_ROOM = 1 << 16
# How many bytes of an output stay where the library has written them, and in how large a room the system is asked for large pages.
LEAST_KEPT, LEAST_OF_LARGE_PAGES = 1 << 18, 1 << 22
# How many bytes the names of a style's types and the notes of a check are given room for at first.
FIRST_TYPES, FIRST_NOTES = 1 << 16, 1 << 20
# How many lines of a log have room for their events at first.
FIRST_EVENTS = 1 << 16
# A record of a database: kind, is_whole, start, end, line, name_at, name_len, text_at, text_len.
RECORD = struct.Struct("=I?3x7Q")
# How many bytes of a database have room for a record at first.
BYTES_OF_A_RECORD = 16


class Text(ctypes.Structure):
    _fields_ = [("at", ctypes.c_char_p), ("len", ctypes.c_size_t)]


class File(ctypes.Structure):
    _fields_ = [("name", Text), ("bytes", Text), ("is_there", ctypes.c_bool)]


class Asked(ctypes.Structure):
    _fields_ = [
        ("budget", ctypes.c_uint64),
        *((name, ctypes.c_uint32) for name in ("min_crossrefs", "line", "entry_max", "global_max")),
        ("utf8", ctypes.c_bool),
    ]


class Answered(ctypes.Structure):
    _fields_ = [
        *((name, ctypes.c_uint32) for name in ("status", "end")),
        *((name, ctypes.c_uint64) for name in ("steps", "deepest", "warnings", "errors")),
        *((name, ctypes.c_size_t) for name in ("list_len", "log_len")),
    ]


class String(ctypes.Structure):
    _fields_ = [("name", Text), ("text", Text)]


class Sizes(ctypes.Structure):
    _fields_ = [(name, ctypes.c_size_t) for name in ("records", "texts")]


class Checked(ctypes.Structure):
    _fields_ = [
        ("verdict", ctypes.c_uint32),
        *((name, ctypes.c_uint64) for name in ("literals", "bodies")),
        *((name, ctypes.c_size_t) for name in ("types_len", "notes_len")),
    ]


class Bounded(ctypes.Structure):
    _fields_ = [
        *((name, ctypes.c_uint64) for name in ("once", "each")),
        *((name, ctypes.c_size_t) for name in ("types_len", "notes_len")),
        ("ends", ctypes.c_bool),
    ]


def found_library() -> ctypes.CDLL:
    """The library: the file that BTX_LIBRARY names, the one that lies in this package, or the system's."""
    beside = pathlib.Path(__file__).parent / "libbtx.so.1"
    path = os.environ.get("BTX_LIBRARY") or (str(beside) if beside.exists() else "libbtx.so.1")
    try:
        library = ctypes.CDLL(path)
        needs, run, check, check_ends = library.btx_needs, library.btx_run_places, library.btx_check, library.btx_check_ends
        read, read_job = library.btx_read, library.btx_read_job
    except (OSError, AttributeError) as error:
        raise LibraryMissing(path, str(error)) from error
    needs.restype = run.restype = check.restype = check_ends.restype = read.restype = read_job.restype = ctypes.c_uint32
    size = ctypes.c_size_t
    text, files, room = (ctypes.c_char_p, size), (ctypes.POINTER(File), size), (ctypes.c_void_p, size)
    needs.argtypes = (*text, *files, *room, ctypes.POINTER(size))
    run.argtypes = (*text, *files, ctypes.POINTER(Asked), *room, *room, ctypes.POINTER(Answered), *room, *room, ctypes.POINTER(size))
    read.argtypes = (*text, *text, ctypes.POINTER(String), size, *room, *room, ctypes.POINTER(Sizes))
    read_job.argtypes = (*text, *files, ctypes.POINTER(Asked), *room, *room, ctypes.POINTER(Sizes))
    check.argtypes = (*text, *text, ctypes.c_uint64, *room, *room, ctypes.POINTER(Checked))
    check_ends.argtypes = (*text, *text, ctypes.c_uint32, *room, *room, ctypes.POINTER(Bounded))
    return library


LIBRARY = found_library()


class Room:
    """Memory for an output. It takes what is written into it and no more: pages that nothing touches cost nothing."""

    def __init__(self, wanted: int) -> None:
        size = max(wanted, LEAST_ROOM)
        while True:
            try:
                self.memory = mmap.mmap(-1, size, flags=mmap.MAP_PRIVATE | mmap.MAP_ANONYMOUS)
                break
            except (OSError, ValueError, OverflowError) as error:
                size //= 2
                if size < LEAST_ROOM:
                    raise MemoryRefused("there is no memory for an output") from error
        if size >= LEAST_OF_LARGE_PAGES and hasattr(mmap, "MADV_HUGEPAGE"):
            with contextlib.suppress(OSError):
                self.memory.madvise(mmap.MADV_HUGEPAGE)
        # (its first byte alone, whose address is asked for: ctypes would make a type for each length, and keep them all)
        self.bytes = ctypes.c_char.from_buffer(self.memory)
        self.size = min(wanted, size)

    def prefix(self, length: int) -> bytes:
        return self.memory[: min(length, self.size)]

    def kept(self, length: int) -> Buffer:
        """The first bytes, and the end of the room: a great many stay where they are, and of fewer there is a copy, as a process has a limited number of such rooms."""
        if length < LEAST_KEPT:
            copied = self.prefix(length)
            self.close()
            return copied
        del self.bytes
        self.memory.resize(length)
        return self.memory

    def close(self) -> None:
        del self.bytes
        self.memory.close()


def array_of(known: Known) -> ctypes.Array[File]:
    """The files as the library takes them. The array keeps their bytes alive."""
    array = (File * max(len(known), 1))()
    for place, (name, content) in zip(array, known.items()):
        given = b"" if content is None else content
        place.name.at, place.name.len = name, len(name)
        place.bytes.at, place.bytes.len = given, len(given)
        place.is_there = content is not None
    return array


def refusal_of(answer: int) -> Refusal:
    """The exception that an answer is which gives no result."""
    if answer == MEMORY:
        return MemoryRefused("the library was refused memory")
    if answer == ASKS:
        return FileUnknown("the job needs a file of which nothing was said")
    return Refusal(f"the library answered {answer}")


def needed_names(job: bytes, known: Known) -> List[bytes]:
    """The names of the files that the job needs and of which nothing was said yet."""
    array, length, room = array_of(known), ctypes.c_size_t(), FIRST_NAMES
    while True:
        names = ctypes.create_string_buffer(room)
        answer = LIBRARY.btx_needs(job, len(job), array, len(known), names, room, ctypes.byref(length))
        if answer not in (DONE, ENDS):
            raise refusal_of(answer)
        if length.value <= room:
            return names.raw[: length.value].split(b"\n")[:-1]
        room = length.value


def asked_of(options: Options) -> Asked:
    """The options as the library takes them."""
    return Asked(options.budget, options.min_crossrefs, options.line, options.entry_max, options.global_max, options.utf8)


def run_over(job: bytes, known: Known, options: Options, most_events: Optional[int] = None) -> Result:
    """Runs the job over these files, and keeps the events and the places of the log's first `most_events` lines. Where None is said, all are kept: a log with more lines than have room at first
    takes a second run."""
    result = run_once(job, known, options, FIRST_EVENTS if most_events is None else most_events)
    if most_events is None and len(result.events) < result.events.total:
        result = run_once(job, known, options, result.events.total)
        if len(result.events) < result.events.total:
            raise MemoryRefused("there is no memory for the events of a log")
    return result


def run_once(job: bytes, known: Known, options: Options, most_events: int) -> Result:
    """Runs the job over these files, with room for `most_events` events and places."""
    rooms = bbl, log, events, places = Room(options.most_list), Room(options.most_log), Room(most_events * EVENT.size), Room(most_events * PLACE.size)
    try:
        answer, answered, total = call(job, known, options, bbl, log, events, places)
        outputs = bbl.prefix(answered.list_len), log.prefix(answered.log_len)
        kept = Events(events.prefix(total * EVENT.size), total, places.prefix(total * PLACE.size), tuple(known))
    finally:
        for room in rooms:
            room.close()
    if answer == FULL:
        raise OutputTooLong(*outputs)
    if answer != DONE:
        raise refusal_of(answer)
    report = Report(answered.status, End(answered.end), answered.steps, answered.deepest, answered.warnings, answered.errors)
    return Result(*outputs, report, kept)


def call(job: bytes, known: Known, options: Options, bbl: Room, log: Room, events: Room, places: Room) -> Tuple[int, Answered, int]:
    """The library's answer, its report, and how many events there are."""
    asked, answered, total = asked_of(options), Answered(), ctypes.c_size_t()
    outputs = [word for room in (bbl, log) for word in (ctypes.byref(room.bytes), room.size)]
    answer = LIBRARY.btx_run_places(
        *(job, len(job), array_of(known), len(known), ctypes.byref(asked)),
        *(*outputs, ctypes.byref(answered)),
        *(ctypes.byref(events.bytes), events.size // EVENT.size, ctypes.byref(places.bytes), places.size // PLACE.size, ctypes.byref(total)),
    )
    return answer, answered, total.value


def checked_style(name: bytes, style: bytes, steps: int) -> Optional[Tuple[Checked, bytes, bytes]]:
    """What the check of a style answers, the names of its types and its notes. None where the style is longer than a file may be."""
    types_room, notes_room = FIRST_TYPES, FIRST_NOTES
    while True:
        types, notes, checked = Room(types_room), Room(notes_room), Checked()
        try:
            answer = LIBRARY.btx_check(
                *(name, len(name), style, len(style), steps),
                *(ctypes.byref(types.bytes), types.size, ctypes.byref(notes.bytes), notes.size),
                ctypes.byref(checked),
            )
            if answer == DONE:
                return checked, types.prefix(checked.types_len), notes.prefix(checked.notes_len)
        finally:
            types.close()
            notes.close()
        if answer == REFUSED:
            return None
        if answer != FULL:
            raise refusal_of(answer)
        types_room, notes_room = max(types_room, checked.types_len), max(notes_room, checked.notes_len)


def bounded_style(name: bytes, style: bytes, kept: int) -> Optional[Tuple[Bounded, bytes]]:
    """What is said of a style's steps, and the names of its types. None where the style is longer than a file may be."""
    room = FIRST_TYPES
    while True:
        types, notes, bounded = ctypes.create_string_buffer(room), ctypes.create_string_buffer(room), Bounded()
        answer = LIBRARY.btx_check_ends(name, len(name), style, len(style), kept, types, room, notes, room, ctypes.byref(bounded))
        if answer == REFUSED:
            return None
        if answer not in (DONE, FULL):
            raise refusal_of(answer)
        if answer == DONE:
            return bounded, types.raw[: bounded.types_len]
        room = max(bounded.types_len, bounded.notes_len)


def read_records(file: bytes, text: bytes, strings: Mapping[bytes, bytes]) -> Optional[Tuple[Buffer, Buffer]]:
    """The records of a database before which these strings are known, and their texts. None where the database is longer than a file may be."""
    known = (String * max(len(strings), 1))()
    for place, (name, value) in zip(known, strings.items()):
        place.name.at, place.name.len, place.text.at, place.text.len = name, len(name), value, len(value)
    return records_in_rooms(len(text), REFUSED, lambda *rooms: int(LIBRARY.btx_read(file, len(file), text, len(text), known, len(strings), *rooms)))


def read_job_records(job: bytes, known: Known, options: Options) -> Optional[Tuple[Buffer, Buffer]]:
    """The records of the library of a job over these files, and their texts. None where its run ends before it has a library."""
    array, asked = array_of(known), asked_of(options)
    size = sum(len(content) for name, content in known.items() if content and name.endswith(b".bib"))
    return records_in_rooms(size, ENDS, lambda *rooms: int(LIBRARY.btx_read_job(job, len(job), array, len(known), ctypes.byref(asked), *rooms)))


def records_in_rooms(length: int, nothing: int, read: Callable[..., int]) -> Optional[Tuple[Buffer, Buffer]]:
    """The records that a call writes of `length` bytes of databases, and their texts, in rooms that grow as they need to. None where it answers `nothing`."""
    wanted = Sizes(length // BYTES_OF_A_RECORD + 1024, 2 * length + FIRST_NAMES)
    while True:
        sizes, records, texts = Sizes(), Room(wanted.records * RECORD.size), Room(wanted.texts)
        answer = read(ctypes.byref(records.bytes), records.size // RECORD.size, ctypes.byref(texts.bytes), texts.size, ctypes.byref(sizes))
        if answer == DONE:
            return records.kept(sizes.records * RECORD.size), texts.kept(sizes.texts)
        is_as_wanted = records.size == wanted.records * RECORD.size and texts.size == wanted.texts
        records.close()
        texts.close()
        if answer == nothing:
            return None
        if answer != FULL:
            raise refusal_of(answer)
        if not is_as_wanted:
            raise MemoryRefused("there is no memory for the records of a database")
        wanted = Sizes(max(wanted.records, sizes.records), max(wanted.texts, sizes.texts))
