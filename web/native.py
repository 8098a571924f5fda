"""The library's calls for events and for databases as data, by the header's structs: for compare.py."""

import ctypes

from btx.library import LIBRARY, Answered, Asked, array_of, needed_names

NO_ENTRY = 2**64 - 1
KINDS = ("plain", "warning", "error")
PLACES = ("files", "style", "databases", "execution", "end")
RECORDS = ("comment", "preamble", "string", "entry", "field", "end", "wrong")
DONE = 0


class Event(ctypes.Structure):
    _fields_ = [*((name, ctypes.c_uint64) for name in ("at", "len", "entry")), *((name, ctypes.c_uint32) for name in ("kind", "met"))]


class Text(ctypes.Structure):
    _fields_ = [("at", ctypes.c_char_p), ("len", ctypes.c_size_t)]


class Known(ctypes.Structure):
    _fields_ = [("name", Text), ("text", Text)]


class Record(ctypes.Structure):
    _fields_ = [("kind", ctypes.c_uint32), ("is_whole", ctypes.c_bool), *((name, ctypes.c_size_t) for name in ("start", "end", "line", "name_at", "name_len", "text_at", "text_len"))]


def called(name, *words):
    """Calls the library. Python's integers are lengths, and its bytes are texts."""
    # (by an index it is a function of its own, with no types of the Python library)
    answer = LIBRARY[name](*(ctypes.c_size_t(word) if isinstance(word, int) else word for word in words))
    if answer != DONE:
        raise ValueError(f"{name} answered {answer}")


def room_of(kind, count):
    return (kind * max(count, 1))()


def known_of(job, files):
    """The files that a job needs; None for one that isn't there."""
    known = {}
    while new := needed_names(job, known):
        known.update((name, files.get(name)) for name in new)
    return known


def events_of(job, files, options, made):
    """The events of a run over these files, of which the list and the log are known: of each its place in the log, its length, its entry, its kind, and where it was met."""
    asked = Asked(options.budget, options.min_crossrefs, options.line, options.entry_max, options.global_max, options.utf8)
    rooms = [(room_of(ctypes.c_char, len(output)), len(output)) for output in (made.bbl, made.log)]
    events, count = room_of(Event, len(made.log)), ctypes.c_size_t()
    called("btx_run_events", job, len(job), array_of(files), len(files), ctypes.byref(asked), *rooms[0], *rooms[1], ctypes.byref(Answered()), events, len(made.log), ctypes.byref(count))
    return [[it.at, it.len, None if it.entry == NO_ENTRY else it.entry, KINDS[it.kind], PLACES[it.met]] for it in events[: count.value]]


def records_of(file, text, strings):
    """The records of a database: of each its kind, whether it is whole, its span and line, its name and its text."""
    known = room_of(Known, len(strings))
    for place, (name, value) in zip(known, strings.items()):
        place.name, place.text = Text(name, len(name)), Text(value, len(value))
    sizes = (ctypes.c_size_t * 2)()
    asked = (file, len(file), text, len(text), known, len(strings))
    LIBRARY["btx_read"](*(ctypes.c_size_t(word) if isinstance(word, int) else word for word in asked), room_of(Record, 0), ctypes.c_size_t(0), b"", ctypes.c_size_t(0), sizes)
    records, texts = room_of(Record, sizes[0]), room_of(ctypes.c_char, sizes[1])
    called("btx_read", *asked, records, sizes[0], texts, sizes[1], sizes)
    whole = texts.raw
    return [[RECORDS[it.kind], it.is_whole, it.start, it.end, it.line, whole[it.name_at : it.name_at + it.name_len], whole[it.text_at : it.text_at + it.text_len]] for it in records[: sizes[0]]]
