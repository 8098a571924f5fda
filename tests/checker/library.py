"""The library for C as these tests call it: what the checker says of a style, and a run."""

import ctypes
import pathlib
import sys
from typing import NamedTuple

ROOT = pathlib.Path(__file__).resolve().parents[2]
sys.path[:0] = [str(ROOT / "tests" / "where"), str(ROOT / "tests" / "reference")]

from compare import DONE, FULL, COptions, Library  # noqa: E402

VERDICTS = ("clean", "warnings", "incomplete")
ROOM = 1 << 20
FIRST_ROOM = 1 << 14


class CVerdict(ctypes.Structure):
    _fields_ = [("verdict", ctypes.c_uint32), ("literals", ctypes.c_uint64), ("bodies", ctypes.c_uint64), ("types_len", ctypes.c_size_t),
                ("notes_len", ctypes.c_size_t)]


class CReport(ctypes.Structure):
    _fields_ = [("status", ctypes.c_uint32), ("end", ctypes.c_uint32), *((name, ctypes.c_uint64) for name in ("steps", "deepest", "warnings", "errors")),
                ("list_len", ctypes.c_size_t), ("log_len", ctypes.c_size_t)]


class CBound(ctypes.Structure):
    _fields_ = [("once", ctypes.c_uint64), ("each", ctypes.c_uint64), ("types_len", ctypes.c_size_t), ("notes_len", ctypes.c_size_t), ("ends", ctypes.c_bool)]


class Bounded(NamedTuple):
    """What is said of a style's steps."""
    ends: bool
    once: int
    each: int
    types: list
    notes: bytes


class Said(NamedTuple):
    """What is said of a style."""
    verdict: str
    literals: int
    bodies: int
    types: list
    notes: bytes


class Ran(NamedTuple):
    """What a run gives; `end` by the numbers of library/btx.h."""
    list: bytes
    log: bytes
    end: int
    deepest: int
    steps: int


class Checker(Library):
    def __init__(self, path):
        super().__init__(path)
        for call in ("btx_check", "btx_check_ends", "btx_run"):
            getattr(self.library, call).restype = ctypes.c_uint32
        self.listed, self.log = ctypes.create_string_buffer(ROOM), ctypes.create_string_buffer(ROOM)

    def check(self, style, steps=1_000_000, room=FIRST_ROOM):
        """What is said of a style; None where memory is refused."""
        types, notes, verdict = ctypes.create_string_buffer(room), ctypes.create_string_buffer(room), CVerdict()
        answer = self.library.btx_check(b"s.bst", ctypes.c_size_t(5), style, ctypes.c_size_t(len(style)), ctypes.c_uint64(steps),
                                        types, ctypes.c_size_t(room), notes, ctypes.c_size_t(room), ctypes.byref(verdict))
        if answer == FULL:
            return self.check(style, steps, max(verdict.types_len, verdict.notes_len))
        if answer != DONE:
            return None
        return Said(VERDICTS[verdict.verdict], verdict.literals, verdict.bodies, types.raw[:verdict.types_len].split(b"\n")[:-1],
                    notes.raw[:verdict.notes_len])

    def check_ends(self, style, kept, room=FIRST_ROOM):
        """What is said of a style's steps where a global string variable keeps at most `kept` bytes; None where memory is refused."""
        types, notes, bound = ctypes.create_string_buffer(room), ctypes.create_string_buffer(room), CBound()
        answer = self.library.btx_check_ends(b"s.bst", ctypes.c_size_t(5), style, ctypes.c_size_t(len(style)), ctypes.c_uint32(kept),
                                             types, ctypes.c_size_t(room), notes, ctypes.c_size_t(room), ctypes.byref(bound))
        if answer == FULL:
            return self.check_ends(style, kept, max(bound.types_len, bound.notes_len))
        if answer != DONE:
            return None
        return Bounded(bound.ends, bound.once, bound.each, types.raw[:bound.types_len].split(b"\n")[:-1], notes.raw[:bound.notes_len])

    def run(self, files, job, options):
        """What a run over all of these files gives."""
        names = list(files) + [job + b".aux"]
        report = CReport()
        given = COptions(options.budget, options.min_crossrefs, options.line, options.entry_max, options.global_max, options.utf8)
        answer = self.library.btx_run(job, ctypes.c_size_t(len(job)), self.handed(files, names), ctypes.c_size_t(len(names)), ctypes.byref(given),
                                      self.listed, ctypes.c_size_t(ROOM), self.log, ctypes.c_size_t(ROOM), ctypes.byref(report))
        assert answer == DONE, answer
        return Ran(ctypes.string_at(self.listed, report.list_len), ctypes.string_at(self.log, report.log_len), report.end, report.deepest, report.steps)
