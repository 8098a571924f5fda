"""The places that the library notes, beside those of the tracer in Python.

    python3 compare.py [--jobs N] [--programs N] [--entries N] [--seed N] [--styles FOLDER] LIBRARY.so

LIBRARY.so is the library for C (library/out/libbtx.so.1). Runs the worked and corner jobs, the same with a brace too many in the style, those of functions between which some end in a fault, random
jobs and programs, and a database of errors with each style of the folder (that of TeX Live, if it is there), and compares all notes of all errors, line by line. Of each job it also compares the place of each error
that `btx_run_places` writes with the token of the notes. The last line is 'N passed, M failed', of jobs; the lines above it count the jobs with errors, the events, and the places that were compared."""

import argparse
import collections
import ctypes
import itertools
import os
import pathlib
import subprocess
import sys

ROOT = pathlib.Path(__file__).resolve().parents[2]
sys.path.insert(0, str(ROOT / "tests" / "reference"))

import make_database  # noqa: E402
from product import Options  # noqa: E402
from random_jobs import random_jobs, random_programs, worked_jobs  # noqa: E402
from systematic_turns import functions_again  # noqa: E402
from trace import trace  # noqa: E402
from worked_jobs import files_of  # noqa: E402

MOST = 100
DONE, FULL = 0, 4
NO_FUNCTION = 2**32 - 1
ERROR = 2
TEX_LIVE = "/usr/share/texlive/texmf-dist/bibtex/bst"


class Text(ctypes.Structure):
    _fields_ = [("at", ctypes.c_char_p), ("len", ctypes.c_size_t)]


class File(ctypes.Structure):
    _fields_ = [("name", Text), ("bytes", Text), ("is_there", ctypes.c_bool)]


class COptions(ctypes.Structure):
    _fields_ = [("budget", ctypes.c_uint64), *((name, ctypes.c_uint32) for name in ("min_crossrefs", "line", "entry_max", "global_max")),
                ("utf8", ctypes.c_bool)]


class Report(ctypes.Structure):
    _fields_ = [*((name, ctypes.c_uint32) for name in ("status", "end")), *((name, ctypes.c_uint64) for name in ("steps", "deepest", "warnings", "errors")),
                *((name, ctypes.c_size_t) for name in ("list_len", "log_len"))]


class Event(ctypes.Structure):
    _fields_ = [*((name, ctypes.c_uint64) for name in ("at", "len", "entry")), *((name, ctypes.c_uint32) for name in ("kind", "met"))]


class Place(ctypes.Structure):
    _fields_ = [*((name, ctypes.c_uint64) for name in ("file", "start", "end", "line")), *((name, ctypes.c_uint32) for name in ("function", "token"))]


class Library:
    def __init__(self, path):
        self.library = ctypes.CDLL(str(pathlib.Path(path).resolve()))
        for call in ("btx_needs", "btx_where", "btx_run_places"):
            getattr(self.library, call).restype = ctypes.c_uint32

    def handed(self, files, names):
        """The files of these names as C has them, or that there is none."""
        array = (File * max(len(names), 1))()
        for place, name in zip(array, names):
            text = files.get(name)
            place.name.at, place.name.len, place.is_there = name, len(name), text is not None
            place.bytes.at, place.bytes.len = text or b"", len(text or b"")
        return array

    def asked(self, files, job):
        """The names of the files that the job needs."""
        names, room = [], ctypes.create_string_buffer(1 << 16)
        while True:
            array, length = self.handed(files, names), ctypes.c_size_t()
            self.library.btx_needs(job, ctypes.c_size_t(len(job)), array, ctypes.c_size_t(len(names)), room, ctypes.c_size_t(1 << 16), ctypes.byref(length))
            more = [name for name in room.raw[:length.value].split(b"\n")[:-1] if name not in names]
            if not more:
                return names
            names += more

    def notes(self, files, job, options, most=MOST):
        """The notes, or the answer's number where there are none."""
        names = self.asked(files, job)
        array, length, room = self.handed(files, names), ctypes.c_size_t(), 1 << 20
        given = c_options(options)
        while True:
            notes = ctypes.create_string_buffer(room)
            answer = self.library.btx_where(job, ctypes.c_size_t(len(job)), array, ctypes.c_size_t(len(names)), ctypes.byref(given), ctypes.c_uint32(most),
                                            notes, ctypes.c_size_t(room), ctypes.byref(length))
            if answer == FULL:
                room = length.value
                continue
            return notes.raw[:length.value].split(b"\n")[:-1] if answer == DONE else answer

    def error_places(self, files, job, options, outputs=1 << 20, room=1 << 12):
        """Of each error in the log, in order, its line, its function and its token; None where the run writes more than there is room for."""
        names = self.asked(files, job)
        array, given, report, length = self.handed(files, names), c_options(options), Report(), ctypes.c_size_t()
        bbl, log = ctypes.create_string_buffer(outputs), ctypes.create_string_buffer(outputs)
        events, places = (Event * room)(), (Place * room)()
        answer = self.library.btx_run_places(job, ctypes.c_size_t(len(job)), array, ctypes.c_size_t(len(names)), ctypes.byref(given),
                                             bbl, ctypes.c_size_t(outputs), log, ctypes.c_size_t(outputs), ctypes.byref(report),
                                             events, ctypes.c_size_t(room), places, ctypes.c_size_t(room), ctypes.byref(length))
        if answer != DONE:
            return None
        if length.value > room:
            return self.error_places(files, job, options, outputs, length.value)
        pairs = zip(events[:length.value], places[:length.value])
        return [(place.line, place.function, place.token) for event, place in pairs if event.kind == ERROR]


def c_options(options):
    return COptions(options.budget, options.min_crossrefs, options.line, options.entry_max, options.global_max, options.utf8)


# What is wrong in the entries that are executed by each style: names, numbers and fields that styles stumble on.
WRONG = b"""@article{names, author = "A, B, C, D and ", title = {T}, journal = {J}, year = 1999, pages = "1--2", month = jan}
@book{bare, title = {Only a title}}
@misc{none}
@incollection{child, crossref = {parent}, author = {and and}, title = "{Deep {er}}", year = {in press}}
@book{parent, editor = "E. Ditor and others", title = {P}, booktitle = {P}, publisher = {H}, year = 2000, volume = {II}, number = 3}
@phdthesis{thesis, author = {de la Tour, Jr, J.}, title = "", school = { }, year = ""}
@unknown{type, author = {X}, title = {Y}, eprint = {1234.5}, doi = {10.1/x}, url = {http://x}}
"""


def style_jobs(folder, entries):
    """A job for each style of a folder, over the entries above and others of a made database."""
    made = make_database.make_database(7, entries)[0]
    for path in sorted(pathlib.Path(folder).rglob("*.bst")):
        aux = b"\\citation{*}\n\\bibdata{d}\n\\bibstyle{s}\n"
        yield {b"job.aux": aux, b"s.bst": path.read_bytes(), b"d.bib": WRONG + made}, {"budget": 2_000_000}


def beside_mistakes():
    """The worked and corner jobs with one brace too many in the style, above its last function. The style is read on from the empty line after it."""
    for files, options in worked_jobs():
        above, function, rest = files.get(b"s.bst", b"").rpartition(b"FUNCTION")
        if function:
            yield {**files, b"s.bst": above + b"}\n\n" + function + rest}, options


def seed_of_commit():
    """A number from the commit that is checked out, or 1 where there is none."""
    try:
        said = subprocess.run(["git", "rev-parse", "HEAD"], cwd=ROOT, capture_output=True, text=True)
        return int(said.stdout[:8], 16)
    except (OSError, ValueError):
        return 1


def noted_tokens(notes):
    """For each event that logs errors the numbers of these in the log, and the line, the function and the number of its token, if it has one."""
    found = []
    for words in (line.split(b" ") for line in notes):
        if words[0] == b"event":
            found.append([range(int(words[3]), int(words[4])), None])
        elif words[0] == b"at" and found:
            found[-1][1] = tuple(int(word) for word in words[2:5])
    return found


def are_placed(library, files, options, notes, counts):
    """Whether the place of each error is the token that the notes have of it."""
    places = library.error_places(files, b"job", options) if isinstance(notes, list) else None
    if places is None:
        return True
    for errors, token in noted_tokens(notes):
        for number in errors:
            line, *placed = places[number]
            counts["places compared"] += 1
            if (token is None and placed[0] != NO_FUNCTION) or (token is not None and (line, *placed) != token):
                print("---- error %d is at %s, and in the notes at %s" % (number, (line, *placed), token), options, files)
                return False
    return True


def compare(library, files, options, counts):
    """Whether both note the same, and the places of the errors are those of the notes."""
    there, (here, product) = library.notes(files, b"job", options), trace(files, b"job", options, MOST)
    counts["jobs with errors"] += any(line.startswith((b"event step", b"event test", b"event left")) for line in here)
    for line in here:
        if line.startswith(b"event "):
            counts[line.split(b" ")[1].decode()] += 1
    if there != here:
        print("---- differs", options)
        for name, text in files.items():
            print(name, text[:1500])
        pairs = itertools.zip_longest(there if isinstance(there, list) else [b"answer %d" % there], here)
        for number, (left, right) in enumerate(pairs):
            if left != right:
                print("line %d of the notes\n  library: %s\n  tracer:  %s" % (number, left, right))
                break
    return are_placed(library, files, options, there, counts) and there == here


def main():
    parser = argparse.ArgumentParser()
    parser.add_argument("library")
    parser.add_argument("--jobs", type=int, default=400)
    parser.add_argument("--programs", type=int, default=400)
    parser.add_argument("--entries", type=int, default=0)
    parser.add_argument("--seed", type=int, default=None)
    parser.add_argument("--styles", default=TEX_LIVE)
    arguments = parser.parse_args()
    seed = seed_of_commit() if arguments.seed is None else arguments.seed
    print(f"the seed is {seed}", flush=True)
    library, results, counts = Library(arguments.library), [], collections.Counter()
    again = ((files_of(job), job.options) for job in functions_again())
    made = itertools.chain(worked_jobs(), beside_mistakes(), again, random_jobs(arguments.jobs, seed), random_programs(arguments.programs, seed))
    if os.path.isdir(arguments.styles):
        made = itertools.chain(made, style_jobs(arguments.styles, arguments.entries))
    for files, given in made:
        results.append(compare(library, files, Options(**given), counts))
    print("%d jobs have errors of their execution" % counts.pop("jobs with errors"))
    print("%d places of errors are those of the notes" % counts.pop("places compared"))
    print("events:", ", ".join("%d %s" % (counts[word], word) for word in sorted(counts)))
    print(f"{results.count(True)} passed, {results.count(False)} failed")
    return results.count(False)


if __name__ == "__main__":
    raise SystemExit(main() > 0)
