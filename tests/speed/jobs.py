"""The jobs and the loops that are measured."""

import functools
import os
import pathlib
import shutil
import subprocess
import sys
import tempfile
from typing import NamedTuple, Optional

from make_job import MONTHS, TYPES, make_job

HERE = pathlib.Path(__file__).resolve().parent
EXAMPLES = HERE.parents[1] / "examples"
ARTICLE, PLAIN, ALPHA, LONG = "article", "plain", "alpha", "jurabib"
START, READING_ALONE, MESSAGES, TYPICAL = "start", "reading", "messages", "typical"
# A normal paper: so many citations of a database that its author has kept for years.
CITATIONS_OF_TYPICAL, ENTRIES_OF_TYPICAL = 30, 3_000
# In the job MESSAGES the database has a mistake for each ten entries.
ENTRIES_A_MISTAKE = 10
MOST_ENTRIES_OF_REFERENCE = 1_000


# ---- styles ----


@functools.lru_cache(maxsize=None)
def style_path(style):
    """Our own style, or TeX Live's, which is used where it is installed; None where there isn't any."""
    own = EXAMPLES / style / f"{style}.bst"
    if own.is_file():
        return own
    if shutil.which("kpsewhich") is None:
        return None
    found = subprocess.run(["kpsewhich", f"{style}.bst"], capture_output=True, text=True).stdout.strip()
    return pathlib.Path(found).resolve() if found else None


def has_style(style):
    if style_path(style) is None:
        print(f"the style {style} isn't installed: left out")
    return style_path(style) is not None


# ---- jobs ----

# All fields of the databases that are made, and nothing that is executed.
READING = """ENTRY { address annote author booktitle chapter edition editor institution journal key month note number organization
  pages publisher school series title type volume year } {} {}
%s%s
READ
""" % ("".join('MACRO {%s} {"%s"}\n' % (month, month) for month in MONTHS),
       "".join("FUNCTION {%s} {}\n" % kind for kind in sorted({*TYPES, "proceedings"})))


def add_mistakes(database):
    """Puts a mistake before every tenth entry, counted from the last, so that each part of the database has its message."""
    items = database.read_text().split("\n\n@")
    for place in range(len(items) - 1, 0, -ENTRIES_A_MISTAKE):
        items.insert(place, "string{mistake}")
    database.write_text("\n\n@".join(items))


class Job(NamedTuple):
    """`more` is put behind the style's text. Without a number of citations all entries are cited."""
    name: str
    style: str
    entries: int
    more: str = ""
    citations: Optional[int] = None

    def write(self, folder, seed):
        make_job(folder, self.entries, self.style, seed, self.citations)
        there = folder / f"{self.style}.bst"
        if self.style in (READING_ALONE, MESSAGES):
            there.write_text(READING)
            if self.style == MESSAGES:
                add_mistakes(folder / "works.bib")
        elif self.more:
            there.write_bytes(style_path(self.style).read_bytes() + self.more.encode())
        else:
            os.symlink(style_path(self.style), there)


def all_jobs(styles, sizes):
    known = [READING_ALONE, MESSAGES] + styles
    short = PLAIN if PLAIN in known else known[-1]
    yield Job(START, short, 1)
    yield Job(TYPICAL, short, ENTRIES_OF_TYPICAL, citations=CITATIONS_OF_TYPICAL)
    for style in known:
        for size in sizes:
            yield Job(style, style, size)


# ---- loops ----

COUNTING = """ENTRY {title} {} {}
INTEGERS {i}
FUNCTION {count} {#0 'i := {i #%d <} {i #1 + 'i :=} while$}
READ
EXECUTE {count}
"""
STEPS_A_TURN_OF_COUNTING = 10


class CountingJob(NamedTuple):
    turns: int
    entries: int = 1

    def write(self, folder, seed):
        make_job(folder, self.entries, "counting", seed)
        (folder / "counting.bst").write_text(COUNTING % self.turns)


class CountingLoop(NamedTuple):
    name: str = "counting"
    turns: tuple = (1_000, 21_000)

    def job(self, turns):
        return CountingJob(turns)

    def steps(self, seed):
        return STEPS_A_TURN_OF_COUNTING * (self.turns[1] - self.turns[0])


class ReferencesLoop(NamedTuple):
    """A style writes its list of 100 references once more, and 10 times more."""
    style: str
    turns: tuple = (1, 11)
    entries: int = 100

    @property
    def name(self):
        return f"references of {self.style}"

    def job(self, turns):
        return Job(self.name, self.style, self.entries, "\nITERATE {call.type$}" * turns + "\n")

    def steps(self, seed):
        """By the reference, which runs a turn of it."""
        once, twice = (reference_steps(self.job(turns), seed) for turns in (1, 2))
        return (twice - once) * (self.turns[1] - self.turns[0])


def reference_steps(job, seed):
    sys.path.insert(0, str(HERE.parent / "reference"))
    from product import Options, run
    with tempfile.TemporaryDirectory() as folder:
        folder = pathlib.Path(folder)
        job.write(folder, seed)
        files = {path.name.encode(): path.read_bytes() for path in folder.iterdir()}
    return run(files, b"job", Options(entry_max=500, global_max=200_000)).report.steps


def few_steps(job, seed):
    """The steps of a job that is small enough for the reference."""
    return reference_steps(job, seed) if job.entries <= MOST_ENTRIES_OF_REFERENCE else None


def all_loops(styles):
    yield CountingLoop()
    for style in styles:
        yield ReferencesLoop(style)
