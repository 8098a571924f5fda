"""`python3 -m btx compare`: would my papers come out the same?

Finds each `.aux` file with a `.bbl` beside it, runs it in this process's library with TeX's search paths and TeX Live's limits, and compares
the reference list with the one that is there, or with what a program writes in a copy. Nothing in the folders is changed."""

from __future__ import annotations

import argparse
import contextlib
import functools
import math
import os
import pathlib
import re
import shutil
import signal
import subprocess
import sys
import tempfile
import threading
from dataclasses import replace
from multiprocessing.util import Finalize
from typing import Dict, Generator, Iterator, List, Optional, Sequence, Tuple, Union

from .causes import cause_of, first_difference
from .commands import STATUS_REFUSED, Words, broken_pipe, shown
from .corpus import Job, found_jobs
from .depths import enter
from .events import Met, Severity
from .jobs import gathered, name_bytes, name_text
from .library import run_over
from .messages import message_with
from .options import RANGES, Options
from .refusals import Refusal
from .reports import Compared, Progress, Resumed, Table
from .results import End, Result
from .searching import Search, content_of, found_search
from .workers import Ended, Team

__all__ = ["add_conditions", "compared_piece", "complain", "found_program", "main", "not_run", "status_of"]

BUDGET = 100_000_000
SECONDS = 60.0
# How many bytes a list and a log may have: those of papers have a thousandth of that.
MOST_BYTES = 64 << 20
# How many lines of a log are looked at: a hostile one may have millions.
MOST_EVENTS = 1 << 20
# What a log says where there is no list to compare.
NO_LIST = re.compile(rb"Error--I found no \\bib")
# What is said of files without which no list is compared.
MISSING = {".bst": "I couldn't open style file ", ".bib": "I couldn't open database file "}
# What ends programs beside an interrupt.
ENDING = (signal.SIGTERM, signal.SIGHUP, signal.SIGQUIT)
STATUS_DIFFERENT = 2
STATUS_NOT_RUN = 3
STATUS_INTERRUPTED = 130


def parser() -> argparse.ArgumentParser:
    result = Words(prog="python3 -m btx compare", description="Compares the reference lists of old jobs with those that they get now.")
    add_conditions(result)
    result.add_argument("--processes", type=processes, default=os.cpu_count() or 1, metavar="N", help="how many jobs are run side by side")
    result.add_argument("--json", action="store_true", help="print the results as JSON")
    result.add_argument("--html", type=pathlib.Path, metavar="REPORT", help="write a page with the results")
    result.add_argument("--resume", type=pathlib.Path, metavar="FILE", help="keep results in FILE, and take from there those of jobs whose .aux and .bbl haven't changed")
    return result


def add_conditions(result: argparse.ArgumentParser) -> None:
    """Adds the words that say what is compared, under which conditions, and which status that comes to."""
    result.add_argument("folders", metavar="FOLDER", nargs="+", help="each .aux file with a .bbl beside it below these folders is a job")
    result.add_argument("--with", dest="program", metavar="PROGRAM", help="compare with what PROGRAM writes in a copy, not with the .bbl that is there")
    result.add_argument("--budget", type=budget, default=BUDGET, metavar="N", help=f"how many steps a style may take ({BUDGET:,})")
    result.add_argument("--time-limit", type=time_limit, default=SECONDS, metavar="S", help=f"how many seconds a job may take ({SECONDS:g})")
    result.add_argument("--allow-not-run", action="store_true", help="let the exit status be that of the jobs that were run")


def budget(word: str) -> int:
    """A number of steps, as Options has it."""
    least, most = RANGES["budget"]
    return whole_number(word, least, most)


def processes(word: str) -> int:
    return whole_number(word, 1, 1000)


def whole_number(word: str, least: int, most: int) -> int:
    if not (word.isascii() and word.isdigit() and len(word) <= 20 and least <= int(word) <= most):
        raise argparse.ArgumentTypeError(f"a whole number from {least} to {most} is wanted, and not {word!r}")
    return int(word)


def time_limit(word: str) -> float:
    """A number of seconds that isn't 0."""
    try:
        seconds = float(word)
    except ValueError:
        seconds = 0.0
    if not 0 < seconds < math.inf:
        raise argparse.ArgumentTypeError(f"a number of seconds is wanted, and not {word!r}")
    return seconds


def main(words: List[str]) -> int:
    """Compares, and answers the exit status: that of `status_of`, 130 where it was interrupted, 1 where the command is refused, a folder can't be
    read or a file can't be written. Another signal that ends programs ends this one, after all that is shown and cleaned up for an interrupt."""
    given = parser().parse_args(words)
    try:
        program = found_program(given.program)
    except FileNotFoundError as error:
        return complain(str(error))
    with signals_as_interrupts():
        return compare_and_show(given, program)


@contextlib.contextmanager
def signals_as_interrupts() -> Iterator[None]:
    """Takes signals that end programs as interrupts, and ends the program by the first one in the end."""
    taken: List[int] = []

    def take(number: int, _: object) -> None:
        taken.append(number)
        raise KeyboardInterrupt

    is_main = threading.current_thread() is threading.main_thread()
    numbers = [number for number in ENDING if is_main and signal.getsignal(number) is signal.SIG_DFL]
    for number in numbers:
        signal.signal(number, take)
    try:
        yield
    finally:
        for number in numbers:
            signal.signal(number, signal.SIG_DFL)
        if taken:
            os.kill(os.getpid(), taken[0])


def compare_and_show(given: argparse.Namespace, program: Optional[str]) -> int:
    """Compares, shows the results, and answers the exit status."""
    table = Table()
    try:
        status = compare_all(given, program, table)
    except KeyboardInterrupt:
        status = STATUS_INTERRUPTED
    except BrokenPipeError:
        return broken_pipe()
    except OSError as error:
        status = complain(str(error))
    try:
        table.end(given.json)
        if given.html is not None:
            table.write_page(given.html)
    except BrokenPipeError:
        return broken_pipe()
    except OSError as error:
        return complain(str(error))
    return status or status_of(table, given.allow_not_run)


def found_program(word: Optional[str]) -> Optional[str]:
    """The path of the program that `--with` names, or None where nothing is named. Raises FileNotFoundError where there is no such program; an empty word,
    as from a variable that isn't set, names none."""
    if word is None:
        return None
    path = shutil.which(word)
    if path is None:
        raise FileNotFoundError(f"there is no program {word!r}")
    return os.path.abspath(path)


def status_of(table: Table, allows_not_run: bool) -> int:
    """What the results come to: 0 where all lists are equal, 2 where some differ, 3 where a job wasn't run, unless that is allowed, or where no lists were
    compared at all."""
    different, was_compared = table.count("different"), table.count("different") + table.count("equal") > 0
    if not was_compared or (table.count("not run") > 0 and not allows_not_run):
        return STATUS_NOT_RUN
    return STATUS_DIFFERENT if different > 0 else 0


def complain(text: str) -> int:
    print(f"btx compare: {shown(text)}", file=sys.stderr)
    return STATUS_REFUSED


def compare_all(given: argparse.Namespace, program: Optional[str], table: Table) -> int:
    """Compares all jobs; each result goes into the table as it comes. Answers 1 if a folder couldn't be read, and 0 otherwise."""
    refused: List[str] = []
    jobs = found_jobs(map(os.fsencode, given.folders), refused.append)
    for text in refused:
        complain(text)
    conditions = conditions_of(given, program)
    with Resumed(given.resume, conditions) as kept, Progress(len(jobs), given.json) as progress:
        left = []
        for job in jobs:
            earlier = kept.result(job)
            if earlier is None:
                left.append(job)
            else:
                progress.add(earlier)
                table.add(earlier)
        comparers = Comparers(given.budget, program, given.time_limit, given.processes)
        with contextlib.closing(comparers), contextlib.closing(comparers.results(left)) as results:
            for job, result in results:
                kept.keep(job, result)
                table.add(result)
                progress.add(result)
    return STATUS_REFUSED if refused else 0


def conditions_of(given: argparse.Namespace, program: Optional[str]) -> Dict[str, object]:
    """What the results depend on besides the jobs: those of other conditions aren't taken again."""
    changed = os.stat(program).st_mtime_ns if program else None
    # (earlier versions compared jobs of which a database was missing)
    return {"program": program, "changed": changed, "budget": given.budget, "missing": "not run"}


class Comparers:
    """Processes that compare jobs side by side, each within a time limit, and the folder of their temporary files; both are gone at the end.

    budget: how many steps a style may take. program: what is compared with, or None for the list that is there. seconds: how long the library may take for a job, and
    then PROGRAM. processes: how many jobs are run side by side."""

    def __init__(self, budget: int, program: Optional[str], seconds: float, processes: int) -> None:
        self.room = tempfile.TemporaryDirectory(prefix="btx-")
        work = functools.partial(compared, budget=budget, program=program, seconds=seconds, room=self.room.name)
        self.team: Team[Job, Union[Compared, Ended]] = Team(work, processes, seconds * (2 if program else 1) + 1)

    def results(self, jobs: Sequence[Job]) -> Generator[Tuple[Job, Compared], None, None]:
        """The result of each job, as it comes."""
        with contextlib.closing(self.team.answers(jobs)) as answers:
            for job, answer in answers:
                yield job, result_of(job, answer)

    def close(self) -> None:
        self.team.end()
        self.room.cleanup()


class Kept(threading.local):
    """The process that a thread keeps for its next piece of jobs, and under which conditions it compares."""

    comparers: Optional[Comparers] = None
    conditions: Optional[Tuple[int, Optional[str], float]] = None

    def under(self, budget: int, program: Optional[str], seconds: float) -> Comparers:
        """The process for jobs under these conditions; one for others is ended."""
        if self.comparers is None or self.conditions != (budget, program, seconds):
            self.close()
            self.comparers, self.conditions = Comparers(budget, program, seconds, 1), (budget, program, seconds)
            # (at the end of a process of multiprocessing's, such as a worker of Dask's, nothing else is cleaned up)
            Finalize(None, self.comparers.close, exitpriority=0)
        return self.comparers

    def close(self) -> None:
        if self.comparers is not None:
            self.comparers.close()
        self.comparers = None


KEPT = Kept()


def compared_piece(jobs: Sequence[Job], budget: int, program: Optional[str], seconds: float) -> List[Compared]:
    """The results of some jobs, from a process of their own that is kept for the next call of this thread: for an engine that spreads jobs over machines. A job
    that takes too long is ended there, and the engine's own process goes on."""
    return [result for _, result in KEPT.under(budget, program, seconds).results(jobs)]


def result_of(job: Job, answer: object) -> Compared:
    """The result of a job: what was answered, or why there was no answer."""
    if isinstance(answer, Compared):
        return answer
    return not_run(job, answer.why if isinstance(answer, Ended) else repr(answer))


@functools.lru_cache(maxsize=None)
def search() -> Search:
    """TeX's search, made once in each process."""
    return found_search()


def search_here() -> Search:
    """TeX's search from the present folder. It remembers which folders lie below another one, so where it is to look below the present folder, one
    is made for each job."""
    return found_search() if search().looks_below_here() else search()


# A process has one present folder, and TeX's search is one for all of its threads.
ONE_AT_A_TIME = threading.Lock()


def compared(job: Job, budget: int, program: Optional[str], seconds: float, room: Optional[str] = None) -> Union[Compared, Ended]:
    """What comes of one job; whatever goes wrong in it is its own result. Where the program takes longer than `seconds`, an Ended says so,
    since what it started may still run. Copies are made in `room`, which is where temporary files are if none is named."""
    with ONE_AT_A_TIME:
        try:
            link = job.link_out()
            if link is not None:
                return not_run(job, f"{link} is a link that leads out of the folder, so none of its lines is shown")
            enter(job.folder)
            here = search_here()
            options = replace(here.options(Options()), budget=budget, most_list=MOST_BYTES, most_log=MOST_BYTES)
            return compared_here(job, here, options, program, seconds, room)
        except subprocess.TimeoutExpired:
            return Ended(f"{program} took longer than {counted(seconds)}")
        except (OSError, Refusal, MemoryError, RecursionError, subprocess.SubprocessError) as error:
            return not_run(job, str(error) or "no memory")


def counted(seconds: float) -> str:
    return f"{seconds:g} second" + ("" if seconds == 1 else "s")


def compared_here(job: Job, here: Search, options: Options, program: Optional[str], seconds: float, room: Optional[str]) -> Compared:
    """What comes of a job in whose folder this process is."""
    finder = Finder(job, here)
    files = gathered(job.name, finder.content)
    if finder.missing is not None:
        return not_run(job, finder.missing)
    result = run_over(job.name, files, options, MOST_EVENTS)
    reason = why_not_run(result)
    if reason is not None:
        return not_run(job, reason)
    if program is None:
        there = content_of(job.name + b".bbl", MOST_BYTES)
    else:
        with tempfile.TemporaryDirectory(dir=room) as copy:
            there = list_of(program, job, finder.found, seconds, pathlib.Path(copy))
    above = tuple(finder.above)
    if result.bbl == there:
        return Compared(job.shown(), "equal", "", above=above)
    line, ours, other = first_difference(result.bbl, there)
    return Compared(job.shown(), "different", cause_of(result, there).value, line, ours, other, above)


class Finder:
    """Finds the files of a job in whose folder this process is: where TeX finds them, and styles and databases else in the folders above.

    found: the files by the names that the job calls them by. above: the paths of those from folders above. missing: what is said of the first style or database that is nowhere. No list
    is compared then, as two that lack the same entries would be equal, and nothing more is looked for."""

    def __init__(self, job: Job, here: Search) -> None:
        self.job = job
        self.here = here
        self.found: Dict[str, bytes] = {}
        self.above: List[str] = []
        self.missing: Optional[str] = None

    def content(self, name: str) -> Optional[bytes]:
        """The bytes of the file of this name, if there is one."""
        if self.missing is not None:
            return None
        content = self.here.content(name)
        if content is None:
            content = self.content_above(name)
        if content is not None:
            self.found[name] = content
        elif name[-4:] in MISSING:
            self.missing = MISSING[name[-4:]] + name
        return content

    def content_above(self, name: str) -> Optional[bytes]:
        """The bytes of a style or a database from a folder above."""
        path, content = self.job.file_above(name_bytes(name)) or (None, None)
        if path is not None:
            self.above.append(name_text(path))
        return content


def why_not_run(result: Result) -> Optional[str]:
    """Why a job gives no list that could be compared, if so."""
    if result.report.end is End.NO_TOP_FILE:
        return "the .aux file can't be read"
    for event in result.events.of(Severity.ERROR):
        if event.met is Met.FILES and NO_LIST.match(result.log, event.offset):
            return message_with(result.log[event.offset : event.end], event).text
    return None


def not_run(job: Job, reason: str) -> Compared:
    return Compared(job.shown(), "not run", reason)


def list_of(program: str, job: Job, found: Dict[str, bytes], seconds: float, copy: pathlib.Path) -> bytes:
    """What a program writes for a job in the folder `copy`, where it finds the files that the job's run has found. What it prints is dropped."""
    folder = copied(found, copy)
    name = job.name if not job.name.startswith(b"-") else b"./" + job.name
    done = subprocess.run(
        [program, name],
        cwd=folder,
        env=searches_here_first(),
        stdin=subprocess.DEVNULL,
        stdout=subprocess.DEVNULL,
        stderr=subprocess.DEVNULL,
        timeout=seconds,
    )
    if done.returncode < 0:
        raise OSError(f"{program} was ended by signal {-done.returncode}")
    path = folder / os.fsdecode(job.name + b".bbl")
    if not path.is_file():
        raise OSError(f"{program} wrote no list (status {done.returncode})")
    return content_of(os.fsencode(path), MOST_BYTES)


def copied(found: Dict[str, bytes], copy: pathlib.Path) -> pathlib.Path:
    """Writes the files whose names aren't absolute below `copy`, and answers the folder in it from which each has its name. Names that lead upwards
    by `..` stay in `copy`, since that folder lies as deep as they lead."""
    names = [name for name in found if not name.startswith("/")]
    folder = copy.joinpath(*["d"] * max((os.path.normpath(name).split("/").count("..") for name in names), default=0))
    folder.mkdir(parents=True, exist_ok=True)
    for name in names:
        path = folder / name
        path.parent.mkdir(parents=True, exist_ok=True)
        path.write_bytes(found[name])
    return folder


def searches_here_first() -> Dict[str, str]:
    """The environment in which a program of TeX's finds styles and databases in its own folder first, and then where it always does."""
    return {**os.environ, **{name: ".:" + os.environ.get(name, "") for name in ("BIBINPUTS", "BSTINPUTS")}}
