"""`python3 -m btx JOB`: runs a job as the program does, and writes its outputs."""

from __future__ import annotations

import argparse
import signal
import sys
from dataclasses import replace
from typing import List

from .commands import STATUS_DEVICE, STATUS_REFUSED, Words, broken_pipe, complain, in_words, print_nowhere, shown
from .jobs import run_read
from .options import LETTERS, Options
from .outputs import Inputs, write_outputs
from .refusals import OutputTooLong, Refusal
from .results import End
from .searching import found_search
from .version import VERSION

STATUS_LIMIT = 3
STATUS_MEMORY = 5


def main(words: List[str]) -> int:
    """Runs the job that the words name, and answers the exit status."""
    # (an interrupt ends it at once: Python's own handler would wait until the library has answered)
    signal.signal(signal.SIGINT, signal.SIG_DFL)
    try:
        return run_job(parser().parse_args(words))
    except BrokenPipeError:
        return broken_pipe()


def parser() -> argparse.ArgumentParser:
    result = Words(prog="python3 -m btx", description="Writes the reference list of JOB.aux to JOB.bbl, and a log to JOB.blg.")
    result.add_argument("job", metavar="JOB", help="the .aux file of a document, with or without .aux; `compare`, `doctor`, `extract`, `fields` and `lsp` are commands of their own")
    result.add_argument("--min-crossrefs", type=int, metavar="N", help="how many entries name a parent that is listed without being cited (2)")
    result.add_argument("--budget", type=int, metavar="N", help="how many steps the style may take (1,000,000,000)")
    result.add_argument("--line", type=int, metavar="N", help="the length of a line of the list (79)")
    text = result.add_mutually_exclusive_group()
    text.add_argument("--utf8", action="store_true", help="read text as UTF-8, and not only where the list would have half a letter")
    text.add_argument("--bytes", action="store_true", help="read text by bytes in any case")
    result.add_argument("--letters", choices=LETTERS, metavar="LANG", default="no", help="sort letters outside ASCII as a language does, and change their case: sv, de, .. (no)")
    result.add_argument("--version", action="version", version=f"btx {VERSION}")
    result.add_argument("--terse", action="store_true", help="don't print the log")
    return result


def run_job(words: argparse.Namespace) -> int:
    """Runs a job and writes its outputs; the exit status is the program's."""
    inputs = Inputs(found_search(), words.job)
    try:
        options = chosen_options(words, inputs.search.options(Options()))
        result = run_read(words.job, inputs.content, options, "bytes" if words.bytes else "auto")
        if result.report.end is not End.NO_TOP_FILE:
            write_outputs(words.job, result, inputs)
    except OutputTooLong as error:
        return complain(str(error), STATUS_LIMIT)
    except MemoryError as error:
        return complain(str(error), STATUS_MEMORY)
    except OSError as error:
        return complain(in_words(error), STATUS_DEVICE)
    except Refusal as error:
        return complain(str(error), STATUS_REFUSED)
    try:
        if not words.terse:
            print_log(result.noted_log)
    except BrokenPipeError:
        raise
    except OSError as error:
        print_nowhere()
        return complain(f"the log can't be printed: {error}", STATUS_DEVICE)
    return result.report.status


def print_log(log: bytes) -> None:
    """Prints a log; on a terminal, what acts on it is replaced."""
    if sys.stdout is None:
        raise OSError("standard output is closed")
    if sys.stdout.isatty():
        log = b"".join(shown(line).encode("utf8") + b"\n" for line in log.decode("utf8", "replace").split("\n")[:-1])
    sys.stdout.buffer.write(log)
    sys.stdout.flush()


def chosen_options(words: argparse.Namespace, options: Options) -> Options:
    """The options with what the words say."""
    given = {name: getattr(words, name) for name in ("min_crossrefs", "budget", "line")}
    chosen = {name: value for name, value in given.items() if value is not None}
    return replace(options, utf8=words.utf8, letters=words.letters, **chosen)
