"""What the commands of `python3 -m btx` have in common."""

from __future__ import annotations

import argparse
import io
import os
import sys
from typing import NoReturn

__all__ = ["STATUS_DEVICE", "STATUS_REFUSED", "Words", "broken_pipe", "complain", "in_words", "print_all", "print_nowhere", "print_text", "prints_any_text", "shown", "stem_of"]

STATUS_REFUSED = 1
STATUS_DEVICE = 6
# What a shell says of a program that SIGPIPE ended.
STATUS_PIPE = 141


class Words(argparse.ArgumentParser):
    """A parser that ends with the program's status for a refused command line."""

    def error(self, message: str) -> NoReturn:
        self.print_usage(sys.stderr)
        self.exit(STATUS_REFUSED, f"{self.prog}: {message}\n")


def prints_any_text() -> None:
    """Has characters that the terminal's encoding lacks printed as escapes. Where standard error is closed, what is said there goes nowhere: Python would print it to standard output."""
    if sys.stderr is None:
        sys.stderr = open(os.devnull, "w")
    for stream in (sys.stdout, sys.stderr):
        if isinstance(stream, io.TextIOWrapper):
            stream.reconfigure(errors="backslashreplace")


def print_all(content: bytes) -> None:
    """Prints these bytes. Raises OSError where standard output is closed or doesn't take all of them; what is still to be printed goes nowhere then."""
    if sys.stdout is None:
        raise OSError("standard output is closed")
    try:
        sys.stdout.flush()
        sys.stdout.buffer.write(content)
        sys.stdout.flush()
    except BrokenPipeError:
        raise
    except OSError:
        print_nowhere()
        raise


def print_text(text: str) -> None:
    """Prints a text, as `print_all` does. Characters that the terminal's encoding lacks are escapes."""
    print_all(text.encode("utf8" if sys.stdout is None else sys.stdout.encoding, "backslashreplace"))


def in_words(error: OSError) -> str:
    """What is wrong with a file, in words."""
    if not isinstance(error.filename, (str, bytes)):
        return str(error)
    name = os.fsdecode(error.filename)
    return f"there is no file {name}" if isinstance(error, FileNotFoundError) else f"{name}: {error.strerror}"


def print_nowhere() -> None:
    """Lets what is still to be printed go nowhere."""
    nowhere = os.open(os.devnull, os.O_WRONLY)
    if nowhere != 1:
        os.dup2(nowhere, 1)
        os.close(nowhere)


def broken_pipe() -> int:
    """The status when nobody reads the output any more. What is still to be printed goes nowhere."""
    print_nowhere()
    return STATUS_PIPE


def complain(text: str, status: int) -> int:
    """Says on standard error what went wrong, and answers the status."""
    print(f"btx: {shown(text)}", file=sys.stderr)
    return status


def shown(text: str) -> str:
    """A text as it may be printed on a terminal or written as UTF-8."""
    if text.isprintable():
        return text
    return "".join(character if character.isprintable() else "?" for character in text.encode("utf8", "replace").decode("utf8"))


def stem_of(name: str) -> str:
    """A database's name without its folders and its ending."""
    base = os.path.basename(name)
    return base[: -len(".bib")] if base.endswith(".bib") else base
