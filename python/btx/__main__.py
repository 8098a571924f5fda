"""`python3 -m btx JOB` runs a job, `python3 -m btx compare FOLDER..` compares old reference lists with new ones, `python3 -m btx doctor BIB..` examines databases,
`python3 -m btx extract JOB` takes the entries of a document from its databases,
`python3 -m btx fields STYLE` says which fields a style asks for, and `python3 -m btx lsp` is a language server."""

from __future__ import annotations

import importlib
import sys
from typing import List, Optional

from .commands import STATUS_DEVICE, complain, prints_any_text

# The commands that are modules of their own, each read where it is asked for alone.
COMMANDS = {"compare": "compare", "doctor": "checkup", "extract": "extracting", "fields": "asking", "lsp": "server"}


def main(words: Optional[List[str]] = None) -> int:
    """Does what the words say, and answers the exit status."""
    given = sys.argv[1:] if words is None else words
    if sys.stdout is None and given and given[0] in COMMANDS and given[0] != "compare":
        return complain("standard output is closed", STATUS_DEVICE)
    prints_any_text()
    if given and given[0] in COMMANDS:
        return int(importlib.import_module(f"btx.{COMMANDS[given[0]]}").main(given[1:]))
    return int(importlib.import_module("btx.running").main(given))


if __name__ == "__main__":
    raise SystemExit(main())
