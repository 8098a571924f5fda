#!/usr/bin/env python3
"""Checks functions of a crate before the crates below it are proved: for work on a machine on which nothing is proved yet. It is no verdict.

    tests/wrong_bodies/check_ahead.py CRATE FUNCTION..

All crates below CRATE are passed as source, with stand-ins for their functions (stand_ins.py): the prover takes the contract of each by what it states. So what is
checked is the functions that are named, by their paths in the crate as `machine::close`, and those of the crate that they call. The first check of a crate takes some minutes, each
later one less. A function that is right has `no holes` or `depends on a hole in` a crate below; of another one the goals are shown that are left.

The copies stand in out/ahead, and what the check keeps. The exit status is 0 where each function is right, 1 where one isn't, and 2 where the words are refused."""

import pathlib
import re
import shutil
import subprocess
import sys

from plant import TAKEN, load_kit
from stand_ins import stand_in

ROOT = pathlib.Path(__file__).resolve().parents[2]
ROOM = ROOT / "out/ahead"


def copy_crates(parts):
    """Copies the sources of all crates into the room: its list names them all."""
    ROOM.mkdir(parents=True, exist_ok=True)
    shutil.copy(ROOT / "crates.txt", ROOM)
    for folder in (ROOT / "crates").iterdir():
        for part in parts:
            shutil.rmtree(ROOM / "crates" / folder.name / part, ignore_errors=True)
            if (folder / part).is_dir():
                shutil.copytree(folder / part, ROOM / "crates" / folder.name / part)


def command_of(kit, name, functions):
    """The folder in which these functions are checked, and the command: the crates below have stand-ins there."""
    copy_crates(kit.PARTS)
    folder = ROOM / "crates" / name
    crate = kit.Crate(str(folder), str(ROOM), {})
    for below in crate.below():
        stand_in(pathlib.Path(below.folder), below.name, [])
    kept = folder / "out/ahead"
    kept.mkdir(parents=True, exist_ok=True)
    only = [word for function in functions for word in ("--only", f"{name}::{function}")]
    words = crate.words(["--jobs", "1", "--allow-holes", "--incremental", str(kept), *only], as_source=True)
    return folder, [kit.RATTLE, "check", *words]


def main(words):
    if len(words) < 2 or not (ROOT / "crates" / words[0]).is_dir():
        print(__doc__, file=sys.stderr)
        return 2
    name, functions = words[0], words[1:]
    folder, command = command_of(load_kit().rtlib, name, functions)
    said = subprocess.run(command, cwd=folder, stdout=subprocess.PIPE, stderr=subprocess.STDOUT, encoding="utf-8", errors="replace").stdout
    print(said, end="")
    verdicts = dict(re.findall(rf"(?m)^fn {name}::(\S+): (.*)$", said))
    wrong = [it for it, verdict in verdicts.items() if not TAKEN.match(verdict)]
    missing = [it for it in functions if it not in verdicts]
    named = ", ".join([*wrong, *(f"{it} (not there)" for it in missing)])
    print(f"{len(verdicts) - len(wrong)} right, {len(wrong) + len(missing)} not" + (f": {named}" if named else ""))
    return 1 if wrong or missing else 0


if __name__ == "__main__":
    sys.exit(main(sys.argv[1:]))
