#!/usr/bin/env python3
"""Whether a program takes more time or memory for the hostile jobs than another one, as an older build of it.

    python3 tests/hostile/compare.py [--only NAME,..] [--runs N] OLDER [PROGRAM]

PROGRAM is BIBTEX_PROGRAM, or else crates/bibtex/out/bibtex, if none is given. The two run each job in turn. A bar for each job: at most a tenth more processor seconds, the
best of N runs (7), and a tenth more memory. Wants gcc. The last line is 'N bars met, M not'; the exit status is 0 only where M is 0."""

import argparse
import math
import pathlib
import shutil
import subprocess
import sys
import tempfile

from jobs import JOBS, files_of
from run import LONGEST_RUN, PROGRAM, limit_memory, write_files

HERE = pathlib.Path(__file__).resolve().parent
ONCE = HERE.parent / "speed/once.c"
MOST = 1.1
# What is too little to be compared.
FEW_SECONDS, FEW_MEGABYTES = 0.05, 0.5


def taken(program, job, folder, once):
    """The processor seconds and megabytes of a run; for one that doesn't end in time, all its time and memory without end."""
    note = folder / "figures"
    note.unlink(missing_ok=True)
    budget = ["--budget", str(job.budget(job.size))] if job.budget else []
    subprocess.run(["timeout", str(LONGEST_RUN), once, note, program, *budget, "--terse", "job"], cwd=folder, stdin=subprocess.DEVNULL,
                   stderr=subprocess.DEVNULL, preexec_fn=lambda: limit_memory(job.memory), check=False)
    if not note.exists():
        return LONGEST_RUN, math.inf
    _, seconds, kilobytes = map(float, note.read_text().split())
    return seconds, kilobytes / 1024


def best_of(runs):
    return min(seconds for seconds, _ in runs), min(megabytes for _, megabytes in runs)


def is_met(job, programs, runs, once):
    """Prints what both take for a job; whether the second takes a tenth more at most."""
    with tempfile.TemporaryDirectory() as folder:
        folder = pathlib.Path(folder)
        write_files(folder, files_of(job, job.size)[0])
        turns = [[taken(program, job, folder, once) for program in programs] for _ in range(runs)]
    older, newer = map(best_of, zip(*turns))
    met = newer[0] <= older[0] * MOST + FEW_SECONDS and newer[1] <= older[1] * MOST + FEW_MEGABYTES
    print(f"{'met     ' if met else 'NOT MET '} {job.name}: {newer[0]:.2f} s, {newer[1]:.1f} MB; the older {older[0]:.2f} s, {older[1]:.1f} MB", flush=True)
    return met


def main():
    parser = argparse.ArgumentParser()
    parser.add_argument("--only", type=lambda text: text.split(","), metavar="NAME,..")
    parser.add_argument("--runs", type=int, default=7)
    parser.add_argument("older", type=pathlib.Path)
    parser.add_argument("program", nargs="?", type=pathlib.Path, default=PROGRAM)
    arguments = parser.parse_args()
    programs = [arguments.older.resolve(), arguments.program.resolve()]
    missing = [str(it) for it in programs if not it.is_file()] + ["gcc"] * (shutil.which("gcc") is None)
    if missing:
        print(f"there is no {' and no '.join(missing)}\n0 bars met, 1 not")
        return 1
    with tempfile.TemporaryDirectory() as room:
        once = pathlib.Path(room, "once")
        subprocess.run(["gcc", "-O2", "-Wall", "-Werror", "-o", once, ONCE], check=True)
        met = [is_met(job, programs, arguments.runs, once) for job in JOBS if arguments.only is None or job.name in arguments.only]
    print(f"{met.count(True)} bars met, {met.count(False)} not")
    return int(False in met)


if __name__ == "__main__":
    sys.exit(main())
