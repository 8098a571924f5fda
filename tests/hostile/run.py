#!/usr/bin/env python3
"""Hostile jobs: each must end as the rules say, in time, and with the bytes that they say.

    python3 tests/hostile/run.py [PROGRAM]         runs the built program (BIBTEX_PROGRAM, or else crates/bibtex/out/bibtex, if none is given)
    python3 tests/hostile/run.py --reference       small sizes of the same jobs, by the reference in Python
    python3 tests/hostile/run.py --make FOLDER     writes a folder for each job
    python3 tests/hostile/run.py --only NAME,..    these jobs alone

Its last line is 'N passed, M failed'; the exit status is 0 only where M is 0."""

import argparse
import os
import pathlib
import resource
import subprocess
import sys
import tempfile
import time
from collections import Counter

from jobs import FAULTS, JOBS, files_of

HERE = pathlib.Path(__file__).resolve().parent
PROGRAM = pathlib.Path(os.environ.get("BIBTEX_PROGRAM") or HERE.parents[1] / "crates/bibtex/out/bibtex")
LONGEST_RUN = 60


def write_files(folder, files):
    folder.mkdir(parents=True, exist_ok=True)
    for name, text in files.items():
        (folder / name).write_bytes(text)


# ---- what is wrong with a run ----


def complaints(expected, status, references, log):
    lines = log.split(b"\n")[:-1]
    if status != expected.status:
        yield f"the exit status is {status}, not {expected.status}"
    if expected.end not in FAULTS and (not lines or lines[-1] != expected.last_line):
        yield f"the log ends {lines[-1][:200] if lines else b''!r}, not {expected.last_line!r}"
    if references != expected.references:
        yield f"the list has {len(references):,} bytes, {references[:40]!r}.., not {len(expected.references):,}"
    counts = Counter(lines)
    for line, times in expected.log.items():
        if counts[line] != times:
            yield f"the log has {line[:100]!r} {counts[line]:,} times, not {times:,}"


# ---- who runs a job ----


def limit_memory(most):
    resource.setrlimit(resource.RLIMIT_AS, (most, most))


def run_program(program, job, folder):
    budget = ["--budget", str(job.budget(job.size))] if job.budget else []
    return subprocess.run([program, *budget, "job"], cwd=folder, stdin=subprocess.DEVNULL, stdout=subprocess.DEVNULL,
                          stderr=subprocess.PIPE, timeout=LONGEST_RUN, preexec_fn=lambda: limit_memory(job.memory))


def by_program(program, job):
    files, expected = files_of(job, job.size)
    with tempfile.TemporaryDirectory() as folder:
        folder = pathlib.Path(folder)
        write_files(folder, files)
        try:
            ran = run_program(program, job, folder)
        except subprocess.TimeoutExpired:
            return [f"it runs for more than {LONGEST_RUN} seconds"]
        outputs = [path.read_bytes() if path.exists() else b"" for path in (folder / "job.bbl", folder / "job.blg")]
    said = b"bibtex: %s\n" % expected.end.encode() if expected.end in FAULTS else b""
    if ran.stderr != said:
        return [f"can't run it: status {ran.returncode}, {ran.stderr[-200:].decode('latin1').strip() or 'nothing said'}"]
    return list(complaints(expected, ran.returncode, *outputs))


def by_reference(job):
    sys.path.insert(0, str(HERE.parent / "reference"))
    from product import Options, run
    files, expected = files_of(job, job.small)
    options = Options(budget=job.budget(job.small)) if job.budget else Options()
    product = run({name.encode(): text for name, text in files.items()}, b"job", options)
    return list(complaints(expected, product.report.status, product.list, product.log))


# ---- the command ----


def read_arguments():
    parser = argparse.ArgumentParser()
    parser.add_argument("--reference", action="store_true")
    parser.add_argument("--make", type=pathlib.Path, metavar="FOLDER")
    parser.add_argument("--only", type=lambda text: text.split(","), metavar="NAME,..")
    parser.add_argument("program", nargs="?", type=pathlib.Path, default=PROGRAM)
    return parser.parse_args()


def check(chosen, found_by):
    failed = 0
    for job in chosen:
        start = time.monotonic()
        found = found_by(job)
        failed += bool(found)
        print(f"{'FAILED ' if found else 'ok     '} {job.name} ({time.monotonic() - start:.1f} s)", flush=True)
        for complaint in found:
            print(f"        {complaint}")
    print(f"{len(chosen) - failed} passed, {failed} failed")
    return min(failed, 1)


def main():
    arguments = read_arguments()
    chosen = [job for job in JOBS if arguments.only is None or job.name in arguments.only]
    if arguments.make:
        for job in chosen:
            write_files(arguments.make / job.name, files_of(job, job.size)[0])
        return 0
    if arguments.reference:
        return check([job for job in chosen if files_of(job, job.small)[1].end not in FAULTS], by_reference)
    if not arguments.program.is_file():
        print(f"there is no program {arguments.program}: build it by make\n0 passed, 1 failed")
        return 1
    return check(chosen, lambda job: by_program(arguments.program.resolve(), job))


if __name__ == "__main__":
    sys.exit(main())
