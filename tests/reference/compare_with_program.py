"""Runs of the proved program beside runs of the reference, over the worked jobs, over those that go through all of something
(systematic_jobs.py), and over jobs and programs of 50 tokens that are made from a seed.

    python3 compare_with_program.py [--jobs N] [--programs N] [--seed N] PROGRAM

Without --seed the seed is the commit's, so that each commit is compared over other jobs; it is printed, and --seed repeats a run. Compares
list, log and status byte by byte. The last line is 'N passed, M failed', of jobs; the exit status is 0 only where M is 0."""

import argparse
import itertools
import pathlib
import subprocess
import tempfile

from product import Options, run
from random_jobs import random_jobs, random_programs, worked_jobs
from systematic_jobs import systematic_jobs


def words_of(options):
    words = []
    for name, value in options._asdict().items():
        if value != Options._field_defaults[name]:
            words += ["--text", "utf8"] if name == "utf8" else ["--" + name.replace("_", "-"), str(value)]
    return words


def by_program(program, files, options):
    """List, log and status."""
    with tempfile.TemporaryDirectory() as folder:
        for name, text in files.items():
            (pathlib.Path(folder) / name.decode()).write_bytes(text)
        done = subprocess.run([program, "--dir", folder, *words_of(options), "job"], capture_output=True, timeout=300)
        read = [pathlib.Path(folder) / name for name in ("job.bbl", "job.blg")]
        return (*(path.read_bytes() if path.exists() else None for path in read), done.returncode)


def compare(program, files, given):
    """Whether both are the same."""
    options = Options(**given)
    there = by_program(program, files, options)
    here = run(files, b"job", options)
    expected = (here.list, here.log, here.report.status)
    if there != expected:
        print("---- differs", words_of(options))
        for name, text in files.items():
            print(name, text[:2000])
        for what, left, right in zip(("list", "log", "status"), there, expected):
            if left != right:
                print(what, "\n  program:  ", str(left)[:3000], "\n  reference:", str(right)[:3000])
    return there == expected


def seed_of_commit():
    """A number from the commit that is checked out, or 1 where there is none."""
    try:
        said = subprocess.run(["git", "rev-parse", "HEAD"], cwd=pathlib.Path(__file__).parent, capture_output=True, text=True)
        return int(said.stdout[:8], 16)
    except (OSError, ValueError):
        return 1


def main():
    parser = argparse.ArgumentParser()
    parser.add_argument("program", type=lambda path: str(pathlib.Path(path).resolve()))
    parser.add_argument("--jobs", type=int, default=500)
    parser.add_argument("--programs", type=int, default=400)
    parser.add_argument("--seed", type=int, default=None)
    arguments = parser.parse_args()
    if arguments.seed is None:
        arguments.seed = seed_of_commit()
    print(f"the seed is {arguments.seed}", flush=True)
    results = []
    made = random_jobs(arguments.jobs, arguments.seed), random_programs(arguments.programs, arguments.seed)
    for files, given in itertools.chain(worked_jobs(), systematic_jobs(), *made):
        results.append(compare(arguments.program, files, given))
    print(f"{results.count(True)} passed, {results.count(False)} failed")
    return results.count(False)


if __name__ == "__main__":
    raise SystemExit(main() > 0)
