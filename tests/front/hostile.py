"""Runs bibtex-search over hostile files beside the proved program: jobs of tests/reference, one of whose files has bytes changed, left out or put in.

    python3 hostile.py [--seed N] JOBS PROGRAM FRONT

Whatever the files are: the list and the exit status are the program's, the log has its messages, standard error says nothing, and `-explain-only` ends with the same status and
writes nothing. What is wrong is printed; the last line is 'N passed, M failed', of jobs, and the exit status is 0 only where M is 0."""

import argparse
import os
import pathlib
import subprocess
import sys
import tempfile

import messages
from compare import hostile

SECONDS = 60


def write_job(folder, job):
    for name, text in job.files.items():
        (folder / os.fsdecode(name)).write_bytes(text)


def run(command, folder):
    return subprocess.run(command, cwd=folder, stdin=subprocess.DEVNULL, capture_output=True, timeout=SECONDS)


def outputs(folder):
    paths = [folder / name for name in ("job.bbl", "job.blg")]
    return [path.read_bytes() if path.exists() else b"" for path in paths]


def of_program(program, job):
    """The exit status, the list and the messages that the program has for a job."""
    with tempfile.TemporaryDirectory() as folder:
        folder = pathlib.Path(folder)
        write_job(folder, job)
        done = run([program, "--terse", *("-" + word for word in job.words), "job"], folder)
        references, log = outputs(folder)
        return done.returncode, references, sorted(messages.of_program(log))


def complaints(program, front, job):
    status, wanted, its_messages = of_program(program, job)
    with tempfile.TemporaryDirectory() as folder:
        folder = pathlib.Path(folder)
        write_job(folder, job)
        explained = run([front, "-explain-only", *job.words, "job"], folder)
        if explained.returncode != status:
            yield f"with -explain-only the exit status is {explained.returncode}, not {status}"
        if sorted(path.name for path in folder.iterdir()) != sorted(os.fsdecode(name) for name in job.files):
            yield "-explain-only leaves other files"
        done = run([front, "-terse", *job.words, "job"], folder)
        references, log = outputs(folder)
        if done.returncode != status:
            yield f"the exit status is {done.returncode}, not {status}"
        if references != wanted:
            yield f"the list has {len(references)} bytes, {references[:40]!r}.., not {len(wanted)}"
        if sorted(messages.of_front(log)) != its_messages:
            yield "the messages are others"
        for what in (explained, done):
            if b"panicked" in what.stderr or b"mistake of this program" in what.stderr:
                yield f"it says {what.stderr[:300]!r}"


def main():
    parser = argparse.ArgumentParser()
    parser.add_argument("--seed", type=int, default=1)
    parser.add_argument("jobs", type=int)
    parser.add_argument("program")
    parser.add_argument("front")
    arguments = parser.parse_args()
    failed = 0
    for job in hostile(arguments.jobs, arguments.seed):
        try:
            wrong = list(complaints(arguments.program, arguments.front, job))
        except subprocess.TimeoutExpired as late:
            wrong = [f"it takes more than {SECONDS} seconds: {late.cmd[0]}"]
        failed += bool(wrong)
        for what in wrong:
            print(f"{job.name}: {what}")
    print(f"{arguments.jobs - failed} passed, {failed} failed")
    return failed > 0


if __name__ == "__main__":
    sys.exit(main())
