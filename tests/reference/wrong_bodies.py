"""Wrong bodies of the reference (wrong_bodies.txt), each of which the jobs of the corners or the worked ones should see. What they don't see, random jobs may.

    python3 wrong_bodies.py [--jobs N] [--first N]

Prints for each wrong body what sees it."""

import argparse
import pathlib
import shutil
import subprocess
import sys
import tempfile

from product import Options, run
from random_jobs import random_jobs

HERE = pathlib.Path(__file__).parent
TABLE = HERE / "wrong_bodies.txt"


def read_wrong():
    """What the table has of each: the file, the old text, which stands there once, the new text, and what is wrong. A text of some lines has its word before each."""
    for part in TABLE.read_text(encoding="utf-8").strip("\n").split("\n\n"):
        texts = {"file": [], "old": [], "new": [], "what": []}
        for line in part.split("\n"):
            word, _, text = line.partition(":")
            texts[word].append(text[1:])
        yield tuple("\n".join(lines) for lines in texts.values())


def seen_by(script, folder):
    """Whether some job of a script gives something else, or doesn't end."""
    try:
        return subprocess.run([sys.executable, script], cwd=folder, capture_output=True, timeout=180).returncode != 0
    except subprocess.TimeoutExpired:
        return True


def seen_by_random_jobs(folder, number):
    """The place of the first random job that gives something else."""
    script = ("import sys; from product import *; from random_jobs import *\n"
              "for f, o in random_jobs(%d, 1): print(hash((run(f, b'job', Options(**o)))))" % number)
    environment = {"PYTHONHASHSEED": "0", "PATH": "/usr/bin:/bin"}
    hashes = [subprocess.run([sys.executable, "-c", script], cwd=place, capture_output=True, env=environment).stdout.split()
              for place in (HERE, folder)]
    differ = [place for place, (left, right) in enumerate(zip(*hashes)) if left != right]
    return differ[0] if differ else None if len(hashes[0]) == len(hashes[1]) else len(hashes[1])


def try_one(file, old, new, jobs):
    with tempfile.TemporaryDirectory() as folder:
        shutil.copytree(HERE, folder, dirs_exist_ok=True, ignore=shutil.ignore_patterns("__pycache__"))
        path = pathlib.Path(folder) / file
        text = path.read_text()
        if text.count(old) != 1:
            return "the old text doesn't stand once"
        path.write_text(text.replace(old, new))
        for script in ("corner_jobs.py", "worked_jobs.py"):
            if seen_by(script, folder):
                return script
        place = seen_by_random_jobs(folder, jobs)
        return "NOTHING" if place is None else f"random job {place}"


def main():
    parser = argparse.ArgumentParser()
    parser.add_argument("--jobs", type=int, default=400)
    parser.add_argument("--first", type=int, default=0, help="the place of the first one in the table")
    arguments = parser.parse_args()
    for file, old, new, what in list(read_wrong())[arguments.first:]:
        print(f"{try_one(file, old, new, arguments.jobs):15} sees: {what}", flush=True)


if __name__ == "__main__":
    main()
