"""Runs of the front end beside runs of the scripts that it replaced, over many jobs: list, exit status and the set of messages.

    python3 compare.py [--jobs N] [--programs N] [--hostile N] [--seed N] [--kinds KIND,..] [--scripts FOLDER] PROGRAM FRONT

PROGRAM is the proved program, which the scripts call, and FRONT the front end's `bibtex-search`. The scripts are those of the last commit that had them,
unless FOLDER has them. The jobs: `worked` (tests/reference's tables), `random` and `programs` (made from the seed), `documents` (those of documents.bash), `hostile`
(worked and random jobs with bytes changed), and `styles` (each style of TeX Live, where that is installed). Each differing job is named, and all are counted by
their cause: what differs, and the first messages that do. The last line is 'N passed, M failed', of jobs."""

import argparse
import collections
import concurrent.futures
import os
import pathlib
import random
import re
import shutil
import subprocess
import sys
import tempfile
from typing import NamedTuple

import messages

HERE = pathlib.Path(__file__).resolve().parent
ROOT = HERE.parents[1]
sys.path.insert(0, str(HERE.parent / "reference"))
from make_database import make_database  # noqa: E402
from product import Options  # noqa: E402
from random_jobs import random_jobs, random_programs, worked_jobs_named  # noqa: E402

# The last commit with the scripts.
WITH_SCRIPTS = "e124ebb0"
SCRIPTS = ("bibtex-search", "bibtex-explain")
TOOLS = ("sh", "awk", "cat", "cmp", "ln", "mkdir", "mktemp", "rm", "df")
SECONDS = 120
EDITED = b"{}\"@,=#( )\n\x00a%'\\\xff\r\t*$"


class Job(NamedTuple):
    name: str
    files: dict
    words: tuple = ()
    by_tex: bool = False


class Outcome(NamedTuple):
    list: bytes
    status: int
    messages: tuple


# ---- jobs ----


def words_of(given):
    """The words of the command line for the options of a job of tests/reference."""
    options = Options(**given)
    for name, value in options._asdict().items():
        if name == "utf8":
            yield "-text=utf8" if value else "-text=bytes"
        else:
            yield f"-{name.replace('_', '-')}={value}"


def numbered(kind, jobs):
    for number, (files, given) in enumerate(jobs):
        yield Job(f"{kind} {number}", files, tuple(words_of(given)))


def worked():
    for name, files, given in worked_jobs_named():
        yield Job(f"worked {name}", files, tuple(words_of(given)))


def edited(text, chance):
    """The text with some bytes changed, left out, put in or doubled."""
    text = bytearray(text)
    for _ in range(chance.choice([1, 2, 4, 16])):
        at, end = sorted(chance.randrange(len(text) + 1) for _ in range(2))
        kind = chance.randrange(4)
        if kind == 0:
            text[at:at + 1] = bytes([chance.choice(EDITED)])
        elif kind == 1:
            text[at:at] = bytes(chance.choice(EDITED) for _ in range(chance.choice([1, 3, 9])))
        elif kind == 2:
            del text[at:min(end, at + 20)]
        else:
            text[at:at] = text[at:min(end, at + 40)]
    return bytes(text)


def hostile(number, seed):
    """Jobs of the tables and random ones, each with one of its files changed."""
    sources = [job for job in worked() if b"job.aux" in job.files] + list(numbered("random", random_jobs(200, seed + 1)))
    for place in range(number):
        chance = random.Random(seed * 1_000_003 + place)
        job = chance.choice(sources)
        changed = chance.choice(sorted(job.files))
        budget = (*(word for word in job.words if not word.startswith("-budget=")), "-budget=20000")
        yield Job(f"hostile {place} ({changed.decode()} of {job.name})", {**job.files, changed: edited(job.files[changed], chance)}, budget)


def written_by_the_checks():
    """The jobs of documents.bash."""
    names = re.findall(r"^(write_\w+)\(\)", (HERE / "documents.bash").read_text(encoding="utf-8"), re.M)
    for name in names:
        with tempfile.TemporaryDirectory() as folder:
            for path in (ROOT / "examples/first").glob("*.[abi]*"):
                if path.suffix in (".aux", ".bib", ".bst"):
                    shutil.copy(path, folder)
            subprocess.run(["bash", "-c", f"source {HERE}/documents.bash && {name}"], cwd=folder, check=True)
            yield Job(f"document {name}", {os.fsencode(path.name): path.read_bytes() for path in pathlib.Path(folder).iterdir()}, ("-budget=200000",))


def styles(seed):
    """Each style of TeX Live over one database."""
    try:
        trees = subprocess.run(["kpsewhich", "-expand-var=$TEXMFDIST"], capture_output=True, text=True).stdout.split()
    except OSError:
        return
    database, _ = make_database(seed)
    for tree in trees:
        for path in sorted(pathlib.Path(tree).glob("bibtex/bst/**/*.bst")):
            aux = b"\\citation{*}\n\\bibdata{works}\n\\bibstyle{" + os.fsencode(path.stem) + b"}\n"
            yield Job(f"style {path.stem}", {b"job.aux": aux, b"works.bib": database}, ("-budget=2000000",), True)


def all_jobs(arguments):
    kinds = {
        "worked": worked,
        "random": lambda: numbered("random", random_jobs(arguments.jobs, arguments.seed)),
        "programs": lambda: numbered("programs", random_programs(arguments.programs, arguments.seed)),
        "documents": written_by_the_checks,
        "hostile": lambda: hostile(arguments.hostile, arguments.seed),
        "styles": lambda: styles(arguments.seed),
    }
    for kind in arguments.kinds or kinds:
        yield from kinds[kind]()


# ---- runs ----


class Runner:
    """Runs the scripts and the front end, with TeX's search and without it."""

    def __init__(self, room, arguments):
        self.front = [str(arguments.front.resolve())]
        self.scripts = [str(scripts_in(room, arguments.scripts) / "bibtex-search")]
        plain, no_tex = room / "plain", room / "no_tex"
        plain.mkdir()
        no_tex.mkdir()
        for tool in TOOLS:
            (plain / tool).symlink_to(shutil.which(tool))
        (no_tex / "libkpathsea.so.6").touch()
        kept = {name: value for name, value in os.environ.items() if name not in ("BIBINPUTS", "BSTINPUTS", "TERM")}
        self.with_tex = {**kept, "BIBTEX_PROGRAM": str(arguments.program.resolve())}
        self.without_tex = {**self.with_tex, "PATH": str(plain), "LD_LIBRARY_PATH": str(no_tex), "TEXMFCNF": str(no_tex)}

    def run(self, command, job, read):
        with tempfile.TemporaryDirectory() as folder:
            folder = pathlib.Path(folder)
            for name, text in job.files.items():
                (folder / os.fsdecode(name)).write_bytes(text)
            environment = self.with_tex if job.by_tex else self.without_tex
            done = subprocess.run([*command, "-terse", *job.words, "job"], cwd=folder, env=environment, stdin=subprocess.DEVNULL, capture_output=True, timeout=SECONDS)
            made = [folder / name for name in ("job.bbl", "job.blg")]
            references, log = (path.read_bytes() if path.exists() else b"(none)" for path in made)
            return Outcome(references, done.returncode, tuple(read(log)))

    def both(self, job):
        try:
            return job, self.run(self.scripts, job, messages.of_program), self.run(self.front, job, messages.of_front)
        except subprocess.TimeoutExpired:
            late = Outcome(b"", -1, (b"it took too long",))
            return job, late, late._replace(status=-2)


def scripts_in(room, folder):
    """The folder of the scripts."""
    if folder:
        return folder.resolve()
    folder = room / "scripts"
    folder.mkdir()
    for name in SCRIPTS:
        text = subprocess.run(["git", "show", f"{WITH_SCRIPTS}:contrib/{name}"], cwd=ROOT, capture_output=True, check=True).stdout
        (folder / name).write_bytes(text)
        (folder / name).chmod(0o755)
    return folder


# ---- what differs ----


def first_different(before, now):
    """The first messages that one of them has more often than the other, with names and numbers left out."""
    lost = collections.Counter(before) - collections.Counter(now)
    new = collections.Counter(now) - collections.Counter(before)
    return next(iter(lost), b""), next(iter(new), b"")


def general(message):
    text = message.decode("utf-8", "backslashreplace")
    return re.sub(r"\d+", "N", re.sub(r'"[^"]*"', '".."', text))[:90]


def cause(before, now):
    parts = []
    if before.list != now.list:
        parts.append("list")
    if before.status != now.status:
        parts.append(f"status {before.status}, now {now.status}")
    if sorted(before.messages) != sorted(now.messages):
        lost, new = first_different(before.messages, now.messages)
        parts.append(f"messages: '{general(lost)}', now '{general(new)}'")
    elif before.messages != now.messages:
        parts.append("order of messages")
    return "; ".join(parts)


def keep(folder, job):
    """Leaves the files of a differing job, and how it was called, in a folder of its own."""
    place = folder / re.sub(r"\W+", "_", job.name)[:60]
    place.mkdir(parents=True, exist_ok=True)
    for name, text in job.files.items():
        (place / os.fsdecode(name)).write_bytes(text)
    (place / "words").write_text(" ".join(job.words) + "\n")


def main():
    parser = argparse.ArgumentParser()
    parser.add_argument("program", type=pathlib.Path)
    parser.add_argument("front", type=pathlib.Path)
    parser.add_argument("--scripts", type=pathlib.Path)
    parser.add_argument("--jobs", type=int, default=600)
    parser.add_argument("--programs", type=int, default=200)
    parser.add_argument("--hostile", type=int, default=1000)
    parser.add_argument("--seed", type=int, default=1)
    parser.add_argument("--kinds", type=lambda text: text.split(","))
    parser.add_argument("--at-once", type=int, default=2)
    parser.add_argument("--keep", type=pathlib.Path, help="a folder for the files of jobs that differ")
    arguments = parser.parse_args()
    causes, same = collections.defaultdict(list), 0
    with tempfile.TemporaryDirectory() as room, concurrent.futures.ThreadPoolExecutor(arguments.at_once) as pool:
        runner = Runner(pathlib.Path(room), arguments)
        for job, before, now in pool.map(runner.both, all_jobs(arguments)):
            why = cause(before, now)
            if not why:
                same += 1
                continue
            causes[why].append(job.name)
            print(f"differs: {job.name}: {why}", flush=True)
            if arguments.keep:
                keep(arguments.keep, job)
    for why, names in sorted(causes.items(), key=lambda item: -len(item[1])):
        print(f"{len(names)} jobs: {why} (as {names[0]})")
    failed = sum(map(len, causes.values()))
    print(f"{same} passed, {failed} failed")
    return failed > 0 or same == 0


if __name__ == "__main__":
    sys.exit(main())
