"""The module beside the native library, job by job.

    python3 web/compare.py [--jobs N] [--seed N] [LIBRARY.so]

Runs the worked and corner jobs and N random ones by the library for C (library/out/libbtx.so.1) and by the module in Node (web/npm). Of each the list, the log, the
events and the report have to be the same. Then it reads databases by both: those of the jobs, those that TeX Live has, and each of these cut and with bytes changed; their records have
to be the same. The last line is 'N passed, M failed'."""

import argparse
import base64
import itertools
import json
import os
import pathlib
import random
import shutil
import subprocess
import sys

ROOT = pathlib.Path(__file__).resolve().parents[1]
sys.path[:0] = [str(ROOT / "tests/reference"), str(ROOT / "python")]
from product import Options  # noqa: E402
from random_jobs import random_jobs, random_programs, worked_jobs  # noqa: E402


# Strings that are known before each database.
STRINGS = {"jan": "January", "acm": "ACM", "x": "an {x}"}


def coded(data):
    return base64.b64encode(data).decode("ascii")


def words_of(files, options):
    """A job as the script for Node reads it: a line of JSON."""
    given = {"budget": str(options.budget), "minCrossrefs": options.min_crossrefs, "line": options.line, "entryMax": options.entry_max,
             "globalMax": options.global_max, "text": "utf8" if options.utf8 else "bytes"}
    return json.dumps({"files": [[coded(name), coded(text)] for name, text in files.items()], "options": given})


def databases_of(jobs, seed):
    """The databases that both read: the texts of the jobs', each once, and TeX Live's, as they are, cut, and with bytes changed."""
    found = {bytes(text) for files, _ in jobs for name, text in files.items() if bytes(name).endswith(b".bib")}
    by_chance = random.Random(seed)
    for path in shipped():
        text = path.read_bytes()
        spoilt = bytearray(text)
        for _ in range(max(3, len(text) // 2000)):
            spoilt[by_chance.randrange(len(text))] = by_chance.choice(b'{}(),=#"@% \n\\ax1')
        found |= {text, text[: by_chance.randrange(len(text))], bytes(spoilt)}
    return sorted(found)


def shipped():
    """The databases that TeX Live has, where it is there."""
    asked = shutil.which("kpsewhich") and subprocess.run(["kpsewhich", "-var-value=TEXMFDIST"], stdout=subprocess.PIPE, text=True).stdout.strip()
    found = sorted(pathlib.Path(asked).glob("bibtex/bib/**/*.bib")) if asked else []
    if not found:
        print("left out: TeX Live's databases (there are none)")
    return [path for path in found if path.stat().st_size > 0]


def words_of_database(text):
    return json.dumps({"database": coded(text), "strings": STRINGS})


def read_by_library(native, text):
    """What the library reads, as the script for Node writes it."""
    records = native.records_of(b"d.bib", text, {name.encode(): value.encode() for name, value in STRINGS.items()})
    return {"records": [[*numbers, coded(name), coded(value)] for *numbers, name, value in records]}


def by_library(btx, native, files, options):
    """What the library answers, as the script for Node writes it."""
    given = btx.Options(budget=options.budget, min_crossrefs=options.min_crossrefs, line=options.line, entry_max=options.entry_max,
                        global_max=options.global_max, utf8=options.utf8)
    known = native.known_of(b"job", {name: bytes(text) for name, text in files.items()})
    made = btx.run(b"job", {name: text for name, text in known.items() if text is not None}, given)
    report = made.report
    return {"list": coded(made.bbl), "log": coded(made.log), "status": report.status, "end": report.end.word, "steps": report.steps,
            "deepest": report.deepest, "warnings": report.warnings, "errors": report.errors, "events": native.events_of(b"job", known, given, made)}


def answers_to(lines):
    """What the script for Node says to these lines."""
    ran = subprocess.run(["node", str(ROOT / "web/compare.mjs")], input="".join(f"{line}\n" for line in lines), stdout=subprocess.PIPE, text=True, check=True)
    return map(json.loads, ran.stdout.splitlines())


def count_differing(what, inputs, words, by_library):
    """Gives each input to both, and says which differ; how many."""
    failed = 0
    for number, (given, found) in enumerate(itertools.zip_longest(inputs, answers_to(map(words, inputs)))):
        wanted = by_library(given)
        if found != wanted:
            failed += 1
            print(f"FAILED: {what} {number} differs in {[name for name in wanted if not found or wanted[name] != found.get(name)]}: {str(given)[:5000]}")
    return failed


def main():
    words = argparse.ArgumentParser(description="The module beside the native library.")
    words.add_argument("--jobs", type=int, default=1000)
    words.add_argument("--seed", type=int, default=1)
    words.add_argument("library", nargs="?", default=str(ROOT / "library/out/libbtx.so.1"))
    given = words.parse_args()
    os.environ["BTX_LIBRARY"] = given.library
    import btx
    import native

    half = given.jobs // 2
    made = [*worked_jobs(), *random_jobs(half, given.seed), *random_programs(given.jobs - half, given.seed)]
    jobs = [(files, Options(**options)) for files, options in made]
    databases = databases_of(jobs, given.seed)
    failed = count_differing("job", jobs, lambda job: words_of(*job), lambda job: by_library(btx, native, *job))
    failed += count_differing("database", databases, words_of_database, lambda text: read_by_library(native, text))
    print(f"{len(jobs)} jobs, {len(databases)} databases")
    print(f"{len(jobs) + len(databases) - failed} passed, {failed} failed")
    return 1 if failed else 0


if __name__ == "__main__":
    sys.exit(main())
