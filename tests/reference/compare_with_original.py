"""Lists by the original program beside lists by the reference, over a folder of styles and a database of our own.

    python3 compare_with_original.py [--entries N] [--seed N] [--all] [--show N] [--program PROGRAM] FOLDER

With --program the built program is compared in the place of the reference, which is much faster.
Wants the program `bibtex`. Prints, for each style of the folder and those below it, whether both lists are the same
bytes; where not, the first lines that differ. Nothing is kept."""

import argparse
import difflib
import pathlib
import random
import subprocess
import tempfile

from make_database import make_database
from product import Options, run

# The sizes that the original is set up with.
SIZES = {"entry_max": 500, "global_max": 200_000}


def cited(keys, takes_all, seed):
    """The argument of the citation, without those that only a cross-reference may bring."""
    if takes_all:
        return b"*"
    own = [key for key in keys if not key.startswith(b"parent")]
    random.Random(seed).shuffle(own)
    return b",".join(own[:len(own) * 3 // 4])


def files_for(style, arguments):
    database, keys = make_database(arguments.seed, arguments.entries)
    aux = (b"\\citation{" + cited(keys, arguments.all, arguments.seed) + b"}\n\\bibdata{own}\n\\bibstyle{"
           + style.stem.encode() + b"}\n")
    return {b"job.aux": aux, b"own.bib": database, style.name.encode(): style.read_bytes()}


def original(files):
    """The list and the log of the original."""
    with tempfile.TemporaryDirectory() as folder:
        for name, text in files.items():
            (pathlib.Path(folder) / name.decode()).write_bytes(text)
        subprocess.run(["bibtex", "job"], cwd=folder, capture_output=True, timeout=120)
        read = [pathlib.Path(folder) / name for name in ("job.bbl", "job.blg")]
        return [path.read_bytes() if path.exists() else b"" for path in read]


def here_by_program(program, files):
    """The list of the built program, and how its run ended."""
    with tempfile.TemporaryDirectory() as folder:
        for name, text in files.items():
            (pathlib.Path(folder) / name.decode()).write_bytes(text)
        sizes = ["--entry-max", str(SIZES["entry_max"]), "--global-max", str(SIZES["global_max"])]
        subprocess.run([program, "--terse", *sizes, "job"], cwd=folder, capture_output=True, timeout=120)
        log = (pathlib.Path(folder) / "job.blg").read_text(encoding="latin1")
        return (pathlib.Path(folder) / "job.bbl").read_bytes(), "program: " + log.split("\n")[-2]


def here_by_reference(files):
    """The list of the reference, and how its run ended."""
    here = run(files, b"job", Options(budget=20_000_000, **SIZES))
    return here.list, f"reference {here.report.end}, {here.report.errors} errors, {here.report.steps} steps"


def shown_difference(left, right, most):
    lines = difflib.unified_diff(left.decode("latin1").split("\n"), right.decode("latin1").split("\n"), "original",
                                 "reference", lineterm="", n=0)
    return "\n".join("    " + line for line in list(lines)[:most])


def compare(style, arguments):
    files = files_for(style, arguments)
    there, there_log = original(files)
    here, end = here_by_program(arguments.program, files) if arguments.program else here_by_reference(files)
    has_errors = b"error message" in there_log
    print(f"{'same  ' if there == here else 'DIFFER'} {style.name}: original {'with' if has_errors else 'without'} errors, {end}", flush=True)
    if there != here:
        print(shown_difference(there, here, arguments.show))
    return there == here


def main():
    parser = argparse.ArgumentParser()
    parser.add_argument("folder", type=pathlib.Path)
    parser.add_argument("--entries", type=int, default=240)
    parser.add_argument("--seed", type=int, default=1)
    parser.add_argument("--all", action="store_true", help="cite * instead of keys")
    parser.add_argument("--show", type=int, default=12)
    parser.add_argument("--program", type=lambda name: str(pathlib.Path(name).resolve()))
    arguments = parser.parse_args()
    results = [compare(style, arguments) for style in sorted(arguments.folder.rglob("*.bst"))]
    print(f"{sum(results)} of {len(results)} lists are the same")


if __name__ == "__main__":
    main()
