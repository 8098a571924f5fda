"""Runs a job of a folder and prints its list, its log and its report.

    python3 run_job.py [--original] [--min-crossrefs N] [--budget N] [--utf8] [--line N] [--entry-max N] [--global-max N] FOLDER JOB

With --original the list is that of the original program, BibTeX 0.99d, and its sizes are TeX Live's where none is given. The log and the report then say nothing of the original's."""

import argparse
import pathlib
import sys

import original
from product import Options, run


def arguments(words):
    parser = argparse.ArgumentParser()
    parser.add_argument("folder", type=pathlib.Path)
    parser.add_argument("job")
    parser.add_argument("--utf8", action="store_true")
    parser.add_argument("--original", action="store_true")
    for name in ("min-crossrefs", "budget", "line", "entry-max", "global-max"):
        parser.add_argument("--" + name, type=int, default=None)
    return parser.parse_args(words)


def options_of(given):
    """The options that are given, and for the others their defaults, or the original's."""
    sizes = original.SIZES if given["original"] else {}
    return Options(**{**sizes, **{field: given[field] for field in Options._fields if given[field] is not None}})


def files_of(folder):
    return {path.name.encode(): path.read_bytes() for path in folder.iterdir() if path.is_file()}


def main(words):
    given = vars(arguments(words))
    rules = original.RULES if given["original"] else None
    product = run(files_of(given["folder"]), given["job"].encode(), options_of(given), rules)
    for title, text in (("list", product.list), ("log", product.log)):
        sys.stdout.buffer.write(b"-- %s\n%s" % (title.encode(), text))
    sys.stdout.flush()
    print("-- report\n%s" % (product.report,))


if __name__ == "__main__":
    main(sys.argv[1:])
