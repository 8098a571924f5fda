"""Finds the files that a change touches, by something of its kind that is there already: the files that name it.

    python3 tests/documents/places.py          each kind of change, with how many files name its example
    python3 tests/documents/places.py KIND     those files, as `places.py 'an option'`

check.py sees that the recipes of docs/CONTRIBUTING.md for some of these kinds have all of their files of code and definitions."""

import functools
import os
import pathlib
import re
import sys

ROOT = pathlib.Path(__file__).resolve().parents[2]

# Of each kind of change: the example's name in the table, what a file has that names it, and where else the same text means something else.
KINDS = {
    "an option": ("--min-crossrefs", r"min(_|\\?-)crossrefs", ()),
    "an option of the front end": ("-strict", r"Choice::Strict|is_strict|(?<![\w-])-strict\b", ("web/", "python/")),
    "a default": ("the budget, 1,000,000,000", r"\b1_000_000_000\b|\b1000000000\b|1,000,000,000",
                  ("crates/btx_machine/", "tests/speed/")),
    "an exit status": ("4, the budget was spent", r"\bstatus_(of|at)\b|STATUSES|^Exit status|exit status|\bfn status\b|\| 4 \||[Ss]tatus 4|status = \(4|def status",
                       ("tests/documents/", "tests/speed/", "tests/wrong_bodies/", "docs/book/", "contrib/build", "tests/front/", "examples/check", ".ci/", "CHANGELOG.md")),
    "a message": ("is an unknown function", r"is an unknown function|\bUnknown\b",
                  ("crates/btx_command", "tests/reference/wrong_bodies.txt", "crates/btx_machine/", "crates/btx_step", "crates/btx_bib", "crates/btx_c/", "crates/btx_check/")),
    "a message of steps": ("isn't an ASCII code", r"isn't an ASCII code|\bNotAscii\b|\b(?:push_)?not_ascii\b|\bgives_character\b|\bcharacter_of\b", ()),
    "a message of databases": ("is used in its own definition", r"OwnString|own definition", ()),
    "a rule of databases": ("inheritance", r"[Ii]nherit(?!:)", ("web/", "docs/book/book.css", "docs/book/runs.js")),
    "a count": ("warnings", r"\bwarnings\b", ("crates/btx_step/specs/", "examples/", "CHANGELOG.md")),
    "a field of the report": ("deepest", r"\bdeepest\b", ("crates/btx_step/", "docs/book/chapters.py")),
    "a limit": ("4,096 open bodies", r"\b4096\b|4_096|4,096",
                ("crates/btx_command_tests/src/tests/directory.rt", "crates/btx_names/", "crates/btx_text/", "crates/btx_bst/", "docs/SERVICES.md", "library/")),
    "a function of the language": ("add.period$", r"AddPeriod|\badd_period|add\.period\$", ()),
    "a command of styles": ("REVERSE", r"\bREVERSE\b|\bReverse\b|\"reverse\"", ()),
    "a predefined name": ("sort.key$", r"sort\.key\$|\bsort_key|SORT_KEY", ()),
    "a kind of file": ("a style, .bst", r"\\bibstyle|\"\.bst\"|The style file|couldn't open style", ("CHANGELOG.md",)),
}
# What a file is, by its path: the first that fits.
SORTS = (("documents", re.compile(r"\.md$|\.[13]$|^docs/")), ("tests", re.compile(r"^tests/|^examples/|^library/tests/|^python/tests/|_tests/|/wrong-bodies/|/must-fail/|/checks/|/stdout$")),
         ("definitions", re.compile(r"/specs/")), ("proofs", re.compile(r"/proofs/")), ("code", re.compile(r"^crates/\w+/src/|^front/src/")), ("scripts", re.compile("")))
ORDER = ("code", "definitions", "proofs", "tests", "documents", "scripts")


@functools.cache
def texts():
    """The project's own files with their texts, but for this one, the table itself and the recipes."""
    found = {}
    for folder, inner, names in os.walk(ROOT):
        inner[:] = [name for name in inner if name not in (".git", "out", "target", "__pycache__")]
        for path in (pathlib.Path(folder) / name for name in names):
            name = str(path.relative_to(ROOT))
            if name not in ("tests/documents/places.py", "docs/ARCHITECTURE.md", "docs/CONTRIBUTING.md"):
                try:
                    found[name] = path.read_text(encoding="utf-8")
                except UnicodeDecodeError:
                    continue
    return found


@functools.cache
def files_of(kind):
    """The files that name a kind's example."""
    _, named, others = KINDS[kind]
    pattern = re.compile(named, re.M)
    return [name for name, text in texts().items() if not name.startswith(others) and pattern.search(text)]


def sort_of(name):
    return next(sort for sort, pattern in SORTS if pattern.search(name))


def counts_of(kind):
    """How many files of each sort name a kind's example."""
    sorts = [sort_of(name) for name in files_of(kind)]
    return {sort: sorts.count(sort) for sort in ORDER}


def main():
    if sys.argv[1:]:
        if sys.argv[1] not in KINDS:
            sys.exit(f"places.py: there is no kind {sys.argv[1]!r}, only {', '.join(KINDS)}")
        print("\n".join(sorted(files_of(sys.argv[1]), key=lambda name: (ORDER.index(sort_of(name)), name))))
        return
    for kind, (example, _, _) in KINDS.items():
        counts = counts_of(kind)
        print(f"{kind} ({example}): {sum(counts.values())}: {', '.join(f'{count} {sort}' for sort, count in counts.items() if count)}")


if __name__ == "__main__":
    main()
