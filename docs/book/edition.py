"""The title page: which program of which version the book defines, how it is cited, and what is proved; and the names that changed since they were first cited (renamed.txt)."""

import functools
import pathlib
import re
import subprocess
from typing import NamedTuple

import definitions
import differences

TITLE = "BibTeX, proved: the book of definitions"
HERE = pathlib.Path(__file__).parent
ROOT = HERE.parents[1]
RENAMED = HERE / "renamed.txt"
# A heading of CHANGELOG: a version with its date, or what isn't released yet.
RELEASED, UNRELEASED = re.compile(r"(?m)^## (\d[\w.]*) \(([\d-]+)\)"), "## Not released yet"


def subtitle():
    """What the book defines, with a link to what it doesn't have of the original."""
    return f"BibTeX 0.99d but for [{len(differences.leads())} differences](#differences)"


@functools.lru_cache(maxsize=None)
def version():
    """The version, and where there is git the day and the name of the commit that the book is woven from."""
    changes = (ROOT / "CHANGELOG.md").read_text(encoding="utf-8")
    number, released = RELEASED.search(changes).groups()
    since = UNRELEASED in changes.partition(f"## {number}")[0]
    day, commit = from_git("log", "-1", "--format=%cs"), from_git("describe", "--always", "--abbrev=10", "--exclude=*", "--dirty= (changed since)")
    return f"{'after ' * since}version {number}, {f'{day}, commit {commit}' if commit else released}"


def from_git(*words):
    """What git says of this repository; nothing where there is none."""
    try:
        return subprocess.run(["git", "-C", ROOT, *words], capture_output=True, text=True, check=True, timeout=60).stdout.strip()
    except (OSError, subprocess.SubprocessError):
        return ""


def running_head():
    """What each page has on paper."""
    return f"{TITLE} · {version()}"


def filled(block):
    """A block of title.md with what this module knows."""
    year = re.search(r"\d{4}", version())[0]
    return block.replace("{title}", TITLE).replace("{edition}", version()).replace("{year}", year)


# ---- names that changed ----


NONE_RENAMED = "No name has changed yet."


class Renamed(NamedTuple):
    """A name that changed: as it was, and as it is."""
    old: str
    new: str


def renamed():
    """The rows of renamed.txt."""
    lines = [line.split() for line in RENAMED.read_text(encoding="utf-8").split("\n") if line.strip() and not line.startswith("//")]
    return [Renamed(*line) for line in lines]


def wrong_in_renamed():
    """What is wrong with the table of names that changed, as messages."""
    found = [it for module in definitions.all_modules() for it in module.definitions]
    known, rows = {name for it in found for name in (it.id, it.name)}, renamed()
    olds = [row.old for row in rows]
    yield from (f"renamed.txt: there is no definition `{row.new}`" for row in rows if row.new not in known and row.new not in olds)
    yield from (f"renamed.txt: `{row.old}` is there still" for row in rows if "." in row.old and row.old in known)
    yield from (f"renamed.txt: `{old}` stands there twice" for old in sorted({old for old in olds if olds.count(old) > 1}))


def targets(name, by_id):
    """The definitions of the book that have a name, with or without its module's."""
    return [by_id[name]] if name in by_id else [it for it in by_id.values() if it.name == name and it.kind != "rust"]
