#!/usr/bin/env python3
"""Compares the library's lists with the original's over papers made from what TeX Live ships, and finds for each difference the row of docs/DIFFERENCES.md that is its cause.

    tests/corpus/check.py [LIBRARY] [--papers N] [--seed N] [--latex] [--keep FOLDER]

LIBRARY is a libbtx.so.1, library/out/libbtx.so.1 if none is named. The papers are those of make_papers.py. Where the lists of a paper differ, its style is changed so that one cause after
another can't be met (causes.py), and both programs write their lists once more: the change behind which they are equal names the row. A difference that no row explains is a failure.

Its last line is 'N passed, M failed', of papers and of rows. Without TeX Live no paper is made, and a line says so."""

import argparse
import json
import os
import pathlib
import re
import shutil
import subprocess
import sys
import tempfile
from collections import Counter

import causes
import make_papers

ROOT = pathlib.Path(__file__).resolve().parents[2]
# The original keeps as many bytes of a sort key, so that none is cut after its entry's key; so does the library, which asks TeX for the same number.
ROOM_FOR_KEYS = {"ent_str_size": "5000"}
# What `compare` says of the lists that a row makes differ.
SAID = {
    causes.CHANGES[0][0]: {"the order of the items", "the text of some items", "an error of the style was logged"},
    causes.CHANGES[1][0]: {"an error of the style was logged", "the order of the items"},
    causes.CHANGES[2][0]: {"an error of the style was logged"},
    causes.CHANGES[3][0]: {"an error of the style was logged", "the order of the items"},
    causes.TIES: {"the text of some items", "an error of the style was logged"},
}
# Entries for which a style makes lists differ, and the row that explains it: a book without author and editor, an empty stack; two names with braces, a tie.
ENTRIES = (
    (("rsc", "archaeologie-bibcorpora", ("AE",)), causes.CHANGES[1][0]),
    (("angew", "archaeologie-bibcorpora", ("CIL",)), causes.CHANGES[1][0]),
    (("ksfh_nat", "IEEEexample", ("IEEEexample:miscgermanreg", "IEEEexample:datasheet")), causes.TIES),
    (("opcit", "xampl", ("article-full", "book-full")), causes.CHANGES[2][0]),
)


def arguments():
    parser = argparse.ArgumentParser()
    parser.add_argument("library", type=pathlib.Path, nargs="?", default=ROOT / "library/out/libbtx.so.1")
    parser.add_argument("--papers", type=int, default=1000, help="papers beside those of the shipped documents (1000)")
    parser.add_argument("--seed", type=int, default=1)
    parser.add_argument("--latex", action="store_true", help="run pdflatex over the shipped documents")
    parser.add_argument("--keep", type=pathlib.Path, metavar="FOLDER", help="make the papers there, and leave them")
    return parser.parse_args()


class Outcome:
    """What was checked so far."""

    def __init__(self):
        self.passed = 0
        self.failed = 0

    def count(self, holds, what):
        self.passed += bool(holds)
        self.failed += not holds
        if not holds:
            print(f"FAILED: {what}")


def compared(folder, library, **environment):
    """What `btx compare --with bibtex` says of the papers of a folder, by their names."""
    words = [sys.executable, "-m", "btx", "compare", str(folder), "--with", "bibtex", "--json"]
    found = {**os.environ, "BTX_LIBRARY": str(library.resolve()), "PYTHONPATH": str(ROOT / "python"), **environment}
    done = subprocess.run(words, env=found, stdin=subprocess.DEVNULL, stdout=subprocess.PIPE, check=False)
    return {pathlib.Path(result["job"]).parent.name: result for result in json.loads(done.stdout)["results"]}


def changed_paper(paper, change, folder):
    """Writes a paper with a changed style into another folder."""
    aux = (paper / "paper.aux").read_bytes()
    style = re.search(rb"(?m)^\\bibstyle\{([^}]*)\}", aux)[1]
    path = style_path(style)
    copy = folder / paper.name
    copy.mkdir(parents=True)
    (copy / "paper.aux").write_bytes(aux.replace(b"\\bibstyle{%s}" % style, b"\\bibstyle{changed}"))
    (copy / "changed.bst").write_bytes(change(path.read_bytes()))
    (copy / "paper.bbl").touch()


def style_path(style):
    """Where the style of a paper is."""
    name = os.fsdecode(style) + ".bst"
    if os.path.isabs(name):
        return pathlib.Path(name)
    return pathlib.Path(subprocess.run(["kpsewhich", name], capture_output=True, text=True, check=True).stdout.strip())


def explained(papers, different, library):
    """The row that explains each of these papers, as far as one does."""
    found = {}
    for number, (row, change) in enumerate(causes.CHANGES):
        folder = papers / f"changed {number}"
        left = [name for name in different if name not in found]
        for name in left:
            changed_paper(papers / "made" / name, change, folder)
        results = compared(folder, library, **ROOM_FOR_KEYS) if left else {}
        found.update({name: row for name in left if results[name]["outcome"] == "equal"})
    for name in different:
        if name not in found and lists_differ_in_ties(papers / "made" / name, library):
            found[name] = causes.TIES
    return found


def lists_differ_in_ties(paper, library):
    """Whether a paper's lists differ in ties alone."""
    lists = []
    for words, environment in (([sys.executable, "-m", "btx", "--terse", "paper"], {"BTX_LIBRARY": str(library.resolve()), "PYTHONPATH": str(ROOT / "python")}), (["bibtex", "-terse", "paper"], {})):
        subprocess.run(words, cwd=paper, env={**os.environ, **environment}, stdin=subprocess.DEVNULL, stdout=subprocess.DEVNULL, check=False)
        lists.append((paper / "paper.bbl").read_bytes())
    return causes.is_a_tie(*lists)


def check_papers(papers, given, outcome):
    """Compares the lists of all papers, and prints how many each row explains."""
    made = (
        make_papers.made_of_documents(papers / "made", given.latex),
        make_papers.made_of_entries(papers / "made", [paper for paper, _ in ENTRIES]),
        make_papers.made_of_styles(papers / "made", given.papers, 30, given.seed),
    )
    outcome.count(sum(made) >= 100, f"only {sum(made)} papers are made")
    results = compared(papers / "made", given.library)
    different = sorted(name for name, result in results.items() if result["outcome"] == "different")
    rows = explained(papers, different, given.library)
    for name, result in results.items():
        said = f"{name}: {result['outcome']}: {result['reason']}: line {result['line']}: {result['here']!r} | {result['there']!r}"
        outcome.count(result["outcome"] == "equal" or name in rows, said)
    for (style, _, _), row in ENTRIES:
        name = f"entries-{style}"
        if name in results:
            outcome.count(rows.get(name) == row, f"{name}: {results[name]['outcome']}, {rows.get(name)}, and it is to be {row}")
    for name, row in rows.items():
        outcome.count(results[name]["reason"] in SAID[row], f"{name}: {results[name]['reason']}, and it is {row}")
    print(f"{sum(made)} papers, {made[0]} of them shipped documents; {len(results) - len(different)} equal; different:")
    for row, count in sorted(Counter(rows.values()).items()):
        reasons = Counter(results[name]["reason"] for name in rows if rows[name] == row)
        print(f"{count:>6}  {row} ({', '.join(f'{number} {reason}' for reason, number in sorted(reasons.items()))})")


def check_rows(outcome):
    """That each row stands in the document."""
    differences = " ".join((ROOT / "docs/DIFFERENCES.md").read_text(encoding="utf8").replace("**", "").split())
    for row in [*(row for row, _ in causes.CHANGES[:-1]), causes.TIES]:
        outcome.count(row in differences, f"docs/DIFFERENCES.md has no row {row!r}")


def check_changes(outcome):
    """That the changes of styles do what they say."""
    rows = [(b'a "b" c', b'a "b" c'), (b'a "b c', b"a "), (b'"a" "b', b'"a" '), (b'a % "b', b'a % "b'), (b'"%" "x', b'"%" '), (b"", b"")]
    for line, wanted in rows:
        outcome.count(causes.without_open_quotes(line) == wanted, f"open quotes: {line!r}")
    for style, changed in ((b"READ\nSORT\n", True), (b"{\n  sort.format\n}", False), (b"% SORT\n", False), (b"sort%\n", True)):
        outcome.count((causes.with_keys_apart(style) != style) == changed, f"keys apart: {style!r}")
    for style, changed in ((b"ITERATE {call.type$}", True), (b"  execute{ f }", True), (b"f iterate", False), (b"% REVERSE {f}", False)):
        outcome.count((causes.with_literals_below(style) != style) == changed, f"literals below: {style!r}")
    for here, there, wanted in ((b"{TP} M", b"{TP}~M", True), (b"TP M", b"TP~M", False), (b"{TP} M", b"{TP}-M", False), (b"a", b"ab", False)):
        outcome.count(causes.is_a_tie(here, there) == wanted, f"ties: {here!r}")


def main():
    given = arguments()
    outcome = Outcome()
    check_rows(outcome)
    check_changes(outcome)
    if shutil.which("bibtex") is None or shutil.which("kpsewhich") is None or not make_papers.shipped(".bst"):
        print("left out: there is no TeX Live, so no paper is made (apt-get install texlive-binaries texlive-bibtex-extra)")
    elif given.keep is not None:
        check_papers(given.keep, given, outcome)
    else:
        with tempfile.TemporaryDirectory() as papers:
            check_papers(pathlib.Path(papers), given, outcome)
    print(f"{outcome.passed} passed, {outcome.failed} failed")
    return outcome.failed > 0


if __name__ == "__main__":
    raise SystemExit(main())
