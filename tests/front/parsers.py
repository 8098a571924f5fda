"""The expressions by which editors and tools find messages in the log of the original, each with what it must find.

    python3 parsers.py [--printed] FOLDER..

The folders are named after jobs, and each holds job.blg and `printed`, what the run printed. With --printed all is looked for in that: so problem matchers and
LaTeX Workshop find it. shapes.bash writes the jobs. The expressions are those of the programs, from memory, written as Python has them: an error format of Vim and
a regular expression of Emacs are translated. Where a message has other words in the original, a row has both. A row of a job without a
folder is left out. What isn't found is printed; the exit status is 0 only where everything is.
"""

import re
import sys

LINE = r"---line (\d+) of file (.*)"
SKIPPED = r"\n([^]+?)\nI'm skipping whatever remains of this ".replace("[^]", r"[\s\S]")
NO_EQUALS = ("I was expecting an =", 'I was expecting an "="')

# Tool and kind of message, expression, job, the groups of one find that must be among them (both wordings of a text where they differ).
ROWS = [
    ("LaTeX Workshop, warning with a line", r"^Warning--(.+)\n--line (\d+) of file (.+)$", "dirty", ('string name "zz" is undefined', "1", "d.bib")),
    ("LaTeX Workshop, warning of an entry", r"^Warning--(.+) in ([^\s]+)\s*$", "dirty", ("empty title", "bare")),
    ("LaTeX Workshop, database error", "^(.*)" + LINE + SKIPPED + "entry$", "dirty", (NO_EQUALS, "3", "d.bib")),
    ("LaTeX Workshop, repeated entry", "^(.*)" + LINE + SKIPPED + "entry$", "dirty", ("Repeated entry", "4", "d.bib")),
    ("LaTeX Workshop, cross-reference", r"""^(A bad cross reference---entry ".+?"\nrefers to entry.+?, which doesn't exist)$""", "dirty",
        ('A bad cross reference---entry "two"\nrefers to entry "p", which doesn\'t exist',)),
    ("LaTeX Workshop, command", r"^(.*)\n?" + LINE + SKIPPED + "command$", "commands", ("I couldn't open style file t.bst", "7", "job.aux")),
    ("LaTeX Workshop, .aux file", r"^(.*)---while reading file (.*)$", "empty", ("I found no \\citation commands", "job.aux")),
    ("Overleaf, warning with a line", r"^Warning--(.+)\n--line (\d+) of file (.+)$", "dirty", ("entry type for \"two\" isn't style-file defined", "5", "d.bib")),
    ("Overleaf, warning", r"^Warning--(.+)$", "dirty", ('I didn\'t find a database entry for "nosuch"',)),
    ("Overleaf, database error", "^(.*)" + LINE + SKIPPED + "entry$", "dirty", (NO_EQUALS, "3", "d.bib")),
    ("Overleaf, cross-reference", r"""^(A bad cross reference---entry ".+?"\nrefers to entry.+?, which doesn't exist)$""", "dirty",
        ('A bad cross reference---entry "two"\nrefers to entry "p", which doesn\'t exist',)),
    ("Overleaf, command", r"^(.*)\n" + LINE + SKIPPED + "command$", "commands", ("I couldn't open auxiliary file nosuch.aux", "4", "job.aux")),
    ("Overleaf, style", r"^(.*?)\nwhile executing---line (\d+) of file (.*)", "dirty",
        (("You can't pop an empty literal stack (pop$)", "You can't pop an empty literal stack"), "6", "s.bst")),
    ("VimTeX, error", r"^(.*)---line (\d+) of file (.+)$", "dirty", ("Repeated entry", "4", "d.bib")),
    ("VimTeX, style", r"^(.*)---line (\d+) of file (.+)$", "style",
        (("I was expecting a }", '"}" is missing in command: function'), "5", "s.bst")),
    ("VimTeX, .aux file", r"^(I found .*)---while reading file (.+)$", "empty", ("I found no \\citation commands", "job.aux")),
    ("VimTeX, empty field", r"^Warning--empty (.*) in (.*)$", "dirty", ("title", "bare")),
    ("VimTeX, entry type", r"^Warning--entry type for(.*)\n--line (\d+) of file (.+)$", "dirty", (" \"two\" isn't style-file defined", "5", "d.bib")),
    ("rubber", r"---(line (?P<line>[0-9]+) of|while reading) file (?P<file>.*)", "dirty", ("line 3 of", "3", "d.bib")),
    ("rubber, .aux file", r"---(line (?P<line>[0-9]+) of|while reading) file (?P<file>.*)", "empty", ("while reading", None, "job.aux")),
    ("AUCTeX", r"^\(There (?:was|were) ([0-9]+) (warnings?|error messages?)\)", "dirty printed", (("4", "5"), "error messages")),
    ("LyX, error", r"^(.*---line [0-9]+ of file).*$", "dirty", ("Repeated entry---line 4 of file",)),
    ("LyX, .aux file", r"^(.*---while reading file).*$", "empty", ("I found no \\citation commands---while reading file",)),
    ("LyX, cross-reference", r"(A bad cross reference---).*", "dirty", ("A bad cross reference---",)),
    ("LyX, limit", r"(Sorry---you've exceeded BibTeX's).*", "limit", ("Sorry---you've exceeded BibTeX's",)),
    ("latexmk, warning", r"^(Warning--)", "dirty", ("Warning--",)),
    ("latexmk, .aux file that isn't there", r"^I couldn't open auxiliary file (.*\.aux)", "commands", ("nosuch.aux",)),
    ("latexmk, no citations", r"^(I found no \\citation commands)---while reading file", "empty", ("I found no \\citation commands",)),
    ("latexmk, errors", r"There (were|was) (\d+) error message", "empty", ("was", "1")),
]


def is_wanted(found, wanted):
    """The groups of a find are these; of a text there may be two wordings."""
    found = found[: len(wanted)]
    return len(found) == len(wanted) and all(
        a == b or (isinstance(b, tuple) and a in b) for a, b in zip(found, wanted))


def complaints(folders, log):
    for name, expression, job, wanted in ROWS:
        folder, _, printed = job.partition(" ")
        if folder not in folders:
            continue
        text = open(f"{folder}/{printed or log}", errors="replace").read()
        finds = [match.groups() for match in re.finditer(expression, text, re.MULTILINE)]
        if not any(is_wanted(found, wanted) for found in finds):
            yield f"{name}: {wanted} isn't found in {job}, but {finds}"


def main():
    of_printed = sys.argv[1] == "--printed"
    missing = list(complaints(sys.argv[2 if of_printed else 1:], "printed" if of_printed else "job.blg"))
    print("\n".join(missing))
    return 1 if missing else 0


if __name__ == "__main__":
    sys.exit(main())
