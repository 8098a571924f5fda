"""Links from the book's own texts to its definitions: `[[btx_bib.Listing.stays]]` stands for the definition's name with its number; and the tables of words and questions,
whose last column names definitions."""

import pathlib
import re

LINK = re.compile(r"\[\[([^\]\s]+)\]\]")
HERE = pathlib.Path(__file__).parent


def heading_id(title):
    """The anchor of a heading of the book's first chapter or its last."""
    return "read-" + re.sub(r"\W+", "-", title.lower()).strip("-")


def row_id(word):
    """The anchor of a row of words or of questions."""
    return "row-" + re.sub(r"\W+", "-", word.lower()).strip("-")[:40]


def key(name):
    """A definition's name as the book knows it."""
    return name.replace("::", ".")


def named_in(text):
    """The names of definitions in a text."""
    return [found[1] for found in LINK.finditer(text)]


def to(name, by_id, escape=False):
    """A link in Markdown to a definition: its name and its number; the name alone where the book hasn't got it."""
    it = by_id.get(key(name))
    if it is None:
        return f"`{name}`"
    shown = it.name.replace("_", "\\_") if escape else it.name
    return f"[{shown}](#{it.anchor.replace(chr(39), '_') if escape else it.anchor}) {it.number}"


def linked(text, by_id, escape=False):
    return LINK.sub(lambda found: to(found[1], by_id, escape), text)


class Row:
    """A row of a table: a word or a question, what is said of it, and definitions."""

    def __init__(self, line):
        self.word, self.meaning, names = line.split("\t")
        self.names = names.split("; ")


def groups(file):
    """The rows of terms.txt or questions.txt, below the titles that they have: pairs of a title, or nothing, and rows."""
    found = [(None, [])]
    for line in (HERE / file).read_text(encoding="utf-8").split("\n"):
        if line.startswith("# "):
            found.append((line[2:], []))
        elif line.strip() and not line.startswith("//"):
            found[-1][1].append(Row(line))
    return [(title, rows_) for title, rows_ in found if rows_]


def rows(file):
    """All rows of terms.txt or questions.txt."""
    return [row for _, rows_ in groups(file) for row in rows_]
