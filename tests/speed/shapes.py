"""Jobs that are large in one way each. Their style executes nothing, so that reading is all they take; but for `paper` and for the last four, which format names.

    python3 shapes.py NAME SIZE FOLDER

writes such a job into FOLDER. All numbers in a text have the same length, so that ten times the size is ten times the bytes."""

import argparse
import pathlib
from typing import Callable, NamedTuple, Optional

from jobs import ARTICLE, READING, style_path
from make_job import STRINGS, Maker


class Shape(NamedTuple):
    """`make` gives the files of a job for a size; a size counts the `unit`. Where `most` is given, that is how many instructions the larger job may take, and its
    growth is no bar."""
    name: str
    unit: str
    sizes: tuple
    make: Callable
    most: Optional[int] = None

    def jobs(self):
        return [ShapedJob(self, size) for size in self.sizes]


class ShapedJob(NamedTuple):
    """`entries` is the size, whatever its unit is."""
    shape: Shape
    entries: int

    def write(self, folder, seed):
        """Nothing is left to chance, so the seed changes nothing."""
        for name, text in self.shape.make(self.entries).items():
            (folder / name).write_text(text)


SHAPES = {}


def shape(unit, *sizes, most=None):
    """Adds the function's shape, under its name."""
    def add(make):
        SHAPES[make.__name__] = Shape(make.__name__, unit, sizes, make, most)
        return make
    return add


# ---- databases ----


def aux_file(keys, style):
    return "".join("\\citation{%s}\n" % key for key in keys) + "\\bibdata{works}\n\\bibstyle{%s}\n" % style


def database_job(database, keys):
    """Reads the database, and cites these keys from the last one to the first."""
    return {"job.aux": aux_file(reversed(keys), "reading"), "works.bib": database, "reading.bst": READING}


@shape("entries", 10_000, 100_000)
def entries(size):
    keys = ["work%06d" % number for number in range(size)]
    works = "".join("@article{%s, title = {On {%s}}, author = {Ann Lee}, year = 1984}\n" % (key, key) for key in keys)
    return database_job(works, keys)


@shape("entries", 10_300, 103_000, most=272_000_000)
def unwanted(size):
    """The database of `make_job.py`, of which one entry is cited. What isn't wanted is passed over."""
    keys, texts = zip(*Maker(1).entries(size))
    return database_job(STRINGS + "".join(texts), [keys[size // 2]])


@shape("entries", 300, 3_000, most=12_000_000)
def paper(size):
    """A normal paper: 30 citations of the database of `make_job.py`, in the style of `examples/article`."""
    keys, texts = zip(*Maker(1).entries(size))
    files = database_job(STRINGS + "".join(texts), [keys[number * size // 30] for number in range(30)])
    return {**files, "reading.bst": style_path(ARTICLE).read_text()}


# Fifty bytes.
WORDS = "The  {Works}\n  of {\\'E}mile and {{Bo}\tDunn}   \n   "


@shape("bytes", 90_000, 900_000)
def giant_value(size):
    """Seven tenths are words in braces, with whitespace between them; one is whitespace alone, one opens braces and one closes them."""
    part = size // 10
    value = WORDS * (7 * part // len(WORDS)) + " " * part + "{" * part + "}" * part
    return database_job("@article{work, title = {%s}}\n" % value, ["work"])


@shape("strings", 10_000, 100_000)
def strings(size):
    """Each is the one before it, with nothing behind; an entry uses the last."""
    joined = "".join("@string{s%06d = s%06d # {}}\n" % (number, number - 1) for number in range(1, size))
    return database_job("@string{s%06d = {Journal}}\n%s@article{work, journal = s%06d}\n" % (0, joined, size - 1), ["work"])


@shape("children", 10_000, 100_000)
def children(size):
    keys = ["child%06d" % number for number in range(size)]
    crowd = "".join("@inproceedings{%s, title = {On {%s}}, crossref = {parent}}\n" % (key, key) for key in keys)
    parent = "@proceedings{parent, title = {Parents}, booktitle = {Parents}, editor = {Ann Lee}, year = 1984}\n"
    return database_job(crowd + parent, keys + ["parent"])


@shape("parents", 1_000, 10_000)
def chain(size):
    """Each entry's parent is the next one. In the list a parent stands before its child, so what the last entry has comes down to all."""
    keys = ["link%06d" % number for number in range(size + 1)]
    links = "".join("@proceedings{%s, crossref = {%s}}\n" % pair for pair in zip(keys, keys[1:]))
    return database_job(links + "@proceedings{%s, title = {Parents}, year = 1984}\n" % keys[-1], keys)


START = Shape("start", "entry", (1,), entries)


# ---- styles ----


def style_job(style):
    """Reads the style, and a database of one entry."""
    return {"job.aux": aux_file(["work"], "large"), "works.bib": "@article{work, title = {Work}}\n", "large.bst": style}


@shape("bytes", 1_000_000, 10_000_000)
def open_braces(size):
    """A body that opens braces on one line and never closes them."""
    return style_job(READING + "FUNCTION {f} {" + "{" * size + "\n")


NAME, STRING = "unknown-name-%06d\n", '"string of %07d" '


def numbered(text, size):
    """The text again and again with a number in it, about `size` bytes in all."""
    return "".join(text % number for number in range(size // len(text % 0)))


@shape("bytes", 1_000_000, 10_000_000)
def unknown_names(size):
    """A body of names alone, one on each line; each has an error."""
    return style_job(READING + "FUNCTION {f} {\n" + numbered(NAME, size) + "}\n")


@shape("bytes", 1_000_000, 10_000_000)
def string_literals(size):
    """A body of strings alone, on one line."""
    return style_job(READING + "FUNCTION {f} {" + numbered(STRING, size) + "}\n")


# A hundred bytes.
TEN_TOKENS = """#1234567 'counter := counter #-7654321 > "text that is pushed and never seen" 'write$ 'newline$ if$ """


@shape("tokens", 100_000, 1_000_000)
def tokens(size):
    """One body of integers, strings, quoted names and executed ones, on one line."""
    return style_job(READING + "INTEGERS {counter}\nFUNCTION {f} {" + TEN_TOKENS * (size // 10) + "}\n")


# A hundred bytes.
FUNCTION = """FUNCTION {f%06d} {f%06d year empty$ {"a year isn't given" warning$} {year write$ newline$} if$}\n"""


@shape("functions", 10_000, 100_000)
def functions(size):
    """One on each line, each executes the one before it. They stand before READ, so that each is a type as well."""
    defined = "FUNCTION {f000000} {}\n" + "".join(FUNCTION % (number, number - 1) for number in range(1, size))
    return style_job(READING.replace("READ\n", defined + "READ\n"))


@shape("names", 50_000, 500_000)
def declared_names(size):
    """One command that declares names, each on a line, all of one length."""
    return style_job(READING + "INTEGERS {\n" + "".join("a.long.name.%06d\n" % number for number in range(size)) + "}\n")


# ---- names, which a style formats once: for these a style executes a function ----


def name_job(size, name, piece):
    """Formats a name of about as many bytes as the size, in a format of as many, which is made of one piece."""
    called = 'FUNCTION {f} {"%s" #1 "%s" format.name$ pop$}\nEXECUTE {f}\n' % (name, piece * (size // len(piece)))
    return style_job(READING + called)


@shape("bytes", 20_000, 200_000)
def name_without_letters(size):
    """Tokens without a letter, abbreviated with nothing between: no piece gives anything."""
    return name_job(size, "1 " + "2 " * (size // 2) + "C", "{f{}}")


@shape("bytes", 20_000, 200_000)
def name_with_white_between(size):
    """Two tokens with `size` bytes of whitespace between."""
    return name_job(size, "A" + " " * size + "B C", "{ff}")


@shape("bytes", 20_000, 200_000)
def name_whose_letter_comes_late(size):
    """A token whose letter is its last byte, abbreviated."""
    return name_job(size, "1" + "2" * size + "A C", "{f}")


@shape("authors", 400, 4_000, most=250_000_000)
def authors(size):
    """One entry with many authors, each of which is formatted once, in their order. For each the list is compared with the one that is kept."""
    names = " and ".join("First%05d von Last%05d" % (number, number) for number in range(size))
    loop = """INTEGERS {i last}
FUNCTION {f} {author num.names$ 'last := #0 'i := {i last <} {i #1 + 'i := author i "{ff~}{vv~}{ll}" format.name$ pop$} while$}
ITERATE {f}
"""
    files = database_job("@article{k, author = {%s}}\n" % names, ["k"])
    return {**files, "reading.bst": files["reading.bst"] + loop}


# ---- the command ----


def main():
    parser = argparse.ArgumentParser()
    parser.add_argument("name", choices=SHAPES)
    parser.add_argument("size", type=int)
    parser.add_argument("folder", type=pathlib.Path)
    arguments = parser.parse_args()
    ShapedJob(SHAPES[arguments.name], arguments.size).write(arguments.folder, 1)


if __name__ == "__main__":
    main()
