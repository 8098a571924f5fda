"""What a name of a style stands for, and the tokens of bodies."""

from typing import NamedTuple

# ---- what a name stands for ----


class Function(NamedTuple):
    """A function of the style, by its number; `name` is empty for a nameless one."""
    number: int
    name: bytes


class BuiltIn(NamedTuple):
    name: bytes


class Field(NamedTuple):
    name: bytes


class Variable(NamedTuple):
    name: bytes
    of_entry: bool
    is_string: bool


CROSSREF = Field(b"crossref")
SORT_KEY = Variable(b"sort.key$", True, True)
ENTRY_MAX = Variable(b"entry.max$", False, False)
GLOBAL_MAX = Variable(b"global.max$", False, False)


# ---- tokens ----


class String(NamedTuple):
    text: bytes


class Integer(NamedTuple):
    value: int


class Quoted(NamedTuple):
    meaning: object


class Executed(NamedTuple):
    meaning: object
