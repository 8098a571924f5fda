"""`option_map_or (λ x. a) o d` as cases: `case o of`, and below it `Some x → a` and `None → d`. A definition is printed so where that is the outermost expression of an equation, or of
what such a case gives; within parentheses it stays as it is."""

import re
from typing import NamedTuple

WORD = "option_map_or "
HEAD = re.compile(r"option_map_or \(λ ")
BINDER = re.compile(r"(?:\((\w+) : [^()]*(?:\([^()]*\)[^()]*)*\)|(\w+))\. ")
# A function on the spot with its argument's type.
TYPED = re.compile(r"\(λ \((\w+) : [^()]*(?:\([^()]*\)[^()]*)*\)\.")
# The head of a case whose expression stands below it.
OPEN = re.compile(r"\s*(?:Some \w+|None) →$")
# What may stand before the outermost expression.
BEFORE = re.compile(r"(?:let .*? in )*")
ATOM = re.compile(r'\[\]|"(?:[^"\\]|\\.)*"|[\w.\'◌]+')


class Cases(NamedTuple):
    """An expression by cases: the name that is bound, what is given with it, the value that may be missing, and what is given without it."""
    name: str
    given: str
    value: str
    default: str


def closed(text, at):
    """The place after the parenthesis that closes the one at a place; None where none does."""
    depth, is_text = 0, False
    for place in range(at, len(text)):
        sign = text[place]
        is_text ^= sign == '"' and text[place - 1] != "\\"
        depth += 0 if is_text else {"(": 1, ")": -1}.get(sign, 0)
        if depth == 0:
            return place + 1
    return None


def atom(text, at):
    """The place after the argument at a place; None where there is none."""
    if text[at:at + 1] == "(":
        return closed(text, at)
    found = ATOM.match(text, at)
    return found.end() if found else None


def bare(text):
    """An argument without its parentheses."""
    return text[1:-1] if text.startswith("(") and closed(text, 0) == len(text) and "," not in text else text


def read(text):
    """The cases that a whole expression is, or None."""
    first = closed(text, len(WORD)) if HEAD.match(text) else None
    second = first and text[first:first + 1] == " " and atom(text, first + 1)
    third = second and text[second:second + 1] == " " and atom(text, second + 1)
    if third != len(text):
        return None
    function = text[len(WORD) + 1:first - 1].removeprefix("λ ")
    binder = BINDER.match(function)
    return binder and Cases(binder[1] or binder[2], function[binder.end():], bare(text[first + 1:second]), bare(text[second + 1:third]))


def lines(text, pad, broken):
    """The lines of an expression, with its cases below each other; `broken` breaks what is no case. None where it has no cases."""
    found = read(text)
    if not found:
        return None
    made = [f"{pad}case {found.value} of"]
    for head, given in ((f"Some {found.name} → ", found.given), ("None → ", found.default)):
        line, deeper = f"{pad}    {head}{given}", pad + "        "
        inner = lines(given, deeper, broken)
        if not inner and broken(line, "") == [line]:
            made.append(line)
        else:
            made += [f"{pad}    {head.rstrip()}", *(inner or broken(deeper + given, deeper))]
    return made


def equation(text, broken):
    """The lines of an equation whose right side has cases outermost, if it has."""
    head, sign, right = text.partition(" = ")
    before = BEFORE.match(right)[0]
    below = lines(right[len(before):], "    ", broken) if sign else None
    if not below:
        return None
    return [f"{head} ="] + (broken("    " + before.rstrip(), "    ") if before else []) + below
