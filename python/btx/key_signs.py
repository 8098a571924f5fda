"""Keys with signs that TeX reads otherwise, as `a~b` and `a\\_b`: what LaTeX writes of them into an `.aux` file, and what to do about them."""

from __future__ import annotations

import re
from typing import TYPE_CHECKING, Optional

if TYPE_CHECKING:
    from .known import Names

__all__ = ["SIGN_OF_TEX", "UNSEEN", "as_seen", "plain_key", "remedy_of_key", "remedy_of_line"]

# What TeX reads otherwise in the argument of `\cite`.
SIGN_OF_TEX = re.compile(rb"[~#%]|\\(?:[A-Za-z]+|.|\Z)", re.DOTALL)
# Characters that nobody sees: spaces without a width, marks of direction, soft hyphens.
UNSEEN = re.compile("[\xad\u200b-\u200f\u2060\ufeff]")
# What LaTeX writes for `~`, and for `\_` with each encoding of fonts.
NO_BREAK = re.compile(r"(?:\\protect )?\\(?:unhbox \\voidb@x (?:\\protect )?\\penalty \\@M \\ |nobreakspace )\{\}")
UNDERSCORE = re.compile(r"\\protect (?:\\global \\let \\\w+\\textunderscore [^}]*\})?\\\w+\\textunderscore ")
CITATION = re.compile(rb"\\citation\{(.*?)\}?\r?\n?\Z", re.DOTALL)
# What to do: the names are a key and a sign.
WRITE = "write `{}` in the `\\cite`, and run LaTeX: TeX reads the `{}` there as a command"
RENAME = "give the entry a key without the `{1}`, such as `{0}`, write that in the `\\cite`, and run LaTeX: TeX takes the sign for one of its own"
NO_SPACE = "write `{}` in the `\\cite` without the space before or after it, and run LaTeX"
WITHOUT_SPACE = "write the key without a space, such as `{}`, in the `\\cite` and in the database, and run LaTeX"
WITHOUT = "cite a key of letters and digits of ASCII: in this one TeX reads a command, as in `~`, in `\\_` and in a letter with an accent"


def as_cited(argument: str) -> Optional[str]:
    """The key that was cited, by what LaTeX has written of it; None where that isn't seen."""
    key = UNDERSCORE.sub(r"\\_", NO_BREAK.sub("~", argument))
    return None if re.search(r"\s|\\[A-Za-z@]", key) else key


def as_seen(key: str) -> str:
    """A key without characters that nobody sees."""
    return UNSEEN.sub("", key)


def plain_key(key: str) -> str:
    """A key without the signs that TeX reads otherwise."""
    return re.sub(r"[~#%]", "-", re.sub(r"\\([A-Za-z]+ ?)?", "", key))


def remedy_of_key(argument: str, keys: Names) -> Optional[str]:
    """What to do about a citation, by what an `.aux` file has of it; None where TeX reads nothing in it."""
    if "\\" not in argument and "~" not in argument and "#" not in argument:
        return None
    key = as_cited(argument.replace("##", "#"))
    found = None if key is None else SIGN_OF_TEX.search(key.encode("utf8", "surrogateescape"))
    if key is None or found is None:
        return WITHOUT if "\\" in argument else None
    sign, plain = found[0].decode("utf8", "replace"), plain_key(key)
    if keys.has(key):
        return RENAME.format(plain, sign)
    near = next((other for other in (plain, plain.replace("-", "_"), plain.replace("-", "")) if keys.has(other)), None) or keys.nearest(plain)
    return WITHOUT if near is None else WRITE.format(keys.by_lower[near.lower()], sign)


def remedy_of_line(line: bytes, keys: Names) -> Optional[str]:
    """What to do about a line of an `.aux` file whose citation can't be read: LaTeX has written a command into it."""
    found = CITATION.match(line)
    if found is None:
        return None
    argument = found[1].decode("utf8", "surrogateescape")
    of_tex = remedy_of_key(argument, keys)
    if of_tex is not None or argument.isspace() or not re.search(r"\s", argument):
        return of_tex
    key = argument.strip(" \t")
    return NO_SPACE.format(key) if keys.has(key) else WITHOUT_SPACE.format("".join(argument.split()))
