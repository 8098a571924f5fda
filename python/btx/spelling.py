"""Names that may be meant by one that isn't known."""

from __future__ import annotations

import difflib
from typing import Iterable, List, Optional

__all__ = ["distance", "nearest"]

# How many letters a name has at most that is compared, and how many names are compared letter by letter.
MOST_LETTERS = 64
MOST_COMPARED = 20


def nearest(word: str, names: Iterable[str]) -> Optional[str]:
    """The other name that differs least from a word, whose case doesn't matter: in a letter, or in two where the longer one has six. None where there is no such name."""
    wanted = word.lower()
    others = {name for name in names if 2 < max(len(name), len(wanted)) <= MOST_LETTERS and name.lower() != wanted}
    # (of words that differ in so few letters at least six in ten are in common)
    near = difflib.get_close_matches(wanted, sorted(others), MOST_COMPARED, 0.6)
    rows = sorted((distance(wanted, name.lower()), name) for name in near)
    return next((name for differing, name in rows if differing <= (1 if max(len(name), len(wanted)) < 6 else 2)), None)


def distance(left: str, right: str) -> int:
    """How many letters are to be put in, taken out, exchanged for others, or exchanged with the next one to make one word another."""
    above: List[int] = []
    row = list(range(len(right) + 1))
    for index, letter in enumerate(left):
        below = [index + 1]
        for at, other in enumerate(right):
            least = min(row[at] + (letter != other), row[at + 1] + 1, below[at] + 1)
            if index > 0 and at > 0 and left[index - 1] == other and right[at - 1] == letter:
                least = min(least, above[at - 1] + 1)
            below.append(least)
        above, row = row, below
    return row[len(right)]
