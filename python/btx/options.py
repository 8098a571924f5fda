"""What can be asked of a run."""

from __future__ import annotations

from dataclasses import dataclass, fields
from typing import Tuple

from .languages import LANGUAGES
from .refusals import LettersRefused, OptionRefused

__all__ = ["LETTERS", "Options", "TEX_LIVE"]

# The languages of which letters are sorted; `no` is none.
LETTERS: Tuple[str, ...] = ("no", *(name for name, _ in LANGUAGES))

# The least and the greatest value of each number.
RANGES = {
    "budget": (0, 2**64 - 1),
    "min_crossrefs": (0, 2**32 - 1),
    "line": (20, 1000),
    "entry_max": (1, 1_000_000),
    "global_max": (1, 1_000_000),
    "most_list": (1, 2**46),
    "most_log": (1, 2**46),
}


@dataclass(frozen=True)
class Options:
    """What can be asked of a run. The values that nothing is said of are the program's.

    budget: how many steps the style may take; a step is one token of a style that is executed. 0 to 2^64 - 1.
    min_crossrefs: how many entries have to name a parent that isn't cited, for it to be listed. 0 to 2^32 - 1.
    line: how many bytes a line of the list may have where it can be broken. 20 to 1,000.
    entry_max: how many bytes of a string an entry's variable keeps (`entry.max$`). 1 to 1,000,000.
    global_max: how many bytes of a string a global variable keeps (`global.max$`). 1 to 1,000,000.
    utf8: whether text is read as characters of UTF-8; otherwise each byte is a character.
    most_list, most_log: how many bytes the reference list and the log may have. A run that would write more raises OutputTooLong.
    letters: the language of which letters outside ASCII are sorted, abbreviated and put into the other case (`sv`; LETTERS has them all); `no` is none. Text is then read by letters.

    A number out of its range raises OptionRefused, and a language that isn't there LettersRefused. Source of the rules: docs/RULES.md, "The command" and "Letters of a language"."""

    budget: int = 1_000_000_000
    min_crossrefs: int = 2
    line: int = 79
    entry_max: int = 250
    global_max: int = 20_000
    utf8: bool = False
    most_list: int = 1 << 30
    most_log: int = 64 << 20
    letters: str = "no"

    def __post_init__(self) -> None:
        for field in fields(self):
            if field.name in ("utf8", "letters"):
                continue
            value = getattr(self, field.name)
            if isinstance(value, bool) or not isinstance(value, int):
                raise TypeError(f"the option {field.name} is a whole number, and not {value!r}")
            least, most = RANGES[field.name]
            if not least <= value <= most:
                raise OptionRefused(field.name, value, least, most)
        if not isinstance(self.utf8, bool):
            raise TypeError(f"the option utf8 is True or False, and not {self.utf8!r}")
        if not isinstance(self.letters, str):
            raise TypeError(f"the option letters is a text, and not {self.letters!r}")
        if self.letters not in LETTERS:
            raise LettersRefused(self.letters, LETTERS)


# What TeX Live's set-up says of variables: 500 and 200,000 bytes.
TEX_LIVE = Options(entry_max=500, global_max=200_000)
