"""Letters whose accent is a character of its own that stands after them: `o` and U+030B, where one character is the letter with its accent."""

from __future__ import annotations

import re
import unicodedata
from typing import Iterator, NamedTuple, Optional

__all__ = ["Accented", "accents_in", "has_accents"]

# A character, and after it combining accents (U+0300 to U+036F).
COMBINED = re.compile(rb"((?:[\x21-\x7e]|[\xc3-\xcb\xce-\xdf][\x80-\xbf]|\xcd[\xb0-\xbf]|[\xe0-\xef][\x80-\xbf]{2}|[\xf0-\xf4][\x80-\xbf]{3}))((?:\xcc[\x80-\xbf]|\xcd[\x80-\xaf])+)")
# What TeX calls them.
OF_TEX = dict(zip("\u0300\u0301\u0302\u0303\u0304\u0306\u0307\u0308\u030a\u030b\u030c\u0323\u0327\u0328\u0331", "`'^~=u.\"rHvdckb"))


class Accented(NamedTuple):
    """A letter with accents, from `start` to `end`. whole: it as one character; None where there is none. command: its command of TeX; None where it isn't a letter of ASCII, or an accent isn't known."""

    start: int
    end: int
    letter: str
    accents: str
    whole: Optional[str]
    command: Optional[str]

    @property
    def said(self) -> str:
        """What they are, and what to write."""
        names = " and ".join(f"U+{ord(accent):04X}" for accent in self.accents)
        what = "a combining accent" if len(self.accents) == 1 else "combining accents"
        ways = ([] if self.whole is None else [f"`{self.whole}` (U+{ord(self.whole):04X}), one letter,"]) + ([] if self.command is None else [f"`{self.command}`"])
        return f"`{self.letter}` and after it {names}, {what}: write {' or '.join(ways).rstrip(',')}"


def has_accents(text: bytes, start: int, end: int) -> bool:
    """Whether there may be combining accents."""
    return text.find(b"\xcc", start, end) >= 0 or text.find(b"\xcd", start, end) >= 0


def accents_in(text: bytes, start: int, end: int) -> Iterator[Accented]:
    """The letters with combining accents for which something else can be written."""
    for found in COMBINED.finditer(text, start, end):
        letter, accents = found[1].decode("utf8", "replace"), found[2].decode("utf8", "replace")
        composed = unicodedata.normalize("NFC", letter + accents)
        whole = composed if len(composed) == 1 else None
        command = command_of(letter, accents)
        if whole is not None or command is not None:
            yield Accented(*found.span(), letter, accents, whole, command)


def command_of(letter: str, accents: str) -> Optional[str]:
    """TeX's command for a letter of ASCII with these accents."""
    if not (letter.isascii() and letter.isalpha()) or any(accent not in OF_TEX for accent in accents):
        return None
    written = f"\\{letter}" if letter in "ij" and not set("\u0323\u0327\u0328\u0331").issuperset(accents) else letter
    for accent in accents:
        written = f"{{\\{OF_TEX[accent]}{written if written.startswith(('{', chr(92))) and not OF_TEX[accent].isalpha() else '{' + written + '}'}}}"
    return written
