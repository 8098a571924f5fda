"""The original's own rules for strings: where BibTeX 0.99d gives another text than `texts.py`, or divides a file's lines otherwise.

Positions are positions of bytes. `docs/DIFFERENCES.md` names what each rule changes."""

import re

from texts import FOREIGN, FOREIGN_WIDTHS, WHITE, WIDTHS, front, is_alpha, is_digit, is_separator, is_white, lowered, raised

OPEN, CLOSE, BACKSLASH, COLON = 123, 125, 92, 58
# Ends what a variable of an entry keeps.
END_OF_STRING = b"\x7f"
LINE_END = re.compile(rb"[\r\n]")


def lines(text):
    """A carriage return ends a line as a line feed does, so each line that ends by both has an empty one after it."""
    pieces = LINE_END.split(text)
    if pieces[-1] == b"":
        pieces.pop()
    return [piece.rstrip(WHITE) for piece in pieces]


def wrapped_integer(value):
    """Integers have 32 bits, and go round."""
    return (value + 2**31) % 2**32 - 2**31


def level_after(level, byte):
    """The level of braces after a byte; one that is 0 stays."""
    return max(level + (byte == OPEN) - (byte == CLOSE), 0)


# ---- special characters, piece by piece ----

# A special character is read as runs. A run begins with a byte that is passed unseen (the backslash), then come letters, which name a control
# sequence or none, then all up to the next backslash, or up to the `}` that ends the special character. So a byte that is no letter, after a backslash,
# belongs to the run's rest.


def begins_special(text, place, level):
    """Whether the `{` at `place` begins a special character: it isn't in another brace, and a backslash follows."""
    return level == 0 and text[place + 1:place + 2] == b"\\"


def run_rest(text, place, level):
    """The end of a run's rest, and the level of braces there."""
    while place < len(text) and level > 0 and text[place] != BACKSLASH:
        level += (text[place] == OPEN) - (text[place] == CLOSE)
        place += 1
    return place, level


def special_runs(text, place):
    """The runs of the special character whose `{` is at `place`, as pairs of a control sequence's name and the rest; and where it ends."""
    runs, place, level = [], place + 1, 1
    while place < len(text) and level > 0:
        start = place + 1
        middle = front(text, start, is_alpha)
        place, level = run_rest(text, middle, level)
        runs.append((text[start:middle], text[middle:place]))
    return runs, place


def special_end(text, place):
    return special_runs(text, place)[1]


# ---- purify$ ----


def purify(text):
    """As in `texts.py`, but what is no letter after a backslash is kept if it is a digit."""
    done, place, level = b"", 0, 0
    while place < len(text):
        byte = text[place]
        if byte == OPEN and begins_special(text, place, level):
            runs, place = special_runs(text, place)
            done += b"".join(purified_name(name) + letters_and_digits(rest) for name, rest in runs)
            continue
        done += b" " if is_white(byte) or is_separator(byte) else letters_and_digits(text[place:place + 1])
        level, place = level_after(level, byte), place + 1
    return done


def purified_name(name):
    """Of a foreign letter's control sequence one letter stays, or two."""
    if name in (b"oe", b"OE", b"ae", b"AE", b"ss"):
        return name
    return name[:1] if name in FOREIGN else b""


def letters_and_digits(text):
    return bytes(byte for byte in text if is_alpha(byte) or is_digit(byte))


# ---- change.case$ ----


class CaseChanger:
    """Changes the case of texts. `after_colon` outlasts a text: one that ends in a colon at depth 0 counts for the whitespace at the front of the next one
    that is changed as a title."""

    def __init__(self):
        self.after_colon = False

    def change(self, text, conversion):
        """The changed text, and whether the conversion is one."""
        letter = lowered(conversion)
        letter = letter if letter in (b"t", b"l", b"u") else b""
        done, place, level = b"", 0, 0
        while place < len(text):
            end = place + 1
            if text[place] == OPEN and self.changes_special(text, place, level, letter):
                changed, end = self.special(text, place, letter)
                done += changed
            else:
                done += self.changed_byte(text, place, level, letter)
                level = level_after(level, text[place])
            self.note(text, place, level, letter)
            place = end
        return done, letter != b""

    def changes_special(self, text, place, level, letter):
        """Whether the `{` begins a special character whose case may change. One of fewer than four bytes at the text's end isn't looked at."""
        return begins_special(text, place, level) and place + 4 <= len(text) and not (letter == b"t" and self.is_kept(text, place))

    def is_kept(self, text, place):
        """Whether a title's byte keeps its case: it is the first, or whitespace stands before it, and before that a colon."""
        return place == 0 or (self.after_colon and is_white(text[place - 1]))

    def changed_byte(self, text, place, level, letter):
        byte = text[place:place + 1]
        if level > 0 or byte in (b"{", b"}") or not letter or (letter == b"t" and self.is_kept(text, place)):
            return byte
        return raised(byte) if letter == b"u" else lowered(byte)

    def note(self, text, place, level, letter):
        """Whether a colon, and then only whitespace, has come. A brace ends that for each conversion; other bytes count for titles, at depth 0."""
        byte = text[place]
        if byte in (OPEN, CLOSE):
            self.after_colon = False
        elif letter == b"t" and level == 0:
            self.after_colon = byte == COLON or (self.after_colon and is_white(byte))

    def special(self, text, place, letter):
        runs, end = special_runs(text, place)
        done = b"{"
        for name, rest in runs:
            done += changed_run(name, rest, letter)
        return done, end


def changed_run(name, rest, letter):
    """A run of a special character with its case changed: other control sequences than those of foreign letters stay as they are."""
    if not letter:
        return b"\\" + name + rest
    change = raised if letter == b"u" else lowered
    if letter == b"u" and name in (b"i", b"j", b"ss"):
        return raised(name) + change(rest.lstrip(WHITE))
    if name in ((b"o", b"oe", b"ae", b"aa", b"l") if letter == b"u" else (b"O", b"OE", b"AE", b"AA", b"L")):
        name = change(name)
    return b"\\" + name + change(rest)


# ---- width$ ----


def width(text):
    """As in `texts.py`, but a brace after a backslash belongs to no group."""
    total, place, level = 0, 0, 0
    while place < len(text):
        if text[place] == OPEN and begins_special(text, place, level):
            added, place = special_width(text, place)
            total += added
            continue
        total += WIDTHS.get(text[place], 0)
        level, place = level_after(level, text[place]), place + 1
    return total


def special_width(text, place):
    """The width of the special character whose `{` is at `place`, and where it ends."""
    total, place, level = 0, place + 1, 1
    while place < len(text) and level > 0:
        added, place = control_width(text, place + 1)
        total += added
        start = front(text, place, is_white)
        place, level = run_rest(text, start, level)
        total += sum(WIDTHS.get(byte, 0) for byte in text[start:place] if byte not in (OPEN, CLOSE))
    return total, place


def control_width(text, start):
    """The width of the control sequence whose name is at `start`, and its end: one that isn't of letters is any one byte."""
    end = front(text, start, is_alpha)
    if end == start:
        return 0, min(start + 1, len(text))
    name = text[start:end]
    return FOREIGN_WIDTHS.get(name, WIDTHS[name[0]] if name in FOREIGN else 0), end
