"""The original's own rules for names: how a name is divided where its braces or commas are faulty, and how it is written in a format.

What one call leaves behind for the next is in a `NameFormatter`: the level of braces, and the bytes between tokens of earlier names."""

from typing import NamedTuple

from original_texts import CLOSE, OPEN, level_after
from texts import FOREIGN, front, group_end, is_alpha, is_letter, is_separator, is_white, lowered

COMMA, TIE, BACKSLASH = 44, 126, 92
LOWER_FOREIGN = (b"i", b"j", b"o", b"oe", b"ae", b"aa", b"l", b"ss")
# As many characters before it make a tie a space.
ENOUGH = 3


class Range(NamedTuple):
    """The tokens of a part: from `start` up to, and without, `end`. A part is empty only where both are equal."""
    start: int
    end: int


# ---- is a token von ----


def is_von(token):
    """As in `names.py`, but a special character needs two bytes after its backslash."""
    place = 0
    while place < len(token):
        byte = token[place]
        if is_letter(byte):
            return byte >= 97
        if byte != OPEN:
            place += 1
        elif place + 3 < len(token) and token[place + 1] == BACKSLASH:
            return special_is_lower(token, place)
        else:
            place = group_end(token, place)
    return False


def special_is_lower(token, place):
    """Whether a special character is lower case: by its control sequence, or by the first letter after it, before its `}`."""
    start = place + 2
    end = front(token, start, is_alpha)
    if token[start:end] in FOREIGN:
        return token[start:end] in LOWER_FOREIGN
    level = 1
    while end < len(token) and level > 0:
        if is_letter(token[end]):
            return token[end] >= 97
        level += (token[end] == OPEN) - (token[end] == CLOSE)
        end += 1
    return False


# ---- which tokens are which part ----


def parts(tokens, commas, separators):
    """First, von, Last and Jr by their letters, as ranges of tokens."""
    if not commas:
        return parts_without_comma(tokens, separators)
    last_end, jr_end = commas[0], commas[-1]
    von_end = end_of_von(tokens, 0, last_end)
    return {"v": Range(0, von_end), "l": Range(von_end, last_end), "j": Range(last_end, jr_end), "f": Range(jr_end, len(tokens))}


def end_of_von(tokens, start, end):
    """The end of the last von token that isn't the last token. A name that begins with a comma has none, and gets -1: its von and Last are then no empty ranges,
    so pieces of them are written, without tokens."""
    found = end - 1
    while found > start and not is_von(tokens[found - 1]):
        found -= 1
    return found


def parts_without_comma(tokens, separators):
    count = len(tokens)
    vons = [number for number in range(count - 1) if is_von(tokens[number])]
    if vons:
        von_end = end_of_von(tokens, vons[0], count)
        return {"f": Range(0, vons[0]), "v": Range(vons[0], von_end), "l": Range(von_end, count), "j": Range(count, count)}
    start = max(count - 1, 0)
    while start > 0 and separators.get(start, 0) == 45:
        start -= 1
    return {"f": Range(0, start), "v": Range(start, start), "l": Range(start, count), "j": Range(count, count)}


# ---- pieces of a format ----


class Piece(NamedTuple):
    """A group of a format. `letter` is empty where it has none."""
    inside: bytes
    letter: str
    is_double: bool
    is_legal: bool


def read_piece(inside):
    """A group is illegal if it has a letter at its own level that names no part, or a second letter. Only that group isn't written then: the others
    are."""
    letter, is_double, is_legal, place, level = "", False, True, 0, 0
    while place < len(inside):
        byte = inside[place]
        place += 1
        if level == 0 and is_alpha(byte):
            same = lowered(inside[place:place + 1]) == lowered(bytes([byte]))
            is_first = not letter and chr(byte).lower() in "fvlj"
            is_legal = is_legal and is_first
            letter, is_double = letter or chr(byte).lower(), is_double or (is_first and same)
            place += is_first and same
        level = level_after(level, byte)
    return Piece(inside, letter, is_double, is_legal)


class NameFormatter:
    """Formats names. `level` is that of braces, and `separators` the byte before each token: both are only set where a rule sets them, so that they may be left
    from an earlier name."""

    def __init__(self):
        self.level = 0
        self.separators = {}

    # ---- the name ----

    def end_of_name(self, text, place):
        """Where the name that begins at `place` ends: after the next `and` at depth 0 between whitespace, or at the end."""
        self.level, after_white = 0, False
        while place < len(text):
            byte = text[place]
            is_and = self.level == 0 and after_white and lowered(text[place:place + 3]) == b"and"
            if is_and and place + 3 < len(text) and is_white(text[place + 3]):
                return place + 3
            after_white = self.level == 0 and is_white(byte)
            self.level, place = level_after(self.level, byte), place + 1
        return place

    def isolated(self, text, number):
        """The name of this number; the last one where there are fewer; and below 1, and of the empty text, an empty name."""
        start = end = count = 0
        while count < number and end < len(text):
            count, start = count + 1, end
            end = self.end_of_name(text, end)
        return text[start:end - 4 if end < len(text) else end] if count else b""

    def tokens_of(self, name):
        """The tokens of a name, and before how many of them each of its first two commas is. A `}` too many is dropped, and begins a token."""
        name = without_end(name)
        tokens, commas, place, starting = [], [], 0, True
        while place < len(name):
            byte, end = name[place], place + 1
            if byte == COMMA or is_white(byte) or is_separator(byte):
                self.separate(byte, tokens, commas, starting)
                starting, place = True, end
                continue
            if starting:
                tokens.append(b"")
            if byte == OPEN:
                end = self.end_of_group(name, place)
            tokens[-1] += name[place:end] if byte != CLOSE else b""
            starting, place = False, end
        return tokens, commas

    def separate(self, byte, tokens, commas, starting):
        """Notes what is before the next token. Commas after the second note nothing, so the token keeps what is left there."""
        if byte == COMMA:
            if len(commas) < 2:
                commas.append(len(tokens))
                self.separators[len(tokens)] = byte
        elif not starting:
            self.separators[len(tokens)] = 32 if is_white(byte) else byte

    def end_of_group(self, name, place):
        """The end of a group: where the level is 0 again. It begins at the level that the search for the name's end has left."""
        self.level += 1
        end = place + 1
        while end < len(name) and self.level > 0:
            self.level += (name[end] == OPEN) - (name[end] == CLOSE)
            end += 1
        return end

    # ---- the format ----

    def format(self, text, number, format_text):
        """The name of this number as the format writes it."""
        tokens, commas = self.tokens_of(self.isolated(text, number))
        self.tokens, self.parts = tokens, parts(tokens, commas, self.separators)
        self.done, place = b"", 0
        while place < len(format_text):
            end = place + 1
            if format_text[place] == OPEN:
                end = group_end(format_text, place)
                self.write_group(format_text[place:end])
            elif format_text[place] != CLOSE:
                self.done += format_text[place:end]
            place = end
        return self.done

    def write_group(self, group):
        """Writes a group of the format; one that isn't closed writes nothing."""
        is_closed = group.count(b"{") == group.count(b"}")
        piece = read_piece(group[1:-1]) if is_closed else None
        if piece and piece.is_legal and not (piece.letter and self.parts[piece.letter].start == self.parts[piece.letter].end):
            self.write_piece(piece)

    def write_piece(self, piece):
        self.start = len(self.done)
        place = level = 0
        while place < len(piece.inside):
            byte = piece.inside[place]
            place += 1
            if level == 0 and is_alpha(byte):
                place = self.write_part(piece, place + piece.is_double)
            else:
                level = level_after(level, byte)
                self.done += bytes([byte])
        self.end_piece()

    def write_part(self, piece, place):
        """Writes the tokens of the piece's part, and gives where the piece goes on: after the group that follows the letter, which stands between tokens."""
        between = None
        if piece.inside[place:place + 1] == b"{":
            end = group_end(piece.inside, place)
            between, place = piece.inside[place + 1:end - 1], end
        start, end = self.parts[piece.letter]
        for number in range(start, end):
            token = self.tokens[number] if number >= 0 else b""
            self.done += token if piece.is_double else abbreviation(token)
            if number + 1 < end:
                self.done += self.join(piece, number + 1, end) if between is None else between
        return place

    def join(self, piece, number, end):
        """What is written before a token where the piece doesn't say it."""
        period, separator = b"" if piece.is_double else b".", self.separators.get(number, 0)
        if is_separator(separator):
            return period + bytes([separator])
        self.done += period
        joined = b"~" if number == end - 1 or not self.has_enough() else b" "
        self.done = self.done[:len(self.done) - len(period)]
        return period + joined

    def end_piece(self):
        """A tie at the end of all that is written so far: of two one goes; a single one is a space where enough of the piece stands before it."""
        if not self.done.endswith(b"~"):
            return
        self.done = self.done[:-1]
        if not self.done.endswith(b"~"):
            self.done += b" " if self.has_enough() else b"~"

    def has_enough(self):
        """Whether the piece's text so far has three characters. Each byte is one, also a brace, but for a special character, which is one as a whole. The search ends
        with the third, and the level of braces there is kept for the next one."""
        text, place, count = self.done[self.start:], 0, 0
        while place < len(text) and count < ENOUGH:
            byte = text[place]
            self.level += (byte == OPEN) - (byte == CLOSE)
            place += 1
            if byte == OPEN and self.level == 1 and text[place:place + 1] == b"\\":
                place = self.pass_special(text, place + 1)
            count += 1
        return count >= ENOUGH

    def pass_special(self, text, place):
        """The end of the special character, which is where the level is 0."""
        while place < len(text) and self.level > 0:
            self.level += (text[place] == OPEN) - (text[place] == CLOSE)
            place += 1
        return place


def without_end(name):
    """The name without the whitespace, separators and commas at its end."""
    end = len(name)
    while end > 0 and (is_white(name[end - 1]) or is_separator(name[end - 1]) or name[end - 1] == COMMA):
        end -= 1
    return name[:end]


def abbreviation(token):
    """The first letter of a token, or the special character that comes before it."""
    for place, byte in enumerate(token):
        if is_alpha(byte):
            return token[place:place + 1]
        if token[place:place + 2] == b"{\\":
            return token[place:group_end(token, place)]
    return b""
