"""Lists of names, the parts of a name, and names in a format."""

from typing import NamedTuple

from texts import (FOREIGN, SPECIAL, BYTE, control_end, depths, elements, group_end, is_alpha, is_letter,
                   is_separator, is_white, lowered, sequence_length, text_length)


# ---- lists of names ----

def separators(text):
    """The places of the `and`s that separate names."""
    deep = depths(text)
    return [place for place in range(1, len(text) - 3)
            if lowered(text[place:place + 3]) == b"and" and deep[place] == 0
            and is_white(text[place - 1]) and is_white(text[place + 3])]


def names(text):
    if text == b"":
        return []
    found, start = [], 0
    for place in separators(text):
        found.append(text[start:place])
        start = place + 3
    return found + [text[start:]]


# ---- tokens and commas ----

class Token(NamedTuple):
    text: bytes
    join: bytes     # the byte after the token before it


class Name(NamedTuple):
    sections: list  # lists of tokens
    comma_at_end: bool
    too_many_commas: bool


def commas(name):
    deep = depths(name)
    return [place for place, byte in enumerate(name) if byte == 44 and deep[place] == 0]


def last_sign(name):
    """The place of the last byte that is neither whitespace nor a separator."""
    signs = [place for place, byte in enumerate(name) if not is_white(byte) and not is_separator(byte)]
    return signs[-1] if signs else None


def divide(name):
    """The sections of a name, and what is wrong with its commas."""
    comma_at_end = False
    while last_sign(name) in commas(name):
        place = last_sign(name)
        name = name[:place] + name[place + 1:]
        comma_at_end = True
    places = commas(name)
    for place in places[2:]:
        name = name[:place] + b" " + name[place + 1:]
    cuts = [-1, *places[:2], len(name)]
    sections = [tokens(name[start + 1:end]) for start, end in zip(cuts, cuts[1:])]
    return Name(sections, comma_at_end, len(places) > 2)


def tokens(section):
    deep, found, start, join = depths(section), [], None, b""
    for place, byte in enumerate(section):
        ends = deep[place] == 0 and (is_white(byte) or is_separator(byte))
        if not ends and start is None:
            start = place
        if ends and start is not None:
            found.append(Token(section[start:place], join))
            start, join = None, section[place:place + 1]
    if start is not None:
        found.append(Token(section[start:], join))
    return found


# ---- von ----

LOWER_FOREIGN = (b"i", b"j", b"o", b"oe", b"ae", b"aa", b"l", b"ss")


def is_von(token):
    for element in elements(token.text):
        if element.kind == SPECIAL:
            return special_is_lower(element.text)
        if element.kind == BYTE and element.depth == 0 and is_letter(element.text[0]):
            return element.text.islower()
    return False


def special_is_lower(text):
    end = control_end(text, 1)
    if text[2:end] in FOREIGN:
        return text[2:end] in LOWER_FOREIGN
    letters = [byte for byte in text[end:] if is_letter(byte)]
    return bool(letters) and letters[0] >= 97


# ---- parts ----

def parts(name):
    """First, von, Last and Jr by their letters."""
    if len(name.sections) == 1:
        return parts_without_comma(name.sections[0])
    head = name.sections[0]
    vons = [number for number, token in enumerate(head[:-1]) if is_von(token)]
    cut = vons[-1] + 1 if vons else 0
    return {"v": head[:cut], "l": head[cut:], "f": name.sections[-1],
            "j": name.sections[1] if len(name.sections) == 3 else []}


def parts_without_comma(section):
    vons = [number for number, token in enumerate(section[:-1]) if is_von(token)]
    if vons:
        return {"f": section[:vons[0]], "v": section[vons[0]:vons[-1] + 1], "l": section[vons[-1] + 1:], "j": []}
    last = max(len(section) - 1, 0)
    while last > 0 and section[last].join == b"-":
        last -= 1
    return {"f": section[:last], "v": [], "l": section[last:], "j": []}


# ---- formats ----

class Piece(NamedTuple):
    before: bytes
    part: str       # "" where the piece has no letter
    full: bool
    join: object    # bytes, or None
    after: bytes


class IllegalFormat(Exception):
    pass


def read_format(text):
    """Literal bytes and pieces, in order."""
    items, place = [], 0
    while place < len(text):
        if text[place] == 125:
            raise IllegalFormat
        if text[place] == 123:
            end = closed_end(text, place)
            items.append(read_piece(text[place + 1:end - 1]))
            place = end
        else:
            items.append(text[place:place + 1])
            place += 1
    return items


def closed_end(text, place):
    end = group_end(text, place)
    if depths(text[place:end])[-1] != 0:
        raise IllegalFormat
    return end


def read_piece(inside):
    deep = depths(inside)
    own = [place for place, byte in enumerate(inside) if is_alpha(byte) and deep[place] == 0]
    if not own:
        return Piece(inside, "", False, None, b"")
    start = own[0]
    letter = lowered(inside[start:start + 1])
    if letter not in (b"f", b"v", b"l", b"j"):
        raise IllegalFormat
    full = lowered(inside[start + 1:start + 2]) == letter
    end = start + 2 if full else start + 1
    if [place for place in own if place >= end]:
        raise IllegalFormat
    join = None
    if inside[end:end + 1] == b"{":
        close = group_end(inside, end)
        join, end = inside[end + 1:close - 1], close
    return Piece(inside[:start], letter.decode(), full, join, inside[end:])


# ---- names in a format ----

def abbreviation(token, utf8):
    for place, byte in enumerate(token.text):
        if is_alpha(byte):
            return token.text[place:place + max(sequence_length(token.text, place) if utf8 else 1, 1)]
        if token.text[place:place + 2] == b"{\\":
            return token.text[place:group_end(token.text, place)]
    return b""


def piece_text(piece, named, utf8):
    if not piece.part:
        return ended(piece.before, utf8)
    part = named[piece.part]
    if not part:
        return b""
    text = piece.before
    for number, token in enumerate(part):
        if number > 0:
            text += joined(piece, text, token, number == len(part) - 1, utf8)
        text += token.text if piece.full else abbreviation(token, utf8)
    return ended(text + piece.after, utf8)


def joined(piece, text, token, is_last, utf8):
    """What stands between the text so far and the next token."""
    if piece.join is not None:
        return piece.join
    period = b"" if piece.full else b"."
    if token.join in (b"~", b"-"):
        return period + token.join
    return period + (b"~" if is_last or text_length(text + period, utf8) < 3 else b" ")


def ended(text, utf8):
    if text.endswith(b"~~"):
        return text[:-1]
    if text.endswith(b"~") and text_length(text[:-1], utf8) >= 3:
        return text[:-1] + b" "
    return text


class Formatted(NamedTuple):
    text: bytes
    x10: bool = False   # there is no name of the number
    x11: bool = False   # the name has a comma at its end
    x12: bool = False   # the name has more than two commas
    x13: bool = False   # the format is illegal


def format_name(text, number, format_text, utf8=False):
    all_names = names(text)
    if not 1 <= number <= len(all_names):
        return Formatted(b"", x10=True)
    name = divide(all_names[number - 1])
    try:
        items, illegal = read_format(format_text), False
    except IllegalFormat:
        items, illegal = [], True
    named = parts(name)
    done = b"".join(item if isinstance(item, bytes) else piece_text(item, named, utf8) for item in items)
    return Formatted(done, False, name.comma_at_end, name.too_many_commas, illegal)
