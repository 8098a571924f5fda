"""Bytes, lines, elements, and what the string functions of styles give.

Everything is a `bytes` value; positions are positions of bytes."""

from typing import NamedTuple

LONGEST_STRING = 1_000_000
WHITE = b" \t\r"


# ---- classes of bytes ----

def is_white(byte):
    return byte in WHITE


def is_letter(byte):
    """A letter with a case."""
    return 65 <= byte <= 90 or 97 <= byte <= 122


def is_alpha(byte):
    return is_letter(byte) or byte >= 128


def is_digit(byte):
    return 48 <= byte <= 57


def is_separator(byte):
    return byte in b"~-"


def lowered(text):
    """Only A-Z have a lower case."""
    return bytes(byte + 32 if 65 <= byte <= 90 else byte for byte in text)


def raised(text):
    return bytes(byte - 32 if 97 <= byte <= 122 else byte for byte in text)


def front(text, place, holds):
    """The end of the longest run of bytes that `holds` accepts, from `place` on."""
    while place < len(text) and holds(text[place]):
        place += 1
    return place


def is_name_byte(byte):
    return byte >= 33 and byte not in b"\"#%'(),={}"


def name_at(text, place):
    """The end of the name at `place`, which is `place` itself where none stands there."""
    if place < len(text) and is_digit(text[place]):
        return place
    return front(text, place, is_name_byte)


# ---- lines ----

def lines(text):
    pieces = text.split(b"\n")
    if pieces[-1] == b"":
        pieces.pop()
    return [piece.rstrip(WHITE) for piece in pieces]


# ---- elements ----

BYTE, OPEN, CLOSE, SPECIAL, WIDE = "byte", "open", "close", "special", "wide"


class Element(NamedTuple):
    kind: str
    text: bytes
    start: int
    depth: int


def depth_after(depth, byte):
    if byte == 123:
        return depth + 1
    if byte == 125:
        return max(depth - 1, 0)
    return depth


def depths(text):
    """The depth before each byte, and the one at the end."""
    found = [0]
    for byte in text:
        found.append(depth_after(found[-1], byte))
    return found


def depth_at(text, place):
    return depths(text[:place])[-1]


def group_end(text, place):
    """The end of what the `{` at `place` opens: behind its matching `}`, or the end of the text."""
    depth = 0
    for end in range(place, len(text)):
        if text[end] == 123:
            depth += 1
        elif text[end] == 125:
            depth -= 1
            if depth == 0:
                return end + 1
    return len(text)


def sequence_length(text, place):
    """How many bytes the well-formed sequence of UTF-8 at `place` has; 0 where none stands there."""
    first = text[place]
    length = (2 if 0xC2 <= first <= 0xDF else 3 if 0xE0 <= first <= 0xEF
              else 4 if 0xF0 <= first <= 0xF4 else 0)
    further = text[place + 1:place + length]
    if length == 0 or len(further) < length - 1:
        return 0
    low, high = {0xE0: (0xA0, 0xBF), 0xED: (0x80, 0x9F), 0xF0: (0x90, 0xBF), 0xF4: (0x80, 0x8F)}.get(
        first, (0x80, 0xBF))
    if not low <= further[0] <= high:
        return 0
    return length if all(0x80 <= byte <= 0xBF for byte in further[1:]) else 0


def elements(text, utf8=False):
    found, place, depth = [], 0, 0
    while place < len(text):
        byte, end, kind = text[place], place + 1, BYTE
        if byte == 123:
            kind = OPEN
            if depth == 0 and text[place + 1:place + 2] == b"\\":
                kind, end = SPECIAL, group_end(text, place)
        elif byte == 125:
            kind = CLOSE
        elif utf8 and sequence_length(text, place):
            kind, end = WIDE, place + sequence_length(text, place)
        found.append(Element(kind, text[place:end], place, depth))
        if kind in (OPEN, CLOSE):
            depth = depth_after(depth, byte)
        place = end
    return found


# ---- control sequences ----

FOREIGN = (b"i", b"j", b"o", b"oe", b"ae", b"aa", b"l", b"O", b"OE", b"AE", b"AA", b"L", b"ss")


def control_end(text, place):
    """The end of the control sequence whose backslash stands at `place`."""
    end = front(text, place + 1, is_alpha)
    if end > place + 1:
        return end
    if end < len(text) and text[end] not in b"{}":
        return end + 1
    return end


def special_parts(text):
    """A special character cut into its control sequences (without their backslashes) and single bytes:
    pairs of whether it is a control sequence, and its text."""
    parts, place = [], 0
    while place < len(text):
        if text[place] == 92:
            end = control_end(text, place)
            parts.append((True, text[place + 1:end]))
        else:
            end = place + 1
            parts.append((False, text[place:end]))
        place = end
    return parts


# ---- string functions ----

def add_period(text):
    if text == b"":
        return text
    bare = text.rstrip(b"}")
    return text if bare and bare[-1] in b".?!" else text + b"."


def substring(text, start, length):
    if length <= 0 or start == 0 or abs(start) > len(text):
        return b""
    if start > 0:
        return text[start - 1:start - 1 + length]
    end = len(text) + start + 1
    return text[max(end - length, 0):end]


def is_counted(element):
    return element.kind in (BYTE, SPECIAL, WIDE)


def text_length(text, utf8=False):
    return sum(1 for element in elements(text, utf8) if is_counted(element))


def text_prefix(text, number, utf8=False):
    if number <= 0:
        return b""
    end = len(text)
    for element in elements(text, utf8):
        number -= is_counted(element)
        if number == 0:
            end = element.start + len(element.text)
            break
    return text[:end] + b"}" * depth_at(text, end)


def purify(text):
    return b"".join(purified_special(element.text) if element.kind == SPECIAL else purified_byte(element.text)
                    for element in elements(text))


def purified_byte(text):
    byte = text[0]
    if is_white(byte) or is_separator(byte):
        return b" "
    return text if is_alpha(byte) or is_digit(byte) else b""


def purified_special(text):
    kept = b""
    for is_control, part in special_parts(text):
        if not is_control:
            kept += part if is_alpha(part[0]) or is_digit(part[0]) else b""
        elif part in (b"oe", b"OE", b"ae", b"AE", b"ss"):
            kept += part
        elif part in FOREIGN:
            kept += part[:1]
    return kept


def change_case(text, conversion):
    """The changed text, and whether the conversion is one."""
    letter = lowered(conversion)
    if letter not in (b"t", b"l", b"u"):
        return text, False
    found = elements(text)
    return b"".join(element.text if letter == b"t" and keeps_title_case(found, number)
                    else changed_element(element, letter)
                    for number, element in enumerate(found)), True


def keeps_title_case(found, number):
    """Is it the first element, or does whitespace, and before that a colon at depth 0, stand before it?"""
    before = number
    while before > 0 and found[before - 1].kind == BYTE and found[before - 1].text in (b" ", b"\t", b"\r"):
        before -= 1
    return number == 0 or (before < number and before > 0
                           and found[before - 1].text == b":" and found[before - 1].depth == 0)


def changed_element(element, letter):
    change = raised if letter == b"u" else lowered
    if element.kind == SPECIAL:
        return changed_special(element.text, letter, change)
    return change(element.text) if element.kind == BYTE and element.depth == 0 else element.text


def changed_special(text, letter, change):
    done, white_goes = b"", False
    for is_control, part in special_parts(text):
        if not is_control and white_goes and is_white(part[0]):
            continue
        white_goes = False
        if not is_control:
            done += change(part)
        elif letter == b"u" and part in (b"i", b"j", b"ss"):
            done += raised(part)
            white_goes = True
        elif part in ((b"o", b"oe", b"ae", b"aa", b"l") if letter == b"u" else (b"O", b"OE", b"AE", b"AA", b"L")):
            done += b"\\" + change(part)
        else:
            done += b"\\" + part
    return done


WIDTHS = dict(zip(range(32, 127), [
    278, 278, 500, 833, 500, 833, 778, 278, 389, 389, 500, 778, 278, 333, 278, 500,
    *[500] * 10, 278, 278, 278, 778, 472, 472, 778,
    750, 708, 722, 764, 681, 653, 785, 750, 361, 514, 778, 625, 917, 750, 778, 681, 778, 736, 556, 722, 750, 750,
    1028, 750, 750, 611,
    278, 500, 278, 500, 278, 278,
    500, 556, 444, 556, 444, 306, 500, 556, 278, 306, 528, 278, 833, 556, 500, 556, 528, 392, 394, 389, 556, 528,
    722, 528, 528, 444,
    500, 1000, 500, 500]))
FOREIGN_WIDTHS = {b"ss": 500, b"ae": 722, b"oe": 778, b"AE": 903, b"OE": 1014}


def width(text):
    return sum(special_width(element.text) if element.kind == SPECIAL else WIDTHS.get(element.text[0], 0)
               for element in elements(text))


def special_width(text):
    total, behind_control = 0, False
    for is_control, part in special_parts(text):
        if is_control:
            total += FOREIGN_WIDTHS.get(part, WIDTHS[part[0]] if part in FOREIGN else 0)
            behind_control = True
        elif not (behind_control and is_white(part[0])):
            total += 0 if part in (b"{", b"}") else WIDTHS.get(part[0], 0)
            behind_control = False
    return total
