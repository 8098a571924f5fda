"""The reader of databases, the entries that are stored, and the list."""

import re

from texts import LONGEST_STRING, front, group_end, is_digit, is_white, lines, lowered, name_at
from aux_files import LONGEST_FILE

WHITE_RUN = re.compile(rb"[ \t\r\n]+")


def is_blank(byte):
    """Whitespace, and the end of a line."""
    return is_white(byte) or byte == 10


def squeezed(text):
    return WHITE_RUN.sub(b" ", text)


def trimmed(text):
    text = text[1:] if text[:1] == b" " else text
    return text[:-1] if text[-1:] == b" " else text


class Fault(Exception):
    """What is wrong (the text of the message), and the place."""


class TooLong(Exception):
    """The reading ends at the limit that it names: "limit string" or "limit file"."""


class Entry:
    def __init__(self, kind):
        self.kind = kind        # the lowered name of its function, or empty
        self.values = {}        # by the field's name


class Place:
    """A key of the list."""

    def __init__(self, key, cited):
        self.key, self.cited, self.count, self.entry = key, cited, 0, None


class Library:
    """`messages` are pairs of a kind ("warning" or "error") and a text; `list` has the entries at the end."""

    def __init__(self, style, job):
        self.style, self.takes_all = style, job.star is not None
        self.fields = {field.name for field in style.fields()}
        self.places = {}        # by lowered key, in order
        before = len(job.keys) if job.star is None else job.star
        self.cited = {lowered(key): key for key in job.keys}
        for key in job.keys[:before]:
            self.places[lowered(key)] = Place(key, True)
        self.strings, self.preamble, self.messages = {}, b"", []
        self.end, self.list = "whole", []

    # ---- messages ----

    def error(self, text):
        self.messages.append(("error", text))

    def warn(self, text):
        self.messages.append(("warning", text))

    # ---- storing ----

    def place_for(self, key):
        """The place of an entry's key if the entry is to be stored or was; None otherwise."""
        folded = lowered(key)
        if folded not in self.places and self.takes_all:
            self.places[folded] = Place(self.cited.get(folded, key), folded in self.cited)
        return self.places.get(folded)

    def keep_string(self, name, text):
        within_limit(text)
        self.strings[lowered(name)] = text

    def keep_field(self, entry, field, value):
        within_limit(value)
        entry.values[field] = value
        if field == b"crossref" and not self.takes_all:
            place = self.places.setdefault(lowered(value), Place(value, False))
            place.count += 1

    # ---- the whole reading ----

    def read(self, sources, min_crossrefs):
        try:
            for name, text in self.style.macros.items():
                self.keep_string(name, squeezed(text))
            for name, text in sources:
                if len(text) > LONGEST_FILE:
                    raise TooLong("limit file")
                Reader(self, name, text).read()
        except TooLong as end:
            self.end = str(end)
            return self
        for folded, key in self.cited.items():
            if folded not in self.places:
                self.places[folded] = Place(key, True)
        self.inherit()
        self.judge_parents(min_crossrefs)
        self.remove(min_crossrefs)
        return self

    def inherit(self):
        for place in self.places.values():
            if place.entry is None or b"crossref" not in place.entry.values:
                continue
            parent = self.places.get(lowered(place.entry.values[b"crossref"]))
            if parent is None:
                continue
            place.entry.values[b"crossref"] = parent.key
            if parent.entry is not None:
                for field, value in list(parent.entry.values.items()):
                    place.entry.values.setdefault(field, value)

    def judge_parents(self, min_crossrefs):
        for place in self.places.values():
            if place.entry is None or b"crossref" not in place.entry.values:
                continue
            named = place.entry.values[b"crossref"]
            parent = self.places.get(lowered(named))
            if parent is None or parent.entry is None:
                self.error(b'A bad cross reference--entry "%s" refers to entry "%s", which doesn\'t exist'
                           % (place.key, named))
                del place.entry.values[b"crossref"]
                continue
            if b"crossref" in parent.entry.values:
                self.warn(b'you\'ve nested cross references--entry "%s" refers to entry "%s"' % (place.key, named))
            if self.leaves(parent, min_crossrefs):
                del place.entry.values[b"crossref"]

    def leaves(self, place, min_crossrefs):
        return not self.takes_all and not place.cited and place.count < min_crossrefs

    def remove(self, min_crossrefs):
        for place in self.places.values():
            if place.entry is None:
                self.warn(b'I didn\'t find a database entry for "%s"' % place.key)
            elif not self.leaves(place, min_crossrefs):
                self.list.append(place)


def within_limit(text):
    if len(text) > LONGEST_STRING:
        raise TooLong("limit string")


# ---- the text of a database ----

class Reader:
    def __init__(self, library, name, text):
        self.library, self.name, self.text, self.place = library, name, text, 0

    def line(self, place):
        if place >= len(self.text):
            return len(lines(self.text))
        return self.text.count(b"\n", 0, place) + 1

    def where(self, place):
        return b"--line %d of file %s" % (self.line(place), self.name)

    def read(self):
        while True:
            self.place = self.text.find(b"@", self.place)
            if self.place < 0:
                return
            self.place += 1
            try:
                self.read_item()
            except Fault as fault:
                text, self.place = fault.args
                self.library.error(text + self.where(self.place))

    # ---- signs and names ----

    def skip_white(self):
        """Passes whitespace; the file may not end there."""
        self.place = front(self.text, self.place, is_blank)
        self.not_at_end()

    def not_at_end(self):
        if self.place == len(self.text):
            raise Fault(b"Illegal end of database file", self.place)

    def peek(self):
        return self.text[self.place:self.place + 1]

    def sign(self, signs, fault):
        self.skip_white()
        sign = self.peek()
        if sign not in signs:
            raise Fault(fault, self.place)
        self.place += 1
        return sign

    def read_name(self):
        self.skip_white()
        start, self.place = self.place, name_at(self.text, self.place)
        if start == self.place:
            raise Fault(b"I was expecting a name", start)
        return self.text[start:self.place]

    def open_item(self):
        """Passes the opening delimiter, and gives the closing one."""
        return b"}" if self.sign((b"{", b"("), b"I was expecting a { or a (") == b"{" else b")"

    # ---- items ----

    def read_item(self):
        name = self.read_name()
        kind = lowered(name)
        if kind == b"comment":
            return
        closing = self.open_item()
        if kind == b"preamble":
            self.read_preamble()
        elif kind == b"string":
            self.read_string()
        else:
            self.read_entry(kind, closing)
            return
        self.sign((closing,), b"I was expecting a " + closing)

    def read_preamble(self):
        parts = self.read_value()
        self.library.preamble += squeezed(self.joined(parts, None))
        within_limit(self.library.preamble)

    def read_string(self):
        name = self.read_name()
        self.sign((b"=",), b"I was expecting an =")
        parts = self.read_value()
        self.library.keep_string(name, squeezed(self.joined(parts, lowered(name))))

    def read_entry(self, kind, closing):
        self.skip_white()
        start = self.place
        self.place = front(self.text, start, lambda byte: not is_blank(byte) and byte != 44
                           and not (byte == 125 and closing == b"}"))
        key = self.text[start:self.place]
        entry = self.begin_entry(kind, key)
        wanted = b"I was expecting a , or a " + closing
        while self.sign((b",", closing), wanted) != closing:
            self.skip_white()
            if self.peek() == closing:
                self.place += 1
                return
            field = self.read_name()
            self.sign((b"=",), b"I was expecting an =")
            self.take_field(entry, key, field, self.read_value())

    def begin_entry(self, kind, key):
        """The new entry where it is stored."""
        library = self.library
        place = library.place_for(key)
        if place is None:
            return None
        if place.entry is not None:
            raise Fault(b"Repeated entry", self.place)
        if kind not in library.style.types:
            library.warn(b'entry type for "%s" isn\'t style-file defined' % key + self.where(self.place))
            kind = b""
        if not place.cited:
            place.key = key
        place.entry = Entry(kind)
        return place.entry

    def take_field(self, entry, key, field, parts):
        name = lowered(field)
        if entry is None or name not in self.library.fields:
            return
        if name in entry.values:
            self.library.warn(b"I'm ignoring %s's extra \"%s\" field" % (key, field) + self.where(self.place - 1))
            return
        self.library.keep_field(entry, name, trimmed(squeezed(self.joined(parts, None))))

    # ---- values ----

    def read_value(self):
        """The parts, pairs of whether it is a string's name, with its place, and its text; the place is then behind
        the last part."""
        parts = []
        while True:
            self.skip_white()
            parts.append(self.read_part())
            behind = front(self.text, self.place, is_blank)
            if self.text[behind:behind + 1] != b"#":
                return parts
            self.place = behind + 1

    def read_part(self):
        start = self.place
        first = self.peek()
        if first == b"{":
            self.place = group_end(self.text, start)
            if self.text[start:self.place].count(b"{") != self.text[start:self.place].count(b"}"):
                self.not_at_end()
            return None, self.text[start + 1:self.place - 1]
        if first == b'"':
            return None, self.read_quoted()
        if first.isdigit():
            self.place = front(self.text, start, is_digit)
            return None, self.text[start:self.place]
        self.place = name_at(self.text, start)
        if self.place == start:
            raise Fault(b"I was expecting a value", start)
        return start, self.text[start:self.place]

    def read_quoted(self):
        start, depth = self.place + 1, 0
        for place in range(start, len(self.text)):
            byte = self.text[place]
            if byte == 34 and depth == 0:
                self.place = place + 1
                return self.text[start:place]
            if byte == 125 and depth == 0:
                raise Fault(b"Unbalanced braces", place)
            depth += (byte == 123) - (byte == 125)
        self.place = len(self.text)
        raise Fault(b"Illegal end of database file", self.place)

    def joined(self, parts, own_name):
        """The parts of a value that is stored, joined; `own_name` is the string that is being defined."""
        done = []
        for place, text in parts:
            if place is None:
                done.append(text)
            elif lowered(text) == own_name:
                self.library.warn(b'string name "%s" is used in its own definition' % text + self.where(place))
            elif lowered(text) not in self.library.strings:
                self.library.warn(b'string name "%s" is undefined' % text + self.where(place))
            else:
                done.append(self.library.strings[lowered(text)])
        return b"".join(done)


def read_databases(style, job, sources, min_crossrefs):
    return Library(style, job).read(sources, min_crossrefs)
