"""Databases that were worked by hand from the rules: values, entries, places and mistakes. Each row counts as a check, and none needs TeX."""

import unittest

import btx

# What stands before each value.
STRINGS = b'@string{a = "A"} @string{sp = " s "} @string{Long.Name = {x   y}} @string{ab = a # "b"} @string{e = ""}\n'
# The value of a field as it is written, and its text.
VALUES = (
    (b"{one}", "one"),
    (b'"one"', "one"),
    (b"1984", "1984"),
    (b"007", "007"),
    (b"{}", ""),
    (b'""', ""),
    (b"{ }", ""),
    (b"{ one }", "one"),
    (b'" one "', "one"),
    (b"{one  two}", "one two"),
    (b"{one\n\t two}", "one two"),
    (b"{one\r\n two}", "one two"),
    (b"{\n one\n}", "one"),
    (b"{one\\ two}", "one\\ two"),
    (b"{{one}}", "{one}"),
    (b"{{ one }}", "{ one }"),
    (b"{{  one  }}", "{ one }"),
    (b"{a {b {c}} d}", "a {b {c}} d"),
    (b'"a {b} c"', "a {b} c"),
    (b'"a {"} c"', 'a {"} c'),
    (b'"{"}{"}"', '{"}{"}'),
    (b'{a " b}', 'a " b'),
    (b'{"}', '"'),
    (b"{a # b}", "a # b"),
    (b"{a, b = c}", "a, b = c"),
    (b"{me@home}", "me@home"),
    (b"{@misc{x, y = 1}}", "@misc{x, y = 1}"),
    (b"{50% of it}", "50% of it"),
    (b"{one} # {two}", "onetwo"),
    (b"{one}#{two}", "onetwo"),
    (b"{one}\n # \n{two}", "onetwo"),
    (b'{one} # "two" # 3', "onetwo3"),
    (b"{one } # { two}", "one two"),
    (b"{one } # {two }", "one two"),
    (b"{one} # { } # {two}", "one two"),
    (b"{} # {one} # {}", "one"),
    (b"{ } # {one}", "one"),
    (b"1 # 2", "12"),
    (b"a", "A"),
    (b"A", "A"),
    (b"a # a", "AA"),
    (b"a#a", "AA"),
    (b"ab", "Ab"),
    (b"AB # { c}", "Ab c"),
    (b"long.name", "x y"),
    (b"LONG.NAME # 1", "x y1"),
    (b"sp", "s"),
    (b"sp # a", "s A"),
    (b"a # sp # a", "A s A"),
    (b"sp # sp", "s s"),
    (b"e", ""),
    (b"e # a # e", "A"),
    (b"unknown", ""),
    (b"{x} # unknown # {y}", "xy"),
    (b"mar", "March"),
    (b"MAR # {~1}", "March~1"),
    (b'"~" # dec', "~December"),
    (b"{\xc3\xa9t\xc3\xa9}", "\u00e9t\u00e9"),
    (b"{\xff}", "\udcff"),
    (b"{a\x0bb}", "a\x0bb"),
    (b"{\\'{e}} # {\\\"o}", "\\'{e}\\\"o"),
    (b"{" + b"x " * 3000 + b"}", ("x " * 3000).strip()),
    (b'"' + b"{" * 200 + b"}" * 200 + b'"', "{" * 200 + "}" * 200),
)
# A database, and its entries: key, type and fields.
DATABASES = (
    (b"", []),
    (b"no item here", []),
    (b"@misc{k}", [("k", "misc", {})]),
    (b"@misc{k,}", [("k", "misc", {})]),
    (b"@misc(k)", [("k)", "misc", {})]),
    (b"@misc(k, a = 1)", [("k", "misc", {"a": "1"})]),
    (b"@misc(k, a = {)})", [("k", "misc", {"a": ")"})]),
    (b"@misc(k}, a = 1)", [("k}", "misc", {"a": "1"})]),
    (b"@misc{k), a = 1}", [("k)", "misc", {"a": "1"})]),
    (b"@misc{k, a = 1,}", [("k", "misc", {"a": "1"})]),
    (b"@ misc { k , a = 1 , b = 2 }", [("k", "misc", {"a": "1", "b": "2"})]),
    (b"@\nmisc\n{\nk\n,\na\n=\n1\n}\n", [("k", "misc", {"a": "1"})]),
    (b"@MISC{k, Author = {x}}", [("k", "misc", {"author": "x"})]),
    (b"@MiSc{Key, a = 1}", [("Key", "misc", {"a": "1"})]),
    (b"@misc{k, a = 1}@misc{l, a = 2}", [("k", "misc", {"a": "1"}), ("l", "misc", {"a": "2"})]),
    (b"x @misc{k, a = 1} y @misc{l} z", [("k", "misc", {"a": "1"}), ("l", "misc", {})]),
    (b"% @misc{k, a = 1}", [("k", "misc", {"a": "1"})]),
    (b"@misc{k, a = 1, A = 2}", [("k", "misc", {"a": "1"})]),
    (b"@misc{k, a = 1, b = 2, a = 3}", [("k", "misc", {"a": "1", "b": "2"})]),
    (b"@misc{k:1/2-x+y, a = 1}", [("k:1/2-x+y", "misc", {"a": "1"})]),
    (b"@misc{2001, a = 1}", [("2001", "misc", {"a": "1"})]),
    (b"@misc{, a = 1}", [("", "misc", {"a": "1"})]),
    (b"@odd.type{k, odd-field = 1}", [("k", "odd.type", {"odd-field": "1"})]),
    (b"@comment{x, a = 1} @misc{k}", [("k", "misc", {})]),
    (b"@comment @misc{k}", [("k", "misc", {})]),
    (b"@comment{@misc{k, a = 1}}", [("k", "misc", {"a": "1"})]),
    (b'@preamble{"x"} @misc{k}', [("k", "misc", {})]),
    (b"@string(s = {v}) @misc{k, a = s}", [("k", "misc", {"a": "v"})]),
    (b"@string{s = 1} @misc{k, a = s} @string{s = 2} @misc{l, a = s}", [("k", "misc", {"a": "1"}), ("l", "misc", {"a": "2"})]),
    (b"@string{s = 1} @string{S = s # s} @misc{k, a = s}", [("k", "misc", {"a": ""})]),
    (b"@string{s = 1} @string{t = s} @string{s = 2} @misc{k, a = t}", [("k", "misc", {"a": "1"})]),
    (b"@misc{k, a = s} @string{s = 1}", [("k", "misc", {"a": ""})]),
    (b"@string{jan = {J}} @misc{k, a = jan, b = feb}", [("k", "misc", {"a": "J", "b": "February"})]),
    (b"@misc{k, a = 1} @misc{k, a = 2}", [("k", "misc", {"a": "1"}), ("k", "misc", {"a": "2"})]),
    (b"@misc{k, a = 1 b = 2} @misc{l}", [("k", "misc", {"a": "1"}), ("l", "misc", {})]),
    (b"@misc{k, a 1} @misc{l}", [("k", "misc", {}), ("l", "misc", {})]),
    (b"@misc{k, a = } @misc{l}", [("k", "misc", {}), ("l", "misc", {})]),
    (b"@misc{k, a = {x} @misc{l}", [("k", "misc", {"a": "x"}), ("l", "misc", {})]),
    (b"@misc{k, a = 1", [("k", "misc", {"a": "1"})]),
    (b"@misc{k, a = {1", [("k", "misc", {})]),
    (b"@misc k, a = 1 @misc{l}", [("l", "misc", {})]),
    (b"@{k} @misc{l}", [("l", "misc", {})]),
    (b"a@b.example @misc{l}", [("l", "misc", {})]),
    (b'@misc{k, a = "x} y"} @misc{l}', [("k", "misc", {}), ("l", "misc", {})]),
)
# A database, and where its first entry and the first field of that begin: lines and columns, which count characters.
PLACES = (
    (b"@misc{k, a = 1}", ((1, 1), (1, 10))),
    (b" @misc{k, a = 1}", ((1, 2), (1, 11))),
    (b"\n@misc{k,\n  a = 1}", ((2, 1), (3, 3))),
    (b"\r\n@misc{k,\r\n a = 1}", ((2, 1), (3, 2))),
    (b"\r@misc{k, a = 1}", ((1, 2), (1, 11))),
    (b"\t@misc{k,\ta = 1}", ((1, 2), (1, 11))),
    (b"\xc3\xa9 @misc{\xc3\xa9, a = 1}", ((1, 3), (1, 12))),
    (b"\xff @misc{k, a = 1}", ((1, 3), (1, 12))),
    (b"\xf0\x9d\x90\x80@misc{k, a = 1}", ((1, 2), (1, 11))),
    (b"x\n\n\n@ misc{k\n,\n\na = 1}", ((4, 1), (7, 1))),
    (b"@comment{x}\n @misc{k, a = 1}", ((2, 2), (2, 11))),
    (b"@string{s = {\n\n}}@misc{k, a = s}", ((3, 3), (3, 12))),
    (b"@misc{k , a = 1}", ((1, 1), (1, 11))),
    (b"@misc(k,a=1)", ((1, 1), (1, 9))),
    (b"me@home @misc{k, a = 1}", ((1, 9), (1, 18))),
    (b"\n" * 100 + b"  @misc{k,\n\n a = 1}", ((101, 3), (103, 2))),
)
# A database, and its mistakes: the line and the column of each, its text, and whether it is an error.
MISTAKES = (
    (b"@misc{k, a = 1}", []),
    (b"@misc", [(1, 6, "Illegal end of database file", True)]),
    (b"@misc{", [(1, 7, "Illegal end of database file", True)]),
    (b"@misc{k", [(1, 8, "Illegal end of database file", True)]),
    (b"@misc{k,\n", [(1, 10, "Illegal end of database file", True)]),
    (b"@misc{k, a", [(1, 11, "Illegal end of database file", True)]),
    (b"@misc{k, a =", [(1, 13, "Illegal end of database file", True)]),
    (b"@misc{k, a = {x", [(1, 16, "Illegal end of database file", True)]),
    (b"@misc{k, a 1}", [(1, 12, "I was expecting an =", True)]),
    (b"@misc{k,\n a\n 1}", [(3, 2, "I was expecting an =", True)]),
    (b"@misc{k, a = 1 b = 2}", [(1, 16, "I was expecting a , or a }", True)]),
    (b"@misc(k, a = 1 b = 2)", [(1, 16, "I was expecting a , or a )", True)]),
    (b"@misc{k a = 1}", [(1, 9, "I was expecting a , or a }", True)]),
    (b"@misc k", [(1, 7, "I was expecting a { or a (", True)]),
    (b'@misc{k, a = "x} y"}', [(1, 16, "Unbalanced braces", True)]),
    (b"@misc{k, a = s}", [(1, 14, 'string name "s" is undefined', False)]),
    (b"@misc{k, a = {x} #\n s}", [(2, 2, 'string name "s" is undefined', False)]),
    (b"@string{s = s}", [(1, 13, 'string name "s" is used in its own definition', False)]),
    (b"@misc{k, a = 1, a = 2}", [(1, 21, 'I\'m ignoring k\'s extra "a" field', False)]),
    (b"@misc{k} @misc{k}", [(1, 16, "Repeated entry", True)]),
    (b"@misc{k}\n@misc{K}", [(2, 7, "Repeated entry", True)]),
    (b"@misc{k,\r\n a 1}\r\n@misc{l, b 2}", [(2, 4, "I was expecting an =", True), (3, 12, "I was expecting an =", True)]),
    (b"\xc3\xa9\xc3\xa9 @misc{k, a 1}", [(1, 15, "I was expecting an =", True)]),
)


class WorkedDatabases(unittest.TestCase):
    def compare(self, table, found_in):
        """Compares what is found in the text of each row with the row: each counts as a check."""
        for text, *wanted in table:
            with self.subTest(text=text[:80]):
                self.assertEqual(found_in(text), *wanted)

    def test_values(self):
        self.compare(VALUES, lambda value: btx.read(STRINGS + b"@misc{k, t = " + value + b"}")["k"]["t"])

    def test_entries(self):
        self.compare(DATABASES, lambda text: [(entry.key, entry.type, dict(entry)) for entry in btx.read(text)])

    def test_places(self):
        self.compare(PLACES, places_in)

    def test_mistakes(self):
        self.compare(MISTAKES, lambda text: [(it.place.line, it.place.column, it.text, it.is_error) for it in btx.read(text).messages])


def places_in(text):
    """Where the first entry begins, and its first field: the line and the column of each."""
    entry = next(iter(btx.read(text)))
    return entry.place[:2], entry.place_of(next(iter(entry)))[:2]
