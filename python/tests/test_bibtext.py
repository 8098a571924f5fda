"""The reader of databases, beside the log of runs."""

import os
import time
import unittest

from btx.bibtext import Lines, read, undefined_strings
from tests.spoilt import logged, of_tex_live, spoilt

SPOILT = int(os.environ.get("BTX_TEST_SPOILT", "600"))
# Each row of RULES and of the front end's tests: a text, and the mistakes of its items with their places.
ROWS = [
    (b"@ {", [(2, "I was expecting a name")]),
    (b"@misc k", [(6, "I was expecting a { or a (")]),
    (b"@misc{k,\n note 1}", [(15, "I was expecting an =")]),
    (b"@misc{k, note = ,}", [(16, "I was expecting a value")]),
    (b"@misc{k, note = 12ab}", [(18, "I was expecting a , or a }")]),
    (b"@misc(k , note = 1 }", [(19, "I was expecting a , or a )")]),
    (b"@string{s = 1, }", [(13, "I was expecting a }")]),
    (b"@preamble(1}", [(11, "I was expecting a )")]),
    (b"@preamble{\"a}\"}", [(12, "Unbalanced braces")]),
    (b"@misc{k, note = {a", [(18, "Illegal end of database file")]),
    (b"@misc{k, 1 = 2}", [(9, "I was expecting a name")]),
    (b"@misc{k, a'b = 1}", [(10, "I was expecting an =")]),
    (b"@a@b{k x}", [(7, "I was expecting a , or a }")]),
    (b"@misc{a} @misc{A, x 1}", [(16, "Repeated entry")]),
    (b"@misc{k, note = {A {B} \"} # zz # 12,} @misc(k) ) @misc{} @comment{@misc{x}}", []),
]


def mistakes(text):
    """The mistakes and the names without a string, as a run logs them: pairs of a line and a text."""
    database = read(text, set())
    lines = Lines(text)
    found = [(item.slip.place, item.slip.text) for item in database.items if item.slip]
    for it in undefined_strings(database, set()):
        name = text[it.part.start : it.part.end].decode("utf8", "surrogateescape")
        found.append((it.part.start, f'string name "{name}" is ' + ("used in its own definition" if it.is_own else "undefined")))
    for item in database.items:
        names = set()
        for field in item.fields if item.is_entry else []:
            name = field.name
            if name in names:
                written = text[field.name_start : field.name_end].decode("utf8", "surrogateescape")
                key = item.key.decode("utf8", "surrogateescape")
                found.append((field.end - 1, f'I\'m ignoring {key}\'s extra "{written}" field'))
            names.add(name)
    fields = {field.name for item in database.items for field in item.fields}
    return sorted((lines.logged_line(place), said) for place, said in found), fields


class Grammar(unittest.TestCase):
    def test_each_mistake(self):
        for text, wanted in ROWS:
            with self.subTest(text=text):
                self.assertEqual([tuple(item.slip) for item in read(text, set()).items if item.slip], wanted)

    def test_places(self):
        text = b'x @Book{Kay, Title = {A} # zz, year= 1984 }\n@string{S = "b"}'
        database = read(text)
        entry, string = database.items
        self.assertEqual((entry.kind, entry.key, text[entry.start : entry.end]), (b"book", b"Kay", text[2 : text.index(b"\n")]))
        title, year = entry.fields
        self.assertEqual((text[title.name_start : title.name_end], text[database.start(title) : title.end]), (b"Title", b"{A} # zz"))
        self.assertEqual([text[part.start : part.end] for part in database.names(title)], [b"zz"])
        self.assertEqual((text[database.start(year) : year.end], database.names(year), database.is_text(year)), (b"1984", [], True))
        self.assertEqual((string.kind, string.key, string.is_entry), (b"string", b"S", False))
        self.assertEqual(text[entry.key_end - 3 : entry.key_end], b"Kay")

    def test_values(self):
        text = b'@string{s = "x"}@misc{k, a = s # " y " # {  z}, b = {}, c = 7, d = {# {a} # b}, e = e # t}'
        database = read(text, strings={b"t": b"T"})
        self.assertEqual([it.part.start for it in undefined_strings(database, {b"t"})], [text.index(b"e # t")])
        self.assertEqual([field.value for field in database.items[1].fields], [b"x y z", b"", b"7", b"# {a} # b", b"T"])
        self.assertEqual([database.is_text(field) for field in database.items[1].fields], [False, True, True, True, False])
        self.assertEqual((database.raw(database.items[1].fields[3]), database.strings), (b"# {a} # b", {b"t": b"T", b"s": b"x"}))

    def test_repeated_entries_are_read_where_no_key_is_stored(self):
        self.assertEqual([item.slip for item in read(b"@misc{a, x = 1} @misc{A, x = 2}").items], [None, None])

    def test_items_in_repeated_entries(self):
        text = b"@string{s={1}}@misc{a} @misc{A, x = {@misc{b, y = s}}, @misc{B, z = {@string{s={2}} @misc{c, y = s}"
        items = read(text, set()).items
        self.assertEqual([(item.key, item.slip and item.slip.text) for item in items if item.slip or item.is_entry],
                         [(b"a", None), (b"A", "Repeated entry"), (b"b", None), (b"B", "Repeated entry"), (b"c", None)])
        self.assertEqual([field.value for item in items if item.is_entry for field in item.fields], [b"1", b"2"])
        self.assertEqual([text[item.start] for item in items], [ord("@")] * len(items))

    def test_columns_are_characters(self):
        self.assertEqual(Lines("a\né@x".encode()).at(4), (1, 1))
        self.assertEqual(Lines(b"\xff\xfe@").at(2), (0, 2))


class BesideRuns(unittest.TestCase):
    def same(self, text):
        found, fields = mistakes(text)
        self.assertEqual(found, sorted(logged(text, fields)), text)
        return len(found)

    def test_spoilt_databases(self):
        total = sum(self.same(text) for text in spoilt(SPOILT))
        self.assertGreater(total, SPOILT)

    def test_databases_of_tex_live(self):
        paths = of_tex_live()
        if not paths:
            self.skipTest("there is no TeX Live")
        for path in paths:
            with self.subTest(path=path.name):
                self.same(path.read_bytes())


class Cost(unittest.TestCase):
    def test_long_texts_take_a_linear_time(self):
        size = 200_000
        hostile = [b"@misc{k, x = " + b"{" * size, b"@a{b,c=\"" * (size // 8), b"@a{b,c={" * (size // 8), b"@" * size, b"@misc{k" * (size // 7), b"@misc{k, " + b"a" * size,
                   b"@misc{k, x = {" + b"{a}" * size + b"} y", b"@misc{k, x = \"" + b"{a}" * size, b"@misc{k, x = \"" + b"{a}\"" * size, b"@misc{k, x = \"{{{{" + b"{a}" * size, b"@misc{k, x = 1 #" + b" 1 #" * size, b"@misc{k" + b",x=1" * size, b"@string{a=a#a}" * 20_000,
                   b"@string{a={xx}}" + b"@string{b=a#a}@string{a=b#b}" * 100, b"".join(b"@string{s%d=a#b}" % number for number in range(20_000)),
                   b"@string{a={" + b"x" * size + b"}}@misc{k,x=a" + b"#a" * 20_000,
                   b"@misc{k,x=" + b"{" * 5 + b"a" * size, b" " * size + b"@" + b" " * size + b"misc" + b" " * size]
        for text in hostile:
            with self.subTest(text=text[:20]):
                begin = time.process_time()
                list(undefined_strings(read(text, set()), set()))
                self.assertLess(time.process_time() - begin, 4)


if __name__ == "__main__":
    unittest.main()
