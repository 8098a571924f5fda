"""Names, and the shapes of other packages."""

import sys
import types
import unittest
from unittest import mock

import btx
from btx import NameParts
from btx.dividing import MOST_FIELDS, divided

ROWS = [
    ("", []),
    ("Ludwig van Beethoven", [("Ludwig", "van", "Beethoven", "")]),
    ("Knuth, Donald E.", [("Donald E.", "", "Knuth", "")]),
    ("von~der Last, Jr., First {A~B} and others", [("First {A~B}", "von der", "Last", "Jr."), ("", "", "others", "")]),
    ("Jean-Paul Sartre AND {Barnes and Noble, Inc.}", [("Jean-Paul", "", "Sartre", ""), ("", "", "{Barnes and Noble, Inc.}", "")]),
    ("{\\'E}mile  Zola\nand É. de~la Cruz", [("{\\'E}mile", "", "Zola", ""), ("É.", "de la", "Cruz", "")]),
    ("\udcff \"x\" \\~n", [("\udcff \"x\"", "", "\\ n", "")]),
]


class Names(unittest.TestCase):
    def test_each(self):
        for text, wanted in ROWS[:-1]:
            with self.subTest(text=text):
                self.assertEqual(btx.names(text), [NameParts(*parts) for parts in wanted])
                self.assertEqual(btx.names(text.encode("utf8", "surrogateescape")), btx.names(text))

    def test_many_at_once(self):
        texts = [text for text, _ in ROWS] * (MOST_FIELDS // 3)
        self.assertEqual(divided(texts), [btx.names(text) for text, _ in ROWS] * (MOST_FIELDS // 3))

    def test_messages(self):
        found = btx.names("Knuth, and a, b, c, d")
        self.assertEqual([message.text.split('"')[0] for message in found.messages][::4], ["Name 1 in ", "Too many commas in name 2 of "])
        self.assertEqual((len(found), btx.names("A B").messages), (2, []))

    def test_as_text(self):
        self.assertEqual(str(btx.names("Ludwig van Beethoven")[0]), "van Beethoven, Ludwig")
        self.assertEqual(btx.names(str(btx.names("Doe, Jr., John")[0])), btx.names("Doe, Jr., John"))

    def test_refused(self):
        for text in ("{", "}", "}{", "a and {b", "x" * 1_000_001):
            with self.subTest(text=text[:9]), self.assertRaises(btx.NamesRefused):
                btx.names(text)


class Recorded:
    """Keeps what it is made of."""

    def __init__(self, *given, **named):
        self.given, self.named = given, named


class OtherPackages(unittest.TestCase):
    BASE = b"@preamble{{P}}@string{s={S}}@Book{K, Author = {Jane von Doe}, title = s, year = 1984}@misc{k, note = 1}@misc{z}"

    def test_pybtex(self):
        package = types.SimpleNamespace(BibliographyData=Recorded, Entry=Recorded, Person=Recorded)
        with mock.patch.dict(sys.modules, {"pybtex": types.ModuleType("pybtex"), "pybtex.database": package}):
            data = btx.read(self.BASE).to_pybtex()
        self.assertEqual((list(data.named["entries"]), data.named["preamble"]), (["K", "z"], ["P"]))
        entry = data.named["entries"]["K"]
        self.assertEqual((entry.given, entry.named["fields"]), (("book",), [("title", "S"), ("year", "1984")]))
        self.assertEqual([person.named for person in entry.named["persons"]["author"]], [{"first": "Jane", "prelast": "von", "last": "Doe", "lineage": ""}])

    def test_bibtexparser(self):
        package = types.SimpleNamespace(BibDatabase=lambda: types.SimpleNamespace(strings={}))
        with mock.patch.dict(sys.modules, {"bibtexparser": types.ModuleType("bibtexparser"), "bibtexparser.bibdatabase": package}):
            data = btx.read(self.BASE).to_bibtexparser()
        self.assertEqual(data.entries[0], {"ENTRYTYPE": "book", "ID": "K", "author": "Jane von Doe", "title": "S", "year": "1984"})
        self.assertEqual(([entry["ID"] for entry in data.entries], data.strings, data.preambles), (["K", "k", "z"], {"s": "S"}, ["P"]))

    def test_a_package_that_is_not_there(self):
        with mock.patch.dict(sys.modules, {"pybtex": None, "bibtexparser": None}):
            for call in (btx.read(self.BASE).to_pybtex, btx.read(self.BASE).to_bibtexparser):
                with self.assertRaises(ImportError):
                    call()


if __name__ == "__main__":
    unittest.main()
