"""The edits that the language server suggests: each makes its message go, and loses no entry."""

import collections
import pathlib
import tempfile
import unittest

import btx
from btx.bibtext import read
from btx.diagnosing import applied, diagnose
from btx.documents import Document
from btx.mending import mend
from btx.spelling import distance, nearest
from btx.workspace import Workspace, uri_of
from tests import spoilt

# Spoilt databases, and what they are after the edit that is suggested of their first mistake.
MENDED = [
    ("@article{a, author={A B}, title={T}\n@book{good, year=1}\n", "@article{a, author={A B}, title={T}}\n@book{good, year=1}\n"),
    ("@article{a, title={T},\n  year=1\n\n@book{good}\n", "@article{a, title={T},\n  year=1\n}\n\n@book{good}\n"),
    ("@article{a, title={T},\n  year=1\n", "@article{a, title={T},\n  year=1\n}\n"),
    ("@article{a, author={A B, title={T},\n  year=1}\n@book{good}\n", "@article{a, author={A B}, title={T},\n  year=1}\n@book{good}\n"),
    ("@article{a, author=\"A B, title={T},\n  year=1}\n@book{good}\n", "@article{a, author=\"A B\", title={T},\n  year=1}\n@book{good}\n"),
    ("@article{a, author={A B}\n title={T}}\n", "@article{a, author={A B},\n title={T}}\n"),
    ("@article{a, author {A B}, title={T}}\n", "@article{a, author = {A B}, title={T}}\n"),
    ("@article{a, author=, title={T}}\n", "@article{a, author={}, title={T}}\n"),
    ("@article{ author = {A B}, title={T}}\n", "@article{ key1, author = {A B}, title={T}}\n"),
    ("@article{\n author={A B},\n title={T}}\n@misc{key1}", "@article{\n key2, author={A B},\n title={T}}\n@misc{key1}"),
    ("@article{my key, author={A B}}\n", "@article{mykey, author={A B}}\n"),
    ("@article{my long key, author={A B}}\n", "@article{mylongkey, author={A B}}\n"),
    ("@misc{a x = 1}", "@misc{a, x = 1}"),
    ("@misc{a\n x = 1}", "@misc{a,\n x = 1}"),
    ("@misc{a; x = 1}", "@misc{a, x = 1}"),
    ("@misc{a,, x = 1}", "@misc{a, x = 1}"),
    ("@misc{a, x = {A},, y = 1}", "@misc{a, x = {A}, y = 1}"),
    ("@misc{a, x = {T} y = 1}", "@misc{a, x = {T}, y = 1}"),
    ("@misc{a, x = {T} y = {U} z = 1}", "@misc{a, x = {T}, y = {U} z = 1}"),
    ("@misc{a, x = {A}; y = 1}", "@misc{a, x = {A}, y = 1}"),
    ("@misc{a, x = \"T\" jan, y = 1}", "@misc{a, x = \"T\" # jan, y = 1}"),
    ("@misc{a, x = {T} \"S\"}", "@misc{a, x = {T} # \"S\"}"),
    ("@misc{a, x = {A {T}} S}, y = 1}", "@misc{a, x = {A {T} S}, y = 1}"),
    ("@misc{a, x = 1-2, y = 1}", "@misc{a, x = {1-2}, y = 1}"),
    ("@misc{a, x = 12A, y = 1}", "@misc{a, x = {12A}, y = 1}"),
    ("@misc{a, x = A title}", "@misc{a, x = {A title}}"),
    ("@misc{a, x = in press, y = 1}", "@misc{a, x = {in press}, y = 1}"),
    ("@misc{a, x = 'T', y = 1}", "@misc{a, x = {'T'}, y = 1}"),
    ("@misc{a,\n x = \"T,\n y = \"B\", z = 1}", "@misc{a,\n x = \"T\",\n y = \"B\", z = 1}"),
    ("@misc{a,\n x = \"G\\\"odel\"}", "@misc{a,\n x = \"G{\\\"o}del\"}"),
    ("@misc{a, x = \"K\\\"{o}nig\"}", "@misc{a, x = \"K{\\\"{o}}nig\"}"),
    ("@misc{a, x = 1\n@misc{b}", "@misc{a, x = 1}\n@misc{b}"),
    ("@misc{a, x = 1,\n@misc{b}", "@misc{a, x = 1,}\n@misc{b}"),
    ("@misc{a\n@misc{b, x = 1}", "@misc{a}\n@misc{b, x = 1}"),
    ("@misc{a, title={T} @misc{b}", "@misc{a, title={T}} @misc{b}"),
    ("@misc{a, x = {T}\n\nsome text\n@misc{b}", "@misc{a, x = {T}}\n\nsome text\n@misc{b}"),
    ("@misc{a, x = {1}", "@misc{a, x = {1}}"),
    ("@misc(a, x = {1}", "@misc(a, x = {1})"),
    ("@misc(a, x = 1}", "@misc(a, x = 1)"),
    ("@misc{a, x = 1)", "@misc{a, x = 1}"),
    ("@misc{a,\n x = {T {U},\n y = 1\n}\n@misc{b}", "@misc{a,\n x = {T {U}},\n y = 1\n}\n@misc{b}"),
    ("@misc{a,\n x = \"T,\n y = {1}\n}\n", "@misc{a,\n x = \"T\",\n y = {1}\n}\n"),
    ("@misc{a,\n x = {T,\n y = 2\n}\n", "@misc{a,\n x = {T},\n y = 2\n}\n"),
    ("@misc{a,\n x = {T\n y = 2\n}\n", "@misc{a,\n x = {T},\n y = 2\n}\n"),
    ("@misc{a, x = {T", "@misc{a, x = {T}}"),
    ("@misc{a, x = \"T", "@misc{a, x = \"T\"}"),
    ("@misc{a,\n x = {T {U\n}\n@misc{b, y=1}\n", "@misc{a,\n x = {T {U}}\n}\n@misc{b, y=1}\n"),
    ("@misc{a, x = {T @misc{b, y = 1}\n@misc{c}\n", "@misc{a, x = {T @misc{b, y = 1}}\n}\n@misc{c}\n"),
    ("@misc{a, author=\"A B}, title={T}}", "@misc{a, author=\"A B\", title={T}}"),
    ("@misc{a, author={A B\", title={T}}", "@misc{a, author={A B}, title={T}}"),
    ("@misc{a, pages = \"{1-2\",\n month = jul # \"x\"}", "@misc{a, pages = \"{1-2}\",\n month = jul # \"x\"}"),
    ("@misc{a, x = \"a}b\"}", "@misc{a, x = \"ab\"}"),
    ("@misc{a, x 1}", "@misc{a, x = 1}"),
    ("@misc{a, x: {T}}", "@misc{a, x = {T}}"),
    ("@misc{a, x : {T}}", "@misc{a, x = {T}}"),
    ("@misc{a, book title = {T}}", "@misc{a, booktitle = {T}}"),
    ("@misc{a, % x\n y = 1}", "@misc{a, \n y = 1}"),
    ("@misc{a", "@misc{a}"),
    ("@string{s = A title}", "@string{s = {A title}}"),
    ("@string{s {T}}", "@string{s = {T}}"),
    ("@string{s = {T}, t = {U}}", "@string{s = {T}}\n@string{t = {U}}"),
    ("@string{s = {T}\n@misc{b}", "@string{s = {T}}\n@misc{b}"),
    ("@preamble{\\newcommand{\\x}{y}}", "@preamble{{\\newcommand{\\x}{y}}}"),
    ("@preamble{{x}\n\n@misc{b}", "@preamble{{x}}\n\n@misc{b}"),
    # (a value of two lines that looks like a field is whole)
    ("@misc{a,\n note = {We set\n n = 5 and so},\n title = {T}\n year = 1}", "@misc{a,\n note = {We set\n n = 5 and so},\n title = {T},\n year = 1}"),
]
# Those of which nothing is suggested.
LEFT = [
    # (without its brace the value would take in all that follows, to the end of the file)
    "@book{a,\n author={A}X,\n title={T},\n note={N}}\n",
    "@book{a, author = {S}, journal = {J}, note = {a} foo, month = \"Sept.\"}\n",
    *("@{a, x = 1}", "@misc{a, x", "@misc{a, x =", "@misc", "@misc{", "@misc{a, x = #, y = 1}", "@misc a, x = 1}", "@misc{a, 1x = 1}"),
]

STYLE = """ENTRY {author journal title year month} {} {}
MACRO {sep} {"September"}
FUNCTION {helper} { title write$ }
FUNCTION {article} { helper }
FUNCTION {book} { helper }
READ
ITERATE {call.type$}
"""


def mended(text):
    """A database after the edit of its first mistake; None where there is no edit."""
    data = text if isinstance(text, bytes) else text.encode()
    items = read(data).items
    number = next((at for at, item in enumerate(items) if item.slip is not None), None)
    found = None if number is None else mend(data, items, number)
    return None if found is None else applied(data, found)


def entries_and_mistakes(text):
    """The keys of the entries, and the mistakes that end an item: the place of each, counted from the end, and its entry."""
    base = btx.read(text)
    errors = [it for it in base.messages if it.is_error and it.text not in ("Repeated entry",)]
    return collections.Counter(entry.key.lower() for entry in base), [(len(text) - it.place.span[0], it.key) for it in errors]


class Mending(unittest.TestCase):
    def sees(self, before, after):
        """An edit makes a mistake go, or the mistake of its entry is further on, and no entry is lost."""
        (keys, old), (kept, new) = entries_and_mistakes(before), entries_and_mistakes(after)
        # (a key may be written another way)
        self.assertLessEqual(sum((keys - kept).values()), 1, (before, after))
        self.assertGreaterEqual(sum(kept.values()), sum(keys.values()), (before, after))
        self.assertLessEqual(len(new), len(old), (before, after))
        self.assertNotIn(old[0], new, (before, after))

    def test_spoilt_databases_are_mended(self):
        for text, wanted in MENDED:
            with self.subTest(text=text):
                self.assertEqual(mended(text), wanted.encode())
                self.sees(text.encode(), wanted.encode())

    def test_nothing_is_suggested_of_what_may_mean_anything(self):
        for text in LEFT:
            with self.subTest(text=text):
                self.assertIsNone(mended(text))

    def test_databases_that_are_spoilt_by_chance(self):
        found = 0
        for text in spoilt.spoilt(600):
            after = mended(text)
            if after is not None:
                found += 1
                self.sees(text, after)
        self.assertGreater(found, 100)

    def test_the_rest_of_a_long_database_stays(self):
        rest = "".join(f"@misc{{k{number}, note = {{N}}}}\n" for number in range(100))
        self.assertEqual(mended("@misc{a, note = {T}\n" + rest), ("@misc{a, note = {T}}\n" + rest).encode())
        self.assertEqual(mended("@misc{a, note = {T\n" + rest), ("@misc{a, note = {T}\n}\n" + rest).encode())


class Actions(unittest.TestCase):
    """Edits as the diagnostics of a text have them."""

    def setUp(self):
        room = tempfile.TemporaryDirectory()
        self.addCleanup(room.cleanup)
        self.folder = pathlib.Path(room.name).resolve()
        (self.folder / "s.bst").write_text(STYLE)
        (self.folder / "p.aux").write_text("\\citation{*}\n\\bibstyle{s}\n\\bibdata{d}\n")

    def diagnosed(self, name, text):
        workspace = Workspace()
        document = Document(uri_of(str(self.folder / name)), text)
        workspace.open[document.uri] = document
        return diagnose(document, workspace)

    def actions(self, name, text):
        """What each edit makes of a text: each makes the message of its diagnostic go, and one mistake fewer or none more."""
        before = self.diagnosed(name, text)
        said = collections.Counter((it.code, it.text) for it in before)
        for it in before:
            found = it.mend()
            if found is None:
                continue
            after = applied(text.encode(), found).decode()
            now = collections.Counter((it.code, it.text) for it in self.diagnosed(name, after))
            with self.subTest(text=text, edit=found):
                self.assertNotEqual(after, text)
                self.assertLess(now[it.code, it.text], said[it.code, it.text])
            yield found.title, after

    def test_each_edit_of_a_database(self):
        texts = [text for text, _ in MENDED if text.count(" = {T} y") == 0]
        self.assertGreater(sum(1 for text in texts for _ in self.actions("d.bib", text)), 60)

    def test_names_that_are_near(self):
        for text, title in (
            ("@artcile{a, title = {T}}", "Change to `article`"),
            ("@Bok{a, title = {T}}", "Change to `book`"),
            ("@article{a, jounral = {T}}", "Change to `journal`"),
            ("@article{a, month = sept}", "Change to `sep`"),
            ("@string{abcd = 1}\n@article{a, title = abdc}", "Change to `abcd`"),
            ("@article{a, month = {September}}", "Change to `sep`"),
        ):
            with self.subTest(text=text):
                self.assertEqual([title for title, _ in self.actions("d.bib", text)], [title])
        # (no type that is a part of another one, no field that the entry has, and no string that isn't defined yet)
        for text in ("@helpr{a, title = {T}}", "@article{a, journal = {J}, jounral = {T}}", "@article{a, title = abdc}\n@string{abcd = 1}", "@article{a, month = {January}}", "@software{a, title = {T}}"):
            with self.subTest(text=text):
                self.assertEqual(list(self.actions("d.bib", text)), [])

    def test_keys_that_are_near(self):
        (self.folder / "d.bib").write_text("@misc{Smith2010}\n@misc{other}\n")
        text = "\\cite{smith210,nothing,other}\\bibliography{d}"
        self.assertEqual(list(self.actions("p.tex", text)), [("Change to `Smith2010`", text.replace("smith210", "Smith2010"))])

    def test_a_function_that_is_not_closed(self):
        text = "ENTRY {t}{}{}\nFUNCTION {a} { t write$ \n\nFUNCTION {b} { a foo }\nREAD\n"
        found = set(self.actions("m.bst", text))
        self.assertEqual(found, {("Close FUNCTION {a}", text.replace("t write$ ", "t write$ } "))})
        text = "ENTRY {t}{}{}\nFUNCTION {a}\n{ t\n  { write$\n  % a brace {\n\n% the next\nFUNCTION {b} { a }\nREAD\n"
        self.assertEqual(set(self.actions("m.bst", text)), {("Close FUNCTION {a}", text.replace("{ write$\n", "{ write$\n}}\n"))})
        text = "ENTRY {t}{}{}\nMACRO {jan} {\"x{\"\nFUNCTION {a} { t }\nREAD\n"
        self.assertEqual([title for title, _ in self.actions("m.bst", text)], ["Close MACRO {jan}"])

    def test_what_is_near_in_spelling(self):
        known = ["smith2010", "Knuth", "ab", "smith1999"]
        self.assertEqual([nearest(word, known) for word in ("smith210", "kmuth", "Kuntz", "ax", "jones", "", "knuth")], ["smith2010", "Knuth", None, None, None, None, None])
        self.assertEqual([distance(*pair) for pair in (("tilte", "title"), ("jounral", "journal"), ("", "ab"), ("abc", "ca"), ("mics", "misc"))], [1, 1, 2, 3, 1])


if __name__ == "__main__":
    unittest.main()
