"""The fields that a style asks for, beside the table of BibTeX's manual."""

import json
import os
import random
import shutil
import tempfile
import unittest

import btx
from btx.asking import StyleFaulty, as_json, as_page, as_text, fields_of
from btx.checkup import named_style
from btx.searching import found_search
from tests.jobs import SOURCES
from tests.spoilt import run_module

# What the manual of BibTeX says of the standard styles: the required fields, with `a/b` for one of two, and the optional ones. The field key is optional wherever there is an author or an editor.
MANUAL = {
    "article": ("author title journal year", "volume number pages month note"),
    "book": ("author/editor title publisher year", "volume number series address edition month note"),
    "booklet": ("title", "author howpublished address month year note"),
    "inbook": ("author/editor title chapter/pages publisher year", "volume number series type address edition month note"),
    "incollection": ("author title booktitle publisher year", "editor volume number series type chapter pages address edition month note"),
    "inproceedings": ("author title booktitle year", "editor volume number series pages address month organization publisher note"),
    "conference": ("author title booktitle year", "editor volume number series pages address month organization publisher note"),
    "manual": ("title", "author organization address edition month year note"),
    "mastersthesis": ("author title school year", "type address month note"),
    "misc": ("", "author title howpublished month year note"),
    "phdthesis": ("author title school year", "type address month note"),
    "proceedings": ("title year", "editor volume number series address month publisher note organization"),
    "techreport": ("author title institution year", "type number address month note"),
    "unpublished": ("author title note", "month year"),
}
# A style that reads the field hidden only where there is an author and no note.
STYLE = b"""ENTRY {author hidden key note title unread} {} {} FUNCTION {misc} {title empty$ {"no title" warning$} {title write$} if$
author missing$ {key missing$ {"no author or key" warning$} {key write$} if$} {author write$ note missing$ {hidden missing$ {} {hidden write$} if$} {} if$} if$ newline$}
FUNCTION {default.type} {misc} READ ITERATE {call.type$}"""
# A style whose functions name fields that no entry of the trial shows to be read: note decides the order alone, edition and doi are printed of one key and one year, and hidden by a function that a line begins with.
CONDITIONS = b"""ENTRY {title note edition doi year hidden unread other} {} {} STRINGS {s} FUNCTION {function} {hidden 's :=}
FUNCTION {special} {cite$ "special" = {edition write$} 'skip$ if$ year empty$ {""} {year} if$ "1984" = {doi write$} {skip$} if$ title empty$ {
function {hidden} pop$ } {title write$} if$}
FUNCTION {misc} {special newline$} FUNCTION {book} {title write$ other write$ newline$} FUNCTION {default.type} {misc}
FUNCTION {presort} {note empty$ {""} {note} if$ purify$ 'sort.key$ :=} FUNCTION {unused} {unread write$} READ ITERATE {presort} SORT ITERATE {call.type$}"""
# What the functions of styles that are made by chance have.
PIECES = [b"a write$", b"b empty$ {} {b write$} if$", b"crossref missing$ {} {c write$} if$", b'cite$ "q" = {d write$} {} if$', b"e 'v :=", b"f 'sort.key$ :=", b'v "x" = {g write$} {} if$', b"call.type$ a pop$"]
FIELDS = "abcdefg"


def made_style(maker):
    """A style of some functions, of which each may call those before it."""
    functions, texts = [], []
    for number in range(6):
        body = maker.choices([*PIECES, *functions], k=maker.randrange(1, 4))
        if any(b"call.type$" in it for it in body) and number < 3:
            body = [b"skip$"]
        texts.append(b"FUNCTION {%s}\n{%s newline$}" % ((b"t", b"u", b"f2", b"f3", b"f4", b"f5")[number], b"\n".join(body)))
        functions.append((b"t", b"u", b"f2", b"f3", b"f4", b"f5")[number])
    commands = [b"ITERATE {%s}" % maker.choice(functions) for _ in range(2)]
    return b"ENTRY {a b c d e f g}{}{} STRINGS {v}\n%s\nREAD %s SORT ITERATE {call.type$}" % (b"\n".join(texts), commands[0])


def made_database(maker, names):
    """Entries of the type t with some of these fields, and a parent of theirs without any."""
    keys = maker.sample(["k", "q", "m"], 2)
    fields = [[f", {name} = {{{maker.choice('xyz')}}}" for name in names if maker.randrange(2)] for _ in keys]
    return keys, [f"@t{{{key}{''.join(those)}{', crossref = {p}' if maker.randrange(2) else ''}" for key, those in zip(keys, fields)]


def differences(asked):
    """In what a type differs from the manual: key is left out."""
    required = {*asked.required, *("/".join(pair) for pair in asked.one_of if "key" not in pair)}
    optional = ({*asked.optional, *(name for pair in asked.one_of if "key" in pair for name in pair)}) - {"key"}
    wanted, others = (set(words.split()) for words in MANUAL[asked.type])
    return sorted(required ^ wanted), sorted(optional ^ others)


class Fields(unittest.TestCase):
    def test_the_manual(self):
        if shutil.which("kpsewhich") is None:
            self.skipTest("there is no TeX Live")
        for style in ("plain", "abbrv", "alpha", "unsrt"):
            found = {asked.type: asked for asked in fields_of(named_style(style, found_search()), MANUAL)}
            for kind in MANUAL:
                with self.subTest(style=style, kind=kind):
                    self.assertEqual(differences(found[kind]), ([], []))
            self.assertIn(("volume", "number"), found["article"].beside)
            self.assertEqual([set(pair) for pair in found["book"].not_both], [{"volume", "number"}])

    def test_each_part(self):
        (asked, default) = fields_of(STYLE)
        self.assertEqual((asked.type, asked.required, asked.one_of), ("misc", ("title",), (("author", "key"),)))
        self.assertEqual((asked.optional, asked.may_be_read, asked.never_read, asked.beside, asked.not_both), (("hidden", "note"), (), ("unread",), (), ()))
        self.assertEqual(default.required, ("title",))
        self.assertEqual([asked.type for asked in fields_of(STYLE, ["misc", "other"])], ["misc", "other"])
        self.assertEqual(fields_of(b""), [])

    def test_what_trying_does_not_show_may_be_read(self):
        misc, book, default, _ = fields_of(CONDITIONS)
        self.assertEqual((misc.type, misc.optional, misc.may_be_read, misc.never_read), ("misc", ("title", "note"), ("edition", "doi", "year", "hidden"), ("unread", "other")))
        self.assertIn("  may be read  edition, doi, year, hidden\n  never read   unread, other", as_text([misc]))
        self.assertIn("<dt>may be read</dt><dd>edition, doi, year, hidden</dd>", as_page("s.bst", [misc]))
        self.assertEqual(json.loads(as_json([misc]))[0]["may_be_read"], ["edition", "doi", "year", "hidden"])
        self.assertEqual((book.type, book.never_read), ("book", ("edition", "doi", "year", "hidden", "unread")))
        self.assertEqual((default.never_read, fields_of(CONDITIONS, ["BOOK"])[0].never_read), (misc.never_read, book.never_read))
        endless = b"ENTRY {a}{}{} FUNCTION {t}{skip$} FUNCTION {l}{{#1} {} while$} READ EXECUTE {l} FUNCTION {u} {a write$} ITERATE {u}"
        self.assertEqual([(asked.may_be_read, asked.never_read) for asked in fields_of(endless, ["t"])], [(("a",), ())])

    def test_beside_a_parent(self):
        if shutil.which("kpsewhich") is None:
            self.skipTest("there is no TeX Live")
        (article,) = fields_of(named_style("unsrt", found_search()), ["article"])
        self.assertIn("key", article.optional)
        (article,) = fields_of(named_style("plain", found_search()), ["article"])
        self.assertEqual((article.may_be_read, "publisher" in article.never_read), (("editor", "organization"), True))

    def test_what_is_never_read_counts_in_no_job(self):
        maker, fields = random.Random(63), 0
        for _ in range(60):
            style = made_style(maker)
            (asked,) = fields_of(style, ["t"])
            fields += len(asked.never_read)
            for _ in range(4):
                names = [name for name in FIELDS if name not in asked.never_read]
                keys, entries = made_database(maker, names)
                extra = "".join(f", {name} = {{x}}" for name in asked.never_read)
                aux = "".join(f"\\citation{{{key}}}\n" for key in [*keys, "p"]) + "\\bibdata{d}\n\\bibstyle{s}\n"
                lists = [btx.run("j", {"j.aux": aux.encode(), "s.bst": style, "d.bib": "}".join([*(entry + more for entry in entries), "@t{p}"]).encode()}).bbl for more in ("", extra)]
                self.assertEqual(lists[0], lists[1], style)
        self.assertGreater(fields, 60)

    def test_a_faulty_style(self):
        with tempfile.TemporaryDirectory() as folder:
            path = os.path.join(folder, "two.bst")
            with open(path, "wb") as file:
                file.write(b"ENTRY {title} {}\nFUNCTION {misc} {title write$ none}\nREAD ITERATE {call.type$}\n")
            done = run_module("fields", path)
        self.assertEqual((done.returncode, done.stdout), (2, b""))
        self.assertEqual(done.stderr.decode().splitlines()[0], f"btx fields: {path}: line 2: I was expecting a {{")
        with self.assertRaises(StyleFaulty) as raised:
            fields_of(b"FUNCTION {misc} {none}")
        self.assertEqual([message.text for message in raised.exception.mistakes], ["none is an unknown function"])

    def test_the_command(self):
        style = str(SOURCES / "examples/article/article.bst")
        text, as_json, page = (run_module("fields", *words, style) for words in ((), ("--json",), ("--html",)))
        self.assertEqual([done.returncode for done in (text, as_json, page)], [0, 0, 0])
        types = [asked["type"] for asked in json.loads(as_json.stdout)]
        self.assertEqual([line for line in text.stdout.decode().splitlines() if line and not line.startswith(" ")], types)
        self.assertEqual([f"<h2>{kind}</h2>" in page.stdout.decode() for kind in types], [True] * len(types))
        self.assertEqual([run_module("fields", *words).returncode for words in ((), ("no-such-style",), (style, "--json", "--html"))], [1, 1, 1])


if __name__ == "__main__":
    unittest.main()
