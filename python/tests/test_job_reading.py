"""The library of a job as data."""

import os
import pathlib
import pickle
import random
import tempfile
import unittest

import btx
from tests.jobs import EXAMPLES
from tests.made import names_for_style, shown_entries, style_of
from tests.spoilt import of_tex_live, spoilt

JOBS = int(os.environ.get("BTX_TEST_JOBS", "500"))
STYLE = b"ENTRY{title year publisher}{}{} FUNCTION{book}{} FUNCTION{misc}{} READ"
DATABASE = b"@misc{child, year = 1, crossref = {PARENT}, note = {n}, title = {own}} @strange{s, title={\xff}} @book{Parent, title = {t}, publisher = {P}, year=2}"
TYPES = [b"book", b"misc", b"article", b"inbook"]
FIELDS = [b"title", b"author", b"year", b"note", b"crossref"]


def job_of(database, *cited, style=STYLE):
    citations = b"".join(b"\\citation{%s}\n" % key for key in cited)
    return {"j.aux": citations + b"\\bibdata{d}\n\\bibstyle{s}\n", "s.bst": style, "d.bib": database}


class Shapes(unittest.TestCase):
    def test_entries(self):
        library = btx.read_job("j", job_of(DATABASE, b"S", b"child"), btx.Options(min_crossrefs=1))
        self.assertEqual([(entry.type, entry.key) for entry in library], [("", "S"), ("misc", "child"), ("book", "Parent")])
        self.assertEqual(list(library["CHILD"].items()), [("crossref", "Parent"), ("title", "own"), ("year", "1"), ("publisher", "P")])
        self.assertIs(library["child"].parent, library["parent"])
        self.assertEqual(library["s"]["title"], "\udcff")
        self.assertEqual((repr(library), len(library), library.strings, library.preamble), ("<btx.Library j: 3 entries>", 3, {}, ""))

    def test_a_parent_that_leaves(self):
        library = btx.read_job("j.aux", job_of(DATABASE, b"child"))
        self.assertEqual([(entry.key, dict(entry)) for entry in library], [("child", {"title": "own", "year": "1", "publisher": "P"})])
        self.assertIsNone(library["child"].parent)

    def test_no_places(self):
        library = btx.read_job("j", job_of(DATABASE, b"child"))
        for asks in (lambda: library["child"].place, lambda: library["child"].raw, lambda: library["child"].place_of("title"), lambda: library.messages):
            with self.assertRaises(LookupError):
                asks()

    def test_jobs_without_a_library(self):
        for files in ({}, {"j.aux": b""}, {"j.aux": b"\\bibstyle{s}\n\\bibdata{d}\n"}):
            with self.assertRaises(btx.NoLibrary) as raised:
                btx.read_job("j", files)
            self.assertEqual((raised.exception.job, str(raised.exception)), ("j", "the run of the job j ends before it has a library: its log says why"))
            self.assertEqual(str(pickle.loads(pickle.dumps(raised.exception))), str(raised.exception))
        self.assertEqual(len(btx.read_job("j", job_of(b"@misc{k}"))), 0)

    def test_refusals(self):
        with self.assertRaises(TypeError):
            btx.read_job("j", {}, 7)
        with self.assertRaises(btx.FinderRefused):
            btx.read_job("j", 7)
        with self.assertRaises(btx.NameRefused):
            btx.read_job("j\n", {})

    def test_a_paper(self):
        folder = EXAMPLES / "cross_reference"
        there = os.getcwd()
        try:
            os.chdir(folder)
            library = btx.read_job("job")
        finally:
            os.chdir(there)
        self.assertEqual([dict(entry) for entry in library], [dict(entry) for entry in btx.read_job("job", btx.in_folder(folder))])
        self.assertTrue(len(library))

    def test_a_paper_that_is_not_there(self):
        for call in (btx.read_job, btx.run_paper):
            for path in ("no/such/paper", b"no/such/paper.aux", pathlib.Path("no/such/paper")):
                with self.subTest(call=call, path=path), self.assertRaises(FileNotFoundError) as raised:
                    call(path)
                self.assertEqual(raised.exception.filename, "no/such/paper.aux")

    def test_inherited_texts_that_need_more_room(self):
        parent = b"@book{p, publisher = {" + b"x" * 100_000 + b"}}"
        library = btx.read_job("j", job_of(b"".join(b"@misc{k%d, crossref = {p}}" % number for number in range(300)) + parent, b"*"))
        self.assertEqual({len(entry["publisher"]) for entry in library}, {100_000})

    def test_it_is_pickled(self):
        library = btx.read_job("j", job_of(DATABASE, b"child"))
        self.assertEqual([dict(entry) for entry in pickle.loads(pickle.dumps(library))], [dict(entry) for entry in library])


class BesideRuns(unittest.TestCase):
    """A library has the keys, types, fields, values and order of a run of a style that shows each field of each entry."""

    def same(self, databases, cited, least):
        """How many entries the job has, and how many of them a parent."""
        named = [f"d{number}" for number in range(len(databases))]
        bases = [btx.read(text) for text in databases]
        types, fields = {entry.type for base in bases for entry in base}, {name for base in bases for entry in base for name in entry}
        style = style_of(types, fields).replace(b"type$ top$", b'type$ top$ crossref missing$ {} {"crossref" top$ crossref top$} if$')
        citations = b"".join(b"\\citation{%s}\n" % key for key in cited)
        files = {"j.aux": citations + b"\\bibdata{%s}\n\\bibstyle{s}\n" % ",".join(named).encode(), "s.bst": style, **{f"{name}.bib": text for name, text in zip(named, databases)}}
        options = btx.Options(min_crossrefs=least, most_log=400_000_000, budget=10**10)
        shown = shown_entries(btx.run("j", files, options).messages)
        library = btx.read_job("j", files, options)
        self.assertEqual([(entry.key, entry.type, dict(entry)) for entry in library], shown)
        self.assertEqual([list(entry) for entry in library], [list(fields) for _, _, fields in shown])
        self.assertTrue(all(entry.parent is not None for entry in library if "crossref" in entry))
        return len(shown), sum("crossref" in entry for entry in library)

    def test_made_jobs(self):
        maker, entries, children = random.Random(71), 0, 0
        for _ in range(JOBS):
            databases = [b"".join(made_entry(maker) for _ in range(maker.randrange(1, 9))) for _ in range(maker.randrange(1, 4))]
            cited = [cased(made_key(maker), maker) for _ in range(maker.randrange(0, 6))] + [b"*"] * (maker.randrange(5) == 0)
            maker.shuffle(cited)
            found = self.same(databases, cited, maker.randrange(0, 4))
            entries, children = entries + found[0], children + found[1]
        self.assertGreater(entries, 2 * JOBS)
        self.assertGreater(children, JOBS // 4)

    def test_spoilt_databases(self):
        maker = random.Random(72)
        texts = list(spoilt(JOBS, seed=73))
        total = sum(self.same([text, maker.choice(texts)], [b"*"] if maker.randrange(2) else [b"b", b"A", b"k", b"kay"], 2)[0] for text in texts)
        self.assertGreater(total, JOBS)

    def test_databases_of_tex_live(self):
        paths = of_tex_live()
        if not paths:
            self.skipTest("there is no TeX Live")
        for path in paths:
            with self.subTest(path=path.name):
                self.same([path.read_bytes()], [b"*"], 2)


def made_key(maker):
    return b"k%d" % maker.randrange(12)


def cased(key, maker):
    return key.upper() if maker.randrange(3) == 0 else key


def made_entry(maker):
    """An entry with some fields, of which some are there twice or refer to another entry."""
    names = [maker.choice(FIELDS) for _ in range(maker.randrange(0, 6))]
    values = [cased(made_key(maker), maker) if name == b"crossref" else b"v%d  x" % maker.randrange(100) for name in names]
    return b"@%s{%s%s}\n" % (maker.choice(TYPES), cased(made_key(maker), maker), b"".join(b", %s = {%s}" % it for it in zip(names, values)))


if __name__ == "__main__":
    unittest.main()
