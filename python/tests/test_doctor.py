"""The checks of databases, each on a text where it finds something and on one where it doesn't; what a run would log, beside runs; the command."""

import contextlib
import io
import json
import os
import pathlib
import random
import re
import sys
import tempfile
import time
import unittest
import unittest.mock

import btx
from btx import checkup
from btx.checkup import Remedies
from btx.diagnosing import diagnose
from btx.doctor import CHECKS, NO_TEXTS, ORGANIZATIONS, SAID, Citation, Source, Style, examine, hide_braces
from btx.documents import Document
from btx.pieces import Pieces
from btx.remedies import GENERAL, SEEN, remedy_of, said
from btx.workspace import Workspace
from tests.jobs import SOURCES
from tests.spoilt import SEEDS, SIGNS, logged, run_module, seeds, spoilt

STYLE = b"ENTRY {author title year} {} {}\nMACRO {acm} {\"ACM\"}\nFUNCTION {book} {}\nFUNCTION {misc} {}\nREAD\n"
TITLE = b"title = {A Title That Is Long}, year = 2000"
LONG = b"x" * 1_000_001
# A check; a text with its finding, which is marked by < and >; one without.
ROWS = [
    ("mistake", b"@misc{k, note <1>}", b"@misc{k, note = 1}"),
    ("repeated-key", b"@misc{k} @misc{<K>}", b"@misc{k} @misc{kk}"),
    ("key-of-tex", b"@misc{<c\\_d>}", b"@misc{c_d}"),
    ("unseen-sign", b"@misc{<lee\xe2\x80\x8b1>}", b"@misc{l\xc3\xa9e1}"),
    ("repeated-field", b"@misc{k, note = {A}, <Note> = {B}}", b"@misc{k, note = {A}, notes = {B}}"),
    ("long-value", b"@misc{k, <note> = {" + LONG + b"}}", b"@misc{k, note = {" + LONG[1:] + b"}}"),
    ("long-value", b"@ String ( <ab>={" + LONG + b"})", b"@string{ab={" + LONG[1:] + b"}}"),
    ("long-value", b"<@Preamble> {{" + LONG + b"}}", b"@preamble{{" + LONG[1:] + b"}}"),
    ("undefined-string", b"@misc{k, note = {A} # <zz>}", b"@string{ZZ = {z}} @misc{k, note = zz # jan # jacm}"),
    ("undefined-string", b"@string{s = <s> # {a}}", b"@string{s = {a}} @string{t = s}"),
    ("fields-in-text", b"@misc{k}\n  <note> = {A}\n", b"@misc{k}\n see note, or a = b\n"),
    ("fields-in-text", b"@misc{k, title = {Q}}}, <year> = 2001}\n", b"@misc{k, title = {Q}} a = b\n"),
    ("no-at-sign", b"@misc{k}\n<article>{lee, author = {A. Lee}}\n", b"@misc{k}\n see article{lee}, or article{lee, who = me\n and x article{lee, author = {A. Lee}}"),
    ("no-at-sign", b"<Book> (lee ,\n author = {A. Lee})", b"@book(lee ,\n author = {A. Lee})\n% article{lee, author = 1}\n"),
    ("repeated-doi", b"@misc{a, doi = {10.1/X}} @misc{<b>, doi = {https://doi.org/10.1/x}}", b"@misc{a, doi = {10.1/x}} @misc{b, doi = {10.1/y}}"),
    ("repeated-title", b"@misc{a, " + TITLE + b"} @misc{<b>, title = \"{A} title -- that is \\bf Long\", year = {2000}}", b"@misc{a, " + TITLE + b"} @misc{b, " + TITLE + b"1}"),
    ("et-al", b"@misc{k, author = {A. Bee <et al>.}}", b"@misc{k, author = {A. Bee and Pet Albers and others}}"),
    ("others-inside", b"@misc{k, author = {A Bee and <others> and C Dee}}", b"@misc{k, author = {A Bee and C Dee and others}}"),
    ("von-letter", "@misc{k, author = {<Émile> Zola}}".encode(), "@misc{k, author = {Zola, Émile and {\\'E}mile Zola and Émile and ÉA Zola and É{\\'M}ile Zola}}".encode()),
    ("bare-organization", b"@misc{k, author = {A Bee and <World Health Organization>}}", b"@misc{k, author = {{World Health Organization} and UNESCO and Committee and Pat O'Groups}}"),
    ("bare-organization", "@misc{k, editor = \"<Universität zu Köln>\"}".encode(), "@misc{k, editor = {{Universität zu Köln} and Jo Universitätsen}}".encode()),
    ("not-hidden", b"% so <@misc>{k, note = {A}}", b"@misc{k, note = {\n% a@b}}\n@misc{j}\n@comment{x}\n@misc{l}"),
    ("not-hidden", b"@misc{k}\n @Comment{ <@misc>{j} }", b"@misc{k} % @misc{j}\n@comments{x} @misc{l}"),
    ("names-by-sign", b"@misc{k, author = {Bee, A.<;> Dee, C.}}", b"@misc{k, author = {{Bee; Dee} and Bee, A. and {Smith \\& Sons}}}"),
    ("names-by-sign", b"@misc{k, author = {A. Bee <\\&> C. Dee}}", b"@misc{k, author = {A. Bee and C. Dee}}"),
    ("names-by-commas", b"@misc{k, author = {<Ann Bee, Cid Dee, Eve Eff>}}", b"@misc{k, author = {King, Jr., Martin and Bee, A. and de la Cruz, Jr., A. B.}}"),
    ("names-by-commas", b"@misc{k, author = {<Bee, A., Dee, C.>}}", b"@misc{k, author = {Bee, A. and Dee, C.}}"),
    ("names-by-commas", b"@misc{k, author = {<Bee, A.and Cee, D.>}}", b"@misc{k, author = {Lee, {A. and B.}, Ann and Ann and Bo}}"),
    ("names-by-commas", b"@misc{k, author = {<Bee, A. et Cee, D.>}}", b"@misc{k, author = {King, M., Jr.}}"),
    ("names-by-commas", b"@misc{k, author = {<Bee, A., Cee>}}", b"@misc{k, author = {Lee, II, A. B.}}"),
    ("names-by-commas", b"@misc{k, author = {<A. Bee, C. Dee> and E. Fee}}", b"@misc{k, author = {A. Bee and Dee, C. D. and E. Fee, Jr. and A. Gee, Inc.}}"),
    ("stray-and", b"@misc{k, author = {A. Bee <and>}}", b"@misc{k, author = {A. Bee and Andy Dee}}"),
    ("stray-and", b"@misc{k, author = {A. Bee AND\n <and> C. Dee}}", b"@misc{k, author = {A. Bee and {and} and Ann}}"),
    ("stray-and", b"@misc{k, author = { <And> C. Dee}}", b"@misc{k, author = {{A. Bee and}}}"),
    ("suffix-last", b"@misc{k, author = {A. Bee and <Guy L. Steele, Jr.>}}", b"@misc{k, author = {Steele, Jr., Guy L. and Steele Jr., Guy and King III and Jr., Guy and {Steele, Jr.}}}"),
    ("suffix-last", b"@misc{k, editor = {<King, Martin,~III> and C. Dee}}", b"@misc{k, editor = {King, III, Martin and Strunk, Jr and Senior, Sra}}"),
    ("no-break-space", b"@misc{k, author = {A. Bee<\xc2\xa0>and C. Dee}}", "@misc{k, author = {Émile Zola and {A.\xa0Bee}}}".encode()),
    ("list-in-braces", b"@misc{k, author = {<{Bee, A. and Dee, C.}>}}", b"@misc{k, author = {{Centre for Disease Prevention and Control}}} @misc{j, author = {{Food and Drug Administration}}}"),
    ("names-exchanged", b"@misc{mccarthy1960, author = <{McCarthy John}>} @misc{k, author = {John D. Hobby}}", b"@misc{k, author = {McCarthy John}} @misc{j, author = {John D. Hobby}}"),
    ("sign-of-tex", b"@misc{k, note = {doi:10.1007/978-3<_>2}}", b"@misc{k, note = {A \\& B, $a_b$ and \\url{a_b}}, url = {a_b}}"),
    ("sign-of-tex", b"@article{k, journal = {Law <&> Order}}", b"@article{k, journal = {Law \\& Order}, author = {A & B}}"),
    ("combining-accent", "@misc{k, author = {Paul Erd<o\u030b>s}}".encode(), "@misc{k, author = {Paul Erd\u0151s}, file = {o\u030b}, note = {\u0430\u0301}}".encode()),
    ("combining-accent", "@string{s = {<x\u0301>}}".encode(), "@string{s = {\u017c}}".encode()),
    ("not-utf8", b"@misc{k, note = {M<\xfc>ller}}", "@misc{k, note = {Müller}}".encode()),
    ("unusual-type", b"<@online>{k}", b"@misc{k}"),
    ("misspelt-field", b"@misc{k, <page> = 1}", b"@misc{k, pages = 1, page = 2, date = 3, url2 = 4, idnumber = 5}"),
    ("missing-field", b"@manual{<k>}", b"@manual{k, title = {T}} @misc{j} @online{l}"),
    ("missing-in-parent", b"@manual{<k>, crossref = {p}} @misc{p}", b"@manual{k, crossref = {p}} @misc{p, title = {T}} @manual{l, crossref = {m}}"),
    ("no-parent", b"@misc{k, <crossref> = {Q}} @book{p}", b"@misc{k, crossref = {Q}} @book{q}"),
    ("nested-parent", b"@misc{k, <crossref> = {p}} @book{p, crossref = {q}} @book{q}", b"@misc{k, crossref = {p}} @misc{l, crossref = {p}} @book{p}"),
    ("parent-above", b"@book{p, title = {T}} @misc{k, <crossref> = {P}}", b"@misc{k, crossref = {p}} @book{p, title = {T}} @misc{l, crossref = {p}} @misc{m, crossref = {q}}"),
    ("year-of-words", b"@misc{k, year = <{to appear}>}", b"@misc{k, year = {1998}} @misc{j, year = {in press 2001}} @misc{l, year = {(1998)}}"),
    ("lost-capitals", b"@misc{k, title = {A structure for <DNA> of it}}", b"@misc{k, title = {A Structure for {DNA}}} @book{j, title = {A structure for DNA}} @misc{l, title = {On Low-Cost Printers}}"),
    ("lost-capitals", b"@misc{k, title = {The small words of a <Franklin>}}", b"@misc{k, title = {Digital Halftoning with texture control}}"),
    ("lowered-tex", b"@misc{k, title = {The <\\LaTeX>3 Project}}", b"@misc{k, title = {The {\\LaTeX}3 \\emph{Project} of \\O, {\\TeX}: Me}} @book{j, title = {The \\LaTeX}}"),
    ("lowered-tex", b"@misc{k, title = {An <$O(n \\log n)$> Network}}", b"@misc{k, title = {{$O(n)$} and $\\mathcal{O}(n)$ cost \\$5 or A \\$6: $n$}}"),
    ("odd-dollars", b"@misc{k, title = <{On $n}>}", b"@misc{k, title = {On $n$, \\$5, \\\\$m$ and \\url{http://a.b/$c}}, url = {http://a.b/$c}, doi = {$}}"),
    ("odd-dollars", b"@misc{k, title = <{On \\\\$n} # { or m}>}", b"@misc{k, title = {On $n} # { or m$}}"),
    ("empty-field", b"@misc{k, note = <{ \n}>}", b"@misc{k, note = {a}, x = 0}"),
    ("one-hyphen", b"@misc{k, pages = <{1-2}>}", b"@misc{k, pages = {1--2, a-b}}"),
    ("one-hyphen", "@misc{k, pages = <{1\u201320}>}".encode(), "@misc{k, pages = {1--20}} @misc{j, pages = {A\u2013B}}".encode()),
    ("month-text", b"@misc{k, month = <\"January\">}", b"@misc{k, month = jan} @misc{j, month = {Spring}}"),
]
# What is found when all databases are read, and not in pieces of a text.
OF_WHOLE = frozenset(("not-utf8", "not-hidden", "names-exchanged", "missing-in-parent", "no-parent", "nested-parent", "parent-above"))
OF_STYLE = [
    ("unread-field", b"@misc{k, <note> = {A}}", b"@misc{k, title = {A}, crossref = {x}}"),
    ("unknown-type", b"<@article>{k}", b"@book{k}"),
    ("odd-dollars", b"@misc{k, title = <{$}>}", b"@misc{k, note = {$}}"),
    ("undefined-string", b"@misc{k, title = <jan>}", b"@misc{k, title = acm, note = zz}"),
]


# A style that prints where an article was published, and of a misc how; both titles in small letters but a book's.
PRINTING = b"""ENTRY {author title journal howpublished volume number institute} {} {}
FUNCTION {show} {duplicate$ empty$ {pop$} {write$ newline$} if$}
FUNCTION {article} {title empty$ {"empty title in " cite$ * warning$} 'skip$ if$ title "t" change.case$ write$ newline$ journal show volume empty$ {number show} {volume show} if$}
FUNCTION {misc} {title "t" change.case$ write$ newline$ howpublished show}
FUNCTION {book} {title show}
FUNCTION {techreport} {title show institute show}
READ
ITERATE {call.type$}
"""
OF_PRINTING = [
    ("missed-field", b"@article{<k>, journal = {J}}", b"@article{k, title = {T}} @misc{j} @article{l, title = {T}}, year = 1}"),
    ("unprinted-field", b"@misc{k, title = {T}, <journal> = {J}}", b"@misc{k, title = {T}, journal = {J}, howpublished = {H}} @article{l, title = {T}, journal = {J}, volume = 1, number = 2}"),
    ("unprinted-field", b"@book{k, title = {T}, <volume> = 1}", b"@book{k, title = {T}, abstract = {A}, keywords = {K}, file = {F}} @online{k, journal = {J}} @misc{l, journal = {J}, crossref = {k}}"),
    ("lowered-tex", b"@misc{k, title = {The <\\TeX>}}", b"@book{k, title = {The \\TeX}}"),
    ("lost-capitals", b"@misc{k, title = {A structure for <DNA> of it}}", b"@techreport{k, title = {A structure for DNA of it}}"),
]


def found_in(text, style=None, **named):
    return examine([Source("d.bib", text)], style, **named)


def calls_of(what):
    """How many functions of Python are called, whatever the machine is."""
    calls = [0]

    def count(frame, event, argument):
        calls[0] += event == "call"

    sys.setprofile(count)
    try:
        what()
    finally:
        sys.setprofile(None)
    return calls[0]


def steps_of(what):
    """How many lines of Python are executed, those of generators and of other modules too, and how many functions are called."""
    steps = [0]

    def trace(frame, event, argument):
        steps[0] += 1
        return trace

    before = sys.gettrace()
    sys.settrace(trace)
    try:
        what()
    finally:
        sys.settrace(before)
    return steps[0]


@contextlib.contextmanager
def in_folder(folder):
    before = os.getcwd()
    os.chdir(folder)
    try:
        yield
    finally:
        os.chdir(before)


class Checks(unittest.TestCase):
    def check_rows(self, rows, style):
        for name, marked, other in rows:
            with self.subTest(check=name, text=marked):
                start, end = marked.index(b"<"), marked.index(b">") - 1
                text = marked.replace(b"<", b"").replace(b">", b"")
                found = [finding for finding in found_in(text, style) if finding.check == name]
                self.assertEqual([(finding.start, finding.end) for finding in found], [(start, end)])
                self.assertEqual([finding for finding in found_in(other, style) if finding.check == name], [])

    def test_each(self):
        self.check_rows(ROWS, None)

    def test_each_of_a_style(self):
        self.check_rows(OF_STYLE, Style(STYLE))

    def test_what_a_style_prints(self):
        self.check_rows(OF_PRINTING, Style(PRINTING, name="own"))
        found = found_in(b"@misc{k, title = {A \\TeX}, journal = {J}}", Style(PRINTING, name="own"))
        self.assertEqual([it.text for it in found], ["put `\\TeX` into braces, as `{\\TeX}`: own makes `\\tex` of it", "own doesn't print `journal` for `@misc`: it does for `@article`"])
        found = found_in(b"@misc{k, journal = {J}} @techreport{r, institution = {I}, note = {N}}", printing=Style(PRINTING).printing)
        self.assertEqual([(it.check, it.key) for it in found if it.check.startswith("un")], [("unprinted-field", "k"), ("unread-field", "r")])

    def test_a_style_is_tried_so_much_and_no_more(self):
        """Of a style that doesn't end, or that is long, nothing is said of what it prints."""
        for style in (PRINTING.replace(b"{title show}", b"{{#1} {} while$}"), PRINTING + b"% " + b"x" * 30_000_000):
            printing = Style(style).printing
            self.assertEqual((printing.prints(b"book", b"volume"), printing.lowers(b"book")), (True, False))
            for kind in (b"article", b"misc", b"book"):
                self.assertTrue(printing.prints(kind, b"journal"))
            self.assertLess(sum(len(prober.known) for prober in printing.probers.values()), 12)

    def test_what_is_to_be_written(self):
        rows = [
            ("@misc{k, author = {Guy L. Steele, Jr.}}", "write `Steele, Jr., Guy L.`, as in `von Last, Jr, First`: `Jr.` stands in the place of the first name"),
            ("@misc{k, author = {Ludwig van Beethoven, III}}", "write `van Beethoven, III, Ludwig`, as in `von Last, Jr, First`: `III` stands in the place of the first name"),
            ("@misc{k, author = {King, Martin L., Jr}}", "write `King, Jr, Martin L.`, as in `von Last, Jr, First`: `Jr` stands in the place of the first name"),
            ("@misc{k, pages = {1\u20132}}", "a range of pages with an en dash (U+2013): write `--`"),
            ("@misc{k, pages = {1 \u2212 2}}", "a range of pages with a minus sign (U+2212): write `--`"),
            ("@misc{k, title = {A $\\Omega(n)$ Bound}}", "put `$\\Omega(n)$` into braces, as `{$\\Omega(n)$}`: styles such as plain make `$\\omega(n)$` of it"),
            ("@misc{k, note = {Erdo\u030bs}}", "`o` and after it U+030B, a combining accent: write `\u0151` (U+0151), one letter, or `{\\H{o}}`"),
            ("@misc{k, note = {i\u0301}}", "`i` and after it U+0301, a combining accent: write `\u00ed` (U+00ED), one letter, or `{\\'\\i}`"),
            ("@misc{k, note = {e\u0302\u0301}}", "`e` and after it U+0302 and U+0301, combining accents: write `\u1ebf` (U+1EBF), one letter, or `{\\'{\\^{e}}}`"),
            ("@misc{k, note = {x\u0301}}", "`x` and after it U+0301, a combining accent: write `{\\'{x}}`"),
        ]
        for text, words in rows:
            with self.subTest(text=text):
                self.assertEqual([it.text for it in found_in(text.encode())], [words])

    def test_an_editor_writes_it(self):
        text = "article{n, year = 1}\n@book{k, pages = {1\u20132}, author = {Guy Steele, Jr.}, note = {Erdo\u030bs, x\u0301}}\n@misc{l, title = {The \\TeX}}\n"
        written = {}
        for it in diagnose(Document("file:///nowhere/d.bib", text), Workspace()):
            mending = it.mend()
            if mending is not None:
                written[text.encode()[mending.start : mending.end].decode()] = mending.text
        self.assertEqual(written, {"article": "@article", "{1\u20132}": "{1--2}", "Guy Steele, Jr.": "Steele, Jr., Guy", "o\u030b": "\u0151", "x\u0301": "{\\'{x}}", "\\TeX": "{\\TeX}"})

    def test_the_first_child_has_its_parent_stored(self):
        self.assertEqual([it.key for it in examine([Source("1.bib", b"@book{p}"), Source("2.bib", b"@misc{k, crossref = {p}}")]) if it.check == "parent-above"], ["k"])
        self.assertEqual([it.key for it in examine([Source("2.bib", b"@misc{k, crossref = {p}}"), Source("1.bib", b"@book{p} @misc{l, crossref = {p}}")]) if it.check == "parent-above"], [])

    def test_each_can_be_switched_off(self):
        for name, marked, _ in ROWS:
            with self.subTest(check=name):
                text = marked.replace(b"<", b"").replace(b">", b"")
                self.assertNotIn(name, {finding.check for finding in found_in(text, off=frozenset([name]))})

    def test_a_value_that_is_too_long_is_not_empty(self):
        text = b"@string{s = {%s}} @misc{k, x = s, note = s # {%s}, y = {%s}}" % (LONG[1:], b"a", LONG)
        self.assertEqual([it.text for it in found_in(text) if it.check in ("long-value", "empty-field")], [f"the value of {name} has more than 1,000,000 bytes" for name in ("note", "y")])
        self.assertEqual([it.text for it in found_in(text, Style(STYLE)) if it.check == "long-value"], [])

    def test_citations(self):
        aux = Source("j.aux", b"k,zz,K")
        citations = [Citation(b"k", aux, 0), Citation(b"zz", aux, 2), Citation(b"K", aux, 5)]
        found = found_in(b"@misc{k, crossref = {p}} @misc{p} @misc{q}", citations=citations)
        self.assertEqual([(it.check, it.source.name, it.start, it.key) for it in found], [("no-entry", "j.aux", 2, "zz"), ("uncited", "d.bib", 40, "q")])
        found = found_in(b"@misc{k}", citations=[Citation(b"*", aux, 0), Citation(b"zz", aux, 2)])
        self.assertEqual([it.check for it in found], ["no-entry"])

    def test_a_list_in_braces_is_one_of_persons(self):
        known = b"@misc{a, author = {Ann Xi and Bob Yu}} @misc{b, author = {{%s}}}"
        said = lambda names: [it.check for it in found_in(known % names) if it.check == "list-in-braces"]
        for names in (b"Bee, A. and Dee, C.", b"A. Bee and C. Dee", b"Ann Bee and Bob Dee", b"Ann Bee and C. Dee"):
            self.assertEqual(said(names), ["list-in-braces"], names)
        for names in (
            b"National Aeronautics and Space Administration",
            b"U.S. Fish and Wildlife Service",
            b"Standards Australia and Standards New Zealand",
            b"Pantagraph Printing and Stationery Company",
            b"Dee, Bee and Ann Company, Inc.",
            b"A. Bee and Press Limited",
            b"Zoe Bee and Bob Dee",
        ):
            self.assertEqual(said(names), [], names)

    def test_works_have_the_same_year(self):
        works = b"@misc{a, title = {A Title That Is Long}%s} @misc{b, title = {A Title That Is Long}%s}"
        said = lambda one, two: [it.check for it in found_in(works % (one, two)) if it.check == "repeated-title"]
        for one, two in ((b", date = {2001-02}", b", date = {2001-03-04}"), (b", year = 2001", b", date = {2001-02}"), (b", year = 2001", b", year = 2001, date = {2002}")):
            self.assertEqual(said(one, two), ["repeated-title"], (one, two))
        for one, two in ((b"", b""), (b", date = {2001-02}", b", date = {2002-02}"), (b", date = {2001}", b""), (b", date = {}", b", year = {}"), (b", date = {undated}", b", date = {unknown}")):
            self.assertEqual(said(one, two), [], (one, two))

    def test_works_with_one_title_may_be_told_from_each_other(self):
        """As a column that each issue has: by fields that both have. However many there are, each is compared with few."""
        work = b"@misc{k%d, title = {A Title That Is Long}, year = 2001, %s}\n"
        said = lambda *fields: [it.key for it in found_in(b"".join(work % it for it in enumerate(fields))) if it.check == "repeated-title"]
        for one, other in ((b"pages = {1-2}", b"pages = {3-4}"), (b"volume = 1", b"volume = 2, pages = 1"), (b"number = 1", b"number = {2}"), (b"doi = {10.1/a}", b"doi = {10.1/b}")):
            self.assertEqual(said(one, other), [], (one, other))
        for one, other in ((b"pages = {1-2}", b"pages = \"1--2\""), (b"volume = 1", b"pages = 1"), (b"number = 1", b"number = {}"), (b"doi = {10.1/a}", b"doi = {https://doi.org/10.1/A}"), (b"", b"")):
            self.assertEqual(said(one, other), ["k1"], (one, other))
        self.assertEqual(said(b"pages = 1", b"pages = 2", b"pages = 2", b"pages = 1, volume = 1"), ["k2", "k3"])
        steps, more = (calls_of(lambda number=number: said(*(b"pages = %d" % it for it in range(number)))) for number in (250, 1000))
        self.assertLess(more, 5 * steps)

    def test_parents_are_said_as_a_run_says_them(self):
        """With each entry stored, by the style of the run that stops least."""
        database = b"@misc{a, crossref = {nope}} @misc{b, crossref = {B}} @misc{c, crossref = {B}} @misc{d, crossref = {}} @misc{e, crossref = { f }} @misc{f}"
        files = {"j.aux": b"\\citation{*}\n\\bibstyle{s}\n\\bibdata{d}\n", "s.bst": b"ENTRY {}{}{} FUNCTION {misc} {} READ", "d.bib": database}
        logged = [it.text for it in btx.messages_of(btx.run("j", files).log) if "cross references" in it.text or "cross reference" in it.text]
        said = [it.text for it in found_in(database) if it.check in ("no-parent", "nested-parent")]
        self.assertEqual((said, len(said)), (logged, 4))

    def test_what_follows_from_a_brace_isnt_said(self):
        said = lambda text: [it.check for it in examine([Source("d.bib", text)]) if it.check in ("missing-field", "names-by-commas", "fields-in-text", "mistake")]  # noqa: E731
        self.assertEqual(said(b"@book{a, author={A}, title={T}}, publisher={P}, year=2000}"), ["fields-in-text"])
        self.assertEqual(said(b"@book{a, author={A}, title={T}}, year=2000}"), ["missing-field", "fields-in-text"])
        self.assertEqual(said(b"@book{c, author={{B}, title={T}, publisher={P}, year=2000}\n"), ["mistake"])
        self.assertEqual(said(b"@misc{c, author={B, C, D, E} note}\n"), ["names-by-commas", "mistake"])

    def test_of_two_exchanged_names_neither_tells(self):
        said = lambda text: [it.check for it in found_in(text) if it.check == "names-exchanged"]
        self.assertEqual(said(b"@misc{k, author = {Wei Zhang and Zhang Wei}}"), [])
        self.assertEqual(said(b"@misc{zhang1, author = {Zhang Wei}} @misc{k, author = {Wei~Zhang}}"), [])
        self.assertEqual(said(b"@misc{k, author = {Zhang Wei}} @misc{j, author = {Zhang, Wei}}"), ["names-exchanged"])

    def test_all_checks_have_a_row(self):
        rows = {name for name, *_ in (*ROWS, *OF_STYLE, *OF_PRINTING)} | {"no-entry", "faulty-style", "logged-error", "logged-warning", "uncited", "all-entries", "older-aux"}
        self.assertEqual(rows, set(CHECKS))
        self.assertEqual(set(SAID), set(CHECKS))
        self.assertEqual({check.severity for check in CHECKS.values()}, {"error", "warning", "info"})
        self.assertTrue(all(check.exact.startswith(("Exact", "A guess")) for check in CHECKS.values()))

    def test_the_front_end_has_the_same_words(self):
        text = (SOURCES / "front/src/unsaid.rs").read_text(encoding="utf8")
        for name, words in (("ORGANIZATIONS", set(ORGANIZATIONS)), ("NO_TEXTS", {it.decode() for it in NO_TEXTS})):
            with self.subTest(name=name):
                found = re.search(rf"const {name}: [^=]*=\s*\[(.*?)\];", text, re.S)
                self.assertEqual(set(re.findall(r'"([^"]+)"', found[1])), words)

    def test_two_databases_are_those_of_one_job(self):
        one, two = Source("1.bib", b"@string{s = {x}} @misc{k}"), Source("2.bib", b"@misc{K, note = s} @misc{j, note = s}")
        self.assertEqual([(it.source.name, it.check) for it in examine([one, two])], [("2.bib", "repeated-key")])

    def test_braces_are_hidden(self):
        for text, hidden in ((b"a {b {c} and} d", b"a ........... d"), (b"{}a}b", b"..a.b"), (b"a {b", b"a .."), (b"", b"")):
            self.assertEqual(hide_braces(text), hidden)


class Edited(unittest.TestCase):
    def test_what_is_said_of_an_edited_text_is_what_is_said_of_it_alone(self):
        """Texts that are edited again and again in a workspace, with a style in use."""
        with tempfile.TemporaryDirectory() as room:
            pathlib.Path(room, "s.bst").write_bytes(b"ENTRY {title author year note doi}{}{}\nMACRO {zz} {\"Z\"}\nFUNCTION {misc} {}\n")
            pathlib.Path(room, "j.aux").write_bytes(b"\\bibstyle{s}\n")
            for seed in range(4):
                maker, workspace, uri = random.Random(seed), Workspace(), pathlib.Path(room, "d.bib").as_uri()
                text = (b"\n".join(SEEDS * 2) + b"@misc{n, doi = {1}, pages = {1-2}, author = {\xc3\x89mile Zola and others and B}}").decode()
                document = workspace.open[uri] = Document(uri, text)
                for edit in range(40):
                    with self.subTest(seed=seed, edit=edit):
                        alone = diagnose(Document(uri, document.text.decode()), Workspace())
                        self.assertEqual([it[:5] for it in diagnose(document, workspace)], [it[:5] for it in alone])
                    line = maker.randrange(len(document.lines))
                    places = [{"line": line, "character": maker.randrange(12)} for _ in range(2)]
                    document.edit(dict(zip(("start", "end"), places)), maker.choice([it.decode("latin1") for it in SIGNS] + ["@misc{a}"]))

    def test_pieces_find_what_is_found_in_the_whole_text(self):
        """500 edits by chance of texts whose pieces are one item each: strings, keys and mistakes that change what is said further on, and texts that end in the middle of an item."""
        styles = (None, Style(b"ENTRY {title author year note doi}{}{}\nMACRO {zz} {\"Z\"}\nFUNCTION {misc} {}\n"))
        put = [*SIGNS, b"@misc{a}", b"\n@string{s = 1}\n", b"@book{Kay}", b"@string{S = {x@y}}"]
        for seed in range(20):
            maker, pieces = random.Random(seed), Pieces()
            text = b"\n".join(maker.choice(seeds()) for _ in range(maker.randrange(1, 6)))
            with unittest.mock.patch("btx.renewing.LEAST_BYTES", 1), unittest.mock.patch("btx.renewing.MOST_PIECES", maker.choice((1000, 5))):
                for edit in range(25):
                    with self.subTest(seed=seed, edit=edit):
                        source, most = Source("d.bib", text), maker.choice((None, None, 5))
                        self.assertEqual(pieces.examine(source, styles[seed % 2], most), examine([source], styles[seed % 2], off=OF_WHOLE, most=most))
                        self.assertEqual(b"".join(piece.text for piece in pieces.all), text)
                    at, other = maker.randrange(len(text) + 1), maker.randrange(len(text) + 1)
                    to = min(len(text), at + maker.randrange(30))
                    text = text[:at] + maker.choice((maker.choice(put), b"", text[at:to] * 2, text[other : other + 100])) + text[to if edit % 2 else at :]

    def test_what_an_editor_misses_of_two_databases_is_listed(self):
        """An editor's database is examined by itself."""
        entry = b"title = {A Title That Is Long}, year = 2000"
        one = Source("1.bib", b"@string{s = {A}} @misc{a, %s} @misc{b, doi = {1}} @misc{c}" % entry)
        two = Source("2.bib", b"@misc{d, %s} @misc{e, doi = {1}} @misc{C} @misc{f, note = s}" % entry)
        apart = {it.check for source in (one, two) for it in Pieces().examine(source, None)}
        differ = apart ^ {it.check for it in examine([one, two])}
        self.assertEqual(differ, {"repeated-key", "repeated-doi", "repeated-title", "undefined-string"})
        readme = (pathlib.Path(__file__).resolve().parent.parent / "README.md").read_text()
        (listed,) = re.findall(r"What needs all databases is seen by this command alone.*?\n\n", readme, re.DOTALL)
        self.assertEqual([check for check in (*differ, *OF_WHOLE) if f"`{check}`" not in listed], [])

    def test_few_bytes_are_read_again(self):
        text = b"@string{s = {x}}\n" + b"".join(b"@misc{k%d, title = {A Title That Is Long}, note = s, year = %d}\n" % (number, number) for number in range(20_000))
        pieces, read = Pieces(), []
        real = btx.bibtext.read_records
        with unittest.mock.patch("btx.bibtext.read_records", lambda name, part, strings: read.append(len(part)) or real(name, part, strings)):
            other = text.replace(b"{k9,", b"{kk9,")
            repeated = other + b"@misc{K5}"
            for what, edited, most in (("all", text, len(text)), ("nothing", text, 0), ("a key", other, 100_000), ("a repeated key", repeated, 100_000), ("a string", repeated.replace(b"{x}", b"{y}"), len(repeated))):
                with self.subTest(edited=what):
                    read.clear()
                    found = pieces.examine(Source("d.bib", edited), None)
                    self.assertLessEqual(sum(read), most)
                    self.assertEqual(found, examine([Source("d.bib", edited)]))

    def test_the_first_findings_are_the_first_of_all(self):
        source = Source("d.bib", b"".join(SEEDS))
        whole = examine([source])
        for most in range(len(whole) + 2):
            self.assertEqual(examine([source], most=most), whole[:most])


class BesideRuns(unittest.TestCase):
    def test_what_a_run_logs(self):
        checks = ("mistake", "repeated-key", "repeated-field", "undefined-string")
        for text in spoilt(200, 65):
            source = Source("d.bib", text)
            fields = {source.text[it.name_start : it.name_end].lower() for item in btx.bibtext.read(text).items for it in item.fields}
            lines = btx.bibtext.Lines(text)
            found = sorted(it.text for it in examine([source], Style(b"ENTRY {" + b" ".join(sorted(fields)) + b"}{}{}")) if it.check in checks)
            self.assertEqual(found, sorted(said for _, said in logged(text, fields)), (text, lines.starts))


class Command(unittest.TestCase):
    def setUp(self):
        self.room = tempfile.TemporaryDirectory()
        self.addCleanup(self.room.cleanup)
        self.folder = pathlib.Path(self.room.name)
        (self.folder / "d.bib").write_bytes("@misc{k, note = {é} # zz, note 1}\n@misc{j}".encode())
        (self.folder / "ok.bib").write_bytes(b"@misc{k, note = {A}}\n")
        (self.folder / "s.bst").write_bytes(STYLE)
        (self.folder / "j.aux").write_bytes(b"\\relax\n\\citation{k,no}\n\\@input{c.aux}\n\\@input{j.aux}\n")
        (self.folder / "c.aux").write_bytes(b"\\citation{j}\n")

    def run_doctor(self, *words):
        done = run_module("doctor", *words, cwd=self.folder)
        return done.returncode, done.stdout.decode(), done.stderr.decode()

    def test_lines_for_people(self):
        status, out, errors = self.run_doctor("d.bib")
        self.assertEqual((status, errors), (2, ""))
        self.assertEqual(out.splitlines()[0], 'd.bib:1:23: warning: string name "zz" is undefined (k) [undefined-string]')
        self.assertEqual(out.splitlines()[1], "    what to do: define `zz` by `@string` above its use, or put braces or quotes round a text")
        self.assertEqual(out.splitlines()[2], "d.bib:1:32: error: I was expecting an = (k) [mistake]")
        self.assertEqual(self.run_doctor("ok.bib"), (0, "", ""))

    def test_lines_of_json(self):
        status, out, _ = self.run_doctor("--json", "--job", "j", "--style", "s", "d.bib")
        rows = [json.loads(line) for line in out.splitlines()]
        self.assertEqual({row["text"] for row in rows if row["name"] == "logged-error"},
                         {"Already encountered file j.aux", "I found no \\bibdata command", "I found no \\bibstyle command"})
        rows = [row for row in rows if row["name"] != "logged-error"]
        self.assertEqual(rows[0], {"file": "j.aux", "line": 2, "column": 13, "end_line": 2, "end": 15, "name": "no-entry", "severity": "warning",
                                   "text": 'I didn\'t find a database entry for "no"', "key": "no", "remedy": GENERAL['I didn\'t find a database entry for "~"']})
        self.assertEqual([row["name"] for row in rows], ["no-entry", "unread-field", "mistake"])
        self.assertEqual(status, 2)

    def test_a_job_names_its_databases(self):
        (self.folder / "p.aux").write_text("\\@input{c.aux}\n\\bibdata{nosuch,d.bib}\n\\bibdata{other}\n")
        (self.folder / "c.aux").write_text("\\citation{no}\n")
        status, out, errors = self.run_doctor("--job", "p", "--off", "uncited")
        self.assertEqual((status, errors), (2, "btx: there is no database nosuch.bib\n"))
        self.assertEqual({line.split(":")[0] for line in out.splitlines() if not line.startswith(" ")}, {"p.aux", "c.aux", "d.bib"})
        self.assertEqual(self.run_doctor("--job", "p", "d.bib")[2], "")
        (self.folder / "p.aux").write_text("\\bibdata{nosuch}\n")
        self.assertEqual(self.run_doctor("--job", "p")[:2], (1, ""))

    def test_off_and_list(self):
        self.assertEqual(self.run_doctor("--off", "mistake,undefined-string", "d.bib"), (0, "", ""))
        status, out, _ = self.run_doctor("--list")
        self.assertEqual((status, [line.split()[0] for line in out.splitlines()]), (0, list(CHECKS)))

    def test_refused_words(self):
        for words in ([], ["--off", "nothing", "d.bib"], ["--style", "nosuch", "d.bib"], ["--wrong"]):
            with self.subTest(words=words):
                self.assertEqual(self.run_doctor(*words)[:2], (1, ""))
        self.assertEqual(self.run_doctor("nosuch.bib"), (6, "", "btx: there is no file nosuch.bib\n"))
        self.assertEqual(self.run_doctor("--job", "nosuch", "d.bib")[:2], (6, ""))

    def test_it_changes_no_file(self):
        before = {path: (path.read_bytes(), path.stat().st_mtime_ns) for path in self.folder.iterdir()}
        self.run_doctor("--job", "j", "--style", "s.bst", "d.bib", "ok.bib")
        self.assertEqual({path: (path.read_bytes(), path.stat().st_mtime_ns) for path in self.folder.iterdir()}, before)

    def test_the_readme_has_the_table(self):
        readme = (pathlib.Path(__file__).resolve().parent.parent / "README.md").read_text()
        for check in CHECKS.values():
            self.assertIn(f"| `{check.name}` | {check.severity} | {check.exact} |", readme)


class OfJobs(unittest.TestCase):
    """What is said with --job: the databases in the job's order, what its run logs, and entries that nothing cites in one line."""

    STYLE = b"""ENTRY {author title journal booktitle year} {} {}
FUNCTION {misc} {author #1 "{ll}" format.name$ pop$ author #1 "{ff}" format.name$ pop$}
FUNCTION {article} {journal empty$ {"empty journal in " cite$ * warning$} {skip$} if$}
READ
ITERATE {call.type$}
"""

    def said(self, files, aux=b"\\citation{k}\n\\bibdata{d}\n\\bibstyle{s}\n", words=(), older=None):
        """What is said of a job with these files, the databases in the order of their names. All are newer than the `.aux` file, but for the one that is older."""
        with tempfile.TemporaryDirectory() as room:
            folder = pathlib.Path(room)
            (folder / "j.aux").write_bytes(aux)
            (folder / "s.bst").write_bytes(self.STYLE)
            for name, text in files.items():
                (folder / name).write_bytes(text)
            os.utime(folder / "j.aux", (1_000_000_000, 1_000_000_000))
            if older is not None:
                os.utime(folder / older, (999_999_999, 999_999_999))
            done = run_module("doctor", "--job", "j", *words, *sorted(name for name in files if name.endswith(".bib")), cwd=folder)
            self.assertEqual(done.stderr, b"")
            return done.returncode, done.stdout.decode().splitlines()

    def test_names_that_a_run_logs(self):
        status, lines = self.said({"d.bib": b"@misc{k, author = {Lee, A., Ray, B., Dunn, C.}}\n"})
        self.assertEqual(status, 2)
        self.assertEqual(lines, ['d.bib:1:10: error: Too many commas in name 1 of "Lee, A., Ray, B., Dunn, C." (k) [logged-error]',
                                 "    what to do: write ` and ` between two names: `Lee, A. and Ray, B. and Dunn, C.`"])

    def test_databases_in_the_order_of_the_job(self):
        databases = {"d.bib": b"@string{s = {A J}}\n", "e.bib": b"@article{k, journal = s}\n"}
        status, lines = self.said(databases, b"\\citation{k}\n\\bibdata{e,d}\n\\bibstyle{s}\n")
        self.assertEqual((status, lines), (0, ['e.bib:1:23: warning: string name "s" is undefined (k) [undefined-string]',
                                               "    what to do: write `\\bibliography{d,e}` and run LaTeX: d.bib defines the string and is read too late"]))
        self.assertEqual(self.said(databases, b"\\citation{k}\n\\bibdata{d,e}\n\\bibstyle{s}\n"), (0, []))

    def test_entries_that_nothing_cites(self):
        database = {"d.bib": b"@misc{k, author = {A. B}} @misc{one, author = {A. B}} @misc{two, author = {C. D}}\n"}
        self.assertEqual(self.said(database), (0, ["2 entries are not cited in j.aux: one, two (--each prints a line for each) [uncited]"]))
        self.assertEqual(len(self.said(database, words=["--each"])[1]), 2)
        for aux in (b"\\citation{k }\n\\bibdata{d}\n\\bibstyle{s}\n", b"\\abx@aux@cite{0}{k}\n", b"\\citation{k}\n\\citation{on"):
            with self.subTest(aux=aux):
                status, lines = self.said(database, aux)
                self.assertEqual((status, [line for line in lines if "uncited" in line]), (2, []))

    def test_entries_that_another_aux_file_cites(self):
        """multibib and bibunits write several `.aux` files for one document. Those of other databases don't count."""
        files = {"d.bib": b"@misc{k, author = {A. B}} @misc{one, author = {A. B}} @misc{two, author = {C. D}}\n"}
        files.update({"sec.aux": b"\\citation{One}\n\\bibdata{e,d}\n", "other.aux": b"\\citation{two}\n\\bibdata{e}\n"})
        self.assertEqual(self.said(files), (0, ["1 entry is not cited in j.aux: two (--each prints a line for each) [uncited]"]))
        self.assertEqual(self.said(files, words=["--each"])[1], ["d.bib:1:61: info: not cited in j.aux (two) [uncited]"])
        self.assertEqual(self.said({**files, "all.aux": b"\\citation{*}\n\\bibdata{d}\n"}), (0, []))

    def test_files_that_are_not_there(self):
        status, lines = self.said({"d.bib": b"@misc{k, author = {A. B}}"}, b"\\citation{k}\n\\bibdata{texts/d}\n\\bibstyle{s}\n")
        self.assertEqual((status, lines[0]), (2, "j.aux:2:10: error: I couldn't open database file texts/d.bib [logged-error]"))
        status, lines = self.said({"d.bib": b"@misc{k, author = {A. B}}"}, b"\\citation{k}\n\\bibdata{d}\n\\bibdata{e}\n\\bibstyle{s}\n")
        self.assertEqual((status, lines[0]), (2, "j.aux:3:1: error: Illegal, another \\bibdata command [logged-error]"))

    def test_what_a_document_shows_of_its_aux_file(self):
        database, whole = {"d.bib": b"@misc{k, author = {A. B}}"}, b"\\citation{k}\n\\bibdata{d}\n\\bibstyle{s}\n"
        rows = (
            (whole + b"\\bibstyle{plain}\n", b"\\bibliographystyle{s}\n\\bibliographystyle{plain}\n", said(SEEN["OtherStyle"], "s", "j.tex:1", "plain", "2")),
            (b"\\citation{k}\n\\bibdata{d}\n", b"\\cite{k}\n\\bibliography{d}\n", said(SEEN["NoStyleInDocument"], "j.tex:2")),
            (b"\\citation{k}\n\\bibdata{d}\n", b"\\cite{k}\n\n\\bibliographystyle{s}\n", said(SEEN["OlderAux"], "j.tex:3", "\\bibliographystyle")),
            (b"\\citation{k}\n\\bibstyle{s}\n", b"\\bibliography{d}\n", said(SEEN["OlderAux"], "j.tex:1", "\\bibliography")),
        )
        for aux, document, remedy in rows:
            with self.subTest(aux=aux, document=document):
                self.assertIn(f"    what to do: {remedy}", self.said({**database, "j.tex": document}, aux)[1])

    def test_aux_files_that_break_off_and_those_of_biblatex(self):
        database = {"d.bib": b"@misc{k, author = {A. B}}"}
        rows = ((b"\\citation{k}\n\\citation{on", "AuxBreaksOff", "j.aux"), (b"\\abx@aux@cite{0}{k}\n", "OfBiblatex", "j"))
        for aux, remedy, name in rows:
            _, lines = self.said(database, aux)
            self.assertEqual([line for line in lines if "what to do" in line], ["    what to do: " + SEEN[remedy].replace("$1", name)])
        _, lines = self.said(database, b"\\citation{k}\n\\@setckpt{j}{\n}\n")
        self.assertIn("    what to do: " + SEEN["OfSomeInclude"].replace("$1", "j.aux"), lines)

    def test_keys_in_another_form(self):
        whole, apart = "m\u00fcller", "mu\u0308ller"
        for key, there in ((whole, apart), (apart, whole), ("M\u00fcller", apart)):
            self.assertEqual(remedy_of(f'I didn\'t find a database entry for "{key}"', ["k", there]), said(SEEN["OtherForm"], there))
            of_parent = f'A bad cross reference--entry "k" refers to entry "{key}", which doesn\'t exist'
            self.assertEqual(remedy_of(of_parent, ["k", there]), said(SEEN["NearParent"], there))
        self.assertNotEqual(remedy_of('I didn\'t find a database entry for "\u00e9lie"', ["e\u0300lie"]), said(SEEN["OtherForm"], "e\u0300lie"))

    def test_keys_and_names_with_other_signs(self):
        _, lines = self.said({"d.bib": b"@misc{k} @misc{l}"}, b"\\citation{k;l}\n\\bibdata{d}\n\\bibstyle{plain}\n")
        self.assertIn("    what to do: " + SEEN["SemicolonInCite"].replace("$1", "k,l"), lines)
        for key, meant in (("lee1.ray2", "lee1,ray2"), ("lee1ray2", "lee1,ray2"), ("lee1.lee1", None), ("kl", None)):
            said_of = remedy_of(f'I didn\'t find a database entry for "{key}"', ["lee1", "ray2", "k", "l"])
            self.assertEqual(said_of == said(SEEN["SemicolonInCite"], meant or ""), meant is not None, key)
        self.assertEqual(remedy_of('Too many commas in name 1 of "A, B; C, D"'), said(SEEN["NamesByCommas"], "A, B and C, D"))
        for names, meant in (("Underwood, Paul, Jr., PhD", "Underwood, Jr., Paul"), ("Lee, Ann, MD, PhD", "Lee, Ann")):
            self.assertEqual(remedy_of(f'Too many commas in name 1 of "{names}"'), SEEN["CommasOfOneName"].replace("$1", meant))
        self.assertEqual(remedy_of('Too many commas in name 1 of "A, B, C, D"'), SEEN["NamesByCommas"].replace("$1", "A, B and C, D"))

    def test_all_entries(self):
        database, aux = {"d.bib": b"@misc{k, author = {A. B}} @misc{l, author = {A. B}}\n"}, b"\\citation{k}\n\\citation{*}\n\\bibdata{d}\n\\bibstyle{s}\n"
        words = "puts all 2 entries of the databases into the list; 1 of them are cited by their keys [all-entries]"
        remedy = "    what to do: take `\\nocite{*}` out, where the list is to have only what is cited, and run LaTeX"
        self.assertEqual(self.said(database, aux), (0, [f"j.aux:2:11: info: `\\citation{{*}}` in j.aux:2 {words}", remedy]))
        document = {**database, "j.tex": b"\\cite{k} % \\nocite{*}\n\\input{part}\n", "part.tex": b"\n \\nocite{ * }\n"}
        self.assertEqual(self.said(document, aux), (0, [f"part.tex:2:2: info: `\\nocite{{*}}` (`\\citation{{*}}` in j.aux:2) {words}", remedy]))
        self.assertEqual(self.said(document, aux, words=["--off", "all-entries"]), (0, []))

    def test_an_aux_file_that_is_older_than_the_document(self):
        """What LaTeX doesn't read cites nothing, and a citation has an entry."""
        database = {"d.bib": b"@misc{k, author = {A. B}} @misc{Late, author = {A. B}} @misc{other, author = {A. B}} @misc{no, author = {A. B}}\n"}
        text = b"\\cite{k} % \\cite{no}\n\\iffalse\n\\cite{no}\n\\fi\\citestyle{no}\\verb|\\cite{no}|\n\\citep[see][p. 1]{k, late,nosuch}\\Citet{other}\n\\end{document}\\cite{no}\n"
        said_of = ["j.tex:5:22: warning: `late` and another key are cited here and not in j.aux, which is older [older-aux]", "    what to do: run LaTeX, then BibTeX"]
        self.assertEqual(self.said({**database, "j.tex": text}), (0, [*said_of, "1 entry is not cited in j.aux: no (--each prints a line for each) [uncited]"]))
        self.assertEqual(self.said({**database, "j.tex": text}, older="j.tex")[1], ["3 entries are not cited in j.aux: Late, other, no (--each prints a line for each) [uncited]"])

    def test_faults_of_a_style_of_ones_own(self):
        """They are said of the style, once, and of no entry; names that a style can't divide stay with their entry."""
        style = b"ENTRY {author} {} {}\nFUNCTION {misc} {\npop$ author #1 \"{ll}\" format.name$ write$ newline$}\nREAD\nITERATE {call.type$}\n"
        database, aux = b"@misc{k, author = {A, B, C, D}}\n@misc{l, author = {E}}\n", b"\\citation{k}\n\\citation{l}\n\\bibdata{d}\n\\bibstyle{own}\n"
        _, lines = self.said({"d.bib": database, "own.bst": style}, aux)
        self.assertEqual(len([line for line in lines if "Too many commas" in line and line.startswith("d.bib:1:")]), 1, lines)
        said_of = "j.aux:4:11: error: a run logs 2 errors of the style itself, first at own.bst:3: `bibtex-lint own.bst` shows what is wrong [faulty-style]"
        self.assertEqual([line for line in lines if "itself" in line or "pop" in line], [said_of])
        _, lines = self.said({"d.bib": database, "own.bst": b"ENTRY {} {} {\n"}, aux)
        self.assertTrue(any("first at own.bst:1: `bibtex-lint own.bst`" in line for line in lines), lines)

    def test_a_style_of_ones_own(self):
        _, lines = self.said({"d.bib": b"@techreport{k, institution = {I}}\n", "own.bst": PRINTING}, b"\\citation{k}\n\\bibdata{d}\n\\bibstyle{own}\n")
        said_of = "    what to do: call it `institution` in the style, where it is `institute` (own.bst:1): databases have it by that name"
        self.assertEqual(lines, ["d.bib:1:16: info: the style doesn't read the field institution (k) [unread-field]", said_of])
        _, lines = self.said({"d.bib": b"@book{k, doi = {10/1}}\n", "own.bst": PRINTING}, words=["--style", "own"])
        self.assertIn("    what to do: leave it; or put `doi` into the first list of ENTRY (own.bst:1), and have the style print it", lines)
        _, lines = self.said({"d.bib": b"@book{k, doi = {10/1}}\n"}, words=["--style", "plain"])
        self.assertIn("    what to do: " + said(SEEN["UnprintedAddress"], "doi"), lines)
        _, lines = self.said({"d.bib": b"@misc{k, title = {T}, journal = {J}}\n", "own.bst": PRINTING}, b"\\citation{k}\n\\bibdata{d}\n\\bibstyle{own}\n")
        self.assertEqual(lines[1], "    what to do: write `@article`, if the work is one, or put it into `howpublished`, which is printed for `@misc`")

    def test_an_entry_without_its_sign(self):
        _, lines = self.said({"d.bib": b"@misc{j, author = {A. B}}\n\nmisc{k,\n author = {A. B}}\n"})
        self.assertEqual(lines[:2], ['j.aux:1:11: warning: I didn\'t find a database entry for "k" (k) [no-entry]', "    what to do: write `@` before `misc` (d.bib:3)"])
        self.assertIn("d.bib:3:1: warning: `k` is in no entry, and a run ignores it: write `@` before `misc` (k) [no-at-sign]", lines)
        self.assertEqual([line for line in lines if "fields-in-text" in line], [])

    def test_parents_and_fields(self):
        rows = [
            (b"@article{k, author = {A. B}, crossref = {vol95}} @book{vol1995}", "write `crossref = {vol1995}`"),
            (b"@book{vol} @misc{k, author = {A. B}, crossref = {vol}} @misc{l}", "move `vol` below all entries that name it, or cite it"),
            ("@article{k, journal\xa0 = {J}}".encode(), "write the name once more, without that space: `journal`"),
            (b"@article{k, journaltitle = {J}}", SEEN["OfBiblatexField"].replace("$2", "journal").replace("$1", "journaltitle")),
            (b"@article{k, booktitle = {J}}", SEEN["OtherField"].replace("$2", "journal").replace("$1", "booktitle")),
            (b"@misc{kk, author = {A. B}}", "the key is cited, or is a parent, and no database has it: look for its spelling"),
            (b"@misc{\n author = {A. B}}", "write the key into it: `@misc{k,`"),
        ]
        for database, remedy in rows:
            with self.subTest(database=database):
                self.assertIn(f"    what to do: {remedy}", self.said({"d.bib": database + b"\n"})[1])


def unescaped(said):
    """A text of Rust's without its backslashes."""
    return re.sub(r"\\(.)", r"\1", said)


class WhatToDo(unittest.TestCase):
    ROWS = [
        (b"@misc{k,\n author = {A}\n note = {B}}", "put a comma after the value of `author`, which ends at d.bib:2"),
        (b"@misc{k\n author = {A}}", "put a comma after the key `k`"),
        (b"@misc{author = {A}}", "write the entry's key first: `@misc{KEY, author = ..`"),
        (b"@misc{k, note = 1\n@misc{j}", "close @misc{k}, which begins at d.bib:1: a `}` is missing above this line"),
        (b"@misc{k, note = {1}", "close @misc{k}, which begins at d.bib:1: its last `}` is missing"),
        (b"@misc{k, note = {1", SEEN["BreaksOff"].replace("$1", "@misc{k}, which begins at d.bib:1").replace("$2", "}")),
        (b'@misc{k, note = "A "b" c"}', SEEN["QuotesInText"].replace("$1", "note")),
        (b'@misc{k, note = "G\\"odel"}', SEEN["QuoteInText"].replace("$1", "note")),
        (b"@misc(k, note = 1}", "close this item by `)`, since it is opened by `(`: @misc{k}, which begins at d.bib:1"),
        (b"@misc{k,\n % old\n note = 1}", SEEN["CommentLine"]),
        (b"@misc{k,\n % note = 2\n note = 1}", SEEN["CommentSign"]),
        (b"@misc{k,, note = 1}", SEEN["CommaTwice"]),
        (b"@misc{k l, note = 1}", SEEN["KeyOfWords"].replace("$1", "kl")),
        (b'@misc{k, month = jul "/" oct}', SEEN["NoHash"].replace("$1", "month").replace("$2", "")),
        (b"@misc{k, note = {A}b, year = 1}", SEEN["BraceTooMany"].replace("$1", "note")),
        (b"@misc{k,\n note = {A,\n year = {1}\n}\n@misc{l}", said(SEEN["RunsOn"], "note", "d.bib:2", "year", "d.bib:3")),
        (b'@misc{k,\n note = {A",\n year = {1}\n}\n@misc{l}', said(SEEN["QuoteForBrace"], "note", "d.bib:2")),
        (b"% @misc{k,\n% note = 1}", said(SEEN["NotHidden"], "@misc{k}, which begins at d.bib:1")),
        (b"% @misc{k}\n@misc{k}", said(SEEN["NotHidden"], "@misc{k}, which begins at d.bib:1")),
        (b"@misc{k, author = {A B}, author = {C D}}", said(SEEN["FieldForEachName"], "author", "A B and C D")),
        (b"@misc{k, note = {A}, note = {B}}", "delete one of the two"),
        (b"@inbook{k, author = {A}, title = {T}, publisher = {P}, year = 1}", said(SEEN["AddPart"], "`chapter` or `pages`")),
        (b"@manual{k}", said(SEEN["AddField"], "`title`")),
        (b"@inproceedings{k, author = {A}, title = {T}, year = 1, crossref = {p}} @misc{p, title = {T}}", said(SEEN["AddBooktitle"], "{T}")),
        (b"@online{k}", "write `@misc`"),
        (b"@misc{k, note = in press}", SEEN["BareValue"].replace("$1", "note")),
        (b"\xff\xfe@\0m\0", "save d.bib as UTF-8: it is in UTF-16"),
        (b"@misc{k, month = sept}", said(SEEN["NearString"], "sep", "sept")),
        (b"@misc{k, title = sept}", said(SEEN["NearString"], "sep", "sept")),
        (b"@misc{k, journal = jna}", "define `jna` by `@string` above its use, or put braces or quotes round a text"),
        (b"@misc{k, note = s}\n\n@string{s = {A}}", "move the `@string` of `s` (d.bib:3) above its first use"),
        (b"@misc{j}\n@Book{K} @misc{k}", "remove one of the two: the first is @Book{K}, which begins at d.bib:2"),
        (b"@misc{k, note = {A}; year = 1}", said(SEEN["SemicolonForComma"], "value of `note`")),
        (b"@misc{k, author = {Doe, Jane} and {Roe, Max},\n note = {A}}", said(SEEN["NamesInOneValue"], "author", "Doe, Jane and Roe, Max")),
        (b"@misc{k, book title = {A}}", said(SEEN["NameOfWords"], "booktitle")),
        (b"% @misc{k, note = {A}}", said(SEEN["NotHidden"], "@misc{k}, which begins at d.bib:1")),
        (b"@misc{k; note = {A}}", said(SEEN["SemicolonForComma"], "key `k`")),
        (b"@misc{k,\n note:\n{A}}", said(SEEN["OtherForEquals"], "note", ":")),
        (b"@misc{k, note ~ {A}}", said(SEEN["OtherForEquals"], "note", "~")),
        (b"@misc{k, note {A}}", said(SEEN["NoEquals"], "note")),
        (b"@misc{k, note = , year = 1}", said(SEEN["NoValue"], "note")),
        (b"@misc{k, note = {A} # , year = 1}", "put braces or quotes round a text"),
        (b"@misc{k, note = {A} + {B}}", said(SEEN["PlusForHash"], "note")),
        (b"@misc{k, note == {A}}", "take out one of the two `=` after `note`"),
        (b'@misc{k, "note" = {A}}', "write the name without quotes: `note`"),
        (b'@string{"s" = {A}}', "write the name without quotes: `s`"),
        (b"@misc{k, note = ``A''}", said(SEEN["NoQuote"], "`")),
        (b"@misc{k, note = \\url{A}}", said(SEEN["BareCommand"], "\\url")),
        ("@misc{k, note = \u201cA\u201d}".encode(), said(SEEN["NoQuote"], "\u201c")),
        (b"@misc{k,\n title = {T {\\em x},\n note = {J}\n}\n", said(SEEN["RunsOn"], "title", "d.bib:2", "note", "d.bib:3")),
        (b"@misc{k, month = March}", said(SEEN["NearString"], "mar", "March")),
        (b'@misc{k, month = 12 # " " jun}', SEEN["NoHashBefore"].replace("$1", "month").replace("$2", "`jun`")),
        (b'@misc{k, note = {A} # {B} "C"}', SEEN["NoHashBefore"].replace("$1", "note").replace("$2", "the quote")),
        (b"@misc{k, year = 2O12}", SEEN["LetterForDigit"].replace("$1", "2012").replace("$2", "O")),
        (b"@misc{k, year = l998}", SEEN["LetterForDigit"].replace("$1", "1998").replace("$2", "l")),
    ]

    def test_each(self):
        for text, remedy in self.ROWS:
            with self.subTest(text=text):
                source = Source("d.bib", text)
                said = [Remedies([source]).of(finding, btx.bibtext.Lines(text)) for finding in examine([source])]
                self.assertIn(remedy, said)

    def test_an_and_without_a_name(self):
        """In the words of the program."""
        table = pathlib.Path(__file__).resolve().parents[2] / "front" / "src" / "advice.rs"
        if not table.exists():
            self.skipTest("the sources of the program aren't there")
        for names in (b"A and", b"and A", b"A and and B"):
            (what,) = [it.text for it in found_in(b"@misc{k, author = {%s}}" % names) if it.check == "stray-and"]
            self.assertIn(f'"{what}"', table.read_text())

    def test_an_empty_citation(self):
        self.assertEqual(remedy_of('I didn\'t find a database entry for ""', ["k"]), "write a key in the empty `\\cite{}`, or take it out")

    def test_the_words_are_those_of_the_program(self):
        table = pathlib.Path(__file__).resolve().parents[2] / "front" / "src" / "advice.rs"
        if not table.exists():
            self.skipTest("the sources of the program aren't there")
        text = table.read_text()
        words = {name: said for name, said in re.findall(r'Seen::(\w+) => "((?:[^"\\]|\\.)*)"', text)}
        of_rows = {}
        for row, said in re.findall(r'\(Section::\w+, "((?:[^"\\]|\\.)*)", "((?:[^"\\]|\\.)*)"\)', text):
            of_rows.setdefault(unescaped(row), set()).add(unescaped(said))
        for name, said in SEEN.items():
            self.assertEqual(unescaped(words[name]), said, name)
        for row, said in GENERAL.items():
            self.assertIn(said, of_rows[row], row)


class Cost(unittest.TestCase):
    def test_no_step_of_python_is_made_for_each_field(self):
        entry = b"@article{k%d,\n  author = {Ann Lee and Bo Ray},\n  title = {A Title That Is Long Enough %d},\n  journal = {J},\n  year = {2000},\n" + b"".join(b"  x%d = {1},\n" % it for it in range(40)) + b"}\n"
        steps, more = (calls_of(lambda number=number: found_in(b"".join(entry % (it, it) for it in range(number)))) for number in (300, 1200))
        self.assertLess(more, 4.2 * steps)
        self.assertLess(more, 30 * 1200)

    def test_the_steps_grow_with_the_text(self):
        for entry in (b"@misc{k%d, title = {A Title That Is Long}, doi = {1}, note = zz, author = {A and others and B}}\n", b"@misc{k, note = {me@example.org and @misc{b, x = {1}}}}%%%d\n",
                      b"@misc{k, note = {@misc{k, note = {@string{s%d = s # {1}}}}}}\n", b"@misc{k, note = {@misc{k%d, note = {1}}}, year = {1}\n"):
            for style in (None, Style(STYLE)):
                with self.subTest(entry=entry[:40], style=style):
                    steps, more = (calls_of(lambda number=number: found_in(b"".join(entry % it for it in range(number)), style)) for number in (500, 2000))
                    self.assertLess(more, 5 * steps)

    def test_the_steps_of_the_command_grow_with_the_text(self):
        """With all that is said of each finding: of an item, of its parent, of a key and a string that may be meant, of an entry that was to be hidden."""
        rows = (b"@article{k%d, title = {T}, author = {A}, year = 1}\n", b"@inbook{k%d, crossref = {p%d}} @book{p%d, note = {N}}\n", b"@misc{k%d, note = stringnumber%d}@string{string%d = {S}}\n", b"% @misc{k, note = {%d}}\n",
                b"@string{s%d = {S}} @misc{k%d, note = t%d} @string{t%d = {T}} ", b"@misc{k%d, author = {A} and {B}} ", b"@misc{k%d, author 1} ", b"@misc{=%d, author = {A}, author = {B}}\n", b"@online{k%d, page = {1-2}} ")
        for row in rows:
            with self.subTest(row=row):
                steps, more = (self.steps_of_command(b"".join(row.replace(b"%d", b"%d" % it) for it in range(number)), number) for number in (100, 400))
                self.assertLess(more, 5 * steps)

    def steps_of_command(self, text, number):
        """Calls and lines of Python that the command takes for a database and a document that cites keys which it doesn't have, but for what is made once."""
        with tempfile.TemporaryDirectory() as folder:
            files = {"d.bib": text, "j.aux": b"".join(b"\\citation{cited%d}\n" % it for it in range(number // 10)) + b"\\bibdata{d}\n\\bibstyle{s}\n", "s.bst": STYLE}
            for name, content in files.items():
                pathlib.Path(folder, name).write_bytes(content)
            with in_folder(folder), unittest.mock.patch("sys.stdout", io.StringIO()):
                return steps_of(lambda: checkup.main(["--job", "j", "d.bib"])) + steps_of(lambda: checkup.main(["d.bib"]))

    def test_what_repeated_entries_hide_is_read_about_once_more(self):
        """However many there are, and all of them."""
        number, given = 3000, []
        text = b"".join(b"@misc{k%d, note = {me@example.org}, title = {A Title of Some Length and the Number %d}}\n" % (it, it) for it in range(number)) * 2

        def counted(file, part, strings):
            given.append(len(part))
            return btx.library.read_records(file, part, strings)

        with unittest.mock.patch("btx.bibtext.read_records", counted):
            found = found_in(text)
        self.assertEqual([sum(it.check == check for it in found) for check in ("repeated-key", "mistake")], [number, number])
        self.assertLess(max(given[1:]), 2000)
        self.assertLess(sum(given), 15 * len(text))

    def test_hostile_texts_take_a_linear_time(self):
        size = 100_000
        hostile = [b"@misc{k, author = {" + "é".encode() * size + b"{" * size + b"}" * size + b"}}", b"@misc{k, author = {" + b" et " * size + b"}}",
                   b"@misc{k}" + b" a = b\n" * size, b"@misc{k, author = {" + " É and".encode() * (size // 4) + b" others}}", b"@misc{k, pages = {" + b"1-" * size + b"}}",
                   b"@misc{k, doi = {" + b"doi:" * size + b"}}", b"@misc{k, month = {jan" + b"a" * size + b"}}", b"@misc{k, note = zz}" * 5_000]
        for text in hostile:
            with self.subTest(text=text[:30]):
                begin = time.process_time()
                found_in(text)
                self.assertLess(time.process_time() - begin, float(os.environ.get("BTX_TEST_SECONDS", "4")))


if __name__ == "__main__":
    unittest.main()
