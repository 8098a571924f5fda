"""What the doctor says of the commonest mistakes of authors, in small documents: a finding and what to do about it, as its command prints them."""

import pathlib
import tempfile
import unittest

from btx.bibtext import read
from btx.doctor import Source, examine
from btx.field_missing import field_missing
from btx.searching import found_search
from tests.spoilt import run_module

STYLE = b"""ENTRY { author title booktitle journal year school note } {} {}
FUNCTION {output} { write$ newline$ }
FUNCTION {article} { journal empty$ { "empty journal in " cite$ * warning$ } { journal output } if$ title output }
FUNCTION {phdthesis} { school empty$ { "empty school in " cite$ * warning$ } { school output } if$ }
FUNCTION {misc} { title output }
FUNCTION {inproceedings} { booktitle empty$ { "empty booktitle in " cite$ * warning$ } { booktitle output } if$ }
FUNCTION {proceedings} { misc }
FUNCTION {book} { author num.names$ pop$ title output }
FUNCTION {default.type} { misc }
READ
ITERATE {call.type$}
"""
TWO = b"@article{k, title = {One Thing}, journal = {J}}\n@article{%s, title = {Another}, journal = {J}}\n"
# A database, what the `.aux` file cites, the name of a finding, and its line with what to do.
ROWS = (
    (b"@online{k, title = {T}, url = {https://a.org}}", b"k", "d.bib:1:1: warning: entry type for \"k\" isn't style-file defined (k) [unknown-type]",
     "write `@misc`: `@online` is a type of `biblatex`, and this style has no function of that name"),
    (b"@online{k, title = {T}, url = {https://a.org}}", b"k", "d.bib:1:25: info: the style doesn't read the field url (k) [unread-field]",
     "leave it; or put `url` into the first list of ENTRY (s.bst:1), and have the style print it"),
    ("@misc{lee\u200b1, title = {T}}".encode(), b"lee1", "j.aux:1:11: warning: I didn't find a database entry for \"lee1\" (lee1) [no-entry]",
     "write the key of the entry once more, without its character that nobody sees: `lee1`"),
    (TWO % b"k", b"k", "d.bib:2:10: error: Repeated entry (k) [repeated-key]", "give the second another key, such as `kb`, and cite it by that: its title is another one; the first is @article{k}, which begins at d.bib:1"),
    (TWO.replace(b"Another", b"One thing") % b"k", b"k", "d.bib:2:10: error: Repeated entry (k) [repeated-key]", "remove one of the two: the first is @article{k}, which begins at d.bib:1"),
    (TWO % b"m", b"k}\n\\citation{K", "j.aux:2:1: error: Case mismatch error between cite keys k and K [logged-error]", "cite the key in one spelling"),
    (b"@misc{k, title = {T}, crossref = {p}}", b"k", "d.bib:1:23: error: A bad cross reference--entry \"k\" refers to entry \"p\", which doesn't exist (k) [logged-error]",
     "no database has the entry `p`: write it below all entries that name it, or take the field `crossref` out"),
    (b"@misc{author={A. Bee}, title={T}}", b"k", "d.bib:1:18: error: I was expecting a , or a } (author={A.) [mistake]", "write the entry's key first: `@misc{KEY, author = ..`"),
    (b"@misc{author={A. Bee}, title={T}}", b"k", "j.aux:1:11: warning: I didn't find a database entry for \"k\" (k) [no-entry]", "write the key into it: `@misc{k,`"),
    (b"@article{k, title={T}}, journal={J}}", b"k", "d.bib:1:10: warning: empty journal in k (k) [logged-warning]",
     "`journal` stands after the entry's end (d.bib:1): take out the brace before it that ends the entry too early"),
    (b"@phdthesis{k, title={T}, university={MIT}}", b"k", "d.bib:1:12: warning: empty school in k (k) [logged-warning]", "call it `school`, as entries of this type have it: `university` doesn't count here"),
    (b"@misc{k, title={T}, crossref={m}}", b"k", "d.bib:1:21: error: A bad cross reference--entry \"k\" refers to entry \"m\", which doesn't exist (k) [logged-error]",
     "no database has the entry `m`: write it below all entries that name it, or take the field `crossref` out"),
    (b"@misc{lee1985, title={T}, crossref={lee1986}}", b"lee1985", "d.bib:1:27: error: A bad cross reference--entry \"lee1985\" refers to entry \"lee1986\", which doesn't exist (lee1985) [logged-error]",
     "no database has the entry `lee1986`: write it below all entries that name it, or take the field `crossref` out"),
    (b"@string{jj = \"A Journal}\n@misc{k, title = jj}", b"k", "d.bib:1:24: error: Unbalanced braces [mistake]", "close the value of `jj`, which begins at d.bib:1: its second quote is missing"),
    (b"@string{jj = \"A Journal}\n@misc{k, title = jj}", b"k", "d.bib:2:18: warning: string name \"jj\" is undefined (k) [undefined-string]", "mend the `@string` of `jj` (d.bib:1) first: it has a mistake, so it defines nothing"),
    (b"@misc{k, note = {N}, title = \"A Title, year = {2000}}", b"k", "d.bib:1:53: error: Unbalanced braces (k) [mistake]", "close the value of `title`, which begins at d.bib:1: its second quote is missing"),
    (b"@artical{k, title={T}}", b"k", "d.bib:1:1: warning: entry type for \"k\" isn't style-file defined (k) [unknown-type]", "write `@article`: the style has no function `artical`"),
    (b"@misc{k, title={T},\n<<<<<<< HEAD\n year=2000,\n=======\n year=2001,\n>>>>>>> x\n}", b"k", "d.bib:2:9: error: I was expecting an = (k) [mistake]",
     "take out what git has written for a conflict: the lines that begin with `<<<<<<<`, `=======` and `>>>>>>>`, and one of the two versions between them"),
    (b"@misc{m, title={T},\n\n@misc{k, title={T}}\n", b"k", "j.aux:1:11: warning: I didn't find a database entry for \"k\" (k) [no-entry]", "mend the mistake in d.bib:3 first: because of it the entry in line 3 isn't read"),
    (b"@misc{k, title={T}, month = jan-feb}", b"k", "d.bib:1:29: warning: string name \"jan-feb\" is undefined (k) [undefined-string]", "join two names by `#`: `jan # \"--\" # feb`"),
    (b"@misc{k, title={T}}", b"all", "j.aux:1:11: warning: I didn't find a database entry for \"all\" (all) [no-entry]", "write `*` for `all` in the `\\nocite`, if all entries are meant, and run LaTeX"),
    (b"@misc{k, title={T}}", b"k ", "j.aux:1:1: error: White space in argument [logged-error]", "write `k` in the `\\cite` without the space before or after it, and run LaTeX"),
    (b"@misc{my key, title={T}}", b"my key", "j.aux:1:1: error: White space in argument [logged-error]", "write the key without a space, such as `mykey`, in the `\\cite` and in the database, and run LaTeX"),
    (b"@article{k, title={T}}", b"k", "d.bib:1:10: warning: empty journal in k (k) [logged-warning]", "add `journal` to the entry"),
    (b"@article{k, title={T}, jounral={J}}", b"k", "d.bib:1:10: warning: empty journal in k (k) [logged-warning]", "call it `journal`, as entries of this type have it: `jounral` doesn't count here"),
    (b"@inproceedings{k, title={T}, crossref={p}}\n@proceedings{p, title={Proc. of X}}", b"k", "d.bib:1:16: warning: empty booktitle in k (k) [logged-warning]",
     "add `booktitle = {Proc. of X}` to the parent: an entry takes only fields of the same name from it"),
    (b"", b"k", "j.aux:1:11: warning: I didn't find a database entry for \"k\" (k) [no-entry]", "write the entry: d.bib has none at all"),
    (b"@misc{k, title={T}, month = January}", b"k", "d.bib:1:29: warning: string name \"January\" is undefined (k) [undefined-string]", "write `jan`, or define `January` by `@string` above its use"),
)


def said(database, aux):
    with tempfile.TemporaryDirectory() as room:
        for name, text in {"d.bib": database, "j.aux": aux, "s.bst": STYLE}.items():
            pathlib.Path(room, name).write_bytes(text)
        done = run_module("doctor", "--job", "j", cwd=room)
        return done.stdout.decode() + done.stderr.decode()


class Mistakes(unittest.TestCase):
    def test_each(self):
        for database, cited, line, remedy in ROWS:
            with self.subTest(database=database, line=line):
                lines = said(database, b"\\citation{" + cited + b"}\n\\bibdata{d}\n\\bibstyle{s}\n").splitlines()
                self.assertIn(line, lines)
                # (what is no ASCII is printed as a question mark at most)
                self.assertEqual(lines[lines.index(line) + 1], f"    what to do: {remedy}")

    def test_files_that_are_elsewhere(self):
        rows = (
            ({"build/j.aux": b"\\citation{k}\n"}, "btx: there is no file j.aux: is it build/j.aux?\n"),
            ({"j.aux": b"\\citation{k}\n\\bibdata{literature}\n\\bibstyle{s}\n", "refs.bib": b""}, "btx: there is no database literature.bib\nbtx: j names no database that is there: name one, such as refs.bib\n"),
            ({"j.aux": b"\\citation{k}\n\\bibdata{literature}\n\\bibstyle{s}\n", "bib/literature.bib": b""}, "btx: there is no database literature.bib\nbtx: j names no database that is there: name one, such as bib/literature.bib\n"),
            ({"j.aux": b"\\relax\n\\abx@aux@cite{0}{k}\n"}, "btx: j names no database: run `biber j` in the place of BibTeX, or give `biblatex` the option `backend=bibtex` and run LaTeX\n"),
        )
        for files, wanted in rows:
            with self.subTest(list(files)), tempfile.TemporaryDirectory() as room:
                for name, text in files.items():
                    pathlib.Path(room, name).parent.mkdir(exist_ok=True)
                    pathlib.Path(room, name).write_bytes(text)
                done = run_module("doctor", "--job", "j", cwd=room)
                self.assertEqual((done.returncode, done.stdout, done.stderr.decode()), (1, b"", wanted))

    def test_what_one_edit_mends_is_said_once(self):
        database, aux = b"@misc{k, title = jj}\n@misc{l, title = jj}\n@misc{m, title = JJ}\n@misc{n, title = jj}\n", b"\\citation{k,l,m,n}\n\\bibdata{d}\n\\bibstyle{s}\n"
        define = "    what to do: define `{}` by `@string` above its use, or put braces or quotes round a text"
        self.assertEqual(said(database, aux).splitlines(), [
            'd.bib:1:18: warning: string name "jj" is undefined (k) [undefined-string]', define.format("jj"), "    2 more of this, the last at d.bib:4 (--each prints a line for each)",
            'd.bib:3:18: warning: string name "JJ" is undefined (m) [undefined-string]', define.format("JJ"),
        ])
        lines = said("@misc{k, title = {T}}\n@misc{l, title = {T}}\n".encode("utf16"), aux)
        self.assertEqual(lines.count("save d.bib as UTF-8: it is in UTF-16"), 2)
        self.assertEqual(lines.count(" more of this, the last at "), 2)

    def test_a_key_with_a_space_is_the_one_error(self):
        lines = said(b"@misc{my key, title = {T}}", b"\\citation{my key}\n\\bibdata{d}\n\\bibstyle{s}\n")
        self.assertIn("White space in argument", lines)
        self.assertNotIn("I found no", lines)

    def test_styles_of_tex(self):
        """One in another case, and one that never prints an address."""
        if found_search().path_of(b"plain.bst") is None:
            self.skipTest("TeX's plain isn't there")
        database, aux = b"@misc{k, title = {T}, url = {https://a.org}}\n@online{l, title = {U}, url = {https://b.org}}", b"\\citation{k,l}\n\\bibdata{d}\n\\bibstyle{%s}\n"
        self.assertIn("    what to do: write `plain` for `Plain` in the `\\bibliographystyle`, and run LaTeX: names of files have their case\n", said(database, aux % b"Plain"))
        words = "    what to do: this style never prints `url`: name one that does, such as `plainurl` or `plainnat`, or write `note = {\\url{..}}`\n"
        self.assertIn("d.bib:2:25: info: the style doesn't read the field url (l) [unread-field]\n" + words, said(database, aux % b"plain"))

    def test_entries_in_the_braces_of_a_comment(self):
        seen = lambda text: [it.key for it in examine([Source("d.bib", text)]) if it.check == "not-hidden"]  # noqa: E731
        self.assertEqual(seen(b"@misc{a}\n@comment{\n@misc{b, title = {T}}\n@misc{c}\n}\n@misc{d}\n@comment {jabref-meta: {x}}\n@misc{e}\n"), ["b", "c"])
        self.assertEqual(seen(b"@comment{@misc{b}\n@misc{c}}\n@misc{d}\n"), ["b", "c"])
        self.assertEqual(seen(b"@comment{ an unclosed one\n@misc{b}\n@misc{c}\n@comment{@misc{d}\n"), ["d"])
        self.assertEqual(seen(b"@comment\n@misc{b}\n@comment(@misc{c})\n"), ["c"])

    def test_a_field_that_the_style_takes_unasked(self):
        """Which one it is, is tried; of a style of one's own the style is to blame."""
        fields = [b"title", b"author", b"year"]
        for database, wanted in ((b"@book{k, title = {T}}", "author"), (b"@string{s = {S}} @book{k, title = s,} @book{l}", "author"), (b"@book{k, author = {A}}", "title"), (b"@misc{k, title = {T}}", None)):
            item = next(item for item in read(database).items if item.key == b"k")
            self.assertEqual(field_missing(STYLE, database, item, fields), wanted, database)

    def test_letters_of_html(self):
        rows = (("Salt &amp; Pepper", "`\\&`"), ("Caf&eacute;", "`é`"), ("Caf&#233;", "`é`"), ("a &lt; b", "`$<$`"), ("1&ndash;2", "`--`"))
        for title, meant in rows:
            found = [it.text for it in examine([Source("d.bib", f"@misc{{k, title = {{{title}}}}}".encode())]) if it.check == "sign-of-tex"]
            letter = title[title.index("&") : title.index(";") + 1]
            self.assertEqual(found, [f"write {meant} in the place of `{letter}`, which is a letter of HTML"])
        for title in ("Q&A; more", "R&D"):
            found = [it.text for it in examine([Source("d.bib", f"@misc{{k, title = {{{title}}}}}".encode())]) if it.check == "sign-of-tex"]
            self.assertEqual(found, ["write `\\&` for the bare `&`: LaTeX stops at it"])


if __name__ == "__main__":
    unittest.main()
