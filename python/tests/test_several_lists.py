"""What the doctor says of documents whose packages write an `.aux` file for each list, as these packages of TeX Live 2022 wrote them."""

import pathlib
import tempfile
import unittest

from tests.spoilt import run_module

STYLE = b"ENTRY{title}{}{} FUNCTION{misc}{title write$ newline$} READ ITERATE{call.type$}\n"
DATABASE = b"@misc{one, title = {First}}\n@misc{two, title = {Second}}\n"
BEGINS, ENDS = b"\\gdef\\@extra@binfo{@-%d}\n", b"\\gdef\\@extra@binfo{}\n"
LIST_OF_ONE, LIST_OF_TWO = (b"\\citation{%s}\n\\bibstyle{s}\n\\bibdata{refs}\n" % key for key in (b"one", b"two"))
INCLUDES = {"chapters/one.aux": LIST_OF_ONE, "two.aux": LIST_OF_TWO}
OF_CHAPTERBIB = b"\\relax\n" + BEGINS % 1 + b"\\@input{chapters/one.aux}\n" + ENDS + BEGINS % 2 + b"\\@input{two.aux}\n" + ENDS
UNITS = {"bu1.aux": LIST_OF_ONE, "bu2.aux": LIST_OF_TWO}


def said(files, job="book", *words):
    """What the command says of a job with these files, on both outputs."""
    with tempfile.TemporaryDirectory() as room:
        for name, text in {"refs.bib": DATABASE, "s.bst": STYLE, **files}.items():
            path = pathlib.Path(room, name)
            path.parent.mkdir(exist_ok=True)
            path.write_bytes(text)
        done = run_module("doctor", "--job", job, *words, cwd=room)
        return done.returncode, done.stdout.decode(), done.stderr.decode()


class Lists(unittest.TestCase):
    def check(self, found, status, *parts):
        self.assertEqual(found[0], status, found)
        for part in parts:
            self.assertIn(part, found[1] + found[2])
        self.assertNotIn("keep one `\\bibliographystyle`", found[1])
        self.assertNotIn("name all databases in one", found[1])

    def test_a_list_in_each_chapter(self):
        words = "run BibTeX on `chapters/one` and `two`, and not on `book`: with `chapterbib` each file that `\\include` names has a list of its own"
        self.check(said({**INCLUDES, "book.aux": OF_CHAPTERBIB}), 2, "another \\bibstyle command [logged-error]\n    what to do: " + words, "another \\bibdata command [logged-error]\n    what to do: " + words)

    def test_a_chapter_of_several(self):
        self.assertEqual(said({**INCLUDES, "book.aux": OF_CHAPTERBIB}, "two"), (0, "", ""))
        self.check(said({**INCLUDES, "book.aux": OF_CHAPTERBIB.replace(b"two.aux", b"three.aux"), "three.aux": b"\\citation{two}\n\\@setckpt{three}{\n}\n"}, "three", "refs.bib"), 2,
                   "I found no \\bibdata command [logged-error]\n    what to do: write `\\bibliographystyle` and `\\bibliography` into this chapter")

    def test_lists_in_chapters_without_the_package(self):
        aux = b"\\relax\n\\@input{chapters/one.aux}\n\\@input{two.aux}\n"
        self.check(said({**INCLUDES, "book.aux": aux}), 2, "what to do: keep one `\\bibliography`, with its `\\bibliographystyle`, for the whole document; or load `chapterbib` for several lists, and run BibTeX on `chapters/one` and `two`")

    def test_parts_of_one_file(self):
        self.check(said({"book.aux": BEGINS % 1 + LIST_OF_ONE + ENDS + BEGINS % 2 + LIST_OF_TWO + ENDS}), 2, "what to do: let `\\include` read each part that has a list")

    def test_units_beside_a_list(self):
        self.assertEqual(said({**UNITS, "bu.aux": b"", "book.aux": b"\\citation{one}\n\\@input{bu.aux}\n\\bibstyle{s}\n\\bibdata{refs}\n"}), (0, "", ""))

    def test_units_alone(self):
        words = "run BibTeX on `bu1` and `bu2`: `bibunits` writes an `.aux` file for each list"
        self.assertEqual(said({**UNITS, "book.aux": b"\\relax\n"}), (1, "", f"btx: book names no database: {words}\n"))
        self.check(said({**UNITS, "book.aux": b"\\relax\n"}, "book", "refs.bib"), 2, "I found no \\bibdata command [logged-error]\n    what to do: " + words)

    def test_sections_of_bibtopic(self):
        files = {"book1.aux": LIST_OF_ONE, "book2.aux": LIST_OF_TWO, "book.aux": b"\\citation{one}\n\\bibstyle{s}\n"}
        self.check(said(files), 1, "run BibTeX on `book1` and `book2`: `bibtopic` writes")
        # (another document's, which has a name like these)
        self.assertEqual(said({**files, "book1.tex": b"", "book2.tex": b""})[2], "btx: book names no database that is there: name one, such as refs.bib\n")

    def test_lists_of_multibib(self):
        files = {"sec.aux": LIST_OF_ONE, "other.aux": LIST_OF_TWO, "book.aux": b"\\relax\n", "book.tex": b"\\newcites{sec}{Secondary}\n"}
        self.check(said(files), 1, "run BibTeX on `sec`: `multibib` writes")

    def test_many_lists(self):
        files = {f"bu{it}.aux": LIST_OF_ONE for it in range(1, 21)}
        self.check(said({**files, "book.aux": b"\\relax\n"}), 1, "run BibTeX on each of `bu1`, `bu2`, `bu3`, `bu4`, `bu5`, `bu6`, ..: ")


if __name__ == "__main__":
    unittest.main()
