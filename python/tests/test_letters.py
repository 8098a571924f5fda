"""Letters of a language: in lists, in messages, where they are left out, and by the command; and beside the program that BIBTEX_SEARCH names, which is bibtex-search, job by job."""

import base64
import os
import pathlib
import subprocess
import sys
import tempfile
import unittest
from unittest import mock

import btx
from btx.half_letters import OtherBytes, line_of_half_letter
from btx.jobs import gathered
from btx.letters import run_with_letters
from btx.style_keys import may_print_keys
from tests.jobs import SOURCES

sys.path[:0] = [str(SOURCES / "web"), str(SOURCES / "tests/front")]
import languages  # noqa: E402
import letters_check  # noqa: E402

SEARCH = os.environ.get("BIBTEX_SEARCH")
JOBS = int(os.environ.get("BTX_TEST_JOBS", "300"))
AUX = "\\citation{k}\n\\bibdata{d}\n\\bibstyle{s}\n"
SORTED = "ENTRY {author}{}{}\nFUNCTION {misc} {author write$ newline$}\nFUNCTION {f} {author purify$ 'sort.key$ :=}\nREAD\nITERATE {f}\nSORT\nITERATE {call.type$}\n"
REFUSED = "The list is made without -letters: the style prints text that it made for sorting."


def job_of(body, author="Émile Zola", database=None):
    """A job with one entry, of which a style writes what this body leaves."""
    style = f"ENTRY {{author}}{{}}{{}}\nFUNCTION {{misc}} {{{body} write$ newline$}}\nREAD\nITERATE {{call.type$}}\n"
    text = f"@misc{{k, author = {{{author}}}}}\n".encode("utf8") if database is None else database
    return {"a.aux": AUX.encode("utf8"), "s.bst": style.encode("utf8"), "d.bib": text}


def list_of(files, letters):
    return btx.run("a", files, btx.Options(letters=letters)).bbl.decode("utf8")


class Letters(unittest.TestCase):
    def test_order(self):
        names = ["Öberg", "Åkesson", "Zorn", "Ärlig", "Olsen"]
        database = "".join(f"@misc{{k{number}, author = {{{name}}}}}\n" for number, name in enumerate(names))
        files = {"a.aux": AUX.replace("{k}", "{*}").encode("utf8"), "s.bst": SORTED.encode("utf8"), "d.bib": database.encode("utf8")}
        rows = [("no", "Olsen Zorn Ärlig Åkesson Öberg"), ("sv", "Olsen Zorn Åkesson Ärlig Öberg"), ("de", "Åkesson Ärlig Öberg Olsen Zorn")]
        for letters, wanted in rows:
            with self.subTest(letters=letters):
                self.assertEqual(list_of(files, letters).split(), wanted.split())

    def test_case_and_abbreviation(self):
        rows = [
            ('author "u" change.case$', "straße {é}é", "de", "STRASSE {é}É\n"), ('author "l" change.case$', "IŞIK İnan", "tr", "ışık inan\n"),
            ('author "l" change.case$', "ǅ ǈ ǋ ǲ", "de", "ǆ ǉ ǌ ǳ\n"), ('author #1 "{f.} {ll}" format.name$', "Émile Zola", "fr", "É. Zola\n"), ('author "u" change.case$', "ƛ", "en", "\ua7dc\n"), ('author "l" change.case$', "\ua7dc", "en", "ƛ\n"),
        ]
        for body, author, letters, wanted in rows:
            with self.subTest(body=body, author=author):
                self.assertEqual(list_of(job_of(body, author), letters), wanted)

    def test_labels_of_two_authors(self):
        """As alpha makes them."""
        body = 'author #1 "{v{}}{l{}}" format.name$ author #2 "{v{}}{l{}}" format.name$ * "01" *'
        rows = [("Österberg, Anna and Öberg, Bo", "ÖÖ01"), ("Anna Österberg and Bo Öberg", "ÖÖ01"), ("von Österberg, Anna and {Öberg}, Bo", "vÖÖ01"), ("Österberg and Oberg", "ÖO01"), ("Olsen and Åberg", "OÅ01")]
        for author, wanted in rows:
            for letters in ("sv", "de", "fr"):
                with self.subTest(author=author, letters=letters):
                    self.assertEqual(list_of(job_of(body, author), letters), wanted + "\n")

    def test_labels_of_alpha(self):
        style = next(pathlib.Path("/usr/share/texlive").rglob("alpha.bst"), None)
        if style is None:
            self.skipTest("TeX's alpha isn't there")
        database = "@article{two, author = {Österberg, Anna and Öberg, Bo}, title = {T}, journal = {J}, year = 2001}\n@article{one, author = {Öberg, Bo}, title = {T}, journal = {J}, year = 2001}\n"
        files = {"a.aux": AUX.replace("{k}", "{*}").encode("utf8"), "s.bst": style.read_bytes(), "d.bib": database.encode("utf8")}
        for letters, labels in (("sv", ["Öbe01", "ÖÖ01"]), ("de", ["Öbe01", "ÖÖ01"])):
            self.assertEqual([part.split("]")[0] for part in list_of(files, letters).split("\\bibitem[")[1:]], labels)

    def test_messages_and_their_places(self):
        result = btx.run("a", job_of("author warning$ author top$ author"), btx.Options(letters="fr"))
        self.assertEqual([message.text for message in result.messages if message.severity is btx.Severity.WARNING], ["Émile Zola"])
        self.assertEqual(b"".join(result.log[event.offset : event.end] + b"\n" for event in result.events), result.log)
        self.assertEqual(result.notes, ())

    def test_places_are_in_the_files_as_they_are(self):
        database = "@misc{k, author = {Émile Zola}}\n@misc{l, author = {Äh} y}\n@misc{m, author = {Ö} # zola # }\n".encode("utf8")
        files = {**job_of("author #1 * top$ author", database=database), "a.aux": AUX.replace("{k}", "{*}").encode("utf8")}
        plain, sorted_by_letters = (btx.run("a", files, btx.Options(letters=letters)) for letters in ("no", "de"))
        self.assertEqual(sorted_by_letters.notes, ())
        self.assertEqual([message.place for message in sorted_by_letters.messages], [message.place for message in plain.messages])
        self.assertEqual([message.place.line for message in plain.messages if message.met is btx.Met.DATABASES], [2, 3])

    def test_left_out(self):
        rows = [
            ("author purify$", None, "the style prints text that it made for sorting"), ("author #1 #3 substring$", None, "the style cuts text by bytes"),
            ("author", b"@misc{k, author = {\xc3\xa9\xe9}}", "an entry or a string isn't UTF-8"), ("author", b"@misc{k, author = {\xc3\xa9\1}}", "the style, an entry or a string has control characters"),
            ("author write$ {#1} {} while$ author", None, "the run didn't finish"),
        ]
        for body, database, reason in rows:
            with self.subTest(reason=reason):
                files = job_of(body, database=database)
                result = btx.run("a", files, btx.Options(letters="fr", budget=5000))
                self.assertEqual(result.notes[0], f"The list is made without -letters: {reason}.")
                self.assertIn(result.bbl, [btx.run("a", files, btx.Options(budget=5000, utf8=utf8)).bbl for utf8 in (False, True)])

    def test_files_are_found_once(self):
        asked, files = [], job_of("author")

        def find(name):
            asked.append(name)
            return files[name]

        btx.run("a", find, btx.Options(letters="fr"))
        self.assertEqual(asked, ["a.aux", "s.bst", "d.bib"])

    def test_no_such_language(self):
        for letters in ("xx", "", "SV"):
            with self.subTest(letters=letters), self.assertRaises(btx.LettersRefused) as caught:
                btx.Options(letters=letters)
            self.assertEqual((caught.exception.letters, caught.exception.known), (letters, btx.LETTERS))
        with self.assertRaises(TypeError):
            btx.Options(letters=None)
        self.assertEqual((len(btx.LETTERS), btx.LETTERS[0]), (20, "no"))

    def test_half_letters_have_their_lines(self):
        rows = [("C389", False, 0), ("C3", False, 1), ("610AC3", True, 0), ("610AC30A", True, 2), ("EDA080", False, 1), ("F48FBFBF", False, 0), ("F4908080", False, 1), ("0A0A89", False, 3), ("C080", False, 1)]
        for digits, is_stopped, line in rows:
            with self.subTest(digits=digits):
                self.assertEqual(line_of_half_letter(bytes.fromhex(digits), is_stopped, OtherBytes({})), line)

    def test_bytes_of_values_in_another_encoding_are_no_half_letters(self):
        entries = b"@misc{a, author = {\xc3\x89}} @misc{b, crossref = {P}, title = {\xe9}, note = {\xc3\x84}} @misc{p, note = {\xfc}} @misc{b, note = {\xe8}}"
        rows = [
            (b"a", entries, b"", b"\xe9", 1), (b"B", entries, b"", b"\xe9\xfc\n\xc3", 2), (b"b", entries, b"", b"\xe8", 1), (b"*", entries, b"", b"\xe8\n\xc3", 2),
            # (each part of a list is that of one entry)
            (b"a,b", entries, b"", b"\\bibitem{b}\n\xe9\n\\bibitem{a}\n\xe9", 4), (b"a", entries, b"", b"\\bibitem{a}\n\\bibitem[{A]Z}]{B}\n\xe9", 0), (b"a,b", entries, b"", b"\\bibitem{a}\\bibitemize\xe9", 1),
            (b"a,b", entries, b"", b"\\bibitem{a}\\bibitem b\xe9", 0), (b"a", entries, b"", b"\\bibitem\n [A]{b}\xe9\n\\bibitem [A]{a}\xe9", 3),
            (b"a", b"@string{s = {\xe9}} @misc{a}", b"", b"\\bibitem{a}\xe9", 0), (b"a", b"@preamble{{\xe9}} @misc{a}", b"", b"\\bibitem{a}\xe9", 0), (b"a", b"@comment{\xe9} @misc{a}", b"", b"\\bibitem{a}\xe9", 1),
            (b"a", b"@misc{a, title = {\xe8}}", b"% \xe9", b"\xe9", 0), (b"a", b"@misc{a, title = {t}}", b"% \xe9", b"\xe9", 1), (b"a\xe9", b"@misc{a}", b"", b"\xe9", 0),
            (b"a", b"@misc{a, title = {\xc3\xa9}, note = {\xe9", b"", b"\xc3", 0), (b"a", b"@misc{a, title = {\xc3\xa9}, note = {\xe9}}", b"", b"\xc3", 1),
        ]
        for keys, database, style, text, line in rows:
            files = {b"a.aux": b"\\citation{" + keys + b"}\n", b"s.bst": style, b"d.bib": database}
            with self.subTest(keys=keys, database=database, text=text):
                self.assertEqual(line_of_half_letter(text, False, OtherBytes(files)), line)

    def test_styles_that_are_nested_deeply(self):
        for depth, may in ((190, False), (300, True), (20_000, True)):
            body = "#1 { " * depth + "t write$" + " } 'skip$ if$" * depth
            style = f"ENTRY {{t}}{{}}{{}}\nFUNCTION {{misc}} {{ {body} }}\nREAD\nITERATE {{call.type$}}\n"
            with self.subTest(depth=depth):
                self.assertIs(may_print_keys(style.encode("utf8"), [b"misc"]), may)
        self.assertTrue(may_print_keys(b"FUNCTION {f} {#" + b"9" * 10_000 + b" pop$}\n", []))

    def test_the_table_is_the_front_ends(self):
        self.assertEqual(languages.OF_PYTHON.read_text(encoding="utf8"), languages.module(languages.sources()), "run: python3 web/languages.py --python")


class ByTheCommand(unittest.TestCase):
    def run_in(self, folder, files, *words):
        for name, content in files.items():
            (pathlib.Path(folder) / name).write_bytes(content)
        environment = {**os.environ, "PYTHONPATH": str(SOURCES / "python"), "BSTINPUTS": "", "BIBINPUTS": ""}
        return subprocess.run([sys.executable, "-m", "btx", *words, "a"], cwd=folder, env=environment, stdin=subprocess.DEVNULL, capture_output=True, text=True)

    def test_the_list(self):
        with tempfile.TemporaryDirectory() as folder:
            self.assertEqual(self.run_in(folder, job_of('author #1 "{f.} {ll}" format.name$'), "--letters", "fr").returncode, 0)
            self.assertEqual((pathlib.Path(folder) / "a.bbl").read_text(encoding="utf8"), "É. Zola\n")

    def test_what_became_of_the_letters(self):
        with tempfile.TemporaryDirectory() as folder:
            done = self.run_in(folder, job_of("author purify$"), "--letters", "fr")
            self.assertTrue(done.stdout.startswith(f"{REFUSED}\nThe top-level auxiliary file"), done.stdout)
            self.assertTrue((pathlib.Path(folder) / "a.blg").read_text(encoding="utf8").startswith(f"{REFUSED}\n"))

    def test_no_such_language(self):
        with tempfile.TemporaryDirectory() as folder:
            done = self.run_in(folder, job_of("author"), "--letters", "xx")
            self.assertEqual((done.returncode, "'xx'" in done.stderr), (1, True))


@unittest.skipUnless(SEARCH and os.access(SEARCH, os.X_OK), "letters of a language beside bibtex-search (there is none)")
class BesideSearch(unittest.TestCase):
    def test_jobs(self):
        with tempfile.TemporaryDirectory() as room, mock.patch.dict(os.environ, {"BSTINPUTS": "", "BIBINPUTS": ""}):
            for number, job in enumerate(letters_check.all_jobs(JOBS, 2)):
                with self.subTest(number=number, letters=job.language, text=job.text, files=job.files):
                    self.assertEqual(by_package(job), letters_check.by_search(SEARCH, pathlib.Path(room), job))


def by_package(job):
    """What the package answers, as letters_check.by_search has it."""
    options = btx.Options(letters=job.language, budget=job.budget, entry_max=500, global_max=200_000)
    result = run_with_letters(b"job", gathered(b"job", job.files), options, job.text or "auto")
    messages = letters_check.shown(letters_check.of_program(result.log))
    return {"list": base64.b64encode(result.bbl).decode("ascii"), "messages": messages, "status": result.report.status, "notes": list(result.notes)}


if __name__ == "__main__":
    unittest.main()
