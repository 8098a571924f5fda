"""The entries of a document."""

import os
import pathlib
import resource
import shutil
import sys
import unittest
from unittest import mock

import btx
from btx import extracting
from btx.outputs import Inputs
from btx.searching import Search
from tests.jobs import EXAMPLES, SOURCES
from tests.spoilt import run_module, run_shell
from tests.test_papers import Folder

STYLE = b"ENTRY {title note} {} {} FUNCTION {show} {cite$ write$ title missing$ {} {title write$} if$ note missing$ {} {note write$} if$ crossref missing$ {} {crossref write$} if$ newline$} READ preamble$ write$ newline$ ITERATE {show}".replace(
    b"READ preamble$ write$ newline$", b"FUNCTION {begin} {preamble$ write$ newline$} READ EXECUTE {begin}")
ONE = b"""text @string{a = "A"} @string{unused = a} @string(b = a # { B})
@preamble{b # "P"}
@misc{none, title = unused}
@misc{Child, crossref = {parent}, note = b}
@misc{broken, title = b, note {x}}
@misc{Child, note = {again}}
@comment{@misc{hidden, title = {in a comment}}}
@misc{long, title = {@misc{x}} # zz}
"""
TWO = b"@STRING{B = {new }}@book{PARENT, title = B # {of} # { two}, crossref={grand}}\n@book{grand, note={G}}@book{other, title=b}"
AUX = b"\\citation{child,broken,HIDDEN,gone}\n\\bibdata{one,none,two}\n\\bibstyle{s}\n"


class Extracts(Folder):
    def test_a_job(self):
        self.write({"job.aux": AUX, "s.bst": STYLE, "one.bib": ONE, "two.bib": TWO})
        found = extracting.extract("job", Inputs(Search()), btx.Options())
        self.assertEqual(found.again.bbl, found.result.bbl)
        self.assertIn(b"childnew of two", found.result.bbl)
        pieces = [b'@string{a = "A"}', b"@string(b = a # { B})", b'@preamble{b # "P"}', b"@misc{Child, crossref = {parent}, note = b}", b"@misc{broken, title = b, note {",
                  b"@misc{hidden, title = {in a comment}}", b"@STRING{B = {new }}", b"@book{PARENT, title = B # {of} # { two}, crossref={grand}}", b"@book{grand, note={G}}"]
        self.assertEqual(found.text, b"".join(piece + b"\n\n" for piece in pieces))
        self.assertEqual(found.entries, 5)
        self.assertEqual(extracting.extract("job", Inputs(Search()), btx.Options(min_crossrefs=1)).again.bbl, btx.run_paper("job", btx.Options(min_crossrefs=1)).bbl)

    def test_the_command(self):
        self.write({"job.aux": AUX, "s.bst": STYLE, "one.bib": ONE, "two.bib": TWO})
        done = run_module("extract", "job", cwd=self.folder)
        self.assertEqual((done.returncode, done.stdout[:16]), (0, b'@string{a = "A"}'))
        self.assertEqual(done.stderr.decode().splitlines(), [f'btx extract: I didn\'t find a database entry for "{key}"' for key in ("gone",)])
        done = run_module("extract", "job.aux", "-o", "small.bib", cwd=self.folder)
        self.assertEqual((done.returncode, done.stdout[:12]), (0, b"5 entries, 2"), done)
        whole = btx.run_paper("job").bbl
        self.write({"job.aux": AUX.replace(b"one,none,two", b"small")})
        self.assertEqual(btx.run_paper("job").bbl, whole)
        mask = os.umask(0)
        os.umask(mask)
        self.assertEqual(pathlib.Path("small.bib").stat().st_mode & 0o777, 0o666 & ~mask)

    def test_broken_entries(self):
        one = b'@misc{quote, note = "a } b"}\n@misc{at @misc{in, title={I}}\n@misc{open, title = {A}, note = {'
        self.write({"job.aux": b"\\citation{open,quote,at,in,two}\n\\bibdata{one,two}\n\\bibstyle{s}\n", "s.bst": STYLE, "one.bib": one, "two.bib": b"@misc{two, title = {T}}"})
        found = extracting.extract("job", Inputs(Search()), btx.Options())
        self.assertEqual(found.again.bbl, b"\nopenA\nquote\nat\ninI\ntwoT\n")
        self.assertTrue(found.is_enough)

    def test_refusals(self):
        self.write({"job.aux": AUX, "s.bst": STYLE, "one.bib": ONE, "two.bib": TWO, "bare.aux": b"\\citation{a}\n\\bibdata{one}\n"})
        rows = [(("none",), 3), (("bare",), 3), (("job", "-o", "one.bib"), 6), (("job", "-o", "no/small.bib"), 6), (("job", "--wrong"), 1), (("a\nb",), 1)]
        for words, status in rows:
            with self.subTest(words=words):
                self.assertEqual(run_module("extract", *words, cwd=self.folder).returncode, status)
        self.assertEqual((pathlib.Path("one.bib").read_bytes(), sorted(os.listdir())), (ONE, ["bare.aux", "job.aux", "one.bib", "s.bst", "two.bib"]))

    def test_what_an_output_may_be(self):
        """A link stays, and what it leads to is written in its own folder alone. Nothing waits for a reader of a pipe."""
        self.write({"job.aux": AUX, "s.bst": STYLE, "one.bib": ONE, "two.bib": TWO, "in/old.bib": b"old", "in/place.txt": b"", "beside.txt": b"old"})
        os.mkfifo("pipe.bib")
        for name, target in (("out.bib", "in/../../" + os.path.basename(os.getcwd()) + "/in/old.bib"), ("in/up.bib", "../beside.txt"), ("to-pipe.bib", "pipe.bib"), ("round.bib", "round.bib"), ("same.bib", "one.bib"),
                             ("link.bib", "beside.txt"), ("new.bib", "made.bib")):
            os.symlink(target, name)
        before = {name: os.lstat(name).st_mode for name in os.listdir()}
        rows = [("in/up.bib", b"leads out of its folder"), ("pipe.bib", b"no regular file"), ("to-pipe.bib", b"no regular file"), ("in", b"no regular file"), ("round.bib", b""), ("same.bib", b"reads")]
        for name, said in rows:
            with self.subTest(name=name):
                done = run_module("extract", "job", "-o", name, cwd=self.folder)
                self.assertEqual((done.returncode, done.stdout, said in done.stderr.splitlines()[-1], b"Traceback" in done.stderr), (6, b"", True, False), done)
        self.assertEqual((pathlib.Path("beside.txt").read_bytes(), pathlib.Path("one.bib").read_bytes()), (b"old", ONE))
        for name in ("link.bib", "new.bib", "out.bib"):
            self.assertEqual(run_module("extract", "job", "-o", name, cwd=self.folder).returncode, 0)
        self.assertEqual({pathlib.Path(name).read_bytes()[:16] for name in ("beside.txt", "made.bib", "in/old.bib")}, {b'@string{a = "A"}'})
        self.assertEqual({name: os.lstat(name).st_mode for name in before}, before)

    @unittest.skipIf(shutil.which("kpsewhich") is None, "there is no TeX")
    def test_what_tex_forbids_is_not_written(self):
        self.write({"job.aux": AUX, "s.bst": STYLE, "one.bib": ONE, "two.bib": TWO, "in/x": b""})
        for name in ("../small.bib", ".hidden"):
            with mock.patch.dict(os.environ, {"openout_any": "p", "BSTINPUTS": "..:", "BIBINPUTS": "..:"}):
                done = run_module("extract", "../job", "-o", name, cwd=os.path.join(self.folder, "in"))
            self.assertEqual((done.returncode, b"openout_any" in done.stderr), (1, True), done)
        self.assertEqual((pathlib.Path("small.bib").exists(), os.listdir("in")), (False, ["x"]))

    def test_outputs_that_take_nothing(self):
        self.write({"job.aux": AUX, "s.bst": STYLE, "one.bib": ONE, "two.bib": TWO, "small.bib": b"old"})
        limit = lambda: resource.setrlimit(resource.RLIMIT_FSIZE, (5, resource.RLIM_INFINITY))
        done = run_module("extract", "job", "-o", "small.bib", cwd=self.folder, preexec_fn=limit)
        self.assertEqual((done.returncode, pathlib.Path("small.bib").read_bytes(), done.stderr.count(b"\n")), (6, b"old", 2), done)
        module, plain = f"exec {sys.executable} -m btx", str(SOURCES / "examples/article/article.bst")
        rows = [f"extract job {it}" for it in (">&-", "-o small.bib >&-", "1<one.bib", "-o other.bib 1<one.bib")] + [f"fields {plain} {it}" for it in (">&-", "1<one.bib")] + ["doctor one.bib >&-", "lsp >&-"]
        for words in rows:
            with self.subTest(words=words):
                done = run_shell(f"{module} {words}", cwd=self.folder, preexec_fn=limit)
                said = [line for line in done.stderr.splitlines() if b"I didn't find" not in line]
                self.assertEqual((done.returncode, len(said), b"Traceback" in done.stderr), (6, 1, False), done)
        self.assertEqual(pathlib.Path("small.bib").read_bytes(), b"old")
        done = run_shell(f"{module} extract job 2>&-", cwd=self.folder)
        self.assertEqual((done.returncode, done.stdout[:16], b"btx extract" in done.stdout), (0, b'@string{a = "A"}', False))

    def test_another_list_is_not_written(self):
        self.write({"job.aux": AUX, "s.bst": STYLE, "one.bib": ONE, "two.bib": TWO})
        with mock.patch.object(extracting, "keys_of", lambda *_: {b"child"}), mock.patch("sys.stderr"):
            self.assertEqual(extracting.main(["job", "-o", "small.bib"]), 2)
        self.assertFalse(pathlib.Path("small.bib").exists())

    def test_examples(self):
        for aux in sorted(EXAMPLES.glob("*/*.aux")):
            with self.subTest(aux=aux.name):
                os.chdir(aux.parent)
                try:
                    self.assertTrue(extracting.extract(aux.name, Inputs(Search(), aux.name), btx.Options(budget=100_000)).is_enough)
                except extracting.NoList:
                    pass

    def test_of_tex_live(self):
        if shutil.which("kpsewhich") is None or shutil.which("bibtex") is None:
            self.skipTest("there is no TeX Live")
        for style in ("plain", "alpha", "unsrt", "apalike"):
            for citations in ("*", "article-full,inbook-crossref,whole-set,prime-number-theorem"):
                self.write({"job.aux": f"\\citation{{{citations}}}\n\\bibdata{{xampl}}\n\\bibstyle{{{style}}}\n".encode()})
                done = run_module("extract", "job", "-o", "small.bib", cwd=self.folder)
                self.assertEqual(done.returncode, 0, done)


if __name__ == "__main__":
    unittest.main()
