"""What `bibtex paper` does, and the names, versions and words of the log that go with it."""

import logging
import os
import pathlib
import pickle
import shutil
import subprocess
import tempfile
import unittest
from unittest import mock

import btx
from btx.searching import Search, SearchFrom
from btx.version import version_installed, version_of_sources
from tests.jobs import AUX, FILES, SOURCES
from tests.readme import EXAMPLES, examples, printed
from tests.spoilt import run_module


class Folder(unittest.TestCase):
    """A test with a folder of its own, in which it is called."""

    def setUp(self):
        room = tempfile.TemporaryDirectory()
        self.addCleanup(room.cleanup)
        self.folder = pathlib.Path(room.name).resolve()
        self.addCleanup(os.chdir, os.getcwd())
        os.chdir(self.folder)

    def write(self, files, folder="."):
        for name, content in files.items():
            path = self.folder / folder / name
            path.parent.mkdir(parents=True, exist_ok=True)
            path.write_bytes(content)


class Papers(Folder):
    def test_in_the_present_folder(self):
        self.write(FILES)
        wanted = btx.run("job", FILES, btx.TEX_LIVE)
        for path in ("job", "job.aux", pathlib.Path("job"), b"job"):
            with self.subTest(path=path):
                self.assertEqual(btx.run_paper(path).bbl, wanted.bbl)
        self.assertEqual(sorted(path.name for path in self.folder.iterdir()), sorted(FILES))

    def test_in_another_folder(self):
        self.write(FILES, "deep/er")
        for folder in ("deep/er", pathlib.Path("deep", "er"), self.folder / "deep/er"):
            with self.subTest(folder=folder):
                self.assertEqual(btx.run_paper("job", folder=folder).bbl, b"k: T\n")
        self.assertEqual(btx.run_paper("er/job", folder="deep", options=btx.Options(budget=1)).report.end, btx.End.FINISHED)

    def test_outputs(self):
        self.write(FILES, "deep")
        result = btx.run_paper("job", folder="deep", write=True)
        self.assertEqual([pathlib.Path("deep/job" + ending).read_bytes() for ending in (".bbl", ".blg")], [result.bbl, result.log])

    def test_no_list_has_half_a_letter_in_silence(self):
        """A call and the command do what `bibtex-search` does, where style and databases are UTF-8; `run` does what its options say."""
        style = b"ENTRY {title} {} {} FUNCTION {misc} {title #1 text.prefix$ write$ newline$} READ ITERATE {call.type$}"
        files = {"job.aux": b"\\citation{k}\n\\bibdata{d}\n\\bibstyle{s}\n", "s.bst": style, "d.bib": "@misc{k, title = {Émile}}\n".encode()}
        note = "The list is made with -text=utf8: read by bytes, it would have half a letter, which LaTeX refuses."
        self.write(files)
        result = btx.run_paper("job")
        self.assertEqual((result.bbl, result.notes), ("É\n".encode(), (note,)))
        for result in (btx.run_paper("job", text="bytes"), btx.run("job", files)):
            self.assertEqual((result.bbl, result.notes), (b"\xc3\n", ()))
        self.assertEqual(btx.run_paper("job", btx.Options(utf8=True)).notes, ())
        with self.assertRaises(ValueError):
            btx.run_paper("job", text="letters")
        for words, wanted, begin in (((), "É\n".encode(), note.encode()), (("--bytes",), b"\xc3\n", b"")):
            done = run_module("job", *words, cwd=self.folder)
            log = pathlib.Path("job.blg").read_bytes()
            self.assertEqual((done.returncode, pathlib.Path("job.bbl").read_bytes(), log.startswith(begin), note.encode() in log), (0, wanted, True, bool(begin)))
        self.write({"d.bib": "@misc{k, title = {Émile}, note = {\xe9}}\n".encode("latin1"), "s.bst": style})
        self.assertEqual(btx.run_paper("job").notes, ())

    def test_included_files(self):
        """They are looked for from the present folder, and then beside the job's."""
        self.write({"job.aux": b"\\@input{one.aux}\n\\@input{sub/two.aux}\n\\bibdata{d}\n\\bibstyle{s}\n", "one.aux": b"\\citation{k}\n"}, "build")
        self.write({"sub/two.aux": b"\\citation{j}\n", "s.bst": FILES["s.bst"], "d.bib": b"@misc{k, title={T}}@misc{j, title={U}}"})
        self.assertEqual(btx.run_paper("build/job").bbl, b"k: T\nj: U\n")

    def test_what_is_not_there(self):
        self.write({"file": b""})
        for call in (lambda: btx.run_paper("none"), lambda: btx.run_paper("job", folder="none"), lambda: btx.run_paper("job", folder="file"),
                     lambda: btx.run_in("none", "job"), lambda: btx.run_in(self.folder / "file", "job"), lambda: btx.in_folder("none")):
            with self.assertRaises(OSError) as caught:
                call()
            self.assertEqual(str(pickle.loads(pickle.dumps(caught.exception))), str(caught.exception))
        with self.assertRaises(FileNotFoundError) as caught:
            btx.run_paper("none")
        self.assertEqual(caught.exception.filename, "none.aux")

    def test_styles_of_tex(self):
        if shutil.which("bibtex") is None or shutil.which("kpsewhich") is None:
            self.skipTest("there is no bibtex")
        aux = b"\\citation{*}\n\\bibdata{xampl}\n\\bibstyle{alpha}\n"
        self.write({"job.aux": aux})
        self.write({"job.aux": aux}, "sub")
        subprocess.run(["bibtex", "job"], stdout=subprocess.DEVNULL)
        there = pathlib.Path("job.bbl").read_bytes()
        for result in (btx.run_paper("job"), btx.run_paper("job", folder="sub")):
            self.assertEqual((len(result.bbl), result.report.status), (len(there), 0))

    def test_without_tex(self):
        self.write({"job.aux": AUX}, "sub")
        self.write({"s.bst": FILES["s.bst"], "d.bib": FILES["d.bib"]}, "common")
        with mock.patch.dict(os.environ, {"BIBINPUTS": ".:../common", "BSTINPUTS": str(self.folder / "common")}):
            search = SearchFrom(b"sub", Search())
            self.assertEqual([search.path_of(name) for name in (b"d.bib", b"job.aux", b"none.bst", b"none.aux")], [b"sub/../common/d.bib", b"sub/job.aux", None, None])

    def test_words_of_the_log(self):
        self.write(FILES)
        with self.assertLogs("btx", logging.DEBUG) as kept:
            btx.run_paper("job")
        self.assertIn("d.bib is", " ".join(kept.output))
        self.assertIn("job ended: finished, warnings 0, errors 0", kept.output[-1])


class Readme(unittest.TestCase):
    def test_the_first_examples(self):
        found = examples((SOURCES / "python/README.md").read_text())
        self.assertEqual(len(found), EXAMPLES)
        with mock.patch.dict(os.environ, {"PYTHONPATH": str(SOURCES / "python")}):
            for text, wanted in found:
                with self.subTest(text=text):
                    self.assertEqual(printed(text), wanted)


class Names(unittest.TestCase):
    def test_paths_as_names(self):
        files = {pathlib.Path(name): content for name, content in FILES.items()}
        self.assertEqual(btx.run(pathlib.Path("job"), files), btx.run("job", FILES))

    def test_versions(self):
        self.assertRegex(btx.__version__, r"^[0-9]")
        self.assertEqual((version_of_sources(), version_installed() or "0"), (btx.__version__, version_installed()))
        with mock.patch("btx.version.OF_SOURCES", pathlib.Path("/no/such/file")):
            self.assertIsNone(version_of_sources())
        done = run_module("--version")
        self.assertEqual((done.returncode, done.stdout.decode().split()), (0, ["btx", btx.__version__]))


if __name__ == "__main__":
    unittest.main()
