"""`btx compare` where a job's style or database isn't in its own folder: it is found in a folder above, or the job isn't compared."""

import json
import os
import pathlib
import tempfile
import unittest

from btx import depths
from btx.corpus import Job
from tests.jobs import AUX, FILES
from tests.test_compare import InFolder

# What a program writes that wants the files beside the .aux file.
SCRIPT = 'cat s.bst d.bib >/dev/null && echo "k: T" >"$1.bbl"'


class FoldersAbove(InFolder):
    """A document `paper` whose outputs have a folder of their own, as `latexmk -outdir=build` has it."""

    def setUp(self):
        super().setUp()
        self.paper = self.job("paper", b"k: T\n")
        self.build = self.paper / "build"
        self.moved_down("job.aux", "job.bbl")

    def moved_down(self, *names):
        self.build.mkdir(exist_ok=True)
        for name in names:
            (self.paper / name).rename(self.build / name)

    def result(self, *words, folder=None):
        """What came of the one job, where this folder is compared."""
        given, self.folder = self.folder, folder or self.folder
        try:
            (result,) = json.loads(self.compare("--json", *words)[1])["results"]
        finally:
            self.folder = given
        return result["outcome"], result["reason"], result["above"]

    def test_a_folder_for_outputs(self):
        found = ("equal", "", ["../s.bst", "../d.bib"])
        self.assertEqual(self.result(), found)
        self.assertEqual(self.result(folder=self.paper), found)
        self.assertEqual(self.result("--with", self.program(SCRIPT)), found)
        status, printed = self.compare()
        self.assertEqual(status, 0)
        self.assertIn("       1  with a style or a database of a folder above\n       1      ../s.bst\n       1      ../d.bib\n", printed)

    def test_it_is_said_of_lists_that_differ(self):
        (self.build / "job.bbl").write_bytes(b"k: U\n")
        page = self.folder / "page.html"
        self.assertIn("; with ../s.bst, ../d.bib): 'k: T' | 'k: U'", self.compare("--html", page)[1])
        self.assertIn("; with ../s.bst, ../d.bib; line 1", page.read_text())

    def test_the_nearest_one_is_taken(self):
        (self.folder / "d.bib").write_bytes(b"@misc{k, title = {far}}")
        self.assertEqual(self.result()[2], ["../s.bst", "../d.bib"])
        (self.paper / "d.bib").unlink()
        self.assertEqual((self.result()[0], self.result()[2]), ("different", ["../s.bst", "../../d.bib"]))
        (self.build / "d.bib").write_bytes(FILES["d.bib"])
        self.assertEqual(self.result(), ("equal", "", ["../s.bst"]))

    def test_none_is_taken_from_outside(self):
        for folder in (self.build, self.build / "job.aux"):
            self.assertEqual(self.result(folder=folder), ("not run", "I couldn't open style file s.bst", []))
        (self.paper / "d.bib").rename(self.folder / "d.bib")
        for name in (b"../d", b"a/../../d", b"../../../d", bytes(self.folder / "none" / "d")):
            with self.subTest(name=name):
                (self.build / "job.aux").write_bytes(AUX.replace(b"{d}", b"{%s}" % name))
                self.assertEqual(self.result(folder=self.paper)[0], "not run")

    def test_names_that_lead_upwards(self):
        """A name that is one from the document's folder, as where BibTeX is run there over the `.aux` file below."""
        (self.paper / "d.bib").rename(self.folder / "d.bib")
        (self.build / "job.aux").write_bytes(AUX.replace(b"{d}", b"{./../d}"))
        self.assertEqual(self.result()[2], ["../s.bst", "../../d.bib"])

    def test_links_are_followed_as_in_the_own_folder(self):
        with tempfile.TemporaryDirectory() as other:
            (self.paper / "d.bib").rename(pathlib.Path(other, "d.bib"))
            (self.paper / "d.bib").symlink_to(pathlib.Path(other, "d.bib"))
            self.assertEqual(self.result()[0], "equal")

    def test_what_is_no_file(self):
        (self.paper / "d.bib").unlink()
        os.mkfifo(self.paper / "d.bib")
        self.assertEqual(self.result()[1], "I couldn't open database file d.bib")
        (self.paper / "d.bib").unlink()
        (self.paper / "d.bib").mkdir()
        self.assertEqual(self.result()[1], "I couldn't open database file d.bib")

    def test_a_file_that_is_too_long(self):
        os.truncate(self.paper / "d.bib", 3 << 30)
        self.assertIn("it has more than 2,147,483,647 bytes", self.result()[1])

    def test_a_folder_that_was_moved(self):
        self.addCleanup(os.chdir, os.getcwd())
        os.chdir(self.build)
        job = Job(bytes(self.build), b"job", (bytes(self.folder),))
        self.assertEqual(job.file_above(b"d.bib"), (b"../d.bib", FILES["d.bib"]))
        with self.assertRaisesRegex(OSError, "moved meanwhile"):
            depths.file_above(b"d.bib", bytes(self.folder), 1)

    def test_results_that_are_kept(self):
        kept = self.folder / "kept"
        found = self.result("--resume", kept)
        (self.paper / "d.bib").write_bytes(b"@misc{k, title = {other}}")
        self.assertEqual(self.result("--resume", kept), found)
        whole = json.loads(kept.read_text())
        del whole["conditions"]["missing"]
        kept.write_text(json.dumps(whole) + "\n")
        self.assertEqual(self.result("--resume", kept)[0], "different")


class MissingFiles(InFolder):
    def test_lists_that_both_lack_a_database(self):
        """Two lists without an entry are equal, and say nothing of the job."""
        for name, missing in (("database", "d.bib"), ("style", "s.bst")):
            (self.job(name, b"") / missing).unlink()
        reasons = {"database": "I couldn't open database file d.bib", "style": "I couldn't open style file s.bst"}
        program = self.program(': >"$1.bbl"')
        for words in ((), ("--with", program)):
            with self.subTest(words=words):
                self.assertEqual(self.outcomes(*words), {name: ("not run", reason) for name, reason in reasons.items()})
                self.assertEqual((self.compare(*words)[0], self.compare("--allow-not-run", *words)[0]), (3, 3))
        self.job("equal", b"k: T\n")
        self.assertEqual((self.compare()[0], self.compare("--allow-not-run")[0]), (3, 0))

    def test_one_of_many(self):
        self.job("two", b"k: T\n", **{"job.aux": AUX.replace(b"{d}", b"{d,none,d}"), "s.bst": FILES["s.bst"] + b"{#1} {} while$"})
        self.assertEqual(self.outcomes(), {"two": ("not run", "I couldn't open database file none.bib")})


if __name__ == "__main__":
    unittest.main()
