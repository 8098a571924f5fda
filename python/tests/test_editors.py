"""The files for editors: the extension of VS Code, driven through a stand-in of VS Code by node, and the recipes of eglot and of Neovim, driven by Emacs and Neovim."""

import json
import os
import pathlib
import shutil
import subprocess
import tempfile
import unittest

from btx.builtins import described
from tests.jobs import SOURCES

EDITORS = SOURCES / "contrib" / "editors"
STYLE = "ENTRY {note} {} {}\nFUNCTION {output} { write$ newline$ }\nFUNCTION {misc} { output }\nREAD\nITERATE {call.type$}\n"
BASE = "@misc{k, note 1}\n@misc{j}\n"


class VisualStudioCode(unittest.TestCase):
    def setUp(self):
        if shutil.which("node") is None:
            self.skipTest("there is no node")

    def test_the_extension(self):
        with tempfile.TemporaryDirectory() as room:
            folder = pathlib.Path(room).resolve()
            (folder / "s.bst").write_text(STYLE)
            (folder / "d.bib").write_text(BASE)
            env = {**os.environ, "PYTHONPATH": str(SOURCES / "python")}
            done = subprocess.run(["node", str(EDITORS / "vscode" / "drive.js"), room], env=env, capture_output=True, timeout=120)
            self.assertEqual((done.returncode, done.stderr), (0, b""))
        found = json.loads(done.stdout)
        self.assertEqual(found["diagnostics"]["d.bib"], [["I was expecting an =", 0, "mistake"]])
        self.assertEqual({row[2] for row in found["diagnostics"]["s.bst"]}, {"check"})
        self.assertEqual((found["hover"], found["refused"]), (described("write$"), "write$ is BibTeX's own"))
        self.assertEqual(found["actions"], [["Add the =", [["d.bib", 0, 14, "= "]]]])
        self.assertEqual(found["definition"], [{"line": 1, "character": 10}])
        self.assertEqual(found["references"], 2)
        self.assertEqual(found["rename"], [["s.bst", 1, 10, "put"], ["s.bst", 2, 18, "put"]])
        self.assertEqual(found["symbols"], ["k", "j"])
        self.assertGreater(found["completion"], 37)
        self.assertEqual(found["after"], [])

    def test_its_manifest(self):
        manifest = json.loads((EDITORS / "vscode" / "package.json").read_text())
        self.assertTrue((EDITORS / "vscode" / manifest["main"]).is_file())
        self.assertEqual(manifest["contributes"]["configuration"]["properties"]["btx.command"]["default"], ["python3", "-m", "btx", "lsp"])
        self.assertNotIn("dependencies", manifest)


class Emacs(unittest.TestCase):
    def test_the_recipe_of_eglot(self):
        if shutil.which("emacs") is None or subprocess.run(["emacs", "--batch", "--eval", "(require 'eglot)"], capture_output=True).returncode != 0:
            self.skipTest("there is no Emacs with eglot")
        recipe = EDITORS / "btx.el"
        with tempfile.TemporaryDirectory() as room:
            folder = pathlib.Path(room).resolve()
            (folder / "s.bst").write_text(STYLE)
            (folder / "d.bib").write_text(BASE)
            env = {**os.environ, "PYTHONPATH": str(SOURCES / "python"), "HOME": room}
            words = ["emacs", "--batch", "--load", str(recipe), "--load", str(SOURCES / "python/tests/eglot.el")]
            done = subprocess.run(words, cwd=folder, env=env, capture_output=True, timeout=200)
        self.assertEqual(done.returncode, 0, done.stderr)
        said = done.stdout.decode().splitlines()
        self.assertEqual(said, [
            "(mode bibtex-mode)", "(managed t)", '(diagnostic "btx [mistake]: I was expecting an =" 1)', "(mode btx-style-mode)", '(hover "function `output`")', "(definition 2)",
            '(renamed "FUNCTION {misc} { put }")', "(renamed 2)",
        ])


class Neovim(unittest.TestCase):
    def test_the_recipe(self):
        if shutil.which("nvim") is None:
            self.skipTest("there is no Neovim")
        with tempfile.TemporaryDirectory() as room:
            folder = pathlib.Path(room).resolve()
            (folder / "s.bst").write_text(STYLE)
            (folder / "d.bib").write_text(BASE)
            named = {f"XDG_{name}_HOME": str(folder / ".nvim") for name in ("CONFIG", "DATA", "STATE", "CACHE")}
            env = {**os.environ, **named, "PYTHONPATH": str(SOURCES / "python"), "HOME": room}
            words = ["nvim", "--headless", "--clean", "-c", f"luafile {EDITORS / 'btx.lua'}", "-c", f"luafile {SOURCES / 'python/tests/neovim.lua'}"]
            done = subprocess.run(words, cwd=folder, env=env, stdin=subprocess.DEVNULL, capture_output=True, timeout=200)
        self.assertEqual(done.returncode, 0, done.stderr)
        self.assertEqual(done.stdout.decode().splitlines(), [
            "type bib", "clients 1", "diagnostic 0 I was expecting an =", "action Add the =", "line @misc{k, note = 1}", "diagnostics 0", "type bst", "hover function `output`",
            "line FUNCTION {misc} { put }", "servers 1",
        ], done.stderr)


if __name__ == "__main__":
    unittest.main()
