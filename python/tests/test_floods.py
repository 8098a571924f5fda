"""A thousand changes at once, and in a second: the language server answers for the last text alone."""

import contextlib
import fcntl
import pathlib
import random
import tempfile
import time
import unittest

from btx.diagnosing import MOST_AT_ONCE
from tests.editor import Editor, edit

CHANGES = 1000
# Linux's F_SETPIPE_SZ, which Python names from 3.10 on; and as many bytes as anybody may ask for.
SET_PIPE_SIZE, ALL_CHANGES = 1031, 1 << 20
ENTRY = "@article{key%d,\n  author = {Ann Lee and Bo 😀 Ray},\n  title = {A Title That Is Löng 😀 Enough %d},\n  journal = {𝔍 of Things},\n  pages = {1-9},\n  year = {2000},\n}\n\n"
WRONG = "@misc{wrong, title = {😀}, note 1}\n"
FUNCTION = "FUNCTION {f%d}\n{ title empty$ { \"no title 😀\" warning$ } { title \"%%😀%d\" * write$ newline$ }\n  if$ #%d 'n :=\n}\n"
STYLE = "ENTRY {title author}{}{label}\nINTEGERS {n}\n%sFUNCTION {article} { \"😀\" author * titel f1 f2 }\nREAD\nITERATE {call.type$}\n"
TEXTS = {
    "small.bib": "".join(ENTRY % (it, it) for it in range(150)) + WRONG,
    "large.bib": "".join(ENTRY % (it, it) for it in range(6000)) + WRONG,
    "s.bst": STYLE % "".join(FUNCTION % (it, it, it) for it in range(160)),
}


def cut(line, column):
    """The index of a column of a line; in the middle of a letter it is that of the letter."""
    return len(line.encode("utf-16-le")[: 2 * column].decode("utf-16-le", "ignore"))


def changed(lines, change):
    """Makes a change of one line, or of two that follow each other."""
    (first, start), (last, end) = [(change["range"][it]["line"], change["range"][it]["character"]) for it in ("start", "end")]
    made = lines[first][: cut(lines[first], start)] + change["text"] + lines[last][cut(lines[last], end) :]
    lines[first : last + 1] = made.split("\n")


def changes_by_chance(maker, lines, before):
    """One or two changes of a text: letters that come and go, places in the middle of a letter, line ends. What is before the last `before` lines is changed alone."""
    found = []
    for _ in range(maker.choice((1, 1, 2))):
        number = maker.randrange(len(lines) - before)
        line = lines[number]
        middles = [len(line[:at].encode("utf-16-le")) // 2 + 1 for at, letter in enumerate(line) if letter > "\uffff"]
        start = maker.choice(middles) if middles and maker.randrange(3) else maker.randrange(len(line.encode("utf-16-le")) // 2 + 1)
        end = (number, min(start + maker.choice((0, 0, 1)), len(line.encode("utf-16-le")) // 2))
        if maker.randrange(20) == 0:
            end = (number + 1, 0)
        found.append(edit((number, start), end, maker.choice(("x", "é", "😀", "a😀b", " ", "", "\n"))))
        changed(lines, found[-1])
    return found


class Floods(unittest.TestCase):
    def setUp(self):
        room = tempfile.TemporaryDirectory()
        self.addCleanup(room.cleanup)
        self.editor = Editor(pathlib.Path(room.name).resolve())
        self.addCleanup(self.end)
        self.editor.result("initialize", processId=None, rootUri=None, capabilities={})
        self.editor.tell("initialized")

    def end(self):
        status, errors = self.editor.close()
        self.assertEqual((status, errors), (0, ""))

    def said(self, version, answers):
        """The messages with diagnostics until all is said of a version, and whether nothing follows."""
        found = []
        while sum(it["version"] == version for it in found) < answers:
            message = self.editor.take()
            self.assertIsNotNone(message, [it["version"] for it in found])
            found.append(message["params"])
        self.assertIsNone(self.editor.take(0.3))
        return found

    def open(self, name, text):
        """All that is said of a text that is opened, and of the names in it."""
        answers = 1 + (len(text.encode()) > MOST_AT_ONCE)
        self.editor.tell("textDocument/didOpen", textDocument={"uri": self.editor.uri(name), "languageId": "x", "version": 1, "text": text})
        return answers, self.said(1, answers)[-1]["diagnostics"]

    def symbols(self, name):
        return self.editor.result("textDocument/documentSymbol", textDocument={"uri": self.editor.uri(name)})

    def messages(self, name, text, maker):
        """A thousand messages with changes of a text, and the text after them. The lines with mistakes stay at its end."""
        lines, found = text.split("\n"), []
        for number in range(CHANGES):
            params = {"textDocument": {"uri": self.editor.uri(name), "version": number + 2}, "contentChanges": changes_by_chance(maker, lines, 5)}
            found.append(self.editor.framed({"method": "textDocument/didChange", "params": params}))
        return found, "\n".join(lines)

    def compare(self, name, last, published):
        """Compares what is said of the last text with what is said of one that is opened so."""
        versions = [it["version"] for it in published]
        self.assertEqual((versions, versions[-1]), (sorted(versions), CHANGES + 1))
        symbols = self.symbols(name)
        _, said = self.open("other-" + name, last)
        self.assertEqual((published[-1]["diagnostics"], symbols), (said, self.symbols("other-" + name)))
        self.assertTrue(said)

    def test_a_thousand_changes_at_once(self):
        with contextlib.suppress(OSError):
            fcntl.fcntl(self.editor.server.stdin, SET_PIPE_SIZE, ALL_CHANGES)
        for seed, (name, text) in enumerate(TEXTS.items()):
            with self.subTest(name=name):
                answers, _ = self.open(name, text)
                messages, last = self.messages(name, text, random.Random(seed))
                self.editor.raw(b"".join(messages))
                published = self.said(CHANGES + 1, answers)
                self.assertEqual([it["version"] for it in published], [CHANGES + 1] * answers)
                self.compare(name, last, published)

    def test_a_thousand_changes_in_a_second(self):
        for seed, (name, text) in enumerate(TEXTS.items()):
            with self.subTest(name=name):
                answers, _ = self.open(name, text)
                messages, last = self.messages(name, text, random.Random(100 + seed))
                began = time.monotonic()
                for number, message in enumerate(messages):
                    time.sleep(max(0.0, began + number / CHANGES - time.monotonic()))
                    self.editor.raw(message)
                published = self.said(CHANGES + 1, answers)
                # (a writer that has to wait for a processor makes a rest)
                self.assertLess(len(published), 30)
                self.compare(name, last, published)

    def test_a_thousand_whole_texts(self):
        text, uri = TEXTS["small.bib"], self.editor.uri("small.bib")
        self.open("small.bib", text)
        texts = [text[: len(text) - len(WRONG)] + "\n" * number + WRONG for number in range(1, CHANGES + 1)]
        self.editor.raw(b"".join(self.editor.framed({"method": "textDocument/didChange", "params": {"textDocument": {"uri": uri, "version": number + 2}, "contentChanges": [{"text": it}]}}) for number, it in enumerate(texts)))
        self.compare("small.bib", texts[-1], self.said(CHANGES + 1, 1))


if __name__ == "__main__":
    unittest.main()
