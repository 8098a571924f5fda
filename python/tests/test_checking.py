"""What is known of a style before any run."""

import os
import pickle
import tempfile
import threading
import unittest

import btx
from btx import checking
from btx.checking import Fault, Spot, read_notes
from tests.jobs import EXAMPLES

CLEAN = b"ENTRY {title} {} {}\nFUNCTION {book} { title empty$ 'skip$ { title write$ newline$ } if$ }\nREAD\nITERATE {call.type$}\n"
FAULTY = b"ENTRY {title} {} {}\nFUNCTION {book}\n{ title write$ }\nREAD\nITERATE {call.type$}\n"
NOTES = (
    b"warning kind first\nnext format.name$\ndepth 3\noperand 1 text mf\nwants integer\nname field year\nmissing year\nitem ITERATE 9 call.type$\n"
    b"at of 5 3 1 names\nfrom in 7 4 0 book\ntype book\ntype \ngiven author\nblank title\nnew line\n"
    b"warning left later\nnext f\nitem EXECUTE 12 f\noperand 0 integer -1 -\ncause in 8 4 2 book\ngrows -1 0 1 1\npartial\n"
)


class Styles(unittest.TestCase):
    def test_a_clean_one(self):
        verdict = btx.check(CLEAN)
        self.assertEqual((verdict.is_clean, verdict.types, verdict.warnings, verdict.is_partial), (True, ["book"], [], False))
        self.assertGreaterEqual(verdict.literals, 2)
        self.assertGreaterEqual(verdict.bodies, 2)

    def test_a_faulty_one(self):
        verdict = btx.check(FAULTY, "s.bst")
        self.assertIs(verdict.answer, btx.Answer.WARNINGS)
        (warning,) = verdict.warnings
        self.assertEqual((warning.fault, warning.next, warning.line, warning.missing, warning.types), (Fault.WRONG_KIND, "write$", 3, "title", ["book"]))
        self.assertEqual((warning.command, warning.command_line), ("ITERATE {call.type$}", 5))
        self.assertEqual(warning.operand.wanted, "text")

    def test_the_warning_is_what_a_run_logs(self):
        files = {"j.aux": b"\\citation{k}\n\\bibstyle{s}\n\\bibdata{d}\n", "s.bst": FAULTY, "d.bib": b"@book{k}"}
        errors = [message for message in btx.run("j", files).messages if message.kind is btx.Kind.ERROR]
        self.assertEqual([(error.function, error.entry) for error in errors], [("write$", "k")])
        self.assertEqual(btx.run("j", {**files, "s.bst": CLEAN}).report.errors, 0)

    def test_branches_that_differ_are_a_cause(self):
        style = b"ENTRY{}{}{} FUNCTION{f} {#1 {#1} {skip$} if$}\nREAD EXECUTE {f}"
        verdict = btx.check(style)
        self.assertIn(Fault.LEFT_OVER, [warning.fault for warning in verdict.warnings])
        self.assertEqual([cause.place.line for cause in verdict.causes], [1] * len(verdict.causes))

    def test_the_bound_of_one_that_ends(self):
        text = b"ENTRY {title}{}{} STRINGS {s}\nFUNCTION {not} {{#0} {#1} if$}\nFUNCTION {misc} {title 's := {s empty$ not} {s #2 global.max$ substring$ 's :=} while$}\nREAD\nITERATE {call.type$}\n"
        self.assertEqual(btx.check(text).ends, btx.Bound(0, 320_024, 20_000, ["misc"]))
        self.assertEqual(btx.check(text, kept=100).ends.steps(entries=3), 3 * 1_624)
        self.assertIsNone(btx.check(text.replace(b"#2", b"#1")).ends)
        faulty = btx.check(text.replace(b"title 's", b"title write$ title 's"))
        self.assertFalse(faulty.is_clean)
        self.assertEqual(faulty.ends.types, ["misc"])

    def test_few_steps_are_no_verdict(self):
        self.assertIs(btx.check(CLEAN, steps=0).answer, btx.Answer.INCOMPLETE)

    def test_the_examples(self):
        for path in sorted(EXAMPLES.rglob("*.bst")):
            with self.subTest(style=path.name):
                verdict = btx.check(path.read_bytes(), path.name)
                self.assertEqual(bool(verdict.warnings), verdict.answer is btx.Answer.WARNINGS)

    def test_paths_and_bytes(self):
        path = EXAMPLES / "article/article.bst"
        wanted = btx.check(path.read_bytes(), path.name)
        for given in (path, str(path), bytearray(path.read_bytes())):
            with self.subTest(given=type(given)):
                self.assertEqual(btx.check(given), wanted)
        for name in (path, b"\xff.bst", "x.bst"):
            with self.subTest(name=name):
                self.assertEqual(btx.check(FAULTY, name), btx.check(FAULTY))
        with tempfile.NamedTemporaryFile() as file:
            os.truncate(file.name, 3 << 30)
            with self.assertRaises(btx.StyleTooLong) as raised:
                btx.check(file.name)
            self.assertEqual(raised.exception.length, 3 << 30)

    def test_deep_ones(self):
        style = b"ENTRY{}{}{} FUNCTION{f}" + b"{" * 3000 + b"}" * 3000 + b" READ EXECUTE{f}"
        self.assertIn(btx.check(style).answer, list(btx.Answer))

    def test_in_threads(self):
        found = []
        threads = [threading.Thread(target=lambda: found.append(btx.check(FAULTY).warnings)) for _ in range(8)]
        for thread in threads:
            thread.start()
        for thread in threads:
            thread.join()
        self.assertEqual(found, [btx.check(FAULTY).warnings] * 8)

    def test_more_notes_than_room(self):
        body = b" ".join(b"title write$\n" for _ in range(50))
        style = b"ENTRY {title} {} {} " + b"".join(b"FUNCTION {t%d} {%s} " % (number, body) for number in range(40)) + b"READ ITERATE {call.type$}"
        whole = btx.check(style)
        kept = btx.library.FIRST_TYPES, btx.library.FIRST_NOTES
        btx.library.FIRST_TYPES, btx.library.FIRST_NOTES = 1, 1
        try:
            self.assertEqual(btx.check(style), whole)
        finally:
            btx.library.FIRST_TYPES, btx.library.FIRST_NOTES = kept
        self.assertGreater(sum(len(warning.types) for warning in whole.warnings), 1)


class Refused(unittest.TestCase):
    def test_what_nobody_should_hand_in(self):
        for given in (None, 3, ["READ"]):
            with self.subTest(given=given), self.assertRaises(TypeError):
                btx.check(given)
        for given in ("no-such.bst", EXAMPLES):
            with self.subTest(given=given), self.assertRaises(OSError):
                btx.check(given)
        for steps in (-1, 2**64, 1.5, True):
            with self.subTest(steps=steps), self.assertRaises(ValueError):
                btx.check(CLEAN, steps=steps)
        for kept in (-1, 2**32, "5", True):
            with self.subTest(kept=kept), self.assertRaises(ValueError):
                btx.check(CLEAN, kept=kept)

    def test_its_exception_can_be_pickled(self):
        again = pickle.loads(pickle.dumps(btx.StyleTooLong(7)))
        self.assertEqual((str(again), again.length), (str(btx.StyleTooLong(7)), 7))


class Notes(unittest.TestCase):
    def test_blocks_are_read(self):
        (kind, left), causes, is_partial = read_notes(NOTES)
        self.assertEqual((kind.fault, kind.is_first, kind.depth, kind.line, kind.types), (Fault.WRONG_KIND, True, 3, 5, ["book", ""]))
        self.assertEqual(kind.operand, checking.Operand(1, "text mf", "integer", "year"))
        self.assertEqual(kind.places, [Spot(5, 3, 1, "names", True), Spot(7, 4, 0, "book", False)])
        self.assertEqual((kind.given, kind.blank, kind.missing), (["author"], ["title"], "year"))
        self.assertEqual((left.fault, left.is_first, left.line, left.operand.value), (Fault.LEFT_OVER, False, 12, "integer -1 -"))
        self.assertEqual([(cause.first, cause.second, cause.place.line) for cause in causes], [((-1, 0), (1, 1), 8)])
        self.assertTrue(is_partial)

    def test_none(self):
        self.assertEqual(read_notes(b""), ([], [], False))

    def test_words_of_later_libraries_are_passed_over(self):
        (warning,), _, _ = read_notes(b"hint x\nwarning later first\ncolour red\n")
        self.assertIsNone(warning.fault)


if __name__ == "__main__":
    unittest.main()
