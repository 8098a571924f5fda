"""Keys in which TeX reads a command: what is said of a citation by what LaTeX (TeX Live 2022) has written of it, and of an entry."""

import unittest

from btx.doctor import Source, examine
from btx.key_signs import remedy_of_line
from btx.known import Names
from btx.remedies import remedy_of
from tests.test_several_lists import said

NO_BREAK = rb"\protect \unhbox \voidb@x \protect \penalty \@M \ {}"
OT1 = rb"\protect \global \let \OT1\textunderscore \unhbox \voidb@x \kern .06em\vbox {\hrule width.3em}\OT1\textunderscore "
UMLAUT = rb"\citation{M\unhbox \voidb@x \bgroup \let \unhbox \voidb@x \setbox \@tempboxa \hbox {u\global \mathchardef \accent@spacefactor \spacefactor }\let \begingroup \let \typeout \protect \begingroup \def \MessageBreak {"
KEYS = Names(["a_b", "c\\_d", "e~f", "Lee-Ray", "g#h"])
WRITE = "write `{}` in the `\\cite`, and run LaTeX"
RENAME = "give the entry a key without the `{}`, such as `{}`, write that"
WITHOUT = "cite a key of letters and digits of ASCII"


class Keys(unittest.TestCase):
    def test_what_latex_writes(self):
        rows = (
            (b"a" + NO_BREAK + b"b", WRITE.format("a_b")),
            (rb"a\nobreakspace {}b", WRITE.format("a_b")),
            (b"a" + OT1 + b"b", WRITE.format("a_b")),
            (rb"a\protect \T1\textunderscore b", WRITE.format("a_b")),
            (rb"a\protect \TU\textunderscore b", WRITE.format("a_b")),
            (rb"lee" + NO_BREAK + b"ray", WRITE.format("Lee-Ray")),
            (b"c" + OT1 + b"d", RENAME.format("\\_", "c_d")),
            (b"e" + NO_BREAK + b"f", RENAME.format("~", "e-f")),
            (b"x" + NO_BREAK + b"y", WITHOUT),
        )
        for argument, wanted in rows:
            with self.subTest(argument):
                self.assertIn(wanted, remedy_of_line(b"\\citation{" + argument + b"}\n", KEYS))
        self.assertIn(WITHOUT, remedy_of_line(UMLAUT, KEYS))
        self.assertIn("such as `ef`", remedy_of_line(b"\\citation{e f}", KEYS))
        self.assertIsNone(remedy_of_line(b"\\bibdata{a b}", KEYS))

    def test_keys_that_no_entry_has(self):
        for key, wanted in (("a\\_b", WRITE.format("a_b")), ("lee~ray", WRITE.format("Lee-Ray")), ("g##h", RENAME.format("#", "g-h"))):
            with self.subTest(key):
                self.assertIn(wanted, remedy_of(f'I didn\'t find a database entry for "{key}"', KEYS))

    def test_keys_of_databases(self):
        text = b"@misc{a_b}\n@misc{c\\_d}\n@misc{e~f}\n@misc{p\\&q}\n@misc{g#h}\n@misc{i^j$k'l:m}\n"
        found = [(text[it.start : it.end], it.text) for it in examine([Source("d.bib", text)]) if it.check == "key-of-tex"]
        self.assertEqual(found, [(key, f"LaTeX can't cite this key, in which TeX reads the `{sign}`: call it `{plain}`, or the like")
                                 for key, sign, plain in ((b"c\\_d", "\\_", "c_d"), (b"e~f", "~", "e-f"), (b"p\\&q", "\\&", "p&q"), (b"g#h", "#", "g-h"))])

    def test_each_line_is_said(self):
        aux = b"\\citation{one}\n\\citation{o" + NO_BREAK + b"ne}\n\\citation{t wo}\n\\citation{two}\n\\bibstyle{s}\n\\bibdata{refs}\n"
        status, lines, _ = said({"book.aux": aux})
        self.assertEqual((status, [line.split(" ")[0] for line in lines.splitlines()[::2]]), (2, ["book.aux:2:1:", "book.aux:3:1:"]), lines)
        self.assertIn("what to do: write `one` in the `\\cite`, and run LaTeX: TeX reads the `~` there as a command\n", lines)
        self.assertIn("what to do: write the key without a space, such as `two`", lines)


if __name__ == "__main__":
    unittest.main()
