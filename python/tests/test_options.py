"""Options and their ranges."""

import dataclasses
import types
import unittest

import btx
from btx.searching import Kpathsea
from tests.jobs import FILES, with_style


class Ranges(unittest.TestCase):
    def test_out_of_range(self):
        rows = [
            ("budget", -1), ("budget", 2**64), ("min_crossrefs", -1), ("min_crossrefs", 2**32), ("line", 19), ("line", 1001), ("entry_max", 0),
            ("entry_max", 1_000_001), ("global_max", 0), ("global_max", 1_000_001), ("most_list", 0), ("most_log", 0), ("most_list", 2**60),
        ]
        for option, value in rows:
            with self.subTest(option=option, value=value), self.assertRaises(btx.OptionRefused) as caught:
                btx.Options(**{option: value})
            self.assertEqual((caught.exception.option, caught.exception.value), (option, value))
            self.assertIn(option, str(caught.exception))

    def test_at_the_ends_of_the_ranges(self):
        rows = [("budget", 0), ("budget", 2**64 - 1), ("min_crossrefs", 0), ("min_crossrefs", 2**32 - 1), ("line", 20), ("line", 1000), ("entry_max", 1),
                ("entry_max", 1_000_000), ("global_max", 1), ("global_max", 1_000_000)]
        for option, value in rows:
            with self.subTest(option=option, value=value):
                self.assertIn(btx.run("job", FILES, btx.Options(**{option: value})).report.status, (0, 4))

    def test_numbers_of_the_set_up_of_tex(self):
        for text, number in ((b"0", 1), (b"1", 1), (b"5000000", 1_000_000), (b"x", 500), (None, 500)):
            with self.subTest(text=text):
                library = types.SimpleNamespace(kpathsea_var_value=lambda setup, name, text=text: text if name == b"ent_str_size" else None)
                found = Kpathsea(library, 0).options(btx.Options())
                self.assertEqual((found.entry_max, found.global_max), (number, 200_000))

    def test_wrong_types(self):
        for option, value in (("line", 79.0), ("line", "79"), ("budget", None), ("line", True), ("utf8", 1)):
            with self.subTest(option=option, value=value), self.assertRaises(TypeError):
                btx.Options(**{option: value})

    def test_frozen(self):
        with self.assertRaises(dataclasses.FrozenInstanceError):
            btx.Options().line = 80  # type: ignore[misc]

    def test_not_options(self):
        with self.assertRaises(TypeError):
            btx.run("job", FILES, {"line": 79})  # type: ignore[arg-type]


class Meaning(unittest.TestCase):
    def test_each_is_handed_on(self):
        text = b'FUNCTION {f} {"\xc3\x89" text.length$ int.to.str$ write$ entry.max$ int.to.str$ write$ global.max$ int.to.str$ write$ newline$} ITERATE {f}'
        rows = [(btx.Options(), b"225020000\n"), (btx.TEX_LIVE, b"2500200000\n"), (btx.Options(utf8=True), b"125020000\n")]
        for options, wanted in rows:
            with self.subTest(options=options):
                self.assertEqual(btx.run("job", with_style(text), options).bbl, wanted)

    def test_line(self):
        files = with_style(b'FUNCTION {f} {"aaaaaaaaaa bbbbbbbbbb cccccccccc" write$ newline$} ITERATE {f}')
        self.assertEqual(btx.run("job", files, btx.Options(line=20)).bbl, b"aaaaaaaaaa\n  bbbbbbbbbb\n  cccccccccc\n")

    def test_min_crossrefs(self):
        files = {**FILES, "d.bib": b"@misc{k, title = {T}, crossref = {p}} @misc{p, title = {P}}"}
        self.assertEqual(btx.run("job", files).bbl, b"k: T\n")
        self.assertEqual(btx.run("job", files, btx.Options(min_crossrefs=1)).bbl, b"k: T\np: P\n")

    def test_rooms(self):
        files = with_style(b"FUNCTION {f} {{#1} {title write$ newline$} while$} ITERATE {f}")
        with self.assertRaises(btx.OutputTooLong) as caught:
            btx.run("job", files, btx.Options(most_list=100_000))
        self.assertLessEqual(len(caught.exception.bbl), 100_000)
        self.assertEqual(caught.exception.bbl, (b"T\n" * 100_000)[: len(caught.exception.bbl)])
        with self.assertRaises(btx.OutputTooLong) as caught:
            btx.run("job", with_style(b'FUNCTION {f} {{#1} {"x" warning$} while$} ITERATE {f}'), btx.Options(most_log=100_000))
        self.assertTrue(caught.exception.log.startswith(b"The top-level auxiliary file: job.aux\n"))


if __name__ == "__main__":
    unittest.main()
