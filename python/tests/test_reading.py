"""Entries as data."""

import errno
import os
import pathlib
import pickle
import random
import re
import tempfile
import threading
import time
import tracemalloc
import unittest

import btx
from btx.searching import content_of
from tests.made import entries_by_run, names_for_style
from tests.spoilt import logged, of_tex_live, spoilt

SPOILT = int(os.environ.get("BTX_TEST_SPOILT", "1200"))
TEXT = b'''@String{jcs = {Journal of   Counting
  Systems}}
@Article{Kay, Title = "A" # {  b }, journal = jcs, month = feb, year = 1984, title = {no}}
@misc{j, note 1}
@preamble{"\\\\x" # jcs}
 \xc3\xa9 @book(x , title = jcs # "~" # zz, crossref = {KAY})
@misc{KAY, x\xff = {\xff}}
'''


def lower(text):
    return text.encode("utf8", "surrogateescape").lower().decode("utf8", "surrogateescape")


def entries_of(base):
    """The entries as `entries_by_run` has them: of a repeated key the first; fields and types that a style can define."""
    entries, seen = [], set()
    types, fields = {entry.type for entry in base}, {name for entry in base for name in entry}
    known = set(names_for_style(types)) - fields
    for entry in base:
        if lower(entry.key) not in seen:
            seen.add(lower(entry.key))
            wanted = {name: entry[name] for name in names_for_style(entry)}
            entries.append((entry.key, entry.type if entry.type in known else "", wanted))
    return entries, types, fields


def hides_items(base):
    """Whether a repeated entry has an `@` after its key: a run looks for items there."""
    return any(b"@" in entry.raw[1:] for entry in repeated_in(base))


def repeated_in(base):
    """The entries whose keys entries before them have."""
    seen, found = set(), []
    for entry in base:
        if lower(entry.key) in seen:
            found.append(entry)
        seen.add(lower(entry.key))
    return found


def with_keys_of_their_own(text):
    """The text in which no key stands twice: a run reads each entry of it to its end, and none for another item."""
    base = btx.read(text)
    for number, entry in reversed(list(enumerate(repeated_in(base)))):
        at = key_of(base.text, entry)
        text = text[:at] + b"key-of-its-own-%d" % number + text[at + len(entry.key.encode("utf8", "surrogateescape")):]
    return text


def key_of(text, entry):
    """Where the key of an entry stands."""
    opening = re.compile(rb"[{(]").search(text, entry.place.span[0]).end()
    return text.index(entry.key.encode("utf8", "surrogateescape"), opening)


class Shapes(unittest.TestCase):
    def setUp(self):
        self.base = btx.read(TEXT)

    def test_entries(self):
        base = self.base
        self.assertEqual([entry.key for entry in base], ["Kay", "j", "x", "KAY"])
        self.assertEqual([entry.type for entry in base.entries], ["article", "misc", "book", "misc"])
        self.assertEqual(dict(base["kay"]), {"title": "A b", "journal": "Journal of Counting Systems", "month": "February", "year": "1984"})
        self.assertEqual((base["KAY"]["TITLE"], base.entries["X"]["title"], base.entries[2].get("note")), ("A b", "Journal of Counting Systems~", None))
        self.assertIs(base.entries[0], base["Kay"])
        self.assertEqual((len(base), len(base.entries), base.entries[1:3]), (4, 4, [base["j"], base["x"]]))
        self.assertIs(base["x"].parent, base["Kay"])
        self.assertIsNone(base["j"].parent)
        self.assertIsNone(base.get("zz"))

    def test_collections(self):
        base = self.base
        self.assertTrue("KAY" in base and "j" in base.entries and base["j"] in base and "Title" in base["kay"])
        self.assertFalse("zz" in base or 7 in base or "note" in base["j"] or 7 in base["j"])
        self.assertNotEqual(base.entries[0], base.entries[3])
        for wrong in (lambda: base["zz"], lambda: base.entries["zz"], lambda: base["j"]["note"], lambda: base["j"].place_of("note")):
            with self.assertRaises(KeyError):
                wrong()
        with self.assertRaises(IndexError):
            base.entries[9]
        with self.assertRaises(TypeError):
            base["kay"].fields["title"] = "B"  # type: ignore[index]
        self.assertEqual(repr(base), "<btx.Bibliography database.bib: 4 entries>")
        self.assertEqual(repr(base["x"]), "<btx.Entry @book{x}, line 6 of database.bib>")

    def test_places(self):
        entry = self.base["x"]
        self.assertEqual(entry.place[:2], (6, 4))
        self.assertEqual(entry.raw, TEXT[slice(*entry.place.span)])
        self.assertEqual(entry.raw, b'@book(x , title = jcs # "~" # zz, crossref = {KAY})')
        place = entry.place_of("Title")
        self.assertEqual((place.line, place.column, TEXT[slice(*place.span)]), (6, 14, b'title = jcs # "~" # zz'))
        self.assertEqual((self.base["j"].raw, self.base["j"].is_whole, entry.is_whole), (b"@misc{j, note ", False, True))

    def test_places_on_one_line_in_any_order(self):
        odd = "@misc{é, y = {\U0001d400}}ß".encode() + b"@misc{\xff, \xa9 = {\xe9}}\xe2\x82@misc{\xc3,\xa9=1}\xc3"
        text = odd * 20 + b"\n" + odd + b"\r\n" + odd
        entries = list(btx.read(text))
        for entry in (*entries, *reversed(entries), *random.Random(3).choices(entries, k=200)):
            for place in (entry.place, *map(entry.place_of, entry)):
                start = text.rfind(b"\n", 0, place.span[0]) + 1
                column = len(text[start : place.span[0]].decode("utf8", "surrogateescape")) + 1
                self.assertEqual((place.line, place.column), (text.count(b"\n", 0, start) + 1, column))

    def test_strings_and_preamble(self):
        self.assertEqual(self.base.strings, {"jcs": "Journal of Counting Systems"})
        self.assertEqual(self.base.preamble, "\\\\xJournal of Counting Systems")
        self.assertEqual(btx.read(TEXT, {"FEB": "II", "zz": "!"})["x"]["title"], "Journal of Counting Systems~!")
        self.assertEqual(btx.read(TEXT, {"FEB": "II"})["kay"]["month"], "II")
        self.assertEqual(btx.read(TEXT, {b"FEB": b"\xff"})["kay"]["month"], "\udcff")
        self.assertEqual(btx.read(b"@misc{k, month = jan}", {})["k"]["month"], "")

    def test_messages(self):
        found = [(message.place.line, message.place.column, message.text, message.is_error, message.key) for message in self.base.messages]
        self.assertEqual(found, [
            (3, 89, 'I\'m ignoring Kay\'s extra "title" field', False, "Kay"),
            (4, 15, "I was expecting an =", True, "j"),
            (6, 34, 'string name "zz" is undefined', False, "x"),
            (7, 7, "Repeated entry", True, "KAY"),
        ])
        self.assertEqual(str(self.base.messages[1]), "Error--I was expecting an =--line 4 of file database.bib")
        self.assertEqual(btx.read(b"@misc{a, x = {\n").messages[0].place, btx.Place(1, 16, (15, 15)))
        self.assertEqual([it.text for it in btx.read(b"@string{a = a}").messages], ['string name "a" is used in its own definition'])

    def test_bytes_that_are_not_utf8(self):
        self.assertEqual(list(self.base.entries[3].items()), [("x\udcff", "\udcff")])

    def test_long_values(self):
        base = btx.read(b"@misc{k, a = {" + b"x" * 1_000_001 + b"}, b = {y}}")
        self.assertEqual((dict(base["k"]), [message.text for message in base.messages]), ({"b": "y"}, ["the value of a has more than 1,000,000 bytes"]))

    def test_a_name_counts_whose_value_is_too_long(self):
        long, short = b"title = {" + b"x" * 1_000_001 + b"}", b"Title = {short}"
        for fields, wanted, extra in ((long + b", " + short, {"b": "y"}, "Title"), (short + b", " + long, {"title": "short", "b": "y"}, "title")):
            base = btx.read(b"@misc{k, " + fields + b", b = {y}}")
            self.assertEqual(dict(base["k"]), wanted)
            self.assertEqual(base["k"].place_of("title").column, 10)
            self.assertEqual(base.messages[-1].text, f'I\'m ignoring k\'s extra "{extra}" field')

    def test_long_strings_and_preambles(self):
        long = b"x" * 1_000_001
        for text, span, name in (
            (b"@ String ( a_b = {%s})" % long, (11, 14), "a_b"),
            (b"@Preamble {{%s}}" % long, (0, 9), "@Preamble"),
            (b"@string{s = {%s}}@string{t = s # {x}}" % long[1:], (1_000_023, 1_000_024), "t"),
        ):
            with self.subTest(name=name):
                found = [(message.text, message.is_error, message.key, message.place.span) for message in btx.read(text).messages]
                self.assertEqual(found, [(f"the value of {name} has more than 1,000,000 bytes", True, None, span)])
                files = {"j.aux": b"\\citation{*}\n\\bibdata{d}\n\\bibstyle{s}\n", "s.bst": b"ENTRY{t}{}{}READ", "d.bib": text}
                self.assertEqual(btx.run("j", files).report.end, btx.End.LIMIT_STRING)
        self.assertEqual(btx.read(b"@string{a = {%s}}@preamble{{%s}}" % (long[1:], long[1:])).messages, [])

    def test_records_that_need_more_room(self):
        base = btx.read(b"@misc{k" + b",a=1" * 100_000 + b"}")
        self.assertEqual(len(list(base["k"])), 1)
        grows = b"@string{a={" + b"x" * 100_000 + b"}}" + b"@misc{k, x = a}" * 100
        self.assertEqual({len(entry["x"]) for entry in btx.read(grows)}, {100_000})

    def test_paths(self):
        with tempfile.TemporaryDirectory() as folder:
            path = pathlib.Path(folder, "d.bib")
            path.write_bytes(TEXT)
            for source in (path, str(path)):
                self.assertEqual((btx.read(source).file, len(btx.read(source))), ("d.bib", 4))
            with self.assertRaises(FileNotFoundError):
                btx.read(path.with_name("none.bib"))
        for source in (bytearray(TEXT), memoryview(TEXT)):
            self.assertEqual(len(btx.read(source)), 4)

    def test_a_file_that_is_too_long_is_not_read(self):
        with tempfile.TemporaryDirectory() as folder:
            path = pathlib.Path(folder, "d.bib")
            path.touch()
            os.truncate(path, 3 << 30)
            begin = time.process_time()
            with self.assertRaises(btx.DatabaseTooLong) as raised:
                btx.read(path)
            self.assertEqual(raised.exception.length, 3 << 30)
            self.assertLess(time.process_time() - begin, 1)

    def test_what_is_no_file(self):
        """It isn't read, and a pipe into which nobody writes isn't waited for."""
        with tempfile.TemporaryDirectory() as folder:
            pipe, link = pathlib.Path(folder, "pipe.bib"), pathlib.Path(folder, "link.bib")
            os.mkfifo(pipe)
            link.symlink_to(pipe)
            for path in (pipe, link, pathlib.Path("/dev/zero"), pathlib.Path("/dev/null")):
                for reads in (btx.read, lambda it: content_of(os.fsencode(it), 5), lambda it: btx.in_folder(it.parent)(it.name)):
                    with self.subTest(path=path), self.assertRaises(OSError) as raised:
                        reads(path)
                    self.assertEqual((raised.exception.filename, raised.exception.strerror), (str(path), "it is no regular file"))
            with self.assertRaises(IsADirectoryError):
                btx.read(folder)

    def test_a_file_with_more_than_its_length_says(self):
        self.assertGreater(len(content_of(b"/proc/self/status", 1 << 20)), 5)
        with self.assertRaises(OSError) as raised:
            content_of(b"/proc/self/status", 5)
        self.assertEqual(raised.exception.errno, errno.EFBIG)

    def test_a_folder_with_a_file_that_is_too_long(self):
        with tempfile.TemporaryDirectory() as folder:
            path = pathlib.Path(folder, "d.bib")
            path.touch()
            os.truncate(path, 3 << 30)
            pathlib.Path(folder, "j.aux").write_bytes(b"\\citation{*}\n\\bibdata{d}\n\\bibstyle{s}\n")
            pathlib.Path(folder, "s.bst").write_bytes(b"ENTRY{t}{}{}READ")
            begin = time.process_time()
            with self.assertRaises(OSError) as raised:
                btx.run_in(folder, "j")
            self.assertEqual((raised.exception.errno, raised.exception.filename), (errno.EFBIG, str(path)))
            self.assertLess(time.process_time() - begin, 1)
            os.truncate(path, 0)
            self.assertEqual(btx.run_in(os.fsencode(folder), "j").report.status, 0)

    def test_a_file_that_is_written_meanwhile(self):
        """What is read is what some writes have left, and nothing fails."""
        texts = [b"@misc{k, title = {%s}}\n" % (b"x" * size) for size in (10, 3_000, 200_000)]
        with tempfile.TemporaryDirectory() as folder:
            path, is_done = pathlib.Path(folder, "d.bib"), threading.Event()
            path.write_bytes(b"")

            def write():
                while not is_done.is_set():
                    for text in texts:
                        path.write_bytes(text)

            writer = threading.Thread(target=write)
            writer.start()
            try:
                for _ in range(300):
                    base = btx.read(path)
                    self.assertTrue(len(base) <= 2 and set(base.entries[0].get("title", "x") if len(base) else "x") == {"x"})
                    content_of(os.fsencode(path), 1 << 20)
            finally:
                is_done.set()
                writer.join()

    def test_long_values_are_kept_once(self):
        base = btx.read(b"@string{c = {%s\xc3\xa9}}" % (b"x" * 999_000) + b"".join(b"@misc{k%d, Title = {A}, t = c, year = c # {1}}" % number for number in range(60)))
        tracemalloc.start()
        try:
            self.assertEqual(sum(len(value) for entry in base for value in entry.values()), 60 * (2 * 999_001 + 2))
            kept, most = tracemalloc.get_traced_memory()
        finally:
            tracemalloc.stop()
        self.assertLess(kept, 1_000_000)
        self.assertLess(most, 10_000_000)
        entry = base["k7"]
        self.assertEqual((list(entry), len(entry), entry["TITLE"], entry["year"][-2:], "t" in entry.fields, "u" in entry, entry.get("u")), (["title", "t", "year"], 3, "A", "\xe91", True, False, None))
        self.assertEqual(dict(pickle.loads(pickle.dumps(entry))), dict(entry))
        with self.assertRaises(TypeError):
            entry.fields["t"] = "B"  # type: ignore[index]

    def test_it_is_pickled(self):
        again = pickle.loads(pickle.dumps(self.base))
        self.assertEqual([(entry.key, dict(entry)) for entry in again], [(entry.key, dict(entry)) for entry in self.base])

    def test_nothing(self):
        for text in (b"", b"text", b"@", b"@comment{x}"):
            self.assertEqual((len(btx.read(text)), list(btx.read(text).strings), btx.read(text).preamble), (0, [], ""))


class BesideRuns(unittest.TestCase):
    """What is read has the values, keys, types and order of a run. (Each field crossref has another name in these databases: what a run inherits isn't read.)"""

    def same(self, text):
        text = re.sub(rb"(?i)crossref", b"crossreg", text)
        base = btx.read(text)
        if hides_items(base):
            text = with_keys_of_their_own(text)
            base = btx.read(text)
        entries, types, fields = entries_of(base)
        self.assertEqual(entries_by_run(text, types, fields), entries)
        return len(entries)

    def test_databases_of_tex_live(self):
        paths = of_tex_live()
        if not paths:
            self.skipTest("there is no TeX Live")
        total = 0
        for path in paths:
            with self.subTest(path=path.name):
                total += self.same(path.read_bytes())
        self.assertGreater(total, 10_000)

    def test_spoilt_databases(self):
        self.assertGreater(sum(self.same(text) for text in spoilt(SPOILT)), SPOILT)

    def same_messages(self, text):
        """Compares the messages with what a run logs: their texts, their lines and their order. Those after the key of a repeated entry don't count, as a run passes over it."""
        base = btx.read(text, {})
        names = {name.encode("utf8", "surrogateescape") for entry in base for name in entry}
        passed = passed_over(base)
        messages = [(message.place.line, message.text) for message in base.messages if not any(start <= message.place.span[0] <= end for start, end in passed)]
        found = logged(text, names)
        self.assertEqual(found, messages, text)
        return len(found), len(passed)

    def test_messages_of_tex_live(self):
        paths = of_tex_live()
        if not paths:
            self.skipTest("there is no TeX Live")
        total = 0
        for path in paths:
            with self.subTest(path=path.name):
                total += self.same_messages(re.sub(rb"(?i)crossref", b"crossreg", path.read_bytes()))[0]
        self.assertGreater(total, 1000)

    def test_messages_of_spoilt_databases(self):
        total = repeated = several = 0
        for text in spoilt(SPOILT):
            text = text.replace(b",", b",\n") if len(text) % 2 else text
            found = self.same_messages(with_keys_of_their_own(text) if hides_items(btx.read(text)) else text)
            total, repeated, several = total + found[0], repeated + found[1], several + (found[0] > 1)
        self.assertGreater(total, SPOILT // 2)
        self.assertGreater(min(repeated, several), SPOILT // 10)

    def test_messages_of_fields_on_several_lines(self):
        for value in (b"{y\n z}", b"12\n\n", b"zz\n #\n {z\n}", b"{y}\n #\n zz\xc3\xa9\n", b'"\n" # zz\xff', b"{y} # zz\xe2\x82"):
            for name in (b"t", b"x\xc3\xa9"):
                with self.subTest(value=value, name=name):
                    self.assertEqual(self.same_messages(b"@misc{a, %s={x},\n %s\n =\n %s,\n u = zz}@misc{A, t = {}, t = {}}" % (name, name, value)), (3, 1))


def passed_over(base):
    """From where to where a run passes over the rest of repeated entries."""
    return [(key_of(base.text, entry) + 1, entry.place.span[1]) for entry in repeated_in(base)]


class Cost(unittest.TestCase):
    def test_a_large_database(self):
        text = b"".join(b"@article{key%d, author = {A. Author and B. Author}, title = {A {T}itle of %d}, year = 1984, pages = {1--2}}\n" % (number, number) for number in range(60_000))
        begin = time.process_time()
        base = btx.read(text)
        read = time.process_time() - begin
        self.assertEqual(sum(len(entry.fields) for entry in base), 240_000)
        self.assertLess(read, 1.5)
        self.assertLess(time.process_time() - begin - read, 3)

    def test_places_on_one_line_take_a_linear_time(self):
        for entries in (list, lambda base: reversed(list(base))):
            base = btx.read(b"@misc{k, note = {A}, year = 1984} " * 40_000)
            begin = time.process_time()
            for entry in entries(base):
                entry.place.column
            self.assertLess(time.process_time() - begin, 2)

    def test_long_texts_take_a_linear_time(self):
        size = 100_000
        hostile = [b"@misc{k, x = " + b"{" * size, b"@" * size, b"@misc{k" * (size // 7), b"@misc{k, x = 1 #" + b" 1 #" * size, b"@misc{k" + b",x=a" * size + b"}", b"@string{a=a#a}" * 20_000,
                   b"@misc{k,x=a" + b"#a" * size + b"}", b"@misc{a" + b" " * size + b"1", b"@misc{a,x=1}" * 20_000, b"@a{,b=1 " * 20_000]
        for text in hostile:
            with self.subTest(text=text[:20]):
                begin = time.process_time()
                len(btx.read(text).messages)
                self.assertLess(time.process_time() - begin, 5)


if __name__ == "__main__":
    unittest.main()
