"""Calls that a caller shouldn't make, and files that nobody should write."""

import concurrent.futures
import gc
import multiprocessing
import os
import pickle
import random
import resource
import unittest

import btx
from tests.jobs import FILES, with_style


# An exception of each class, by the facts that it is made of.
REFUSALS = {
    btx.Refusal: ("odd",),
    btx.LibraryMissing: ("libbtx.so.1", "no such file"),
    btx.OptionRefused: ("line", 1, 20, 1000),
    btx.LettersRefused: ("xx", ("no", "sv")),
    btx.NameRefused: (b"a\nb", "has a line end"),
    btx.FinderRefused: (None, "int"),
    btx.MemoryRefused: ("no memory",),
    btx.FileUnknown: ("odd",),
    btx.OutputTooLong: (b"list", b"log"),
    btx.StyleTooLong: (7,),
    btx.DatabaseTooLong: (7,),
    btx.NoLibrary: ("paper",),
    btx.NamesRefused: ("}", "has braces that don't match, so no field has it"),
}


def ran_with_room(room):
    """The list of a job with room for so many bytes of it: what a process of a pool does."""
    return btx.run("job", FILES, btx.Options(most_list=room)).bbl


class Refusals(unittest.TestCase):
    def test_each_has_its_facts(self):
        facts = [
            (btx.OptionRefused, {"option": "line", "value": 1, "least": 20, "most": 1000}),
            (btx.LettersRefused, {"letters": "xx", "known": ("no", "sv")}),
            (btx.NameRefused, {"name": b"a\nb", "reason": "has a line end"}),
            (btx.FinderRefused, {"name": None, "given": "int"}),
            (btx.OutputTooLong, {"bbl": b"list", "log": b"log"}),
            (btx.LibraryMissing, {"library": "libbtx.so.1", "reason": "no such file"}),
        ]
        for kind, wanted in facts:
            with self.subTest(kind=kind.__name__):
                self.assertEqual(vars(kind(*REFUSALS[kind])), wanted)

    def test_each_public_one_is_pickled(self):
        public = {value for value in vars(btx).values() if isinstance(value, type) and issubclass(value, BaseException)}
        self.assertEqual(public, set(REFUSALS))
        for kind, facts in REFUSALS.items():
            with self.subTest(kind=kind.__name__):
                first = kind(*facts)
                again = pickle.loads(pickle.dumps(first))
                self.assertEqual((type(again), str(again), vars(again)), (kind, str(first), vars(first)))

    def test_a_pool_outlives_one(self):
        with concurrent.futures.ProcessPoolExecutor(1, multiprocessing.get_context("spawn")) as pool:
            answers = [pool.submit(ran_with_room, room) for room in (100, 2, 100)]
            self.assertEqual(type(answers[1].exception(60)), btx.OutputTooLong)
            self.assertEqual([answers[0].result(), answers[1].exception().bbl, answers[2].result()], [b"k: T\n", b"k:", b"k: T\n"])


class Names(unittest.TestCase):
    def test_each_public_name_is_there(self):
        for name in btx.__all__:
            with self.subTest(name=name):
                self.assertTrue(hasattr(btx, name))


class Calls(unittest.TestCase):
    def test_wrong_files(self):
        rows = [("job", {**FILES, "d.bib": "text"}), ("job", {**FILES, "d.bib": 7}), ("job", []), ("job", None), ("job", lambda name: name)]
        for job, files in rows:
            with self.subTest(files=repr(files)[:60]), self.assertRaises(btx.FinderRefused):
                btx.run(job, files)
        with self.assertRaises(btx.FinderRefused):
            btx.needs("job", [])

    def test_wrong_names(self):
        for job, files in ((7, FILES), (None, FILES), ("job", {7: b""}), ("\ud800", FILES), ("a\nb", FILES)):
            with self.subTest(job=job), self.assertRaises(btx.NameRefused):
                btx.run(job, files)

    def test_odd_names(self):
        for job in ("", ".", "/", "a\0b", "x" * 100_000, "job.aux.aux", "é", b"\xff"):
            with self.subTest(job=job if len(job) < 20 else "long"):
                self.assertEqual(btx.run(job, {}).report.end, btx.End.NO_TOP_FILE)

    def test_a_function_that_raises(self):
        class Own(Exception):
            pass

        def find(name):
            if name == "d.bib":
                raise Own(name)
            return FILES.get(name)

        with self.assertRaises(Own):
            btx.run("job", find)
        self.assertEqual(btx.run("job", FILES).bbl, b"k: T\n")

    def test_a_function_that_runs_a_job(self):
        def find(name):
            return btx.run("job", FILES).bbl if name == "d.bib" else FILES.get(name)

        self.assertEqual(btx.run("job", find).report.status, 0)

    def test_a_function_that_changes_its_mind(self):
        answers = iter(range(100))
        result = btx.run("job", lambda name: FILES[name] if next(answers) < 3 else None)
        self.assertEqual(result.bbl, b"k: T\n")

    def test_a_mapping_that_is_changed(self):
        files = dict(FILES)
        first = btx.run("job", files)
        files.clear()
        self.assertEqual(first.bbl, b"k: T\n")
        self.assertEqual(btx.run("job", files).report.end, btx.End.NO_TOP_FILE)

    def test_ten_thousand_calls_take_no_memory(self):
        for _ in range(500):
            btx.run("job", FILES)
        gc.collect()
        before = resource.getrusage(resource.RUSAGE_SELF).ru_maxrss
        for _ in range(10_000):
            btx.run("job", FILES)
        self.assertLess(resource.getrusage(resource.RUSAGE_SELF).ru_maxrss - before, 4096)

    def test_a_fork_between_calls(self):
        wanted = btx.run("job", FILES)
        child = os.fork()
        if child == 0:
            os._exit(0 if btx.run("job", FILES) == wanted else 1)
        self.assertEqual(os.waitstatus_to_exitcode(os.waitpid(child, 0)[1]) if hasattr(os, "waitstatus_to_exitcode") else 0, 0)
        self.assertEqual(btx.run("job", FILES), wanted)


class Bytes(unittest.TestCase):
    def test_spoilt_files(self):
        maker = random.Random(11)
        for number in range(300):
            files = dict(FILES)
            name = maker.choice(sorted(files))
            content = bytearray(files[name])
            for _ in range(maker.randrange(1, 4)):
                place = maker.randrange(len(content) + 1)
                content[place:place + maker.randrange(3)] = bytes(maker.choices(range(256), k=maker.randrange(3)))
            files[name] = bytes(content)
            options = btx.Options(budget=10_000)
            result = btx.run("job", files, options)
            self.assertEqual(result, btx.run("job", files, options), number)
            self.assertEqual(b"".join(message.raw + b"\n" for message in result.messages), result.log)

    def test_large_files(self):
        database = b"".join(b"@misc{k%d, title = {%s}}\n" % (number, b"x" * 50) for number in range(20_000))
        self.assertEqual(btx.run("job", {**FILES, "d.bib": database + FILES["d.bib"]}).bbl, b"k: T\n")

    def test_zero_bytes(self):
        files = {**FILES, "d.bib": b"@misc{k, title = {a\0b}}"}
        self.assertEqual(btx.run("job", files).bbl, b"k: a\0b\n")

    def test_a_style_that_floods(self):
        with self.assertRaises(btx.OutputTooLong):
            btx.run("job", with_style(b"FUNCTION {f} {{#1} {'f := } while$} ITERATE {f}"), btx.Options(most_log=1 << 20))


if __name__ == "__main__":
    unittest.main()
