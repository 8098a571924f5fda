"""Runs, their outputs and reports."""

import threading
import unittest

import btx
from tests.jobs import AUX, EXAMPLES, FILES, STYLE, with_style


class Runs(unittest.TestCase):
    def test_a_job(self):
        result = btx.run("job", FILES)
        self.assertEqual(result.bbl, b"k: T\n")
        self.assertEqual(result.report, btx.Report(0, btx.End.FINISHED, 8, 1, 0, 0))
        self.assertTrue(result.log.endswith(b"Ended: finished, warnings 0, errors 0, steps 8\n"))

    def test_the_job_may_have_its_ending(self):
        self.assertEqual(btx.run("job.aux", FILES), btx.run("job", FILES))

    def test_examples(self):
        options = {"stopped": btx.Options(budget=200), "utf8_names": btx.Options(utf8=True)}
        for log in sorted(EXAMPLES.glob("*/*.blg")):
            with self.subTest(log=log.name, folder=log.parent.name):
                result = btx.run_in(log.parent, log.stem, options.get(log.parent.name))
                self.assertEqual(result.bbl, log.with_suffix(".bbl").read_bytes())
                self.assertEqual(result.log, log.read_bytes())

    def test_files_by_a_function(self):
        asked = []

        def find(name):
            asked.append(name)
            return FILES.get(name)

        self.assertEqual(btx.run("job", find), btx.run("job", FILES))
        self.assertEqual(asked, ["job.aux", "s.bst", "d.bib"])

    def test_names_as_bytes(self):
        self.assertEqual(btx.run(b"job", {name.encode(): content for name, content in FILES.items()}), btx.run("job", FILES))

    def test_ends(self):
        endless = with_style(b"FUNCTION {f} {{#1} {skip$} while$} ITERATE {f}")
        deep = with_style(b"FUNCTION {f} {'skip$ {duplicate$ #0 pop$} pop$ pop$ {#1} {{#1} 'skip$ while$} while$} ITERATE {f}")
        grows = with_style(b'FUNCTION {f} {"ab" {#1} {duplicate$ *} while$} ITERATE {f}')
        pushes = with_style(b"FUNCTION {f} {{#1} {#1} while$} ITERATE {f}")
        rows = [
            ({}, btx.Options(), btx.End.NO_TOP_FILE, 3),
            (endless, btx.Options(budget=1000), btx.End.STOPPED, 4),
            (grows, btx.Options(), btx.End.LIMIT_STRING, 3),
            (pushes, btx.Options(), btx.End.LIMIT_LITERALS, 3),
            ({**FILES, "s.bst": b""}, btx.Options(), btx.End.FINISHED, 0),
            ({"job.aux": AUX}, btx.Options(), btx.End.FINISHED, 2),
        ]
        for files, options, end, status in rows:
            with self.subTest(end=end):
                report = btx.run("job", files, options).report
                self.assertEqual((report.end, report.status), (end, status))
        self.assertIn(btx.run("job", deep, btx.Options(budget=100_000)).report.status, (2, 3, 4))

    def test_words_of_ends_are_those_of_the_log(self):
        for files, options in ((FILES, btx.Options()), ({}, btx.Options()), (FILES, btx.Options(budget=3))):
            result = btx.run("job", files, options)
            self.assertIn(b"Ended: " + result.report.end.word.encode() + b",", result.log)

    def test_a_stopped_list_begins_the_whole_one(self):
        whole = btx.run("job", FILES)
        for budget in range(whole.report.steps):
            with self.subTest(budget=budget):
                part = btx.run("job", FILES, btx.Options(budget=budget))
                self.assertEqual(part.report.end, btx.End.STOPPED)
                self.assertTrue(whole.bbl.startswith(part.bbl))
                self.assertTrue(whole.log.startswith(part.log.rsplit(b"Ended: ", 1)[0]))

    def test_long_outputs(self):
        style = STYLE.replace(b"title write$", b"#20000 'n := { n #0 > } { title write$ newline$ n #1 - 'n := } while$")
        files = {**FILES, "s.bst": style.replace(b"READ", b"INTEGERS {n} READ")}
        self.assertEqual(btx.run("job", files).bbl, b"k: " + b"T\n" * 20000 + b"\n")

    def test_bytes_in_names(self):
        files = {"job.aux": AUX.replace(b"{d}", b"{d\xff}"), "s.bst": STYLE, b"d\xff.bib": FILES["d.bib"]}
        self.assertEqual(btx.run("job", files).bbl, b"k: T\n")
        self.assertEqual(btx.needs("job", {"job.aux": files["job.aux"]}), ["s.bst", "d\udcff.bib"])

    def test_bytes_like_contents(self):
        self.assertEqual(btx.run("job", {name: bytearray(content) for name, content in FILES.items()}).bbl, b"k: T\n")
        self.assertEqual(btx.run("job", {name: memoryview(content) for name, content in FILES.items()}).bbl, b"k: T\n")


class Needs(unittest.TestCase):
    def test_in_rounds(self):
        aux = b"\\@input{one.aux}\n\\@input{two.aux}\n\\bibdata{d,e}\n\\bibstyle{s}\n"
        known = {"job.aux": aux, "one.aux": None, "two.aux": b"\\@input{three.aux}\n"}
        rows = [
            ({}, ["job.aux"]),
            ({"job.aux": aux}, ["one.aux", "two.aux"]),
            ({"job.aux": aux, "one.aux": None}, ["two.aux"]),
            (known, ["three.aux"]),
            ({**known, "three.aux": b""}, ["s.bst", "d.bib", "e.bib"]),
            ({**known, "three.aux": b"", "s.bst": STYLE, "d.bib": None, "e.bib": b""}, []),
            ({"job.aux": None}, []),
        ]
        for files, names in rows:
            with self.subTest(names=names):
                self.assertEqual(btx.needs("job", files), names)

    def test_many_names(self):
        aux = b"".join(b"\\@input{%05d.aux}\n" % number for number in range(2000))
        self.assertEqual(btx.needs("job", {"job.aux": aux}), [f"{number:05d}.aux" for number in range(2000)])

    def test_a_job_with_spaces(self):
        self.assertEqual(btx.needs("my job", {}), ["my job.aux"])


class Threads(unittest.TestCase):
    def test_side_by_side(self):
        wanted = btx.run_in(EXAMPLES / "article", "article")
        results = []

        def work():
            results.extend(btx.run_in(EXAMPLES / "article", "article") == wanted for _ in range(20))

        threading.stack_size(256 * 1024)
        threads = [threading.Thread(target=work) for _ in range(8)]
        for thread in threads:
            thread.start()
        for thread in threads:
            thread.join()
        threading.stack_size(0)
        self.assertEqual(results, [True] * 160)


if __name__ == "__main__":
    unittest.main()
