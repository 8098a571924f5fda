"""`btx compare`: jobs, causes, programs that fail, reports, and that nothing in the folders changes."""

import contextlib
import fcntl
import io
import itertools
import json
import os
import pathlib
import pty
import random
import resource
import shutil
import signal
import stat
import struct
import subprocess
import sys
import tempfile
import termios
import time
import unittest
from unittest import mock

import btx
from btx import compare
from btx.causes import Cause, cause_of, first_difference
from btx.corpus import found_jobs
from btx.events import EVENT, Events, Met, Severity
from btx.results import End, Report, Result
from tests.jobs import AUX, EXAMPLES, FILES, STYLE

ENVIRONMENT = {**os.environ, "PYTHONPATH": str(pathlib.Path(btx.__file__).parent.parent)}


def result_of(bbl, end=End.FINISHED, log=b"", severity=Severity.ERROR, met=Met.EXECUTION):
    """A result whose log has at most one line."""
    events = Events(EVENT.pack(0, len(log) - 1, 0, severity, met), 1) if log else Events()
    return Result(bbl, log, Report(0, end, 0, 0, 0, 0), events)


def default_signals():
    """Gives a process the defaults of signals, whatever whoever runs these tests ignores."""
    for number in (signal.SIGINT, signal.SIGTERM, signal.SIGHUP, signal.SIGQUIT):
        signal.signal(number, signal.SIG_DFL)


def command_lines():
    """The words of all processes of this machine."""
    lines = []
    for path in pathlib.Path("/proc").glob("[0-9]*/cmdline"):
        with contextlib.suppress(OSError):
            lines.append(path.read_bytes().decode("utf8", "replace").split("\0")[:-1])
    return lines


def is_gone(words):
    """Whether no process of this machine has these words, ten seconds from now at the latest: one that is killed ends a little later."""
    last = time.monotonic() + 10
    while words in command_lines():
        if time.monotonic() > last:
            return False
        time.sleep(0.1)
    return True


class Causes(unittest.TestCase):
    def test_each(self):
        one, two = b"\\bibitem{a}\nOne\n\n", b"\\bibitem{b}\nTwo\n\n"
        cut = b"Warning--string of 300 bytes cut to 250 while executing := for entry a\n"
        error = b"Error--You can't pop an empty literal stack while executing pop$ for entry a\n"
        rows = [
            (result_of(one, End.STOPPED), two, Cause.STOPPED),
            (result_of(one, End.LIMIT_CALLS), two, Cause.LIMIT),
            (result_of(one), one.replace(b"\n", b"\r\n"), Cause.LINE_ENDS),
            (result_of(one), one.replace(b"\n", b"\n  "), Cause.SPACES),
            (result_of(one + two), two + one, Cause.ORDER),
            (result_of(one + two, log=error), two + one, Cause.ORDER),
            (result_of(one + two, log=error), two + one.replace(b"One", b"Eins"), Cause.STYLE),
            (result_of(one), two, Cause.KEYS),
            (result_of(one), one + two, Cause.KEYS),
            (result_of(one), one.replace(b"One", b"Eins"), Cause.ITEMS),
            (result_of(one, log=cut, severity=Severity.WARNING), one.replace(b"One", b"Eins"), Cause.CUT),
            (result_of(one, log=error), one.replace(b"One", b"Eins"), Cause.STYLE),
            (result_of(b"x" + one), b"y" + one, Cause.OTHER),
            (result_of(b"\\bibitem[{A[1]}]{a} x\n"), b"\\bibitem[{B[2]}]{a} x\n", Cause.ITEMS),
        ]
        for result, there, cause in rows:
            with self.subTest(cause=cause):
                self.assertEqual(cause_of(result, there), cause)

    def test_first_difference(self):
        rows = [(b"a\nb\n", b"a\nc\n", (2, "b", "c")), (b"a\n", b"a\nb\n", (2, "", "b")), (b"a", b"a\nb", (2, None, "b")), (b"\x1b[2J\n", b"\n", (1, "?[2J", ""))]
        for here, there, wanted in rows:
            with self.subTest(here=here):
                self.assertEqual(tuple(first_difference(here, there)), wanted)

    def test_first_differences_are_those_of_the_lines(self):
        maker = random.Random(3)
        for _ in range(2000):
            here, there = (bytes(maker.choices(b"ab\n", k=maker.randrange(9))) for _ in range(2))
            lines = enumerate(itertools.zip_longest(here.decode().split("\n"), there.decode().split("\n")), 1)
            wanted = next(((number, *pair) for number, pair in lines if pair[0] != pair[1]), None)
            if wanted is not None:
                self.assertEqual(tuple(first_difference(here, there)), wanted)

    def test_causes_of_odd_lists_take_little_time(self):
        began = time.process_time()
        for there in (b"\\bibitem" + b" " * 200_000 + b"\n", b"\\bibitem{k} a\n" * 400_000):
            self.assertEqual(cause_of(result_of(b"\\bibitem{a}\n", log=b'Error--x\n""\n' * 200_000), there), Cause.KEYS)
        self.assertLess(time.process_time() - began, 10)

    def test_lists_of_100_megabytes(self):
        here, there = b"k: T\n" * 20_000_000, b"k: T\n" * 20_000_000 + b"x"
        began = time.process_time()
        self.assertEqual(tuple(first_difference(here, there)), (20_000_001, "", "x"))
        self.assertEqual(cause_of(result_of(here), there), Cause.OTHER)
        self.assertLess(time.process_time() - began, 10)


class InFolder(unittest.TestCase):
    def setUp(self):
        self.folder = pathlib.Path(tempfile.mkdtemp())
        self.addCleanup(shutil.rmtree, self.folder, ignore_errors=True)

    def job(self, name, bbl, **files):
        folder = self.folder / name
        folder.mkdir(parents=True)
        for file, content in {**FILES, **files}.items():
            (folder / file).write_bytes(content)
        if bbl is not None:
            (folder / "job.bbl").write_bytes(bbl)
        return folder

    def compare(self, *words):
        """The exit status, and what was printed."""
        printed = io.StringIO()
        with contextlib.redirect_stdout(printed), contextlib.redirect_stderr(io.StringIO()):
            status = compare.main([str(self.folder), "--processes", "2", *map(str, words)])
        return status, printed.getvalue()

    def outcomes(self, *words):
        results = json.loads(self.compare("--json", *words)[1])["results"]
        return {pathlib.Path(result["job"]).parent.name: (result["outcome"], result["reason"]) for result in results}

    def program(self, text):
        path = self.folder / "program"
        path.write_text(f"#!/bin/sh\n{text}\n")
        path.chmod(path.stat().st_mode | stat.S_IXUSR)
        return path


class Jobs(InFolder):
    def test_which_are_found(self):
        self.job("one", b"k: T\n")
        self.job("without a list", None)
        folder = self.job("chapters", b"k: T\n", **{"job.aux": AUX + b"\\@input{ch/a.aux}\n\\@input{job.aux}\n"})
        (folder / "ch").mkdir()
        for name in ("a.aux", "a.bbl", "b.aux", "b.bbl"):
            (folder / "ch" / name).write_bytes(b"\\relax\n")
        (folder / "job.aux").write_bytes(AUX + b"\\@input{ch/a.aux}\n\\@input{ch/b.aux}\n")
        (folder / "ch" / "b.aux").write_bytes(AUX)
        found = {(pathlib.Path(os.fsdecode(job.folder)).name, os.fsdecode(job.name)) for job in found_jobs([os.fsencode(self.folder)], self.fail)}
        self.assertEqual(found, {("one", "job"), ("chapters", "job"), ("chapters", "ch/b")})

    def test_two_that_include_each_other(self):
        folder = self.folder / "pair"
        folder.mkdir()
        for name, other in (("a", b"b"), ("b", b"a")):
            (folder / f"{name}.aux").write_bytes(b"\\citation{k}\n\\@input{" + other + b".aux}\n")
            (folder / f"{name}.bbl").write_bytes(b"")
        self.assertEqual([job.name for job in found_jobs([os.fsencode(self.folder)], self.fail)], [b"a", b"b"])

    def test_no_folder(self):
        said = []
        self.assertEqual(found_jobs([b"/nonexistent"], said.append), [])
        self.assertEqual(len(said), 1)

    def folders_in_one_another(self, names, files):
        """Makes folders in one another, and files in the last one; the descriptor of that."""
        self.addCleanup(subprocess.run, ["rm", "-rf", self.folder], check=True)
        here = os.open(self.folder, os.O_RDONLY)
        for name in names:
            os.mkdir(name, dir_fd=here)
            inner = os.open(name, os.O_RDONLY, dir_fd=here)
            os.close(here)
            here = inner
        self.addCleanup(os.close, here)
        for name, content in files.items():
            with open(os.open(name, os.O_WRONLY | os.O_CREAT, dir_fd=here), "wb") as file:
                file.write(content)
        return here

    def test_folders_very_deep_in_one_another(self):
        self.job("one", b"k: T\n")
        names = [f"d{number}" for number in range(3000)]
        here = self.folders_in_one_another(names, {**FILES, "job.bbl": b"k: T\n"})
        os.mkdir("last", dir_fd=here)
        limits = resource.getrlimit(resource.RLIMIT_NOFILE)
        resource.setrlimit(resource.RLIMIT_NOFILE, (64, limits[1]))
        try:
            began = time.process_time()
            self.assertEqual([job.name for job in found_jobs([os.fsencode(self.folder)], self.fail)], [b"job", b"job"])
            self.assertLess(time.process_time() - began, 5)
        finally:
            resource.setrlimit(resource.RLIMIT_NOFILE, limits)
        for program in ((), ("--with", self.program('cat s.bst d.bib >/dev/null && echo "k: T" >"$1.bbl"'))):
            for _ in range(2):
                self.assertEqual(self.outcomes("--resume", self.folder / "kept", *program), {"one": ("equal", ""), names[-1]: ("equal", "")})
        os.unlink("job.bbl", dir_fd=here)
        os.symlink(self.folder / "one" / "job.bbl", "job.bbl", dir_fd=here)
        self.assertEqual(self.outcomes()[names[-1]], ("not run", "job.bbl is a link that leads out of the folder, so none of its lines is shown"))

    def test_folders_with_long_names_in_one_another(self):
        """The time grows with the folders, and not with their paths."""
        here = self.folders_in_one_another([f"{number:0200}" for number in range(3000)], {**FILES, "job.bbl": b"k: T\n"})
        os.close(os.open("other.aux", os.O_WRONLY | os.O_CREAT, dir_fd=here))
        began = time.process_time()
        (job,) = found_jobs([os.fsencode(self.folder)], self.fail)
        self.assertLess(time.process_time() - began, 5)
        self.addCleanup(os.chdir, os.getcwd())
        self.assertEqual(compare.compared(job, 1000, None, 60).outcome, "equal")

    def test_folders_that_cannot_be_read(self):
        """Those beside and above them are walked through, also where no folder can be left by its `..`."""
        if os.getuid() == 0:
            self.skipTest("root may read all")
        for count, mode in enumerate((0, 0o400, 0o100), 1):
            with self.subTest(mode=mode), mock.patch("btx.depths.MOST_OPEN", 2):
                self.job(f"a{mode}/in", b"k: T\n")
                self.job(f"b{mode}", b"k: T\n")
                (self.folder / f"a{mode}").chmod(mode)
                self.addCleanup((self.folder / f"a{mode}").chmod, 0o700)
                said = []
                self.assertEqual(len(found_jobs([os.fsencode(self.folder)], said.append)), count)
                self.assertEqual(len(said), count)

    def test_many_includes_without_an_end(self):
        self.job("one", b"k: T\n", **{"job.aux": AUX + b"\\@input{\n" * 300_000})
        began = time.process_time()
        self.assertEqual(len(found_jobs([os.fsencode(self.folder)], self.fail)), 1)
        self.assertLess(time.process_time() - began, 5)

    def test_no_jobs(self):
        status, printed = self.compare()
        self.assertEqual(status, 3)
        self.assertIn("0 jobs", printed)


class Comparisons(InFolder):
    def test_outcomes(self):
        self.job("equal", b"k: T\n")
        self.job("different", b"k: U\n")
        self.job("no style", b"", **{"job.aux": b"\\citation{k}\n\\bibdata{d}\n"})
        self.job("biber", b"", **{"job.aux": b"\\relax\n"})
        self.job("lost style", b"", **{"job.aux": AUX.replace(b"{s}", b"{lost}")})
        self.job("loops", b"k: T\n", **{"s.bst": STYLE.replace(b"{cite$", b"{{#1} {skip$} while$ cite$")})
        self.assertEqual(self.outcomes("--budget", 10_000), {
            "equal": ("equal", ""),
            "different": ("different", Cause.OTHER.value),
            "no style": ("not run", "I found no \\bibstyle command"),
            "biber": ("not run", "I found no \\bibdata command"),
            "lost style": ("not run", "I couldn't open style file lost.bst"),
            "loops": ("different", Cause.STOPPED.value),
        })

    def test_one_that_floods_is_not_run(self):
        line = '{"%s" write$ newline$}' % ("x" * 60)
        for name, body in (("list", line), ("log", line.replace("write$ newline$", "top$"))):
            self.job(name, b"k: T\n", **{"s.bst": STYLE.replace(b"{cite$", b"{{#1} %s while$ cite$" % body.encode())})
        self.job("one", b"k: T\n")
        outcomes = self.outcomes()
        self.assertEqual({name: outcome for name, (outcome, _) in outcomes.items()}, {"list": "not run", "log": "not run", "one": "equal"})
        self.assertIn("longer than its room", outcomes["list"][1])

    def test_files_that_are_too_long(self):
        for name in ("d.bib", "s.bst", "job.bbl"):
            folder = self.job(name, b"k: T\n")
            os.truncate(folder / name, 3 << 30)
        self.assertEqual({(outcome, "bytes" in reason) for outcome, reason in self.outcomes().values()}, {("not run", True)})

    def test_statuses(self):
        without_style = {"job.aux": b"\\citation{k}\n\\bibdata{d}\n"}
        rows = [("equal", (0, 0)), ("equal, not run", (3, 0)), ("different", (2, 2)), ("different, not run", (3, 2)), ("not run", (3, 3))]
        for jobs, statuses in rows:
            with self.subTest(jobs=jobs):
                shutil.rmtree(self.folder)
                for name in jobs.split(", "):
                    self.job(name, b"k: U\n" if name == "different" else b"k: T\n", **(without_style if name == "not run" else {}))
                self.assertEqual((self.compare()[0], self.compare("--allow-not-run")[0]), statuses)

    def test_a_time_limit_counts_from_the_start(self):
        self.job("loops", b"", **{"s.bst": STYLE.replace(b"{cite$", b"{{#1} {skip$} while$ cite$")})
        self.job("one", b"k: T\n")
        began = time.monotonic()
        outcomes = self.outcomes("--budget", 2**64 - 1, "--time-limit", 1)
        self.assertLess(time.monotonic() - began, 30)
        self.assertEqual(outcomes, {"loops": ("not run", "took longer than 2 seconds"), "one": ("equal", "")})

    def test_files_that_are_none(self):
        for name in ("s.bst", "d.bib", "job.aux"):
            folder = self.job(name, b"k: T\n")
            (folder / name).unlink()
            os.mkfifo(folder / name)
        began = time.monotonic()
        self.assertEqual(self.outcomes("--time-limit", 20), {
            "s.bst": ("not run", "I couldn't open style file s.bst"),
            "d.bib": ("not run", "I couldn't open database file d.bib"),
            "job.aux": ("not run", "the .aux file can't be read"),
        })
        self.assertLess(time.monotonic() - began, 15)

    def test_links_that_lead_out_of_the_folder(self):
        secret = pathlib.Path(tempfile.mkdtemp())
        self.addCleanup(shutil.rmtree, secret)
        (secret / "passwd").write_bytes(b"root:SECRET\n")
        for ending in ("aux", "bbl", "blg"):
            file = self.job(ending, b"k: T\n") / f"job.{ending}"
            file.unlink(missing_ok=True)
            file.symlink_to(secret / "passwd")
        (self.folder / "step").symlink_to(secret)
        file = self.job("by a folder", b"") / "job.bbl"
        file.unlink()
        file.symlink_to("../step/passwd")
        said = {name: ("not run", f"job.{name} is a link that leads out of the folder, so none of its lines is shown") for name in ("aux", "bbl", "blg")}
        self.assertEqual(self.outcomes(), {**said, "by a folder": said["bbl"]})
        page = self.folder / "page.html"
        for words in ((), ("--json",), ("--html", page), ("--with", self.program('echo SECRET >"$1.bbl"'))):
            with self.subTest(words=words):
                status, printed = self.compare(*words)
                self.assertEqual((status, "SECRET" in printed, "is a link that leads out" in printed), (3, False, True))
        self.assertNotIn("SECRET", page.read_text())
        self.assertIn("is a link that leads out", page.read_text())

    def test_links_that_stay_in_the_folder(self):
        (self.folder / "lists").mkdir()
        (self.folder / "lists" / "one.bbl").write_bytes(b"k: U\n")
        (self.job("one", None) / "job.bbl").symlink_to("../lists/one.bbl")
        (self.job("two", None) / "job.bbl").symlink_to("../one/job.bbl")
        self.assertEqual(self.outcomes(), {name: ("different", Cause.OTHER.value) for name in ("one", "two")})
        self.assertIn("job.bbl is a link", self.compare_folder(self.folder / "two" / "job.aux"))
        with tempfile.TemporaryDirectory() as other:
            link = pathlib.Path(other, "link")
            link.symlink_to(self.folder)
            self.assertEqual(json.loads(self.compare_folder(link))["results"][0]["outcome"], "different")

    def compare_folder(self, folder):
        printed = io.StringIO()
        with contextlib.redirect_stdout(printed):
            compare.main([str(folder), "--json"])
        return printed.getvalue()

    def test_table_and_status(self):
        self.job("equal", b"k: T\n")
        self.assertEqual(self.compare()[0], 0)
        self.job("different", b"k: U\n")
        status, printed = self.compare()
        self.assertEqual(status, 2)
        self.assertIn("line 1 differs", printed)
        self.assertIn("'k: T' | 'k: U'", printed)

    def test_examples_are_equal(self):
        shutil.copytree(EXAMPLES / "article", self.folder / "article")
        shutil.copytree(EXAMPLES / "cross_reference", self.folder / "cross_reference")
        self.assertEqual({outcome for outcome, _ in self.outcomes().values()}, {"equal"})

    def test_names_that_are_not_utf8(self):
        folder = os.fsencode(self.job("odd", b"k: T\n"))
        os.rename(folder, os.path.join(os.path.dirname(folder), b"odd\xff"))
        self.assertEqual(self.outcomes(), {"odd\udcff": ("equal", "")})

    @unittest.skipIf(shutil.which("kpsewhich") is None, "there is no TeX")
    def test_a_search_below_the_present_folder(self):
        for name in ("one", "two"):
            folder = self.job(name, b"k: T\n", **{"job.aux": AUX.replace(b"{d}", b"{%s}" % name.encode())})
            (folder / f"in {name}").mkdir()
            (folder / "d.bib").rename(folder / f"in {name}" / f"{name}.bib")
        with mock.patch.dict(os.environ, {"BIBINPUTS": ".//:"}):
            self.assertEqual(self.outcomes("--processes", 1), {"one": ("equal", ""), "two": ("equal", "")})

    def test_nothing_changes(self):
        folder = self.job("one", b"k: U\n")
        before = {path: (path.read_bytes(), path.stat().st_mtime_ns) for path in folder.iterdir()}
        self.compare("--with", self.program('echo "k: U" >"$1.bbl"; echo >other'))
        self.assertEqual({path: (path.read_bytes(), path.stat().st_mtime_ns) for path in folder.iterdir()}, before)

    @unittest.skipIf(os.geteuid() == 0, "root may read any file")
    def test_unreadable(self):
        (self.job("locked", b"k: T\n") / "d.bib").chmod(0)
        self.assertEqual(self.outcomes()["locked"][0], "not run")


class Programs(InFolder):
    """A job `one`, whose list a program writes."""

    def setUp(self):
        super().setUp()
        self.one = self.job("one", b"other\n")

    def outcome_by(self, text, *words):
        """The outcome of the job by a program of this text, and its reason."""
        return self.outcomes("--with", self.program(text), *words)["one"]

    def test_with(self):
        self.assertEqual(self.outcome_by('echo "k: T" >"$1.bbl"'), ("equal", ""))
        self.assertEqual(self.outcome_by('echo "k: U" >"$1.bbl"')[0], "different")

    def test_it_gets_the_files(self):
        self.assertEqual(self.outcome_by('cat s.bst d.bib job.aux >/dev/null && echo "k: T" >"$1.bbl"'), ("equal", ""))

    def test_programs_that_fail(self):
        rows = [("kill -SEGV $$", "was ended by signal 11"), ("exit 3", "wrote no list (status 3)"), ("sleep 30", "took longer than 1 second")]
        for text, reason in rows:
            with self.subTest(text=text):
                outcome, said = self.outcome_by(text, "--time-limit", 1)
                self.assertEqual(outcome, "not run")
                self.assertIn(reason, said)

    def test_no_program(self):
        self.assertEqual(self.compare("--with", "no-such-program")[0], 1)
        self.assertEqual(self.compare("--with", "")[0], 1)

    def test_a_program_that_compares_nothing(self):
        self.assertEqual(self.compare("--with", "/bin/false")[0], 3)

    def test_a_program_of_the_present_folder(self):
        path = os.path.relpath(self.program('echo "k: T" >"$1.bbl"'))
        self.assertEqual(self.outcomes("--with", path)["one"], ("equal", ""))

    def test_it_gets_files_of_folders_above(self):
        folder = self.job("above", b"", **{"job.aux": AUX.replace(b"{d}", b"{../../d,a/../../e}").replace(b"{s}", b"{sub/s}")})
        inner = folder / "two" / "three"
        inner.mkdir(parents=True)
        (inner / "sub").mkdir()
        for name, path in (("s.bst", "sub/s.bst"), ("job.aux", "job.aux"), ("job.bbl", "job.bbl")):
            (folder / name).rename(inner / path)
        (inner / "a").mkdir()
        (folder / "two" / "e.bib").write_bytes(b"")
        script = 'test ! -e ../../job.bbl && cat sub/s.bst ../../d.bib a/../../e.bib >/dev/null && echo "k: T" >"$1.bbl"'
        self.assertEqual(self.outcomes("--with", self.program(script))["three"], ("equal", ""))

    def test_it_gets_files_found_along_a_path(self):
        (self.one / "in").mkdir()
        (self.one / "d.bib").rename(self.one / "in" / "d.bib")
        script = 'case $BIBINPUTS in .:in:*) cat d.bib >/dev/null && echo "k: T" >"$1.bbl";; esac'
        with mock.patch.dict(os.environ, {"BIBINPUTS": "in:"}):
            self.assertEqual(self.outcome_by(script), ("equal", ""))

    def test_names_that_lead_too_far(self):
        self.job("up", b"", **{"job.aux": AUX.replace(b"{d}", b"{%sd}" % (b"../" * 1200)), "s.bst": b""})
        root = os.fsencode(self.folder)[1:]
        (self.folder / "up" / "job.aux").write_bytes(AUX.replace(b"{d}", b"{%s%s/one/d}" % (b"../" * 1200, root)))
        outcomes = self.outcomes("--with", self.program('echo "k: T" >"$1.bbl"'))
        self.assertEqual((outcomes["up"][0], outcomes["one"][0]), ("not run", "equal"))
        self.assertNotIn("process", outcomes["up"][1])

    def test_a_job_whose_name_looks_like_an_option(self):
        for ending in (".aux", ".bbl"):
            (self.one / f"job{ending}").rename(self.one / f"-job{ending}")
        self.assertEqual(self.outcome_by('echo "k: T" >"$1.bbl"; [ "$1" = ./-job ]'), ("equal", ""))

    def test_one_that_floods_and_one_that_leaves_children(self):
        rows = [('yes & child=$!; sleep 1; kill $child; echo "k: T" >"$1.bbl"', "equal"), ('sleep 61.5 & echo "k: T" >"$1.bbl"', "equal"), ("trap '' TERM INT; sleep 61.5 & sleep 61.5", "not run")]
        for text, outcome in rows:
            with self.subTest(text=text):
                began = time.monotonic()
                self.assertEqual(self.outcome_by(text, "--time-limit", 3)[0], outcome)
                self.assertLess(time.monotonic() - began, 20)
                self.assertTrue(is_gone(["sleep", "61.5"]))


class Reports(InFolder):
    def test_page(self):
        self.job("one", b"<script>\n")
        page = self.folder / "report.html"
        self.compare("--html", page)
        text = page.read_text(encoding="utf8")
        self.assertIn("&lt;script&gt;", text)
        self.assertNotIn("<script", text)
        self.assertIn('name="viewport"', text)

    def test_resume(self):
        self.job("one", b"k: T\n")
        self.job("two", b"k: U\n")
        kept = self.folder / "kept"
        first = self.outcomes("--resume", kept)
        lines = kept.read_text().splitlines()
        self.assertEqual(len(lines), 2)
        kept.write_text(lines[0] + "\n" + lines[1][:20])
        self.assertEqual(self.outcomes("--resume", kept), first)
        self.assertEqual(self.outcomes("--resume", kept), first)
        self.assertEqual(len(kept.read_text().splitlines()), 3)
        (self.folder / "two" / "job.bbl").write_bytes(b"k: T\n")
        self.assertEqual(self.outcomes("--resume", kept)["two"], ("equal", ""))

    def test_resume_under_other_conditions(self):
        self.job("loops", b"k: T\n", **{"s.bst": STYLE.replace(b"{cite$", b"{#900 {duplicate$ #0 >} {#1 -} while$ pop$ cite$")})
        kept = self.folder / "kept"
        self.assertEqual(self.outcomes("--resume", kept, "--budget", 100)["loops"], ("different", Cause.STOPPED.value))
        self.assertEqual(self.outcomes("--resume", kept)["loops"], ("equal", ""))
        program = self.program('echo "k: U" >"$1.bbl"')
        self.assertEqual(self.outcomes("--resume", kept, "--with", program)["loops"][0], "different")
        self.program('echo "k: T" >"$1.bbl"')
        self.assertEqual(self.outcomes("--resume", kept, "--with", program)["loops"][0], "equal")

    def test_resume_runs_again_what_was_not_run(self):
        folder = self.job("one", b"k: T\n")
        (folder / "s.bst").unlink()
        kept = self.folder / "kept"
        self.assertEqual(self.outcomes("--resume", kept)["one"][0], "not run")
        (folder / "s.bst").write_bytes(STYLE)
        self.assertEqual(self.outcomes("--resume", kept)["one"], ("equal", ""))

    def test_resume_from_a_spoilt_file(self):
        self.job("one", b"k: T\n")
        kept = self.folder / "kept"
        wanted = self.outcomes("--resume", kept)
        whole = json.loads(kept.read_text())
        results = [7, [], {}, {"job": 1}, {**whole["result"], "more": 1}, {**whole["result"], "reason": 5}, {**whole["result"], "outcome": []}, {**whole["result"], "line": "x"}]
        lines = [json.dumps({**whole, "result": result}) for result in results]
        for text in (b"\0\xff\n", b"[" * 5000 + b"\n", b"7\n[]\nnull\n", *(line.encode() + b"\n" for line in lines)):
            with self.subTest(text=text[:40]):
                kept.write_bytes(text)
                self.assertEqual(self.outcomes("--resume", kept), wanted)

    def test_resume_from_a_file_that_was_cut_off(self):
        self.job("one", b"k: T\n")
        kept = self.folder / "kept"
        wanted = self.outcomes("--resume", kept)
        kept.write_bytes(kept.read_bytes()[:-2])
        self.assertEqual(self.outcomes("--resume", kept), wanted)
        # (the result got a line of its own, and so isn't got again)
        found = kept.read_bytes()
        self.assertEqual(self.outcomes("--resume", kept), wanted)
        self.assertEqual(kept.read_bytes(), found)

    def test_files_that_cannot_be_written(self):
        self.job("one", b"k: T\n")
        status, printed = self.compare("--html", self.folder / "none" / "page.html")
        self.assertEqual((status, printed.splitlines()[1]), (1, "       1  equal"))
        for file in (self.folder, "/dev/zero"):
            self.assertEqual(self.compare("--resume", file)[0], 1)

    def test_a_folder_that_is_not_there(self):
        self.job("one", b"k: T\n")
        with contextlib.redirect_stdout(io.StringIO()) as printed, contextlib.redirect_stderr(io.StringIO()) as complaints:
            self.assertEqual(compare.main([str(self.folder), str(self.folder / "none")]), 1)
        self.assertIn("1  equal", printed.getvalue())
        self.assertIn("No such file", complaints.getvalue())

    def test_refused_words(self):
        for words in (["--processes", "0"], ["--budget", "-1"], ["--budget", "1e3"], ["--time-limit", "nan"], ["--time-limit", "0"], ["--nonsense"]):
            with self.subTest(words=words), self.assertRaises(SystemExit) as caught:
                self.compare(*words)
            self.assertEqual(caught.exception.code, 1)

    def test_nobody_reads_on(self):
        for number in range(30):
            self.job(f"job{number}", b"k: U\n")
        for words in ([], ["--json"]):
            with self.subTest(words=words):
                command = [sys.executable, "-m", "btx", "compare", str(self.folder), "--processes", "2", *words]
                process = subprocess.Popen(command, env=ENVIRONMENT, stdout=subprocess.PIPE, stderr=subprocess.PIPE)
                process.stdout.close()
                self.assertEqual(process.stderr.read(), b"")
                process.stderr.close()
                self.assertEqual(process.wait(30), 141)

    def test_an_encoding_without_the_characters(self):
        self.job("ä\x1b", b"\xc3\xa4 \x1b[2J\n")
        words = [sys.executable, "-m", "btx", "compare", str(self.folder)]
        done = subprocess.run(words, env={**ENVIRONMENT, "PYTHONIOENCODING": "ascii"}, capture_output=True, timeout=60)
        self.assertEqual((done.returncode, done.stderr), (2, b""))
        self.assertIn(b"\\xe4?", done.stdout)
        self.assertNotIn(b"\x1b", done.stdout)

    def test_progress_fits_the_terminal(self):
        reader, writer = pty.openpty()
        fcntl.ioctl(writer, termios.TIOCSWINSZ, struct.pack("HHHH", 5, 20, 0, 0))
        self.job("\x1b[2Jodd", b"k: U\n")
        words = [sys.executable, "-m", "btx", "compare", str(self.folder)]
        subprocess.run(words, env=ENVIRONMENT, stdout=subprocess.DEVNULL, stderr=writer, timeout=60)
        os.close(writer)
        text = os.read(reader, 10_000).decode()
        os.close(reader)
        self.assertIn("1 of 1 jobs", text)
        self.assertNotIn("[2J", text)
        for line in text.replace("\033[K", "").split("\r"):
            self.assertLess(len(line), 20)

    def test_a_worker_that_is_killed(self):
        for number in range(12):
            self.job(f"job{number}", b"")
        marker = self.folder / "marker"
        script = f'echo "k: T" >"$1.bbl"; mkdir {marker} 2>/dev/null && kill -KILL $PPID && sleep 1; :'
        outcomes = self.outcomes("--with", self.program(script))
        self.assertEqual(sorted(outcome for outcome, _ in outcomes.values()), ["equal"] * 11 + ["not run"])

    def interruptible(self, words, **given):
        """Starts a command that an interrupt reaches, also where whoever runs these tests ignores interrupts, as a shell's job in the background does."""
        return subprocess.Popen(words, stdout=subprocess.PIPE, preexec_fn=default_signals, **given)

    def test_interrupted_with_a_program(self):
        for number in range(10):
            self.job(f"job{number}", b"")
        with tempfile.TemporaryDirectory() as room:
            words = [sys.executable, "-m", "btx", "compare", str(self.folder), "--processes", "2", "--with", str(self.program("sleep 62.5"))]
            process = self.interruptible(words, env={**ENVIRONMENT, "TMPDIR": room}, stderr=subprocess.PIPE)
            while ["sleep", "62.5"] not in command_lines():
                time.sleep(0.1)
            process.send_signal(2)
            printed, complaints = process.communicate(timeout=30)
            self.assertEqual((process.returncode, complaints), (130, b""))
            self.assertIn(b"0 jobs in", printed)
            self.assertNotIn(["sleep", "62.5"], command_lines())
            self.assertEqual(os.listdir(room), [])

    def test_ended_by_other_signals(self):
        for number in (signal.SIGTERM, signal.SIGHUP, signal.SIGQUIT):
            with self.subTest(signal=number), tempfile.TemporaryDirectory() as room:
                shutil.rmtree(self.folder / "one", ignore_errors=True)
                self.job("one", b"")
                words = [sys.executable, "-m", "btx", "compare", str(self.folder), "--with", str(self.program("sleep 63.5"))]
                process = self.interruptible(words, env={**ENVIRONMENT, "TMPDIR": room}, stderr=subprocess.PIPE)
                while ["sleep", "63.5"] not in command_lines():
                    time.sleep(0.1)
                process.send_signal(number)
                printed, complaints = process.communicate(timeout=30)
                self.assertEqual((process.returncode, complaints), (-number, b""))
                self.assertIn(b"0 jobs in", printed)
                self.assertEqual(os.listdir(room), [])

    def test_interrupted(self):
        for number in range(40):
            self.job(f"job{number}", b"k: T\n", **{"s.bst": STYLE.replace(b"{cite$", b"{{#1} {skip$} while$ cite$")})
        words = [sys.executable, "-m", "btx", "compare", str(self.folder), "--processes", "2", "--budget", "100000000"]
        process = self.interruptible(words, env=ENVIRONMENT, stderr=subprocess.DEVNULL, text=True)
        time.sleep(3)
        process.send_signal(2)
        began = time.monotonic()
        printed = process.communicate(timeout=30)[0]
        self.assertLess(time.monotonic() - began, 5)
        self.assertEqual(process.returncode, 130)
        self.assertIn("jobs in", printed)


class Command(InFolder):
    def command(self, *words):
        return subprocess.run([sys.executable, "-m", "btx", *words], env=ENVIRONMENT, cwd=self.folder / "one", capture_output=True, timeout=60)

    def test_runs_a_job(self):
        folder = self.job("one", None)
        done = self.command("job")
        self.assertEqual(done.returncode, 0)
        self.assertEqual((folder / "job.bbl").read_bytes(), b"k: T\n")
        self.assertEqual((folder / "job.blg").read_bytes(), done.stdout)

    def test_statuses(self):
        self.job("one", None, **{"d.bib": b"@misc{k, title 1}"})
        rows = [(["job"], 2), (["none"], 3), (["job", "--budget", "1"], 4), (["--line", "19", "job"], 1), (["--nonsense", "job"], 1), ([], 1), (["--help"], 0)]
        for words, status in rows:
            with self.subTest(words=words):
                self.assertEqual(self.command(*words).returncode, status)

    def test_outputs_that_are_no_files_of_their_own(self):
        folder = self.job("one", None)
        rows = [("job.bbl", "d.bib"), ("job.blg", "s.bst"), ("job.blg", "job.bbl"), ("job.bbl", "job.aux")]
        for link, target in rows:
            with self.subTest(link=link, target=target):
                for ending in (".bbl", ".blg"):
                    (folder / f"job{ending}").unlink(missing_ok=True)
                (folder / "job.bbl").write_bytes(b"old")
                (folder / link).unlink(missing_ok=True)
                (folder / link).symlink_to(target)
                before = {path.name: path.read_bytes() for path in folder.iterdir()}
                self.assertEqual(self.command("job").returncode, 6)
                self.assertEqual({path.name: path.read_bytes() for path in folder.iterdir()}, before)

    def test_a_link_to_an_output_that_is_not_there_leaves_no_file(self):
        folder = self.job("one", None)
        for link, target in (("job.blg", "job.bbl"), ("job.bbl", "job.blg")):
            with self.subTest(link=link):
                (folder / link).symlink_to(target)
                self.assertEqual(self.command("job").returncode, 6)
                self.assertEqual([(folder / target).exists(), (folder / link).is_symlink()], [False, True])
                (folder / link).unlink()

    def test_a_log_that_cannot_be_written_leaves_the_list(self):
        folder = self.job("one", None)
        (folder / "job.bbl").write_bytes(b"old")
        (folder / "job.blg").mkdir()
        self.assertEqual(self.command("job").returncode, 6)
        self.assertEqual((folder / "job.bbl").read_bytes(), b"old")

    def test_a_limit_of_files_leaves_both(self):
        folder = self.job("one", None)
        for ending in (".bbl", ".blg"):
            (folder / f"job{ending}").write_bytes(b"old")
        words = [sys.executable, "-m", "btx", "job"]
        limit = lambda: resource.setrlimit(resource.RLIMIT_FSIZE, (3, resource.RLIM_INFINITY))
        done = subprocess.run(words, env={**ENVIRONMENT, "PYTHONDONTWRITEBYTECODE": "1"}, cwd=folder, capture_output=True, timeout=60, preexec_fn=limit)
        self.assertEqual((done.returncode, (folder / "job.bbl").read_bytes(), (folder / "job.blg").read_bytes()), (6, b"old", b"old"))

    @unittest.skipIf(shutil.which("kpsewhich") is None, "there is no TeX")
    def test_what_tex_forbids_is_not_written(self):
        folder = self.job("one", None)
        (folder / "in").mkdir()
        with mock.patch.dict(ENVIRONMENT, {"openout_any": "p"}):
            done = subprocess.run([sys.executable, "-m", "btx", "../job"], env=ENVIRONMENT, cwd=folder / "in", capture_output=True, timeout=60)
        self.assertEqual((done.returncode, b"openout_any" in done.stderr, (folder / "job.bbl").exists()), (1, True, False))

    def test_standard_output_that_takes_nothing(self):
        folder = self.job("one", None)
        for words in ("job >/dev/full", "job >&-"):
            with self.subTest(words=words):
                done = subprocess.run(f"{sys.executable} -m btx {words}", shell=True, env=ENVIRONMENT, cwd=folder, stderr=subprocess.PIPE, timeout=60)
                self.assertEqual((done.returncode, done.stderr.count(b"\n"), b"Traceback" in done.stderr), (6, 1, False))
                self.assertEqual((folder / "job.bbl").read_bytes(), b"k: T\n")

    def test_what_a_terminal_sees(self):
        folder = self.job("one", None, **{"job.aux": AUX.replace(b"{k}", b"{k,\x1b]0;T\x07\xc2\x9b}")})
        reader, writer = pty.openpty()
        subprocess.run([sys.executable, "-m", "btx", "job"], env=ENVIRONMENT, cwd=folder, stdout=writer, stderr=writer, timeout=60)
        os.close(writer)
        printed = os.read(reader, 100_000)
        os.close(reader)
        self.assertIn(b"?]0;T??", printed)
        self.assertNotIn(b"\x1b", printed)

    def test_a_missing_job_changes_nothing(self):
        folder = self.job("one", None)
        (folder / "none.bbl").write_bytes(b"old")
        self.command("none")
        self.assertEqual((folder / "none.bbl").read_bytes(), b"old")
        self.assertFalse((folder / "none.blg").exists())


if __name__ == "__main__":
    unittest.main()
