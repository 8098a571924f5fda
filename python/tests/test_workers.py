"""Processes that work side by side, and pieces of jobs that an engine hands on: time limits, processes that end, and parents that do."""

import contextlib
import multiprocessing
import os
import pathlib
import shutil
import signal
import subprocess
import sys
import tempfile
import time
import unittest
from unittest import mock

from btx import compare
from btx.corpus import found_jobs
from btx.workers import Ended, Team
from tests.jobs import FILES, STYLE

LOOPS = STYLE.replace(b"{cite$", b"{{#1} {skip$} while$ cite$")
WITHOUT_END = 2**64 - 1


def is_there(process):
    """Whether a process is there that hasn't ended."""
    try:
        return pathlib.Path(f"/proc/{process}/stat").read_text().rsplit(")", 1)[1].split()[0] != "Z"
    except OSError:
        return False


def own_process(_):
    return os.getpid()


def hangs(_):
    time.sleep(100)


def is_killed(_):
    os.kill(os.getpid(), signal.SIGKILL)


def hostile_modules(folder):
    """Gives `folder` modules with the names of those that a process imports first, and answers the file that one of them makes when it is run."""
    marker = folder / "was run"
    text = f"open({str(marker)!r}, 'w').close()\nraise SystemExit(9)\n"
    for name in ("multiprocessing/__init__", "multiprocessing/connection", "btx/__init__", "socket", "struct", "tempfile", "signal", "contextlib"):
        path = folder / f"{name}.py"
        path.parent.mkdir(exist_ok=True)
        path.write_text(text)
    return marker


def one_piece(folder, answers):
    """What a process does that is to have no children of multiprocessing's, as Dask's workers below a nanny are."""
    answers.put([result.outcome for result in compare.compared_piece(found_jobs([folder], print), 1000, None, 5.0)])


class Teams(unittest.TestCase):
    def team(self, work, processes=2, seconds=5.0):
        team = Team(work, processes, seconds)
        self.addCleanup(team.end)
        return team

    def test_processes_are_kept(self):
        team = self.team(own_process)
        first = {answer for _, answer in team.answers(range(20))}
        self.assertTrue(1 <= len(first) <= 2)
        self.assertLessEqual({answer for _, answer in team.answers(range(20))}, {worker.process.pid for worker in team.workers})
        self.assertLessEqual(first, {worker.process.pid for worker in team.workers})

    def test_no_more_processes_than_tasks(self):
        team = self.team(own_process, processes=50)
        self.assertEqual(len(list(team.answers([1]))), 1)
        self.assertEqual(len(team.workers), 1)
        self.assertEqual(list(team.answers([])), [])

    def test_one_that_hangs(self):
        team = self.team(hangs, seconds=0.5)
        self.assertEqual(list(team.answers([1])), [(1, Ended("took longer than 0.5 seconds"))])

    def test_one_that_is_killed(self):
        team = self.team(is_killed, processes=1)
        self.assertEqual(list(team.answers([1, 2])), [(number, Ended("the process ended by itself (status -9)")) for number in (1, 2)])

    def test_one_that_is_killed_between_tasks(self):
        team = self.team(own_process, processes=1)
        first = list(team.answers([1]))[0][1]
        os.kill(first, signal.SIGKILL)
        team.workers[0].process.wait()
        self.assertNotIn(list(team.answers([1]))[0][1], (first, None))

    def test_processes_that_do_not_start(self):
        team = self.team(own_process)
        with mock.patch("btx.workers.BEGIN", "raise SystemExit(3)"), self.assertRaises(OSError):
            list(team.answers(range(100)))
        self.assertEqual(team.workers, [])

    def test_a_hostile_present_folder(self):
        with tempfile.TemporaryDirectory() as folder, contextlib.ExitStack() as after:
            marker = hostile_modules(pathlib.Path(folder))
            after.callback(os.chdir, os.getcwd())
            os.chdir(folder)
            with mock.patch.object(sys, "path", ["", ".", *sys.path]):
                self.assertNotIn(None, [answer for _, answer in self.team(own_process).answers(range(4))])
            self.assertFalse(marker.exists())

    def test_answers_that_nobody_takes(self):
        team = self.team(own_process)
        answers = team.answers(range(20))
        process = next(answers)[1]
        answers.close()
        self.assertEqual(team.workers, [])
        self.assertFalse(is_there(process))


class Pieces(unittest.TestCase):
    def setUp(self):
        self.folder = pathlib.Path(tempfile.mkdtemp())
        self.addCleanup(shutil.rmtree, self.folder, ignore_errors=True)
        self.addCleanup(compare.KEPT.close)

    def jobs(self, **styles):
        for name, style in styles.items():
            folder = self.folder / name
            folder.mkdir()
            for file, content in {**FILES, "s.bst": style, "job.bbl": b"k: T\n"}.items():
                (folder / file).write_bytes(content)
        return found_jobs([bytes(self.folder)], self.fail)

    def outcomes(self, jobs, program=None, seconds=1.0):
        results = compare.compared_piece(jobs, WITHOUT_END, program, seconds)
        return {pathlib.Path(result.job).parent.name: (result.outcome, result.reason) for result in results}

    def test_a_style_that_takes_too_long(self):
        jobs = self.jobs(a=STYLE, b=LOOPS, c=STYLE)
        self.assertEqual(self.outcomes(jobs), {"a": ("equal", ""), "b": ("not run", "took longer than 2 seconds"), "c": ("equal", "")})

    def test_a_program_that_hangs_with_what_it_started(self):
        program = self.folder / "program"
        program.write_text("#!/bin/sh\nsleep 63.5 & sleep 63.5\n")
        program.chmod(0o755)
        outcome, reason = self.outcomes(self.jobs(a=STYLE), str(program))["a"]
        self.assertEqual((outcome, reason), ("not run", f"{program} took longer than 1 second"))
        self.assertEqual(subprocess.run(["pgrep", "-x", "-f", "sleep 63.5"], capture_output=True).stdout if shutil.which("pgrep") else b"", b"")

    def test_a_process_is_kept_for_the_next_piece(self):
        jobs = self.jobs(a=STYLE, b=STYLE)
        self.outcomes(jobs)
        first = compare.KEPT.comparers.team.workers[0].process.pid
        self.outcomes(jobs)
        self.assertEqual(compare.KEPT.comparers.team.workers[0].process.pid, first)
        self.outcomes(jobs, seconds=2.0)
        self.assertNotEqual(compare.KEPT.comparers.team.workers[0].process.pid, first)
        self.assertFalse(is_there(first))

    def test_a_daemon_of_multiprocessing(self):
        self.jobs(a=STYLE)
        context = multiprocessing.get_context("spawn")
        answers = context.Queue()
        (self.folder / "temporary").mkdir()
        with mock.patch.dict(os.environ, {"TMPDIR": str(self.folder / "temporary")}):
            process = context.Process(target=one_piece, args=(bytes(self.folder), answers), daemon=True)
            process.start()
        self.assertEqual(answers.get(timeout=60), ["equal"])
        process.join(30)
        self.assertEqual(os.listdir(self.folder / "temporary"), [])

    def test_the_parent_is_killed_in_the_middle(self):
        self.jobs(a=LOOPS)
        script = f"""
import threading, time
from btx import compare
from btx.corpus import found_jobs
team = compare.Comparers({WITHOUT_END}, None, 60.0, 1)
threading.Thread(target=lambda: list(team.results(found_jobs([{bytes(self.folder)!r}], print))), daemon=True).start()
while not team.team.workers or not team.team.workers[0].is_ready:
    time.sleep(0.05)
print(team.team.workers[0].process.pid, flush=True)
time.sleep(60)"""
        environment = {**os.environ, "PYTHONPATH": str(pathlib.Path(compare.__file__).parent.parent), "TMPDIR": str(self.folder)}
        parent = subprocess.Popen([sys.executable, "-c", script], env=environment, stdout=subprocess.PIPE)
        with contextlib.closing(parent.stdout):
            child = int(parent.stdout.readline())
            time.sleep(0.3)
            self.assertTrue(is_there(child))
            parent.kill()
            parent.wait()
        began = time.monotonic()
        while is_there(child) and time.monotonic() - began < 20:
            time.sleep(0.1)
        self.assertFalse(is_there(child))


if __name__ == "__main__":
    unittest.main()
