"""The library beside the reference in Python, and beside the program that BIBTEX_PROGRAM names: worked jobs, corners, jobs made by chance."""

import itertools
import os
import sys
import unittest

import btx
from tests.jobs import SOURCES

sys.path.insert(0, str(SOURCES / "tests" / "reference"))
from compare_with_program import by_program  # noqa: E402
from product import Options, run  # noqa: E402
from random_jobs import random_jobs, random_programs, worked_jobs  # noqa: E402

JOBS = int(os.environ.get("BTX_TEST_JOBS", "1000"))
PROGRAM = os.environ.get("BIBTEX_PROGRAM")


class BesideOthers(unittest.TestCase):
    def same(self, files, given):
        result = btx.run("job", files, btx.Options(**Options(**given)._asdict()))
        if PROGRAM:
            wanted = by_program(PROGRAM, files, Options(**given))
        else:
            product = run(files, b"job", Options(**given))
            wanted = (product.list, product.log, product.report.status)
        bbl = b"" if result.report.end is btx.End.NO_TOP_FILE else wanted[0]
        self.assertEqual((result.bbl, result.log, result.report.status), (bbl or b"", *wanted[1:]))

    def test_worked_jobs_and_corners(self):
        for number, (files, given) in enumerate(worked_jobs()):
            with self.subTest(number=number):
                self.same(files, given)

    def test_jobs_by_chance(self):
        for files, given in itertools.chain(random_jobs(JOBS, 5), random_programs(JOBS // 3, 5)):
            self.same(files, given)


if __name__ == "__main__":
    unittest.main()
