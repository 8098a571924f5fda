"""Runs the jobs of jobs.py: by the reference, by the reference with the original's rules, and by TeX Live's program where that is there.

    python3 check.py

Each row of docs/DIFFERENCES.md has a job, or a line in none.txt with the reason why no list shows it. The last line is 'N passed, M failed'."""

import pathlib
import sys
import tempfile

HERE = pathlib.Path(__file__).resolve().parent
ROOT = HERE.parents[1]
sys.path += [str(ROOT / "tests/reference"), str(ROOT / "docs/book")]
import differences  # noqa: E402
import original  # noqa: E402
from compare_rules_with_original import by_original, is_there, options_for  # noqa: E402
from jobs import JOBS  # noqa: E402
from product import Options, ours, run  # noqa: E402

NONE = HERE / "none.txt"


class Outcome:
    def __init__(self):
        self.passed = self.failed = 0

    def check(self, holds, what):
        self.passed += bool(holds)
        self.failed += not holds
        if not holds:
            print(f"FAILED: {what}")


def by_rules(job, rules):
    options = Options(entry_max=500, global_max=200_000)
    return run(job.files, b"job", options, rules).list.decode("latin1")


def by_program(job):
    with tempfile.TemporaryDirectory() as folder:
        for name, text in job.files.items():
            (pathlib.Path(folder) / name.decode()).write_bytes(text)
        found = by_original(folder, "job", options_for({}))
        return "(no list)" if found is None else found.decode("latin1")


def check_job(job, outcome, has_program):
    outcome.check(job.here != job.original, f"{job.row}: both lists are the same")
    lists = [("here", job.here, by_rules(job, ours())), ("by the original's rules", job.original, by_rules(job, original.RULES))]
    lists += [("by the original", job.original, by_program(job))] if has_program else []
    for who, expected, found in lists:
        outcome.check(found == expected, f"{job.row}: {who} {found[:200]!r}, and it is to be {expected[:200]!r}")


def without_a_list():
    """The rows that no list shows: their beginnings, each with the reason."""
    lines = [line for line in NONE.read_text(encoding="utf-8").split("\n") if line and not line.startswith("//")]
    return dict(line.split("\t") for line in lines)


def check_rows(outcome):
    """Each row has a job or a reason, and each of these belongs to one row."""
    rows, reasons = differences.leads(), without_a_list()
    beginnings = {job.row for job in JOBS} | set(reasons)
    for row in rows:
        found = [beginning for beginning in beginnings if row.startswith(beginning)]
        outcome.check(len(found) == 1, f"docs/DIFFERENCES.md: the row {row!r} has {len(found)} jobs or reasons, and it is to have one")
    for beginning in beginnings:
        outcome.check(sum(row.startswith(beginning) for row in rows) == 1, f"docs/DIFFERENCES.md has no row that begins {beginning!r}")


def main():
    outcome, has_program = Outcome(), is_there()
    if not has_program:
        print("left out: there is no bibtex of TeX Live, so the lists are compared with the reference alone")
    for job in JOBS:
        check_job(job, outcome, has_program)
    check_rows(outcome)
    print(f"{outcome.passed} passed, {outcome.failed} failed")
    return outcome.failed > 0


if __name__ == "__main__":
    raise SystemExit(main())
