"""Tries the expressions for lines of the log, in the table under "Lines of the log" of docs/RULES.md, on the logs that the reference gives for the worked
jobs, the corners and jobs made by chance.

    python3 log_lines.py

Each line of a log has to be what the table says: the first line and the last by their expressions, each error and warning with a place by that of a
message with its place, and so on; and each expression has to match some line. The last line is 'N passed, M failed', of logs and expressions."""

import pathlib
import re
import sys

ROOT = pathlib.Path(__file__).resolve().parents[2]
sys.path.insert(0, str(ROOT / "tests/reference"))
from product import Options, run  # noqa: E402
from random_jobs import random_jobs, worked_jobs  # noqa: E402

ROW = re.compile(r"^\| `(\^.*\$)` \| ", re.M)
JOBS = 150


def expressions():
    """The table's expressions, in its order."""
    text = (ROOT / "docs/RULES.md").read_text(encoding="utf8").split("\n## Lines of the log\n")[1].split("\n## ")[0]
    return [re.compile(row.replace("\\|", "|")) for row in ROW.findall(text)]


def why_wrong(lines, rows):
    """What is wrong with a log, if anything: an error that no expression matches, or a first or last line that another one matches."""
    kinds = [next((number for number, row in enumerate(rows) if row.search(line)), None) for line in lines]
    if kinds[-1] != len(rows) - 1:
        return f"the last line is {lines[-1]!r}"
    if kinds[0] != 0 and not lines[-1].startswith("Ended: no top file"):
        return f"the first line is {lines[0]!r}"
    unknown = [line for line, kind in zip(lines, kinds) if kind is None and line.startswith("Error--")]
    return f"no expression matches {unknown[0]!r}" if unknown else None


def main():
    rows = expressions()
    matched = set()
    passed = failed = 0
    for files, given in [*worked_jobs(), *random_jobs(JOBS, 1)]:
        lines = run(files, b"job", Options(**given)).log.decode("latin1").split("\n")[:-1]
        matched.update(next((number for number, row in enumerate(rows) if row.search(line)), None) for line in lines)
        wrong = why_wrong(lines, rows)
        if wrong:
            print(f"FAILED: {wrong}")
        passed, failed = passed + (not wrong), failed + bool(wrong)
    for number, row in enumerate(rows):
        if number not in matched:
            print(f"FAILED: {row.pattern} matches no line of any log")
        passed, failed = passed + (number in matched), failed + (number not in matched)
    if len(rows) != 12:
        print(f"FAILED: there are {len(rows)} expressions, and RULES.md says twelve")
        failed += 1
    print(f"{passed} passed, {failed} failed")
    return failed


if __name__ == "__main__":
    raise SystemExit(main() > 0)
