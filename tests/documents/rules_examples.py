"""Runs the examples of docs/RULES.md by the program: its tables and blocks as they stand there, and those of its sentences.

    python3 rules_examples.py [PROGRAM]

PROGRAM is the command bibtex, crates/bibtex/out/bibtex if none is named and BIBTEX_PROGRAM isn't set. What a rule's example says is compared with what the program
writes. The examples are those of rule_jobs.py. The expressions for lines of the log are tried by log_lines.py, and README's first command is the example of the command.
The last line is 'N passed, M failed', of what the examples say of their jobs, and of sentences that the rules have."""

import os
import pathlib
import re
import subprocess
import sys
import tempfile

import rule_jobs

ROOT = rule_jobs.ROOT
PROGRAM = ROOT / "crates/bibtex/out/bibtex"


class Checks:
    def __init__(self, program):
        self.program, self.passed, self.failed = program, 0, 0

    def check(self, is_right, message):
        self.passed += bool(is_right)
        if not is_right:
            self.failed += 1
            print(f"FAILED: {message}")

    def run(self, example):
        """The list and the log that the program writes for an example."""
        with tempfile.TemporaryDirectory(prefix="rules-") as folder:
            for name, text in example.all_files.items():
                (pathlib.Path(folder) / name).write_text(text, encoding="latin1", newline="")
            options = [word for name, value in example.options.items() for word in (f"--{name}", str(value))]
            subprocess.run([self.program, *options, "--dir", folder, "job"], capture_output=True, check=False)
            return [(pathlib.Path(folder) / f"job.{ending}").read_text(encoding="latin1") for ending in ("bbl", "blg")]

    def check_example(self, example):
        written, log = self.run(example)
        amiss = rule_jobs.amiss(example.wanted, written, log)
        for name, wanted in example.wanted.items():
            self.check(name not in amiss, f"{example.what}: the program writes {written!r} and logs {log}, and by the rules {name}: {wanted}")


def check_tables(checks):
    """The table of functions has all of them, and each sentence and value is in the rules."""
    rows = rule_jobs.table("Functions of styles", "function")
    names = len(re.findall(r"(?m)^built_in_name \S+ = ", (ROOT / "crates/btx_bst/specs/language/BuiltIns.antt").read_text(encoding="utf-8")))
    checks.check(len(rows) == names, f"the table of functions has {len(rows)} rows, and {names} are expected")
    for words, *_ in (*rule_jobs.SENTENCES, *rule_jobs.VALUES):
        checks.check(rule_jobs.heading_of(words), f"the rules don't say: {words}")


def main():
    given = sys.argv[1:2] or [os.environ.get("BIBTEX_PROGRAM") or str(PROGRAM)]
    program = pathlib.Path(given[0]).resolve()
    if not program.is_file():
        print(f"FAILED: there is no program {program}: run make first, or name one\n0 passed, 1 failed")
        return True
    checks = Checks(program)
    check_tables(checks)
    for example in rule_jobs.all_examples():
        checks.check_example(example)
    print(f"{checks.passed} passed, {checks.failed} failed")
    return bool(checks.failed)


if __name__ == "__main__":
    raise SystemExit(main())
