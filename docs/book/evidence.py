"""With how many jobs each section of what has to be believed was compared with the original (evidence.txt).

    python3 docs/book/evidence.py [--jobs N] [--each N] [--papers N] [--seed N]

runs small jobs of tests/reference (those that are stated, N of a seed that aim at the differences, and each Nth of those that go through all of something) and N papers of TeX Live's styles
by the reference and by TeX Live's `bibtex`, compares the lists byte by byte, and writes into evidence.txt for each section how many jobs and papers met it, and how many of these lists
differ. A job meets a section where the reference calls one of the section's functions. A list that differs is to be the original's by the original's own rules, each of which belongs to a row
of docs/DIFFERENCES.md; a list that isn't is printed, and the exit status is then 1. A job is left out where either program gives no list of a finished run."""

import argparse
import functools
import hashlib
import itertools
import os
import pathlib
import sys
import tempfile
from typing import NamedTuple

HERE = pathlib.Path(__file__).resolve().parent
FILE = HERE / "evidence.txt"
REFERENCE = HERE.parents[1] / "tests/reference"
NONE = "none: "
# What all functions of a file are called that no class has.
ALL_OF_FILE = ".*"
# The line of the comment that has the mark of the numbers.
MARK = "// The mark of the numbers, by which make.py sees that the script wrote them: "


class Row(NamedTuple):
    """A section's line: its functions, or the reason why there are none, and the numbers of jobs."""
    title: str
    functions: tuple
    reason: str
    jobs: int = 0
    lists: int = 0
    papers: int = 0
    lists_of_papers: int = 0

    @property
    def sentence(self):
        """What the book says below the section's heading."""
        if self.reason:
            return ""
        papers = f", and {self.papers:,} papers of shipped styles, of which {differing(self.lists_of_papers)}" if self.papers else ""
        return f"Compared with the original: {self.jobs:,} small jobs, many of them made for a difference, of which {differing(self.lists)}{papers}. Their causes stand among the differences."


def differing(lists):
    return f"{lists:,} list{'s differ' if lists != 1 else ' differs'}"


def comment_and_rows():
    """The comment at the head of the file, and its rows."""
    lines = [line for line in FILE.read_text(encoding="utf-8").split("\n") if line]
    return [line for line in lines if line.startswith("//")], [row_of(line) for line in lines if not line.startswith("//")]


def row_of(line):
    title, functions, *numbers = line.split("\t")
    if functions.startswith(NONE):
        return Row(title, (), functions.removeprefix(NONE))
    return Row(title, tuple(functions.split("; ")), "", *map(int, numbers))


@functools.lru_cache(maxsize=None)
def rows():
    """The rows by the sections' titles."""
    return {row.title: row for row in comment_and_rows()[1]}


def mark_of(rows_):
    """A mark of the numbers of some rows: another one where a number is another."""
    numbers = "\n".join(f"{row.jobs} {row.lists} {row.papers} {row.lists_of_papers}" for row in rows_ if not row.reason)
    return hashlib.sha256(numbers.encode()).hexdigest()[:16]


def sentence(section):
    """What is said of a section: nothing of one that has no line."""
    return rows()[section.title].sentence if section.title in rows() and section.is_believed else ""


def wrong_in(sections, names_in):
    """What is wrong with the table, as messages; `sections` are those of what has to be believed, and `names_in` gives the names of a file of the reference."""
    titles = [section.title for section in sections]
    yield from (f"evidence.txt: no section is called `{title}`" for title in rows() if title not in titles)
    yield from (f"evidence.txt: the section `{title}` has no line" for title in titles if title not in rows())
    yield from ["evidence.txt: its numbers aren't those that the script wrote (python3 docs/book/evidence.py)"] * (MARK + mark_of(rows().values()) not in comment_and_rows()[0])
    for row in rows().values():
        yield from [f"evidence.txt: `{row.title}` was never compared (python3 docs/book/evidence.py)"] * (not row.reason and not row.jobs)
        yield from (f"evidence.txt: tests/reference has no `{name}`" for name in row.functions if not name.endswith(ALL_OF_FILE)
                    and name.partition(".")[2] not in names_in(name.partition(".")[0]))


# ---- the comparison ----


def called_by(run):
    """What a run answers, and the functions that it called, as `file.function`."""
    codes = set()
    sys.setprofile(lambda frame, event, _: codes.add(frame.f_code) if event == "call" else None)
    try:
        answer = run()
    finally:
        sys.setprofile(None)
    return answer, {f"{pathlib.Path(code.co_filename).stem}.{code.co_qualname}" for code in codes}


def is_met(row, called):
    """Whether a job that called these functions meets a section."""
    for name in row.functions:
        file = name.removesuffix("*")
        if name in called or name.endswith(ALL_OF_FILE) and any(it.startswith(file) and it.count(".") == 1 for it in called):
            return True
    return False


def jobs(given):
    """The jobs: of each its files and its options."""
    from original_jobs import original_jobs
    from random_jobs import worked_jobs_named
    from systematic_jobs import systematic_jobs
    yield from ((files, options) for _, files, options in worked_jobs_named())
    yield from ((files, options) for _, _, files, options in original_jobs(given.jobs, given.seed))
    yield from itertools.islice(systematic_jobs(), 0, None, given.each)


def papers(given, folder):
    """Papers of TeX Live's styles, as jobs of the name `job`, each with its files."""
    import compare_rules_with_original as rules
    rules.make_papers.made_of_styles(folder, given.papers, 30, given.seed)
    for paper in sorted(folder.iterdir()):
        aux = (paper / "paper.aux").read_bytes()
        named = [name + ending for command, ending in ((b"bibdata", b".bib"), (b"bibstyle", b".bst")) for found in rules.re.findall(rb"\\%s\{(.*)\}" % command, aux) for name in found.split(b",")]
        yield {b"job.aux": aux, **{name: pathlib.Path(os.fsdecode(name)).read_bytes() for name in named}}, {}


def compared(files, given, steps):
    """The reference's list of a job, the functions that it called, its list by the original's rules, and the original's; None where there is none of a finished run, or where it is what
    the memory held."""
    import compare_rules_with_original as rules
    from product import Run, run
    options = rules.options_for(given, steps)
    here, called = called_by(lambda: run(files, b"job", options))
    own = Run(files, b"job", options, rules.original.RULES)
    by_rules = own.whole()
    if here.report.end != "finished" or by_rules.report.end != "finished":
        return None
    with tempfile.TemporaryDirectory() as folder:
        for name, text in files.items():
            if not name.startswith(b"/"):
                (pathlib.Path(folder) / os.fsdecode(name)).write_bytes(text)
        there = rules.by_original(folder, "job", options)
        if rules.is_what_memory_held(own, by_rules.list, there, folder, options):
            return None
    return None if there is None else (here.list, called, by_rules.list, there)


class Counts:
    """How many jobs, and how many lists that differ, met each section; and the jobs whose difference no rule explains."""

    def __init__(self):
        self.by_title, self.total, self.unexplained = {}, [0, 0], 0

    def add(self, rows_, answer):
        here, called, by_rules, there = answer
        self.unexplained += by_rules != there
        for counted in [self.total] + [self.by_title.setdefault(row.title, [0, 0]) for row in rows_ if is_met(row, called)]:
            counted[0] += 1
            counted[1] += here != there


def counted(found, some, steps, what):
    """The counts of some jobs."""
    counts = Counts()
    for files, options in some:
        answer = compared(files, options, steps)
        if answer:
            counts.add(found, answer)
    print(f"{counts.total[0]} {what} were compared, {counts.total[1]} lists differ, and {counts.unexplained} differ from the original's own rules", flush=True)
    return counts


def measure(given):
    """The rows with the numbers of these jobs, and how many differences no rule explains."""
    import compare_rules_with_original as rules
    found = comment_and_rows()[1]
    of_jobs = counted(found, jobs(given), rules.STEPS, "small jobs")
    with tempfile.TemporaryDirectory() as folder:
        of_papers = counted(found, papers(given, pathlib.Path(folder)), rules.STEPS_OF_A_PAPER, "papers")
    numbers = [of_jobs.by_title.get(row.title, [0, 0]) + of_papers.by_title.get(row.title, [0, 0]) for row in found]
    made = [row if row.reason else Row(row.title, row.functions, "", *of_row) for row, of_row in zip(found, numbers)]
    return made, of_jobs.unexplained + of_papers.unexplained


def line_of(row):
    return f"{row.title}\t{NONE}{row.reason}" if row.reason else f"{row.title}\t{'; '.join(row.functions)}\t{row.jobs}\t{row.lists}\t{row.papers}\t{row.lists_of_papers}"


def main():
    parser = argparse.ArgumentParser()
    parser.add_argument("--jobs", type=int, default=1000, help="jobs from the seed (1000)")
    parser.add_argument("--each", type=int, default=4, help="each Nth of the systematic jobs (4)")
    parser.add_argument("--papers", type=int, default=200, help="papers of TeX Live's styles (200)")
    parser.add_argument("--seed", type=int, default=1)
    given = parser.parse_args()
    sys.path.insert(0, str(REFERENCE))
    import compare_rules_with_original as rules
    if not rules.is_there():
        raise SystemExit("there is no bibtex of TeX Live, so nothing is compared and evidence.txt stays")
    comment, (measured, unexplained) = comment_and_rows()[0], measure(given)
    comment = [line for line in comment if not line.startswith(MARK)]
    FILE.write_text("\n".join([*comment, MARK + mark_of(measured), *map(line_of, measured)]) + "\n", encoding="utf-8")
    return unexplained > 0


if __name__ == "__main__":
    raise SystemExit(main())
