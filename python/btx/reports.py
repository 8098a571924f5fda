"""How the results of a comparison are shown: as they come, in a table, as JSON, on a page."""

from __future__ import annotations

import html
import json
import os
import pathlib
import sys
import time
from collections import Counter
from dataclasses import asdict, dataclass
from types import TracebackType
from typing import Any, Dict, List, Optional, TextIO, Tuple, Type

from .commands import shown
from .corpus import Job, state_of

__all__ = ["Compared", "Progress", "Resumed", "Table"]

# How often a terminal sees how far the work is, in seconds.
SHOWN_EVERY = 0.2
# How many files of folders above the table names.
MOST_FILES = 10


@dataclass(frozen=True)
class Compared:
    """What came of a job. outcome: `equal`, `different` or `not run`; reason: the cause, or why it wasn't run. line, here, there: the first
    line in which the lists differ, counted from 1, as this run and as the other side has it. above: the paths of styles and databases that were found in folders above the job's own."""

    job: str
    outcome: str
    reason: str
    line: Optional[int] = None
    here: Optional[str] = None
    there: Optional[str] = None
    above: Tuple[str, ...] = ()

    def __str__(self) -> str:
        if self.outcome == "not run":
            return f"{shown(self.job)}: not run: {shown(self.reason)}"
        if self.outcome == "equal":
            return f"{shown(self.job)}: equal{self.with_files()}"
        return f"{shown(self.job)}: line {self.line} differs ({shown(self.reason)}{self.with_files()}): {side(self.here)} | {side(self.there)}"

    def with_files(self) -> str:
        """Which files were found in folders above, if some were."""
        return f"; with {shown(', '.join(self.above))}" if self.above else ""


def side(line: Optional[str]) -> str:
    return "(no such line)" if line is None else repr(line)


class Progress:
    """Says on a terminal how far the work is, and prints a line for each job whose lists aren't equal."""

    def __init__(self, jobs: int, quiet: bool) -> None:
        self.jobs = jobs
        self.done = 0
        self.began = time.monotonic()
        self.last = 0.0
        self.lines: Optional[TextIO] = None if quiet else sys.stdout
        self.is_terminal = sys.stderr.isatty()

    def __enter__(self) -> Progress:
        return self

    def __exit__(self, kind: Optional[Type[BaseException]], error: Optional[BaseException], trace: Optional[TracebackType]) -> None:
        self.clear()

    def add(self, result: Compared) -> None:
        self.done += 1
        if result.outcome != "equal" and self.lines is not None:
            self.clear()
            print(result, file=self.lines, flush=True)
        if self.is_terminal and time.monotonic() - self.last > SHOWN_EVERY:
            self.show()

    def show(self) -> None:
        self.last = time.monotonic()
        rate = self.done / max(self.last - self.began, 0.001)
        left = (self.jobs - self.done) / max(rate, 0.001)
        text = f"{self.done:,} of {self.jobs:,} jobs, {rate:,.0f} a second, {left:,.0f} s left"
        print(f"\r{text[: columns() - 1]}\033[K", end="", file=sys.stderr, flush=True)

    def clear(self) -> None:
        if self.is_terminal and self.last > 0.0:
            print("\r\033[K", end="", file=sys.stderr, flush=True)


def columns() -> int:
    """How many characters a line of the terminal has."""
    try:
        return os.get_terminal_size(sys.stderr.fileno()).columns or 80
    except (OSError, ValueError):
        return 80


def compared_of(value: object) -> Compared:
    """The result that a value of JSON is. Raises TypeError where it is none."""
    if not isinstance(value, dict):
        raise TypeError("a result is an object")
    given: Dict[str, Any] = {**value, "above": tuple(value.get("above", ()))}
    result = Compared(**given)
    if result.outcome not in ("equal", "different", "not run"):
        raise TypeError("a result has another outcome")
    texts = (result.job, result.reason, result.here or "", result.there or "", *result.above)
    if not all(isinstance(text, str) for text in texts) or not isinstance(result.line, (int, type(None))):
        raise TypeError("a result has other values")
    return result


class Resumed:
    """Results that are kept in a file, a line of JSON each, so that a comparison that was interrupted goes on where it ended.

    Those that were got under other conditions aren't taken again, nor are jobs that weren't run."""

    def __init__(self, path: Optional[pathlib.Path], conditions: Dict[str, object]) -> None:
        self.path = path
        self.conditions = conditions
        self.earlier: Dict[str, Tuple[object, Compared]] = {}
        self.file: Optional[TextIO] = None
        self.is_cut_off = False

    def __enter__(self) -> Resumed:
        if self.path is not None:
            if self.path.exists():
                if not self.path.is_file():
                    raise OSError(f"{self.path} is no file")
                self.read(self.path)
            self.file = self.path.open("a", encoding="utf8", errors="surrogateescape")
            if self.is_cut_off:
                print(file=self.file)
        return self

    def __exit__(self, kind: Optional[Type[BaseException]], error: Optional[BaseException], trace: Optional[TracebackType]) -> None:
        if self.file is not None:
            self.file.close()

    def read(self, path: pathlib.Path) -> None:
        """Takes the results of a file; a line that was cut off or spoilt is passed over."""
        with path.open(encoding="utf8", errors="surrogateescape") as file:
            for line in file:
                self.is_cut_off = not line.endswith("\n")
                try:
                    kept = json.loads(line)
                    result = compared_of(kept["result"])
                    conditions = kept["conditions"]
                except (ValueError, KeyError, TypeError, RecursionError):
                    continue
                if conditions == self.conditions:
                    self.earlier[result.job] = kept.get("state"), result

    def result(self, job: Job) -> Optional[Compared]:
        """The result of a job that was run and that hasn't changed since."""
        state, result = self.earlier.get(job.shown(), (None, None))
        return result if result is not None and result.outcome != "not run" and state == state_of(job) else None

    def keep(self, job: Job, result: Compared) -> None:
        if self.file is not None:
            line = json.dumps({"state": state_of(job), "conditions": self.conditions, "result": asdict(result)})
            print(line, file=self.file, flush=True)


class Table:
    """All results, and what they come to."""

    def __init__(self) -> None:
        self.results: List[Compared] = []
        self.began = time.monotonic()

    def add(self, result: Compared) -> None:
        self.results.append(result)

    def count(self, outcome: str) -> int:
        """How many jobs had this outcome."""
        return sum(result.outcome == outcome for result in self.results)

    def counts(self) -> List[Tuple[str, int]]:
        """How many jobs had each outcome, those that differ and those that weren't run by their reasons."""
        outcomes = Counter(result.outcome for result in self.results)
        rows = [("equal", outcomes["equal"])]
        for outcome in ("different", "not run"):
            rows.append((outcome, outcomes[outcome]))
            reasons = Counter(result.reason for result in self.results if result.outcome == outcome)
            rows += [(f"    {shown(reason)}", count) for reason, count in reasons.most_common()]
        return rows + self.counts_of_files()

    def counts_of_files(self) -> List[Tuple[str, int]]:
        """How many jobs were run with styles or databases of folders above, and with which ones, the commonest first."""
        with_some = [result.above for result in self.results if result.above]
        files = Counter(path for above in with_some for path in dict.fromkeys(above))
        rows = [("with a style or a database of a folder above", len(with_some))] if with_some else []
        return rows + [(f"    {shown(path)}", count) for path, count in files.most_common(MOST_FILES)]

    def sorted(self) -> List[Compared]:
        """The results in the order of the jobs' names."""
        return sorted(self.results, key=lambda result: result.job)

    def write_page(self, page: pathlib.Path) -> None:
        page.write_text(page_of(self.sorted(), self.counts()), encoding="utf8", errors="replace")

    def end(self, as_json: bool) -> None:
        """Shows all: the table, or JSON."""
        seconds = time.monotonic() - self.began
        results = self.sorted()
        if as_json:
            text = json.dumps({"jobs": len(results), "seconds": round(seconds, 3), "results": [asdict(result) for result in results]})
        else:
            rows = [f"{count:>8,}  {name}" for name, count in self.counts()]
            text = "\n".join([f"{len(results):,} jobs in {seconds:.1f} s", *rows])
        print(text, flush=True)


PAGE = """<!DOCTYPE html>
<html lang="en">
<meta charset="utf-8">
<meta name="viewport" content="width=device-width, initial-scale=1">
<title>Reference lists compared</title>
<style>
:root {{ color-scheme: light dark; font: 16px/1.5 system-ui, sans-serif; }}
body {{ margin: 0 auto; max-width: 60rem; padding: 1rem; }}
table {{ border-collapse: collapse; }}
td {{ padding: .1rem .8rem .1rem 0; vertical-align: top; white-space: pre-wrap; }}
td:first-child {{ text-align: right; font-variant-numeric: tabular-nums; }}
article {{ border-top: 1px solid #8886; padding: .6rem 0; }}
h3, p {{ margin: 0; overflow-wrap: anywhere; font-size: 1rem; }}
pre {{ margin: .3rem 0; white-space: pre-wrap; overflow-wrap: anywhere; font-size: .9rem; }}
.here {{ border-left: .3rem solid #2a8; padding-left: .5rem; }}
.there {{ border-left: .3rem solid #c60; padding-left: .5rem; }}
</style>
<h1>Reference lists compared</h1>
<table>
{rows}
</table>
<h2>Jobs that aren't equal</h2>
<p>The first line that differs: first (green) as the job comes out now, then (orange) as the other side has it.</p>
{jobs}
</html>
"""


def page_of(results: List[Compared], counts: List[Tuple[str, int]]) -> str:
    """The page: one file, without a script."""
    rows = "\n".join(f"<tr><td>{count:,}<td>{html.escape(name)}" for name, count in counts)
    jobs = "\n".join(article_of(result) for result in results if result.outcome != "equal") or "<p>none</p>"
    return PAGE.format(rows=rows, jobs=jobs)


def article_of(result: Compared) -> str:
    """What the page has of one job."""
    head = f"<h3>{html.escape(shown(result.job))}</h3><p>{result.outcome}: {html.escape(shown(result.reason) + result.with_files())}"
    if result.outcome == "not run":
        return f"<article>{head}</p></article>"
    sides = "".join(f'<pre class="{name}">{html.escape(line or "(no such line)")}</pre>' for name, line in (("here", result.here), ("there", result.there)))
    return f"<article>{head}; line {result.line}</p>{sides}</article>"
