#!/usr/bin/env python3
"""How fast the program is, beside the original `bibtex` where that is installed.

    python3 tests/speed/measure.py [--aims] [--instructions] [--sizes N,..] [--counted N] [--styles NAME,..] [--runs N] [--seed N] [PROGRAM]

PROGRAM is BIBTEX_PROGRAM, or else crates/bibtex/out/bibtex, if none is given. Instructions are counted by valgrind; without valgrind, or a compiler for
`once.c`, nothing is measured. Prints a table of jobs, one of loops, and the bars; with --aims the aims that aren't met yet are bars too, and with
--instructions memory is no bar, since what the original takes depends on how much of TeX is installed. Its last line is
'N bars met, M not'; the exit status is 0 only where M is 0."""

import argparse
import contextlib
import math
import os
import pathlib
import re
import shutil
import subprocess
import sys
import tempfile
from typing import NamedTuple, Optional

import jobs
from jobs import ALPHA, ARTICLE, ENTRIES_OF_TYPICAL, LONG, MESSAGES, PLAIN, READING_ALONE, TYPICAL

HERE = pathlib.Path(__file__).resolve().parent
PROGRAM = pathlib.Path(os.environ.get("BIBTEX_PROGRAM") or HERE.parents[1] / "crates/bibtex/out/bibtex")
# Seconds, and how `timeout` ends where they are over.
LONGEST_RUN = 1_800
STATUS_OF_TIMEOUT = 124
# The original's tables are set up for fewer than 100,000 keys; a larger job gets larger ones, and its memory is then no measure.
MOST_ENTRIES_OF_ORIGINAL = 20_000

MOST_AT_START = 2_000_000
MOST_GROWTH = 1.05
# The original on the jobs of seed 1: instructions and MB. The bars where it isn't installed.
RECORDED = {("article", 10_000): (2_565_800_000, 13.2), ("plain", 10_000): (2_359_200_000, 18.2),
            ("alpha", 10_000): (2_642_000_000, 28.0), ("jurabib", 10_000): (6_698_600_000, 39.0)}
# What the program is to take at 10,000 entries at most, and in the typical job, as a share of what the original takes.
AIMED_SIZE = 10_000
INSTRUCTIONS_AIMED = {TYPICAL: 0.06, PLAIN: 0.40, ALPHA: 0.40, LONG: 0.40, ARTICLE: 0.40, READING_ALONE: 0.15, MESSAGES: 0.15}
SECONDS_AIMED = 0.50
MEMORY_AIMED = {TYPICAL: 0.50, PLAIN: 0.75, ALPHA: 0.60, LONG: 0.50, ARTICLE: 0.85}
INSTRUCTIONS, SECONDS, MEMORY = "instructions", "processor seconds", "memory"
# Those of them that aren't met yet, or on a busy machine aren't met each time: bars only where they are asked for.
NOT_MET = {(name, SECONDS) for name in INSTRUCTIONS_AIMED}


class Figures(NamedTuple):
    """What a run took; `failure` says why there are none. A count of instructions, or of steps, may be left out."""
    failure: Optional[str] = None
    instructions: Optional[int] = None
    wall: float = 0.0
    cpu: float = 0.0
    megabytes: float = 0.0
    steps: Optional[int] = None
    references: bytes = b""


class Tool:
    """A program that is measured."""

    def __init__(self, name, path, room, longest_run):
        self.name, self.path, self.room, self.longest_run = name, path, room, longest_run
        self.is_original = name == "original"

    def environment(self, entries):
        larger = {"max_strings": "4000000"} if self.is_original and entries > MOST_ENTRIES_OF_ORIGINAL else {}
        return {"PATH": "/usr/bin:/bin", **larger}

    def start(self, words, folder, entries):
        """Runs `words` and the program's own; the exit status and the last line on standard error."""
        ran = subprocess.run(["timeout", str(self.longest_run), *words, self.path, "job"], cwd=folder, stdin=subprocess.DEVNULL,
                             stdout=subprocess.DEVNULL, stderr=subprocess.PIPE, env=self.environment(entries))
        said = ran.stderr.decode("latin1").strip().split("\n")[-1]
        return ran.returncode, said

    def can_run(self, status):
        return status in ((0, 1, 2) if self.is_original else (0, 2))

    def timed(self, folder, entries):
        note = self.room / "figures"
        status, said = self.start([self.room / "once", note], folder, entries)
        if not self.can_run(status):
            return Figures(failure=self.failure(status, said))
        wall, cpu, kilobytes = map(float, note.read_text().split())
        return Figures(None, None, wall, cpu, kilobytes / 1024, self.steps(folder), (folder / "job.bbl").read_bytes())

    def failure(self, status, said):
        if status == STATUS_OF_TIMEOUT:
            return f"it runs for more than {self.longest_run:,} seconds"
        return f"can't run it: status {status}" + (f", {said}" if said else "")

    def counted(self, folder, entries):
        note = self.room / "counted"
        status, said = self.start(["valgrind", "--tool=cachegrind", "--cache-sim=no", "--cachegrind-out-file=/dev/null",
                                   f"--log-file={note}"], folder, entries)
        found = re.search(r"I\s+refs:\s+([\d,]+)", note.read_text())
        return int(found[1].replace(",", "")) if found and self.can_run(status) else None

    def steps(self, folder):
        """The number of steps in the log's last line; the original's log has none."""
        found = re.search(rb"^Ended: finished,.* steps (\d+)$", (folder / "job.blg").read_bytes(), re.MULTILINE)
        return int(found[1]) if found else None


# ---- what is measured ----


def best_of(timed):
    """The run of least seconds, or one that failed."""
    return next((figures for figures in timed if figures.failure), None) or min(timed, key=lambda figures: figures.cpu)


def measure(tools, job, seed, runs, is_counted, room):
    """The figures of a job for each tool. The tools run in turn, so that other work of the machine is met by all of them alike."""
    with tempfile.TemporaryDirectory(dir=room) as parent:
        folders = {tool: pathlib.Path(parent, tool.name) for tool in tools}
        for folder in folders.values():
            folder.mkdir()
            job.write(folder, seed)
        turns = [[tool.timed(folder, job.entries) for tool, folder in folders.items()] for _ in range(runs)]
        figures = {tool.name: best_of(timed) for tool, timed in zip(tools, zip(*turns))}
        for tool, folder in folders.items():
            if is_counted and not figures[tool.name].failure:
                figures[tool.name] = figures[tool.name]._replace(instructions=tool.counted(folder, job.entries))
        return figures


def measure_loop(tools, loop, seed, room):
    """Instructions a step for each tool: those of two lengths of one loop, their difference, by that of their steps."""
    short, long = (measure(tools, loop.job(turns), seed, 1, True, room) for turns in loop.turns)
    steps = loop.steps(seed)
    a_step = {}
    for name in short:
        failure = short[name].failure or long[name].failure
        a_step[name] = failure or (long[name].instructions - short[name].instructions) / steps
    return a_step


# ---- tables ----


def millions(count):
    return "" if count is None else f"{count / 1e6:,.1f} M"


def row(cells):
    print("| " + " | ".join(str(cell) for cell in cells) + " |", flush=True)


def print_job(job, figures_by_tool, seed):
    steps = next((figures.steps for figures in figures_by_tool.values() if figures.steps), None) or jobs.few_steps(job, seed)
    for name, figures in figures_by_tool.items():
        if figures.failure:
            row([job.name, f"{job.entries:,}", name, figures.failure, *[""] * 6])
            continue
        a_second = millions(steps / figures.cpu) if steps and figures.cpu else ""
        row([job.name, f"{job.entries:,}", name, millions(figures.instructions), f"{figures.cpu:.3f}", f"{figures.wall:.3f}",
             f"{figures.megabytes:.1f}", f"{steps:,}" if steps else "", a_second, same_list(figures_by_tool, name)])


def same_list(figures_by_tool, name):
    """Whether this program's list is the original's."""
    original = figures_by_tool.get("original")
    if name == "original" or original is None or original.failure:
        return ""
    return "same" if figures_by_tool[name].references == original.references else "DIFFERS"


def print_loop(loop, a_step):
    for name, figure in a_step.items():
        row([loop.name, name, figure if isinstance(figure, str) else f"{figure:.1f}"])


# ---- bars ----


class Bars:
    def __init__(self):
        self.met = self.missed = 0

    def judge(self, what, found, most, shown):
        """`found` is a number, or says why there is none; a bar without a number to compare with is left out."""
        if most is None:
            print(f"left out  {what}: there is nothing to compare with")
            return
        is_met = not isinstance(found, str) and found <= most
        self.met, self.missed = self.met + is_met, self.missed + (not is_met)
        printed = found if isinstance(found, str) else shown(found)
        print(f"{'met      ' if is_met else 'NOT MET  '} {what}: {printed}, at most {shown(most)}")

    def status(self):
        """Prints how many were met; the exit status."""
        print(f"{self.met} bars met, {self.missed} not")
        return min(self.missed, 1)


def of_original(measured, job):
    """The original's instructions and MB on this job."""
    figures = measured[job].get("original")
    if figures is None or figures.failure:
        return RECORDED.get((job.name, job.entries), (None, None))
    return figures.instructions, figures.megabytes


def print_bars(measured, bars, is_of_memory):
    for job in measured:
        figures = measured[job]["program"]
        if job.name == jobs.START:
            bars.judge("instructions at the start", figures.failure or figures.instructions, MOST_AT_START, millions)
        elif job.entries >= 10_000 and job.name not in (READING_ALONE, MESSAGES):
            instructions, megabytes = of_original(measured, job)
            what = f"{job.name}, {job.entries:,} entries"
            if figures.instructions or figures.failure:
                bars.judge(f"{what}, instructions of the original", figures.failure or figures.instructions, instructions, millions)
            if is_of_memory and job.entries <= MOST_ENTRIES_OF_ORIGINAL:
                bars.judge(f"{what}, memory of the original", figures.failure or figures.megabytes, megabytes,
                           lambda size: f"{size:.1f} MB")


def shares_of(job):
    """What is asked of this job: a quantity, its figure of a run, and the greatest share of the original's."""
    yield INSTRUCTIONS, lambda figures: figures.instructions, INSTRUCTIONS_AIMED[job.name]
    yield SECONDS, lambda figures: figures.cpu, SECONDS_AIMED
    if job.name in MEMORY_AIMED:
        yield MEMORY, lambda figures: figures.megabytes, MEMORY_AIMED[job.name]


def share(figure, program, original):
    """This figure of the program by that of the original; a text where there is none."""
    failure = program.failure or original.failure
    if failure or not figure(program) or not figure(original):
        return failure or "it wasn't measured"
    return figure(program) / figure(original)


def print_shares(measured, bars, are_aims, is_of_memory):
    """The bars of shares: those that are met, or those that are still aims."""
    for job, figures in measured.items():
        if job.name not in INSTRUCTIONS_AIMED or job.entries != (ENTRIES_OF_TYPICAL if job.name == TYPICAL else AIMED_SIZE):
            continue
        program, original = figures["program"], figures.get("original")
        for what, figure, most in shares_of(job):
            if ((job.name, what) in NOT_MET) != are_aims or (what == MEMORY and not is_of_memory):
                continue
            found = share(figure, program, original) if original else None
            bars.judge(f"{'aim: ' if are_aims else ''}{job.name}, {job.entries:,} entries, share of the original's {what}", found,
                       most if original else None, lambda number: f"{number:.3f}")


def exponent(smaller, larger, start):
    """The exponent by which instructions grow from one job to another, without the start's; by seconds where they weren't counted.
    A text where there is none."""
    def taken(figures):
        if smaller[1].instructions and larger[1].instructions:
            return figures.instructions - start.instructions
        return figures.cpu - start.cpu
    few, many = taken(smaller[1]), taken(larger[1])
    if few <= 0 or many <= 0:
        return "it takes no more than the start does"
    return math.log(many / few) / math.log(larger[0].entries / smaller[0].entries)


def print_growth(measured, tool, bars):
    jobs_with_figures = [(job, figures[tool.name]) for job, figures in measured.items() if not figures[tool.name].failure]
    starts = [figures for job, figures in jobs_with_figures if job.name == jobs.START]
    for smaller, larger in zip(jobs_with_figures, jobs_with_figures[1:]):
        if not starts or smaller[0].name != larger[0].name:
            continue
        found = exponent(smaller, larger, starts[0])
        what = f"{smaller[0].name}, {tool.name}, growth from {smaller[0].entries:,} to {larger[0].entries:,} entries"
        if isinstance(found, str):
            print(f"          {what}: {found}")
        elif larger[1].instructions is None or tool.is_original:
            print(f"          {what}: exponent {found:.3f}{'' if larger[1].instructions else ' by seconds'}")
        else:
            bars.judge(what, found, MOST_GROWTH, lambda exponent: f"exponent {exponent:.3f}")


# ---- the command ----


def numbers(text):
    return [int(word) for word in text.replace("_", "").split(",")]


def read_arguments():
    parser = argparse.ArgumentParser()
    parser.add_argument("--aims", action="store_true", help="the aims that aren't met yet are bars too")
    parser.add_argument("--instructions", action="store_true", help="memory is no bar")
    parser.add_argument("--sizes", type=numbers, default=[1_000, 10_000], help="numbers of entries, rising")
    parser.add_argument("--counted", type=int, default=10_000, help="instructions are counted up to this number of entries")
    parser.add_argument("--styles", type=lambda text: text.split(","), default=[ARTICLE, PLAIN, ALPHA, LONG])
    parser.add_argument("--runs", type=int, default=7, help="seconds are the best of this number of runs")
    parser.add_argument("--seed", type=int, default=1)
    parser.add_argument("program", nargs="?", type=pathlib.Path, default=PROGRAM)
    return parser.parse_args()


def named_in(table, kind):
    """Reads the names of an option, with commas between them, as what the table has for them."""
    def read(text):
        unknown = [name for name in text.split(",") if name not in table]
        if unknown:
            raise argparse.ArgumentTypeError(f"no {kind} is named {unknown[0]}; there are {', '.join(table)}")
        return [table[name] for name in text.split(",")]
    return read


def find_tools(arguments, room, longest_run=LONGEST_RUN):
    tools = []
    if arguments.program.is_file():
        tools.append(Tool("program", arguments.program.resolve(), room, longest_run))
    else:
        print(f"there is no program {arguments.program}: build it by make")
    original = shutil.which("bibtex")
    if original and b"BibTeX 0.99" in subprocess.run([original, "--version"], capture_output=True).stdout:
        tools.append(Tool("original", original, room, longest_run))
    else:
        print("the original bibtex isn't installed: left out")
    return tools


def measure_all(tools, arguments, room):
    styles = [style for style in arguments.styles if jobs.has_style(style)]
    row(["job", "entries", "", "instructions", "CPU s", "wall s", "peak MB", "steps", "steps a second", "list"])
    row(["---"] * 10)
    measured = {}
    for job in jobs.all_jobs(styles, arguments.sizes):
        is_counted = job.entries <= arguments.counted
        measured[job] = measure(tools, job, arguments.seed, arguments.runs, is_counted, room)
        print_job(job, measured[job], arguments.seed)
    print()
    row(["loop", "", "instructions a step"])
    row(["---"] * 3)
    for loop in jobs.all_loops(styles):
        print_loop(loop, measure_loop(tools, loop, arguments.seed, room))
    print()
    return measured


def has_commands():
    """Whether all is there that measuring needs; what is missing is printed."""
    missing = [name for name in ("valgrind", "gcc", "timeout") if shutil.which(name) is None]
    if missing:
        print(f"{' and '.join(missing)} not found: nothing is measured")
    return not missing


@contextlib.contextmanager
def room_with_once():
    """A folder for what is measured, with the program of once.c in it."""
    with tempfile.TemporaryDirectory() as room:
        room = pathlib.Path(room)
        subprocess.run(["gcc", "-O2", "-Wall", "-Werror", "-o", room / "once", HERE / "once.c"], check=True)
        yield room


def main():
    if not has_commands():
        return 0
    arguments = read_arguments()
    with room_with_once() as room:
        tools = find_tools(arguments, room)
        measured = measure_all(tools, arguments, room)
    bars = Bars()
    if any(tool.name == "program" for tool in tools):
        print_bars(measured, bars, not arguments.instructions)
        print_shares(measured, bars, False, not arguments.instructions)
        if arguments.aims:
            print_shares(measured, bars, True, not arguments.instructions)
    else:
        bars.missed += 1
    for tool in tools:
        print_growth(measured, tool, bars)
    return bars.status()


if __name__ == "__main__":
    sys.exit(main())
