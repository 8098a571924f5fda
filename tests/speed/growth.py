#!/usr/bin/env python3
"""Whether reading takes ten times as much for ten times the size, in each shape of `shapes.py`.

    python3 tests/speed/growth.py [--only NAME,..] [--original] [--runs N] [PROGRAM]

PROGRAM is BIBTEX_PROGRAM, or else crates/bibtex/out/bibtex, if none is given. Measures as `measure.py` does, and nothing where that can't. Prints a table of the
shapes in two sizes, and the bars; `--original` adds rows of the original `bibtex`, for which there are no bars. Its last line is
'N bars met, M not'; the exit status is 0 only where M is 0."""

import argparse
import pathlib
import sys

from measure import MOST_GROWTH, PROGRAM, Bars, exponent, find_tools, has_commands, measure, millions, named_in, room_with_once, row
from shapes import SHAPES, START

# No shape leaves anything to chance.
SEED = 1
# Seconds, with valgrind too. What grows by a larger power may never end.
LONGEST_RUN = 120


# ---- what is measured ----


def measured_shape(shape, tools, runs, room):
    """The jobs of the shape, each with its figures by tool."""
    measured = []
    for job in shape.jobs():
        figures = measure(tools, job, SEED, runs, True, room)
        print_job(job, figures)
        measured.append((job, figures))
    return measured


def print_job(job, figures_by_tool):
    for name, figures in figures_by_tool.items():
        size = f"{job.entries:,} {job.shape.unit}"
        if figures.failure:
            row([job.shape.name, size, name, figures.failure, *[""] * 3])
        else:
            row([job.shape.name, size, name, millions(figures.instructions), f"{figures.cpu:.3f}", f"{figures.wall:.3f}",
                 f"{figures.megabytes:.1f}"])


def measure_all(shapes, tools, runs, room):
    """The figures of the start by tool, and the jobs of each shape with theirs."""
    row(["shape", "size", "", "instructions", "CPU s", "wall s", "peak MB"])
    row(["---"] * 7)
    [(job, start)] = measured_shape(START, tools, runs, room)
    measured = [measured_shape(shape, tools, runs, room) for shape in shapes]
    print()
    return start, measured


# ---- bars ----


def growth(smaller, larger, start):
    """The exponent from one job with its figures to the other; a text where there is none."""
    for figures in (start, smaller[1], larger[1]):
        if figures.failure or figures.instructions is None:
            return figures.failure or f"valgrind counted nothing within {LONGEST_RUN} seconds"
    return exponent(smaller, larger, start)


def print_bars(measured, start, bars):
    for jobs in measured:
        smaller, larger = ((job, figures["program"]) for job, figures in jobs)
        shape = smaller[0].shape
        if shape.most:
            figures = larger[1]
            bars.judge(f"{shape.name}, instructions for {larger[0].entries:,} {shape.unit}", figures.failure or figures.instructions, shape.most, millions)
            continue
        what = f"{shape.name}, growth from {smaller[0].entries:,} to {larger[0].entries:,} {shape.unit}"
        found = growth(smaller, larger, start["program"])
        bars.judge(what, found, MOST_GROWTH, lambda exponent: f"exponent {exponent:.3f}")


# ---- the command ----


def read_arguments():
    parser = argparse.ArgumentParser()
    parser.add_argument("--only", type=named_in(SHAPES, "shape"), default=list(SHAPES.values()), metavar="NAME,..", help="these shapes alone")
    parser.add_argument("--original", action="store_true", help="adds rows of the original")
    parser.add_argument("--runs", type=int, default=3, help="seconds are the best of this number of runs")
    parser.add_argument("program", nargs="?", type=pathlib.Path, default=PROGRAM)
    return parser.parse_args()


def main():
    arguments = read_arguments()
    if not has_commands():
        return 0
    bars = Bars()
    with room_with_once() as room:
        tools = [tool for tool in find_tools(arguments, room, LONGEST_RUN) if arguments.original or not tool.is_original]
        start, measured = measure_all(arguments.only, tools, arguments.runs, room) if tools else ({}, [])
    if "program" in start:
        print_bars(measured, start, bars)
    else:
        bars.missed += 1
    return bars.status()


if __name__ == "__main__":
    sys.exit(main())
