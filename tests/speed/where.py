#!/usr/bin/env python3
"""Where the program's instructions go: for a step of a style, and for a byte of a database, by crate and by function.

    python3 tests/speed/where.py [--styles NAME,..] [--least N] [PROGRAM]

PROGRAM is BIBTEX_PROGRAM, or else crates/bibtex/out/bibtex, if none is given. Valgrind counts the instructions of each function (callgrind) in two lengths of a job; their
difference is shared among the steps, or the bytes, by which the jobs differ, so neither the start nor the reading counts for a step. What the
compiler put into a function counts as that function's. Functions below N in 100 of a column (2 if it isn't given) are added up in their crate."""

import argparse
import pathlib
import re
import shutil
import subprocess
import sys
import tempfile
from collections import Counter
from typing import NamedTuple

import jobs
from measure import PROGRAM, row

SEED = 1
OTHERS = "C library"
# A line of a profile: a number of a line and its cost, a function's name, or a call, whose cost on the next line is the callee's.
NAMED = re.compile(r"(c?)fn=\((\d+)\)(?: (.*))?")
COST = re.compile(r"[+-]?\d+ (\d+)|\* (\d+)")


class Column(NamedTuple):
    """What a column of the table counts: two jobs, and the steps or bytes by which they differ."""
    head: str
    shorter: NamedTuple
    longer: NamedTuple
    amount: float


# ---- profiles ----


def functions_in(profile):
    """The instructions of each function itself, from a file of callgrind."""
    names, costs, function, is_call = {}, Counter(), None, False
    for line in profile.read_text().splitlines():
        named, cost = NAMED.match(line), COST.fullmatch(line)
        if named:
            names.setdefault(named[2], plain_name(named[3] or ""))
            function = function if named[1] else names[named[2]]
        elif line.startswith("calls="):
            is_call = True
        elif cost:
            costs[function] += 0 if is_call else int(cost[1] or cost[2])
            is_call = False
    return costs


def plain_name(name):
    """A function's name without what distinguishes its forms for several types: they count as one."""
    return re.sub(r"'\d+$|::<#[0-9a-f]+>", "", name)


def profile_of(program, job, room):
    with tempfile.TemporaryDirectory(dir=room) as folder:
        folder = pathlib.Path(folder)
        job.write(folder, SEED)
        subprocess.run(["valgrind", "--tool=callgrind", f"--callgrind-out-file={folder / 'profile'}", program, "--terse", "job"], cwd=folder,
                       stdin=subprocess.DEVNULL, stdout=subprocess.DEVNULL, stderr=subprocess.DEVNULL, check=False)
        return functions_in(folder / "profile")


def difference(program, column, room):
    """By function the instructions of one step, or of one byte."""
    longer, shorter = (profile_of(program, job, room) for job in (column.longer, column.shorter))
    return {name: (longer[name] - shorter[name]) / column.amount for name in longer.keys() | shorter.keys()}


# ---- what is profiled ----


def bytes_of(job):
    with tempfile.TemporaryDirectory() as folder:
        job.write(pathlib.Path(folder), SEED)
        return pathlib.Path(folder, "works.bib").stat().st_size


def columns(styles):
    for style in styles:
        loop = jobs.ReferencesLoop(style)
        shorter, longer = map(loop.job, loop.turns)
        yield Column(f"a step of `{style}`", shorter, longer, loop.steps(SEED))
    for name, what in ((jobs.READING_ALONE, "a byte of database"), (jobs.MESSAGES, "the same with mistakes")):
        shorter, longer = (jobs.Job(name, name, entries) for entries in (1_000, 4_000))
        yield Column(what, shorter, longer, bytes_of(longer) - bytes_of(shorter))


# ---- the table ----


def crate_of(function):
    """The crate whose function this is. The C library's functions have no path."""
    crate, _, rest = function.partition("::")
    return crate if rest else OTHERS


def sum_of(costs):
    """The sum of each column."""
    return [sum(column) for column in zip(*costs)]


def is_dear(costs, total, least):
    """It takes N in 100 of a column at least."""
    return any(cost >= all_costs * least / 100 for cost, all_costs in zip(costs, total))


def print_table(heads, costs, least):
    """A row for each crate, the dearest first, and below it those for its functions that take much in a column."""
    total = sum_of(costs.values())
    crates = {}
    for function, of_function in costs.items():
        crates.setdefault(crate_of(function), {})[function] = of_function
    row(["where", *heads])
    row(["---"] * (len(heads) + 1))
    print_row("all", total)
    for crate, functions in sorted(crates.items(), key=lambda it: -sum(sum_of(it[1].values()))):
        if is_dear(sum_of(functions.values()), total, least):
            print_crate(crate, functions, total, least)


def print_crate(crate, functions, total, least):
    print_row(f"`{crate}`" if crate != OTHERS else crate, sum_of(functions.values()))
    for function, of_function in sorted(functions.items(), key=lambda it: -sum(it[1])):
        if is_dear(of_function, total, least):
            print_row(f".. `{function.partition('::')[2] or function}`", of_function)


def print_row(title, costs):
    row([title, *(f"{cost:.1f}" for cost in costs)])


def main():
    parser = argparse.ArgumentParser()
    parser.add_argument("--styles", type=lambda text: text.split(","), default=[jobs.PLAIN, jobs.LONG])
    parser.add_argument("--least", type=float, default=2, metavar="N", help="functions below N in 100 aren't shown")
    parser.add_argument("program", nargs="?", type=pathlib.Path, default=PROGRAM)
    arguments = parser.parse_args()
    if shutil.which("valgrind") is None or not arguments.program.is_file():
        print("there is no valgrind, or no program: nothing is measured")
        return 0
    shown = list(columns([style for style in arguments.styles if jobs.has_style(style)]))
    with tempfile.TemporaryDirectory() as room:
        found = [difference(arguments.program.resolve(), column, room) for column in shown]
    costs = {function: [each.get(function, 0.0) for each in found] for function in set().union(*found)}
    print_table([column.head for column in shown], costs, arguments.least)
    return 0


if __name__ == "__main__":
    sys.exit(main())
