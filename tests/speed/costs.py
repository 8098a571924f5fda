#!/usr/bin/env python3
"""What a job can cost at most: the figures of the table in docs/RULES.md, on jobs that are made to cost much in one way each.

    python3 tests/speed/costs.py [--only NAME,.. | --without-times] [PROGRAM]

PROGRAM is BIBTEX_PROGRAM, or else crates/bibtex/out/bibtex, if none is given. --without-times leaves out what is measured in seconds: `tests/run` does so. Each job is run in two sizes; a figure is the difference of what they took, by the
difference of what it grows with. Memory is to be at most what RULES says, the lengths of outputs a hundredth more, and seconds, which depend on
the machine and on what else it does, three times as many. A row of RULES without a job here, and a job without a row, is a bar that isn't
met. Its last line is 'N bars met, M not'; the exit status is 0 only where M is 0."""

import argparse
import functools
import pathlib
import re
import shutil
import subprocess
import sys
import tempfile
from typing import Callable, NamedTuple

from measure import PROGRAM, Bars, named_in, room_with_once

HERE = pathlib.Path(__file__).resolve().parent
RULES = HERE.parents[1] / "docs/RULES.md"
SECTION = "### What a job can cost at most"
# Seconds.
LONGEST_RUN = 300
# By how much a figure may pass that of RULES.
MORE = {"memory": 1.0, "log": 1.01, "list": 1.01, "seconds": 3.0}

MB = 1_000_000
LONGEST_STRING = 1_000_000


class Job(NamedTuple):
    """The files that differ from the ordinary ones, and what the cost grows with."""
    files: dict
    amount: int
    words: tuple = ()


class Cost(NamedTuple):
    """`quantity` is what is measured; `unit` is what RULES writes behind the number, each of which is `scale` of the quantity."""
    name: str
    make: Callable
    quantity: str
    unit: str
    scale: float
    sizes: tuple


COSTS = {}


def cost(quantity, unit, *sizes, scale=1):
    """Adds the function's job, under its name."""
    def add(make):
        COSTS[make.__name__] = Cost(make.__name__, make, quantity, unit, scale, sizes)
        return make
    return add


# ---- parts of jobs ----

AUX = "\\citation{k}\n\\bibdata{d}\n\\bibstyle{s}\n"
ALL = "\\citation{*}\n\\bibdata{d}\n\\bibstyle{s}\n"
DATABASE = "@misc{k, title = {T}}\n"
LONG = "@misc{k, title = {%s}}\n" % ("x" * (LONGEST_STRING - 1))
FIELDS = 100


def names_of(size):
    return ["k%06d" % number for number in range(size)]


def entries_of(size, fields=""):
    """`size` entries with these fields."""
    return "".join("@misc{%s%s}\n" % (key, fields) for key in names_of(size))


def many(names):
    return " ".join("f%03d" % number for number in range(names))


def style(body, fields="", strings="", commands="ITERATE {f}"):
    """A style with these fields and entry strings beside title, whose function f has this body."""
    return "ENTRY {title %s}{}{%s} INTEGERS {i} FUNCTION {misc}{} FUNCTION {f} {%s} READ %s\n" % (fields, strings, body, commands)


def loop(turns, body):
    return "#0 'i := {i #%d <} {%s i #1 + 'i :=} while$" % (turns, body)


# ---- memory ----


@cost("memory", "bytes a byte", 100, 400)
def stack(size):
    """The literals are taken off again, since those that are left would stand in the log too."""
    body = loop(size, 'title "y" *') + " " + loop(size, "pop$")
    return Job({"d.bib": LONG, "s.bst": style(body)}, size * LONGEST_STRING)


@cost("memory", "bytes a variable", 2_000, 10_000)
def entry_strings(size):
    """Each keeps 250 bytes."""
    body = " ".join("cite$ \"%s\" * 'f%03d :=" % ("y" * 243, number) for number in range(FIELDS))
    return Job({"job.aux": ALL, "d.bib": entries_of(size), "s.bst": style(body, strings=many(FIELDS))}, size * FIELDS)


@cost("memory", "bytes a variable", 10_000, 40_000)
def entry_strings_unused(size):
    return Job({"job.aux": ALL, "d.bib": entries_of(size), "s.bst": style("", strings=many(FIELDS))}, size * FIELDS)


@cost("memory", "bytes a field", 5_000, 20_000)
def fields(size):
    """Each takes six bytes of the database."""
    given = "".join(",f%03d=1" % number for number in range(FIELDS))
    return Job({"job.aux": ALL, "d.bib": entries_of(size, given), "s.bst": style("", fields=many(FIELDS))}, size * FIELDS)


@cost("memory", "bytes a field", 5_000, 20_000)
def inherited_fields(size):
    """They take nothing of the database but the parent's."""
    given = "".join(",f%03d=1" % number for number in range(FIELDS))
    database = entries_of(size, ",crossref={p}") + "@misc{p%s}\n" % given
    return Job({"job.aux": ALL, "d.bib": database, "s.bst": style("", fields=many(FIELDS))}, size * FIELDS)


@cost("memory", "bytes a byte", 100, 400)
def joined_values(size):
    """Each value joins a string with a digit, so it is a text of its own, for some ten bytes of the database."""
    values = "".join(", f%03d = s # 1" % number for number in range(size))
    database = "@string{s = {%s}}\n@misc{k%s}\n" % ("x" * (LONGEST_STRING - 2), values)
    return Job({"d.bib": database, "s.bst": style("", fields=many(size))}, size * LONGEST_STRING)


@cost("memory", "bytes an entry", 100_000, 400_000)
def entries(size):
    return Job({"job.aux": ALL, "d.bib": entries_of(size), "s.bst": style("")}, size)


@cost("memory", "bytes a key", 100_000, 400_000)
def keys(size):
    """None has an entry, so each has a message."""
    return Job({"job.aux": "\\citation{%s}\n" % ",".join(names_of(size)) + AUX, "s.bst": style("")}, size)


@cost("memory", "bytes a byte", 2 * MB, 8 * MB)
def style_text(size):
    """The densest text: nameless functions with nothing in them."""
    return Job({"s.bst": style("{}" * (size // 2), commands="")}, size)


@cost("memory", "bytes a byte", 10 * MB, 40 * MB)
def database_text(size):
    """Text between items alone: the file is in memory."""
    return Job({"d.bib": DATABASE + "x" * size, "s.bst": style("")}, size)


@cost("memory", "bytes a message", 500_000, 2_000_000)
def database_errors(size):
    """Two bytes of the database give a message."""
    return Job({"d.bib": DATABASE + "@{" * size, "s.bst": style("")}, size)


@cost("memory", "bytes a message", 100_000, 400_000)
def aux_errors(size):
    """Two bytes of an .aux file give a message: a key in another case."""
    return Job({"job.aux": "\\citation{k%s}\n" % (",K" * size) + AUX, "s.bst": style("")}, size)


# ---- the log and the list ----


@cost("memory", "bytes a byte", 2 * MB, 20 * MB)
def log(size):
    """Five steps for a line of two bytes."""
    body = loop(size // 2, '"" top$')
    return Job({"s.bst": style(body)}, size // 2 * 3)


@cost("memory", "bytes a byte", 500, 2_000)
def messages_of_read(size):
    """Each names the key of 50,000 bytes."""
    database = "@misc{%s%s}\n" % ("k" * 50_000, ",title=1" * size)
    return Job({"job.aux": ALL, "d.bib": database, "s.bst": style("")}, size * 50_000)


@cost("memory", "bytes a byte", 100, 400)
def list_in_memory(size):
    return Job({"d.bib": LONG, "s.bst": style(loop(size, "title write$"))}, size * LONGEST_STRING)


@cost("log", "bytes a step", 100, 200)
def log_of_a_step(size):
    """A step for each literal, and one that shows them all."""
    return Job({"d.bib": LONG, "s.bst": style("title " * size + "stack$")}, size)


@cost("log", "bytes a step", 100_000, 500_000)
def log_of_errors(size):
    """A function of three operands, none of which is there, pushes nothing: so the next one finds none either."""
    return Job({"s.bst": style("{#1} {%s} while$" % ("if$ " * 100), commands="EXECUTE {f}")}, size, ("--budget", str(size)))


@cost("log", "bytes a step and byte of the key", 20, 40)
def log_of_long_keys(size):
    """The same errors, each of which names the entry."""
    key = "k" * LONGEST_STRING
    return Job({"job.aux": ALL, "d.bib": "@misc{%s}\n" % key, "s.bst": style("if$ " * size)}, size * LONGEST_STRING)


@cost("list", "bytes a step", 100, 200)
def list_of_a_step(size):
    return Job({"d.bib": LONG, "s.bst": style("title write$ " * size)}, 2 * size)


def has_plain_letters():
    if shutil.which("kpsewhich") is None:
        return None
    return subprocess.run(["kpsewhich", "plain-letters.bst"], capture_output=True, text=True).stdout.strip() or None


@cost("log", "bytes a step", 1_000_000, 10_000_000)
def plain_letters(size):
    """TeX Live's style, which loops where an author has no letter."""
    text = pathlib.Path(has_plain_letters()).read_text(encoding="latin1")
    return Job({"d.bib": "@misc{k, author = {1}, title = {T}}\n", "s.bst": text}, size, ("--budget", str(size)))


# ---- time ----


@cost("seconds", "seconds for 1,000,000,000 steps", 50 * MB, 250 * MB, scale=1e-9)
def cheap_steps(size):
    return Job({"s.bst": style("{#1} {} while$")}, size, ("--budget", str(size)))


@cost("seconds", "milliseconds a step", 20, 80, scale=1e-3)
def dear_steps(size):
    """A name of 500,000 tokens is put into a format, again and again; five steps for each time."""
    name = (". " * (LONGEST_STRING // 2))[:LONGEST_STRING - 1]
    body = 'title #1 "{ff~}{vv~}{ll}" format.name$ pop$ ' * size
    return Job({"d.bib": "@misc{k, title = {%s}}\n" % name, "s.bst": style(body)}, 5 * size)


@cost("seconds", "milliseconds a SORT", 1_000, 5_000, scale=1e-3)
def sorts(size):
    """20,000 entries whose keys of 250 bytes are equal but for the end."""
    body = "\"%s\" cite$ * 'sort.key$ :=" % ("y" * 243)
    text = style(body, commands="ITERATE {f} " + "SORT " * size)
    return Job({"job.aux": ALL, "d.bib": entries_of(20_000), "s.bst": text}, size)


@cost("seconds", "seconds for 1,000,000,000 bytes", 200, 800, scale=1e-9)
def uses_of_a_string(size):
    """A string that is joined from parts, with whitespace at its end, which each value that it gives loses."""
    values = "".join(", f%03d = s" % number for number in range(size))
    database = "@string{s = {%s} # {}}\n@misc{k%s}\n" % ("x " * (LONGEST_STRING // 2 - 1), values)
    return Job({"d.bib": database, "s.bst": style("", fields=many(size))}, size * LONGEST_STRING)


@cost("seconds", "seconds for 1,000,000,000 bytes", 100, 400, scale=1e-9)
def missing_parents(size):
    """Each message names the parent, of 1,000,000 bytes."""
    database = "@string{p = {%s}}\n" % ("p" * (LONGEST_STRING - 1)) + entries_of(size, ",crossref=p")
    return Job({"job.aux": ALL, "d.bib": database, "s.bst": style("")}, size * LONGEST_STRING)


@functools.lru_cache(maxsize=None)
def keys_that_collide(count):
    with tempfile.TemporaryDirectory() as folder:
        maker = pathlib.Path(folder) / "collide"
        subprocess.run(["gcc", "-O2", "-Wall", "-Werror", "-o", maker, HERE / "collide.c"], check=True)
        return subprocess.run([maker, str(count)], capture_output=True, text=True, check=True).stdout.split()


@cost("seconds", "nanoseconds a pair of keys", 2_000, 6_000, scale=1e-9)
def chosen_keys(size):
    """Each is cited and has an entry, and is compared with all that were looked up before."""
    chosen = keys_that_collide(6_000)[:size]
    database = "".join("@misc{%s}\n" % key for key in chosen)
    return Job({"job.aux": "\\citation{%s}\n" % ",".join(chosen) + AUX, "d.bib": database, "s.bst": style("")}, size * size // 2)


# ---- what RULES says ----


def stated():
    """For each job that a row of the table names: its figure, and the unit behind it."""
    text = RULES.read_text(encoding="utf-8").partition(SECTION + "\n")[2].partition("\n#")[0]
    for line in text.split("\n"):
        cells = [cell.strip() for cell in line.strip("|").split("|")]
        found = re.fullmatch(r"([\d,.]+) (.*)", cells[2]) if line.startswith("|") and len(cells) == 4 else None
        if found:
            yield cells[3].strip("`"), (float(found[1].replace(",", "")), found[2])


# ---- runs ----


def measured(program, job, room):
    """What a run took, by quantity; a text that says why nothing is known."""
    with tempfile.TemporaryDirectory(dir=room) as folder:
        folder = pathlib.Path(folder)
        for name, text in {"job.aux": AUX, "d.bib": DATABASE, **job.files}.items():
            (folder / name).write_text(text, encoding="latin1")
        ran = subprocess.run(["timeout", str(LONGEST_RUN), room / "once", folder / "figures", program, *job.words, "--terse", "job"],
                             cwd=folder, stdin=subprocess.DEVNULL, stderr=subprocess.PIPE)
        if ran.returncode not in (0, 2, 4):
            return f"it ends with status {ran.returncode}: {ran.stderr.decode('latin1').strip()}"
        _, seconds, kilobytes = map(float, (folder / "figures").read_text().split())
        return {"seconds": seconds, "memory": kilobytes * 1024, "log": (folder / "job.blg").stat().st_size,
                "list": (folder / "job.bbl").stat().st_size}


def figure(program, cost, room):
    """The figure of a cost, in its unit; a text where there is none."""
    jobs = [cost.make(size) for size in cost.sizes]
    took = [measured(program, job, room) for job in jobs]
    wrong = next((it for it in took if isinstance(it, str)), None)
    if wrong:
        return wrong
    return (took[1][cost.quantity] - took[0][cost.quantity]) / (jobs[1].amount - jobs[0].amount) / cost.scale


def judge(program, cost, said, room, bars):
    if cost.name == "plain_letters" and not has_plain_letters():
        print("left out  plain_letters: the style isn't installed")
        return
    most, unit = said.get(cost.name, (None, None))
    if unit != cost.unit:
        bars.missed += 1
        print(f"NOT MET   {cost.name}: RULES has no figure in {cost.unit}")
        return
    found = figure(program, cost, room)
    bars.judge(f"{cost.name} (RULES: {most:,} {unit})", found, most * MORE[cost.quantity], lambda number: f"{number:,.2f}")


# ---- the command ----


def read_arguments():
    parser = argparse.ArgumentParser()
    parser.add_argument("--only", type=named_in(COSTS, "cost"), default=list(COSTS.values()), metavar="NAME,..", help="these costs alone")
    parser.add_argument("--without-times", action="store_true", help="leave out what is measured in seconds")
    parser.add_argument("program", nargs="?", type=pathlib.Path, default=PROGRAM)
    return parser.parse_args()


def main():
    arguments = read_arguments()
    chosen = [cost for cost in arguments.only if not (arguments.without_times and cost.quantity == "seconds")]
    missing = [name for name in ("gcc", "timeout") if shutil.which(name) is None]
    if missing:
        print(f"{' and '.join(missing)} not found: nothing is measured")
        return 0
    bars, said = Bars(), dict(stated())
    for name in said.keys() - COSTS.keys():
        bars.missed += 1
        print(f"NOT MET   RULES names {name}, and there is no such job")
    with room_with_once() as room:
        for cost in chosen:
            judge(arguments.program.resolve(), cost, said, room, bars)
            sys.stdout.flush()
    return bars.status()


if __name__ == "__main__":
    sys.exit(main())
