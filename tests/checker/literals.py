"""The checker's bounds on literals, beside what runs reach: over the clean styles of a folder.

    python3 literals.py [--jobs N] [--seed N] [--processes N] [--folder FOLDER] LIBRARY.so

LIBRARY.so is the library for C (library/out/libbtx.so.1). Each style of the folder (TeX Live's, if it is there) that is called clean is run by the reference
in N jobs at most, until its bound is reached: entries of all the types that the verdict names and of an unknown one, with some of the style's fields, among
them names, months and cross-references. Prints a line for each: its name, the bound, the most literals that a run had on the stack, and the number of runs;
and at the end for how many styles the two are equal. A run with more literals than the bound, or with a fault, is a failure: the last line counts these."""

import argparse
import concurrent.futures
import pathlib
from typing import NamedTuple

from force import TEX_LIVE, fault_in, run_deep
from library import Checker

import make_database
from product import Options
from styles import read_style

UNKNOWN = "late"
# Which part of the style's fields an entry has.
SHARES = [0.1, 0.3, 0.5, 0.7, 0.9, 1]
OF_NAMES = ("author", "editor", "translator")
ODD = ["{}", "{ }", "{x}", "{1}", "{12--15, 17}", "{1st}", "{no}", "{{A} b}", "{1999-05-01}", "{10.1000/a_b}", "{others}"]
BUDGET = 2_000_000


class Maker(make_database.Maker):
    """Entries of a style's own types and fields."""

    def filled(self, field):
        if self.chance(0.15):
            return self.pick(ODD)
        if not field.endswith(OF_NAMES):
            return self.value(field)
        return self.wrapped(self.people() if self.chance(0.8) else " and ".join(self.person() for _ in range(12)))

    def some(self, fields):
        share = self.pick(SHARES)
        return ["%s = %s" % (field, self.filled(field)) for field in fields if self.chance(share)]

    def entries(self, types, fields):
        """An entry of each type, now and then a second one with the same fields, and an entry that others refer to."""
        for number, kind in enumerate(self.random.sample(types, len(types))):
            given = self.some(fields) + (["crossref = {parent}"] if self.chance(0.25) else [])
            for copy in range(self.pick([1, 1, 1, 2])):
                yield "@%s{%s}" % (kind, ", ".join(["k%d.%d" % (number, copy), *given]))
        yield "@%s{%s}" % (self.pick(types), ", ".join(["parent", *self.some(fields)]))

    def job(self, style, types, fields):
        database = "\n".join([make_database.STRINGS, *self.entries([*types, UNKNOWN], fields)])
        return {b"job.aux": b"\\citation{*}\n\\bibdata{d}\n\\bibstyle{s}\n", b"d.bib": database.encode(), b"s.bst": style}


class Reached(NamedTuple):
    """How many literals a clean style's runs had on the stack, and a run's fault."""
    name: str
    bound: int
    most: int
    runs: int
    fault: bytes

    def is_wrong(self):
        return bool(self.fault) or self.most > self.bound

    def line(self):
        fault = ", " + self.fault.decode("latin-1") if self.fault else ""
        return "%s: bound %d, reached %d, runs %d%s" % (self.name, self.bound, self.most, self.runs, fault)


def try_style(given):
    """What the runs of a style reach: None if it isn't called clean."""
    path, name, seed, jobs = given
    style = pathlib.Path(name).read_bytes()
    said = Checker(path).check(style)
    if not said or said.verdict != "clean":
        return None
    types = [kind.decode("latin-1") for kind in said.types]
    fields = [field.name.decode("latin-1") for field in read_style(b"s.bst", style).fields() if field.name != b"crossref"]
    maker, most, runs, fault = Maker(seed), 0, 0, None
    while runs < jobs and most < said.literals and not fault:
        made, reached = run_deep(maker.job(style, types, fields), Options(budget=BUDGET))
        most, runs, fault = max(most, reached), runs + 1, fault_in(made.log)
    return Reached(pathlib.Path(name).stem, said.literals, most, runs, fault)


def read_arguments():
    parser = argparse.ArgumentParser()
    parser.add_argument("--jobs", type=int, default=20)
    parser.add_argument("--seed", type=int, default=1)
    parser.add_argument("--processes", type=int, default=2)
    parser.add_argument("--folder", type=pathlib.Path, default=TEX_LIVE)
    parser.add_argument("library")
    return parser.parse_args()


def main():
    given = read_arguments()
    names = sorted(map(str, pathlib.Path(given.folder).rglob("*.bst")))
    styles = [(given.library, name, given.seed, given.jobs) for name in names]
    tried = []
    with concurrent.futures.ProcessPoolExecutor(given.processes) as pool:
        for reached in filter(None, pool.map(try_style, styles)):
            tried.append(reached)
            print(reached.line(), flush=True)
    equal, wrong = sum(one.most == one.bound for one in tried), sum(one.is_wrong() for one in tried)
    print("%d of %d bounds are reached; the others are at most %d too high" % (equal, len(tried), max((one.bound - one.most for one in tried), default=0)))
    print("%d passed, %d failed" % (len(tried) - wrong, wrong))
    return wrong or not tried


if __name__ == "__main__":
    raise SystemExit(main() > 0)
