"""Styles from a seed that the checker calls clean, run by the reference and by the library: not one may log a fault of the stack or of kinds.

    python3 force.py [--styles N] [--real N] [--jobs N] [--seed N] [--processes N] [--folder FOLDER] LIBRARY.so
    python3 force.py --self-test [--styles N] [--seed N] LIBRARY.so

LIBRARY.so is the library for C (library/out/libbtx.so.1). The styles are made from a seed: small ones with loops, fields and variables, and changes of them; and with --real so many of a folder
(TeX Live's, if it is there), of which most have a token changed. Each that is called clean is run in some jobs: entries of the types that the verdict names and of an unknown one, with fields missing,
empty, blank and full, and with variables that keep one byte or more. A fault is a message of an empty stack, a wrong kind, an incomparable `=`, an assignment to no variable, no entry, or literals left
over; the ends at the limits of literals, bodies and loops; and more open bodies, or more literals, than the verdict says. The library's list and log are compared with the reference's too. The last
line is 'N passed, M failed', of the styles that are called clean.

With --self-test the checker is broken: it is asked of another style than the one that is run, in which a rule of BibTeX holds no longer. Each such checker has to be caught; the last line counts them."""

import argparse
import concurrent.futures
import pathlib
import re
from unittest import mock

from library import Checker

import product
from make_styles import Maker
from product import run

TEX_LIVE = "/usr/share/texlive/texmf-dist/bibtex/bst"
FAULT = re.compile(rb"Error--(?:You can't pop an empty literal stack|.* is not (?:an integer|a string|a function|a string or missing field)"
                   rb"|= needs two integers or two strings|You can't assign to .*|You can't mess with entries here|The literal stack isn't empty) while executing ")
LIMITS = ("limit literals", "limit calls", "limit loops")
# The same ends by the numbers of library/btx.h.
LIMITS_OF_LIBRARY = (3, 4, 5)


class DeepMachine(product.Machine):
    """The machine, which keeps the greatest number of literals on the stack."""
    most = 0

    def push(self, literal):
        super().push(literal)
        DeepMachine.most = max(DeepMachine.most, len(self.stack))


def fault_in(log):
    """The first line of a log that is a fault of the style."""
    return next((line for line in log.split(b"\n") if FAULT.match(line)), None)


# ---- one style ----


def run_deep(files, options):
    """The reference's run, and the greatest number of literals on its stack."""
    DeepMachine.most = 0
    with mock.patch.object(product, "Machine", DeepMachine):
        made = run(files, b"job", options)
    return made, DeepMachine.most


def wrong_in_reference(files, options, said, ran):
    """What is wrong in the reference's run, or None."""
    made, most = run_deep(files, options)
    fault = fault_in(made.log)
    if fault or made.report.end in LIMITS:
        return fault or made.report.end.encode()
    if made.report.deepest > said.bodies or most > said.literals:
        return b"%d bodies are open at once, and %d literals on the stack" % (made.report.deepest, most)
    if (ran.list, ran.log) != (made.list, made.log):
        return b"the library's run differs"
    return None


def wrong_in_library(said, ran):
    """What is wrong in the library's run, or None."""
    fault = fault_in(ran.log)
    if fault or ran.end in LIMITS_OF_LIBRARY:
        return fault or b"the end is that at a limit"
    return b"%d bodies are open at once" % ran.deepest if ran.deepest > said.bodies else None


def wrong_with(library, style, said, maker, jobs, by_reference, budget=5000):
    """What is wrong in some jobs of a style that is called clean: the database and a line; or None. The first jobs are run by the reference too."""
    for number in range(jobs):
        files, options = maker.job(style, said.types, budget)
        ran = library.run(files, b"job", options)
        wrong = wrong_in_library(said, ran)
        if not wrong and number < by_reference:
            wrong = wrong_in_reference(files, options, said, ran)
        if wrong:
            return files[b"d.bib"], wrong
    return None


def try_small(given):
    """A small style: None if it isn't called clean."""
    path, seed, jobs = given
    library, maker = Checker(path), Maker(seed)
    style = maker.style()
    said = library.check(style)
    if not said or said.verdict != "clean":
        return None
    return style, said, wrong_with(library, style, said, maker, jobs, jobs)


def try_real(given):
    """A style of a folder, mostly with a token changed."""
    path, name, seed, jobs = given
    library, maker = Checker(path), Maker(seed)
    style = pathlib.Path(name).read_bytes()
    style = style if seed % 7 == 0 else maker.changed(style, 30)
    said = library.check(style)
    if not said or said.verdict != "clean":
        return None
    return style, said, wrong_with(library, style, said, maker, jobs, 1, 50_000)


# ---- broken checkers ----


def token(old, new):
    """A change of one token of a style's functions."""
    pattern = re.compile(rb"(?<=[\s{])" + re.escape(old) + rb"(?=[\s}])")

    def change(style):
        head, functions, rest = style.partition(b"\nFUNCTION")
        return head + functions + pattern.sub(lambda _: new, rest)
    return change


def with_fields_there(style):
    for field in (b"title", b"author", b"note"):
        style = token(field, b"cite$")(style)
    return style


def with_empty_stacks(style):
    return re.sub(rb"(?m)^(FUNCTION \{(?:book|misc|f|g)\} \{.*)\}$", rb"\1 stack$}", style)


BROKEN = [
    ("a field is never missing", with_fields_there, 0, 0),
    ("literals left over aren't asked for", with_empty_stacks, 0, 0),
    ("`=` compares anything", token(b"=", b"pop$ pop$ #1"), 0, 0),
    ("`if$` runs its first function alone", token(b"if$", b"pop$ swap$ pop$ #1 swap$ 'skip$ if$"), 0, 0),
    ("the body of a loop is run once", token(b"while$", b"swap$ #1 swap$ 'skip$ if$ swap$ 'skip$ if$"), 0, 0),
    ("anything is assigned to anything", token(b":=", b"pop$ pop$"), 0, 0),
    ("`swap$` does nothing", token(b"swap$", b"skip$"), 0, 0),
    ("`duplicate$` pushes an empty string", token(b"duplicate$", b'""'), 0, 0),
    ("`empty$` leaves the opposite", token(b"empty$", b"empty$ not"), 0, 0),
    ("`missing$` leaves the opposite", token(b"missing$", b"missing$ not"), 0, 0),
    ("EXECUTE has an entry", lambda style: style.replace(b"EXECUTE {g}", b"ITERATE {g}"), 0, 0),
    ("one body is counted too few", lambda style: style, 1, 0),
    ("one literal is counted too few", lambda style: style, 0, 1),
]


def number_that_catches(library, change, bodies, literals, styles, seed):
    """How many styles were made when a broken checker was caught; None if it wasn't."""
    for number in range(styles):
        maker = Maker(seed * 1_000_003 + number)
        style = maker.style()
        said = library.check(change(style))
        if not said or said.verdict != "clean":
            continue
        said = said._replace(bodies=said.bodies - bodies, literals=said.literals - literals)
        if wrong_with(library, style, said, maker, 4, 1 if literals else 0):
            return number + 1
    return None


def self_test(given):
    library, failed = Checker(given.library), 0
    for what, change, bodies, literals in BROKEN:
        number = number_that_catches(library, change, bodies, literals, given.styles, given.seed)
        failed += number is None
        print("%s: %s" % (what, "it isn't caught" if number is None else "caught by style %d" % number), flush=True)
    print("%d passed, %d failed" % (len(BROKEN) - failed, failed))
    return failed


# ---- the command ----


def read_arguments():
    parser = argparse.ArgumentParser()
    parser.add_argument("--styles", type=int, default=2000)
    parser.add_argument("--real", type=int, default=0)
    parser.add_argument("--jobs", type=int, default=10)
    parser.add_argument("--seed", type=int, default=1)
    parser.add_argument("--processes", type=int, default=2)
    parser.add_argument("--folder", type=pathlib.Path, default=TEX_LIVE)
    parser.add_argument("--self-test", action="store_true")
    parser.add_argument("library")
    return parser.parse_args()


def main():
    given = read_arguments()
    if given.self_test:
        return self_test(given)
    real = sorted(map(str, pathlib.Path(given.folder).rglob("*.bst"))) if given.real else []
    passed = failed = 0
    with concurrent.futures.ProcessPoolExecutor(given.processes) as pool:
        small = [(given.library, given.seed * 1_000_003 + number, given.jobs) for number in range(given.styles)]
        others = [(given.library, real[number % len(real)], given.seed * 999_983 + number, given.jobs) for number in range(given.real if real else 0)]
        tried = [*pool.map(try_small, small, chunksize=10), *pool.map(try_real, others, chunksize=5)]
    for style, said, wrong in filter(None, tried):
        if wrong is None:
            passed += 1
            continue
        failed += 1
        print("---- a style that is called clean with %d bodies and %d literals:\n%s\n%s\n%s" % (
            said.bodies, said.literals, style[:5000].decode("latin-1"), wrong[0].decode("latin-1"), wrong[1].decode("latin-1")))
    print("%d of %d styles are called clean" % (passed + failed, len(tried)))
    print("%d passed, %d failed" % (passed, failed))
    return failed or not passed


if __name__ == "__main__":
    raise SystemExit(main() > 0)
