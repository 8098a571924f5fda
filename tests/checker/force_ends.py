"""Styles from a seed that are said to end, run by the library with their bounds as budgets: no run may be stopped, or take more steps.

    python3 force_ends.py [--styles N] [--real N] [--jobs N] [--seed N] [--processes N] [--folder FOLDER] LIBRARY.so

LIBRARY.so is the library for C (library/out/libbtx.so.1). Half of the styles are made from a seed, with loops that count a variable down or up or a literal down, make a text shorter, in a variable or on the stack, or walk along it, and half of these
have a token changed. With --real N, N are of a folder (TeX Live's, if it is there), of which most have a token changed. Of each the bound is asked for with the number of bytes that the job's variables keep: 0
to 20,000, where small numbers make it tight. A bound above MOST_STEPS is no budget: such a run gets MOST_STEPS, and may be stopped. The last line is 'N passed, M failed', of the styles that are
said to end and of which a run had its bound as budget."""

import argparse
import concurrent.futures
import pathlib

from library import Checker
from make_styles import HEAD, Maker

TEX_LIVE = "/usr/share/texlive/texmf-dist/bibtex/bst"
MOST_STEPS = 5_000_000
# The end of a run that was stopped, by the numbers of library/btx.h.
STOPPED = 1
KEPT = [1, 2, 3, 10, 100, 20_000]
# How many entries a job's list has.
ENTRIES = 3
# What is added to a place in a text.
STRIDES = [b"#1", b"#2", b"i", b"j", b"#2147483647"]
# Tests that leave an integer on the stack and are true only where it is above 0, or nearly so.
ASKS = [b"duplicate$ #0 >", b"duplicate$ duplicate$ s swap$ #1 substring$ \"b\" = not and", b"duplicate$ duplicate$ i > not and", b"duplicate$ #-1 >", b"#1"]
COUNTERS = [b"#3", b"#0", b"#-2", b"s num.names$", b"u num.names$", b"i", b"j #1 -", b"i #2 -"]


class LoopMaker(Maker):
    """Styles with loops that end, or nearly so."""

    def style(self):
        return self.cutting_style() if self.random.random() < 0.15 else super().style()

    def cutting_style(self):
        """A style whose loop puts the rest of a text in its place, which a function leaves on top that cuts the text below a number."""
        v, t, given = self.pick([b"i", b"j"]), self.pick([b"s", b"u"]), self.pick([b"s", b"u"])
        more, last = self.pick([b"", b"", b"#1 + ", b"#2 - "]), self.pick([b"", b"", b"#2147483647 + ", b"i + "])
        cut = (b"FUNCTION {cut} {'" + v + b" := duplicate$ " + v + b" #1 + #1 substring$ \"\" = {\"\"} {'" + t + b" := " + v + b" " + self.pick([b"", b"#3 + ", b"#-1 + "])
               + b"duplicate$ " + self.pick([b"#2", b"#2", b"#2", b"#1"]) + b" < {pop$ " + t + b" \"\"} {" + more + b"duplicate$ " + t
               + b" swap$ #1 swap$ substring$ swap$ " + last + t + b" swap$ global.max$ substring$} if$} if$}\n")
        loop = (b"FUNCTION {misc} {title empty$ {\"\"} 'title if$ {duplicate$ \"\" = not} {" + self.pick([b"#1", b"#3", b"i"]) + b" cut '" + given + b" := write$ "
                + self.pick([b"", b"newline$ ", b"u write$ ", b"j #1 + 'j := "]) + given + b"} while$ pop$}\n")
        text = HEAD + b"FUNCTION {not} {{#0} {#1} if$}\n" + cut + loop + b"READ\nITERATE {call.type$}\n"
        return self.changed(text, 8) if self.random.random() < 0.5 else text

    def statement(self, depth=0):
        if depth > 2 or self.random.random() < 0.5:
            return super().statement(depth)
        v, t = self.pick([b"i", b"j"]), self.pick([b"s", b"u"])
        size = b"j" if v == b"i" else b"i"
        part = t + b" " + v + b" " + size + b" substring$ "
        stride, other = (v + b" " + self.pick(STRIDES) + b" + '" + v + b" :=" for _ in range(2))
        below = self.pick([v + b" " + size + b" <", size + b" " + v + b" >", v + b" #7 <", t + b" text.length$ " + v + b" >", v + b" " + t + b" text.length$ < " + size + b" " + v + b" > and"])
        rest = b"#2 global.max$ substring$ '" + t + b" :="
        inside = self.body(depth + 1)
        return self.pick([
            self.pick(COUNTERS) + b" '" + v + b" := {" + v + b" #0 >} {" + inside + b" " + v + b" #1 - '" + v + b" :=} while$",
            b"{" + t + b" empty$ not} {" + inside + b" " + t + b" " + rest + b"} while$",
            b"{" + t + b" #1 #1 substring$ \"A\" =} {" + t + b" " + rest + b" " + inside + b"} while$",
            b"#0 '" + v + b" := {" + v + b" not " + t + b" empty$ not and} {" + t + b" #1 #1 substring$ \"b\" = {#1 '" + v + b" :=} {" + t + b" " + rest + b"} if$} while$",
            self.pick([b"#1", b"#-9", b"#2147483647"]) + b" '" + size + b" := #1 '" + v + b" := {" + part + b"\"\" = not} {" + inside + b" " + stride + b"} while$",
            b"{" + part + b"\"\" = not} {" + part + b"\"A\" = {u write$ " + stride + b"} {" + other + b"} if$} while$",
            self.pick([b"#0", b"#-9", b"j"]) + b" '" + v + b" := {" + below + b"} {" + self.pick([b"", inside]) + b" " + v + b" #1 + '" + v + b" := " + self.pick([b"", inside]) + b"} while$",
            self.pick(COUNTERS) + b" {" + self.pick(ASKS) + b"} {" + self.pick([b"", b"swap$ \"x\" * swap$ ", b"swap$ " + inside + b" swap$ "]) + b"#1 -} while$ pop$",
            b"{" + t + b" #1 #1 substring$ \"\" = not} {" + inside + b" " + t + b" " + rest + b"} while$",
            b"title empty$ {\"\"} 'title if$ '" + t + b" :=",
        ])


def wrong_with(library, style, maker, jobs):
    """How many runs had the bound as budget, and what is wrong in one of them, or None."""
    tried = 0
    for _ in range(jobs):
        kept = maker.pick(KEPT)
        said = library.check_ends(style, kept)
        if not said or not said.ends:
            return tried, None
        bound = said.once + ENTRIES * said.each
        files, options = maker.job(style, said.types, min(bound, MOST_STEPS))
        ran = library.run(files, b"job", options._replace(global_max=kept))
        if bound <= MOST_STEPS:
            tried += 1
            if ran.end == STOPPED or ran.steps > bound:
                return tried, (files[b"d.bib"], b"kept %d: stopped after %d steps of %d" % (kept, ran.steps, bound))
    return tried, None


def try_small(given):
    path, seed, jobs = given
    library, maker = Checker(path), LoopMaker(seed)
    style = maker.style()
    return style, *wrong_with(library, style, maker, jobs)


def try_real(given):
    path, name, seed, jobs = given
    library, maker = Checker(path), LoopMaker(seed)
    style = pathlib.Path(name).read_bytes()
    style = style if seed % 7 == 0 else maker.changed(style, 30)
    return style, *wrong_with(library, style, maker, jobs)


def read_arguments():
    parser = argparse.ArgumentParser()
    parser.add_argument("--styles", type=int, default=2000)
    parser.add_argument("--real", type=int, default=0)
    parser.add_argument("--jobs", type=int, default=6)
    parser.add_argument("--seed", type=int, default=1)
    parser.add_argument("--processes", type=int, default=2)
    parser.add_argument("--folder", type=pathlib.Path, default=TEX_LIVE)
    parser.add_argument("library")
    return parser.parse_args()


def main():
    given = read_arguments()
    real = sorted(map(str, pathlib.Path(given.folder).rglob("*.bst"))) if given.real else []
    small = [(given.library, given.seed * 1_000_003 + number, given.jobs) for number in range(given.styles)]
    others = [(given.library, real[number % len(real)], given.seed * 999_983 + number, given.jobs) for number in range(given.real if real else 0)]
    with concurrent.futures.ProcessPoolExecutor(given.processes) as pool:
        tried = [*pool.map(try_small, small, chunksize=10), *pool.map(try_real, others, chunksize=5)]
    failed = 0
    for style, _, wrong in tried:
        if wrong:
            failed += 1
            print("---- a style that is said to end:\n%s\n%s\n%s" % (style[:5000].decode("latin-1"), wrong[0].decode("latin-1"), wrong[1].decode("latin-1")))
    with_bounds = sum(runs > 0 for _, runs, _ in tried)
    print("%d of %d styles are said to end and were run with their bounds, in %d runs" % (with_bounds, len(tried), sum(runs for _, runs, _ in tried)))
    print("%d passed, %d failed" % (with_bounds - failed, failed))
    return failed or not with_bounds


if __name__ == "__main__":
    raise SystemExit(main() > 0)
