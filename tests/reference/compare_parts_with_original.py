"""Parts of the language in the original and in the reference, over texts made from a seed: the functions on strings and names, and
databases with cross-references.

    python3 compare_parts_with_original.py [--rounds N] [--seed N] [--show N] calls|unbalanced|databases|star

Wants the program `bibtex`. `unbalanced` are calls with braces that don't match, `star` are databases of which all is cited. Prints what
differs; docs/DIFFERENCES.md names the kinds that are known."""

import argparse
import random

from compare_with_original import SIZES, original
from product import Options, run

PIECES = ["{", "}", "{\\", "{\\1}", "{\\2 x}", "a", "B", "c", "D", ":", " ", "~", "-", ",", ".", "!", "1", "{\\ss }", "{\\oe}", "{\\'e}", "\\AE", "\\i ",
          "and", " and ", " AND ", "von", "de ", ": ", "{\\O x}", "{ab}", "{\\relax Xy}", "{\\aa}", "Smith", "Jr", "?"]
FORMATS = ["{ff}", "{f.}", "{vv~}", "{ll}", "{, jj}", "{l{}}", "{f{-}}", "{~}", "x", "~", "{ff~}", "{f.~}", "{vv }", "{ll }", "{v{}}",
           "{(jj)}", "{, f.}"]
KEYS = ["a", "b", "c", "A", "B", "p", "P", "q", "k1"]
VALUES = ["{x  y}", '"x\n y"', 's # " z"', "{ v }", "12", "jan", "t # t # {}", "zz", '""', "{ }", "s"]
ITEMS = ['@string{s = "S" # t}', "@string{t={ T }}", '@string(S = s # " x")', '@preamble{"p" # s # {  q }}', "@comment{x}", "text"]
SHOWING = """ENTRY {title booktitle note}{}{}
FUNCTION {misc}{}
FUNCTION {book}{}
MACRO {jan} {"January  x"}
FUNCTION {show} {"[" swap$ duplicate$ missing$ {pop$ "-" *} {*} if$ "]" * write$}
READ
FUNCTION {f} {cite$ write$ ":" write$ type$ write$ title show note show booktitle show crossref show newline$}
FUNCTION {g} {preamble$ write$ newline$}
EXECUTE {g}
ITERATE {f}
"""


def balanced(text):
    """The text without the braces that match none, and with those closed that are open."""
    depth, done = 0, ""
    for sign in text:
        if sign == "}" and depth == 0:
            continue
        depth += (sign == "{") - (sign == "}")
        done += sign
    return done + "}" * depth


def joined(pick, pieces, counts):
    return "".join(pick(pieces) for _ in range(pick(counts)))


def calls_of(pick, keeps_braces):
    """The bodies of some functions that each give a string."""
    text = joined(pick, PIECES, [1, 2, 4, 7])
    if not keeps_braces:
        text = balanced(text)
    cases = [f'"{text}" "{letter}" change.case$' for letter in "tlu"]
    lengths = [f'"{text}" {name} int.to.str$' for name in ("width$", "text.length$", "num.names$")]
    start, length, number = pick([-3, -1, 0, 1, 2, 5]), pick([0, 1, 2, 5]), pick([0, 1, 2, 3, 8])
    name = pick([-1, 0, 1, 1, 1, 2, 9])
    return [*cases, *lengths, f'"{text}" add.period$', f'"{text}" purify$', f'"{text}" #{number} text.prefix$',
            f'"{text}" #{start} #{length} substring$', f'"{text}" #{name} "{joined(pick, FORMATS, [1, 2, 3])}" format.name$']


def call_job(pick, keeps_braces):
    calls = [call for _ in range(60) for call in calls_of(pick, keeps_braces)]
    style = "ENTRY {title}{}{}\nFUNCTION {misc}{}\nREAD\n"
    for place, call in enumerate(calls):
        style += 'FUNCTION {f%d} {"[" write$ %s write$ "]" write$ newline$}\nEXECUTE {f%d}\n' % (place, call, place)
    return job_of(style, "@misc{k}\n", ["k"]), calls


def entry_of(pick):
    fields = []
    for name in ("title", "note", "booktitle", "crossref", "other"):
        if pick([True, False]):
            value = "{%s}" % pick(KEYS) if name == "crossref" else pick(VALUES)
            fields.append(f"{pick([name, name.upper()])} = {value}")
    opening, closing = pick(["{}", "()"])
    return f"@{pick(['misc', 'book', 'Misc', 'zz'])}{opening}{pick(KEYS)}," + ",\n".join(fields) + " " + closing


def database_job(pick, takes_all):
    items = [pick([entry_of(pick)] * 3 + ITEMS) for _ in range(pick([1, 3, 6, 9]))]
    keys = [pick(KEYS) for _ in range(pick([1, 2, 4]))] + (["*"] if takes_all else [])
    return job_of(SHOWING, "\n".join(items) + "\n", keys), None


def job_of(style, database, keys):
    aux = "".join("\\citation{%s}\n" % key for key in keys) + "\\bibdata{d}\n\\bibstyle{s}\n"
    return {b"job.aux": aux.encode(), b"d.bib": database.encode(), b"s.bst": style.encode()}


def lines_that_differ(files, calls):
    """Pairs of lines, each with the call that gives it, if one does."""
    there = original(files)[0].split(b"\n")
    here = run(files, b"job", Options(**SIZES)).list.split(b"\n")
    if len(there) != len(here):
        return [("the number of lines", there, here)]
    names = calls or [files[b"d.bib"]] * len(here)
    return [(names[place] if place < len(names) else "", left, right)
            for place, (left, right) in enumerate(zip(there, here)) if left != right]


def main():
    parser = argparse.ArgumentParser()
    parser.add_argument("part", choices=["calls", "unbalanced", "databases", "star"])
    parser.add_argument("--rounds", type=int, default=20)
    parser.add_argument("--seed", type=int, default=1)
    parser.add_argument("--show", type=int, default=20)
    arguments = parser.parse_args()
    pick = random.Random(arguments.seed).choice
    lines = differ = 0
    for _ in range(arguments.rounds):
        if arguments.part in ("calls", "unbalanced"):
            files, calls = call_job(pick, arguments.part == "unbalanced")
        else:
            files, calls = database_job(pick, arguments.part == "star")
        found = lines_that_differ(files, calls)
        lines += len(calls or [None])
        for what, left, right in found:
            differ += 1
            if differ <= arguments.show:
                print(what, "\n  original: ", left, "\n  reference:", right)
    print(f"{differ} differ of {lines} {'calls' if calls else 'databases'}")


if __name__ == "__main__":
    main()
