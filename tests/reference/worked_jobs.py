"""Worked jobs: small jobs with what they give, as a table. Running this file compares each with the reference.

    python3 worked_jobs.py

The last line is 'N passed, M failed', of comparisons with what a table says. What a table doesn't say isn't counted, and where the reference is
compared with itself only what differs is.
"""

from dataclasses import dataclass, field
from typing import Optional

import names
import texts
from breaking import sure, wrapped
from databases import read_databases
from aux_files import read_aux
from product import Options, run
from styles import is_direct, read_style

AUX = b"\\citation{k}\n\\bibdata{d}\n\\bibstyle{s}\n"
DATABASE = b"@misc{k, title = {T}}"
DECLARED = b"ENTRY {title}{}{} FUNCTION {misc}{} READ "
FOUND = [b"The top-level auxiliary file: job.aux", b"The style file: s.bst", b"Database file #1: d.bib"]


@dataclass
class Job:
    """What isn't given isn't compared, but for `messages`: the log's lines between those of the three files and the
    last one. `text` is the style behind its READ; `declared` is what stands up to it."""
    name: str
    text: bytes = b""
    aux: bytes = AUX
    database: bytes = DATABASE
    declared: bytes = DECLARED
    others: dict = field(default_factory=dict)
    options: dict = field(default_factory=dict)
    bbl: Optional[bytes] = None
    messages: Optional[list] = field(default_factory=list)
    log: Optional[list] = None      # the whole log; `messages` isn't compared then
    begins: Optional[list] = None   # how the log begins; `messages` isn't compared then
    has: list = field(default_factory=list)
    last: Optional[bytes] = None
    end: str = "finished"
    status: int = 0
    steps: Optional[int] = None
    deepest: Optional[int] = None


def value(name, body, result, **more):
    """A function that writes one value on a line, run once."""
    return Job(name, b"FUNCTION {f} {" + body + b" write$ newline$} EXECUTE {f}", bbl=result + b"\n", **more)


def titled(name, title, body, result, **more):
    """The same with a title, run for the entry."""
    return Job(name, b"FUNCTION {f} {" + body + b" write$ newline$} ITERATE {f}",
               database=b"@misc{k, title = " + title + b"}", bbl=result + b"\n", **more)


def written(name, body, result, **more):
    return Job(name, b"FUNCTION {f} {" + body + b"} EXECUTE {f}", bbl=result, **more)


def formatted(name, authors, format_text, result, **more):
    """A function that writes the first of some authors as a format says, run once."""
    return value(name, b'"%s" #1 "%s" format.name$' % (authors, format_text), result, **more)


ONE_A = b'FUNCTION {f} {"a" write$ newline$} EXECUTE {f}'
ABC = b'FUNCTION {f} {"abc" write$ newline$} EXECUTE {f}'
TWO_STEPS = b"FUNCTION {f} {#1 pop$} EXECUTE {f}"
ENDLESS = b"FUNCTION {f} {{#1} {skip$} while$} EXECUTE {f}"
NESTED_LOOPS = (b'INTEGERS {i j} FUNCTION {f} {#2 \'i := {i #0 >} {#2 \'j := {j #0 >} {"x" write$ j #1 - \'j :=} '
                b'while$ i #1 - \'i :=} while$ newline$} EXECUTE {f}')
SHARED = b'ENTRY {title}{count}{label} FUNCTION {misc} {"x" write$} READ '
IN_ORDER = b'FUNCTION {g} {"y" write$ newline$} EXECUTE {g} EXECUTE {misc} EXECUTE {g}'
CROSSING = (b"ENTRY {title booktitle}{}{} FUNCTION {misc}{} FUNCTION {book}{} READ ")
SHOWING = (b'FUNCTION {f} {cite$ write$ ":" write$ crossref missing$ int.to.str$ write$ ":" write$ booktitle empty$ '
           b'{"-"} {booktitle} if$ write$ newline$} ITERATE {f}')
CHILDREN = (b"@misc{c1, title = {One}, crossref = {p}}\n@misc{c2, title = {Two}, crossref = {p}}\n"
            b"@book{P, booktitle = {Vol}}\n")
THREE = b"@misc{a}\n@misc{b}\n@misc{C}\n"
SORTED_BY_KEY = b"FUNCTION {f} {cite$ 'sort.key$ :=} FUNCTION {g} {cite$ write$ newline$} ITERATE {f} SORT ITERATE {g}"
DEEP_LOOPS = (b"INTEGERS {n} FUNCTION {t} {n #1 + 'n := n #4096 < {duplicate$ 'while$ #1} {#0} if$} "
              b"FUNCTION {f} {'t duplicate$ 'while$ while$ pop$} EXECUTE {f}")
ENDLESS_LOOPS = b"FUNCTION {t} {duplicate$ 'while$ #1} FUNCTION {f} {'t duplicate$ 'while$ while$} EXECUTE {f}"


def citing(keys):
    return b"\\citation{" + keys + b"}\n\\bibdata{d}\n\\bibstyle{s}\n"


def doublings(end):
    return (b"FUNCTION {d} {duplicate$ *} FUNCTION {f} {\"" + b"a" * 15_625 + b"\" d d d d d d " + end
            + b"} EXECUTE {f}")


def pushes(number):
    return b"FUNCTION {f} {" + b"#7 " * number + b"stack$} EXECUTE {f}"


def chained(number):
    """`number` functions, each of which but the first calls the one before."""
    text = b"FUNCTION {f1} {} "
    for place in range(2, number + 1):
        text += b"FUNCTION {f%d} {f%d} " % (place, place - 1)
    return text


def chain(number):
    return chained(number) + b"EXECUTE {f%d}" % number


# Steps of which the machine takes several at once: a body's pieces, how many steps each takes, and the line that it writes.
AT_ONCE = [
    (b"#1 'i := i {\"a\" write$ newline$} {\"b\" write$ newline$} if$", 11, b"a\n"),
    (b"\"t\" 's := s write$ newline$", 6, b"t\n"),
    (b"i #1 > 'skip$ {\"c\" write$ newline$} if$", 10, b"c\n"),
    (b"\"d\" #1 'write$ 'pop$ if$ newline$", 7, b"d\n"),
    (b"\"k\" 'sort.key$ := \"e\" write$ newline$", 6, b"e\n"),
    (b"{i #0 >} {i #1 - 'i := \"w\" write$ newline$} while$", 3 + 4 + 9 + 4, b"w\n"),
]


def stopped_at_once(budget):
    """These pieces in one function for an entry, with a budget: a line is written where all steps of its piece are taken."""
    text = (b"INTEGERS {i} STRINGS {s} FUNCTION {f} {" + b" ".join(piece for piece, steps, line in AT_ONCE)
            + b"} ITERATE {f}")
    taken, lines = 1, b""
    for piece, steps, line in AT_ONCE:
        taken += steps
        # (the loop's line is written before its last test)
        lines += line if taken - (4 if b"while$" in piece else 0) <= budget else b""
    end = {} if budget >= taken else {"end": "stopped", "status": 4}
    return Job("several steps at once, a budget of %d" % budget, text, options={"budget": budget}, bbl=lines,
               steps=min(budget, taken), **end)


def error(text, line, file=b"job.aux"):
    return b"Error--%s--line %d of file %s" % (text, line, file)


JOBS = [
    # ---- steps and ends ----
    Job("a line", ONE_A, bbl=b"a\n", steps=4, log=FOUND + [b"Ended: finished, warnings 0, errors 0, steps 4"]),
    Job("a budget that suffices", TWO_STEPS, options={"budget": 3}, steps=3),
    Job("a budget of one step less", TWO_STEPS, options={"budget": 2}, end="stopped", steps=2, status=4),
    Job("no budget", TWO_STEPS, options={"budget": 0}, end="stopped", steps=0, status=4),
    Job("an endless loop is stopped", ENDLESS, options={"budget": 100}, end="stopped", steps=100, deepest=2, bbl=b"",
        status=4),
    Job("recursion through the stack", b"FUNCTION {h} {duplicate$ #1 swap$ 'skip$ if$} FUNCTION {g} {'h h} EXECUTE {g}",
        end="limit calls", deepest=4096, steps=24_573, status=3),
    Job("a pending line at a stop", ABC, options={"budget": 3}, bbl=b"", end="stopped", status=4),
    Job("a line that the budget just covers", ABC, options={"budget": 4}, bbl=b"abc\n"),
    Job("a loop fills the stack", b"FUNCTION {f} {{#1} {#7} while$} EXECUTE {f}", end="limit literals", steps=4006,
        deepest=2, status=3),
    Job("loops in loops", NESTED_LOOPS, bbl=b"xxxx\n", steps=100, deepest=3),
    Job("loops in loops, budget just enough", NESTED_LOOPS, options={"budget": 100}, bbl=b"xxxx\n", steps=100),
    Job("loops in loops, one step less", NESTED_LOOPS, options={"budget": 99}, bbl=b"", end="stopped", status=4),
    Job("a loop whose body is a loop's function",
        b"INTEGERS {i} FUNCTION {f} {{i #1 + 'i := {#0} 'skip$ i #3 <} 'while$ while$ pop$ pop$ \"x\" write$ newline$} "
        b"EXECUTE {f}", bbl=b"x\n", steps=48, deepest=2),
    *(stopped_at_once(budget) for budget in range(64)),
    Job("functions one after another share the line and the budget", IN_ORDER, declared=SHARED, options={"budget": 11}, bbl=b"y\nxy\n", steps=11,
        deepest=1),
    Job("the same, one step less", IN_ORDER, declared=SHARED, options={"budget": 10}, bbl=b"y\n", end="stopped", steps=10, status=4),
    Job("an empty body takes its step", b"FUNCTION {f} {} EXECUTE {f}", options={"budget": 1}, bbl=b"", steps=1, deepest=1),
    Job("a line that ended is written before the budget stops the next", b'FUNCTION {f} {newline$ newline$ "a" write$} EXECUTE {f}',
        options={"budget": 4}, bbl=b"\n\n", end="stopped", steps=4, status=4),
    Job("the type's function by command", b"ITERATE {call.type$}", steps=2, deepest=1),

    # ---- lines ----
    value("the last white goes", b'"' + b"a" * 79 + b' b"', b"a" * 79 + b"\n  b"),
    value("white past the length goes whole", b'"' + b"a" * 80 + b'  b"', b"a" * 80 + b"\n  b"),
    value("white past the length, cut between two calls", b'"' + b"a" * 80 + b' " write$ " b"', b"a" * 80 + b"\n  b"),
    written("an empty line", b"newline$", b"\n"),
    written("a line of white", b'" " write$ newline$', b""),
    value("of white inside one byte goes", b'"' + b"a" * 79 + b'  b"', b"a" * 79 + b"\n   b"),
    value("a rest that can't be broken", b'"aaa ' + b"b" * 80 + b'"', b"aaa\n  " + b"b" * 80),
    value("the same, stopped before the line's end", b'"aaa ' + b"b" * 80 + b'"', b"aaa\n  " + b"b" * 80,
          options={"budget": 4}),
    Job("what is sure of it at a stop", b'FUNCTION {f} {"aaa ' + b"b" * 80 + b'" write$ newline$} EXECUTE {f}',
        options={"budget": 3}, bbl=b"aaa\n  " + b"b" * 80, end="stopped", status=4),
    value("the empty literal", b'""', b""),
    written("eighty spaces", b'"' + b" " * 80 + b'" write$ newline$', b""),
    value("line length 20: inside", b'"' + b"a" * 20 + b' b"', b"a" * 20 + b"\n  b", options={"line": 20}),
    value("line length 20: past", b'"' + b"a" * 21 + b'  b"', b"a" * 21 + b"\n  b", options={"line": 20}),
    value("line length 20: words", b'"aaa bbb ccc ddd eee fff ggg"', b"aaa bbb ccc ddd eee\n  fff ggg",
          options={"line": 20}),

    # ---- text ----
    value("a piece from the right", b'"abcdef" #-2 #3 substring$', b"cde"),
    value("a longer one", b'"abcdef" #-2 #10 substring$', b"abcde"),
    value("a piece from nowhere", b'"abcdef" #0 #3 substring$', b""),
    titled("a prefix", b'{{\\"O}zg{ab}c}', b"title #4 text.prefix$", b'{\\"O}zg{a}'),
    titled("a length", b'{{\\"O}zg{ab}c}', b"title text.length$ int.to.str$", b"6"),
    value("title case", b'"The {TeX}book: A {\\AE}ON" "t" change.case$', b"The {TeX}book: A {\\ae}on"),
    value("upper case", b'"{\\ss}a" "u" change.case$', b"{SS}A"),
    titled("a purified title", b'{{\\"o}sterreich--{\\oe}uvre~1}', b"title purify$", b"osterreich  oeuvre 1"),
    value("width of letters", b'"AB" width$ int.to.str$', b"1458"),
    value("width of braces", b'"{B}" width$ int.to.str$', b"1708"),
    value("width of a foreign letter", b'"{\\oe}" width$ int.to.str$', b"778"),
    value("an overflow", b"#2147483647 #1 + int.to.str$", b"0", status=2,
          messages=[b"Error--Integer overflow while executing +"]),

    # ---- names ----
    formatted("a name of many parts",
              b"Charles Louis Xavier Joseph de la Vall{\\'e}e Poussin", b"{vv~}{ll}{, jj}{, f}?", b"de~la Vall{\\'e}e~Poussin, C. L. X.~J?"),
    value("three names", b'"A and {B and C} AND D" num.names$ int.to.str$', b"3"),
    value("no name", b'"" num.names$ int.to.str$', b"0"),
    formatted("a hyphen", b"Jean-Paul Sartre", b"{f.~}{ll}", b"J.-P. Sartre"),
    formatted("an initial", b"D. Knuth", b"{f.~}{ll}", b"D.~Knuth"),
    formatted("a Jr", b"Smith, Jr, John", b"{ff }{vv }{ll}{, jj}", b"John Smith, Jr"),
    titled("the last of a thousand names", b"{" + b" and ".join([b"Ab Cd"] * 1000) + b"}",
           b'title #1000 "{f.~}{ll}" format.name$', b"A.~Cd"),

    # ---- databases and cross-references ----
    Job("a comment isn't skipped, a value is squeezed whole",
        b'FUNCTION {f} {cite$ write$ "=" write$ title write$ newline$} ITERATE {f}', aux=citing(b"K"),
        database=b'@comment{@misc{k, title = "a " # {  b }}}', bbl=b"K=a b\n", steps=8),
    Job("a parent named once leaves", SHOWING, aux=citing(b"c1"), database=CHILDREN, declared=CROSSING,
        bbl=b"c1:1:Vol\n", steps=20),
    Job("a parent named twice stays", SHOWING, aux=citing(b"c1,c2"), database=CHILDREN, declared=CROSSING,
        bbl=b"c1:0:Vol\nc2:0:Vol\nP:1:Vol\n", steps=60),
    Job("a key without an entry", aux=citing(b"nope"), bbl=b"",
        messages=[b'Warning--I didn\'t find a database entry for "nope"'],
        last=b"Ended: finished, warnings 1, errors 0, steps 0"),
    Job("a database that breaks off", b"FUNCTION {f} {title write$ newline$} ITERATE {f}",
        database=b'@misc{k, title = {A}, note = "cu', bbl=b"A\n", steps=4, status=2,
        messages=[error(b"Illegal end of database file", 1, b"d.bib")]),

    # ---- the stack ----
    Job("literals are left", b'FUNCTION {f} {#7 "x"} EXECUTE {f}', steps=3, status=2,
        messages=[b"Error--The literal stack isn't empty while executing EXECUTE", b'"x"', b"7"]),
    Job("nothing to pop", b"FUNCTION {f} {+ pop$} EXECUTE {f}", steps=3, status=2,
        messages=[b"Error--You can't pop an empty literal stack while executing +"] * 2),
    Job("no entry", b"FUNCTION {f} {cite$} EXECUTE {f}", steps=2, status=2,
        messages=[b"Error--You can't mess with entries here while executing cite$"]),
    Job("no function for a branch", b"FUNCTION {f} {#1 'skip$ \"x\" if$} EXECUTE {f}", steps=5, status=2,
        messages=[b'Error--"x" is not a function while executing if$']),

    # ---- .aux files ----
    Job("a key in another case", aux=b"\\citation{k,K}\n\\bibdata{d}\n\\bibstyle{s}\n", status=2,
        log=[FOUND[0], error(b"Case mismatch error between cite keys k and K", 1), *FOUND[1:],
             b"Ended: finished, warnings 0, errors 1, steps 0"]),
    Job("white in an argument", b"ITERATE {skip$}", aux=citing(b"k, j"), status=2, steps=1,
        log=[FOUND[0], error(b"White space in argument", 1), *FOUND[1:],
             b"Ended: finished, warnings 0, errors 1, steps 1"]),
    Job("an argument without its end", aux=b"\\citation{k\n\\bibdata{d}\n\\bibstyle{s}\n", status=2,
        log=[FOUND[0], error(b'No "}"', 1), b"Error--I found no \\citation commands", *FOUND[1:],
             b"Ended: finished, warnings 0, errors 2, steps 0"]),
    Job("no style: the databases aren't looked for", aux=b"\\citation{k}\n\\bibdata{e}\n", status=2,
        log=[FOUND[0], b"Error--I found no \\bibstyle command", b"Ended: finished, warnings 0, errors 1, steps 0"]),
    Job("messages of each phase", aux=b"\\citation{nope}\n\\bibdata{d,gone}\n\\bibstyle{s}\n", status=2,
        database=b"@misc{k, title = {T}, title = {U}}", declared=DECLARED.replace(b"READ", b"nonsense\n\nREAD"),
        messages=[b"Error--I couldn't open database file gone.bib", error(b"nonsense isn't a command", 1, b"s.bst"),
                  b'Warning--I didn\'t find a database entry for "nope"'],
        last=b"Ended: finished, warnings 1, errors 2, steps 0"),
    Job("an include, and the top file again", aux=b"\\@input{a.aux}\n" + AUX,
        others={b"a.aux": b"\\citation{k}\n\\@input{job.aux}\n"}, status=2,
        begins=[FOUND[0], b"A level-1 auxiliary file: a.aux",
                error(b"Already encountered file job.aux", 2, b"a.aux"), FOUND[1]]),
    Job("twenty files open", aux=b"\\@input{f1.aux}\n" + AUX, status=2, begins=[FOUND[0]],
        others={b"f%d.aux" % n: b"\\@input{f%d.aux}\n" % (n + 1) for n in range(1, 20)},
        has=[b"A level-19 auxiliary file: f19.aux", error(b"I couldn't open auxiliary file f20.aux", 1, b"f19.aux")]),
    Job("the keys of twenty files that end with their inner files", b"FUNCTION {f} {cite$ write$ newline$} ITERATE {f}", status=2,
        aux=b"\\@input{f1.aux}\n\\citation{k0}\n\\bibdata{d}\n\\bibstyle{s}\n", database=b"".join(b"@misc{k%d}" % n for n in range(20)),
        others={b"f%d.aux" % n: b"\\@input{f%d.aux}\n\\citation{k%d}" % (n + 1, n) for n in range(1, 20)}, begins=[FOUND[0]],
        bbl=b"".join(b"k%d\n" % n for n in range(19, -1, -1))),
    Job("a file too many open", aux=b"\\@input{f1.aux}\n" + AUX, end="limit files", status=3, begins=[FOUND[0]],
        others={b"f%d.aux" % n: b"\\@input{f%d.aux}\n" % (n + 1) for n in range(1, 21)},
        has=[b"A level-19 auxiliary file: f19.aux"], last=b"Ended: limit files, warnings 0, errors 0, steps 0"),

    # ---- order ----
    Job("sorted by bytes", SORTED_BY_KEY, aux=citing(b"b,a,C"), database=THREE, bbl=b"C\na\nb\n", steps=24),
    Job("from the last to the first", b"FUNCTION {g} {cite$ write$ newline$} REVERSE {g}", aux=citing(b"b,a,C"),
        database=THREE, bbl=b"C\na\nb\n", steps=12),
    Job("three thousand entries", SORTED_BY_KEY, aux=citing(b"*"),
        database=b"\n".join(b"@misc{k%04d}" % n for n in range(3000, 0, -1)),
        bbl=b"".join(b"k%04d\n" % n for n in range(1, 3001)), steps=24_000),

    # ---- styles ----
    Job("an unknown function", b'FUNCTION {f} {nosuch "a" write$ newline$} EXECUTE {f}', bbl=b"a\n", steps=4, status=2,
        messages=[error(b"nosuch is an unknown function", 1, b"s.bst")]),
    Job("a style that breaks off", b'FUNCTION {f} {"a"', status=2,
        messages=[error(b"Illegal end of style file", 1, b"s.bst")]),
    Job("a function in its own body", b"FUNCTION {f} {f} EXECUTE {f}", steps=1, status=2,
        messages=[error(b"f is an unknown function", 1, b"s.bst")]),
    Job("an integer of more than 32 bits", b'FUNCTION {f} {#2147483648 "a" write$ newline$} EXECUTE {f}', bbl=b"a\n",
        steps=4, status=2, messages=[error(b"Illegal integer", 1, b"s.bst")]),
    Job("a second READ", b"READ EXECUTE {skip$}\nEXECUTE {skip$}\n \nEXECUTE {skip$}", steps=1, status=2,
        messages=[error(b"Illegal, another READ command", 1, b"s.bst")]),

    # ---- limits ----
    Job("a thousand literals", pushes(1000), steps=1002, messages=[b"7"] * 1000),
    Job("one literal more", pushes(1001), end="limit literals", steps=1002, status=3),
    Job("a string of a million bytes", doublings(b"pop$"), steps=21, deepest=2),
    Job("one byte more", doublings(b'"b" * pop$'), end="limit string", steps=22, status=3),
    Job("4,096 loops", DEEP_LOOPS, steps=126_965, deepest=3),
    Job("one loop more", ENDLESS_LOOPS, end="limit loops", steps=20_485, deepest=2, status=3),
    Job("4,096 bodies", chain(4096), steps=4096, deepest=4096),
    Job("one body more", chain(4097), end="limit calls", steps=4097, deepest=4096, status=3),
    Job("a value of a million bytes", b"FUNCTION {f} {title substring.one write$} ITERATE {f}",
        declared=DECLARED + b"FUNCTION {substring.one} {#1 #1 substring$} ",
        database=b"@misc{k, title = {" + b"a" * 1_000_000 + b"}}", bbl=b"a\n"),
    Job("a value of one byte more", b"ITERATE {skip$}", database=b"@misc{k, title = {" + b"a" * 1_000_001 + b"}}",
        end="limit string", status=3, steps=0),
    Job("the same where it isn't cited", b"ITERATE {skip$}",
        database=b"@misc{j, title = {" + b"a" * 1_000_001 + b"}} @misc{k}", steps=1),

    # ---- options ----
    written("a string cut to three bytes", b'"abcd" \'x := x write$ newline$', b"abc\n", declared=DECLARED
            + b"STRINGS {x} ", options={"global_max": 3}, steps=7,
            messages=[b"Warning--string of 4 bytes cut to 3 while executing :="]),
    value("the number of the option", b"global.max$ int.to.str$", b"3", options={"global_max": 3}),
]

NO_TOP_FILE = b"Ended: no top file, warnings 0, errors 0, steps 0\n"

# ---- calls ----

STRING_CALLS = [
    ("add_period", (b"a.}",), b"a.}"), ("add_period", (b"}",), b"}."), ("add_period", (b"a)",), b"a)."), ("add_period", (b"a.]",), b"a.]."),
    ("text_length", (b"a{b}",), 2), ("width", (b"",), 0), ("width", (b"{\\'e}",), 444),
    ("substring", (b"abc", 4, 1), b""),
    ("change_case", (b"A:B", b"t"), (b"A:b", True)), ("change_case", (b"A: {\\'E} B", b"t"), (b"A: {\\'E} b", True)),
    ("width", (b"a{\\",), 500), ("purify", (b"{\\'e-~o}",), b"eo"), ("change_case", (b"Ab", b"tt"), (b"Ab", False)),
    ("change_case", (b"Ab", b"x"), (b"Ab", False)), ("purify", (b"{\\'e}-{\\relax x}",), b"e x"),
    ("text_length", (b"\xc3\x89a", True), 2), ("text_length", (b"\xc3\x89a",), 3),
    ("text_prefix", (b"\xc3\x89a", 1, True), b"\xc3\x89"), ("text_prefix", (b"\xc3\x89a", 1), b"\xc3"),
    ("text_length", (b"\xc0\xaf", True), 2), ("text_length", (b"\xc0\xaf",), 2),
    ("text_length", (b"\xed\xa0\x80", True), 3), ("text_length", (b"\xed\xa0\x80",), 3),
]

NAME_CALLS = [
    (b"jean de la fontaine", 1, b"{f. }{vv }{ll}", False, b"jean de~la fontaine", ()),
    (b"Knuth, Donald,", 1, b"{ll}", False, b"Knuth", ("x11",)),
    (b"{{\\'E}x} Y", 1, b"{f.}", False, b"{\\'E}.", ()),
    (b"A {\\'\\i}b C", 1, b"{vv}", False, b"{\\'\\i}b", ()),
    (b"A", 2, b"{ll}", False, b"", ("x10",)),
    (b"A", 1, b"{lll}", False, b"", ("x13",)),
    (b"Cartan, \xc3\x89lie", 1, b"{f. }{ll}", True, b"\xc3\x89. Cartan", ()),
    (b"Cartan, \xc3\x89lie", 1, b"{f. }{ll}", False, b"\xc3. Cartan", ()),
    (b"\xc3\x89lie Cartan", 1, b"{f. }{ll}", True, b"Cartan", ()),
    (b"\xc3\x89lie Cartan", 1, b"{f. }{ll}", False, b"Cartan", ()),
]

# ---- libraries: keys cited, least references, database, the list with some fields, the messages ----

MISSING = None
LIBRARIES = [
    ("a string in its own definition and one without", DECLARED, b"k", 2,
     b'@string{s = "x" # s}\n@misc{k, title = s # " y " # zz # {  z}}', [(b"k", {b"title": b"x y z"})],
     [b'string name "s" is used in its own definition--line 1 of file d.bib',
      b'string name "zz" is undefined--line 2 of file d.bib']),
    ("a brace too many in quotes", DECLARED, b"k", 2, b'@misc(k, title = "a}b")', [(b"k", {b"title": MISSING})],
     [b"Unbalanced braces--line 1 of file d.bib"]),
    ("an entry twice", DECLARED, b"k", 2, b"@misc{k, title={A}}\n@misc{K, title={B}}", [(b"k", {b"title": b"A"})],
     [b"Repeated entry--line 2 of file d.bib"]),
    ("a field twice", DECLARED, b"k", 2, b"@misc{k, title={A}, TITLE={B},}", [(b"k", {b"title": b"A"})],
     [b'I\'m ignoring k\'s extra "TITLE" field--line 1 of file d.bib']),
    ("what isn't cited isn't logged", DECLARED, b"k", 2, b"@misc{j, title = zz} @misc{k}",
     [(b"k", {b"title": MISSING})], []),
    ("a chain of parents, two references wanted", CROSSING, b"c", 2,
     b"@misc{c, crossref={p}}\n@misc{p, title={P}, crossref={g}}\n@book{g, booktitle={G}}",
     [(b"c", {b"title": b"P", b"crossref": MISSING, b"booktitle": MISSING})],
     [b'you\'ve nested cross references--entry "c" refers to entry "p"']),
    ("a chain of parents, one reference wanted", CROSSING, b"c", 1,
     b"@misc{c, crossref={p}}\n@misc{p, title={P}, crossref={g}}\n@book{g, booktitle={G}}",
     [(b"c", {b"crossref": b"p", b"booktitle": MISSING}), (b"p", {b"crossref": b"g", b"booktitle": b"G"}),
      (b"g", {b"crossref": MISSING, b"booktitle": b"G"})],
     [b'you\'ve nested cross references--entry "c" refers to entry "p"']),
    ("a parent before its child", CROSSING, b"c", 2, b"@book{p, booktitle={V}}\n@misc{c, crossref={p}}",
     [(b"c", {b"crossref": MISSING, b"booktitle": MISSING})],
     [b'A bad cross reference--entry "c" refers to entry "p", which doesn\'t exist',
      b'I didn\'t find a database entry for "p"']),
    ("all entries", CROSSING, b"b,*,c,e", 2, b"@misc{a}\n@misc{b}\n@misc{c}\n@misc{d}",
     [(b"b", {}), (b"a", {}), (b"c", {}), (b"d", {})], [b'I didn\'t find a database entry for "e"']),
]

# ---- styles: the text after READ, whether it is direct, how many functions it has ----

STYLES = [
    (ONE_A, True, 2), (ENDLESS, True, 4), (b"FUNCTION {f} {{#1} {#7} while$} EXECUTE {f}", True, 4),
    (b"FUNCTION {h} {duplicate$ #1 swap$ 'skip$ if$} FUNCTION {g} {'h h} EXECUTE {g}", False, 3),
    (b"", True, 1), (b'FUNCTION {f} {{skip$} "a}', True, 1), (b"FUNCTION {f} {#1 {skip$} {} if$}", True, 4),
    (b"FUNCTION {f} {#1 {#1} 'skip$ if$ pop$}", True, 3), (b"FUNCTION {f} {#1 'skip$ duplicate$ if$}", True, 2),
    (b"FUNCTION {f} {{skip$} 'skip$ 'if$}", False, 3), (b"FUNCTION {f} {{skip$} 'skip$ 'skip$ if$}", False, 3),
    (b"FUNCTION {f} {#1 {skip$} duplicate$ if$}", False, 3), (b"FUNCTION {f} {'call.type$ pop$}", False, 2),
    (b"ITERATE {call.type$}", True, 1), (chain(4097), True, 4098), (SHOWING, True, 4),
]


# ---- comparing ----

def files_of(job):
    """Those of `others` that are None aren't there."""
    files = {b"job.aux": job.aux, b"d.bib": job.database, b"s.bst": job.declared + job.text, **job.others}
    return {name: text for name, text in files.items() if text is not None}


def differences(job):
    """For each part of a job's product: its name, what is wanted and what is found."""
    found = run(files_of(job), b"job", Options(**job.options))
    log = found.log.split(b"\n")[:-1]
    report = found.report
    yield "end", job.end, report.end
    yield "status", job.status, report.status
    for name in ("steps", "deepest"):
        yield name, getattr(job, name), getattr(report, name)
    yield "list", job.bbl, found.list
    yield "last line", job.last, log[-1]
    for text in job.has:
        yield "line of the log", True, text in log
    if job.log is not None:
        yield "log", job.log, log
    elif job.begins is not None:
        yield "log", job.begins, log[:len(job.begins)]
    else:
        yield "log", FOUND + job.messages, log[:-1]


def compare_jobs():
    for job in JOBS:
        for what, wanted, found in differences(job):
            yield f"{job.name}: {what}", wanted, found
    nothing = run({}, b"job")
    yield "no top file", (b"", NO_TOP_FILE, 3), (nothing.list, nothing.log, nothing.report.status)


def compare_calls():
    for name, given, wanted in STRING_CALLS:
        yield f"{name}{given}", wanted, getattr(texts, name)(*given)
    for all_names, number, format_text, utf8, wanted, complaints in NAME_CALLS:
        found = names.format_name(all_names, number, format_text, utf8)
        yield f"format_name of {all_names}", (wanted, complaints), (
            found.text, tuple(name for name in found._fields[1:] if getattr(found, name)))


def compare_libraries():
    for title, declared, keys, least, text, wanted, messages in LIBRARIES:
        job = read_aux({b"job.aux": citing(keys)}, b"job")
        library = read_databases(read_style(b"s.bst", declared), job, [(b"d.bib", text)], least)
        yield title, messages, [text for _, text in library.messages]
        found = [(place.key, {name: place.entry.values.get(name) for name in fields})
                 for place, (_, fields) in zip(library.list, wanted)]
        yield title, (len(wanted), wanted), (len(library.list), found)


def compare_styles():
    for text, direct, functions in STYLES:
        style = read_style(b"s.bst", DECLARED + text)
        yield f"direct: {text[:60]}", (direct, functions), (is_direct(style), len(style.bodies))


def compare_lines():
    """What is sure of a line's beginning begins what the line is written as, at each place."""
    for job in JOBS:
        for piece in job.text.split(b'"')[1::2]:
            for end in range(min(len(piece), 400)):
                begun = sure(piece[:end], 79)
                yield "sure", begun, sure(piece, 79)[:len(begun)]
                yield "sure", begun, wrapped(piece, 79)[:len(begun)]


def is_wrong(what, wanted, found):
    """Whether two values differ; then they are printed."""
    if wanted != found:
        print(f"{what}\n  wanted: {str(wanted)[:400]}\n  found:  {str(found)[:400]}")
    return wanted != found


def main():
    results = [is_wrong(*it) for compare in (compare_jobs, compare_calls, compare_libraries, compare_styles) for it in compare() if it[1] is not None]
    # (the reference beside itself: no pass, where it agrees)
    results += [wrong for it in compare_lines() if (wrong := is_wrong(*it))]
    print(f"{results.count(False)} passed, {results.count(True)} failed")
    return results.count(True)


if __name__ == "__main__":
    raise SystemExit(main() > 0)
