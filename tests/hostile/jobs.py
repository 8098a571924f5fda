"""Hostile jobs, and what each must end in by docs/RULES.md.

A job is made for a size: the full one for the program, a small one for the reference in Python, which is slow where a job is large. What is
expected is a formula in that size, reckoned by hand from the rules and not by a program."""

import functools
import pathlib
import subprocess
import tempfile
from typing import Callable, NamedTuple

AUX = b"\\citation{k}\n\\bibdata{d}\n\\bibstyle{s}\n"
DATABASE = b"@misc{k, title = {T}}\n"
HEAD = b"ENTRY {title}{}{} INTEGERS {i} FUNCTION {misc}{} READ\n"
WRITES_A = HEAD + b'FUNCTION {f} {"a" write$ newline$} EXECUTE {f}\n'
STEPS_OF_WRITING_A = 4

LONGEST_STRING = 1_000_000
MOST_OPEN_FILES = 20
MOST_LITERALS = 1_000
MOST_BODIES = MOST_LOOPS = 4_096


OUT_OF_MEMORY = "out of memory"
DEVICE_ERROR = "device error"
FAULTS = {OUT_OF_MEMORY: 5, DEVICE_ERROR: 6}


class Expected(NamedTuple):
    """The end, the counts, the list; `log` has lines that stand in the log, with how often. After a fault the run has no end
    of its own, and the log no last line."""
    end: str = "finished"
    warnings: int = 0
    errors: int = 0
    steps: int = STEPS_OF_WRITING_A
    references: bytes = b"a\n"
    log: dict = {}

    @property
    def status(self):
        if self.end == "finished":
            return 2 if self.errors else 0
        return {"stopped": 4, **FAULTS}.get(self.end, 3)

    @property
    def last_line(self):
        return b"Ended: %s, warnings %d, errors %d, steps %d" % (self.end.encode(), self.warnings, self.errors, self.steps)


class HostileJob(NamedTuple):
    """`make` gives, for a size, the files that differ from the ordinary ones, and what is expected. `budget` is given for a size too.
    `memory` is how much the program may have."""
    name: str
    make: Callable
    size: int = 1
    small: int = 1
    budget: Callable = None
    memory: int = 2_000_000_000


JOBS = []


def hostile(**given):
    """Adds the function's job to the list, under its name."""
    def add(make):
        JOBS.append(HostileJob(make.__name__, make, **given))
        return make
    return add


def files_of(job, size):
    """All files of the job by name, and what is expected."""
    files, expected = job.make(size)
    return {"job.aux": AUX, "d.bib": DATABASE, "s.bst": WRITES_A, **files}, expected


def executes(body):
    """A style that executes this body once."""
    return HEAD + b"FUNCTION {f} {" + body + b"} EXECUTE {f}\n"


def iterates(body):
    """A style that runs this body for each entry."""
    return HEAD + b"FUNCTION {f} {" + body + b"} ITERATE {f}\n"


def last_error(message, line, file, errors=1):
    """What is expected where all of `errors` errors have one message, of which the last names this line of this file."""
    return Expected(errors=errors, log={b"Error--%s--line %d of file %s" % (message, line, file): 1})


# ---- `.aux` files ----


@hostile()
def an_aux_file_names_itself(size):
    return {"job.aux": b"\\@input{job.aux}\n" + AUX}, last_error(b"Already encountered file job.aux", 1, b"job.aux")


@hostile()
def aux_files_in_a_circle(size):
    files = {"job.aux": b"\\@input{a.aux}\n" + AUX, "a.aux": b"\\@input{b.aux}\n",
             "b.aux": b"\\@input{a.aux}\n\\@input{job.aux}\n"}
    return files, Expected(errors=2, log={b"Error--Already encountered file a.aux--line 1 of file b.aux": 1,
                                          b"Error--Already encountered file job.aux--line 2 of file b.aux": 1})


def nested_aux_files(depth):
    """`depth` files, each of which names the next one; the last has the job's lines."""
    names = ["job.aux"] + ["level%d.aux" % level for level in range(1, depth)]
    files = {name: b"\\@input{%s}\n" % after.encode() for name, after in zip(names, names[1:])}
    return {**files, names[-1]: AUX}


@hostile()
def aux_files_as_deep_as_may_be(size):
    return nested_aux_files(MOST_OPEN_FILES), Expected(log={b"A level-19 auxiliary file: level19.aux": 1})


@hostile()
def aux_files_too_deep(size):
    return nested_aux_files(MOST_OPEN_FILES + 1), Expected(
        "limit files", steps=0, references=b"",
        log={b"A level-19 auxiliary file: level19.aux": 1, b"A level-20 auxiliary file: level20.aux": 0})


@hostile(size=100_000, small=200)
def one_aux_file_named_again_and_again(size):
    line = b"Error--Already encountered file a.aux--line %d of file job.aux" % size
    return ({"job.aux": b"\\@input{a.aux}\n" * size + AUX, "a.aux": b""},
            Expected(errors=size - 1, log={line: 1, b"A level-1 auxiliary file: a.aux": 1}))


@hostile(size=2_000, small=50)
def many_aux_files(size):
    names = ["chapter%d.aux" % number for number in range(size)]
    top = b"".join(b"\\@input{%s}\n" % name.encode() for name in names)
    return {"job.aux": top + AUX, **{name: b"\\citation{k}\n" for name in names}}, Expected()


@hostile(size=100_000, small=200)
def citations_on_one_line(size):
    keys = b",".join(b"key%d" % number for number in range(size))
    line = b"Warning--I didn't find a database entry for \"key%d\"" % (size - 1)
    return {"job.aux": b"\\citation{" + keys + b"}\n" + AUX}, Expected(warnings=size, log={line: 1})


@hostile(size=100_000, small=200)
def citations_of_entries_that_are_there(size):
    keys = [b"key%d" % number for number in range(size)]
    files = {"job.aux": b"".join(b"\\citation{%s}\n" % key for key in keys) + AUX,
             "d.bib": b"".join(b"@misc{%s}\n" % key for key in reversed(keys)) + DATABASE,
             "s.bst": iterates(b"cite$ write$ newline$")}
    return files, Expected(steps=4 * (size + 1), references=b"".join(key + b"\n" for key in keys + [b"k"]))


@hostile(size=50_000, small=100)
def citations_that_differ_in_case(size):
    lines = b"".join(b"\\citation{key%d,KEY%d}\n" % (number, number) for number in range(size))
    line = b"Error--Case mismatch error between cite keys key0 and KEY0--line 1 of file job.aux"
    return {"job.aux": lines + AUX}, Expected(warnings=size, errors=size, log={line: 1})


@hostile(size=1_000_000, small=1_000)
def one_key_cited_again_and_again(size):
    return {"job.aux": b"\\citation{" + b"k," * (size - 1) + b"k}\n" + AUX}, Expected()


@hostile(size=1_100_000, small=100)
def citations_that_are_all_wrong(size):
    return {"job.aux": b"\\citation{a b}\n" * size + AUX}, last_error(b"White space in argument", size, b"job.aux", size)


@hostile(size=1_500, small=1_500)
def an_aux_file_of_a_long_name(size):
    name = b"x" * (size - 4) + b".aux"
    return {"job.aux": AUX + b"\\@input{%s}\n" % name}, last_error(b"I couldn't open auxiliary file " + name, 4, b"job.aux")


@hostile(size=1_100, small=1_100)
def databases_in_many_files(size):
    files = {"d%d.bib" % number: b"@misc{k%d}\n" % number for number in range(size)}
    names = b",".join(b"d%d" % number for number in range(size))
    return ({"job.aux": AUX.replace(b"{k}", b"{*}").replace(b"{d}", b"{%s}" % names), "s.bst": iterates(b"cite$ write$ newline$"), **files},
            Expected(steps=4 * size, references=b"".join(b"k%d\n" % number for number in range(size)),
                     log={b"Database file #%d: d%d.bib" % (size, size - 1): 1}))


# ---- databases ----


def database_with_title(text):
    return b"@misc{k, title = {" + text + b"}}\n"


@hostile()
def a_field_as_long_as_may_be(size):
    text = b"x" * LONGEST_STRING
    files = {"d.bib": database_with_title(text), "s.bst": iterates(b"title write$ newline$")}
    return files, Expected(steps=4, references=text + b"\n")


@hostile()
def a_field_too_long(size):
    return ({"d.bib": database_with_title(b"x" * (LONGEST_STRING + 1))},
            Expected("limit string", steps=0, references=b""))


@hostile()
def strings_that_double(size):
    """Each @string is the one before it, twice: the 21st has 1,048,576 bytes."""
    doubled = b"".join(b"@string{s%d = s%d # s%d}\n" % (number, number - 1, number - 1) for number in range(1, 61))
    return ({"d.bib": b'@string{s0 = "x"}\n' + doubled + DATABASE},
            Expected("limit string", steps=0, references=b""))


@hostile(size=100_000, small=200)
def entries_of_one_key(size):
    return {"d.bib": b"@misc{k}\n" * size}, last_error(b"Repeated entry", size, b"d.bib", size - 1)


@hostile(size=100_000, small=200)
def fields_of_one_name(size):
    line = b'Warning--I\'m ignoring k\'s extra "title" field--line 3 of file d.bib'
    fields = b"".join(b",\n title = {T}" for number in range(size))
    return {"d.bib": b"@misc{k" + fields + b"}\n"}, Expected(warnings=size - 1, log={line: 1})


@hostile(size=4_000, small=100)
def fields_of_one_name_under_a_long_key(size):
    """The key has 50,000 bytes at the full size. The message of each field but the first has it whole."""
    key = b"k" * (size * 50_000 // 4_000)
    line = b'Warning--I\'m ignoring %s\'s extra "title" field--line 2 of file d.bib' % key
    return ({"job.aux": AUX.replace(b"{k}", b"{*}"), "d.bib": b"@misc{" + key + b",\n" + b"title = {T}, " * size + b"}\n"},
            Expected(warnings=size - 1, log={line: size - 1}))


@functools.lru_cache(maxsize=None)
def keys_that_collide(count):
    """Keys that fall on one place of the program's tables, by a program in C: it takes gcc, and some seconds."""
    with tempfile.TemporaryDirectory() as folder:
        maker = pathlib.Path(folder) / "collide"
        source = pathlib.Path(__file__).resolve().parents[1] / "speed/collide.c"
        subprocess.run(["gcc", "-O2", "-Wall", "-Werror", "-o", maker, source], check=True)
        return subprocess.run([maker, str(count)], capture_output=True, check=True).stdout.split()


@hostile(size=3_000, small=100)
def keys_that_are_chosen_to_collide(size):
    """Each key is cited, has an entry and names a string."""
    keys = keys_that_collide(size)
    entries = b"".join(b"@string{%s = {%s}}\n@misc{%s, title = %s}\n" % (key, key, key, key) for key in reversed(keys))
    files = {"job.aux": AUX.replace(b"{k}", b"{%s}" % b",".join(keys)), "d.bib": entries, "s.bst": iterates(b"cite$ title * write$ newline$")}
    return files, Expected(steps=6 * size, references=b"".join(key + key + b"\n" for key in keys))


@hostile(size=100_000, small=200)
def children_of_one_parent(size):
    files = {"job.aux": AUX.replace(b"{k}", b"{*}"), "s.bst": iterates(b"title write$ newline$"),
             "d.bib": b"".join(b"@misc{c%d, crossref = {k}}\n" % number for number in range(size)) + DATABASE}
    return files, Expected(steps=4 * (size + 1), references=b"T\n" * (size + 1))


@hostile(size=200, small=20)
def children_of_a_missing_parent_of_a_long_name(size):
    """The parent's name is a string that is as long as may be at the full size. The message of each child has it whole."""
    parent = b"p" * (size * LONGEST_STRING // 200)
    children = b"".join(b"@misc{c%d, crossref = p}\n" % number for number in range(size))
    line = b'Error--A bad cross reference--entry "c%d" refers to entry "%s", which doesn\'t exist' % (size - 1, parent)
    return ({"job.aux": AUX.replace(b"{k}", b"{*}"), "d.bib": b"@string{p = {" + parent + b"}}\n" + children},
            Expected(errors=size, log={line: 1}))


@hostile(size=100_000, small=200)
def a_chain_of_parents(size):
    """Each entry names the next as its parent, and only the first is cited: the others leave again."""
    entries = b"".join(b"@misc{c%d, crossref = {c%d}}\n" % (number, number + 1) for number in range(size))
    line = b'Warning--you\'ve nested cross references--entry "c0" refers to entry "c1"'
    files = {"job.aux": AUX.replace(b"{k}", b"{c0}"), "d.bib": entries + b"@misc{c%d, title = {T}}\n" % size,
             "s.bst": iterates(b"cite$ write$ newline$")}
    return files, Expected(warnings=size - 1, steps=4, references=b"c0\n", log={line: 1})


@hostile(size=499_999, small=1_000)
def a_field_of_braces(size):
    files = {"d.bib": database_with_title(b"{" * size + b"Q" + b"}" * size),
             "s.bst": iterates(b'title "u" change.case$ purify$ title text.length$ int.to.str$ * write$ newline$')}
    return files, Expected(steps=11, references=b"Q1\n")


@hostile(size=100_000, small=200)
def an_item_that_is_wrong_on_each_line(size):
    return {"d.bib": b"@{\n" * size + DATABASE}, last_error(b"I was expecting a name", size, b"d.bib", size)


@hostile(size=1_000_000, small=1_000)
def a_database_of_at_signs(size):
    return {"d.bib": DATABASE + b"@" * size}, last_error(b"Illegal end of database file", 2, b"d.bib")


@hostile(size=100_000, small=200)
def one_long_string_used_again_and_again(size):
    """The string is as long as may be, and each entry has it as a value by its name alone."""
    text = b"x" * (size * LONGEST_STRING // 100_000)
    entries = b"".join(b"@misc{k%d, title = s}\n" % number for number in range(size))
    return {"job.aux": AUX.replace(b"{k}", b"{*}"), "d.bib": b"@string{s = {" + text + b"}}\n" + entries}, Expected()


@hostile(size=100_000, small=200)
def one_long_string_whose_last_white_goes(size):
    """The string is as long as may be and ends in whitespace, which each entry's value loses."""
    text = b"x" * (size * LONGEST_STRING // 100_000 - 1)
    entries = b"".join(b"@misc{k%d, title = s}\n" % number for number in range(size))
    return {"job.aux": AUX.replace(b"{k}", b"{*}"), "d.bib": b"@string{s = {" + text + b" }}\n" + entries}, Expected()


@hostile(size=160_000, small=500)
def a_field_of_names(size):
    names = b" and ".join([b"A"] * (size - 1) + [b"Ann Lee"])
    body = b'title num.names$ int.to.str$ write$ " " write$ title #%d "{f. }{ll}" format.name$ write$ newline$' % size
    return ({"d.bib": database_with_title(names), "s.bst": iterates(body)},
            Expected(steps=13, references=b"%d A. Lee\n" % size))


NAME_BYTES = [byte for byte in range(33, 256) if byte not in b"\"#%'(),={}"]


@hostile(size=len(NAME_BYTES), small=len(NAME_BYTES))
def every_byte_in_names(size):
    """Each byte that may stand in a name stands in those of a field, of a string, of a macro, of a variable and of a function, and in a key. Before it stand
    a letter and a number, so that no two names are the same without case."""
    numbered = list(enumerate(bytes([byte]) for byte in NAME_BYTES))
    fields = b" ".join(b"f%d%s" % it for it in numbered)
    macros = b"".join(b'MACRO {m%d%s} {"m"}\n' % it for it in numbered)
    variables = b"STRINGS {" + b" ".join(b"v%d%s" % it for it in numbered) + b"}\n"
    functions = b"".join(b"FUNCTION {g%d%s} {f%d%s 'v%d%s := v%d%s write$}\n" % (it * 4) for it in numbered)
    values = b"".join(b",\n F%d%s = s%d%s # m%d%s" % (it * 3) for it in numbered)
    strings = b"".join(b"@string{s%d%s = {s}}\n" % it for it in numbered)
    key = b"k" + bytes(NAME_BYTES).replace(b"\\", b"")
    files = {"job.aux": AUX.replace(b"{k}", b"{%s}" % key), "d.bib": strings + b"@misc{" + key + values + b"}\n",
             "s.bst": b"ENTRY {" + fields + b"}{}{}\nFUNCTION {misc} {}\n" + macros + b"READ\n" + variables + functions
                      + b"FUNCTION {h} {" + b" ".join(b"g%d%s" % it for it in numbered) + b" newline$}\nITERATE {h}\n"}
    return files, Expected(steps=2 + 6 * size, references=b"sm" * size + b"\n")


@hostile(size=20_000, small=100)
def names_with_control_symbols(size):
    """Names with accents by signs, and with whitespace behind the signs. Two tokens of each are von, since the letter behind the sign is a small one; and the
    whitespace has no width: o 500, l 278, e 444, the tie 500, i 278, x 528."""
    names = b" and ".join([b"A {\\^ o}le {\\' \\i}x B"] * size)
    body = b'title #%d "{vv}/{ll}" format.name$ write$ newline$ title #1 "{vv}" format.name$ width$ int.to.str$ write$ newline$' % size
    return ({"d.bib": database_with_title(names), "s.bst": iterates(body)}, Expected(steps=15, references=b"{\\^ o}le~{\\' \\i}x/B\n2528\n"))


# ---- styles ----


@hostile(size=100, small=10)
def errors_that_name_a_long_key(size):
    """The key has 1,000,000 bytes at the full size. Each function finds none of its three operands, which is an error for each."""
    key = b"k" * (size * LONGEST_STRING // 100)
    line = b"Error--You can't pop an empty literal stack while executing if$ for entry " + key
    return ({"job.aux": AUX.replace(b"{k}", b"{*}"), "d.bib": b"@misc{" + key + b"}\n", "s.bst": iterates(b"if$ " * size)},
            Expected(errors=3 * size, steps=size + 1, references=b"", log={line: 3 * size}))


def loop(body):
    """A body of a function that runs this one without end."""
    return b"{#1} {" + body + b"} while$"


STEPS_BEFORE_A_LOOP = 4


@hostile(size=1_000_000, small=1_000, budget=lambda size: size)
def a_style_that_loops(size):
    return {"s.bst": executes(loop(b""))}, Expected("stopped", steps=size, references=b"")


@hostile(size=200_000, small=200, budget=lambda size: 5 * size + STEPS_BEFORE_A_LOOP)
def a_line_that_does_not_end(size):
    return ({"s.bst": executes(loop(b'"0123456789" write$'))},
            Expected("stopped", steps=5 * size + STEPS_BEFORE_A_LOOP, references=b"0123456789" * size))


@hostile(size=250_000, small=200, budget=lambda size: 4 * size + STEPS_BEFORE_A_LOOP)
def a_list_that_does_not_end(size):
    return ({"s.bst": executes(loop(b"newline$"))},
            Expected("stopped", steps=4 * size + STEPS_BEFORE_A_LOOP, references=b"\n" * size))


@hostile(size=200_000, small=200, budget=lambda size: 5 * size + STEPS_BEFORE_A_LOOP)
def a_log_that_does_not_end(size):
    return ({"s.bst": executes(loop(b'"again" warning$'))},
            Expected("stopped", warnings=size, steps=5 * size + STEPS_BEFORE_A_LOOP, references=b"",
                     log={b"Warning--again": size}))


@hostile(size=50, small=3)
def a_log_of_long_strings(size):
    """Seven steps before the first test, twelve a turn, four for the last test."""
    text = b"x" * LONGEST_STRING
    style = iterates(b"#0 'i := {i #%d <} {title top$ i #1 + 'i :=} while$" % size)
    return ({"d.bib": database_with_title(text), "s.bst": style},
            Expected(steps=7 + 12 * size + 4, references=b"", log={b'"' + text + b'"': size}))


@hostile()
def a_style_that_recurses(size):
    style = HEAD + b"FUNCTION {h} {duplicate$ #1 swap$ 'skip$ if$} FUNCTION {g} {'h h} EXECUTE {g}\n"
    return {"s.bst": style}, Expected("limit calls", steps=2 + MOST_BODIES + 5 * (MOST_BODIES - 1), references=b"")


@hostile()
def loops_in_loops(size):
    """The body of each loop is `while$` itself, which finds its test and its body on the stack."""
    style = (HEAD + b"FUNCTION {t} {duplicate$ 'while$ #1} FUNCTION {g} {'t duplicate$ 'while$ while$} EXECUTE {g}\n")
    return {"s.bst": style}, Expected("limit loops", steps=5 + 5 * MOST_LOOPS, references=b"")


@hostile()
def a_string_that_doubles(size):
    return ({"s.bst": executes(b'"x" ' + loop(b"duplicate$ *"))},
            Expected("limit string", steps=1 + STEPS_BEFORE_A_LOOP + 5 * 20, references=b""))


@hostile()
def a_stack_that_grows(size):
    return ({"s.bst": executes(loop(b"#7"))},
            Expected("limit literals", steps=STEPS_BEFORE_A_LOOP + 4 * MOST_LITERALS + 2, references=b""))


@hostile()
def a_stack_of_long_strings(size):
    style = iterates(b"title " + loop(b"duplicate$"))
    return ({"d.bib": database_with_title(b"x" * LONGEST_STRING), "s.bst": style},
            Expected("limit literals", steps=1 + STEPS_BEFORE_A_LOOP + 4 * (MOST_LITERALS - 1) + 2, references=b""))


@hostile(size=1_000_000, small=200)
def a_style_of_braces(size):
    return {"s.bst": executes(b"{" * size + b"}" * size + b" pop$")}, Expected(steps=3, references=b"")


@hostile(size=70_000, small=500)
def a_style_of_fields(size):
    """As many fields as are declared have a value in the entry, and the last of them is written."""
    fields = b" ".join(b"f%d" % number for number in range(size))
    values = b"".join(b",\n f%d = {a}" % number for number in range(size))
    return ({"d.bib": b"@misc{k" + values + b"}\n",
             "s.bst": b"ENTRY {" + fields + b"}{}{} FUNCTION {misc}{} READ FUNCTION {f} {f%d write$ newline$} ITERATE {f}\n" % (size - 1)},
            Expected())


@hostile(size=70_000_000, small=1_000)
def a_style_of_a_long_comment(size):
    return {"s.bst": b"%" + b"x" * size + b"\n" + WRITES_A}, Expected()


@hostile(size=100_000, small=500)
def a_style_of_functions(size):
    functions = b"".join(b"FUNCTION {f%d} {f%d}\n" % (number + 1, number) if number % 1_000 else
                         b'FUNCTION {f%d} {"a" write$ newline$}\n' % (number + 1) for number in range(size))
    return {"s.bst": HEAD + functions + b"EXECUTE {f%d}\n" % size}, Expected(steps=(size - 1) % 1_000 + 1 + 3)


@hostile(size=100_000, small=500)
def a_style_of_mistakes(size):
    return {"s.bst": WRITES_A + b"\nnonsense\n" * size}, last_error(b"nonsense isn't a command", 4, b"s.bst", size)


@hostile(size=600_000, small=500)
def a_list_that_is_sorted_backwards(size):
    keys = [b"key%06d" % number for number in range(size)]
    style = (HEAD + b"FUNCTION {f} {cite$ 'sort.key$ :=} FUNCTION {g} {cite$ write$ newline$} ITERATE {f} SORT ITERATE {g}\n")
    files = {"job.aux": AUX.replace(b"{k}", b"{*}"), "s.bst": style,
             "d.bib": b"".join(b"@misc{%s}\n" % key for key in reversed(keys))}
    return files, Expected(steps=8 * size, references=b"".join(key + b"\n" for key in keys))


# ---- more than memory holds ----


@hostile(memory=200_000_000)
def a_log_that_fills_memory(size):
    """The log is kept in memory until the run ends. It is an output like any other, so that one which can't grow is a device's fault."""
    return ({"d.bib": database_with_title(b"x" * LONGEST_STRING), "s.bst": iterates(loop(b"title top$"))},
            Expected(DEVICE_ERROR, references=b""))


@hostile(memory=200_000_000)
def a_stack_that_fills_memory(size):
    """Up to 1,000 literals of 1,000,000 bytes each, none of which is another's copy."""
    return ({"d.bib": database_with_title(b"x" * (LONGEST_STRING - 1)), "s.bst": iterates(loop(b'title "y" *'))},
            Expected(OUT_OF_MEMORY, references=b""))
