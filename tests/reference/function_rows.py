"""Worked rows of functions: a body, and what it leaves: the lines that it logs, and the literals that are left, the uppermost first, as `stack$` shows them.

Each is a job of its own, whose function ends in `stack$`. What a row writes is only compared between the program and the reference.
"""

from worked_jobs import FOUND, Job, citing

DECLARED = b"ENTRY {title author note}{n}{t} INTEGERS {i} STRINGS {s} FUNCTION {misc} {} READ "
# The first entry has no author, and a note of white space alone; the style doesn't know the second one's type.
DATABASE = b'@preamble{"pre"}\n@misc{k, title = {T t}, note = {  }}\n@odd{j, title = {J}, author = {A}}\n'
UNKNOWN = b'Warning--entry type for "j" isn\'t style-file defined--line 3 of file d.bib'

# Integers.
INTEGERS = r'''
#1 #1 = => 1
#1 #2 = => 0
"a" "a" = => 1
"a" "A" = => 0
"" "" = => 1
"a" "ab" = => 0
#1 "1" = => Error--= needs two integers or two strings while executing = for entry k | 0
'skip$ 'skip$ = => Error--= needs two integers or two strings while executing = for entry k | 0
author author = => Error--= needs two integers or two strings while executing = for entry k | 0
#2 #1 > => 1
#1 #1 > => 0
#1 #2 > => 0
#-1 #1 > => 0
#2 #1 < => 0
#1 #1 < => 0
#-2 #-1 < => 1
#2 #3 + => 5
#2147483646 #1 + => 2147483647
#2147483647 #1 + => Error--Integer overflow while executing + for entry k | 0
#-2147483648 #-1 + => Error--Integer overflow while executing + for entry k | 0
#2 #3 - => -1
#-2147483647 #1 - => -2147483648
#-2147483648 #1 - => Error--Integer overflow while executing - for entry k | 0
#0 #-2147483648 - => Error--Integer overflow while executing - for entry k | 0
"A" chr.to.int$ => 65
"" chr.to.int$ => Error--"" isn't a single character while executing chr.to.int$ for entry k | 0
"ab" chr.to.int$ => Error--"ab" isn't a single character while executing chr.to.int$ for entry k | 0
#65 int.to.chr$ => "A"
#127 int.to.chr$ chr.to.int$ => 127
#0 int.to.chr$ chr.to.int$ => 0
#128 int.to.chr$ => Error--128 isn't an ASCII code while executing int.to.chr$ for entry k | ""
#-1 int.to.chr$ => Error---1 isn't an ASCII code while executing int.to.chr$ for entry k | ""
#0 int.to.str$ => "0"
#-2147483648 int.to.str$ => "-2147483648"
'''

# Strings.
STRINGS = r'''
"a" "b" * => "ab"
"" "" * => ""
"a" "b" * "c" * duplicate$ * => "abcabc"
"a" add.period$ => "a."
"a!}" add.period$ => "a!}"
"a.}" add.period$ => "a.}"
"a?}}" add.period$ => "a?}}"
"a!" add.period$ => "a!"
"a.{" add.period$ => "a.{."
"" add.period$ => ""
"}" add.period$ => "}."
"The {TeX}book: A" "t" change.case$ => "The {TeX}book: A"
"AB" "l" change.case$ => "ab"
"ab" "U" change.case$ => "AB"
"A:B" "t" change.case$ => "A:b"
"A: {\'E} B" "t" change.case$ => "A: {\'E} b"
"A: {\'E} B" "l" change.case$ => "a: {\'e} b"
"{A: B} C" "T" change.case$ => "{A: B} c"
"{\i  x\oe y\H o}" "U" change.case$ => "{IX\OE Y\H O}"
"{\O\L\H A}" "L" change.case$ => "{\o\l\H a}"
"Ab" "t " change.case$ => Error--"t " is an illegal case-conversion string while executing change.case$ for entry k | "Ab"
"Ab" "x" change.case$ => Error--"x" is an illegal case-conversion string while executing change.case$ for entry k | "Ab"
"Ab" "" change.case$ => Error--"" is an illegal case-conversion string while executing change.case$ for entry k | "Ab"
author empty$ => 1
note empty$ => 1
"" empty$ => 1
"  " empty$ => 1
" a" empty$ => 0
title empty$ => 0
#10 int.to.chr$ empty$ => 0
#9 int.to.chr$ empty$ => 1
#13 int.to.chr$ empty$ => 1
"a-b!" purify$ => "a b"
"{\ss}-1" purify$ => "ss 1"
"{\'e}-{\relax x}" purify$ => "e x"
"{\ss}{\OE}{\aa}{\L}" purify$ => "ssOEaL"
"{\i 1-2}" purify$ => "i12"
"{{\'e}}\o" purify$ => "eo"
quote$ => """
"abcdef" #-2 #3 substring$ => "cde"
"abcdef" #2 #3 substring$ => "bcd"
"abcdef" #0 #3 substring$ => ""
"abcdef" #2 #0 substring$ => ""
"abc" #4 #1 substring$ => ""
"abc" #-2147483648 #1 substring$ => ""
"abc" #-3 #2147483647 substring$ => "a"
"abcdef" #1 #2 substring$ => "ab"
"abcdef" #6 #9 substring$ => "f"
"abcdef" #7 #1 substring$ => ""
"abcdef" #-6 #1 substring$ => "a"
"abcdef" #-7 #1 substring$ => ""
"abcdef" #2 #-1 substring$ => ""
"abcdef" #1 #2147483647 substring$ => "abcdef"
"abcdef" #-1 #2147483647 substring$ => "abcdef"
"abcdef" #2147483647 #1 substring$ => ""
"abcdef" #1 #-2147483648 substring$ => ""
"a{b}" text.length$ => 2
"{\'O}x" text.length$ => 2
"" text.length$ => 0
"{{\'E}x}" text.length$ => 4
"{\'E" text.length$ => 1
"a{bc}" #2 text.prefix$ => "a{b}"
"abc" #0 text.prefix$ => ""
"abc" #-1 text.prefix$ => ""
"abc" #-2147483648 text.prefix$ => ""
"abc" #2147483647 text.prefix$ => "abc"
"{\'O}zg{ab}c" #1 text.prefix$ => "{\'O}"
"{\'O}zg{ab}c" #9 text.prefix$ => "{\'O}zg{ab}c"
"{{a" #1 text.prefix$ => "{{a}}"
"{\'E{" #1 text.prefix$ => "{\'E{}}"
"a}b" #2 text.prefix$ => "a}b"
"AB" width$ => 1458
"" width$ => 0
"{\'e}" width$ => 444
"{\ss\ae\AE\OE}" width$ => 3139
"{\o  x}" width$ => 1028
"{\relax{ }x}" width$ => 806
"{{\o}}" width$ => 3000
'''

# Names.
NAMES = r'''
"A and {B and C} AND D" num.names$ => 3
"" num.names$ => 0
"Jean-Paul Sartre" #1 "{f.~}{ll}" format.name$ => "J.-P. Sartre"
"A" #2 "{ll}" format.name$ => Error--There is no name number 2 in "A" while executing format.name$ for entry k | ""
"A" #0 "{lll}" format.name$ => Error--There is no name number 0 in "A" while executing format.name$ for entry k | ""
"A," #1 "{ll}" format.name$ => Error--Name 1 in "A," has a comma at the end while executing format.name$ for entry k | "A"
"A, B, C, D" #1 "{ll}" format.name$ => Error--Too many commas in name 1 of "A, B, C, D" while executing format.name$ for entry k | "A"
"A" #1 "{lll}" format.name$ => Error--The format string "{lll}" is illegal while executing format.name$ for entry k | ""
"A, B, C, D," #1 "{lll}" format.name$ => Error--Name 1 in "A, B, C, D," has a comma at the end while executing format.name$ for entry k | Error--Too many commas in name 1 of "A, B, C, D," while executing format.name$ for entry k | Error--The format string "{lll}" is illegal while executing format.name$ for entry k | ""
'''

# Choices and loops.
CHOICES = r'''
#7 #1 'skip$ 'pop$ if$ => 7
#7 #0 'skip$ 'pop$ if$ =>
#7 #-1 'skip$ 'pop$ if$ =>
#7 #2147483647 'i 's if$ => 0 | 7
#1 {#2} 'pop$ if$ => 2
#3 'i := {i} {i #1 - 'i :=} while$ i => 0
#7 {#0} 'skip$ while$ => 7
misc =>
skip$ =>
#7 skip$ => 7
'''


# The stack, and what is shown and written.
STACK = r'''
#7 duplicate$ => 7 | 7
"a" duplicate$ "b" * swap$ => "a" | "ab"
'skip$ duplicate$ => 'skip$ | 'skip$
author duplicate$ => missing field | missing field
{} duplicate$ => '{} | '{}
#1 #2 swap$ => 1 | 2
#3 #1 #2 swap$ => 1 | 2 | 3
#7 pop$ => 
#8 #7 pop$ => 8
#8 #7 top$ => 7 | 8
"a" top$ => "a"
'misc top$ => 'misc
{} top$ => '{}
author top$ => missing field
stack$ => 
#8 "a" stack$ => "a" | 8
#8 'i {} author stack$ #9 => missing field | '{} | 'i | 8 | 9
"no title" warning$ => Warning--no title
"a" write$ => write a
"" write$ => write 
newline$ => newline
'''

# In an entry: fields, variables and assignments.
IN_AN_ENTRY = r'''
cite$ => "k"
type$ => "misc"
preamble$ => "pre"
title => "T t"
author => missing field
note => ""
call.type$ =>
author missing$ => 1
title missing$ => 0
note missing$ => 0
i => 0
s => ""
n => 0
t => ""
entry.max$ => 250
global.max$ => 20000
sort.key$ => ""
crossref => missing field
#7 'i := i => 7
"a" 's := s => "a"
#7 'n := n => 7
"a" 't := t => "a"
"a" 'sort.key$ := sort.key$ => "a"
#3 'global.max$ := global.max$ => 3
#1 'i := #2 'i := i => 2
#1 'i := i #1 + 'i := i => 2
"a" duplicate$ 's := 't := s t * => "aa"
#7 'title := => Error--You can't assign to title while executing := for entry k
#7 'skip$ := => Error--You can't assign to skip$ while executing := for entry k
#7 'misc := => Error--You can't assign to misc while executing := for entry k
#7 {} := => Error--You can't assign to {} while executing := for entry k
"a" 'i := => Error--"a" is not an integer while executing := for entry k
#7 's := => Error--7 is not a string while executing := for entry k
author 'n := => Error--missing field is not an integer while executing := for entry k
'skip$ 't := => Error--'skip$ is not a string while executing := for entry k
'''

# Without an entry.
WITHOUT_AN_ENTRY = r'''
title => Error--You can't mess with entries here while executing title
n => Error--You can't mess with entries here while executing n
t => Error--You can't mess with entries here while executing t
sort.key$ => Error--You can't mess with entries here while executing sort.key$
crossref => Error--You can't mess with entries here while executing crossref
cite$ => Error--You can't mess with entries here while executing cite$
type$ => Error--You can't mess with entries here while executing type$
call.type$ => Error--You can't mess with entries here while executing call.type$
"a" missing$ => Error--You can't mess with entries here while executing missing$
#7 missing$ => Error--You can't mess with entries here while executing missing$
missing$ => Error--You can't pop an empty literal stack while executing missing$ | Error--You can't mess with entries here while executing missing$
#8 #7 missing$ => Error--You can't mess with entries here while executing missing$ | 8
#7 'n := => Error--You can't mess with entries here while executing :=
"a" 't := => Error--You can't mess with entries here while executing :=
"a" 'n := => Error--You can't mess with entries here while executing :=
#7 'title := => Error--You can't assign to title while executing :=
preamble$ => "pre"
#7 'i := i => 7
"a" 's := s => "a"
i => 0
+ => Error--You can't pop an empty literal stack while executing + | Error--You can't pop an empty literal stack while executing + | 0
'''

# In an entry of a type that the style doesn't know.
OF_AN_UNKNOWN_TYPE = r'''
type$ => ""
call.type$ => 
cite$ => "j"
author => "A"
title => "J"
'''

# What variables cut that keep two bytes of an entry's string and three of a global one.
CUTS = r'''
"abc" 's := s => "abc"
"abcd" 's := s => Warning--string of 4 bytes cut to 3 while executing := for entry k | "abc"
"ab" 't := t => "ab"
"abc" 't := t => Warning--string of 3 bytes cut to 2 while executing := for entry k | "ab"
"abc" 's := s "d" * 's := s => Warning--string of 4 bytes cut to 3 while executing := for entry k | "abc"
entry.max$ global.max$ => 3 | 2
#9 'entry.max$ := "abc" 't := entry.max$ => Warning--string of 3 bytes cut to 2 while executing := for entry k | 9
'''

# What is executed where the stack is full of literals, and what pushes one more.
ON_A_FULL_STACK = (b"+", b"pop$ #8", b"swap$ skip$ newline$", b"int.to.str$")
ONE_MORE = (b"#8", b'"a"', b"'i", b"author", b"title", b"i", b"s", b"n", b"t", b"cite$", b"type$", b"preamble$", b"quote$", b"duplicate$")


# The front of a string, how many `x` follow it, what follows those, and what is left; None where the run ends at the limit of a string.
LONG_STRINGS = (
    (b'"', 1_000_000, b'" text.length$', "1000000"),
    (b'"', 1_000_001, b'" text.length$', None),
    (b'"', 1_000_000, b'" "b" *', None),
    (b'"', 1_000_000, b'" add.period$', None),
    (b'"', 1_000_000, b'" "" * text.length$', "1000000"),
    (b'"', 1_000_000, b'" purify$ text.length$', "1000000"),
    (b'"', 1_000_000, b'" "q" change.case$ text.length$', 'Error--"q" is an illegal case-conversion string while executing change.case$ for entry k | 1000000'),
    (b'"', 600_000, b'," #1 "{ll}{ll}" format.name$', None),
    (b'"{', 999_999, b'" #1000000 text.prefix$', None),
    (b'"', 250, b"\" 't := t text.length$", "250"),
    (b'"', 251, b"\" 't := t text.length$", "Warning--string of 251 bytes cut to 250 while executing := for entry k | 250"),
    (b'"', 20_000, b"\" 's := s text.length$", "20000"),
    (b'"', 20_001, b"\" 's := s text.length$", "Warning--string of 20001 bytes cut to 20000 while executing := for entry k | 20000"),
)


def messages_of(answers):
    """The log's lines of what a row says; None if it says what is written, which the log doesn't show."""
    parts = [part for part in answers.split(" | ") if part]
    if any(part.split(" ")[0] in ("write", "newline") for part in parts):
        return None
    return [part.encode() for part in parts]


def rows_of(table, command, key, before=(), **more):
    for row in table.strip().split("\n"):
        body, _, answers = row.partition(" =>")
        messages = messages_of(answers.strip())
        said = {"begins": [*FOUND, *before]} if messages is None else {"messages": [*before, *messages]}
        is_faulty = any(line.startswith(b"Error") for line in messages or ())
        yield Job(f"{body} by {command.decode()}", b"FUNCTION {f} {" + body.encode() + b" stack$} " + command + b" {f}", aux=citing(key), database=DATABASE,
                  declared=DECLARED, status=2 if is_faulty else 0, **said, **more)


def long_strings():
    for front, times, more, answers in LONG_STRINGS:
        messages = messages_of(answers or "")
        ends = {"end": "limit string", "status": 3} if answers is None else {"status": 2 if answers.startswith("Error") else 0}
        yield Job(f"{front.decode()}, {times} bytes and {more.decode()}", b"FUNCTION {f} {" + front + b"x" * times + more + b" stack$} ITERATE {f}", aux=citing(b"k"),
                  database=DATABASE, declared=DECLARED, messages=messages, **ends)


def full_stacks():
    sevens = b"#7 " * 1_000
    for body in ON_A_FULL_STACK:
        yield Job(f"a full stack and {body.decode()}", b"FUNCTION {f} {" + sevens + body + b" stack$} ITERATE {f}", aux=citing(b"k"), database=DATABASE, declared=DECLARED,
                  begins=FOUND)
    for body in ONE_MORE:
        yield Job(f"one more than a full stack, {body.decode()}", b"FUNCTION {f} {" + sevens + body + b"} ITERATE {f}", aux=citing(b"k"), database=DATABASE, declared=DECLARED,
                  messages=[], end="limit literals", status=3)


def all_rows():
    for table in (INTEGERS, STRINGS, NAMES, CHOICES, STACK, IN_AN_ENTRY):
        yield from rows_of(table, b"ITERATE", b"k")
    yield from rows_of(WITHOUT_AN_ENTRY, b"EXECUTE", b"k")
    yield from rows_of(OF_AN_UNKNOWN_TYPE, b"ITERATE", b"j", before=[UNKNOWN])
    yield from rows_of(CUTS, b"ITERATE", b"k", options={"entry_max": 2, "global_max": 3})
    yield from long_strings()
    yield from full_stacks()
