"""The smallest jobs that show each row of docs/DIFFERENCES.md that a list shows: what this program writes, and what the original writes.

A job is a style, a database and the lines of an .aux file. Most rows need a body alone, which is that of a function in `STYLE`."""

from typing import NamedTuple

STYLE = "ENTRY {title note}{n}{t} INTEGERS {i} STRINGS {s}\nFUNCTION {misc} {cite$ write$ newline$}\nREAD\n"
AUX = "\\citation{%s}\n\\bibdata{d}\n\\bibstyle{s}\n"
DATABASE = "@misc{k, title = {T}}\n"
# For each entry its key and its title.
TITLES = "FUNCTION {f} {cite$ write$ \":\" write$ title empty$ {\"\"} {title} if$ write$ newline$}\nITERATE {f}\n"


class Job(NamedTuple):
    """`row` is the beginning of the row's words in bold."""
    row: str
    here: str
    original: str
    style: str
    database: str = DATABASE
    aux: str = AUX % "k"

    @property
    def files(self):
        return {b"job.aux": self.aux.encode("latin1"), b"d.bib": self.database.encode("latin1"), b"s.bst": self.style.encode("latin1")}


def executed(body):
    """A style that executes a body once."""
    return STYLE + "FUNCTION {f} {%s newline$}\nEXECUTE {f}\n" % body


def written(text):
    return executed(f"{text} write$")


def database(text):
    return {"style": STYLE + TITLES, "database": text}


BY_TITLE = "FUNCTION {by.title} {title 'sort.key$ :=}\nITERATE {by.title}\nSORT\n"
BY_NOTE = "FUNCTION {by.note} {note 'sort.key$ :=}\nITERATE {by.note}\nSORT\n"

JOBS = (
    Job("Entries with equal sort keys", "b:y\na:x\n", "a:x\nb:y\n", STYLE + BY_NOTE + BY_TITLE.replace("title 'sort", "\"\" 'sort") + TITLES,
        "@misc{a, title = {x}, note = {2}}\n@misc{b, title = {y}, note = {1}}\n", AUX % "a,b"),
    Job("Each pop of an empty stack", "a\n", "\n", executed('"a" swap$ write$')),
    Job("A string literal without its closing quote", "", "ab\n", STYLE + 'FUNCTION {f} {"a" write$ "open\n"b" write$ newline$}\nEXECUTE {f}\n'),
    Job("Each pop of an empty stack", "a\n", "\n", executed('"a" swap$ duplicate$ write$')),
    Job("Ties in formatted names", "{A}~B~C\n", "{A} B~C\n", written('"Z, {A} B C" #1 "{ff}" format.name$')),
    Job("Whole logical lines", "w" * 80 + "\n  x\n", "w" * 80 + "\n   x\n", executed('"%s " write$ " x" write$' % ("w" * 80))),
    Job("A pending text at the end", "x\n", "", STYLE + 'FUNCTION {f} {"x" write$}\nEXECUTE {f}\n'),
    Job("An illegal format gives", "\n", "A\n", written('"A B" #1 "{ff}{x}" format.name$')),
    Job("Too many commas in a name", "c~d\n", "c-d\n", executed('"a-b-c-d" #1 "" format.name$ pop$ "a, b, c,d" #1 "{ff}" format.name$ write$')),
    Job("Arithmetic out of 32 bits", "0\n", "-2147483648\n", written("#2147483647 #1 + int.to.str$")),
    Job("Arithmetic out of 32 bits", "0\n", "2147483647\n", written("#-2147483648 #1 - int.to.str$")),
    Job("Arithmetic out of 32 bits", "\n", "1\n", written("#4294967297 int.to.str$")),
    Job("A variable's string that is too long", "200000\n", "300000\n",
        STYLE + "FUNCTION {f} {title 's := #0 'i := {s #250000 #1 substring$ \"\" = #0 #1 i - if$} pop$ s #200001 #1 substring$ \"\" = {\"200000\"} {\"300000\"} if$ write$ newline$}\nITERATE {f}\n",
        "@misc{k, title = {%s}}\n" % ("x" * 300_000)),
    Job("More than 1,000 literals", "", "1001\n", executed("#0 'i := {i #1001 <} {\"\" i #1 + 'i :=} while$ {i #0 >} {pop$ i #1 - 'i :=} while$ \"1001\" write$")),
    Job("A faulty `ENTRY` doesn't count as seen", "", "k\n", "ENTRY {title}{n n}{}\n\nFUNCTION {misc} {cite$ write$ newline$}\nREAD\nITERATE {call.type$}\n"),
    Job("A READ before ENTRY", "k\n", "", "READ\n\nENTRY {title}{}{}\nFUNCTION {misc} {cite$ write$ newline$}\nREAD\n\nFUNCTION {f} {}\nEXECUTE {f}\nITERATE {call.type$}\n"),
    Job("A `default.type` after READ", "", "k\n", "ENTRY {title}{}{}\nREAD\nFUNCTION {default.type} {cite$ write$ newline$}\nITERATE {call.type$}\n", "@foo{k}\n"),
    Job("A name before a wrong byte", "x\n", "\n", "ENTRY {}{}{}\nSTRINGS {a, b}\n\nFUNCTION {f} {\"x\" 'a := a write$ newline$}\nREAD\nEXECUTE {f}\n"),
    Job("A function without its braces", "", "f\n", "ENTRY {}{}{}\nFUNCTION {first} {\"f\" write$ newline$}\nFUNCTION {g x} {}\n\nREAD\nEXECUTE {g}\n"),
    Job("`format.name$` of a number", "\n", "B\n", written('"A and B" #3 "{ll}" format.name$')),
    Job("A faulty piece of an `.aux` line", "k:T\nl:U\n", "k:T\n", STYLE + TITLES, DATABASE + "@misc{l, title = {U}}\n", AUX % "k,K,l"),
    Job("Endings of names", "p\n", "pp\n", written("preamble$"), DATABASE + "@preamble{{p}}\n", AUX.replace("{d}", "{d,d.bib}") % "k"),
    Job("A carriage return is whitespace", "", "x\n", 'ENTRY {}{}{}\r\nbogus\r\nREAD\r\nFUNCTION {f} {"x" write$ newline$}\r\nEXECUTE {f}\r\n'),
    Job("An item after another on the last line", "k:T\nl:U\n", "k:T\n", **database("@misc{k, title = {T}} @misc{l, title = {U}}\n"), aux=AUX % "k,l"),
    Job("An item after another on the last line", "k:\nl:U\n", "k:\n", **database("@misc{k, title = }\n@misc(k, @misc{l, title = {U}}\n"), aux=AUX % "k,l"),
    Job("A value at the end of a database", "k:T\n", "k:\n", **database("@misc{k, title = {T}")),
    Job("A string's name directly before a wrong byte", "k:S\n", "k:\n", **database('@string{s = {S}}\n@misc{k, title = s"x"}\n')),
    Job("A string or macro whose definition", "k:S\n", "k:s\n", **database("@string{s = {S}}\n@string{s {U}}\n@misc{k, title = s}\n")),
    Job("A string or macro whose definition", "k:\n", "k:m\n", STYLE.replace("READ", "MACRO {m} x\n\nREAD") + TITLES, "@misc{k, title = m}\n"),
    Job("With `*` a cross-reference", "b:\na:A\n", "b:A\na:A\n", STYLE + TITLES, "@misc{b, crossref = {none}}\n@misc{a, title = {A}}\n", "\\citation{*}\n" + AUX % "x,none"),
    Job("Byte 127 in a string", "x\x7fy\n", "x\n", STYLE + "FUNCTION {f} {\"x\" #127 int.to.chr$ * \"y\" * 't := t write$ newline$}\nITERATE {f}\n"),
    Job("A digit or sign after a backslash", "\n", "1\n", written('"{\\1}" purify$')),
    Job("A backslash directly before a brace", "relax\n", "\n", written('"{\\\\relax}" purify$')),
    Job("`text.length$` of what is no string", "0\n", "1\n", written('#1 text.length$ "" = int.to.str$')),
    Job("A colon at the end of a string", " a\n", " A\n", executed('"x:" "t" change.case$ pop$ " A" "t" change.case$ write$')),
    Job("Braces that match none", "A}~B\n", "A~B\n", written('"A} B" #1 "{ff~}{ll}" format.name$')),
    Job("A name that begins with a comma", "A\n", "A,\n", written('", A" #1 "{ff}{, ll}" format.name$')),
    Job("The end of a piece", "~~\n", "~\n", written('"A" #1 "{~}{~}" format.name$')),
)
