"""Jobs made from a seed: small ones with much in them, right and wrong, for comparing two implementations."""

import corner_jobs
import worked_jobs as worked
from interpreter import BUILT_IN
from seeded import Seeded

# Wherever a name may stand, some have byte 127 or bytes from 128 up.
KEYS = [b"a", b"b", b"c", b"a", b"b", b"c", b"p", b"A", b"P", b"", b"k)", b"\xe9", b"d\x7f", b"\xc3\xa9\x80"]
VALUES = [b"{x  y}", b'"x \n y"', b's # " z"', b"{ v }", b"12", b"jan", b"t # t # {}", b"zz", b'""', b'"a{"}b"', b'"a}b"',
          b"{Ann Lee and {B and C} and de la Tour, Jr, J.-P.}", b'{The {\\"O} of: A {\\ss}tory}',
          b"{{\\'E}mile d{\\'e} {\\^ O}la and {\\.z}a {\\l}ic, {\\~N}i{\\= a}-{\\`a} and {\\\"{\\O}}z \xc3\x89li\x7f}", b"t\xe9 # s\x7f"]
FIELDS = [b"title", b"TITLE", b"note", b"booktitle", b"crossref", b"Crossref", b"other", b"no\x7fte", b"NO\x7fTE", b"n\xf6te", b"\x80"]
DATABASE_PIECES = [b"@misc{", b"@misc(", b"@late{", b"@string{", b"@preamble{", b"@comment{", b"@", b"{", b"}", b"(", b")",
                   b'"', b",", b"=", b"#", b" ", b"\n", b" \n ", b"title", b"crossref", b"a", b"p", b"s", b"12ab", b"{a{b}c}",
                   b", crossref={p}", b", title = s # {x}", b"\x00", b"%", b"\x7f", b"\x80", b"\xff", b"no\x7fte", b"t\xe9"]
DECLARED = (b"ENTRY {title booktitle note no\x7fte n\xf6te}{ei}{es} INTEGERS {i i\x7f} STRINGS {s \xffs}\nMACRO {jan} {\"January  x\"}\n"
            b"MACRO {s\x7f} {\"\x7f \xc3\xa9\"} FUNCTION {misc} {title write$ newline$} FUNCTION {book} {cite$ write$} FUNCTION {m\xefsc} {no\x7fte write$} ")
TOKENS = [b'"a b"', b'"{\\ss}X"', b'"A, B, C, D,"', b'"{ff }{ll}"', b'"t"', b'"u"', b'""', b'" "', b'"' + b"w" * 30 + b'"',
          b"#0", b"#1", b"#2", b"#-1", b"#200", b"#2147483647", b"'i", b"'s", b"'ei", b"'es", b"'sort.key$", b"'title", b"'skip$",
          b"'misc", b"{}", b"{#0}", b"{#1}", b"{i #1 - 'i := i #0 >}", b'{"x" write$}', b"i", b"s", b"ei", b"es", b"title", b"note",
          b"crossref", b"sort.key$", b"entry.max$", b"misc", b"write$", b"newline$", b"duplicate$", b":=", b"if$", b"while$",
          b"#3 'i :=", b"cite$ 'sort.key$ :=", b"title 'sort.key$ :=", b"#1 {misc} {book} if$", b"nosuch", b"title write$",
          b"title #1 \"{ff~}{vv~}{ll}{, jj}\" format.name$ write$", b"title \"t\" change.case$ write$ newline$",
          b"no\x7fte", b"NO\x7fTE write$", b"n\xf6te", b"'i\x7f", b"i\x7f", b"'\xffs", b"\xffs", b"m\xefsc", b"\x7f", b'"{\\^ o}{\\\' \\i}\x80"', b'"\xc3"',
          b"title width$ int.to.str$ write$", b"title purify$ write$", b"title #2 \"{vv~}{f. }{ll}\" format.name$ write$", *BUILT_IN]
STYLE_PIECES = [b"ENTRY", b"FUNCTION", b"READ", b"EXECUTE", b"ITERATE", b"SORT", b"INTEGERS", b"STRINGS", b"MACRO", b"{", b"}",
                b"{}", b"\n\n", b"% x }\n", b'"', b'"a"b', b"#", b"#1x", b"'", b"f", b"title", b"{f}", b"{misc}", b"=", b"12",
                b"\x7f", b"\x80", b"{\xff}", b"no\x7fte"]
COMMANDS = [b"EXECUTE {f}", b"ITERATE {f}", b"REVERSE {g}", b"SORT", b"ITERATE {cite$}", b"ITERATE {call.type$}",
            b"ITERATE {misc}", b"EXECUTE {g}", b"bogus\n\n"]
AUX_LINES = [b"\\citation{a}", b"\\citation{p,q}", b"\\citation{a,A}", b"\\citation{*}", b"\\citation{b, c}", b"\\citation{a",
             b"\\citation{a} x", b"\\citation{a} ", b"\\@input{one.aux}", b"\\@input{two.aux}", b"\\@input{none.aux}", b"\\@input{x}",
             b"\\bibdata{d}", b"\\bibdata{e,d}", b"\\bibstyle{s}", b"\\relax", b"", b"\\citation", b"\\citation{d\x7f,\xc3\xa9\x80}",
             b"\\@input{\xc3\xa9.aux}", b"\\@input{\xe9.aux}", b"\\@input{x\x7f.aux}", b"\\bibdata{\x7f}"]


# What programs of 50 tokens are made of. Integers and strings stand there often, so that operands fit.
PROGRAM_TOKENS = [b"#0", b"#0", b"#1", b"#1", b"#2", b"#2", b"#3", b"#-1", b"#65", b"#200", b"#2147483647", b"#-2147483648", b'""', b'"a"', b'"a"',
                  b'"x"', b'"t"', b'"l"', b'"u"', b'"Q."', b'"B{\\\'e}b"', b'"Ann Lee and {B}, C,"', b'"{ff~}{ll}"', b"'i", b"'s", b"'n", b"'t",
                  b"'skip$", b"'title", b"'misc", b"{}", b"i", b"i", b"s", b"n", b"t", b"title", b"author", b"note", b"misc", b":=",
                  b"duplicate$", b"*", *BUILT_IN]
PROGRAM_STYLE = (b"ENTRY {title author note}{n}{t} INTEGERS {i} STRINGS {s}\nFUNCTION {misc} {\"m\" write$}\nREAD\n"
                 b"FUNCTION {show} {stack$ i s newline$ write$ newline$ int.to.str$ write$ newline$}\n"
                 b"FUNCTION {of.entry} {show t write$ newline$ n int.to.str$ write$ newline$}\nFUNCTION {program} {")
PROGRAM_ENDS = [b"}\nEXECUTE {program}\nEXECUTE {show}\n", b"}\nITERATE {program}\nITERATE {of.entry}\n"]
PROGRAM_DATABASE = b'@misc{a, title = {A {\\ss}tory of: Two}, author = "Ann {\\"O}z and de la Tour, Jr, B"}\n@book{b, note = {n} # " o"}\n'


class Maker(Seeded):
    def some(self, pieces, counts, between=b" "):
        return between.join(self.pick(pieces) for _ in range(self.pick(counts)))

    # ---- databases ----

    def field(self):
        name = self.pick(FIELDS)
        value = b"{" + self.pick(KEYS) + b"}" if name.lower() == b"crossref" else self.pick(VALUES)
        return b",\n " + name + b" = " + value

    def entry(self):
        opening, closing = self.pick([(b"{", b"}"), (b"{", b"}"), (b"(", b" )")])
        fields = b"".join(self.field() for _ in range(self.pick([0, 1, 2, 4])))
        return b"@" + self.pick([b"misc", b"Book", b"late", b"M\xefsc", b"l\x7fte"]) + opening + self.pick(KEYS) + fields + self.pick([b"", b","]) + closing

    def item(self):
        return self.pick([self.entry(), self.entry(), self.entry(), b'@string{s = "S" # t}', b"@string{t={ T }}", b"@string{T\xe9 = s # s\x7f}",
                          b"@string(S = s # x)", b'@preamble{"p" # s # {  q }}', b"@comment{@misc{c}}", b"text"])

    def database(self):
        text = b"\n".join(self.item() for _ in range(self.pick([2, 5, 10])))
        kind = self.random.random()
        if kind < 0.2:
            return self.some(DATABASE_PIECES, [5, 20, 40], b"")
        return self.hurt(text) if kind < 0.4 else text

    def hurt(self, text):
        """Some bytes are changed, or the end goes."""
        if self.random.random() < 0.3:
            return text[:self.random.randrange(len(text) + 1)]
        changed = bytearray(text)
        for _ in range(self.pick([1, 2, 3]) if text else 0):
            changed[self.random.randrange(len(changed))] = self.pick(b"{}\"@,=#( )\n\x00a%'\\\x7f\x80\xff")
        return bytes(changed)

    # ---- styles ----

    def style(self):
        text = DECLARED
        if self.random.random() < 0.5:
            text += b"FUNCTION {default.type} {" + self.some(TOKENS, [1, 3]) + b"}\n"
        text += b"READ\n"
        for name in (b"f", b"g"):
            text += b"FUNCTION {" + name + b"} {" + self.some(TOKENS, [3, 10, 30]) + b"}\n"
        text += self.some(COMMANDS, [2, 4, 6], b"\n")
        kind = self.random.random()
        if kind < 0.1:
            return DECLARED + self.some(STYLE_PIECES, [5, 20, 40])
        return self.hurt(text) if kind < 0.25 else text

    # ---- jobs ----

    def aux(self):
        if self.random.random() < 0.2:
            return self.some(AUX_LINES, [1, 4, 8], b"\n")
        keys = b",".join(self.pick(KEYS) for _ in range(self.pick([1, 2, 4])))
        star = self.pick([b"", b"", b"\\citation{*}\n"])
        return self.pick([b"\\citation{" + keys + b"}\n" + star, star + b"\\citation{" + keys + b"}\n"]) + b"\\bibdata{d,e}\n\\bibstyle{s}\n"

    def job(self):
        files = {b"job.aux": self.aux(), b"d.bib": self.database(), b"s.bst": self.style(),
                 b"one.aux": b"\\citation{c}\n\\@input{two.aux}\n", b"two.aux": b"\\@input{job.aux}\n\\citation{C}\n",
                 b"\xc3\xa9.aux": b"\\citation{\xe9}\n", b"x\x7f.aux": b"\\citation{d\x7f}\n", b"\x7f.bib": b"@misc{d\x7f, no\x7fte = {n}}"}
        if self.random.random() < 0.3:
            files[b"e.bib"] = self.database()
        options = {"budget": self.pick([0, 20, 100, 1000, 10_000, 10_000]), "min_crossrefs": self.pick([0, 1, 2, 2, 3]),
                   "utf8": self.random.random() < 0.3, "line": self.pick([20, 30, 79]), "entry_max": self.pick([1, 3, 250]),
                   "global_max": self.pick([1, 4, 20_000])}
        return files, options

    def program(self):
        """A style whose one body has 50 tokens; then the stack is logged and the variables are written, outside entries or in two of them."""
        style = PROGRAM_STYLE + self.some(PROGRAM_TOKENS, [50]) + self.pick(PROGRAM_ENDS)
        files = {b"job.aux": b"\\citation{a,b}\n\\bibdata{d}\n\\bibstyle{s}\n", b"d.bib": PROGRAM_DATABASE, b"s.bst": style}
        return files, {"budget": 5000, "utf8": self.random.random() < 0.3}


def random_jobs(number, seed):
    """`number` jobs: their files and their options."""
    for place in range(number):
        yield Maker(seed * 1_000_003 + place).job()


def random_programs(number, seed):
    """`number` programs of 50 tokens, as jobs."""
    for place in range(number):
        yield Maker(seed * 1_000_003 + place).program()


def worked_jobs_named():
    for job in (*worked.JOBS, *corner_jobs.JOBS):
        yield job.name, worked.files_of(job), job.options


def worked_jobs():
    for name, files, options in worked_jobs_named():
        yield files, options
