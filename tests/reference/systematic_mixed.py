"""Jobs in which each two properties of what the readers read meet: items, lines and commands that are chosen in turn, by fixed seeds, from all forms that
they have. An entry is in braces or in parentheses, of a declared type or of none, cited, named or neither, the first of its key or a second one; its fields
are of each kind, in each spelling, with values of each form; and one in four lacks a token or has a wrong one. What they give isn't written out: they are a
part of the jobs of systematic_jobs.py.
"""

import itertools

from seeded import Seeded
from systematic_turns import SHOW_ALL
from worked_jobs import Job

# %d is a number of three.
KEYS = [b"k%d", b"k%d", b"k%d", b"K%d", b"p%d", b"p%d", b"P%d", b"q%d", b"Q%d", b"q%d", b"", b"*", b"\xc9%d", b"\xe9%d", b'"%d', b"#%d", b"{%d", b"=%d", b"%%%d", b"@%d", b"(%d", b"k%d)", b"K%d)", b"%d", b"k%d}", b"k\xe9%d", b"K\xe9%d"]
CITED = [b"k%d", b"K%d", b"k%d", b"k%d", b"p%d", b"q%d", b"P%d", b"none%d", b"", b"*", b"k\xe9%d", b'"%d', b"#%d", b"{%d", b"=%d", b"%%%d", b"@%d", b"(%d", b"%d", b"k%d)", b"Q%d", b"K\xe9%d", b"k\xe9%d"]
TYPES = [b"misc", b"misc", b"MISC", b"book", b"Book", b"late", b"Other", b"m", b"title", b"skip$", b"c%d"]
FIELDS = [b"title", b"title", b"Title", b"note", b"note", b"NOTE", b"crossref", b"crossref", b"CrossRef", b"extra", b"Extra", b"misc", b"n"]
PARTS = [b"{T}", b'"T"', b'" q "', b'"\tr"', b"{ a\t b }", b'"a \r\n b"', b"{}", b'""', b"{ }", b"12", b"007", b"s", b"S", b"t", b"m", b"M", b"zz", b"ZZ", b'{"}', b'"{"}"', b"{{}}", b"{\n}", b"{@misc{x}}", b"{\\}", b'"\\"', b'"%"', b"title", b"none"]
NAMES = [b"s", b"S", b"t", b"T", b"m", b"M", b"u", b"title", b"misc", b"none"]
GAPS = [b"", b"", b"", b" ", b"\n", b"\r\n", b"\t", b"  ", b"\n\n", b" \n "]
BETWEEN = [b"\n", b"\n", b"", b" ", b"\r\n", b"%", b"text }{", b'"', b"@comment", b"@comment{x}", b"\n\n", b"\n", b"\n", b" \t", b"@comment(@", b"=#,"]
FILES = [b"in%d.aux", b"in%d.aux", b"in%d.aux", b"job.aux", b"none%d.aux", b"in0", b"in%d.AUX", b"", b".aux", b"in%d.tex", b"in0.aux,in1.aux", b"*"]
DATABASES = [b"d", b"e", b"d.bib", b"e", b"none", b"none%d", b"D", b"", b".bib", b"d.BIB", b"e.bib.bib", b"*", b"\xe9", b"f"]
STYLES = [b"s", b"s", b"s", b"s.bst", b"S", b"none", b"", b"s,s", b"*"]
STYLE_NAMES = [b"f", b"g", b"F", b"h", b"i", b"t", b"I", b"title", b"Note", b"misc", b"Misc", b"late", b"m", b"crossref", b"skip$", b"top$", b"sort.key$", b"entry.max$", b"\xe9", b"f.g", b"a1", b"nosuch", b"book", b"x", b"default.type", b"A1", b"F.G", b"X\xe9", b"x\xe9", b"Skip$", b"m", b"M"]
STYLE_TOKENS = STYLE_NAMES + [b"#1", b"#-0", b"#007", b"#+1", b"#2147483647", b'"a"', b'""', b'"%"', b'" "', b"'f", b"'g", b"'Title", b"'skip$", b"'i", b"cite$", b"stack$", b"top$", b"write$", b"newline$", b"#1 'i :=", b"\"S\" 't :=",
                              b'"a"b', b"#1x", b"#99999999999", b"#", b"'", b"nosuch%", b"'nosuch", b"#2147483648", b"#-2147483648", b"=", b"1", b'"a""b"', b"#1#2", b"\"a\"'f"]
STYLE_GAPS = [b" ", b" ", b" ", b"\n", b"\t", b"\r\n", b" % x }\n", b"\n \n", b"\n%\n", b"  "]
STYLE_ENDS = [b"\n", b"\n\n", b"\n\n", b" ", b"", b"\n \n", b"\n%\n", b" x\n\n"]
WRONG_IN_STYLES = [b"{", b"}", b"=", b"1", b'"', b'"a', b"'", b"#x", b"%", b"READ", b"\n\n", b"{}", b"x", b","]
WRONG = [b"", b"", b"{", b"}", b"(", b")", b"=", b",", b"#", b'"', b"1x", b"a", b"@", b'"a}b"', b"{x}"]
SHOWN = (b'FUNCTION {show} {"<" swap$ duplicate$ missing$ {pop$ "-"} {"[" swap$ * "]" *} if$ * ">" * write$} '
         b"FUNCTION {entry} {cite$ write$ type$ write$ title show note show crossref show newline$ call.type$} ")


class Maker(Seeded):
    def numbered(self, text):
        return text.replace(b"%d", b"%d" % self.random.randrange(3)).replace(b"%%", b"%")

    def on_lines(self, tokens):
        """The tokens, one in four times with a mistake, and whitespace before each of them."""
        if self.random.randrange(4) == 0:
            place = self.random.randrange(1, len(tokens))
            tokens[place:place + self.random.randrange(2)] = [self.pick(WRONG)]
        return b"".join(self.pick(GAPS) + token if token else b"" for token in tokens)

    # ---- databases ----

    def value(self):
        parts = [self.pick(PARTS) for _ in range(self.pick([1, 1, 1, 2, 3]))]
        return [token for part in parts for token in (b"#", part)][1:]

    def field(self):
        name = self.pick(FIELDS)
        if name.lower() != b"crossref" or self.random.randrange(5) == 0:
            return [b",", name, b"=", *self.value()]
        parent = self.numbered(self.pick([*CITED[:11], b"NONE%d"]))
        return [b",", name, b"=", *self.pick([[b"{%s}" % parent], [b"{%s}" % parent[:1], b"#", b'"%s"' % parent[1:]]])]

    def entry(self):
        opening, closing = self.pick([(b"{", b"}"), (b"{", b"}"), (b"(", b")")])
        key = self.numbered(self.pick(KEYS))
        fields = [token for _ in range(self.pick([0, 1, 2, 3, 4])) for token in self.field()]
        return [b"@", self.numbered(self.pick(TYPES)), opening, key, *fields, *self.pick([[], [], [b","], [b","], [b",", b","]]), (b" " if b")" in key else b"") + closing]

    def item(self):
        opening, closing = self.pick([(b"{", b"}"), (b"(", b")")])
        kind = self.random.randrange(10)
        if kind < 2:
            return [b"@", self.pick([b"string", b"String"]), opening, self.pick(NAMES), b"=", *self.value(), closing]
        return [b"@", self.pick([b"preamble", b"PREAMBLE"]), opening, *self.value(), closing] if kind == 2 else self.entry()

    def database(self, number):
        return b"".join(self.pick(BETWEEN) + self.on_lines(self.item()) for _ in range(number)) + self.pick([b"", b"\n", b" ", b"\n\n"])

    # ---- .aux files ----

    def argument(self, pieces):
        chosen = [self.numbered(self.pick(pieces)) for _ in range(self.pick([1, 1, 1, 2, 3]))]
        if pieces is FILES and self.random.randrange(3):
            return chosen[0] + b"}"
        return b",".join(chosen) + self.pick([b"}", b"}", b"}", b"}", b"}", b"} \t", b"}\r", b"", b" }", b"}x", b"} x", b"}}", b",}", b"\t", b"%}", b" "])

    def line(self):
        command, pieces = self.pick([(b"\\citation", CITED), (b"\\citation", CITED), (b"\\citation", CITED), (b"\\@input", FILES), (b"\\@input", FILES), (b"\\bibdata", DATABASES),
                                     (b"\\bibstyle", STYLES), (b"\\relax", CITED)])
        return self.pick([b""] * 12 + [b" ", b"%", b"\t", b"x"]) + command + self.pick([b""] * 20 + [b" ", b"x", b"%"]) + b"{" + self.argument(pieces)

    def lines(self, number):
        return b"\n".join(self.line() for _ in range(number)) + self.pick([b"", b"\n", b"\n\n", b" "])

    # ---- styles ----

    def name(self):
        return self.pick(STYLE_NAMES) if self.random.randrange(3) else b"u%d" % self.random.randrange(6)

    def names(self):
        return [b"{", *[self.name() for _ in range(self.pick([0, 1, 1, 2]))], b"}"]

    def body(self, depth=0):
        tokens = []
        for _ in range(self.pick([0, 1, 2, 3])):
            tokens += self.body(depth + 1) + [b"pop$"] if depth < 3 and self.random.randrange(4) == 0 else [self.pick(STYLE_TOKENS)]
        return [b"{", *tokens, b"}"]

    def command(self):
        word = self.pick([b"ENTRY", b"INTEGERS", b"STRINGS", b"FUNCTION", b"FUNCTION", b"FUNCTION", b"MACRO", b"READ", b"EXECUTE", b"EXECUTE", b"ITERATE", b"REVERSE", b"SORT", b"bogus"])
        rest = {b"ENTRY": lambda: self.names() + self.names() + self.names(), b"INTEGERS": self.names, b"STRINGS": self.names, b"FUNCTION": lambda: [b"{", self.pick([self.name(), b"u%d" % self.random.randrange(6)]), b"}", *self.body()],
                b"MACRO": lambda: [b"{", self.name(), b"}", b"{", self.pick([b'"M"', b'""', b'" a  b "', b'"%"', b'"{"', b"x"]), b"}"], b"READ": list, b"SORT": list, b"bogus": list}
        tokens = [self.pick([word, word, word.lower(), word.title()]), *rest.get(word, lambda: [b"{", self.name(), b"}"])()]
        if self.random.randrange(3) == 0 and len(tokens) > 1:
            place = self.random.randrange(1, len(tokens))
            tokens[place:place + self.random.randrange(2)] = [self.pick(WRONG_IN_STYLES)]
        return b"".join(token + self.pick(STYLE_GAPS) for token in tokens) + self.pick(STYLE_ENDS)

    def commands(self, number):
        return b"".join(self.command() for _ in range(number))


def mixed_databases():
    """Two databases with items of all kinds, and keys that are cited before a star, behind one or without one."""
    for number in range(70):
        made = Maker(number)
        keys = [made.numbered(made.pick(CITED)) for _ in range(made.pick([1, 3, 6, 9]))]
        star = made.random.randrange(len(keys) + 1)
        keys[star:star] = [b"*"] * (number % 3 == 0)
        databases = {b"%s.bib" % name: made.database(made.pick([3, 15, 30])) for name in (b"d", b"e", b"f")[:1 + number % 3]}
        yield Job(f"mixed databases {number}", SHOWN + b"ITERATE {entry} " + SHOW_ALL, aux=b"\\citation{%s}\n\\bibdata{%s}\n\\bibstyle{s}\n" % (b",".join(key.replace(b"}", b"") for key in keys), b",".join(databases)),
                  others=databases, options={"min_crossrefs": number // 3 % 5}, database=databases[b"d.bib"],
                  declared=(b'ENTRY {title note}{n}{} ' + b'MACRO {m} {" M  a "} MACRO {u} {""} ' * (number % 2) + b"FUNCTION {misc} {} FUNCTION {book} {newline$} FUNCTION {c0} {} "
                            + b'FUNCTION {default.type} {"d" top$} ' * (number // 2 % 2) + b"READ FUNCTION {late} {} "))


def mixed_parents():
    """Whole entries of few keys, most of which name another, a missing one or themselves: chains and rings of parents, with fields that are empty or not there, cited in any order."""
    spelled = [b"k", b"K", b"l", b"m", b"p", b"P", b"q", b"r", b"", b"K\xe9", b"P\xc9", b"None", b"none"]
    for number in range(60):
        made = Maker(3000 + number)
        few = made.random.sample(spelled, made.pick([4, 7, 12]))
        fields = [b"", b",title={%d}", b",title={}", b",note={n%d}", b",note={},title={%d}", b",title={ }"]
        entries = [b"@%s{%s%s%s}" % (made.pick([b"misc", b"other"]), key, made.numbered(made.pick(fields)), made.pick([b"", *[b",crossref={%s}" % made.pick(few) for _ in range(5)]]))
                   for key in made.random.sample(few, len(few) - number % 2)]
        keys = [key for key in made.random.sample(few, made.random.randrange(1, len(few))) if key.lower() not in (b"p", b"q")] or [b"k"]
        keys += [b"*"] * (number % 10 == 0)
        yield Job(f"mixed parents {number}", SHOWN + b"ITERATE {entry}", aux=b"\\citation{%s}\n\\bibdata{d}\n\\bibstyle{s}\n" % b",".join(keys), database=b"\n".join(entries),
                  declared=b"ENTRY {title note}{n}{} FUNCTION {misc} {} FUNCTION {default.type} {} READ ", options={"min_crossrefs": made.pick([0, 1, 2, 2, 3, 3, 4])})


def parents_that_leave_before_their_children():
    """A parent that is named before another one which names it, and which has more children: the first leaves the list, and the second stays and names it no more, or both stay or leave."""
    for least, (first, second), title in itertools.product((1, 2, 3, 4), ((b"p", b"P"), (b"\xe9P", b"\xe9p")), (b"", b",title={T}")):
        yield Job(f"parents that leave before their children: {least}, {first}, {title}", SHOWN + b"ITERATE {entry}", aux=b"\\citation{K\xe9,k1,k2,k3}\n\\bibdata{d}\n\\bibstyle{s}\n",
                  database=b"@misc{k\xe9,crossref={%s}}@misc{k1,crossref={Q}}@misc{k2,crossref={q}}@misc{k3,crossref={q}}\n@misc{q,crossref={%s}}@misc{%s%s}" % (first, second, first, title), options={"min_crossrefs": least},
                  declared=b"ENTRY {title note}{n}{} FUNCTION {misc} {} READ ")


def mixed_aux_files():
    """Four .aux files with lines of all kinds, of which the top one has what a job needs at its beginning, at its end or not at all."""
    for number in range(70):
        made = Maker(1000 + number)
        needed = b"\\bibdata{d}\n\\bibstyle{s}\n"
        top = made.pick([b"", b"\\@input{in0.aux}\n", b"\\@input{in1.aux}\n"]) + made.lines(made.pick([3, 8, 15]))
        others = {b"in%d.aux" % place: made.pick([b"", b"\\@input{in2.aux}\n"]) + made.lines(made.pick([0, 2, 5, 9])) for place in range(3)}
        texts = {name + b".bib": made.database(2) for name in (b"d", b"e", b"D", b"")}
        yield Job(f"mixed .aux files {number}", SHOW_ALL, aux=(needed + top, top + b"\n" + needed, top)[number % 3], others={**others, **texts}, database=texts[b"d.bib"])


def mixed_styles():
    """Commands of all kinds before READ and behind it."""
    for number in range(80):
        made = Maker(2000 + number)
        declared = b"FUNCTION {f} {\"F\" top$} FUNCTION {g} {cite$ write$ newline$} INTEGERS {i} STRINGS {t} MACRO {m} {\"M\"}\n\n" * (number % 3 > 0) + made.commands(made.pick([0, 1, 3, 6])) + (b"\n\nENTRY {title note}{n}{v}\n\nFUNCTION {misc} {cite$ top$}\n\nFUNCTION {set} {cite$ 'sort.key$ :=}\n\nREAD\n\nITERATE {set}\n\n" if number % 11 else b"\n\nREAD\n\n")
        shown = b"".join(b"EXECUTE {%s}\n\nITERATE {%s}\n\n" % (name, name) for name in (b"f", b"g", b"\xe9", b"f.g", b"a1", b"x\xe9", b"u0", b"u1", b"u2", b"u3", b"u4", b"u5", b"misc"))
        yield Job(f"mixed styles {number}", made.commands(made.pick([3, 6, 9])) + b"\n\n" + shown + made.commands(2) + made.pick([b"", b"\n", b" "]), declared=declared,
                  aux=b"\\citation{p1,k1,*}\n\\bibdata{d}\n\\bibstyle{s}\n",
                  database=b"@misc{k1,title={[} # m # f # h # u0 # u1 # u2 # u3 # a1 # x # {]},note={N},crossref={p1},i=t}@book{p1,title=f,x={X}}@late{q,note={}}@misc{b,title={[} # g # M # u4 # u5 # {]}}")


def macros_of_all_kinds():
    """Macros with each byte at both ends of their text and inside it, in commands on lines of each form, named as all else may be named; a value shows each whole, between two other parts."""
    shapes = [b"MACRO {%n} {\"%t\"}\n", b"Macro {%n} {\"%t\"} % }\r\n", b"macro\n{\t%n}\n%\n{ \"%t\"\t}", b" MACRO{%n}{\"%t\"}"]
    names = [b"m%d", b"M%d", b"\xe9%d", b"m.$%d", *dict.fromkeys(name for name in STYLE_NAMES if name.lower() == name)]
    for before in (b"ENTRY {title note}{n}{} INTEGERS {i} STRINGS {t} FUNCTION {misc} {} ", b"bogus\n\n"):
        macros, entries = [], []
        for number, (byte, shape) in enumerate((byte, shape) for byte in range(256) if byte not in b'"\n' for shape in (b"%s", b" %s a%s", b"a%s %s")):
            name, text = names[number] if 4 <= number < len(names) else names[number % 4] % number, shape.replace(b"%s", bytes([byte]))
            macros.append(shapes[number % 4].replace(b"%n", name).replace(b"%t", text))
            entries.append(b"@misc{k%d,title={[} # %s # {]},note=%s}" % (number, (name, name.title())[number % 2], name))
        yield Job(f"macros of all kinds, {before[:5]}", SHOWN + b"ITERATE {entry}", declared=before + b"".join(macros) + b"\n\nENTRY {title note}{n}{}\n\nFUNCTION {misc} {}\n\nREAD\n\n",
                  aux=b"\\citation{*}\n\\bibdata{d}\n\\bibstyle{s}\n", database=b"\n".join(entries))


def all_mixed():
    return itertools.chain(mixed_databases(), mixed_parents(), parents_that_leave_before_their_children(), mixed_aux_files(), mixed_styles(), macros_of_all_kinds())
