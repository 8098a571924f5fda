"""Rows of databases: keys that are cited, a database, and what it gives, worked by hand. Each is a job of its own, whose style shows each entry's key, a `=` or, where
the style doesn't have its type, a `?`, and its `crossref`, its `title` and its `booktitle`, each with a `;`, and a `-` for one that is missing; and then the preamble.
"""

from worked_jobs import Job, error

DECLARED = b'ENTRY {title booktitle}{}{} MACRO {jan}{"January"} FUNCTION {misc}{} FUNCTION {book}{} READ '
SHOWS = (b'FUNCTION {v} {duplicate$ missing$ {pop$ "-"} \'skip$ if$ ";" * write$} '
         b'FUNCTION {f} {cite$ write$ type$ empty$ {"?"} {"="} if$ write$ crossref v title v booktitle v newline$} ITERATE {f} '
         b'FUNCTION {p} {"[" preamble$ * "]" * write$ newline$} EXECUTE {p}')


def wrong(text, line=1, file=b"d.bib"):
    return error(text, line, file)


def warned(text, line=1, file=b"d.bib"):
    return b"Warning--%s--line %d of file %s" % (text, line, file)


def row(name, keys, database, entries, messages=(), preamble=b"", least=2, second=None):
    """A job that cites these keys; `second` is the text of a second database, `e.bib`."""
    aux = b"\\citation{%s}\n\\bibdata{d%s}\n\\bibstyle{s}\n" % (keys, b"" if second is None else b",e")
    others = {} if second is None else {b"e.bib": second}
    found = [] if second is None else [b"Database file #2: e.bib"]
    return Job(name, SHOWS, aux=aux, database=database, declared=DECLARED, others=others, options={"min_crossrefs": least}, messages=[*found, *messages],
               bbl=entries + b"[" + preamble + b"]\n", status=2 if any(line.startswith(b"Error") for line in messages) else 0)


ROWS = [
    # ---- strings, values and what is stored ----
    row("a string in its own definition, a name that is no string, and whitespace across parts", b"k",
        b'@string{s = "x" # s}\n@misc{k, title = s # " y " # zz # {  z}}', b"k=-;x y z;-;\n",
        [warned(b'string name "s" is used in its own definition'), warned(b'string name "zz" is undefined', 2)]),
    row("a name twice in one value, each spelled as it stands", b"k", b"@misc{k, title = zz #\nZZ}", b"k=-;;-;\n",
        [warned(b'string name "zz" is undefined'), warned(b'string name "ZZ" is undefined', 2)]),
    row("macros of the style, and a later string in the place of one", b"k,j", b"@misc{k,title=JAN # { 1}}@string{jan={J}}@misc{j,title=jan}",
        b"k=-;January 1;-;\nj=-;J;-;\n"),
    row("a string keeps its ends, a field loses one space at each", b"k", b"@string(s={ x })@misc{k,title={a} # s # {b},booktitle=s}",
        b"k=-;a x b;x;\n"),
    row("preambles are joined, and keep their ends", b"k", b'@preamble{ {a } # {b}}@misc{k}@preamble(" c" # zz)', b"k=-;-;-;\n",
        [warned(b'string name "zz" is undefined')], preamble=b"a b c"),
    row("quotes in braces, braces in quotes", b"k", b'@misc{k,title={a "b" {c}},booktitle="a{"}b"}', b'k=-;a "b" {c};a{"}b;\n'),
    row("carriage returns and tabs are whitespace, other bytes below 32 aren't", b"k", b"@misc{k,\r\ntitle={A\r\n\tB\x00\x0b C}\r\n}\r\n",
        b"k=-;A B\x00\x0b C;-;\n"),
    row("bytes from 128 up", b"\xe9", b"@misc{\xe9,title={\xc3\xa9}}@misc{\xc9,title={B}}", b"\xe9=-;\xc3\xa9;-;\n"),
    row("a last comma, and both delimiters", b"k,j", b'@misc{k, title={A}, }@MISC(j,TITLE="B",)', b"k=-;A;-;\nj=-;B;-;\n"),
    row("of a field that isn't declared nothing is logged but its faults", b"k", b"@misc{k, note = zz, note = zz, title={A}}", b"k=-;A;-;\n"),
    row("of an entry that isn't stored nothing is logged", b"k", b"@misc{j, title = zz} @misc{k}", b"k=-;-;-;\n"),
    row("nor is anything but its faults, where it has some", b"k", b"@misc{j, title = zz, title = {B}, note} @misc{k}", b"k=-;-;-;\n",
        [wrong(b"I was expecting an =")]),
    row("a string of a value that ends in a fault isn't logged", b"k", b"@misc{k, title = zz # ,}", b"k=-;-;-;\n",
        [wrong(b"I was expecting a value")]),

    # ---- each fault and each warning, with its line ----
    row("no name after an at sign", b"k", b"@ {k}@misc{k}", b"k=-;-;-;\n", [wrong(b"I was expecting a name")]),
    row("no name for a field", b"k", b"@misc{k, title={A}, =}", b"k=-;A;-;\n", [wrong(b"I was expecting a name")]),
    row("no name for a string", b"k", b"@string{ = {A}}@misc{k}", b"k=-;-;-;\n", [wrong(b"I was expecting a name")]),
    row("no comma in braces", b"k", b"@misc{k title={A}}", b"k=-;-;-;\n", [wrong(b"I was expecting a , or a }")]),
    row("no comma in parentheses", b"k", b"@misc(k,title={A}\n}", b"k=-;A;-;\n", [wrong(b"I was expecting a , or a )", 2)]),
    row("no closing delimiter, which is the item's own", b"k", b"@string{jan = {x}, t = {y}}@preamble({x}}@misc{k,title=jan}", b"k=-;x;-;\n",
        [wrong(b"I was expecting a }"), wrong(b"I was expecting a )")], preamble=b"x"),
    row("no value", b"k", b"@misc{k, title = \n}", b"k=-;-;-;\n", [wrong(b"I was expecting a value", 2)]),
    row("a brace that closes nothing", b"k", b'@misc(k, title = "a}b")', b"k=-;-;-;\n", [wrong(b"Unbalanced braces")]),
    row("a repeated entry", b"k", b"@misc{k, title={A}}\n@misc{K, title={B}}", b"k=-;A;-;\n", [wrong(b"Repeated entry", 2)]),
    row("a field that the entry has", b"k", b"@misc{k, title={A}, TITLE={B},}", b"k=-;A;-;\n", [warned(b'I\'m ignoring k\'s extra "TITLE" field')]),
    row("a type that the style doesn't have", b"k", b"\n@other\n{K\n}", b"k?-;-;-;\n", [warned(b'entry type for "K" isn\'t style-file defined', 3)]),
    row("at signs are bytes of names", b"k,j", b"@@misc{k}@comment@misc{j}", b"k?-;-;-;\nj?-;-;-;\n",
        [warned(b'entry type for "k" isn\'t style-file defined'), warned(b'entry type for "j" isn\'t style-file defined')]),
    row("a parenthesis is a byte of keys", b"k)", b"@misc(k) )", b"k)=-;-;-;\n"),

    # ---- ends of files, and a second file ----
    row("blank lines at the end", b"k", b"@misc{k,\n\n", b"k=-;-;-;\n", [wrong(b"Illegal end of database file", 2)]),
    row("the end in a value", b"k", b'@misc{k, title = {A}, booktitle = "cu', b"k=-;A;-;\n", [wrong(b"Illegal end of database file")]),
    row("the end in a comment", b"k", b"@misc{k}@comment{", b"k=-;-;-;\n"),
    row("the empty key", b",k", b"@misc{,title={E}}@misc{k}", b"=-;E;-;\nk=-;-;-;\n"),
    row("a fault that ends the first file, and strings in the second", b"k,j", b"@string{s={A}}@misc{k", b"k=-;-;-;\nj=-;A;-;\n",
        [wrong(b"Illegal end of database file"), wrong(b"Illegal end of database file", 3, b"e.bib")], second=b"\n@misc{j, title=s\n} @misc{\n"),
    row("warnings and faults of a second file", b"k,j", b"@misc{k}", b"k=-;-;-;\nj?-;B;-;\n",
        [wrong(b"Repeated entry", 1, b"e.bib"), warned(b'entry type for "j" isn\'t style-file defined', 2, b"e.bib"), warned(b'string name "zz" is undefined', 3, b"e.bib"), warned(b'I\'m ignoring j\'s extra "title" field', 4, b"e.bib"), warned(b'string name "s" is used in its own definition', 5, b"e.bib"), wrong(b"I was expecting a name", 5, b"e.bib"), wrong(b"I was expecting a { or a (", 6, b"e.bib")],
        second=b"@misc{k,title={A}}\n@article{j,\ntitle=zz # {B},\ntitle={C}}\n@string{s=s} @=\n@misc j"),

    # ---- references to parents ----
    row("nested references", b"c", b"@misc{c, crossref={p}}\n@misc{p, title={P}, crossref={g}}\n@book{g, booktitle={G}}", b"c=-;P;-;\n",
        [b'Warning--you\'ve nested cross references--entry "c" refers to entry "p"']),
    row("nested references to parents that stay", b"c", b"@misc{c, crossref={p}}\n@misc{p, title={P}, crossref={g}}\n@book{g, booktitle={G}}",
        b"c=p;P;-;\np=g;P;G;\ng=-;-;G;\n", [b'Warning--you\'ve nested cross references--entry "c" refers to entry "p"'], least=1),
    row("a parent before its child", b"c", b"@book{p, booktitle={V}}\n@misc{c, crossref={p}}", b"c=-;-;-;\n",
        [b'Error--A bad cross reference--entry "c" refers to entry "p", which doesn\'t exist', b'Warning--I didn\'t find a database entry for "p"']),
    row("a parent before its child, where no reference is asked for", b"c", b"@book{p, booktitle={V}}\n@misc{c, crossref={p}}", b"c=-;-;-;\n",
        [b'Error--A bad cross reference--entry "c" refers to entry "p", which doesn\'t exist', b'Warning--I didn\'t find a database entry for "p"'],
        least=0),
    row("a parent whose first entry isn't stored", b"k", b"@misc{p,title={1}}@misc{k,crossref={p}}@misc{p,title={2}}", b"k=-;2;-;\n"),
    row("a parent that is cited later", b"c,p", b"@misc{c,crossref={P}}@book{p,title={T}}", b"c=p;T;-;\np=-;T;-;\n"),
    row("a cited parent before its child", b"c,p", b"@book{p,title={T}}@misc{c,crossref={P}}", b"c=p;T;-;\np=-;T;-;\n"),
    row("each entry takes what its parent has when its turn comes", b"a",
        b"@misc{a,crossref={b}}@misc{b,crossref={c}}@misc{c,crossref={d}}@misc{d,title={D}}", b"a=b;-;-;\nb=c;-;-;\nc=d;D;-;\nd=-;D;-;\n",
        [b'Warning--you\'ve nested cross references--entry "a" refers to entry "b"', b'Warning--you\'ve nested cross references--entry "b" refers to entry "c"'],
        least=1),
    row("the same list in the other order", b"d,c,b,a", b"@misc{a,crossref={b}}@misc{b,crossref={c}}@misc{c,crossref={d}}@misc{d,title={D}}",
        b"d=-;D;-;\nc=d;D;-;\nb=c;D;-;\na=b;D;-;\n",
        [b'Warning--you\'ve nested cross references--entry "b" refers to entry "c"', b'Warning--you\'ve nested cross references--entry "a" refers to entry "b"']),
    row("an ignored second reference counts nothing", b"k", b"@misc{k,crossref={p},crossref={q}}@misc{q}@misc{p}", b"k=-;-;-;\n",
        [warned(b'I\'m ignoring k\'s extra "crossref" field')]),
    row("a parent in the second file", b"c", b"@misc{c,crossref={p}}", b"c=p;T;-;\np=-;T;-;\n", least=1, second=b"@book{p,title={T}}"),
    row("all entries, with keys cited before and after", b"b,*,c,e", b"@misc{a}@misc{b}@misc{c}@misc{d}", b"b=-;-;-;\na=-;-;-;\nc=-;-;-;\nd=-;-;-;\n",
        [b'Warning--I didn\'t find a database entry for "e"']),
    row("all entries: the parent was cited and has no entry", b"*,p", b"@misc{k,crossref={P}}", b"k=-;-;-;\n",
        [b'Error--A bad cross reference--entry "k" refers to entry "p", which doesn\'t exist', b'Warning--I didn\'t find a database entry for "p"']),

    # ---- entries that aren't wanted, which are passed over: each form of value, and faults within them ----
    row("each form of value: braces and a quote in a group, a quote in braces in quotes, digits, names that no string has, and several parts", b"k",
        b'@misc{a, title = {x {y} " z}, note = "q {"} r", year = 1990, month = nn, howpublished = {a} # "b" # cc # 7}@misc{k, title = {T}}',
        b"k=-;T;-;\n"),
    row("other names, whitespace and delimiters: what a block doesn't show, and a comma before the end", b"k",
        b"@misc{a,\r\n\tTitle\t=\t{x},\n  a-b_c+1 = 3 ,\n  note                     =                {y},x=z,\n}@misc( b ,title={x})@misc{k, title = {T}}",
        b"k=-;T;-;\n"),
    row("braces and quotes at and after the ends of blocks", b"k",
        b'@misc{a, note = {0123456789abcde{f}0123456789abcdef{}0123456789abcdefg}, note = "0123456789abcdef{"}0123456789abcdef0"}@misc{k, title = {T}}',
        b"k=-;T;-;\n"),
    row("an entry within a value", b"k", b"@misc{a, note = {@misc{k, title = {U}}}}@misc{k, title = {T}}", b"k=-;T;-;\n"),
    row("no comma", b"k", b"@misc{a, note = {x} year = 1}@misc{k, title = {T}}", b"k=-;T;-;\n", [wrong(b"I was expecting a , or a }")]),
    row("no comma, in parentheses", b"k", b"@misc(a, note = 1}\n@misc{k, title = {T}}", b"k=-;T;-;\n", [wrong(b"I was expecting a , or a )")]),
    row("no sign after a name", b"k", b"@misc{a,\nnote {x}}@misc{k, title = {T}}", b"k=-;T;-;\n", [wrong(b"I was expecting an =", 2)]),
    row("no name before a sign", b"k", b"@misc{a, note = 1, = {x}}@misc{k, title = {T}}", b"k=-;T;-;\n", [wrong(b"I was expecting a name")]),
    row("no value after a sign", b"k", b"@misc{a, note = ,\n year = 1}@misc{k, title = {T}}", b"k=-;T;-;\n", [wrong(b"I was expecting a value")]),
    row("a brace too many in quotes", b"k", b'@misc{a, note = "x\n}"}@misc{k, title = {T}}', b"k=-;T;-;\n", [wrong(b"Unbalanced braces", 2)]),
    row("the file ends in a value", b"k", b"@misc{k, title = {T}}@misc{a, note =\n{x {y}", b"k=-;T;-;\n",
        [wrong(b"Illegal end of database file", 2)]),
    row("the file ends with an entry that isn't wanted", b"k", b"@misc{k, title = {T}}@misc{a,n=1}", b"k=-;T;-;\n"),
    row("a string, a comment and a preamble between entries that aren't wanted", b"k",
        b"@misc{a, note = {x}}@string{s = {T}}@misc{b, note = s}@comment{c}@misc{c, note = {x}}@preamble{{P}}@misc{d}@misc{k, title = s}",
        b"k=-;T;-;\n", preamble=b"P"),
    row("entries that aren't wanted may be there twice, and one that is stored may not", b"k",
        b"@misc{a, note = 1}@misc{A, note = 2}@misc{k, title = {T}}@misc{a}\n@misc{K, note = {x}}@misc{a}", b"k=-;T;-;\n",
        [wrong(b"Repeated entry", 2)]),
    row("their references count for nothing", b"k", b"@misc{a, crossref = {p}}@misc{b, crossref = {p}}@misc{p, title = {P}}@misc{k, title = {T}}",
        b"k=-;T;-;\n"),
    row("text between entries, whitespace in their heads, and keys without a byte", b"k",
        b"@misc{a, note = 1} text, x = {y} @ misc\n{ b , note = 1 } @misc{}@misc{,note=1}@misc{k, title = {T}}", b"k=-;T;-;\n"),
]
