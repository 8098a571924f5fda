"""Jobs that go through all of something: each byte at each place of the files, each built-in function with operands of each kind, each command before READ,
each name that is defined from the beginning, sizes around those that something may end at, children with their parents, files that end at each place, what
stands behind each mistake, and all short texts over some pieces; and what systematic_texts.py, systematic_turns.py, systematic_readings.py and
systematic_mixed.py have. What they give isn't written out: the built program is compared with the reference over them, as over jobs that are made from a seed
(compare_with_program.py).

    python3 systematic_jobs.py        how large each job is, and how the reference's log of it ends
"""

import itertools
import re

from interpreter import BUILT_IN
from product import Options, run
from systematic_mixed import all_mixed
from systematic_readings import all_readings
from systematic_texts import all_texts, in_groups, jobs_of, style, texts_of
from systematic_turns import all_turns
from worked_jobs import AUX, DECLARED, Job, citing, files_of

# One byte of each kind stands often: digits and letters behave alike.
BYTES = [bytes([byte]) for byte in range(256)]
# What a literal string of a style may have: no quote and no line feed.
LITERAL = [byte for byte in BYTES if byte not in (b'"', b"\n")]
# Literals of each kind. The entry has no title.
KINDS = [b"#1", b'"a"', b"'skip$", b"title"]
FIRST_NAMES = [*BUILT_IN, b"crossref", b"sort.key$", b"entry.max$", b"global.max$", b"misc", b"title", b"Crossref", b"SKIP$"]
SHOW = b'FUNCTION {f} {cite$ write$ "=" write$ title missing$ {"-"} {title} if$ write$ newline$} ITERATE {f}'


def lines(texts):
    return b"\n".join(texts) + b"\n"


def each_a_database(name, texts, first=b""):
    """Each text is a database of its own, so that the next is read whatever is open at its end; `k` is another key in each."""
    others = {b"x%d.bib" % place: text.replace(b"k", b"k%d." % place) for place, text in enumerate(texts)}
    return Job(name, SHOW, aux=b"\\citation{*}\n\\bibdata{" + b",".join((b"d", *others)) + b"}\n\\bibstyle{s}\n", database=first, others=others)


def apart(texts):
    """Pieces of a style one behind another. What one leaves open is closed, and what is wrong in it ends with an empty line."""
    return b"".join(text + b"\n}}}}\n\n" for text in texts)


# ---- each byte ----

def bytes_of_aux():
    """In a command, before and behind it, in each argument and behind it."""
    shapes = [b"%s\\citation{a}", b"\\cita%stion{b}", b"\\citation%s{c}", b"\\citation{d%se}", b"\\citation{f}%s", b"\\citation{%s}", b"\\@input{g%s.aux}",
              b"\\@input{h.au%sx}"]
    # Another of these commands is logged, so it is seen which are known.
    for command in (b"\\bibdata", b"\\bibstyle", b"\\@input"):
        shapes += [b"%s" + command + b"{i}", command[:4] + b"%s" + command[4:] + b"{i}", command + b"%s{i}", command + b"{i}%s", command + b"{%s}", command + b"{i%sj}"]
    for shape in shapes:
        text = lines(shape % byte for byte in BYTES) + AUX
        yield Job("each byte in " + shape.decode(), aux=text, database=b"@misc{a}@misc{b}@misc{c}@misc{f}", text=SHOW)
    # Of these only the first line counts.
    for byte in BYTES:
        name = b"x%sy" % byte
        yield Job(f"byte {byte[0]} in names of files", aux=b"\\citation{k}\n\\bibdata{%s}\n\\bibstyle{%s}\n" % (name, name), text=SHOW,
                  others={b"x.bib": b"@misc{k,title={X}}", b"y.bib": b"@misc{k,title={Y}}", b"x.bst": DECLARED + SHOW, b"y.bst": DECLARED + SHOW})


def bytes_of_databases():
    """At each place of an item."""
    shapes = [b"@%smisc{k,title={A}}", b"@mi%ssc{k,title={A}}", b"@misc%s{k,title={A}}", b"@misc{%sk,title={A}}", b"@misc{k%s,title={A}}", b"@misc(k%s,title={A})",
              b"@misc{k,%stitle={A}}", b"@misc{k,ti%stle={A}}", b"@misc{k,title%s={A}}", b"@misc{k,title=%s{A}}", b"@misc{k,title={A%sB}}",
              b'@misc{k,title="A%sB"}', b"@misc{k,title=s%s}", b"@misc{k,title=1%s2}", b"@misc{k,title={A}%s}", b"@misc{k,title={A}#%s{B}}", b"@misc{k,title={%s}}"]
    for shape in shapes:
        yield each_a_database("each byte in " + shape.decode(), (shape % byte for byte in BYTES), b"@string{s={S}}@string{sx={T}}")


def bytes_of_styles():
    """At each place of a command."""
    shapes = [b"%sEXECUTE {f}", b"EXE%sCUTE {f}", b"EXECUTE%s{f}", b"EXECUTE {%sf}", b"EXECUTE {f%s}", b"EXECUTE {f}%s", b"INTEGERS {j%d.%sk%d}", b"ENTRY {l%d.%sm%d}{}{}", b"FUNCTION {g%d%s} {}",
              b"FUNCTION {h%d} {#1%s pop$}", b'FUNCTION {l%d} {"a"%s pop$}', b"FUNCTION {m%d} {skip$%s skip$}", b"FUNCTION {n%d} {'skip$%s pop$}", b"FUNCTION {o%d} {#%s1 pop$}",
              b"FUNCTION {p%d} {%s}", b'FUNCTION {q%d} {"%s" pop$}']
    for shape in shapes:
        text = b'FUNCTION {f} {"F" top$}\n\n' + apart(shape.replace(b"%d", b"%d" % byte[0]) % byte for byte in BYTES)
        yield Job("each byte in " + shape.decode(), text)
    for shape in (b'MACRO {m%d%s} {"M"}', b'MACRO {m%d}%s {"M"}', b'MACRO {m%d} {"M%s "}', b'MACRO {m%d} {%s"M"}'):
        text = DECLARED.replace(b"READ ", b"\n\n") + apart(shape.replace(b"%d", b"%d" % byte[0]) % byte for byte in BYTES) + b"READ "
        yield Job("each byte in " + shape.decode(), SHOW, declared=text, aux=citing(b"*"), database=lines(b"@misc{k%d,title=m%d}" % (byte[0], byte[0]) for byte in BYTES))


# What gives a string or shows one, where a byte may stand in its operand.
STRINGS_WITH_A_BYTE = [b'"%s" purify$', b'"{\\a %s}" purify$', b'"{\\%s b}" purify$', b'"%s" width$ int.to.str$', b'"{\\a%s}" width$ int.to.str$', b'"{\\%s x}" width$ int.to.str$', b'"{\\a%s x}" width$ int.to.str$', b'"{\\i%s A}" "u" change.case$', b'"A%sB" "l" change.case$',
                       b'"a%sb" "u" change.case$', b'"A:%sB" "t" change.case$', b'"{\\%sA}" "l" change.case$', b'"{\\i%sA}" "u" change.case$', b'"Ab" "%s" change.case$', b'"a%s" add.period$',
                       b'"a%s}" add.period$', b'"{%s" text.length$ int.to.str$', b'"a%sb" #2 text.prefix$', b'"%s" empty$ int.to.str$', b'"A%sand B" num.names$ int.to.str$',
                       b'"A and%sB" num.names$ int.to.str$', b'"A a%sd B" num.names$ int.to.str$', b'"A%sB C" #1 "{ff }{vv }{ll}{ jj}" format.name$', b'"%sx Y" #1 "{vv}" format.name$',
                       b'"A B,%s" #1 "{ff}{ll}" format.name$', b'"%sa B" #1 "{f}" format.name$', b'"Ann Bo" #1 "{f%s}" format.name$', b'"Ann Bo" #1 "{%sf}" format.name$', b'"Ann Bo" #1 "%s" format.name$',
                       b'"Ann Bo C" #1 "{f{%s}}" format.name$', b'"%s" chr.to.int$ int.to.str$', b'"%s" write$ newline$ ""',
                       b'"a.%s" add.period$', b'"%sA B" #1 "{f}" format.name$']


def bytes_of_strings():
    """What each function on strings gives where the byte stands in its string."""
    for shape in STRINGS_WITH_A_BYTE:
        for utf8 in (False, True):
            body = b"\n".join(shape % byte + b" write$ newline$" for byte in LITERAL)
            yield style(f"each byte in {shape.decode()}, read as {'UTF-8' if utf8 else 'bytes'}", body, b"EXECUTE", options={"utf8": utf8})
    yield style("each code", b" ".join(b"#%d int.to.chr$ top$" % code for code in range(-130, 260)), b"EXECUTE")


# Where it may stand in a line of the list, of 20 bytes at most.
LINES_WITH_A_BYTE = [b"aaa%s" + b"b" * 20, b"a" * 19 + b"%sb", b"a" * 20 + b"%sb", b"a" * 21 + b"%sb", b"aa%s" + b"b" * 20, b"a" * 18 + b"%s", b"a" * 25 + b"%s", b"a" * 21 + b"%s%s" + b"b", b"a" * 21 + b" %s b"]


def bytes_of_lines():
    """Where a line is broken if the byte stands in it."""
    for shape in LINES_WITH_A_BYTE:
        body = b"\n".join(b'"' + shape.replace(b"%s", byte) + b'" write$ newline$' for byte in LITERAL)
        yield style("each byte in a line of " + shape.decode(), body, b"EXECUTE", options={"line": 20})


def with_a_made_byte(shape):
    """The call of a shape whose string is joined from its parts and what the function `b` gives."""
    return re.sub(rb'"[^"]*%s[^"]*"', lambda found: found[0].replace(b"%s", b'" b "') + b" *" * (2 * found[0].count(b"%s")), shape)


def bytes_that_are_made():
    """The same with a line feed and with a quote, which no literal string has: `int.to.chr$` and `quote$` make them. And where they are logged, compared and sorted by."""
    logged = [b'"%s" warning$', b'"%s" top$', b'"a%s" #1 +', b'"%s" "%s" change.case$', b'"%sb" chr.to.int$', b'"A%sB" #2 "{ll}" format.name$', b'"A%s," #1 "{%s" format.name$', b'"a%s" "a%s" =',
              b'"a%s" "a" =', b'"a%sbc" \'sort.key$ := sort.key$', b'"%s%s" \'s :=', b'"%s"']
    for made in (b"#10 int.to.chr$", b"quote$"):
        start = b"STRINGS {s} FUNCTION {b} {" + made + b"} FUNCTION {f} {"
        for utf8 in (False, True):
            body = b"\n".join(with_a_made_byte(shape) + b" write$ newline$" for shape in STRINGS_WITH_A_BYTE)
            yield Job(f"{made.decode()} in strings, read as {'UTF-8' if utf8 else 'bytes'}", start + body + b"} EXECUTE {f}", options={"utf8": utf8})
        shapes = [b'"%s"', b'" %s"', b'"%s "', b'"a %s %s"', *(b'"' + shape + b'"' for shape in LINES_WITH_A_BYTE)]
        yield Job(f"{made.decode()} in lines", start + b"\n".join(with_a_made_byte(shape) + b" write$ newline$" for shape in shapes) + b"} EXECUTE {f}", options={"line": 20})
        yield Job(f"{made.decode()} in the log", start + b" stack$\n".join(map(with_a_made_byte, logged)) + b"} ITERATE {f} SORT ITERATE {f} EXECUTE {f}", options={"entry_max": 3, "global_max": 1},
                  aux=citing(b"*"), database=b"@misc{k}@misc{j}")


# ---- files that end early, and what comes after a mistake ----

ALL_OF_AUX = b"\\relax\n\\citation{a, b}\n\\citation{c,C} \n \\citation{d}\n\\citation{e}x\n\\@input{none.aux}\n\\@input{x}\n\\bibdata{d}\n\\bibstyle{s}\n\\citation{*}\n\\citation{f}"
ALL_OF_DATABASES = (b'text @comment{x} @preamble{"P" # {q } # s}\n@STRING(T # = s)@string{ t = {T} # s # "u{"}" }\n@Misc { k , title = {A {b} c} # t # 12 ,\n title = "B" ,'
                    b' other = {o},crossref={p},}\n@book(j , title=zz )@misc{l,title={}}@other{m title={}}')
ALL_OF_STYLES = (b"INTEGERS { i j } STRINGS {s}%c\nMACRO {m}{\"M x\"}FUNCTION {f} { #-12 'i := \"a b\" 's := {i #0 <} {i #1 + 'i := s write$} while$ } % x {\n"
                 b"FUNCTION {misc} {'skip$ {f} if$}\nITERATE {f}\n\nEXECUTE { f } REVERSE{f} SORT")
BEHIND_MISTAKES = [b"", b" ", b"\t", b"\r", b"\x0c", b"%", b"% x", b" % x", b"x", b"}", b"{}", b"EXECUTE {h}", b"FUNCTION {h}", b'"']
MISTAKES = [b"bogus", b"1", b"EXECUTE h", b"EXECUTE {nosuch}", b"EXECUTE {1}", b"EXECUTE {h x}", b"FUNCTION {skip$} {}", b'FUNCTION {g} {"a', b"INTEGERS {x%d,", b'MACRO {m} {"M"}', b"READ",
            b"ENTRY {}{}{}", b"{", b"STRINGS {y%d 1}", b"FUNCTION {g} x", b"FUNCTION {g", b"SORT x"]


def files_cut_short():
    """Each beginning of an .aux file, of a database and of a style, with and without white at its end."""
    for end in (b"", b" ", b" \n\t"):
        others = {b"p%d.aux" % place: ALL_OF_AUX[:place] + end for place in range(len(ALL_OF_AUX) + 1)}
        yield Job(f"beginnings of an .aux file, and {end!r}", aux=AUX + lines(b"\\@input{%s}" % name for name in others), others=others, text=SHOW)
        others = {b"p%d.bib" % place: ALL_OF_DATABASES[:place].replace(b" k ", b" k%d " % place).replace(b"(j ", b"(j%d " % place) + end
                  for place in range(len(ALL_OF_DATABASES) + 1)}
        yield Job(f"beginnings of a database, and {end!r}", aux=b"\\citation{*}\n\\bibdata{" + b",".join(others) + b"}\n\\bibstyle{s}\n", others=others,
                  declared=b"FUNCTION {book}{}" + DECLARED, text=SHOW + b" FUNCTION {g} {preamble$ write$ newline$} EXECUTE {g}")
        for place in range(len(ALL_OF_STYLES) + 1):
            yield Job(f"a style's first {place} bytes, and {end!r}", ALL_OF_STYLES[:place] + end)
            if not end and place < 60:
                yield Job(f"the first {place} bytes of what is declared", declared=(b"ENTRY { title } { n } { t }" + DECLARED.replace(b"ENTRY {title}{}{}", b""))[:place])


def behind_mistakes():
    """Each mistake in a command with each line below it: where reading goes on, before READ and behind it."""
    pairs = [mistake.replace(b"%d", b"%d" % place) + b"\n" + below for mistake in MISTAKES for place, below in enumerate(BEHIND_MISTAKES)]
    for behind in (b"\nnone\n\nnone\n\n", b"\n\nnone\n \nnone\n\n"):
        texts = b"".join(pair + behind for pair in pairs)
        declared = b'MACRO {m} {"M"} FUNCTION {h} {}\n\n'
        yield Job("behind each mistake", texts, declared=declared + DECLARED)
        yield Job("behind each mistake before READ", texts, declared=declared + texts + DECLARED)


# ---- each function, command and name ----

def entries_and_commands():
    """Each command over up to three entries, where something is left on the stack, missing or logged."""
    bodies = [b"#1", b'"a" #2', b"+", b"cite$", b"title", b"'skip$ cite$", b"cite$ 'sort.key$ :=", b"title 'sort.key$ := sort.key$", b'"w" warning$ cite$ top$', b"#1 {cite$} {} if$", b"call.type$", b"misc",
              b"n #1 + 'n := n top$", b"t cite$ * 't := t top$", b"missing$", b"crossref", b"i #1 + 'i := i"]
    for body, number in itertools.product(bodies, range(4)):
        database = b"".join(b"@%s{%s,title={%s}}" % item for item in ((b"misc", b"b", b"B"), (b"other", b"C", b""), (b"misc", b"a", b"A"))[:number])
        yield Job(f"{number} entries, {body.decode()}", b"INTEGERS {i} FUNCTION {f} {" + body + b"} ITERATE {f} SORT REVERSE {f} EXECUTE {f} ITERATE {f}", aux=citing(b"*"), database=database,
                  declared=b"ENTRY {title}{n}{t} FUNCTION {misc} {cite$ write$} READ ")


def operands(name, kinds, command):
    """Each built-in function with three operands of these kinds in each order, and with fewer, and what it leaves."""
    for function in BUILT_IN:
        cases = [b" ".join(case) + b" " + function + b" stack$" for number in range(4) for case in itertools.product(kinds, repeat=number)]
        yield style(f"{function.decode()} {name}", b"\n".join(cases), command, database=b"@misc{k}", options={"budget": 10_000})


def commands_early():
    for words in itertools.permutations([b"ENTRY {title}{}{}", b"READ", b"EXECUTE {skip$}"]):
        yield Job("commands in another order", declared=b"\n\n".join(words), text=b"\n\nSORT\n\nITERATE {cite$}\n\nREVERSE {cite$}\n\nMACRO {m} {\"M\"}\n\nREAD\n\nENTRY {}{}{}")
    yield Job("commands before READ", declared=b"ENTRY {title}{}{}\n\nSORT\n\nITERATE {cite$}\n\nREVERSE {cite$}\n\nEXECUTE {skip$}\n\nsort\n\nMACRO {m} {\"M\"}\n\nREAD\n\n")
    for command in (b"EXECUTE", b"ITERATE", b"REVERSE"):
        yield style("literals left of " + command.decode(), b"#1 \"a\" 'skip$ {} 'title 'sort.key$ 'entry.max$ title", command)
        for name in FIRST_NAMES:
            yield Job(f"{command.decode()} of {name.decode()}", command + b" {" + name + b"}")


def names_twice():
    for shape in (b"ENTRY {%s}{}{}", b"ENTRY {}{%s}{}", b"ENTRY {}{}{%s}", b"INTEGERS {%s}", b"STRINGS {%s}", b"FUNCTION {%s} {}", b'MACRO {%s} {"M"}'):
        for name in FIRST_NAMES:
            yield Job(f"another {name.decode()} by {shape.decode()}", declared=b"%s\n\nENTRY {title}{}{}\n\nFUNCTION {misc}{}\n\nREAD\n\n" % (shape % name), text=SHOW)


def widths():
    """Texts of 1 to 30 words, at each of some lengths of a line."""
    text = b" ".join(b"%s" % (b"w" * (1 + place * 7 % 11)) for place in range(60))
    for line in (20, 21, 22, 30, 79, 80, 1000):
        body = b"\n".join(b'"' + text[:end] + b'" write$ newline$' for end in range(1, len(text), 7))
        yield style(f"lines of {line}", body, b"EXECUTE", options={"line": line})


def marks_before_files():
    """What some editors put before a file."""
    for mark, place in itertools.product((b"\xef\xbb\xbf", b"\xff\xfe", b"\xfe\xff\0"), range(5)):
        fronts = [mark if number == place else b"" for number in range(5)]
        aux = fronts[0] + b"\\citation{k}\n\\citation{j}\n\\@input{x.aux}\n\\bibdata{d}\n\\bibstyle{s}\n"
        yield Job(f"{mark!r} before file {place}", SHOW + fronts[4], aux=aux, others={b"x.aux": fronts[1] + b"\\citation{i}\n\\citation{h}\n"}, declared=fronts[2] + DECLARED,
                  database=fronts[3] + lines(b"@misc{%s,title={T}}" % key for key in (b"k", b"j", b"i", b"h")))


def names_of_lists():
    """A name in two of the lists of ENTRY, in one of them twice, or in a list of global variables."""
    for number, (first, second) in enumerate(itertools.product((b"a", b"A", b"title"), repeat=2)):
        used = SHOW + b" FUNCTION {g} {a top$ title top$} ITERATE {g}"
        for one, other in itertools.combinations_with_replacement(range(5), 2):
            lists = [b""] * 5
            lists[other] = second
            lists[one] = first + b" " + second if one == other else first
            declared = b"ENTRY {%s}{%s}{%s}\n\nINTEGERS {%s}\n\nSTRINGS {%s}\n\n" % tuple(lists) + b"ENTRY {title}{}{}\n\nFUNCTION {misc} {}\n\nREAD\n\n"
            yield Job(f"names of lists {number}, {one}, {other}", used, declared=declared, database=b"@misc{k,title={T},a={A}}")


def capitals():
    """All words of a database and of a style with capitals, some of them or none."""
    database = (b'@comment{x}\n@preamble{"p" # s}\n@string{s={q}}\n@preamble{s # m}\n@misc{k,title={a} # s,crossref={p}}\n@book(p,title=m # none,title={b})\n'
                b'@misc{i,crossref={p}}\n@string{m = m # "x"}\n@misc{j,crossref={i},title=m}\n@misc{k}\n')
    declared = b'ENTRY {title}{n}{t} MACRO {m} {"mm"} MACRO {m} {"x"}\n\nINTEGERS {i} STRINGS {s} FUNCTION {misc} {cite$ write$} FUNCTION {default.type} {type$ write$} READ '
    text = (b'FUNCTION {f} {title missing$ {"-"} {title "u" change.case$} if$ \'s := s write$ call.type$ #1 \'i := i \'n := {n #0 >} {n #1 - \'n :=} while$ '
            b'"Ann von Bo and Cy" #1 "{f.}{vv}{ll}" format.name$ \'t := t write$ none newline$} FUNCTION {g} {preamble$ top$} EXECUTE {g} SORT ITERATE {f} REVERSE {f} bogus')
    forms = [bytes, bytes.upper, bytes.title, lambda of: b"".join(of[place:place + 1].upper() if place % 2 else of[place:place + 1] for place in range(len(of)))]
    for number, (of_database, of_declared, of_text) in enumerate(itertools.product(forms, repeat=3)):
        yield Job(f"capitals {number}", of_text(text), declared=of_declared(declared), aux=citing(b"k,J,*,p"), database=of_database(database))


def white_at_ends():
    """All short white texts at the ends of lines, in lines that are otherwise empty and between the parts of a command."""
    whites = list(texts_of([b" ", b"\t", b"\r"], 3))
    numbered = list(enumerate(whites))
    aux = lines(b"\\citation{k%d}%s" % item for item in numbered) + lines(b"\\citation{j}x%s" % white for white in whites) + lines(whites) + AUX
    yield Job("white at ends of lines of an .aux file", SHOW, aux=aux, database=b"@misc{k0,title={T}}")
    text = b"".join(b"bogus%d.%s\n%s\nEXECUTE {f}%s\nFUNCTION {f%d}%s{%s\n%s#1 top$}%s\n" % (number, white, white, white, number, white, white, white, white) for number, white in numbered)
    yield Job("white at ends of lines of a style", b'FUNCTION {f} {"F" top$}\n\n' + text)
    yield Job("white in a database", SHOW, aux=citing(b"*"), database=b"".join(b"@misc%s{%sk%d%s,%s\ntitle%s=%s\n{%s\nT%s}%s\n}%s\n" % (white, white, number, *(white,) * 8) for number, white in numbered))


def databases_in_turn():
    """All lists of up to four of some databases, which share their keys, strings and preambles, one of them without an end and one in capitals."""
    others = {b"x.bib": b'@string{s="x"}@preamble{s # m}@misc{a,title=s # t}@misc{b,crossref={c}}@bogus{e}\n',
              b"y.bib": b'@string{s=s # "y"}\n@string{T={ t}}\n@string{m=m # "-"}@preamble{"y"}\n@misc{c,title=s,title={}}@misc{A,title={again}}@bogus{E}',
              b"Z.bib": b'@preamble{s # t}\n@misc{B,title=T # u}@misc{D,title=s # u,crossref={A}}@bogus{f,crossref={d}}\n@string{u="u"}@string{s={z}\n'}
    show = b'FUNCTION {f} {cite$ write$ "=" write$ type$ write$ title missing$ {"-"} {title} if$ write$ crossref missing$ {"-"} {crossref} if$ write$ newline$} ITERATE {f} '
    for number in range(1, 5):
        for place, names in enumerate(itertools.product((b"x", b"y", b"Z", b"none"), repeat=number)):
            if number < 4 or len(set(names)) < 4 and b"none" not in names:
                aux = b"\\citation{%s}\n\\bibdata{%s}\n\\bibstyle{s}\n" % ((b"*", b"d,b", b"B,C,e", b"c,*,f")[place % 4], b",".join(names))
                yield Job(f"databases in turn: {names}", show + b"FUNCTION {g} {preamble$ top$} EXECUTE {g}", aux=aux, others=others, declared=b'MACRO {m} {"M"} ' + DECLARED,
                          options={"min_crossrefs": 1 + place % 3})


def commands_in_turn():
    """All orders of up to three commands behind one that gives values: what variables, the list and the pending text are from one command to the next."""
    declared = b"ENTRY {title}{n}{es} INTEGERS {i} STRINGS {s} FUNCTION {misc} {i #1 + 'i := s cite$ * 's := n i + 'n := es title * 'es := es write$ \" \" write$} READ "
    text = (b'FUNCTION {show} {i int.to.str$ s * write$ "/" write$} FUNCTION {each} {n int.to.str$ es * sort.key$ * write$ "/" write$ cite$ write$ newline$} FUNCTION {key} '
            b'{title sort.key$ * \'sort.key$ :=} FUNCTION {first} {i #7 + \'i := "g" \'s := s "w" * write$ es top$} EXECUTE {first} ')
    commands = [b"EXECUTE {show}", b"ITERATE {misc}", b"REVERSE {misc}", b"ITERATE {each}", b"ITERATE {key}", b"SORT", b"EXECUTE {first}", b"REVERSE {title}"]
    database = lines(b"@misc{%s,title={%s}}" % pair for pair in ((b"k", b"b"), (b"J", b"B"), (b"h", b"b"), (b"i", b"a")))
    for number in range(1, 4):
        for chosen in itertools.product(commands, repeat=number):
            if number < 3 or chosen[2] in commands[2:4]:
                yield Job(f"commands in turn: {chosen}", text + b" ".join(chosen), aux=citing(b"*"), database=database, declared=declared)


def files_in_turn():
    """All orders of the commands of an .aux file, two of which read further ones that have the same commands."""
    others = {b"x.aux": b"\\citation{b}\n\\citation{*}\n\\bibdata{e}\n", b"y.aux": b"\\bibstyle{t}\n\\@input{x.aux}\n\\bibdata{d,e}\n\\citation{A}\n", b"e.bib": b"@misc{b,title={E}}",
              b"t.bst": DECLARED + SHOW}
    commands = [b"\\@input{x.aux}", b"\\@input{y.aux}", b"\\bibdata{d}", b"\\bibstyle{s}", b"\\citation{a,*}"]
    for chosen in itertools.permutations(commands):
        yield Job(f"files in turn: {chosen}", SHOW, aux=lines(chosen), others=others, database=b"@misc{a,title={D}}")


def names_that_are_shown():
    """A name of each kind as it is spelled or not, where it is shown, assigned to, executed or of a wrong kind; and names of macros, which no function has."""
    declared = b'ENTRY {Ab}{Num}{Txt} INTEGERS {Int} STRINGS {Str} FUNCTION {Fun} {#1 \'Num := "t"} FUNCTION {misc} {} MACRO {Mac} {"M"} READ '
    for name in (b"Ab", b"Num", b"Txt", b"Int", b"Str", b"Fun", b"Mac", b"Skip$", b"Sort.Key$"):
        for spelled, command in itertools.product((name, name.lower()), (b"EXECUTE", b"ITERATE")):
            body = b" stack$\n".join(text.replace(b"%s", spelled) for text in (b"'%s", b"#1 '%s :=", b"\"a\" '%s :=", b"'%s #1 +", b"%s", b"#1 '%s {} if$", b"'%s \"b\" *", b"{#0} '%s while$"))
            yield Job(f"{spelled.decode()}, {command.decode()}", b"FUNCTION {f} {" + body + b" stack$}\n\n" + command + b" {f} " + command + b" {" + spelled + b"}", declared=declared,
                      database=b"@misc{k,ab={A}}")


# ---- each size ----

SIZES = [0, 1, 2, 3, 4, 9, 19, 20, 21, 99, 255, 256, 257, 1000]
# The reference takes long for names of more tokens.
MOST_TOKENS = 300


def sizes_of_strings(size):
    """Strings, names, tokens and braces, this number of them."""
    deep, tokens = b"{" * size + b"A: B" + b"}" * size, b" ".join(b"Ab%d" % place for place in range(size))
    names = b" and ".join(b"N%d" % place for place in range(size))
    many = b"#%d" % size
    texts = [deep, b"a" + deep + b": C", b" " * size, b" " * size + b"y", b"x" * size, b"x" * size + b" y", b"{\\a" + deep + b"} B", tokens, tokens + b", Jr, A", names, b"A, " * (size % 30) + b"B",
             b"-".join(b"Cd" for _ in range(size)), b"a~" * size + b"B", b"\xc3\x89" * size, b"x." + b"}" * size, b"{" * size + b"x" * size + b"y", b"{\\a" + b"{" * size + b" b",
             b"{\\i" + b" " * size + b"A}", b"A:" + b" " * size + b"B", b"A" + b" " * size + b"and" + b"\t" * size + b"B,", b"a b" + b"-" * size + b"C~" + b" " * size + b"D" + b"," * size]
    functions = [b"purify$", b'"t" change.case$', b'"u" change.case$', b"text.length$ int.to.str$", b"width$ int.to.str$", b"num.names$ int.to.str$", b"add.period$", b"empty$ int.to.str$", b'duplicate$ "y" * = int.to.str$', b'duplicate$ "" * = int.to.str$',
                 many + b" text.prefix$", b"#2 " + many + b" substring$", b"#-2 " + many + b" substring$", many + b" #3 substring$", b"#-" + many[1:] + b" #3 substring$",
                 b'#1 "{ff~}{vv~}{ll}{, jj}" format.name$', b'#1 "{f.~}{l}" format.name$', many + b' "{ll}" format.name$', b"'s := s", b"'es := es"]
    for function in functions:
        if size > MOST_TOKENS and b"format" in function:
            continue
        body = b"\n".join(b'"%s" %s write$ newline$' % (text, function) for text in texts)
        yield Job(f"strings of {size}: {function.decode()}", b"STRINGS {s} FUNCTION {f} {" + body + b"} ITERATE {f}", declared=DECLARED.replace(b"{} F", b"{es} F"),
                  options={"utf8": size % 2 == 1, "entry_max": 250, "global_max": 256})


def sizes_of_formats(size):
    """Formats with braces, ties, pieces and plain bytes, this number of them."""
    deep = b"{" * size + b"x" + b"}" * size
    formats = [b"{ff" + deep + b"}", b"{" + deep + b"ff~}", b"{f" + deep + b"x}", b"{f{" + deep + b"}" + deep + b"}", b"{" + deep, deep + b"{ll}", b"{ll" + b"~" * size + b"}", b"{" + b"~" * size + b"}",
               b"{" + b"." * size + b"f. }", b"." * size + b"{f. }", b"{f}" * size + b"-", b"{f" + b"." * size + b"~}", b"{l" * size]
    names = [b"Ann Bo Cy Dee", b"Ann Bo Cy Dee,", b"A " * (size % 30) + b"B", b"A" * size + b" Bo Cy"]
    if size <= MOST_TOKENS:
        yield style(f"formats of {size}", b"\n".join(b'"%s" #1 "%s" format.name$ write$ newline$' % pair for pair in itertools.product(names, formats)), options={"utf8": size % 2 == 1})


def sizes_of_jobs(size):
    """Lines, messages, entries, fields, strings, functions and variables, this number of them."""
    empty, many = b"\n" * size, range(size)
    yield Job(f"{size} empty lines before each error", b"bogus", aux=empty + b"\\citation{k, j}\n" + AUX, database=empty + b"@misc{k,,}" + DECLARED, declared=empty + DECLARED)
    yield style(f"{size} warnings and errors", b'"w" warning$ + pop$ ' * size, b"EXECUTE")
    yield Job(f"{size} entries", SHOW, aux=citing(b"*"), database=lines(b"@misc{k%d,title={T%d}}" % (place, place) for place in many))
    yield Job(f"{size} keys", SHOW, aux=citing(b",".join(b"k%d" % place for place in many)), database=b"@misc{k1,title={T}}")
    for least in sorted({20, max(size, 1), size + 1, 2**31 - 1}):
        yield Job(f"{size} children, {least} at least", SHOW, aux=citing(b",".join(b"k%d" % place for place in range(size + 1))), options={"min_crossrefs": least},
                  database=lines(b"@misc{k%d,crossref={p}}" % place for place in many) + b"@misc{p,title={P}}@misc{k%d,title={}}" % size)
    yield Job(f"{size} parts and strings", SHOW, database=lines(b"@string{s%d=%s{%d }}" % (place, b"s%d # " % (place - 1) if place else b"", place) for place in range(min(size, 100)))
              + b"@misc{k,title=" + b" # ".join([b'"x"', *(b"s%d" % place for place in range(min(size, 100)))]) + b"}")
    yield Job(f"{size} preambles", b"EXECUTE {preamble$} FUNCTION {g} {preamble$ write$ newline$} EXECUTE {g}", database=b"".join(b'@preamble{"p%d " # {q}}' % place for place in many))
    names = b" ".join(b"n%d" % place for place in many)
    yield Job(f"{size} names of each kind", b"INTEGERS {" + names.replace(b"n", b"i") + b"} STRINGS {" + names.replace(b"n", b"s") + b"} "
              + b" ".join(b'FUNCTION {f%d} {#%d \'i%d := "x%d" \'s%d := n%d top$ e%d top$ i%d s%d}' % ((place,) * 9) for place in many)
              + b" FUNCTION {g} {" + b" ".join(b"f%d top$ top$" % place for place in many) + b"} ITERATE {g}",
              declared=b"ENTRY {" + names + b"}{" + names.replace(b"n", b"e") + b"}{} FUNCTION {misc}{} READ ",
              database=b"@misc{k" + b"".join(b",n%d={v%d}" % (place, place) for place in many) + b"}")
    yield Job(f"{size} steps of a loop", b"INTEGERS {i} FUNCTION {f} {#%d 'i := {i #0 >} {i #1 - 'i := i int.to.str$ write$ \" \" write$} while$} EXECUTE {f}" % size)
    yield Job(f"{size} nameless functions round one another", b"FUNCTION {f} {" + b"{" * size + b"#1" + b"}" * size + b" pop$} EXECUTE {f}")


def parents():
    """A child and its parent, each with a field that is missing, empty or there, in each order, cited or not, in a chain."""
    fields = [b"", b",title={}", b",title={ }", b",title={T}"]
    for of_child, of_parent, least in itertools.product(fields, fields, (0, 1, 2)):
        child, parent, further = b"@misc{k%s,crossref={P}}" % of_child, b"@misc{p%s,crossref={q}}" % of_parent, b"@misc{q,title={Q}}"
        for number, order in enumerate(itertools.permutations([child, parent, further])):
            for keys in (b"k", b"k,p", b"p,k", b"*", b"p,*,k", b"k,q"):
                if (number + least + len(keys)) % 3 == 0:
                    yield Job(f"parents {number}: {of_child.decode()}, {of_parent.decode()}, {keys.decode()}, {least}",
                              SHOW + b' FUNCTION {g} {crossref missing$ {"-"} {crossref} if$ top$} ITERATE {g}', aux=citing(keys), database=lines(order), options={"min_crossrefs": least})


def children_of_one():
    """Up to three children that spell their parent in up to two ways, its entry before, between, behind or not there, with a field missing, empty or there."""
    child, parents = b"@misc{c%d%s,crossref={%s}}", [b"", b"@misc{p,title={T}}", b"@misc{P,title={}}", b"@misc{p,crossref={Q}}@misc{q,title={U}}"]
    for number in (1, 2, 3):
        for spelled, parent, place, least in itertools.product(itertools.product((b"p", b"P"), repeat=number), parents, range(number + 1), (number, number + 1)):
            entries = [child % (i, (b"", b",title={}", b",title={S}")[(i + place) % 3], name) for i, name in enumerate(spelled)]
            keys = (b"c2,c1,c0", b"c0,c1,c2,Q", b"c1,P,c0,c2", b"*")[(number + place + len(parent) + least) % 4]
            yield Job(f"{number} children, {spelled}, {parent.decode()}, {place}, {keys.decode()}, {least}", SHOW + b' FUNCTION {g} {crossref missing$ {"-"} {crossref} if$ top$} ITERATE {g}',
                      aux=citing(keys), database=lines(entries[:place] + [parent] + entries[place:]), options={"min_crossrefs": least})


# ---- all short texts over some pieces ----


def short_aux_files():
    pieces = [b"{", b"}", b",", b" ", b"a", b"A", b"*", b".aux", b".bib", b".bst", b"%"]
    lines_of = {command: lines(b"\\" + command + b"{" + text for text in texts_of(pieces, 3)) for command in (b"citation", b"@input")}
    for command, text in lines_of.items():
        yield Job("short lines of " + command.decode(), aux=text + AUX, others={b"a.aux": b"\\citation{inner}\n", b"A.aux": b"", b".aux": b"\\citation{none}\n"}, database=b"@misc{a}@misc{inner}", text=SHOW)
    others = {b"a.bib": b"@misc{k,title={a}}", b"A.bib": b"@misc{j,title={A}}", b".bib": b"@misc{k,title={none}}", b"a.bst": DECLARED + SHOW, b".bst": DECLARED + SHOW}
    for text in texts_of(pieces, 2):
        aux = b"\\citation{*}\n\\bibdata{%s}\n\\bibstyle{%s}\n\\bibdata{d}\n\\bibstyle{s}\n" % (text, text)
        yield Job(f"names of files, {text.decode()}", aux=aux, others=others, text=SHOW)


def cited_in_turn():
    """All lists of up to four keys and stars, in one line or in a line each."""
    for number in range(1, 5):
        for place, keys in enumerate(itertools.product((b"a", b"B", b"*"), repeat=number)):
            between = (b",", b"}\n\\citation{")[place % 2]
            yield Job(f"cited in turn: {keys}", SHOW, aux=citing(between.join(keys)), database=lines([b"@misc{b,title={1}}", b"@misc{c,title={2}}", b"@misc{a,crossref={B}}"]))


def short_databases():
    pieces = [b"@", b"misc", b"string", b"preamble", b"{", b"}", b"(", b")", b"k", b",", b"title", b"=", b'"a"', b"{b }", b"s", b"S", b"#", b"1", b" ", b'"']
    for front in (b"", b"@misc{k", b"@misc(k", b"@misc{k,title", b"@misc{k,title=", b"@misc{k,title={b}", b"@string{s=", b'@string{s="x"}@misc{k,title=s',
                  b"@string{s={x}}@string{s=", b"@string{s=s#", b"@misc{k,title=s#", b"@comment", b"@preamble{", b"@misc{k,title={a}}@misc{", b"@misc{k,title={a},"):
        for group in in_groups(texts_of(pieces, 2 if front else 3)):
            yield each_a_database("short databases behind " + front.decode(), (front + text for text in group))
    for (front, back), group in itertools.product(((b'@misc{k,title="', b'"}'), (b"@misc{k,title={", b"}}")), in_groups(texts_of([b"\\", b'"', b"{", b"}", b"%", b"a", b"\n"], 3))):
        yield each_a_database("short values behind " + front.decode(), (front + text + back for text in group))


def spaces_in_values():
    """All values of up to three parts with spaces at their ends, as a field, as a string, and as preambles one behind another. Shown in the log, with their ends."""
    parts = [b"{a}", b"{ b}", b"{c }", b"{ }", b"s", b"t", b'"  "']
    values = [b" # ".join(chosen) for number in (1, 2, 3) for chosen in itertools.product(parts, repeat=number)]
    known, numbered = b"@string{s={ y }}\n@string{t={ }}\n", list(enumerate(values))
    show = b"FUNCTION {f} {title top$} ITERATE {f} FUNCTION {g} {preamble$ top$} EXECUTE {g}"
    yield Job("spaces in fields", show, aux=citing(b"*"), database=known + lines(b"@misc{k%d,title=%s}" % item for item in numbered))
    yield Job("spaces in strings", show, aux=citing(b"*"), database=known + lines(b"@string{u=%s}\n@misc{k%d,title={[} # u # {]}}\n@misc{j%d,title=u}" % (value, place, place) for place, value in numbered))
    for number in (1, 2, 3):
        yield Job("spaces in preambles", show, database=known + lines(b"@preamble{%s}" % value for value in values if value.count(b"#") < number))


def short_styles():
    pieces = [b"FUNCTION ", b"INTEGERS ", b"EXECUTE ", b"MACRO ", b"READ ", b"{", b"}", b"f", b"#1", b'"a"', b"'skip$", b"skip$ ", b"%", b"\n", b"=", b" "]
    fronts = (b"", b"FUNCTION {f} {", b"EXECUTE {", b"STRINGS {", b"MACRO {m", b"MACRO {m}", b'MACRO {m} {"M"', b"FUNCTION {f", b"FUNCTION {skip$", b"FUNCTION {g}", b"EXECUTE {f", b"INTEGERS {i")
    for front in fronts:
        for group in in_groups(texts_of(pieces, 3 if not front else 2)):
            text = apart(front + text for text in group)
            yield Job("short styles behind " + front.decode(), b"\n\n" + text)
            if front:
                yield Job("short styles before READ behind " + front.decode(), declared=b'MACRO {m} {"N"} FUNCTION {f} {}\n\n' + text + DECLARED)
    for group in in_groups(enumerate(texts_of([b"'", b'"', b"#", b"{", b"}", b"%", b"f", b"skip$", b"1", b" "], 3))):
        yield Job("short bodies as they are written", b"FUNCTION {f} {}\n\n" + apart(b"FUNCTION {f%d} {#1 %s" % item for item in group))
    for front in (b"ENTRY {a", b"ENTRY {a}{b", b"ENTRY {a}{b}{c"):
        yield Job("short styles behind " + front.decode(), declared=apart(front + b"%d" % place + text for place, text in enumerate(texts_of(pieces, 2))) + DECLARED)
    for text in texts_of(pieces, 2):
        yield Job(f"a style that is {text.decode()}", declared=text)


def short_bodies():
    """All bodies of up to three tokens, and what they leave."""
    tokens = [b"#0 ", b"#1 ", b'"a" ', b'"t" ', b"'skip$ ", b"title ", b"'s ", b"s ", b"'es ", b"{#0} ", b"+ ", b"= ", b"* ", b":= ", b"swap$ ", b"duplicate$ ", b"pop$ ", b"if$ ", b"while$ ", b"missing$ ",
              b"empty$ ", b"substring$ "]
    for command in (b"ITERATE", b"EXECUTE"):
        for number, group in enumerate(in_groups(texts_of(tokens, 3), 600)):
            if command == b"ITERATE" or number % 4 == 0:
                yield Job(f"short bodies, {command.decode()} {number}", b"STRINGS {s} FUNCTION {f} {" + b"stack$\n".join(group) + b"} " + command + b" {f}", declared=DECLARED.replace(b"{} F", b"{es} F"),
                          options={"budget": 50_000})


def short_strings():
    pieces = [b"A", b"b", b"{", b"}", b"\\", b"i ", b":", b" ", b"ss", b"'", b"1", b"-", b".", b"\xc3\x89"]
    functions = [b"purify$", b'"t" change.case$', b'"u" change.case$', b"text.length$ int.to.str$", b"width$ int.to.str$", b"add.period$", b"#2 text.prefix$", b"#-2 #2 substring$"]
    for function in functions:
        for group in in_groups(texts_of(pieces, 3), 1000):
            yield style(f"short strings, {function.decode()}", b"\n".join(b'"%s" %s write$ newline$' % (text, function) for text in group), b"EXECUTE", options={"utf8": function.startswith(b"text")})


def short_names():
    pieces = [b"A", b"Bo", b"c", b"{\\'d}", b"{e}", b",", b" ", b"~", b"-", b" and ", b"1"]
    for format_text in (b"{ff|}{vv|}{ll|}{jj|}", b"{f.}{ l}"):
        for group in in_groups(texts_of(pieces, 4 if b"v" in format_text else 3), 1000):
            yield style(f"short names, {format_text.decode()}", b"\n".join(b'"%s" #1 "%s" format.name$ write$ newline$' % (text, format_text) for text in group), b"EXECUTE")
    words = [b"A", b"b", b"Cd", b"{\\oe}", b"e"]
    for size in (1, 2, 3, 4, 5):
        names = [between.join(chosen) for chosen in itertools.product(words[:5 if size < 4 else 3], repeat=size) for between in (b" ", b", ")]
        names += [chosen[0] + b" " + chosen[1] + b", " + b" ".join(chosen[2:]) for chosen in itertools.product(words[:4], repeat=size) if size > 2]
        for group in in_groups(names, 1000):
            yield style(f"names of {size} words", b"\n".join(b'"%s" #1 "{ff|}{vv|}{ll|}{jj|}" format.name$ write$ newline$' % name for name in group), b"EXECUTE")


def short_formats():
    pieces = [b"f", b"L", b"v", b"jj", b"x", b"{", b"}", b".", b"~", b" ", b"-"]
    for group in in_groups((front + text for front in (b"", b"{", b"{f") for text in texts_of(pieces, 3)), 1000):
        yield style("short formats", b"\n".join(b'"Ann-Bo Cy de la Ee~F" #1 "%s" format.name$ write$ newline$' % text for text in group), b"EXECUTE")


def short_lines():
    pieces = [b"a" * 9, b"bb", b" ", b"\t", b"c" * 21, b'" write$ "']
    for group in in_groups(texts_of(pieces, 5), 1500):
        yield style("short lines", b"\n".join(b'"%s" write$ newline$' % text for text in group), b"EXECUTE", options={"line": 20})


def all_short():
    return jobs_of(
        short_aux_files, cited_in_turn, short_databases, spaces_in_values, short_styles, short_bodies, short_strings,
        short_names, short_formats, short_lines)


def all_jobs():
    for size in SIZES:
        yield from sizes_of_strings(size)
        yield from sizes_of_formats(size)
        yield from sizes_of_jobs(size)
    yield from jobs_of(
        parents, children_of_one, all_short, all_texts, files_cut_short, behind_mistakes, entries_and_commands,
        bytes_of_aux, bytes_of_databases, bytes_of_styles, bytes_of_strings, bytes_of_lines, bytes_that_are_made)
    yield from operands("with operands", KINDS, b"ITERATE")
    yield from operands("without an entry", KINDS[:3], b"EXECUTE")
    yield from jobs_of(
        commands_early, names_twice, names_of_lists, capitals, marks_before_files, white_at_ends, databases_in_turn,
        commands_in_turn, files_in_turn, names_that_are_shown, widths, all_turns, all_readings, all_mixed)


def systematic_jobs():
    """The files of each, and its options."""
    for job in all_jobs():
        yield files_of(job), job.options


def main():
    for job in all_jobs():
        product = run(files_of(job), b"job", Options(**job.options))
        print(f"{job.name[:70]!r}: {sum(map(len, files_of(job).values()))} bytes, a list of {len(product.list)}, {product.log.splitlines()[-1].decode()}")


if __name__ == "__main__":
    main()
