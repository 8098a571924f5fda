"""Jobs in which two rules of the readers meet: a mistake at each token of an item or of a command, whose message names its line and behind which the reading goes on; the greatest
size of a value, a string, a macro or the preambles, with what is wrong beside it; a star, and parents in each order; empty texts, letters from 128 up and long names, wherever a name or
a text may stand. What they give isn't written out: they are a part of the jobs of systematic_jobs.py.
"""

import itertools

from systematic_texts import FULL, jobs_of, texts_of
from systematic_turns import SHOW_ALL
from worked_jobs import AUX, DECLARED, Job, citing

# Items of which each word is a token.
ITEMS = [b"@ other { KEY , title = {A} # zz # {B} , TITLE = \"C\" # 1 , note = s # yy , extra = xx , crossref = {P} , }", b"@ misc ( KEY , note = s # S # vv , title = 12 )",
         b"@ misc { KEY , extra = \"a\" # xx # {b} , extra = 1 , title = ww }", b"@ string { s = {x} # s # zz # yy }", b"@ string ( t = T )", b"@ preamble { {x} # zz # s }", b"@ preamble ( yy # 1 )"]
WRONG = [b")", b"}", b"=", b",", b"#", b"1x", b"a", b'"a}b"', b'"{"', b"(", b"@misc{x}"]
# Commands, the same.
COMMANDS = [b"INTEGERS { i%d j%d }", b"STRINGS { s%d }", b"FUNCTION { f%d } { #1 'skip$ { \"a\" nosuch%d top$ } pop$ top$ }", b"EXECUTE { f }", b"ITERATE { cite$ }", b"SORT", b"READ"]
EARLY = [*COMMANDS, b"MACRO { m%d } { \"x\" }"]
OTHERS = [b"{", b"}", b"1", b"=", b"%", b"#x", b'"a', b'"a"b', b"'", b"title", b"skip$"]


def changed(tokens, others):
    """The tokens as they are, and without one of them, with one twice, and with another in the place of one."""
    yield tokens
    for place in range(len(tokens)):
        yield tokens[:place] + tokens[place + 1:]
        yield tokens[:place + 1] + tokens[place:]
        for other in others:
            yield tokens[:place] + [other] + tokens[place + 1:]


def on_lines(text, others, between):
    for tokens in changed(text.split(b" "), others):
        yield between.join(tokens)


# ---- databases ----

def items_on_lines():
    """Of entries that are stored, of those that aren't and of those whose key has an entry, with the fields that they have or with none; and what strings there are then."""
    for number, (item, (first, keys)) in enumerate(itertools.product(ITEMS, ((b"", b"*"), (b"", b"none"), (b"@misc{KEY,title={T}}\n", b"*")))):
        if first and b"KEY" not in item:
            continue
        shape = b"@string{s={S }}@string{t={}}" + first.replace(b"KEY", b"k%d") + b"%s\n@misc{l%d,title=s # t}"
        texts = [(shape % ((place,) * bool(first) + (text.replace(b"KEY", b"K%d" % place), place))) for place, text in enumerate(on_lines(item, WRONG, (b"\n", b" \r\n\n")[number % 2]))]
        others = {b"x%d.bib" % place: text for place, text in enumerate(texts)}
        aux = b"\\citation{%s}\n\\bibdata{d,%s}\n\\bibstyle{s}\n" % (keys.replace(b"none", b",".join(b"l%d" % place for place in range(len(texts)))), b",".join(others))
        for declared in (DECLARED, b"ENTRY {title note}{}{} FUNCTION {misc}{} READ ")[number % 2:]:
            yield Job(f"items on lines: {item.decode()}, {first!r}, {keys}, {declared[:12]}", SHOW_ALL, aux=aux, others=others, declared=declared, database=b"")


def texts_before_items():
    """Short texts before an item and in its line, which are ignored whatever they have; and types that begin or end as a word of another item does."""
    pieces = [b"%", b"\\", b"{", b"}", b'"', b"a", b"#", b"(", b")", b" ", b"\n", b"="]
    known, words = b'@string{s={S}}', (b"string", b"preamble", b"comment", b"misc")
    texts = list(texts_of(pieces, 2))
    yield Job("texts before items", SHOW_ALL, aux=citing(b"*"), database=known + b"\n".join(b"%s@misc{k%d,title=s}%s" % (text, place, text) for place, text in enumerate(texts)))
    yield Job("texts before strings and preambles", SHOW_ALL, aux=citing(b"*"),
              database=known + b"\n".join(b"%s@string{s%d={%d}}%s@preamble{s%d}%s@comment" % (text, place, place, text, place, text) for place, text in enumerate(texts)))
    types = [shape.replace(b"%s", word) for word in words for shape in (b"%ss", b"%s-", b"%s@", b"%s1", b"x%s", b"@%s", b"-%s", b"%s%s", b"%s@%s")]
    for closing in (b"{k%d,title={T}}", b"{k%d={T}}", b"{{k%d}}"):
        others = {b"x%d.bib" % place: b"@" + name + closing % place for place, name in enumerate(types)}
        yield Job(f"types as words of items, {closing}", SHOW_ALL, aux=b"\\citation{*}\n\\bibdata{%s}\n\\bibstyle{s}\n" % b",".join(others), others=others)


# ---- styles ----

def commands_on_lines():
    for place, (command, between) in enumerate(itertools.product(EARLY, (b"\n", b" % x\n\n"))):
        word = command.split(b" ")[0]
        texts = [text.replace(b"%d", b"%d" % number).replace(word, (word, word.lower(), word.title())[number % 3]) for number, text in enumerate(on_lines(command, OTHERS, between))]
        text = b"".join(text + b"\nEXECUTE {skip$}\n\n\"\n \n" for text in texts)
        shown = b"FUNCTION {f} {\"F\" top$}\n\n"
        if command in COMMANDS:
            yield Job(f"commands on lines: {command.decode()}, {between}", shown + text)
        yield Job(f"commands on lines before READ: {command.decode()}, {between}", SHOW_ALL, declared=shown + text + b"ENTRY {title}{}{}\n\nFUNCTION {misc} {}\n\nREAD\n\n")


def entry_commands_on_lines():
    """What they declare is used, whatever is wrong behind it, and another one follows."""
    used = b"FUNCTION {v} {a b c d title} ITERATE {v}"
    for number, text in enumerate(on_lines(b"ENTRY { a b } { c } { d }", (b"=",), b"\n")):
        yield Job(f"ENTRY on lines {number}", used, declared=text + b"\n\nFUNCTION {misc} {}\n\nREAD\n\nEntry {title}{}{}\n\nread\n\n", database=b"@misc{k,a={A},title={T}}")


# ---- the greatest size, and another rule ----

def values_of_parts(size):
    """Ways in which the databases `d` and `e` have a text of `size` bytes that stands in two places, or has whitespace at its ends; and one of more bytes that nobody keeps."""
    half, rest, spaced = b"{%s}" % (b"x" * (size // 2)), b"{%s}" % (b"y" * (size - size // 2)), b'" %s "' % (b"x" * (size - 2))
    yield b"@preamble{%s}" % half, b"@preamble{%s}@misc{,,}" % rest
    yield b"@string{s=%s}" % half, b"@misc{k,title=s # %s}@misc{,,}" % rest
    yield b"@string{s={a }}@misc{k,title=s # { } # %s # { }}" % (b"{ " + spaced[2:-2] + b" }"), b"@misc{k,,}"
    for shape in (b"@string{s=%s}@misc{k,title=s}", b"@preamble{%s}", b"@preamble{{ } # %s}"):
        yield shape % spaced, b"@misc{k,,}"
    yield b"@string{s=%s}@misc{k,title={T},Title=s # s # s,extra=s # s # s}" % half, b"@misc{uncited,title=s # s # s}@misc{k,title=s # s # s}"


def values_that_are_too_long(long):
    """What else is logged where a value is too long, and what is wrong before it, in it or behind it."""
    for shape in (b"@misc{k,title=zz # %s # yy}", b"@string{s=zz # s # %s # S}", b"@preamble{zz # %s # yy}", b"@preamble{s # %s}@misc{k,title={T}}"):
        yield b"@misc{j,,}" + shape % long, b"@misc{k,,}"
    for shape in (b"@misc{k,title=%s x", b"@misc{k,title=%s # }", b"@misc{k,crossref=%s", b"@string{s=%s x", b"@string(s=%s}", b"@preamble{%s,", b"@preamble(%s"):
        yield shape % long, b"@misc{k,,}"
    yield b"@misc{k,title=%s}@misc{q,title=%s}" % (b"1" * (FULL - 1), b"0" * (FULL + 1)), b"@misc{k,,}"
    yield b"@string{s={ x}}@string{s=%s}" % long, b"@misc{k,title=s}"
    yield b"@misc{k,crossref={p}}@misc{j,crossref={P}}@other{q,title=%s}" % long, b"@misc{q,,}"
    yield b"@misc{k,title={T}}@misc{k,title=%s}" % long, b"@other{k}"


def limits_with_other_rules():
    texts = [*values_of_parts(FULL), *values_of_parts(FULL + 1), *values_that_are_too_long(b"{%s}" % (b"x" * (FULL + 1)))]
    for number, (first, second) in enumerate(texts):
        yield Job(f"limits of bytes in databases {number}", SHOW_ALL, aux=b"\\citation{k,none,Q}\n\\bibdata{d,e}\n\\bibstyle{s}\n", database=first, others={b"e.bib": second})
    macro = b'MACRO {m} {"%s"}\n\n' % (b"x" * (FULL + 1))
    spaced = macro.replace(b'"xx', b'" ').replace(b'"}', b' "}')
    shapes = (b"bogus\n\n" + macro + DECLARED, macro + b"READ\n\n", macro + b"ENTRY {title}{}{}", macro.replace(b'"}', b'" x') + DECLARED, spaced + DECLARED, spaced.replace(b"x", b"", 1) + DECLARED)
    for (number, declared), database in itertools.product(enumerate(shapes), (b"@misc{k,title=m}", None)):
        yield Job(f"limits of bytes in a macro {number}, {database}", SHOW_ALL, declared=declared, database=database)


def budgets_that_are_spent():
    """READ, SORT, ITERATE over no entry and a mistake in the style's text need no step: what they log, and a limit that READ meets, come with any budget."""
    text = b"bogus\n\nFUNCTION {f} {#1 pop$} EXECUTE {f} bogus\n\nSORT EXECUTE {nosuch}\n\nREVERSE {f} FUNCTION {g} {none #1} bogus\n\n"
    for budget, keys in itertools.product(range(8), (b"none", b"k,none")):
        yield Job(f"budgets that are spent: {budget}, {keys}", text, aux=citing(keys), database=b"@other{k,title=zz,,}", options={"budget": budget})
    for budget in (2**31 - 1, 2**31, 2**32 - 1, 2**32, 2**32 + 1, 10**15):
        yield Job(f"a budget of {budget}", text, aux=citing(b"k"), database=b"@other{k,title=zz,,}", options={"budget": budget})
    for budget in (0, 1):
        yield Job(f"a limit of READ with a budget of {budget}", text, database=b"@other{k,title=zz}@preamble{{%s}}" % (b"x" * (FULL + 1)), options={"budget": budget})


def options_together():
    """Each choice of the six options, each of which changes what the job gives."""
    text = (b"STRINGS {s} FUNCTION {f} {cite$ write$ crossref missing$ int.to.str$ write$ newline$ title #3 text.prefix$ write$ title 's := s write$ title 't := t write$ newline$ \"a b c d e f g h i j k l m n o p q r s t u v w x y z\" write$ newline$ "
            b"entry.max$ top$ global.max$ top$} ITERATE {f}")
    values = {"min_crossrefs": 1, "budget": 50, "utf8": True, "line": 40, "entry_max": 8, "global_max": 6}
    for number in range(len(values) + 1):
        for chosen in itertools.combinations(values, number):
            yield Job(f"options together: {', '.join(chosen)}", text, aux=citing(b"k,j"), declared=b"ENTRY {title}{}{t} FUNCTION {misc} {} READ ", options={name: values[name] for name in chosen},
                      database="@misc{k,title={\u00e9\u20acabcdefghi},crossref={p}}@misc{j,title={jj}}@misc{p,title={pp}}".encode())


# ---- a star, and parents ----

def stars_and_parents():
    """A child whose parent is cited before the star or behind it, or not, spelled in three ways, with an entry before the child's, behind it or without one."""
    for keys, place in itertools.product((b"*", b"*,P", b"*,P,k", b"K,*,P", b"P,*,Q", b"*,Q,none,P"), range(5)):
        entries = [b"@misc{k,crossref={pP}}", b"@misc{j,title={},crossref={Pp}}"]
        entries[place:place] = [b"@misc{PP,title={T},crossref={qq}}"] if place < 3 else []
        yield Job(f"stars and parents: {keys}, {place}", SHOW_ALL, aux=citing(keys.replace(b"P", b"pp")), database=b"\n".join(entries) + b"\n@misc{r,crossref={QQ}}" * (place % 2),
                  options={"min_crossrefs": 1 + len(keys) % 3})


def entries_before_their_children():
    """An entry that isn't stored, a child that names its key, and then another entry of that key, which is stored: nothing of the first one is kept."""
    first, second = b"@other{p,title={O},extra={E},crossref={r}}", b"@misc{P,note={N}}"
    for keys, before, least in itertools.product((b"k", b"k,j", b"k,*", b"r,k"), ((), (second,), (first, second), (b"@misc{p title}",)), (1, 2)):
        entries = [*before, first, b"@misc{k,crossref={p}}", second, first, b"@misc{j,note={},crossref={P}}", b"@misc{r,title={R}}"]
        yield Job(f"entries before their children: {keys}, {len(before)}, {least}", SHOW_ALL, aux=citing(keys), database=b"\n".join(entries), options={"min_crossrefs": least},
                  declared=b"ENTRY {title note}{}{} FUNCTION {misc}{} READ ")


def parents_in_turn():
    """Children that name three parents, one of them again, whose entries come in each order before, between and behind them, in one database and in one each; and a reference with whitespace
    in it."""
    for place, (order, cut) in enumerate(itertools.product(itertools.permutations((b"p", b"q", b"r")), range(6))):
        parents = [b"@misc{%s,title={T}}" % key for key in order]
        children = [b"@misc{c,crossref={R}}", b"@misc{b,crossref={ P}}", b"@misc{a,crossref={q }}", b"@misc{e,crossref={r}}", b"@misc{d,crossref={r \t\n x}}"]
        entries = children[:cut] + parents + children[cut:]
        others = {b"x%d.bib" % number: entry for number, entry in enumerate(entries)} if place % 2 else {b"x.bib": b"\n".join(entries)}
        aux = b"\\citation{%s}\n\\bibdata{%s}\n\\bibstyle{s}\n" % ((b"a,b,c,d,e", b"d,c,Q,e,b,a", b"e,c")[place % 3], b",".join(others))
        yield Job(f"parents in turn: {order}, {cut}", SHOW_ALL, aux=aux, others=others, options={"min_crossrefs": 1 + place // 2 % 2})


# ---- names and texts ----

def bytes_of_letters():
    """Types, fields, keys and names of strings by letters from 128 up in both cases, in one byte and in two: none has a case."""
    database = b"\n".join(b"@string{s%s={%s}}@m%s{k%s,f%s=s%s # m%s}" % ((letter,) * 7) for letter in (b"\xc9", b"\xe9", b"\xc3\x89", b"\xc3\xa9", b"\xd7", b"\xf7"))
    for upper, lower in ((b"\xc9", b"\xe9"), (b"\xe9", b"\xc9"), (b"\xc3\x89", b"\xc3\xa9")):
        declared = b'ENTRY {title f%s}{}{} FUNCTION {m%s}{#1 top$} MACRO {m%s} {"M"} MACRO {m%s} {"N"} READ ' % (upper, upper, upper, lower)
        text = b"FUNCTION {f} {call.type$ f%s f%s stack$} ITERATE {f}\n\nEXECUTE {m%s}\n\nEXECUTE {m%s}" % (upper, lower, lower, upper)
        yield Job(f"bytes of letters: {upper}", text, aux=citing(b"*"), database=database, declared=declared)


def texts_without_a_byte():
    """Macros and strings that are empty or of whitespace alone, alone and between other parts, where a macro is defined by a string too or isn't."""
    declared = b'ENTRY {title note}{}{} FUNCTION {misc}{} MACRO {e} {""} MACRO {w} {"  "} MACRO {x} {"\t a  b "} READ '
    show = b"FUNCTION {f} {title top$ note top$} ITERATE {f} FUNCTION {g} {preamble$ top$} EXECUTE {g}"
    parts = [b"e", b"w", b"x", b"{}", b"{ }", b'"c"', b"1", b"00123456789012345678901234567890"]
    for known in (b"", b"@string{e=w # e}@string{w={}}", b"@string{w=w}@string{x=e}@string(e={\n})"):
        for number in (1, 2, 3):
            values = [b" # ".join(chosen) for chosen in itertools.product(parts, repeat=number)]
            database = known + b"".join(b"@preamble{%s}\n@string{q=%s}@misc{k%d,title=%s,note={[} # q # {]}}" % (value, value, place, value) for place, value in enumerate(values))
            yield Job(f"texts without a byte: {known}, {number}", show, aux=citing(b"*"), database=database, declared=declared)


def strings_in_turn():
    """All sequences of three definitions of strings that use one another: a string stands for what the others were when it was defined."""
    definitions = [b"@string{a={1}}", b"@string{b=a # {2}}", b"@string{A=b # {3}}", b"@string{c=a # b}", b"@string{b=c}", b"@string{a=a # {4}}", b"@string{d=c # d}"]
    chosen = itertools.product(definitions, repeat=3)
    database = b"\n".join(b"@string{a={u}}@string{b=a # {v}}@string{d={w}}%s@misc{k%d,title=a # b # c # d}" % (b"".join(three), place) for place, three in enumerate(chosen))
    yield Job("strings in turn", SHOW_ALL, aux=citing(b"*"), database=b"@string{c={x}}" + database)
    yield Job("strings in turn, and macros", SHOW_ALL, aux=citing(b"*"), database=database, declared=b'MACRO {c} {"M"} MACRO {D} {"N"} ' + DECLARED)


def names_of_macros():
    """What a macro is named a function, a field and a variable may be named, too, whichever is defined first."""
    declared = (b'MACRO {a} {"A"} MACRO {b} {"B"} MACRO {c} {"C"} MACRO {d} {"D"} MACRO {e} {"E"} ENTRY {a title}{b}{c} INTEGERS {d g} STRINGS {h} FUNCTION {e} {"e" top$} FUNCTION {misc} {} '
                b'MACRO {g} {"G"} MACRO {h} {"H"} MACRO {misc} {"I"} MACRO {Title} {"J"} MACRO {crossref} {"K"} MACRO {write$} {"L"} READ ')
    yield Job("names of macros", b"FUNCTION {f} {title top$ a b c d e g h stack$} ITERATE {f}", declared=declared,
              database=b"@string{x=a # b # c # d # e}@e{k,a=x,title=g # h # misc # title # crossref # write$}")


# ---- sizes ----

def long_names():
    """All that has a name twice, by names that differ in their last byte alone."""
    for size in (255, 256, 257, 4_097):
        front = b"n" * (size - 2)
        database = (b"@string{s%a={S}}@string{s%b=s%B # {T}}@t%b{k%a,f%a=s%a # m%a,f%b=s%b # m%b,F%A={again}}@T%A{K%B,f%a=m%c,crossref={k%c}}@t%c{k%c,f%c={none}}@misc{k%A}"
                    b"@misc{k%a,f%a=}@misc{k%b f%b}")
        declared = (b'ENTRY {title f%a f%b}{i%a i%b}{e%a e%b} FUNCTION {t%a} {"A" write$} FUNCTION {t%b} {"B" write$} MACRO {m%a} {"M"} MACRO {m%b} {"N"}\n\nMACRO {M%A} {"O"}\n\nFUNCTION {F%B} {}\n\n'
                    b"READ ")
        text = (b"STRINGS {s%a s%b} FUNCTION {g%a} {#7 'i%b := i%a top$ \"u\" 's%a := s%b top$ \"v\" 'e%b := e%a top$ f%a f%b stack$ call.type$ 'f%a top$ g%b} FUNCTION {g%b} {g%a g%c newline$}\n"
                b"EXECUTE {g%a} ITERATE {G%A} REVERSE {g%b}\n\nEXECUTE {g%c}\n\ng%a\n\nSTRINGS {g%b}")
        aux = b"\\citation{k%a,K%B,k%A}\n\\@input{f%a.aux}\n\\@input{f%b.aux}\n\\@input{f%a.aux}\n\\@input{f%a.auy}\n\\bibdata{d,d%a,d%b,d%a}\n\\bibstyle{s}\n\\bibstyle{s%a}\n"
        for end in (b"a", b"b", b"c", b"A", b"B"):
            name = (front if end.islower() else front.upper()) + end
            aux, database, declared, text = (part.replace(b"%" + end, name) for part in (aux, database, declared, text))
        yield Job(f"names of {size} bytes", text, aux=aux, database=database, declared=declared)


def lines_and_depths_in_great_number():
    """Lines, and braces round a value, more than two bytes count."""
    empty, deep = b"\n" * 70_000, b"{" * 70_000 + b"%s" + b"}" * 70_000
    yield Job("70,000 empty lines before each error", b"bogus", aux=empty + b"\\citation{k, j}\n" + AUX, database=empty + b"@misc{k,title=zz,,}", declared=empty + b"x\n\n" + DECLARED)
    yield Job("braces of 70,000 round a value", b"FUNCTION {f} {title #70000 #10 substring$ top$} ITERATE {f}", aux=citing(b"k,j,i"),
              database=b"@misc{k,title=%s}@misc{j,title=\"%s\"}@misc{i,title=\"%s}" % (deep % b"x", deep % b'"', deep % b"}"))


def all_readings():
    return jobs_of(
        items_on_lines, texts_before_items, commands_on_lines, entry_commands_on_lines, limits_with_other_rules,
        budgets_that_are_spent, options_together, stars_and_parents, entries_before_their_children, parents_in_turn, bytes_of_letters,
        texts_without_a_byte, strings_in_turn, names_of_macros, long_names, lines_and_depths_in_great_number)
