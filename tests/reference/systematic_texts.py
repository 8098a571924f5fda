"""Calls of the functions on strings, names and numbers with all of something: all starts with all lengths, all pairs of numbers, all short ends of a sentence,
insides of a special character, lists of names and insides of a format, and sizes around the greatest one. What they give isn't written out: they are a part of
the jobs of systematic_jobs.py.
"""

import itertools

from worked_jobs import DECLARED, Job, citing

LEAST, GREATEST = -2147483648, 2147483647
NUMBERS = [LEAST, LEAST + 1, -65536, -2, -1, 0, 1, 2, 127, 128, 255, 256, 65536, GREATEST - 1, GREATEST]
PLACES = [LEAST, LEAST + 1, -6, -5, -4, -3, -2, -1, 0, 1, 2, 3, 4, 5, 6, GREATEST - 1, GREATEST]
FULL = 1_000_000


def style(name, body, command=b"ITERATE", **more):
    return Job(name, b"FUNCTION {f} {" + body + b"}\n" + command + b" {f}", **more)


def jobs_of(*makers):
    """The jobs of one function after the other, each of which is called only when it is its turn."""
    for maker in makers:
        yield from maker()


def texts_of(pieces, most):
    """All sequences of up to `most` of the pieces, joined."""
    for number in range(most + 1):
        for chosen in itertools.product(pieces, repeat=number):
            yield b"".join(chosen)


def in_groups(texts, size=400):
    """The texts in lists, so that no job has more than some steps."""
    texts = iter(texts)
    while group := list(itertools.islice(texts, size)):
        yield group


def calls(name, shape, texts, **more):
    """A line for each text of what the shape of a call comes to where the text stands in it."""
    for group in in_groups(dict.fromkeys(texts), 1000):
        yield style(name, b"\n".join(shape.replace(b"%s", text) + b" write$ newline$" for text in group), b"EXECUTE", **more)


# ---- numbers ----

def places_in_strings():
    texts = [b"", b"a", b"ab", b"abcde", b"{\\a}b", b"{a}b", b"a{\\b", b"a}{b", b"\xc3\xa9b"]
    pieces = [b'"%s" #%d #%d substring$ write$ newline$' % (text, start, length) for text in texts for start in PLACES for length in PLACES]
    for group in in_groups(pieces, 1000):
        yield style("all starts with all lengths", b"\n".join(group), b"EXECUTE")
    pieces = [b'"%s" #%d text.prefix$ write$ newline$' % (text, count) for text in texts for count in PLACES]
    for utf8 in (False, True):
        yield style("all prefixes", b"\n".join(pieces), b"EXECUTE", options={"utf8": utf8})


def numbers_in_pairs():
    for function in (b"+", b"-", b">", b"<", b"="):
        yield style(f"all pairs of numbers, {function.decode()}", b"\n".join(b"#%d #%d %s top$" % (a, b, function) for a in NUMBERS for b in NUMBERS), b"EXECUTE")
    single = [b'#%d int.to.str$ top$ #%d int.to.chr$ top$ #%d {"y" top$} {"n" top$} if$ #%d \'i := {i} {#0 \'i := "w" top$} while$' % ((number,) * 4) for number in NUMBERS]
    yield Job("all numbers alone", b"INTEGERS {i} FUNCTION {f} {" + b"\n".join(single) + b"} EXECUTE {f}")


def integers_as_written():
    digits = [b"", b"0", b"00", b"007", b"9", b"2147483646", b"2147483647", b"2147483648", b"2147483649", b"4294967295", b"4294967296", b"4294967297", b"9999999999",
              b"18446744073709551615", b"18446744073709551616", b"0" * 30 + b"1", b"9" * 40]
    texts = [sign + text + end for sign in (b"", b"-", b"--", b"+") for text in digits for end in (b"", b"-", b"x", b"}")]
    yield Job("integers as they are written", b"\n\n".join(b"FUNCTION {f%d} {#%s top$}\n\nEXECUTE {f%d}" % (place, text, place) for place, text in enumerate(texts)))


# ---- strings ----

def ends_of_sentences():
    pieces = [b".", b"?", b"!", b":", b"}", b"{", b"a", b"\\", b" ", b"~"]
    yield from calls("ends of sentences", b'"%s" add.period$', texts_of(pieces, 3))
    yield from calls("ends of sentences behind a letter", b'"a%s" add.period$', texts_of([b".", b"?", b"}", b"{", b" ", b"\t"], 4))


def titles():
    pieces = [b":", b" ", b"\t", b"A", b"{B}", b"{\\E", b"}", b"\xc3\x89"]
    for utf8 in (False, True):
        yield from calls("titles", b'"%s" "t" change.case$', texts_of(pieces, 4 - utf8), options={"utf8": utf8})
        yield from calls("titles behind a colon", b'"A:%sC: D" "t" change.case$', texts_of([b":", b" ", b"\r", b"{}", b"B"], 4 - utf8), options={"utf8": utf8})


def conversions():
    yield from calls("conversions", b'"Ab: Cd" "%s" change.case$', texts_of([b"t", b"l", b"u", b"T", b"x", b" ", b"{"], 3))
    yield from calls("conversions of several texts", b'"%s" "t" change.case$ write$ "%s" "x%s" change.case$', texts_of([b"A", b": ", b"{", b"}"], 3))


def special_characters():
    """Insides of a special character by each function, alone, in braces and as a name's token."""
    pieces = [b"\\", b"o", b"oe", b"i", b"AA", b"x", b"'", b" ", b"{", b"}", b"1", b"-", b"E", b"\xc3\xa9"]
    functions = [b"purify$", b'"t" change.case$', b'"u" change.case$', b'"l" change.case$', b"width$ int.to.str$", b"text.length$ int.to.str$", b"#1 text.prefix$", b"add.period$"]
    for function in functions:
        name = f"special characters, {function.decode()}"
        yield from calls(name, b'"{\\%s}" ' + function, texts_of(pieces, 3))
        yield from calls(name, b'"{{\\%s}}" ' + function, texts_of(pieces, 2))
        yield from calls(name, b'"a: {\\%s" ' + function, texts_of(pieces, 2))
    words = [b"i", b"j", b"o", b"oe", b"ae", b"aa", b"l", b"ss", b"O", b"OE", b"AE", b"AA", b"L", b"I", b"SS", b"Oe", b"oE", b"sS", b"th", b"uppercase"]
    for function in functions:
        yield from calls(f"words of control sequences, {function.decode()}", b'"{\\%s" ' + function, (word + behind for word in words for behind in (b"}", b" B}", b" b", b"  {b} C}", b"\\ss\t1}x")))
    yield from calls("words of control sequences as tokens", b'"A {\\%s B" #1 "{vv|}{f.|}" format.name$', (word + behind for word in words for behind in (b"}", b" B}", b" b}", b"\\L}x", b"{b}}")))
    yield from calls("special characters as tokens", b'"A {\\%s}b B" #1 "{vv|}{f.|}" format.name$', texts_of(pieces, 3))
    yield from calls("special characters as tokens", b'"{\\%s}-{{\\%s}} B" #1 "{f.|}" format.name$', texts_of(pieces, 2))


def braces_in_special_characters():
    """Insides with braces, spaces and further control sequences, so that each of them stands behind each other one and before it."""
    pieces = [b"\\", b"{", b"}", b" ", b"i", b"X"]
    for function in (b'"u" change.case$', b"width$ int.to.str$"):
        yield from calls(f"braces in special characters, {function.decode()}", b'"{\\%s}" ' + function, texts_of(pieces, 5))
    for function in (b"purify$", b'"t" change.case$', b"text.length$ int.to.str$", b"#2 text.prefix$", b"add.period$"):
        yield from calls(f"braces in special characters, {function.decode()}", b'"{\\%s}" ' + function, texts_of(pieces, 4))


def parts_of_sequences():
    """Bytes that may make a character of UTF-8, in each order, and each first byte with each second that is a boundary for one."""
    counted = b'"%s" text.length$ int.to.str$ write$ "/" write$ "%s" #2 text.prefix$'
    pieces = [b"\xc3", b"\xe2", b"\xf0", b"\x82", b"\x9f", b"\xac", b"A"]
    seconds = [b"\x7f", b"\x80", b"\x8f", b"\x90", b"\x9f", b"\xa0", b"\xbf", b"\xc0"]
    firsts = [bytes([first]) for first in range(0xC0, 0x100)]
    for utf8 in (False, True):
        yield from calls("parts of sequences", counted, texts_of(pieces, 4 if utf8 else 2), options={"utf8": utf8})
        yield from calls("codes of parts of sequences", b'"%s" chr.to.int$ int.to.str$', texts_of(pieces, 3), options={"utf8": utf8})
        yield from calls("seconds of sequences", counted, (first + second + b"\x80\x81A" for first in firsts for second in seconds), options={"utf8": utf8})
    starts = [b"\xe0\xa0", b"\xe1\x80", b"\xed\x9f", b"\xef\xbf", b"\xf0\x90", b"\xf1\x80", b"\xf4\x8f"]
    ends = [b"\x7f", b"\x80", b"\xbf", b"\xc0"]
    yield from calls("thirds and fourths of sequences", counted, (b"".join(chosen) + b"A" for chosen in itertools.product(starts, ends, ends)), options={"utf8": True})


def strings_that_are_cut():
    """Texts around what a variable keeps, cut within a character, a special character or a brace."""
    text = b"\xc3\xa9{\xe2\x82\xac}{\\'e}\xc3"
    shown = b'"%s" \'s := s top$ "%s" \'es := es top$ "%s" \'s := s s * top$'
    for most in range(1, len(text) + 1):
        body = b"\n".join(shown.replace(b"%s", text[:end]) for end in range(len(text) + 1))
        yield Job(f"strings that are cut to {most}", b"STRINGS {s} FUNCTION {f} {" + body + b"} ITERATE {f}", declared=DECLARED.replace(b"{} F", b"{es} F"),
                  options={"utf8": most % 2 == 0, "entry_max": most, "global_max": len(text) + 1 - most})
    for most in (-1, 0, 1, 3, 9):
        body = b"#%d 'entry.max$ := #%d 'global.max$ := \"abcdef\" 's := s top$ \"abcdef\" 'es := es top$ entry.max$ top$ global.max$ top$" % (most, most)
        yield Job(f"what a variable keeps where a style says {most}", b"STRINGS {s} FUNCTION {f} {" + body + b"} ITERATE {f}", declared=DECLARED.replace(b"{} F", b"{es} F"),
                  options={"entry_max": 4, "global_max": 5})


# Strings of 1, 10 and up to 100,000 bytes.
STRINGS_OF_TENS = b"@string{p0={x}}" + b"".join(b"@string{p%d=%s}" % (place + 1, b" # ".join([b"p%d" % place] * 10)) for place in range(5))


def of_bytes(size):
    """A value of `size` bytes, which joins these strings."""
    digits = b"%d" % size
    return b" # ".join(b"p%d" % (len(digits) - 1 - place) for place, digit in enumerate(digits) for _ in range(digit - 48))


def variables_that_keep_more():
    """Options that let a variable of an entry keep more than it does otherwise, or a global one, or both: texts of one byte less, of as many and of one more, what is kept of them, and the order
    of keys that differ in their last bytes alone."""
    text = (b"STRINGS {s} FUNCTION {show} {duplicate$ #%d #9 substring$ top$ #-1 #3 substring$ top$} FUNCTION {f} {title 's := s show title 't := t show title 'sort.key$ := sort.key$ show s t = top$ "
            b"t sort.key$ = top$ s title = top$ entry.max$ top$ global.max$ top$} FUNCTION {v} {cite$ write$ newline$} ITERATE {f} SORT ITERATE {v} REVERSE {f}")
    for most in (251, 255, 256, 257, 500, 1_000, 20_000, 20_001, 65_536, 200_000, FULL - 1, FULL):
        values = [(most - 1, b"{b}"), (most - 1, b"{a}"), (most - 1, b"{ab}"), (most - 1, b"{aa}"), (most - 1, b"{}"), (most - 2, b"{b}"), (most - 2, b"{ab}")]
        database = STRINGS_OF_TENS + b"".join(b"@misc{k%d,title=%s # %s}" % (place, of_bytes(size), end) for place, (size, end) in enumerate(values) if size + len(end) - 2 <= FULL)
        for entry_max, global_max in ((most, 250), (250, most), (most, most)):
            yield Job(f"variables of entries keep {entry_max} bytes, global ones {global_max}", text % (most - 1), aux=citing(b"*"), database=database,
                      declared=b"ENTRY {title}{}{t} FUNCTION {misc} {} READ ", options={"entry_max": entry_max, "global_max": global_max})


def lines_at_each_length():
    """Texts with whitespace just before the end of a line, at it and behind it, for lengths of a line up to the greatest one."""
    for most in (20, 21, 78, 79, 80, 81, 127, 128, 129, 255, 256, 257, 998, 999, 1_000):
        fronts = [b"%s" % (b"a" * (most + more)) for more in (-2, -1, 0, 1, 2)]
        texts = [front + behind for front in fronts for behind in (b"", b" ", b" b", b"  b", b" " + b"b" * (most - 3) + b" c", b" " + b"b" * (most - 2) + b" c", b" " + b"b" * (most - 1) + b" c")]
        texts += [text.replace(b"aaaa", b"aaa ", 1) for text in texts]
        yield style(f"lines at {most} bytes", b"\n".join(b'"%s" write$ newline$' % text for text in texts), b"EXECUTE", options={"line": most})


def only_variables_cut():
    """What is longer than any variable keeps, and pushed, joined, shown and written whole; and what a variable of each kind is given."""
    shown = [b"title", b"cite$", b"type$", b"preamble$", b"crossref", b'"literal"', b'"join" "ed" *', b'"abc" add.period$', b'"abcdef" #2 #4 substring$', b'"a{bc" #2 text.prefix$', b'"a-bc" purify$', b'"ABC" "l" change.case$',
             b'"Ann Lee" #1 "{ff }{ll}" format.name$', b"#12345 int.to.str$"]
    given = [b"title", b"note", b"cite$", b"type$", b"preamble$", b'""', b'"a"', b'"{\\\'e}"', b"#1", b"'skip$", b"{}", b"'s", b"i", b"s", b"n", b"t", b"sort.key$", b"quote$"]
    body = b"\n".join([value + b" top$ " + value + b" write$ newline$" for value in shown] + [b"%s '%s := %s top$ stack$" % (value, name, name) for value in given for name in (b"s", b"t", b"sort.key$", b"i", b"n")] * 2)
    for most, command in itertools.product((1, 2, 5), (b"ITERATE", b"EXECUTE")):
        yield Job(f"only variables cut to {most}, {command.decode()}", b"INTEGERS {i} STRINGS {s} FUNCTION {f} {" + body + b"} " + command + b" {f}", options={"entry_max": most, "global_max": 3 - most % 3}, aux=citing(b"key,second"),
                  declared=b"ENTRY {title note}{n}{t} FUNCTION {misc} {} FUNCTION {article} {} READ ", database=b"@preamble{{preamble}}@misc{key,title={Title},crossref={second}}@article{second,title={ab}}")


def texts_that_are_shown():
    """Short texts, the empty one among them, in a warning, as literals and as a line."""
    yield from calls("texts that are shown", b'"%s" warning$ "%s" top$ "%s" #1 stack$ "%s"', texts_of([b" ", b"\t", b"a", b"--", b"'", b"{", b"%", b"\xc3"], 2))


def lines_of_characters():
    """Lines of characters of more than one byte, which are broken by their bytes."""
    yield from calls("lines of characters", b'"%s"', texts_of([b"\xc3\xa9" * 4, b"\xe2\x82\xac", b" ", b"a" * 6, b"\xf0\x9f\x82\xac" * 5], 5), options={"line": 20, "utf8": True})


def texts_that_are_pending():
    """Texts that no `newline$` ends, when the run does."""
    for text in texts_of([b"a" * 9, b"bb", b" ", b"\t", b"c" * 21], 3):
        yield style(f"a pending text: {text!r}", b'"' + text + b'" write$', b"EXECUTE", options={"line": 20})
    # Bytes that some take for whitespace, and whitespace.
    for byte, before in itertools.product((0, 9, 10, 11, 12, 13, 28, 31, 32, 127, 133, 160), (b"", b"a", b"c" * 20, b"c" * 21)):
        made = b"#%d int.to.chr$" % byte if byte < 128 else b'"%c"' % byte
        yield style(f"a pending text: {before!r} and byte {byte}", b'"%s" write$ %s write$' % (before, made), b"EXECUTE", options={"line": 20})


# ---- names ----

def lists_of_names():
    """How many names there are, and the first three of them."""
    whole = b'"{ff|}{vv|}{ll|}{jj|}" format.name$ write$ "/" write$ '
    shape = b'"%s" num.names$ int.to.str$ write$ "/" write$ "%s" #1 ' + whole + b'"%s" #2 ' + whole + b'"%s" #3 ' + whole + b'""'
    yield from calls("lists of names", shape, texts_of([b"and", b" ", b"{", b"}", b",", b"A", b"b"], 4))
    yield from calls("longer lists of names", shape, texts_of([b" and ", b"and ", b" and", b"\tAND\r", b"A", b",", b" "], 4))
    yield from calls("lists of names with braces", shape, texts_of([b"A and B", b"{", b"}", b" and ", b"{\\'a}"], 4))


def numbers_of_names():
    """All numbers, of which some are no name's: none counts from the end, and 0 is none."""
    lists = (b"", b" ", b"A", b"A and B", b"A and B and C,")
    yield style("all numbers of names", b"\n".join(b'"%s" #%d "{ll}" format.name$ write$ newline$' % (names, number) for names in lists for number in (*NUMBERS, -4, -3, 3, 4)), b"EXECUTE")


def short_tokens():
    """Where a tie stands, by how many characters are before it, as bytes and as UTF-8."""
    pieces = [b"A", b"\xc3\x89", b"{\\'e}", b"{b}", b"-"]
    for utf8 in (False, True):
        for shape in (b'"%s Bo Cy Dee" #1 "{ff~}{f~}{ll~}x" format.name$', b'"de %s la E" #1 "{vv~}{v.~}{ll}" format.name$'):
            yield from calls("short tokens", shape, texts_of(pieces, 3), options={"utf8": utf8})
        yield from calls("short tokens with braces that aren't closed", b'"Bo, %s" #1 "{ff~}{f~}{ff~~}x" format.name$', texts_of([b"A", b"\xc3\x89", b"{", b"{\\'", b"}"], 4), options={"utf8": utf8})


def abbreviations():
    """Tokens whose first letter, of one byte or of two, stands behind braces, in them or in a special character, abbreviated as bytes and as UTF-8."""
    for utf8 in (False, True):
        yield from calls("abbreviations", b'"%s Bo" #1 "{f.}{l}" format.name$', texts_of([b"{", b"}", b"{\\", b"\xc3\x89", b"\xc3", b"a", b"1"], 3), options={"utf8": utf8})


def names_in_sections():
    """Names with two commas and with one, no token, one or more in each section, each part in full and abbreviated."""
    sections = [(b"Bo", b"Bo Cy", b"de Bo", b"de La von Bo-Cy", b"de la"), (b"", b"Jr", b"Jr de Mi", b"jr-X~Y"), (b"", b"Ann", b"Ann di Eve", b"{\\'e}-B")]
    names = [b", ".join(chosen) for chosen in itertools.product(*sections)] + [b",".join(chosen) for chosen in itertools.product(sections[0], sections[2])]
    names += [name + end for name in names[::3] for end in (b",", b",,", b", ~", b", X, Y", b", X, Y, Z,,")]
    for format_text in (b"{ff|}{vv|}{ll|}{jj|}", b"{f.|}{v.|}{l.|}{j.|}", b"{f~}{v~}{l~}{j~}", b"{j}{f{x}}{v{}}{l{-}}{j{,}}", b"{, jj~~~}{vv~~~}a"):
        yield from calls("names in sections", b'"%s" #1 "' + format_text + b'" format.name$', names)


def gaps_between_tokens():
    """All that may stand between two tokens, where more tokens stand before or behind it."""
    for shape in (b'"Abc%sDef Ghi Jkl"', b'"Abc Def%sGhi Jkl"', b'"Abc Def Ghi%sJkl"', b'"Abc def%sghi jkl Mno"'):
        for format_text in (b"{ff|}{vv|}{ll|}{jj|}", b"{.. f.|}{vv|}{l.|}"):
            yield from calls("gaps between tokens", shape + b' #1 "%s" format.name$' % format_text, texts_of([b" ", b"~", b"-", b",", b"\t"], 3))


def gaps_in_turn():
    """Names of four tokens, each in upper or lower case, with each gap at each of the three places, and of five."""
    tokens, gaps = (b"Ab", b"ab"), (b" ", b"~", b"-", b", ")
    names = [b"".join(map(b"".join, zip(words, (*between, b"")))) for words in itertools.product(tokens, repeat=4) for between in itertools.product(gaps, repeat=3)]
    names += [b"Ab" + b"Cd".join(between) + b"Ef" for between in itertools.product(gaps, repeat=4)]
    heads = [one + gap + two + further + three for one, two, three in itertools.product(tokens, repeat=3) for gap, further in itertools.product(gaps[:3], repeat=2)]
    names += [head + behind for head in heads for behind in (b", Jr, Ef", b", Ef-Gh")]
    for format_text in (b"{ff|}{vv|}{ll|}{jj|}", b"{f.|}{v.|}{l.|}"):
        yield from calls("gaps in turn", b'"%s" #1 "' + format_text + b'" format.name$', names)


def pieces_side_by_side():
    """Ties at the end of a piece and before it: what stands before a piece is none of its own."""
    pieces = [b"~", b"a~", b"{~}", b"{~~}", b"{ff~}", b"{l~~}", b"{f{~}}", b"{...}"]
    yield from calls("pieces side by side", b'"Ann Bo" #1 "%s" format.name$', texts_of(pieces, 3))


def characters_in_pieces():
    """Characters of more than one byte in a piece with a letter and without one, before a tie at its end and between tokens, counted as bytes and as UTF-8."""
    pieces = [b"A", b".", b"\xc3\x89", b"\xe2\x82\xac", b"{\\'e}", b"{}"]
    for utf8 in (False, True):
        for format_text in (b"{{%s}~}", b"{{%s}l~}", b"{l{}{%s}~}", b"{{%s}f.}", b"{f{%s}~}", b"{{\\%s}f~}"):
            yield from calls(f"characters in pieces, {format_text.decode()}", b'"Ann Bo Cy Dee" #1 "' + format_text + b'" format.name$', texts_of(pieces, 3), options={"utf8": utf8})


def special_characters_in_formats():
    """Insides of a special character in a format: before a piece's letter, behind it, between its tokens, without a letter and outside of pieces."""
    pieces = [b"b", b"f", b" ", b"'", b"\\", b"{", b"}", b"~"]
    for format_text in (b"{{\\%s}ff~}{l~}", b"{{\\%s}f.~}", b"{f.{\\%s}}", b"{f{{\\%s}}x}", b"{{\\%s}~}{ll}", b"{\\%s}-{ll}", b"\\%s{ll}"):
        yield from calls(f"special characters in formats, {format_text.decode()}", b'"Ann Bo Cy Dee" #1 "' + format_text + b'" format.name$', texts_of(pieces, 3))


def insides_of_formats():
    pieces = [b"f", b"F", b"l", b"x", b"{", b"}", b".", b"~", b"-", b" "]
    for front, back in ((b"{f", b"}"), (b"{F", b"}"), (b"{f{", b"}}"), (b"{ff{", b"}}"), (b"{{", b"}}"), (b"{ff{x}", b"}"), (b"a{", b"}b")):
        yield from calls(f"insides of a format, {front.decode()}", b'"Ann-Bo Cy {\\\'E}x-1 de la Ee~F" #1 "%s%%s%s" format.name$' % (front, back), texts_of(pieces, 3))


# ---- greatest sizes ----

def greatest_values(size):
    """Ways in which a database has a value of some bytes. A string `s` has two."""
    long = b"x" * (size - 2)
    fields = [b"{%sab}", b"{%s} # {ab }", b"{ } # {%s} # { } # {a}", b"{%s} # s", b"{%s} # { } # {}"]
    others = [b"{%sab}", b"{%s} # { } # {a}"]
    for item, values in ((b"@misc{k,title=%s}", fields), (b"@string{l=%s}", others), (b"@preamble{{a} # %s}", others), (b"@preamble{{}}@preamble{%s}", others)):
        for value in values:
            yield (item % value).decode(), b"@string{s={ab}}" + item % (value % long) + b"@misc{j}"
    yield "two preambles", b"@preamble{{ab}}@preamble{{%s}}@misc{j}" % long
    for ignored in (b"@misc{k,title={T},title={%sab}}", b"@misc{k,nosuch={%sab}}", b"@misc{uncited,title={%sab}}"):
        yield "ignored, " + ignored.decode(), ignored % long + b"@misc{j}"


def greatest_sizes():
    """Values and strings of the greatest size, of one byte less and of one more, in each way in which one is made."""
    for size in (FULL - 1, FULL, FULL + 1):
        for name, database in greatest_values(size):
            yield Job(f"{size} bytes, {name}", b"FUNCTION {f} {title empty$ top$ preamble$ empty$ top$} ITERATE {f}", database=database, aux=citing(b"k,j"))
        word = b"x" * size
        yield Job(f"{size} bytes in a key", b"FUNCTION {f} {cite$ empty$ top$} ITERATE {f}", aux=citing(b"k," + word), database=b"@misc{k}@misc{%s}" % word)
        yield Job(f"{size} bytes in a type", b"FUNCTION {f} {type$ empty$ top$} ITERATE {f}", declared=b"FUNCTION {%s} {} " % word + DECLARED, database=b"@%s{k}" % word)
        yield Job(f"{size} bytes in a macro", b"ITERATE {skip$}", declared=b'MACRO {m} {"%s"} ' % (b"x" * size) + DECLARED)
    for size in (FULL - 1, FULL):
        long = b"1" * (size - 2)
        for body in (b'"{\\%s" #1 text.prefix$', b'"%sab" add.period$', b'"%sa." add.period$', b'"%sab" "" *', b'"%sab" "c" *', b'"%sab" #1 #2147483647 substring$'):
            yield style(f"{size} bytes, {body.decode()}", body % long + b' pop$ "still here" top$', b"EXECUTE")
        yield style(f"{size} bytes, white but for the last", b'"%sx" empty$ top$ "%s" empty$ top$' % (b" " * (size - 1), b" " * size), b"EXECUTE")
        name, before = b"n" * 100_000, b"1" * (size - 100_000)
        for shape in (b"%s{ll}", b"c%s{ll}", b"{%sll}", b"{%sll~~}", b"{%sll~~}c"):
            yield style(f"{size} bytes, {shape.decode()}", b'"%s" #1 "' % name + shape % before + b'" format.name$ #-1 #3 substring$ top$', b"EXECUTE")


def greatest_messages():
    """Messages that show a string of the greatest size, which is kept whole where a variable keeps as much, and lines of the list of more than it."""
    start = b"STRINGS {s} FUNCTION {f} {\"" + b"A" * (FULL - 1) + b",\" 's := "
    shapes = (b"s top$ s", b"s warning$ s #1 +", b's s change.case$ s = s #1 #999999 substring$ "," * s = s #1 #999999 substring$ "." * s = s chr.to.int$', b's s write$ "x" *',
              b"s write$ s write$ newline$ s write$ \" b\" write$")
    for shape in shapes:
        yield Job(f"{FULL} bytes that are shown, {shape.decode()}", start + shape + b"} EXECUTE {f}", options={"global_max": FULL})


def all_texts():
    return jobs_of(
        places_in_strings, numbers_in_pairs, integers_as_written, ends_of_sentences, titles, conversions,
        special_characters, braces_in_special_characters, parts_of_sequences, strings_that_are_cut, variables_that_keep_more,
        lines_at_each_length, only_variables_cut, texts_that_are_shown, lines_of_characters,
        texts_that_are_pending, lists_of_names, numbers_of_names, short_tokens, abbreviations, names_in_sections, gaps_between_tokens, gaps_in_turn,
        pieces_side_by_side, characters_in_pieces, special_characters_in_formats, insides_of_formats, greatest_sizes, greatest_messages)
