"""Rows of styles: a whole text, and each message with its line, worked by hand. Each is a job of its own, with all entries of an empty database.
"""

from worked_jobs import Job, citing, error

ROWS = [
    # ---- commands: what is no command, and what stands in a wrong place ----
    (b"{x}", (b"I was expecting a command", 1)),
    (b"\n\n 7", (b"I was expecting a command", 3)),
    (b"ENTRIES {}{}{}", (b"ENTRIES isn't a command", 1)),
    (b"ENTRY {}{}{}\n\nSorted", (b"Sorted isn't a command", 3)),
    (b"entry {}{}{}\nREAD2", (b"I was expecting a command", 2)),
    (b"ENTRY {}{}{} READ READ\nSORT\n\nSORT", (b"Illegal, another READ command", 1)),
    (b"\nexecute {pop$}", (b"Illegal, EXECUTE command before READ", 2)),
    (b"Iterate {", (b"Illegal, ITERATE command before READ", 1)),
    (b"REVERSE", (b"Illegal, REVERSE command before READ", 1)),
    (b"ENTRY {a =}{}{}\n\nREAD\n\nENTRY {b}{}{}\n\nENTRY {}{}{}\n\nREAD", (b"I was expecting a name", 1), (b"Illegal, READ command before ENTRY", 3),
     (b"Illegal, another ENTRY command", 7)),
    (b'ENTRY {}{}{} READ\nMACRO {a} {"b"}', (b"Illegal, MACRO command after READ", 2)),
    (b"ENTRY {}{}{} READ MACRO", (b"Illegal, MACRO command after READ", 1)),
    (b"ENTRY {}{}{} FUNCTION {f}{} READ EXECUTE {F} ITERATE{call.type$}REVERSE {f} SORT",),
    (b"\n \t\r\n",),

    # ---- arguments of commands ----
    (b"INTEGERS\n\nx", (b"I was expecting a {", 3)),
    (b"FUNCTION {misc x} {}", (b"I was expecting a }", 1)),
    (b"ENTRY {}{}{} READ EXECUTE {pop$\n=}", (b"I was expecting a }", 2)),
    (b"ENTRY {}{}{} READ EXECUTE {=}", (b"I was expecting a name", 1)),
    (b"FUNCTION {1a}", (b"I was expecting a name", 1)),
    (b"INTEGERS {a, b}\n\nFUNCTION {a} {}\n\nFUNCTION {b} {}", (b"I was expecting a name", 1), (b"a is already defined", 3)),
    (b"ENTRY {a a}{}{}", (b"a is already defined", 1)),
    (b"STRINGS {sort.key$}", (b"sort.key$ is already defined", 1)),
    (b"FUNCTION {f}{}\nFUNCTION {F x} {}", (b"F is already defined", 2)),
    (b'MACRO {jan} {"J"} MACRO {JAN} {"K"}', (b"JAN is already defined", 1)),
    (b'MACRO {pop$} {"J"} STRINGS {jan}',),
    (b"ENTRY {title}{}{} READ\nEXECUTE {title}", (b"title is an unknown function", 2)),
    (b"ENTRY {}{}{} READ ITERATE {nosuch x}\nSORT\n \t\r\nSORT", (b"nosuch is an unknown function", 1)),
    (b"ENTRY {}{}{} READ EXECUTE {:=}", (b": is an unknown function", 1)),
    (b"MACRO {a} {b}", (b'I was expecting a "', 1)),
    (b'MACRO {a} {"b\n"}', (b'I was expecting a "', 1)),
    (b'\nMACRO {a} {"b', (b'I was expecting a "', 2)),
    (b'MACRO {a} {"b"c}', (b"I was expecting a }", 1)),
    (b'MACRO {a} {"b"', (b"Illegal end of style file", 1)),
    (b"FUNCTION\n\n% none\n", (b"Illegal end of style file", 3)),
    (b"FUNCTION {f}\n", (b"Illegal end of style file", 1)),
    (b"ENTRY {a}{}", (b"Illegal end of style file", 1)),
    (b"\nINTEGERS {a b", (b"Illegal end of style file", 2)),
    (b"ENTRY {}{}{} READ EXECUTE", (b"Illegal end of style file", 1)),
    (b"FUNCTION {f}{} SORT\nFUNCTION {a}{}\n%\nFUNCTION {a}{}\n\nFUNCTION {b}{}", (b"Illegal, SORT command before READ", 1)),
    (b'% FUNCTION {f} {\nFUNCTION {g} % }\n{% } "\n}',),
    (b"FUNCTION {g} {% }", (b"Illegal end of style file", 1)),
    (b"FUNCTION {\x80\xe9} {} FUNCTION {\x80\xc9} {}",),
    (b"FUNCTION {a@b[c]} {} FUNCTION {a.b} {}",),

    # ---- words of bodies ----
    (b"\nFUNCTION {f} {nosuch}", (b"nosuch is an unknown function", 2)),
    (b"FUNCTION {f} {nosuch\n'Other}", (b"nosuch is an unknown function", 1), (b"Other is an unknown function", 2)),
    (b"FUNCTION {f} {' skip$ '}", (b" is an unknown function", 1), (b" is an unknown function", 1)),
    (b'FUNCTION {f} {a{b write$"a" x\'y}', (b"a{b is an unknown function", 1), (b'write$"a" is an unknown function', 1),
     (b"x'y is an unknown function", 1)),
    (b"FUNCTION {f} {x\n \t\r\n\ny}", (b"x is an unknown function", 1), (b"y is an unknown function", 4)),
    (b"FUNCTION {f} {#- #2147483648\n#-2147483649 #x}", (b"Illegal integer", 1), (b"Illegal integer", 1), (b"Illegal integer", 2),
     (b"Illegal integer", 2)),
    (b"FUNCTION {f} {#+5 #99999999999999999999999x #}", (b"Illegal integer", 1), (b"Illegal integer", 1), (b"Illegal integer", 1)),
    (b"FUNCTION {f} {#-2147483648 #2147483647 #-0 #007}",),
    (b"FUNCTION {f} {\n#1{skip$} pop$}", (b"Illegal text after a literal", 2), (b"pop isn't a command", 2)),
    (b'FUNCTION {f} {"a""b c"}', (b"Illegal text after a literal", 1), (b'c" is an unknown function', 1)),
    (b"FUNCTION {f} {#1#2", (b"Illegal text after a literal", 1), (b"Illegal end of style file", 1)),
    (b"FUNCTION {f} {#x", (b"Illegal integer", 1), (b"Illegal end of style file", 1)),
    (b"FUNCTION {f} {nosuch", (b"nosuch is an unknown function", 1), (b"Illegal end of style file", 1)),
    (b'FUNCTION {f} {"a% {"% }\n#1% }\n}',),
    (b'FUNCTION {f} {"a\nb"}', (b'No " to end string literal', 1)),
    (b'FUNCTION {f} {\n"', (b'No " to end string literal', 2)),
    (b'FUNCTION {f} {{skip$} {skip$} "a\n\nFUNCTION {f} {{} pop$}', (b'No " to end string literal', 1)),
    (b'FUNCTION {f} {"a"', (b"Illegal end of style file", 1)),
    (b"FUNCTION {f} {{{\n", (b"Illegal end of style file", 1)),
    (b'FUNCTION {f} {nosuch "a\n\nFUNCTION {f} {}', (b"nosuch is an unknown function", 1), (b'No " to end string literal', 1)),
    (b"FUNCTION {f} {( pop$ ) = , \x00 \x7f}", (b"( is an unknown function", 1), (b") is an unknown function", 1), (b", is an unknown function", 1),
     (b"\x00 is an unknown function", 1), (b"\x7f is an unknown function", 1)),
]


def all_styles():
    for text, *messages in ROWS:
        logged = [error(message, line, b"s.bst") for message, line in messages]
        yield Job(f"style: {text}", text, aux=citing(b"*"), database=b"", declared=b"", messages=logged, status=2 if logged else 0)
