"""Styles and jobs made from a seed, for the checker: small styles with loops, fields and variables, and styles with a token changed."""

import re

from product import Options
from seeded import Seeded

HEAD = b"ENTRY {title author note}{n}{t} INTEGERS {i j} STRINGS {s u}\n"
# What styles are made of: pieces that mostly leave the stack as it should be, and single tokens.
TESTS = [b"title empty$", b"title missing$", b"author empty$", b"s empty$", b"t empty$", b"i #0 >", b"i j =", b"n #2 <", b"s \"a\" =",
         b"s title empty$ pop$ empty$", b"author empty$ title empty$ and", b"i #0 > not", b"title s =", b"title missing$ not"]
STRINGS = [b'"a"', b'""', b'" "', b"s", b"u", b"cite$", b"type$", b"i int.to.str$", b"title", b"author", b"note", b"title add.period$", b"s purify$",
           b's "t" change.case$', b"s #1 #3 substring$", b"author #1 \"{ff}{ll}\" format.name$", b"title empty$ {\"\"} 'title if$",
           b"author missing$ {\"b\"} {author} if$", b"title \"x\" swap$ pop$", b"\"x\" title swap$ pop$", b"s #2 text.prefix$"]
INTEGERS = [b"#0", b"#1", b"#-2", b"i", b"j", b"i #1 +", b"j i -", b"s text.length$", b"s num.names$", b"author num.names$", b"\"a\" chr.to.int$"]
TOKENS = [b"duplicate$", b"pop$", b"swap$", b"skip$", b"write$", b"empty$", b"missing$", b"*", b"+", b"=", b">", b":=", b"'s", b"'i", b"if$", b"#1", b'"x"',
          b"title", b"author", b"n", b"t", b"{}", b"'skip$", b"'pop$", b"while$", b"call.type$", b"stack$", b"top$", b"f", b"h"]
COMMANDS = [b"ITERATE {call.type$}", b"ITERATE {call.type$}", b"ITERATE {f}", b"REVERSE {f}", b"SORT", b"EXECUTE {k}", b"EXECUTE {g}"]
VALUES = [b"", b" ", b"x", b"A b and C d", b"{\\\"O}z, A.", b" lead", b"and", b"a and b and c and d", b"1999", b"a, b, c, d"]
UNKNOWN = b"late"


class Maker(Seeded):
    # ---- small styles ----

    def statement(self, depth=0):
        kind = self.random.randrange(11)
        if self.random.random() < 0.02:
            return self.pick(STRINGS)
        if kind == 0:
            return self.pick(STRINGS) + b" 's :="
        if kind == 1:
            return self.pick(INTEGERS) + self.pick([b" 'i :=", b" 'j :=", b" 'n :="])
        if kind == 2:
            return self.pick(STRINGS) + b" write$"
        if kind == 3 and depth < 3:
            return self.pick(TESTS) + b" {" + self.body(depth + 1) + b"} {" + self.body(depth + 1) + b"} if$"
        if kind == 4 and depth < 2:
            # what the test leaves below its integer the body pops, and once more what comes after the loop
            left = self.random.choice([0, 0, 1, 3])
            pushed, popped = b"".join(self.pick(STRINGS) + b" " for _ in range(left)), b"pop$ " * left
            return (b"#1 'i := {" + pushed + b"i #" + self.pick([b"3", b"5"]) + b" <} {" + popped + self.body(depth + 1) + b" i #1 + 'i :=} while$ " + popped)
        if kind == 5:
            return self.pick(STRINGS) + b" duplicate$ empty$ 'pop$ {write$} if$"
        if kind == 6:
            return self.pick(STRINGS) + b" " + self.pick(STRINGS) + b" * 't :="
        if kind == 7:
            return self.pick([b"h", b"newline$", b"skip$"])
        if kind == 8:
            return self.pick(TESTS) + b" " + self.pick([b"{#1} {#0} if$ 'i :=", b"'j :=", b"{\"y\"} {\"\"} if$ 's :=", b"{s} {#7} if$ pop$"])
        if kind == 9 and depth < 2:
            turn = b"duplicate$ empty$ {pop$ " + self.pick(STRINGS) + b"} {pop$ " + self.pick(STRINGS) + b"} if$"
            return b"#1 'i := \"\" {i #3 <} {" + turn + b" i #1 + 'i :=} while$ " + self.pick([b"write$", b"pop$"])
        return self.pick(TESTS) + self.pick([b" 'skip$ {title write$} if$", b" {title write$} 'skip$ if$"])

    def body(self, depth=0):
        return b" ".join(self.statement(depth) for _ in range(self.random.randrange(1, 4)))

    def style(self):
        text = HEAD + b"FUNCTION {not} {{#0} {#1} if$}\nFUNCTION {and} {'skip$ {pop$ #0} if$}\nFUNCTION {h} {s empty$ 'skip$ {s write$} if$}\n"
        for name in (b"book", b"misc", b"f"):
            text += b"FUNCTION {" + name + b"} {" + self.body() + b"}\n"
        text += b"FUNCTION {k} {#" + self.pick([b"0", b"1", b"7"]) + b" 'j :=}\nFUNCTION {g} {h " + self.pick([b"f", b"\"x\" 's :=", b"k", b"s write$"])
        text += b"}\nREAD\nEXECUTE {k}\n" + b"\n".join(self.pick(COMMANDS) for _ in range(3)) + b"\n"
        return self.changed(text, 8) if self.random.random() < 0.5 else text

    def changed(self, text, first=0):
        """A token behind the first ones is left out, doubled, or another one."""
        words = text.split(b" ")
        for _ in range(self.pick([1, 1, 2])):
            place = self.random.randrange(first, len(words))
            words[place:place + 1] = self.pick([[], [words[place]] * 2, [self.pick(TOKENS)], [words[place], self.pick(TOKENS)]])
        return b" ".join(words)

    # ---- jobs ----

    def job(self, style, types, budget):
        """A job of entries of these types and of one that the style doesn't know."""
        fields = re.search(rb"ENTRY\s*\{([^}]*)\}", style, re.IGNORECASE)
        fields = [name for name in (fields.group(1).split() if fields else []) if name != b"crossref" and b"%" not in name]
        share, entries = self.random.random(), []
        for key in (b"k1", b"k2", b"k3"):
            given = [name for name in fields if self.random.random() < share]
            cross = b", crossref = {k3}" if key == b"k1" and self.random.random() < 0.2 else b""
            written = b"".join(b", " + name + b" = {" + self.pick(VALUES) + b"}" for name in given)
            entries.append(b"@" + self.pick([*types, *types, UNKNOWN]) + b"{" + key + cross + written + b"}\n")
        files = {b"job.aux": b"\\citation{*}\n\\bibdata{d}\n\\bibstyle{s}\n", b"d.bib": b"".join(entries), b"s.bst": style}
        return files, Options(budget=budget, utf8=self.random.random() < 0.3, entry_max=self.pick([1, 3, 250]), global_max=self.pick([1, 2, 20_000]))
