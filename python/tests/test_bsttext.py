"""Names that are spelled as commands: a field, a variable or a function of a style may be called READ or SORT, alone on a line."""

import time
import unittest

from btx.bsttext import read_style, uses_between

BOTH = b"ENTRY { author\nREAD\nSORT\n} { sort.it\nSORT\n} {\nREAD\n}\nFUNCTION {misc} { author write$\nREAD\nwrite$ }\nREAD\nITERATE {call.type$}\nSORT\n"
# A style, its fields, and the words of its commands.
ROWS = (
    (b"ENTRY { author read sort } {} {}\nREAD\nSORT\n", ["author", "read", "sort"], ["ENTRY", "READ", "SORT"]),
    (b"ENTRY { author\nREAD\nSORT\n} {} {}\nREAD\n", ["author", "read", "sort"], ["ENTRY", "READ"]),
    (b"ENTRY { author\nread\nsort\n} {} {}\nREAD\n", ["author", "read", "sort"], ["ENTRY", "READ"]),
    (b"ENTRY { author\nREAD\nfunction\nexecute\n} {} {}\nREAD\n", ["author", "read", "function", "execute"], ["ENTRY", "READ"]),
    (b"ENTRY { author\nREAD\n% a {\nSORT\n} {} {}\nREAD\n", ["author", "read", "sort"], ["ENTRY", "READ"]),
    (BOTH, ["author", "read", "sort"], ["ENTRY", "FUNCTION", "READ", "ITERATE", "SORT"]),
    # A brace that isn't closed: what comes next is a command.
    (b"ENTRY { author\nREAD\nFUNCTION {misc} {}\n", ["author", "read"], ["ENTRY", "FUNCTION"]),
    (b"ENTRY { author } {} {}\nFUNCTION {misc} { author\nREAD\nSORT\nITERATE {x}\n", ["author"], ["ENTRY", "FUNCTION", "READ", "SORT", "ITERATE"]),
    (b"ENTRY { author } {} {}\nFUNCTION {misc} { author\nREAD\n", ["author"], ["ENTRY", "FUNCTION", "READ"]),
)


class Names(unittest.TestCase):
    def test_fields_and_commands(self):
        for text, fields, words in ROWS:
            with self.subTest(text=text):
                found = read_style(text)
                self.assertEqual((found.named("field"), [command.word for command in found.commands]), (fields, words))

    def test_variables(self):
        found = read_style(BOTH)
        self.assertEqual((found.named("integer of entries"), found.named("string of entries")), (["sort.it", "sort"], ["read"]))
        self.assertEqual([word.name for word in found.uses], ["author", "write$", "read", "write$", "call.type$"])

    def test_uses_after_such_a_name(self):
        self.assertEqual([word.name for word in uses_between(BOTH, BOTH.index(b"\nwrite$ }"), BOTH.index(b"}\nREAD\nITERATE"))], ["write$"])

    def test_many_lines_take_their_time_alone(self):
        for text in (b"ENTRY {" + b"READ\n" * 50_000 + b"} {} {}", b"READ\n" * 50_000 + b"}", b"FUNCTION {a} {" + b"READ {}\n" * 50_000 + b"}"):
            began = time.process_time()
            read_style(text)
            uses_between(text, len(text) - 3, len(text))
            self.assertLess(time.process_time() - began, 10)


if __name__ == "__main__":
    unittest.main()
