"""The reader of styles: a text, and what it says command by command."""

from typing import NamedTuple

from interpreter import BUILT_IN
from meanings import (CROSSREF, ENTRY_MAX, GLOBAL_MAX, SORT_KEY, BuiltIn, Executed, Field, Function, Integer, Quoted, String,
                      Variable)
from texts import is_digit, is_letter, is_white, lines, lowered, name_at, raised

# ---- a style and its items ----


class Message(NamedTuple):
    text: bytes


class Command(NamedTuple):
    word: bytes
    meaning: object = None


class Style:
    def __init__(self):
        self.items = []
        self.bodies = []        # lists of tokens, by the number of their function
        self.macros = {}        # by lowered name
        self.known = {name: BuiltIn(name) for name in BUILT_IN}
        for meaning in (CROSSREF, SORT_KEY, ENTRY_MAX, GLOBAL_MAX):
            self.known[meaning.name] = meaning
        self.has_entry = self.has_read = False
        self.types = {}         # the functions that stand before READ, by name

    def fields(self):
        return [meaning for meaning in self.known.values() if isinstance(meaning, Field)]

    def variables(self):
        return [meaning for meaning in self.known.values() if isinstance(meaning, Variable)]


class Fault(Exception):
    """Ends the command; the message's text is logged with the line of the place."""


class Reader:
    def __init__(self, name, text):
        self.name, self.lines = name, lines(text)
        self.line, self.column = 0, 0   # the place
        self.style = Style()

    # ---- moving ----

    def at_end(self):
        return self.line == len(self.lines)

    def rest(self):
        """What is left of the line."""
        return b"" if self.at_end() else self.lines[self.line][self.column:]

    def skip_white(self):
        """Passes whitespace, ends of lines and comments."""
        while not self.at_end():
            rest = self.rest()
            if rest == b"" or rest[0] == 37:
                self.line, self.column = self.line + 1, 0
            elif is_white(rest[0]):
                self.column += 1
            else:
                return

    def next_token(self):
        """Passes whitespace; the file may not end there."""
        self.skip_white()
        if self.at_end():
            raise Fault(b"Illegal end of style file")

    def skip_to_empty_line(self):
        self.line, self.column = min(self.line + 1, len(self.lines)), 0
        while not self.at_end() and self.lines[self.line] != b"":
            self.line += 1

    def skip_token(self):
        """Passes all up to whitespace, `}`, `%` or the end of the line, and gives it."""
        rest = self.rest()
        end = 0
        while end < len(rest) and not is_white(rest[end]) and rest[end] not in b"}%":
            end += 1
        self.column += end
        return rest[:end]

    # ---- messages ----

    def log_error(self, text):
        number = min(self.line + 1, len(self.lines))
        self.style.items.append(Message(text + b"--line %d of file %s" % (number, self.name)))

    # ---- signs and names ----

    def sign(self, sign, fault):
        self.next_token()
        if self.rest()[:1] != sign:
            raise Fault(fault)
        self.column += 1

    def open_brace(self):
        self.sign(b"{", b"I was expecting a {")

    def close_brace(self):
        self.sign(b"}", b"I was expecting a }")

    def read_name(self):
        self.next_token()
        rest = self.rest()
        end = name_at(rest, 0)
        if end == 0:
            raise Fault(b"I was expecting a name")
        self.column += end
        return rest[:end]

    # ---- commands ----

    def read(self):
        self.skip_white()
        while not self.at_end():
            try:
                self.read_command()
            except Fault as fault:
                self.log_error(fault.args[0])
                self.skip_to_empty_line()
            self.skip_white()
        return self.style

    def read_command(self):
        rest = self.rest()
        end = 0
        while end < len(rest) and is_letter(rest[end]):
            end += 1
        if end == 0:
            raise Fault(b"I was expecting a command")
        self.column += end
        word = raised(rest[:end])
        readers = {b"ENTRY": self.read_entry, b"INTEGERS": self.read_integers, b"STRINGS": self.read_strings,
                   b"FUNCTION": self.read_function, b"MACRO": self.read_macro, b"READ": self.read_read,
                   b"EXECUTE": self.read_execution, b"ITERATE": self.read_execution,
                   b"REVERSE": self.read_execution, b"SORT": self.read_sort}
        if word not in readers:
            raise Fault(rest[:end] + b" isn't a command")
        self.ask_order(word)
        readers[word](word)

    def ask_order(self, word):
        style = self.style
        if (word == b"ENTRY" and style.has_entry) or (word == b"READ" and style.has_read):
            raise Fault(b"Illegal, another " + word + b" command")
        if word in (b"EXECUTE", b"ITERATE", b"REVERSE", b"SORT") and not style.has_read:
            raise Fault(b"Illegal, " + word + b" command before READ")
        if word == b"READ" and not style.has_entry:
            raise Fault(b"Illegal, READ command before ENTRY")
        if word == b"MACRO" and style.has_read:
            raise Fault(b"Illegal, MACRO command after READ")

    def read_list(self, meaning_of):
        """A list of names in braces, each defined where it stands."""
        self.open_brace()
        self.next_token()
        while self.rest()[:1] != b"}":
            name = self.read_name()
            self.ask_new(name, self.style.known)
            self.style.known[lowered(name)] = meaning_of(lowered(name))
            self.next_token()
        self.column += 1

    def ask_new(self, name, table):
        if lowered(name) in table:
            raise Fault(name + b" is already defined")

    def read_entry(self, word):
        self.read_list(Field)
        self.read_list(lambda name: Variable(name, True, False))
        self.read_list(lambda name: Variable(name, True, True))
        self.style.has_entry = True

    def read_integers(self, word):
        self.read_list(lambda name: Variable(name, False, False))

    def read_strings(self, word):
        self.read_list(lambda name: Variable(name, False, True))

    def read_defined(self, table):
        """A name in braces that isn't in the table yet, and the brace that opens its definition."""
        self.open_brace()
        name = self.read_name()
        self.ask_new(name, table)
        self.close_brace()
        self.open_brace()
        return name

    def read_function(self, word):
        name = self.read_defined(self.style.known)
        before = len(self.style.bodies)
        try:
            body = self.read_body()
        except Fault:
            del self.style.bodies[before:]
            raise
        self.style.known[lowered(name)] = self.define(lowered(name), body)

    def define(self, name, body):
        self.style.bodies.append(body)
        return Function(len(self.style.bodies) - 1, name)

    def read_macro(self, word):
        name = self.read_defined(self.style.macros)
        self.sign(b'"', b'I was expecting a "')
        text, quote, after = self.rest().partition(b'"')
        if not quote:
            raise Fault(b'I was expecting a "')
        self.column += len(text) + 1
        self.close_brace()
        self.style.macros[lowered(name)] = text

    def read_read(self, word):
        self.style.has_read = True
        self.style.types = {name: meaning for name, meaning in self.style.known.items()
                            if isinstance(meaning, Function)}
        self.style.items.append(Command(word))

    def read_sort(self, word):
        self.style.items.append(Command(word))

    def read_execution(self, word):
        self.open_brace()
        name = self.read_name()
        meaning = self.style.known.get(lowered(name))
        if not isinstance(meaning, (Function, BuiltIn)):
            raise Fault(name + b" is an unknown function")
        self.close_brace()
        self.style.items.append(Command(word, meaning))

    # ---- bodies ----

    def read_body(self):
        """The tokens up to the `}` of the body, which is passed."""
        tokens = []
        while True:
            self.next_token()
            if self.rest()[:1] == b"}":
                self.column += 1
                return tokens
            tokens.extend(self.read_token())

    def read_token(self):
        """One token, or none where it was faulty."""
        first = self.rest()[:1]
        if first == b'"':
            return self.literal_ended(self.read_string())
        if first == b"#":
            return self.read_integer()
        if first == b"{":
            self.column += 1
            return [Quoted(self.define(b"", self.read_body()))]
        if first == b"'":
            self.column += 1
            return self.meant(Quoted)
        return self.meant(Executed)

    def meant(self, kind):
        name = self.skip_token()
        meaning = self.style.known.get(lowered(name))
        if meaning is None:
            self.log_error(name + b" is an unknown function")
            return []
        return [kind(meaning)]

    def read_string(self):
        text, quote, after = self.rest()[1:].partition(b'"')
        if not quote:
            raise Fault(b'No " to end string literal')
        self.column += len(text) + 2
        return String(text)

    def read_integer(self):
        rest = self.rest()
        end = start = 2 if rest[1:2] == b"-" else 1
        while end < len(rest) and is_digit(rest[end]):
            end += 1
        significant = rest[start:end].lstrip(b"0")
        value = int(significant or b"0") if len(significant) <= 10 else 1 << 40
        value = -value if start == 2 else value
        if end == start or not -2**31 <= value < 2**31:
            self.log_error(b"Illegal integer")
            self.skip_token()
            return []
        self.column += end
        return self.literal_ended(Integer(value))

    def literal_ended(self, token):
        if self.skip_token():
            self.log_error(b"Illegal text after a literal")
            return []
        return [token]


def read_style(name, text):
    return Reader(name, text).read()


# ---- direct styles ----

def is_direct(style):
    return all(body_is_direct(body) for body in style.bodies)


def is_choice(token):
    return isinstance(token, Executed) and token.meaning in (BuiltIn(b"if$"), BuiltIn(b"while$"))


def body_is_direct(body):
    call_type = BuiltIn(b"call.type$")
    for place, token in enumerate(body):
        if isinstance(token, (Quoted, Executed)) and token.meaning == call_type:
            return False
        if isinstance(token, Quoted) and isinstance(token.meaning, Function):
            pairs = [(place - 1, place), (place, place + 1)]
            if not any(first >= 0 and second + 1 < len(body)
                       and isinstance(body[first], Quoted) and isinstance(body[second], Quoted)
                       and is_choice(body[second + 1]) for first, second in pairs):
                return False
    return True
