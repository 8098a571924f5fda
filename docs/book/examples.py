"""Computes the examples of the library's words in words.txt: a small reader of the notation, and each word as a function of Python.

`holds("take 2 \"abc\" = \"ab\"")` is true. It knows numbers, lists, pairs, texts in quotes, `λ`, `if`, and the words below; it stands beside the proof checker's library,
whose own definitions nothing here replaces."""

import re

TOKEN = re.compile(r'\s*("(?:[^"\\]|\\.)*"|\d+|[A-Za-z_ℕℤ][\w]*|\.[01]\b|\+\+|&&|\|\||==|\[\]|[∷≡≢<≤+*^%(),.λ=-])')
# Operators, the loosest first; those of the last column group to the right.
LEVELS = (("||", False), ("&&", False), ("== ≡ ≢ < ≤", False), ("∷ ++", True), ("+ -", False), ("* %", False), ("^", True))
NONE, TT = ("None",), ("tt",)


def some(value):
    return ("Some", value)


def curried(function, arguments=()):
    """A function of Python that takes its arguments one after another."""
    count = function.__code__.co_argcount
    return lambda value: function(*arguments, value) if len(arguments) + 1 == count else curried(function, (*arguments, value))


def fold(function, start, values):
    for value in values:
        start = function(start)(value)
    return start


def first_place(test, values):
    return next((place for place, value in enumerate(values) if test(value)), None)


def compared(compare, left, right):
    """-1, 0 or 1, as words in a dictionary."""
    for one, other in zip(left, right):
        if compare(one)(other):
            return compare(one)(other)
    return (len(left) > len(right)) - (len(left) < len(right))


def with_entry(equal, pairs, key, value):
    place = first_place(lambda pair: equal(pair[0])(key), pairs)
    return pairs + [(key, value)] if place is None else pairs[:place] + [(pairs[place][0], value)] + pairs[place + 1:]


def taken_while(test, values):
    place = first_place(lambda value: not test(value), values)
    return values if place is None else values[:place]


def one_of(values):
    return some(values[0]) if values else NONE


def code_of(text):
    return list(text.encode("utf-8"))


WORDS = {
    "zero": 0, "true": True, "false": False, "None": NONE, "tt": TT,
    "MOST_LITERALS": 1000, "MOST_BODIES": 4096, "MOST_LOOPS": 4096, "MOST_OPEN": 20, "FIRST_BREAK": 3, "GREATEST_STRING": 1000000, "GREATEST_FILE": 2147483647,
    **{name: curried(function) for name, function in {
        "pos": lambda n: n, "negsuc": lambda n: -n - 1, "neg_ℤ": lambda n: -n, "suc": lambda n: n + 1, "min": lambda a, b: min(a, b), "max": lambda a, b: max(a, b),
        "length": lambda xs: len(xs), "take": lambda n, xs: xs[:n], "drop": lambda n, xs: xs[n:], "take_while": taken_while, "reverse": lambda xs: xs[::-1],
        "map": lambda f, xs: [f(x) for x in xs], "flat_map": lambda f, xs: [y for x in xs for y in f(x)], "filter": lambda t, xs: [x for x in xs if t(x)], "fold": fold,
        "find": lambda t, xs: one_of([x for x in xs if t(x)]), "list_any": lambda t, xs: any(t(x) for x in xs), "list_all": lambda t, xs: all(t(x) for x in xs),
        "position": lambda t, xs: NONE if first_place(t, xs) is None else some(first_place(t, xs)), "count_by": lambda t, xs: sum(t(x) for x in xs),
        "sum_by": lambda f, xs: sum(f(x) for x in xs), "replicate": lambda n, x: [x] * n, "range_with_len": lambda a, n: list(range(a, a + n)),
        "join_by": lambda f, between, xs: [y for place, x in enumerate(xs) for y in (between if place else []) + f(x)],
        "starts_with": lambda eq, xs, ys: xs[:len(ys)] == ys, "ends_with": lambda eq, xs, ys: xs[max(len(xs) - len(ys), 0):] == ys,
        "slice_index": lambda xs, i: xs[i] if i < len(xs) else 0, "slice_index_or": lambda xs, i, d: xs[i] if i < len(xs) else d,
        "slice_get": lambda xs, i: some(xs[i]) if i < len(xs) else NONE, "slice_set": lambda xs, i, x: xs[:i] + [x] * (i < len(xs)) + xs[i + 1:],
        "slice_range": lambda xs, a, b: xs[a:max(a, b)], "slice_cmp": compared, "nat_cmp": lambda a, b: (a > b) - (a < b), "is_lt": lambda order: order < 0,
        "lookup": lambda t, pairs: one_of([value for key, value in pairs if t(key)]), "insert_entry": with_entry,
        "Contains": lambda xs, x: x in xs, "IsDistinct": lambda eq, xs: not any(eq(x)(y) for place, x in enumerate(xs) for y in xs[:place]),
        "All": lambda P, xs: all(P(x) for x in xs), "not": lambda b: not b, "nat_eq": lambda a, b: a == b, "nat_lt": lambda a, b: a < b, "nat_le": lambda a, b: a <= b,
        "int_eq": lambda a, b: a == b, "int_lt": lambda a, b: a < b, "bytes_eq": lambda xs, ys: xs == ys, "codes": lambda text: text, "byte": lambda text: text[0],
        "to_ascii_lowercase": lambda b: b + 32 * (65 <= b <= 90), "to_ascii_uppercase": lambda b: b - 32 * (97 <= b <= 122),
        "is_in_range": lambda a, b, n: a <= n <= b,
        "is_ascii_uppercase": lambda b: 65 <= b <= 90, "is_ascii_lowercase": lambda b: 97 <= b <= 122, "is_ascii_digit": lambda b: 48 <= b <= 57,
        "is_ascii_alphabetic": lambda b: 65 <= b <= 90 or 97 <= b <= 122, "decimal": lambda n: code_of(str(n)), "signed_decimal": lambda n: code_of(str(n)), "encode_utf8": lambda c: code_of(chr(c)),
        "IsScalar": lambda c: c < 0xD800 or 0xE000 <= c < 0x110000, "Some": some, "Ok": lambda x: ("Ok", x), "Err": lambda e: ("Err", e),
        "is_some": lambda o: o != NONE, "is_none": lambda o: o == NONE, "option_map": lambda f, o: o if o == NONE else some(f(o[1])),
        "option_and_then": lambda f, o: o if o == NONE else f(o[1]), "option_or": lambda o, p: p if o == NONE else o,
        "option_to_list": lambda o: [] if o == NONE else [o[1]], "onto_first": lambda x, xs: [[x] + xs[0], *xs[1:]] if xs else [[x]],
        "option_map_or": lambda f, o, d: d if o == NONE else f(o[1]), "unwrap_or": lambda o, d: d if o == NONE else o[1], "IsTrue": lambda b: b,
        "IfOk": lambda r, P: r[0] != "Ok" or P(r[1]), "OnOk": lambda r, P: r[0] != "Ok" or P, "OnErr": lambda r, P: r[0] != "Err" or P,
        "IfSome": lambda o, P: o == NONE or P(o[1])}.items()}}

APPLY = {"||": lambda a, b: a or b, "&&": lambda a, b: a and b, "==": lambda a, b: a == b, "≡": lambda a, b: a == b, "≢": lambda a, b: a != b,
         "<": lambda a, b: a < b, "≤": lambda a, b: a <= b, "∷": lambda a, b: [a] + b, "++": lambda a, b: a + b, "+": lambda a, b: a + b,
         "-": lambda a, b: max(a - b, 0), "*": lambda a, b: a * b, "%": lambda a, b: a % b, "^": lambda a, b: a ** b}


class Reader:
    """Reads an expression and computes it; names stand for what `names` says."""

    def __init__(self, text):
        self.words, at = [], 0
        while text[at:].strip():
            found = TOKEN.match(text, at)
            if not found:
                raise ValueError(f"I can't read {text[at:]}")
            self.words.append(found[1])
            at = found.end()

    def next(self, *wanted):
        if self.words and (not wanted or self.words[0] in wanted):
            return self.words.pop(0)
        return None

    def expression(self, names):
        if self.next("if"):
            test = self.expression(names)
            self.next("then")
            yes = self.expression(names)
            self.next("else")
            return yes if test else self.expression(names)
        if self.next("λ"):
            return self.function(names)
        return self.joined(0, names)

    def function(self, names):
        """What stands after a `λ`, as a function; its body ends before a `)` or `,` that it doesn't open."""
        given = [self.next()]
        while not self.next("."):
            given.append(self.next())
        body, depth = [], 0
        while self.words and (depth or self.words[0] not in (")", ",")):
            depth += {"(": 1, ")": -1}.get(self.words[0], 0)
            body.append(self.words.pop(0))

        def called(known, value):
            known = {**known, given[len(known)]: value}
            if len(known) < len(given):
                return lambda more: called(known, more)
            reader = Reader("")
            reader.words = list(body)
            return reader.expression({**names, **known})
        return lambda value: called({}, value)

    def joined(self, level, names):
        if level == len(LEVELS):
            return self.applied(names)
        signs, to_the_right = LEVELS[level]
        left = self.joined(level + 1, names)
        sign = self.next(*signs.split())
        while sign:
            right = self.joined(level if to_the_right else level + 1, names)
            left = APPLY[sign](left, right)
            sign = self.next(*signs.split())
        return left

    def applied(self, names):
        value = self.atom(names)
        while self.words and (self.words[0] in ("(", "[]", "λ") or re.match(r'["\w]', self.words[0])) and self.words[0] not in ("then", "else"):
            value = value(self.expression(names) if self.words[0] == "λ" else self.atom(names))
        return value

    def atom(self, names):
        word = self.next()
        if word == "(":
            value = self.expression(names)
            while self.next(","):
                value = (value, self.expression(names))
            self.next(")")
        elif word == "[]":
            value = []
        elif word[0] == '"':
            value = code_of(word[1:-1].replace("\\n", "\n").replace('\\"', '"'))
        else:
            value = int(word) if word.isdigit() else names[word]
        while self.words and self.words[0] in (".0", ".1"):
            value = value[int(self.next()[1])]
        return value


def holds(example):
    """Whether an example is so: `a = b`, or a statement that holds, or with `not so: ` before it one that doesn't."""
    is_denied = example.startswith("not so: ")
    left, equals, right = example.removeprefix("not so: ").partition(" = ")
    value = Reader(left).expression(WORDS)
    return value == Reader(right).expression(WORDS) if equals else value is (not is_denied)
