"""Why a program's list differs from the original's: each cause is a row of docs/DIFFERENCES.md, and is shown by a change of the paper that takes the cause away.

A change keeps what a style does where its cause isn't met. If both programs write the same list for the changed paper, nothing else than the cause made
the lists differ."""

import re

SORT = re.compile(rb"^[ \t]*SORT(?=\s|%|$)", re.MULTILINE | re.IGNORECASE)
EXECUTION = re.compile(rb"^[ \t]*(EXECUTE|ITERATE|REVERSE)\s*\{\s*([^\s{}]+)\s*\}", re.MULTILINE | re.IGNORECASE)
# More literals than any shipped style pops too many.
GUARDS = 24


def without_open_quotes(style):
    """Drops each string literal that has no closing quote on its line, as the original does: what stands on the line from its quote on."""
    return b"\n".join(closed(line) for line in style.split(b"\n"))


def closed(line):
    """A line of a style without a literal that isn't closed on it."""
    place = 0
    while True:
        found = re.compile(rb'["%]').search(line, place)
        if found is None or found[0] == b"%":
            return line
        end = line.find(b'"', found.end())
        if end < 0:
            return line[: found.start()]
        place = end + 1


def with_keys_apart(style):
    """Has the cite key appended to each sort key before each SORT, so that no two are equal."""
    numbers = iter(range(10**6))

    def apart(found):
        name = b"corpus.apart.%d" % next(numbers)
        return b"FUNCTION {%s} { sort.key$ \"   \" * cite$ * 'sort.key$ := }\nITERATE {%s}\n%s" % (name, name, found[0])

    return SORT.sub(apart, style)


def with_literals_below(style):
    """Has empty strings pushed before each command's function is executed, so that no function pops from an empty stack."""
    numbers = iter(range(10**6))

    def guarded(found):
        name = b"corpus.below.%d" % next(numbers)
        return b"FUNCTION {%s} { %s %s }\n%s {%s}" % (name, b'"" ' * GUARDS, found[2], found[1], name)

    return EXECUTION.sub(guarded, style)


def all_of_them(style):
    return with_literals_below(with_keys_apart(without_open_quotes(style)))


# The beginning of the row in docs/DIFFERENCES.md, and the change that takes the cause away; each is tried where those before it haven't explained a difference.
CHANGES = (
    ("Entries with equal sort keys keep their present order", with_keys_apart),
    ("Each pop of an empty stack", with_literals_below),
    ("A string literal without its closing quote on its line drops the whole function", without_open_quotes),
    ("several of these rows", all_of_them),
)
TIES = "Ties in formatted names"


def is_a_tie(here, there):
    """Whether two lists differ in nothing but ties and spaces behind a word with a brace: the original counts a plain brace among the characters that decide."""
    if len(here) != len(there):
        return False
    places = [place for place, (one, other) in enumerate(zip(here, there)) if one != other]
    return all({here[place], there[place]} == set(b"~ ") and b"{" in re.split(rb"[ ~]", here[:place])[-1] for place in places)
