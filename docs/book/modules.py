"""Which modules of the original's source, bibtex.web, are about the same as a definition or a function of styles (modules.txt).

    python3 docs/book/modules.py FOLDER/bibtex.web

compares each number with that file, which isn't part of this repository: the module of that number has the word that stands beside it. The last line is 'N passed, M failed'."""

import functools
import pathlib
import re
import sys
from typing import NamedTuple

FILE = pathlib.Path(__file__).with_name("modules.txt")
# How many modules bibtex.web has, the last of which is its index.
MODULES = 468
FUNCTION = "function "
# Where a module of a file of WEB begins.
BEGINNING = re.compile(r"(?m)^@(?=[ *\n\t])")


class Module(NamedTuple):
    """A module: its number, and a word that stands in it."""
    number: int
    word: str


@functools.lru_cache(maxsize=None)
def table():
    """For each definition, and each `function NAME`, its modules."""
    found = {}
    for line in FILE.read_text(encoding="utf-8").split("\n"):
        if line.strip() and not line.startswith("//"):
            name, modules = line.split("\t")
            found[name] = [Module(int(number), word) for number, word in (it.split(" ", 1) for it in modules.split("; "))]
    return found


def sentence(name):
    """The modules of a definition or a function as one line; nothing where it has none."""
    numbers = ", ".join(str(it.number) for it in table().get(name, []))
    return f"bibtex.web {numbers}" if numbers else ""


def wrong_in(by_id, functions):
    """What is wrong with the table, as messages; `functions` are the names of the functions of styles."""
    for name, modules in table().items():
        is_there = name.removeprefix(FUNCTION) in functions if name.startswith(FUNCTION) else name in by_id
        yield from [f"modules.txt: there is no `{name}`"] * (not is_there)
        yield from (f"modules.txt: `{name}`: bibtex.web has no module {it.number}" for it in modules if not 0 < it.number < MODULES)
    yield from (f"modules.txt: the function `{name}` has no module" for name in functions if FUNCTION + name not in table())


def compare(text):
    """Compares the table with the text of bibtex.web; answers how many words stand in their modules, and messages for the others."""
    modules, passed, messages = BEGINNING.split(text)[1:], 0, []
    messages += [f"the file has {len(modules)} modules, and {MODULES} are expected"] * (len(modules) != MODULES)
    for name, found in table().items():
        for it in found:
            is_there = it.number <= len(modules) and it.word in modules[it.number - 1]
            passed += is_there
            messages += [f"{name}: module {it.number} doesn't have the word `{it.word}`"] * (not is_there)
    return passed, messages


def main():
    passed, messages = compare(pathlib.Path(sys.argv[1]).read_text(encoding="latin-1"))
    for message in messages:
        print(message)
    print(f"{passed} passed, {len(messages)} failed")
    return bool(messages)


if __name__ == "__main__":
    raise SystemExit(main())
