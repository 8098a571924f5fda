"""Writes what the letters of each language sort as, for the packages for Node, Python and Lua, from the front end's table.

    python3 web/languages.py [OUT.js]
    python3 web/languages.py --python [OUT.py]
    python3 web/languages.py --lua [OUT.lua]

It takes these from the front end's sources, so that there is one of each: the table of letters, the fields whose values stay as they are, why letters are left out, what each built-in
function does with letters, and the limits. OUT.js is web/npm/languages.js, which `web/build` has made so. OUT.py is python/btx/languages.py and OUT.lua is lua/btx_languages.lua, which stand in the repository: tests see that they are
what this script makes. Lua knows the case of no letter outside ASCII, so OUT.lua has a table of these, too. Where a table isn't read whole, nothing is written: the number of its rows has to be what it declares."""

import json
import pathlib
import re
import sys

HERE = pathlib.Path(__file__).resolve().parent
ROOT = HERE.parent
OF_NODE, OF_PYTHON, OF_LUA = HERE / "npm/languages.js", ROOT / "python/btx/languages.py", ROOT / "lua/btx_languages.lua"
# What is read: each file of front/src by its name.
FILES = ("languages", "letter_run", "letter_values", "database", "style_keys")

PAIR = re.compile(r'\(("(?:[^"\\]|\\.)*"), ("(?:[^"\\]|\\.)*")\)')
ROW = re.compile(r'\("([\w-]+)", &\[((?:[^\]"]|"(?:[^"\\]|\\.)*")*)\]\)')

EFFECT = re.compile(r'\("([^"\s]+)", Effect::(\w+)(?:\((\d)\))?\)')


class Unknown(Exception):
    """The front end's text isn't in the shape that is read here."""


def found(pattern, text, what):
    one = re.search(pattern, text, re.S)
    if not one:
        raise Unknown(f"there is no {what}")
    return one


def constant(name, text):
    """How many rows a constant of the table declares, and its text, up to the bracket that closes it at the beginning of a line."""
    one = found(rf"(?m)^const {name}: \[[^;]+; (\d+)\] = \[\n(.*?)^\];", text, name)
    return int(one[1]), without_comments(one[2])


def without_comments(text):
    """Rust without comments of a line. No string of the table has two slashes."""
    return re.sub(r"//[^\n]*", "", text)


def rules(text):
    """The rules in a text. Nothing else may stand in it but commas and whitespace."""
    if re.sub(r"[\s,]", "", PAIR.sub("", text)):
        raise Unknown(f"no rule: {PAIR.sub('', text)[:80]!r}")
    return [[json.loads(one), json.loads(other)] for one, other in PAIR.findall(text)]


def languages(text):
    """The languages in a text: each one's name and rules."""
    if re.sub(r"[\s,]", "", ROW.sub("", text)):
        raise Unknown(f"no language: {ROW.sub('', text)[:80]!r}")
    return [[name, rules(own)] for name, own in ROW.findall(text)]


def counted(count, rows, what):
    if len(rows) != count:
        raise Unknown(f"{len(rows)} {what}, where the table declares {count}")
    return rows


def sources():
    """The text of each file that is read."""
    return {name: (ROOT / f"front/src/{name}.rs").read_text(encoding="utf8") for name in FILES}


def limits(text, *names):
    """Numbers that are constants of a text."""
    return {name: int(found(rf"const {name}: \w+ = ([\d_]+);", text, name)[1].replace("_", "")) for name in names}


def effects(text):
    """The built-in functions in a text: each one's name, its effect, and how many literals it pops. Nothing else may stand in it but commas and whitespace."""
    if re.sub(r"[\s,]", "", EFFECT.sub("", text)):
        raise Unknown(f"no built-in function: {EFFECT.sub('', text)[:80]!r}")
    return [[name, effect, int(popped or 0)] for name, effect, popped in EFFECT.findall(text)]


def reasons(text):
    """Why letters are left out: each reason's name and its words."""
    names = re.findall(r"\w+", found(r"pub enum LeftOut \{(.*?)\}", text, "LeftOut")[1])
    words = dict(re.findall(r'LeftOut::(\w+) => "([^"\\]*)"', text))
    if [*words] != names:
        raise Unknown(f"words for {[*words]}, where the reasons are {names}")
    return words


def of_letters(texts):
    """The tables of letters: of each its comment, its name and its value, a list of rows."""
    count, text = constant("ROOT", texts["languages"])
    root = counted(count, rules(text), "rules of all languages")
    count, text = constant("LANGUAGES", texts["languages"])
    own = counted(count, languages(text), "languages")
    yield "Small letters, and what each of them sorts as in any language that has no rule of its own; a `*` is a byte after each letter of ASCII.", "ROOT", root
    yield "The languages, each with its own rules.", "LANGUAGES", own


def of_runs(texts):
    """What a run with coded letters wants beside the letters, likewise."""
    fields = found(r"const FIXED: \[&str; (\d+)\] = \[(.*?)\];", texts["letter_values"], "FIXED")
    kept = counted(int(fields[1]), re.findall(r'"(\w+)"', fields[2]), "fields")
    of_values = {**limits(texts["letter_values"], "MOST_ROUNDS"), **limits(texts["database"], "LONGEST_HEAD")}
    yield "Fields whose values stay as they are.", "FIXED", kept
    yield "How many times as long the strings are that variables of a run with coded letters keep.", "LONGER", limits(texts["letter_run"], "LONGER")["LONGER"]
    yield "Why the letters of a language are left out.", "REASONS", reasons(texts["letter_run"])
    yield "How often databases are looked through for parents, and how far the beginning of an item is read for its key.", "OF_VALUES", of_values


def of_styles(texts):
    """How styles are followed, likewise."""
    count, text = constant("BUILTINS", texts["style_keys"])
    builtins = counted(count, effects(text), "built-in functions")
    yield "How far a style is followed.", "OF_STYLES", limits(texts["style_keys"], "MOST_STEPS", "MOST_NAMES", "MOST_ROUNDS", "MOST_TEXTS", "DEEPEST")
    yield "The built-in functions, each with what it does to letters and how many literals it pops for that.", "BUILTINS", builtins


def tables(texts):
    return [*of_letters(texts), *of_runs(texts), *of_styles(texts)]


# The tables of which each row has a line.
LONG = ("ROOT", "LANGUAGES", "BUILTINS")


def script(texts):
    """The script for Node that has the tables, of the texts of the files."""
    def written(value):
        return json.dumps(value, ensure_ascii=False)

    lines = ["// What the letters of each language sort as. web/languages.py makes this file from the front end's sources: change it there."]
    for comment, name, value in tables(texts):
        lines += ["", f"// {comment}"]
        lines += [f"export const {name} = [", *(f"  {written(row)}," for row in value), "];"] if name in LONG else [f"export const {name} = {written(value)};"]
    return "\n".join([*lines, ""])


# How a checker of types has each table.
TYPES = {
    "ROOT": "Tuple[Rule, ...]", "LANGUAGES": "Tuple[Tuple[str, Tuple[Rule, ...]], ...]", "FIXED": "Tuple[str, ...]", "LONGER": "int", "REASONS": "Dict[str, str]", "OF_VALUES": "Dict[str, int]",
    "OF_STYLES": "Dict[str, int]", "BUILTINS": "Tuple[Tuple[str, str, int], ...]",
}


def as_python(value):
    """A value as Python has it: a list is a tuple."""
    if isinstance(value, list):
        return f"({', '.join(map(as_python, value))}{',' * (len(value) == 1)})"
    return json.dumps(value, ensure_ascii=False)


def module(texts):
    """The same for Python."""
    lines = [
        '"""What the letters of each language sort as. web/languages.py makes this file from the front end\'s sources: change it there."""', "", "from __future__ import annotations", "",
        "from typing import Dict, Tuple", "", "__all__ = [", *(f'    "{name}",' for name in sorted(TYPES)), "]", "", "# Letters, and what each of them sorts as.", "Rule = Tuple[str, str]",
    ]
    for comment, name, value in tables(texts):
        lines += ["", f"# {comment}"]
        lines += [f"{name}: {TYPES[name]} = (", *(f"    {as_python(row)}," for row in value), ")"] if name in LONG else [f"{name}: {TYPES[name]} = {as_python(value)}"]
    return "\n".join([*lines, ""])


# A letter of the tables of which Python knows no capital before Unicode 16.
CAPITALS = {"ƛ": "\ua7dc"}


def cases(texts):
    """Letters whose small letter sorts as something: of each itself, that small letter, it in the other case, and whether it is a capital."""
    _, _, root = next(of_letters(texts))
    own = [rule for _, rules in dict((name, value) for _, name, value in of_letters(texts))["LANGUAGES"] for rule in rules]
    small = {letter for letters, _ in [*root, *own] for letter in letters if letter >= "\x80"}
    smaller = {capital: letter for letter, capital in CAPITALS.items()}
    for letter in map(chr, range(0x80, 0x20000)):
        lower = smaller.get(letter) or letter.lower()
        if lower[0] in small:
            # (also a letter of a capital and a small one, such as `ǅ`)
            is_capital = letter.isupper() or lower != letter
            yield letter, lower[0], lower if is_capital else CAPITALS.get(letter) or letter.upper(), is_capital


def as_lua(value):
    """A value as Lua has it."""
    if isinstance(value, dict):
        return "{ %s }" % ", ".join(f"[{as_lua(name)}] = {as_lua(it)}" for name, it in value.items())
    if isinstance(value, (list, tuple)):
        return "{ %s }" % ", ".join(map(as_lua, value))
    return json.dumps(value, ensure_ascii=False)


def lua(texts):
    """The same for Lua."""
    found = list(cases(texts))
    small = {letter: other for letter, _, other, is_capital in found if not is_capital}
    pairs = [(letter, other) for letter, lower, other, is_capital in found if is_capital and lower == other and small.get(lower) == letter]
    paired = {letter for pair in pairs for letter in pair}
    values = {"FIXED": lambda fields: {field: True for field in fields}, "LANGUAGES": dict}
    lines = ["-- What the letters of each language sort as. web/languages.py makes this file from the front end's sources: change it there.", "", "local tables = { CASES = {} }"]
    for comment, name, value in tables(texts):
        made = values.get(name, lambda it: it)(value)
        rows = [f"    {f'[{as_lua(key)}] = ' if isinstance(made, dict) else ''}{as_lua(it)}," for key, it in (made.items() if isinstance(made, dict) else enumerate(made))] if name in LONG else []
        lines += ["", f"-- {comment}", *([f"tables.{name} = {{", *rows, "}"] if rows else [f"tables.{name} = {as_lua(made)}"])]
    lines += ["", "-- The names of the languages.", f"tables.NAMES = {as_lua([name for name, _ in dict((name, value) for _, name, value in of_letters(texts))['LANGUAGES']])}"]
    lines += ["", "-- Capitals whose small letters sort as something, each before its small letter.", f'local PAIRS = "{"".join(one + other for one, other in pairs)}"']
    lines += ["", "-- Letters that aren't of such a pair: itself, the small letter, it in the other case, and whether it is a capital.", "local OTHERS = {"]
    lines += [*(f"    {as_lua(row)}," for row in found if row[0] not in paired), "}", "", *LUA_TAIL, "", "return tables", ""]
    return "\n".join(lines)


LUA_TAIL = """for capital, small in PAIRS:gmatch("([^\\128-\\191][\\128-\\191]*)([^\\128-\\191][\\128-\\191]*)") do
    tables.CASES[capital] = { small = small, other = small, is_capital = true }
    tables.CASES[small] = { small = small, other = capital, is_capital = false }
end
for _, row in ipairs(OTHERS) do
    tables.CASES[row[1]] = { small = row[2], other = row[3], is_capital = row[4] }
end""".split("\n")


def main(words):
    make, usual = {"--python": (module, OF_PYTHON), "--lua": (lua, OF_LUA)}.get(words[0] if words else "", (script, OF_NODE))
    named = [word for word in words if not word.startswith("--")]
    try:
        text = make(sources())
    except Unknown as why:
        sys.exit(f"web/languages.py: the front end's table isn't understood: {why}")
    pathlib.Path(named[0] if named else usual).write_text(text, encoding="utf8")


if __name__ == "__main__":
    main(sys.argv[1:])
