"""The original's own rules beside the definitions that they differ from (own_rules.txt): not proved, but in Python compared with the original (tests/reference)."""

import ast
import functools
import html
import pathlib
import re
import sys
from typing import NamedTuple

import definitions
import differences
import glossary
import rules

HERE = pathlib.Path(__file__).resolve().parent
FILE = HERE / "own_rules.txt"
ROOT = HERE.parents[1]
REFERENCE, JOBS = ROOT / "tests/reference", ROOT / "tests/original"
TITLE = "The original’s own rule"


class Rule(NamedTuple):
    """Of a definition: the functions of the reference that are the original's rule, what it says, and its lines in the notation."""
    definition: str
    functions: list
    words: str
    lines: list


@functools.lru_cache(maxsize=None)
def by_definition():
    """The rules, by their definitions."""
    blocks = [block.split("\n") for block in FILE.read_text(encoding="utf-8").strip().split("\n\n")]
    return {rule.definition: rule for rule in map(rule_of, blocks) if rule}


def rule_of(lines):
    """The rule of a block, or None for the file's own comment."""
    if lines[0].startswith("//"):
        return None
    definition, _, functions = lines[0].partition("\t")
    words = [line for line in lines[1:] if not line.startswith("    ")]
    return Rule(definition, functions.split("; "), " ".join(words), [line[4:] for line in lines[1:] if line.startswith("    ")])


# ---- what is checked ----


@functools.lru_cache(maxsize=None)
def names_in(module):
    """The functions, methods and classes of a module of the reference."""
    path = REFERENCE / f"{module}.py"
    if not path.is_file():
        return set()
    body = ast.parse(path.read_text(encoding="utf-8")).body
    found = {it.name for it in body if isinstance(it, (ast.FunctionDef, ast.ClassDef))}
    methods = {f"{it.name}.{inner.name}" for it in body if isinstance(it, ast.ClassDef) for inner in it.body if isinstance(inner, ast.FunctionDef)}
    return found | methods


def rows_of_lists():
    """The beginnings of the rows that a list shows."""
    sys.path.append(str(JOBS))
    import jobs
    return {job.row for job in jobs.JOBS}


def names_of(text):
    """The names in a text, with all that they are the path of."""
    return {part for found in definitions.TOKEN.findall(text) if not found.startswith('"') for part in found.strip(".").split(".")}


def names_of_the_book(by_id):
    """The names of the book's definitions, and the fields and cases of its types."""
    types = [it for it in by_id.values() if it.kind in ("record", "data", "rust")]
    return {part for name in by_id for part in name.split(".")} | names_of("\n".join(line for it in types for line in it.lines))


def unexplained(rule, by_id):
    """The names in a rule's lines that neither the rule nor its definition has, the book, the library or the notation."""
    words = names_of(" ".join(re.findall(r"`([^`]+)`", rule.words)))
    bound = set().union(*(names_of(found) for line in rule.lines for found in re.findall(r"^(\S.*?) [=:](?: |$)|λ ([^.]*)\.|let (\w+) =", line) for found in found))
    own = names_of("\n".join(by_id[rule.definition].lines))
    return names_of("\n".join(rule.lines)) - words - bound - own - names_of_the_book(by_id) - set(glossary.meanings()) - definitions.KEYWORDS - definitions.EVERYWHERE - definitions.PATTERNS


def wrong_in(by_id):
    """What is wrong with the rules, as messages."""
    found, shown = by_definition(), rows_of_lists()
    for rule in found.values():
        yield from [f"own_rules.txt: the book has no definition `{rule.definition}`"] * (rule.definition not in by_id)
        yield from [f"own_rules.txt: `{rule.definition}` has no sign in differs.txt"] * (rule.definition not in differences.signs())
        yield from (f"own_rules.txt: tests/reference has no `{name}`" for name in rule.functions if name.partition(".")[2] not in names_in(name.partition(".")[0]))
    yield from (f"own_rules.txt: `{rule.definition}`: nothing explains `{name}`" for rule in found.values() if rule.definition in by_id for name in unexplained(rule, by_id))
    with_rule = [row for definition in found for row in differences.signs().get(definition, [])]
    yield from (f"own_rules.txt: no definition with the row `{beginning}` has a rule" for beginning in shown if not any(row.startswith(beginning) for row in with_rule))


# ---- what is woven ----


def box_html(definition):
    """The original's rule for a definition, if there is one."""
    rule = by_definition().get(definition)
    if rule is None:
        return ""
    code = f"<pre>{html.escape(chr(10).join(rule.lines), quote=False)}</pre>" if rule.lines else ""
    return f'<div class="theirs"><p><b>{TITLE}</b> (not proved): {rules.inline(rule.words)}</p>{code}</div>'


def box_markdown(definition):
    rule = by_definition().get(definition)
    if rule is None:
        return ""
    code = "\n```\n" + "\n".join(rule.lines) + "\n```\n" if rule.lines else ""
    return f"**{TITLE}** (not proved): {rule.words}\n{code}\n"
