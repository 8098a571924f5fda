"""The functions of styles, a block for each: what docs/RULES.md says of it, its equations in the core, the differences from the original that name it, and where the manuals and the
original's source have it."""

import re

import differences
import layout
import modules
import rules
from bibtex_names import cells

NAMES, TABLE = "btx_bst.BuiltIns.built_in_name", "btx_core.Functions.row"
# Definitions that have an equation for a function that does more than its row of the table.
BESIDE = ("btx_core.Functions.built_in_effect",)
# What that equation does after an error, of each function that has one.
BEYOND_THE_ROW = {"missing$": "no entry: nothing is pushed, not even 0", "swap$": "one error for each literal that is missing, and one that is there stays"}
# The sections of the manual of styles that describe functions: all of them, and those that have one of their own.
MANUAL, OWN_SECTION = "btxhak, section 5.3", {"format.name$": "btxhak, sections 5.3 and 5.4"}
OPERANDS = "Operands are named from the top: I an integer, S a string, F a function, M a string or a missing field, L any literal."


class Function:
    """A function: its name, its operands, what it does and an example, as the rules have them, and the lines that stand for it in the core: pairs of a definition and its lines."""

    def __init__(self, number, row, equations):
        self.number, self.equations = number, equations
        self.name, self.operands, self.does, self.errors, self.default, self.example = row

    @property
    def plain(self):
        """Its name in BibTeX."""
        return self.name.strip("`")

    @property
    def anchor(self):
        return rules.function_anchor(self.plain)

    @property
    def sentences(self):
        """What there is to say of it, as pairs of a head and a text."""
        failing = "nothing is pushed" if self.default == "none" else f"{self.default} is pushed"
        failing += f"; {BEYOND_THE_ROW[self.plain]}" if self.plain in BEYOND_THE_ROW else ""
        found = [("Operands", self.operands), ("Errors of its own", self.errors), ("After an error", failing * bool(self.errors or self.operands != "none")), ("Example", self.example)]
        return [(head, said) for head, said in found if said]

    @property
    def rows(self):
        """The differences from the original that it meets, beside those of all functions."""
        return differences.signs().get(differences.FUNCTION + self.plain, [])

    @property
    def sources(self):
        """Where the manual and the original's source have it."""
        return f"{OWN_SECTION.get(self.plain, MANUAL)}; {modules.sentence(modules.FUNCTION + self.plain)}"


def rows_of_rules():
    """The rows of the rules' table of functions."""
    lines = rules.source().split("\n")
    first = next(number for number, line in enumerate(lines) if line.startswith("| function |"))
    rows = []
    for line in lines[first + 2:]:
        if not line.startswith("|"):
            return rows
        rows.append(cells(line))
    return rows


def variants(by_id):
    """The variant of each function, by its name in BibTeX."""
    return {found[2]: found[1] for found in re.finditer(r"built_in_name (?:built_in\.)?(\w+) = codes \"([^\"]+)\"", "\n".join(by_id[NAMES].lines))}


def equations_of(variant, definition):
    """The lines of a definition's equation for a function, as they are printed."""
    found, is_inside = [], False
    for line in layout.shown(definition):
        head = re.match(rf"\s*{definition.name} (?:built_in\.(\w+)|\w+)", line)
        is_inside = head[1] == variant if head else is_inside and line.startswith("    ")
        found += [line] * is_inside
    return found


def equations(variant, by_id):
    """The core's equations for a function: its row of the table, and what else it does."""
    found = [(by_id[name], equations_of(variant, by_id[name])) for name in (TABLE, *BESIDE)]
    return [(definition, lines) for definition, lines in found if lines]


def table(by_id):
    """The functions in the order of the rules."""
    known = variants(by_id)
    return [Function(number, row, equations(known.get(row[0].strip("`")), by_id)) for number, row in enumerate(rows_of_rules(), 1)]


def lacking(by_id):
    """What is wrong with the table, as messages."""
    found, wanted = table(by_id), len(variants(by_id))
    named = [it.plain for it in found]
    beyond = sorted({it.plain for it in found if len(it.equations) > 1} ^ set(BEYOND_THE_ROW))
    unknown = [place for place in differences.signs() if place.startswith(differences.FUNCTION) and place.removeprefix(differences.FUNCTION) not in named]
    return [f"functions.py: `{name}` has an equation beside its row and no sentence about it, or the other way round" for name in beyond] + [f"differs.txt: there is no `{place}`" for place in unknown] + [f"the table of functions has {len(found)} rows, and {wanted} are expected"] * (len(found) != wanted) + [f"the core has no row for {it.name}" for it in found if not any(definition.id == TABLE for definition, _ in it.equations)]
