"""BibTeX's own names, for the index: the functions and commands of styles, the command's options, words of files and the texts of messages, each with the row or the section of
docs/RULES.md that says what it is; and the sections of that page."""

import re

import rules

# What a table of the rules lists in its first column, by the head of that column.
KINDS = {"function": "functions of styles", "command": "commands of styles", "word": "options", "met": "messages", "TEXT": "messages", "message": "messages",
         "text of the error": "messages", "message, or beginning of the last line": "messages"}
# Words that people look for and that no table of the rules has in its first column, each with its section.
WORDS = {"crossref": "Parents", "sort.key$": "Variables", "entry.max$": "Variables", "global.max$": "Variables", "default.type": "Functions of styles", r"\citation": "What the lines mean",
         r"\bibdata": "What the lines mean", r"\bibstyle": "What the lines mean", r"\@input": "What the lines mean", r"\nocite{*}": "The list", "@string": "Strings", "@preamble": "Databases",
         "@comment": "Databases"}
OF_FILES, SECTIONS = "words of files and styles", "the rules"
# The order of the kinds in the index.
ORDER = ["functions of styles", "commands of styles", OF_FILES, "options", SECTIONS, "messages"]
# The kinds whose names have a row of their own.
ROWS = {"functions of styles", "commands of styles"}
# What these tables must have, so that a new form of a table isn't overlooked.
LEAST = {"functions of styles": 37, "commands of styles": 10, "options": 8, "messages": 40}


class Name:
    """A name, and where the rules say what it is: the anchor of its row, or of its section."""

    def __init__(self, kind, text, anchor, section):
        self.kind, self.text, self.anchor, self.section = kind, text, anchor, section


def cells(line):
    return [cell.strip() for cell in re.split(r"(?<!\\)\|", line.strip().strip("|"))]


def named(cell):
    """A cell up to what it says in parentheses, which is about the names and has none itself."""
    return re.match(r"(?:[^`(]|`[^`]*`)*", cell)[0]


def found():
    """The names in the order of the rules, each once."""
    headings = rules.headings()
    names = [Name(OF_FILES, word, headings.get(section), headings.get(section)) for word, section in WORDS.items()]
    names += [Name(SECTIONS, heading, at, at) for heading, at in headings.items()]
    seen = set()
    heading, column, kind = None, 0, None
    for line in rules.source().split("\n"):
        title = re.match(r"##+ (.+)", line)
        if title:
            heading, kind = rules.anchor(title[1]), None
        elif not line.startswith("|"):
            kind = None
        elif kind is None:
            heads = cells(line)
            column = next((at for at, head in enumerate(heads) if head in KINDS), 0)
            kind = "messages" if heads[:2] == ["text", "kind"] else KINDS.get(heads[column], "")
        elif kind and not re.match(r"\|[-| ]+$", line):
            for text in re.findall(r"`([^`]+)`", named(cells(line)[column])):
                text = text.split(" ")[0] if kind == "options" else text
                if (kind, text) not in seen:
                    seen.add((kind, text))
                    names.append(Name(kind, text.replace("\\|", "|"), rules.row_anchor(text) if kind in ROWS else heading, heading))
    return names


def by_kind():
    """The names by what they are, each kind in the order of the alphabet."""
    kinds = {}
    for name in found():
        kinds.setdefault(name.kind, []).append(name)
    return {kind: sorted(kinds[kind], key=lambda name: name.text.lower().lstrip("@\\")) for kind in ORDER if kind in kinds}


def lacking():
    """What is wrong with the tables of the rules, as messages."""
    kinds, headings = by_kind(), rules.headings()
    lost = [f"bibtex_names.py: docs/RULES.md has no section `{section}`" for section in WORDS.values() if section not in headings]
    return lost + [f"docs/RULES.md: its tables have {len(kinds.get(kind, []))} {kind}, and at least {least} are expected" for kind, least in LEAST.items()
            if len(kinds.get(kind, [])) < least]
