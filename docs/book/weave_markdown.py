"""Weaves the book as one Markdown file, which pandoc turns into a PDF; links stand below each definition, since code has none."""

import re
import textwrap

import bibtex_names
import carried
import differences
import edition
import functions
import glossary
import layout
import links
import manuals
import own_rules
import rules
from blocks import Blocks, Sections

HEAD = """---
title: "{title}"
subtitle: "{subtitle}"
date: "{edition}"
lang: en
documentclass: report
papersize: a4
geometry: margin=22mm
fontsize: 10pt
mainfont: "DejaVu Serif"
monofont: "DejaVu Sans Mono"
monofontoptions: "Scale=0.8"
colorlinks: true
header-includes: |
  \\sloppy
toc: true
toc-depth: 2
---
"""

# How many characters of code stand side by side on a page of these measures.
PAGE = 98
# A text in quotes, which stays on one line unless it is long.
STRING = re.compile(r'"(?:[^"\\]|\\.)*"')


def anchor(definition):
    return definition.anchor.replace("'", "_")


def references(found, most=8):
    more = f" and {len(found) - most} more" if len(found) > most else ""
    return ", ".join(f"[{it.name.replace('_', chr(92) + '_')}](#{anchor(it)}) {it.number}" for it in found[:most]) + more


def on_page(line):
    """A line of code as the lines that it takes on a page: what follows its first one, or an equation's sign, is indented, and a comment stays one."""
    pad = re.match(r"\s*", line)[0]
    left, sign, right = line.partition(" = ")
    if len(line) > PAGE and sign and not pad and layout.is_outside(left):
        return [f"{left} ="] + on_page(f"    {right}")
    after = f"{pad}-- " if line.startswith(f"{pad}-- ") else f"{pad}    "
    whole = STRING.sub(lambda found: found[0].replace(" ", "\0") if len(found[0]) < 80 else found[0], line)
    parts = textwrap.wrap(whole, PAGE, subsequent_indent=after, break_on_hyphens=False)
    return [part.replace("\0", " ") for part in parts] or [line]


def code(definition):
    return "```\n" + "\n".join(part for line in layout.shown(definition) for part in on_page(line)) + "\n```"


def definition_markdown(it):
    foot = [f"{it.crate}, {layout.what_it_is(it)}", *layout.foot_of(it, references)]
    heading = f"#### {it.heading[0].upper() + it.heading[1:]}\n\n" if it.heading else ""
    return f"{heading}[]{{#{anchor(it)}}}**{it.number}** {layout.prose(it.comment) or '*(no comment)*'}\n\n{differences.sign_markdown(it.id)}{code(it)}\n\n{own_rules.box_markdown(it.id)}*{'; '.join(foot)}*\n"


def functions_markdown(by_id):
    """A block for each function of styles."""
    return f"{functions.OPERANDS}\n\n{differences.sign_markdown(differences.FUNCTIONS)}" + "\n".join(map(function_markdown, functions.table(by_id)))


def function_markdown(it):
    said = "".join(f"- *{head}:* {words}\n" for head, words in it.sentences)
    equations = "\n".join(part for _, lines in it.equations for line in lines for part in on_page(line))
    return f"**{it.number}** []{{#{it.anchor}}} {it.name}: {it.does}.\n\n{said}\n```\n{equations}\n```\n\n{differences.signs_markdown(it.rows)}*{it.sources}*\n"


def opening_markdown(section, linked, of_manuals):
    """A section's heading, and the rules that it is about, each with its anchor."""
    rules_ = ", ".join(f"[{rule}](#{anchor})" for rule, anchor in linked)
    heading = f"## {section.number} {section.title} {{#s{section.number} .unnumbered}}\n"
    return [heading] + [f"The rule in words: {rules_}.{of_manuals}\n"] * bool(linked)


def example_markdown(example, said, known):
    caption = f". {said}" if said else "."
    words = "".join(f"- {word}\n" for word in layout.words_of(example, known))
    return f"**Example**{caption}\n\n{code(example.row)}\n\n{words}\n*{example.shown}, which is checked*\n"


def evidence_markdown(sentence):
    return sentence.replace("the differences", "[the differences](#differences)") + "\n"


def said_markdown(opening, by_id):
    """What a section says before its examples and definitions."""
    return links.linked(opening, by_id, True) + "\n"


def intros_markdown(files):
    """What files say at their front."""
    return " ".join(f"{layout.prose(intro)} (`{file}`)" for file, intro in files) + "\n"


def named_markdown(it):
    return references([it])


def listed_markdown(anchor, title, items):
    return f"## {title} {{#{anchor} .unnumbered}}\n\n" + "\n".join(f"- {item}" for item in items) + "\n"


SECTIONS = Sections(opening_markdown, example_markdown, functions_markdown, intros_markdown, definition_markdown, named_markdown, listed_markdown, evidence_markdown, said_markdown)


def chapter_markdown(chapter, book):
    known = set()
    sections = "\n".join(SECTIONS.woven(section, book, known) for section in chapter.sections)
    part = f"# {chapter.part} {{.unnumbered}}\n\n" if chapter.part else ""
    signs, names = notation_markdown(book.signs, book, 2) if layout.is_core(chapter) else "", "\n".join(SECTIONS.core_lists(chapter))
    opening = links.linked(chapter.opening, book.by_id, True)
    return f"{part}# {chapter.number}. {chapter.title} {{#ch{chapter.number} .unnumbered}}\n\n{opening}\n\n{signs}\n{sections}\n{names}"


def words_markdown(found):
    rows = []
    for word, meaning, example, use in glossary.explained(found):
        shown = f" As in [{use[0].number}](#{anchor(use[0])}): `{use[1]}`" if use else ""
        rows.append(f"- `{word}`: {meaning}." + (f" {example}." if example else "") + shown)
    return "\n".join(rows) + "\n"


def rows_markdown(file, by_id):
    """A table of words or of questions, as a list."""
    return "\n".join((f"\n**{title}**\n\n" if title else "") + "\n".join(
        f"- **{row.word}**: {row.meaning.rstrip('.')}. {', '.join(links.to(name, by_id, True) for name in row.names)}" for row in found) for title, found in links.groups(file)) + "\n"


def manuals_markdown(sections):
    """The sections of BibTeX's manuals, each with the sections of the book that follow it."""
    return "\n".join(f"- {manual}, section {number}: " + ", ".join(f"[{section.title}](#s{section.number}) {section.number}" for section in found)
                     for (manual, number), found in manuals.followers(sections)) + "\n"


def renamed_markdown(rows, by_id):
    """The names that changed, each with the definitions that have its new name."""
    return "\n".join(f"- `{row.old}` is now `{row.new}`: {references(edition.targets(row.new, by_id))}" for row in rows) + "\n" if rows else edition.NONE_RENAMED + "\n"


def heading_markdown(title):
    return f"## {title} {{#{links.heading_id(title)} .unnumbered}}\n"


def shown_markdown(it):
    """A definition that a chapter of the book's own words shows."""
    return f"[{it.number}](#{anchor(it)}) {layout.prose(it.comment)}\n\n{code(it)}\n"


def text_markdown(block, by_id):
    """A paragraph, a list with a point a line, or code."""
    if block.startswith("    "):
        return block + "\n"
    return links.linked(re.sub(r"\n(?!- |\d+\. )", " ", block), by_id, True) + "\n"


def steps_markdown(rows):
    """The steps of a run: the word of each, and the state that it leaves."""
    return "| step | word | stack, top first | pending line | lines ended |\n|---|---|---|---|---|\n" + "".join(
        f"| {number} | `{word}` | `{stack}` | `{pending}` | {lines} |\n" for number, word, stack, pending, lines in rows)


def computed_markdown(definition):
    return code(definition) + "\n"


BLOCKS = Blocks(heading_markdown, shown_markdown, words_markdown, rows_markdown, manuals_markdown, renamed_markdown, carried.picture_text, computed_markdown, steps_markdown, text_markdown)


def notation_markdown(front, book, level=1):
    """A chapter of the book's own words."""
    return "\n".join([f"{'#' * level} {front.title} {{#{front.anchor} .unnumbered}}\n", *BLOCKS.woven(front, book)])


def index_markdown(found):
    """BibTeX's own names with their rules, and the names of definitions with their numbers."""
    parts = ["# Index {.unnumbered}\n"]
    for kind, names in bibtex_names.by_kind().items():
        parts.append(f"## {kind[0].upper() + kind[1:]} {{.unnumbered}}\n\n" + ", ".join(f"[`{it.text}`](#{it.section})" for it in names) + "\n")
    by_name = {}
    for it in sorted(found, key=lambda it: it.place):
        by_name.setdefault(it.name, []).append(f"[{it.number}](#{anchor(it)})")
    parts.append("## Definitions {.unnumbered}\n\n" + "; ".join(f"`{name}` {', '.join(by_name[name])}" for name in sorted(by_name, key=lambda name: (name.lower(), name))) + "\n")
    return "\n".join(parts)


def without_mathematics(text):
    r"""A `$` outside code as `\$`, since pandoc takes two of them in a paragraph for the ends of a formula."""
    pieces = re.split(r"(?ms)(^```.*?^```$|(?<=\n\n)    [^\n]*\n(?:    [^\n]*\n)*(?=\n)|`[^`\n]*`)", text)
    return "".join(piece if number % 2 else piece.replace("$", r"\$") for number, piece in enumerate(pieces))


def book_markdown(book):
    """The whole book."""
    head = HEAD.replace("{title}", edition.TITLE).replace("{subtitle}", re.sub(r"\[(.*?)\]\(.*?\)", r"\1", edition.subtitle())).replace("{edition}", edition.version())
    about = [text_markdown(block, book.by_id) for block in book.title.blocks]
    parts = [head, book.summary + "\n", *about, notation_markdown(book.first, book), notation_markdown(book.carried, book), rules.as_markdown(), differences.as_markdown()]
    parts += [chapter_markdown(chapter, book) for chapter in book.chapters] + [notation_markdown(book.last, book), index_markdown(book.found)]
    return without_mathematics("\n".join(parts))
