"""Weaves the book as one HTML file, which needs nothing else."""

import functools
import html
import pathlib
import re

import bibtex_names
import carried
import differences
import edition
import functions
import glossary
import layout
import links
import manuals
import modules
import own_rules
import rules
from blocks import Blocks, Sections
from definitions import KEYWORDS, TOKEN, Word

STYLE = pathlib.Path(__file__).with_name("book.css")
SCRIPT = pathlib.Path(__file__).with_name("book.js")
# The pages, and the chapter that is a page of its own.
BOOK, WORKED_EXAMPLES = "book.html", "worked.html"
WORKED = "Worked examples"
# The tables of words and of questions, by which the search field knows them.
OF_ROWS = {"terms.txt": "terms", "questions.txt": "asked"}
# What runs the examples of both pages, if it is there.
RUNS = "book-runs.js"
# A text in quotes of so many characters at most stays on one line.
WHOLE = 12
# A tag with attributes, and a value that needs no quotes there.
TAG = re.compile(r"<\w+ [^<>]*>")
QUOTED = re.compile(r'=("([\w.#:-]+)")(?=[ >])')
# The words of the notation that stand out, with those of cases.
PRINTED = KEYWORDS | {"case", "of"}
# The signs of the library that a stranger looks up.
LINKED_SIGN = re.compile(r"\+\+|&&|\|\||[≡≢×⊎∷⊥ℕℤ↔≤]")


def text(source):
    """Prose with its code, its bold and its italic words."""
    return rules.inline(source)


@functools.lru_cache(maxsize=None)
def word_id(word):
    """The anchor of a word of the library, short since each use of the word has it."""
    return f"_{list(glossary.meanings()).index(word)}" if word in glossary.meanings() else "_words"


# ---- code ----


def linked(word, definition, is_head):
    """A word of a definition's text, as a link to what it means."""
    if word.startswith('"'):
        return f'<span class="{"q k" if len(word) <= WHOLE else "q"}">{html.escape(word, quote=False)}</span>'
    first, _, rest = word.partition(".")
    if first in PRINTED and not rest and (definition.kind, first) != ("rust", "Type"):
        return f"<b>{word}</b>"
    if is_head:
        return f'<span class=n>{html.escape(word)}</span>'
    two = ".".join(word.split(".")[:2])
    written = two if two in definition.links else first
    target, behind = definition.links.get(written), html.escape(word[len(written):])
    if isinstance(target, Word):
        return f'<a href="#{word_id(target.name)}">{html.escape(written)}</a>{behind}'
    if target is not None and target.place:
        return f'<a href="#{target.anchor}"{on_paper(definition, target)}>{html.escape(written)}</a>{behind}'
    return html.escape(word)


def on_paper(definition, target):
    """The number of a definition of another chapter, which stands after its name on paper, where the text has to be believed and has no links."""
    return f' data-n="{target.number}"' if definition.is_believed and definition.place and definition.place[0] != target.place[0] else ""


def signs(between):
    """What stands between the names of a definition's text, with its signs as links into the glossary."""
    out, at = [], 0
    for found in LINKED_SIGN.finditer(between):
        out += [html.escape(between[at:found.start()], quote=False), f'<a href="#{word_id(found[0])}">{html.escape(found[0], quote=False)}</a>']
        at = found.end()
    return "".join(out) + html.escape(between[at:], quote=False)


def code_line(line, definition):
    body = line.lstrip()
    pad = len(line) - len(body)
    if body.startswith("--"):
        return f'<span class="l c"{indented(pad)}><span class="h">{" " * pad}-- </span>{text(body[2:].strip())}</span>'
    body, _, said = body.partition(layout.BESIDE) if definition.kind == "rust" else (body, "", "")
    parts, at = [], 0
    for found in TOKEN.finditer(body) if definition.kind != "job" else []:
        is_head = pad == 0 and found[0] == definition.name and definition.kind not in ("row", "trait", "contract", "law", "rust") and (
            found.start() == 0 or body[:found.start()].strip() in ("record", "data"))
        parts += [signs(body[at:found.start()]), linked(found[0], definition, is_head)]
        at = found.end()
    beside = f'{layout.BESIDE}<span class="c">{text(said)}</span>' if said else ""
    return f'<span class="l"{indented(pad)}>{" " * pad}{"".join(parts)}{signs(body[at:])}{beside}</span>'


def indented(pad):
    """Says how far a line of code is indented, if it is."""
    return f' style="--i:{pad}"' if pad else ""


def code(definition):
    return "<pre>" + "".join(code_line(line, definition) for line in layout.shown(definition)) + "</pre>"


def references(found, most=6):
    more = f" and {len(found) - most} more" if len(found) > most else ""
    return ", ".join(f'<a href="#{it.anchor}">{html.escape(it.name)}</a>\u00a0{it.number}' for it in found[:most]) + more


# ---- parts of the book ----


def definition_html(it):
    """A definition: its number and comment, its text, its margin where nobody has to believe it, and the links to what it uses and what uses it."""
    margin = "" if it.is_believed else f"<aside>{it.crate} · {layout.what_it_is(it)}</aside>"
    comment = text(layout.prose(it.comment)) or "<em>(no comment)</em>"
    foot = layout.foot_of(it, references, text)
    heading = f"<h4>{text(it.heading[0].upper() + it.heading[1:])}</h4>" if it.heading else ""
    return (f'{heading}<section id="{it.anchor}" class="{layout.reach_of(it)}"><p><a class="number" href="#{it.anchor}">{it.number}</a> {comment}</p>{differences.sign_html(it.id)}{code(it)}{own_rules.box_html(it.id)}'
            f'<footer>{" · ".join(foot)}</footer>{margin}</section>')


def example_html(example, said, known):
    caption = f" {text(said)}" if said else ""
    words = "".join(f"<li>{text(word)}</li>" for word in layout.words_of(example, known))
    return (f'<div class="example"><p><span>Example</span>{caption}</p>{code(example.row)}' + (f"<ul>{words}</ul>" if words else "")
            + f"<footer>{html.escape(example.shown)}, which is checked</footer></div>")


def functions_html(by_id):
    """A block for each function of styles, below a line of links to them."""
    found = functions.table(by_id)
    links_ = " ".join(f'<a href="#{it.anchor}"><code>{html.escape(it.plain)}</code></a>' for it in found)
    return f'<div class="functions"><p>The {len(found)} built-in functions of styles. {functions.OPERANDS}</p><p>{links_}</p>{differences.sign_html(differences.FUNCTIONS)}{"".join(map(function_html, found))}</div>'


def function_html(it):
    """A function of styles: its rule, its equations in the core, its example, its differences from the original, and where the manual and the original's source have it."""
    said = "".join(f"<li><i>{head}:</i> {text(words)}</li>" for head, words in it.sentences)
    equations = "".join(code_line(line, definition) for definition, lines in it.equations for line in lines)
    return (f'<div class="function" id="{it.anchor}"><h4><a class="number" href="#{it.anchor}">{it.number}</a> <a href="#{rules.row_anchor(it.plain)}"><code>{html.escape(it.plain)}</code></a></h4>'
            f'<p>{text(it.does[0].upper() + it.does[1:])}.</p><ul>{said}</ul><pre>{equations}</pre>{differences.signs_html(it.rows)}<footer>{it.sources}</footer></div>')


def opening_html(section, linked, of_manuals):
    """A section's heading, and the rules that it is about, each with its anchor."""
    rules_ = ", ".join(f'<a href="#{anchor}">{html.escape(rule)}</a>' for rule, anchor in linked)
    heading = f'<h3 id="s{section.number}">{section.number} {text(section.title)}</h3>'
    return [heading] + [f'<p class="rule">The rule in words: {rules_}.{of_manuals}</p>'] * bool(linked)


def evidence_html(sentence):
    return '<p class="rule">' + text(sentence).replace("the differences", '<a href="#differences">the differences</a>') + "</p>"


def said_html(opening, by_id):
    """What a section says before its examples and definitions."""
    return f"<p>{text(links.linked(opening, by_id))}</p>"


def intros_html(files):
    """What files say at their front."""
    intros = "".join(f'<p>{text(layout.prose(intro))} <span class="file">{file}</span></p>' for file, intro in files)
    return f'<div class="intro">{intros}</div>'


def named_html(it):
    return f'<a href="#{it.anchor}"><code>{html.escape(it.name)}</code></a> {it.number}'


def listed_html(anchor, title, items):
    return f'<h3 id="{anchor}">{title}</h3><ul class="names">' + "".join(f"<li>{item}</li>" for item in items) + "</ul>"


SECTIONS = Sections(opening_html, example_html, functions_html, intros_html, definition_html, named_html, listed_html, evidence_html, said_html, text)


def chapter_html(chapter, book):
    """A chapter; one that has to be believed is dense on paper, and the core has with it all that its reader needs."""
    opening, known = text(links.linked(chapter.opening, book.by_id)), set()
    part = f'<p class="part">{text(chapter.part)}</p>' if chapter.part else ""
    sections = "\n".join(SECTIONS.woven(section, book, known) for section in chapter.sections)
    signs_, names = notation_html(book.signs, book, 3) if layout.is_core(chapter) else "", "".join(SECTIONS.core_lists(chapter))
    made = f'<h2 id="ch{chapter.number}">{chapter.number}. {text(chapter.title)}</h2><p class="opening">{opening}</p>{signs_}{sections}{names}'
    return part + (f'<div class="dense">{made}</div>' if chapter.is_believed else made)


def contents_html(book):
    """The chapters with their sections, each by its number; of the first one and of the rules their headings."""
    def item(anchor, title, number=""):
        return f'<li><a href="#{anchor}">{number}{" " * bool(number)}{text(title)}</a></li>'
    first, last = ("".join(item(links.heading_id(block[3:]), block[3:]) for block in front.blocks if block.startswith("## ")) for front in (book.first, book.last))
    words = "".join(item(rules.anchor(heading), heading) for level, heading in re.findall(r"(?m)^(##+) (.+)$", rules.source()) if level == "##")
    chapters_ = "".join(f'{f"</ul><h3>{text(chapter.part)}</h3><ul>" if chapter.part else ""}<li><a href="#ch{chapter.number}">{chapter.number} {text(chapter.title)}</a><ul>'
                        + "".join(item(anchor, title, number) for anchor, title, number in layout.headings_of(chapter, book.signs)) + "</ul></li>" for chapter in book.chapters)
    return (f'<nav id="contents"><h2>Contents</h2><ul><li><a href="#{book.first.anchor}">{book.first.title}</a><ul>{first}</ul></li>'
            f'<li><a href="#{book.carried.anchor}">{book.carried.title}</a></li><li><a href="#rules">The rules in words</a><ul>{words}</ul></li><li><a href="#differences">{differences.TITLE}</a></li>{chapters_}</ul><h3>Beside the chapters</h3><ul><li><a href="#{book.last.anchor}">{book.last.title}</a><ul>{last}</ul></li><li><a href="#index">Index</a></li></ul></nav>')


def title_html(book):
    """What the book is, of which version, the search field, how the book is cited and what is proved."""
    about = "\n".join(text_html(block, book.by_id) for block in book.title.blocks)
    return (f'<h1>{edition.TITLE}</h1><p class="subtitle">{text(edition.subtitle())}<br>{edition.version()}</p>'
            '<p class="tools"><label>Find <input type="search" id="find" placeholder="substring$, exit status, special character, IsProduct"></label>'
            f'<output for="find" id="met"></output> <a href="#contents">Contents</a></p><p class="opening">{text(book.summary)}</p><div class="title">{about}</div>')


def bibtex_index_html():
    """BibTeX's own names, each with its rule: functions, commands, options, messages."""
    parts = "".join(f'<h3>{kind[0].upper() + kind[1:]}</h3><ul class="index own">' + "".join(f'<li><a href="#{it.anchor}">{html.escape(it.text, quote=False)}</a></li>' for it in names)
                    + "</ul>" for kind, names in bibtex_names.by_kind().items())
    return f'<h2 id="index">Index</h2>{parts}'


def index_html(found):
    """All names of definitions in the order of the alphabet, each with the places where something has it."""
    by_name = {}
    for it in sorted(found, key=lambda it: it.place):
        by_name.setdefault(it.name, []).append(it)
    rows = [f"<li>{html.escape(name)} " + ", ".join(f'<a href="#{it.anchor}">{it.number}</a>' for it in by_name[name]) + "</li>"
            for name in sorted(by_name, key=lambda name: (name.lower(), name))]
    return f'{bibtex_index_html()}<h3>Definitions</h3><ul class="index">{"".join(rows)}</ul>'


# ---- the first chapter and the last ----


def words_html(found):
    rows = []
    for word, meaning, example, use in glossary.explained(found):
        shown = f'<a href="#{use[0].anchor}">{use[0].number}</a>{code_use(use)}' if use else ""
        rows.append(f'<tr id="{word_id(word)}"><td><code>{html.escape(word)}</code></td><td>{text(meaning)}'
                    + (f"<br>{text(example)}" if example else "") + f'</td><td>{shown}</td></tr>')
    return f'<table class="words">{"".join(rows)}</table>'


def rows_html(file, by_id):
    """A table of words or of questions, with what is said of each and the definitions that say it. A question stands out from its answer."""
    rows = "".join((f'<tr><th colspan="3">{text(title)}</th></tr>' if title else "") + "".join(row_html(row, by_id) for row in found) for title, found in links.groups(file))
    return f'<table class="words {OF_ROWS[file]}">{rows}</table>'


def row_html(row, by_id):
    return f'<tr id="{links.row_id(row.word)}"><td>{text(row.word)}</td><td>{text(row.meaning)}</td><td>{text("; ".join(links.to(name, by_id) for name in row.names))}</td></tr>'


def manuals_html(sections):
    """The sections of BibTeX's manuals, each with the sections of the book that follow it."""
    rows = "".join(f"<tr><td>{manual}, section {number}</td><td>" + ", ".join(
        f'<a href="#s{section.number}">{text(section.title)}</a>\u00a0{section.number}' for section in found) + "</td></tr>"
        for (manual, number), found in manuals.followers(sections))
    return f'<table class="words">{rows}</table>'


def renamed_html(rows, by_id):
    """The names that changed, each with the definitions that have its new name. An old address leads to its row."""
    made = "".join(f'<tr id="{row.old.removeprefix("btx_")}"><td><code>{html.escape(row.old)}</code></td><td><code>{html.escape(row.new)}</code></td><td>'
                   f'{references(edition.targets(row.new, by_id))}</td></tr>' for row in rows)
    return f'<table class="words renamed">{made}</table>' if rows else f"<p>{edition.NONE_RENAMED}</p>"


def items_html(block, by_id):
    """A list, with points or with numbers."""
    mark, tag = (r"- ", "ul") if block.startswith("- ") else (r"\d+\. ", "ol")
    found = [text(links.linked(rules.joined(item), by_id)) for item in re.split(rf"(?m)^{mark}", block)[1:]]
    return f"<{tag}>" + "".join(f"<li>{item}</li>" for item in found) + f"</{tag}>"


def code_use(use):
    line = use[1] if len(use[1]) <= 100 else use[1][:97] + " .."
    return " <code>" + html.escape(line, quote=False) + "</code>"


def heading_html(title):
    return f'<h3 id="{links.heading_id(title)}">{text(title)}</h3>'


def shown_html(it):
    """A definition that a chapter of the book's own words shows."""
    return f'<div class="shown"><p><a href="#{it.anchor}">{it.number}</a> {text(layout.prose(it.comment))}</p>{code(it)}</div>'


def text_html(block, by_id):
    """A paragraph, a list or code."""
    if block.startswith("    "):
        return rules.block_html(block, {})
    return items_html(block, by_id) if block.startswith(("- ", "1. ")) else f"<p>{text(links.linked(rules.joined(block), by_id))}</p>"


def steps_html(rows):
    """The steps of a run: the word of each, and the state that it leaves."""
    made = "".join(f"<tr><td>{number}</td><td><code>{html.escape(word)}</code></td><td><code>{html.escape(stack)}</code></td><td><code>{html.escape(pending)}</code></td><td>{lines}</td></tr>"
                   for number, word, stack, pending, lines in rows)
    return f'<div class="wide"><table><tr><th>step</th><th>word</th><th>stack, top first</th><th>pending line</th><th>lines ended</th></tr>{made}</table></div>'


BLOCKS = Blocks(heading_html, shown_html, words_html, rows_html, manuals_html, renamed_html, carried.picture_svg, code, steps_html, text_html)


def notation_html(front, book, level=2):
    """A chapter of the book's own words."""
    return "\n".join([f'<h{level} id="{front.anchor}">{front.title}</h{level}>', *BLOCKS.woven(front, book)])


def compact(body):
    """A page's text without the quotes that its tags don't need, of which there are some 70,000."""
    return TAG.sub(lambda tag: QUOTED.sub(r"=\2", tag[0]), body)


def page_html(named, body, script=""):
    """A page that needs nothing else but the other page. Where runs.py has put its file beside it, its examples can be run."""
    style = STYLE.read_text(encoding="utf-8").replace("RUNNING HEAD", edition.running_head())
    script = (f"\n<script>{script}</script>" if script else "") + f'\n<script src="{RUNS}" defer></script>'
    return ('<!doctype html>\n<html lang="en"><head><meta charset="utf-8"><meta name="viewport" content="width=device-width,initial-scale=1">'
            f"<title>{named}</title><style>{style}</style></head><body>\n{compact(body)}{script}\n</body></html>\n")


def followers(sections):
    """For each rule, by its anchor, the sections that are its definitions, those that have to be believed first, as links."""
    anchors, found = rules.headings(), {}
    for section in sections:
        for rule in section.rules:
            if rule in anchors:
                found.setdefault(anchors[rule], []).append(f'<a href="#s{section.number}">{section.number} {text(section.title)}</a>')
    return {anchor: ", ".join(links_) for anchor, links_ in found.items()}


def across(body, own, other, file):
    """A page's text, with the links to what stands on the other page led there."""
    return re.sub(r'href="#([^"]+)"', lambda found: f'href="{file}#{found[1]}"' if found[1] not in own and found[1] in other else found[0], body)


def book_html(book):
    """The book, and its worked examples, as two pages: their files' names with their texts."""
    worked = [chapter for chapter in book.chapters if chapter.title == WORKED]
    body = [title_html(book), contents_html(book),
            notation_html(book.first, book), notation_html(book.carried, book), rules.as_html(followers(book.sections), differences.sign_html), differences.as_html()]
    body += [chapter_html(chapter, book) for chapter in book.chapters if chapter not in worked]
    body = "\n".join(body) + notation_html(book.last, book) + index_html(book.found)
    examples = (f'<h1>{edition.TITLE}: worked examples</h1><p class="subtitle">{edition.version()}</p><p class="opening"><a href="{BOOK}">The book</a></p>'
                + "\n".join(chapter_html(chapter, book) for chapter in worked))
    ids = [set(re.findall(r' id="([^"]+)"', page)) for page in (body, examples)]
    return {BOOK: page_html(edition.TITLE, across(body, *ids, WORKED_EXAMPLES), SCRIPT.read_text(encoding="utf-8")),
            WORKED_EXAMPLES: page_html(f"{edition.TITLE}: worked examples", across(examples, *ids[::-1], BOOK))}
