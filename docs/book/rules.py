"""The rules in words, docs/RULES.md, as the first part of the book: each rule links to its definitions, and each section of definitions to its rule."""

import html
import pathlib
import re

# The first column of the tables of functions and of commands.
NAMED = ("function", "command")
# Code in a line, in its marks.
CODE = r"(`[^`]+`)"
# An option, with its value, which is never broken at its hyphens.
OPTION = re.compile(r"--?[a-z][\w-]*(?: [\w./]+)?$")
FILE = pathlib.Path(__file__).resolve().parents[2] / "docs/RULES.md"


def anchor(heading):
    """The anchor of a heading in the book."""
    return "rule-" + re.sub(r"[^\w\- ]", "", heading.strip().lower()).replace(" ", "-")


def row_anchor(name):
    """The anchor of a function's or a command's row."""
    return "name-" + "-".join(re.findall(r"\w+", name)) if re.search(r"\w", name) else "name-" + "-".join(f"{ord(sign):x}" for sign in name)


def function_anchor(name):
    """The anchor of a function's block."""
    return "function-" + row_anchor(name).removeprefix("name-")


def source():
    """The rules without their title and their table of contents, and with links to places of the book."""
    text = FILE.read_text(encoding="utf-8")
    text = text[re.search(r"(?m)^## ", text).start():]
    return re.sub(r"\]\(#([\w-]+)\)", r"](#rule-\1)", text)


def headings():
    """The headings of the rules, without the marks of code, each with its anchor."""
    return {line.strip().replace("`", ""): anchor(line) for line in re.findall(r"(?m)^##+ (.+)$", source())}


def as_markdown():
    """The rules with anchors."""
    text = re.sub(r"(?m)^(##+) (.+)$", lambda found: f"{found[1]} {found[2]} {{#{anchor(found[2])} .unnumbered}}", source())
    return "# The rules in words {#rules .unnumbered}\n\n" + text


# ---- HTML ----


def joined(text):
    """The lines of a paragraph as one, with the spaces that stand in its code."""
    return "".join(re.sub(r"\s*\n\s*", " ", part) if number % 2 else re.sub(r"\s+", " ", part) for number, part in enumerate(re.split(CODE, text.strip())))


def inline(text):
    """`code`, **bold**, *italic* and [links](..) of a line. Code is put aside while the signs round it are read."""
    codes = []

    def aside(found):
        codes.append(html.escape(found[0][1:-1].replace("\\|", "|"), quote=False))
        return f"\0{len(codes) - 1}\0"
    text = html.escape(re.sub(CODE, aside, text), quote=False)
    text = re.sub(r"\*\*([^*]+)\*\*", r"<b>\1</b>", text)
    text = re.sub(r"(?<!\w)\*([^*]+)\*(?!\w)", r"<i>\1</i>", text)
    text = re.sub(r"\[((?:[^\]<]|<[^>]*>)+)\]\((#[\w.'-]+)\)", r'<a href="\2">\1</a>', text)
    return re.sub("\0(\\d+)\0", lambda found: code(codes[int(found[1])]), text)


def code(shown):
    return f'<code class="whole">{shown}</code>' if OPTION.match(shown) else f"<code>{shown}</code>"


def table(lines):
    """A table, in a box of its own that scrolls where the page is narrow; a function and a command can be linked to."""
    rows = [[cell.strip() for cell in re.split(r"(?<!\\)\|", line.strip().strip("|"))] for line in lines if not re.match(r"\|[-| ]+$", line)]
    head, *body = rows
    marks = "".join(f"<th>{inline(cell)}</th>" for cell in head)
    found = "".join(f"<tr>{''.join(f'<td>{anchors(cell, head[0]) if head[0] in NAMED and not at else inline(cell)}</td>' for at, cell in enumerate(row))}</tr>" for row in body)
    return f'<div class="wide"><table><tr>{marks}</tr>{found}</table></div>'


def anchors(cell, kind):
    """The names of a row's first cell, each with its anchor; a function is a link to its block."""
    def named(found):
        name, shown = found[0][1:-1], inline(found[0])
        shown = f'<a href="#{function_anchor(name)}">{shown}</a>' if kind == "function" else shown
        return f'<span id="{row_anchor(name)}">{shown}</span>'
    return re.sub(CODE, named, cell)


def items(block, mark, tag):
    found = [inline(joined(item)) for item in re.split(rf"(?m)^{mark} ", block)[1:]]
    return f"<{tag}>" + "".join(f"<li>{item}</li>" for item in found) + f"</{tag}>"


def block_html(block, definitions, prefix="rule-", signs=None):
    """A heading, with a link to the definitions of its rule and a sign where it differs from the original; a table, code, a list or a paragraph."""
    lines = block.split("\n")
    heading = re.match(r"(##+) (.+)", block)
    if heading:
        level = len(heading[1]) + 1
        rest = block_html("\n".join(lines[1:]), definitions, prefix, signs) if lines[1:] else ""
        at = prefix + anchor(heading[2]).removeprefix("rule-")
        defined = f'<p class="rule">Defined in {definitions[at]}.</p>' if at in definitions else ""
        return f'<h{level} id="{at}">{inline(heading[2])}</h{level}>{defined}{signs(at) if signs else ""}{rest}'
    if block.startswith("|"):
        return table(lines)
    if all(line.startswith("    ") for line in lines):
        return "<pre>" + html.escape("\n".join(line[4:] for line in lines), quote=False) + "</pre>"
    if block.startswith("- "):
        return items(block, "-", "ul")
    if block.startswith("1. "):
        return items(block, r"\d+\.", "ol")
    return f"<p>{inline(joined(block))}</p>"


def as_html(definitions, signs):
    """The rules as a chapter of the book; for a rule's anchor `definitions` has links to the sections that define it, and `signs` gives what differs from the original."""
    blocks = [block.strip("\n") for block in re.split(r"\n\n+", source())]
    return '<h2 id="rules">The rules in words</h2>\n<div class="rules">' + "\n".join(block_html(block, definitions, signs=signs) for block in blocks if block.strip()) + "</div>"
