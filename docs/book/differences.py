"""What differs from the original: docs/DIFFERENCES.md as a chapter after the rules, and the signs at the rules and the definitions that a row is about (differs.txt)."""

import functools
import pathlib
import re

import rules

FILE = pathlib.Path(__file__).resolve().parents[2] / "docs/DIFFERENCES.md"
SIGNS = pathlib.Path(__file__).with_name("differs.txt")
TITLE = "Differences from BibTeX"
# How many words of a row its anchor has.
WORDS = 5
# What a line of differs.txt for functions of styles begins with: all of them, or one of a name.
FUNCTIONS, FUNCTION = "functions", "function "
# A line of differs.txt for rows that meet no definition: these words, and the reason.
NONE = "none: "
# The words in bold at a row's front.
LEAD = re.compile(r"(?m)^- \*\*(.+?)\*\*", re.S)


def source():
    """The page without its title, with the headings that it has below."""
    return FILE.read_text(encoding="utf-8").partition("\n\n")[2]


def plain(lead):
    return " ".join(lead.split()).rstrip(".,:;")


def anchor(lead):
    """The words at a row's front as an anchor; as many as tell the rows apart, since each sign has it."""
    return "differs-" + "-".join(re.findall(r"\w+", plain(lead).lower())[:WORDS])


def leads():
    """The words at the front of each row, in order."""
    return [plain(lead) for lead in LEAD.findall(source())]


@functools.lru_cache(maxsize=None)
def signs():
    """For each definition, and for each rule's anchor, the rows that it meets."""
    found = {}
    for line in SIGNS.read_text(encoding="utf-8").split("\n"):
        if line.strip() and not line.startswith("//"):
            what, rows = line.split("\t")
            found[rules.anchor(what[5:]) if what.startswith("rule ") else what] = rows.split("; ")
    return found


def wrong_in(by_id):
    """What is wrong with the table of signs, as messages."""
    anchors, known = set(rules.headings().values()), leads()
    of_functions = {place for place in signs() if place == FUNCTIONS or place.startswith(FUNCTION)}
    yield from (f"differs.txt: the book has no `{place}`" for place in signs() if place not in anchors and place not in by_id and place not in of_functions and not place.startswith(NONE))
    of_rules = {lead for place, found in signs().items() if place in anchors for lead in found}
    others = {lead for place, found in signs().items() if place not in anchors and place not in of_functions for lead in found}
    yield from (f"differs.txt: docs/DIFFERENCES.md has no row `{lead}`" for place in of_functions for lead in signs()[place] if lead not in known)
    yield from (f"differs.txt: docs/DIFFERENCES.md has no row `{lead}`" for lead in of_rules | others if lead not in known)
    yield from (f"differs.txt: no rule has the row `{lead}` of docs/DIFFERENCES.md" for lead in known if lead not in of_rules)
    yield from (f"differs.txt: no definition has the row `{lead}` of docs/DIFFERENCES.md, and no line `{NONE}REASON`" for lead in known if lead not in others)
    yield from (f"docs/DIFFERENCES.md: two rows begin with the words of `{lead}`" for lead in known if [anchor(other) for other in known].count(anchor(lead)) > 1)


def sign_html(place):
    """The sign at a rule or a definition, if a row is about it."""
    return signs_html(signs().get(place, []))


def signs_html(found):
    """A sign with its rows, if there are any."""
    rows = "; ".join(f'<a href="#{anchor(lead)}">{rules.inline(lead)}</a>' for lead in found)
    return f'<p class="differs"><b>Differs from the original:</b> {rows}</p>' if found else ""


def sign_markdown(place):
    return signs_markdown(signs().get(place, []))


def signs_markdown(found):
    return "**Differs from the original:** " + "; ".join(f"[{lead}](#{anchor(lead)})" for lead in found) + "\n\n" if found else ""


def as_html():
    """The chapter, whose rows can be linked to."""
    blocks = [block.strip("\n") for block in re.split(r"\n\n+", source()) if block.strip()]
    made = "\n".join(rules.block_html(block, {}, prefix="differs-in-") for block in blocks)
    for lead in leads():
        made = made.replace(f"<li><b>{rules.inline(lead)}", f'<li id="{anchor(lead)}"><b>{rules.inline(lead)}', 1)
    return f'<h2 id="differences">{TITLE}</h2>\n<div class="rules">{made}</div>'


def as_markdown():
    text = re.sub(r"(?m)^## (.+)$", r"## \1 {.unnumbered}", source())
    text = re.sub(r"(?m)^- (\*\*.+?\*\*)", lambda found: f"- []{{#{anchor(found[1].strip('*'))}}}{found[1]}", text, flags=re.S)
    return f"# {TITLE} {{#differences .unnumbered}}\n\n{text}"
