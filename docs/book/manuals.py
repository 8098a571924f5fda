"""BibTeX's two manuals: which sections of these a section of the book follows, by the comments of its definitions and a line `manual:` of chapters.txt; and which sections of the book
follow one of theirs."""

import re

import chapters

# The sections that each manual has: those of btxhak begin with 5, since it goes on where btxdoc ends.
SECTIONS = {"btxdoc": ("1", "2", "2.1", "2.2", "3", "3.1", "3.2", "4"), "btxhak": ("5", "5.1", "5.2", "5.3", "5.4")}
CITED = re.compile(r"\b(btxdoc|btxhak), section (\d+(?:\.\d+)?)")


def followed_by(section):
    """The sections of the manuals that a section of the book names, in order: `("btxhak", "5.3")`."""
    found = {cited for line in section.manuals for cited in CITED.findall(line)}
    for module, own in section.parts:
        for comment in [*(intro for _, intro in chapters.files_of(module, own)), *(it.comment for it in own)]:
            found.update(CITED.findall(" ".join(comment or [])))
    return sorted(found, key=lambda cited: (cited[0], [int(part) for part in cited[1].split(".")]))


def sentence(section):
    """The manuals' sections that a section follows, as one line; or nothing."""
    return ", ".join(f"{manual}, section {number}" for manual, number in followed_by(section))


def followers(sections):
    """For each section of the manuals that is followed, the sections of the book that follow it."""
    found = {}
    for section in sections:
        for cited in followed_by(section):
            found.setdefault(cited, []).append(section)
    return sorted(found.items(), key=lambda row: (row[0][0], [int(part) for part in row[0][1].split(".")]))


def wrong_in(sections):
    """What is wrong with the manuals' sections that are named, as messages."""
    for section in sections:
        yield from (f"`{section.title}`: {manual} has no section {number}" for manual, number in followed_by(section) if number not in SECTIONS[manual])
        yield from (f"chapters.txt, `{section.title}`: I don't know the manual's section `{line}`" for line in section.manuals if not CITED.fullmatch(line))
