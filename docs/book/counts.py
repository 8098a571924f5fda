"""What the openings of chapters and sections say in numbers, and the book's first page of the core and of what has to be believed: each is counted or read where it stands. `{equations}` in
chapters.txt is such a place."""

import re
import sys

import believed
import chapters

EQUATIONS, UNREAD = "btx_core.Meanings.Equations", "btx_core.StyleTexts.initial_style"
WORDS = ("no", "one", "two", "three", "four", "five", "six", "seven", "eight", "nine", "ten", "eleven", "twelve", "thirteen", "fourteen", "fifteen", "sixteen")


def listed(words):
    """Some words as a sentence has them."""
    return " and ".join([", ".join(words[:-1]), words[-1]] if len(words) > 1 else words)


def equations(book):
    """How many equations a meaning meets: the fields of their definition, in a word."""
    return WORDS[len(re.findall(r"(?m)^  (?:pub )?\w+ :", "\n".join(book.by_id[EQUATIONS].lines[1:])))]


def undeclared(book):
    """The names that a style has before anything of it is read."""
    return listed([f"`{name}`" for name in re.findall(r'set \(codes "([^"]+)"\)', "\n".join(book.by_id[UNREAD].lines))])


def defaults(book):
    """What the options are that nobody gives, by the program of the reference, which is compared with this one."""
    sys.path.insert(0, str(chapters.JOBS))
    import product
    found = product.Options()._asdict()
    return listed([f"`{name}` {value:,}" for name, value in found.items() if not isinstance(value, bool)])


def core(book):
    """What has a number in the core: what the first page counts, and what else."""
    found, heart = book.chapters[0].definitions, believed.heart_of(believed.definitions_of(book.reach.relation))
    types, others = sum(it.kind == "rust" for it in found), [it for it in found if it.kind != "rust" and it not in heart]
    return (f"Chapter 1 has {len(found):,} numbered definitions: {len(found) - types - len(others):,} of which the relation is made, {types:,} types of the program, and "
            f"{named(others)}, which only the contract of `run` reaches.")


def all_believed(book):
    """What has a number in the chapters that have to be believed, in the same way."""
    found = [it for chapter in book.chapters if chapter.is_believed for it in chapter.definitions]
    others, last = [it for it in found if it not in book.reach.believed], max(chapter.number for chapter in book.chapters if chapter.is_believed)
    return f"Chapters 1 to {last} have {len(found):,}: the {len(found) - len(others):,}, types among them, and of the contract itself {named(others)}."


def named(found):
    return listed([f"`{it.name}` ({it.number})" for it in found])


PLACES = {"{core}": core, "{equations}": equations, "{undeclared}": undeclared, "{defaults}": defaults}
# A place that isn't filled.
UNFILLED = re.compile(r"(?<!`)\{[a-z]+\}")


def filled(text, book):
    """A text with what is counted in its places."""
    for place, count in PLACES.items():
        text = text.replace(place, count(book)) if place in text else text
    return text
