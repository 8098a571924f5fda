"""Lists what reads badly in the definitions of the book, the worst first: those that most others use.

    python3 docs/book/reading.py          all of it
    python3 docs/book/reading.py names    one list: comments, short, vague, names, once, bytes

Nothing fails here. `make book` says what is allowed; this is for whoever rewrites definitions."""

import re
import sys

import layout
import make

VAGUE = re.compile(r"\b(so many|so much|told|tells|the same|this|these|that way|what it is|comes to)\b", re.I)


def place(it):
    return f"{it.file.relative_to(make.chapters.ROOT)}:{it.line}"


def without_comment(found):
    return [it for it in found if not it.comment]


def with_short_comment(found):
    """Comments of at most three words, but for what is named by its sign alone."""
    return [it for it in found if it.comment and len(" ".join(it.comment).split()) <= 3 and "`" not in " ".join(it.comment)]


def with_vague_comment(found):
    """Comments that name neither what they speak of nor a parameter."""
    return [it for it in found if it.comment and VAGUE.search(" ".join(it.comment)) and len(" ".join(it.comment).split()) <= 8]


def of_several_meanings(found):
    """Names that mean more than one thing, those of types and of their models aside."""
    by_name = {}
    for it in found:
        if it.kind not in ("law", "contract"):
            by_name.setdefault(it.name, []).append(it)
    return sorted((group for group in by_name.values() if len(group) > 1), key=lambda group: -len(group))


def used_once(found):
    """Definitions of one line or one case split that a single other one uses, in the same file."""
    return [it for it in found if it.kind == "equations" and len(set(it.users)) == 1 and it.users[0].module == it.module and len(it.lines) <= 4
            and it.users[0].kind == "equations"]


def with_decimal_bytes(found):
    return [it for it in found if layout.bytes_in(it)]


LISTS = {"comments": ("no comment", without_comment), "short": ("a comment of at most three words", with_short_comment),
         "vague": ("a comment that doesn't say what of", with_vague_comment), "once": ("used once, in its own file", used_once),
         "bytes": ("bytes in decimal", with_decimal_bytes)}


def print_list(title, found):
    print(f"\n{title}: {len(found)}")
    for it in sorted(found, key=lambda it: (-len(set(it.users)), it.place)):
        print(f"  {place(it)} {it.name} (used by {len(set(it.users))}) {' '.join(it.comment)}")


def print_names(found):
    groups = of_several_meanings(found)
    print(f"\nnames of more than one meaning: {len(groups)}")
    for group in groups:
        print(f"  {group[0].name}: " + ", ".join(f"{place(it)}" for it in group))


def main():
    sys.setrecursionlimit(10_000)
    book = make.Book()
    language = [it for it in book.found if it.reach == "language" and it.kind != "contract"]
    wanted = sys.argv[1:] or [*LISTS, "names"]
    for name in wanted:
        if name == "names":
            print_names(language)
        else:
            title, choose = LISTS[name]
            print_list(title, choose(language))


if __name__ == "__main__":
    main()
