"""Sees that the links of documents work: those to files and sections, and the documents that they name in code.

    python3 links.py FOLDER      all .md files below it

What is named below tests/, crates/, .ci/, docs/book/, front/, library/, python/, lua/ or web/ is a file of the sources, and no link. What isn't there is printed; the exit status is 0 only where all is."""

import pathlib
import re
import sys

LINK = re.compile(r"\[[^\]]*\]\(([^)\s]+)\)")
NAMED = re.compile(r"`([\w./-]+\.md)`")
OF_SOURCES = ("tests/", "crates/", ".ci/", "docs/book/", "front/", "library/", "python/", "lua/", "web/")


def anchors(path):
    """The names that headings have in a link: small letters, without signs, with hyphens for spaces; and the names that a text gives to a place."""
    text = path.read_text(encoding="utf-8")
    yield from re.findall(r'<a id="([\w-]+)"></a>', text)
    for line in text.split("\n"):
        if line.startswith("#"):
            yield re.sub(r"[^\w -]", "", line.lstrip("# ").lower()).replace(" ", "-")


def complaints(folder):
    for path in sorted(folder.rglob("*.md")):
        text = path.read_text(encoding="utf-8")
        for link in LINK.findall(text):
            name, _, anchor = link.partition("#")
            there = path.parent / name if name else path
            if "://" in link:
                continue
            if not there.exists():
                yield f"{path.relative_to(folder)}: there is no {name}"
            elif anchor and anchor not in anchors(there):
                yield f"{path.relative_to(folder)}: {name} has no section {anchor}"
        for name in NAMED.findall(text):
            if not name.startswith(OF_SOURCES) and not any((place / name).exists() for place in (folder, path.parent)):
                yield f"{path.relative_to(folder)}: there is no {name}"


def main():
    folder = pathlib.Path(sys.argv[1])
    missing = list(complaints(folder))
    if not any(folder.rglob("*.md")):
        missing.append(f"no document is in {folder}")
    print("\n".join(missing))
    return 1 if missing else 0


if __name__ == "__main__":
    sys.exit(main())
