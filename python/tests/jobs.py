"""A small job that the tests share, and where the sources are."""

import pathlib

SOURCES = pathlib.Path(__file__).resolve().parent.parent.parent
EXAMPLES = SOURCES / "examples"
AUX = b"\\citation{k}\n\\bibdata{d}\n\\bibstyle{s}\n"
HEAD = b"ENTRY {title}{}{} FUNCTION {misc}{} READ "
STYLE = HEAD + b'FUNCTION {f} {cite$ write$ ": " write$ title write$ newline$} ITERATE {f}'
FILES = {"job.aux": AUX, "s.bst": STYLE, "d.bib": b"@misc{k, title = {T}}\n"}


def with_style(text):
    """The small job with a style that goes on so behind READ."""
    return {**FILES, "s.bst": HEAD + text}
