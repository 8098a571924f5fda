"""Looks for what acts on a terminal: control characters, C1 (raw or in UTF-8), marks of direction. Line ends and colours don't count.

    python3 unsafe.py FILE

What is found is printed, with what stands round it; the exit status is 0 only where nothing is."""

import re
import sys

COLOUR = re.compile(rb"\x1b\[[0-9;]*m")
# Control characters but the tab and the line end; those of C1; marks, separators, embeddings, overrides and isolates of direction.
UNSAFE = re.compile("[\x00-\x08\x0b-\x1f\x7f\x80-\x9f\u061c\u200e\u200f\u2028-\u202e\u2066-\u2069]")


def finds(printed):
    text = COLOUR.sub(b"", printed).decode("utf-8", "surrogateescape")
    for match in UNSAFE.finditer(text):
        yield text[max(0, match.start() - 20):match.end() + 20]
    # Bytes that are no UTF-8: those of C1 act on terminals that read single bytes.
    for at, sign in enumerate(text):
        if 0xDC80 <= ord(sign) <= 0xDC9F:
            yield text[max(0, at - 20):at + 20]


def main():
    with open(sys.argv[1], "rb") as file:
        found = list(finds(file.read()))
    for text in found[:5]:
        print(repr(text))
    return 1 if found else 0


if __name__ == "__main__":
    sys.exit(main())
