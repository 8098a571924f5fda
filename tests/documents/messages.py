#!/usr/bin/env python3
"""Whether RULES has the messages of the definitions, and no other ones.

    python3 tests/documents/messages.py

Each equation of a definition that gives a message its text is read as a pattern: the text that it spells, with anything where it has a name, a key or a number.
RULES' tables of messages have one for each pattern, and none without a pattern. (That the front end's advice is that of these tables is checked in tests/front.)
Its last line is 'N passed, M failed'; the exit status is 0 only where M is 0."""

import pathlib
import re
import sys

ROOT = pathlib.Path(__file__).resolve().parents[2]
sys.path.insert(0, str(ROOT / "tests/front"))
from explanations import RULES, advised_rows  # noqa: E402

# Where messages get their texts: the crate's definitions, the functions that say them, and what the log writes before such a text.
DEFINITIONS = [
    ("btx_aux/specs/language/Notes.antt", ("aux_complaint_text", "aux_note_text"), ""),
    ("btx_bst/specs/language/MessageTexts.antt", ("complaint_text",), ""),
    ("btx_step/specs/language/Notes.antt", ("note_text",), ""),
    ("btx_bib/specs/language/MessageTexts.antt", ("slip_text", "message_text"), ""),
    ("btx_core/specs/language/Files/Lines.antt", ("no_style_line", "no_database_line"), ""),
    ("btx_machine/specs/language/Reports.antt", ("end_word",), "Ended: "),
]
# Lines of the log that aren't about anything wrong: RULES shows them outside its tables.
NO_ADVICE = ("The top-level auxiliary file: ", "A level-", "Ended: finished")
PIECE = re.compile(r'codes "((?:[^"\\]|\\.)*)"|([^\s+][^+]*)')


def equations(path, names):
    """The right sides of these functions' equations, each as one line."""
    joined = re.sub(r"\n +", " ", path.read_text(encoding="utf-8"))
    for line in joined.split("\n"):
        found = re.match(r"(\w+) [^:]*? = (?:message Error \()?(.*?)\)?$", line)
        if found and found[1] in names:
            yield found[2]


def pattern(right_side, before):
    """The expression that a message of this text matches; None where nothing is spelt: such an equation hands on to another one."""
    pieces = [(re.sub(r"\\(.)", r"\1", text) if not other else None) for text, other in PIECE.findall(right_side)]
    if all(piece is None for piece in pieces):
        return None
    return re.escape(before) + "".join(".+" if piece is None else re.escape(piece) for piece in pieces)


def patterns():
    for place, names, before in DEFINITIONS:
        for right_side in equations(ROOT / "crates" / place, names):
            made = pattern(right_side, before)
            if made:
                yield place, made


def complaints():
    """A complaint, or None, for each pattern and each message."""
    known = list(patterns())
    messages = [message for _, messages, _ in advised_rows() for message in messages]
    rules = RULES.read_text(encoding="utf-8")
    for place, made in known:
        is_shown = any(re.fullmatch(made, message) for message in messages)
        if not is_shown and made.replace("\\", "").startswith(NO_ADVICE):
            is_shown = re.search(made, rules)
        yield None if is_shown else f"{place}: RULES has no message of the form {made}"
    for message in messages:
        yield None if any(re.fullmatch(made, message) for _, made in known) else f"RULES: no definition gives the message {message}"


def main():
    found = list(complaints())
    for complaint in filter(None, found):
        print(complaint)
    failed = sum(complaint is not None for complaint in found)
    print(f"{len(found) - failed} passed, {failed} failed")
    return min(failed, 1)


if __name__ == "__main__":
    sys.exit(main())
