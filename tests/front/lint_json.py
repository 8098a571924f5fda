"""Sees that the fields of what bibtex-lint prints with --json are those that docs/bibtex-lint.1 and docs/STYLES.md describe.

    python3 lint_json.py LINT

LINT is bibtex-lint. Styles are checked that have each field between them. What is wrong is printed; the exit status is 0 only where nothing is."""

import json
import pathlib
import re
import subprocess
import sys
import tempfile

DOCS = pathlib.Path(__file__).resolve().parents[2] / "docs"
CLEAN = "ENTRY { title } {} {}\nFUNCTION {misc} { title empty$ 'skip$ { title write$ } if$ }\nREAD\nITERATE {call.type$}\n"
FAULTY = """ENTRY { author title } {} {}
INTEGERS { unused }
STRINGS { s }
FUNCTION {odd} { duplicate$ empty$ { pop$ } 'skip$ if$ }
FUNCTION {book} { author empty$ { title write$ } 'skip$ if$ author empty$ 'skip$ { title write$ } if$ }
FUNCTION {article} { #1 write$ write$ }
FUNCTION {booklet} { 'skip$ write$ "ab" chr.to.int$ pop$ }
FUNCTION {manual} { s #1 + pop$ }
FUNCTION {misc} { title odd write$ }
READ
ITERATE {call.type$}
"""
# Of one type no bound is known.
PARTLY = "ENTRY { title } {} {}\nFUNCTION {book} { { #1 } { cite$ write$ } while$ }\nFUNCTION {article} { cite$ write$ }\nREAD\nITERATE {call.type$}\n"
# What is an object of its own, by the name of the field that holds it.
KINDS = {"ends": "bound", "warnings": "warning", "places": "place", "place": "place", "command": "place", "operand": "operand", "causes": "cause", "constants": "constant", "hints": "hint"}


def fields(value, kind):
    """The fields of an object or of a list of such, and of all below, each with the kind of its object."""
    if isinstance(value, list):
        return set().union(*(fields(each, kind) for each in value))
    if not isinstance(value, dict):
        return set()
    below = (fields(each, KINDS[name]) for name, each in value.items() if name in KINDS)
    return {(kind, name) for name in value}.union(*below)


def of_manual():
    """The fields that the manual page describes."""
    section = (DOCS / "bibtex-lint.1").read_text().partition(".SH JSON\n")[2].partition("\n.SH ")[0]
    found = set()
    for part in section.split("\n.SS ")[1:]:
        kind = part.split("\n")[0].strip('"').split()[-1]
        lines = re.findall(r"(?m)^\.TP\n\.BR? (.*)$", part)
        found |= {(kind, name) for line in lines for name in re.sub(r'[",]', " ", line).split()}
    return found


def of_page():
    """The fields that the page for designers of styles describes, in the rows of its table."""
    rows = re.findall(r"(?m)^\| (style|bound|warning|place|operand|cause|constant|hint) \| ([^|]*) \|", (DOCS / "STYLES.md").read_text())
    return {(kind, name) for kind, names in rows for name in re.findall(r"`(\w+)`", names)}


def printed(lint):
    """The fields that are printed."""
    with tempfile.TemporaryDirectory() as folder:
        for name, text in (("clean", CLEAN), ("faulty", FAULTY), ("partly", PARTLY)):
            (pathlib.Path(folder) / (name + ".bst")).write_text(text)
        ran = subprocess.run([lint, "--json", "--entry", "clean", "faulty", "partly"], cwd=folder, capture_output=True, text=True, timeout=60)
    return fields(json.loads(ran.stdout), "style")


def main():
    all_of_them = printed(pathlib.Path(sys.argv[1]).absolute())
    failed = 0
    for document, described in (("bibtex-lint.1", of_manual()), ("STYLES.md", of_page())):
        for kind, name in sorted(all_of_them ^ described):
            failed += 1
            print(document, "describes no" if (kind, name) in all_of_them else "describes a, and nothing prints the", kind, name)
    return failed


if __name__ == "__main__":
    raise SystemExit(main() > 0)
