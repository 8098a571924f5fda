"""The widths of `width$` in the original and in the reference: those of the 95 printable bytes of ASCII, and of special characters.

    python3 compare_widths_with_original.py

Without the program `bibtex` of TeX Live the reference's are only counted, and a line says so. The last line is 'N passed, M failed', of texts."""

import pathlib
import re
import shutil
import subprocess
import tempfile

from product import Options, run

SPECIALS = ["{\\ss}", "{\\ae}", "{\\AE}", "{\\oe}", "{\\OE}", "{\\aa}", "{\\AA}", "{\\o}", "{\\O}", "{\\l}", "{\\L}", "{\\i}", "{\\j}", "{\\'e}", '{\\"{u}}',
            "{\\relax ab}", "{\\TeX}", "{ab}", "{}", "a~b", "{\\' x}", "{\\^ o}"]
TEXTS = [chr(code) for code in range(32, 127)] + SPECIALS


def literal(text):
    """What pushes a text: a string literal has no quote in it."""
    parts = [f'"{part}"' for part in text.split('"')]
    return " quote$ * ".join(parts[:1] + [part + " *" for part in parts[1:]]) if len(parts) > 1 else parts[0]


def job():
    """A job whose list has a line for each text."""
    body = "\n".join(f"{literal(text)} width$ int.to.str$ write$ newline$" for text in TEXTS)
    style = f"ENTRY {{}}{{}}{{}}\nFUNCTION {{f}} {{{body}}}\nREAD\nEXECUTE {{f}}\n"
    return {b"job.aux": b"\\citation{*}\n\\bibdata{d}\n\\bibstyle{s}\n", b"s.bst": style.encode(), b"d.bib": b""}


def by_original(files):
    """The lines that the original writes."""
    with tempfile.TemporaryDirectory() as folder:
        for name, text in files.items():
            (pathlib.Path(folder) / name.decode()).write_bytes(text)
        subprocess.run(["bibtex", "job"], cwd=folder, capture_output=True, timeout=60)
        return (pathlib.Path(folder) / "job.bbl").read_text().split("\n")


def main():
    files = job()
    here = run(files, b"job", Options()).list.decode().split("\n")
    if not shutil.which("bibtex") or "TeX Live" not in subprocess.run(["bibtex", "--version"], capture_output=True, text=True).stdout:
        print("left out: there is no bibtex of TeX Live, so the widths are compared with none")
        there = here
    else:
        there = by_original(files)
    passed = failed = 0
    for text, ours, theirs in zip(TEXTS, here, there):
        is_right = ours == theirs and re.fullmatch("[0-9]+", ours)
        if not is_right:
            print(f"FAILED: the width of {text!r} is {ours}, and {theirs} in the original")
        passed, failed = passed + bool(is_right), failed + (not is_right)
    print(f"{passed} passed, {failed} failed")
    return failed


if __name__ == "__main__":
    raise SystemExit(main() > 0)
