"""The worked jobs and those of the corners as rows of a table for tests of the proved program, in Rattle's literals.

    python3 print_rows.py > FILE

A row is: what it shows; the files `job.aux`, `s.bst` and `d.bib`; the least number of references, the budget, whether text is UTF-8, the
line length, and what variables of entries and global ones keep; the list, the whole log, status, steps and depth. Jobs of more files, and
those whose texts are long, are left out."""

from product import Options, run
from random_jobs import worked_jobs_named

LONGEST = 1_500


def literal(text):
    signs = {34: '\\"', 92: "\\\\", 10: "\\n", 9: "\\t", 13: "\\r", 0: "\\0"}
    return 'b"' + "".join(signs.get(byte, chr(byte) if 32 <= byte < 127 else "\\x%02x" % byte) for byte in text) + '"'


def numbers(options):
    return (f"({options.min_crossrefs}, {options.budget}, {str(options.utf8).lower()}, {options.line}, {options.entry_max}, "
            f"{options.global_max})")


def row(name, files, options):
    product = run(files, b"job", options)
    texts = [files[b"job.aux"], files[b"s.bst"], files[b"d.bib"], product.list, product.log]
    if len(files) > 3 or sum(map(len, texts)) > LONGEST:
        return None
    report = product.report
    parts = [f'"{name}"', *map(literal, texts[:3]), numbers(options), *map(literal, texts[3:]),
             f"({report.status}, {report.steps}, {report.deepest})"]
    return "    (\n" + "".join(f"        {part},\n" for part in parts) + "    ),\n"


def main():
    rows = [row(name, files, Options(**options)) for name, files, options in worked_jobs_named()]
    rows = [text for text in rows if text]
    print(f"pub const ROWS: [Row; {len(rows)}] = [\n{''.join(rows)}];")


if __name__ == "__main__":
    main()
