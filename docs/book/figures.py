"""The figures of the documents: each count and each measurement has a command that gives it (figures.txt), and no document says another number.

    python3 docs/book/figures.py                      compares the documents with figures.txt; make.py and tests/documents/check.py ask the same
    python3 docs/book/figures.py --measure NAME..     runs these commands, and writes their numbers, the day and the machine into figures.txt, and all numbers into the documents
    python3 docs/book/figures.py --write              writes the numbers of figures.txt, and those that are counted each time, into the documents

The commands run what .ci/run names so: $program, $library and the folder $front. The last line is 'N passed, M failed', of commands, of places in documents, and of their numbers."""

import datetime
import os
import pathlib
import re
import subprocess
import sys

ROOT = pathlib.Path(__file__).resolve().parents[2]
FILE = ROOT / "docs/book/figures.txt"
DOCUMENTS = ("README.md", "docs/DIFFERENCES.md", "docs/PROOFS.md", "docs/ASSUMPTIONS.md", "docs/STYLES.md", "library/README.md", "web/README.md", "python/README.md")
BUILT = {"program": "crates/bibtex/out/bibtex", "library": "library/out/libbtx.so.1", "front": "front/out"}
EACH_TIME, OLDER, NO_FIGURES = "each time", "older, ", "no figures: "
# How many commands may have numbers that were written by hand, before there was figures.txt. It may only fall.
MOST_OLDER = 11
WORDS = "no one two three four five six seven eight nine ten eleven twelve".split()
# A number as a document has it, also as a word, and a place for one in the words of figures.txt.
NUMBER = r"(?:\d+(?:,\d{3})*(?:\.\d+)?|\b(?:" + "|".join(WORDS) + r")\b)"
PLACE = re.compile(r"\{([^{}:]+)(?::([^{}]*))?\}")
# Where no figure stands: in code, in marks, and where links lead. And the numbers that have to stand in figures.txt: all but those of one digit without a unit.
NO_PROSE = re.compile(r"(?ms)^```.*?^```|^    [^\n]*|`[^`\n]*`|\]\([^)]*\)|<[^>]*>")
UNIT = r"(?:m?s|seconds?|minutes?|hours?|days?|[kKMG]i?B|[mb]illion|M|times|jobs?|papers?|lists?|styles?|databases?|tests?|checks?|lines|pages|definitions)\b|%"
ASKED = re.compile(rf"(?<![\w.,-])(?:\d+(?:,\d{{3}})+(?:\.\d+)?|\d+\.\d+|\d{{2,}}|\d(?= ?(?:{UNIT})))(?![\w-])")


class Figures:
    """The numbers of one command, and where documents say them: a block of figures.txt."""

    def __init__(self, block):
        head, *lines = block.split("\n")
        self.block, (self.name, self.command) = block, head.split(": ", 1)
        rows = [tuple(line.strip().split(": ", 1)) for line in lines]
        self.on, self.prints = dict(rows)["on"], [text for what, text in rows if what == "prints"]
        self.numbers = {name: number_of(text) for what, row in rows if what == "numbers" for name, text in (it.split(" ") for it in row.split("; "))}
        self.places = [row for row in rows if row[0] not in ("on", "prints", "numbers")]

    def counted(self):
        """The numbers that the command prints now."""
        ran = subprocess.run(["bash", "-c", self.command], cwd=ROOT, env={**BUILT, **os.environ}, capture_output=True, text=True, check=False)
        found = [re.search(expression, ran.stdout, re.M) for expression in self.prints]
        return {name: number_of(text) for match in found if match for name, text in match.groupdict().items()}

    def measure(self):
        """Writes the numbers that the command prints now into figures.txt, if it prints all of them."""
        found = self.counted()
        lacking = [name for expression in self.prints for name in re.findall(r"\?P<(\w+)>", expression) if name not in found]
        if lacking or not found:
            sys.exit(f"{self.name}: nothing is written, since its command doesn't print {lacking or 'any number'}")
        processor = re.search(r"model name\s*: (.*)", pathlib.Path("/proc/cpuinfo").read_text(encoding="utf-8"))
        made = re.sub(r"(?m)^    on: .*$", f"    on: {datetime.date.today()}, {os.cpu_count()} processors, {processor[1] if processor else os.uname().machine}", self.block)
        made = re.sub(r"(?m)^    numbers: .*$", "    numbers: " + "; ".join(f"{name} {value}" for name, value in (self.numbers | found).items()), made)
        FILE.write_text(FILE.read_text(encoding="utf-8").replace(self.block, made), encoding="utf-8")


def number_of(text):
    text = text.replace(",", "")
    return float(text) if "." in text else int(text)


def value_of(place, numbers):
    return eval(place[1], {"__builtins__": {}}, numbers)


def shown(place, numbers):
    """What a document is to have at a place."""
    value, form = value_of(place, numbers), place[2] or ","
    if form.startswith("~"):
        return f"{round(value / int(form[1:])) * int(form[1:]):,}"
    return WORDS[value] if form == "word" and value < len(WORDS) else format(value, "," if form == "word" else form)


def is_right(place, said, numbers):
    value = value_of(place, numbers)
    return abs(number_of(said) - value) * 20 <= value if (place[2] or "").startswith("~") else said == shown(place, numbers)


def pattern(words):
    """The expression that finds words in a document, whatever their numbers are; a line may end at each space."""
    return re.compile(f"({NUMBER})".join(re.escape(piece).replace(r"\ ", r"\s+") for piece in PLACE.sub("\0", words).split("\0")))


def read():
    """The figures, and the expressions for numbers that are none."""
    blocks = FILE.read_text(encoding="utf-8").rstrip("\n").split("\n\n")[1:]
    none = [line.strip() for block in blocks if block.startswith(NO_FIGURES) for line in block.split("\n")[1:]]
    return [Figures(block) for block in blocks if not block.startswith(NO_FIGURES)], none


def verdicts(is_written=False):
    """For each command, place and number what is said where it is wrong, and whether it is right. With `is_written` the documents first get the numbers."""
    (figures, none), known = read(), {document: set() for document in DOCUMENTS}
    older = sum(it.on.startswith(OLDER) for it in figures)
    yield f"figures.txt: {older} commands have numbers that were written by hand, and {MOST_OLDER} are allowed", older <= MOST_OLDER
    for it in figures:
        numbers = it.counted() if it.on == EACH_TIME else it.numbers
        yield f"figures.txt: `{it.name}` gives no numbers", bool(numbers)
        for document, words in it.places if numbers else ():
            places = list(PLACE.finditer(words))
            wanted = [shown(place, numbers) for place in places]
            if is_written:
                (ROOT / document).write_text(pattern(words).sub(lambda match: with_texts(match, wanted), (ROOT / document).read_text(encoding="utf-8")), encoding="utf-8")
            found = list(pattern(words).finditer((ROOT / document).read_text(encoding="utf-8")))
            known.setdefault(document, set()).update(at for match in found for at in range(*match.span()))
            said = all(is_right(place, text, numbers) for match in found for place, text in zip(places, match.groups()))
            yield f"{document}: `{it.name}` gives {wanted}, and it says {[match.groups() for match in found]}: {words}", bool(found) and said
    for document in DOCUMENTS:
        yield from unknown(document, known[document], none)


def unknown(document, known, none):
    """The numbers of a document, and whether figures.txt has each."""
    text = (ROOT / document).read_text(encoding="utf-8")
    for expression in none:
        known.update(at for match in re.finditer(expression.replace("#", NUMBER).replace(" ", r"\s+"), text) for at in range(*match.span()))
    for match in ASKED.finditer(NO_PROSE.sub(lambda match: re.sub(r"[^\n]", "`", match[0]), text)):
        line = text.count("\n", 0, match.start()) + 1
        yield f"{document}, line {line}: docs/book/figures.txt has no command that gives `{match[0]}`, and doesn't say why it is no figure", match.start() in known


def with_texts(match, texts):
    """What was matched, with these texts in the place of its groups."""
    text = match[0]
    for place in range(len(texts), 0, -1):
        text = text[:match.start(place) - match.start()] + texts[place - 1] + text[match.end(place) - match.start():]
    return text


def main():
    for it in read()[0] if sys.argv[1:2] == ["--measure"] else ():
        if it.name in sys.argv[2:]:
            it.measure()
    found = list(verdicts(is_written=len(sys.argv) > 1))
    wrong = [message for message, is_so in found if not is_so]
    print("\n".join([*wrong, f"{len(found) - len(wrong)} passed, {len(wrong)} failed"]))
    return bool(wrong)


if __name__ == "__main__":
    sys.exit(main())
