"""How long the sentences of the documents are.

    python3 tests/documents/sentences.py [--show FILE]

A sentence of prose is to have at most LONGEST words. For each document this prints its sentences, the mean of their words, and how many are longer; --show prints those of one. Headings,
code blocks and the first columns of tables aren't read; code in a line counts as one word; a link counts by its text. A document may have no more long sentences than ALLOWED says, and
that number may only fall. The last line is 'N passed, M failed', of documents. check.py asks the same."""

import pathlib
import re
import sys

ROOT = pathlib.Path(__file__).resolve().parents[2]
LONGEST = 25
# How many sentences of a document may be longer. The two of RULES are rows of widths, numbers alone.
ALLOWED = {"docs/DIFFERENCES.md": 0, "docs/PROOFS.md": 0, "docs/DECISIONS.md": 0, "docs/RULES.md": 2, "docs/STYLES.md": 0, "docs/ASSUMPTIONS.md": 0}
# Where a sentence ends: after its stop, where the next one begins. Semicolons and colons end none.
END = re.compile(r"(?<=[.!?])[*)\"]*\s+(?=[*(\"]*[A-Z`_\[0-9])")


def plain(text):
    """A paragraph's words: code as one word each, links by their texts, without marks."""
    text = re.sub(r"<[^>]*>", " ", text)
    text = re.sub(r"`[^`]*`", "CODE", text)
    text = re.sub(r"\[([^\]]*)\]\([^)]*\)", r"\1", text)
    return " ".join(re.sub(r"\*\*?|__?", "", text).split())


def paragraphs(source):
    """The paragraphs, points and cells of a document."""
    source = re.sub(r"(?ms)^```.*?^```$|^---\n.*?\n---$", "", source)
    for block in re.split(r"\n\s*\n", source):
        lines = [line for line in block.split("\n") if not re.match(r"#|    ", line)]
        if lines and lines[0].startswith("|"):
            yield from (cell for line in lines[2:] for cell in re.split(r"(?<!\\)\|", line.strip().strip("|"))[1:])
        else:
            yield from re.split(r"(?m)^\s*(?:-|\d+\.) ", "\n".join(lines))


def sentences(source):
    """The sentences of a document, without marks."""
    for paragraph in paragraphs(source):
        for sentence in END.split(plain(paragraph)):
            if len(sentence.split()) > 2:
                yield sentence


def words(sentence):
    return len(re.findall(r"[^\s–-]*\w[^\s]*", sentence))


def lengths(name):
    """The numbers of words of a document's sentences."""
    return [words(sentence) for sentence in sentences((ROOT / name).read_text(encoding="utf-8"))]


def verdicts():
    """For each document what is said where too many of its sentences are long, and whether that isn't so."""
    for name, allowed in ALLOWED.items():
        long = sum(length > LONGEST for length in lengths(name))
        yield f"{name}: {long} sentences have more than {LONGEST} words, and {allowed} are allowed (tests/documents/sentences.py --show {name})", long <= allowed


def main():
    if sys.argv[1:2] == ["--show"]:
        for sentence in sentences((ROOT / sys.argv[2]).read_text(encoding="utf-8")):
            if words(sentence) > LONGEST:
                print(f"{words(sentence)}: {sentence}")
        return 0
    for name in ALLOWED:
        found = lengths(name)
        print(f"{name}: {len(found)} sentences, {sum(found) / len(found):.1f} words each, {sum(length > LONGEST for length in found)} above {LONGEST}")
    failed = [message for message, is_right in verdicts() if not is_right]
    for message in failed:
        print(message)
    print(f"{len(ALLOWED) - len(failed)} passed, {len(failed)} failed")
    return bool(failed)


if __name__ == "__main__":
    sys.exit(main())
