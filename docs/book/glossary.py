"""The words and signs of the library that occur in the book: what each means, an example with its value, and where the book uses it."""

import pathlib
import re

import layout

FILE = pathlib.Path(__file__).with_name("words.txt")


def rows():
    lines = [line for line in FILE.read_text(encoding="utf-8").split("\n") if line.strip() and not line.startswith("//")]
    return [line.split("\t") for line in lines]


def meanings():
    """What each word means, in the order of the file."""
    return {row[0]: row[1] for row in rows()}


def examples():
    """The example of each word that has one, as it stands in the file."""
    return {row[0]: row[2] for row in rows() if len(row) > 2}


def sentence(example):
    """An example as it is printed: what doesn't hold says so."""
    return f"`{example.removeprefix('not so: ')}`" + (" doesn't hold" if example.startswith("not so: ") else "" if " = " in example else " holds")


def uses(found):
    """For each word of the library the definitions that use it."""
    by_word = {}
    for it in found:
        for word in it.words:
            by_word.setdefault(word, []).append(it)
    return by_word


def explained(found):
    """Each word of the library with what it means, its example as a sentence, and the line that shows it best; an empty text or None where there is none."""
    by_word, computed = uses(found), examples()
    for word, meaning in meanings().items():
        yield word, meaning, sentence(computed[word]) if word in computed else "", shortest_use(word, by_word.get(word, []))


def words_of(found):
    """The words of the library that some definitions use, each with what it means."""
    used = uses(found)
    return [(word, meaning) for word, meaning in meanings().items() if word in used]


def headed(word, meaning):
    """What a word means, after the word, if the meaning doesn't begin with it."""
    first = re.match(r"`([^`]+)`", meaning)
    return meaning if first and word in first[1].split() else f"`{word}`: {meaning}"


def has_word(line, word):
    """Whether a line of a definition has a word or a sign by itself."""
    if line.lstrip().startswith("--"):
        return False
    code = re.sub(r'"(?:[^"\\]|\\.)*"', '""', line)
    edge = r"[\w.']" if re.match(r"\w", word) else r"[^\s\w(){},]"
    return bool(re.search(rf"(?<!{edge}){re.escape(word)}(?!{edge})", code))


def shortest_use(word, users):
    """The definition that shows a word best, the shortest, and the line of it that has the word."""
    found = []
    for it in users:
        lines = [line for line in layout.shown(it) if has_word(line, word)] if it.kind in ("equations", "record", "data") else []
        lines.sort(key=lambda line: (" : " in line and " = " not in line, len(line)))
        if lines:
            found.append((sum(map(len, it.lines)), it.id, it, lines[0].strip()))
    found.sort(key=lambda part: (part[0], part[1]))
    return (found[0][2], re.sub(r" +", " ", found[0][3])) if found else None
