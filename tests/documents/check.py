"""Sees that what the documents cite is there: files, wrong bodies, and the calls, clauses and definitions in their tables.

    python3 check.py

It reads README.md and the .md files of docs/, .ci/, crates/, tests/, examples/, contrib/, front/, library/, python/, lua/ and web/. A table says what its columns hold by their heads. Each
failure is a line; the last line is 'N passed, M failed', of citations, and the exit status is 0 only where M is 0. The user's reference also has the
words that people search for, README is short, no document has more long sentences than it may (sentences.py), and the figures of README and of what it leads to are those of their
commands (docs/book/figures.py). Where there is `rt`, README names the kit that `rt version` prints among those that the program is proved with.

Each crate has a README with the parts that one looks for. It names each wrong body of its crate, and its examples of Rattle are lines of the file that it
says, in the file's order (a line `..` stands for what is left out). docs/PROOFS.md has an index of the promises of each crate with wrong bodies.
A definition's old name (docs/book/renamed.txt) is cited nowhere, unless something still has it, and a chapter of the book that is named is one of it. A link leads to a file, and to a heading or a mark, that is there. Each recipe of docs/CONTRIBUTING.md that has
an example names the files of code and definitions that have it, up to three, and no others. Names are as that document says.

The table of crates in .ci/README.md has each crate's number of functions, right within a tenth or two, and of wrong bodies. Its table of parts names
those of .ci/parts and no others, and the folders and scripts of each of these are there.

Not checked: the figures of other documents, and the times of .ci/README.md, which are as they were measured."""

import functools
import pathlib
import re
import shutil
import subprocess
import sys

import places
import sentences

ROOT = pathlib.Path(__file__).resolve().parents[2]
sys.path.insert(0, str(ROOT / "docs/book"))
import figures  # noqa: E402

DOCUMENTS = sorted(path for pattern in ("README.md", "docs/*.md", "docs/book/README.md", ".ci/*.md", "crates/*/README.md", "crates/*/docs/*.md", "tests/**/*.md",
                                        "examples/**/*.md", "contrib/*.md", "front/*.md", "library/*.md", "python/*.md", "lua/*.md", "web/*.md") for path in ROOT.glob(pattern))
# What a build makes, and no clone has.
BUILT = re.compile(r"(?:crates/\w+|library)/out\b")
PATH = re.compile(r"(?<![\w./-])(?:crates|docs|tests|examples|contrib|library|\.ci|specs|proofs|src)/[\w.*/-]*\w\*?/?")
CODE = re.compile(r"`([^`]+)`")
NAME = re.compile(r"[A-Za-z_]\w*(?:-\w+)*")
CITED = re.compile(r"[A-Za-z_][\w-]*(?:::[A-Za-z_][\w-]*)*(?:\.antt)?")
# Words that people search for in the user's reference.
REFERENCE = ROOT / "docs/RULES.md"
# README is a page and a half of small type: what an author writes for his editor, and the figures, stand in it.
MOST_WORDS_OF_README = 1300
SEARCHED = ["bibliography", "whitespace", "natbib", "biblatex", "Unicode", "Windows"]
# The heads of columns that name calls, clauses or definitions, and of those that name wrong bodies.
OF_NAMES = re.compile(r"public call|carried by|definitions?|rests on|clause|law|function|call")
OF_BODIES = re.compile(r"wrong bod")
A_LIST_OF_BODIES = re.compile(r"\*{0,2}Wrong bodies")
# An example of a crate's README: the file that its lines are from, which the paragraph before it names last, and the lines.
EXAMPLE = re.compile(r"`((?:crates|src)/[\w/]+\.rt)`[^`]*\n```rust\n(.*?)```", re.S)
# A function of Rattle, a module that is read for tests alone, and tests that come after a module's own code.
FUNCTION = re.compile(r"(?m)^ *(?:pub(?:\([^)]*\))? )?(?:const |unsafe |extern )*fn \w+")
TEST_MODULE = re.compile(r"(?m)^#\[cfg\(test\)\]\n(?:pub )?mod (\w+);$")
TESTS_IN_PLACE = re.compile(r"(?m)^#\[cfg\(test\)\]\nmod \w+ \{")
FENCED = re.compile(r"```.*?```", re.S)
# The recipes of docs/CONTRIBUTING.md that have an example, with its kind in places.py.
RECIPES = {"A message": "a message", "A message of databases": "a message of databases", "A message of steps": "a message of steps", "A rule of databases": "a rule of databases", "An option": "an option",
           "An option of the front end": "an option of the front end", "A built-in function": "a function of the language"}
# The name of a lemma or of a definition, where it is declared; and how many lemmas may have names that break the rule: those that are older.
DECLARED = re.compile(r"(?m)^(?:(?:abbrev|pub|unfoldable|abstract|data|record) )*([A-Za-z][\w'-]*) :")
OLDER_NAMES = 60
# What the code declares: functions, types, constants, modules, and the names of clauses.
IN_CODE = re.compile(r"(?m)\b(?:fn|struct|enum|trait|type|const|mod) (\w+)|^\s*(?:ensures |requires )?(\w+) \{")
# A chapter of the book, named by its title.
LINK = re.compile(r"\[([^\]]*)\]\(([^)\s]+)\)")
NAMED_CHAPTER = re.compile(r"[Cc]hapter \"([^\"]+)\"")
# What each crate's README has, by the name of the crate.
PARTS = ["# `{}`: ", "**Contract in a sentence.** ", "**Read first.** ", "## A call"]


# ---- what there is ----


@functools.cache
def crates():
    return [path.parent.name for path in sorted(ROOT.glob("crates/*/src"))]


@functools.cache
def bodies():
    """The names of the wrong bodies, each with the crates that have it."""
    found = {}
    for path in ROOT.glob("crates/*/*/*.edit"):
        found.setdefault(path.stem, set()).add(path.parts[-3])
    return found


@functools.cache
def words_of(crate):
    """The words that stand in a crate's code and definitions."""
    files = [path for folder, ending in (("src", "*.rt"), ("specs", "*.antt")) for path in (ROOT / "crates" / crate / folder).rglob(ending)]
    return {word for path in files for word in re.findall(r"[A-Za-z_][\w']*", path.read_text(encoding="utf-8"))}


@functools.cache
def names_of(crate):
    """The names that stand in a crate's code and definitions, comments aside, and the names of its files."""
    found = set()
    for path in (ROOT / "crates" / crate).rglob("*"):
        if path.suffix in (".rt", ".antt") and "out" not in path.parts:
            text = path.read_text(encoding="utf-8")
            code = re.sub(r"(?m)//.*$" if path.suffix == ".rt" else r"(?m)(?:^|(?<=\s))--.*$", "", text)
            found.update(NAME.findall(code))
            found.update((path.name, path.stem))
    return found


# ---- what a document cites ----


class Document:
    """Its citations: each is a line's number, what is cited, and what is wrong with it, or None."""

    def __init__(self, path):
        self.path, self.found = path, []
        self.lines = path.read_text(encoding="utf-8").split("\n")
        inside = path.relative_to(ROOT).parts
        self.own = [inside[1]] if inside[0] == "crates" else []

    def cite(self, number, cited, is_there, what):
        self.found.append((number, cited, None if is_there else what))

    def read(self):
        crates_here, head, in_list, after_blank = self.own, None, False, True
        for number, line in enumerate(self.lines, 1):
            if line.startswith("#"):
                crates_here = self.own or [it for it in CODE.findall(line) if it in crates()] or crates_here * line.startswith("###")
            self.read_paths(number, line, crates_here)
            in_list = self.is_in_list(line, in_list, after_blank)
            after_blank = not line.strip()
            if in_list:
                self.read_bodies(number, line)
            if not line.startswith("|"):
                head = None
            elif head is None:
                head = [it.strip() for it in line.strip("|").split("|")]
            elif not line.startswith("|-"):
                self.read_row(number, [it.strip() for it in line.strip("|").split("|")], head, crates_here)
        return self.found

    @staticmethod
    def is_in_list(line, before, after_blank):
        """Whether a line belongs to a paragraph that begins with 'Wrong bodies', or to the list behind it."""
        if A_LIST_OF_BODIES.match(line):
            return True
        goes_on = not line.strip() or line.startswith(("-", " ")) or not after_blank
        return before and goes_on and not line.startswith(("#", "|"))

    def read_paths(self, number, line, crates_here):
        for cited in PATH.findall(line):
            if BUILT.match(cited):
                continue
            inner = cited.startswith(("specs/", "proofs/", "src/"))
            # (a file of another crate, which the line names)
            beside = [it for near in self.lines[max(number - 2, 0):number + 1] for it in CODE.findall(near) if it in crates()]
            places = [f"crates/{crate}/{cited}" for crate in crates_here + beside or crates()]
            places = places if inner else [cited, str(self.path.parent.relative_to(ROOT) / cited)]
            self.cite(number, cited, any(self.is_file(it) for it in places), "there is no such file")

    @staticmethod
    def is_file(place):
        place = place.rstrip("/")
        return any(True for ending in ("", ".antt") for _ in ROOT.glob(place + ending))

    def read_bodies(self, number, text, is_column=False):
        """In a column each name is a wrong body's; in a paragraph each of several words that no code has."""
        for cited in CODE.findall(text):
            is_one = re.fullmatch(r"\w+", cited) if is_column else re.fullmatch(r"[a-z]+(?:_[a-z0-9]+)+", cited) and not self.is_known(cited, [])
            if is_one and cited not in crates():
                self.cite(number, cited, cited in bodies(), "no crate has such a wrong body")

    def read_row(self, number, cells, head, crates_here):
        crates_here = crates_here and crates_here + [it for cell in cells for it in CODE.findall(cell) if it in crates()]
        for title, cell in zip(head, cells):
            if OF_BODIES.search(title):
                self.read_bodies(number, cell, is_column=True)
            elif OF_NAMES.search(title):
                for cited in CODE.findall(cell):
                    if CITED.fullmatch(cited) and cited not in crates():
                        self.cite(number, cited, self.is_known(cited, crates_here), "no code or definition has such a name")

    @staticmethod
    def is_known(cited, crates_here):
        """Whether the crates that the section or the row is about have each part of a name's path."""
        return all(any(part in names_of(crate) for crate in crates_here or crates()) for part in cited.split("::"))


def readme_of(crate):
    path = ROOT / "crates" / crate / "README.md"
    return path.read_text(encoding="utf-8") if path.exists() else ""


def unnamed_bodies():
    """The wrong bodies, each with its crate, and whether that crate's README names it."""
    for crate in crates():
        named = set(CODE.findall(FENCED.sub("", readme_of(crate))))
        for name in sorted(name for name, where in bodies().items() if crate in where):
            yield f"{crate}: its README doesn't name the wrong body `{name}`", name in named


def missing_parts():
    """The parts of each crate's README, and the crates of docs/PROOFS.md's index."""
    index = (ROOT / "docs/PROOFS.md").read_text(encoding="utf-8")
    for crate in crates():
        for part in PARTS:
            yield f"{crate}: its README has no `{part.format(crate).strip()}`", any(line.startswith(part.format(crate)) for line in readme_of(crate).split("\n"))
        if any(crate in where for where in bodies().values()):
            yield f"docs/PROOFS.md: the index has no `{crate}`", f"### `{crate}`: " in index and f"`crates/{crate}/README.md`" in index


def examples():
    """The examples of the crates' READMEs: each line is to stand in the example's file, behind the line before."""
    for crate in crates():
        found = EXAMPLE.findall(readme_of(crate))
        yield f"{crate}: its README has no example in Rattle with its file", bool(found)
        for cited, text in found:
            path = ROOT / (cited if cited.startswith("crates/") else f"crates/{crate}/{cited}")
            left = [line.strip() for line in path.read_text(encoding="utf-8").split("\n")] if path.exists() else []
            for line in (it.strip() for it in text.split("\n")):
                if line and line != "..":
                    is_there = line in left
                    left = left[left.index(line) + 1:] if is_there else left
                    yield f"{crate}: the example of its README has a line that isn't in {cited} there: {line}", is_there


def recipes():
    """The recipes with an example: each has the files of code and definitions that name the example, up to three, and all that it has of these do."""
    text = (ROOT / "docs/CONTRIBUTING.md").read_text(encoding="utf-8")
    for heading, kind in RECIPES.items():
        rows = [line for line in text.split(f"\n### {heading}\n")[1].split("\n## ")[0].split("\n### ")[0].split("\n") if line.startswith("| `")]
        named, found = {cited for line in rows for cited in PATH.findall(line) + re.findall(r"`(front/[\w/.]+)`", line)}, places.files_of(kind)
        lacking = sorted(name for name in found if places.sort_of(name) in ("code", "definitions") and name not in named)
        yield f"docs/CONTRIBUTING.md: {heading}: the recipe hasn't {', '.join(lacking)}, which name the example", len(lacking) <= 3
        for name in sorted(name for name in named if places.sort_of(name) in ("code", "definitions")):
            yield f"docs/CONTRIBUTING.md: {heading}: {name} doesn't name the example", name in found


def declared_in(crate, folder):
    """The names that files of this folder of a crate declare, those of the goals of functions aside."""
    files = [path for path in (ROOT / "crates" / crate / folder).rglob("*.antt") if path.name not in ("Answers.antt", "Invariants.antt", "Proof.antt")]
    return {name for path in files for name in DECLARED.findall(path.read_text(encoding="utf-8"))}


def names():
    """Names as docs/CONTRIBUTING.md says: a `-` stands in lemmas alone, once, behind the whole name of something that there is."""
    lemmas = {crate: declared_in(crate, "proofs") for crate in crates()}
    for crate in crates():
        hyphens = sorted(name for name in declared_in(crate, "specs") if "-" in name)
        yield f"{crate}: definitions have a `-` in their names: {' '.join(hyphens)}", not hyphens
    hyphens = sorted(name for name in bodies() if "-" in name)
    yield f"wrong bodies have a `-` in their names: {' '.join(hyphens)}", not hyphens
    records = set(re.findall(r"(?m)^(?:pub )?record ([A-Z]\w*)", "\n".join(path.read_text(encoding="utf-8") for path in ROOT.glob("crates/*/proofs/**/*.antt"))))
    known = records.union(*lemmas.values(), *(words_of(crate) for crate in crates()))
    odd = sorted(name for name in set().union(*lemmas.values()) if "-" in name and (name.count("-") > 1 or name.split("-")[0] not in known))
    yield f"{len(odd)} lemmas aren't named as docs/CONTRIBUTING.md says, and {OLDER_NAMES} are allowed: {' '.join(odd)}", len(odd) <= OLDER_NAMES


@functools.cache
def headings(path):
    """The places of a document that a link can lead to: its headings, by their words, and what it marks by itself."""
    text = FENCED.sub("", path.read_text(encoding="utf-8"))
    words = [re.sub(r"[^\w -]", "", LINK.sub(r"\1", title).strip().lower()).replace(" ", "-") for title in re.findall(r"(?m)^#+ (.*)$", text)]
    again = [f"{word}-{words[:place].count(word)}" for place, word in enumerate(words) if word in words[:place]]
    return {*words, *again, *re.findall(r'<a id="([^"]+)"', text)}


def dead_links():
    """The links within the documents: each leads to a file and, in a document, to a heading or a mark that is there."""
    for path in DOCUMENTS:
        text = re.sub(r"`[^`\n]*`", "", FENCED.sub("", path.read_text(encoding="utf-8")))
        for _, target in LINK.findall(text):
            file, _, place = target.partition("#")
            goal = path.parent / file if file else path
            if not re.match(r"[a-z]+:", target):
                is_there = goal.exists() and (not place or goal.suffix != ".md" or place in headings(goal.resolve()))
                yield f"{path.relative_to(ROOT)}: the link to {target} leads nowhere", is_there


def old_names():
    """The definitions' names that changed: whether a document still cites an old one that nothing has."""
    there = set()
    for crate in crates():
        there |= declared_in(crate, "specs")
        for path in (ROOT / "crates" / crate / "src").rglob("*.rt"):
            there.update(name for found in IN_CODE.findall(path.read_text(encoding="utf-8")) for name in found)
    lines = [line.split() for line in (ROOT / "docs/book/renamed.txt").read_text(encoding="utf-8").split("\n") if line and not line.startswith("//")]
    renamed = {old.split(".")[-1]: new.split(".")[-1] for old, new in lines}
    for path in DOCUMENTS:
        stale = sorted({name for name in CODE.findall(FENCED.sub("", path.read_text(encoding="utf-8"))) if name in renamed and name not in there})
        yield f"{path.relative_to(ROOT)}: `{'`, `'.join(stale)}`: `{'`, `'.join(renamed[name] for name in stale)}` now (docs/book/renamed.txt)", not stale


def named_chapters():
    """The chapters of the book that documents name by their titles."""
    titles = set(re.findall(r"(?m)^##? (.*)$", (ROOT / "docs/book/chapters.txt").read_text(encoding="utf-8")))
    for path in DOCUMENTS:
        for title in NAMED_CHAPTER.findall(" ".join(path.read_text(encoding="utf-8").split())):
            yield f"{path.relative_to(ROOT)}: the book has no chapter \"{title}\"", title in titles


def functions_of(crate):
    """How many functions stand in a crate's code: without those of its tests, unless the whole crate is tests."""
    texts = {path: path.read_text(encoding="utf-8") for path in (ROOT / "crates" / crate / "src").rglob("*.rt")}
    if not crate.endswith("_tests"):
        tests = {name for text in texts.values() for name in TEST_MODULE.findall(text)}
        texts = {path: TESTS_IN_PLACE.split(text)[0] for path, text in texts.items() if path.stem not in tests}
    return sum(len(FUNCTION.findall(text)) for text in texts.values())


def gate_numbers():
    """The numbers of functions and of wrong bodies in the gate's table of crates: the first is right within a tenth or two."""
    rows = [[it.strip() for it in line.strip("|").split(" |")] for line in (ROOT / ".ci/README.md").read_text(encoding="utf-8").split("\n") if line.startswith("| ")]
    head = next(row for row in rows if row[0] == "crate")
    said = {CODE.findall(row[0])[0]: dict(zip(head, row)) for row in rows if len(row) == len(head) and CODE.findall(row[0])[:1] and CODE.findall(row[0])[0] in crates()}
    for crate in crates():
        own = sum(crate in where for where in bodies().values())
        if crate not in said:
            yield f".ci/README.md: the table of crates has no `{crate}`", not own
            continue
        functions = functions_of(crate)
        for what, count, room in ("functions", functions, max(2, functions // 10)), ("wrong bodies", own, 0):
            number = int(said[crate][what] or 0)
            yield f".ci/README.md: {crate}: {number} {what}, and there are {count}", abs(number - count) <= room


def gate_parts():
    """That the gate's table of parts is right: its folders and scripts are there, and .ci/README.md names each part."""
    rows = [[it.strip() for it in line.split("|", 4)] for line in (ROOT / ".ci/parts").read_text(encoding="utf-8").split("\n") if "|" in line and line[0] != "#"]
    for name, _, _, folders, command in rows:
        named = folders.split() + [word for word in command.split() if re.fullmatch(r"[\w./-]*/[\w.-]+", word) and not word.startswith("front/out")]
        for path in named:
            yield f".ci/parts: {name}: there is no {path}", (ROOT / path).exists()
    said = set()
    for line in (ROOT / ".ci/README.md").read_text(encoding="utf-8").split("## Times")[0].split("\n"):
        said.update(CODE.findall(line.split("|")[1]) if line.startswith("| `") else ())
    yield f".ci/README.md: its table has other parts than .ci/parts: {said ^ {row[0] for row in rows}}", said == {row[0] for row in rows}


def missing_words():
    """The words that people search for and that the reference doesn't have."""
    text = REFERENCE.read_text(encoding="utf-8").lower()
    return [word for word in SEARCHED if word.lower() not in text]


def is_short():
    """Whether README isn't longer than it may be."""
    words = len((ROOT / "README.md").read_text(encoding="utf-8").split())
    yield f"README.md: it has {words} words, and at most {MOST_WORDS_OF_README} are wanted", words <= MOST_WORDS_OF_README


def wrong_kit():
    """Of the kits that README says the program is proved with: what is wrong, or None. Nothing where there is no `rt`."""
    if not shutil.which("rt"):
        return []
    version = subprocess.run(["rt", "version"], capture_output=True, text=True, check=True).stdout.strip()
    said = re.search(r"(?m)^Proved with (`[^.]*`)\.", (ROOT / "README.md").read_text(encoding="utf-8"))
    is_named = bool(said) and version in CODE.findall(said[1])
    return [None if is_named else f"README.md: `{version}`, which `rt version` prints, isn't among the kits that the program is proved with"]


def main():
    missing = missing_words()
    passed, failed = len(SEARCHED) - len(missing), len(missing)
    for word in missing:
        print(f"{REFERENCE.relative_to(ROOT)}: people search for the word `{word}`, which isn't there")
    for path in DOCUMENTS:
        for number, cited, wrong in Document(path).read():
            passed, failed = passed + (wrong is None), failed + (wrong is not None)
            if wrong:
                print(f"{path.relative_to(ROOT)}, line {number}: `{cited}`: {wrong}")
    for message, is_right in (*unnamed_bodies(), *missing_parts(), *examples(), *recipes(), *names(), *dead_links(), *old_names(), *named_chapters(), *gate_numbers(), *gate_parts(), *is_short(), *sentences.verdicts(), *figures.verdicts()):
        passed, failed = passed + is_right, failed + (not is_right)
        if not is_right:
            print(message)
    for wrong in wrong_kit():
        passed, failed = passed + (wrong is None), failed + (wrong is not None)
        if wrong:
            print(wrong)
    print(f"{passed} passed, {failed} failed")
    return failed


if __name__ == "__main__":
    raise SystemExit(main() > 0)
