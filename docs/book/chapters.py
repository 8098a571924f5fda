"""Reads `chapters.txt`, places each definition in its section, and finds the examples."""

import functools
import pathlib
import re
import sys

import definitions
from definitions import CRATES, ROOT, Definition

FILE = pathlib.Path(__file__).with_name("chapters.txt")
JOBS = ROOT / "tests/reference"
# The part of the book with what has to be believed. Its first chapter is the core.
BELIEVED = "What has to be believed"
# What the types of the program stand below in a section that doesn't begin with them.
TYPES = "types of the program"
# A file's number among those of its folder, at its front, or after its name in what another one says.
NUMBER_OF_FILE = r"^\d+\. |(?<=`) \(\d+\)"
ALLOWED = re.compile(r"// allowed: (\d+) (.+?)(?: -- .*)?$")


class Section:
    """A part of a chapter: its modules with their definitions, its rules, and its examples with what it says of some of them."""

    def __init__(self, title):
        self.title, self.modules, self.rules, self.examples, self.reason, self.parts = title, [], [], [], None, []
        self.believed, self.table, self.first, self.manuals = set(), None, None, []
        self.captions, self.number, self.is_believed, self.opening = {}, None, False, ""

    @property
    def definitions(self):
        return [it for _, found in self.parts for it in found]


class Chapter:
    def __init__(self, title):
        self.title, self.opening, self.sections, self.number, self.is_from_the_top, self.part = title, "", [], None, False, None
        self.is_believed = False

    @property
    def definitions(self):
        return [it for section in self.sections for it in section.definitions]


class Example:
    """A worked row: where it stands, and its lines as a definition whose names are linked."""

    def __init__(self, shown, row, caption=""):
        self.shown, self.row, self.caption = shown, row, caption


def read(text):
    """The chapters of a text, and what is allowed: by its words the number."""
    chapters, allowed = [], {}
    for line in text.split("\n"):
        number = ALLOWED.match(line)
        if number:
            allowed[number[2]] = int(number[1])
        elif line.startswith("## "):
            chapters[-1].sections.append(Section(line[3:].strip()))
        elif line.startswith("# "):
            chapters.append(Chapter(line[2:].strip()))
        elif line.strip() and not line.startswith("//"):
            read_line(chapters[-1], line)
    mark_believed(chapters)
    return chapters, allowed


def mark_believed(chapters):
    """Which chapters have to be believed: those of the part that says so."""
    part = None
    for chapter in chapters:
        part = chapter.part or part
        chapter.is_believed = part == BELIEVED
        for section in chapter.sections:
            section.is_believed = chapter.is_believed


def read_line(chapter, line):
    word, _, rest = line.partition(": ")
    section = chapter.sections[-1] if chapter.sections else None
    if line == "order: from the top":
        chapter.is_from_the_top = True
    elif section is None and word == "part":
        chapter.part = rest.strip()
    elif section is None:
        chapter.opening = f"{chapter.opening} {line.strip()}".strip()
    elif word == "opening":
        section.opening = f"{section.opening} {rest}".strip()
    elif word == "modules":
        section.modules += rest.split(", ")
    elif word == "believed":
        section.modules += rest.split(", ")
        section.believed.update(rest.split(", "))
    elif word == "table":
        section.table = rest.strip()
    elif word == "manual":
        section.manuals += rest.split("; ")
    elif word == "first":
        section.first = rest.strip()
    elif word == "rule":
        section.rules += rest.split("; ")
    elif word == "example":
        section.examples.append(rest.strip())
    elif word == "caption" and section.examples:
        section.captions[section.examples[-1]] = rest.strip()
    elif word == "none":
        section.reason = rest.strip()
    else:
        raise SystemExit(f"{FILE.name}: I don't know the line `{line}`")


# ---- places ----


def place(chapters, found):
    """Gives each definition its place, a type of the program before its first use; answers the definitions that stand in no chapter."""
    by_module, placed = {}, set()
    named = {module for chapter in chapters for section in chapter.sections for module in section.modules if "/" in module}
    for it in found:
        alone = f"{it.module}/{it.name}"
        by_module.setdefault(alone if alone in named else it.module, []).append(it)
    for chapter_number, chapter in enumerate(chapters, 1):
        chapter.number, count = chapter_number, 0
        for section_number, section in enumerate(chapter.sections, 1):
            section.number = f"{chapter_number}.{section_number}"
            for module in section.modules:
                own = sorted((it for it in by_module.get(module, []) if it.kind != "rust" and it not in placed and (it.is_believed or module not in section.believed)),
                             key=place_in_module)
                own = with_types(own, placed)
                section.parts.append((module, downwards(own, section.first) if chapter.is_from_the_top else own))
            for it in section.definitions:
                count += 1
                it.place = (chapter_number, count)
    return [it for it in found if it.place is None]


def place_in_module(it):
    """A module's definitions stand in the order of the folders, and in each as in its file."""
    folder = definitions.folder_of(it.file)
    return (definitions.FOLDERS.index(folder) if folder else 0, it.line)


def is_domain(it):
    """Whether a definition is a set of values: a type of the program, or one of the definitions' own that no value is given to."""
    return it.kind == "rust" or bool(re.fullmatch(rf"(?:record |data )?{re.escape(it.name)}(?: [({{][\w ]+ : Type 0[)}}])* : Type 0(?: where)?", it.lines[0]))


def downwards(own, first):
    """The definitions of a module in the order in which one reads: sets of values first, then each definition before those that it is made of. A module that has the
    definition `first` begins with it, and has the sets of values last."""
    is_headed = any(it.name == first for it in own)
    types, groups = [it for it in own if it.kind == "rust"], titled([it for it in own if it.kind != "rust"])
    domains = [(TYPES if is_headed else None, types)] + [(title, [it for it in group if is_domain(it)]) for title, group in groups]
    others = [(title, sorted((it for it in reversed(group) if not is_domain(it)), key=lambda it: it.name != first)) for title, group in reversed(groups)]
    return headed(others + domains if is_headed else domains + others)


def titled(own):
    """The groups of a file's definitions, each with its title, if it has one."""
    groups = []
    for it in own:
        if it.heading or not groups:
            groups.append((it.heading, []))
        groups[-1][1].append(it)
    return groups


def headed(groups):
    """The definitions of groups, with each title before the first one of its group, unless the group before has it, too."""
    found, last = [], None
    for title, group in groups:
        for at, it in enumerate(group):
            it.heading = None if at or title == last else title
        found, last = found + group, title if group else last
    return found


def with_types(own, placed):
    """Definitions, each after the types of the program that it is the first to use."""
    found = []

    def add(it):
        if it not in placed:
            placed.add(it)
            for used in it.uses:
                if used.kind == "rust":
                    add(used)
            found.append(it)
    for it in own:
        add(it)
    return found


def upwards(chapters):
    """Definitions of chapters that are read from the top, each with one that it is made of and that stands before it in the same file's part, unless that is a set of values."""
    for chapter in (it for it in chapters if it.is_from_the_top):
        for section in chapter.sections:
            for _, found in section.parts:
                yield from ((it, used) for at, it in enumerate(found) for used in found[:at]
                                if used in it.uses and it not in used.uses and used.name != section.first and not is_domain(used) and not is_domain(it))


def forward_references(found, chapters):
    """Definitions that use one of a later chapter, where the chapter isn't read from the top downwards."""
    downwards = {chapter.number for chapter in chapters if chapter.is_from_the_top}
    return [(it, used) for it in found for used in it.uses if it.place and used.place and used.place[0] > it.place[0] and it.place[0] not in downwards]


# ---- examples ----


def example(named, believed):
    """The worked row of this name; says what is wrong where there is none, or where nothing checks it."""
    where, _, piece = (part.strip() for part in named.partition(" | "))
    if where == "job":
        return job_example(piece)
    module, _, name = where.rpartition(".")
    for folder in ("specs", "proofs"):
        for home in definitions.modules_shown(module) if folder == "specs" else [definitions.module(module, folder)]:
            row = home.names.get(name) if home else None
            if isinstance(row, Definition) and (row in believed if folder == "specs" else is_checked(module)):
                return row_example(home, row, piece) if piece else whole_example(home, row, folder)
    raise LookupError(f"there is no row `{where}` that a law speaks of or that is proved")


def is_checked(module):
    """Whether the checker reads a file of proofs, which its crate's list of files says."""
    crate, name = module.split(".")[:2]
    return bool(re.search(rf"(?m)^(?:pub )?mod {name}$", (CRATES / crate / "proofs/Lib.antt").read_text(encoding="utf-8")))


def copy_of(home, row, lines):
    """Some lines as a definition of their own, whose names mean what they mean in a file."""
    made = Definition(row.module, "row", row.name, row.file, row.line)
    made.lines = lines
    definitions.resolve(made, home)
    return made


def whole_example(home, row, folder):
    """A statement that is proved, or a definition that a law speaks of."""
    lines = row.lines
    if folder == "proofs":
        at = next((number for number, line in enumerate(lines) if number and line.startswith(("unfolding", row.name + " ", row.name + "\n"))), len(lines))
        lines = [re.sub(rf"^{re.escape(row.name)} : ", "", lines[0]), *lines[1:at]]
        if len(row.lines) == at or "≡" not in "".join(lines) and "ComesTo" not in "".join(lines):
            raise LookupError(f"`{row.id}` is no statement that is proved")
    else:
        lines = [line for line in lines[1:]]
    return Example(f"{row.file.relative_to(CRATES)}, {row.name}", copy_of(home, row, lines), " ".join(row.comment))


def row_example(home, row, piece):
    """The row of a table in which a piece of text stands, and no other row."""
    rows = rows_of(row)
    found = [(comment, lines) for comment, lines in rows if piece in "\n".join(lines)]
    if len(found) != 1:
        raise LookupError(f"{len(found)} rows of `{row.id}` have the text `{piece}`")
    comment, lines = found[0]
    return Example(f"{row.file.relative_to(CRATES)}, {row.name}", copy_of(home, row, lines), comment)


def rows_of(row):
    """The rows of a table, which are joined by `∷`: each with the comment before it. A comment holds for the rows after it, too, up to one of another function."""
    rows, comment, is_fresh = [], "", True
    for line in row.lines[2:]:
        text = line.strip()
        if text.startswith("--"):
            comment = (comment + " " if is_fresh else "") + text[2:].strip()
            is_fresh = True
        elif text == "∷ []":
            break
        elif (text.startswith("∷ ") and not is_open(rows)) or not rows:
            text = text.removeprefix("∷ ")
            comment = comment if is_fresh or subject_of(text) == subject_of(rows[-1][1][0]) else ""
            rows.append((comment, [text]))
            is_fresh = False
        else:
            rows[-1][1].append("  " + text)
    return [(comment, [re.sub(r" ∷ \[\]$", "", line) if is_unmatched(lines) else line for line in lines]) for comment, lines in rows]


def subject_of(text):
    """The function that a row is about, if it begins with its name: `substring$` of `gives "substring$" ..`."""
    found = re.match(r'\w+ ("[^"]*")', text)
    return found and found[1]


def is_open(rows):
    """Whether the last row isn't closed yet."""
    return bool(rows) and balance(rows[-1][1]) != 0


def is_unmatched(lines):
    """Whether a table's last row has the table's end after it."""
    return len(lines) == 1 and lines[0].endswith(" ∷ []") and balance(lines) == 0


def balance(lines):
    text = re.sub(r'"(?:[^"\\]|\\.)*"', "", "\n".join(lines))
    return sum(text.count(sign) for sign in "({") - sum(text.count(sign) for sign in ")}")


@functools.lru_cache(maxsize=None)
def jobs():
    """The jobs of the table of the reference, by their names."""
    sys.path.insert(0, str(JOBS))
    import worked_jobs
    found = {}
    for table in vars(worked_jobs).values():
        for it in table if isinstance(table, (list, tuple)) else []:
            if isinstance(it, worked_jobs.Job):
                found[it.name] = it
    return found


def job_example(name):
    """A job of the reference's table, with which the program is compared: the style after its READ and what it comes to."""
    job = jobs().get(name)
    if job is None:
        raise LookupError(f"there is no job `{name}`")
    made = Definition("tests", "job", name, JOBS / "worked_jobs.py", 1)
    options = " ".join(f"--{option.replace('_', '-')} {value}" for option, value in job.options.items())
    shown = [("the style after READ", job.text), ("the options", options or None), ("the list", job.bbl),
             ("messages", [it.decode("latin-1") for it in job.messages or []] or None), ("the end", job.end), ("steps", job.steps), ("bodies open at most", job.deepest)]
    made.lines = [f"{what}: {short(value)}" for what, value in shown if value is not None]
    return Example("tests/reference/worked_jobs.py, " + name, made, name)


def short(value):
    text = value.decode("latin-1") if isinstance(value, bytes) else str(value)
    text = text.replace("\n", "⏎ ") or "(empty)"
    return text if len(text) <= 200 else f"{text[:120]} .. ({len(text):,} characters) .. {text[-40:]}"


def files_of(module, found):
    """The files of a section's module that have these definitions, from the repository's top, each with what it says at its front, without the number that it has
    among its folder's files."""
    name = module.partition("/")[0]
    if "::" in name:
        crate, *rest = name.split("::")
        return [(CRATES.joinpath(crate, "src", *rest).with_suffix(".rt").relative_to(ROOT), [])]
    files = {it.file for it in found}
    return [(home.file.relative_to(ROOT), re.sub(NUMBER_OF_FILE, "", "\n".join(home.intro)).split("\n")) for home in definitions.modules_shown(name) if home.file in files]
