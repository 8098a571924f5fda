"""Reads definitions (`specs/*.antt`), worked rows (`proofs/*.antt`) and contracts (`src/*.rt`), and finds what each name in them means.

A definition is whatever has a name and a meaning that others use: equations, a record, an enum, a type of the program in Rust, a trait, a law and the
contract of a call. The checker isn't asked: a name means what the `use` lines of its file say."""

import functools
import pathlib
import re

ROOT = pathlib.Path(__file__).resolve().parents[2]
CRATES = ROOT / "crates"
# The folders of specs/: what has to be believed, what is promised about it, and what ties the code to it. A program has no such folders.
FOLDERS = ("language", "laws", "refinement")
IDENTIFIER = r"[A-Za-z_][\w']*(?:-[A-Za-z][\w']*)*"
# A text in quotes, a name with what it is the path of, or the name of a field after a value.
TOKEN = re.compile(rf'"(?:[^"\\]|\\.)*"|(?<![\w.]){IDENTIFIER}(?:\.{IDENTIFIER})*|\.{IDENTIFIER}(?:\.{IDENTIFIER})*')
SIGN = re.compile(r"==|[ℕℤ]|[^\w\s\"(){}.,;:=λ→\[\]'@◌-]+|-(?=\s)")
HEAD = re.compile(rf"^(?:abbrev |unfoldable )?(?:pub )?(?:(record|data) )?({IDENTIFIER})((?: [({{][^:=]*:.*)? :.*| : .*)$")
USE = re.compile(r"(?:ghost |pub )?use (?:Rattle|Prim)\.([\w.]+?)(?:\.\{(.*)\}| as (\w+))?;?$")
KEYWORDS = {"let", "in", "if", "then", "else", "record", "data", "where", "Type", "pub", "with", "unfolding", "ensures", "requires", "result",
            "ghost", "fn", "Self", "self", "mut", "trait", "rec", "λ"}
# Names that every file knows.
EVERYWHERE = {"Unit", "tt", "Option", "Some", "None", "Vec", "String"}
# Names of the library that a pattern compares with; each other small name of a pattern is bound there.
PATTERNS = {"zero", "suc", "pos", "negsuc", "true", "false", "refl", "tt", "inl", "inr"}


class Word:
    """A name or a sign of the library."""

    def __init__(self, name):
        self.name = name


class Definition:
    """What has a name: `kind` is 'equations', 'record', 'data', 'rust', 'trait', 'law', 'contract' or 'row'; `file` and `line` say where it stands.
    `renamed` has each name that its file alone has for something, with the name that this has where it is defined."""

    def __init__(self, module, kind, name, file, line):
        self.module, self.kind, self.name, self.file, self.line = module, kind, name, file, line
        self.comment, self.lines, self.heading, self.bound = [], [], None, set()
        self.links, self.uses, self.words, self.unknown, self.users = {}, [], set(), set(), []
        self.renamed = {}
        self.place, self.reach, self.carriers, self.is_believed = None, None, [], False

    @property
    def id(self):
        return f"{self.module}.{self.name}".replace("::", ".") + ("-type" if self.kind == "rust" else "")

    @property
    def anchor(self):
        """The definition's address in the book: its name with its module's, without what all crates' names begin with."""
        return self.id.removeprefix("btx_")

    @property
    def crate(self):
        return re.match(r"\w+", self.module)[0]

    @property
    def number(self):
        return f"{self.place[0]}.{self.place[1]}" if self.place else ""

    def __repr__(self):
        return self.id


class Module:
    """A file: its first comment, its definitions in order, and what its `use` lines bring."""

    def __init__(self, name, file):
        self.name, self.file = name, file
        self.intro, self.definitions, self.names, self.aliases = [], [], {}, {}

    def bring(self, line):
        """Reads a `use` line; answers whether it was one."""
        found = USE.match(line.strip())
        if found:
            path, items, alias = found.groups()
            if alias:
                self.aliases[alias] = path
            for item in (items or "").split(", "):
                original, _, other = item.partition(" as ")
                if item:
                    self.names.setdefault(other or original, (path, original))
        return line.lstrip().startswith(("use ", "ghost use ", "pub use ", "pub mod "))


# ---- definitions ----


class Reader:
    """Reads a file of definitions line by line: `comment` are the lines of comment that wait for a definition, `now` is the one that goes on."""

    def __init__(self, module):
        self.module, self.comment, self.heading, self.now, self.given, self.is_inside = module, [], None, None, None, False

    def read(self, text):
        for number, line in enumerate(text.split("\n"), 1):
            self.read_line(number, self.without_parameters(line))
        return self.module

    def without_parameters(self, line):
        """A definition inside a `module _ .. where` is indented, and has its parameters. One that is given together with others, in a `mutual`, is indented too."""
        if line.startswith("module _") or line == "mutual":
            self.is_inside, self.given, self.comment, self.now = True, line[len("module _ "):-len(" where")], [], None
            return ""
        if self.is_inside and line.strip() and line[0] != " ":
            self.is_inside, self.given = False, None
        return line[2:] if self.is_inside and line.startswith(" ") else line

    def read_line(self, number, line):
        if line.startswith("-- ----"):
            self.heading, self.comment, self.now = line[7:].strip(), [], None
        elif line.startswith("--"):
            self.comment, self.now = self.comment + [line[2:].strip()], None
        elif self.module.bring(line):
            self.module.intro, self.comment = self.module.intro or self.comment, []
        elif HEAD.match(line) and not line.startswith(" "):
            self.begin(number, line)
        elif self.now and line.strip():
            self.go_on(line)

    def begin(self, number, line):
        kind, name, rest = HEAD.match(line).groups()
        self.now = Definition(self.module.name, kind or "equations", name, self.module.file, number)
        self.now.comment, self.now.heading, self.comment, self.heading = self.comment, self.heading, [], None
        self.now.lines.append((kind + " " if kind else "") + name + rest)
        if self.given:
            first = ", ".join(f"`{name}`" for group in re.findall(r"\(([\w ]+) :", self.given) for name in group.split())
            self.now.lines.append(f"  -- for any `{self.given}`" + (f"; definitions outside give {first} first" if first else ""))
            self.now.bound |= {name for group in re.findall(r"[({]([^:]*) :", self.given) for name in group.split()}
        self.module.names[name] = self.now
        self.module.definitions.append(self.now)

    def go_on(self, line):
        self.now.lines.append(line)
        variant = self.now.kind == "data" and re.match(rf"^  (?:pub )?({IDENTIFIER})(?: :|$)", line)
        if variant:
            self.module.names.setdefault(variant[1], self.now)


def source_of(name, folder):
    """The file of the module crate.A.B in a folder of the crate, or None."""
    crate, *rest = name.split(".")
    path = CRATES.joinpath(crate, folder, *rest).with_suffix(".antt") if rest else None
    return path if path and path.exists() else None


def module(name, folder="specs"):
    """The module of the file A/B in a folder of a crate, by the name crate.A.B, or None where there is no such file."""
    return read_once(name, folder)


def module_of(file):
    """The module of a file of definitions or proofs."""
    crate, folder, *rest = file.relative_to(CRATES).with_suffix("").parts
    return module(".".join([crate, *rest]), folder)


def shown(name):
    """The name of a module without the folder of specs/ that it stands in."""
    crate, first, *rest = name.split(".")
    return ".".join([crate, *rest] if first in FOLDERS else [crate, first, *rest])


def modules_shown(name):
    """The modules of specs/ that are shown by this name: one in each folder at most."""
    crate, _, rest = name.partition(".")
    return [found for path in (name, *(f"{crate}.{folder}.{rest}" for folder in FOLDERS)) if (found := module(path))]


def folder_of(file):
    """The folder of specs/ that a file stands in, or None."""
    folder = file.relative_to(CRATES).parts[2]
    return folder if folder in FOLDERS else None


@functools.lru_cache(maxsize=None)
def read_once(name, folder):
    path = source_of(name, folder)
    return path and Reader(Module(shown(name), path)).read(path.read_text(encoding="utf-8"))


def all_modules():
    """All modules of definitions, in the order of their names."""
    for path in sorted(CRATES.glob("*/specs/**/*.antt")):
        crate, _, *rest = path.relative_to(CRATES).with_suffix("").parts
        yield module(".".join([crate, *rest]))


# ---- types of the program ----


@functools.lru_cache(maxsize=None)
def sources(crate):
    """The Rust files of a crate with their texts."""
    return {path: path.read_text(encoding="utf-8") for path in sorted((CRATES / crate / "src").rglob("*.rt"))}


def module_of_source(path):
    """btx_run::files::found for crates/btx_run/src/files/found.rt."""
    crate, _, *rest = path.relative_to(CRATES).with_suffix("").parts
    return "::".join([crate, *[part for part in rest if part not in ("lib", "mod")]])


def documentation(text, end):
    """The doc comment and the attributes that stand directly before a place of a text: the comment's lines."""
    found = []
    for line in reversed(text[:end].rstrip("\n").split("\n")):
        if not line.strip().startswith(("///", "//", "#[")):
            break
        if line.strip().startswith("//"):
            found.insert(0, line.strip().lstrip("/").strip())
    return found


@functools.lru_cache(maxsize=None)
def rust_type(crate, path, name):
    """The struct, enum or name of a list in a crate, in the file of the module path `a.b` where one is given; as a definition sees it."""
    files = sources(crate)
    inside = [CRATES / crate / "src" / (path.replace(".", "/") + end) for end in (".rt", "/mod.rt")] if path else list(files)
    for file in inside:
        text = files.get(file, "")
        found = re.search(rf"^pub (?:type {name}\b[^=]*= List<.*;|(?:enum|struct) {name}\b(?:<[^>]*>)?(?:\(.*\);| \{{(?:\n.*)*?\n\}}|;))", text, re.M)
        if found:
            return made_of_type(file, name, found.start(), found[0])
    return None


@functools.lru_cache(maxsize=None)
def made_of_type(file, name, start, declared):
    """A type of the program as a definition: what it declares, or, where it has a model, what a definition sees of it."""
    text = file.read_text(encoding="utf-8")
    made = Definition(module_of_source(file), "rust", name, file, text.count("\n", 0, start) + 1)
    made.comment = documentation(text, start)
    seen = re.search(rf"Model for {name}\b(?:[^\n]*\n(?!\}}))*?\s*ghost Value = \{{ (.*?) \}}", text)
    shown = f"{name} = {seen[1]}" if seen else declared
    made.lines = [re.sub(r"\bpub(?:\(crate\))? |'a ?|<'a>", "", line).replace("<>", "") for line in shown.split("\n")
                  if not line.strip().startswith("#[")]
    made.is_model = bool(seen)
    return made


def resolve_rust(made):
    """The types that a type of the program is made of."""
    brought = Module(made.module, made.file)
    for line in sources(made.crate)[made.file].split("\n"):
        brought.bring(line)
    code = "\n".join(line.split("//")[0] for line in made.lines)
    # (a name of one letter is a parameter of the type)
    names = set(re.findall(r"(?<![.\w])[A-Z]\w+", code))
    if "enum" in made.lines[0]:
        names -= set(re.findall(r"(?m)^\s+([A-Z]\w*)(?=[,({])", code))
    for name in sorted(names - {made.name}):
        target = target_of(*brought.names[name]) if made.is_model and name in brought.names else None
        note_renamed(made, name, brought.names.get(name) if target else None)
        link(made, name, target or (Word(name) if name in EVERYWHERE else type_in(made.file, name)))


def type_in(file, name):
    """The type of the program that a name means in a file of it, or None."""
    crate = file.relative_to(CRATES).parts[0]
    for path, items in re.findall(r"(?m)^(?:pub )?use ([\w:]+?)(?:::\{([^}]*)\})?;", sources(crate)[file]):
        if name in [item.split(" as ")[-1].strip() for item in (items or path.split("::")[-1]).split(",")]:
            crate = crate if path.split("::")[0] in ("crate", "super", "self") else path.split("::")[0]
    return exported_type(crate, name) if (CRATES / crate / "src").is_dir() else None


def exported_type(crate, name):
    """The type of this name in a crate: its own, or another crate's that it hands on."""
    found = rust_type(crate, None, name)
    for text in sources(crate).values():
        for other in re.findall(rf"(?m)^pub use (\w+)::(?:\w+::)*(?:{name};|\{{[^}}]*\b{name}\b)", text):
            found = found or rust_type(other, None, name) if (CRATES / other / "src").is_dir() else found
    return found


def target_of(path, name):
    """What an imported name is: a definition, a word of the library, or None where there is none."""
    if not path.startswith("btx_"):
        return Word(name)
    crate, _, rest = path.partition(".specs.")
    if rest.startswith("declared."):
        where = rest[len("declared."):].replace(".TheVariants", "").split(".")
        if where[-1] == "TheConstants":
            return Word(name)
        return rust_type(crate, ".".join(where[:-1]), where[-1]) or Word(where[-1])
    home = module(f"{crate}.{rest}")
    found = home.names.get(name) if home else None
    return target_of(*found) if isinstance(found, tuple) else found


# ---- what names mean ----


def link(definition, written, target):
    """Says that a word of a definition, as it is written, means a target."""
    if isinstance(target, Word):
        definition.links[written] = target
        definition.words.add(target.name)
    elif target is None:
        definition.unknown.add(written)
    elif target is not definition:
        definition.links[written] = target
        if target not in definition.uses:
            definition.uses.append(target)


def note_renamed(definition, written, imported):
    """Says of a name, as a definition has it, what it is called where it is defined, if a `use` line of the file gives it another one."""
    if imported and imported[1] != written:
        definition.renamed[written] = imported[1]


def clauses(definition):
    """The parts of a definition that bind names for themselves: its head and each of its equations."""
    found = [[]]
    for line in definition.lines:
        if line.lstrip().startswith("--"):
            continue
        if found[0] and definition.kind == "equations" and line.startswith(definition.name + " "):
            found.append([])
        found[-1].append(line)
    return ["\n".join(lines) for lines in found]


def identifiers(text):
    return set(re.findall(rf"(?<![.\w]){IDENTIFIER}", text))


def bound_in(clause, definition, constructors, home):
    """The names that a clause binds: parameters, patterns, `λ` and `let`."""
    bound = set()
    for group in re.findall(r"[({]([^(){}:]*?) :", clause):
        bound |= set(group.split())
    for group in re.findall(r"λ ([^.]*)\.", clause):
        bound |= identifiers(re.sub(r"\([^()]*\)", "", group))
    for group in re.findall(r"\blet ([^=]*)=", clause):
        bound |= identifiers(group.split(" : ")[0])
    for group in re.findall(r"\bfn \w+(?:<[^>]*>)?\(([^)]*)\)", clause):
        bound |= {name for name in identifiers(group) if name[0].islower()}
    if definition.kind == "equations" and clause.startswith(definition.name + " ") and not clause.startswith(definition.name + " :"):
        pattern = clause[len(definition.name):].split(" = ")[0].split(" =\n")[0]
        small = {name for name in identifiers(pattern) if name[0].islower() or name[0] == "_"} - PATTERNS - constructors
        bound |= small | {name for name in identifiers(pattern) if name[0].isupper() and name not in home.names and name not in home.aliases}
    return bound


def is_field(clause, found):
    """Whether the name that was found in a clause is a field that a record is given: it stands after a brace or a semicolon, before an `=`."""
    before, after = clause[:found.start()].rstrip(), clause[found.end():]
    return after.startswith((" = ", " =\n")) and before.endswith(("{", ";", ","))


def resolve(definition, home):
    """Fills in what each name of a definition means, by the `use` lines and the definitions of its file."""
    if definition.kind == "rust":
        return resolve_rust(definition)
    constructors = {name for name, it in home.names.items() if isinstance(it, Definition) and it.kind == "data"}
    constructors |= {name for name, it in home.names.items() if isinstance(it, tuple) and name[0].islower() and is_variant(it)}
    own = {definition.name} if definition.kind in ("equations", "row") else set()
    if definition.kind in ("record", "data"):
        own = set(re.findall(rf"(?m)^  (?:pub )?({IDENTIFIER})(?= :|$)", "\n".join(definition.lines[1:]))) | {definition.name}
    for clause in clauses(definition):
        resolve_clause(definition, home, clause, own | definition.bound | bound_in(clause, definition, constructors, home))
    return None


def is_variant(imported):
    """Whether an imported name is a variant of an enum of the definitions."""
    target = target_of(*imported)
    return isinstance(target, Definition) and target.kind == "data" and target.name != imported[1]


def resolve_clause(definition, home, clause, bound):
    # (the name of a contract's clause isn't a definition's)
    code = re.sub(r"(?<=ensures )\w+(?= \{)|(?<=requires )\w+(?= \{)", "", re.sub(r"//[^\n]*|(?m:^\s*--[^\n]*)", "", clause))
    for found in TOKEN.finditer(code):
        word = found[0]
        first, *rest = word.split(".")
        if word[0] in '".' or first in KEYWORDS or first in bound or first == "_" or is_field(code, found):
            continue
        if first in home.aliases and rest:
            link(definition, f"{first}.{rest[0]}", target_of(home.aliases[first], rest[0]))
        elif isinstance(home.names.get(first), tuple):
            link(definition, first, target_of(*home.names[first]))
            note_renamed(definition, first, home.names[first])
        elif home.names.get(first):
            link(definition, first, home.names[first])
        elif first in EVERYWHERE:
            link(definition, first, Word(first))
        else:
            link(definition, first, None)
    definition.words |= set(SIGN.findall(re.sub(r'"(?:[^"\\]|\\.)*"', "", code))) - {"'", "&"}

