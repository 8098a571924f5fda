"""Stand-ins: a copy of a crate in which only some functions keep their bodies and proofs.

A function is proved from the contracts of those that it calls, never from their bodies. So where a wrong body is planted in one function, nothing depends on
the bodies and the proofs of the others: each gets the body `loop {}`, and a proof that is one hole, which the prover takes by what it states. Types,
contracts, definitions and lemmas stay as they are. What is checked is then a small part of the crate, by the same goals.

A few functions always keep their own: those in a cycle of calls, whose proof is one for all; `const` ones, which the compiler computes; those of a trait, or of
its `impl` for other types than one, those that answer an `impl`, and `drop`, whose proof is a part of that of each function that drops such a value. The
source must be in the layout of `rt fmt`, which the gate requires."""

import re

FUNCTION = re.compile(r"^(?P<indent> *)(?:pub(?:\([^)]*\))? )?(?P<words>(?:const |unsafe |extern )*)fn (?P<name>\w+)")
BLOCK = re.compile(r"^(?:unsafe )?impl\b")
# Items with a body of their own, in which no function is replaced.
OTHER_BLOCK = re.compile(r"^(?:pub(?:\([^)]*\))? )?(?:mod|trait|macro_rules!).*\{$")
TYPE = re.compile(r"(?m)^(?:pub(?:\([^)]*\))? )?(?:struct|enum) (\w+)")
TEST_MODULE = re.compile(r"(?m)^#\[cfg\(test\)\]\n(?:pub )?mod (\w+);$")
# What keeps a function as it is.
KEPT_BY_ATTRIBUTE = re.compile(r"#\[(?:test|cfg|cycle)\b")
PROOF = """use Rattle.{crate}.proofs.{path}.Statement.{{statement}}

pub {name}_spec : {{M : Type 1}} → statement M
{name}_spec = ?
"""


class Function:
    """A function of a source file: its path in the crate, and the lines where its body opens and ends."""

    def __init__(self, path, opens, ends):
        self.path, self.opens, self.ends = path, opens, ends


def without_parameters(text):
    """A text without the list in angle brackets that it begins with."""
    depth = 0
    for at, byte in enumerate(text):
        depth += (byte == "<") - (byte == ">" and text[at - 1] != "-")
        if depth == 0:
            return text[at + (byte == ">") :].strip()
    return text


def path_of_block(head, module, homes):
    """The path of an `impl` block's functions: its type's, which begins with the module that declares the type, and behind it the trait's name.
    None for one whose path has more in it, or whose type is declared elsewhere."""
    text = without_parameters(head.partition("impl")[2].strip())
    trait, _, kind = text.rpartition(" for ")
    kind, trait = re.match(r"(\w+)", kind), re.fullmatch(r"(?:\w+::)*(\w+)", trait)
    home = homes.get(kind[1]) if kind else None
    if home is None or " for " in text and (trait is None or home != module):
        return None
    return [*home, kind[1] + (trait[1] if trait else "")]


def body_of(lines, at, indent):
    """The lines where a function's body opens and ends, of a function that begins at this line; None if it has none."""
    own = re.compile(rf"{indent}\S")
    while not (own.match(lines[at]) and lines[at].endswith("{")):
        if lines[at].endswith((";", "{}")):
            return None
        at += 1
    return at, lines.index(f"{indent}}}", at)


def keeps_its_own(lines, at, opens, head):
    """Whether a function that begins at this line keeps its body."""
    above = at
    while re.match(rf"{head['indent']}(?:#\[|//)", lines[above - 1]) and above:
        above -= 1
    signature = "\n".join(lines[at : opens + 1])
    return bool(head["words"]) or "-> impl" in signature or KEPT_BY_ATTRIBUTE.search("\n".join(lines[above:at])) is not None or head["name"] in ("main", "drop")


def functions_of(lines, module, homes):
    """The functions of a module's file that can be replaced. `homes` has the module that declares each of the crate's types."""
    found, block, indent, at = [], module, "", 0
    while at < len(lines):
        line, head = lines[at], FUNCTION.match(lines[at])
        if BLOCK.match(line):
            first = at
            while not lines[at].endswith(("{", "{}")):
                at += 1
            is_test = KEPT_BY_ATTRIBUTE.search(lines[first - 1]) is not None
            if lines[at].endswith("{"):
                head = " ".join(it.strip() for it in lines[first : at + 1])
                block, indent = None if is_test else path_of_block(head, module, homes), "    "
        elif OTHER_BLOCK.match(line):
            block, indent = None, "    "
        elif line == "}":
            block, indent = module, ""
        elif head and block is not None and head["indent"] == indent:
            body = body_of(lines, at, indent)
            if body and not keeps_its_own(lines, at, body[0], head):
                found.append(Function([*block, head["name"]], *body))
            at = body[1] if body else at
        at += 1
    return found


def replace_body(lines, function):
    indent = re.match(" *", lines[function.ends])[0]
    lines[function.opens + 1 : function.ends] = [f"{indent}    loop {{}}"]


def leave_hole(room, crate, function):
    """Puts a hole in the place of a function's proof."""
    folder = room.joinpath("proofs", *function.path)
    folder.mkdir(parents=True, exist_ok=True)
    for name in ("Answers.antt", "Invariants.antt"):
        (folder / name).unlink(missing_ok=True)
    text = PROOF.format(crate=crate, path=".".join(function.path), name=function.path[-1])
    (folder / "Proof.antt").write_text(text, encoding="utf-8")


def modules_of(room):
    """The source files of a crate, each with the path of its module, without those that are only read for tests."""
    texts = {file: file.read_text(encoding="utf-8") for file in sorted(room.glob("src/**/*.rt"))}
    tests = {name for text in texts.values() for name in TEST_MODULE.findall(text)}
    paths = {file: list(file.relative_to(room / "src").with_suffix("").parts) for file in texts}
    return {file: [] if path in (["lib"], ["main"]) else path for file, path in paths.items() if path[0] not in tests}


def stand_in(room, crate, kept):
    """Replaces the functions of a copy of a crate, in the folder `room`, but for those whose paths are kept. Answers how many it replaced."""
    modules, count = modules_of(room), 0
    homes = {name: path for file, path in modules.items() for name in TYPE.findall(file.read_text(encoding="utf-8"))}
    for file, path in modules.items():
        lines = file.read_text(encoding="utf-8").split("\n")
        replaced = [it for it in functions_of(lines, path, homes) if "::".join(it.path) not in kept]
        for function in reversed(replaced):
            replace_body(lines, function)
            leave_hole(room, crate, function)
        file.write_text("\n".join(lines), encoding="utf-8")
        count += len(replaced)
    return count
