"""Reads the contracts of the crates: what `run` promises, the laws, the traits, and which public call carries which definition."""

import functools
import re

import definitions
from definitions import CRATES, Definition, Module

FUNCTION = re.compile(r"^(\s*)((?:pub(?:\([\w ]+\))? )?)(?:const |unsafe )*fn (\w+)")
HEADLINE = ("btx_run", "run")
# A crate beside the program, with laws of its own, and a law that joins the promises of two.
BESIDE = ("btx_check::", "btx_read::", "btx_ends::", "btx_c::clean_styles_end_well")
# The traits of the headline's finder and sinks.
TRAITS = (("btx_aux", "Finder"), ("btx_out", "Sink"))


@functools.lru_cache(maxsize=None)
def file_module(path):
    """What the `ghost use` lines of a file of the program bring to its contracts."""
    made = Module(definitions.module_of_source(path), path)
    for line in definitions.sources(path.relative_to(CRATES).parts[0])[path].split("\n"):
        if line.startswith("ghost use "):
            made.bring(line)
    return made


class Contract:
    """A function of the program with its contract's lines, as they stand in the file."""

    def __init__(self, path, owner, start, is_public, name, lines):
        self.path, self.owner, self.start, self.is_public, self.name, self.lines = path, owner, start, is_public, name, lines

    @property
    def shown(self):
        """How a caller names it: btx_text::Elements::of."""
        crate = self.path.relative_to(CRATES).parts[0]
        return "::".join([crate, *([self.owner] if self.owner else []), self.name])

    @property
    def is_law(self):
        """A law is a public function without parameters and with nothing in its body."""
        return self.is_public and bool(re.search(rf"fn {self.name}\(\)\s*$", self.lines[0])) and self.lines[-1].strip() == "{}" and len(self.lines) > 2


def contracts_of(path):
    """The functions of a file that have a contract, each with the type that it belongs to."""
    lines = definitions.sources(path.relative_to(CRATES).parts[0])[path].split("\n")
    owner, number = None, 0
    while number < len(lines):
        block = re.match(r"(?:pub )?(?:impl|trait)\b(?:<[^>]*>)? ?(?:[\w<>:', ]+ for )?(\w+)", lines[number])
        owner = block[1] if block else None if lines[number].startswith("}") else owner
        found = FUNCTION.match(lines[number])
        if found:
            taken = lines[number:end_of(lines, number, found[1])]
            if any(re.match(r"\s*(requires|ensures)\b", line) for line in taken):
                is_public = found[2] == "pub " or (lines[number].startswith(" ") and is_trait(lines, number))
                yield Contract(path, owner, number, is_public, found[3], taken)
        number += 1


def is_trait(lines, number):
    """Whether a line stands in a public trait."""
    head = next((line for line in reversed(lines[:number]) if re.match(r"\S.*\{$", line)), "")
    return head.startswith("pub trait ")


def end_of(lines, number, indent):
    """The line after a function's contract: where its body begins, or where a declaration ends."""
    for at in range(number, len(lines)):
        if lines[at].startswith(indent + "{") or (lines[at].endswith(" {") and "ensures" not in lines[at] and "requires" not in lines[at]):
            return at + 1
        if lines[at].rstrip().endswith(";"):
            return at + 1
    return len(lines)


@functools.lru_cache(maxsize=None)
def all_contracts():
    """The functions of all crates that have a contract."""
    crates = sorted(path.parent.name for path in CRATES.glob("*/specs"))
    return [it for crate in crates for path in definitions.sources(crate) for it in contracts_of(path)]


def made_of(contract, kind):
    """A contract as a definition of the book."""
    home = file_module(contract.path)
    made = Definition(home.name, kind, contract.name, contract.path, contract.start + 1)
    text = definitions.sources(contract.path.relative_to(CRATES).parts[0])[contract.path]
    made.comment = definitions.documentation("\n".join(text.split("\n")[:contract.start]), None)
    made.lines = [line for line in contract.lines if line.strip() not in ("{", "{}")]
    bind_parameters(made, "\n".join(made.lines))
    definitions.resolve(made, clause_module(home, made))
    return made


def bind_parameters(made, text):
    """The parameters of a call mean nothing outside it; what its types are is said by the program."""
    signature = re.split(r"\b(?:ensures|requires)\b", re.sub(r"//[^\n]*", "", text))[0]
    for name in sorted(definitions.identifiers(signature)):
        found = definitions.type_in(made.file, name) if name[0].isupper() else None
        if found:
            definitions.link(made, name, found)
        made.bound.add(name)
    made.bound.add("result")


def clause_module(home, made):
    """The file's names, with the contract itself."""
    home.definitions.append(made)
    return home


def laws():
    """The laws of all crates of the program. One beside it has its own, which its README names."""
    return [made_of(it, "law") for it in all_contracts() if it.is_law and not it.shown.startswith(BESIDE)]


def headline():
    """The contract of `run`."""
    crate, name = HEADLINE
    found = [it for it in all_contracts() if it.is_public and it.name == name and it.owner is None and it.shown.startswith(crate + "::")]
    return [made_of(it, "contract") for it in found]


def traits():
    """The traits that the headline speaks of: what a finder and a sink have to be."""
    for crate, name in TRAITS:
        for path, text in definitions.sources(crate).items():
            found = re.search(rf"^pub trait {name} \{{\n(?:.*\n)*?\}}$", text, re.M)
            if found:
                yield made_of_trait(path, name, text, found)


def made_of_trait(path, name, text, found):
    home = file_module(path)
    made = Definition(home.name, "trait", name, path, text.count("\n", 0, found.start()) + 1)
    made.comment = definitions.documentation(text, found.start())
    made.lines = found[0].split("\n")
    made.bound |= set(re.findall(r"ghost (\w+)", found[0])) | {name, "Self"}
    for signature in re.findall(r"fn \w+\([^)]*\)[^\n]*", found[0]):
        bind_parameters(made, signature)
    definitions.resolve(made, clause_module(home, made))
    return made
