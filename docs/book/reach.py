"""Which definitions have to be believed, and which have not: what two clauses of `run` reach, which say what it writes (`believed`); what the rest of its contract
reaches (`language`, which has the first too); what only laws and the files of `PLACES` reach (`laws`); and the others (`refinement`). And what each promise that README lists reaches beside the
believed ones (`PROMISES`)."""

import re

import definitions
import contracts

# What has to be believed: the definitions that these clauses of `run` name. The other clauses say the same with the definitions that the code is proved by.
CLAUSES = ("written", "broken_off")
# The promises of README, by their places in docs/PROOFS.md: the contract, and the clauses of it (all, where none are named). What `written` says of the report and
# `broken_off` of a fault other clauses say again, with the definitions that the code is proved by; that a function is safe has no clause.
PROMISES = {
    "clause-written": ("btx_run::run", CLAUSES),
    "clause-counts": ("btx_run::run", ("counts",)),
    "clause-bound": ("btx_run::run", ("bound",)),
    "clause-budget": ("btx_run::budget_law", ()),
    "clause-check": ("btx_check::check", ()),
    "clause-ends": ("btx_ends::check", ()),
}
# Files of definitions that a public call beside `run` promises by (`read_placed_style` of `btx_bst`, `run_noted`): they are read like laws, with all that they name.
PLACES = ("btx_bst.Recorded", "btx_bst.StylePlaces", "btx_machine.Noting", "btx_run.Noted")
# The relation between a job and its product, and that a product is the only one in it.
RELATION = ("btx_core.Product.IsProduct", "btx_core.Product.IsTheOne")
# The crate whose specs/language has the relation between a job and its product: there, and in no other crate, it has only what has to be believed.
CORE = "btx_core"


class Reach:
    """All definitions, each with the class that it is of."""

    def __init__(self):
        self.language, self.laws, self.refinement = [], [], []
        self.headline, self.traits, self.law_contracts = contracts.headline(), list(contracts.traits()), contracts.laws()
        self.resolved = set()
        self.promised = self.named_by_clauses()
        self.walk(self.headline + self.traits, "language", self.language)
        self.walk(self.law_contracts + [used for it in self.promised for used in it.uses] + of_places(), "laws", self.laws)
        self.collect_others()
        self.believed = self.reached_by(self.promised + self.traits)
        self.relation = self.reached_by([it for it in self.believed if it.id in RELATION])
        self.name_carriers()
        self.further = {place: self.further_of(*promise) for place, promise in PROMISES.items()}

    def walk(self, roots, reach, found):
        """Marks what is reached from these, which are resolved."""
        work = list(roots)
        while work:
            it = work.pop()
            if it in self.resolved:
                continue
            self.resolved.add(it)
            it.reach = reach
            found.append(it)
            if it.kind not in ("contract", "trait", "law"):
                definitions.resolve(it, home_of(it))
            for used in it.uses:
                used.users.append(it)
            # (what the clauses name is walked along with what only laws reach: it is another way down than that of the other clauses)
            work += [] if it in self.promised and reach == "language" else it.uses

    def named_by_clauses(self):
        """The definitions that the clauses name by which `run` says what it writes."""
        return [it for contract in self.headline for it in named_by(contract, CLAUSES) if it.kind in ("record", "data", "equations")]

    def reached_by(self, roots):
        """What these reach, which is resolved, and has to be believed."""
        found = closure(roots)
        for it in found:
            it.is_believed = True
        return found

    def further_of(self, shown, clauses):
        """What the clauses of a contract reach that isn't among what has to be believed for the two of `run`."""
        contract = next(contracts.made_of(it, "contract") for it in contracts.all_contracts() if it.is_public and it.shown == shown)
        return [it for it in closure(named_by(contract, clauses), resolved=self.resolved) if not it.is_believed]

    def collect_others(self):
        """What neither reaches."""
        for module in definitions.all_modules():
            for it in module.definitions:
                if it.reach is None:
                    it.reach = "refinement"
                    self.refinement.append(it)

    def name_carriers(self):
        """Says of each definition by which public contracts it is carried: those that name it, or else those that name what uses it, the nearest."""
        for contract in contracts.all_contracts():
            if contract.is_public and not contract.is_law:
                for it in named_in(contract):
                    if contract.shown not in it.carriers:
                        it.carriers.append(contract.shown)
        for it in self.language + self.laws:
            it.carried = it.carriers or nearest_carriers(it)


def of_places():
    """The definitions of the files of `PLACES`."""
    return [it for module in definitions.all_modules() if module.name in PLACES for it in module.definitions]


def named_by(contract, clauses):
    """The definitions that these clauses of a contract name, or all of its clauses where none are named."""
    text = "\n".join(line.split("//")[0] for line in contract.lines)
    found = [it[1] for it in re.finditer(r"ensures (?:\w+ )?(\{.*?)(?=\n *(?:ensures|\{)|\Z)", text, re.S)]
    if clauses:
        found = [re.search(rf"ensures {clause} (.*?)(?=\n *(?:ensures|\{{)|\Z)", text, re.S)[1] for clause in clauses]
    words = {word for clause in found for word in re.findall(definitions.IDENTIFIER, clause)}
    return [it for it in dict.fromkeys(contract.uses) if it.name in words]


def closure(roots, resolved=None):
    """What these reach. Where `resolved` has those whose names are known, the names of the others are looked up."""
    work, seen = list(roots), {}
    while work:
        it = work.pop()
        if it in seen:
            continue
        seen[it] = True
        if resolved is not None and it not in resolved and it.kind not in ("contract", "trait", "law"):
            resolved.add(it)
            definitions.resolve(it, home_of(it))
        work += it.uses
    return list(seen)


def named_in(contract):
    """The definitions that a contract names."""
    home = contracts.file_module(contract.path)
    text = "\n".join(line.split("//")[0] for line in contract.lines)
    for word in definitions.identifiers(text):
        found = home.names.get(word)
        target = definitions.target_of(*found) if isinstance(found, tuple) else None
        if isinstance(target, definitions.Definition):
            yield target
    for alias, path in home.aliases.items():
        for name in set(definitions.re.findall(rf"\b{alias}\.({definitions.IDENTIFIER})", text)):
            target = definitions.target_of(path, name)
            if isinstance(target, definitions.Definition):
                yield target


def nearest_carriers(it):
    """The contracts that name a user of a definition, or a user of one, the nearest first."""
    level, seen = [it], {it}
    while level:
        level = list(dict.fromkeys(user for below in level for user in below.users if user not in seen))
        seen |= set(level)
        found = [carrier for user in level for carrier in user.carriers]
        if found:
            return list(dict.fromkeys(found))
        # (a part of the language is carried by calls; laws only speak of it)
        laws = [f"{user.crate}::{user.name}" for user in level if user.kind == "law" and it.reach == "laws"]
        if laws:
            return laws
    return []


def folder_wanted(it):
    """The folder of specs/ in which a definition is to stand. In the core's crate `language` has what has to be believed, and nothing else."""
    if it.crate != CORE:
        return it.reach
    return "language" if it.is_believed else "laws" if it.reach == "laws" else "refinement"


def home_of(it):
    """The module of a definition of a specs file; a type of the program has none."""
    return None if it.kind == "rust" else definitions.module_of(it.file)


def lines_in(found):
    """The number of lines of some definitions, without comments, blank lines and `use` lines. The line that has a definition's name and type counts."""
    return sum(not line.lstrip().startswith(("--", "//")) for it in found for line in it.lines if line.strip())


def lines_of_comments(found):
    """The number of lines of the comments of some definitions."""
    return sum(len(it.comment) + sum(line.lstrip().startswith("--") for line in it.lines) for it in found)
