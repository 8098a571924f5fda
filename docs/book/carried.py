"""One job carried through the relation: what each of its types is for it. The job is a worked row, whose list and steps are proved; the reference in Python computes what is between."""

import functools
import html
import json
import re
import sys

import chapters
import rows
import runs
from definitions import Definition

ROW = "btx_core.WorkedJobs.cross_references"
# The types from the files of a job to its product: a definition, the relation that leads to it, and what that takes.
FLOW = (("btx_aux.Files.Files", None, "the files of a job, by their names"),
        ("btx_core.AuxFiles.AuxContents", "btx_core.AuxFiles.AreAuxContents", "what the .aux files say"),
        ("btx_core.Styles.Style", "btx_core.StyleTexts.IsStyle", "the commands and functions of the style"),
        ("btx_core.Styles.Library", "btx_core.Lists.IsLibrary", "the entries of the list, with their fields"),
        ("btx_core.Meanings.Outcome", "btx_core.Runs.CommandsCome", "the state at the end of the style"),
        ("btx_machine.Product.Product", "btx_core.Product.comes_to", "the list, the log and the report"))
# Definitions whose names values are made of, beside the cases of types. The last one is a function.
NAMED = ("btx_core.Styles.Function", "btx_core.Styles.Literal", "btx_core.Styles.StyleToken", "btx_core.Styles.Body", "btx_core.Styles.Command", "btx_core.Meanings.Outcome",
         "btx_machine.Product.log_of")
CASES = {"Built": 0, "Defined": 0, "Declared": 0, "Text": 1, "Quoted": 1, "Missing": 1, "Push": 2, "Run": 2, "Empty": 3, "Then": 3, "Read": 4, "Iterate": 4, "Done": 5, "log_of": 6}


def text(value):
    """Bytes as the notation has them."""
    return json.dumps(value.decode("latin-1"), ensure_ascii=False)


def listed(values):
    return " ∷ ".join([*values, "[]"])


def perhaps(value):
    return "None" if value is None else f"Some {value}"


def truth(value):
    return "true" if value else "false"


# ---- the job, and its run ----


@functools.lru_cache(maxsize=None)
def row():
    """What the worked row says: the keys, the database, the style after READ, the list and the steps."""
    module, _, name = ROW.rpartition(".")
    found = next(home.names[name] for home in chapters.definitions.modules_shown(module) if name in home.names)
    head, *words = rows.read(re.sub(rf"^{name} =", "", "\n".join(found.lines[1:])))
    if head != "lists":
        raise LookupError(f"`{ROW}` is no run that lists entries")
    return words


def files():
    keys, database, style, _, _ = (word.encode() for word in row())
    aux = b"".join(b"\\citation{%s}\n" % key for key in keys.split(b",")) + b"\\bibdata{d}\n\\bibstyle{s}\n"
    return {b"job.aux": aux, b"d.bib": database, b"s.bst": runs.DECLARED.encode() + style + b"\n"}


class Traced:
    """A run of the reference: what it read, and for each step its word and the state that it leaves."""

    def __init__(self):
        sys.path.insert(0, str(chapters.JOBS))
        import aux_files
        import databases
        import interpreter
        import product
        import styles
        trace = self
        self.words, self.states, self.machine = [], [], None
        self.interpreter = interpreter

        class Machine(interpreter.Machine):
            """The machine, which notes its steps."""

            def pay(self):
                trace.note()
                super().pay()

            def execute(self, meaning, bodies, loops):
                trace.machine = self
                trace.words.append(shown_meaning(meaning))
                super().execute(meaning, bodies, loops)

            def push_token(self, literal):
                trace.words.append(interpreter.shown(literal) if isinstance(literal, int) else text(literal))
                super().push_token(literal)

        def kept(name, read):
            return lambda *given: self.__dict__.setdefault(name, read(*given))
        options = product.Options()
        ours = product.ours()._replace(read_aux=kept("aux", aux_files.read_aux), read_style=kept("style", styles.read_style),
                                       read_databases=kept("library", databases.read_databases), machine=Machine)
        self.options, self.product = options, product.run(files(), b"job", options, ours)
        self.note()

    def note(self):
        """The state before a step, or at the end."""
        machine = self.machine
        self.states.append(([], b"", ()) if machine is None else (list(machine.stack), machine.pending, tuple(machine.finished)))


def shown_meaning(meaning):
    return (meaning.name or b"{}").decode("latin-1")


@functools.lru_cache(maxsize=None)
def trace():
    return Traced()


def wrong():
    """What is wrong with the job, as messages."""
    found, (_, _, _, written, steps) = trace(), row()
    if found.product.list != written.encode() or found.product.report.steps != int(steps):
        yield f"carried.py: the reference's list or steps of `{ROW}` aren't those that are proved"


# ---- its values, as lines of the notation ----


def record(definition, values):
    """A record's fields by its definition, in their order, with these values."""
    names = re.findall(r"(?m)^  (?:pub |pub\(crate\) )?(\w+) ?:", re.sub(r"(?m)^\s*//.*$", "", "\n".join(definition.lines[1:]).replace("    ", "  ")))
    if len(names) != len(values):
        raise LookupError(f"carried.py: `{definition.id}` has the fields {names}, and {len(values)} values are given")
    return [f"    {name} = {value}" for name, value in zip(names, values)]


def function(meaning):
    """A function of the style, with its body."""
    body = trace().style.bodies[meaning.number]
    if not body:
        return [f"Defined {text(meaning.name)} Empty"]
    words = [f"Then ({word(token)})" for token in body]
    return [f"Defined {text(meaning.name)}"] + [f"        ({it}" for it in words[:-1]] + [f"        ({words[-1]} Empty{')' * len(words)}"]


def word(token):
    meaning = getattr(token, "meaning", None)
    if type(token).__name__ == "String":
        return f"Push (Text {text(token.text)})"
    if type(meaning).__name__ == "BuiltIn":
        return f"Run (Built {variant(meaning.name.decode())})"
    return f"Run (Declared kind.{type(meaning).__name__} {text(meaning.name)})"


def variant(name):
    """The variant of a built-in function: `built_in.Cite` of `cite$`."""
    return "built_in." + "".join(part.capitalize() for part in name.rstrip("$").split(".")).replace("Newline", "NewLine")


def aux_lines(by_id):
    job = trace().aux
    values = [listed(map(text, job.keys)), perhaps(job.star), listed(map(text, job.databases)), truth(job.has_data_line), perhaps(job.style and text(job.style)), truth(job.has_style_line),
              listed(map(text, job.named)), listed(text(said) for _, said in job.log), "end." + job.end.capitalize()]
    return ["job = record {"] + record(by_id[FLOW[1][0]], values) + ["}"]


def style_lines(by_id):
    style = trace().style
    name = next(item.meaning for item in style.items if item.word == b"ITERATE")
    commands = ["Read"] + ["Iterate f"]
    fields = " and ".join(text(field.name) for field in style.fields())
    types = "; ".join(f"{text(name)} is {function(meaning)[0]}" for name, meaning in style.types.items())
    head, *rest = function(name)
    return [f"f = {head}", *rest, "style = record {"] + record(by_id[FLOW[2][0]], [listed(commands), f"λ name. true for {fields}, else false", listed(f"({text(name)}, {text(value)})" for name, value in style.macros.items()),
                                                                                    f"λ name. {types}; of any other name None"]) + ["}"]


def library_lines(by_id):
    library, found = trace().library, []
    for place in library.list:
        kind = function(trace().style.types[place.entry.kind])[0] if place.entry.kind else "None"
        values = ", ".join(f"{text(name)} is {text(value)}" for name, value in sorted(place.entry.values.items()))
        found += [f"{place.key.decode()} = record {{"] + record(by_id["btx_core.Styles.Entry"], [text(place.key), f"Some ({kind})", f"λ name. {values}; of any other name None"]) + ["}"]
    return found + ["library = record {"] + record(by_id[FLOW[3][0]], [listed(place.key.decode() for place in library.list), text(library.preamble), listed(text(said) for _, said in library.messages), "None"]) + ["}"]


def step_rows():
    """The steps of the first entry: the number, the word, the stack from the top, the pending line, and how many lines are ended."""
    found = trace()
    return [(number, found.words[number - 1], ", ".join(text(literal) if isinstance(literal, bytes) else str(literal) for literal in reversed(stack)) or "empty", text(pending), str(len(ended)))
            for number, (stack, pending, ended) in enumerate(found.states[1:9], 1)]


def outcome_lines(by_id):
    machine, report, budget = trace().machine, trace().product.report, trace().options.budget
    return [f"Done s {budget - report.steps}", "s.literals = []", f"s.deepest = {report.deepest}", f"s.lines = {listed(map(text, machine.finished))}", f"s.pending = {text(machine.pending)}"]


def product_lines(by_id):
    made = trace().product
    report = made.report
    shown = record(by_id["btx_machine.report.Report"], [str(report.status), "ended." + report.end.capitalize(), str(report.steps), str(report.deepest), str(report.warnings), str(report.errors)])
    *log, last = made.log.splitlines(keepends=True)
    return ["product = record {"] + record(by_id[FLOW[5][0]], [text(made.list), " ++ ".join(map(text, log)), "record {" + "; ".join(line.strip() for line in shown) + "}"]) + ["}", f"log_of product = product.log_so_far ++ {text(last)}"]


COMPUTED = {"@aux": aux_lines, "@style": style_lines, "@library": library_lines, "@outcome": outcome_lines, "@product": product_lines}


def as_definition(lines, by_id):
    """Lines of values as a definition whose names are links."""
    made = Definition("docs", "row", "carried", chapters.FILE, 1)
    made.lines = lines
    made.links = {case: by_id[NAMED[at]] for case, at in CASES.items()}
    return made


def file_lines():
    return [line for name, content in files().items() for line in [f"{name.decode()}:"] + [f"    {part}" for part in content.decode().splitlines()]]


# ---- the picture ----


def picture_svg(by_id):
    """The types one below another, with the relation that leads from one to the next."""
    parts = []
    for at, (name, relation, said) in enumerate(FLOW):
        top = 8 + at * 66
        if relation:
            parts.append(f'<path d="M78 {top - 28}v22m-4-6l4 6 4-6"/><a href="#{by_id[relation].anchor}"><text x="92" y="{top - 12}">{html.escape(by_id[relation].name)}</text></a>')
        parts.append(f'<rect x="8" y="{top}" width="140" height="36" rx="5"/><a href="#{by_id[name].anchor}"><text class="type" x="78" y="{top + 23}">{by_id[name].name}</text></a>'
                     f'<text class="said" x="160" y="{top + 23}">{said}</text>')
    return f'<svg class="flow" viewBox="0 0 400 {len(FLOW) * 66 - 14}" role="img" aria-label="From the files of a job to its product">{"".join(parts)}</svg>'


def picture_text(by_id):
    lines = []
    for name, relation, said in FLOW:
        lines += [f"        | {by_id[relation].name}", "        v"] if relation else []
        lines.append(f"{by_id[name].name:<12}{said}")
    return "```\n" + "\n".join(lines) + "\n```\n"
