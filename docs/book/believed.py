"""What must not stand among the definitions that have to be believed: a program.

A definition that refers to itself does so along a list or a tree, whose parts get smaller. One that counts down a number is refused, unless the number is one of the
subject; so is every definition that computes where the relation only says what holds: bounds on the number of turns, numbers for functions, strings, fields and
entries, counters of bytes that are still to be skipped."""

import re

import reach

# How many lines the relation may have with all that it is made of, and how many of them its heart: what a run is, styles, the built-in functions, what a style
# means, its commands; entries, the list and cross-references; the lines of the list. Neither counts comments, blank lines, `use` lines and types of the program.
MOST_LINES = 2_000
MOST_OF_THE_HEART = 700
HEART = {"btx_core.Product", "btx_core.Styles", "btx_core.Functions", "btx_core.Meanings", "btx_core.Runs", "btx_core.Databases", "btx_core.Lists", "btx_core.Lines",
         "btx_machine.Product", "btx_machine.Reports", "btx_machine.Saying", "btx_out.Breaking", "btx_out.Places", "btx_step.Arithmetic", "btx_step.Orders"}

# Numbers of the subject, down which a definition may go: the definition, and what the number is of.
NUMBERS = {
    "btx_bib.Grammar.Spelling.ValueOf": "the parts of a value that `#` joins",
    "btx_strings.Lengths.take_characters": "the characters of a string, which `text.prefix$` counts",
}
# What the other clauses of `run` are stated with and no relation may name, each with its reason.
REFUSED = {
    "btx_bst.callee.Callee-type": "it numbers functions, fields and variables",
    "btx_bst.token.Token-type": "it numbers functions",
    "btx_bst.Style.Style": "its functions, strings, fields and variables have numbers",
    "btx_bib.Library.Library": "the values of an entry stand by the numbers of fields",
    "btx_step.Stores.Store": "variables have numbers",
    "btx_bst.Turns.turns_within": "it bounds the number of turns",
    "btx_bst.StyleText.style_from": "it reads a style turn by turn",
    "btx_bib.Grammar.Items.events_within": "it bounds the number of turns",
    "btx_bib.Grammar.Values.value_within": "it bounds the number of turns",
    "btx_aux.Events.expanded": "it bounds the number of open files by an argument that gets smaller",
    "btx_machine.MeaningBySteps.meaning": "it bounds the number of turns",
    "btx_out.Breaking.cut_within": "it bounds the number of turns",
    "btx_text.Elements.elements_from": "it counts bytes that are still to be skipped",
    "btx_strings.Controls.glyphs_from": "it counts bytes that are still to be skipped",
    "btx_names.Tokens.tokens_from": "it counts bytes that are still to be skipped",
    "btx_names.Formats.items_from": "it counts bytes that are still to be skipped",
    "btx_step.Sorting.sorted_by": "it sorts",
}
# An equation's head: the text before its `=`.
PARTS = re.compile(r"\((\w+)\b[^()]*\)|(?<!\w)([A-Z]\w*)(?!\w)")


def wrong_in(found, by_id):
    """What is wrong among the definitions `found` that have to be believed: pairs of one of them and what is said of it. `by_id` has all definitions by their names."""
    trees = constructors(found)
    for it in found:
        if it.id in REFUSED:
            yield it, f"it has to be believed, and {REFUSED[it.id]}"
        if it.kind == "equations" and refers_to_itself(it):
            said = recursion(it, trees)
            if said:
                yield it, said
    for name in list(NUMBERS) + list(REFUSED):
        if name not in by_id:
            yield None, f"believed.py: there is no definition `{name}`"


def definitions_of(relation):
    """Of all that the relation is made of, what `specs/` has; the rest are types of the program."""
    return [it for it in relation if it.kind != "rust"]


def heart_of(relation):
    """What of the relation somebody who knows BibTeX reads first."""
    return [it for it in definitions_of(relation) if it.module in HEART]


def sizes_wrong(relation):
    """What is larger than it may be."""
    for what, found, most in (("the relation", definitions_of(relation), MOST_LINES), ("its heart", heart_of(relation), MOST_OF_THE_HEART)):
        lines = reach.lines_in(found)
        if lines > most:
            yield f"{what} has {lines:,} lines, and {most:,} are allowed (believed.py)"


def constructors(found):
    """The names of the cases of all types that are given by cases."""
    names = set()
    for it in found:
        if it.kind == "data":
            names |= {match[1] for match in re.finditer(r"(?m)^\s+(?:pub )?([A-Z]\w*)\b", "\n".join(it.lines[1:]))}
    return names


def refers_to_itself(it):
    """Whether a definition is made of itself, also by way of others."""
    bodies = "\n".join(body for _, body in equations(it))
    if re.search(rf"(?<![\w.'-]){re.escape(it.name)}(?![\w'-])", re.sub(r'"(?:[^"\\]|\\.)*"', "", bodies)):
        return True
    seen, work = set(), [used for used in it.uses if used is not it]
    while work:
        now = work.pop()
        if now is it:
            return True
        if now not in seen:
            seen.add(now)
            work += now.uses
    return False


def equations(it):
    """The equations of a definition: each as its head and its body."""
    lines, found = [line.split("--")[0].rstrip() for line in it.lines[1:]], []
    for line in lines:
        head = re.match(rf"\s*({re.escape(it.name)}(?: [^=]*?)?) =(?: (.*))?$", line)
        if head:
            found.append([head[1], head[2] or ""])
        elif found:
            found[-1][1] += "\n" + line
    return found


def recursion(it, trees):
    """What is wrong with how a definition refers to itself, if anything is."""
    for head, body in equations(it):
        if not re.search(rf"(?<![\w.'-]){re.escape(it.name)}(?![\w'-])", body):
            continue
        cases = {name for match in PARTS.finditer(head) for name in match.groups() if name}
        if "suc" in cases or "zero" in re.findall(r"\w+", head):
            if it.id not in NUMBERS:
                return f"it goes down a number: `{head}`; a number of the subject stands in believed.py with what it counts"
        elif "∷" not in head and not cases & trees:
            return f"it refers to itself along no list and no tree: `{head}`"
    return None
