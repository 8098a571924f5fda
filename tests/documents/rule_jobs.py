"""The examples of docs/RULES.md as jobs: its tables and blocks as they stand there, and those of its sentences.

The tables are read: of functions, of names and formats, of lines, of bodies, of errors in styles, of lines of `.aux` files. A sentence's example stands in SENTENCES with
the words that the rules have for it, so that neither can change alone. rules_examples.py runs these jobs by the program, and the book of definitions has a page's module run
them (docs/book/runs.py). What a style that isn't direct is, no run shows: that table is left out."""

import pathlib
import re
from typing import NamedTuple

ROOT = pathlib.Path(__file__).resolve().parents[2]
RULES = (ROOT / "docs/RULES.md").read_text(encoding="utf8")
AUX, BIB = "\\citation{k}\n\\bibdata{d}\n\\bibstyle{s}\n", "@misc{k, title = {T}}\n"
# A style around a body, for the entry `k`. `i` is an integer and `t` a string.
STYLE = "ENTRY {title note}{}{}\nINTEGERS {i}\nSTRINGS {t}\n\nFUNCTION {misc} {skip$}\n\nREAD\n\n"
# A style that lists the keys of entries.
KEYS = "ENTRY {title booktitle}{}{}\nFUNCTION {misc} {skip$}\nFUNCTION {f} {cite$ write$ newline$}\n\nREAD\n\nITERATE {f}\n"
# What stands around an example of an error in a style, by the example's beginning.
FRONTS = ((r'#|"|\{"', STYLE + "FUNCTION {f} {", "}\n"), ("EXECUTE", "ENTRY {title}{}{}\nREAD\n", ""), ("READ READ", "ENTRY {title}{}{}\n", ""), ("", "", ""))
COUNTS = {"a": 1, "one": 1, "two": 2, "three": 3, "five": 5}
# Examples in sentences: the words of the rules, the body that shows them, and the literals that it leaves, the lowest first.
SENTENCES = (
    ("`a.}` stays, `a)` becomes `a).`, `}` becomes `}.`", '"a.}" add.period$ "a)" add.period$ "}" add.period$ "" add.period$', ['"a.}"', '"a)."', '"}."', '""']),
    ("Of `abcdef`, start -2 and length 3 give `cde`, and with length 10 `abcde`", '"abcdef" #-2 #3 substring$ "abcdef" #-2 #10 substring$', ['"cde"', '"abcde"']),
    ('`a{b}` has 2, `{\\"O}zg{ab}c` has 6', 'TEXT{a{b}} text.length$ TEXT{{\\"O}zg{ab}c} text.length$', ["2", "6"]),
    ('The first 4 characters of `{\\"O}zg{ab}c` are `{\\"O}zg{a}`', 'TEXT{{\\"O}zg{ab}c} #4 text.prefix$', ['"{\\"O}zg{a}"']),
    ('`{\\"o}sterreich--{\\oe}uvre~1` becomes `osterreich  oeuvre 1`', 'TEXT{{\\"o}sterreich--{\\oe}uvre~1} purify$', ['"osterreich  oeuvre 1"']),
    ("`The {TeX}book: A {\\AE}ON` becomes `The {TeX}book: A {\\ae}on`", '"The {TeX}book: A {\\AE}ON" "t" change.case$', ['"The {TeX}book: A {\\ae}on"']),
    ("Under `u`, `{\\ss}a` becomes `{SS}A`", '"{\\ss}a" "u" change.case$', ['"{SS}A"']),
    ("`AB` has 1458, `{B}` 1708, `{\\'e}` 444 and `{\\oe}` 778", '"AB" width$ "{B}" width$ "{\\\'e}" width$ "{\\oe}" width$', ["1458", "1708", "444", "778"]),
    ("`A and {B and C} AND D` holds three names. `a and and b` holds three as well", '"A and {B and C} AND D" num.names$ "a and and b" num.names$', ["3", "3"]),
    ("`and b` holds one, and ` and ` two blank ones", '"and b" num.names$ " and " num.names$', ["1", "2"]),
    ("So `{\\'e}mile` and `{\\ae}gir` are von, `{\\AE}gir`, `{de la}` and `12` are not",
     " ".join(f'"A {it} Z" #1 "{{vv}}" format.name$' for it in ("{\\'e}mile", "{\\ae}gir", "{\\AE}gir", "{de la}", "12")), ['"{\\\'e}mile"', '"{\\ae}gir"', '""', '""', '""']),
    ("`de La Fontaine, Jean` has the von `de` and the Last `La Fontaine`; `De La Fontaine, Jean` has no von",
     '"de La Fontaine, Jean" #1 "{vv}|{ll{ }}" format.name$ "De La Fontaine, Jean" #1 "{vv}|" format.name$', ['"de|La Fontaine"', '"|"']),
    ("In `Ford, Jr., Henry` the Jr is `Jr.`", '"Ford, Jr., Henry" #1 "{jj}" format.name$', ['"Jr."']),
    ("So `Vall{\\'e}e` gives `V`, `{\\'E}mile` gives `{\\'E}` and `{Ren}` gives `R`",
     " ".join(f'"{it}" #1 "{{l{{}}}}" format.name$' for it in ("Vall{\\'e}e", "{\\'E}mile", "{Ren}")), ['"V"', '"{\\\'E}"', '"R"']),
    ("by `{ f.}` the first names `A B C` give ` A. B.~C.`", '"A B C Z" #1 "{ f.}" format.name$', ['" A. B.~C."']),
    ("With `{f.}` the first names `Charles Louis Xavier Joseph` give `C.~L. X.~J.`, and with `{, f.}` they give `, C. L. X.~J.`",
     '"Charles Louis Xavier Joseph Z" #1 "{f.}" format.name$ "Charles Louis Xavier Joseph Z" #1 "{, f.}" format.name$', ['"C.~L. X.~J."', '", C. L. X.~J."']),
    ("By `{ff~}{ll}`, `Bob Smith` gives `Bob Smith` and `Li Wu` gives `Li~Wu`", '"Bob Smith" #1 "{ff~}{ll}" format.name$ "Li Wu" #1 "{ff~}{ll}" format.name$', ['"Bob Smith"', '"Li~Wu"']),
)
# Values of databases: the words of the rules, an item before the entry, the value, and the field's text.
VALUES = (
    ('Where the string `s` is `x`, the value `s # " y " # {  z}` is `x y z`', "@string{s = {x}}", 's # " y " # {  z}', "x y z"),
    ('as a field, `"a " # {  b }` is `a b`', "", '"a " # {  b }', "a b"),
    ("a group, whose braces match | `{The {\\TeX} book}`", "", "{The {\\TeX} book}", "The {\\TeX} book"),
    ('a text in quotes. A `"` inside braces doesn\'t end it | `"M{\\"u}ller"`', "", '"M{\\"u}ller"', 'M{\\"u}ller'),
    ("digits | `1984`", "", "1984", "1984"),
)



class Example(NamedTuple):
    """A job that shows an example of the rules: the heading above it, its code as the rules have it, the files, and the text of one of them that is the example's own,
    between what stands before it and after it; then what has to come of the job, by the names of `amiss`."""
    heading: str
    code: str
    file: str
    before: str
    text: str
    after: str
    wanted: dict
    files: dict
    options: dict
    what: str

    @property
    def all_files(self):
        """The files of the job by their names; one of `files` that is None isn't there."""
        found = {"job.aux": AUX, "d.bib": BIB, "e.bib": "", "s.bst": "", **self.files, self.file: self.before + self.text + self.after}
        return {name: text for name, text in found.items() if text is not None}


def example(heading, code, text, wanted, file="s.bst", before="", after="", files=None, options=None, what=None):
    return Example(heading, code, file, before, text, after, wanted, files or {}, options or {}, what or code)


def body(heading, code, text, wanted, command="ITERATE", **given):
    """An example that is a body of a style's function."""
    return example(heading, code, text, wanted, before=f"{STYLE}FUNCTION {{f}} {{", after=f"}}\n\n{command} {{f}}\n", **given)


# ---- what comes of a job ----


def literals_in(log):
    """The literals that the command left on the stack, the lowest first."""
    lines = log.split("\n")[:-1]
    found = [number for number, line in enumerate(lines) if line.startswith("Error--The literal stack isn't empty")]
    return lines[found[0] + 1:-1][::-1] if found else []


def errors_in(log):
    return [line for line in log.split("\n") if line.startswith("Error--") and "The literal stack isn't empty" not in line]


def amiss(wanted, written, log):
    """What of a list and a log isn't as it has to be: the names of `wanted`. docs/book/runs.js has the same in JavaScript."""
    errors = errors_in(log)
    is_so = {
        "literals": lambda it: literals_in(log) == it,
        # (a tie for a space)
        "words": lambda it: [text.replace("~", " ") for text in literals_in(log)] == it,
        "errors": lambda it: len(errors) == it,
        "has": lambda it: all(any(text in line for line in errors) for text in it),
        "in order": lambda it: len(errors) == len(it) and all(text in line for text, line in zip(it, errors)),
        "matches": lambda it: any(re.search(text, log) for text in it),
        "logs": lambda it: it in log,
        "lacks": lambda it: it not in log,
        "begins": lambda it: log.startswith(it),
        "said": lambda it: [line for line in log.split("\n") if re.match("Error|Warning", line)] == it,
        "messages": lambda it: len([line for line in log.split("\n") if re.match("Error|Warning", line)]) == it,
        # (the ending of a file, and the lines of such files that messages name, in their order)
        "lines": lambda it: [int(line) for line in re.findall(rf"(?m)--line (\d+) of file .*\.{it[0]}$", log)] == it[1],
        "list": lambda it: written == it,
    }
    return [name for name, it in wanted.items() if not is_so[name](it)]


# ---- the rules' text ----


def pushed(text):
    """The words of a style that push a text, which may have quotes."""
    first, *others = (f'"{part}"' for part in text.split('"'))
    return first + "".join(f" quote$ * {part} *" for part in others)


def section(heading):
    """The text below a heading, up to the next one."""
    return re.split(r"\n#+ ", RULES.split(f"# {heading}\n", 1)[1], maxsplit=1)[0]


def table(heading, head):
    """The rows of the table below a heading whose first column has this head."""
    lines = section(heading).split("\n")
    at = next(number for number, line in enumerate(lines) if line.startswith(f"| {head} |"))
    rows = []
    for line in lines[at + 2:]:
        if not line.startswith("|"):
            return rows
        rows.append([cell.strip().replace("\\|", "|") for cell in re.split(r"(?<!\\)\|", line.strip()[1:-1])])
    return rows


def blocks(heading):
    """The blocks of code below a heading."""
    found = re.findall(r"(?m)(?:^    .*\n)(?:(?:    .*)?\n(?=    |\n    )|    .*\n)*", section(heading) + "\n")
    return ["\n".join(line[4:] for line in block.rstrip("\n").split("\n")) + "\n" for block in found]


def code(cell):
    return re.findall(r"`([^`]+)`", cell)


# ---- tables ----


def of_functions():
    """The example of each function: what it leaves, or that it runs without an error."""
    for row in table("Functions of styles", "function"):
        text, gives = code(row[-1])[0], row[-1].split(" gives ")[1:]
        wanted = [f'"{it[1:-1]}"' if it.startswith("`") else it for it in re.findall(r"`[^`]*`|\S+", gives[0])] if gives else None
        yield body("Functions of styles", text, text, {"errors": 0, **({"literals": wanted} if gives else {"logs": "Ended: finished"})}, what=row[0])


def of_names():
    """The table of the parts of names, and that of formats."""
    for name, *parts in table("Names", "name"):
        words = " ".join(f'{pushed(code(name)[0])} #1 "{{{letter * 2}}}" format.name$' for letter in "fvl")
        yield body("Names", code(name)[0], words, {"words": [f'"{part}"' for part in parts], "errors": 0})
    for cells in table("Formats", "name"):
        name, form, wanted = (code(cell)[0] for cell in cells)
        yield body("Formats", form, f"{pushed(name)} #1 {pushed(form)} format.name$", {"literals": [f'"{wanted}"'], "errors": 0}, what=f"{name} by {form}")


def described(words):
    """The text that a cell of the table of lines describes."""
    text = ""
    for count, letter, spaces, literal in re.findall(r"(\d+) letters `(.)`|(a|one|two|three|five) spaces?|`([^`]*)`", words):
        text += letter * int(count) if count else " " * COUNTS[spaces] if spaces else literal
    return text


def of_lines():
    """The table of lines, with a line length of 20."""
    for line, written in table("Lines of the output", "the logical line"):
        text, said = described(line), written.split(":")[0]
        wanted = {"nothing": "", "an empty line": "\n", "the same line": f"{text}\n"}.get(said) if "`" not in said else None
        wanted = "".join(f"{described(part)}\n" for part in said.split(", then ")) if wanted is None else wanted
        yield body("Lines of the output", re.sub("`", "", line), f'"{text}" write$ newline$', {"list": wanted}, options={"line": 20}, what=line)


def of_bodies():
    """The table of what is skipped after a literal: the messages, and the literals that are left."""
    for text, tokens, messages in table("Styles", "body"):
        is_whole = re.fullmatch(r'`(#\d+|"\w+"| )+`', tokens)
        left = {"literals": [it.lstrip("#") for it in tokens.strip("`").split()]} if is_whole else {}
        yield body("Styles", code(text)[0], code(text)[0], {"has": [it.strip() for it in code(messages)], **left}, command="EXECUTE")


def of_errors():
    """The examples of the errors of a style: each gives its error."""
    for texts, _, cell, _ in table("Styles", "text of the error"):
        for text in code(cell):
            before, after = next((before, after) for begins, before, after in FRONTS if re.match(begins, text))
            wanted = [re.escape(it).replace("NAME", ".*") for it in code(texts)]
            yield example("Styles", text, text, {"matches": wanted}, before=before, after=after, what=f"`{text}`, of {texts}")


def of_aux():
    """The lines of `.aux` files with their messages, and the example above them."""
    for lines, messages, _ in table("The log", "lines"):
        given = [] if lines == "none" else code(lines.split(" (")[0].split(", where")[0])
        yield example("The log", code(lines)[0] if given else "none", "".join(f"{line}\n" for line in given), {"has": code(messages)}, file="job.aux", what=lines)
    job, log = blocks("The log")[:2]
    yield example("The log", job, job, {"begins": log}, file="job.aux", files={"chapter.aux": "\\citation{c, d}\n"})


# ---- blocks ----


def of_styles():
    """A style, and a fault with what it skips."""
    style, faulty = blocks("Styles")[:2]
    yield example("Styles", style, style, {"list": "T\n", "errors": 0, "logs": "Ended: finished"})
    wanted = ["nosuch is an unknown function--line 6", 'No " to end string literal--line 8', "g is an unknown function", "h is an unknown function"]
    yield example("Styles", faulty, faulty, {"in order": wanted, "list": "a\n"}, before="ENTRY {title}{}{}\n\nREAD\n\n%%\n", after="\nEXECUTE {f}\n\nEXECUTE {g}\n\nEXECUTE {h}\n")


def of_databases():
    """Which entries are stored, the list, and what READ logs."""
    stored = blocks("Which entries are stored")[0]
    for text, wanted in (stored, "lacks"), ("".join(reversed(stored.splitlines(True))), "logs"):
        yield example("Which entries are stored", stored, text, {wanted: "bad cross reference"}, file="d.bib", files={"s.bst": KEYS, "job.aux": AUX.replace("{k}", "{talk}")})
    block = blocks("The list")[0]
    aux, bib, keys, log = (re.search(pattern, block)[1] for pattern in (r"(\\citation\S+)", r"(?m)^(@misc.*?)  ", r"the list: (.*)", r"the log: (.*)"))
    files = {"s.bst": KEYS, "job.aux": f"{aux}\n\\bibdata{{d}}\n\\bibstyle{{s}}\n"}
    yield example("The list", block, bib, {"list": keys.replace(", ", "\n") + "\n", "logs": log}, file="d.bib", files=files)
    bib, log = blocks("What READ logs, and in which order")
    yield example("What READ logs, and in which order", bib, bib, {"said": log.splitlines()}, file="d.bib", files={"s.bst": KEYS})


# ---- sentences ----


def heading_of(words):
    """The heading above some words of the rules; None where the rules don't say them."""
    joined = " ".join(words.split())
    headings = re.findall(r"(?m)^#+ (.*)$", RULES)
    return next((it for it in headings if joined in " ".join(section(it).split())), None)


def of_sentences():
    for words, text, wanted in SENTENCES:
        shown = re.sub(r"TEXT\{(.*?)\}(?= [a-z#])", lambda found: pushed(found[1]), text)
        yield body(heading_of(words), code(words)[0], shown, {"literals": wanted, "errors": 0}, what=words)
    for words, before, value, wanted in VALUES:
        style = f"{STYLE}FUNCTION {{f}} {{title}}\n\nITERATE {{f}}\n"
        yield example(heading_of(words), value, value, {"literals": [f'"{wanted}"'], "errors": 0}, file="d.bib", before=f"{before}\n@misc{{k, title = ", after="}\n",
                      files={"s.bst": style}, what=words)


def all_examples():
    """Every example of the rules, in the order of the kinds above."""
    for kind in (of_functions, of_names, of_lines, of_bodies, of_errors, of_aux, of_styles, of_databases, of_sentences):
        yield from kind()
