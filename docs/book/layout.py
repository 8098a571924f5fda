"""How the text of a definition is laid out: what only the checker needs is left out, long lines are broken, equations stand one below another."""

import collections
import re

import cases
import modules

WIDE = 88
# How wide a field is at most with its comment beside it, and what stands between the two.
NARROW = 66
BESIDE = "  -- "
# More lines than this are a table.
LONG_TABLE = 12
# Between the elements of a list.
ELEMENTS = r" (?=∷ )"
# Where a long line may be broken, outside parentheses, the loosest sign first; and whether what follows is indented.
TESTS, BOTH = r" (?=\|\| |&& )", r" (?=× )"
JOINTS = [(r"(?<= in) ", False), (r" (?=else )", True), (r" (?=→ )", True), (r" (?=⊎ )", False), (BOTH, False), (TESTS, True), (ELEMENTS, True), (r" (?=\+\+ )", True)]
# Tests in parentheses, with what stands before them.
GROUP = re.compile(r"((?:&& |\|\| )?(?:not )?\()(.*)\)$")
# A line that its author broke after such a sign.
UNFINISHED = re.compile(r"(==|\|\||&&|\+\+|→|\()$")
# What is said of a definition by who needs it.
REACHES = {"believed": "to be believed", "language": "how it is computed", "laws": "only in laws"}
# What comes after the core's sections.
NAMES_ELSEWHERE, WORDS_USED = "What the core names of the chapters after it", "Words of the library that the core uses"
CODES = re.compile(r'\(codes ("(?:[^"\\]|\\.)*")\)|codes (?=")')


def shown(definition):
    """The lines of a definition as they are printed."""
    if definition.kind == "rust":
        return beside(rust_lines(definition.lines))
    if definition.kind in ("trait", "contract", "law"):
        return rust_lines(definition.lines)
    if definition.kind == "job":
        return definition.lines
    lines, is_table = [], definition.kind == "equations" and len(definition.lines) > LONG_TABLE
    for line in by_cases(definition):
        # (the rows of a table stay one line each, and wrap where a page is narrow)
        lines += [line] if is_table and not line.startswith(" ") else broken(line, re.match(r"\s*", line)[0])
    return aligned(lines) if definition.kind == "equations" else lines


def by_cases(definition):
    """The lines of a definition without what only the checker needs, and with cases where an equation has them outermost."""
    found = []
    for equation in equations(definition):
        text = " ".join(line.strip() for line in equation)
        made = None if definition.kind != "equations" or any(line.lstrip().startswith("--") for line in equation) else cases.equation(text, broken)
        found += made or equation
    return found


def equations(definition):
    """The equations of a definition, each with its lines; what is no equation, by itself."""
    found = []
    for line in map(plain, rejoined(definition.lines)):
        if found and line.startswith(" ") and found[-1][0].startswith(definition.name + " ") and not found[-1][0].startswith(definition.name + " : "):
            found[-1].append(line)
        else:
            found.append([line])
    return found


def plain(line):
    """A line without what only the checker needs."""
    line = re.sub(r"^(\s+)pub ", r"\1", line.replace(" : Type 0 where", " where").replace("Unit {0}", "Unit"))
    return CODES.sub(lambda found: found[1] or "", line)


def is_whole(definition):
    """Whether all of a definition's text is printed, but for spaces and ends of lines."""
    printed, source = "\n".join(shown(definition)), "\n".join(by_cases(definition))
    if definition.kind not in ("equations", "record", "data"):
        return True
    return re.sub(r"\s", "", printed) == re.sub(r"\s", "", source) and has_all_words(source, "\n".join(map(plain, rejoined(definition.lines))))


def has_all_words(printed, source):
    """Whether each word of a definition's text is printed as often as it stands there, but for what cases replace."""
    wanted = collections.Counter(re.findall(r"\w+", cases.TYPED.sub(r"(λ \1.", source).replace(cases.WORD.strip(), " ").replace("λ", " ")))
    found = collections.Counter(re.findall(r"\w+", cases.TYPED.sub(r"(λ \1.", printed).replace(cases.WORD.strip(), " ").replace("λ", " ")))
    return all(found[word] >= number for word, number in wanted.items())


def rejoined(lines):
    """Lines of which each that ends within parentheses or after a sign that joins has its rest again, so that it is broken at its own joints."""
    found = []
    for line in lines:
        is_code = found and not found[-1].lstrip().startswith("--") and "record {" not in found[-1]
        if is_code and (UNFINISHED.search(found[-1]) or line.lstrip().startswith(("|| ", "&& ")) and not is_outside(found[-1])):
            found[-1] += " " + line.strip()
        else:
            found.append(line)
    return found


def rust_lines(lines):
    """Rust with its comments as those of definitions; a line of a contract that is too long is broken at its arrows."""
    found = []
    for line in lines:
        pad, text = re.match(r"(\s*)(.*)", line).groups()
        if text.startswith("//") and found and found[-1].startswith(f"{pad}-- "):
            found[-1] += " " + text.lstrip("/ ")
        elif text.startswith("//"):
            found.append(f"{pad}-- {without_brackets(text.lstrip('/ '))}")
        else:
            found += broken(line, pad) if "ensures" in text or "requires" in text or "→" in text else [line]
    return found


def beside(lines):
    """The lines of a type of the program, with a short comment after its field and no longer above it."""
    found = []
    for line in lines:
        above = found[-1].strip() if found else ""
        if above.startswith("-- ") and not line.lstrip().startswith("-- ") and len(line) + len(above) + len(BESIDE) < NARROW:
            found[-1] = line + BESIDE + above[3:]
        else:
            found.append(line)
    return found


def broken(line, pad):
    """A long line, broken at the first sort of joint that it has outside parentheses; a comment stays one line."""
    if len(line) <= WIDE or line.lstrip().startswith("-- "):
        return [line]
    text = line.strip()
    if "record {" in text and text.count("; ") > 1 and re.search(r"\}\)*(;| in)?$", text):
        head, fields = text.split("{", 1)
        return [f"{pad}{head}{{"] + [f"{pad}    {field}" for field in fields_of(fields.strip())]
    head, equals, rest = text.partition(" = ")
    if not pad and equals and is_outside(head) and not text.startswith(("record ", "data ")):
        return [f"{head} ="] + broken("    " + rest, "    ")
    for joint, is_indented in JOINTS:
        places = [found.start() for found in re.finditer(joint, text) if is_outside(text[:found.start()])]
        if places:
            parts = [text[start:end].strip() for start, end in zip([0, *places], [*places, len(text)])]
            if joint == ELEMENTS and all(len(part.split()) < 3 for part in parts):
                return [pad + line for line in filled(parts, WIDE - len(pad))]
            inner = "    " if is_indented and not text.startswith(("if ", "else ", "∷ ")) else ""
            parts = filled(parts, WIDE - len(pad) - len(inner)) if joint == BOTH else parts
            return [pad + parts[0]] + [line for part in parts[1:] for line in group(part, pad + inner)]
    return group(text, pad)


def group(text, pad):
    """A line of tests in parentheses, as many on each line as it has room for."""
    found = GROUP.match(text)
    places = [joint.start() for joint in re.finditer(TESTS, found[2]) if is_outside(found[2][:joint.start()])] if found and is_outside(found[2]) else []
    if len(pad) + len(text) <= WIDE or not places:
        return [pad + text]
    parts = [found[2][start:end].strip() for start, end in zip([0, *places], [*places, len(found[2])])]
    lines = filled(parts, WIDE - len(pad) - len(found[1]) - 1)
    return [pad + found[1] + lines[0]] + [f"{pad}    {line}" for line in lines[1:-1] + [lines[-1] + ")"]]


def fields_of(text):
    """The fields of a record, with what ends it after the last one; a record inside a field stays whole."""
    fields = [""]
    for part in re.split(r"(?<=;) ", text):
        if fields[-1] and is_outside(fields[-1]):
            fields.append(part)
        else:
            fields[-1] += " " * bool(fields[-1]) + part
    return fields


def filled(parts, width):
    """Some parts of a line, such as those of a list of single words, as many on each line as it has room for."""
    lines = parts[:1]
    for part in parts[1:]:
        if len(lines[-1]) + 1 + len(part) <= width:
            lines[-1] += f" {part}"
        else:
            lines.append(part)
    return lines


def is_outside(text):
    """Whether all parentheses and quotes of a text are closed."""
    code = re.sub(r'"(?:[^"\\]|\\.)*"', "", text)
    return '"' not in code and all(code.count(opening) == code.count(closing) for opening, closing in ("()", "{}"))


def aligned(lines):
    """Equations of one line each, with their `=` one below another."""
    parts = [line.split(" = ", 1) for line in lines[1:]]
    if len(parts) < 3 or any(len(part) != 2 or part[0].startswith(" ") for part in parts):
        return lines
    width = max(len(part[0]) for part in parts)
    return lines if width > 46 else lines[:1] + [f"{left.ljust(width)} = {right}" for left, right in parts]


def without_brackets(text):
    """A doc comment without the brackets of its links to items."""
    return re.sub(r"\[(`[^`]+`)\]", r"\1", text)


def prose(lines):
    """The lines of a comment as a sentence."""
    text = without_brackets(" ".join(lines).strip())
    if not text:
        return ""
    first = text[0] if text.startswith("`") else text[0].upper()
    return first + text[1:] + ("" if text[-1] in ".:!?)" else ".")


def caption(section, name, example):
    """What is said of an example: the section's own words, or the comment at its row. (A job has a name alone.)"""
    return prose([section.captions.get(name) or ("" if example.row.kind == "job" else example.caption)])


def words_of(example, known):
    """The words that an example's file has for its rows, each with its comment (`gives`: a function that only changes the stack), but for those that are known
    already, which become known."""
    own = [it for it in example.row.uses if it.comment and (it.file == example.row.file or re.search(r"Worked\w+$|Rows$", it.module))]
    new = [it for it in dict.fromkeys(own) if it.name != example.row.name and it not in known]
    known.update(new)
    return [f"`{head_of(it)}`: {' '.join(it.comment)}" for it in new]


def head_of(definition):
    """What stands on the left of a definition's one equation, with the names of its arguments; or its name."""
    equations = [line for line in definition.lines[1:] if line.startswith(definition.name + " ")]
    return equations[0].partition(" =")[0] if len(equations) == 1 else definition.name


def what_it_is(definition):
    """What a definition is to a reader: what has to be believed, a part of the language, or of a law about it."""
    kinds = {"contract": "the contract of a call", "law": "a law", "trait": "what a file source or an output promises", "rust": "a type of the program"}
    return kinds.get(definition.kind) or REACHES[reach_of(definition)]


def reach_of(definition):
    """What the colour beside a definition says: whether it has to be believed."""
    return "believed" if definition.is_believed else definition.reach


def renamed_in(definition):
    """The names that a definition's file alone has for something, each with what that is: its name, and the type that has it as a case."""
    found = []
    for written, original in sorted(definition.renamed.items()):
        target = definition.links.get(written)
        if getattr(target, "place", None):
            found.append((written, "" if target.name == original else f"the case `{original}` of ", target))
    return found


def bytes_in(definition):
    """The bytes that a definition compares with, each with its character."""
    names = {9: "the tab", 10: "the line feed", 13: "the carriage return", 32: "the space"}
    numbers = [] if definition.kind not in ("equations", "record") else re.findall(r"(?<=== )\d+", "\n".join(definition.lines))
    found = dict.fromkeys(int(number) for number in numbers)
    return [f"{number} is {names.get(number) or f'`{chr(number)}`'}" for number in found if number in names or 32 < number < 127]


def users_of(definition):
    """What uses a definition, in reading order."""
    return sorted((it for it in set(definition.users) if it.place), key=lambda it: it.place)


def uses_elsewhere(definition):
    """What a definition uses of other files, in reading order."""
    return sorted((it for it in definition.uses if it.place and it.module != definition.module), key=lambda it: it.place)


def foot_of(definition, references, text=str):
    """What stands below a definition, part by part: its bytes, the names that its file alone has, what it uses and what uses it. A form of the book has its own
    `references` to definitions, and its own `text` of prose."""
    uses, users, compared = uses_elsewhere(definition), users_of(definition), bytes_in(definition)
    foot = [text(", ".join(compared))] * bool(compared)
    foot += [text(f"`{written}` is {what}") + references([target]) for written, what, target in renamed_in(definition)]
    foot += [modules.sentence(definition.id)] * bool(modules.sentence(definition.id))
    return foot + [f"uses {references(uses, 99)}"] * bool(uses) + [f"used in {references(users)}"] * bool(users)


def is_core(chapter):
    """Whether a chapter is the core: the first one."""
    return chapter.number == 1


def names_elsewhere(chapter):
    """What the definitions of a chapter name of other chapters, in reading order."""
    own = chapter.definitions
    return sorted({it for definition in own for it in definition.uses if it.place and it not in own}, key=lambda it: it.place)


def sentence_of(definition):
    """The first sentence of a definition's comment."""
    return re.split(r"(?<=[a-z`)]\.) (?=[A-Z`])", prose(definition.comment))[0]


def headings_of(chapter, signs):
    """The headings of a chapter: of each its anchor, its title and its number, if it has one."""
    sections = [(f"s{section.number}", section.title, section.number) for section in chapter.sections]
    if not is_core(chapter):
        return sections
    return [(signs.anchor, signs.title, ""), *sections, ("core-names", NAMES_ELSEWHERE, ""), ("core-words", WORDS_USED, "")]
