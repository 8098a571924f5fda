"""Sees that the front end's explanations say what docs/RULES.md says, find the places that the program means, and lose nothing that the
script said which they replace.

    python3 explanations.py rules READER                  each message of the tables of RULES is explained in their words
    python3 explanations.py places READER JOBS            each error of a database has its mark where the reference means it
    python3 explanations.py script PROGRAM READER JOBS SCRIPT
                                                          the same as the script over worked and random jobs, but for what is meant

    python3 explanations.py original PROGRAM READER JOBS  where the original has an error, it shows the same halves of the line
    python3 explanations.py speed READER                  logs of a million messages are read within seconds

READER is the front end's example `read_log` (`cargo build --release --example read_log` in front/), PROGRAM the proved program, and SCRIPT the
script in Python, contrib/bibtex-explain in the repository's history. What is wrong is printed; the last line is 'N passed, M failed', and the exit
status is 0 only where M is 0."""

import collections
import importlib.machinery
import importlib.util
import pathlib
import random
import re
import subprocess
import sys
import tempfile

ROOT = pathlib.Path(__file__).resolve().parents[2]
RULES = ROOT / "docs/RULES.md"
sys.dont_write_bytecode = True
sys.path.insert(0, str(ROOT / "tests/reference"))

# The sections of RULES whose tables say what to do, each with the line of a log in which its messages stand.
SECTIONS = {
    "The log": "Error--%s--line 1 of file job.aux\n",
    "Messages of a run": "Error--%s\n",
    "Styles": "Error--%s--line 1 of file s.bst\n",
    "Messages of a style's execution": "Error--%s while executing write$\n",
    "What can be wrong": "Error--%s--line 1 of file d.bib\n",
    "Parents": "Warning--%s\n",
}
# A job with a database, beside which a missing entry is explained: of one without any, the advice is to name one.
FOUND = "The top-level auxiliary file: job.aux\nThe style file: s.bst\nDatabase file #1: d.bib\n"
FILES = (("job.aux", "\\citation{k}\n\\bibdata{d}\n\\bibstyle{s}\n"), ("d.bib", "@misc{another}\n"))
# Messages of `Parents` that have a line.
WITH_LINE = re.compile(r"I'm ignoring|entry type|string name")


def explained(reader, folder, job, *words):
    """What the reader prints of a job's log."""
    done = subprocess.run([reader, "explain", *words, folder, job], capture_output=True, timeout=60)
    return done.stdout.decode("utf-8") if done.returncode == 0 else f"status {done.returncode}: {done.stderr.decode('utf-8', 'replace')}"


def explained_log(reader, log, files=()):
    """What it prints of a log, beside some files."""
    with tempfile.TemporaryDirectory() as folder:
        for name, text in (("job.blg", log), *files):
            (pathlib.Path(folder) / name).write_text(text, encoding="utf-8")
        return explained(reader, folder, "job")


# ---- what RULES says ----


def cells(line):
    return [cell.strip() for cell in line.strip().strip("|").split("|")]


def advised_rows():
    """For each row of a table that has a column 'what to do': its section, its messages, and what to do."""
    section, head = None, None
    for line in RULES.read_text(encoding="utf-8").split("\n"):
        if line.startswith("#"):
            section = line.lstrip("# ")
        if not line.startswith("|"):
            head = None
        elif head is None:
            head = cells(line)
        elif head[-1].startswith("what to do") and not line.startswith("|-"):
            row = cells(line)
            cell = row[1] if head[0] == "lines" else row[0]
            # (what stands in parentheses after a message is no message)
            yield section, re.findall(r"`([^`]+)`", re.split(r"(?<=`) \(", cell)[0]), row[-1]


def log_of(section, message):
    if message.startswith("Ended: "):
        return message + ", warnings 0, errors 0, steps 0\n"
    if message.startswith("I found no "):
        return SECTIONS["Messages of a run"] % message
    if section == "Parents" and WITH_LINE.match(message):
        return f"Warning--{message}--line 1 of file d.bib\n"
    if message.startswith("string of "):
        return f"Warning--{message} while executing := for entry k\n"
    return SECTIONS[section] % message


def rules(reader):
    """A complaint, or None, for each message of the tables."""
    sections = set()
    for section, messages, advice in advised_rows():
        sections.add(section)
        for message in messages:
            found, files = (FOUND, FILES) if message.startswith("I didn't find a database entry") else ("", ())
            said = re.findall(r"^    what to do: (.*)$", explained_log(reader, found + log_of(section, message), files), re.MULTILINE)
            yield None if said == [advice] else f"{section}: of '{message}' RULES says '{advice}', and the front end {said}"
    yield None if sections == set(SECTIONS) else f"tables of RULES weren't found: {set(SECTIONS) - sections}"


# ---- the places that are meant ----

PIECES = ["@misc", "@string", "@preamble", "@comment", "@", "{", "{", "{", "}", "}", "(", ")", ",", ",", "=", "#", '"', '"', " ", "\n", "\n", "k", "j",
          "title", "note", "crossref", "12", "a{b}c", "{x}", '"y"', "s", "@misc{k,title={A}}\n", "@misc{j,\n note = s}\n", "= {T},", "é"]
STYLE = b"ENTRY {title note}{}{} FUNCTION {misc}{} READ\n"
# Where the reference has the place of a message, as the byte of its file.
PLACED = re.compile(rb"^((Error|Warning)--.*)\x00(\d+)\x00(--line (\d+) of file (.*))$")


def made_database(chance):
    return "".join(chance.choice(PIECES) for _ in range(chance.randrange(60))) + chance.choice(["", "\n", "}", "\n\n"])


def placed_jobs(jobs):
    """Jobs whose databases have many errors: files and options."""
    import random_jobs
    chance = random.Random(1)
    for _ in range(jobs):
        files = {b"job.aux": b"\\citation{*}\n\\bibdata{d}\n\\bibstyle{s}\n", b"s.bst": STYLE}
        yield {**files, b"d.bib": made_database(chance).encode()}, {}
    yield from random_jobs.worked_jobs()
    yield from random_jobs.random_jobs(jobs, 11)


def log_with_places(files, options):
    """The log of the reference; behind the text of each message about a database stands its place between two bytes 0."""
    import databases
    import product
    old = databases.Reader.where
    databases.Reader.where = lambda reader, place: b"\0%d\0" % place + old(reader, place)
    try:
        return product.run(files, b"job", product.Options(**options)).log
    finally:
        databases.Reader.where = old


def marked(lines, message):
    """How many characters of the line stand before the mark of this message, which is the first one; None where it has none. Its lines go."""
    while lines and lines.pop(0) != message:
        pass
    if len(lines) < 2 or not MARK.match(lines[1]):
        return None
    place = re.match(r"    [^ ]*:\d+: ", lines[0])
    return None if lines[0][place.end():].startswith("..") else len(lines[1]) - 1 - place.end()


def shown(text):
    """A text of a file as it is shown."""
    return re.sub(r"[\x00-\x08\x0a-\x1f\x7f-\x9f\ufffd]", "?", text.decode("utf-8", "replace"))


def complaints_of_marks(reader, files, options):
    """The errors of databases whose mark isn't at the place of the reference; and how many errors there were."""
    log, errors, wrong = log_with_places(files, options), 0, []
    bare = re.sub(rb"\x00\d+\x00(--line \d+ of file )", rb"\1", log)
    with tempfile.TemporaryDirectory() as folder:
        for name, text in (*files.items(), (b"job.blg", bare)):
            (pathlib.Path(folder) / name.decode()).write_bytes(text)
        lines = explained(reader, folder, "job").split("\n")
    for line in log.split(b"\n"):
        found = PLACED.match(line)
        if not found or found[2] == b"Warning":
            continue
        errors += 1
        text, place, number = files[found[6]], int(found[3]), int(found[5])
        before = text[sum(len(line) + 1 for line in text.split(b"\n")[:number - 1]):place]
        wanted, said = len(shown(before.split(b"\n")[0])), marked(lines, shown(found[1] + found[4]))
        if wanted < 100 and said != wanted:
            wrong.append(f"{line}: the mark is at {said}, not at {wanted}")
    return errors, wrong


def places(reader, jobs):
    """A complaint, or None, for each job."""
    errors = 0
    for files, options in placed_jobs(jobs):
        number, wrong = complaints_of_marks(reader, files, options)
        errors += number
        yield "\n".join([*wrong, f"in {files[b'd.bib']!r}"]) if wrong else None
    print(f"{errors} errors have a place")
    yield None if errors >= jobs else f"only {errors} errors were looked for"


def run(program, folder, *words):
    subprocess.run([program, "--dir", folder, *words, "job"], stdin=subprocess.DEVNULL, stdout=subprocess.DEVNULL, timeout=60)


# ---- the script ----

MARK = re.compile(r"^ *\^$")
NO_COMMAND = re.compile(r"Error--(I was expecting a command|.* isn't a command)--line ")
IN_ITEM = re.compile(r"^(in|the first is) @")
OF_DATABASE = re.compile(r"Error--(I was expecting .*|Unbalanced braces|Illegal end of database file|Repeated entry)--line \d+ of file .*\.bib$")
SOURCE = re.compile(r"^[^ ]*:\d+: ")


def load_script(path):
    loader = importlib.machinery.SourceFileLoader("explain", path)
    script = importlib.util.module_from_spec(importlib.util.spec_from_loader("explain", loader))
    loader.exec_module(script)
    return script


def by_script(script, folder):
    """What the script prints of a log: each line of the log with those that follow it."""
    log = (pathlib.Path(folder) / "job.blg").read_bytes().decode("latin1")
    lines = log.split("\n")[:-1]
    job = script.Job(folder, lines)
    groups = []
    for line in lines:
        message = script.read_message(line)
        more = [text.encode("utf-8", "replace").decode("utf-8") for text in script.explanation(job, message)] if message else []
        groups.append((script.plain(line.encode("latin1")).replace("\ufffd", "?"), [text.replace("\ufffd", "?") for text in more]))
    return groups


def by_reader(reader, folder):
    groups = []
    for line in explained(reader, folder, "job").split("\n")[:-1]:
        if line.startswith("    ") and groups:
            groups[-1][1].append(line[4:])
        else:
            groups.append((line, []))
    return groups


MEANT = [
    (MARK, "a mark"),
    (re.compile(r"`[^`]*` takes "), "what the function takes"),
    (re.compile(r"\(\d+ more errors? follow"), "errors that follow from others are counted"),
    (re.compile(r"is it [A-Z]+\?$"), "the command that is meant"),
    (re.compile(r"\(\d+ more lines stand in the \.blg\)"), "lines of a long stack are counted"),
    (re.compile(r"what to do: (a `}` is missing|there is a `}` too many) in "), "a brace is named where the function began"),
]
BEGINS = re.compile(r"in (.*), which begins at (.*):(\d+)")


def kind_of_advice(line):
    """Advice without the names in it."""
    return re.sub(r"`[^`]*`", "``", line) if line.startswith("what to do: ") else None


def is_nearer(old, new):
    """Whether two lines name the item or the command around a message, the new one one that begins later in the file."""
    left, right = BEGINS.fullmatch(old), BEGINS.fullmatch(new)
    return bool(left and right) and left[2] == right[2] and int(left[3]) <= int(right[3])


def kinds_of_difference(message, old, new, advised):
    """The kinds of what is meant of the differences between two explanations of one message, and the lines that aren't."""
    kinds = collections.Counter()
    rest = [line for line in old if line not in new]
    more = [line for line in new if line not in old]
    for line in list(more):
        kind = next((kind for expression, kind in MEANT if expression.match(line)), None)
        if kind:
            kinds[kind] += 1
            more.remove(line)
    if more and rest and SOURCE.match(more[0]) and SOURCE.match(rest[0]) and any(map(MARK.match, new)):
        kinds["a long line that is cut round the mark"] += 1
        del more[0], rest[0]
    if more and rest and is_nearer(rest[0], more[0]):
        kinds["the command or the item that is nearer"] += 1
        del more[0], rest[0]
    if NO_COMMAND.match(message) and rest and BEGINS.fullmatch(rest[0]):
        kinds["no command is named round what is none"] += 1
        del rest[0]
    for line in list(rest):
        if kind_of_advice(line) in advised:
            kinds["advice once a kind"] += 1
            rest.remove(line)
    if OF_DATABASE.match(message) and any(map(MARK.match, new)) and all(MARK.match(line) or IN_ITEM.match(line) for line in (*rest, *more)):
        # (the check of places sees that the front end's are right)
        kinds["the place of each of several errors in a line"] += bool(rest)
        rest, more = [], []
    if kinds["a brace is named where the function began"] or "a brace" in advised:
        advised.add("a brace")
        left = [line for line in rest if not BEGINS.fullmatch(line) and not kind_of_advice(line)]
        kinds["of a brace no more is said"] += len(rest) - len(left)
        rest = left
    advised.update(filter(None, map(kind_of_advice, new)))
    return kinds, rest, more


def compare(old, new):
    """The kinds of differences of two explained logs, and what isn't meant."""
    kinds, wrong, advised = collections.Counter(), [], set()
    last = new.pop() if new and new[-1][0].startswith("(There w") else None
    assert last is None or not last[1]
    for line, said in old:
        if (not new or new[0][0] != line) and not said:
            kinds["a line of a long stack"] += 1
            continue
        if not new or new[0][0] != line:
            kinds["an error that follows from another"] += 1
            if not re.search(r"( is an unknown function|^Error--Illegal end of style file)--line \d+ of file .*\.bst$", line):
                wrong.append(f"missing: {line}")
            continue
        found, rest, more = kinds_of_difference(line, said, new.pop(0)[1], advised)
        kinds += found
        if rest or more:
            wrong.append(f"{line}\n  script: {rest}\n  front:  {more}")
    wrong += [f"more: {group}" for group in new]
    return kinds, wrong


def script_jobs(jobs):
    import random_jobs
    yield from random_jobs.worked_jobs()
    yield from random_jobs.random_jobs(jobs, 7)


def script(program, reader, jobs, path):
    """A complaint, or None, for each job; what is meant is counted and printed."""
    module, kinds, messages = load_script(path), collections.Counter(), 0
    for files, options in script_jobs(jobs):
        with tempfile.TemporaryDirectory() as folder:
            for name, text in files.items():
                (pathlib.Path(folder) / name.decode()).write_bytes(text)
            words = [f"--{name.replace('_', '-')}={value}" for name, value in options.items() if name != "utf8"]
            run(program, folder, *words)
            old = by_script(module, folder)
            messages += sum(bool(said) for _, said in old)
            found, wrong = compare(old, by_reader(reader, folder))
            kinds += found
            yield "\n".join(wrong) if wrong else None
    print(f"{messages} messages; meant differences:")
    for kind, number in kinds.most_common():
        print(f"  {number} {kind}")


# ---- the original ----


def source_lines(log):
    """The errors of a log in the original's shapes that have a line of an `.aux` file or a database: file, line, and what follows. (The
    original shows names in lower case.)"""
    errors, current = [], None
    for line in log.split("\n"):
        place = re.search(r"---line (\d+) of file (.*\.(?:aux|bib))$", line)
        if place:
            current = (place[2], place[1], [])
            errors.append(current)
        elif current and re.match(r" : |\(Error may|I'm skipping", line):
            current[2].append(line.lower())
        else:
            current = None
    return errors


def by_original(folder):
    """The log of the original; None where it doesn't end."""
    try:
        subprocess.run(["bibtex", "job"], cwd=folder, stdin=subprocess.DEVNULL, capture_output=True, timeout=5)
    except subprocess.TimeoutExpired:
        return None
    return (pathlib.Path(folder) / "job.blg").read_text("latin1")


def original(program, reader, jobs):
    """A complaint, or None, for each job of which both have errors in the same lines."""
    compared = 0
    for files, options in script_jobs(jobs):
        if any(len(text) > 100_000 for text in files.values()):
            continue
        with tempfile.TemporaryDirectory() as folder:
            for name, text in files.items():
                (pathlib.Path(folder) / name.decode()).write_bytes(text)
            run(program, folder)
            ours = subprocess.run([reader, "shapes", folder, "job"], capture_output=True, timeout=60).stdout.decode("latin1")
            theirs = by_original(folder)
        here, there = source_lines(ours), source_lines(theirs or "")
        if [error[:2] for error in here] == [error[:2] for error in there]:
            compared += len(here)
            yield None if here == there else f"here: {here}\nthere: {there}"
    print(f"{compared} errors were compared")


# ---- speed ----

MILLION = 1_000_000
# A log's line and a database's line, by the number of the line.
FLOODS = {
    "execution": ('Error--"A" is not an integer while executing + for entry k%d', "@misc{k%d, title = {A}}"),
    "database": ("Error--I was expecting an =--line %d of file d.bib", "@misc{k%d, title A}"),
    "entries": ('Warning--entry type for "k%d" isn\'t style-file defined--line %d of file d.bib', "@odd{k%d, title = {A}}"),
}
# How many processor seconds a job may take; some 0.2 to 0.8 were measured, and three times that on a machine with much other work.
MOST_SECONDS = 12


def speed(reader):
    """A complaint, or None, for each flood and each form."""
    import resource
    head = "The top-level auxiliary file: job.aux\nThe style file: s.bst\nDatabase file #1: d.bib\n"
    for name, (message, line) in FLOODS.items():
        with tempfile.TemporaryDirectory() as folder:
            messages = "\n".join(message % ((number,) * message.count("%d")) for number in range(1, MILLION + 1))
            files = {"job.aux": "\\citation{*}\n\\bibdata{d}\n\\bibstyle{s}\n", "s.bst": STYLE.decode(),
                     "d.bib": "\n".join(line % number for number in range(1, MILLION + 1)),
                     "job.blg": f"{head}{messages}\nEnded: finished, warnings 0, errors {MILLION}, steps 1\n"}
            for file, text in files.items():
                (pathlib.Path(folder) / file).write_text(text)
            for form in ("shapes", "explain"):
                before = resource.getrusage(resource.RUSAGE_CHILDREN)
                subprocess.run([reader, form, folder, "job"], stdout=subprocess.DEVNULL, timeout=300)
                after = resource.getrusage(resource.RUSAGE_CHILDREN)
                seconds = after.ru_utime + after.ru_stime - before.ru_utime - before.ru_stime
                print(f"{name} {form}: {seconds:.2f} s")
                yield None if seconds <= MOST_SECONDS else f"{name} {form} took {seconds:.2f} processor seconds"


def main():
    check, words = sys.argv[1], sys.argv[2:]
    checks = {"rules": rules, "places": places, "script": script, "original": original, "speed": speed}
    results = list(checks[check](*(int(word) if word.isdigit() else word for word in words)))
    wrong = [complaint for complaint in results if complaint]
    print("\n".join(wrong))
    print(f"{len(results) - len(wrong)} passed, {len(wrong)} failed")
    return 1 if wrong else 0


if __name__ == "__main__":
    sys.exit(main())
