"""Sees that what bibtex-search prints with -json is what docs/RULES.md describes ("A run as data"), and what the log and the explanations say.

    python3 run_json.py [--hostile N] PROGRAM FRONT

PROGRAM is the proved program, FRONT bibtex-search. The jobs: the worked ones of tests/reference, small ones for kinds that these don't have and for texts that only look
like messages, and N jobs with bytes changed. Of each: the objects have the fields and types of RULES' table; list, log and status are those without -json; the messages are
those of the proved program's log, line by line, and as many as it counts; each has the kind of its text; their bytes in the log hold them; the advice is that of -explain.
Each kind of the table occurs. What is wrong is printed; the last line is 'N passed, M failed', of jobs and kinds, and the exit status is 0 only where M is 0."""

import argparse
import concurrent.futures
import json
import os
import pathlib
import re
import subprocess
import sys
import tempfile
import urllib.parse

from compare import Job, hostile, words_of
from explanations import RULES, SECTIONS, advised_rows, cells

sys.path.insert(0, str(pathlib.Path(__file__).resolve().parents[1] / "reference"))
import worked_jobs  # noqa: E402

SECONDS = 60
ADVICE = pathlib.Path(__file__).resolve().parents[2] / "front/src/advice.rs"
# The sections of RULES' tables as the front end calls them.
AS_CALLED = dict(zip(SECTIONS, ("Aux", "Run", "Style", "Execution", "Database", "Entries")))
# What the front end says by itself, and what a style says: no table of messages has these.
OWN_KINDS = {"style-warning": ("warning", ".*"), "log-full": ("error", "Ended: the messages fill .*"), "list-full": ("error", "Ended: the list fills .*")}
# Ends of jobs that give no log with a last line (of none here memory is refused); and the last line of a log.
EARLY_ENDS = ("no top file", "refused", "device error", "log full", "list full")
LAST_LINE = re.compile(rb"(?m)^Ended: (.*), warnings (\d+), errors (\d+), steps (\d+)\n\Z")
ENDS = re.compile(r"budget-spent|limit-.*|top-file-missing|(log|list)-full")


# ---- what RULES says ----


def tables():
    """The rows of each table of the chapter, by the table's first column."""
    chapter = RULES.read_text(encoding="utf-8").partition("\n## A run as data\n")[2].partition("\n## ")[0]
    found, head = {}, None
    for line in chapter.split("\n"):
        if not line.startswith("|"):
            head = None
        elif head is None:
            head = found.setdefault(cells(line)[0], [])
        elif not line.startswith("|-"):
            head.append(cells(line))
    return found


def schema():
    """For each kind of object its fields, each with the name of its type."""
    fields = {}
    for what, names, kind, _ in tables()["object"]:
        for name in re.findall(r"`(\w+)`", names):
            is_bytes = name.endswith("_bytes") and name != "column_bytes"
            fields.setdefault(what, {})[name] = "text or null" if is_bytes else kind
    return fields


def kinds():
    """For each kind its severity, and what its texts match. Its messages are those of a row of the tables of messages."""
    patterns = re.findall(r'\(Section::(\w+), "((?:[^"\\]|\\.)*)", ', ADVICE.read_text(encoding="utf-8"))
    patterns = [(section, re.sub(r"\\(.)", r"\1", pattern)) for section, pattern in patterns]
    rows = {(tuple(messages), section): AS_CALLED[section] for section, messages, _ in advised_rows()}
    found = {}
    for names, severity, cell in tables()["kind"]:
        messages = tuple(re.findall(r"`([^`]+)`", re.split(r"(?<=`) \(", cell)[0]))
        for name in re.findall(r"`([^`]+)`", names):
            if name in OWN_KINDS:
                found[name] = OWN_KINDS[name]
                continue
            wanted = {"(in a style)": "Style", "(in a database)": "Database"}.get(cell[cell.rfind("("):])
            row = next((key for key, section in rows.items() if key[0] == messages and wanted in (None, section)), None)
            assert row, f"no row of the tables has the messages of the kind {name}"
            section = rows.pop(row)
            if messages[0].startswith("I found no "):
                section = "Aux"
            beginnings = tuple(re.sub("SORT", word, messages[0]) for word in ("SORT", "EXECUTE", "ITERATE", "REVERSE")) if "also" in cell else messages
            fitting = [as_expression(pattern) for its, pattern in patterns if its == section and any(re.fullmatch(as_expression(pattern), it, re.S) for it in beginnings)]
            assert fitting, f"no row of the advice has the messages of the kind {name}"
            found[name] = (severity, "|".join(fitting))
    assert not rows, f"rows without a kind: {list(rows)}"
    return found


def as_expression(pattern):
    return "".join(".*" if piece in "*~" else re.escape(piece) for piece in re.split(r"([*~])", pattern) if piece)


# ---- types ----


def is_number(value):
    return type(value) is int and value >= 0


FIELDS = schema()
TYPES = {
    "text": lambda value: type(value) is str,
    "number": is_number,
    "numbers": lambda value: type(value) is list and len(value) == 2 and all(map(is_number, value)) and value[0] < value[1],
    "texts": lambda value: type(value) is list and all(type(each) is str for each in value),
    "place": lambda value: not misfits(value, "place"),
    "calls": lambda value: type(value) is list and value and not any(misfits(each, "call") for each in value),
}


def misfits(value, what):
    """The fields of an object that aren't of their types, or that are missing or too many."""
    if type(value) is not dict:
        return [f"{what}: no object"]
    wrong = [f"{what}: {name}" for name in {*FIELDS[what]} ^ {*value}]
    for name, kind in FIELDS[what].items():
        type_name, _, or_null = kind.partition(" or ")
        fits = name not in value or (value[name] is None and or_null == "null") or TYPES[type_name](value[name])
        wrong += [] if fits else [f"{what}: {name} is {value[name]!r}, and no {kind}"]
    return wrong + [f"{what}: {name}" for name in value if name + "_bytes" in value and name != "column" and not has_bytes(value, name)]


def has_bytes(value, name):
    """Whether the bytes of a text are given where it isn't UTF-8, and only there."""
    given = value[name + "_bytes"]
    return given is None or urllib.parse.unquote_to_bytes(given).decode("utf-8", "replace").count("\ufffd") > 0


def bytes_of(value, name):
    given = value[name + "_bytes"]
    return urllib.parse.unquote_to_bytes(given) if given is not None else value[name].encode("utf-8")


# ---- jobs ----

STYLE = b"ENTRY {title}{}{t} INTEGERS {i} STRINGS {s} FUNCTION {misc} {} READ "
AUX = b"\\citation{k}\n\\bibdata{d}\n\\bibstyle{s}\n"
DATABASE = b"@misc{k, title = {T}}\n"
NEW_LINE = b"#10 int.to.chr$ "


def job(name, style=b"", words=(), database=DATABASE, aux=AUX, **others):
    files = {b"job.aux": aux, b"s.bst": STYLE + style, b"d.bib": database, **{name.encode(): text for name, text in others.items()}}
    return Job(name, files, ("-budget=100000", *words))


def executed(name, body, words=(), **more):
    return job(name, b"FUNCTION {f} {" + body + b"} ITERATE {f}", words, **more)


def small():
    """Jobs of kinds that the worked ones don't have, and of texts that only look like messages of the run."""
    yield executed("warnings of a style", b'"x in k" warning$ "k has no y" warning$ "" warning$')
    for number, text in enumerate((b"Error--x", b"Error--No \\\"}\\\"--line 1 of file job.aux", b"Warning--x", b"Ended: finished, warnings 0, errors 0, steps 1")):
        yield executed(f"what looks like a message {number}", b'"a" ' + NEW_LINE + b'* "' + text.replace(b'\\"', b"'") + b'" * duplicate$ top$ warning$ "a" #1 + pop$')
    yield executed("what looks like a warning of the databases", b'"string name " quote$ * "x" * quote$ * " is undefined--line 1 of file d.bib" * warning$ "I didn\'t find a database entry for k" warning$')
    yield executed("an error on two lines", b'"a" ' + NEW_LINE + b'* "b" * #1 + pop$ "c" warning$')
    yield executed("an error on two lines, the second of which looks like one", b'"a" ' + NEW_LINE + b'* "Error--b" * #1 + pop$ "c" warning$')
    yield executed("errors in calls", b'{ "x" #1 + pop$ } { skip$ } #1 swap$ pop$ #1 {"x" #1 + pop$} \'skip$ if$')
    yield executed("control characters", b'"\x1b[2J\xc2\x9b\xe2\x80\xae in k" warning$')
    yield executed("bytes that aren't UTF-8", b'"\xe9 in k" warning$ "\xe9" #1 + pop$', database=b"@misc{k, title = {T}}\n@misc{\xe9 1}\n")
    yield Job("a name that isn't UTF-8", {b"job.aux": b"\\citation{\xe9}\n\\bibdata{d\xe9}\n\\bibstyle{s\xe9}\n", b"s\xe9.bst": STYLE + b"FUNCTION {\xe9} {#1 \"\xe9\" + pop$} ITERATE {\xe9} nosuch",
                                         b"d\xe9.bib": b"@misc{\xe9, title = {T}}\n@misc{j 1}\n"})
    yield job("columns", database="@misc{k, note = {é\u4e2d\U0001f600} # zz, title = {é\u4e2d} # zz, 1}\n".encode())
    yield job("the log's room", b"FUNCTION {f} {#1 {s pop$ \"x in k\" warning$ #1} {} while$} EXECUTE {f}".replace(b"{s pop$", b"{"), ("-log-room=2000", "-budget=1000000"))
    yield executed("the list's room", b'{#1} {"xxxxxxxxxxxxxxxx" write$ newline$} while$', ("-list-room=2000",))
    yield Job("no top file", {})
    yield job("no databases", aux=b"\\citation{k}\n\\bibstyle{s}\n")
    yield executed("a strict run", b"", ("-strict",), aux=b"\\citation{k,nosuch}\n\\bibdata{d}\n\\bibstyle{s}\n")
    yield job("parents", aux=b"\\citation{a,b}\n\\bibdata{d}\n\\bibstyle{s}\n",
              database=b"@misc{a, crossref = {m}}\n@misc{b,\n crossref = {none}}\n@misc{m, crossref = {k}}\n@misc{k}\n@string{s = s}\n@odd{k2}\n")
    yield Job("many open files", {b"job.aux": b"\\@input{a1.aux}\n", **{b"a%d.aux" % number: b"\\@input{a%d.aux}\n" % (number + 1) for number in range(1, 30)}})
    yield executed("a long string", b'"aaaaaaaaaaaaaaaaaaaaaaaaaaaaaaaaaaaaaaa" {#1} {duplicate$ *} while$')
    yield executed("many literals", b"{#1} {#1} while$")
    yield Job("many loops", {**job("").files, b"s.bst": STYLE + b"FUNCTION {f} {t 't := } FUNCTION {g} {'s := } FUNCTION {h} {{#1} {call.type$} while$} FUNCTION {odd} {h} READ"})
    yield job("an .aux file", aux=b"\\citation{k}\n\\citation{*}\n\\citation{*}\n\\@input{x}\n\\bibdata{d,d}\n\\bibdata{e}\n\\bibstyle{s}\n\\bibstyle{s}\n")
    yield job("no style", aux=b"\\citation{k}\n\\bibdata{d}\n\\bibstyle{nosuch}\n")
    yield executed("operands", b"#1 'skip$ := \"a\" \"x\" change.case$ pop$ \"ab\" chr.to.int$ pop$ #200 int.to.chr$ pop$ \"A\" #1 \"{ff\" format.name$ pop$ "
                   b"\"A, B,\" #1 \"{ff}\" format.name$ pop$ \"A, B, C, D\" #1 \"{ff}\" format.name$ pop$ \"a\" #1 = pop$")
    yield job("a database", database=b"@string{s = {x} y}\n@odd{k, title = {T}, title = {U}}\n")
    yield Job("a style", {b"job.aux": AUX, b"d.bib": DATABASE, b"s.bst": b"SORT\n\nMACRO {a} {b}\n\nENTRY {title}{}{} FUNCTION {skip$} {}\n\nFUNCTION {f} {\"a\"b}\n\nFUNCTION {g} {\"a\n}\n\n"
                          b"FUNCTION {h} {}\n\nREAD MACRO {c} {\"c\"}\n"})
    yield executed("letters", b"title #1 #1 substring$ write$", database="@misc{k, title = {é}}".encode())


def all_jobs(number):
    for each in worked_jobs.JOBS:
        yield Job(f"worked {each.name}", worked_jobs.files_of(each), tuple(words_of(each.options)))
    yield from small()
    yield from hostile(number, 1)


# ---- a job ----


def run(command, folder):
    return subprocess.run(command, cwd=folder, stdin=subprocess.DEVNULL, capture_output=True, timeout=SECONDS)


def write(folder, files):
    for name, text in files.items():
        (folder / os.fsdecode(name)).write_bytes(text)


def outputs(folder):
    paths = [folder / name for name in ("job.bbl", "job.blg")]
    return [path.read_bytes() if path.exists() else None for path in paths]


def logged(message):
    """A message as the program's log has it."""
    mark = b"Error--" if message["severity"] == "error" else b"Warning--"
    text = mark + bytes_of(message, "text")
    if message["function"] is not None:
        entry = b"" if message["entry"] is None else b" for entry " + bytes_of(message, "entry")
        return text + b" while executing " + bytes_of(message, "function") + entry
    has_place = message["kind"] not in ("style-warning", "style-missing", "database-missing", "entry-missing", "parent-missing", "parent-nested") and message["file"] is not None
    return text + b"--line %d of file " % message["line"] + bytes_of(message, "file") if has_place else text


def of_long_file(front):
    """The messages of a job whose style has a byte more than a file may have."""
    with tempfile.TemporaryDirectory() as folder:
        folder = pathlib.Path(folder)
        write(folder, job("a long file").files)
        os.truncate(folder / "s.bst", 2**31)
        return messages_of(run([front, "-json", "job"], folder))


class Checked:
    """A job, and what the programs give of it."""

    def __init__(self, program, front, job):
        self.job = job
        with tempfile.TemporaryDirectory() as folder:
            folder = pathlib.Path(folder)
            write(folder, job.files)
            self.plain = run([front, "-no-explain", *job.words, "job"], folder)
            self.outputs = outputs(folder)
            self.explained = run([front, "-explain", "-terse", *job.words, "job"], folder)
            self.done = run([front, "-json", *job.words, "job"], folder)
            self.outputs_of_json = outputs(folder)
            self.only = None if job.name.startswith(("worked", "hostile")) else run([front, "--explain-only", "--json", *job.words, "job"], folder)
            program_words = ["-" + word for word in job.words if not re.match("-(strict|log-room|list-room)", word)]
            run([program, "--terse", *program_words, "job"], folder)
            self.log = outputs(folder)[1] or b""
        self.objects = [json.loads(line) for line in self.done.stdout.decode("utf-8").split("\n")[:-1]]
        self.messages, self.report = self.objects[1:-1], self.objects[-1]

    def complaints(self, known):
        whats = ["job", *("message" for _ in self.messages), "report"]
        for what, value in zip(whats, self.objects):
            yield from misfits(value, what)
            if value["object"] != what:
                yield f"an object is a {value['object']}, and no {what}"
        if (self.done.returncode, self.outputs_of_json) != (self.plain.returncode, self.outputs):
            yield f"status, list or log differ with -json: status {self.done.returncode}, and {self.plain.returncode} without"
        if self.report["status"] != self.done.returncode:
            yield f"the status is {self.done.returncode}, and the report says {self.report['status']}"
        if re.search(r"[^\x20-\x7e\xa0-\U0010ffff\n]|[\u200e\u200f\u2028-\u202e]", self.done.stdout.decode("utf-8")):
            yield "a character of control is printed"
        yield from self.of_kinds(known)
        yield from self.of_log()
        yield from self.of_advice()

    def of_kinds(self, known):
        for message in self.messages:
            severity, texts = known[message["kind"]]
            text = bytes_of(message, "text").decode("latin1")
            if severity != message["severity"] or not re.fullmatch(texts, text, re.S):
                yield f"{text!r} is no {severity} of the kind {message['kind']}"

    def of_log(self):
        """What the proved program's log and the written one have of the messages."""
        counted = [message for message in self.messages if not ENDS.fullmatch(message["kind"])]
        numbers = [sum(message["severity"] == severity for message in counted) for severity in ("warning", "error")]
        counts = [self.report[name] for name in ("warnings", "errors", "steps")]
        is_early = self.report["end"] in EARLY_ENDS
        if is_early != (None in counts) or not is_early and numbers != counts[:2]:
            yield f"there are {numbers} warnings and errors, and the report on a run that is {self.report['end']} has {counts}"
        log, at = b"\n" + self.log, 0
        # (the program finds no file whose name isn't UTF-8)
        is_read = all(is_utf8(name) for name in self.job.files)
        last = LAST_LINE.search(self.log) if is_read else None
        if last and not is_early and [self.report["end"], *map(str, counts)] != [group.decode() for group in last.groups()]:
            yield f"the run is {self.report['end']} with {counts}, and the log ends by {last[0]}"
        for message in counted if is_read else ():
            line = b"\n" + logged(message) + b"\n"
            found = log.find(line, at)
            if found < 0:
                yield f"the log has no {line!r}, or not there"
            at = max(at, found + len(line) - 1)
        yield from self.of_bytes(counted)
        only = messages_of(self.only) if self.only else [{**message, "log": None} for message in self.messages]
        if only != [{**message, "log": None} for message in self.messages]:
            yield "-explain-only has other messages, or places in a log that isn't written"

    def of_bytes(self, counted):
        """Whether the bytes in the log of each message are its own."""
        written, before = self.outputs_of_json[1] or b"", 0
        for message in counted:
            if message["log"] is None:
                yield "a message has no place in the log"
                continue
            start, end = message["log"]
            part = written[start:end]
            first = bytes_of(message, "text").split(b"--entry ")[0].split(b"\n")[0]
            if message["kind"] == "style-warning":
                part = part[:-1].replace(b"\n--line ", b"--line ") + b"\n"
            is_named = message["kind"] == "operand-kind" and b"is a missing field" in part
            if start < before or not part.endswith(b"\n") or (first not in part and not is_named):
                yield f"the log's bytes {start} to {end} are {part!r}, and not {message['text']}"
            before = end

    def of_advice(self):
        if self.report["end"] in ("no top file", "log full"):
            return
        said = re.findall(r"(?m)^    what to do: (.*)$", self.explained.stdout.decode("utf-8"))
        given = [message["advice"] for message in (*self.messages, self.report) if message["advice"] is not None]
        if said != given:
            yield f"-explain says what to do: {said}, and -json {given}"


def messages_of(done):
    return [json.loads(line) for line in done.stdout.decode("utf-8").split("\n")[1:-2]]


def is_utf8(text):
    return "\udc80" > max(os.fsdecode(text))


def main():
    parser = argparse.ArgumentParser()
    parser.add_argument("--hostile", type=int, default=120)
    parser.add_argument("program")
    parser.add_argument("front")
    arguments = parser.parse_args()
    known, passed, failed = kinds(), 0, 0
    seen = {message["kind"] for message in of_long_file(arguments.front)}
    with concurrent.futures.ThreadPoolExecutor(2) as pool:
        for checked in pool.map(lambda each: Checked(arguments.program, arguments.front, each), all_jobs(arguments.hostile)):
            wrong = list(checked.complaints(known))
            seen |= {message["kind"] for message in checked.messages}
            passed, failed = passed + (not wrong), failed + bool(wrong)
            for what in wrong:
                print(f"{checked.job.name}: {what}")
    for kind in sorted({*known} - seen):
        print(f"no job has a message of the kind {kind}")
    print(f"{passed + len(seen)} passed, {failed + len({*known} - seen)} failed")
    return failed > 0 or bool({*known} - seen)


if __name__ == "__main__":
    sys.exit(main())
