"""Sees that each wrong body is one. Its file's line 'witness:' has an input, what the right body gives and what the wrong one gives:

    witness: CALL gives RIGHT, not WRONG
    witness: test FILE NAME
    witness: clause FILE NAME

CALL is a call of the functions under "What a witness can call"; RIGHT and WRONG are Python's literals. The second form names a check or a test
that sees the wrong body, for what no job shows: a device that fails, memory that is refused, a call that the program doesn't make. The third
names the clause that the body breaks, where neither a job nor a test shows it, as with text that is kept for a moment.

    python3 witnesses.py PROGRAM              the built program gives RIGHT, and so does the reference, where it knows the call
    python3 witnesses.py --wrong NAME PROGRAM    a program that was built with the wrong body NAME (or CRATE/NAME) gives WRONG

It also sees that each can be planted: its old texts stand once in their files, and its function is there. The last line is 'N passed, M failed', of wrong bodies with a witness; the exit status is 0 only where M is 0."""

import argparse
import pathlib
import re
import subprocess
import sys
import tempfile

ROOT = pathlib.Path(__file__).resolve().parents[2]
sys.path.insert(0, str(ROOT / "tests/reference"))
import worked_jobs
from edits import WrongBody
from product import Options, run

# The folders of a crate's wrong bodies. The kit's own gate tries those of the first as well, one by one.
FOLDERS = ("must-fail", "wrong-bodies")
LINE = re.compile(r"(?m)^witness: (.*)$")
CALLED = re.compile(r"(.+) gives (.+), not (.+)")
NAMED = re.compile(r"(?:test|clause) (\S+) (\S+)")
# How a log's last line begins, in a run that comes to its end.
END = "Ended: "


# ---- what a witness can call: each gives what is run, and which part of the outcome is looked at ----


class Outcome:
    """What a run gave: its list, its log without the lines of the three files, its messages, which are that without the line of its end, its status, what it printed
    and its errors."""

    def __init__(self, bbl, log, status, printed=None, errors=None):
        found = [line.decode() for line in worked_jobs.FOUND]
        self.bbl, self.status, self.printed, self.errors = text_of(bbl), status, text_of(printed), text_of(errors)
        self.log = None if log is None else [line for line in text_of(log).split("\n")[:-1] if line not in found]
        self.messages = self.log and [line for line in self.log if not line.startswith(END)]


class Call:
    """A job's files, the words that the program is run with, and what is looked at."""

    def __init__(self, files, options, looked_at, words=None):
        self.files, self.options, self.looked_at, self.words = files, options, looked_at, words

    def by_program(self, program):
        with tempfile.TemporaryDirectory() as folder:
            for name, text in self.files.items():
                (pathlib.Path(folder) / name).write_bytes(text)
            words = words_of(self.options) + ["job"] if self.words is None else self.words
            done = subprocess.run([program, *words], cwd=folder, stdin=subprocess.DEVNULL, capture_output=True, timeout=60)
            read = [pathlib.Path(folder) / name for name in ("job.bbl", "job.blg")]
            outputs = [path.read_bytes() if path.exists() else None for path in read]
            return getattr(Outcome(*outputs, done.returncode, done.stdout, done.stderr), self.looked_at)

    def by_reference(self):
        files = {name.encode(): text for name, text in self.files.items()}
        product = run(files, b"job", Options(**self.options))
        return getattr(Outcome(product.list, product.log, product.report.status), self.looked_at)


def text_of(texts):
    return None if texts is None else texts.decode("latin1")


def words_of(options):
    words = []
    for name, value in options.items():
        words += ["--text", "utf8"] if name == "utf8" else ["--" + name.replace("_", "-"), str(value)]
    return words


def job(looked_at):
    def call(text="", *, keys=None, aux=None, bib=None, declared=None, others=(), words=None, **options):
        """The first job's files, but for what is given: `text` stands behind the style's READ, `declared` up to it."""
        aux = worked_jobs.citing(keys.encode("latin1")).decode("latin1") if keys is not None else aux
        style = (worked_jobs.DECLARED.decode() if declared is None else declared) + text
        files = {"job.aux": worked_jobs.AUX.decode() if aux is None else aux, "s.bst": style,
                 "d.bib": worked_jobs.DATABASE.decode() if bib is None else bib, **dict(others)}
        return Call({name: it.encode("latin1") for name, it in files.items()}, options, looked_at, words and words.split())
    return call


def value(body, **more):
    """What a function writes that pushes a string, executed once."""
    return job("bbl")("FUNCTION {f} {" + body + " write$ newline$} EXECUTE {f}", **more)


def number(body, **more):
    return value(body + " int.to.str$", **more)


def titled(title, body, **more):
    """The same with a title, for the entry."""
    return job("bbl")("FUNCTION {f} {" + body + " write$ newline$} ITERATE {f}", bib="@misc{k, title = " + title + "}", **more)


VOCABULARY = {"bbl": job("bbl"), "log": job("log"), "messages": job("messages"), "status": job("status"), "printed": job("printed"), "errors": job("errors"),
              "value": value, "number": number, "titled": titled, "range": range, "__builtins__": {}}


# ---- witnesses ----


def witness_of(text):
    """The line of a wrong body's file, or None."""
    found = LINE.search(text)
    return found and found[1]


def wrong_bodies():
    """The file of each, in order."""
    return sorted(path for folder in FOLDERS for path in ROOT.glob(f"crates/*/{folder}/*.edit"))


def read(line):
    """The call, the right value and the wrong one."""
    found = CALLED.fullmatch(line)
    if not found:
        raise ValueError("it is neither 'CALL gives RIGHT, not WRONG' nor 'test FILE NAME' nor 'clause FILE NAME'")
    return [eval(it, dict(VOCABULARY)) for it in found.groups()]


def complaints(line, program):
    """What is wrong with a witness: the right value is what the program and the reference give."""
    named = NAMED.fullmatch(line)
    if named:
        path = ROOT / named[1]
        if not path.is_file():
            yield f"there is no {named[1]}"
        elif not re.search(rf"(?<![\w$]){re.escape(named[2])}(?![\w$])", path.read_text(encoding="utf-8")):
            yield f"{named[1]} has no {named[2]}"
        return
    call, right, wrong = read(line)
    if right == wrong:
        yield "the wrong body gives the same"
    if (there := call.by_program(program)) != right:
        yield f"the program gives {there!r}, not {right!r}"
    if call.words is None and (here := call.by_reference()) != right:
        yield f"the reference gives {here!r}, not {right!r}"


def complaints_of_wrong(line, program):
    if NAMED.fullmatch(line):
        yield "its witness is no job: run the test, or read the clause"
        return
    call, _, wrong = read(line)
    if (there := call.by_program(program)) != wrong:
        yield f"the program gives {there!r}, not {wrong!r}"


# ---- the command ----


def report_lacking(names):
    """Says how many wrong bodies have no witness, and answers how many of them fail."""
    if names:
        print(f"{len(names)} wrong bodies have no line 'witness:': {' '.join(names)}")
    return len(names)


def see_edit(path):
    """Raises what keeps a wrong body from being planted: a text that doesn't stand once in its file, a function that isn't there."""
    body, folder = WrongBody(path), path.parents[1]
    body.planted_in({}, folder)
    body.see_function(folder)


def check(chosen, program, complaints):
    failed, lacking = 0, []
    for path in chosen:
        crate, name, line = path.parts[-3], path.stem, witness_of(path.read_text(encoding="utf-8"))
        if line is None:
            lacking.append(name)
            continue
        try:
            see_edit(path)
            wrong = list(complaints(line, program))
        except Exception as error:
            wrong = [f"{type(error).__name__}: {error}"]
        failed += bool(wrong)
        for it in wrong:
            print(f"{crate}/{name}: {it}")
    passed = len(chosen) - failed - len(lacking)
    failed += report_lacking(lacking)
    print(f"{passed} passed, {failed} failed")
    return failed


def main():
    parser = argparse.ArgumentParser()
    parser.add_argument("--wrong", metavar="NAME")
    parser.add_argument("program", type=lambda path: str(pathlib.Path(path).resolve()))
    arguments = parser.parse_args()
    chosen = [it for it in wrong_bodies() if not arguments.wrong or arguments.wrong in (it.stem, f"{it.parts[-3]}/{it.stem}")]
    return check(chosen, arguments.program, complaints_of_wrong if arguments.wrong else complaints)


if __name__ == "__main__":
    raise SystemExit(main() > 0)
