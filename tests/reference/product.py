"""A whole run: from the files of a job and its options to the list, the log and the report."""

from typing import Callable, NamedTuple

from aux_files import LONGEST_FILE, read_aux
from breaking import sure, wrapped
from databases import read_databases
from interpreter import Limit, Machine, Stopped
from styles import Message, read_style


class Options(NamedTuple):
    min_crossrefs: int = 2
    budget: int = 1_000_000_000
    utf8: bool = False
    line: int = 79
    entry_max: int = 250
    global_max: int = 20_000


class Report(NamedTuple):
    """`end` is the word of the log's last line."""
    status: int
    end: str
    steps: int
    deepest: int
    warnings: int
    errors: int


class Product(NamedTuple):
    list: bytes
    log: bytes
    report: Report


class Rules(NamedTuple):
    """What a run goes by: the three readers, the machine, and what is written of its lines. `ours()` are this program's; `original.RULES` are the original's."""
    read_aux: Callable
    read_style: Callable
    read_databases: Callable
    machine: Callable
    written: Callable


def written(machine, end, most):
    """The list of a machine at the end of a run."""
    done = b"".join(wrapped(text, most) for text in machine.finished)
    if end != "finished":
        done += sure(machine.pending, most)
    elif machine.pending:
        done += wrapped(machine.pending, most)
    return done


def ours():
    """This program's rules, by the names of this module, in whose place a test may have put others."""
    return Rules(read_aux, read_style, read_databases, Machine, written)


class Ends(Exception):
    """The run ends with this word."""


class Run:
    def __init__(self, files, job, options, rules=None):
        self.files, self.job, self.options, self.rules = files, job, options, rules
        self.log, self.counts = [], {"warning": 0, "error": 0}
        self.machine = None

    def say(self, kind, text):
        if kind:
            self.counts[kind] += 1
            text = kind.capitalize().encode() + b"--" + text
        self.log.append(text)

    def whole(self):
        try:
            self.go()
            end = "finished"
        except Ends as early:
            end = str(early)
        except Stopped:
            end = "stopped"
        except Limit as limit:
            end = "limit " + str(limit)
        return self.product(end)

    def go(self):
        self.rules = self.rules or ours()
        job = self.rules.read_aux(self.files, self.job)
        for kind, text in job.log:
            self.say(kind, text)
        if job.end != "whole":
            raise Ends(job.end)
        if job.style is None:
            return
        if job.style not in self.files:
            self.say("error", b"I couldn't open style file " + job.style)
            return
        self.say("", b"The style file: " + job.style)
        if len(self.files[job.style]) > LONGEST_FILE:
            raise Ends("limit file")
        style = self.rules.read_style(job.style, self.files[job.style])
        sources = list(self.fetch_databases(job.databases))
        self.machine = self.rules.machine(style, self.options, self.say)
        for item in style.items:
            self.take_item(style, job, sources, item)

    def fetch_databases(self, databases):
        number = 0
        for name in databases:
            if name in self.files:
                number += 1
                self.say("", b"Database file #%d: %s" % (number, name))
                yield name, self.files[name]
            else:
                self.say("error", b"I couldn't open database file " + name)

    def take_item(self, style, job, sources, item):
        if isinstance(item, Message):
            self.say("error", item.text)
        elif item.word == b"READ":
            library = self.rules.read_databases(style, job, sources, self.options.min_crossrefs)
            for kind, text in library.messages:
                self.say(kind, text)
            if library.end != "whole":
                raise Ends(library.end)
            self.machine.read(library)
        else:
            self.machine.command(item.word, item.meaning)

    def product(self, end):
        machine = self.machine
        done = self.rules.written(machine, end, self.options.line) if machine else b""
        warnings, errors = self.counts["warning"], self.counts["error"]
        status = (4 if end == "stopped" else 3 if end != "finished" else 2 if errors else 0)
        report = Report(status, end, machine.steps if machine else 0, machine.deepest if machine else 0,
                        warnings, errors)
        self.log.append(b"Ended: %s, warnings %d, errors %d, steps %d"
                        % (end.encode(), warnings, errors, report.steps))
        return Product(done, b"".join(text + b"\n" for text in self.log), report)


def run(files, job, options=Options(), rules=None):
    """`files` maps names to bytes; `job` is the job's name. Without rules the run goes by this program's."""
    return Run(files, job, options, rules).whole()
