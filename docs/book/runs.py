"""The examples of the book as jobs that a reader can run and change: those of the rules, and the worked examples of sections that are jobs, styles, databases, or literals
with a function.

What stands beside the book, out/book-runs.js, has these jobs and the module of `make web`; runs.js shows them. Without it the book is as it is."""

import json
import pathlib
import re
import sys
from typing import NamedTuple

import chapters
import layout
import rows
import rules

ROOT = chapters.ROOT
sys.path[:0] = [str(ROOT / "tests/documents"), str(ROOT / "web/page")]
import rule_jobs  # noqa: E402

MODULE = ROOT / "web/out/btx.wasm"
SCRIPT = pathlib.Path(__file__).with_name("runs.js")
# A job with a longer text isn't shown for changing.
MOST_TEXT = 20_000
DATA = "\n\\bibdata{d}\n\\bibstyle{s}\n"
SHOW = ("ENTRY {title booktitle}{}{}\nFUNCTION {misc} {}\nFUNCTION {book} {}\nFUNCTION {f} {cite$ write$ \": \" write$ title missing$ {\"-\"} {title} if$ write$ newline$}\n"
        "READ\nITERATE {f}\n")
DECLARED = "ENTRY {title}{}{} FUNCTION {misc}{} READ "


class Run(NamedTuple):
    """A job of the page: where it stands (its code below the heading with this anchor, or the text of a worked example, without whitespace), and the job."""
    anchor: str
    code: str
    job: rule_jobs.Example

    def as_data(self):
        it = self.job
        files = {name: text for name, text in it.files.items() if name != it.file}
        return {"anchor": self.anchor, "code": self.code, "file": it.file, "before": it.before, "text": it.text, "after": it.after, "files": files,
                "options": it.options, "wanted": it.wanted}


# ---- worked examples ----


def job_of(text, wanted, **given):
    return rule_jobs.example("", "", text, wanted, **given)


def body_of(words, wanted, **given):
    return rule_jobs.body("", "", words, wanted, **given)


def pushed(literal):
    """The words of a style that push a literal."""
    if literal == ("missing",):
        return "note"
    kind, value = literal
    if kind in ("number", "minus"):
        return f"#{-value if kind == 'minus' else value}"
    if kind != "string":
        raise rows.Unreadable(f"a literal of the kind {kind}")
    return rule_jobs.pushed(value)


def shown(literal):
    """A literal as the log has it."""
    if literal == ("missing",):
        return "missing field"
    kind, value = literal
    return f'"{value}"' if kind == "string" else str(-value if kind == "minus" else value)


def worked(name, before, after, wanted, command="ITERATE"):
    """A built-in function with the literals before it and after it, top first."""
    if re.fullmatch(r"[a-z.]+", name):
        raise rows.Unreadable(f"{name} is a field or a variable of another job")
    words = " ".join([*map(pushed, reversed(before)), name])
    return body_of(words, {"literals": list(map(shown, reversed(after))), **wanted}, command=command)


def gives(name, before, after):
    return worked(name, before, after, {"errors": 0})


def logs(name, before, after, lines):
    return worked(name, before, after, {"logs": "".join(f"\n{line}" for line in lines) + "\n"})


def errs(name, before, after, text):
    return worked(name, before, after, {"in order": [text]}, command="EXECUTE" if "entries" in text else "ITERATE")


def finds_too_few(name, before, after, times):
    return worked(name, before, after, {"in order": ["You can't pop an empty literal stack"] * times})


def strings(words, *results):
    """Words of a style that leave these values, which are numbers or texts."""
    return body_of(words, {"literals": [str(it) if isinstance(it, int) else f'"{it}"' for it in results], "errors": 0})


def quoted(text):
    return rule_jobs.pushed(text)


def names_of(text):
    return lambda found: strings(f"{quoted(text)} num.names$", len(found))


def wrap(limit, text):
    return lambda written: body_of(f"{quoted(text)} write$ newline$", {"list": rows.text_of(written)}, options={"line": limit})


def lines_of(value, head):
    """The lines of the messages of this head in a row's value, in their order."""
    if isinstance(value, tuple) and value[0] == head:
        return [next(it for it in value[1:] if isinstance(it, int))]
    return [line for it in value for line in lines_of(it, head)] if isinstance(value, (tuple, list)) else []


def count_of(value, wanted):
    """How often a head with this beginning occurs in a row's value."""
    if not isinstance(value, (tuple, list)):
        return 0
    own = bool(value) and isinstance(value, tuple) and isinstance(value[0], str) and value[0].startswith(wanted)
    return own + sum(count_of(it, wanted) for it in value)


def style_row(text, items):
    return job_of(text, {"lines": ["bst", lines_of(items, "Message")]})


def aux_row(text, said, files=None):
    return job_of(text, {"lines": ["aux", lines_of(said, "error_at") + lines_of(said, "Wrong")]}, file="job.aux", files=files)


def alone(text):
    return lambda said: aux_row(text + DATA, said)


def shown_aux(events):
    """A row on whole `.aux` files."""
    if events[0] != "job_events" or events[1][0] != "files_of_pairs":
        raise rows.Unreadable("no row on files")
    pairs = {name: text for _, name, text in events[1][1]}
    top = pairs.pop("job.aux", None)
    if top is None:
        raise rows.Unreadable("no top file")
    return lambda said: aux_row(top, said, pairs)


def text_row(text, items):
    return job_of(text, {"errors": count_of(items, "Wrong")}, file="d.bib", files={"s.bst": SHOW, "job.aux": f"\\citation{{*}}{DATA}"})


def library_row(request, text, library):
    """A database with the entries and messages that reading it comes to."""
    if request[0] != "citing" or library[0] != "whole_library":
        raise rows.Unreadable("a library of another form")
    listed = "".join(f"{key}: {'-' if title == ('None',) else title[1]}\n" for _, _, key, _, title, _ in library[1])
    files = {"s.bst": SHOW, "job.aux": f"\\citation{{{','.join(request[1])}}}{DATA}"}
    return job_of(text, {"list": listed, "messages": len(library[2])}, file="d.bib", files=files, options={"min-crossrefs": request[2]})


def run_of(keys, database, style, wanted, options=None):
    files = {"job.aux": f"\\citation{{{keys}}}{DATA}", "d.bib": database}
    return job_of(style, wanted, before=DECLARED, files=files, options=options)


def lists(keys, database, style, written, steps):
    return run_of(keys, database, style, {"list": written, "logs": f"Ended: finished, warnings 0, errors 0, steps {steps}\n"}, {"budget": 1000})


def gathers(keys, database, style, written, lines, _status):
    return run_of(keys, database, style, {"list": written, "logs": "".join(f"\n{line}" for line in lines) + "\n"}, {"budget": 1000})


def comes_to(files, written, lines, _status):
    """A job of files of its own, with its whole log."""
    made = {"aux_citing": lambda keys, data: ("job.aux", f"\\citation{{{keys}}}{DATA.replace('{d}', f'{{{data}}}')}"), "database_file": lambda text: ("d.bib", text),
            "style_file": lambda text: ("s.bst", DECLARED + text), "whole_style": lambda text: ("s.bst", text)}
    found = {"d.bib": None, "s.bst": None} | dict(made[head](*arguments) for head, *arguments in files)
    wanted = {"list": written, "begins": "".join(f"{line}\n" for line in lines)}
    shown = next(name for name in ("s.bst", "d.bib") if found[name] is not None)
    return job_of(found.pop(shown), wanted, file=shown, files=found, options={"budget": 1000})


def under(options, job):
    _, budget, references, line = options
    return job._replace(options={"budget": budget, "min-crossrefs": references, "line": line})


# A row's head, and what makes a job of its arguments. A head of a statement answers a function, which makes the job of the other side.
FORMS = {
    "gives": gives, "logs": logs, "errs": errs, "finds_too_few": finds_too_few, "style_row": style_row, "text_row": text_row, "library_row": library_row,
    "lists": lists, "gathers": gathers, "comes_to": comes_to, "under": under,
    "cased": lambda text, how, made: strings(f"{quoted(text)} {quoted(how)} change.case$", made),
    "purified": lambda text, made: strings(f"{quoted(text)} purify$", made),
    "counted": lambda mode, text, length: strings(f"{quoted(text)} text.length$", length),
    "prefixed": lambda mode, text, length, made: strings(f"{quoted(text)} #{length} text.prefix$", made),
    "measured": lambda text, width: strings(f"{quoted(text)} width$", width),
    "formatted": lambda mode, names, number, form, made: strings(f"{quoted(names)} #{number} {quoted(form)} format.name$", made),
    "special_row": lambda text, purified, width: strings(f"{quoted(text)} purify$ {quoted(text)} width$", purified, width),
    "substring_of": lambda text, start, length: lambda made: strings(f"{quoted(text)} #{start} #{length} substring$", made),
    "add_period_of": lambda text: lambda made: strings(f"{quoted(text)} add.period$", made),
    "length": lambda found: lambda number: found([None] * number),
    "names_of": names_of, "wrap": wrap, "alone": alone, "shown": shown_aux,
}


def made_of(value):
    """The job that a row's value is."""
    if not isinstance(value, tuple) or not value:
        return value
    if value[0] == "≡":
        made = made_of(value[1])
        return made(value[2]) if callable(made) else None
    if value[0] not in FORMS:
        return value
    arguments = [made_of(it) if isinstance(it, tuple) and it and it[0] in FORMS and value[0] in ("under", "length") else it for it in value[1:]]
    return FORMS[value[0]](*arguments)


def abbreviations():
    """The texts that worked jobs name: a style, a database."""
    source = (chapters.CRATES / "btx_core/specs/laws/WorkedJobs.antt").read_text(encoding="utf-8")
    found = {name: json.loads(text) for name, text in re.findall(r'(?m)^(\w+) = ("(?:[^"\\]|\\.)*")$', source)}
    return found | {"top": "job.aux", "files_logged": ["The top-level auxiliary file: job.aux", "The style file: s.bst", "Database file #1: d.bib"]}


def of_table(name):
    """A job of the reference's table; None where it isn't of a text that can be shown."""
    import worked_jobs
    job = chapters.jobs()[name]
    files = {key.decode(): text.decode("latin-1") for key, text in worked_jobs.files_of(job).items() if key != b"s.bst"}
    wanted = {"logs": f"Ended: {job.end}"}
    if job.bbl is not None:
        wanted["list"] = job.bbl.decode("latin-1")
    if job.messages:
        wanted["said"] = [it.decode("latin-1") for it in job.messages]
    if job.steps is not None:
        wanted["logs"] = f"steps {job.steps}\n"
    options = {option.replace("_", "-"): number for option, number in job.options.items()}
    return job_of(job.text.decode("latin-1"), wanted, before=job.declared.decode("latin-1"), files=files, options=options)


def worked_run(name, example, known):
    """The job of a worked example; None where it is none: a value of a definition that no run shows."""
    if name.startswith("job | "):
        job = of_table(name.removeprefix("job | "))
    else:
        text = " ".join(example.row.lines)
        text = re.sub(r"^\w+ = ", "", text) if " = " in example.row.lines[0][:60] and "record" not in text else re.sub(r"^\w+ =\s", "", text)
        try:
            job = made_of(rows.read(text, known))
        except (rows.Unreadable, TypeError, ValueError, KeyError, IndexError):
            return None
    is_small = isinstance(job, rule_jobs.Example) and len(job.text) <= MOST_TEXT
    return Run("", re.sub(r"\s", "", "".join(layout.shown(example.row))), job) if is_small else None


def of_sections(book):
    """The jobs of the worked examples, each once, and the names of those that are none."""
    known, runs, others = abbreviations(), {}, []
    for name in dict.fromkeys(name for section in book.sections for name in section.examples if name in book.examples):
        made = worked_run(name, book.examples[name], known)
        if made:
            runs[name] = made
        else:
            others.append(name)
    return runs, others


# ---- what the page has ----


def of_rules():
    return [Run(rules.anchor(it.heading), it.code, it) for it in rule_jobs.all_examples()]


def script(book):
    """The text of book-runs.js: the machine, the jobs, and what shows them."""
    import build
    module = MODULE.read_bytes()
    found = [it.as_data() for it in [*of_rules(), *of_sections(book)[0].values()]]
    return "\n".join(["(() => {", "'use strict';", *build.machine(module), f"const PROVED = {json.dumps(build.verdict.is_proved(module))};", f"const RUNS = {build.in_script(found)};",
                      SCRIPT.read_text(encoding="utf-8"), "})();", ""])
