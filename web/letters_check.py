"""The letters of a language in the package for Node, beside bibtex-search -letters.

    python3 web/letters_check.py [--jobs N] [--seed N] SEARCH

Runs jobs with names of each language, hostile ones, and N random ones by the program SEARCH (front/out/bibtex-search) and by the package (web/npm). Of each the list, the messages, the status and what is said of the
letters have to be the same. It then checks that web/npm/languages.js is what the front end's table gives, and that a table that isn't understood is refused. The last line is 'N passed, M failed'.
The package for Python is tested with the same jobs (python/tests/test_letters.py)."""

import argparse
import base64
import json
import os
import pathlib
import random
import subprocess
import sys
import tempfile

ROOT = pathlib.Path(__file__).resolve().parents[1]
sys.path[:0] = [str(ROOT / "web"), str(ROOT / "tests/front")]
import languages  # noqa: E402
from letter_orders import STYLE  # noqa: E402
from letters import FIELDS, NAMES, TITLES, aux  # noqa: E402
from messages import of_front, of_program  # noqa: E402

LETTERS = [*range(0xC0, 0x250), *range(0x1E00, 0x1F00)]
# Letters of other scripts, marks that combine, signs, and letters whose other case has more letters.
OTHERS = "ЯжΩσς“”—́aͅ𝒜漢ﬁ"
# What a style does with the author and the title of an entry.
BODIES = [
    "author", 'author "t" change.case$', 'author "l" change.case$', 'author "u" change.case$', 'author #1 "{ff }{vv }{ll}{, jj}" format.name$', 'author #1 "{f.~}{vv~}{ll}" format.name$',
    'author #1 "{v{}}{l{}}" format.name$', "author #3 text.prefix$", "title #5 text.prefix$", "author text.length$ int.to.str$", "author width$ int.to.str$", 'title "t" change.case$ #7 text.prefix$',
    "author purify$ pop$ title", "url purify$", "url #2 global.max$ substring$", "number", "title 'label := label", "title 'kept := kept", "author num.names$ int.to.str$", "author top$ title warning$ title", 'author #1 + title', "title \"{\" * author *",
]
# What shows a key, or cuts a code.
REVEALING = [
    "author purify$", "title #1 #3 substring$", "title #-1 #2 substring$", "author purify$ #2 text.prefix$", 'title purify$ "u" change.case$', "author #2 global.max$ substring$", "title #6 global.max$ substring$", "author duplicate$ purify$ 'kept := kept pop$", "author purify$ 'label := label #1 #2 substring$",
    'title "" \'kept := {duplicate$ empty$ not} {duplicate$ #1 #1 substring$ kept swap$ * \'kept := #2 global.max$ substring$} while$ pop$ kept', "title #1 #1 substring$ chr.to.int$ int.to.str$",
    'author purify$ title = {"same"} {"other"} if$', "title text.length$ #1 #4 substring$",
]
SORTED = """ENTRY {author title journal url number} {} {label}
STRINGS {kept}
FUNCTION {misc} {"\\bibitem{" cite$ * "}" * write$ newline$ %s write$ newline$}
FUNCTION {presort} {author #1 "{vv{ } }{ll{ }}{  ff{ }}" format.name$ purify$ "l" change.case$ title purify$ * 'sort.key$ :=}
READ
%s
ITERATE {call.type$}
"""

# What is spoilt in the front end's tables, so that they aren't taken.
SPOILT = [
    ('("ß", "ss"), ', ""), ('("es", &[("ñ", "n*")]),', ""), ('("ñ", "n*")', '("ñ", N)'), ("const ROOT", "const ROWS"), ('"doi", ', ""), ('("<", Effect::Answer(2)),', ""), ("const DEEPEST", "const DEEP"),
    ("LeftOut::CutsLetters => ", "LeftOut::Cuts => "),
]


class Job:
    """A job: its files, its language, and how text is read; None where that isn't said."""

    def __init__(self, files, language, text=None, budget=20_000_000):
        self.files, self.language, self.text, self.budget = files, language, text, budget

    def words(self):
        """As the script for Node reads it: a line of JSON."""
        files = [[name, base64.b64encode(text).decode("ascii")] for name, text in self.files.items()]
        return json.dumps({"letters": self.language, "text": self.text, "budget": self.budget, "files": files})


def encoded(files):
    return {name: text if isinstance(text, bytes) else text.encode("utf8") for name, text in files.items()}


def named_jobs():
    """The names of each language, sorted, in another order than the one that is wanted."""
    for language, row in NAMES.items():
        names = row.split("|")
        keys = sorted((f"k{number}" for number in range(len(names))), key=lambda key: key[::-1])
        database = "".join('@book{k%d, author = "%s"}\n' % pair for pair in enumerate(names))
        yield Job(encoded({"job.aux": aux(keys, "s"), "s.bst": STYLE, "d.bib": database}), language)


def files_of(body, author="Émile Zola", title="Über {die} ÄSTHETIK", sort="ITERATE {presort} SORT"):
    database = "@misc{k, author = {%s}, title = {%s}, url = {é}}\n" % (author, title)
    return encoded({"job.aux": aux(["k"], "s"), "s.bst": SORTED % (body, sort), "d.bib": database})


def special_jobs():
    """What makes the letters be left out, and what stays as it is."""
    plain = files_of("author")
    yield from (Job(files_of(body), language, text) for body in BODIES + REVEALING for language, text in (("de", None), ("tr", "bytes"), ("hu", "utf8")))
    yield from (Job({**plain, "d.bib": text}, "fr") for text in (b"@misc{k, author = {\xC9}}\n", "@misc{k, author = {é\x01}}\n".encode(), b"@misc{k, author = {Chvatal and Aa I}}\n"))
    yield from (Job({**plain, "s.bst": plain["s.bst"] + tail}, "fr", text) for tail in (b"% \xE9\n", b"% \x02\n") for text in (None, "bytes"))
    yield from (Job(files_of('author "%s" * #1 text.prefix$'), language, text) for language in ("fr", "no") for text in (None, "utf8", "bytes"))
    yield from (Job(files_of("author #1 #1 substring$"), "no", text) for text in (None, "utf8", "bytes"))
    # (its code is longer than a variable of an entry keeps without letters)
    yield Job(files_of("title 'label := label", title="ö" * 90), "de")
    yield Job({**plain, "s.bst": files_of("author #1 text.prefix$")["s.bst"].replace(b"misc} {", b"misc} {\"\xE9\" write$ ")}, "no")
    yield from (Job(files_of("author write$ {#1} {} while$ author"), language, None, 1000) for language in ("fr", "no"))
    yield from (Job(files_of(body, author="I. {Ç}h ch Ch CH Dz aa AA Ľj LJ i İ ı"), language) for body in BODIES[:8] for language in ("tr", "cs", "da", "hr"))
    yield from (Job({**plain, "d.bib": f"@string{{Ö = {{Ö}}}}\n@string(p = \"É{{Ö}}\")\n@preamble{{\"Ö\"}}\n@misc{{k, title = \"ö\" # {{ö}} # Ö # 12 # p, URL = {{ö}}, ö = 1, author = {{Ö}} ".encode() + end}, "sv")
                for end in (b"}", b"", b", note = {ungeschlossen ", b"title"))
    yield from (Job({name: text for name, text in plain.items() if name != missing}, "sv") for missing in plain)


def chosen_jobs():
    """Entries that count and others, parents, strings that stay, and what stands in the text of an item."""
    # (fields that are missing are empty strings, so that what parents give is seen)
    given = ["%s duplicate$ missing$ {pop$ \"\"} 'skip$ if$" % field for field in ("title", "number", "url")]
    plain = files_of(f'author {given[0]} "u" change.case$ * {given[1]} #1 #2 substring$ * {given[2]} purify$ *')
    bad = [b"@misc{other, author = {\xC9}}", "@misc{other, author = {é\x01}}".encode(), b"@comment{\xC9}", b"@preamble{\"\xC9\"}", b"@string{u = {\xC9}}", b"\xC9 \x01", b"@misc{p, title = {\xC9}}", b"@misc{k, title = {\xC9}}",
           "@misc{other, title = {é @misc{p, title = {ö}} ö}}".encode(), b"@misc{other, note = {@misc{k, author = {\xC9}}}}", b"@" + b" " * 250 + b"misc{other, author = {\xC9}}",
           b"@misc{" + b"o" * 250 + b", author = {\xC9}}", b"@misc other", b"@misc{other author = {\xC9}}", b"@misc{other, author = {}} a@b.c {\xC9}"]
    rows = ["", "crossref = {p}", "crossref = { P }", "CrossRef = s", "crossref = {} # s", "number = {1–2é}, volume = {é}, pages = \"é–é\"", "number = s", "url = t # {x}", "url = {#} # S", "title = t", "crossref = {*}"]
    head = "@string{s = {p}} @string{t = s # {ö}} @string{é = {é}}\n"
    tail = "@misc(P, title = {Ärger}, journal = {J})\n@misc{q, title = {Örn}}\n"
    for row in rows:
        for other in [b"", *bad]:
            database = (head + "@misc{K, author = {Émile},").encode() + row.encode() + b"}\n" + other + b"\n" + tail.encode()
            yield Job({**plain, "d.bib": database}, "hu" if len(row) % 5 == 0 else "de")
    for keys in (["*"], ["K"], ["k", "q"], ["none"], ["q", "other"]):
        yield from (Job({**plain, "job.aux": encoded({"": aux(keys, "s")})[""], "d.bib": (head + tail).encode() + other}, "sv") for other in bad)
    # (parents of parents, more often than they are looked for)
    steps = "".join(f"@misc{{g{step}, crossref = {{g{step + 1}}}, author = {{É{step}}}}}\n" for step in range(12, -1, -1))
    yield from (Job({**plain, "job.aux": aux(["g0"], "s").encode(), "d.bib": (steps + f"@misc{{g{last}, title = {{").encode() + b"\xC9}}\n"}, "fr") for last in (13, 14))
    yield from (Job({**plain, "job.aux": text + plain["job.aux"]}, "fr") for text in (b"\\citation{q,,p}\r\n", b"\\citation {q}\n", b"\\citation{q\n", b"\\Citation{q}\n"))


def half_letter_jobs():
    """Half a letter, the first byte of `Ü`, beside values, keys and styles that have the same byte in another encoding."""
    plain = files_of("title #1 #1 substring$")
    others = [b"@misc{other, note = {\xC3}}", b"@misc{other, note = {\xE9}, year = {\xC3\xA9}}", b"@misc{k, note = {\xC3}}", b"@misc{P, note = {\xC3}}", b"@misc{p, crossref = {other}} @misc{other, note = {\xC3}}",
              b"@misc{other, note = {\xC3} year}", b"@misc{other, note = {U}, \xC3 year}", b"@misc{\xC3}", b"@string{u = {\xC3}}", b"@string{\xC3 = {u}}", b"@preamble{\"\xC3\"}", b"@comment{\xC3}", b"@\xC3"]
    item = b'"\\bibitem{" cite$ * "}" *'
    for other in others:
        database = "@misc{k, title = {Über}, crossref = { p }}\n".encode() + other
        forms = ((["k"], item), (["other", "K"], b"cite$"), (["*"], b"cite$"))
        yield from (Job({"job.aux": aux(keys, "s").encode(), "s.bst": plain["s.bst"].replace(item, form), "d.bib": database}, "no") for keys, form in forms)
    yield from (Job({**plain, "job.aux": aux(["k", key], "s").encode("latin1")}, "no") for key in ("\xC3", "\xE9"))
    both = {**plain, "job.aux": aux(["k", "other"], "s").encode()}
    # (the bytes of a style count where a value isn't UTF-8)
    yield from (Job({**both, "s.bst": plain["s.bst"] + b"% \xC3\n", "d.bib": plain["d.bib"] + other}, "no") for other in (b"", b"@misc{other, note = {\xE9}}"))
    prefix = files_of("title #1 text.prefix$")
    yield Job({**prefix, "s.bst": prefix["s.bst"] + b"% \xC3\n"}, "no")
    # (each byte of it has to be of a value)
    yield Job({**files_of("title #1 #2 substring$"), "d.bib": "@misc{k, title = {漢}, note = {".encode() + b"\xE6}}"}, "no")
    # (whose part of the list it is)
    label = '"\\bibitem%s" title #1 #1 substring$ * "%s" * cite$ * "}" *'
    items = [label % ends for ends in (("[", "]{"), ("  [[", "]{"), ("[", "] {"), ("{", "]{"), ("[]{", "}"))]
    items += ['"\\bibitem{}"', '"\\bibitem{" cite$ * "} \\bibitems" *', '"\\bibitem" newline$ "{" cite$ * "} \\bibitem{other}" *']
    database = "@misc{k, title = {Über}}\n@misc{other, title = {Ý}, note = {".encode() + b"\xC3}}"
    yield from (Job({**both, "s.bst": plain["s.bst"].replace(item, other.encode()), "d.bib": database}, "no") for other in items)


def spoilt(chance, text):
    """A text in which a few signs are left out, put in or changed."""
    text = bytearray(text)
    for _ in range(chance.randrange(1, 4)):
        at = chance.randrange(len(text))
        text[at:at + chance.randrange(2)] = chance.choice([b"", b"{", b"}", b'"', b"@", b",", b"=", b"#", b"(", b")", b"%", b"\xC9", b"\x01", b"@misc{k1,", b"crossref = {k2},", b"crossref = s,", b"@string{s = {k3}}"])
    return bytes(text)


def text_of(chance):
    """A value with letters, words of several languages, braces and signs."""
    def word():
        kind = chance.random()
        if kind < 0.5:
            return "".join(chr(chance.choice(LETTERS)) if chance.random() < 0.4 else chance.choice("abcdefghijklmnopqrstuvwxyzABCDEFGHIJZ") for _ in range(chance.randrange(1, 9)))
        if kind < 0.8:
            return chance.choice(sum((row.split("|") for row in NAMES.values()), [])).split(",")[0]
        return chance.choice(["and", ",", "von", "{Ö", "}", "{É}", "{\\\"o}", "{\\'e}", "ch", "Dzs", "aa", "LJ", "I", "i", "\\'e", "{{Ś}}", *OTHERS])

    words = [word() for _ in range(chance.randrange(1, 7))]
    text = " ".join(words)
    depth, out = 0, []
    for sign in text:
        if sign == "}" and depth == 0:
            continue
        depth += (sign == "{") - (sign == "}")
        out.append(sign)
    return "".join(out) + "}" * depth


def random_jobs(count, seed):
    chance = random.Random(seed)
    known = languages.languages(languages.constant("LANGUAGES", languages.sources()["languages"])[1])
    for number in range(count):
        entries = []
        for entry in range(chance.randrange(1, 9)):
            author, title = (text_of(chance) for _ in range(2))
            quoted = chance.random() < 0.3 and '"' not in author
            value = f'"{author}"' if quoted else f"{{{author}}}"
            entries.append(f"@misc{{k{entry}, author = {value}, title = {{{title}}}{' # s' if chance.random() < 0.2 else ''}, journal = {{{chance.choice(TITLES)}}}, url = {{é}}}}\n")
        database = f"@string{{s = {{{text_of(chance)}}}}}\n" + "".join(entries)
        is_spoilt = chance.random() < 0.4
        body = chance.choice(REVEALING if chance.random() < 0.15 else BODIES)
        style = SORTED % (" write$ newline$ ".join([body, chance.choice(BODIES)]), chance.choice(["", "ITERATE {presort} SORT"]))
        files = encoded({"job.aux": aux([f"k{entry}" for entry in range(9)][:chance.randrange(1, 9)], "s"), "s.bst": style, "d.bib": spoilt(chance, database.encode("utf8")) if is_spoilt else database})
        yield Job(files, known[number % len(known)][0], chance.choice([None, None, "bytes", "utf8"]))


def all_jobs(count, seed):
    """The jobs that are compared; of those that are made by chance the first `count`."""
    return [*named_jobs(), *special_jobs(), *chosen_jobs(), *half_letter_jobs(), *random_jobs(count, seed)]


def by_search(search, room, job):
    """What the front end answers: the list, the messages, the status, and what it says of letters."""
    for old in room.iterdir():
        old.unlink()
    for name, text in job.files.items():
        (room / name).write_bytes(text)
    words = [f"-letters={job.language}", f"-budget={job.budget}", "-entry-max=500", "-global-max=200000", "-no-explain", *([f"-text={job.text}"] if job.text else [])]
    done = subprocess.run([search, *words, "job"], cwd=room, stdin=subprocess.DEVNULL, capture_output=True)
    log = (room / "job.blg").read_bytes() if (room / "job.blg").exists() else b""
    notes = [line.decode() for line in log.split(b"\n") if line.startswith((b"The list is made with", b"Line ")) and (b"-letters" in line or b"half a letter" in line)]
    made = room / "job.bbl"
    return {"list": base64.b64encode(made.read_bytes() if made.exists() else b"").decode(), "messages": shown(of_front(log)), "status": done.returncode, "notes": notes}


def shown(messages):
    return [message.decode("utf8", "backslashreplace") for message in messages]


def by_package(jobs):
    lines = "".join(f"{job.words()}\n" for job in jobs)
    ran = subprocess.run(["node", str(ROOT / "web/compare.mjs")], input=lines, stdout=subprocess.PIPE, text=True, check=True)
    for line in ran.stdout.splitlines():
        made = json.loads(line)
        log = base64.b64decode(made.pop("log"))
        yield {**made, "messages": shown(of_program(log))}


def compare(search, jobs):
    """How many jobs differ, how many lists were made with the letters of a language, how many without, and why."""
    failed, coded, left, reasons = 0, 0, 0, set()
    environment = {name: "" for name in ("BSTINPUTS", "BIBINPUTS")}
    os.environ.update(environment)
    with tempfile.TemporaryDirectory() as room:
        for number, (job, found) in enumerate(zip(jobs, by_package(jobs))):
            wanted = by_search(search, pathlib.Path(room), job)
            is_left = any("made without" in note for note in wanted["notes"])
            left += is_left
            reasons.update(wanted["notes"][:1] if is_left else [])
            coded += job.language != "no" and not is_left
            if found != wanted:
                failed += 1
                differing = [name for name in wanted if wanted[name] != found.get(name)]
                print(f"FAILED: job {number}, {job.language}, text {job.text}, differs in {differing}: {[(wanted[name], found.get(name)) for name in differing]} {str(job.files)[:3000]}")
    return failed, coded, left, len(reasons)


def table_faults():
    """What is wrong in how the table is taken over: it is in the package as it stands, and a table that isn't understood is refused."""
    sources = languages.sources()
    made = ROOT / "web/npm/languages.js"
    if made.read_text(encoding="utf8") != languages.script(sources):
        yield "web/npm/languages.js isn't what the front end's tables give: run web/build"
    for old, new in SPOILT:
        spoilt = {name: text.replace(old, new, 1) for name, text in sources.items()}
        try:
            languages.script(spoilt)
            yield f"a table without {old} is taken"
        except languages.Unknown:
            pass


def main():
    words = argparse.ArgumentParser(description="The letters of a language in the package, beside bibtex-search.")
    words.add_argument("--jobs", type=int, default=300)
    words.add_argument("--seed", type=int, default=1)
    words.add_argument("search")
    given = words.parse_args()
    faults = list(table_faults())
    jobs = all_jobs(given.jobs, given.seed)
    failed, coded, left, reasons = compare(os.path.abspath(given.search), jobs)
    # (a comparison in which next to nothing is coded would say nothing)
    faults += [f"only {count} jobs {what}" for count, least, what in ((coded, len(jobs) // 2, "have coded letters"), (left, 20, "are left out"), (reasons, 5, "are left out for another reason")) if count < least]
    print("\n".join(f"FAILED: {fault}" for fault in faults), end="\n" if faults else "")
    print(f"{len(jobs)} jobs with letters, {coded} of them coded and {left} left out")
    total = len(jobs) + len(SPOILT) + 4
    print(f"{total - failed - len(faults)} passed, {failed + len(faults)} failed")
    return bool(failed or faults)


if __name__ == "__main__":
    sys.exit(main())
