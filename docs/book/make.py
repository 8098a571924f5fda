"""Weaves the book of definitions, and checks it.

    python3 docs/book/make.py             writes book.html, worked.html and book.md into docs/book/out, and where the module of `make web` is there, book-runs.js
    python3 docs/book/make.py --pdf       prints book.pdf, too, where there is chromium
    python3 docs/book/make.py --check     only checks
    python3 docs/book/make.py --figures   writes what it counts of definitions and lines into the documents that say it, before it checks (figures.py has all other figures)

The book has every definition that the contract of `run` reaches (the language) and every one that only laws reach, in the order of chapters.txt. A line is
printed for: a definition in the book without a comment, a name that means nothing, a definition that stands in no chapter, a module in chapters.txt
that has none, a word of the library that words.txt doesn't explain or whose example isn't so, a link of the front matter to what isn't there, a number of definitions in README that isn't right, a definition that uses one of a later chapter, a section without a rule or without
an example, a rule or an example that isn't there, a link of the woven pages that leads nowhere. chapters.txt says how many of some of these are allowed. The last line is 'N passed, M failed', of
definitions, names, sections, rules and examples, and the exit status is 0 only where M is 0.

A PDF with links: pandoc book.md -o book.pdf --pdf-engine=lualatex (with the fonts DejaVu), or --pdf, which has the book's own pages.

Which definitions have to be believed is counted by what their texts name; the checker isn't asked."""

import functools
import html
import pathlib
import re
import shutil
import subprocess
import sys
import tempfile

import believed
import bibtex_names
import carried
import cases
import chapters
import counts
import definitions
import differences
import edition
import evidence
import examples
import figures
import functions
import glossary
import layout
import links
import manuals
import modules
import own_rules
import reach
import rules
import runs
import weave_html
import weave_markdown

HERE = pathlib.Path(__file__).parent
OUT = HERE / "out"
# Where documents say how many definitions of how many lines there are: the document, an expression whose groups are the numbers, and which of `figures` they are. Each place is to have the
# numbers that the script counts.
NUMBER = r"(\d[\d,]*\d|\d)"
ROW = rf".*\| {NUMBER} \| {NUMBER} \|$"
FIGURES = [
    ("README.md", rf"some {NUMBER} definitions of {NUMBER} lines", "believed"),
    ("docs/PROOFS.md", rf"some {NUMBER} definitions of {NUMBER} lines", "believed"),
    ("docs/ASSUMPTIONS.md", rf"some {NUMBER} definitions of {NUMBER} lines", "believed"),
    ("docs/DECISIONS.md", rf"\*\*{NUMBER} definitions of {NUMBER} lines have to be believed", "believed"),
    ("CHANGELOG.md", rf"It is {NUMBER} definitions of {NUMBER} lines, where 708 of 2,960 were", "believed"),
    ("docs/book/README.md", rf"(?m)^\| believed \|{ROW}", "believed"),
    *(("docs/book/README.md", rf"(?m)^\| {name} \|{ROW}", name) for name in ("language", "laws", "refinement")),
    ("docs/book/README.md", rf"`IsProduct` reaches {NUMBER} definitions of {NUMBER} lines", "relation"),
    ("docs/book/README.md", rf"is {NUMBER} definitions of {NUMBER} lines", "heart"),
    ("docs/book/README.md", rf"\({NUMBER} with their comments\), and {NUMBER} types of the program of {NUMBER} lines", "types"),
    ("docs/book/README.md", rf"The other {NUMBER} lines are the two clauses", "others"),
    ("docs/PROOFS.md", rf"The {NUMBER} definitions are those that `written` and `broken_off` reach", "count"),
    ("docs/PROOFS.md", rf"the relation has {NUMBER}, of them {NUMBER} its heart", "lines"),
    ("docs/PROOFS.md", rf"is made of has {NUMBER} lines, of them {NUMBER} its heart", "lines"),
    ("docs/DECISIONS.md", rf"has {NUMBER} lines, of them {NUMBER} its heart", "lines"),
    ("docs/ASSUMPTIONS.md", rf"clean styles {NUMBER} definitions of {NUMBER} lines", "clause-check"),
    *(("README.md", rf"{promise} {NUMBER} of {NUMBER}", clause)
      for promise, clause in (("devices' faults", "clause-counts"), ("larger budgets", "clause-budget"), ("clean styles", "clause-check"), ("ending styles", "clause-ends"))),
]
# An anchor of a woven page, and a link; most have no quotes. And how many bytes a page may have.
ANCHOR = re.compile(r"""<[^<>]* id=("[^"]*"|[^\s>]+)""")
LINK = re.compile(r"""<a [^<>]*href=("[^"]*"|[^\s>]+)""")
MOST_BYTES = 3_000_000
# The browser that prints the book, and how many seconds it may take.
BROWSERS, PATIENCE = ("chromium", "chromium-browser", "google-chrome"), 1800


class Front:
    """A chapter of the book's own words, from a file of this folder."""

    def __init__(self, file, title, anchor):
        self.file, self.title, self.anchor = file, title, anchor
        self.blocks = [block if file != "title.md" else edition.filled(block) for block in re.split(r"\n\n+", (HERE / file).read_text(encoding="utf-8").strip())]


class Book:
    """What is woven: the chapters with their definitions, the examples by their names, and what is wrong."""

    def __init__(self):
        self.reach = reach.Reach()
        self.found = self.reach.language + self.reach.laws
        self.chapters, self.allowed = chapters.read(chapters.FILE.read_text(encoding="utf-8"))
        self.lost = chapters.place(self.chapters, self.found)
        self.sections = [section for chapter in self.chapters for section in chapter.sections]
        self.passed, self.wrong, self.examples, self.rules = 0, [], {}, rules.headings()
        self.by_id = {name: it for it in self.found for name in (it.id, it.id.removesuffix("-type"))}
        for it in (*self.chapters, *self.sections):
            it.opening = counts.filled(it.opening, self)
        self.title = Front("title.md", edition.TITLE, "title")
        self.first = Front("notation.md", "How to read this book", "notation")
        self.carried = Front("carried.md", "One job, carried through the relation", "carried")
        self.signs = Front("signs.md", "The notation in short", links.heading_id("The notation in short"))
        self.last = Front("appendix.md", "The notation, sign by sign, questions and words", "appendix")

    @functools.cached_property
    def markdown(self):
        return weave_markdown.book_markdown(self)

    @property
    def summary(self):
        """What there is to read, in numbers. tests/documents/browser.py counts the pages on paper."""
        all_of_it, others = self.reach.believed, [it for it in self.found if not it.is_believed]
        heart, pages = believed.heart_of(believed.definitions_of(self.reach.relation)), next(it.numbers for it in figures.read()[0] if it.name == "pages")
        return (f"This book says which bytes this program writes for a job: those of BibTeX 0.99d but for [{len(differences.leads())} differences](#differences), each of which has a sign where "
                f"a rule or a definition meets it. Its [core](#ch1) is {counted(heart, ' of ')}, some {pages['core']} pages on paper, "
                f"and needs no other page to be understood. All that has to be believed is {counted(all_of_it, ' of ')}, some {pages['believed']} pages on paper. {counts.core(self)} {counts.all_believed(self)} "
                "Most questions about the program are answered before these pages, by [the rules in words](#rules). "
                f"{len(others):,} more definitions, of {reach.lines_in(others):,} lines, say the same as a program would, and are laws and worked examples: nobody has to read them for what a run writes.")

    # ---- checks ----

    def check(self, is_right, message):
        self.passed += bool(is_right)
        if not is_right:
            self.wrong.append(message)

    def check_few(self, what, messages, total):
        """What may occur as often as chapters.txt allows, and no more."""
        most = self.allowed.get(what, 0)
        if len(messages) > most:
            self.wrong += [f"{message} ({len(messages)} {what}, and {most} are allowed)" for message in messages]
        elif len(messages) < most:
            print(f"{len(messages)} {what}: chapters.txt still allows {most}, write {len(messages)} there")
        self.passed += total - len(messages)

    def check_all(self):
        for it in self.found:
            self.check(not it.unknown, f"{where(it)}: unknown names in `{it.name}`: {', '.join(sorted(it.unknown))}")
            self.check(layout.is_whole(it), f"{where(it)}: not all of `{it.name}` is printed")
            self.check(it not in self.lost, f"{where(it)}: `{it.module}` stands in no chapter, and `{it.name}` belongs into the book")
        silent = [f"{where(it)}: `{it.name}` has no comment" for it in self.found if not it.comment]
        self.check_few("definitions without a comment", silent, len(self.found))
        self.check_order()
        forward = [f"{where(it)}: `{it.name}` uses `{used.name}` of a later chapter" for it, used in chapters.forward_references(self.found, self.chapters)]
        self.check_few("forward references between chapters", forward, len(self.found))
        self.check_folders()
        self.check_believed()
        self.check_sections()
        self.check_words()
        self.check_notation()
        self.check_links()
        self.check_sizes()
        self.check_tables()

    def check_order(self):
        """In a chapter that is read from the top downwards each definition stands before those of its file that it is made of, and no file has a number. A long line that is to be
        believed has its arrows in front."""
        for it, used in chapters.upwards(self.chapters):
            self.check(False, f"{where(it)}: `{it.name}` is made of `{used.name}`, which stands before it")
        for section in self.sections:
            for module, found in section.parts:
                numbered = [file for file, intro in chapters.files_of(module, found) if re.search(chapters.NUMBER_OF_FILE, "\n".join(intro))]
                self.check(not numbered, f"chapters.txt, `{section.title}`: the number of {numbered} is printed")
        for it in self.reach.believed:
            self.check(not any(line.endswith("→") and not cases.OPEN.match(line) for line in layout.shown(it)[1:]), f"{where(it)}: a line of `{it.name}` ends with an arrow")

    def check_tables(self):
        """The tables of docs/RULES.md from which the index and the table of functions are made."""
        lacking = bibtex_names.lacking() + functions.lacking(self.by_id)
        self.check(not lacking, "; ".join(lacking))
        wrong = list(differences.wrong_in(self.by_id)) + list(own_rules.wrong_in(self.by_id)) + list(edition.wrong_in_renamed())
        wrong += list(modules.wrong_in(self.by_id, [row[0].strip("`") for row in functions.rows_of_rules()])) + list(manuals.wrong_in(self.sections))
        wrong += list(carried.wrong())
        wrong += list(evidence.wrong_in([section for section in self.sections if section.is_believed], own_rules.names_in))
        self.passed += len(differences.leads()) + len(own_rules.by_definition()) + len(edition.renamed()) + len(modules.table()) + len(evidence.rows())
        self.wrong += wrong

    def check_folders(self):
        """Each folder of specs/ has what it is named after, definition by definition (`folder_wanted` of reach.py)."""
        all_of_it = [it for module in definitions.all_modules() for it in module.definitions if definitions.folder_of(it.file)]
        misplaced = [it for it in all_of_it if definitions.folder_of(it.file) != reach.folder_wanted(it)]
        self.check_few("definitions in another folder of specs", [f"{where(it)}: `{it.name}` belongs into specs/{reach.folder_wanted(it)}" for it in misplaced], len(all_of_it))

    def check_believed(self):
        """What has to be believed has no program in it, and isn't longer than it may be."""
        wrong = list(believed.wrong_in(self.reach.believed, {it.id: it for module in definitions.all_modules() for it in module.definitions} | self.by_id))
        self.passed += len(self.reach.believed) - len(wrong)
        self.wrong += [f"{where(it)}: `{it.name}`: {said}" if it else said for it, said in wrong]
        self.wrong += list(believed.sizes_wrong(self.reach.relation))

    def check_sections(self):
        for section in self.sections:
            for module, found in section.parts:
                self.check(found, f"chapters.txt, `{section.title}`: nothing of `{module}` belongs into the book")
            for rule in section.rules:
                self.check(rule in self.rules, f"chapters.txt, `{section.title}`: docs/RULES.md has no heading `{rule}`")
            for name in section.examples:
                self.check_example(section, name)
        self.check_examples()
        for what, has in (("rule", lambda section: section.rules), ("example", lambda section: section.examples)):
            without = [section for section in self.sections if not has(section)]
            self.check_few(f"sections without {'an' if what == 'example' else 'a'} {what}",
                           [f"chapters.txt, `{section.title}`: no {what}" for section in without], len(self.sections))
            for section in without:
                self.check(section.reason, f"chapters.txt, `{section.title}`: a line `none: REASON` is to say why it has no {what}")

    def check_examples(self):
        """Among what has to be believed each example stands once and has a caption."""
        found = [(section, name) for section in self.sections if section.is_believed for name in section.examples if name in self.examples]
        names = [name for _, name in found]
        for section, name in found:
            self.check(names.count(name) == 1, f"chapters.txt, `{section.title}`: the example `{name}` stands in another section that has to be believed, too")
            self.check(layout.caption(section, name, self.examples[name]), f"chapters.txt, `{section.title}`: the example `{name}` has no caption")

    def check_example(self, section, name):
        try:
            self.examples[name] = chapters.example(name, set(self.found))
            unknown = sorted(self.examples[name].row.unknown)
            self.check(not unknown, f"chapters.txt, `{section.title}`: unknown names in an example: {', '.join(unknown)}")
        except LookupError as error:
            self.check(False, f"chapters.txt, `{section.title}`: {error}")

    def check_words(self):
        known, used = glossary.meanings(), glossary.uses(self.found)
        for word in sorted(used):
            self.check(word in known, f"{where(used[word][0])}: words.txt doesn't explain `{word}`")
        for word in known:
            self.check(word in used, f"words.txt: no definition uses `{word}`")
        for word, example in glossary.examples().items():
            self.check(examples.holds(example), f"words.txt: the example of `{word}` isn't so: {example}")

    def check_notation(self):
        for front in (self.first, self.last):
            for block in [it for it in front.blocks if it.startswith("@show ")]:
                is_there = block[6:].replace("::", ".") in self.by_id
                self.check(is_there, f"{front.file}: the book has no definition `{block[6:]}`")
                if not is_there:
                    front.blocks.remove(block)

    def check_links(self):
        """The definitions that the front matter and the openings of chapters name, and the words that the front matter explains."""
        texts = {front.file: "\n".join(front.blocks) for front in (self.title, self.first, self.carried, self.signs, self.last)}
        texts |= {f"chapters.txt, `{it.title}`": it.opening for it in (*self.chapters, *self.sections)}
        found = [(place, name) for place, text in texts.items() for name in links.named_in(text)]
        found += [(file, name) for file in ("terms.txt", "questions.txt") for row in links.rows(file) for name in row.names]
        for place, name in found:
            it = self.by_id.get(links.key(name))
            self.check(it, f"{place}: the book has no definition `{name}`")
            self.check(place != "questions.txt" or not it or is_believed(it), f"{place}: nobody has to believe `{name}`, so no question leads there")
        for it in (*self.chapters, *self.sections):
            self.check(not counts.UNFILLED.search(it.opening), f"chapters.txt, `{it.title}`: nothing is counted for {counts.UNFILLED.findall(it.opening)} (counts.py)")
        comments = " ".join(" ".join(it.comment) for it in self.found).lower()
        for row in links.rows("terms.txt"):
            self.check(row.word.split()[0].lower() in comments, f"terms.txt: no comment uses the word `{row.word}`")

    def figures(self):
        """What the script counts: for each name how many definitions of how many lines, and of the relation and its heart how many lines. `types` are the relation's lines with their comments,
        and its types of the program; `others` the lines that are neither."""
        relation = believed.definitions_of(self.reach.relation)
        heart = believed.heart_of(relation)
        found = {"believed": self.reach.believed, "relation": relation, "heart": heart, "language": self.reach.language, "laws": self.reach.laws, "refinement": self.reach.refinement}
        sizes = {name: (len(those), reach.lines_in(those)) for name, those in (found | self.reach.further).items()}
        types = [it for it in self.reach.relation if it not in relation]
        sizes["types"] = with_comments(relation), len(types), reach.lines_in(types)
        sizes["others"] = (sizes["believed"][1] - sizes["relation"][1] - sizes["types"][2],)
        return sizes | {"count": sizes["believed"][:1], "lines": (sizes["relation"][1], sizes["heart"][1])}

    def places_of_figures(self):
        """Where documents say how much has to be believed, beside FIGURES the promises that docs/PROOFS.md lists. A line may end at each space."""
        places = FIGURES + [("docs/PROOFS.md", rf"\(#{place}\) \| {NUMBER} \| {NUMBER} \|", place) for place, found in self.reach.further.items() if found]
        return [(name, said.replace(" ", r"\s+"), what) for name, said, what in places]

    def check_sizes(self):
        """What documents say of how much has to be believed: the numbers that are counted, in each place."""
        sizes = self.figures()
        for name, said, what in self.places_of_figures():
            found = [it.groups() for it in re.finditer(said, (chapters.ROOT / name).read_text(encoding="utf-8"))]
            right = tuple(f"{number:,}" for number in sizes[what])
            self.check(found and all(it == right for it in found), f"{name}: it says {found} of {what}, and there are {right} (make.py --figures writes them)")
        for message, is_right in figures.verdicts():
            self.check(is_right, message)

    def write_figures(self):
        """Puts the numbers that are counted where documents say them."""
        sizes = self.figures()
        for name, said, what in self.places_of_figures():
            path = chapters.ROOT / name
            text = path.read_text(encoding="utf-8")
            path.write_text(re.sub(said, functools.partial(with_numbers, sizes[what]), text), encoding="utf-8")

    # ---- what is printed ----

    def print_reach(self):
        language, laws, others = self.reach.language, self.reach.laws, self.reach.refinement
        in_public = sum(bool(it.carriers) for it in others)
        print("Lines are counted without comments, blank lines and `use` lines.")
        print(f"believed: {counted(self.reach.believed)}, which have to be believed; with their comments {with_comments(self.reach.believed):,} lines. Of these")
        relation = believed.definitions_of(self.reach.relation)
        types = [it for it in self.reach.relation if it not in relation]
        print(f"  the relation: {counted(relation)} (at most {believed.MOST_LINES:,} lines), with their comments {with_comments(relation):,} lines, over {len(types):,} types of the program, "
              f"{reach.lines_in(types):,} lines")
        print(f"  its heart: {counted(believed.heart_of(relation))} (at most {believed.MOST_OF_THE_HEART:,} lines)")
        for place, found in self.reach.further.items():
            print(f"  {place} takes {counted(found)} beside these")
        print(f"language: {len(language):,} definitions, {reach.lines_in(language):,} lines, which the other clauses of `run` reach")
        print(f"laws: {len(laws):,} more, {reach.lines_in(laws):,} lines")
        print(f"refinement: {len(others):,} others, {reach.lines_in(others):,} lines, of which {in_public:,} stand in a public contract")

    def check_markdown(self, text):
        """In Markdown's code no sign has a backslash before it that a reader would see."""
        blocks = re.findall(r"(?ms)^```.*?^```$|(?<=\n\n)(?:    [^\n]*\n)+(?=\n)", text)
        self.check(not any(r"\$" in block for block in blocks), "book.md: a `$` of its code has a backslash before it")

    def check_pages(self, pages):
        """The woven pages: none is larger than it may be, and each link within them leads somewhere."""
        anchors = {name: set(values_of(ANCHOR, text)) for name, text in pages.items()}
        for name, text in pages.items():
            size = len(text.encode())
            self.check(size <= MOST_BYTES, f"{name} has {size:,} bytes, and at most {MOST_BYTES:,} are wanted")
            within = [(link, *link.partition("#")[::2]) for link in values_of(LINK, text) if "#" in link and ":" not in link]
            dead = sorted({link for link, page, place in within if place not in anchors.get(page or name, ())})
            self.check(not dead, f"{name}: {len(dead)} links lead nowhere: {', '.join(dead[:5])}")

    def write(self):
        OUT.mkdir(exist_ok=True)
        pages = weave_html.book_html(self)
        self.check_pages(pages)
        for name, made in (pages | {"book.md": self.markdown}).items():
            (OUT / name).write_text(made, encoding="utf-8")
            print(f"{(OUT / name).relative_to(chapters.ROOT)}: {len(made) / 1e6:.1f} MB")
        self.write_runs()

    def print_pages(self):
        """The book on paper, where there is a browser."""
        browser, printed = next((found for found in map(shutil.which, BROWSERS) if found), None), OUT / "book.pdf"
        printed.unlink(missing_ok=True)
        if browser is None:
            print("no book.pdf: it needs chromium")
            return
        with tempfile.TemporaryDirectory(prefix="book-") as room:
            flags = ["--headless", "--no-sandbox", "--disable-gpu", f"--user-data-dir={room}", "--no-pdf-header-footer", f"--print-to-pdf={printed}"]
            subprocess.run([browser, *flags, (OUT / weave_html.BOOK).as_uri()], stdout=subprocess.DEVNULL, stderr=subprocess.DEVNULL, check=False, timeout=PATIENCE)
        print(f"{printed.relative_to(chapters.ROOT)}: {printed.stat().st_size / 1e6:.1f} MB" if printed.is_file() else "no book.pdf: the browser didn't print it")

    def write_runs(self):
        """What runs the examples of the pages, beside them; it needs the module of `make web`."""
        (OUT / weave_html.RUNS).unlink(missing_ok=True)
        if not runs.MODULE.is_file():
            print(f"no {weave_html.RUNS}, by which the examples can be run: it needs {runs.MODULE.relative_to(chapters.ROOT)} (make web)")
            return
        made = runs.script(self)
        (OUT / weave_html.RUNS).write_text(made, encoding="utf-8")
        jobs, others = runs.of_sections(self)
        print(f"{(OUT / weave_html.RUNS).relative_to(chapters.ROOT)}: {len(made) / 1e6:.1f} MB; {len(runs.of_rules())} examples of the rules and {len(jobs)} worked examples can be run, "
              f"and {len(others)} worked examples are values that no run shows")


def is_believed(it):
    """Whether a definition, or a contract, stands among what has to be believed."""
    return it.is_believed or it.kind == "contract"


def with_numbers(numbers, match):
    """A text that was matched, with these numbers in the place of its groups."""
    return figures.with_texts(match, [f"{number:,}" for number in numbers])


def values_of(attribute, text):
    """The values of an attribute in a page, without their quotes."""
    return [html.unescape(value.strip('"')) for value in attribute.findall(text)]


def counted(found, between=", "):
    """The number of some definitions and of their lines, in words."""
    return f"{len(found):,} definitions{between}{reach.lines_in(found):,} lines"


def with_comments(found):
    """The number of lines of some definitions and their comments."""
    return reach.lines_in(found) + reach.lines_of_comments(found)


def where(it):
    return f"{it.file.relative_to(chapters.ROOT)}, line {it.line}"


def main():
    sys.setrecursionlimit(10_000)
    book = Book()
    if "--figures" in sys.argv[1:]:
        book.write_figures()
    book.check_all()
    book.check_markdown(book.markdown)
    if "--check" not in sys.argv[1:]:
        book.write()
    for message in book.wrong:
        print(message)
    book.print_reach()
    if "--pdf" in sys.argv[1:]:
        book.print_pages()
    print(f"{book.passed} passed, {len(book.wrong)} failed")
    return bool(book.wrong)


if __name__ == "__main__":
    raise SystemExit(main())
