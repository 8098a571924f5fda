"""Looks at the book of definitions in a real browser, as a reader does: on a screen, a tablet and a phone, light and dark, printed, and by keyboard.

    python3 tests/documents/browser.py

It needs docs/book/out (`make book`) and Debian's chromium; where that isn't there, a line says so, and only the structure of the HTML is looked at. pdftotext shows
the printed pages, where it is there, and how many of them the core takes and all that has to be believed. A browser that gives no answer within PATIENCE seconds, or doesn't print
the book within PATIENCE_OF_PRINTING, is one failure. The last line is 'N passed, M failed'."""

import html
import json
import math
import os
import pathlib
import re
import shutil
import subprocess
import sys
import tempfile

ROOT = pathlib.Path(__file__).resolve().parents[2]
OUT = ROOT / "docs/book/out"
PAGES = ("book.html", "worked.html")
WIDTHS = (1280, 768, 390)
MOST_BYTES = 3_000_000
# How many seconds the browser may take for one page: it takes some ten on a machine of its own.
PATIENCE = 600
# And for printing the book, which takes a minute or two, on a machine that does many other things.
PATIENCE_OF_PRINTING = 1800
# How many milliseconds a page of a few words takes at most until it is seen, on a machine that isn't busy.
IDLE_PAINT = 150
# And how many the book may take.
MOST_PAINT = 500
# How many pages of A4 the core may take at most.
MOST_PAGES_OF_THE_CORE = 12
# An anchor, and a link: most have no quotes.
ANCHOR = re.compile(r"""<[^<>]* id=("[^"]*"|[^\s>]+)""")
LINK = re.compile(r"""<a [^<>]*href=("[^"]*"|[^\s>]+)""")
# What is asked of a page in the browser: a name, and an expression in which `page` is its window and `all` answers what a selector finds.
ASKED = {
    "nothing is wider than the page": "page.document.documentElement.scrollWidth <= page.innerWidth",
    "code keeps its spaces": "all('code').every((it) => style(it).whiteSpace === 'pre-wrap' || style(it).whiteSpace === 'pre')",
    "code is nearly as large as text": "all('p code').slice(0, 300).every((it) => parseFloat(style(it).fontSize) >= 0.8 * parseFloat(style(it.parentElement).fontSize))",
    "comments in code don't hang": "all('pre .c').every((it) => style(it).textIndent === '0px')",
    "comments in code keep their line's indent": """all('pre .l.c').every((it) => parseFloat(style(it).paddingLeft) >= parseFloat(style(it).fontSize) * 0.55 *
        Number(it.style.getPropertyValue('--i') || 0))""",
    "names in the first column of tables are whole": "all('.wide td:first-child > span code').every((it) => it.getClientRects().length === 1)",
    "options are whole": "all('code.whole').every((it) => it.getClientRects().length <= 1)",
    "questions stand out": "all('.asked td:first-child').every((it) => style(it).fontWeight >= 600)",
    "all that can be clicked can be reached by keyboard": "all('a, input').every((it) => it.tabIndex === 0) && !all('[tabindex]').length",
    "definitions that aren't seen aren't drawn": "all('section').every((it) => style(it).contentVisibility === 'auto' || page.innerWidth >= 1184)",
    "text is 11 pixels at least": "all('p, pre, td, li, footer, aside').every((it) => parseFloat(style(it).fontSize) >= 11)",
}
# What is asked of the book alone.
ASKED_OF_BOOK = {
    "a paragraph isn't joined in its code": "all('code').some((it) => it.textContent.includes('  '))",
    "code is copied as it stands": """(() => {
        const shown = [...page.document.getElementById('text.Elements.kind_at').querySelectorAll('pre')][0];
        page.getSelection().selectAllChildren(shown);
        return page.getSelection().toString().includes('byte "{" then Open') && /\\n {4}else/.test(page.getSelection().toString());
    })()""",
    "what is typed is found by the search field": """['substring$', 'ITERATE', '--budget', 'is_wanted', 'bad cross reference', 'special character', 'line length', '79', 'exit status',
            'whitespace', 'abbreviation', 'last name', 'and others', 'utf-8', 'Unicode', 'accent', 'memory', 'byte-order mark', 'carriage return', 'line breaking', 'equal keys',
            'IsProduct', 'Ties in formatted names'].every((name) => {
        const field = page.document.getElementById('find');
        field.value = name;
        field.dispatchEvent(new page.Event('input'));
        const first = page.document.querySelector('#met a');
        return first && page.document.getElementById(decodeURIComponent(first.hash.slice(1)));
    })""",
    "rules are found before terms, differences, questions and names, and what has to be believed before the rest": """['brace', 'key', 'line', 'quote'].every((typed) => {
        const field = page.document.getElementById('find'), order = ['Rules', 'Terms', 'Differences', 'Questions', 'Definitions', 'Definitions that nobody has to believe'];
        field.value = typed;
        field.dispatchEvent(new page.Event('input'));
        const found = all('#met b').map((it) => order.indexOf(it.textContent));
        return found.length > 3 && found.every((it, at) => it > (at ? found[at - 1] : -1));
    })""",
    "a name of BibTeX is found first": """['substring$', 'quote$', 'crossref', 'if$', 'READ'].every((name) => {
        const field = page.document.getElementById('find');
        field.value = name;
        field.dispatchEvent(new page.Event('input'));
        return page.document.querySelector('#met a').textContent === name;
    })""",
    "each function of styles has a block, to which its rule leads": """all('.rules td:first-child > span > a').length === 37 && all('.rules td:first-child > span > a').every((it) => {
        const block = page.document.getElementById(it.hash.slice(1));
        return block && block.querySelector('h4 code').textContent === it.textContent && block.querySelector('pre') && /bibtex.web \\d/.test(block.textContent);
    })""",
    "what has to be believed has its evidence beside it": "all('.rule').filter((it) => /^Compared with the original: [1-9]/.test(it.textContent)).length >= 17",
    "the field is above the contents": "page.document.getElementById('find').compareDocumentPosition(page.document.getElementById('contents')) === 4",
    "Enter goes to what was found": """(() => {
        const field = page.document.getElementById('find');
        field.value = 'while$';
        field.dispatchEvent(new page.Event('input'));
        field.dispatchEvent(new page.KeyboardEvent('keydown', { key: 'Enter' }));
        return page.location.hash === '#name-while';
    })()""",
    "the field stays in sight": "(page.scrollTo(0, 40000), page.document.querySelector('.tools').getBoundingClientRect().top >= -1)",
}
HARNESS = """<!doctype html><meta charset="utf-8"><body><pre id="result">{}</pre><script>
const asked = %s, result = {};
const frames = %s.map(([file, width]) => new Promise((done) => {
  const frame = document.createElement("iframe");
  frame.style.width = width + "px"; frame.style.height = "900px"; frame.style.border = "0";
  frame.onload = () => {
    const page = frame.contentWindow, style = (it) => page.getComputedStyle(it), all = (selector) => [...page.document.querySelectorAll(selector)];
    for (const [name, text] of asked[file]) {
      try { result[file + ", " + width + " px: " + name] = Boolean(eval(text)); } catch (error) { result[file + ", " + width + " px: " + name] = String(error); }
    }
    result[file + ", " + width + " px: background"] = style(page.document.body).backgroundColor;
    done();
  };
  frame.src = file;
  document.body.append(frame);
}));
Promise.all(frames).then(() => { document.getElementById("result").textContent = JSON.stringify(result); document.title = "done"; });
</script>"""


class Checks:
    def __init__(self):
        self.passed, self.failed = 0, 0

    def check(self, is_right, message):
        self.passed += bool(is_right)
        if not is_right:
            self.failed += 1
            print(f"FAILED: {message}")


def browser():
    return next((found for found in map(shutil.which, ("chromium", "chromium-browser", "google-chrome")) if found), None)


def run(program, room, *words, patience=PATIENCE):
    flags = ["--headless", "--no-sandbox", "--disable-gpu", "--hide-scrollbars", "--no-first-run", f"--user-data-dir={room}/profile", "--allow-file-access-from-files"]
    try:
        return subprocess.run([program, *flags, *words], capture_output=True, text=True, errors="replace", timeout=patience, env={**os.environ, "HOME": str(room)})
    except subprocess.TimeoutExpired:
        return subprocess.CompletedProcess(words, 1, "", f"no answer within {patience} seconds")


def asked_of(program, room, asked, frames, *flags):
    """What the browser answers of pages in frames of some widths. The page around them is loaded once they are, and is then printed."""
    (room / "harness.html").write_text(HARNESS % (json.dumps(asked), json.dumps(frames)), encoding="utf-8")
    ran = run(program, room, *flags, "--window-size=1400,1000", "--dump-dom", (room / "harness.html").as_uri())
    found = re.search(r'<pre id="result">(.*?)</pre>', ran.stdout, re.S)
    return json.loads(html.unescape(found[1])) if found else {}


def found_in(attribute, text):
    """The values of an attribute in a page, without their quotes."""
    return [html.unescape(value.strip('"')) for value in attribute.findall(text)]


def check_structure(checks):
    """What can be seen of the HTML without a browser."""
    for name in PAGES:
        text = (OUT / name).read_text(encoding="utf-8")
        checks.check(len(text.encode()) <= MOST_BYTES, f"{name} has {len(text.encode()):,} bytes, and at most {MOST_BYTES:,} are wanted")
        prose = html.unescape(re.sub(r"<(pre|code|style|script)\b.*?</\1>|<[^>]*>", " ", text, flags=re.S))
        checks.check("**" not in prose, f"{name}: a bold mark isn't rendered: {prose[max(0, prose.find('**') - 40):][:80]}")
        checks.check(not re.search(r"(==|\|\||&amp;&amp;)(</a>)?</span><span class=l\b", text), f"{name}: a line of code ends behind a sign that joins")
        checks.check("prefers-color-scheme:dark" in text, f"{name} has no colours for the dark")
        checks.check(re.search(r"version \d[\w.]*, \d{4}-\d\d-\d\d", prose), f"{name} doesn't say its version and day")
        checks.check("carried by" not in prose, f"{name} names what carries each definition")
        ids = found_in(ANCHOR, text)
        checks.check(len(ids) == len(set(ids)), f"{name}: an anchor stands twice: {sorted(it for it in set(ids) if ids.count(it) > 1)[:3]}")
        others = {other: set(found_in(ANCHOR, (OUT / other).read_text(encoding="utf-8"))) for other in PAGES}
        lost = [link for link in found_in(LINK, text) if "#" in link and link.partition("#")[2] not in others.get(link.partition("#")[0] or name, ())]
        checks.check(not lost, f"{name}: {len(lost)} links lead nowhere: {lost[:3]}")
    book = (OUT / PAGES[0]).read_text(encoding="utf-8")
    contents = re.search(r'<nav id=contents>.*?</nav>', book, re.S)[0]
    checks.check(re.search(r'href=#s1\.1>1\.1 ', contents), "the contents have no numbers of sections")
    checks.check(all(f'href=#{anchor}>' in contents for anchor in ("rule-databases", "read-questions-and-where-the-book-answers-them")), "the contents lack the rules or the questions")
    checks.check("<small>" not in contents, "the contents have numbers that look like those of pages")
    checks.check(re.search(r'<a class=number href=#text\.Class\.is_white>', book), "a definition's number is no link to itself")
    checks.check(not re.search(r'<p>[^<]*<span class=file>[^<]*</span> [A-Z]', book), "what two files say at their fronts stands in one paragraph")
    checks.check(re.search(r"(?m)^#+ Index", (OUT / "book.md").read_text(encoding="utf-8")), "book.md has no index")


def check_screens(checks, program, room):
    """The pages on screens of some widths, in the light and in the dark."""
    for page in PAGES:
        asked = {page: [*ASKED.items(), *(ASKED_OF_BOOK.items() if page == PAGES[0] else [])]}
        for width in WIDTHS:
            light = asked_of(program, room, asked, [(page, width)], "--blink-settings=preferredColorScheme=1")
            checks.check(light, f"{page}, {width} px: the browser answers nothing")
            for name, answer in light.items():
                checks.check(brightness(answer) > 200 if name.endswith("background") else answer is True, f"{name} ({answer})")
        for name, answer in asked_of(program, room, {page: []}, [(page, WIDTHS[0])], "--blink-settings=preferredColorScheme=0").items():
            checks.check(brightness(answer) < 80, f"{name}: {answer} in the dark")


def brightness(colour):
    numbers = [float(number) for number in re.findall(r"[\d.]+", colour)][:3]
    return sum(numbers) / max(len(numbers), 1)


def check_paint(checks, program, room):
    """How soon the book is seen first, by the browser's own clock; the best of three times, before and after each of which a page of a few words is shown. Other things that the machine does
    can only make it later. So where it is too late and that page takes long, too, nothing is said of the book. Answers whether the machine is busy."""
    few, book = "<!doctype html><body>A few words.</body>", (OUT / PAGES[0]).read_text(encoding="utf-8")
    seen = [painted(program, room, page) for page in (few, book) * 3 + (few,)]
    of_few, of_book = seen[::2], seen[1::2]
    print(f"first paint: {', '.join(f'{time:.0f} ms' for time in of_book)}; of a few words: {', '.join(f'{time:.0f} ms' for time in of_few)}")
    is_busy = max(of_few) > IDLE_PAINT
    if is_busy and min(of_book) > MOST_PAINT:
        print("left out: how soon the book is seen (the machine is busy)")
    else:
        checks.check(min(of_book) <= MOST_PAINT, f"the book is seen after {min(of_book):.0f} ms, and {MOST_PAINT} are wanted")
    return is_busy


def painted(program, room, text):
    """When a page is first painted, in milliseconds; never where the browser doesn't say."""
    observed = """<script>new PerformanceObserver((list) => list.getEntries().forEach((it) => console.log(`${it.name}: ${it.startTime}`)))
        .observe({ type: "paint", buffered: true });</script></body>"""
    (room / "paint.html").write_text(text.replace("</body>", observed), encoding="utf-8")
    ran = run(program, room, "--enable-logging=stderr", "--window-size=1280,900", f"--screenshot={room}/seen.png", (room / "paint.html").as_uri())
    return min(map(float, re.findall(r"first-contentful-paint: ([\d.]+)", ran.stderr)), default=math.inf)


def check_print(checks, program, room, is_busy):
    """The book on paper, if there is something that reads it, and the machine isn't too busy to print it."""
    if not shutil.which("pdftotext"):
        print("left out: pages on paper (there is no pdftotext)")
        return
    run(program, room, f"--print-to-pdf={room}/book.pdf", "--no-pdf-header-footer", (OUT / PAGES[0]).as_uri(), patience=PATIENCE_OF_PRINTING)
    if is_busy and not (room / "book.pdf").is_file():
        print(f"left out: pages on paper (they weren't printed within {PATIENCE_OF_PRINTING} seconds)")
        return
    pages = subprocess.run(["pdftotext", "-layout", f"{room}/book.pdf", "-"], capture_output=True, text=True).stdout.split("\f")
    checks.check(len(pages) > 50, f"the book has {len(pages)} pages on paper")
    numbered = sum(bool(re.search(rf"(?m)^\s*{number}\s*$", page)) for number, page in enumerate(pages, 1))
    checks.check(numbered >= len(pages) - 2, f"{numbered} of {len(pages)} pages have their number")
    headed = sum(bool(re.search(r"the book of definitions .*version \d[\w.]*, \d{4}-\d\d-\d\d", page)) for page in pages)
    checks.check(headed >= len(pages) - 2, f"{headed} of {len(pages)} pages have the book's name, its version and its day above them")
    check_core(checks, pages)


def check_core(checks, pages):
    """How many pages the core takes, and all that has to be believed: what the book's first page says, within a tenth and one, since a page holds more or less by
    the fonts of a machine; and the core not more than it may."""
    book = (OUT / PAGES[0]).read_text(encoding="utf-8")
    heads = [html.unescape(re.sub("<[^>]*>", "", head)) for head in re.findall(r'<h2 id=ch\d+>(.*?)</h2>', book)]
    starts = [next((number for number, page in enumerate(pages) if re.search(rf"(?m)^\s*{re.escape(head)}\s*$", page)), None) for head in heads]
    first_behind = book.count('<div class=dense>')
    said = [int(number) for number in re.findall(r"(\d+) pages on paper", book)]
    if len(said) != 2 or None in (starts[0], starts[1], starts[first_behind]):
        checks.check(False, f"the first page says {said} for the pages of the core and of all that has to be believed; chapters begin at {starts}")
        return
    core, believed = starts[1] - starts[0], starts[first_behind] - starts[0]
    print(f"on paper: {len(pages)} pages, of which the core takes {core}, and all that has to be believed {believed}")
    checks.check(core <= MOST_PAGES_OF_THE_CORE, f"the core takes {core} pages on paper, and at most {MOST_PAGES_OF_THE_CORE} are wanted")
    is_so = lambda number, pages: abs(pages - number) <= 1 + number // 10
    checks.check(is_so(said[0], core), f"the book's first page says that the core takes {said[0]} pages on paper, and it takes {core} (docs/book/figures.py --measure pages)")
    checks.check(is_so(said[1], believed), f"the book's first page says that what has to be believed takes {said[1]} pages on paper, and it takes {believed} (docs/book/figures.py --measure pages)")


def main():
    checks, program = Checks(), browser()
    if not (OUT / PAGES[0]).is_file():
        subprocess.run([sys.executable, "-B", ROOT / "docs/book/make.py"], stdout=subprocess.DEVNULL, check=False)
    check_structure(checks)
    if program is None:
        print("left out: all that needs a browser (apt-get install chromium)")
    else:
        with tempfile.TemporaryDirectory(prefix="book-") as folder:
            room = pathlib.Path(folder)
            for name in PAGES:
                shutil.copy(OUT / name, room / name)
            check_screens(checks, program, room)
            check_print(checks, program, room, check_paint(checks, program, room))
    print(f"{checks.passed} passed, {checks.failed} failed")
    return bool(checks.failed)


if __name__ == "__main__":
    sys.exit(main())
