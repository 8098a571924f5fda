"""Puts the page together, one HTML file that needs nothing beside it: web/out/btx.html.

    python3 web/page/build.py [MODULE.wasm]

MODULE.wasm is web/out/btx.wasm, which `web/build` makes; of a module without a proof the page says that nothing of it is proved. The styles are those of examples/ and the two of docs/STYLES.md, and what to do about a message is the front end's table."""

import base64
import gzip
import hashlib
import json
import pathlib
import re
import subprocess
import sys

HERE = pathlib.Path(__file__).resolve().parent
ROOT = HERE.parents[1]
sys.path.insert(0, str(ROOT / "web"))
import verdict  # noqa: E402

OUT = ROOT / "web/out/btx.html"
STYLES = ["examples/article/article.bst", "examples/cross_reference/parents.bst", "examples/utf8_names/initials.bst", "examples/stopped/endless.bst"]
# What each style is for, in a few words, as the page lists it.
ABOUT = {
    "article.bst": "for papers", "parents.bst": "shows parents", "initials.bst": "shows initials", "endless.bst": "a test: never ends",
    "skeleton.bst": "a bare beginning", "small.bst": "a first style",
}
# What the page says of itself at its head and at its foot, where its module is of the proved library and where it isn't.
CLAIMS = {
    True: ("The list is the proved library's.", "BibTeX, proved: @VERSION@. The library's contract is proved; that this page shows it, and its compilation for WebAssembly, are tested."),
    False: ("NOTHING OF THIS PAGE IS PROVED: it was made for trying.", "BibTeX, unproved: @VERSION@, a page made for trying, of whose library nothing is proved."),
}
# How the page begins: the module is compiled while it is unpacked.
BEGIN = """
let MODULE;
WebAssembly.compileStreaming(new Response(unpacking(), { headers: { 'Content-Type': 'application/wasm' } })).then((module) => {
  MODULE = module;
  begin();
});
"""
DOCUMENT = "\\documentclass{article}\n\\begin{document}\nSee \\cite{%s}.\n\\bibliographystyle{article}\n\\bibliography{article}\n\\end{document}\n"


def text_of(path):
    return (ROOT / path).read_text(encoding="utf8")


def without_exports(script):
    """A module as part of a script: what it exports is a name of that."""
    return re.sub(r"(?m)^export ", "", script)


def in_script(value):
    """A value as it may stand in a script of a page."""
    return json.dumps(value, ensure_ascii=False).replace("<", "\\u003c").replace("\u2028", "\\u2028").replace("\u2029", "\\u2029")


def advice():
    """The rows of the front end's table of advice: a pattern of a message, and what to do."""
    rows = re.findall(r'\(Section::\w+, ("(?:[^"\\]|\\.)*"), ("(?:[^"\\]|\\.)*")\)', text_of("front/src/advice.rs"))
    for pattern, words in rows:
        wild = {"*": "(\\S+)", "~": "(.+)"}
        parts = re.split(r"([*~])", json.loads(pattern))
        yield "".join(wild.get(part) or re.escape(part) for part in parts), json.loads(words)


def styles_of_tutorial():
    """The styles that docs/STYLES.md has whole, by the names that it gives them."""
    found = re.findall(r"`(\w+\.bst)`:\n\n((?:(?:    [^\n]*)?\n)+)", text_of("docs/STYLES.md"))
    return [{"name": name, "text": re.sub(r"(?m)^    ", "", text).strip("\n") + "\n"} for name, text in found]


def first_job():
    """The job with which the page begins: the article of the examples."""
    keys = re.findall(r"\\citation\{([^}]*)\}", text_of("examples/article/article.aux"))
    return {"document": {"name": "paper.tex", "text": DOCUMENT % ",\n  ".join(keys)}, "databases": [{"name": "article.bib", "text": text_of("examples/article/article.bib")}]}


def machine(module):
    """The lines of a script that have what runs jobs: WORKER, the address of the worker's script, and `unpacked`, a promise of the module's bytes. Both are texts in it."""
    return [*streamed(module), "const unpacked = new Response(unpacking()).arrayBuffer();"]


def streamed(module):
    """The lines of a script that have WORKER, and `unpacking`, which answers a stream of the module's bytes."""
    library = without_exports((ROOT / "web/npm/library.js").read_text(encoding="utf8"))
    worker = library + (HERE / "worker.js").read_text(encoding="utf8")
    return [
        f"const WORKER = URL.createObjectURL(new Blob([{in_script(worker)}], {{ type: 'text/javascript' }}));",
        f"const PACKED = {in_script(base64.b64encode(gzip.compress(module, 9, mtime=0)).decode('ascii'))};",
        "const unpacking = () => {",
        "  const [letters, packed] = [atob(PACKED), new Uint8Array(PACKED.length)];",
        "  for (let place = 0; place < letters.length; place++) packed[place] = letters.charCodeAt(place);",
        "  return new Blob([packed.subarray(0, letters.length)]).stream().pipeThrough(new DecompressionStream('gzip'));",
        "};",
    ]


def script_of(module):
    """The page's one script."""
    styles = [{"name": pathlib.Path(path).name, "text": text_of(path)} for path in STYLES] + styles_of_tutorial()
    styles = [{**style, "about": ABOUT[style["name"]]} for style in styles]
    rows = ", ".join(f"[new RegExp({in_script('^' + pattern)}), {in_script(words)}]" for pattern, words in advice())
    return "\n".join([
        "'use strict';",
        f"const STYLES = {in_script(styles)};",
        f"const FIRST_JOB = {in_script(first_job())};",
        f"const ADVICE = [{rows}];",
        *streamed(module),
        *((HERE / name).read_text(encoding="utf8").replace("/** ", "// ").replace(" */", "") for name in ("latex.js", "tokens.js")),
        (HERE / "page.js").read_text(encoding="utf8").replace("\nbegin();\n", BEGIN),
    ])


def hash_of(text):
    return "'sha256-" + base64.b64encode(hashlib.sha256(text.encode("utf8")).digest()).decode("ascii") + "'"


def version():
    found = subprocess.run(["git", "-C", str(ROOT), "log", "-1", "--format=%h of %cs"], stdout=subprocess.PIPE, text=True)
    return found.stdout.strip() or "an unknown commit"


def main():
    module = pathlib.Path(sys.argv[1] if len(sys.argv) > 1 else ROOT / "web/out/btx.wasm").read_bytes()
    script, style = script_of(module), (HERE / "page.css").read_text(encoding="utf8")
    claim, foot = CLAIMS[verdict.is_proved(module)]
    parts = {"CLAIM": claim, "FOOT": foot.replace("@VERSION@", version()), "SCRIPT_HASH": hash_of(script), "STYLE_HASH": hash_of(style), "STYLE": style, "SCRIPT": script}
    page = re.sub(r"@(\w+)@", lambda found: parts[found[1]], (HERE / "page.html").read_text(encoding="utf8"))
    OUT.parent.mkdir(exist_ok=True)
    OUT.write_text(page, encoding="utf8")
    print(f"web/out/btx.html: {OUT.stat().st_size} bytes")


if __name__ == "__main__":
    main()
