"""Makes papers for `btx compare` from what Debian's packages of TeX Live ship.

    python3 make_papers.py FOLDER [--papers N] [--citations N] [--seed N] [--latex]

Two kinds of papers: for each shipped document of LaTeX that names a style and databases of BibTeX one with its citations; and N others, each a shipped style over
a shipped database, of which some entries are cited. With --latex the documents are run through pdflatex for their citations, where that gives an `.aux` file with a style; otherwise, and in any other case, their
citations are read off their text.

A paper is a folder with an `.aux` file and an empty `.bbl` beside it: `python3 -m btx compare FOLDER --with bibtex` compares what both programs write. Its style and
its databases are named by their paths. The number of papers is printed."""

import argparse
import pathlib
import random
import re
import subprocess
import tempfile

TREES = ("/usr/share/texlive/texmf-dist", "/usr/share/texmf")
DOCUMENTS = "/usr/share/doc/texlive-doc"
KEY = re.compile(rb"^\s*@\s*(?!comment|string|preamble)[A-Za-z]+\s*\{\s*([^\s,{}]+)\s*,", re.IGNORECASE | re.MULTILINE)
COMMENT = re.compile(rb"(?<!\\)%.*")
CITED = re.compile(rb"\\(?:no|full|foot)?cite[A-Za-z]*\*?\s*(?:\[[^][]*\]\s*){0,2}\{([^{}\\#]+)\}")
STYLE = re.compile(rb"\\bibliographystyle\s*\{([^{}\\#]+)\}")
DATABASES = re.compile(rb"\\bibliography\s*\{([^{}\\#]+)\}")
SECONDS = 60


def files(tree, ending):
    """The files below a folder whose names end so, in the order of their paths."""
    return sorted(pathlib.Path(tree).glob(f"**/*{ending}"))


def shipped(ending):
    return [path for tree in TREES for path in files(tree, ending)]


def write_paper(folder, cited, databases, style):
    """Writes an `.aux` file that cites these keys, and an empty `.bbl`. All names are bytes."""
    folder.mkdir(parents=True)
    lines = [b"\\relax", *(b"\\citation{%s}" % key for key in cited), b"\\bibdata{%s}" % b",".join(databases), b"\\bibstyle{%s}" % style]
    (folder / "paper.aux").write_bytes(b"\n".join(lines) + b"\n")
    (folder / "paper.bbl").touch()


def made_of_styles(folder, papers, citations, seed):
    """Makes papers of styles and databases, the styles in turn and the rest by chance. Answers how many."""
    maker = random.Random(seed)
    styles = shipped(".bst")
    databases = [(path, sorted(set(KEY.findall(path.read_bytes())))) for path in shipped(".bib")]
    databases = [(path, keys) for path, keys in databases if keys]
    if not styles or not databases:
        return 0
    # (a sample takes its styles from the whole list)
    maker.shuffle(styles)
    for number in range(papers):
        style = styles[number % len(styles)]
        path, keys = maker.choice(databases)
        cited = maker.sample(keys, min(citations, len(keys)))
        write_paper(folder / f"{number:05d}-{style.stem}", cited, [bytes(path.with_suffix(""))], bytes(style.with_suffix("")))
    return papers


def made_of_entries(folder, papers):
    """Makes papers of some entries: each a style and a database by their names and the keys that are cited. Answers how many of them are shipped."""
    styles = {path.stem: path for path in shipped(".bst")}
    databases = {path.stem: path for path in shipped(".bib")}
    made = 0
    for style, database, cited in papers:
        if style in styles and database in databases:
            write_paper(folder / f"entries-{style}", [key.encode() for key in cited], [bytes(databases[database].with_suffix(""))], bytes(styles[style].with_suffix("")))
            made += 1
    return made


def found_by_tex(stems, ending=".bst"):
    """Those of these styles or databases that BibTeX finds by their names: one that is shipped for pBibTeX alone isn't among them."""
    found = subprocess.run(["kpsewhich", *(stem + ending for stem in stems)], stdin=subprocess.DEVNULL, capture_output=True, text=True, check=False)
    return {pathlib.Path(line).stem for line in found.stdout.splitlines()}


def made_of_documents(folder, by_latex):
    """Makes a paper of each shipped document that names a shipped style and shipped databases: no list is compared of which a database is missing. Answers how many."""
    made = 0
    stems = sorted({path.stem for path in shipped(".bst")})
    names = {bytes(path.with_suffix("")) for path in files(DOCUMENTS, ".bst")} | {stem.encode() for stem in found_by_tex(stems)}
    for path in [path for ending in (".tex", ".ltx") for path in files(DOCUMENTS, ending)]:
        text = COMMENT.sub(b"", path.read_bytes())
        found = (by_latex and DATABASES.search(text) and read_by_latex(path)) or read_off(text)
        if not found:
            continue
        cited, databases, style = found
        style = beside(path, style, ".bst")
        databases = [beside(path, database, ".bib") for database in databases]
        if style in names and all(map(is_there, databases)):
            name = "-".join(path.relative_to(DOCUMENTS).with_suffix("").parts)
            write_paper(folder / f"document-{name}", cited, databases, style)
            made += 1
    return made


def read_off(text):
    """The citations, the databases and the style that the text of a document names, or None where it names none of a kind."""
    style, databases = STYLE.search(text), DATABASES.search(text)
    cited = listed(CITED.findall(text))
    return (cited, listed([databases[1]]), style[1].strip()) if style and databases and cited else None


def read_by_latex(path):
    """What the `.aux` file has that pdflatex writes for a document: citations, databases and the style, or None where it doesn't come so far."""
    with tempfile.TemporaryDirectory() as room:
        words = ["pdflatex", "-draftmode", "-interaction=batchmode", "-no-shell-escape", f"-output-directory={room}", path.name]
        try:
            subprocess.run(words, cwd=path.parent, stdin=subprocess.DEVNULL, stdout=subprocess.DEVNULL, stderr=subprocess.DEVNULL, timeout=SECONDS)
            text = (pathlib.Path(room) / path.with_suffix(".aux").name).read_bytes()
        except (OSError, subprocess.SubprocessError):
            return None
    cited, databases, style = (re.findall(rb"^\\%s\{([^}\n]*)\}" % command, text, re.MULTILINE) for command in (b"citation", b"bibdata", b"bibstyle"))
    return (listed(cited), listed(databases[:1]), style[0]) if cited and databases and style else None


def listed(lists):
    """The names that lists with commas have, each once, in order."""
    return list(dict.fromkeys(name for names in lists for name in b"".join(names.split()).split(b",") if name))


def beside(document, name, ending):
    """The path of a file that a document names, if the file stands beside the document or where its name leads from there; otherwise its name, by which TeX finds it."""
    bare = name[:-4] if name.endswith(ending.encode()) else name
    path = document.parent / (bare.decode("utf8", "surrogateescape") + ending)
    return bytes(path.resolve().with_suffix("")) if path.is_file() else bare


def is_there(database):
    """Whether a database is there that is named by its path or by the name by which TeX finds it."""
    return database.startswith(b"/") or bool(found_by_tex([database.decode("utf8", "surrogateescape")], ".bib"))


def main():
    parser = argparse.ArgumentParser()
    parser.add_argument("folder", type=pathlib.Path)
    parser.add_argument("--papers", type=int, default=1000)
    parser.add_argument("--citations", type=int, default=30)
    parser.add_argument("--seed", type=int, default=1)
    parser.add_argument("--latex", action="store_true", help="run pdflatex over the documents")
    given = parser.parse_args()
    made = made_of_styles(given.folder, given.papers, given.citations, given.seed) + made_of_documents(given.folder, given.latex)
    print(f"{made} papers")


if __name__ == "__main__":
    main()
