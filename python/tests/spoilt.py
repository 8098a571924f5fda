"""Databases that are spoilt by chance, and what a run logs of them."""

import os
import pathlib
import random
import subprocess
import sys

import btx
from tests.jobs import EXAMPLES

SIGNS = [b"{", b"}", b'"', b"#", b"=", b",", b"(", b")", b"@", b"%", b" ", b"\n", b"\r", b"\0", b"1", b"a", b"\xc3", b"@string{", b"@comment", b"@misc{a,", b"'"]
SEEDS = [
    b"@misc{a, title = {A {B} \"} # zz # 12,}\n@string(s = \"a{\"}b\") @preamble{s}\n@misc(k) )\n@misc{}\n@book{Kay, title=\"x\", title = 1, TITLE = s}\n",
    b"@STRING{s = {A}}\n@string{S = s # {b}}\n@article{a, author = s # s # t, year = 1984, crossref = {b}}\n@comment{@misc{k}}\n@proceedings(b, note = {{{{{deep}}}}}, x = zz)\n",
    b"text @misc{k,\n  title = {A},\n  note = \"M{\\\"u}ller\",\n  year = 2000\n}\n\n@misc{K, title = {@misc{c 1}}}\n@misc{d, title = jan # feb}\n",
    b"@misc { k , a = { b } , c = \"d\" , }\n@misc{\xc3\xa9, x = {\xc3\xa9}}@misc{z}@misc{z}\n",
]
# What the style of these runs knows already.
BUILT_IN = {b"crossref", b"sort.key$", b"entry.max$", b"global.max$"}


def seeds():
    return [*SEEDS, *(path.read_bytes()[:3000] for path in sorted(EXAMPLES.rglob("*.bib")))]


def spoilt(number, seed=64):
    """So many spoilt databases."""
    maker, whole = random.Random(seed), seeds()
    for _ in range(number):
        text = maker.choice(whole)
        for _ in range(maker.randrange(1, 5)):
            text = spoilt_once(text, maker)
        yield text


def spoilt_once(text, maker):
    """A text with a sign put in, a piece taken out, a byte replaced, a piece repeated, or cut."""
    at = maker.randrange(len(text) + 1)
    to = min(len(text), at + maker.randrange(1, 40))
    sign = maker.choice(SIGNS)
    return maker.choice([
        text[:at] + sign + text[at:], text[:at] + text[to:], text[:at] + sign + text[at + 1:], text[:to] + text[at:], text[:at] + text[at + 1:],
        text[:at] if maker.randrange(8) == 0 else text + sign,
    ])


def logged(text, fields, macros=()):
    """What a run of all entries logs with a place in the database, where the style reads these fields and defines these macros: pairs of a line and a text."""
    names = sorted({name for name in fields if name and name not in BUILT_IN and not name.endswith(b"$")})
    style = b"ENTRY {" + b" ".join(names) + b"}{}{}\n" + b"".join(b'MACRO {%s} {"%s"}\n' % (name, name) for name in macros) + b"READ\n"
    files = {"j.aux": b"\\citation{*}\n\\bibdata{d}\n\\bibstyle{s}\n", "s.bst": style, "d.bib": text}
    result = btx.run("j", files, btx.TEX_LIVE)
    assert b"s.bst" not in b"".join(message.raw for message in result.messages if message.kind is btx.Kind.ERROR), result.log
    return [(message.line, message.text) for message in result.messages if message.file == "d.bib" and message.line is not None
            and not message.text.startswith("entry type for ")]


def of_tex_live():
    """The databases below TeX Live's tree, where there is one."""
    root = pathlib.Path(os.environ.get("BTX_TEX_TREE", "/usr/share/texlive"))
    return sorted(root.rglob("*.bib")) if root.is_dir() else []


def run_module(*words, **named):
    """Calls `python3 -m btx` with these words."""
    return called([sys.executable, "-m", "btx", *words], **named)


def run_shell(line, **named):
    """Has a shell do this line."""
    return called(["sh", "-c", line], **named)


def called(words, **named):
    here = str(pathlib.Path(__file__).resolve().parent.parent)
    env = {**os.environ, "PYTHONPATH": here, "PYTHONDONTWRITEBYTECODE": "1"}
    return subprocess.run(words, env=env, stdin=subprocess.DEVNULL, capture_output=True, timeout=120, **named)
