"""What a database has by a run: a made style shows each entry, its type and its fields."""

import itertools

import btx
from btx import Kind, Met

BUILT_IN = set("+ - * > < = :=".split()) | {"crossref"}
# What the made style itself defines.
OWN = {"show.it"}


def names_for_style(names):
    """The names that a style can define."""
    return sorted(name for name in names if name not in BUILT_IN and name not in OWN and not name.endswith("$"))


def style_of(types, fields):
    """A style that shows each entry: its key, its type, and each field that it has after the field's name."""
    types = [name for name in names_for_style(types) if name not in fields]
    fields = names_for_style(fields)
    shown = "".join(f'{name} missing$ {{}} {{"{name}" top$ {name} top$}} if$\n' for name in fields)
    lines = ["ENTRY{" + " ".join(fields) + "}{}{}"]
    lines += [f'MACRO{{{name}}}{{"{value}"}}' for name, value in btx.MONTHS.items()]
    lines += [f"FUNCTION{{{name}}}{{}}" for name in types]
    lines += [f'FUNCTION{{show.it}}{{"" top$ cite$ top$ type$ top$\n{shown}}}', "READ", "ITERATE{show.it}"]
    return "\n".join(lines).encode("utf8", "surrogateescape")


def entries_by_run(text, types, fields, options=btx.Options(most_log=400_000_000, budget=10**10)):
    """The entries of a database in their order: key, type and fields of each."""
    files = {"j.aux": b"\\citation{*}\n\\bibdata{d}\n\\bibstyle{s}\n", "s.bst": style_of(types, fields), "d.bib": text}
    result = btx.run("j", files, options)
    messages = result.messages
    assert not [message for message in messages if message.met is Met.STYLE], result.log[-300:]
    return shown_entries(messages)


def shown_entries(messages):
    """The entries that the made style shows in a run with these messages: key, type and fields of each."""
    shown = [(message.number, message.text[1:-1]) for message in messages if message.kind is Kind.SHOWN]
    entries = []
    for _, group in itertools.groupby(shown, lambda it: it[0]):
        _, key, kind, *pairs = (text for _, text in group)
        entries.append((key, kind, dict(zip(pairs[::2], pairs[1::2]))))
    return entries
