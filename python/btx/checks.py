"""The checks of the doctor: how severe each is and how exact, and what it says."""

from __future__ import annotations

from typing import NamedTuple

__all__ = ["CHECKS", "SAID", "Check"]


class Check(NamedTuple):
    """A check. severity: error, warning or info. exact: how exact it is, in a sentence."""

    name: str
    severity: str
    exact: str


CHECKS = {
    check.name: check
    for check in (
        Check("mistake", "error", "Exact: a run logs the same text for the same line."),
        Check("repeated-key", "error", "Exact: a run that stores both entries logs it; what follows the key isn't read."),
        Check("key-of-tex", "warning", "Exact for LaTeX's own `\\cite`: TeX reads a `~`, a `#`, a `%` or a backslash in a key, so the citation isn't found, or LaTeX stops."),
        Check("unseen-sign", "warning", "Exact: a key has a character that nobody sees, such as U+200B, so no citation that is typed finds it."),
        Check("repeated-field", "warning", "Exact: a run logs it where the style reads the field."),
        Check("long-value", "error", "Exact: the value has more than 1,000,000 bytes, so a run that stores it ends with `limit string`."),
        Check("undefined-string", "warning", "Exact with --style; else the strings that TeX's standard styles define count as defined."),
        Check("no-entry", "warning", "Exact for the databases that are named: a run of the job logs it."),
        Check("unknown-type", "warning", "Exact, with --style: a run that stores the entry logs it."),
        Check("fields-in-text", "warning", "A guess: text between items is ignored by a run, and this looks like fields of an entry."),
        Check("no-at-sign", "warning", "A guess: text between items is ignored by a run, and this looks like an entry without its `@`."),
        Check("not-hidden", "warning", "Exact: a run that stores the entry reads it, though its line begins with `%` or `@comment`, or it stands in the braces of a `@comment`."),
        Check("repeated-doi", "warning", "Exact that the dois are equal, but for case and a resolver's address."),
        Check("repeated-title", "info", "A guess: title and year, or the year of `date`, are equal, but for case, TeX's commands and punctuation, and no pages, number, volume or doi that both have differ."),
        Check("et-al", "warning", "A guess: a name has the words et al.; BibTeX's word for this is `and others`."),
        Check("others-inside", "warning", "Exact: `others` isn't the last name, so no style takes it for et al."),
        Check("bare-organization", "warning", "A guess: a name has a word such as Institute and isn't in braces of its own, so it is read as a person's."),
        Check("names-by-sign", "warning", "A guess: a list of names has a semicolon or an `&`, where BibTeX wants ` and `."),
        Check("names-by-commas", "warning", "A guess for a name whose Jr has several words or is an initial, and for one whose last name begins with an initial; exact for one with more than two commas: a run logs it where a style takes the names."),
        Check("stray-and", "warning", "Exact: an `and` of a list has no name before it or after it."),
        Check("suffix-last", "warning", "Exact: BibTeX takes a word after the last comma, such as Jr., as the first name, and what stands between two commas as Jr."),
        Check("no-break-space", "warning", "Exact: BibTeX parts no words at such a space, so two names, or two words of a name, are one."),
        Check("list-in-braces", "warning", "A guess: all of a list of names stands in braces of its own, so it is one name. Each has a comma, an initial or a first name that the databases know."),
        Check("names-exchanged", "info", "A guess, by the other names of the databases and the entry's key: the last name stands first, and no comma after it."),
        Check("von-letter", "info", "Exact, by RULES' von: such a word isn't abbreviated, and a style sorts the name by it."),
        Check("empty-field", "info", "Exact: the value is whitespace alone."),
        Check("odd-dollars", "warning", "Exact: the number of `$` without a backslash is odd, but for addresses; TeX stops where a style prints the field."),
        Check("sign-of-tex", "warning", "Exact that LaTeX stops at the sign, or takes it for a comment, where a style prints the field."),
        Check("combining-accent", "warning", "Exact: an accent is a character of its own after its letter. pdfLaTeX stops at it, and styles count and sort two characters."),
        Check("not-utf8", "warning", "Exact: a byte of the file isn't UTF-8. Said once; a document in another encoding may be meant."),
        Check("unusual-type", "info", "Exact, without --style: TeX's standard styles don't have the type, so they treat the entry as `misc`."),
        Check("misspelt-field", "warning", "A guess: the name of a field differs in a letter or two from one that the styles read, and the entry doesn't have that one."),
        Check("missing-field", "info", "Exact, without --style, by the table of BibTeX's manual (btxdoc) for its types: plain, abbrv, alpha and unsrt warn of most of these fields."),
        Check("missed-field", "warning", "A guess by trying, with --style: of the fields of that table it warns where an entry of the type has all fields but this one."),
        Check("missing-in-parent", "info", "Exact, by the same table: neither the entry nor its parent has the field, where the parent is in the databases."),
        Check("no-parent", "error", "Exact for the databases that are named: a run that stores the entry logs it."),
        Check("nested-parent", "warning", "Exact: a run that stores both entries logs it; what the parent inherits isn't handed on."),
        Check("parent-above", "warning", "Exact that the parent stands above all entries that name it: a run that stores one of them logs an error, unless the parent is cited."),
        Check("year-of-words", "warning", "Exact: the year doesn't end in two digits, of which styles such as alpha make a label."),
        Check("lost-capitals", "info", "A guess: styles such as plain write a title in small letters, but for its first letter and what is in braces. With a style that is tried."),
        Check("lowered-tex", "warning", "A guess: styles that write a title in small letters do so with commands and formulas of TeX outside braces. With a style that is tried."),
        Check("one-hyphen", "info", "A guess: a range of pages has one hyphen or a dash, and is written with two hyphens."),
        Check("month-text", "info", "A guess: a month that is written out can't be shortened by a style; `jan` can."),
        Check("unread-field", "info", "Exact, with --style: its ENTRY list doesn't have the field, so a run ignores it. With --job alone: of fields that the manual requires, and of the `url` of a page of the web."),
        Check("unprinted-field", "info", "A guess by trying, with a style: its list of an entry of this type is the same without the field, and that of another type isn't."),
        Check("faulty-style", "error", "Exact, with --job, where the style isn't in TeX's folders: a run logs errors that are about the style. Said once."),
        Check("logged-error", "error", "Exact, with --job: a run of the job logs it."),
        Check("logged-warning", "warning", "Exact, with --job: a run of the job logs it."),
        Check("all-entries", "info", "Exact, with --job: its .aux files have `\\citation{*}`, so all entries of its databases are in the list."),
        Check("older-aux", "warning", "A guess, with --job: a .tex file that is newer than the .aux file cites a key of an entry that no .aux file has."),
        Check("uncited", "info", "Exact, with --job: no citation of its .aux files, of others beside them that name one of the databases, and no crossref of a cited entry, names the entry."),
    )
}

# What is said of each, with the names that it is about.
SAID = {
    "mistake": "{}",
    "repeated-key": "{}",
    "key-of-tex": "LaTeX can't cite this key, in which TeX reads the `{1}`: call it `{0}`, or the like",
    "unseen-sign": "the key has a character that nobody sees, U+{}: write it once more, as `{}`",
    "repeated-field": "I'm ignoring {}'s extra \"{}\" field",
    "long-value": "the value of {} has more than 1,000,000 bytes",
    "undefined-string": 'string name "{}" is {}',
    "no-entry": 'I didn\'t find a database entry for "{}"',
    "unknown-type": 'entry type for "{}" isn\'t style-file defined',
    "fields-in-text": "this looks like the field {}, and is in no entry: a run ignores it",
    "no-at-sign": "`{1}` is in no entry, and a run ignores it: write `@` before `{0}`",
    "not-hidden": "a run reads this entry",
    "repeated-doi": "it has the doi of {}",
    "repeated-title": "it has the title and year of {}",
    "et-al": "et al. is taken as a name: write `and others`",
    "others-inside": "`others` is the word for et al. as the last name alone",
    "bare-organization": "an organization is read as a person, of first and last names: put its whole name into braces of its own",
    "names-by-sign": "{}",
    "names-by-commas": "{}",
    "stray-and": "{}",
    "suffix-last": "{}",
    "no-break-space": "a no-break space ({}): BibTeX parts no words at it, so two names or two words of a name are one",
    "list-in-braces": "the whole list of names stands in braces of its own, so it is one name: take the second pair away",
    "names-exchanged": "{1} is taken as the last name: write `{0}, {1}`, with a comma, or `{1} {0}`",
    "von-letter": "{} is taken as von by its letter {}: put the first letter into braces with its accent as TeX's command, write Last, First, or run bibtex-search with -letters",
    "empty-field": "the field {} is empty",
    "odd-dollars": "a `$` has no other one: write `\\$` where no formula is meant",
    "sign-of-tex": "{}",
    "combining-accent": "{}",
    "not-utf8": "the byte {} isn't UTF-8: save the file as UTF-8",
    "unusual-type": "TeX's standard styles don't have the type {}",
    "misspelt-field": "the usual styles read no field {}: is it `{}`?",
    "missing-field": "the field {} is missing, which BibTeX's manual requires of `{}`",
    "missed-field": "{} warns where the field {} is missing in `{}`",
    "missing-in-parent": "the field {} is missing in the entry and its parent; BibTeX's manual requires it of `{}`",
    "no-parent": 'A bad cross reference--entry "{}" refers to entry "{}", which doesn\'t exist',
    "nested-parent": 'you\'ve nested cross references--entry "{}" refers to entry "{}"',
    "parent-above": "its parent `{0}` stands above it: a run finds no such entry, unless the document cites that",
    "year-of-words": "the year `{}` doesn't end in two digits: write the number alone, and the words in `note`",
    "lost-capitals": "{2} {0} in small letters: put what keeps its capital letters into braces, as `{{{1}}}`",
    "lowered-tex": "put `{0}` into braces, as `{{{0}}}`: {2} `{1}` of it",
    "one-hyphen": "a range of pages with {}: write `--`",
    "month-text": "the month as text: write `{}`, without braces",
    "unread-field": "the style doesn't read the field {}",
    "unprinted-field": "{} doesn't print `{}` for `@{}`: it does for `@{}`",
    "faulty-style": "{}",
    "logged-error": "{}",
    "logged-warning": "{}",
    "all-entries": "{}",
    "older-aux": "{}",
    "uncited": "not cited in {}",
}
