"""Orders of names by language: those of -letters, of the original, of bibtexu and of biber, beside CLDR's.

    python3 letters.py orders SEARCH [peers]

sorts the names of names_by_language.txt in each language and prints, for each way to sort them, how many of each 900 pairs are in another order than CLDR's. Without the word `peers` that is only
done for SEARCH, which is bibtex-search. The judge is Perl's Unicode::Collate::Locale; where it isn't there, the order in which the names stand in the file. It gets of each name what the style sorts
by, with its letters: the last name, two spaces and the first ones, a space for each hyphen, and no other sign."""

import itertools
import pathlib
import re
import shutil
import subprocess

FILE = pathlib.Path(__file__).with_name("names_by_language.txt")

# How many of each 900 pairs -letters may have in another order, in each language.
MOST = 2
EACH = 900

# What Perl's module and ICU call a language that isn't called by its own name there. CLDR tells `v` and `w` of Swedish and Finnish apart, and counts a space; the module's own defaults don't.
OF_PERL = {"de-phonebook": "de__phonebook", "fi": "fi__phonebook", "sv": "sv__reformed"}
OF_ICU = {"de-phonebook": "de@collation=phonebook"}
OF_BIBER = {"de-phonebook": "de__phonebook"}
JUDGE = """use utf8; use open qw(:std :encoding(UTF-8)); use Unicode::Collate::Locale; my (%names, @languages); $| = 1;
while (<STDIN>) { chomp; my ($locale, @name) = split /\\t/; push @languages, $locale unless $names{$locale}; push @{$names{$locale}}, [@name]; }
print "$Unicode::Collate::Locale::VERSION\\n";
for my $locale (@languages) {
  my $rules = Unicode::Collate::Locale->new(locale => $locale, variable => 'non-ignorable');
  print "$_->[1]\\n" for sort { $rules->cmp($a->[0], $b->[0]) } @{$names{$locale}};
}
"""

# A style that sorts as plain does, and makes the labels of alpha's lists of one author.
STYLE = """ENTRY {author} {} {label}
FUNCTION {book} {"\\bibitem[" label * "]{" * cite$ * "}" * write$ newline$}
FUNCTION {presort}
{ author #1 "{ll}" format.name$ #3 text.prefix$ 'label :=
  author #1 "{vv{ } }{ll{ }}{  ff{ }}" format.name$ purify$ "l" change.case$ 'sort.key$ := }
READ
ITERATE {presort}
SORT
ITERATE {call.type$}
"""
PAPER = r"""\documentclass{article}\usepackage[backend=biber, style=numeric, useprefix=true, sortlocale=%s]{biblatex}
\addbibresource{d.bib}\begin{document}\nocite{*}\printbibliography\end{document}
"""


def read_names():
    """The names of each language, in its order. The order that `de` has in the file isn't that of a phone book."""
    names, language = {}, ""
    for line in FILE.read_text(encoding="utf8").splitlines():
        if line.endswith(":") and not line.startswith("//"):
            language = line[:-1]
            names[language] = []
        elif line and not line.startswith("//"):
            names[language] += [name.rstrip("*+") for name in line.split("|") if name]
    names["de-phonebook"] = list(names["de"])
    return names


def sorted_by(name):
    """What the style sorts a name by, with its letters as they are."""
    return re.sub(r"[^\w ]", "", name.replace(", ", "  ").replace("-", " "))


def judged(names):
    """The names of each language as Perl's module sorts them, and its version; None where there is no such module."""
    rows = "".join(f"{OF_PERL.get(language, language)}\t{sorted_by(name)}\t{name}\n" for language, those in names.items() for name in those)
    try:
        done = subprocess.run(["perl", "-e", JUDGE], input=rows.encode(), capture_output=True)
    except FileNotFoundError:
        return None
    if done.returncode != 0:
        return None
    version, *ordered = done.stdout.decode().splitlines()
    lines = iter(ordered)
    return {language: list(itertools.islice(lines, len(those))) for language, those in names.items()}, version


def write_job(names):
    """Writes a job that cites these names, in another order than the one that is wanted."""
    keys = [f"k{number}" for number in range(len(names))]
    cited = ",".join(sorted(keys, key=lambda key: key[::-1]))
    pathlib.Path("job.aux").write_text(f"\\citation{{{cited}}}\n\\bibdata{{d}}\n\\bibstyle{{s}}\n")
    pathlib.Path("s.bst").write_text(STYLE)
    pathlib.Path("d.bib").write_text("".join('@book{%s, author = "%s", title = "T", year = 1999}\n' % pair for pair in zip(keys, names)), encoding="utf8")
    for old in ("job.bbl", "job.blg"):
        pathlib.Path(old).unlink(missing_ok=True)


def run(words):
    """The list that a run makes, and what it prints."""
    done = subprocess.run(words, stdin=subprocess.DEVNULL, capture_output=True)
    found = pathlib.Path("job.bbl")
    return found.read_text(encoding="utf8", errors="replace") if found.exists() else "", done.stdout.decode("utf8", "replace")


def by_biber(language):
    pathlib.Path("job.tex").write_text(PAPER % OF_BIBER.get(language, language))
    run(["pdflatex", "-interaction=batchmode", "job"])
    return run(["biber", "job"])


# The ways beside -letters: a name, the programs that must be there, and the run for a language.
PEERS = [
    ("bibtex", ["bibtex"], lambda language: run(["bibtex", "job"])),
    ("bibtexu", ["bibtexu"], lambda language: run(["bibtexu", "job"])),
    ("with a locale", ["bibtexu"], lambda language: run(["bibtexu", "-l", OF_ICU.get(language, language), "-o", OF_ICU.get(language, language), "job"])),
    ("biber", ["biber", "pdflatex"], by_biber),
]


def inversions(listed, wanted):
    """How many pairs of the numbers in a list stand in another order than wanted."""
    places = {number: place for place, number in enumerate(wanted)}
    order = [places[number] for number in listed]
    return sum(first > second for first, second in itertools.combinations(order, 2))


def numbers_in(listed):
    """The numbers of the names, as a list has them."""
    return [int(number) for number in re.findall(r"(?:\\bibitem(?:\[[^]]*\])?|\\entry)\{k(\d+)\}", listed)]


def compare_language(search, language, names, wanted, peers):
    """For each way how many pairs are in another order; and what is wrong with -letters."""
    write_job(names)
    wanted = [names.index(name) for name in wanted]
    listed, printed = run([search, "-no-explain", "-letters=" + language, "job"])
    order, faults = numbers_in(listed), []
    if sorted(order) != sorted(wanted) or "without -letters" in printed:
        return {}, [f"{language}: {printed}"]
    for label, number in re.findall(r"\\bibitem\[(.*)\]\{k(\d+)\}", listed):
        # (a word in small letters ends the von part)
        last = re.sub(r"^(?:.* )?[a-z]+ ", "", names[int(number)].split(",")[0])
        if label.replace("~", " ") != last[:3]:
            faults.append(f"{language}: the label of {names[int(number)]} is {label}")
    counts = {"-letters": inversions(order, wanted)}
    for way, _, sort in peers:
        write_job(names)
        order = numbers_in(sort(language)[0])
        counts[way] = inversions(order, wanted) if sorted(order) == sorted(wanted) else None
    return counts, faults


def of_each(count, pairs):
    return "-" if count is None else f"{count * EACH / pairs:.1f}"


def check(search, with_peers):
    """Prints the table; whether -letters has more than MOST of each EACH pairs in another order, or a label of other letters."""
    names = read_names()
    found = judged(names)
    of_file = {language: those for language, those in names.items() if language != "de-phonebook"}
    judge = f"Perl's Unicode::Collate::Locale {found[1]}" if found else "the file: perl or its module isn't there, and de-phonebook is left out"
    print(f"{sum(map(len, of_file.values())):,} names in {len(of_file)} languages, in the order of {judge}")
    wanted = found[0] if found else of_file
    peers = [peer for peer in PEERS if with_peers and all(map(shutil.which, peer[1]))]
    for way, programs, _ in PEERS if with_peers else []:
        if not all(map(shutil.which, programs)):
            print(f"left out: {way}, without {' or '.join(programs)}")
    ways, sums, pairs_of_all, is_bad = ["-letters", *(peer[0] for peer in peers)], {}, 0, False
    print(" | ".join(["language", "names", "pairs", *ways]))
    for language, order in wanted.items():
        those, pairs = sorted(order), len(order) * (len(order) - 1) // 2
        counts, faults = compare_language(search, language, those, order, peers)
        is_bad |= bool(faults) or counts["-letters"] * EACH > MOST * pairs
        for fault in faults:
            print(fault)
        print(" | ".join([language, str(len(order)), f"{pairs:,}", *(of_each(counts.get(way), pairs) for way in ways)]), flush=True)
        pairs_of_all += pairs
        for way in ways:
            sums[way] = sums.get(way, 0) + (counts.get(way) or 0)
    print(" | ".join(["all", f"{sum(map(len, wanted.values())):,}", f"{pairs_of_all:,}", *(of_each(sums[way], pairs_of_all) for way in ways)]))
    return is_bad
