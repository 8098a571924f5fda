"""A large job from a seed: an `.aux` file that cites everything, or only so many entries, and a database whose entries have ten fields each.

    python3 make_job.py [--seed N] [--style NAME] [--cited N] ENTRIES FOLDER

writes `job.aux` and `works.bib` into FOLDER. The same numbers give the same bytes."""

import argparse
import pathlib
import random

FIRST_NAMES = ["Anna", "Bo", "Clara Maria", "D. E.", "Jean-Paul", "{\\'E}mile", "Mar{\\'\\i}a", "K. L.", "{\\O}ystein",
               "Fran{\\c c}ois", "Li", "Zo{\\\"e}", "Charles Louis", "Ivan", "Ruth", "Hanne"]
LAST_NAMES = ["Adams", "Brook", "{\\c C}elik", "Dunn", "F{\\\"u}rst", "Garc{\\'\\i}a", "Holm-Berg", "{\\AA}kesson", "Jones",
              "Kl{\\o}ve", "Lindqvist", "M{\\\"u}ller", "Novak", "{O'Hara}", "van der Berg", "de la Tour", "von Ahn", "Smith"]
WORDS = ["analysis", "structure", "Graphs", "{LaTeX}", "{B}ayesian", "methods", "quantum", "theory", "Sorting", "tables",
         "introduction", "systems", "$x^2$", "{NP}-hard", "problems", "na{\\\"\\i}ve", "models", "waves", "Soil", "language",
         "proofs", "random", "networks", "in {\\AE}olian", "of", "and the", "for a", "without"]
JOURNALS = ["jgt", "jcs", '"Annals of Tables"', "{Acta Formica}", "{Zeitschrift f{\\\"u}r Zahlen}"]
HOUSES = ["press", "{North Press}", '"Sons \\& Co."', "{{\\'E}ditions du Lac}"]
PLACES = ["Lund", "New York", "M{\\\"u}nchen", "S{\\~a}o Paulo", "Oxford", "Reykjav{\\'\\i}k"]
MONTHS = "jan feb mar apr may jun jul aug sep oct nov dec".split()
STRINGS = ('@string{jgt = "Journal of Graph " # {Tables}}\n@string{jcs = {Journal of Counting Systems}}\n'
           '@string{press = "Short Press"}\n\n')

# The fields of each type. A child takes the three that it lacks from its parent.
FIELDS = {
    "article": "author title journal year volume number pages month note key",
    "book": "author title publisher year volume series address edition month note",
    "inproceedings": "author title booktitle year editor series pages address month organization",
    "incollection": "author title booktitle publisher year editor chapter pages edition note",
    "phdthesis": "author title school year type address month note key annote",
    "techreport": "author title institution year type number address month note key",
    "proceedings": "title booktitle year editor series address month organization publisher note",
    "child": "crossref author title pages month note key annote chapter type",
}
TYPES = ["article", "article", "article", "book", "inproceedings", "incollection", "phdthesis", "techreport"]
CHILDREN_A_PARENT = 5


class Maker:
    def __init__(self, seed):
        self.random = random.Random(seed)

    def people(self):
        return " and ".join(self.person() for _ in range(self.random.choice([1, 1, 2, 2, 3, 4])))

    def person(self):
        first, last = self.random.choice(FIRST_NAMES), self.random.choice(LAST_NAMES)
        return f"{first} {last}" if self.random.random() < 0.4 else f"{last}, {first}"

    def words(self, fewest, most):
        return " ".join(self.random.choices(WORDS, k=self.random.randint(fewest, most)))

    def value(self, field, parent):
        number = self.random.randint(1, 900)
        if field in ("author", "editor"):
            return "{%s}" % self.people()
        if field in ("title", "booktitle"):
            return "{%s}" % self.words(4, 10)
        if field == "pages":
            return '"%d--%d"' % (number, number + 12)
        if field == "year":
            return str(1950 + number % 75)
        if field in ("volume", "number", "chapter", "edition"):
            return str(number % 40 + 1)
        if field in ("address", "school", "institution", "organization"):
            return "{%s}" % self.random.choice(PLACES)
        lists = {"journal": JOURNALS, "publisher": HOUSES, "month": MONTHS}
        if field in lists:
            return self.random.choice(lists[field])
        return "{%s}" % (parent if field == "crossref" else self.words(2, 5))

    def entry(self, key, kind, fields, parent=""):
        lines = ["  %s = %s" % (field, self.value(field, parent)) for field in FIELDS[fields].split()]
        return "@%s{%s,\n%s\n}\n\n" % (kind, key, ",\n".join(lines))

    def entries(self, count):
        """Pairs of a key and its entry. One of ten is a parent, which stands behind its children."""
        for number in range(count):
            group, place = divmod(number, 2 * CHILDREN_A_PARENT)
            key, parent = "work%d:%d" % (number, self.random.randint(1950, 2024)), "volume%d" % group
            if place == 2 * CHILDREN_A_PARENT - 1:
                yield parent, self.entry(parent, "proceedings", "proceedings")
            elif place >= CHILDREN_A_PARENT - 1:
                yield key, self.entry(key, "inproceedings", "child", parent)
            else:
                kind = self.random.choice(TYPES)
                yield key, self.entry(key, kind, kind)


def make_job(folder, entries, style, seed=1, citations=None):
    maker = Maker(seed)
    keys, texts = zip(*maker.entries(entries))
    cited = maker.random.sample(keys, len(keys))[:citations]
    aux = "".join("\\citation{%s}\n" % key for key in cited) + "\\bibdata{works}\n\\bibstyle{%s}\n" % style
    folder = pathlib.Path(folder)
    folder.mkdir(parents=True, exist_ok=True)
    (folder / "job.aux").write_text(aux)
    (folder / "works.bib").write_text(STRINGS + "".join(texts))


def main():
    parser = argparse.ArgumentParser()
    parser.add_argument("--seed", type=int, default=1)
    parser.add_argument("--style", default="plain")
    parser.add_argument("--cited", type=int, help="how many of the entries are cited: all, if it isn't given")
    parser.add_argument("entries", type=int)
    parser.add_argument("folder")
    arguments = parser.parse_args()
    make_job(arguments.folder, arguments.entries, arguments.style, arguments.seed, arguments.cited)


if __name__ == "__main__":
    main()
