"""A database of our own, made from words and a seed: all usual types, accents, strings, months, cross-references.

    python3 make_database.py [SEED [ENTRIES]]
"""

import sys

from seeded import Seeded

FIRST = ["Anna", "Bo", "Clara Maria", "D.", "Jean-Paul", "J.-P.", "{\\'E}mile", "Mar{\\'\\i}a", "K. L.", "{\\O}ystein",
         "Fran{\\c c}ois", "Ed~W.", "Li", "{Th}eo", "Zo{\\\"e}", "Charles Louis Xavier Joseph"]
LAST = ["Adams", "Brook", "{\\c C}elik", "Dunn", "Ek", "F{\\\"u}rst", "Garc{\\'\\i}a", "Holm-Berg", "{\\AA}kesson",
        "Jones", "Kl{\\o}ve", "Lindqvist", "M{\\\"u}ller", "Novak", "{O'Hara}", "{Stein and Sons}", "{\\L}uk", "Vall{\\'e}e",
        "Smith", "Straße"]
VON = ["", "", "", "", "von ", "de la ", "van der ", "de ", "{\\'e}ta "]
WORDS = ["analysis", "of", "the", "structure", "Graphs", "{LaTeX}", "{B}ayesian", "methods", "on", "{\\AE}olian",
         "quantum", "a", "theory", "for", "Sorting", "without", "{\\\"U}ber", "tables:", "An", "introduction", "to", "and",
         "systems", "$x^2$", "{NP}-hard", "problems", "in", "na{\\\"\\i}ve", "models", "{The {Inner} group}", "data---free"]
PLACES = ["Lund", "New York", "M{\\\"u}nchen", "S{\\~a}o Paulo", "Oxford", "Reykjav{\\'\\i}k"]
HOUSES = ["North Press", "Sons \\& Co.", "{\\'E}ditions du Lac", "hall", "press", "University of Lund"]
JOURNALS = ["jgt", "jcs", '"Annals of Tables"', "{Acta Formica}", '"J. " # short # " Lett."']
MONTHS = ["jan", "feb", "mar", "apr", "may", "jun", "jul", "aug", "sep", "oct", "nov", "dec", '"1~" # jan',
          '{Spring}']
STRINGS = """@preamble{"\\newcommand{\\noop}[1]{} " # "\\newcommand{\\own}{x}"}
@string{jgt = "Journal of Graph " # {Tables}}
@string(short = {Short})
@STRING{jcs = {Journal of   Counting
   Systems}}
@string{hall = "Town Hall Press"}
@string{press = short # " Press"}
@comment{nothing here}
Text between entries is ignored.
"""

FIELDS = {
    "article": ("author title journal year", "volume number pages month note"),
    "book": ("author title publisher year", "volume series address edition month note isbn"),
    "booklet": ("title", "author howpublished address month year note"),
    "conference": ("author title booktitle year", "editor pages organization publisher address month"),
    "inbook": ("author title chapter publisher year", "volume series type address edition pages"),
    "incollection": ("author title booktitle publisher year", "editor number series type chapter pages edition"),
    "inproceedings": ("author title booktitle year", "editor volume series pages address month organization"),
    "manual": ("title", "author organization address edition month year key"),
    "mastersthesis": ("author title school year", "type address month note"),
    "misc": ("title", "author howpublished month year note key"),
    "phdthesis": ("author title school year", "type address month note"),
    "proceedings": ("title year", "editor number series address month organization publisher key"),
    "techreport": ("author title institution year", "type number address month note"),
    "unpublished": ("author title note", "month year"),
}


class Maker(Seeded):
    def chance(self, part):
        return self.random.random() < part

    # ---- texts ----

    def person(self):
        first, von, last = self.pick(FIRST), self.pick(VON), self.pick(LAST)
        form = self.random.randrange(6)
        if form == 0:
            return f"{von}{last}, Jr., {first}"
        return f"{von}{last}, {first}" if form < 4 else f"{first} {von}{last}"

    def people(self):
        names = [self.person() for _ in range(self.pick([1, 1, 2, 2, 3, 4, 7]))]
        if self.chance(0.1):
            names.append("others")
        return " and ".join(names)

    def title(self):
        words = [self.pick(WORDS) for _ in range(self.random.randint(2, 16))]
        return " ".join(words)

    def wrapped(self, text):
        """A value in braces or quotes, its whitespace now and then more than a space."""
        text = text.replace(" ", self.pick([" ", " ", " ", "\n     ", "  "]))
        return "{" + text + "}" if self.chance(0.6) or '"' in text.replace('{\\"', "") else '"' + text + '"'

    def pages(self):
        first = self.random.randint(1, 900)
        return self.pick([f"{first}--{first + 9}", f"{first}", f"{first}-{first + 3}", f"{first}, {first + 5}", f"{first}+"])

    # ---- fields ----

    def value(self, field):
        number = self.random.randint(1, 99)
        made = {"author": self.people, "editor": self.people, "title": self.title, "booktitle": self.title,
                "pages": self.pages}
        if field in made:
            return self.wrapped(made[field]())
        if field == "journal":
            return self.pick(JOURNALS)
        if field == "month":
            return self.pick(MONTHS)
        if field == "publisher":
            house = self.pick(HOUSES)
            return house if house in ("hall", "press") else self.wrapped(house)
        if field == "year":
            return self.pick([str(1900 + number), "{%d}" % (1900 + number), '"%d"' % (1900 + number)])
        if field in ("volume", "number", "chapter"):
            return self.pick([str(number), "{%d}" % number, "{%d/%d}" % (number, number + 1)])
        if field == "edition":
            return self.pick(["{Second}", '"third"', "2"])
        if field in ("address", "school", "institution", "organization"):
            return self.wrapped(self.pick(PLACES))
        return self.wrapped(self.title())

    def entry(self, kind, key, parent=None):
        needed, optional = (names.split() for names in FIELDS[kind])
        fields = [name for name in needed if self.chance(0.95)] + [name for name in optional if self.chance(0.5)]
        if parent:
            fields = [name for name in fields if name not in ("booktitle", "editor", "year", "publisher")]
        lines = [f"  {self.pick([name, name, name.upper()])} = {self.value(name)}" for name in fields]
        if parent:
            lines.insert(0, "  crossref = {%s}" % parent)
        opening, closing = self.pick(["{}", "{}", "{}", "()"])
        comma = self.pick(["", ","])
        return "@%s%s%s,\n%s%s\n%s\n" % (self.pick([kind, kind.capitalize(), kind.upper()]), opening, key,
                                         ",\n".join(lines), comma, closing)

    # ---- the whole ----

    def database(self, entries):
        """The text, and its keys in order."""
        texts, keys = [STRINGS], []
        kinds = sorted(FIELDS)
        for number in range(entries):
            parent = "Parent%d" % (number % 5) if number % 9 == 4 else None
            kind = self.pick(["inproceedings", "incollection"]) if parent else kinds[number % len(kinds)]
            keys.append(f"{self.pick('abcXYZ')}{number}:{kind[:3]}")
            texts.append(self.entry(kind, keys[-1], parent))
        for number in range(5):
            keys.append(f"parent{number}")
            texts.append(self.entry("proceedings" if number % 2 else "book", keys[-1]))
        return "\n".join(texts), keys


def make_database(seed=1, entries=240):
    text, keys = Maker(seed).database(entries)
    return text.encode(), [key.encode() for key in keys]


if __name__ == "__main__":
    sys.stdout.buffer.write(make_database(*map(int, sys.argv[1:3]))[0])
