"""Letters outside ASCII in lists of references.

    python3 letters.py orders SEARCH [peers]     names of each language, sorted by -letters: prints each pair of rows made for the rules that is in another order than the language's, and each
                                                 label of other letters; then a table: for names of people, how many of each 900 pairs are in another order than CLDR's. With `peers` the
                                                 table has bibtex, bibtexu and biber, too (letter_orders.py)
    python3 letters.py styles SEARCH FOLDER..    a database full of such letters by each style below the folders: in how many lists there is half a letter, and what else is odd
    python3 letters.py costs SEARCH [RUNS]       what -letters=de costs in `plain`, which kpsewhich finds: instructions, which valgrind counts, and the least processor time of RUNS runs each way, in turns

SEARCH is the program bibtex-search. The exit status of `orders` is 1 where a pair of those rows or a label is wrong, or where -letters has more than 2 of each 900 pairs in another order. The last
line of `costs` says in how many jobs the instructions are within the bar, and its exit status is 1 where they aren't in all.
"""

import collections
import os
import pathlib
import random
import re
import subprocess
import sys
import tempfile
import unicodedata

import letter_orders

# Names that exercise each rule, by their language, each in the order that it wants. Some are made up; names_by_language.txt has those of people.
NAMES = {
    "de": "Gauß, Carl Friedrich|Gauss, Christian|Gödel, Kurt|Goethe, Johann|Götz, Karl|Möbius, August|Moser, Jürgen|Mozart, Wolfgang|Mueller, Ferdinand von|Muller, Hermann Joseph|Müller, Johannes|Ohm, Georg|Ömer, Ali|Österreicher, Max|Schröder, Ernst|Schrödinger, Erwin|Schroeder, Manfred",
    "pl": "Cybulski, Zbigniew|Czech, Jan|Ćwik, Anna|Luszczki, Zygmunt|Lwów, Adam|Ładny, Jan|Łukasiewicz, Jan|Sierpiński, Wacław|Sikorski, Roman|Szymański, Piotr|Śniadecki, Jan|Świerczek, Antoni|Zaremba, Stanisław|Zygmund, Antoni|Źródłowski, Piotr|Żeromski, Stefan",
    "cs": "Cibulka, Josef|Čapek, Karel|Čech, Eduard|Hájek, Petr|Hus, Jan|Chvátal, Václav|Chytil, Jan|Ivan, Josef|Rychlík, Karel|Řehák, Jan|Svoboda, Jan|Sýkora, Jan|Šimša, Jaromír|Zelenka, Jan|Žák, Václav",
    "es": "Alonso, Ana|Álvarez, Luis|Ibáñez, Vicente|Nuñes, Pedro|Núñez, Rafael|Nuza, Ana|Nzambi, Luis|Ñáñez, Alfredo|Oller, Joan|Ordóñez, José|Penzo, Luis|Peña, Daniel|Perea, Ana|Pérez, Juan",
    "fr": "Ça, Jean|Cartan, Élie|Cézanne, Paul|Cuvier, Georges|Élie, Émile|Eliot, Jean|Étienne, Luc|Eulard, Marc|Évrard, Paul|Levi, Beppo|Lévy, Paul|Lewy, Hans|Odier, Antoine|Œuvrard, Pierre|Ozanam, Jacques|Poincaré, Henri|Poincelet, Anne",
    "tr": "Cansever, Edip|Cumalı, Necati|Çelik, Ömer|Dağlarca, Fazıl|Dalan, Bedri|Gutman, Ali|Gürsey, Feza|Güven, İsmail|Irmak, Sadi|Işık, Ahmet|Izgi, Cevat|İnan, Afet|İnönü, Erdal|Orbay, Kazım|Oz, Amos|Öz, Tahsin|Özal, Turgut|Sayın, Aydın|Soysal, Mümtaz|Süreya, Cemal|Şahin, Uğur|Uçar, Hasan|Ülken, Hilmi",
    "sv": "Ahlfors, Lars|Almqvist, Carl|Ekström, Per|Oseen, Carl|Vogt, Nils|Wahl, Ulf|Wärn, Eva|Zachrisson, Jan|Zorn, Anders|Åkesson, Birgit|Ångström, Anders|Ärlig, Nils|Öberg, Erik|Östlund, Per",
    "de-phonebook": "Gauß, Carl Friedrich|Gauss, Christian|Gödel, Kurt|Goethe, Johann|Götz, Karl|Möbius, August|Moser, Jürgen|Mozart, Wolfgang|Mueller, Ferdinand von|Müller, Johannes|Muller, Hermann Joseph|Ömer, Ali|Österreicher, Max|Ohm, Georg|Schröder, Ernst|Schroeder, Manfred|Schrödinger, Erwin",
    "sk": "Cibula, Ján|Čech, Eduard|Dubček, Alexander|Ďurica, Milan|Hronský, Jozef|Chalupka, Samo|Ivan, Ján|Lipa, Peter|Ľudovít, Karol|Oravec, Ján|Ôsmy, Ján|Palárik, Ján|Pazderka, Ján|Päťka, Juraj|Sládkovič, Andrej|Šafárik, Pavel|Tajovský, Jozef|Ťažký, Ladislav|Zelenay, Pavol|Žáry, Štefan",
    "hu": "Cukor, György|Czuczor, Gergely|Csiky, Gergely|Dugonics, András|Dzsida, Jenő|Gárdonyi, Géza|Gulyás, Pál|Győri, Ervin|Gyulai, Pál|Ligeti, György|Lyka, Károly|Nagy, László|Németh, László|Nyíri, Tamás|Ody, Árpád|Orbán, Ottó|Őry, Norbert|Ötvös, József|Sárosi, Gyula|Sütő, András|Szabó, Magda|Turán, Pál|Tyukodi, Márton|Ujfalvi, Pál|Üveges, Ödön|Zrínyi, Miklós|Zsoldos, Péter",
    "da": "Andersen, Hans|Bohr, Niels|Ydun, Kaj|Üxküll, Otto|Zahle, Carl|Ærø, Per|Ørsted, Hans|Øster, Ib|Ågren, Ole|Aagaard, Knud|Åkjær, Ib|Aakjær, Jeppe",
    "nb": "Abel, Niels|Ibsen, Henrik|Sars, Georg|Zapffe, Peter|Ærlig, Jo|Østby, Leif|Øverland, Arnulf|Ådland, Per|Ås, Berit|Aasen, Ivar",
    "fi": "Aalto, Alvar|Ahlfors, Lars|Nevanlinna, Rolf|Ylinen, Kari|Üxküll, Otto|Zilliacus, Konni|Åström, Elin|Ärje, Liisa|Öhman, Carl|Östberg, Pia",
    "hr": "Cesarić, Dobriša|Čavlek, Ivan|Ćosić, Ante|Drašković, Janko|Dukić, Petar|Džamonja, Dušan|Đalski, Ksaver|Lovrić, Mato|Lukić, Ana|Ljubić, Šime|Novak, Vjenceslav|Nušić, Ivo|Njegoš, Petar|Supek, Ivan|Šenoa, August|Zoranić, Petar|Žagar, Mate",
    "pt": "Água, Rui|Agualusa, José|Andrade, Mário|Ângelo, Ivan|Avelar, Rita|Ávila, Ana|Camões, Luís|Ção, Diogo|Órfão, Luís|Orta, Garcia",
    "it": "Albani, Ada|Àlbori, Ugo|Eco, Umberto|Èrcoli, Pia|Ùbaldi, Gino|Ungaretti, Giuseppe",
    "nl": "Bolk, Lodewijk|Bölke, Jan|Elsschot, Willem|Éluard, Piet|Ïsaak, Jan|Isings, Ans",
    "en": "Bronson, Bo|Brontë, Anne|Brontz, Al|Eiffel, Guy|Éire, Sean|Opie, Iona|Öpik, Ernst",
}

TITLES = [
    "Über die Ästhetik: Öffentliche Räume", "Études sur l'Œuvre de Évariste", "Łąka i Źródło: Świat", "İstanbul'da Işık ve Şehir", "Ñandú: Écologie", "Änglar och Öar", "Čeština: Řeč a Žánr",
    "{Ölçüm} und {GÄ}-Theorie",
]
TYPES = "article book inbook incollection inproceedings manual mastersthesis misc phdthesis proceedings techreport unpublished booklet".split()
FIELDS = {
    "journal": "Zeitschrift für Ökologie", "volume": "3", "number": "4", "pages": "1--9", "publisher": "Ämter Verlag", "school": "Universität Łódź", "institution": "Çağ Enstitüsü", "address": "Łódź",
    "note": "Éd. spéciale", "organization": "Österreichische Akademie", "month": "März", "series": "Überblick", "edition": "Zweite",
}
WAYS = {"bytes": ["-text=bytes"], "auto": [], "letters": ["-letters=de"]}


def aux(keys, style):
    return "\\citation{%s}\n\\bibdata{d}\n\\bibstyle{%s}\n" % (",".join(keys), style)


def run(search, *words):
    """The list that a run of the job in this folder makes, and what it prints."""
    done = subprocess.run([search, "-no-explain", "-budget=20000000", *words, "job"], stdin=subprocess.DEVNULL, capture_output=True)
    return pathlib.Path("job.bbl").read_bytes(), done.stdout.decode("utf-8", "replace")


def check_rows(search):
    """Whether a pair of NAMES is in another order than the one that is wanted, or a label has other letters. Prints each, and the number of pairs."""
    pairs, is_bad = 0, False
    for language, row in NAMES.items():
        names = row.split("|")
        counts, faults = letter_orders.compare_language(search, language, names, names, [])
        if counts.get("-letters"):
            faults.append(f"{language}: {counts['-letters']} pairs in another order: {row}")
        pairs += len(names) * (len(names) - 1) // 2
        for fault in faults:
            print(fault)
            is_bad = True
    print(f"{pairs:,} pairs of rows made for the rules{'' if is_bad else ', all in order'}")
    return is_bad


def is_whole(listed):
    try:
        listed.decode()
        return True
    except UnicodeDecodeError:
        return False


def database():
    names = sum((row.split("|") for row in list(NAMES.values())[:7]), [])
    entries = []
    for number in range(39):
        authors = " and ".join(names[(number * 7 + other * 3) % len(names)] for other in range(1 + number % 4))
        own = {"author": authors, "editor": names[number], "title": TITLES[number % 8], "booktitle": TITLES[(number + 3) % 8], "year": str(1990 + number % 20), **FIELDS}
        entries.append("@%s{k%d,\n%s}\n" % (TYPES[number % 13], number, "".join("  %s = {%s},\n" % field for field in own.items())))
    return "".join(entries)


def oddities(lists, said):
    """What is odd in the lists of a style, by the ways in which they were made."""
    yield from ("half a letter: " + way for way, listed in lists.items() if not is_whole(listed))
    yield from ("half a letter in silence: " + way for way, listed in lists.items() if not is_whole(listed) and "half a letter" not in said[way])
    if re.search(rb"[\x01-\x08\x0e-\x1f\xfe\xff]", lists["letters"]):
        yield "left over of a code"
    if lists["letters"].count(b"{") - lists["letters"].count(b"}") != lists["auto"].count(b"{") - lists["auto"].count(b"}"):
        yield "braces"
    reason = re.search(r"made without -letters: (.*)\.", said["letters"])
    if reason:
        yield reason[1]


def check_styles(search, folders):
    pathlib.Path("d.bib").write_text(database())
    pathlib.Path("job.aux").write_text(aux(["k%d" % number for number in range(39)], "s"))
    styles = {path.name: path for folder in folders for path in pathlib.Path(folder).rglob("*.bst")}
    count, found = 0, collections.defaultdict(list)
    for name, path in sorted(styles.items()):
        pathlib.Path("s.bst").write_bytes(path.read_bytes())
        runs = {way: run(search, *words) for way, words in WAYS.items()}
        lists, said = {way: it[0] for way, it in runs.items()}, {way: it[1] for way, it in runs.items()}
        # (a style that writes next to nothing of these entries tells nothing)
        if len(lists["bytes"]) >= 500:
            count += 1
            for odd in oddities(lists, said):
                found[odd].append(path.stem)
    print(f"styles that write a list: {count}")
    for odd, names in found.items():
        print(f"{odd}: {len(names)}" + (f" ({', '.join(names)})" if len(names) < 20 else ""))


# How many times the instructions a run with -letters may take.
MOST_TIMES = 1.15

# What is measured: how many entries a database has and how many of them are cited, one in how many has such letters (0: none), and the fields beside author, title, booktitle and year.
MOST_FIELDS = ("journal", "volume", "number", "pages", "publisher", "school", "institution", "address", "note")
COSTS = [(80, 30, 1, MOST_FIELDS), (1_600, 30, 1, MOST_FIELDS), (1_000, 1_000, 1, MOST_FIELDS[:5]), (10_000, 10_000, 1, ("volume",)), (1_000, 300, 7, MOST_FIELDS), (1_600, 300, 0, MOST_FIELDS)]


def entry_of(number, chance, has_letters, fields):
    names = sum((row.split("|") for row in NAMES.values()), [])
    authors = " and ".join(chance.choice(names) for _ in range(1 + number % 4))
    title = f"{TITLES[number % 8]} {chance.choice(['of waves', 'and soil', 'in systems'])}"
    own = {"author": authors, "title": title, "booktitle": TITLES[(number + 3) % 8], "year": str(1950 + number % 70), **{field: FIELDS[field] for field in fields}}
    entry = "@%s{k%d,\n%s}\n\n" % (TYPES[number % 13], number, "".join("  %s = {%s},\n" % field for field in own.items()))
    return entry if has_letters else unicodedata.normalize("NFD", entry).encode("ascii", "ignore").decode()


def write_job(entries, cited, one_in, fields):
    """Writes a job; how long its database is."""
    chance = random.Random(f"{entries} {cited} {one_in}")
    text = "".join(entry_of(number, chance, one_in and number % one_in == 0, fields) for number in range(entries))
    pathlib.Path("d.bib").write_text(text)
    keys = [f"k{number}" for number in chance.sample(range(entries), cited)]
    pathlib.Path("job.aux").write_text("".join(f"\\citation{{{key}}}\n" for key in keys) + "\\bibdata{d}\n\\bibstyle{plain}\n")
    return len(text.encode())


def seconds(words):
    """How long a run keeps a processor."""
    pid = subprocess.Popen(words, stdin=subprocess.DEVNULL, stdout=subprocess.DEVNULL, stderr=subprocess.DEVNULL).pid
    used = os.wait4(pid, 0)[2]
    return used.ru_utime + used.ru_stime


def instructions(words):
    done = subprocess.run(["valgrind", "--tool=callgrind", "--callgrind-out-file=/dev/null", *words], stdin=subprocess.DEVNULL, capture_output=True, text=True)
    return int(re.search(r"Collected : (\d+)", done.stderr)[1])


def check_costs(search, runs):
    ways, within = [[str(search), "-terse", "-no-explain", *more, "job"] for more in ([], ["-letters=de"])], 0
    for entries, cited, one_in, fields in COSTS:
        size = write_job(entries, cited, one_in, fields)
        counted = [instructions(words) for words in ways]
        times = [[], []]
        for _ in range(max(3, runs * 30 // (30 + cited))):
            for words, taken in zip(ways, times):
                taken.append(seconds(words))
        least = [1000 * min(taken) for taken in times]
        shares = [with_letters / without for without, with_letters in (counted, least)]
        print(f"{cited:,} of {size / 1e6:.2f} MB, one in {one_in}: {counted[0] / 1e6:.1f} and {counted[1] / 1e6:.1f} million instructions, {shares[0]:.3f}; {least[0]:.2f} and {least[1]:.2f} ms, {shares[1]:.3f} times", flush=True)
        within += shares[0] <= MOST_TIMES
    print(f"{within} of {len(COSTS)} jobs take at most {MOST_TIMES} times the instructions")
    return within < len(COSTS)


def main(what, search, *folders):
    if what == "costs":
        search, runs = pathlib.Path(search).resolve(), int(folders[0]) if folders else 100
        with tempfile.TemporaryDirectory() as room:
            os.chdir(room)
            is_above = check_costs(search, runs)
            os.chdir("/")
        return is_above
    with_peers = folders == ("peers",)
    search, folders = pathlib.Path(search).resolve(), [pathlib.Path(folder).resolve() for folder in folders]
    with tempfile.TemporaryDirectory() as room:
        os.chdir(room)
        is_bad = check_styles(search, folders) if what == "styles" else check_rows(search) | letter_orders.check(search, with_peers)
        os.chdir("/")
    return is_bad


if __name__ == "__main__":
    sys.exit(main(*sys.argv[1:]))
