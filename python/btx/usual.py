"""What the usual styles of BibTeX have: their types of entries, the fields that BibTeX's manual requires of each, and the names of fields that programs write."""

from __future__ import annotations

from functools import lru_cache
from typing import Dict, FrozenSet, Iterable, List, Optional, Tuple

from .spelling import nearest

__all__ = ["ALONE", "EITHER", "FIELDS", "OF_BIBLATEX", "REQUIRED", "missing_fields", "near_field", "near_type"]

# The fields that BibTeX's manual (btxdoc) requires of each type; of those with a bar one is enough.
TABLE = {
    "article": "author title journal year",
    "book": "author|editor title publisher year",
    "booklet": "title",
    "conference": "author title booktitle year",
    "inbook": "author|editor title chapter|pages publisher year",
    "incollection": "author title booktitle publisher year",
    "inproceedings": "author title booktitle year",
    "manual": "title",
    "mastersthesis": "author title school year",
    "misc": "",
    "phdthesis": "author title school year",
    "proceedings": "title year",
    "techreport": "author title institution year",
    "unpublished": "author title note",
}
REQUIRED: Dict[bytes, Tuple[Tuple[bytes, ...], ...]] = {kind.encode(): tuple(tuple(one.encode().split(b"|")) for one in fields.split()) for kind, fields in TABLE.items()}
# The fields of each type of which none has another in its place.
ALONE = {kind: frozenset(one[0] for one in fields if len(one) == 1) for kind, fields in REQUIRED.items()}
# The types of which one of several fields is enough.
EITHER = frozenset(kind for kind, fields in REQUIRED.items() if any(len(one) > 1 for one in fields))
# Types of biblatex, and those of the usual styles for such works; front/src/explain/databases.rs has the same.
OF_BIBLATEX = {
    "artwork": "misc",
    "audio": "misc",
    "bookinbook": "inbook",
    "collection": "book",
    "dataset": "misc",
    "electronic": "misc",
    "image": "misc",
    "inreference": "incollection",
    "movie": "misc",
    "mvbook": "book",
    "mvcollection": "book",
    "mvproceedings": "proceedings",
    "online": "misc",
    "patent": "misc",
    "periodical": "misc",
    "reference": "book",
    "report": "techreport",
    "software": "misc",
    "suppbook": "inbook",
    "thesis": "phdthesis",
    "video": "misc",
    "www": "misc",
}
# Fields that are meant by names which differ in a letter or two: those of the usual styles, and some that most programs write.
MEANT = (
    "address annote author booktitle chapter crossref edition editor howpublished institution journal key month note number organization pages publisher school series title type volume year"
    " abstract doi eprint isbn issn keywords language url"
).split()
# Other fields that programs and biblatex have.
OTHERS = (
    "abstractnote accessdate accessed acknowledgement addendum affiliation afterword annotation annotator archive archiveprefix arxivid arxiv articleno author+an bookauthor bookpagination booksubtitle booktitleaddon bibdate bibsource"
    " biburl bookurl citation coden collaboration comment comments commentator contents copyright country date day editora editorb editorc editortype eid email entrysubtype eprintclass eprinttype eventdate eventtitle execute"
    " file foreword gender groups holder howpublished hyphenation ids indexsorttitle indextitle introduction isan ismn isrn issue issuetitle issuesubtitle iswc journaltitle journalsubtitle keyword label langid langidopts"
    " lastaccessed lccn library location mainsubtitle maintitle mendeley-tags mrclass mrnumber mrreviewer nameaddon names numpages options origdate origlanguage origlocation origpublisher origtitle owner page-count pagetotal pagination part"
    " place pmc pmcid pmid presort primaryclass price priority pubstate rating related relatedoptions remark review reprinttitle section shortauthor shorteditor shorthand shorthandintro shortjournal shortseries shorttitle size"
    " sortkey sortname sorttitle sortyear source status subject subtitle tags timestamp titleaddon translator urldate urlday urlmonth urlyear venue version volumes xdata xref zblnumber"
).split()
FIELDS: FrozenSet[bytes] = frozenset(name.encode() for name in (*MEANT, *OTHERS))


def missing_fields(kind: bytes, has: Iterable[bytes]) -> List[Tuple[bytes, ...]]:
    """The fields that an entry of this type lacks, as it has these."""
    names = frozenset(has)
    required = REQUIRED.get(kind, ())
    # (most entries have all)
    if ALONE.get(kind, frozenset()) <= names and all(len(one) == 1 or not names.isdisjoint(one) for one in required):
        return []
    return [one for one in required if names.isdisjoint(one)]


def distance(left: str, right: str) -> int:
    """How many letters are to be put in, taken out, exchanged for others, or exchanged with the next one to make one word another."""
    above: List[int] = []
    row = list(range(len(right) + 1))
    for index, letter in enumerate(left):
        following = [index + 1]
        for at, other in enumerate(right):
            least = min(row[at] + (letter != other), row[at + 1] + 1, following[at] + 1)
            if index and at and left[index - 1] == other and right[at - 1] == letter:
                least = min(least, above[at - 1] + 1)
            following.append(least)
        above, row = row, following
    return row[-1]


def near(name: str, known: Iterable[str]) -> Optional[str]:
    """The name among these that differs least from one, where it may be meant."""
    most = 1 if len(name) < 8 else 2
    # (one letter more, less or another makes at most two letters that one of the names has alone)
    likely = (other for other in known if abs(len(name) - len(other)) <= most and len(set(name) ^ set(other)) <= 2 * most)
    close = [(distance(name, other), other) for other in likely if len(name) > 3 and name[0] == other[0]]
    least = min(close, default=(most + 1, ""))
    return least[1] if 0 < least[0] <= most else None


def near_field(name: bytes) -> Optional[bytes]:
    """The field that may be meant by a name that no usual field has; a name with a digit or the like is meant so."""
    text = name.decode("latin1")
    found = near(text, MEANT) if text.isalpha() and name not in FIELDS else None
    return found.encode() if found else None


@lru_cache(maxsize=1000)
def near_type(kind: str) -> Optional[str]:
    """The type of the usual styles that is meant by one that they don't have: of biblatex, or misspelt."""
    return None if kind in TABLE else OF_BIBLATEX.get(kind) or near(kind, TABLE) or nearest(kind, TABLE)
