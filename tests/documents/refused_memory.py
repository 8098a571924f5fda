"""Sees that want of memory is answered nowhere but where memory was refused.

    python3 refused_memory.py

No contract can say when a call is refused memory, so one that answers so for no reason is proved too. This reads the code of the program's crates (those that hold
only tests aside) and finds each expression that makes a fault for want of memory: `Fault::Memory`, `FetchFault::Memory`, `RunFault::Memory`, `Refusal::Memory`,
`AllocError`, or an error of the kind `OutOfMemory`. It may stand

- in an `impl From<..>` that turns one such error into another;
- behind `=>` in an arm of a `match` whose pattern is such a fault itself, which is passed on;
- in a function that is listed below, so often, each with the reason why memory was refused there.

Each failure is a line; the last line is 'N passed, M failed', of these expressions and of the functions listed, and the exit status is 0 only where M is 0. That a
call which is refused memory really needs that memory is for the reader of the code and for the bars on memory to see."""

import collections
import pathlib
import re

ROOT = pathlib.Path(__file__).resolve().parents[2]
CRATES = sorted(path.parent for path in ROOT.glob("crates/*/src") if not path.parent.name.endswith("_tests"))
MADE = re.compile(r"\b(?:\w*Fault|Refusal)::Memory\b|\bAllocError\b(?!\s*::)|\bOutOfMemory\b")
# What isn't run: comments, imports, ghost items and clauses; and what names a type or asks for a kind.
UNREAD = re.compile(r"//[^\n]*|^\s*(?:ghost use|pub use|use) [^;]*;", re.M)
CLAUSE = re.compile(r"\b(?:ensures|requires|ghost)\b[^{;\n]*\{")
TYPE = re.compile(r"(?:->|[<,:&(]) *$")
ITEM = re.compile(r"^ *impl\b(?P<impl>[^{]*)|^ *(?:pub(?:\([^)]*\))? )?(?:const |unsafe )*fn (?P<fn>\w+)", re.M)
FROM = re.compile(r"\bFrom<")
PASSED_ON = re.compile(r"(?:Memory|OutOfMemory)\)? *=>[^=\n]*$")

# Functions that answer want of memory themselves: how often, and what was refused.
LISTED = {
    ("btx_aux", "MemoryFinder::new"): (1, "a file couldn't be put into the table"),
    ("btx_aux", "fill"): (1, "the file's bytes couldn't be copied"),
    ("btx_aux", "History::answer"): (1, "the answer couldn't be noted"),
    ("btx_bib", "number_of"): (1, "there are more than 2^32 values, which take 64 GB or more"),
    ("btx_c", "copy_or_ask"): (1, "the name couldn't be kept"),
    ("btx_command", "refusal_with"): (1, "the words couldn't be kept, or the text of the refusal couldn't be made"),
    ("btx_command", "read_in"): (1, "the path couldn't be made"),
    ("btx_command", "read_some"): (1, "2^64 signals interrupted one reading, which no time allows"),
    ("btx_command", "read_front"): (2, "the bytes couldn't be appended, or 2^64 readings didn't end the file, which no time allows"),
    ("btx_read", "in_32_bits"): (1, "a name or a text of a record has 4 GB or more, which lie in memory twice"),
    ("btx_read", "number_at"): (1, "a style has more than 2^32 fields, which no file of at most 2^31 bytes declares"),
    ("btx_stack", "append_two"): (1, "the second text couldn't be appended"),
    ("btx_step", "product"): (1, "there are more values than a number counts, which no memory holds"),
}


def blank(text):
    """Spaces in the place of a text, and its lines."""
    return re.sub(r"[^\n]", " ", text)


def what_is_run(text):
    """The text with its comments, imports, clauses and ghost items blanked."""
    text = UNREAD.sub(lambda found: blank(found[0]), text)
    kept, place = [], 0
    while found := CLAUSE.search(text, place):
        depth, end = 1, found.end()
        while depth:
            depth += {"{": 1, "}": -1}.get(text[end], 0)
            end += 1
        kept += [text[place:found.start()], blank(text[found.start():end])]
        place = end
    return "".join(kept) + text[place:]


def owner(text, place):
    """The name of the function at a place, with its type's, and whether it converts errors."""
    function = kind = ""
    converts = False
    for item in ITEM.finditer(text, 0, place):
        if item["fn"] is None:
            kind = re.split(r"\bfor\b", item["impl"])[-1].split(" where")[0].strip()
            kind = re.sub(r"^<[^>]*>\s*", "", kind).split("<")[0].strip()
            converts = bool(FROM.search(item["impl"]))
        else:
            inside = text[text.rfind("\n", 0, item.start("fn")) + 1:item.start("fn")].startswith(" ")
            function = f"{kind}::{item['fn']}" if inside and kind else item["fn"]
            converts = converts and inside
    return function, converts


def expressions(path):
    """Each expression of a file that makes a fault for want of memory: its line, its function, and whether it passes on such a fault."""
    text = what_is_run(path.read_text(encoding="utf-8"))
    for found in MADE.finditer(text):
        start = text.rfind("\n", 0, found.start()) + 1
        before, behind = text[start:found.start()], text[found.end():text.find("\n", found.end())]
        is_type = found[0] == "AllocError" and (TYPE.search(before) and not re.search(r"\b(?:Err|ok_or)\($", before))
        is_pattern = "=>" in behind or re.search(r"\bmatches!\(|\bif let\b|[!=]= $", before) or re.match(r"\s*\|", behind)
        if is_type or is_pattern:
            continue
        function, converts = owner(text, found.start())
        yield text.count("\n", 0, found.start()) + 1, function, converts or bool(PASSED_ON.search(before))


def main():
    passed = failed = 0
    counts = collections.Counter()
    for crate in CRATES:
        for path in sorted(crate.glob("src/**/*.rt")):
            for line, function, is_passed_on in expressions(path):
                place = (crate.name, function)
                counts[place] += not is_passed_on
                fine = is_passed_on or counts[place] <= LISTED.get(place, (0,))[0]
                if not fine:
                    print(f"FAILED: {path.relative_to(ROOT)}:{line}: {function} answers want of memory, and isn't listed")
                passed, failed = passed + fine, failed + (not fine)
    for place, (count, _) in LISTED.items():
        if counts[place] < count:
            print(f"FAILED: {place[0]}: {place[1]} is listed with {count}, and has {counts[place]}")
        passed, failed = passed + (counts[place] >= count), failed + (counts[place] < count)
    print(f"{passed} passed, {failed} failed")
    return failed


if __name__ == "__main__":
    raise SystemExit(main() > 0)
