"""Plants the wrong bodies that the crates keep, and sees that the prover refuses each of them.

    python3 plant.py [--all] [--rare] [--named NAME] [--alone] [--kept] [--unplanted] [--jobs N] [CRATE..]

A wrong body is a file crates/NAME/wrong-bodies/*.edit, or must-fail/*.edit: a line 'function:' with the function that must be refused, a line 'file:', and pairs of
lines 'old:' and 'new:'; each old text stands in that file once. Further lines 'file:' may follow, with their pairs: so a slip is made in a
definition and the code alike, with what lemmas say of it, and a law must refuse it; such a body is planted alone. A function is proved from the contracts of those that it calls, never from
their bodies: so the wrong bodies of one crate are planted together, in as few rounds as have each function once, only their functions are
checked, and all others have stand-ins (stand_ins.py), whose proofs are holes: a round costs what its own functions cost. What isn't refused so for a reason of its own
(the check may only report that a function is called that isn't proved, since that one is planted too) is planted so again with the others that are left, as long as some
more are refused; then among the functions' own bodies and proofs, and at last alone. For each it prints the goal that refused: its name and what it says, where the check reports it; and for each crate how many rounds there were,
and how long they took.

With --alone each is planted alone from the beginning. With --kept the first round stands on what `rt check` kept in the crate's folder out/: for work on a crate, never for the gate.
With --unplanted nothing is planted, and the prover must take each function over the stand-ins as it stands: so what is refused otherwise is refused for what was planted. It is for work
on the stand-ins.

One that changes a definition too, a file of specs/, has a round of its own behind the others, which are to be judged by the definitions that stand. Two of
these in one round could not be distinguished: a law that the one breaks may be refused for the other's definition. But slips that change definitions alone share a round if
none of the files that the law of the one is proved by, and that its statement is made of, is changed by another: then each law can only be refused for its own slip.

A file with a line 'rare: REASON' is tried only with --all, or with --rare, which tries these alone; else the number of those that were left out is printed: the gate has no minutes for a round of
its own for each of many slips in one definition that others guard too. With --named only the bodies of these names are tried.

Each file also has a line 'witness:', which witnesses.py checks; here it must only be there.

It stands on the libraries that the gate has built (rt ci), and on the kit's own way to check a crate whose text is changed. The last line is
'N passed, M failed', of wrong bodies; the exit status is 0 only where M is 0."""

import argparse
import concurrent.futures
import copy
import functools
import importlib.machinery
import importlib.util
import os
import pathlib
import re
import shutil
import sys
import tempfile
import time

from edits import WrongBody
from stand_ins import stand_in
from witnesses import FOLDERS, ROOT, report_lacking, witness_of

# How much of a goal is printed.
LONGEST_GOAL = 300
# An error that reports only that a name is gone says nothing of a contract.
GONE = re.compile(r"is not in scope|has no field|has no `|was not admitted|\(nearest: ")
# What the check says of a function that is proved, but for holes that stand in.
TAKEN = re.compile(r"proved$|no holes|depends on a hole")


def load_kit():
    """The kit's command, as a module: what `rt ci` checks a crate with."""
    sys.dont_write_bytecode = True
    loader = importlib.machinery.SourceFileLoader("rt", os.path.realpath(shutil.which("rt")))
    kit = importlib.util.module_from_spec(importlib.util.spec_from_loader("rt", loader))
    loader.exec_module(kit)
    return kit


def in_rounds(bodies, alone):
    """The bodies in rounds that have each function once at most. One that changes a definition stands alone, behind the others, or with others that it can't be
    refused for."""
    rounds = []
    for body in sorted(bodies, key=lambda it: (it.changes_definitions, it.name)):
        free = next((it for it in rounds if not alone and all(may_share(body, other) for other in it)), None)
        if free is None:
            rounds.append(free := [])
        free.append(body)
    return rounds


def may_share(one, other):
    """Whether two bodies can be distinguished in one round: by their functions; slips in definitions, also by the files that the law of each reaches."""
    if one.function == other.function or one.changes_definitions != other.changes_definitions:
        return False
    if not one.changes_definitions:
        return True
    return one.is_slip and other.is_slip and not one.files & reached_by(other) and not other.files & reached_by(one)


def reached_by(body):
    """The files of its crate that the law of a body is proved by, and that its statement is made of."""
    crate = body.path.parents[1]
    *modules, name = body.function.split("::")
    return reached_from(crate, (f"proofs/{'/'.join([*modules, name])}/Answers.antt",))


@functools.lru_cache(maxsize=None)
def reached_from(crate, files):
    """The files of specs/ and proofs/ that these import, and what those import, and so on."""
    seen, work = set(), list(files)
    while work:
        file = work.pop()
        if file in seen or not (crate / file).is_file():
            continue
        seen.add(file)
        for path in re.findall(rf"(?m)^(?:pub )?use Rattle\.{crate.name}\.((?:specs|proofs)\.[\w.]+)", (crate / file).read_text(encoding="utf-8")):
            parts = path.rstrip(".").split(".")
            work += ["/".join(parts[:end]) + ".antt" for end in range(len(parts), 1, -1)]
    return frozenset(seen)


class Judged:
    """What became of a body: why it isn't refused, if it isn't, and else the goal that refused it."""

    def __init__(self, body, why=None, goal=None):
        self.body, self.why, self.goal = body, why, goal


def judged(crate, body, said):
    """What the check said of this body: a goal of its function must be left, or an answer for one be wrong."""
    name = re.escape(f"{crate}::{body.function}")
    verdict = re.search(rf"(?m)^fn {name}: (.*)$", said)
    if not verdict or TAKEN.match(verdict[1]):
        return Judged(body, "NOT REFUSED: its function is still proved" if verdict else "nothing is reported of its function")
    open_goal = re.search(r"did not prove `([^`]*)`", verdict[1])
    if open_goal:
        return Judged(body, goal=goal_of(body, said, open_goal[1]))
    errors = re.findall(rf"(?m)^(?:\./)?(proofs/{folder_of(body)}/\S+?:\d+:\d+: error.*)$", said)
    errors = [it for it in errors if is_own(body, it)]
    if body.changes_definitions:
        others = re.findall(r"(?m)^(?:\./)?(proofs/\w+\.antt:\d+:\d+: error.*)$", said)
        errors += [it for it in others if not body.is_slip or it.split(":")[0] in reached_by(body)]
    of_goals = [it for it in errors if not GONE.search(it)]
    if not of_goals and "did not prove" not in verdict[1]:
        return Judged(body, f"refused only since a name is gone, or another function isn't proved: {[verdict[0], *errors][-1][:300]}")
    return Judged(body, goal=[*of_goals, verdict[1]][0][:LONGEST_GOAL])


def goal_of(body, said, name):
    """A goal that is left: its name, and what must be shown."""
    wanted = re.search(rf"(?m)^note: `{re.escape(name)}` of (?:\./)?proofs/{folder_of(body)}/\S+ must prove: (.*)$", said)
    return f"`{name}`" + (f": {wanted[1]}"[:LONGEST_GOAL] if wanted else "")


def folder_of(body):
    """The folder of a function's proof, as a pattern: its own, or the one of the functions that it is proved with."""
    *modules, name = map(re.escape, body.function.split("::"))
    return "/".join([*modules, rf"(?:{name}|\+\w+)"])


def is_own(body, error):
    """Whether an error is one of the body's own function: functions that are proved with one another share a folder, and the goals there begin with their names."""
    goal = re.search(r"/\+\w+/\S+: error: `([^`]*)`", error)
    return not goal or re.match(rf"(?:\w+::)*{re.escape(body.function.rpartition('::')[2])}-", goal[1]) is not None


def checked(kit, crate, texts, functions, kept, over_stand_ins):
    """What a check of these functions says, with these texts in the place of the crate's own, and stand-ins for all other functions if they are wanted."""
    only = [word for function in functions for word in ("--only", function)]
    if not over_stand_ins:
        return kit.checked(crate, texts, ["--jobs", "1", *only], kept).stdout
    with tempfile.TemporaryDirectory(prefix="stand-ins-") as room:
        for part in kit.rtlib.PARTS:
            if pathlib.Path(crate.folder, part).is_dir():
                shutil.copytree(pathlib.Path(crate.folder, part), pathlib.Path(room, part))
        for file, text in texts.items():
            pathlib.Path(room, file).write_text(text, encoding="utf-8")
        stand_in(pathlib.Path(room), crate.name, functions)
        changed = copy.copy(crate)
        changed.folder = room
        return kit.checked(changed, {}, ["--jobs", "1", "--allow-holes", *only], kept).stdout


def try_round(kit, crate, bodies, kept, over_stand_ins):
    """What becomes of each body of the round."""
    folder, texts, results, planted = pathlib.Path(crate.folder), {}, [], []
    for body in bodies:
        try:
            texts = body.planted_in(texts, folder)
            body.see_function(folder)
            planted.append(body)
        except (OSError, ValueError) as error:
            results.append(Judged(body, str(error)))
    said = checked(kit, crate, texts, [body.function for body in planted], kept, over_stand_ins)
    reported = re.search(r"^only=\d+ (proved|holes)=\d+", said.rstrip("\n").rpartition("\n")[2])
    for body in planted:
        results.append(judged(crate.name, body, said) if reported else Judged(body, "the check came to no end: " + said[:400]))
    return results


def try_bodies(kit, crate, bodies, kept, alone):
    """What becomes of each body: over stand-ins, as long as some more are refused; then together among the functions' own bodies, and at last alone; and how many
    rounds that took each time."""
    refused, taken = [], []
    ways = [(True, alone), (False, alone), (False, True)]
    while bodies and ways:
        over_stand_ins, is_alone = ways[0]
        rounds = in_rounds(bodies, is_alone)
        tried = [it for some in rounds for it in try_round(kit, crate, some, kept, over_stand_ins)]
        refused += [it for it in tried if not it.why]
        taken.append(len(rounds))
        if not over_stand_ins or all(it.why for it in tried):
            ways.pop(0)
        bodies = [it.body for it in tried if it.why]
    return refused + [it for it in tried if it.why], taken


def take_unplanted(kit, crate, bodies, kept):
    """Which functions of these bodies the prover takes as they stand, over stand-ins for all others."""
    said = checked(kit, crate, {}, sorted({it.function for it in bodies}), kept, True)
    verdicts = dict(re.findall(rf"(?m)^fn {crate.name}::(\S+): (.*)$", said))
    results = []
    for body in bodies:
        verdict = verdicts.get(body.function, "nothing is reported of its function")
        results.append(Judged(body, None if TAKEN.match(verdict) else verdict[:LONGEST_GOAL], "unplanted: " + verdict[:40]))
    return results


def kept_folder(crate, room, is_given):
    """Where the rounds of a crate keep what they proved: in an empty folder of this run, or in a copy of what `rt check` kept."""
    kept, given = pathlib.Path(room, "kept"), pathlib.Path(crate.folder, "out/incremental")
    if is_given and given.is_dir():
        shutil.copytree(given, kept)
    else:
        kept.mkdir()
    return str(kept)


def is_asked_for(body, given):
    """Whether the words of the command line are about this wrong body."""
    return body.name in given.named if given.named else body.is_rare or not given.rare


def try_crate(kit, crate, given):
    paths = sorted(path for folder in FOLDERS for path in pathlib.Path(crate.folder, folder).glob("*.edit"))
    bodies, began = [it for it in map(WrongBody, paths) if is_asked_for(it, given)], time.monotonic()
    left_out = [it for it in bodies if it.is_rare and not (given.all or given.rare or given.named)]
    bodies = [it for it in bodies if it not in left_out]
    if not bodies:
        return []
    with tempfile.TemporaryDirectory() as room:
        kept = kept_folder(crate, room, given.kept)
        if given.unplanted:
            results, rounds = take_unplanted(kit, crate, bodies, kept), [1]
        else:
            results, rounds = try_bodies(kit, crate, bodies, kept, given.alone)
    for it in results:
        verdict = it.why or (it.goal if given.unplanted else f"refused, as it must be, at {it.body.function}, {it.goal}")
        print(f"{crate.name}/{it.body.name}: {verdict}", flush=True)
    if left_out:
        print(f"{crate.name}: {len(left_out)} rare ones are left out, which --all tries too", flush=True)
    again = f", and once more {rounds[1:]}" if rounds[1:] else ""
    print(f"{crate.name}: wrong bodies {len(results)}, rounds {rounds[0]}{again}, seconds {time.monotonic() - began:.0f}", flush=True)
    return results


def main():
    parser = argparse.ArgumentParser()
    parser.add_argument("--all", action="store_true")
    parser.add_argument("--rare", action="store_true")
    parser.add_argument("--named", action="append", default=[])
    parser.add_argument("--alone", action="store_true")
    parser.add_argument("--kept", action="store_true")
    parser.add_argument("--unplanted", action="store_true")
    parser.add_argument("--jobs", type=int, default=len(os.sched_getaffinity(0)))
    parser.add_argument("crates", nargs="*")
    arguments = parser.parse_args()
    kit = load_kit()
    kit.rtlib.Crate.cuts_libraries = True
    kit.rtlib.guarded()
    crates = [it for it in kit.rtlib.crates_below(str(ROOT)) if not arguments.crates or it.name in arguments.crates]
    with concurrent.futures.ThreadPoolExecutor(arguments.jobs) as pool:
        results = [*pool.map(lambda crate: try_crate(kit, crate, arguments), reversed(crates))]
    refused = [not it.why for of_crate in results for it in of_crate]
    lacking = report_lacking([it.body.name for of_crate in results for it in of_crate if witness_of(it.body.text) is None])
    print(f"{refused.count(True)} passed, {refused.count(False) + lacking} failed")
    return refused.count(False) + lacking


if __name__ == "__main__":
    raise SystemExit(main() > 0)
