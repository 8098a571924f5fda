"""Sends a signal to bibtex-search at moments made by chance, and looks at what stands in the outputs.

    python3 signals.py [--seed N] [--endless N] TIMES FRONT

The job's list has 60,000 lines; with --endless, N more signals meet a job whose list has no end. Whatever moment it is: the list is the old one, or a beginning of the new one; beside a new list there is no old log; no other file
is left; and a run that didn't end by itself has the signal's status. SIGINT, SIGTERM, SIGHUP, SIGQUIT and SIGKILL take turns. What is wrong is printed; the last line says how
many signals met a run that was going, and in how many of these a list was begun. The exit status is 0 only where nothing is wrong, and a tenth met one."""

import argparse
import pathlib
import random
import signal
import subprocess
import sys
import tempfile
import time

STYLE = """ENTRY {title}{}{} INTEGERS {i} FUNCTION {misc}{} READ
FUNCTION {f} {#0 'i := {i #60000 <} {i #1 + 'i := "line " i int.to.str$ * write$ newline$} while$ #1 warning$ "end" warning$}
EXECUTE {f}
"""
ENDLESS = STYLE.replace("i #60000 <", "i i =")
OLD_LIST, OLD_LOG = b"old list\n", b"old log\n"
KEEPING = [signal.SIGINT, signal.SIGTERM, signal.SIGHUP]
SIGNALS = [signal.SIGINT, signal.SIGTERM, signal.SIGHUP, signal.SIGQUIT, signal.SIGKILL]
# The status of a run whose list or log has filled its room.
ROOM_IS_FULL = 3
LONGEST_END = 10
FILES = {"d.bib", "job.aux", "job.bbl", "job.blg", "s.bst"}


def write_job(folder, style=STYLE):
    (folder / "job.aux").write_text("\\citation{k}\n\\bibdata{d}\n\\bibstyle{s}\n")
    (folder / "d.bib").write_text("@misc{k, title = {T}}\n")
    (folder / "s.bst").write_text(style)
    (folder / "job.bbl").write_bytes(OLD_LIST)
    (folder / "job.blg").write_bytes(OLD_LOG)


def start(front, folder):
    return subprocess.Popen([front, "-terse", "job"], cwd=folder, stdin=subprocess.DEVNULL, stdout=subprocess.DEVNULL, stderr=subprocess.DEVNULL)


def whole(front, folder):
    """The list and the log of a run that nothing disturbs, and its seconds."""
    write_job(folder)
    began = time.monotonic()
    start(front, folder).wait(60)
    return (folder / "job.bbl").read_bytes(), (folder / "job.blg").read_bytes(), time.monotonic() - began


def complaints(folder, number, status, wanted):
    references, log = (folder / "job.bbl").read_bytes(), (folder / "job.blg").read_bytes()
    if references != OLD_LIST:
        if not wanted.startswith(references):
            yield f"the list is no beginning: {references[-60:]!r}"
        if log == OLD_LOG:
            yield f"the old log stands beside a list of {len(references)} bytes"
    if status not in (2, -number):
        yield f"the status is {status}"
    left = {path.name for path in folder.iterdir()} - FILES
    if left:
        yield f"left over: {left}"


def of_endless(front, folder, number, seconds):
    """What is wrong where a job without an end gets a signal after these seconds; and whether a list was begun."""
    write_job(folder, ENDLESS)
    running = subprocess.Popen([front, "-terse", "-budget=1000000000000", "job"], cwd=folder, stdin=subprocess.DEVNULL, stdout=subprocess.DEVNULL, stderr=subprocess.DEVNULL)
    time.sleep(seconds)
    sent = time.monotonic()
    running.send_signal(number)
    status, took = running.wait(60), time.monotonic() - sent
    # On a machine that is too busy the list may fill its room before the signal is seen. Then the run has ended by itself.
    if status == ROOM_IS_FULL:
        return [], False
    references = (folder / "job.bbl").read_bytes()
    is_old = references == OLD_LIST
    wanted = b"".join(b"line %d\n" % line for line in range(1, references.count(b"\n") + 2))
    wrong = list(complaints(folder, number, status, OLD_LIST if is_old else wanted))
    if took > LONGEST_END:
        wrong.append(f"it ends after {took:.1f} seconds")
    return wrong, not is_old and references != b""


def main():
    parser = argparse.ArgumentParser()
    parser.add_argument("--seed", type=int, default=1)
    parser.add_argument("--endless", type=int, default=0)
    parser.add_argument("times", type=int)
    parser.add_argument("front")
    arguments = parser.parse_args()
    # The jobs have each signal's default, whatever this program's caller ignores.
    for number in SIGNALS[:-1]:
        signal.signal(number, signal.SIG_DFL)
    chance, met, begun, wrong = random.Random(arguments.seed), 0, 0, 0
    with tempfile.TemporaryDirectory() as folder:
        folder = pathlib.Path(folder)
        wanted, _, seconds = min((whole(arguments.front, folder) for _ in range(3)), key=lambda found: found[2])
        for turn in range(arguments.times):
            number = SIGNALS[turn % len(SIGNALS)]
            write_job(folder)
            running = start(arguments.front, folder)
            time.sleep(chance.uniform(0, 1.1 * seconds))
            running.send_signal(number)
            status = running.wait(60)
            met += status == -number
            begun += status == -number and 0 < (folder / "job.bbl").stat().st_size != len(OLD_LIST)
            for what in complaints(folder, number, status, wanted):
                wrong += 1
                print(f"turn {turn}, {signal.Signals(number).name}: {what}")
        for turn in range(arguments.endless):
            number = KEEPING[turn % len(KEEPING)]
            found, is_begun = of_endless(arguments.front, folder, number, chance.uniform(0.05, 1))
            begun += is_begun
            wrong += len(found)
            for what in found:
                print(f"endless, turn {turn}, {signal.Signals(number).name}: {what}")
    print(f"{met} of {arguments.times} signals met a run, and {arguments.endless} one without an end; a list was begun in {begun}")
    return wrong > 0 or 10 * met < arguments.times or 2 * begun < arguments.endless


if __name__ == "__main__":
    sys.exit(main())
