"""Runs bibtex-confined over jobs taken by chance, under strace, and sees that the program opens no file that isn't one of the job's folder.

    python3 asked.py CONFINED JOBS [SEED]      BIBTEX_PROGRAM names the program

Each job's .aux files name ordinary files, links, hidden files and files out of the folder, in lines right and wrong. bibtex-confined refuses a
job, or the program opens neither a link nor a file out of the folder. What is wrong is printed; the exit status is 0 only where nothing is."""

import os
import pathlib
import random
import re
import shutil
import subprocess
import sys
import tempfile

PLAIN = [b"d", b"s", b"one.aux", b"two.aux", b"e", b"d.bib", b"s.bst"]
ODD = PLAIN + [b"l", b"l.aux", b"l.bib", b"../out/l", b"../out/l.aux", b"/etc/passwd", b".h", b".h.aux", b"", b"a b", b"d\0", b"a..b", b"-x", b"job.aux",
               b"d,l", b"d}l", b"{d", b"\xff", b"x" * 300, b"x" * 300 + b"/../l"]
COMMANDS = [b"\\bibdata", b"\\bibstyle", b"\\@input"]
ODD_COMMANDS = COMMANDS + [b"\\citation", b" \\bibdata", b"\\bibdata ", b"\\Bibdata", b"\\bibdata\0", b"\\@input\r", b"x\\bibstyle", b"\r\\bibdata",
                           b"\\bibdata{}\r\\bibstyle"]
ENDS = [b"}\n", b"}\r\n"]
ODD_ENDS = ENDS + [b"\n", b"} \n", b"}x\n", b"}\r", b"\r", b"", b"}\x0b\\bibdata{l}\n", b"},../out/l}\n", b" \n", b"}\x0c\n", b"}\x1a\n",
                   b"}\xe2\x80\xa8\\bibdata{l}\n", b"}\x85\\bibdata{l}\n"]
# The loader's files, and those that keep closed streams open.
SYSTEM = ("/lib", "/usr/lib", "/etc/ld.so", "/dev/null")


def mostly(chance, usual, odd, share=0.7):
    """One of the usual ones, or with the remaining share of any."""
    return chance.choice(usual if chance.random() < share else odd)


def aux_text(chance):
    """The text of an .aux file."""
    text = b"\\citation{k}\n"
    for _ in range(chance.randint(1, 6)):
        names = b",".join(mostly(chance, PLAIN, ODD) for _ in range(chance.choice([1, 1, 1, 2, 3])))
        text += mostly(chance, COMMANDS, ODD_COMMANDS) + b"{" + names + mostly(chance, ENDS, ODD_ENDS)
    return text


def write_job(chance, folder):
    """A job, with links to a folder beside it."""
    folder.mkdir()
    for name in ("job.aux", "one.aux", "two.aux"):
        (folder / name).write_bytes(aux_text(chance))
    (folder / "d.bib").write_text("@misc{k}\n")
    (folder / "s.bst").write_text("ENTRY{}{}{} READ\n")
    (folder / ".h.bib").write_text("")
    for ending in ("aux", "bib", "bst"):
        (folder / f"l.{ending}").symlink_to(f"../out/l.{ending}")


def opened_by_the_program(trace):
    """The paths that the program opens, or None where it wasn't started. (bibtex-confined, another process, opens files too.)"""
    started = list(re.finditer(r"^([0-9]+) +execve\(", trace, re.MULTILINE))
    if len(started) < 2:
        return None
    process = started[-1][1]
    paths = re.findall(rf'^{process} +open(?:at)?\((?:AT_FDCWD, )?"((?:[^"\\]|\\.)*)"', trace[started[-1].start():], re.MULTILINE)
    return [path for path in paths if not path.startswith(SYSTEM)]


def is_in_folder(path):
    """Whether a path is that of a file that the program may open."""
    name = path.removeprefix("./")
    return path.startswith("./") and "/" not in name and ".." not in name and not name.startswith(".") and not re.fullmatch(r"l\.(aux|bib|bst)", name)


def main():
    confined, jobs = os.path.realpath(sys.argv[1]), int(sys.argv[2])
    chance = random.Random(int(sys.argv[3]) if len(sys.argv) > 3 else 1)
    taken, wrong = 0, 0
    with tempfile.TemporaryDirectory() as room:
        room = pathlib.Path(room)
        (room / "out").mkdir()
        for ending in ("aux", "bib", "bst"):
            (room / "out" / f"l.{ending}").write_text("\\bibdata{../out/l}\n")
        for number in range(jobs):
            folder = room / "job"
            shutil.rmtree(folder, ignore_errors=True)
            write_job(chance, folder)
            subprocess.run(["strace", "-f", "-qq", "-e", "trace=openat,open,execve", "-o", room / "trace", confined, "job"],
                           cwd=folder, stdin=subprocess.DEVNULL, stdout=subprocess.DEVNULL, stderr=subprocess.DEVNULL, check=False)
            opened = opened_by_the_program((room / "trace").read_text(errors="surrogateescape"))
            taken += opened is not None
            for path in [path for path in opened or [] if not is_in_folder(path)]:
                wrong += 1
                print(f"job {number}: {path!r} was opened; its .aux files are {[(folder / name).read_bytes() for name in ('job.aux', 'one.aux', 'two.aux')]}")
    if taken < jobs // 3:
        print(f"only {taken} of {jobs} jobs were taken")
    return 1 if wrong or taken < jobs // 3 else 0


if __name__ == "__main__":
    sys.exit(main())
