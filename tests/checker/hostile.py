"""Hostile styles: bibtex-lint answers within ten seconds of a processor, or more on a slower machine, and 1 GB, and is incomplete where it can't come to an end.

    python3 hostile.py [--only TEXT] LINT

LINT is bibtex-lint, or bibtex-search, which is the same program. Prints each style's verdict, its seconds and its memory; the last line is 'N passed, M failed'."""

import argparse
import os
import pathlib
import random
import resource
import subprocess
import tempfile
import time

# (a million functions, each a type, took 6.5 seconds of a processor beside six other processes; a check is given up after five). On a machine that takes longer for
# five million additions than LOOP_SECONDS, it is as much more.
MOST_SECONDS = 10
LOOP_SECONDS = 0.3
MOST_MEMORY = 1_000_000
LONGEST = 300


def slowness():
    """How many times longer this machine takes than one for which MOST_SECONDS is meant; 1 at least."""
    def looped():
        begin, total = time.process_time(), 0
        for number in range(5_000_000):
            total += number
        return time.process_time() - begin
    return max(1.0, min(looped() for _ in range(3)) / LOOP_SECONDS)


HEAD = b"ENTRY {title author}{n}{t} INTEGERS {i j} STRINGS {s}\nFUNCTION {and} {'skip$ {pop$ #0} if$}\n"


def of_body(body, commands=b"ITERATE {misc}"):
    return HEAD + b"FUNCTION {misc}\n{" + body + b"}\nREAD\n" + commands + b"\n"


def functions(number, body, command=b"EXECUTE {f%d}"):
    """Functions f0, f1, ..; `body` has the place of the one before."""
    made = [b"FUNCTION {f0} {skip$}"]
    made += [b"FUNCTION {f%d} {%s}" % (n, body.replace(b"@", b"f%d" % (n - 1))) for n in range(1, number)]
    return HEAD + b"\n".join(made) + b"\nREAD\n" + (command % (number - 1) if b"%" in command else command) + b"\n"


def loops(number, body=b""):
    """Loops in one another, of which each executes `body` before the next; the innermost one counts."""
    return of_body(b"#3 'i := " + (b"{i #0 >} {" + body) * number + b"i #1 - 'i := " + b"} while$ " * number)


def counters(number):
    """Functions f0, f1, .., of which each counts a variable of its own down."""
    made = [b"FUNCTION {f%d} {#3 'v%d := {v%d #0 >} {v%d #1 - 'v%d :=} while$}" % (n, n, n, n, n) for n in range(number)]
    return b"ENTRY {}{}{} INTEGERS {" + b" ".join(b"v%d" % n for n in range(number)) + b"}\n" + b"\n".join(made) + b"\nREAD\nEXECUTE {f0}\n"


def texts(number, variables):
    """Functions f0, f1, .., of which each makes one of some texts shorter."""
    made = [b"FUNCTION {f%d} {{s%d empty$ not} {s%d #2 global.max$ substring$ 's%d :=} while$}" % (n, *[n % variables] * 3) for n in range(number)]
    head = b"ENTRY {}{}{} STRINGS {" + b" ".join(b"s%d" % n for n in range(variables)) + b"}\nFUNCTION {not} {{#0} {#1} if$}\n"
    return head + b"\n".join(made) + b"\nREAD\nEXECUTE {f0}\n"


def million_mistakes():
    return HEAD + b"nonsense\n\n" * 100_000


def noise():
    return random.Random(1).randbytes(1_000_000)


# Each style with the verdicts that may be said of it.
STYLES = [
    ("a million functions", lambda: functions(1_000_000, b"skip$"), "clean"),
    ("a million functions, each a type", lambda: functions(1_000_000, b"cite$ write$", b"ITERATE {call.type$}"), "clean warnings incomplete"),
    ("a chain of 100,000 calls", lambda: functions(100_000, b"@"), "incomplete warnings"),
    ("a chain of 4,000 calls", lambda: functions(4_000, b"@"), "incomplete"),
    ("a chain of 300 calls", lambda: functions(300, b"@"), "clean"),
    ("calls that double 3,000 times", lambda: functions(3_000, b"@ @"), "incomplete"),
    ("calls that double 30 times", lambda: functions(30, b"@ @"), "clean incomplete"),
    ("calls of a thousand calls, five times", lambda: functions(5, b"@ " * 1000), "incomplete clean"),
    ("nested 100,000 deep", lambda: of_body(b"{" * 100_000 + b"}" * 100_000 + b"pop$"), "clean"),
    ("nested 100,000 deep by if$", lambda: of_body(b"i {" * 100_000 + b"} 'skip$ if$" * 100_000), "clean incomplete"),
    ("nested 3,000 deep by if$", lambda: of_body(b"i {" * 3_000 + b"} 'skip$ if$" * 3_000), "incomplete"),
    ("nested 3,000 deep by if$, in 19 loops", lambda: of_body(b"{i} {" * 19 + b"i {" * 3_000 + b"} 'skip$ if$" * 3_000 + b"} while$" * 19), "incomplete"),
    ("nested 3,000 deep by if$, behind a fault", lambda: of_body(b"title write$ " + b"i {" * 3_000 + b"} 'skip$ if$" * 3_000), "warnings"),
    ("nested 150 deep by if$", lambda: of_body(b"i {" * 150 + b"} 'skip$ if$" * 150), "clean"),
    ("nested 100,000 deep by while$", lambda: of_body(b"'i {" * 100_000 + b"} while$" * 100_000), "clean incomplete"),
    ("call.type$ in the function of a type", lambda: HEAD + b"FUNCTION {default.type} {i 'call.type$ 'skip$ if$} READ ITERATE {call.type$}\n", "incomplete"),
    ("loops nested 30 deep", lambda: of_body(b"'i {i #1 + 'i := " * 30 + b"} while$" * 30), "clean incomplete warnings"),
    ("recursion through the stack", lambda: of_body(b"{duplicate$ #1 swap$ 'skip$ if$} duplicate$ #1 swap$ 'skip$ if$ pop$"), "incomplete warnings"),
    ("recursion that grows the stack", lambda: HEAD + b"FUNCTION {h} {duplicate$ #1 swap$ 'skip$ if$} FUNCTION {g} {'h h} READ EXECUTE {g}\n", "incomplete warnings"),
    ("loops that are bodies of loops", lambda: HEAD + b"FUNCTION {w} {duplicate$ 'while$ #1} FUNCTION {g} {'w duplicate$ 'while$ while$} READ EXECUTE {g}\n", "incomplete warnings"),
    ("loops nested 2,000 deep", lambda: loops(2_000), "incomplete"),
    ("loops nested 2,000 deep, each with a variable", lambda: loops(2_000, b"j pop$ "), "incomplete"),
    ("100,000 functions, each with a loop", lambda: functions(100_000, b"#3 'i := {i #0 >} {i #1 - 'i :=} while$", b"EXECUTE {f1}"), "clean incomplete"),
    ("400 variables that are counted down", lambda: counters(400), "clean incomplete"),
    ("10,000 variables that are counted down", lambda: counters(10_000), "clean incomplete"),
    ("300 loops over a text", lambda: texts(300, 1), "clean incomplete warnings"),
    ("400 loops over 20 texts", lambda: texts(400, 20), "clean incomplete warnings"),
    ("100,000 loops over a text", lambda: texts(100_000, 1), "clean incomplete warnings"),
    ("loops over a text nested 1,000 deep", lambda: of_body(b"{s empty$ 'skip$ 'skip$ if$ #0} {" * 1_000 + b"s #2 global.max$ substring$ 's :=" + b"} while$" * 1_000), "clean incomplete warnings"),
    ("2^40 shapes on the stack", lambda: of_body(b"title empty$ " * 40 + b"and " * 39 + b"pop$"), "clean incomplete"),
    ("2^40 shapes of two fields", lambda: of_body(b"title empty$ author empty$ " * 20 + b"and " * 39 + b"pop$"), "clean incomplete"),
    ("2^300 shapes of integers", lambda: of_body(b"i #1 > j #1 > " * 150 + b"pop$ " * 300), "clean incomplete"),
    ("2^200 branches that leave as much", lambda: of_body(b"i {#1} {#0} if$ " * 200 + b"pop$ " * 200), "clean incomplete"),
    ("branches that leave another number, 300 times", lambda: of_body(b"i {#1} 'skip$ if$ " * 300 + b"stack$"), "clean incomplete"),
    ("a loop that only pushes", lambda: of_body(b"{#1} {#7} while$"), "incomplete warnings"),
    ("900 literals", lambda: of_body(b"#1 " * 900 + b"pop$ " * 900), "clean"),
    ("1,001 literals", lambda: of_body(b"#1 " * 1_001 + b"stack$"), "incomplete warnings"),
    ("a name of two megabytes", lambda: HEAD + b"FUNCTION {" + b"x" * 2_000_000 + b"} {skip$} READ EXECUTE {" + b"x" * 2_000_000 + b"}\n", "clean"),
    ("a string of two megabytes", lambda: of_body(b'"' + b"x" * 2_000_000 + b'" write$'), "clean"),
    ("100 names of a megabyte each", lambda: HEAD + b"".join(b"FUNCTION {%d%s} {skip$}\n" % (n, b"x" * 1_000_000) for n in range(100)) + b"READ\n", "mistakes"),
    ("a body of a million tokens", lambda: of_body(b"#1 pop$ " * 500_000), "clean incomplete"),
    ("100,000 variables", lambda: b"ENTRY {}{}{} INTEGERS {" + b" ".join(b"v%d" % n for n in range(100_000)) + b"}\nFUNCTION {f} {"
     + b" ".join(b"#1 'v%d :=" % n for n in range(100_000)) + b"}\nREAD EXECUTE {f}\n", "clean incomplete"),
    ("2,000 variables in 2,000 branches", lambda: b"ENTRY {}{}{} INTEGERS {i " + b" ".join(b"v%d" % n for n in range(2_000)) + b"}\nFUNCTION {f} {"
     + b" ".join(b"i {#1 'v%d :=} {#2 'v%d :=} if$" % (n, n) for n in range(2_000)) + b"}\nREAD EXECUTE {f}\n", "clean incomplete"),
    ("10,000 fields that are asked for", lambda: b"ENTRY {" + b" ".join(b"v%d" % n for n in range(10_000)) + b"}{}{}\nFUNCTION {f} {"
     + b" ".join(b"v%d empty$ 'skip$ {v%d write$} if$" % (n, n) for n in range(10_000)) + b"}\nREAD ITERATE {f}\n", "clean incomplete"),
    ("10,000 fields that may be missing", lambda: b"ENTRY {" + b" ".join(b"v%d" % n for n in range(10_000)) + b"}{}{}\nFUNCTION {f} {"
     + b" ".join(b"v%d write$" % n for n in range(10_000)) + b"}\nREAD ITERATE {f}\n", "warnings incomplete"),
    ("100,000 commands", lambda: of_body(b"i int.to.str$ write$", b"ITERATE {misc}\n" * 100_000), "clean incomplete"),
    ("300,000 commands in one line", lambda: HEAD + b"READ " * 300_000, "mistakes"),
    ("100,000 mistakes", million_mistakes, "mistakes"),
    ("a million bytes of noise", noise, "mistakes"),
    ("no byte", lambda: b"", "clean"),
]


def limit():
    resource.setrlimit(resource.RLIMIT_AS, (4_000_000_000, 4_000_000_000))


def lint(program, style, folder):
    """The verdict, the seconds of a processor, and the kilobytes."""
    (folder / "s.bst").write_bytes(style)
    with open(folder / "out", "wb") as out, open(folder / "err", "wb") as err:
        process = subprocess.Popen(["timeout", str(LONGEST), program, "--line", "s.bst"], cwd=folder, stdout=out, stderr=err, preexec_fn=limit)
        _, status, usage = os.wait4(process.pid, 0)
        process.returncode = os.waitstatus_to_exitcode(status)
    said = (folder / "out").read_text(errors="replace").partition(": ")[2].partition(",")[0]
    return said or "status %d" % process.returncode, usage.ru_utime + usage.ru_stime, usage.ru_maxrss


def lint_in_time(program, style, folder, most_seconds):
    """The same; where it took too long, the quickest of three tries, since other processes make each of them slower."""
    tried = [lint(program, style, folder)]
    while tried[-1][1] > most_seconds and len(tried) < 3:
        tried.append(lint(program, style, folder))
    return min(tried, key=lambda said: said[1])


def main():
    parser = argparse.ArgumentParser()
    parser.add_argument("--only", default="")
    parser.add_argument("lint")
    given = parser.parse_args()
    most_seconds = MOST_SECONDS * slowness()
    passed = failed = 0
    with tempfile.TemporaryDirectory() as folder:
        folder = pathlib.Path(folder)
        program = folder / "bibtex-lint"
        program.symlink_to(pathlib.Path(given.lint).resolve())
        for name, make, verdicts in STYLES:
            if given.only not in name:
                continue
            said, seconds, memory = lint_in_time(program, make(), folder, most_seconds)
            is_right = said in verdicts.split() and seconds <= most_seconds and memory <= MOST_MEMORY
            passed, failed = passed + is_right, failed + (not is_right)
            print("%s %s: %s (%.1f s, %d MB)" % ("ok     " if is_right else "FAILED ", name, said, seconds, memory // 1000), flush=True)
    print(f"{passed} passed, {failed} failed")
    return failed


if __name__ == "__main__":
    raise SystemExit(main() > 0)
