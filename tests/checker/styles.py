"""Small styles with the verdicts of the checker: each rule of it, and what a run can't be kept from.

    python3 styles.py [--only TEXT] LINT

LINT is bibtex-lint, or bibtex-search, which is the same program (front/out/bibtex-search). `styles.txt` has a row for each style: its verdict, a bar, the body of its function `misc`,
and behind a semicolon the commands, if they are others than `ITERATE {call.type$}`. A verdict is `clean`, `incomplete`, or the first warning: what is executed there, the fault (stack, kind, equal,
variable, entry, left), and the field that may be missing. `clean or ..` is that of a style that is clean, which a checker may not see. Behind a comma a row may say whether the style ends:
`ends ONCE EACH` is its bound, where a string variable keeps 20,000 bytes, `for TYPE..` behind it of one that has it for entries of these types alone, `open NAME` what is executed by the first token without a bound, `again TYPE` the type that asks for itself, `great` a
bound above 64 bits. Each row with a `while$` says it. A row that begins with a hyphen gives no verdict.

A style with warnings is checked too with one mistake in its text, of each kind and at each of three places: all warnings must stand in the lines that they have without the mistake.
The last line is 'N passed, M failed', of rows and of mistakes."""

import argparse
import json
import pathlib
import re
import subprocess
import tempfile

HERE = pathlib.Path(__file__).resolve().parent
FAULTS = {"stack", "kind", "equal", "variable", "entry", "left"}
HEAD = """ENTRY {title author note}{n}{t}
INTEGERS {i j} STRINGS {s u}
FUNCTION {not} {{#0} {#1} if$}
FUNCTION {and} {'skip$ {pop$ #0} if$}
FUNCTION {or} {{pop$ #1} 'skip$ if$}
FUNCTION {h} {"h" write$}
FUNCTION {out} {write$ newline$}
FUNCTION {misc}
{
"""
COMMANDS = "ITERATE {call.type$}"
# A style with warnings in named and nameless functions, of a command, and with a cause of them. A mistake stands in the place of a comment of two lines.
WARNED = HEAD[:HEAD.index("FUNCTION {misc}")] + """
% above the functions
%

FUNCTION {grows} { i { "one" } { "one" "two" } if$ }
FUNCTION {shows}
{ title empty$
    { note write$ }
    { title write$
      author write$ }
  if$
}

% between functions
%

FUNCTION {misc} { shows grows #1 write$
  pop$
}
FUNCTION {leaves} { { #1 } #2 }
READ

% between commands
%

ITERATE {call.type$}
EXECUTE {leaves}
"""
# After each of them a style is read on from the next empty line.
MISTAKES = ["}", "nonsense {x}", "FUNCTION {not} { { #1 } skip$ }", "FUNCTION {broken} { { title write$ } \"no end", "FUNCTION {broken} { { nowhere write$ } #one }",
            "FUNCTION {more} { nowhere { nobody } pop$ }", "MACRO {jan {\"January\"}", "MACRO {jan} {\"January\"\n#", "EXECUTE {nowhere}", "EXECUTE {out\n#"]


def rows():
    """The verdict, the body and the commands of each row."""
    for line in (HERE / "styles.txt").read_text().split("\n"):
        if line and not line.startswith("#"):
            verdict, _, style = line.partition(" | ")
            verdict, _, ends = verdict.partition(", ")
            body, _, commands = style.partition(" ; ")
            yield [each.split() for each in verdict.split(" or ")], ends, body, commands or COMMANDS


def said(line):
    """The verdict that bibtex-lint prints for a style, as a row has it."""
    words = line.split(": ", 1)[1].split(", ")
    if words[0] != "warnings":
        return words[0].split()
    return words[1].split()[2:] if words[1].startswith("first ") else ["warnings"]


def ends_of(lint, folder, names):
    """What bibtex-lint says of the ends of styles, as rows have it."""
    found = json.loads(subprocess.run([lint, "--json", *names], cwd=folder, capture_output=True, text=True).stdout)
    printed = subprocess.run([lint, *names], cwd=folder, capture_output=True, text=True).stdout
    reasons = dict(re.findall(r"(?m)^(s\d+\.bst): (?:not known to end|no bound is known): (.*)$", printed))
    for name, its in zip(names, found):
        if its["ends"]:
            types = its["ends"].get("types")
            yield "ends %d %d" % (its["ends"]["once"], its["ends"]["each"]) + (" for " + " ".join(types) if types else "")
            continue
        reason = reasons.get(name, "")
        token, again = re.match(r"(?:no bound is known of )?`(\S+)` in line", reason), re.match(r"the function of the type (\S+) asks", reason)
        if again:
            yield "again " + again[1]
        elif "64 bits" in reason:
            yield "great"
        else:
            yield "open " + (token[1] if token else "")


def is_right(wanted, found):
    """Whether a verdict is one of the row's. A checker that names no fault is taken at its word."""
    if wanted == [["-"]]:
        return True
    if not FAULTS.intersection(found[1:2]):
        wanted = [[word for word in words if word not in FAULTS] for words in wanted]
    return found in wanted


def warned(lint, folder, text):
    """What is warned of in a style, with the lines, and whether there are messages on its text."""
    (pathlib.Path(folder) / "warned.bst").write_text(text)
    said = json.loads(subprocess.run([lint, "--json", "warned"], cwd=folder, capture_output=True, text=True).stdout)[0]
    return (said["warnings"], said.get("causes")), bool(said["messages"])


def lint_has_lines_beside_mistakes(lint, folder):
    """Whether the warnings have all their lines, for each mistake and each place of it."""
    wanted, _ = warned(lint, folder, WARNED)
    lines = re.findall(r'"line": (\d+)', json.dumps(wanted))
    if len(lines) < 10 or "0" in lines:
        print("the style without a mistake has the lines", lines)
        yield False
    for mistake in MISTAKES:
        for comment in re.findall("% .*\n%", WARNED):
            found, has_messages = warned(lint, folder, WARNED.replace(comment, mistake if "\n" in mistake else mistake + "\n%"))
            if found != wanted or not has_messages:
                print("%r %s: the warnings are %s" % (mistake, comment[2:-2], json.dumps(found)))
            yield found == wanted and has_messages


def main():
    parser = argparse.ArgumentParser()
    parser.add_argument("--only", default="")
    parser.add_argument("lint")
    given = parser.parse_args()
    table = [row for row in rows() if given.only in row[2]]
    failed = 0
    with tempfile.TemporaryDirectory() as folder:
        lint = pathlib.Path(folder) / "bibtex-lint"
        lint.symlink_to(pathlib.Path(given.lint).resolve())
        names = []
        for number, (_, _, body, commands) in enumerate(table):
            names.append("s%d.bst" % number)
            (pathlib.Path(folder) / names[-1]).write_text(HEAD + body + "\n}\nREAD\n" + commands + "\n")
        ran = subprocess.run([lint, "--line", *names], cwd=folder, capture_output=True, text=True)
        endings = list(ends_of(lint, folder, names))
        beside_mistakes = list(lint_has_lines_beside_mistakes(lint, folder))
    lines = ran.stdout.split("\n")[:-1]
    if len(lines) != len(table):
        print(ran.stderr)
        print("0 passed, %d failed" % max(1, len(table)))
        return 1
    alarms = 0
    for (wanted, ends, body, commands), line, ending in zip(table, lines, endings):
        found = said(line)
        alarms += wanted[0] == ["clean"] and found[0] != "clean"
        if not is_right(wanted, found):
            failed += 1
            print("%s ; %s\n    is %s, not %s" % (body, commands, " ".join(found), " or ".join(map(" ".join, wanted))))
        elif ending != ends and (ends or "while$" in body):
            failed += 1
            print("%s ; %s\n    %s, not %s" % (body, commands, ending, ends))
    print("%d styles that are clean aren't called so" % alarms)
    failed += beside_mistakes.count(False)
    print("%d passed, %d failed" % (len(table) + len(beside_mistakes) - failed, failed))
    return failed


if __name__ == "__main__":
    raise SystemExit(main() > 0)
