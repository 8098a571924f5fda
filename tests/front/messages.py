"""The messages of a log, whatever its shape: that of the program, that of the front end, or that of the original.

    python3 messages.py LOG      prints them, a line each, in the program's shape

`of_program` reads the program's log (`Error--TEXT--line N of file F`), and `of_front` one in the original's shapes (`TEXT---line N of file F`, and its second and
third line). Both give the same lines for the same messages. What isn't understood is kept as it stands, with a `?` before it, so that nothing is lost unseen."""

import re
import sys

FOUND = re.compile(rb"The top-level auxiliary file: |A level-\d+ auxiliary file: |The style file: |Database file #\d+: |Reallocated |Capacity: ")
PLACE = re.compile(rb"--line (\d+) of file (.*)", re.S)
EXECUTED = re.compile(rb"(?s)(.*) \(([^() ]+)\)( for entry .*)?")
# (the program's log doesn't name a field that is missing)
NAMED = re.compile(rb"`[^' ]*' is a missing field, not ")
COUNTS = re.compile(rb"\(There (was|were) \d+ (warning|error message)s?\)|\(Where the style stood isn't known of \d+ errors?: it is looked for at the first ones alone\.\)")
SKIPPED = re.compile(rb"I'm skipping whatever remains of this (command|entry)")
# A run's end: at a limit, and how it ended.
ENDS = (b"Sorry---you've exceeded", b"Ended: ")
# Messages of files that aren't there: the program's log doesn't say where they were named.
UNPLACED = (b"I couldn't open style file ", b"I couldn't open database file ")


def without_banner(lines):
    """The lines from the one that names the top file on."""
    for at, line in enumerate(lines):
        if line.startswith(b"The top-level auxiliary file: "):
            return lines[at:]
    return lines


def lines_of(log):
    lines = log.split(b"\n")
    return lines[:-1] if lines and lines[-1] == b"" else lines


def of_program(log):
    """The messages of the program's own log; its last line isn't one."""
    messages = []
    for line in without_banner(lines_of(log)):
        if line.startswith(b"The same for tools that read the log"):
            break
        if FOUND.match(line) or line.startswith(b"Ended: "):
            continue
        messages.append(line if line.startswith((b"Error--", b"Warning--")) else b"?" + line)
    return messages


def is_shown(line):
    """A line of a file, what stands below it up to the place of a mistake, or what the original says behind that."""
    return line.startswith(b" : ") or line in (b" :", b"(Error may have been on previous line)") or SKIPPED.fullmatch(line) is not None


class Reader:
    """Reads a log in the original's shapes, one message after another."""

    def __init__(self, lines):
        self.lines, self.at = lines, 0

    def peek(self):
        return self.lines[self.at] if self.at < len(self.lines) else b""

    def take(self):
        self.at += 1
        return self.lines[self.at - 1]

    def second(self, beginning):
        """The next line, where it begins so."""
        return self.take() if self.peek().startswith(beginning) else None

    def message(self, line):
        if line.startswith(b"Warning--"):
            return self.warning(line)
        if line.startswith(b"A bad cross reference---entry "):
            return b"Error--" + line.replace(b"---entry", b"--entry", 1) + b" " + (self.second(b"refers to entry ") or b"")
        if line.startswith(b"I found no ") and b"---while reading file " in line:
            return b"Error--" + line.partition(b"---while reading file ")[0]
        executed = EXECUTED.fullmatch(line)
        if executed and self.peek().startswith(b"while executing---line "):
            self.take()
            return b"Error--" + NAMED.sub(b"missing field is not ", executed[1]) + b" while executing " + executed[2] + (executed[3] or b"")
        return self.error(line)

    def warning(self, line):
        if line.startswith(b"Warning--you've nested cross references--entry "):
            parent = self.second(b"refers to entry ") or b""
            return line + b" " + parent.removesuffix(b", which also refers to something")
        return line + (self.second(b"--line ") or b"")

    def error(self, line):
        text, found, place = line.partition(b"---line ")
        if not found and self.peek().startswith(b"---line "):
            text, place = line, self.take()[len(b"---line "):]
        if not place:
            return None
        while is_shown(self.peek()) and self.at < len(self.lines):
            self.take()
        return b"Error--" + text if text.startswith(UNPLACED) else b"Error--" + text + b"--line " + place

    def messages(self):
        while self.at < len(self.lines):
            line = self.take()
            if FOUND.match(line) or COUNTS.fullmatch(line):
                continue
            if line.startswith(ENDS):
                # After a run's end stands where its style was, if it didn't come to its end.
                self.second(b"while executing---line ")
                continue
            yield self.message(line) or b"?" + line


def of_front(log):
    """The messages of a log in the original's shapes."""
    return list(Reader(without_banner(lines_of(log))).messages())


def main():
    try:
        with open(sys.argv[1], "rb") as file:
            log = file.read()
    except OSError as fault:
        print(f"?{fault}")
        return
    is_front = log.startswith(b"This is BibTeX") or not re.search(rb"^Error--", log, re.M)
    read = of_front if is_front else of_program
    sys.stdout.buffer.write(b"".join(message + b"\n" for message in read(log)))


if __name__ == "__main__":
    main()
