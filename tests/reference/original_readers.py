"""The original's own rules for reading .aux files and styles. What isn't here is as in `aux_files.py` and `styles.py`."""

import aux_files
import styles
from meanings import Function, Integer
from original_texts import lines, wrapped_integer
from texts import is_digit, is_white, lowered

# ---- .aux files ----


class OriginalJob(aux_files.AuxJob):
    """`files` are those of the job: the original opens databases and the style as it reads their names."""

    def __init__(self, files):
        super().__init__()
        self.files, self.named_databases = files, []


def read_aux(files, top):
    job = OriginalJob(files)
    name = aux_files.with_ending(top, b".aux")
    if name not in files:
        job.end = "no top file"
        return job
    job.named.append(name)
    try:
        read_file(job, files, name, 0)
    except aux_files.EndsEarly as end:
        job.end = str(end)
    return job


def read_file(job, files, name, level):
    for line in lines(files[name]):
        command, brace, argument = line.partition(b"{")
        if brace and command in aux_files.COMMANDS:
            read_line(job, files, level, command, argument)


def read_line(job, files, level, command, argument):
    """A piece with a fault ends its line, and the pieces after it aren't taken. The first line of databases or of a style counts though it has a fault."""
    if command == b"\\bibdata":
        if job.has_data_line:
            return
        job.has_data_line = True
    if command == b"\\bibstyle":
        if job.has_style_line:
            return
        job.has_style_line = True
    for is_piece, text in aux_files.pieces(argument, command in (b"\\citation", b"\\bibdata")):
        if not is_piece or not take_piece(job, files, level, command, text):
            return


def take_piece(job, files, level, command, text):
    """Takes a piece of a line, and gives whether the line goes on."""
    if command == b"\\citation":
        return take_key(job, text)
    if command == b"\\bibdata":
        return take_database(job, text)
    if command == b"\\bibstyle":
        job.style = opened(job.files, text, b".bst")
    else:
        take_file(job, files, text, level)
    return True


def opened(files, name, ending):
    """The file that a name opens: with its ending, or else as it is, if it ends so. A byte 0 ends the name, since the system takes it so."""
    name = name.partition(b"\0")[0]
    if name + ending in files:
        return name + ending
    return name if name.endswith(ending) and name in files else None


def take_key(job, key):
    if key == b"*":
        if job.star is not None:
            return False
        job.star = len(job.keys)
        return True
    for earlier in job.keys:
        if lowered(earlier) == lowered(key):
            return earlier == key
    job.keys.append(key)
    return True


def take_database(job, name):
    """A name that came before, and one without a file, are faults. `d` and `d.bib` are two names, and the file is read twice."""
    if name in job.named_databases or opened(job.files, name, b".bib") is None:
        job.named_databases.append(name)
        return False
    job.named_databases.append(name)
    job.databases.append(opened(job.files, name, b".bib"))
    return True


def take_file(job, files, name, level):
    """Where as many files are open as may be, the run ends before anything is asked of the name."""
    if level + 1 == aux_files.MOST_OPEN_FILES:
        raise aux_files.EndsEarly("limit files")
    if not name.endswith(b".aux") or name in job.named:
        return
    job.named.append(name)
    if name in files:
        read_file(job, files, name, level + 1)


# ---- styles ----


class StyleReader(styles.Reader):
    """Reads a style. A function `default.type` becomes an item, since it counts from where it stands, also after READ."""

    def __init__(self, name, text):
        super().__init__(name, text)
        self.lines = lines(text)

    def read_name(self):
        """A name ends at whitespace, a brace that closes, a comment or the end of the line; before anything else it is no name."""
        name = super().read_name()
        after = self.rest()[:1]
        if after and not is_white(after[0]) and after not in b"}%":
            raise styles.Fault(name + b" has an illegal character after it")
        return name

    def ask_order(self, word):
        """A READ counts as seen though no ENTRY came before it, and so does an ENTRY with a fault."""
        style = self.style
        had_entry, had_read = style.has_entry, style.has_read
        style.has_entry, style.has_read = had_entry or word == b"ENTRY", had_read or word == b"READ"
        if (word == b"ENTRY" and had_entry) or (word == b"READ" and (had_read or not had_entry)):
            raise styles.Fault(b"Illegal, " + word)
        if word in (b"EXECUTE", b"ITERATE", b"REVERSE", b"SORT") and not had_read:
            raise styles.Fault(b"Illegal, before READ")
        if word == b"MACRO" and had_read:
            raise styles.Fault(b"Illegal, after READ")

    def read(self):
        style = super().read()
        style.bodies = style.bodies or [[]]
        return style

    def read_function(self, word):
        """A name is a function's as soon as it is read, but means nothing in its own body. If no body follows, because a brace is missing, the function does
        what the first body of the style does: that of the first group in braces that ends, or of the first function."""
        self.open_brace()
        name = self.read_name()
        self.ask_new(name, self.style.known)
        try:
            self.close_brace()
            self.open_brace()
        except styles.Fault:
            self.take_function(lowered(name), Function(0, lowered(name)))
            raise
        self.take_function(lowered(name), self.define(lowered(name), self.read_body()))

    def take_function(self, name, function):
        self.style.known[name] = function
        if name == b"default.type":
            self.style.items.append(styles.Command(name, function))

    def read_macro(self, word):
        """A macro whose definition is faulty stands for its own name, in lower case."""
        self.open_brace()
        name = self.read_name()
        self.ask_new(name, self.style.macros)
        self.style.macros[lowered(name)] = lowered(name)
        self.close_brace()
        self.open_brace()
        self.sign(b'"', b'I was expecting a "')
        text, quote, _ = self.rest().partition(b'"')
        if not quote:
            raise styles.Fault(b'I was expecting a "')
        self.column += len(text) + 1
        self.style.macros[lowered(name)] = text
        self.close_brace()

    def read_token(self):
        if self.rest()[:1] == b'"' and b'"' not in self.rest()[1:]:
            return self.open_string()
        return super().read_token()

    def open_string(self):
        """A string without its closing quote is left out, with the rest of its line, and the body goes on."""
        self.column = len(self.lines[self.line])
        self.log_error(b'No " to end string literal')
        return []

    def read_integer(self):
        """An integer out of 32 bits goes round."""
        rest = self.rest()
        end = start = 2 if rest[1:2] == b"-" else 1
        while end < len(rest) and is_digit(rest[end]):
            end += 1
        if end == start:
            return super().read_integer()
        self.column += end
        value = int(rest[start:end])
        return self.literal_ended(Integer(wrapped_integer(-value if start == 2 else value)))


def read_style(name, text):
    return StyleReader(name, text).read()
