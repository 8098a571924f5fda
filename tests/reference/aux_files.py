"""What the .aux files of a job say."""

from texts import is_white, lines, lowered

MOST_OPEN_FILES = 20
LONGEST_FILE = 2_147_483_647
COMMANDS = (b"\\citation", b"\\bibdata", b"\\bibstyle", b"\\@input")


class EndsEarly(Exception):
    """The reading ends with the end that it names: "no top file", "limit files" or "limit file"."""


class AuxJob:
    """`log` is a list of pairs of a kind ("" or "error") and a text; `star` is how many keys stand before `*`."""

    def __init__(self):
        self.keys, self.databases, self.log = [], [], []
        self.star = self.style = None
        self.end = "whole"
        self.has_data_line = self.has_style_line = False
        self.named = []

    def log_error(self, text):
        self.log.append(("error", text))


def with_ending(name, ending):
    return name if name.endswith(ending) else name + ending


def read_aux(files, top):
    job = AuxJob()
    name = with_ending(top, b".aux")
    if name not in files:
        job.end = "no top file"
        return job
    job.named.append(name)
    try:
        read_file(job, files, name, 0)
    except EndsEarly as end:
        job.end = str(end)
        return job
    if not job.keys and job.star is None:
        job.log_error(b"I found no \\citation commands")
    if not job.has_data_line:
        job.log_error(b"I found no \\bibdata command")
    if not job.has_style_line:
        job.log_error(b"I found no \\bibstyle command")
    return job


def read_file(job, files, name, level):
    """Reads one file, before which `level` files are open."""
    job.log.append(("", b"The top-level auxiliary file: " + name if level == 0
                    else b"A level-%d auxiliary file: %s" % (level, name)))
    if len(files[name]) > LONGEST_FILE:
        raise EndsEarly("limit file")
    for number, line in enumerate(lines(files[name]), 1):
        command, brace, argument = line.partition(b"{")
        if not brace or command not in COMMANDS:
            continue
        place = b"--line %d of file %s" % (number, name)
        read_line(job, files, level, command, argument, place)


def read_line(job, files, level, command, argument, place):
    if command == b"\\bibdata":
        if job.has_data_line:
            return job.log_error(b"Illegal, another \\bibdata command" + place)
        job.has_data_line = True
    if command == b"\\bibstyle":
        if job.has_style_line:
            return job.log_error(b"Illegal, another \\bibstyle command" + place)
        job.has_style_line = True
    for is_piece, text in pieces(argument, command in (b"\\citation", b"\\bibdata")):
        if not is_piece:
            job.log_error(text + place)
        elif command == b"\\citation":
            take_key(job, text, place)
        elif command == b"\\bibdata":
            take_database(job, with_ending(text, b".bib"), place)
        elif command == b"\\bibstyle":
            job.style = with_ending(text, b".bst")
        else:
            take_file(job, files, text, level, place)


def pieces(argument, is_list):
    """Pairs (True, piece), and at last perhaps (False, what is wrong)."""
    start = 0
    for place, byte in enumerate(argument):
        if is_white(byte):
            yield False, b"White space in argument"
            return
        if byte == 125:
            if place + 1 < len(argument):
                yield False, b'Stuff after "}"'
            else:
                yield True, argument[start:place]
            return
        if byte == 44 and is_list:
            yield True, argument[start:place]
            start = place + 1
    yield False, b'No "}"'


def take_key(job, key, place):
    if key == b"*":
        if job.star is not None:
            job.log_error(b"Multiple inclusions of entire database" + place)
        else:
            job.star = len(job.keys)
        return
    for earlier in job.keys:
        if lowered(earlier) == lowered(key):
            if earlier != key:
                job.log_error(b"Case mismatch error between cite keys %s and %s" % (earlier, key) + place)
            return
    job.keys.append(key)


def take_database(job, name, place):
    if name in job.databases:
        job.log_error(b"This database file appears more than once: " + name + place)
    else:
        job.databases.append(name)


def take_file(job, files, name, level, place):
    if not name.endswith(b".aux"):
        return job.log_error(name + b" has a wrong extension" + place)
    if name in job.named:
        return job.log_error(b"Already encountered file " + name + place)
    job.named.append(name)
    if name not in files:
        return job.log_error(b"I couldn't open auxiliary file " + name + place)
    if level + 1 == MOST_OPEN_FILES:
        raise EndsEarly("limit files")
    read_file(job, files, name, level + 1)
