"""Lowers an LLVM module of the kit to addresses of 32 bits, which every browser and Node take.

    python3 web/narrow.py MODULE.ll OUT.ll

Everything that lies in memory keeps its place and its size: a pointer there has 8 bytes, of which the upper four are 0. So an integer of 64 bits and a pointer may still be copied as one another.
Only in registers a pointer has 32 bits. A form that isn't known here, and that might have another layout then, ends this script with status 1.

It is no part of any proof, as LLVM's compilation isn't."""

import re
import sys

LAYOUT = "e-m:e-p:32:32-p10:8:8-p20:8:8-i64:64-i128:128-n32:64-S128-ni:1:10:20"
TRIPLE = "wasm32-unknown-unknown"
# Attributes of functions that are of x86-64.
OF_PROCESSOR = re.compile(r' "(?:probe-stack|stack-probe-size|target-cpu|target-features)"="[^"]*"')
# The sizes of what an aggregate has in registers, in bytes of memory. Each is aligned by its size.
SIZES = {"i8": 1, "i16": 2, "i32": 4, "i64": 8, "ptr": 8, "double": 8}
# Instructions in which a pointer stands for an address, and nothing of its size can be seen.
PLAIN = {"call", "extractvalue", "insertvalue", "icmp", "phi", "select", "ret", "getelementptr"}
BY_BYTES = re.compile(r" getelementptr (?:inbounds |nuw |nusw )*i8, ")
GLOBAL = re.compile(r"(@\S+ = [a-z_ ]*constant <\{ )(.*?)( \}> <\{ )(.*)", re.DOTALL)
POINTER = re.compile(r"ptr (?:getelementptr \(i8, ptr @[\w.]+, i64 \d+\)|@[\w.]+)(?=, | \}>)")
TEXT = re.compile(r'(c"[^"]*")')
STORE = re.compile(r"  store ptr (\S+), ptr (\S+), align (\d+)\b")
LOAD = re.compile(r"  (%\S+) = load \{ ([^{}]*\bptr\b[^{}]*) \}, ptr (\S+), align (\d+)\b")
ADDRESS = re.compile(r"  (%\S+) = ptrtoaddr ptr (\S+) to i64\b")
# What would hide a pointer's size from this script: named types, aggregates that a call takes or gives by memory, names with whitespace, vectors of pointers,
# and constants made of addresses.
HIDDEN = re.compile(r'^%\S+ = type |\b(?:byval|sret|inalloca|byref)\(|@"[^"]*\s|<\d+ x ptr>|\b(?:ptrtoint|inttoptr) \(|getelementptr \(ptr\b')
INSTRUCTION = re.compile(r"  (?:(%\S+) = )?(?:(?:tail|musttail|notail) )?(\w+)\b")


class Unknown(Exception):
    """A form of the module that isn't known here."""


def places_of(kinds):
    """The places of the parts of an aggregate where a pointer has 8 bytes."""
    place = 0
    for kind in kinds:
        size = SIZES[kind]
        place = (place + size - 1) // size * size
        yield place
        place += size


def globally(line):
    """A constant with its pointers, each filled up to 8 bytes."""
    found = GLOBAL.fullmatch(line)
    if not found or "ptr" not in found[2]:
        if re.match(r"@\S+ = .*\bptr\b", line.split(' c"')[0]):
            raise Unknown(line)
        return line
    head, kinds, between, values = found.groups()
    parts = TEXT.split(values)
    filled = [POINTER.subn(r"\g<0>, [4 x i8] zeroinitializer", part) for part in parts[::2]]
    if len(re.findall(r"\bptr\b", kinds)) != sum(count for _, count in filled):
        raise Unknown(line)
    parts[::2] = [part for part, _ in filled]
    return head + re.sub(r"\bptr\b", "ptr, [4 x i8]", kinds) + between + "".join(parts)


def loaded(found, number):
    """The load of an aggregate with pointers, part by part."""
    name, kinds, at, aligned = found[1], found[2].split(", "), found[3], int(found[4])
    whole, made = "poison", []
    for part, (kind, place) in enumerate(zip(kinds, places_of(kinds))):
        value = f"%narrow.{number}.{part}"
        made += [f"  {value}.at = getelementptr i8, ptr {at}, i32 {place}", f"  {value} = load {kind}, ptr {value}.at, align {min(aligned, SIZES[kind])}"]
        into = name if part == len(kinds) - 1 else f"{value}.with"
        made.append(f"  {into} = insertvalue {{ {found[2]} }} {whole}, {kind} {value}, {part}")
        whole = into
    return "\n".join(made) + "\n"


def instruction(line, number):
    """An instruction with a pointer."""
    if found := STORE.match(line):
        return f"{line}  %narrow.{number} = getelementptr i8, ptr {found[2]}, i32 4\n  store i32 0, ptr %narrow.{number}, align {min(int(found[3]), 4)}\n"
    if found := LOAD.match(line):
        return loaded(found, number)
    if found := ADDRESS.match(line):
        return f"  %narrow.{number} = ptrtoaddr ptr {found[2]} to i32\n  {found[1]} = zext i32 %narrow.{number} to i64\n"
    what = INSTRUCTION.match(line)
    if what and what[2] == "alloca" and re.search(r" = alloca ptr, align 8$", line):
        return line.replace("alloca ptr", "alloca i64")
    if not what or not (what[2] in PLAIN or is_access(line, what[2])) or (what[2] == "getelementptr" and not BY_BYTES.search(line)):
        raise Unknown(line)
    return line


def is_access(line, what):
    """Whether it is an access of a value that has the same layout whatever a pointer's size is; or the load of one pointer, of which the lower four bytes are read."""
    accessed = line.partition(f" {what} ")[2].rpartition(", ptr ")[0]
    return what in ("load", "store") and (not re.search(r"\bptr\b", accessed) or (what == "load" and accessed == "ptr"))


def hides_size(line):
    """Whether a line may hide a pointer's size. Each form that may has one of these signs; most lines have none, and are passed over so in less time."""
    return ("(" in line or "<" in line or '"' in line or line.startswith("%")) and HIDDEN.search(TEXT.sub("", line)) is not None


def narrowed(lines):
    """The lines of the module with addresses of 32 bits."""
    for number, line in enumerate(lines):
        if hides_size(line) or line.startswith("\t"):
            raise Unknown(line)
        if line.startswith("target datalayout"):
            yield f'target datalayout = "{LAYOUT}"\n'
        elif line.startswith("target triple"):
            yield f'target triple = "{TRIPLE}"\n'
        elif line.startswith("@"):
            yield globally(line)
        elif line.startswith("attributes"):
            yield OF_PROCESSOR.sub("", line)
        elif line.startswith("  ") and "ptr" in line and re.search(r"\bptr\b|ptrtoint|inttoptr", line):
            yield instruction(line, number)
        else:
            yield line


def main(module, out):
    with open(module, encoding="utf8", errors="surrogateescape") as lines, open(out, "w", encoding="utf8", errors="surrogateescape") as made:
        try:
            made.writelines(narrowed(lines))
        except Unknown as unknown:
            sys.exit(f"web: this form of LLVM isn't known, and may have another layout with addresses of 32 bits: {str(unknown)[:300]}")


if __name__ == "__main__":
    main(*sys.argv[1:])
