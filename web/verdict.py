"""What the prover said of the library from which a module was made, as the module itself has it: the text of a custom section of WebAssembly.

    python3 web/verdict.py MODULE.wasm               prints the module's verdict
    python3 web/verdict.py MODULE.wasm FILE          puts the lines of this file into the module as its verdict

A module without a proof says `unproved`. JavaScript reads the verdict by `WebAssembly.Module.customSections`."""

import pathlib
import sys

NAME = b"btx.verdict"
HEAD = 8


def packed(number):
    """A number as WebAssembly has it: seven bits a byte, the lowest first."""
    made = bytearray()
    while number >= 128:
        made.append(number & 127 | 128)
        number >>= 7
    return bytes([*made, number])


def unpacked(module, at):
    """The number at a place, and the place after it."""
    number, shift = 0, 0
    while module[at] & 128:
        number |= (module[at] & 127) << shift
        at, shift = at + 1, shift + 7
    return number | module[at] << shift, at + 1


def sections(module):
    """The sections of a module: of each its number, and what it holds."""
    at = HEAD
    while at < len(module):
        size, begin = unpacked(module, at + 1)
        yield module[at], module[begin:begin + size]
        at = begin + size


def of(module):
    """The verdict of a module; None where it has none."""
    head = packed(len(NAME)) + NAME
    found = [body[len(head):].decode() for kind, body in sections(module) if kind == 0 and body.startswith(head)]
    return found[0] if found else None


def is_proved(module):
    return (of(module) or "").startswith("logic=proved ")


def stamped(module, text):
    """The module with this verdict."""
    body = packed(len(NAME)) + NAME + text.encode()
    return module + b"\0" + packed(len(body)) + body


def main(path, *texts):
    module = pathlib.Path(path).read_bytes()
    if texts:
        module = stamped(module, pathlib.Path(texts[0]).read_text(encoding="utf8").strip())
        pathlib.Path(path).write_bytes(module)
    print(of(module) or "this module has no verdict")


if __name__ == "__main__":
    main(*sys.argv[1:])
