"""Which names the functions of a style may execute: those that a type of entry reaches, and those that the style's commands reach.

It is found in the text alone, without a run. Of a text without mistakes it is complete: a name that isn't among these is executed in no run, whatever the entries have."""

from __future__ import annotations

from typing import Dict, FrozenSet, Set

from .bsttext import StyleReader, StyleText

__all__ = ["Reach"]

# The function of entries whose type the style doesn't know.
UNKNOWN = "default.type"


class WholeReader(StyleReader):
    """Reads a text without mistakes. Each command ends at its last brace there, so no line ends a body, whatever it begins with."""

    def limit(self) -> int:
        return len(self.text)


class Reach:
    """What the functions of a style name. The text has no mistakes.

    text: what is found in it. bodies: by the name of each function the names that its body has, those in quotes and in inner braces too. executed: the functions that EXECUTE, ITERATE and REVERSE name."""

    def __init__(self, style: bytes) -> None:
        reader = WholeReader(style)
        while reader.at < len(style):
            reader.command()
        self.text: StyleText = reader.found
        self.bodies: Dict[str, FrozenSet[str]] = {}
        self.executed: Set[str] = set()
        rest = iter(self.text.uses)
        use = next(rest, None)
        for command in self.text.commands:
            names = set()
            while use is not None and use.start < command.end:
                names.add(use.name)
                use = next(rest, None)
            if command.word == "FUNCTION" and command.name is not None:
                self.bodies[command.name.name] = frozenset(names)
            else:
                self.executed |= names

    def of_type(self, kind: str) -> Set[str]:
        """The names that may be executed for entries of a type: those that its function reaches, and those that a command reaches."""
        found: Set[str] = set()
        waiting = [*self.executed, kind if kind in self.bodies else UNKNOWN]
        while waiting:
            name = waiting.pop()
            if name not in found:
                found.add(name)
                waiting.extend(self.bodies.get(name, ()))
        return found
