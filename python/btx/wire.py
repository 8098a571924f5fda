"""Messages of JSON-RPC over two files, as language servers take them: a header with the length, an empty line, and the body."""

from __future__ import annotations

import json
import os
import re
import select
from typing import Any, Dict, Optional

__all__ = ["BadMessage", "Ended", "Wire"]

LENGTH = re.compile(rb"(?im)^content-length:[ \t]*([0-9]{1,12})[ \t]*\r?$")
MOST_HEADER = 1 << 16
# How many bytes are read at once: as many as a pipe holds. A larger room would be taken from the system and given back each time.
PIECE = 1 << 16


class Ended(Exception):
    """The other side is gone."""


class BadMessage(Exception):
    """What was sent isn't JSON of an object. It was passed over."""


class Wire:
    """Messages from one file and to another."""

    def __init__(self, source: int, target: int) -> None:
        self.source = source
        self.target = target
        self.waiting = bytearray()
        self.looked_at = 0

    def take(self, seconds: Optional[float]) -> Optional[Dict[str, Any]]:
        """The next message; None where none comes in so many seconds. With None it waits for one."""
        while True:
            body = self.next_body()
            if body is not None:
                return parsed(body)
            if seconds is not None and not select.select([self.source], [], [], seconds)[0]:
                return None
            piece = os.read(self.source, PIECE)
            if not piece:
                raise Ended
            self.waiting += piece

    def next_body(self) -> Optional[bytearray]:
        """The body of the next message, if it is there whole."""
        end = self.waiting.find(b"\r\n\r\n", max(self.looked_at - 3, 0))
        if end < 0:
            self.looked_at = len(self.waiting)
            if len(self.waiting) > MOST_HEADER:
                raise Ended
            return None
        found = LENGTH.search(self.waiting[:end])
        if found is None:
            del self.waiting[: end + 4]
            self.looked_at = 0
            raise BadMessage("a header without a length")
        self.looked_at, start, length = end, end + 4, int(found[1])
        if len(self.waiting) < start + length:
            return None
        body = self.waiting[start : start + length]
        del self.waiting[: start + length]
        self.looked_at = 0
        return body

    def send(self, message: Dict[str, Any]) -> None:
        body = json.dumps({"jsonrpc": "2.0", **message}).encode()
        rest = memoryview(b"Content-Length: %d\r\n\r\n" % len(body) + body)
        while rest:
            rest = rest[os.write(self.target, rest) :]


def parsed(body: bytearray) -> Dict[str, Any]:
    try:
        message = json.loads(body)
    except (ValueError, RecursionError) as error:
        raise BadMessage(str(error)) from error
    if not isinstance(message, dict):
        raise BadMessage("it is no object")
    return message
