"""A scripted editor: it drives `python3 -m btx lsp`, and counts the exchanges."""

import json
import os
import pathlib
import select
import subprocess
import sys
import time

PACKAGE = str(pathlib.Path(__file__).resolve().parent.parent)
SECONDS = float(os.environ.get("BTX_TEST_SECONDS", "60"))


class Editor:
    """An editor and its server."""

    def __init__(self, folder):
        self.folder = pathlib.Path(folder)
        env = {**os.environ, "PYTHONPATH": PACKAGE}
        self.server = subprocess.Popen([sys.executable, "-m", "btx", "lsp"], env=env, cwd=folder, stdin=subprocess.PIPE, stdout=subprocess.PIPE, stderr=subprocess.PIPE)
        self.waiting, self.notices, self.number, self.exchanges = b"", [], 0, 0
        self.versions = {}
        self.at_read = lambda: None

    # ---- messages ----

    def raw(self, data):
        self.server.stdin.write(data)
        self.server.stdin.flush()

    @staticmethod
    def framed(message):
        body = json.dumps({"jsonrpc": "2.0", **message}).encode()
        return b"Content-Length: %d\r\n\r\n" % len(body) + body

    def send(self, **message):
        self.raw(self.framed(message))

    def take(self, seconds=None):
        """The next message of the server; None where none comes in time."""
        end = time.monotonic() + (SECONDS if seconds is None else seconds)
        while True:
            head, mark, rest = self.waiting.partition(b"\r\n\r\n")
            length = int(head.split(b":")[1]) if mark else 0
            if mark and len(rest) >= length:
                self.waiting = rest[length:]
                return json.loads(rest[:length])
            if not select.select([self.server.stdout], [], [], max(end - time.monotonic(), 0))[0]:
                return None
            piece = os.read(self.server.stdout.fileno(), 1 << 20)
            self.at_read()
            if not piece:
                return None
            self.waiting += piece

    def ask(self, method, params=None):
        """The answer to a request; notices that come before it are kept."""
        self.number += 1
        self.exchanges += 1
        self.send(id=self.number, method=method, params=params)
        while True:
            message = self.take()
            if message is None or message.get("id") == self.number:
                return message
            self.notices.append(message)

    def result(self, method, **params):
        answer = self.ask(method, params)
        if answer is None or "error" in answer:
            raise AssertionError((method, params, answer))
        return answer["result"]

    def tell(self, method, **params):
        self.exchanges += 1
        self.send(method=method, params=params)

    # ---- texts ----

    def uri(self, name):
        return (self.folder / name).as_uri()

    def open(self, name, text):
        """Opens a text, and gives its diagnostics."""
        self.versions[name] = 1
        self.tell("textDocument/didOpen", textDocument={"uri": self.uri(name), "languageId": "x", "version": 1, "text": text})
        return self.diagnostics(name)

    def change(self, name, *changes):
        self.versions[name] += 1
        self.tell("textDocument/didChange", textDocument={"uri": self.uri(name), "version": self.versions[name]}, contentChanges=list(changes))

    def diagnostics(self, name):
        """The next diagnostics of a text."""
        while True:
            kept = [it for it in self.notices if it["params"]["uri"] == self.uri(name)]
            if kept:
                self.notices.remove(kept[0])
                return kept[0]["params"]["diagnostics"]
            message = self.take()
            if message is None:
                raise AssertionError(f"no diagnostics of {name}")
            self.notices.append(message)

    def at(self, name, line, column):
        return {"textDocument": {"uri": self.uri(name)}, "position": {"line": line, "character": column}}

    def close(self):
        """Ends the server; its status and what it wrote to standard error."""
        self.ask("shutdown")
        self.tell("exit")
        self.server.stdin.close()
        errors = self.server.stderr.read().decode()
        status = self.server.wait(20)
        self.server.stdout.close()
        self.server.stderr.close()
        return status, errors


def spot(text, marked, nth=0):
    """The line and the column in UTF-16 of the nth place of a word."""
    at = -1
    for _ in range(nth + 1):
        at = text.index(marked, at + 1)
    line = text.count("\n", 0, at)
    return line, len(text[text.rfind("\n", 0, at) + 1 : at].encode("utf-16-le")) // 2


def edit(start, end, text):
    return {"range": {"start": dict(zip(("line", "character"), start)), "end": dict(zip(("line", "character"), end))}, "text": text}


def marked(text, found):
    """The text of a range."""
    lines = text.split("\n")
    (first, start), (last, end) = [(found[it]["line"], found[it]["character"]) for it in ("start", "end")]
    cut = lambda line, to: line.encode("utf-16-le")[: 2 * to].decode("utf-16-le")  # noqa: E731
    if first == last:
        return cut(lines[first], end)[len(cut(lines[first], start)) :]
    return "\n".join([lines[first][len(cut(lines[first], start)) :], *lines[first + 1 : last], cut(lines[last], end)])
