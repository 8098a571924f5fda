"""`python3 -m btx lsp`: a language server for styles, databases, `.aux` files and citations, over standard input and output.

A notice of a change is answered when no further message waits, so many changes at once give one answer, for the last text. Of a large database the mistakes are sent first; it is examined
piece by piece while no message waits, and then all is sent."""

from __future__ import annotations

import os
import sys
from typing import Any, Callable, Dict, List, Optional

from . import editing
from .diagnosing import Diagnosis, Diagnostic
from .documents import Document
from .editing import Place, RenameRefused
from .reading import without_collection
from .tokens import MODIFIERS, TYPES, data_of, tokens_of
from .wire import BadMessage, Ended, Wire
from .workspace import MOST_BYTES, Workspace

__all__ = ["main"]

PARSE, INVALID, UNKNOWN_METHOD, BAD_PARAMS, INTERNAL = -32700, -32600, -32601, -32602, -32603
NOT_INITIALIZED, FAILED = -32002, -32803
# How long no message has to come before diagnostics are made.
REST = 0.03
CAPABILITIES = {
    "positionEncoding": "utf-16",
    "textDocumentSync": {"openClose": True, "change": 2},
    "hoverProvider": True,
    "definitionProvider": True,
    "referencesProvider": True,
    "renameProvider": {"prepareProvider": True},
    "completionProvider": {"triggerCharacters": ["@", "=", "#", "{", ",", "'"]},
    "documentSymbolProvider": True,
    "codeActionProvider": {"codeActionKinds": ["quickfix"]},
    "semanticTokensProvider": {"legend": {"tokenTypes": list(TYPES), "tokenModifiers": list(MODIFIERS)}, "full": True, "range": True},
}

# The files on disk whose changes a client is asked to tell.
WATCHED = {"id": "files", "method": "workspace/didChangeWatchedFiles", "registerOptions": {"watchers": [{"globPattern": "**/*.{bib,bst,aux}"}]}}


class Refused(Exception):
    """A request that can't be answered: a code of the protocol, and why."""

    def __init__(self, code: int, text: str) -> None:
        super().__init__(text)
        self.code = code


def main(words: List[str]) -> int:
    """Serves standard input and output; the status is 0 after a shutdown, else 1."""
    if words:
        print("usage: python3 -m btx lsp", file=sys.stderr)
        return 1
    source, target = os.dup(0), os.dup(1)
    # (what anything else would print goes to standard error)
    os.dup2(2, 1)
    return Server(Wire(source, target)).serve()


class Server:
    """A language server over a wire."""

    def __init__(self, wire: Wire) -> None:
        self.wire = wire
        self.workspace = Workspace()
        self.is_ready = self.is_down = self.can_watch = False
        self.changed: Dict[str, None] = {}
        # What is said of texts, and of which of them not all is sent yet.
        self.known: Dict[str, Diagnosis] = {}
        self.unfinished: Dict[str, None] = {}
        self.methods: Dict[str, Callable[[Dict[str, Any]], Any]] = {
            "initialized": self.initialized,
            "workspace/didChangeWatchedFiles": self.look_again,
            "textDocument/didOpen": self.did_open,
            "textDocument/didChange": self.did_change,
            "textDocument/didClose": self.did_close,
            "textDocument/didSave": self.look_again,
            "textDocument/hover": self.hover,
            "textDocument/definition": self.definition,
            "textDocument/references": self.references,
            "textDocument/prepareRename": self.prepare_rename,
            "textDocument/rename": self.rename,
            "textDocument/completion": self.completion,
            "textDocument/documentSymbol": self.symbols,
            "textDocument/codeAction": self.actions,
            "textDocument/semanticTokens/full": self.tokens,
            "textDocument/semanticTokens/range": self.tokens,
        }

    # ---- messages ----

    def serve(self) -> int:
        """Answers messages until the client ends it."""
        while True:
            try:
                message = self.wire.take(REST if self.changed else 0 if self.unfinished else None)
            except (Ended, OSError):
                return 0 if self.is_down else 1
            except BadMessage as error:
                self.wire.send({"id": None, "error": {"code": PARSE, "message": str(error)}})
                continue
            if message is not None and message.get("method") == "exit":
                return 0 if self.is_down else 1
            with without_collection():
                self.do(message)

    def do(self, message: Optional[Dict[str, Any]]) -> None:
        """Does what a message asks; without one, some of what is to be done while none waits."""
        if message is None:
            self.work()
        elif isinstance(message.get("method"), str):
            self.take(message)
        elif "id" in message and "result" not in message and "error" not in message:
            self.wire.send({"id": message["id"], "error": {"code": INVALID, "message": "a message without a method"}})

    def take(self, message: Dict[str, Any]) -> None:
        """Does what a message asks, and answers it if it is a request."""
        is_request = "id" in message
        try:
            answer: Dict[str, Any] = {"result": self.answer(message["method"], message.get("params"), is_request)}
        except Refused as error:
            answer = {"error": {"code": error.code, "message": str(error)}}
        except (KeyError, TypeError, ValueError, AttributeError, IndexError) as error:
            answer = {"error": {"code": BAD_PARAMS, "message": f"{type(error).__name__}: {error}"}}
        except Exception as error:  # noqa: BLE001 (one request that fails isn't to end the others)
            answer = {"error": {"code": INTERNAL, "message": f"{type(error).__name__}: {error}"}}
        if is_request:
            self.wire.send({"id": message["id"], **answer})
        elif "error" in answer:
            print(f"btx lsp: {message['method']}: {answer['error']['message']}", file=sys.stderr)

    def answer(self, method: str, params: Any, is_request: bool) -> Any:
        if method == "initialize":
            self.is_ready, self.can_watch = True, may_watch(params)
            return {"capabilities": CAPABILITIES, "serverInfo": {"name": "btx"}}
        if not self.is_ready:
            raise Refused(NOT_INITIALIZED, "the first request is initialize")
        if self.is_down:
            raise Refused(INVALID, "it is shut down")
        if method == "shutdown":
            # (the editor may read nothing more)
            self.changed.clear()
            self.unfinished.clear()
            self.is_down = True
            return None
        call = self.methods.get(method)
        if call is None:
            if is_request:
                raise Refused(UNKNOWN_METHOD, f"there is no method {method}")
            return None
        return call(params)

    # ---- texts ----

    def initialized(self, params: Any) -> None:
        """Asks a client that can watch files to tell what changes on disk."""
        if self.can_watch:
            self.wire.send({"id": "watch", "method": "client/registerCapability", "params": {"registrations": [WATCHED]}})

    def did_open(self, params: Dict[str, Any]) -> None:
        given = params["textDocument"]
        uri, text = given["uri"], given["text"]
        if not isinstance(uri, str) or not isinstance(text, str):
            raise Refused(BAD_PARAMS, "the uri and the text of a document are texts")
        self.forget(uri)
        self.workspace.open[uri] = Document(uri, text, given.get("version"))
        self.changed[uri] = None

    def did_change(self, params: Dict[str, Any]) -> None:
        document = self.document(params)
        self.forget(document.uri)
        self.changed[document.uri] = None
        document.change(params["contentChanges"])
        document.version = params["textDocument"].get("version")

    def look_again(self, params: Any) -> None:
        """Looks again at all open texts: each may depend on what was saved, or was changed by another program."""
        self.known.clear()
        self.unfinished.clear()
        self.changed.update(dict.fromkeys(self.workspace.open))

    def did_close(self, params: Dict[str, Any]) -> None:
        uri = self.document(params).uri
        self.workspace.forget(uri)
        self.changed.pop(uri, None)
        self.forget(uri)
        self.notify_diagnostics({"uri": uri, "diagnostics": []})

    def document(self, params: Dict[str, Any]) -> Document:
        uri = params["textDocument"]["uri"]
        if uri not in self.workspace.open:
            raise Refused(BAD_PARAMS, f"{uri} isn't open")
        return self.workspace.open[uri]

    # ---- diagnostics ----

    def forget(self, uri: str) -> None:
        """Drops what is said of a text, and what isn't examined of it."""
        self.known.pop(uri, None)
        self.unfinished.pop(uri, None)

    def work(self) -> None:
        """Does some of what is to be done while no message waits."""
        uri = next(iter(self.changed or self.unfinished))
        try:
            if uri in self.changed:
                self.begin(uri)
            else:
                self.go_on(uri)
        except Exception as error:  # noqa: BLE001 (a text that can't be checked isn't to end the server)
            print(f"btx lsp: {uri}: {type(error).__name__}: {error}", file=sys.stderr)
            self.unfinished.pop(uri, None)
            self.publish(self.workspace.open[uri], [])

    def begin(self, uri: str) -> None:
        """Sends the diagnostics of a text, or the first of them."""
        del self.changed[uri]
        diagnosis = self.diagnosis(self.workspace.open[uri])
        if not diagnosis.is_whole:
            self.unfinished[uri] = None
        self.publish(diagnosis.document, diagnosis.said)

    def go_on(self, uri: str) -> None:
        """Examines some more of a text, and sends its diagnostics when that is done."""
        diagnosis = self.known[uri]
        diagnosis.go_on()
        if diagnosis.is_whole:
            del self.unfinished[uri]
            self.publish(diagnosis.document, diagnosis.said)

    def diagnosis(self, document: Document) -> Diagnosis:
        if document.uri not in self.known:
            self.known[document.uri] = Diagnosis(document, self.workspace)
        return self.known[document.uri]

    def publish(self, document: Document, found: List[Diagnostic]) -> None:
        """Sends the diagnostics of a text."""
        params: Dict[str, Any] = {"uri": document.uri, "diagnostics": [shown_diagnostic(document, it) for it in found]}
        if document.version is not None:
            params["version"] = document.version
        self.notify_diagnostics(params)

    def notify_diagnostics(self, params: Dict[str, Any]) -> None:
        self.wire.send({"method": "textDocument/publishDiagnostics", "params": params})

    def actions(self, params: Dict[str, Any]) -> List[Dict[str, Any]]:
        """The mendings of the diagnostics that touch a range, each once."""
        document = self.document(params)
        start, end = document.place(params["range"]["start"]), document.place(params["range"]["end"])
        found: Dict[Any, Dict[str, Any]] = {}
        diagnosis = self.diagnosis(document)
        diagnosis.finish()
        for it in diagnosis.said:
            mending = it.mend() if it.start <= end and it.end >= start else None
            if mending is None:
                continue
            edit = {"range": document.range(mending.start, mending.end), "newText": mending.text}
            action = {"title": mending.title, "kind": "quickfix", "diagnostics": [], "edit": {"changes": {document.uri: [edit]}}}
            found.setdefault(mending, action)["diagnostics"].append(shown_diagnostic(document, it))
        return list(found.values())

    # ---- places ----

    def place(self, params: Dict[str, Any]) -> int:
        return self.document(params).place(params["position"])

    def hover(self, params: Dict[str, Any]) -> Optional[Dict[str, Any]]:
        document = self.document(params)
        found = editing.hover(document, self.workspace, self.place(params))
        if found is None:
            return None
        return {"contents": {"kind": "markdown", "value": found[0]}, "range": document.range(found[1], found[2])}

    def named(self, params: Dict[str, Any]) -> Optional[editing.Named]:
        return editing.name_at(self.document(params), self.workspace, self.place(params))

    def definition(self, params: Dict[str, Any]) -> List[Dict[str, Any]]:
        named = self.named(params)
        return [] if named is None else [location(place) for place in editing.definition(named, self.workspace)]

    def references(self, params: Dict[str, Any]) -> List[Dict[str, Any]]:
        named = self.named(params)
        is_whole = bool(params.get("context", {}).get("includeDeclaration", True))
        return [] if named is None else [location(place) for place in editing.references(named, self.workspace, is_whole)]

    def prepare_rename(self, params: Dict[str, Any]) -> Optional[Dict[str, Any]]:
        named = self.named(params)
        return None if named is None else named.place.document.range(named.place.start, named.place.end)

    def rename(self, params: Dict[str, Any]) -> Dict[str, Any]:
        named = self.named(params)
        if named is None:
            raise Refused(FAILED, "there is no name here")
        try:
            places = editing.rename(named, self.workspace, params["newName"])
        except RenameRefused as error:
            raise Refused(FAILED, str(error)) from error
        changes: Dict[str, List[Dict[str, Any]]] = {}
        for place in places:
            edit = {"range": place.document.range(place.start, place.end), "newText": params["newName"]}
            changes.setdefault(place.document.uri, []).append(edit)
        return {"changes": changes}

    def completion(self, params: Dict[str, Any]) -> List[Dict[str, Any]]:
        return editing.completions(self.document(params), self.workspace, self.place(params))

    def symbols(self, params: Dict[str, Any]) -> List[Dict[str, Any]]:
        document = self.document(params)
        at, found = document.walk().at, []
        for name, detail, kind, whole, place in editing.symbols(document, self.workspace):
            # (in the order of their places)
            start, first, last, end = at(whole.start), at(place.start), at(place.end), at(whole.end)
            found.append({"name": name, "detail": detail, "kind": kind, "range": {"start": start, "end": end}, "selectionRange": {"start": first, "end": last}})
        return found

    def tokens(self, params: Dict[str, Any]) -> Dict[str, Any]:
        """The tokens of a style, or those that touch a range of it; of any other text none."""
        document = self.document(params)
        if not document.uri.endswith(".bst") or len(document.text) > MOST_BYTES:
            return {"data": []}
        asked = params.get("range")
        touched = () if asked is None else (document.place(asked["start"]), document.place(asked["end"]))
        return {"data": data_of(document, tokens_of(document.text, self.workspace.style(document)), *touched)}


def may_watch(params: Any) -> bool:
    """Whether a client can be asked to watch files, by what it says when it begins."""
    for name in ("capabilities", "workspace", "didChangeWatchedFiles"):
        params = params.get(name) if isinstance(params, dict) else None
    return isinstance(params, dict) and params.get("dynamicRegistration") is True


def location(place: Place) -> Dict[str, Any]:
    return {"uri": place.document.uri, "range": place.document.range(place.start, place.end)}


def shown_diagnostic(document: Document, it: Diagnostic) -> Dict[str, Any]:
    text = it.text.encode("utf8", "replace").decode()
    return {"range": document.range(it.start, it.end), "severity": it.severity, "source": "btx", "code": it.code, "message": text}
