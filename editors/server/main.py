#!/usr/bin/env python3
"""A language server for programs of interaction nets: what `inet` says of each open text as it is written, and what the text says of its names.

Usage: editors/server/main.py         an editor starts it, and speaks the Language Server Protocol with it over standard input and output

The checker is libinet, in this process, as bindings/python/inet.py finds it; where it isn't made yet, bindings/library makes it. Not proved.
The status is 0 where the editor ended it as the protocol says, 1 where the editor went away, 2 for wrong words.
"""
import os
import queue
import sys
import threading
import traceback
from functools import cached_property

sys.dont_write_bytecode = True

import checking
import features
import layout
import transport
from documents import Document, changed

ENDED, WENT_AWAY, WRONG_WORDS = range(3)
# Errors as the protocol numbers them.
PARSE_ERROR, INVALID_REQUEST, METHOD_NOT_FOUND, INVALID_PARAMS, INTERNAL_ERROR = -32700, -32600, -32601, -32602, -32603
NOT_INITIALIZED, REQUEST_FAILED = -32002, -32803
# Kinds of messages to the user.
AS_ERROR, FOR_THE_LOG = 1, 4
IN_PARTS = 2
# Of a text with more characters only the checker says something.
MOST_CHARACTERS = 1_048_576
# What is wrong with a request, where answering breaks off so.
OF_PARAMS = (KeyError, TypeError, ValueError, AttributeError, IndexError, OverflowError)


class Failed(Exception):
    """A request is answered by an error of this number."""

    def __init__(self, number, words):
        super().__init__(words)
        self.number = number


def under(value, *names):
    """What stands under these names in a value of JSON; None where nothing does."""
    for name in names:
        value = value.get(name) if isinstance(value, dict) else None
    return value


class Server:
    """The open documents, and an answer to each message. What is sent goes to the call `send`."""

    def __init__(self, send):
        self.send = send
        self.documents, self.diagnoses = {}, {}
        # The documents whose diagnoses weren't sent yet, in order.
        self.waiting = {}
        self.client = self.status = None
        self.is_ending = False

    # ---- messages

    def take(self, message):
        """Does what a message asks, whatever it is."""
        method = under(message, "method")
        is_request = isinstance(message, dict) and "id" in message
        if not isinstance(method, str):
            # What has a result or an error is an answer, and the server asks nothing.
            if not (is_request and ("result" in message or "error" in message)):
                number = PARSE_ERROR if message is None else INVALID_REQUEST
                self.send({"id": under(message, "id"), "error": {"code": number, "message": "no request or notification"}})
            return
        answer = self.guarded(lambda: {"result": self.answer(method, message.get("params"), is_request)})
        if is_request:
            self.send({"id": message["id"], **answer})

    def guarded(self, call):
        """What a call returns, or the error that it ends with."""
        try:
            return call()
        except Failed as why:
            number, words = why.number, str(why)
        except features.Refused as why:
            number, words = REQUEST_FAILED, str(why)
        except Exception as why:
            number, words = INVALID_PARAMS if isinstance(why, OF_PARAMS) else INTERNAL_ERROR, repr(why)
            if number == INTERNAL_ERROR:
                self.tell(FOR_THE_LOG, traceback.format_exc(), "window/logMessage")
        return {"error": {"code": number, "message": words}}

    def tell(self, kind, words, method="window/showMessage"):
        self.send({"method": method, "params": {"type": kind, "message": words}})

    def answer(self, method, params, is_request):
        if method == "exit":
            self.status = ENDED if self.is_ending else WENT_AWAY
        elif method == "initialize" and self.client is None:
            return self.initialize(params)
        elif self.client is None and is_request:
            raise Failed(NOT_INITIALIZED, "the first request is initialize")
        elif self.is_ending and is_request:
            raise Failed(INVALID_REQUEST, "the server was asked to end")
        elif method == "shutdown":
            self.is_ending = True
        elif method in ANSWERS and is_request:
            document, offset = self.place(params)
            return ANSWERS[method](self, document, offset, params) if len(document.text) <= MOST_CHARACTERS else None
        elif method in NOTED and self.client is not None:
            NOTED[method](self, params)
        elif is_request:
            raise Failed(METHOD_NOT_FOUND, f"no method {method}")
        return None

    def place(self, params):
        """The document that a request is about, and the character, if it is about one."""
        document = self.documents.get(params["textDocument"]["uri"])
        if document is None:
            raise Failed(INVALID_PARAMS, "this document isn't open")
        return document, document.offset(params["position"]) if "position" in params else None

    def initialize(self, params):
        self.client = under(params, "capabilities") or {}
        can_prepare = self.can("rename", "prepareSupport")
        return {
            "capabilities": {
                "positionEncoding": "utf-16",
                "textDocumentSync": {"openClose": True, "change": IN_PARTS},
                "hoverProvider": True,
                "definitionProvider": True,
                "referencesProvider": True,
                "documentHighlightProvider": True,
                "renameProvider": {"prepareProvider": True} if can_prepare else True,
                "completionProvider": {},
                "codeActionProvider": {"codeActionKinds": [checking.QUICK_FIX]} if self.can("codeAction", "codeActionLiteralSupport") is not None else False,
                "documentFormattingProvider": True,
            },
            "serverInfo": {"name": "inet"},
        }

    def can(self, *names):
        """What the client says that it can do with a text."""
        return under(self.client, "textDocument", *names)

    @cached_property
    def calls(self):
        """The calls of the library; None where it can't be had, which the user is told once."""
        calls, wrong = checking.library()
        if wrong:
            self.tell(AS_ERROR, f"inet checks nothing: {wrong}")
        return calls

    # ---- documents

    def put(self, document):
        self.documents[document.uri] = document
        self.waiting[document.uri] = True

    def opened(self, params):
        given = params["textDocument"]
        if not isinstance(given["uri"], str) or not isinstance(given["text"], str):
            raise TypeError("a document has an address and a text")
        self.put(Document(given["uri"], given.get("version"), given["text"]))

    def edited(self, params):
        given = params["textDocument"]
        document = self.documents[given["uri"]]
        document = Document(document.uri, given.get("version"), document.text)
        for change in params["contentChanges"]:
            document = document.changed(change)
        self.put(document)

    def closed(self, params):
        uri = params["textDocument"]["uri"]
        if self.documents.pop(uri, None):
            self.waiting.pop(uri, None)
            self.diagnoses.pop(uri, None)
            self.publish(uri, None, [])

    def publish(self, uri, version, found):
        more = {} if version is None else {"version": version}
        self.send({"method": "textDocument/publishDiagnostics", "params": {"uri": uri, **more, "diagnostics": found}})

    def diagnose(self):
        """Checks one of the documents that wait, and sends what is found."""
        uri = next(iter(self.waiting))
        del self.waiting[uri]
        self.guarded(lambda: self.publish(uri, self.documents[uri].version, self.diagnosed(self.documents[uri])[1]))

    def diagnosed(self, document):
        """The diagnosis of a document as the library has it, and as the protocol has it; the last one of each document is kept."""
        if self.calls is None:
            return None, []
        if self.diagnoses.get(document.uri, [None])[0] is not document:
            status, data = self.calls.diagnose_data(document.bytes)
            shown = checking.diagnostics(document, status, data, self.can("publishDiagnostics", "relatedInformation"))
            self.diagnoses[document.uri] = document, data, shown, []
        return self.diagnoses[document.uri][1:3]

    # ---- answers

    def hover(self, document, offset, _params):
        return features.hover(document, offset, "markdown" in (self.can("hover", "contentFormat") or ()))

    def definition(self, document, offset, _params):
        return features.definition(document, offset)

    def references(self, document, offset, params):
        return [features.location(document, token) for token in features.occurrences(document, offset, under(params, "context", "includeDeclaration"))]

    def highlights(self, document, offset, _params):
        return [{"range": document.range_of(token)} for token in features.occurrences(document, offset)]

    def prepare_rename(self, document, offset, _params):
        name = features.name_at(document.reading, offset)
        return {"range": document.range_of(name.token), "placeholder": name.token.text} if name else None

    def rename(self, document, offset, params):
        changes = features.renamed(document, offset, params["newName"])
        if self.calls and checking.is_spoilt(self.calls, document.text, changed(document.text, changes)):
            raise features.Refused("the program wouldn't be accepted with this name")
        return self.workspace_edit(document, changes)

    def workspace_edit(self, document, changes):
        edits = document.edits(changes)
        if under(self.client, "workspace", "workspaceEdit", "documentChanges"):
            return {"documentChanges": [{"textDocument": {"uri": document.uri, "version": document.version}, "edits": edits}]}
        return {"changes": {document.uri: edits}}

    def completion(self, document, offset, _params):
        return features.completions(document, offset, self.can("completion", "completionItem", "snippetSupport"))

    def actions(self, document, _offset, params):
        """The changes that mend what is wrong on the lines of a range."""
        only = under(params, "context", "only")
        data, shown = self.diagnosed(document)
        if not data or only and checking.QUICK_FIX not in only:
            return []
        mends = self.diagnoses[document.uri][3]
        if not mends:
            mends += checking.mends(self.calls, document, data)
        begin, end = (document.position(offset)["line"] for offset in document.offsets(params["range"]))
        near = {shown[0]["range"]["start"]["line"], *(one["location"]["range"]["start"]["line"] for one in shown[0].get("relatedInformation", ()))}
        return [
            {"title": title, "kind": checking.QUICK_FIX, "isPreferred": accepted, "diagnostics": shown, "edit": self.workspace_edit(document, changes)}
            for title, changes, accepted in mends
            if any(begin <= line <= end for line in near | {document.position(change[0])["line"] for change in changes})
        ]

    def formatting(self, document, _offset, params):
        """The layout of a text that is one of the grammar."""
        data, _ = self.diagnosed(document)
        if self.calls is None or data and data["code"] in checking.SYNTAX:
            return []
        options = params.get("options") or {}
        step = "\t" if options.get("insertSpaces") is False else " " * min(16, max(1, int(options.get("tabSize", 4))))
        return document.edits(layout.formatted(document.text, step))


NOTED = {
    "textDocument/didOpen": Server.opened,
    "textDocument/didChange": Server.edited,
    "textDocument/didClose": Server.closed,
}
ANSWERS = {
    "textDocument/hover": Server.hover,
    "textDocument/definition": Server.definition,
    "textDocument/references": Server.references,
    "textDocument/documentHighlight": Server.highlights,
    "textDocument/prepareRename": Server.prepare_rename,
    "textDocument/rename": Server.rename,
    "textDocument/completion": Server.completion,
    "textDocument/codeAction": Server.actions,
    "textDocument/formatting": Server.formatting,
}


def serve(stream, output):
    """Answers all messages that come, and checks what was changed as soon as none is waiting: how it ends."""
    messages, at_end = queue.SimpleQueue(), object()

    def receive():
        try:
            for message in transport.received(stream):
                messages.put(message)
        finally:
            messages.put(at_end)

    def send(message):
        output.write(transport.written(message))
        output.flush()

    threading.Thread(target=receive, daemon=True).start()
    server = Server(send)
    while server.status is None:
        if server.waiting and messages.empty():
            server.diagnose()
            continue
        message = messages.get()
        if message is at_end:
            return WENT_AWAY
        server.take(message)
    return server.status


def main(words):
    if words:
        print(__doc__.strip(), flush=True)
        return ENDED if words == ["--help"] else WRONG_WORDS
    try:
        return serve(sys.stdin.buffer, sys.stdout.buffer)
    except (OSError, KeyboardInterrupt):
        return WENT_AWAY


if __name__ == "__main__":
    # The other thread may still be reading, and what could not be written is left.
    os._exit(main(sys.argv[1:]))
