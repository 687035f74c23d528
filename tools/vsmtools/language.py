"""A language server: the messages of the Language Server Protocol, open scripts, and what a listing says of them."""
from __future__ import annotations

import os
import time
from contextlib import suppress
from itertools import islice
from typing import Any, Callable, Iterator, Optional

from . import features, listing, manuals, rpc
from .bench import EXPLAIN_LAUNCHER, MOST_OUTPUT, WITHOUT_INPUT, find_explain, find_program, not_compiled
from .command import WORDS, Fault, one_line, version
from .documents import FAR, Document
from .lines import Extent, options_for
from .rpc import WRONG, Code, Failure, Message
from .runs import Runs

QUIET, SETTLED = 0.2, 0.5    # seconds from the last change until it's listed, and checked
MOST_SHOWN = 10000    # diagnostics
ERROR, WARNING, HINT = 1, 2, 4
REFUSED = ("ABEND ", "REFUSED ")
OTHER_FORM = "vsm-explain answers in another form than vsm-lsp reads: take both of one release"
COUNTED = ("OUTSIDE", "STALE")    # findings that are wrong, not only worth a look
CAPABILITIES = {
    "textDocumentSync": {"openClose": True, "change": 2, "save": {"includeText": False}},
    "hoverProvider": True, "definitionProvider": True, "referencesProvider": True, "documentHighlightProvider": True,
    "renameProvider": {"prepareProvider": True}, "documentSymbolProvider": True, "foldingRangeProvider": True,
    "codeActionProvider": {"codeActionKinds": ["quickfix"]}, "codeLensProvider": {"resolveProvider": False},
    "inlayHintProvider": True, "completionProvider": {"triggerCharacters": [",", "=", "("]}}


class Server:
    """Answers one client."""

    def __init__(self, stream: rpc.Stream, vsm: Optional[str], explain: Optional[str]) -> None:
        self.stream = stream
        self.explain = find_program(explain) if explain else find_explain(find_program(vsm, is_needed=False), False)
        self.lacking = ""        # why vsm-explain can't be run yet
        self.documents: dict[str, Document] = {}
        self.runs = Runs()
        self.settings: Message = {}
        self.client: Message = {}
        self.units = "utf-16"
        self.is_ready = self.is_shut = self.is_ended = False
        self.status = 1
        self.asked: dict[str, Callable[[Any], None]] = {}    # of the client, by number
        self.number = 0

    # Messages.

    def serve(self) -> int:
        """The exit status: 0 if the client has shut the server down."""
        try:
            if os.path.realpath(self.explain) == EXPLAIN_LAUNCHER:
                self.lacking = "vsm-explain is being compiled, once: about 2 minutes"
                self.runs.compile(self.explain, WITHOUT_INPUT, self.compiled)
            while not self.is_ended and not self.stream.is_ended:
                due = [at for it in self.documents.values() for at in (it.due, it.check_due) if at is not None]
                ready = self.stream.read(max(0.0, min(due) - time.monotonic()) if due else None, self.runs.sources)
                try:
                    self.runs.gather(ready)
                except Fault as fault:    # a further run can't be started
                    self.notify("window/showMessage", {"type": ERROR, "message": str(fault)})
                self.hear()
                for it in list(self.documents.values()):
                    if it.due is not None and it.due <= time.monotonic():
                        self.list(it)
                    if it.check_due is not None and it.check_due <= time.monotonic():
                        self.check(it)
            self.stream.flush()
        finally:
            self.runs.end_all()
        return self.status

    def hear(self) -> None:
        while not self.is_ended:
            try:
                message = self.stream.take()
            except rpc.Unreadable as fault:
                self.fail(None, fault.code, str(fault))
                continue
            if message is None:
                return
            self.handle(message)

    def handle(self, message: Message) -> None:
        method, number = message.get("method"), message.get("id")
        is_request = "id" in message and not (method is None and ("result" in message or "error" in message))
        try:
            if not is_request and "id" in message:
                then = self.asked.pop(number, None)
                if then and "result" in message:
                    then(message["result"])
                return
            if is_request and (not isinstance(number, (int, str)) or isinstance(number, bool)):
                number = None
                raise Failure(Code.REQUEST, "an id is a number or a text")
            answer = self.answer_of(method, message.get("params"), number)
            if is_request and answer is not features.LATER:
                self.reply(number, answer)
        except (Failure, Fault, *WRONG) as fault:
            if is_request:
                self.fail(number, *self.error_of(fault, method))

    @staticmethod
    def error_of(fault: Exception, method: Any) -> tuple[Code, str]:
        if isinstance(fault, Failure):
            return fault.code, str(fault)
        if isinstance(fault, Fault):
            return Code.FAILED, str(fault)
        return Code.PARAMETERS, "not the parameters of %s: %s %s" % (method, type(fault).__name__, fault)

    def answer_of(self, method: Any, params: Any, number: Any) -> Any:
        if not isinstance(method, str):
            raise Failure(Code.REQUEST, "no method is named")
        if method == "exit":
            self.is_ended, self.status = True, 0 if self.is_shut else 1
            return None
        if self.is_shut:
            raise Failure(Code.REQUEST, "the server is shut down")
        if not self.is_ready and method != "initialize":
            raise Failure(Code.NOT_INITIALIZED, "initialize comes first")
        params = {} if params is None else params
        if method in METHODS:
            return METHODS[method](self, params)
        if method not in features.FEATURES:
            raise Failure(Code.METHOD, "there is no method %s here" % one_line(method))
        document = self.document(params)
        document.read()
        return features.FEATURES[method](self, document, params, number)

    def reply(self, number: Any, result: Any) -> None:
        self.stream.write({"jsonrpc": "2.0", "id": number, "result": result})

    def fail(self, number: Any, code: Code, text: str) -> None:
        self.stream.write({"jsonrpc": "2.0", "id": number, "error": {"code": int(code), "message": one_line(text)}})

    def notify(self, method: str, params: Any) -> None:
        self.stream.write({"jsonrpc": "2.0", "method": method, "params": params})

    def ask(self, method: str, then: Callable[[Any], None] = lambda _: None, **params: Any) -> None:
        self.number += 1
        self.asked["vsm-%d" % self.number] = then
        self.stream.write({"jsonrpc": "2.0", "id": "vsm-%d" % self.number, "method": method,
                           **({"params": params} if params else {})})

    def cancel(self, params: Message) -> None:
        if self.runs.cancel(params["id"]):
            self.fail(params["id"], Code.CANCELLED, "cancelled")

    # Begin and end.

    def initialize(self, params: Message) -> Message:
        if self.is_ready:
            raise Failure(Code.REQUEST, "initialize comes once")
        client = params.get("capabilities") or {}
        offered = (client.get("general") or {}).get("positionEncodings") or []
        self.units = "utf-8" if "utf-8" in offered else "utf-16"
        given = params.get("initializationOptions")
        self.client, self.is_ready = client, True
        self.settings = given if isinstance(given, dict) else {}
        return {"serverInfo": {"name": "vsm-lsp", "version": version()},
                "capabilities": {"positionEncoding": self.units, **CAPABILITIES}}

    def has(self, *path: str) -> bool:
        """Whether the client has a capability."""
        found: Any = self.client
        for it in path:
            found = found.get(it) if isinstance(found, dict) else None
        return bool(found)

    def configure(self, params: Message) -> None:
        """Takes the settings that the client sends, or asks for them."""
        given = params.get("settings")
        if isinstance(given, dict) and isinstance(given.get("vsm"), dict):
            self.set(given["vsm"])
        if self.has("workspace", "configuration"):
            self.ask("workspace/configuration", lambda found: self.set((found or [None])[0]),
                     items=[{"section": "vsm"}])

    def set(self, found: Any) -> None:
        if isinstance(found, dict):
            self.settings = {**self.settings, **found}
            for it in self.documents.values():
                it.due = time.monotonic()

    def shut_down(self, _params: Message) -> None:
        for number in self.runs.end_all():
            self.fail(number, Code.CANCELLED, "the server is shut down")
        self.is_shut = True

    def document(self, params: Message) -> Document:
        uri = params["textDocument"]["uri"]
        if uri not in self.documents:
            raise Failure(Code.PARAMETERS, "no such document is open")
        return self.documents[uri]

    def opened(self, params: Message) -> None:
        it = params["textDocument"]
        if not isinstance(it["uri"], str):
            raise ValueError("a URI is a text")
        document = Document(it["uri"], it.get("version"), it["text"], self.units)
        self.end_runs(it["uri"])
        self.documents[it["uri"]] = document

    def changed(self, params: Message) -> None:
        document = self.document(params)
        self.end_runs(document.uri)    # also if only the first changes can be applied
        document.changed = time.monotonic()
        document.due, document.check_due = document.changed + QUIET, None
        for it in params["contentChanges"]:
            document.apply(it)
        document.version = params["textDocument"].get("version")

    def closed(self, params: Message) -> None:
        document = self.document(params)
        self.end_runs(document.uri)
        del self.documents[document.uri]
        self.notify("textDocument/publishDiagnostics", {"uri": document.uri, "diagnostics": []})

    def end_runs(self, uri: str) -> None:
        """Ends the runs over a text that is changed, and with them the requests that wait for one."""
        for number in self.runs.end_all(uri):
            self.fail(number, Code.MODIFIED, "the script has changed")

    def options(self, document: Document) -> list[str]:
        """Those of the script's first comment, and what the client says of the others."""
        first = len(document.kinds.partition(b"S")[0])
        return options_for(document.path, b"\n".join(document.raw[:first]), settings=self.settings)

    # Diagnostics.

    def compiled(self, _output: bytes, status: int) -> None:
        """Lists what was opened while vsm-explain was compiled."""
        self.lacking = str(not_compiled(self.explain, status)) if status else ""
        if status:
            self.notify("window/showMessage", {"type": ERROR, "message": self.lacking})
        for it in self.documents.values():
            it.due = time.monotonic()

    def list(self, document: Document) -> None:
        """Runs vsm-explain list over a document, as soon as that is possible."""
        document.due = document.check_due = None
        document.read()
        if self.lacking:
            return
        self.runs.end_all(document.uri, is_asked=False)
        try:
            options = self.options(document)
            known = dict(zip(options[::2], options[1::2])).get("--history", "")
            document.limit = int(known) if known.isdecimal() and len(known) < 9 else 1024
            self.runs.start([self.explain, "list", "--json", *options], document.data,
                            lambda output, status: self.listed(document, output, status), document.uri)
        except Fault as fault:
            self.publish(document, [self.not_run(document, fault)])

    def listed(self, document: Document, output: bytes, status: int) -> None:
        try:
            document.take(listing.parse(self.whole(output, status)))
            found = self.diagnostics(document)
            document.check_due = document.changed + SETTLED
        except (Fault, *WRONG) as fault:    # also of a row that is read only now, or is about a line that doesn't exist
            found = [self.not_run(document, fault)] if document.data else []
        self.publish(document, found)
        for it in ("codeLens", "inlayHint"):
            if self.has("workspace", it, "refreshSupport"):
                self.ask("workspace/%s/refresh" % it)

    def check(self, document: Document) -> None:
        """Runs vsm-explain check over a document that is listed."""
        document.check_due = None
        with suppress(Fault):    # it can't be started any longer: the next listing says so
            self.runs.start([self.explain, "check", "--json", "--leaks", *self.options(document)], document.data,
                            lambda output, status: self.checked(document, output, status), document.uri)

    def checked(self, document: Document, output: bytes, status: int) -> None:
        """Adds what was found to what the listing says. A vsm-explain without these options finds nothing."""
        if status == WORDS:
            return
        try:
            assert document.listing
            document.listing.found = listing.findings(self.whole(output, status))
            if document.listing.found:
                self.publish(document, self.diagnostics(document))
        except (Fault, *WRONG) as fault:
            document.listing.found = []
            self.publish(document, [*self.diagnostics(document), self.not_run(document, fault)])

    @staticmethod
    def whole(output: bytes, status: int) -> bytes:
        """The output of a run of vsm-explain; a fault if it has no result."""
        if len(output) > MOST_OUTPUT:
            raise Fault("vsm-explain printed more than %d MiB" % (MOST_OUTPUT >> 20))
        if status < 0:
            raise Fault("vsm-explain ended by signal %d" % -status)
        if status not in (0, 4):
            said = output.decode("utf-8", "replace").strip().split("\n")[-1].replace("/dev/stdin: ", "")
            raise Fault(said.replace("/dev/stdin", "the script") or "vsm-explain ended with status %d" % status)
        return output

    def not_run(self, document: Document, fault: Exception) -> Message:
        """Why a script isn't listed, or not checked."""
        line, text = (fault.line or 1, fault.text) if isinstance(fault, Fault) else (1, OTHER_FORM)
        return self.diagnostic(document.lines_range(line, line), ERROR, text, "settings")

    def publish(self, document: Document, found: list[Message]) -> None:
        told = {"uri": document.uri, "diagnostics": found}
        self.notify("textDocument/publishDiagnostics",
                    {**told, "version": document.version} if type(document.version) is int else told)

    def why(self, document: Document, extent: Extent, then: Callable[[bytes, int], None], number: Any = None) -> None:
        """Runs vsm-explain why over the script up to a statement."""
        if self.lacking:
            raise Fault(self.lacking)
        script = b"".join(line + b"\n" for line in document.raw[:extent.last])
        self.runs.start([self.explain, "why", *self.options(document), "/dev/stdin", str(extent.first)], script, then,
                        document.uri, number)

    @staticmethod
    def diagnostic(where: Message, severity: int, text: str, code: str) -> Message:
        return {"range": where, "severity": severity, "source": "vsm", "code": code, "message": text,
                **({"tags": [1]} if code == "DROPPED" else {})}

    def diagnostics(self, document: Document) -> list[Message]:
        found = list(islice(self.all_diagnostics(document), MOST_SHOWN))
        if len(found) == MOST_SHOWN:
            text = "only the first %d diagnostics are shown" % MOST_SHOWN
            found.append(self.diagnostic(document.lines_range(1, 1), WARNING, text, "WARNING"))
        return found

    def all_diagnostics(self, document: Document) -> Iterator[Message]:
        shown = document.listing
        assert shown
        for marks, severity, code in ((shown.faults, ERROR, "FAULT %s"), (shown.dropped, HINT, "DROPPED"),
                                      (shown.warnings, WARNING, "WARNING"), (shown.found, HINT, "%s")):
            for it in marks:
                where = document.range((it.line, it.begin), (it.line, it.end if it.end > it.begin else FAR))
                yield self.diagnostic(where, WARNING if it.word in COUNTED else severity, it.message,
                                      code.replace("%s", it.word))
        for answer in shown.refused:
            if answer.text.startswith(REFUSED):
                part = document.statement(answer.extent).operation
                cause = answer.cause or features.undefined(document, answer.extent) or manuals.meaning(answer.text)
                where = document.range_of(answer.extent, part) if part else document.lines_range(*answer.extent)
                yield self.diagnostic(where, WARNING, ": ".join(filter(None, [answer.text, cause])), answer.text)


METHODS: dict[str, Callable[[Server, Message], Any]] = {
    "initialize": Server.initialize, "initialized": Server.configure, "shutdown": Server.shut_down,
    "$/cancelRequest": Server.cancel, "$/setTrace": lambda *_: None,
    "workspace/didChangeConfiguration": Server.configure, "textDocument/didOpen": Server.opened,
    "textDocument/didChange": Server.changed, "textDocument/didClose": Server.closed,
    "textDocument/didSave": lambda *_: None,
}
