"""A client of each of the two protocols of editors, that judges each message it gets."""
from __future__ import annotations

import json
import os
import queue
import random
import subprocess
import sys
import threading
import time
from pathlib import Path
from typing import Any, Optional

from protocols import check_dap, check_lsp

TOOLS = Path(__file__).resolve().parents[1]
SECONDS = 60
Message = dict[str, Any]
FOUND = {"OUTSIDE", "STALE", "PART", "UNSET", "LEFT"}    # the codes of what a check finds
# What no client should send.
BAD = [b"Content-Length: x\r\n\r\n{}", b"Content-Length: 99999999999\r\n\r\n", b"Content-Length: 2\r\n\r\n[]",
       b"rubbish\r\n\r\n", b"Content-Length: 4\r\n\r\n{\xff}}", b"Content-Length: 5\r\n\r\n{\"a\"}", b"\r\n\r\n",
       b"Content-Length: 0\r\n\r\n", b"Content-Length: 3\r\n\r\n{\"seq\":1}", b"x" * 100_000 + b"\r\n\r\n",
       b"Content-Length: -5\r\n\r\n", b"Content-Length: 8\r\n\r\n" + b"[" * 8, b"Content-Length: 9\r\n\r\n{\"a\":NaN}",
       b"Content-Length: 100000\r\n\r\n" + b"[" * 100_000]
LIES = (-20, -1, 1, 5, 40)    # how much longer a header says that a body is


def framed(body: bytes, lie: int = 0) -> bytes:
    return b"Content-Length: %d\r\n\r\n" % (len(body) + lie) + body


def damaged_value(chance: random.Random, value: Any) -> Any:
    """A value of JSON with a part of it that's another one, or is missing."""
    if isinstance(value, (dict, list)) and value and chance.randrange(8):
        found = dict(value) if isinstance(value, dict) else list(value)
        key = chance.choice(list(found) if isinstance(found, dict) else range(len(found)))
        if chance.randrange(6):
            found[key] = damaged_value(chance, found[key])
        else:
            del found[key]
        return found
    return chance.choice((None, -1, 0, 7, 1 << 70, 0.5, "", "x", "0", [], {}, True, [1], {"a": 1}, "file:///[x"))


class Wire:
    """A server over pipes, and its messages."""

    def __init__(self, tool: str, *words: str) -> None:
        self.child = subprocess.Popen([sys.executable, str(TOOLS / tool), *words], stdin=subprocess.PIPE,
                                      stdout=subprocess.PIPE, stderr=subprocess.PIPE, bufsize=0)
        self.came: queue.Queue[Optional[Message]] = queue.Queue()
        self.wrong: list[str] = []
        threading.Thread(target=self._read, daemon=True).start()

    def _read(self) -> None:
        with os.fdopen(os.dup(self.child.stdout.fileno()), "rb") as source:
            while head := source.readline():
                body = b""
                if head.startswith(b"Content-Length: ") and source.readline() == b"\r\n":
                    body = source.read(int(head[16:]))
                try:
                    self.came.put(json.loads(body))
                except ValueError:
                    self.wrong.append("%r %r" % (head[:80], body[:80]))
                    break
        self.came.put(None)

    def write(self, message: Message) -> None:
        self.raw(framed(json.dumps(message).encode()))

    def raw(self, data: bytes) -> None:
        while data:
            data = data[self.child.stdin.write(data):]

    def next(self) -> Message:
        message = self.came.get(timeout=SECONDS)
        assert message is not None, "the server has ended: %s %s" % (self.wrong, self.child.stderr.read().decode())
        return message

    def children(self) -> list[int]:
        found = Path("/proc/%d/task/%d/children" % (self.child.pid, self.child.pid)).read_text()
        return [int(it) for it in found.split()]

    def started(self) -> list[int]:
        """Its children, once it has any."""
        end = time.monotonic() + SECONDS
        while not (found := self.children()):
            assert time.monotonic() < end, "the server starts no process"
            time.sleep(0.02)
        return found

    def close(self) -> int:
        """The exit status. No process is left, and nothing was said that's no message."""
        children = self.children() if self.child.poll() is None else []
        try:
            self.child.stdin.close()
        except OSError:
            pass
        status = self.child.wait(30)
        errors = self.child.stderr.read().decode()
        self.child.stdout.close()
        self.child.stderr.close()
        assert not errors and not self.wrong, (errors, self.wrong)
        assert not [it for it in children if os.path.exists("/proc/%d" % it)]
        return status


class Debugged(Wire):
    """A client of a debug adapter."""

    def __init__(self, vsm: Optional[str], *words: str) -> None:
        super().__init__("vsm-dap", *(("--vsm", vsm) if vsm else ()), *words)
        self.sent = self.heard = 0
        self.events: list[Message] = []
        self.open: dict[int, str] = {}
        self.answered: dict[int, Message] = {}
        self.settings: list[tuple[str, Message]] = []    # requests that go between launch and configurationDone

    def post(self, command: str, arguments: Any) -> int:
        self.sent += 1
        self.open[self.sent] = command
        self.write({"seq": self.sent, "type": "request", "command": command, "arguments": arguments})
        return self.sent

    def send(self, command: str, **arguments: Any) -> int:
        return self.post(command, arguments)

    def hear(self) -> Message:
        message = self.next()
        self.heard += 1
        assert message["seq"] == self.heard
        check_dap(message)
        if message["type"] == "event":
            self.events.append(message)
        else:
            assert message["command"] == self.open.pop(message["request_seq"])
            self.answered[message["request_seq"]] = message
        return message

    def response(self, number: int) -> Message:
        while number not in self.answered:
            self.hear()
        return self.answered.pop(number)

    def ask(self, command: str, **arguments: Any) -> Message:
        found = self.response(self.send(command, **arguments))
        assert found["success"], found
        return found.get("body") or {}

    def refused(self, command: str, **arguments: Any) -> str:
        found = self.response(self.send(command, **arguments))
        assert not found["success"], found
        return found["message"]

    def until(self, *names: str) -> Message:
        """The next event with one of these names; those before it are dropped."""
        k = 0
        while True:
            while k < len(self.events):
                it, k = self.events[k], k + 1
                if it["event"] in names:
                    del self.events[:k]
                    return it
            self.hear()

    def initialize(self, **more: Any) -> None:
        self.ask("initialize", adapterID="vsm", supportsVariablePaging=True, supportsInvalidatedEvent=True,
                 supportsMemoryEvent=True, **more)

    def launch(self, script: Path, **more: Any) -> None:
        self.initialize()
        number = self.send("launch", program=str(script), **more)
        self.until("initialized")
        for command, arguments in self.settings:
            self.ask(command, **arguments)
        self.ask("configurationDone")
        assert self.response(number)["success"]

    def begin(self, script: Path, **more: Any) -> None:
        """A launch that stops before the first statement."""
        self.launch(script, stopOnEntry=True, **more)
        assert self.until("stopped")["body"]["reason"] == "entry"

    def go(self, command: str, **arguments: Any) -> Message:
        """What the adapter says when a run stops."""
        self.events.clear()
        self.ask(command, threadId=1, **arguments)
        return self.until("stopped", "terminated").get("body", {})

    def line(self, thread: int = 1) -> int:
        return self.ask("stackTrace", threadId=thread)["stackFrames"][0]["line"]

    def say(self, text: str, context: str = "repl") -> str:
        return self.ask("evaluate", expression=text, context=context)["result"]


def tree(ask: Any, frame: int) -> Message:
    """All variables of a frame but those of the last statement, opened to the leaves; long lists in parts."""
    def whole(it: Message) -> Any:
        reference, count = it["variablesReference"], it.get("indexedVariables")
        if not reference:
            return it["value"]
        parts = [{}] if count is None else [{"filter": "indexed", "start": k, "count": 50} for k in range(0, count, 50)]
        found = [child for part in parts
                 for child in ask("variables", variablesReference=reference, **part)["variables"]]
        assert count in (None, len(found))
        return {child["name"]: whole(child) for child in found}
    return {it["name"]: whole(it) for it in ask("scopes", frameId=frame)["scopes"] if it["name"] != "Last statement"}


class Edited(Wire):
    """A client of a language server."""

    def __init__(self, vsm: str, explain: str, *words: str) -> None:
        super().__init__("vsm-lsp", "--vsm", vsm, "--explain", explain, *words)
        self.sent = 0
        self.open: dict[int, str] = {}
        self.answered: dict[int, Message] = {}
        self.told: list[Message] = []
        self.configuration: Any = None

    def send(self, method: str, params: Any = None) -> int:
        self.sent += 1
        self.open[self.sent] = method
        self.write({"jsonrpc": "2.0", "id": self.sent, "method": method,
                    **({} if params is None else {"params": params})})
        return self.sent

    def notify(self, method: str, params: Any = None) -> None:
        self.write({"jsonrpc": "2.0", "method": method, **({} if params is None else {"params": params})})

    def hear(self) -> None:
        message = self.next()
        number = message.get("id")
        check_lsp(message, self.open.get(number, "") if "method" not in message else "")
        if "method" in message and "id" in message:
            is_asked = message["method"] == "workspace/configuration"
            self.write({"jsonrpc": "2.0", "id": number, "result": self.configuration if is_asked else None})
        elif "method" in message or number is None:
            self.told.append(message)
        else:
            self.open.pop(number)
            self.answered[number] = message

    def response(self, number: int) -> Message:
        while number not in self.answered:
            self.hear()
        return self.answered.pop(number)

    def ask(self, method: str, **params: Any) -> Any:
        found = self.response(self.send(method, params))
        assert "result" in found, found
        return found["result"]

    def error(self, method: str, params: Any = None) -> int:
        found = self.response(self.send(method, params))
        assert "error" in found, found
        return found["error"]["code"]

    def begin(self, capabilities: Optional[Message] = None, options: Any = None) -> Message:
        found = self.ask("initialize", processId=None, rootUri=None, capabilities=capabilities or {},
                         initializationOptions=options)
        self.notify("initialized", {})
        return found["capabilities"]

    def edit(self, uri: str, text: str) -> list[Message]:
        """Opens a script, and waits for what is wrong in it."""
        item = {"uri": uri, "languageId": "vsm", "version": 1, "text": text}
        self.notify("textDocument/didOpen", {"textDocument": item})
        return self.diagnostics(uri)

    def diagnostics(self, uri: str, version: Optional[int] = None, is_checked: bool = False) -> list[Message]:
        """The next diagnostics of a script, without what a check has found, or with it."""
        while True:
            for k, it in enumerate(self.told):
                params = it.get("params", {})
                if it.get("method") == "textDocument/publishDiagnostics" and params["uri"] == uri \
                        and version in (None, params.get("version")) \
                        and is_checked == any(one["code"] in FOUND for one in params["diagnostics"]):
                    del self.told[k]
                    return params["diagnostics"]
            self.hear()

    def change(self, uri: str, version: int, *changes: Message) -> None:
        self.notify("textDocument/didChange", {"textDocument": {"uri": uri, "version": version},
                                               "contentChanges": list(changes)})

    def at(self, method: str, uri: str, line: int, character: int, **more: Any) -> Any:
        return self.ask("textDocument/" + method, textDocument={"uri": uri},
                        position={"line": line, "character": character}, **more)

    def of(self, method: str, uri: str, **more: Any) -> Any:
        return self.ask("textDocument/" + method, textDocument={"uri": uri}, **more)

    def finish(self) -> None:
        self.response(self.send("shutdown"))
        self.notify("exit")
        assert self.close() == 0
