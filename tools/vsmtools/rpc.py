"""Messages as editors send them, for vsm-lsp and vsm-dap: their frames, and the numbers of JSON-RPC's errors."""
from __future__ import annotations

import json
import os
import re
import select
import signal
import sys
from enum import IntEnum
from typing import Any, Iterable, NoReturn, Optional, Sequence

from .command import Fault

Message = dict[str, Any]
encoded = json.JSONEncoder(ensure_ascii=False, separators=(",", ":")).encode
WRONG = (LookupError, TypeError, ValueError, AttributeError, OverflowError)    # what wrong parameters raise
MOST_HEADER = 8192
MOST_BODY = 512 << 20    # a script of 268,435,456 bytes, and what JSON adds to it
HEADER_END = re.compile(rb"\r?\n\r?\n")
# At a line's end, not at its beginning: after a length that is too short, the rest of a body precedes it.
LENGTH = re.compile(rb"(?im)content-length[ \t]*:[ \t]*([0-9]{1,20})[ \t]*\r?$")


class Code(IntEnum):
    """The errors of JSON-RPC 2.0 and of the Language Server Protocol ("ResponseMessage")."""
    PARSE = -32700
    REQUEST = -32600
    METHOD = -32601
    PARAMETERS = -32602
    INTERNAL = -32603
    NOT_INITIALIZED = -32002
    FAILED = -32803
    MODIFIED = -32801
    CANCELLED = -32800


class Failure(Exception):
    """Why a request isn't answered, with the protocol's number."""

    def __init__(self, code: Code, text: str) -> None:
        super().__init__(text)
        self.code = code


class Unreadable(Failure):
    """A message that can't be read. The next one may be."""


def refuse_constant(word: str) -> NoReturn:
    raise ValueError("%s is no value of JSON" % word)


def parsed(body: bytes) -> Message:
    """A message of its JSON."""
    try:
        found = json.loads(body.decode("utf-8"), parse_constant=refuse_constant)
    except (ValueError, RecursionError) as fault:
        raise Unreadable(Code.PARSE, "a message isn't JSON: %s" % fault) from None
    if not isinstance(found, dict):
        raise Unreadable(Code.REQUEST, "a message isn't an object of JSON")
    return found


class Signals:
    """A signal of the editor ends the process and the programs that it has started, except while it starts one."""

    def __init__(self) -> None:
        self.is_held, self.came = False, 0

    def take(self) -> None:
        for number in (signal.SIGTERM, signal.SIGHUP, signal.SIGINT):
            signal.signal(number, self.end)

    def end(self, number: int, _frame: object = None) -> None:
        self.came = number
        if not self.is_held:
            sys.exit(128 + number)

    def __enter__(self) -> None:
        self.is_held = True

    def __exit__(self, *_: object) -> None:
        self.is_held = False
        if self.came:
            self.end(self.came)


SIGNALS = Signals()


class Stream:
    """Messages over two descriptors. One thread reads and writes them."""

    def __init__(self, source: int = 0, sink: int = 1) -> None:
        self.source, self.sink = source, sink
        self.gathered, self.unsent = bytearray(), bytearray()
        self.length: Optional[int] = None    # of the body that is awaited
        self.is_ended = False                # the client has gone

    def read(self, seconds: Optional[float], others: Sequence[Any] = ()) -> list[Any]:
        """Reads what the client has sent, waiting at most that long for it or the others. Returns which are ready."""
        self.flush()
        sources = [] if self.is_ended else [self.source]
        ready, _, _ = select.select([*sources, *others], [], [], seconds)
        if self.source in ready:
            piece = os.read(self.source, 1 << 20)
            self.gathered += piece
            self.is_ended = not piece
        return ready

    def take(self) -> Optional[Message]:
        """The next complete message; None if there is none yet. Unreadable says that one was skipped."""
        if self.length is None and not self._take_header():
            return None
        assert self.length is not None
        if len(self.gathered) < self.length:
            return None
        body = bytes(self.gathered[:self.length])
        del self.gathered[:self.length]
        self.length = None
        return parsed(body)

    def _take_header(self) -> bool:
        """Whether a header is complete; then it's taken, and the length is known."""
        end = HEADER_END.search(self.gathered)
        if end is None:
            if len(self.gathered) > MOST_HEADER:
                del self.gathered[:-64]
                raise Unreadable(Code.PARSE, "a header has more than %d bytes" % MOST_HEADER)
            return False
        found = LENGTH.findall(bytes(self.gathered[:end.start()]))
        del self.gathered[:end.end()]
        if not found:
            raise Unreadable(Code.PARSE, "a header has no Content-Length")
        length = int(found[-1])
        if length > MOST_BODY:
            raise Unreadable(Code.PARSE, "a message of %d bytes is too long" % length)
        self.length = length
        return True

    def write(self, message: Message) -> None:
        self.put([encoded(message)])

    def put(self, messages: Iterable[str]) -> None:
        """Sends messages, each as JSON, before more is read, or once much is to be sent."""
        for message in messages:
            # A script's bytes that are no UTF-8 become question marks: clients take half characters for errors.
            body = message.encode("utf-8", "replace")
            self.unsent += b"Content-Length: %d\r\n\r\n%b" % (len(body), body)
            if len(self.unsent) > 1 << 16:
                self.flush()

    def flush(self) -> None:
        """Sends what isn't sent yet; a fault if the client has gone."""
        data, self.unsent = memoryview(self.unsent), bytearray()
        try:
            while data:
                try:
                    data = data[os.write(self.sink, data):]
                except BlockingIOError:    # it's full for a while
                    select.select([], [self.sink], [])
        except OSError:
            self.is_ended = True
            raise Fault("the client has gone") from None
