"""The bench in Python: the answers that vsm prints, as data, and by ctypes the library libvsm, a bench in this process.

    from vsm_bench import Bench

    with Bench(high=96) as bench:
        print(bench.ask(" STORAGE OBTAIN,LENGTH=8").address)
"""
from __future__ import annotations

import ctypes
import os
import re
import threading
from ctypes import POINTER, Structure, byref, c_char_p, c_int, c_size_t, c_uint32, c_uint64, c_void_p, \
    create_string_buffer
from enum import IntEnum
from functools import cache
from typing import NamedTuple, Optional, Sequence, Union

from vsmtools.command import READ_OR_WRITE, WORDS, Fault
from vsmtools.maps import Map, parse_map

TOOLS = os.path.dirname(os.path.realpath(__file__))
TOP = os.path.dirname(TOOLS)
NAME = "libvsm.so.1"
OPTIONS = ("--low", "--high", "--residence", "--history")


class Answer(NamedTuple):
    """One answer: the number of its statement's first line, its text, and the lines of a map after it.

    What the text doesn't have is None."""
    line: int
    text: str
    rest: tuple[str, ...] = ()

    @property
    def is_map(self) -> bool:
        return self.text == "MAP"

    @property
    def is_refused(self) -> bool:
        return self.text.startswith(("FAULT ", "REFUSED ", "ABEND "))

    @property
    def is_kept(self) -> bool:
        """Whether the statement is another change that can be undone."""
        return self.text.startswith(("RC=", "T=")) or self.text == "OK"

    @property
    def kept(self) -> Optional[int]:
        """How many changes are kept after a step."""
        return self._number("KEPT", 10) if self.text.startswith("KEPT=") else None

    def _value(self, key: str, form: str) -> Optional[str]:
        found = re.search("(?:^| )%s=(%s)(?: |$)" % (key, form), self.text)
        return found[1] if found and not self.is_refused else None

    def _number(self, key: str, base: int) -> Optional[int]:
        value = self._value(key, "[0-9]{1,10}" if base == 10 else "[0-9A-F]{8}")
        return None if value is None else int(value, base)

    rc = property(lambda it: it._number("RC", 10), doc="The return code.")
    address = property(lambda it: it._number("A", 16))
    length = property(lambda it: it._number("L", 16))
    task = property(lambda it: it._number("T", 10))

    @property
    def code(self) -> Optional[str]:
        """What follows ABEND, FAULT or REFUSED, such as S878 or OPERAND."""
        return self.text.partition(" ")[2] if self.is_refused else None

    @property
    def data(self) -> Optional[bytes]:
        """The bytes that PEEK shows."""
        value = self._value("D", "(?:[0-9A-F]{2})+")
        return None if value is None else bytes.fromhex(value)

    @property
    def map(self) -> Optional[Map]:
        return parse_map(self.rest) if self.is_map else None


def answers(output: bytes) -> list[Answer]:
    """The answers of an output in turn."""
    found: list[Answer] = []
    rests: dict[int, list[str]] = {}    # by their answers' places
    for number, line in enumerate(output.decode("ascii", "replace").split("\n"), 1):
        first, blank, text = line.partition(" ")
        if len(first) == 7 and first.isdigit() and blank:
            found.append(Answer(int(first), text))
        elif line.startswith(" ") and found:
            rests.setdefault(len(found) - 1, []).append(line)
        elif line:
            raise Fault("no answer of vsm: '%s'" % line[:60], "the output", number)
    for at, rest in rests.items():
        found[at] = found[at]._replace(rest=tuple(rest))
    return found


class Code(IntEnum):
    """What a call returns, as in vsm.h."""
    OK = 0
    TOO_LONG = 8
    NO_MEMORY = 16
    SETTING = 17
    NULL = 20
    LENGTH = 21
    ENDED = 22
    STATEMENT = 23
    LOST = 40


class BenchError(Fault):
    """A call that was refused, with its code; except for LOST the bench is as it was."""

    def __init__(self, code: int, text: str) -> None:
        super().__init__(text, status=WORDS if code in (Code.NO_MEMORY, Code.SETTING) else READ_OR_WRITE)
        self.code = Code(code)


class Settings(Structure):
    _fields_ = [("size", c_size_t), ("low", c_uint32), ("high", c_uint32), ("residence", c_uint32),
                ("history", c_uint32), ("memory", c_uint64)]


CALLS = {"vsm_open": [POINTER(Settings), POINTER(c_void_p)], "vsm_ask": [c_void_p, c_char_p, POINTER(c_char_p)],
         "vsm_write": [c_void_p, c_char_p, c_size_t], "vsm_read": [c_void_p, c_char_p, c_size_t, POINTER(c_size_t)],
         "vsm_end": [c_void_p, POINTER(c_int)], "vsm_close": [POINTER(c_void_p)], "vsm_lines": [c_void_p],
         "vsm_strerror": [c_int], "vsm_version": []}
RESULTS = {"vsm_close": None, "vsm_lines": c_uint32, "vsm_strerror": c_char_p, "vsm_version": c_char_p}


def find() -> Optional[str]:
    """The path of the library: the environment's VSM_LIBRARY, the one next to the tools, the one that tools/c/build
    made, or a release's; its name if the system finds it; else None."""
    named = os.environ.get("VSM_LIBRARY")
    if named:
        return named
    for folder in (TOOLS, os.path.join(TOP, "crates", "vsm", "out"), os.path.join(TOP, "..", "..", "lib")):
        if os.path.isfile(os.path.join(folder, NAME)):
            return os.path.join(folder, NAME)
    try:
        ctypes.CDLL(NAME)
        return NAME
    except OSError:
        return None


@cache
def load(path: str) -> ctypes.CDLL:
    """The library of a path, with the types of its calls."""
    try:
        library = ctypes.CDLL(path)
        for name, types in CALLS.items():
            call = getattr(library, name)
            call.argtypes, call.restype = types, RESULTS.get(name, c_int)
    except (OSError, AttributeError) as fault:
        raise Fault("%s isn't the library: %s" % (path, fault), status=WORDS) from None
    return library


def data_of(text: Union[str, bytes]) -> bytes:
    return text.encode("utf-8", "surrogateescape") if isinstance(text, str) else bytes(text)


class Bench:
    """A bench that takes statements, or a script in any pieces; threads that share it wait for each other.

    A number is as vsm's option has it; 0 means its default. `memory` is the most bytes that its state may take: without
    it, a statement that is answered REFUSED MEMORY may keep all that this process can have until the bench is closed.
    Each call that is refused is a BenchError."""

    def __init__(self, low: int = 0, high: int = 0, residence: int = 0, history: int = 0,
                 path: Optional[str] = None, memory: int = 0) -> None:
        self._bench, self._lock = c_void_p(None), threading.Lock()
        path = path or find()
        if not path:
            raise Fault("no library %s is found: VSM_LIBRARY names one" % NAME, status=WORDS)
        self._library = load(path)
        numbers = low, high, residence, history
        if not (all(0 <= number < 2 ** 32 for number in numbers) and 0 <= memory < 2 ** 64):
            self._check(Code.SETTING)
        settings = Settings(ctypes.sizeof(Settings), *numbers, memory)
        self._check(self._library.vsm_open(byref(settings), byref(self._bench)))

    def _check(self, code: int) -> None:
        if code == Code.NULL and not self._bench:
            raise BenchError(code, "the bench is closed")
        if code:
            raise BenchError(code, self._library.vsm_strerror(code).decode())

    @property
    def lines(self) -> int:
        """How many whole lines were written."""
        return self._library.vsm_lines(self._bench)

    def ask(self, statement: Union[str, bytes]) -> Answer:
        """Asks one statement of one or more lines, whose last line feed may be missing. Before it no comments, since
        the answer has the number of the first of these lines."""
        data, answer = data_of(statement), c_char_p()
        with self._lock:
            first = self.lines + 1
            self._check(Code.STATEMENT if b"\0" in data else self._library.vsm_ask(self._bench, data, byref(answer)))
            text, *rest = (answer.value or b"").decode("ascii").split("\n")
        return Answer(first, text, tuple(rest))

    def write(self, text: Union[str, bytes]) -> None:
        """Writes a part of the script: any number of lines, or parts of lines."""
        data = data_of(text)
        with self._lock:
            self._check(self._library.vsm_write(self._bench, data, len(data)))

    def read(self) -> bytes:
        """The answers that were not given yet, as vsm prints them."""
        length = c_size_t(0)
        with self._lock:
            self._check(self._library.vsm_read(self._bench, None, 0, byref(length)))
            room = create_string_buffer(length.value + 1)
            self._check(self._library.vsm_read(self._bench, room, length.value, byref(length)))
        return room.raw[:length.value]

    def end(self) -> int:
        """Ends the script: a last line without a line feed and an open statement are answered. Gives vsm's status."""
        status = c_int(0)
        with self._lock:
            self._check(self._library.vsm_end(self._bench, byref(status)))
        return status.value

    def close(self) -> None:
        """Closes the bench, also if it's closed already."""
        with self._lock:
            self._library.vsm_close(byref(self._bench))

    def __enter__(self) -> Bench:
        return self

    def __exit__(self, *_: object) -> None:
        self.close()

    def __del__(self) -> None:
        if getattr(self, "_bench", None):
            self._library.vsm_close(byref(self._bench))


def opened(options: Sequence[str]) -> Optional[Bench]:
    """A bench of the library; None if no library is found, or if these are options that vsm itself has to judge."""
    path, numbers = find(), dict(zip(options[::2], options[1::2]))
    if not path or len(options) != 2 * len(numbers) or not set(numbers) <= set(OPTIONS) \
            or not all(re.fullmatch("[1-9][0-9]{0,8}", it) for it in numbers.values()):
        return None
    try:
        return Bench(path=path, **{name[2:]: int(number) for name, number in numbers.items()})
    except BenchError as fault:
        if fault.code != Code.SETTING:
            raise
        return None
