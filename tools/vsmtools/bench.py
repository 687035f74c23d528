"""Finding vsm and running it over a whole script, and sessions that answer statement by statement."""
from __future__ import annotations

import argparse
import ctypes
import os
import select
import shutil
import signal
import subprocess
import sysconfig
import tempfile
import threading
import time
from contextlib import AbstractContextManager, suppress
from dataclasses import dataclass
from typing import IO, Optional, Sequence, Union

import vsm_bench
from vsm_bench import Answer, answers

from .command import WORDS, Fault, reason
from .lines import is_continued, statements, text_of

TOOLS = os.path.dirname(os.path.dirname(os.path.realpath(__file__)))
TOP = os.path.dirname(TOOLS)
BUILT = os.path.join(TOP, "crates", "vsm", "out", "vsm")
BUILT_EXPLAIN = os.path.join(TOP, "crates", "vsm_explain_program", "out", "vsm_explain_program")
LAUNCHER, EXPLAIN_LAUNCHER = (os.path.join(TOP, name) for name in ("vsm", "vsm-explain"))
WITHOUT_INPUT = ["why", "OK"]    # arguments of vsm-explain
SECONDS = 120  # the longest that a run may take, and that an answer may be waited for
MOST_OUTPUT = 256 << 20    # bytes that a program may print
BENCH_OPTIONS = vsm_bench.OPTIONS


class Overrun(Fault):
    """A program takes longer, or prints more, than it may."""


class TooMuch(Overrun):
    """A program prints more than it may."""


@dataclass(frozen=True)
class Run:
    """What a run printed and how it ended."""
    output: bytes
    errors: str
    status: int

    @property
    def answers(self) -> list[Answer]:
        return answers(self.output)


def add_words(parser: argparse.ArgumentParser, otherwise: str = "else ./vsm, which may compile first, or vsm on the PATH") -> None:
    """Adds --vsm, or --program, and the four options of vsm to a tool's; vsm itself judges their values."""
    group = parser.add_argument_group("the bench")
    group.add_argument("--vsm", "--program", dest="vsm", metavar="PROGRAM",
                       help="the program vsm (default: the built one here, %s)" % otherwise)
    for option, what in zip(BENCH_OPTIONS, ("K", "K", "24|31", "N")):
        group.add_argument(option, metavar=what, help="as vsm has it")


def options_of(given: argparse.Namespace) -> list[str]:
    """The options of vsm that were given to a tool, as arguments of vsm."""
    pairs = [(option, getattr(given, option[2:])) for option in BENCH_OPTIONS]
    return [word for option, value in pairs if value is not None for word in (option, value)]


def is_program(place: str) -> bool:
    return os.path.isfile(place) and os.access(place, os.X_OK)


def end_with_parent() -> None:
    """Called in a new process: it gets SIGTERM when its parent ends, however that ends."""
    ctypes.CDLL(None).prctl(1, signal.SIGTERM)    # PR_SET_PDEATHSIG


def start_compile(launcher: str, words: Sequence[str] = (), out: int = subprocess.DEVNULL) -> subprocess.Popen[bytes]:
    """Starts ./vsm or ./vsm-explain over no input: the first run compiles a program, and says so."""
    return subprocess.Popen([launcher, *words], stdin=subprocess.DEVNULL, stdout=out, preexec_fn=end_with_parent)


def end_compile(child: subprocess.Popen[bytes]) -> None:
    """Ends such a run, which then leaves no process and no file."""
    child.terminate()
    child.wait()


def not_compiled(launcher: str, status: int) -> Fault:
    return Fault("%s ended with status %d; ./prove builds a proved program" % (launcher, status), status=WORDS)


def compiled(launcher: str, words: Sequence[str] = ()) -> str:
    """A launcher after such a run."""
    child = start_compile(launcher, words)
    try:
        status = child.wait()
    finally:
        end_compile(child)
    if status:
        raise not_compiled(launcher, status)
    return launcher


def find_program(named: Optional[str] = None, may_compile: bool = True, is_needed: bool = True) -> str:
    """The path of vsm: the one that is named, else the built one, else a repository's ./vsm (compiled, if it's needed
    now), or what that has compiled if it may not compile, one with the installed tools, or one on the PATH."""
    if named:
        found = named if os.path.dirname(named) else shutil.which(named) or named
        if not is_program(found):
            raise Fault("no program %s, or none that can be started" % named, status=WORDS)
        return os.path.abspath(found)
    # Installed tools are in lib/nilbozad or share/nilbozad/tools, and vsm in bin; or pip installed both.
    beside = [*(os.path.join(TOP, up, "bin", "vsm") for up in ("..", "../..")),
              os.path.join(sysconfig.get_path("scripts"), "vsm")]
    for place in (BUILT, LAUNCHER if may_compile else BUILT + "-unproved", *beside, shutil.which("vsm") or ""):
        if is_program(place):
            return compiled(place) if place == LAUNCHER and is_needed else os.path.abspath(place)
    raise Fault("no program vsm is found: --vsm names one", status=WORDS)


def find_explain(vsm: str, is_needed: bool = True) -> str:
    """The path of vsm-explain: the one next to vsm, the built one, ./vsm-explain (compiled), or one on the PATH."""
    beside = os.path.join(os.path.dirname(vsm), "vsm-explain")
    places = [BUILT_EXPLAIN, EXPLAIN_LAUNCHER, shutil.which("vsm-explain") or ""]
    for place in places if beside == EXPLAIN_LAUNCHER else [beside, *places]:
        if is_program(place):
            return compiled(place, WITHOUT_INPUT) if place == EXPLAIN_LAUNCHER and is_needed else place
    raise Fault("no program vsm-explain is found: it has to be next to vsm, or on the PATH", status=WORDS)


def ended(program: str, status: int, errors: str) -> Fault:
    """A fault of one line, which says that a program didn't end at the end of its script."""
    said = next((line for line in errors.splitlines() if line.strip()), "")
    how = "by signal %d" % -status if status < 0 else "with status %d" % status
    return Fault("%s ended %s%s" % (program, how, ": " + said if said else ""),
                 status=status if status in (8, WORDS) else WORDS)


def start(program: str, words: Sequence[str], given: Union[int, IO[bytes]], out: Union[int, IO[bytes]],
          errors: IO[bytes]) -> subprocess.Popen[bytes]:
    """Starts a program in a session of its own, so that Ctrl+C at a terminal doesn't end it."""
    try:
        return subprocess.Popen([program, *words], stdin=given, stdout=out, stderr=errors, bufsize=0,
                                start_new_session=True)
    except (OSError, ValueError, subprocess.SubprocessError) as fault:
        raise Fault("%s can't be started: %s" % (program, reason(fault)), status=WORDS) from None


def run_anyhow(program: str, words: Sequence[str], given: bytes, seconds: float = SECONDS,
               most: int = MOST_OUTPUT) -> Run:
    """A run with bytes on standard input, however it ended, within limits of time and output; no process is left."""
    new = tempfile.TemporaryFile
    with new() as script, new() as out, new() as errors:
        script.write(given)
        script.seek(0)
        child = start(program, words, script, out, errors)
        try:
            wait_for(child, (out, errors), seconds, most)
        finally:
            end_group(child)
        out.seek(0)
        errors.seek(0)
        return Run(out.read(), errors.read(1 << 16).decode("utf-8", "replace"), child.returncode)


def wait_for(child: subprocess.Popen[bytes], outputs: Sequence[IO[bytes]], seconds: float, most: int) -> None:
    """Waits for a program's end; a fault if it takes longer, or prints more."""
    name, last = os.path.basename(str(child.args[0])), time.monotonic() + seconds  # type: ignore[index]
    while child.returncode is None:
        left = last - time.monotonic()
        try:
            child.wait(max(0.0, min(0.1, left)))
        except subprocess.TimeoutExpired:
            if left <= 0:
                raise Overrun("%s didn't end within %g seconds" % (name, seconds), status=WORDS) from None
        if sum(os.fstat(file.fileno()).st_size for file in outputs) > most:
            raise TooMuch("%s printed more than %d MiB" % (name, most >> 20), status=WORDS)


def end_group(child: subprocess.Popen[bytes]) -> None:
    """Ends a program and what it started; its group has its number."""
    with suppress(ProcessLookupError, PermissionError):
        os.killpg(child.pid, signal.SIGKILL)
    child.wait()


def run(program: str, options: Sequence[str], script: bytes, seconds: float = SECONDS, most: int = MOST_OUTPUT) -> Run:
    """A run that came to the script's end (status 0 or 4); any other is a fault with vsm's own words."""
    done = run_anyhow(program, options, script, seconds, most)
    if done.status not in (0, 4):
        raise ended(program, done.status, done.errors)
    return done


def check_is_one(lines: Sequence[str]) -> None:
    """Refuses lines that aren't exactly one whole statement, which a session would wait for, or answer too late."""
    texts = [line.encode("utf-8", "surrogateescape") for line in lines]
    found = statements(texts)
    if any(b"\n" in text for text in texts):
        raise Fault("a session takes one statement at a time, each line of it by itself")
    if len(found) != 1 or found[0].last - found[0].first + 1 != len(texts):
        raise Fault("a session takes one statement at a time: these lines have %d, and comments are none" % len(found))
    if is_continued(texts[-1]):
        raise Fault("column 72 isn't blank, so the statement continues, and no line follows")


class Partner:
    """vsm over pipes: each statement is answered before the next one is written."""

    def __init__(self, program: str, options: Sequence[str] = (), seconds: float = SECONDS) -> None:
        self.program, self.seconds, self.line = program, seconds, 0
        self.gathered = b""
        self.errors = tempfile.TemporaryFile()
        self.child = start(program, options, subprocess.PIPE, subprocess.PIPE, self.errors)

    def ask(self, statement: bytes) -> Answer:
        """Writes the lines of one statement, and waits for its answer."""
        first = self.line + 1
        self.line += statement.count(b"\n")
        try:
            assert self.child.stdin is not None
            self.child.stdin.write(statement)
        except (OSError, ValueError):
            raise self.end() from None
        end = time.monotonic() + self.seconds
        answer = (answers(self._line(end)) or [Answer(0, "")])[0]
        if answer.line != first:
            raise Fault("%s answered line %d where line %d was asked" % (self.program, answer.line, first))
        rest: list[str] = []
        while answer.is_map and not (rest and rest[-1].startswith(" HISTORY ")):
            rest.append(self._line(end).decode("ascii", "replace").rstrip("\n"))
        return Answer(answer.line, answer.text, tuple(rest))

    def _line(self, end: float) -> bytes:
        """The next line that the program writes, with its line feed."""
        assert self.child.stdout is not None
        while b"\n" not in self.gathered:
            ready, _, _ = select.select([self.child.stdout], [], [], max(0.0, end - time.monotonic()))
            if not ready:
                raise Fault("%s didn't answer within %d seconds" % (self.program, self.seconds), status=WORDS)
            piece = os.read(self.child.stdout.fileno(), 1 << 16)
            if not piece:
                raise self.end()
            self.gathered += piece
        line, _, self.gathered = self.gathered.partition(b"\n")
        return line + b"\n"

    def wait(self) -> int:
        """The status with which the program ends, by force if that takes long."""
        try:
            return self.child.wait(5)
        except subprocess.TimeoutExpired:
            self.child.kill()
            return self.child.wait()

    def end(self) -> Fault:
        """A fault, which says that the program ended while it was needed."""
        status = self.wait()
        self.errors.seek(0)
        return ended(self.program, status, self.errors.read().decode("utf-8", "replace"))

    def close(self) -> None:
        """Ends the program."""
        for pipe in (self.child.stdin, self.child.stdout):
            with suppress(OSError):
                pipe.close()    # type: ignore[union-attr]
        self.wait()
        self.errors.close()


class Session(AbstractContextManager):
    """A bench that answers statement by statement: the library's if no program is named and one is found, else a
    program over pipes. Threads that share it wait for each other."""

    def __init__(self, program: Optional[str] = None, options: Sequence[str] = (), seconds: float = SECONDS) -> None:
        self._lock = threading.Lock()
        self._partner: Union[vsm_bench.Bench, Partner, None] = None if program else vsm_bench.opened(options)
        if self._partner is None:
            self._partner = Partner(program or find_program(), options, seconds)
        self.takes_several = isinstance(self._partner, vsm_bench.Bench)    # statements at once

    def __exit__(self, *_: object) -> None:
        self.close()

    def say(self, lines: Sequence[str]) -> Answer:
        """The answer to the lines of one statement."""
        check_is_one(lines)
        return self.ask(text_of(lines))[0]

    def ask(self, text: bytes) -> list[Answer]:
        """The answers to a text of whole statements: of one, unless it takes several."""
        with self._lock:
            if self._partner is None:
                raise Fault("the session is closed")
            if isinstance(self._partner, vsm_bench.Bench):
                self._partner.write(text)
                return answers(self._partner.read())
            return [self._partner.ask(text)]

    def close(self) -> None:
        """Ends the bench."""
        with self._lock:
            if self._partner is not None:
                self._partner.close()
            self._partner = None
