"""The frame of a tool: its arguments, one-line errors, files that are read, and what is written."""
from __future__ import annotations

import argparse
import errno
import os
import stat
import sys
import tempfile
from contextlib import suppress
from pathlib import Path
from typing import Callable, NoReturn, Optional

READ_OR_WRITE = 8  # the exit status if something couldn't be read, written, understood or made
WORDS = 16         # the exit status if an argument is wrong, or vsm is missing
MOST_INPUT = 256 << 20


class Fault(Exception):
    """What is wrong, in one line; with the file, line and column (both from 1) if it has such a place."""

    def __init__(self, text: str, file: Optional[str] = None, line: Optional[int] = None,
                 column: Optional[int] = None, status: int = READ_OR_WRITE) -> None:
        super().__init__(text)
        self.text, self.file, self.line, self.column, self.status = text, file, line, column, status

    def __str__(self) -> str:
        place = [str(part) for part in (self.file, self.line, self.column) if part is not None]
        return one_line(": ".join([":".join(place), self.text] if place else [self.text]))


def one_line(text: str) -> str:
    """The text with every control character and line end shown as an escape."""
    return "".join(c if c.isprintable() else c.encode("unicode_escape", "backslashreplace").decode() for c in text)


def version() -> str:
    """The tools' release, and the kit that proved its programs; in a repository, what the programs there say."""
    top = Path(__file__).resolve().parents[2]
    for file, behind in ((top / "VERSION", ""), (top / "docs" / "help.txt", ", of a repository")):
        with suppress(OSError, UnicodeDecodeError):
            return file.read_text(encoding="utf-8").strip().split("\n")[-1] + behind
    return "nilbozad, of no known version"


class Words(argparse.ArgumentParser):
    """A parser of arguments, with --help and --version, whose errors are faults of one line."""

    def __init__(self, **given: object) -> None:
        given.setdefault("formatter_class", argparse.RawDescriptionHelpFormatter)
        given.setdefault("allow_abbrev", False)
        super().__init__(**given)  # type: ignore[arg-type]
        self.add_argument("--version", action="version", version=version(), help="say which release this is, and exit")

    def error(self, message: str) -> NoReturn:
        raise Fault("%s; %s --help lists the arguments" % (message, self.prog), status=WORDS)


def say(name: str, text: str) -> None:
    """One line on standard error; nothing if that is closed."""
    with suppress(OSError, ValueError):
        print("%s: %s" % (name, text), file=sys.stderr, flush=True)


def reason(fault: Exception) -> str:
    """Why a system call failed, in words."""
    return fault.strerror or os.strerror(fault.errno or errno.EIO) if isinstance(fault, OSError) else str(fault)


def read_input(path: Optional[str]) -> tuple[str, bytes]:
    """The name and the bytes of a file; of standard input if the path is None or '-'."""
    name = "standard input" if path in (None, "-") else str(path)
    try:
        if path in (None, "-"):
            if sys.stdin is None:
                raise Fault("it's closed", name)
            data = sys.stdin.buffer.read(MOST_INPUT + 1)
        else:
            with open(str(path), "rb") as file:
                data = file.read(MOST_INPUT + 1)
    except (OSError, ValueError) as fault:
        raise Fault("can't be read: %s" % reason(fault), name) from None
    if len(data) > MOST_INPUT:
        raise Fault("it has more than %d MiB" % (MOST_INPUT >> 20), name)
    return name, data


def write_file(path: str, data: bytes, is_over: bool = True, most: int = 0o7777) -> None:
    """Puts bytes in a file's place at once: it keeps what it had if that fails. An existing file is replaced only if it
    may be, and what is no file never. It has at most the permissions `most`."""
    made = ""
    if not is_over and os.path.lexists(path):
        raise Fault("there is one already: --over %s replaces it" % path, path)
    try:
        whole = os.path.realpath(path)
        before = os.stat(whole) if os.path.exists(whole) else None
        if before and not stat.S_ISREG(before.st_mode):
            raise Fault("can't be written: it's no regular file", path)
        mask = os.umask(0)
        os.umask(mask)
        number, made = tempfile.mkstemp(prefix=".vsm-", dir=os.path.dirname(whole))
        with os.fdopen(number, "wb") as file:
            file.write(data)
        os.chmod(made, (before.st_mode & 0o7777 if before else 0o666 & ~mask) & most)
        if before and os.geteuid() == 0:
            os.chown(made, before.st_uid, before.st_gid)
        os.replace(made, whole)
        made = ""
    except (OSError, ValueError) as fault:
        raise Fault("can't be written: %s" % reason(fault), path) from None
    finally:
        if made:
            os.unlink(made)


def write(text: str) -> None:
    """Writes to standard output."""
    if sys.stdout is None:
        raise Fault("standard output is closed")
    sys.stdout.write(text)


def silence_output() -> None:
    """Replaces standard output, so that what is still buffered isn't tried again at the end."""
    with suppress(OSError), open(os.devnull, "wb") as nowhere:
        os.dup2(nowhere.fileno(), 1)


def guarded(name: str, main: Callable[[list[str]], int], words: list[str]) -> int:
    """The exit status of main(words): faults, a full disk and a closed pipe end it in at most one line."""
    status, text = READ_OR_WRITE, ""
    try:
        status = main(words)
        print(end="", flush=True)
        return status
    except Fault as fault:
        status, text = fault.status, str(fault)
    except OSError as fault:
        silence_output()
        status = READ_OR_WRITE
        text = "" if isinstance(fault, BrokenPipeError) else "%s: %s" % (fault.filename or "can't write", reason(fault))
    except KeyboardInterrupt:
        silence_output()
        status = 130
    except RecursionError:
        text = "what was given is nested too deeply"
    except MemoryError:
        status, text = WORDS, "there isn't enough memory"
    if text:
        say(name, text)
    try:
        print(end="", flush=True)    # what was written before
    except OSError:
        silence_output()
    return status


def run_command(name: str, main: Callable[[list[str]], int]) -> NoReturn:
    """Ends the process with the status of main(arguments): the last line of each tool."""
    for stream in (sys.stdout, sys.stderr):
        if stream is not None:
            stream.reconfigure(encoding="utf-8", errors="backslashreplace")  # type: ignore[union-attr]
    sys.exit(guarded(name, main, sys.argv[1:]))
