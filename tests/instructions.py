"""Counts the processor's instructions of a command, which are the same from run to run; valgrind counts them (`apt-get install
valgrind`)."""
import os
import re
import subprocess
from collections.abc import Sequence
from pathlib import Path
from typing import Any

from driving import Failure

COUNTED = re.compile(rb"refs:\s+([\d,]+)")


def check_output(status: int, output: bytes) -> None:
    """All statements of a run have to be accepted."""
    refused = [line for line in output.splitlines() if b"REFUSED" in line or b"ABEND" in line or b"FAULT" in line]
    if status != 0 or refused:
        raise Failure("status %d, %r" % (status, refused[:1]))


# One instruction that copies or clears a large room counts once for each byte: with this the C library takes others.
BY_WORDS = {"GLIBC_TUNABLES": ":".join(f"glibc.cpu.x86_rep_{it}_threshold=1000000000" for it in ("movsb", "stosb"))}


def run(words: Sequence[str], seconds: int, **how: Any) -> tuple[subprocess.CompletedProcess[bytes], int]:
    """A run of a program for at most these seconds, and its instructions."""
    valgrind = ["valgrind", "--tool=callgrind", f"--callgrind-out-file={os.devnull}"]
    done = subprocess.run([*valgrind, *words], stdin=subprocess.DEVNULL, capture_output=True, timeout=seconds, check=False, **how)
    found = COUNTED.search(done.stderr)
    if not found:
        raise Failure("valgrind counted nothing: %r" % done.stderr[-300:])
    return done, int(found[1].replace(b",", b""))


def counted(words: Sequence[str], seconds: int, room: Path) -> int:
    """How many instructions a program takes in a folder, whatever it answers."""
    return run(words, seconds, cwd=room, env={**os.environ, **BY_WORDS})[1]


def instructions(words: Sequence[str], seconds: int) -> int:
    """How many a program takes for a script of statements that are accepted."""
    done, count = run(words, seconds)
    check_output(done.returncode, done.stdout)
    return count
