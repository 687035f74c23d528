"""Programs that run while the editor sends messages; a request that waits for one can be cancelled."""
from __future__ import annotations

import os
import subprocess
import tempfile
from contextlib import suppress
from dataclasses import dataclass, field
from typing import Any, Callable, Optional, Sequence

from .bench import MOST_OUTPUT, end_compile, end_group, start, start_compile
from .rpc import SIGNALS

Then = Callable[[bytes, int], None]


@dataclass
class Run:
    """A program over a script, whose output goes to `then` with its status."""
    child: subprocess.Popen[bytes]
    then: Then
    document: str
    request: Any = None     # the number of the request that waits for it; None if none does
    is_compile: bool = False
    output: bytearray = field(default_factory=bytearray)


class Runs:
    """The programs that are running. What one says on standard error counts as its output."""

    def __init__(self) -> None:
        self.runs: list[Run] = []

    @property
    def sources(self) -> list[Any]:
        """What is to be waited for."""
        return [it.child.stdout for it in self.runs]

    def start(self, words: Sequence[str], script: bytes, then: Then, document: str, request: Any = None) -> None:
        with tempfile.TemporaryFile() as given:
            given.write(script)
            given.seek(0)
            with SIGNALS:
                child = start(words[0], words[1:], given, subprocess.PIPE, subprocess.STDOUT)  # type: ignore[arg-type]
                self.runs.append(Run(child, then, document, request))

    def compile(self, launcher: str, words: Sequence[str], then: Then) -> None:
        """Runs a launcher over no input, whose first run compiles its program."""
        with SIGNALS:
            self.runs.append(Run(start_compile(launcher, words, subprocess.PIPE), then, "", is_compile=True))

    def gather(self, ready: Sequence[Any]) -> None:
        """Takes what has been printed, and passes on the output of each run that has come to its end."""
        for run in [it for it in self.runs if it.child.stdout in ready]:
            if run not in self.runs:    # another run's end has ended it
                continue
            assert run.child.stdout
            piece = os.read(run.child.stdout.fileno(), 1 << 20)
            run.output += piece
            if not piece or len(run.output) > MOST_OUTPUT:
                with suppress(subprocess.TimeoutExpired):
                    run.child.wait(2)    # its output has ended, so it will end
                self.end(run)
                run.then(bytes(run.output), run.child.returncode)

    def end(self, run: Run) -> None:
        """Ends a run and its program."""
        self.runs.remove(run)
        (end_compile if run.is_compile else end_group)(run.child)
        if run.child.stdout:
            run.child.stdout.close()

    def end_all(self, document: Optional[str] = None, is_asked: bool = True) -> list[Any]:
        """Ends all runs, or a document's, or those of these that no request waits for: the requests that waited."""
        ended = [it for it in self.runs if document in (None, it.document) and (is_asked or it.request is None)]
        for run in ended:
            self.end(run)
        return [it.request for it in ended if it.request is not None]

    def cancel(self, request: Any) -> bool:
        """Ends the run that a request waits for. Returns whether there was one."""
        found = [it for it in self.runs if it.request is not None and it.request == request]
        for run in found:
            self.end(run)
        return bool(found)
