"""Counts trials, and prints those that fail."""
from __future__ import annotations

from typing import NamedTuple


class Programs(NamedTuple):
    """The paths of the programs that pages are compared with."""
    vsm: str
    explain: str


class Trials:
    def __init__(self) -> None:
        self.passed = 0
        self.failed = 0
        self.subject = ""

    def want(self, what: str, holds: object, found: object = "") -> None:
        """One trial: what should hold, whether it does, and what was found if it doesn't."""
        if holds:
            self.passed += 1
            return
        self.failed += 1
        print(f"FAIL {self.subject}: {what}{f' ({str(found)[:300]})' if str(found) else ''}", flush=True)

    def equal(self, what: str, found: object, wanted: object) -> None:
        self.want(what, found == wanted, f"found {found!r}, expected {wanted!r}")
