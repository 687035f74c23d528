"""Scripts with their answers, as files have them: rows (`*.row`), scripts of conformance, and examples.

tests/rows/README.md has the form of a row, and conformance/README.md that of a script.
"""
from __future__ import annotations

import re
import shlex
import sys
from collections.abc import Iterator
from dataclasses import dataclass, field
from pathlib import Path
from typing import NamedTuple

TOP = Path(__file__).resolve().parent.parent
sys.path.insert(0, str(TOP / "tools"))

from vsmtools.command import Fault  # noqa: E402
from vsmtools.expectations import EXPECTED, OPTIONS, Script, read_script  # noqa: E402

ROWS = TOP / "tests" / "rows"
CONFORMANCE = TOP / "conformance"
HEAD = re.compile(rb"== (in|script|out|err)(, no line feed at its end)?\n")


@dataclass
class Row:
    name: str
    words: list[str] = field(default_factory=list)
    status: int = 0
    parts: dict[str, bytes] = field(default_factory=dict)

    def part(self, name: str) -> bytes:
        return self.parts.get(name, b"")


class Stored(NamedTuple):
    """A script under its name, with the arguments that vsm is given for it."""
    name: str
    options: list[str]
    data: bytes


def read_row(path: Path) -> Row:
    """A row of a file; one that isn't in the form ends the program, and says where."""
    row = Row(path.stem)
    head, *rest = re.split(rb"(?m)^(?=== )", path.read_bytes())
    for line in head.decode(errors="replace").splitlines():
        kind, _, said = line.partition(": ")
        if kind == "words":
            row.words = shlex.split(said)
        elif kind == "status" and said.isdecimal():
            row.status = int(said)
        else:
            sys.exit(f"{path}: '{line}' has neither arguments nor a status")
    for piece in rest:
        found = HEAD.match(piece)
        if not found or found[1].decode() in row.parts:
            sys.exit(f"{path}: {piece[:40]!r} begins no part, or one that it has already")
        data = piece[found.end():]
        row.parts[found[1].decode()] = data.removesuffix(b"\n") if found[2] else data
    return row


def rows(folder: Path) -> list[Row]:
    return [read_row(path) for path in sorted(folder.glob("*.row"))]


def conformance(folder: str = "") -> Iterator[Script]:
    """The scripts of conformance, or of one of its folders."""
    for path in sorted((CONFORMANCE / folder).rglob("*.vsm")):
        try:
            yield read_script(str(path.relative_to(TOP)), path.read_bytes())
        except Fault as fault:
            sys.exit(str(fault))


def lines_of(script: Script) -> list[bytes]:
    """Its lines with their ends."""
    return [line for line in re.split(rb"(?<=\n)", script.data) if line]


def is_said(line: bytes) -> bool:
    return line.startswith((EXPECTED.encode(), OPTIONS.encode()))


def bare(script: Script) -> bytes:
    """A script of conformance without its answers and options."""
    return b"".join(line for line in lines_of(script) if not is_said(line))


def bare_output(script: Script) -> bytes | None:
    """What the bare script must print; None if it doesn't say all of that."""
    said = [is_said(line) for line in lines_of(script)]
    if not all(it.expected and not it.is_blank for it in script.tested):
        return None
    texts = ("%07d " % (it.extent.first - sum(said[:it.extent.first])) + "\n".join(line.text for line in it.expected) + "\n"
             for it in script.tested)
    return "".join(texts).encode("latin-1")


def example(path: Path) -> Stored:
    """An example, whose options are in its first comment."""
    data = path.read_bytes()
    return Stored(f"examples/{path.stem}", read_script(path.name, data).options, data)


def status_of(output: bytes) -> int:
    return 4 if re.search(rb"(?m)^[0-9]{7} (FAULT|REFUSED|ABEND) ", output) else 0


def scripts() -> Iterator[Stored]:
    """The scripts on which checks of more than answers are tried: those of rows, several rules together, and examples."""
    for row in rows(ROWS):
        yield Stored(f"tests/rows/{row.name}", row.words, row.part("in"))
    for script in conformance("together"):
        yield Stored(script.name, script.options, bare(script))
    for path in sorted((TOP / "examples").glob("*.vsm")):
        yield example(path)
