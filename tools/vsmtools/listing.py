"""What vsm-explain says of a script, as data: the JSON of list and check, which docs/EXPLAIN.md describes."""
from __future__ import annotations

import json
from dataclasses import dataclass, field
from functools import cached_property
from typing import Any, NamedTuple, Union

from .lines import Extent

FOUND = ("OUTSIDE", "STALE", "PART", "UNSET", "LEFT")    # what only check says
# What only the row of an accepted statement has: in a text each quotation mark follows a backslash.
ACCEPTED = b'"refused":false,'


class Mark(NamedTuple):
    """A fault, a warning, a dropped line or what check found: its line from 1, and bytes from 0; the word of a fault or
    a finding, and one proposed."""
    line: int
    begin: int
    end: int
    text: str
    word: str = ""
    hint: str = ""

    @property
    def message(self) -> str:
        return ": ".join(filter(None, [self.word, self.text]))


class Listed(NamedTuple):
    """The answer to the statement of these lines, its cause if it's an ABEND, and the word and the address of the name
    and the cell pool that it gave."""
    extent: Extent
    text: str
    cause: str
    name: str
    word: int
    pool: str
    address: int


@dataclass
class Listing:
    """All that a listing says. A row of an accepted statement is read only if the answers are asked for."""
    faults: list[Mark] = field(default_factory=list)
    dropped: list[Mark] = field(default_factory=list)
    warnings: list[Mark] = field(default_factory=list)
    found: list[Mark] = field(default_factory=list)
    refused: list[Listed] = field(default_factory=list)
    rows: list[Union[bytes, Listed]] = field(default_factory=list)

    @cached_property
    def answers(self) -> list[Listed]:
        return [answer_of(json.loads(it)) if isinstance(it, bytes) else it for it in self.rows]


def answer_of(it: dict[str, Any]) -> Listed:
    return Listed(Extent(it["first"], it["last"]), it["answer"], it.get("cause", ""), it.get("name", "").upper(),
                  it.get("word", 0), it.get("pool", "").upper(), it.get("address", 0))


def rows_of(output: bytes, command: str) -> list[bytes]:
    head, *rows = output.splitlines() or [b""]
    if json.loads(head) != {"version": 1, "command": command}:
        raise ValueError
    return rows


def parse(output: bytes) -> Listing:
    """The listing that a program wrote; an error of rpc.WRONG if it's in another form."""
    found = Listing()
    marks = {"fault": found.faults, "dropped": found.dropped, "warning": found.warnings}
    for row in rows_of(output, "list"):
        if ACCEPTED in row:
            found.rows.append(row)
            continue
        it = json.loads(row)
        if it["kind"] == "answer":
            found.refused.append(answer_of(it))
            found.rows.append(found.refused[-1])
        elif it["kind"] in marks:
            marks[it["kind"]].append(Mark(it["line"], it["column"] - 1, it["end"] - 1, it["text"],
                                          it.get("fault", ""), it.get("hint", "")))
    return found


def findings(output: bytes) -> list[Mark]:
    """What a check found that a listing doesn't say; such an error if it's in another form."""
    return [Mark(it["line"], it["column"] - 1, it["end"] - 1, it["text"].removeprefix(it["word"] + ": "), it["word"])
            for it in map(json.loads, rows_of(output, "check")) if it["kind"] == "finding" and it["word"] in FOUND]
