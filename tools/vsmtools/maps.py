"""The lines of a MAP as data."""
from __future__ import annotations

import re
from dataclasses import dataclass, field
from typing import Callable, Optional, Sequence

from .command import Fault

PAGE = 4096
LOW_START = 0x6000        # where the region below the 16 MB line begins
HIGH_START = 0x8000000    # and the one above


def page_end(address: int) -> int:
    return -(-address // PAGE) * PAGE


@dataclass(frozen=True)
class Area:
    """An address and a length in bytes."""
    start: int
    length: int

    @property
    def end(self) -> int:
        return self.start + self.length


@dataclass
class Task:
    number: int
    parent: int
    is_current: bool
    registers: list[int] = field(default_factory=list)
    line: int = 0


@dataclass
class Subpool:
    number: int
    owner: int
    sharers: list[int]
    extents: list[Area] = field(default_factory=list)
    free: list[Area] = field(default_factory=list)
    line: int = 0


@dataclass
class CellPool:
    name: str
    subpool: int
    owner: int
    size: int
    primary: int
    secondary: int
    location: int             # 24: below the line, 31: either side
    header: Optional[str]
    extents: list[Area] = field(default_factory=list)
    free_cells: list[int] = field(default_factory=list)
    line: int = 0

    def extent_cells(self, k: int) -> list[int]:
        """The addresses of the cells of an extent; its length may be rounded up after the last one."""
        return [self.extents[k].start + j * self.size for j in range(self.secondary if k else self.primary)]

    @property
    def cells(self) -> list[int]:
        """The addresses of all cells, extent by extent."""
        return [cell for k in range(len(self.extents)) for cell in self.extent_cells(k)]


@dataclass
class Name:
    name: str
    word: int
    line: int = 0


@dataclass
class Map:
    """All that a MAP shows, and its lines. `line` of each part is the number of its first line, from 1."""
    tasks: list[Task] = field(default_factory=list)
    subpools: list[Subpool] = field(default_factory=list)
    cell_pools: list[CellPool] = field(default_factory=list)
    low_assigned: int = 0
    low_pages: int = 0
    high_assigned: int = 0
    high_pages: int = 0
    taken: int = 0
    free: int = 0
    names: list[Name] = field(default_factory=list)
    kept: int = 0
    history: int = 0
    pages_line: int = 0
    bytes_line: int = 0
    history_line: int = 0
    lines: Sequence[str] = ()

    def subpool(self, number: int, owner: int) -> Optional[Subpool]:
        return next((it for it in self.subpools if (it.number, it.owner) == (number, owner)), None)


HEX, NUMBER, NAME = r"([0-9A-F]{8})", r"(0|[1-9][0-9]{0,9})", r"([A-Z$#@_][A-Z0-9$#@_]{0,62})"
PATTERNS = {
    "TASK": re.compile(" TASK %s PARENT %s( CURRENT)?" % (NUMBER, NUMBER)),
    "R0": re.compile("  R0" + (" " + HEX) * 8),
    "R8": re.compile("  R8" + (" " + HEX) * 8),
    "SUBPOOL": re.compile(" SUBPOOL %s OWNER %s SHARERS (NONE|[0-9]{1,10}(?:,[0-9]{1,10})*)" % (NUMBER, NUMBER)),
    "EXTENT": re.compile("  EXTENT %s %s" % (HEX, HEX)),
    "FREE": re.compile("  FREE %s %s" % (HEX, HEX)),
    "CELLPOOL": re.compile(" CELLPOOL %s SUBPOOL %s OWNER %s SIZE %s PRIMARY %s SECONDARY %s LOC (24|31)"
                           "(?: HDR '([ -~]{1,24})')?" % ((NAME,) + (NUMBER,) * 5)),
    "FREECELL": re.compile("  FREECELL " + HEX),
    "PAGES": re.compile(" PAGES LOW %s OF %s HIGH %s OF %s" % ((NUMBER,) * 4)),
    "BYTES": re.compile(" BYTES TAKEN %s FREE %s" % (NUMBER, NUMBER)),
    "NAME": re.compile(" NAME %s %s" % (NAME, HEX)),
    "HISTORY": re.compile(" HISTORY KEPT %s OF %s" % (NUMBER, NUMBER))}
# What can follow a line of each kind; "" is the map's begin.
FOLLOWS = {
    "": "TASK", "TASK": "R0", "R0": "R8", "R8": "TASK SUBPOOL CELLPOOL PAGES",
    "SUBPOOL": "EXTENT SUBPOOL CELLPOOL PAGES", "EXTENT": "EXTENT FREE SUBPOOL CELLPOOL PAGES",
    "FREE": "FREE SUBPOOL CELLPOOL PAGES", "CELLPOOL": "POOLEXTENT",
    "POOLEXTENT": "POOLEXTENT FREECELL CELLPOOL PAGES", "FREECELL": "FREECELL CELLPOOL PAGES",
    "PAGES": "BYTES", "BYTES": "NAME HISTORY", "NAME": "NAME HISTORY", "HISTORY": ""}


def area_of(found: re.Match[str]) -> Area:
    return Area(int(found[1], 16), int(found[2], 16))


# What a map has of each line: numbers of its own, or one other thing.
FIELDS = {"PAGES": ("low_assigned", "low_pages", "high_assigned", "high_pages"), "BYTES": ("taken", "free"),
          "HISTORY": ("kept", "history")}
TAKERS: dict[str, Callable[[Map, re.Match[str], int], None]] = {
    "TASK": lambda it, found, line: it.tasks.append(Task(int(found[1]), int(found[2]), bool(found[3]), line=line)),
    **dict.fromkeys(("R0", "R8"), lambda it, found, _: it.tasks[-1].registers.extend(
        int(word, 16) for word in found.groups())),
    "SUBPOOL": lambda it, found, line: it.subpools.append(
        Subpool(int(found[1]), int(found[2]), [int(task) for task in re.findall("[0-9]+", found[3])], line=line)),
    "EXTENT": lambda it, found, _: it.subpools[-1].extents.append(area_of(found)),
    "FREE": lambda it, found, _: it.subpools[-1].free.append(area_of(found)),
    "CELLPOOL": lambda it, found, line: it.cell_pools.append(
        CellPool(found[1], *map(int, found.groups()[1:7]), found[8], line=line)),
    "POOLEXTENT": lambda it, found, _: it.cell_pools[-1].extents.append(area_of(found)),
    "FREECELL": lambda it, found, _: it.cell_pools[-1].free_cells.append(int(found[1], 16)),
    "NAME": lambda it, found, line: it.names.append(Name(found[1], int(found[2], 16), line))}


def parse_map(lines: Sequence[str], source: str = "the map", first: int = 1) -> Map:
    """A map's lines as data, each judged by itself; `first` is the first one's number in `source`, for faults."""
    shown, before = Map(lines=lines), ""
    for number, line in enumerate(lines, first):
        word = next((it for it in line.split(" ")[1:3] if it), "")
        follows = FOLLOWS[before].split()
        before = "POOLEXTENT" if word == "EXTENT" and "POOLEXTENT" in follows else word
        found = PATTERNS[word].fullmatch(line) if word in PATTERNS else None
        if word not in PATTERNS:
            raise Fault("no line of a map: '%s'" % line[:60], source, number, 1)
        if before not in follows:
            expected = " or ".join(follows) or "the map's end"
            raise Fault("a line %s isn't allowed here: expected %s" % (word, expected), source, number, 1)
        if not found:
            raise Fault("not a whole line %s of a map: '%s'" % (word, line[:60]), source, number, 1)
        if before in FIELDS:
            vars(shown).update(zip(FIELDS[before], map(int, found.groups())))
            setattr(shown, before.lower() + "_line", number)
        else:
            TAKERS[before](shown, found, number)
    if before != "HISTORY":
        raise Fault("the map is cut short: it ends after %s, and a map ends with a line HISTORY"
                    % (before or "nothing"), source, first + max(0, len(lines) - 1), 1)
    return shown


def sharers(it: Subpool) -> str:
    return ",".join(map(str, it.sharers)) or "NONE"
