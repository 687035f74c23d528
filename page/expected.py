"""What a page has to show, derived from the page's data without the page's own script.

Lines between touching areas are found in another way than in the page: each accepted statement that obtains, and then
each extent of a cell pool, paints its doublewords, and a line separates neighbours painted by two of these.
"""
from __future__ import annotations

import base64
import gzip
import json
import re
from collections.abc import Iterable
from dataclasses import dataclass
from pathlib import Path
from typing import Any

from vsmtools.bench import Answer, answers
from vsmtools.maps import PAGE, CellPool, Map, parse_map

UNIT = 8
MARKED = 24  # the least units of a cell that a line separates from the next
MARKED_AREA = 8  # and of an area that a line is before
GRANTED = re.compile(r"RC=0 A=([0-9A-F]{8}) L=([0-9A-F]{8})")
HIDDEN = re.compile("[\\0-\\x1f\\x7f-\\x9f\\u200b-\\u200f\\u2028-\\u202e\\u2060-\\u2069\\ufeff]")
DATA = re.compile(r'<script type="application/json" id="data">(.*?)</script>', re.DOTALL)


def decoded(text: str) -> str:
    """Characters that are bytes as letters, if they are UTF-8."""
    try:
        return text.encode("latin-1").decode("utf-8")
    except UnicodeDecodeError:
        return text


def sign_of(found: re.Match[str]) -> str:
    code = ord(found[0])
    return chr(0x2400 + code) if code < 32 else "\u2421" if code == 127 else "\ufffd"


def shown_line(line: str) -> str:
    """A line of a script as a page shows it: UTF-8 as letters, column 72 in its place, pictures of control bytes."""
    front, rest = decoded(line[:71]), line[71:]
    is_cut = front == line[:71] and re.search(r"[\x80-\xff]", front)
    text = decoded(line) if is_cut or not rest else front.ljust(71) + decoded(rest)
    return HIDDEN.sub(sign_of, text)


@dataclass
class Page:
    """A page and its data."""

    path: Path
    data: dict[str, Any]
    answers: list[Answer]

    @staticmethod
    def of(path: Path) -> Page:
        found = DATA.search(path.read_text(encoding="utf-8"))
        data = json.loads(found[1]) if found else {}
        return Page(path, data, answers(gzip.decompress(base64.b64decode(data["output"]))))

    @property
    def skipped(self) -> int:
        """The number of answers before the first map."""
        return int(self.data["skipped"])

    @property
    def shown(self) -> list[Answer]:
        """The answers that have maps before them, in order."""
        return self.answers[self.skipped + 1 :: 2]

    @property
    def steps(self) -> int:
        return len(self.shown)

    def map_at(self, step: int) -> Map:
        maps = self.answers[self.skipped :: 2]
        return parse_map(maps[min(step, len(maps) - 1)].rest)

    def changes(self, step: int) -> bool:
        """Whether the statement of a step changes more than the number of kept changes."""
        if any(at == step for at, _, _ in self.data.get("bytes", [])):
            return True
        maps = self.answers[self.skipped :: 2]
        rests = [maps[min(at, len(maps) - 1)].rest for at in (step - 1, step)]
        before, after = ([line for line in rest if " HISTORY " not in line] for rest in rests)
        return before != after

    def changed_tasks(self, step: int) -> list[int]:
        """The tasks that are new, have become the current one, or see other subpools than before."""

        def seen(state: Map) -> dict[int, set[int]]:
            return {task.number: {it.number for it in state.subpools if task.number in (it.owner, *it.sharers)}
                    for task in state.tasks}

        before, state = self.map_at(step - 1), self.map_at(step)
        known, current = seen(before), {task.number for task in before.tasks if task.is_current}
        return [task.number for task in state.tasks if known.get(task.number) != seen(state)[task.number]
                or task.is_current and task.number not in current]

    def answers_to(self, step: int) -> list[Answer]:
        return self.answers[: self.skipped] + self.shown[:step]

    def line_of(self, answer: Answer) -> int:
        """The line of the script that an answer belongs to: the inserted maps before it have lines of their own."""
        return answer.line - max(0, (self.answers.index(answer) - self.skipped + 1) // 2)


def history(told: Iterable[Answer], limit: int) -> tuple[list[Answer], list[Answer]]:
    """The kept answers in effect, oldest first, and those that can be redone."""
    kept: list[Answer] = []
    stand = count = 0
    for answer in told:
        if answer.is_kept:
            kept[stand:] = [answer]
            stand, count = stand + 1, min(count + 1, limit)
        elif answer.kept is not None:
            stand, count = stand + answer.kept - count, answer.kept
    return kept[:stand], kept[stand:]


def owners(stand: list[Answer], state: Map) -> dict[int, int]:
    """By doubleword, which of the standing statements obtained it last; an extent of a cell pool, which a GET may have
    obtained, is one area."""
    granted = [GRANTED.fullmatch(answer.text) for answer in stand]
    areas = [(int(found[1], 16), int(found[2], 16)) for found in granted if found]
    areas += [(extent.start, extent.length) for pool in state.cell_pools for extent in pool.extents]
    painted: dict[int, int] = {}
    for number, (start, length) in enumerate(areas):
        painted.update(dict.fromkeys(range(start // UNIT, (start + length) // UNIT), number))
    return painted


def area_edges(state: Map, painted: dict[int, int], scale: int) -> dict[int, set[float]]:
    """By page, the doublewords that a line precedes: where two areas touch, and the second is wide enough."""
    edges: dict[int, set[float]] = {}
    for subpool in state.subpools:
        free = {unit for area in subpool.free for unit in range(area.start // UNIT, area.end // UNIT)}
        for extent in subpool.extents:
            for page in range(extent.start // PAGE, extent.end // PAGE):
                units = range(page * PAGE // UNIT, (page + 1) * PAGE // UNIT)
                whose = [None if unit in free else painted.get(unit, -1) for unit in units]
                ends = [at for at in range(1, len(whose)) if whose[at] != whose[at - 1]] + [len(whose)]
                edges[page] = {at for at, end in zip(ends, ends[1:]) if None not in (whose[at - 1], whose[at])
                               and (end - at) * scale >= MARKED_AREA}
    return edges


def totals(page: Page) -> list[tuple[int, int, int]]:
    """The bytes taken, and the pages below and above the line, of each map."""
    found = []
    for answer in page.answers[page.skipped :: 2]:
        text = "\n".join(answer.rest)
        pages = re.search(r"^ PAGES LOW (\d+) OF \d+ HIGH (\d+) OF", text, re.MULTILINE)
        taken = re.search(r"^ BYTES TAKEN (\d+) FREE", text, re.MULTILINE)
        if not pages or not taken:
            raise ValueError(f"a map of {page.path} lacks its totals")
        found.append((int(taken[1]), int(pages[1]), int(pages[2])))
    return found


def cells_of(pool: CellPool) -> list[int]:
    """The addresses of a pool's cells, by its counts, since an extent's length is rounded up."""
    counts = [pool.secondary if number else pool.primary for number in range(len(pool.extents))]
    return [extent.start + k * pool.size for extent, count in zip(pool.extents, counts) for k in range(count)]


def cell_edges(state: Map, page: int, scale: int) -> set[float]:
    """The places in a page where a cell begins that is wide enough for a line."""
    pools = [pool for pool in state.cell_pools if pool.size / UNIT * scale >= MARKED]
    places = [cell - page * PAGE for pool in pools for cell in cells_of(pool)]
    return {place / UNIT for place in places if 0 < place < PAGE}


def bytes_by_kind(state: Map) -> dict[str, int]:
    """The bytes taken and free, and those in free cells and in cells in use."""
    free_cells = sum(len(pool.free_cells) * pool.size for pool in state.cell_pools)
    all_cells = sum(len(cells_of(pool)) * pool.size for pool in state.cell_pools)
    return {"taken": state.taken, "free": state.free, "freecell": free_cells, "cell": all_cells - free_cells}
