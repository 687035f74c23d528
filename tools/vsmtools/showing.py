"""What a bench holds, as a debugger shows it: a MAP as variables, what can be watched, what a statement changed."""
from __future__ import annotations

import re
from dataclasses import dataclass
from functools import partial
from typing import Callable, Optional, Sequence

from .maps import PAGE, Area, CellPool, Map, Subpool, Task, sharers

Children = Callable[[], list["Variable"]]
REGISTER = re.compile(r"(?i)(?:\(R?(1[0-5]|[0-9])\)|R(1[0-5]|[0-9]))$")
PLACE = re.compile(r"(?i)\s*(X'[0-9A-F]{1,8}'|0X[0-9A-F]{1,8}|[0-9]{1,10}|[A-Z$#@_][A-Z0-9$#@_]{0,62}|\(R?[0-9]{1,2}\))"
                   r"\s*(?:,\s*([0-9]{1,5}))?\s*$")
UNASSIGNED = "unassigned"


@dataclass
class Variable:
    """One line of a debugger: what it opens to, with how many lines, the address of its bytes, what a data breakpoint
    on it watches, and the text that gives it in the console."""
    name: str
    value: str
    children: Optional[Children] = None
    count: int = 0
    memory: Optional[int] = None
    watched: Optional[str] = None
    expression: Optional[str] = None
    is_change: bool = False    # a statement of the console that may have changed something


def word(value: int) -> str:
    return "%08X" % value


def listed(name: str, children: list[Variable]) -> Variable:
    """A line that opens to others, and shows how many they are."""
    return Variable(name, str(len(children)), lambda: children, len(children))


def counted(count: int, thing: str) -> str:
    return "%d %s%s" % (count, thing, "" if count == 1 else "s")


def task_of(shown: Map, number: int) -> Optional[Task]:
    return next((it for it in shown.tasks if it.number == number), None)


def current_of(shown: Map) -> Task:
    return next(it for it in shown.tasks if it.is_current)


def named(shown: Map, name: str) -> Optional[int]:
    """The word of a name, if it's defined."""
    return next((it.word for it in shown.names if it.name == name), None)


def pool_of(shown: Map, name: str) -> Optional[CellPool]:
    return next((it for it in shown.cell_pools if it.name == name), None)


def registers(task: Optional[Task]) -> list[Variable]:
    return [Variable("R%d" % k, word(it), memory=it, watched="register:%d:%d" % (task.number, k),
                     expression="(R%d)" % k) for k, it in enumerate(task.registers)] if task else []


def names(shown: Map) -> list[Variable]:
    return [Variable(it.name, word(it.word), memory=it.word, watched="name:" + it.name, expression=it.name)
            for it in shown.names]


def area_text(area: Area) -> str:
    return "%08X %08X" % (area.start, area.length)


def areas(found: Sequence[Area], kind: str) -> list[Variable]:
    return [Variable("%s %d" % (kind, k), area_text(it), memory=it.start, watched="bytes:%X,%d" % (it.start, it.length),
                     expression="X'%X',%d" % (it.start, min(256, it.length))) for k, it in enumerate(found, 1)]


def subpools(shown: Map) -> list[Variable]:
    return [Variable("%d of task %d" % (it.number, it.owner), "%s, %d bytes free in %s" % (
        counted(sum(area.length for area in it.extents) // PAGE, "page"), sum(area.length for area in it.free),
        counted(len(it.free), "area")), partial(subpool, it), memory=it.extents[0].start if it.extents else None,
        watched="subpool:%d:%d" % (it.number, it.owner)) for it in shown.subpools]


def subpool(it: Subpool) -> list[Variable]:
    return [Variable("number", str(it.number)), Variable("owner", str(it.owner)), Variable("sharers", sharers(it)),
            listed("extents", areas(it.extents, "extent")), listed("free", areas(it.free, "free"))]


def pool_text(it: CellPool) -> str:
    return "%d of %d cells free" % (len(it.free_cells), len(it.cells))


def cell_pools(shown: Map) -> list[Variable]:
    return [Variable(it.name, pool_text(it), partial(cell_pool, it), watched="cellpool:" + it.name)
            for it in shown.cell_pools]


def cell_pool(it: CellPool) -> list[Variable]:
    free = set(it.free_cells)

    def cells(found: Sequence[int]) -> list[Variable]:
        return [Variable(str(k), word(cell), memory=cell, watched="bytes:%X,%d" % (cell, it.size))
                for k, cell in enumerate(found, 1)]
    header = [] if it.header is None else [Variable("header", "'%s'" % it.header)]
    numbers = {"size": it.size, "primary": it.primary, "secondary": it.secondary, "loc": it.location}
    return [Variable("subpool", "%d of task %d" % (it.subpool, it.owner)),
            *(Variable(name, str(number)) for name, number in numbers.items()), *header,
            listed("extents", areas(it.extents, "extent")), listed("free cells", cells(it.free_cells)),
            listed("cells in use", cells([cell for cell in it.cells if cell not in free]))]


def totals(shown: Map, undone: int) -> list[Variable]:
    texts = {"pages below": "%d of %d" % (shown.low_assigned, shown.low_pages),
             "pages above": "%d of %d" % (shown.high_assigned, shown.high_pages),
             "bytes taken": str(shown.taken), "bytes free": str(shown.free),
             "kept changes": "%d of %d" % (shown.kept, shown.history), "undone changes": str(undone)}
    return [Variable(name, text) for name, text in texts.items()]


# What a statement changed.

def whole_lines(shown: Map) -> list[str]:
    """The lines of a map, each whole by itself: with its task, subpool or cell pool, and a register to a line."""
    head, found = "", []
    for line in [*shown.lines[:-1], " HISTORY KEPT %d OF %d" % (shown.kept, shown.history)]:
        words = line.split()
        if not line.startswith("  "):
            head = " ".join(words[:4 if words[0] == "SUBPOOL" else 2])
            found.append(line.strip())
        elif words[0] in ("R0", "R8"):
            found += ["%s R%d %s" % (head, int(words[0][1:]) + k, it) for k, it in enumerate(words[1:])]
        else:
            found.append("%s %s" % (head, line.strip()))
    return found


def changed(before: Map, after: Map) -> Variable:
    """The lines of a map that a statement took away, and those that it brought, as what opens."""
    old, new = whole_lines(before), whole_lines(after)
    gone, come = set(old) - set(new), set(new) - set(old)
    found = ["- " + it for it in old if it in gone] + ["+ " + it for it in new if it in come]
    return listed("changes", [Variable(str(k), it) for k, it in enumerate(found, 1)])


# Places that are written, and what is watched.

def address_of(text: str, shown: Map) -> Optional[int]:
    """What a number, a name or a register is; None if it isn't defined."""
    text = text.upper()
    if text.startswith("X'"):
        return int(text[2:-1], 16)
    if text.startswith("0X"):
        return int(text, 16)
    if text.isdecimal():
        return int(text) if int(text) < 1 << 32 else None
    found, register = named(shown, text), REGISTER.match(text)
    if found is None and register:
        return current_of(shown).registers[int(register[1] or register[2])]
    return found


def watch_of(text: str, count: int, shown: Map) -> Optional[str]:
    """What a data breakpoint on a text watches: a name's or a register's word, or bytes; None if it's none of these."""
    text = text.strip()
    register = REGISTER.match(text)
    if named(shown, text.upper()) is not None:
        return "name:" + text.upper()
    if register:
        return "register:%d:%s" % (current_of(shown).number, register[1] or register[2])
    place = PLACE.match(text)
    start = address_of(place[1], shown) if place else None
    return None if place is None or start is None else "bytes:%X,%d" % (start, int(place[2] or count))


def watched_bytes(watched: str) -> Optional[tuple[int, int]]:
    """The address and the number of bytes that are watched; None if it's something else."""
    found = re.fullmatch(r"bytes:([0-9A-F]{1,8}),([1-9][0-9]{0,9})", watched)
    return (int(found[1], 16), int(found[2])) if found else None


def watched_value(watched: str, shown: Map) -> Optional[str]:
    """What a name, register, subpool or cell pool is in a map; None if the text is none of these."""
    kind, _, rest = watched.partition(":")
    numbers = [int(it) for it in rest.split(":") if it.isdecimal()]
    if kind == "name":
        found = named(shown, rest)
        return "undefined" if found is None else word(found)
    if kind == "register" and len(numbers) == 2 and numbers[1] < 16:
        task = task_of(shown, numbers[0])
        return "no task" if task is None else word(task.registers[numbers[1]])
    if kind == "subpool" and len(numbers) == 2:
        it = shown.subpool(*numbers)
        return "none" if it is None else "%s; free %s; sharers %s" % (
            ", ".join(map(area_text, it.extents)), ", ".join(map(area_text, it.free)), sharers(it))
    if kind == "cellpool":
        pool = pool_of(shown, rest)
        return "none" if pool is None else "%s; free %s" % (
            ", ".join(map(area_text, pool.extents)), ", ".join(map(word, pool.free_cells)))
    return None
