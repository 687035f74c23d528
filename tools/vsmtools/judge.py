"""Whether the lines of a map agree with each other and with the regions, for vsm-load."""
from __future__ import annotations

from bisect import bisect_right
from typing import Sequence

from .command import WORDS, Fault
from .maps import HIGH_START, LOW_START, PAGE, Area, CellPool, Map, Subpool, page_end

MOST_TASKS, MOST_POOLS, MOST_NAMES, MOST_CELLS, MOST_SUBPOOL = 64, 256, 1024, 4096, 127


class Judge:
    """The checks of one map, each with the line that breaks it."""

    def __init__(self, shown: Map, source: str) -> None:
        self.map, self.source = shown, source
        self.low = Area(LOW_START, shown.low_pages * PAGE)
        self.high = Area(HIGH_START, shown.high_pages * PAGE)

    def judge(self) -> None:
        self.tasks()
        self.subpools()
        self.pages()
        for pool in self.map.cell_pools:
            self.cell_pool(pool)
        self.cell_pools_apart()
        self.totals()
        self.names()

    def check(self, holds: bool, line: int, why: str) -> None:
        """A fault at a line of the map, if something doesn't hold."""
        if not holds:
            raise Fault("the map is wrong: %s" % why, self.source, line)

    def side(self, area: Area) -> bool:
        """Whether an area is in one region."""
        return any(side.start <= area.start and area.end <= side.end for side in (self.low, self.high))

    def tasks(self) -> None:
        before, parents = 0, {task.number: task.parent for task in self.map.tasks} | {0: 0}
        for task in self.map.tasks:
            self.check(before < task.number <= MOST_TASKS, task.line, "tasks ascend, from 1 to %d" % MOST_TASKS)
            self.check((task.number == 1) == (task.parent == 0) and task.parent in parents, task.line,
                       "no task %d attached it" % task.parent)
            above = task.number
            for _ in range(MOST_TASKS):
                above = parents.get(above, 0)
            self.check(above == 0, task.line, "its parents form a circle")
            before = task.number
        self.check(self.map.tasks[0].number == 1, self.map.tasks[0].line, "there is always a task 1")
        current = [task for task in self.map.tasks if task.is_current]
        self.check(len(current) == 1, (current + self.map.tasks)[-1].line, "exactly one task is CURRENT")

    def subpools(self) -> None:
        seen: dict[tuple[int, int], int] = {}
        numbers, before = {task.number for task in self.map.tasks}, (-1, 0)
        for it in self.map.subpools:
            self.check(before < (it.number, it.owner) and it.number <= MOST_SUBPOOL, it.line,
                       "subpools ascend by number and owner, from 0 to %d" % MOST_SUBPOOL)
            before = (it.number, it.owner)
            self.check(it.sharers == sorted(set(it.sharers) - {it.owner}), it.line,
                       "sharers ascend, and the owner is none")
            for task in [it.owner, *it.sharers]:
                self.check(task in numbers, it.line, "task %d doesn't exist" % task)
                other = seen.setdefault((it.number, task), it.line)
                self.check(other == it.line, it.line,
                           "task %d sees another subpool %d (line %d)" % (task, it.number, other))
        for shown in self.map.tasks:
            self.check((0, shown.number) in seen, shown.line, "each task sees a subpool 0, and this one sees none")

    def pages(self) -> None:
        runs: list[tuple[int, int, int]] = []
        for it in self.map.subpools:
            self.ascending(it, it.extents, "extents", 1)
            self.ascending(it, it.free, "free areas", 1 + len(it.extents))
            for line, extent in enumerate(it.extents, it.line + 1):
                self.check(not (extent.start % PAGE or extent.length % PAGE) and self.side(extent), line,
                           "an extent is a run of pages of one region")
                runs.append((extent.start, extent.end, line))
            for line, free in enumerate(it.free, it.line + 1 + len(it.extents)):
                self.free_area(it, free, line)
        self.apart(runs, "a page of it is in the extent of line %d too")

    def apart(self, runs: list[tuple[int, int, int]], why: str) -> None:
        """Checks that no two runs share a byte; each is its begin, its end and its line."""
        runs.sort()
        for one, other in zip(runs, runs[1:]):
            self.check(one[1] <= other[0], max(one[2], other[2]), why % min(one[2], other[2]))

    def ascending(self, subpool: Subpool, areas: Sequence[Area], what: str, first: int) -> None:
        for line, (one, other) in enumerate(zip(areas, areas[1:]), subpool.line + first + 1):
            self.check(one.end < other.start, line, "%s ascend, with something between two of them" % what)

    def free_area(self, subpool: Subpool, free: Area, line: int) -> None:
        self.check(free.start % 8 == free.length % 8 == 0 < free.length, line, "a free area is a run of doublewords")
        self.inside(subpool, free, line, "the free area")
        self.check(page_end(free.start) + PAGE > free.end, line, "a page in which nothing is taken leaves its subpool")

    def inside(self, subpool: Subpool, area: Area, line: int, what: str) -> None:
        at = bisect_right([it.start for it in subpool.extents], area.start) - 1
        self.check(at >= 0 and area.end <= subpool.extents[at].end, line, "%s isn't in the subpool's pages" % what)

    def cell_pool(self, pool: CellPool) -> None:
        subpool = self.map.subpool(pool.subpool, pool.owner)
        self.check(subpool is not None, pool.line, "there is no subpool %d of task %d" % (pool.subpool, pool.owner))
        assert subpool
        self.check(pool.size in range(4, 4097, 4), pool.line, "a cell has a multiple of 4 bytes, from 4 to 4096")
        self.check(all(1 <= count <= MOST_CELLS for count in (pool.primary, pool.secondary)), pool.line,
                   "an extent has 1 to %d cells" % MOST_CELLS)
        cells: set[int] = set()
        for k, extent in enumerate(pool.extents):
            self.pool_extent(pool, subpool, extent, pool.line + 1 + k, pool.secondary if k else pool.primary)
            cells.update(pool.extent_cells(k))
        for line, cell in enumerate(pool.free_cells, pool.line + 1 + len(pool.extents)):
            self.check(cell in cells, line, "no cell of this cell pool begins there, or it's free already")
            cells.remove(cell)

    def pool_extent(self, pool: CellPool, subpool: Subpool, extent: Area, line: int, count: int) -> None:
        whole = -(-count * pool.size // 8) * 8
        self.check(extent.length == whole, line,
                   "%d cells of %d bytes have a length of X'%08X'" % (count, pool.size, whole))
        self.check(extent.start % 8 == 0, line, "an extent begins on a doubleword")
        self.inside(subpool, extent, line, "the extent")
        self.check(pool.location != 24 or extent.start < HIGH_START, line, "LOC 24 has its extents below the line")
        self.check(extent.start % PAGE == 0 or page_end(extent.start) + PAGE > extent.end, line,
                   "an extent that takes a new page begins with it")

    def cell_pools_apart(self) -> None:
        names = [pool.name for pool in self.map.cell_pools]
        self.check(names == sorted(set(names))[:MOST_POOLS], max([0, *(it.line for it in self.map.cell_pools)]),
                   "cell pools ascend by name, and there are at most %d" % MOST_POOLS)
        taken = [(extent.start, extent.end, pool.line + 1 + k)
                 for pool in self.map.cell_pools for k, extent in enumerate(pool.extents)]
        free = [(area.start, area.end, it.line + 1 + len(it.extents) + k)
                for it in self.map.subpools for k, area in enumerate(it.free)]
        self.apart(taken + free, "it has storage of line %d")

    def totals(self) -> None:
        it = self.map
        runs = [extent for subpool in it.subpools for extent in subpool.extents]
        low = sum(run.length for run in runs if run.start < HIGH_START) // PAGE
        high = sum(run.length for run in runs if run.start >= HIGH_START) // PAGE
        self.check((low, high) == (it.low_assigned, it.high_assigned), it.pages_line,
                   "the extents have %d pages below the line and %d above" % (low, high))
        free = sum(area.length for subpool in it.subpools for area in subpool.free)
        taken = (low + high) * PAGE - free
        self.check((it.taken, it.free) == (taken, free), it.bytes_line,
                   "of the pages %d bytes are taken and %d free" % (taken, free))
        self.check(it.low_pages > 0 and it.high_pages > 0, it.pages_line, "each region has a page")

    def names(self) -> None:
        seen: set[str] = set()
        for it in self.map.names:
            self.check(it.name not in seen and len(seen) < MOST_NAMES, it.line,
                       "a name is defined once, and at most %d are" % MOST_NAMES)
            seen.add(it.name)
            self.check(self.is_address(it.word), it.line,
                       "a name has the address of an area or a cell, and X'%08X' can't be one" % it.word)

    def is_address(self, word: int) -> bool:
        """Whether an obtain or a GET of a cell can give this address."""
        return word % 4 == 0 and self.side(Area(word - word % 8, 8))


def judge_options(shown: Map, options: dict[str, str], source: str) -> None:
    """Checks that the regions of the map are those that the options of vsm make."""
    for option, pages in (("--low", shown.low_pages), ("--high", shown.high_pages)):
        given = options.get(option, "64").lstrip("+")
        if not given.isdecimal() or len(given) > 10:
            raise Fault("%s takes a number of units of 1,024 bytes, not '%s'" % (option, given[:60]), status=WORDS)
        if int(given) != 4 * pages:
            raise Fault("the map is of other options: its region has %d pages, which is %s %d, not %s %s"
                        % (pages, option, 4 * pages, option, given), source, shown.pages_line)
