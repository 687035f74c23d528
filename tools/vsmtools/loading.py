"""The script of vsm-load: what makes the region that a map shows.

First all tasks are attached; then, while there is no storage, names and registers 2 to 12 get their words; and then
the owner of each subpool makes its storage. Its pages are taken as areas that fill them, with all lower pages that
are unassigned. Each extent of a cell pool is made when only its own place is free. The free areas are released last.
"""
from __future__ import annotations

from bisect import bisect_left

from .family import Family, Key, give_up, in_order
from .judge import Judge
from .lines import fold
from .maps import HIGH_START, LOW_START, PAGE, Area, CellPool, Map, Subpool, Task, page_end

Place = tuple[str, int]     # an extent: the name of its cell pool, and which one it is


def location(address: int) -> int:
    return 31 if address >= HIGH_START else 24


def has_whole_page(area: Area) -> bool:
    return page_end(area.start) + PAGE <= area.end


class Script:
    """The lines of a script, and which task makes the requests there."""

    def __init__(self) -> None:
        self.lines: list[str] = []
        self.task = 1

    def by(self, task: int) -> None:
        if task != self.task:
            self.put("RUN %d" % task)
            self.task = task

    def put(self, text: str) -> None:
        lines = fold(" " + text)
        assert lines is not None, "each statement of these fits on ten lines"
        self.lines += lines

    def obtain(self, area: Area, subpool: int, more: str = "") -> None:
        """An area in the place of the next one of its length."""
        self.put("STORAGE OBTAIN,LENGTH=%d,SP=%d,LOC=%d%s" % (area.length, subpool, location(area.start), more))

    def release(self, area: Area, subpool: int) -> None:
        self.put("STORAGE RELEASE,LENGTH=%d,ADDR=X'%X',SP=%d" % (area.length, area.start, subpool))

    def build(self, pool: CellPool) -> None:
        header = "" if pool.header is None else ",HDR='%s'" % pool.header
        self.put("CPOOL BUILD,PCELLCT=%d,SCELLCT=%d,CSIZE=%d,CPID=%s,SP=%d,LOC=%d%s" % (
            pool.primary, pool.secondary, pool.size, pool.name, pool.subpool, pool.location, header))

    def get(self, pool: CellPool, times: int) -> None:
        for _ in range(times):
            self.put("CPOOL GET,CPID=%s" % pool.name)


class Loader:
    """Writes the script of one map."""

    def __init__(self, shown: Map, source: str) -> None:
        self.map, self.source, self.script = shown, source, Script()
        self.judge = Judge(shown, source)
        self.judge.judge()
        self.family = Family(shown, source)
        self.fillers: dict[int, int] = {}        # tasks that only fill a number, with those that attached them
        self.assigned: list[Area] = []           # the extents of subpools that are made

    def load(self) -> list[str]:
        known = {1}
        for task in self.family.order():
            known.add(task)
            self.attach(task, known)
        for task in sorted(self.fillers):
            self.end_filler(task)
        for shown in self.map.tasks:
            self.words(shown)
        for it in self.map.subpools:
            if it.number and not it.extents and not it.sharers and self.family.owners[it.number, it.owner] == [it.owner]:
                # A subpool without storage that nobody shares, by an area that is released at once.
                self.script.by(it.owner)
                self.script.obtain(Area(LOW_START, 8), it.number)
                self.script.release(Area(LOW_START, 8), it.number)
        for it in self.map.subpools:
            if it.extents:
                self.script.by(it.owner)
                Pages(self, it).make()
                self.assigned += it.extents
        self.script.by(next(task.number for task in self.map.tasks if task.is_current))
        return self.script.lines

    # Tasks.

    def attach(self, number: int, known: set[int]) -> None:
        """A task of the map. Fillers have the lower numbers that are free."""
        actor = self.family.parent[number]
        if number in self.fillers:
            self.end_filler(number)
        self.script.by(actor)
        for lower in set(range(2, number)) - known - set(self.fillers):
            self.script.put("ATTACH EP=FILLER")
            self.fillers[lower] = actor
        self.attach_with(number, self.family.given(number), self.family.shared(number))

    def end_filler(self, number: int) -> None:
        self.script.by(number)
        self.script.put("ENDTASK")
        self.script.task = self.fillers.pop(number)

    def attach_with(self, number: int, given: list[Key], shared: list[Key]) -> None:
        """ATTACH of a task with its subpools. Lists of them are in storage only for that."""
        lists = [sorted({key[0] for key in keys} - {0}) for keys in (given, shared)]
        room, words = Area(LOW_START, 256), ["EP=T%d" % number]
        is_listed = any(len(numbers) > 1 for numbers in lists)
        if is_listed:
            self.script.obtain(room, 0)
        for keyword, numbers, start in zip(("GSP", "SHSP"), lists, (room.start, room.start + 128)):
            if len(numbers) == 1:
                words.append("%sV=%d" % (keyword, numbers[0]))
            elif numbers:
                words.append("%sL=X'%X'" % (keyword, start))
                self.script.put("POKE X'%X',X'%s'" % (start, bytes([len(numbers), *numbers]).hex().upper()))
        self.script.put("ATTACH " + ",".join(words + ["SZERO=NO"] * ((0, number) in self.family.subpools)))
        if is_listed:
            self.script.release(room, 0)

    # Names and registers.

    def words(self, task: Task) -> None:
        """Gives a task's registers 2 to 12, and of task 1 the names, the addresses that areas or cells can have."""
        wanted = [(it.name, it.word) for it in self.map.names] if task.number == 1 else []
        wanted += [("(%d)" % k, task.registers[k]) for k in range(2, 13)]
        wanted = [(place, word) for place, word in wanted if self.judge.is_address(word)]
        taken: list[Area] = []
        for start in (LOW_START, HIGH_START):
            ends = [page_end(word + 1) for _, word in wanted if location(word) == location(start)]
            taken += [Area(start, max(ends) - start)] if ends else []
        if wanted:
            self.script.by(task.number)
        for area in taken:
            self.script.obtain(area, 0)
        for place, word in wanted:
            self.word(place, word)
        for area in taken:
            self.script.release(area, 0)

    def word(self, place: str, word: int) -> None:
        """Gives a name or register an address among areas that are taken."""
        hole = Area(word - word % 8, 8)
        self.script.release(hole, 0)
        if word == hole.start:
            self.script.obtain(hole, 0, ",ADDR=" + place)
            return
        # Only the second of two cells is between doublewords.
        self.script.put("CPOOL BUILD,PCELLCT=2,CSIZE=4,CPID=TEMP,LOC=%d" % location(word))
        self.script.put("CPOOL GET,CPID=TEMP")
        self.script.put("CPOOL GET,CPID=TEMP,CELL=" + place)
        self.script.put("CPOOL DELETE,CPID=TEMP")
        self.script.obtain(hole, 0)

    # Storage.

    def unassigned(self, start: int) -> list[Area]:
        """The runs of pages of one side of the line that no subpool has so far."""
        pages = self.map.low_pages if start == LOW_START else self.map.high_pages
        found, at, end = [], start, start + pages * PAGE
        for area in sorted(self.assigned, key=lambda it: it.start) + [Area(end, 0)]:
            if start <= area.start <= end:
                found += [Area(at, area.start - at)] if area.start > at else []
                at = area.end
        return found


class Pages:
    """Makes all storage of a subpool: its pages, and what is in them."""

    def __init__(self, loader: Loader, it: Subpool) -> None:
        self.loader, self.script, self.it = loader, loader.script, it
        self.pools = [pool for pool in loader.map.cell_pools if (pool.subpool, pool.owner) == (it.number, it.owner)]
        self.gaps: list[Area] = []
        self.unused = {pool.name: 0 for pool in self.pools}

    def make(self) -> None:
        self.fill()
        pools = {pool.name: pool for pool in self.pools}
        for name, k in self.extents_in_order():
            self.make_extent(pools[name], k)
        for pool in self.pools:
            self.make_free_cells(pool)
        for area in self.it.free + self.gaps:
            self.script.release(area, self.it.number)

    def fill(self) -> None:
        """Takes all pages up to the subpool's last; above the line all, if an extent that may be there is below."""
        is_full = any(pool.location == 31 and extent.start < HIGH_START
                      for pool in self.pools for extent in pool.extents)
        for start in (LOW_START, HIGH_START):
            own = [run for run in self.it.extents if location(run.start) == location(start)]
            whole = self.loader.unassigned(start)
            last = max((run.end for run in (whole if is_full and start == HIGH_START else own)), default=0)
            for free in whole:
                self.fill_run(free, [run for run in own if free.start <= run.start < free.end], last)

    def fill_run(self, free: Area, own: list[Area], last: int) -> None:
        """Takes a run of unassigned pages up to an address: own pages, and gaps between these."""
        at = free.start
        for run in own + [Area(min(free.end, last), 0)]:
            if at < run.start:
                self.gaps.append(Area(at, run.start - at))
                self.script.obtain(self.gaps[-1], self.it.number)
            if run.length:
                self.script.obtain(run, self.it.number)
            at = run.end

    def extents_in_order(self) -> list[Place]:
        """All extents: those of a cell pool in turn, and one of new pages before others in its last page."""
        extents = {(pool.name, k): extent for pool in self.pools for k, extent in enumerate(pool.extents)}
        before: dict[Place, set[Place]] = {(name, k): {(name, k - 1)} if k else set() for name, k in extents}
        starts = sorted((extent.start, place) for place, extent in extents.items())
        for place, extent in extents.items():
            if has_whole_page(extent):
                at = bisect_left(starts, (extent.end, ("", 0)))
                while at < len(starts) and starts[at][0] < page_end(extent.end):
                    before[starts[at][1]].add(place)
                    at += 1
        found = in_order(before)
        if len(found) < len(before):
            name, k = next(place for place in before if place not in found)
            line = next(pool.line for pool in self.pools if pool.name == name)
            give_up(self.loader.source, line + 1 + k, "the extent would have to come before one that it follows")
        return found

    def make_extent(self, pool: CellPool, k: int) -> None:
        extent = pool.extents[k]
        if k:
            self.script.get(pool, self.unused[pool.name])
        end = page_end(extent.end) if has_whole_page(extent) else extent.end
        self.script.release(Area(extent.start, end - extent.start), self.it.number)
        if k:
            self.script.get(pool, 1)
            self.unused[pool.name] = pool.secondary - 1
        else:
            self.script.build(pool)
            self.unused[pool.name] = pool.primary
        if end > extent.end:
            self.script.obtain(Area(extent.end, end - extent.end), self.it.number)

    def make_free_cells(self, pool: CellPool) -> None:
        """Obtains the cells that are in use, and frees the others, the first to be obtained last."""
        last, free, same = pool.extent_cells(len(pool.extents) - 1), pool.free_cells, 0
        while same < min(self.unused[pool.name], len(free)) and free[-1 - same] == last[-1 - same]:
            same += 1
        self.script.get(pool, self.unused[pool.name] - same)
        for cell in reversed(free[:len(free) - same]):
            self.script.put("CPOOL FREE,CPID=%s,CELL=X'%X'" % (pool.name, cell))
