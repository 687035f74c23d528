"""The order in which vsm-load attaches the tasks of a map, so that each sees the subpools that the map says.

All tasks are attached before there is any storage, so only what each task sees decides. A task sees a subpool from its
ATTACH on if it's given it or shares it; a task that gives a subpool no longer sees it. So a subpool's sharers are
attached by a task that has it then, which may be another one than its owner.
"""
from __future__ import annotations

import heapq
from contextlib import suppress
from dataclasses import dataclass
from graphlib import CycleError, TopologicalSorter
from itertools import combinations
from typing import Iterable, NoReturn, Optional, TypeVar

from .command import Fault
from .maps import Map

NO_SCRIPT = 4               # the exit status if no script is found
Key = tuple[int, int]       # a subpool: its number and its owner
Thing = TypeVar("Thing", int, tuple[str, int])


def give_up(source: str, line: int, why: str) -> NoReturn:
    raise Fault("no script is found: %s" % why, source, line, status=NO_SCRIPT)


def in_order(before: dict[Thing, set[Thing]]) -> list[Thing]:
    """The things, each after those before it, the least first; without those that wait for themselves."""
    sorter, found = TopologicalSorter(before), []
    with suppress(CycleError):
        sorter.prepare()
    ready = sorted(sorter.get_ready())
    while ready:
        found.append(heapq.heappop(ready))
        sorter.done(found[-1])
        for thing in sorter.get_ready():
            heapq.heappush(ready, thing)
    return found


@dataclass
class Sight:
    """The tasks that a task attaches while it sees a subpool: sharers, and last the one that gets it."""
    sharers: set[int]
    gift: Optional[int]

    @property
    def all(self) -> set[int]:
        return self.sharers | ({self.gift} if self.gift else set())


class Family:
    """The tasks of a map and their subpools."""

    def __init__(self, shown: Map, source: str) -> None:
        self.source = source
        self.parent = {task.number: task.parent for task in shown.tasks}
        self.line = {task.number: task.line for task in shown.tasks}
        self.subpools = {(it.number, it.owner): it for it in shown.subpools}
        self.owners = {key: self.owners_of(key) for key in self.subpools}

    def owners_of(self, key: Key) -> list[int]:
        """The tasks that have a subpool in turn: from the first that has to, down to its owner."""
        it, found = self.subpools[key], [key[1]]
        while any(self.parent[task] not in found + it.sharers for task in it.sharers):
            above = self.parent[found[0]]
            if above == 0 or it.number == 0:
                give_up(self.source, it.line, "no task can have shared the subpool with each of the sharers")
            found.insert(0, above)
        return found

    def given(self, task: int) -> list[Key]:
        """The subpools that a task's ATTACH gives it; it may give them to others."""
        return [key for key, owners in self.owners.items() if task in owners[1:]]

    def shared(self, task: int) -> list[Key]:
        """The subpools that a task's ATTACH shares with it."""
        return [key for key, it in self.subpools.items() if task in it.sharers]

    def sights(self) -> dict[tuple[int, int], list[Key]]:
        """For a task and a number, the subpools of that number that the task sees at some time."""
        found: dict[tuple[int, int], list[Key]] = {}
        for key, owners in self.owners.items():
            for task in dict.fromkeys(owners + self.subpools[key].sharers):
                found.setdefault((task, key[0]), []).append(key)
        return found

    def sight(self, key: Key, task: int) -> Sight:
        owners = self.owners[key]
        later = owners[owners.index(task) + 1:] if task in owners else []
        return Sight({child for child in self.subpools[key].sharers if self.parent[child] == task},
                     later[0] if later else None)

    def parts(self, task: int, keys: list[Key]) -> list[list[Sight]]:
        """What a task sees of a number in turn: one from its ATTACH on; those made and given, in any order; its own."""
        first = [key for key in keys if self.owners[key][0] != task]
        if first and len(keys) > 1 and any(task not in self.owners[key][:-1] for key in first) or len(first) > 1:
            give_up(self.source, self.line[task], "the task sees two subpools %d at once" % keys[0][0])
        own = [key for key in keys if key not in first]
        return [[self.sight(key, task) for key in part] for part in (
            first, [key for key in own if key[1] != task], [key for key in own if key[1] == task])]

    def order(self) -> list[int]:
        """The tasks except the first one, in an order in which they can be attached."""
        before = {task: {parent} - {1} for task, parent in self.parent.items() if task != 1}
        pairs: list[tuple[Sight, Sight]] = []
        for (task, _), keys in self.sights().items():
            first, middle, last = self.parts(task, keys)
            for one in first + middle + last:
                if one.gift:
                    before[one.gift] |= one.sharers
            follow(before, first, middle + last)
            follow(before, middle, last)
            pairs += combinations(middle, 2)
        self.whole(before)
        for is_free in (False, True):      # first the pairs whose order the rest decides
            for one, other in pairs:
                if earlier(before, one.all) & other.all:
                    follow(before, [other], [one])
                elif is_free or earlier(before, other.all) & one.all:
                    follow(before, [one], [other])
        return self.whole(before)

    def whole(self, before: dict[int, set[int]]) -> list[int]:
        """The order of all tasks; a fault if some wait for themselves."""
        found = in_order(before)
        if len(found) < len(before):
            give_up(self.source, self.line[min(set(before) - set(found))],
                    "no order of ATTACHes lets each task see its subpools")
        return found


def follow(before: dict[int, set[int]], ones: Iterable[Sight], others: Iterable[Sight]) -> None:
    """Puts what some sights attach after what others do."""
    for other in others:
        for task in other.all:
            before[task].update(*(one.all - {task} for one in ones))


def earlier(before: dict[int, set[int]], tasks: Iterable[int]) -> set[int]:
    """All that is before some tasks."""
    found: set[int] = set()
    left = list(tasks)
    while left:
        new = before[left.pop()] - found
        found |= new
        left += new
    return found
