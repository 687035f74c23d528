"""Which names, cell pools, tasks and subpools exist at a line of a script: by the answers before it, without a run."""
from __future__ import annotations

import bisect
from dataclasses import dataclass, field

from .bench import Answer
from .documents import Document
from .listing import Listed
from .reading import Statement
from .walking import History, State


@dataclass
class World:
    """What exists. A cell pool that went with its subpool is still here, and so is a released subpool; a subpool that
    only a list gives or shares isn't."""
    names: dict[str, tuple[int, int]] = field(default_factory=dict)    # their words, and the lines that gave them
    pools: dict[str, tuple[int, int]] = field(default_factory=dict)    # their addresses, and the lines that built them
    tasks: dict[int, int] = field(default_factory=lambda: {1: 0})      # and who attached them
    current: int = 1
    subpools: set[int] = field(default_factory=lambda: {0})

    def end(self, task: int) -> None:
        """Ends a task and all below it."""
        self.tasks.pop(task, None)
        for it in [below for below, parent in self.tasks.items() if parent == task]:
            self.end(it)

    def take(self, statement: Statement, answer: Listed) -> None:
        """Makes the change of an accepted statement."""
        if answer.text.startswith("RC=4"):
            return
        name, form, values, line = statement.name, statement.form, statement.values, answer.extent.first
        task = Answer(line, answer.text).task
        if answer.name:
            self.names[answer.name] = answer.word, line
        if answer.pool:
            self.pools[answer.pool] = answer.address, line
        if form == "DELETE":
            self.pools.pop(values.get("CPID", ""), None)
        elif name == "ATTACH" and task is not None:
            self.tasks[task] = self.current
        elif name == "DETACH" and statement.operands and statement.operands[0].text.isdecimal():
            self.end(int(statement.operands[0].text))
        elif task is not None:
            if name == "ENDTASK":
                self.end(self.current)
            self.current = task
        for key in ("SP", "GSPV", "SHSPV"):
            if values.get(key, "").isdecimal():
                self.subpools.add(int(values[key]))


def standing(document: Document, line: int) -> list[int]:
    """The statements in effect before a line, by their places among those with an answer."""
    history = History(State())
    for k, it in enumerate(document.answered()):
        if it.extent.first >= line:
            break
        answer = Answer(it.extent.first, it.text)
        if answer.kept is None or history.reaches(answer.kept):
            history = history.after(answer, (str(k),), document.limit)
    found, state = [], history.state
    while state.parent is not None:
        found.append(int(state.lines[0]))
        state = state.parent
    return found[::-1]


def world_at(document: Document, line: int) -> World:
    """What exists before the statement of a line. The last one is kept, for typing there."""
    known = document.answered()
    count = bisect.bisect_left(known, line, key=lambda it: it.extent.first)
    if document.world[0] != count:
        world = World()
        for it in (known[k] for k in standing(document, line)):
            world.take(document.statement(it.extent), it)
        document.world = count, world
    return document.world[1]
