"""A walk over a script, forwards and backwards: one vsm, the states that it has reached, and the way to each."""
from __future__ import annotations

import bisect
import re
from dataclasses import dataclass
from typing import Callable, Optional, Sequence

from .bench import Answer, Session
from .command import Fault
from .lines import LAST_COLUMN, Extent, is_continued, split_lines, statements, text_of
from .maps import Map, parse_map

MOST_ASKED = 1_000_000    # lines; vsm reads 1,048,576
READS_HISTORY = re.compile(r"(?i)\S*\s+(BACK|FORWARD|MAP)(\s|$)")


class Lost(Fault):
    """vsm has ended, or answers otherwise than it did: the walk can't go on."""


@dataclass(slots=True, eq=False)
class State:
    """What a bench holds after a kept change: the state before it, and the lines of the statement that made it. After
    a BACK that's a branch, so the states of a walk are a tree."""
    parent: Optional[State] = None
    lines: tuple[str, ...] = ()
    depth: int = 0


@dataclass(slots=True, eq=False)
class Undone:
    """The states that FORWARD leads to: the first one, and those after it."""
    state: State
    rest: Optional[Undone]

    @property
    def count(self) -> int:
        found, at = 0, self
        while at:
            found, at = found + 1, at.rest    # type: ignore[assignment]
        return found


@dataclass(slots=True, eq=False)
class History:
    """The state of a bench, how many changes it keeps, and what it has undone."""
    state: State
    kept: int = 0
    undone: Optional[Undone] = None

    def reaches(self, kept: int) -> bool:
        """Whether a BACK or FORWARD can lead to that number of kept changes."""
        back, ahead = self.kept - kept, self.undone.count if self.undone else 0
        return -ahead <= back <= self.state.depth

    def stepped(self, kept: int) -> History:
        """After a BACK or FORWARD to that number of kept changes."""
        state, undone = self.state, self.undone
        for _ in range(self.kept - kept):
            if state.parent is None:
                raise Lost("KEPT=%d is no answer to a step here" % kept)
            state, undone = state.parent, Undone(state, undone)
        for _ in range(kept - self.kept):
            if undone is None:
                raise Lost("KEPT=%d is no answer to a step here" % kept)
            state, undone = undone.state, undone.rest
        return History(state, kept, undone)

    def after(self, answer: Answer, lines: tuple[str, ...], limit: int) -> History:
        """After a statement with this answer."""
        if answer.is_kept:
            state, kept = self.state, self.kept
            return History(State(state, lines, state.depth + 1), kept + 1 if kept < limit else limit)
        return self if answer.kept is None else self.stepped(answer.kept)


@dataclass(slots=True, eq=False)
class Step:
    """A statement that was carried out, its number in the script (None in the console), and the history after it."""
    statement: Optional[int]
    lines: tuple[str, ...]
    answer: Answer
    history: History

    @property
    def is_change(self) -> bool:
        """Whether it may have changed the state."""
        return self.answer.is_kept or self.answer.kept is not None


class Script:
    """A script's statements in turn."""

    def __init__(self, name: str, data: bytes) -> None:
        self.name = name
        raw = split_lines(data)
        self.lines = [line.decode("utf-8", "surrogateescape") for line in raw]
        self.extents: list[Extent] = statements(raw)
        self.lasts = [it.last for it in self.extents]

    def text(self, number: int) -> list[str]:
        extent = self.extents[number]
        return self.lines[extent.first - 1:extent.last]

    def at_or_after(self, line: int) -> Optional[int]:
        """The number of the statement that has a line, or of the next one; None if there is none."""
        found = bisect.bisect_left(self.lasts, line)
        return found if found < len(self.extents) else None


def parting(one: State, other: State) -> tuple[int, list[State]]:
    """How many states above the first one the two ways meet, and the states from there down to the other."""
    up, way = 0, []
    while one is not other:
        if one.depth >= other.depth:
            assert one.parent is not None
            one, up = one.parent, up + 1
        else:
            assert other.parent is not None
            way.append(other)
            other = other.parent
    way.reverse()
    return up, way


def are_same(one: Optional[Undone], other: Optional[Undone]) -> bool:
    """Whether FORWARD leads to the same states."""
    while one is not other:
        if one is None or other is None or one.state is not other.state:
            return False
        one, other = one.rest, other.rest
    return True


class Walk:
    """How far a script has come. `steps` is the way, without what was stepped back over. vsm is led to a step once
    something is asked there: `now` is its own history, of the same state, perhaps of fewer changes."""

    def __init__(self, script: Script, begin: Callable[[], Session]) -> None:
        self.script, self.begin = script, begin
        self.session = begin()
        self.asked = self.needed = 0    # lines that vsm was given, and those of the way when it last ran anew
        self.start = self.now = History(State())
        self.steps: list[Step] = []
        try:
            self.limit = parse_map(self._say([" MAP"]).rest).history
        except Fault:
            self.close()
            raise

    def close(self) -> None:
        self.session.close()

    @property
    def here(self) -> History:
        return self.steps[-1].history if self.steps else self.start

    @property
    def place(self) -> int:
        """The number of the statement that comes next."""
        if self.steps and self.steps[-1].statement is not None:
            return self.steps[-1].statement + 1
        return next((it.statement + 1 for it in reversed(self.steps) if it.statement is not None), 0)

    @property
    def is_at_end(self) -> bool:
        return self.place >= len(self.script.extents)

    def _say(self, lines: Sequence[str]) -> Answer:
        return self._say_all(lines)[0]

    def _say_all(self, lines: Sequence[str]) -> list[Answer]:
        text, last = text_of(lines), text_of(lines[-1:])
        if len(last) > LAST_COLUMN and is_continued(split_lines(last)[-1]):
            # The script ends within a statement: a line that can't continue it ends it with the same answer.
            text += b" BACK 0\n"
        self.asked += len(lines)
        try:
            return self.session.ask(text)
        except Fault as fault:
            raise Lost(str(fault)) from None

    def forward(self, most: int) -> list[Step]:
        """Carries out at most that many of the next statements, which can all be undone together; only one if vsm can't be
        asked several, or if its history isn't that of the way."""
        self.settle()
        place, here, steps = self.place, self.here, self.steps
        most = min(most, self.limit, len(self.script.extents) - place)
        if most < 2 or not self.session.takes_several or not self._answers_alike("FORWARD"):
            return [self.carry_out(self.script.text(place), place)]
        texts = [tuple(self.script.text(it)) for it in range(place, place + most)]
        for lines, answer in zip(texts, self._say_all([line for lines in texts for line in lines])):
            here = here.after(answer, lines, self.limit)
            steps.append(Step(place, lines, answer, here))
            place += 1
        self.now = here
        return steps[-most:]

    def carry_out(self, lines: Sequence[str], statement: Optional[int] = None) -> Step:
        """Carries out a statement here; without a number it's one of the console."""
        self.settle()
        asks = READS_HISTORY.match(lines[0][:LAST_COLUMN])
        if asks and not self._answers_alike(asks[1].upper()):
            self.run_anew()
        answer = self._say(lines)
        after = self.here.after(answer, tuple(lines), self.limit)
        if answer.is_kept:
            self.now = History(after.state, min(self.now.kept + 1, self.limit))
        else:
            self.now = self.now.after(answer, (), self.limit)
        step = Step(statement, tuple(lines), answer, after)
        self.steps.append(step)
        return step

    def _answers_alike(self, operation: str) -> bool:
        """Whether vsm's history gives a MAP, BACK or FORWARD the answer that it has on the way."""
        now, here = self.now, self.here
        return now.kept == here.kept and (operation != "FORWARD" or are_same(now.undone, here.undone))

    def back(self) -> Step:
        """Steps back over the last step, and returns it."""
        return self.steps.pop()

    def settle(self) -> None:
        """Leads vsm to the state that the way has come to."""
        if self.asked > MOST_ASKED and self.asked - self.needed > MOST_ASKED // 4:
            self.run_anew()
        goal = self.here.state
        up, way = parting(self.now.state, goal)
        if up > self.now.kept:
            self.run_anew()
            return
        if up:
            self._step(" BACK %d" % up)
        again, undone = 0, self.now.undone
        while again < len(way) and undone and undone.state is way[again]:
            again, undone = again + 1, undone.rest
        if again:
            self._step(" FORWARD %d" % again)
        for state in way[again:]:
            answer = self._say(state.lines)
            if not answer.is_kept:
                raise Lost("a statement that was accepted before is answered %s" % answer.text)
            self.now = History(state, min(self.now.kept + 1, self.limit))

    def _step(self, statement: str) -> None:
        answer = self._say([statement])
        if answer.kept is None:
            raise Lost("%s is answered %s" % (statement.strip(), answer.text))
        self.now = self.now.stepped(answer.kept)

    def run_anew(self) -> None:
        """Runs the way in a new vsm, whose history is then that of the way."""
        self.session.close()
        self.session = self.begin()
        self.asked = 0
        for step in self.steps:
            answer = self._say(step.lines)
            if answer.text != step.answer.text:
                raise Lost("%s is answered %s, and was %s" % (step.lines[0].strip(), answer.text, step.answer.text))
        self.now, self.needed = self.here, self.asked

    def map(self) -> Map:
        """What the bench holds here."""
        self.settle()
        found = parse_map(self._say([" MAP"]).rest)
        found.kept = self.here.kept
        return found

    def peek(self, address: int, count: int) -> Optional[bytes]:
        """At most 256 bytes; None if one of their pages isn't assigned."""
        self.settle()
        return self._say([" PEEK X'%X',%d" % (address, count)]).data
