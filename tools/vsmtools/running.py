"""The places where a debugged script stops, in both directions: breakpoints, answers, changes of what is watched."""
from __future__ import annotations

import re
from dataclasses import dataclass
from typing import Optional

from .command import Fault
from .lines import fold
from .maps import Map
from .showing import UNASSIGNED, watched_bytes, watched_value
from .walking import History, Step, Walk

FILTERS = ("FAULT", "REFUSED", "ABEND")
MOST_WATCHED = 4096    # bytes of one data breakpoint


@dataclass(frozen=True)
class Break:
    """A breakpoint at a statement: with a text that its answer has to have, or one that only writes a line."""
    number: int
    condition: Optional[str] = None
    log: Optional[str] = None

    def holds(self, step: Step) -> bool:
        return self.log is None and (self.condition is None or self.condition in step.answer.text.upper())


@dataclass(frozen=True)
class Stop:
    """Why a run stops. `refused` is the statement of an answer that was to be stopped at."""
    reason: str
    text: str = ""
    refused: Optional[Step] = None
    breaks: tuple[int, ...] = ()


END, BEGIN = Stop("end", "the script's end"), Stop("entry", "the script's beginning")


@dataclass
class Going:
    """A requested run. The breakpoint where it begins doesn't stop it, and nothing stops a plain one."""
    is_plain: bool = False
    is_back: bool = False
    is_step: bool = False
    is_first: bool = True
    is_paused: bool = False


def condition_of(text: str) -> Optional[str]:
    """What an answer has to contain, of a condition as it's written; None if it isn't one."""
    found = re.match(r"(?i)\s*answer\s+contains\s+(.+?)\s*$", text)
    return found[1].strip("'\"").upper() if found else None


class Course:
    """A walk that stops."""

    def __init__(self, walk: Walk) -> None:
        self.walk = walk
        self.breaks: dict[int, list[Break]] = {}    # by statement
        self.filters: set[str] = set()
        self.watched: dict[str, str] = {}           # what each was when it was last looked at
        self._shown: Optional[tuple[History, Map]] = None

    @property
    def map(self) -> Map:
        """What the bench holds here."""
        here = self.walk.here
        if self._shown is None or self._shown[0] is not here:
            self._shown = here, self.walk.map()
        return self._shown[1]

    def bytes_text(self, start: int, count: int) -> str:
        """Bytes as hexadecimal digits; in pieces, if some of their pages aren't assigned."""
        found = []
        for at in range(start, start + count, 256):
            piece = self.walk.peek(at, min(256, start + count - at))
            found.append(UNASSIGNED if piece is None else piece.hex().upper())
        return " ".join(found) if UNASSIGNED in found else "".join(found)

    def read(self, start: int, end: int) -> tuple[bytes, int]:
        """The bytes up to an unassigned page, and how many after these can't be read."""
        data, assigned = bytearray(), [area for it in self.map.subpools for area in it.extents]
        at = start
        while at < end:
            area = next((it for it in assigned if it.start <= at < it.end), None)
            piece = self.walk.peek(at, min(256, end - at, area.end - at)) if area else None
            if piece is None:
                break
            data += piece
            at += len(piece)
        return bytes(data), max(0, min([end, *(it.start for it in assigned if it.start >= at)]) - at)

    def write(self, start: int, data: bytes, is_partial: bool) -> int:
        """Stores bytes by POKEs of at most 256: how many it could. A fault, and nothing is stored, if those aren't all;
        with `is_partial` if there are none."""
        walk, begin, written = self.walk, len(self.walk.steps), 0
        while written < len(data):
            piece = data[written:written + 256]
            lines = fold(" POKE X'%X',X'%s'" % (start + written, piece.hex().upper())) if start >= 0 else None
            step = walk.carry_out(lines or [" POKE"])
            if not step.answer.is_kept:
                walk.back()    # it has changed nothing
                if not (written and is_partial):
                    del walk.steps[begin:]
                    raise Fault("a POKE there is answered %s" % step.answer.text)
                break
            written += len(piece)
        return written

    def value(self, watched: str) -> Optional[str]:
        """What something watched is; None if nothing can be watched by this text."""
        place = watched_bytes(watched)
        if place is None:
            return watched_value(watched, self.map)
        return self.bytes_text(*place) if place[1] <= MOST_WATCHED else None

    def watch(self, watched: list[str]) -> list[bool]:
        """Watches these; whether each can be."""
        values = [self.value(it) for it in watched]
        self.watched = {it: value for it, value in zip(watched, values) if value is not None}
        return [it is not None for it in values]

    def _changed(self, step: Step) -> Optional[Stop]:
        """Why to stop, if a step changed something watched."""
        if not self.watched or not step.is_change:
            return None
        before, self.watched = self.watched, {it: self.value(it) or "" for it in self.watched}
        texts = ["%s: %s -> %s" % (it, before[it][:64], now[:64])
                 for it, now in self.watched.items() if now != before[it]]
        return Stop("data breakpoint", "; ".join(texts)) if texts else None

    def _refused(self, step: Step) -> Optional[Stop]:
        is_one = step.answer.text.split(" ")[0] in self.filters
        return Stop("exception", step.answer.text, step) if is_one else None

    def _hit(self, place: int, step: Optional[Step]) -> Optional[Stop]:
        """A breakpoint at a statement: without its step, one that needs no answer."""
        found = tuple(it.number for it in self.breaks.get(place, ())
                      if (it.holds(step) if step else it.log is None and it.condition is None))
        return Stop("breakpoint", breaks=found) if found else None

    def on(self, going: Going, most: int) -> tuple[list[Step], Optional[Stop]]:
        """Carries out at most that many of the next statements: their steps, and why the run stops; no step if it stops
        before the first one."""
        walk = self.walk
        place = walk.place
        if walk.is_at_end:
            return [], END
        is_new = place in self.breaks and not (going.is_first or going.is_plain)
        stop = self._hit(place, None) if is_new else None
        if stop:
            return [], stop
        # One with a breakpoint, or if something is watched, by itself.
        most = next((at for at in range(most) if place + at in self.breaks), most) or 1
        steps = walk.forward(1 if self.watched or going.is_step else most)
        stop = self._hit(place, steps[0]) if is_new else None
        if stop:
            walk.back()
            return [], Stop("breakpoint", "it will be answered %s" % steps[0].answer.text, breaks=stop.breaks)
        changed = self._changed(steps[0])
        for at, step in enumerate(steps if self.filters and not going.is_plain else (), 1):
            stop = self._refused(step)
            if stop:
                del walk.steps[len(walk.steps) - len(steps) + at:]
                return steps[:at], stop
        return steps, changed or (Stop("step") if going.is_step else None)

    def back(self, going: Going) -> Optional[Stop]:
        """Steps back over one statement; why the run stops there."""
        walk = self.walk
        if not walk.steps:
            return BEGIN
        step = walk.back()
        changed = self._changed(step)
        if changed or not walk.steps:
            return changed or BEGIN
        if going.is_step:
            return Stop("step")
        if step.statement is None:
            return None
        return self._refused(step) or self._hit(step.statement, step)
