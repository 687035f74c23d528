"""What is typed into a debugger's console, or looked up there: statements, commands, names, registers and bytes."""
from __future__ import annotations

from typing import Optional, Sequence

from . import showing
from .bench import check_is_one, find_explain, run_anyhow
from .command import Fault, one_line
from .lines import fold, text_of
from .prompting import with_blank
from .running import Course
from .showing import Variable, word
from .walking import Step
from .words import FORMS

SECONDS = 30.0          # the longest that vsm and vsm-explain may take
MOST_BYTES = 4096       # that are shown in a line
HELP = "any statement; .why says why the last one got its answer, .who P[,N] who changed the bytes there, .log what " \
       "is kept; P, (R1), X'6000',16 show a name, a register, bytes"


class Console:
    """Over the course of one script."""

    def __init__(self, course: Course, vsm: str, options: Sequence[str]) -> None:
        self.course, self.vsm, self.options = course, vsm, options

    def say(self, text: str) -> Variable:
        """What a line that is typed comes to: a command, a statement, or something that is looked up."""
        text = text.strip()
        if text.startswith("."):
            return Variable("", self.command(text[1:].split()))
        words = text.upper().split()
        if set(words[:2]) & set(FORMS) and showing.named(self.course.map, text.upper()) is None:
            return self.statement(text)
        return self.evaluated(text)

    def statement(self, text: str) -> Variable:
        """Carries out a statement: another step of the way, if something may have changed. What has changed opens."""
        course, lines = self.course, fold(with_blank(text))
        if lines is None:
            raise Fault("a statement has at most ten lines")
        check_is_one(lines)
        before, step = course.map, course.walk.carry_out(lines)
        if not step.is_change:
            course.walk.back()
        found = showing.changed(before, course.map)
        return Variable("", "\n".join([step.answer.text, *step.answer.rest]), found.children if found.count else None,
                        is_change=step.is_change)

    def evaluated(self, text: str) -> Variable:
        """A name, a register, an address, N bytes at one of these, or a cell pool."""
        course = self.course
        place, shown = showing.PLACE.match(text), course.map
        address = showing.address_of(place[1], shown) if place else None
        if place is None or address is None:
            pool = showing.pool_of(shown, text.strip().upper())
            if pool is None:
                raise Fault("%s isn't defined here" % place[1] if place
                            else "no name, register or place: %s" % text.strip()[:60])
            return Variable("", showing.pool_text(pool), lambda: showing.cell_pool(pool))
        if place[2] is None:
            return Variable("", word(address), memory=address)
        return Variable("", course.bytes_text(address, min(MOST_BYTES, int(place[2]))), memory=address)

    def command(self, words: Sequence[str]) -> str:
        """A command as in vsm-prompt."""
        steps = self.course.walk.steps
        if words[:1] == ["why"]:
            first = sum(len(it.lines) for it in steps[:-1]) + 1
            return self.explained(["why"], [str(first)], steps) if steps else "nothing was carried out yet"
        if words[:1] == ["who"] and len(words) == 2:
            name, _, count = words[1].partition(",")
            address = showing.address_of(name, self.course.map) if showing.PLACE.match(words[1]) else None
            if address is None:
                raise Fault("%s isn't defined here" % one_line(name))
            return self.explained(["who"], ["X'%X'" % address, count or "4"], steps)
        if words[:1] == ["log"]:
            return "\n".join(" ".join(it.lines[0].split()) for it in steps if it.answer.is_kept)
        return HELP

    def explained(self, words: Sequence[str], more: Sequence[str] = (), steps: Optional[Sequence[Step]] = None) -> str:
        """What vsm-explain says; over the statements of the way, if they're given."""
        script, place = b"", []
        if steps is not None:
            script, place = text_of([line for it in steps for line in it.lines]), [*self.options, "/dev/stdin"]
        done = run_anyhow(find_explain(self.vsm), [*words, *place, *more], script, SECONDS)
        said = done.output.decode("utf-8", "replace") or done.errors
        return said.replace("/dev/stdin: ", "").rstrip("\n")
