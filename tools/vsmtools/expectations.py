"""Scripts that say in comments what they're answered: reading, comparing, filling in and hiding that.

    *! --residence 31                 options of vsm, before the first statement
     STORAGE OBTAIN,LENGTH=8
    *> RC=0 A=00006000 L=00000008     a line of the answer to the statement above, whole, without its number
    *> ?                              the answer is to be filled in
    *>end FAULT CONTINUATION          the same of the last statement, which is below this line

All of these are comments, so the file is a script of vsm as it is, and is answered as without them.
"""
from __future__ import annotations

import difflib
import os
import re
from dataclasses import dataclass, field
from itertools import islice
from typing import Iterable, Optional, Sequence

from .bench import Answer, Overrun, Run, answers, run_anyhow
from .command import Fault
from .lines import Extent, is_continued, is_passed_over, split_lines, statements

SECONDS = 60.0             # the longest time that a script may take
FAILED = 1                 # the exit status if something differs
NOTHING = "nothing is expected in this script; --write fills in the answers"
EXPECTED, AT_END, OPTIONS, BLANK = "*>", "*>end", "*!", "?"


@dataclass(frozen=True)
class ExpectedLine:
    """A line of an answer as a script has it: the number of the line in the script, and the text."""
    line: int
    text: str


@dataclass
class Tested:
    """A statement with what the script expects; `is_ahead` if that is before the statement (*>end)."""
    extent: Extent
    expected: list[ExpectedLine] = field(default_factory=list)
    is_ahead: bool = False

    @property
    def is_blank(self) -> bool:
        return any(it.text == BLANK for it in self.expected)


@dataclass
class Script:
    """A script with its options and its statements, each with what is expected of it."""
    name: str
    data: bytes
    options: list[str] = field(default_factory=list)
    options_line: Optional[int] = None
    tested: list[Tested] = field(default_factory=list)

    def wrong(self, text: str, line: Optional[int] = None, column: Optional[int] = None) -> Fault:
        """A fault of this script or of its answers: it counts as failed, and the others continue."""
        return Fault(text, self.name, line, column, FAILED)


@dataclass(frozen=True)
class Difference:
    """What differs, with the line of the script that it's about, the lines of a diff, and the statement's first line."""
    line: int
    text: str
    diff: tuple[str, ...] = ()
    statement: int = 0


def check_is_text(name: str, data: bytes) -> None:
    """Refuses what no editor shows as lines of text: a byte X'00', or EBCDIC."""
    zero = data.find(b"\0")
    if zero >= 0:
        line = data.count(b"\n", 0, zero) + 1
        raise Fault("this is no text: it has a byte X'00'", name, line, zero - data.rfind(b"\n", 0, zero))
    has_letters = any(code in data for code in (b"\xc5", b"\xd6", b"\xe3"))
    if has_letters and data.count(b"\x40") > 2 * data.count(b" "):
        raise Fault("this is no text: many X'40' and few X'20', as in EBCDIC", name, 1, 1)


def read_script(name: str, data: bytes) -> Script:
    """A script with its expectations. One in a place where none is allowed is a fault."""
    check_is_text(name, data)
    lines = split_lines(data)
    script = Script(name, data, tested=[Tested(extent) for extent in statements(lines)])
    begins = {it.extent.first: it for it in script.tested}
    current: Optional[Tested] = None
    ahead: list[ExpectedLine] = []
    for number, line in enumerate(lines, 1):
        text = line.decode("latin-1")
        current = begins.get(number, current)
        found = re.match(r" +(\*[>!])", text)
        if number in begins:
            if found:
                raise script.wrong("'%s' has to be in column 1, or it begins a statement" % found[1],
                                   number, found.start(1) + 1)
        elif current and number <= current.extent.last:
            if text.startswith((EXPECTED, OPTIONS)):
                raise script.wrong("'%s' isn't allowed here: column 72 of line %d isn't blank, so it continues the "
                                   "statement of line %d" % (text[:2], number - 1, current.extent.first), number, 1)
        elif is_passed_over(line):
            take_comment(script, current, ahead, number, text)
    place_ahead(script, ahead)
    return script


def take_comment(script: Script, current: Optional[Tested], ahead: list[ExpectedLine], number: int, text: str) -> None:
    """Takes one comment line, if it's an expectation or has options."""
    if text.startswith(OPTIONS):
        take_options(script, current, number, text)
    elif text.startswith(EXPECTED):
        is_ahead = text.startswith(AT_END + " ")
        words = text[len(AT_END if is_ahead else EXPECTED):].rstrip()
        check_expectation(script, number, words)
        if is_ahead:
            ahead.append(ExpectedLine(number, words[1:]))
        elif current is None:
            raise script.wrong("an expectation has to be after its statement; there is none above", number, 1)
        else:
            current.expected.append(ExpectedLine(number, words[1:]))


def check_expectation(script: Script, number: int, words: str) -> None:
    """Refuses an expectation that no answer can meet by its form. `words` is what follows the sign."""
    if not words:
        raise script.wrong("an expectation without a text; '*> ?' is one to be filled in", number, 3)
    if not words.startswith(" "):
        form = EXPECTED + words.split()[0]
        raise script.wrong("an unknown form '%s': a blank goes between '*>' and the answer" % form, number, 3)
    if re.match(r" [0-9]{7} ", words):
        raise script.wrong("an answer is written here without its number", number, 4)
    if words.strip() == BLANK and words != " " + BLANK:
        raise script.wrong("an unknown form: one blank goes between '*>' and '?'", number, 3)


def take_options(script: Script, current: Optional[Tested], number: int, text: str) -> None:
    words = text[len(OPTIONS):]
    if words[:1] != " " or not words.split():
        raise script.wrong("an unknown form '%s': '*! --residence 31' gives options of vsm" % text.split()[0],
                           number, 1)
    if current is not None:
        raise script.wrong("options have to be before the first statement, which is in line %d"
                           % script.tested[0].extent.first, number, 1)
    for at, word in enumerate(words.split()):
        before = words.split()[at - 1] if at else ""
        is_value = before.startswith("--") and "=" not in before and not word.startswith("-")
        if not is_value and not re.match(r"--[a-z]", word):
            raise script.wrong("'%s' is no option of vsm" % word, number, text.index(word) + 1)
    script.options += words.split()
    script.options_line = script.options_line or number


def place_ahead(script: Script, ahead: Sequence[ExpectedLine]) -> None:
    """Gives what follows *>end to the last statement."""
    if not ahead:
        return
    last = script.tested[-1] if script.tested else Tested(Extent(0, 0))
    before = script.tested[-2].extent.last if len(script.tested) > 1 else 0
    for it in ahead:
        if not before < it.line < last.extent.first:
            raise script.wrong("'*>end' has to be right before the last statement of the script", it.line, 1)
        if last.expected:
            raise script.wrong("the last statement has an expectation after it too, in line %d"
                               % last.expected[0].line, it.line, 1)
    last.expected, last.is_ahead = list(ahead), True


def told(program: str, script: Script, seconds: float) -> list[Answer]:
    """The answers of a program to a script. Whatever is no whole run of answers is a fault of the script."""
    given, fault = heard(program, script, seconds)
    if fault:
        raise fault
    return given


def heard(program: str, script: Script, seconds: float) -> tuple[list[Answer], Optional[Fault]]:
    """The answers of a program to a script, and what is wrong with the run otherwise. A fault if there are none."""
    name = os.path.basename(program)
    try:
        done = run_anyhow(program, script.options, script.data, seconds)
    except Overrun as fault:
        raise script.wrong(fault.text) from None
    said = next((line for line in done.errors.splitlines() if line.strip()), "")
    if not done.output.isascii():
        raise script.wrong("%s printed bytes above X'7F', which no answer has" % name)
    if done.status == 16 and script.options_line:
        options = " ".join(script.options)
        raise script.wrong("%s refuses '%s': %s" % (name, options, said), script.options_line, 4)
    try:
        given = answers(done.output)
    except Fault as fault:
        raise script.wrong("line %d that %s printed: %s" % (fault.line or 0, name, fault.text)) from None
    why = wrong_run(name, script, done, given, said)
    if why and not given:
        raise script.wrong(why)
    return given, script.wrong(why) if why else None


def wrong_run(name: str, script: Script, done: Run, given: Sequence[Answer], said: str) -> str:
    """Numbers ascend, each a statement's first line; status and standard error are those of the answers."""
    if done.status < 0:
        return "%s was ended by signal %d" % (name, -done.status)
    if done.status not in (0, 4):
        return "%s ended with status %d: %s" % (name, done.status, said or "nothing on standard error")
    begins, before = {it.extent.first for it in script.tested}, 0
    for answer in given:
        if answer.line not in begins:
            return "%s answered line %d, '%s', where no statement begins" % (name, answer.line, answer.text)
        if answer.line <= before:
            return "%s answered line %d after line %d" % (name, answer.line, before)
        before = answer.line
    if done.output and not done.output.endswith(b"\n"):
        return "the last line that %s printed has no end" % name
    wanted = 4 if any(answer.is_refused for answer in given) else 0
    if done.status != wanted:
        return "%s ended with status %d, and %d goes with these answers" % (name, done.status, wanted)
    return "%s wrote on standard error: %s" % (name, done.errors.splitlines()[0]) if done.errors else ""


def texts(answer: Optional[Answer]) -> list[str]:
    """The lines of an answer without its number; none if there is no answer."""
    return [answer.text, *answer.rest] if answer else []


def compare(script: Script, given: Iterable[Answer]) -> list[Difference]:
    """What differs between what a script expects and what it was answered."""
    answered = {answer.line: answer for answer in given}
    differences = (differs(it, texts(answered.get(it.extent.first))) for it in script.tested)
    found = [difference for difference in differences if difference]
    if not any(it.expected for it in script.tested):
        found.append(Difference(1, NOTHING))
    return found


def unanswered(tested: Tested) -> Difference:
    line = tested.expected[0].line if tested.expected else tested.extent.first
    return Difference(line, "line %d isn't answered" % tested.extent.first,
                      tuple("-" + it.text for it in tested.expected), tested.extent.first)


def differs(tested: Tested, got: list[str]) -> Optional[Difference]:
    """How an answer differs from what is expected of a statement, and in which line of the script first."""
    wanted, statement = [it.text for it in tested.expected], tested.extent.first
    if tested.is_blank:
        line = next(it.line for it in tested.expected if it.text == BLANK)
        return Difference(line, "the answer to line %d is to be filled in" % statement, (), statement)
    if not got:
        return unanswered(tested)
    if not wanted or wanted == got:
        return None
    unlike = (at for at, (one, other) in enumerate(zip(wanted, got)) if one != other)
    line = tested.expected[min(next(unlike, len(got)), len(wanted) - 1)].line
    # Three lines around what differs, and '..' for what is left out between them.
    lines = islice(difflib.unified_diff(wanted, got, lineterm=""), 3, None)
    diff = (".." if it.startswith("@@") else it for it in lines)
    return Difference(line, "line %d gets another answer (- expected, + answered)" % statement, tuple(diff), statement)


def line_end(line: bytes) -> bytes:
    return b"\r\n" if line.endswith(b"\r\n") else b"\n" if line.endswith(b"\n") else b""


def replace_expectations(script: Script, wanted: dict[int, list[str]]) -> bytes:
    """The script with these texts as expectations of the statements of these first lines; all else stays."""
    lines = [line for line in re.split(rb"(?<=\n)", script.data) if line]     # with their ends
    end = next((line_end(line) for line in lines if line_end(line)), b"\n")
    dropped: set[int] = set()
    before: dict[int, list[bytes]] = {}
    behind: dict[int, list[bytes]] = {}
    for it in script.tested:
        if it.extent.first not in wanted:
            continue
        # A line after the last statement may change its answer: it would continue it, or end its line.
        last, is_end = lines[it.extent.last - 1], it.extent.last == len(lines)
        is_ahead = it.is_ahead or is_end and (is_continued(last) or not line_end(last) and last.endswith(b"\r"))
        sign = AT_END if is_ahead else EXPECTED
        put = [("%s %s" % (sign, text)).encode("latin-1") + end for text in wanted[it.extent.first]]
        dropped |= {old.line for old in it.expected}
        if it.expected:
            before[it.expected[0].line] = put
        elif is_ahead:
            before[it.extent.first] = put
        else:
            behind[it.extent.last] = put
    made = join_lines(lines, before, behind, dropped, end)
    # A last line without an end that was an expectation stays one without an end.
    return made[:-len(end)] if len(lines) in dropped and not line_end(lines[-1]) else made


def join_lines(lines: Sequence[bytes], before: dict[int, list[bytes]], behind: dict[int, list[bytes]],
               dropped: set[int], end: bytes) -> bytes:
    """The lines, from 1, without the dropped ones, and with what is put before and after some of them."""
    put: list[bytes] = []
    for number, line in enumerate(lines, 1):
        put += before.get(number, [])
        if number not in dropped:
            put.append(line)
        if number in behind:
            if not line_end(put[-1]):
                put[-1] += end
            put += behind[number]
    return b"".join(put)


def filled_in(script: Script, given: Iterable[Answer]) -> bytes:
    """The script with each answer as its expectation; those that are right stay as they are."""
    wanted = {answer.line: texts(answer) for answer in given}
    for it in script.tested:
        if it.extent.first not in wanted:
            lost = unanswered(it)
            raise script.wrong(lost.text, lost.line)
    right = {it.extent.first for it in script.tested if [line.text for line in it.expected] == wanted[it.extent.first]}
    return replace_expectations(script, {line: text for line, text in wanted.items() if line not in right})


def hidden(script: Script) -> bytes:
    """The script as an exercise: one blank to be filled in for each answer that is expected."""
    if not any(it.expected for it in script.tested):
        raise script.wrong(NOTHING, 1)
    return replace_expectations(script, {it.extent.first: [BLANK] for it in script.tested if it.expected})
