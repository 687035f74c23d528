"""A statement's operation, operands, names and cell pools, with their places, as far as it's well written."""
from __future__ import annotations

import re
from dataclasses import dataclass, field
from typing import Optional, Sequence

from .lines import CONTINUED_FROM, LAST_COLUMN, comma_ends, is_continued
from .words import FORMS

HEAD = re.compile(r"([^ ]*)( +)([^ ]+)( *)")
PIECE = re.compile("(?:[^ ']|'[^']*')*('[^']*)?")    # up to a blank outside apostrophes; from the last one, if it's open
NAME = re.compile(r"(?<![\w$#@'])[A-Za-z$#@_][A-Za-z0-9$#@_]{0,62}(?![\w$#@'(])")
REGISTER = re.compile(r"(?i)R(1[0-5]|[0-9])")
WITH_FORM = ("STORAGE", "GETMAIN", "FREEMAIN", "CPOOL")
NO_VALUE = {"BNDRY", "LOC", "COND", "SZERO", "EP", "HDR", "RELATED", "LINKAGE", "REGS"}
GIVES = {("STORAGE", "OBTAIN"): "ADDR", ("GETMAIN", "EC"): "A", ("GETMAIN", "EU"): "A", ("CPOOL", "GET"): "CELL"}
Place = tuple[int, int]    # a line, from 1 for the statement's first, and a column from 0 in bytes


@dataclass(frozen=True)
class Part:
    """A piece of a statement, by its begin and end in the statement's text."""
    text: str
    begin: int
    end: int

    @property
    def keyword(self) -> str:
        """What precedes an equals sign, if that's a word."""
        key, sign, _ = self.text.upper().partition("=")
        return key if sign and key.isalpha() else ""


@dataclass(frozen=True)
class Use:
    """A name or a cell pool in a statement; whether the statement gives it a word, or builds it."""
    part: Part
    is_pool: bool
    is_given: bool

    @property
    def key(self) -> tuple[str, bool]:
        return self.part.text.upper(), self.is_pool


@dataclass
class Statement:
    """A statement's text is that of its first line up to the end of the operands there, and the operands of the others:
    `pieces` says at which line and column each part of it begins."""
    operation: Optional[Part] = None
    operands: list[Part] = field(default_factory=list)
    values: dict[str, str] = field(default_factory=dict)    # of keywords, in capitals
    pieces: list[tuple[int, Place]] = field(default_factory=list)

    @property
    def name(self) -> str:
        return self.operation.text.upper() if self.operation else ""

    @property
    def form(self) -> str:
        return self.operands[0].text.upper() if self.name in WITH_FORM and self.operands else ""

    def place(self, at: int) -> Place:
        begin, (line, column) = next(it for it in reversed(self.pieces) if it[0] <= at)
        return line, column + at - begin

    def end(self, part: Part) -> Place:
        line, column = self.place(part.end - 1)
        return line, column + 1

    def has(self, part: Part, place: Place) -> bool:
        return self.place(part.begin) <= place <= self.end(part)

    def uses(self) -> list[Use]:
        return [use for k, it in enumerate(self.operands) for use in self._uses_of(k, it)] if self.name in FORMS else []

    def _uses_of(self, number: int, operand: Part) -> list[Use]:
        key, is_bytes = operand.keyword, self.name == "POKE" and number == 1
        if key in NO_VALUE or not key and (self.name in WITH_FORM or is_bytes and operand.text[:2].upper() != "A("):
            return []
        begin = len(key) + 1 if key else 2 if is_bytes else 0
        found = []
        for it in NAME.finditer(operand.text, begin):
            around = operand.text[it.start() - 1:it.start()] + operand.text[it.end():it.end() + 1]
            if REGISTER.fullmatch(it[0]) and around == "()" and not (is_bytes and it.start() == 2):
                continue
            is_given = self.form == "BUILD" if key == "CPID" else GIVES.get((self.name, self.form)) == key
            part = Part(it[0], operand.begin + it.start(), operand.begin + it.end())
            found.append(Use(part, key == "CPID", is_given))
        return found


def end_of_piece(text: str, at: int, is_quoted: bool) -> tuple[int, bool]:
    """The end of the operands on a line, at a blank or the line's end, and whether an apostrophe is open there."""
    found = PIECE.match("'" * is_quoted + text[at:])
    assert found
    return at + found.end() - is_quoted, found[1] is not None


def read(lines: Sequence[bytes]) -> Statement:
    """The parts of the statement of these lines."""
    texts = [line[:LAST_COLUMN].decode("latin-1") for line in lines]
    head = HEAD.match(texts[0])
    if head is None:
        return Statement()
    found = Statement(Part(head[3], head.start(3), head.end(3)), pieces=[(0, (1, 0))])
    end, is_quoted = end_of_piece(texts[0], head.end(), False)
    text, begin = texts[0][:end], head.end()
    for k in range(1, len(lines)):
        is_over = end < LAST_COLUMN and not text.endswith(",")
        if is_over or len(text) == begin or not is_continued(lines[k - 1]) or texts[k][:CONTINUED_FROM - 1].strip(" "):
            break
        end, is_quoted = end_of_piece(texts[k], CONTINUED_FROM - 1, is_quoted)
        if end < CONTINUED_FROM:
            break
        found.pieces.append((len(text), (k + 1, CONTINUED_FROM - 1)))
        text += texts[k][CONTINUED_FROM - 1:end]
    found.operands = split(text, begin)
    for it in found.operands:
        if it.keyword:
            found.values.setdefault(it.keyword, it.text[len(it.keyword) + 1:].upper())
    return found


def split(text: str, begin: int) -> list[Part]:
    """The operands of a statement's text, without those that are empty."""
    ends = [begin + it for it in sorted(comma_ends(text[begin:]))]
    found = zip([begin, *ends], [*(it - 1 for it in ends), len(text)])
    return [Part(text[first:last], first, last) for first, last in found if first < last]
