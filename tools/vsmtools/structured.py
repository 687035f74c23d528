"""Structured macros (IF, DO, SELECT, STRTSRCH, CASENTRY) as ways: where each leads, and what its conditions change."""
from __future__ import annotations

import re
from dataclasses import dataclass, field
from typing import Optional, Sequence

from .assembler import Statement, split_operands

# What begins a block, with what divides it into arms, and what ends it.
BLOCKS = {"IF": ({"ELSEIF", "ELSE"}, "ENDIF"), "DO": (set(), "ENDDO"), "CASENTRY": ({"CASE"}, "ENDCASE"),
          "SELECT": ({"WHEN", "OTHRWISE"}, "ENDSEL"), "STRTSRCH": ({"ORELSE", "ENDLOOP"}, "ENDSRCH")}
ENDS = {end for _, end in BLOCKS.values()}
ARMS = {arm for arms, _ in BLOCKS.values() for arm in arms}
LEAVES = {"DOEXIT", "EXITIF", "ITERATE", "LEAVE", "ASMLEAVE", "NEXTWHEN"}
STRUCTURED = {*BLOCKS, *ENDS, *ARMS, *LEAVES}
TESTS = {"IF", "ELSEIF", "DO", "DOEXIT", "STRTSRCH", "EXITIF", "SELECT", "WHEN"}
NO_INSTRUCTION = {"AND", "OR", "ANDIF", "ORIF", "THEN", "INF", "ONCE"}


@dataclass
class Block:
    """An open block: its macro, those of its arms in turn, and the macros that leave it."""
    first: int
    arms: list[int] = field(default_factory=list)
    leaves: list[int] = field(default_factory=list)


@dataclass
class Way:
    """Of one macro: where it may lead other than to the next statement, and whether to that too; where what comes from the
    statement before it leads, if not to it; and what it carries out."""
    to: set[int] = field(default_factory=set)
    is_on: bool = True
    above: Optional[int] = None
    tests: list[Statement] = field(default_factory=list)
    counters: list[str] = field(default_factory=list)


def ways(code: Sequence[Statement]) -> Optional[dict[int, Way]]:
    """The ways of all structured macros; None if a block isn't closed, or conditional assembly may leave out a part."""
    found = {k: Way(tests=instructions(it), counters=counters(it)) for k, it in enumerate(code)
             if it.operation in STRUCTURED and not it.is_skipped}
    blocks: list[Block] = []
    for k in found:
        it = code[k]
        if it.doubt or it.operation not in BLOCKS and not blocks:
            return None
        if it.operation in BLOCKS:
            blocks.append(Block(k))
        elif it.operation in LEAVES:
            inner = [block for block in blocks if is_left(code[block.first].operation, it)]
            if not inner:
                return None
            for block in inner if it.parts and it.operation in ("LEAVE", "ASMLEAVE", "ITERATE") else inner[-1:]:
                block.leaves.append(k)
        elif it.operation == BLOCKS[code[blocks[-1].first].operation][1]:
            close(code, blocks.pop(), k, found)
        elif it.operation in BLOCKS[code[blocks[-1].first].operation][0]:
            blocks[-1].arms.append(k)
        else:
            return None
    return None if blocks else found


def is_left(operation: str, by: Statement) -> bool:
    """Whether a macro may leave a block that this one begins."""
    only = {"DOEXIT": ("DO",), "ITERATE": ("DO",), "EXITIF": ("STRTSRCH",), "NEXTWHEN": ("SELECT",)}
    return operation in only.get(by.operation, tuple(BLOCKS) if by.parts else ("DO", "STRTSRCH"))


def close(code: Sequence[Statement], block: Block, end: int, found: dict[int, Way]) -> None:
    """The ways of a block that ends here."""
    first, operation = found[block.first], code[block.first].operation
    places = [*block.arms, end]
    for k in block.leaves:
        leave = code[k].operation
        found[k].to.add(next(arm for arm in places if arm > k) if leave in ("EXITIF", "NEXTWHEN") else end)
        found[k].is_on = leave in ("DOEXIT", "EXITIF")
    for arm, after in zip(block.arms, places[1:]):
        if code[arm].operation == "ENDLOOP":
            turn(found, block.first, arm)
        else:
            found[arm].above = end
            found[arm].to.update({after} if code[arm].operation in ("ELSEIF", "WHEN") else ())
    if operation == "SELECT" and block.arms:
        found[block.arms[0]].above = None
        if code[block.first].parts:      # its arms have values
            for arm in block.arms:
                found[arm].tests = []
    elif operation == "IF":
        first.to.add(places[0])
    elif operation == "DO":
        turn(found, block.first, end)
    elif operation == "CASENTRY":
        first.to, first.is_on = set(places), False


def turn(found: dict[int, Way], first: int, last: int) -> None:
    """The way from a loop's last macro to its first, which may lead to the last at once."""
    found[last] = Way({*found[last].to, first}, tests=found[first].tests, counters=found[first].counters)
    found[first].to.add(last)


def instructions(it: Statement) -> list[Statement]:
    """The instructions of a macro's conditions: compares, and those that set the condition code."""
    return conditions(it, it.parts) if it.operation in TESTS else []


def conditions(it: Statement, parts: Sequence[str]) -> list[Statement]:
    found: list[Statement] = []
    group: list[str] = []
    for text in [*parts, "AND"]:
        value = re.sub(r"^(WHILE|UNTIL)=", "", text, flags=re.I)
        if value.upper() in NO_INSTRUCTION:
            if len(group) > 1:
                found.append(Statement(it.first, it.last, operation=group[0].upper(), operands=",".join(group[1:])))
            group = []
        elif not group and value.startswith("(") and value.endswith(")"):
            found += conditions(it, [part for _, part in split_operands(value[1:-1])])
        elif value == text and not re.match(r"\w+=", text):
            group.append(text)
    return found


def counters(it: Statement) -> list[str]:
    """The registers that a macro itself changes."""
    if it.operation == "CASENTRY":
        return it.parts[:1]
    values = [text.partition("=")[2].strip("()").split(",")[0] for text in it.parts
              if re.match("(FROM|TO|BY)=", text, re.I)]
    return values if it.operation in ("DO", "STRTSRCH") else []
