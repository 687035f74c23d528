"""Which lines of a script make one statement, and how a statement is written over lines."""
from __future__ import annotations

import re
from typing import Any, Iterator, NamedTuple, Optional, Sequence

import vsm_bench

from .command import Fault

LAST_COLUMN = 71       # operands end there; column 72 says that the next line continues them
CONTINUED_FROM = 16    # the column in which operands continue
MOST_LINES = 10        # of one statement
ON_FURTHER_LINES = LAST_COLUMN - CONTINUED_FROM + 1    # characters of each
MOST_TEXT = LAST_COLUMN + (MOST_LINES - 1) * ON_FURTHER_LINES


class Extent(NamedTuple):
    """A statement's lines, from 1: all from the first to the last, those that a fault drops among them."""
    first: int
    last: int


def split_lines(script: bytes) -> list[bytes]:
    """The lines without their ends: a line feed, and a carriage return right before it."""
    lines = script.split(b"\n")
    last = lines.pop()
    return [line[:-1] if line.endswith(b"\r") else line for line in lines] + ([last] if last else [])


def text_of(lines: Sequence[str]) -> bytes:
    """A script of lines, of which split_lines gives these again."""
    return "\n".join([*lines, ""]).replace("\r\n", "\r\r\n").encode("utf-8", "surrogateescape")


def is_continued(line: bytes) -> bool:
    """Whether a statement's line says in column 72 that the next one belongs to it."""
    return line[LAST_COLUMN:LAST_COLUMN + 1] not in (b"", b" ")


def is_passed_over(line: bytes) -> bool:
    """Whether a line that continues none is a comment or an empty line."""
    return line.startswith(b"*") or not line[:LAST_COLUMN].strip(b" ")


def statements(lines: Sequence[bytes]) -> list[Extent]:
    """The statements of a script in turn. Each is answered under the number of its first line."""
    return list(statements_from(lines, 0))


def statements_from(lines: Sequence[bytes], at: int) -> Iterator[Extent]:
    """The statements after some lines, at whose end none is open."""
    while at < len(lines):
        first = at
        if not is_passed_over(lines[at]):
            while is_continued(lines[at]) and at + 1 < len(lines):
                at += 1
            yield Extent(first + 1, at + 1)
        at += 1


def options_for(name: str, script: bytes, given: Sequence[str] = (), settings: dict[str, Any] = {}) -> list[str]:
    """The options of vsm for a script, names and values: those that are given, others of the comments before its first
    statement ('*! --residence 31'), and others of an editor's settings."""
    found = list(given)
    for number, line in enumerate(split_lines(script), 1):
        if not is_passed_over(line):
            break
        words = line.decode("latin-1")[2:].replace("=", " ").split() if line.startswith(b"*! ") else []
        if len(words) % 2 or not all(re.match("--[a-z]", word) for word in words[::2]):
            raise Fault("not options of vsm, such as '*! --residence 31'", name, number, 1)
        for option, value in zip(words[::2], words[1::2]):
            if option not in given:
                found += [option, value]
    others = [it for it in vsm_bench.OPTIONS if it not in found and settings.get(it[2:]) is not None]
    return [*found, *(word for it in others for word in (it, str(settings[it[2:]])))]


def fold(text: str, most: int = MOST_LINES) -> Optional[list[str]]:
    """A statement's text, with the blanks before it, over at most this many lines; None if they're too few. Lines end
    after a comma if that takes no more lines than there are, else in column 71."""
    if len(text) > LAST_COLUMN + (most - 1) * ON_FURTHER_LINES:
        return None
    for ends in (comma_ends(text), set(range(len(text)))):
        lines, at, width = [], 0, LAST_COLUMN
        while len(text) - at > width:
            end = max((end for end in ends if at < end <= at + width), default=at + width)
            lines.append(text[at:end])
            at, width = end, ON_FURTHER_LINES
        lines.append(text[at:])
        if len(lines) <= most:
            blanks = " " * (CONTINUED_FROM - 1)
            return [((blanks if k else "") + line).ljust(LAST_COLUMN if k + 1 < len(lines) else 0)
                    + ("X" if k + 1 < len(lines) else "") for k, line in enumerate(lines)]
    return None


def unquoted(text: str, start: int = 0) -> Iterator[tuple[int, str]]:
    """The characters outside of apostrophes, each with its place, from a place on."""
    quoted = False
    for at in range(start, len(text)):
        if text[at] == "'":
            quoted = not quoted
        elif not quoted:
            yield at, text[at]


def comma_ends(text: str) -> set[int]:
    """The places after commas that split operands: outside of parentheses and apostrophes."""
    found, depth = set(), 0
    for at, char in unquoted(text):
        depth += (char == "(") - (char == ")")
        if char == "," and depth == 0:
            found.add(at + 1)
    return found
