"""What pages of docs/ are written with: headings, paragraphs, lists, tables and code."""
from __future__ import annotations

import re
from collections.abc import Iterator
from dataclasses import dataclass


@dataclass(frozen=True)
class Heading:
    level: int
    text: str


@dataclass(frozen=True)
class Paragraph:
    text: str


@dataclass(frozen=True)
class Code:
    lines: tuple[str, ...]


@dataclass(frozen=True)
class Items:
    is_numbered: bool
    items: tuple[str, ...]


@dataclass(frozen=True)
class Table:
    header: tuple[str, ...]
    rows: tuple[tuple[str, ...], ...]


Block = Heading | Paragraph | Code | Items | Table
BULLET, NUMBER = re.compile(r"- "), re.compile(r"\d+\. ")
NESTED = re.compile(r"\s+- ")


def cells(line: str) -> tuple[str, ...]:
    """The cells of a table's line; a bar after a backslash or between backticks is text."""
    found, cell, in_code = [], "", False
    for character in line.strip().strip("|").replace(r"\|", "\0"):
        in_code ^= character == "`"
        if character == "|" and not in_code:
            found.append(cell.strip(" "))
            cell = ""
        else:
            cell += character
    return tuple(it.replace("\0", "|") for it in [*found, cell.strip(" ")])


def kind_of(line: str) -> str:
    for kind, starts in (("code", "    "), ("heading", "#"), ("table", "|")):
        if line.startswith(starts):
            return kind
    if BULLET.match(line) or NESTED.match(line):
        return "bullet"
    return "number" if NUMBER.match(line) else "paragraph"


def groups(lines: list[str]) -> Iterator[tuple[str, list[str]]]:
    """Lines of one kind that touch; code continues over empty lines."""
    kind, group = "", []
    for line in [*lines, ""]:
        new = kind_of(line) if line.strip() else ""
        if kind == "code" and not new:
            group.append("")
        elif new == kind and kind != "heading":
            group.append(line)
        else:
            if kind:
                yield kind, group
            kind, group = new, [line]
    if kind:
        yield kind, group


def parse(text: str) -> list[Block]:
    blocks: list[Block] = []
    for kind, group in groups(text.split("\n")):
        if kind == "heading":
            marks, _, title = group[0].partition(" ")
            blocks.append(Heading(len(marks), title))
        elif kind == "code":
            blocks.append(Code(tuple(line[4:] for line in "\n".join(group).rstrip().split("\n"))))
        elif kind == "table":
            rows = [cells(line) for line in group]
            blocks.append(Table(rows[0], tuple(rows[2:])))
        elif kind in ("bullet", "number"):
            items = tuple(re.sub(r"^\s*(- |\d+\. )", "", line) for line in group)
            blocks.append(Items(kind == "number", items))
        else:
            blocks.append(Paragraph(" ".join(line.strip() for line in group)))
    return blocks


def section(blocks: list[Block], title: str) -> list[Block]:
    """What follows the heading of this title, up to the next one of its level."""
    at = next((i for i, it in enumerate(blocks) if isinstance(it, Heading) and it.text == title), None)
    if at is None:
        raise LookupError(f"a page of docs/ has no section {title!r}")
    level = blocks[at].level
    rest = blocks[at + 1:]
    ends = [i for i, it in enumerate(rest) if isinstance(it, Heading) and it.level <= level]
    return rest[:ends[0]] if ends else rest
