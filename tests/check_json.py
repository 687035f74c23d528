"""For tests/explain: what `check --json` writes, against the text of `check` and the ranges of `list --json`."""
from __future__ import annotations

import re
from collections.abc import Callable
from typing import Any

from driving import compare
from json_objects import Object, objects_of

FIELDS = ("kind", "word", "line", "column", "end", "text", "counts", "took", "released")
MAY_LACK = ("took", "released")
WORDS = r"ABEND|REFUSED|NOT CARRIED OUT|[A-Z]+"
# What doesn't count for the status, by the text.
IDLE = r"WARNING|PART|UNSET"
# An operation, or an operand, from its first character on.
OPERAND = re.compile(rb"(?:[^ ,']|'[^']*')+")


def number(pattern: str, text: str) -> dict[str, int]:
    """The line that a text names, under the name of the pattern's group."""
    found = re.search(pattern, text)
    return {name: int(it) for name, it in found.groupdict().items()} if found else {}


def wanted_of(line: int, column: int, text: str, ends: dict[tuple[int, int], set[int]], lines: list[bytes]) -> Object:
    """The object of a line of the text; `ends` has the ends of carets and warnings and of lines not carried out."""
    word = re.match(WORDS, text)
    is_sum = (line, column) == (1, 1) and text.startswith("LEFT: ")
    is_found = re.match("(ABEND|REFUSED) |(OUTSIDE|STALE|PART|UNSET|LEFT): ", text) is not None
    operand = OPERAND.match(lines[line - 1][:71], column - 1)
    end = 1 if is_sum else operand.end() + 1 if operand else 0
    return {
        "kind": "finding", "word": word and word[0], "line": line, "column": column,
        "end": {end} if is_found else ends.get((line, column)), "text": text,
        "counts": not is_sum and not re.match(IDLE, text),
        **number(r"^UNSET: .* since line (?P<took>\d+) took it$", text),
        **number(r"^(?:OUTSIDE|PART): .* area of line (?P<took>\d+)$", text),
        **number(r"^STALE: .* was ended by line (?P<released>\d+)$", text)}


def same_places(script: Any) -> Callable[[Any], None]:
    """Each line of `check`, with --leaks and without it, is an object, and no others exist; the status is the same,
    and 4 exactly if one counts."""
    def tried(programs: Any) -> None:
        file = programs.put(script.data)
        lines = script.data.split(b"\n")
        listed = programs.explained(["list", "--json", *script.options, file])
        ends: dict[tuple[int, int], set[int]] = {}
        for it in objects_of(listed.output, "list") if listed.status <= 4 else []:
            if "column" in it:
                ends.setdefault((it["line"], it["column"]), set()).add(it["end"])
        for words in ([], ["--leaks"]):
            text = programs.explained(["check", *words, *script.options, file])
            found = programs.explained(["check", "--json", *words, *script.options, file])
            compare(f"{words}: status and standard error", (found.status, found.errors), (text.status, text.errors))
            if text.status > 4:
                return
            said = [re.fullmatch(rf"{file}:(\d+):(\d+): (.*)", it).groups()
                    for it in text.output.decode("utf-8", "replace").split("\n")[:-1]]
            objects = objects_of(found.output, "check")
            compare(f"{words}: how many", len(objects), len(said))
            for it, (line, column, rest) in zip(objects, said):
                wanted = wanted_of(int(line), int(column), rest, ends, lines)
                fields = [name for name in FIELDS if name in it or name not in MAY_LACK]
                compare(f"{words}: fields of {it}", list(it), fields)
                if it["end"] not in (wanted["end"] or set()):
                    compare(f"{words}: the end of {it}", it["end"], wanted["end"])
                compare(f"{words}: an object", it, {**wanted, "end": it["end"]})
            compare(f"{words}: whether something counts", any(it["counts"] for it in objects), text.status == 4)
    return tried
