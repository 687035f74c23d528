"""For tests/explain: what `who --json` writes, against the text of the same question."""
from __future__ import annotations

import random
from collections.abc import Callable
from typing import Any

from driving import compare
from json_objects import Object, objects_of

FIELDS: dict[str, dict[str, type]] = {
    "question": {"text": str},
    "change": {"line": int, "statement": str, "of": str, "before": str, "after": str},
    "change of more": {"line": int, "statement": str, "of": str, "address": int, "before": str, "after": str},
    "sum": {"changes": int, "standing": int},
}
QUESTIONS = (["--register", "1"], ["--name", "P1"], ["--subpool", "1"], ["--oldest-first", "--register", "1"])
PLACES = (["0x6000", "256"], ["X'6FF8'", "16"], ["X'5000'"], ["24576", "--oldest-first"], ["P1", "2"])


def known_objects(output: bytes) -> list[Object]:
    """The objects of an answer, each with the fields of its kind."""
    objects = objects_of(output, "who")
    for it in objects:
        fields = [(name, type(value)) for name, value in it.items()]
        kind = "change of more" if "address" in it else it["kind"]
        compare(f"fields of {it}", fields, [("kind", str), *FIELDS[kind].items()])
    return objects


def counted(count: int, word: str) -> str:
    return f"{count} {word}" if count == 1 else f"{count} {word}s"


def text_of(it: Object) -> str:
    """The line that the text has in the place of an object."""
    match it["kind"]:
        case "question":
            return it["text"]
        case "change":
            where = f"at {it['address']:08X} " if "address" in it else ""
            return f"line {it['line']} {it['statement']:44} | {where}{it['before']} -> {it['after']}"
        case _:
            return f"{it['changes']} of {counted(it['standing'], 'statement')} in effect"


def same_changes(data: bytes, options: list[str]) -> Callable[[Any], None]:
    """Each question of a script has the same answer in both forms, and the same status and standard error."""
    def tried(programs: Any) -> None:
        file = programs.put(data)
        for words in (*([*it, file] for it in QUESTIONS), *([file, *it] for it in PLACES)):
            text = programs.explained(["who", *options, *words])
            found = programs.explained(["who", "--json", *options, *words])
            compare(f"{words}: status and standard error", (found.status, found.errors), (text.status, text.errors))
            if text.status == 0:
                lines = "".join(f"{text_of(it)}\n" for it in known_objects(found.output))
                compare(f"{words}: what is said", lines.encode(), text.output)
            else:
                compare(f"{words}: what is said", (text.output, found.output), (b"", b""))
    return tried


def hostile(seed: int) -> bytes:
    """Statements with any bytes but X'00' and line feeds among their remarks, up to column 71 or after it."""
    chance = random.Random(seed)
    known = [bytes([it]) for it in range(1, 256) if it != 10]
    known += [b'"', b"\\", b"\r", "ü".encode(), "€".encode(), "𝄞".encode()] * 9
    lines = []
    for at in range(12):
        statement = chance.choice((f" STORAGE OBTAIN,LENGTH=8,SP={at % 3},ADDR=P{at % 2} ", f" POKE P{at % 2},'{at:4}' ",
                                   " BACK 1 "))
        remark = b"".join(chance.choice(known) for _ in range(chance.randrange(48)))
        line = statement.encode() + remark[:71 - len(statement)] + chance.choice((b"", b" " + remark))
        # Column 72 is blank: no line goes on.
        lines.append(line[:71] + b" " * (len(line) > 71) + line[72:] + b"\n")
    return b"".join(lines)
