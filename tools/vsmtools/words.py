"""The words of a script, as docs/STATEMENTS.md has them: operations, their forms, keywords and values."""
from __future__ import annotations

import re
from typing import Callable, Iterable

FORMS: dict[str, tuple[str, ...]] = {
    "STORAGE": ("OBTAIN", "RELEASE"), "GETMAIN": ("R", "RC", "RU", "VRC", "VRU", "EC", "EU"),
    "FREEMAIN": ("R", "RC", "RU", "E", "EC", "EU"), "CPOOL": ("BUILD", "GET", "FREE", "DELETE"),
    **dict.fromkeys("ATTACH DETACH RUN ENDTASK POKE PEEK MAP BACK FORWARD".split(), ())}
KEYWORDS = {
    "STORAGE OBTAIN": ("LENGTH", "SP", "ADDR", "BNDRY", "LOC", "COND"),
    "STORAGE RELEASE": ("LENGTH", "ADDR", "SP", "COND"), "FREEMAIN": ("LV", "A", "SP"),
    "GETMAIN": ("LV", "SP", "A", "BNDRY", "LOC"), "CPOOL GET": ("CPID", "CELL"), "CPOOL FREE": ("CPID", "CELL"),
    "CPOOL BUILD": ("PCELLCT", "SCELLCT", "CSIZE", "CPID", "SP", "LOC", "HDR"), "CPOOL DELETE": ("CPID",),
    "ATTACH": ("EP", "GSPV", "GSPL", "SHSPV", "SHSPL", "SZERO")}
VALUES = {"BNDRY": ("DBLWD", "PAGE"), "LOC": ("BELOW", "24", "ANY", "31", "RES"),
          "COND": ("YES", "NO"), "SZERO": ("YES", "NO")}
NAMED = ("ADDR", "A", "CELL", "LENGTH", "LV", "GSPL", "SHSPL")
WITH_NAMES = ("POKE", "PEEK", "DETACH", "RUN")


def starting(candidates: Iterable[str], text: str) -> list[str]:
    return [it for it in candidates if it.startswith(text.upper())]


def completions(before: str, text: str, names: Callable[[], Iterable[str]],
                pools: Callable[[], Iterable[str]]) -> list[str]:
    """What the word that begins with a text can be, after the part of the line before it."""
    head = before.split()
    if not head or not re.search(r"\s$", before) and len(head) == 1 and not re.search(r"[,=(]", before):
        return starting((operation + " " for operation in FORMS), text)
    operation = head[0].upper()
    if operation not in FORMS:
        return []
    operands = before.split(None, 1)[1] if len(head) > 1 else ""
    keyword = re.search(r"([A-Za-z]+)=\(*$", operands)
    if keyword:
        key = keyword[1].upper()
        found = pools() if key == "CPID" else names() if key in NAMED else VALUES.get(key, ())
        return starting(found, text)
    if operation in WITH_NAMES and not operands:
        return starting(names(), text)
    if not operands and FORMS[operation]:
        return starting((form + "," for form in FORMS[operation]), text)
    first = operands.split(",")[0].upper()
    keywords = KEYWORDS.get("%s %s" % (operation, first)) or KEYWORDS.get(operation, ())
    used = {key.upper() for key in re.findall(r"(\w+)=", operands)}
    return starting((key + "=" for key in keywords if key not in used), text)
