"""For tests/explain: what `report --json` writes, also with --areas and --cells, against the text of the same question."""
from __future__ import annotations

from collections.abc import Callable
from typing import Any

from driving import Failure, compare
from json_objects import Object, objects_of

# The fields of each kind; those after a bar may be missing.
FIELDS = {
    "after": "| line answer",
    "subpool": "subpool owner side pages taken free areas largest fragmented could_get sharers | at",
    "total": "pages taken free areas",
    "unassigned": "side pages runs longest bytes | at",
    "pool": "name subpool owner size extents bytes used free",
    "page": "address bytes lines",
    "area": "line statement bytes address subpool owner asked_by ended | pool",
    "cell": "line statement bytes address pool subpool owner asked_by ended",
    "sum": "bytes cells | areas",
}
TEXTS = {"answer", "side", "name", "statement", "pool"}
LISTS = {"sharers", "lines"}
COLUMNS = "SUBPOOL OWNER SIDE   PAGES      TAKEN       FREE  AREAS    LARGEST AT       FRAGMENTED  COULD GET SHARERS"


def compare_types(it: Object) -> None:
    """Each field is a number, a text, true or false, or, of sharers and lines, a list of numbers."""
    for name, value in it.items():
        if name in LISTS:
            right = isinstance(value, list) and all(type(each) is int for each in value)
        elif name == "ended":
            right = type(value) is bool
        else:
            right = type(value) is (str if name in TEXTS | {"kind"} else int)
        if not right:
            raise Failure(f"{name} of {it}")


def known_objects(output: bytes) -> list[Object]:
    """The objects of an answer, each with the fields of its kind."""
    objects = objects_of(output, "report")
    for it in objects:
        compare_types(it)
        always, _, sometimes = FIELDS.get(it["kind"], "").partition("|")
        compare(f"fields of {it}", set(it) - set(sometimes.split()), {"kind", *always.split()})
    return objects


def counted(count: int, word: str) -> str:
    return f"{count} {word}" if count == 1 else f"{count} {word}s"


def at_text(it: Object) -> str:
    return f"{it['at']:08X}" if "at" in it else "-       "


def taken_text(it: Object) -> str:
    """The line about an area or a cell in use."""
    pool = f", cell pool {it['pool']}" if "pool" in it else ""
    subpool = f", subpool {it['subpool']} of task {it['owner']}"
    what = f", a cell of {pool[2:]}{subpool}" if it["kind"] == "cell" else subpool + pool
    asker = f", obtained by task {it['asked_by']}" if it["ended"] or it["asked_by"] != it["owner"] else ""
    ended = ", which has ended" if it["ended"] else ""
    return f"line {it['line']} {it['statement']:44} | {it['bytes']} bytes at {it['address']:08X}{what}{asker}{ended}"


def sum_text(it: Object) -> str:
    cells = f"{counted(it['cells'], 'cell')} in use"
    if "areas" not in it:
        return f"{cells}, {it['bytes']} bytes"
    return f"{counted(it['areas'], 'area')}, {it['bytes']} bytes taken" + (f", {cells}" if it["cells"] else "")


def text_of(it: Object) -> str:
    """The line that the text has in the place of an object."""
    match it["kind"]:
        case "after":
            return f"line {it['line']}: {it['answer']}" if len(it) > 1 else "no statement"
        case "subpool":
            sharers = ",".join(str(task) for task in it["sharers"]) or "NONE"
            return (f"{it['subpool']:7}{it['owner']:6} {it['side']}{it['pages']:7}{it['taken']:11}{it['free']:11}{it['areas']:7}"
                    f"{it['largest']:11} {at_text(it)}{it['fragmented']:9} %{it['could_get']:11} {sharers}")
        case "total":
            return f"  TOTAL            {it['pages']:7}{it['taken']:11}{it['free']:11}{it['areas']:7}"
        case "unassigned":
            pages, runs, longest = (counted(it[name], word).upper() for name, word in
                                    (("pages", "page"), ("runs", "run"), ("longest", "page")))
            blanks = " " * (7 - len(str(it["pages"])))
            return (f"UNASSIGNED {it['side']}   {blanks}{pages} IN {runs}, LONGEST {longest} ({it['bytes']} BYTES)"
                    f" AT {at_text(it)}")
        case "pool":
            return "CELLPOOL " + " ".join([it["name"], *(f"{name.upper()} {it[name]}" for name in FIELDS["pool"].split()[1:])])
        case "page":
            *first, last = (str(line) for line in it["lines"])
            lines = f"lines {', '.join(first)} and {last}" if first else f"line {last}"
            return f"page {it['address']:08X}: {it['bytes']} of 4096 bytes, of {lines}"
        case "area" | "cell":
            return taken_text(it)
        case _:
            return sum_text(it)


def lines_of(objects: list[Object]) -> list[str]:
    """The lines of the text, with the names of columns."""
    lines = [text_of(it) for it in objects]
    return [lines[0], COLUMNS, *lines[1:]] if objects[0]["kind"] == "after" else lines


def same_reports(data: bytes, options: list[str]) -> Callable[[Any], None]:
    """Each report of a script says the same in both forms, with the same status and standard error."""
    def tried(programs: Any) -> None:
        file = programs.put(data)
        last = data.count(b"\n")
        ends = [[], *([str(at)] for at in sorted({1, last // 2, last, last + 9}) if at)]
        for words in (*([*what, file, *end] for end in ends for what in ([], ["--areas"], ["--cells"])),
                      ["--areas", "--keeps", file], ["--areas", "--subpool", "2,1", file],
                      ["--cells", "--pool", "C1", "--since", str(last // 2), file]):
            text = programs.explained(["report", *options, *words])
            found = programs.explained(["report", "--json", *options, *words])
            compare(f"{words}: status and standard error", (found.status, found.errors), (text.status, text.errors))
            if text.status:
                compare(f"{words}: what is said", (text.output, found.output), (b"", b""))
            else:
                said = text.output.decode().split("\n")[:-1]
                compare(f"{words}: what is said", lines_of(known_objects(found.output)), said)
    return tried
