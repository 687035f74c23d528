"""For tests/explain: what `check`, `list --json` and `list --refused` write, against the text of the same script."""
from __future__ import annotations

import json
import random
import re
from collections.abc import Callable
from dataclasses import dataclass, field
from typing import Any

from driving import Failure, compare

HEAD = {"version": 1, "command": "list"}
FIELDS = {"fault": ["kind", "line", "column", "end", "fault", "text", "hint"],
          "warning": ["kind", "line", "column", "end", "text"],
          "dropped": ["kind", "line", "column", "end", "text"],
          "answer": ["kind", "first", "last", "answer", "refused", "kept", "cause", "name", "word", "pool", "address"]}
MAY_LACK = {"hint", "cause", "name", "word", "pool", "address"}
WORD = rb"([A-Z$#@_][A-Z0-9$#@_]*)(?=[, \r]|$)"
GIVES_NAME = re.compile(rb"(?i)[^ *]* +(?:STORAGE +OBTAIN|GETMAIN +\w+|CPOOL +GET),(?:[^' ]*,)?(?:ADDR|CELL|A)=" + WORD)
MAKES_POOL = re.compile(rb"(?i)[^ *]* +CPOOL +BUILD,(?:[^' ]*,)?CPID=" + WORD)
Object = dict[str, Any]


@dataclass
class Page:
    """The rows under some lines of a text listing, and the answer after them."""
    lines: list[int] = field(default_factory=list)
    rows: list[bytes] = field(default_factory=list)
    answer: bytes = b""


def objects(output: bytes) -> list[Object]:
    """The objects of an output, each of which has its fields and types, after the head."""
    try:
        found = [json.loads(it) for it in output.decode().split("\n")[:-1]]
    except ValueError as fault:
        raise Failure(f"no JSON: {fault}") from None
    compare("the first line", found[:1], [HEAD])
    for it in found[1:]:
        compare(f"whether the kind of {it} is known", it.get("kind") in FIELDS, True)
        compare(f"the fields of {it}", list(it), [key for key in FIELDS[it["kind"]] if key in it or key not in MAY_LACK])
        for key, value in it.items():
            wanted = bool if key == "refused" else int if key in ("line", "column", "end", "first", "last", "kept", "word",
                                                                  "address") else str
            if type(value) is not wanted:
                raise Failure(f"{key} of {it} is no {wanted.__name__}")
    return found[1:]


def shown(text: bytes) -> str:
    """Free words of `check`, whose bytes are printing characters or UTF-8 letters as they are."""
    return text.decode("utf-8", "replace")


def as_check(it: Object) -> str:
    """The line of `check`, after the file's name, of what is wrong with a line."""
    word = it["fault"] + ": " if it["kind"] == "fault" else "WARNING: " if it["kind"] == "warning" else ""
    return f"{it['line']}:{it['column']}: {word}{it['text']}"


# What is found of a statement, of which a listing has nothing.
FOUND = re.compile(r"\d+:\d+: (?:OUTSIDE|STALE|PART|UNSET|LEFT): .+")

# What `why` says of an earlier line, which a listing leaves out.
EARLIER = re.compile(r"  line \d+ (obtained what is|released what was|(got|freed) the cell) at [0-9A-F]{8}|"
                     r"  line \d+ took the last room for it: it fitted before")
# An ABEND or REFUSED as `check` has it: its line and column, and the answer with the reason.
REFUSAL = re.compile(r"(\d+):(\d+): ((?:ABEND|REFUSED) [^:]+): (.+)")


def column_of_operation(line: bytes) -> int:
    """The column of the first word after the label's, from 1."""
    found = re.match(rb"[^ ]* +", line)
    return found.end() + 1 if found else 1


def compare_refusals(programs: Any, file: str, options: list[str], said: list[str], found: list[Object],
                     lines: list[bytes]) -> None:
    """Each ABEND and REFUSED, and no other answer, has a line at its operation, with the reason that `why` has in its
    second line. Of more than 200 reasons 200 are compared.
    """
    refused = [it for it in found if it["kind"] == "answer" and it["answer"].startswith(("ABEND ", "REFUSED "))]
    told = [it for it in map(REFUSAL.fullmatch, said) if it]
    compare("refusals", [(int(it[1]), int(it[2]), it[3]) for it in told],
            [(it["first"], column_of_operation(lines[it["first"] - 1]), it["answer"]) for it in refused])
    for it, row in zip(refused, told):
        if "cause" in it and it["cause"] != row[4] and not it["cause"].startswith(row[4] + "; "):
            raise Failure(f"the cause of {it} doesn't begin with {row[4]}")
    if b"\0" in b"".join(lines):
        return
    for it in random.Random(len(told)).sample(told, min(200, len(told))):
        why = programs.explained(["why", *options, file, it[1]]).output.decode().split("\n")
        # The answer has the number that `why` has.
        said = re.sub(r"^\d+ changes? (?:is|are) (kept|undone)$", r"fewer changes are \1", why[1].strip())
        compare(f"the reason of line {it[1]}", it[4], said)


def compare_check(check: bytes, programs: Any, script: Any, file: str, found: list[Object]) -> None:
    """`check` has a line for each fault, dropped line and warning, and for each refusal, by line and then by column,
    and last the sum of what is left. What is found of statements is left out."""
    said = [shown(it).removeprefix(file + ":") for it in check.split(b"\n")[:-1]]
    compare("what is wrong", sorted(it for it in said if not REFUSAL.fullmatch(it) and not FOUND.fullmatch(it)),
            sorted(as_check(it) for it in found if it["kind"] != "answer"))
    places = [tuple(map(int, it.split(":", 2)[:2])) for it in said if not it.startswith("1:1: LEFT: ")]
    compare("whether a line is after the sum", any(it.startswith("1:1: LEFT: ") for it in said[:-1]), False)
    compare("the order of places", places, sorted(places))
    compare_refusals(programs, file, script.options, said, found, script.data.split(b"\n"))


def compare_ranges(found: list[Object], lines: list[bytes]) -> None:
    """Each range is on its line and not empty, except on the file; a hint is the word that the text proposes."""
    for it in found:
        if it["kind"] == "dropped":
            compare(f"the end of {it}", it["end"], len(lines[it["line"] - 1].removesuffix(b"\r")) + 1)
        elif not is_on_file(it) and not 1 <= it["column"] < it["end"]:
            raise Failure(f"{it} has an empty range")
        proposed = re.search(r"; ([A-Z0-9]+)\?$", it["text"]) if it["kind"] == "fault" else None
        compare(f"the hint of {it}", it.get("hint"), proposed and proposed[1])
        if it["kind"] == "fault" and it["fault"] in ("OPERAND", "REPEATED", "VALUE", "LEFTOUT", "OPERATION"):
            marked = lines[it["line"] - 1][it["column"] - 1:it["end"] - 1]
            if not re.search(r"^no operand |^no operation| in column 1 is a name", it["text"]) and marked.strip() == b"":
                raise Failure(f"{it} marks {marked!r}")


def pages_of(listing: bytes) -> list[Page]:
    """The pages of a text listing: lines up to each answer. A map's lines are of its answer."""
    found, at, in_map = [Page()], 0, False
    for line in listing.split(b"\n")[:-1]:
        if re.match(rb" {7}(->|\*\*) ", line):
            found[-1].answer = line + b"\n"
            in_map = line == b"       -> MAP"
            found.append(Page())
        elif in_map:
            found[-2].answer += line + b"\n"
            in_map = not line.startswith(b" HISTORY")
        else:
            if line[:7] == b"%7d" % (at + 1):
                at += 1
            found[-1].lines.append(at)
            found[-1].rows.append(line + b"\n")
    return found


def given(it: Object, line: bytes) -> Object:
    """The name or cell pool that a statement on one line without apostrophes gave an address."""
    address = re.match(r"RC=0 A=([0-9A-F]{8})", it["answer"])
    name, pool = GIVES_NAME.match(line), MAKES_POOL.match(line)
    wanted: Object = {}
    if address and name:
        wanted.update(name=name[1].decode().upper(), word=int(address[1], 16))
    if address and pool:
        wanted.update(pool=pool[1].decode().upper(), address=int(address[1], 16))
    return wanted


def compare_answers(found: list[Object], answers: list[Any], pages: list[Page], lines: list[bytes]) -> None:
    """The answers are those of vsm, each at the last line before it, with the mark and the kept changes of the text."""
    wanted = [(it.line, it.text.decode()) for it in answers]
    compare("answers", [(it["first"], it["answer"]) for it in found], wanted)
    kept = 0
    for it, page in zip(found, [page for page in pages if page.answer]):
        count = re.search(rb"   \[(\d+)\]\n", page.answer) or re.match(rb"       -> KEPT=(\d+)\n", page.answer)
        kept = int(count[1]) if count else kept
        said = (page.lines[-1] if page.lines else it["last"], page.answer.startswith(b"       ** "), kept)
        compare(f"{it}", (it["last"], it["refused"], it["kept"]), said)
        if it["first"] == it["last"] and b"'" not in lines[it["first"] - 1]:
            compare(f"what {it} gave", {key: it[key] for key in ("name", "word", "pool", "address") if key in it},
                    given(it, lines[it["first"] - 1]))


def compare_causes(programs: Any, file: str, options: list[str], found: list[Object]) -> None:
    """An ABEND, and no other answer, has a cause: what `why` says between what is asked for and the answer, its lines as
    one, without an earlier line's. Of a PEEK `why` also says which bytes are free. Of more than 200 ABENDs 200 are
    compared.
    """
    for it in found:
        compare(f"whether {it} has a cause", "cause" in it, it["answer"].startswith("ABEND "))
    abends = [it for it in found if "cause" in it]
    for it in random.Random(len(abends)).sample(abends, min(200, len(abends))):
        said = programs.explained(["why", *options, file, str(it["first"])]).output.decode().split("\n")
        compare(f"the last line of why {it}", said[-2], f"  answered: {it['answer']}")
        wanted = "; ".join(line.strip() for line in said[1:-2] if not EARLIER.fullmatch(line))
        is_peek = re.match(r"line \d+.*: \d+ bytes? at [0-9A-F]{8}$", said[0])
        if it.get("cause") != wanted and not (is_peek and wanted.startswith(it["cause"] + "; ")):
            raise Failure(f"the cause of {it} isn't {wanted}")


def is_on_file(it: Object) -> bool:
    return it["kind"] == "warning" and it["end"] == 1


def refused_of(found: list[Object]) -> list[Object]:
    """The refused answers with what is said of their statements' lines."""
    kept, rows = [], []
    for it in found:
        if it["kind"] != "answer":
            rows.append(it)
        else:
            if it["refused"]:
                kept += [*(row for row in rows if it["first"] <= row["line"] <= it["last"] and not is_on_file(row)), it]
            rows = []
    return kept


def refused_text(pages: list[Page], found: list[Object]) -> bytes:
    """The lines of the text listing that are of refused statements."""
    text, answers = b"", iter(it for it in found if it["kind"] == "answer")
    for page in pages:
        it = next(answers) if page.answer else None
        if it and it["refused"]:
            text += b"".join(row for line, row in zip(page.lines, page.rows) if it["first"] <= line <= it["last"])
            text += page.answer
    return text


def same_objects(script: Any, answers_of: Callable[[bytes], list[Any]]) -> Callable[[Any], None]:
    def tried(programs: Any) -> None:
        run = programs.run(programs.vsm, script.options, script.data)
        if run.status > 4:
            return
        file = programs.put(script.data)
        lines = script.data.split(b"\n")
        text, check, whole, some, some_text = (
            programs.explained([*words, *script.options, file])
            for words in (["list"], ["check"], ["list", "--json"], ["list", "--json", "--refused"],
                          ["list", "--refused"]))
        for it in (whole, some, some_text):
            compare("status and standard error", (it.status, it.errors), (text.status, text.errors))
        is_found = text.status == 0 and re.search(rb":\d+: (?:OUTSIDE|STALE): ", check.output)
        compare("status and standard error of check", (check.status, check.errors), (4 if is_found else text.status, text.errors))
        if text.status > 4:
            return
        found, pages = objects(whole.output), pages_of(text.output)
        rows = [it for it in found if it["kind"] != "answer"]
        compare_check(check.output, programs, script, file, found)
        compare_ranges(rows, lines)
        answers = [it for it in found if it["kind"] == "answer"]
        compare_answers(answers, answers_of(run.output), pages, lines)
        if b"\0" not in script.data:
            compare_causes(programs, file, script.options, answers)
        compare("refused objects", objects(some.output), refused_of(found))
        compare("refused statements", some_text.output, refused_text(pages, found))
    return tried


HOSTILE = [bytes([it]) for it in (*b"\"\\\t\r\x01\x1b\x7f\x80\x9f\xc2\xc3\xff'(),= ",)] + [b"\xc3\xbc", b"\xe2\x82\xac",
           b"\xf0\x9f\x98\x80", b"\xed\xa0\x80", b"\"}\\", b"; LENGTH?"]
STATEMENTS = (b" STORAGE OBTAIN,LENGTH=8,SP=1", b" STORAGE OBTAIN,LENGHT=8", b" STORAGE OBTAIN,LENGTH=8,LENGTH=", b" POKE P,'", b" PEEK 0,1",
              b" STOARGE", b" CPOOL BUILD,PCELLCT=2,CSIZE=8,CPID=P", b" GETMAIN RU,LV=", b" MAP", b" BACK 9", b"*", b"", b"LABEL", b"X")


def hostile(seed: int) -> bytes:
    """Statements with quotation marks, backslashes, control bytes and bytes above 127 among their bytes, also in column
    72.
    """
    chance = random.Random(seed)
    lines = []
    for _ in range(chance.randrange(1, 25)):
        line = chance.choice(STATEMENTS) + b"".join(chance.choices(HOSTILE, k=chance.choice((0, 0, 1, 3, 9))))
        if chance.random() < 0.3:
            line = line[:71].ljust(71) + chance.choice(HOSTILE) + b"".join(chance.choices(HOSTILE, k=chance.randrange(4)))
        lines.append(b" " * 15 * (chance.random() < 0.2) + line)
    return chance.choice((b"\n", b"\n", b"\r\n")).join(lines) + b"\n" * (chance.random() < 0.8)
