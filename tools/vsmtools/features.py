"""What a language server says of places in a script: hovers, completions, names, symbols, edits."""
from __future__ import annotations

import re
from itertools import groupby
from typing import TYPE_CHECKING, Any, Callable, Optional

from . import manuals
from .command import Fault, one_line
from .documents import FAR, Document
from .lines import CONTINUED_FROM, LAST_COLUMN, Extent, fold, is_passed_over
from .prompting import operand_text
from .reading import Part, Place, Statement, Use
from .rpc import Code, Failure, Message
from .tracking import World, world_at
from .words import FORMS, completions

if TYPE_CHECKING:
    from .language import Server

MOST_ANSWER = 60    # characters shown after a statement
NAMED = re.compile(r"[A-Za-z$#@_][A-Za-z0-9$#@_]{0,62}")
ANSWER = re.compile(r"\b(FAULT [A-Z]+|REFUSED [A-Z]+|(?:ABEND )?[SU][0-9A-F]{3,4}\b)")
FUNCTION, EVENT = 12, 24                            # kinds of symbols
FIELD, VARIABLE, VALUE, KEYWORD = 5, 6, 12, 14      # kinds of completions


def shown(answer: str) -> str:
    """An answer after its statement, with the sign of a listing: without one it looks like a remark."""
    sign = "**" if answer.startswith(("FAULT ", "ABEND ", "REFUSED ")) else "->"
    return "%s %s" % (sign, answer if len(answer) <= MOST_ANSWER else answer[:MOST_ANSWER - 3] + "...")


def lenses(_server: Server, document: Document, _params: Message, _number: Any) -> Any:
    return [{"range": document.lines_range(it.extent.first, it.extent.first),
             "command": {"title": shown(it.text), "command": ""}} for it in document.answered()]


def hints(_server: Server, document: Document, params: Message, _number: Any) -> Any:
    first, last = (document.place_of(params["range"][it])[0] for it in ("start", "end"))
    return [{"position": document.position_of((it.extent.last, FAR)), "label": shown(it.text), "paddingLeft": True}
            for it in document.answered() if first <= it.extent.last <= last]


# Hovers.

def statement_at(document: Document, params: Message) -> tuple[Place, Optional[Extent], Statement, Place]:
    """A place, the statement that has it, and the place among the statement's lines."""
    place = document.place_of(params["position"])
    extent = document.at(place[0])
    if extent is None:
        return place, None, Statement(), (0, 0)
    return place, extent, document.statement(extent), (place[0] - extent.first + 1, place[1])


def use_at(document: Document, params: Message) -> tuple[Optional[Extent], Optional[Use]]:
    _, extent, statement, at = statement_at(document, params)
    return extent, next((it for it in statement.uses() if statement.has(it.part, at)), None)


def hover(server: Server, document: Document, params: Message, number: Any) -> Any:
    place, extent, statement, at = statement_at(document, params)
    if extent is None:
        return comment_hover(document.raw[place[0] - 1], place[1])
    use = next((it for it in statement.uses() if statement.has(it.part, at)), None)
    if use is not None:
        text = name_text(use, world_at(document, extent.last + 1 if use.is_given else extent.first))
        return {"contents": {"kind": "markdown", "value": text}, "range": document.range_of(extent, use.part)}
    form = manuals.syntax(statement.name, statement.form)
    operand = next((it for it in statement.operands if statement.has(it, at)), None)
    if operand is not None and statement.name in FORMS:
        word = operand.keyword or operand.text.upper()
        text = manuals.operand(statement.name, statement.form, word) if word.isalpha() else ""
        text = text or fenced(form)
        return {"contents": {"kind": "markdown", "value": text}, "range": document.range_of(extent, operand)}
    where = document.lines_range(extent.first, extent.last)
    is_asked = statement.operation is not None and statement.has(statement.operation, at)

    def told(output: bytes, status: int) -> None:
        try:
            said = server.whole(output, status).decode("utf-8", "replace")
        except Fault as fault:
            server.fail(number, Code.FAILED, fault.text)
            return
        why = fenced(said.rstrip("\n").replace("/dev/stdin: ", ""))
        text = why + ("\n\n" + fenced(form) if form and is_asked else "")
        server.reply(number, {"contents": {"kind": "markdown", "value": text}, "range": where})
    server.why(document, extent, told, number)
    return LATER


def fenced(text: str) -> str:
    return "```\n%s\n```" % text if text else ""


def name_text(use: Use, world: World) -> str:
    """What a name or a cell pool is."""
    name = use.part.text.upper()
    if use.is_pool:
        pool = world.pools.get(name)
        return "cell pool %s: %s" % (name, "at %08X by line %d" % pool if pool else "there is none here")
    found = world.names.get(name)
    return "%s = %08X by line %d" % (name, *found) if found else "%s = not defined here" % name


def undefined(document: Document, extent: Extent) -> str:
    """Which name in a statement's values isn't defined, if one isn't."""
    world = world_at(document, extent.first)
    names = (it.part.text for it in document.statement(extent).uses() if not it.is_given and not it.is_pool)
    return next(("%s isn't defined" % it for it in names if it.upper() not in world.names), "")


def comment_hover(line: bytes, column: int) -> Any:
    """What MESSAGES says of an answer in a comment."""
    found = next((it for it in ANSWER.finditer(line.decode("latin-1")) if it.start() <= column <= it.end()), None)
    meaning = manuals.meaning(found[0]) if found else ""
    return {"contents": {"kind": "markdown", "value": "%s: %s" % (found[0], meaning)}} if found and meaning else None


# Completion.

def complete(_server: Server, document: Document, params: Message, _number: Any) -> Any:
    line, column = document.place_of(params["position"])
    raw, extent = document.raw, document.at(line) or Extent(line, line)
    if raw[line - 1].startswith(b"*"):
        return []
    pieces = [raw[k - 1][CONTINUED_FROM - 1 if k > extent.first else 0:min(LAST_COLUMN, column if k == line else FAR)]
              for k in range(extent.first, line + 1)]
    before = "".join(it.decode("latin-1").rstrip() for it in pieces[:-1]) + pieces[-1].decode("latin-1")
    typed = re.search(r"[A-Za-z0-9$#@_']*$", before)[0]    # type: ignore[index]
    head = before[:len(before) - len(typed)]
    label = re.match(r"(\S+)\s+", head)
    if label and label[1].upper() not in FORMS:
        head = head[label.end():]
    world = world_at(document, extent.first)
    found, where = proposals(head, typed, world), document.range((line, column - len(typed)), (line, column))
    return [item(it, k, where, world) for k, it in enumerate(found)]


def proposals(head: str, typed: str, world: World) -> list[str]:
    """What can be written there: words, names, cell pools, and the numbers of tasks and subpools."""
    found = completions(head, typed, lambda: world.names, lambda: world.pools)
    numbers: list[int] = []
    if re.search(r"(?i)\b(SP|GSPV|SHSPV)=\(*$", head):
        numbers = sorted(world.subpools)
    elif re.match(r"(?i)\s*(RUN|DETACH)\s+$", head):
        numbers = sorted(world.tasks)
    return found + [str(it) for it in numbers if str(it).startswith(typed)]


def item(text: str, number: int, where: Message, world: World) -> Message:
    word = text.strip()
    kind = KEYWORD if word in FORMS else FIELD if word.endswith("=") else VARIABLE if word in world.names else VALUE
    found = {"label": word, "kind": kind, "filterText": text, "sortText": "%05d" % number,
             "textEdit": {"range": where, "newText": text}}
    return {**found, "detail": "%08X" % world.names[word][0]} if word in world.names else found


# Names.

def all_uses(document: Document, key: tuple[str, bool]) -> list[tuple[Extent, Use]]:
    wanted, found = key[0].encode("latin-1"), []
    for extent in document.extents:
        if extent.first < extent.last or wanted in document.raw[extent.first - 1].upper():
            found += [(extent, it) for it in document.statement(extent).uses() if it.key == key]
    return found


def definition(_server: Server, document: Document, params: Message, _number: Any) -> Any:
    """The statement that gave a name its word, or built a cell pool; else the first one that would."""
    extent, use = use_at(document, params)
    if extent is None or use is None:
        return None
    world = world_at(document, extent.last + 1 if use.is_given else extent.first)
    name, given = use.part.text.upper(), [it for it in all_uses(document, use.key) if it[1].is_given]
    line = (world.pools if use.is_pool else world.names).get(name, (0, 0))[1]
    found = next((it for it in given if it[0].first == line), None) or next(iter(given), None)
    return {"uri": document.uri, "range": document.range_of(found[0], found[1].part)} if found else None


def references(_server: Server, document: Document, params: Message, _number: Any) -> Any:
    _, use = use_at(document, params)
    is_all = (params.get("context") or {}).get("includeDeclaration", True)
    return [{"uri": document.uri, "range": document.range_of(extent, it.part)}
            for extent, it in (all_uses(document, use.key) if use else []) if is_all or not it.is_given]


def highlights(_server: Server, document: Document, params: Message, _number: Any) -> Any:
    _, use = use_at(document, params)
    return [{"range": document.range_of(extent, it.part), "kind": 3 if it.is_given else 2}
            for extent, it in (all_uses(document, use.key) if use else [])]


def prepare_rename(_server: Server, document: Document, params: Message, _number: Any) -> Any:
    extent, use = use_at(document, params)
    return {"range": document.range_of(extent, use.part), "placeholder": use.part.text} if extent and use else None


def rename(_server: Server, document: Document, params: Message, _number: Any) -> Any:
    """Edits of whole statements, since what is in column 72 must stay there."""
    _, use = use_at(document, params)
    new = params["newName"]
    if use is None:
        raise Failure(Code.FAILED, "no name or cell pool is here")
    if not NAMED.fullmatch(new):
        raise Failure(Code.FAILED, "a name is a letter, $, #, @ or _, then up to 62 of these or digits")
    if new.upper() != use.key[0] and all_uses(document, (new.upper(), use.is_pool)):
        raise Failure(Code.FAILED, "%s is in use" % new.upper())
    parts: dict[Extent, list[Part]] = {}
    for extent, it in all_uses(document, use.key):
        parts.setdefault(extent, []).append(it.part)
    return {"changes": {document.uri: [
        {"range": document.lines_range(extent.first, extent.last), "newText": renamed(document, extent, found, new)}
        for extent, found in parts.items()]}}


def renamed(document: Document, extent: Extent, parts: list[Part], new: str) -> str:
    """The lines of a statement with a new name in the places of these parts."""
    statement = document.statement(extent)
    lines = [line.decode("latin-1") for line in document.raw[extent.first - 1:extent.last]]
    for part in reversed(parts):
        (line, column), (last, end) = statement.place(part.begin), statement.end(part)
        text, rest = lines[line - 1][:LAST_COLUMN], lines[line - 1][LAST_COLUMN:]
        text = text[:column] + new + text[end:]
        if rest:
            text = text.rstrip().ljust(LAST_COLUMN)
        if line != last or len(text) > LAST_COLUMN and len(lines) > 1:
            raise Fault("line %d has no room for %s" % (extent.first + line - 1, new))
        lines[line - 1] = text + rest
    is_long = len(lines) == 1 and len(lines[0].rstrip()) > LAST_COLUMN
    folded = fold(operand_text(lines[0])) if is_long else lines
    if folded is None:
        raise Fault("line %d has no room for %s" % (extent.first, new))
    return "\n".join(folded).encode("latin-1").decode("utf-8", "replace")


# Symbols, folds and edits.

def symbols(_server: Server, document: Document, _params: Message, _number: Any) -> Any:
    answers, found = {it.extent: it.text for it in document.answered()}, []
    for extent in document.extents:
        statement = document.statement(extent)
        if statement.operation is None:
            continue
        operands = " ".join(it.text for it in statement.operands[:2]).encode("latin-1").decode("utf-8", "replace")
        name = one_line(" ".join(filter(None, [statement.name, operands])))[:MOST_ANSWER]
        found.append({"name": name, "detail": answers.get(extent, ""),
                      "kind": FUNCTION if statement.form in ("OBTAIN", "BUILD") else EVENT,
                      "range": document.lines_range(extent.first, extent.last),
                      "selectionRange": document.range_of(extent, statement.operation)})
    return found


def folds(_server: Server, document: Document, _params: Message, _number: Any) -> Any:
    """Statements over several lines, and comments over several."""
    found = [{"startLine": document.begins[it.first - 1], "endLine": document.begins[it.last - 1]}
             for it in document.extents if it.first < it.last]
    raw, begins = document.raw, document.begins
    for is_comment, lines in groupby(range(len(raw)), lambda it: not document.kinds[it] and raw[it].startswith(b"*")):
        first, *others = lines
        if is_comment and others:
            found.append({"startLine": begins[first], "endLine": begins[others[-1]], "kind": "comment"})
    return found


def actions(_server: Server, document: Document, params: Message, _number: Any) -> Any:
    """The word that a fault proposes, and a statement that runs over column 71 folded into lines."""
    found = [it for it in (proposed(document, given) for given in params["context"]["diagnostics"]) if it]
    first, last = (document.place_of(params["range"][it])[0] for it in ("start", "end"))
    for line in range(first, last + 1):
        extent, raw = document.at(line), document.raw[line - 1]
        text = operand_text(raw.decode("latin-1"))
        lines = fold(text) if len(text) > LAST_COLUMN and raw.isascii() and not is_passed_over(raw) else None
        if lines and extent and extent.first == line:
            where = document.lines_range(line, line)
            found.append(action(document, "fold the statement at column 71", where, "\n".join(lines)))
    return found


def proposed(document: Document, diagnostic: Message) -> Optional[Message]:
    faults = document.listing.faults if document.listing else []
    word = next((it.hint for it in faults if it.message == diagnostic.get("message")), "")
    if not word:
        return None
    line, column = document.place_of(diagnostic["range"]["start"])
    wrong = re.match(rb"[^=, ()]*", document.raw[line - 1][column:LAST_COLUMN])[0]    # type: ignore[index]
    where = document.range((line, column), (line, column + len(wrong)))
    found = action(document, "%s instead of %s" % (word, wrong.decode("utf-8", "replace")), where, word)
    marked = {"range": document.range((line, column), document.place_of(diagnostic["range"]["end"])), "severity": 1,
              "source": "vsm", "code": str(diagnostic.get("code")), "message": diagnostic["message"]}
    return {**found, "diagnostics": [marked], "isPreferred": True} if wrong else None


def action(document: Document, title: str, where: Message, text: str) -> Message:
    edits = [{"range": where, "newText": text}]
    return {"title": title, "kind": "quickfix", "edit": {"changes": {document.uri: edits}}}


LATER = object()    # the result of a request that a run will answer
FEATURES: dict[str, Callable[[Any, Document, Message, Any], Any]] = {"textDocument/" + name: does for name, does in {
    "hover": hover, "completion": complete, "definition": definition, "references": references,
    "documentHighlight": highlights, "prepareRename": prepare_rename, "rename": rename, "documentSymbol": symbols,
    "foldingRange": folds, "codeAction": actions, "codeLens": lenses, "inlayHint": hints}.items()}
