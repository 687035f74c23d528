"""Joins a page's files to one: the template's styles and script, and the data passed to it.

A template is an ordinary HTML file. A line `<link rel="stylesheet" href="NAME">` becomes that file's text; so does
`<script type="module" src="NAME"></script>`, with all modules that it imports, each once and before those that need
it. Modules import by one line, `import { a, b } from './NAME.js';`, and all names that they declare at the left margin
differ, since they end up in one script. `./messages.js` is made here: what docs/MESSAGES.md says of each answer. Data
go to the element `<script type="application/json" id="ID"></script>`.
"""
import base64
import hashlib
import html
import json
import re
from collections.abc import Mapping
from pathlib import Path

HERE = Path(__file__).resolve().parent
MESSAGES = HERE.parent / "docs" / "MESSAGES.md"
MADE = "messages.js"

STYLE = re.compile(r'<link rel="stylesheet" href="([\w.-]+)">')
SCRIPT = re.compile(r'<script type="module" src="([\w.-]+)"></script>')
IMPORT = re.compile(r"^import \{[^}]*\} from '\./([\w-]+\.js)';\n", re.MULTILINE)
EXPORT = re.compile(r"^export (?=async |function|class|const )", re.MULTILINE)
DECLARED = re.compile(r"^(?:async )?(?:function\*?|class|const|let) (\w+)(.*)$", re.MULTILINE)
FURTHER = re.compile(r", ([A-Za-z]\w*) = ")


class BuildFault(Exception):
    """What is wrong with the page's files, in one line."""


def plain(cell: str) -> str:
    """The text of a table's cell, without marks of code; a link to a part of another document names it."""
    words = re.sub(r"\[([^].]*)\]\(([\w-]+)\.md#[^)]*\)", r"\1 in \2", cell)
    return re.sub(r"\[([^\]]*)\]\([^)]*\)", r"\1", words).replace("`", "").strip()


def table(text: str, heading: str) -> list[list[str]]:
    """The cells of the rows of the first table below a heading."""
    _, found, below = text.partition(f"\n## {heading}\n")
    rows = [line for line in below.partition("\n## ")[0].split("\n") if line.startswith("|")]
    if not found or len(rows) < 3:
        raise BuildFault(f"{MESSAGES}: no table follows '{heading}'")
    return [[cell.strip() for cell in row.strip("|").split("|")] for row in rows[2:]]


def texts_of(cell: str) -> list[str]:
    """The answers that a first cell names: in `ABEND SB78`, `SB0A` the second is ABEND SB0A."""
    spans = re.findall(r"`([^`]+)`", cell)
    word = spans[0].split(" ")[0]
    return [span if " " in span or span == spans[0] else f"{word} {span}" for span in spans]


def messages(text: str) -> list[dict[str, object]]:
    """What docs/MESSAGES.md says of each answer: its texts, what they mean, what they leave or what to do."""
    rows: list[dict[str, object]] = []
    for heading, more in (("Answers", "leaves"), ("Refusals", "advice")):
        for cells in table(text, heading):
            rows.append({"texts": texts_of(cells[0]), "meaning": plain(cells[1]), more: plain(cells[2])})
    return rows


def lessons() -> dict[str, tuple[str, str]]:
    """The lessons of examples/README.md in their order: title and question by file."""
    text = (HERE.parent / "examples" / "README.md").read_text(encoding="utf-8")
    rows = re.findall(r"^\| \[[\w-]+\]\(([\w.-]+)\) \| (.*?) \| (.*?) \|$", text, re.MULTILINE)
    return {file: (plain(what), plain(question)) for file, what, question in rows}


def source(name: str) -> str:
    """The text of a module."""
    if name == MADE:
        told = messages(MESSAGES.read_text(encoding="utf-8"))
        return f"export const MESSAGES = {json.dumps(told, ensure_ascii=False)};\n"
    return (HERE / name).read_text(encoding="utf-8")


def modules(entry: str) -> dict[str, str]:
    """The text of a module and of all that it imports, each after those that it needs."""
    done: dict[str, str] = {}
    begun: set[str] = set()

    def visit(name: str) -> None:
        if name in done:
            return
        if name in begun:
            raise BuildFault(f"page/{name}: it imports itself")
        begun.add(name)
        text = source(name)
        for other in IMPORT.findall(text):
            visit(other)
        done[name] = EXPORT.sub("", IMPORT.sub("", text))

    visit(entry)
    return done


def declared_in(text: str) -> list[str]:
    """The names that a module declares at the left margin: `const ROWS = 8, WIDE = 64;` declares two."""
    names: list[str] = []
    for name, more in DECLARED.findall(text):
        names += [name, *([] if "(" in more else FURTHER.findall(more))]
    return names


def joined_script(entry: str) -> str:
    """One script of a module and all that it imports."""
    parts = modules(entry)
    owners: dict[str, str] = {}
    for name, text in parts.items():
        for declared in declared_in(text):
            if declared in owners:
                raise BuildFault(f"page/{name}: {declared} is declared in page/{owners[declared]} too")
            owners[declared] = name
    whole = "".join(f"// {name}\n{text}" for name, text in parts.items())
    if "</script" in whole:
        raise BuildFault(f"page/{entry}: a script can't hold the end of one")
    return whole


def as_json(value: object) -> str:
    """JSON in which no text can end its element."""
    return json.dumps(value, separators=(",", ":")).replace("<", "\\u003c")


def build_page(template: Path, title: str, data: Mapping[str, object]) -> str:
    """The page of a template, as one text."""
    page = template.read_text(encoding="utf-8")
    page = page.replace("<title></title>", f"<title>{html.escape(title)}</title>")
    page = STYLE.sub(lambda it: f"<style>\n{(HERE / it[1]).read_text(encoding='utf-8')}</style>", page)
    found = SCRIPT.search(page)
    script = "\n" + joined_script(found[1]) if found else ""
    page = SCRIPT.sub(lambda _: f'<script type="module">{script}</script>', page)
    # The policy names this script by its sum: no other one runs.
    digest = base64.b64encode(hashlib.sha256(script.encode()).digest()).decode()
    page = page.replace("script-src 'unsafe-inline'", f"script-src 'sha256-{digest}'", 1)
    for name, value in data.items():
        empty = f'<script type="application/json" id="{name}"></script>'
        before, found, behind = page.partition(empty)
        if not found:
            raise BuildFault(f"{template}: no element is for the data '{name}'")
        page = before + empty.replace("></", f">{as_json(value)}</") + behind
    return page
