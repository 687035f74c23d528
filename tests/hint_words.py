"""The words of statements: as hints of a listing are guessed from them, as the tools complete them, and as
docs/STATEMENTS.md has them."""
from __future__ import annotations

import re
import sys
from dataclasses import dataclass, field
from pathlib import Path

sys.path.insert(0, str(Path(__file__).resolve().parent.parent / "tools"))
from vsmtools.words import FORMS, KEYWORDS  # noqa: E402

WORD = re.compile(r'b"([A-Z]+)"')
FORM = re.compile(r'Form \{\s*operation: b"(\w+)",\s*words: &\[(.*?)\],\s*positions: &\[(.*?)\],\s*keywords: &\[(.*?)\],'
                  r'\s*required: &\[(.*?)\],\s*instead: (.*?),\s*\}', flags=re.S)
# The kinds of values, as the page has them and as the source does. A number of PEEK has a kind of its own.
KINDS = {
    "value": "Value", "pair": "Pair", "value|pair": "Length", "target": "Place", "name": "Name", "location": "Location",
    "header": "Header", "bytes": "Content", "number": "Count", "DBLWD|PAGE": "Boundary", "YES|NO": "Condition",
    "UNCOND|U|COND|C": "ConditionWord",
}


@dataclass
class Known:
    """What an operation takes: its forms, if its first operand is one, and its keywords."""
    forms: set[str] = field(default_factory=set)
    keywords: set[str] = field(default_factory=set)


@dataclass
class Form:
    """The kinds of the operands of a form, without and with a keyword; the keywords that have to be written, and one that can
    be written in their place."""
    positions: list[str] = field(default_factory=list)
    keywords: dict[str, str] = field(default_factory=dict)
    required: list[str] = field(default_factory=list)
    instead: list[str] = field(default_factory=list)


@dataclass
class Words:
    operations: dict[str, Known]
    # Of each operation with its forms that take the same.
    forms: dict[tuple[str, str], Form]
    # Keywords of which a statement has one.
    apart: set[tuple[str, str]]
    # Keywords without an effect, which are allowed in each of several macros.
    idle: set[str] = field(default_factory=set)


def all_words(forms: dict[tuple[str, str], Form], idle: set[str], with_idle: list[str]) -> dict[str, Known]:
    operations: dict[str, Known] = {}
    for (operation, words), form in forms.items():
        known = operations.setdefault(operation, Known())
        known.forms |= set(words.split("|")) - {""}
        known.keywords |= set(form.keywords) | (idle if operation in with_idle else set())
    return operations


def in_code(text: str, operands: str) -> Words:
    """As the source of the hints has them."""
    forms = {}
    for row in FORM.finditer(text):
        operation, words, positions, keywords, required, instead = row.groups()
        forms[operation, "|".join(WORD.findall(words))] = Form(
            re.findall(r"Kind::(\w+)", positions), dict(re.findall(r'\(b"(\w+)", Kind::(\w+)\)', keywords)), WORD.findall(required),
            WORD.findall(instead))
    everywhere, with_these = (re.search(rf"static {name}: .*? = \[(.*?)\];", text, flags=re.S) for name in ("EVERYWHERE", "WITH_THESE"))
    apart = re.search(r"const APART: .*? = \[(.*?)\];", operands, flags=re.S)
    idle = set(WORD.findall(everywhere[1] if everywhere else ""))
    operations = all_words(forms, idle, WORD.findall(with_these[1] if with_these else ""))
    return Words(operations, forms, set(re.findall(r'\(b"(\w+)", b"(\w+)"\)', apart[1] if apart else "")), idle)


def words_in(sentence: str) -> list[str]:
    return re.findall(r"[A-Z]{2,}", sentence)


def on_page(text: str) -> Words:
    """As the page has them: by the lines below its headings that show how a statement is written, and the sentence on
    what is allowed in each of several macros."""
    forms: dict[tuple[str, str], Form] = {}
    apart = set()
    for line in re.findall(r"(?m)^    ([A-Z].*)$", text):
        operation, _, operands = line.partition(" ")
        first = re.match(r"[A-Z|]+(?=[,\[])", operands)
        words = first[0] if first else ""
        required = re.findall(r"([A-Z]+)=", re.sub(r"\[.*?\]", "", operands))
        form = forms.setdefault((operation, words), Form(required=required))
        form.instead = [] if required == form.required else required
        for key, kind in re.findall(r"([A-Z]+)=(\w+(?:\|\w+\b(?!=))*)", operands):
            form.keywords[key] = KINDS[kind]
        others = [it for it in re.sub(r"[\[\]]", "", operands[len(words):]).split(",") if it and "=" not in it]
        form.positions = ["Size" if (operation, it) == ("PEEK", "number") else KINDS[it] for it in others]
        apart |= set(re.findall(r"\[,(\w+)=value\|(\w+)=value\]", operands))
    anywhere = re.search(r"(?m)^(.*) are allowed in each (.*?), with any value", text)
    idle = set(words_in(anywhere[1])) if anywhere else set()
    return Words(all_words(forms, idle, words_in(anywhere[2]) if anywhere else []), forms, apart, idle)


def of_tools() -> dict[str, Known]:
    """As the tools complete them, without those that have no effect."""
    return {operation: Known(set(forms), {word for head, words in KEYWORDS.items() if head.split()[0] == operation for word in words})
            for operation, forms in FORMS.items()}


def read(top: Path) -> tuple[Words, Words]:
    """Both, of a repository."""
    forms = top / "crates" / "explain_faults" / "src" / "forms.rt"
    operands = top / "crates" / "explain_faults" / "src" / "operand_hints.rt"
    return in_code(forms.read_text(), operands.read_text()), on_page((top / "docs" / "STATEMENTS.md").read_text())
