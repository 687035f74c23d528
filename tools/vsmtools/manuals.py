"""What STATEMENTS and MESSAGES say of operations, operands and answers: the documents of a repository or a release."""
from __future__ import annotations

import re
from functools import cache
from pathlib import Path

# For an operation: another one whose rows describe these operands, and their names there.
LIKE = {
    "GETMAIN": ("STORAGE", "OBTAIN", {"LV": "LENGTH", "A": "ADDR", "SP": "SP", "BNDRY": "BNDRY", "LOC": "LOC"}),
    "FREEMAIN": ("STORAGE", "RELEASE", {"LV": "LENGTH", "A": "ADDR", "SP": "SP"}),
    "CPOOL": ("CPOOL", "GET", {"CPID": "CPID"})}


@cache
def text_of(name: str) -> str:
    """A document's text; empty if it's missing. A release has the two next to its tools."""
    try:
        return (Path(__file__).resolve().parents[2] / "docs" / name).read_text(encoding="utf-8")
    except (OSError, UnicodeDecodeError):
        return ""


@cache
def meanings() -> list[tuple[list[str], str]]:
    """For each row of MESSAGES: the texts in its first cell, and their meaning."""
    rows = re.findall(r"(?m)^\| (`[^|]*?) \| ([^|]*?) \|", text_of("MESSAGES.md"))
    return [(re.findall(r"`([^`]*)`", head), said) for head, said in rows]


def meaning(answer: str) -> str:
    """What MESSAGES says of an ABEND, with or without this word, a FAULT or a REFUSED; empty for others."""
    words = answer.partition("=")[0].split()
    code = words[-1] if words else ""
    wanted = {"ABEND " + code, code} if words[:1] in ([code], ["ABEND"]) else {" ".join(words)}
    return next((said for texts, said in meanings() if wanted & {it.partition("=")[0] for it in texts}), "")


@cache
def sections() -> dict[str, str]:
    """What STATEMENTS says below each heading."""
    text = re.sub(r"\[([^\]]*)\]\([^)]*\)", r"\1", text_of("STATEMENTS.md"))    # links lead nowhere in a hover
    parts = re.split(r"(?m)^##+ (.*)\n", text)
    return dict(zip(parts[1::2], parts[2::2]))


def section(operation: str, form: str) -> str:
    """What STATEMENTS says of an operation with a form, or of the operation."""
    return sections().get("%s %s" % (operation, form)) or sections().get(operation, "")


def syntax(operation: str, form: str) -> str:
    """How an operation is written, as lines."""
    found = re.match(r"\s*((?: {4}.*\n)+)", section(operation, form))
    return re.sub(r"(?m)^    ", "", found[1]).rstrip("\n") if found else ""


def rows(text: str, head: str) -> list[tuple[list[str], list[str]]]:
    """For each row of the table with this title over its first column: all titles, and the row's cells."""
    table = re.search(r"(?m)^\| %s \|.*\n\|-.*\n(?:\|.*\n)+" % head, text)
    lines = [line.strip("| ").split(" | ") for line in table[0].splitlines()] if table else []
    return [(lines[0], it) for it in lines[2:]]


def row(operation: str, form: str, word: str) -> str:
    """The row of an operand in STATEMENTS: its meaning, and what holds if it's left out."""
    for _, (heads, meant, *left_out) in rows(section(operation, form), "Operand"):
        if word in re.findall(r"[A-Z0-9]+", heads):
            return "; left out: ".join([meant, *left_out])
    return ""


def like_row(operation: str, word: str) -> str:
    """The row of an operand that means the same in another operation; only its meaning if its name differs there."""
    other, form, names = LIKE.get(operation, ("", "", {}))
    said = row(other, form, names[word]) if word in names else ""
    return said if names.get(word) == word else said.partition("; left out: ")[0]


def form_row(operation: str, form: str) -> str:
    """What the table of an operation's forms says of one."""
    for titles, (heads, *cells) in rows(section(operation, form), "Form"):
        if form in heads.split(", "):
            return "; ".join("%s: %s" % (title[:1].lower() + title[1:], it) for title, it in zip(titles[1:], cells))
    return ""


def sentence(operation: str, form: str, word: str) -> str:
    """The first sentence outside of tables and examples that names an operand."""
    text = re.sub(r"(?m)^(?:\||    ).*\n", "", section(operation, form))
    found = [it for it in re.split(r"\n(?:- )?|(?<=\.) ", text) if re.search(r"\b%s\b" % re.escape(word), it)]
    return found[0].replace("**", "") if found else ""


def operand(operation: str, form: str, word: str) -> str:
    """What STATEMENTS says of an operand, by its keyword or itself; empty if it says nothing."""
    if word == form:
        said = form_row(operation, form)
    else:
        said = row(operation, form, word) or like_row(operation, word) or sentence(operation, form, word)
    return "%s: %s" % (word, said) if said else ""
