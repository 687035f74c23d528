"""Variable symbols of conditional assembly, and what calls of a source's own macros consist of."""
from __future__ import annotations

import re
from dataclasses import replace
from typing import Optional, Sequence, Union

from .assembler import SYMBOL, Statement, Unknown, bounded, raw_operands

VARIABLE = re.compile(r"&(%s)(?![\w$#@(])\.?" % SYMBOL)
PIECE = re.compile(r"&&|%s|." % VARIABLE.pattern, re.S)     # a variable symbol, or a character between two
TOKEN = re.compile(r"\s*('(?:[^'&]|''|&&)*'(?!\()|\d+|[A-Z]+(?![\w'])|[-+*/()])", re.I)
PYTHON = {"EQ": "==", "NE": "!=", "LT": "<", "GT": ">", "LE": "<=", "GE": ">=", "AND": "and", "OR": "or", "NOT": "not", "/": "//"}
SIGNS = {*PYTHON.values(), *"+-*()"}
LOGICAL = {*PYTHON.values()} - {"//"}
MOST_WORDS = 200       # of an expression
MOST_TEXT = 1024       # characters of a value
MOST_CALLS = 8         # of macros within each other


class Text(str):
    """A text of an expression, which can only be compared with one, and only for being the same."""
    __hash__ = str.__hash__
    __add__ = __mul__ = __rmul__ = __mod__ = __lt__ = __gt__ = __le__ = __ge__ = None    # type: ignore[assignment]

    def __eq__(self, other: object) -> bool:
        if not isinstance(other, Text):
            raise TypeError
        return str(self) == str(other)


def filled(text: str, values: dict[str, str]) -> str:
    """A text with the values of the variable symbols that are known."""
    return VARIABLE.sub(lambda found: values.get(found[1].upper(), found[0]), text)


class Variables:
    """The values of variable symbols, as far as they're known, in the source's order."""

    def __init__(self, given: dict[str, str], shared: Sequence[str] = ()) -> None:
        self.given, self.known = given, dict(given)
        self.shared = set(shared)      # those that macros may set

    def take(self, it: Statement, lines: list[str]) -> None:
        """A statement that is assembled, or perhaps: a value, or values in its operands."""
        if re.fullmatch(r"(SET|LCL)[ABC]", it.operation):
            names = [it.name] if it.operation.startswith("SET") else it.parts
            for name in [name.lstrip("&").upper() for name in names]:
                if name not in self.given:
                    self.set(name, it, lines)
        elif "&" in it.operands + it.name:
            found = [(part.start(), filled(part[0], self.known)) for part in PIECE.finditer(it.operands)]
            it.places = [it.places[at] for at, text in found for _ in text] if it.places else []
            it.operands, it.name = "".join(text for _, text in found), filled(it.name, self.known)
            it.is_filled = True

    def set(self, name: str, it: Statement, lines: list[str]) -> None:
        try:
            value = "" if it.operation == "LCLC" else "0"
            if it.operation.startswith("SET"):
                value = str(self.value(raw_operands(it, lines)))
            if it.doubt or name in self.shared or len(value) > MOST_TEXT:
                raise Unknown("whether it's assembled isn't known")
            self.known[name] = value
            it.is_carried_out = True
        except Unknown:
            self.known.pop(name, None)

    def value(self, text: str) -> Union[int, str]:
        """The value of an expression, up to the blank after it. In Python's words it has only numbers, texts and signs."""
        words, at, text = [], 0, filled(text, self.known).strip()
        while (found := TOKEN.match(text, at)) and not (words and text[at].isspace() and words.count("(") == words.count(")")):
            word, at = found[1].upper(), found.end()
            words.append("Text(%r)" % found[1][1:-1].replace("''", "'") if word[0] == "'" else
                         str(int(word)) if word.isdigit() else PYTHON.get(word, word))
        shape = "".join(word if word in "()" else "o" if word in SIGNS else "n" for word in words)
        is_known = all(word in SIGNS or word[-1] == ")" or word.isdigit() and len(word) < 11 for word in words)
        if text[at:at + 1].strip() or not is_known or not 0 < len(words) < MOST_WORDS or re.search(r"[n)][n(]|\(\)", shape) \
                or {"-", "//"} <= set(words):
            raise Unknown("'%s' isn't read" % text)
        try:
            value = eval(" ".join(words), {"__builtins__": {}, "Text": Text})
        except (ArithmeticError, SyntaxError, TypeError, RecursionError, MemoryError):
            raise Unknown("'%s' isn't read" % text) from None
        return str(value) if isinstance(value, str) else bounded(int(bool(value) if LOGICAL & set(words) else value))


def expanded(it: Statement, macros: dict[str, list[Statement]], depth: int = 0) -> Optional[list[Statement]]:
    """The statements of a call of one of these macros, each perhaps not assembled; None if they can't be known."""
    prototype, *body = macros[it.operation]
    values = {prototype.name.lstrip("&"): it.name}
    positional = [text.lstrip("&").upper() for text in prototype.parts if "=" not in text]
    for text in prototype.parts:
        name, _, value = text.partition("=")
        values[name.lstrip("&").upper()] = value
    for text in it.parts:
        name, is_keyword, value = text.partition("=")
        if is_keyword and name.upper() in values and name.upper() not in positional:
            values[name.upper()] = value
        elif positional:
            values[positional.pop(0)] = text
    found: list[Statement] = []
    for one in body:
        one = replace(one, first=it.first, last=it.last, operation=filled(one.operation, values).upper(),
                      operands=filled(one.operands, values), name="")
        if "&" in one.operation or one.operation in ("MACRO", "COPY") or depth > MOST_CALLS or len(found) > MOST_TEXT:
            return None
        inner = expanded(one, macros, depth + 1) if one.operation in macros else [one]
        if inner is None:
            return None
        found += inner
    return found
