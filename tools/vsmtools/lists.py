"""List forms of macros: what MF=L and SF=L define, and what an execute form such as MF=(E,NAME) takes from there."""
from __future__ import annotations

import re
from dataclasses import dataclass, field, replace
from typing import Optional

from .assembler import SYMBOL, Statement, Unknown, split_operands
from .contents import Content, Contents

# Forms whose lengths are a list in storage, and those that have the length of a list of one as an operand.
SINGLE = {"GETMAIN": {"LC": "EC", "LU": "EU", "VC": "VRC", "VU": "VRU"}, "FREEMAIN": {"L": "E", "LC": "EC", "LU": "EU"}}


@dataclass
class ListForm:
    """The operands of one list, by their keywords; the positional one by ''. Since which line it has them: 0 if it's
    assembled that way. Of those that an execute form stored from a register, the line."""
    operation: str
    operands: dict[str, str]
    since: int = 0
    stored: dict[str, int] = field(default_factory=dict)


def keyed(text: str) -> tuple[str, str]:
    """An operand's keyword and value."""
    head = re.match(r"([A-Za-z]\w*)=(.*)$", text, re.S)
    return (head[1].upper(), head[2]) if head else ("", text)


def single(operation: str) -> str:
    """The name of a macro whose two names are one."""
    return "ATTACH" if operation == "ATTACHX" else operation


def list_keyword(operation: str) -> str:
    return "SF" if single(operation) == "ATTACH" else "MF"


def list_name(it: Statement) -> Optional[str]:
    """The name of the list that a macro defines; None if it isn't a list form."""
    values = [value.upper() for key, value in map(keyed, it.parts) if key == list_keyword(it.operation)]
    found = re.fullmatch(r"L|\(L(?:,(%s))?(?:,.*)?\)" % SYMBOL, values[0] if values else "", re.S)
    return (found[1] or it.name) if found else None


class Lists:
    """The lists of a source, as its text in its order leaves them."""

    def __init__(self) -> None:
        self.assembled: dict[str, ListForm] = {}
        self.known: dict[str, ListForm] = {}
        self.changed: set[str] = set()         # lists that the program changes, in any round over the source

    def begin(self) -> None:
        """The lists as they're assembled."""
        self.known = {name: replace(form, operands=dict(form.operands), stored={}) for name, form in self.assembled.items()}

    def check(self, name: str, contents: Contents) -> None:
        """Checks that the list is as the text has it on all ways."""
        content = contents.state.get(contents.list_key(name))
        if content is None and name not in self.changed and not self.known[name].since:
            return
        content = content or contents.get("")
        if content.kind != "list" or content.what != self.known[name].since:
            raise Unknown("what list %s holds here isn't known: %s" % (name, content.what if content.kind == "lost" else
                                                                        "other ways have another"))

    def change(self, name: str, line: int, contents: Contents) -> None:
        """A line gives a list what the text says."""
        self.changed.add(name)
        self.known[name].since = line
        contents.state[contents.list_key(name)] = Content("list", line, line)

    def define(self, it: Statement) -> bool:
        """Takes a list form; returns whether the statement is one."""
        name = list_name(it)
        if name:
            found: dict[str, str] = {}
            for text in it.parts:
                found.setdefault(*keyed(text))
            found.pop(list_keyword(it.operation))
            self.assembled[name] = ListForm(single(it.operation), found)
        return name is not None

    def copy(self, it: Statement, contents: Contents) -> Optional[tuple[str, str]]:
        """The names of the copy and the list, if it's MVC of a whole list that is known."""
        operands = [text.upper() for text in it.parts]
        if it.operation != "MVC" or len(operands) != 2 or operands[1] not in self.known:
            return None
        try:
            self.check(operands[1], contents)
        except Unknown:
            return None
        return re.sub(r"\(.*", "", operands[0], flags=re.S), operands[1]

    def copied(self, name: str, of: str, line: int, contents: Contents) -> None:
        form = self.known[of]
        self.known[name] = replace(form, operands=dict(form.operands), stored=dict(form.stored))
        self.change(name, line, contents)

    def merged(self, it: Statement, contents: Contents) -> list[tuple[int, str]]:
        """The operands of a macro; of an execute form with those of its list that it doesn't give itself."""
        operands, keyword = split_operands(it.operands), list_keyword(it.operation)
        others = [(at, text) for at, text in operands if keyed(text)[0] != keyword]
        if len(others) == len(operands):
            return operands
        at, value = next((at, keyed(text)[1]) for at, text in operands if keyed(text)[0] == keyword)
        if value.upper() == "S":
            return others
        named = re.fullmatch(r"\(E,(%s)(,COMPLETE)?\)" % SYMBOL, value.upper())
        form = self.known.get(named[1]) if named else None
        if form is None or form.operation != single(it.operation):
            raise Unknown("%s=%s names a list, and neither the source nor --copy has its list form of %s"
                          % (keyword, value, single(it.operation)), at + 1)
        name = named[1] if named else ""
        try:
            self.check(name, contents)
            found = self.completed(form, name, at, others, it.first + 1)
        except Unknown as why:
            contents.lose_list(name, it.first + 1)
            self.changed.add(name)
            raise Unknown(str(why), why.column or at + 1) from None
        if others:
            self.change(name, it.first + 1, contents)
        return found

    def completed(self, form: ListForm, name: str, at: int, given: list[tuple[int, str]],
                  line: int) -> list[tuple[int, str]]:
        """The operands of an execute form, the positional one first."""
        own = dict(keyed(text) for _, text in given)
        rest = [(at, "%s=%s" % (key, text) if key else text) for key, text in form.operands.items() if key not in own]
        lost = next((key for key in form.stored if key not in own), None)
        if lost is not None:
            raise Unknown("%s of list %s is what line %d stored there from a register"
                          % (lost, name, form.stored[lost]), at + 1)
        for key, text in own.items():     # stays in the list
            form.operands[key] = text
            form.stored.pop(key, None)
            if key != "LOC" and re.search(r"\(\w+\)|\(\(|,\(", text):
                form.stored[key] = line
        return sorted(given + rest, key=lambda operand: keyed(operand[1])[0] != "")
