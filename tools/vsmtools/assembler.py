"""Assembler source as far as its storage macros need it: statements over lines, symbols with values and lengths.

Nothing is assembled: the distance between two places isn't known if an instruction is between them.
"""
from __future__ import annotations

import re
from collections import Counter
from dataclasses import dataclass, field
from functools import cached_property
from typing import TYPE_CHECKING, NoReturn, Optional, Sequence

if TYPE_CHECKING:
    from .variables import Variables

SYMBOL = r"[A-Za-z$#@_][\w$#@]*"
SECTIONS = {"DSECT", "CSECT", "RSECT", "START", "COM"}
# Statements that leave the place in their section as it is.
WITHOUT_CODE = SECTIONS | set("EQU USING DROP TITLE EJECT SPACE PRINT AMODE RMODE ENTRY EXTRN WXTRN PUSH POP END ALIAS "
                              "XATTR OPSYN ACONTROL ADATA REPRO PUNCH MNOTE LCLA LCLB LCLC GBLA GBLB GBLC SETA SETB SETC "
                              "AIF AGO ANOP MEXIT MEND ACTR YREGS SYSSTATE LOCTR".split())
LENGTHS = {"A": 4, "Y": 2, "S": 2, "V": 4, "Q": 4, "J": 4, "R": 4, "F": 4, "H": 2, "E": 4, "D": 8, "L": 16,
           "AD": 8, "FD": 8, "VD": 8, "JD": 8, "RD": 8, "EB": 4, "DB": 8, "LB": 16, "EH": 4, "DH": 8,
           "LH": 16, "ED": 4, "DD": 8, "LD": 16}
TO_THE_BYTE = ("C", "X", "B", "P", "Z", "CA", "CE")
MOST_DEPTH = 100
MOST_NUMBER = 0xFFFFFFFF      # numbers have 32 bits, with or without a sign
END = 1 << 30                 # beyond all statements
BRANCHES = {"AIF", "AIFB", "AGO", "AGOB"}    # of conditional assembly


class Unknown(Exception):
    """Why something of the source can't be known; its column, from 1, if it has one."""

    def __init__(self, text: str, column: Optional[int] = None) -> None:
        super().__init__(text)
        self.column = column


class Circular(Unknown):
    """A symbol depends on itself."""


@dataclass
class Statement:
    """One statement: its lines (from 0), name, operation, operands; of each character of the operands its place."""
    first: int
    last: int
    name: str = ""
    operation: str = ""
    operands: str = ""
    places: list[tuple[int, int]] = field(default_factory=list)   # line from 0, column from 1
    is_comment: bool = False
    is_skipped: bool = False      # by AGO: it isn't assembled
    doubt: int = 0                # the line of the AIF or AGO that decides whether it's assembled
    is_carried_out: bool = False  # a statement of conditional assembly whose value or condition is known
    is_filled: bool = False       # its operands have the values of variable symbols
    misplaced: str = ""           # why its last operand may continue on the next line

    @cached_property
    def parts(self) -> list[str]:
        """The operands."""
        return [text for _, text in split_operands(self.operands)]

    def place(self, at: int) -> tuple[int, int]:
        """The place of a character of the operands: its line and column, both from 1."""
        line, column = self.places[at] if at < len(self.places) else (self.first, 1)
        return line + 1, column


def is_quote(text: str, at: int) -> bool:
    """Whether an apostrophe begins or ends a text, and isn't that of an attribute such as L'NAME."""
    return not (re.fullmatch(r"(?:|.*[^\w$#@'])[LTKNDIS]", text[max(at - 2, 0):at].upper(), re.S)
                and re.match(r"[A-Za-z$#@_&*]", text[at + 1:at + 2]))


def operand_end(text: str, quoted: bool) -> tuple[int, bool]:
    """How far operands reach on a line, and whether they end within apostrophes."""
    for at, char in enumerate(text):
        if char == "'" and (quoted or is_quote(text, at)):
            quoted = not quoted
        elif char == " " and not quoted:
            return at, quoted
    return len(text), quoted


def read_statement(lines: list[str], first: int) -> Statement:
    """The statement that begins on a line, with the lines that continue it."""
    line = lines[first]
    if not line[:71].strip() or line.startswith(("*", ".*")):
        return Statement(first, first, is_comment=True)
    last = first
    while lines[last][71:72].strip() and last + 1 < len(lines):
        last += 1
    head = re.match(r"(\S*)\s*(\S*)\s*", line[:71])
    assert head
    it, quoted = Statement(first, last, head[1].upper(), head[2].upper()), False
    for number in range(first, last + 1):
        start = head.end() if number == first else 15
        part = lines[number][start:71]
        if number < last and quoted is False:
            part = part.ljust(71 - start)
        end, quoted = operand_end(part, quoted)
        it.operands += part[:end]
        it.places += [(number, start + 1 + k) for k in range(end)]
        if end < len(part) and not it.operands.endswith(","):
            break
    it.misplaced = misplaced(it, lines)
    return it


def read_statements(lines: list[str]) -> list[Statement]:
    found, at = [], 0
    while at < len(lines):
        found.append(read_statement(lines, at))
        at = found[-1].last + 1
    return found


def misplaced(it: Statement, lines: list[str]) -> str:
    """Why a statement's operands may continue on the next line, though column 72 doesn't say so."""
    after = lines[it.last + 1] if it.last + 1 < len(lines) else ""
    is_operand = not after[:15].strip() and re.match(r"\S*[^\w$#@\s]", after[15:71])
    if lines[it.last][71:72].strip() or not it.operands.endswith(",") and not is_operand:
        return ""
    if is_operand:
        return "line %d looks like its continuation, but only a character in column 72 continues a line" % (it.last + 2)
    return "its operands end with a comma, and no line continues them"


def raw_operands(it: Statement, lines: list[str]) -> str:
    """What follows the operation, with its blanks."""
    parts = [line[15 if number else 0:71] for number, line in enumerate(lines[it.first:it.last + 1])]
    return re.sub(r"^\S*\s+\S+", "", "".join(part.ljust(56) for part in parts))


def targets(it: Statement, lines: list[str], labels: dict[str, int]) -> list[int]:
    """The place to which an AIF or AGO may lead: the end of the source if it has no such name."""
    named = re.findall(r"[\s),](\.[A-Z$#@_][\w$#@]*)", raw_operands(it, lines).upper())
    return [labels[name] for name in named if name in labels] or [END]


def conditions(it: Statement, lines: list[str]) -> list[str]:
    """The conditions of an AIF, each in its parentheses; none if they aren't read."""
    text, found = raw_operands(it, lines).strip(), []
    while text.startswith("("):
        depth, quoted = 0, False
        for at, char in enumerate(text):
            quoted ^= char == "'" and (quoted or is_quote(text, at))
            depth += 0 if quoted else (char == "(") - (char == ")")
            if depth == 0 and not quoted:
                break
        found.append(text[:at + 1])
        text = re.sub(r"^\s*\.[\w$#@]+,?\s*", "", text[at + 1:])
    return found


def decided(it: Statement, lines: list[str], ends: list[int], variables: Variables) -> Optional[int]:
    """Where an AIF leads: 0 if to the next statement; None if that isn't known."""
    found = conditions(it, lines) if it.operation.startswith("AIF") and not it.doubt else []
    try:
        if len(found) == len(ends) and found:
            return next((end for text, end in zip(found, ends) if variables.value(text)), 0)
    except (Unknown, RecursionError):
        pass
    return None


def mark_assembled(statements: Sequence[Statement], lines: list[str], variables: Variables) -> None:
    """Marks what a decided AIF or AGO skips, and what others may skip; takes the values of variable symbols."""
    labels = {it.name: k for k, it in enumerate(statements) if it.name.startswith(".")}
    edges = {k: targets(it, lines, labels) for k, it in enumerate(statements) if it.operation in BRANCHES}
    back = {to: k for k, ends in edges.items() for to in ends if to <= k}
    reached: set[int] = set()
    skip, doubt = (0, 0), (0, 0)      # up to which statement, and by which
    for k, it in enumerate(statements):
        if k in reached or k in back:
            doubt, skip = max(doubt, skip, (back.get(k, 0), back.get(k, 0))), (0, 0)
        it.is_skipped = k < skip[0]
        if it.is_skipped:
            continue
        it.doubt = statements[doubt[1]].first + 1 if k < doubt[0] else 0
        if k not in edges:
            variables.take(it, lines)
        elif (to := decided(it, lines, edges[k], variables)) is not None and (to == 0 or to > k):
            it.is_carried_out = True
            reached.update({to} if to else ())
            skip = (to, k)
        else:
            reached.update(edges[k])
            last = (max(edges[k]), k)
            if it.operation.startswith("AGO") and not it.operands.startswith("(") and last[0] > k:
                skip = last
            else:
                doubt = max(doubt, last)


def split_operands(text: str) -> list[tuple[int, str]]:
    """Operands with the place where each begins: split at commas outside of parentheses and apostrophes."""
    found, depth, quoted, start = [], 0, False, 0
    for at, char in enumerate(text):
        if char == "'" and (quoted or is_quote(text, at)):
            quoted = not quoted
        elif not quoted:
            depth += (char == "(") - (char == ")")
            if char == "," and depth == 0:
                found.append((start, text[start:at]))
                start = at + 1
    return found + ([(start, text[start:])] if text else [])


def bounded(number: int) -> int:
    """The number, if it has at most 32 bits."""
    if not -1 << 31 <= number <= MOST_NUMBER:
        raise Unknown("a number of it has more than 32 bits")
    return number


Place = tuple[str, int]       # a section, and which part of it between instructions


@dataclass
class Value:
    """A number, or one with places of sections, which have to cancel each other."""
    number: int
    places: Counter = field(default_factory=Counter)

    def plus(self, other: Value, sign: int) -> Value:
        places = Counter(self.places)
        for place, count in other.places.items():
            places[place] += sign * count
        return Value(bounded(self.number + sign * other.number), Counter({k: n for k, n in places.items() if n}))


@dataclass
class Section:
    """How far a section goes: which part, how far into it, and what alignment the part's begin has."""
    part: int = 0
    offset: int = 0
    alignment: int = 8
    highest: int = 0


@dataclass
class Symbol:
    """What a name is defined as: a value, an expression of an EQU with its place, or nothing known."""
    value: Optional[Value] = None
    expression: str = ""
    here: Optional[Value] = None
    length: Optional[int] = None
    length_text: str = ""
    data: bytes = b""
    why: str = ""


class Symbols:
    """The symbols of a source."""

    def __init__(self, given: dict[str, int]) -> None:
        self.known = {name: Symbol(Value(number), length=1) for name, number in given.items()}
        self.given = set(given)
        self.sections: dict[str, Section] = {}
        self.section = ""
        self.dummies: set[str] = set()         # sections by DSECT
        self.counters: dict[str, str] = {}     # the sections of location counters by LOCTR
        self.scattered: set[str] = set()       # sections with these: their parts aren't in turn
        self.sizes: dict[Place, int] = {}      # of parts of sections that are ended
        self.depth = 0                         # of expressions at work
        self.registers_taken = False

    def define(self, name: str, symbol: Symbol) -> None:
        if name and not name.startswith(".") and name not in self.given:
            self.known[name] = symbol

    # Pass over the source.

    def read(self, statements: list[Statement]) -> list[tuple[Statement, str]]:
        """Takes all definitions; returns what couldn't be worked out."""
        told: list[tuple[Statement, str]] = []
        statements = [it for it in statements if not it.is_skipped]
        for it in statements:
            if it.operation == "EQU" and not it.doubt:
                self.equate(it, None)
        for it in statements:
            try:
                self.take(it)
                if it.doubt and it.name in self.known and it.operation not in SECTIONS:
                    raise Unknown("whether it's assembled isn't known, by line %d" % it.doubt)
            except Unknown as why:
                told.append((it, "%s %s can't be worked out: %s" % (it.operation, it.operands, why)))
                self.define(it.name, Symbol(why=str(why)))
                self.begin_part(1)
        for it in statements:
            if it.operation == "EQU" and it.name in self.known and it.name not in self.given:
                try:
                    self.symbol(it.name, ())
                    self.length(it.name, ())
                except Circular as why:
                    told.append((it, str(why)))
                except Unknown:
                    pass   # reported if a macro needs it
        return told

    def here_section(self) -> Section:
        return self.sections.setdefault(self.section, Section())

    def begin_part(self, alignment: int) -> None:
        section = self.here_section()
        self.sizes[self.section, section.part] = section.highest
        section.part, section.offset, section.alignment, section.highest = section.part + 1, 0, alignment, 0

    def here(self) -> Value:
        it = self.here_section()
        return Value(it.offset, Counter({(self.section, it.part): 1}))

    def take(self, it: Statement) -> None:
        if it.is_comment:
            return
        if it.operation in SECTIONS:
            self.section = self.counters[it.name] = it.name
            if it.operation == "DSECT":
                self.dummies.add(it.name)
            self.define(it.name, Symbol(Value(0, Counter({(it.name, 0): 1})), length=1))
        elif it.operation == "EQU":
            self.equate(it, self.here())
        elif it.operation in ("DS", "DC"):
            self.data(it)
        elif it.operation == "ORG":
            self.origin(it)
        elif it.operation == "LOCTR":
            self.section = self.counters.setdefault(it.name, self.section)
            self.scattered.add(self.section)
            self.begin_part(8)
        elif it.operation not in WITHOUT_CODE:
            self.define(it.name, Symbol(self.here(), why="the length of an instruction isn't known"))
            self.begin_part(2)

    def equate(self, it: Statement, here: Optional[Value]) -> None:
        expression, length, *_ = *it.parts, "", ""
        self.define(it.name, Symbol(expression=expression, here=here, length_text=length,
                                    why="" if it.parts else "its EQU has no operand"))

    def origin(self, it: Statement) -> None:
        section = self.here_section()
        if not "".join(it.parts[:1]):
            section.offset = section.highest
            return
        value = self.evaluate(it.parts[0], self.here())
        if value.places != Counter({(self.section, section.part): 1}):
            raise Unknown("it leads to a place that isn't known")
        section.offset = value.number

    def data(self, it: Statement) -> None:
        section, is_first = self.here_section(), True
        for operand in it.parts:
            count, kind, length, is_explicit, whole, data = self.constant(operand)
            if not is_explicit and kind not in TO_THE_BYTE:
                to = 8 if kind == "L" else LENGTHS[kind]
                if to > section.alignment:
                    self.begin_part(to)
                section.offset = -(-section.offset // to) * to
            data = data * count if count <= MOST_DEPTH else b""
            if is_first:
                self.define(it.name, Symbol(self.here(), length=length, data=data))
            elif it.name in self.known:
                self.known[it.name].data += data
            is_first = False
            section.offset += count * whole
            section.highest = max(section.highest, section.offset)

    def constant(self, text: str) -> tuple[int, str, int, bool, int, bytes]:
        """A DS or DC operand: its count, type, first value's length, whether that's written, all lengths, and bytes."""
        found = re.match(r"(\d+|\([^()]*\))?([A-Z]D?|[A-Z][BHAE])(?=[L('\s]|$)(L(\d+|\([^()]*\)))?(.*)$",
                         text, re.I | re.S)
        if not found or found[2].upper() not in LENGTHS and found[2].upper() not in TO_THE_BYTE:
            raise Unknown("'%s' is no type of data that's known" % text[:20])
        kind, nominal = found[2].upper(), found[5]
        count = self.modifier(found[1]) if found[1] else 1
        if nominal and not re.fullmatch(r"\(.*\)|'.*'", nominal, re.S):
            raise Unknown("'%s' isn't read" % nominal[:20])
        inner = nominal[1:-1] if nominal else ""
        values = [inner] if kind in ("C", "CA", "CE") or not nominal else [part for _, part in split_operands(inner)]
        fixed = self.modifier(found[4]) if found[4] else LENGTHS.get(kind)
        if count < 0 or fixed is not None and fixed < 1:
            raise Unknown("'%s' has a negative number or a length of 0" % text[:20])
        lengths = [natural_length(kind, part, bool(nominal)) if fixed is None else fixed for part in values or [""]]
        return count, kind, lengths[0], bool(found[4]), sum(lengths), self.bytes_of(kind, lengths[0], inner)

    def modifier(self, text: str) -> int:
        return self.number(text[1:-1] if text.startswith("(") else text, self.here())

    def bytes_of(self, kind: str, length: int, inner: str) -> bytes:
        """The bytes of constants of numbers, as far as they're simple."""
        try:
            if length > MOST_DEPTH:
                return b""
            if kind == "X" and re.fullmatch(r"[0-9A-Fa-f]+", inner):
                return int(inner, 16).to_bytes(length, "big")
            if kind in ("A", "Y", "F", "H") and inner:
                return b"".join((self.number(part, self.here()) % 256 ** length).to_bytes(length, "big")
                                for _, part in split_operands(inner))
        except (Unknown, OverflowError, ValueError):
            pass
        return b""

    # Values.

    def number(self, text: str, here: Optional[Value] = None, stack: tuple[str, ...] = ()) -> int:
        """The number that an expression gives."""
        value = self.evaluate(text, here, stack)
        if value.places:
            raise Unknown(("'%s' isn't a number but an address of the program" if len(value.places) == 1 else
                           "how far '%s' is isn't known: instructions lie between, or two sections") % text)
        return value.number

    def evaluate(self, text: str, here: Optional[Value] = None, stack: tuple[str, ...] = ()) -> Value:
        expression = Expression(self, text, here, stack)
        value = expression.sum()
        return expression.wrong() if expression.tokens[expression.at] else value

    def symbol(self, name: str, stack: tuple[str, ...]) -> Value:
        name = name.upper()
        it = self.known.get(name)
        if it is None:
            register = re.fullmatch(r"R(1[0-5]|\d)", name)
            if register:
                self.registers_taken = True
                return Value(int(register[1]))
            raise Unknown("%s isn't defined: --copy or --equ defines it" % name)
        if it.value is not None:
            return it.value
        if not it.expression:
            raise Unknown("%s can't be worked out: %s" % (name, it.why))
        it.value = self.evaluate(it.expression, it.here, self.deeper(name, stack))
        return it.value

    def deeper(self, name: str, stack: tuple[str, ...]) -> tuple[str, ...]:
        """The symbols that are being worked out, with one that another depends on."""
        if name in stack:
            raise Circular("%s depends on itself: %s" % (name, " ".join((*stack[stack.index(name):], name))))
        if len(stack) > MOST_DEPTH:
            raise Unknown("%s depends on more than %d others" % (stack[0], MOST_DEPTH))
        return (*stack, name)

    def length(self, name: str, stack: tuple[str, ...]) -> int:
        it = self.known.get(name.upper())
        if it is None:
            raise Unknown("%s isn't defined: --copy or --equ defines it" % name.upper())
        if it.length is not None:
            return it.length
        stack = self.deeper(name.upper(), stack)
        if it.length_text:
            it.length = self.number(it.length_text, it.here, stack)
        elif it.expression:
            first = re.match(SYMBOL + r"(?!')", it.expression)
            it.length = self.length(first[0], stack) if first else 1
        if it.length is None:
            raise Unknown("L'%s isn't known: %s" % (name.upper(), it.why))
        return it.length


def natural_length(kind: str, inner: str, is_given: bool) -> int:
    """The length of a constant of as many bytes as it's written with."""
    if not is_given:
        return 1
    if kind in ("C", "CA", "CE"):
        return len(inner.replace("''", "'").replace("&&", "&"))
    digits = len(re.sub(r"[^0-9A-Fa-f]", "", inner))
    return {"X": (digits + 1) // 2, "B": (digits + 7) // 8, "P": digits // 2 + 1, "Z": digits}[kind]


class Expression:
    """An expression in turn: sums of products of terms."""

    TOKEN = re.compile(r"([XBC]'(?:[^']|'')*'|L'[A-Za-z$#@_*][\w$#@]*|%s|\d+|[-+*/()])" % SYMBOL, re.I)

    def __init__(self, symbols: Symbols, text: str, here: Optional[Value], stack: tuple[str, ...]) -> None:
        self.symbols, self.text, self.here, self.stack = symbols, text, here, stack
        self.tokens: list[str] = []
        at = 0
        while at < len(text):
            found = self.TOKEN.match(text, at)
            if not found:
                raise Unknown("'%s' isn't read" % text[at:at + 20], at)
            self.tokens.append(found[0])
            at = found.end()
        self.tokens.append("")       # the end
        self.at = 0

    def wrong(self) -> NoReturn:
        raise Unknown("'%s' is no expression" % self.text[:40])

    def next(self) -> str:
        self.at += 1
        return self.tokens[self.at - 1] or self.wrong()

    def sum(self) -> Value:
        if self.symbols.depth >= MOST_DEPTH:
            raise Unknown("'%s' is nested too deeply" % self.text[:40])
        self.symbols.depth += 1
        try:
            value = self.product()
            while self.tokens[self.at] in ("+", "-"):
                sign = 1 if self.next() == "+" else -1
                value = value.plus(self.product(), sign)
            return value
        finally:
            self.symbols.depth -= 1

    def product(self) -> Value:
        value = self.term()
        while self.tokens[self.at] in ("*", "/"):
            is_product, other = self.next() == "*", self.term()
            if value.places or other.places:
                raise Unknown("'%s' multiplies or divides an address" % self.text[:40])
            if is_product:
                value = Value(bounded(value.number * other.number))
            else:
                quotient = abs(value.number) // abs(other.number) if other.number else 0
                value = Value(quotient if (value.number < 0) == (other.number < 0) else -quotient)
        return value

    def term(self) -> Value:
        token, sign = self.next(), 1
        while token in ("+", "-"):
            token, sign = self.next(), sign if token == "+" else -sign
        return self.unsigned(token) if sign > 0 else Value(0).plus(self.unsigned(token), -1)

    def unsigned(self, token: str) -> Value:
        if token == "(":
            value = self.sum()
            return value if self.next() == ")" else self.wrong()
        if token == "*":
            if self.here is None:
                raise Unknown("where '*' is isn't known")
            return self.here
        if len(token) > MOST_DEPTH or token in (")", "/"):
            self.wrong()
        if token.isdigit():
            return Value(bounded(int(token)))
        if token[1:2] == "'":
            kind, text = token[0].upper(), token[2:].rstrip("'") if token[0] not in "Ll" else token[2:]
            if kind == "L":
                return Value(self.symbols.length(text, self.stack))
            if kind == "C":
                return Value(bounded(int.from_bytes(text.replace("''", "'").encode("cp037", "replace"), "big")))
            try:
                return Value(bounded(int(text, 16 if kind == "X" else 2)))
            except ValueError:
                self.wrong()
        return self.symbols.symbol(token, self.stack)
