"""What registers and fields of a source hold at each statement, on every way that its branches lead there.

A state has what is known, under a register's number, or a field's place. At a place where ways meet, only what is the
same on all of them is known; why something isn't is kept in its place.
"""
from __future__ import annotations

import re
from dataclasses import dataclass
from typing import Iterable, Optional, Sequence, Union

from .assembler import SECTIONS, SYMBOL, WITHOUT_CODE, Statement, Symbols, Unknown
from .structured import STRUCTURED, Way, counters, instructions, ways
from .variables import expanded

CONDITION = "N?[EHLZOPM]"
TO_PLACE = re.compile(r"(?:B|J|BR|JL|BRL)(?:%s)|BC|BRCL?|JL?C|BX(?:H|LE)G?|[BJ]R?X(?:H|LE)G?|BRXLG|(?:BR|J|B)CTG?|BRCTH"
                      r"|CL?G?[RI][JB](?:N?[EHL])?|B|J|BRUL?|JLU" % CONDITION)
TO_REGISTER = re.compile(r"B%sR|BCR|BR|BCT(G?)R|NOPR?|JL?NOP" % CONDITION)
NO_WAY_ON = {"B", "J", "BR", "BRU", "BRUL", "JLU", "PR", "RETURN", "ABEND", "XCTL", "XCTLX", "BSM"}
COUNTS = re.compile(r"(?:BR?|J)CTG?R?|BRCTH|[BJ]R?X(?:H|LE)G?|BRXLG")
CALLS = {"BAL", "BAS", "BRAS", "JAS", "BRASL", "JASL"}
CALLS_BY_REGISTER = {"BALR", "BASR", "BASSM"}
# Instructions that change no register, and the bytes that stores change: which operand names them, and how many they
# are; 0: as many as that operand says, -4 or -8: a word or two for each register from the first to the second.
NO_CHANGE = set("C CR CH CHI CHY CL CLR CLY CY CG CGR CGHI CFI CLFI CLGFI CGFI CLI CLIY CLC CLM CP TM TMY TMLL TMLH CNOP "
                "SPKA SPM LTORG ORG CHSI CGHSI CLHHSI CLFHSI CHRL CRL CLRL".split())
STORES = {**dict.fromkeys("ST STY STRL STE".split(), (1, 4)), **dict.fromkeys("STG STGRL STD CVD CVDY".split(), (1, 8)),
          **dict.fromkeys("STH STHY STHRL".split(), (1, 2)), "STC": (1, 1), "STCY": (1, 1), "STCM": (2, 4), "STCMY": (2, 4), "STM": (2, -4), "STMY": (2, -4),
          "STMG": (2, -8), "CS": (2, 4), "CSY": (2, 4), "CSG": (2, 8), "CDS": (2, 8), "CDSY": (2, 8), "CDSG": (2, 16),
          **dict.fromkeys("MVI MVIY OI OIY NI NIY XI XIY TS".split(), (0, 1)), "MVHHI": (0, 2), "MVHI": (0, 4), "ASI": (0, 4),
          **dict.fromkeys("MVGHI AGSI STCK STCKF".split(), (0, 8)), "STCKE": (0, 16),
          **dict.fromkeys("MVC MVCIN MVN MVZ MVO XC OC NC ZAP AP SP MP DP PACK UNPK TR ED EDMK SRP".split(), (0, 0))}
MULTIPLE = {"LM", "LMG", "LMY", "LMH", "EREG"}
COPIES = {"LR", "LGR", "LTR", "LTGR", "LGFR", "LLGFR"}
LOADS = {"L", "LG", "LY", "LT", "LTG", "LLGT", "LGF", "LLGF", "LRL", "LH", "LHY", "ICM"}
IMMEDIATES = {"LHI", "LGHI", "LGFI", "LLILL", "LLILF"}
ADDS = {"AHI": 1, "AGHI": 1, "AFI": 1, "AH": 1, "A": 1, "SH": -1, "S": -1, "AL": 1, "SL": -1}
MULTIPLIES = {"MHI", "MGHI", "MH", "MSFI", "MS"}
ZEROES = {"SR", "SLR", "XR", "SGR", "XGR", "SLGR"}
ADDRESSES = {"LA", "LAY", "LARL", "LAE"}
# Instructions that change only their first register, and those that change it and the next one.
FIRST = set("N NR NG NGR NILF NILL NILH O OR OG OGR OILF OILL OILH X XG XILF IILF IILL SLL SRL SLA SRA SLLG SRLG SLAG SRAG RLL "
            "RLLG IC ICY ICMH LCR LPR LNR LCGR LPGR LNGR LBR LHR LB LLC LLCR LLH LLHR LGB LGH LGHR LGBR LLGC LLGH LLGFR LLGTR "
            "LLIHF AR ALR AGR ALGR AG SG ALG SLG ALFI SLFI AHY SHY AY SY ALY SLY AGFI MSR MSGR MSG MSGFI MHY IPM EAR EPAR CVB "
            "CVBY RISBG CS CSY CSG".split()) | COPIES | LOADS | IMMEDIATES | set(ADDS) | MULTIPLIES | ZEROES | ADDRESSES
FIRST_PAIR = set("M MR D DR ML MLR DL DLR MLG MLGR DLG DLGR DSG DSGR DSGF DSGFR SLDA SLDL SRDA SRDL CDS CDSY CDSG".split())
PAIRS = set("MVCL MVCLE MVCLU CLCL CLCLE CLCLU".split())
KNOWN = FIRST | set(STORES) | NO_CHANGE | CALLS | CALLS_BY_REGISTER | FIRST_PAIR | PAIRS | MULTIPLE
LINKAGE = (0, 1, 14, 15)
# Macros that only read the registers which they name.
READERS = set("OPEN CLOSE GET PUT PUTX READ WRITE CHECK WTO WAIT POST ENQ DEQ SNAP SNAPX ESTAE ESTAEX SETRP DELETE".split())
OWN_MACROS = {"STORAGE", "GETMAIN", "FREEMAIN", "CPOOL", "ATTACH", "ATTACHX", "DETACH"}    # that become statements
MOST_FIELDS = 256      # that are known at a time, so that no state is large
MOST_PASSES = 6        # over the statements of a macro, before nothing is known after it
MOST_SKIPPED = 64      # bytes that a branch to *+N goes over, before nothing is known


@dataclass(frozen=True)
class Content:
    """A word: a number, or what a macro gave, such as an area, and the line where it got there; or why it's lost."""
    kind: str                          # number, area, inside, pool, task, length, label, list, lost
    what: Union[int, str, tuple]       # of an area its macro's first line, from 0; with a distance, if inside
    line: int


Key = Union[int, str, tuple]           # a register; a field's name; or its section, part and offset
State = dict[Key, Content]
ALL = "*"                              # what is said of all that a state doesn't have


def lost(why: str, line: int = 0) -> State:
    return {ALL: Content("lost", why, line)}


def stored(line: int) -> Content:
    return Content("lost", "line %d stores there" % line, line)


def moved(old: Optional[Content], distance: int, line: int) -> Optional[Content]:
    """A number or an address with a distance added."""
    if old is not None and old.kind == "number":
        return Content("number", int(old.what) + distance & 0xFFFFFFFF, line)      # type: ignore[arg-type]
    if old is None or distance == 0:
        return old
    if old.kind not in ("area", "inside"):
        return None
    area, before = old.what if isinstance(old.what, tuple) else (old.what, 0)
    return Content("inside" if before + distance else "area", (area, before + distance) if before + distance else area, old.line)


def join(one: State, other: State, why: Content) -> State:
    """What two states have in common."""
    default = other[ALL]
    return {key: content if other.get(key, default) == content else why for key, content in one.items()}


def is_label(it: Statement) -> bool:
    """Whether a branch may lead to the name of a statement."""
    if it.operation in ("DS", "DC"):
        return it.operands.startswith("0")
    return it.operation not in WITHOUT_CODE or it.operation == "EQU" and it.parts[:1] == ["*"]


def is_known(operation: str) -> bool:
    """Whether it's an instruction with a known effect, and so no macro."""
    return bool(operation in KNOWN or TO_PLACE.fullmatch(operation) or TO_REGISTER.fullmatch(operation))


class Ways:
    """A source's statements in turn, the places to which its branches lead, and what may be changed anywhere."""

    def __init__(self, symbols: Symbols, code: Sequence[Statement], macros: dict[str, list[Statement]]) -> None:
        self.symbols, self.code, self.macros = symbols, code, macros
        self.calls = {k: expanded(it, macros) for k, it in enumerate(code) if it.operation in macros and not it.is_skipped}
        self.labels: dict[str, int] = {}
        self.entries: dict[int, str] = {}      # statements to which other code may lead
        self.changeable: dict[str, int] = {}   # names whose bytes may not stay as DC has them, by which line
        self.wide: list[str] = []              # where stores reach more than a symbol
        self.keys: dict[str, Key] = {}
        self.stars: dict[str, int] = {}        # names such as EQU *+4
        self.structured = None if STRUCTURED & set(macros) else ways(code)
        for k, it in enumerate(code):
            if it.name and not it.name.startswith(".") and is_label(it) and not it.is_skipped:
                if self.labels.setdefault(it.name, k) != k:
                    self.entries[k] = self.entries[self.labels[it.name]] = "it's defined twice"
            elif it.operation == "EQU" and it.operands.startswith("*"):
                self.stars[it.name] = k
        seen: set[str] = set()
        for k, it in enumerate(code):
            if it.is_skipped:
                continue
            for one in (it, *(self.calls.get(k) or ())):
                self.mention(one)
            if it.operation in SECTIONS and it.operation != "DSECT":
                if seen and it.name not in seen:
                    self.entries[k] = "another section begins in line %d" % (it.first + 1)
                seen.add(it.name)
        # Fields that are assembled with the address of a label.
        self.adcons = {it.name for it in code if it.operation == "DC" and any(
            name.upper() in self.labels for part in it.parts if re.match(r"\(?\w*\)?[AVSY]D?(L\d)?\(", part, re.I)
            for name in re.findall(SYMBOL, part.partition("(")[2]))}

    def mention(self, it: Statement) -> None:
        """Takes note of the names whose addresses a statement takes, or whose bytes it changes."""
        if it.operation in STRUCTURED and self.structured is not None:
            for test in instructions(it):
                self.mention(test)
            return
        text = re.sub(r"(?<![\w$#@])[A-Z]'|'(?:[^']|'')*'", " ", it.operands.upper())
        if it.operation in STORES:
            at, length = STORES[it.operation]
            if at < len(it.parts):
                self.change(it, re.findall(SYMBOL, it.parts[at])[:2])
                if length < 0 or re.search(r"[-+(]", it.parts[at]):
                    self.wide.append(it.parts[at])
        if it.operation in OWN_MACROS:
            self.change(it, re.findall(r"(?:ADDR|CELL|[(,]A|CPID|ECB)=(%s)" % SYMBOL, "," + it.operands, re.I))
        elif it.operation in ADDRESSES or not is_known(it.operation) and it.operation not in WITHOUT_CODE - {"EQU", "ENTRY"} \
                or re.search(r"=[AVYS]D?(L\d)?\(", text):
            if it.operation in ("DS", "EX", "EXRL"):
                return
            self.change(it, re.findall(SYMBOL, text))
            for name in re.findall(SYMBOL, text):
                if name in self.labels:
                    self.entries.setdefault(self.labels[name], "line %d has its address" % (it.first + 1))

    def is_code(self, name: str) -> bool:
        """Whether a name is that of an instruction or macro, in which nothing stores."""
        k = self.labels.get(name.upper(), len(self.code))
        while k < len(self.code) and (self.code[k].operation in WITHOUT_CODE or self.code[k].operation in ("DS", "DC")
                                      and self.code[k].operands.startswith("0")):
            k += 1
        return k < len(self.code) and self.code[k].operation not in ("DS", "DC", "LTORG")

    def change(self, it: Statement, names: list[str]) -> None:
        for name in names:
            self.changeable.setdefault(name.upper(), it.first + 1)

    def key(self, text: str) -> Key:
        """The place of a name, with what is added to it; '' if that's a number."""
        if text not in self.keys:
            try:
                value = self.symbols.evaluate(text)
                place = list(value.places)
                self.keys[text] = (*place[0], value.number) if list(value.places.values()) == [1] else ""
            except Unknown:
                self.keys[text] = text.upper()
        return self.keys[text]

    def targets(self, k: int, text: str) -> list[int]:
        """The statements to which a branch may lead."""
        found = re.fullmatch(r"(\*|%s)(?:([+-])(\d{1,5}))?(\(.*\))?" % SYMBOL, text)
        base = k if found and found[1] == "*" else self.labels.get(found[1].upper()) if found else None
        if found is None or base is None:
            star = self.stars.get(text.upper())
            return self.targets(star, self.code[star].parts[0]) if star is not None else []
        reached, at, left = [base], base, int(found[3] or 0)
        if left > MOST_SKIPPED:
            return list(range(max(0, base - left // 2), min(len(self.code), base + left // 2)))[:4 * MOST_SKIPPED]
        step = -1 if found[2] == "-" else 1
        while left > 0 and 0 <= at + step < len(self.code):
            at += step
            it = self.code[at]
            is_empty = it.operation in WITHOUT_CODE or it.operation in ("DS", "DC") and it.operands.startswith("0")
            left -= 0 if is_empty else 2
            reached.append(at)
        return reached

    def constant(self, text: str, length: int) -> int:
        """The number that DC gives a field which nothing in the source changes."""
        name = text.upper()
        symbol = self.symbols.known.get(name)
        if symbol is None or len(symbol.data) < length or name in self.changeable or len(self.wide) > MOST_FIELDS:
            raise Unknown("%s isn't a constant" % text)
        key = self.key(text)
        for other in self.wide:
            found = re.match(SYMBOL, other)
            there = self.key(found[0]) if found else ""
            if there[:1] == key[:1] and there[1:] <= key[1:]:     # type: ignore[index]
                raise Unknown("%s may be changed" % text)
        return int.from_bytes(symbol.data[:length], "big", signed=True)


class Contents:
    """The contents of registers and fields at each statement in turn, with what later branches brought last time."""

    def __init__(self, ways: Ways, assumed: dict[int, State]) -> None:
        self.ways, self.symbols, self.assumed = ways, ways.symbols, assumed
        self.state: State = lost("no earlier line gives it a number or address")
        self.is_reached = True
        self.coming: dict[int, State] = {}
        self.back: dict[int, State] = {}
        self.bases: dict[int, set[str]] = {}   # registers that a USING names, with its sections
        self.same: dict[str, set[str]] = {}    # sections that a dependent USING puts over others
        self.label: tuple[int, str] = (0, "")  # the last line with a name to which no branch of the source leads

    # Ways.

    def arrive(self, k: int) -> None:
        """What is known at a statement after all ways to it meet."""
        it = self.ways.code[k]
        line, name = it.first + 1, it.name or "line %d" % (it.first + 1)
        way = (self.ways.structured or {}).get(k)
        if way and way.above is not None and self.is_reached:
            self.bring(k, way.above)
            self.is_reached = False
        states = [self.state] if self.is_reached else []
        states += [state for state in (self.coming.pop(k, None), self.assumed.get(k)) if state is not None]
        if k in self.ways.entries:
            states = [lost("other code may lead to %s in line %d: %s" % (name, line, self.ways.entries[k]), line)]
        elif not states and it.operation not in WITHOUT_CODE and it.operation not in ("DS", "DC"):
            states = [lost("no earlier line leads to line %d" % line, line)]
        if not states:
            return
        why = Content("lost", "a branch to %s in line %d may change it" % (name, line), line)
        self.state, self.is_reached = states[0], True
        for other in states[1:]:
            self.state = join(self.state, other, why)
        if it.name and len(states) == 1 and is_label(it):
            self.label = (line, it.name)

    def leave(self, k: int, text: str) -> None:
        """Brings the state to the places where a branch leads."""
        for to in self.ways.targets(k, text):
            self.bring(k, to)

    def bring(self, k: int, to: int) -> None:
        line = self.ways.code[k].first + 1
        why = Content("lost", "ways with other values meet in the branch of line %d" % line, line)
        states = self.coming if to > k else self.back
        states[to] = join(states[to], self.state, why) if to in states else dict(self.state)

    # Registers and fields.

    def register(self, text: str) -> Optional[int]:
        """The register that an operand names."""
        try:
            number = self.symbols.number(text)
        except Unknown:
            return None
        return number if 0 <= number <= 15 else None

    def get(self, key: Key) -> Content:
        return self.state.get(key, self.state[ALL])

    def known(self, key: Key) -> Optional[Content]:
        found = self.get(key)
        return None if found.kind == "lost" else found

    def set(self, register: int, content: Optional[Content], line: int) -> None:
        if register in self.bases and content != self.get(register):
            # Other storage has the same names now.
            for section in self.bases[register]:
                self.forget_section(section, "line %d changes its base register" % line, line)
        self.state[register] = content or Content("lost", "line %d changes it" % line, line)

    def lose(self, registers: Iterable[int], line: int) -> None:
        for register in registers:
            self.set(register, None, line)

    def set_field(self, text: str, content: Content) -> None:
        key = self.ways.key(text)
        fields = [other for other in self.state if not isinstance(other, int)]
        if len(fields) > MOST_FIELDS:
            del self.state[next(other for other in fields if other != ALL)]
        if key != "":
            self.state[key] = content

    def in_register(self, register: int) -> Content:
        """What a register holds; a fault says why that isn't known."""
        found = self.get(register)
        if found.kind == "lost":
            raise Unknown("what register %d holds here isn't known: %s" % (register, found.what))
        return found

    def in_field(self, text: str) -> Optional[Content]:
        found = re.fullmatch(r"%s([+]\d+)?" % SYMBOL, text)
        return self.known(self.ways.key(text)) if found and self.ways.key(text) != "" else None

    def forget_section(self, section: str, why: str, line: int) -> None:
        content = Content("lost", why, line)
        self.state.update((key, content) for key in list(self.state) if isinstance(key, tuple) and key[0] == section)

    def forget_range(self, key: Key, length: int, line: int) -> None:
        """Forgets the words that a store of this many bytes at a place reaches; 0 is any number."""
        if isinstance(key, str):
            name = re.split("[-+]", key)[0]
            found: list[Key] = [other for other in self.state if isinstance(other, str) and other != ALL
                                and (not 0 < length <= 4 or other.startswith(name))]
        else:
            section, part, offset = key[:3]        # type: ignore[index]
            for other in self.same.get(section, ()):
                self.forget_section(other, "line %d stores there" % line, line)
            end = offset + length
            is_beyond = length == 0 or offset < 0 or end > self.symbols.sizes.get((section, part), 1 << 31)
            found = [other for other in self.state if isinstance(other, tuple) and other[0] == section and (
                is_beyond and (other[1] > part or offset < 0 or length == 0 or section in self.symbols.scattered)
                or other[1] == part and offset < other[2] + 4 and other[2] < end)]
        if key and (isinstance(key, str) or length == 4):
            found.append(key)
        self.state.update(dict.fromkeys(found, stored(line)))

    def forget_stored(self, text: str, length: int, is_indexed: bool, line: int) -> None:
        """Forgets what a store to an operand may change: by its length, or by that of its name if it's 0."""
        found = re.fullmatch(r"(%s\.)?(%s)([+-][^(),]+)?(?:\(([^(),]*)\))?" % (SYMBOL, SYMBOL), text)
        key = self.ways.key(found[2] + (found[3] or "")) if found else ""
        if found is None or key == "":
            self.forget_through(text, length, is_indexed, line)
            return
        self.lose_list(found[2].upper(), line)
        try:
            if found[1] or found[4] and is_indexed:
                length = 0
            elif not length:
                length = self.symbols.number(found[4]) if found[4] else self.symbols.length(found[2], ())
        except Unknown:
            length = 0
        self.forget_range(key, max(length, 0), line)

    def forget_through(self, text: str, length: int, is_indexed: bool, line: int) -> None:
        """Forgets what a store by a register may change: its DSECT's fields, or all. Register 13 has a save area."""
        found = re.fullmatch(r"([^()]*)\(([^()]*)\)", text)
        parts = found[2].split(",") if found else []
        base = self.register(parts[-1]) if parts and parts[-1] else None
        try:
            offset = self.symbols.number(found[1] or "0") if found else -1
        except Unknown:
            offset = -1
        if is_indexed and len(parts) == 2 and parts[0] and self.register(parts[0]) != 0:
            offset, length = -1, 0
        elif not is_indexed and len(parts) == 2 and not length and re.fullmatch(r"\d{1,4}", parts[0]):
            length = int(parts[0])
        self.store_through(base, offset, length, line)

    def store_through(self, base: Optional[int], offset: int, length: int, line: int) -> None:
        if base == 13 and 0 <= offset < 72:
            return
        content = self.known(base) if base is not None else None
        if content is None and base not in self.bases:
            fields = [key for key in self.state if key != ALL and not isinstance(key, int)]
            self.state.update(dict.fromkeys(fields, stored(line)))
        for register, sections in self.bases.items():
            if register == base or content is not None and self.known(register) == content:
                for section in sections:
                    self.forget_range((section, 0, offset), length, line)

    # Lists of parameters.

    def list_key(self, name: str) -> Key:
        key = self.ways.key(name)
        return (*key[:3], "list") if isinstance(key, tuple) else "list " + name

    def lose_list(self, name: str, line: int) -> None:
        key = self.list_key(name)
        if key in self.state:
            self.state[key] = Content("lost", "line %d stores in list %s" % (line, name), line)

    def take(self, k: int) -> None:
        """One instruction, or a macro of no meaning here."""
        it = self.ways.code[k]
        operation, parts = it.operation, it.parts
        if operation in WITHOUT_CODE or operation in ("DS", "DC"):
            self.take_using(it)
            return
        if operation in self.ways.macros:
            self.take_own(k, it)
        elif operation in STRUCTURED:
            self.take_structured(k, (self.ways.structured or {}).get(k), it)
        elif operation in CALLS:
            self.call(k, it)
        else:
            self.take_one(it)
        if TO_PLACE.fullmatch(operation) and parts:
            self.leave(k, parts[-1])
        if operation in NO_WAY_ON or operation in ("BC", "BCR", "BRC", "JC") and parts[:1] in (["15"], ["B'1111'"]):
            self.is_reached = False

    def take_one(self, it: Statement) -> None:
        """An instruction that calls nothing, or a macro."""
        line, operation, parts = it.first + 1, it.operation, it.parts
        if operation in STORES and STORES[operation][0] < len(parts):
            self.take_store(operation, parts, line)
        if operation in ("EX", "EXRL"):
            self.execute(parts, line)
        elif operation in CALLS_BY_REGISTER:
            self.call_by_register(it)
        elif operation in CALLS:
            self.state = lost("line %d calls code that may change it" % line, line)
        elif not is_known(operation):
            self.take_macro(it)
        elif parts:
            self.take_registers(operation, parts, line)

    def take_perhaps(self, it: Statement) -> None:
        """A statement that may be carried out or not."""
        before, line = dict(self.state), it.first + 1
        self.take_one(it)
        self.state = join(self.state, before, Content("lost", "line %d may change it" % line, line))

    def take_structured(self, k: int, way: Optional[Way], it: Statement) -> None:
        line = it.first + 1
        if way is None:
            self.state = lost("what %s in line %d leads to isn't known: a block isn't closed, or conditional assembly "
                              "is in it" % (it.operation, line), line)
            return
        for test in way.tests:
            self.take_perhaps(test)
        self.lose([register for register in map(self.register, way.counters) if register is not None], line)
        for to in way.to:
            self.bring(k, to)
        self.is_reached = way.is_on

    def take_own(self, k: int, it: Statement) -> None:
        """A call of a macro that the source defines: its statements in any order, each of which may be left out."""
        body = self.ways.calls.get(k)
        for _ in range(MOST_PASSES if body is not None else 0):
            before = dict(self.state)
            for one in body or ():
                self.take_part(k, one)
            if self.state == before:
                return
        self.state = lost("line %d calls the macro %s" % (it.first + 1, it.operation), it.first + 1)

    def take_part(self, k: int, it: Statement) -> None:
        if it.operation in WITHOUT_CODE or it.operation in ("DS", "DC"):
            self.take_using(it)
        elif it.operation in STRUCTURED:
            self.take_structured(k, Way(tests=instructions(it), counters=counters(it)), it)
        else:
            self.take_perhaps(it)
            if TO_PLACE.fullmatch(it.operation) and it.parts:
                self.leave(k, it.parts[-1])

    def take_using(self, it: Statement) -> None:
        if it.operation != "USING" or not it.parts:
            return
        section = self.ways.key(re.sub(r"^\((.*),.*\)$", r"\1", it.parts[0]))
        if not isinstance(section, tuple) or section[0] not in self.symbols.dummies:
            return
        for text in it.parts[1:]:
            base = self.register(text)
            outer = self.ways.key(re.sub(r"^%s\." % SYMBOL, "", text)) if base is None else ""
            if isinstance(outer, tuple):
                self.same.setdefault(section[0], set()).add(outer[0])
                self.same.setdefault(outer[0], set()).add(section[0])
            found = [base] if base is not None else [other for other, known in self.bases.items() if outer[:1] and outer[0] in known]
            for register in found or range(16):
                self.bases.setdefault(register, set()).add(section[0])
            self.forget_section(section[0], "line %d gives it a base" % (it.first + 1), it.first + 1)

    def take_store(self, operation: str, parts: list[str], line: int) -> None:
        at, length = STORES[operation]
        target = parts[at]
        first = self.register(parts[0]) if at else None
        if length < 0:
            last = self.register(parts[1])
            count = 16 if first is None or last is None else (last - first) % 16 + 1
            self.forget_stored(target, -length * count, False, line)
            if count < 16 and length == -4 and re.fullmatch(SYMBOL, target):
                for n in range(count):
                    self.keep((first or 0) + n & 15, "%s+%d" % (target, 4 * n) if n else target)
            return
        source = self.words_of(parts) if operation == "MVC" and len(parts) == 2 else []
        self.forget_stored(target, length, at == 1, line)
        if operation in ("ST", "STY", "STRL", "STG") and first is not None:
            self.keep(first, target + ("+4" if operation == "STG" else ""))
        for distance, content in source:
            name = re.sub(r"\(.*", "", target)
            self.set_field("%s+%d" % (name, distance) if distance else name, content)

    def keep(self, register: int, text: str) -> None:
        """A register's word in a field, if both are known."""
        content = self.known(register)
        if content is not None and re.fullmatch(r"%s([+-]\w+)?" % SYMBOL, text):
            self.set_field(text, content)

    def words_of(self, parts: list[str]) -> list[tuple[int, Content]]:
        """The known words that MVC moves, by their distance from its begin."""
        target = re.fullmatch(r"(%s)(?:\((\d+)\))?" % SYMBOL, parts[0])
        source = self.ways.key(parts[1]) if re.fullmatch(r"%s([+-]\d+)?" % SYMBOL, parts[1]) else ""
        if not target or source == "":
            return []
        try:
            length = int(target[2]) if target[2] else self.symbols.length(target[1], ())
        except Unknown:
            return []
        if isinstance(source, str):
            content = self.known(source)
            return [(0, content)] if content and length == 4 else []
        return [(key[2] - source[2], content) for key, content in self.state.items()
                if isinstance(key, tuple) and len(key) == 3 and key[:2] == source[:2] and content.kind != "lost"
                and 0 <= key[2] - source[2] <= length - 4]

    def take_registers(self, operation: str, parts: list[str], line: int) -> None:
        """What an instruction does to registers."""
        first = self.register(parts[0])
        named = [register for register in map(self.register, parts) if register is not None]
        if operation in MULTIPLE and len(parts) > 1:
            self.load_multiple(operation, first, self.register(parts[1]), parts[-1], line)
        elif operation in FIRST_PAIR or operation in PAIRS:
            pairs = named[:1] if operation in FIRST_PAIR else named
            if operation.startswith("MVC"):
                self.store_through(first, -1, 0, line)
            self.lose([one for register in pairs for one in (register, (register + 1) % 16)], line)
        elif operation in FIRST and first is not None:
            try:
                content = self.loaded(operation, first, parts[1:], line)
            except (Unknown, IndexError):
                content = None
            self.set(first, content, line)
        elif operation in FIRST:
            self.lose(range(16), line)
        else:
            self.lose([1] if operation == "EDMK" else named[:1] if COUNTS.fullmatch(operation) else [], line)

    def take_macro(self, it: Statement) -> None:
        """A macro, or an instruction that isn't known: it may change the registers and fields that it names."""
        line, named = it.first + 1, [register for register in map(self.register, it.parts) if register is not None]
        called = it.parts[0] if it.operation == "CALL" and it.parts else ""
        register = self.register(called[1:-1]) if called.startswith("(") else None
        if called.upper() in self.ways.labels or register is not None and self.get(register).kind == "label":
            self.state = lost("line %d calls %s, which may change it" % (line, called), line)
            return
        if it.operation in ("TRT", "TRTR"):
            named = [1, 2]
        elif it.operation in READERS:
            named = []
        elif not re.match(r"SVC$|PC$", it.operation):
            named += [(register + 1) % 16 for register in named] + [
                register for text in re.findall(r"(?<!MF)(?<!SF)=\(([^(),]+)\)", it.operands.upper())
                + (re.findall(r"\(([^(),]+)\)", it.operands) if it.operation == "EXEC" else [])
                if (register := self.register(text)) is not None]
        self.lose([*named, *(() if it.operation in ("TRT", "TRTR") else LINKAGE)], line)
        for name in re.findall(SYMBOL, re.sub("'[^']*'", "", it.operands)):
            if self.ways.key(name) != "" and not self.ways.is_code(name) and (
                    name.upper() in self.symbols.known or name.upper() in self.state):
                self.forget_stored(name, 0, False, line)

    def call_by_register(self, it: Statement) -> None:
        """A call of another program by registers 14 and 15, which keeps 2 to 13, or of code of this one."""
        line, parts = it.first + 1, it.parts
        first, other = (self.register(parts[0]) if parts else None), self.register(parts[-1] if parts else "")
        if other == 0 and first is not None:
            self.set(first, None, line)
        elif (first, other) == (14, 15) and self.get(15).kind != "label":
            self.lose(LINKAGE, line)
        else:
            self.state = lost("line %d calls code that may change it" % line, line)

    def call(self, k: int, it: Statement) -> None:
        """A call of code of this source."""
        line, parts = it.first + 1, it.parts
        to = parts[-1] if parts else ""
        first = self.register(parts[0]) if parts else None
        if first is not None:
            self.set(first, None, line)
        self.leave(k, to)
        if to.startswith("*"):
            self.is_reached = False
        else:
            self.state = lost("line %d calls %s, which may change it" % (line, to), line)

    def execute(self, parts: list[str], line: int) -> None:
        """EX of an instruction whose length it gives: a compare, or a store to a name, which may be of any length."""
        at = self.ways.labels.get(parts[-1].upper()) if parts else None
        it = self.ways.code[at] if at is not None else None
        if it is not None and STORES.get(it.operation) == (0, 0) and it.parts:
            self.forget_stored(re.sub(r"\(\d+", "(256", it.parts[0]), 0, False, line)
        elif it is None or it.operation not in NO_CHANGE:
            self.state = lost("line %d executes an instruction that may change it" % line, line)

    # Values.

    def load_multiple(self, operation: str, first: Optional[int], last: Optional[int], text: str, line: int) -> None:
        if first is None or last is None:
            first, last = 0, 15
        is_field = operation in ("LM", "LMY") and re.fullmatch(SYMBOL, text)
        words = [self.in_field("%s+%d" % (text, 4 * n) if n else text) if is_field else None
                 for n in range((last - first) % 16 + 1)]
        for n, content in enumerate(words):
            self.set((first + n) % 16, content, line)

    def loaded(self, operation: str, register: int, operands: list[str], line: int) -> Optional[Content]:
        """What an instruction leaves in its first register."""
        if operation in COPIES:
            other = self.register(operands[0])
            return None if other is None else self.known(other)
        if operation in ZEROES:
            return Content("number", 0, line) if self.register(operands[0]) == register else None
        if operation in ADDRESSES:
            return self.address(operands[0], line)
        if operation in IMMEDIATES:
            return Content("number", self.symbols.number(operands[0]) & 0xFFFFFFFF, line)
        if operation in LOADS:
            if operation == "ICM" and operands.pop(0) not in ("15", "B'1111'", "X'F'"):
                return None
            label = re.match(r"(?:=[AV]\()?(%s)" % SYMBOL, operands[0])
            if label and label[1].upper() in (self.ways.labels if operands[0][0] == "=" else self.ways.adcons):
                return Content("label", label[1], line)
            is_half, is_long = operation in ("LH", "LHY"), operation in ("LG", "LTG")
            stored = None if is_half else self.in_field(operands[0] + ("+4" if is_long else ""))
            return stored or Content("number", self.word(operands[0], 2 if is_half else 8 if is_long else 4) & 0xFFFFFFFF, line)
        return self.counted(operation, register, operands, line)

    def word(self, text: str, length: int) -> int:
        """The number of a literal such as =F'100' or =A(SIZE), or of a constant that nothing changes."""
        if not text.startswith("="):
            return self.ways.constant(text, length)
        count, kind, own, _, whole, data = self.symbols.constant(text[1:])
        if count != 1 or whole != length or len(data) != length:
            raise Unknown("%s isn't one number" % text)
        return int.from_bytes(data, "big", signed=kind in "FHAY" and own == length)

    def counted(self, operation: str, register: int, operands: list[str], line: int) -> Optional[Content]:
        """A sum or product of a number that's known."""
        old = self.known(register)
        if old is None or operation not in ADDS and (operation not in MULTIPLIES or old.kind != "number"):
            return None
        text = operands[0]
        other = self.symbols.number(text) if operation.endswith("I") else self.word(text, 2 if operation.endswith("H") else 4)
        if operation in MULTIPLIES:
            return Content("number", int(old.what) * other & 0xFFFFFFFF, line)     # type: ignore[arg-type]
        return moved(old, ADDS[operation] * other, line)

    def address(self, text: str, line: int) -> Optional[Content]:
        """LA: a number, a place in the code, or a displacement from what a register holds."""
        if text.upper() in self.ways.labels:
            return Content("label", text, line)
        found = re.fullmatch(r"([^()]+)\((?:([^(),]+)|,([^(),]+)|([^(),]+),0|0,([^(),]+))\)", text)
        if not found:
            number = self.symbols.number(text)
            return Content("number", number, line) if number >= 0 else None
        displacement = self.symbols.number(found[1])
        base = self.register(next(part for part in found.groups()[1:] if part))
        if base == 0:
            return Content("number", displacement, line)
        return moved(self.known(base) if base is not None else None, displacement, line)
