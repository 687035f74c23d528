"""Storage macros of assembler source as statements of a script, one line for each line.

A number is worked out, or a macro isn't taken, with the reason; nothing that isn't known is written. What a
register or field holds is followed along all branches; the script has the macros in the text's order.
"""
from __future__ import annotations

import re
from dataclasses import dataclass, field, replace
from typing import Callable, Optional, Sequence

from vsm_bench import Answer

from .assembler import BRANCHES, SYMBOL, Statement, Symbols, Unknown, mark_assembled, read_statements, split_operands
from .contents import LINKAGE, OWN_MACROS as MACROS, Content, Contents, State, Ways, join, lost
from .lines import MOST_LINES, fold
from .lists import SINGLE, Lists, keyed, list_name, single
from .variables import Variables

OWN = {"RUN", "ENDTASK", "POKE", "PEEK", "MAP", "BACK", "FORWARD"}
NUMBERS = {"LENGTH", "LV", "SP", "PCELLCT", "SCELLCT", "CSIZE", "GSPV", "SHSPV"}
NO_MEANING = {"KEY", "CALLRKY", "TCBADDR", "OWNER", "EXECUTABLE", "CHECKZERO", "STARTBDY", "CONTBDY",
              "RTCD", "BRANCH", "TCB", "ECB", "ETXR", "EPLOC", "DE", "DCB", "PARAM", "VL", "LPMOD", "DPMOD",
              "ESTAI", "STAI", "TASKLIB", "STAE", "SVAREA", "DISP", "SM", "JSCB", "JSTCB", "TID", "ALCOPY", "PURGE",
              "ASYNCH", "TERM", "ERRET", "NSHSPV", "NSHSPL", "RSAPF", "MULTIHDR", "SDWALOC31", "USE2GTO32G"}
ROUNDS = 4             # along later branches, before nothing is known where one leads
AS_THEY_STAND = {"EP", "COND", "BNDRY", "SZERO", "RELATED", "LINKAGE", "REGS"}
# The keyword of what gets the address.
GIVING = {("STORAGE", "OBTAIN"): "ADDR", ("CPOOL", "GET"): "CELL",
          **{("GETMAIN", form): "ADDR" for form in ("R", "RC", "RU", "VRC", "VRU")}}
LIST_FORMS = {"FREEMAIN": {"V", "VC", "VU"}, "CPOOL": {"LIST"}}
LOCATIONS = re.compile(r"(BELOW|24|ANY|31|RES)|\((BELOW|24|ANY|31|RES)(,(BELOW|ANY|24|31|64))?\)")
NAME = re.compile(r"[A-Z$#@_][A-Z0-9$#@_]{0,62}")
MOST_RUNS = 6          # of a script, before an address in it isn't known
CONDITIONAL = {"EXITM", "SETA", "SETB", "SETC", *BRANCHES}


@dataclass
class Macro:
    """A macro that is taken: its operands in turn, and what gets the address that it obtains."""
    statement: Statement
    operation: str
    room: int                     # how many lines it may have: those up to the next macro
    form: str = ""
    operands: list[str] = field(default_factory=list)
    place: str = ""               # what ADDR, A or CELL names: a name, or a register in parentheses
    keyword: str = ""             # ADDR, A or CELL, if the address can go somewhere
    wish: str = ""                # the field that the source stores it in
    remarks: list[str] = field(default_factory=list)
    gave: Optional[Content] = None    # the area, cell pool or task that others can be
    is_list: bool = False         # that the source has its lengths in a list
    notes: list[str] = field(default_factory=list)    # reported if it's taken

    @property
    def line(self) -> int:
        return self.statement.first + 1

    @property
    def register(self) -> int:
        """The register that its place is; 0 if that's a name, or it has none."""
        return int(self.place[1:-1]) if self.place.startswith("(") else 0

    def folded(self, more: int = 0) -> Optional[list[str]]:
        """Its lines, over those of the source up to the next macro; None if it, or it with this much more, needs more."""
        return fold(self.text() + "_" * more, self.statement.last - self.statement.first + 1) or \
            fold(self.text() + "_" * more, min(self.room, MOST_LINES))

    def lines(self) -> list[str]:
        """Its lines with the remarks that have room."""
        lines = self.folded() or []
        if lines and self.remarks and (self.operands or self.place) and len(lines[-1]) < 50:
            lines[-1] = (lines[-1].ljust(40) + " " + "; ".join(self.remarks))[:71]
        return lines

    def text(self) -> str:
        operation, operands = self.operation, list(self.operands)
        if self.place and self.keyword == "ADDR" and operation == "GETMAIN":
            operation, operands = "STORAGE", as_storage(operands)
        if self.place:
            operands.append("%s=%s" % (self.keyword, self.place))
        return (" %s %s" % (operation, ",".join(operands))).rstrip()


def as_storage(operands: list[str]) -> list[str]:
    """The operands of STORAGE OBTAIN for those of GETMAIN R, RC, RU, VRC or VRU."""
    form = operands[0]
    found = ["OBTAIN"] + [operand.replace("LV=", "LENGTH=", 1) if operand.startswith("LV=") else operand
                          for operand in operands[1:]]
    return found + (["LOC=BELOW"] if form == "R" else ["COND=YES"] if form.endswith("C") else [])


@dataclass(frozen=True)
class Given:
    """A value of --at: what a register or field holds before a line."""
    word: str
    line: int
    what: str
    value: str


class Paste:
    """One source on its way to a script."""

    def __init__(self, lines: list[str], equates: dict[str, int], subpools: dict[int, int],
                 copies: Sequence[tuple[str, list[str]]] = (), given: Sequence[Given] = (),
                 variables: Optional[dict[str, str]] = None) -> None:
        self.lines, self.given_subpools = lines, subpools
        self.all_given, self.lists = list(given), Lists()
        self.told: list[tuple[int, int, str]] = []      # of the source, before any macro
        self.notes = self.told
        self.of_registers: set[tuple[int, int, str]] = set()
        self.lost_lines = 0                     # macros that a continuation hides
        self.own_macros: dict[str, list[Statement]] = {}      # each its prototype and what is in it
        self.statements = self.read()
        self.code = [it for it in self.statements if not it.is_comment and it.operation != ".MACRO"]
        shared = [name.lstrip("&").upper() for body in self.own_macros.values() for it in body
                  if it.operation.startswith("GBL") for name in it.parts]
        mark_assembled(self.code, lines, Variables(variables or {}, shared))
        self.symbols = Symbols(equates)
        for name, copy in copies:
            self.copy(name, copy)
        for it, why in self.symbols.read(self.code):
            self.note(it.first + 1, 1, why)
        for it in self.code:
            if it.operation in MACROS and not it.is_skipped and not it.doubt:
                self.lists.define(it)
        self.ways = Ways(self.symbols, self.code, self.own_macros)
        self.literal = {int(text) for line in lines for text in re.findall(r"SPV?=(\d{1,3})(?!\d)", line[:71])}
        self.literal |= {symbol.value.number for symbol in self.symbols.known.values() if symbol.value is not None
                         and not symbol.value.places}      # one of them may be a subpool
        self.faulty: dict[int, str] = {}        # macros by their first lines, with the fault that vsm finds in each
        self.addresses: dict[int, int] = {}     # and what vsm answered, of those into whose areas an address leads
        self.next_macro: dict[int, int] = {}
        after = len(lines)
        for it in reversed(self.code):
            if it.operation in MACROS or it.operation in OWN:
                self.next_macro[it.first] = after
                after = it.first
        self.residence = self.read_residence()
        self.is_new = False                     # that a round found a subpool's number in a register
        self.begin({})

    def begin(self, assumed: dict[int, State]) -> None:
        """A round over the source, from its begin."""
        self.notes, self.left = list(self.told), self.lost_lines
        self.subpools, self.chosen = dict(self.given_subpools), set(self.given_subpools.values())
        self.given = list(self.all_given)
        self.lists.begin()
        self.contents = Contents(self.ways, assumed)
        for name in self.lists.known:
            self.contents.state[self.contents.list_key(name)] = Content("list", 0, 0)
        self.macros: dict[int, Macro] = {}      # by their first lines, from 0
        self.asked: set[int] = set()            # macros into whose areas an address leads
        self.since = 0                          # the line from which on macros' addresses are known
        self.held: dict[int, int] = {}          # which macro's address vsm's registers have
        self.names: dict[str, int] = {}         # and names
        self.used: dict[str, int] = {}          # all names of the script, and how many others were made of each
        self.tasks, self.are_tasks_known = {1}, True
        self.written: dict[int, list[str]] = {}

    def note(self, line: int, column: int, text: str, is_of_register: bool = False) -> None:
        self.notes.append((line, column, text))
        if is_of_register:
            self.of_registers.add((line, column, text))

    # The source.

    def read(self) -> list[Statement]:
        """The statements; the lines of macro definitions are marked by the operation '.MACRO'."""
        found = read_statements(self.lines)
        depth, body = 0, None
        for it in found:
            for number in range(it.first + 1, it.last + 1):
                if self.lines[number][:15].strip():
                    self.note(number, 72, "a character in column 72 says that line %d continues this one, and columns "
                              "1 to 15 there aren't blank" % (number + 1))
                    hidden = re.match(r"\S*\s+(\w+)", self.lines[number])
                    self.lost_lines += bool(hidden and hidden[1].upper() in MACROS)
            if it.operation == "MACRO":
                self.note(it.first + 1, 1, "a macro definition isn't taken: its calls may change what its instructions do")
                depth += 1
                body = [] if depth == 1 else body
            elif depth and body == [] and not it.is_comment:
                self.own_macros[it.operation] = body = [replace(it)]
            elif depth and body and not it.is_comment:
                body.append(replace(it))
            if depth and not it.is_comment:
                depth -= it.operation == "MEND"
                it.operation = ".MACRO"
        return found

    def copy(self, name: str, lines: list[str]) -> None:
        """Takes the definitions and list forms of another source; its macros aren't taken."""
        found: list[Statement] = []
        depth = 0
        for it in read_statements(lines):
            depth += (it.operation == "MACRO") - (it.operation == "MEND" and depth > 0)
            if it.operation == "MACRO" or not depth and it.operation in MACROS and not self.lists.define(it):
                self.note(1, 1, "--copy %s, line %d: %s isn't taken from there" % (name, it.first + 1, it.operation))
            elif not depth and it.operation != "MEND":
                found.append(it)
        mark_assembled(found, lines, Variables({}))
        for it, why in self.symbols.read(found):
            self.note(1, 1, "--copy %s, line %d: %s" % (name, it.first + 1, why))
        self.symbols.section = ""      # how far what follows is from this isn't known
        self.symbols.begin_part(8)

    def read_residence(self) -> Optional[Statement]:
        """The RMODE that says that the program is above the line."""
        found = [it for it in self.code if it.operation == "RMODE" and not it.is_skipped]
        above = [it for it in found if it.operands.upper() in ("31", "ANY", "64")]
        for it in above:
            self.told.append((it.first + 1, 1, "RMODE %s: run vsm with --residence 31" % it.operands.upper()
                              + ("; another RMODE says 24" if len(above) < len(found) else "")))
        return above[0] if above and len(above) == len(found) else None

    def settled(self, ask: Callable[[list[str]], list[Answer]]) -> list[str]:
        """The script as vsm reads it: without what it finds faulty, and with numbers for addresses inside areas."""
        script = self.paste()
        for _ in range(MOST_RUNS):
            answers = {it.line - 1: it for it in ask(script)}
            faults = {first: it.text for first, it in answers.items() if it.text.startswith("FAULT") and first in self.macros}
            addresses = {first: address for first in self.asked if first in answers
                         and (address := answers[first].address) is not None}
            if not faults and all(self.addresses.get(first) == addresses.get(first) for first in self.asked):
                return script
            self.faulty.update(faults)
            self.addresses = addresses
            self.begin({})
            script = self.paste()
        self.addresses = {}
        self.begin({})
        return self.paste()

    def paste(self) -> list[str]:
        """The lines of the script, as many as the source has. What a later branch brings to a statement is what the
        previous round found; once that stays the same it's right, and if it doesn't nothing is known there."""
        for rounds in range(ROUNDS + 1):
            assumed, changed, self.is_new = self.contents.assumed, len(self.lists.changed), False
            self.round()
            if rounds == ROUNDS or self.contents.back == assumed and len(self.lists.changed) == changed and not self.is_new:
                break
            assumed = self.contents.back
            if rounds == ROUNDS - 1:
                assumed = {k: lost("a later branch may change it") for k in assumed}
                self.lists.changed.update(self.lists.known)
            self.begin(assumed)
        for word in self.given:
            self.note(word.line, 1, "--at %s isn't used: that line has no statement" % word.word)
        self.written.update((first, macro.lines()) for first, macro in self.macros.items())
        if self.symbols.registers_taken:
            self.note(1, 1, "R0 to R15 that the source doesn't define are taken as registers 0 to 15", True)
        return self.whole()

    def round(self) -> None:
        for k, it in enumerate(self.code):
            if it.is_skipped:
                if it.operation in MACROS:
                    self.note(it.first + 1, 1, "%s isn't written: it isn't assembled, as AGO says" % it.operation)
                continue
            self.contents.arrive(k)
            before = dict(self.contents.state) if it.doubt else {}
            self.statement(k, it)
            if before:
                self.contents.state = join(self.contents.state, before, Content(
                    "lost", "whether line %d is assembled isn't known" % (it.first + 1), it.first + 1))
                self.contents.is_reached = True

    def statement(self, k: int, it: Statement) -> None:
        self.take_given(it)
        if it.operation in MACROS and list_name(it) is not None:
            self.note(it.first + 1, 1, "it's a list form, which does nothing by itself")
        elif it.operation in MACROS:
            self.macro(it)
        elif it.operation in OWN:
            self.own(it)
        else:
            if it.operation in CONDITIONAL and not it.is_carried_out:
                self.note(it.first + 1, 1, "%s isn't carried out" % it.operation)
            elif it.operation == "COPY":
                self.note(it.first + 1, 1, "COPY %s isn't carried out: --copy FILE takes its definitions" % it.operands)
            self.store(it)
            copy = self.lists.copy(it, self.contents)
            self.contents.take(k)
            if copy:
                self.lists.copied(*copy, it.first + 1, self.contents)
                self.note(it.first + 1, 1, "%s is taken as a copy of list %s" % copy)

    def take_given(self, it: Statement) -> None:
        """What the values of --at say of registers and fields before a statement."""
        for word in [word for word in self.given if it.first < word.line <= it.last + 1]:
            self.given.remove(word)
            try:
                content = self.content_given(word)
            except Unknown as why:
                self.note(word.line, 1, "--at %s isn't used: %s" % (word.word, why))
                continue
            if re.fullmatch(r"R\d{1,2}", word.what):
                self.contents.set(int(word.what[1:]), content, word.line)
            else:
                self.contents.set_field(word.what, content)
            self.note(word.line, 1, "%s holds %s here, as --at says" % (
                word.what, content.what if word.value[0] != "@" else "what line %s gave" % word.value[1:]))

    def content_given(self, word: Given) -> Content:
        if word.value[0] != "@":
            return Content("number", self.symbols.number(word.value) & 0xFFFFFFFF, word.line)
        line = word.value[1:]
        macro = self.macros.get(int(line) - 1)
        gave = macro.gave if macro and macro.line > self.since else None
        if gave is None:
            raise Unknown("line %s is no earlier macro, since the last RUN, ENDTASK, BACK or FORWARD, that gives an "
                          "area, a cell pool or a task" % line)
        return gave

    def own(self, it: Statement) -> None:
        """A statement of the bench's own. After one that leads to another task or time nothing is known."""
        self.written[it.first] = self.lines[it.first:it.last + 1]
        if it.operation in ("RUN", "ENDTASK", "BACK", "FORWARD"):
            self.since = it.first + 1
            self.contents.state = lost("line %d leads to another task or time" % self.since, self.since)
            self.held, self.names, self.are_tasks_known = {}, {}, False

    def whole(self) -> list[str]:
        found = [("*" * (line.strip() != "" and line[0] != "*") + line)[:71].rstrip() for line in self.lines]
        if self.residence and self.residence.first < min(self.written, default=len(found)):
            found[self.residence.first] = "*! --residence 31"
        for it in self.statements:
            lines = self.written.get(it.first, [])
            if lines and it.operation in MACROS and NAME.fullmatch(it.name) and len(it.name + lines[0]) <= 71:
                lines = [it.name + lines[0], *lines[1:]]
            found[it.first:it.first + len(lines)] = lines
        return found

    def store(self, it: Statement) -> None:
        """Remembers the field in which a macro's address is stored, for its name."""
        if it.operation in ("ST", "STG", "STY") and len(it.parts) == 2 and NAME.fullmatch(it.parts[1].upper()):
            register = self.contents.register(it.parts[0])
            content = self.contents.known(register) if register is not None else None
            if content and content.kind == "area" and int(content.what) in self.macros:
                macro = self.macros[int(content.what)]
                macro.wish = macro.wish or it.parts[1].upper()

    def macro(self, it: Statement) -> None:
        try:
            if it.doubt:
                raise Unknown("whether it's assembled isn't known, by line %d" % it.doubt)
            if it.misplaced:
                raise Unknown(it.misplaced)
            if it.first in self.faulty:
                raise Unknown("its statement would be answered %s" % self.faulty[it.first])
            found = self.taken(it)
        except Unknown as why:
            self.left += 1
            line, column = it.place((why.column or 1) - 1)
            self.note(line, column, "%s isn't taken: %s" % (it.operation, why))
            self.left_out(it)
            return
        self.macros[it.first] = found
        for text in found.notes:
            self.note(found.line, 1, text)
        self.behind(found, it.first)

    def left_out(self, it: Statement) -> None:
        """What a macro that isn't taken changes: what it gives, and a list, but nothing that it only reads."""
        form = it.parts[0].upper() if it.parts else ""
        gives = {"STORAGE": {"ADDR"}, "GETMAIN": {"A"}, "CPOOL": {"CELL", "CPID"} if form == "BUILD" else {"CELL"}}
        is_giving = form not in ("RELEASE", "FREE", "DELETE")
        changed = {"MF", "SF", "REGS", *(gives.get(it.operation, set()) if is_giving else set())}
        parts = [text for text in it.parts if keyed(text)[0] in changed or "&" in text]
        self.contents.take_macro(replace(it, operands=",".join(parts)))
        if "REGS=USE" in it.operands.upper():
            self.contents.lose((2, 3, 4), it.first + 1)

    def behind(self, it: Macro, number: int) -> None:
        """What registers and names hold after a macro that is taken."""
        self.contents.lose(LINKAGE, it.line)
        if it.keyword:
            it.gave = Content("area", number, it.line)
            self.contents.set(1, None if it.is_list else it.gave, it.line)
            self.held[1] = number
            if it.register:
                self.held[it.register] = number
                self.contents.set(it.register, it.gave, it.line)
            elif it.place:
                self.contents.forget_stored(it.place, 8 if it.is_list else 4, False, it.line)
                self.contents.set_field(it.place, it.gave)
            if "COND=YES" in it.operands or {"RC", "VRC", "EC", "C", "COND"} & set(it.operands[:2]):
                self.after_conditional(it)
            if it.place and not it.register:
                self.names[it.place] = number
                self.used.setdefault(it.place, 0)
            if any(text.startswith(("LENGTH=(", "LV=(")) and "," in text for text in it.operands):
                length = Content("length", number, it.line)
                self.contents.set(0, None if it.is_list else length, it.line)
                if it.is_list:
                    self.contents.set_field(it.wish + "+4", length)
                self.held[0] = number
        elif it.operation == "ATTACH":
            task = min(set(range(1, 65)) - self.tasks, default=65)
            self.tasks.add(task)
            it.gave = Content("task", task, it.line) if self.are_tasks_known else None
            self.contents.set(1, it.gave, it.line)
            self.held[1] = number
        elif it.operation == "DETACH":
            self.tasks.discard(int(it.operands[0]))
        if "REGS=USE" in it.operands:
            self.contents.lose((2, 3, 4), it.line)

    def after_conditional(self, it: Macro) -> None:
        """An answer 4 leaves register 1 and a place as they were. So a name that nothing else has gets the address: then
        no other area is released through it."""
        self.held.pop(1, None)
        if not it.place:
            return
        self.held.pop(it.register or 1, None)
        name = self.unused("AREA%d" % it.line if it.register else it.place)
        if name != it.place:
            self.note(it.line, 1, "%s=%s is written as %s: it gets nothing else if this is answered 4"
                      % (it.keyword, it.place, name), it.register > 0)
        it.place = name

    def taken(self, it: Statement) -> Macro:
        """A macro with its operands as a script has them; a fault says why it isn't taken."""
        found = Macro(it, single(it.operation), self.next_macro[it.first] - it.first)
        if "&" in re.sub(r"'[^']*'", "", it.operands):
            raise Unknown("it has a variable symbol", it.operands.index("&") + 1)
        operands = self.lists.merged(it, self.contents)
        found.form = operands[0][1].upper() if operands and "=" not in operands[0][1] else ""
        if found.form in SINGLE.get(it.operation, ()):
            operands = self.of_one(found, operands)
        if found.form in LIST_FORMS.get(it.operation, ()):
            raise Unknown("form %s has its operands in a list" % found.form)
        if it.is_filled:
            self.note(it.first + 1, 1, "with the values of variable symbols: %s" % it.operands, True)
        for at, text in operands:
            if "&" in re.sub(r"'[^']*'", "", text):
                raise Unknown("its list has a variable symbol", at + 1)
            try:
                self.operand(found, text)
            except Unknown as why:
                raise Unknown(str(why), at + 1) from None
        found.keyword = GIVING.get((found.operation, found.form), found.keyword)
        if found.operation == "DETACH" and not any(text.isdigit() for text in found.operands[:1]):
            raise Unknown("it names no task")
        if found.form == "R":
            self.check_register_form(found)
        if found.folded(8 if found.place else 0) is None:
            raise Unknown("it would need more lines than the source has up to the next macro")
        return found

    def check_register_form(self, it: Macro) -> None:
        """Form R: a length that a variable request got isn't one of it; a release of length 0 is that of a subpool."""
        if "LV=(0)" in it.operands:
            raise Unknown("form R takes no length from register 0")
        if sum(text.startswith("SP=") for text in it.operands) > 1:
            raise Unknown("register 0 has a subpool, and SP= is written too")
        is_whole = it.operation == "FREEMAIN" and not any(text.startswith("A=") for text in it.operands)
        it.operands = [text for text in it.operands if text != "LV=0" or not is_whole]

    def of_one(self, it: Macro, operands: list[tuple[int, str]]) -> list[tuple[int, str]]:
        """A form with a list of lengths as the one with that length, if the list has one."""
        form, to = it.form, SINGLE[it.operation][it.form]
        at, text = next(((at, keyed(text)[1]) for at, text in operands if keyed(text)[0] == "LA"), (0, ""))
        if not text:
            raise Unknown("form %s has its operands in a list, and there's no LA=" % form)
        words = self.words(text, at + 1)
        if to.startswith("V"):
            if len(words) < 2:
                raise Unknown("%s is no list of the least and the greatest length" % text, at + 1)
            length = "(%d,%d)" % (words[1], words[0])
        else:
            if not words[0] >> 31:
                raise Unknown("form %s has its operands in a list, and a line has one statement: the list has "
                              "more than one length, or its last lacks the mark X'80'" % form, at + 1)
            length = "%d" % (words[0] & 0x7FFFFFFF)
        it.notes.append("%s has its lengths in list %s, and is taken as %s,LV=%s" % (form, text, to, length))
        found = [(0, to)] + [(k, "LV=" + length if keyed(other)[0] == "LA" else other) for k, other in operands[1:]]
        it.form, it.is_list = to, it.operation == "GETMAIN"
        return self.with_answer(it, found) + [(at, "LOC=BELOW")] if to.startswith("V") else found

    def with_answer(self, it: Macro, operands: list[tuple[int, str]]) -> list[tuple[int, str]]:
        """The operands of VC and VU without A, whose two words get the address and the length."""
        answer = next((text[2:].upper() for _, text in operands if keyed(text)[0] == "A"), "")
        if not NAME.fullmatch(answer):
            raise Unknown("A= names no place for the address and the length")
        it.place = it.wish = answer
        it.notes.append("it's written as STORAGE OBTAIN, which has ADDR=%s; its abend codes end in 78 then, not 04" % answer)
        return [(at, text) for at, text in operands if keyed(text)[0] != "A"]

    def words(self, name: str, column: int) -> list[int]:
        """The words of a list that the source defines."""
        data = self.data_of(name, column)
        if len(data) < 4:
            raise Unknown("%s is no list whose words are known: a DC of the source or --copy has them" % name, column)
        return [int.from_bytes(data[at:at + 4], "big") for at in range(0, len(data) - 3, 4)]

    def data_of(self, name: str, column: Optional[int] = None) -> bytes:
        """The bytes that DC gives a field, if no earlier line stores in it."""
        if name.upper() in self.ways.changeable:
            raise Unknown("line %d may change %s" % (self.ways.changeable[name.upper()], name), column)
        symbol = self.symbols.known.get(name.upper())
        return symbol.data if symbol else b""

    def operand(self, it: Macro, text: str) -> None:
        """Adds one operand, or drops it with a note."""
        key, value = keyed(text)
        if not key:
            it.operands.append(self.positional(it, text))
            return
        if key == "LA" and it.operation == "GETMAIN":
            raise Unknown("form %s has no LA=, which names a list: VC, VU, LC and LU have it" % it.form)
        if key in NO_MEANING or (key, it.operation) in (("BNDRY", "CPOOL"), ("MF", "ATTACH")):
            it.remarks.append("%s dropped" % key)
            self.note(it.line, 1, "%s=%s has no meaning here and is dropped" % (key, value))
            return
        if key in ("MF", "LA", "SF", "INADDR"):
            raise Unknown("%s= names a list or place in the program's storage" % key)
        taken = self.value(it, key, value)
        if taken is not None:
            it.operands.append("%s=%s" % (key[:-1] + "V" if key in ("GSPL", "SHSPL") else key, taken))

    def value(self, it: Macro, key: str, text: str) -> Optional[str]:
        """What an operand has in the script; None if it isn't written."""
        if key in AS_THEY_STAND or key == "LOC" and LOCATIONS.fullmatch(text.upper()):
            return text.upper()
        frames = re.fullmatch(r"\((BELOW|24|ANY|31|RES),(PAGEFRAMESIZE\w+)\)", text.upper()) if key == "LOC" else None
        if frames:
            self.note(it.line, 1, "%s has no meaning here and is dropped" % frames[2])
            return frames[1]
        if key == "LOC":
            raise Unknown("LOC=%s isn't read" % text.upper())
        known = {**dict.fromkeys(NUMBERS, self.length), "CPID": self.pool, "HDR": self.header, "GSPL": self.subpool_list,
                 "SHSPL": self.subpool_list, **dict.fromkeys(("ADDR", "A", "CELL"), self.address_operand)}
        if key not in known:
            raise Unknown("%s= is no operand that's known" % key)
        return known[key](it, key, text)

    def positional(self, it: Macro, text: str) -> str:
        if it.operation != "DETACH" or it.operands:
            return text.upper()
        content = self.content(it, text)
        if content is None or content.kind != "task":
            raise Unknown("%s isn't known to hold a task that an earlier ATTACH gave" % text)
        it.remarks.append("%s: line %d" % (text.upper(), content.line))
        self.note(it.line, 1, "%s is taken as task %s, of line %d" % (text, content.what, content.line), True)
        return str(content.what)

    # Values.

    def in_parentheses(self, text: str) -> Optional[int]:
        """The register of an operand as (R5) or (5)."""
        return self.contents.register(text[1:-1]) if re.fullmatch(r"\([^(),]+\)", text) else None

    def content(self, it: Macro, text: str) -> Optional[Content]:
        """What a register in parentheses or a field holds."""
        register = self.in_parentheses(text)
        found = self.contents.in_register(register) if register is not None else self.contents.in_field(text)
        if found and found.kind != "number" and found.line >= it.line:
            raise Unknown("%s holds what line %d gives, which is later in the text" % (text, found.line))
        return found

    def length(self, it: Macro, key: str, text: str) -> str:
        """A number, or for a length a pair of them."""
        pair = re.fullmatch(r"\((.+)\)", text, re.S)
        parts = [part for _, part in split_operands(pair[1])] if pair and key in ("LENGTH", "LV") else []
        if len(parts) == 2:
            return "(%s,%s)" % tuple(self.number(it, key, part) for part in parts)
        return self.number(it, key, text)

    def number(self, it: Macro, key: str, text: str) -> str:
        register = self.in_parentheses(text)
        if register is None:
            number = self.symbols.number(text)
        else:
            content = self.contents.in_register(register)
            if content.kind == "length" and self.held.get(0) == content.what:
                self.note(it.line, 1, "%s=%s is the length that line %d gets, in register 0" % (key, text, content.line),
                          True)
                return "(0)"
            if content.kind != "number":
                raise Unknown("register %d holds %s of line %d" % (register, "the length that was got, no longer in register 0,"
                                                                   if content.kind == "length" else "an address or a name",
                                                                   content.line))
            number = int(content.what)
            label, name = self.contents.label
            between = "; a branch to %s in line %d may change it" % (name, label) if content.line <= label else ""
            self.note(it.line, 1, "%s=%s is taken as %d, of line %d%s" % (key, text, number, content.line, between), True)
        if not 0 <= number <= 0xFFFFFFFF:
            raise Unknown("%d is no number of a word" % number)
        if (it.form, key, register) == ("R", "LV", 0) and number >> 24:
            it.operands.append("SP=%d" % self.subpool(it, number >> 24))
            self.note(it.line, 1, "the first byte of register 0 is the subpool, %d" % (number >> 24), True)
            number &= 0xFFFFFF
        return str(self.subpool(it, number) if key in ("SP", "GSPV", "SHSPV") else number)

    def subpool(self, it: Macro, number: int) -> int:
        """A subpool's number; one above 127 gets a free one."""
        if number in self.subpools:
            chosen = self.subpools[number]
        elif number <= 127:
            if number not in self.literal:
                self.literal.add(number)
                self.is_new = True
            if number in self.chosen and number not in self.given_subpools.values():
                raise Unknown("subpool %d stands for another one: --sp gives that another number" % number)
            return number
        else:
            free = [k for k in range(127, 0, -1) if k not in self.chosen and k not in self.literal]
            if not free:
                raise Unknown("no number up to 127 is free for subpool %d" % number)
            chosen = self.subpools[number] = free[0]
            self.chosen.add(chosen)
        it.remarks.append("SP %d" % number)
        self.note(it.line, 1, "subpool %d is taken as %d" % (number, chosen))
        return chosen

    def subpool_list(self, it: Macro, _key: str, text: str) -> str:
        """The one number of a list that the source defines."""
        data = self.data_of(text)
        if len(data) < 2 or data[0] + 1 > len(data):
            raise Unknown("%s is no list whose bytes are known" % text)
        if data[0] != 1:
            raise Unknown("a list of %d subpools would have to be in storage: write an ATTACH for each, or a "
                          "POKE" % data[0])
        return str(self.subpool(it, data[1]))

    def header(self, it: Macro, _key: str, text: str) -> Optional[str]:
        inner = re.fullmatch(r"'(.*)'", text, re.S)
        if not inner:
            self.note(it.line, 1, "HDR=%s is a place in the program and is dropped" % text)
            return None
        shown = "".join(c if " " <= c <= "~" else "?" for c in inner[1].replace("''", "").replace("&&", "&"))
        if shown != inner[1] or len(shown) > 24:
            self.note(it.line, 1, "HDR=%s has at most 24 characters, and no apostrophe" % text)
        return "'%s'" % shown[:24] if shown else None

    def pool(self, it: Macro, _key: str, text: str) -> str:
        """The name of a cell pool: that of the field, or one for the register."""
        register = self.in_parentheses(text)
        if it.form != "BUILD":
            content = self.content(it, text)
            if content is None or content.kind != "pool":
                raise Unknown("%s isn't known to name a cell pool that an earlier BUILD made" % text)
            if content.what != text.upper():
                self.note(it.line, 1, "CPID=%s is taken as %s, of line %d" % (text, content.what, content.line), True)
            return str(content.what)
        name = text.upper() if register is None else "CPID%d" % register
        if not NAME.fullmatch(name):
            raise Unknown("%s is no name" % text)
        if register is not None:
            name = self.unused(name)
            self.note(it.line, 1, "CPID=%s is taken as %s" % (text, name), True)
            self.contents.set(register, Content("pool", name, it.line), it.line)
        else:
            self.contents.set_field(name, Content("pool", name, it.line))
        it.gave = Content("pool", name, it.line)
        self.used.setdefault(name, 0)
        return name

    def unused(self, name: str) -> str:
        """The name, or with a number after it, so that nothing else has it."""
        found, k = name, self.used.get(name, 0)
        while found in self.used:
            k += 1
            found = "%s_%d" % (name[:50], k + 1)
        self.used[name] = k
        self.used[found] = 0
        return found

    def address_operand(self, it: Macro, key: str, text: str) -> Optional[str]:
        if it.operation != "GETMAIN" and (it.operation, it.form) not in GIVING:
            return self.address(it, text)
        if it.operation == "GETMAIN" and it.form not in ("EC", "EU"):
            raise Unknown("A= isn't one of form %s" % it.form)
        register = self.in_parentheses(text)
        it.keyword = key
        if register is None and NAME.fullmatch(text.upper()):
            it.place = text.upper()
        elif register is not None and 1 <= register <= 12 and it.operation != "GETMAIN":
            it.place = "(%d)" % register
        else:
            raise Unknown("%s=%s isn't a name or one of the registers 1 to 12" % (key, text))
        return None

    def address(self, it: Macro, text: str) -> str:
        """What has the address of an area or cell: a register or name."""
        content = self.content(it, text)
        if content is None:
            if re.fullmatch(SYMBOL, text):
                raise Unknown("%s isn't known to hold an address that an earlier macro gave" % text)
            return str(self.symbols.number(text))
        if content.kind == "number":
            raise Unknown("%s holds the number %s, of line %d, and no address" % (text, content.what, content.line))
        if content.kind == "inside":
            return self.inside(it, text, content)
        if content.kind != "area":
            raise Unknown("%s holds no area, but what line %d gave" % (text, content.line))
        number = int(content.what)
        macro = self.macros[number]
        is_name_wanted = it.operation == "FREEMAIN" and it.form in ("E", "EC", "EU")
        holding = [register for register, other in self.held.items() if other == number and register]
        wanted = self.in_parentheses(text)
        if holding and not is_name_wanted:
            found = "(%d)" % (wanted if wanted in holding else holding[0])
        else:
            found = self.name_of(macro, number)
        if found not in (text.upper(), "(%s)" % wanted):
            self.note(it.line, 1, "%s is taken as %s, which has the address of line %d" % (text, found, macro.line), True)
        return found

    def inside(self, it: Macro, text: str, content: Content) -> str:
        """The number of an address in the middle of an area."""
        number, distance = content.what       # type: ignore[misc]
        macro = self.macros[number]
        self.asked.add(number)
        if number not in self.addresses:
            raise Unknown("%s is %d bytes into the area of line %d, whose address no run of the script gave"
                          % (text, distance, macro.line))
        found = "X'%08X'" % (self.addresses[number] + distance & 0xFFFFFFFF)
        self.note(it.line, 1, "%s is taken as %s, %d bytes into the area of line %d, as vsm answers" % (
            text, found, distance, macro.line), True)
        return found

    def name_of(self, macro: Macro, number: int) -> str:
        """A name that has the address of an earlier macro, which gets one if it has none."""
        if macro.register or macro.place and self.names.get(macro.place) != number:
            raise Unknown("the address of line %d is no longer in %s" % (macro.line, macro.place))
        if not macro.place:
            macro.place = self.unused(macro.wish or "AREA%d" % macro.line)
            if macro.folded() is None:
                macro.place = ""
                raise Unknown("line %d has no room for a name that gets its address" % macro.line)
            self.names[macro.place] = number
            also = ", and written as STORAGE OBTAIN, which has %s" % macro.keyword if macro.operation == "GETMAIN" else ""
            if also and macro.operands[0] == "R":
                also += "; out of storage is S878 then, not S80A"
            self.note(macro.line, 1, "it's given %s=%s%s" % (macro.keyword, macro.place, also))
        return macro.place
