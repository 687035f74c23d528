"""A session with vsm at a prompt: its lines, the changes that are kept, and its commands."""
from __future__ import annotations

import os
import re
import signal
import tempfile
from collections import deque
from contextlib import contextmanager
from itertools import count
from typing import Callable, Iterator, Optional, Sequence

from . import showing
from .bench import TOOLS, Answer, Session, check_is_one, find_explain, run_anyhow
from .command import Fault, one_line, read_input, write_file
from .lines import (
    LAST_COLUMN, MOST_TEXT, fold, is_continued, is_passed_over, split_lines, statements, text_of, unquoted)
from .maps import Map, parse_map
from .words import FORMS

HELP = """  STATEMENT                  no blank is needed in column 1; after a last comma '+>' asks for more
  .back until P changes      steps back to before the last change of the 4 bytes at P; P,N: of N bytes
  .until ABEND               continues in FILE until an answer has this text
  .step [N], .run            continues in FILE by N statements, or to its end
  .read FILE                 carries out all statements of FILE
  .log                       the statements that are kept, and those that are undone
  .save FILE                 writes all lines as a script (.save --over FILE replaces one)
  .view [PAGE]               a page that shows the session, by vsm-view (.view --over PAGE replaces one)
  .restart                   runs all lines again, in a new vsm
  .who P                     who changed the 4 bytes at P, newest first, by vsm-explain; P,N: N bytes
  .why [LINE]                why the statement of that line (else the last one) got its answer
  .list                      the session as a listing, with a caret at each fault
  .help, ?                   these lines
  .quit                      ends, as Ctrl+D does; Ctrl+C drops the line that is open
  P is a name, an address or a register. A command may be shortened while it stays clear: .sa, .q"""
# Each command with what Tab makes of it.
COMMANDS = {text.split()[0]: text for text in re.findall(r"(?m)(?:^  |], )\.((?:back )?\w+(?: (?=[A-Z]))?)", HELP)}
SECONDS = 30.0


@contextmanager
def deferred() -> Iterator[None]:
    """Puts Ctrl+C off to the end of what must not be cut in two: a statement and its answer."""
    came: list[int] = []
    before = signal.signal(signal.SIGINT, lambda number, _: came.append(number))
    try:
        yield
    finally:
        signal.signal(signal.SIGINT, before)
    if came:
        raise KeyboardInterrupt


def operand_text(text: str) -> str:
    """A statement without its remarks, or the beginning of one that is too long."""
    text = text[:MOST_TEXT + 1]
    found = re.match(r"(\s*(?:\S+\s+)??)(%s)(\s+|$)" % "|".join(FORMS), text, re.I)
    if not found:
        return text.rstrip()
    if found[2].upper() in ("MAP", "ENDTASK"):   # all after these is remarks
        return text[:found.end(2)]
    return text[:next((at for at, char in unquoted(text, found.end()) if char == " "), len(text))]


def is_open(text: str) -> bool:
    """Whether operands continue: they end with a comma, and a statement has room for them."""
    operands = operand_text(text.lstrip())
    return len(operands) <= MOST_TEXT and operands.endswith(",")


def with_blank(text: str) -> str:
    """A typed statement with its blank in column 1, except if a name is there."""
    words = text.split(None, 2)
    has_name = len(words) > 1 and words[0].upper() not in FORMS and words[1].upper() in FORMS
    return text if has_name and not text.startswith(" ") else " " + text.strip()


class Bench:
    """vsm, all lines that were carried out, and which of them are kept and undone."""

    def __init__(self, program: str, options: Sequence[str], show: Callable[[str], None]) -> None:
        self.program, self.options, self.show = program, list(options), show
        self.log: list[str] = []
        self.session: Optional[Session] = None
        self.start()
        self.limit = self.map().history

    def start(self) -> None:
        self.kept: list[int] = []       # where they begin in the log, from 0
        self.undone: list[int] = []
        self.ended = ""
        self.session = Session(self.program, self.options, SECONDS)
        self.ask([" BACK 0"])           # arguments that vsm refuses are reported at once

    def ask(self, lines: Sequence[str]) -> Answer:
        """The answer of vsm to one statement's lines; not to be cut in two by Ctrl+C."""
        if self.session is None:
            raise Fault("vsm has ended (%s); .save FILE keeps the lines, .restart runs them again" % self.ended)
        check_is_one(lines)
        try:
            return self.session.say(lines)
        except Fault as fault:
            self.ended = str(fault)
            self.close()
            raise

    def carry_out(self, lines: Sequence[str]) -> Answer:
        """One statement's lines: into the log, to vsm, and its answer with its number in the log."""
        with deferred():
            answer, begin = self.ask(lines), len(self.log)
            self.log += lines
            self.count(answer, begin)
        self.show("%07d %s" % (begin + 1, answer.text))
        for line in answer.rest:
            self.show(line)
        return answer

    def count(self, answer: Answer, begin: int) -> None:
        if answer.is_kept:
            self.kept.append(begin)
            self.undone = []
            if len(self.kept) > self.limit:
                self.kept.pop(0)
        elif answer.kept is not None:
            while len(self.kept) > answer.kept:
                self.undone.append(self.kept.pop())
            while len(self.kept) < answer.kept and self.undone:
                self.kept.append(self.undone.pop())

    def text(self, begin: int) -> str:
        """A statement of the log in one line, with its number."""
        return "%7d %s" % (begin + 1, self.log[begin].strip()[:LAST_COLUMN])

    def step(self, statement: str) -> Answer:
        """A step that the log doesn't have."""
        with deferred():
            answer = self.ask([" " + statement])
            self.count(answer, 0)
        return answer

    def peek(self, place: str) -> str:
        """What a PEEK is answered; the log doesn't have it."""
        with deferred():
            return self.ask([" PEEK " + place]).text

    def map(self) -> Map:
        with deferred():
            return parse_map(self.ask([" MAP"]).rest)

    def close(self) -> None:
        if self.session is not None:
            self.session.close()
            self.session = None


class Prompt:
    """What a line that is typed does. `ended` says that .quit was typed."""

    def __init__(self, bench: Bench) -> None:
        self.bench, self.show = bench, bench.show
        self.open: list[str] = []        # lines of a statement that continues
        self.is_raw = False              # they are as in a file
        self.ended = False
        self.is_interrupted = False      # Ctrl+C was typed, and its line isn't ended yet
        self.has_carets = False          # at a fault of a statement that is typed
        self.rest: deque[list[str]] = deque()    # of the file: statements, and lines that are skipped

    @property
    def prompt(self) -> str:
        return "      +> " if self.open else "vsm %d> " % len(self.bench.kept)

    # Statements.

    def take(self, line: str) -> None:
        """One line that was typed."""
        line = line.rstrip("\r\n")
        if self.open:
            self.go_on(line)
        elif line.startswith("."):
            self.command(line)
        elif line.strip().lower() in ("?", "help"):
            self.show(HELP)
        elif not line.strip() or is_passed_over(line.encode("utf-8", "replace")):
            if line.strip():
                self.bench.log.append(line)
        elif len(line) == LAST_COLUMN + 1 and line.startswith(" ") and line[LAST_COLUMN] != " ":
            self.open, self.is_raw = [line], True
        elif is_open(line):
            self.open, self.is_raw = [line], False
        else:
            self.statement(with_blank(line))

    def go_on(self, line: str) -> None:
        """A line that continues a statement; an empty one ends it as it is."""
        if self.is_raw:
            self.open.append(line)
            if not is_continued(line.encode("utf-8", "replace")):
                self.send()
            return
        self.open = [operand_text(self.open[0]) + line.strip()]
        if not line.strip() or not is_open(self.open[0]):
            self.send()

    def send(self) -> None:
        lines, self.open = self.open, []
        if self.is_raw:
            self.carry_out(lines)
        else:
            self.statement(with_blank(lines[0]))

    def statement(self, text: str) -> None:
        # Columns are counted in bytes.
        lines = fold(text.encode("utf-8", "surrogateescape").decode("latin-1"))
        if lines is None:
            raise Fault("a statement has at most ten lines: this one of %d characters takes more" % len(text))
        self.carry_out([line.encode("latin-1").decode("utf-8", "surrogateescape") for line in lines])

    def carry_out(self, lines: Sequence[str]) -> None:
        """One statement that was typed, with a caret at its fault if vsm-explain exists."""
        if not self.bench.carry_out(lines).text.startswith("FAULT ") or not self.has_carets:
            return
        try:
            listing = self.over(find_explain(self.bench.program), lambda path: ["list", path], lines)
        except Fault:
            return
        for one, other in zip(listing, listing[1:]):
            if other.strip().startswith("^ "):
                self.show(one[8:])
                self.show(other[8:])

    def drop(self) -> None:
        """Forgets the statement that is open."""
        self.open, self.is_interrupted = [], True

    # The file.

    def load(self, name: str, data: bytes, stop: Optional[int]) -> None:
        """Carries out the statements of a file that begin before a line, and keeps the others for later."""
        lines = [line.decode("utf-8", "surrogateescape") for line in split_lines(data)]
        number = next((k for k, it in enumerate(lines, 1) if len(it) > 65536), None)
        if number:
            raise Fault("a line has more than 65,536 characters", name, number)
        found = statements([line.encode("utf-8", "surrogateescape") for line in lines])
        ends, at = {it.first - 1: it.last for it in found}, 0
        while at < len(lines):
            self.rest.append(lines[at:ends.get(at, at + 1)])
            at += len(self.rest[-1])
        self.go(lambda answer: False, stop)

    def go(self, is_last: Callable[[Answer], bool], stop: Optional[int] = None) -> bool:
        """Continues in the file; whether that reached an answer that was the last one requested."""
        while self.rest and (stop is None or len(self.bench.log) + 1 < stop):
            lines = self.rest.popleft()
            if is_passed_over(lines[0].encode("utf-8", "surrogateescape")):
                self.bench.log += lines
            elif is_continued(lines[-1].encode("utf-8", "surrogateescape")):
                self.open, self.is_raw = lines, True
                self.show("  the file ends where line %d is continued" % (len(self.bench.log) + len(lines)))
            elif is_last(self.bench.carry_out(lines)):
                return True
        return False

    def next(self) -> None:
        """Shows the next statement of the file."""
        at = len(self.bench.log)
        for lines in self.rest:
            at += len(lines)
            if not is_passed_over(lines[0].encode("utf-8", "surrogateescape")):
                self.show("  next is line %d: %s" % (at - len(lines) + 1, one_line(lines[0].strip()[:LAST_COLUMN])))
                return
        self.show("  the file is at its end")

    # Commands.

    def command(self, line: str) -> None:
        words = line[1:].split()
        name = words[0].lower() if words else "help"
        found = [it for it in COMMANDS if it == name] or [it for it in COMMANDS if it.startswith(name)]
        if name == "?":
            found = ["help"]
        if len(found) > 1:
            raise Fault(".%s isn't clear: it may be %s" % (name, " or ".join("." + it for it in found)))
        if not found:
            raise Fault("no command .%s; .help lists them" % name)
        getattr(self, "do_" + found[0])(words[1:])

    def do_help(self, _words: list[str]) -> None:
        self.show(HELP)

    def do_quit(self, _words: list[str]) -> None:
        self.ended = True

    def do_back(self, words: list[str]) -> None:
        if len(words) != 3 or words[0].lower() != "until" or words[2].lower() != "changes":
            raise Fault("it's .back until P changes, or P,N of N bytes; BACK N steps back by N changes")
        place = self.place(words[1])
        kept, name = len(self.bench.kept), words[1].upper().partition(",")[0]
        now, word = self.bench.peek(place), self.word(name)
        if now.startswith("FAULT"):
            raise Fault("'%s' is no address with a number of bytes from 1 to 256: %s" % (words[1], now))
        try:
            for steps in range(1, kept + 1):
                begin = self.bench.kept[-1]
                self.bench.step("BACK 1")
                was, before = self.bench.peek(place), self.word(name)
                if was != now or before != word:
                    self.show("  back to before line %d, over %d change%s" % (begin + 1, steps, "" if steps == 1 else "s"))
                    self.bench.log.append(" BACK %d" % steps)
                    self.show("%07d KEPT=%d" % (len(self.bench.log), len(self.bench.kept)))
                    values = [name + (" isn't defined" if it is None else "=%08X" % it) for it in (before, word)] \
                        if before != word else ["unassigned" if it.startswith("ABEND") else it for it in (was, now)]
                    self.show("  undone last: %s   %s -> %s" % (self.bench.text(begin).strip(), *values))
                    return
        except KeyboardInterrupt:
            self.bench.step("FORWARD %d" % (kept - len(self.bench.kept)))
            raise
        self.bench.step("FORWARD %d" % kept)
        self.show("  none of the %d changes that are kept changes it" % kept)

    def word(self, name: str) -> Optional[int]:
        """What a name or register holds; None if it's none that holds anything."""
        if not re.fullmatch(r"[A-Z$#@_][\w$#@]*|\(R?\d+\)", name):
            return None
        shown = self.bench.map()
        return showing.address_of(name, shown) if name[0] == "(" else showing.named(shown, name)

    def place(self, text: str) -> str:
        """An address that stays the same while names and registers change, with a number of bytes."""
        name, _, count = text.upper().partition(",")
        word = self.word(name)
        if word is not None:
            name = "X'%X'" % word
        elif re.fullmatch(r"[A-Z$#@_][\w$#@]*", name):
            raise Fault("%s isn't defined" % name)
        return "%s,%s" % (name, count or "4")

    def do_until(self, words: list[str]) -> None:
        text = " ".join(words)
        if not text:
            raise Fault("it's .until ABEND, or any other text of an answer")
        self.need_file()
        if not self.go(lambda answer: text.upper() in answer.text):
            self.show("  no answer up to the file's end has '%s'" % one_line(text))
        elif self.rest:
            self.next()

    def need_file(self) -> None:
        if not self.rest:
            raise Fault("no lines of a file are left to carry out")

    def do_step(self, words: list[str]) -> None:
        if words and not (words[0].isdecimal() and len(words[0]) < 8):
            raise Fault("it's .step N")
        self.need_file()
        steps = count(1)
        self.go(lambda _: next(steps) >= (int(words[0]) if words else 1))
        self.next()

    def do_run(self, _words: list[str]) -> None:
        self.need_file()
        self.go(lambda answer: False)

    def do_read(self, words: list[str]) -> None:
        if len(words) != 1:
            raise Fault("it's .read FILE")
        rest, self.rest = self.rest, deque()
        try:
            self.load(*read_input("./-" if words[0] == "-" else words[0]), None)
        finally:
            self.rest += rest

    def do_log(self, _words: list[str]) -> None:
        for begin in self.bench.kept:
            self.show(self.bench.text(begin))
        for begin in reversed(self.bench.undone):
            self.show(self.bench.text(begin) + "   (undone)")

    def write(self, words: list[str], command: str, data: bytes) -> str:
        """Writes a file that a command names, and returns its name."""
        over = words[:1] == ["--over"]
        if len(words) != 1 + over:
            raise Fault("it's .%s, or .%s" % (command, command.replace(" ", " --over ")))
        write_file(words[-1], data, over)
        return words[-1]

    def do_save(self, words: list[str]) -> None:
        self.show("  %d lines in %s" % (len(self.bench.log), self.write(words, "save FILE", text_of(self.bench.log))))

    def over(self, program: str, words: Callable[[str], list[str]], lines: Sequence[str]) -> list[str]:
        """What a program prints over lines in a file; its arguments go around the path."""
        if not lines:
            raise Fault("there is nothing to show yet")
        with tempfile.TemporaryDirectory(prefix="vsm-prompt-") as folder:
            path = os.path.join(folder, "session.vsm")
            with open(path, "wb") as file:
                file.write(text_of(lines))
            done = run_anyhow(program, words(path), b"")
        if done.status not in (0, 4):
            raise Fault(one_line(done.errors.strip()) or "%s ended with status %d" % (program, done.status))
        return done.output.decode("utf-8", "surrogateescape").split("\n")[:-1]

    def do_view(self, words: list[str]) -> None:
        program = os.path.join(TOOLS, "vsm-view")
        if not os.access(program, os.X_OK):
            raise Fault("vsm-view isn't in vsm-prompt's folder")
        lines = self.over(program, lambda path: ["--vsm", self.bench.program, *self.bench.options, path],
                          self.bench.log)
        page = self.write(words or [os.path.join(tempfile.mkdtemp(prefix="vsm-view-"), "session.html")],
                          "view PAGE", text_of(lines))
        self.show("  %s" % os.path.abspath(page))

    def explain(self, subcommand: str, words: list[str]) -> None:
        """Shows what vsm-explain says of the session."""
        for line in self.over(find_explain(self.bench.program),
                              lambda path: [subcommand, *self.bench.options, path, *words], self.bench.log):
            self.show(line)

    def do_who(self, words: list[str]) -> None:
        if len(words) != 1:
            raise Fault("it's .who P, or .who P,N of N bytes")
        self.explain("who", self.place(words[0]).split(","))

    def do_why(self, words: list[str]) -> None:
        if len(words) > 1 or words and not (words[0].isdecimal() and len(words[0]) < 8):
            raise Fault("it's .why, or .why LINE")
        found = statements(split_lines(text_of(self.bench.log)))
        if not words and not found:
            raise Fault("there is no statement yet")
        self.explain("why", words or [str(found[-1].first)])

    def do_list(self, _words: list[str]) -> None:
        self.explain("list", [])

    def do_restart(self, _words: list[str]) -> None:
        lines, self.bench.log = self.bench.log, []
        self.bench.close()
        self.bench.start()
        rest, self.rest = self.rest, deque()
        self.load("the session", text_of(lines), None)
        self.rest = rest
