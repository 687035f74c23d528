"""vsm-prompt: at a pseudo-terminal, as at a terminal, and with lines from a pipe."""
from __future__ import annotations

import os
import pty
import re
import select
import signal
import subprocess
import sys
import time
from pathlib import Path
from types import SimpleNamespace
from typing import Callable, Iterator

import pytest
from conftest import TOOLS, TOP, one_line

from vsmtools import bench, features
from vsmtools.command import Fault
from vsmtools.console import Console
from vsmtools.documents import Document
from vsmtools.prompting import Prompt, is_open, operand_text, with_blank
from vsmtools.words import completions

TOOL = "vsm-prompt"
SECONDS = 30
CODES = re.compile(rb"\x1b\[[0-9;?]*[A-Za-z]|\r|\x07")
FIRST = TOP / "examples" / "first-steps.vsm"


class Terminal:
    """A tool at a pseudo-terminal."""

    def __init__(self, *words: str, **more: str) -> None:
        self.pid, self.end = pty.fork()
        if self.pid == 0:
            os.environ.update({"TERM": "xterm", "INPUTRC": "/dev/null", "COLUMNS": "200", **more})
            os.environ.pop("XDG_STATE_HOME", None)
            os.execv(sys.executable, [sys.executable, str(TOOLS / TOOL), *words])
        self.seen = b""

    def read(self, seconds: float) -> bool:
        """Takes the output so far; whether there may be more."""
        ready, _, _ = select.select([self.end], [], [], seconds)
        try:
            piece = os.read(self.end, 1 << 16) if ready else b""
        except OSError:
            return False
        self.seen += piece
        return bool(piece)

    def until(self, text: str, seconds: float = SECONDS) -> str:
        """The output up to a text; the rest is left for later."""
        end = time.monotonic() + seconds
        while text.encode() not in CODES.sub(b"", self.seen):
            if not self.read(max(0, end - time.monotonic())):
                raise AssertionError("no '%s' in %r" % (text, self.seen))
        head, _, self.seen = CODES.sub(b"", self.seen).partition(text.encode())
        return head.decode()

    def type(self, text: str) -> None:
        os.write(self.end, text.encode())

    def interrupt(self, prompt: str) -> None:
        """Ctrl+C, up to the prompt. It's typed again if nothing follows, as a person would: Python doesn't see a signal
        that arrives while readline is at a key."""
        for _ in range(10):
            self.type("\x03")
            try:
                self.until(prompt, SECONDS / 10)
                return
            except AssertionError:
                pass
        raise AssertionError("Ctrl+C does nothing: %r" % self.seen)

    def ask(self, text: str, prompt: str) -> str:
        """A line typed, and the output up to the next prompt."""
        self.type(text + "\n")
        return self.until(prompt)

    def status(self) -> int:
        """The exit status, once it has ended."""
        end = time.monotonic() + SECONDS
        while time.monotonic() < end:
            done, status = os.waitpid(self.pid, os.WNOHANG)
            if done:
                self.pid = 0
                return os.waitstatus_to_exitcode(status)
            self.read(0.05)
        raise AssertionError("it doesn't end: %r" % self.seen)

    def close(self) -> None:
        if self.pid:
            os.kill(self.pid, signal.SIGKILL)
            os.waitpid(self.pid, 0)
        os.close(self.end)

    def child(self) -> int:
        """The process of vsm."""
        return int(Path("/proc/%d/task/%d/children" % (self.pid, self.pid)).read_text().split()[0])


@pytest.fixture
def terminal(vsm: str, tmp_path: Path) -> Iterator[Callable[..., Terminal]]:
    opened: list[Terminal] = []

    def start(*words: str) -> Terminal:
        opened.append(Terminal("--vsm", vsm, *words, HOME=str(tmp_path)))
        return opened[-1]
    yield start
    for it in opened:
        it.close()


def test_statements_and_the_sign_of_an_open_one(terminal: Callable[..., Terminal]) -> None:
    it = terminal()
    it.until("vsm 0> ")
    assert "0000001 RC=0 A=00006000 L=00000040" in it.ask("storage obtain,length=64,sp=1,addr=p", "vsm 1> ")
    it.ask("storage obtain,   a remark", "+> ")
    it.ask("length=8,", "+> ")
    assert "0000002 RC=0 A=00007000 L=00000008" in it.ask("  sp=2", "vsm 2> ")
    assert "NAME P 00006000" in it.ask("map", "vsm 2> ")
    it.type("\x04")
    assert it.status() == 0


def test_history_and_editing(terminal: Callable[..., Terminal]) -> None:
    it = terminal()
    it.until("vsm 0> ")
    it.ask("storage obtain,length=8", "vsm 1> ")
    it.type("\x1b[A")
    assert "RC=0 A=00006008 L=00000008" in it.ask("", "vsm 2> ")
    it.type("storage obtain,length=89\x7f\x1b[D\x1b[D\x1b[C")
    assert "L=00000008" in it.ask("", "vsm 3> ")


def test_the_first_prompt_and_lines_of_earlier_sessions(terminal: Callable[..., Terminal], tmp_path: Path) -> None:
    """Nothing is before the prompt. A file that can't be written, or is none, is no fault."""
    kept = tmp_path / ".local" / "state" / "nilbozad" / "vsm-prompt.history"
    for before in ("", "storage obtain,length=16\n"):
        it = terminal()
        assert it.until("vsm 0> ") == "" and (kept.read_text() if before else "") == before
        it.type("\x1b[A" if before else "storage obtain,length=16")
        assert "L=00000010" in it.ask("", "vsm 1> ")
        it.type("\x04")
        assert it.status() == 0
    kept.unlink()
    os.mkfifo(kept)
    it = terminal()
    it.until("vsm 0> ")
    it.type(".q\n")
    assert it.status() == 0 and kept.is_fifo()


@pytest.mark.parametrize("number", [0, signal.SIGHUP, signal.SIGTERM])
def test_lines_are_kept_if_the_terminal_goes(terminal: Callable[..., Terminal], tmp_path: Path, number: int) -> None:
    """Or a signal ends the prompt. Only their owner can read them, also if others could until now."""
    kept = tmp_path / ".local" / "state" / "nilbozad" / "vsm-prompt.history"
    kept.parent.mkdir(parents=True)
    kept.write_text("back 0\n")
    kept.chmod(0o644)
    it = terminal()
    it.until("vsm 0> ")
    it.ask("storage obtain,length=16", "vsm 1> ")
    if number:
        os.kill(it.pid, number)
        assert it.status() == -number
    else:
        os.close(it.end)
        assert os.waitpid(it.pid, 0)[1]
        it.pid, it.end = 0, os.open(os.devnull, os.O_RDWR)
    assert kept.read_text() == "back 0\nstorage obtain,length=16\n" and kept.stat().st_mode & 0o777 == 0o600


def test_a_caret_at_a_fault(terminal: Callable[..., Terminal], vsm: str) -> None:
    try:
        bench.find_explain(vsm)
    except Fault:
        return
    it = terminal()
    it.until("vsm 0> ")
    shown = it.ask("storage obtain,length=8,spp=4", "vsm 0> ").splitlines()
    assert shown[-3:-1] == ["0000001 FAULT OPERAND", "  storage obtain,length=8,spp=4"]
    assert shown[-1].index("^") == shown[-2].index("spp")


def test_completion(terminal: Callable[..., Terminal]) -> None:
    it = terminal()
    it.until("vsm 0> ")
    it.ask("storage obtain,length=8,addr=TABLE", "vsm 1> ")
    it.type("ST\tREL\tADDR\tTAB\t,LEN\t8\n")
    assert "RC=0" in it.until("vsm 2> ")
    it.type(".hel\t\n")
    assert ".back until P changes" in it.until("vsm 2> ")
    it.type(".sav\tx y\n")
    assert "it's .save FILE" in it.until("vsm 2> ")


def test_completions() -> None:
    def given(before: str, text: str) -> list[str]:
        return completions(before, text, lambda: ["P", "PAGE"], lambda: ["CP"])
    assert given("", "st") == ["STORAGE "] and "MAP " in given("", "")
    assert given("storage ", "") == ["OBTAIN,", "RELEASE,"]
    assert given("GETMAIN R", "") == [] or given("GETMAIN ", "V") == ["VRC,", "VRU,"]
    assert given("storage obtain,sp=1,", "") == ["LENGTH=", "ADDR=", "BNDRY=", "LOC=", "COND="]
    assert given("storage obtain,bndry=", "") == ["DBLWD", "PAGE"]
    assert given("freemain ru,a=", "p") == ["P", "PAGE"] and given("peek ", "pa") == ["PAGE"]
    assert given("cpool get,cpid=", "") == ["CP"] and given("nothing ", "") == []


def test_ctrl_c_drops_what_is_open(terminal: Callable[..., Terminal]) -> None:
    it = terminal()
    it.until("vsm 0> ")
    it.type("storage obt")
    it.until("storage obt")
    it.interrupt("vsm 0> ")
    it.ask("storage obtain,", "+> ")
    it.interrupt("vsm 0> ")
    assert "0000001 RC=0" in it.ask("storage obtain,length=8", "vsm 1> ")
    for _ in range(5):
        it.interrupt("vsm 1> ")
    it.ask("back 0", "KEPT=1")


def test_ctrl_d_drops_what_is_open_and_then_ends(terminal: Callable[..., Terminal]) -> None:
    it = terminal()
    it.until("vsm 0> ")
    it.ask("storage obtain,", "+> ")
    it.type("\x04")
    assert "is dropped" in it.until("vsm 0> ")
    it.type("\x04")
    assert it.status() == 0


def test_a_vsm_that_ends(terminal: Callable[..., Terminal], tmp_path: Path) -> None:
    it = terminal()
    it.until("vsm 0> ")
    it.ask("storage obtain,length=8", "vsm 1> ")
    os.kill(it.child(), signal.SIGKILL)
    assert "ended by signal 9" in it.ask("storage obtain,length=8", "vsm 1> ")
    assert "vsm has ended" in it.ask("map", "vsm 1> ")
    assert "1 lines in" in it.ask(".save %s" % (tmp_path / "kept"), "vsm 1> ")
    assert "0000001 RC=0" in it.ask(".restart", "vsm 1> ")
    assert "RC=0 A=00006008" in it.ask("storage obtain,length=8", "vsm 2> ")
    os.kill(it.child(), signal.SIGKILL)
    it.ask("map", "vsm 2> ")
    it.type("\x04")
    assert it.status() == 8


def test_nothing_is_left_behind(terminal: Callable[..., Terminal]) -> None:
    for end in ("\x04", ".quit\n"):
        it = terminal()
        it.until("vsm 0> ")
        child = it.child()
        it.type(end)
        assert it.status() == 0 and not Path("/proc/%d" % child).exists()


# By pipes.

def talk(run: Callable, vsm: str, text: str, *words: object, status: int = 0) -> tuple[list[str], list[str]]:
    done = run(TOOL, "--vsm", vsm, *words, given=text.encode())
    assert done.returncode == status, done.stderr
    return done.stdout.decode().splitlines(), done.stderr.decode().splitlines()


def test_long_lines_are_folded(run: Callable, vsm: str, tmp_path: Path) -> None:
    statement = "cpool build,pcellct=2,csize=16,sp=1,cpid=%s,hdr='A header,  of Today'" % ("n" * 63)
    talk(run, vsm, "%s\n.save %s\n" % (statement, tmp_path / "saved"))
    saved = (tmp_path / "saved").read_text().splitlines()
    assert len(saved) == 3 and all(len(line) <= 72 for line in saved)
    answers = bench.run(vsm, [], "\n".join(saved + [" MAP", ""]).encode()).answers
    assert answers[0].text == "RC=0 A=00006000 L=00000020" and any("'A header,  of Today'" in line
                                                                   for line in answers[1].rest)
    _, told = talk(run, vsm, "poke p,x'%s'\n" % ("0" * 700))
    assert len(told) == 1 and "at most ten lines" in told[0]


MOST_STEPS = 20_000    # of Python, for a line of any length


@pytest.mark.parametrize("text", ["STORAGE OBTAIN,LENGTH=8%s", "STORAGE OBTAIN,%s", "POKE P,%s'", "%s POKE", "WRONG (%s"])
@pytest.mark.parametrize("piece", ["A", "A,", "'", "(", "A=','", " "])
def test_a_line_of_a_megabyte_is_refused_at_once(vsm: str, text: str, piece: str) -> None:
    """By the prompt and the debugger, and the editor folds nothing: Python's steps are counted."""
    shown, line = bench.run(vsm, [], b" MAP\n").answers[0].map, text % (piece * (1_000_000 // len(piece)))
    walk = SimpleNamespace(carry_out=refuse)
    prompt, course = Prompt(SimpleNamespace(show=print, log=[], **vars(walk))), SimpleNamespace(map=shown, walk=walk)  # type: ignore
    document = Document("file:///long", 1, " " + line, "utf-16")
    document.read()
    where = {"range": document.lines_range(1, 1), "context": {"diagnostics": []}}
    stepped(lambda: prompt.take(line))
    stepped(lambda: Console(course, "", []).say(line))    # type: ignore[arg-type]
    stepped(lambda: features.actions(None, document, where, 1))    # type: ignore[arg-type]


def test_a_long_file_of_comments_is_passed_over_at_once() -> None:
    prompt, start = Prompt(SimpleNamespace(show=print, log=[])), time.process_time()    # type: ignore[arg-type]
    prompt.load("long", b"* c\n" * 200_000, None)
    assert len(prompt.bench.log) == 200_000 and time.process_time() - start < 5


def refuse(_lines: object) -> None:
    raise Fault("short enough")


def stepped(call: Callable[[], object]) -> None:
    """Runs a call that finds nothing or ends in a fault, within MOST_STEPS."""
    left = MOST_STEPS

    def trace(_frame: object, _event: str, _value: object) -> Callable:
        nonlocal left
        left -= 1
        assert left > 0, "it takes more than %d steps" % MOST_STEPS
        return trace
    sys.settrace(trace)
    try:
        assert not call()
    except Fault:
        pass
    finally:
        sys.settrace(None)


def test_continuation_lines_as_in_a_file(run: Callable, vsm: str) -> None:
    shown, told = talk(run, vsm, " STORAGE OBTAIN,LENGTH=8,".ljust(71) + "X\n" + " " * 15 + "SP=1\n MAP\n")
    assert shown[:2] == ["0000001 RC=0 A=00006000 L=00000008", "0000003 MAP"] and not told


def test_what_is_saved_runs_alike(run: Callable, vsm: str, tmp_path: Path) -> None:
    text = ("storage obtain,length=8,addr=p\n* a comment\nLABEL storage obtain,length=16\npoke p,x'01'\n"
            "back 2\nwhat\nforward 1\n.save %s\n" % (tmp_path / "saved"))
    shown, _ = talk(run, vsm, text)
    answers = bench.run(vsm, [], (tmp_path / "saved").read_bytes()).answers
    assert shown[:-1] == ["%07d %s" % (answer.line, answer.text) for answer in answers]
    _, told = talk(run, vsm, "map\n.save %s\n" % (tmp_path / "saved"))
    assert "there is one already" in told[0]
    talk(run, vsm, "map\n.save --over %s\n" % (tmp_path / "saved"))
    assert (tmp_path / "saved").read_text() == " map\n"
    for path in ("/dev/full", "/nowhere/x", str(tmp_path)):
        _, told = talk(run, vsm, "map\n.save --over %s\n" % path)
        assert len(told) == 1 and told[0].startswith("vsm-prompt: %s: can't be written: " % path)
    _, told = talk(run, vsm, "map\n.save a\0b\n.save --over a\0b\n.view a\0b\n")
    assert told == ["vsm-prompt: a\\x00b: can't be written: embedded null byte"] * 3


def test_back_until_changes(run: Callable, vsm: str) -> None:
    text = ("storage obtain,length=64,addr=p\npoke p,x'01'\npoke p,x'02'\nstorage obtain,length=8,addr=p\n"
            ".back until x'6000' changes\n.back until x'6000' changes\n.back until x'7000' changes\nforward 4\n")
    shown, told = talk(run, vsm, text + ".back until p changes\n.back until\n.back until x'6000',0 changes\n"
                       ".back until q changes\n")
    assert "0000005 KEPT=2" in shown and "  undone last: 3 poke p,x'02'   D=01000000 -> D=02000000" in shown
    assert "0000006 KEPT=1" in shown and "  none of the 1 changes that are kept changes it" in shown
    assert "REFUSED UNDONE=3" in "\n".join(shown) and len(told) == 3
    assert "it's .back until P changes" in told[0] and "no address" in told[1] and "Q isn't defined" in told[2]


def test_back_until_a_name_gets_its_value(run: Callable, vsm: str) -> None:
    """It stops there, not where the page was assigned; and says before where that is."""
    text = "storage obtain,length=8\nstorage obtain,length=8,addr=p\nstorage obtain,length=8,sp=1,addr=(5)\n"
    for place, line, kept, values in (("p", 2, 1, "P isn't defined -> P=00006008"), ("(5)", 3, 2, "(5)=00000000 -> (5)=00007000"),
                                      ("(R5),8", 3, 2, "(R5)=00000000 -> (R5)=00007000")):
        shown, told = talk(run, vsm, text + ".back until %s changes\n" % place)
        assert not told and [it for it in shown[3:] if it] == [
            "  back to before line %d, over %d change%s" % (line, 3 - kept, "" if kept == 2 else "s"), "0000004 KEPT=%d" % kept,
            "  undone last: %d %s   %s" % (line, text.split("\n")[line - 1], values)], shown


def test_a_file_to_a_line_and_on(run: Callable, vsm: str) -> None:
    wanted = ["%07d %s" % (it.line, it.text) for it in bench.run(vsm, [], FIRST.read_bytes()).answers]
    shown, told = talk(run, vsm, ".step\n.step 2\n.until RC=0 A=\n.run\n", "--stop", 3, FIRST)
    assert [line for line in shown if line[:1] == "0"] == wanted
    assert shown[2].startswith("  next is line 3: STORAGE OBTAIN") and not told
    shown, told = talk(run, vsm, ".until ABEND\n.step\n", "--stop", 1, FIRST)
    assert shown[-1] == "  no answer up to the file's end has 'ABEND'" and len(told) == 1
    whole, _ = talk(run, vsm, "", FIRST)
    assert [line for line in whole if line[:1] == "0"] == wanted
    assert run(TOOL, "--vsm", vsm, "--stop", 3).returncode == 16


def test_files_that_end_open_or_are_none(run: Callable, vsm: str, tmp_path: Path) -> None:
    path = tmp_path / "open.vsm"
    path.write_text(" STORAGE OBTAIN,LENGTH=8,".ljust(71) + "X\n")
    shown, _ = talk(run, vsm, " " * 15 + "SP=1\n", path)
    assert shown == ["  the file ends where line 1 is continued", "0000001 RC=0 A=00006000 L=00000008"]
    path.write_bytes(b"\0\xff\n STORAGE\xff\n" + b" " * 70000)
    assert "more than 65,536" in one_line(run(TOOL, "--vsm", vsm, path), TOOL)
    path.write_bytes(b"\0\xff\n STORAGE\xff\n")
    assert talk(run, vsm, "", path)[0] == ["0000001 FAULT COLUMN", "0000002 FAULT OPERATION"]
    for missing in (tmp_path / "nowhere", tmp_path):
        assert "can't be read" in one_line(run(TOOL, "--vsm", vsm, missing), TOOL)


def test_commands_that_are_none(run: Callable, vsm: str) -> None:
    shown, told = talk(run, vsm, ".who X'6000'\n.why 3\n.list\n.nothing\n.\n.step x\n.log\n.until\n")
    assert len(told) == 6
    assert any(".back until P changes" in line for line in shown)


def test_commands_by_a_beginning(run: Callable, vsm: str) -> None:
    shown, told = talk(run, vsm, "?\nhelp\n.h\n.?\n.s\n.l\nmap\n.lo\n.q\nmap\n")
    assert sum(".back until P changes" in line for line in shown) == 4
    assert told == ["vsm-prompt: .s isn't clear: it may be .step or .save",
                    "vsm-prompt: .l isn't clear: it may be .log or .list"]
    assert sum(line.endswith(" MAP") for line in shown) == 1


def test_a_file_that_is_read(run: Callable, vsm: str, tmp_path: Path) -> None:
    wanted = ["%07d %s" % (it.line, it.text) for it in bench.run(vsm, [], FIRST.read_bytes()).answers]
    shown, told = talk(run, vsm, ".read %s\n.read\n.read %s\n.read -\nmap\n" % (FIRST, tmp_path))
    assert [line for line in shown if line[:1] == "0"][:len(wanted)] == wanted
    assert len(told) == 3 and "it's .read FILE" in told[0] and "can't be read" in told[1] and "./-" in told[2]
    shown, _ = talk(run, vsm, ".read %s\n.run\n" % FIRST, "--stop", 2, FIRST)
    assert sum(line.endswith(" MAP") for line in shown) == 2     # of the file that's read, then of the first one


def test_control_characters_of_a_script(run: Callable, vsm: str, tmp_path: Path) -> None:
    path = tmp_path / "evil.vsm"
    path.write_bytes(b" STORAGE OBTAIN,LENGTH=8 \x1b]0;pwned\x07\n* \x1b[2J\r\x9b5m\n")
    done = run(TOOL, "--vsm", vsm, path, given=b".log\n.list\n.why 1\n.who 24576\n")
    assert b"pwned" in done.stdout and not re.search(rb"[\0-\x09\x0b-\x1f\x7f]|\xc2[\x80-\x9f]", done.stdout + done.stderr)


def test_wide_characters_up_to_the_last_column(run: Callable, vsm: str) -> None:
    """Columns are counted in bytes, so that no statement waits for a line that never follows."""
    shown, told = talk(run, vsm, "map %s\nmap\n" % ("\u00e4" * 40))
    assert [line[:11] for line in shown if "MAP" in line] == ["0000001 MAP", "0000003 MAP"] and not told


def test_nothing_is_replaced_unasked(run: Callable, vsm: str, tmp_path: Path) -> None:
    old, fifo, link = tmp_path / "precious.vsm", tmp_path / "fifo", tmp_path / "link"
    old.write_text("precious\n")
    os.mkfifo(fifo)
    link.symlink_to(tmp_path / "nowhere" / "x")
    for command in (".view", ".save"):
        _, told = talk(run, vsm, "map\n%s %s\n%s a b\n" % (command, old, command))
        assert len(told) == 2 and "there is one already" in told[0] and "it's " + command in told[1]
        assert old.read_text() == "precious\n"
    ways = ["%s%s" % (over, path) for path in (fifo, link, tmp_path) for over in ("", "--over ")]
    assert len(talk(run, vsm, "map\n" + "".join(".save %s\n" % way for way in ways))[1]) == len(ways)
    limited = "import resource; resource.setrlimit(resource.RLIMIT_FSIZE, (4096, 4096))"
    session = "* %s\n" % ("x" * 900) * 9
    done = subprocess.run([sys.executable, "-c", "%s; import os; os.execv(%r, %r)" % (limited, str(TOOLS / TOOL), [
        TOOL, "--vsm", vsm])], input=("%s.save --over %s\n" % (session, old)).encode(), capture_output=True)
    assert b"can't be written: File too large" in done.stderr and old.read_text() == "precious\n"
    assert sorted(it.name for it in tmp_path.iterdir()) == ["fifo", "link", "precious.vsm"]


def test_what_vsm_explain_says(run: Callable, vsm: str, tmp_path: Path) -> None:
    """By vsm-explain if it's found; otherwise a message that it isn't."""
    typed = "storage obtain,length=8,addr=p\npoke p,x'ff'\nstorage obtain,lenght=8\n"
    shown, told = talk(run, vsm, typed + ".who p\n.who (1)\n.who nothing\n.why 1\n.why\n.list\n.why 77\n.why x\n.who\n")
    try:
        bench.find_explain(vsm)
    except Fault:
        assert len(told) == 9 and "no program vsm-explain is found" in told[0]
        return
    text = "\n".join(shown)
    assert told.pop(0) == "vsm-prompt: NOTHING isn't defined"
    assert "D=00000000 -> D=FF000000" in text and "ABEND S0C4 -> D=00000000" in text
    assert "line 1: 8 bytes (X'8'), subpool 0" in text and "answered: FAULT OPERAND" in text
    assert "LENGTH?" in text and "[2]" in text
    assert len(told) == 3 and "77" in told[0]


def test_a_page(run: Callable, vsm: str, tmp_path: Path) -> None:
    """By vsm-view if it's found; otherwise a message that it isn't."""
    shown, told = talk(run, vsm, "storage obtain,length=8\n.view %s\n" % (tmp_path / "page.html"))
    if (TOOLS / "vsm-view").exists():
        assert not told and (tmp_path / "page.html").read_text().lstrip().lower().startswith("<!doctype html")
    else:
        assert told == ["vsm-prompt: vsm-view isn't in vsm-prompt's folder"]


def test_the_end_of_a_history(run: Callable, vsm: str) -> None:
    shown, _ = talk(run, vsm, "storage obtain,length=8\n" * 5 + ".log\nback 2\n.log\n", "--history", 2)
    assert shown[5:] == ["      4 storage obtain,length=8", "      5 storage obtain,length=8",
                         "0000006 KEPT=0",
                         "      4 storage obtain,length=8   (undone)",
                         "      5 storage obtain,length=8   (undone)"]


def test_words_of_a_line() -> None:
    assert operand_text("storage obtain,length=8   remarks, more") == "storage obtain,length=8"
    assert operand_text("L cpool build,hdr='a  b', x") == "L cpool build,hdr='a  b',"
    assert is_open("storage obtain,  remark") and not is_open("map   remark,") and not is_open("storage obtain,sp=1  a,")
    assert with_blank("map") == " map" and with_blank("LABEL map") == "LABEL map" and with_blank("  map") == " map"
