"""vsm-test as a user would use it, and the conformance suite."""
from __future__ import annotations

import os
import random
import resource
import shutil
import signal
import stat
import subprocess
import sys
import time
import xml.etree.ElementTree as ElementTree
from pathlib import Path
from typing import Any, Callable

import pytest
from conftest import TOOLS, TOP

from vsmtools import expectations
from vsmtools.bench import Answer

TOOL = TOOLS / "vsm-test"
SUITE = TOP / "conformance"
OBTAIN = b" STORAGE OBTAIN,LENGTH=8\n"
RIGHT = b"*> RC=0 A=00006000 L=00000008\n"


class Ended:
    """How a command ended, and what it printed."""

    def __init__(self, done: subprocess.CompletedProcess[bytes]) -> None:
        self.status = done.returncode
        self.bytes = done.stdout
        self.output = done.stdout.decode("utf-8", "replace")
        self.errors = done.stderr.decode("utf-8", "replace")
        self.lines = self.output.splitlines()


Tool = Callable[..., Ended]
Put = Callable[..., Path]
Fake = Callable[[str], str]


@pytest.fixture
def tool(vsm: str, tmp_path: Path) -> Tool:
    """Runs vsm-test with these arguments in a folder of its own."""
    def run(*words: object, program: str = vsm, **given: Any) -> Ended:
        command = [sys.executable, str(TOOL), "--program", program, *map(str, words)]
        return Ended(subprocess.run(command, capture_output=True, cwd=tmp_path, timeout=120, **given))
    return run


@pytest.fixture
def put(tmp_path: Path) -> Put:
    """Writes a file of that folder."""
    def write(name: str, *data: bytes) -> Path:
        path = tmp_path / name
        path.parent.mkdir(parents=True, exist_ok=True)
        path.write_bytes(b"".join(data))
        return path
    return write


@pytest.fixture
def fake(put: Put) -> Fake:
    """A program that is a shell's script."""
    def make(text: str) -> str:
        path = put("fake", b"#!/bin/sh\n", text.encode(), b"\n")
        path.chmod(0o755)
        return str(path)
    return make


@pytest.fixture(scope="session")
def suite_scripts() -> list[expectations.Script]:
    return [expectations.read_script(str(path), path.read_bytes()) for path in sorted(SUITE.rglob("*.vsm"))]


# Comparing.

def test_what_is_right_passes(tool: Tool, put: Put) -> None:
    put("right.vsm", OBTAIN, RIGHT, b" MAP\n")
    done = tool("right.vsm")
    assert (done.status, done.output, done.errors) == (0, "1 passed, 0 failed\n", "")


def test_what_differs_is_told_with_file_and_line(tool: Tool, put: Put) -> None:
    put("wrong.vsm", b"* a comment\n", OBTAIN, b"\n* one more\n*> RC=0 A=00006008 L=00000008\n")
    done = tool("wrong.vsm")
    assert done.status == 1
    assert done.lines == ["wrong.vsm:5: line 2 gets another answer (- expected, + answered)",
                          "-RC=0 A=00006008 L=00000008", "+RC=0 A=00006000 L=00000008", "answers: 0 of 1", "0 passed, 1 failed"]


@pytest.mark.parametrize("text", [b"RC=0", b"RC=0 A=00006000 L=0000000", b"RC=0 A=00006000 L=00000008 ..",
                                  b" RC=0 A=00006000 L=00000008", b"rc=0 a=00006000 l=00000008"])
def test_the_whole_line_is_compared(tool: Tool, put: Put, text: bytes) -> None:
    put("part.vsm", OBTAIN, b"*> ", text, b"\n")
    assert tool("part.vsm").status == 1


def test_a_map_is_compared_line_by_line(tool: Tool, put: Put) -> None:
    lesson = put("map.vsm", OBTAIN, b" MAP\n")
    assert tool("--write", "map.vsm").status == 0
    lines = lesson.read_text().splitlines(keepends=True)
    assert lines[2:5] == [" MAP\n", "*> MAP\n", "*>  TASK 1 PARENT 0 CURRENT\n"]
    at = next(k for k, line in enumerate(lines) if "FREE 00006008" in line)
    lines[at] = "*>   FREE 00006008 00000FF0\n"
    lesson.write_text("".join(lines))
    done = tool("map.vsm")
    assert done.lines[0].startswith("map.vsm:%d: line 3 gets another answer" % (at + 1))
    assert "-  FREE 00006008 00000FF0" in done.lines and "+  FREE 00006008 00000FF8" in done.lines
    lesson.write_text("".join(lines[:-1]))
    assert tool("map.vsm").status == 1


def test_options_are_those_of_the_script(tool: Tool, put: Put) -> None:
    above = b"*> RC=0 A=08000000 L=00000008\n"
    put("above.vsm", b"*! --residence 31\n*!  --low=4\t--history +2\n", OBTAIN, above)
    assert tool("above.vsm").status == 0
    put("below.vsm", OBTAIN, above)
    assert tool("below.vsm").status == 1


def test_the_last_statement_of_an_open_script(tool: Tool, put: Put) -> None:
    put("open.vsm", OBTAIN, RIGHT, b"*>end FAULT CONTINUATION\n", b" BACK 1".ljust(71), b"X\n")
    assert tool("open.vsm").status == 0
    put("other.vsm", OBTAIN, RIGHT, b"*>end FAULT VALUE\n", b" BACK 1".ljust(71), b"X\n")
    assert tool("other.vsm").lines[0].startswith("other.vsm:3: line 4 gets another answer")


def test_a_blank_is_to_be_filled_in(tool: Tool, put: Put) -> None:
    put("open.vsm", OBTAIN, b"*> ?\n")
    done = tool("open.vsm")
    assert (done.status, done.lines[0]) == (1, "open.vsm:2: the answer to line 1 is to be filled in")
    assert "6000" not in done.output


def test_a_script_that_expects_nothing_fails(tool: Tool, put: Put) -> None:
    put("bare.vsm", OBTAIN)
    done = tool("bare.vsm")
    assert (done.status, done.lines[-1]) == (1, "0 passed, 1 failed")
    assert done.lines[0].startswith("bare.vsm:1: nothing is expected")


def test_a_folder_has_all_its_scripts(tool: Tool, put: Put) -> None:
    put("all/a.vsm", OBTAIN, RIGHT)
    put("all/b/c.vsm", OBTAIN, b"*> OK\n")
    put("all/notes.txt", b"no script")
    done = tool("all", "all/a.vsm")
    assert (done.status, done.lines[-1]) == (1, "2 passed, 1 failed")
    assert done.lines[0].startswith("all/b/c.vsm:2:")


def test_carriage_returns_are_no_part_of_a_line(tool: Tool, put: Put) -> None:
    put("dos.vsm", OBTAIN[:-1], b"\r\n", RIGHT[:-1], b"\r\n")
    assert tool("dos.vsm").status == 0


# Filling in, and hiding.

def test_write_keeps_all_else(tool: Tool, put: Put) -> None:
    before = (b"*! --history 2\n\n* caf\xe9\t\n NAME  \n", b" MAP    remarks \xff   \n",
              b" STORAGE OBTAIN,".ljust(71), b"X00000100\n", b" " * 15, b"LENGTH=8  \n",
              b" FOO\n*>   FAULT OPERAND\n* behind it\n*> ?\n", b" BACK 9")
    lesson = put("lesson.vsm", *before)
    assert tool("--write", "lesson.vsm").output == "lesson.vsm: filled in\n1 passed, 0 failed\n"
    after = lesson.read_bytes()
    kept = [line for line in after.split(b"\n") if not line.startswith(b"*>")]
    assert kept == [line for line in (b"".join(before) + b"\n").split(b"\n") if not line.startswith(b"*>")]
    assert b" FOO\n*> FAULT OPERATION\n* behind it\n BACK 9\n*> REFUSED KEPT=1\n" in after
    assert tool("lesson.vsm").status == 0
    assert tool("--write", "lesson.vsm").output == "1 passed, 0 failed\n"
    assert lesson.read_bytes() == after


def test_write_goes_ahead_where_nothing_can_stand_behind(tool: Tool, put: Put) -> None:
    open_line = b" BACK 0".ljust(71) + b"X"
    for tail in (open_line, open_line + b"\n", b" BACK 0\r", open_line + b"\nno blanks".ljust(72) + b"X\n"):
        lesson = put("lesson.vsm", OBTAIN, tail)
        assert tool("--write", "lesson.vsm").status == 0
        answer = b"FAULT VALUE" if tail == b" BACK 0\r" else b"FAULT CONTINUATION"
        assert lesson.read_bytes() == OBTAIN + RIGHT + b"*>end " + answer + b"\n" + tail
        assert tool("lesson.vsm").status == 0


def test_an_exercise_without_its_answers(tool: Tool, put: Put) -> None:
    put("all/exercise.vsm", OBTAIN, RIGHT, OBTAIN, b"*> RC=4\n", OBTAIN, b"*> ?\n MAP\n*> MAP\n*>  TASK 2\n", OBTAIN)
    put("all/right.vsm", OBTAIN, RIGHT)
    done = tool("--no-answers", "--junit", "report.xml", "all")
    assert (done.status, done.errors) == (1, "")
    assert done.lines == ["all/exercise.vsm:4: line 3 gets another answer",
                          "all/exercise.vsm:6: the answer to line 5 is to be filled in",
                          "all/exercise.vsm:9: line 7 gets another answer", "all/exercise.vsm: 1 of 4",
                          "all/right.vsm: 1 of 1", "answers: 2 of 5", "1 passed, 1 failed"]
    assert "RC=0" not in (put("x").parent / "report.xml").read_text()
    for word in ("--write", "--hide"):
        assert tool("--no-answers", word, "all/right.vsm").status == 16


def test_a_fifo_in_a_folder_stops_nothing(tool: Tool, put: Put) -> None:
    os.mkfifo(put("all/a.vsm", OBTAIN, RIGHT).parent / "f.vsm")
    done = tool("all")
    assert done.status == 8 and done.lines == ["all/f.vsm: it's no regular file", "answers: 1 of 1",
                                                                                 "1 passed, 1 failed"]


def test_write_and_hide_go_round(tool: Tool, put: Put) -> None:
    before = {put("all/%s-%s" % (script.parent.name, script.name), script.read_bytes()): script.read_bytes()
              for script in sorted(SUITE.rglob("*.vsm"))[::24]}
    for path in before:
        exercise = tool("--hide", path)
        assert exercise.status == 0 and (b"*> ?\n" in exercise.bytes or b"*>end ?\n" in exercise.bytes)
        assert b"*> RC" not in exercise.bytes and b"*> MAP" not in exercise.bytes
        path.write_bytes(exercise.bytes)
    assert tool("all").lines[-1] == "0 passed, %d failed" % len(before)
    assert tool("--write", "all").status == 0
    assert {path: path.read_bytes() for path in before} == before


def test_each_script_of_the_suite_goes_round(suite_scripts: list[expectations.Script]) -> None:
    whole = [script for script in suite_scripts if all(it.expected for it in script.tested)]
    assert len(whole) > 100
    for script in whole:
        exercise = expectations.read_script(script.name, expectations.hidden(script))
        wanted = [[line.text for line in it.expected] for it in script.tested]
        given = [Answer(it.extent.first, text[0], tuple(text[1:])) for it, text in zip(exercise.tested, wanted)]
        assert expectations.filled_in(exercise, given) == script.data


def test_write_keeps_mode_and_link(tool: Tool, put: Put, tmp_path: Path) -> None:
    lesson = put("real/lesson.vsm", OBTAIN)
    lesson.chmod(0o640)
    (tmp_path / "link.vsm").symlink_to(lesson)
    assert tool("--write", "link.vsm").status == 0
    assert (tmp_path / "link.vsm").is_symlink() and lesson.read_bytes() == OBTAIN + RIGHT
    assert stat.S_IMODE(lesson.stat().st_mode) == 0o640
    assert os.listdir(lesson.parent) == ["lesson.vsm"]


def test_what_cannot_be_written_stays(tool: Tool, put: Put) -> None:
    lesson = put("lesson.vsm", OBTAIN, b"* " + b"x" * 999 + b"\n")
    before = lesson.read_bytes()
    # No file may become longer than the script is.
    limit = (len(before), len(before))
    done = tool("--write", "lesson.vsm", preexec_fn=lambda: resource.setrlimit(resource.RLIMIT_FSIZE, limit))
    assert (done.status, len(done.errors.splitlines())) == (8, 1), done.output + done.errors
    assert lesson.read_bytes() == before and os.listdir(lesson.parent) == ["lesson.vsm"]


def test_hide_tells_that_nothing_is_expected(tool: Tool, put: Put) -> None:
    put("bare.vsm", OBTAIN)
    done = tool("--hide", "bare.vsm")
    assert (done.status, done.output) == (1, "")
    assert done.errors.startswith("vsm-test: bare.vsm:1: nothing is expected")


# Reports.

def test_junit(tool: Tool, put: Put, tmp_path: Path) -> None:
    put("all/a.vsm", OBTAIN, RIGHT)
    put("all/b<&\".vsm", OBTAIN, b"*> <&\x01\xff\"'\n")
    put("all/c.vsm", RIGHT)
    done = tool("--junit", "report.xml", "all")
    suite = ElementTree.parse(tmp_path / "report.xml").getroot()
    assert (suite.tag, suite.get("tests"), suite.get("failures")) == ("testsuite", "3", "2")
    cases = suite.findall("testcase")
    assert [case.get("name") for case in cases] == ["a.vsm", "b<&\".vsm", "c.vsm"]
    assert [case.find("failure") is not None for case in cases] == [False, True, True]
    failure = cases[1].find("failure")
    assert failure is not None and "+RC=0 A=00006000 L=00000008" in (failure.text or "")
    assert done.lines[-1] == "1 passed, 2 failed"


# Wrong input.

@pytest.mark.parametrize("data, told", [
    (RIGHT + OBTAIN, "1:1: an expectation has to be after its statement"),
    (OBTAIN + b"*>RC=0\n", "2:3: an unknown form '*>RC=0'"),
    (OBTAIN + b"*>\n", "2:3: an expectation without a text"),
    (OBTAIN + b"*>   \n", "2:3: an expectation without a text"),
    (OBTAIN + b"*>  ?\n", "2:3: an unknown form"),
    (OBTAIN + b"*>ending RC=0\n", "2:3: an unknown form '*>ending'"),
    (OBTAIN + b"*> 0000001 RC=0\n", "2:4: an answer is written here without its number"),
    (OBTAIN + b" *> RC=0\n", "2:2: '*>' has to be in column 1"),
    (OBTAIN + b"*! --low 4\n", "2:1: options have to be before the first statement, which is in line 1"),
    (b"*!--low 4\n" + OBTAIN, "1:1: an unknown form '*!--low'"),
    (b"*!\n" + OBTAIN, "1:1: an unknown form '*!'"),
    (b"*! --low 4 file\n" + OBTAIN, "1:12: 'file' is no option of vsm"),
    (b"*! -- file\n" + OBTAIN, "1:4: '--' is no option of vsm"),
    (b"* x\n*! --low 6\n" + OBTAIN + RIGHT, "2:4: vsm refuses '--low 6': vsm: settings"),
    (b"*! --lwo 6\n" + OBTAIN + RIGHT, "1:4: vsm refuses '--lwo 6': error: "),
    (b" BACK 0".ljust(71) + b"X\n*> KEPT=0\n", "2:1: '*>' isn't allowed here: column 72 of line 1 isn't blank"),
    (b"*>end KEPT=0\n BACK 0\n" + OBTAIN, "1:1: '*>end' has to be right before the last statement"),
    (OBTAIN + b"*>end KEPT=0\n", "2:1: '*>end' has to be right before the last statement"),
    (b"*>end KEPT=0\n BACK 0\n*> KEPT=0\n", "1:1: the last statement has an expectation after it too, in "),
])
def test_wrong_scripts(tool: Tool, put: Put, data: bytes, told: str) -> None:
    script = put("wrong.vsm", data)
    for words in ([], ["--write"]):
        done = tool(*words, "wrong.vsm")
        assert done.lines[0].replace("vsm-", "vsm").startswith("wrong.vsm:" + told), done.output
        summed = ["answers: 0 of 1"] if RIGHT in data and "refuses" in told and not words else []
        assert (done.status, done.lines[1:], done.errors) == (1, [*summed, "0 passed, 1 failed"], "")
    assert script.read_bytes() == data


@pytest.mark.parametrize("data, place", [
    (OBTAIN + b" X\0\n", "2:3"),
    (OBTAIN.decode().encode("utf-16"), "1:4"),
    (OBTAIN.decode().encode("cp037"), "1:1"),
])
def test_what_is_no_text(tool: Tool, put: Put, data: bytes, place: str) -> None:
    put("wrong.vsm", data)
    done = tool("wrong.vsm")
    assert (done.status, done.lines[-1]) == (8, "0 passed, 1 failed")
    assert done.lines[0].startswith("wrong.vsm:%s: this is no text" % place)


def test_files_that_cannot_be_read(tool: Tool, put: Put, tmp_path: Path) -> None:
    put("right.vsm", OBTAIN, RIGHT)
    (tmp_path / "empty").mkdir()
    done = tool("right.vsm", "nowhere.vsm", "empty")
    assert done.status == 8
    assert done.lines == ["nowhere.vsm: can't be read: No such file or directory",
                          "empty: no *.vsm in this folder", "answers: 1 of 1", "1 passed, 2 failed"]


@pytest.mark.parametrize("words", ["", "--bogus a.vsm", "--hide a.vsm b.vsm", "--hide --write a.vsm",
                                   "--seconds 0 a.vsm", "--seconds soon a.vsm", "--junit"])
def test_wrong_words(tool: Tool, words: str) -> None:
    done = tool(*words.split())
    assert (done.status, done.output, len(done.errors.splitlines())) == (16, "", 1)


@pytest.mark.parametrize("text", [None, b"no program", b"#!/nowhere/sh\n"])
def test_a_program_that_is_missing(tool: Tool, put: Put, tmp_path: Path, text: bytes) -> None:
    put("right.vsm", OBTAIN, RIGHT)
    if text is not None:
        put("bench", text).chmod(0o755)
    done = tool("right.vsm", program=str(tmp_path / "bench"))
    assert (done.status, done.output, len(done.errors.splitlines())) == (16, "", 1)


@pytest.mark.parametrize("text, told", [
    ("echo rubbish", "line 1 that fake printed: no answer of vsm: 'rubbish'"),
    ("printf '0000001 \\377\\n'", "fake printed bytes above X'7F'"),
    ("printf '0000001 OK'", "the last line that fake printed has no end"),
    ("echo 0000007 OK", "fake answered line 7, 'OK', where no statement begins"),
    ("echo 0000001 OK; echo 0000001 OK", "fake answered line 1 after line 1"),
    ("exit 3", "fake ended with status 3"),
    ("exit 4", "fake ended with status 4, and 0 goes with these answers"),
    ("echo 0000001 ABEND S878", "fake ended with status 0, and 4 goes with these answers"),
    ("echo 0000001 OK; echo help >&2", "fake wrote on standard error: help"),
    ("kill -9 $$", "fake was ended by signal 9"),
    ("sleep 61 & sleep 61", "fake didn't end within 1 seconds"),
])
def test_a_program_that_does_wrong(tool: Tool, put: Put, fake: Fake, text: str, told: str) -> None:
    put("right.vsm", OBTAIN, RIGHT)
    for words in ([], ["--write"]):
        done = tool("--seconds", 1, *words, "right.vsm", program=fake(text))
        assert sum(line.startswith("right.vsm: " + told) for line in done.lines) == 1
        assert (done.status, done.lines[-1], done.errors) == (1, "0 passed, 1 failed", "")


def test_a_bench_in_the_making(tool: Tool, put: Put, fake: Fake) -> None:
    """What its answers differ in is shown though its status is wrong, with the rules that fail and a sum."""
    put("suite/rules", b"# rules\n7 | STATEMENTS: BACK | steps/back steps/other | bench | It steps back. | yes\n"
                       b"- | STATEMENTS: BACK | - | says nothing | See below.\n8 | STATEMENTS: MAP | map/map | bench | It shows.\n")
    put("suite/map/map.vsm", OBTAIN, RIGHT)
    put("suite/steps/back.vsm", OBTAIN, RIGHT, b" BACK 2\n*> REFUSED KEPT=1\n BACK 1\n*> KEPT=0\n")
    answers = "RC=0 A=00006000 L=00000008"
    half = fake("[ $(wc -l) = 2 ] && echo 0000001 %s && exit; echo 0000001 %s; echo 0000003 REFUSED KEPT=1; echo 0000005 KEPT=1"
                % (answers, answers))
    done = tool("suite", program=half)
    assert done.status == 1 and done.lines == [
        "suite/steps/back.vsm:6: line 5 gets another answer (- expected, + answered)", "-KEPT=0", "+KEPT=1",
        "suite/steps/back.vsm: fake ended with status 0, and 4 goes with these answers",
        "suite/rules:2: rule 7, STATEMENTS: BACK: It steps back. | yes", "answers: 3 of 4", "1 passed, 1 failed"]
    assert tool("--no-answers", "suite", program=half).lines[-4:-1] == [
        "suite/steps/back.vsm: fake ended with status 0, and 4 goes with these answers",
        "suite/rules:2: rule 7, STATEMENTS: BACK: It steps back. | yes", "answers: 3 of 4"]


def test_a_program_that_ends_early(tool: Tool, put: Put, fake: Fake) -> None:
    put("right.vsm", OBTAIN, RIGHT, b" BACK 0\n*> KEPT=1\n")
    done = tool("right.vsm", program=fake("echo 0000001 RC=0 A=00006000 L=00000008"))
    assert done.lines == ["right.vsm:4: line 3 isn't answered", "-KEPT=1", "answers: 1 of 2", "0 passed, 1 failed"]
    given = put("bare.vsm", OBTAIN, RIGHT, b" BACK 0\n")
    for words in ([], ["--write"]):
        done = tool(*words, "bare.vsm", program=fake("echo 0000001 RC=0 A=00006000 L=00000008"))
        told = ["answers: 1 of 1"] if not words else []
        assert (done.status, done.lines) == (1, ["bare.vsm:3: line 3 isn't answered", *told, "0 passed, 1 failed"])
    assert given.read_bytes() == OBTAIN + RIGHT + b" BACK 0\n"


def test_a_program_that_answers_otherwise_each_time(tool: Tool, put: Put, fake: Fake) -> None:
    given = put("lesson.vsm", b" BACK 0\n")
    done = tool("--write", "lesson.vsm", program=fake("echo 0000001 KEPT=$(wc -c)"))
    assert done.lines[0].startswith("lesson.vsm: with its answers filled in, line 1 gets another answer")
    assert done.status == 1 and given.read_bytes() == b" BACK 0\n"


def left_of(command: str) -> list[str]:
    """The processes of a command that exist."""
    found = []
    for folder in Path("/proc").glob("[0-9]*"):
        try:
            if (folder / "cmdline").read_bytes().replace(b"\0", b" ").strip() == command.encode():
                found.append(folder.name)
        except OSError:
            pass
    return found


def test_nothing_is_left_behind(put: Put, fake: Fake, tmp_path: Path) -> None:
    put("right.vsm", OBTAIN, RIGHT)
    sleep = "sleep 62.%d" % os.getpid()     # other runs of this trial may be under way
    waiting = fake("%s & %s" % (sleep, sleep))
    for stop in (None, signal.SIGTERM, signal.SIGINT):
        seconds = "1" if stop is None else "60"
        command = [sys.executable, str(TOOL), "--program", waiting, "--seconds", seconds, "right.vsm"]
        child = subprocess.Popen(command, cwd=tmp_path, stdout=subprocess.DEVNULL, stderr=subprocess.DEVNULL)
        until = time.monotonic() + 20
        while stop and not left_of(sleep) and time.monotonic() < until:
            time.sleep(0.05)
        if stop:
            child.send_signal(stop)
        assert child.wait(20) == (130 if stop else 1)
        until = time.monotonic() + 5        # on a busy machine a process that was killed is listed a while longer
        while left_of(sleep) and time.monotonic() < until:
            time.sleep(0.05)
        assert left_of(sleep) == []


@pytest.mark.parametrize("words", ["right.vsm", "--junit /dev/full right.vsm", "--hide right.vsm", "--help"])
def test_a_full_disk(put: Put, vsm: str, tmp_path: Path, words: str) -> None:
    put("right.vsm", OBTAIN, RIGHT)
    with open("/dev/null" if "/dev/full" in words else "/dev/full", "wb") as full:
        command = [sys.executable, str(TOOL), "--program", vsm, *words.split()]
        done = subprocess.run(command, cwd=tmp_path, stdout=full, stderr=subprocess.PIPE, timeout=60)
    errors = done.stderr.decode()
    assert done.returncode == 8 and len(errors.splitlines()) == 1 and "No space left on device" in errors


@pytest.mark.parametrize("words", [["wrong.vsm"] * 3000, ["--hide", "right.vsm"]])
def test_a_closed_pipe(put: Put, vsm: str, tmp_path: Path, words: list[str]) -> None:
    put("wrong.vsm", b"*> \n")
    put("right.vsm", *[OBTAIN, RIGHT] * 30000)
    child = subprocess.Popen([sys.executable, str(TOOL), "--program", vsm, *words], cwd=tmp_path,
                             stdout=subprocess.PIPE, stderr=subprocess.PIPE)
    assert child.stdout and child.stderr
    child.stdout.read(1)
    child.stdout.close()
    errors = child.stderr.read().decode()
    child.stderr.close()
    assert child.wait(60) == 8 and len(errors.splitlines()) <= 1 and "Traceback" not in errors


def test_standard_output_that_is_closed(put: Put, vsm: str, tmp_path: Path) -> None:
    put("right.vsm", OBTAIN, RIGHT)
    for words in ("right.vsm", "--hide right.vsm"):
        command = "'%s' '%s' --program '%s' %s >&-" % (sys.executable, TOOL, vsm, words)
        done = subprocess.run(["sh", "-c", command], cwd=tmp_path, stderr=subprocess.PIPE, timeout=60)
        assert done.returncode == 8 and len(done.stderr.splitlines()) == 1


def test_help(tool: Tool) -> None:
    done = tool("--help")
    assert done.status == 0 and "*>end" in done.output and "example" in done.output
    assert all(len(line) <= 120 for line in done.lines)


# The conformance suite.

def test_the_suite_passes_within_its_time(tool: Tool) -> None:
    before = resource.getrusage(resource.RUSAGE_CHILDREN)
    done = tool(SUITE)
    assert done.status == 0, done.output
    # Seconds of a processor, since the machine may have much else to do.
    after = resource.getrusage(resource.RUSAGE_CHILDREN)
    assert after.ru_utime + after.ru_stime - before.ru_utime - before.ru_stime < 30


def test_a_wrong_answer_in_each_of_twenty_files_is_told(tool: Tool, tmp_path: Path) -> None:
    chooser = random.Random(44)
    planted: dict[str, int] = {}
    for script in chooser.sample(sorted(SUITE.rglob("*.vsm")), 20):
        lines = script.read_bytes().split(b"\n")
        at = chooser.choice([k for k, line in enumerate(lines) if line.startswith((b"*> ", b"*>end "))])
        last = lines[at][-1:]
        lines[at] = lines[at][:-1] + (b"1" if last != b"1" else b"2")
        name = "all/%s-%s" % (script.parent.name, script.name)
        (tmp_path / "all").mkdir(exist_ok=True)
        (tmp_path / name).write_bytes(b"\n".join(lines))
        planted[name] = at + 1
    done = tool("all")
    assert (done.status, done.lines[-1]) == (1, "0 passed, 20 failed")
    told = [tuple(line.split(":")[:2]) for line in done.lines if " gets another answer " in line]
    assert told == [(name, str(planted[name])) for name in sorted(planted)]


def checked_copy(folder: Path) -> Ended:
    """What the check of the rules says of a copy of the suite, which is made if there is none."""
    for part in ("conformance", "docs", "tests"):
        if not (folder / part).exists():
            shutil.copytree(TOP / part, folder / part)
    command = [sys.executable, str(SUITE / "check"), str(folder)]
    return Ended(subprocess.run(command, capture_output=True, timeout=60))


# What is planted in such a copy, and what the check says to it.
PLANTED = [
    ("conformance/rules", b"a shorter line", b"a longer line", "is no longer in STATEMENTS: Lines"),
    ("conformance/rules", b"\n5 | ", b"\n6 | ", "rule 6 should have the number 5"),
    ("conformance/rules", b" lines/columns ", b" lines/collums ", "there is no file lines/collums"),
    ("conformance/rules", b" | STATEMENTS: Lines | ", b" | STATEMENTS: Li | ", "no section 'STATEMENTS: Li'"),
    ("conformance/rules", b" | bench | ", b" | hearsay | ", "the manual is one of bench, "),
    ("conformance/rules", b" | lines/columns | ", b" lines/columns ", "a rule has five fields"),
    ("docs/STATEMENTS.md", b"\n## Values\n", b"\n## Values\n\nA new one.\n", "in no rule: 'A new one.'"),
    ("docs/STATEMENTS.md", b"| SP is 131 or 132 | U3007 |", b"| SP is 133 | U3007 |", "rule: 'SP is 133 |"),
    ("docs/STATEMENTS.md", b"Column 72 of such a line is not read.", b"Column 72 of such a line is read.",
     "most like it is 'Column 72 of such a line is read.'"),
    ("docs/MESSAGES.md", b"| `OK` | POKE: the bytes are stored.", b"| `DONE` | POKE: the bytes are stored.",
     "in no rule: 'DONE | POKE"),
]


@pytest.mark.parametrize("name, old, new, told", PLANTED)
def test_the_check_of_the_rules(tmp_path: Path, name: str, old: bytes, new: bytes, told: str) -> None:
    done = checked_copy(tmp_path)
    assert done.status == 0 and done.lines[-1].endswith(" passed, 0 failed"), done.output
    path = tmp_path / name
    before = path.read_bytes()
    assert old in before
    path.write_bytes(before.replace(old, new, 1))
    done = checked_copy(tmp_path)
    assert done.status in (1, 8) and told in done.output + done.errors, done.output


def test_a_script_without_a_rule_or_an_answer(tmp_path: Path) -> None:
    checked_copy(tmp_path)
    (tmp_path / "conformance/lines/new.vsm").write_bytes(OBTAIN + RIGHT)
    known = tmp_path / "conformance/lines/case.vsm"
    known.write_bytes(known.read_bytes() + b" MAP\n")
    done = checked_copy(tmp_path)
    assert done.status == 1
    assert "conformance/lines/new.vsm: in no rule of conformance/rules" in done.lines
    assert any("case.vsm" in line and "doesn't say what this statement" in line for line in done.lines)
