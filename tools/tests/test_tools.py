"""What holds of each tool: --help, wrong arguments, a missing vsm, a full disk, a closed pipe, and the folders that it
may be in."""
from __future__ import annotations

import os
import re
import shutil
import subprocess
import time
from pathlib import Path
from typing import Callable

import pytest
import stored
from conftest import SECONDS, TOOLS, TOP, one_line
from load_scripts import map_lines

from vsmtools import bench, lines, maps
from vsmtools.command import Fault

ALL = ("vsm-load", "vsm-paste", "vsm-prompt")
EVERY = (*ALL, "vsm-dap", "vsm-lsp", "vsm-test", "vsm-view")
RUNNING = ("vsm-load", "vsm-prompt")
MAP = (TOP / "examples" / "cell-pools.out").read_bytes()
GIVEN = {"vsm-load": MAP, "vsm-paste": b" GETMAIN R,LV=8\n", "vsm-prompt": b"map\n"}


def words(tool: str, vsm: str) -> list[str]:
    return ["--vsm", vsm] if tool in RUNNING else []


@pytest.mark.parametrize("tool", ALL)
def test_help_has_an_example(run: Callable, tool: str) -> None:
    done = run(tool, "--help")
    assert done.returncode == 0 and b"example:" in done.stdout and done.stderr == b""


@pytest.mark.parametrize("tool", EVERY)
def test_version_says_which_release(run: Callable, tool: str) -> None:
    done = run(tool, "--version")
    assert (done.returncode, done.stderr) == (0, b"")
    assert done.stdout.startswith(b"nilbozad") and done.stdout.count(b"\n") == 1


@pytest.mark.parametrize("tool", ALL)
def test_a_wrong_word_is_one_line(run: Callable, tool: str) -> None:
    done = run(tool, "--nothing")
    assert done.returncode == 16 and "--nothing" in one_line(done, tool) and done.stdout == b""


@pytest.mark.parametrize("tool", RUNNING)
@pytest.mark.parametrize("program", ["nowhere", "/nowhere/vsm", "/etc/passwd", "/"])
def test_a_missing_vsm(run: Callable, tool: str, program: str) -> None:
    done = run(tool, "--vsm", program, given=GIVEN[tool])
    assert done.returncode == 16 and program in one_line(done, tool)


@pytest.mark.parametrize("tool", RUNNING)
def test_a_vsm_that_is_none(run: Callable, tool: str, tmp_path: Path) -> None:
    for text in (b"#!/bin/sh\nexit 3\n", b"#!/bin/sh\necho hello\n", b"#!/bin/sh\nkill -9 $$\n", b"\0\0\0\0",
                 b"#!/bin/sh\nexit 0\n", b"#!/bin/sh\nwhile read line; do echo; done\n",
                 b"#!/bin/sh\nread line; echo 0000001 KEPT=x\n"):
        path = tmp_path / "vsm"
        path.write_bytes(text)
        path.chmod(0o755)
        done = run(tool, "--vsm", path, given=GIVEN[tool])
        assert done.returncode in (8, 16), text
        one_line(done, tool)


@pytest.mark.parametrize("tool", RUNNING)
def test_options_that_vsm_refuses(run: Callable, tool: str, vsm: str) -> None:
    for option, value in (("--residence", "25"), ("--history", "0"), ("--history", "x")):
        done = run(tool, *words(tool, vsm), option, value, given=GIVEN[tool])
        assert done.returncode == 16
        one_line(done, tool)


@pytest.mark.parametrize("tool", ALL)
def test_a_full_disk(run: Callable, tool: str, vsm: str) -> None:
    with open("/dev/full", "wb") as full:
        done = run(tool, *words(tool, vsm), given=GIVEN[tool], stdout=full)
    assert done.returncode == 8 and b"No space left on device" in done.stderr.splitlines()[-1]
    assert b"Traceback" not in done.stderr and b"Exception" not in done.stderr


@pytest.mark.parametrize("tool", ALL)
def test_a_closed_pipe(run: Callable, tool: str, vsm: str) -> None:
    reading, writing = os.pipe()
    os.close(reading)
    done = run(tool, *words(tool, vsm), given=GIVEN[tool], stdout=writing)
    os.close(writing)
    assert done.returncode == 8 and b"Traceback" not in done.stderr and b"Exception" not in done.stderr


@pytest.mark.parametrize("tool", ALL)
def test_closed_streams(tool: str, vsm: str) -> None:
    command = " ".join([str(TOOLS / tool), *words(tool, vsm)])
    for closed in ("<&-", ">&-", "2>&-"):
        done = subprocess.run(["sh", "-c", "%s %s" % (command, closed)], input=GIVEN[tool],
                              capture_output=True,
                              timeout=SECONDS)
        assert b"Traceback" not in done.stderr
        assert done.returncode == (0 if closed == "2>&-" else 8)


@pytest.mark.parametrize("tool", ALL)
def test_by_the_systems_python_and_another_name(tool: str, vsm: str, tmp_path: Path) -> None:
    """As a link of another folder, as installed, and by /usr/bin/python3."""
    installed = tmp_path / "share" / "nilbozad" / "tools"
    shutil.copytree(TOOLS / "vsmtools", installed / "vsmtools")
    shutil.copy(TOOLS / "vsm_bench.py", installed)
    shutil.copy(TOOLS / tool, installed / tool)
    (tmp_path / "bin").mkdir()
    (tmp_path / "bin" / "vsm").symlink_to(vsm)
    (tmp_path / "bin" / tool).symlink_to(Path("..") / "share" / "nilbozad" / "tools" / tool)
    (tmp_path / "link").symlink_to(tmp_path / "bin" / tool)
    expected = subprocess.run([TOOLS / tool, *words(tool, vsm)], input=GIVEN[tool], capture_output=True,
                              timeout=SECONDS)
    assert expected.returncode == 0
    for command in ([tmp_path / "bin" / tool], [tmp_path / "link"], ["/usr/bin/python3", tmp_path / "link"]):
        done = subprocess.run(command, input=GIVEN[tool], capture_output=True, timeout=SECONDS, cwd=tmp_path)
        assert (done.returncode, done.stdout) == (0, expected.stdout), done.stderr
    assert not list(tmp_path.rglob("__pycache__"))


# The package.

def test_each_module_has_a_sentence() -> None:
    for path in (TOOLS / "vsmtools").glob("*.py"):
        assert re.match(r'"""[A-Z][^"]{20,}[.:)]', path.read_text()), path


def test_statements_begin_where_vsm_answers(vsm: str) -> None:
    compared = 0
    for name, options, script in stored.scripts():
        done = bench.run_anyhow(vsm, options, script)
        if done.status in (0, 4):
            begins = [it.first for it in lines.statements(lines.split_lines(script))]
            assert begins == [answer.line for answer in done.answers], name
            compared += 1
    assert compared > 150


def test_maps_are_read_and_written_alike(vsm: str) -> None:
    compared = 0
    for name, options, script in stored.scripts():
        done = bench.run_anyhow(vsm, options, script)
        for answer in done.answers if done.status in (0, 4) else []:
            if answer.is_map:
                assert map_lines(maps.parse_map(answer.rest)) == list(answer.rest), name
                compared += 1
    assert compared > 80


def test_a_map_that_is_none_names_its_line() -> None:
    whole = MAP.decode().split("0000012")[0].splitlines()[10:]
    for at in range(len(whole)):
        with pytest.raises(Fault) as fault:
            maps.parse_map(whole[:at], "m", 7)
        assert "cut short" in str(fault.value) and str(fault.value).startswith("m:%d:1: " % (7 + at - (at > 0)))
        with pytest.raises(Fault) as fault:
            maps.parse_map(whole[:at] + ["what"] + whole[at:], "m", 7)
        assert str(fault.value).startswith("m:%d:1: no line of a map" % (7 + at))


def test_folded_statements_are_read_as_one(vsm: str) -> None:
    for text in (" CPOOL BUILD,PCELLCT=1,SCELLCT=1,CSIZE=8,SP=1,LOC=24,CPID=%s,HDR='a, b,  c ,d'"
                 % ("N" * 63),
                 " STORAGE OBTAIN,LENGTH=8,RELATED=(%s)" % ",".join(["'x, y'"] * 60),
                 " STORAGE OBTAIN,LENGTH=8,RELATED=%s,SP=1" % ("Z" * 400)):
        folded = lines.fold(text)
        assert folded and all(len(line) <= 72 for line in folded)
        answers = bench.run(vsm, [], "".join(line + "\n" for line in folded).encode()).answers
        assert len(answers) == 1 and answers[0].text.startswith("RC=0"), (folded, answers)
    assert lines.fold(" POKE X'6000',X'%s'" % ("00" * 400)) is None


def test_a_session_answers_as_a_run_does(vsm: str) -> None:
    path = TOP / "examples" / "continued-lines.vsm"
    script = lines.split_lines(path.read_bytes())
    # The script ends where another line should follow, which a partner would wait for.
    asked = [it for it in lines.statements(script) if not lines.is_continued(script[it.last - 1])]
    with bench.Session(vsm) as session:
        got = [session.say([line.decode() for line in script[it.first - 1:it.last]]) for it in asked]
    expected = bench.run(vsm, [], path.read_bytes()).answers[:len(asked)]
    assert [(answer.text, answer.rest) for answer in got] == [(answer.text, answer.rest) for answer in expected]
    assert len(asked) > 10


@pytest.mark.parametrize("asked", [
    [], [""], ["* a comment"], [" BACK 0\n BACK 0"], [" BACK 0", " BACK 0"], ["", " BACK 0"], [" BACK 0", "* a comment"],
    [" STORAGE OBTAIN,LENGTH=8,".ljust(71) + "X"]])
def test_a_session_takes_one_statement(vsm: str, asked: list[str]) -> None:
    start = time.monotonic()
    with bench.Session(vsm) as session:
        with pytest.raises(Fault, match="one statement at a time|no line follows"):
            session.say(asked)
        assert session.say([" BACK 0"]).text == "KEPT=0"
    with pytest.raises(Fault, match="the session is closed"):
        session.say([" BACK 0"])
    assert time.monotonic() - start < bench.SECONDS / 4


def test_what_an_answer_has(vsm: str) -> None:
    script = (" STORAGE OBTAIN,LENGTH=10,ADDR=P\n POKE P,X'C1C2'\n PEEK P,2\n ATTACH\n STORAGE OBTAIN,LENGTH=0\n"
              " STORAGE OBTAIN,SIZE=8\n BACK 9\n GETMAIN RC,LV=9999999\n MAP\n")
    got = bench.run(vsm, [], script.encode()).answers
    fields = ("rc", "address", "length", "task", "code", "data")
    assert [tuple(getattr(it, field) for field in fields) for it in got] == [
        (0, 0x6000, 16, None, None, None), (None,) * 6, (None,) * 5 + (b"\xc1\xc2",), (0, None, None, 2, None, None),
        (None,) * 4 + (got[4].text[6:], None), (None,) * 4 + ("OPERAND", None), (None,) * 4 + ("KEPT=3", None),
        (4, None, None, None, None, None), (None,) * 6]
    shown = got[-1].map
    assert shown and shown.tasks[0].number == 1 and got[0].map is None


def test_an_answer_of_another_form_has_no_values() -> None:
    for text in ("KEPT=", "KEPT=x", "RC=x A=zz L=8", "RC=0x", "T=" + "9" * 5000, "D=0", "D=zz"):
        it = bench.Answer(1, text)
        assert (it.rc, it.address, it.length, it.task, it.kept, it.data) == (None,) * 6, text


@pytest.mark.parametrize("words", [["bash", ".ci/run"], ["tests/cited"], ["tests/lint"]])
def test_help_of_the_gate(words: list[str]) -> None:
    """It's printed at once, and another argument is refused."""
    done = subprocess.run([*words, "--help"], cwd=TOP, capture_output=True, timeout=60)
    assert (done.returncode, done.stderr) == (0, b"") and b"Usage: " + words[-1].encode() in done.stdout
    done = subprocess.run([*words, "other"], cwd=TOP, capture_output=True, timeout=60)
    assert (done.returncode, done.stdout, done.stderr.count(b"\n")) == (16, b"", 1)


def test_an_example_works_as_it_is_typed(run: Callable) -> None:
    """vsm runs the script also if a macro isn't taken, which is status 4."""
    assert b"> script ; vsm script" in run("vsm-paste", "--help").stdout
