"""Each tool over damaged files: it ends in time and with a message, and what it writes is right. `--damaged N`: N of
each."""
from __future__ import annotations

import contextlib
import io
import os
import random
import re
import sys
from pathlib import Path

import pytest
from conftest import TOOLS, TOP, loaded
from test_load import storage_of
from vsmtools import bench, expectations, lines
from vsmtools.command import Fault, guarded

SCRIPTS = [path.read_bytes() for glob in ("conformance/*/*.vsm", "examples/*.vsm") for path in sorted(TOP.glob(glob))]
SOURCES = [path.read_bytes() for path in sorted(TOP.glob("tools/tests/sources/*.asm"))]
MAPS = [it for path in sorted(TOP.glob("examples/*.out")) for it in re.findall(rb"(?m)(?:^ .*\n)+", path.read_bytes())]
PUT = b"0 1 8 9 A F X - ' ( ) = , + * / & . L' X' *> *! ? \0 \t \r \xff \xc3\xa4 4294967296 MAP SP= \n".split(b" ")
TYPED = [b"", b"", b"", b".back until ", b".until ", b".step ", b".read ", b".log ", b".?", b".restart ", b". "]
# For each tool, one that it once took wrongly.
FOUND = {"vsm-load": next(re.sub(rb"HDR '.*'", b"HDR '\xc8'", it) for it in MAPS if b"HDR '" in it),
         "vsm-prompt": b" BACK 0\r\r\n MAP\r\n", "vsm-view": b" BACK 0\r\r\n"}


def damaged(chance: random.Random, files: list[bytes]) -> bytes:
    """One of these files with some digits, bytes, lines and columns 72 changed."""
    data = chance.choice(files)
    for _ in range(chance.choice((1, 1, 2, 3, 9))):
        other, at = chance.choice(files), chance.randrange(len(data) + 1)
        begin, end = chance.randrange(len(other)), at + chance.choice((0, 1, 1, 2, 9, 80, 9999))
        digits = [it.span() for it in re.finditer(rb"\d", data)] or [(at, at)]
        (at, end), put = chance.choice((
            ((at, end), b""), ((at, end), chance.choice(PUT)), ((at, at + 1), bytes([chance.randrange(256)])),
            ((at, end), data[at:end] * 2), ((at, end), other[begin:begin + chance.randrange(200)]),
            ((at, end), b"\n" + b" " * 14 + other[begin:begin + 57].replace(b"\n", b" ") + b"X\n"),
            (chance.choice(digits), b"%d" % chance.randrange(10))))
        data = data[:at] + put + data[end:]
    return data


class Tool:
    """A tool's main in this process, over a file."""

    def __init__(self, name: str, vsm: str, path: Path) -> None:
        self.name, self.vsm, self.path, self.main = name, vsm, path, loaded(TOOLS / name).main

    def __call__(self, *words: object, typed: bytes = b"") -> tuple[int, str]:
        """The status, and what it printed, a character for each byte. A refusal is one line."""
        out, errors = io.TextIOWrapper(io.BytesIO(), "utf-8", "backslashreplace"), io.StringIO()
        begin = sum(os.times()[:4])
        with contextlib.redirect_stdout(out), contextlib.redirect_stderr(errors), pytest.MonkeyPatch.context() as patch:
            patch.setattr(sys, "stdin", io.TextIOWrapper(io.BytesIO(typed), "utf-8"))
            given = [] if self.name == "vsm-paste" else ["--vsm", self.vsm]
            status = guarded(self.name, self.main, [*given, *map(str, words)])
        text = out.buffer.getvalue().decode("latin-1")  # type: ignore[attr-defined]
        assert status in (0, 1, 4, 8, 16) and "Traceback" not in text and sum(os.times()[:4]) - begin < 10
        if status > 4 and self.name not in ("vsm-prompt", "vsm-test"):
            assert text == "" and re.fullmatch(r"%s: .+\n" % self.name, errors.getvalue()), errors.getvalue()
        return status, text


def check_load(tool: Tool, data: bytes) -> None:
    """A script that is written makes that map, except for registers."""
    status, text = tool(tool.path)
    if status == 0:
        made = bench.run(tool.vsm, [], text.encode() + b" MAP\n").answers[-1].rest
        given = data.decode().replace("\r", "").split(" MAP\n")[-1].split("\n")
        assert storage_of(made[:-1]) == storage_of(it for it in given if it[:1] == " " and " HISTORY" not in it)


def check_paste(tool: Tool, data: bytes) -> None:
    """A line of at most 72 columns for each, and one more; each statement that is written is answered."""
    status, text = tool(tool.path)
    if status < 8:
        begins = [it.first for it in lines.statements([line.encode() for line in text.split("\n")[:-1]])]
        assert begins == [it.line for it in bench.run(tool.vsm, [], text.encode()).answers]
        count = len(lines.split_lines(data)) if b"\n" in data.replace(b"\r", b"") else text.count("\n") - 1
        assert text.count("\n") == count + 1 and all(len(line) <= 72 for line in text.split("\n"))


def check_test(tool: Tool, data: bytes) -> None:
    """What is filled in passes and hides; a script that can't be filled in stays as it was."""
    before, filled = tool(tool.path), tool("--write", tool.path)
    assert (before[0] == 0) == before[1].endswith("1 passed, 0 failed\n") and not list(tool.path.parent.glob(".vsm-*"))
    assert filled[0] == 0 or tool.path.read_bytes() == data
    if filled[0] == 0 and lines.statements(lines.split_lines(data)):
        assert tool(tool.path)[1] == "1 passed, 0 failed\n"
        hidden = expectations.read_script("", tool("--hide", tool.path)[1].encode("latin-1"))
        assert all(line.text == "?" for it in hidden.tested for line in it.expected)


def check_prompt(tool: Tool, data: bytes) -> None:
    """A file is answered as by vsm, and saved as it was; its lines as commands and statements end with messages."""
    saved, chance = tool.path.parent / "saved", random.Random(data)
    status, text = tool(tool.path, typed=b".save --over %s\n" % str(saved).encode())
    if status == 0 and "  the file ends where line " not in text:
        plain = bench.run_anyhow(tool.vsm, lines.options_for("", data), data)
        assert re.findall(r"^\d{7} .*", text, re.M) == ["%07d %s" % (it.line, it.text) for it in plain.answers]
        assert lines.split_lines(saved.read_bytes()) == lines.split_lines(data)
    tool(typed=b"\n".join(chance.choice(TYPED) + line for line in chance.choices(data.split(b"\n"), k=6)))


def check_view(tool: Tool, data: bytes) -> None:
    """A script that vsm runs has a page."""
    status, text = tool(tool.path)
    try:
        runs = bench.run_anyhow(tool.vsm, lines.options_for("", data), data).status in (0, 4)
    except Fault:
        runs = False
    assert (status == 0) == runs and text.count("</script>") == (2 if runs else 0)


@pytest.mark.parametrize("name, check, files, times", [
    ("vsm-load", check_load, MAPS, 5), ("vsm-paste", check_paste, SOURCES, 5), ("vsm-prompt", check_prompt, SCRIPTS, 1),
    ("vsm-test", check_test, SCRIPTS, 1), ("vsm-view", check_view, SCRIPTS, 1)])
def test_damaged_files(name: str, check, files: list[bytes], times: int, vsm: str, tmp_path: Path, request) -> None:
    tool, chance = Tool(name, vsm, tmp_path / "damaged.vsm"), random.Random(7)
    for k in range(times * request.config.getoption("--damaged")):
        tool.path.write_bytes(FOUND[name] if k == 0 and name in FOUND else damaged(chance, files))
        print("file", k, tool.path.read_bytes())     # shown if it fails
        check(tool, tool.path.read_bytes())
