"""Options in a script's first comment, as each tool reads them, and where a clone's tools find a program."""
from __future__ import annotations

from pathlib import Path
from typing import Callable

import pytest

from conftest import one_line
from vsmtools import bench
from vsmtools.command import Fault
from vsmtools.lines import options_for

SCRIPT = b"* x\n*! --low 4 --history=2\n\n*! --residence 31\n MAP\n*! --high 8\n"


def test_options_before_the_first_statement() -> None:
    assert options_for("it", SCRIPT) == ["--low", "4", "--history", "2", "--residence", "31"]
    assert options_for("it", SCRIPT, ["--low", "8"]) == ["--low", "8", "--history", "2", "--residence", "31"]
    assert options_for("it", b" MAP\n*! --low 4\n") == options_for("it", b"*!\n*!--low 4\n* --low 4\n") == []


@pytest.mark.parametrize("line", [b"*! file", b"*! --low", b"*! --low 4 file", b"*! -- file"])
def test_what_is_no_option(line: bytes) -> None:
    with pytest.raises(Fault) as caught:
        options_for("it", b"\n" + line + b"\n MAP\n")
    assert str(caught.value).startswith("it:2:1: not options of vsm")


def test_tools_read_them(run: Callable, vsm: str, tmp_path: Path) -> None:
    script = tmp_path / "it.vsm"
    script.write_bytes(SCRIPT)
    assert b'"options":["--low","4","--history","2"' in run("vsm-view", "--vsm", vsm, script).stdout.replace(b" ", b"")
    shown = run("vsm-prompt", "--vsm", vsm, script, given=b".run\n").stdout
    assert b" PAGES LOW 0 OF 1 HIGH" in shown and b"KEPT 0 OF 2" in shown
    script.write_bytes(b"*! file\n")
    for tool in ("vsm-view", "vsm-prompt"):
        assert ":1:1: not options of vsm" in one_line(run(tool, "--vsm", vsm, script), tool)


def test_a_clone_without_a_built_program(tmp_path: Path, monkeypatch: pytest.MonkeyPatch) -> None:
    """Its ./vsm is taken, once a run of it shows that it has a program; not the PATH's."""
    launcher = tmp_path / "vsm"
    launcher.write_text("#!/bin/sh\necho ran >>\"$0.log\"\nexit 16\n")
    launcher.chmod(0o755)
    monkeypatch.setattr(bench, "LAUNCHER", str(launcher))
    monkeypatch.setattr(bench, "BUILT", str(tmp_path / "nowhere"))
    with pytest.raises(Fault, match="status 16"):
        bench.find_program()
    launcher.write_text(launcher.read_text().replace("exit 16", "exit 0"))
    assert bench.find_program() == str(launcher)
    assert (tmp_path / "vsm.log").read_text() == "ran\n" * 2
