"""What the trials of the tools share: the program vsm, and running a tool as a user does."""
from __future__ import annotations

import os
import subprocess
import sys
from importlib.machinery import SourceFileLoader
from importlib.util import module_from_spec, spec_from_loader
from pathlib import Path
from typing import Any, Callable

import pytest

sys.dont_write_bytecode = True
TOP = Path(__file__).resolve().parents[2]
TOOLS = TOP / "tools"
sys.path[:0] = [str(TOOLS), str(TOP / "tests")]
SECONDS = 120
Done = subprocess.CompletedProcess


def pytest_addoption(parser: pytest.Parser) -> None:
    parser.addoption("--vsm", help="the program vsm (default: the built one of this repository)")
    parser.addoption("--damaged", type=int, default=60, metavar="N", help="damaged files for each tool")


@pytest.fixture(scope="session")
def vsm(request: pytest.FixtureRequest) -> str:
    """The path of vsm."""
    path = os.path.abspath(request.config.getoption("--vsm") or TOP / "crates" / "vsm" / "out" / "vsm")
    if not os.access(path, os.X_OK):
        pytest.fail("%s is missing or can't be started: ./prove builds it" % path, pytrace=False)
    return path


@pytest.fixture
def run() -> Callable[..., Done]:
    """Runs a tool with arguments, and bytes on standard input."""
    def call(tool: str, *words: object, given: bytes = b"", **more: Any) -> Done:
        command = [sys.executable, str(TOOLS / tool), *map(str, words)]
        if "stdout" not in more:
            more["stdout"] = subprocess.PIPE
        return subprocess.run(command, input=given, stderr=subprocess.PIPE, timeout=SECONDS, **more)
    return call


def loaded(path: Path) -> Any:
    """A program as a module."""
    loader = SourceFileLoader(path.name.replace("-", "_"), str(path))
    module = sys.modules[loader.name] = module_from_spec(spec_from_loader(loader.name, loader))  # type: ignore
    loader.exec_module(module)
    return module


def one_line(done: Done, tool: str) -> str:
    """The line on standard error, which is the only one."""
    lines = done.stderr.decode().splitlines()
    assert len(lines) == 1, lines
    assert lines[0].startswith(tool + ": ") and "Traceback" not in lines[0]
    return lines[0][len(tool) + 2:]
