"""The arguments of the programs in tests/ and bench/: --help, options that don't exist, and which vsm is tried."""
from __future__ import annotations

import os
import re
import sys
from typing import NoReturn

TOP = os.path.dirname(os.path.dirname(os.path.realpath(__file__)))
sys.path.insert(0, os.path.join(TOP, "tools"))

from vsmtools import bench  # noqa: E402
from vsmtools.command import Fault  # noqa: E402


def refuse(why: str) -> NoReturn:
    name = os.path.relpath(os.path.realpath(sys.argv[0]), TOP)
    print(f"{name}: {why}; see {name} --help", file=sys.stderr)
    sys.exit(16)


def arguments(text: str | None) -> list[str]:
    """The arguments. For --help the text, a program's first string, is printed; an option that isn't in it is refused."""
    given, text = sys.argv[1:], text or ""
    if given[:1] in (["--help"], ["-h"]):
        print(text.strip())
        sys.exit(0)
    if given and given[0].startswith("-") and given[0] not in re.findall(r"--\w+", text):
        refuse(f"no option is called {given[0]!r}")
    return given


def named(given: list[str], at: int = 0, built: str = bench.BUILT) -> str:
    """The program that this argument names, by default the built one, which has to exist: ./vsm isn't used for it."""
    program = os.path.abspath(given[at]) if len(given) > at else built
    if not bench.is_program(program):
        refuse(f"no program {program}; ./prove builds one, in about 45 minutes")
    return program


def found(given: list[str]) -> str:
    """The program vsm that the first argument names, by default the built one, or else the repository's ./vsm."""
    try:
        return bench.find_program(given[0] if given else None)
    except Fault as fault:
        refuse(str(fault))
