"""The commands that the documents name, as a reader types them in a fresh clone, or with a release installed."""
from __future__ import annotations

import glob
import os
import re
import subprocess
from collections.abc import Iterator
from dataclasses import dataclass, field

from driving import Failure
from vsmtools.bench import is_program

TOP = os.path.dirname(os.path.dirname(os.path.realpath(__file__)))
DOCUMENTS = ("README.md", "docs/*.md", "examples/*.md", "conformance/README.md", "bench/README.md")
SECONDS = 600
# What needs a proof, an hour, or what these make; of this repository's programs --help is tried in its place.
NOT_RUN = {
    r"rt (?!version$|doc$)": "proves, or is typed in the folder of one crate",
    r"bash \.ci/run": "is the gate, which this test is a part of",
    r"\./prove": "takes 45 minutes",
    r"\./release": "takes proved programs; tests/release runs it",
    r"page/(module|bench\.py)": "takes a proved program, or the module of it; the gate runs both",
    r"tools/c/build": "takes the proved program; tests/library runs it",
    r"cc -o example": "takes an installed release; tests/library compiles the example",
    r"tests/(wrong-bodies|definitions)( |$)": "proves; the gate runs it",
    r"tests/edits-refused LOG": "takes the output of rt ci; the gate runs it",
    r"bench/growth": "takes a proved program and minutes; the gate runs it",
}
# What a reader fills in, and the files that these commands find. PROGRAM isn't ./vsm, which looks over all sources at
# each of a thousand runs of tests/rows/check: on a busy machine that takes ten minutes.
VALUES = {"FILE": "examples/first-steps.vsm", "SCRIPT": "examples/first-steps.vsm", "LINE": "1",
          "ADDRESS": "\"X'6000'\"", "N": "16", "K": "64", "24|31": "31", "COMMAND": "list", "CODE": "S878",
          "PROGRAM": "./mybench"}
SOURCE = os.path.join(TOP, "tools", "tests", "sources", "reentrant.asm")
LESSON = b" STORAGE OBTAIN,LENGTH=8\n"
FILES = {"script": LESSON, "script.vsm": LESSON + b" MAP\n", "lesson.vsm": LESSON, "exercise.vsm": LESSON + b"*> ?\n"}
# Right statuses other than 0, and for the programs of this repository other than 0 and 4, which reports refusals.
STATUSES = {"vsm-test exercise.vsm": 1, "vsm --low 6 nowhere": 8, "vsm --low 4294967296 nowhere": 16}
# Programs of the system that begin a command, and what documents show the output of.
SYSTEM = ("rt", "bash", "cc", "echo", "git", "printf", "sed")
COMPARED = re.compile(r"(\./)?vsm(-explain)? |(bash -c|echo|printf|sed) ")
# What a release lacks.
IN_A_CLONE = re.compile(r"(?<![\w/.~-])(\./(?!mybench)|(tools|page|tests|bench|release\.d|\.ci)/)")


@dataclass
class Command:
    """A command, where it is written, and the lines that the document shows below it."""
    place: str
    text: str
    shown: list[str] = field(default_factory=list)

    @property
    def reason(self) -> str:
        """Why it isn't run, or nothing."""
        return next((why for form, why in NOT_RUN.items() if re.match(form, self.text)), "")


@dataclass(frozen=True)
class Home:
    """Where documents are and their commands are typed: a fresh clone, or a release's folder of documents with the
    release's programs on the PATH."""
    top: str
    documents: tuple[str, ...] = DOCUMENTS
    programs: tuple[str, ...] = ()

    def typed(self, text: str) -> str:
        """A command with values, and optional arguments too; in a clone with its program's path."""
        text = re.sub(r" {4,}.*", "", text)
        if text.split(" ")[0] not in SYSTEM:
            text = text.replace("[", "").replace("]", "")
        if not self.programs:
            text = re.sub(r"(?:^|(?<=\| ))(vsm(?:-explain)?)(?= |$)", r"./\1", text)
            text = re.sub(r"^(vsm-\w+)(?= )", r"tools/\1", text)
        # A subcommand that a sentence names.
        text = re.sub(r"^((?:\./)?vsm-explain [a-z]+)(?: --over-time| --areas| --leaks)?$", r"\1 --help", text)
        values = {**VALUES, "FILE": "lesson.vsm"} if re.match("(tools/)?vsm-test", text) else VALUES
        return " ".join(values.get(word, word) for word in text.split(" "))

    def is_own(self, program: str) -> bool:
        """Whether it's a program of the clone, or of the release."""
        return program in self.programs or "/" in program and is_program(os.path.join(self.top, program))

    def is_command(self, text: str) -> bool:
        program = text.split(" ")[0]
        if program.startswith("crates/"):
            return False
        return " " in text if program in SYSTEM or program in self.programs else self.is_own(program)

    def commands(self) -> Iterator[Command]:
        """Those of all documents."""
        for path in (it for form in self.documents for it in sorted(glob.glob(os.path.join(self.top, form)))):
            with open(path, encoding="utf-8") as file:
                yield from self.commands_of(os.path.relpath(path, self.top), file.read().split("\n"))

    def commands_of(self, name: str, lines: list[str]) -> Iterator[Command]:
        """Lines of a block with what is shown below them, and commands within a sentence."""
        last = None
        for number, line in enumerate(lines, 1):
            if not line.startswith("    "):
                yield from [last] if last else []
                last = None
                for word in re.findall(r"`([^`]+)`", line):
                    if self.is_command(self.typed(word)) and (" " in word or name != "docs/GATE.md"):
                        yield Command(f"{name}:{number}", self.typed(word))
            elif self.is_command(self.typed(line[4:].removeprefix("$ "))) and not re.match(r" {4}vsm \d+>", line):
                yield from [last] if last else []
                last = Command(f"{name}:{number}", self.typed(line[4:].removeprefix("$ ")))
            elif last:
                last.shown.append(line[4:])
        yield from [last] if last else []


def pieces(shown: list[str]) -> list[str]:
    """What a document shows, without the lines that it leaves out (..)."""
    return [it.strip("\n") for it in re.split(r"(?m)^\.\.$", "\n".join(shown)) if it.strip("\n")]


def run(command: Command, home: Home, environment: dict[str, str]) -> None:
    """Runs one there: its status is right, nothing breaks, and it prints what the document shows."""
    program = command.text.split(" ")[0]
    text = command.text
    # All scripts of conformance are for the clone's run.
    is_long = home.programs and re.search(r"vsm-test .*conformance$", text)
    if command.reason or command.place.startswith("docs/GATE.md") or text == program or is_long:
        if not home.is_own(program):
            return
        text = f"{program} --help"
    # A search is one of the repository, and the clone's files aren't in one.
    done = subprocess.run(["bash", "-c", text], cwd=TOP if program == "git" else home.top, env=environment, timeout=SECONDS,
                          stdin=subprocess.DEVNULL, stdout=subprocess.PIPE, stderr=subprocess.PIPE)
    output, errors = done.stdout.decode(errors="replace"), done.stderr.decode(errors="replace")
    status = STATUSES.get(re.sub(r"^(\./|tools/)", "", text))
    right = {status} if status is not None else {0} if text.endswith("--help") else {0, 4}
    if done.returncode not in right or "Traceback" in errors:
        raise Failure(f"{text}: status {done.returncode}: {(errors or output).strip()[-300:]}")
    at = 0
    for piece in pieces(command.shown) if COMPARED.match(text) else []:
        at = output.find(piece, at)
        if at < 0:
            raise Failure(f"{text}: it doesn't print {piece[:200]!r}")


def examples_in_python() -> Iterator[Command]:
    """The blocks of Python, each as one program; `bench` is the module of the tools."""
    for path in sorted(glob.glob(os.path.join(TOP, "docs", "*.md"))):
        with open(path, encoding="utf-8") as file:
            for block in re.findall(r"(?m)(?:^(?: {4}.*)?\n)+", file.read()):
                text = re.sub(r"(?m)^ {4}", "", block).strip("\n")
                if re.match(r"(?:import|from|with|class) ", text):
                    yield Command(os.path.relpath(path, TOP), text)


def run_python(command: Command, top: str, environment: dict[str, str]) -> None:
    front = "import sys\nsys.path.insert(0, 'tools')\nfrom vsmtools import bench\n"
    end = "\nprint(Bench('--low', '8').ask('MAP'))" if "class Bench" in command.text else ""
    done = subprocess.run(["python3", "-c", front + command.text + end], cwd=top, timeout=SECONDS, stdin=subprocess.DEVNULL,
                          env={**environment, "PATH": f"{top}:{environment['PATH']}"}, capture_output=True, text=True)
    if done.returncode or not done.stdout:
        raise Failure(f"{command.text}: status {done.returncode}: {done.stderr.strip()[-300:]}")


def left_over(home: Home) -> Iterator[str]:
    """Of an installed document each piece of code that is for a clone."""
    for path in (it for form in home.documents for it in sorted(glob.glob(os.path.join(home.top, form)))):
        with open(path, encoding="utf-8") as file:
            for number, line in enumerate(file, 1):
                for code in [line] if line.startswith("    ") else re.findall(r"`([^`]+)`", line):
                    if IN_A_CLONE.search(code):
                        yield f"{os.path.relpath(path, home.top)}:{number}: {code.strip()}"


def put_files(home: Home, program: str) -> None:
    """The files that the commands find; `mybench` runs this program."""
    with open(SOURCE, "rb") as file:
        source = file.read()
    for name, data in {**FILES, "PROGRAM.asm": source}.items():
        with open(os.path.join(home.top, name), "wb") as file:
            file.write(data)
    with open(os.path.join(home.top, "mybench"), "w", encoding="utf-8") as file:
        file.write(f'#!/bin/sh\nASAN_OPTIONS=detect_leaks=0 exec {program} "$@"\n')
    os.chmod(os.path.join(home.top, "mybench"), 0o755)


def cases(home: Home, environment: dict[str, str]) -> Iterator[tuple[str, object]]:
    seen = set()
    for command in home.commands():
        if (command.text, bool(command.shown)) not in seen:
            seen.add((command.text, bool(command.shown)))
            yield f"{command.place}: {command.text}", lambda command=command: run(command, home, environment)
    if not home.programs:
        for command in examples_in_python():
            yield f"{command.place}: its Python", lambda command=command: run_python(command, home.top, environment)
