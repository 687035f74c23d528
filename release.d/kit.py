"""The kit's compiler, and the proved program built once more by it: for the module for browsers and the library."""
from __future__ import annotations

import hashlib
import os
import re
import shutil
import subprocess
from pathlib import Path

TOP = Path(__file__).resolve().parent.parent
VSM, EXPLAIN = PROGRAMS = "vsm", "vsm_explain_program"
TRIPLE = "x86_64-unknown-linux-gnu"
MINUTES = 40


def built(crate: str) -> Path:
    """The proved program of a crate."""
    return TOP / "crates" / crate / "out" / crate


PROGRAM = built(VSM)


class Fault(Exception):
    """Why nothing is made, in one line."""


def run(words: list[str | Path], what: str, minutes: int = 10, **how) -> bytes:
    """Runs a command, and gives its standard output; if it fails, its first line with an error, or its last one."""
    how = {"stdin": subprocess.DEVNULL, "stdout": subprocess.PIPE, "stderr": subprocess.PIPE, **how}
    try:
        done = subprocess.run([str(word) for word in words], timeout=60 * minutes, **how)
    except OSError as error:
        raise Fault(f"{what}: {words[0]} can't be run: {error.strerror}") from None
    except subprocess.TimeoutExpired:
        raise Fault(f"{what}: no end within {minutes} minutes") from None
    if done.returncode:
        said = (done.stdout + (done.stderr or b"")).decode(errors="replace").strip().splitlines() or [""]
        raise Fault(f"{what}: status {done.returncode}: {next((it for it in said if 'error' in it), said[-1])}")
    return done.stdout


def sum_of(path: Path) -> str:
    return hashlib.sha256(path.read_bytes()).hexdigest()


def logic_of(identity: str) -> str:
    """What the programs say of a kit: its logic, which is what a proof depends on."""
    return f"rattle {identity.partition(' ')[2]}"


class Kit:
    """The kit that the command rt is of, which has to have the logic of the one that README names."""

    def __init__(self) -> None:
        command = shutil.which(os.environ.get("RT", "rt"))
        if not command:
            raise Fault("the command rt isn't on the PATH; RT can name it")
        self.folder = Path(command).resolve().parent.parent
        self.clang = self.folder / "toolchain" / "bin" / "clang"
        for needed in (self.folder / "bin" / "rattle", self.folder / "toolchain" / "lib", self.clang):
            if not needed.exists():
                raise Fault(f"{command} isn't of a kit as this script knows it: it has no {needed}")
        self.identity = run([command, "version"], "rt version").decode().strip()
        readme = (TOP / "README.md").read_text(encoding="utf-8")
        named = re.search(r"^ {4}(rattle-kit-\S+ logic \S+)$", readme, re.M)
        if not named or logic_of(named[1]) != logic_of(self.identity):
            raise Fault(f"the kit is {self.identity!r}, and README.md names {named[1] if named else 'none'!r}, of another logic")

    def build_words(self, crate: str, toolchain: Path, to: Path) -> list[str | Path]:
        """How the command rt has the program proved and compiled, over the libraries as they stand."""
        uses = crates()
        own, below = uses[crate], crates_below(crate, uses)
        kit_library = "{}=" + str(self.folder / "rlibs" / "{}.rlib")
        words: list[str | Path] = ["--extern", kit_library.format("std", "std")]
        words += ["-L", f"dependency={self.folder / 'rlibs'}"]
        for name in own:
            words += ["--extern", f"{name}={library(name)}" if name in uses else kit_library.format(name, name)]
        for name in below:
            words += ["-L", f"dependency={library(name).parent}"]
        project = self.folder / "rattle" / "logic" / "antt-project.json"
        logic = ["--antt-project", project, "--logic-built", self.folder / "logic_built"]
        return [self.folder / "bin" / "rattle", "build", "--crate-name", crate, "src/main.rt", *words, *logic,
                "--jobs", "1", "--links", f"{crate}=", "--toolchain", toolchain, "--backend", "llvm", "-o", to]

    def gives_program(self, code: Path, folder: Path, crate: str = VSM) -> bool:
        """Whether an object file, linked as the command rt links a program, is the proved one byte for byte."""
        libraries = [self.folder / "c" / name for name in ("libos_c.a", "liblibc_c.a")]
        linked = folder / "linked"
        run([self.folder / "bin" / "rattle-link", "--target", TRIPLE, "--toolchain", self.folder / "toolchain",
             "-o", linked, code, *libraries], "the link of the program")
        return sum_of(linked) == sum_of(built(crate))

    def build(self, folder: Path, toolchain: Path | None = None, crate: str = VSM) -> Path:
        """Proves and builds the program once more, in a folder; the object file, which gives the proved program."""
        code = folder / f"{crate}.o"
        shutil.copytree(TOP / "crates" / crate / "src", folder / "crate" / "src")
        words = self.build_words(crate, toolchain or self.folder / "toolchain", code)
        told = run(words, "the proved build", MINUTES, cwd=folder / "crate", stderr=subprocess.STDOUT)
        said = told.decode(errors="replace")
        if not re.search(r"(?m)^logic=proved ", said):
            raise Fault(f"the kit's compiler doesn't say that the program is proved: {said.strip().splitlines()[-1:]}")
        if not self.gives_program(code, folder, crate):
            raise Fault(f"the program that was built once more isn't the one in {built(crate)}, byte for byte")
        return code


def refuse_unproved(crate: str = VSM) -> None:
    words = [TOP / "prove", "--program", crate, "--check"]
    if subprocess.run(words, stdin=subprocess.DEVNULL, check=False).returncode:
        raise Fault(f"{built(crate)} isn't proved and built from these sources: ./prove does that, in about 45 minutes, or "
                    ".ci/run")


def crates() -> dict[str, list[str]]:
    """Each crate of crates.txt with what it uses."""
    uses: dict[str, list[str]] = {}
    for line in (TOP / "crates.txt").read_text(encoding="utf-8").splitlines():
        names, colon, used = line.partition("#")[0].partition(":")
        if colon and names.split():
            if names.split()[1:] and names.split()[0] in PROGRAMS:
                raise Fault(f"crates.txt has words for a program that this script doesn't know: {names}")
            uses[names.split()[0]] = used.split()
    return uses


def crates_below(crate: str, uses: dict[str, list[str]]) -> list[str]:
    """The repository's crates below a crate."""
    found: list[str] = []
    todo = [crate]
    while todo:
        for below in uses[todo.pop()]:
            if below in uses and below not in found:
                found.append(below)
                todo.append(below)
    return found


def library(crate: str) -> Path:
    """The proved library of a crate."""
    path = TOP / "crates" / crate / "out" / "rlib" / f"{crate}.rlib"
    if not path.is_dir():
        raise Fault(f"the proved library of {crate} doesn't exist: ./prove makes it, in about 45 minutes, or rt ci")
    return path
