"""What a release says of itself: the commit, the kit, what was proved, and whose work it uses."""
from __future__ import annotations

import hashlib
import os
import re
import subprocess
from dataclasses import dataclass
from pathlib import Path

from kit import logic_of

VERSION = re.compile(r"(0|[1-9]\d{0,5})(\.(0|[1-9]\d{0,5})){2}")
UNRELEASED = "Not released yet"
GATE_LINE = re.compile(r"(\d+) passed, (\d+) failed")
# What the kit says of no crate: its own standard library has no licence file.
STANDARD = {"core", "std"}
# The bench in a browser, as page/module and page/bench.py leave it in dist/.
BENCH = ("bench.html", "vsm.wasm", "vsm.json")


class Refusal(Exception):
    """Why there is no release, in one line."""


@dataclass(frozen=True)
class Commit:
    name: str
    seconds: int
    author: str


def output_of(*words: str, where: Path | None = None) -> str:
    try:
        done = subprocess.run(words, cwd=where, capture_output=True, text=True, timeout=120,
                              stdin=subprocess.DEVNULL)
    except (OSError, subprocess.TimeoutExpired, UnicodeDecodeError) as error:
        raise Refusal(f"{words[0]} can't be run: {error}") from None
    if done.returncode:
        raise Refusal(f"{' '.join(words)} ended with status {done.returncode}: {done.stderr.strip()[-200:]}")
    return done.stdout


def commit_of(top: Path) -> Commit:
    changed = output_of("git", "status", "--porcelain", "--", ".", ":!dist", where=top)
    if changed:
        raise Refusal(f"there are changes that aren't committed: {changed.split(chr(10))[0].strip()}")
    told = output_of("git", "log", "-1", "--format=%H%n%ct%n%an <%ae>", where=top)
    name, seconds, author = told.strip().split("\n")
    return Commit(name, int(seconds), author)


def files_of(top: Path) -> list[str]:
    return [it for it in output_of("git", "ls-files", "-z", where=top).split("\0") if it]


def changes_of(top: Path, version: str) -> list[str]:
    """The lines of CHANGELOG.md under 'Not released yet'."""
    if not VERSION.fullmatch(version):
        raise Refusal(f"a version is three numbers, such as 1.0.0, and not {version!r}")
    sections = re.split(r"^## ", (top / "CHANGELOG.md").read_text(encoding="utf-8"), flags=re.M)[1:]
    titled = {it.partition("\n")[0].strip(): it.partition("\n")[2] for it in sections}
    if version in {title.split()[0] for title in titled if title}:
        raise Refusal(f"{version} is in CHANGELOG.md already")
    lines = [it for it in titled.get(UNRELEASED, "").split("\n") if it.startswith("- ")]
    if not lines:
        raise Refusal(f"CHANGELOG.md has no line under '{UNRELEASED}'")
    return lines


def say_version(text: str, version: str, kit: str) -> bool:
    """Whether a program's last line is this version with the kit's logic."""
    return text.rstrip("\n").split("\n")[-1].endswith(f" {version} ({logic_of(kit)})")


def gate_line(file: str | None) -> str:
    """The last line of the gate's output."""
    if file is None:
        return "not given"
    try:
        lines = Path(file).read_text(encoding="utf-8", errors="replace").split("\n")
    except OSError as error:
        raise Refusal(f"{file} can't be read: {error.strerror}") from None
    last = next((line for line in reversed(lines) if line), "")
    match = GATE_LINE.fullmatch(last)
    if not match or match[2] != "0":
        raise Refusal(f"the last line of {file} is {last[:80]!r}, and not that of a gate without a failure")
    return last


def crates_of(top: Path) -> tuple[list[str], list[str]]:
    """The crates below the programs and themselves, and the kit's that they use."""
    uses: dict[str, list[str]] = {}
    for line in (top / "crates.txt").read_text(encoding="utf-8").split("\n"):
        name, colon, rest = line.partition("#")[0].partition(":")
        if colon:
            uses[name.split()[0]] = rest.split()
    found = ["vsm", "vsm_explain_program"]
    left = list(found)
    while left:
        for name in uses.get(left.pop(), []):
            if name not in found:
                found.append(name)
                left.append(name)
    return sorted(it for it in found if it in uses), sorted(it for it in found if it not in uses)


def contracts_in(text: str) -> tuple[int, int]:
    """How many functions have a contract, and how many clauses there are."""
    functions = clauses = 0
    is_new = False
    for line in text.split("\n"):
        if re.match(r"\s*(pub(\(\w+\))? )?(unsafe )?(const )?fn ", line):
            is_new = True
        elif re.match(r"\s*(requires|ensures)\b", line):
            clauses += 1
            functions += is_new
            is_new = False
    return functions, clauses


def proved(top: Path, files: list[str], head: list[str], built: list[str]) -> str:
    """The text of PROVED: what it's of, what is counted in the sources, and what was built."""
    crates, _ = crates_of(top)
    sources = [it for it in files if re.fullmatch(r"crates/\w+/src/.*\.rt", it)]
    texts = {it: (top / it).read_text(encoding="utf-8") for it in sources}
    counts = [contracts_in(text) for it, text in texts.items() if it.split("/")[1] in crates]
    edits = sum(len(re.findall(r"^# clause: ", (top / it).read_text(encoding="utf-8"), re.M)) for it in files
                if re.fullmatch(r"crates/\w+/(must-fail|wrong)/.*\.edits?", it))
    tests = sum(text.count("#[test]") for text in texts.values())
    rows = sum(bool(re.fullmatch(r"tests/rows/.*\.row", it)) for it in files)
    scripts = sum(bool(re.fullmatch(r"conformance/.*\.vsm", it)) for it in files)
    lessons = sum(bool(re.fullmatch(r"examples/.*\.vsm", it)) for it in files)
    lines = [*head,
             f"Contracts  {sum(a for a, _ in counts)} functions with {sum(b for _, b in counts)} clauses, "
             f"in {len(crates)} crates: all that vsm, vsm-explain and the library use",
             f"Edits      {edits} wrong bodies, each of which the prover has to refuse",
             f"Tests      {tests} test functions, {scripts} scripts of conformance, {rows} rows in tests/rows, {lessons} lessons",
             *built, "",
             "Gate is the last line of the gate's output, or 'not given' if ./release got none.",
             "'Proved' says no more than the contracts do: README.md of the repository has what can be relied on,",
             "what was only tested, and what is trusted. The other programs, the pages, and what the library has outside",
             "the proved code (its calls, and the package for Python) are tested and not proved."]
    return "\n".join(lines) + "\n"


def sha256(file: Path) -> str:
    return hashlib.sha256(file.read_bytes()).hexdigest()


def refuse_other_bench(dist: Path, program: Path) -> None:
    """The module and the page of it name the sums of the program and of the module."""
    anew = "page/module and then page/bench.py make it"
    for name in BENCH:
        if not (dist / name).is_file():
            raise Refusal(f"dist/{name} is missing: {anew}")
    sums = sha256(program), sha256(dist / "vsm.wasm")
    for name in ("vsm.json", "bench.html"):
        text = (dist / name).read_text(encoding="utf-8")
        if not all(it in text for it in sums):
            raise Refusal(f"dist/{name} isn't of the program that is built: {anew} anew")


def licences(kit: Path, top: Path) -> dict[str, bytes]:
    """The licence files of the kit's crates that are linked in, and of those below them, by new names."""
    found: dict[str, bytes] = {}
    left = [it for it in crates_of(top)[1] if it not in STANDARD]
    seen = set(left) | STANDARD
    while left:
        name = left.pop()
        folder = kit / "rattle" / name
        files = sorted(it for it in folder.glob("LICENSE*") if it.is_file())
        if not files:
            raise Refusal(f"the kit's crate {name} is linked in, and {folder} has no licence")
        for file in files:
            found[f"{name}-{file.name}"] = file.read_bytes()
        more = {it for it in used_by(folder) - seen if any((kit / "rattle" / it).glob("LICENSE*"))}
        seen |= more
        left += more
    return found


def used_by(folder: Path) -> set[str]:
    """The crates that a crate of the kit names in its sources."""
    text = "\n".join(it.read_text(encoding="utf-8", errors="replace") for it in folder.glob("src/**/*.rt"))
    return set(re.findall(r"^\s*(?:pub )?(?:ghost )?use (\w+)", text, flags=re.M))


def kit_of() -> tuple[str, Path]:
    """The kit's line, and its folder."""
    rt = os.environ.get("RT", "rt")
    return output_of(rt, "version").strip(), Path(output_of(rt, "doc").strip()).parent
