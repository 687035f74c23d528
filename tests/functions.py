"""The functions of a crate, by a scan of its text: where each one is, its clauses, and the names by which rattle knows it."""
import dataclasses
import functools
import importlib.machinery
import importlib.util
import os
import re
import subprocess
import sys
from collections.abc import Callable
from types import ModuleType
from typing import Any

CLAUSE_HEAD = re.compile(r"(?:(ensures)|requires|ghost)\s*\*?\s*(\w*)\s*(?::\s*)?$")
CYCLE = re.compile(r"#\[\s*cycle\s*\(\s*(\w+)\s*\)\s*\]")
# What a brace opens: its kind, its name, and the name of an impl if that is of a trait.
Scope = tuple[str, str, str]


class Unusable(Exception):
    """The reason why nothing can be tried."""


@dataclasses.dataclass(frozen=True)
class Function:
    """A function: its file, its first line, the first line of its body, its last line, its name, the folder of its proof,
    the path by which rattle knows it, and the names of its clauses ('' for one without a name)."""

    file: str
    first: int
    body: int
    last: int
    name: str
    proof: str
    path: str
    clauses: tuple[str, ...]

    def holds(self, file: str, line: int) -> bool:
        """Whether a line is in it."""
        return file == self.file and self.first <= line <= self.last


@functools.lru_cache(maxsize=None)
def kit() -> tuple[ModuleType, ModuleType]:
    """The kit's rt and rtlib, as modules: they have the arguments of a check."""
    try:
        ran = subprocess.run([os.environ.get("RT", "rt"), "doc"], capture_output=True, text=True, check=False)
    except OSError as error:
        raise Unusable("the kit's command rt isn't on the PATH") from error
    folder = os.path.join(os.path.dirname(ran.stdout.strip()), "bin")
    if ran.returncode or not os.path.exists(os.path.join(folder, "rt")):
        raise Unusable("the kit's command rt isn't on the PATH")
    sys.dont_write_bytecode = True
    loader = importlib.machinery.SourceFileLoader("rt", os.path.join(folder, "rt"))
    module = importlib.util.module_from_spec(importlib.util.spec_from_loader("rt", loader))
    loader.exec_module(module)
    if not hasattr(module, "stamp_of"):
        keep_stamps(module.rtlib)
    return module, module.rtlib


def keep_stamps(rtlib: ModuleType) -> None:
    """Has a kit that reckons the sum of a crate once for each path to it do so once for each crate."""
    reckon: Callable[[Any], str] = rtlib.Crate.stamp
    kept: dict[str, str] = {}

    def stamp(crate: Any) -> str:
        if crate.folder not in kept:
            kept[crate.folder] = reckon(crate)
        return kept[crate.folder]

    rtlib.Crate.stamp = stamp


def stamp_of(crate: Any) -> str:
    """The sum of all that a crate is made from, as the kit reckons it."""
    module, _ = kit()
    return module.stamp_of(crate, {}) if hasattr(module, "stamp_of") else crate.stamp()


def module_of(file: str) -> list[str]:
    """The path of a file's module: of src/a/b.rt a and b."""
    words = file[len("src/"):-len(".rt")].split("/")
    return words[:-1] if words[-1] in ("lib", "main", "mod") else words


def impl_of(head: str) -> tuple[str, str]:
    """The type of an impl, and the name of the impl if it is of a trait, from the text before its brace: rattle calls
    impl From<TooLong> for Fault FaultFromTooLong, and one for any type AnyTrait."""
    parameters = re.match(r"impl\s*<((?:[^<>]|<[^<>]*>)*)>", head)
    any_types = re.findall(r"(?:^|,)\s*(\w+)", parameters[1]) if parameters else []
    head = head[parameters.end():] if parameters else head[len("impl"):]
    trait, _, of = re.split(r"\bwhere\b", head)[0].rpartition(" for ")
    found = re.match(r"[\s&]*(?:\w+::)*(\w+)", of)
    kind = found[1] if found else ""
    words = "".join(re.findall(r"\w+", re.sub(r"\w+::|'\w+", "", trait)))
    if not words or words == "Drop":
        return kind, ""
    return kind, ("Any" if kind in any_types else kind) + words


def kind_of(head: str) -> Scope:
    """What a brace opens, and its name: a function, an impl, a module, a trait, or something else."""
    for kind, pattern in (("fn", r"\bfn\s+(\w+)"), ("mod", r"\bmod\s+(\w+)\s*$"), ("trait", r"\btrait\s+(\w+)")):
        one = re.search(pattern, head)
        if one:
            return kind, one[1], ""
    one = re.search(r"(?:^|[\s}\]])(impl\b.*)$", head, re.S)
    return ("impl", *impl_of(one[1])) if one else ("", "", "")


def closing(text: str, at: int) -> int:
    """The place of the brace that closes the one at this place."""
    depth = 0
    for one in re.compile(r"[{}]").finditer(text, at):
        depth += 1 if one[0] == "{" else -1
        if not depth:
            return one.start()
    return len(text) - 1


def is_in_brackets(text: str, begin: int, end: int) -> bool:
    """Whether more round or square brackets open than close between two places, as in [u8; 4]."""
    part = text[begin:end]
    return part.count("(") + part.count("[") > part.count(")") + part.count("]")


@dataclasses.dataclass
class Scan:
    """A walk over a file's text, which has neither comments nor strings."""

    file: str
    text: str
    types: dict[str, list[str]]
    found: list[Function] = dataclasses.field(default_factory=list)
    scopes: list[Scope] = dataclasses.field(default_factory=list)
    clauses: list[str] = dataclasses.field(default_factory=list)
    head_from: int = 0

    def functions(self) -> list[Function]:
        """The functions of the file; an inner one follows the one around it."""
        at = 0
        while at < len(self.text):
            mark = self.text[at]
            if mark == "{":
                at = self.open(at)
            elif mark == "}" or mark == ";" and not is_in_brackets(self.text, self.head_from, at):
                if mark == "}" and self.scopes:
                    self.scopes.pop()
                self.head_from, self.clauses = at + 1, []
            at += 1
        return self.found

    def open(self, at: int) -> int:
        """Takes the brace at this place: a clause is skipped, and the inside of anything else is read."""
        head = self.text[self.head_from:at]
        clause = CLAUSE_HEAD.search(head)
        if clause and (re.search(r"\bfn\s+\w+", head) or re.match(r"\s*ghost\b", head)):
            if clause[1]:
                self.clauses.append(clause[2])
            return closing(self.text, at)
        self.scopes.append(kind_of(head))
        if self.scopes[-1][0] == "fn":
            self.found.append(self.function(head, at))
        self.head_from, self.clauses = at + 1, []
        return at

    def function(self, head: str, at: int) -> Function:
        """The function that opens here. The proof of one of an impl is where its type is, of one of a trait's impl in a
        folder of that, and of one of a cycle of calls in the cycle's."""
        module = module_of(self.file) + [name for kind, name, _ in self.scopes if kind == "mod"]
        inside = [it for it in self.scopes if it[0] in ("impl", "trait", "fn") and it[1]]
        shown = "::".join(of if of.startswith("Any") else name for _, name, of in inside)
        if inside[0][0] == "impl" and not inside[0][2]:
            module = self.types.get(inside[0][1], module)
        words = [of or name for _, name, of in inside]
        cycle = CYCLE.search(head)
        proof = [*module, cycle[1]] if cycle else [*module, *words]
        first = self.line(self.head_from + len(head) - len(head.lstrip()))
        return Function(self.file, first, self.line(at), self.line(closing(self.text, at)), shown, "/".join(proof),
                        "::".join([*module, *words]), tuple(self.clauses))

    def line(self, offset: int) -> int:
        """The number of the line at an offset."""
        return self.text.count("\n", 0, offset) + 1


def functions_of(crate: Any) -> list[Function]:
    """Every function of a crate."""
    _, rtlib = kit()
    texts = {os.path.relpath(path, crate.folder): text for path, text in rtlib.blanked(crate.folder).items()}
    texts = {file: text for file, text in texts.items() if file.endswith(".rt")}
    types = {name: module_of(file) for file, text in texts.items()
             for name in re.findall(r"\b(?:struct|enum|union)\s+(\w+)", text)}
    return [it for file, text in sorted(texts.items()) for it in Scan(file, text, types).functions()]


def around(functions: list[Function], file: str, line: int) -> Function | None:
    """The innermost function around a line."""
    found = [it for it in functions if it.holds(file, line)]
    return max(found, key=lambda it: (it.first, -it.last)) if found else None
