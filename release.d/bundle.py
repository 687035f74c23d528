"""The files of a release: one tree, from which the tarball and the package for Debian are made."""
from __future__ import annotations

import gzip
import hashlib
import os
import re
import shutil
import subprocess
import sys
import tarfile
import time
from dataclasses import dataclass
from email.utils import formatdate
from pathlib import Path

import completions
import facts
import manual
import wheel
from facts import Commit, Refusal
from kit import logic_of

# What of tools/ and page/ isn't put with the tools: tests, what bench.html is made from, and the library, which has
# places of its own.
NOT_INSTALLED = re.compile(r".*/(tests/|\.)|(page|tools)/check|tools/c/|"
                           r"page/(bench|module|host|chromium|colours|expected|on_page|pictures$|pixels|probe|sight|"
                           r"\w*trials|.*\.test\.)")
# How the tools begin, and how they have to in a package.
FREE_PYTHON, SYSTEM_PYTHON = b"#!/usr/bin/env python3\n", b"#!/usr/bin/python3\n"
DOCS = ("STATEMENTS.md", "MESSAGES.md", "EXPLAIN.md", "PROTOCOL.md", "ZOS.md", "GLOSSARY.md", "TOOLS.md", "VIEW.md",
        "EDITORS.md", "BENCH-IN-A-BROWSER.md", "LIMITS.md")
# The proved programs, by the crates that build them.
PROGRAMS = {"vsm": "vsm", "vsm-explain": "vsm_explain_program"}
COMMANDS = ("check", "list", "why", "report", "who")
# The library: where tools/c/build leaves it, and its files in a release.
LIBRARY = Path("crates") / "vsm" / "out"
ARCHIVE, SHARED = "lib/libvsm.a", "lib/libvsm.so.1"
WITH_LIBRARY = {"tools/c/vsm.h": "include/vsm.h", "tools/c/example.c": "share/doc/nilbozad/examples/example.c"}
LINKS = {"lib/libvsm.so": "libvsm.so.1", **{f"lib/python3/dist-packages/{it}": f"../../../share/nilbozad/tools/{it}"
                                            for it in ("vsm_bench.py", "vsmtools")}}
PKG_CONFIG = """\
prefix=${{pcfiledir}}/../..
Name: vsm
Description: bench for the virtual storage of z/OS
Version: {version}
Cflags: -I${{prefix}}/include
Libs: -L${{prefix}}/lib -lvsm
"""
DESCRIPTION = """\
Description: bench for the virtual storage of z/OS
 It carries out scripts of storage macros (STORAGE, GETMAIN, FREEMAIN, CPOOL,
 ATTACH, DETACH) over a simulated private region, and answers each with its
 return code and address or its completion code. It steps back and forward
 over what it did, exactly; that is proved. It has a library for C and Python.
 .
 Its documents are in /usr/share/doc/nilbozad: ZOS.md says where z/OS differs.
"""


# Files of Python's that no package has would stay, with their folders.
BEFORE_REMOVAL = """\
#!/bin/sh
set -e
modules="$DPKG_ROOT/usr/lib/python3/dist-packages/__pycache__"
rm -f "$modules"/vsm_bench.*.pyc
rmdir "$modules" 2>/dev/null || true  # others may have files there
find "$DPKG_ROOT/usr/share/nilbozad" -name __pycache__ -prune -exec rm -rf {} + || true
"""


OVERRIDES = """\
# The library is in one package with the programs, which is for one architecture.
nilbozad: package-name-doesnt-match-sonames
nilbozad: link-to-shared-library-in-wrong-package
nilbozad: pkg-config-unavailable-for-cross-compilation
"""


@dataclass(frozen=True)
class Release:
    top: Path
    version: str
    commit: Commit
    kit: str
    kit_folder: Path
    changes: list[str]
    gate: str
    files: list[str]

    @property
    def tools(self) -> list[str]:
        """The programs of tools/ that are installed."""
        return sorted(it.split("/")[1] for it in self.files if it.count("/") == 1 and it.startswith("tools/")
                      and not NOT_INSTALLED.match(it) and os.access(self.top / it, os.X_OK))


def put(file: Path, data: bytes | str, mode: int = 0o644) -> None:
    file.parent.mkdir(parents=True, exist_ok=True)
    file.write_bytes(data.encode() if isinstance(data, str) else data)
    file.chmod(mode)


def copy(source: Path, file: Path) -> None:
    put(file, source.read_bytes(), 0o755 if os.access(source, os.X_OK) else 0o644)


def built(top: Path, name: str) -> Path:
    """The proved program of this name, as it was built."""
    return top / "crates" / PROGRAMS[name] / "out" / PROGRAMS[name]


def help_of(program: Path, *command: str) -> str:
    """What a program, or a command of it, prints for --help."""
    return said(program, *command, "--help")


def said(program: Path, *words_behind: str) -> str:
    """What a program prints for these arguments, at one width and in one language."""
    environment = {"PATH": os.environ.get("PATH", ""), "COLUMNS": "80", "LC_ALL": "C.UTF-8",
                   "PYTHONDONTWRITEBYTECODE": "1"}
    words = [str(program), *words_behind]
    if program.parent.name == "tools":
        words.insert(0, sys.executable)
    try:
        done = subprocess.run(words, env=environment, capture_output=True, text=True, timeout=60,
                              stdin=subprocess.DEVNULL)
    except (OSError, subprocess.TimeoutExpired) as error:
        raise Refusal(f"{program} {' '.join(words_behind)}: {error}") from None
    if done.returncode or not done.stdout:
        raise Refusal(f"{program} {' '.join(words_behind)} ended with status {done.returncode}: "
                      f"{done.stderr.strip()[-200:]}")
    return done.stdout


def put_programs(release: Release, root: Path) -> None:
    for name in PROGRAMS:
        copy(built(release.top, name), root / "bin" / name)
        facts.output_of("strip", str(root / "bin" / name))
    share = root / "share" / "nilbozad"
    for file in release.files:
        if re.match(r"(tools|page)/", file) and not NOT_INSTALLED.match(file):
            copy(release.top / file, share / file)
    if (share / "page").is_dir():
        # The page says what each answer means, and vsm-lsp also what each operand does.
        for name in ("MESSAGES.md", "STATEMENTS.md"):
            copy(release.top / "docs" / name, share / "docs" / name)
    for name in release.tools:
        (root / "bin" / name).symlink_to(Path("..") / "share" / "nilbozad" / "tools" / name)
    for name in facts.BENCH:
        copy(release.top / "dist" / name, share / name)
    put(share / "VERSION", f"nilbozad {release.version} ({logic_of(release.kit)})\n")


def put_library(release: Release, root: Path) -> None:
    for name in (ARCHIVE, SHARED):
        copy(release.top / LIBRARY / Path(name).name, root / name)
    facts.output_of("strip", "--strip-unneeded", str(root / SHARED))
    for file, name in WITH_LIBRARY.items():
        copy(release.top / file, root / name)
    put(root / "lib/pkgconfig/vsm.pc", PKG_CONFIG.format(version=release.version))
    for name, to in LINKS.items():
        (root / name).parent.mkdir(parents=True, exist_ok=True)
        (root / name).symlink_to(to)


def put_manual(release: Release, root: Path, helps: dict[str, str], commands: list[str]) -> None:
    date = time.strftime("%B %-d, %Y", time.gmtime(release.commit.seconds))
    docs = {name: (release.top / "docs" / name).read_text(encoding="utf-8") for name in DOCS}
    pages = {name: manual.Page(name, 1, date) for name in helps}
    statements, messages = manual.Page("vsm-statements", 5, date), manual.Page("vsm-messages", 7, date)
    others = [f"{it.name}({it.section})" for it in [*pages.values(), statements, messages]]
    texts = {
        statements: manual.page_of_docs(statements, "what a script of vsm can have",
                                        docs["STATEMENTS.md"], others),
        messages: manual.page_of_docs(messages, "what vsm prints, and why", docs["MESSAGES.md"], others),
    }
    for name, page in pages.items():
        if name == "vsm":
            texts[page] = manual.page_of_vsm(page, helps[name], docs["MESSAGES.md"], others)
        elif name in PROGRAMS:
            texts[page] = manual.page_of_commands(page, helps[name], commands, others)
        else:
            texts[page] = manual.page_of_tool(page, helps[name], others)
    for page, text in texts.items():
        put(root / "share" / "man" / f"{page.file}.gz", gzip.compress(text.encode(), 9, mtime=0))


def put_completions(root: Path, programs: list[completions.Program], zsh_folder: str) -> None:
    for it in programs:
        put(root / "share/bash-completion/completions" / it.name, completions.bash(it))
        put(root / zsh_folder / f"_{it.name}", completions.zsh(it))
        put(root / "share/fish/vendor_completions.d" / f"{it.name}.fish", completions.fish(it))


def released_changes(release: Release) -> str:
    text = (release.top / "CHANGELOG.md").read_text(encoding="utf-8")
    day = time.strftime("%Y-%m-%d", time.gmtime(release.commit.seconds))
    text = text.replace(f"## {facts.UNRELEASED}", f"## {release.version} ({day})")
    # The sentence on ./release is for whoever has the repository.
    return re.sub(r"\n\n[^#\n].*\n", "\n", text, count=1)


def copyright_of(release: Release, licences: dict[str, bytes]) -> str:
    year = time.strftime("%Y", time.gmtime(release.commit.seconds))
    lines = ["Nilbozad", f"Copyright {year} The Nilbozad authors", "",
             "Licensed under either of the Apache License, Version 2.0 (LICENSE-APACHE; on Debian",
             "/usr/share/common-licenses/Apache-2.0), or the MIT licence (LICENSE-MIT), at your option.", "",
             "vsm, vsm-explain and the library have code of these crates of the kit that they are built with.",
             "Their licences:", ""]
    text = (release.top / "LICENSE-MIT").read_text(encoding="utf-8")
    for name in sorted({it.partition("-LICENSE")[0] for it in licences}):
        own = [f"licenses/{it}" for it in sorted(licences) if it.startswith(f"{name}-LICENSE")]
        lines.append(f"  {name}: {', '.join(own)}")
    lines += ["", "The kit's standard library (core, std and what they use) has no licence file there.", "",
              text]
    return "\n".join(lines)


def moved(file: str, data: bytes) -> bytes:
    """A document with its links, for the pages of docs/ one folder higher, and with the commands that a release has."""
    if not file.endswith(".md"):
        return data
    data = data.replace(b"](../", b"](") if file.startswith("docs/") else data.replace(b"](../docs/", b"](../")
    return re.sub(rb"(?<![\w./])(\./(?=vsm\b)|tools/(?=vsm-))", b"", data)


def put_docs(release: Release, root: Path, statement: str) -> None:
    licences = facts.licences(release.kit_folder, release.top)
    doc = root / "share" / "doc" / "nilbozad"
    for file in release.files:
        if file.removeprefix("docs/") in DOCS or re.fullmatch(
                r"docs/pictures/.*|conformance/rules|(examples|conformance)/.*(\.(vsm|out)|README\.md|ANSWERS\.md)", file):
            put(doc / file.removeprefix("docs/"), moved(file, (release.top / file).read_bytes()))
    for name, data in licences.items():
        put(doc / "licenses" / name, data)
    put(doc / "copyright", copyright_of(release, licences))
    put(doc / "PROVED", statement)
    put(doc / "CHANGELOG.md", released_changes(release))


def put_lessons_pages(release: Release, root: Path) -> None:
    """Each lesson as a page that opens in a browser."""
    view, program = release.top / "tools" / "vsm-view", str(built(release.top, "vsm"))
    for script in sorted((release.top / "examples").glob("*.vsm")):
        page = said(view, "--vsm", program, str(script))
        put(root / "share/doc/nilbozad/examples" / f"{script.stem}.html", page)


def settle(root: Path, seconds: int) -> None:
    """One time and one mode for each file, so that the same commit gives the same bytes."""
    for path in sorted(root.rglob("*"), reverse=True):
        if path.is_dir() and not path.is_symlink():
            path.chmod(0o755)
        os.utime(path, (seconds, seconds), follow_symlinks=False)
    os.utime(root, (seconds, seconds))


def tarball(release: Release, root: Path, file: Path) -> None:
    """The tree in a folder of its own, with what one looks for first at its top."""
    for name in ("LICENSE-MIT", "LICENSE-APACHE"):
        copy(release.top / name, root / name)
    for name in ("PROVED", "CHANGELOG.md"):
        (root / "share/doc/nilbozad" / name).replace(root / name)
    put(root / "README", read_me(release, least_libc(root)))
    settle(root, release.commit.seconds)

    def plain(info: tarfile.TarInfo) -> tarfile.TarInfo:
        info.uid = info.gid = 0
        info.uname = info.gname = "root"
        return info

    with open(file, "wb") as raw, gzip.GzipFile("", "wb", 9, raw, release.commit.seconds) as packed:
        with tarfile.open(fileobj=packed, mode="w", format=tarfile.GNU_FORMAT) as archive:
            for path in [root, *sorted(root.rglob("*"))]:
                name = f"nilbozad-{release.version}/{path.relative_to(root)}".rstrip("/.")
                archive.add(path, name, recursive=False, filter=plain)


def least_libc(root: Path) -> str:
    """The oldest version of glibc that has all that the programs and the library call."""
    data = b"".join((root / name).read_bytes() for name in (*(f"bin/{it}" for it in PROGRAMS), SHARED))
    major, minor = max(tuple(map(int, it.split(b"."))) for it in re.findall(rb"GLIBC_(\d+\.\d+)", data))
    return f"{major}.{minor}"


def read_me(release: Release, libc: str) -> str:
    return f"""Nilbozad {release.version}, a bench for the virtual storage of z/OS

    bin/vsm share/doc/nilbozad/examples/first-steps.vsm     runs a script
    bin/vsm-explain --help                                  explains one
    share/nilbozad/bench.html                               the bench in a browser, with the lessons
    share/doc/nilbozad/examples/*.html                      each lesson as a page
    man -l share/man/man1/vsm.1.gz                          describes the program
    man -l share/man/man5/vsm-statements.5.gz               what a script can have
    man -l share/man/man7/vsm-messages.7.gz                 what is printed
    share/doc/nilbozad/ZOS.md                               where z/OS differs
    cc -Iinclude share/doc/nilbozad/examples/example.c lib/libvsm.a
    PYTHONPATH=lib/python3/dist-packages python3 -c 'import vsm_bench; help(vsm_bench)'

Copied to /usr/local, bin/, include/, lib/ and share/ are found by the shell, by cc, by pkg-config (vsm), by man and by
completions; ldconfig then makes the shared library known. vsm, vsm-explain and the library need x86-64 Linux and glibc
{libc} or newer; the other programs of bin/ need Python 3.11.
share/doc/nilbozad also has EXPLAIN.md, TOOLS.md, VIEW.md, EDITORS.md, PROTOCOL.md, BENCH-IN-A-BROWSER.md, GLOSSARY.md
and LIMITS.md; STATEMENTS.md and MESSAGES.md are the manual's pages. Type their commands in that folder. PROVED says what
was proved, CHANGELOG.md what has changed.
"""


def control(release: Release, root: Path) -> str:
    size = sum(it.lstat().st_size for it in root.rglob("*") if it.is_file()) // 1024 + 1
    needs = f"libc6 (>= {least_libc(root / 'usr')})" + (", python3 (>= 3.11)" if release.tools else "")
    return (f"Package: nilbozad\nVersion: {release.version}\nArchitecture: amd64\n"
            f"Maintainer: {release.commit.author}\nInstalled-Size: {size}\nDepends: {needs}\n"
            f"Section: devel\nPriority: optional\n{DESCRIPTION}")


def debian_changes(release: Release) -> str:
    lines = [re.sub(r"[`*]", "", it[2:]) for it in release.changes]
    wrapped = ["\n    ".join(re.findall(r".{1,74}(?:\s|$)", line)) for line in lines]
    stanza = "\n".join(f"  * {line}".rstrip() for line in wrapped)
    stanza = re.sub(r"[ \t]+$", "", stanza, flags=re.M)
    return (f"nilbozad ({release.version}) unstable; urgency=medium\n\n{stanza}\n\n"
            f" -- {release.commit.author}  {formatdate(release.commit.seconds)}\n")


def package(release: Release, root: Path, file: Path) -> None:
    doc = root / "usr/share/doc/nilbozad"
    (doc / "CHANGELOG.md").unlink()
    put(doc / "changelog.gz", gzip.compress(debian_changes(release).encode(), 9, mtime=0))
    put(root / "usr/share/lintian/overrides/nilbozad", OVERRIDES)
    found = [it for it in sorted(root.rglob("*")) if it.is_file() and not it.is_symlink()]
    for name in found:
        data = name.read_bytes()
        if data.startswith(FREE_PYTHON):
            put(name, data.replace(FREE_PYTHON, SYSTEM_PYTHON, 1), name.stat().st_mode & 0o777)
    sums = "".join(f"{hashlib.md5(it.read_bytes()).hexdigest()}  {it.relative_to(root)}\n" for it in found)
    put(root / "DEBIAN" / "control", control(release, root))
    put(root / "DEBIAN" / "md5sums", sums)
    put(root / "DEBIAN" / "prerm", BEFORE_REMOVAL, 0o755)
    put(root / "DEBIAN" / "shlibs", f"libvsm 1 nilbozad (>= {release.version})\n")
    put(root / "DEBIAN" / "triggers", "activate-noawait ldconfig\n")
    settle(root, release.commit.seconds)
    environment = {**os.environ, "SOURCE_DATE_EPOCH": str(release.commit.seconds)}
    words = ["dpkg-deb", "--root-owner-group", "-Zxz", "--build", str(root), str(file)]
    done = subprocess.run(words, env=environment, capture_output=True, text=True, timeout=300,
                          stdin=subprocess.DEVNULL)
    if done.returncode:
        raise Refusal(f"dpkg-deb: {done.stderr.strip()}")


def statement_head(release: Release) -> list[str]:
    return [f"What was proved of Nilbozad {release.version}", "", f"Commit     {release.commit.name}",
            f"Kit        {release.kit}", f"Gate       {release.gate}"]


def what_was_built(release: Release, root: Path) -> list[str]:
    """The proved programs with their sums, and what of them is in the release."""
    programs = [line for name in PROGRAMS for line in (
        f"Program    {name} as it was built, SHA-256 {facts.sha256(built(release.top, name))}",
        f"           bin/{name}, the same without its symbols, {facts.sha256(root / 'bin' / name)}")]
    return [*programs,
            f"Library    {ARCHIVE}, vsm's object file under other outer names, and its calls, SHA-256 "
            f"{facts.sha256(root / ARCHIVE)}",
            f"           {SHARED}, these to be loaded, {facts.sha256(root / SHARED)}"]


def made(release: Release, room: Path) -> list[Path]:
    """Makes all files in a folder, and gives those that dist/ is to have."""
    helps = {**{name: help_of(built(release.top, name)) for name in PROGRAMS},
             **{name: help_of(release.top / "tools" / name) for name in release.tools}}
    commands = {it: help_of(built(release.top, "vsm-explain"), it) for it in COMMANDS}
    completed = [completions.program_of(name, text, commands if name == "vsm-explain" else {})
                 for name, text in helps.items()]
    root, usr, out = room / "tree", room / "debian" / "usr", room / "out"
    out.mkdir()
    put_programs(release, root)
    put_library(release, root)
    statement = facts.proved(release.top, release.files, statement_head(release), what_was_built(release, root))
    put_manual(release, root, helps, list(commands.values()))
    put_docs(release, root, statement)
    put_lessons_pages(release, root)
    shutil.copytree(root, usr, symlinks=True)
    put_completions(root, completed, "share/zsh/site-functions")
    put_completions(usr, completed, "share/zsh/vendor-completions")
    names = [out / f"nilbozad-{release.version}-linux-x86_64.tar.gz",
             out / f"nilbozad_{release.version}_amd64.deb",
             out / f"nilbozad-{release.version}-py3-none-linux_x86_64.whl"]
    wheel.wheel(release.version, release.tools, least_libc(root), list(PROGRAMS), root, release.commit.seconds, names[2])
    tarball(release, root, names[0])
    package(release, usr.parent, names[1])
    put(out / "PROVED", statement)
    sums = [*names, out / "PROVED", release.top / "dist" / "bench.html"]
    put(out / "SHA256SUMS", "".join(f"{facts.sha256(it)}  {it.name}\n" for it in sums))
    return [*names, out / "PROVED", out / "SHA256SUMS"]
