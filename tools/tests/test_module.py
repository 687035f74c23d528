"""Trials of page/module: what of it can be tried without a proof."""
from __future__ import annotations

import subprocess
from pathlib import Path
from types import SimpleNamespace

from conftest import TOP, loaded


def test_the_clang_that_keeps_files_works_in_a_folder_with_a_blank(tmp_path: Path) -> None:
    module = loaded(TOP / "page" / "module")
    room = tmp_path / "a folder's blank, ü"
    kept, clang, source = room / "kept", room / "toolchain" / "bin" / "clang", room / "a module"
    for folder in (kept, clang.parent):
        folder.mkdir(parents=True)
    clang.write_text('#!/bin/sh\nprintf "%s\\n" "$@"\n', encoding="utf-8")
    clang.chmod(0o755)
    source.write_bytes(b"BC\xc0\xde")
    kit = SimpleNamespace(folder=room, clang=clang)
    keeping = module.with_keeping_clang(kit, room / "links", kept) / "bin" / "clang"
    done = subprocess.run([keeping, "-c", source], capture_output=True, text=True, timeout=60)
    assert (done.returncode, done.stdout, done.stderr) == (0, f"-c\n{source}\n", "")
    assert [it.read_bytes() for it in kept.iterdir()] == [b"BC\xc0\xde"]
