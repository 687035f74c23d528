#!/usr/bin/env python3
"""Makes the bench in a browser: one page, dist/bench.html, of the files here and the programs' modules.

Usage: page/bench.py [MODULE.wasm [PAGE.html]]
    by default dist/vsm.wasm, which page/module makes, and dist/bench.html.

The module's file .json must be next to it; it names the commit and the kit. If vsm-explain.wasm is next to it too, the
page explains answers; without it the page is made and works without that.
"""
from __future__ import annotations

import base64
import gzip
import hashlib
import json
import sys
from pathlib import Path

HERE = Path(__file__).resolve().parent
TOP = HERE.parent
sys.path[:0] = [str(HERE), str(TOP / "tools")]
sys.dont_write_bytecode = True

from build import BuildFault, build_page, joined_script, lessons  # noqa: E402
from vsmtools.lines import options_for  # noqa: E402

SHORT = 12  # characters of a commit in the page's foot


def identity_of(module: Path) -> dict[str, str | int]:
    """What page/module wrote about the module, and the line that the page shows of it. The module's sum shows whether
    this was written about it."""
    said = json.loads(module.with_suffix(".json").read_text(encoding="utf-8"))
    found = hashlib.sha256(module.read_bytes()).hexdigest()
    commit = said["commit"].partition(" ")
    line = f"The program {module.stem}, proved at commit {commit[0][:SHORT]}{commit[1]}{commit[2]} with {said['kit']}"
    if found != said["module"]:
        line = "A program that isn't known to be proved"
    return {**said, "bytes": module.stat().st_size, "line": f"{line}. The SHA-256 of its module is {found}."}


def option_words(script: Path) -> list[str]:
    """The options in an example's first comment."""
    return options_for(script.name, script.read_bytes())


def example(script: Path) -> dict[str, object]:
    """An example script, each character one byte, with its options by name, and the lesson's title and question."""
    words = option_words(script)
    options = {name.removeprefix("--"): value for name, value in zip(words[::2], words[1::2])}
    title, question = lessons().get(script.name, ("", ""))
    text = script.read_bytes().decode("latin-1")
    return {"name": script.name, "script": text, "options": options, "title": title, "question": question}


def examples() -> list[dict[str, object]]:
    """The lessons in their order, and then the other examples."""
    files = {script.name: script for script in sorted((TOP / "examples").glob("*.vsm"))}
    names = [*lessons(), *(it for it in files if it not in lessons())]
    return [example(files[name]) for name in names if name in files]


def packed(module: Path) -> str:
    """A module, gzip'd and in base64. The time isn't put in, so that the same files make the same page."""
    return base64.b64encode(gzip.compress(module.read_bytes(), 9, mtime=0)).decode()


def bench_page(module: Path, explain: Path | None) -> str:
    """The page of the module of vsm and, if there is one, that of vsm-explain."""
    data = {
        "identity": identity_of(module),
        "explained": identity_of(explain) if explain else None,
        "wasm": packed(module),
        "worker": joined_script("bench-worker.js"),
        "explainer": joined_script("explain-worker.js"),
        "page": build_page(HERE / "view.html", "", {}),
        "examples": examples(),
    }
    # A module that is used only when something is explained isn't read with the other data.
    more = {"explain-module": packed(explain)} if explain else {}
    return build_page(HERE / "bench.html", "Nilbozad: a bench for z/OS virtual storage", {"data": data, **more})


def main(words: list[str]) -> int:
    if len(words) > 2 or any(word.startswith("-") for word in words):
        print(__doc__.strip())
        return 0 if words == ["--help"] else 16
    module = Path(words[0]) if words else TOP / "dist" / "vsm.wasm"
    explain = module.with_name("vsm-explain.wasm")
    page = Path(words[1]) if len(words) > 1 else TOP / "dist" / "bench.html"
    try:
        text = bench_page(module, explain if explain.is_file() else None)
        page.parent.mkdir(parents=True, exist_ok=True)
        page.write_text(text, encoding="utf-8")
    except OSError as fault:
        first = "" if words else "; run page/module first"
        print(f"page/bench.py: {fault.filename}: {fault.strerror}{first}", file=sys.stderr)
        return 1
    except KeyError as fault:
        print(f"page/bench.py: a module's file .json in {module.parent} lacks {fault}", file=sys.stderr)
        return 1
    except (BuildFault, ValueError) as fault:
        print(f"page/bench.py: the page can't be built: {fault}", file=sys.stderr)
        return 1
    print(f"{page}: {page.stat().st_size} bytes{'' if explain.is_file() else ', without vsm-explain'}")
    return 0


if __name__ == "__main__":
    sys.exit(main(sys.argv[1:]))
