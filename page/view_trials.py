"""Trials of the pages that tools/vsm-view makes: those of all examples, of odd scripts, and damaged ones."""
from __future__ import annotations

import base64
import gzip
import hashlib
import json
import random
import re
import subprocess
import sys
import tempfile
from collections.abc import Callable
from importlib import machinery, util
from pathlib import Path
from types import ModuleType

import colours
from bench import option_words
from chromium import Browser
from expected import Page, shown_line
from on_page import CARD, READY, STILL, TICKS, found_at, probed, try_drawings, try_page
from sight import try_sight
from trials import Programs, Trials
from vsmtools.lines import split_lines

HERE = Path(__file__).resolve().parent
TOP = HERE.parent
TOOL = TOP / "tools" / "vsm-view"
SENTENCE = "document.querySelector('.sentence')?.innerText ?? ''"
OUTPUT = re.compile(r'"output":"[^"]*"')
MADE_SECONDS = 300
LONG_BYTES = 2_000_000
LONG_SECONDS = 20  # to open the long page, next to other work

AGAIN = b"""\
 STORAGE OBTAIN,LENGTH=16,SP=1,ADDR=A
 STORAGE OBTAIN,LENGTH=16,SP=1,ADDR=B
 STORAGE OBTAIN,LENGTH=16,SP=1,ADDR=C
 STORAGE RELEASE,LENGTH=16,ADDR=A,SP=1
 STORAGE RELEASE,LENGTH=16,ADDR=B,SP=1
 STORAGE OBTAIN,LENGTH=32,SP=1
 BACK 2
 STORAGE OBTAIN,LENGTH=8,SP=1
 STORAGE OBTAIN,LENGTH=4096,SP=1,BNDRY=PAGE
 BACK 2
 FORWARD 1
 STORAGE OBTAIN,LENGTH=6000,SP=1,COND=YES
 STORAGE RELEASE,LENGTH=8,ADDR=C,SP=1
 STORAGE OBTAIN,LENGTH=8,SP=1
 GETMAIN RU,LV=5000,SP=2,LOC=31
 CPOOL BUILD,PCELLCT=9,CSIZE=200,CPID=CA,SP=2
 CPOOL BUILD,PCELLCT=50,CSIZE=100,CPID=CB,SP=2
 CPOOL GET,CPID=CB
 BACK 7
 FORWARD 2
"""
# The areas of the lines 1 to 4 end in four ways.
ENDS = b"""\
 STORAGE OBTAIN,LENGTH=16,SP=1,ADDR=A
 STORAGE OBTAIN,LENGTH=16,SP=1
 STORAGE OBTAIN,LENGTH=16,SP=2,ADDR=D
 STORAGE OBTAIN,LENGTH=16,SP=1
 BACK 1
 STORAGE RELEASE,LENGTH=8,ADDR=D,SP=2
 STORAGE RELEASE,LENGTH=16,ADDR=A,SP=1
"""
BY_A_GET = b"""\
 CPOOL BUILD,PCELLCT=1,SCELLCT=1,CSIZE=16,CPID=CP,SP=1
 STORAGE OBTAIN,LENGTH=8,SP=1
 STORAGE RELEASE,LENGTH=8,ADDR=X'6010',SP=1
 CPOOL GET,CPID=CP
 CPOOL GET,CPID=CP
"""
MANY_CELLS = 1000
CELLS = f" CPOOL BUILD,PCELLCT={MANY_CELLS},CSIZE=8,CPID=CP,SP=1\n".encode() + b" CPOOL GET,CPID=CP\n" * 3
ODD: dict[str, bytes] = {
    "an extent that a GET makes": BY_A_GET,
    "no line": b"",
    "one line": b" STORAGE OBTAIN,LENGTH=8",
    "only comments": b"* a\n*\n\n",
    "the end of an element": b"* </script><script>document.title = 'x'</script> <!-- ]]>\n MAP </script>\n",
    "bytes above 127": b"* \xc4\xe9\xff\x00\x07\x1b\x7f\r\n STORAGE OBTAIN,LENGTH=8,ADDR=P \xe4\r\n PEEK P,8\r\n",
    "ends within a statement": b" STORAGE OBTAIN,LENGTH=8\n STORAGE OBTAIN,".ljust(96) + b"X",
    "ends within remarks": b" STORAGE OBTAIN,LENGTH=8".ljust(71) + b"X\n",
    "areas that are granted again": AGAIN,
    "dropped lines": (
        b" STORAGE OBTAIN,".ljust(71) + b"X\nNO BLANKS".ljust(72) + b"X\n AND ONE MORE\n MAP\n"
    ),
}


def made(program: str, script: Path, page: Path, *options: str) -> Path:
    """The page that tools/vsm-view makes of a script."""
    words = [sys.executable, str(TOOL), "--vsm", program, *options, str(script)]
    done = subprocess.run(words, stdin=subprocess.DEVNULL, capture_output=True, timeout=MADE_SECONDS)
    if done.returncode:
        raise OSError(done.stderr.decode("utf-8", "replace").strip())
    page.write_bytes(done.stdout)
    return page


def try_odd(trials: Trials, browser: Browser, program: str, folder: Path) -> None:
    """Scripts that are hard to show, and a part of one."""
    for name, script in ODD.items():
        path = folder / f"{name}.vsm"
        path.write_bytes(script)
        page = made(program, path, folder / f"{name}.html")
        try_page(trials, browser, page, keys=name in ("no line", "one line"), looks=False)
        trials.equal("the title", browser.evaluate("document.title"), f"{name}.vsm · vsm")
        lines = [line.decode("latin-1") for line in split_lines(script)]
        shown = browser.evaluate("[...document.querySelectorAll('.line .text')].map(it => it.textContent)")
        wanted = [shown_line(line.rstrip()) for line in lines]
        trials.equal("the script's text", shown[: len(lines)], wanted)
        pictures = [[it, 1] for it in re.findall("[\u2400-\u2421]", "".join(wanted))]
        trials.equal("pictures as wide as a letter", browser.evaluate(probed("controls()")), pictures)
    path = TOP / "examples" / "cell-pools.vsm"
    part = made(program, path, folder / "a part.html", "--first", "8", "--last", "20")
    try_page(trials, browser, part, keys=False, looks=False)


def full_pages() -> bytes:
    """Pages that are wholly taken, by areas from the smallest to a page's."""
    sizes = ((4096, 1, 2), (8, 512, 1), (16, 256, 3), (32, 128, 4), (64, 64, 5))
    return b"".join(b" STORAGE OBTAIN,LENGTH=%d,SP=%d\n" % (length, number) * count for length, count, number in sizes)


def peak() -> bytes:
    """A long run with one high and narrow peak, which every third step doesn't meet."""
    pair = b" STORAGE OBTAIN,LENGTH=8,SP=1,ADDR=P\n STORAGE RELEASE,LENGTH=8,ADDR=P,SP=1\n"
    high = b" STORAGE OBTAIN,LENGTH=40960,SP=2,ADDR=BIG\n STORAGE RELEASE,LENGTH=40960,ADDR=BIG,SP=2\n"
    return pair * 302 + high + pair * 300


def continued() -> bytes:
    """Statements over several lines, with remarks, in a script that is higher than any window."""
    rows = ("STORAGE OBTAIN,", "LENGTH=64,             a remark that is here", "SP=3,", "ADDR=TABLE")
    lines = [f" {rows[0]}", *(f"{'':15}{it}" for it in rows[1:])]
    lines = [*(it.ljust(71) + "X" for it in lines[:-1]), lines[-1]]
    return ("\n".join(lines) + "\n").encode() * 20


def deep() -> bytes:
    """Tasks below tasks, of which the last makes the requests."""
    return b"".join(b" ATTACH EP=D%d\n RUN %d\n STORAGE OBTAIN,LENGTH=64,SP=1\n" % (k, k) for k in range(2, 40))


IN_SIGHT: dict[str, Callable[[], bytes]] = {
    "full pages": full_pages, "a peak": peak, "continued": continued, "deep": deep
}


def try_in_sight(trials: Trials, browser: Browser, program: str, folder: Path) -> None:
    """What is in sight of scripts that no lesson is like."""
    for name, script in IN_SIGHT.items():
        trials.subject = name
        path = folder / f"{name}.vsm"
        path.write_bytes(script())
        page = made(program, path, folder / f"{name}.html", "--low", "1024", "--history", "65536")
        browser.media(**STILL)
        browser.open(page.resolve().as_uri(), READY)
        browser.settle()
        try_sight(trials, browser, Page.of(page))
        trials.equal("no message of the console", browser.messages(), [])


def try_taken(trials: Trials, browser: Browser, script: Path, explain: str) -> None:
    """At the end of a lesson: what is still taken, by line, is what vsm-explain reports; and where it says that an area
    was released, the map has less of it."""
    words = [explain, "report", "--areas", "--json", *option_words(script), str(script)]
    told = subprocess.run(words, stdin=subprocess.DEVNULL, capture_output=True, timeout=MADE_SECONDS).stdout
    wanted: dict[str, int] = {}
    for row in map(json.loads, told.splitlines()):
        if row.get("kind") == "area":
            name = f"cell pool {row['pool']}" if "pool" in row else f"line {row['line']}"
            wanted[name] = wanted.get(name, 0) + row["bytes"]
    browser.evaluate(probed(f"at([{2 ** 20}])"))
    browser.settle()
    trials.equal("what is still taken, by line", browser.evaluate(probed("taken()")), wanted)


def try_found(trials: Trials, browser: Browser, script: Path, page: Page, explain: str) -> None:
    """At each step of a lesson, the card has what check finds there; ticks show where. Not in the teacher's mode."""
    words = [explain, "check", "--leaks", *option_words(script), str(script)]
    told = subprocess.run(words, stdin=subprocess.DEVNULL, capture_output=True, timeout=MADE_SECONDS).stdout.decode()
    begins = [page.line_of(it) for it in page.shown]
    wanted = found_at(told, begins)
    steps = list(range(1, page.steps + 1))
    found = browser.evaluate(probed(f"at({steps}, () => {CARD})"))
    trials.equal("what is found at each step", found, [wanted.get(it, []) for it in begins])
    trials.equal("ticks of what is found", browser.evaluate(TICKS), len(wanted))
    browser.evaluate("document.querySelector('.teacher').click()")
    browser.settle()
    trials.equal("in the teacher's mode nothing is found", browser.evaluate(f"[{CARD}, {TICKS}]"), [[], 0])
    browser.evaluate("document.querySelector('.teacher').click()")


def try_ends(trials: Trials, browser: Browser, page: Path) -> None:
    """What the card of an obtain says of its end."""
    ends = ("Released by line 7.", "Never released.", "Partly released by line 6.", "Undone by line 5.")
    for step, text in enumerate(ends, 1):
        browser.open(f"{page.resolve().as_uri()}#{step}", READY)
        end = "document.querySelector('.said .end')?.textContent"
        for _ in range(100):
            if browser.evaluate(end):
                break
            browser.settle()
        trials.equal(f"the end of the area of line {step}", browser.evaluate(end), f" {text}")


def try_cells(trials: Trials, browser: Browser, page: Path) -> None:
    """A cell pool's drawing has each cell, and a step draws only those near a changed one anew."""
    browser.open(f"{page.resolve().as_uri()}#2", READY)
    browser.settle()
    drawn = probed("cells()")
    trials.equal("the cells after a GET", browser.evaluate(drawn)[:3], [1, MANY_CELLS - 2, 1])
    browser.evaluate("window.before = new Set(document.querySelectorAll('.extent g'))")
    browser.key("ArrowRight")
    *kinds, fresh, all_of = browser.evaluate(drawn)
    trials.equal("and after another one", kinds, [2, MANY_CELLS - 3, 1])
    trials.want("few cells are drawn anew", fresh == 1 and all_of > 4, (fresh, all_of))


def damaged(text: str) -> dict[str, str]:
    """A page, damaged in several ways."""

    def with_output(output: str) -> str:
        return OUTPUT.sub(f'"output":"{output}"', text, count=1)

    def packed(output: bytes) -> str:
        return with_output(base64.b64encode(gzip.compress(output)).decode())

    return {
        "no data": re.sub(r'(id="data">).*?(</script>)', r"\1\2", text, count=1, flags=re.DOTALL),
        "no gzip": with_output("AAAA"),
        "no base64": with_output("?"),
        "no map": packed(b"hello\n"),
        "half a map": packed(b"0000001 MAP\n TASK 1 PARENT 0 CURRENT\n  R0 00000000\n WHAT\n"),
    }


def try_damaged(trials: Trials, browser: Browser, page: Path, folder: Path) -> None:
    """A sentence, and never an empty page."""
    for name, text in damaged(page.read_text(encoding="utf-8")).items():
        trials.subject = f"a page with {name}"
        path = folder / f"{name}.html"
        path.write_text(text, encoding="utf-8")
        browser.open(path.resolve().as_uri(), READY)
        said = browser.evaluate(SENTENCE)
        alone = browser.evaluate("document.querySelector('.stage') === null")
        trials.want(
            "a sentence says so", alone and said.startswith(("This page is", "What vsm printed")), said
        )
        trials.equal("no message of the console", browser.messages(), [])


def try_lacks(trials: Trials, browser: Browser, page: Path) -> None:
    """In a browser that lacks something needed, a sentence is shown."""
    address = page.resolve().as_uri()
    lacks = {
        "DecompressionStream": "delete window.DecompressionStream",
        "light-dark()": "CSS.supports = () => false",
    }
    for lack, source in lacks.items():
        trials.subject = f"a browser without {lack}"
        added = browser.call("Page.addScriptToEvaluateOnNewDocument", source=source)["identifier"]
        browser.open(address, READY)
        trials.want("a sentence says so", lack in browser.evaluate(SENTENCE), browser.evaluate(SENTENCE))
        browser.call("Page.removeScriptToEvaluateOnNewDocument", identifier=added)
    trials.subject = "a browser without scripts"
    browser.call("Emulation.setScriptExecutionDisabled", value=True)
    browser.open(address, "document.querySelector('.sentence')")
    trials.want("a sentence says so", "JavaScript" in browser.evaluate(SENTENCE))
    browser.call("Emulation.setScriptExecutionDisabled", value=False)


def walks() -> ModuleType:
    """The module tests/walks, which makes scripts."""
    loader = machinery.SourceFileLoader("walks", str(TOP / "tests" / "walks"))
    spec = util.spec_from_loader("walks", loader)
    if not spec:
        raise OSError("tests/walks can't be read")
    module = util.module_from_spec(spec)
    loader.exec_module(module)
    return module


def try_long(trials: Trials, browser: Browser, program: str, folder: Path) -> None:
    """10,000 statements of the walks' kind: small enough, and opened soon."""
    trials.subject = "10,000 statements"
    source = walks()
    lines = [line for seed in (1, 2) for line in source.statements(random.Random(seed))]
    script = folder / "long.vsm"
    script.write_text("\n".join(lines) + "\n")
    page = made(program, script, folder / "long.html", *source.OPTIONS)
    size = page.stat().st_size
    trials.want(f"the page has at most {LONG_BYTES} bytes", size <= LONG_BYTES, size)
    took = browser.open(page.resolve().as_uri(), READY)
    print(f"10,000 statements: {size} bytes, opened in {took:.1f} seconds", flush=True)
    trials.want("it opens soon", took < LONG_SECONDS, took)
    found = Page.of(page)
    trials.equal("the number of statements", found.steps, len(lines))
    try_drawings(trials, browser, found)
    trials.equal("no message of the console", browser.messages(), [])


def try_palette(trials: Trials) -> None:
    """The eight colours of subpools are as the style says."""
    trials.subject = "view.css"
    style = (HERE / "view.css").read_text(encoding="utf-8")
    pairs = re.findall(r"--c\d: light-dark\((#\w{6}), (#\w{6})\);", style)
    trials.equal("the number of colours", len(pairs), 8)
    grounds = re.findall(r"--ground: light-dark\((#\w{6}), (#\w{6})\);", style)
    tones = [re.findall(rf"--{name}: light-dark\((#\w{{6}}), (#\w{{6}})\);", style)[0] for name in ("ink", "panel")]
    for scheme, own, *frame in zip(("light", "dark"), zip(*pairs), *tones):
        least = min(max(colours.contrast(tone, it) for tone in frame) for it in own)
        trials.want(f"{scheme}: on each colour one tone of the frame has a contrast of 3", least >= 3, least)
    for scheme, own, ground in zip(("light", "dark"), zip(*pairs), grounds[0]):
        for sight in colours.SIGHTS:
            least = colours.least_distance(list(own), sight)
            trials.want(f"{scheme}: 30 apart in {sight} sight", round(least) >= 30, least)
        trials.want(f"{scheme}: contrast to the ground", min(colours.contrast(it, ground) for it in own) >= 3)


def try_all(trials: Trials, browser: Browser, programs: Programs) -> None:
    """The pages of all examples, of odd scripts, and of a long one."""
    program = programs.vsm
    try_palette(trials)
    with tempfile.TemporaryDirectory(prefix="page-check-") as name:
        folder = Path(name)
        scripts = sorted((TOP / "examples").glob("*.vsm"))
        pages = [made(program, script, folder / f"{script.stem}.html", *option_words(script)) for script in scripts]
        for page, script in zip(pages, scripts):
            try_page(trials, browser, page)
            try_taken(trials, browser, script, programs.explain)
            try_found(trials, browser, script, Page.of(page), programs.explain)
            try_sight(trials, browser, Page.of(page))
        script = folder / "ends.vsm"
        script.write_bytes(ENDS)
        trials.subject = script.name
        try_ends(trials, browser, made(program, script, folder / "ends.html"))
        script = folder / "cells.vsm"
        script.write_bytes(CELLS)
        trials.subject = script.name
        try_cells(trials, browser, made(program, script, folder / "cells.html"))
        made_by, told = hashlib.sha256(Path(program).read_bytes()).hexdigest(), Page.of(pages[0]).data["program"]
        is_proved = subprocess.run([TOP / "prove", "--check", program]).returncode == 0 and "unproved" not in program
        trials.want("the foot says by its sum whether the program is proved",
                    made_by in told and told.startswith("Made by the proved program") == is_proved, told)
        try_odd(trials, browser, program, folder)
        try_in_sight(trials, browser, program, folder)
        try_damaged(trials, browser, pages[0], folder)
        try_lacks(trials, browser, pages[0])
        try_long(trials, browser, program, folder)
