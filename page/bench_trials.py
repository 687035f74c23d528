#!/usr/bin/env python3
"""Trials of the program's module in node, and of the bench in headless Chromium. page/check runs them.

Usage: page/bench_trials.py [MODULE.wasm]
    only these; by default of dist/vsm.wasm. The last line is 'N passed, M failed'.

In node the module has to print what each row of tests/rows, script of conformance and example says, byte for byte,
with status and standard error; it reads scripts whole, as a file, and byte by byte. In the browser the bench has to
show the same for each example, and to do what docs/BENCH-IN-A-BROWSER.md says.
"""
from __future__ import annotations

import base64
import gzip
import hashlib
import json
import os
import re
import select
import shutil
import subprocess
import sys
import tempfile
import time
import zlib
from importlib.machinery import SourceFileLoader
from pathlib import Path
from types import ModuleType
from typing import Any, Callable, Sequence

sys.dont_write_bytecode = True
HERE = Path(__file__).resolve().parent
TOP = HERE.parent
sys.path[:0] = [str(HERE), str(TOP / "tools"), str(TOP / "tests" / "rows")]

import bench  # noqa: E402
from build import BuildFault, joined_script  # noqa: E402
from chromium import Browser, BrowserFault, installed  # noqa: E402
from on_page import probed  # noqa: E402
from trials import Programs, Trials  # noqa: E402

MODULE = TOP / "dist" / "vsm.wasm"
BUILT = TOP / "crates" / "vsm" / "out" / "vsm"
SECONDS = 60
WORKER_SECONDS = 15  # until a busy worker has ended
ENDLESS_BYTES = 1 << 22  # of an endless row, far more than the program reads of it
NOT_READ = b" BACK 0\n"
LACKS = ("WebAssembly", "DecompressionStream", "CompressionStream", "Worker")


def encoded(data: bytes) -> str:
    return base64.b64encode(data).decode()


class Node:
    """A module in one process of node, which runs one job after another."""

    def __init__(self, module: Path, folder: Path, name: str = "vsm") -> None:
        self.module, self.folder = module, folder
        program = installed("nodejs", ("node", "nodejs"))
        script = folder / "serve.mjs"
        script.write_text(joined_script("module-serve.js"), encoding="utf-8")
        words = [program, script, module, name]
        self.child = subprocess.Popen(words, stdin=subprocess.PIPE, stdout=subprocess.PIPE)
        self.held = b""

    def close(self) -> None:
        self.child.kill()
        self.child.communicate()

    def line(self) -> bytes:
        assert self.child.stdout
        end = time.monotonic() + SECONDS
        while b"\n" not in self.held:
            if not select.select([self.child.stdout], [], [], max(0.0, end - time.monotonic()))[0]:
                raise OSError(f"no end within {SECONDS} seconds")
            got = os.read(self.child.stdout.fileno(), 1 << 20)
            if not got:
                raise OSError("node ended")
            self.held += got
        line, _, self.held = self.held.partition(b"\n")
        return line

    def run(self, words: Sequence[str], script: bytes, files: dict[str, bytes], slowly: bool = False) -> dict[str, Any]:
        """Status, output and errors of a run, and the number of bytes read of the script."""
        job = {"words": [encoded(word.encode()) for word in words], "script": encoded(script), "slowly": slowly,
               "files": {name: encoded(data) for name, data in files.items()}}
        assert self.child.stdin
        self.child.stdin.write(json.dumps(job).encode() + b"\n")
        self.child.stdin.flush()
        told = json.loads(self.line())
        if "fault" in told:
            raise OSError(told["fault"])
        return {**told, "output": base64.b64decode(told["output"]), "errors": base64.b64decode(told["errors"])}


def rows_check() -> ModuleType:
    """The check of tests/rows, whose rows and judgement are used here."""
    path = TOP / "tests" / "rows" / "check"
    loader = SourceFileLoader("rows_check", str(path))
    module = ModuleType(loader.name)
    module.__file__ = str(path)
    loader.exec_module(module)
    return module


def script_of(row: Any) -> bytes:
    if not row.is_endless:
        return b"".join(row.script)
    pieces, taken = [], 0
    for piece in row.script:
        pieces.append(piece)
        taken += len(piece)
        if taken >= ENDLESS_BYTES:
            break
    return b"".join(pieces)


def run_row(node: Node, row: Any, way: str) -> dict[str, Any]:
    """Runs a row in one of the ways of tests/rows/check."""
    script = script_of(row)
    if "file" in way:
        return node.run([*row.options, "script"], NOT_READ, {"script": script})
    files = {} if row.file is None else {"script": row.file, "--low": row.file}
    told = node.run(row.options, script, files, "byte" in way)
    if row.is_endless and told["read"] >= len(script):
        raise OSError("a script without an end was read on and on")
    return told


def try_rows(node: Node, trials: Trials) -> None:
    rows = rows_check()
    for row in rows.stored_rows() + rows.made_rows():
        for way, _ in rows.ways(row):
            try:
                told = run_row(node, row, way)
                rows.judge(row, told["output"], told["errors"], told["status"])
                trials.want(row.name, True)
            except (rows.Failure, OSError) as fault:
                trials.want(f"the module at row {row.name}{way}", False, fault)


def examples() -> list[tuple[Path, bytes, bytes, int]]:
    """Place, script, output and status of each example."""
    found = []
    for script in sorted((TOP / "examples").glob("*.vsm")):
        output = script.with_suffix(".out").read_bytes()
        refused = any(line[8:].startswith((b"FAULT ", b"REFUSED ", b"ABEND ")) for line in output.split(b"\n"))
        found.append((script, script.read_bytes(), output, 4 if refused else 0))
    return found


def try_examples(node: Node, trials: Trials) -> None:
    for path, script, output, status in examples():
        told = node.run(bench.option_words(path), script, {})
        trials.want(f"the module at example {path.name}",
            (told["output"], told["errors"], told["status"]) == (output, b"", status), told)


class BenchPage:
    """The bench in a browser, used as by a person."""

    def __init__(self, browser: Browser, path: Path) -> None:
        self.browser, self.address = browser, path.as_uri()

    def open(self, link: str = "", ready: str = "") -> None:
        done = (
            "document.getElementById('result')?.getAttribute('aria-busy') === 'false' && "
            "document.getElementById('status').textContent"
        )
        self.browser.open(self.address + link, ready or done)
        self.browser.settle()

    def js(self, text: str) -> Any:
        return self.browser.evaluate(text)

    def text(self, element: str) -> str:
        return self.js(f"document.getElementById('{element}').textContent")

    def click(self, element: str) -> None:
        self.js(f"document.getElementById('{element}').click()")
        self.browser.settle()

    def put(self, element: str, value: str, event: str = "input") -> None:
        """Sets a field's value, as if typed."""
        told = f"it.value = {json.dumps(value)}; it.dispatchEvent(new Event('{event}', {{ bubbles: true }}));"
        self.js(f"(it => {{ {told} }})(document.getElementById('{element}'))")

    def wait(self, expression: str, seconds: float = SECONDS) -> bool:
        end = time.monotonic() + seconds
        while not self.js(f"Boolean({expression})"):
            if time.monotonic() > end:
                return False
            time.sleep(0.05)
        self.browser.settle()
        return True

    def ended(self, seconds: float = SECONDS) -> bool:
        return self.wait("document.getElementById('result').getAttribute('aria-busy') === 'false'", seconds)

    def run(self, script: bytes, **options: str) -> None:
        for name in ("low", "high", "residence", "history"):
            self.put(name, options.get(name, ""))
        self.put("script", script.decode("latin-1"))
        self.click("run")
        self.ended()

    def output(self) -> bytes:
        """The output that the page shows."""
        text = self.js("document.querySelector('#output .text')?.textContent ?? ''")
        return b"" if text == "No output." else text.encode("latin-1")

    def status(self) -> int:
        words = self.text("status").split()
        return int(words[2]) if words[:2] == ["Exit", "status"] else -1

    def forget(self) -> None:
        self.js("localStorage.clear()")


def try_opening(page: BenchPage, trials: Trials) -> None:
    page.open()
    identity = json.loads(page.js("document.getElementById('data').textContent"))["identity"]
    shown = page.text("identity")
    trials.want("the page says commit and kit", identity["commit"][:12] in shown and identity["kit"] in shown, shown)
    trials.want("each control has a role and a name", not [it for it in page.browser.controls() if not all(it)],
        page.browser.controls())
    for name in ("low", "script", "run", "stop", "open", "copy", "teacher", "help", "examples", "save-script",
        "tab-output"):
        trials.want(f"the control {name} exists", page.js(f"Boolean(document.getElementById('{name}'))"))


# Texts, and frames of controls, whose contrast is too low.
FRAMED = ".mine :is(button, select, input):enabled:not([role=tab], .chief)"
PALE = probed(f"pale(document.getElementById('bench'), '{FRAMED}')")


def try_foot(page: BenchPage, node: Node, trials: Trials) -> None:
    """The foot says by the sum whether the module is the one that page/module made of a proved program."""
    found = hashlib.sha256(node.module.read_bytes()).hexdigest()
    proved = page.text("identity").startswith("The program vsm, proved at commit ")
    trials.want("the foot has the module's sum", proved and found in page.text("identity"), page.text("identity"))
    other = node.folder / "other.wasm"
    other.write_bytes(node.module.read_bytes() + b"\0")
    shutil.copy(node.module.with_suffix(".json"), other.with_suffix(".json"))
    line = bench.identity_of(other)["line"]
    trials.want("of another module it says no such thing", str(line).startswith("A program that isn't known"), line)


def try_looks(page: BenchPage, trials: Trials) -> None:
    """Contrast, light and dark, of the bench as it opens, with an error, with its output, and with its help."""
    states = {"as it opens": "0", "with its output": "document.getElementById('tab-output').click()",
              "with its help": "document.getElementById('help').click()"}
    for scheme in ("light", "dark"):
        page.browser.media(prefers_color_scheme=scheme)
        page.open()
        for what, act in states.items():
            page.js(act)
            time.sleep(0.4)
            found = page.js(PALE)
            trials.want(f"the contrast {what}, {scheme}", not found, found)
            trials.equal(f"letters that don't follow the browser's, {what}", page.js(probed("letters()")), [])
        trials.want("the help shows the program's own",
            page.wait("document.querySelector('#note pre').textContent.includes('--residence <MODE>')", 10))
        page.js("document.getElementById('note').close()")
        page.run(b" MAP\n", low="x")
        found = page.js(PALE)
        trials.want(f"the contrast with an error, {scheme}", not found, found)
        page.forget()
    page.browser.media()
    for width in (420, 900, 1440):
        page.browser.size(width, 900)
        page.browser.settle()
        trials.want(f"{width} pixels hold the page's width",
            page.js("document.documentElement.scrollWidth <= innerWidth"),
            page.js("document.documentElement.scrollWidth"))


def try_each_example(page: BenchPage, trials: Trials) -> None:
    for path, _, output, status in examples():
        name = path.name
        page.put("examples", name, "change")
        page.ended()
        trials.want(f"the page gives example {name}",
            (page.output(), page.status(), page.text("errors")) == (output, status, ""), page.text("status"))
        last = [line[8:].decode() for line in output.split(b"\n") if line and line[:1] != b" "][-1]
        shown = page.wait(f"document.querySelector('#picture .said strong')?.textContent === {json.dumps(last)}", 10)
        trials.want(f"the picture of example {name} shows the last reply", shown, last)
    trials.want("no request leaves the page",
        not [it for it in page.browser.requests() if not it.startswith((page.address, "blob:null/"))],
        page.browser.requests())
    trials.want("nothing is said on the console", not page.browser.messages(), page.browser.messages())


ODD_SCRIPTS = {
    "with the end of a script element": b"* </script><!-- &amp;\n STORAGE OBTAIN,LENGTH=8     </script>\n",
    "with bytes above 127": b"* \xe4\xff\x80\x9f\xa0\n STORAGE OBTAIN,LENGTH=8     \x80\xff\n",
    "that ends within a statement": b" STORAGE OBTAIN,LENGTH=8\n STORAGE OBTAIN,LENGTH=8,".ljust(96) + b"X",
    "of no line": b"",
    "of one line without an end": b" MAP",
    "of blank lines": b"\n\n\n",
}


def try_odd_scripts(page: BenchPage, node: Node, trials: Trials) -> None:
    for what, script in ODD_SCRIPTS.items():
        page.run(script)
        told = node.run([], script, {})
        trials.want(f"a script {what}", (page.output(), page.status()) == (told["output"], told["status"]),
            page.text("status"))
    trials.want("odd scripts say nothing on the console", not page.browser.messages(), page.browser.messages())


def try_command_line(page: BenchPage, node: Node, trials: Trials) -> None:
    wrong = [("low", "6", "Low K is a number from 4 to 16360, a multiple of 4."), ("low", "x", "Low K"),
        ("low", "-4", "Low K"),
             ("high", "65", "High K is a number from 4 to 1572864, a multiple of 4."), ("high", "4294967296", "High K"),
             ("history", "0", "History is a number from 1 to 65536.")]
    for name, value, why in wrong:
        page.run(b" MAP\n", **{name: value})
        said = [page.text(it) for it in ("errors", "wrong", "status")]
        trials.want(f"the option {name} {value} is refused with a sentence",
            said[0].startswith(why) and said[1:] == [said[0], "No run"], said)
        trials.equal("its field is marked",
            page.js("[...document.querySelectorAll('[aria-invalid=true]')].map(it => it.id)"), [name])
        trials.want("vsm refuses it too", node.run([f"--{name}={value}"], b" MAP\n", {})["status"] == 16)
    for name, value in (("low", "+16"), ("low", "16360"), ("high", "1572864"), ("history", "65536")):
        page.run(b" BACK 0\n", **{name: value})
        trials.want(f"the option {name} {value} is taken", page.output() == b"0000001 KEPT=0\n",
            (page.text("errors"), page.text("status")))
    page.run(b" STORAGE OBTAIN,LENGTH=8\n", low="8", high="8", residence="31", history="3")
    told = node.run("--low 8 --high 8 --residence 31 --history 3".split(), b" STORAGE OBTAIN,LENGTH=8\n", {})
    trials.want("all options together", (page.output(), page.text("errors")) == (told["output"], ""), page.output())


def try_keys(page: BenchPage, trials: Trials) -> None:
    page.put("script", " BACK 0\n")
    page.js("document.getElementById('script').focus()")
    page.browser.key("Enter", modifiers=2)
    page.ended()
    trials.want("Ctrl+Enter runs the script", page.output() == b"0000001 KEPT=0\n", page.output())
    page.js("document.getElementById('tab-picture').click(); document.getElementById('tab-picture').focus()")
    page.browser.key("ArrowRight")
    trials.want("an arrow turns to the other tab",
        page.js("!document.getElementById('output').hidden && document.activeElement.id === 'tab-output'"))
    page.browser.key("ArrowLeft")
    page.click("fold")
    trials.want("the editor can be hidden", page.js("document.getElementById('form').offsetParent === null"))
    page.click("unfold")
    trials.want("and shown again", page.js("document.getElementById('form').offsetParent !== null"))


def long_script() -> bytes:
    """A script whose maps take far longer than a check waits."""
    return b"".join(b" STORAGE OBTAIN,LENGTH=4096,SP=%d\n" % (n % 100 + 1) for n in range(4000))


def attach(page: BenchPage, is_on: bool) -> None:
    """Has the browser report workers, or no longer."""
    page.browser.call("Target.setAutoAttach", autoAttach=is_on, waitForDebuggerOnStart=False, flatten=True)


def workers(page: BenchPage) -> int:
    """The number of workers, of those that were started since the browser attaches to them."""
    page.js("0")
    kinds = [it["method"] for it in page.browser.events]
    return kinds.count("Target.attachedToTarget") - kinds.count("Target.detachedFromTarget")


def try_stop(page: BenchPage, trials: Trials) -> None:
    page.open()
    attach(page, True)
    page.put("high", "1048576")
    page.put("low", "16000")
    page.put("script", long_script().decode())
    page.click("run")
    trials.want("a run shows its progress", page.wait("/\\d%/.test(document.getElementById('far').textContent)"),
        page.text("far"))
    trials.want("Stop can be pressed while it runs",
        page.js("!document.getElementById('stop').disabled && !document.getElementById('progress').hidden"))
    page.click("stop")
    trials.want("Stop ends a run", page.ended(2) and page.text("status").startswith("Stopped"), page.text("status"))
    end = time.monotonic() + WORKER_SECONDS
    while workers(page) and time.monotonic() < end:
        time.sleep(0.1)
    trials.equal("workers that are left", workers(page), 0)
    attach(page, False)
    page.run(b" BACK 0\n")
    trials.want("after a stopped run the next one runs", page.output() == b"0000001 KEPT=0\n", page.text("status"))


def try_link(page: BenchPage, trials: Trials) -> None:
    script = ODD_SCRIPTS["with bytes above 127"] + ODD_SCRIPTS["with the end of a script element"] + b" BACK 1"
    page.run(script, low="8", residence="31", history="7")
    page.wait("location.hash.length > 20")
    link = page.js("location.hash")
    page.forget()
    page.open(link)
    held = page.js("['script', 'low', 'high', 'residence', 'history'].map(it => document.getElementById(it).value)")
    trials.want("a link brings script and options back", held == [script.decode("latin-1"), "8", "", "31", "7"], held)
    page.open(link.replace("residence=31", "residence=99"))
    trials.want("a residence that doesn't exist is refused in words", page.text("errors") == "Residence is 24 or 31.",
        page.text("errors"))
    packed = zlib.compress(b"\n" * 1_000_000, 9, -zlib.MAX_WBITS)
    page.open("#script=" + base64.urlsafe_b64encode(packed).decode().rstrip("="))
    trials.want("a link's script of a million lines is refused with a message",
        page.js("document.getElementById('note').open") and "1,000,000 lines" in page.text("note"), page.text("note"))
    bomb = zlib.compress(b"\n" * 100_000_000, 9, -zlib.MAX_WBITS)
    start = time.monotonic()
    page.open("#script=" + base64.urlsafe_b64encode(bomb).decode().rstrip("="))
    trials.want("a link that is too long isn't unpacked",
        page.js("document.getElementById('note').open") and time.monotonic() - start < 20, time.monotonic() - start)
    page.open("#script="
        + base64.urlsafe_b64encode(zlib.compress(b"\n" * 20_000_000, 9, -zlib.MAX_WBITS)).decode().rstrip("="))
    trials.want("one that unpacks to too much is refused with a message",
        page.js("document.getElementById('note').open") and "lines" in page.text("note"), page.text("note"))
    page.open("#script=" + "A" * 40)
    trials.want("a link that can't be read is said",
        page.js("document.getElementById('note').open") and "can’t be read" in page.text("note"), page.text("note"))
    page.open("#script=%FF%00!")
    trials.want("so is one of other characters",
        page.js("document.getElementById('note').open") and page.text("status") != "", page.text("note"))


OWN = """Object.entries(localStorage).filter(([key]) => key.startsWith('nilbozad.own ')).map(([, it]) => JSON.parse(it))
  .sort((a, b) => b.at - a.at)"""
SCRIPT = "document.getElementById('script').value"


def reload(page: BenchPage) -> None:
    page.wait("document.getElementById('kept').textContent.startsWith('Kept')")
    page.js("window.isOld = true")
    page.browser.call("Page.reload")
    page.wait("!window.isOld && document.getElementById('status')?.textContent && "
        "document.getElementById('result').getAttribute('aria-busy') === 'false'")


def kept_soon(page: BenchPage, script: str) -> bool:
    """Whether the newest entry becomes this script."""
    return page.wait(f"({OWN})[0]?.script === {json.dumps(script)}", 10)


def try_keeping(page: BenchPage, trials: Trials) -> None:
    page.open()
    page.put("script", "* kept\n BACK 0\n")
    page.put("high", "96")
    page.wait("document.getElementById('kept').textContent.startsWith('Kept in this browser')")
    page.wait(f"({OWN})[0].options.high === '96'")
    page.open()
    held = page.js("['script', 'high'].map(it => document.getElementById(it).value)")
    trials.want("the browser keeps script and options", held == ["* kept\n BACK 0\n", "96"], held)
    page.put("examples", "overlay.vsm", "change")
    page.ended()
    page.open()
    trials.want("choosing a lesson loses no script of one's own", page.js(SCRIPT).startswith("* kept"))
    page.open("#script="
        + base64.urlsafe_b64encode(zlib.compress(b" MAP  theirs", 9, -zlib.MAX_WBITS)).decode().rstrip("="))
    trials.equal("a link is followed", page.js(SCRIPT), " MAP  theirs")
    page.open()
    trials.want("a link replaces none", page.js(SCRIPT).startswith("* kept"))
    try_entries(page, trials)
    try_windows(page, trials)
    page.forget()
    for text in ('[{"script":7}, null]', "{", "7"):
        page.js(f"localStorage.setItem('nilbozad.own', {json.dumps(text)}); "
            f"localStorage.setItem('nilbozad.own 5', {json.dumps(text)})")
        page.open()
        trials.want("if what was kept is no script, the first example is shown",
            page.js("document.getElementById('examples').value") == "first-steps.vsm")
    page.forget()


def try_entries(page: BenchPage, trials: Trials) -> None:
    """An edited lesson keeps its entry over reloads; entries have names, and can be deleted and saved."""
    page.forget()
    page.open()
    page.put("script", " STORAGE OBTAIN,LENGTH=40,SP=9   my important work\n")
    page.ended()
    page.wait(f"({OWN}).length === 1")
    page.put("examples", "fragmentation.vsm", "change")
    page.ended()
    for k in range(12):
        page.put("script", page.js(SCRIPT) + "*")
        kept_soon(page, page.js(SCRIPT))
        reload(page)
    names = page.js(f"({OWN}).map(it => it.name)")
    wanted = ["my-fragmentation.vsm", "my-first-steps.vsm"]
    trials.equal("after 12 reloads, each with an edit, two entries", names, wanted)
    trials.want("the first is as it was", "important" in page.js(f"({OWN})[1]?.script ?? ''"))
    page.click("own")
    rows = "document.querySelectorAll('#note .own li')"
    named = "it.value = 'leak 3'; it.dispatchEvent(new Event('change'));"
    page.js(f"(it => {{ {named} }})({rows}[0].querySelector('input'))")
    trials.equal("a name can be given", page.js(f"({OWN})[0].name"), "leak 3")
    page.js(f"{rows}[1].querySelector('button:last-of-type').click()")
    trials.equal("an entry can be deleted", page.js(f"({OWN}).map(it => it.name)"), ["leak 3"])
    page.js(f"{rows}[1].querySelector('button:last-of-type').click()")
    trials.equal("and had back", len(page.js(OWN)), 2)
    page.js("document.getElementById('note').close()")
    page.forget()
    page.js("""Array.from({ length: 30 }, (_, k) => localStorage.setItem(`nilbozad.own ${k}`, JSON.stringify(
        { script: ` MAP ${k}`, name: `n${k}`, at: 1000 + k })))""")
    page.put("examples", "overlay.vsm", "change")
    page.ended()
    page.put("script", " MAP  one too many")
    said = page.wait("!document.getElementById('room').hidden", 10) and page.text("kept") + page.text("room")
    trials.want("the thirty-first isn't kept without a word", "30 scripts" in str(said) and "n0" in str(said), said)
    trials.equal("and drops none", len(page.js(OWN)), 30)
    page.click("room")
    page.wait(f"({OWN})[0].script === ' MAP  one too many'", 10)
    trials.want("the oldest is deleted on request",
        page.js(f"({OWN}).length === 30 && !({OWN}).some(it => it.name === 'n0')"))


def in_front(page: BenchPage, session: str) -> None:
    page.browser.session = session
    page.browser.call("Page.bringToFront")


def try_windows(page: BenchPage, trials: Trials) -> None:
    """Two windows with the same script: each keeps its own edits, and says so truly."""
    page.forget()
    page.open()
    page.put("script", " MAP  begun\n")
    kept_soon(page, " MAP  begun\n")
    page.open()
    first = page.browser.session or ""
    target = page.browser.call("Target.createTarget", url=page.address)["targetId"]
    second = page.browser.call("Target.attachToTarget", targetId=target, flatten=True)["sessionId"]
    in_front(page, second)
    page.wait("document.getElementById('status')?.textContent")
    in_front(page, first)
    long = "* 3,000 lines\n" * 3000
    page.put("script", long)
    kept_soon(page, long)
    in_front(page, second)
    page.put("script", " MAP  one line\n")
    kept_soon(page, " MAP  one line\n")
    said = page.text("kept")
    in_front(page, first)
    trials.equal("two windows keep two scripts", page.js(f"({OWN}).map(it => it.script)"), [" MAP  one line\n", long])
    trials.want("the second says that it's another entry", "Another window" in said, said)
    trials.want("the first still says truly that it's kept", page.text("kept").startswith("Kept in this browser"))
    reload(page)
    trials.equal("and has its own after a reload", page.js(SCRIPT), long)
    page.browser.call("Target.closeTarget", targetId=target)


def try_paste(page: BenchPage, trials: Trials) -> None:
    """A paste that is too long is refused before the editor holds it."""
    before = page.js(SCRIPT)
    for lines, is_refused in ((100_000, True), (1000, False)):
        page.js(f"""(it => {{
            it.focus();
            const data = new DataTransfer();
            data.setData('text/plain', '* a pasted line\\n'.repeat({lines}));
            window.isPrevented = !it.dispatchEvent(new ClipboardEvent('paste',
                {{ clipboardData: data, bubbles: true, cancelable: true }}));
        }})(document.getElementById('script'))""")
        said = page.js("document.getElementById('note').open") and page.text("note-text")
        trials.equal(f"a paste of {lines} lines is refused", page.js("window.isPrevented"), is_refused)
        trials.want("and said so", bool(said) == is_refused and (not is_refused or "lines" in said), said)
        trials.want("the script stays", page.js(SCRIPT) == before)
        page.js("document.getElementById('note').close()")


def try_limits(page: BenchPage, trials: Trials) -> None:
    page.run(b"".join(b"* %x\n" % (n * n * 0x9e3779b97f4a7c15 % (1 << 89)) for n in range(3000)))
    trials.want("that a script is too long for the address is said",
        page.wait("document.getElementById('kept').textContent.includes('too long')", 10), page.text("kept"))
    trials.want("and the address holds none of it", page.js("location.hash.length") < 2)
    page.click("copy")
    trials.want("Copy link says it too",
        page.wait("document.getElementById('note').open", 10) and "too long" in page.text("note"), page.text("note"))
    page.js("document.getElementById('note').close()")
    try_paste(page, trials)
    page.put("script", " BACK 0\n* 12 €\n")
    page.click("run")
    trials.want("a character that isn't a byte is refused with its place", "line 2, column 6" in page.text("errors"),
        page.text("errors"))
    page.put("script", " BACK 0\n")
    page.click("run")
    page.ended()
    trials.want("and nothing of that stays", page.output() == b"0000001 KEPT=0\n" and not page.text("errors"))


# The width of a column of the editor.
WIDE = """(() => {
  const context = document.createElement('canvas').getContext('2d');
  context.font = getComputedStyle(document.getElementById('script')).font;
  return context.measureText('0'.repeat(100)).width / 100;
})()"""
OPENED = {"crlf.vsm": b" MAP\r\n BACK 0\r\n", "high.vsm": b"* \xe4\x80\n BACK 0", "low.vsm": b"*! --low 32\n MAP\n"}
REFUSED = {"return.vsm": (b" MAP\n BACK\r 0\n", "line 2, column 6"), "last.vsm": (b" MAP\r", "line 1, column 5"),
    "many.vsm": (b"\n" * 1_000_000, "1,000,000 lines")}


def try_files(page: BenchPage, folder: Path, trials: Trials) -> None:
    """Opened files: the text that the editor then has, or why it has none."""
    page.put("script", "* before\n")
    document = page.browser.call("DOM.getDocument")["root"]["nodeId"]
    field = page.browser.call("DOM.querySelector", nodeId=document, selector="#file")["nodeId"]

    def opened(name: str, data: bytes) -> None:
        (folder / name).write_bytes(data)
        page.browser.call("DOM.setFileInputFiles", files=[str(folder / name)], nodeId=field)

    for name, (data, why) in REFUSED.items():
        opened(name, data)
        said = page.wait("document.getElementById('note').open", 20) and page.text("note-text")
        trials.want(f"the file {name} isn't opened", name in str(said) and why in str(said), said)
        trials.equal("the script stays", page.js("document.getElementById('script').value"), "* before\n")
        page.js("document.getElementById('note').close()")
    for name, data in OPENED.items():
        opened(name, data)
        wanted = data.decode("latin-1").replace("\r\n", "\n")
        trials.want(f"the file {name} is opened",
            page.wait(f"document.getElementById('script').value === {json.dumps(wanted)}", 20))
        trials.want("and its name shown",
            name in page.js("document.getElementById('examples').selectedOptions[0].text"))
        page.ended()
    trials.equal("options of its first comment are taken", page.js("document.getElementById('low').value"), "32")
    page.put("low", "")


def shown_step(page: BenchPage) -> str:
    return page.js("document.querySelector('.where').textContent")


def try_column_72(page: BenchPage, trials: Trials) -> None:
    """All 72 columns of a script that is longer than its field are in sight, next to the scroll bar."""
    text = page.js(SCRIPT)
    for width in (1280, 1440):
        page.browser.size(width, 720)
        page.put("script", text + "*\n" * 100)
        wide, columns = page.js("document.getElementById('script').clientWidth"), page.js(WIDE)
        trials.want(f"{width} wide: 72 columns are in sight", wide >= 8 + 72 * columns, (wide, columns))
    page.browser.size(1440, 900)
    page.put("script", text)


def try_beside(page: BenchPage, trials: Trials) -> None:
    """Replies and the present statement next to the editor; the place after a run; what an edit makes old."""
    page.put("examples", "overlay.vsm", "change")
    page.ended()
    page.wait("document.querySelector('#replies').textContent.includes('ABEND S0C4')", 20)
    replies = page.js("[...document.querySelectorAll('#replies > div')].slice(0, 10).map(it => it.textContent)")
    wanted = [line[8:].decode() for line in (TOP / "examples" / "overlay.out").read_bytes().split(b"\n") if line]
    trials.equal("the replies next to the editor", replies, wanted)
    wider = "it => it.scrollWidth > it.clientWidth"
    cut = page.js(f"[...document.querySelectorAll('#replies > div')].filter({wider}).length")
    trials.equal("replies that are cut", cut, 0)
    try_column_72(page, trials)
    trials.want("only one script is shown", not page.js("document.querySelector('#picture .script').checkVisibility()"))
    page.js("document.querySelectorAll('#replies > div')[3].click()")
    page.browser.settle()
    trials.want("a reply leads to its statement", shown_step(page).startswith("4 of 10"), shown_step(page))
    trials.equal("its line is marked", page.js("document.getElementById('now').style.top"), "70px")
    text = (TOP / "examples" / "overlay.vsm").read_text()
    page.put("script", text.replace("PEEK SECOND,4 ", "PEEK SECOND,8 ", 1))
    trials.want("an edit marks the run as old",
        page.js("document.getElementById('result').classList.contains('old')") and "Edited" in page.text("status"),
        page.text("status"))
    replies = page.js("[...document.querySelectorAll('#replies > div')].slice(0, 10).map(it => it.textContent.trim())")
    trials.equal("replies stay before the edit, and none after it", replies, [*wanted[:4], *[""] * 6])
    page.put("script", text)
    trials.want("an edit that is taken back doesn't", "Exit status" in page.text("status"), page.text("status"))
    page.click("run")
    page.ended()
    at_4 = "document.querySelector('.where')?.textContent.startsWith('4 of 10')"
    trials.want("a run keeps the place", page.wait(at_4, 10), shown_step(page))
    trials.want("the address has the statement", page.wait("location.hash.includes('statement=4')", 5))
    reload(page)
    trials.want("so a reload keeps it too", page.wait(at_4, 10), shown_step(page))
    order = page.js("[...document.querySelectorAll('#examples optgroup[label=Lessons] option')].map(it => it.value)")
    trials.equal("the lessons are in their order", order, list(bench.lessons()))


def try_teacher(page: BenchPage, trials: Trials) -> None:
    page.put("examples", "cell-pools.vsm", "change")
    page.ended()
    page.click("teacher")
    page.wait("document.querySelector('#output .asked')")
    page.wait("document.querySelector('#picture .question')", 20)
    seen = page.js("document.body.innerText + document.getElementById('output').textContent")
    trials.want("nothing shows an answer: no status, editor, remark or comment",
        not any(it in seen for it in ("Exit status", "none is free", "there is none", "handed out")), seen)
    trials.want("the lesson's question is asked", "Which address does a GET give" in seen, seen)
    texts = "['output', 'picture'].map(it => document.getElementById(it).textContent)"
    hidden = page.js(f"{texts}.filter(it => /RC=0|ABEND/.test(it)).length")
    trials.want("in the teacher's mode no answer is shown", hidden == 0, hidden)
    count = page.js("document.querySelectorAll('#output .answer button').length")
    page.js("document.querySelector('#output .answer button').click()")
    trials.want("an answer is shown on request, and no other",
        page.js("document.querySelector('#output .answer').textContent") == "RC=0 A=00006000 L=00000048"
               and page.js("document.querySelectorAll('#output .answer button').length") == count - 1)
    page.put("examples", "first-steps.vsm", "change")
    page.ended()
    trials.want("the next run hides its answers too",
        page.js("document.querySelectorAll('#output .answer button').length") == 9)
    page.js("document.activeElement.blur()")
    page.browser.key("t")
    trials.want("the view's key asks first",
        page.js("document.getElementById('teacher').getAttribute('aria-checked')") == "true")
    page.js("document.querySelector('#picture dialog .all').click()")
    trials.want("the view's key switches it off",
        page.wait("document.getElementById('teacher').getAttribute('aria-checked') === 'false'", 5))
    page.click("teacher")
    page.click("teacher")
    trials.want("switched off, all is shown",
        page.wait("document.querySelector('#output .text')?.textContent.includes('RC=0')", 10))


def try_saving(page: BenchPage, folder: Path, trials: Trials) -> None:
    page.browser.call("Browser.setDownloadBehavior", behavior="allow", downloadPath=str(folder))
    path, script, output, _ = examples()[1]
    name = path.name
    page.put("examples", name, "change")
    page.ended()
    for button, ending, wanted in (("save-script", ".vsm", script), ("save-output", ".out", output),
        ("save-page", ".html", None)):
        page.click(button)
        saved = (folder / name).with_suffix(ending)
        end = time.monotonic() + 20
        while not (saved.exists() and saved.stat().st_size) and time.monotonic() < end:
            time.sleep(0.05)
        time.sleep(0.2)
        got = saved.read_bytes() if saved.exists() else b""
        trials.want(f"{button} saves a file", got == wanted if wanted is not None else b"<title>" in got, got[:80])
    identity = page.text("identity")
    page.browser.open(saved.as_uri(), "document.querySelector('.said strong')")
    trials.equal("the saved page's foot", page.js("document.querySelector('footer').textContent"), identity)
    trials.want("the saved page is a page of its own",
        page.js("document.title") == f"{name} · vsm" and not page.browser.messages(), page.browser.messages())


def page_data(text: str) -> dict[str, Any]:
    """The data of a run's page, without what says which program made it."""
    found = re.search(r'id="data">(.*?)</script>', text, re.DOTALL)
    data = json.loads(found[1]) if found else {}
    output = gzip.decompress(base64.b64decode(data.pop("output", "")))
    return {**{key: it for key, it in data.items() if key != "program"}, "output": output.decode("latin-1")}


SAVED = (*(f"{name}.vsm" for name in ("overlay", "continued-lines", "tasks-and-subpools")), "odd.vsm")
ODD = b"""* \xc3\xa4 \xff \x07
P STORAGE OBTAIN,LENGTH=64,SP=1,ADDR=P      remark </script>
 POKE P,X'C1'
 POKE (1),X'C2C3'
 BACK 1
 POKE X'6010',                                                         X
               X'01020304'
 WRONG
 STORAGE OBTAIN,""" + b" " * 55 + b"X\n"


def try_same_page(page: BenchPage, folder: Path, program: str, trials: Trials) -> None:
    """The page that the bench saves has the data of the page that vsm-view makes of the same script."""
    page.open()
    (folder / "odd.vsm").write_bytes(ODD)
    for name in SAVED:
        script = folder / name if name == "odd.vsm" else TOP / "examples" / name
        if name == "odd.vsm":
            page.put("script", ODD.decode("latin-1"))
            page.js("document.getElementById('run').click()")
        else:
            page.put("examples", name, "change")
        page.ended()
        page.wait("document.querySelector('#picture .said strong')", 20)
        page.wait("document.getElementById('explain').getAttribute('aria-busy') === 'false'", 20)
        page.js("""window.saved = null; URL.createObjectURL = (real => blob => {
            blob.text().then(it => { if (it.includes('id="data"')) window.saved ??= it; });
            return real.call(URL, blob); })(URL.createObjectURL)""")
        page.click("save-page")
        page.wait("window.saved", 20)
        words = [sys.executable, str(TOP / "tools" / "vsm-view"), "--vsm", program, str(script)]
        view = subprocess.run(words, stdin=subprocess.DEVNULL, capture_output=True, timeout=300).stdout.decode()
        ours, theirs = page_data(page.js("window.saved")), page_data(view)
        for data in (ours, theirs):
            data.pop("name", None)
            if not page.js("document.getElementById('explain-module').textContent"):
                data.pop("findings", None)
        trials.want(f"the saved page of {name} has the data of vsm-view's", ours == theirs,
            [key for key in theirs if ours.get(key) != theirs[key]])


def try_lacks(page: BenchPage, trials: Trials) -> None:
    """In a browser that lacks something needed, the page says so."""
    for lack in LACKS:
        script = page.browser.call("Page.addScriptToEvaluateOnNewDocument",
            source=f"delete globalThis.{lack}")["identifier"]
        page.open(ready="document.querySelector('#bench .sentence[role=alert]')")
        said = page.text("bench")
        trials.want(f"without {lack} a sentence is shown",
            lack.lower()[:6] in said.lower() and said.endswith("."), said)
        page.browser.call("Page.removeScriptToEvaluateOnNewDocument", identifier=script)
    throwing = "globalThis.Worker = class { constructor() { throw new Error('no workers here'); } }"
    script = page.browser.call("Page.addScriptToEvaluateOnNewDocument", source=throwing)["identifier"]
    page.open()
    trials.want("a worker that can't be started is reported", "no workers here" in page.text("errors"),
        page.text("errors"))
    page.browser.call("Page.removeScriptToEvaluateOnNewDocument", identifier=script)
    plain = page.browser.call("Emulation.setScriptExecutionDisabled", value=True)
    page.browser.call("Page.navigate", url=page.address)
    end = time.monotonic() + 10
    told = ""
    while "It needs JavaScript" not in told and time.monotonic() < end:
        time.sleep(0.2)
        told = json.dumps(page.browser.call("Accessibility.getFullAXTree"))
    trials.want("without JavaScript a sentence is shown", "It needs JavaScript" in told, plain)
    page.browser.call("Emulation.setScriptExecutionDisabled", value=False)


def try_no_network(page: BenchPage, trials: Trials) -> None:
    """The policy refuses what a script of the page would request; the console reports that, so it's tried last."""
    page.open()
    refused = page.js("""new Promise(done => {
      addEventListener('securitypolicyviolation', event => done(event.effectiveDirective));
      fetch('http://127.0.0.1:9/').catch(() => setTimeout(() => done('nothing'), 500));
    })""")
    trials.want("the page's policy refuses the network", refused == "connect-src", refused)
    refused = page.js("""new Promise(done => {
      addEventListener('securitypolicyviolation', event => done(event.effectiveDirective));
      const form = document.createElement('form');
      Object.assign(form, { method: 'post', action: 'http://127.0.0.1:9/' });
      document.body.append(form);
      form.submit();
      setTimeout(() => done('nothing'), 500);
    })""")
    trials.want("and a form that is sent", refused == "form-action", refused)
    added = "it.textContent = 'window.isRun = true'; document.body.append(it);"
    page.js(f"(it => {{ {added} }})(document.createElement('script'))")
    trials.want("and a script that isn't the page's", not page.js("window.isRun"))


def try_page(page: BenchPage, node: Node, folder: Path, program: str, trials: Trials) -> None:
    parts: list[Callable[[], None]] = [
        lambda: try_opening(page, trials), lambda: try_foot(page, node, trials), lambda: try_looks(page, trials),
        lambda: try_each_example(page, trials), lambda: try_odd_scripts(page, node, trials),
        lambda: try_command_line(page, node, trials), lambda: try_keys(page, trials), lambda: try_stop(page, trials),
        lambda: try_link(page, trials), lambda: try_keeping(page, trials), lambda: try_limits(page, trials),
        lambda: try_files(page, folder, trials), lambda: try_beside(page, trials), lambda: try_teacher(page, trials),
        lambda: try_saving(page, folder, trials), lambda: try_same_page(page, folder, program, trials),
        lambda: try_lacks(page, trials),
        lambda: try_no_network(page, trials)]
    run_all(parts, trials)


def run_all(parts: list[Callable[[], None]], trials: Trials) -> None:
    """All parts, also after one that doesn't end."""
    for part in parts:
        try:
            part()
        except (BrowserFault, OSError, ValueError, TypeError, KeyError, subprocess.SubprocessError) as fault:
            trials.want("a part of the trials ends", False, f"{type(fault).__name__}: {fault}")


def try_made(module: Path, program: str, trials: Trials) -> None:
    """A module in dist/ is of a program, and as page/module made it."""
    said = json.loads(module.with_suffix(".json").read_text(encoding="utf-8"))
    for what, file, sum_of in (("of the program", Path(program), "program"),
                               ("the one that page/module made", module, "module")):
        trials.equal(f"the module is {what}", said[sum_of], hashlib.sha256(file.read_bytes()).hexdigest())


def try_module(module: Path, program: str, browser: Browser, trials: Trials) -> None:
    """All trials of one module and of the bench with it."""
    with tempfile.TemporaryDirectory(prefix="bench-trials-") as name:
        path, explain = Path(name) / "bench.html", module.with_name("vsm-explain.wasm")
        path.write_text(bench.bench_page(module, explain if explain.is_file() else None), encoding="utf-8")
        node = Node(module, Path(name))
        try:
            trials.subject = module.name
            try_rows(node, trials)
            try_examples(node, trials)
            trials.subject = path.name
            try_page(BenchPage(browser, path), node, Path(name), program, trials)
        finally:
            node.close()


def try_all(trials: Trials, browser: Browser, programs: Programs) -> None:
    """The module in dist/, which has to be of this program."""
    trials.subject = "dist/vsm.wasm"
    if not MODULE.is_file():
        trials.want("the module exists: page/module makes it", False)
        return
    try_made(MODULE, programs.vsm, trials)
    try:
        try_module(MODULE, programs.vsm, browser, trials)
    except BuildFault as fault:
        trials.want("the page can be built", False, fault)


def ended(trials: Trials, tried: Callable[[Browser], None]) -> int:
    """Runs trials in a browser, and prints how many passed; the status."""
    try:
        with Browser() as browser:
            tried(browser)
    except (BrowserFault, BuildFault, OSError, ValueError, KeyError) as fault:
        trials.want("the trials end", False, fault)
    print(f"{trials.passed} passed, {trials.failed} failed")
    return trials.failed != 0


def main(words: list[str]) -> int:
    if len(words) > 1 or any(word.startswith("-") for word in words):
        print(__doc__.split("\n")[2], file=sys.stderr)
        return 16
    module, trials = Path(words[0]) if words else MODULE, Trials()
    return ended(trials, lambda browser: try_module(module, str(BUILT), browser, trials))


if __name__ == "__main__":
    sys.exit(main(sys.argv[1:]))
