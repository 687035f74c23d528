#!/usr/bin/env python3
"""Trials of the module of vsm-explain in node, and of the bench's panel that explains, in headless Chromium.

Usage: page/explain_trials.py [FOLDER [VSM-EXPLAIN]]
    only these; by default of the modules in dist/ and the built program of crates/vsm_explain_program. page/check runs
    them too.

In node the module has to print what the rows of tests/explain.d say. In the browser the panel has to show, of each
statement of each lesson, what the command line prints, and the picture what check finds there; the faults of a script
are marked with their hints; and the bench works without that module.
"""
from __future__ import annotations

import gzip
import re
import subprocess
import sys
import tempfile
import time
from importlib.machinery import SourceFileLoader
from pathlib import Path
from types import ModuleType
from typing import Any

sys.dont_write_bytecode = True
HERE = Path(__file__).resolve().parent
TOP = HERE.parent
sys.path[:0] = [str(HERE), str(TOP / "tools"), str(TOP / "tests")]

import bench  # noqa: E402
from bench_trials import ODD_SCRIPTS, PALE, WIDE, BenchPage, Node, attach, encoded, ended  # noqa: E402
from bench_trials import run_all, try_made, workers  # noqa: E402
from build import BuildFault  # noqa: E402
from chromium import Browser  # noqa: E402
from on_page import CARD, TICKS, found_at, probed  # noqa: E402
from trials import Programs, Trials  # noqa: E402

DIST = TOP / "dist"
BUILT = TOP / "crates" / "vsm_explain_program" / "out" / "vsm_explain_program"
NAME = "vsm-explain"
QUIET = "document.getElementById('explain').getAttribute('aria-busy') === 'false'"
FAULTS = "[...document.querySelectorAll('#faults button')].map(it => it.textContent)"
PARTS = ("why", "who", "areas")
WRONG = b" STORAGE OBTAIN,LENGTH=8\n STORAGE OBTAIN,LENGHT=8,SP=1\n MAP\n STORAGE OBTAIN,SP=1\n"
NOT_ASKED = "No address is named here. You can ask about one, a register, a name or a subpool."
MOST_SECONDS = 30


def tests_explain() -> ModuleType:
    """The check tests/explain, whose rows and judgement are used here."""
    path = TOP / "tests" / "explain"
    loader = SourceFileLoader("tests_explain", str(path))
    module = ModuleType(loader.name)
    module.__file__ = str(path)
    sys.modules[loader.name] = module
    loader.exec_module(module)
    return module


class InNode:
    """The module in node, called as tests/explain calls the program."""

    def __init__(self, node: Node, result: type) -> None:
        self.node, self.result = node, result
        self.files = {"empty": b"", "binary": bytes(range(256))}

    def put(self, script: bytes, name: str = "script") -> str:
        self.files[name] = script
        return name

    def explained(self, words: list[str], given: bytes = b"") -> Any:
        told = self.node.run(words, given, self.files)
        return self.result(told["status"], told["output"], told["errors"])


def try_rows(node: Node, trials: Trials) -> None:
    check = tests_explain()
    programs = InNode(node, check.Result)
    for name, act in check.rows():
        try:
            act(programs)
            trials.want(name, True)
        except (check.Failure, OSError) as fault:
            trials.want(f"the module at {name}", False, fault)


class Panel:
    """The panel of the bench's page, and the command line that it's compared with."""

    def __init__(self, page: BenchPage, program: str) -> None:
        self.page, self.program = page, program

    def printed(self, words: list[str], given: bytes) -> str:
        """What the command line prints, on both streams."""
        done = subprocess.run([self.program, *words], input=given, capture_output=True, timeout=60, check=False)
        return done.stdout.decode("latin-1") + done.stderr.decode()

    def open(self) -> None:
        self.page.js("document.getElementById('explain').open = true")
        self.page.wait("document.getElementById('explain-said').textContent || "
            "document.getElementById('why').textContent", 10)
        self.quiet()

    def begin(self) -> None:
        """Opens the page as if it had never been, and the panel."""
        self.page.open()
        self.page.forget()
        self.page.open()
        self.open()

    def quiet(self) -> bool:
        """Waits until what the panel shows is of the statement that the page shows."""
        self.page.browser.settle()
        return self.page.wait(QUIET, MOST_SECONDS)

    def shown(self) -> dict[str, str]:
        text = ", ".join(f"{it}: document.getElementById('{it}').textContent" for it in PARTS)
        return self.page.js(f"({{ {text} }})")

    def said(self) -> str:
        """The sentence shown instead of an explanation."""
        return self.page.js("(it => it.hidden ? '' : it.textContent)(document.getElementById('explain-said'))")

    def asked(self) -> str:
        return self.page.js("(it => it.value || it.placeholder)(document.getElementById('who-asked'))")

    def ask(self, words: str) -> None:
        self.page.put("who-asked", words)
        self.page.js("document.getElementById('who-form').requestSubmit()")
        self.quiet()

    def go(self, line: int) -> None:
        """Shows the statement of a line, by a click on its reply."""
        row = f"document.querySelector('#replies > div[data-line=\"{line}\"]')"
        if not self.page.js(f"Boolean({row})"):
            self.page.js(f"document.getElementById('script').scrollTop = 20 * {line} - 100")
        self.page.wait(f"{row}?.textContent.trim()", 20)
        self.page.js(f"{row}.click()")
        self.quiet()


def fronts(script: bytes) -> dict[int, bytes]:
    """By its first line, the script up to the end of each statement."""
    lines, found, begin = script.splitlines(keepends=True), {}, 1
    for number, line in enumerate(lines, 1):
        found[begin] = b"".join(lines[:number])
        if line[71:72].strip() == b"":
            begin = number + 1
    return found


def wanted_question(answer: str, asked: str) -> bool:
    """Whether `who` is asked about the area in the answer; for other statements, whether it's one of its questions, or
    nothing."""
    area = re.match(r"RC=0 A=(\w{8})", answer)
    return asked == area[1] if area else bool(re.fullmatch(r"|\w{8}( \d+)?", asked))


def try_statements(panel: Panel, name: str, script: bytes, words: list[str], output: bytes, trials: Trials) -> None:
    """Compares what the panel and the picture show of each statement of a run with what the command line prints."""
    ends = fronts(script)
    answers = [it for it in output.decode("latin-1").split("\n") if it and it[0] != " "]
    begins = [int(it[:7]) for it in answers]
    found = found_at(panel.printed(["check", "--leaks", *words, "-"], script), begins) if begins else {}
    panel.quiet()
    trials.equal(f"{name}: ticks of what is found", panel.page.js(TICKS), len(found))
    for line, answer in zip(begins, answers):
        reply = answer[8:]
        panel.go(line)
        trials.equal(f"{name}, line {line}: what is found", panel.page.js(CARD), found.get(line, []))
        shown, asked = panel.shown(), panel.asked()
        wanted = {"why": panel.printed(["why", *words, "-", str(line)], script),
                  "who": panel.printed(["who", *words, "-", *asked.split()], ends[line]) if asked else NOT_ASKED,
                  "areas": panel.printed(["report", "--areas", *words, "-"], ends[line])}
        for part in PARTS:
            trials.equal(f"{name}, line {line}: {part}", shown[part], wanted[part])
        is_wanted = "answered" not in wanted["why"] or wanted_question(reply, asked)
        trials.want(f"{name}, line {line}: what who is asked", is_wanted, asked)


def try_lesson(panel: Panel, path: Path, trials: Trials) -> None:
    panel.page.put("examples", path.name, "change")
    panel.page.ended()
    output = path.with_suffix(".out").read_bytes()
    try_statements(panel, path.name, path.read_bytes(), bench.option_words(path), output, trials)


def try_lessons(panel: Panel, trials: Trials) -> None:
    panel.begin()
    for path in sorted((TOP / "examples").glob("*.vsm")):
        try_lesson(panel, path, trials)
    line = "[...document.querySelectorAll('#areas .to-line')].at(0)"
    if panel.page.js(f"Boolean({line})"):
        number = panel.page.js(f"{line}.textContent").split()[1]
        panel.page.js(f"{line}.click()")
        panel.page.browser.settle()
        shown = panel.page.js("document.querySelector('.where').textContent")
        trials.want("a line of the panel leads there", shown.endswith(f"line {number}"), (shown, number))
    trials.want("nothing is said on the console", not panel.page.browser.messages(), panel.page.browser.messages())
    trials.want("no request leaves the page",
        not [it for it in panel.page.browser.requests() if not it.startswith((panel.page.address, "blob:null/"))],
        panel.page.browser.requests())


HOSTILE = {
    **ODD_SCRIPTS,
    "with control bytes": b"* \x01\x7f\n STORAGE OBTAIN,LENGTH=8  \x07\t\x1b\n POKE \x08\n",
    "with NUL, which vsm-explain refuses": b"* \0\n STORAGE OBTAIN,LENGTH=8  \0\n POKE \0\n",
}
QUESTIONS = ["--register 1", "--name P", "--subpool 2,5", "--oldest-first X'6000'", "00006000 4", "24576", "p 2", "Q",
             "X'ZZ'", "--nonsense", "00006000 4 5 6", "--name \u20ac", "file.vsm 00006000", "--help",
             "--taken 24576", "\0 1"]


def try_questions(panel: Panel, trials: Trials) -> None:
    """One's own questions, right and wrong ones, are answered as on the command line."""
    panel.begin()
    script = b" STORAGE OBTAIN,LENGTH=8,ADDR=P,SP=5\n POKE P,X'C1'\n MAP\n POKE P,X'C2'\n"
    panel.page.run(script)
    panel.go(2)
    for words in QUESTIONS:
        panel.ask(words)
        shown = panel.shown()["who"]
        if "\0" in words:
            trials.want("a question with a NUL is answered", shown.strip())
            continue
        wanted = panel.printed(["who", "-", *words.split()], fronts(script)[2])
        trials.equal(f"who {words}", shown, wanted)
        trials.want(f"who {words} is answered", shown.strip())
    panel.ask("")
    trials.equal("with no question of one's own it's the statement's", panel.asked(), "00006000 1")
    command = panel.page.text("who-command")
    trials.equal("the command that does the same", command,
        "head -n 2 my-first-steps.vsm | vsm-explain who - 00006000 1")
    panel.go(3)
    trials.equal("of a statement that names no address, nothing is asked",
        (panel.asked(), panel.shown()["who"], panel.page.text("who-command")), ("", NOT_ASKED, ""))


def try_sentences(panel: Panel, trials: Trials) -> None:
    """If there's nothing to explain, a sentence says so; the panel is never empty."""
    panel.begin()
    for what, script in HOSTILE.items():
        panel.page.run(script)
        panel.quiet()
        shown = panel.said() or panel.shown()["why"]
        trials.want(f"a script {what} leaves the panel with a text", shown.strip())
        try_statements(panel, f"a script {what}", script, [], panel.page.output(), trials)
        faults = places_of(panel.printed(["check", "-"], script)) if script.strip() else []
        trials.equal(f"the faults of a script {what}", panel.page.js(FAULTS), faults)
    panel.page.run(WRONG)
    panel.go(1)
    for script, low in (("* \u20ac\n", ""), (" MAP\n", "6")):
        panel.page.put("low", low)
        panel.page.put("script", script)
        panel.page.click("run")
        panel.quiet()
        trials.want("a script that isn't run leaves a sentence", panel.said().strip(), panel.shown())
    panel.page.put("low", "")
    panel.page.run(b" MAP\n")
    panel.page.wait("document.querySelector('.where')", 10)
    panel.page.js("document.activeElement.blur()")
    panel.page.browser.key("ArrowLeft")
    panel.quiet()
    trials.want("before the first statement a sentence is shown", panel.said().strip(), panel.shown())


def rows_of_faults() -> list[Any]:
    """The rows of tests/explain.d that print places, with scripts that the editor can hold; an empty one has none."""
    stored = tests_explain().stored
    rows = [it for it in stored.rows(TOP / "tests" / "explain.d") if it.words[:1] == ["check"]]
    return [it for it in rows if (script := it.part("script") + it.part("in")) and b"\r" not in script]


def places_of(printed: str) -> list[str]:
    """The lines of `check` as the page lists them; what is left stands only at its statements."""
    found = [re.sub(r"^.*?:(\d+):(\d+): ", r"line \1, column \2: ", it) for it in printed.splitlines()]
    return [it for it in found if ": LEFT: " not in it]


def try_faults(panel: Panel, trials: Trials) -> None:
    page = panel.page
    panel.begin()
    for row in rows_of_faults():
        script = row.part("script") or row.part("in")
        page.run(script)
        panel.quiet()
        trials.equal(f"the faults of row {row.name}", page.js(FAULTS),
            places_of(panel.printed(["check", "-"], script)))


MARKS = """[...document.querySelectorAll('#marks > *')].map(it => {
  const [mark, field] = [it, document.getElementById('script')].map(one => one.getBoundingClientRect());
  return [Math.round(mark.left - field.left), Math.round(mark.top - field.top), Math.round(mark.width)];
})"""


def try_marks(panel: Panel, trials: Trials) -> None:
    """Marks at the operands, which of them an edit keeps, and what a click does."""
    page = panel.page
    page.open()
    page.run(WRONG)
    wanted = ["line 2, column 17: OPERAND: no operand of STORAGE OBTAIN; LENGTH?",
              "line 4, column 21: MISSING: a required operand is missing: LENGTH"]
    trials.want("a fault is listed with its hint", page.wait(f"({FAULTS}).length === 2", 10), page.js(FAULTS))
    trials.equal("the faults", page.js(FAULTS), wanted)
    wide = page.js(WIDE)
    places = [[8 + 16 * wide, 30, 8 * wide], [8 + 20 * wide, 70, wide]]
    found = page.js(MARKS)
    near = len(found) == 2 and all(abs(a - b) < 2 for one, it in zip(found, places) for a, b in zip(one[::2], it[::2]))
    trials.want("the marks are at their operands", near, (found, places))
    trials.want("and in their lines", all(it[1] <= one[1] <= it[1] + 20 for one, it in zip(found, places)),
        (found, places))
    page.js("document.querySelector('#faults button').click()")
    caret = page.js("(it => [it.selectionStart, it.selectionEnd, document.activeElement === it])"
        "(document.getElementById('script'))")
    trials.equal("a click selects the operand", caret, [41, 49, True])
    text = WRONG.decode()
    page.put("script", text.replace(" MAP", " MAP  edited"))
    trials.equal("an edit keeps the marks before it, and no other", page.js(FAULTS), wanted[:1])
    page.put("script", "*\n" + text)
    trials.equal("an edit of the first line leaves none", (page.js(FAULTS), page.js(MARKS)), ([], []))
    page.put("script", text.replace("LENGHT", "LENGTH").replace("N,SP=1\n", "N,SP=1,LENGTH=8\n"))
    page.click("run")
    page.ended()
    panel.quiet()
    trials.equal("mended, none is marked", (page.js(FAULTS), page.js(MARKS)), ([], []))


FINDINGS = b""" STORAGE OBTAIN,LENGTH=16,ADDR=P,SP=1
 STORAGE OBTAIN,LENGTH=32,ADDR=Q,SP=1
 POKE P,X'000102030405060708090A0B0C0D0E0F10'
 PEEK Q,4
 STORAGE RELEASE,LENGTH=16,                                            X
               ADDR=P,SP=1
 PEEK P,1
 STORAGE RELEASE,LENGTH=8,ADDR=Q,SP=1
"""


def try_findings(panel: Panel, trials: Trials) -> None:
    """What is found is shown without the panel, after each run; it leads to its lines. Not in the teacher's mode."""
    page = panel.page
    page.open()
    page.forget()
    page.open()
    attach(page, True)
    page.run(FINDINGS)
    panel.quiet()
    trials.equal("workers with the panel closed", workers(page), 2)
    attach(page, False)
    try_found(panel, trials)
    panel.open()
    trials.want("opened, the panel explains", panel.shown()["why"].startswith("line "), panel.shown())
    page.click("teacher")
    page.browser.settle()
    trials.equal("in the teacher's mode nothing is found", page.js(f"[{CARD}, {TICKS}]"), [[], 0])
    page.click("teacher")
    page.run(b" MAP\n")
    panel.quiet()
    trials.equal("after another run nothing is found", page.js(f"[{CARD}, {TICKS}]"), [[], 0])


def try_found(panel: Panel, trials: Trials) -> None:
    """In cards, over the slider, in the list, and for screen readers."""
    page = panel.page
    wanted = found_at(panel.printed(["check", "--leaks", "-"], FINDINGS), list(fronts(FINDINGS)))
    words = {it.partition(":")[0] for texts in wanted.values() for it in texts}
    trials.equal("all five words are found", words, {"OUTSIDE", "STALE", "PART", "UNSET", "LEFT"})
    trials.equal("ticks", page.js(TICKS), len(wanted))
    for line in fronts(FINDINGS):
        panel.go(line)
        trials.equal(f"line {line}: what is found", page.js(CARD), wanted.get(line, []))
        spoken = page.js("document.querySelector('[aria-live=polite].unseen').textContent")
        trials.want(f"line {line}: it's spoken", all(it in spoken for it in wanted.get(line, [])), spoken)
    trials.equal("the list", page.js(FAULTS), places_of(panel.printed(["check", "-"], FINDINGS)))
    panel.go(3)
    page.js("document.querySelector('.said .finding .to-line').click()")
    page.browser.settle()
    shown = page.js("document.querySelector('.where').textContent")
    trials.want("a line that was found leads there", shown.endswith("line 2"), shown)


def try_teacher(panel: Panel, trials: Trials) -> None:
    page = panel.page
    panel.begin()
    page.run(WRONG)
    panel.quiet()
    page.click("teacher")
    page.js("document.activeElement.blur()")
    page.browser.key("ArrowRight")
    panel.quiet()
    hidden = page.js("document.getElementById('explain').innerText + document.getElementById('faults').innerText")
    trials.want("in the teacher's mode the panel hides the answer", panel.said() and "answered" not in hidden, hidden)
    trials.want("and the faults", "LENGTH?" not in hidden, hidden)
    page.js("document.querySelector('#picture .ask').click()")
    panel.quiet()
    page.wait("document.getElementById('why').textContent.includes('answered')", 5)
    trials.want("asked for, the answer is explained", "answered: RC=0" in panel.shown()["why"], panel.shown())
    page.click("teacher")
    page.forget()


def try_long(panel: Panel, trials: Trials) -> None:
    """Among thousands of statements a step is explained soon; what takes long ends at the next step."""
    page = panel.page
    panel.begin()
    script = b"".join(b" STORAGE OBTAIN,LENGTH=8,SP=%d\n" % (n % 100 + 1) for n in range(6000))
    page.run(script, low="16000")
    panel.quiet()
    start = time.monotonic()
    panel.go(3)
    trials.want("a step among 6,000 statements is explained soon", time.monotonic() - start < MOST_SECONDS
        and panel.shown()["why"].startswith("line 3:"), panel.shown()["why"][:80])
    trials.want("no run is stuck", "Exit status" in page.text("status"), page.text("status"))


def try_looks(panel: Panel, trials: Trials) -> None:
    page = panel.page
    for scheme in ("light", "dark"):
        page.browser.media(prefers_color_scheme=scheme)
        page.open()
        page.run(WRONG)
        panel.open()
        panel.go(2)
        time.sleep(0.4)
        found = page.js(PALE)
        trials.want(f"the contrast with the panel, {scheme}", not found, found)
        trials.equal("letters that don't follow the browser's", page.js(probed("letters()")), [])
    page.browser.media()
    trials.want("each control has a role and a name", not [it for it in page.browser.controls() if not all(it)],
        page.browser.controls())
    for width in (360, 420, 900, 1440):
        page.browser.size(width, 900)
        page.browser.settle()
        trials.want(f"{width} pixels hold the page's width with the panel",
            page.js("document.documentElement.scrollWidth <= innerWidth"),
            page.js("document.documentElement.scrollWidth"))
    page.browser.size(1440, 900)


def try_without(browser: Browser, node: Node, folder: Path, module: Path, trials: Trials) -> None:
    """The bench without the module of vsm-explain, and with one that can't be used."""
    path = folder / "without.html"
    path.write_text(bench.bench_page(module, None), encoding="utf-8")
    page = BenchPage(browser, path)
    page.open()
    trials.want("without the module no panel is shown",
        page.js("!document.getElementById('explain').checkVisibility()"))
    for script in (WRONG, b" MAP\n"):
        page.run(script)
        told = node.run([], script, {})
        trials.equal("without the module scripts are run", (page.output(), page.status(), page.text("errors")),
            (told["output"], told["status"], ""))
    trials.want("and shown", page.wait("document.querySelector('#picture .said strong')?.textContent === 'MAP'", 10))
    page.click("help")
    trials.want("and help opens", page.js("document.getElementById('note').open"))
    trials.want("without the module nothing is said on the console", not page.browser.messages(),
        page.browser.messages())
    shown = path.read_text(encoding="utf-8")
    no_module = encoded(gzip.compress(b"no module"))
    for what, base64 in (("isn't packed", "AAAA"), ("isn't base64", "!"), ("is no module", no_module)):
        other = folder / "damaged.html"
        empty = '<script type="application/json" id="explain-module">'
        other.write_text(shown.replace(f"{empty}</script>", f'{empty}"{base64}"</script>'), encoding="utf-8")
        page = BenchPage(browser, other)
        page.open()
        panel = Panel(page, "")
        panel.open()
        trials.want(f"of a module that {what} the panel says so in a line",
            page.wait("document.getElementById('explain-said').textContent.includes('vsm-explain')", 10)
            and "\n" not in panel.said(), (panel.said(), panel.shown()))
        page.run(WRONG)
        trials.equal(f"with a module that {what} scripts are run", page.status(), 4)


def try_module(module: Path, explain: Path, program: str, browser: Browser, trials: Trials) -> None:
    with tempfile.TemporaryDirectory(prefix="explain-trials-") as room:
        folder = Path(room)
        path = folder / "bench.html"
        path.write_text(bench.bench_page(module, explain), encoding="utf-8")
        nodes = [Node(explain, folder, NAME), Node(module, folder)]
        try:
            trials.subject = explain.name
            try_rows(nodes[0], trials)
            trials.subject = path.name
            panel = Panel(BenchPage(browser, path), program)
            run_all([lambda: try_lessons(panel, trials), lambda: try_questions(panel, trials),
                     lambda: try_sentences(panel, trials), lambda: try_faults(panel, trials),
                     lambda: try_marks(panel, trials), lambda: try_findings(panel, trials),
                     lambda: try_teacher(panel, trials), lambda: try_long(panel, trials),
                     lambda: try_looks(panel, trials),
                     lambda: try_without(browser, nodes[1], folder, module, trials)], trials)
        finally:
            for node in nodes:
                node.close()


def try_all(trials: Trials, browser: Browser, programs: Programs) -> None:
    """The modules in dist/; that of vsm-explain has to be of this program."""
    module, explain = DIST / "vsm.wasm", DIST / f"{NAME}.wasm"
    trials.subject = str(explain.relative_to(TOP))
    if not (module.is_file() and explain.is_file()):
        trials.want("the modules exist: page/module makes them", False)
        return
    try_made(explain, programs.explain, trials)
    try:
        try_module(module, explain, programs.explain, browser, trials)
    except BuildFault as fault:
        trials.want("the page can be built", False, fault)


def main(words: list[str]) -> int:
    if len(words) > 2 or any(word.startswith("-") for word in words):
        print(__doc__.split("\n")[2], file=sys.stderr)
        return 16
    folder, trials = Path(words[0]) if words else DIST, Trials()
    module, explain = folder / "vsm.wasm", folder / f"{NAME}.wasm"
    program = words[1] if len(words) > 1 else str(BUILT)
    return ended(trials, lambda browser: try_module(module, explain, program, browser, trials))


if __name__ == "__main__":
    sys.exit(main(sys.argv[1:]))
