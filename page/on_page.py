"""Trials of one page in the browser: what is drawn, each key, the teacher's mode, and how it looks."""
from __future__ import annotations

import json
import re
from collections.abc import Callable
from pathlib import Path
from typing import Any

from chromium import Browser
from expected import GRANTED, PAGE, UNIT, Page, area_edges, bytes_by_kind, cell_edges, history, owners, shown_line
from trials import Trials

HERE = Path(__file__).resolve().parent
READY = "document.querySelector('.where')?.textContent || document.querySelector('.sentence[role=alert]')"
STILL = {"prefers_reduced_motion": "reduce"}  # so there is nothing to wait for
MOST_STEPS = 200  # of a page whose drawings are added up
IN_PAGE = PAGE // UNIT  # doublewords
CARD = "[...document.querySelectorAll('.said .finding')].map(it => it.textContent)"
TICKS = "document.querySelectorAll('.ticks .finding').length"
FOUND = re.compile(r"(?m)^.*?:(\d+):\d+: ((?:OUTSIDE|STALE|PART|UNSET|LEFT): .*)$")
WIDE, ROWS = 64, 8  # of the chosen page, in doublewords


def found_at(printed: str, begins: list[int]) -> dict[int, list[str]]:
    """What `check --leaks` prints at statements, by their first lines."""
    found: dict[int, list[str]] = {}
    for line, text in FOUND.findall(printed):
        found.setdefault(max(it for it in begins if it <= int(line)), []).append(text)
    return found


def probed(call: str) -> str:
    """An expression that calls page/probe.js."""
    return f"(() => {{ {(HERE / 'probe.js').read_text(encoding='utf-8')}; return probe.{call}; }})()"


FRAMED = ".run .bar button, .run .task button, .run .ask"
PALE = probed(f"pale(document.querySelector('.run'), '{FRAMED}')")


def text_of(browser: Browser, part: str) -> str:
    return browser.evaluate(f"document.querySelector({json.dumps(part)})?.textContent ?? ''")


def attribute_of(browser: Browser, part: str, name: str) -> str:
    return browser.evaluate(f"document.querySelector({json.dumps(part)}).getAttribute({json.dumps(name)})")


def press(browser: Browser, part: str) -> None:
    """Clicks a control."""
    browser.evaluate(f"document.querySelector({json.dumps(part)}).click()")
    browser.settle()


def focus(browser: Browser, part: str) -> None:
    browser.evaluate(f"document.querySelector({json.dumps(part)}).focus()")


def step_of(browser: Browser) -> int:
    browser.settle()
    return int(browser.evaluate("document.querySelector('.time input').value"))


def total(boxes: list[list[float]]) -> float:
    """The bytes that boxes cover."""
    return sum(end - first for first, _, end in boxes) * UNIT


def places(edges: list[list[float]], wide: int) -> set[float]:
    """The places of lines, in doublewords, of a drawing in rows of `wide`."""
    return {row * wide + at for at, row in edges}


def by_page(strips: dict[int, dict[str, Any]], kind: str) -> dict[int, set[float]]:
    return {number: places(strip[kind], IN_PAGE) for number, strip in strips.items()}


def try_storage(trials: Trials, page: Page, step: int, drawn: dict[str, Any]) -> None:
    """The pages drawn at a step, against the map and the replies."""
    state = page.map_at(step)
    strips = {int(number): it for number, it in drawn["pages"].items()}
    wanted = bytes_by_kind(state)
    sums = {kind: sum(total(it[kind]) for it in strips.values()) for kind in wanted}
    trials.equal(f"step {step}: the bytes that are drawn", sums, wanted)
    taken, free = (f"{count} byte{'s' * (count != 1)}" for count in (state.taken, state.free))
    trials.equal(f"step {step}: the totals", drawn["totals"], f"{taken} taken, {free} free")
    stand, _ = history(page.answers_to(step), state.history)
    painted = owners(stand, state)
    edges = area_edges(state, painted, ROWS)
    trials.equal(f"step {step}: the lines between areas", by_page(strips, "edges"), area_edges(state, painted, 1))
    cells = {number: cell_edges(state, number, 1) for number in edges}
    trials.equal(f"step {step}: the lines between cells", by_page(strips, "ofcells"), cells)
    trials.want(
        f"step {step}: what is granted has one outline in a page, of an area in two rows' ends two",
        all(count == 1 for where, count in drawn["outlines"] if where)
        and all(count <= 2 for _, count in drawn["outlines"]),
        drawn["outlines"],
    )
    chosen = int(drawn["chosen"]) if drawn["chosen"] else -1
    trials.equal(f"step {step}: the chosen page is near by", drawn["lens"] is not None, chosen in edges)
    if chosen in edges and drawn["lens"]:
        lens = drawn["lens"]
        sums = {kind: total(lens[kind]) for kind in wanted}
        trials.equal(
            f"step {step}: the chosen page", sums, {kind: total(strips[chosen][kind]) for kind in wanted}
        )
        trials.equal(f"step {step}: its lines", places(lens["edges"], WIDE), edges[chosen])
        granted = [answer for answer in stand if GRANTED.fullmatch(answer.text)]
        whose = [(at, painted.get(at // UNIT, len(granted))) for at, _ in drawn["by"]]
        wanted_by = [[at, page.line_of(granted[k])] for at, k in whose if k < len(granted)]
        trials.equal(f"step {step}: which lines obtained its parts", drawn["by"], wanted_by)
        areas = [part for part in edges[chosen] if part * UNIT % PAGE]
        trials.want(f"step {step}: each part says its line",
            len(drawn["by"]) >= len(areas) - len(cells[chosen]) or state.cell_pools)
        trials.equal(f"step {step}: the bytes of the chosen page", drawn["dump"], stored_in(page, step, chosen))
        wide = cell_edges(state, chosen, ROWS)
        trials.equal(f"step {step}: its lines between cells", places(lens["ofcells"], WIDE), wide)


def stored_in(page: Page, step: int, number: int) -> list[list[object]]:
    """The rows of a page in which POKEs have stored, as far as they aren't zero, or weren't a step before."""
    seen: list[dict[int, str]] = []
    for last in (step - 1, step):
        rows = {row: text for at, row, text in page.data["bytes"] if at <= last}
        seen.append({row: text for row, text in rows.items() if text and row // PAGE == number})
    before, now = seen
    return [[row, text] for row, text in sorted(now.items()) if (text + before.get(row, "")).strip("0")]


def try_history(trials: Trials, page: Page, step: int, drawn: dict[str, Any]) -> None:
    """What is struck through, as far as it's in sight, and what is shown of the history."""
    state, told = page.map_at(step), page.answers_to(step)
    stand, again = history(told, state.history)
    undone = {page.line_of(it) for it in told if it.is_kept} - {page.line_of(it) for it in stand}
    struck = undone & set(drawn["lines"])
    trials.equal(f"step {step}: the lines that are struck through", set(drawn["undone"]), struck)
    wanted = f"{state.kept} kept of at most {state.history}, {len(again)} undone"
    trials.equal(f"step {step}: the history", drawn["history"], wanted)
    marked = page.changed_tasks(step) if step else []
    trials.equal(f"step {step}: the tasks that are marked as changed", drawn["tasks"], marked)


def without_groups(drawn: dict[str, Any]) -> dict[str, Any]:
    """A text whose numbers have no commas between thousands."""
    texts = {name: drawn[name].replace(", ", "; ").replace(",", "") for name in ("totals", "history")}
    return {**drawn, **{name: text.replace("; ", ", ") for name, text in texts.items()}}


def try_drawings(trials: Trials, browser: Browser, page: Page) -> None:
    most = MOST_STEPS if page.steps <= 2 * MOST_STEPS else MOST_STEPS // 10
    steps = sorted({*range(0, page.steps + 1, max(1, page.steps // most)), page.steps})
    for step, found in zip(steps, browser.evaluate(probed(f"at({steps})"))):
        drawn = without_groups(found)
        try_storage(trials, page, step, drawn)
        if page.steps <= MOST_STEPS:
            try_history(trials, page, step, drawn)
        if step:
            trials.equal(f"step {step}: the reply", drawn["said"], page.shown[step - 1].text)


WINDOWS = (
    (360, 780), (420, 900), (768, 1024), (1024, 768), (1280, 720), (1440, 900), (1920, 1080), (2560, 1440)
)


def try_cards(trials: Trials, browser: Browser, page: Page) -> None:
    """At each step the statement and its reply can be read, in windows from a phone's to a desktop's, and what the
    statement changed has a dot."""
    steps = list(range(1, page.steps + 1))
    for width, height in WINDOWS:
        browser.size(width, height)
        browser.settle()
        lines = [shown_line(line.rstrip()) for line in page.data["script"].split("\n")]
        trials.equal(
            f"{width} x {height}: lines that are cut", browser.evaluate(probed(f"script({json.dumps(lines)})")), []
        )
        found = browser.evaluate(probed(f"at({steps}, probe.card)"))
        cut = [step for step, it in zip(steps, found) if it["cut"]]
        trials.equal(f"{width} x {height}: steps whose statement or reply is cut", cut, [])
        if (width, height) == (1440, 900):
            bare = [step for step, it in zip(steps, found) if not it["dots"] and page.changes(step)]
            trials.equal("steps that change something and have no dot", bare, [])
    browser.size(1440, 900)


def seek(page: Page, step: int, by: int) -> int:
    """The step that `[` and `]` lead to."""
    at = step + by
    while 0 < at <= page.steps:
        if page.shown[at - 1].is_refused or page.shown[at - 1].text == "RC=4":
            return at
        at += by
    return step


def try_keys(trials: Trials, browser: Browser, page: Page) -> None:
    """Every key that goes to a statement, from the page itself."""
    shift = {"modifiers": 8}
    moves: list[tuple[str, dict[str, int], Callable[[int], int]]] = [
        ("Home", {}, lambda at: 0),
        ("ArrowRight", {}, lambda at: at + 1),
        ("ArrowRight", {}, lambda at: at + 1),
        ("ArrowLeft", {}, lambda at: at - 1),
        ("ArrowRight", shift, lambda at: at + 10),
        ("ArrowLeft", shift, lambda at: at - 10),
        ("PageDown", {}, lambda at: at + 100),
        ("PageUp", {}, lambda at: at - 100),
        ("End", {}, lambda at: page.steps),
        ("[", {}, lambda at: seek(page, at, -1)),
        ("[", {}, lambda at: seek(page, at, -1)),
        ("Home", {}, lambda at: 0),
        ("]", {}, lambda at: seek(page, at, 1)),
        ("]", {}, lambda at: seek(page, at, 1)),
    ]
    browser.evaluate("document.activeElement.blur()")
    at = step_of(browser)
    for key, more, wanted in moves:
        browser.key(key, **more)
        at = max(0, min(page.steps, wanted(at)))
        trials.equal(f"the key {key} {more or ''}", step_of(browser), at)


def try_play_and_help(trials: Trials, browser: Browser, page: Page) -> None:
    if page.steps > 1:  # it stops by itself after the last step
        browser.key("Home")
        browser.key(" ")
        trials.equal("space plays", attribute_of(browser, ".play", "aria-pressed"), "true")
        browser.key(" ")
        trials.equal("space stops", attribute_of(browser, ".play", "aria-pressed"), "false")
    browser.key("Home")
    browser.key("?")
    trials.want("? shows the help", browser.evaluate("document.querySelector('dialog').open"))
    browser.key("ArrowRight")
    trials.equal("the help keeps the keys", step_of(browser), 0)
    press(browser, "dialog input")
    browser.key("Escape", windowsVirtualKeyCode=27)
    browser.key("t")
    trials.equal("keys of one character can be switched off", attribute_of(browser, ".teacher", "aria-checked"),
        "false")
    browser.evaluate("document.querySelector('dialog').showModal()")
    press(browser, "dialog input")
    browser.key("Escape", windowsVirtualKeyCode=27)
    trials.want("Escape ends the help", not browser.evaluate("document.querySelector('dialog').open"))


def try_focus(trials: Trials, browser: Browser, page: Page) -> None:
    """The keys of the parts that can have the focus, and the buttons."""
    one = min(1, page.steps)
    browser.key("Home")
    focus(browser, ".script")
    browser.key("ArrowDown")
    trials.equal("down in the script", step_of(browser), one)
    if page.steps:
        line = page.line_of(page.shown[0])
        trials.equal("the line that is active", browser.evaluate(probed("active()")), line)
    browser.key("ArrowUp")
    trials.equal("up in the script", step_of(browser), 0)
    focus(browser, ".time input")
    browser.key("ArrowRight")
    trials.equal("right on the slider", step_of(browser), one)
    browser.key("End")
    rows = browser.evaluate("[...document.querySelectorAll('.page')].map(it => it.dataset.page)")
    if len(rows) > 1:
        focus(browser, ".page")
        for key, row in (("ArrowDown", rows[1]), ("ArrowUp", rows[0])):
            browser.key(key)
            trials.equal(f"{key} in the storage", attribute_of(browser, ":focus", "data-page"), row)
    press(browser, ".task button")
    trials.want(
        "a task keeps the focus", browser.evaluate("document.activeElement.closest('.task') !== null")
    )
    browser.evaluate("document.activeElement.blur()")
    for name, wanted in (("first", 0), ("on", one), ("back", 0), ("last", page.steps)):
        press(browser, f"button.{name}")
        trials.equal(f"the button {name}", step_of(browser), wanted)


def try_question(trials: Trials, browser: Browser, page: Page, step: int) -> None:
    """The answer of a step is hidden, and shown on request."""
    reply, before, behind = page.shown[step - 1].text, page.map_at(step - 1), page.map_at(step)
    told = browser.evaluate(probed("told()"))
    hidden = all(reply not in told[place] for place in ("said", "live", "value"))
    # The statement's own text may well contain a reply of two letters.
    trials.want(f"the answer {step} is hidden", hidden or len(reply) < 4, told)
    trials.want(
        f"no answer from {step} on is shown", len(told["replies"]) < page.skipped + step, told["replies"]
    )
    totals = told["totals"].replace(",", "")
    trials.want(f"the storage before {step} is shown", totals.startswith(f"{before.taken} byte"), totals)
    assigned = before.low_assigned + before.high_assigned
    trials.want(f"no page that step {step} assigns is shown", told["rows"] <= assigned, told["rows"])
    browser.key("]")
    trials.equal("no hidden refusal is looked up", step_of(browser), step)
    browser.key("Enter")
    trials.equal(f"Enter shows the answer {step}", text_of(browser, ".said strong"), reply)
    totals = text_of(browser, ".bytes").replace(",", "")
    trials.want(f"the storage after {step} is shown", totals.startswith(f"{behind.taken} byte"), totals)


def try_teacher(trials: Trials, browser: Browser, page: Page) -> None:
    """Answers are hidden until you ask for them, statement by statement."""
    browser.key("Home")
    browser.key("t")
    trials.equal("the switch", attribute_of(browser, ".teacher", "aria-checked"), "true")
    asked = min(page.steps, 3)
    for step in range(1, asked + 1):
        browser.key("ArrowRight")
        try_question(trials, browser, page, step)
    if page.steps > asked:
        browser.key("End")
        told = browser.evaluate(probed("told()"))
        trials.want(
            "far ahead nothing is shown", len(told["replies"]) <= page.skipped + asked, told["replies"]
        )
        press(browser, ".ask")
        trials.equal("the button shows the answers", text_of(browser, ".said strong"), page.shown[-1].text)
    browser.key("T")
    trials.equal("the switch back", attribute_of(browser, ".teacher", "aria-checked"), "false")


def try_controls(trials: Trials, browser: Browser) -> None:
    """Every control has a role and a name."""
    passive = ("RootWebArea", "scrollable", "none", "generic")
    controls = [(role, name.strip()) for role, name in browser.controls() if role not in passive]
    trials.want("every control has a name", all(name for _, name in controls), controls)
    roles = {role for role, _ in controls}
    trials.want("the roles of controls", {"slider", "switch", "button", "listbox"} <= roles, roles)


def try_themes(trials: Trials, browser: Browser) -> None:
    """Names and contrast, light and dark; nothing moves if reduced motion is set."""
    for scheme in ("light", "dark"):
        browser.media(prefers_color_scheme=scheme, **STILL)
        for key in ("Home", "End"):
            browser.key(key)
            trials.equal(f"{scheme}: the contrast of texts and controls", browser.evaluate(PALE), [])
        try_controls(trials, browser)
    trials.equal("reduced motion", browser.evaluate(probed("moving()")), 0)
    browser.media(forced_colors="active")
    forced = browser.evaluate(probed("forced()"))
    if forced["page"] and None not in forced["fills"]:
        trials.equal("forced colours: the kinds of parts that differ", len(set(forced["fills"])), 4)
        trials.equal("forced colours: the chosen page is framed", forced["page"], "solid")
    trials.want("forced colours: the statement is framed", forced["now"] in ("solid", None), forced)


def try_sizes(trials: Trials, browser: Browser) -> None:
    """Printed, and of several widths."""
    trials.equal("letters that don't follow the browser's", browser.evaluate(probed("letters()")), [])
    browser.media("print")
    parts = [".buttons", ".time", ".script", ".teacher"]
    trials.equal("print: no controls", browser.evaluate(probed(f"visible({parts})")), [])
    trials.equal("print: nothing is cut", browser.evaluate(probed("cut()")), [])
    trials.equal("print: nothing is torn", browser.evaluate(probed("torn()")), [])
    printed = browser.call("Page.printToPDF", printBackground=False)["data"]
    trials.want("print: a document is made", len(printed) > 1000)
    browser.media(**STILL)
    for width in (420, 800, 1100):
        browser.size(width, 900)
        browser.settle()
        wide, *parts = browser.evaluate(probed("wide()"))
        trials.want(f"{width} wide: nothing is scrolled sideways", wide <= width and not parts, [wide, parts])
        if browser.evaluate("document.documentElement.scrollHeight > innerHeight + 1"):
            at = step_of(browser)
            for key in ("Home", "PageDown", " "):
                browser.key(key)
                trials.equal(f"{width} wide: if the page scrolls, the key '{key}' doesn't step",
                    step_of(browser), at)
    browser.size(1440, 900)


def try_find(trials: Trials, browser: Browser, page: Page) -> None:
    """The field goes to a line, and to the next one with a text."""
    lines = page.data["script"].split("\n")
    firsts = [page.line_of(it) for it in page.shown]
    if not firsts:
        return
    browser.key("Home")
    browser.evaluate("document.activeElement.blur()")
    browser.key("/")
    trials.want("/ leads to the field", browser.evaluate("document.activeElement.matches('.find')"))
    word = next(it for it in reversed(lines[firsts[-1] - 1].split()) if not it.isdigit())
    found = next(number for number, line in enumerate(lines, 1) if word.lower() in line.lower())
    for asked, line in ((str(firsts[-1]), firsts[-1]), (word, found)):
        browser.evaluate(f"""(it => {{ it.value = {json.dumps(asked)}; document.querySelector('button.first').click();
            return new Promise(requestAnimationFrame).then(() => it.dispatchEvent(new Event('input'))); }})(
            document.querySelector('.find'))""")
        focus(browser, ".find")
        browser.key("Enter")
        marked = browser.evaluate("document.querySelector('.line.found .number')?.textContent")
        trials.equal(f"finding {asked} leads to its line", marked, str(line))
        if line in firsts:
            trials.equal(f"and to its statement, for {asked}", step_of(browser), firsts.index(line) + 1)
    browser.evaluate("document.activeElement.blur()")


SAVED = """new Promise(done => {
  const real = URL.createObjectURL;
  URL.createObjectURL = blob => {
    URL.createObjectURL = real;
    blob.arrayBuffer().then(it => done([blob.type, ...new Uint8Array(it).slice(0, 4), new TextDecoder().decode(it)]));
    return 'data:,';
  };
  [...document.querySelectorAll('dialog button')].find(it => it.textContent === 'KIND').click();
})"""


def try_pictures(trials: Trials, browser: Browser, page: Page) -> None:
    """The storage as a picture, and statements for print."""
    browser.key("End")
    state, strips = page.map_at(page.steps), browser.evaluate("document.querySelectorAll('.page svg.strip').length")
    kind, *_, svg = browser.evaluate(SAVED.replace("KIND", "SVG"))
    wide = sum(float(it) for it in re.findall(r'<rect x="[^"]*" y="[^"]*" width="([^"]*)" height="14"', svg))
    lines = svg.count('width="1" height="14"')
    pages = state.low_assigned + state.high_assigned
    trials.want("the SVG draws each assigned page",
        kind == "image/svg+xml" and (strips != pages or svg.count(" T") >= pages), (strips, pages))
    if pages <= 64 and not state.cell_pools:
        trials.want("from its begin to its end", abs(wide - lines - 768 * pages) < pages + 1, (wide, pages))
    kind, *front, _ = browser.evaluate(SAVED.replace("KIND", "PNG"))
    trials.equal("and so does a PNG", (kind, bytes(front)), ("image/png", b"\x89PNG"))
    browser.evaluate("""(it => {
        window.print = () => {};
        it.querySelector('input[placeholder]').value = '1-3';
        it.showModal();
        it.querySelector('form').requestSubmit();
    })([...document.querySelectorAll('dialog')].at(-1))""")
    told = browser.evaluate("""[...document.querySelectorAll('.handout section')].map(
        it => [it.querySelector('p').textContent, it.querySelectorAll('svg').length])""")
    wanted = [[it.text, 1] for it in page.shown[:3]] or [["", 1]]
    trials.equal("a handout has statements with their pictures", told, wanted)
    browser.media("print")
    seen = browser.evaluate(probed("visible(['.handout', '.stage'])"))
    trials.equal("printed, it's all there is", seen, [".handout"])
    browser.evaluate("dispatchEvent(new Event('afterprint'))")
    browser.media(**STILL)
    trials.want("and is gone then", browser.evaluate("!document.querySelector('.handout')"))


def try_address(trials: Trials, browser: Browser, page: Page, address: str) -> None:
    """`#2` opens at statement 2, and `#teacher` with all answers hidden."""
    browser.open(f"{address}#2", READY)
    trials.equal("#2 in the address", step_of(browser), min(2, page.steps))
    browser.evaluate("location.hash = '#1'")
    trials.equal("another number in the address", step_of(browser), min(1, page.steps))
    browser.open(f"{address}#teacher", READY)
    browser.settle()
    trials.equal("#teacher in the address", attribute_of(browser, ".teacher", "aria-checked"), "true")
    told = browser.evaluate(probed("told()"))
    trials.equal("#teacher hides all answers", (len(told["replies"]), told["ticks"]), (page.skipped, 0))


def try_page(trials: Trials, browser: Browser, path: Path, keys: bool = True, looks: bool = True) -> None:
    """What a page shows, and, if asked for, its keys and its looks."""
    page, address = Page.of(path), path.resolve().as_uri()
    trials.subject = path.name
    browser.media(**STILL)
    try_address(trials, browser, page, address)
    browser.open(address, READY)
    browser.settle()
    trials.equal(
        "the number of statements", int(attribute_of(browser, ".time input", "max")), page.steps
    )
    trials.equal("the foot says which program it was", text_of(browser, "footer"), page.data.get("program"))
    browser.key("End")
    if page.steps:
        trials.equal("the last statement's reply", text_of(browser, ".said strong"), page.shown[-1].text)
        trials.want("what it means", len(text_of(browser, ".said p")) > 3)
    try_drawings(trials, browser, page)
    if keys:
        try_keys(trials, browser, page)
        try_play_and_help(trials, browser, page)
        try_focus(trials, browser, page)
        try_find(trials, browser, page)
        try_pictures(trials, browser, page)
    try_teacher(trials, browser, page)
    if looks:
        try_cards(trials, browser, page)
        try_themes(trials, browser)
        try_sizes(trials, browser)
    asked = [it for it in browser.requests() if it.split("#")[0] != address]
    trials.equal("no request leaves the page", asked, [])
    trials.equal("no message of the console", browser.messages(), [])
