"""Trials of what is in sight: pixels of the storage, the curves and the course over the slider, the script's column,
and the answer with the chosen page and what has changed, in windows from a projector's to a desktop's."""
from __future__ import annotations

import json
import re
from itertools import accumulate
from typing import Any

from chromium import Browser
from expected import GRANTED, PAGE, Page, totals
from on_page import STILL, probed, step_of
from pixels import Colour, distance, pixels_of
from trials import Trials
from vsmtools.lines import LAST_COLUMN, statements, unquoted
from vsmtools.maps import Map

HEIGHT, FAINT = 0.94, 0.18  # of the curves' greatest value; how strong a free byte is in the course
MOST_STRIPS = 6
MOST_PICTURES = 20  # of a strip, until it doesn't move
WHOLE = ((1440, 900), (1366, 768), (1280, 720), (1024, 768))  # the answer and the chosen page are in sight
MOST_LINES, MOST_ANSWER = 4, 100  # if the statement has at most these lines, and the answer these characters
LOW = (853, 480)  # here they are at any statement
MOST_STEPS = 24  # of a page that are looked at in each window
MOST_COURSE, MOST_ROWS = 300, 48  # steps and pages of a course whose rows are single pages
# The course is drawn after the rest; until then it may move what is below.
COURSE_DONE = "document.querySelector('.course[data-done]') || new Promise(done => setTimeout(done, 3000))"
KINDS = ("taken", "low", "high", "largest")


def free_in(state: Map, number: int) -> int | None:
    """The free bytes of a page; None if it isn't assigned."""
    begin, end = number * PAGE, (number + 1) * PAGE
    for subpool in state.subpools:
        if any(area.start <= begin < area.end for area in subpool.extents):
            return sum(max(0, min(end, it.end) - max(begin, it.start)) for it in subpool.free)
    return None


def colours_of(browser: Browser, number: int) -> tuple[Colour, Colour, Colour] | None:
    """The mean colour of a page's strip, and those of taken and of free, of a picture during which it didn't move; None
    if it can't be brought into sight."""
    for _ in range(MOST_PICTURES):
        if not (is_at := browser.evaluate(probed(f"strip({number})"))):
            return None
        browser.settle()
        (left, top, wide, high), taken, free = is_at
        seen = pixels_of(browser.png({"x": left + 4, "y": top + 5, "width": wide - 8, "height": high - 10}))
        if browser.evaluate(probed(f"strip({number})")) == is_at:
            return seen.mean(0, 0, seen.wide, len(seen.rows)), tuple(taken), tuple(free)
    return None


def try_pixels(trials: Trials, browser: Browser, page: Page) -> None:
    """By its pixels a page that is wholly taken has its subpool's colour: it never is as pale as free storage."""
    state, granted = page.map_at(page.steps), page.shown and GRANTED.fullmatch(page.shown[-1].text)
    framed = range(0)
    if granted:
        start, length = (int(it, 16) for it in granted.groups())
        framed = range(start // PAGE, (start + length - 1) // PAGE + 1)
    full = [] if state.cell_pools else [it for it in range(6, 64) if free_in(state, it) == 0 and it not in framed]
    for scheme in ("light", "dark"):
        browser.media(prefers_color_scheme=scheme, **STILL)
        for width in (390, 1440, 1920):
            browser.size(width, 900)
            browser.evaluate(probed(f"at([{page.steps}])"))
            browser.evaluate(COURSE_DONE)
            for number in full[:MOST_STRIPS]:
                found = colours_of(browser, number)
                trials.want(f"{scheme}, {width} wide: the full page {number:X}000 looks full",
                    found and distance(found[0], found[1]) < distance(found[0], found[2]) / 2, found)
    browser.media(**STILL)
    browser.size(1440, 900)


def greatest(page: Page) -> dict[str, int]:
    """The greatest bytes taken of all maps, and of the pages, and the largest free area."""
    all_of = totals(page)
    found = {"taken": max(it[0] for it in all_of), "low": PAGE * max(it[1] for it in all_of),
             "high": PAGE * max(it[2] for it in all_of)}
    maps = page.answers[page.skipped :: 2]
    areas = [int(line.split()[2], 16) for it in maps for line in it.rest if line.startswith("  FREE ")]
    return {**found, "largest": max(areas, default=0)}


def try_curves(trials: Trials, browser: Browser, page: Page) -> None:
    """The curves reach the greatest value of all maps, on one scale, which their texts say."""
    browser.evaluate(COURSE_DONE)
    drawn, most = browser.evaluate(probed("curves()")), greatest(page)
    whole = max(1, *most.values())
    for kind in KINDS:
        found = round(drawn["most"].get(kind, -1) / HEIGHT * whole)
        near = abs(found - most[kind]) <= whole / 2000
        trials.want(f"the curve of {kind} reaches the greatest value", near, (found, most))
    pages = {kind: f"{most[kind] // PAGE:,} page{'s' * (most[kind] != PAGE)}" for kind in ("low", "high")}
    wanted = {"taken": f"{most['taken']:,} byte{'s' * (most['taken'] != 1)} taken", "low": f"{pages['low']} below",
              "largest": f"{most['largest']:,} free in one"}
    if most["high"]:
        wanted["high"] = f"{pages['high']} above"
    trials.equal("what the curves reach is said", drawn["texts"], wanted)


def wanted_column(page: Page, state: Map, order: list[int]) -> list[tuple[int, float]]:
    """By row the place of the subpool's colour, and the alpha, of a course whose rows are single pages."""
    numbers = sorted({subpool.number for step in range(page.steps + 1) for subpool in page.map_at(step).subpools})
    found = []
    for number in order:
        free, at = free_in(state, number), number * PAGE
        whose = next((it.number for it in state.subpools if any(a.start <= at < a.end for a in it.extents)), None)
        strength = 0.0 if free is None else (PAGE - free + FAINT * free) / PAGE
        found.append((numbers.index(whose) % 8 if whose is not None else -1, strength))
    return found


def try_course(trials: Trials, browser: Browser, page: Page) -> None:
    """The picture of the whole run: each page at some steps, by its colour and by how much of it is taken."""
    if page.steps > MOST_COURSE:
        return
    states = [page.map_at(step) for step in range(page.steps + 1)]
    pages = {number for state in states for subpool in state.subpools for area in subpool.extents
             for number in range(area.start // PAGE, area.end // PAGE)}
    order = sorted(pages, key=lambda it: (it < 0x8000, it))
    if not 0 < len(order) <= MOST_ROWS:
        return
    steps = sorted({0, 1, page.steps // 2, page.steps})
    palette, columns = browser.evaluate(probed("palette()")), browser.evaluate(
        probed(f"course({[step / max(1, page.steps) for step in steps]})"))
    for step, column in zip(steps, columns):
        trials.equal(f"the course's rows at step {step}", len(column), len(order))
        for number, pixel, (colour, strength) in zip(order, column, wanted_column(page, states[step], order)):
            near = abs(pixel[3] / 255 - strength) < 0.02
            is_right = near and (colour < 0 or distance(tuple(pixel[:3]), tuple(palette[colour])) < 12)
            trials.want(f"the course at step {step}, page {number:X}", is_right, (pixel, colour, strength))
    if page.steps > 1:
        browser.key("Home")
        browser.evaluate("""(it => { const { left, right, top } = it.getBoundingClientRect(); it.dispatchEvent(
            new MouseEvent('click', { clientX: (left + right) / 2, clientY: top + 2, bubbles: true })); })(
            document.querySelector('.course canvas'))""")
        trials.want("a click on the course goes there", abs(step_of(browser) - page.steps / 2) <= 1, step_of(browser))


def remarks_at(line: str) -> int:
    """Where the remarks of a statement's first line begin; 0 if it has none."""
    text = line[:LAST_COLUMN].rstrip()
    operation = re.match(r"\S* +(\S+) *", text)
    if not operation:
        return 0
    at = operation.end()
    if operation[1].upper() not in ("MAP", "ENDTASK"):
        at = next((place for place, char in unquoted(text, at) if char == " "), len(text))
    return len(text) - len(text[at:].lstrip()) if text[at:].strip() else 0


def is_torn(rows: list[str], remarks: int) -> bool:
    """Whether a line of several rows has remarks that don't begin one of them."""
    return remarks > 0 and len(rows) > 1 and remarks not in accumulate(map(len, rows))


def try_column(trials: Trials, browser: Browser, page: Page) -> None:
    """The script at two widths: column 72 is in one column and in no row of its own, remarks aren't torn from their
    first word, and a reply is after the statement's last line."""
    lines = page.data["script"].split("\n")
    extents = statements([line.encode("latin-1") for line in lines])
    firsts, ends = {it.first for it in extents}, {it.last for it in extents}
    within = {number for it in extents for number in range(it.first, it.last + 1)}
    for width, height in WHOLE[:2]:
        browser.size(width, height)
        browser.settle()
        found = browser.evaluate(probed("column()"))
        ends_of = {number: line[LAST_COLUMN:].strip() for number, line in enumerate(lines, 1)}
        lone = [number for number, it in found if len(it[0]) > 1
                and any(len(row.strip()) == 1 and row.strip() == ends_of[number] for row in it[0])]
        trials.equal(f"{width} wide: lines whose column 72 has a row of its own", lone, [])
        trials.want(f"{width} wide: column 72 is one column", len({round(it[1][2]) for it in found if it[1][1]}) <= 1)
        torn = [number for number, it in found if number in firsts and is_torn(it[0], remarks_at(lines[number - 1]))]
        trials.equal(f"{width} wide: remarks that are torn", torn, [])
        if width == 1440:
            two = [it[0] for it in found if it[0] in within and len(it[1][0]) > 1]
            trials.equal("1440 wide: statements in two rows", two, [])
        replies = [it[0] for it in found if it[1][3] and it[0] not in ends]
        trials.equal(f"{width} wide: replies that aren't after their statement", replies, [])
    browser.size(1440, 900)


def signed_bytes(text: str) -> int:
    """The sum of the bytes that a line of changes names."""
    words = text.replace(",", "").split()
    pairs = zip(words, words[1:])
    return sum(int(it.replace("−", "-")) for it, next_ in pairs if it[0] in "+−" and next_.startswith("byte"))


def has_storage(state: Map) -> bool:
    return state.low_assigned + state.high_assigned > 0


def try_in_sight(trials: Trials, browser: Browser, page: Page) -> None:
    """At each step the answer, the chosen page and what has changed are in sight."""
    lines = page.data["script"].split("\n")
    extents = {it.first: it.last - it.first + 1 for it in statements([line.encode("latin-1") for line in lines])}
    steps = list(range(1, page.steps + 1, max(1, page.steps // MOST_STEPS)))
    short = [it for it in steps if extents.get(page.line_of(page.shown[it - 1]), 1) <= MOST_LINES
             and len(page.shown[it - 1].text) <= MOST_ANSWER]
    for width, height in (*WHOLE, LOW):
        browser.size(width, height)
        browser.settle()
        looked_at = steps if (width, height) == LOW else short
        found = list(zip(looked_at, browser.evaluate(probed(f"at({json.dumps(looked_at)}, probe.sight)"))))
        out = {"answers": [step for step, it in found if not it["answer"]],
               "changes": [step for step, it in found if page.changes(step) != (it["what"] is True)],
               "storage": [step for step, it in found if not it["lens"] and has_storage(page.map_at(step))]}
        for what, hidden in out.items():
            trials.equal(f"{width} x {height}: steps whose {what} are out of sight", hidden, [])
        if width == WHOLE[0][0]:
            try_texts(trials, page, found)
    browser.size(1440, 900)


def try_texts(trials: Trials, page: Page, found: list[tuple[int, Any]]) -> None:
    """The bytes that the line of changes names are those by which the maps differ."""
    for step, it in found:
        if " more" not in it["text"]:
            wanted = page.map_at(step).taken - page.map_at(step - 1).taken
            trials.equal(f"step {step}: the bytes that are said to have changed", signed_bytes(it["text"]), wanted)


def try_sight(trials: Trials, browser: Browser, page: Page) -> None:
    try_curves(trials, browser, page)
    try_course(trials, browser, page)
    try_pixels(trials, browser, page)
    try_column(trials, browser, page)
    try_in_sight(trials, browser, page)
