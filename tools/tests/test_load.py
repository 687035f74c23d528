"""vsm-load: maps there and back, maps that are wrong, maps for which it finds no script, and what is no map."""
from __future__ import annotations

import random
import re
import time
from pathlib import Path
from typing import Callable, Iterable

import pytest
import stored
from conftest import TOP, loaded, one_line
from load_scripts import KINDS, map_lines, map_of, told

from vsmtools import bench
from vsmtools.lines import options_for
from vsmtools.maps import HIGH_START, LOW_START, PAGE, Area, CellPool, Map, Name, Subpool, Task

TOOL = "vsm-load"
SEEDS, EVERY = 10, 500
MOST_SECONDS = 1       # of a processor, in a trial's own process
CELLS = (TOP / "examples" / "cell-pools.out").read_text()
NOTE = re.compile(r"vsm-load: .+:\d+: (register \d+ isn't|registers 0, 1 and 15 aren't) brought back")


def map_behind(vsm: str, options: list[str], script: str) -> list[str]:
    """The map that a script leads to, without its line HISTORY."""
    answers = bench.run(vsm, options, (script + " MAP\n").encode()).answers
    assert not any(answer.is_refused for answer in answers)
    return list(answers[-1].rest[:-1])


def storage_of(lines: Iterable[str]) -> list[str]:
    """The lines of a map except those of registers."""
    return [line for line in lines if not line.startswith(("  R0", "  R8"))]


def test_maps_of_rows_examples_and_conformance_come_back(vsm: str) -> None:
    made = 0
    suite = [(str(path), options_for(str(path), path.read_bytes()), path.read_bytes())
             for path in sorted((TOP / "conformance").rglob("*.vsm"))]
    for name, options, script in [*stored.scripts(), *suite]:
        done = bench.run_anyhow(vsm, options, script)
        for answer in done.answers if done.status in (0, 4) else []:
            if answer.is_map:
                assert told(vsm, options, list(answer.rest)) is None, name
                made += 1
    assert made > 110


@pytest.mark.parametrize("name, line", [("storage-map", 5), ("storage-map", 7), ("cell-pools", 31), ("first-steps", 8)])
def test_maps_of_examples_by_the_tool(run: Callable, vsm: str, name: str, line: int) -> None:
    done = bench.run(vsm, [], (TOP / "examples" / (name + ".vsm")).read_bytes())
    loaded = run(TOOL, "--vsm", vsm, "--map", line, given=done.output)
    assert loaded.returncode == 0 and all(map(NOTE.fullmatch, loaded.stderr.decode().splitlines()))
    wanted = next(answer.rest for answer in done.answers if answer.line == line)
    assert storage_of(map_behind(vsm, [], loaded.stdout.decode())) == storage_of(wanted[:-1])


def test_maps_of_walks_come_back(vsm: str) -> None:
    module, made = loaded(TOP / "tests" / "walks"), 0
    for seed in range(SEEDS):
        script: list[str] = []
        for number, statement in enumerate(module.statements(random.Random(seed)), 1):
            script += [statement] + ([" MAP"] if number % EVERY == 0 else [])
        for answer in bench.run(vsm, module.OPTIONS, "\n".join(script).encode() + b"\n").answers:
            if answer.is_map:
                assert told(vsm, module.OPTIONS, list(answer.rest)) is None, "seed %d line %d" % (seed, answer.line)
                made += 1
    assert made == SEEDS * 5000 // EVERY


@pytest.mark.parametrize("kind, first, last", [("plain", at, at + 100) for at in (0, 100, 200)] + [
    ("small", 0, 100), ("family", 0, 16), ("pools", 0, 4)])
def test_maps_of_generated_scripts_come_back(vsm: str, kind: str, first: int, last: int) -> None:
    """Those of 300 ordinary scripts; of small regions; of 64 tasks; of 250 cell pools."""
    for seed in range(first, last):
        lines, start = map_of(vsm, kind, seed), time.process_time()
        assert told(vsm, KINDS[kind][1], lines) is None, "%s %d" % (kind, seed)
        assert time.process_time() - start < MOST_SECONDS


def test_words_that_only_cells_have(run: Callable, vsm: str) -> None:
    """Names and registers 2 to 12 are brought back; registers 0, 1 and 15 are listed in one line together."""
    script = (" CPOOL BUILD,PCELLCT=3,CSIZE=4,CPID=C,LOC=31,SP=5\n CPOOL GET,CPID=C\n CPOOL GET,CPID=C,CELL=ODD\n"
              " CPOOL GET,CPID=C,CELL=(12)\n GETMAIN VRU,LV=(40000,8),SP=9,LOC=31\n STORAGE RELEASE,SP=9\n"
              " STORAGE OBTAIN,LENGTH=8,ADDR=EVEN\n CPOOL FREE,CPID=C,CELL=ODD\n GETMAIN RC,LV=1000000\n")
    before = bench.run(vsm, [], (script + " MAP\n").encode())
    loaded = run(TOOL, "--vsm", vsm, given=before.output)
    assert one_line(loaded, TOOL) == "standard input:12: registers 0, 1 and 15 aren't brought back"
    assert told(vsm, [], list(before.answers[-1].rest)) is None


def test_a_register_that_does_not_come_back(run: Callable, vsm: str) -> None:
    given = bench.run(vsm, [], b" STORAGE OBTAIN,LENGTH=8,ADDR=(3)\n MAP\n").output.decode()
    given = given.replace("R0 00000000 00006000 00000000 00006000", "R0 00000000 00000000 00000007 00006000")
    done = run(TOOL, "--vsm", vsm, given=given.encode())
    assert done.returncode == 0 and done.stderr.decode().splitlines() == [
        "vsm-load: standard input:4: register 2 isn't brought back",
        "vsm-load: standard input:4: registers 0, 1 and 15 aren't brought back"]


def test_an_empty_subpool_while_all_pages_are_taken(vsm: str) -> None:
    script = (" STORAGE OBTAIN,LENGTH=8,SP=5\n STORAGE RELEASE,SP=5\n STORAGE OBTAIN,LENGTH=65536\n"
              " STORAGE OBTAIN,LENGTH=65536,LOC=31\n MAP\n")
    lines = list(bench.run(vsm, [], script.encode()).answers[-1].rest)
    assert " SUBPOOL 5 OWNER 1 SHARERS NONE" in lines and told(vsm, [], lines) is None


def test_the_map_alone_and_by_a_file(run: Callable, vsm: str, tmp_path: Path) -> None:
    lines = CELLS.split("0000011 MAP\n")[1].split("0000012")[0]
    path = tmp_path / "map"
    path.write_bytes(lines.replace("\n", "\r\n").encode())
    by_file, by_pipe = run(TOOL, "--vsm", vsm, path), run(TOOL, "--vsm", vsm, "-", given=lines.encode())
    whole = run(TOOL, "--vsm", vsm, "--map", 11, given=CELLS.encode())
    assert by_file.returncode == 0 and by_file.stdout == by_pipe.stdout == whole.stdout


# Maps written by hand.

A = LOW_START
B, C, D = A + PAGE, A + 2 * PAGE, A + 3 * PAGE


def tasks(*parents: int) -> list[Task]:
    """Tasks 1, 2, .. with their parents, and without words in registers."""
    return [Task(k, parent, k == 1, [0] * 16) for k, parent in enumerate(parents, 1)]


def subpool(number: int, owner: int, *sharers: int, extents: Iterable[tuple[int, int]] = (),
            free: Iterable[tuple[int, int]] = ()) -> Subpool:
    """A subpool with its extents and free areas, as from one address up to another."""
    return Subpool(number, owner, list(sharers), [Area(at, end - at) for at, end in extents],
                   [Area(at, end - at) for at, end in free])


def pool(name: str, counts: tuple[int, int], *extents: tuple[int, int]) -> CellPool:
    """A cell pool of subpool 0 of task 1, with cells of 8 bytes, all of which are in use."""
    return CellPool(name, 0, 1, 8, *counts, 24, None, [Area(at, end - at) for at, end in extents])


def hand_map(them: list[Task], subpools: list[Subpool], pools: Iterable[CellPool] = (),
             names: Iterable[Name] = ()) -> bytes:
    """The text of a map with sums that are right, in regions of 16 pages."""
    runs = [run for it in subpools for run in it.extents]
    pages = [sum(run.length for run in runs if (run.start >= HIGH_START) == is_high) // PAGE
             for is_high in (False, True)]
    free = sum(area.length for it in subpools for area in it.free)
    shown = Map(them, subpools, list(pools), pages[0], 16, pages[1], 16, sum(pages) * PAGE - free, free, list(names))
    return "".join(line + "\n" for line in map_lines(shown)).encode()


def test_a_map_by_hand_without_registers(run: Callable, vsm: str) -> None:
    given = hand_map(tasks(0), [subpool(0, 1, extents=[(A, B)], free=[(A + 256, B)])])
    done = run(TOOL, "--vsm", vsm, given=given)
    assert one_line(done, TOOL) == "standard input:2: registers 0, 1 and 15 aren't brought back"
    assert done.returncode == 0 and done.stdout.decode().splitlines() == [
        " STORAGE OBTAIN,LENGTH=4096,SP=0,LOC=24", " STORAGE RELEASE,LENGTH=3840,ADDR=X'6100',SP=0"]


NO_SCRIPT = {
    "shared past its parent": (hand_map(tasks(0, 1, 1, 2), [subpool(0, 1, 2, 3, 4), subpool(5, 3, 4)]),
                               " SUBPOOL 5 OWNER 3", "no task can have shared the subpool"),
    "a parent that shares its child's": (hand_map(tasks(0, 1), [subpool(0, 1, 2), subpool(5, 2, 1)]),
                                         " SUBPOOL 5 OWNER 2", "no task can have shared the subpool"),
    "each before the other": (hand_map(tasks(0, 1, 1), [subpool(0, 1, 2, 3), subpool(5, 2, 3), subpool(6, 3, 2)]),
                              " TASK 2", "no order of ATTACHes lets each task see its subpools"),
    "shared and given": (hand_map(tasks(0, 1, 2), [subpool(0, 1, 2, 3), subpool(5, 3, 2)]),
                         " TASK 2", "no order of ATTACHes lets each task see its subpools"),
    "two at once for a while": (hand_map(tasks(0, 1, 2, 3), [subpool(0, 1, 2, 3, 4), subpool(5, 1, 2),
                                                              subpool(5, 4, 3)]),
                                " TASK 2", "the task sees two subpools 5 at once"),
    "an extent before itself": (hand_map(tasks(0), [subpool(0, 1, extents=[(A, C)])],
                                         [pool("P", (1, 513), (B + 8, B + 16), (A, B + 8))]),
                                "  EXTENT %08X" % (B + 8), "it"),
    "extents before each other": (hand_map(tasks(0), [subpool(0, 1, extents=[(A, D + PAGE)])],
                                           [pool("P", (1, 513), (D + 8, D + 16), (A, B + 8)),
                                            pool("Q", (1, 513), (B + 8, B + 16), (C, D + 8))]),
                                  "  EXTENT %08X" % (D + 8), "it"),
}


@pytest.mark.parametrize("kind", NO_SCRIPT)
def test_no_script_is_found(run: Callable, vsm: str, kind: str) -> None:
    given, line, what = NO_SCRIPT[kind]
    done = run(TOOL, "--vsm", vsm, given=given)
    text = one_line(done, TOOL)
    assert done.returncode == 4 and done.stdout == b"" and ": no script is found: " in text and what in text
    assert given.decode().splitlines()[int(text.split(":")[1]) - 1].startswith(line), text


@pytest.mark.parametrize("given, line, what", [
    (hand_map(tasks(0, 3, 2), [subpool(0, 1, 2, 3)]), " TASK 2", "its parents form a circle"),
    (hand_map(tasks(0), [subpool(0, 1)], names=[Name("HERE", HIGH_START - 8)]), " NAME HERE", "a name has the address"),
    (hand_map(tasks(0, 1), [subpool(0, 1, 2), subpool(5, 1, 2), subpool(5, 2)]), " SUBPOOL 5 OWNER 2",
     "task 2 sees another subpool 5"),
    (hand_map(tasks(0), [subpool(0, 1, extents=[(A, C)]), subpool(5, 1, extents=[(B, D)])]), "  EXTENT %08X" % B,
     "a page of it is in the extent of line 5 too"),
    (hand_map(tasks(0), [subpool(0, 1, extents=[(A, B)], free=[(A, A + 8), (A + 8, A + 16)])]),
     "  FREE %08X" % (A + 8), "with something between two of them"),
    (hand_map(tasks(0), [subpool(0, 1, extents=[(A, B)])], [pool("P", (1, 1), (B, B + 8))]), "  EXTENT %08X" % B,
     "the extent isn't in the subpool's pages"),
    (hand_map(tasks(0), [subpool(0, 1, extents=[(HIGH_START, HIGH_START + PAGE)])],
              [pool("P", (1, 1), (HIGH_START, HIGH_START + 8))]), "  EXTENT %08X" % HIGH_START, "LOC 24"),
    (hand_map(tasks(0), [subpool(0, 1, extents=[(A, D)])], [pool("P", (1024, 1), (A + 8, C + 8))]),
     "  EXTENT %08X" % (A + 8), "an extent that takes a new page begins with it"),
])
def test_maps_by_hand_that_are_wrong(run: Callable, vsm: str, given: bytes, line: str, what: str) -> None:
    done = run(TOOL, "--vsm", vsm, given=given)
    text = one_line(done, TOOL)
    assert done.returncode == 8 and done.stdout == b"" and ": the map is wrong: " in text and what in text
    assert given.decode().splitlines()[int(text.split(":")[1]) - 1].startswith(line), text


# What is no map.

@pytest.mark.parametrize("text, told", [
    (b"", "standard input:1:1: the map is cut short"),
    (b"hello\n", "standard input:1:1: no line of a map"),
    (b"\n\n", "standard input:1:1: no line of a map"),
    (b"\0\1\2\xff", "standard input:1:1: no line of a map"),
    (b"0000001 RC=0 A=00006000 L=00000010\n", "an output of vsm without one"),
    (b" TASK 1 PARENT 0\n TASK 2 PARENT 1\n",
     "standard input:2:1: a line TASK isn't allowed here: expected R0"),
    (b"0000001 MAP\n TASK 1 PARENT 0 CURRENT\n",
     "standard input:2:1: the map is cut short: it ends after TASK"),
])
def test_what_is_no_map(run: Callable, vsm: str, text: bytes, told: str) -> None:
    done = run(TOOL, "--vsm", vsm, given=text)
    assert done.returncode == 8 and done.stdout == b"" and told in one_line(done, TOOL)


@pytest.mark.parametrize("size", ["x", "9" * 5000])
def test_one_of_other_options(run: Callable, vsm: str, size: str) -> None:
    done = run(TOOL, "--vsm", vsm, "--high", 96, given=CELLS.encode())
    assert done.returncode == 8
    assert re.match(r"standard input:\d+: the map is of other options: its region has 16 pages, which is --high 64, "
                    r"not --high 96$", one_line(done, TOOL))
    wrong = run(TOOL, "--vsm", vsm, "--low", size, given=CELLS.encode())
    assert wrong.returncode == 16 and "--low takes a number" in one_line(wrong, TOOL)


def test_no_such_map_and_no_such_file(run: Callable, vsm: str, tmp_path: Path) -> None:
    assert "no map of line 5" in one_line(run(TOOL, "--vsm", vsm, "--map", 5, given=CELLS.encode()), TOOL)
    assert "can't be read" in one_line(run(TOOL, "--vsm", vsm, tmp_path / "nowhere"), TOOL)
    assert "can't be read" in one_line(run(TOOL, "--vsm", vsm, tmp_path), TOOL)


# The last map of the example, with one text changed. Lines are those of the map.
LAST = CELLS.split("0000031 MAP\n")[1]


@pytest.mark.parametrize("old, new, line, told", [
    ("TASK 2 PARENT 1", "TASK 2 PARENT 3", 4, "no task 3 attached it"),
    (" CURRENT", "", 4, "exactly one task is CURRENT"),
    ("SUBPOOL 0 OWNER 1 SHARERS 2", "SUBPOOL 0 OWNER 1 SHARERS NONE", 4, "each task sees a subpool 0"),
    ("SUBPOOL 0 OWNER 1 SHARERS 2", "SUBPOOL 0 OWNER 1 SHARERS " + "9" * 5000, 7, "not a whole line SUBPOOL"),
    ("SUBPOOL 3 OWNER 2", "SUBPOOL 3 OWNER 9", 8, "task 9 doesn't exist"),
    ("SUBPOOL 3 OWNER 2 SHARERS NONE\n", "SUBPOOL 128 OWNER 2 SHARERS NONE\n", 8, "from 0 to 127"),
    ("EXTENT 00006000 00001000", "EXTENT 00006000 00001008", 9, "a run of pages of one region"),
    ("EXTENT 00006000 00001000", "EXTENT 00005000 00001000", 9, "a run of pages of one region"),
    ("FREE 00006078 00000F88", "FREE 00006079 00000F88", 10, "a run of doublewords"),
    ("FREE 00006078 00000F88", "FREE 00006078 00001F88", 10, "isn't in the subpool's pages"),
    ("FREE 00006078 00000F88", "FREE 00006000 00001000", 10, "a page in which nothing is taken"),
    ("FREE 00006078 00000F88", "FREE 00006070 00000F88", 13, "it has storage of line 10"),
    ("SIZE 24", "SIZE 26", 11, "a multiple of 4"),
    ("PRIMARY 3", "PRIMARY 4", 12, "4 cells of 24 bytes have a length of X'00000060'"),
    ("LOC 24 HDR", "LOC 64 HDR", 11, "not a whole line CELLPOOL"),
    ("FREECELL 00006000", "FREECELL 00006008", 14, "no cell of this cell pool begins there"),
    ("PAGES LOW 1 OF", "PAGES LOW 2 OF", 15, "the extents have 1 pages below the line"),
    ("BYTES TAKEN 120", "BYTES TAKEN 128", 16, "120 bytes are taken"),
    ("NAME SECOND", "NAME FIRST", 18, "a name is defined once"),
    ("NAME FIRST 00006000", "NAME FIRST 00016000", 17, "can't be one"),
])
def test_maps_of_the_example_that_are_wrong(run: Callable, vsm: str, old: str, new: str, line: int, told: str) -> None:
    assert LAST.count(old) >= 1
    done = run(TOOL, "--vsm", vsm, given=LAST.replace(old, new, 1).encode())
    text = one_line(done, TOOL)
    assert done.returncode == 8 and done.stdout == b"" and told in text
    assert text.startswith("standard input:%d:" % line), text
