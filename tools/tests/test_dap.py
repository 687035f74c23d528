"""vsm-dap: scripts walked in both directions, breakpoints, memory, the console, and clients that are wrong."""
from __future__ import annotations

import base64
import json
import os
import random
import shutil
import signal
import threading
import time
from pathlib import Path
from typing import Any, Iterator, Optional

import pytest
import editors
import vsm_bench
from conftest import SECONDS, TOP
from editors import BAD, LIES, Debugged, Message, damaged_value, framed, tree
from load_scripts import small_script
from protocols import check_dap
from test_damaged import SCRIPTS as FILES, damaged

from vsmtools import bench, debugging, rpc
from vsmtools.command import Fault
from vsmtools.debugging import Adapter
from vsmtools.lines import is_continued, options_for, statements
from vsmtools.maps import Map, parse_map
from vsmtools.rpc import Stream, parsed
from vsmtools.walking import History, Lost, Script, State

EXAMPLES = sorted((TOP / "examples").glob("*.vsm"))
FIRST = TOP / "examples" / "first-steps.vsm"
SCRIPTS = 200    # generated
TYPED = ("storage obtain,length=8,addr=Z", "back 1", "forward 1", "map", "storage foo")


@pytest.fixture
def client(vsm: str) -> Iterator[Debugged]:
    it = Debugged(vsm)
    yield it
    assert it.close() == 0


def written(folder: Path, text: str) -> Path:
    path = folder / "script.vsm"
    path.write_bytes(text.encode("utf-8", "surrogateescape"))
    return path


# Both ways.

class Inner:
    """A client in this process: the messages of an adapter go to it directly."""

    def __init__(self, vsm: str) -> None:
        self.adapter, self.came, self.sent = Adapter(self, vsm), [], 0    # type: ignore[arg-type]
        self.is_ended = False

    def write(self, message: Message) -> None:
        check_dap(message)
        self.came.append(message)

    def put(self, messages: list[str]) -> None:
        for it in messages:
            self.write(json.loads(it))

    def ask(self, command: str, **arguments: Any) -> Message:
        self.sent, self.came = self.sent + 1, []
        self.adapter.handle({"seq": self.sent, "type": "request", "command": command, "arguments": arguments})
        while self.adapter.going:
            self.adapter.go_on()
        found = next(it for it in self.came if it["type"] == "response" and it["command"] == command)
        assert found["success"], found
        return found.get("body") or {}

    def begin(self, script: Path, **more: Any) -> None:
        self.ask("initialize", adapterID="vsm")
        self.adapter.handle({"seq": 0, "type": "request", "command": "launch",
                             "arguments": {"program": str(script), "stopOnEntry": True, **more}})
        self.ask("configurationDone")

    def go(self, command: str) -> Message:
        self.ask(command, threadId=1)
        return next(it["body"] for it in self.came if it.get("event") == "stopped")

    def line(self, thread: int) -> int:
        return self.ask("stackTrace", threadId=thread)["stackFrames"][0]["line"]

    def close(self) -> None:
        self.adapter.need().walk.close()


class Expected:
    """The map, the number of undone changes and the answer at each place of a script, by one run of vsm."""

    def __init__(self, vsm: str, path: Path) -> None:
        self.script = Script(path.name, path.read_bytes())
        count, asked = len(self.script.extents), [" MAP", " FORWARD 65536"]
        texts = [self.script.text(k) for k in range(count)]
        if texts and is_continued(texts[-1][-1].encode("utf-8", "surrogateescape")):
            texts[-1] = [*texts[-1], " BACK 0"]
        lines = asked + [line for text in texts for line in [*text, *asked]]
        data = "".join(it + "\n" for it in lines).encode("utf-8", "surrogateescape")
        found = bench.run(vsm, options_for("", path.read_bytes()), data).answers
        self.maps = [parse_map(it.rest) for it in found[0::3]]
        self.undone = [int(it.text[15:]) for it in found[1::3]]
        self.answers = [it.text for it in found[2::3]]

    def line(self, place: int) -> int:
        extents = self.script.extents
        return extents[place].first if place < len(extents) else max(1, len(self.script.lines))

    def judge(self, client: Any, place: int) -> None:
        """What a client shows at a place."""
        shown = self.maps[place]
        current = next(it.number for it in shown.tasks if it.is_current)
        threads = client.ask("threads")["threads"]
        assert [it["id"] for it in threads] == [it.number for it in shown.tasks]
        assert [it["id"] for it in threads if it["name"].endswith("current")] == [current]
        for task in {current, shown.tasks[-1].number}:
            assert tree(client.ask, task) == variables(shown, self.undone[place], task), (place, task)
        assert client.line(current) == self.line(place)


def variables(shown: Map, undone: int, task: int) -> dict[str, Any]:
    """A map as a client has to show it."""
    def areas(found: list[Any], kind: str) -> Any:
        return {"%s %d" % (kind, k): "%08X %08X" % (it.start, it.length) for k, it in enumerate(found, 1)}

    def numbers(found: list[int]) -> Any:
        return {"%d" % k: "%08X" % it for k, it in enumerate(found, 1)}
    pools = {it.name: {
        "subpool": "%d of task %d" % (it.subpool, it.owner), "size": str(it.size), "primary": str(it.primary),
        "secondary": str(it.secondary), "loc": str(it.location),
        **({"header": "'%s'" % it.header} if it.header else {}),
        "extents": areas(it.extents, "extent"), "free cells": numbers(it.free_cells),
        "cells in use": numbers([cell for cell in it.cells if cell not in it.free_cells])} for it in shown.cell_pools}
    return {
        "Names": {it.name: "%08X" % it.word for it in shown.names},
        "Subpools": {"%d of task %d" % (it.number, it.owner): {
            "number": str(it.number), "owner": str(it.owner), "sharers": ",".join(map(str, it.sharers)) or "NONE",
            "extents": areas(it.extents, "extent"), "free": areas(it.free, "free")} for it in shown.subpools},
        "Cell pools": pools,
        "Registers of task %d" % task: {
            "R%d" % k: "%08X" % word for it in shown.tasks if it.number == task for k, word in enumerate(it.registers)},
        "Pages and bytes": {
            "pages below": "%d of %d" % (shown.low_assigned, shown.low_pages),
            "pages above": "%d of %d" % (shown.high_assigned, shown.high_pages), "bytes taken": str(shown.taken),
            "bytes free": str(shown.free), "kept changes": "%d of %d" % (shown.kept, shown.history),
            "undone changes": str(undone)}}


def walk_both_ways(client: Any, expected: Expected, *stops: list[int]) -> None:
    """To the end and back by single steps; then to the end at once, and back by breakpoints at these places."""
    count = len(expected.script.extents)

    def set_breaks(places: list[int]) -> None:
        client.ask("setBreakpoints", source={"path": client.path},
                   breakpoints=[{"line": expected.line(k)} for k in places])
    expected.judge(client, 0)
    for place in range(1, count + 1):
        client.go("next")
        expected.judge(client, place)
    for place in range(count - 1, -1, -1):
        client.go("stepBack")
        expected.judge(client, place)
    assert client.go("stepBack")["reason"] == "entry"
    client.ask("setExceptionBreakpoints", filters=[])
    for places in stops:
        set_breaks([])
        assert client.go("continue")["reason"] == "end" or not count
        set_breaks(places)
        for place in sorted({*places, 0}, reverse=True):
            assert client.go("reverseContinue")["reason"] == ("breakpoint" if place else "entry")
            expected.judge(client, place)


@pytest.mark.parametrize("path", EXAMPLES, ids=lambda it: it.stem)
def test_lessons_both_ways(vsm: str, client: Debugged, path: Path) -> None:
    client.begin(path)
    client.path = str(path)    # type: ignore[attr-defined]
    expected = Expected(vsm, path)
    count = len(expected.script.extents)
    walk_both_ways(client, expected, [count // 2], list(range(count)))


def generated(seed: int) -> str:
    """A script with steps of its own, in regions and a history that are small; some lines are wrong."""
    chance = random.Random(seed)
    lines = small_script(seed).splitlines()[:40]
    for _ in range(len(lines) // 3):
        step = " %s %d" % (chance.choice(("BACK", "FORWARD")), chance.choice((0, 1, 1, 2, 3, 5)))
        lines.insert(chance.randrange(len(lines) + 1), chance.choice((
            step, step, step, " MAP", "* é", " STORAGE OBTAIN,LENGHT=8", " POKE X'6000',X'%02X'" % (seed % 256),
            " STORAGE OBTAIN,".ljust(71) + "X\n               LENGTH=8,ADDR=A%d" % seed, "\udcff\x00")))
    if seed % 9 == 0:
        lines.append(" STORAGE OBTAIN,LENGTH=8,".ljust(71) + "X")
    return "*! --low 16 --high 8 --history %d\n" % chance.choice((1, 2, 3, 5, 1024)) + "\n".join(lines)


def test_generated_scripts_both_ways(vsm: str, tmp_path: Path) -> None:
    for seed in range(SCRIPTS):
        path = written(tmp_path, generated(seed))
        client, expected = Inner(vsm), Expected(vsm, path)
        client.path = str(path)    # type: ignore[attr-defined]
        client.begin(path)
        print("script", seed, path.read_bytes())
        count = len(expected.script.extents)
        walk_both_ways(client, expected, random.Random(seed).sample(range(count), min(count, 3)),
                       list(range(count)) if seed % 2 else [])
        client.close()


def test_a_walk_at_random(vsm: str, tmp_path: Path) -> None:
    """To and fro, with statements of the console between, which come off first."""
    for seed in range(20):
        path = written(tmp_path, generated(seed))
        client, expected, chance = Inner(vsm), Expected(vsm, path), random.Random(seed)
        client.begin(path)
        place, count = 0, len(expected.script.extents)
        for _ in range(60):
            if chance.randrange(6) == 0:
                said = [client.ask("evaluate", expression=text, context="repl")["result"]
                        for text in chance.choices(TYPED, k=3)]
                for text in said:
                    if text.startswith(("RC=", "KEPT=")):
                        client.go("stepBack")
            elif chance.randrange(2) and place < count:
                client.go("next")
                place += 1
            elif place:
                client.go("stepBack")
                place -= 1
            expected.judge(client, place)
        client.close()


# Stops.

def test_breakpoints(client: Debugged, tmp_path: Path) -> None:
    path = written(tmp_path, "* a comment\n STORAGE OBTAIN,LENGTH=8,SP=1,ADDR=P\n" + " STORAGE OBTAIN,".ljust(71)
                   + "X\n               LENGTH=8\n STORAGE OBTAIN,LENGTH=0\n PEEK P,4\n MAP\n")
    client.begin(path)
    found = client.ask("setBreakpoints", source={"path": str(path)}, breakpoints=[
        {"line": 1}, {"line": 4}, {"line": 5, "condition": "answer contains U3001"},
        {"line": 6, "condition": "answer contains OK"}, {"line": 7, "logMessage": "P is {P}, {P,4}, {answer} {no}"},
        {"line": 6, "hitCondition": "3"}, {"line": 6, "condition": "x > 1"}, {"line": 60}])["breakpoints"]
    assert [it.get("line") for it in found] == [2, 3, 5, 6, 7, None, None, None] and found[1]["endLine"] == 4
    assert len({it["id"] for it in found if it["verified"]}) == 5
    client.ask("setExceptionBreakpoints", filters=[])
    stops = [(client.go("continue")["reason"], client.line()) for _ in range(2)]
    assert stops == [("breakpoint", 3), ("breakpoint", 5)]
    client.events.clear()
    client.ask("continue", threadId=1)
    while not any(it["event"] == "stopped" for it in client.events):
        client.hear()
    assert [it["body"]["output"] for it in client.events if it["body"].get("category") == "console"] \
        == ["P is 00006000, 00000000, MAP no isn't defined here\n"]
    assert [(client.go("reverseContinue")["reason"], client.line()) for _ in range(3)] \
        == [("breakpoint", 5), ("breakpoint", 3), ("entry", 2)]
    assert client.ask("breakpointLocations", source={"path": str(path)}, line=1, endLine=5)["breakpoints"] \
        == [{"line": 2, "endLine": 2}, {"line": 3, "endLine": 4}, {"line": 5, "endLine": 5}]
    other = client.ask("setBreakpoints", source={"path": "/x"}, breakpoints=[{"line": 1}])["breakpoints"]
    assert not other[0]["verified"]


def test_lines_that_start_at_0(vsm: str) -> None:
    client = Debugged(vsm)
    client.initialize(linesStartAt1=False, columnsStartAt1=False)
    client.send("launch", program=str(FIRST))
    client.until("initialized")
    found = client.ask("setBreakpoints", source={"path": str(FIRST)}, breakpoints=[{"line": 4}])
    client.ask("configurationDone")
    assert client.until("stopped")["body"]["reason"] == "breakpoint"
    frame = client.ask("stackTrace", threadId=1)["stackFrames"][0]
    assert found["breakpoints"][0]["line"] == frame["line"] == frame["endLine"] == 4 and frame["column"] == 0
    assert client.ask("breakpointLocations", source={"path": str(FIRST)}, line=0)["breakpoints"] \
        == [{"line": 0, "endLine": 0}]
    assert client.close() == 0


def test_answers_stop_at_their_statement(client: Debugged, tmp_path: Path) -> None:
    script = " STORAGE OBTAIN,LENGHT=8\n STORAGE OBTAIN,LENGTH=0\n BACK 9\n MAP\n PEEK Q,1\n"
    client.settings = [("setExceptionBreakpoints", {"filters": ["FAULT", "ABEND"]})]
    client.launch(written(tmp_path, script))
    assert client.until("stopped")["body"]["text"] == "FAULT OPERAND" and client.line() == 1
    assert client.go("continue")["text"] == "ABEND U3001" and client.line() == 2
    found = client.ask("exceptionInfo", threadId=1)
    assert found["exceptionId"] == "ABEND U3001" and "length is zero" in found["description"]
    client.go("stepIn")
    assert client.line() == 4
    assert client.go("stepOut")["reason"] == "end"
    client.go("reverseContinue")
    assert client.line() == 2
    client.ask("setExceptionBreakpoints", filters=["REFUSED"])
    assert [client.go("continue").get("text") for _ in range(3)] == ["REFUSED KEPT=0", "REFUSED NAME",
                                                                     "the script's end"]


def test_lists_of_more_than_a_hundred_are_paged(client: Debugged, tmp_path: Path) -> None:
    """And Names comes first, before the registers."""
    client.begin(written(tmp_path, "".join(" STORAGE OBTAIN,LENGTH=8,ADDR=A%03d\n" % k for k in range(120))
                         + " CPOOL BUILD,PCELLCT=101,CSIZE=8,CPID=C\n"))
    client.go("continue")
    scopes = client.ask("scopes", frameId=1)["scopes"]
    assert [it["name"].split()[0] for it in scopes] == ["Names", "Subpools", "Cell", "Registers", "Pages", "Last"]
    assert [it.get("indexedVariables") for it in scopes] == [120, None, None, None, None, None]
    found = client.ask("variables", variablesReference=scopes[0]["variablesReference"], filter="indexed", start=110,
                       count=50)["variables"]
    assert [it["name"] for it in found] == ["A%03d" % k for k in range(110, 120)]
    assert len(tree(client.ask, 1)["Cell pools"]["C"]["free cells"]) == 101


def test_data_breakpoints_both_ways(client: Debugged, tmp_path: Path) -> None:
    client.begin(written(tmp_path, " STORAGE OBTAIN,LENGTH=16,ADDR=P\n STORAGE OBTAIN,LENGTH=8,SP=5\n POKE P,X'C1'\n"
                         " MAP\n POKE X'600F',X'C2'\n STORAGE OBTAIN,LENGTH=8,ADDR=P\n RUN 1\n STORAGE RELEASE,SP=5\n"))
    client.go("next")
    scopes = {it["name"]: it["variablesReference"] for it in client.ask("scopes", frameId=1)["scopes"]}

    def info(name: str, **more: Any) -> Any:
        return client.ask("dataBreakpointInfo", name=name, **more)["dataId"]
    ids = [info("P", variablesReference=scopes["Names"]), info("R1", variablesReference=scopes["Registers of task 1"]),
           info("0x6000", asAddress=True, bytes=16), info("X'600F',1"), "subpool:5:1"]
    assert ids[:4] == ["name:P", "register:1:1", "bytes:6000,16", "bytes:600F,1"]
    assert info("nothing such") is info("0", asAddress=True, bytes=99999) is None
    client.go("stepBack")

    def stops(watched: str) -> tuple[list[int], list[int]]:
        assert client.ask("setDataBreakpoints", breakpoints=[{"dataId": watched}])["breakpoints"][0]["verified"]
        found: list[list[int]] = []
        for command in ("continue", "reverseContinue"):
            found.append([])
            while client.go(command)["reason"] == "data breakpoint":
                found[-1].append(client.line())
        return found[0], found[1]
    assert [stops(it) for it in ids] == [
        ([2, 7], [6, 1]), ([2, 3, 7], [6, 2, 1]), ([2, 4, 6], [5, 3, 1]), ([2, 6], [5, 1]), ([3, 8], [8, 2])]
    assert not client.ask("setDataBreakpoints", breakpoints=[{"dataId": "rubbish"}])["breakpoints"][0]["verified"]


def test_a_data_breakpoint_on_a_cell_pool(client: Debugged, tmp_path: Path) -> None:
    client.begin(written(tmp_path, " MAP\n CPOOL BUILD,PCELLCT=1,CSIZE=8,CPID=C\n CPOOL GET,CPID=C,CELL=P\n "
                                   "POKE P,X'C1'\n CPOOL FREE,CPID=C,CELL=P\n CPOOL DELETE,CPID=C\n"))
    assert client.ask("setDataBreakpoints", breakpoints=[{"dataId": "cellpool:C"}])["breakpoints"][0]["verified"]
    for command, wanted in (("continue", [3, 4, 6, 6]), ("reverseContinue", [6, 5, 3, 2])):
        found = []
        while client.go(command)["reason"] == "data breakpoint":
            found.append(client.line())
        assert found == wanted


def test_tasks_come_and_go(client: Debugged) -> None:
    client.begin(TOP / "examples" / "tasks-and-subpools.vsm")
    known = {1}
    for command in ("next", "stepBack"):
        reason = ""
        while reason not in ("end", "entry"):
            client.events.clear()
            client.ask(command, threadId=1)
            while not any(it["event"] == "stopped" for it in client.events):
                client.hear()
            for it in client.events:
                if it["event"] == "thread":
                    known ^= {it["body"]["threadId"]}
                    assert (it["body"]["threadId"] in known) == (it["body"]["reason"] == "started")
            reason = client.events[-1]["body"]["reason"]
            assert {it["id"] for it in client.ask("threads")["threads"]} == known


# Memory and the console.

def test_memory(client: Debugged, tmp_path: Path) -> None:
    client.begin(written(tmp_path, " STORAGE OBTAIN,LENGTH=8192,SP=1,ADDR=P\n STORAGE OBTAIN,LENGTH=8,SP=2,BNDRY=PAGE\n"
                                   " POKE P,X'C1C2C3C4'\n STORAGE RELEASE,LENGTH=8192,SP=1,ADDR=P\n"))
    for _ in range(3):
        client.go("next")

    def read(place: str, offset: int, count: int) -> tuple[str, bytes, int]:
        it = client.ask("readMemory", memoryReference=place, offset=offset, count=count)
        return it["address"], base64.b64decode(it["data"]), it.get("unreadableBytes", 0)

    def write(place: str, data: bytes) -> Message:
        return {"memoryReference": place, "data": base64.b64encode(data).decode()}
    assert read("0x00006000", 0, 4) == ("0x00006000", b"\xc1\xc2\xc3\xc4", 0)
    assert read("0x6000", 8000, 1000)[1:] == (bytes(1000), 0)
    assert read("0x6000", 0, 5 * 4096)[1:] == (b"\xc1\xc2\xc3\xc4" + bytes(3 * 4096 - 4), 2 * 4096)
    assert read("0x6000", -16, 32)[1:] == read("0xFFFFFFF0", 0, 64)[1:] == (b"", 16)
    some = bytes(range(256)) * 2
    assert client.ask("writeMemory", **write("0x6100", some))["bytesWritten"] == 512
    assert read("0x6100", 0, 512)[1] == some and client.line() == 4
    assert "S0C4" in client.refused("writeMemory", **write("0x8F80", bytes(512))) and read("0x6100", 0, 512)[1] == some
    assert client.ask("writeMemory", allowPartial=True, **write("0x8F00", bytes(512)))["bytesWritten"] == 256
    for _ in range(3):
        client.go("stepBack")
        assert client.line() == 4
    assert read("0x6100", 0, 512)[1] == bytes(512)
    client.go("next")
    assert read("0x6000", 0, 16)[1:] == (b"", 16)


def test_console(client: Debugged) -> None:
    client.begin(FIRST)
    assert client.say(".why") == "nothing was carried out yet"
    client.go("next")
    found = client.ask("evaluate", expression="storage obtain,length=8,sp=9,addr=q", context="repl")
    assert found["result"] == "RC=0 A=00007000 L=00000008"
    changed = client.ask("variables", variablesReference=found["variablesReference"])["variables"]
    assert "+ NAME Q 00007000" in [it["value"] for it in changed] and client.until("invalidated")
    assert client.say("Q") == client.say("(R1)", "watch") == client.say("r1", "hover") == "00007000"
    assert client.say("q,4", "hover") == "00000000" and client.say("0,4") == "unassigned"
    assert client.say("peek q,2") == "D=0000" and client.say("map").startswith("MAP\n TASK 1")
    assert client.say(".why").startswith("line 2: 8 bytes") and "STORAGE OBTAIN" in client.say(".who X'6000'")
    assert client.say(".log").count("\n") == 1 and "any statement" in client.say(".help") and client.line() == 2
    last = [it for it in client.ask("scopes", frameId=1)["scopes"] if it["expensive"]][0]["variablesReference"]
    assert client.ask("variables", variablesReference=last)["variables"][1]["value"] == "RC=0 A=00007000 L=00000008"
    client.go("stepBack")
    assert client.line() == 2 and "isn't defined" in client.refused("evaluate", expression="Q", context="watch")
    client.go("stepBack")
    assert client.line() == 1
    assert "sets only" in client.refused("setVariable", variablesReference=1, name="R1", value="1")
    assert client.refused("evaluate", expression="map\nmap", context="repl")


# Begin and end.

def test_restart_terminate_and_no_debug(vsm: str) -> None:
    breaks = ("setBreakpoints", {"source": {"path": str(FIRST)}, "breakpoints": [{"line": 5}]})
    client = Debugged(vsm)
    client.settings = [breaks]
    client.launch(FIRST)
    assert client.until("stopped")["body"]["reason"] == "breakpoint"
    assert client.go("restart")["reason"] == "breakpoint" and client.line() == 5
    client.ask("terminate")
    assert client.until("exited")["body"]["exitCode"] == 0 and client.until("terminated")
    assert client.refused("next", threadId=1) == "the script has ended"
    assert client.go("restart")["reason"] == "breakpoint"
    client.ask("disconnect")
    assert client.child.wait(20) == 0
    client = Debugged(vsm)
    client.settings = [breaks]
    client.launch(FIRST, noDebug=True)
    assert client.until("exited", "stopped")["body"]["exitCode"] == 0
    assert client.close() == 0


def test_a_stream_that_is_full_for_a_while_is_written_to() -> None:
    """Its reader gets every byte; only one that has gone ends it."""
    reader, writer = os.pipe()
    os.set_blocking(writer, False)
    message, got = {"it": "x" * 1_000_000}, bytearray()

    def read() -> None:
        while len(got) < 1_000_000:
            got.extend(os.read(reader, 1 << 16))
    thread = threading.Thread(target=read)
    timer = threading.Timer(0.2, thread.start)
    timer.start()
    stream = Stream(0, writer)
    stream.write(message)
    timer.join()
    thread.join(SECONDS)
    os.close(reader)
    with pytest.raises(Fault, match="the client has gone"):
        stream.write(message)
    os.close(writer)
    assert parsed(bytes(got).partition(b"\r\n\r\n")[2]) == message and stream.is_ended


def test_options_of_the_script_and_of_the_launch(client: Debugged, tmp_path: Path) -> None:
    client.begin(written(tmp_path, "*! --low 8\n STORAGE OBTAIN,LENGTH=8\n"), low=16, history=3)
    found = tree(client.ask, 1)["Pages and bytes"]
    assert found["pages below"] == "0 of 2" and found["kept changes"] == "0 of 3"


def test_pause_in_a_long_script(client: Debugged, tmp_path: Path) -> None:
    """A million lines; a run back hears the client too."""
    client.launch(written(tmp_path, " STORAGE OBTAIN,LENGTH=8,ADDR=P\n STORAGE RELEASE,LENGTH=8,ADDR=P\n" * 500_000))
    client.ask("pause", threadId=1)
    assert client.until("stopped")["body"]["reason"] == "pause"
    at = client.line()
    assert 1 < at < 100_000
    assert client.go("stepBack")["reason"] == "step" and client.line() == at - 1
    assert client.go("reverseContinue")["reason"] == "entry"


# Wrong clients, wrong scripts.

@pytest.mark.parametrize("lie", LIES)
def test_a_length_that_lies_costs_two_messages_at_most(client: Debugged, lie: int) -> None:
    client.raw(framed(b'{"seq":1,"type":"request","command":"threads"}', lie))
    client.write({"seq": 2, "type": "event", "event": "none"})
    client.initialize()
    assert client.events[0]["body"]["category"] == "stderr"


@pytest.mark.parametrize("data", BAD, ids=range(len(BAD)))
def test_a_bad_message_is_said_and_passed_over(client: Debugged, data: bytes) -> None:
    client.raw(data)
    client.initialize()
    assert {it["body"]["category"] for it in client.events} == {"stderr"}
    assert client.refused("pause", threadId=1) == "no script is launched"


def test_wrong_requests_are_refused_and_it_lives(client: Debugged, tmp_path: Path) -> None:
    assert client.refused("threads") == "initialize comes first"
    client.initialize()
    client.open[0] = "threads"
    client.write({"seq": True, "type": "request", "command": "threads"})    # the answer has 0
    assert not client.response(0)["success"]
    binary = written(tmp_path, "\x00\x01\udcff" * 1000 + "\n" + " MAP\udcfe\n" * 3)
    wrong = [("variables", {"variablesReference": 5}), ("nothing", {}), ("launch", {}), ("launch", {"program": "/"}),
             ("launch", {"program": "/nowhere"}), ("launch", {"program": "/dev/stdin"}), ("launch", {"program": str(FIRST), "vsm": "/nowhere"}),
             ("launch", {"program": str(FIRST), "low": "x"}), ("setBreakpoints", {}), ("next", {"threadId": 1}),
             ("readMemory", {"memoryReference": "zz", "count": 1}), ("evaluate", {"expression": "P"}), ("restart", {}),
             ("initialize", {"adapterID": "vsm"})]
    for command, arguments in wrong:
        assert client.refused(command, **arguments)
    found = client.response(client.send("launch", program="/nowhere"))
    assert found["message"] == found["body"]["error"]["format"] == "/nowhere: can't be read: No such file or directory"
    assert found["body"]["error"]["showUser"]
    os.mkfifo(tmp_path / "fifo")
    found = client.response(client.send("launch", program=str(tmp_path / "fifo")))
    assert found["message"] == "%s: it's no regular file" % (tmp_path / "fifo")
    client.send("launch", program=str(binary), stopOnEntry=True)
    client.until("initialized")
    client.ask("configurationDone")
    client.until("stopped")
    for command, arguments in (
            ("variables", {"variablesReference": 9999}), ("variables", {"variablesReference": []}), ("evaluate", {}),
            ("readMemory", {"memoryReference": "zz", "count": 1}), ("setDataBreakpoints", {}),
            ("scopes", {"frameId": "x"}), ("stackTrace", {"threadId": "x"}), ("stackTrace", {"threadId": 7}),
            ("launch", {"program": str(FIRST)}), ("writeMemory", {"memoryReference": "0", "data": "?"}),
            ("setBreakpoints", {"source": {"path": str(binary)}, "breakpoints": [{"line": "x"}]})):
        assert client.refused(command, **arguments), command
    client.raw(b"Content-Length: 46\r\n\r\n{\"type\":\"request\",\"command\":5,\"arguments\":[7]}")
    assert client.go("continue")["reason"] == "end" and client.go("reverseContinue")["reason"] == "entry"


def test_wrong_values_in_all_requests(vsm: str, tmp_path: Path) -> None:
    """Each request has its answer, and its adapter lives."""
    path = written(tmp_path, " STORAGE OBTAIN,LENGTH=8,ADDR=P\n POKE P,A(P)\n STORAGE OBTAIN,LENGHT=8\n BACK 1\n")
    source, launch = {"path": str(path)}, {"program": str(path), "stopOnEntry": True, "low": 16, "history": 5}
    thread = {"threadId": 1}
    requests: list[tuple[str, Message]] = [
        *((it, thread) for it in ("next", "stepIn", "stepOut", "stepBack", "continue", "reverseContinue", "pause",
                                  "exceptionInfo", "stackTrace", "threads", "terminate")),
        ("setBreakpoints", {"source": source, "breakpoints": [
            {"line": 2, "condition": "answer contains OK"}, {"line": 3, "logMessage": "{P}"}]}),
        ("setExceptionBreakpoints", {"filters": ["FAULT"], "filterOptions": [{"filterId": "ABEND"}]}),
        ("dataBreakpointInfo", {"name": "0x6000", "bytes": 4, "asAddress": True}), ("scopes", {"frameId": 1}),
        ("setDataBreakpoints", {"breakpoints": [{"dataId": "name:P"}, {"dataId": "bytes:6000,8"}]}),
        ("variables", {"variablesReference": 1, "filter": "indexed", "start": 0, "count": 5}),
        ("evaluate", {"expression": "storage obtain,length=8", "context": "repl", "frameId": 1}),
        ("readMemory", {"memoryReference": "0x6000", "offset": 0, "count": 16}),
        ("writeMemory", {"memoryReference": "0x6000", "offset": 0, "allowPartial": True, "data": "AAAA"}),
        ("breakpointLocations", {"source": source, "line": 1, "endLine": 4}), ("restart", {"arguments": launch})]
    for seed in range(10):
        chance, client = random.Random(seed), Debugged(vsm)
        client.initialize()
        for arguments in (damaged_value(chance, launch), launch):
            client.post("launch", arguments)
        client.ask("configurationDone")
        for name, given in chance.choices(requests, k=60):
            print("seed", seed, name, arguments := damaged_value(chance, given))
            client.response(client.post(name, arguments))
        assert client.close() == 0


def test_the_library_is_asked_if_no_program_is_named(vsm: str, tmp_path: Path, monkeypatch: pytest.MonkeyPatch) -> None:
    """The client gets the same messages: of the library, if it's made, and of a program in the place of its bench."""
    path, asked = written(tmp_path, generated(5)), []

    def opened(options: list[str]) -> bench.Partner:
        asked.append(options)
        return bench.Partner(vsm, options)

    def told(named: Optional[str]) -> list[str]:
        found: list[str] = []
        stream = rpc.Stream(-1, -1)
        monkeypatch.setattr(stream, "put", found.extend)
        adapter = debugging.Adapter(stream, named)
        for name, arguments in (("initialize", {}), ("launch", {"program": str(path)}), ("configurationDone", {})):
            adapter.handle({"type": "request", "seq": 1, "command": name, "arguments": arguments})
        while adapter.going:
            adapter.go_on()
        adapter.need().walk.close()
        return found

    monkeypatch.setattr(debugging, "find_program", lambda named=None, is_needed=True: named or vsm)
    by_program = told(vsm)
    assert not vsm_bench.find() or told(None) == by_program
    monkeypatch.setattr(vsm_bench, "opened", opened)
    assert told(vsm) == by_program and not asked
    assert told(None) == by_program and len(by_program) > 20 and len(asked) == 1


class Several(vsm_bench.Bench):
    """A bench that's asked as the library's is, over a program."""

    def __init__(self, vsm: str, options: list[str]) -> None:
        self.partner, self.said = bench.Partner(vsm, options), b""

    def write(self, text: bytes) -> None:    # type: ignore[override]
        lines = text.split(b"\n")
        for first, last in statements(lines[:-1]):
            answer = self.partner.ask(b"".join(line + b"\n" for line in lines[first - 1:last]))
            self.said += "\n".join(["%07d %s" % (answer.line, answer.text), *answer.rest, ""]).encode()

    def read(self) -> bytes:
        said, self.said = self.said, b""
        return said

    def close(self) -> None:
        self.partner.close()


def told_at_random(vsm: Optional[str], path: Path, seed: int) -> list[Message]:
    """All that a client hears of a script that's walked at random, and all that it's shown at each stop."""
    chance, client, told = random.Random(seed), Inner(vsm), []
    count = len(path.read_bytes().split(b"\n"))
    client.begin(path, noDebug=chance.randrange(8) == 0)
    if client.adapter.course is None:    # its options are wrong
        return told
    for _ in range(5):
        told += client.came
        if client.adapter.is_over:
            break
        client.ask("threads")
        told += [*client.came, tree(client.ask, client.came[0]["body"]["threads"][0]["id"])]
        client.ask("setExceptionBreakpoints", filters=[it for it in debugging.FILTERS if chance.randrange(3) == 0])
        client.ask("setBreakpoints", source={"path": str(path)}, breakpoints=[
            {"line": chance.randrange(count) + 1, **chance.choice(({}, {}, {"condition": "answer contains RC=0"},
                                                                    {"logMessage": "{R1} {answer}"}))}
            for _ in range(chance.choice((0, 0, 1, 3)))])
        client.ask(chance.choice(("continue", "continue", "next", "stepBack", "reverseContinue")), threadId=1)
    client.close()
    return told + client.came


def test_several_statements_at_once_are_told_as_one_at_a_time(vsm: str, tmp_path: Path, request: Any,
                                                              monkeypatch: pytest.MonkeyPatch) -> None:
    """The client gets the same messages, of the library too, if it's made."""
    library = vsm_bench.opened if vsm_bench.find() else None
    monkeypatch.setattr(debugging, "find_program", lambda named=None, is_needed=True: named or vsm)
    most = 0
    for seed in range(request.config.getoption("--damaged")):
        path = tmp_path / "damaged.vsm"
        chance = random.Random(seed)
        path.write_bytes(damaged(chance, FILES) if seed % 2 else generated(seed).encode("utf-8", "surrogateescape"))
        print("script", seed, path.read_bytes())    # shown if it fails
        one_at_a_time = told_at_random(vsm, path, seed)
        for it in (lambda options: Several(vsm, options), library):
            if it:
                monkeypatch.setattr(vsm_bench, "opened", it)
                assert told_at_random(None, path, seed) == one_at_a_time
        most = max(most, len(one_at_a_time))
    assert most > 60


def test_half_a_message_and_a_byte_at_a_time(vsm: str) -> None:
    client = Debugged(vsm)
    body = b'{"seq":1,"type":"request","command":"initialize","arguments":{"adapterID":"vsm"}}'
    for byte in b"Content-Type: x\r\nContent-Length: %d\r\n\r\n" % len(body) + body:
        client.raw(bytes([byte]))
    client.open[1], client.sent = "initialize", 1
    assert client.response(1)["success"]
    client.raw(b"Content-Length: 50\r\n\r\n{\"seq\"")
    assert client.close() == 0


def test_a_client_that_goes_away_ends_it_and_its_vsm(vsm: str, tmp_path: Path) -> None:
    long = written(tmp_path, " STORAGE OBTAIN,LENGTH=8,ADDR=P\n STORAGE RELEASE,LENGTH=8,ADDR=P\n" * 20_000)
    client = Debugged(vsm)
    client.begin(long)
    assert client.children() and client.close() == 0
    for how in ("while it's written to", signal.SIGTERM, signal.SIGKILL):
        client = Debugged(vsm)
        client.launch(long)
        client.hear()
        child = client.children()[0]
        if isinstance(how, str):
            client.child.stdout.close()
            client.child.stdin.close()
        else:
            client.child.send_signal(how)
        client.child.wait(30)
        for _ in range(100):    # vsm hears that nobody asks
            if os.path.exists("/proc/%d" % child):
                time.sleep(0.05)
        assert not os.path.exists("/proc/%d" % child) and b"Traceback" not in client.child.stderr.read()


def test_vsm_killed_beneath_it(client: Debugged) -> None:
    client.begin(FIRST)
    client.go("next")
    os.kill(client.children()[0], signal.SIGKILL)
    client.events.clear()
    client.ask("next", threadId=1)
    while not any(it["event"] == "terminated" for it in client.events):
        client.hear()
    assert "ended by signal 9" in client.events[-2]["body"]["output"]
    assert client.refused("next", threadId=1) == "the script has ended"
    assert client.go("restart")["reason"] == "entry"
    os.kill(client.children()[0], signal.SIGKILL)
    assert "ended by signal 9" in client.refused("evaluate", expression="map", context="repl")
    assert client.until("terminated")


@pytest.mark.parametrize("here, answer", [(History(State()), "KEPT=1"), (History(State(), 2), "KEPT=1")])
def test_a_step_to_a_state_that_is_none_ends_the_walk(here: History, answer: str) -> None:
    """A program in the place of vsm may answer it."""
    with pytest.raises(Lost, match=answer):
        here.after(bench.Answer(1, answer), (), 9)


@pytest.mark.parametrize("status", [0, 16])
def test_it_answers_while_vsm_is_compiled(vsm: str, tmp_path: Path, status: int,
                                          monkeypatch: pytest.MonkeyPatch) -> None:
    """The launch is answered then; a client that goes ends the compile."""
    shutil.copytree(editors.TOOLS, tmp_path / "tools", ignore=shutil.ignore_patterns("tests"))
    launcher, done = tmp_path / "vsm", tmp_path / "done"
    launcher.write_text("#!/bin/sh\nuntil [ -e '%s' ]; do sleep 0.1; done\n[ %d = 0 ] || exit %d\nexec '%s' \"$@\"\n"
                        % (done, status, status, vsm))
    launcher.chmod(0o755)
    monkeypatch.setattr(editors, "TOOLS", tmp_path / "tools")
    for is_patient in (False, True):
        client = Debugged(None)
        client.initialize()
        number = client.send("launch", program=str(FIRST), stopOnEntry=True)
        assert client.refused("threads") == "no script is launched"
        assert client.refused("launch", program=str(FIRST)) == "a script is launched already"
        if is_patient:
            done.touch()
            if status == 0:
                client.until("initialized")
                client.ask("configurationDone")
            found = client.response(number)
            assert found["success"] == (status == 0)
            assert status == 0 or "ended with status 16" in found["message"]
        else:
            client.ask("disconnect")
            client.open.pop(number)
        assert client.close() == 0
