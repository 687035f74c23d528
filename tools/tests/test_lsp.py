"""vsm-lsp: what it says of scripts while they're written, and clients that are wrong."""
from __future__ import annotations

import json
import os
import random
import re
import shutil
import signal
import sys
import time
from pathlib import Path
from typing import Any, Callable, Iterator

import pytest
from conftest import TOP
import editors
from editors import BAD, FOUND, LIES, Edited, Message, damaged_value, framed
from test_damaged import SCRIPTS, damaged
from test_dap import Expected, generated

from vsmtools import bench, language, listing, manuals
from vsmtools.documents import Document
from vsmtools.lines import options_for, statements
from vsmtools.rpc import WRONG, Code
from vsmtools.tracking import world_at
from vsmtools.words import FORMS, KEYWORDS

EXAMPLES = sorted((TOP / "examples").glob("*.vsm"))
URI = "file:///nowhere/script.vsm"
CLIENTS = Path(__file__).resolve().parent / "clients"
UTF8 = {"general": {"positionEncodings": ["utf-8", "utf-16"]}}
PIECES = ["x", " ", "\n", " MAP\n", "é", "😀", " BACK 1\n", "", "\r\n", "\r", "P,4", "* c\n",
          " STORAGE OBTAIN,".ljust(71) + "X\n"]
LONG = " STORAGE OBTAIN,LENGTH=8,ADDR=P\n STORAGE RELEASE,LENGTH=8,ADDR=P\n"


@pytest.fixture(scope="session")
def explain(vsm: str) -> str:
    return bench.find_explain(vsm)


@pytest.fixture
def client(vsm: str, explain: str) -> Iterator[Edited]:
    it = Edited(vsm, explain)
    yield it
    it.finish()


def span(a: int, b: int, c: int, d: int) -> Message:
    return {"start": {"line": a, "character": b}, "end": {"line": c, "character": d}}


ALL = span(0, 0, 9999, 0)


@pytest.mark.parametrize("path", EXAMPLES, ids=lambda it: it.stem)
def test_each_answer_of_a_lesson_is_shown(client: Edited, vsm: str, path: Path) -> None:
    client.begin()
    uri, data = path.as_uri(), path.read_bytes()
    client.edit(uri, data.decode())
    told = [it.text for it in bench.run(vsm, options_for("", data), data).answers]
    lenses = client.of("codeLens", uri)
    shown = [it["command"]["title"][3:].removesuffix("...") for it in lenses]
    assert shown == [it if len(it) < 61 else it[:57] for it in told]
    assert len(client.of("inlayHint", uri, range=ALL)) == len(told)
    assert len(client.of("documentSymbol", uri)) >= len(told) - 3
    assert all(it["startLine"] < it["endLine"] for it in client.of("foldingRange", uri))
    for it in client.of("codeAction", uri, range=ALL, context={"diagnostics": []}):
        assert it["title"].startswith("fold")


def test_faults_are_at_the_columns_that_check_says(client: Edited, explain: str, tmp_path: Path) -> None:
    """Also after letters of several bytes, in lessons and scripts of the conformance suite."""
    client.begin(UTF8)
    path = tmp_path / "script.vsm"
    for source in [*EXAMPLES, *sorted(TOP.glob("conformance/*/*.vsm"))]:
        text = source.read_bytes().replace(b" STORAGE OBTAIN,L", " STORAGE OBTAIN,RELATED='é€😀',L".encode())
        path.write_bytes(text)
        try:
            text.decode()
        except UnicodeDecodeError:
            continue
        words = [explain, "check", *options_for("", text), str(path)]
        said = bench.run_anyhow(words[0], words[1:], b"").output.decode()
        lines, wanted = text.split(b"\n"), set()
        for line, column, rest in re.findall(r":(\d+):(\d+): (?!NOT CARRIED OUT|ABEND|REFUSED|OUTSIDE|STALE|PART|UNSET|LEFT:)(.*)", said):
            # An editor has no columns after a line's end, and none within a letter.
            before = lines[int(line) - 1][:int(column) - 1].decode("utf-8", "ignore").encode()
            wanted.add("%s:%d: %s" % (line, len(before) + 1, rest))
        found = client.edit(path.as_uri(), text.decode())
        got = {"%d:%d: %s%s" % (it["range"]["start"]["line"] + 1, it["range"]["start"]["character"] + 1,
                                "WARNING: " if it["code"] == "WARNING" else "", it["message"])
               for it in found if it["severity"] == 1 or it["code"] == "WARNING"}
        assert got == wanted or b"\r" in text, source
        client.notify("textDocument/didClose", {"textDocument": {"uri": path.as_uri()}})
        assert client.diagnostics(path.as_uri()) == []


def test_units_of_columns(vsm: str, explain: str) -> None:
    for capabilities, start, end in (({}, 31, 36), (UTF8, 36, 41)):
        client = Edited(vsm, explain)
        assert client.begin(capabilities)["positionEncoding"] == ("utf-8" if capabilities else "utf-16")
        found = client.edit(URI, " STORAGE OBTAIN,RELATED='é€😀',FOO=1,LENGTH=8\n")
        assert found[0]["range"] == span(0, start, 0, end)
        client.change(URI, 2, {"range": span(0, start, 0, end + 1), "text": ""})    # takes FOO=1 away
        assert client.diagnostics(URI, 2) == []
        client.finish()


def test_a_carriage_return_by_itself_ends_a_line_of_the_protocol_only(client: Edited) -> None:
    client.begin()
    found = client.edit(URI, " PEEK 0,1\r X\r\n FOO\n\r STORAGE OBTAIN,LENGTH=8,ADDR=P\n POKE P,X'C1'\n")
    assert span(2, 1, 2, 4) in [it["range"] for it in found if it["severity"] == 1]
    assert client.at("hover", URI, 5, 7)["contents"]["value"].startswith("P = not defined")
    client.change(URI, 2, {"range": span(3, 0, 4, 0), "text": ""})
    client.diagnostics(URI, 2)
    assert client.at("hover", URI, 4, 7)["contents"]["value"] == "P = 00006000 by line 3"


def test_causes_in_the_words_of_why(client: Edited, explain: str, tmp_path: Path) -> None:
    """Of an ABEND and a REFUSED, at once; of a FAULT its word says enough."""
    client.begin()
    path = tmp_path / "script.vsm"
    path.write_text(" STORAGE OBTAIN,LENGTH=8\n STORAGE RELEASE,LENGTH=8,ADDR=X'6004'\n PEEK 0,1\n PEEK Q,1\n PEEK\n")
    told = client.edit(URI, path.read_text())
    *found, fault = sorted(told, key=lambda it: it["range"]["start"]["line"])
    assert [it["code"] for it in found] == ["ABEND S978", "ABEND S0C4", "REFUSED NAME"] and fault["severity"] == 1
    for it, line, number in zip(found, ("2", "3", "4"), ("00006004", "00000000", "defined")):
        why = bench.run_anyhow(explain, ["why", str(path), line], b"").output.decode()
        answer, _, causes = it["message"].partition(": ")
        assert answer == it["code"] and number in causes and all(cause in why for cause in causes.split("; "))
        assert it["range"] == span(int(line) - 1, 1, int(line) - 1, 8 if line == "2" else 5)


def test_dropped_lines_and_warnings(client: Edited) -> None:
    client.begin()
    found = client.edit(URI, " STORAGE OBTAIN,LENGTH=8,".ljust(71) + "X\n LENGTH=8\n STORAGE OBTAIN,LENGTH=8  ,SP=2\n")
    dropped = next(it for it in found if it["code"] == "DROPPED")
    assert (dropped["severity"], dropped["tags"], dropped["range"]) == (4, [1], span(1, 0, 1, 9))
    fault = next(it for it in found if it["code"] == "FAULT CONTINUATION")
    assert fault["severity"] == 1 and fault["range"]["start"] == {"line": 1, "character": 1}
    warning = next(it for it in found if it["code"] == "WARNING")
    assert (warning["severity"], warning["range"]["start"]) == (2, {"line": 2, "character": 26}) and len(found) == 3
    found = client.edit(URI, "\ufeff MAP\n")
    assert ("WARNING", span(0, 0, 0, 5)) in [(it["code"], it["range"]) for it in found]


def test_a_listing_is_read() -> None:
    """As docs/EXPLAIN.md describes it; unknown fields and kinds are passed over, other versions are a fault."""
    head = b'{"version":1,"command":"list"}\n'
    rows = (b'{"kind":"warning","line":1,"column":1,"end":1,"text":"on the file"}\n'
            b'{"kind":"fault","line":2,"column":17,"end":25,"fault":"OPERAND","text":"no operand; LENGTH?",'
            b'"hint":"LENGTH"}\n{"kind":"dropped","line":3,"column":1,"end":9,"text":"NOT CARRIED OUT"}\n'
            b'{"kind":"answer","first":2,"last":3,"answer":"FAULT OPERAND","refused":true,"kept":0}\n'
            b'{"kind":"answer","first":4,"last":4,"answer":"RC=0 A=00006000","refused":false,"kept":1,"name":"P",'
            b'"word":24576,"more":[]}\n{"kind":"more"}\n'
            b'{"kind":"answer","first":5,"last":6,"answer":"ABEND S878","refused":true,"kept":1,"cause":"a; b"}\n'
            b'{"kind":"answer","first":7,"last":7,"answer":"RC=0 A=00007000 L=00000010","refused":false,"kept":2,'
            b'"pool":"C","address":28672}\n')
    found = listing.parse(head + rows)
    assert found.warnings == [listing.Mark(1, 0, 0, "on the file")]
    assert found.faults == [listing.Mark(2, 16, 24, "no operand; LENGTH?", "OPERAND", "LENGTH")] and found.found == []
    assert found.faults[0].message == "OPERAND: no operand; LENGTH?"
    assert found.dropped == [listing.Mark(3, 0, 8, "NOT CARRIED OUT")]
    assert [(*it.extent, it.text, it.cause, it.name, it.word, it.pool, it.address) for it in found.answers] == [
        (2, 3, "FAULT OPERAND", "", "", 0, "", 0), (4, 4, "RC=0 A=00006000", "", "P", 24576, "", 0),
        (5, 6, "ABEND S878", "a; b", "", 0, "", 0), (7, 7, "RC=0 A=00007000 L=00000010", "", "", 0, "C", 28672)]
    for wrong in (b"", b"{}\n", head[:-1] + head, head + b"7\n", head + b'{"kind":"fault"}\n',
                  head + b'{"kind":"answer"\n', b'{"version":2,"command":"list"}\n', b"      1   MAP\n",
                  head + b"\xff\n"):
        with pytest.raises(WRONG):
            listing.parse(wrong)


CHECK = '{"version":1,"command":"check"}\n'
OUTSIDE = ('{"kind":"finding","word":"OUTSIDE","line":1,"column":7,"end":8,"text":"OUTSIDE: 00006018 is in the area of '
           'line 2","counts":true,"took":2}\n')


def test_what_a_check_says_is_read() -> None:
    """Only what a listing doesn't say; unknown fields, kinds and words are passed over, other versions are a fault."""
    rows = OUTSIDE + ('{"kind":"finding","word":"VALUE","line":1,"column":7,"end":8,"text":"VALUE: no number"}\n'
                      '{"kind":"finding","word":"MORE","line":1}\n{"kind":"more"}\n'
                      '{"kind":"finding","word":"LEFT","line":9,"column":2,"end":9,"text":"LEFT: 8 bytes at .."}\n')
    assert listing.findings((CHECK + rows).encode()) == [
        listing.Mark(1, 6, 7, "00006018 is in the area of line 2", "OUTSIDE"), listing.Mark(9, 1, 8, "8 bytes at ..", "LEFT")]
    for wrong in ("", "{}\n", '{"version":1,"command":"list"}\n', CHECK + "7\n", CHECK + CHECK, "script.vsm:1:1: MISSING\n",
                  CHECK + '{"kind":"finding","word":"PART"}\n', CHECK + OUTSIDE.replace(":7,", ':"7",')):
        with pytest.raises(WRONG):
            listing.findings(wrong.encode())


# Bytes after an area's end and that nothing has stored, an area that is released in part and by an old name, and
# others that are left.
FINDINGS = """ STORAGE OBTAIN,LENGTH=16,ADDR=P,SP=1
 STORAGE OBTAIN,LENGTH=32,ADDR=Q,SP=1
 POKE P,X'000102030405060708090A0B0C0D0E0F10'
 PEEK Q,4
 STORAGE RELEASE,LENGTH=16,ADDR=P,SP=1
 PEEK P,1
 STORAGE RELEASE,LENGTH=8,ADDR=Q,SP=1
"""


def test_what_a_check_finds_is_shown(client: Edited, explain: str, tmp_path: Path) -> None:
    """After the listing, which it adds to; at the places that check --leaks names, also in lessons."""
    client.begin(UTF8)
    path, words = tmp_path / "script.vsm", set()
    for text in [FINDINGS, FINDINGS.replace("ADDR=P", "RELATED='é€😀',ADDR=P"), *(it.read_text() for it in EXAMPLES)]:
        path.write_text(text)
        said = bench.run_anyhow(explain, ["check", "--leaks", *options_for("", text.encode()), str(path)], b"").output
        wanted = sorted(re.findall(r"(?m)^.*?:(\d+:\d+: (?:%s): .*)$" % "|".join(FOUND), said.decode()))
        listed = client.edit(path.as_uri(), text)
        assert not [it for it in listed if it["code"] in FOUND]
        checked = client.diagnostics(path.as_uri(), is_checked=True) if wanted else listed
        found = [it for it in checked if it["code"] in FOUND]
        assert wanted == sorted("%d:%d: %s" % (it["range"]["start"]["line"] + 1, it["range"]["start"]["character"] + 1,
                                               it["message"]) for it in found)
        assert [it for it in checked if it not in found] == listed    # each of them once
        for it in found:
            assert it["severity"] == (2 if it["code"] in ("OUTSIDE", "STALE") else 4) and "tags" not in it
            begin, end = it["range"]["start"], it["range"]["end"]
            assert begin["line"] == end["line"] and begin["character"] < end["character"]
        words |= {it["code"] for it in found}
    assert words == FOUND


def checking(tmp_path: Path, explain: str, act: str) -> str:
    """A vsm-explain that does something else for `check`, and counts the times."""
    program = tmp_path / "explain"
    program.write_text("#!/bin/sh\n[ \"$1\" = check ] || exec '%s' \"$@\"\necho $$ >> '%s/checks'\n%s\n"
                       % (explain, tmp_path, act))
    program.chmod(0o755)
    return str(program)


def checks(tmp_path: Path, count: int) -> list[int]:
    """The processes that were asked for a check, once there are that many."""
    path, end = tmp_path / "checks", time.monotonic() + 60
    while len(found := path.read_text().split() if path.exists() else []) < count:
        assert time.monotonic() < end, found
        time.sleep(0.02)
    return [int(it) for it in found]


def test_a_check_comes_half_a_second_after_the_last_key(vsm: str, explain: str, tmp_path: Path) -> None:
    """Not after each, and later than the listing; one that is overtaken ends, and says nothing."""
    client = Edited(vsm, checking(tmp_path, explain, "cat >/dev/null; echo '%s'; sleep 100" % (CHECK + OUTSIDE).strip()))
    client.begin()
    assert client.edit(URI, " MAP\n") == []
    first = checks(tmp_path, 1)
    for version in range(2, 12):
        client.change(URI, version, {"text": " MAP\n" * version})
        time.sleep(0.1)
    last = time.monotonic()
    assert client.diagnostics(URI, 11) == [] and not os.path.exists("/proc/%d" % first[0])
    assert len(checks(tmp_path, 1)) == 1    # a listing follows after 0.2 seconds
    second = checks(tmp_path, 2)
    assert time.monotonic() - last > 0.3
    client.change(URI, 12, {"text": " MAPS\n"})
    assert len(client.diagnostics(URI, 12)) == 1 and client.told == []
    checks(tmp_path, 3)
    assert not os.path.exists("/proc/%d" % second[1])
    client.finish()


def test_a_vsm_explain_without_such_a_check(vsm: str, explain: str, tmp_path: Path) -> None:
    """It ends with status 16, and all is as the listing has it."""
    client = Edited(vsm, checking(tmp_path, explain, "echo \"vsm-explain: no option '--json'\" >&2; exit 16"))
    client.begin()
    assert len(client.edit(URI, FINDINGS + " FOO\n")) == 1 and checks(tmp_path, 1)
    assert client.at("hover", URI, 3, 6)["contents"]["value"] == "Q = 00006010 by line 2" and client.told == []
    client.change(URI, 2, {"text": " FOO\n"})
    assert len(client.diagnostics(URI, 2)) == 1 and client.told == [] and checks(tmp_path, 2)
    client.finish()


@pytest.mark.parametrize("act, said", [
    ("kill -9 $$", "vsm-explain ended by signal 9"), ("echo no; exit 8", "no"), ("exec cat", "another form")])
def test_a_check_that_fails_is_reported_after_what_the_listing_says(
        vsm: str, explain: str, tmp_path: Path, act: str, said: str) -> None:
    client = Edited(vsm, checking(tmp_path, explain, act))
    client.begin()
    listed = client.edit(URI, " FOO\n")
    *rest, last = client.diagnostics(URI)
    assert rest == listed and (last["severity"], last["code"]) == (1, "settings") and said in last["message"]
    client.finish()


def test_quick_fixes(client: Edited) -> None:
    """The word that a fault proposes; a line that's too long, folded. Both take their faults away."""
    client.begin()
    found = client.edit(URI, " STORAGE OBTAIN,LENGHT=8\n STORAGE OBTAIN,LENGTH=8,SP=1,BNDRY=PAGE,LOC=BELOW,COND=YES,"
                             "RELATED=(A,B),ADDR=P\n")
    actions = client.of("codeAction", URI, range=span(0, 0, 1, 0), context={"diagnostics": found})
    assert [it["title"] for it in actions] == ["LENGTH instead of LENGHT", "fold the statement at column 71"]
    for version, it in enumerate(reversed(actions), 2):
        edit = it["edit"]["changes"][URI][0]
        client.change(URI, version, {"range": edit["range"], "text": edit["newText"]})
    assert client.diagnostics(URI, 3) == []


def test_hover_completion_and_names(client: Edited) -> None:
    client.begin()
    client.edit(URI, " STORAGE OBTAIN,LENGTH=8,ADDR=P\n CPOOL BUILD,PCELLCT=2,CSIZE=8,CPID=P\n"
                     " CPOOL GET,CPID=P,CELL=Q\n POKE P,A(Q)\n STORAGE OBTAIN,LENGTH=8,SP=5,ADDR=(R5)\n BACK 1\n"
                     " STORAGE OBTAIN,LENGTH=1000000,ADDR=P\n CPOOL FREE,CPID=\n RUN \n STORAGE RELEASE,SP=\n PEEK \n"
                     "* ABEND S878 is told\n POKE P\n GETMAIN RU,LV=8,KEY=9\n")

    def hover(line: int, column: int) -> str:
        return (client.at("hover", URI, line, column) or {"contents": {"value": ""}})["contents"]["value"]

    def labels(line: int, column: int) -> list[str]:
        return [it["label"] for it in client.at("completion", URI, line, column)]

    def lines(method: str, line: int, column: int, **more: Any) -> list[int]:
        return [it["range"]["start"]["line"] for it in client.at(method, URI, line, column, **more)]
    assert hover(3, 6) == "P = 00006000 by line 1" and hover(3, 10) == "Q = 00006008 by line 3"
    assert hover(2, 16) == "cell pool P: at 00006008 by line 2" and hover(6, 36).endswith("00006000 by line 1")
    assert "no room" in hover(11, 8) and hover(4, 26) == "SP: the subpool's number; left out: 0"
    assert hover(13, 13).startswith("LV: the number of bytes") and hover(13, 9).startswith("RU: length: a value; ")
    assert "GETMAIN RC|RU" in hover(13, 18)    # KEY: STATEMENTS has no row of it
    assert "line 1: 8 bytes" in hover(0, 3) and "STORAGE OBTAIN,LENGTH" in hover(0, 3)
    assert labels(7, 17) == ["P"] and labels(8, 5) == ["P", "Q", "1"]
    assert labels(9, 20) == ["0"] and labels(10, 6) == ["P", "Q"]
    everything = {"context": {"includeDeclaration": True}}    # the name and the cell pool P are two things
    assert lines("references", 3, 6, **everything) == [0, 3, 6, 12]
    assert lines("references", 2, 16, **everything) == [1, 2]
    assert lines("documentHighlight", 3, 6) == [0, 3, 6, 12]
    # Line 7 was refused: it gives P nothing.
    assert client.at("definition", URI, 12, 6)["range"]["start"]["line"] == 0
    assert client.at("prepareRename", URI, 3, 6)["placeholder"] == "P"
    assert len(client.at("rename", URI, 3, 6, newName="TABLE")["changes"][URI]) == 4
    for name in ("Q", "8"):
        where = {"textDocument": {"uri": URI}, "position": {"line": 3, "character": 6}}
        assert client.error("textDocument/rename", {**where, "newName": name}) == Code.FAILED


def test_each_operand_has_what_statements_says_of_it() -> None:
    for operation, forms in FORMS.items():
        for form in forms or ("",):
            assert manuals.syntax(operation, form), (operation, form)
            for word in KEYWORDS.get("%s %s" % (operation, form)) or KEYWORDS.get(operation, ()):
                said = manuals.operand(operation, form, word)
                assert re.match(word + r": \S.*\S$", said) and "](" not in said, (operation, form, word)
    for words, said in ((("GETMAIN", "RC", "RC"), "RC: length: a value; the address goes to: register 1; "),
                        (("FREEMAIN", "EU", "EU"), "EU: a missing area, or one with cells: U3003, SA05, U3006; "),
                        (("GETMAIN", "EC", "A"), "A: what gets the address in addition to register 1"),
                        (("CPOOL", "GET", "U"), "U: if no cell is free, an extent is made; "),
                        (("CPOOL", "FREE", "CELL"), "CELL: Frees the cell at the address CELL."),
                        (("ATTACH", "", "SHSPL"), "SHSPL: SHSPV and SHSPL share subpools with the new task: ")):
        assert manuals.operand(*words).startswith(said), words
    assert manuals.operand("STORAGE", "OBTAIN", "KEY") == manuals.operand("CPOOL", "BUILD", "BUILD") == ""


def test_nothing_is_kept_of_words_that_are_typed() -> None:
    manuals.syntax("STORAGE", "OBTAIN")
    before = sys.getallocatedblocks()
    for number in range(2000):
        assert manuals.syntax("OTHER%d" % number, "FORM") == ""
    assert sys.getallocatedblocks() - before < 500


def test_completion(client: Edited) -> None:
    """What can be written at the end of a line, by what exists there."""
    client.begin()
    before = " STORAGE OBTAIN,LENGTH=8,SP=7,ADDR=PLACE\n CPOOL BUILD,PCELLCT=2,CSIZE=8,CPID=POOL\n ATTACH GSPV=9\n"
    rows = {" ": "ATTACH BACK CPOOL DETACH ENDTASK FORWARD FREEMAIN GETMAIN MAP PEEK POKE RUN STORAGE",
            " sto": "STORAGE", " STORAGE ": "OBTAIN, RELEASE,", "LABEL CPOOL B": "BUILD,",
            " GETMAIN ": "EC, EU, R, RC, RU, VRC, VRU,",
            " STORAGE RELEASE,ADDR=P,": "COND= LENGTH= SP=", " CPOOL FREE,C": "CELL= CPID=", " CPOOL GET,CPID=": "POOL",
            " STORAGE OBTAIN,LENGTH=8,BNDRY=": "DBLWD PAGE", " STORAGE OBTAIN,LENGTH=8,COND=Y": "YES",
            " STORAGE RELEASE,ADDR=": "PLACE", " PEEK PL": "PLACE", " RUN ": "1 2 PLACE", " DETACH 2": "2",
            " STORAGE RELEASE,SP=": "0 7 9", " ATTACH GSPV=": "0 7 9", " ATTACH SHSPV=9": "9", "* STO": "", " FOO ": ""}
    for version, (typed, wanted) in enumerate(rows.items(), 1):
        client.edit("%s-%d" % (URI, version), before + typed + "\n" + " STORAGE OBTAIN,LENGTH=8,ADDR=LATER\n")
        found = client.at("completion", "%s-%d" % (URI, version), 3, len(typed))
        assert sorted(it["label"] for it in found) == wanted.split(), typed
        assert all(it["textEdit"]["range"]["end"] == {"line": 3, "character": len(typed)} for it in found)
    client.edit(URI, before + " STORAGE OBTAIN,".ljust(71) + "X\n               LENGTH=8,A\n")
    assert [it["label"] for it in client.at("completion", URI, 4, 25)] == ["ADDR="]


def test_names_and_tasks_are_those_that_a_map_shows(vsm: str, explain: str, tmp_path: Path) -> None:
    """At each statement of lessons and generated scripts, by the answers before it: also after BACK and FORWARD."""
    path, texts = tmp_path / "script.vsm", [it.read_text() for it in EXAMPLES]
    for text in texts + [generated(seed).replace("\udcff", "é") for seed in range(100)]:
        path.write_text(text)
        expected, document = Expected(vsm, path), Document(path.as_uri(), 1, text, "utf-16")
        options = options_for("", text.encode())
        document.take(listing.parse(bench.run_anyhow(explain, ["list", "--json", *options], text.encode()).output))
        document.limit = expected.maps[0].history
        for extent, shown in zip(document.extents, expected.maps):
            world = world_at(document, extent.first)
            assert {name: word for name, (word, _) in world.names.items()} == {it.name: it.word for it in shown.names}
            assert sorted(world.tasks) == [it.number for it in shown.tasks]
            pools = {name: address for name, (address, _) in world.pools.items()}
            assert pools.items() >= {it.name: it.extents[0].start for it in shown.cell_pools}.items()


def test_settings(vsm: str, explain: str) -> None:
    text = " STORAGE OBTAIN,LENGTH=65536\n STORAGE OBTAIN,LENGTH=8\n"
    client = Edited(vsm, explain)
    client.configuration = [{"low": 128}]
    client.begin({"workspace": {"configuration": True}})
    while client.edit(URI, text):
        pass
    client.notify("workspace/didChangeConfiguration", {"settings": {"vsm": {"low": 4}}})
    client.finish()
    client = Edited(vsm, explain)
    client.begin(options={"low": 128})
    assert client.edit(URI, text) == [] and len(client.edit(URI, "*! --low 4\n" + text)) == 1
    assert client.edit(URI, "\n*! --low 5\n" + text)[0]["code"] == "settings"
    assert client.edit(URI, "\n*! --history %s\n" % ("1" * 5000) + text)[0]["code"] == "settings"
    found = client.edit(URI, "\n*! --low\n" + text)
    assert found[0]["message"].startswith("not options of vsm") and found[0]["range"]["start"]["line"] == 1
    assert client.edit(URI, "") == []
    client.finish()
    for wrong in (7, {"low": 128}, [7], ["x"], []):    # a client that answers otherwise than the protocol says
        client = Edited(vsm, explain)
        client.configuration = wrong
        client.begin({"workspace": {"configuration": True}})
        assert client.edit(URI, text)
        client.finish()


# What's wrong, and what takes long.

def changes(chance: random.Random, text: str) -> Iterator[tuple[Message, str]]:
    """Changes of a text one after the other, each with the text after it. None is within a line end."""
    while True:
        first = chance.randrange(len(text) + 1)
        last = min(len(text), first + chance.choice((0, 0, 1, 3, 20)))
        first, last = (k - (text[k - 1:k + 1] == "\r\n") for k in (first, last))
        put = chance.choice(PIECES) if len(text) < 1500 else ""
        where = {"start": position(text, first), "end": position(text, last)}
        text = text[:first] + put + text[last:]
        yield {"range": where, "text": put}, text


def test_ten_thousand_changes_in_a_row(client: Edited) -> None:
    """The server's text is the client's afterwards: its symbols are those of the whole text anew."""
    client.begin()
    text = "\n".join([" PEEK X'6000',1"] * 20 + [""])
    client.edit(URI, text)
    begin, found = time.monotonic(), changes(random.Random(5), text)
    for version in range(2, 10002):
        change, text = next(found)
        client.change(URI, version, change)
    client.diagnostics(URI, 10001)
    one = client.of("documentSymbol", URI)
    client.edit("file:///nowhere/other.vsm", text)
    assert one == client.of("documentSymbol", "file:///nowhere/other.vsm") and time.monotonic() - begin < 120


def test_changes_of_the_whole_text_are_listed_once(client: Edited) -> None:
    """200 milliseconds after the last one."""
    client.begin()
    client.edit(URI, "")
    for version in range(2, 22):
        client.change(URI, version, {"text": "* no\n"}, {"text": " MAP\n" * version})
        time.sleep(0.05)
    assert client.diagnostics(URI, 21) == client.told == []
    assert len(client.of("codeLens", URI)) == 21


def test_a_text_that_changes_is_read_as_a_new_one() -> None:
    for seed in range(100):
        chance = random.Random(seed)
        text = "".join(chance.choices(PIECES, k=chance.randrange(30)))
        document, found = Document(URI, 1, text, "utf-16"), changes(chance, text)
        for _ in range(30):
            change, text = next(found)
            document.apply(change)
            if chance.randrange(3) == 0:
                document.read()
                new = Document(URI, 1, text, "utf-16")
                assert (document.text, document.ends, document.raw, document.begins, document.kinds) == (
                    new.text, new.ends, new.raw, new.begins, new.kinds)
                assert [*new.extents] == statements(new.raw)
                assert [new.at(k + 1) for k in range(len(new.raw))] == [
                    next((it for it in new.extents if it.first <= k + 1 <= it.last), None) for k in range(len(new.raw))]


def test_a_key_reads_few_lines() -> None:
    """Lines below a change aren't gone through, even if it moves them: few lines of Python run."""
    count, chance = [0], random.Random(1)
    document = Document(URI, 1, LONG * 50_000, "utf-16")

    def counted(*_: object) -> Callable:
        count[0] += 1
        return counted

    for text in ("x", "\n STORAGE", " " * 70 + "X", "\n\n"):
        for line in (3, 50_000, 99_990):
            end = line + chance.choice((0, 0, 2))
            sys.settrace(counted)
            document.apply({"range": span(line, 1, end, 1), "text": text})
            document.read()
            document.at(line + 1)
            sys.settrace(None)
    assert count[0] < 2000
    whole = Document(URI, 1, "".join(map("".join, zip(document.text, document.ends))), "utf-16")
    assert (document.raw, document.begins, document.kinds) == (whole.raw, whole.begins, whole.kinds)
    assert len(whole.kinds) == len(whole.raw) and [*whole.extents] == statements(whole.raw)


def position(text: str, at: int) -> Message:
    lines = text[:at].replace("\r\n", "\n").replace("\r", "\n").split("\n")
    return {"line": len(lines) - 1, "character": len(lines[-1].encode("utf-16-le")) // 2}


def test_a_long_script_while_it_is_typed(client: Edited, vsm: str) -> None:
    """Only why's requests wait for a run: others are answered before its diagnostics. A cancellation ends why, and so
    does the next change."""
    client.begin()
    client.notify("textDocument/didOpen", {"textDocument": {"uri": URI, "languageId": "vsm", "version": 1,
                                                            "text": LONG * 50_000}})
    assert client.of("codeLens", URI) == [] and client.at("completion", URI, 50_000, 9)
    assert client.at("hover", URI, 50_000, 17) and client.at("definition", URI, 50_000, 31) and client.told == []
    client.diagnostics(URI)
    where = {"textDocument": {"uri": URI}, "position": {"line": 99_999, "character": 3}}
    number = client.send("textDocument/hover", where)
    client.notify("$/cancelRequest", {"id": number})
    assert client.response(number)["error"]["code"] == Code.CANCELLED
    number = client.send("textDocument/hover", where)
    client.change(URI, 2, {"range": span(0, 0, 0, 0), "text": "* a comment\n"})
    assert client.response(number)["error"]["code"] == Code.MODIFIED
    running = client.started()    # the run of version 2
    client.change(URI, 3, {"range": span(0, 0, 0, 0), "text": " X\n"})
    assert client.of("foldingRange", URI) == [] and not os.path.exists("/proc/%d" % running[0])
    assert [it["message"][:9] for it in client.diagnostics(URI)] == ["OPERATION"]


@pytest.mark.parametrize("lines, times, most", [(10_000, 10, 5), (100_000, 1, 10)])
def test_what_diagnostics_cost(vsm: str, explain: str, lines: int, times: int, most: int) -> None:
    """At most that many times what vsm takes. What is compared is the processor time, user and system, of the server and
    of its runs, not the time that passes; in one of five measurements, since other work on the machine raises it too."""
    costs = (cost_of_diagnostics(vsm, explain, LONG * (lines // 2), times) for _ in range(5))
    assert any(cost < most for cost in costs)


def cost_of_diagnostics(vsm: str, explain: str, script: str, times: int) -> float:
    before = os.times()
    for _ in range(times):
        bench.run(vsm, [], script.encode())
    once = sum(after - it for after, it in zip(os.times()[:4], before)) / times
    client = Edited(vsm, explain)
    client.begin()
    client.edit(URI, script)
    spent = seconds_of(client.child.pid)
    for version in range(2, 2 + times):
        client.change(URI, version, {"range": span(9000, 0, 9000, 0), "text": " MAPS\n"})
        assert len(client.diagnostics(URI, version)) == version - 1
    spent = (seconds_of(client.child.pid) - spent) / times
    client.finish()
    print("seconds of a processor: diagnostics", spent, "vsm", once)
    return spent / once


def seconds_of(process: int) -> float:
    """What a process and those that it has waited for took."""
    fields = Path("/proc/%d/stat" % process).read_text().rpartition(")")[2].split()
    return sum(map(int, fields[11:15])) / os.sysconf("SC_CLK_TCK")


def test_a_million_lines(client: Edited) -> None:
    client.begin()
    assert client.edit(URI, "* a comment\n" * 1_000_000) == []
    found = client.edit(URI + "-2", "* a comment\n" * 1_100_000)
    assert found[0]["code"] == "settings" and "lines" in found[0]["message"], found
    assert len(client.edit(URI + "-3", " X\n" * 20_000)) == language.MOST_SHOWN + 1


@pytest.mark.parametrize("lie", LIES)
def test_a_length_that_lies_costs_two_messages_at_most(client: Edited, lie: int) -> None:
    client.raw(framed(b'{"jsonrpc":"2.0","id":1,"method":"nothing/such"}', lie))
    client.write({"jsonrpc": "2.0", "method": "nothing/such"})
    client.begin()
    assert client.told[0]["error"]["code"] == Code.PARSE


@pytest.mark.parametrize("data", BAD, ids=range(len(BAD)))
def test_a_bad_message_has_an_error_and_is_passed_over(client: Edited, data: bytes) -> None:
    client.raw(data)
    client.begin()
    assert {it["error"]["code"] for it in client.told if "error" in it} <= {Code.PARSE, Code.REQUEST}
    assert [it for it in client.told if it.get("id", 0) is None]


def test_damaged_scripts(client: Edited, request: Any) -> None:
    """Each request is answered at any place of any text, by the rules."""
    client.begin()
    chance = random.Random(3)
    for k in range(max(150, request.config.getoption("--damaged"))):
        text = damaged(chance, SCRIPTS).decode("utf-8", "replace")
        uri, count = "%s-%d" % (URI, k), len(text.splitlines()) + 1
        print("script", k, repr(text))    # shown if it fails
        found = client.edit(uri, text)
        for _ in range(3):
            place = chance.randrange(count), chance.choice((0, 1, 2, 9, 16, 20, 30, 71))
            for method in ("hover", "completion", "definition", "documentHighlight", "prepareRename"):
                client.at(method, uri, *place)
            client.at("references", uri, *place, context={"includeDeclaration": False})
            where = {"textDocument": {"uri": uri}, "position": {"line": place[0], "character": place[1]}}
            answer = client.response(client.send("textDocument/rename", {**where, "newName": "NEW"}))
            assert answer.get("error", {"code": Code.FAILED})["code"] == Code.FAILED
        for method in ("codeLens", "documentSymbol", "foldingRange"):
            client.of(method, uri)
        client.of("inlayHint", uri, range=ALL)
        client.of("codeAction", uri, range=ALL, context={"diagnostics": found})


def test_a_script_that_is_no_text(client: Edited) -> None:
    """What a hover can't explain is said of the script, not of a path of the server's own."""
    client.begin()
    client.edit(URI, " MAP\0\n")
    where = {"textDocument": {"uri": URI}, "position": {"line": 0, "character": 2}}
    said = client.response(client.send("textDocument/hover", where))["error"]["message"]
    assert said == "vsm-explain: the script isn't text: it has bytes X'00'"


def test_wrong_requests_have_the_protocols_errors(client: Edited) -> None:
    assert client.error("textDocument/hover", {}) == client.error("nothing/such") == Code.NOT_INITIALIZED
    client.notify("textDocument/didOpen", {"textDocument": {"uri": URI}})
    client.begin()
    assert client.error("initialize", {"capabilities": {}}) == Code.REQUEST
    assert client.error("nothing/such") == Code.METHOD
    where = {"textDocument": {"uri": URI}, "position": {"line": 0, "character": 0}}
    assert client.error("textDocument/hover", where) == Code.PARAMETERS
    client.edit(URI, " MAP\n")
    for params in ({}, [], {"textDocument": 5}, {"textDocument": {"uri": URI}}, {**where, "position": {"line": "x"}},
                   {**where, "position": {"line": -1, "character": 0}}, {**where, "textDocument": {"uri": []}}):
        assert client.error("textDocument/hover", params) == Code.PARAMETERS, params
    for method, given in (("textDocument/didChange", {"textDocument": {"uri": URI}, "contentChanges": 7}),
                          ("$/unknown", {}), ("$/cancelRequest", {"id": 12345}), ("$/cancelRequest", {"id": []}),
                          ("textDocument/didOpen", 5)):
        client.notify(method, given)
    for line, column in ((0, 9999), (9999, 0), (9999, 9999)):
        client.at("hover", URI, line, column)
    client.write({"jsonrpc": "2.0", "id": ["x"], "method": "shutdown"})
    for message in ({"id": 1 << 40, "result": 7}, {"id": [], "result": 7}, {"id": {}, "error": 7}, {}):
        client.write({"jsonrpc": "2.0", **message})
    client.of("codeLens", URI)
    assert client.told[-1]["error"]["code"] == Code.REQUEST
    for byte in b"Content-Length: 30\r\n\r\n{\"jsonrpc\":\"2.0\",\"method\":\"x\"}":
        client.raw(bytes([byte]))
    client.response(client.send("shutdown"))
    assert client.error("textDocument/hover", where) == Code.REQUEST


def test_a_hover_that_waits_is_answered_at_the_shutdown(vsm: str, explain: str) -> None:
    client = Edited(vsm, explain)
    client.begin()
    client.notify("textDocument/didOpen", {"textDocument": {"uri": URI, "languageId": "vsm", "version": 1, "text": LONG * 50_000}})
    number = client.send("textDocument/hover", {"textDocument": {"uri": URI}, "position": {"line": 99_999, "character": 3}})
    shut = client.send("shutdown")
    assert client.response(number)["error"]["code"] == Code.CANCELLED and "error" not in client.response(shut)
    client.notify("exit", None)
    assert client.child.wait(60) == 0


def test_wrong_values_in_all_messages(vsm: str, explain: str) -> None:
    """Each request of the real clients has its answer, and the server lives."""
    kept = [path.read_text().replace("file:///scripts/", "file:///nilbozad/examples/")
            for path in CLIENTS.glob("*.messages")]
    found = [it for it in map(json.loads, "".join(kept).splitlines()) if it.get("method") not in (
        None, "initialize", "shutdown", "exit")]
    uri = "file:///nilbozad/examples/bytes-and-names.vsm"
    for seed in range(8):
        chance, client = random.Random(seed), Edited(vsm, explain)
        client.begin(options=damaged_value(chance, {"low": 16, "history": 5}))
        client.edit(uri, " STORAGE OBTAIN,LENGTH=8,ADDR=P\n POKE P,A(P)\n STORAGE OBTAIN,LENGHT=8\n")
        for it in chance.choices(found, k=60):
            print("seed", seed, it["method"], params := damaged_value(chance, it["params"]))
            if "id" in it:
                client.response(client.send(it["method"], params))
            else:
                client.notify(it["method"], params)
        client.edit(URI, " MAP\n")
        client.finish()


def listing_long(vsm: str, explain: str) -> Edited:
    """A client whose server is at work on a long script."""
    client = Edited(vsm, explain)
    client.begin()
    item = {"uri": URI, "languageId": "vsm", "version": 1, "text": LONG * 50_000}
    client.notify("textDocument/didOpen", {"textDocument": item})
    client.started()
    return client


@pytest.mark.parametrize("how", ["half a message", signal.SIGTERM, signal.SIGINT, signal.SIGHUP])
def test_a_client_that_goes_away_ends_it_and_its_runs(vsm: str, explain: str, how: Any) -> None:
    client = listing_long(vsm, explain)
    if how == "half a message":
        client.raw(b"Content-Length: 50\r\n\r\n{\"jsonrpc\"")
        assert client.close() == 1
    else:
        children = client.children()
        client.child.send_signal(how)
        assert client.child.wait(30) == 128 + how and client.child.stderr.read() == b""
        assert not [it for it in children if os.path.exists("/proc/%d" % it)]


def test_vsm_explain_killed_beneath_it(vsm: str, explain: str) -> None:
    """Beneath diagnostics, and beneath a hover that waits for why."""
    client = listing_long(vsm, explain)
    os.kill(client.children()[0], signal.SIGKILL)
    assert client.diagnostics(URI)[0]["message"] == "vsm-explain ended by signal 9"
    where = {"textDocument": {"uri": URI}, "position": {"line": 99_999, "character": 3}}
    number = client.send("textDocument/hover", where)
    os.kill(client.started()[0], signal.SIGKILL)
    found = client.response(number)["error"]
    assert (found["code"], found["message"]) == (Code.FAILED, "vsm-explain ended by signal 9")
    assert client.edit(URI, " MAP\n") == []
    client.finish()


def test_a_change_that_is_only_half_right_ends_the_listing_of_the_text_before(vsm: str, explain: str) -> None:
    client = Edited(vsm, explain)
    client.begin()
    item = {"uri": URI, "languageId": "vsm", "version": 1, "text": " FOO\n" * 50_000}
    client.notify("textDocument/didOpen", {"textDocument": item})
    client.started()
    client.change(URI, 2, {"text": " MAP\n"}, {"text": 7})
    assert client.diagnostics(URI) == []
    client.finish()


def test_no_program_beneath_it(vsm: str, explain: str, tmp_path: Path) -> None:
    """A program that went away, says something else or never ends is reported in the script's first line, or to the
    request."""
    program = tmp_path / "explain"
    shutil.copy(explain, program)
    client = Edited(vsm, str(program))
    client.begin()
    lists = "#!/bin/sh\necho '{\"version\":1,\"command\":\"list\"}'\necho '%s'\n"
    beyond = '{"kind":"answer","first":9,"last":9,"answer":"ABEND S878"}'
    cut = '{"refused":false,\n{"kind":"answer","first":1,"last":1,"answer":"REFUSED NAME"}'
    for text in ("", "#!/bin/sh\nexit 8\n", "#!/bin/sh\nexec cat\n", "#!/bin/sh\nexec yes MAP\n",
                 lists % beyond, lists % cut):
        program.unlink(missing_ok=True)
        if text:
            program.write_text(text)
            program.chmod(0o755)
        found = client.edit(URI, " MAP\n")
        assert [(it["severity"], it["code"]) for it in found] == [(1, "settings")], text
        assert "explain" in found[0]["message"], (text, found)
        where = {"textDocument": {"uri": URI}, "position": {"line": 0, "character": 1}}
        assert text.endswith(("cat\n", "'\n")) or client.error("textDocument/hover", where) == Code.FAILED
    client.finish()


def test_a_refused_statement_without_an_operation(vsm: str, tmp_path: Path) -> None:
    """No vsm-explain lists one. It would be marked as a whole."""
    program = tmp_path / "explain"
    program.write_text("""#!/bin/sh
cat >/dev/null
echo '{"version":1,"command":"list"}'
echo '{"kind":"answer","first":1,"last":1,"answer":"REFUSED MEMORY","refused":true,"kept":0}'
""")
    program.chmod(0o755)
    client = Edited(vsm, str(program))
    client.begin()
    assert [(it["code"], it["range"]) for it in client.edit(URI, "NAME\n")] == [("REFUSED MEMORY", span(0, 0, 0, 4))]
    client.finish()


@pytest.mark.parametrize("status", [0, 16])
def test_it_answers_while_vsm_explain_is_compiled(vsm: str, explain: str, tmp_path: Path, status: int,
                                                  monkeypatch: pytest.MonkeyPatch) -> None:
    """What is opened meanwhile is listed then, or the client hears that it can't be compiled."""
    shutil.copytree(editors.TOOLS, tmp_path / "tools", ignore=shutil.ignore_patterns("tests"))
    (tmp_path / "docs").symlink_to(editors.TOOLS.parent / "docs")
    launcher, done = tmp_path / "vsm-explain", tmp_path / "done"
    launcher.write_text("#!/bin/sh\nuntil [ -e '%s' ]; do sleep 0.1; done\n[ %d = 0 ] || exit %d\nexec '%s' \"$@\"\n"
                        % (done, status, status, explain))
    launcher.chmod(0o755)
    monkeypatch.setattr(editors, "TOOLS", tmp_path / "tools")
    client = Edited(vsm, str(launcher))
    client.begin()
    client.notify("textDocument/didOpen", {"textDocument": {"uri": URI, "languageId": "vsm", "version": 1,
                                                            "text": " STORAGE OBTAIN,LENGTH=9X\n"}})
    where = {"textDocument": {"uri": URI}, "position": {"line": 0, "character": 1}}
    assert client.error("textDocument/hover", where) == Code.FAILED
    done.touch()
    if status == 0:
        assert [it["code"] for it in client.diagnostics(URI)] == ["FAULT VALUE"]
        assert "FAULT VALUE" in client.ask("textDocument/hover", **where)["contents"]["value"]
    else:
        while not (said := [it for it in client.told if it["method"] == "window/showMessage"]):
            client.hear()
        assert "ended with status 16" in said[0]["params"]["message"]
    client.finish()
