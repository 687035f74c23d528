"""vsm-paste on sources as they're written today: structured macros, reentrant code, register 0 of form R, exits."""
from __future__ import annotations

import re
import shutil
import subprocess
from pathlib import Path
from typing import Callable

import pytest
from test_paste import SOURCES, as_statement, check_trap, told

from vsmtools import bench

TOOL = "vsm-paste"
TODAY = sorted((SOURCES / "today").glob("*.asm"))


def wanted(path: Path) -> tuple[list[str], list[str], dict[int, str]]:
    """Of an expected script the options for vsm-paste, those for vsm, and the statement that each macro's line should have;
    '' if the source doesn't say enough for one."""
    words: dict[str, list[str]] = {"*": [], "*!": []}
    statements: dict[int, str] = {}
    for line in path.with_suffix(".wanted").read_text().splitlines():
        head, _, rest = line.partition(" ")
        if head in words:
            words[head] = rest.split()
        else:
            statements[int(head)] = "" if rest.startswith("-") else rest
    return words["*"], words["*!"], statements


def outcome(vsm: str, options: list[str], statements: dict[int, str], size: int) -> tuple[list[tuple[int, str]], list[str]]:
    """The answers of a script that has these statements at these lines, and what its last map has except for names and
    registers."""
    script = "".join(statements.get(line, "*") + "\n" for line in range(1, size + 1)) + " MAP\n"
    answers = bench.run(vsm, options, script.encode()).answers
    lines = answers[-1].text.split("\n")
    return ([(it.line, it.text) for it in answers[:-1]],
            [line for line in lines if not re.match(r" (R\d|NAME|CELLPOOL)", line)])


def of_script(script: list[str]) -> dict[int, str]:
    """The statements of a script by their first lines, with the lines that continue them."""
    found = {}
    for extent in bench.statements([line.encode() for line in script]):
        found[extent.first] = "\n".join(script[extent.first - 1:extent.last])
    return found


@pytest.mark.parametrize("path", TODAY, ids=lambda path: path.stem)
def test_a_source_of_today(run: Callable, vsm: str, path: Path) -> None:
    """Each statement is what the expected script has there, by its answer and by the map at the end."""
    words, options, statements = wanted(path)
    done = run(TOOL, *words, path)
    script = done.stdout.decode().splitlines()
    assert ["*! " + " ".join(options)] == [line for line in script if line.startswith("*!")] or not options
    found = of_script(script)
    assert set(found) <= {line for line, text in statements.items() if text}
    size = len(script)
    answers, held = outcome(vsm, options, {line: statements[line] for line in found}, size)
    ours = bench.run(vsm, options, ("\n".join(script) + "\n MAP\n").encode()).answers
    assert [(it.line, it.text) for it in ours[:-1]] == answers, (found, told(done))
    assert [line for line in ours[-1].text.split("\n") if not re.match(r" (R\d|NAME|CELLPOOL)", line)] == held
    notes = [int(note.split(":")[1]) for note in told(done) if "isn't taken: " in note and "macro definition" not in note]
    left = {max(line for line in statements if line <= note) for note in notes}
    assert left == set(statements) - set(found), told(done)


def test_eight_macros_of_ten_are_taken(run: Callable) -> None:
    """Of all ten sources together."""
    taken = macros = 0
    for path in TODAY:
        words, _, statements = wanted(path)
        taken += len(of_script(run(TOOL, *words, path).stdout.decode().splitlines()))
        macros += len(statements)
    assert len(TODAY) == 10 and macros >= 100 and 10 * taken >= 8 * macros, (taken, macros)


OBTAIN, FREE = " STORAGE OBTAIN,LENGTH=(3)", " FREEMAIN RU,LV=64,A=(4)"
GET = " GETMAIN RU,LV=64\n ST 1,P\n"
# A source, its statements at some lines ('' for one that isn't taken), and a part of a note.
TRAPS = {
    # Structured macros are ways.
    "IF": (" LA 3,4096\n IF (CLI,FLAG,EQ,C'L')\n LA 3,8192\n ENDIF\n" + OBTAIN, {5: ""}, "what register 3 holds"),
    "IF, and the same": (" LA 3,64\n IF CLI,FLAG,EQ,C'L'\n MVI FLAG,0\n ELSE\n LA 3,64\n ENDIF\n" + OBTAIN, {7: ""}, "what register 3 holds"),
    "IF of arms that end": (" LA 3,64\n IF (LTR,15,15,NZ)\n LA 3,8\n J X\n ENDIF\n" + OBTAIN + "\nX DS 0H", {6: "STORAGE OBTAIN,LENGTH=64"}, ""),
    "ELSE": (" IF (LTR,2,2,Z),THEN\n LA 3,64\n" + OBTAIN + "\n ELSE\n" + OBTAIN + "\n ENDIF", {3: "STORAGE OBTAIN,LENGTH=64", 5: ""},
             "what register 3 holds"),
    "ELSEIF": (" LA 3,64\n IF (LTR,2,2,Z)\n LA 3,8\n ELSEIF (LTR,2,2,M)\n" + OBTAIN + "\n ENDIF", {5: "STORAGE OBTAIN,LENGTH=64"}, ""),
    "a condition's load": (" LA 3,64\n IF (LT,3,WORD,NP),OR,(LTR,4,4,Z)\n MVI FLAG,0\n ENDIF\n" + OBTAIN, {5: ""}, "what register 3"),
    "a condition's store": ("L DC F'64'\n IF (NC,L,MASK,Z)\n MVI FLAG,0\n ENDIF\n L 3,L\n" + OBTAIN, {6: ""}, "what register 3"),
    "DO": (" LA 3,8\n DO FROM=(5,10)\n LA 3,8(,3)\n ENDDO\n" + OBTAIN, {5: ""}, "what register 3 holds"),
    "DO, and its register": (" LA 3,8\n DO FROM=(3,10)\n" + OBTAIN + "\n ENDDO", {3: ""}, "what register 3 holds"),
    "DO, and what it keeps": (" LA 3,8\n DO WHILE=(CLI,FLAG,EQ,0)\n LA 4,8(,4)\n ITERATE\n ENDDO\n" + OBTAIN, {6: "STORAGE OBTAIN,LENGTH=8"}, ""),
    "DOEXIT": (" LA 3,8\n DO INF\n LA 3,16\n DOEXIT (LTR,2,2,Z)\n LA 3,24\n ENDDO\n" + OBTAIN, {7: ""}, "what register 3 holds"),
    "LEAVE": (" DO INF\n LA 3,16\n IF (LTR,2,2,Z)\n LEAVE\n ENDIF\n LA 3,16\n ENDDO\n LA 3,16\n" + OBTAIN, {9: "STORAGE OBTAIN,LENGTH=16"}, ""),
    "SELECT": (" LA 3,8\n SELECT CLI,FLAG,EQ\n WHEN (1,2,3)\n LA 3,16\n OTHRWISE\n" + OBTAIN + "\n ENDSEL\n" + OBTAIN,
               {6: "STORAGE OBTAIN,LENGTH=8", 8: ""}, "what register 3 holds"),
    "NEXTWHEN": (" LA 3,8\n SELECT\n WHEN (LTR,2,2,Z)\n LA 3,16\n NEXTWHEN\n WHEN (LTR,2,2,P)\n" + OBTAIN + "\n ENDSEL", {7: ""}, "register 3"),
    "STRTSRCH": (" LA 3,8\n STRTSRCH WHILE=(LTR,2,2,NZ)\n EXITIF (CLI,0(2),EQ,1)\n LA 3,16\n" + OBTAIN + "\n ORELSE\n ENDLOOP\n" + OBTAIN
                 + "\n ENDSRCH\n" + OBTAIN, {5: "STORAGE OBTAIN,LENGTH=16", 8: "STORAGE OBTAIN,LENGTH=8", 10: ""}, "what register 3"),
    "CASENTRY": (" LA 3,8\n CASENTRY 5\n CASE 1\n LA 3,16\n CASE 2\n" + OBTAIN + "\n ENDCASE\n" + OBTAIN,
                 {6: "STORAGE OBTAIN,LENGTH=8", 8: ""}, "what register 3 holds"),
    "an area by IF": (" GETMAIN RU,LV=64\n LR 6,1\n GETMAIN RU,LV=64\n LR 7,1\n IF (LTR,2,2,Z)\n LR 7,6\n ENDIF\n FREEMAIN RU,LV=64,A=(7)",
                      {8: ""}, "what register 7 holds"),
    "a block that isn't closed": (" LA 3,8\n IF (LTR,2,2,Z)\n" + OBTAIN, {3: ""}, "a block isn't closed"),
    # Register 0 of form R has the subpool in its first byte.
    "GETMAIN R": (" L 0,=X'05000100'\n GETMAIN R,LV=(0)", {2: "GETMAIN R,SP=5,LV=256"}, "the first byte of register 0 is the subpool, 5"),
    "FREEMAIN R": (" GETMAIN R,LV=8,SP=5\n L 0,=X'05000000'\n FREEMAIN R,LV=(0)", {3: "FREEMAIN R,SP=5"}, ""),
    "FREEMAIN R of 0": (" GETMAIN R,LV=8,SP=5\n FREEMAIN R,LV=0,SP=5", {2: "FREEMAIN R,SP=5"}, ""),
    "a subpool by DC": ("L DC 0F'0',AL1(10),AL3(72)\n L 0,L\n GETMAIN R,LV=(0)", {3: "GETMAIN R,SP=10,LV=72"}, ""),
    "two subpools": (" L 0,=X'05000100'\n GETMAIN R,LV=(0),SP=6", {2: ""}, "SP= is written too"),
    # An ATTACH without an operand that matters.
    "ATTACH EPLOC": (" ATTACH EPLOC=PGM,ECB=E\n ST 1,T\n DETACH T", {1: "ATTACH", 3: "DETACH 2"}, "EPLOC=PGM has no meaning"),
    # Storage.
    "LOCTR": ("C CSECT\nX DS CL8\nL1 LOCTR\nY DS CL8\nC LOCTR\nZ DS CL8\nLEN EQU *-X\n GETMAIN RU,LV=LEN", {8: ""}, "how far"),
    "USING of a range": ("E DSECT\nNEXT DS A\nOWN DS A\nEND EQU *\nC CSECT\n USING (E,END),10\n" + GET.replace("P", "OWN")
                         + " L 10,NEXT\n L 4,OWN\n" + FREE, {11: ""}, "what register 4 holds"),
    "a dependent USING": ("E DSECT\nNEXT DS A\nOWN DS A\nO DSECT\n DS A\nIN DS XL8\nC CSECT\n USING O,10\n USING E,IN\n"
                          + GET.replace("P", "OWN") + " L 10,NEXT\n L 4,OWN\n" + FREE, {14: ""}, "what register 4 holds"),
    "a store into what is below": ("E DSECT\nOWN DS A\nO DSECT\n DS A\nIN DS A\nC CSECT\n USING O,10\n USING E,IN\n"
                                   + GET.replace("P", "OWN") + " ST 5,IN\n L 4,OWN\n" + FREE, {13: ""}, "what register 4 holds"),
    # Calls of the program's own code.
    "an address constant": (" LA 5,100\n L 15,ASUB\n BALR 14,15\n STORAGE OBTAIN,LENGTH=(5)\n PR\nSUB LA 5,200\n BR 14\nASUB DC A(SUB)", {4: ""},
                            "line 3 calls code"),
    "a table of these": (" LA 5,100\n L 15,TAB(4)\n BASR 14,15\n STORAGE OBTAIN,LENGTH=(5)\n PR\nSUB LA 5,200\n BR 14\nTAB DC A(0,SUB)", {4: ""},
                         "line 3 calls code"),
    "CALL": (" LA 5,100\n CALL SUB\n STORAGE OBTAIN,LENGTH=(5)\n PR\nSUB LA 5,200\n BR 14", {3: ""}, "line 2 calls SUB"),
    "CALL by a register": (" LA 5,100\n LARL 15,SUB\n CALL (15)\n STORAGE OBTAIN,LENGTH=(5)\n PR\nSUB LA 5,200\n BR 14", {4: ""}, "line 3 calls"),
    # Subpools.
    "a subpool in a register": (" STORAGE OBTAIN,LENGTH=8,SP=230\n LA 4,127\n STORAGE OBTAIN,LENGTH=8,SP=(4)",
                                {1: "STORAGE OBTAIN,LENGTH=8,SP=126", 3: "STORAGE OBTAIN,LENGTH=8,SP=127"}, ""),
    # The address of a variable request.
    "VRC": (" GETMAIN VRC,LV=(65536,4096),SP=4\n LR 9,1\n FREEMAIN RU,LV=(0),A=(9),SP=4",
            {3: "FREEMAIN RU,LV=(0),A=AREA1,SP=4"}, "(9) is taken as AREA1"),
    "VRU by STM": (" GETMAIN VRU,LV=(64,8)\n STM 0,1,X\n STORAGE OBTAIN,LENGTH=8\n LM 0,1,X\n FREEMAIN RU,LV=(0),A=(1)\nX DS 2A",
                   {5: "FREEMAIN RU,LV=(0),A=AREA1"}, ""),
    # What was lost without need.
    "MF of ATTACH": ("L ATTACH EP=A,SF=L\n ATTACHX SHSPV=2,MF=(E,PARMS),SF=(E,L)\n ST 1,T\n DETACH T", {2: "ATTACH SHSPV=2,EP=A", 4: "DETACH 2"},
                     "MF=(E,PARMS) has no meaning"),
    "ORG ,": ("D DSECT\nX DS CL8\n ORG X\nY DS H\n ORG ,\nLEN EQU *-D\nC CSECT\n GETMAIN RU,LV=LEN", {8: "GETMAIN RU,LV=8"}, ""),
    "what isn't taken": (" CPOOL BUILD,PCELLCT=1,CSIZE=8,CPID=P\n CPOOL FREE,CPID=P,CELL=(7)\n CPOOL DELETE,CPID=P", {2: "", 3: "CPOOL DELETE,CPID=P"},
                         "what register 7 holds"),
    "one's own macro": (" MACRO\n LOG &TEXT\n LA 1,=CL8&TEXT\n L 15,=V(LOGGER)\n BASR 14,15\n MEND\n LA 3,64\n LA 0,64\n LOG 'X'\n" + OBTAIN
                        + "\n STORAGE OBTAIN,LENGTH=(0)", {10: "STORAGE OBTAIN,LENGTH=64", 11: ""}, "what register 0 holds"),
    "what one's own macro changes": (" MACRO\n SET &R,&TO=3\n AIF ('&R' EQ '').X\n LA &R,8\n.X LR &TO,&R\n MEND\n LA 3,64\n LA 4,64\n SET 4\n"
                                     + OBTAIN + "\n STORAGE OBTAIN,LENGTH=(4)", {10: "", 11: ""}, "line 9 may change it"),
    "a constant by one's own macro": (" MACRO\n SET\n ST 5,LEN\n MEND\n SET\n L 3,LEN\n" + OBTAIN + "\nLEN DC F'8'", {7: ""}, "what register 3"),
    "LOC": (" STORAGE OBTAIN,LENGTH=8,LOC=(31,PAGEFRAMESIZE1MB)", {1: "STORAGE OBTAIN,LENGTH=8,LOC=31"}, "PAGEFRAMESIZE1MB has no meaning"),
    "USE2GTO32G": (" STORAGE OBTAIN,LENGTH=8,USE2GTO32G=YES", {1: "STORAGE OBTAIN,LENGTH=8"}, "USE2GTO32G=YES has no meaning"),
    "SETA": ("&SIZE SETA 4*(1024+X'0')\n&SIZE SETA 4*1024\n GETMAIN RU,LV=&SIZE+8", {3: "GETMAIN RU,LV=4104"}, "values of variable symbols: RU,LV=4096+8"),
    "SETC": ("&F SETC 'RU'\n&G SETC '&F'\n GETMAIN &G,LV=8", {3: "GETMAIN RU,LV=8"}, ""),
    "AIF": ("&N SETA 2\n AIF (&N GT 1 AND NOT ('&N' EQ '3')).X\n GETMAIN RU,LV=8\n.X ANOP\n GETMAIN RU,LV=16", {3: "", 5: "GETMAIN RU,LV=16"},
            "it isn't assembled"),
    "AIF that doesn't skip": ("&N SETA 2\n AIF (&N EQ 1).X\n GETMAIN RU,LV=8\n.X ANOP", {3: "GETMAIN RU,LV=8"}, ""),
    "SETA by AIF": ("&N SETA 2\n AIF (&A EQ 1).X\n&N SETA 3\n.X ANOP\n GETMAIN RU,LV=&N", {5: ""}, "it has a variable symbol"),
    "SETA in a loop": ("&N SETA 2\n.L ANOP\n&N SETA &N+1\n AIF (&N LT 9).L\n GETMAIN RU,LV=&N", {5: ""}, "it has a variable symbol"),
    "a global that a macro sets": (" MACRO\n M\n GBLA &N\n&N SETA 9\n MEND\n GBLA &N\n&N SETA 2\n M\n GETMAIN RU,LV=&N", {9: ""}, "a variable symbol"),
    "&N(1)": ("&N SETA 2\n GETMAIN RU,LV=&N(1)", {2: ""}, "it has a variable symbol"),
    "more lines": (" GETMAIN RU,LV=8\n" + " GETMAIN RU,LV=16,RELATED=(".ljust(70, "R") + ")\n ST 1,P\n GETMAIN RU,LV=8\n L 4,P\n FREEMAIN RU,LV=16,A=(4)",
                   {6: "FREEMAIN RU,LV=16,A=P"}, "it's given ADDR=P"),
    "a length that is gone": (" GETMAIN VRU,LV=(64,8)\n LR 5,0\n GETMAIN VRU,LV=(32,8)\n GETMAIN RU,LV=(5)", {4: ""}, "the length that was got"),
    "an address in a macro": (" LA 3,64\n ESTAEX X,PARAM=Q\n" + OBTAIN + "\n PR\nX DS 0H\n BR 14\nQ DS A", {3: "STORAGE OBTAIN,LENGTH=64"}, ""),
    "AL1": (" L 3,=AL1(0,0,1,8)\n" + OBTAIN, {2: "STORAGE OBTAIN,LENGTH=264"}, ""),
}


@pytest.mark.parametrize("trap", TRAPS)
def test_traps_of_today(vsm: str, trap: str) -> None:
    check_trap(vsm, *TRAPS[trap])


def tell(run: Callable, source: str, *words: str) -> tuple[list[str], str, int]:
    done = run(TOOL, *words, given=source.encode())
    return done.stdout.decode().splitlines(), "\n".join(told(done)), done.returncode


def test_residence(run: Callable) -> None:
    """RMODE becomes an option of the script, in its line, if it comes before the macros."""
    for mode in ("ANY", "31", "64"):
        script, notes, _ = tell(run, "C RMODE %s\n STORAGE OBTAIN,LENGTH=8\n" % mode)
        assert script[0] == "*! --residence 31" and ":1:1: RMODE %s: run vsm with --residence 31" % mode in notes
    for source in ("C RMODE 24\n STORAGE OBTAIN,LENGTH=8\n", " STORAGE OBTAIN,LENGTH=8\n"):
        script, notes, _ = tell(run, source)
        assert not any(line.startswith("*!") for line in script) and "RMODE" not in notes
    script, notes, _ = tell(run, " STORAGE OBTAIN,LENGTH=8\nC RMODE 31\n")
    assert script[1] == "*C RMODE 31" and "run vsm with --residence 31" in notes


def test_a_part_of_an_area(run: Callable, vsm: str) -> None:
    """It's released by the number that vsm answers."""
    source = "C RMODE ANY\n GETMAIN RU,LV=8,SP=1\n GETMAIN RU,LV=8192\n LR 3,1\n LA 4,4096(,3)\n AHI 4,8\n STORAGE RELEASE,LENGTH=8,ADDR=(4)\n" \
             " GETMAIN RC,LV=900000\n LA 5,8(,1)\n STORAGE RELEASE,LENGTH=8,ADDR=(5)\n"
    script, notes, status = tell(run, source, "--vsm", vsm)
    assert as_statement(script[6]) == "STORAGE RELEASE,LENGTH=8,ADDR=X'08002008'" and status == 4
    assert "(4) is taken as X'08002008', 4104 bytes into the area of line 3" in notes
    assert "STORAGE isn't taken: (5) is 8 bytes into the area of line 8, whose address no run of the script gave" in notes


def test_the_script_is_tried(run: Callable, vsm: str, tmp_path: Path) -> None:
    """What vsm finds faulty isn't taken; without a program that is said, and nothing compiles."""
    source = " STORAGE OBTAIN,LENGTH=8,ADDR=P,COND=MAYBE\n STORAGE RELEASE,LENGTH=8,ADDR=P\n STORAGE OBTAIN,LENGTH=8\n"
    script, notes, status = tell(run, source, "--vsm", vsm)
    assert status == 4 and [as_statement(line) for line in script[:3]] == ["", "", "STORAGE OBTAIN,LENGTH=8"]
    assert "STORAGE isn't taken: its statement would be answered FAULT VALUE" in notes and "macros taken: 1, not taken: 2" in notes
    done = run(TOOL, "--vsm", tmp_path / "none", given=source.encode())
    assert done.returncode == 16 and done.stdout == b""


def test_a_copy_without_a_program(tmp_path: Path) -> None:
    """Of an unpacked repository nothing is compiled."""
    shutil.copytree(SOURCES.parents[1], tmp_path / "tools", ignore=shutil.ignore_patterns("tests", "__pycache__"))
    (tmp_path / "vsm").write_text("#!/bin/sh\ntouch %s/compiled\n" % tmp_path)
    (tmp_path / "vsm").chmod(0o755)
    done = subprocess.run(["/usr/bin/python3", tmp_path / "tools" / TOOL], input=b" GETMAIN RU,LV=8\n", capture_output=True,
                          env={"PATH": "/nowhere"})
    assert done.returncode == 0 and b"the script wasn't tried: no program vsm is found" in done.stderr
    assert done.stdout.startswith(b" GETMAIN RU,LV=8\n") and not (tmp_path / "compiled").exists()


def test_set(run: Callable) -> None:
    source = " GBLC &SYS\n AIF ('&SYS' EQ 'MVS').X\n GETMAIN RU,LV=8\n.X ANOP\n GETMAIN RU,LV=&LEN\n"
    for word in ("&SYS=MVS", "SYS=MVS"):
        script, _, status = tell(run, source, "--set", word, "--set", "LEN=16")
        assert [as_statement(line) for line in script[2:5:2]] == ["", "GETMAIN RU,LV=16"] and status == 0
    assert as_statement(tell(run, source, "--set", "SYS=VSE")[0][2]) == "GETMAIN RU,LV=8"
    assert as_statement(tell(run, source)[0][2]) == ""
    for word in ("SYS", "1=2", "=3"):
        assert run(TOOL, "--set", word, given=b" MAP\n").returncode == 16
