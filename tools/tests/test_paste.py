"""vsm-paste: sources to scripts, line by line, and what is reported of them."""
from __future__ import annotations

import re
import time
from pathlib import Path
from typing import Callable

import pytest
from conftest import one_line

from vsmtools import bench
from vsmtools.assembler import Symbols, Unknown, read_statement
from vsmtools.pasting import MACROS, Paste

TOOL = "vsm-paste"
SOURCES = Path(__file__).parent / "sources"
# How many macros each source has, how many vsm accepts, and of these how many are no abend. A macro is accepted if its
# answer is that of z/OS: carried out, or an abend that the source has there; no FAULT, no REFUSED, no comment.
COUNTS = {"reentrant": (15, 15, 15), "cellserver": (23, 22, 22), "subtasks": (21, 20, 20),
          "tblbld": (11, 11, 11),
          # A fragment. Its copybook and what four registers and fields hold have to be given; GETMAIN VRU has no
          # LA=; and it releases one area three times, so that two of them are SA78.
          "bufmgr": (19, 18, 16)}
GIVEN = {"bufmgr": ["--copy", SOURCES / "bufmgr.copy", "--at", "26:R0=WORKL", "--at", "26:R1=@8",
                    "--at", "29:BUF=@16", "--at", "32:TCBADDR=@30"]}


def told(done) -> list[str]:
    lines = done.stderr.decode().splitlines()
    assert all(line.startswith("vsm-paste: ") for line in lines) and "nothing is claimed" in lines[0]
    return [line[len("vsm-paste: "):] for line in lines]


def paste(run: Callable, text: str, *words: object) -> tuple[list[str], list[str], int]:
    """The lines of the script except the last, what is reported, and the status."""
    done = run(TOOL, *words, given=text.encode())
    return done.stdout.decode().splitlines()[:-1], told(done)[1:], done.returncode


def macros_in(path: Path) -> list[int]:
    """The lines, from 1, on which a macro begins."""
    lines, found, at = path.read_text().splitlines(), [], 0
    while at < len(lines):
        it = read_statement(lines, at)
        found += [it.first + 1] if it.operation in MACROS else []
        at = it.last + 1
    return found


@pytest.mark.parametrize("name", COUNTS)
def test_a_source(run: Callable, vsm: str, name: str) -> None:
    path = SOURCES / (name + ".asm")
    done = run(TOOL, *GIVEN.get(name, []), path)
    script = done.stdout.decode().splitlines()
    source = path.read_text().splitlines()
    assert len(script) == len(source) + 1 and script[-1].startswith("* vsm-paste: ")
    macros, taken, carried_out = COUNTS[name]
    begins = macros_in(path)
    assert len(begins) == macros
    answers = bench.run(vsm, [], done.stdout).answers
    # Each answer has its line's number in the source, and nothing is faulty.
    assert len(answers) == taken and {answer.line for answer in answers} <= set(begins)
    assert not any(answer.text.startswith(("FAULT", "REFUSED")) for answer in answers)
    assert sum(not answer.is_refused for answer in answers) == carried_out
    left = [line for line in begins if line not in {answer.line for answer in answers}]
    notes = [line for line in told(done) if "isn't taken" in line]
    assert sorted(left) == sorted(int(re.match(r".*\.asm:(\d+):\d+: ", note)[1]) for note in notes)
    assert told(done)[-1] == "macros taken: %d, not taken: %d" % (taken, macros - taken)
    assert done.returncode == (4 if left else 0)


@pytest.mark.parametrize("name", COUNTS)
def test_nine_macros_in_ten_are_accepted(name: str) -> None:
    macros, accepted, _ = COUNTS[name]
    assert 10 * accepted >= 9 * macros
    assert name in ("tblbld", "bufmgr") or 60 <= len((SOURCES / (name + ".asm")).read_text().splitlines()) <= 150


def test_a_fragment_without_what_it_lacks(run: Callable, vsm: str) -> None:
    """Each macro that isn't taken is listed with its line, column and reason."""
    done = run(TOOL, SOURCES / "bufmgr.asm")
    notes = [note.split("bufmgr.asm:")[1] for note in told(done) if "isn't taken" in note]
    assert [note.partition(" isn't taken: ")[::2] for note in notes] == [
        ("19:22: GETMAIN", "form VRU has no LA=, which names a list: VC, VU, LC and LU have it"),
        ("21:44: GETMAIN", "MF=(E,GETL) names a list, and neither the source nor --copy has its list form of "
                           "GETMAIN"),
        ("26:21: FREEMAIN", "what register 0 holds here isn't known: line 25 changes it"),
        ("29:26: STORAGE", "BUF isn't defined: --copy or --equ defines it"),
        ("32:17: DETACH", "TCBADDR isn't known to hold a task that an earlier ATTACH gave")]
    answers = bench.run(vsm, [], done.stdout).answers
    assert done.returncode == 4 and len(answers) == 14
    assert not any(answer.text.startswith(("FAULT", "REFUSED")) for answer in answers)


@pytest.mark.parametrize("source, expected", [
    ("A EQU 8*(2+3)\n GETMAIN R,LV=A", "GETMAIN R,LV=40"),
    ("F DS CL133\n GETMAIN RU,LV=L'F+8", "GETMAIN RU,LV=141"),
    ("W DSECT\n DS 18F\nB DS CL5\n DS 0D\nE EQU *-W\n GETMAIN R,LV=E", "GETMAIN R,LV=80"),
    ("W DSECT\n DS 3A,2H,XL3,(2)D\nE EQU *-W\n GETMAIN R,LV=E", "GETMAIN R,LV=40"),
    (" LA 0,64\n GETMAIN R,LV=(0)", "GETMAIN R,LV=64"),
    (" LHI R5,-1\n AHI R5,9\n GETMAIN RU,LV=(R5)", "GETMAIN RU,LV=8"),
    (" L 3,=F'24'\n GETMAIN RU,LV=(3)", "GETMAIN RU,LV=24"),
    (" L 3,=A(X'10'*3)\n GETMAIN RU,LV=(3)", "GETMAIN RU,LV=48"),
    (" GETMAIN RU,LV=8,SP=230", "GETMAIN RU,LV=8,SP=127"),
    (" GETMAIN RU,LV=8,SP=127\n GETMAIN RU,LV=8,SP=230", "GETMAIN RU,LV=8,SP=126"),
    (" ATTACHX EP=A,ECB=E", "ATTACH EP=A"),
    (" GETMAIN RU,LV=8\n LR 5,1\n LA 1,0\n FREEMAIN RU,LV=8,A=(5)", "FREEMAIN RU,LV=8,A=(1)"),
    (" GETMAIN RU,LV=8\n ST 1,P\n GETMAIN RU,LV=8\n L 7,P\n FREEMAIN RU,LV=8,A=(7)", "FREEMAIN RU,LV=8,A=P"),
    (" CPOOL BUILD,PCELLCT=1,CSIZE=8,CPID=(8)\n LR 3,8\n CPOOL DELETE,CPID=(3)", "CPOOL DELETE,CPID=CPID8"),
    (" ATTACH EP=A\n ST 1,T\n DETACH T", "DETACH 2"),
    ("L DC AL1(1,7)\n ATTACH EP=A,GSPL=L", "ATTACH EP=A,GSPV=7"),
    ("L DC A(X'80000000'+24)\n GETMAIN LU,LA=L,A=P", "GETMAIN EU,LV=24,A=P"),
    ("L DC A(X'80000000'+24)\n GETMAIN LC,LA=L,A=P\n FREEMAIN LU,LA=L,A=P", "FREEMAIN EU,LV=24,A=P"),
    ("L DC F'8,64'\n GETMAIN VC,LA=L,A=P,SP=2",
     "STORAGE OBTAIN,LENGTH=(64,8),SP=2,LOC=BELOW,COND=YES,ADDR=P"),
    ("L DC F'8,64'\n GETMAIN VU,LA=L,A=P\n L 0,P+4\n L 3,P\n FREEMAIN RU,LV=(0),A=(3)",
     "FREEMAIN RU,LV=(0),A=(1)"),
    ("L GETMAIN RU,LV=16,SP=3,MF=L\n GETMAIN RU,MF=(E,L)", "GETMAIN RU,LV=16,SP=3"),
    ("L GETMAIN RU,LV=16,MF=L\n GETMAIN RU,LV=8,MF=(E,L)\n GETMAIN RU,MF=(E,L)", "GETMAIN RU,LV=8"),
    (" STORAGE OBTAIN,LENGTH=8,MF=(L,L)\n MVC W(20),L\n STORAGE OBTAIN,SP=1,MF=(E,W)",
     "STORAGE OBTAIN,SP=1,LENGTH=8"),
    ("L ATTACH EP=A,SF=L\n ATTACHX SHSPV=2,SF=(E,L)", "ATTACH SHSPV=2,EP=A"),
    (" GETMAIN RU,LV=8,MF=S", "GETMAIN RU,LV=8"),
])
def test_what_is_worked_out(run: Callable, vsm: str, source: str, expected: str) -> None:
    script, _, status = paste(run, source + "\n")
    assert status == 0 and " ".join(script[-1].split("  ")[0].split()) == expected, script
    assert not any(answer.is_refused for answer in bench.run(vsm, [], "\n".join(script + [""]).encode()).answers)


@pytest.mark.parametrize("source, line, why", [
    ("A EQU B\nB EQU A\n GETMAIN R,LV=A", 3, "GETMAIN isn't taken: A depends on itself: A B A"),
    ("A EQU L'A\n GETMAIN R,LV=A", 1, "A depends on itself: A A"),
    ("A EQU B,L'B\nB EQU A,L'A\n GETMAIN RU,LV=L'A", 1, "A depends on itself: A B A"),
    ("A EQU 1,L'B\nB EQU 2,L'A\n", 1, "A depends on itself: A B A"),
    ("A EQU A\n", 1, "A depends on itself: A A"),
    (" MACRO\n M &X\n GETMAIN R,LV=&X\n MEND\n M 8\n", 1, "a macro definition isn't taken"),
    (" GETMAIN R,LV=&LEN\n", 1, "it has a variable symbol"),
    (" GETMAIN R,LV=NOWHERE\n", 1, "NOWHERE isn't defined"),
    (" GETMAIN R,LV=(5)\n", 1, "no earlier line gives it a number"),
    (" LA 5,8\n LM 4,6,X\n GETMAIN RU,LV=(5)\n", 3, "line 2 changes it"),
    (" LA 0,8\n WTO 'X'\n GETMAIN R,LV=(0)\n", 3, "line 2 changes it"),
    ("C CSECT\nA DS F\n LR 1,2\nB DS F\n GETMAIN R,LV=B-A\n", 5, "instructions lie between"),
    ("B DS F\n GETMAIN R,LV=B\n", 2, "an address of the program"),
    (" GETMAIN LC,LA=L,A=A\n", 1, "L is no list whose words are known"),
    (" GETMAIN LC,A=A\n", 1, "form LC has its operands in a list"),
    ("L DC F'8,16'\n GETMAIN LC,LA=L,A=A\n", 2, "a line has one statement"),
    ("L DC F'8'\n GETMAIN VC,LA=L,A=A\n", 2, "no list of the least and the greatest length"),
    ("L DC F'8,16'\n XC L,L\n GETMAIN VC,LA=L,A=A\n", 3, "line 2 may change L"),
    ("L DC F'8,16'\n GETMAIN VC,LA=L,A=(5)\n", 2, "A= names no place"),
    (" GETMAIN RU,LV=8,MF=(E,(1))\n", 1, "MF=(E,(1)) names a list"),
    ("L STORAGE OBTAIN,MF=L\n GETMAIN RU,LV=8,MF=(E,L)\n", 2, "MF=(E,L) names a list"),
    ("L GETMAIN RU,LV=8,MF=L\n MVI L,0\n GETMAIN RU,MF=(E,L)\n", 3, "what list L holds here isn't known: line 2 stores"),
    ("L GETMAIN RU,LV=8,BNDRY=&B,MF=L\n GETMAIN RU,MF=(E,L)\n", 2, "its list has a variable symbol"),
    ("L GETMAIN RU,LV=8,MF=L\n", 1, "it's a list form, which does nothing by itself"),
    (" GETMAIN VRU,LA=L,SP=1\n", 1, "names a list"),
    (" DETACH (5)\n", 1, "what register 5 holds"),
    (" ATTACH EP=A,SF=L\n", 1, "it's a list form"), (" ATTACH EP=A,SF=(E,L)\n", 1, "names a list"),
    (" FREEMAIN RU,LV=8,A=BUF\n", 1, "isn't known to hold an address"),
    (" CPOOL GET,CPID=P\n", 1, "isn't known to name a cell pool"),
    (" STORAGE OBTAIN,LENGTH=8,LOC=EXPLICIT,INADDR=X\n", 1, "LOC=EXPLICIT isn't read"),
    (" STORAGE OBTAIN,LENGTH=8,WHAT=X\n", 1, "WHAT= is no operand that's known"),
    (" GETMAIN R,LV=(\n", 1, "is no expression"),
    (" GETMAIN R,LV=9999999999999\n", 1, "has more than 32 bits"),
    ("A0 EQU 999999\n" + "".join("A%d EQU A%d*A%d\n" % (k, k - 1, k - 1) for k in range(1, 40)) + " GETMAIN RU,LV=A39", 41,
     "has more than 32 bits"),
    (" GETMAIN RU,LV=-8\n", 1, "no number of a word"), (" GETMAIN RU,LV=" + "-" * 40 + "(" * 9 + "\n", 1, "is no expression"),

    (" DETACH\n", 1, "it names no task"),
])
def test_what_is_told(run: Callable, vsm: str, source: str, line: int, why: str) -> None:
    """It's listed with its line; and what isn't known isn't in the script."""
    script, notes, _ = paste(run, source + "\n")
    found = [note for note in notes if why in note]
    assert found and re.match(r"standard input:%d:\d+: " % line, found[0]), notes
    assert bench.run(vsm, [], "\n".join(script + [""]).encode()).answers == []


GET, GO, FREE = " GETMAIN RU,LV=64\n", " BNZ X\n", " FREEMAIN RU,LV=64,A=(4)\n"
KEPT = GET + " ST 1,W2\n LR 6,1\n"           # W2 has the area of line 1
DATA = "C CSECT\nW DS 0XL16\nW1 DS A\nW2 DS A\nW3 DS A\nW4 DS A\nP DS A\n"
LIST = "D DSECT\nNEXT DS A\nOWN DS A\nC CSECT\n USING D,10\n"
TRAPS = {
    # What a conditional form leaves if its answer is 4.
    "RC, and register 1": (" GETMAIN RU,LV=8\n LR 6,1\n GETMAIN RC,LV=1048576\n FREEMAIN RU,LV=8,A=(1)\n"
                           " FREEMAIN RU,LV=8,A=(6)", {4: "FREEMAIN RU,LV=8,A=AREA3"}, "(1) is taken as AREA3"),
    "COND=YES, and a name": (" STORAGE OBTAIN,LENGTH=8,ADDR=P\n L 6,P\n STORAGE OBTAIN,LENGTH=1048576,COND=YES,ADDR=P\n L 5,P\n"
                             " STORAGE RELEASE,LENGTH=8,ADDR=(5)\n STORAGE RELEASE,LENGTH=8,ADDR=(6)",
                             {3: "STORAGE OBTAIN,LENGTH=1048576,COND=YES,ADDR=P_2", 5: "STORAGE RELEASE,LENGTH=8,ADDR=P_2"},
                             "ADDR=P is written as P_2"),
    "COND=YES, and a register": (" STORAGE OBTAIN,LENGTH=8,ADDR=(5)\n LR 6,5\n STORAGE OBTAIN,LENGTH=1048576,COND=YES,ADDR=(5)\n"
                                 " STORAGE RELEASE,LENGTH=8,ADDR=(5)", {4: "STORAGE RELEASE,LENGTH=8,ADDR=AREA3"}, "is written as AREA3"),
    "EC, and the register of another": (" GETMAIN EU,LV=8,A=P\n GETMAIN EC,LV=1048576,A=Q\n L 3,Q\n FREEMAIN RU,LV=8,A=(3)",
                                        {4: "FREEMAIN RU,LV=8,A=Q"}, "taken as Q"),
    # A new base register: other storage under the same names.
    "L of a base": (LIST + GET + " ST 1,OWN\n L 10,NEXT\n L 4,OWN\n" + FREE, {10: ""}, "what register 4 holds"),
    "LR of a base": (LIST + GET + " ST 1,OWN\n LR 10,2\n L 4,OWN\n" + FREE, {10: ""}, "what register 4 holds"),
    "another USING": (LIST + GET + " ST 1,OWN\n USING D,9\n L 4,OWN\n" + FREE, {10: ""}, "what register 4 holds"),
    "a base in a loop": (LIST + GET + " ST 1,OWN\nX L 4,OWN\n" + FREE + " L 10,NEXT\n B X", {9: ""}, "what register 4 holds"),
    # A store over several fields.
    "MVC": (DATA + KEPT + " MVC W1(8),P\n L 4,W2\n" + FREE, {13: ""}, "what register 4 holds"),
    "STM": (DATA + KEPT + " STM 7,8,W1\n L 4,W2\n" + FREE, {13: ""}, "what register 4 holds"),
    "XC of all": (DATA + KEPT + " XC W,W\n L 4,W2\n" + FREE, {13: ""}, "what register 4 holds"),
    "XC next to it": (DATA + KEPT + " XC W3(8),W3\n L 4,W2\n" + FREE, {13: "FREEMAIN RU,LV=64,A=(1)"}, ""),
    "ST with an offset": (DATA + KEPT + " ST 7,W1+4\n L 4,W2\n" + FREE, {13: ""}, "what register 4 holds"),
    "ST by a register": (DATA + KEPT + " ST 7,4(,8)\n L 4,W2\n" + FREE, {13: ""}, "what register 4 holds"),
    "MVCL by a register": (DATA + KEPT + " MVCL 8,2\n L 4,W2\n" + FREE, {13: ""}, "what register 4 holds"),
    "a macro's field": (DATA + KEPT + " TIME DEC,W\n L 4,W2\n" + FREE, {13: ""}, "what register 4 holds"),
    "a byte of an unknown field": (GET + " ST 1,Q\n MVI Q+1,0\n L 4,Q\n" + FREE, {5: ""}, "what register 4 holds"),
    "a half of it": (DATA + KEPT + " LH 4,W2\n" + FREE, {12: ""}, "what register 4 holds"),
    # Instructions that change more than one register.
    "MVCL": (" LA 3,64\n MVCL 2,4\n GETMAIN RU,LV=(3)", {3: ""}, "line 2 changes it"),
    "CLCL": (" LA 5,64\n CLCL 2,4\n GETMAIN RU,LV=(5)", {3: ""}, "line 2 changes it"),
    "TRT": (" LA 2,64\n TRT A,B\n GETMAIN RU,LV=(2)", {3: ""}, "line 2 changes it"),
    "M": (" LA 3,64\n M 2,=F'8'\n GETMAIN RU,LV=(3)", {3: ""}, "line 2 changes it"),
    "EX": (" LA 3,64\n EX 2,X\n GETMAIN RU,LV=(3)\nX LA 3,0", {3: ""}, "line 2 executes"),
    "CPOOL by its own registers": (" CPOOL BUILD,PCELLCT=1,CSIZE=8,CPID=P\n LA 3,64\n CPOOL GET,CPID=P,REGS=USE\n GETMAIN RU,LV=(3)",
                                   {4: ""}, "line 3 changes it"),
    # The values that a branch may give.
    "DS 0H": (" LA 3,64\n BNZ X\n LA 3,8\nX DS 0H\n GETMAIN RU,LV=(3)", {5: ""}, "a branch to X in line 4 may change it"),
    "EQU *": (" LA 3,64\n BNZ X\n LA 3,8\nX EQU *\n GETMAIN RU,LV=(3)", {5: ""}, "a branch to X in line 4 may change it"),
    "a macro's label": (" LA 3,64\n BNZ X\n LA 3,8\nX GETMAIN RU,LV=(3)", {4: ""}, "a branch to X in line 4 may change it"),
    "a loop": (" LA 3,64\nX GETMAIN RU,LV=(3)\n LA 3,8\n BCT 5,X", {2: ""}, "a branch to X in line 2 may change it"),
    "a loop in a loop": (" LA 3,64\nX LR 2,3\nY GETMAIN RU,LV=(2)\n BCT 5,Y\n LA 3,8\n J X", {3: ""}, "may change it"),
    "EQU *+4": (" LA 3,64\n BNZ X\nX EQU *+4\n LA 3,8\n GETMAIN RU,LV=(3)", {5: ""}, "may change it"),
    "a label by AIF": (" LA 3,64\n BNZ X\n AIF (&A).A\nX DS 0H\n.A ANOP\n LA 3,8\nX DS 0H\n GETMAIN RU,LV=(3)", {8: ""}, "defined twice"),
    "*+8": (" LA 3,64\n BNZ *+8\n LA 3,8\n GETMAIN RU,LV=(3)", {4: ""}, "a branch to line 4"),
    "code of one's own": (" LA 3,64\n BAS 14,SUB\n GETMAIN RU,LV=(3)\n B X\nSUB LA 3,8\n BR 14\nX DS 0H", {3: ""}, "line 2 calls SUB"),
    "an exit": (" LA 3,64\n ESTAE X\n B Y\nX GETMAIN RU,LV=(3)\nY DS 0H", {4: ""}, "other code may lead to X"),
    "all ways give the same": (" LA 3,64\n BZ X\n WTO 'NO'\n B Y\nX GETMAIN RU,LV=(3)\nY GETMAIN RU,LV=(3)",
                                {5: "GETMAIN RU,LV=64", 6: "GETMAIN RU,LV=64"}, ""),
    "an arm that ends": (" GETMAIN RC,LV=64\n LTR 15,15\n BZ X\n ABEND 1\nX LR 5,1\n FREEMAIN RU,LV=64,A=(5)",
                         {6: "FREEMAIN RU,LV=64,A=AREA1"}, ""),
    # No room for a name: what isn't written gave nothing.
    "no room for a name": (" GETMAIN RC,LV=16,RELATED=(".ljust(70, "R") + ")\n FREEMAIN RU,LV=16,A=(1)", {2: ""},
                           "line 1 has no room for a name"),
    "no room for the statement": (" GETMAIN RU,LV=8\n" + " GETMAIN RU,LV=A,RELATED=(".ljust(70, "R") + ")\n FREEMAIN RU,LV=8,A=(1)\nA EQU 800",
                                  {2: "", 3: ""}, "it would need more lines"),
    # Conditional assembly.
    "AGO": (" AGO .X\n GETMAIN RU,LV=8\n.X ANOP\n GETMAIN RU,LV=16", {2: "", 4: "GETMAIN RU,LV=16"}, "it isn't assembled"),
    "AIF": (" AIF ('&A' EQ 'B').X\n GETMAIN RU,LV=8\n.X ANOP\n GETMAIN RU,LV=16", {2: "", 4: "GETMAIN RU,LV=16"},
            "whether it's assembled isn't known, by line 1"),
    "EQU by AIF": (" AIF (&A).X\nL EQU 8\n AGO .Y\n.X ANOP\nL EQU 16\n.Y ANOP\n GETMAIN RU,LV=L", {7: ""}, "whether it's assembled"),
    "a register by AIF": (" LA 3,8\n AIF (&A).X\n LA 3,64\n.X ANOP\n GETMAIN RU,LV=(3)", {5: ""}, "whether line 3 is assembled"),
    # Columns.
    "column 73": (" STORAGE OBTAIN,LENGTH=8,".ljust(72) + "X\n               SP=5", {1: ""}, "line 2 looks like its continuation"),
    "column 71": (" STORAGE OBTAIN,LENGTH=8,".ljust(70) + "X\n               SP=5", {1: ""}, "line 2 looks like its continuation"),
    "a comma in the next line": (" STORAGE OBTAIN,LENGTH=8\n               ,SP=5", {1: ""}, "line 2 looks like its continuation"),
    "a comma at the end": (" STORAGE OBTAIN,LENGTH=8,\n GETMAIN RU,LV=8", {1: "", 2: "GETMAIN RU,LV=8"}, "end with a comma"),
    # Data.
    "P of two lengths": ("X DC P'1,12345'\nY DS 0X\n GETMAIN RU,LV=Y-X", {3: "GETMAIN RU,LV=4"}, ""),
    "X of two lengths": ("X DC X'A,ABCD'\nY DS 0X\n GETMAIN RU,LV=Y-X", {3: "GETMAIN RU,LV=3"}, ""),
    "a negative length": ("X DC AL(-1)(5)\n GETMAIN RU,LV=8", {2: "GETMAIN RU,LV=8"}, "has a negative number or a length of 0"),
    "a constant": (" L 3,LEN\n GETMAIN RU,LV=(3)\nLEN DC F'4096'", {2: "GETMAIN RU,LV=4096"}, "LV=(3) is taken as 4096"),
    "no constant by STCM": (" L 3,LEN\n GETMAIN RU,LV=(3)\n STCM 5,15,LEN\nLEN DC F'4096'", {2: ""}, "what register 3 holds"),
    "no constant": (" L 3,LEN\n GETMAIN RU,LV=(3)\n ST 5,LEN\nLEN DC F'4096'", {2: ""}, "what register 3 holds"),
    "a list in a loop": ("L GETMAIN RU,LV=8,MF=L\nX GETMAIN RU,MF=(E,L)\n GETMAIN RU,LV=16,MF=(E,L)\n B X", {2: ""}, "what list L holds"),
    "ATTACHX": (" ATTACHX EP=A,SVAREA=NO,DISP=NO,SM=SUPV,JSCB=J,JSTCB=NO,TID=1,ALCOPY=YES", {1: "ATTACH EP=A"}, "SVAREA=NO has no meaning"),
    "ATTACH": (" ATTACH EP=A,ASYNCH=NO,TERM=YES,PURGE=NONE,ERRET=E,NSHSPV=3,RSAPF=YES", {1: "ATTACH EP=A"}, "RSAPF=YES has no meaning"),
    "BNDRY of a cell pool": (" CPOOL BUILD,PCELLCT=1,CSIZE=8,CPID=P,BNDRY=QDWD\n CPOOL GET,CPID=P",
                             {1: "CPOOL BUILD,PCELLCT=1,CSIZE=8,CPID=P", 2: "CPOOL GET,CPID=P"}, "BNDRY=QDWD has no meaning"),
}


def as_statement(line: str) -> str:
    """A script's line without its label and remarks; '' for a comment."""
    return "" if line.startswith("*") else " ".join(line[line.index(" "):].split("  ")[0].split())


def check_trap(vsm: str, source: str, expected: dict[int, str], why: str) -> None:
    """What the source doesn't say isn't in the script, and the reason is listed; and the script never releases what the
    source doesn't."""
    it = Paste([line[:72] for line in source.split("\n")], {}, {})
    script = it.paste()
    assert {line: as_statement(script[line - 1]) for line in expected} == expected, it.notes
    assert any(why in note[2] for note in it.notes) or not why, it.notes
    answers = bench.run(vsm, [], "".join(line + "\n" for line in script).encode()).answers
    assert [answer.line - 1 for answer in answers] == sorted(it.written)
    assert not any(answer.text.startswith(("FAULT", "ABEND")) for answer in answers), answers


@pytest.mark.parametrize("trap", TRAPS)
def test_traps(vsm: str, trap: str) -> None:
    check_trap(vsm, *TRAPS[trap])


def test_what_comes_from_elsewhere_is_told(run: Callable) -> None:
    _, notes, _ = paste(run, " LA 0,8\nHERE DS 0H\nTHERE LR 2,3\n GETMAIN R,LV=(0)\n GETMAIN RU,LV=8,SP=230,KEY=9\n")
    text = "\n".join(notes)
    assert "standard input:4:1: LV=(0) is taken as 8, of line 1; a branch to THERE in line 3 may change it" in text
    assert "standard input:5:1: subpool 230 is taken as 127" in text and "KEY=9 has no meaning here and is dropped" in text


def test_lengths_in_register_0(run: Callable) -> None:
    two = " GETMAIN VRU,LV=(64,8)\n LR 5,0\n GETMAIN VRU,LV=(32,8)\n LR 6,0\n"
    script, notes, status = paste(run, two + " GETMAIN RU,LV=(6)\n GETMAIN RU,LV=(5)\n")
    assert script[4] == " GETMAIN RU,LV=(0)" and script[5].startswith("*") and status == 4
    assert "standard input:5:1: LV=(6) is the length that line 3 gets, in register 0" in notes


def test_behind_a_step_or_another_task_nothing_is_known(run: Callable) -> None:
    for own in (" RUN 1", " BACK 1", " FORWARD 0"):
        script, notes, status = paste(run, " LA 5,8\n ATTACH EP=A\n ST 1,T\n%s\n GETMAIN RU,LV=(5)\n DETACH T\n" % own)
        assert script[3] == own and script[4].startswith("*") and script[5].startswith("*") and status == 4


def test_options(run: Callable) -> None:
    script, _, _ = paste(run, " GETMAIN RU,LV=LEN+8,SP=230\n", "--equ", "LEN=X'10'*2", "--sp", "230=100")
    assert script[0].split("  ")[0] == " GETMAIN RU,LV=40,SP=100"
    for words in (["--sp", "230"], ["--sp", "230=128"], ["--equ", "LEN"], ["--equ", "1=2"], ["--equ", "A=A"],
                  ["--at", "1:R5"], ["--at", "R5=8"], ["--at", "1:R5=@"], ["--at", "1:R5="]):
        done = run(TOOL, *words, given=b" MAP\n")
        assert done.returncode == 16 and words[1] in one_line(done, TOOL)


def test_what_an_execute_form_stored_from_a_register(run: Callable) -> None:
    script, notes, status = paste(run, "L GETMAIN RU,LV=16,MF=L\n LA 5,8\n GETMAIN RU,LV=(5),MF=(E,L)\n"
                                       " GETMAIN RU,MF=(E,L)\n")
    assert script[2].split("  ")[0] == " GETMAIN RU,LV=8" and script[3].startswith("*") and status == 4
    assert any("4:13: GETMAIN isn't taken: LV of list L is what line 3 stored there" in note for note in notes)


def test_what_is_said_to_be_held(run: Callable, vsm: str) -> None:
    source = " GETMAIN RU,LV=24,SP=1\n CPOOL BUILD,PCELLCT=1,CSIZE=8,CPID=P\n FREEMAIN RU,LV=(7),A=F,SP=1\n" \
             " CPOOL DELETE,CPID=(9)\n"
    script, notes, status = paste(run, source, "--at", "3:R7=3*8", "--at", "3:f=@1", "--at", "4:R9=@2")
    assert status == 0 and script[2:] == [" FREEMAIN RU,LV=24,A=(1),SP=1", " CPOOL DELETE,CPID=P"]
    assert {"standard input:3:1: R7 holds 24 here, as --at says",
            "standard input:3:1: F holds what line 1 gave here, as --at says"} <= set(notes)
    answers = bench.run(vsm, [], "\n".join(script + [""]).encode()).answers
    assert not any(answer.is_refused for answer in answers)


@pytest.mark.parametrize("word, why", [
    ("2:R5=NOWHERE", "isn't used: NOWHERE isn't defined"), ("9:R5=8", "isn't used: that line has no statement"),
    ("2:R5=@7", "isn't used: line 7 is no earlier macro"), ("4:R5=@1", "isn't used: line 1 is no earlier macro"),
])
def test_what_is_said_in_vain(run: Callable, word: str, why: str) -> None:
    _, notes, _ = paste(run, " GETMAIN RU,LV=8\n LR 2,3\n BACK 1\n LR 2,3\n", "--at", word)
    assert any(note.startswith("standard input:%s:1: --at %s " % (word[0], word)) and why in note for note in notes)


def test_copies(run: Callable, tmp_path: Path) -> None:
    """Definitions are taken from there; macros and what can't be known are listed."""
    copy = tmp_path / "copy"
    copy.write_text("LEN EQU 8*4\nX EQU X\n GETMAIN RU,LV=8\n MACRO\n M\nLEN EQU 8\n MEND\nB DS CL5\n")
    script, notes, status = paste(run, " GETMAIN RU,LV=LEN+L'B\nD DS F\n GETMAIN RU,LV=D-B\n", "--copy", copy)
    assert status == 4 and script[0] == " GETMAIN RU,LV=37" and script[2].startswith("*")
    for text in ("line 2: X depends on itself", "line 3: GETMAIN isn't taken from there", "line 4: MACRO isn't"):
        assert any("--copy %s, %s" % (copy, text) in note for note in notes), notes
    done = run(TOOL, "--copy", tmp_path / "nowhere", given=b" MAP\n")
    assert done.returncode == 8 and "nowhere" in done.stderr.decode()


# Texts that aren't as they should be.

def test_columns_behind_72(run: Callable) -> None:
    source = " GETMAIN R,LV=8".ljust(72)
    script, notes, status = paste(run, source + "00010000\n" + source + "a remark that's too long\n")
    assert script == [" GETMAIN R,LV=8"] * 2 and status == 0
    assert notes[0].startswith("standard input:2:73: text beyond column 72 isn't read: 'a remark")


def test_a_remark_that_reaches_column_72(run: Callable) -> None:
    source = " GETMAIN R,LV=8   ".ljust(80, "x")
    script, notes, status = paste(run, source + "\n GETMAIN R,LV=16\n GETMAIN R,LV=24\n")
    assert status == 4 and [line for line in script if not line.startswith("*")] == [" GETMAIN R,LV=8",
                                                                                     " GETMAIN R,LV=24"]
    assert any(note.startswith("standard input:1:72: a character in column 72 says that line 2") for note in notes)


SOURCE = " LA 0,8\n GETMAIN R,LV=(0)\n* remark\n"


@pytest.mark.parametrize("data, words", [
    (SOURCE.encode().replace(b"\n", b"\r\n"), []), (SOURCE.encode().replace(b"\n", b"\r"), []),
    (b"\xef\xbb\xbf" + SOURCE.encode(), []), (SOURCE[:-1].encode(), []),
    ("".join(line.ljust(80) for line in SOURCE.splitlines()).encode(), []),
    (SOURCE.encode("cp037"), ["--ebcdic"]), (SOURCE.replace("\n", "\x85").encode("cp037"), ["--ebcdic"]),
    ("".join(line.ljust(80) for line in SOURCE.splitlines()).encode("cp037"), ["--ebcdic"]),
])
def test_line_ends_and_ebcdic(run: Callable, data: bytes, words: list[str]) -> None:
    done = run(TOOL, *words, given=data)
    assert done.returncode == 0 and done.stdout.decode().splitlines()[:-1] == ["* LA 0,8", " GETMAIN R,LV=8",
                                                                               "* remark"]


@pytest.mark.parametrize("data, why", [
    (b"", "it's empty"), (b"\0", "standard input:1:1: a character X'00' is in no source text"),
    (b" MAP\n ST\x07\n", "standard input:2:4: a character X'07'"), (SOURCE.encode("cp037"), "it's EBCDIC"),
    (SOURCE.encode("utf-16"), "it's UTF-16"), (bytes(range(256)), "is in no source text"),
])
def test_what_is_no_source(run: Callable, data: bytes, why: str) -> None:
    done = run(TOOL, given=data)
    assert done.returncode == 8 and done.stdout == b"" and why in one_line(done, TOOL)


def test_characters_that_vsm_counts_as_several(run: Callable, vsm: str) -> None:
    text = "* größe €\n GETMAIN R,LV=8      größe\n"
    for data in (text.encode(), text.replace("€", "").encode("latin-1")):
        done = run(TOOL, given=data)
        assert done.returncode == 0 and done.stdout.isascii()
        assert bench.run(vsm, [], done.stdout).answers[0].line == 2


LONG = {
    "apostrophes": lambda n: [" GETMAIN RU,LV=L'A+".ljust(71, "1") + "X"] + [("L'A+" * 14).rjust(71) + "X"] * n,
    "subpools": lambda n: [" STORAGE OBTAIN,LENGTH=8,SP=%d" % (128 + k) for k in range(n)],
    "names": lambda n: [" STORAGE OBTAIN,LENGTH=8,COND=YES,ADDR=P"] * n,
    "fields and loops": lambda n: ["C CSECT"] + ["P%d DS A" % k for k in range(n)] + [
        line % k for k in range(n) for line in (" GETMAIN RU,LV=8%.0s", " ST 1,P%d", "L%d DS 0H", " BNZ L%d")],
    "steps back": lambda n: [" GETMAIN RU,LV=8", " BACK 0"] * n,
    "conditions": lambda n: [" AIF (&A).X", " AGO .X", "X EQU 1"] * n + [".X ANOP"],
}


@pytest.mark.parametrize("name", LONG)
def test_no_slowness(name: str) -> None:
    """Four times the lines take no more than ten times as long."""
    times = []
    for lines in (300, 1200):
        begin = time.process_time()
        Paste(LONG[name](lines), {}, {}).paste()
        times.append(time.process_time() - begin)
    assert times[1] < 10 * times[0] + 0.2, times


def test_quiet(run: Callable) -> None:
    """The notes on registers are left out, and the others stay."""
    source = " LA 5,8\n GETMAIN RU,LV=(5),KEY=9\n LR 6,1\n FREEMAIN RU,LV=8,A=(6)\n FREEMAIN RU,LV=8,A=(7)\n"
    script, notes, status = paste(run, source)
    quiet, fewer, other = paste(run, source, "--quiet")
    assert (quiet, other) == (script, status) and status == 4 and len(notes) > len(fewer) == 3
    assert "KEY=9 has no meaning" in fewer[0] and "FREEMAIN isn't taken" in fewer[1]
    assert fewer[2] == "macros taken: 2, not taken: 1; notes on registers left out: 2"


def test_expressions() -> None:
    symbols = Symbols({"A": 5})
    for text, number in (("1", 1), ("A*A-A", 20), ("7/2", 3), ("-7/2", -3), ("7/0", 0), ("X'FF'+B'11'", 258),
                         ("C'A'", 0xC1), ("((A))", 5), ("--A", 5), ("2*-A", -10), ("L'A", 1)):
        assert symbols.number(text) == number, text
    for text in ("", "(", ")", "1+", "A B", "X''", "X'G'", "*", "'A'", "(" * 3000, "1" * 5000, "Q", "A(1)"):
        with pytest.raises(Unknown):
            symbols.number(text)
