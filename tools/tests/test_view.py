"""Trials of tools/vsm-view: the page's data, its arguments, and what it says of bad input."""
from __future__ import annotations

import base64
import gzip
import json
import re
import subprocess
import sys
from pathlib import Path

import pytest
from conftest import TOP, loaded

TOOL = TOP / "tools" / "vsm-view"
sys.path[:0] = [str(TOP / "page")]

import build  # noqa: E402
from vsmtools.command import Fault  # noqa: E402

MAP = """ TASK 1 PARENT 0 CURRENT
  R0 00000000 00000000 00000000 00000000 00000000 00000000 00000000 00000000
  R8 00000000 00000000 00000000 00000000 00000000 00000000 00000000 00000000
 SUBPOOL 0 OWNER 1 SHARERS NONE
 PAGES LOW 0 OF 16 HIGH 0 OF 16
 BYTES TAKEN 0 FREE 0
 HISTORY KEPT 0 OF 1024
"""
# In place of vsm: each line is a statement, and is answered OPERATION except a MAP. All lines after one that has
# "within" in it belong to that; after the first MAP a line with "fickle" in it gets another answer.
STANDIN = f"""#!{sys.executable}
import sys
lines, number, maps = sys.stdin.read().split("\\n"), 0, 0
if "--low" in sys.argv and sys.argv[sys.argv.index("--low") + 1] == "6":
    sys.exit(print("vsm: settings", file=sys.stderr) or 16)
lines = lines[:-1] if lines[-1] == "" else lines
while number < len(lines):
    line = lines[number]
    number += 1
    if line.strip() == "MAP":
        maps += 1
        sys.stdout.write("%07d MAP\\n" % number + {MAP!r})
    elif "within" in line:
        sys.stdout.write("%07d FAULT CONTINUATION\\n" % number)
        number = len(lines)
    elif line and line[0] != "*":
        told = "OPERAND" if maps and "fickle" in line else "OPERATION"
        sys.stdout.write("%07d FAULT %s\\n" % (number, told))
sys.exit(4)
"""


@pytest.fixture
def program(tmp_path: Path) -> Path:
    path = tmp_path / "standin"
    path.write_text(STANDIN)
    path.chmod(0o755)
    return path


def view(*words: object, given: bytes = b"") -> subprocess.CompletedProcess[bytes]:
    return subprocess.run([sys.executable, str(TOOL), *map(str, words)], input=given, capture_output=True, timeout=120)


def data_of(page: bytes) -> dict[str, object]:
    found = re.search(r'<script type="application/json" id="data">(.*?)</script>', page.decode(), re.DOTALL)
    assert found
    return json.loads(found[1])


def output_of(data: dict[str, object]) -> list[str]:
    text = gzip.decompress(base64.b64decode(str(data["output"]))).decode()
    return [line for line in text.split("\n") if line and not line.startswith(" ")]


def made(program: Path, script: bytes, *words: object) -> dict[str, object]:
    path = program.parent / "script.vsm"
    path.write_bytes(script)
    done = view("--vsm", program, *words, path)
    assert (done.returncode, done.stderr) == (0, b"")
    return data_of(done.stdout)


def fault(program: Path, *words: object, given: bytes = b"") -> tuple[int, str]:
    """The status and the line of a refusal; nothing is written."""
    done = view("--vsm", program, *words, given=given)
    assert done.stdout == b"" and done.stderr.count(b"\n") == 1 and b"Traceback" not in done.stderr
    return done.returncode, done.stderr.decode().rstrip("\n")


def test_maps_stand_round_each_statement(program: Path) -> None:
    data = made(program, b"* a comment\n A\n\n B\n")
    assert output_of(data) == ["0000002 MAP", "0000003 FAULT OPERATION", "0000005 MAP", "0000006 FAULT OPERATION",
                               "0000007 MAP"]
    assert (data["name"], data["options"], data["skipped"]) == ("script.vsm", [], 0)
    assert "a program that isn't known to be proved. Its SHA-256 is " in str(data["program"])


def test_the_comment_before_the_first_statement_has_no_map_before_it(program: Path) -> None:
    assert output_of(made(program, b"* only\n")) == ["0000002 MAP"]
    assert output_of(made(program, b"")) == ["0000001 MAP"]


def test_a_map_of_the_script_is_a_statement(program: Path) -> None:
    assert [line[8:] for line in output_of(made(program, b" MAP\n"))] == ["MAP", "MAP", "MAP"]


def test_a_script_may_end_within_a_statement(program: Path) -> None:
    for script in (b" A\n within", b" A\n within\n"):
        assert [line[8:] for line in output_of(made(program, script))] == [
            "MAP", "FAULT OPERATION", "MAP", "FAULT CONTINUATION"]


def test_a_part(program: Path) -> None:
    data = made(program, b" A\n B\n C\n D\n", "--first", 2, "--last", 3)
    assert data["skipped"] == 1
    assert [line[8:] for line in output_of(data)] == ["FAULT OPERATION", "MAP"] * 3
    assert data["script"] == " A\n B\n C\n D"


def test_a_part_behind_all(program: Path) -> None:
    """A part in which no statement begins is refused, as one that ends before it begins."""
    for words, span in ((("--first", "9"), "9 to 1048576"), (("--last", "1"), "1 to 1")):
        status, line = fault(program, *words, "-", given=b"* A\n B\n")[:2]
        assert status == 16 and "no statement begins from line %s; the last one does on line 2" % span in line
    assert made(program, b"* A\n")["skipped"] == 0


def test_what_a_check_finds_is_in_the_page(program: Path) -> None:
    """If a vsm-explain is next to vsm; only what a reply doesn't tell."""
    explain = program.with_name("vsm-explain")
    rows = ['{"version":1,"command":"check"}', *(
        '{"kind":"finding","word":"%s","line":%d,"column":2,"end":3,"text":"%s: line 1"}' % (it, k, it)
        for k, it in enumerate(("OPERATION", "STALE", "LEFT"), 1))]
    explain.write_text("#!/bin/sh\necho \"$*\" > '%s/asked'\necho '%s'\n" % (program.parent, "\n".join(rows)))
    explain.chmod(0o755)
    assert made(program, b" A\n", "--low", "16")["findings"] == [
        {"line": 2, "text": "STALE: line 1"}, {"line": 3, "text": "LEFT: line 1"}]
    assert (program.parent / "asked").read_text() == "check --leaks --json --low 16\n"
    for other in ("echo no option >&2; exit 16", "echo '%s'; kill -9 $$" % rows[0], "exec cat"):
        explain.write_text("#!/bin/sh\n%s\n" % other)
        assert made(program, b" A\n")["findings"] == []


def test_options_go_to_vsm(program: Path) -> None:
    data = made(program, b" A\n", "--high", "96", "--low=64", "--residence", "31", "--history", "9")
    assert data["options"] == ["--low", "64", "--high", "96", "--residence", "31", "--history", "9"]
    assert fault(program, "--low", "6", TOOL)[0] == 16


def test_text_of_the_script(program: Path) -> None:
    script = b"* </script><b>\xe4\xff\r\n A\r\n"
    path = program.parent / "odd.vsm"
    path.write_bytes(script)
    page = view("--vsm", program, path).stdout
    assert data_of(page)["script"] == "* </script><b>\xe4\xff\n A"
    assert page.count(b"</script>") == 2


def test_standard_input(program: Path) -> None:
    done = view("--vsm", program, "-", given=b" A\n")
    assert data_of(done.stdout)["name"] == "standard input"


def test_files_that_cannot_be_read(program: Path, tmp_path: Path) -> None:
    assert fault(program, tmp_path / "nowhere") == (
        8, f"vsm-view: {tmp_path}/nowhere: can't be read: No such file or directory")
    assert fault(program, tmp_path) == (8, f"vsm-view: {tmp_path}: can't be read: Is a directory")


def test_words(program: Path) -> None:
    for words in ((), ("--first", "0", "a"), ("--first", "x", "a"), ("--last", "1048577", "a"),
                  ("--first", "4", "--last", "3", "a"), ("--other", "a"), ("a", "b"), ("--first",)):
        assert fault(program, *words)[0] == 16, words


def test_help() -> None:
    done = view("--help")
    assert done.returncode == 0 and b"example:" in done.stdout and b"--first" in done.stdout


def test_programs_that_are_not_vsm(tmp_path: Path, program: Path) -> None:
    script = tmp_path / "a.vsm"
    script.write_bytes(b" A\n")
    texts = {"nothing": "", "noise": "print('hello')", "failing": "import sys; sys.exit('no')",
             "killed": "import os; os.kill(os.getpid(), 9)"}
    for name, text in texts.items():
        other = tmp_path / name
        other.write_text(f"#!{sys.executable}\n{text}\n")
        other.chmod(0o755)
        status, line = fault(other, script)
        assert status in (8, 16) and name in line or "no answer of vsm" in line, line
    assert fault(tmp_path / "absent", script)[0] == 16
    assert fault(script, script)[0] == 16
    script.write_bytes(b" A\n fickle\n")
    assert "gives other answers" in fault(program, script)[1]


def test_too_many_lines(program: Path, tmp_path: Path) -> None:
    script = tmp_path / "million.vsm"
    script.write_bytes(b"*\n" * 1_048_574 + b" A\n")
    status, line = fault(program, script)
    assert status == 8 and "--first and --last" in line


def test_too_many_bytes(tmp_path: Path) -> None:
    """A program that never stops printing is ended."""
    other = tmp_path / "long"
    other.write_text(
        f"#!{sys.executable}\nimport sys\n"
        "while 'MAP' in sys.stdin.read():\n while True:\n  sys.stdout.write('0000001 MAP\\n' * 9999)\n"
    )
    other.chmod(0o755)
    script = tmp_path / "a.vsm"
    script.write_bytes(b" A\n")
    status, line = fault(other, script)
    assert status == 8 and "400 MiB" in line and "--first and --last" in line


def test_a_run_that_takes_too_long(monkeypatch: pytest.MonkeyPatch) -> None:
    module = loaded(TOOL)
    monkeypatch.setattr(module, "SECONDS", 1)
    with pytest.raises(Fault, match="more than 1 seconds: show a part, by --first and --last"):
        module.mapped_output("/bin/sh", ["-c", "sleep 60"], b" MAP\n")


def told_texts() -> list[str]:
    """All texts of answers that docs/MESSAGES.md has."""
    rows = build.messages(build.MESSAGES.read_text(encoding="utf-8"))
    return [str(text) for row in rows for text in row["texts"]]  # type: ignore[attr-defined]


def test_messages_of_the_document() -> None:
    rows = build.messages(build.MESSAGES.read_text(encoding="utf-8"))
    texts = told_texts()
    for text in ("RC=4", "ABEND SB78", "ABEND SB05", "ABEND S878", "REFUSED MEMORY", "FAULT LEFTOUT", "KEPT=5", "MAP"):
        assert text in texts, text
    assert all(row["meaning"] and "`" not in str(row) and "](" not in str(row) for row in rows)


def test_every_answer_of_the_examples_is_told() -> None:
    """Each text that an example prints has a row of docs/MESSAGES.md."""

    def form(text: str) -> str:
        return re.sub(r"\b(A|L|T|D|KEPT|UNDONE)=\w+", r"\1=", text)

    known = {form(text) for text in told_texts()}
    for path in (TOP / "examples").glob("*.out"):
        for line in path.read_text().split("\n"):
            if line and line[0] != " ":
                assert form(line[8:]) in known, line


def test_a_document_without_the_table() -> None:
    with pytest.raises(build.BuildFault):
        build.messages("# Messages\n\n## Refusals\n\n| a |\n|---|\n| `b` |\n")


def test_modules_are_joined_once_and_in_order() -> None:
    parts = list(build.modules("start.js"))
    assert parts[-1] == "start.js" and len(parts) == len(set(parts))
    script = build.joined_script("start.js")
    assert not re.search(r"^(import|export) ", script, re.MULTILINE)


@pytest.mark.parametrize("name", sorted(it.name for it in build.HERE.glob("*.test.js")))
def test_what_needs_no_browser(tmp_path: Path, name: str) -> None:
    """In node: replies, meanings, the parts of pages, and what keeps one's own scripts."""
    script = tmp_path / "trials.mjs"
    script.write_text(build.joined_script(name), encoding="utf-8")
    done = subprocess.run(["node", "--test", str(script)], capture_output=True, text=True, timeout=60)
    assert done.returncode == 0, done.stdout


def test_names_that_are_declared_twice(tmp_path: Path, monkeypatch: pytest.MonkeyPatch) -> None:
    (tmp_path / "a.js").write_text("import { b } from './b.js';\nconst one = 1, two = 2;\n")
    (tmp_path / "b.js").write_text("export function two() {}\nexport const b = 1;\n")
    monkeypatch.setattr(build, "HERE", tmp_path)
    with pytest.raises(build.BuildFault, match="two is declared"):
        build.joined_script("a.js")
    (tmp_path / "b.js").write_text("import { one } from './a.js';\n")
    with pytest.raises(build.BuildFault, match="imports itself"):
        build.joined_script("a.js")


def test_nothing_is_loaded() -> None:
    page = build.build_page(build.HERE / "view.html", "a <title>", {"data": {"script": "</script><!--"}})
    assert "<title>a &lt;title&gt;</title>" in page
    assert not re.search(r"""\b(src|href)=|@import|url\(|https?://(?!www\.w3\.org/2000/svg)""", page)
    assert page.count("</script>") == 2
    assert "default-src 'none'" in page
