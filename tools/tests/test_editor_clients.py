"""vsm-lsp and vsm-dap with editors' own clients, by the configurations of docs/EDITORS.md; all messages are judged."""
from __future__ import annotations

import json
import os
import re
import shutil
import subprocess
from collections import Counter
from pathlib import Path
from typing import Any, Callable

import pytest
from conftest import TOOLS, TOP
from protocols import DAP_TABLES, LSP_TABLES, check_dap, check_lsp

from vsmtools import bench
from vsmtools.debugging import REQUESTS
from vsmtools.features import FEATURES
from vsmtools.language import METHODS
from vsmtools.lines import options_for
from vsmtools.rpc import Stream
from vsmtools.walking import Script

CLIENTS = Path(__file__).resolve().parent / "clients"
EXAMPLES = TOP / "examples"
EMACS = ["emacs", "--batch", "-l", "trial.el", "-l"]
SECONDS = 200
# A program between an editor and a server, which keeps what they say.
BETWEEN = """#!/usr/bin/python3
import os, subprocess, sys, threading
child = subprocess.Popen(%r + sys.argv[1:], stdin=-1, stdout=-1, bufsize=0)

def copy(source, sink, name):
    with open(os.path.join(%r, name), "wb", 0) as kept:
        while piece := os.read(source, 1 << 16):
            kept.write(piece)
            os.write(sink, piece)
    os.close(sink)

threading.Thread(target=copy, args=(0, child.stdin.fileno(), "sent"), daemon=True).start()
copy(child.stdout.fileno(), 1, "got")
os._exit(child.wait())
"""


def configuration(name: str, folder: Path) -> Path:
    """What docs/EDITORS.md says is to be pasted into a file of this name."""
    text = (TOP / "docs" / "EDITORS.md").read_text().partition("`%s`" % name)[2]
    block = re.search(r"(?m)(?:^(?: {4}.*)?\n)+?(?=^\S)", text.partition("\n")[2])
    path = folder / name
    path.write_text(re.sub(r"(?m)^ {4}", "", block[0]))    # type: ignore[index]
    return path


@pytest.fixture
def trial(vsm: str, tmp_path: Path) -> Callable[..., None]:
    """Runs an editor that finds the two programs on its PATH, and judges what was sent both ways."""
    tmp_path.joinpath("bin").mkdir()
    for name, option, program in (("vsm-lsp", "--explain", bench.find_explain(vsm)), ("vsm-dap", "--vsm", vsm)):
        script = tmp_path / "bin" / name
        script.write_text(BETWEEN % ([str(TOOLS / name), option, program], str(tmp_path)))
        script.chmod(0o755)

    def run(words: list[object], judge: Callable[[list[dict], list[dict]], None], kept: str = "", **more: str) -> None:
        if not shutil.which(str(words[0])):
            pytest.fail("%s is missing: tests/machine installs it" % words[0], pytrace=False)
        path = "%s:%s" % (tmp_path / "bin", os.environ["PATH"])
        done = subprocess.run([str(it) for it in words], capture_output=True, timeout=SECONDS, cwd=CLIENTS,
                              stdin=subprocess.DEVNULL, env=dict(os.environ, HOME=str(tmp_path), PATH=path, **more))
        output = (done.stdout + done.stderr).decode("utf-8", "replace")
        assert done.returncode == 0 and "WRONG" not in output and "\n0 wrong" in output, output[-4000:]
        sent = messages(tmp_path / "sent")
        judge(sent, messages(tmp_path / "got"))
        if kept and os.environ.get("KEEP"):    # writes the files that test_messages_that_were_kept reads
            counts: Counter[str] = Counter()
            found = [it for it in sent if (name := it.get("method") or it.get("command"))
                     and not counts.update([name]) and counts[name] < 4]
            text = "".join(json.dumps(it, ensure_ascii=False) + "\n" for it in found)
            text = text.replace(str(tmp_path), "/scripts").replace(str(TOP), "/nilbozad")
            (CLIENTS / (kept + ".messages")).write_text(text)
    return run


def messages(path: Path) -> list[dict[str, Any]]:
    """The messages of a stream that was kept."""
    stream, found = Stream(), []
    stream.gathered = bytearray(path.read_bytes())
    while message := stream.take():
        found.append(message)
    assert found and not stream.gathered
    return found


def judge_lsp(sent: list[dict], got: list[dict]) -> None:
    methods = {it["id"]: it["method"] for it in sent if "id" in it and "method" in it}
    for it in sent:
        if "method" in it:
            check_lsp(it)
    for it in got:
        check_lsp(it, "" if "method" in it else methods[it["id"]])
        assert it.get("error", {}).get("code") in (None, -32800, -32801), it


def judge_dap(sent: list[dict], got: list[dict]) -> None:
    for it in [*sent, *got]:
        check_dap(it)


def test_neovim(trial: Callable[..., None], vsm: str, tmp_path: Path) -> None:
    files = []
    for source in sorted(EXAMPLES.glob("*.vsm")):
        path = tmp_path / source.name
        data = source.read_bytes().replace(b" STORAGE OBTAIN,L", " STORAGE OBTAIN,RELATED='é€😀',L".encode())
        path.write_bytes(data)
        words = ["check", *options_for("", data), str(path)]
        said = bench.run_anyhow(bench.find_explain(vsm), words, b"").output.decode()
        found = re.findall(r"(?m)^.*?\.vsm:(\d+:\d+: (?!NOT CARRIED OUT|WARNING|ABEND|REFUSED|OUTSIDE|STALE|PART|UNSET|LEFT:).*)", said)
        path.with_suffix(".vsm.wanted").write_text("".join(it + "\n" for it in found))
        files.append(str(path))
    words = ["nvim", "--headless", "-u", configuration("init.lua", tmp_path), "-i", "NONE", "-c", "luafile neovim.lua"]
    trial(words, judge_lsp, "neovim", FILES=" ".join(files), EXAMPLES=str(EXAMPLES))


def test_eglot(trial: Callable[..., None], tmp_path: Path) -> None:
    for name in ("refusals.vsm", "bytes-and-names.vsm", "overlay.vsm"):
        shutil.copy(EXAMPLES / name, tmp_path)
    trial([*EMACS, configuration("init.el", tmp_path), "-l", "eglot.el", tmp_path], judge_lsp, "eglot")


@pytest.mark.parametrize("name, line", [("first-steps", 4), ("tasks-and-subpools", 7), ("cell-pools", 8)])
def test_dap_mode(trial: Callable[..., None], tmp_path: Path, name: str, line: int) -> None:
    script = tmp_path / (name + ".vsm")
    shutil.copy(EXAMPLES / script.name, script)
    found = Script("", script.read_bytes())
    first = found.extents[found.at_or_after(line) or 0].first
    trial([*EMACS, configuration("init.el", tmp_path), "-l", "dap-mode.el", script, first], judge_dap,
          "dap-mode" if name == "cell-pools" else "")


@pytest.mark.parametrize("name", ["neovim", "eglot", "dap-mode"])
def test_messages_that_were_kept(name: str) -> None:
    """What each client sent, as a line of JSON each."""
    found = [json.loads(line) for line in (CLIENTS / (name + ".messages")).read_text().splitlines()]
    assert len(found) > 10
    for it in found:
        if "method" in it:
            check_lsp(it)
        elif "type" in it:
            check_dap(it)


@pytest.mark.parametrize("check, wrong", [
    (check_dap, {"seq": 1, "type": "event", "event": "stopped", "body": {}}),
    (check_dap, {"seq": 1, "type": "event", "event": "exited", "body": {"exitCode": "0"}}),
    (check_dap, {"seq": 1, "type": "event", "event": "thread", "body": {"reason": "new", "threadId": 1}}),
    (check_dap, {"seq": 1, "type": "response", "request_seq": 1, "success": True, "command": "threads", "body": {}}),
    (check_lsp, {"jsonrpc": "2.0", "method": "textDocument/publishDiagnostics", "params": {"diagnostics": []}}),
    (check_lsp, {"jsonrpc": "2.0", "method": "window/showMessage", "params": {"type": 1, "message": "", "more": 1}}),
    (check_lsp, {"jsonrpc": "2.0", "id": 1, "error": {"code": 1, "message": ""}}),
    (check_lsp, {"jsonrpc": "2.0", "id": 1, "result": None, "error": {"code": -32603, "message": ""}})])
def test_the_tables_refuse_what_is_wrong(check: Callable[[dict], None], wrong: dict) -> None:
    with pytest.raises(AssertionError, match="^(Events|Requests|Language|Window|Base|Basic)[^:]*: "):
        check(wrong)


@pytest.mark.parametrize("check, unknown", [
    (check_dap, {"seq": 1, "type": "request", "command": "nothing"}),
    (check_dap, {"seq": 1, "type": "response", "request_seq": 1, "success": True, "command": "nothing"}),
    (check_lsp, {"jsonrpc": "2.0", "method": "nothing"}), (check_lsp, {"jsonrpc": "2.0", "id": 1, "method": "exit"})])
def test_the_tables_refuse_what_they_lack(check: Callable[[dict], None], unknown: dict) -> None:
    with pytest.raises(AssertionError, match="no table has it"):
        check(unknown)


def test_the_tables_have_each_request_of_both_servers() -> None:
    for name in REQUESTS:
        assert {"request " + name, "response " + name} <= set(DAP_TABLES.rows), name
    for name in [*METHODS, *FEATURES]:
        rows = ({"request " + name, "response " + name}, {"notification " + name})
        assert any(it <= set(LSP_TABLES.rows) for it in rows), name
