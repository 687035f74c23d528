"""The wheel of a release, for pip: the programs, the tools as commands, and the modules for Python."""
from __future__ import annotations

import base64
import hashlib
import time
import zipfile
from pathlib import Path

# What is installed next to the Python that pip belongs to, in a folder nilbozad except for the two programs and the manual.
PLACES = {"share/nilbozad/": "nilbozad/", "lib/libvsm.so.1": "nilbozad/tools/libvsm.so.1",
          "share/doc/nilbozad/PROVED": "nilbozad/PROVED",
          "share/doc/nilbozad/copyright": "{info}/licenses/copyright",
          "share/doc/nilbozad/licenses/": "{info}/licenses/licenses/",
          "share/doc/nilbozad/": "nilbozad/doc/", "share/man/": "{data}/data/share/man/"}
STARTER = '''"""Nilbozad as pip installs it: each function here is a tool of the folder tools, which also has the library and
its modules vsm_bench and vsmtools (nilbozad.pth puts it on Python's path). bench.html is the bench for a browser, and
doc has the documents and the lessons."""
import os
import sys


def _start(name):
    tool = os.path.join(os.path.dirname(os.path.abspath(__file__)), "tools", name)
    os.execv(sys.executable, [sys.executable, tool, *sys.argv[1:]])
'''


def metadata(version: str, libc: str) -> str:
    return f"""Metadata-Version: 2.1
Name: nilbozad
Version: {version}
Summary: A bench for the virtual storage of z/OS
License: MIT OR Apache-2.0
Requires-Python: >=3.11

`vsm SCRIPT` runs a script of storage macros, `vsm-explain --help` and the other commands explain, draw and test one;
`vsm_bench` and `vsmtools` are its modules for Python. The folder `nilbozad` of site-packages has `bench.html`, the bench
for a browser, and in `doc` the documents and the lessons: `STATEMENTS.md` says what a script can have, `MESSAGES.md` what
is printed, `ZOS.md` where z/OS differs; type their commands there. `man vsm-statements` works in an activated venv. It
needs Linux on x86-64 and glibc {libc} or newer.
"""


def placed(name: str, start: str) -> str | None:
    """The name in the wheel of a file of the release's tree, if it goes there."""
    for place, there in PLACES.items():
        if name.startswith(place):
            return there.format(info=f"{start}.dist-info", data=f"{start}.data") + name.removeprefix(place)
    return None


def contents(version: str, tools: list[str], libc: str, programs: list[str], root: Path) -> dict[str, bytes]:
    """What the wheel has, by name."""
    start = f"nilbozad-{version}"
    info = f"{start}.dist-info"
    found = {f"{start}.data/scripts/{it}": (root / "bin" / it).read_bytes() for it in programs}
    for path in root.rglob("*"):
        name = placed(str(path.relative_to(root)), start)
        if name and path.is_file():
            found[name] = path.read_bytes()
    functions = {it: it.replace("-", "_") for it in tools}
    texts = {
        "nilbozad.pth": "nilbozad/tools\n",
        "nilbozad/__init__.py": STARTER + "".join(
            f'\n\ndef {function}():\n    _start("{tool}")\n' for tool, function in functions.items()),
        f"{info}/entry_points.txt": "[console_scripts]\n" + "".join(
            f"{tool} = nilbozad:{function}\n" for tool, function in functions.items()),
        f"{info}/METADATA": metadata(version, libc),
        f"{info}/WHEEL": "Wheel-Version: 1.0\nGenerator: nilbozad\nRoot-Is-Purelib: false\nTag: py3-none-linux_x86_64\n",
    }
    return {**found, **{name: text.encode() for name, text in texts.items()}}


def recorded(files: dict[str, bytes], record: str) -> bytes:
    """The list of all files with their sums; its own line has none."""
    lines = []
    for name in sorted(files):
        digest = base64.urlsafe_b64encode(hashlib.sha256(files[name]).digest()).rstrip(b"=").decode()
        lines.append(f"{name},sha256={digest},{len(files[name])}\n")
    return "".join([*lines, f"{record},,\n"]).encode()


def wheel(version: str, tools: list[str], libc: str, programs: list[str], root: Path, seconds: int, file: Path) -> None:
    files = contents(version, tools, libc, programs, root)
    record = f"nilbozad-{version}.dist-info/RECORD"
    everything = {**dict(sorted(files.items())), record: recorded(files, record)}
    with zipfile.ZipFile(file, "w", zipfile.ZIP_DEFLATED) as archive:
        for name, data in everything.items():
            entry = zipfile.ZipInfo(name, time.gmtime(seconds)[:6])
            entry.compress_type = zipfile.ZIP_DEFLATED
            entry.external_attr = (0o100755 if ".data/scripts/" in name else 0o100644) << 16
            archive.writestr(entry, data, compresslevel=9)
