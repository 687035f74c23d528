"""A page in headless Chromium, driven by its debugging pipe: open, evaluate, press keys, take pictures.

It uses only Python's standard library. Each wait has a limit, and close() ends everything that was started.
"""
from __future__ import annotations

import base64
import json
import os
import select
import shutil
import signal
import subprocess
import tempfile
import time
from pathlib import Path
from typing import Any, Optional, Sequence

PROGRAMS = ("chromium", "chromium-browser", "google-chrome")
SECONDS = 60  # the limit for one answer of the browser
INSTALL_SECONDS = 600
LIMIT = 1 << 20  # bytes that are read at once
# The next frame, in which earlier requests are drawn, and the end of all transitions.
DRAWN = """new Promise(requestAnimationFrame)
  .then(() => Promise.all(document.getAnimations().map(it => it.finished.catch(() => null))))
  .then(() => true)"""


class BrowserFault(Exception):
    """What is wrong with the browser, in one line."""


def installed(package: str, programs: Sequence[str]) -> str:
    """The path of the first of these programs that exists; if none does, root installs their package."""
    found = next(filter(None, map(shutil.which, programs)), None)
    if not found and os.geteuid() == 0:
        for words in (["update", "-qq"], ["install", "-y", "-qq", package]):
            try:
                subprocess.run(
                    ["apt-get", *words],
                    stdin=subprocess.DEVNULL,
                    stdout=subprocess.DEVNULL,
                    stderr=subprocess.DEVNULL,
                    timeout=INSTALL_SECONDS,
                    env={**os.environ, "DEBIAN_FRONTEND": "noninteractive"},
                )
            except (OSError, subprocess.TimeoutExpired):
                break
        found = next(filter(None, map(shutil.which, programs)), None)
    if not found:
        raise BrowserFault(f"{programs[0]} is missing: install the package {package}")
    return found


class Browser:
    """One tab of a browser started for it."""

    def __init__(self, width: int = 1440, height: int = 900) -> None:
        program = installed("chromium", PROGRAMS)
        self.folder = tempfile.mkdtemp(prefix="page-check-")
        self.held = b""
        self.number = 0
        self.session: Optional[str] = None
        self.events: list[dict[str, Any]] = []
        to_read, self.to = os.pipe()
        self.of, from_write = os.pipe()

        def pipes() -> None:
            # The browser reads at 3 and writes at 4; both are first moved away, so that neither closes the other.
            high = [os.dup(it) for it in (to_read, from_write)]
            high = [it if it > 4 else os.dup(it) for it in high]
            os.dup2(high[0], 3)
            os.dup2(high[1], 4)

        words = [
            "--headless",
            "--disable-gpu",
            "--remote-debugging-pipe",
            "--no-first-run",
            "--mute-audio",
            "--disable-dev-shm-usage",
            f"--user-data-dir={self.folder}",
            f"--window-size={width},{height}",
        ]
        if os.geteuid() == 0:
            words.append("--no-sandbox")
        self.process = subprocess.Popen(
            [program, *words],
            preexec_fn=pipes,
            close_fds=False,
            stdin=subprocess.DEVNULL,
            stdout=subprocess.DEVNULL,
            stderr=subprocess.DEVNULL,
            start_new_session=True,
        )
        os.close(to_read)
        os.close(from_write)
        try:
            target = self.call("Target.createTarget", url="about:blank")["targetId"]
            self.session = self.call("Target.attachToTarget", targetId=target, flatten=True)["sessionId"]
            for domain in ("Page", "Runtime", "Log", "Network", "Accessibility"):
                self.call(f"{domain}.enable")
            self.size(width, height)
        except BaseException:
            self.close()
            raise

    def __enter__(self) -> Browser:
        return self

    def __exit__(self, *_: object) -> None:
        self.close()

    def read(self, end: float) -> dict[str, Any]:
        """The next message."""
        while b"\0" not in self.held:
            if not select.select([self.of], [], [], max(0.0, end - time.monotonic()))[0]:
                raise BrowserFault(f"the browser didn't answer within {SECONDS} seconds")
            got = os.read(self.of, LIMIT)
            if not got:
                raise BrowserFault("the browser ended")
            self.held += got
        one, _, self.held = self.held.partition(b"\0")
        return json.loads(one)

    def call(self, method: str, **given: Any) -> dict[str, Any]:
        """The browser's answer to a command of its protocol."""
        self.number += 1
        message: dict[str, Any] = {"id": self.number, "method": method, "params": given}
        if self.session:
            message["sessionId"] = self.session
        try:
            os.write(self.to, json.dumps(message).encode() + b"\0")
        except OSError:
            raise BrowserFault("the browser ended") from None
        end = time.monotonic() + SECONDS
        while True:
            told = self.read(end)
            if told.get("id") != self.number:
                self.events.append(told)
            elif "error" in told:
                raise BrowserFault(f"{method}: {told['error'].get('message')}")
            else:
                return told["result"]

    def evaluate(self, text: str) -> Any:
        """The value of an expression in the page; a promise is awaited."""
        told = self.call("Runtime.evaluate", expression=text, awaitPromise=True, returnByValue=True)
        if "exceptionDetails" in told:
            thrown = told["exceptionDetails"]
            raise BrowserFault(
                "in the page: "
                + thrown.get("exception", {}).get("description", thrown["text"]).split("\n")[0]
            )
        return told["result"].get("value")

    def settle(self) -> None:
        """Waits until everything requested is drawn."""
        self.evaluate(DRAWN)

    def open(self, address: str, ready: str) -> float:
        """Opens a page, and waits until an expression holds in it; the seconds that took."""
        self.call("Page.navigate", url="about:blank")
        self.events.clear()
        start = time.monotonic()
        self.call("Page.navigate", url=address)
        while not self.evaluate(f"Boolean({ready})"):
            if time.monotonic() - start > SECONDS:
                raise BrowserFault(f"{address}: not ready within {SECONDS} seconds")
            time.sleep(0.02)
        return time.monotonic() - start

    def size(self, width: int, height: int, scale: float = 1) -> None:
        self.call(
            "Emulation.setDeviceMetricsOverride",
            width=width,
            height=height,
            deviceScaleFactor=scale,
            mobile=False,
        )

    def media(self, kind: str = "", **features: str) -> None:
        """Sets the page's medium: media(prefers_color_scheme='dark'), media('print')."""
        told = [{"name": name.replace("_", "-"), "value": value} for name, value in features.items()]
        self.call("Emulation.setEmulatedMedia", media=kind, features=told)

    def key(self, key: str, **more: Any) -> None:
        for kind in ("keyDown", "keyUp"):
            self.call("Input.dispatchKeyEvent", type=kind, key=key, **more)
        self.settle()

    def picture(self, path: Path) -> None:
        path.write_bytes(self.png())

    def png(self, clip: Optional[dict[str, float]] = None) -> bytes:
        """A picture of the window, or of a box in it: x, y, width, height."""
        more = {"clip": {**clip, "scale": 1}} if clip else {}
        return base64.b64decode(self.call("Page.captureScreenshot", format="png", **more)["data"])

    def messages(self) -> list[str]:
        """What was written to the console or thrown since the page was opened."""
        kinds = ("Log.entryAdded", "Runtime.exceptionThrown", "Runtime.consoleAPICalled")
        return [json.dumps(it["params"])[:300] for it in self.events if it["method"] in kinds]

    def requests(self) -> list[str]:
        """The page's requests since it was opened, its own included."""
        sent = (
            it["params"]["request"]["url"]
            for it in self.events
            if it["method"] == "Network.requestWillBeSent"
        )
        return [it for it in sent if it != "about:blank"]

    def controls(self) -> list[tuple[str, str]]:
        """Role and name of everything in the page that can have the focus, as a screen reader gets them."""
        found = []
        for node in self.call("Accessibility.getFullAXTree")["nodes"]:
            if any(
                it["name"] == "focusable" and it["value"].get("value") for it in node.get("properties", [])
            ):
                found.append((node.get("role", {}).get("value", ""), node.get("name", {}).get("value", "")))
        return found

    def close(self) -> None:
        """Ends the browser and all that it started."""
        for end in (self.to, self.of):
            try:
                os.close(end)
            except OSError:
                pass
        try:
            os.killpg(self.process.pid, signal.SIGTERM)
            self.process.wait(10)
        except subprocess.TimeoutExpired:
            os.killpg(self.process.pid, signal.SIGKILL)
            self.process.wait(10)
        except ProcessLookupError:
            pass
        shutil.rmtree(self.folder, ignore_errors=True)
