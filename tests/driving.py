"""For the tests in this folder: programs that are driven while they run, copies of the repository, the library."""
import os
import pty
import select
import shutil
import signal
import subprocess
import sys
import termios
import time
from collections.abc import Callable

sys.path.append(os.path.join(os.path.dirname(os.path.realpath(__file__)), "..", "tools"))

from vsmtools.lines import options_for  # noqa: E402

SECONDS = 20


class Failure(Exception):
    """What is otherwise than it should be."""


class Driven:
    """A program, and where it's written to and read from."""

    def __init__(self, child: subprocess.Popen, to: int, answers: int) -> None:
        self.child, self.to, self.answers = child, to, answers

    def write(self, data: bytes) -> None:
        os.write(self.to, data)

    def read(self, size: int) -> bytes:
        """This many bytes, or fewer if the answers end."""
        found, end = b"", time.monotonic() + SECONDS
        while len(found) < size:
            if not select.select([self.answers], [], [], max(0.0, end - time.monotonic()))[0]:
                raise Failure(f"within {SECONDS} seconds there is no more than {found!r}")
            try:
                piece = os.read(self.answers, size - len(found))
            except OSError:
                piece = b""
            if not piece:
                break
            found += piece
        return found

    def expect_end(self, status: int, errors: bytes = b"") -> None:
        got = self.child.wait(timeout=SECONDS)
        said = self.child.stderr.read() if self.child.stderr else b""
        if (got, said) != (status, errors):
            raise Failure(f"status {got} and {said!r} on standard error, expected {status} and {errors!r}")


def by_pipes(words: list[str]) -> Driven:
    child = subprocess.Popen(words, bufsize=0, stdin=subprocess.PIPE, stdout=subprocess.PIPE,
                             stderr=subprocess.PIPE)
    return Driven(child, child.stdin.fileno(), child.stdout.fileno())


def by_terminal(words: list[str]) -> Driven:
    """A terminal that takes lines, but shows nothing of what is typed and leaves line feeds as they are."""
    leader, follower = pty.openpty()
    how = termios.tcgetattr(follower)
    how[1] &= ~termios.OPOST
    how[3] &= ~termios.ECHO
    termios.tcsetattr(follower, termios.TCSANOW, how)
    child = subprocess.Popen(words, stdin=follower, stdout=follower, stderr=subprocess.PIPE,
                             start_new_session=True)
    os.close(follower)
    return Driven(child, leader, leader)


def using(driven: Driven, call: Callable[[Driven], int]) -> int:
    """Calls with what is driven, and leaves no process."""
    try:
        return call(driven)
    finally:
        driven.child.kill()
        driven.child.wait()


def ended(child: subprocess.Popen, given: bytes, seconds: float) -> tuple[bytes, int, bytes]:
    try:
        output, errors = child.communicate(given, timeout=seconds)
    except subprocess.TimeoutExpired:
        os.killpg(child.pid, signal.SIGKILL)
        child.communicate()
        raise Failure(f"no end within {seconds} seconds") from None
    return output, child.returncode, errors


def compare(what: str, got: object, wanted: object) -> None:
    if got != wanted:
        raise Failure(f"{what}: expected {wanted!r}, got {got!r}")


def make_library(top: str) -> None:
    """Has tools/c/build make the library for C; what is made already stays."""
    done = subprocess.run([os.path.join(top, "tools", "c", "build")], stdin=subprocess.DEVNULL,
                          stdout=subprocess.DEVNULL, stderr=subprocess.PIPE, text=True)
    if done.returncode:
        raise Failure(done.stderr.strip())


def script_words(path: str) -> list[str]:
    """The options in a lesson's first comment."""
    with open(path, "rb") as script:
        return options_for(path, script.read())


def copy_listed(top: str, to: str) -> None:
    """Copies the files that git lists in a repository, as they are now."""
    listed = subprocess.run(["git", "-C", top, "ls-files", "-z"], check=True, capture_output=True).stdout
    for name in listed.decode().split("\0")[:-1]:
        target = os.path.join(to, name)
        os.makedirs(os.path.dirname(target), exist_ok=True)
        if os.path.exists(os.path.join(top, name)):
            shutil.copy2(os.path.join(top, name), target)
