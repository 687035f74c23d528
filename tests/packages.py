"""What a check needs in addition to the kit, from Debian's packages, installed if that is possible."""
import os
import shutil
import subprocess

SECONDS = 900


class Missing(Exception):
    """A program that is missing and can't be installed; its text names the package."""


def apt_get(*words: str) -> str:
    """Why apt-get failed, as it says itself, or nothing if it didn't. It waits for another one that is running."""
    environment = {**os.environ, "DEBIAN_FRONTEND": "noninteractive"}
    command = ["apt-get", "-o", "DPkg::Lock::Timeout=300", *words]
    try:
        done = subprocess.run(command, env=environment, timeout=SECONDS, stdin=subprocess.DEVNULL,
                              stdout=subprocess.DEVNULL, stderr=subprocess.PIPE, text=True, errors="replace")
    except (OSError, subprocess.TimeoutExpired) as failure:
        return str(failure)
    if done.returncode == 0:
        return ""
    told = [line[3:].strip() for line in done.stderr.splitlines() if line.startswith("E: ")]
    return told[-1] if told else f"apt-get ended with status {done.returncode}"


def install(packages: list[str]) -> str:
    """Installs packages, if this is root's process, and returns why that can't be done, or nothing. The lists are
    fetched if they don't have them."""
    if os.geteuid() != 0 or not shutil.which("apt-get"):
        return "only root installs packages, by apt-get"
    words = ["install", "-y", "--no-install-recommends", *packages]
    return apt_get(*words) and (apt_get("update") or apt_get(*words))


def need(program: str, package: str) -> str:
    """The path of a program, which is installed if it's missing."""
    why = "" if shutil.which(program) else install([package])
    path = shutil.which(program)
    if not path:
        raise Missing(f"the program {program} is missing, and can't be installed by apt-get install {package}: "
                      f"{why or 'the package has no such program'}")
    return path
