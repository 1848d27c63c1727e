"""Installs commands and Python libraries that a tool needs from Debian's packages."""
import shutil
import subprocess
from collections.abc import Callable
from collections.abc import Sequence

PYTHON = "/usr/bin/python3"


def install(command: str, *packages: str) -> str | None:
    """Installs the packages if the command is missing. Returns the reason if that fails, else
    None."""
    return install_for(lambda: shutil.which(command) is not None, command, packages)


def install_library(module: str, *packages: str) -> str | None:
    """Installs the packages if Debian's Python has no such library. Returns as `install` does."""
    return install_for(lambda: has_library(module), f"Python's {module}", packages)


def has_library(module: str) -> bool:
    """Whether Debian's Python has that library."""
    try:
        ran = subprocess.run([PYTHON, "-c", f"import {module}"], capture_output=True)
    except FileNotFoundError:
        return False
    return ran.returncode == 0


def install_for(is_there: Callable[[], bool], thing: str, packages: Sequence[str]) -> str | None:
    """Installs the packages unless the thing is there."""
    if is_there():
        return None
    for words in (
        ["apt-get", "update"],
        ["apt-get", "install", "--yes", "--no-install-recommends", *packages],
    ):
        try:
            ran = subprocess.run(words, capture_output=True, text=True)
        except FileNotFoundError as fault:
            return f"{thing} is missing, and there is no {fault.filename}"
        if ran.returncode != 0:
            failure = f"'{' '.join(words)}' ended with status {ran.returncode}"
            return f"{thing} is missing, and {failure}: {ran.stderr.strip()[-300:]}"
    return None if is_there() else f"{thing} is not in {' '.join(packages)}"
