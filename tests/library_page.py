"""The programs of docs/SIMULATOR.md, for tests/library.

    library_page.py PAGE

runs those in C and Python of the page with what is installed, for tests/package.
"""

import re
import subprocess
import sys
import tempfile
from pathlib import Path
from typing import Any

ROOT = Path(__file__).resolve().parent.parent
PAGE = ROOT / "docs/SIMULATOR.md"
FENCE = re.compile(r"^```(\w+)\n(.*?)^```$", re.M | re.S)


def ran(*words: Any, **more: Any) -> str:
    """Runs a program, and returns its output. Fails if its status is not 0."""
    done = subprocess.run([str(word) for word in words], capture_output=True, text=True, **more)
    if done.returncode:
        raise AssertionError(f"{words}: status {done.returncode}\n{done.stdout}{done.stderr}")
    output: str = done.stdout
    return output


def blocks(language: str, page: Path = PAGE) -> list[tuple[str, str]]:
    """The programs of the page in that language, each with what the page says that it prints."""
    found = FENCE.findall(page.read_text())
    pairs = zip(found, found[1:])
    return [(text, said) for (word, text), (next_, said) in pairs if word == language]


def has_all_outputs() -> bool:
    """Whether each program is followed by a block of what it prints."""
    found = [word for word, _ in FENCE.findall(PAGE.read_text())]
    return found[1::2] == ["text"] * (len(found) // 2) and "text" not in found[::2]


def has_numpy() -> bool:
    return not subprocess.run(
        [sys.executable, "-c", "import numpy"], capture_output=True
    ).returncode


def check_python(folder: Path) -> None:
    """Runs each; those that need numpy only where it is."""
    for number, (text, wanted) in enumerate(blocks("python")):
        if "numpy" in text and not has_numpy():
            continue
        script = folder / f"page_{number}.py"
        script.write_text(text)
        path = {"PYTHONPATH": str(ROOT / "bindings/python"), "PATH": "/usr/bin:/bin"}
        assert ran(sys.executable, script, env=path) == wanted


def check_installed(page: Path, folder: Path) -> None:
    """Runs the programs of a page by the library and the module that are installed."""
    flags = ran("pkg-config", "--cflags", "--libs", "arena").split()
    for text, wanted in blocks("c", page):
        (folder / "page.c").write_text(text)
        ran("gcc", "-Wall", "-Werror", "-o", folder / "page", folder / "page.c", *flags)
        assert ran(folder / "page") == wanted
    for text, wanted in blocks("python", page):
        assert ran(sys.executable, "-c", text) == wanted
    print(f"library: the programs in C and Python of {page.name} print what it says")


if __name__ == "__main__":
    with tempfile.TemporaryDirectory() as room:
        check_installed(Path(sys.argv[1]), Path(room))
