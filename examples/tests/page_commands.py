"""Runs the commands of a page of docs/ as they stand.

A block is what is indented by four columns, or by seven in a numbered list. It has commands if its
first word is a program; else it is what one of the commands before it prints. The items of a
numbered list are ways to do one thing: each call of `run_page` goes one of them.
"""
import re
import shutil
import subprocess
from collections.abc import Iterator
from dataclasses import dataclass
from pathlib import Path

ROOT = Path(__file__).resolve().parent.parent.parent
LONGEST_BLOCK = 600  # seconds


class WrongPage(Exception):
    """A command that failed, or printed something else than the page says."""


@dataclass(frozen=True)
class Block:
    """The lines of a block, and the number of its item in a list; 0 outside of lists."""

    lines: tuple[str, ...]
    item: int

    def is_run(self, tree: Path) -> bool:
        word = self.lines[0].split()[0].lstrip("(")
        return shutil.which(word) is not None or ("/" in word and (tree / word).is_file())


def blocks_of(text: str) -> Iterator[Block]:
    """The blocks of a page or of a part of it."""
    item, before = 0, ""
    lines: list[str] = []
    for line in [*text.splitlines(), "."]:
        columns = 7 if item else 4
        if line.startswith(" " * columns) and (lines or before == ""):
            lines.append(line[columns:])
        elif lines:
            yield Block(tuple(lines), item)
            lines = []
        if found := re.match(r"([1-9])\. ", line):
            item = int(found[1])
        elif re.match(r"\S", line):
            item = 0
        before = line


def section_of(text: str, heading: str) -> str:
    """The text below a heading, to the next one of its level or above."""
    found = re.search(rf"^(#+) {re.escape(heading)}$", text, re.M)
    if found is None:
        raise WrongPage(f"there is no heading {heading!r}")
    below = text[found.end() :]
    end = re.search(rf"^#{{1,{len(found[1])}}} ", below, re.M)
    return below[: end.start()] if end else below


def ways_of(text: str) -> list[int]:
    """The numbers of the items that have blocks; 0 alone if there is no list."""
    return sorted({block.item for block in blocks_of(text)} - {0}) or [0]


def copy_of_tree(folder: Path, program: Path) -> Path:
    """Copies the files that git tracks, and the program as the built one."""
    words = ["git", "-C", str(ROOT), "ls-files", "-z"]
    tracked = subprocess.run(words, capture_output=True, text=True, check=True).stdout
    for name in filter(None, tracked.split("\0")):
        (folder / name).parent.mkdir(parents=True, exist_ok=True)
        shutil.copy2(ROOT / name, folder / name, follow_symlinks=False)
    (folder / "crates/arena/out").mkdir(parents=True)
    shutil.copy(program, folder / "crates/arena/out/arena")
    return folder


def run_page(text: str, tree: Path, way: int) -> str:
    """Runs the commands in `tree`, those of lists by one way; returns all that they printed.

    Raises `WrongPage` if a command fails, or if none has printed a line that the page shows. Lines
    of JSON are in files, and are not looked for.
    """
    printed = ""
    for block in blocks_of(text):
        if block.item not in (0, way):
            continue
        if block.is_run(tree):
            printed += run_block("\n".join(block.lines), tree)
        else:
            for line in block.lines:
                if not line.startswith("{") and line not in printed.splitlines():
                    raise WrongPage(f"no command before it has printed: {line}")
    return printed


def run_block(commands: str, tree: Path) -> str:
    """Runs commands by bash; returns what they wrote to both outputs."""
    words = ["bash", "-euo", "pipefail", "-c", commands]
    ran = subprocess.run(
        words,
        cwd=tree,
        timeout=LONGEST_BLOCK,
        stdout=subprocess.PIPE,
        stderr=subprocess.STDOUT,
        text=True,
    )
    if ran.returncode != 0:
        raise WrongPage(f"status {ran.returncode} of\n{commands}\n{ran.stdout}")
    return ran.stdout
