"""The option of the commands that names the arena program, and the folder's memory of it."""

from __future__ import annotations

import argparse
import os
from pathlib import Path

from arena_client import PROGRAM

MEMORY = "program"  # a file of the folder


class ProgramFault(Exception):
    """An arena program that is missing."""


def add_program(words: argparse.ArgumentParser) -> None:
    usual = "arena; if left out, the one that the folder was played with, or else the built one"
    words.add_argument("--program", metavar="PATH", help=usual)


def program_of(given: argparse.Namespace, folder: Path | None = None) -> Path:
    """The path of the arena program, which has to exist: the one that is named, or else the one
    that the folder remembers, or else the built one."""
    remembered = None if given.program or folder is None else remembered_program(folder)
    program = Path(given.program or remembered or PROGRAM)
    if not program.is_file():
        raise ProgramFault(
            f"there is no program {program}: ./arena --help proves and builds it; or "
            "./arena --unproved --help builds one without proofs, in two minutes, and --program "
            "out/unproved/arena takes that"
        )
    return program.resolve()


def remember_program(folder: Path, given: argparse.Namespace) -> None:
    """Keeps in the folder the program that was named, for later commands.

    The file holds its own place on the disk too. So a copy of the folder remembers nothing, and the
    folder of a stranger cannot name a program to run.
    """
    if given.program:
        with open(folder / MEMORY, "w") as file:
            file.write(f"{program_of(given)}\n{place_of(file.fileno())}\n")


def remembered_program(folder: Path) -> Path | None:
    """The program that the folder remembers, if it is still there."""
    try:
        with open(folder / MEMORY) as file:
            name, place = file.read().splitlines()
            is_own = place == place_of(file.fileno())
    except (OSError, ValueError):
        return None
    return Path(name) if is_own and Path(name).is_file() else None


def place_of(file: int) -> str:
    """The disk and the number of an open file there."""
    status = os.fstat(file)
    return f"{status.st_dev} {status.st_ino}"
