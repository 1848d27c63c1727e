"""The command files of finished games, a thousand in an archive, and one by one before that.

`games/NAME.jsonl` is a file of its own until its thousand is full: the games whose results were
stored as numbers 1 to 1,000 are then in `games/000001.zip`, and so on. Both are read alike.
"""

from __future__ import annotations

import os
import sqlite3
import zipfile
from collections.abc import Callable
from contextlib import closing
from functools import lru_cache
from pathlib import Path

from arena_ladder.game.game_files import command_file

GAMES = 1000  # in a pack
LEVEL = 6  # of compression
MOST_OPEN = 4  # packs of which the list of games is kept


def pack_file(folder: Path, number: int) -> Path:
    """The pack of the game whose result was stored as this number, from 1."""
    return folder / "games" / f"{(number - 1) // GAMES + 1:06}.zip"


def commands_of(folder: Path, name: str) -> bytes:
    """The command file of a finished game; raises OSError if it is missing or damaged."""
    try:
        return command_file(folder, name).read_bytes()
    except FileNotFoundError as fault:
        number = number_of(folder, name)
        if number is None:
            raise
        path = pack_file(folder, number)
        if not path.exists():
            raise
        try:
            return opened(path, path.stat().st_mtime_ns).read(f"{name}.jsonl")
        except KeyError:
            raise fault from None
        except (zipfile.BadZipFile, NotImplementedError, EOFError) as damage:
            raise OSError(0, f"the pack is damaged: {damage}", str(path)) from None


@lru_cache(MOST_OPEN)
def opened(path: Path, _: int) -> zipfile.ZipFile:
    """A pack that stays open, with the time of its last change; reading its list takes long."""
    return zipfile.ZipFile(path)


def number_of(folder: Path, name: str) -> int | None:
    """The number as which the result of a game was stored, if it was."""
    if not (folder / "results.sqlite").is_file():
        return None
    place = f"{(folder / 'results.sqlite').resolve().as_uri()}?mode=ro"
    with closing(sqlite3.connect(place, uri=True, timeout=60)) as base:
        row = base.execute("SELECT rowid FROM game WHERE name = ?", (name,)).fetchone()
    return row[0] if row else None


def pack_games(folder: Path, last: int, is_over: Callable[[], bool]) -> None:
    """Packs each full thousand of the games up to a number that are not packed yet.

    A pack is complete or missing, and a file goes only when it is in a pack; so a run may be
    killed at any moment, and the next one goes on. It stops early if `is_over` says so.
    """
    clean(folder, last)
    for first in range(1, last - GAMES + 2, GAMES):
        path = pack_file(folder, first)
        if not path.exists() and not is_over():
            pack(folder, path, names_of(folder, first))


def pack(folder: Path, path: Path, names: list[str]) -> None:
    """Makes a pack of some games, and removes their files. Without one of them it makes none."""
    files = [command_file(folder, name) for name in names]
    if len(names) < GAMES or not all(it.exists() for it in files):
        return
    unfinished = path.with_suffix(".unfinished")
    with zipfile.ZipFile(unfinished, "w", zipfile.ZIP_DEFLATED, compresslevel=LEVEL) as archive:
        for it in files:
            archive.writestr(zipfile.ZipInfo(it.name), it.read_bytes(), zipfile.ZIP_DEFLATED)
    with open(unfinished, "rb") as written:
        os.fsync(written.fileno())
    os.replace(unfinished, path)
    for it in files:
        it.unlink()


def names_of(folder: Path, first: int) -> list[str]:
    """The games of a thousand, from number `first` on."""
    place = f"{(folder / 'results.sqlite').resolve().as_uri()}?mode=ro"
    with closing(sqlite3.connect(place, uri=True, timeout=60)) as base:
        rows = base.execute(
            "SELECT name FROM game WHERE rowid BETWEEN ? AND ? ORDER BY rowid",
            (first, first + GAMES - 1),
        )
        return [name for (name,) in rows]


def clean(folder: Path, last: int) -> None:
    """Removes files that are in the newest pack too, since a run was killed before it did so."""
    path = pack_file(folder, last - GAMES + 1)
    if last >= GAMES and path.exists():
        with zipfile.ZipFile(path) as archive:
            for name in archive.namelist():
                (folder / "games" / name).unlink(missing_ok=True)
