"""Copies a ladder's folder as a whole, also while it is played.

The copy has the results up to a moment, the files of all games in them, and of the games that ran
then what was written of them. Games that were drawn later are left out. So `play` goes on from the
copy, and `check` agrees.
"""

from __future__ import annotations

import os
import shutil
import sqlite3
from contextlib import closing, suppress
from pathlib import Path

from arena_ladder.game.game_files import answers_file, command_file, make_folders
from arena_ladder.results.packs import GAMES, commands_of, pack_file
from arena_ladder.results.store import Store, StoreFault, open_store

KEPT = ("seed", "about.json", "days", "answers", "log")  # what goes along, if it is there


def backup(folder: Path, to: Path) -> int:
    """Copies a folder to one that is not there yet, and returns the number of finished games."""
    if to.exists():
        raise StoreFault(f"{to} is there already: name a folder that is not")
    unfinished = to.with_name(f"{to.name}.unfinished")
    shutil.rmtree(unfinished, ignore_errors=True)
    make_folders(unfinished)
    copy_results(folder, unfinished)
    with closing(open_store(unfinished)) as store:
        names = names_by_number(store)
        copy_games(folder, unfinished, names)
        for name in running_in(store, folder, set(names)):
            copy_running(folder, unfinished, name)
    for name in KEPT:
        copy_kept(folder / name, unfinished / name)
    os.rename(unfinished, to)
    return len(names)


def copy_results(folder: Path, to: Path) -> None:
    """Copies the database as it is at one moment."""
    open_store(folder).close()  # finds faults, and finishes what a killed ladder left
    with closing(sqlite3.connect(folder / "results.sqlite", timeout=60)) as base:
        with closing(sqlite3.connect(to / "results.sqlite")) as copy:
            base.backup(copy)


def names_by_number(store: Store) -> list[str]:
    """The names of the finished games, in the order of their numbers."""
    store.names()  # finds names that are none
    return [name for (name,) in store.base.execute("SELECT name FROM game ORDER BY rowid")]


def copy_games(folder: Path, to: Path, names: list[str]) -> None:
    """Copies the files of finished games: whole packs, and the others one by one."""
    for first in range(1, len(names) + 1, GAMES):
        pack = pack_file(folder, first)
        if pack.exists() and first + GAMES - 1 <= len(names):
            shutil.copyfile(pack, pack_file(to, first))
            continue
        for name in names[first - 1 : first - 1 + GAMES]:
            command_file(to, name).write_bytes(commands_of(folder, name))


def running_in(store: Store, folder: Path, done: set[str]) -> list[str]:
    """The games that were begun and not done: of an endless ladder those that were drawn."""
    identity = store.identity() or {}
    found = {path.stem for path in (folder / "running").glob("*.answers")} - done
    if identity.get("pairing") == "rating":
        found &= {row.game for row in store.drawn()}
    return sorted(found)


def copy_running(folder: Path, to: Path, name: str) -> None:
    """Copies what was written of a game; its commands first, of which each has its answers."""
    with suppress(FileNotFoundError):
        for file in (command_file, answers_file):
            file(to, name).write_bytes(file(folder, name).read_bytes())


def copy_kept(source: Path, target: Path) -> None:
    """Copies a file, or a folder of files that may come and go."""
    if source.is_file():
        shutil.copy(source, target)  # with its mode, for the seed
    elif source.is_dir():
        target.mkdir()
        for path in source.iterdir():
            if path.suffix != ".unfinished":
                with suppress(FileNotFoundError):
                    shutil.copy(path, target / path.name)
