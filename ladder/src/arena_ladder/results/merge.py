"""Merges the folders of the parts of a ladder into one."""

from __future__ import annotations

import os
from collections.abc import Iterator, Mapping, Sequence
from contextlib import closing
from pathlib import Path

from arena_ladder.game.game_files import command_file, make_folders
from arena_ladder.game.outcome import Outcome, Tally
from arena_ladder.results.lock import locked
from arena_ladder.results.packs import commands_of
from arena_ladder.results.store import Store, StoreFault, open_store


def merge(into: Path, folders: Sequence[Path]) -> int:
    """Adds the games of some folders to another, and returns the number of games added.

    All have to be of one ladder. A game that is in two folders has to be the same in both.
    """
    for folder in folders:
        open_store(folder).close()
    make_folders(into)
    with locked(into), closing(Store(into)) as store:
        return sum(add_folder(into, store, folder) for folder in folders)


def add_folder(into: Path, store: Store, folder: Path) -> int:
    """Adds the missing games of a folder: first their files, then their results."""
    with closing(open_store(folder)) as part:
        part.names()
        identity = part.identity()
        if identity is None:
            return 0
        if identity.get("pairing") == "rating":
            raise StoreFault(f"{folder} is of an endless ladder, which has no parts")
        store.begin(identity, part.bots())
        known = {outcome.name: outcome for outcome in store.outcomes()}
        found = list(part.outcomes())
        for outcome in found:
            if known.get(outcome.name, outcome) != outcome:
                raise StoreFault(f"{outcome.name} of {folder} is another game in {into}")
        missing = [outcome for outcome in found if outcome.name not in known]
        for outcome in missing:
            write(command_file(into, outcome.name), commands_of(folder, outcome.name))
        store.add(with_tallies(part, missing))
        return len(missing)


def with_tallies(
    store: Store, outcomes: Sequence[Outcome]
) -> Iterator[tuple[Outcome, Mapping[str, Tally]]]:
    for outcome in outcomes:
        yield outcome, store.tallies(outcome.name)


def write(target: Path, text: bytes) -> None:
    """Writes a file atomically: it is complete or missing."""
    unfinished = target.with_suffix(".unfinished")
    unfinished.write_bytes(text)
    os.replace(unfinished, target)
