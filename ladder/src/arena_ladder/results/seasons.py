"""The seasons of an endless ladder, each with its ratings and an archive of its standings.

A season begins between two results. From then on standings, pages and points count later games
alone; bots, games and their numbers go on.
"""

from __future__ import annotations

import json
import sqlite3
from dataclasses import dataclass
from pathlib import Path
from typing import Any

from arena_ladder.game.rated import Rated
from arena_ladder.results.roster import change_roster
from arena_ladder.results.store import Store, StoreFault
from arena_ladder.texts import counted, printable

LONGEST_NAME = 64
DAY = len("2026-11-29")


@dataclass(frozen=True)
class Season:
    """A season that has ended: its games are those behind number `first`, up to `last`."""

    number: int
    name: str
    first: int
    last: int
    ended_at: str
    rows: list[dict[str, Any]]  # of its standings

    @property
    def members(self) -> dict[str, Any]:
        """The values of JSON for the page."""
        return {**vars(self), "games": self.last - self.first}


def begin_season(folder: Path, name: str) -> str:
    """Ends the season of a folder, keeps its standings, and begins the next one."""
    from arena_ladder.results.standings import standings_of  # loads numpy

    if not 1 <= len(name) <= LONGEST_NAME or name != printable(name):
        raise StoreFault(f"the name of a season has 1 to {LONGEST_NAME} letters")

    def work(store: Store, rated: Rated) -> str:
        store.base.execute("BEGIN IMMEDIATE")
        with store.base:
            first, last = store.sums.first(), store.count_games()
            rows = [standing.row() for standing in standings_of(store)]
            row = (store.setting(NAME) or "1", first, last, json.dumps(rows))
            store.base.execute(
                "INSERT INTO season (name, first, last, ended_at, standings)"
                " VALUES (?, ?, ?, datetime('now'), ?)",
                row,
            )
            store.base.execute(
                "INSERT INTO roster (what, bot, results, url, old, at)"
                " VALUES ('season', ?, ?, '', '', datetime('now'))",
                (name, last),
            )
            store.put_setting(NAME, name)
            store.sums.begin_anew(last)
        ended = counted(last - first, "game", ",")
        return f"the season {name} begins after {counted(last, 'game', ',')}; the last had {ended}"

    return change_roster(folder, work)


NAME = "season"  # the setting that has the name of the season that is played


def seasons_of(store: Store) -> list[Season]:
    """The seasons that have ended, the first one first."""
    rows = store.base.execute(
        "SELECT number, name, first, last, ended_at, standings FROM season ORDER BY number"
    )
    return [
        Season(number, name, first, last, at, json.loads(standings))
        for number, name, first, last, at, standings in rows
    ]


def season_day(store: Store) -> str:
    """The day on which the season that is played began; an empty text for the first one.

    A folder of version 1.1 that can't be written has no seasons.
    """
    try:
        (began,) = store.base.execute("SELECT IFNULL(MAX(ended_at), '') FROM season").fetchone()
    except sqlite3.OperationalError as fault:
        if "no such table" not in str(fault):
            raise
        return ""
    return str(began)[:DAY]


def season_of(store: Store, name: str) -> Season:
    """The season of a name, the last one if there are several."""
    found = [it for it in seasons_of(store) if it.name == name]
    if not found:
        raise StoreFault(f"no season that has ended is named {name!r}")
    return found[-1]
