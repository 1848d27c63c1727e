"""The commands for a ladder that runs for months: backups, seasons, and points of an old ladder."""

from __future__ import annotations

import argparse
from contextlib import closing
from pathlib import Path
from typing import Any

from arena_ladder.game.rated import Rated
from arena_ladder.results.backup import backup
from arena_ladder.results.roster import change_roster
from arena_ladder.results.seasons import begin_season
from arena_ladder.results.store import Store, StoreFault, open_store
from arena_ladder.texts import counted


def carry(old: Path, folder: Path) -> str:
    """Gives the bots of an endless ladder the ratings that they have in another folder as points.

    The other folder may be of any earlier version, and of any pairing.
    """
    from arena_ladder.results.standings import standings_of  # loads numpy

    with closing(open_store(old)) as store:
        ratings = {it.bot: round(it.rating.elo) for it in standings_of(store) if it.games}

    def work(store: Store, rated: Rated) -> str:
        known = sorted(ratings.keys() & rated.players.keys())
        if not known:
            raise StoreFault(f"no bot of {folder} has played in {old}")
        for bot in known:
            store.add_change("points", bot, old=str(ratings[bot]))
        names = ", ".join(known)
        return f"{counted(len(known), 'bot')} got their Elo in {old} as points: {names}"

    return change_roster(folder, work)


def run_backup(given: argparse.Namespace) -> int:
    """Copies a folder, also while it is played."""
    games = backup(given.folder, given.to)
    print(f"ladder: {given.to} has {counted(games, 'game', ',')} of {given.folder}")
    return 0


def run_season(given: argparse.Namespace) -> int:
    """Begins a season."""
    print(f"ladder: {begin_season(given.folder, given.name)}")
    return 0


def run_carry(given: argparse.Namespace) -> int:
    """Takes points over from another folder."""
    print(f"ladder: {carry(given.old, given.folder)}")
    return 0


def add_keeping_commands(commands: Any) -> None:
    """Adds the commands to a parser's."""
    one = commands.add_parser("backup", help="copies a folder as a whole, also while it is played")
    one.add_argument("folder", metavar="FOLDER", type=Path)
    one.add_argument("to", metavar="TO", type=Path)
    one.set_defaults(run=run_backup)
    one = commands.add_parser("restore", help="copies a backup to a folder that is not there")
    one.add_argument("folder", metavar="BACKUP", type=Path)
    one.add_argument("to", metavar="FOLDER", type=Path)
    one.set_defaults(run=run_backup)
    one = commands.add_parser("season", help="begins a season of an endless ladder")
    one.add_argument("folder", metavar="FOLDER", type=Path)
    one.add_argument("name", metavar="NAME")
    one.set_defaults(run=run_season)
    one = commands.add_parser("carry", help="takes ratings of another folder as points")
    one.add_argument("old", metavar="OLD", type=Path)
    one.add_argument("folder", metavar="FOLDER", type=Path)
    one.set_defaults(run=run_carry)
