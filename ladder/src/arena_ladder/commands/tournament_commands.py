"""The commands `tournament`, between the bots of another ladder, and `bracket`, which prints it."""

from __future__ import annotations

import argparse
from collections.abc import Callable
from contextlib import closing
from dataclasses import replace
from pathlib import Path
from typing import Any

from arena_ladder.commands.program import add_program
from arena_ladder.game.config import MOST_BOTS, TOURNAMENTS, Config, config_of, rules_from_members
from arena_ladder.game.game_files import make_folders
from arena_ladder.game.tournament import Tournament
from arena_ladder.net.bots import Bot
from arena_ladder.results.roster import state_of
from arena_ladder.results.seeds import with_seed
from arena_ladder.results.store import Store, StoreFault, open_store
from arena_ladder.run.tournament_play import tournament_of

NUMBERS = ("games", "group", "rounds", "seed", "at_once", "games_a_bot")


def seeded_bots(store: Store, most: int) -> list[Bot]:
    """The bots that are in a ladder, the one with the highest rating first."""
    from arena_ladder.results.standings import standings_of

    identity = store.identity()
    if identity is None:
        raise StoreFault(f"{store.path} has no results of a ladder")
    known = {bot.name: bot for bot in store.bots()}
    names = [it.bot for it in standings_of(store)]
    if identity["pairing"] == "rating":
        players = state_of(store).players
        names = [it for it in names if players[it].is_in and not players[it].is_paused]
    return [known[name] for name in names[:most]]


def tournament_config(given: argparse.Namespace) -> Config:
    """A tournament of a ladder's best bots, by its rules. One that has begun keeps its bots."""
    with closing(open_store(given.ladder)) as store:
        bots = seeded_bots(store, given.bots)
        urls = {bot.name: bot.url for bot in store.bots()}
        identity = store.identity()
    assert identity is not None
    make_folders(given.folder)
    with closing(Store(given.folder)) as own:
        begun = own.identity()
    if begun is not None:
        bots = [Bot(name, urls.get(name, "")) for name in begun["bots"]]
    members = {key: getattr(given, key) for key in NUMBERS if getattr(given, key) is not None}
    table: dict[str, Any] = {
        "folder": str(given.folder),
        "bot": [{"name": f"seed{at}", "url": "http://seed"} for at, _ in enumerate(bots)],
        "pairing": given.kind,
        "timeout": identity["timeout"],
        **members,
    }
    config = config_of(table, "tournament")
    return with_seed(replace(config, bots=tuple(bots), rules=rules_from_members(identity["rules"])))


def bracket_lines(tournament: Tournament) -> list[str]:
    """The matches of a tournament, stage by stage, and its tables."""
    lines = []
    for stage in tournament.stages():
        lines.append(stage["title"])
        for match in stage["matches"]:
            names = [it["bot"] or it["from"] for it in match["bots"]]
            points = " : ".join(f"{it:g}" for it in match["points"])
            won = f"  {match['winner']}" if match["winner"] else ""
            lines.append(f"  {match['number']:3}  {names[0]} - {names[1]}  {points}{won}")
    for table in tournament.tables():
        lines.append(table["title"])
        for at, row in enumerate(table["rows"], 1):
            games = f"{row['games']:g} : {row['against']:g}"
            lines.append(f"  {at:3}  {row['bot']}  {row['points']:g} of {row['played']}  {games}")
    champion = tournament.champion
    return [*lines, f"{champion} has won" if champion else "it is not over"]


def run_bracket(given: argparse.Namespace) -> int:
    """Prints the matches of a tournament."""
    with closing(open_store(given.folder)) as store:
        print("\n".join(bracket_lines(tournament_of(store, given.folder))))
    return 0


def add_tournaments(
    commands: Any,
    play: Callable[[Config, argparse.Namespace], int],
    address_of: Callable[[str], Any],
) -> None:
    """Adds the commands to a parser's. `play` plays a configuration."""

    def run(given: argparse.Namespace) -> int:
        return play(tournament_config(given), given)

    one = commands.add_parser("tournament", help="plays a tournament of the bots of a ladder")
    one.add_argument("folder", metavar="FOLDER", type=Path)
    one.add_argument("ladder", metavar="LADDER", type=Path, help="the folder of their ratings")
    one.add_argument("kind", metavar="KIND", choices=TOURNAMENTS, help=", ".join(TOURNAMENTS))
    help = "the best N by rating"
    one.add_argument("--bots", metavar="N", type=int, default=MOST_BOTS, help=help)
    for name in NUMBERS:
        one.add_argument(f"--{name.replace('_', '-')}", metavar="N", type=int)
    one.add_argument("--page", metavar="[HOST:]PORT", type=address_of)
    add_program(one)
    one.set_defaults(run=run, part=None, hours=None)
    one = commands.add_parser("bracket", help="prints the matches of a tournament")
    one.add_argument("folder", metavar="FOLDER", type=Path)
    one.set_defaults(run=run_bracket)
