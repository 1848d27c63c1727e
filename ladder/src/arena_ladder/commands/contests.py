"""The commands `sprt` and `gauntlet`: one bot against others, in pairs of games."""

from __future__ import annotations

import argparse
import asyncio
import math
from contextlib import AsyncExitStack, closing
from pathlib import Path
from typing import Any

from rich.console import Console

from arena_ladder.commands.match import bots_of_words
from arena_ladder.commands.program import add_program, program_of, remember_program
from arena_ladder.game.config import MAPS, MODES, Config, config_of
from arena_ladder.game.game_files import make_folders
from arena_ladder.game.pairing import Part
from arena_ladder.game.watch import Watch
from arena_ladder.results.bot_log import BotLog
from arena_ladder.results.lock import locked
from arena_ladder.results.seeds import with_seed
from arena_ladder.results.sprt import Sprt
from arena_ladder.results.store import Store
from arena_ladder.run.play import Job, play
from arena_ladder.run.progress import Counts, ProgressBar

NUMBERS = ("width", "height", "seed", "timeout", "turns", "rounds", "at_once")
MOST_PAIRS = 10_000


def contest_config(given: argparse.Namespace, bots: list[str]) -> Config:
    """The gauntlet of the first of the bots against the others."""
    members: dict[str, Any] = {
        name: getattr(given, name)
        for name in ("mode", "map", *NUMBERS)
        if getattr(given, name) is not None
    }
    members["games_a_bot"] = members.setdefault("at_once", 2)
    table = {"folder": str(given.folder), "bot": bots_of_words(bots), "pairing": "gauntlet"}
    return with_seed(config_of({**table, **members}, "contest"))


async def play_until(job: Job, store: Store, sprt: Sprt | None) -> None:
    """Plays a contest until all is played, or until its test is decided."""
    async with AsyncExitStack() as stack:
        counts = Counts()
        bar = stack.enter_context(ProgressBar(counts))
        log = await stack.enter_async_context(BotLog(job.folder, bar.say))
        watches: list[Watch] = [counts, bar, log]
        decided = Decided(sprt)
        playing = asyncio.create_task(play(job, store, [*watches, decided]))
        waiting = asyncio.create_task(decided.event.wait())
        try:
            await asyncio.wait({playing, waiting}, return_when=asyncio.FIRST_COMPLETED)
            if not playing.done():
                playing.cancel()
                await asyncio.wait({playing})
            elif (fault := playing.exception()) is not None:
                raise fault
        finally:
            playing.cancel()
            waiting.cancel()


class Decided(Watch):
    """Sets an event when a test is decided."""

    def __init__(self, sprt: Sprt | None) -> None:
        self.sprt = sprt
        self.event = asyncio.Event()

    def end(self, outcome: Any) -> None:
        if self.sprt is not None:
            self.sprt.end(outcome)
            if self.sprt.is_decided:
                self.event.set()


def play_contest(given: argparse.Namespace, bots: list[str], sprt: Sprt | None) -> None:
    config = contest_config(given, bots)
    make_folders(config.folder)
    with locked(config.folder), closing(Store(config.folder)) as store:
        if sprt is not None:
            for outcome in store.outcomes():
                sprt.end(outcome)
        if sprt is None or not sprt.is_decided:
            job = Job(config, config.folder, Part(1, 1), program_of(given, config.folder))
            remember_program(config.folder, given)
            asyncio.run(play_until(job, store, sprt))


def run_sprt(given: argparse.Namespace) -> int:
    """Plays pairs of a new bot against an old one until one hypothesis is accepted."""
    new, old = (bot["name"] for bot in bots_of_words([given.new, given.old]))
    sprt = Sprt(new, given.elo0, given.elo1)
    play_contest(given, [given.new, given.old], sprt)
    print("\n".join(f"ladder: {line}" for line in sprt.lines(old)))
    return 0


def run_gauntlet(given: argparse.Namespace) -> int:
    """Plays a bot against others, and prints the standings."""
    from arena_ladder.results.standings import as_table, standings_of

    play_contest(given, [given.new, *given.others], None)
    with closing(Store(given.folder)) as store:
        standings = standings_of(store)
    Console(width=160).print(as_table(standings))
    return 0


def elo_of(word: str) -> float:
    try:
        elo = float(word)
    except ValueError:
        elo = math.nan
    if not -2000 <= elo <= 2000:
        raise argparse.ArgumentTypeError(f"{word!r} is not a number from -2000 to 2000")
    return elo


def add_contests(commands: Any) -> None:
    """Adds the commands to a parser's."""
    one = commands.add_parser("sprt", help="plays until a new bot is better than an old one or not")
    one.add_argument("folder", metavar="FOLDER", type=Path)
    one.add_argument("new", metavar="NEW", help="NAME=URL, or a URL")
    one.add_argument("old", metavar="OLD")
    one.add_argument("--elo0", metavar="ELO", type=elo_of, default=0.0, help="0 if not given")
    one.add_argument("--elo1", metavar="ELO", type=elo_of, default=20.0, help="20 if not given")
    add_rules(one, MOST_PAIRS)
    one.set_defaults(run=run_sprt)
    one = commands.add_parser("gauntlet", help="plays one bot against others, in pairs of games")
    one.add_argument("folder", metavar="FOLDER", type=Path)
    one.add_argument("new", metavar="NEW", help="NAME=URL, or a URL")
    one.add_argument("others", metavar="OTHER", nargs="+")
    add_rules(one, 1)
    one.set_defaults(run=run_gauntlet)


def add_rules(one: argparse.ArgumentParser, rounds: int) -> None:
    one.add_argument("--mode", choices=MODES)
    one.add_argument("--map", choices=MAPS)
    for name in NUMBERS:
        usual = rounds if name == "rounds" else None
        one.add_argument(f"--{name.replace('_', '-')}", metavar="N", type=int, default=usual)
    add_program(one)
