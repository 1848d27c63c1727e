"""A tournament as its results are stored, and the source of its games."""

from __future__ import annotations

import asyncio
import time
from collections import Counter
from concurrent.futures import Executor
from pathlib import Path

from arena_ladder.game.config import TOURNAMENTS, Config, config_from_identity
from arena_ladder.game.pairing import Fixture
from arena_ladder.game.tournament import Tournament, by_name
from arena_ladder.results.store import Store, StoreFault


def tournament_of(store: Store, folder: Path) -> Tournament:
    """The tournament of a folder; raises `StoreFault` if there is none."""
    identity = store.identity()
    if identity is None or identity["pairing"] not in TOURNAMENTS:
        raise StoreFault(f"{folder} has no tournament")
    return Tournament(config_from_identity(identity, folder, 1), by_name(store.results(0)))


class Playing:
    """Begins the games of all matches that can be played. No bot plays more than `games_a_bot`
    games at the same time, and no game begins after `ends_at`, of the monotonic clock.
    """

    def __init__(self, config: Config, store: Store, executor: Executor, ends_at: float) -> None:
        self.config = config
        self.store = store
        self.executor = executor
        self.ends_at = ends_at
        self.results = by_name(store.results(0))
        self.seen = len(self.results)
        self.begun = set(self.results)
        self.playing: Counter[str] = Counter()  # games by bot
        self.running = 0
        self.is_over = False
        self.waiting = self.open_games()

    def open_games(self) -> list[Fixture]:
        """The games that can be played and were not begun."""
        tournament = Tournament(self.config, self.results)
        self.is_over = tournament.is_over
        return [it for it in tournament.fixtures if it.name not in self.begun]

    async def begin(self) -> Fixture | None:
        """The next game, which begins now; None if there is none at the moment."""
        if time.monotonic() >= self.ends_at:
            self.is_over = True
            return None
        results = await asyncio.get_running_loop().run_in_executor(
            self.executor, self.store.results, self.seen
        )
        if results:
            self.seen += len(results)
            self.results |= by_name(results)
            self.waiting = self.open_games()
        room = self.config.games_a_bot
        for fixture in self.waiting:
            if all(self.playing[bot] < room for bot in fixture.bots):
                self.waiting.remove(fixture)
                self.begun.add(fixture.name)
                self.running += 1
                self.playing.update(fixture.bots)
                return fixture
        return None

    def leave(self, fixture: Fixture) -> None:
        """Ends a game."""
        self.running -= 1
        self.playing.subtract(fixture.bots)
