"""The games of an endless ladder, drawn one by one from the results so far."""

from __future__ import annotations

import asyncio
import time
from collections.abc import Callable, Iterator
from concurrent.futures import Executor

from arena_ladder.game.config import Config
from arena_ladder.game.pairing import Fixture
from arena_ladder.game.rated import Change, Drawn, Rated
from arena_ladder.results.store import Store

SNAPSHOT_GAMES = 1000  # from which on a restart goes on

Bots = tuple[str, ...]


def name_of(number: int) -> str:
    """The name of game `number` of an endless ladder, each of which is a round of its own."""
    return f"r{number:04}-t001"


def number_of(name: str) -> int:
    """The number of a game of an endless ladder."""
    return int(name[1:].partition("-")[0])


def replay(store: Store, rated: Rated, after: int = 0) -> Iterator[tuple[Drawn, Bots | None]]:
    """Goes through the games that were drawn behind number `after`, up to which `rated` has gone.

    Yields each with the bots that are drawn again.
    """
    known, changed = rated.results, rated.changes
    results, changes = store.results(known), store.changes(changed)
    for row in store.drawn(after):
        rated.advance(
            results[rated.results - known : row.results - known],
            changes[rated.changes - changed : row.changes - changed],
        )
        yield row, rated.draw(row.game, row.number, row.room)
        rated.begin(row.game, row.bots)


def restore(store: Store, rated: Rated) -> int:
    """Brings `rated` to where an earlier run was, and returns the number of the last game drawn."""
    kept = store.snapshot()
    number = 0
    if kept is not None:
        number, state = kept
        rated.resume(state)
    began = number
    for row, _ in replay(store, rated, number):
        number = row.number
    if number - began >= SNAPSHOT_GAMES:
        store.keep_snapshot(number, rated)
    return number


class Endless:
    """The source of the games of an endless ladder.

    `on_changes` is called with the changes of the roster, and with the bots that have left it since
    and play no more: those that left may play on in games that were drawn before. All that reads
    the store after the beginning runs in the executor, which has one thread.
    """

    def __init__(
        self,
        config: Config,
        store: Store,
        executor: Executor,
        on_changes: Callable[[list[Change], set[str]], None],
        ends_at: float,
    ) -> None:
        self.config = config
        self.store = store
        self.executor = executor
        self.on_changes = on_changes
        self.ends_at = ends_at
        self.rated = Rated(config.seed, config.snakes)
        self.running = 0
        self.is_over = False
        self.number = restore(store, self.rated)
        self.waiting = [  # games that an earlier run began
            Fixture(game, number_of(game), bots)
            for game, bots in self.rated.open.items()
            if not store.has_game(game)
        ]
        self.leaving: set[str] = set()  # bots that left, whose games may go on
        changes = store.changes(0)[: self.rated.changes]
        gone = self.gone_by(changes)
        on_changes([it for it in changes if it.bot not in gone], gone)

    async def begin(self) -> Fixture | None:
        """The next game, which begins now; None if there is none at the moment."""
        loop = asyncio.get_running_loop()
        changes = await loop.run_in_executor(self.executor, self.take_changes)
        gone = self.gone_by(changes)
        if changes or gone:
            self.on_changes(changes, gone)
        found = await loop.run_in_executor(self.executor, self.next)
        self.running += found is not None
        return found

    def leave(self, _: Fixture) -> None:
        self.running -= 1

    def take_changes(self) -> list[Change]:
        """Takes the changes of the roster and the results that came since the last time."""
        changes = self.store.changes(self.rated.changes)
        self.rated.advance(self.store.results(self.rated.results), changes)
        return changes

    def gone_by(self, changes: list[Change]) -> set[str]:
        """The bots that are gone since the last call, after changes that were taken."""
        self.leaving.update(bot for it in changes for bot in (it.bot, it.old))
        if not self.leaving:
            return set()
        players = self.rated.players
        self.leaving = {it for it in self.leaving if it in players and not players[it].is_in}
        gone = self.leaving.difference(*self.rated.open.values())
        self.leaving -= gone
        return gone

    def next(self) -> Fixture | None:
        """The next game, which is stored before it begins."""
        if time.monotonic() >= self.ends_at:
            self.is_over = True
            return None
        if self.waiting:
            return self.waiting.pop(0)
        if self.number >= self.config.rounds:
            self.is_over = True
            return None
        number, room = self.number + 1, self.config.games_a_bot
        game = name_of(number)
        bots = self.rated.draw(game, number, room)
        if bots is None:
            return None
        row = Drawn(number, game, self.rated.results, self.rated.changes, room, bots)
        self.store.add_drawn(row)
        self.rated.begin(game, bots)
        self.number = number
        if number % SNAPSHOT_GAMES == 0:
            self.store.keep_snapshot(number, self.rated)
        return Fixture(game, number, bots)
