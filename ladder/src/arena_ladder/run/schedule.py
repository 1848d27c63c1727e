"""Decides which game begins next: by the room of each bot, and by how late the ladder is."""

from __future__ import annotations

import asyncio
import math
import time
from collections import Counter
from collections.abc import Iterable

from arena_ladder.game.pairing import Fixture
from arena_ladder.net.pulse import Pulse

MOST_PASSED = 1024  # games that wait for a bot while later ones begin
CALM_SECONDS = 1.0  # without a lag, after which one more game is allowed


class Schedule:
    """The games that wait. No bot plays more than `games_a_bot` games at the same time, and no
    game begins after `ends_at`, of the monotonic clock.
    """

    is_over = True  # once no game runs and none can begin

    def __init__(
        self, fixtures: Iterable[Fixture], games_a_bot: int, ends_at: float = math.inf
    ) -> None:
        self.ends_at = ends_at
        self.rest = iter(fixtures)
        self.passed: list[Fixture] = []
        self.games_a_bot = games_a_bot
        self.playing: Counter[str] = Counter()  # games by bot
        self.running = 0

    async def begin(self) -> Fixture | None:
        """As `next`, until the time is over."""
        return None if time.monotonic() >= self.ends_at else self.next()

    def next(self) -> Fixture | None:
        """The first waiting game whose bots have room, which begins now; None without any."""
        for fixture in self.passed:
            if self._has_room(fixture):
                self.passed.remove(fixture)
                return self._begun(fixture)
        while len(self.passed) < MOST_PASSED:
            fresh = next(self.rest, None)
            if fresh is None or self._has_room(fresh):
                return fresh and self._begun(fresh)
            self.passed.append(fresh)
        return None

    def leave(self, fixture: Fixture) -> None:
        """Ends a game."""
        self.running -= 1
        self.playing.subtract(fixture.bots)

    def _has_room(self, fixture: Fixture) -> bool:
        return all(self.playing[bot] < self.games_a_bot for bot in fixture.bots)

    def _begun(self, fixture: Fixture) -> Fixture:
        self.running += 1
        self.playing.update(fixture.bots)
        return fixture


class Pace:
    """How many games may run: fewer after the ladder itself was late, more after a calm time."""

    def __init__(self, most: int, pulse: Pulse) -> None:
        self.most = self.allowed = most
        self.pulse = pulse
        self.looked_at = asyncio.get_running_loop().time()

    def may_begin(self, running: int) -> bool:
        """Whether one more game may begin while some run. One may always run."""
        now = asyncio.get_running_loop().time()
        if self.pulse.lagged_since(self.looked_at):
            self.allowed = max(1, min(self.allowed, running) * 3 // 4)
            self.looked_at = now
        elif now - self.looked_at > CALM_SECONDS:
            self.allowed = min(self.most, self.allowed + 1)
            self.looked_at = now
        return running < self.allowed
