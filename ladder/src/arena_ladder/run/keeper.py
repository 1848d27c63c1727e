"""Keeps a host running: starts another when it dies, in which its games continue."""

from __future__ import annotations

import asyncio
import time
from collections import deque
from collections.abc import Mapping
from contextlib import suppress
from pathlib import Path

from arena_client import PLAN, Host, HostDied
from arena_ladder.game.watch import Watch
from arena_ladder.net.bots import Answer

FAULTS = (5, 7)  # out of memory, and broken: statuses after which another host is started
MOST_IDLE_DEATHS = 5  # in succession, without a turn between them
MOST_DEATHS = 100  # within an hour
HOUR = 3600.0


class HostKeeper(Watch):
    """The host of a run. Gives up if hosts die at once, or too often."""

    def __init__(self, program: Path, blocks: int, plan: bytes = PLAN) -> None:
        self.program = program
        self.blocks = blocks
        self.plan = plan
        self.deaths: deque[float] = deque()  # moments of the monotonic clock
        self.idle_deaths = 0
        self._lock = asyncio.Lock()
        self._host: Host | None = None

    async def __aenter__(self) -> HostKeeper:
        return self

    async def __aexit__(self, kind: type[BaseException] | None, *_: object) -> None:
        if self._host is None:
            return
        with suppress(HostDied):  # all games that were played are stored
            await (self._host.close() if kind is None else self._host.kill())

    def count(self, answers: Mapping[str, Answer], own_seconds: float | None) -> None:
        """Resets the count of idle deaths: a turn was requested."""
        self.idle_deaths = 0

    async def host(self) -> Host:
        """The running host; starts one if there is none."""
        async with self._lock:
            if self._host is None:
                host = Host(self.blocks, self.program, self.plan)
                await host.start()
                self._host = host
            return self._host

    async def replace(self, host: Host, death: HostDied) -> bool:
        """Removes a host that has died, so `host` starts another; raises `death` if it may not.

        Returns False if another game of that host has removed it already.
        """
        async with self._lock:
            if self._host is not host:
                return False
            self._host = None
            self.deaths.append(time.monotonic())
            while self.deaths[0] < self.deaths[-1] - HOUR:
                self.deaths.popleft()
            self.idle_deaths += 1
            await host.kill()
            is_fault = death.status < 0 or death.status in FAULTS
            if (
                not is_fault
                or self.idle_deaths > MOST_IDLE_DEATHS
                or len(self.deaths) > MOST_DEATHS
            ):
                raise death
            return True
