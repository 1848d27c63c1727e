"""Measures whether the ladder itself is late: a heartbeat of its event loop."""

from __future__ import annotations

import asyncio
import math

BEATS = 4  # within the time by which the loop may be late


class Pulse:
    """A heartbeat of the running loop, which lags if a beat comes more than `limit` seconds late.

    It beats from `start` to `stop`, or within an `async with` block.
    """

    def __init__(self, limit: float) -> None:
        self.limit = limit
        self.lagged_at = -math.inf
        self.due = math.inf
        self._loop = asyncio.get_running_loop()
        self._timer: asyncio.TimerHandle | None = None

    async def __aenter__(self) -> Pulse:
        self.start()
        return self

    async def __aexit__(self, *_: object) -> None:
        self.stop()

    def start(self) -> None:
        self.due = self._loop.time() + self.limit / BEATS
        self._timer = self._loop.call_at(self.due, self._beat)

    def stop(self) -> None:
        if self._timer is not None:
            self._timer.cancel()

    def lagged_since(self, when: float) -> bool:
        """Whether the loop lagged at or after a moment of its clock."""
        return self.lagged_at >= when or self._is_late()

    def _is_late(self) -> bool:
        return self._loop.time() > self.due + self.limit

    def _beat(self) -> None:
        if self._is_late():
            self.lagged_at = self._loop.time()
        self.start()
