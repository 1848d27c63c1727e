"""Connects to the first of several addresses that accepts; they are tried side by side."""

from __future__ import annotations

import asyncio
from collections.abc import Awaitable, Callable, Sequence
from dataclasses import dataclass
from typing import Generic, TypeVar

BEGIN_SECONDS = 0.2  # within which all addresses of a name are tried, unless one accepts
MOST_ADDRESSES = 8

Found = TypeVar("Found")


@dataclass
class Race(Generic[Found]):
    """Attempts to connect to addresses, each begun a little after the one before it.

    An attempt begins at once when the one before it has failed. `failed` has the addresses whose
    attempts failed, or had no result when another one accepted or when the race was abandoned.
    `drop` is called with what a second attempt yields, once another one has won.
    """

    connect: Callable[[str], Awaitable[Found]]
    drop: Callable[[Found], None]

    def __post_init__(self) -> None:
        self.failed: list[str] = []
        self.fault: OSError | None = None

    async def run(self, addresses: Sequence[str]) -> tuple[str, Found]:
        """The address that accepted first, with what its attempt yields; raises OSError."""
        addresses = addresses[:MOST_ADDRESSES]
        pause = BEGIN_SECONDS / len(addresses)
        tasks: dict[asyncio.Task[Found], str] = {}
        try:
            for address in addresses:
                tasks[asyncio.ensure_future(self._attempt(address))] = address
                is_last = address == addresses[-1]
                found = await self._first(tasks, None if is_last else pause)
                if found is not None:
                    return found
            assert self.fault is not None
            raise self.fault
        finally:
            self._end(tasks)

    async def _attempt(self, address: str) -> Found:
        return await self.connect(address)

    async def _first(
        self, tasks: dict[asyncio.Task[Found], str], seconds: float | None
    ) -> tuple[str, Found] | None:
        """The first attempt that succeeds within a time; None if it is over, or all have failed."""
        ends = None if seconds is None else asyncio.get_running_loop().time() + seconds
        while tasks:
            rest = None if ends is None else max(0.0, ends - asyncio.get_running_loop().time())
            done, _ = await asyncio.wait(tasks, timeout=rest, return_when=asyncio.FIRST_COMPLETED)
            if not done:
                return None
            for task in done:
                address = tasks.pop(task)
                fault = task.exception()
                if fault is None:
                    return address, task.result()
                self._fail(address, fault)
        return None

    def _fail(self, address: str, fault: BaseException) -> None:
        self.failed.append(address)
        if not isinstance(fault, OSError):
            raise fault
        self.fault = fault

    def _end(self, tasks: dict[asyncio.Task[Found], str]) -> None:
        """Gives up the attempts that have no result."""
        for task, address in tasks.items():
            self.failed.append(address)
            task.cancel()
            task.add_done_callback(self._drop)

    def _drop(self, task: asyncio.Task[Found]) -> None:
        if not task.cancelled() and task.exception() is None:
            self.drop(task.result())
