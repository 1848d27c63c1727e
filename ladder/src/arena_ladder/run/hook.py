"""Runs a command for each game whose result is stored, with the result as a line of JSON.

The number of the last game for which it ran is kept in the folder, so that a run that was killed
goes on with the next one. No game waits for the command.
"""

from __future__ import annotations

import asyncio
import json
from collections.abc import Callable, Sequence
from contextlib import closing, suppress
from pathlib import Path
from tempfile import TemporaryFile

from arena_ladder.game.outcome import Outcome
from arena_ladder.game.watch import Watch
from arena_ladder.results.history import games_of
from arena_ladder.results.store import Store

COMMAND_SECONDS = 30.0  # after which the command is killed
CLOSING_SECONDS = 60.0  # for the games that are left at the end of a run
LAST = "hook: last game"  # the name of the setting


class Hook(Watch):
    """Calls a command with each result. It is an `async with` context.

    `tell` is called with the first fault of a run.
    """

    def __init__(self, folder: Path, command: Sequence[str], tell: Callable[[str], None]) -> None:
        self.folder = folder
        self.command = command
        self.tell = tell
        self.has_told = False
        self.is_ending = False
        self.stored = asyncio.Event()
        self._task: asyncio.Task[None] | None = None

    async def __aenter__(self) -> Hook:
        self.number = await asyncio.to_thread(self.first)
        self._task = asyncio.create_task(self.run())
        return self

    async def __aexit__(self, *_: object) -> None:
        assert self._task is not None
        self.is_ending = True
        self.stored.set()
        with suppress(TimeoutError):
            await asyncio.wait_for(self._task, CLOSING_SECONDS)

    def end(self, outcome: Outcome) -> None:
        self.stored.set()

    def first(self) -> int:
        """The number of the game after which it begins: the newest one in the first run."""
        with closing(Store(self.folder)) as store:
            kept = store.setting(LAST)
            number = store.count_games() if kept is None else int(kept)
            store.keep_setting(LAST, number)
            return number

    def next_line(self) -> bytes | None:
        """The result of the next game, if it is stored."""
        with closing(Store(self.folder)) as store:
            if store.count_games() <= self.number:
                return None
            (game,) = games_of(store, "", self.number + 2, 1)["games"]
            return (json.dumps({"number": self.number + 1, **game}) + "\n").encode()

    def keep(self) -> None:
        with closing(Store(self.folder)) as store:
            store.keep_setting(LAST, self.number)

    async def run(self) -> None:
        """Runs the command for game after game, in the order in which they were stored."""
        while True:
            self.stored.clear()
            while (line := await asyncio.to_thread(self.next_line)) is not None:
                await self.call(line)
                self.number += 1
                await asyncio.to_thread(self.keep)
            if self.is_ending:
                return
            await self.stored.wait()

    async def call(self, line: bytes) -> None:
        with TemporaryFile() as given:
            given.write(line)
            given.seek(0)
            try:
                process = await asyncio.create_subprocess_exec(
                    *self.command, stdin=given, stdout=asyncio.subprocess.DEVNULL
                )
            except OSError as fault:
                self.complain(str(fault))
                return
        try:
            async with asyncio.timeout(COMMAND_SECONDS):
                await process.wait()
        except TimeoutError:
            self.complain(f"took more than {COMMAND_SECONDS:.0f} s")
        finally:
            with suppress(ProcessLookupError):
                process.kill()
            await process.wait()
        if process.returncode:
            self.complain(f"ended with status {process.returncode}")

    def complain(self, why: str) -> None:
        if not self.has_told:
            self.has_told = True
            self.tell(f"the hook {self.command[0]}: {why}; the games go on")
