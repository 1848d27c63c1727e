"""Runs the page in a process of its own, and sends it what happens in the run.

Nothing here waits for that process. If it reads too slowly it gets less; if it hangs or ends,
another one is started. Each message to it is a line of JSON; its first line to the ladder is an
object with its address or a fault, and each later line says that it is alive.
"""

from __future__ import annotations

import argparse
import asyncio
import json
import os
import signal
import socket
import sys
import time
from collections.abc import Callable
from contextlib import suppress
from dataclasses import dataclass
from pathlib import Path
from typing import Any

from arena_client import PROGRAM
from arena_ladder.net.urls import named_host
from arena_ladder.page.news import News

LOCAL = "127.0.0.1"
PACKAGES = Path(__file__).resolve().parents[2]
TICK_SECONDS = 0.25
START_SECONDS = 30.0
HANG_SECONDS = 10.0  # without a sign of life
CLOSING_SECONDS = 5.0
MOST_STARTS = 6  # within an hour
HOUR = 3600.0
LONGEST_LINE = 65_536  # from the page


@dataclass(frozen=True)
class Address:
    """The address at which the page is served."""

    host: str
    port: int

    def __str__(self) -> str:
        return f"http://{named_host(self.host)}:{self.port}/"


def address_of(word: str) -> Address:
    """Parses `PORT`, which is on 127.0.0.1, or `HOST:PORT`."""
    host, _, port = word.rpartition(":")
    if not port.isascii() or not port.isdigit() or not int(port) < 65536:
        raise argparse.ArgumentTypeError(f"{word!r} is neither a port nor HOST:PORT")
    return Address(host.strip("[]") or LOCAL, int(port))


class PageFault(Exception):
    """A page that can't be served, with the reason."""


@dataclass(frozen=True)
class PageProcess:
    """A process that serves the page, and the two ends of the socket to it."""

    process: asyncio.subprocess.Process
    reader: asyncio.StreamReader
    writer: asyncio.StreamWriter

    async def served_at(self) -> Address:
        """Waits for the address at which it serves; kills it and raises `PageFault` without one."""
        try:
            async with asyncio.timeout(START_SECONDS):
                found = json.loads(await self.reader.readline() or b"{}")
        except (TimeoutError, ValueError, OSError):
            found = {}
        if "host" not in found:
            await self.kill()
            raise PageFault(f"the page can't be served: {found.get('fault', 'it has ended')}")
        return Address(found["host"], found["port"])

    def send(self, message: dict[str, Any]) -> None:
        self.writer.write((json.dumps(message, separators=(",", ":")) + "\n").encode())

    @property
    def is_behind(self) -> bool:
        """Whether it has not read all that was sent."""
        return self.writer.transport.get_write_buffer_size() > 0

    async def watch(self) -> None:
        """Returns when it has ended, or gave no sign of life for some time."""
        with suppress(TimeoutError, OSError, ValueError):
            while True:
                async with asyncio.timeout(HANG_SECONDS):
                    if not await self.reader.readline():
                        return

    async def close(self) -> None:
        """Lets it show the end of the run, and kills it if that takes too long."""
        with suppress(TimeoutError, OSError):
            if not self.is_behind:
                self.writer.write_eof()
                async with asyncio.timeout(CLOSING_SECONDS):
                    await self.process.wait()
        await self.kill()

    async def kill(self) -> None:
        if self.process.returncode is None:
            with suppress(ProcessLookupError):
                os.kill(self.process.pid, signal.SIGKILL)
        await self.process.wait()
        self.writer.transport.abort()


async def start_page(folder: Path, address: Address, program: Path) -> PageProcess:
    """Starts a process that is to serve the page at an address."""
    ours, theirs = socket.socketpair()
    path = os.pathsep.join(filter(None, [str(PACKAGES), os.environ.get("PYTHONPATH")]))
    place = (address.host, str(address.port))
    with theirs:
        process = await asyncio.create_subprocess_exec(
            sys.executable,
            *("-B", "-P", "-m", "arena_ladder.page.page", str(theirs.fileno())),
            *(*place, str(folder), str(program)),
            stdin=asyncio.subprocess.DEVNULL,
            pass_fds=[theirs.fileno()],
            start_new_session=True,  # Ctrl-C ends the ladder, which then ends the page
            env={**os.environ, "PYTHONPATH": path},
        )
    reader, writer = await asyncio.open_connection(sock=ours, limit=LONGEST_LINE)
    return PageProcess(process, reader, writer)


class PageLink(News):
    """Keeps a process with the page, and sends it the changes, tick by tick.

    `tell` is called with messages for the person who runs the ladder. It is an `async with`
    context.
    """

    def __init__(
        self,
        folder: Path,
        address: Address,
        summary: Callable[[], str],
        tell: Callable[[str], None],
        program: Path = PROGRAM,
    ) -> None:
        super().__init__()
        self.folder = folder
        self.address = address
        self.summary = summary
        self.tell = tell
        self.program = program
        self.page: PageProcess | None = None
        self._tasks: list[asyncio.Task[None]] = []

    async def __aenter__(self) -> PageLink:
        await self.start()
        self._tasks = [asyncio.create_task(self.keep()), asyncio.create_task(self.run())]
        return self

    async def __aexit__(self, *_: object) -> None:
        for task in self._tasks:
            task.cancel()
        if self.page is not None:
            self.send()
            await self.page.close()

    async def start(self) -> None:
        """Starts a process for the page, which first gets all boards."""
        page = await start_page(self.folder, self.address, self.program)
        self.address = await page.served_at()
        self.begin_anew()
        self.page = page

    async def run(self) -> None:
        while True:
            await asyncio.sleep(TICK_SECONDS)
            self.send()

    def send(self) -> None:
        """Sends what has changed, if the page has read all that was sent before."""
        if self.page is None or self.page.is_behind:
            return
        self.page.send({"summary": self.summary(), **self.message()})

    async def keep(self) -> None:
        """Starts another process when one ends or hangs, but not too often."""
        starts = [time.monotonic()]
        while (page := self.page) is not None:
            await page.watch()
            self.page = None
            await page.kill()
            starts = [it for it in starts if it > time.monotonic() - HOUR]
            if len(starts) == MOST_STARTS:
                self.tell("the page ended too often; the games go on without it")
            else:
                starts.append(time.monotonic())
                await self.start_again()

    async def start_again(self) -> None:
        try:
            await self.start()
        except (PageFault, OSError) as fault:
            self.tell(f"{fault}; the games go on without it")
        else:
            self.tell("the page ended or did not answer; it is served again")
