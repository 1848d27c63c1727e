"""Serves the page of a run: its standings and its running games, live in a browser.

    python3 -m arena_ladder.page.page FD HOST PORT FOLDER PROGRAM

`page_link` starts it. FD is a socket to the ladder, whose lines are the messages for
the feed; when it ends, so do the events and this program. PROGRAM is arena, which replays the
finished games that are looked at.
"""

from __future__ import annotations

import asyncio
import json
import logging
import os
import socket
import sys
import time
from collections.abc import AsyncIterator, Awaitable, Callable
from contextlib import asynccontextmanager, closing, suppress
from datetime import UTC, datetime
from pathlib import Path

from aiohttp import web

from arena_ladder.heap import keep_heap_small, use_one_heap
from arena_ladder.page.days import with_days
from arena_ladder.page.feed import Feed, Results
from arena_ladder.page.page_calls import KINDS, Calls, faults_as_answers, files_of_page, rows_of
from arena_ladder.page.page_link import Address
from arena_ladder.results.about import about_of
from arena_ladder.results.history import bots_of
from arena_ladder.results.seasons import season_day
from arena_ladder.results.seeds import seed_line_of
from arena_ladder.results.store import open_store

CLOSING_SECONDS = 2.0
ALIVE_SECONDS = 1.0
LONGEST_LINE = 256 * 1024 * 1024  # of the ladder; its messages have no more than 16 boards
MOST_CONNECTIONS = 64
SILENT_SECONDS = 10.0  # of a connection until its first request has come
LINE_SECONDS = 60.0  # from a line about bad requests to the next
NICENESS = 10  # the games come first
HEADERS = {
    "Cache-Control": "no-store",
    "Content-Security-Policy": "default-src 'none'; script-src 'self'; style-src 'self';"
    " connect-src 'self'; img-src data:; base-uri 'none'; form-action 'none'",
    "X-Content-Type-Options": "nosniff",
}


Protocols = set[asyncio.BaseProtocol]
Handler = Callable[[web.Request], Awaitable[web.StreamResponse]]


class Complaints(logging.Handler):
    """Counts what the server says of its visitors, and writes one line a minute at most."""

    def __init__(self) -> None:
        super().__init__(logging.WARNING)
        self.count = 0
        self.next = 0.0

    def emit(self, record: logging.LogRecord) -> None:
        self.count += 1
        now = time.monotonic()
        if now >= self.next:
            self.next = now + LINE_SECONDS
            kind = record.exc_info[0] if record.exc_info else None
            last = kind.__name__ if kind else record.name
            print(
                f"ladder: the page had {self.count} bad requests, the last: {last}",
                file=sys.stderr,
                flush=True,
            )
            self.count = 0


def keep_quiet() -> None:
    """Keeps the tracebacks of requests that are no HTTP off the terminal."""
    complaints = Complaints()
    for name in ("aiohttp", "asyncio"):
        logger = logging.getLogger(name)
        logger.handlers, logger.propagate = [complaints], False


class Refuser(asyncio.Protocol):
    """Closes a connection at once."""

    def connection_made(self, transport: asyncio.BaseTransport) -> None:
        assert isinstance(transport, asyncio.Transport)
        transport.abort()


class Doorkeeper:
    """Lets a limited number of connections in, and closes those that ask nothing."""

    def __init__(self, server: web.Server, silent: Protocols) -> None:
        self.server = server
        self.silent = silent

    def __call__(self) -> asyncio.BaseProtocol:
        if len(self.server.connections) >= MOST_CONNECTIONS:
            return Refuser()
        protocol = self.server()
        self.silent.add(protocol)
        asyncio.get_running_loop().call_later(SILENT_SECONDS, self.look_at, protocol)
        return protocol

    def look_at(self, protocol: web.RequestHandler) -> None:
        if protocol in self.silent:
            self.silent.discard(protocol)
            if protocol.transport is not None:
                protocol.transport.abort()


@asynccontextmanager
async def page(calls: Calls, address: Address) -> AsyncIterator[Address]:
    """Serves the page within the context, whose value is its address; port 0 chooses a free one."""
    silent: Protocols = set()
    feed = calls.feed
    runner = web.AppRunner(application(calls, silent), access_log=None)
    await runner.setup()
    assert runner.server is not None
    door = Doorkeeper(runner.server, silent)
    loop = asyncio.get_running_loop()
    server = await loop.create_server(door, address.host, address.port, backlog=MOST_CONNECTIONS)
    trimming = asyncio.create_task(keep_heap_small())
    try:
        yield Address(address.host, server.sockets[0].getsockname()[1])
    finally:
        trimming.cancel()
        await feed.close()
        server.close()
        await runner.server.shutdown(CLOSING_SECONDS)
        await runner.cleanup()


def application(calls: Calls, silent: Protocols) -> web.Application:
    """The web application: the files of the page and of the viewer, the events, and the results.

    `silent` has the connections on which nothing was asked yet.
    """
    files = files_of_page()

    async def show(request: web.Request) -> web.Response:
        path = files[request.path]
        kind = KINDS[path.suffix[1:]]
        return web.Response(text=path.read_text(), content_type=kind, charset="utf-8")

    async def events(request: web.Request) -> web.StreamResponse:
        return await send_events(request, calls.feed)

    async def secure(request: web.Request, response: web.StreamResponse) -> None:
        response.headers.update(HEADERS)

    @web.middleware
    async def heard(request: web.Request, handler: Handler) -> web.StreamResponse:
        silent.discard(request.protocol)  # its answer may take long
        return await handler(request)

    app = web.Application(middlewares=[heard, faults_as_answers])
    app.add_routes([web.get(path, show) for path in files])
    app.add_routes([web.get("/events", events), *calls.routes()])
    app.on_response_prepare.append(secure)
    return app


async def send_events(request: web.Request, feed: Feed) -> web.StreamResponse:
    """Sends events until the run ends, the page is closed, or the page reads too slowly."""
    reader = feed.join()
    if reader is None:
        raise web.HTTPServiceUnavailable(text="too many pages are open")
    response = web.StreamResponse(headers={"Content-Type": "text/event-stream"})
    try:
        await response.prepare(request)
        while (event := await reader.events.get()) is not None:
            await response.write(event)
    except ConnectionError:
        pass
    finally:
        feed.leave(reader)
    return response


def results_of(folder: Path) -> Results:
    """Reads the results of a folder."""
    with closing(open_store(folder)) as store:
        today, begun = datetime.now(UTC).date(), season_day(store)
        rows = with_days(folder, rows_of(store), today, begun)
        about = about_of(store, folder)
        seed = seed_line_of(store)
        return {"standings": rows, "seed": seed, "bots": bots_of(store), "about": about}


async def say_alive(writer: asyncio.StreamWriter) -> None:
    """Writes a line to the ladder again and again."""
    while True:
        writer.write(b"\n")
        await writer.drain()
        await asyncio.sleep(ALIVE_SECONDS)


async def serve(ladder: socket.socket, address: Address, folder: Path, program: Path) -> None:
    """Serves the page until the socket to the ladder ends."""
    reader, writer = await asyncio.open_connection(sock=ladder, limit=LONGEST_LINE)
    feed = Feed(lambda: results_of(folder))
    try:
        async with page(Calls(feed, folder, program), address) as served:
            writer.write(json.dumps(vars(served)).encode() + b"\n")
            alive = asyncio.create_task(say_alive(writer))
            while line := await reader.readline():
                await feed.take(json.loads(line))
            alive.cancel()
    except OSError as fault:
        writer.write(json.dumps({"fault": str(fault)}).encode() + b"\n")
    finally:
        with suppress(ConnectionError):
            await writer.drain()


def main(words: list[str]) -> None:
    number, host, port, folder, program = words
    os.nice(NICENESS)
    use_one_heap()
    keep_quiet()
    ladder, address = socket.socket(fileno=int(number)), Address(host, int(port))
    asyncio.run(serve(ladder, address, Path(folder), Path(program)))


if __name__ == "__main__":
    main(sys.argv[1:])
