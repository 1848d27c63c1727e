"""Tests of the heartbeat, and of bots that are asked again while the ladder itself is late."""

from __future__ import annotations

import asyncio
import json
import time
from typing import Any

from arena_ladder.net.bots import Answer, BotClient
from arena_ladder.net.pulse import Pulse

TIMEOUT = 0.5


def run(work: Any) -> Any:
    return asyncio.run(asyncio.wait_for(work, 60))


def test_loop_that_is_blocked_lags() -> None:
    async def work() -> None:
        async with Pulse(0.2) as pulse:
            loop = asyncio.get_running_loop()
            before = loop.time()
            await asyncio.sleep(0.1)
            time.sleep(0.4)
            assert pulse.lagged_since(before)  # seen before a beat could come
            await asyncio.sleep(0.01)
            assert pulse.lagged_since(before)
            while pulse.lagged_since(loop.time()):  # a busy machine may do so once more
                await asyncio.sleep(0.05)

    run(work())


async def moves_of(slow_answers: int, blocked: int) -> tuple[Answer, int]:
    """The answer of a bot that is too slow for its first requests, and how often it was asked.

    The ladder itself is late while it asks for the first time, and `blocked` times in all.
    """
    asked = 0

    async def serve(reader: asyncio.StreamReader, writer: asyncio.StreamWriter) -> None:
        nonlocal asked
        asked += 1
        number = asked
        await reader.readuntil(b"\r\n\r\n")
        if number <= blocked:
            time.sleep(TIMEOUT / 2)  # blocks the loop of the ladder too
        if number <= slow_answers:
            await asyncio.sleep(60)
        body = json.dumps({"move": "up"}).encode()
        writer.write(b"HTTP/1.1 200 OK\r\nContent-Length: %d\r\n\r\n%b" % (len(body), body))
        writer.close()

    server = await asyncio.start_server(serve, "127.0.0.1", 0)
    url = f"http://127.0.0.1:{server.sockets[0].getsockname()[1]}/bot"
    async with BotClient(TIMEOUT) as client:
        client.pulse.limit = TIMEOUT / 4  # more than a loaded processor takes away
        (answer,) = await client.moves([(url, b"{}")])
    server.close()
    return answer, asked


def test_bot_is_asked_again_if_the_ladder_was_late() -> None:
    answer, asked = run(moves_of(slow_answers=1, blocked=1))
    assert (answer.move, answer.is_lagged, asked) == ("up", True, 2)


def test_bot_that_is_late_by_itself_is_not_asked_again() -> None:
    answer, asked = run(moves_of(slow_answers=100, blocked=1))
    assert (answer.cause, answer.is_lagged) == ("late", True)
    assert asked >= 2
