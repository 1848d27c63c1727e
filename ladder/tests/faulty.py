"""Bots that fail in planned turns, each in a different way, served on the loopback.

    faulty.py --port PORT

The path of a bot is its name: good, slow, error, cut, garbage, text, huge, redirect, hanging, gone.
The bots of CAUSES fail in the turns of `is_planned`; otherwise they all answer as the bot seeker
does. `gone` answers only its first moves, and then closes each connection without an answer.
Another bot, calm, delays each answer and never fails. GET /counts returns how often each bot
answered, and how often a redirect was followed; GET /ids the id of each request for a move, by
game, turn and bot.
"""

from __future__ import annotations

import argparse
import asyncio
import json
import re
from collections import Counter
from collections.abc import Awaitable, Callable
from typing import Any

import seeker  # of ladder/bots

NAMES = (
    *("good", "slow", "error", "cut", "garbage", "text", "huge", "redirect", "hanging", "gone"),
)
CAUSES = {  # the cause of the missed moves, by bot
    "slow": "late",
    "error": "status",
    "cut": "cut",
    "garbage": "cut",
    "text": "json",
    "huge": "long",
    "redirect": "status",
    "hanging": "late",
}
SLOW_SECONDS = 10.0
CALM_SECONDS = 0.1
HANGING_SECONDS = 600.0
MOVES_OF_GONE = 100
COUNTS: Counter[str] = Counter()
IDS: dict[str, str] = {}


def is_planned(turn: int) -> bool:
    """Whether the bots of CAUSES fail in a turn."""
    return turn % 9 == 4


def response(status: str, body: bytes, *headers: str) -> bytes:
    lines = [f"HTTP/1.1 {status}", f"Content-Length: {len(body)}", *headers, "", ""]
    return "\r\n".join(lines).encode() + body


def moved(state: dict[str, Any]) -> bytes:
    """A good answer to a request for a move."""
    return response("200 OK", json.dumps({"move": seeker.choose(state)}).encode())


async def slow(state: dict[str, Any], _: asyncio.StreamWriter) -> bytes:
    await asyncio.sleep(SLOW_SECONDS)
    return moved(state)


async def error(*_: object) -> bytes:
    return response("500 Internal Server Error", b'{"move":"up"}')


async def cut(_: object, writer: asyncio.StreamWriter) -> bytes:
    writer.write(response("200 OK", b'{"move":"up"}')[:-3])
    await writer.drain()
    raise ConnectionError


async def garbage(*_: object) -> bytes:
    return b"\x00\xff\xfe this is no HTTP\r\n\r\n"


async def text(*_: object) -> bytes:
    return response("200 OK", b"[" * 60_000)


async def huge(*_: object) -> bytes:
    return response("200 OK", json.dumps({"move": "up", "shout": "x" * 70_000}).encode())


async def redirect(*_: object) -> bytes:
    return response("302 Found", b"", "Location: /trap/move")


async def hanging(*_: object) -> bytes:
    await asyncio.sleep(HANGING_SECONDS)
    raise ConnectionError


FAULTS: dict[str, Callable[..., Awaitable[bytes]]] = {
    "slow": slow,
    "error": error,
    "cut": cut,
    "garbage": garbage,
    "text": text,
    "huge": huge,
    "redirect": redirect,
    "hanging": hanging,
}


async def answer(path: str, body: bytes, writer: asyncio.StreamWriter) -> bytes:
    """The answer of the bot of a path; raises ConnectionError if the bot closes the connection."""
    _, name, *rest = path.split("/")
    if name in ("counts", "ids"):
        told = COUNTS if name == "counts" else IDS
        return response("200 OK", json.dumps(told).encode())
    if name == "gone" and COUNTS["gone"] >= MOVES_OF_GONE:
        raise ConnectionError
    if name == "trap":
        COUNTS["trap"] += 1
    if rest != ["move"]:
        return response("200 OK", b'{"apiversion":"1","color":"<script>","head":"../../etc"}')
    state = json.loads(body)
    if name == "calm":
        await asyncio.sleep(CALM_SECONDS)
    if name in FAULTS and is_planned(state["turn"]):
        return await FAULTS[name](state, writer)
    COUNTS[name] += 1
    return moved(state)


def keep_id(head: str, body: bytes) -> None:
    """Keeps the id of a request, if it has one."""
    found = re.search(r"\r\nX-Request-Id: (.*)\r\n", head)
    if found is not None:
        state = json.loads(body)
        game = state["game"]["id"].partition("-")[2]
        IDS[f"{game} {state['turn']} {state['you']['name']}"] = found[1]


async def serve(reader: asyncio.StreamReader, writer: asyncio.StreamWriter) -> None:
    """Answers the requests of a connection, one after the other."""
    try:
        while head := (await reader.readuntil(b"\r\n\r\n")).decode():
            length = next(
                (
                    int(it[15:])
                    for it in head.split("\r\n")
                    if it.lower().startswith("content-length")
                ),
                0,
            )
            body = await reader.readexactly(length)
            keep_id(head, body)
            writer.write(await answer(head.split(" ")[1], body, writer))
            await writer.drain()
    except (ConnectionError, asyncio.IncompleteReadError):
        pass
    finally:
        writer.close()


async def main() -> None:
    words = argparse.ArgumentParser(description=__doc__)
    words.add_argument("--port", type=int, required=True)
    server = await asyncio.start_server(serve, "127.0.0.1", words.parse_args().port, backlog=512)
    await server.serve_forever()


if __name__ == "__main__":
    asyncio.run(main())
