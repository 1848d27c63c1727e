"""Honest bots that measure how long they take, served on the loopback.

    honest.py --port PORT

A bot is a path of its kind and a number, such as /quick-keep/0: KINDS has the kinds. They walk
round a square. GET /measured returns for each game, turn and bot the milliseconds from the request
to the answer. A request counts from the last moment but one at which this process was seen to wait
for requests, so that a time in which the machine ran other programs is in the figure. (The last one
may be after that time: a new connection is accepted some steps of the loop before it is read.)
"""

from __future__ import annotations

import argparse
import asyncio
import json
import time

BEAT_SECONDS = 0.004
STEPS = ("up", "left", "down", "right")
KINDS = {  # seconds of a move, whether it can do several at once, whether connections are kept
    "quick-keep": (0.0, True, True),
    "quick-close": (0.0, True, False),
    "one-by-one": (0.015, False, True),
    "300-keep": (0.3, True, True),
    "300-close": (0.3, True, False),
    "450-keep": (0.45, True, True),
    "450-close": (0.45, True, False),
}


class Bots:
    """All bots of this process."""

    def __init__(self) -> None:
        self.measured: dict[str, float] = {}
        self.turns: dict[str, asyncio.Lock] = {}
        self.waited_at = self.waits_at = time.perf_counter()

    async def beat(self) -> None:
        while True:
            await asyncio.sleep(BEAT_SECONDS)
            self.waited_at, self.waits_at = self.waits_at, time.perf_counter()

    async def serve(self, reader: asyncio.StreamReader, writer: asyncio.StreamWriter) -> None:
        """Answers the requests of a connection, one after the other."""
        try:
            while True:
                head = (await reader.readuntil(b"\r\n\r\n")).decode()
                came_at = self.waited_at
                length = head.lower().partition("content-length:")[2].partition("\r\n")[0]
                body = await reader.readexactly(int(length or 0))
                keeps = await self.answer(head.split(" ")[1], body, writer, came_at)
                await writer.drain()
                if not keeps:
                    break
        except (ConnectionError, asyncio.IncompleteReadError):
            pass
        finally:
            writer.close()

    async def answer(
        self, path: str, body: bytes, writer: asyncio.StreamWriter, came_at: float
    ) -> bool:
        """Answers a request, and returns whether the connection is kept."""
        _, kind, *rest = path.split("/")
        if kind == "measured":
            send(writer, json.dumps(self.measured).encode())
            return True
        seconds, is_parallel, keeps = KINDS[kind]
        if rest[1:] != ["move"]:
            send(writer, b'{"apiversion":"1"}', keeps)
            return keeps
        state = json.loads(body.decode("ascii"))
        if is_parallel:
            await asyncio.sleep(seconds)
        else:
            async with self.turns.setdefault(rest[0], asyncio.Lock()):
                await asyncio.sleep(seconds)
        json.dumps(state, ensure_ascii=False).encode()  # as a strict reader, which a surrogate ends
        key = f"{state['game']['id']} {state['turn']} {state['you']['name']}"
        send(writer, b'{"move":"%b"}' % STEPS[state["turn"] % 4].encode(), keeps)
        self.measured[key] = 1000 * (time.perf_counter() - came_at)
        return keeps


def send(writer: asyncio.StreamWriter, body: bytes, keeps: bool = True) -> None:
    """Sends an answer in one write; one that is not kept is of HTTP/1.0."""
    first = b"HTTP/1.1 200 OK" if keeps else b"HTTP/1.0 200 OK"
    writer.write(b"%b\r\nContent-Length: %d\r\n\r\n%b" % (first, len(body), body))


async def main() -> None:
    words = argparse.ArgumentParser(description=__doc__)
    words.add_argument("--port", type=int, required=True)
    bots = Bots()
    server = await asyncio.start_server(
        bots.serve, "127.0.0.1", words.parse_args().port, backlog=512
    )
    beating = asyncio.create_task(bots.beat())
    await server.serve_forever()
    beating.cancel()


if __name__ == "__main__":
    asyncio.run(main())
