"""The server-sent events of the page: the running games and the standings of a run."""

from __future__ import annotations

import asyncio
import json
import time
from collections.abc import Callable
from dataclasses import dataclass
from typing import Any

from arena_client import Board
from arena_ladder.page.colours import Looks, looks_of

STANDINGS_SECONDS = 2.0
REST = 20  # the pause before the next standings, as a multiple of the time that they took
MOST_READERS = 32
MOST_WAITING = 16  # events of a reader; a slower reader is disconnected
ENDED_SECONDS = 10.0  # for which the last board of a game stays
MOST_ENDED = 24  # games whose last board stays

Results = dict[str, Any]  # the rows of the standings, the bots, and what may be known of the seed


@dataclass(frozen=True)
class End:
    """The end of a game: its winners, and the moment until which its board stays."""

    winners: list[str]
    until: float


class Reader:
    """The queue of events for one open page; None is its end."""

    def __init__(self) -> None:
        self.events: asyncio.Queue[bytes | None] = asyncio.Queue(MOST_WAITING)

    def put(self, event: bytes) -> bool:
        """Adds an event. If the queue is full, ends it and returns False."""
        if self.events.full():
            self.end()
            return False
        self.events.put_nowait(event)
        return True

    def end(self, *last: bytes) -> None:
        """Replaces the waiting events by these and the end."""
        while not self.events.empty():
            self.events.get_nowait()
        for item in (*last, None):
            self.events.put_nowait(item)


class Feed:
    """Keeps the last board of each running game, and sends the changes to all readers.

    A reader gets the whole state when it joins, and then with each message of the ladder the newest
    board of each game in it. So the cost of a page does not grow with the speed of the games. The
    board of a game that has ended stays for some seconds.
    """

    def __init__(self, results: Callable[[], Results]) -> None:
        self.read_results = results
        self.results: Results = {"standings": [], "seed": "", "bots": [], "about": None}
        self.words = dict.fromkeys(("games", "left", "summary", "waits"), "")
        self.readers: set[Reader] = set()
        self.boards: dict[str, Board] = {}
        self.ended: dict[str, End] = {}
        self.chosen: dict[str, str] = {}  # colours, by bot
        self.looks: Looks = {}
        self.is_stale = True
        self.next_results = 0.0

    def join(self) -> Reader | None:
        """Adds a reader, whose first event is the whole state; None if there are too many."""
        if len(self.readers) >= MOST_READERS:
            return None
        reader = Reader()
        reader.put(event("all", self.all()))
        self.readers.add(reader)
        return reader

    def leave(self, reader: Reader) -> None:
        self.readers.discard(reader)

    def all(self) -> dict[str, Any]:
        """The whole state, as far as a reader needs it."""
        ended = {name: end.winners for name, end in self.ended.items()}
        state: dict[str, Any] = {"boards": self.boards, "ended": ended, "gone": []}
        return {**state, **self.words, **self.results, "looks": self.looks}

    async def take(self, message: dict[str, Any]) -> None:
        """Takes a message of the ladder, and sends what it changes to all readers."""
        self.words = {key: message[key] for key in self.words}
        self.boards.update(message["boards"])
        until = time.monotonic() + ENDED_SECONDS
        self.ended.update((name, End(it, until)) for name, it in message["ended"].items())
        gone = self.forget(set(message["running"]))
        self.is_stale = self.is_stale or bool(message["ended"]) or message["colours"] != self.chosen
        self.chosen = message["colours"]
        state: dict[str, Any] = {key: message[key] for key in ("boards", "ended")}
        state.update(self.words, gone=gone)
        if self.readers and self.is_stale and time.monotonic() >= self.next_results:
            await self.refresh()
            state.update({**self.results, "looks": self.looks})
        self.publish(event("changes", state))

    def forget(self, running: set[str]) -> list[str]:
        """Forgets the games that do not run and ended too long ago; returns their names."""
        now = time.monotonic()
        newest = set(list(self.ended)[-MOST_ENDED:])
        self.ended = {
            name: end for name, end in self.ended.items() if name in newest and end.until > now
        }
        gone = [name for name in self.boards if name not in running and name not in self.ended]
        for name in gone:
            del self.boards[name]
        return gone

    async def refresh(self) -> None:
        """Reads the results again, but no more than one part in REST of the time."""
        self.is_stale = False
        began = time.monotonic()
        self.results = await asyncio.to_thread(self.read_results)
        names = dict.fromkeys([*self.results["bots"], *self.chosen])
        self.looks = await asyncio.to_thread(looks_of, list(names), dict(self.chosen))
        took = time.monotonic() - began
        self.next_results = began + max(STANDINGS_SECONDS, REST * took)

    def publish(self, event: bytes) -> None:
        """Sends an event to all readers, and drops those whose queue is full."""
        self.readers = {reader for reader in self.readers if reader.put(event)}

    async def close(self) -> None:
        """Sends the final state to all readers, and ends their events."""
        await self.refresh()
        self.words.update(left="", summary="", waits="")
        last = event("end", self.all())
        for reader in self.readers:
            reader.end(last)


def event(kind: str, value: Any) -> bytes:
    """The bytes of an event. JSON has no line feed, so its data is one line."""
    return f"event: {kind}\ndata: {json.dumps(value, separators=(',', ':'))}\n\n".encode()
