"""A client of bots: asks for their moves, and checks and limits every answer."""

from __future__ import annotations

import json
import os
import re
from collections.abc import Collection, Iterable, Sequence
from dataclasses import dataclass, replace
from typing import Any

from arena_ladder.net.addresses import AddressBook
from arena_ladder.net.connections import Connections, Exchange
from arena_ladder.net.misses import BadAnswer, Miss
from arena_ladder.net.pulse import Pulse
from arena_ladder.net.response import EXCERPT, NOTHING, Received
from arena_ladder.net.tls import client_context
from arena_ladder.net.urls import request_of, target_of
from arena_ladder.texts import printable

DIRECTIONS = ("up", "down", "left", "right")
LONGEST_SHOUT = 256
LOOK_SECONDS = 5.0
LAG = 0.1  # of the timeout: if the ladder itself is late by more, it asks again
MOST_REPEATS = 20  # of a request, while the ladder itself is late
ID_BYTES = 6  # of a request for a move

Request = tuple[str, bytes]  # the address of a bot or of one of its calls, and the body


@dataclass(frozen=True)
class Bot:
    """A Battlesnake server. Its certificate is checked by the authorities of the file `ca`, or by
    those of the machine if that is empty; without `verify` any is taken.
    """

    name: str
    url: str
    ca: str = ""
    verify: bool = True


@dataclass(frozen=True)
class Look:
    """The look that a bot chose; it is sent to all bots of a game."""

    color: str = "#888888"
    head: str = "default"
    tail: str = "default"


class NoLook(Exception):
    """A bot that did not say how it looks, with the reason."""


@dataclass(frozen=True, slots=True)
class Answer:
    """The answer of a bot to a request for its move: a direction, or why there is none."""

    move: str | None
    cause: Miss | None
    latency: int  # milliseconds
    shout: str = ""
    asked_at: float = 0.0  # seconds of the loop's clock
    answered_at: float = 0.0
    is_lagged: bool = False  # whether the ladder itself was late meanwhile
    received: Received = NOTHING
    request_id: str = ""


class BotClient:
    """Calls bots over HTTP; `timeout` is in seconds and limits each request.

    It is an `async with` context in a running loop.
    """

    def __init__(self, timeout: float) -> None:
        self.timeout = timeout
        self.pulse = Pulse(LAG * timeout)
        self.addresses = AddressBook()
        self.connections = Connections(self.addresses)

    async def __aenter__(self) -> BotClient:
        self.pulse.start()
        return self

    async def __aexit__(self, *_: object) -> None:
        self.connections.close()
        self.pulse.stop()

    def trust(self, bots: Iterable[Bot]) -> None:
        """Takes how the certificates of bots are to be checked."""
        for bot in bots:
            if bot.ca or not bot.verify:
                self.connections.trusted[bot.url] = client_context(bot.ca, bot.verify)

    def keep_only(self, urls: Collection[str]) -> None:
        """Forgets all bots but those of some addresses: their connections, and their names."""
        self.connections.keep_only(urls)
        self.addresses.keep_only({target_of(url).place.host for url in urls})

    async def look(self, url: str) -> Look:
        """Asks a bot for its look; raises `NoLook` if it sends none."""
        exchange = self._exchange("GET", url + "/", b"", LOOK_SECONDS)
        await self.connections.ask([exchange])
        if exchange.cause is not None:
            raise NoLook(f"{exchange.cause}: {exchange.why}" if exchange.why else exchange.cause)
        try:
            members = object_of(exchange.body)
        except BadAnswer as bad:
            raise NoLook(bad.cause) from None
        return look_of(members)

    async def moves(self, requests: Sequence[Request]) -> list[Answer]:
        """Asks bots for their moves, all at once, and waits no longer than the timeout.

        An answer that has arrived by the end of the timeout counts, even if this program was too
        busy to read it earlier. If the ladder itself was late, a bot that missed the timeout is
        asked again.
        """
        found: dict[int, Exchange] = {}
        lagged: set[int] = set()
        places = list(range(len(requests)))
        for _ in range(1 + MOST_REPEATS):
            asked = {at: self._exchange_for_move(*requests[at]) for at in places}
            await self.connections.ask(list(asked.values()))
            found.update(asked)
            late = {at for at, it in asked.items() if self._was_late(it)}
            lagged |= late
            places = [at for at in late if asked[at].is_timed_out]
            if not places:
                break
        return [self._answer(found[at], at in lagged) for at in sorted(found)]

    async def notify(self, requests: Sequence[Request]) -> list[Answer]:
        """Sends requests whose answers have no meaning, such as /end, within the timeout."""
        exchanges = [self._exchange("POST", url, body, self.timeout) for url, body in requests]
        await self.connections.ask(exchanges)
        return [self._timed(it, Answer(None, it.cause, 0)) for it in exchanges]

    def _exchange(self, method: str, url: str, body: bytes, seconds: float) -> Exchange:
        target, bot = target_of(url), url.rpartition("/")[0]
        return Exchange(target.place, request_of(method, target, body), seconds, bot=bot)

    def _exchange_for_move(self, url: str, body: bytes) -> Exchange:
        target, id = target_of(url + "/move"), os.urandom(ID_BYTES).hex()
        request = request_of("POST", target, body, id)
        return Exchange(target.place, request, self.timeout, id, url)

    def _was_late(self, exchange: Exchange) -> bool:
        """Whether the ladder itself was late while a request had no answer."""
        return self.pulse.lagged_since(exchange.began_at)

    def _answer(self, exchange: Exchange, is_lagged: bool) -> Answer:
        """The answer in what came of a request."""
        answer = Answer(None, exchange.cause, 0)
        if exchange.cause is None:
            try:
                answer = answer_of(object_of(exchange.body))
            except BadAnswer as bad:
                answer = Answer(None, bad.cause, 0)
        return replace(self._timed(exchange, answer), is_lagged=is_lagged)

    def _timed(self, exchange: Exchange, answer: Answer) -> Answer:
        """An answer with its times, and with what came of the response."""
        received = exchange.received
        if exchange.cause is None and answer.cause is not None:
            received = replace(received, excerpt=exchange.body[:EXCERPT])
        elif exchange.cause is Miss.REFUSED:
            received = replace(received, excerpt=exchange.why.encode()[:EXCERPT])
        return replace(
            answer,
            latency=round(1000 * min(exchange.ended_at - exchange.asked_at, self.timeout)),
            asked_at=exchange.asked_at,
            answered_at=exchange.ended_at,
            received=received,
            request_id=exchange.id,
        )


def object_of(text: bytes) -> dict[str, Any]:
    """Parses a JSON object; raises `BadAnswer` for any other text."""
    try:
        value = json.loads(text)
    except (ValueError, RecursionError):
        raise BadAnswer(Miss.JSON) from None
    if not isinstance(value, dict):
        raise BadAnswer(Miss.JSON)
    return value


def answer_of(members: dict[str, Any]) -> Answer:
    """The move in a bot's answer, and its shout, cut if it is too long."""
    move, shout = members.get("move"), members.get("shout")
    if move not in DIRECTIONS:
        raise BadAnswer(Miss.DIRECTION)
    return Answer(move, None, 0, printable(shout[:LONGEST_SHOUT]) if isinstance(shout, str) else "")


def look_of(members: dict[str, Any]) -> Look:
    """The look in a bot's answer, with defaults for bad members; its API has to be version 1."""
    if members.get("apiversion") != "1":
        raise NoLook("apiversion")

    def part(name: str, pattern: str, usual: str) -> str:
        value = members.get(name)
        return value if isinstance(value, str) and re.fullmatch(pattern, value) else usual

    usual = Look()
    return Look(
        color=part("color", "#[0-9A-Fa-f]{6}", usual.color),
        head=part("head", "[a-z0-9-]{1,48}", usual.head),
        tail=part("tail", "[a-z0-9-]{1,48}", usual.tail),
    )
