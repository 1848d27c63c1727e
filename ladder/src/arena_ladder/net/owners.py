"""The connections of each bot, which no other bot uses, and which servers serve one at a time.

A server with one thread that keeps connections reads no other one until the one that it serves is
closed, also if that is of another bot. It is recognised if it never answered on a connection while
an older one was open, and if it answered twice a request that waited unread once its other
connections were closed. From then on none of its connections is kept. A busy machine may look so
once.
"""

from __future__ import annotations

import math
from typing import Protocol

UNREAD_SHARE = 0.5  # of the time of a request, after which idle connections of its bot are closed
SURE = 2  # such answers
SLOWER, SLOWER_SECONDS = 2.0, 0.05  # than its quickest answer, by which an answer was not read


class Kept(Protocol):
    """A connection that may be kept. `rested_at` is when it became idle."""

    rested_at: float

    def close(self) -> None:
        ...

    def rest(self) -> None:
        ...

    def is_quiet(self) -> bool:
        ...


class Server:
    """What serves bots at one host and port, as far as their connections show it."""

    def __init__(self) -> None:
        self.owners: list[Owner] = []  # the bots that it serves
        self.used: list[Kept] = []  # open connections that have answered, the oldest first
        self.unread: set[object] = set()  # requests on fresh connections that wait for long
        self.is_parallel = False  # it has answered on two open connections
        self.signs = 0  # answers that came once other connections were closed

    @property
    def is_serial(self) -> bool:
        """Whether it serves one connection at a time."""
        return self.signs >= SURE and not self.is_parallel

    @property
    def may_hold_up(self) -> bool:
        """Whether an open connection may be why a request waits."""
        return self.is_serial or (bool(self.unread) and not self.is_parallel)

    def wait(self, request: object) -> None:
        """A request on a fresh connection is still without an answer."""
        if self.used and not self.is_parallel:
            self.unread.add(request)
            for owner in self.owners:
                owner.close()

    def answer(self, connection: Kept, request: object, was_slow: bool) -> None:
        """An answer has come, later than its bot needs for one or not."""
        if connection not in self.used:
            self.is_parallel = self.is_parallel or any(it.is_quiet() for it in self.used)
            self.used.append(connection)
        self.signs += was_slow and request in self.unread


class Owner:
    """A bot, as far as its connections show it."""

    def __init__(self, server: Server) -> None:
        self.server = server
        self.idle: list[Kept] = []
        self.quickest = math.inf  # seconds of an answer
        self.is_gone = False  # the bot is called no more
        server.owners.append(self)

    def take(self) -> Kept | None:
        """An idle connection on which nothing has come, which is not idle any more."""
        while self.idle:
            connection = self.idle.pop()
            if connection.is_quiet():
                return connection
            connection.close()
        return None

    def keep(self, connection: Kept) -> None:
        """Keeps a connection that has answered, unless a request waits for it to be closed."""
        if self.is_gone or self.server.may_hold_up:
            connection.close()
        else:
            self.idle.append(connection)
            connection.rest()

    def answer(self, connection: Kept, request: object, seconds: float) -> None:
        """An answer has come in the given time."""
        was_slow = seconds > SLOWER * self.quickest + SLOWER_SECONDS
        self.server.answer(connection, request, was_slow)
        self.quickest = min(self.quickest, seconds)

    def lose(self, connection: Kept) -> None:
        """A connection is closed."""
        if connection in self.server.used:
            self.server.used.remove(connection)
        if connection in self.idle:
            self.idle.remove(connection)

    def trim(self, before: float) -> None:
        """Closes the connections that are idle since a moment before this one."""
        for connection in [it for it in self.idle if it.rested_at < before]:
            connection.close()

    def go(self) -> None:
        """Closes the idle connections, and keeps none from now on."""
        self.is_gone = True
        self.close()
        self.server.owners.remove(self)

    def close(self) -> None:
        """Closes the idle connections."""
        while self.idle:
            self.idle.pop().close()
