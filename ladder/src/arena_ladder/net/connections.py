"""HTTP requests over connections that are kept; each request goes out in one write."""

from __future__ import annotations

import asyncio
import errno
import select
import socket
import ssl
from collections.abc import Callable, Collection, Sequence

from arena_ladder.net.addresses import AddressBook
from arena_ladder.net.misses import BadAnswer, Miss
from arena_ladder.net.owners import UNREAD_SHARE, Owner, Server
from arena_ladder.net.racing import Race
from arena_ladder.net.response import NOTHING, Response
from arena_ladder.net.tls import Tls, Wire, client_context
from arena_ladder.net.urls import Place

IDLE_SECONDS = 60.0  # of a connection, after which it is closed
TRIM_SECONDS = 15.0  # from one look for such connections to the next
OWN_FAULTS = (  # of this machine, so that no bot is blamed
    *(errno.EMFILE, errno.ENFILE, errno.ENOBUFS, errno.ENOMEM, errno.EADDRNOTAVAIL),
)


NOBODY = Owner(Server())


class Exchange:
    """A request, and what came of it: a body, or the cause why there is none.

    `bot` is the address of the bot, to which the connections belong that it may use. Its time
    begins when its bytes are given to a connected socket, and ends when the last byte of the answer
    is read; a connection may take as long again. `asked_at` and `ended_at` are of the clock of the
    loop. `is_timed_out` says that the time was over, `why` why there was no connection.
    """

    def __init__(
        self, place: Place, request: bytes, seconds: float, id: str = "", bot: str = ""
    ) -> None:
        self.place = place
        self.bot = bot or str(place)
        self.request = request
        self.seconds = seconds
        self.id = id
        self.loop = asyncio.get_running_loop()
        self.began_at = self.asked_at = self.ended_at = self.loop.time()
        self.timer = self.loop.call_later(seconds, self.time_out, Miss.REFUSED)
        self.looks: asyncio.TimerHandle | None = None
        self.is_reused = self.is_sent = self.is_timed_out = False
        self.owner = NOBODY  # of its connections, once it has begun
        self.connection: Connection | None = None
        self.connecting: asyncio.Task[None] | None = None
        self.cause: Miss | None = None
        self.fault: Exception | None = None
        self.why = ""
        self.body = b""
        self.received = NOTHING
        self.done: asyncio.Future[None] = self.loop.create_future()

    def begin(self) -> None:
        """Starts the clock, unless the request was sent on another connection before."""
        if not self.is_sent:
            self.is_sent = True
            self.timer.cancel()
            self.asked_at = self.loop.time()
            self.timer = self.loop.call_later(self.seconds, self.time_out, Miss.LATE)

    def end(self, cause: Miss | None, body: bytes = b"") -> None:
        """Ends with a body or a cause, unless it has ended."""
        if not self.done.done():
            self.timer.cancel()
            if self.looks is not None:
                self.looks.cancel()
            self.ended_at = self.loop.time()
            self.cause, self.body = cause, body
            if self.connection is not None:
                self.received = self.connection.response.received(is_bad=cause is not None)
            self.done.set_result(None)

    def time_out(self, cause: Miss) -> None:
        self.is_timed_out = True
        is_refusal = self.connection is not None and self.connection.response.is_refusal
        self.end(Miss.STATUS if is_refusal else cause)
        self.abandon()

    def abandon(self) -> None:
        """Ends without an answer, if it has not ended, and closes what still works for it."""
        self.end(Miss.LATE)
        if self.connecting is not None:
            self.connecting.cancel()
        if self.connection is not None and self.connection.exchange is self:
            self.connection.exchange = None
            self.connection.close()


class Connection(asyncio.Protocol):
    """A connection to a bot, with at most one request at a time."""

    def __init__(self, pool: Connections, owner: Owner) -> None:
        self.pool = pool
        self.owner = owner
        self.rested_at = 0.0
        self.exchange: Exchange | None = None
        self.response = Response()
        self.tls: Tls | None = None
        self._transport: asyncio.Transport | None = None

    def connection_made(self, transport: asyncio.BaseTransport) -> None:
        assert isinstance(transport, asyncio.Transport)
        self._transport = transport

    @property
    def wire(self) -> Wire:
        """What it writes to, once it is connected."""
        if self.tls is not None:
            return self.tls
        assert self._transport is not None
        return self._transport

    @property
    def socket(self) -> socket.socket:
        transport = self.wire if self.tls is None else self.tls.transport
        assert isinstance(transport, asyncio.Transport)
        found: socket.socket = transport.get_extra_info("socket")
        return found

    @property
    def is_open(self) -> bool:
        return not self.wire.is_closing()

    def is_quiet(self) -> bool:
        """Whether it is open, and nothing has come on it that was not read."""
        if not self.is_open:
            return False
        poll = select.poll()
        poll.register(self.socket.fileno(), select.POLLIN)
        return not poll.poll(0)

    def close(self) -> None:
        self.owner.lose(self)
        self.wire.abort()

    def rest(self) -> None:
        """Waits for the next request."""
        self.rested_at = asyncio.get_running_loop().time()
        self.pool.trim_later()
        if self.tls is not None:
            self.tls.rest()

    def send(self, exchange: Exchange) -> None:
        self.exchange, exchange.connection = exchange, self
        self.response = Response()
        exchange.begin()
        self.wire.write(exchange.request)
        self.acknowledge()

    def acknowledge(self) -> None:
        """Acknowledges at once what comes next: some servers send the rest of an answer after that.

        Linux takes this back by itself.
        """
        if self.is_open:
            self.socket.setsockopt(socket.IPPROTO_TCP, socket.TCP_QUICKACK, 1)

    def data_received(self, data: bytes) -> None:
        if self.exchange is None:
            self.close()  # it was not asked
            return
        try:
            if self.response.feed(data):
                self._finish(None)
            else:
                self.acknowledge()
        except BadAnswer as bad:
            self._finish(bad.cause)

    def too_much_came(self) -> None:
        """More came of TLS than belongs to an answer."""
        if self.exchange is not None:
            self._finish(Miss.LONG)

    def connection_lost(self, error: Exception | None) -> None:
        self.owner.lose(self)
        exchange = self.exchange
        if exchange is None:
            return
        if exchange.is_reused and self.response.seen == 0:
            self.exchange, exchange.connection = None, None
            self.pool.start_fresh(exchange)
            return
        try:
            self.response.end()
        except BadAnswer as bad:
            self._finish(bad.cause)
        else:
            self._finish(None if error is None else Miss.CUT)

    def _finish(self, cause: Miss | None) -> None:
        """Ends the request, and closes the connection if it can't be used again."""
        exchange, self.exchange = self.exchange, None
        assert exchange is not None
        exchange.end(cause, self.response.body)
        self.owner.answer(self, exchange, exchange.ended_at - exchange.began_at)
        self.owner.server.unread.discard(exchange)
        if cause is None and self.response.keeps and self.is_open:
            self.owner.keep(self)
        else:
            self.close()


class Connections:
    """All connections of a run. It is an `async with` context, which closes them at its end.

    `permits` says whether a bot, of a URL, may be called at an address.
    """

    def __init__(self, addresses: AddressBook) -> None:
        self.addresses = addresses
        self.owners: dict[str, Owner] = {}  # by the address of the bot
        self.servers: dict[Place, Server] = {}
        self.secure = client_context()
        self.trusted: dict[str, ssl.SSLContext] = {}  # by the address of a bot with its own
        self.permits: Callable[[str, str], bool] = lambda bot, address: True
        self._trimming: asyncio.TimerHandle | None = None

    async def __aenter__(self) -> Connections:
        return self

    async def __aexit__(self, *_: object) -> None:
        self.close()

    def close(self) -> None:
        """Closes the idle connections, and stops looking up names."""
        for owner in self.owners.values():
            owner.go()
        if self._trimming is not None:
            self._trimming.cancel()
        self.addresses.close()

    def keep_only(self, bots: Collection[str]) -> None:
        """Forgets all bots but these, and closes the connections of the others."""
        for bot in [it for it in self.owners if it not in bots]:
            self.owners.pop(bot).go()
        self.servers = {place: it for place, it in self.servers.items() if it.owners}

    def trim_later(self) -> None:
        """Looks after a while for connections that are idle for long, unless it will."""
        if self._trimming is None:
            loop = asyncio.get_running_loop()
            self._trimming = loop.call_later(TRIM_SECONDS, self._trim)

    def _trim(self) -> None:
        """Closes the connections that have been idle for long, after a peak."""
        self._trimming = None
        before = asyncio.get_running_loop().time() - IDLE_SECONDS
        for owner in self.owners.values():
            owner.trim(before)
        if any(owner.idle for owner in self.owners.values()):
            self.trim_later()

    def serial_bots(self) -> list[str]:
        """The addresses of the bots whose servers serve one connection at a time."""
        return [bot for bot, owner in self.owners.items() if owner.server.is_serial]

    def _owner_of(self, exchange: Exchange) -> Owner:
        """The bot that a request is for."""
        if exchange.bot not in self.owners:
            server = self.servers.setdefault(exchange.place, Server())
            self.owners[exchange.bot] = Owner(server)
        return self.owners[exchange.bot]

    async def ask(self, exchanges: Sequence[Exchange]) -> None:
        """Sends requests, all at once, and waits until each has its answer or a cause.

        Raises OSError if this machine has no descriptor or port left for a connection.
        """
        try:
            for exchange in exchanges:
                self._start(exchange)
            for exchange in exchanges:
                await exchange.done
                if exchange.fault is not None:
                    raise exchange.fault
        finally:
            for exchange in exchanges:
                exchange.abandon()
                exchange.owner.server.unread.discard(exchange)

    def _start(self, exchange: Exchange) -> None:
        """Sends a request on an idle connection, or makes one for it."""
        exchange.owner = self._owner_of(exchange)
        connection = exchange.owner.take()
        if isinstance(connection, Connection):
            exchange.is_reused = True
            connection.send(exchange)
        else:
            self.start_fresh(exchange)

    def start_fresh(self, exchange: Exchange) -> None:
        """Sends a request on a new connection."""
        exchange.is_reused = False
        exchange.connecting = exchange.loop.create_task(self._connect(exchange))
        seconds = exchange.seconds * UNREAD_SHARE
        exchange.looks = exchange.loop.call_later(seconds, self._look_at, exchange)

    def _look_at(self, exchange: Exchange) -> None:
        """Closes idle connections of a server that may not have read a request because of them."""
        connection = exchange.connection
        if connection is None or connection.response.seen == 0:
            exchange.owner.server.wait(exchange)

    async def _connect(self, exchange: Exchange) -> None:
        """Makes a connection and sends a request on it."""
        try:
            connection = await self._connection(exchange)
        except Exception as fault:
            is_own = not isinstance(fault, OSError) or fault.errno in OWN_FAULTS
            exchange.fault, exchange.why = fault if is_own else None, str(fault)
            exchange.end(Miss.REFUSED)
            return
        if exchange.done.done():
            connection.close()
        elif connection.tls is None and not connection.is_quiet():
            connection.close()  # it speaks before it is asked
            exchange.end(Miss.CUT)
        else:
            connection.send(exchange)

    async def _connection(self, exchange: Exchange) -> Connection:
        """Connects to one of the addresses of a request's place."""
        place = exchange.place

        async def connect(address: str) -> Connection:
            return await self._connection_to(address, exchange)

        race = Race(connect, Connection.close)
        found = await self.addresses.of(place.host)
        fit = [address for address in found if self.permits(exchange.bot, address)]
        if not fit:
            raise ConnectionError(f"{place.host} is in no network that is allowed")
        try:
            address, connection = await race.run(fit)
            self.addresses.prefer(place.host, address)
            return connection
        finally:
            for address in race.failed:
                self.addresses.defer(place.host, address)

    async def _connection_to(self, address: str, exchange: Exchange) -> Connection:
        loop, connection = asyncio.get_running_loop(), Connection(self, exchange.owner)
        place, secure = exchange.place, self.trusted.get(exchange.bot, self.secure)
        if not place.is_secure:
            await loop.create_connection(lambda: connection, address, place.port)
            return connection
        try:
            tls = Tls(connection, secure, place.host)
        except ValueError as fault:
            raise ConnectionError(f"no name for TLS: {fault}") from None
        connection.tls = tls
        transport, _ = await loop.create_connection(lambda: tls, address, place.port)
        try:
            await tls.is_done
        except BaseException:
            transport.abort()
            raise
        return connection
