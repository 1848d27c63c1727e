"""TLS below a connection: small reads, and a count of all bytes that come over the wire."""

from __future__ import annotations

import asyncio
import ssl
from typing import Protocol

READ_BYTES = 2048  # at a time; one call of OpenSSL works through all records in them
MOST_OF_HANDSHAKE = 32 * 1024  # bytes that a server sends until the handshake is done
MOST_BESIDE = 4096  # bytes of records for one answer that carry none of it: tickets, new keys
BESIDE_SHARE = 8  # and one byte for as many of the answer


class Wire(Protocol):
    """What a connection does with its transport."""

    def write(self, data: bytes) -> None:
        ...

    def abort(self) -> None:
        ...

    def is_closing(self) -> bool:
        ...


class Reader(Protocol):
    """Receives the text that a server sends."""

    def data_received(self, data: bytes) -> None:
        ...

    def connection_lost(self, error: Exception | None) -> None:
        ...

    def too_much_came(self) -> None:
        ...


class Tls(asyncio.BufferedProtocol):
    """TLS between a socket and a reader, which gets no more than it asked for.

    A server may send tickets, new keys and alerts without end. They cost this program far more
    than their bytes, and no reader of answers sees them. So between two requests any byte ends the
    connection, before OpenSSL sees it, and the bytes that a server sends for an answer are limited.
    `is_done` is set by the handshake; it has the fault if that failed.
    """

    def __init__(self, reader: Reader, secure: ssl.SSLContext, host: str) -> None:
        self.reader = reader
        self.is_done: asyncio.Future[None] = asyncio.get_running_loop().create_future()
        self._buffer = bytearray(READ_BYTES)
        self._in, self._out = ssl.MemoryBIO(), ssl.MemoryBIO()
        self._tls = secure.wrap_bio(self._in, self._out, server_hostname=host)
        self._transport: asyncio.Transport | None = None
        self._fault: Exception | None = None
        self._is_asked = True
        self._came = self._given = 0  # bytes of the wire and of the text, since the last request

    def connection_made(self, transport: asyncio.BaseTransport) -> None:
        assert isinstance(transport, asyncio.Transport)
        self._transport = transport
        self._shake_hands()

    @property
    def transport(self) -> asyncio.Transport:
        """The transport below, once it is connected."""
        assert self._transport is not None
        return self._transport

    def write(self, data: bytes) -> None:
        """Sends a request, whose answer may come now."""
        self._is_asked, self._came, self._given = True, 0, 0
        if self.is_closing():
            return
        try:
            self._tls.write(data)
        except ssl.SSLError:
            self.abort()
        else:
            self._flush()

    def rest(self) -> None:
        """Nothing was asked from now on, so that nothing may come."""
        self._is_asked = False

    def abort(self) -> None:
        self.transport.abort()

    def is_closing(self) -> bool:
        return self.transport.is_closing()

    def get_buffer(self, sizehint: int) -> bytearray:
        return self._buffer

    def buffer_updated(self, nbytes: int) -> None:
        self._came += nbytes
        if not self._is_asked:
            self.abort()
            return
        self._in.write(memoryview(self._buffer)[:nbytes])
        if self.is_done.done():
            self._read()
        elif self._came > MOST_OF_HANDSHAKE:
            self._fail(ConnectionError("the handshake of TLS has too many bytes"))
        else:
            self._shake_hands()

    def eof_received(self) -> None:
        """The transport closes itself then."""

    def connection_lost(self, exc: Exception | None) -> None:
        if self.is_done.done():
            self.reader.connection_lost(exc or self._fault)
        else:
            self._fail(exc or ConnectionResetError("the connection ended within the handshake"))

    def _shake_hands(self) -> None:
        try:
            self._tls.do_handshake()
        except ssl.SSLWantReadError:
            self._flush()
        except (ssl.SSLError, ValueError) as fault:
            self._flush()  # the alert says why
            self._fail(fault)
        else:
            self._flush()
            self.is_done.set_result(None)
            self._read()  # what came behind the handshake

    def _read(self) -> None:
        """Gives the text of all complete records on."""
        parts: list[bytes] = []
        ends = False
        try:
            while part := self._tls.read(READ_BYTES):
                parts.append(part)
            ends = True
        except ssl.SSLWantReadError:
            self._flush()
        except ssl.SSLError as fault:
            ends, self._fault = True, fault
        text = b"".join(parts)
        self._given += len(text)
        if text:
            self.reader.data_received(text)
        if ends:
            self.abort()
        elif self._came > self._given + self._given // BESIDE_SHARE + MOST_BESIDE:
            self.reader.too_much_came()
            self.abort()

    def _flush(self) -> None:
        if not self.is_closing():
            self.transport.write(self._out.read())

    def _fail(self, fault: Exception) -> None:
        if not self.is_done.done():
            self.is_done.set_exception(fault)
        self.abort()


def client_context(ca: str = "", verify: bool = True) -> ssl.SSLContext:
    """How certificates are checked: by the machine's authorities, those of SSL_CERT_FILE, or those
    of a file. Without `verify` each certificate is taken.
    """
    secure = ssl.create_default_context(cafile=ca or None)
    secure.options |= ssl.OP_NO_RENEGOTIATION
    if not verify:
        secure.check_hostname, secure.verify_mode = False, ssl.CERT_NONE
    return secure
