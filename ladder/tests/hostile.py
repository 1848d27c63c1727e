"""Bots that try to harm the ladder or their opponents, served on the loopback.

    hostile.py --port PORT

The path of a bot is the name of its kind; KINDS has them all. Each answers GET / as a bot does, and
/move, mostly also /start and /end, in its own way. What it sends for one answer is bounded.
"""

from __future__ import annotations

import argparse
import asyncio
import json
import logging
import socket
import struct
import zlib
from collections.abc import Awaitable, Callable
from typing import Any

Writer = asyncio.StreamWriter
Kind = Callable[[Writer, dict[str, Any]], Awaitable[None]]
OK = b"HTTP/1.1 200 OK\r\n"
CHUNKED = OK + b"Transfer-Encoding: chunked\r\n\r\n"
LOOK = b'{"apiversion":"1","color":"<script>","head":"../../etc"}'
MOST_SENT = 8 * 1024 * 1024  # bytes of one answer
LATE_SECONDS = 3.0
KINDS: dict[str, Kind] = {}


class Closes(Exception):
    """The bot closes the connection."""


def kind(name: str) -> Callable[[Kind], Kind]:
    def keep(it: Kind) -> Kind:
        KINDS[name] = it
        return it

    return keep


def with_length(body: bytes, *fields: bytes, first: bytes = OK) -> bytes:
    return (
        first
        + b"".join(it + b"\r\n" for it in (*fields, b"Content-Length: %d" % len(body), b""))
        + body
    )


GOOD = with_length(b'{"move":"up"}')


async def flood(writer: Writer, head: bytes, piece: bytes, most: int = MOST_SENT) -> None:
    """Sends a head, and then a piece again and again, until the connection is closed."""
    writer.write(head)
    block = piece * max(1, 16_384 // len(piece))
    for _ in range(most // len(block)):
        writer.write(block)
        await writer.drain()
    raise Closes


def sends(name: str, *pieces: bytes, closes: bool = False) -> None:
    """A kind that sends some bytes, and then perhaps closes the connection."""

    @kind(name)
    async def send(writer: Writer, _: dict[str, Any]) -> None:
        for piece in pieces:
            writer.write(piece)
            await writer.drain()
        if closes:
            raise Closes


def floods(name: str, head: bytes, piece: bytes) -> None:
    @kind(name)
    async def send(writer: Writer, _: dict[str, Any]) -> None:
        await flood(writer, head, piece)


def says(name: str, text: bytes) -> None:
    """A kind whose answers are well-formed HTTP with this body."""
    sends(name, with_length(text))


COOKIE = b"Set-Cookie: a" + b"=" * 4000 + b"." * 3900 + b'="'
floods("chunks of one byte", CHUNKED, b"1\r\n \r\n")
floods("endless continue", b"", b"HTTP/1.1 100 C\r\n\r\n")
floods("endless headers", OK, b"X-More: yes\r\n")
floods("short headers", OK, b"a:\r\n")
floods("endless trailers", CHUNKED + b"2\r\n{}\r\n0\r\n", b"a: b\r\n")
floods("long header", OK + b"X: ", b"x" * 1024)
floods("long reason", b"HTTP/1.1 200 ", b"x" * 1024)
floods("returns", b"HTTP/1.1 200 OK", b"\r")
floods("empty lines", b"", b"\r\n")
floods("endless body", OK + b"\r\n", b" " * 1024)
floods("announced gigabyte", OK + b"Content-Length: 1000000000\r\n\r\n", b" " * 1024)
floods("long chunk", CHUNKED + b"3b9aca00\r\n", b" " * 1024)
floods("long extension", CHUNKED + b"1;", b"x" * 1024)
floods("answers behind the answer", GOOD, GOOD)
floods("no HTTP", b"\x16\x03\x01", b"\x00\xff")
sends("cookie", with_length(b'{"move":"up"}', COOKIE))
sends("many cookies", with_length(b'{"move":"up"}', *[COOKIE] * 100))
sends("30,000 headers", with_length(b'{"move":"up"}', *[b"a%d: b" % at for at in range(30_000)]))
sends("1,000 answers behind", GOOD * 1000)
sends("two answers", GOOD, GOOD.replace(b"up", b"down"))
sends("cut", GOOD[:-3], closes=True)
sends("version 1.0", GOOD.replace(b"1.1", b"1.0"), closes=True)
sends("version 1.0 left open", b"HTTP/1.0 200 OK\r\n\r\n" + b'{"move":"up"}')
sends("odd version", GOOD.replace(b"1.1", b"9.9"))
sends("upgrade", b"HTTP/1.1 101 Switching Protocols\r\nUpgrade: x\r\n\r\n")
sends("early hints", b"HTTP/1.1 103 Early Hints\r\nLink: <http://127.0.0.1:1/>\r\n\r\n" + GOOD)
sends("two lengths", GOOD.replace(b"Content-Length", b"Content-Length: 5\r\nContent-Length"))
sends(
    "length and chunks",
    CHUNKED[:-2] + b"Content-Length: 5\r\n\r\nd\r\n" + GOOD[-13:] + b"\r\n0\r\n\r\n",
)
sends("huge size", CHUNKED + b"f" * 200 + b"\r\n")
sends("nothing", closes=True)
sends("zeros", b"\x00" * 60_000)
sends("redirect", with_length(b"", b"Location: http://127.0.0.1:1/", first=b"HTTP/1.1 307 R\r\n"))
sends("status", with_length(b'{"move":"up"}', first=b"HTTP/1.1 503 No\r\n"))
sends("gzip", with_length(zlib.compress(b" " * 50_000_000)[:60_000], b"Content-Encoding: deflate"))
says("bad UTF-8", b'{"move":"up\xff"}')
says("UTF-16", '{"move":"up"}'.encode("utf-16"))
says("deep", b"[" * 32_000)
says("deep objects", b'{"a":' * 12_000)
says("no number", b'{"move":NaN,"x":[NaN,Infinity,1e999999]}')
says("two keys", b'{"move":"up","move":["up"]}')
says("full width", '{"move":"ｕｐ"}'.encode())
says("dear JSON", b'{"move":"up","x":[' + b"1e308," * 10_000 + b"0]}")
says("many keys", b'{"move":"up"' + b"".join(b',"%x":{}' % at for at in range(6_000)) + b"}")
says("long number", b'{"move":"up","x":' + b"9" * 60_000 + b"}")
says("lone surrogate", b'{"move":"up","shout":"' + b"\\ud800" * 40 + b'"}')
says("controls", b'{"move":"up","shout":"\\u001b[2J\\u0000\\n\\r\\u2028"}')
says("long shout", b'{"move":"up","shout":"' + b"\\u0001x" * 8_000 + b'"}')


@kind("hanging")
async def hangs(*_: object) -> None:
    await asyncio.sleep(LATE_SECONDS)


@kind("slow head")
async def drips_head(writer: Writer, state: dict[str, Any]) -> None:
    for byte in GOOD:
        writer.write(bytes([byte]))
        await asyncio.sleep(0.03)


@kind("slow body")
async def drips_body(writer: Writer, _: dict[str, Any]) -> None:
    writer.write(OK + b"Content-Length: 200\r\n\r\n")
    for at in range(100):
        writer.write(b" ")
        await asyncio.sleep(0.02)
    raise Closes


@kind("bytes one by one")
async def pours(writer: Writer, _: dict[str, Any]) -> None:
    writer.write(OK + b"\r\n")
    for at in range(20_000):
        writer.write(b" ")
        await writer.drain()
        await asyncio.sleep(0)
    raise Closes


@kind("at the limit")
async def waits(writer: Writer, state: dict[str, Any]) -> None:
    await asyncio.sleep(state["game"]["timeout"] / 1000)
    writer.write(GOOD)


@kind("flapping")
async def flaps(writer: Writer, state: dict[str, Any]) -> None:
    if state["turn"] % 2:
        raise Closes
    writer.write(GOOD)


@kind("reset")
async def resets(writer: Writer, _: dict[str, Any]) -> None:
    linger = struct.pack("ii", 1, 0)
    writer.get_extra_info("socket").setsockopt(socket.SOL_SOCKET, socket.SO_LINGER, linger)
    writer.transport.abort()
    raise Closes


@kind("reset when late")
async def resets_late(writer: Writer, state: dict[str, Any]) -> None:
    await asyncio.sleep(0.9 * state["game"]["timeout"] / 1000)
    await resets(writer, state)


@kind("half closed")
async def half_closes(writer: Writer, _: dict[str, Any]) -> None:
    writer.write(GOOD)
    writer.write_eof()


@kind("answers to nothing")
async def talks_on(writer: Writer, _: dict[str, Any]) -> None:
    writer.write(GOOD)
    await asyncio.sleep(0.01)
    writer.write(GOOD)


@kind("flood at the start")
async def floods_start(writer: Writer, state: dict[str, Any]) -> None:
    if state["turn"] == 0:
        await flood(writer, OK, b"X-More: yes\r\n")
    writer.write(GOOD)


async def answer(head: str, reader: asyncio.StreamReader, writer: Writer) -> None:
    """Answers one request."""
    fields = [it.partition(":") for it in head.lower().split("\r\n")]
    length = next((int(value) for name, _, value in fields if name == "content-length"), 0)
    body = await reader.readexactly(length)
    name = head.split(" ")[1].split("/")[1].replace("%20", " ")
    if head.startswith("GET "):
        writer.write(with_length(LOOK))
    else:
        await KINDS[name](writer, json.loads(body))
    await writer.drain()


async def serve(reader: asyncio.StreamReader, writer: Writer) -> None:
    """Answers the requests of a connection, one after the other."""
    try:
        while head := await reader.readuntil(b"\r\n\r\n"):
            await answer(head.decode(), reader, writer)
    except (ConnectionError, OSError, RuntimeError, Closes, asyncio.IncompleteReadError):
        pass
    finally:
        writer.close()


async def main() -> None:
    logging.disable()  # of sockets that the ladder has closed
    words = argparse.ArgumentParser(description=__doc__)
    words.add_argument("--port", type=int, required=True)
    server = await asyncio.start_server(serve, "127.0.0.1", words.parse_args().port, backlog=512)
    await server.serve_forever()


if __name__ == "__main__":
    asyncio.run(main())
