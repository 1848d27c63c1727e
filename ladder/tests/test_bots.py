"""Tests of the client of bots: each kind of answer, and hostile bots."""

from __future__ import annotations

import asyncio
import json
import socket
import ssl
import threading
import time
from collections.abc import Awaitable, Callable, Coroutine
from pathlib import Path
from typing import Any

import pytest
from test_tls import make_certificate

from arena_ladder.net.bots import Answer, Bot, BotClient, Look, NoLook

TIMEOUT = 2.0
Serve = Callable[[asyncio.StreamReader, asyncio.StreamWriter], Awaitable[None]]


def run(work: Coroutine[Any, Any, Any]) -> Any:
    return asyncio.run(asyncio.wait_for(work, 60))


def answering(*pieces: bytes, then_waits: bool = False) -> Serve:
    """A server that writes these bytes to every request, and closes."""

    async def serve(reader: asyncio.StreamReader, writer: asyncio.StreamWriter) -> None:
        await reader.readuntil(b"\r\n\r\n")
        for piece in pieces:
            writer.write(piece)
            await writer.drain()
        if then_waits:
            await asyncio.sleep(60)
        writer.close()

    return serve


def saying(value: Any, status: str = "200 OK") -> Serve:
    body = value if isinstance(value, bytes) else json.dumps(value).encode()
    return answering(f"HTTP/1.1 {status}\r\nContent-Length: {len(body)}\r\n\r\n".encode() + body)


async def ask(serve: Serve, count: int = 1) -> list[Answer]:
    """The answers that a client gets from a bot with this server."""
    server = await asyncio.start_server(serve, "127.0.0.1", 0)
    url = f"http://127.0.0.1:{server.sockets[0].getsockname()[1]}/bot"
    async with BotClient(TIMEOUT) as client:
        found = await client.moves([(url, b"{}")] * count)
    server.close()
    return found


@pytest.mark.parametrize(
    ("serve", "cause"),
    [
        (saying({"move": "up"}, "500 Internal Server Error"), "status"),
        (saying({"move": "up"}, "204 No Content"), "status"),
        (saying(b"", "302 Found\r\nLocation: http://127.0.0.1:1/"), "status"),
        (saying(b"x" * 65_537), "long"),
        (saying(b" " * 65_000 + b'{"move": "up"}'), None),
        (saying(b" " * 65_522 + b'{"move": "up"}'), "long"),
        (saying(b"no JSON"), "json"),
        (saying(b"\xff\xfe"), "json"),
        (saying(["up"]), "json"),
        (saying(b"[" * 65_000), "json"),
        (saying(b'{"move":' + b"1" * 60_000 + b"}"), "json"),
        (saying({}), "direction"),
        (saying({"move": "UP"}), "direction"),
        (saying({"move": ["up"]}), "direction"),
        (answering(b"HTTP/1.1 200 OK\r\nContent-Length: 9\r\n\r\n{}"), "cut"),
        (answering(), "cut"),
        (answering(b"\x00\x01 garbage\r\n\r\n"), "cut"),
        (answering(b"HTTP/1.1 200 OK\r\n\r\n{", then_waits=True), "late"),
        (answering(then_waits=True), "late"),
        (answering(b"HTTP/1.1 500 E\r\nContent-Length: 9\r\n\r\n", then_waits=True), "status"),
    ],
)
def test_each_answer_has_its_cause(serve: Serve, cause: str | None) -> None:
    (answer,) = run(ask(serve))
    assert answer.cause == cause
    assert answer.move == ("up" if cause is None else None)
    if cause != "status":
        assert answer.latency == 2000 if cause == "late" else answer.latency < 2000


def test_bot_that_nobody_serves_refuses() -> None:
    async def work() -> list[Answer]:
        async with BotClient(TIMEOUT) as client:
            return await client.moves([("http://127.0.0.1:1/bot", b"{}")])

    assert run(work())[0].cause == "refused"


def test_it_is_said_why_a_certificate_is_refused_and_how_it_is_taken(tmp_path: Path) -> None:
    """A file of authorities, or no check, is of one bot alone."""
    key, certificate = make_certificate(tmp_path)
    context = ssl.create_default_context(ssl.Purpose.CLIENT_AUTH)
    context.load_cert_chain(certificate, key)

    async def work() -> None:
        server = await asyncio.start_server(
            saying({"move": "up", "apiversion": "1"}), "127.0.0.1", 0, ssl=context
        )
        url = f"https://localhost:{server.sockets[0].getsockname()[1]}"
        async with BotClient(TIMEOUT) as client:
            client.trust([Bot("b", f"{url}/b", str(certificate)), Bot("c", f"{url}/c", "", False)])
            a, b, c = await client.moves([(f"{url}/{bot}", b"{}") for bot in "abc"])
            assert (a.cause, b.move, c.move) == ("refused", "up", "up")
            assert b"self-signed certificate" in a.received.excerpt
            with pytest.raises(NoLook, match="refused: .*self-signed certificate"):
                await client.look(f"{url}/a")
            await client.look(f"{url}/b")
        server.close()

    run(work())


def test_shouts_are_cut_and_no_other_type_is_taken() -> None:
    (answer,) = run(ask(saying({"move": "left", "shout": "x" * 300})))
    assert (answer.move, answer.shout) == ("left", "x" * 256)
    (answer,) = run(ask(saying({"move": "left", "shout": {"x": 1}})))
    assert (answer.move, answer.shout) == ("left", "")


def test_shouts_are_texts_that_every_reader_takes() -> None:
    """Lone surrogates are replaced; control characters and ends of lines are dropped."""
    said = rb'{"move":"up","shout":"a\ud800b\u001b[2J\u0000\n\u0085\u2028c \ud83d\ude00 d"}'
    (answer,) = run(ask(saying(said)))
    assert (answer.move, answer.shout) == ("up", "a?b[2Jc \U0001f600 d")


def test_no_body_is_read_past_its_limit() -> None:
    """Of an endless body only what the buffers of the sockets hold is read."""
    sent = 0

    async def flood(reader: asyncio.StreamReader, writer: asyncio.StreamWriter) -> None:
        nonlocal sent
        await reader.readuntil(b"\r\n\r\n")
        writer.write(b"HTTP/1.1 200 OK\r\n\r\n")
        try:
            while True:
                writer.write(b"x" * 65_536)
                sent += 65_536
                await writer.drain()
        except ConnectionError:
            pass

    assert run(ask(flood))[0].cause == "long"
    assert sent < 32 * 1024 * 1024


def test_headers_without_end_are_cut_off() -> None:
    async def flood(reader: asyncio.StreamReader, writer: asyncio.StreamWriter) -> None:
        await reader.readuntil(b"\r\n\r\n")
        writer.write(b"HTTP/1.1 200 OK\r\n")
        try:
            while True:
                writer.write(b"X-More: yes\r\n" * 1000)
                await writer.drain()
        except ConnectionError:
            pass

    assert run(ask(flood))[0].cause == "long"


def test_compressed_answers_are_not_unpacked() -> None:
    """A compressed answer is no JSON; the client asks for none."""
    packed = b"\x1f\x8b\x08\x00\x00\x00\x00\x00\x00\x03\xabV\xca\xcd/KU\xb2R*-P\xaa\x05\x00"
    head = f"HTTP/1.1 200 OK\r\nContent-Encoding: gzip\r\nContent-Length: {len(packed)}\r\n\r\n"
    assert run(ask(answering(head.encode() + packed)))[0].cause == "json"


def test_all_are_asked_at_once() -> None:
    async def slow(reader: asyncio.StreamReader, writer: asyncio.StreamWriter) -> None:
        await asyncio.sleep(TIMEOUT / 2)
        await saying({"move": "down"})(reader, writer)

    began = time.monotonic()
    assert [answer.move for answer in run(ask(slow, 40))] == ["down"] * 40
    assert time.monotonic() - began < 10 * TIMEOUT


def test_answer_that_came_in_time_is_taken_however_busy_the_ladder_is() -> None:
    """If this program is too busy to read answers within the timeout, none is late."""
    asked_for, is_blocked, has_answered = (threading.Event() for _ in range(3))
    listener = socket.create_server(("127.0.0.1", 0))

    def serve() -> None:
        connection, _ = listener.accept()
        with connection:
            connection.recv(4096)
            asked_for.set()
            is_blocked.wait()
            connection.sendall(b'HTTP/1.1 200 OK\r\nContent-Length: 13\r\n\r\n{"move":"up"}')
            has_answered.set()

    async def work() -> Answer:
        url = f"http://127.0.0.1:{listener.getsockname()[1]}/bot"
        async with BotClient(0.5) as client:
            asking = asyncio.create_task(client.moves([(url, b"{}")]))
            while not asked_for.is_set():
                await asyncio.sleep(0.001)
            is_blocked.set()  # the event loop, from here on
            has_answered.wait()
            time.sleep(0.8)
            return (await asking)[0]

    thread = threading.Thread(target=serve)
    thread.start()
    assert run(work()).move == "up"
    thread.join()
    listener.close()


def test_looks_are_taken_as_far_as_they_are_looks() -> None:
    async def look(value: Any) -> Look:
        server = await asyncio.start_server(saying(value), "127.0.0.1", 0)
        async with BotClient(TIMEOUT) as client:
            return await client.look(f"http://127.0.0.1:{server.sockets[0].getsockname()[1]}")

    fit = {"apiversion": "1", "color": "#00ff7F", "head": "trans-rights", "tail": "bolt"}
    assert run(look(fit)) == Look("#00ff7F", "trans-rights", "bolt")
    harmful = {"apiversion": "1", "color": "red; x", "head": "../../etc", "tail": 7}
    assert run(look(harmful)) == Look()
    with pytest.raises(NoLook, match="json"):
        run(look("no object"))
    with pytest.raises(NoLook, match="apiversion"):
        run(look({"color": "#00ff7F"}))
