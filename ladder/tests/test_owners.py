"""Tests of the connections of each bot: no other bot uses them, and none holds up the others."""

from __future__ import annotations

import asyncio
import http.server
import json
import select
import socket
import threading
from collections.abc import Iterator
from contextlib import contextmanager, suppress
from pathlib import Path
from typing import Any

import pytest
from served import run_ladder, write_config

from arena_ladder.net import addresses
from arena_ladder.net.bots import Answer, BotClient
from arena_ladder.net.owners import UNREAD_SHARE

PATIENT = 4  # seconds of a timeout, more than a busy machine needs for an answer
LONG = 60.0  # seconds of one that never ends
TURNS = 150
HOSTILE, HONEST = ("hostile0", "hostile1"), ("a", "b", "c", "d", "e")
SECOND_SECONDS = 0.002  # after which the hostile bots answer once more


def moved(move: str) -> bytes:
    body = json.dumps({"move": move}).encode()
    return b"HTTP/1.1 200 OK\r\nContent-Length: %d\r\n\r\n%b" % (len(body), body)


async def serve_all(reader: asyncio.StreamReader, writer: asyncio.StreamWriter) -> None:
    """Bots of one server: all move up, but the hostile ones send a move to the left behind it."""
    try:
        while head := await reader.readuntil(b"\r\n\r\n"):
            writer.write(moved("up"))
            if b"hostile" in head:
                await asyncio.sleep(SECOND_SECONDS)
                writer.write(moved("left"))
            await writer.drain()
    except (ConnectionError, asyncio.IncompleteReadError):
        pass
    finally:
        writer.close()


def test_no_answer_is_read_as_that_of_another_bot() -> None:
    """Of bots behind one port, two send answers that nobody asked for."""

    async def play(client: BotClient, port: int, bots: tuple[str, ...]) -> list[Answer]:
        urls = [f"http://127.0.0.1:{port}/{bot}" for bot in bots]
        found = []
        for _ in range(TURNS):
            answers = await client.moves([(url, b"") for url in urls])
            found += [it for it, bot in zip(answers, bots) if bot in HONEST]
        return found

    async def work() -> list[Answer]:
        server = await asyncio.start_server(serve_all, "127.0.0.1", 0)
        port = server.sockets[0].getsockname()[1]
        async with BotClient(10.0) as client:
            games = [(HOSTILE[at % 2], *HONEST[at:], *HONEST[:at]) for at in range(4)]
            found = await asyncio.gather(*(play(client, port, bots) for bots in games))
        server.close()
        return [it for answers in found for it in answers]

    answers = asyncio.run(asyncio.wait_for(work(), 600))
    assert [it.move for it in answers] == ["up"] * (4 * TURNS * len(HONEST))


def test_answer_before_the_request_is_not_taken(monkeypatch: pytest.MonkeyPatch) -> None:
    def early(listener: socket.socket) -> None:
        with listener.accept()[0] as connection:
            connection.sendall(moved("left"))
            connection.recv(1)  # until it is closed

    async def work(port: int) -> Answer:
        async with BotClient(LONG) as client:
            connect = client.connections._connection_to

            async def slowly(*words: Any) -> Any:
                connection = await connect(*words)
                # The loop does not see what comes meanwhile.
                assert select.select([connection.socket], [], [], LONG)[0]
                return connection

            monkeypatch.setattr(client.connections, "_connection_to", slowly)
            return (await client.moves([(f"http://127.0.0.1:{port}/early", b"")]))[0]

    with socket.create_server(("127.0.0.1", 0)) as listener:
        thread = threading.Thread(target=early, args=(listener,))
        thread.start()
        answer = asyncio.run(work(listener.getsockname()[1]))
        thread.join()
    assert (answer.move, answer.cause) == (None, "cut")


class Handler(http.server.BaseHTTPRequestHandler):
    """A bot of Python's own server, which writes head and body of an answer one by one."""

    protocol_version = "HTTP/1.1"

    def do_POST(self) -> None:
        self.rfile.read(int(self.headers["Content-Length"]))
        self.send(b'{"move":"up"}')

    def send(self, body: bytes) -> None:
        self.send_response(200)
        self.send_header("Content-Length", str(len(body)))
        self.end_headers()
        self.wfile.write(body)

    def log_message(self, *_: object) -> None:
        pass


@contextmanager
def python_server(
    kind: type[http.server.HTTPServer], handler: type[Handler] = Handler
) -> Iterator[str]:
    """Serves bots within the context, whose value is the address of one."""
    with kind(("127.0.0.1", 0), handler) as server:
        thread = threading.Thread(target=server.serve_forever, daemon=True)
        thread.start()
        yield f"http://127.0.0.1:{server.server_port}/bot"
        server.shutdown()


async def two_games(url: str, rounds: int, moves: int) -> tuple[list[Answer], list[str]]:
    """The answers of a bot in two games at once, and the bots that serve one connection alone.

    The games begin each round at the same time, and ask for some moves in it, each on its own.
    """

    async def play(client: BotClient) -> list[Answer]:
        return [it for _ in range(moves) for it in await client.moves([(url, b"{}")])]

    found: list[Answer] = []
    async with BotClient(PATIENT) as client:
        for _ in range(rounds):
            one, two = await asyncio.gather(play(client), play(client))
            found += one + two
        return found, client.connections.serial_bots()


class OneWrite(Handler):
    """A bot that writes its answer in one piece."""

    wbufsize = -1


def test_answer_in_two_writes_is_not_held_up_by_its_acknowledgement() -> None:
    """Nagle's algorithm holds the body until the head is acknowledged: nearly always for 40 ms.

    On a busy machine some answers are quick nevertheless, as those in one write are."""

    async def work(urls: list[str]) -> list[list[float]]:
        times: list[list[float]] = [[], []]
        async with BotClient(PATIENT) as client:
            for _ in range(80):
                for at, url in enumerate(urls):
                    (answer,) = await client.moves([(url, b"{}")])
                    assert answer.move == "up"
                    times[at].append(answer.answered_at - answer.asked_at)
        return [sorted(it) for it in times]

    with python_server(http.server.ThreadingHTTPServer) as two_writes:
        with python_server(http.server.ThreadingHTTPServer, OneWrite) as one_write:
            held, plain = asyncio.run(work([two_writes, one_write]))
    assert held[8] < plain[8] + 0.025


def test_server_of_one_thread_is_recognised_and_misses_no_move() -> None:
    """Its second connection is not read while the first one is open. In each round the second game
    asks while the connection of the first one is: it is closed after half of the timeout."""
    with python_server(http.server.HTTPServer) as url:
        answers, serial = asyncio.run(asyncio.wait_for(two_games(url, 100, 1), 120))
    assert [it.cause for it in answers] == [None] * 200
    assert serial == [url]
    slow = 0.75 * 1000 * PATIENT * UNREAD_SHARE
    assert sum(it.latency > slow and not it.is_lagged for it in answers) <= 5


class Walker(Handler):
    """A bot that walks round a square."""

    def do_GET(self) -> None:
        self.send(b'{"apiversion":"1"}')

    def do_POST(self) -> None:
        state = json.loads(self.rfile.read(int(self.headers["Content-Length"])))
        self.send(b'{"move":"%b"}' % (b"up", b"left", b"down", b"right")[state["turn"] % 4])


@pytest.mark.parametrize("paths", [("", ""), ("/one", "/other")], ids=["one path", "two paths"])
def test_server_of_one_thread_is_named_while_it_plays(
    program: Path, tmp_path: Path, paths: tuple[str, str]
) -> None:
    """Once for each bot that it serves, with what to do; and they miss no move. The connection of
    one bot holds up the other one, also under another path."""
    rules = {"folder": str(tmp_path / "x"), "rounds": 2, "turns": 20, "timeout": 1000 * PATIENT}
    with python_server(http.server.HTTPServer, Walker) as url:
        # each turn asks it twice at the same time
        bots = [(name, url + path) for name, path in zip(("one", "other"), paths)]
        config = write_config(tmp_path / "x.toml", bots, seed=1, **rules)
        ran = run_ladder("play", config, "--program", program)
    assert ran.returncode == 0, ran.stderr
    named = [line for line in ran.stderr.splitlines() if "serves one connection at a time" in line]
    assert [line.split()[1] for line in named] == ["one", "other"]
    assert "games_a_bot = 1" in named[0]
    rows = json.loads(run_ladder("standings", tmp_path / "x", "--json").stdout)
    assert {row["bot"]: row["missed"] for row in rows} == {"one": 0, "other": 0}


def test_server_that_was_slow_once_is_not_taken_for_one_of_one_thread() -> None:
    """As on a machine that is busy for a moment, in which two games begin."""
    asked = 0

    async def serve(reader: asyncio.StreamReader, writer: asyncio.StreamWriter) -> None:
        nonlocal asked
        with suppress(ConnectionError, asyncio.IncompleteReadError):
            while await reader.readuntil(b"\r\n\r\n"):
                asked += 1
                await asyncio.sleep(0.7 if asked in (3, 4) else 0)
                writer.write(moved("up"))
        writer.close()

    async def work() -> tuple[list[Answer], list[str]]:
        server = await asyncio.start_server(serve, "127.0.0.1", 0)
        url = f"http://127.0.0.1:{server.sockets[0].getsockname()[1]}/bot"
        async with BotClient(1.0) as client:
            first = await client.moves([(url, b"")])
            rest = [await client.moves([(url, b""), (url, b"")]) for _ in range(10)]
            found = client.connections.serial_bots()
        server.close()
        return [*first, *(it for pair in rest for it in pair)], found

    answers, serial = asyncio.run(asyncio.wait_for(work(), 60))
    assert [it.cause for it in answers] == [None] * 21
    assert serial == []


@pytest.mark.parametrize(("rounds", "moves"), [(100, 1), (1, 100)], ids=["in step", "apart"])
def test_server_of_many_threads_is_not_taken_for_one(rounds: int, moves: int) -> None:
    with python_server(http.server.ThreadingHTTPServer) as url:
        answers, serial = asyncio.run(asyncio.wait_for(two_games(url, rounds, moves), 120))
    assert [it.cause for it in answers] == [None] * 200
    assert serial == []


def test_dead_address_of_a_name_is_tried_beside_a_living_one(
    monkeypatch: pytest.MonkeyPatch,
) -> None:
    """No move is missed, and the address that answers is used alone from then on."""
    monkeypatch.setattr(addresses, "addresses_of", lambda host: ["127.0.0.2", "127.0.0.1"])

    async def work(port: int) -> tuple[list[Answer], list[str]]:
        server = await asyncio.start_server(serve_all, "127.0.0.1", port)
        async with BotClient(PATIENT) as client:
            url = f"http://two.test:{port}/bot"
            answers = [(await client.moves([(url, b"")]))[0] for _ in range(3)]
            order = await client.addresses.of("two.test")
        server.close()
        return answers, order

    with socket.create_server(("127.0.0.2", 0), backlog=0) as deaf:
        port = deaf.getsockname()[1]
        filling = [socket.socket() for _ in range(4)]
        for it in filling:
            it.setblocking(False)
            it.connect_ex(("127.0.0.2", port))
        answers, order = asyncio.run(work(port))
        for it in filling:
            it.close()
    assert [it.move for it in answers] == ["up"] * 3
    assert order == ["127.0.0.1", "127.0.0.2"]
