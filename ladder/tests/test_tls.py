"""Tests of bots behind TLS that send what is no answer: the ladder's loop is not held up."""

from __future__ import annotations

import asyncio
import ssl
import subprocess
import sys
import time
from collections.abc import Iterator
from pathlib import Path

import pytest
from served import HERE, Served, free_port, serving

from arena_ladder.net.addresses import AddressBook
from arena_ladder.net.bots import Answer, BotClient
from arena_ladder.net.connections import Connections, Exchange
from arena_ladder.net.urls import request_of, target_of

TURNS = 6
BOTS = 4  # that flood at the same time
MOST_HELD = 0.05  # seconds of its own for which the loop of the ladder sees no other connection
BEAT_SECONDS = 0.005
RUNS = 3  # as many at most, see test_harm


def make_certificate(folder: Path, names: int = 1) -> tuple[Path, Path]:
    """A key and a certificate of localhost, with more names if it is to be long."""
    key, certificate = folder / "key.pem", folder / "certificate.pem"
    more = [f"DNS:{'x' * 40}{at}.test" for at in range(1, names)]
    alternatives = ",".join(["DNS:localhost", "IP:127.0.0.1", *more])
    words = "openssl req -x509 -newkey rsa:2048 -nodes -days 2 -subj /CN=localhost".split()
    words += ["-addext", f"subjectAltName={alternatives}", "-keyout", str(key)]
    subprocess.run([*words, "-out", str(certificate)], check=True, capture_output=True)
    return key, certificate


@pytest.fixture(scope="module")
def folder(tmp_path_factory: pytest.TempPathFactory) -> Path:
    return tmp_path_factory.mktemp("tls")


@pytest.fixture(scope="module")
def flooder(folder: Path) -> Iterator[Served]:
    key, certificate = make_certificate(folder)
    words: list[str | Path] = [sys.executable, HERE / "tls_floods.py", "--key", key]
    words += ["--certificate", certificate, "--log", folder / "log"]
    with serving(words, free_port()) as served:
        yield served


async def longest_beat() -> float:
    """The most processor time of this thread between two beats, until it is cancelled."""
    longest, own = 0.0, time.thread_time()
    try:
        while True:
            await asyncio.sleep(BEAT_SECONDS)
            now = time.thread_time()
            longest, own = max(longest, now - own), now
    except asyncio.CancelledError:
        return longest


async def play(urls: list[str], rest: float) -> tuple[list[Answer], float]:
    """The answers of some turns, between which nothing is asked, and the longest beat."""
    answers: list[Answer] = []
    async with BotClient(20.0) as client:  # more than a busy machine needs
        beating = asyncio.create_task(longest_beat())
        await asyncio.sleep(0)
        for _ in range(TURNS):
            answers += await client.moves([(url, b"{}") for url in urls])
            await asyncio.sleep(rest)
        beating.cancel()
        return answers, await beating


@pytest.mark.parametrize("kind", ["keys", "tickets", "early"])
def test_floods_of_tls_do_not_hold_the_loop(
    flooder: Served, folder: Path, monkeypatch: pytest.MonkeyPatch, kind: str
) -> None:
    """Each flood is cut off, between the requests and before an answer, and costs little. A run in
    which it seems to cost more is repeated, since a host may take processors away: every run
    judges every answer."""
    monkeypatch.setenv("SSL_CERT_FILE", str(folder / "certificate.pem"))
    urls = [f"https://127.0.0.1:{flooder.port}/{kind}/{at}" for at in range(BOTS)]
    longest = MOST_HELD
    for _ in range(RUNS):
        (folder / "log").write_text("")
        answers, held = asyncio.run(play(urls, 0.3))
        assert all(it.cause == "long" or (it.move and kind != "early") for it in answers)
        ends = time.monotonic() + 60
        while (folder / "log").read_text().split().count(kind) < BOTS * (TURNS - 1):
            assert time.monotonic() < ends, "a flood was not cut off"
            time.sleep(0.05)
        longest = min(longest, held)
        if longest < MOST_HELD:
            break
    assert longest < MOST_HELD


def test_quiet_bot_keeps_its_connection_behind_tls(
    flooder: Served, folder: Path, monkeypatch: pytest.MonkeyPatch
) -> None:
    monkeypatch.setenv("SSL_CERT_FILE", str(folder / "certificate.pem"))

    async def work() -> None:
        async with BotClient(2.0) as client:
            url = f"https://127.0.0.1:{flooder.port}/quiet"
            answers = [(await client.moves([(url, b"{}")]))[0] for _ in range(10)]
            assert [it.move for it in answers] == ["up"] * 10
            (owner,) = client.connections.owners.values()
            assert len(owner.idle) == len(owner.server.used) == 1

    asyncio.run(work())


@pytest.mark.parametrize("names", [1, 1500])
def test_long_handshake_is_refused(tmp_path: Path, names: int) -> None:
    """A certificate of some 70 KB is not read to its end."""
    key, certificate = make_certificate(tmp_path, names)
    context = ssl.create_default_context(ssl.Purpose.CLIENT_AUTH)
    context.load_cert_chain(certificate, key)

    async def work() -> Exchange:
        async def answer(reader: asyncio.StreamReader, writer: asyncio.StreamWriter) -> None:
            await reader.readuntil(b"\r\n\r\n")
            writer.write(b"HTTP/1.1 200 OK\r\nContent-Length: 2\r\n\r\n{}")

        server = await asyncio.start_server(answer, "127.0.0.1", 0, ssl=context)
        port = server.sockets[0].getsockname()[1]
        async with Connections(AddressBook()) as pool:
            pool.secure.load_verify_locations(certificate)
            target = target_of(f"https://localhost:{port}/")
            exchange = Exchange(target.place, request_of("GET", target, b""), 10.0)
            await pool.ask([exchange])
        server.close()
        return exchange

    exchange = asyncio.run(work())
    if names == 1:
        assert exchange.body == b"{}"
    else:
        assert exchange.cause == "refused" and "too many bytes" in exchange.why
