"""Tests of names: each is resolved in a thread of its own, for which nothing waits."""

from __future__ import annotations

import asyncio
import socket
import subprocess
import sys
import threading
import time
from typing import Any

import pytest

from arena_ladder.net import addresses
from arena_ladder.net.addresses import AddressBook

KNOWN = {"one.test": ["10.0.0.1", "10.0.0.2"], "two.test": ["10.0.0.3"]}


class NameServer:
    """Resolves KNOWN; names that begin with `silent` take until `ends` is set."""

    def __init__(self) -> None:
        self.asked: list[str] = []
        self.ends = threading.Event()

    def __call__(self, host: str, *_: object, **__: object) -> list[Any]:
        self.asked.append(host)
        if host.startswith("silent"):
            self.ends.wait(30)
        if host not in KNOWN:
            raise socket.gaierror(socket.EAI_NONAME, "unknown")
        return [(0, 0, 0, "", (address, 0)) for address in KNOWN[host]]


@pytest.fixture
def server(monkeypatch: pytest.MonkeyPatch) -> Any:
    found = NameServer()
    monkeypatch.setattr(socket, "getaddrinfo", found)
    yield found
    found.ends.set()


def test_silent_names_hold_up_no_other(server: NameServer) -> None:
    async def work() -> None:
        book = AddressBook()
        book.begin([f"silent{at}.test" for at in range(50)])
        book.begin(["one.test", "127.0.0.1", "::1"])
        assert await book.of("one.test") == ["10.0.0.1", "10.0.0.2"]
        assert await book.of("::1") == ["::1"]
        with pytest.raises(TimeoutError):
            async with asyncio.timeout(0.1):
                await book.of("silent0.test")
        book.close()

    began = time.monotonic()
    asyncio.run(work())
    assert time.monotonic() - began < 10


def test_results_and_failures_are_kept(server: NameServer, monkeypatch: pytest.MonkeyPatch) -> None:
    """A name is asked again in the background only; a failure leaves the old addresses."""
    monkeypatch.setattr(addresses, "REFRESH_SECONDS", 0.2)
    monkeypatch.setattr(addresses, "RETRY_SECONDS", 0.2)
    monkeypatch.setitem(KNOWN, "two.test", ["10.0.0.3", "10.0.0.4"])

    async def work() -> None:
        book = AddressBook()
        for _ in range(5):
            with pytest.raises(OSError, match="the name none.test has no address"):
                await book.of("none.test")
            assert (await book.of("two.test"))[0] == "10.0.0.3"
        assert server.asked.count("none.test") == server.asked.count("two.test") == 1
        book.prefer("two.test", "10.0.0.4")
        await asked_again(server, "two.test", 2)
        assert await book.of("two.test") == ["10.0.0.4", "10.0.0.3"]
        monkeypatch.delitem(KNOWN, "two.test")
        await asked_again(server, "two.test", 2)
        assert await book.of("two.test") == ["10.0.0.4", "10.0.0.3"]
        monkeypatch.setitem(KNOWN, "none.test", ["10.0.0.5"])
        await asked_again(server, "none.test", 2)
        assert await book.of("none.test") == ["10.0.0.5"]
        book.close()

    asyncio.run(work())


async def asked_again(server: NameServer, host: str, times: int) -> None:
    """Waits until a name was asked some times more."""
    wanted = server.asked.count(host) + times
    async with asyncio.timeout(20):
        while server.asked.count(host) < wanted:
            await asyncio.sleep(0.01)


def test_end_of_the_program_waits_for_no_name() -> None:
    code = (
        "import asyncio, socket, time\n"
        "from arena_ladder.net.addresses import AddressBook\n"
        "socket.getaddrinfo = lambda *_, **__: time.sleep(600)\n"
        "async def work():\n"
        "    AddressBook().begin(['a.test', 'b.test'])\n"
        "asyncio.run(work())\n"
    )
    began = time.monotonic()
    subprocess.run([sys.executable, "-c", code], check=True, timeout=60)
    assert time.monotonic() - began < 30
