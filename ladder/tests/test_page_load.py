"""Tests of a page whose results take long to read, and of visitors that speak no HTTP."""

from __future__ import annotations

import asyncio
import socket
import subprocess
import sys
import time
from pathlib import Path
from typing import Any

import aiohttp
import pytest
from served import HERE, first_line
from synthetic import fill_quickly

from arena_client import PROGRAM
from arena_ladder.page import page as page_module
from arena_ladder.page.feed import Feed
from arena_ladder.page.page import page
from arena_ladder.page.page_calls import Calls
from arena_ladder.page.page_link import Address

SECONDS = 1.5  # of an answer
BAD = 200  # requests


def no_results() -> dict[str, Any]:
    return {"standings": [], "seed": "", "bots": []}


def test_answer_may_take_longer_than_a_silent_connection(monkeypatch: pytest.MonkeyPatch) -> None:
    """A connection that has asked is not silent, however long its answer takes."""
    monkeypatch.setattr(page_module, "SILENT_SECONDS", 0.3)

    async def work() -> None:
        calls = Calls(Feed(no_results), Path("/nonexistent"), PROGRAM)

        async def slow(*_: object) -> list[str]:
            await asyncio.sleep(SECONDS)
            return ["done"]

        monkeypatch.setattr(calls.answers, "get", slow)
        async with page(calls, Address("127.0.0.1", 0)) as served:
            silent = socket.create_connection(("127.0.0.1", served.port))
            half = socket.create_connection(("127.0.0.1", served.port))
            half.sendall(b"GET /standings.json HTTP/1.1\r\n")
            async with aiohttp.ClientSession() as session:
                async with session.get(f"{served}standings.json") as answer:
                    assert await answer.json() == ["done"]
            for it in (silent, half):  # were closed, as long as nothing whole had come
                it.settimeout(5)
                with pytest.raises(ConnectionResetError):
                    if it.recv(1) == b"":
                        raise ConnectionResetError
                it.close()

    asyncio.run(asyncio.wait_for(work(), 60))


SERVE = """
import asyncio, sys, time
from pathlib import Path
from arena_ladder.commands import results_page
from arena_ladder.page import page
from arena_ladder.page.page_link import Address
results_of = page.results_of
def slow(folder):
    time.sleep(SECONDS)
    return results_of(folder)
page.results_of = slow
work = results_page.serve_results(Path(sys.argv[1]), Path("/bin/true"), Address("127.0.0.1", 0))
asyncio.run(work)
"""


def test_page_is_up_before_its_standings_and_bad_requests_are_a_line(tmp_path: Path) -> None:
    fill_quickly(tmp_path / "x", 20, bots=4)
    script = SERVE.replace("SECONDS", "20")
    began = time.monotonic()
    process = subprocess.Popen(
        [sys.executable, "-c", script, tmp_path / "x"],
        stdout=subprocess.PIPE,
        stderr=subprocess.PIPE,
        text=True,
        env={"PYTHONPATH": f"{HERE.parent / 'src'}", "PYTHONDONTWRITEBYTECODE": "1"},
    )
    try:
        line = first_line(process.stdout)
        port = int(line.rstrip("/\n").rpartition(":")[2])
        first = time.monotonic()
        for _ in range(BAD):
            with socket.create_connection(("127.0.0.1", port)) as bad:
                bad.sendall(b"\x16\x03\x01 no HTTP\x1b[31m\r\n\r\n")
                bad.recv(4096)
        if time.monotonic() - began < 19:
            with socket.create_connection(("127.0.0.1", port)) as good:
                good.sendall(b"GET /games.json HTTP/1.0\r\n\r\n")
                assert good.recv(4096).startswith(b"HTTP/1.0 200 OK")
    finally:
        process.terminate()
        error = process.communicate()[1]
    lines = [it for it in error.splitlines() if "bad requests" in it]
    assert 1 <= len(lines) <= 1 + (time.monotonic() - first) // 60  # one a minute
    assert lines[0].startswith("ladder: the page had 1 bad requests, the last: ")
    assert "\x1b" not in error and "Traceback" not in error.partition("bad requests")[0]
