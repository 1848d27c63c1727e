"""Tests of what a long run keeps: nothing of bots that left, and little of those that stay."""

from __future__ import annotations

import asyncio
import json
import os
import subprocess
import sys
import threading
import time
from collections.abc import Callable
from concurrent.futures import ThreadPoolExecutor
from contextlib import closing
from pathlib import Path
from typing import Any

import pytest
from served import board_with
from test_connections import GOOD, Server, ask, run, served

from arena_client import BLOCKS_OF_GAME, PROGRAM
from arena_ladder.game.config import config_of
from arena_ladder.game.game import RunContext
from arena_ladder.game.game_files import make_folders
from arena_ladder.game.outcome import Finish, Outcome, SeatResult, Tally
from arena_ladder.game.pairing import Fixture
from arena_ladder.game.rated import Change
from arena_ladder.game.watch import Watches
from arena_ladder.net import addresses, connections
from arena_ladder.net.addresses import AddressBook
from arena_ladder.net.bots import Answer, BotClient
from arena_ladder.net.connections import Connections, Exchange
from arena_ladder.net.urls import request_of, target_of
from arena_ladder.results.kept_answers import KeptAnswers
from arena_ladder.results.roster import add_config_bots, mark, replace
from arena_ladder.results.store import Store
from arena_ladder.results.transcripts import Transcripts
from arena_ladder.run.endless import Endless
from arena_ladder.run.keeper import HostKeeper
from arena_ladder.run.play import Run
from arena_ladder.run.progress import MOST_MS, Counts
from arena_ladder.run.times import Times

SECONDS = 60.0  # more than a busy machine needs
REPLACES = 12


async def until(holds: Callable[[], bool]) -> None:
    async with asyncio.timeout(SECONDS):
        while not holds():
            await asyncio.sleep(0.01)


def descriptors() -> int:
    return len(os.listdir("/proc/self/fd"))


def test_connections_that_are_idle_for_long_are_closed(monkeypatch: pytest.MonkeyPatch) -> None:
    """A bot that was asked four times at once keeps one connection while it is asked alone."""
    monkeypatch.setattr(connections, "IDLE_SECONDS", 3.0)
    monkeypatch.setattr(connections, "TRIM_SECONDS", 0.05)

    async def work() -> None:
        server = Server(GOOD)
        async with served(server.serve) as place, Connections(AddressBook()) as pool:
            target = target_of(f"http://{place}/")
            request = request_of("GET", target, b"")
            await pool.ask([Exchange(target.place, request, SECONDS) for _ in range(4)])
            assert server.connections == 4
            (owner,) = pool.owners.values()

            async def work_alone() -> None:
                while len(owner.idle) > 1:
                    await ask(pool, f"http://{place}/")
                    await asyncio.sleep(0.05)

            await asyncio.wait_for(work_alone(), SECONDS)
            assert server.connections == 4 and len(owner.server.used) == 1
            await until(lambda: not owner.server.used)

    run(work())


def test_connections_of_a_bot_that_left_are_closed() -> None:
    """An idle one at once, and one that works after its answer."""

    async def work() -> None:
        answering = asyncio.Event()
        ended: list[bool] = []
        asked_on: list[asyncio.StreamWriter] = []

        async def slow(reader: asyncio.StreamReader, writer: asyncio.StreamWriter) -> None:
            while await reader.readline():
                await reader.readuntil(b"\r\n\r\n")
                asked_on.append(writer)
                await answering.wait()
                writer.write(GOOD)
            ended.append(True)
            writer.close()

        async with served(slow) as place, Connections(AddressBook()) as pool:
            answering.set()
            await ask(pool, f"http://{place}/")
            answering.clear()
            asked = [asyncio.create_task(ask(pool, f"http://{place}/")) for _ in range(2)]
            while len(asked_on) < 3:
                await asyncio.sleep(0.01)
            pool.keep_only(set())
            answering.set()
            assert [(await it).body for it in asked] == [b"{}", b"{}"]
            await until(lambda: len(ended) == 2)
            assert not pool.owners and not pool.servers

    run(work())


def test_names_of_bots_that_left_are_resolved_no_more(monkeypatch: pytest.MonkeyPatch) -> None:
    monkeypatch.setattr(addresses, "addresses_of", lambda host: ["127.0.0.1"])

    async def work() -> None:
        book, before = AddressBook(), threading.active_count()
        for at in range(8):
            assert await book.of(f"bot{at}.example") == ["127.0.0.1"]
        assert threading.active_count() == before + 8
        book.keep_only({"bot3.example"})
        assert list(book.names) == ["bot3.example"]
        await until(lambda: threading.active_count() == before + 1)
        assert await book.of("bot4.example") == ["127.0.0.1"]
        book.close()
        await until(lambda: threading.active_count() == before)

    run(work())


def ladder_config(folder: Path, urls: dict[str, str]) -> Any:
    bots = [{"name": name, "url": url} for name, url in urls.items()]
    return config_of({"folder": str(folder), "pairing": "rating", "seed": 3, "bot": bots}, "test")


def finished(name: str, *bots: str) -> tuple[Outcome, dict[str, Tally]]:
    finishes = tuple(Finish(bot, SeatResult.DRAW, None, None, None, 3, 40) for bot in bots)
    return Outcome(name, 1, 40, 43, "0" * 64, finishes), {bot: Tally() for bot in bots}


def test_bot_that_left_is_gone_once_its_last_game_has_ended(tmp_path: Path) -> None:
    """Also where the ladder was ended between."""
    config = ladder_config(tmp_path, {f"b{at}": f"http://127.0.0.1:9/{at}" for at in range(3)})
    heard: list[tuple[list[str], set[str]]] = []

    def on_changes(changes: list[Change], gone: set[str]) -> None:
        heard.append(([it.bot for it in changes], gone))

    async def work(store: Store, executor: ThreadPoolExecutor) -> None:
        source = Endless(config, store, executor, on_changes, time.monotonic() + 60)
        fixture = await source.begin()
        assert fixture is not None and heard[1:] == [(["b0", "b1", "b2"], set())]
        (idle,) = {"b0", "b1", "b2"} - set(fixture.bots)
        one, other = fixture.bots
        mark(tmp_path, "remove", idle)
        replace(tmp_path, one, "http://127.0.0.1:9/new")
        await source.begin()
        assert heard.pop() == ([idle, f"{one}@2"], {idle})
        again = Endless(config, store, executor, on_changes, time.monotonic() + 60)
        assert heard.pop()[1] == {idle}
        store.add([finished(fixture.name, *fixture.bots)])
        await again.begin()
        assert heard.pop() == ([], {one})
        await again.begin()
        assert again.leaving == set() and len(heard) == 2

    with closing(Store(tmp_path)) as store, ThreadPoolExecutor(1) as executor:
        store.begin(config.identity, config.bots)
        add_config_bots(store, config.bots)
        asyncio.run(work(store, executor))


LOOK = json.dumps({"apiversion": "1", "color": "#123456"}).encode()


def test_run_keeps_nothing_of_replaced_bots(tmp_path: Path) -> None:
    """However often a bot is replaced, there are as many descriptors, addresses and looks."""
    answer = b"HTTP/1.1 200 OK\r\nContent-Length: %d\r\n\r\n%b" % (len(LOOK), LOOK)

    async def work(store: Store) -> None:
        server = Server(answer)
        async with served(server.serve) as place, BotClient(0.5) as client:
            config = ladder_config(tmp_path, {"a": f"http://{place}/a", "b": f"http://{place}/b"})
            urls = {bot.name: bot.url for bot in config.bots}
            context = RunContext(config, tmp_path, client, urls, {}, Watches([counts]))
            keeper = HostKeeper(PROGRAM, BLOCKS_OF_GAME)
            run = Run(context, store, keeper, KeptAnswers(tmp_path))
            open_at_first = descriptors()
            for version in range(REPLACES):
                old, new = f"b@{version}" if version else "b", f"b@{version + 1}"
                counts.count({old: Answer("up", None, 7)}, None)
                change = Change(version, "replace", new, 0, f"http://{place}/{new}", old)
                run.on_changes([change], {old})
                await until(lambda: new in context.looks and not run.asking)
            assert server.connections == REPLACES
            assert set(context.urls) == {"a", new} and set(context.looks) == {new}
            assert run.asked == {("a", urls["a"]), (new, urls[new])}
            assert list(client.connections.owners) == [urls[new]]
            await until(lambda: descriptors() <= open_at_first + 2)  # both ends of one connection
            assert not counts.strain.latencies

    counts = Counts()
    make_folders(tmp_path)
    with closing(Store(tmp_path)) as store:
        asyncio.run(work(store))


def test_counts_of_times_stay_as_small() -> None:
    """However many different times there are."""
    counts = Counts()
    counts.count({"slow": Answer("up", None, 1)}, 0.001)
    counted = [counts.own, counts.strain.latencies["slow"][0]]
    sizes = [sys.getsizeof(it.counts) for it in counted]
    assert sum(sizes) < 8000
    for ms in [*range(600), *range(600, 2 * MOST_MS, 7)]:
        counts.count({"slow": Answer("up", None, ms)}, ms / 1000)
    assert [sys.getsizeof(it.counts) for it in counted] == sizes
    assert {it.total() for it in counted} == {1 + 600 + len(range(600, 2 * MOST_MS, 7))}


def test_times_are_exact_or_a_little_rounded() -> None:
    """A time is exact below 64, and rounded down by less than a part in 32 above that."""
    for ms in [*range(600), *range(600, MOST_MS, 97), MOST_MS]:
        times = Times(MOST_MS)
        times.add(ms)
        kept = times.quantile(0.5)
        assert kept is not None and 0 <= ms - kept <= ms / 32
        assert kept == ms or ms >= 64
    times = Times(50)
    for ms in (10, 20, 30, 70):
        times.add(ms)
    assert [times.quantile(it) for it in (0.25, 0.5, 0.75, 1)] == [10, 20, 30, 50]
    assert Times(50).quantile(0.5) is None


def test_ended_games_leave_no_bots_in_the_counts() -> None:
    counts = Counts()
    for at in range(50):
        bots = (f"old{at}", f"new{at}")
        counts.show(Fixture(f"r{at:04}-t001", at, bots), board_with())
        counts.end(finished(f"r{at:04}-t001", *bots)[0])
    assert not counts.strain.playing and not counts.running


def test_few_bytes_of_transcripts_are_kept(tmp_path: Path, monkeypatch: pytest.MonkeyPatch) -> None:
    """One alone may be longer."""
    monkeypatch.setattr("arena_ladder.results.transcripts.MOST_KEPT", 1000)
    made = Transcripts(tmp_path, PROGRAM)
    for at, size in enumerate((400, 400, 400, 5000)):
        made.keep(f"r{at}", b"x" * size)
        assert sum(map(len, made.kept.values())) <= max(1000, size)
    assert list(made.kept) == ["r3"]


HEAPS = """
import ctypes, threading
from arena_ladder.heap import use_one_heap
use_one_heap()
both = threading.Barrier(4)
def work():
    kept = [b"x" * 50_000 for _ in range(20)]
    both.wait()
threads = [threading.Thread(target=work) for _ in range(4)]
for thread in threads:
    thread.start()
for thread in threads:
    thread.join()
ctypes.CDLL(None).malloc_stats()
"""


def test_all_threads_use_one_heap() -> None:
    """The C library counts one alone, and one for each thread without the call."""
    for script, is_one in ((HEAPS, True), (HEAPS.replace("\nuse_one_heap()", ""), False)):
        ran = subprocess.run([sys.executable, "-c", script], capture_output=True, text=True)
        assert ran.returncode == 0 and (ran.stderr.count("Arena ") == 1) is is_one, ran.stderr


GAPS = """
import asyncio, ctypes, os, sys
from arena_ladder import heap
heap.use_one_heap()
heap.TRIM_SECONDS = 0.1
def resident():
    return int(open("/proc/self/statm").read().split()[1]) * os.sysconf("SC_PAGE_SIZE")
async def work():
    before = resident()
    blocks = [b"%d" % at * 1500 for at in range(10_000, 20_000)]
    kept = blocks[::10]
    grown = resident() - before
    del blocks
    trimming = asyncio.create_task(heap.keep_heap_small())
    await asyncio.sleep(float(sys.argv[1]))
    print(grown, resident() - before, len(kept))
asyncio.run(work())
"""


def test_memory_between_blocks_that_are_used_goes_back() -> None:
    """Of blocks of 7.5 KB each tenth stays. Without a trim so does nearly all of their memory."""
    for seconds, is_small in (("0", False), ("1", True)):
        ran = subprocess.run([sys.executable, "-c", GAPS, seconds], capture_output=True, text=True)
        grown, left, kept = map(int, ran.stdout.split())
        assert kept == 1000 and grown > 60_000_000
        assert (left < grown / 3) is is_small
