"""Tests of the page of a run: its events, its addresses, and the page in a browser."""

from __future__ import annotations

import asyncio
import json
import re
import signal
import socket
import subprocess
import time
import urllib.error
import urllib.request
from argparse import ArgumentTypeError
from collections.abc import Callable, Iterator
from contextlib import contextmanager
from pathlib import Path
from typing import Any

import pytest
from served import Served, board_with, first_line, run_ladder, start_play, write_config
from testing import chromium  # of viewer/

from arena_client import PROGRAM
from arena_ladder.game.outcome import Finish, Outcome, SeatResult
from arena_ladder.game.pairing import Fixture
from arena_ladder.net.bots import Answer, Bot
from arena_ladder.page import page as page_module, page_link
from arena_ladder.page.feed import MOST_READERS, MOST_WAITING, Feed, Reader
from arena_ladder.page.news import News, duration
from arena_ladder.page.page import MOST_CONNECTIONS, page
from arena_ladder.page.page_calls import Calls
from arena_ladder.page.page_link import Address, PageFault, PageLink, address_of
from arena_ladder.results.store import Store

GAME = Fixture("r0001-t001", 1, ("a", "b"))
WATCH = """
// Keeps the drawing of each board, by game and turn.
window.seen = {};
new MutationObserver(() => document.querySelectorAll('article').forEach((article) => {
  const body = article.querySelector('.body');
  if (body) {
    const turns = window.seen[article.dataset.game] ??= {};
    turns[article.querySelector('.turn').textContent] = body.getAttribute('d');
  }
})).observe(document.getElementById('games'),
  { subtree: true, childList: true, characterData: true });
"""
BOTS_SHOWN = """
return [...document.querySelectorAll('#standings tbody th')].map((cell) => cell.textContent);
"""
MOVED = """
return Object.values(window.seen).find((turns) => new Set(Object.values(turns)).size > 2) ?? null;
"""
HAZARDS_SHOWN = """
const card = [...document.querySelectorAll('article')].find((it) => it.querySelector('.hazards'));
if (!card) {
  return null;
}
const groups = [...card.querySelectorAll('svg[role="img"] .hazards')];
return {
  shades: groups.map((group) => group.dataset.shade),
  cells: groups.flatMap((group) => [...group.querySelector('.squares').getAttribute('d')
    .matchAll(/M([0-9]+) ([0-9]+)/g)].map(([, x, y]) => [Number(x), Number(y)])),
  legend: card.querySelector('.hazard-legend:not([hidden])')?.textContent,
  words: card.querySelector('svg[role="img"]').getAttribute('aria-label'),
};
"""


def test_addresses_are_of_this_machine_unless_another_is_named() -> None:
    assert address_of("8080") == Address("127.0.0.1", 8080)
    assert address_of("0.0.0.0:8080") == Address("0.0.0.0", 8080)
    assert address_of("[::1]:8080") == Address("::1", 8080)
    for word in ("", "port", "127.0.0.1", "1.2.3.4:", "70000", "-1", "127.0.0.1:x"):
        with pytest.raises(ArgumentTypeError, match="neither a port nor"):
            address_of(word)


def parse_event(raw: bytes | None) -> tuple[str, Any]:
    """Parses an event: its kind and its data."""
    assert raw is not None
    ((kind, data),) = re.findall(rb"\Aevent: (\w+)\ndata: (.*)\n\n\Z", raw)
    return kind.decode(), json.loads(data)


def join_feed(feed: Feed) -> Reader:
    """A new reader of a feed that has room for one."""
    reader = feed.join()
    assert reader is not None
    return reader


def message(boards: dict[str, Any], **more: Any) -> dict[str, Any]:
    """A message of the ladder, in which the games of these boards run."""
    words = {"summary": "one <line>\nand more", "games": "3 of 9 games", "left": "", "waits": ""}
    members = {"boards": boards, "running": list(boards), "ended": {}, "colours": {}}
    return {**words, **members, **more}


def no_results() -> dict[str, Any]:
    return {"standings": [], "seed": "", "bots": []}


def calls_of(feed: Feed) -> Calls:
    """The calls of a page whose folder has no results."""
    return Calls(feed, Path("/nonexistent"), PROGRAM)


def test_readers_get_the_changes() -> None:
    async def work() -> None:
        feed = Feed(lambda: {"standings": [{"bot": "a"}], "seed": "secret", "bots": ["a"]})
        await feed.take(message({GAME.name: {"turn": 0}}))
        reader = join_feed(feed)
        kind, state = parse_event(reader.events.get_nowait())
        assert (kind, state["boards"]) == ("all", {GAME.name: {"turn": 0}})
        await feed.take(message({GAME.name: {"turn": 2}}))
        kind, state = parse_event(reader.events.get_nowait())
        assert (kind, state["boards"]) == ("changes", {GAME.name: {"turn": 2}})
        assert (state["standings"], state["seed"]) == ([{"bot": "a"}], "secret")
        assert state["summary"] == "one <line>\nand more"
        assert state["looks"]["a"]["colour"] == "#d17700"
        await feed.take(message({}))
        state = parse_event(reader.events.get_nowait())[1]
        assert (state["boards"], state["gone"], feed.boards) == ({}, [GAME.name], {})
        await feed.close()
        kind, state = parse_event(reader.events.get_nowait())
        assert (kind, state["games"], state["summary"]) == ("end", "3 of 9 games", "")
        assert reader.events.get_nowait() is None

    asyncio.run(work())


def test_board_of_a_finished_game_stays_for_some_seconds(monkeypatch: pytest.MonkeyPatch) -> None:
    async def work() -> None:
        feed = Feed(no_results)
        await feed.take(message({GAME.name: {"turn": 7}}))
        reader = join_feed(feed)
        reader.events.get_nowait()
        await feed.take(message({GAME.name: {"turn": 8}}, running=[], ended={GAME.name: ["a"]}))
        state = parse_event(reader.events.get_nowait())[1]
        assert (state["ended"], state["gone"]) == ({GAME.name: ["a"]}, [])
        state = parse_event(join_feed(feed).events.get_nowait())[1]
        assert (state["boards"], state["ended"]) == ({GAME.name: {"turn": 8}}, {GAME.name: ["a"]})
        now = time.monotonic()
        for later, gone in ((9.0, []), (11.0, [GAME.name])):
            monkeypatch.setattr(time, "monotonic", lambda: now + later)
            await feed.take(message({}))
            assert parse_event(reader.events.get_nowait())[1]["gone"] == gone
        assert (feed.boards, feed.ended) == ({}, {})

    asyncio.run(work())


def outcome_of(name: str, *winners: str) -> Outcome:
    """The outcome of a game of a and b."""
    results = {True: SeatResult.WIN, False: SeatResult.LOSS}
    finishes = [Finish(it, results[it in winners], None, None, None, 3, 9) for it in ("a", "b")]
    return Outcome(name, 1, 9, 12, "digest", tuple(finishes))


def test_news_has_the_last_board_of_each_game_before_its_end() -> None:
    """With more boards than a message has, those of ended games come first."""
    news = News()
    news.begin(3, 1000)
    fixtures = [Fixture(f"r0001-t{at:03}", 1, ("a", "b")) for at in range(40)]
    for turn in (0, 1):
        for it in fixtures:
            news.show(it, board_with(turn=turn))
    for it in fixtures[20:]:
        news.end(outcome_of(it.name, "a"))
    first, second, third = (news.message() for _ in range(3))
    assert list(first["boards"]) == [it.name for it in fixtures[20:36]]
    assert list(first["ended"]) == list(first["boards"])
    assert len(first["running"]) == 24
    assert list(second["ended"]) == [it.name for it in fixtures[36:]]
    assert second["ended"]["r0001-t039"] == ["a"]
    assert second["running"] == third["running"] == [it.name for it in fixtures[:20]]
    assert (len(second["boards"]), len(third["boards"])) == (16, 8)
    assert first["games"] == "23 of 1,000 games"


def test_news_without_a_reader_do_not_grow() -> None:
    news = News()
    for at in range(500):
        fixture = Fixture(f"r0001-t{at:03}", 1, ("a", "b"))
        news.show(fixture, board_with(turn=0))
        news.end(outcome_of(fixture.name))
    assert (len(news.boards), len(news.changed), len(news.ended)) == (64, 64, 64)


def test_news_say_who_is_waited_for() -> None:
    news = News()
    assert news.waits.line() == ""
    for latency in (30, 60):
        news.count({"a": Answer("up", None, 2), "b": Answer("up", None, latency)}, None)
    news.count({"a": Answer("up", None, 10)}, None)
    assert news.waits.line() == "waits most for b, 90 % of the time"
    assert [duration(it) for it in (7, 150, 9000, 300_000)] == [
        "7 seconds",
        "2 minutes",
        "2 hours",
        "3 days",
    ]


def test_slow_readers_are_let_go_and_too_many_are_refused() -> None:
    async def work() -> None:
        feed = Feed(no_results)
        readers = [join_feed(feed) for _ in range(MOST_READERS)]
        assert feed.join() is None
        for _ in range(MOST_WAITING):
            await feed.take(message({}))
        assert not feed.readers
        assert readers[0].events.get_nowait() is None

    asyncio.run(work())


@pytest.fixture
def folder(tmp_path: Path) -> Path:
    """The folder of a ladder without games."""
    store = Store(tmp_path)
    store.begin({"seed": 1, "has_seed": True}, [Bot("a", "http://127.0.0.1:1")])
    store.close()
    return tmp_path


async def events_at(address: Address, count: int) -> list[tuple[str, Any]]:
    """The first events that a reader of a page gets; waits until the page is served."""
    async with asyncio.timeout(60):
        while True:
            try:
                reader, writer = await asyncio.open_connection(
                    address.host, address.port, limit=1 << 24
                )
                writer.write(b"GET /events HTTP/1.0\r\n\r\n")
                await reader.readuntil(b"\r\n\r\n")
                found = [await reader.readuntil(b"\n\n") for _ in range(count)]
                writer.close()
                return [parse_event(it) for it in found]
            except (OSError, asyncio.IncompleteReadError):
                await asyncio.sleep(0.05)


@pytest.mark.parametrize("number", [signal.SIGKILL, signal.SIGSTOP])
def test_page_that_ends_or_hangs_is_served_again(
    folder: Path, monkeypatch: pytest.MonkeyPatch, number: signal.Signals
) -> None:
    """The other process has the same address and the whole state; the ladder waits for neither."""
    monkeypatch.setattr(page_link, "HANG_SECONDS", 3.0)
    told: list[str] = []
    started: list[Address] = []
    start_page = page_link.start_page

    async def start(folder: Path, address: Address, program: Path) -> page_link.PageProcess:
        started.append(address)
        return await start_page(folder, address, program)

    monkeypatch.setattr(page_link, "start_page", start)

    async def work() -> None:
        address = Address("127.0.0.1", 0)
        async with PageLink(folder, address, lambda: "summary", told.append) as link:
            link.show(GAME, board_with(turn=5))
            assert link.page is not None
            first = link.page.process.pid
            await events_at(link.address, 2)
            link.page.process.send_signal(number)
            async with asyncio.timeout(60):
                while link.page is None or link.page.process.pid == first:
                    link.show(GAME, board_with(turn=6, long="x" * 100_000))
                    link.send()
                    await asyncio.sleep(0.05)
            async with asyncio.timeout(60):
                while not (state := (await events_at(link.address, 2))[0][1])["boards"]:
                    await asyncio.sleep(0.05)
            assert state["boards"][GAME.name]["turn"] == 6
            assert state["seed"] == "" or "the seed 1 comes from the configuration" in state["seed"]
        # On a busy machine it may seem to hang once more.
        again = ["the page ended or did not answer; it is served again"]
        assert told == again * (len(started) - 1)

    asyncio.run(work())


def test_page_whose_port_is_taken_is_a_fault(folder: Path) -> None:
    async def work() -> None:
        with socket.create_server(("127.0.0.1", 0)) as taken:
            address = Address("127.0.0.1", taken.getsockname()[1])
            async with PageLink(folder, address, str, print):
                pass

    with pytest.raises(PageFault, match="can't be served.*in use"):
        asyncio.run(work())


def test_idle_connections_do_not_keep_others_out(monkeypatch: pytest.MonkeyPatch) -> None:
    """At most 64 connections are open; those that ask nothing are closed after some time."""
    most = 200 - MOST_CONNECTIONS

    async def work(seconds: float) -> None:
        monkeypatch.setattr(page_module, "SILENT_SECONDS", seconds)
        async with page(calls_of(Feed(no_results)), Address("127.0.0.1", 0)) as address:
            opened = [await asyncio.open_connection(address.host, address.port) for _ in range(200)]
            async with asyncio.timeout(60):
                while sum(it.at_eof() or has_ended(it) for it, _ in opened) < most:
                    await asyncio.sleep(0.05)
            if seconds < 60:
                assert (await events_at(address, 1))[0][0] == "all"
            for _, writer in opened:
                writer.close()

    for seconds in (600.0, 1.0):
        asyncio.run(work(seconds))


def has_ended(reader: asyncio.StreamReader) -> bool:
    """Whether a connection was closed or reset."""
    return reader.exception() is not None


def test_only_the_files_of_the_page_are_served() -> None:
    async def get(url: str) -> tuple[int, dict[str, str]]:
        opener = urllib.request.build_opener(urllib.request.ProxyHandler({}))

        def ask() -> tuple[int, dict[str, str]]:
            try:
                with opener.open(url, timeout=20) as answer:
                    return answer.status, dict(answer.headers)
            except urllib.error.HTTPError as fault:
                return fault.code, dict(fault.headers)

        return await asyncio.to_thread(ask)

    async def work() -> None:
        async with page(calls_of(Feed(no_results)), Address("127.0.0.1", 0)) as address:
            drawing = ("drawing/boards.js", "drawing/drawing.css", "viewer/drawing/boards.js")
            viewer = ("viewer/", "viewer/index.html", "viewer/viewer.js", "viewer/viewer.css")
            for path in ("", "page.js", "page.css", "bot.html", *drawing, *viewer):
                status, headers = await get(f"{address}{path}")
                assert status == 200
                assert "default-src 'none'; script-src 'self'" in headers["Content-Security-Policy"]
            others = ("viewer/test", "viewer/testing/png.py", "viewer/%2e%2e/ladder/page.py")
            for path in ("page.py", "drawing/../viewer.js", "drawing/%2e%2e/viewer.js", *others):
                assert (await get(f"{address}{path}"))[0] in (403, 404)

    asyncio.run(work())


def test_page_is_on_this_machine_alone() -> None:
    async def work() -> list[str]:
        async with page(calls_of(Feed(no_results)), Address("127.0.0.1", 0)) as address:
            listening = await asyncio.to_thread(Path("/proc/net/tcp").read_text)
            return re.findall(rf"\d: (\w+):{address.port:04X} \w+:0000 0A", listening)

    assert asyncio.run(work()) == ["0100007F"]


SHOWN_GAMES = """
// The bots of each board and of each finished game that is shown.
const bots = (selector) => [...document.querySelectorAll(selector)]
  .map((it) => [...it.querySelectorAll('.bot')].map((bot) => bot.textContent));
return { running: bots('#games article'), finished: bots('#finished li') };
"""
OFFERED = "return [...document.querySelectorAll('#filter option')].map((it) => it.value)"


@contextmanager
def playing(program: Path, config: Path) -> Iterator[tuple[subprocess.Popen[str], str]]:
    """Plays a ladder with a page within the context, whose value has the page's address."""
    process = start_play(config, program, "--page", "0")
    try:
        line = first_line(process.stderr)
        (address,) = re.findall(r"\Aladder: the page is (http://127\.0\.0\.1:\d+/)\n\Z", line)
        yield process, address
    finally:
        process.kill()
        process.communicate()


def test_board_moves_while_its_game_runs(
    program: Path, faulty_bots: Served, browser: chromium.Browser, tmp_path: Path
) -> None:
    """Bots whose colour and head are markup move on the page; then it shows the end."""
    config = write_config(
        tmp_path / "slow.toml",
        [(name, faulty_bots.url("calm")) for name in ("one", "two", "three")],
        folder=str(tmp_path / "results"),
        timeout=5000,
        turns=60,
        rounds=1000,
        at_once=3,
    )
    with playing(program, config) as (process, address):
        browser.complaints()
        browser.go(address)
        browser.run(WATCH)
        turns = browser.wait(MOVED, seconds=60)
        assert all(re.fullmatch("turn [0-9]+", turn) for turn in turns)
        browser.wait("return document.querySelector('#standings tbody tr')", seconds=60)
        process.terminate()
        browser.wait("return document.body.dataset.state === 'ended'", seconds=60)
        assert sorted(browser.run(BOTS_SHOWN)) == ["one", "three", "two"]
        assert browser.run("return document.querySelectorAll('script').length") == 8
        assert browser.complaints() == []
        assert process.wait(timeout=60) == 130


def test_page_shows_hazards(
    program: Path, faulty_bots: Served, browser: chromium.Browser, tmp_path: Path
) -> None:
    """The hazards of a running game are hatched, with a line of what they take."""
    config = write_config(
        tmp_path / "slow.toml",
        [(name, faulty_bots.url("calm")) for name in ("one", "two")],
        **{"folder": str(tmp_path / "results"), "timeout": 5000, "turns": 60, "rounds": 1000},
        **{"map": "royale", "shrink_every": 1, "hazard_damage": 0, "width": 7, "height": 7},
    )
    with playing(program, config) as (_, address):
        browser.complaints()
        browser.go(address)
        shown = browser.wait(HAZARDS_SHOWN, seconds=60)
        assert shown["shades"] == ["1"]
        assert len(shown["cells"]) >= 7
        assert all(0 <= x < 7 and 0 <= y < 7 for x, y in shown["cells"])
        assert shown["legend"] == "A hazard takes in each turn 0 health"
        assert f"Hazards: {len(shown['cells'])}, damage 0." in shown["words"]
        assert browser.complaints() == []


def calm_ladder(folder: Path, bots: Served, names: tuple[str, ...], **members: Any) -> Path:
    """A ladder of bots that take their time, without an end."""
    words = {"folder": str(folder / "results"), "timeout": 5000, "turns": 20, **members}
    return write_config(folder / "calm.toml", [(it, bots.url("calm")) for it in names], **words)


def test_bot_is_added_while_the_page_is_looked_at(
    program: Path, faulty_bots: Served, browser: chromium.Browser, tmp_path: Path
) -> None:
    """The page that is open offers the bot, shows a game of it, and has it in the standings."""
    config = calm_ladder(tmp_path, faulty_bots, ("one", "two", "three"), pairing="rating")
    with playing(program, config) as (_, address):
        browser.complaints()
        browser.go(address)
        browser.run("window.isSame = true")
        browser.wait(
            "return document.querySelectorAll('#standings tbody tr').length === 3", seconds=60
        )
        assert browser.run(OFFERED) == ["", "one", "three", "two"]
        url = faulty_bots.url("calm")
        assert run_ladder("add", tmp_path / "results", "late", url).returncode == 0
        browser.wait(f"{OFFERED}.includes('late')", seconds=60)
        titles = "[...document.querySelectorAll('#games h3')]"
        browser.wait(f"return {titles}.some(it => /late/.test(it.textContent))", seconds=60)
        browser.wait(
            "return document.querySelector('#standings [data-bot=late]') !== null", seconds=60
        )
        assert browser.run("return window.isSame"), "the page was loaded again"
        assert browser.complaints() == []


def test_filter_shows_the_games_of_one_bot(
    program: Path, faulty_bots: Served, browser: chromium.Browser, tmp_path: Path
) -> None:
    """Boards and finished games are those of the chosen bot; then those of all bots again."""
    names = ("one", "two", "three", "four", "five", "six")
    config = calm_ladder(tmp_path, faulty_bots, names, rounds=1000)
    with playing(program, config) as (_, address):
        browser.complaints()
        browser.go(address)
        wait_for_games(browser, lambda shown: len({*sum(shown, [])}) > 2)
        browser.click("#filter option[value=two]")
        for _ in range(2):
            wait_for_games(browser, lambda shown: all("two" in bots for bots in shown))
            time.sleep(1.0)  # in which other games begin and end
        browser.click("#filter option[value='']")
        wait_for_games(browser, lambda shown: any("two" not in bots for bots in shown))
        assert browser.complaints() == []


def wait_for_games(
    browser: chromium.Browser, is_so: Callable[[list[list[str]]], bool], seconds: float = 60
) -> None:
    """Waits until games run and are finished, and a condition holds for the bots of each kind."""
    ends = time.monotonic() + seconds
    while True:
        shown = browser.run(SHOWN_GAMES)
        if all(shown[kind] and is_so(shown[kind]) for kind in ("running", "finished")):
            return
        assert time.monotonic() < ends, shown
        time.sleep(0.1)
