"""No bot harms the games of others: honest bots play beside bots of every hostile kind.

The honest bots measure how long they take. None of their moves may be missed, and no latency may be
far above what they measured. The time for which the machine gave the ladder no processor is taken
off, so that other programs make no test fail; what the ladder computes itself is not. The time that
a hypervisor took is not known for each thread, so a run in which the ladder seems to have computed
for long is repeated.
"""

from __future__ import annotations

import asyncio
import gc
import json
import os
import signal
import socket
import sys
import threading
import time
import urllib.request
from collections.abc import Iterator
from dataclasses import dataclass, field, replace
from pathlib import Path
from typing import Any

import honest
import hostile
import pytest
from served import HERE, START_SECONDS, Served, free_port, serving

from arena_ladder.game import game
from arena_ladder.game.config import Config, config_of
from arena_ladder.game.game_files import make_folders
from arena_ladder.game.pairing import Part
from arena_ladder.net.bots import Answer, Bot
from arena_ladder.page.page_link import Address, PageLink
from arena_ladder.results.store import Store
from arena_ladder.run.play import Job, play

TIMEOUT = 500  # milliseconds
MARGIN = 30  # before the timeout, within which an honest answer may be late
MOST_EXCESS = 50  # milliseconds of a latency above what the bot measured
MOST_HELD = 0.05  # seconds for which the ladder computes without looking at its connections
BEAT_SECONDS = 0.004
TICKS = os.sysconf("SC_CLK_TCK")
TRIES = 3  # runs, of which one has to be without a long computation
SERVERS = 3  # processes of hostile bots
SILENT_SECONDS = 600  # of a name server, more than a run takes on a busy machine
HOSTILE = sorted(hostile.KINDS)
GROUPS = [HOSTILE[at::4] for at in range(4)]
ASK_ALL = game.Game.ask_all


@dataclass
class Beats:
    """How the loop of the ladder was held up, beat by beat."""

    rows: list[tuple[float, float, float]] = field(
        default_factory=list
    )  # time, seconds, of them own

    async def run(self) -> None:
        loop = asyncio.get_running_loop()
        at, own, lost = loop.time(), time.thread_time(), stolen()
        while True:
            await asyncio.sleep(BEAT_SECONDS)
            now, computed, gone = loop.time(), time.thread_time(), stolen()
            self.rows.append((now, now - at - BEAT_SECONDS, computed - own - (gone - lost)))
            at, own, lost = now, computed, gone

    def starved(self, begin: float, end: float) -> float:
        """The milliseconds between two moments in which this process waited for a processor."""
        return 1000 * sum(
            max(0.0, late - own)
            for at, late, own in self.rows
            if at > begin and at - late - BEAT_SECONDS < end
        )

    def longest(self, begin: float) -> float:
        """The most seconds between two beats that the ladder computed, after a moment."""
        return max(own for at, _, own in self.rows if at > begin)


def stolen() -> float:
    """The seconds that the processors of this virtual machine were taken away.

    They may be in the time of the thread that was running.
    """
    with open("/proc/stat") as file:
        fields = file.readline().split()
    return int(fields[8]) / TICKS if len(fields) > 8 else 0.0


@dataclass
class Judged:
    """The moves of honest bots in a run, and what is wrong with them."""

    moves: int = 0
    excused: int = 0
    faults: list[str] = field(default_factory=list)

    def judge(self, what: str, answer: Answer, measured: float | None, starved: float) -> None:
        self.moves += 1
        if measured is None:
            self.faults.append(f"{what} was not asked, or could not read what it was asked")
        elif answer.cause is None:
            if answer.latency > measured + starved + MOST_EXCESS:
                self.faults.append(
                    f"{what} gets a latency of {answer.latency} ms and took {measured:.0f}"
                )
        elif answer.cause == "late" and measured + starved > TIMEOUT - MARGIN:
            self.excused += 1
        else:
            self.faults.append(f"{what} missed ({answer.cause}), and took {measured:.0f} ms")


@pytest.fixture(scope="module")
def servers() -> Iterator[list[Served]]:
    """A process of honest bots, and some of hostile ones."""
    words: list[str | Path] = [sys.executable, HERE / "hostile.py"]
    with serving([sys.executable, HERE / "honest.py"], free_port()) as good:
        with serving(words, free_port()) as one, serving(words, free_port()) as two:
            with serving(words, free_port()) as three:
                yield [good, one, two, three]


def config_for(folder: Path, servers: list[Served], kinds: list[str], **members: Any) -> Config:
    bots = [
        {"name": kind, "url": servers[0].url(f"{kind}/{at}")}
        for at, kind in enumerate(honest.KINDS)
    ]
    for at, kind in enumerate(kinds):
        server = servers[1 + at % (len(servers) - 1)]
        bots.append({"name": f"hostile{at}", "url": server.url(kind.replace(" ", "%20"))})
    words = {"pairing": "tables", "rounds": 3, "turns": 8, "timeout": TIMEOUT}
    return config_of({"folder": str(folder), "bot": bots, **words, **members}, "here")


async def played(
    config: Config, program: Path, patch: pytest.MonkeyPatch, is_flooded: bool
) -> tuple[Beats, dict[tuple[str, str], Answer]]:
    """Plays a ladder; the answers by the game with its turn, and the bot.

    With `is_flooded` it has a page, which is flooded, and whose process hangs after a while.
    """
    beats, found = Beats(), {}

    async def recorded(self: game.Game, board: Any) -> dict[str, Answer]:
        answers = await ASK_ALL(self, board)
        turn = f"{config.letters}-{self.fixture.name} {board['turn']}"
        found.update({(turn, bot): answer for bot, answer in answers.items()})
        return answers

    patch.setattr(game.Game, "ask_all", recorded)
    gc.collect()
    gc.freeze()  # the objects of earlier tests, which no ladder has
    make_folders(config.folder)
    store = Store(config.folder)
    beating = asyncio.create_task(beats.run())
    job = Job(config, config.folder, Part(1, 1), program)
    if is_flooded:
        async with PageLink(config.folder, Address("127.0.0.1", 0), str, print) as link:
            flooding = asyncio.create_task(flood(link))
            await play(job, store, [link])
            await flooding
    else:
        await play(job, store, [])
    beating.cancel()
    store.close()
    return beats, found


async def flood(link: PageLink) -> None:
    """Floods a page for some seconds, and then stops its process."""
    words = (sys.executable, str(HERE / "flood.py"), str(link.address.port), "3")
    flooding = await asyncio.create_subprocess_exec(*words)
    await flooding.wait()
    if link.page is not None:
        link.page.process.send_signal(signal.SIGSTOP)


def measured_by(server: Served) -> dict[str, float]:
    with urllib.request.build_opener(urllib.request.ProxyHandler({})).open(
        server.url("measured"), timeout=START_SECONDS
    ) as answer:
        found: dict[str, float] = json.load(answer)
    return found


@pytest.mark.slow
@pytest.mark.parametrize("kinds", GROUPS, ids=["first", "second", "third", "fourth"])
def test_honest_bots_play_as_if_alone(
    program: Path,
    servers: list[Served],
    tmp_path: Path,
    monkeypatch: pytest.MonkeyPatch,
    kinds: list[str],
) -> None:
    assert_unharmed(servers[0], config_for(tmp_path / "x", servers, kinds), program, monkeypatch)


def assert_unharmed(
    server: Served,
    config: Config,
    program: Path,
    monkeypatch: pytest.MonkeyPatch,
    is_flooded: bool = False,
) -> None:
    """Plays, and checks the moves of the honest bots, and that the ladder never computed for long.

    What it loads before it asks for the first move makes no bot late. A long computation of its own
    takes as long in the next run.
    """
    for at in range(TRIES):
        again = replace(config, folder=config.folder / str(at))
        with monkeypatch.context() as patch:
            beats, found = asyncio.run(played(again, program, patch, is_flooded))
        assert_answered(server, beats, found)
        held = beats.longest(min(answer.asked_at for answer in found.values()))
        if held < MOST_HELD:
            break
    assert held < MOST_HELD


def assert_answered(server: Served, beats: Beats, found: dict[tuple[str, str], Answer]) -> None:
    """Checks the moves of the honest bots."""
    measured = measured_by(server)
    judged = Judged()
    for (turn, bot), answer in found.items():
        if bot in honest.KINDS:
            starved = beats.starved(answer.asked_at, answer.answered_at)
            judged.judge(f"{turn} {bot}", answer, measured.get(f"{turn} {bot}"), starved)
    assert judged.faults == []
    assert judged.moves > 50


@pytest.mark.slow
@pytest.mark.parametrize("kind", HOSTILE)
def test_honest_bots_play_as_if_alone_beside_one_kind(
    request: pytest.FixtureRequest,
    program: Path,
    servers: list[Served],
    tmp_path: Path,
    monkeypatch: pytest.MonkeyPatch,
    kind: str,
) -> None:
    if not request.config.getoption("--all"):
        pytest.skip("by hand, with --all: some seconds for each kind")
    config = config_for(tmp_path / "x", servers, [kind] * 3)
    assert_unharmed(servers[0], config, program, monkeypatch)


def test_silent_names_and_deaf_servers_harm_no_other(
    program: Path, servers: list[Served], tmp_path: Path, monkeypatch: pytest.MonkeyPatch
) -> None:
    """Bots whose name server is silent, and one that accepts no connection."""
    ends, resolve = threading.Event(), socket.getaddrinfo

    def silent(host: Any, *words: Any, **more: Any) -> Any:
        if str(host).endswith(".test"):
            ends.wait(SILENT_SECONDS)
        return resolve(host, *words, **more)

    monkeypatch.setattr(socket, "getaddrinfo", silent)
    with socket.create_server(("127.0.0.1", 0), backlog=1) as deaf:
        place = deaf.getsockname()
        filling = [socket.socket() for _ in range(4)]
        for it in filling:
            it.setblocking(False)
            it.connect_ex(place)
        config = config_for(tmp_path / "x", servers, [])
        urls = [f"http://silent{at}.test/" for at in range(12)] + [f"http://127.0.0.1:{place[1]}"]
        more = tuple(Bot(f"hostile{at}", url) for at, url in enumerate(urls))
        config = replace(config, bots=config.bots + more, rounds=2)
        began = time.monotonic()
        assert_unharmed(servers[0], config, program, monkeypatch)
        assert time.monotonic() - began < SILENT_SECONDS / 2, "the run waited for a name"
        for it in filling:
            it.close()
    ends.set()


def test_flooded_and_hanging_page_makes_no_move_late(
    program: Path, servers: list[Served], tmp_path: Path, monkeypatch: pytest.MonkeyPatch
) -> None:
    config = config_for(tmp_path / "x", servers, [], rounds=6)
    assert_unharmed(servers[0], config, program, monkeypatch, is_flooded=True)
