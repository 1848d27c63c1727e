"""Tests of the schedule: no bot plays too many games, and a late ladder plays fewer."""

from __future__ import annotations

import asyncio
import random
from collections import Counter
from typing import Any

import pytest
from served import board_with

from arena_ladder.game.config import config_of
from arena_ladder.game.outcome import Finish, Outcome, SeatResult
from arena_ladder.game.pairing import Fixture, fixtures_of
from arena_ladder.net.bots import Answer
from arena_ladder.net.pulse import Pulse
from arena_ladder.run import schedule
from arena_ladder.run.progress import Counts
from arena_ladder.run.schedule import Pace, Schedule


def fixtures(bots: int, **members: Any) -> list[Fixture]:
    tables = [{"name": f"bot{at}", "url": "http://127.0.0.1:1"} for at in range(bots)]
    return fixtures_of(config_of({"folder": "x", "bot": tables, **members}, "here"))


@pytest.mark.parametrize("games_a_bot", [1, 2, 5])
@pytest.mark.parametrize("window", [1, 3, 1024])
def test_every_game_is_played_and_no_bot_has_too_many(
    monkeypatch: pytest.MonkeyPatch, games_a_bot: int, window: int
) -> None:
    monkeypatch.setattr(schedule, "MOST_PASSED", window)
    draw, games = random.Random(window), fixtures(9, rounds=3, snakes=3)
    waiting = Schedule(games, games_a_bot)
    running: list[Fixture] = []
    played = []
    while True:
        while (fixture := waiting.next()) is not None:
            running.append(fixture)
            busy = Counter(bot for it in running for bot in it.bots)
            assert max(busy.values()) <= games_a_bot and waiting.running == len(running)
        if not running:
            break
        draw.shuffle(running)
        played.append(running.pop())
        waiting.leave(played[-1])
    assert sorted(it.name for it in played) == [it.name for it in games]


def test_all_bots_of_a_round_robin_play_at_once() -> None:
    """With one game a bot the first games of 64 bots are 32 of all of them."""
    waiting = Schedule(fixtures(64), 1)
    begun = [waiting.next() for _ in range(32)]
    assert len({bot for it in begun if it is not None for bot in it.bots}) == 64
    assert waiting.next() is None


def test_fewer_games_begin_while_the_ladder_is_late(monkeypatch: pytest.MonkeyPatch) -> None:
    monkeypatch.setattr(schedule, "CALM_SECONDS", 600.0)

    async def work() -> None:
        pulse = Pulse(1000.0)
        async with pulse:
            pace = Pace(16, pulse)
            assert pace.may_begin(15) and not pace.may_begin(16)
            pulse.lagged_at = pace.looked_at
            assert not pace.may_begin(15) and pace.allowed == 11
            for _ in range(20):
                pulse.lagged_at = asyncio.get_running_loop().time()
                pace.may_begin(pace.allowed)
                await asyncio.sleep(0.001)
            assert pace.allowed == 1 and pace.may_begin(0) and not pace.may_begin(1)
            monkeypatch.setattr(schedule, "CALM_SECONDS", 0.05)
            async with asyncio.timeout(20):
                while not pace.may_begin(15):
                    await asyncio.sleep(0.01)
            assert pace.allowed == 16

    asyncio.run(work())


def finished(name: str, *bots: str) -> Outcome:
    finishes = tuple(Finish(bot, SeatResult.DRAW, None, None, None, 3, 40) for bot in bots)
    return Outcome(name, 1, 40, 43, "0" * 64, finishes)


def test_summary_has_one_game_and_more_games_than_the_rounds() -> None:
    for done, fixtures, said in (
        (0, 1, "1 of 1 game is done, 1 of them now; 0 turns in "),
        (0, 0, "1 game is done, 1 of them now; 0 turns in "),
        (1, 2, "2 of 2 games are done, 1 of them now; 0 turns in "),
        (2, 2, "3 games are done, 1 of them now; 0 turns in "),
    ):
        counts = Counts()
        counts.begin(done, fixtures)
        counts.end(finished("r0001-t001", "left", "right"))
        assert counts.summary()[0].startswith(said)


def test_bot_that_answers_slower_with_more_games_is_named() -> None:
    counts = Counts()
    for games in (1, 2):
        counts.show(Fixture(f"r0001-t00{games}", 1, ("slow", f"other{games}")), board_with())
        for _ in range(40):
            counts.count(
                {"slow": Answer("up", None, 15 * games), "other1": Answer("up", None, 9)}, None
            )
    counts.end(finished("r0001-t002", "slow", "other2"))
    assert counts.strain.playing["slow"] == 1
    assert counts.summary()[2:] == []
    for _ in range(60):
        counts.show(Fixture("r0001-t003", 1, ("slow", "other2")), board_with())
        counts.count({"slow": Answer("up", None, 80, is_lagged=True)}, None)
    assert counts.summary()[2:] == [
        "the ladder itself was late in 60 turns: play fewer games at once",
        "slow answers in 15 ms while it plays 1 game at once, in 80 ms while it plays 2: a smaller "
        "games_a_bot may serve it better",
    ]
