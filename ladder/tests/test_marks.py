"""What standings and pages say of bots and ladders: marks, changes by day, the ladder's name."""

from __future__ import annotations

import asyncio
import json
from contextlib import closing
from datetime import date
from pathlib import Path
from typing import Any

import pytest
from served import run_ladder

from arena_ladder.game.config import ConfigFault, config_of
from arena_ladder.game.game_files import make_folders
from arena_ladder.game.outcome import Finish, Outcome, SeatResult, Tally
from arena_ladder.game.pairing import Part
from arena_ladder.game.watch import Watch
from arena_ladder.page.days import MOST_DAYS, with_days
from arena_ladder.results.about import about_of, write_about
from arena_ladder.results.marks import FEW_GAMES
from arena_ladder.results.roster import add, add_config_bots, mark, replace
from arena_ladder.results.store import Store
from arena_ladder.run.play import Job, play

BOTS = [{"name": name, "url": "http://127.0.0.1:1"} for name in ("a", "b", "c", "d")]


def endless(folder: Path, **members: Any) -> Any:
    return config_of({"folder": str(folder), "bot": BOTS, "pairing": "rating", **members}, "here")


def store_game(store: Store, number: int, winner: str, loser: str) -> None:
    results = ((winner, SeatResult.WIN, None), (loser, SeatResult.LOSS, 7))
    finishes = tuple(Finish(bot, it, out, None, None, 3, 9) for bot, it, out in results)
    outcome = Outcome(f"r{number:04}-t001", number, 9, 12, "digest", finishes)
    store.add([(outcome, {winner: Tally(), loser: Tally()})])


@pytest.fixture
def folder(tmp_path: Path) -> Path:
    """An endless ladder in which a and b have played enough, and c and d not."""
    with closing(Store(tmp_path)) as store:
        config = endless(tmp_path)
        store.begin(config.identity, config.bots)
        add_config_bots(store, config.bots)
        for number in range(1, FEW_GAMES + 1):
            store_game(store, number, "a", "b")
        store_game(store, FEW_GAMES + 1, "c", "d")
    return tmp_path


def marked(folder: Path) -> list[tuple[str, str]]:
    rows = json.loads(run_ladder("standings", folder, "--json").stdout)
    return [(row["bot"], row["mark"]) for row in rows]


def test_new_resting_and_removed_bots_are_marked(folder: Path) -> None:
    """Removed ones and old versions come last, whatever their rating."""
    assert dict(marked(folder)) == {"a": "", "b": "", "c": "new", "d": "new"}
    replace(folder, "a", "http://127.0.0.1:2")
    mark(folder, "pause", "b")
    mark(folder, "remove", "c")
    found = marked(folder)
    assert dict(found) == {"a": "removed", "a@2": "new", "b": "rests", "c": "removed", "d": "new"}
    assert {bot for bot, _ in found[-2:]} == {"a", "c"}
    add(folder, "c", "http://127.0.0.1:1")
    assert dict(marked(folder))["c"] == "new"
    table = run_ladder("standings", folder).stdout
    assert "a (removed)" in table and "b (rests)" in table


class Says(Watch):
    """Keeps messages."""

    def __init__(self) -> None:
        self.said: list[str] = []

    def say(self, text: str) -> None:
        self.said.append(text)


def test_bot_that_is_gone_is_named_once(program: Path, tmp_path: Path) -> None:
    """At a start, and at each later one."""
    config = endless(tmp_path, rounds=1, timeout=2000)
    make_folders(tmp_path)
    for _ in range(2):
        says = Says()
        with closing(Store(tmp_path)) as store:
            asyncio.run(play(Job(config, tmp_path, Part(1, 1), program), store, [says]))
        named = [line.split()[0] for line in says.said if "did not say how it looks" in line]
        assert sorted(named) == ["a", "b", "c", "d"]


def test_changes_are_since_the_last_earlier_day(tmp_path: Path) -> None:
    def rows(**elos: int) -> list[dict[str, Any]]:
        return [{"bot": bot, "elo": elo, "games": 1} for bot, elo in elos.items()]

    def days(on: date, **elos: int) -> list[int | None]:
        return [row["day"] for row in with_days(tmp_path, rows(**elos), on)]

    assert days(date(2026, 11, 1), a=1500, b=1500) == [None, None]
    assert days(date(2026, 11, 1), a=1600, b=1400) == [None, None]
    assert days(date(2026, 11, 3), a=1620, b=1400, c=1500) == [120, -100, None]
    assert days(date(2026, 11, 4), a=1625, b=1400, c=1490) == [5, 0, -10]
    for day in range(5, 30):
        days(date(2026, 11, day), a=1500)
    assert len(list((tmp_path / "days").iterdir())) == MOST_DAYS
    (tmp_path / "days/2026-11-29.json").write_text("[")
    assert days(date(2026, 11, 30), a=1500) == [None]


def test_page_says_what_is_played_and_how_to_enter(tmp_path: Path) -> None:
    config = endless(tmp_path, name="Royale", enter="Ask\n\x1bme", map="royale", timeout=400)
    with closing(Store(tmp_path)) as store:
        store.begin(config.identity, config.bots)
        assert about_of(store, tmp_path)["name"] == tmp_path.name
        write_about(config)
        about = about_of(store, tmp_path)
    assert (about["name"], about["enter"]) == ("Royale", "Ask\nme")
    assert about["facts"] == [
        *("standard", "map royale, hazard damage 14", "11 by 11", "2 snakes"),
        *("400 ms for a move", "endless"),
    ]
    with pytest.raises(ConfigFault, match="name has to be a text of at most 80 letters"):
        endless(tmp_path, name="x" * 81)
