"""Tests of the sums of all games, from which standings and the pages of bots are made."""

from __future__ import annotations

import random
import sqlite3
from collections import Counter
from contextlib import closing
from pathlib import Path

import pytest
from served import least_work
from synthetic import BOTS, drawn_games, fill_quickly

from arena_ladder.game.outcome import Outcome
from arena_ladder.net.bots import Bot
from arena_ladder.results import history, sums as sums_of_games
from arena_ladder.results.history import OverTime, games_of, record_of
from arena_ladder.results.rating import Comparisons, Rating, ratings, ratings_from
from arena_ladder.results.standings import standings_of
from arena_ladder.results.store import Store, open_store
from arena_ladder.results.sums import FROM_ROWS

GAMES = 300


def ended(it: Outcome) -> list[tuple[str, float]]:
    """The turns that each bot of a game lived."""
    return [(row.bot, float("inf") if row.out is None else row.out) for row in it.finishes]


@pytest.fixture(scope="module")
def folder(tmp_path_factory: pytest.TempPathFactory) -> Path:
    """A folder with drawn games of two to four snakes, which were stored one by one."""
    folder = tmp_path_factory.mktemp("sums") / "x"
    folder.mkdir()
    with closing(Store(folder)) as store:
        store.begin({"seed": 1}, [Bot(name, "http://127.0.0.1:1/") for name in BOTS])
        for game in drawn_games(GAMES, random.Random(1)):
            store.add([game])
    return folder


def test_standings_and_records_are_those_of_all_games(folder: Path) -> None:
    games = [it for it, _ in drawn_games(GAMES, random.Random(1))]
    expected = ratings(list(BOTS), [ended(it) for it in games])
    with closing(open_store(folder)) as store:
        rows = {it.bot: it for it in standings_of(store)}
        for bot in BOTS:
            seats = [row for it in games for row in it.finishes if row.bot == bot]
            assert rows[bot].rating.elo == pytest.approx(expected[bot].elo, abs=1e-6)
            assert rows[bot].rating.error == pytest.approx(expected[bot].error, abs=1e-6)
            assert rows[bot].results == Counter(it.result for it in seats)
            assert (rows[bot].games, rows[bot].turns) == (len(seats), sum(it.turns for it in seats))
            met = [ended(it) for it in games if bot in dict(ended(it))]
            against = {it["bot"]: it for it in record_of(store, bot)["against"]}
            for other in set(BOTS) - {bot}:
                both = [(dict(it)[bot], dict(it)[other]) for it in met if other in dict(it)]
                found = against[other]
                assert found["games"] == len(both)
                assert found["outlived"] == sum(its > others for its, others in both)
                assert found["equal"] == sum(its == others for its, others in both)
            last = games_of(store, bot, 10**17, 5)["games"]
            assert [it["game"] for it in last] == [
                it.name for it in games[::-1] if bot in dict(ended(it))
            ][:5]


def test_sums_as_games_end_are_those_of_the_rows(folder: Path) -> None:
    with closing(open_store(folder)) as store:
        assert store.sums.fault() == ""
        grown = {table: sorted(store.sums.rows(f"SELECT * FROM {table}")) for table in FROM_ROWS}
        tables = [*FROM_ROWS, "summed"]
        for table in tables:
            store.base.execute(f"DROP TABLE {table}")
        store.base.commit()
    with closing(open_store(folder)) as store:
        for table in FROM_ROWS:
            assert sorted(store.sums.rows(f"SELECT * FROM {table}")) == grown[table]


def test_blocks_of_games_are_joined_and_add_up(folder: Path) -> None:
    with closing(open_store(folder)) as store:
        ((shift,),) = store.sums.rows("SELECT shift FROM summed")
        assert shift == 3  # 300 games in blocks of eight: 38
        whole = "SELECT one, other, seats, SUM(games), SUM(outlived), SUM(equal) FROM pair"
        both = [f"{whole} WHERE block {where} GROUP BY 1, 2, 3" for where in ("< 0", ">= 0")]
        assert store.sums.rows(both[0]) == store.sums.rows(both[1])
        over_time = OverTime().read(store)
        rows = {it.bot: round(it.rating.elo, 1) for it in standings_of(store)}
    for bot in BOTS:
        assert len(over_time[bot]) <= sums_of_games.MOST_BLOCKS
        assert over_time[bot][-1][:2] == (GAMES, rows[bot])
        assert [it[0] for it in over_time[bot]][-2:] == [296, 300]


def test_ratings_after_full_blocks_are_computed_once(
    tmp_path: Path, monkeypatch: pytest.MonkeyPatch
) -> None:
    """They are those that are computed anew, also after blocks are joined and a bot has come."""
    rated: list[int] = []

    def count(results: Comparisons) -> dict[str, Rating]:
        rated.append(1)
        return ratings_from(results)

    monkeypatch.setattr(history, "ratings_from", count)
    over_time = OverTime()
    with closing(Store(tmp_path)) as store:
        store.begin({"pairing": "rating"}, [Bot(name, "http://h") for name in BOTS])
        for at, game in enumerate(drawn_games(130, random.Random(4)), 1):
            store.add([game])
            if at == 70:
                store.begin({"pairing": "rating"}, [Bot("late", "http://h")])
            if at % 7 == 0:
                assert over_time.read(store) == OverTime().read(store)
        over_time.read(store)
        rated.clear()
        assert over_time.read(store) == OverTime().read(store)
        assert len(rated) == 1 + 33  # there are 33 blocks of four, of which the last is not full


def test_sum_that_was_changed_is_named(folder: Path, tmp_path: Path) -> None:
    with closing(open_store(folder)) as store, closing(sqlite3.connect(":memory:")) as copy:
        store.base.backup(copy)
        sums = sums_of_games.Sums(copy)
        copy.execute("UPDATE total_latency SET moves = moves + 1 WHERE ms = 3")
        copy.execute("UPDATE pair SET outlived = outlived + 1 WHERE block = -1")
        assert sums.fault() == "the sums in total_latency, pair are not those of the games"


def test_folder_without_sums_that_may_not_be_written_is_read(folder: Path, tmp_path: Path) -> None:
    """Those of earlier versions have none, and their reader may not be their owner."""
    other = tmp_path / "x"
    other.mkdir()
    with closing(open_store(folder)) as store:
        expected = [it.row() for it in standings_of(store)]
        with closing(sqlite3.connect(other / "results.sqlite")) as copy:
            store.base.backup(copy)
            for table in [*FROM_ROWS, "summed", "snapshot"]:
                copy.execute(f"DROP TABLE {table}")
            copy.commit()
    connect = sqlite3.connect

    def read(path: Path, **_: object) -> sqlite3.Connection:
        return connect(f"file:{path}?mode=ro", uri=True)

    with pytest.MonkeyPatch.context() as patch:
        patch.setattr(sqlite3, "connect", read)
        with closing(open_store(other)) as store:
            assert [it.row() for it in standings_of(store)] == expected


@pytest.mark.slow
def test_standings_of_many_games_take_no_longer(tmp_path: Path) -> None:
    """Forty bots and 5,000 games: about a tenth of a second of processor time at most."""
    fill_quickly(tmp_path / "x", 5_000, bots=40)
    open_store(tmp_path / "x").close()  # makes the sums

    def show() -> None:
        with closing(open_store(tmp_path / "x")) as store:
            standings_of(store)
            record_of(store, "bot00")
            games_of(store, "bot00", 10**17, 20)

    assert least_work(show) < 40
