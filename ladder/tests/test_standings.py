"""Tests results, ratings and standings with known outcomes."""

from __future__ import annotations

import csv
import io
import json
import math
import random
import sqlite3
from collections import Counter
from pathlib import Path
from typing import Any

import pytest
from served import board_with, least_work

from arena_client import Cause
from arena_ladder.game.outcome import Finish, Outcome, SeatResult, Tally, finishes_of
from arena_ladder.net.bots import Bot
from arena_ladder.net.misses import Miss
from arena_ladder.results.merge import merge
from arena_ladder.results.quantiles import quantile
from arena_ladder.results.rating import ratings
from arena_ladder.results.standings import as_csv, as_json, cells_of, standings_of
from arena_ladder.results.store import Store, StoreFault, open_store

IDENTITY = {"seed": 1, "bots": ["a", "b", "c"]}
BOTS = [Bot(name, f"http://127.0.0.1:1/{name}") for name in "abc"]


def snake(name: str, out: int | None, cause: str | None = None, by: str | None = None) -> Any:
    body = [{"x": 0, "y": 0}] * 3
    return {"id": name, "out": out, "cause": cause, "by": by, "body": body, "health": 9}


def results(over: bool, *snakes: Any) -> list[SeatResult]:
    board = board_with(snakes=list(snakes), over=over, turn=30)
    return [finish.result for finish in finishes_of(board)]


WALL = "wall-collision"


def test_results_are_those_of_who_lives() -> None:
    assert results(True, snake("a", None), snake("b", 9, WALL)) == ["win", "loss"]
    assert results(True, snake("a", 9, WALL), snake("b", 9, WALL)) == ["draw", "draw"]
    assert results(True, snake("a", 9, WALL), snake("b", 9, WALL), snake("c", 3, WALL)) == [
        *("draw", "draw", "loss")
    ]
    assert results(False, snake("a", None), snake("b", None), snake("c", 3, WALL)) == [
        *("draw", "draw", "loss")
    ]
    assert results(True, snake("a", 9, WALL)) == [""]


def test_equal_bots_have_equal_ratings() -> None:
    found = ratings(["a", "b"], [[("a", 1.0), ("b", 2.0)], [("a", 2.0), ("b", 1.0)]])
    assert found["a"].elo == pytest.approx(1500) and found["b"].elo == pytest.approx(1500)


def test_ratings_are_the_logarithm_of_the_odds() -> None:
    """With many games the added draws are negligible: ten to one is 400 points."""
    games = [[("a", 2.0), ("b", 1.0)]] * 10_000 + [[("a", 1.0), ("b", 2.0)]] * 1_000
    found = ratings(["a", "b"], games)
    assert found["a"].elo - found["b"].elo == pytest.approx(400, abs=0.5)
    # The variance of the log odds of n independent games of share p is 1 / (n p (1 - p)); half of
    # the difference is the distance to the mean.
    exact = 1.96 * 400 / math.log(10) * math.sqrt(1 / (11_000 * (10 / 11) * (1 / 11))) / 2
    assert found["a"].error == pytest.approx(exact, rel=0.01)
    assert found["b"].error == pytest.approx(exact, rel=0.01)


def test_errors_shrink_with_the_root_of_the_games() -> None:
    game = [[("a", 2.0), ("b", 1.0)], [("a", 1.0), ("b", 2.0)]]
    few, many = ratings(["a", "b"], game * 100), ratings(["a", "b"], game * 400)
    assert few["a"].error / many["a"].error == pytest.approx(2, rel=0.01)


def test_undefeated_bots_have_finite_ratings() -> None:
    found = ratings(["a", "b", "c"], [[("a", 2.0), ("b", 1.0)]] * 50)
    assert found["a"].elo > found["c"].elo > found["b"].elo
    assert all(math.isfinite(it.elo) and it.error > 0 for it in found.values())
    assert sum(it.elo for it in found.values()) == pytest.approx(4500)


def test_games_of_four_count_as_three_of_two() -> None:
    """A game of four, equally often won by each, has the error of three games of two."""
    names = ["a", "b", "c", "d"]
    tables = [
        [(name, float(rank)) for rank, name in enumerate(names[at:] + names[:at])]
        for at in range(4)
    ]
    turned = [list(reversed([(name, 3 - rank) for name, rank in table])) for table in tables]
    four = ratings(names, (tables + turned) * 50)
    pairs = [
        [(a, x), (b, y)] for a in names for b in names if a < b for x, y in ((1.0, 2.0), (2.0, 1.0))
    ]
    two = ratings(names, pairs * 100)  # 1,200 games of two, as 400 of four count
    assert four["a"].elo == pytest.approx(1500)
    assert four["a"].error == pytest.approx(two["a"].error, rel=0.01)


def test_ratings_of_200_bots_take_little_time() -> None:
    """About 0.2 s of the processor for 4,000 games at most, whatever other programs run."""
    draw = random.Random(3)
    names = [f"bot{at}" for at in range(200)]
    pairs = [draw.sample(range(200), 2) for _ in range(4000)]
    games = [
        [(names[one], 1.0 + (draw.random() < 1 / (1 + 1.02 ** (other - one)))), (names[other], 1.5)]
        for one, other in pairs
    ]
    assert least_work(lambda: ratings(names, games)) < 60
    found = ratings(names, games)
    assert sum(it.elo for it in found.values()) == pytest.approx(200 * 1500)
    assert found["bot150"].elo > found["bot100"].elo > found["bot50"].elo


def test_ratings_of_no_and_of_one_bot() -> None:
    assert ratings([], []) == {}
    assert ratings(["a"], [])["a"].elo == pytest.approx(1500)


def test_quantiles_are_values_that_were_counted() -> None:
    assert quantile(Counter(), 0.5) is None
    assert quantile(Counter({7: 1}), 0.99) == 7
    assert quantile(Counter({1: 50, 2: 49, 500: 1}), 0.5) == 1
    assert quantile(Counter({1: 50, 2: 49, 500: 1}), 0.99) == 2
    assert quantile(Counter({1: 50, 2: 48, 500: 2}), 0.99) == 500


def outcome(name: str, winner: str, loser: str) -> Outcome:
    won = Finish(winner, SeatResult.WIN, None, None, None, 5, 30)
    lost = Finish(loser, SeatResult.LOSS, 30, Cause.SNAKE_COLLISION, winner, 4, 30)
    return Outcome(name, 1, 30, 33, "0" * 64, (won, lost))


def tallies(late: int = 0) -> dict[str, Tally]:
    missed = Counter({Miss.LATE: late}) if late else Counter()
    return {name: Tally(Counter({3: 29, 500: 1}), missed) for name in "abc"}


def fill(folder: Path, *games: tuple[Outcome, dict[str, Tally]]) -> Path:
    (folder / "games").mkdir(parents=True)
    store = Store(folder)
    store.begin(IDENTITY, BOTS)
    store.add(games)
    store.close()
    for it, _ in games:
        (folder / "games" / f"{it.name}.jsonl").write_text(it.name)
    return folder


def rows_of(folder: Path) -> list[dict[str, Any]]:
    store = open_store(folder)
    rows: list[dict[str, Any]] = json.loads(as_json(standings_of(store)))
    store.close()
    return rows


def test_results_and_causes_are_stored_as_texts(tmp_path: Path) -> None:
    game = (outcome("r0001-t001", "a", "b"), tallies(late=2))
    store = open_store(fill(tmp_path / "x", game))
    seats = store.base.execute("SELECT result, typeof(result), cause FROM seat ORDER BY seat")
    assert seats.fetchall() == [("win", "text", None), ("loss", "text", "snake-collision")]
    (read,) = store.outcomes()
    assert read == game[0]
    assert {type(it.result) for it in read.finishes} == {SeatResult}
    assert read.finishes[1].cause is Cause.SNAKE_COLLISION
    assert store.missed()["a"] == {Miss.LATE: 2} == store.tallies("r0001-t001")["a"].missed
    assert {type(it) for it in store.missed()["a"]} == {Miss}
    store.close()


@pytest.mark.parametrize("change", ["total SET result = 'bye'", "total_missed SET cause = 'bored'"])
def test_other_results_and_causes_are_refused(tmp_path: Path, change: str) -> None:
    store = open_store(fill(tmp_path / "x", (outcome("r0001-t001", "a", "b"), tallies(late=2))))
    with store.base:
        store.base.execute(f"UPDATE {change}")
    with pytest.raises(StoreFault, match="results.sqlite was changed"):
        standings_of(store)
    store.close()


@pytest.mark.parametrize("change", ["result = 'bye'", "cause = 'old age'"])
def test_other_results_and_causes_of_a_game_are_refused(tmp_path: Path, change: str) -> None:
    store = open_store(fill(tmp_path / "x", (outcome("r0001-t001", "a", "b"), tallies(late=2))))
    with store.base:
        store.base.execute(f"UPDATE seat SET {change}")
    with pytest.raises(StoreFault, match="results.sqlite was changed"):
        list(store.outcomes())
    assert "the sums in total" in store.sums.fault()
    store.close()


def test_standings_add_up(tmp_path: Path) -> None:
    folder = fill(
        tmp_path / "x",
        (outcome("r0001-t001", "a", "b"), tallies(late=2)),
        (outcome("r0001-t002", "a", "c"), tallies()),
    )
    store = open_store(folder)
    standings = standings_of(store)
    store.close()
    assert [it.bot for it in standings] == ["a", "b", "c"]
    row = standings[0].row()
    assert (row["games"], row["wins"], row["draws"], row["losses"]) == (2, 2, 0, 0)
    assert (row["turns"], row["moves"], row["missed"], row["late"]) == (60, 60, 2, 2)
    assert (row["median_ms"], row["p99_ms"]) == (3, 500)
    assert row["elo"] > 1500
    assert cells_of(standings[0])[-4:] == ["3 ms", "500 ms", "2", "late 2"]
    (first, *_) = csv.DictReader(io.StringIO(as_csv(standings)))
    assert {key: str(value) for key, value in row.items()} == first


def test_merged_parts_are_the_whole(tmp_path: Path) -> None:
    games = [
        (outcome("r0001-t001", "a", "b"), tallies(late=2)),
        (outcome("r0001-t002", "a", "c"), tallies()),
        (outcome("r0001-t003", "c", "b"), tallies(late=1)),
    ]
    whole = fill(tmp_path / "whole", *games)
    parts = [fill(tmp_path / "one", *games[:1]), fill(tmp_path / "two", *games[1:])]
    assert merge(tmp_path / "joined", parts) == 3
    assert rows_of(tmp_path / "joined") == rows_of(whole)
    assert merge(tmp_path / "joined", parts) == 0
    assert sorted(path.name for path in (tmp_path / "joined" / "games").iterdir()) == [
        *("r0001-t001.jsonl", "r0001-t002.jsonl", "r0001-t003.jsonl")
    ]


def test_folders_that_do_not_fit_are_not_merged(tmp_path: Path) -> None:
    one = fill(tmp_path / "one", (outcome("r0001-t001", "a", "b"), tallies()))
    other = fill(tmp_path / "other", (outcome("r0001-t001", "b", "a"), tallies()))
    with pytest.raises(StoreFault, match="is another game"):
        merge(tmp_path / "joined", [one, other])
    with pytest.raises(StoreFault, match="has no results"):
        merge(tmp_path / "joined", [one, tmp_path / "none"])
    store = open_store(one)
    with pytest.raises(StoreFault, match="another ladder: seed differs"):
        store.begin({**IDENTITY, "seed": 2}, BOTS)
    store.close()


def test_folder_that_may_not_be_written_is_named(
    tmp_path: Path, monkeypatch: pytest.MonkeyPatch
) -> None:
    """SQLite wants to finish the write of a killed ladder, and may not."""

    class Base:
        def execute(self, _: str) -> None:
            raise sqlite3.OperationalError("attempt to write a readonly database")

        executescript = execute

    monkeypatch.setattr(sqlite3, "connect", lambda *_, **__: Base())
    with pytest.raises(StoreFault, match="as its owner once, or read a copy"):
        Store(tmp_path)


def test_names_of_games_are_checked(tmp_path: Path) -> None:
    folder = fill(tmp_path / "x", (outcome("r0001-t001", "a", "b"), tallies()))
    store = open_store(folder)
    store.base.execute("UPDATE game SET name = '../../etc/passwd'")
    store.base.commit()
    store.close()
    with pytest.raises(StoreFault, match="a game named"):
        merge(tmp_path / "joined", [folder])
