"""What the page reads from the results: finished games, and the record of each bot."""

from __future__ import annotations

from copy import deepcopy
from itertools import groupby
from operator import itemgetter
from typing import Any

from arena_ladder.results.quantiles import quantile
from arena_ladder.results.rating import Comparisons, Pair, ratings_from
from arena_ladder.results.store import Store
from arena_ladder.results.sums import LAST_MISSES

GAMES = """
SELECT rowid, name, round, turns FROM game WHERE rowid < :before ORDER BY rowid DESC LIMIT :count
"""
GAMES_OF_BOT = """
SELECT rowid, name, round, turns FROM game WHERE rowid IN (
    SELECT number FROM played WHERE bot = :bot AND number < :before
    ORDER BY number DESC LIMIT :count) ORDER BY rowid DESC
"""
SEATS = """
SELECT bot, result, out, cause, killer, length, turns,
    (SELECT COALESCE(SUM(moves), 0) FROM missed AS m WHERE m.game = s.game AND m.seat = s.seat)
FROM seat AS s WHERE game = ? ORDER BY seat
"""
SEAT_MEMBERS = ("bot", "result", "out", "cause", "killer", "length", "turns", "missed")
AGAINST = """
SELECT bot, SUM(games), SUM(outlived), SUM(equal) FROM (
    SELECT other AS bot, games, outlived, equal FROM pair WHERE block = -1 AND one = :bot
    UNION ALL
    SELECT one, games, games - outlived - equal, equal FROM pair WHERE block = -1 AND other = :bot)
GROUP BY bot ORDER BY SUM(games) DESC, bot
"""
DEATHS = "SELECT cause, games FROM total_death WHERE bot = ? ORDER BY games DESC, cause"
LATENCIES = "SELECT ms, moves FROM total_latency WHERE bot = ?"
MISSED = """
SELECT name, cause, moves FROM last_missed JOIN game ON game.rowid = number
WHERE bot = ? ORDER BY number DESC, cause LIMIT ?
"""
BLOCKS = """
SELECT block, one, other, seats, games, outlived, equal FROM pair WHERE block >= ?
ORDER BY block
"""

Point = tuple[int, float, float]  # the games of the ladder so far, a rating, and its error


def bots_of(store: Store) -> list[str]:
    """The names of the bots, in the order in which the ladder has them."""
    return [name for (name,) in store.base.execute("SELECT name FROM bot ORDER BY rowid")]


def games_of(store: Store, bot: str, before: int, count: int) -> dict[str, Any]:
    """Games that are done, the newest first: those of one bot, or of all if `bot` is empty.

    `next` is the `before` of the games that follow; None if there are no more.
    """
    given = {"bot": bot, "before": before, "count": count}
    games, at = [], None
    question = GAMES_OF_BOT if bot else GAMES
    for at, name, number, turns in store.base.execute(question, given).fetchall():
        seats = [dict(zip(SEAT_MEMBERS, row)) for row in store.base.execute(SEATS, (name,))]
        games.append({"game": name, "round": number, "turns": turns, "seats": seats})
    return {"games": games, "next": at if len(games) == count else None}


def record_of(store: Store, bot: str) -> dict[str, Any]:
    """How a bot did: against each other bot, its deaths, its latency, its last missed moves."""
    base = store.base
    members = ("bot", "games", "outlived", "equal")
    latencies = dict(base.execute(LATENCIES, (bot,)).fetchall())
    missed = base.execute(MISSED, (bot, LAST_MISSES)).fetchall()
    return {
        "bot": bot,
        "against": [dict(zip(members, row)) for row in base.execute(AGAINST, {"bot": bot})],
        "deaths": dict(base.execute(DEATHS, (bot,)).fetchall()),
        "moves": sum(latencies.values()),
        "median_ms": quantile(latencies, 0.5),
        "p99_ms": quantile(latencies, 0.99),
        "missed": [dict(zip(("game", "cause", "moves"), row)) for row in missed],
    }


class OverTime:
    """The rating of each bot after each block of games of the season, from its first game on.

    What follows from full blocks is kept, until bots or blocks change: only the last one grows.
    """

    def __init__(self) -> None:
        self.key: object = None  # of what is kept
        self.begin_anew([], {})

    def begin_anew(self, names: list[str], replaced: dict[str, str]) -> None:
        self.blocks = 0  # that are full
        self.results = Comparisons(names, replaced)
        self.points: dict[str, list[Point]] = {name: [] for name in names}

    def read(self, store: Store) -> dict[str, list[Point]]:
        first = store.sums.first()
        count = store.count_games() - first
        ((shift,),) = store.sums.rows("SELECT shift FROM summed")
        names, replaced = bots_of(store), store.replaced()
        key = (first, shift, names, replaced)
        if key != self.key:
            self.begin_anew(names, replaced)
        self.key = None  # a read that fails keeps nothing
        results, points = self.results, self.points
        for block, rows in groupby(store.sums.rows(BLOCKS, self.blocks), key=itemgetter(0)):
            at = (block + 1) << shift
            if at > count and results is self.results:
                results, points = self.copied()
            add_points(results, points, [row[1:] for row in rows], min(at, count))
            if results is self.results:
                self.blocks = block + 1
        self.key = key
        return {name: list(it) for name, it in points.items()}

    def copied(self) -> tuple[Comparisons, dict[str, list[Point]]]:
        return deepcopy(self.results), {name: list(it) for name, it in self.points.items()}


def add_points(
    results: Comparisons, points: dict[str, list[Point]], pairs: list[Pair], at: int
) -> None:
    """Adds the pairs of a block, and a point for each bot that has played by then."""
    results.add_games(pairs)
    fresh = {name for pair in pairs for name in pair[:2]}
    for name, rating in ratings_from(results).items():
        if points[name] or name in fresh:
            points[name].append((at, round(rating.elo, 1), round(rating.error, 1)))
