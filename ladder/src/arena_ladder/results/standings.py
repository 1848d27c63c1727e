"""The standings of a ladder, as a table, as CSV and as JSON."""

from __future__ import annotations

import csv
import io
import json
from collections import Counter
from collections.abc import Iterable, Mapping
from dataclasses import dataclass, field
from typing import Any

from rich.table import Table
from rich.text import Text

from arena_ladder.game.outcome import SeatResult
from arena_ladder.net.misses import Miss
from arena_ladder.results.marks import Mark, mark_of, marks_of
from arena_ladder.results.quantiles import quantile
from arena_ladder.results.rating import Comparisons, Rating, ratings_from
from arena_ladder.results.store import Store
from arena_ladder.results.sums import ALL
from arena_ladder.texts import cell_text, printable


@dataclass
class Standing:
    """The totals of one bot over all its games."""

    bot: str
    games: int = 0
    results: Counter[SeatResult] = field(default_factory=Counter)
    turns: int = 0  # in which its snakes lived
    rating: Rating = Rating(0.0, 0.0)
    latencies: Mapping[int, int] = field(default_factory=dict)
    missed: Mapping[Miss, int] = field(default_factory=dict)
    mark: Mark = Mark.NONE

    def row(self) -> dict[str, Any]:
        """The columns of the standings by their names, with each cause of missed moves."""
        return {
            "bot": self.bot,
            "mark": self.mark,
            "games": self.games,
            "wins": self.results[SeatResult.WIN],
            "draws": self.results[SeatResult.DRAW],
            "losses": self.results[SeatResult.LOSS],
            "turns": self.turns,
            "elo": round(self.rating.elo),
            "error": round(self.rating.error),
            "median_ms": quantile(self.latencies, 0.5),
            "p99_ms": quantile(self.latencies, 0.99),
            "moves": sum(self.latencies.values()),
            "missed": sum(self.missed.values()),
            **{cause: self.missed.get(cause, 0) for cause in Miss},
        }


def standings_of(store: Store) -> list[Standing]:
    """The standings of the games that are done, from the highest rating to the lowest."""
    missed, latencies = store.missed(), store.latencies()
    marks = marks_of(store)
    table = {bot.name: Standing(bot.name) for bot in store.bots()}
    for bot, result, games, turns in store.results_of_bots():
        standing = table[bot]
        standing.games += games
        standing.results[result] += games
        standing.turns += turns
    rated = ratings_from(comparisons_of(store, list(table)))
    for name, standing in table.items():
        standing.rating = rated[name]
        standing.latencies = latencies.get(name, {})
        standing.missed = missed.get(name, {})
        standing.mark = mark_of(marks, name, standing.games)
    return sorted(table.values(), key=place_of)


def comparisons_of(store: Store, names: list[str]) -> Comparisons:
    """How often each bot outlived each other one, in all games."""
    compared = Comparisons(names, store.replaced())
    pairs = "SELECT one, other, seats, games, outlived, equal FROM pair WHERE block = ?"
    compared.add_games(store.sums.rows(pairs, ALL))
    return compared


def place_of(standing: Standing) -> tuple[bool, float, int, str]:
    """The sort key: rating, then turns lived, which decide in solo, then name; the bots that were
    removed come last."""
    is_gone = standing.mark is Mark.REMOVED
    return (is_gone, -round(standing.rating.elo, 6), -standing.turns, standing.bot)


def as_table(standings: Iterable[Standing]) -> Table:
    """A table for a terminal."""
    table = Table(box=None, pad_edge=False)
    for title in ("bot", "games", "won", "drawn", "lost", "turns", "Elo", "±", "median", "99 %"):
        table.add_column(title, justify="left" if title == "bot" else "right", no_wrap=True)
    table.add_column("missed", justify="right", no_wrap=True)
    table.add_column("by cause")
    for standing in standings:
        table.add_row(*map(Text, cells_of(standing)))
    return table


def cells_of(standing: Standing) -> list[str]:
    row = standing.row()
    numbers = ("games", "wins", "draws", "losses", "turns", "elo", "error")
    times = ["-" if row[name] is None else f"{row[name]} ms" for name in ("median_ms", "p99_ms")]
    causes = ", ".join(f"{cause} {row[cause]}" for cause in Miss if row[cause]) or "-"
    mark = f" ({row['mark']})" if row["mark"] else ""
    return [
        printable(row["bot"]) + mark,
        *(str(row[name]) for name in numbers),
        *times,
        str(row["missed"]),
        causes,
    ]


def as_csv(standings: Iterable[Standing]) -> str:
    """Lines of CSV after a line with the names of the columns."""
    rows = [standing.row() for standing in standings]
    text = io.StringIO()
    writer = csv.DictWriter(text, list(rows[0]) if rows else [], lineterminator="\n")
    writer.writeheader()
    writer.writerows({**row, "bot": cell_text(row["bot"])} for row in rows)
    return text.getvalue()


def as_json(standings: Iterable[Standing]) -> str:
    return json.dumps([standing.row() for standing in standings], indent=2) + "\n"
