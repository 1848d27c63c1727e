"""Sums over all games of a folder, which grow with each game that is stored.

So the standings and a bot's page take as long for a million games as for a hundred. Pairs of bots
are also kept by blocks of games, for ratings over time: when there are too many blocks, each two
become one, of twice the games.
"""

from __future__ import annotations

import sqlite3
import sys
from collections.abc import Mapping
from itertools import combinations
from typing import Any

from arena_ladder.game.outcome import Finish, Outcome, Tally

MOST_BLOCKS = 48
ALL = -1  # the block of all games
MANY = 20_000  # games whose sums take seconds to make
LAST_MISSES = 20  # of each bot, games with missed moves that are kept at hand
TABLES = """
CREATE {temp} TABLE IF NOT EXISTS total (
    bot TEXT NOT NULL, result TEXT NOT NULL, games INTEGER NOT NULL, turns INTEGER NOT NULL,
    PRIMARY KEY (bot, result)) WITHOUT ROWID;
CREATE {temp} TABLE IF NOT EXISTS total_death (
    bot TEXT NOT NULL, cause TEXT NOT NULL, games INTEGER NOT NULL,
    PRIMARY KEY (bot, cause)) WITHOUT ROWID;
CREATE {temp} TABLE IF NOT EXISTS total_missed (
    bot TEXT NOT NULL, cause TEXT NOT NULL, moves INTEGER NOT NULL,
    PRIMARY KEY (bot, cause)) WITHOUT ROWID;
CREATE {temp} TABLE IF NOT EXISTS total_latency (
    bot TEXT NOT NULL, ms INTEGER NOT NULL, moves INTEGER NOT NULL,
    PRIMARY KEY (bot, ms)) WITHOUT ROWID;
CREATE {temp} TABLE IF NOT EXISTS pair (
    block INTEGER NOT NULL, one TEXT NOT NULL, other TEXT NOT NULL, seats INTEGER NOT NULL,
    games INTEGER NOT NULL, outlived INTEGER NOT NULL, equal INTEGER NOT NULL,
    PRIMARY KEY (block, one, other, seats)) WITHOUT ROWID;
CREATE {temp} TABLE IF NOT EXISTS played (
    bot TEXT NOT NULL, number INTEGER NOT NULL, PRIMARY KEY (bot, number)) WITHOUT ROWID;
CREATE {temp} TABLE IF NOT EXISTS last_missed (
    bot TEXT NOT NULL, number INTEGER NOT NULL, cause TEXT NOT NULL, moves INTEGER NOT NULL,
    PRIMARY KEY (bot, number, cause)) WITHOUT ROWID;
CREATE {temp} TABLE IF NOT EXISTS summed (shift INTEGER NOT NULL, first INTEGER NOT NULL);
"""
SEATS = "game AS g JOIN seat AS s ON s.game = g.name"
FROM_ROWS = {  # the sums of the games behind number {first}, and lists of all games
    "total": f"SELECT bot, result, COUNT(*), SUM(s.turns) FROM {SEATS}"
    " WHERE g.rowid > {first} GROUP BY bot, result",
    "total_death": f"SELECT bot, cause, COUNT(*) FROM {SEATS}"
    " WHERE g.rowid > {first} AND cause IS NOT NULL GROUP BY bot, cause",
    "total_missed": f"SELECT bot, m.cause, SUM(moves) FROM {SEATS}"
    " JOIN missed AS m ON m.game = s.game AND m.seat = s.seat"
    " WHERE g.rowid > {first} GROUP BY bot, m.cause",
    "total_latency": f"SELECT bot, ms, SUM(moves) FROM {SEATS}"
    " JOIN latency AS m ON m.game = s.game AND m.seat = s.seat"
    " WHERE g.rowid > {first} GROUP BY bot, ms",
    "pair": "SELECT {block}, a.bot, b.bot,"
    " (SELECT COUNT(*) FROM seat AS c WHERE c.game = a.game) AS seats, COUNT(*),"
    " SUM(IFNULL(a.out, 1e9) > IFNULL(b.out, 1e9)), SUM(IFNULL(a.out, 1e9) = IFNULL(b.out, 1e9))"
    " FROM game AS g JOIN seat AS a ON a.game = g.name JOIN seat AS b ON b.game = a.game"
    " AND a.bot < b.bot WHERE g.rowid > {first} GROUP BY 1, 2, 3, 4",
    "played": "SELECT DISTINCT bot, g.rowid FROM game AS g JOIN seat ON seat.game = g.name",
    "last_missed": "SELECT bot, number, cause, moves FROM (SELECT bot, g.rowid AS number,"
    " m.cause AS cause, moves, DENSE_RANK() OVER (PARTITION BY bot ORDER BY g.rowid DESC) AS rank"
    " FROM missed AS m JOIN seat USING (game, seat) JOIN game AS g ON g.name = game)"
    f" WHERE rank <= {LAST_MISSES}",
}
OF_A_SEASON = ("total", "total_death", "total_missed", "total_latency", "pair")
COMPARED = ("total", "total_death", "total_missed", "total_latency", "played")


class Sums:
    """The sums in a folder's database."""

    def __init__(self, base: sqlite3.Connection) -> None:
        self.base = base

    def prepare(self) -> None:
        """Makes the tables, and fills them from the games of a folder that has none yet.

        A folder that may not be written gets them in memory.
        """
        if self.is_there():
            return
        begin = "BEGIN IMMEDIATE"
        try:
            self.base.executescript(TABLES.format(temp=""))
        except sqlite3.OperationalError as fault:
            if "readonly" not in str(fault):
                raise
            self.base.executescript(TABLES.format(temp="TEMP"))
            begin = "BEGIN"
        with self.base:
            self.base.execute(begin)
            if not self.is_there():
                self.fill()

    def is_there(self) -> bool:
        try:
            return self.base.execute("SELECT 1 FROM summed").fetchone() is not None
        except sqlite3.OperationalError as fault:
            if "no such table" not in str(fault):
                raise
            return False

    def fill(self) -> None:
        """Computes all sums from the rows of the games."""
        (count,) = self.base.execute("SELECT IFNULL(MAX(rowid), 0) FROM game").fetchone()
        shift = 0
        while max(0, count - 1) >> shift >= MOST_BLOCKS:
            shift += 1
        if count >= MANY:
            said = f"ladder: adding up {count:,} games, which is done once and takes a while"
            print(said, file=sys.stderr)
        self.base.execute("INSERT INTO summed VALUES (?, 0)", (shift,))
        for block in (str(ALL), f"(g.rowid - 1) >> {shift}"):
            rows = FROM_ROWS["pair"].format(block=block, first=0)
            self.base.execute(f"INSERT INTO pair {rows}")
        for table in FROM_ROWS.keys() - {"pair"}:
            self.base.execute(f"INSERT INTO {table} {FROM_ROWS[table].format(first=0)}")

    def first(self) -> int:
        """The number of the game behind which the sums begin."""
        (found,) = self.base.execute("SELECT first FROM summed").fetchone()
        return int(found)

    def begin_anew(self, first: int) -> None:
        """Forgets the sums of the games up to a number, in the transaction that is open."""
        for table in OF_A_SEASON:
            self.base.execute(f"DELETE FROM {table}")
        self.base.execute("UPDATE summed SET shift = 0, first = ?", (first,))

    def add(self, number: int, outcome: Outcome, tallies: Mapping[str, Tally]) -> None:
        """Adds a game, in the transaction that stores it; `number` is that of its row."""
        at = number - self.first()
        block = (at - 1) >> self.shift_for(at)
        for it in outcome.finishes:
            self.add_seat(number, it, tallies[it.bot])
        rows = [pair_of(one, other) for one, other in combinations(outcome.finishes, 2)]
        self.base.executemany(
            "INSERT INTO pair VALUES (?, ?, ?, ?, 1, ?, ?) ON CONFLICT DO UPDATE SET"
            " games = games + 1, outlived = outlived + excluded.outlived,"
            " equal = equal + excluded.equal",
            [
                (place, *names, len(outcome.finishes), *ends)
                for place in (ALL, block)
                for names, ends in rows
            ],
        )

    def add_seat(self, number: int, it: Finish, tally: Tally) -> None:
        base = self.base
        base.execute("INSERT INTO played VALUES (?, ?)", (it.bot, number))
        base.execute(
            "INSERT INTO total VALUES (?, ?, 1, ?) ON CONFLICT DO UPDATE SET"
            " games = games + 1, turns = turns + excluded.turns",
            (it.bot, it.result, it.turns),
        )
        if it.cause is not None:
            base.execute(
                "INSERT INTO total_death VALUES (?, ?, 1) ON CONFLICT DO UPDATE SET"
                " games = games + 1",
                (it.bot, it.cause),
            )
        moves = "VALUES (?, ?, ?) ON CONFLICT DO UPDATE SET moves = moves + excluded.moves"
        latencies = [(it.bot, *item) for item in tally.latencies.items()]
        base.executemany(f"INSERT INTO total_latency {moves}", latencies)
        if tally.missed:
            missed = [(it.bot, *item) for item in tally.missed.items()]
            base.executemany(f"INSERT INTO total_missed {moves}", missed)
            last = [(it.bot, number, *item) for item in tally.missed.items()]
            base.executemany("INSERT INTO last_missed VALUES (?, ?, ?, ?)", last)
            self.forget_misses(it.bot)

    def forget_misses(self, bot: str) -> None:
        """Keeps the missed moves of a bot's last games alone."""
        self.base.execute(
            "DELETE FROM last_missed WHERE bot = :bot AND number < (SELECT MIN(number) FROM"
            " (SELECT DISTINCT number FROM last_missed WHERE bot = :bot"
            f" ORDER BY number DESC LIMIT {LAST_MISSES}))",
            {"bot": bot},
        )

    def shift_for(self, number: int) -> int:
        """The size of the blocks, as a power of two, of which one has room for a game."""
        (shift,) = self.base.execute("SELECT shift FROM summed").fetchone()
        while (number - 1) >> shift >= MOST_BLOCKS:
            self.join_blocks()
            shift += 1
        return int(shift)

    def join_blocks(self) -> None:
        """Makes one block of each two."""
        rows = self.base.execute(
            "SELECT block / 2, one, other, seats, SUM(games), SUM(outlived), SUM(equal) FROM pair"
            " WHERE block >= 0 GROUP BY 1, 2, 3, 4"
        ).fetchall()
        self.base.execute("DELETE FROM pair WHERE block >= 0")
        self.base.executemany("INSERT INTO pair VALUES (?, ?, ?, ?, ?, ?, ?)", rows)
        self.base.execute("UPDATE summed SET shift = shift + 1")

    def fault(self) -> str:
        """Which sums are not those of the games, if any are not."""
        first = self.first()
        rows = {table: FROM_ROWS[table].format(block=ALL, first=first) for table in FROM_ROWS}
        wrong = [table for table in COMPARED if self.differs(table, rows[table])]
        pairs = rows["pair"]
        if self.differs("(SELECT * FROM pair WHERE block = -1)", pairs):
            wrong.append("pair")
        return f"the sums in {', '.join(wrong)} are not those of the games" if wrong else ""

    def differs(self, table: str, rows: str) -> bool:
        both = (f"SELECT * FROM {table}", f"SELECT * FROM ({rows})")
        return any(
            self.base.execute(f"{one} EXCEPT {other} LIMIT 1").fetchone()
            for one, other in (both, both[::-1])
        )

    def rows(self, question: str, *given: Any) -> list[Any]:
        return self.base.execute(question, given).fetchall()


def pair_of(one: Finish, other: Finish) -> tuple[tuple[str, str], tuple[bool, bool]]:
    """Two seats of a game, in the order of their names: their bots, and how they ended."""
    first, second = sorted((one, other), key=lambda it: it.bot)
    lived = [float("inf") if it.out is None else it.out for it in (first, second)]
    return (first.bot, second.bot), (lived[0] > lived[1], lived[0] == lived[1])
