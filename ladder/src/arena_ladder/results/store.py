"""The results of a ladder in an SQLite database, with one transaction for each game."""

from __future__ import annotations

import json
import sqlite3
from collections import Counter
from collections.abc import Iterable, Iterator, Mapping
from pathlib import Path
from typing import Any

from arena_client import Cause
from arena_ladder.game.outcome import Finish, Outcome, SeatResult, Tally
from arena_ladder.game.pairing import GAME_NAME
from arena_ladder.game.rated import Change, Drawn, Rated, Result
from arena_ladder.net.bots import Bot
from arena_ladder.net.misses import Miss
from arena_ladder.net.urls import shown
from arena_ladder.results.sums import Sums

BUSY_SECONDS = 60.0
SCHEMA = """
CREATE TABLE IF NOT EXISTS ladder (identity TEXT NOT NULL);
CREATE TABLE IF NOT EXISTS closed (at TEXT NOT NULL);
CREATE TABLE IF NOT EXISTS bot (name TEXT PRIMARY KEY, url TEXT NOT NULL);
CREATE TABLE IF NOT EXISTS game (
    name TEXT PRIMARY KEY, round INTEGER NOT NULL, turns INTEGER NOT NULL,
    lines INTEGER NOT NULL, digest TEXT NOT NULL);
CREATE TABLE IF NOT EXISTS seat (
    game TEXT NOT NULL REFERENCES game, seat INTEGER NOT NULL, bot TEXT NOT NULL REFERENCES bot,
    result TEXT NOT NULL, out INTEGER, cause TEXT, killer TEXT, length INTEGER NOT NULL,
    turns INTEGER NOT NULL, PRIMARY KEY (game, seat)) WITHOUT ROWID;
CREATE TABLE IF NOT EXISTS roster (
    number INTEGER PRIMARY KEY, what TEXT NOT NULL, bot TEXT NOT NULL, results INTEGER NOT NULL,
    url TEXT NOT NULL, old TEXT NOT NULL, at TEXT NOT NULL);
CREATE TABLE IF NOT EXISTS drawn (
    number INTEGER PRIMARY KEY, game TEXT NOT NULL, results INTEGER NOT NULL,
    changes INTEGER NOT NULL, room INTEGER NOT NULL, bots TEXT NOT NULL);
CREATE TABLE IF NOT EXISTS season (
    number INTEGER PRIMARY KEY, name TEXT NOT NULL, first INTEGER NOT NULL, last INTEGER NOT NULL,
    ended_at TEXT NOT NULL, standings TEXT NOT NULL);
CREATE TABLE IF NOT EXISTS setting (name TEXT PRIMARY KEY, value TEXT NOT NULL) WITHOUT ROWID;
CREATE TABLE IF NOT EXISTS snapshot (
    one INTEGER PRIMARY KEY CHECK (one = 1), drawn INTEGER NOT NULL, state TEXT NOT NULL);
CREATE TABLE IF NOT EXISTS missed (
    game TEXT NOT NULL, seat INTEGER NOT NULL, cause TEXT NOT NULL, moves INTEGER NOT NULL,
    PRIMARY KEY (game, seat, cause)) WITHOUT ROWID;
CREATE TABLE IF NOT EXISTS latency (
    game TEXT NOT NULL, seat INTEGER NOT NULL, ms INTEGER NOT NULL, moves INTEGER NOT NULL,
    PRIMARY KEY (game, seat, ms)) WITHOUT ROWID;
"""


class StoreFault(Exception):
    """A folder whose results are missing, locked, or not of this ladder."""


class Store:
    """The database of a ladder's folder."""

    def __init__(self, folder: Path) -> None:
        self.path = folder / "results.sqlite"
        # Another thread adds the games, one after the other.
        self.base = sqlite3.connect(self.path, timeout=BUSY_SECONDS, check_same_thread=False)
        self.sums = Sums(self.base)
        try:
            self.prepare()
        except sqlite3.OperationalError as fault:
            if "readonly" not in str(fault):
                raise
            raise StoreFault(
                f"{self.path} has a write that a killed ladder left unfinished, and you may not "
                "write there: play or read it as its owner once, or read a copy of the folder"
            ) from None
        except sqlite3.DatabaseError as fault:
            if isinstance(fault, sqlite3.OperationalError):
                raise
            raise self.changed(fault) from None

    def prepare(self) -> None:
        """Makes the tables that are missing. A folder that may not be written goes without."""
        try:
            self.base.executescript(SCHEMA)
        except sqlite3.OperationalError as fault:
            if "readonly" not in str(fault):
                raise
            self.base.execute("SELECT 1 FROM game").fetchone()
        self.sums.prepare()

    def close(self) -> None:
        self.base.close()

    def identity(self) -> dict[str, Any] | None:
        """What decides the games of this folder (`Config.identity`); None if it is new."""
        row = self.base.execute("SELECT identity FROM ladder").fetchone()
        return json.loads(row[0]) if row else None

    def begin(self, identity: Mapping[str, Any], bots: Iterable[Bot]) -> None:
        """Stores the ladder's identity and bots; refuses a closed folder, and another ladder's."""
        if self.is_closed():
            raise StoreFault(f"{self.path} is of a closed ladder, which gets no more games")
        known = self.identity()
        if known is not None and known != dict(identity):
            other = sorted(key for key in identity if known.get(key) != identity[key])
            differ = "differs" if len(other) == 1 else "differ"
            raise StoreFault(f"{self.path} is of another ladder: {', '.join(other)} {differ}")
        with self.base:
            if known is None:
                self.base.execute("INSERT INTO ladder VALUES (?)", (json.dumps(dict(identity)),))
            rows = [(bot.name, shown(bot.url)) for bot in bots]
            self.base.executemany("INSERT OR REPLACE INTO bot VALUES (?, ?)", rows)

    def is_closed(self) -> bool:
        return self.base.execute("SELECT 1 FROM closed").fetchone() is not None

    def close_ladder(self) -> None:
        """Closes the ladder: no game is added from now on, and its seed is published."""
        with self.base:
            self.base.execute("INSERT INTO closed VALUES (datetime('now'))")

    def add(self, played: Iterable[tuple[Outcome, Mapping[str, Tally]]]) -> None:
        """Adds games that are done, with their seats and tallies, in one transaction."""
        try:
            self.add_all(played)
        except sqlite3.IntegrityError as fault:
            raise self.changed(fault) from None

    def add_all(self, played: Iterable[tuple[Outcome, Mapping[str, Tally]]]) -> None:
        with self.base:
            for outcome, tallies in played:
                name = outcome.name
                row = (name, outcome.round, outcome.turns, outcome.lines, outcome.digest)
                added = self.base.execute("INSERT INTO game VALUES (?, ?, ?, ?, ?)", row)
                for seat, finish in enumerate(outcome.finishes):
                    self.add_seat(name, seat, finish, tallies[finish.bot])
                assert added.lastrowid is not None
                self.sums.add(added.lastrowid, outcome, tallies)

    def add_seat(self, game: str, seat: int, it: Finish, tally: Tally) -> None:
        row = (game, seat, it.bot, it.result, it.out, it.cause, it.killer, it.length, it.turns)
        missed = [(game, seat, *item) for item in tally.missed.items()]
        latencies = [(game, seat, *item) for item in tally.latencies.items()]
        self.base.execute("INSERT INTO seat VALUES (?, ?, ?, ?, ?, ?, ?, ?, ?)", row)
        self.base.executemany("INSERT INTO missed VALUES (?, ?, ?, ?)", missed)
        self.base.executemany("INSERT INTO latency VALUES (?, ?, ?, ?)", latencies)

    def names(self) -> set[str]:
        """The names of the games that are done; raises `StoreFault` for an invalid name."""
        names = {name for (name,) in self.base.execute("SELECT name FROM game")}
        wrong = sorted(name for name in names if not GAME_NAME.fullmatch(name))
        if wrong:
            raise StoreFault(f"{self.path} has a game named {wrong[0]!r}")
        return names

    def bots(self) -> list[Bot]:
        rows = self.base.execute("SELECT name, url FROM bot ORDER BY name")
        return [Bot(*row) for row in rows]

    def outcomes(self) -> Iterator[Outcome]:
        """The games that are done, in the order of their names."""
        return self.outcomes_by("name")

    def outcomes_by_end(self) -> Iterator[Outcome]:
        """The games that are done, in the order in which their results were stored."""
        return self.outcomes_by("rowid")

    def outcomes_by(self, order: str) -> Iterator[Outcome]:
        finishes: dict[str, list[Finish]] = {}
        seats = self.base.execute(
            "SELECT game, bot, result, out, cause, killer, length, turns FROM seat"
            " ORDER BY game, seat"
        )
        for game, *values in seats:
            finishes.setdefault(game, []).append(self.finish(*values))
        games = self.base.execute(
            f"SELECT name, round, turns, lines, digest FROM game ORDER BY {order}"
        )
        for name, number, turns, lines, digest in games:
            yield Outcome(name, number, turns, lines, digest, tuple(finishes.get(name, ())))

    def finish(
        self, bot: str, result: str, out: int | None, cause: str | None, *more: Any
    ) -> Finish:
        """The finish in a row; raises `StoreFault` if it was changed to one that none is."""
        try:
            known = None if cause is None else Cause(cause)
            return Finish(bot, SeatResult(result), out, known, *more)
        except ValueError as fault:
            raise self.changed(fault) from None

    def changed(self, fault: Exception) -> StoreFault:
        """Says that the database has what this program did not write."""
        return StoreFault(
            f"{self.path} was changed ({fault}): restore a copy of it, or delete it, and the "
            "results are read again from the games' files, without times and missed moves"
        )

    def results(self, after: int) -> list[Result]:
        """The results behind the first `after`, in the order in which they were stored."""
        seats: dict[str, list[tuple[str, int | None]]] = {}
        rows = self.base.execute(
            "SELECT game.name, seat.bot, seat.out FROM game JOIN seat ON seat.game = game.name"
            " WHERE game.rowid > ? ORDER BY game.rowid, seat.seat",
            (after,),
        )
        for name, bot, out in rows:
            seats.setdefault(name, []).append((bot, out))
        return [Result(name, tuple(it)) for name, it in seats.items()]

    def changes(self, after: int) -> list[Change]:
        """The changes of the roster behind number `after`."""
        rows = self.base.execute(
            "SELECT number, what, bot, results, url, old FROM roster WHERE number > ?"
            " ORDER BY number",
            (after,),
        )
        return [Change(*row) for row in rows]

    def add_change(self, what: str, bot: str, url: str = "", old: str = "") -> None:
        """Adds a change of the roster, after the results that are stored now."""
        with self.base:
            self.base.execute(
                "INSERT INTO roster (what, bot, results, url, old, at)"
                " SELECT ?, ?, COUNT(*), ?, ?, datetime('now') FROM game",
                (what, bot, url, old),
            )
            if url:
                self.base.execute("INSERT OR REPLACE INTO bot VALUES (?, ?)", (bot, url))

    def replaced(self) -> dict[str, str]:
        """The bot that each new version replaced."""
        rows = self.base.execute("SELECT bot, old FROM roster WHERE what = 'replace'")
        return dict(rows.fetchall())

    def drawn(self, after: int = 0) -> list[Drawn]:
        """The games of an endless ladder that were drawn behind number `after`, in their order."""
        rows = self.base.execute(
            "SELECT number, game, results, changes, room, bots FROM drawn WHERE number > ?"
            " ORDER BY number",
            (after,),
        )
        return [
            Drawn(number, game, results, changes, room, tuple(json.loads(bots)))
            for number, game, results, changes, room, bots in rows
        ]

    def add_drawn(self, it: Drawn) -> None:
        with self.base:
            self.insert_drawn(it)

    def insert_drawn(self, it: Drawn) -> None:
        row = (it.number, it.game, it.results, it.changes, it.room, json.dumps(it.bots))
        self.base.execute("INSERT INTO drawn VALUES (?, ?, ?, ?, ?, ?)", row)

    def tallies(self, game: str) -> dict[str, Tally]:
        """The tally of each bot of a game that is done."""
        rows = self.base.execute("SELECT seat, bot FROM seat WHERE game = ?", (game,)).fetchall()
        tallies = {seat: Tally() for seat, _ in rows}
        missed = "SELECT seat, cause, moves FROM missed WHERE game = ?"
        for seat, cause, moves in self.base.execute(missed, (game,)):
            tallies[seat].missed[self.miss(cause)] = moves
        latencies = "SELECT seat, ms, moves FROM latency WHERE game = ?"
        for seat, ms, moves in self.base.execute(latencies, (game,)):
            tallies[seat].latencies[ms] = moves
        return {bot: tallies[seat] for seat, bot in rows}

    def miss(self, cause: str) -> Miss:
        """The cause in a row; raises `StoreFault` if it was changed to one that none is."""
        try:
            return Miss(cause)
        except ValueError as fault:
            raise self.changed(fault) from None

    def missed(self) -> dict[str, Counter[Miss]]:
        """The missed moves of each bot by their causes."""
        found: dict[str, Counter[Miss]] = {}
        for bot, cause, moves in self.base.execute("SELECT * FROM total_missed"):
            found.setdefault(bot, Counter())[self.miss(cause)] = moves
        return found

    def latencies(self) -> dict[str, Counter[int]]:
        """The moves of each bot by milliseconds."""
        found: dict[str, Counter[int]] = {}
        for bot, ms, moves in self.base.execute("SELECT * FROM total_latency"):
            found.setdefault(bot, Counter())[ms] = moves
        return found

    def results_of_bots(self) -> list[tuple[str, SeatResult, int, int]]:
        """How often each bot ended with each result, and the turns that it lived in these games."""
        rows = self.base.execute("SELECT bot, result, games, turns FROM total").fetchall()
        try:
            return [(bot, SeatResult(result), games, turns) for bot, result, games, turns in rows]
        except ValueError as fault:
            raise self.changed(fault) from None

    def count_games(self) -> int:
        """The number of games that are done; none is ever removed."""
        (count,) = self.base.execute("SELECT IFNULL(MAX(rowid), 0) FROM game").fetchone()
        return int(count)

    def has_game(self, name: str) -> bool:
        """Whether a game is done."""
        found = self.base.execute("SELECT 1 FROM game WHERE name = ?", (name,))
        return found.fetchone() is not None

    def setting(self, name: str) -> Any:
        """A value of JSON that was kept under a name; None if there is none."""
        row = self.base.execute("SELECT value FROM setting WHERE name = ?", (name,)).fetchone()
        return json.loads(row[0]) if row else None

    def keep_setting(self, name: str, value: Any) -> None:
        with self.base:
            self.put_setting(name, value)

    def put_setting(self, name: str, value: Any) -> None:
        """Keeps a value in the transaction that is open."""
        row = (name, json.dumps(value))
        self.base.execute("INSERT OR REPLACE INTO setting VALUES (?, ?)", row)

    def snapshot(self) -> tuple[int, dict[str, Any]] | None:
        """The state of `Rated` after the game of a number was drawn, if one was kept."""
        row = self.base.execute("SELECT drawn, state FROM snapshot").fetchone()
        return (row[0], json.loads(row[1])) if row else None

    def keep_snapshot(self, number: int, rated: Rated) -> None:
        row = (number, json.dumps(rated.state))
        with self.base:
            self.base.execute("INSERT OR REPLACE INTO snapshot VALUES (1, ?, ?)", row)


def open_store(folder: Path) -> Store:
    """Opens the results of a folder, which have to exist."""
    if not (folder / "results.sqlite").is_file():
        raise StoreFault(f"{folder} has no results of a ladder")
    return Store(folder)
