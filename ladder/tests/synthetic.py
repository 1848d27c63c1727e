"""Folders of drawn games that nobody has played.

    python3 ladder/tests/synthetic.py FOLDER GAMES

makes an endless ladder of 40 bots with that many games of two, each with 20 latencies a seat.
"""

from __future__ import annotations

import random
import sys
import time
from collections import Counter
from collections.abc import Iterator
from contextlib import closing
from pathlib import Path

from arena_client import Cause
from arena_ladder.game.config import config_of
from arena_ladder.game.outcome import Finish, Outcome, SeatResult, Tally
from arena_ladder.game.rated import Drawn, Rated, Result
from arena_ladder.net.bots import Bot
from arena_ladder.net.misses import Miss
from arena_ladder.results.roster import add_config_bots
from arena_ladder.results.store import Store
from arena_ladder.results.sums import FROM_ROWS
from arena_ladder.run.endless import name_of

BOTS = ("ant", "bee", "cat", "dog", "eel", "fox")
LATENCIES = 20
TURNS = 200
PART = 10_000  # games of a transaction
Game = tuple[Outcome, dict[str, Tally]]


def drawn_games(count: int, draw: random.Random) -> Iterator[Game]:
    """Games of two to four of BOTS."""
    for number in range(1, count + 1):
        bots = draw.sample(BOTS, draw.randint(2, 4))
        yield drawn_game(name_of(number), number, bots, draw)


def drawn_game(name: str, number: int, bots: list[str], draw: random.Random) -> Game:
    """A game of some bots, of which those that come later in the alphabet live longer."""
    outs = {bot: draw.randint(1, TURNS) + ord(bot[-1]) for bot in bots}
    last = max(outs.values())
    winners = [bot for bot in bots if outs[bot] == last]
    finishes = []
    for bot in bots:
        is_winner = winners == [bot]
        result = SeatResult.WIN if is_winner else SeatResult.LOSS
        result = SeatResult.DRAW if bot in winners and not is_winner else result
        out = None if is_winner else outs[bot]
        cause = None if is_winner else Cause.WALL_COLLISION
        finishes.append(Finish(bot, result, out, cause, None, 5, outs[bot]))
    tallies = {bot: drawn_tally(outs[bot], draw) for bot in bots}
    return Outcome(name, number, last, last + 2, "0" * 64, tuple(finishes)), tallies


def drawn_tally(turns: int, draw: random.Random) -> Tally:
    latencies = Counter(draw.choices(range(1, 1 + LATENCIES), k=min(turns, 3 * LATENCIES)))
    missed = Counter({Miss.LATE: draw.randint(1, 3)} if draw.random() < 0.1 else {})
    return Tally(latencies, missed)


def fill_quickly(folder: Path, count: int, bots: int) -> None:
    """Makes an endless ladder with games of two, as a version without sums would have left it."""
    draw = random.Random(count)
    folder.mkdir(parents=True)
    (folder / "games").mkdir()
    (folder / "running").mkdir()
    tables = [{"name": f"bot{at:02}", "url": f"http://127.0.0.1:1/{at}"} for at in range(bots)]
    config = config_of(
        {"folder": str(folder), "bot": tables, "pairing": "rating", "seed": 1}, "synthetic"
    )
    with closing(Store(folder)) as store:
        store.base.execute("PRAGMA synchronous = OFF")
        store.begin(config.identity, [Bot(it["name"], it["url"]) for it in tables])
        add_config_bots(store, config.bots)
        for table in (*FROM_ROWS, "summed"):
            store.base.execute(f"DROP TABLE {table}")
        store.base.commit()
        rated = Rated(config.seed, config.snakes)
        rated.advance((), store.changes(0))
        for first in range(1, count + 1, PART):
            fill_part(store, rated, range(first, min(first + PART, count + 1)), draw)


def fill_part(store: Store, rated: Rated, numbers: range, draw: random.Random) -> None:
    """Draws games and their results, and stores them in one transaction."""
    insert, latencies = store.base.executemany, []
    games, seats, missed = [], [], []
    for number in numbers:
        name = name_of(number)
        bots = rated.draw(name, number, 2)
        assert bots is not None
        store.insert_drawn(Drawn(number, name, rated.results, rated.changes, 2, bots))
        rated.begin(name, bots)
        it, tallies = drawn_game(name, number, list(bots), draw)
        games.append((name, it.round, it.turns, it.lines, it.digest))
        for at, row in enumerate(it.finishes):
            tally = tallies[row.bot]
            what = (row.bot, row.result, row.out, row.cause, row.killer, row.length, row.turns)
            seats.append((name, at, *what))
            missed += [(name, at, *item) for item in tally.missed.items()]
            latencies += [(name, at, *item) for item in tally.latencies.items()]
        rated.advance([Result(name, tuple((it.bot, it.out) for it in it.finishes))], ())
    insert("INSERT INTO game VALUES (?, ?, ?, ?, ?)", games)
    insert("INSERT INTO seat VALUES (?, ?, ?, ?, ?, ?, ?, ?, ?)", seats)
    insert("INSERT INTO missed VALUES (?, ?, ?, ?)", missed)
    insert("INSERT INTO latency VALUES (?, ?, ?, ?)", latencies)
    store.base.commit()


if __name__ == "__main__":
    began = time.monotonic()
    fill_quickly(Path(sys.argv[1]), int(sys.argv[2]), bots=40)
    print(f"{time.monotonic() - began:.1f} s")
