"""Draws the games of an endless ladder: the next one is between bots that are near in points.

The state is a function of the seed, of the results in the order in which they were stored, and of
the changes of the roster, each with the number of results before it. All numbers are integers, so
that every machine and language draws the same games.
"""

from __future__ import annotations

from collections import Counter
from collections.abc import Sequence
from dataclasses import dataclass
from itertools import combinations
from typing import Any

from arena_ladder.game.draws import Draw

START = 1500  # points of a new bot
WIN = 16  # points that a win against a bot of equal points takes from it
MOST_TILT = 15
POINTS_A_TILT = 25
NEAR = 4  # bots for each other seat of a game, of which one is drawn


@dataclass(frozen=True)
class Change:
    """A change of the roster: `add`, `remove`, `pause`, `resume`, `url` or `replace`, or a new
    `season` named `bot`, or `points` with which a bot begins.

    `results` is the number of results that were stored before it; `old` is the bot that a bot
    replaces, or the points.
    """

    number: int
    what: str
    bot: str
    results: int
    url: str = ""
    old: str = ""


@dataclass(frozen=True)
class Result:
    """A finished game: its bots, each with the turn in which it went out, None if it lived."""

    game: str
    seats: tuple[tuple[str, int | None], ...]


@dataclass(frozen=True)
class Drawn:
    """A game, and what it was drawn from: the numbers of results and changes, and the room."""

    number: int
    game: str
    results: int
    changes: int
    room: int
    bots: tuple[str, ...]


@dataclass
class Player:
    """A bot of the roster."""

    points: int = START
    games: int = 0  # finished or open
    is_in: bool = True
    is_paused: bool = False


class Rated:
    """The bots, their points, and the open games of an endless ladder."""

    def __init__(self, seed: int, snakes: int) -> None:
        self.seed = seed
        self.snakes = snakes
        self.players: dict[str, Player] = {}
        self.open: dict[str, tuple[str, ...]] = {}
        self.results = 0  # so far
        self.changes = 0

    @property
    def state(self) -> dict[str, Any]:
        """All that changes, as values of JSON, which `resume` takes."""
        return {
            "players": {name: vars(it) for name, it in self.players.items()},
            "open": self.open,
            "results": self.results,
            "changes": self.changes,
        }

    def resume(self, state: dict[str, Any]) -> None:
        """Takes a state."""
        self.players = {name: Player(**it) for name, it in state["players"].items()}
        self.open = {game: tuple(bots) for game, bots in state["open"].items()}
        self.results, self.changes = state["results"], state["changes"]

    def advance(self, results: Sequence[Result], changes: Sequence[Change]) -> None:
        """Takes the next results and changes, each change after the results before it."""
        at = 0
        for change in changes:
            before = max(at, min(len(results), at + change.results - self.results))
            self._finish_all(results[at:before])
            at = before
            self._change(change)
        self._finish_all(results[at:])

    def begin(self, game: str, bots: tuple[str, ...]) -> None:
        """Opens a game that was drawn."""
        self.open[game] = bots
        for bot in bots:
            if bot in self.players:
                self.players[bot].games += 1

    def draw(self, game: str, number: int, room: int) -> tuple[str, ...] | None:
        """The bots of game `number`, in the order of their seats; None if there are too few.

        No bot plays more than `room` games at once.
        """
        playing = Counter(bot for bots in self.open.values() for bot in bots)
        fit = [name for name, it in self.players.items() if is_fit(it) and playing[name] < room]
        if len(fit) < self.snakes:
            return None
        draw = Draw(self.seed, "rating", number)
        order = draw.shuffled(fit)
        first = min(order, key=lambda it: self.players[it].games)
        points = self.players[first].points
        others = [it for it in order if it != first]
        others.sort(key=lambda it: abs(self.players[it].points - points))
        near = draw.shuffled(others[: NEAR * (self.snakes - 1)])
        seats = Draw(self.seed, game, "seats")
        return tuple(seats.shuffled([first, *near[: self.snakes - 1]]))

    def _finish_all(self, results: Sequence[Result]) -> None:
        for result in results:
            self.results += 1
            self.open.pop(result.game, None)
            for bot, gain in gains_of(result, self.players).items():
                self.players[bot].points += gain

    def _change(self, change: Change) -> None:
        self.changes += 1
        if change.what == "replace":
            self.players[change.old].is_in = False
            self.players[change.bot] = Player(self.players[change.old].points)
        elif change.what == "add":
            self.players.setdefault(change.bot, Player()).is_in = True
        elif change.what == "remove":
            self.players[change.bot].is_in = False
        elif change.what == "season":
            for player in self.players.values():
                player.points = START
        elif change.what == "points":  # of an earlier ladder
            self.players[change.bot].points = int(change.old)
        elif change.what in ("pause", "resume"):
            self.players[change.bot].is_paused = change.what == "pause"


def is_fit(player: Player) -> bool:
    return player.is_in and not player.is_paused


def gains_of(result: Result, players: dict[str, Player]) -> Counter[str]:
    """The points that each bot gains by a game: each two seats are compared."""
    gains: Counter[str] = Counter()
    known = [(bot, out) for bot, out in result.seats if bot in players]
    for (one, its), (other, others) in combinations(known, 2):
        ahead = players[one].points - players[other].points
        tilt = min(MOST_TILT, abs(ahead) // POINTS_A_TILT) * (1 if ahead > 0 else -1)
        gain = WIN * outlived(its, others) - tilt
        gains[one] += gain
        gains[other] -= gain
    return gains


def outlived(its: int | None, others: int | None) -> int:
    """1 if the first lived longer than the second, -1 if the second did, else 0."""
    if its == others:
        return 0
    return 1 if its is None or (others is not None and its > others) else -1
