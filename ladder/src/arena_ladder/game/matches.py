"""Matches of a tournament: two bots, their games, and the winner.

Games of a match come in pairs of one start with the seats changed. A match that has to have a
winner and has none goes on by such pairs, MOST_EXTRA at most; then the better seed goes on.
"""

from __future__ import annotations

from collections.abc import Iterator, Mapping
from dataclasses import dataclass, field
from typing import NamedTuple

from arena_ladder.game.draws import Draw
from arena_ladder.game.pairing import Fixture
from arena_ladder.game.rated import Result, outlived

MOST_EXTRA = 3  # pairs of games


class Seed(NamedTuple):
    """The place of a bot at the start, from 1."""

    number: int


class Winner(NamedTuple):
    """The bot that wins a match; its number."""

    match: int


class Loser(NamedTuple):
    """The bot that loses a match; its number."""

    match: int


class Placed(NamedTuple):
    """A bot's place in a group, both from 1."""

    group: int
    place: int


Slot = Seed | Winner | Loser | Placed
BYE = ""  # in place of a bot: nobody


@dataclass
class Match:
    """A match. Its number is from 1; `bots` are the two of its slots as soon as they are known."""

    number: int
    round: int
    stage: str
    one: Slot
    two: Slot
    has_winner: bool = True  # or may be drawn
    group: int = 0
    bots: tuple[str, str] | None = None
    points: tuple[float, float] = (0.0, 0.0)
    games: list[Fixture] = field(default_factory=list)  # those that are done or can be played
    is_done: bool = False
    winner: str = BYE  # once it is done; nobody's, if it was drawn

    @property
    def loser(self) -> str:
        assert self.bots is not None
        if not self.winner:
            return BYE
        return self.bots[1] if self.winner == self.bots[0] else self.bots[0]

    def play(self, bots: tuple[str, str], draws: Draws, results: Mapping[str, Result]) -> None:
        """Takes the results of its games, and decides which further games there are."""
        self.bots = bots
        if BYE in bots:
            self.winner = bots[0] or bots[1]
            self.is_done = True
            return
        extra = 2 * MOST_EXTRA if self.has_winner else 0
        points = [0.0, 0.0]
        for fixture in games_of(self, bots, draws, draws.games + extra):
            count = len(self.games)
            if count >= draws.games and (count - draws.games) % 2 == 0 and self._is_over(results):
                break
            self.games.append(fixture)
            if is_played(fixture, results):
                share = points_of(results[fixture.name], bots[0])
                points = [points[0] + share, points[1] + 1 - share]
                self.points = (points[0], points[1])
        if all(is_played(it, results) for it in self.games):
            self.is_done = True
            ahead = points[0] - points[1]
            if ahead or self.has_winner:
                better = min(bots, key=draws.seeds.__getitem__)
                self.winner = bots[0] if ahead > 0 else bots[1] if ahead < 0 else better

    def _is_over(self, results: Mapping[str, Result]) -> bool:
        """Whether no further pair is played now: one is ahead, or a game is not done."""
        is_waiting = not all(is_played(it, results) for it in self.games)
        return is_waiting or self.points[0] != self.points[1]


class Draws(NamedTuple):
    """What all matches share: the seed of what is drawn, the games of a match, and the place of
    each bot at the start."""

    seed: int
    games: int
    seeds: Mapping[str, int]


def games_of(match: Match, bots: tuple[str, str], draws: Draws, count: int) -> Iterator[Fixture]:
    """The first games of a match. The second of each pair has the start of the first."""
    first, seats = "", bots
    for game in range(1, count + 1):
        name = f"r{match.round:04}-t{match.number:03}{game:02}"
        if game % 2 == 1:
            first = name
            one, two = Draw(draws.seed, name, "seats").shuffled(bots)
            seats = (one, two)
            yield Fixture(name, match.round, seats)
        else:
            yield Fixture(name, match.round, seats[::-1], first)


def is_played(fixture: Fixture, results: Mapping[str, Result]) -> bool:
    """Whether a game has a result, which is of its bots: one that was changed may be of others."""
    result = results.get(fixture.name)
    return result is not None and {bot for bot, _ in result.seats} == set(fixture.bots)


def points_of(result: Result, bot: str) -> float:
    """1 for a game that a bot won, one half for a drawn one."""
    lived = dict(result.seats)
    ((other, others),) = [it for it in result.seats if it[0] != bot]
    return (1 + outlived(lived[bot], others)) / 2
