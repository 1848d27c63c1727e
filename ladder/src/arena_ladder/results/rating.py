"""Elo ratings with their errors, from which bot outlived which.

The model is Bradley and Terry's: of two bots whose ratings differ by 400 points the higher one
outlives the other ten times as often as not. Each two seats of a game are compared: the one that
lived longer has won; two that went out in one turn, or that both live at the end, have half a win
each. A game of k seats has k(k-1)/2 such pairs, which are not independent; each counts 2/k, so that
the game counts as k-1 games of two. The ratings are those of maximum likelihood, with one draw of
each bot against a bot of 1500 added, which keeps them finite; of a bot that replaced another one,
against that. Their mean is 1500.
"""

from __future__ import annotations

import math
from collections.abc import Iterable, Mapping, Sequence
from dataclasses import dataclass
from itertools import combinations
from types import MappingProxyType

import numpy as np
from numpy.typing import NDArray

MEAN = 1500.0
POINTS = 400 / math.log(10)  # for each unit of the model
SURE = 1.96  # standard errors: half of the 95 % confidence interval
MOST_STEPS = 100
LONGEST_STEP = 1.0
EXACT = 1e-9

Numbers = NDArray[np.float64]  # one for each bot, or for each two of them


@dataclass(frozen=True)
class Rating:
    """A rating, and half of its 95 % confidence interval."""

    elo: float
    error: float


# Two bots, a number of seats, and counts of the games of that many seats in which they met: all,
# those in which the first lived longer, and those in which neither did.
Pair = tuple[str, str, int, int, int, int]
NONE: Mapping[str, str] = MappingProxyType({})


class Comparisons:
    """How often each bot outlived each other one, in weighted wins.

    `replaced` has the bot that a bot replaced, against which it has its draw.
    """

    def __init__(self, names: Sequence[str], replaced: Mapping[str, str] = NONE) -> None:
        self.names = list(names)
        self.at = {name: at for at, name in enumerate(self.names)}
        size = len(self.names)
        self.wins: Numbers = np.zeros((size, size))
        self.free = [float(name not in replaced) for name in self.names]
        for pair in replaced.items():
            self.add([(name, 0.0) for name in pair])

    def add(self, lived: Sequence[tuple[str, float]]) -> None:
        """Adds a game: its bots, each with the time that it lived, in any unit."""
        weight = 2 / len(lived)
        for (one, its), (other, others) in combinations(lived, 2):
            share = 0.5 if its == others else float(its > others)
            self.wins[self.at[one], self.at[other]] += weight * share
            self.wins[self.at[other], self.at[one]] += weight * (1 - share)

    def add_games(self, pairs: Sequence[Pair]) -> None:
        """Adds the games of pairs of bots."""
        if not pairs:
            return
        ones = [self.at[pair[0]] for pair in pairs]
        others = [self.at[pair[1]] for pair in pairs]
        seats, games, outlived, equal = np.array([pair[2:] for pair in pairs], np.float64).T
        weights, shares = 2 / seats, outlived + equal / 2
        np.add.at(self.wins, (ones, others), weights * shares)
        np.add.at(self.wins, (others, ones), weights * (games - shares))


def ratings(
    names: Sequence[str],
    games: Iterable[Sequence[tuple[str, float]]],
    replaced: Mapping[str, str] = NONE,
) -> dict[str, Rating]:
    """The rating of each bot from these games, by Newton's method."""
    results = Comparisons(names, replaced)
    for lived in games:
        results.add(lived)
    return ratings_from(results)


def ratings_from(results: Comparisons) -> dict[str, Rating]:
    """The rating of each bot from these comparisons."""
    size = len(results.names)
    wins = results.wins
    strengths: Numbers = np.zeros(size)
    free: Numbers = np.array(results.free)
    for _ in range(MOST_STEPS):
        slopes, curvature = derivatives(wins, strengths, free)
        steps = np.linalg.solve(curvature, slopes)
        most = float(np.max(np.abs(steps), initial=0.0))
        strengths = strengths + steps * min(1.0, LONGEST_STEP / max(most, EXACT))
        if most < EXACT:
            break
    return in_points(results.names, strengths, derivatives(wins, strengths, free)[1])


def derivatives(wins: Numbers, strengths: Numbers, free: Numbers) -> tuple[Numbers, Numbers]:
    """The gradient of the log-likelihood, and its negated Hessian.

    `free` is 1 for bots with a draw against a bot of 1500.
    """
    played = wins + wins.T
    shares = expected(strengths[:, np.newaxis] - strengths[np.newaxis, :])
    drawn = expected(strengths)  # of the draw against a bot of 1500
    bends = played * shares * (1 - shares)
    slopes = (wins - played * shares).sum(axis=1) + free * (0.5 - drawn)
    return slopes, np.diag(bends.sum(axis=1) + free * drawn * (1 - drawn)) - bends


def expected(ahead: Numbers) -> Numbers:
    """The expected share of wins of a bot whose strength is `ahead` units higher."""
    share: Numbers = (1 + np.tanh(ahead / 2)) / 2
    return share


def in_points(names: Sequence[str], strengths: Numbers, curvature: Numbers) -> dict[str, Rating]:
    """The ratings in points; each error is that of the difference from the mean."""
    if not names:
        return {}
    inverse = np.linalg.inv(curvature)
    elos = MEAN + POINTS * (strengths - strengths.mean())
    variances = inverse.diagonal() - 2 * inverse.mean(axis=1) + inverse.mean()
    errors = SURE * POINTS * np.sqrt(np.maximum(variances, 0.0))
    return {name: Rating(float(elo), float(it)) for name, elo, it in zip(names, elos, errors)}
