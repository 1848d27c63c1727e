"""The sequential probability ratio test: whether a new bot is better than an old one, by pairs.

The score of a pair of games, of which both have the same start with the seats changed, is one of
five. The test compares two hypotheses, that the expected score is that of `elo0` or of `elo1`, by
the greatest likelihood that the shares of the five scores can have under each.
"""

from __future__ import annotations

import math
from collections.abc import Sequence
from dataclasses import dataclass

from arena_ladder.game.outcome import Outcome, SeatResult
from arena_ladder.game.pairing import pair_of
from arena_ladder.game.watch import Watch
from arena_ladder.texts import counted

SCORES = (0.0, 0.25, 0.5, 0.75, 1.0)  # of a pair
LEAST = 1e-3  # pairs that are counted for a score that was not seen
ERROR = 0.05  # the share of wrong decisions, either way
BOUND = math.log((1 - ERROR) / ERROR)
HALVINGS = 60
POINTS = {SeatResult.WIN: 2, SeatResult.DRAW: 1, SeatResult.LOSS: 0}


def expected(elo: float) -> float:
    return 1 / (1 + 10 ** (-elo / 400))


def log_ratio(counts: Sequence[int], elo0: float, elo1: float) -> float:
    """The logarithm of the ratio of likelihoods; `counts` are the pairs by score."""
    if not any(counts):
        return 0.0
    weights = [max(float(it), LEAST) for it in counts]
    fit0, fit1 = fitted(weights, expected(elo0)), fitted(weights, expected(elo1))
    return sum(it * math.log(to / at) for it, at, to in zip(weights, fit0, fit1))


def fitted(weights: Sequence[float], mean: float) -> list[float]:
    """The likeliest shares of the scores whose mean is given, by Lagrange's method."""
    low, high = -1 / (1 - mean), 1 / mean

    def shares(tilt: float) -> list[float]:
        return [it / (1 + tilt * (score - mean)) for it, score in zip(weights, SCORES)]

    for _ in range(HALVINGS):
        tilt = (low + high) / 2
        if sum(it * (score - mean) for it, score in zip(shares(tilt), SCORES)) > 0:
            low = tilt
        else:
            high = tilt
    found = shares((low + high) / 2)
    return [it / sum(weights) for it in found]


@dataclass
class Sprt(Watch):
    """Counts the pairs of a run in their order, until the ratio decides.

    Pairs count when all before them are done, so that short games do not count first.
    """

    new: str
    elo0: float
    elo1: float

    def __post_init__(self) -> None:
        self.points: dict[int, list[int]] = {}  # of each pair's games that are done
        self.counts = [0] * len(SCORES)
        self.next = 0
        self.ratio = 0.0

    def end(self, outcome: Outcome) -> None:
        result = next(it.result for it in outcome.finishes if it.bot == self.new)
        self.points.setdefault(pair_of(outcome.name), []).append(POINTS[result])
        while len(self.points.get(self.next, ())) == 2 and not self.is_decided:
            self.counts[sum(self.points.pop(self.next))] += 1
            self.ratio = log_ratio(self.counts, self.elo0, self.elo1)
            self.next += 1

    @property
    def is_decided(self) -> bool:
        return abs(self.ratio) >= BOUND

    def lines(self, old: str) -> list[str]:
        """The state of the test: the ratio, the pairs by score, and the decision."""
        scores = ", ".join(f"{2 * score:g}: {it}" for score, it in zip(SCORES, self.counts))
        what = "not decided"
        if self.is_decided and self.ratio > 0:
            what = f"{self.new} is better than {old}: {self.elo1:g} Elo, and not {self.elo0:g}"
        elif self.is_decided:
            what = (
                f"{self.new} is not {self.elo1:g} Elo better than {old}: {self.elo0:g} is likelier"
            )
        pairs = counted(sum(self.counts), "pair")
        ratio = f"{pairs}, log-likelihood ratio {self.ratio:.2f}"
        return [f"{ratio} (from -{BOUND:.2f} to {BOUND:.2f}): {what}", f"pairs by score: {scores}"]
