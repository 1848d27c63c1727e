"""Groups in which everybody meets, and rounds of a Swiss system; the tables of both."""

from __future__ import annotations

from collections.abc import Iterable, Sequence
from dataclasses import dataclass

from arena_ladder.game.brackets import Builder
from arena_ladder.game.matches import BYE, Match, Seed
from arena_ladder.game.pairing import circle

GO_ON = 2  # of each group
MOST_STEPS = 20_000  # of the search for a round without a repeated match


@dataclass
class Row:
    """A bot in a table. A match that is won counts 1, a drawn one one half."""

    bot: str
    seed: int
    played: int = 0
    points: float = 0.0
    games: float = 0.0  # the points of its games
    against: float = 0.0  # those of the others in these games

    @property
    def key(self) -> tuple[float, float, int]:
        """By which a table is ordered: points, the difference of games, and the seed."""
        return (-self.points, self.against - self.games, self.seed)


def table_of(bots: Sequence[str], seeds: dict[str, int], matches: Iterable[Match]) -> list[Row]:
    """The table of these bots after the matches that are done; a bye counts as won."""
    rows = {bot: Row(bot, seeds[bot]) for bot in bots}
    for match in matches:
        if not match.is_done or match.bots is None:
            continue
        for bot, own, other in zip(match.bots, match.points, reversed(match.points)):
            if bot != BYE:
                row = rows[bot]
                row.played += 1
                row.points += 1.0 if match.winner == bot else 0.0 if match.winner else 0.5
                row.games += own
                row.against += other
    return sorted(rows.values(), key=lambda row: row.key)


def groups_of(count: int, size: int) -> list[list[int]]:
    """The seeds of each group, by turns from the best: 1 to A, 2 to B, then back from the last."""
    number = -(-count // size)
    groups: list[list[int]] = [[] for _ in range(number)]
    for seed in range(count):
        turn, at = divmod(seed, number)
        groups[at if turn % 2 == 0 else number - 1 - at].append(seed + 1)
    return groups


def letter_of(group: int) -> str:
    """The name of a group, from 1: A to Z, then AA."""
    first, last = divmod(group - 1, 26)
    return (chr(64 + first) if first else "") + chr(65 + last)


def add_groups(builder: Builder, groups: Sequence[Sequence[int]]) -> None:
    """Adds the matches of groups, in which everybody meets everybody once."""
    for at, seeds in enumerate(groups, 1):
        pairs = [(Seed(seeds[one]), Seed(seeds[two])) for one, two in circle(len(seeds), 2)]
        builder.round = 1
        for match in builder.add_round(f"Group {letter_of(at)}", pairs):
            match.has_winner, match.group = False, at


def swiss_pairs(table: Sequence[Row], matches: Iterable[Match]) -> list[tuple[str, str]]:
    """The next round of a Swiss system: bots with as many points meet, and none meets twice.

    The upper half of those with equal points meets the lower half. With an odd number the last one
    that had no bye has it. If there is no round without a repeated match, some are repeated.
    """
    met = {frozenset(match.bots) for match in matches if match.bots is not None}
    rows = list(table)
    byes: list[tuple[str, str]] = []
    if len(rows) % 2 == 1:
        free = [row for row in rows if frozenset((row.bot, BYE)) not in met] or rows
        rows.remove(free[-1])
        byes = [(free[-1].bot, BYE)]
    search = Search(met)
    pairs = search.pairs(rows) or [(one.bot, two.bot) for one, two in zip(rows[::2], rows[1::2])]
    return [*pairs, *byes]


class Search:
    """Looks for pairs of which none has met, for a limited number of steps."""

    def __init__(self, met: set[frozenset[str]]) -> None:
        self.met = met
        self.steps = 0

    def pairs(self, rows: Sequence[Row]) -> list[tuple[str, str]] | None:
        """Pairs of all rows, or None if none were found."""
        if not rows:
            return []
        first, *others = rows
        for other in preferred(first, others):
            self.steps += 1
            if self.steps > MOST_STEPS:
                return None
            if frozenset((first.bot, other.bot)) not in self.met:
                rest = self.pairs([row for row in others if row is not other])
                if rest is not None:
                    return [(first.bot, other.bot), *rest]
        return None


def preferred(first: Row, others: Sequence[Row]) -> list[Row]:
    """The others in the order in which a bot meets them: first the lower half of its equals."""
    equals = [row for row in others if row.points == first.points]
    half = (len(equals) + 1) // 2
    lower = equals[half - 1 :] if equals else []
    upper = equals[: half - 1] if equals else []
    return [*lower, *reversed(upper), *(row for row in others if row.points != first.points)]
