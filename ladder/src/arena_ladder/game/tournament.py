"""Tournaments: which matches there are, from the bots in the order of their seeds and the results.

All of it follows from the configuration and the results of finished games, in whatever order they
ended. So a tournament goes on after any interruption, and `check` pairs it again.
"""

from __future__ import annotations

from collections.abc import Mapping, Sequence
from typing import Any

from arena_ladder.game.brackets import Builder, double, single
from arena_ladder.game.config import Config
from arena_ladder.game.groups import (
    GO_ON,
    Row,
    add_groups,
    groups_of,
    letter_of,
    swiss_pairs,
    table_of,
)
from arena_ladder.game.matches import BYE, Draws, Loser, Match, Placed, Seed, Slot, Winner
from arena_ladder.game.pairing import Fixture
from arena_ladder.game.rated import Result

SECOND = "Second final"


class Tournament:
    """The matches of a tournament after some results."""

    def __init__(self, config: Config, results: Mapping[str, Result]) -> None:
        self.config = config
        self.results = results
        self.bots = [bot.name for bot in config.bots]
        self.seeds = {bot: at for at, bot in enumerate(self.bots, 1)}
        self.draws = Draws(config.seed, config.games, self.seeds)
        self.groups: list[list[int]] = []
        self.matches: list[Match] = []
        if config.pairing == "swiss":
            self.play_swiss()
        else:
            self.matches = self.planned()
            self.by_number = {match.number: match for match in self.matches}
            for match in self.matches:
                self.play(match)

    def planned(self) -> list[Match]:
        """The matches of a tournament that is no Swiss system, whose bots are not known yet."""
        builder = Builder()
        entries: list[Slot] = [Seed(seed) for seed in range(1, len(self.bots) + 1)]
        if self.config.pairing == "groups":
            self.groups = groups_of(len(self.bots), self.config.group)
            add_groups(builder, self.groups)
            places = range(1, GO_ON + 1)
            numbers = range(1, len(self.groups) + 1)
            entries = [Placed(group, place) for place in places for group in numbers]
        if self.config.pairing == "double_elimination":
            double(builder, entries)
        else:
            single(builder, entries)
        return builder.matches

    def play(self, match: Match) -> None:
        """Takes the results of a match whose bots are known."""
        one, two = self.bot_in(match.one), self.bot_in(match.two)
        if one is None or two is None:
            return
        if match.stage == SECOND and self.is_won_by_winners(match):
            one, two = one, BYE  # the loser is out
        match.play((one, two), self.draws, self.results)

    def is_won_by_winners(self, second: Match) -> bool:
        """Whether the winner of the first final had not lost before."""
        assert isinstance(second.one, Winner)
        final = self.by_number[second.one.match]
        return final.bots is not None and final.winner == final.bots[0]

    def bot_in(self, slot: Slot) -> str | None:
        """The bot of a slot, BYE for nobody; None if it is not known yet."""
        if isinstance(slot, Seed):
            return self.bots[slot.number - 1] if slot.number else BYE
        if isinstance(slot, Placed):
            matches = [match for match in self.matches if match.group == slot.group]
            if not all(match.is_done for match in matches):
                return None
            table = self.group_table(slot.group)
            return table[slot.place - 1].bot if slot.place <= len(table) else BYE
        match = self.by_number[slot.match]
        if not match.is_done:
            return None
        return match.loser if isinstance(slot, Loser) else match.winner

    def group_table(self, group: int) -> list[Row]:
        matches = [match for match in self.matches if match.group == group]
        bots = [self.bots[seed - 1] for seed in self.groups[group - 1]]
        return table_of(bots, self.seeds, matches)

    def play_swiss(self) -> None:
        """Pairs round after round, as far as the results go."""
        builder = Builder()
        for number in range(1, self.config.rounds + 1):
            if not all(match.is_done for match in self.matches):
                return
            pairs = swiss_pairs(table_of(self.bots, self.seeds, self.matches), self.matches)
            slots = [(Seed(self.seeds[one]), Seed(self.seeds.get(two, 0))) for one, two in pairs]
            for match, bots in zip(builder.add_round(f"Round {number}", slots), pairs):
                match.has_winner = False
                match.play(bots, self.draws, self.results)
            self.matches = builder.matches

    @property
    def fixtures(self) -> list[Fixture]:
        """The games that are done or can be played now."""
        return [fixture for match in self.matches for fixture in match.games]

    @property
    def is_over(self) -> bool:
        rounds = {match.round for match in self.matches}
        is_whole = self.config.pairing != "swiss" or len(rounds) == self.config.rounds
        return is_whole and all(match.is_done for match in self.matches)

    @property
    def champion(self) -> str:
        """The winner of the tournament; None before its end."""
        if not self.is_over:
            return BYE
        if self.config.pairing == "swiss":
            return table_of(self.bots, self.seeds, self.matches)[0].bot
        return self.matches[-1].winner

    def tables(self) -> list[dict[str, Any]]:
        """The tables of groups or of a Swiss system."""
        if self.config.pairing == "swiss":
            rows = table_of(self.bots, self.seeds, self.matches)
            return [{"title": "Table", "rows": [vars(row) for row in rows], "go_on": 0}]
        return [
            {
                "title": f"Group {letter_of(group)}",
                "rows": [vars(row) for row in self.group_table(group)],
                "go_on": GO_ON,
            }
            for group in range(1, len(self.groups) + 1)
        ]

    def stages(self) -> list[dict[str, Any]]:
        """The matches by their stages, in their order, without a second final that is not due."""
        stages: dict[str, list[dict[str, Any]]] = {}
        for match in self.matches:
            if match.stage == SECOND and self.is_won_by_winners(match):
                continue
            stages.setdefault(match.stage, []).append(self.row_of(match))
        return [{"title": title, "matches": rows} for title, rows in stages.items()]

    def row_of(self, match: Match) -> dict[str, Any]:
        """A match for the page. `from` says where a bot comes from that is not known yet."""
        bots = match.bots or tuple(self.bot_in(slot) for slot in (match.one, match.two))
        return {
            "number": match.number,
            "bots": [
                {"bot": bot, "seed": self.seeds.get(bot or BYE), "from": said(slot)}
                for bot, slot in zip(bots, (match.one, match.two))
            ],
            "points": list(match.points),
            "winner": match.winner,
            "is_done": match.is_done,
            "games": [it.name for it in match.games if it.name in self.results],
        }


def said(slot: Slot) -> str:
    """Where the bot of a slot comes from, in words."""
    if isinstance(slot, Winner):
        return f"winner of {slot.match}"
    if isinstance(slot, Loser):
        return f"loser of {slot.match}"
    if isinstance(slot, Placed):
        return f"{letter_of(slot.group)}{slot.place}"
    return f"seed {slot.number}" if slot.number else "bye"


def by_name(results: Sequence[Result]) -> dict[str, Result]:
    return {result.game: result for result in results}
