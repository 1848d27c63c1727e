"""The matches of eliminations, single and double, for any number of bots.

Where bots are missing to a power of two, the best seeds have a bye in the first round.
"""

from __future__ import annotations

from collections.abc import Sequence

from arena_ladder.game.matches import Loser, Match, Seed, Slot, Winner

STAGES = {1: "Final", 2: "Semifinals", 4: "Quarterfinals"}


class Builder:
    """Numbers matches and rounds as they are added."""

    def __init__(self, number: int = 1, round: int = 1) -> None:
        self.matches: list[Match] = []
        self.number = number
        self.round = round

    def add_round(self, stage: str, pairs: Sequence[tuple[Slot, Slot]]) -> list[Match]:
        """Adds a round of matches, which can be played at once."""
        added = []
        for one, two in pairs:
            added.append(Match(self.number, self.round, stage, one, two))
            self.number += 1
        self.round += 1
        self.matches += added
        return added


def order_of(size: int) -> list[int]:
    """The seeds from the top of a bracket to its bottom: the best two meet in the final."""
    order = [1]
    while len(order) < size:
        total = 2 * len(order) + 1
        order = [seed for best in order for seed in (best, total - best)]
    return order


def size_of(count: int) -> int:
    """The least power of two that has room for all."""
    return 1 << max(1, (count - 1).bit_length())


def pairs_of(slots: Sequence[Slot]) -> list[tuple[Slot, Slot]]:
    return list(zip(slots[::2], slots[1::2]))


def winners_rounds(builder: Builder, slots: Sequence[Slot], prefix: str = "") -> list[list[Match]]:
    """The rounds of an elimination, from the slots in their order from top to bottom."""
    rounds = []
    while len(slots) > 1:
        count = len(slots) // 2
        name = STAGES.get(count, f"Round of {2 * count}")
        rounds.append(builder.add_round(f"{prefix}{name}", pairs_of(slots)))
        slots = [Winner(match.number) for match in rounds[-1]]
    return rounds


def single(builder: Builder, entries: Sequence[Slot]) -> None:
    """A single elimination of entries, the best first."""
    order = order_of(size_of(len(entries)))
    winners_rounds(builder, [seeded(entries, seed) for seed in order])


def seeded(entries: Sequence[Slot], seed: int) -> Slot:
    """The entry of a seed; one that nobody has if there are fewer."""
    return entries[seed - 1] if seed <= len(entries) else Seed(0)


def double(builder: Builder, entries: Sequence[Slot]) -> None:
    """A double elimination: a bot that has lost twice is out.

    The losers of each round of the winners meet those that are left of the losers, from the other
    end of the bracket. If the winner of the losers wins the final, there is a second one.
    """
    order = order_of(size_of(len(entries)))
    slots: list[Slot] = [seeded(entries, seed) for seed in order]
    rounds = winners_rounds(builder, slots, "Winners: ")
    left: list[Slot] = [Loser(match.number) for match in rounds[0]]
    number = 0
    for matches in rounds[1:]:
        number += 1
        played = builder.add_round(f"Losers: round {number}", pairs_of(left))
        dropped = [Loser(match.number) for match in reversed(matches)]
        number += 1
        kept = [Winner(match.number) for match in played]
        met = builder.add_round(f"Losers: round {number}", list(zip(kept, dropped)))
        left = [Winner(match.number) for match in met]
    (last,) = left
    (final,) = builder.add_round("Grand final", [(Winner(rounds[-1][0].number), last)])
    builder.add_round("Second final", [(Winner(final.number), Loser(final.number))])
