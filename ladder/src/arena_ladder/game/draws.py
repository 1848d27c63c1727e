"""Numbers drawn from a seed, the same on every machine."""

from __future__ import annotations

import hashlib
from collections.abc import Iterable, Iterator
from typing import TypeVar

Item = TypeVar("Item")


class Draw:
    """A sequence of drawn numbers that depends on the given words alone.

    Number n, from 0, is the first eight bytes, big-endian, of the SHA-256 of the words and n with
    slashes between them.
    """

    def __init__(self, *words: str | int) -> None:
        self.text = "/".join(str(word) for word in words)
        self.drawn = 0

    def number(self) -> int:
        """The next number, below 2**64."""
        digest = hashlib.sha256(f"{self.text}/{self.drawn}".encode()).digest()
        self.drawn += 1
        return int.from_bytes(digest[:8], "big")

    def below(self, bound: int) -> int:
        return self.number() % bound

    def shuffled(self, items: Iterable[Item]) -> list[Item]:
        """The items in a drawn order, by Fisher and Yates from the last place to the first."""
        order = list(items)
        for at in range(len(order) - 1, 0, -1):
            other = self.below(at + 1)
            order[at], order[other] = order[other], order[at]
        return order


def sides_of(seed: int, game: str, count: int) -> Iterator[int]:
    """The sides that move in on the royale map, one after the other, each from 0 to 3."""
    draw = Draw(seed, game, "sides")
    return (draw.below(4) for _ in range(count))


def words_of(seed: int, game: str, turn: int, count: int) -> list[int]:
    """The words of the move that follows a turn, each below 2**32."""
    draw = Draw(seed, game, turn)
    return [draw.number() >> 32 for _ in range(count)]
