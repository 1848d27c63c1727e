"""hz_scatter: drawn cells become hazards one after the other, until all are (hazards.go).

From memory: a cell every second turn.
"""

from __future__ import annotations

from functools import lru_cache

from arena_ladder.game.official.base import OfficialMap, Terrain
from arena_ladder.game.starts import Cell, cells_of


class Scatter(OfficialMap):
    """One cell more each time."""

    name = "hz_scatter"
    every = 2

    def at(self, terrain: Terrain, turn: int) -> list[Cell] | None:
        cells, count = shuffled(terrain), turn // terrain.every
        if turn % terrain.every != 0 or count > len(cells):
            return None
        return list(cells[:count])


@lru_cache(maxsize=128)
def shuffled(terrain: Terrain) -> tuple[Cell, ...]:
    """All cells of a board in the order in which they become hazards."""
    return tuple(terrain.draw().shuffled(cells_of(terrain.width, terrain.height)))
