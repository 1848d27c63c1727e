"""hz_spiral: hazards that grow clockwise from a drawn cell (hazards.go).

From memory: a cell each third turn, and a start in the middle part of the board. Our own: cells off
the board are passed over at once, so that each third turn has its cell until the board is full.
"""

from __future__ import annotations

from collections.abc import Iterator
from functools import lru_cache

from arena_ladder.game.official.base import OfficialMap, Terrain
from arena_ladder.game.starts import Cell

MARGIN = 0.3  # of a side, in which the spiral does not begin
STEPS = ((0, 1), (1, 0), (0, -1), (-1, 0))  # up, right, down, left


class Spiral(OfficialMap):
    """One cell more each time."""

    name = "hz_spiral"
    every = 3

    def at(self, terrain: Terrain, turn: int) -> list[Cell] | None:
        cells, count = spiral(terrain), turn // terrain.every
        if turn % terrain.every != 0 or count > len(cells):
            return None
        return list(cells[:count])


@lru_cache(maxsize=128)
def spiral(terrain: Terrain) -> tuple[Cell, ...]:
    """All cells of a board in the order in which the spiral reaches them."""
    draw = terrain.draw()
    middle = Cell(*(between(draw.number(), side) for side in (terrain.width, terrain.height)))
    reach = 2 * max(terrain.width, terrain.height)
    cells = [cell for cell in winding(middle, reach) if terrain.has(cell)]
    return tuple(cells)


def between(number: int, side: int) -> int:
    """A place in the middle part of a side."""
    low = int(side * MARGIN)
    return low + number % max(1, side - 2 * low)


def winding(middle: Cell, reach: int) -> Iterator[Cell]:
    """The cells around a middle: 1 up, 1 right, 2 down, 2 left, 3 up, and so on."""
    at = middle
    yield at
    for leg in range(2 * reach):
        x, y = STEPS[leg % 4]
        for _ in range(leg // 2 + 1):
            at = Cell(at.x + x, at.y + y)
            yield at
