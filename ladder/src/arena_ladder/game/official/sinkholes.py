"""sinkholes: a round hole in the middle that grows and deepens (sinkholes.go).

From memory: it opens at turn 1 with one cell and grows each tenth turn; each time all cells of the
larger hole get one more layer; it grows 3, 5 or 7 times on small, medium and large boards.
"""

from __future__ import annotations

from arena_ladder.game.official.base import OfficialMap, Terrain
from arena_ladder.game.starts import Cell

OPENS = 1  # the turn
RINGS = ((7, 3), (18, 5), (25, 7))  # how often it grows, by the longest side of the board


class Sinkholes(OfficialMap):
    """A layer is the square around the middle without its corners."""

    name = "sinkholes"
    every = 10

    def at(self, terrain: Terrain, turn: int) -> list[Cell] | None:
        grown, rest = divmod(turn - OPENS, terrain.every)
        side = max(terrain.width, terrain.height)
        most = next(rings for longest, rings in RINGS if side <= longest)
        if turn < OPENS or rest != 0 or grown > most:
            return None
        return [cell for off in range(grown + 1) for cell in layer(terrain, off)]


def layer(terrain: Terrain, off: int) -> list[Cell]:
    """The cells of the hole when it has grown `off` times."""
    middle = Cell(terrain.width // 2, terrain.height // 2)
    steps = range(-off, off + 1)
    cells = (
        Cell(middle.x + x, middle.y + y)
        for x in steps
        for y in steps
        if off == 0 or abs(x) + abs(y) < 2 * off
    )
    return [cell for cell in cells if terrain.has(cell)]
