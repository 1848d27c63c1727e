"""hz_hazard_pits: pits in a grid that fill, stay full, and drain (hazard_pits.go).

From memory: at each multiple of the pace the pits have one layer more, up to four, which stay for
three paces; then they are empty for one. The four starting cells are no pits.
"""

from __future__ import annotations

from arena_ladder.game.official.base import CORNERS, MEDIUM, OfficialMap, Terrain
from arena_ladder.game.starts import Cell, cells_of

LAYERS = 4
PACES = 7  # from one time when they are empty to the next


class HazardPits(OfficialMap):
    """Pits lie on the cells whose column and row are both odd."""

    name = "hz_hazard_pits"
    sides = MEDIUM
    every = 25
    starts = (CORNERS,)

    def at(self, terrain: Terrain, turn: int) -> list[Cell] | None:
        if turn % terrain.every != 0:
            return None
        return pits(terrain) * min(LAYERS, turn // terrain.every % PACES)


def pits(terrain: Terrain) -> list[Cell]:
    cells = cells_of(terrain.width, terrain.height)
    return [it for it in cells if it.x % 2 == 1 and it.y % 2 == 1 and it not in CORNERS]
