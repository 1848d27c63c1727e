"""hz_columns: a hazard on each cell whose column and row are both odd (hazards.go)."""

from __future__ import annotations

from arena_ladder.game.official.base import OfficialMap, Terrain
from arena_ladder.game.starts import Cell, cells_of


class Columns(OfficialMap):
    """Pillars, with free cells around each of them."""

    name = "hz_columns"

    def first(self, terrain: Terrain) -> list[Cell]:
        cells = cells_of(terrain.width, terrain.height)
        return [cell for cell in cells if cell.x % 2 == 1 and cell.y % 2 == 1]
