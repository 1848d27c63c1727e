"""hz_rings: rings of hazards, with a free ring between each two (hazards.go)."""

from __future__ import annotations

from arena_ladder.game.official.base import OfficialMap, Terrain, ring
from arena_ladder.game.starts import Cell


class Rings(OfficialMap):
    """The first ring is one cell away from the edges, each further one two cells more."""

    name = "hz_rings"

    def first(self, terrain: Terrain) -> list[Cell]:
        inner = min(terrain.width, terrain.height) // 2 - 1
        rings = (ring(terrain.width, terrain.height, off) for off in range(1, inner, 2))
        return [cell for cells in rings for cell in cells]
