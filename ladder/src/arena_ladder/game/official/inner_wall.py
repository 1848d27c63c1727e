"""hz_inner_wall: one ring of hazards near the edges (hazards.go)."""

from __future__ import annotations

from arena_ladder.game.official.base import OfficialMap, Terrain, ring
from arena_ladder.game.starts import Cell

OFF = 2  # cells from the edges, by the official description


class InnerWall(OfficialMap):
    """A wall one cell thick, with two free cells between it and the edges."""

    name = "hz_inner_wall"

    def first(self, terrain: Terrain) -> list[Cell]:
        return ring(terrain.width, terrain.height, OFF)
