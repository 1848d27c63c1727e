"""hz_rivers_bridges and hz_islands_bridges on 11 by 11 (rivers_and_bridges.go).

From memory: rivers in the middle column and row, with a bridge in the middle of each of the four
arms; the islands have water along the edges too. Our own: where the bridges across the edges are,
and the second four starting cells.
"""

from __future__ import annotations

from arena_ladder.game.official.base import CORNERS, MEDIUM, OfficialMap, Terrain, drawn_cells
from arena_ladder.game.starts import Cell

INNER = (Cell(3, 3), Cell(7, 7), Cell(3, 7), Cell(7, 3))
RIVERS = (
    ".....~.....",
    ".....~.....",
    "...........",
    ".....~.....",
    ".....~.....",
    "~~.~~~~~.~~",
    ".....~.....",
    ".....~.....",
    "...........",
    ".....~.....",
    ".....~.....",
)
ISLANDS = (
    "~~.~~~~~.~~",
    "~....~....~",
    "...........",
    "~....~....~",
    "~....~....~",
    "~~.~~~~~.~~",
    "~....~....~",
    "~....~....~",
    "...........",
    "~....~....~",
    "~~.~~~~~.~~",
)


class Rivers(OfficialMap):
    """Four lands between two rivers."""

    name = "rivers_and_bridges"
    official = "hz_rivers_bridges"
    sides = MEDIUM
    starts = (CORNERS, INNER)
    keeps_food_off = True

    def first(self, terrain: Terrain) -> list[Cell]:
        return drawn_cells(RIVERS, "~")


class Islands(OfficialMap):
    """Four islands."""

    name = "hz_islands_bridges"
    sides = MEDIUM
    starts = (CORNERS, INNER)
    keeps_food_off = True

    def first(self, terrain: Terrain) -> list[Cell]:
        return drawn_cells(ISLANDS, "~")
