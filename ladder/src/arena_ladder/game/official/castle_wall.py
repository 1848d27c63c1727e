"""hz_castle_wall on 11 by 11: a wall around the middle with four gates (castle_wall.go).

From memory: a wall two cells from the edges, and dangerous gates. Our own: that the cells beside a
gate have two layers, and where snakes start.
"""

from __future__ import annotations

from arena_ladder.game.official.base import CORNERS, MEDIUM, OfficialMap, Terrain, drawn_cells
from arena_ladder.game.starts import Cell

WALL = (
    "...........",
    "...........",
    "..##X.X##..",
    "..#.....#..",
    "..X.....X..",
    "...........",
    "..X.....X..",
    "..#.....#..",
    "..##X.X##..",
    "...........",
    "...........",
)
EDGES = (Cell(1, 5), Cell(9, 5), Cell(5, 1), Cell(5, 9))


class CastleWall(OfficialMap):
    """Snakes start outside."""

    name = "castle_wall"
    official = "hz_castle_wall"
    sides = MEDIUM
    starts = (CORNERS, EDGES)
    keeps_food_off = True

    def first(self, terrain: Terrain) -> list[Cell]:
        towers = drawn_cells(WALL, "X")
        return sorted([*drawn_cells(WALL, "#"), *towers, *towers])
