"""arcade_maze on 19 by 21: the walls of an arcade game's maze (arcade_maze.go).

From memory: the size, walls that eliminate, and a tunnel, which joins the edges in wrapped games.
The walls themselves are drawn after the arcade game. Our own: the starting cells, and food on each
free cell alike, where the official map has a list of places.
"""

from __future__ import annotations

from arena_ladder.game.official.base import OfficialMap, Terrain, drawn_cells
from arena_ladder.game.starts import Cell

MAZE = (
    "###################",
    "#s.......#.......s#",
    "#.##.###.#.###.##.#",
    "#.................#",
    "#.##.#.#####.#.##.#",
    "#....#...#...#....#",
    "####.###.#.###.####",
    "####.#.......#.####",
    "####.#.##.##.#.####",
    "....t..#...#..t....",
    "####.#.#####.#.####",
    "####.#.......#.####",
    "####.#.#####.#.####",
    "#........#........#",
    "#.##.###.#.###.##.#",
    "#t.#...........#.t#",
    "##.#.#.#####.#.#.##",
    "#....#...#...#....#",
    "#.######.#.######.#",
    "#s...............s#",
    "###################",
)
FIRST, SECOND = (tuple(drawn_cells(MAZE, mark)) for mark in "st")


class ArcadeMaze(OfficialMap):
    """A snake that enters a wall is eliminated."""

    name = "arcade_maze"
    sides = (19, 21)
    damage = 100
    starts = (FIRST, SECOND)
    keeps_food_off = True

    def first(self, terrain: Terrain) -> list[Cell]:
        return drawn_cells(MAZE, "#")
