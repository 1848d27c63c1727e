"""What the official maps have in common: how a map says where its hazards lie.

The maps are written from memory of the package `maps` of BattlesnakeOfficial/rules (MIT licence).
Each module names its file there, and what is not certain or our own.
"""

from __future__ import annotations

from collections.abc import Mapping, Sequence
from dataclasses import dataclass

from arena_client import Board
from arena_ladder.game.draws import Draw
from arena_ladder.game.starts import Cell

MEDIUM = (11, 11)
CORNERS = (Cell(1, 1), Cell(9, 9), Cell(1, 9), Cell(9, 1))  # of a board of 11 by 11


@dataclass(frozen=True)
class Terrain:
    """What the hazards of a game depend on: its board, the pace of its map, and its draws."""

    width: int
    height: int
    every: int  # turns from one change to the next; 0 if the map has no pace
    seed: int
    game: str

    def draw(self) -> Draw:
        return Draw(self.seed, self.game, "map")

    def has(self, cell: Cell) -> bool:
        return 0 <= cell.x < self.width and 0 <= cell.y < self.height


class OfficialMap:
    """A map. One without hazards that move has only those at the start."""

    name = ""  # in a configuration
    official = ""  # as bots get it, if that is another name
    sides: tuple[int, int] | None = None  # of the only board that it fits
    damage = 14  # if the configuration gives none
    every = 0  # if the configuration gives none; 0 if the map has no pace
    starts: Sequence[Sequence[Cell]] = ()  # groups of cells, those of the first taken first
    keeps_food_off = False  # whether food appears on no hazard; the ladder then places all food
    follows_snakes = False  # whether the hazards depend on the boards: `trailing` gives them

    def first(self, terrain: Terrain) -> list[Cell]:
        """The hazards at the start."""
        return []

    def at(self, terrain: Terrain, turn: int) -> list[Cell] | None:
        """The hazards that appear with the board of a turn, or None if they stay as they are."""
        return None

    def trailing(self, board: Board, moves: Mapping[str, str]) -> list[Cell]:
        """The hazards after the moves of a board, of a map that follows the snakes."""
        raise NotImplementedError


def ring(width: int, height: int, off: int) -> list[Cell]:
    """The cells that are `off` cells away from the nearest edge."""
    right, top = width - 1 - off, height - 1 - off
    return [
        Cell(x, y)
        for x in range(off, right + 1)
        for y in range(off, top + 1)
        if x in (off, right) or y in (off, top)
    ]


def drawn_cells(rows: Sequence[str], mark: str) -> list[Cell]:
    """The cells of a drawing, the top row first, that have a mark."""
    height = len(rows)
    return [
        Cell(x, height - 1 - y)
        for y, row in enumerate(rows)
        for x, cell in enumerate(row)
        if cell == mark
    ]
