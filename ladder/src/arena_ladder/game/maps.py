"""The hazards of a ladder's games: fixed cells, sides that move in, or those of an official map."""

from __future__ import annotations

from collections.abc import Mapping
from dataclasses import dataclass
from typing import Any

from arena_client import Board
from arena_ladder.game.draws import sides_of
from arena_ladder.game.official import MAPS, OfficialMap, Terrain
from arena_ladder.game.starts import Cell, cells_of

LEFT, RIGHT, BOTTOM, TOP = range(4)

Turn = tuple[Board, Mapping[str, str]]  # a board, and the directions of the move that follows


@dataclass(frozen=True)
class HazardMap:
    """The hazards of each game. On the royale map all of them are drawn."""

    damage: int
    shrink_every: int = 0  # turns from one change of the map to the next; 0 if it has no such pace
    cells: tuple[Cell, ...] = ()  # from the start on; a cell may occur several times
    name: str = ""  # of an official map other than royale

    @property
    def is_royale(self) -> bool:
        return self.shrink_every > 0 and not self.name

    @property
    def official(self) -> OfficialMap | None:
        return MAPS[self.name] if self.name else None

    @property
    def places_food(self) -> bool:
        """Whether the ladder places all food, and not the host."""
        return self.official is not None and self.official.keeps_food_off

    @property
    def needs_boards(self) -> bool:
        """Whether what a move gives depends on the board before it."""
        return self.official is not None and (self.places_food or self.official.follows_snakes)

    @property
    def members(self) -> dict[str, Any]:
        """The values of JSON from which `map_from_members` makes this map."""
        cells = [list(cell) for cell in self.cells]
        members = {"damage": self.damage, "shrink_every": self.shrink_every, "cells": cells}
        return {**members, "map": self.name} if self.name else members


def map_from_members(members: dict[str, Any]) -> HazardMap:
    cells = tuple(Cell(*cell) for cell in members["cells"])
    return HazardMap(members["damage"], members["shrink_every"], cells, members.get("map", ""))


@dataclass(frozen=True)
class Ground:
    """A board's sides, its map, and the words on which its drawn hazards depend."""

    width: int
    height: int
    hazards: HazardMap
    seed: int
    game: str

    @property
    def terrain(self) -> Terrain:
        every = self.hazards.shrink_every
        return Terrain(self.width, self.height, every, self.seed, self.game)

    def first_hazards(self) -> list[Cell]:
        """The hazards at the start."""
        official = self.hazards.official
        return list(self.hazards.cells) if official is None else official.first(self.terrain)

    def hazards_after(self, turn: int, before: Turn | None = None) -> list[Cell] | None:
        """The hazards that the move after a turn gives, or None if they stay as they are.

        A map that follows the snakes needs what was `before`.
        """
        official = self.hazards.official
        if official is None:
            return self.royale_after(turn)
        if official.follows_snakes:
            assert before is not None
            return official.trailing(*before)
        return official.at(self.terrain, turn + 1)

    def royale_after(self, turn: int) -> list[Cell] | None:
        every = self.hazards.shrink_every
        if every == 0 or (turn + 1) % every != 0:
            return None
        before, after = (self.outside(count // every) for count in (turn, turn + 1))
        return after if after != before else None

    def outside(self, shrinks: int) -> list[Cell]:
        """The cells that are outside after this number of sides have moved in by one cell each."""
        left, right, bottom, top = 0, self.width - 1, 0, self.height - 1
        for side in sides_of(self.seed, self.game, shrinks):
            left += side == LEFT
            right -= side == RIGHT
            bottom += side == BOTTOM
            top -= side == TOP
            if left > right or bottom > top:
                break
        return [
            cell
            for cell in cells_of(self.width, self.height)
            if not (left <= cell.x <= right and bottom <= cell.y <= top)
        ]
