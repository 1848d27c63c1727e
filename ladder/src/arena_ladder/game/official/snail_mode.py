"""snail_mode: each snake leaves a trail of hazards, which fades (snail_mode.go).

From memory: the cell that a tail leaves gets as many layers as its snake is long, and each cell
loses one layer a turn; none appears where a head is. Our own: if there were more than 2,500 layers,
the most that a board can have, the thinnest cells lose theirs first.
"""

from __future__ import annotations

from collections import Counter
from collections.abc import Mapping

from arena_client import Board, Snake
from arena_ladder.game.official.base import OfficialMap
from arena_ladder.game.starts import Cell

MOST_LAYERS = 2_500
STEPS = {"up": (0, 1), "down": (0, -1), "left": (-1, 0), "right": (1, 0)}


class SnailMode(OfficialMap):
    """The first trail appears when the first tail moves."""

    name = "snail_mode"
    follows_snakes = True

    def trailing(self, board: Board, moves: Mapping[str, str]) -> list[Cell]:
        layers = Counter(Cell(it["x"], it["y"]) for it in board["hazards"])
        layers = Counter({cell: count - 1 for cell, count in layers.items()})
        living = [snake for snake in board["snakes"] if snake["cause"] is None]
        heads = {next_head(snake, moves.get(snake["id"]), board) for snake in living}
        for snake in living:
            tail, before = snake["body"][-1], snake["body"][-2]
            cell = Cell(tail["x"], tail["y"])
            if tail != before and cell not in heads:
                layers[cell] += len(snake["body"])
        return fitting(layers)


def next_head(snake: Snake, direction: str | None, board: Board) -> Cell:
    """The cell of a head after a move; without a direction it goes straight on, at first up."""
    head, neck = snake["body"][0], snake["body"][1]
    if direction is not None:
        x, y = STEPS[direction]
    else:
        x, y = head["x"] - neck["x"], head["y"] - neck["y"]
        if (x, y) == (0, 0):
            x, y = STEPS["up"]
    if board["mode"] == "wrapped":
        return Cell((head["x"] + x) % board["width"], (head["y"] + y) % board["height"])
    return Cell(head["x"] + x, head["y"] + y)


def fitting(layers: Counter[Cell]) -> list[Cell]:
    """The hazards of these layers, in the order of the cells, as many as a board can have."""
    room, kept = MOST_LAYERS, []
    for cell, count in sorted(layers.items(), key=lambda it: (-it[1], it[0])):
        taken = min(room, max(0, count))
        kept += [cell] * taken
        room -= taken
    return sorted(kept)
