"""A bot that keeps away from the heads of the others, and seeks food when it is hungry."""

from __future__ import annotations

from typing import Any

import seeker
from server import STEPS, free_steps

HUNGRY = 30  # health below which it seeks food


def choose(state: dict[str, Any]) -> str:
    """The free step to the cell with most free neighbours, then farthest from another's head."""
    you, board = state["you"], state["board"]
    if you["health"] < HUNGRY:
        return seeker.choose(state)
    heads = [(it["head"]["x"], it["head"]["y"]) for it in board["snakes"] if it["id"] != you["id"]]
    taken = {(part["x"], part["y"]) for it in board["snakes"] for part in it["body"]}
    steps = free_steps(state)

    def ways(x: int, y: int) -> int:
        cells = [(x + right, y + up) for right, up in STEPS.values()]
        inside = [(a, b) for a, b in cells if 0 <= a < board["width"] and 0 <= b < board["height"]]
        return sum(cell not in taken for cell in inside)

    def safety(word: str) -> tuple[int, int]:
        x, y = steps[word]
        return ways(x, y), min((abs(x - a) + abs(y - b) for a, b in heads), default=0)

    return max(sorted(steps), key=safety, default="up")
