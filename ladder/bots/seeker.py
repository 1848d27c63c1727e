"""A bot that goes to the nearest food by steps that are free."""

from __future__ import annotations

from typing import Any

from server import free_steps


def choose(state: dict[str, Any]) -> str:
    """The free step after which some food is nearest; ties are broken by the word."""
    foods = [(food["x"], food["y"]) for food in state["board"]["food"]]
    steps = free_steps(state)

    def distance(word: str) -> int:
        x, y = steps[word]
        return min((abs(x - a) + abs(y - b) for a, b in foods), default=0)

    return min(steps, key=lambda word: (distance(word), word), default="up")
