"""Boards as text and as pictures, for `render`."""

from __future__ import annotations

from typing import TYPE_CHECKING

import numpy as np
from numpy.typing import NDArray

if TYPE_CHECKING:
    from arena_rules.games import Games

CELL = 16  # pixels a side
BACKGROUND, EMPTY, FOOD = (24, 24, 27), (46, 46, 51), (235, 64, 52)
HAZARD = (96, 70, 40)
COLORS = (
    (66, 133, 244),
    (251, 188, 5),
    (52, 168, 83),
    (171, 71, 188),
    (0, 172, 193),
    (255, 112, 67),
    (158, 157, 36),
    (240, 98, 146),
)


def ansi(games: Games, game: int) -> str:
    """A board as lines of text, the highest row first.

    `*` is food, `x` a hazard with nothing on it, A to H the heads of living snakes by seat, a to h
    their other parts.
    """
    rows = [["x" if it else "." for it in row] for row in games.hazards[game]]
    for x, y in games.food(game):
        rows[y][x] = "*"
    seats = games.memory[game].head.seats
    for seat in (it for it in range(games.seats) if seats[it].cause == 0):
        for number, (x, y) in reversed(list(enumerate(games.body(game, seat)))):
            rows[y][x] = chr(ord("A" if number == 0 else "a") + seat)
    turn = games.memory[game].head.turn
    return "\n".join([f"turn {turn}", *("".join(row) for row in reversed(rows))]) + "\n"


def rgb(games: Games, game: int) -> NDArray[np.uint8]:
    """A board as a picture (CELL * height, CELL * width, 3) of bytes, the highest row first."""
    cells = np.empty((games.height, games.width, 3), "u1")
    cells[:] = np.where(games.hazards[game][:, :, None], HAZARD, EMPTY)
    for x, y in games.food(game):
        cells[y, x] = FOOD
    seats = games.memory[game].head.seats
    for seat in (it for it in range(games.seats) if seats[it].cause == 0):
        color = np.array(COLORS[seat])
        for number, (x, y) in reversed(list(enumerate(games.body(game, seat)))):
            cells[y, x] = color if number else (color + 255) // 2
    picture = cells[::-1].repeat(CELL, axis=0).repeat(CELL, axis=1)
    picture[::CELL] = picture[:, ::CELL] = BACKGROUND
    return picture
