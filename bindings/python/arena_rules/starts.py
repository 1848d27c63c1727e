"""First boards as the ladder's and the official standard map's: drawn by a generator."""

from __future__ import annotations

from typing import Any

import numpy as np
from numpy.typing import NDArray

LAYOUTS = 1024  # drawn for each seed; a game begins with one of them
SMALLEST_FIXED = 7
MEDIUM = 11


def _is_fixed(width: int, height: int) -> bool:
    """Whether a board has fixed starting cells: if it is square and large enough."""
    return width == height and width >= SMALLEST_FIXED


def _centre(width: int, height: int) -> tuple[int, int]:
    return (width - 1) // 2, (height - 1) // 2


def even_cells(width: int, height: int) -> NDArray[Any]:
    """The cells of one colour of a chessboard, without the centre."""
    cells = [(x, y) for x in range(width) for y in range(height) if (x + y) % 2 == 0]
    return np.array([cell for cell in cells if cell != _centre(width, height)], "u1")


def most_seats(width: int, height: int) -> int:
    """The most snakes that a board has starting cells for."""
    return 8 if _is_fixed(width, height) else min(8, len(even_cells(width, height)))


def check_seats(width: int, height: int, seats: int) -> None:
    """Refuses more seats than a board has starting cells for."""
    most = most_seats(width, height)
    if seats > most:
        raise ValueError(
            f"seats is {seats}, and may be 1 to {most} on a board of {width} by {height}"
        )


def fixed_cells(side: int) -> NDArray[Any]:
    """The eight cells of a square board: corners, then the middles of the edges."""
    near, middle, far = 1, (side - 1) // 2, side - 2
    corners = [(x, y) for x in (near, far) for y in (near, far)]
    edges = [(near, middle), (middle, near), (middle, far), (far, middle)]
    return np.array(corners + edges, "u1")


def _is_outward(place: int, head: int, centre: int) -> bool:
    return place < head < centre or centre < head < place


def food_near(head: tuple[int, int], side: int) -> list[tuple[int, int]]:
    """The diagonal neighbours of a head on which its first food may lie: further from the centre
    than the head, by column or by row, and in no corner."""
    centre, corners = _centre(side, side), {(x, y) for x in (0, side - 1) for y in (0, side - 1)}
    diagonal = [(head[0] + x, head[1] + y) for x in (-1, 1) for y in (-1, 1)]
    return [
        cell
        for cell in diagonal
        if cell not in corners
        and cell != centre
        and any(_is_outward(*it) for it in zip(cell, head, centre))
    ]


def _orders(rng: np.random.Generator, count: int, length: int) -> NDArray[Any]:
    """Drawn orders of the numbers below a length, one in each row."""
    return rng.random((count, length)).argsort(axis=1)


def _fixed(rng: np.random.Generator, side: int, seats: int) -> tuple[NDArray[Any], NDArray[Any]]:
    """On a square board: the corners or the edges first, each in a drawn order; food near each
    head and in the centre."""
    corners, edges = _orders(rng, LAYOUTS, 4), 4 + _orders(rng, LAYOUTS, 4)
    swapped = rng.integers(0, 2, (LAYOUTS, 1)).astype(bool)
    first, second = np.where(swapped, edges, corners), np.where(swapped, corners, edges)
    order = np.concatenate([first, second], axis=1)[:, :seats]
    cells = fixed_cells(side)
    centre = np.broadcast_to(np.array(_centre(side, side), "u1"), (LAYOUTS, 1, 2))
    if seats > 4 and side < MEDIUM:
        return cells[order], centre.copy()
    near = np.array([food_near((int(x), int(y)), side)[:2] for x, y in cells], "u1")
    chosen = near[order, rng.integers(0, 2, order.shape)]
    return cells[order], np.concatenate([chosen, centre], axis=1)


def _drawn(
    rng: np.random.Generator, width: int, height: int, seats: int
) -> tuple[NDArray[Any], NDArray[Any]]:
    """On another board: drawn cells of one colour, and for each snake one food that no head is on
    or can reach in one step, as far as there are such cells in every layout."""
    even = even_cells(width, height)
    starts = even[_orders(rng, LAYOUTS, len(even))[:, :seats]]
    cells = np.array([(x, y) for x in range(width) for y in range(height)], "i4")
    apart = np.abs(cells[None, :, None] - starts[:, None].astype("i4")).sum(axis=3)
    taken = (apart <= 1).any(axis=2)
    order = (rng.random(taken.shape) + taken).argsort(axis=1)
    foods = min(seats, int((~taken).sum(axis=1).min()))
    return starts, cells[order[:, :foods]].astype("u1")


def layouts(
    rng: np.random.Generator, width: int, height: int, seats: int, mode: str
) -> tuple[NDArray[Any], NDArray[Any]]:
    """Starting cells and first food of LAYOUTS boards: two arrays (LAYOUTS, entries, 2)."""
    if _is_fixed(width, height):
        starts, food = _fixed(rng, width, seats)
    else:
        starts, food = _drawn(rng, width, height, seats)
    return starts, food[:, :0] if mode == "constrictor" else food
