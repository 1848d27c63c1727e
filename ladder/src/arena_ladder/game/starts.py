"""The starting cells and the first food, as on the official standard map."""

from __future__ import annotations

from collections.abc import Sequence
from typing import NamedTuple

from arena_ladder.game.draws import Draw

SMALLEST_FIXED = 7  # cells a side; on smaller boards all cells are drawn
MEDIUM = 11


class Cell(NamedTuple):
    x: int
    y: int


def cells_of(width: int, height: int) -> list[Cell]:
    return [Cell(x, y) for x in range(width) for y in range(height)]


def centre_of(width: int, height: int) -> Cell:
    return Cell((width - 1) // 2, (height - 1) // 2)


def is_fixed(width: int, height: int) -> bool:
    """Whether a board has fixed starting cells: if it is square and large enough."""
    return width == height and width >= SMALLEST_FIXED


def even_cells(width: int, height: int) -> list[Cell]:
    """The cells of one colour of a chessboard, without the centre."""
    centre = centre_of(width, height)
    return [cell for cell in cells_of(width, height) if sum(cell) % 2 == 0 and cell != centre]


def most_snakes(width: int, height: int) -> int:
    return 8 if is_fixed(width, height) else len(even_cells(width, height))


def start_cells(draw: Draw, width: int, height: int, count: int) -> list[Cell]:
    """The starting cells of the seats, in their order."""
    if not is_fixed(width, height):
        return draw.shuffled(even_cells(width, height))[:count]
    near, middle, far = 1, (width - 1) // 2, width - 2
    corners = draw.shuffled(Cell(x, y) for x in (near, far) for y in (near, far))
    edges = draw.shuffled(
        [Cell(near, middle), Cell(middle, near), Cell(middle, far), Cell(far, middle)]
    )
    return (corners + edges if draw.below(2) == 0 else edges + corners)[:count]


def first_food(draw: Draw, width: int, height: int, heads: list[Cell]) -> list[Cell]:
    """The first food: near each head and in the centre, or drawn if starting cells are drawn."""
    if not is_fixed(width, height):
        return drawn_food(draw, width, height, heads)
    food: list[Cell] = []
    if len(heads) <= 4 or width >= MEDIUM:
        for head in heads:
            fit = [cell for cell in food_near(head, width, height) if cell not in food]
            if fit:
                food.append(fit[draw.below(len(fit))])
    centre = centre_of(width, height)
    return food if centre in heads else [*food, centre]


def food_near(head: Cell, width: int, height: int) -> list[Cell]:
    """The diagonal neighbours of a head on which its first food may lie.

    They are further from the centre than the head, by column or by row, and in no corner.
    """
    centre = centre_of(width, height)
    corners = {Cell(x, y) for x in (0, width - 1) for y in (0, height - 1)}
    diagonal = [Cell(head.x + x, head.y + y) for x in (-1, 1) for y in (-1, 1)]
    return [
        cell
        for cell in diagonal
        if cell not in corners
        and cell != centre
        and (is_outward(cell.x, head.x, centre.x) or is_outward(cell.y, head.y, centre.y))
    ]


def is_outward(place: int, head: int, centre: int) -> bool:
    """Whether a head lies between a place and the centre, in one coordinate."""
    return place < head < centre or centre < head < place


def drawn_food(draw: Draw, width: int, height: int, heads: Sequence[Cell]) -> list[Cell]:
    """One food for each snake, on cells that no head is on or can reach in one step."""
    taken = {
        Cell(head.x + x, head.y + y)
        for head in heads
        for x, y in ((0, 0), (1, 0), (-1, 0), (0, 1), (0, -1))
    }
    free = [cell for cell in cells_of(width, height) if cell not in taken]
    return draw.shuffled(free)[: len(heads)]
