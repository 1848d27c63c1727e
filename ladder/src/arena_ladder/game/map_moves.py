"""What a map adds to the lines of a game: hazards, and food where the ladder places it.

Food that the ladder places lies on no hazard. It follows the host's rule, by draws of its own: if
there is less than the minimum, the missing number appears, else one by chance. It is drawn from the
board before the move, on cells that no snake can reach by that move.
"""

from __future__ import annotations

from collections.abc import Iterable
from typing import Any

from arena_client import Board
from arena_ladder.game.config import Config
from arena_ladder.game.draws import Draw
from arena_ladder.game.maps import Ground, HazardMap, Turn
from arena_ladder.game.starts import Cell, cells_of, first_food, start_cells

NEAR = ((0, 0), (1, 0), (-1, 0), (0, 1), (0, -1))


def ground_of(config: Config, hazards: HazardMap, game: str) -> Ground:
    return Ground(config.rules.width, config.rules.height, hazards, config.seed, game)


def opening_members(config: Config, game: str, count: int) -> dict[str, Any]:
    """The places of a `new`: starting cells as `heads`, food, and hazards if there is a map."""
    rules, hazards = config.rules, config.rules.hazards
    draw = Draw(config.seed, game, "start")
    official = None if hazards is None else hazards.official
    if official is not None and official.starts:
        heads = [cell for cells in official.starts for cell in draw.shuffled(cells)][:count]
    else:
        heads = start_cells(draw, rules.width, rules.height, count)
    first = [] if hazards is None else ground_of(config, hazards, game).first_hazards()
    if hazards is not None and hazards.places_food:
        food = drawn(draw, set(cells_of(rules.width, rules.height)) - around(heads, first), count)
    else:
        food = first_food(draw, rules.width, rules.height, heads)
    members: dict[str, Any] = {
        "heads": heads,
        "food": [] if rules.mode == "constrictor" else as_members(food),
        "min_food": rules.min_food,
        "food_chance": rules.food_chance,
    }
    if hazards is None:
        return members
    if hazards.places_food:
        members |= {"min_food": 0, "food_chance": 0}
    return {**members, "hazards": as_members(first), "hazard_damage": hazards.damage}


def map_members(config: Config, game: str, turn: int, before: Turn | None = None) -> dict[str, Any]:
    """What the move after a turn has beside directions and words: hazards and food, if they change.

    `before` is needed by maps for which `needs_boards` holds, and read by no other.
    """
    hazards = config.rules.hazards
    if hazards is None:
        return {}
    ground = ground_of(config, hazards, game)
    cells = ground.hazards_after(turn, before)
    members = {} if cells is None else {"hazards": as_members(cells)}
    if hazards.places_food and config.rules.mode != "constrictor":
        assert before is not None
        food = food_after(config, game, before[0])
        members |= {"food": as_members(food)} if food else {}
    return members


def food_after(config: Config, game: str, board: Board) -> list[Cell]:
    """The food that the move of a board gives."""
    draw, rules = Draw(config.seed, game, "food", board["turn"]), config.rules
    missing = rules.min_food - len(board["food"])
    if missing <= 0:
        missing = int(draw.below(100) < rules.food_chance)
    if missing == 0:
        return []
    living = [snake["body"] for snake in board["snakes"] if snake["cause"] is None]
    heads = [Cell(**body[0]) for body in living]
    taken = [*board["food"], *board.get("hazards", ()), *(it for body in living for it in body)]
    free = set(cells_of(rules.width, rules.height)) - around(heads, (Cell(**it) for it in taken))
    return drawn(draw, free, missing)


def around(heads: Iterable[Cell], others: Iterable[Cell]) -> set[Cell]:
    """Cells that heads are on or can reach in one step, and others."""
    return {Cell(it.x + x, it.y + y) for it in heads for x, y in NEAR} | set(others)


def drawn(draw: Draw, free: Iterable[Cell], count: int) -> list[Cell]:
    """As many drawn cells of the free ones as there are, each once."""
    cells = sorted(free)
    return [cells.pop(draw.below(len(cells))) for _ in range(min(count, len(cells)))]


def as_members(cells: Iterable[Cell]) -> list[dict[str, int]]:
    return [cell._asdict() for cell in cells]
