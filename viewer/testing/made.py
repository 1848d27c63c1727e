# Generated transcripts: a large one of many copies of a real game, and one long game of a single
# snake.
import json
from collections.abc import Iterable
from collections.abc import Iterator
from pathlib import Path
from typing import Any


def text(line: dict[str, Any]) -> str:
    """A line as the program writes it: compact, keys ascending."""
    return json.dumps(line, separators=(",", ":"), sort_keys=True, ensure_ascii=False)


def rounds_of(lines: list[str], game: str) -> list[dict[str, Any]]:
    """The lines of a game of one round, with an `end` after them, so that they can be repeated."""
    own = [
        line
        for line in map(json.loads, lines)
        if line.get("game") == game and "board" in line and "final" not in line
    ]
    return own + [{"charge": 0, "do": "end", "game": game}]


def write_large(path: Path, lines: list[str], game: str, games: int, size: int) -> int:
    """Writes a transcript of `games` games and at least `size` bytes: each game repeats its round.
    Returns the number of rounds of each."""
    ends = [json.loads(text(line)) for line in rounds_of(lines, game)]
    rounds = size // games // sum(len(text(line)) + 1 for line in ends) + 1
    with open(path, "w") as file:
        for index in range(games):
            numbered = ((rank, line) for rank, line in enumerate(ends * rounds, 1))
            for seq, line in numbered:
                file.write(text({**line, "game": f"game {index}", "seq": seq}) + "\n")
            file.write(
                text({"board": None, "charge": 0, "final": True, "game": f"game {index}"}) + "\n"
            )
    return rounds


SIDE = 20
MEAL = 90  # turns from one food to the next; a snake lives 100 without food


def tour() -> list[tuple[int, int]]:
    """All cells in a closed path: along the bottom row, then up and down the columns from the
    right."""
    cells = [(x, 0) for x in range(SIDE)]
    for x in reversed(range(SIDE)):
        column = range(1, SIDE)
        cells += [(x, y) for y in (column if (SIDE - 1 - x) % 2 == 0 else reversed(column))]
    return cells


def tour_boards(turns: int) -> Iterator[dict[str, Any]]:
    """The boards of a solo game on the tour; every MEAL turns there is food before the head."""
    cells = tour()
    body, health = [cells[0]] * 3, 100
    food: list[tuple[int, int]] = []
    for turn in range(turns + 1):
        if turn > 0:
            body, health = [cells[turn % len(cells)]] + body[:-1], health - 1
            if body[0] in food:
                body, health, food = body + body[-1:], 100, []
            if turn % MEAL == MEAL - 1:
                food = [cells[(turn + 1) % len(cells)]]
        snake = {
            "body": points(body),
            "by": None,
            "cause": None,
            "health": health,
            "id": "s",
            "out": None,
        }
        yield {
            "food": points(food),
            "food_chance": 100,
            "height": SIDE,
            "min_food": 0,
            "mode": "solo",
            "over": False,
            "snakes": [snake],
            "turn": turn,
            "width": SIDE,
        }


def points(cells: Iterable[tuple[int, int]]) -> list[dict[str, Any]]:
    return [{"x": x, "y": y} for x, y in cells]


def write_long(path: Path, turns: int) -> None:
    """Writes a transcript of one game of `turns` turns. Its charges are 0, unlike the program's."""
    with open(path, "w") as file:
        for turn, board in enumerate(tour_boards(turns)):
            file.write(
                text(
                    {
                        "board": board,
                        "charge": 0,
                        "do": "move" if turn else "new",
                        "game": "long",
                        "seq": turn + 1,
                    }
                )
                + "\n"
            )
        file.write(text({"board": board, "charge": 0, "final": True, "game": "long"}) + "\n")
