"""Command files of known shape and any size, which benches/measure.py times and tests serve."""
import itertools
import json
from collections.abc import Callable
from collections.abc import Iterable
from collections.abc import Iterator
from pathlib import Path
from typing import Any

from program import line

# Blocks, enough for every shape.
BLOCKS = "512"


def plan(names: Iterable[str], quota: int, **more: Any) -> str:
    return line(games=[{"game": name, "quota": quota} for name in names], **more)


def new(name: str, mode: str, side: int, snakes: list[dict[str, Any]], **more: Any) -> str:
    """A line that begins a game on a square board without food."""
    members = {"mode": mode, "width": side, "height": side, "snakes": snakes, "food": []}
    return line(game=name, do="new", **members, **more)


def rounds_of(
    games: dict[str, Any], rounds: int, turns: int, moves: Callable[[int], dict[str, Any]]
) -> Iterator[str]:
    """The lines of games that are begun, played for `turns` turns in parallel and ended, round by
    round. `games` has the members of `new` by name; `moves` gives the members of a turn's moves."""
    for _ in range(rounds):
        for name, members in games.items():
            yield new(name, **members)
        for turn in range(turns):
            members = moves(turn)
            for name in games:
                yield line(game=name, do="move", **members)
        for name in games:
            yield line(game=name, do="end")


NO_FOOD = {"min_food": 0, "food_chance": 0}
ROUND = 95  # turns, fewer than a snake lives without food


def many_games(rounds: int) -> Iterator[str]:
    """64 games of four snakes each, which go round in squares of two by two cells. Each game is
    ended and begun anew, round by round."""
    starts = {"a": (2, 2), "b": (7, 2), "c": (2, 7), "d": (7, 7)}
    snakes = [{"id": id, "x": x, "y": y} for id, (x, y) in starts.items()]
    game = {"mode": "standard", "side": 11, "snakes": snakes, **NO_FOOD}
    games = {f"g{index}": game for index in range(64)}

    def moves(turn: int) -> dict[str, Any]:
        return {"moves": dict.fromkeys(starts, ("up", "right", "down", "left")[turn % 4])}

    yield plan(games, 16_384)
    yield from rounds_of(games, rounds, ROUND, moves)


def tour(width: int, height: int) -> list[tuple[int, int]]:
    """All cells of a board of even width in a closed path: along the bottom row, then up and down
    the columns from the right."""
    cells = [(x, 0) for x in range(width)]
    for x in reversed(range(width)):
        column = range(1, height)
        cells += [(x, y) for y in (column if (width - 1 - x) % 2 == 0 else reversed(column))]
    return cells


DIRECTIONS = {(0, 1): "up", (0, -1): "down", (1, 0): "right", (-1, 0): "left"}


def long_game(turns: int) -> Iterator[str]:
    """One snake that goes on a tour of a board of 20 by 20 cells. The words of every 90th move put
    food before its head."""
    side = 20
    cells = tour(side, side)
    food = None
    body = [cells[0]] * 3
    yield plan(["g"], 16_777_216)
    snakes = [{"id": "s", "x": 0, "y": 0}]
    yield new("g", "solo", side, snakes, min_food=0, food_chance=100)
    for turn in range(turns):
        here, there = cells[turn % len(cells)], cells[(turn + 1) % len(cells)]
        body = [there] + body[:-1]
        if there == food:
            body.append(body[-1])
            food = None
        words = []
        if turn % 90 == 60:
            taken = set(body) | {food}
            free = [(x, y) for y in range(side) for x in range(side) if (x, y) not in taken]
            food = cells[(turn + 2) % len(cells)]
            words = [0, free.index(food)]
        yield line(
            game="g",
            do="move",
            moves={"s": DIRECTIONS[there[0] - here[0], there[1] - here[1]]},
            words=words,
        )


def corner_tours(side: int, columns: int, rows: int) -> list[list[tuple[int, int]]]:
    """The tours of the equal parts that a square board is cut into, each from the lower left corner
    of its part."""
    width, height = side // columns, side // rows
    corners = [(column * width, row * height) for row in range(rows) for column in range(columns)]
    return [[(left + x, low + y) for x, y in tour(width, height)] for left, low in corners]


def orders(tours: list[list[tuple[int, int]]], turn: int) -> dict[str, str]:
    """Each snake's next direction on its tour. The snakes are named by letters."""
    steps = [(cells[turn % len(cells)], cells[(turn + 1) % len(cells)]) for cells in tours]
    return {
        "abcdefgh"[seat]: DIRECTIONS[there[0] - here[0], there[1] - here[1]]
        for seat, (here, there) in enumerate(steps)
    }


def starts(tours: list[list[tuple[int, int]]]) -> list[dict[str, Any]]:
    return [
        {"id": "abcdefgh"[seat], "x": cells[0][0], "y": cells[0][1]}
        for seat, cells in enumerate(tours)
    ]


LARGE = 24  # cells of a side, which can be cut into halves, thirds and quarters
GROWING = 240  # turns, in which each of four snakes grows to 62 parts


def feeding_words(side: int, tours: list[list[tuple[int, int]]]) -> Iterator[list[int]]:
    """For each turn the words that put food before the head of one snake after the other, in games
    without any other food."""
    bodies = [[cells[0]] * 3 for cells in tours]
    food = None
    for turn in range(GROWING):
        for seat, cells in enumerate(tours):
            head = cells[(turn + 1) % len(cells)]
            bodies[seat] = [head] + bodies[seat][:-1]
            if head == food:
                bodies[seat].append(bodies[seat][-1])
        taken = {cell for body in bodies for cell in body}
        free = [(x, y) for y in range(side) for x in range(side) if (x, y) not in taken]
        fed = tours[turn % len(tours)]
        food = fed[(turn + 2) % len(fed)]
        yield [0, free.index(food)]


def growing_snakes(rounds: int) -> Iterator[str]:
    """Eight games on large boards, in each of which four snakes go on tours of a quarter and grow.
    Each is ended and begun anew, round by round."""
    tours = corner_tours(LARGE, 2, 2)
    words = list(feeding_words(LARGE, tours))
    fed = {"min_food": 0, "food_chance": 100}
    game = {"mode": "standard", "side": LARGE, "snakes": starts(tours), **fed}
    games = {f"g{index}": game for index in range(8)}

    def moves(turn: int) -> dict[str, Any]:
        return {"moves": orders(tours, turn), "words": words[turn]}

    yield plan(games, 1_048_576)
    yield from rounds_of(games, rounds, GROWING, moves)


FILLING = 64  # turns, after which eight snakes of a constrictor game fill most of a large board


def constrictor(rounds: int) -> Iterator[str]:
    """Eight games of constrictor, in each of which eight snakes fill an eighth of a large board.
    Each is ended and begun anew, round by round."""
    tours = corner_tours(LARGE, 2, 4)
    game = {"mode": "constrictor", "side": LARGE, "snakes": starts(tours)}
    games = {f"g{index}": game for index in range(8)}
    yield plan(games, 1_048_576)
    yield from rounds_of(games, rounds, FILLING, lambda turn: {"moves": orders(tours, turn)})


def wrapped(rounds: int) -> Iterator[str]:
    """Eight wrapped games, in each of which eight snakes go to the right, each in a different row,
    again and again across the edge."""
    snakes = [{"id": id, "x": 0, "y": 3 * index} for index, id in enumerate("abcdefgh")]
    game = {"mode": "wrapped", "side": LARGE, "snakes": snakes, **NO_FOOD}
    games = {f"g{index}": game for index in range(8)}

    def moves(turn: int) -> dict[str, Any]:
        return {"moves": {} if turn else {snake["id"]: "right" for snake in snakes}}

    yield plan(games, 16_384, version=2)
    yield from rounds_of(games, rounds, ROUND, moves)


CLOSING = 12  # turns, after which another ring of cells at the edge is hazardous


def hazards(rounds: int) -> Iterator[str]:
    """Eight games of royale, in each of which eight snakes go round in squares of two by two cells
    while the hazards close in, and never reach them. Each is ended and begun anew."""
    places = [(x, y) for x in (9, 11, 13) for y in (9, 11, 13)][:8]
    snakes = [{"id": id, "x": x, "y": y} for id, (x, y) in zip("abcdefgh", places)]
    game = {"mode": "standard", "side": LARGE, "snakes": snakes, **NO_FOOD, "hazard_damage": 14}
    games = {f"g{index}": game for index in range(8)}

    def moves(turn: int) -> dict[str, Any]:
        directions = dict.fromkeys("abcdefgh", ("up", "right", "down", "left")[turn % 4])
        rings, is_new = divmod(turn + 1, CLOSING)
        return {"moves": directions, **({} if is_new else {"hazards": outer(LARGE, rings)})}

    yield plan(games, 16_777_216, version=5)
    yield from rounds_of(games, rounds, ROUND, moves)


def outer(side: int, rings: int) -> list[dict[str, Any]]:
    """The cells of a square board that are among this many at some edge."""
    inner = range(rings, side - rings)
    cells = [(x, y) for y in range(side) for x in range(side)]
    return [{"x": x, "y": y} for x, y in cells if not (x in inner and y in inner)]


STAYED = 20  # turns of a stay
COMING = 4  # games that are admitted between two turns, until 64 are open


def stays(count: int) -> Iterator[str]:
    """`count` stays of twenty turns each, at most 64 open at once: a game of two snakes is
    admitted, played, and leaves."""
    snakes = [{"id": "a", "x": 2, "y": 2}, {"id": "b", "x": 7, "y": 7}]
    turns_of: dict[str, int] = {}
    names = iter(f"g{index}" for index in range(count))
    yield plan([], 0, version=3)
    while True:
        for name in itertools.islice(names, min(COMING, 64 - len(turns_of))):
            turns_of[name] = 0
            yield line(game=name, do="admit", quota=16_384)
            yield new(name, "standard", 11, snakes, **NO_FOOD)
        if not turns_of:
            return
        for name, turn in list(turns_of.items()):
            direction = ("up", "right", "down", "left")[turn % 4]
            yield line(game=name, do="move", moves={"a": direction, "b": direction})
            turns_of[name] += 1
            if turns_of[name] == STAYED:
                del turns_of[name]
                yield line(game=name, do="leave")


# Ids as the games of a ladder have them, in the order in which its snakes are written.
NAMES = ["gs_mYk4PphrcGBX6jF9", "gs_3xQJ8wX7pVfbwFgY", "gs_WVH7vQX8cJp6rqSf", "Snake of Ann, 2"]
MISSED = 7  # turns, in one of which a snake has no order, and goes straight on
DROPPED = 10  # turns, in one of which the map gives food
CLOSED = 24  # turns, after which the map gives hazards again


def ladder_games(rounds: int) -> Iterator[str]:
    """64 games of four snakes as a ladder writes them: long ids in no order, orders missing,
    hazards and food that the map gives. The snakes go round in squares of three by three cells."""
    places = [(3, 3), (7, 3), (3, 7), (7, 7)]
    snakes = [{"id": id, "x": x, "y": y} for id, (x, y) in zip(NAMES, places)]
    game = {"mode": "standard", "side": 11, "snakes": snakes, **NO_FOOD, "hazard_damage": 14}
    games = {f"5f0c2e{index:02}": game for index in range(64)}

    def moves(turn: int) -> dict[str, Any]:
        direction = ("up", "right", "down", "left")[turn // 2 % 4]
        ids = NAMES[:-1] if turn % 2 and turn % MISSED == 0 else NAMES
        hazards = {"hazards": outer(11, 1)} if turn % CLOSED == CLOSED - 1 else {}
        food = {"food": [{"x": 0, "y": turn % 11}]} if turn % DROPPED == 0 else {}
        return {"moves": dict.fromkeys(ids, direction), **hazards, **food}

    yield plan(games, 1_048_576, version=5)
    yield from rounds_of(games, rounds, ROUND, moves)


def spaced_games(rounds: int) -> Iterator[str]:
    """The file of `ladder_games` as Python's json writes it, with spaces and CRLF."""
    for text in ladder_games(rounds):
        yield json.dumps(json.loads(text)) + "\r"


def short_commands(count: int) -> Iterator[str]:
    """Short commands that change nothing: `turn` commands for turns without a record."""
    yield plan(["g"], 4096)
    yield new("g", "solo", 3, [{"id": "s", "x": 1, "y": 1}], **NO_FOOD)
    for _ in range(count):
        yield line(game="g", do="turn", at=9)


# The name of a shape, the shape, its size, and its number of turns.
SHAPES = [
    ("64 games, four snakes", many_games, 10, lambda rounds: 64 * ROUND * rounds),
    ("one long game", long_game, 5_000, lambda turns: turns),
    ("growing, large boards", growing_snakes, 4, lambda rounds: 8 * GROWING * rounds),
    ("constrictor, eight", constrictor, 8, lambda rounds: 8 * FILLING * rounds),
    ("wrapped, eight snakes", wrapped, 8, lambda rounds: 8 * ROUND * rounds),
    ("hazards, eight snakes", hazards, 8, lambda rounds: 8 * ROUND * rounds),
    ("64 games of a ladder", ladder_games, 5, lambda rounds: 64 * ROUND * rounds),
    ("64 games, with spaces", spaced_games, 5, lambda rounds: 64 * ROUND * rounds),
    ("64 of many stays", stays, 2_000, lambda count: STAYED * count),
    ("short commands", short_commands, 200_000, lambda count: 0),
]


def write(path: Path, lines: Iterable[str]) -> int:
    with open(path, "w") as file:
        for text in lines:
            file.write(text + "\n")
    return path.stat().st_size


def write_all(folder: Path) -> None:
    folder.mkdir(parents=True, exist_ok=True)
    for _, shape, size, _ in SHAPES:
        path = folder / f"{shape.__name__}.jsonl"
        print(f"{path}: {write(path, shape(size))} bytes")
