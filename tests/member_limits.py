"""Members of commands at both sides of each limit of docs/FORMATS.md, for `tests/hostile`."""

from typing import Any

G1 = '{"game":"a","no":"G1","seq":1,"why":"command"}'
G2 = '{"game":"a","no":"G2","seq":1,"why":"none"}'
E_ACUTE = "é"  # two bytes


def snake(id: Any = "s", x: Any = 1, y: Any = 1) -> dict[str, Any]:
    return {"id": id, "x": x, "y": y}


def some(count: int, columns: int = 5) -> list[dict[str, Any]]:
    return [{"id": str(at), "x": at % columns, "y": at // columns} for at in range(count)]


def cells(width: int, height: int) -> list[dict[str, Any]]:
    return [{"x": x, "y": y} for y in range(height) for x in range(width)]


# Values that are no list of food on a board of 5 by 5 cells.
NO_FOOD_LISTS: list[Any] = [None, {}, [[1, 1]], [{"x": 1}], cells(6, 1), cells(1, 6)]
NO_FOOD_LISTS += [cells(5, 5) + cells(1, 1), [{"x": -1, "y": 0}]]
# Members of a `new`, and a part of the board in its reply, or None if the `new` is refused.
SETUPS = [
    *[({"width": width}, '"width":%d}' % width) for width in (3, 25)],
    *[({"width": width}, None) for width in (-3, 0, 2, 26, 259, 3.0, 3.5, "3", None, 2**64 + 3)],
    *[({"height": height}, '"height":%d,' % height) for height in (3, 25)],
    *[({"height": height}, None) for height in (-3, 0, 2, 26, 259, 65_539, 3.0, "3", None, [3])],
    *[({"min_food": food}, '"min_food":%d,' % food) for food in (0, 255)],
    ({"min_food": None}, '"min_food":1,'),
    *[({"min_food": food}, None) for food in (-1, 256, 1.0, "1", [], 2**32)],
    *[({"food_chance": chance}, '"food_chance":%d,' % chance) for chance in (0, 100)],
    ({"food_chance": None}, '"food_chance":15,'),
    *[({"food_chance": chance}, None) for chance in (-1, 101, 256, 1.0, "1", {})],
    *[
        ({"snakes": [snake(x=x, y=y)]}, '"body":[{"x":%d,"y":%d}' % (x, y))
        for x, y in ((0, 0), (4, 4), (0, 4), (4, 0))
    ],
    *[
        ({"snakes": [snake(x=x, y=y)]}, None)
        for x, y in ((-1, 0), (0, -1), (5, 0), (0, 5), (256, 0), (1.0, 1), ("1", 1))
    ],
    ({"snakes": some(1)}, '"id":"0","out":null}],"turn":0'),
    ({"snakes": some(8)}, '"id":"7","out":null}],"turn":0'),
    *[
        ({"snakes": snakes}, None)
        for snakes in (
            [],
            some(9),
            {},
            None,
            "s",
            [3],
            [snake(), snake("t")],
            [snake(), snake(x=2)],
        )
    ],
    ({"snakes": [snake("x" * 64)]}, '"id":"%s"' % ("x" * 64)),
    ({"snakes": [snake(E_ACUTE * 32)]}, '"id":"%s"' % (E_ACUTE * 32)),
    ({"snakes": [snake("\U0001f40d" * 16)]}, '"id":"%s"' % ("\U0001f40d" * 16)),
    *[
        ({"snakes": [snake(id)]}, None)
        for id in ("", "x" * 65, E_ACUTE * 33, E_ACUTE * 32 + "e", "\U0001f40d" * 17, 1, None)
    ],
    ({"food": cells(5, 5)}, '{"x":4,"y":4}],"food_chance"'),
    ({"width": 25, "height": 25, "food": cells(25, 25)}, '{"x":24,"y":24}],"food_chance"'),
    *[({"food": food}, None) for food in NO_FOOD_LISTS],
    *[({"mode": mode}, '"mode":"%s"' % mode) for mode in ("standard", "solo", "constrictor")],
    *[({"mode": mode}, None) for mode in ("Solo", "royale", "", 0, None)],
]
NO_MOVES: list[Any] = [[], None, "up", 1]
# Members of a command of a game that does not run, and the refusal: of the game, or of the command.
OTHERS = [
    *[({"do": do}, G2) for do in ("show", "free", "end")],
    *[({"do": do}, G1) for do in ("Show", "", "play", None, 1, ["show"])],
    ({}, G1),
    *[({"do": "turn", "at": at}, G2) for at in (0, 1, 9_999, 10_000)],
    *[
        ({"do": "turn", "at": at}, G1)
        for at in (-1, 10_001, 65_536, 75_536, 1.0, "1", None, 2**64)
    ],
    ({"do": "turn"}, G1),
    *[
        ({"do": "move", "moves": moves}, G2)
        for moves in ({}, {"s": "up"}, {"s": 1}, {"s": "Up"}, {"x" * 100: "up"}, {"": None})
    ],
    *[({"do": "move", "moves": moves}, G1) for moves in NO_MOVES],
    ({"do": "move"}, G1),
    *[
        ({"do": "move", "moves": {}, "words": words}, G2)
        for words in ([], [0] * 32, [4_294_967_295] * 32)
    ],
    *[
        ({"do": "move", "moves": {}, "words": words}, G1)
        for words in (
            [0] * 33,
            [4_294_967_296],
            [-1],
            [1.0],
            ["1"],
            [None],
            {},
            None,
            5,
            [0] * 31 + [2**64],
        )
    ],
]
CELL: dict[str, int] = {"x": 2, "y": 1}
# Values that are no list of cells, and what is no cell of any board.
NO_CELLS: list[Any] = [None, {}, "x", 3, [3], [[1, 1]], [{"x": 1}], [{"y": 1}], [CELL, None]]
NO_CELLS += [[{**CELL, "x": x}] for x in (-1, 25, 256, 2.0, "2", None, 2**64)]
NO_CELLS += [[{**CELL, "y": y}] for y in (-1, 25, 256, 2.0, "2", None, 2**64)]
# Members of a `new` of version 5, and a part of the board, as above.
HAZARDS = [
    *[({"hazard_damage": damage}, '"hazard_damage":%d,' % damage) for damage in (0, 1, 99, 100)],
    ({}, '"hazard_damage":14,"hazards":[],"height"'),
    *[({"hazard_damage": damage}, None) for damage in (-1, 101, 256, 14.0, "14", [], 2**32)],
    ({"hazards": []}, '"hazard_damage":14,"hazards":[],"height"'),
    ({"hazards": [CELL, CELL]}, '"hazards":[{"x":2,"y":1},{"x":2,"y":1}],"height"'),
    ({"hazards": cells(5, 5)}, '{"x":4,"y":4}],"height":5'),
    ({"width": 25, "height": 25, "hazards": cells(25, 25) * 4}, '{"x":24,"y":24}],"height":25'),
    ({"width": 25, "height": 25, "hazards": cells(25, 25) * 4 + [CELL]}, None),
    ({"hazards": [CELL] * 2_501}, None),
    ({"hazards": cells(6, 1)}, None),
    ({"hazards": cells(1, 6)}, None),
    *[({"hazards": value}, None) for value in NO_CELLS if value is not None],
]
# The members of a move of version 5, and the refusal of a game that does not run, or of the move.
MAPS = [
    *[({key: value}, G1) for key in ("hazards", "food") for value in NO_CELLS],
    *[({key: []}, G2) for key in ("hazards", "food")],
    *[({key: cells(25, 25)}, G2) for key in ("hazards", "food")],
    *[({"hazards": [CELL] * 2_500}, G2), ({"hazards": [CELL] * 2_501}, G1)],
    *[({"food": [CELL] * 625}, G2), ({"food": [CELL] * 626}, G1)],
    ({"hazards": cells(25, 25) * 4, "food": cells(25, 25)}, G2),
]
