"""Files and command lines at the limits: `runs(version)` yields names, arguments and bytes."""
import itertools
import json

import shapes

MAX_FILE, MAX_LINE = 16_777_216, 65_536
SNAKE: dict = {"id": "s", "x": 1, "y": 1}
NEW: dict = {
    **{"game": "a", "do": "new", "mode": "solo", "width": 5, "height": 5},
    **{"snakes": [SNAKE], "food": []},
}
SHOW = b'{"game":"a","do":"show"}'
SERVE = ["serve", "-"]
VERSIONS = (1, 2, 5)  # those that the peer reads


def plan(*rows, **more):
    rows = rows or [("a", 4096)]
    return {"games": [{"game": game, "quota": quota} for game, quota in rows], **more}


def lines(*values):
    encoded = [
        it if isinstance(it, bytes) else json.dumps(it, ensure_ascii=False).encode()
        for it in values
    ]
    return b"\n".join(encoded)


def command(do, **members):
    return {"game": "a", "do": do, **members}


def padded(line, size):
    return line + b" " * (size - len(line))


def row_lists():
    for quota in (15, 16, MAX_FILE, MAX_FILE + 1, 16.0):
        yield [("a", quota)]
    for name in ("", "x" * 64, "x" * 65, "é" * 32, "é" * 32 + "e", '\0\x1f\x7f"\\/\u2028'):
        yield [(name, 16)]
    yield [("a", 16), ("b", 16), ("a", 16)]
    for count in (10, 11, 64, 65):
        yield [(f"g{at}", 16) for at in range(count)]
    yield [(f"g{at}", 16) for at in range(65)] + [("g3", 16)]


def plans():
    first = lines(plan())
    texts = [
        *[b"", b"\n", b"{}", b"[]", b"\xff", b'{"games":1}', b'{"games":[]}', b'{"games":[]}\nx'],
        *[b'{"games":[]}\r\n \r\n\r', b'{"games":[3]}', first, b"\n" + first],
        *[padded(first, MAX_LINE), padded(first, MAX_LINE + 1)],
        b'{"games":[],"games":[{"game":"a","quota":16}]}',
        *[b'{"games":[]}'.ljust(size, b"\n") for size in (MAX_FILE, MAX_FILE + 1)],
        b"x" * (MAX_FILE + 1),
    ]
    for version in b"0 1 4 5 6 1.0 -1 '1' null true 18446744073709551617".split():
        texts.append(b'{"games":[],"version":' + version.replace(b"'", b'"') + b"}")
    for number, text in enumerate([*texts, *(lines(plan(*rows)) for rows in row_lists())]):
        yield f"plan {number}", SERVE, text
    for quota in (16, 1_835_007, 1_835_008, 3_670_015, 3_670_016, MAX_FILE):
        for blocks in range(5, 16):
            words = [*SERVE, "--blocks", str(blocks)]
            yield f"quota {quota}, {blocks} blocks", words, lines(plan(("a", quota)))


def line_lengths():
    for size in (MAX_LINE - 1, MAX_LINE, MAX_LINE + 1):
        for line in (SHOW, b"", b"x", b'{"game":"b"}', lines({**NEW, "ground": "é" * 9})):
            yield f"a line of {size}", SERVE, lines(plan(), NEW, padded(line, size), SHOW)


def row_of_snakes(count):
    return [{"id": str(at), "x": at % 5, "y": at // 5} for at in range(count)]


MEMBERS = {
    "mode": ["Solo", "royale", "wrapped", None, 0],
    "width": [2, 3, 25, 26, -3, 5.0, "5", None],
    "height": [2, 3, 25, 26],
    "min_food": [0, 255, 256, -1, None, [], "1"],
    "food_chance": [0, 100, 101, None],
    "food": [
        *[None, {}, [{"x": 5, "y": 0}], [{"x": 0, "y": -1}], [[1, 1]], [{"x": 2, "y": 1}] * 2],
        *[[{"x": 4, "y": 4, "z": 0}], [{"x": 1, "y": 1}]],
    ],
    "snakes": [
        *[[], {}, None, [{"id": "s", "x": 0}], [SNAKE, {**SNAKE, "x": 0}], [SNAKE, SNAKE]],
        *[[{**SNAKE, "id": id}] for id in ("", 3, "é" * 32, "é" * 33)],
        *[[{**SNAKE, "x": 5}], [SNAKE, {**SNAKE, "id": "t"}], row_of_snakes(8), row_of_snakes(9)],
    ],
}


CELL = {"x": 2, "y": 1}
MEMBERS["hazards"] = [
    *[None, {}, "", [], [CELL], [CELL] * 2_500, [CELL] * 2_501, [{**CELL, "z": 0}], [[1, 1]]],
    *[[{**CELL, key: value}] for key in "xy" for value in (0, 4, 5, 25, -1, 1.0, "1", None)],
]
MEMBERS["hazard_damage"] = [0, 1, 99, 100, 101, 256, -1, 14.0, "14", None, []]
# Members of a move in files of version 5.
GIVEN: dict = {
    key: [
        *[None, {}, "", [], [CELL], [CELL] * most, [CELL] * (most + 1), [3]],
        *[[{"x": x, "y": y}] for x, y in ((5, 0), (0, 24), (25, 0), (0, 25), (-1, 0), (0.0, 0))],
    ]
    for key, most in (("hazards", 2_500), ("food", 625))
}


def members_of_new(version):
    first, move = plan(version=version), command("move", moves={"s": "up"}, words=[3, 4])
    for key, values in MEMBERS.items():
        for value in values:
            name = f"{key} {str(value)[:100]}"
            yield name, SERVE, lines(first, {**NEW, key: value}, move)
    for key in NEW:
        less = {it: NEW[it] for it in NEW if it != key}
        yield f"without {key}", SERVE, lines(first, less, move)


def other_members(version):
    first = plan(version=version)
    tried = [{"moves": {}}, {}]
    for words in ([0] * 32, [0] * 33, [2**32 - 1], [2**32], [-1], [1.0], {}, None, "5"):
        tried.append({"moves": {}, "words": words})
    for moves in ({"s": None}, {"s": "Up"}, {"t": "left"}, {"s": "left", "": "up"}):
        tried.append({"moves": moves})
    for moves in ([], None, "up", {"x" * 100: "up"}):
        tried.append({"moves": moves})
    for members in tried:
        yield f"move {members}", SERVE, lines(first, NEW, command("move", **members))
    for key in GIVEN:
        for value in GIVEN[key]:
            name = f"move, {key} {str(value)[:100]}"
            given = command("move", moves={"s": "up"}, **{key: value})
            yield name, SERVE, lines(first, NEW, given, command("move", moves={}))
    for at in (0, 1, 9999, 10_000, 10_001, -1, 0.0, "0", None):
        yield f"turn {at}", SERVE, lines(first, NEW, command("turn", at=at))


def to_the_last_turn(version):
    first, new, *moves = shapes.long_game(10_003)
    yield "to the last turn", SERVE, "\n".join([first, new, *moves]).encode()
    if version > 1:
        first = first.replace("]}", '],"version":2}')
        new = new.replace('"solo"', '"wrapped"')
        new = new.replace('"y":0}', '"y":0},{"id":"t","x":0,"y":2}')
        yield "wrapped, to the last turn", SERVE, "\n".join([first, new, *moves]).encode()


def hunger(version):
    """Two snakes go round in four cells; at the end of their health they go into food, into a wall,
    or on; in version 5 on hazards too, which cost no health."""
    snakes = [{"id": "s", "x": 0, "y": 0}, {"id": "t", "x": 3, "y": 3}]
    food = [{"x": x, "y": y} for x, y in ((2, 0), (2, 1), (0, 2), (1, 2))]
    hazards = [{"x": x, "y": y} for x in range(2) for y in range(5)]
    new = {**NEW, "snakes": snakes, "food": food, "min_food": 0}
    news = [{**new, "mode": mode} for mode in ("standard", "constrictor", "wrapped")]
    news = news[: min(version, 2) + 1]
    if version == 5:
        news += [{**it, "hazards": hazards, "hazard_damage": 0} for it in news]
    for new in news:
        for turns in range(97, 101):
            round = [("up", "right", "down", "left")[turn % 4] for turn in range(turns)]
            for last in ("up", "right", "down", "left"):
                moves = [command("move", moves={"s": it, "t": it}) for it in [*round, last, last]]
                file = lines(plan(("a", MAX_FILE), version=version), new, *moves)
                where = ", on hazards" if "hazards" in new else ""
                yield f"{new['mode']}{where}, {turns} turns, then {last}", SERVE, file


def meetings():
    """Two to four snakes of one length meet in a cell, in every order of their seats."""
    ways = [("a", 1, 2, "right"), ("b", 3, 2, "left"), ("c", 2, 3, "down"), ("d", 2, 1, "up")]
    values = []
    for count in (2, 3, 4):
        for some in itertools.permutations(ways, count):
            snakes = [{"id": id, "x": x, "y": y} for id, x, y, _ in some]
            values.append({**NEW, "mode": "standard", "snakes": snakes})
            values.append(command("move", moves={id: way for id, _, _, way in some}))
            values.append(command("end"))
    yield "meetings", SERVE, lines(plan(), *values)


COMMAND_LINES = """
play
serve
alone -
serve - -
serve - --workers
serve - --workers 0
serve - --workers 5
serve - --workers 1 --workers 1
serve --blocks 4096 --workers 4 -
serve - --blocks 0
serve - --blocks 4097
serve - --blocks -1
serve - --blocks 11
serve - --blocks 12
serve - --game a
serve /
serve no_such_file
alone - --game a
alone - --game a --workers 1
alone --game b - --blocks 6
alone - --game b --blocks 5
alone - --game c --blocks 5
""".strip().split(
    "\n"
)


def command_lines():
    file = lines(plan(("a", 64), ("b", 64)), NEW, b"x", {"game": "b", "do": "show"})
    for words in [*(it.split() for it in COMMAND_LINES), [], ["serve", ""]]:
        yield " ".join(words), words, file
    for text in (b"", b'{"games":[3]}', b'{"games":[]}', b"x" * (MAX_FILE + 1)):
        yield "alone", ["alone", "-", "--game", "a"], text


def runs(version):
    yield from plans()
    yield from line_lengths()
    for one in VERSIONS:
        if one <= version:
            yield from members_of_new(one)
            yield from other_members(one)
    yield from to_the_last_turn(version)
    yield from hunger(version)
    yield from meetings()
    yield from command_lines()
