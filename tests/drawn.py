"""Random command files: games of every mode, and lines that are no command.

`command_file(rng, version)` makes one file. An approximate tracker of bodies keeps most snakes off
walls and bodies, so that games last; the rest is random.
"""
import json
import random
from typing import Any

STEPS = {"up": (0, 1), "down": (0, -1), "left": (-1, 0), "right": (1, 0)}
MODES = {
    1: ["standard", "solo", "constrictor"] * 5 + ["wrapped"],
    2: ["standard", "solo", "constrictor", "wrapped", "wrapped"],
    5: ["standard", "solo", "constrictor", "wrapped"],
}
# The versions of drawn files, of which none is higher than the version that is asked for.
VERSIONS = {1: [1], 2: [1, 2, 2, 2], 5: [1, 2, 2, 5, 5, 5]}
MOST_HAZARDS, MOST_GIVEN_FOOD = 2_500, 625
IDS = [
    *["s", "t", "u", "a b", "A", "do", "/", "0", "é" * 32, "x" * 64],
    *['q"\\', "\u0001\n", "\u2028", "\U0001f600"],
]
WORDS = [0, 1, 5, 14, 15, 99, 100, 114, 115, 4294967294, 4294967295]
QUOTAS = [16, 31, 32, 48, 64, 96, 128, 256, 1024, 1_835_008, 16_777_216]
QUOTAS += [4096, 65_536, 1_048_576] * 12
# Values of members, each wrong in a different way; some are right for some members.
WRONG = """
-1 -0 0.0 1.0 1e0 3E0 1.5 true false null [] {} [1] 01 +1 .5 1. 0x1 NaN 1e999 -1e-999
2 3 25 26 100 101 255 256 10000 10001 4294967296 18446744073709551615 18446744073709551616
"" "3" "\\ud800" "\\udc00\\ud800" "\\ud83d\\ude00" "\\u0073" "\\x" 's'
"standard" "solo" "wrapped" "up" "Up" "up\\n" [{"id":"s","x":0,"y":0}] {"s":"up"}
""".split()
WRONG += ["1" + "0" * 40, f'"{"x" * 65}"', f'"{"é" * 33}"', '"a\tb"']
WRONG += ["[" * depth + "]" * depth for depth in (125, 126, 127, 128)]
# Lines that are no command, or commands with a duplicate member.
LINES = rb"""
{oops
[]
3
null
"a"
{}
{} {}
{"game":1}
{"game":null,"do":"show"}
{"do":"show"}
{"game":"nobody","do":"show"}
{"game":"g0","do":"Show"}
{"game":"g0","do":"show"}x
{"game":"g0","do":"show",}
{"game":"g0" "do":"show"}
{"game":"g0","game":"g1","do":"show"}
{"game":"nobody","do":"show","game":"g0"}
{"game":"g0","do":"show","do":"jump"}
{"game":"g0","do":"turn","at":1,"at":0}
{"game":"g0","do":"turn","at":0,"at":"x"}
{"game":"g0","do":"move","moves":{"s":"up","s":"down"}}
{"game":"g0","do":"move","moves":{"s":"up","s":1}}
{"game":"g0","do":"move","moves":{"t":"up","s":"down"},"words":[1,2],"words":[]}
{"game":"g0","do":"move","moves":{},"moves":[]}
{"game":"g0","do":"move","moves":{"":"up"}}
{"moves":{},"do":"move","game":"g0"}
""".strip().split(
    b"\n"
)
LINES += [b"", b" ", b"\t\r", b"\x0c", b"\xef\xbb\xbf", b"\xff", b"\x00", b"{}\x00"]
LINES += [b'{"game":"g0","do":"\xff"}', b'\xef\xbb\xbf{"game":"g0","do":"show"}']
LINES += [b'{"game":"g0","do":"show","x":"\xed\xa0\x80"}']


class Raw(str):
    """A text that is written without quotation marks or escapes."""


def chance(rng: random.Random, percent: int) -> bool:
    return rng.random() * 100 < percent


def text(rng: random.Random, value: str) -> str:
    literal = json.dumps(value, ensure_ascii=chance(rng, 20))
    if chance(rng, 2) and value.isascii() and value.isalnum():
        literal = '"' + "".join(f"\\u{ord(it):04x}" for it in value) + '"'
    return literal


def written(rng: random.Random, value: Any, loose: bool) -> str:
    """A value as JSON: compact, or loose, with spaces, members shuffled and one of them twice."""
    if isinstance(value, Raw):
        return value
    if isinstance(value, str):
        return text(rng, value)

    def space() -> str:
        return rng.choice(["", "", "", " ", "\t", "  "]) if loose else ""

    if isinstance(value, dict):
        members = list(value.items())
        if loose:
            rng.shuffle(members)
            members += [rng.choice(members)] if members and chance(rng, 10) else []
        parts = [
            f"{space()}{text(rng, key)}{space()}:{space()}{written(rng, it, loose)}{space()}"
            for key, it in members
        ]
        return "{" + ",".join(parts) + "}"
    if isinstance(value, list):
        parts = [f"{space()}{written(rng, it, loose)}{space()}" for it in value]
        return "[" + ",".join(parts) + "]"
    return json.dumps(value)


def spoiled(rng: random.Random, line: bytes) -> bytes:
    """The line with one or a few bytes changed, or made long."""
    at = rng.randrange(len(line))
    kind = rng.randrange(5)
    if kind == 0:
        return line[:at] + line[at + 1 :]
    if kind == 1:
        return line[:at] + bytes([rng.randrange(256)]).replace(b"\n", b" ") + line[at + 1 :]
    if kind == 2:
        return line[:at] + rng.choice([b" ", b",", b'"', b"}", b"]", b"0", b"\\"]) + line[at:]
    if kind == 3:
        return line[:at]
    return line + b" " * max(0, rng.choice([65_535, 65_536, 65_537]) - len(line))


class Game:
    def __init__(self, rng: random.Random, name: str, version: int) -> None:
        self.rng, self.name, self.version = rng, name, version
        self.runs, self.turn = False, 0
        self.mode, self.width, self.height, self.length = "", 0, 0, 0
        self.cells: list[tuple[int, int]] = []
        self.bodies: dict[str, list[tuple[int, int]]] = {}

    def command(self) -> dict[str, Any]:
        rng = self.rng
        if not self.runs or chance(rng, 1):
            return self.new()
        if chance(rng, 60 if self.is_over() else 4):
            self.runs = False
            return {"game": self.name, "do": "end"}
        if chance(rng, 90):
            return self.move()
        kind = rng.choice(["show", "show", "turn", "turn", "turn", "free", "jump"])
        members: dict[str, Any] = {"game": self.name, "do": kind}
        if kind == "turn":
            near = [0, self.turn - 1, self.turn, self.turn + 1, rng.randint(0, self.turn)]
            members["at"] = rng.choice(near)
        return members

    def is_over(self) -> bool:
        return len(self.bodies) < (1 if self.mode == "solo" else 2)

    def new(self) -> dict[str, Any]:
        rng = self.rng
        self.mode = rng.choice(MODES[self.version])
        sides = [3, 3, 4, 5, 5, 7, 11, rng.randint(3, 25)]
        self.width, self.height = rng.choice(sides), rng.choice(sides)
        self.cells = cells = [(x, y) for x in range(self.width) for y in range(self.height)]
        ids = rng.sample(IDS, rng.choice([1, 2, 2, 3, 4, rng.randint(1, 8)]))
        starts = rng.sample(cells, len(ids))
        self.bodies = {id: [cell] * 3 for id, cell in zip(ids, starts)}
        self.length = rng.choice([3, 4, 6, 10, 20])
        self.runs, self.turn = True, 0
        food = rng.sample(cells, rng.randint(0, min(len(cells), rng.choice([0, 1, 3, 8, 30]))))
        members: dict[str, Any] = {
            **{"game": self.name, "do": "new", "mode": self.mode},
            **{"width": self.width, "height": self.height},
            "snakes": [{"id": id, "x": x, "y": y} for id, (x, y) in zip(ids, starts)],
            "food": [{"x": x, "y": y} for x, y in food],
        }
        if chance(rng, 70):
            members["min_food"] = rng.choice([0, 0, 1, 2, 5, 20, 255])
        if chance(rng, 70):
            members["food_chance"] = rng.choice([0, 1, 15, 50, 99, 100])
        if self.version == 5:
            members.update(self.first_hazards())
        if chance(rng, 3):  # a cell or an id twice
            which = rng.choice(["snakes", "food"])
            members[which] = members[which] + [dict(it) for it in members[which][:1]]
        return members

    def first_hazards(self) -> dict[str, Any]:
        rng = self.rng
        members: dict[str, Any] = {}
        if chance(rng, 80):
            members["hazards"] = self.some_cells(MOST_HAZARDS, 1)
        if chance(rng, 80):
            members["hazard_damage"] = rng.choice([0, 1, 1, 5, 14, 14, 33, 50, 99, 100, 101])
        return members

    def some_cells(self, most: int, strays: int) -> list[dict[str, Any]]:
        """Cells, some of them several times, of which `strays` of a hundred lists have one off the
        board. A few lists are at their limit or beyond it."""
        rng = self.rng
        count = rng.choice([0, 1, 3, 10, len(self.cells) // 2, len(self.cells)])
        if chance(rng, 2):
            count = rng.choice([most, most + 1])
        some = rng.choices(self.cells, k=count)
        if chance(rng, strays):
            off = [(self.width, 0), (0, self.height), (24, 24), (25, 0), (0, 25)]
            some += rng.choices(off, k=rng.choice([1, 2, 9]))
            rng.shuffle(some)
        return [{"x": x, "y": y} for x, y in some]

    def move(self) -> dict[str, Any]:
        rng = self.rng
        self.turn += 1
        # Sometimes all snakes that can meet in one cell do.
        body = rng.choice(list(self.bodies.values()) or [[(0, 0)]])
        meeting = self.step(body[0], rng.choice(list(STEPS))) if chance(rng, 15) else None
        gone = {id: self.go(id, meeting) for id in list(self.bodies)}
        moves: dict[str, Any] = {id: direction for id, direction in gone.items() if direction}
        if chance(rng, 5):
            moves[rng.choice(IDS)] = rng.choice(["up", "left", "", "sideways", 3, None, ["up"]])
        if chance(rng, 70):
            moves = dict(sorted(moves.items()))
        members: dict[str, Any] = {"game": self.name, "do": "move", "moves": moves}
        if chance(rng, 60):
            count = rng.choice([0, 1, 1, 2, 3, 8, 32, 33])
            drawn = [rng.choice([rng.choice(WORDS), rng.randrange(2**32)]) for _ in range(count)]
            members["words"] = drawn
        if self.version == 5 and chance(rng, 15):
            members["hazards"] = self.some_cells(MOST_HAZARDS, 30)
        if self.version == 5 and chance(rng, 15):
            members["food"] = self.some_cells(MOST_GIVEN_FOOD, 30)
        return members

    def step(self, cell: tuple[int, int], direction: str) -> tuple[int, int]:
        x, y = (at + by for at, by in zip(cell, STEPS[direction]))
        if self.mode == "wrapped" and self.version > 1:
            return x % self.width, y % self.height
        return x, y

    def go(self, id: str, meeting: Any) -> str | None:
        """Moves a snake, mostly to a free cell. Returns its direction, or None for straight on."""
        rng, body = self.rng, self.bodies[id]
        taken = {cell for it in self.bodies.values() for cell in it[:-1]}
        ahead = [it for it in STEPS if self.step(body[1], it) == body[0]] or ["up"]
        kept = {it: self.step(body[0], it) for it in STEPS}
        kept = {it: cell for it, cell in kept.items() if cell in self.cells and cell not in taken}
        if meeting in kept.values():
            met = any(it[0] == meeting for it in self.bodies.values())
            body.insert(0, meeting)
            if met:
                del self.bodies[id]
            return next(it for it, cell in kept.items() if cell == meeting)
        if not kept or chance(rng, 2):
            del self.bodies[id]
            return rng.choice([*STEPS, None])
        direction = rng.choice(list(kept))
        body.insert(0, kept[direction])
        if self.mode != "constrictor":
            del body[self.length :]
        return None if direction == ahead[0] and chance(rng, 30) else direction


def plan(rng: random.Random, version: int) -> tuple[list[str], dict[str, Any]]:
    names = [f"g{index}" for index in range(rng.choice([1, 1, 2, 3, 6]))]
    if chance(rng, 20):
        names = rng.sample(IDS, len(names))
    rows = [{"game": name, "quota": rng.choice(QUOTAS)} for name in names]
    members: dict[str, Any] = {"games": rows}
    if version > 1 or chance(rng, 30):
        members["version"] = version
    if chance(rng, 3):
        wrong, count = Raw(rng.choice(WRONG)), rng.choice([10, 11, 64, 65])
        broken: dict[str, Any] = rng.choice(
            [
                {"version": wrong},
                {"games": rows[0]},
                {"games": rows + [3]},
                {"games": rows * 2},
                {"games": rows + [{"game": "h", "quota": wrong}]},
                {"games": rows + [{"game": wrong, "quota": 64}]},
                {"games": [{"game": f"h{at}", "quota": 64} for at in range(count)]},
            ]
        )
        members = {**members, **broken}
    return names, members


def spoil_member(rng: random.Random, members: dict[str, Any]) -> None:
    """Sets a member, or a part of a list or object in it, to a wrong value, or removes it."""
    where: Any = members
    while True:
        keys: list[Any] = list(where) if isinstance(where, dict) else list(range(len(where)))
        if not keys:
            return
        key = rng.choice(keys)
        if isinstance(where[key], (dict, list)) and chance(rng, 60):
            where = where[key]
            continue
        if chance(rng, 25):
            del where[key]
        else:
            where[key] = Raw(rng.choice(WRONG))
        return


def command_file(rng: random.Random, version: int) -> tuple[list[str], bytes]:
    """The names in the plan of a file, and its bytes; the file has at most that version."""
    version = rng.choice(VERSIONS[version]) if version > 1 else 1
    names, first = plan(rng, version)
    games = [Game(rng, name, version) for name in names]
    lines = [written(rng, first, chance(rng, 10)).encode()]
    for _ in range(rng.choice([0, 3, 20, 100, 200, 400])):
        members = rng.choice(games).command()
        if chance(rng, 2):
            members = json.loads(json.dumps(members))
            spoil_member(rng, members)
        line = written(rng, members, chance(rng, 12)).encode()
        if chance(rng, 1):
            line = spoiled(rng, line)
        lines += [line, rng.choice(LINES)] if chance(rng, 3) else [line]
    if chance(rng, 2):
        lines[0] = spoiled(rng, lines[0])
    end = b"\r\n" if chance(rng, 3) else b"\n"
    return names, end.join(lines) + (b"" if chance(rng, 10) else end * rng.choice([1, 1, 1, 2]))
