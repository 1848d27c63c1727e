"""Random command files for the test of the checker: short files with many faults, of each version.

The games are those of tests/drawn.py, with admissions, leaves, hazards and given food added.
"""

from __future__ import annotations

import json
import random
from typing import Any

import drawn

VERSIONS = [1, 2, 3, 3, 5, 5, 5]
NAMES = ["g0", "g1", "g2", "a", "é" * 32, "x" * 64]
QUOTAS = [16, 64, 4096, 1_835_007, 1_835_008, 3_670_016, 16_777_216]
EDGES = [-1, 0, 2, 3, 15, 16, 24, 25, 26, 100, 101, 255, 256, 10_000, 10_001, 2**32 - 1, 2**32]
COUNTS = [0, 0, 1, 2, 5, 40, 624, 625, 626, 2499, 2500, 2501]
SNAKE = {"id": "s", "x": 1, "y": 1}
SMALL = {"do": "new", "mode": "solo", "width": 3, "height": 3, "snakes": [SNAKE], "food": []}


def cells(rng: random.Random, count: int, side: int) -> list[dict[str, int]]:
    """Cells, mostly of a board of that side."""
    return [{"x": rng.randrange(side), "y": rng.randrange(side)} for _ in range(count)]


def with_map(rng: random.Random, members: dict[str, Any]) -> dict[str, Any]:
    """A `new` or `move` with hazards, and a move with food."""
    side = min(members.get("width", 25), members.get("height", 25)) + drawn.chance(rng, 10)
    if drawn.chance(rng, 60):
        members["hazards"] = cells(rng, rng.choice(COUNTS), side)
    if members["do"] == "new" and drawn.chance(rng, 60):
        members["hazard_damage"] = rng.choice([0, 1, 14, 99, 100, 100, 101])
    if members["do"] == "move" and drawn.chance(rng, 40):
        members["food"] = cells(rng, rng.choice(COUNTS), side)
    return members


def bent(rng: random.Random, members: dict[str, Any]) -> dict[str, Any]:
    """A line's members with something changed."""
    members = json.loads(json.dumps(members))
    kind = rng.randrange(4)
    if kind == 0:
        members[rng.choice(list(members))] = rng.choice(EDGES)
    elif kind == 1 and members.get("snakes"):
        snake = rng.choice(members["snakes"])
        snake[rng.choice(["x", "y"])] = rng.choice([members["width"] - 1, members["width"], 24, 25])
    elif kind == 2 and members.get("snakes"):
        members["snakes"] *= rng.choice([0, 2, 9])
    else:
        drawn.spoil_member(rng, members)
    return members


def stay_line(rng: random.Random) -> dict[str, Any]:
    """A line that admits a game, or lets one leave."""
    name = rng.choice([*NAMES, *(f"h{rng.randrange(200)}" for _ in range(6)), "é" * 33])
    if drawn.chance(rng, 35):
        return {"game": name, "do": "leave"}
    return {"game": name, "do": "admit", "quota": rng.choice([*QUOTAS, 15, 16_777_217])}


def plan(rng: random.Random, version: int) -> dict[str, Any]:
    """A plan, mostly a good one."""
    names = NAMES[: rng.choice([1, 2, 3, 4, 4, 4, 6])]
    if drawn.chance(rng, 15):
        names = rng.sample(NAMES, rng.choice([0, 1, 2]))
    if drawn.chance(rng, 8):
        names += [f"h{at}" for at in range(rng.choice([62, 63, 64, 64, 65]) - len(names))]
    rows = [{"game": name, "quota": rng.choice(QUOTAS)} for name in names]
    members: dict[str, Any] = {"games": rows}
    if version > 1 or drawn.chance(rng, 30):
        members["version"] = version
    if drawn.chance(rng, 3):
        members["games"] = rows * 2
    if drawn.chance(rng, 6):
        drawn.spoil_member(rng, members)
    return members


def line(rng: random.Random, version: int, games: list[drawn.Game]) -> bytes:
    """One line after the plan."""
    if drawn.chance(rng, 5):
        return bytes(rng.choice(drawn.LINES))
    if drawn.chance(rng, 25 if version >= 3 else 3):
        members = stay_line(rng)
    elif drawn.chance(rng, 20):
        members = {"game": rng.choice(NAMES), **SMALL}
    else:
        members = rng.choice(games).command()
    if members["do"] in ("new", "move") and drawn.chance(rng, 60 if version == 5 else 5):
        members = with_map(rng, members)
    if drawn.chance(rng, 25):
        members = bent(rng, members)
    text = drawn.written(rng, members, drawn.chance(rng, 20)).encode()
    return bytes(drawn.spoiled(rng, text) if drawn.chance(rng, 4) else text)


def command_file(rng: random.Random) -> bytes:
    """One file."""
    version = rng.choice(VERSIONS)
    games = [drawn.Game(rng, name, 1 if version == 1 else 2) for name in NAMES[:4]]
    first = drawn.written(rng, plan(rng, version), drawn.chance(rng, 20)).encode()
    if drawn.chance(rng, 2):
        first = drawn.spoiled(rng, first)
    count = rng.choice([0, 1, 4, 8, 15, 30])
    lines = [first, *(line(rng, version, games) for _ in range(count))]
    return (b"\r\n" if drawn.chance(rng, 3) else b"\n").join(lines)
