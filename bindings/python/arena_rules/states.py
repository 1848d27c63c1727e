"""Records of the requests of the official API."""

from __future__ import annotations

from collections.abc import Mapping
from typing import Any

from arena_rules.library import MODES, NOT_A_RECORD, ArenaError, library

# The rulesets whose turns are those of a mode. In royale the map moves the hazards.
RULESETS = {**MODES, "royale": MODES["standard"]}
LIKE_SQUADS = "snakes of a squad share health and may cross each other, which no mode has"


def _refuse(why: str) -> ArenaError:
    return ArenaError(NOT_A_RECORD, why)


def _number(name: str, given: Any, low: int, high: int) -> int:
    if isinstance(given, bool) or not isinstance(given, int) or not low <= given <= high:
        raise _refuse(f"{name} is {given!r}, and may be {low} to {high}")
    return given


def _two(number: int) -> bytes:
    return number.to_bytes(2, "big")


def _cells(name: str, cells: Any, board: Mapping[str, Any]) -> bytes:
    flat = bytearray()
    for cell in cells:
        for side, axis in (("width", "x"), ("height", "y")):
            flat.append(_number(f"{axis} of a cell of {name}", cell[axis], 0, board[side] - 1))
    return bytes(flat)


def _snake(snake: Mapping[str, Any], board: Mapping[str, Any], turn: int) -> bytes:
    ident, body = str(snake["id"]).encode(), snake["body"]
    name = f"snake {snake['id']!r}"
    _number(f"the length in bytes of the id of {name}", len(ident), 1, 64)
    _number(f"the number of parts of {name}", len(body), 3, turn + 3)
    health = _number(f"the health of {name}", snake["health"], 1, 100)
    parts = bytes(number + 1 for number in _cells(f"the body of {name}", body, board))
    state = bytes((health, 0, 0, 0, 0))
    return bytes((len(ident),)) + ident + state + _two(len(body)) + parts


def _mode(ruleset: Mapping[str, Any]) -> int:
    name = ruleset["name"]
    if name not in RULESETS:
        why = LIKE_SQUADS if name == "squad" else f"the known ones are {', '.join(RULESETS)}"
        raise _refuse(f"the ruleset is {name!r}: {why}")
    return RULESETS[name]


def _head(state: Mapping[str, Any]) -> bytes:
    """The record up to the first snake."""
    board, ruleset = state["board"], state["game"]["ruleset"]
    settings, mode = ruleset.get("settings") or {}, _mode(ruleset)
    hazards = board.get("hazards") or []
    for side in ("width", "height"):
        _number(f"the {side} of the board", board[side], 3, 25)
    turn = _number("the turn", state["turn"], 0, 10_000)
    least = _number("minimumFood", settings.get("minimumFood", 1), 0, 255)
    chance = _number("foodSpawnChance", settings.get("foodSpawnChance", 15), 0, 100)
    snakes = _number("the number of snakes", len(board["snakes"]), 1, 8)
    version = 3 if hazards else 2 if mode == MODES["wrapped"] else 1
    head = bytes((version, mode, board["width"], board["height"])) + _two(turn)
    head += bytes((least, chance, snakes)) + _two(len(board["food"]))
    head += _cells("food", board["food"], board)
    if hazards:
        _number("the number of hazards", len(hazards), 0, 2500)
        damage = _number("hazardDamagePerTurn", settings.get("hazardDamagePerTurn", 14), 0, 100)
        head += bytes((damage,)) + _two(len(hazards)) + _cells("hazards", hazards, board)
    return head


def from_state(state: Mapping[str, Any]) -> bytes:
    """The record of a request of the official API. Snakes that are out are not in it.

    The hazards of the request are those of the record, with the damage of its ruleset; a request of
    royale is a standard board with hazards. A request that is no legal board is an `ArenaError`
    that says why: of squads, with a healing pool, with a body off the board, without a snake.
    """
    try:
        board = state["board"]
        record = _head(state)
        record += b"".join(_snake(it, board, state["turn"]) for it in board["snakes"])
    except KeyError as fault:
        raise _refuse(f"the request has no member {fault}") from None
    except (AttributeError, TypeError) as fault:
        raise _refuse(f"the request is not of the official API: {fault}") from None
    status = library.arena_legal(record, len(record))
    if status == NOT_A_RECORD:
        raise _refuse(_reason(board, _mode(state["game"]["ruleset"])))
    if status:
        raise ArenaError(status)
    return record


def _reason(board: Mapping[str, Any], mode: int) -> str:
    """Why a board whose numbers are all in range is not legal."""
    food = [(cell["x"], cell["y"]) for cell in board["food"]]
    if mode == MODES["constrictor"] and food:
        return "constrictor has no food"
    if len(set(food)) < len(food):
        return "two food are on one cell"
    names = [snake["id"] for snake in board["snakes"]]
    if len(set(names)) < len(names):
        return "two snakes have the same id"
    return "the board is not legal, as docs/FORMATS.md defines it"
