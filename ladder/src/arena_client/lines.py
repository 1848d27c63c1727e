"""The lines of docs/FORMATS.md as types: commands, and what the host writes for them."""

import json
from enum import StrEnum
from typing import Any, Literal, NotRequired, TypedDict, Union, cast, final

PLAN = b'{"games":[],"version":3}\n'
PLAN_WITH_HAZARDS = b'{"games":[],"version":5}\n'
NO_GAME = b"{}\n"  # a line of no game: the answer is L2, and nothing changes


class Mode(StrEnum):
    """The rules of a game."""

    STANDARD = "standard"
    SOLO = "solo"
    CONSTRICTOR = "constrictor"
    WRAPPED = "wrapped"


class Cause(StrEnum):
    """Why a snake went out."""

    OUT_OF_HEALTH = "out-of-health"
    WALL_COLLISION = "wall-collision"
    SNAKE_SELF_COLLISION = "snake-self-collision"
    SNAKE_COLLISION = "snake-collision"
    HEAD_COLLISION = "head-collision"
    HAZARD = "hazard"


class Cell(TypedDict):
    """A cell of a board, or of one beyond its edge."""

    x: int
    y: int


class Snake(TypedDict):
    """A snake of a board. `by` is the id of its killer, `out` the turn in which it went out."""

    id: str
    body: list[Cell]
    health: int
    cause: Cause | None
    by: str | None
    out: int | None


class Board(TypedDict):
    """A board. Only one with hazards has the last two members."""

    mode: Mode
    width: int
    height: int
    turn: int
    over: bool
    food: list[Cell]
    min_food: int
    food_chance: int
    snakes: list[Snake]
    hazards: NotRequired[list[Cell]]
    hazard_damage: NotRequired[int]


class Start(TypedDict):
    """A snake of a `new`: its id, and the cell on which it starts."""

    id: str
    x: int
    y: int


class Admit(TypedDict):
    game: str
    do: Literal["admit"]
    quota: int


class New(TypedDict):
    game: str
    do: Literal["new"]
    mode: str
    width: int
    height: int
    snakes: list[Start]
    food: list[Cell]
    min_food: NotRequired[int]
    food_chance: NotRequired[int]
    hazards: NotRequired[list[Cell]]
    hazard_damage: NotRequired[int]


class Move(TypedDict):
    game: str
    do: Literal["move"]
    moves: dict[str, str]
    words: NotRequired[list[int]]
    hazards: NotRequired[list[Cell]]
    food: NotRequired[list[Cell]]


class Turn(TypedDict):
    game: str
    do: Literal["turn"]
    at: int


class Bare(TypedDict):
    game: str
    do: Literal["show", "free", "end", "leave"]


Command = Union[Admit, New, Move, Turn, Bare]


@final
class Accepted(TypedDict):
    """The reply to an accepted command. After `free` and `end` it has no board."""

    game: str
    seq: int
    do: str
    charge: int
    board: NotRequired[Board]


@final
class Denied(TypedDict):
    """The reply to a refused command."""

    game: str
    seq: int
    no: str
    why: str


@final
class Final(TypedDict):
    """The last line of a stay. The board is None if no game runs."""

    game: str
    final: bool
    charge: int
    board: Board | None


@final
class Stray(TypedDict):
    """The answer to a line of no game, by its number."""

    line: int
    no: str
    why: str


Reply = Union[Accepted, Denied, Final, Stray]


def line_of(**members: Any) -> bytes:
    """Writes a line of a command file in its compact form."""
    return (json.dumps(members, separators=(",", ":")) + "\n").encode()


def reply_of(line: bytes) -> Reply | None:
    """Parses a line of the host; None if its JSON is no such line."""
    reply = json.loads(line)
    try:
        if board := reply.get("board"):
            board["mode"] = Mode(board["mode"])
            for snake in board["snakes"]:
                snake["cause"] = snake["cause"] and Cause(snake["cause"])
    except (AttributeError, LookupError, TypeError, ValueError):
        return None
    return cast(Reply, reply)
