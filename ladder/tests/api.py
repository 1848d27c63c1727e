"""The objects of the official API, version 1, as strict models: exact types and members.

They are written from memory of its documentation (docs.battlesnake.com/api) and of the models of
the official engine (package client of BattlesnakeOfficial/rules), which always sends all members.
"""

from __future__ import annotations

import types
import typing
from dataclasses import dataclass, fields, is_dataclass
from typing import Any, Literal


@dataclass(frozen=True)
class Coord:
    x: int
    y: int


@dataclass(frozen=True)
class Customizations:
    color: str
    head: str
    tail: str


@dataclass(frozen=True)
class Royale:
    shrinkEveryNTurns: int


@dataclass(frozen=True)
class Squad:
    allowBodyCollisions: bool
    sharedElimination: bool
    sharedHealth: bool
    sharedLength: bool


@dataclass(frozen=True)
class Settings:
    foodSpawnChance: int
    minimumFood: int
    hazardDamagePerTurn: int
    hazardMap: str
    hazardMapAuthor: str
    royale: Royale
    squad: Squad


@dataclass(frozen=True)
class Ruleset:
    name: Literal["standard", "solo", "constrictor", "wrapped"]
    version: str
    settings: Settings


@dataclass(frozen=True)
class Game:
    id: str
    ruleset: Ruleset
    map: str
    timeout: int
    source: Literal["tournament", "league", "arena", "challenge", "custom", ""]


@dataclass(frozen=True)
class Battlesnake:
    id: str
    name: str
    health: int
    body: list[Coord]
    latency: str
    head: Coord
    length: int
    shout: str
    squad: str
    customizations: Customizations


@dataclass(frozen=True)
class Board:
    height: int
    width: int
    food: list[Coord]
    hazards: list[Coord]
    snakes: list[Battlesnake]


@dataclass(frozen=True)
class Request:
    """The body of each request but GET /."""

    game: Game
    turn: int
    board: Board
    you: Battlesnake


class NotOfApi(Exception):
    """A value that is not of the documented type, with its place."""


def strict(kind: Any, value: Any, place: str = "") -> Any:
    """The value as one of a model; raises `NotOfApi`. No value is converted."""
    if is_dataclass(kind):
        hints = typing.get_type_hints(kind)
        if type(value) is not dict or value.keys() != hints.keys():
            raise NotOfApi(f"{place or 'the body'} has not its members: {value!r:.200}")
        members = {it.name: value[it.name] for it in fields(kind)}
        return kind(
            **{key: strict(hints[key], it, f"{place}.{key}") for key, it in members.items()}
        )
    if isinstance(kind, types.GenericAlias):
        (item,) = typing.get_args(kind)
        if type(value) is not list:
            raise NotOfApi(f"{place} is no list")
        return [strict(item, it, f"{place}[{at}]") for at, it in enumerate(value)]
    choices = typing.get_args(kind)
    is_fit = value in choices if choices else type(value) is kind
    if not is_fit:
        raise NotOfApi(f"{place} is {value!r}")
    return value
