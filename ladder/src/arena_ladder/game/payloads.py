"""The bodies of the requests to a bot, by version 1 of the official API."""

from __future__ import annotations

import json
from collections.abc import Iterable, Mapping
from dataclasses import dataclass, field
from typing import Any

from arena_client import Board, Snake
from arena_ladder.game.config import Config
from arena_ladder.net.bots import Look

SQUAD = ("allowBodyCollisions", "sharedElimination", "sharedHealth", "sharedLength")


@dataclass
class Seat:
    """A bot in a game, with its last latency and shout. Its snake's `id` is of this game alone."""

    id: str
    name: str
    look: Look = field(default_factory=Look)
    latency: int = 0  # milliseconds
    shout: str = ""


def text_of(value: Any) -> str:
    return json.dumps(value, separators=(",", ":"))


def game_id(config: Config, name: str) -> str:
    """The id of a game for its bots; no two ladders with drawn seeds have the same ids."""
    return f"{config.letters}-{name}"


def seats_of(
    config: Config, game: str, bots: Iterable[str], looks: Mapping[str, Look]
) -> dict[str, Seat]:
    """The seats of a game, by the names of their bots."""
    id = game_id(config, game)
    return {bot: Seat(f"{id}-{bot}", bot, looks.get(bot, Look())) for bot in bots}


def game_text(config: Config, name: str) -> str:
    """The member `game`, the same in all requests of a game.

    All members of the official engine are there, also those of modes that the ladder lacks.
    """
    rules, hazards = config.rules, config.rules.hazards
    settings: dict[str, Any] = {
        "foodSpawnChance": rules.food_chance,
        "minimumFood": rules.min_food,
        "hazardDamagePerTurn": hazards.damage if hazards else 0,
        "hazardMap": "",
        "hazardMapAuthor": "",
        "royale": {"shrinkEveryNTurns": hazards.shrink_every if hazards else 0},
        "squad": dict.fromkeys(SQUAD, False),
    }
    return text_of(
        {
            "id": game_id(config, name),
            "ruleset": {"name": rules.mode, "version": "v1.0.0", "settings": settings},
            "map": map_name(config),
            "timeout": config.timeout,
            "source": "league",
        }
    )


def map_name(config: Config) -> str:
    """The official name of the map."""
    hazards = config.rules.hazards
    if hazards and hazards.is_royale:
        return "royale"
    if hazards and hazards.official:
        return hazards.official.official or hazards.official.name
    return "empty" if config.rules.mode == "constrictor" else "standard"


def snake_text(snake: Snake, seat: Seat) -> str:
    """A snake of a board in the API's form, with the members about its bot."""
    return text_of(
        {
            "id": seat.id,
            "name": seat.name,
            "health": snake["health"],
            "body": snake["body"],
            "latency": str(seat.latency),
            "head": snake["body"][0],
            "length": len(snake["body"]),
            "shout": seat.shout,
            "squad": "",
            "customizations": vars(seat.look),
        }
    )


def is_living(snake: Snake) -> bool:
    return snake["cause"] is None


def living_of(board: Board) -> list[str]:
    """The names of the bots whose snakes live, in the order of their seats."""
    return [snake["id"] for snake in board["snakes"] if is_living(snake)]


def bodies(game: str, board: Board, seats: dict[str, Seat], names: Iterable[str]) -> list[bytes]:
    """The body for each of the named bots.

    The board contains the living snakes only; `you` of a bot whose snake is out is its last state.
    """
    texts = {snake["id"]: snake_text(snake, seats[snake["id"]]) for snake in board["snakes"]}
    snakes = ",".join(texts[name] for name in living_of(board))
    shared = (
        f'{{"game":{game},"turn":{board["turn"]},"board":{{"height":{board["height"]},'
        f'"width":{board["width"]},"food":{text_of(board["food"])},'
        f'"hazards":{text_of(board.get("hazards", []))},'
        f'"snakes":[{snakes}]}},"you":'
    )
    return [f"{shared}{texts[name]}}}".encode() for name in names]
