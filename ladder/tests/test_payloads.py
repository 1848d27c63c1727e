"""Compares the bodies of requests with the members of the official API."""

from __future__ import annotations

import json
from typing import Any

import pytest
from api import NotOfApi, Request, strict

from arena_ladder.game.config import config_of
from arena_ladder.game.payloads import Seat, bodies, game_text, seats_of
from arena_ladder.net.bots import Look

BOARD: Any = {
    "food": [{"x": 5, "y": 5}],
    "food_chance": 15,
    "height": 11,
    "min_food": 1,
    "mode": "standard",
    "over": False,
    "snakes": [
        {
            "body": [{"x": 0, "y": 0}, {"x": 1, "y": 0}, {"x": 2, "y": 0}],
            "by": None,
            "cause": None,
            "health": 54,
            "id": "one",
            "out": None,
        },
        {
            "body": [{"x": 5, "y": 11}, {"x": 5, "y": 10}, {"x": 5, "y": 9}],
            "by": None,
            "cause": "wall-collision",
            "health": 16,
            "id": "two",
            "out": 14,
        },
    ],
    "turn": 14,
    "width": 11,
}


SETTINGS: dict[str, Any] = {
    "foodSpawnChance": 15,
    "minimumFood": 1,
    "hazardDamagePerTurn": 0,
    "hazardMap": "",
    "hazardMapAuthor": "",
    "royale": {"shrinkEveryNTurns": 0},
    "squad": {
        "allowBodyCollisions": False,
        "sharedElimination": False,
        "sharedHealth": False,
        "sharedLength": False,
    },
}


def test_bodies_are_those_of_the_official_api() -> None:
    bots = [{"name": name, "url": "http://127.0.0.1:1"} for name in ("one", "two")]
    config = config_of({"folder": "x", "bot": bots, "timeout": 400}, "here")
    seats = {
        "one": Seat("1", "one", Look("#FF0000", "smart", "curled"), 123, 'why "are" we <shout>??'),
        "two": Seat("2", "two", latency=400),
    }
    found = [
        json.loads(body)
        for body in bodies(game_text(config, "r0001-t001"), BOARD, seats, ["one", "two"])
    ]
    one = {
        "id": "1",
        "name": "one",
        "health": 54,
        "body": [{"x": 0, "y": 0}, {"x": 1, "y": 0}, {"x": 2, "y": 0}],
        "latency": "123",
        "head": {"x": 0, "y": 0},
        "length": 3,
        "shout": 'why "are" we <shout>??',
        "squad": "",
        "customizations": {"color": "#FF0000", "head": "smart", "tail": "curled"},
    }
    assert found[0] == {
        "game": {
            "id": f"{config.letters}-r0001-t001",
            "ruleset": {"name": "standard", "version": "v1.0.0", "settings": SETTINGS},
            "map": "standard",
            "timeout": 400,
            "source": "league",
        },
        "turn": 14,
        "board": {
            "height": 11,
            "width": 11,
            "food": [{"x": 5, "y": 5}],
            "hazards": [],
            "snakes": [one],
        },
        "you": one,
    }
    assert found[1]["board"] == found[0]["board"]
    assert found[1]["you"]["head"] == {"x": 5, "y": 11}
    assert found[1]["you"]["latency"] == "400"


def game_of(**members: Any) -> dict[str, Any]:
    """The member `game` of a ladder with these members."""
    bots = [{"name": name, "url": "http://127.0.0.1:1"} for name in ("one", "two")]
    config = config_of({"folder": "x", "bot": bots, **members}, "here")
    game: dict[str, Any] = json.loads(game_text(config, "r0001-t001"))
    return game


def test_hazards_are_those_of_the_official_api() -> None:
    royale = game_of(map="royale", shrink_every=20, hazard_damage=15)
    assert royale["map"] == "royale"
    settings: dict[str, Any] = {"hazardDamagePerTurn": 15, "royale": {"shrinkEveryNTurns": 20}}
    assert royale["ruleset"]["settings"] == {**SETTINGS, **settings}
    fixed = game_of(hazards=[[1, 1]], hazard_damage=3)
    assert fixed["map"] == "standard"
    assert fixed["ruleset"]["settings"] == {**SETTINGS, "hazardDamagePerTurn": 3}
    cells = [{"x": 1, "y": 1}, {"x": 1, "y": 1}, {"x": 0, "y": 4}]
    seats = {"one": Seat("1", "one"), "two": Seat("2", "two")}
    board: Any = {**BOARD, "hazard_damage": 3, "hazards": cells}
    (body,) = bodies(json.dumps(fixed), board, seats, ["one"])
    assert json.loads(body)["board"]["hazards"] == cells


RULES: list[dict[str, Any]] = [
    {},
    {"mode": "solo", "snakes": 1},
    {"mode": "constrictor"},
    {"mode": "wrapped", "hazards": [[1, 1]]},
    {"map": "royale"},
]


@pytest.mark.parametrize("rules", RULES, ids=[str(it) for it in RULES])
def test_strict_bot_takes_the_requests(rules: dict[str, Any]) -> None:
    """A bot whose models are the documented objects, all members required, takes each body."""
    bots = [{"name": name, "url": "http://127.0.0.1:1"} for name in ("one", "two")]
    config = config_of({"folder": "x", "bot": bots, **rules}, "here")
    seats = seats_of(config, "r0001-t001", ("one", "two"), {"one": Look("#FF0000")})
    board: Any = {**BOARD, "hazards": [{"x": 1, "y": 1}]} if len(rules) > 1 else BOARD
    for body in bodies(game_text(config, "r0001-t001"), board, seats, ["one", "two"]):
        request = strict(Request, json.loads(body))
        assert request.you.customizations.color in ("#FF0000", "#888888")
        assert request.game.ruleset.settings.squad.sharedHealth is False
        for member in ("game", "turn", "board", "you"):
            with pytest.raises(NotOfApi):
                strict(Request, {**json.loads(body), member: None})


def test_ids_of_snakes_are_of_one_game() -> None:
    """A bot that keeps its state by `you.id` does not mix the games that it plays at once."""
    bots = [{"name": name, "url": "http://127.0.0.1:1"} for name in ("one", "two")]
    config = config_of({"folder": "x", "bot": bots}, "here")
    ids = [
        json.loads(body)["you"]["id"]
        for game in ("r0001-t001", "r0002-t001")
        for body in bodies(
            game_text(config, game),
            BOARD,
            seats_of(config, game, ("one", "two"), {}),
            ("one", "two"),
        )
    ]
    assert len(set(ids)) == 4
    assert ids[0] == f"{config.letters}-r0001-t001-one"
