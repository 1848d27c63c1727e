"""Tests of configurations: the accepted ones, and the reasons of refusals."""

from __future__ import annotations

import json
from pathlib import Path
from typing import Any

import pytest

from arena_client import PLAN, PLAN_WITH_HAZARDS
from arena_ladder.game.config import (
    ConfigFault,
    Rules,
    config_from_identity,
    config_of,
    read_config,
)
from arena_ladder.game.maps import HazardMap
from arena_ladder.game.starts import Cell

BOTS = [{"name": f"bot{at}", "url": f"http://127.0.0.1:80{at:02}/"} for at in range(8)]


def table(**members: Any) -> dict[str, Any]:
    return {"folder": "out/x", "bot": BOTS, **members}


def test_what_is_left_out_is_usual() -> None:
    config = config_of(table(), "here")
    assert config.rules == Rules("standard", 11, 11, 1, 15, 10_000)
    assert (config.pairing, config.snakes, config.rounds) == ("round_robin", 2, 1)
    assert (config.at_once, config.games_a_bot) == (16, 2)
    assert (config.timeout, config.has_seed) == (500, False)
    assert config.bots[3].url == "http://127.0.0.1:8003"
    assert config_of(table(pairing="tables"), "here").snakes == 4
    assert config_of(table(mode="solo"), "here").snakes == 1


@pytest.mark.parametrize(
    ("members", "why"),
    [
        ({"width": 2}, "width is 2, and has to be a number from 3 to 25"),
        ({"rounds": True}, "rounds is True"),
        ({"rounds": 1.0}, "rounds is 1.0"),
        ({"mode": "royale"}, "mode is 'royale', and has to be one of standard, solo"),
        ({"mode": ["solo"]}, "mode is"),
        ({"snakes": 1}, "snakes is 1, and has to be a number from 2 to 8"),
        ({"snakes": 9}, "snakes is 9"),
        ({"width": 3, "height": 3, "snakes": 5}, "snakes is 5, and has to be a number from 2 to 4"),
        ({"pairing": "duels", "snakes": 4}, "duels: a game has 2 snakes"),
        ({"at_once": 65}, "at_once is 65"),
        ({"games_a_bot": 0}, "games_a_bot is 0, and has to be a number from 1 to 64"),
        ({"sead": 4}, "no such member: sead"),
        ({"folder": ""}, "folder is missing or not a text"),
        ({"bot": []}, "1 to 200 tables"),
        ({"bot": BOTS[:1]}, "a game of 2 snakes wants as many bots"),
        ({"bot": [BOTS[0], BOTS[0]]}, "two bots are named bot0"),
        ({"bot": [{**BOTS[0], "key": 1}]}, "no such member: key"),
        ({"bot": [{**BOTS[0], "name": "../up"}]}, "the name '../up' is not"),
        ({"bot": [{**BOTS[0], "name": "<b>"}]}, "the name '<b>' is not"),
        ({"bot": [{**BOTS[0], "name": "x" * 33}]}, "is not 1 to 32 letters"),
        ({"bot": [{**BOTS[0], "name": "a\n"}]}, "is not 1 to 32 letters"),
        ({"bot": [{**BOTS[0], "url": "file:///etc/passwd"}]}, "is no address"),
        ({"bot": [{**BOTS[0], "url": "http://"}]}, "is no address"),
        ({"bot": [{**BOTS[0], "url": "http://a:99999/"}]}, "is no address"),
        ({"bot": [{**BOTS[0], "url": "http://a/?x=1"}]}, "is no address"),
        ({"bot": [{**BOTS[0], "url": "http://a/ b"}]}, "is no address"),
        ({"map": "hz_rivers"}, "map is 'hz_rivers', and has to be one of standard, royale"),
        ({"map": "royale", "shrink_every": 0}, "shrink_every is 0"),
        ({"map": "royale", "shrink_every": 10_001}, "shrink_every is 10001"),
        ({"map": "royale", "hazard_damage": 101}, "hazard_damage is 101"),
        ({"map": "royale", "hazards": [[1, 1]]}, "the map royale has hazards of its own"),
        ({"shrink_every": 25}, "no such member: shrink_every"),
        ({"bot": [{"name": "a", "url": "https://h", "verify": 1}]}, "verify is 1, and has to be"),
        ({"bot": [{"name": "a", "url": "https://h", "ca": "/no/ca"}]}, "ca is '/no/ca', and can't"),
        ({"hazard_damage": 14}, "no such member: hazard_damage"),
        ({"hazards": [[1, 1]], "shrink_every": 25}, "no such member: shrink_every"),
        ({"hazards": []}, "hazards has to be a list of 1 to 2500 cells [x, y]"),
        ({"hazards": [[1, 1]] * 2501}, "hazards has to be a list of 1 to 2500 cells"),
        ({"hazards": {"x": 1}}, "hazards has to be a list"),
        ({"hazards": [[11, 0]]}, "[11, 0] in hazards is no cell [x, y] of the board"),
        ({"hazards": [[0, -1]]}, "[0, -1] in hazards is no cell"),
        ({"hazards": [[0, True]]}, "[0, True] in hazards is no cell"),
        ({"hazards": [[0]]}, "[0] in hazards is no cell"),
        ({"hazards": [1]}, "1 in hazards is no cell"),
    ],
)
def test_faults_are_reported(members: dict[str, Any], why: str) -> None:
    with pytest.raises(ConfigFault, match="^here: ") as fault:
        config_of(table(**members), "here")
    assert why in str(fault.value)


def test_unreadable_file_is_reported(tmp_path: Path) -> None:
    path = tmp_path / "x.toml"
    with pytest.raises(ConfigFault, match="No such file"):
        read_config(path)
    path.write_text("folder = ")
    with pytest.raises(ConfigFault, match="x.toml: "):
        read_config(path)


def test_identity_is_what_decides_the_games() -> None:
    config = config_of(table(rounds=3), "here")
    same = config_of(
        table(rounds=9, at_once=2, games_a_bot=1, bot=[{**it, "url": "http://b"} for it in BOTS]),
        "",
    )
    assert same.identity == config.identity
    assert config_of(table(seed=0), "").identity != config.identity
    assert config_of(table(seed=2), "").letters != config.letters == same.letters
    assert config_of(table(timeout=100), "").identity != config.identity
    assert config_from_identity(config.identity, Path("x"), 3).identity == config.identity
    with pytest.raises(ConfigFault, match="earlier version"):
        config_from_identity({**config.identity, "order": None}, Path("x"), 3)


def test_maps_with_hazards() -> None:
    plain = config_of(table(map="standard"), "here")
    assert (plain.rules.hazards, plain.rules.plan) == (None, PLAN)
    assert "hazards" not in plain.identity["rules"]
    royale = config_of(table(map="royale"), "here")
    assert royale.rules.hazards == HazardMap(damage=14, shrink_every=25)
    assert royale.rules.plan == PLAN_WITH_HAZARDS
    most = [[10, 10]] * 2_500
    fixed = config_of(table(hazards=most, hazard_damage=100), "here")
    assert fixed.rules.hazards == HazardMap(damage=100, cells=(Cell(10, 10),) * 2_500)
    for config in (royale, fixed):
        identity = json.loads(json.dumps(config.identity))
        assert identity == config.identity != plain.identity
        again = config_from_identity(identity, config.folder, config.rounds)
        assert again.rules == config.rules


def test_the_example_can_be_read() -> None:
    config = read_config(Path(__file__).parent.parent / "five.toml")
    assert len(config.bots) == 5
