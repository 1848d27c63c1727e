"""What a page says of its ladder: its name, what is played, and how a bot enters."""

from __future__ import annotations

import json
import os
from pathlib import Path
from typing import Any

from arena_ladder.game.config import TOURNAMENTS, Config, rules_from_members
from arena_ladder.results.store import Store
from arena_ladder.texts import printable

ASK = (
    "Ask whoever runs this ladder to add the URL of your bot. It is called by the official API, "
    "version 1: GET /, POST /start, /move and /end."
)
PAIRINGS = {
    "rating": "endless",
    "round_robin": "everybody meets everybody",
    "duels": "drawn pairs",
    "tables": "drawn tables",
    "gauntlet": "one bot against the others",
    "single_elimination": "single elimination",
    "double_elimination": "double elimination",
    "groups": "groups and a final",
    "swiss": "Swiss system",
}


def about_file(folder: Path) -> Path:
    return folder / "about.json"


def write_about(config: Config) -> None:
    """Keeps what the configuration says of the ladder, for pages of the folder alone."""
    path = about_file(config.folder)
    unfinished = path.with_suffix(".unfinished")
    unfinished.write_text(json.dumps({"name": config.name, "enter": config.enter}) + "\n")
    os.replace(unfinished, path)


def about_of(store: Store, folder: Path) -> dict[str, Any]:
    """The name, the facts and the text for authors of a ladder; nobody enters a tournament."""
    try:
        kept = json.loads(about_file(folder).read_text())
        name = printable(str(kept["name"]))
        enter = "\n".join(map(printable, str(kept["enter"]).splitlines()))
    except (OSError, ValueError, LookupError, TypeError):
        name = enter = ""
    identity = store.identity() or {}
    pairing = identity.get("pairing", "")
    ask = "" if pairing in TOURNAMENTS else ASK
    return {
        "name": name or folder.resolve().name,
        "facts": facts_of(identity) if "rules" in identity else [],
        "enter": enter or ask,
        "is_tournament": pairing in TOURNAMENTS,
    }


def facts_of(identity: dict[str, Any]) -> list[str]:
    """What is played, in words."""
    rules = rules_from_members(identity["rules"])
    hazards = rules.hazards
    board_map = "map standard"
    if hazards is not None:
        name = "royale" if hazards.is_royale else hazards.name or "standard with hazards"
        board_map = f"map {name}, hazard damage {hazards.damage}"
    snakes = identity["snakes"]
    return [
        rules.mode,
        board_map,
        f"{rules.width} by {rules.height}",
        "1 snake" if snakes == 1 else f"{snakes} snakes",
        f"{identity['timeout']} ms for a move",
        PAIRINGS.get(identity["pairing"], identity["pairing"]),
    ]
