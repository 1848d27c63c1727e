from __future__ import annotations

# An independent parser of transcripts (docs/FORMATS.md), by Python's JSON. The tests compare the
# page with its result.
import json
from dataclasses import dataclass, field
from pathlib import Path
from typing import Any


@dataclass
class Game:
    name: str
    stay: int = 1
    stays: int = 1  # of the games of that name
    rounds: list[list[dict[str, Any]]] = field(
        default_factory=list
    )  # the boards of each round, by turn
    refusals: list[tuple[Any, ...]] = field(default_factory=list)  # (line, round, turn)
    runs: bool = False
    charge: int = 0

    def stay_text(self) -> str:
        return f"stay {self.stay}" if self.stays > 1 else ""

    def last_board(self) -> dict[str, Any] | None:
        return self.rounds[-1][-1] if self.rounds else None

    def state(self) -> str:
        board = self.last_board()
        if board is None:
            return "not begun"
        if board["over"]:
            return "over"
        return "running" if self.runs else "ended"

    def living(self) -> list[str]:
        board = self.last_board()
        return [snake["id"] for snake in board["snakes"] if snake["cause"] is None] if board else []


def read(path: Path) -> tuple[list[Game], list[Any]]:
    """The stays of the games of a transcript in their order, and its stray lines."""
    games: list[Game] = []
    strays: list[Any] = []
    game: Game | None = None
    for text in path.read_text().splitlines():
        line = json.loads(text)
        if "game" not in line:
            strays.append(line)
            continue
        if game is None:
            game = Game(line["game"], 1 + sum(other.name == line["game"] for other in games))
            games.append(game)
        if "final" in line:
            game.charge = line["charge"]
            game.runs = line["board"] is not None
            game = None
        elif "why" in line:
            turn = game.rounds[-1][-1]["turn"] if game.rounds else None
            game.refusals.append((line, len(game.rounds) or None, turn))
        elif line["do"] == "new":
            game.rounds.append([line["board"]])
        elif line["do"] == "move":
            game.rounds[-1].append(line["board"])
    for game in games:
        game.stays = sum(other.name == game.name for other in games)
    return games, strays
