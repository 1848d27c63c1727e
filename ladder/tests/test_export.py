"""Games as the official engine's frames, the list of games, and the unit of systemd."""

from __future__ import annotations

import json
import shutil
import subprocess
from pathlib import Path
from typing import Any

import pytest
from served import HERE, LADDER, Served, run_ladder, write_config

from arena_ladder.game.outcome import SeatResult
from arena_ladder.net.bots import DIRECTIONS
from arena_ladder.results.store import open_store

BOARD = {"height", "width", "food", "hazards", "snakes"}
SNAKE = {
    *("id", "name", "health", "body", "latency", "head", "length", "shout", "squad"),
    "customizations",
}
STEPS = {(0, 1), (0, -1), (1, 0), (-1, 0)}


@pytest.fixture(scope="module")
def played(program: Path, small_bots: Served, tmp_path_factory: pytest.TempPathFactory) -> Path:
    folder = tmp_path_factory.mktemp("export")
    names = ("seeker", "fleer", "lazy")
    config = write_config(
        folder / "x.toml",
        [(name, small_bots.url(name)) for name in names],
        **{"folder": str(folder / "results"), "width": 5, "height": 5},
        **{"turns": 200, "timeout": 5000, "seed": 2},
    )
    ran = run_ladder("play", config, "--program", program)
    assert ran.returncode == 0, ran.stderr
    return folder / "results"


class Frames:
    """Reads a file of the official engine's `--output`: a game, requests, and a result."""

    def __init__(self, text: str) -> None:
        self.game, *self.requests, self.result = map(json.loads, text.splitlines())

    def check_members(self) -> None:
        assert self.game.keys() == {"id", "ruleset", "map", "timeout", "source"}
        assert self.game["ruleset"].keys() == {"name", "version", "settings"}
        assert self.result.keys() == {"winnerId", "winnerName", "isDraw"}
        for turn, request in enumerate(self.requests):
            assert request.keys() == {"game", "turn", "board", "you"}
            assert request["game"] == self.game and request["turn"] == turn
            assert request["board"].keys() == BOARD
            for snake in [request["you"], *request["board"]["snakes"]]:
                assert snake.keys() == SNAKE
                assert snake["head"] == snake["body"][0] and snake["length"] == len(snake["body"])

    def heads(self) -> list[dict[str, tuple[int, int]]]:
        """The heads of the living snakes by turn."""
        return [
            {it["name"]: (it["head"]["x"], it["head"]["y"]) for it in request["board"]["snakes"]}
            for request in self.requests
        ]


def directions_of(path: Path) -> list[dict[str, str]]:
    """The directions in the moves of a command file, turn by turn."""
    commands: list[dict[str, Any]] = [json.loads(line) for line in path.read_text().splitlines()]
    return [it["moves"] for it in commands if it.get("do") == "move"]


def test_frames_are_those_of_the_official_engine(program: Path, played: Path) -> None:
    """They have its members; each head moves as the game's file says, and the winner wins."""
    store = open_store(played)
    outcomes = list(store.outcomes())
    store.close()
    assert any(it.result is SeatResult.WIN for outcome in outcomes for it in outcome.finishes)
    for outcome in outcomes:
        ran = run_ladder("export", played, outcome.name, "--program", program)
        assert (ran.returncode, ran.stderr) == (0, "")
        read = Frames(ran.stdout)
        read.check_members()
        assert len(read.requests) == outcome.turns + 1
        moves = directions_of(played / "games" / f"{outcome.name}.jsonl")
        for before, after, given in zip(read.heads(), read.heads()[1:], moves):
            for name, (x, y) in after.items():
                step = (x - before[name][0], y - before[name][1])
                assert step in STEPS
                assert given[name] == DIRECTIONS[[(0, 1), (0, -1), (-1, 0), (1, 0)].index(step)]
        winners = [it.bot for it in outcome.finishes if it.result is SeatResult.WIN] or [""]
        ids = {it["name"]: it["id"] for it in read.requests[0]["board"]["snakes"]}
        assert read.result == {
            "winnerId": ids.get(winners[0], ""),
            "winnerName": winners[0],
            "isDraw": winners == [""],
        }
        living = set(read.heads()[-1])
        assert living == {it.bot for it in outcome.finishes if it.out is None}


def test_game_that_is_not_done_has_no_frames(program: Path, played: Path) -> None:
    ran = run_ladder("export", played, "../x", "--program", program)
    assert (ran.returncode, ran.stdout) == (1, "")
    assert ran.stderr == f"ladder: {played} has no finished game '../x'\n"


def test_list_of_games_has_two_forms(played: Path) -> None:
    rows = json.loads(run_ladder("games", played, "--json").stdout)
    assert sorted(row["game"] for row in rows) == [f"r0001-t{at:03}" for at in (1, 2, 3)]
    for row, line in zip(rows, run_ladder("games", played).stdout.splitlines()):
        words = line.split()
        assert words[:3] == [row["game"], str(row["turns"]), "turns"]
        assert words[3] == (row["winner"] or "-") and f"({' - '.join(row['bots'])})" in line


def test_unit_is_one_of_systemd(tmp_path: Path) -> None:
    """`systemd-analyze verify` has no complaint, with the path of this clone's command."""
    if shutil.which("systemd-analyze") is None:
        pytest.skip("there is no systemd-analyze")
    text = (HERE.parent / "arena-ladder@.service").read_text()
    assert "/usr/bin/arena-ladder" in text
    unit = tmp_path / "arena-ladder@five.service"
    unit.write_text(text.replace("/usr/bin/arena-ladder", str(LADDER)))
    ran = subprocess.run(["systemd-analyze", "verify", unit], capture_output=True, text=True)
    assert (ran.returncode, ran.stderr) == (0, "")
