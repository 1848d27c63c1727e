"""Ladders with hazards: their lines, their checks, and royale played by eight bots, with kills."""

from __future__ import annotations

import json
import os
import shutil
import signal
from collections.abc import Callable
from pathlib import Path
from typing import Any

import pytest
from served import (
    SMALL,
    Served,
    bytes_played,
    children_of,
    complaints,
    files_of,
    run_ladder,
    standings_without_times,
    start_play,
    write_config,
)
from test_kills import wait_for

from arena_client import PLAN_WITH_HAZARDS
from arena_ladder.game.config import config_of
from arena_ladder.game.game import opening
from arena_ladder.game.map_moves import map_members
from arena_ladder.game.maps import Ground, HazardMap
from arena_ladder.game.pairing import Fixture
from arena_ladder.game.starts import Cell

NAME = "r0001-t001"
BOTS = [{"name": name, "url": f"http://127.0.0.1:8001/{name}"} for name in SMALL]
FIXTURE = Fixture(NAME, 1, ("seeker", "fleer"))
GAMES = 4
EVERY = 7
# The line that began the game of this name with seed 1 before the ladder had hazards.
PLAIN = (
    b'{"game":"r0001-t001","do":"new","mode":"standard","width":11,"height":11,"snakes":'
    b'[{"id":"seeker","x":9,"y":1},{"id":"fleer","x":1,"y":1}],"food":[{"x":8,"y":0},'
    b'{"x":2,"y":0},{"x":5,"y":5}],"min_food":1,"food_chance":15}\n'
)


def row(y: int) -> set[Cell]:
    return {Cell(x, y) for x in range(7)}


def column(x: int) -> set[Cell]:
    return {Cell(x, y) for y in range(7)}


def test_sides_move_in_as_drawn() -> None:
    """The last bytes of the first eight of SHA-256 of 1/r0001-t001/sides/0 and so on are da, 4d,
    74, 32 and d7. Modulo 4 they are 2, 1, 0, 2, 3: the bottom, the right, the left, the bottom
    and the top."""
    ground = Ground(7, 7, HazardMap(damage=14, shrink_every=EVERY), seed=1, game=NAME)
    found = {turn + 1: ground.hazards_after(turn) for turn in range(5 * EVERY)}
    changes = {turn: set(cells) for turn, cells in found.items() if cells is not None}
    sides = [row(0), column(6), column(0), row(1), row(6)]
    assert changes == {EVERY * at: set().union(*sides[:at]) for at in range(1, 6)}
    assert all(cells is None or len(cells) == len(set(cells)) for cells in found.values())


def test_at_last_all_cells_are_outside() -> None:
    ground = Ground(3, 4, HazardMap(damage=14, shrink_every=1), seed=1, game=NAME)
    found = [ground.hazards_after(turn) for turn in range(200)]
    changes = [len(cells) for cells in found if cells is not None]
    assert changes == sorted(set(changes)) and changes[-1] == 12
    assert found[: len(changes)] == [cells for cells in found if cells is not None]


def config(**members: Any) -> Any:
    return config_of({"folder": "x", "bot": BOTS, "seed": 1, **members}, "here")


def test_lines_of_a_fixed_map() -> None:
    fixed = config(hazards=[[3, 4], [0, 10], [3, 4]], hazard_damage=7)
    admit, begin = opening(fixed, FIXTURE)
    plain = opening(config(), FIXTURE)
    given = b',"hazards":[{"x":3,"y":4},{"x":0,"y":10},{"x":3,"y":4}],"hazard_damage":7}\n'
    assert (admit, begin) == (plain[0], plain[1].removesuffix(b"}\n") + given)
    assert [map_members(fixed, NAME, turn) for turn in range(100)] == [{}] * 100


def test_lines_of_royale() -> None:
    royale = config(map="royale", shrink_every=2, width=3, height=3)
    begin = opening(royale, FIXTURE)[1]
    assert begin.endswith(b',"hazards":[],"hazard_damage":14}\n')
    bottom = [{"x": x, "y": 0} for x in range(3)]
    assert [map_members(royale, NAME, turn) for turn in (0, 1, 2)] == [{}, {"hazards": bottom}, {}]


def test_ladder_without_a_map_writes_what_it_wrote(
    program: Path, small_bots: Served, tmp_path: Path
) -> None:
    """Its lines are those of the ladder before it had hazards: the opening is the one that was
    written then, and no other line has further members."""
    admit, begin = opening(config(), FIXTURE)
    assert admit == b'{"game":"r0001-t001","do":"admit","quota":1835007}\n'
    assert begin == PLAIN
    path = write_config(
        tmp_path / "plain.toml",
        [(name, small_bots.url(name)) for name in SMALL],
        **{"folder": str(tmp_path / "results"), "turns": 40, "timeout": 5000, "seed": 1},
    )
    ran = run_ladder("play", path, "--program", program)
    assert (ran.returncode, complaints(ran.stderr)) == (0, "")
    for text in files_of(tmp_path / "results").values():
        plan, _, begin, *moves, leave = text.splitlines(keepends=True)
        assert plan == b'{"games":[],"version":3}\n'
        assert list(json.loads(begin)) == list(json.loads(PLAIN))
        assert {tuple(json.loads(move)) for move in moves} == {("game", "do", "moves", "words")}
        assert tuple(json.loads(leave)) == ("game", "do")


def royale_in(folder: Path, bots: Served) -> Path:
    """Two rounds of royale on small boards, in which eight bots play at two tables."""
    names = [*SMALL, "seeker2", "fleer2", "careful2"]
    return write_config(
        folder / "royale.toml",
        [(name, bots.url(name.rstrip("2"))) for name in names],
        **{"folder": str(folder / "results"), "map": "royale", "shrink_every": EVERY, "seed": 1},
        **{"pairing": "tables", "rounds": 2, "turns": 80, "timeout": 5000, "width": 9, "height": 9},
    )


@pytest.fixture(scope="module")
def royale(program: Path, small_bots: Served, tmp_path_factory: pytest.TempPathFactory) -> Path:
    """The results of the games of royale."""
    folder = tmp_path_factory.mktemp("royale")
    ran = run_ladder("play", royale_in(folder, small_bots), "--program", program)
    assert (ran.returncode, complaints(ran.stderr)) == (0, "")
    return folder / "results"


def moves_in(text: bytes) -> list[dict[str, Any]]:
    commands = [json.loads(line) for line in text.splitlines()[1:]]
    return [command for command in commands if command["do"] == "move"]


def test_royale_is_played_and_checked(program: Path, royale: Path) -> None:
    checked = run_ladder("check", royale, "--program", program)
    assert checked.stdout == f"{GAMES} of {GAMES} games agree\n"
    for text in files_of(royale).values():
        assert text.startswith(PLAN_WITH_HAZARDS)
        moves = moves_in(text)
        given = [turn for turn, move in enumerate(moves, 1) if "hazards" in move]
        assert given == list(range(EVERY, len(moves) + 1, EVERY))
        sizes = [len(move["hazards"]) for move in moves if "hazards" in move]
        assert sizes == sorted(set(sizes)) and sizes[0] == 9
    base = standings_without_times(royale)
    assert sum(row["games"] for row in base) == GAMES * 4


Tamper = Callable[[bytes], bytes]
TAMPERED: list[tuple[str, Tamper, str]] = [
    ("a hazard", lambda text: text.replace(b'"hazards":[{"x":', b'"hazards":[{"x":1', 1), "drawn"),
    ("a damage", lambda text: text.replace(b'"hazard_damage":1', b'"hazard_damage":', 1), "begin"),
    ("no hazards", lambda text: text.replace(b'"hazards":[{', b'"hazard":[{', 1), "drawn"),
    ("food", lambda text: text.replace(b'"do":"move",', b'"do":"move","food":[],', 1), "drawn"),
    ("late", lambda text: text.replace(b'"do":"move",', b'"do":"move","hazards":[],', 1), "drawn"),
    ("a version", lambda text: text.replace(b'"version":5', b'"version":3', 1), "begin"),
]


@pytest.mark.parametrize(("what", "tamper", "why"), TAMPERED, ids=[row[0] for row in TAMPERED])
def test_changed_hazards_are_found(
    program: Path, royale: Path, tmp_path: Path, what: str, tamper: Tamper, why: str
) -> None:
    folder = tmp_path / "results"
    shutil.copytree(royale, folder)
    path = folder / "games" / f"{NAME}.jsonl"
    changed = tamper(path.read_bytes())
    assert changed != path.read_bytes()
    path.write_bytes(changed)
    checked = run_ladder("check", folder, "--program", program)
    first, last = checked.stdout.splitlines()
    assert first.startswith(f"{NAME}: ") and why in first
    assert (checked.returncode, last) == (1, f"{GAMES - 1} of {GAMES} games agree")


@pytest.mark.parametrize("what", ["ladder", "host"])
def test_royale_that_is_killed_goes_on(
    program: Path, small_bots: Served, royale: Path, tmp_path: Path, what: str
) -> None:
    path = royale_in(tmp_path, small_bots)
    half = bytes_played(royale) // 2
    process = start_play(path, program)
    wait_for(process, lambda: bytes_played(tmp_path / "results") > half)
    (host,) = children_of(process.pid)
    os.kill(process.pid if what == "ladder" else host, signal.SIGKILL)
    process.communicate()
    again = run_ladder("play", path, "--program", program)
    assert (again.returncode, complaints(again.stderr)) == (0, "")
    assert files_of(tmp_path / "results") == files_of(royale)
    assert standings_without_times(tmp_path / "results") == standings_without_times(royale)
    checked = run_ladder("check", tmp_path / "results", "--program", program)
    assert checked.stdout == f"{GAMES} of {GAMES} games agree\n"
