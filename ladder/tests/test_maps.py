"""The official maps: their cells, how they move, what a game of each has, and their checks."""

from __future__ import annotations

import asyncio
import json
from collections import Counter
from contextlib import closing
from pathlib import Path
from typing import Any

import pytest
from served import SMALL, Served, files_of, write_config

from arena_ladder.game.config import ConfigFault, config_of, read_config
from arena_ladder.game.game import opening
from arena_ladder.game.game_files import command_file, make_folders
from arena_ladder.game.map_moves import food_after, map_members
from arena_ladder.game.official import MAPS, Terrain
from arena_ladder.game.official.arcade_maze import MAZE
from arena_ladder.game.official.snail_mode import MOST_LAYERS, fitting, next_head
from arena_ladder.game.pairing import Fixture, Part
from arena_ladder.game.payloads import game_text
from arena_ladder.game.starts import Cell
from arena_ladder.results.store import Store
from arena_ladder.run.check import check
from arena_ladder.run.play import Job, play

NAME = "r0001-t001"
FOUR = ("a", "b", "c", "d")
TEN = (
    *("hz_islands_bridges", "arcade_maze", "castle_wall", "hz_rings", "hz_columns"),
    *("rivers_and_bridges", "sinkholes", "hz_spiral", "hz_scatter", "snail_mode", "hz_hazard_pits"),
)


def config(board_map: str, **members: Any) -> Any:
    bots = [{"name": name, "url": "http://127.0.0.1:1"} for name in FOUR]
    return config_of({"folder": "x", "bot": bots, "map": board_map, "seed": 1, **members}, "here")


def terrain_of(board_map: str, side: int = 11, seed: int = 1) -> Terrain:
    width, height = MAPS[board_map].sides or (side, side)
    return Terrain(width, height, MAPS[board_map].every, seed, NAME)


def picture(cells: list[Cell], side: int) -> list[str]:
    """The number of layers of each cell, the top row first."""
    layers = Counter(cells)
    rows = ("".join(str(layers[Cell(x, y)] or ".") for x in range(side)) for y in range(side))
    return [*rows][::-1]


def test_maps_that_people_play_are_there() -> None:
    assert set(TEN) <= set(MAPS)
    assert json.loads(game_text(config("castle_wall"), NAME))["map"] == "hz_castle_wall"
    settings = json.loads(game_text(config("sinkholes"), NAME))["ruleset"]["settings"]
    assert settings["royale"] == {"shrinkEveryNTurns": 10}


def test_cells_of_maps_that_stay() -> None:
    rings = picture(MAPS["hz_rings"].first(terrain_of("hz_rings", 11)), 11)
    assert rings[0] == rings[-1] == "." * 11 and rings[1] == ".111111111."
    assert [row[2:-2] for row in rings[2:-2]] == [
        *(".......", ".11111.", ".1...1.", ".1...1.", ".1...1.", ".11111.", ".......")
    ]
    columns = picture(MAPS["hz_columns"].first(terrain_of("hz_columns", 5)), 5)
    assert columns == [".....", ".1.1.", ".....", ".1.1.", "....."]
    wall = picture(MAPS["hz_inner_wall"].first(terrain_of("hz_inner_wall", 7)), 7)
    assert wall == [".......", ".......", "..111..", "..1.1..", "..111..", ".......", "......."]
    castle = picture(MAPS["castle_wall"].first(terrain_of("castle_wall")), 11)
    assert castle[2] == castle[8] == "..112.211.." and castle[5] == "." * 11


@pytest.mark.parametrize("name", [it for it in MAPS if MAPS[it].starts])
def test_starting_cells_are_free_and_different(name: str) -> None:
    board_map = MAPS[name]
    hazards = set(board_map.first(terrain_of(name)))
    cells = [cell for cells in board_map.starts for cell in cells]
    assert len(cells) == len(set(cells)) >= 4 and not hazards & set(cells)
    with pytest.raises(ConfigFault, match="wants a board of"):
        config(name, width=12)


def test_maze_is_joined() -> None:
    """Each free cell can be reached from each other one, and all rows are as wide."""
    assert {len(row) for row in MAZE} == {19} and len(MAZE) == 21
    walls = set(MAPS["arcade_maze"].first(terrain_of("arcade_maze")))
    free = {Cell(x, y) for x in range(19) for y in range(21)} - walls
    seen, border = set[Cell](), {min(free)}
    while border:
        seen |= border
        near = ((0, 1), (0, -1), (1, 0), (-1, 0))
        border = {Cell(it.x + x, it.y + y) for it in border for x, y in near} & free - seen
    assert seen == free


def test_pits_fill_stay_and_drain() -> None:
    pits = MAPS["hz_hazard_pits"]
    found = [pits.at(terrain_of("hz_hazard_pits"), 25 * at) or [] for at in range(1, 9)]
    assert [len(cells) // 21 for cells in found] == [1, 2, 3, 4, 4, 4, 0, 1]
    assert pits.at(terrain_of("hz_hazard_pits"), 26) is None
    assert not {Cell(1, 1), Cell(9, 9)} & set(found[3])


def test_hole_grows_and_deepens() -> None:
    at = [MAPS["sinkholes"].at(terrain_of("sinkholes", 7), turn) for turn in (0, 1, 2, 11, 31, 41)]
    assert [it is None for it in at] == [True, False, True, False, False, True]
    assert at[1] == [Cell(3, 3)]
    assert picture(at[3] or [], 7)[2:5] == ["...1...", "..121..", "...1..."]
    assert picture(at[4] or [], 7) == [
        *(".11111.", "1122211", "1223221", "1234321", "1223221", "1122211", ".11111.")
    ]


def test_drawn_maps_grow_by_a_cell_and_depend_on_the_seed() -> None:
    for name, every in (("hz_spiral", 3), ("hz_scatter", 2)):
        board_map, found = MAPS[name], []
        for seed in (1, 2):
            terrain = terrain_of(name, 7, seed)
            at = [board_map.at(terrain, turn) for turn in range(1, 50 * every)]
            grown = [cells for cells in at if cells is not None]
            assert [turn for turn, cells in enumerate(at, 1) if cells is not None] == [
                *range(every, 49 * every + 1, every)
            ]
            assert [len(set(cells)) for cells in grown] == list(range(1, 50))
            assert all(more[:-1] == less for less, more in zip(grown, grown[1:]))
            found.append(grown[-1])
        assert found[0] != found[1]
    spiral = MAPS["hz_spiral"].at(terrain_of("hz_spiral"), 27) or []
    x, y = spiral[0]
    assert [(it.x - x, it.y - y) for it in spiral] == [
        *((0, 0), (0, 1), (1, 1), (1, 0), (1, -1), (0, -1), (-1, -1), (-1, 0), (-1, 1))
    ]


def snake_of(name: str, cells: list[tuple[int, int]], **more: Any) -> Any:
    body = [{"x": x, "y": y} for x, y in cells]
    return {"id": name, "body": body, "health": 90, "cause": None, "by": None, "out": None, **more}


def board_of(*snakes: Any, **members: Any) -> Any:
    usual = {"mode": "standard", "width": 7, "height": 7, "turn": 4, "food": [], "hazards": []}
    return {**usual, "snakes": list(snakes), **members}


def test_trail_is_as_thick_as_the_snake_was_long_and_fades() -> None:
    """A tail that stays, as after a meal, leaves none, nor does one whose cell a head enters."""
    trail = [{"x": 0, "y": 0}] * 2 + [{"x": 5, "y": 5}]
    long = snake_of("long", [(2, 1), (1, 1), (1, 2), (2, 2)])
    fed = snake_of("fed", [(6, 6), (6, 5), (6, 5)])
    dead = snake_of("dead", [(4, 4), (4, 5), (4, 6)], cause="hazard", out=3)
    board = board_of(long, fed, dead, hazards=trail)
    assert MAPS["snail_mode"].trailing(board, {"long": "down"}) == [(0, 0), *[(2, 2)] * 4]
    assert MAPS["snail_mode"].trailing(board, {"long": "up"}) == [(0, 0)]
    wrapped = board_of(snake_of("a", [(0, 3), (6, 3), (5, 3)]), mode="wrapped")
    assert next_head(wrapped["snakes"][0], None, wrapped) == (1, 3)
    new = board_of(snake_of("a", [(3, 3)] * 3))
    assert next_head(new["snakes"][0], None, new) == (3, 4)


def test_no_board_has_more_layers_than_the_host_takes() -> None:
    layers = Counter({Cell(x, y): 70 - x - y for x in range(25) for y in range(25)})
    kept = Counter(fitting(layers))
    assert kept.total() == MOST_LAYERS and kept[Cell(0, 0)] == 70 and Cell(24, 24) not in kept


def test_food_lies_on_no_hazard_and_no_head_can_reach_it_at_once() -> None:
    """The ladder places it where walls would hide it; as many as are missing, else by chance."""
    hazards = [{"x": x, "y": y} for x in range(7) for y in range(7) if x > 1]
    board = board_of(snake_of("a", [(0, 0), (0, 1), (0, 2)]), hazards=hazards)
    rules = config("castle_wall", min_food=3, food_chance=0, seed=5)
    small = [food_after(rules, f"r{at:04}-t001", board) for at in range(1, 9)]
    free = {Cell(x, y) for x in (0, 1) for y in range(11)}
    free -= {Cell(0, 0), Cell(0, 1), Cell(0, 2), Cell(1, 0)}
    free |= {Cell(x, y) for x in range(11) for y in range(7, 11)}
    free |= {Cell(x, y) for x in range(7, 11) for y in range(11)}
    assert all(len(set(it)) == 3 and set(it) <= free for it in small)
    assert len({tuple(it) for it in small}) > 1
    full: Any = {**board, "food": [{"x": 1, "y": 5}] * 3}
    assert food_after(rules, NAME, full) == []
    sure = config("castle_wall", min_food=3, food_chance=100, seed=5)
    assert len(food_after(sure, NAME, full)) == 1


def test_opening_of_a_map_has_its_hazards_and_free_food() -> None:
    for name in MAPS:
        _, line = opening(config(name, pairing="tables"), Fixture(NAME, 1, FOUR))
        begin = json.loads(line)
        hazards = {(it["x"], it["y"]) for it in begin["hazards"]}
        assert hazards == set(MAPS[name].first(terrain_of(name)))
        assert begin["hazard_damage"] == (100 if name == "arcade_maze" else 14)
        if MAPS[name].keeps_food_off:
            assert not hazards & {(it["x"], it["y"]) for it in begin["food"]}
            assert (begin["min_food"], begin["food_chance"]) == (0, 0)
            assert len(begin["food"]) == 4


def ladder_on(folder: Path, bots: Served, board_map: str, **members: Any) -> Path:
    """One game of four bots on a map."""
    words: dict[str, Any] = {"folder": str(folder / "results"), "map": board_map, "seed": 3}
    return write_config(
        folder / "map.toml",
        [(name, bots.url(name)) for name in SMALL[:4]],
        **{**words, "pairing": "tables", "turns": 60, "timeout": 5000, **members},
    )


def play_here(path: Path, program: Path) -> None:
    """Plays a ladder in this process."""
    config = read_config(path)
    make_folders(config.folder)
    with closing(Store(config.folder)) as store:
        asyncio.run(play(Job(config, config.folder, Part(1, 1), program), store, []))


def faults_in(folder: Path, program: Path) -> dict[str, str]:
    """What `check` finds in a folder of one game."""
    checked = check(folder, program, lambda _: None)
    assert checked.games == 1
    return checked.faults


@pytest.mark.parametrize("board_map", TEN)
def test_each_map_is_played_and_drawn_again(
    program: Path, small_bots: Served, tmp_path: Path, board_map: str
) -> None:
    play_here(ladder_on(tmp_path, small_bots, board_map), program)
    assert faults_in(tmp_path / "results", program) == {}
    ((_, text),) = files_of(tmp_path / "results").items()
    commands = [json.loads(line) for line in text.splitlines()[2:]]
    given = sum("hazards" in it for it in commands)
    moves = sum(it["do"] == "move" for it in commands)
    every = MAPS[board_map].every or (1 if board_map == "snail_mode" else 0)
    if every == 0:
        assert given == 1, "a map that stays gives its hazards once"
    else:
        assert given - 1 >= moves // every - 1


@pytest.mark.parametrize("board_map", ["snail_mode", "castle_wall"])
def test_changed_hazard_or_food_of_a_map_is_found(
    program: Path, small_bots: Served, tmp_path: Path, board_map: str
) -> None:
    """Also where they depend on the boards, and the lines of the host are made to agree."""
    config_path = ladder_on(tmp_path, small_bots, board_map, food_chance=100)
    play_here(config_path, program)
    folder = tmp_path / "results"
    what = b'"hazards":[{' if board_map == "snail_mode" else b'"food":[{'
    path = command_file(folder, NAME)
    lines = path.read_bytes().splitlines(keepends=True)
    at = next(at for at, line in enumerate(lines) if at > 2 and what in line)
    cell, end = lines[at].index(what), lines[at].index(b"}", lines[at].index(what))
    lines[at] = lines[at][:cell] + what + b'"x":0,"y":0' + lines[at][end:]
    path.write_bytes(b"".join(lines))
    assert "other lines" in faults_in(folder, program)[NAME]
    (folder / "results.sqlite").unlink()  # results that are read from the file agree with it
    play_here(config_path, program)
    why = f"the hazards or the food of the move after turn {at - 3} are not as drawn"
    assert faults_in(folder, program) == {NAME: why}


def test_map_that_stays_gives_nothing_later() -> None:
    rings = config("hz_rings")
    assert [map_members(rings, NAME, turn) for turn in range(50)] == [{}] * 50
    with pytest.raises(ConfigFault, match="hazards of its own"):
        config("hz_rings", hazards=[[1, 1]])
    with pytest.raises(ConfigFault, match="no such member: shrink_every"):
        config("hz_rings", shrink_every=3)
