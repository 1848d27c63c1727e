# Steps through every board of every game and compares it with the transcript; tests the plots.
import json
from collections import Counter
from collections.abc import Callable
from pathlib import Path
from typing import Any

import pytest
from testing.chromium import Browser
from testing.made import points, text
from testing.page import CASES, Page, TOURNAMENT, stem_of
from testing.reading import Game, read
from testing.served import ROOT

FATES = {
    "out-of-health": "out of health",
    "wall-collision": "ran into the wall",
    "snake-self-collision": "ran into itself",
    "snake-collision": "ran into the body of {by}",
    "head-collision": "met the head of {by}",
    "hazard": "hurt by a hazard",
}
MOST_SHADES = 4
LOOKS = {(0, 1): "up", (0, -1): "down", (-1, 0): "left", (1, 0): "right"}


def fate(snake: dict[str, Any]) -> str:
    return (
        "lives"
        if snake["cause"] is None
        else f"out in turn {snake['out']}: {FATES[snake['cause']].format(by=snake['by'])}"
    )


def step(before: dict[str, int], cell: dict[str, int], board: dict[str, Any]) -> tuple[int, ...]:
    """The columns and rows from a cell to another. On a wrapped board a step across an edge counts
    as a step to a neighbour."""
    found = []
    for axis, side in (("x", board["width"]), ("y", board["height"])):
        apart = cell[axis] - before[axis]
        if board["mode"] == "wrapped":
            apart = {1: 1, side - 1: -1}.get(apart % side, 0)
        found.append(apart)
    return tuple(found)


def looks(body: list[dict[str, int]], board: dict[str, Any]) -> str:
    across, up = step(body[1], body[0], board)
    return LOOKS.get((across, up), "nowhere")


def middles(cells: Any, height: int) -> list[Any]:
    """The centres of cells in the picture, without successive repetitions."""
    places = [[cell["x"] + 0.5, height - cell["y"] - 0.5] for cell in cells]
    return [place for index, place in enumerate(places) if index == 0 or place != places[index - 1]]


def line_along(body: list[dict[str, int]], board: dict[str, Any]) -> tuple[list[Any], int]:
    """The points of the path along a body, and the number of its pieces: at an edge that the body
    crosses the path ends, and begins again at the opposite edge."""
    places, pieces = [], 1
    for before, cell in zip([None, *body], body):
        [here] = middles([cell], board["height"])
        if before and (cell["x"], cell["y"]) == (before["x"], before["y"]):
            continue
        if before:
            x, y = step(before, cell, board)
            if (before["x"] + x, before["y"] + y) != (cell["x"], cell["y"]):
                [there] = middles([before], board["height"])
                places += [[there[0] + x / 2, there[1] - y / 2], [here[0] - x / 2, here[1] + y / 2]]
                pieces += 1
        places.append(here)
    return places, pieces


def drawn_snake(seat: int, snake: dict[str, Any], board: dict[str, Any]) -> dict[str, Any]:
    out = snake["cause"] is not None
    cells, pieces = line_along(snake["body"], board)
    return {
        "seat": seat,
        "out": out,
        "crossed": out,
        "cells": cells,
        "pieces": pieces,
        "looks": looks(snake["body"], board),
    }


def drawn_hazards(board: dict[str, Any]) -> list[dict[str, Any]]:
    """The groups of hazards of one shade: how often a cell is in the list, at most four. A cell has
    three lines. The corners are those at the top left."""
    times = Counter((cell["x"], cell["y"]) for cell in board.get("hazards", []))
    groups: dict[int, list[list[int]]] = {}
    for (x, y), count in times.items():
        corner = [x, board["height"] - y - 1]
        groups.setdefault(min(count, MOST_SHADES), []).append(corner)
    return [
        {"shade": shade, "corners": corners, "lines": 3 * len(corners)}
        for shade, corners in sorted(groups.items())
    ]


def legend(board: dict[str, Any]) -> str | None:
    """The words below a board with hazards; None below other boards."""
    damage, shades = board.get("hazard_damage"), [it["shade"] for it in drawn_hazards(board)]
    if damage is None:
        return None
    if not shades:
        return f"No hazards now; one would take {damage} health in each turn"
    taken = [f" {shade * damage} health{' or more' if shade == 4 else ''}" for shade in shades]
    return "A hazard takes in each turn" + "".join(taken)


def expected(board: dict[str, Any], last: int, with_earlier: bool = False) -> dict[str, Any]:
    """What the page has to show for a board of a round that ends with turn `last`."""
    snakes = list(enumerate(board["snakes"]))
    out = [
        (seat, snake)
        for seat, snake in snakes
        if snake["cause"] is not None and (with_earlier or snake["out"] == board["turn"])
    ]
    living = [(seat, snake) for seat, snake in snakes if snake["cause"] is None]
    sides = f"{board['width']} by {board['height']}"
    food = f"food at least {board['min_food']}, chance {board['food_chance']}"
    if "hazards" in board:
        food += f", hazard damage {board['hazard_damage']}"
    return {
        "turn": f"Turn {board['turn']} of {last}",
        "facts": f"{board['mode']}, {sides}, {food}" + (", over" if board["over"] else ""),
        "view": f"-1 -1 {board['width'] + 2} {board['height'] + 2}",
        "food": middles(board["food"], board["height"]),
        "hazards": drawn_hazards(board),
        "legend": legend(board),
        "samples": len(drawn_hazards(board)),
        "snakes": [drawn_snake(seat, snake, board) for seat, snake in out + living],
        "cards": [
            {
                "id": snake["id"],
                "fate": fate(snake),
                "numbers": f"health {snake['health']}, length {len(snake['body'])}",
                "meter": snake["health"],
            }
            for snake in board["snakes"]
        ],
    }


def open(page: Page, path: Path) -> list[Game]:
    page.open_empty()
    page.choose(path)
    return read(path)[0]


def step_through(page: Page, browser: Browser, boards: list[dict[str, Any]]) -> None:
    last = len(boards) - 1
    page.wait_for_turn(0, last)
    for board in boards:
        if board["turn"] > 0:
            browser.click("#forward")
            page.wait_for_turn(board["turn"], last)
        assert page.board() == expected(board, last)


@pytest.mark.parametrize("path", CASES, ids=stem_of)
def test_each_turn_of_each_game_is_drawn(page: Page, browser: Browser, path: Path) -> None:
    for game in open(page, path):
        for number, boards in enumerate(game.rounds, 1):
            page.choose_game(game.name, game.stay)
            if number > 1:
                page.choose_round(number)
            step_through(page, browser, boards)


def boards_of_cases() -> list[dict[str, Any]]:
    """All boards of all cases."""
    rounds = [each for path in CASES for game in read(path)[0] for each in game.rounds]
    return [board for boards in rounds for board in boards]


def test_the_cases_hold_every_cause_and_eight_snakes() -> None:
    boards = boards_of_cases()
    assert {snake["cause"] for board in boards for snake in board["snakes"]} == {None, *FATES}
    assert max(len(board["snakes"]) for board in boards) == 8


def test_the_cases_hold_bodies_that_cross_each_edge() -> None:
    boards = boards_of_cases()
    bodies = [
        (snake["body"], board)
        for board in boards
        if board["mode"] == "wrapped"
        for snake in board["snakes"]
    ]
    crossed = {
        step(before, cell, board)
        for body, board in bodies
        for before, cell in zip(body, body[1:])
        if abs(cell["x"] - before["x"]) + abs(cell["y"] - before["y"]) > 1
    }
    assert crossed == set(LOOKS)


def test_bodies_that_went_out_earlier_are_drawn_where_they_are_wished_for(
    page: Page, browser: Browser
) -> None:
    boards = open(page, TOURNAMENT)[0].rounds[0]
    last = len(boards) - 1
    browser.press("\ue010")
    page.wait_for_turn(last, last)
    browser.click("#earlier")
    assert page.board() == expected(boards[-1], last, with_earlier=True)
    assert expected(boards[-1], last, with_earlier=True) != expected(boards[-1], last)


def with_hazards(
    make_file: Callable[[str, str], Path], **members: Any
) -> tuple[Path, dict[str, Any]]:
    """A file of a solo game that shows one board, in which members are replaced."""
    lines = (ROOT / "examples" / "hazards.transcript").read_text().splitlines()
    first, last = json.loads(lines[0]), json.loads(lines[6])
    board = {**first["board"], **members}
    content = "".join(text({**line, "board": board}) + "\n" for line in (first, last))
    return make_file("hazards.transcript", content), board


def test_a_cell_that_is_a_hazard_more_often_is_darker(
    page: Page, browser: Browser, make_file: Callable[[str, str], Path]
) -> None:
    cells = [(x, 6) for x in range(6) for _ in range(x + 1)]
    path, board = with_hazards(make_file, hazards=points(cells))
    open(page, path)
    page.wait_for_turn(0, 0)
    assert page.board() == expected(board, 0)
    assert [it["shade"] for it in drawn_hazards(board)] == [1, 2, 3, 4]
    for part, property in ((".squares", "fillOpacity"), (".hatch", "strokeOpacity")):
        found = browser.run(
            "return [...document.querySelectorAll('#board ' + arguments[0])].map("
            "(path) => Number(getComputedStyle(path)[arguments[1]]));",
            part,
            property,
        )
        assert found == sorted(set(found)), part


BAD_HAZARDS = [
    {"hazards": points([(7, 0)])},
    {"hazards": points([(0, -1)])},
    {"hazards": points([(0, 0)] * 2_501)},
    {"hazards": {"x": 0, "y": 0}},
    {"hazards": None},
    {"hazard_damage": 101},
    {"hazard_damage": "14"},
]


@pytest.mark.parametrize("members", BAD_HAZARDS, ids=lambda members: str(members)[:40])
def test_bad_hazards_are_reported(
    page: Page, make_file: Callable[[str, str], Path], members: dict[str, Any]
) -> None:
    path, _ = with_hazards(make_file, **members)
    page.open_empty()
    page.choose(path)
    fault = "its hazards are no list of cells with a damage from 0 to 100"
    assert fault in page.text("#notice")


def test_a_game_without_a_board_says_so(page: Page) -> None:
    games = open(page, TOURNAMENT)
    silent = next(game for game in games if not game.rounds)
    page.choose_game(silent.name)
    assert "no board of it" in page.text("#facts")
    assert page.board()["snakes"] == []
    page.choose_game(games[0].name)
    page.wait_for_turn(0, len(games[0].rounds[0]) - 1)
    assert page.board() == expected(games[0].rounds[0][0], len(games[0].rounds[0]) - 1)


def test_a_plot_has_a_point_for_each_turn_until_its_snake_is_out(page: Page) -> None:
    page.open_empty()
    page.choose(TOURNAMENT)
    boards = read(TOURNAMENT)[0][0].rounds[0]
    last = len(boards) - 1
    longest = max(len(snake["body"]) for board in boards for snake in board["snakes"])
    shown = [
        [
            board["snakes"][seat]
            for board in boards
            if board["turn"] <= (boards[-1]["snakes"][seat]["out"] or last)
        ]
        for seat in range(8)
    ]
    page.wait_for_plots()
    for plot, snakes in zip(page.plots(), shown):
        compare(plot["health"], [snake["health"] for snake in snakes], 100, last)
        compare(plot["length"], [len(snake["body"]) for snake in snakes], longest, last)


def compare(points: Any, values: Any, greatest: int, last: int) -> None:
    assert len(points) == len(values)
    for turn, ((x, y), value) in enumerate(zip(points, values)):
        assert x == pytest.approx(turn / last * 240, abs=0.051)
        assert y == pytest.approx(48 * (1 - value / greatest), abs=0.051)
