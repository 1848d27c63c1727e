# Compares the table of games and the lists below it with the transcript.
import re
from collections.abc import Callable
from pathlib import Path
from typing import Any

import pytest
from testing.chromium import Browser
from testing.made import text, write_large
from testing.page import CASES, Page, TOURNAMENT, stem_of
from testing.reading import Game, read

COLUMNS = ["name", "state", "living", "turns", "rounds", "refused", "charge"]


def number(value: int | None) -> str:
    return "–" if value is None else f"{value:,}"


def row_of(game: Game) -> list[Any]:
    board = game.last_board()
    return [
        game.name + game.stay_text(),
        game.state(),
        game.living() or ("nobody" if board else "–"),
        number(board["turn"] if board else None),
        number(len(game.rounds)),
        number(len(game.refusals)),
        number(game.charge),
    ]


def sorted_by(games: list[Game], column: str, is_descending: bool) -> list[Game]:
    keys: dict[str, Callable[[Game], Any]] = {
        "name": lambda game: [
            (0, int(word), "") if word.isdigit() else (1, 0, word.casefold())
            for word in re.findall(r"\d+|\D+", game.name)
        ],
        "state": lambda game: game.state(),
        "living": lambda game: len(game.living()),
        "turns": lambda game: game.rounds[-1][-1]["turn"] if game.rounds else -1,
        "rounds": lambda game: len(game.rounds),
        "refused": lambda game: len(game.refusals),
        "charge": lambda game: game.charge,
    }
    return sorted(games, key=keys[column], reverse=is_descending)


@pytest.mark.parametrize("path", CASES, ids=stem_of)
def test_each_game_of_each_file_has_its_row(page: Page, path: Path) -> None:
    page.open_empty()
    page.choose(path)
    games, _ = read(path)
    assert page.games() == [row_of(game) for game in games]


def test_a_press_on_a_head_sorts_and_a_second_turns_the_order_round(
    page: Page, browser: Browser, make_file: Callable[[str, str], Path]
) -> None:
    for path, columns in ((TOURNAMENT, COLUMNS), (numbered_games(make_file), ["name"])):
        page.open_empty()
        page.choose(path)
        games, _ = read(path)
        for column in columns:
            for order in ("ascending", "descending"):
                browser.click(f"th[data-column={column}] button")
                assert (
                    browser.run(
                        "return document.querySelector(arguments[0]).ariaSort",
                        f"th[data-column={column}]",
                    )
                    == order
                )
                assert page.games() == [
                    row_of(game) for game in sorted_by(games, column, order == "descending")
                ], (column, order)


def numbered_games(make_file: Callable[[str, str], Path]) -> Path:
    """A transcript of games that were never begun, named by numbers in no sorted order."""
    lines = [
        text({"board": None, "charge": 0, "final": True, "game": f"game {number}"})
        for number in (10, 9, 100, 1)
    ]
    return make_file("numbered.transcript", "\n".join(lines) + "\n")


def test_refused_commands_and_strays_are_listed(page: Page) -> None:
    page.open_empty()
    page.choose(TOURNAMENT)
    games, strays = read(TOURNAMENT)
    assert len(page.texts("#strays li")) == len(strays)
    for shown, stray in zip(page.texts("#strays li"), strays):
        assert f"line {stray['line']} of the command file: {stray['no']} {stray['why']}" in shown
    for game in games:
        page.choose_game(game.name, game.stay)
        items = page.texts("#refusals li")
        assert len(items) == len(game.refusals), game.name
        for shown, (line, round_number, turn) in zip(items, game.refusals):
            assert f"number {line['seq']}: {line['no']} {line['why']}" in shown
            assert (
                "before the first new"
                if turn is None
                else f"after turn {turn} of round {round_number}"
            ) in shown


def test_a_refused_command_leads_to_its_turn(page: Page, browser: Browser) -> None:
    page.open_empty()
    page.choose(TOURNAMENT)
    games, _ = read(TOURNAMENT)
    game = max(games, key=lambda game: len(game.rounds))
    page.choose_game(game.name)
    assert len(game.refusals) > 2
    page.wait_for_turn(0, len(game.rounds[0]) - 1)
    for index, (_, round_number, turn) in enumerate(game.refusals):
        browser.click(f"#refusals li:nth-child({index + 1}) .place")
        page.wait_for_turn(turn, len(game.rounds[round_number - 1]) - 1)


def test_a_long_list_is_shown_in_parts(
    page: Page, browser: Browser, make_file: Callable[[str, str], Path]
) -> None:
    lines = [text({"line": line, "no": "L1", "why": "json"}) for line in range(2, 502)]
    page.open_empty()
    page.choose(make_file("strays.transcript", "\n".join(lines) + "\n"))
    for shown in (200, 400, 500):
        assert len(page.texts("#strays li")) == shown
        assert browser.run("return document.querySelector('#strays .more').hidden") == (
            shown == 500
        )
        if shown < 500:
            browser.click("#strays .more")
    assert "line 501 of" in page.texts("#strays li")[-1]


# Whether the controls are on the page as it is seen, and the chosen row in the list below its head.
IN_SIGHT = """
const { top, bottom } = document.getElementById('controls').getBoundingClientRect();
const list = document.querySelector('.games').getBoundingClientRect();
const head = document.querySelector('#games thead').getBoundingClientRect();
const row = document.querySelector('#games [aria-current]').getBoundingClientRect();
return {
  controls: top >= 0 && bottom <= innerHeight,
  row: row.top >= head.bottom - 1 && row.bottom <= list.bottom + 1,
};
"""


@pytest.mark.parametrize("width", (1400, 1300))
def test_with_many_games_the_controls_and_the_chosen_row_are_in_sight(
    page: Page, browser: Browser, tmp_path: Path, width: int
) -> None:
    path = tmp_path / "many.transcript"
    write_large(path, TOURNAMENT.read_text().splitlines(), "eight", 28, 1)
    browser.resize(width, 800)
    try:
        page.open_empty()
        page.choose(path)
        assert len(page.games()) == 28
        down, up = [("n", row) for row in range(1, 28)], [("p", row) for row in range(26, -1, -1)]
        for key, row in down + up:
            browser.press(key)
            browser.wait(
                "return document.querySelectorAll('#games tbody tr')[arguments[0]].ariaCurrent", row
            )
            assert browser.run(IN_SIGHT) == {"controls": True, "row": True}, (key, row)
    finally:
        browser.restore_size()
