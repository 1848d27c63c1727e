# Games that come and go: stays of one name are shown separately, refused admissions are listed.
import json
from collections.abc import Callable
from pathlib import Path
from typing import Any

from testing.chromium import Browser
from testing.made import text
from testing.page import CASES, Page
from testing.reading import Game, read
from testing.served import ROOT
from testing.test_boards import expected
from testing.test_games import row_of, sorted_by

EXAMPLES = ROOT / "examples"
STAYS = EXAMPLES / "stays.transcript"
NEXT, BEFORE = "n", "p"
# Each refusal of an `admit` or `leave` line, with its `why`.
REFUSALS = [("A1", "admit"), ("A2", "open"), ("A3", "games"), ("A4", "pool"), ("A5", "none")]


def section(case: str, game: str, name: str) -> list[str]:
    """The lines of a game of an example, under another name."""
    lines = [
        json.loads(line) for line in (EXAMPLES / f"{case}.transcript").read_text().splitlines()
    ]
    return [text({**line, "game": name}) for line in lines if line.get("game") == game]


def four_stays(make_file: Callable[[str, str], Path]) -> Path:
    """A transcript in which a game has three stays with different boards, and another game has
    one stay between them."""
    lines = section("quota_of_two_records", "a", "b")
    lines += section("first_file", "a", "b stay 1")
    lines += section("first_file", "a", "b")
    lines += section("new_twice_and_end", "a", "b")
    lines += [
        text({"line": line, "no": code, "why": why}) for line, (code, why) in enumerate(REFUSALS, 2)
    ]
    return make_file("four_stays.transcript", "\n".join(lines) + "\n")


def opened(page: Page, path: Path) -> Any:
    page.open_empty()
    page.choose(path)
    assert (page.state(), page.text("#notice")) == ("open", "")
    return read(path)


def shows(page: Page, browser: Browser, game: Game) -> None:
    assert (page.text("#name"), page.text("#stay")) == (game.name, game.stay_text())
    marked = browser.run("return {...document.querySelector('#games [aria-current]').dataset}")
    assert marked == {"game": game.name, "stay": str(game.stay)}


def test_the_case_of_stays_is_among_the_cases(page: Page) -> None:
    assert STAYS in CASES
    games, strays = opened(page, STAYS)
    assert [(game.name, game.stay) for game in games] == [("a", 1), ("b", 1), ("c", 1), ("b", 2)]
    assert [row[0] for row in page.games()] == ["a", "bstay 1", "c", "bstay 2"]
    assert [stray["no"] for stray in strays] == ["A4", "L2", "A2", "A1", "A5"]


def test_each_stay_has_its_row_and_its_boards(
    page: Page, browser: Browser, make_file: Callable[[str, str], Path]
) -> None:
    games, _ = opened(page, four_stays(make_file))
    assert [(game.name, game.stay) for game in games] == [
        ("b", 1),
        ("b stay 1", 1),
        ("b", 2),
        ("b", 3),
    ]
    assert page.games() == [row_of(game) for game in games]
    for game in [*games, games[0]]:
        page.choose_game(game.name, game.stay)
        shows(page, browser, game)
        for number, boards in enumerate(game.rounds, 1):
            if len(game.rounds) > 1:
                page.choose_round(number)
            page.wait_for_turn(0, len(boards) - 1)
            assert page.board() == expected(boards[0], len(boards) - 1)
        assert len(page.texts("#refusals li")) == len(game.refusals)


def test_stays_of_one_name_keep_their_order_where_they_are_sorted(
    page: Page, browser: Browser, make_file: Callable[[str, str], Path]
) -> None:
    games, _ = opened(page, four_stays(make_file))
    for order in ("ascending", "descending"):
        browser.click("th[data-column=name] button")
        assert page.games() == [
            row_of(game) for game in sorted_by(games, "name", order == "descending")
        ]


def test_keys_go_from_stay_to_stay(
    page: Page, browser: Browser, make_file: Callable[[str, str], Path]
) -> None:
    games, _ = opened(page, four_stays(make_file))
    for key, order in ((NEXT, games[1:]), (BEFORE, games[-2::-1])):
        for game in order:
            browser.press(key)
            browser.wait(
                "return document.getElementById('stay').textContent === arguments[0]",
                game.stay_text(),
            )
            shows(page, browser, game)


def test_an_address_names_a_stay(
    page: Page, browser: Browser, make_file: Callable[[str, str], Path]
) -> None:
    path = four_stays(make_file)
    for fragment, game in (
        ("game=b", 0),
        ("game=b&stay=2&turn=1", 2),
        ("game=b&stay=3&round=2", 3),
    ):
        page.open_empty(f"#{fragment}")
        page.choose(path)
        assert page.text("#notice") == ""
        wanted = read(path)[0][game]
        browser.wait(
            "return document.getElementById('stay').textContent === arguments[0]",
            wanted.stay_text(),
        )
        shows(page, browser, wanted)
    for fragment, notice in (
        ("game=b&stay=4", "The game b has no stay 4."),
        ("game=b&stay=0", "The game b has no stay 0."),
        ("game=b&stay=x", "The game b has no stay x."),
        ("game=z&stay=2", "The transcript has no game z."),
        ("game=b&stay=2&turn=9", "The game b has no turn 9 in round 1."),
    ):
        page.open_empty(f"#{fragment}")
        page.choose(path)
        assert page.text("#notice") == notice


def test_the_address_of_a_turn_leads_back_to_its_stay(
    page: Page, browser: Browser, make_file: Callable[[str, str], Path]
) -> None:
    games, _ = opened(page, four_stays(make_file))
    page.choose_game("b", 2)
    page.wait_for_turn(0, len(games[2].rounds[0]) - 1)
    assert browser.run("return document.getElementById('link').href").endswith(
        "#game=b&stay=2&round=1&turn=0"
    )
    page.choose_game("b", 1)
    page.wait_for_turn(0, len(games[0].rounds[0]) - 1)
    assert browser.run("return document.getElementById('link').href").endswith(
        "#game=b&round=1&turn=0"
    )


def test_refused_admissions_are_among_the_stray_lines(
    page: Page, make_file: Callable[[str, str], Path]
) -> None:
    opened(page, four_stays(make_file))
    shown = page.texts("#strays li")
    assert len(shown) == len(REFUSALS)
    for line, (item, (code, why)) in enumerate(zip(shown, REFUSALS), 2):
        assert f"line {line} of the command file: {code} {why}, " in item
        assert "undefined" not in item


def test_two_thousand_stays(
    page: Page, browser: Browser, make_file: Callable[[str, str], Path]
) -> None:
    lines = [
        text({"board": None, "charge": 0, "final": True, "game": f"g{at % 64}"})
        for at in range(2_000)
    ]
    games, _ = opened(page, make_file("many.transcript", "\n".join(lines) + "\n"))
    assert page.games() == [row_of(game) for game in games]
    page.choose_game("g15", 32)
    shows(page, browser, games[15 + 64 * 31])
